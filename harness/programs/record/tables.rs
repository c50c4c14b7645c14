//! Cases after the tables of OWL 2 Profiles, section 4.3: for each rule of docs/REFERENCE.md, 6.2, its premises and its conclusion.
//!
//! One-letter words are terms, each variable its own; words with `_` in front are terms of the rdf namespace. Lists have cases of their
//! own, docs/REFERENCE.md, 5.

/// What a case must show.
pub enum Conclusion {
    Triple(&'static str),
    Finding(&'static str),
    /// 0 0 0 in the closure.
    Zero,
}

use Conclusion::{Finding, Triple, Zero};

pub struct Case {
    /// The rule of section 4.3 of OWL 2 Profiles, or what docs/REFERENCE.md has in its place.
    pub name: &'static str,
    /// Its number in docs/REFERENCE.md, 6.2; 0 for a check or a part of the start.
    pub rule: u32,
    pub premises: &'static str,
    pub conclusion: Conclusion,
}

const fn case(name: &'static str, rule: u32, premises: &'static str, conclusion: Conclusion) -> Case {
    Case { name, rule, premises, conclusion }
}

pub const CASES: &[Case] = &[
    // Table 4
    case("eq-sym", 4, "x sameAs y", Triple("y sameAs x")),
    case("eq-trans", 8, "x sameAs y, y sameAs z", Triple("x sameAs z")),
    case("eq-rep-s", 5, "s sameAs t, s p o", Triple("t p o")),
    case("eq-rep-p", 6, "p sameAs q, s p o", Triple("s q o")),
    case("eq-rep-o", 7, "o sameAs q, s p o", Triple("s p q")),
    // Table 5
    case("prp-dom", 2, "p domain c, x p y", Triple("x type c")),
    case("prp-rng", 3, "p range c, x p y", Triple("y type c")),
    case("prp-fp", 9, "p type FunctionalProperty, x p y, x p z", Triple("y sameAs z")),
    case("prp-fp, else zero", 9, "p type FunctionalProperty, x p y, z p w", Zero),
    case("prp-ifp", 10, "p type InverseFunctionalProperty, x p y, z p y", Triple("x sameAs z")),
    case("prp-ifp, one statement", 10, "p type InverseFunctionalProperty, x p y", Triple("x sameAs x")),
    case("prp-irp", 0, "p type IrreflexiveProperty, x p x", Finding("2 p x")),
    case("prp-symp", 18, "p type SymmetricProperty, x p y", Triple("y p x")),
    case("prp-asyp", 0, "p type AsymmetricProperty, x p y, y p x", Finding("3 p x y")),
    case("prp-trp", 19, "p type TransitiveProperty, x p y, y p z", Triple("x p z")),
    case("prp-spo1", 11, "p subPropertyOf q, x p y", Triple("x q y")),
    case("prp-eqp1", 20, "p equivalentProperty q, x p y", Triple("x q y")),
    case("prp-eqp2", 20, "p equivalentProperty q, x q y", Triple("x p y")),
    case("prp-pdw", 0, "p propertyDisjointWith q, x p y, x q y", Finding("4 x y p q")),
    case("prp-inv1", 12, "p inverseOf q, x p y", Triple("y q x")),
    case("prp-inv2", 13, "p inverseOf q, x q y", Triple("y p x")),
    // Table 6
    case("cls-thing", 0, "", Triple("Thing type Class")),
    case("cls-nothing1", 0, "", Triple("Nothing type Class")),
    case("cls-nothing2", 0, "x type Nothing", Finding("5 x")),
    case(
        "cls-int1",
        21,
        "y type c, y type d, e intersectionOf l, l first c, l rest m, m first d, m rest nil",
        Triple("y type e"),
    ),
    case("cls-int1, one class", 21, "y type c, e intersectionOf l, l first c, l rest nil", Triple("y type e")),
    case("cls-int1, nil", 21, "e intersectionOf nil, x p y", Triple("x type e")),
    case("cls-int2", 22, "y type e, e intersectionOf l, l first c, l rest m, m first d, m rest nil", Triple("y type d")),
    case("cls-uni", 23, "y type d, e unionOf l, l first c, l rest m, m first d, m rest nil", Triple("y type e")),
    case("cls-svf1", 27, "r someValuesFrom c, r onProperty p, u p v, v type c", Triple("u type r")),
    case("cls-svf1, else zero", 27, "r someValuesFrom Thing, r onProperty p, u p v, v type c", Zero),
    case("cls-svf2", 28, "r someValuesFrom Thing, r onProperty p, u p v", Triple("u type r")),
    case("cls-svf2, else zero", 28, "r someValuesFrom c, r onProperty p, u p v", Zero),
    case("cls-avf", 26, "r allValuesFrom c, r onProperty p, u type r, u p v", Triple("v type c")),
    case("cls-avf, else zero", 26, "r allValuesFrom c, r onProperty p, u type r", Zero),
    case("cls-hv1", 24, "r hasValue v, r onProperty p, u type r", Triple("u p v")),
    case("cls-hv2", 25, "r hasValue v, r onProperty p, u p v", Triple("u type r")),
    case("cls-hv2, else zero", 25, "r hasValue v, r onProperty p, u p w", Zero),
    // Table 7
    case("cax-sco", 14, "c subClassOf d, x type c", Triple("x type d")),
    case("cax-eqc1", 17, "c equivalentClass d, x type c", Triple("x type d")),
    case("cax-eqc2", 17, "c equivalentClass d, x type d", Triple("x type c")),
    case("cax-dw", 0, "c disjointWith d, x type c, x type d", Finding("1 x c d")),
    // Table 9
    case("scm-sco", 15, "c subClassOf d, d subClassOf e", Triple("c subClassOf e")),
    case("scm-eqc1", 16, "c equivalentClass d", Triple("c subClassOf d")),
    case("scm-eqc1, reversed", 16, "c equivalentClass d", Triple("d subClassOf c")),
    // Not of section 4.3
    case("every subject a Thing", 1, "s p o", Triple("s type Thing")),
    case("rdf:_1", 0, "x _1 y", Triple("x member y")),
    case("rdf:_01", 0, "x _01 y", Triple("_01 type ContainerMembershipProperty")),
    case("rdf:_18446744073709551615", 0, "x _18446744073709551615 y", Triple("_18446744073709551615 type Property")),
];

/// Models in which a conclusion must be missing though every premise is there: the mistakes of docs/REFERENCE.md, 11.3, and near misses.
pub const NEAR: &[Case] = &[
    case("a container property as subject", 0, "_1 p y", Triple("_1 type Property")),
    case("disjointWith reversed", 0, "c disjointWith d, x type c, x type d", Finding("1 x d c")),
    case("propertyDisjointWith reversed", 0, "p propertyDisjointWith q, x p y, x q y", Finding("4 x y q p")),
    case(
        "two lists that end in nil",
        0,
        "e unionOf l, l first c, l rest nil, m first d, m rest nil, y type d",
        Triple("y type e"),
    ),
    case("a list of the closure", 0, "p subPropertyOf first, l p c, e unionOf l, y type c", Triple("y type e")),
    case("cls-int1, nil, an object", 0, "e intersectionOf nil, x p y", Triple("y type e")),
    case("cls-int1, nil, a predicate", 0, "e intersectionOf nil, x p y", Triple("p type e")),
    case("a union of nil", 0, "e unionOf nil, x p y", Triple("x type e")),
    case("cls-com", 0, "c complementOf d, x type c, x type d", Finding("1 x c d")),
    case("scm-eqc2", 0, "c subClassOf d, d subClassOf c", Triple("c equivalentClass d")),
    case("scm-spo", 0, "p subPropertyOf q, q subPropertyOf r", Triple("p subPropertyOf r")),
    case("eq-ref", 0, "s p o", Triple("s sameAs s")),
    case("prp-ifp, different objects", 0, "p type InverseFunctionalProperty, x p y, z p w", Triple("x sameAs z")),
    case("prp-ifp, no else zero", 0, "p type InverseFunctionalProperty, x p y, z p w", Zero),
];

/// A model with lists: triples that must be in the answer, and triples that must not, each with the rule that gives it, or would.
pub struct ListCase {
    pub name: &'static str,
    pub premises: &'static str,
    pub there: &'static [(u32, &'static str)],
    pub missing: &'static [(u32, &'static str)],
}

const fn list(
    name: &'static str,
    premises: &'static str,
    there: &'static [(u32, &'static str)],
    missing: &'static [(u32, &'static str)],
) -> ListCase {
    ListCase { name, premises, there, missing }
}

/// What an improper list with an rdf:first object d must not give for the intersection c and the union b.
const NONE: &[(u32, &str)] = &[(21, "x type c"), (23, "x type b"), (22, "y type d")];

pub const LISTS: &[ListCase] = &[
    // Shared cells
    list(
        "two intersections with one tail, cls-int1",
        "c intersectionOf l, l first d, l rest n, b intersectionOf m, m first e, m rest n, n first f, n rest nil, \
         x type d, x type f, y type e, y type f",
        &[(21, "x type c"), (21, "y type b")],
        &[(21, "x type b"), (21, "y type c")],
    ),
    list(
        "two intersections with one tail, cls-int2",
        "c intersectionOf l, l first d, l rest n, b intersectionOf m, m first e, m rest n, n first f, n rest nil, x type c, y type b",
        &[(22, "x type d"), (22, "x type f"), (22, "y type e"), (22, "y type f")],
        &[(22, "x type e"), (22, "y type d")],
    ),
    list(
        "two unions with one tail",
        "c unionOf l, l first d, l rest n, b unionOf m, m first e, m rest n, n first f, n rest nil, x type d, y type e, z type f",
        &[(23, "x type c"), (23, "y type b"), (23, "z type c"), (23, "z type b")],
        &[(23, "x type b"), (23, "y type c")],
    ),
    list(
        "named at the second cell",
        "c intersectionOf m, b unionOf m, l first d, l rest m, m first e, m rest nil, x type e, y type d, z type c",
        &[(21, "x type c"), (23, "x type b"), (22, "z type e")],
        &[(23, "y type b"), (22, "z type d")],
    ),
    list(
        "one node, a cell of two lists",
        "c unionOf l, b intersectionOf m, l first d, l rest m, m first e, m rest nil, x type e, y type d, z type b",
        &[(23, "x type c"), (21, "x type b"), (23, "y type c"), (22, "z type e")],
        &[(21, "y type b"), (22, "z type d")],
    ),
    list(
        "an improper cell before the one named",
        "c intersectionOf m, b unionOf m, l first d, l first e, l rest m, m first f, m rest nil, x type f, y type d, z type c",
        &[(21, "x type c"), (23, "x type b"), (22, "z type f")],
        &[(23, "y type b"), (22, "z type d")],
    ),
    // Improper lists
    list(
        "two rdf:first",
        "c intersectionOf l, b unionOf l, l first d, l first e, l rest nil, x type d, x type e, y type c",
        &[],
        NONE,
    ),
    list(
        "two rdf:first, at the second cell",
        "c intersectionOf l, b unionOf l, l first d, l rest m, m first e, m first f, m rest nil, \
         x type d, x type e, x type f, y type c",
        &[],
        NONE,
    ),
    list(
        "two rdf:rest",
        "c intersectionOf l, b unionOf l, l first d, l rest m, l rest n, m first e, m rest nil, n first f, n rest nil, \
         x type d, x type e, x type f, y type c",
        &[],
        NONE,
    ),
    list(
        "two rdf:rest, one of them nil",
        "c intersectionOf l, b unionOf l, l first d, l rest m, l rest nil, m first e, m rest nil, x type d, x type e, y type c",
        &[],
        NONE,
    ),
    list(
        "two rdf:rest at the second cell, nil and the first",
        "c intersectionOf l, b unionOf l, l first d, l rest m, m first e, m rest l, m rest nil, x type d, x type e, y type c",
        &[],
        NONE,
    ),
    list("no rdf:first", "c intersectionOf l, b unionOf l, l rest m, m first d, m rest nil, x type d, y type c", &[], NONE),
    list(
        "no rdf:first, at the second cell",
        "c intersectionOf l, b unionOf l, l first d, l rest m, m rest nil, x type d, y type c",
        &[],
        NONE,
    ),
    list("no rdf:rest", "c intersectionOf l, b unionOf l, l first d, x type d, y type c", &[], NONE),
    list(
        "no rdf:rest, at the second cell",
        "c intersectionOf l, b unionOf l, l first d, l rest m, m first e, x type d, x type e, y type c",
        &[],
        NONE,
    ),
    list("no second cell", "c intersectionOf l, b unionOf l, l first d, l rest m, x type d, y type c", &[], NONE),
    list("a ring of one cell", "c intersectionOf l, b unionOf l, l first d, l rest l, x type d, y type c", &[], NONE),
    list(
        "a ring, back to the first cell",
        "c intersectionOf l, b unionOf l, l first d, l rest m, m first e, m rest l, x type d, x type e, y type c",
        &[],
        NONE,
    ),
    list(
        "a ring behind the first cell",
        "c intersectionOf l, b unionOf l, l first d, l rest m, m first e, m rest n, n first f, n rest m, \
         x type d, x type e, x type f, y type c",
        &[],
        NONE,
    ),
    // Nil with list triples
    list(
        "nil at the end, with list triples",
        "c intersectionOf l, b unionOf l, l first d, l rest nil, nil first e, nil rest m, m first f, m rest nil, \
         x type d, y type e, z type f",
        &[(21, "x type c"), (23, "x type b")],
        &[(23, "y type b"), (23, "z type b")],
    ),
    list(
        "nil named, a ring of one cell",
        "c intersectionOf nil, b unionOf nil, nil first d, nil rest nil, x type d, y type c",
        &[(21, "x type c"), (21, "nil type c")],
        &[(23, "x type b"), (22, "y type d")],
    ),
    list(
        "nil named, with a rest",
        "c intersectionOf nil, b unionOf nil, nil first d, nil rest m, m first e, m rest nil, x type d, x type e, y p z",
        &[(21, "y type c"), (21, "m type c")],
        &[(23, "x type b"), (22, "y type d"), (22, "y type e"), (21, "z type c")],
    ),
    // Nil in an intersection
    list(
        "nil named by what equals it",
        "c intersectionOf k, k sameAs nil, x p y",
        &[(21, "x type c"), (21, "nil type c")],
        &[(21, "y type c")],
    ),
    list(
        "intersectionOf nil in the closure alone",
        "q subPropertyOf intersectionOf, c q nil, x p y",
        &[(21, "x type c")],
        &[(21, "y type c")],
    ),
    list(
        "what follows for every subject",
        "c intersectionOf nil, b intersectionOf l, l first c, l rest nil, c subClassOf d, x p y",
        &[(21, "x type b"), (14, "x type d"), (21, "l type c")],
        &[(14, "y type d")],
    ),
    list(
        "0 as a subject",
        "c intersectionOf nil, p type FunctionalProperty, x p y, z p w",
        &[(21, "x type c"), (21, "w type c")],
        &[],
    ),
    list(
        "0 as a subject, carried on",
        "r someValuesFrom r, r onProperty type, c intersectionOf nil, c hasValue q, c onProperty subPropertyOf, q domain d, q range e, \
         d hasValue v, d onProperty q",
        &[(21, "c type c"), (3, "v type e")],
        &[],
    ),
    // Repeats
    list(
        "triples repeated",
        "c intersectionOf l, c intersectionOf l, b unionOf l, l first d, l first d, l rest m, l rest m, m first e, m first e, \
         m rest nil, m rest nil, x type d, x type e, y type d, z type c",
        &[(21, "x type c"), (23, "y type b"), (22, "z type d"), (22, "z type e")],
        &[(21, "y type c")],
    ),
    list(
        "a member repeated",
        "c intersectionOf l, l first d, l rest m, m first d, m rest nil, x type d, y type c",
        &[(21, "x type c"), (22, "y type d")],
        &[],
    ),
    // The load's list triples, and the closure's
    list("rdf:first in the closure alone", "p subPropertyOf first, b unionOf l, l p d, l rest nil, x type d", &[], &[(23, "x type b")]),
    list(
        "a second rdf:first in the closure alone",
        "p subPropertyOf first, b unionOf l, l first d, l p e, l rest nil, x type d, y type e",
        &[(23, "x type b")],
        &[(23, "y type b")],
    ),
    list("rdf:rest in the closure alone", "p subPropertyOf rest, b unionOf l, l first d, l p nil, x type d", &[], &[(23, "x type b")]),
    list(
        "a second rdf:rest in the closure alone",
        "p subPropertyOf rest, b unionOf l, l first d, l rest nil, l p m, m first e, m rest nil, x type d, y type e",
        &[(23, "x type b")],
        &[(23, "y type b")],
    ),
    list(
        "a cell equal to another node",
        "b unionOf l, l first d, l rest m, m sameAs n, n first e, n rest nil, x type d, y type e",
        &[],
        &[(23, "x type b"), (23, "y type b")],
    ),
    list(
        "unionOf in the closure alone",
        "p subPropertyOf unionOf, b p l, l first d, l rest nil, x type d",
        &[(23, "x type b")],
        &[],
    ),
    list(
        "named by an equal node",
        "b unionOf k, k sameAs l, l first d, l rest nil, x type d",
        &[(23, "x type b")],
        &[],
    ),
];
