//! The rules and the checks as tables, docs/REFERENCE.md, 6.2 and 7.1: what an instance of each is.
//!
//! Rules are written as in OWL 2 Profiles: a one-letter word is a variable, `0` the id 0, any other word a vocabulary term.

use crate::{Finding, Triple};
use std::sync::OnceLock;

/// The local names of the vocabulary, from id 1 on.
const VOCABULARY: &str = "type first rest nil domain range subPropertyOf subClassOf Thing Nothing sameAs inverseOf SymmetricProperty \
    IrreflexiveProperty AsymmetricProperty TransitiveProperty equivalentProperty equivalentClass FunctionalProperty \
    InverseFunctionalProperty intersectionOf unionOf hasValue allValuesFrom someValuesFrom disjointWith onProperty complementOf \
    propertyDisjointWith Class";

/// Number, name in OWL 2 Profiles, premises, guard, conclusion.
const RULES: &[(u32, &str, &str, &str, &str)] = &[
    (1, "every subject is an owl:Thing", "s p o", "", "s type Thing"),
    (2, "prp-dom", "p domain c, x p y", "", "x type c"),
    (3, "prp-rng", "p range c, x p y", "", "y type c"),
    (4, "eq-sym", "x sameAs y", "", "y sameAs x"),
    (5, "eq-rep-s", "s sameAs t, s p o", "", "t p o"),
    (6, "eq-rep-p", "p sameAs q, s p o", "", "s q o"),
    (7, "eq-rep-o", "o sameAs u, s p o", "", "s p u"),
    (8, "eq-trans", "x sameAs y, y sameAs z", "", "x sameAs z"),
    (9, "prp-fp", "p type FunctionalProperty, x p y, x p z", "", "y sameAs z"),
    (9, "prp-fp, else zero", "p type FunctionalProperty, a p b, c p d", "a is not c", "0 0 0"),
    (10, "prp-ifp", "p type InverseFunctionalProperty, x p y, z p y", "", "x sameAs z"),
    (11, "prp-spo1", "p subPropertyOf q, x p y", "", "x q y"),
    (12, "prp-inv1", "p inverseOf q, x p y", "", "y q x"),
    (13, "prp-inv2", "p inverseOf q, x q y", "", "y p x"),
    (14, "cax-sco", "c subClassOf d, x type c", "", "x type d"),
    (15, "scm-sco", "c subClassOf d, d subClassOf e", "", "c subClassOf e"),
    (16, "scm-eqc1", "c equivalentClass d", "", "c subClassOf d"),
    (16, "scm-eqc1", "c equivalentClass d", "", "d subClassOf c"),
    (17, "cax-eqc1", "c equivalentClass d, x type c", "", "x type d"),
    (17, "cax-eqc2", "c equivalentClass d, x type d", "", "x type c"),
    (18, "prp-symp", "p type SymmetricProperty, x p y", "", "y p x"),
    (19, "prp-trp", "p type TransitiveProperty, x p y, y p z", "", "x p z"),
    (20, "prp-eqp1", "p equivalentProperty q, x p y", "", "x q y"),
    (20, "prp-eqp2", "p equivalentProperty q, x q y", "", "x p y"),
    (21, "cls-int1", "c intersectionOf l, y type m", "every m of l", "y type c"),
    (21, "cls-int1, nil", "c intersectionOf nil, y q o", "", "y type c"),
    (22, "cls-int2", "c intersectionOf l, y type c", "some m of l", "y type m"),
    (23, "cls-uni", "c unionOf l, y type m", "some m of l", "y type c"),
    (24, "cls-hv1", "r hasValue v, r onProperty p, u type r", "", "u p v"),
    (25, "cls-hv2", "r hasValue v, r onProperty p, u p v", "", "u type r"),
    (25, "cls-hv2, else zero", "r hasValue v, r onProperty p, u p w", "w is not v", "0 0 0"),
    (26, "cls-avf", "r allValuesFrom y, r onProperty p, u type r, u p w", "", "w type y"),
    (26, "cls-avf, else zero", "r allValuesFrom y, r onProperty p, u type r, u q w", "q is not p", "0 0 0"),
    (27, "cls-svf1", "r someValuesFrom y, r onProperty p, u p w, w type y", "", "u type r"),
    (27, "cls-svf1, else zero", "r someValuesFrom y, r onProperty p, u p w, w type c", "c is not y", "0 0 0"),
    (28, "cls-svf2", "r someValuesFrom Thing, r onProperty p, u p w", "", "u type r"),
    (28, "cls-svf2, else zero", "r someValuesFrom y, r onProperty p, u p w", "y is not Thing", "0 0 0"),
];

/// Number, name in OWL 2 Profiles, premises, and the finding behind the number.
const CHECKS: &[(u32, &str, &str, &str)] = &[
    (1, "cax-dw", "i type c, i type d, c disjointWith d", "i c d 0"),
    (2, "prp-irp", "p type IrreflexiveProperty, s p s", "p s 0 0"),
    (3, "prp-asyp", "p type AsymmetricProperty, a p b, b p a", "p a b 0"),
    (4, "prp-pdw", "p propertyDisjointWith q, a p b, a q b", "a b p q"),
    (5, "cls-nothing2", "i type Nothing", "i 0 0 0"),
];

/// The most variables and the most premises of a rule.
const VARIABLES: usize = 6;
pub(crate) const PREMISES: usize = 4;

#[derive(Clone, Copy, Debug, PartialEq, Eq)]
pub(crate) enum Slot {
    Id(u32),
    Var(usize),
}

/// What a rule asks besides its premises.
#[derive(Clone, Copy, Debug)]
pub(crate) enum Guard {
    Nothing,
    Differ(Slot, Slot),
    /// The first is a member of the list that the second names.
    SomeMember(Slot, Slot),
    /// The last premise holds for every member of the list, of which there is at least one.
    EveryMember(Slot, Slot),
}

/// One way in which a rule gives a triple.
#[derive(Debug)]
pub struct Form {
    /// The rule's number.
    pub number: u32,
    /// Its name in OWL 2 Profiles, 4.3; of rule 1, which is none of them, what it says.
    pub name: &'static str,
    pub(crate) premises: Vec<[Slot; 3]>,
    pub(crate) guard: Guard,
    pub(crate) conclusion: [Slot; 3],
}

impl Form {
    /// The premises but the one that holds for every member of a list.
    pub(crate) fn fixed(&self) -> &[[Slot; 3]] {
        let of_members = matches!(self.guard, Guard::EveryMember(..));
        &self.premises[..self.premises.len() - usize::from(of_members)]
    }

    /// That one, for this member.
    pub(crate) fn premise_of(&self, m: Slot, member: u32, bound: &Bound) -> Option<Triple> {
        let [s, p, o] = self.premises.last()?.map(|slot| if slot == m { Some(member) } else { value(slot, bound) });
        Some([s?, p?, o?])
    }
}

/// What each variable stands for, so far.
pub(crate) type Bound = [Option<u32>; VARIABLES];

pub(crate) const UNBOUND: Bound = [None; VARIABLES];

pub(crate) fn value(slot: Slot, bound: &Bound) -> Option<u32> {
    match slot {
        Slot::Id(id) => Some(id),
        Slot::Var(v) => bound[v],
    }
}

/// What the variables stand for where the pattern is matched by the numbers.
pub(crate) fn matched<const N: usize>(pattern: &[Slot; N], numbers: &[u32; N], bound: &Bound) -> Option<Bound> {
    let mut now = *bound;
    for (slot, number) in pattern.iter().zip(numbers) {
        match (slot, value(*slot, &now)) {
            (_, Some(known)) if known != *number => return None,
            (Slot::Var(v), None) => now[*v] = Some(*number),
            _ => {}
        }
    }
    Some(now)
}

/// `seen` has the variables met so far.
fn slot(word: &str, seen: &mut Vec<String>) -> Slot {
    if word == "0" {
        return Slot::Id(0);
    }
    if word.len() > 1 {
        return Slot::Id(1 + VOCABULARY.split(' ').position(|name| name == word).expect("a vocabulary term") as u32);
    }
    Slot::Var(seen.iter().position(|v| v == word).unwrap_or_else(|| {
        seen.push(word.into());
        seen.len() - 1
    }))
}

fn pattern<const N: usize>(words: &str, seen: &mut Vec<String>) -> [Slot; N] {
    let slots: Vec<Slot> = words.split(' ').map(|word| slot(word, seen)).collect();
    slots.try_into().expect("a word for each place")
}

fn form(&(number, name, premises, guard, conclusion): &(u32, &'static str, &str, &str, &str)) -> Form {
    let mut seen = Vec::new();
    let premises: Vec<[Slot; 3]> = premises.split(", ").map(|words| pattern(words, &mut seen)).collect();
    let mut read = |word: &str| slot(word, &mut seen);
    let guard = match guard.split(' ').collect::<Vec<_>>()[..] {
        [a, "is", "not", b] => Guard::Differ(read(a), read(b)),
        ["some", m, "of", l] => Guard::SomeMember(read(m), read(l)),
        ["every", m, "of", l] => Guard::EveryMember(read(m), read(l)),
        _ => Guard::Nothing,
    };
    let conclusion = pattern(conclusion, &mut seen);
    assert!(seen.len() <= VARIABLES && premises.len() <= PREMISES);
    Form { number, name, premises, guard, conclusion }
}

/// The ways in which the rule of this number gives a triple.
pub(crate) fn forms(number: u32) -> impl Iterator<Item = &'static Form> {
    static FORMS: OnceLock<Vec<Form>> = OnceLock::new();
    FORMS.get_or_init(|| RULES.iter().map(form).collect()).iter().filter(move |form| form.number == number)
}

/// The name of a check in OWL 2 Profiles, 4.3, and the triples of the closure for which it finds this.
pub fn check_of(finding: &Finding) -> Option<(&'static str, Vec<Triple>)> {
    let [number, numbers @ ..] = *finding;
    let &(_, name, premises, found) = CHECKS.iter().find(|check| check.0 == number)?;
    let mut seen = Vec::new();
    let bound = matched(&pattern::<4>(found, &mut seen), &numbers, &UNBOUND)?;
    let triple = |words: &str| pattern::<3>(words, &mut seen).map(|slot| value(slot, &bound).expect("a number of the finding"));
    Some((name, premises.split(", ").map(triple).collect()))
}

/// The numbers of the checks, with their names.
pub fn checks() -> impl Iterator<Item = (u32, &'static str)> {
    CHECKS.iter().map(|check| (check.0, check.1))
}
