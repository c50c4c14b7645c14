//! Small random models: at most 12 terms and 18 triples, weighted to the vocabulary so that all rules, all checks, container
//! properties, proper and improper lists, lists with shared tails, and zero triples that carry a real triple come up.

use crate::{names, word, Model, Random, FIRST};
use model::dictionary::{run_terms, Term, BLANK_NODE, LITERAL, NAMED_NODE};
use model::names::NAMES;
use model::Triple;
use std::collections::{HashMap, HashSet};
use std::ops::RangeInclusive;

const MOST_TERMS: usize = 12;
const MOST_TRIPLES: usize = 18;

/// Closures above this are left out: where many terms are made one, everything stands in everything's place, and the time goes there.
const MOST_CLOSED: usize = 1_000;

/// Premises of rules and checks: one-letter words are variables, the others vocabulary terms.
const PREMISES: &[&str] = &[
    "p domain c, x p y",
    "p range c, x p y",
    "x sameAs y, x p z",
    "p sameAs q, x p z",
    "x sameAs y, z p x",
    "x sameAs y, y sameAs z",
    "p type FunctionalProperty, x p y, x p z",
    "p type FunctionalProperty, x p y, z p w",
    "p type InverseFunctionalProperty, x p y, z p y",
    "p type InverseFunctionalProperty, x p y, z p w",
    "p subPropertyOf q, x p y",
    "p inverseOf q, x p y",
    "p inverseOf q, x q y",
    "c subClassOf d, x type c",
    "c subClassOf d, d subClassOf e",
    "c equivalentClass d, x type c",
    "c equivalentClass d, x type d",
    "p type SymmetricProperty, x p y",
    "p type TransitiveProperty, x p y, y p z",
    "p equivalentProperty q, x p y",
    "p equivalentProperty q, x q y",
    "r hasValue v, r onProperty p, x type r",
    "r hasValue v, r onProperty p, x p v",
    "r hasValue v, r onProperty p, x p w",
    "r allValuesFrom c, r onProperty p, x type r, x p y",
    "r allValuesFrom c, r onProperty p, x type r, x q y",
    "r someValuesFrom c, r onProperty p, x p y, y type c",
    "r someValuesFrom c, r onProperty p, x p y, y type d",
    "r someValuesFrom Thing, r onProperty p, x p y",
    "r someValuesFrom Thing, r onProperty p, x p y, r subClassOf c",
    "c disjointWith d, x type c, x type d",
    "p type IrreflexiveProperty, x p x",
    "p type AsymmetricProperty, x p y, y p x",
    "p propertyDisjointWith q, x p y, x q y",
    "x type Nothing",
];

/// The variables that only templates of lists have: cells, nodes in the place of a cell, and properties above list predicates.
const OWN: RangeInclusive<char> = 'k'..='o';

/// Proper lists, named at their first cell: of one cell, of two, of three, with a member or a triple twice, named in the closure alone,
/// a node that names no list, and nil in a union.
const LISTS: &[&str] = &[
    "c intersectionOf l, l first d, l rest nil, x type d",
    "c intersectionOf l, l first d, l rest m, m first e, m rest nil, x type d, x type e",
    "c intersectionOf l, l first d, l rest m, m first e, m rest nil, x type c",
    "c intersectionOf l, l first d, l rest m, m first e, m rest n, n first f, n rest nil, x type d, x type e, x type f",
    "c intersectionOf l, l first d, l rest m, m first e, m rest n, n first f, n rest nil, x type c",
    "c intersectionOf l, l first d, l rest m, m first d, m rest nil, x type d",
    "c intersectionOf l, l first d, l first d, l rest m, m first e, m rest nil, x type c",
    "c unionOf l, l first d, l rest nil, x type d",
    "c unionOf l, l first d, l rest m, m first e, m rest nil, x type e",
    "c unionOf l, l first d, l rest m, m first e, m rest n, n first f, n rest nil, x type d, y type f",
    "c unionOf l, l first d, l rest m, l rest m, m first e, m rest nil, m rest nil, x type d",
    "c unionOf l, b unionOf n, l first d, l rest m, m first e, m rest nil, n first e, n rest nil, x type e, y type d",
    "o subPropertyOf unionOf, c o l, l first d, l rest m, m first e, m rest nil, x type e",
    "o subPropertyOf intersectionOf, c o l, l first d, l rest nil, x type c",
    "c intersectionOf k, x type c, x type k",
    "c unionOf nil, x type c, x p y",
];

/// Lists that the original reads otherwise, or may: with shared tails, named at a later cell; with two rdf:first or rdf:rest objects or
/// none, at the first cell and behind it; in a ring; with list triples of nil; with list triples in the closure alone; and nil in an
/// intersection, in the load and in the closure alone.
const ODD_LISTS: &[&str] = &[
    "c intersectionOf l, l first d, l rest m, k first e, k rest m, m first f, m rest nil, x type c",
    "c intersectionOf l, b intersectionOf k, l first d, l rest m, k first e, k rest m, m first f, m rest nil, x type d, x type f",
    "c unionOf l, l first d, l rest m, k first e, k rest m, m first f, m rest nil, x type e",
    "c unionOf l, b unionOf k, l first d, l rest m, k first e, k rest m, m first f, m rest nil, x type e, y type f",
    "c unionOf l, b unionOf k, l first d, l rest m, k first e, k rest m, m first f, m rest n, n first d, n rest nil, x type d",
    "c unionOf l, l first d, l rest m, k rest m, m first e, m rest nil, x type d, y type e",
    "c intersectionOf l, b unionOf k, l first d, l rest m, k first d, k rest m, m first e, m rest nil, x type c, y type e",
    "c unionOf l, b intersectionOf m, l first d, l rest m, m first e, m rest nil, x type e, y type b",
    "c intersectionOf m, l first d, l rest m, m first e, m rest nil, x type c",
    "c intersectionOf m, l first d, l rest m, m first e, m rest nil, x type e",
    "c unionOf m, l first d, l rest m, m first e, m rest nil, x type d, y type e",
    "c unionOf l, l first d, l first e, l rest nil, x type d",
    "c intersectionOf l, l first d, l rest m, m first e, m first f, m rest nil, x type c",
    "c unionOf l, l first d, l rest m, l rest nil, m first e, m rest nil, x type d",
    "c unionOf l, l first d, l rest m, l rest nil, m first d, m rest nil, x type d",
    "c unionOf l, l first d, l rest m, l rest n, m first e, m rest nil, n first f, n rest nil, x type d",
    "c intersectionOf l, l first d, l rest m, m first e, m rest n, m rest nil, n first f, n rest nil, x type c",
    "c intersectionOf l, l rest nil, x type c",
    "c unionOf l, l first d, l rest m, m rest nil, x type d",
    "c unionOf l, l rest m, m first e, m rest nil, x type e",
    "c unionOf l, l first d, x type d",
    "c intersectionOf l, l first d, l rest m, m first e, x type c",
    "c unionOf l, l first d, k first e, k rest l, x type e",
    "c intersectionOf l, l first d, l rest l, x type d",
    "c unionOf l, l first d, l rest l, x type d",
    "c intersectionOf l, l first d, l rest m, m first e, m rest l, x type d, x type e",
    "c unionOf l, l first d, l rest m, m first e, m rest m, x type d",
    "c unionOf l, l first d, l rest m, m first e, m rest n, n first f, n rest m, x type e",
    "c unionOf l, l first d, l rest m, m first e, m rest l, m rest nil, x type e",
    "c unionOf nil, nil first d, l rest nil, l first e, x type d, x type e",
    "c unionOf nil, nil first d, nil rest nil, x type d",
    "c unionOf nil, nil first d, nil rest m, m first e, m rest nil, x type e",
    "c intersectionOf nil, nil first d, nil rest nil, x type c",
    "c intersectionOf nil, nil first d, nil rest m, m first e, m rest nil, x p y",
    "c unionOf l, l first d, l rest nil, nil first e, nil rest nil, x type d, y type e",
    "c unionOf l, l first d, l rest m, m first e, m rest nil, nil rest m, x type d, y type e",
    "c unionOf l, l first d, l rest nil, nil first e, x type d",
    "c intersectionOf l, l first d, l rest nil, nil first e, nil rest m, m first f, m rest nil, x type d",
    "c intersectionOf l, l rest nil, nil rest m, m first e, x type e",
    "o subPropertyOf first, c unionOf l, l o d, l rest nil, x type d",
    "o subPropertyOf first, c unionOf l, l first d, l o e, l rest nil, x type d",
    "o subPropertyOf rest, c unionOf l, l first d, l o nil, x type d",
    "o subPropertyOf rest, c intersectionOf l, l first d, l rest nil, l o m, m first e, m rest nil, x type c",
    "c intersectionOf nil, x p y",
    "c intersectionOf nil, c subClassOf d, x p y",
    "c intersectionOf nil, b intersectionOf l, l first c, l rest nil, x p y",
    "c intersectionOf nil, c disjointWith d, x type d",
    "c intersectionOf k, k sameAs nil, x p y",
    "o subPropertyOf intersectionOf, c o nil, x p y",
];

/// What makes 0 0 0, makes 0 one of the terms, or makes it stand for a property or class.
const ZEROS: &[&str] = &[
    "Thing hasValue y, Thing onProperty sameAs",
    "Thing hasValue y, Thing onProperty p",
    "Thing hasValue y, Thing onProperty p, p range c, p inverseOf q",
    "Thing hasValue q, Thing onProperty subPropertyOf, q domain c",
    "Thing hasValue q, Thing onProperty inverseOf",
    "Thing subClassOf c, c hasValue v, c onProperty p",
    "Thing subClassOf FunctionalProperty",
    "Thing subClassOf TransitiveProperty",
    "Thing subClassOf SymmetricProperty",
    "Thing subClassOf IrreflexiveProperty",
    "Thing subClassOf AsymmetricProperty",
    "type type InverseFunctionalProperty",
    "type type SymmetricProperty",
    "Thing disjointWith Thing",
    "Thing disjointWith c, x type c",
    "p type FunctionalProperty, x p y, z p w, x type c, z type d",
    "r someValuesFrom c, r onProperty type",
    "r allValuesFrom c, r onProperty p, Thing subClassOf r",
    "r hasValue v, r onProperty type, Thing subClassOf r",
    "Thing hasValue disjointWith, Thing onProperty subPropertyOf",
    "Thing hasValue propertyDisjointWith, Thing onProperty subPropertyOf",
];

/// What carries a real triple by zero triples alone: 0 equal to a term, which then stands in its place in 0 0 0; or 0 as the one
/// property that is a Thing.
const CARRIED: &[&str] = &[
    "Thing hasValue y, Thing onProperty sameAs",
    "Thing subClassOf r, r hasValue y, r onProperty sameAs",
    "type subPropertyOf sameAs, r someValuesFrom c, r onProperty p, x p y",
    "type inverseOf sameAs, p type FunctionalProperty, x p y, z p w",
    "type type InverseFunctionalProperty, r hasValue v, r onProperty p, x p w",
    "r someValuesFrom c, r onProperty p, x p y, Thing hasValue q, Thing onProperty subPropertyOf, q domain d, d hasValue v, d onProperty s, s range e",
    "r someValuesFrom c, r onProperty p, x p y, Thing hasValue q, Thing onProperty subPropertyOf, q range d, d hasValue v, d onProperty s, s inverseOf t",
    "r hasValue v, r onProperty p, x p y, Thing hasValue q, Thing onProperty subPropertyOf, q domain d, d hasValue w, d onProperty s, w type TransitiveProperty",
    "r someValuesFrom r, r onProperty type, c intersectionOf nil, c hasValue q, c onProperty subPropertyOf, q domain d, q range e, \
     d hasValue v, d onProperty q",
];

/// A small model whose closure has at most 1,000 triples.
pub fn small(r: &mut Random) -> Model {
    loop {
        let made = if r.percent(6) { carried(r) } else { try_small(r) };
        if model::closure::close(&made.start(), MOST_CLOSED, 0).is_some() {
            return made;
        }
    }
}

/// A load over this many terms.
pub fn load(terms: usize, r: &mut Random) -> Vec<Triple> {
    let mut load = Vec::new();
    for _ in 0..r.below(5) {
        let list = match r.below(21) {
            0..=11 => PREMISES,
            12..=14 => LISTS,
            15..=17 => ODD_LISTS,
            _ => ZEROS,
        };
        let template = r.pick(list);
        load.extend(instance(template, terms, r));
    }
    for _ in 0..r.below(if load.is_empty() { 14 } else { 5 }) {
        load.push(any_triple(terms, r));
    }
    load
}

/// Few terms: where 0 is equal to a term, all that is a Thing is.
fn carried(r: &mut Random) -> Model {
    let terms = names(r.between(1, 6));
    let template = r.pick(CARRIED);
    let mut load = instance(template, terms.len(), r);
    for _ in 0..r.below(3) {
        load.push(any_triple(terms.len(), r));
    }
    Model { terms, load }
}

fn try_small(r: &mut Random) -> Model {
    let terms = some_terms(r);
    let mut load = load(terms.len(), r);
    for (k, (_, bytes)) in terms.iter().enumerate() {
        if bytes.starts_with(b"http") && r.percent(80) {
            load.push([node(terms.len(), r), FIRST + k as u32, node(terms.len(), r)]);
        }
    }
    if r.percent(10) && !load.is_empty() {
        let again = r.pick(&load);
        load.push(again);
    }
    r.shuffle(&mut load);
    load.truncate(MOST_TRIPLES);
    Model { terms, load }
}

/// Mostly urn:tK; also container properties and what is nearly one, blank nodes, literals, and the terms that a run puts.
fn some_terms(r: &mut Random) -> Vec<Term> {
    let mut terms = names(r.between(1, MOST_TERMS));
    if r.percent(75) {
        return terms;
    }
    for k in 0..terms.len() {
        let term = match r.below(12) {
            0..=3 => (NAMED_NODE, format!("http://www.w3.org/1999/02/22-rdf-syntax-ns#{}", local_name(r)).into_bytes()),
            4 => (BLANK_NODE, format!("b{k}").into_bytes()),
            5 => (LITERAL, format!("l{k}").into_bytes()),
            6 => r.pick(&run_terms()),
            _ => continue,
        };
        if !terms.contains(&term) {
            terms[k] = term;
        }
    }
    terms
}

/// A name of docs/REFERENCE.md, 11.2, or `_` and the largest number with a digit changed, taken off or added, after some zeros.
fn local_name(r: &mut Random) -> String {
    if r.percent(60) {
        return r.pick(NAMES).0.to_string();
    }
    let mut digits = String::from("18446744073709551615");
    let digit = r.below(10).to_string();
    let place = r.below(20);
    match r.below(8) {
        0 => _ = digits.pop(),
        1 => digits += &digit,
        2 => digits.insert(place, 'a'),
        3 => (),
        _ => digits.replace_range(place..=place, &digit),
    }
    format!("_{}{digits}", r.pick(&["", "", "0", "000"]))
}

/// A term of the model, the first few more often; sometimes one of the vocabulary.
fn node(terms: usize, r: &mut Random) -> u32 {
    match r.below(20) {
        0..=9 => FIRST + r.below(terms.min(5)) as u32,
        10..=16 => FIRST + r.below(terms) as u32,
        17 => word(r.pick(&["Thing", "Nothing", "Class", "type", "sameAs"])),
        _ => r.between(1, 30) as u32,
    }
}

fn any_triple(terms: usize, r: &mut Random) -> Triple {
    const CLASSES: [&str; 9] = [
        "Thing",
        "Nothing",
        "FunctionalProperty",
        "InverseFunctionalProperty",
        "SymmetricProperty",
        "TransitiveProperty",
        "IrreflexiveProperty",
        "AsymmetricProperty",
        "Class",
    ];
    let predicate = match r.below(10) {
        0..=1 => word("type"),
        2..=5 => r.between(1, 30) as u32,
        _ => node(terms, r),
    };
    let object = if predicate == word("type") && r.percent(40) { word(r.pick(&CLASSES)) } else { node(terms, r) };
    [node(terms, r), predicate, object]
}

/// The template with a random term for each variable; one in five lacks a triple.
fn instance(template: &str, terms: usize, r: &mut Random) -> Vec<Triple> {
    let mut triples = instance_over(template, &mut |_| node(terms, r));
    if r.percent(20) {
        triples.remove(r.below(triples.len()));
    }
    triples
}

/// The template with a term for each of its variables.
fn instance_over(template: &str, term: &mut dyn FnMut(char) -> u32) -> Vec<Triple> {
    let mut values = HashMap::new();
    let mut id = |w: &str| match w.as_bytes() {
        [letter] => *values.entry(*letter).or_insert_with(|| term(char::from(*letter))),
        _ => word(w),
    };
    let triple = |words: &str| {
        let ids: Vec<u32> = words.split(' ').map(&mut id).collect();
        [ids[0], ids[1], ids[2]]
    };
    template.split(", ").map(triple).collect()
}

/// What comes up in a mixture that puts it outside the original's domain.
#[derive(Clone, Copy)]
pub(crate) struct Outside {
    pub inverse_functional: bool,
    /// Else the lists are proper, each with cells of its own.
    pub odd_lists: bool,
}

/// Premises of many rules, lists and checks over many terms: a large model without a plan. No node of it has two intersectionOf or
/// unionOf objects in the load.
pub(crate) fn mixture(parts: usize, outside: Outside, r: &mut Random) -> Model {
    let shared = r.between(2 * parts, 4 * parts);
    loop {
        let (mut load, mut taken, mut owned) = (Vec::new(), HashSet::new(), 0);
        for _ in 0..parts {
            let list = match r.below(100) {
                0..=11 if outside.odd_lists => ODD_LISTS,
                0..=24 => LISTS,
                _ => PREMISES,
            };
            let template = r.pick(list);
            if !outside.inverse_functional && template.contains("InverseFunctionalProperty") {
                continue;
            }
            let triples = instance_over(template, &mut |letter| {
                let own = OWN.contains(&letter) && !outside.odd_lists;
                owned += usize::from(own);
                FIRST + if own { shared + owned - 1 } else { r.below(shared) } as u32
            });
            let single = ["intersectionOf", "unionOf"].map(word);
            load.extend(triples.iter().filter(|[s, p, _]| !single.contains(p) || taken.insert([*s, *p])));
        }
        let made = Model { terms: names(shared + owned), load };
        if model::closure::close(&made.start(), model::STORE_LIMIT, 0).is_some() {
            return made;
        }
    }
}
