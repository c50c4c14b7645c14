//! The dictionary, docs/REFERENCE.md, 2: the terms held, and the one way in which a table and an arena hold them.

use crate::{ARENA_LIMIT, ENTRIES_LIMIT, TERM_LIMIT};
use std::collections::HashMap;

/// A kind (1 named node, 2 blank node, 3 literal) and bytes.
pub type Term = (u32, Vec<u8>);

pub const NAMED_NODE: u32 = 1;
pub const BLANK_NODE: u32 = 2;
pub const LITERAL: u32 = 3;

const RDF: &str = "http://www.w3.org/1999/02/22-rdf-syntax-ns#";
const RDFS: &str = "http://www.w3.org/2000/01/rdf-schema#";
const OWL: &str = "http://www.w3.org/2002/07/owl#";

const HEADS: usize = 64;
const WIDTH: usize = 4;

/// Local names of the thirty terms that a start puts, in order; the first has id 1.
const VOCABULARY: [(&str, &[&str]); 3] = [
    (RDF, &["type", "first", "rest", "nil"]),
    (RDFS, &["domain", "range", "subPropertyOf", "subClassOf"]),
    (
        OWL,
        &[
            "Thing",
            "Nothing",
            "sameAs",
            "inverseOf",
            "SymmetricProperty",
            "IrreflexiveProperty",
            "AsymmetricProperty",
            "TransitiveProperty",
            "equivalentProperty",
            "equivalentClass",
            "FunctionalProperty",
            "InverseFunctionalProperty",
            "intersectionOf",
            "unionOf",
            "hasValue",
            "allValuesFrom",
            "someValuesFrom",
            "disjointWith",
            "onProperty",
            "complementOf",
            "propertyDisjointWith",
            "Class",
        ],
    ),
];

/// The id of a vocabulary term, by its local name.
pub fn id_of(local: &str) -> Option<u32> {
    VOCABULARY.iter().flat_map(|(_, names)| names.iter()).position(|n| *n == local).map(|k| k as u32 + 1)
}

fn named(space: &str, local: &str) -> Term {
    (NAMED_NODE, format!("{space}{local}").into_bytes())
}

/// What an accepted start leaves: `urn:_`, then the thirty.
pub fn starting_terms() -> Vec<Term> {
    let mut terms = vec![named("urn:", "_")];
    for (space, names) in VOCABULARY {
        terms.extend(names.iter().map(|n| named(space, n)));
    }
    terms
}

/// What a run puts.
pub fn run_terms() -> [Term; 3] {
    [named(RDF, "Property"), named(RDFS, "ContainerMembershipProperty"), named(RDFS, "member")]
}

/// A named node of the rdf namespace whose local name is `_` and ASCII digits, at least one, of value 1 to 2^64 - 1.
pub fn is_container_property((kind, bytes): &Term) -> bool {
    let Some(digits) = bytes.strip_prefix(RDF.as_bytes()).and_then(|local| local.strip_prefix(b"_")) else {
        return false;
    };
    let mut value: u128 = 0;
    for d in digits {
        if !d.is_ascii_digit() {
            return false;
        }
        value = (value * 10 + u128::from(d - b'0')).min(1 << 64);
    }
    *kind == NAMED_NODE && !digits.is_empty() && 1 <= value && value < 1 << 64
}

/// Table length 64 + 4m with m at most 65,535, and an arena of at most 1,048,576 bytes.
pub fn well_sized(table: usize, arena: usize) -> bool {
    table >= HEADS && (table - HEADS) % WIDTH == 0 && (table - HEADS) / WIDTH <= ENTRIES_LIMIT && arena <= ARENA_LIMIT
}

/// The number of entries of a table.
pub fn entries(table: usize) -> usize {
    (table - HEADS) / WIDTH
}

pub fn bytes_of(terms: &[Term]) -> usize {
    terms.iter().map(|(_, bytes)| bytes.len()).sum()
}

pub fn fits(terms: &[Term], table: usize, arena: usize) -> bool {
    terms.len() <= entries(table) && bytes_of(terms) <= arena
}

/// The contents of a table and an arena of these lengths that hold these terms, id 0 first. They must fit.
pub fn layout(terms: &[Term], table: usize, arena: usize) -> (Vec<u32>, Vec<u8>) {
    let mut numbers = vec![0u32; table];
    let mut bytes = vec![0u8; arena];
    let mut used = 0;
    for (id, (kind, term)) in terms.iter().enumerate() {
        bytes[used..used + term.len()].copy_from_slice(term);
        let entry = HEADS + WIDTH * id;
        let chain = (*kind as usize + term.iter().map(|b| *b as usize).sum::<usize>()) % HEADS;
        let next = if id == 0 { 0 } else { std::mem::replace(&mut numbers[chain], id as u32) };
        numbers[entry..entry + WIDTH].copy_from_slice(&[used as u32, term.len() as u32, *kind, next]);
        used += term.len();
    }
    (numbers, bytes)
}

/// The terms held, if a start and a sequence of puts leaves these contents and counters.
pub fn held(table: &[u32], arena: &[u8], terms: u32, used: u32) -> Option<Vec<Term>> {
    if !well_sized(table.len(), arena.len()) || terms as usize > entries(table.len()) {
        return None;
    }
    let mut list = Vec::with_capacity(terms as usize);
    for entry in table[HEADS..].chunks(WIDTH).take(terms as usize) {
        let (start, end) = (entry[0] as usize, entry[0] as usize + entry[1] as usize);
        list.push((entry[2], arena.get(start..end)?.to_vec()));
    }
    let put_one_by_one = could_be_put(&list) && fits(&list, table.len(), arena.len());
    if !put_one_by_one || used as usize != bytes_of(&list) {
        return None;
    }
    let (numbers, bytes) = layout(&list, table.len(), arena.len());
    (numbers == table && bytes == arena).then_some(list)
}

/// The starting terms, then terms that a put accepts, each of them new when it came.
fn could_be_put(list: &[Term]) -> bool {
    let start = starting_terms();
    let mut ids = HashMap::new();
    list.len() >= start.len()
        && list[..start.len()] == start
        && list.iter().all(|(kind, bytes)| (1..=3).contains(kind) && bytes.len() <= TERM_LIMIT)
        && list.iter().all(|term| ids.insert(term, ()).is_none())
}
