//! Lists for the dictionary: the contents that a start leaves, and puts until there is no room.

use crate::calls::*;
use crate::memory::{ARENA, TABLE};
use crate::text::Text;

const RDF: &str = "http://www.w3.org/1999/02/22-rdf-syntax-ns#";
const RDFS: &str = "http://www.w3.org/2000/01/rdf-schema#";
const OWL: &str = "http://www.w3.org/2002/07/owl#";

const TYPE: &[u8] = b"http://www.w3.org/1999/02/22-rdf-syntax-ns#type";
const CLASS: &[u8] = b"http://www.w3.org/2002/07/owl#Class";

pub fn lists(text: &mut Text) {
    start_contents(text);
    last_entry(text);
    last_byte(text);
    long_terms(text);
    chains(text);
}

/// What the 30 chained terms make of the heads, by their sums: a chain and its first id.
#[rustfmt::skip]
const HEADS: [(usize, u32); 28] = [
    (5, 21), (6, 6), (7, 16), (13, 20), (16, 10), (17, 2), (19, 11), (23, 22), (27, 13), (28, 17), (29, 7), (30, 29), (34, 28),
    (35, 14), (39, 3), (42, 12), (43, 1), (44, 4), (45, 18), (46, 8), (47, 30), (49, 25), (50, 23), (51, 9), (54, 24), (57, 26),
    (59, 27), (60, 15),
];

/// Start and length of ids 0 to 30; the kind of each is 1.
#[rustfmt::skip]
const ENTRIES: [(u32, u32); 31] = [
    (0, 5), (5, 47), (52, 48), (100, 47), (147, 46), (193, 43), (236, 42), (278, 50), (328, 47), (375, 35), (410, 37), (447, 36),
    (483, 39), (522, 47), (569, 49), (618, 48), (666, 48), (714, 48), (762, 45), (807, 48), (855, 55), (910, 44), (954, 37),
    (991, 38), (1029, 43), (1072, 44), (1116, 42), (1158, 40), (1198, 42), (1240, 50), (1290, 35),
];

/// The table that a start leaves. 25, 19 and 5 are one chain, each other term is the only one of its own.
fn started_table() -> Vec<u32> {
    let mut table = vec![0; 64];
    HEADS.iter().for_each(|(chain, id)| table[*chain] = *id);
    for (id, (start, length)) in (0..).zip(ENTRIES) {
        let next = [(25, 19), (19, 5)].iter().find(|(of, _)| *of == id).map_or(0, |(_, next)| *next);
        table.extend([start, length, 1, next]);
    }
    table
}

#[rustfmt::skip]
const STARTED: [(&str, &[&str]); 4] = [
    ("urn:", &["_"]),
    (RDF, &["type", "first", "rest", "nil"]),
    (RDFS, &["domain", "range", "subPropertyOf", "subClassOf"]),
    (OWL, &[
        "Thing", "Nothing", "sameAs", "inverseOf", "SymmetricProperty", "IrreflexiveProperty", "AsymmetricProperty",
        "TransitiveProperty", "equivalentProperty", "equivalentClass", "FunctionalProperty", "InverseFunctionalProperty",
        "intersectionOf", "unionOf", "hasValue", "allValuesFrom", "someValuesFrom", "disjointWith", "onProperty", "complementOf",
        "propertyDisjointWith", "Class",
    ]),
];

/// Every number of the table, and every term looked up.
fn start_contents(text: &mut Text) {
    text.change(|m| {
        m.lend(TABLE, &[7; 188]);
        m.lend(ARENA, &[7; 1325]);
    });
    begin(text, 188, 1325);
    assert_eq!(text.memory().lent(TABLE), started_table());
    let named = STARTED.iter().flat_map(|(space, names)| names.iter().map(move |name| format!("{space}{name}")));
    for (id, name) in (0..).zip(named) {
        look(text, id, 0, 1, name.as_bytes());
    }
    text.end("start: contents");
}

/// The terms of a start: each answers its id. `urn:_` answers 0.
fn of_the_start(text: &mut Text) {
    put_same(text, 1, b"urn:_", 0, 0);
    put_same(text, 1, TYPE, 0, 1);
    put_same(text, 1, CLASS, 0, 30);
}

/// Kinds and lengths that no term has: 10 comes before 11, and both before 7.
fn no_terms(text: &mut Text) {
    put_same(text, 0, b"x", 10, 0);
    put_same(text, 4, b"x", 10, 0);
    put_same(text, 4294967295, b"", 10, 0);
    put_same(text, 0, &[7; 4097], 10, 0);
    put_same(text, 3, &[7; 4097], 11, 0);
}

/// A table of 32 entries: one term more fits, the empty one. Then a new term is refused, and those held answer their ids.
fn last_entry(text: &mut Text) {
    begin(text, 192, 6000);
    of_the_start(text);
    no_terms(text);
    put_new(text, 3, b"", 31, 1325);
    entry_at(text, 188, [1325, 0, 3, 0]);
    number_at(text, 3, 31);
    of_the_start(text);
    no_terms(text);
    put_same(text, 2, b"", 7, 0);
    put_same(text, 3, b"", 0, 31);
    look(text, 31, 0, 3, b"");
    look(text, 32, 12, 0, b"");
    look(text, 4294967295, 12, 0, b"");
    whole(text);
    text.end("put: last entry");
}

/// An arena with room for three bytes more. The empty term needs none.
fn last_byte(text: &mut Text) {
    begin(text, 200, 1328);
    put_same(text, 3, b"abcd", 7, 0);
    bytes_at(text, 1325, b"\0\0\0");
    put_new(text, 3, b"abc", 31, 1328);
    entry_at(text, 188, [1325, 3, 3, 0]);
    number_at(text, 41, 31);
    bytes_at(text, 1325, b"abc");
    put_same(text, 3, b"d", 7, 0);
    put_same(text, 3, b"abc", 0, 31);
    entry_at(text, 192, [0, 0, 0, 0]);
    put_new(text, 2, b"", 32, 1328);
    entry_at(text, 192, [1328, 0, 2, 0]);
    number_at(text, 2, 32);
    look(text, 31, 0, 3, b"abc");
    look(text, 32, 0, 2, b"");
    look(text, 33, 12, 0, b"");
    whole(text);
    text.end("put: last byte");
}

/// Two terms of 4,096 bytes, of one sum and two kinds, fill an arena; then one that is a byte short of them.
fn long_terms(text: &mut Text) {
    let long = [7; 4096];
    begin(text, 200, 9517);
    put_new(text, 1, &long, 31, 5421);
    entry_at(text, 188, [1325, 4096, 1, 0]);
    put_new(text, 2, &long, 32, 9517);
    entry_at(text, 192, [5421, 4096, 2, 0]);
    number_at(text, 1, 31);
    number_at(text, 2, 32);
    bytes_at(text, 5421, &long);
    look(text, 32, 0, 2, &long);
    whole(text);
    begin(text, 200, 9516);
    put_new(text, 1, &long, 31, 5421);
    put_same(text, 2, &long, 7, 0);
    entry_at(text, 192, [0, 0, 0, 0]);
    text.end("put: terms of 4,096 bytes");
}

/// Terms that differ in kind alone, and three that come to the front of chains 4, 4 and 49.
fn chains(text: &mut Text) {
    begin(text, 204, 1340);
    put_new(text, 2, b"urn:_", 31, 1330);
    put_new(text, 1, b"ab", 32, 1332);
    put_new(text, 1, b"ba", 33, 1334);
    put_new(text, 1, b"0", 34, 1335);
    entry_at(text, 188, [1325, 5, 2, 0]);
    entry_at(text, 192, [1330, 2, 1, 0]);
    entry_at(text, 196, [1332, 2, 1, 32]);
    entry_at(text, 200, [1334, 1, 1, 25]);
    number_at(text, 4, 33);
    number_at(text, 48, 31);
    number_at(text, 49, 34);
    put_same(text, 1, b"ab", 0, 32);
    put_same(text, 2, b"urn:_", 0, 31);
    look(text, 33, 0, 1, b"ba");
    whole(text);
    text.end("put: chains");
}
