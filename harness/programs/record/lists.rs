//! Lists of puts, lookups and runs on one dictionary, in orders and with repeats that try the refusals against each other.

use crate::calls::*;
use crate::text::Text;

pub const PROPERTY: &[u8] = b"http://www.w3.org/1999/02/22-rdf-syntax-ns#Property";
pub const MEMBERSHIP: &[u8] = b"http://www.w3.org/2000/01/rdf-schema#ContainerMembershipProperty";
pub const MEMBER: &[u8] = b"http://www.w3.org/2000/01/rdf-schema#member";

/// A dictionary with room for all that these lists put.
pub const TABLE_NUMBERS: usize = 256;
pub const ARENA_BYTES: usize = 2048;

/// Numbers of findings and list work buffer, where they are large enough.
pub const FINDINGS_NUMBERS: usize = 20;
pub const WORK_NUMBERS: usize = 96;

pub fn lists(text: &mut Text) {
    puts(text);
    full_arena(text);
    one_byte_short(text);
    run_terms(text);
    runs(text);
}

pub fn lend(load: &[u32], store: usize, findings: usize, work: usize) -> Lent<'_> {
    Lent { load, store, findings, work }
}

/// Terms 31 to 33, named nodes of five bytes each.
pub fn put_abc(text: &mut Text) {
    put_new(text, 1, b"urn:a", 31, 1330);
    put_new(text, 1, b"urn:b", 32, 1335);
    put_new(text, 1, b"urn:c", 33, 1340);
}

/// Until the table's 34 entries are used: new terms, one with the bytes of another, and puts that change nothing.
fn puts(text: &mut Text) {
    begin(text, 200, ARENA_BYTES);
    put_new(text, 1, b"urn:a", 31, 1330);
    put_same(text, 1, b"urn:a", 0, 31);
    put_new(text, 3, b"urn:a", 32, 1335);
    put_refused(text);
    put_new(text, 2, b"urn:_", 33, 1340);
    look_up(text);
    when_full(text);
    look_up(text);
    text.end("puts and lookups");
}

fn put_refused(text: &mut Text) {
    put_same(text, 0, b"urn:b", 10, 0);
    put_same(text, 4, &[97; 4097], 10, 0);
    put_same(text, 1, &[97; 4097], 11, 0);
}

/// In a full table a new term is refused, after its kind and its length; a run has no room for its terms; a term held is answered.
fn when_full(text: &mut Text) {
    put_same(text, 1, b"urn:b", 7, 0);
    put_refused(text);
    put_same(text, 2, b"urn:a", 7, 0);
    refuse(text, &lend(&[31, 1, 32], rows(9), 5, 96), 7, [34, 1340]);
    put_same(text, 3, b"urn:a", 0, 32);
    put_same(text, 1, b"urn:_", 0, 0);
    put_same(text, 1, b"http://www.w3.org/2002/07/owl#Class", 0, 30);
}

fn look_up(text: &mut Text) {
    look(text, 34, 12, 0, b"");
    look(text, 33, 0, 2, b"urn:_");
    look(text, 31, 0, 1, b"urn:a");
    look(text, 32, 0, 3, b"urn:a");
    look(text, 0, 0, 1, b"urn:_");
    look(text, 4294967295, 12, 0, b"");
    look(text, 31, 0, 1, b"urn:a");
    look(text, 1, 0, 1, b"http://www.w3.org/1999/02/22-rdf-syntax-ns#type");
}

/// An arena of 1,331 bytes has room for six more than the start's, and for any number of empty terms.
fn full_arena(text: &mut Text) {
    begin(text, TABLE_NUMBERS, 1331);
    put_same(text, 1, b"urn:abc", 7, 0);
    put_new(text, 1, b"urn:ab", 31, 1331);
    put_same(text, 1, b"u", 7, 0);
    put_new(text, 3, b"", 32, 1331);
    refuse(text, &lend(&[31, 1, 32], rows(9), 5, 96), 7, [33, 1331]);
    look(text, 32, 0, 3, b"");
    text.end("full arena");
}

/// The run's terms have 51, 64 and 43 bytes. With a byte less than all of them none is brought.
fn one_byte_short(text: &mut Text) {
    begin(text, TABLE_NUMBERS, 1482);
    refuse(text, &lend(&[], rows(9), 5, 96), 7, [31, 1325]);
    put_new(text, 1, PROPERTY, 31, 1376);
    refuse(text, &lend(&[], rows(9), 5, 96), 7, [32, 1376]);
    text.end("no room for all terms of a run");
}

/// What an empty load leaves: rule 1 gives two triples in the first pass.
pub const EMPTY: [Row; 4] = [[9, 1, 9, 1, 1], [9, 1, 30, 0, 0], [10, 1, 9, 1, 1], [10, 1, 30, 0, 0]];

fn run_empty(text: &mut Text) {
    accept(text, &lend(&[], rows(4), FINDINGS_NUMBERS, WORK_NUMBERS), &EMPTY, &[], [34, 1483]);
}

/// A term of the run that is held keeps its id; the others follow in their order. A second run brings none.
fn run_terms(text: &mut Text) {
    begin(text, TABLE_NUMBERS, 1483);
    put_new(text, 1, MEMBER, 31, 1368);
    run_empty(text);
    look(text, 33, 0, 1, MEMBERSHIP);
    put_same(text, 1, PROPERTY, 0, 32);
    run_empty(text);
    put_same(text, 1, MEMBER, 0, 31);
    text.end("terms of a run");
}

/// Refusals 2 to 9, the earlier number first where two conditions are met.
fn runs(text: &mut Text) {
    begin(text, TABLE_NUMBERS, ARENA_BYTES);
    put_abc(text);
    before_closing(text);
    too_small(text);
    just_enough(text);
    too_small(text);
    just_enough(text);
    text.end("runs");
}

/// 34 terms, so 74 numbers for the list work buffer.
fn before_closing(text: &mut Text) {
    let (ragged, blank, unknown) = ([31, 1, 0, 31], [31, 1, 34, 31, 1, 0], [31, 1, 32, 34, 1, 32]);
    let as_before = [34, 1340];
    refuse(text, &lend(&ragged, rows(9) - 1, 5, 96), 2, as_before);
    refuse(text, &lend(&[0; 49155], rows(9) - 1, 5, 96), 3, as_before);
    for store in [rows(9) - 1, rows(9) + 1, 27, 3] {
        refuse(text, &lend(&blank, store, 5, 96), 4, as_before);
    }
    refuse(text, &lend(&blank, rows(9), 4, 96), 4, as_before);
    refuse(text, &lend(&blank, rows(9), 5, 73), 4, as_before);
    refuse(text, &lend(&unknown, rows(9), 5, 74), 6, as_before);
    refuse(text, &lend(&blank, rows(9), 5, 74), 5, as_before);
    refuse(text, &lend(&unknown, rows(9), 5, 74), 6, as_before);
}

/// Nine triples and one finding: 8 before 9.
const DISJOINT: [u32; 9] = [32, 26, 33, 31, 1, 33, 31, 1, 32];

fn too_small(text: &mut Text) {
    let after = [37, 1498];
    refuse(text, &lend(&DISJOINT, rows(8), 0, 80), 8, after);
    refuse(text, &lend(&DISJOINT, rows(9), 0, 80), 9, after);
    refuse(text, &lend(&DISJOINT, rows(9), 0, 79), 4, after);
}

fn just_enough(text: &mut Text) {
    let five = [[31, 1, 9, 1, 1], [31, 1, 32, 0, 0], [31, 1, 33, 0, 0], [32, 1, 9, 1, 1], [32, 26, 33, 0, 0]];
    let lent = lend(&DISJOINT, rows(9), FINDINGS_NUMBERS, WORK_NUMBERS);
    accept(text, &lent, &[&EMPTY[..], &five].concat(), &[1, 31, 32, 33, 0], [37, 1498]);
    look(text, 37, 12, 0, b"");
    put_same(text, 1, b"urn:c", 0, 33);
}
