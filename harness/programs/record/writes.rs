//! Lists of writes, with every text written down by hand, and reads of what was written.

use crate::calls::*;
use crate::lists::{lend, ARENA_BYTES, EMPTY, FINDINGS_NUMBERS, TABLE_NUMBERS, WORK_NUMBERS};
use crate::memory::{LEFT_OUT, PAGE, TERMS, TEXT_LENGTH, USED};
use crate::text::Text;

pub fn lists(text: &mut Text) {
    terms(text);
    lines(text);
    text.end("write: terms and lines");
    left_out(text);
    text.end("write: triples that are left out");
    before_the_text(text);
    unknown_ids(text);
    text.end("write: refusals 1, 4 and 6");
    full_page(text);
    text.end("write: refusal 15");
    run_and_write(text);
    turns_and_write(text);
    text.end("write: stores of runs, and reads of their texts");
}

/// Terms from id 31 on that a file can have: kind, bytes, and the bytes used after each.
const WRITABLE: [(u32, &[u8], u32); 12] = [
    (1, b"urn:a", 1330),
    (1, b"urn:p", 1335),
    (2, b"b.1", 1338),
    (3, b"x\0http://www.w3.org/2001/XMLSchema#string", 1379),
    (3, b"x\0en-US", 1386),
    (3, b"1\0urn:d", 1393),
    (3, b"\"\\\n\r\t\0\x7f\xef\xbf\xbe'\0a", 1406),
    (1, b":", 1407),
    (2, b":", 1408),
    (3, b"\0http://www.w3.org/2001/XMLSchema#string", 1448),
    (3, b"a:b\0x\0urn", 1457),
    (3, b"\xc3\xa9\0:", 1461),
];

/// What each is in a file, in the same order.
const TEXTS: [&[u8]; 12] = [
    b"<urn:a>",
    b"<urn:p>",
    b"_:b.1",
    b"\"x\"",
    b"\"x\"@en-US",
    b"\"1\"^^<urn:d>",
    b"\"\\\"\\\\\\n\\r\t\0\x7f\xef\xbf\xbe'\"@a",
    b"<:>",
    b"_::",
    b"\"\"",
    b"\"a:b\0x\"@urn",
    b"\"\xc3\xa9\"^^<:>",
];

/// A row of a triple; pass and rule are no numbers of terms, and do not matter.
fn row(s: u32, p: u32, o: u32) -> Row {
    [s, p, o, 4294967295, 77]
}

fn put_writable(text: &mut Text) {
    begin(text, TABLE_NUMBERS, ARENA_BYTES);
    for (id, (kind, bytes, used)) in (31..).zip(WRITABLE) {
        put_new(text, kind, bytes, id, used);
    }
}

/// Each term as an object, alone on a page of just its line's length and of some bytes more, and all of them in one text.
fn terms(text: &mut Text) {
    put_writable(text);
    let line = |term: &[u8]| [b"<urn:a> <urn:p> ", term, b" .\n"].concat();
    for (id, term) in (31..).zip(TEXTS) {
        let due = line(term);
        write_all(text, &[row(31, 32, id)], 1, due.len(), &due, 0);
        write_all(text, &[row(31, 32, id)], 1, due.len() + 9, &due, 0);
    }
    text.expect_wrong(TEXT_LENGTH);
    text.expect_wrong(LEFT_OUT);
    text.expect_wrong(PAGE.first);
    text.expect_wrong(PAGE.first + 30);
    let store: Vec<Row> = (31..43).map(|id| row(31, 32, id)).collect();
    write_all(text, &store, 12, 400, &TEXTS.map(line).concat(), 0);
}

/// Subjects and predicates; id 0 and terms of a start; rows that do not ascend, and rows twice; no row, and fewer than the store has.
fn lines(text: &mut Text) {
    let store = [row(39, 38, 31), row(33, 31, 33), row(31, 31, 31), row(33, 31, 33)];
    let due = b"_:: <:> <urn:a> .\n_:b.1 <urn:a> _:b.1 .\n<urn:a> <urn:a> <urn:a> .\n_:b.1 <urn:a> _:b.1 .\n";
    write_all(text, &store, 4, 100, due, 0);
    write_all(text, &store, 3, 100, &due[..66], 0);
    write_all(text, &store, 1, 18, &due[..18], 0);
    write_all(text, &store, 0, 9, b"", 0);
    write_all(text, &store, 0, 0, b"", 0);
    write_all(text, &[], 0, 9, b"", 0);
    write_all(text, &[], 0, 0, b"", 0);
    let due =
        b"<urn:_> <urn:_> <urn:_> .\n<http://www.w3.org/2002/07/owl#Thing> <http://www.w3.org/1999/02/22-rdf-syntax-ns#type> \
        <http://www.w3.org/2002/07/owl#Class> .\n";
    write_all(text, &[row(0, 0, 0), row(9, 1, 30)], 2, 200, due, 0);
    // Rows of zeros behind the count, and among those counted.
    write_all(text, &[row(31, 32, 33), [0; 5], [0; 5]], 1, 60, b"<urn:a> <urn:p> _:b.1 .\n", 0);
    write_all(text, &[[0; 5], row(31, 32, 33)], 2, 60, b"<urn:_> <urn:_> <urn:_> .\n<urn:a> <urn:p> _:b.1 .\n", 0);
}

/// Terms from id 34 on that no file has, behind a named node, a blank node and a literal.
const UNWRITABLE: [(u32, &[u8], u32); 18] = [
    (1, b"urn", 1341),
    (1, b"urn: a", 1347),
    (1, b"u:>", 1350),
    (1, b"u:\0", 1353),
    (1, b"u:\xff", 1356),
    (1, b"", 1356),
    (2, b"a.", 1358),
    (2, b"-a", 1360),
    (2, b"a b", 1363),
    (2, b"", 1363),
    (2, b"\xc0\x80", 1365),
    (3, b"x", 1366),
    (3, b"x\0", 1368),
    (3, b"x\0e_n", 1373),
    (3, b"x\0en-", 1378),
    (3, b"x\0u:<", 1383),
    (3, b"\xed\xa0\x80\0en", 1389),
    (3, b"x\0\xf4\x90\x80\x80", 1395),
];

/// Each reason to leave a triple out, alone; then all of them at once, behind, between and before triples that are written. A triple counts
/// once, however many reasons it has.
fn left_out(text: &mut Text) {
    begin(text, 320, ARENA_BYTES);
    put_new(text, 1, b"urn:a", 31, 1330);
    put_new(text, 2, b"b", 32, 1331);
    put_new(text, 3, b"x\0urn:d", 33, 1338);
    for (id, (kind, bytes, used)) in (34..).zip(UNWRITABLE) {
        put_new(text, kind, bytes, id, used);
    }
    let mut out = vec![row(33, 31, 31), row(31, 32, 31), row(31, 33, 31), row(33, 33, 33), row(34, 31, 31), row(31, 34, 31)];
    out.extend([row(40, 31, 31), row(45, 34, 40)]);
    out.extend((34..52).map(|id| row(31, 31, id)));
    for row in &out {
        write_all(text, &[*row], 1, 0, b"", 1);
    }
    write_all(text, &out, 26, 20, b"", 26);
    let store = [&[row(32, 31, 33)][..], &out[..9], &[row(31, 31, 32)], &out[9..], &[row(32, 31, 31)]].concat();
    let due = b"_:b <urn:a> \"x\"^^<urn:d> .\n<urn:a> <urn:a> _:b .\n_:b <urn:a> <urn:a> .\n";
    write_all(text, &store, 29, due.len(), due, 26);
    write_all(text, &store, 28, due.len(), &due[..49], 26);
    write_all(text, &store, 11, 99, &due[..49], 9);
    text.expect_wrong(LEFT_OUT);
}

/// A broken dictionary, then a store of no whole rows or a count past it, whatever the ids and the page are: nothing changes.
fn before_the_text(text: &mut Text) {
    put_writable(text);
    let store = [row(31, 32, 33), row(43, 43, 43)];
    for (cell, was) in [(USED, 1461), (TERMS, 43)] {
        text.change(|m| m.0[cell] = was + 1);
        for triples in [0, 1, 2, 3] {
            write_none(text, &store, triples, 30, 1);
        }
        write_ragged(text, 9, 1);
        text.change(|m| m.0[cell] = was);
    }
    for triples in [3, 4, 10, 4294967295] {
        write_none(text, &store, triples, 30, 4);
        write_none(text, &store, triples, 0, 4);
    }
    write_none(text, &[], 1, 30, 4);
    for triples in [0, 1] {
        write_none(text, &store, 3, 30, 4);
        text.change(|m| m.0[crate::memory::TRIPLES] = triples);
        for numbers in [9, 8, 7, 6, 4, 3, 1] {
            write_ragged(text, numbers, 4);
        }
    }
    whole(text);
}

/// Ids of no term in each place, in a triple that would be left out too, and before a page that is too short. Behind the count, and in the
/// place of pass and rule, any number may stand.
fn unknown_ids(text: &mut Text) {
    let good = row(31, 32, 33);
    for id in [43, 44, 4294967295] {
        for bad in [row(id, 32, 33), row(31, id, 33), row(31, 32, id), row(34, id, 33), row(34, 34, id)] {
            write_none(text, &[good, bad], 2, 99, 6);
            write_none(text, &[bad, good], 2, 0, 6);
        }
        write_all(text, &[good, row(id, id, id)], 1, 30, b"<urn:a> <urn:p> _:b.1 .\n", 0);
        write_all(text, &[[31, 32, 33, id, id]], 1, 30, b"<urn:a> <urn:p> _:b.1 .\n", 0);
    }
    write_none(text, &[good, row(43, 43, 43)], 2, 30, 6);
    text.expect_wrong(PAGE.first);
}

/// A page of a byte less than the text has, of none, and of just as many. What is left out needs no room.
fn full_page(text: &mut Text) {
    put_writable(text);
    let store = [row(31, 32, 33), row(34, 32, 33), row(33, 32, 37), row(31, 31, 31)];
    let due = b"<urn:a> <urn:p> _:b.1 .\n_:b.1 <urn:p> \"\\\"\\\\\\n\\r\t\0\x7f\xef\xbf\xbe'\"@a .\n<urn:a> <urn:a> <urn:a> .\n";
    for page in [0, 1, 23, 24, 25, due.len() - 27, due.len() - 1] {
        write_none(text, &store, 4, page, 15);
    }
    text.expect_wrong(PAGE.first);
    write_all(text, &store, 4, due.len(), due, 1);
    write_all(text, &store, 4, due.len() + 1, due, 1);
    write_all(text, &store, 2, 24, &due[..24], 1);
    write_none(text, &store, 2, 23, 15);
    write_none(text, &store, 3, 24, 15);
    write_all(text, &store[1..], 1, 0, b"", 1);
    write_none(text, &store[..1], 1, 0, 15);
    whole(text);
}

/// The answer of a run behind that of an empty load: 33 is urn:a, 32 urn:b, 31 urn:c, so that a file names them in another order.
const ANSWER: [Row; 5] = [[32, 1, 9, 1, 1], [32, 8, 31, 0, 0], [33, 1, 9, 1, 1], [33, 1, 31, 1, 14], [33, 1, 32, 0, 0]];

const ANSWER_TEXT: &str =
    "OWLThing> TYPE OWLThing> .\nOWLThing> TYPE OWLClass> .\nOWLNothing> TYPE OWLThing> .\nOWLNothing> TYPE OWLClass> .\n\
    <urn:b> TYPE OWLThing> .\n<urn:b> <http://www.w3.org/2000/01/rdf-schema#subClassOf> <urn:c> .\n<urn:a> TYPE OWLThing> .\n\
    <urn:a> TYPE <urn:c> .\n<urn:a> TYPE <urn:b> .\n";

/// With the names of the vocabulary written out.
fn in_full(text: &str) -> Vec<u8> {
    let text = text.replace("TYPE", "<http://www.w3.org/1999/02/22-rdf-syntax-ns#type>");
    text.replace("OWL", "<http://www.w3.org/2002/07/owl#").into_bytes()
}

/// A run, a write of its answer, and a read of the text into a new dictionary: the triples of the answer by the ids that their terms have
/// there. A run of them gives the same triples, and a write of that the same lines for each.
fn run_and_write(text: &mut Text) {
    begin(text, TABLE_NUMBERS, ARENA_BYTES);
    put_new(text, 1, b"urn:c", 31, 1330);
    put_new(text, 1, b"urn:b", 32, 1335);
    put_new(text, 1, b"urn:a", 33, 1340);
    let answer = [&EMPTY[..], &ANSWER].concat();
    let load = [33, 1, 32, 32, 8, 31];
    accept(text, &lend(&load, rows(9), FINDINGS_NUMBERS, WORK_NUMBERS), &answer, &[], [37, 1498]);
    let due = in_full(ANSWER_TEXT);
    write_all(text, &answer, 9, due.len(), &due, 0);
    write_none(text, &answer, 9, due.len() - 1, 15);
    begin(text, TABLE_NUMBERS, ARENA_BYTES);
    let read = [&loaded(&EMPTY)[..], &[31, 1, 9, 31, 8, 32, 33, 1, 9, 33, 1, 32, 33, 1, 31]].concat();
    read_all(text, &due, 27, &read, [34, 1340]);
    look(text, 31, 0, 1, b"urn:b");
    look(text, 32, 0, 1, b"urn:c");
    look(text, 33, 0, 1, b"urn:a");
    let rows_read: Vec<Row> = read.chunks(3).map(|t| row(t[0], t[1], t[2])).collect();
    write_all(text, &rows_read, 9, due.len() + 3, &due, 0);
}

/// A store between two passes, with the triples of id 0 that are in it then: its first three rows.
fn turns_and_write(text: &mut Text) {
    begin(text, TABLE_NUMBERS, ARENA_BYTES);
    put_new(text, 1, b"urn:c", 31, 1330);
    put_new(text, 3, b"1\0urn:d", 32, 1337);
    put_new(text, 3, b"2\0urn:d", 33, 1344);
    put_new(text, 1, b"urn:b", 34, 1349);
    // 31 is functional: what 9 and 34 have are different, so 0 0 0 comes in, and each equals itself.
    let load = [31, 1, 19, 9, 31, 32, 34, 31, 33];
    let start = [[9, 1, 30, 0, 0], [9, 31, 32, 0, 0], [10, 1, 30, 0, 0], [31, 1, 19, 0, 0], [34, 31, 33, 0, 0]];
    open(text, &lend(&load, rows(30), FINDINGS_NUMBERS, WORK_NUMBERS), &start, [38, 1507]);
    let first = [
        [
            [0, 0, 0, 1, 9],
            [9, 1, 9, 1, 1],
            [9, 1, 30, 0, 0],
            [9, 31, 32, 0, 0],
            [10, 1, 9, 1, 1],
            [10, 1, 30, 0, 0],
            [31, 1, 9, 1, 1],
        ]
        .as_slice(),
        &[[31, 1, 19, 0, 0], [32, 11, 32, 1, 9], [33, 11, 33, 1, 9], [34, 1, 9, 1, 1], [34, 31, 33, 0, 0]],
    ]
    .concat();
    pass_on(text, &first, [38, 1507]);
    let due = in_full(
        "<urn:_> <urn:_> <urn:_> .\nOWLThing> TYPE OWLThing> .\nOWLThing> TYPE OWLClass> .\nOWLThing> <urn:c> \"1\"^^<urn:d> .\n\
         OWLNothing> TYPE OWLThing> .\nOWLNothing> TYPE OWLClass> .\n<urn:c> TYPE OWLThing> .\n\
         <urn:c> TYPE OWLFunctionalProperty> .\n<urn:b> TYPE OWLThing> .\n<urn:b> <urn:c> \"2\"^^<urn:d> .\n",
    );
    write_all(text, &first, 12, due.len() + 20, &due, 2);
    write_all(text, &first, 1, 26, &due[..26], 0);
}
