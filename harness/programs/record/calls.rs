//! Calls with what they must give, written by hand as docs/REFERENCE.md has it: the model that the text's values come from has to agree.

use crate::memory::*;
use crate::text::Text;
use model::{LOAD_WIDTH, STORE_WIDTH};

/// What a lent buffer holds before a run, a read or a write, so that a number left alone shows.
const MARK: u32 = 7;

/// What a run is lent beside the dictionary: a load, and so many numbers of store, findings and list work buffer.
pub struct Lent<'a> {
    pub load: &'a [u32],
    pub store: usize,
    pub findings: usize,
    pub work: usize,
}

/// The dictionary's counters.
pub type Counters = [u32; 2];

#[track_caller]
fn is_number(text: &Text, number: u32) {
    assert_eq!(text.memory().0[NUMBER], number, "the call's number");
}

#[track_caller]
pub fn counters(text: &Text, want: Counters) {
    assert_eq!(text.memory().counters(), want, "terms and bytes used");
}

/// A start in a table and an arena of these lengths, which is accepted: 31 terms of 1,325 bytes.
#[track_caller]
pub fn begin(text: &mut Text, table: usize, arena: usize) {
    lengths(text, table, arena);
    text.call(Call::Start);
    is_number(text, 0);
    counters(text, [31, 1325]);
}

/// So much of the table and of the arena is lent from now on.
pub fn lengths(text: &mut Text, table: usize, arena: usize) {
    text.change(|m| {
        m.lend_first(TABLE, table);
        m.lend_first(ARENA, arena);
    });
}

/// A put that answers the number and the id, and leaves these counters.
#[track_caller]
fn put(text: &mut Text, kind: u32, bytes: &[u8], number: u32, id: u32, after: Counters) {
    text.change(|m| {
        m.0[KIND] = kind;
        m.lend_bytes(TERM, bytes);
    });
    text.call(Call::Put);
    is_number(text, number);
    assert_eq!(text.memory().0[NEW_ID], id, "the id");
    counters(text, after);
}

/// A put of a new term, which gets the next id and leaves so many bytes used.
#[track_caller]
pub fn put_new(text: &mut Text, kind: u32, bytes: &[u8], id: u32, used: u32) {
    put(text, kind, bytes, 0, id, [id + 1, used]);
}

/// A put that changes nothing: of a term held, or refused.
#[track_caller]
pub fn put_same(text: &mut Text, kind: u32, bytes: &[u8], number: u32, id: u32) {
    let before = text.memory().clone();
    put(text, kind, bytes, number, id, before.counters());
    for r in [TABLE, ARENA] {
        assert_eq!(before.lent(r), text.memory().lent(r), "a buffer changed");
    }
}

/// A lookup that answers the number, the kind and the bytes.
#[track_caller]
pub fn look(text: &mut Text, id: u32, number: u32, kind: u32, bytes: &[u8]) {
    text.change(|m| m.0[ID] = id);
    text.call(Call::Lookup);
    is_number(text, number);
    assert_eq!(text.memory().0[FOUND_KIND], kind, "the kind");
    assert_eq!(text.memory().lent_bytes(PART), bytes, "the part");
}

/// Contents that are a dictionary's: id 0 is found.
#[track_caller]
pub fn whole(text: &mut Text) {
    look(text, 0, 0, 1, b"urn:_");
}

/// Contents that no sequence of puts leaves: any lookup is refused with 1 and an empty part.
#[track_caller]
pub fn broken(text: &mut Text) {
    look(text, 0, 1, 0, b"");
    look(text, 4294967295, 1, 0, b"");
}

/// A run that answers the number and the triple count, and leaves these counters.
#[track_caller]
fn run(text: &mut Text, lent: &Lent, number: u32, count: usize, after: Counters) {
    text.change(|m| {
        m.lend(LOAD, lent.load);
        m.lend(STORE, &vec![MARK; lent.store]);
        m.lend(FINDINGS, &vec![MARK; lent.findings]);
        m.lend(WORK, &vec![MARK; lent.work]);
    });
    text.call(Call::Run);
    is_number(text, number);
    assert_eq!(text.memory().0[COUNT] as usize, count, "the triple count");
    counters(text, after);
}

/// The numbers, then zeros.
#[track_caller]
fn holds(text: &Text, r: Region, numbers: &[u32]) {
    let (first, others) = text.memory().lent(r).split_at(numbers.len());
    assert_eq!(first, numbers);
    assert!(others.iter().all(|n| *n == 0), "zeros after them");
}

/// A row of a store: subject, predicate, object, pass and rule.
pub type Row = [u32; STORE_WIDTH];

/// The numbers of a store with room for so many rows.
pub fn rows(count: usize) -> usize {
    STORE_WIDTH * count
}

/// The triples of rows, as a load has them.
pub fn loaded(rows: &[Row]) -> Vec<u32> {
    rows.iter().flat_map(|row| &row[..LOAD_WIDTH]).copied().collect()
}

/// The rows of the same triples where they are loaded: starting triples.
pub fn starting(rows: &[Row]) -> Vec<Row> {
    rows.iter().map(|[s, p, o, _, _]| [*s, *p, *o, 0, 0]).collect()
}

/// A run that is accepted: the answer, then zeros; the findings, then zeros; a list work buffer of zeros.
#[track_caller]
pub fn accept(text: &mut Text, lent: &Lent, answer: &[Row], found: &[u32], after: Counters) {
    run(text, lent, 0, answer.len(), after);
    let mut counts = [0; 5];
    found.chunks(5).for_each(|record| counts[record[0] as usize - 1] += 1);
    assert_eq!(text.memory().0[COUNTS..COUNTS + 5], counts, "five counts");
    holds(text, STORE, answer.as_flattened());
    holds(text, FINDINGS, found);
    holds(text, WORK, &[]);
}

/// A run that is refused: by 1 to 7 the buffers stay as they are, by 8 and 9 they are all zero.
#[track_caller]
pub fn refuse(text: &mut Text, lent: &Lent, number: u32, after: Counters) {
    run(text, lent, number, 0, after);
    assert_eq!(text.memory().0[COUNTS..COUNTS + 5], [0; 5], "five counts");
    let left = if number < 8 { MARK } else { 0 };
    for r in [STORE, FINDINGS, WORK] {
        assert!(text.memory().lent(r).iter().all(|n| *n == left), "a buffer of {left}");
    }
}

/// An opening call or a pass that answers the number, the count, whether the run is done and the five counts, and leaves these counters.
#[track_caller]
fn turn(text: &mut Text, call: Call, [number, count, done]: [u32; 3], found: &[u32], after: Counters) {
    text.call(call);
    is_number(text, number);
    assert_eq!(text.memory().0[COUNT], count, "the triple count");
    assert_eq!(text.memory().0[DONE], done, "whether the run is done");
    let mut counts = [0; 5];
    found.chunks(5).for_each(|record| counts[record[0] as usize - 1] += 1);
    assert_eq!(text.memory().0[COUNTS..COUNTS + 5], counts, "five counts");
    counters(text, after);
}

/// Buffers for a run in turns, all marked.
fn lend_turns(text: &mut Text, lent: &Lent) {
    text.change(|m| {
        m.lend(LOAD, lent.load);
        m.lend(STORE, &vec![MARK; lent.store]);
        m.lend(FINDINGS, &vec![MARK; lent.findings]);
        m.lend(WORK, &vec![MARK; lent.work]);
    });
}

/// The numbers of a buffer with the mark in each.
fn mark(text: &mut Text, regions: &[Region]) {
    text.change(|m| {
        for r in regions {
            let marks = vec![MARK; m.lent(*r).len()];
            m.lend(*r, &marks);
        }
    });
}

/// An opening call that is accepted: the starting triples, then zeros; findings and list work buffer of zeros.
#[track_caller]
pub fn open(text: &mut Text, lent: &Lent, start: &[Row], after: Counters) {
    lend_turns(text, lent);
    turn(text, Call::Open, [0, start.len() as u32, 0], &[], after);
    holds(text, STORE, start.as_flattened());
    holds(text, FINDINGS, &[]);
    holds(text, WORK, &[]);
}

/// An opening call that is refused: by 1 to 7 the buffers stay as they are, by 8 they are all zero.
#[track_caller]
pub fn open_none(text: &mut Text, lent: &Lent, number: u32, after: Counters) {
    lend_turns(text, lent);
    turn(text, Call::Open, [number, 0, 0], &[], after);
    let left = if number < 8 { MARK } else { 0 };
    for r in [STORE, FINDINGS, WORK] {
        assert!(text.memory().lent(r).iter().all(|n| *n == left), "a buffer of {left}");
    }
}

/// A pass over the store as it is, whose findings and list work buffer are marked, that adds triples: these rows, then zeros.
#[track_caller]
pub fn pass_on(text: &mut Text, rows: &[Row], after: Counters) {
    mark(text, &[FINDINGS, WORK]);
    turn(text, Call::Pass, [0, rows.len() as u32, 0], &[], after);
    holds(text, STORE, rows.as_flattened());
    holds(text, FINDINGS, &[]);
    holds(text, WORK, &[]);
}

/// The same for one that adds none, which ends the run: the answer and the findings.
#[track_caller]
pub fn pass_done(text: &mut Text, answer: &[Row], found: &[u32], after: Counters) {
    mark(text, &[FINDINGS, WORK]);
    turn(text, Call::Pass, [0, answer.len() as u32, 1], found, after);
    holds(text, STORE, answer.as_flattened());
    holds(text, FINDINGS, found);
    holds(text, WORK, &[]);
}

/// A pass that is refused: by 1 to 7, 4 for the store among them, nothing changes; by 8 and 9 the buffers are all zero.
#[track_caller]
pub fn pass_none(text: &mut Text, number: u32, after: Counters) {
    mark(text, &[FINDINGS, WORK]);
    let before = text.memory().clone();
    turn(text, Call::Pass, [number, 0, 0], &[], after);
    for r in [STORE, FINDINGS, WORK] {
        let now = text.memory().lent(r);
        assert!(if number < 8 { now == before.lent(r) } else { now.iter().all(|n| *n == 0) }, "a buffer after {number}");
    }
    if number < 8 {
        for r in [TABLE, ARENA] {
            assert_eq!(before.lent(r), text.memory().lent(r), "the dictionary");
        }
    }
}

/// Numbers of the load behind what a read is lent, and of the page behind what a write is lent: they have to be left alone.
const BEHIND: usize = 3;

/// A read of a file into a load of so many numbers that answers the number and the triple count, and leaves these counters.
#[track_caller]
fn read(text: &mut Text, file: &[u8], load: usize, number: u32, count: usize, after: Counters) {
    text.change(|m| {
        m.lend_bytes(TERM, file);
        m.lend(LOAD, &vec![MARK; load + BEHIND]);
        m.lend_first(LOAD, load);
    });
    text.call(Call::Read);
    is_number(text, number);
    assert_eq!(text.memory().0[COUNT] as usize, count, "the triple count");
    counters(text, after);
    assert_eq!(text.memory().0[LOAD.first + load..][..BEHIND], [MARK; BEHIND], "what is not lent");
}

/// A read that is accepted: the triples, then zeros.
#[track_caller]
pub fn read_all(text: &mut Text, file: &[u8], load: usize, triples: &[u32], after: Counters) {
    read(text, file, load, 0, triples.len() / LOAD_WIDTH, after);
    holds(text, LOAD, triples);
}

/// A read that is refused: the dictionary is as before, and the load too by 1 and 2, else all zero.
#[track_caller]
pub fn read_none(text: &mut Text, file: &[u8], load: usize, number: u32) {
    let before = text.memory().clone();
    read(text, file, load, number, 0, before.counters());
    for r in [TABLE, ARENA] {
        assert_eq!(before.lent(r), text.memory().lent(r), "a buffer changed");
    }
    let left = if number < 3 { MARK } else { 0 };
    assert!(text.memory().lent(LOAD).iter().all(|n| *n == left), "a load of {left}");
}

/// A write of the first triples of a store to a page of so many bytes that answers the number, the text's length and the number of triples
/// left out, and changes nothing but the page.
#[track_caller]
fn write(text: &mut Text, store: &[Row], triples: u32, page: usize, [number, length, left_out]: [u32; 3]) {
    text.change(|m| {
        m.lend(STORE, store.as_flattened());
        m.0[TRIPLES] = triples;
        m.lend(PAGE, &vec![MARK; page + BEHIND]);
        m.lend_first(PAGE, page);
    });
    write_lent(text, [number, length, left_out]);
}

/// The same with what is lent already.
#[track_caller]
fn write_lent(text: &mut Text, [number, length, left_out]: [u32; 3]) {
    let before = text.memory().clone();
    text.call(Call::Write);
    is_number(text, number);
    assert_eq!(text.memory().0[TEXT_LENGTH], length, "the text's length");
    assert_eq!(text.memory().0[LEFT_OUT], left_out, "the triples left out");
    counters(text, before.counters());
    for r in [TABLE, ARENA, STORE] {
        assert_eq!(before.lent(r), text.memory().lent(r), "a buffer changed");
    }
    let end = PAGE.first + before.lent(PAGE).len();
    assert_eq!(text.memory().0[end..][..BEHIND], before.0[end..][..BEHIND], "what is not lent");
}

/// A write that is accepted: the text, then zeros.
#[track_caller]
pub fn write_all(text: &mut Text, store: &[Row], triples: u32, page: usize, due: &[u8], left_out: u32) {
    write(text, store, triples, page, [0, due.len() as u32, left_out]);
    holds(text, PAGE, &due.iter().map(|b| u32::from(*b)).collect::<Vec<_>>());
}

/// A write that is refused: the page is as before by 1, 4 and 6, and all zero by 15.
#[track_caller]
pub fn write_none(text: &mut Text, store: &[Row], triples: u32, page: usize, number: u32) {
    write(text, store, triples, page, [number, 0, 0]);
    let left = if number == 15 { 0 } else { MARK };
    assert!(text.memory().lent(PAGE).iter().all(|n| *n == left), "a page of {left}");
}

/// The same for a store of so many numbers, which is refused with 4 or, where the dictionary is broken, with 1.
#[track_caller]
pub fn write_ragged(text: &mut Text, numbers: usize, number: u32) {
    text.change(|m| m.lend_first(STORE, numbers));
    write_lent(text, [number, 0, 0]);
}

/// The number at a place of the table.
#[track_caller]
pub fn number_at(text: &Text, at: usize, want: u32) {
    assert_eq!(text.memory().lent(TABLE)[at], want);
}

/// The entry at a place of the table: start, length, kind and next id.
#[track_caller]
pub fn entry_at(text: &Text, at: usize, want: [u32; 4]) {
    assert_eq!(text.memory().lent(TABLE)[at..at + 4], want);
}

/// Bytes of the arena from a place on.
#[track_caller]
pub fn bytes_at(text: &Text, at: usize, want: &[u8]) {
    assert_eq!(text.memory().lent_bytes(ARENA)[at..at + want.len()], *want);
}
