//! Lists of opening calls and passes, with every store after them written down by hand, other calls between, and the stores that a pass
//! takes and refuses.

use crate::calls::*;
use crate::lists::{lend, put_abc, ARENA_BYTES, EMPTY, FINDINGS_NUMBERS, MEMBER, PROPERTY, TABLE_NUMBERS};
use crate::memory::{LOAD, STORE, WORK};
use crate::text::Text;

pub fn lists(text: &mut Text) {
    functional(text);
    text.end("turns: zero triples, and passes after the last");
    findings(text);
    text.end("turns: findings, and buffers that are too small");
    between_other_calls(text);
    another_load(text);
    text.end("turns: other calls between, and another load");
    taken(text);
    containers(text);
    text.end("turns: stores that a pass takes");
    refused(text);
    text.end("turns: stores that a pass refuses");
    before_the_store(text);
    no_room(text);
    text.end("turns: refusals 1 to 7, before the store");
}

/// Terms 31 to 35, named nodes of five bytes each, in a new dictionary.
fn five(text: &mut Text) {
    begin(text, TABLE_NUMBERS, ARENA_BYTES);
    put_abc(text);
    put_new(text, 1, b"urn:d", 34, 1345);
    put_new(text, 1, b"urn:e", 35, 1350);
}

/// Terms and bytes with the five, and with the three terms of a run.
const FIVE: Counters = [36, 1350];
const THREE_MORE: Counters = [39, 1508];

/// Two numbers for each of the five's terms and three more; and for those that are held after an opening call.
const WORK_TO_OPEN: usize = 78;
const WORK_TO_PASS: usize = 84;

const CLASSES: [Row; 2] = [[9, 1, 30, 0, 0], [10, 1, 30, 0, 0]];

/// Rows in their order, by s, p and o.
fn ordered(parts: &[&[Row]]) -> Vec<Row> {
    let mut rows = parts.concat();
    rows.sort_by_key(|row| [row[0], row[1], row[2]]);
    rows
}

/// 31 is functional, and 32 and 34 have a value each. 5 triples; 13 with what follows, 0 0 0 among them; 16; and none is added: 14 without
/// 0 0 0 and 0 1 9. Afterwards these are found anew, in passes after the largest of the store.
fn functional(text: &mut Text) {
    five(text);
    let start = ordered(&[&CLASSES, &[[31, 1, 19, 0, 0], [32, 31, 33, 0, 0], [34, 31, 35, 0, 0]]]);
    let equal = [[33, 11, 33, 1, 9], [35, 11, 35, 1, 9]];
    let things = [[9, 1, 9, 1, 1], [10, 1, 9, 1, 1], [31, 1, 9, 1, 1], [32, 1, 9, 1, 1], [34, 1, 9, 1, 1]];
    let second = [[33, 1, 9, 2, 1], [35, 1, 9, 2, 1]];
    let load = [31, 1, 19, 32, 31, 33, 34, 31, 35];
    open(text, &lend(&load, rows(17), 5, WORK_TO_PASS), &start, THREE_MORE);
    let first = ordered(&[&start, &things, &equal, &[[0, 0, 0, 1, 9]]]);
    assert_eq!(first.len(), 13);
    pass_on(text, &first, THREE_MORE);
    pass_on(text, &ordered(&[&first, &second, &[[0, 1, 9, 2, 1]]]), THREE_MORE);
    let answer = ordered(&[&start, &things, &equal, &second]);
    assert_eq!(answer.len(), 14);
    pass_done(text, &answer, &[], THREE_MORE);
    pass_on(text, &ordered(&[&answer, &[[0, 0, 0, 3, 9]]]), THREE_MORE);
    pass_on(text, &ordered(&[&answer, &[[0, 0, 0, 3, 9], [0, 1, 9, 4, 1]]]), THREE_MORE);
    pass_done(text, &answer, &[], THREE_MORE);
    let whole = lend(&load, rows(17), 5, WORK_TO_PASS);
    accept(text, &whole, &answer, &[], THREE_MORE);
}

/// 31 is a 32, a subclass of 33, and the two are disjoint. One finding, which comes with the last pass.
fn findings(text: &mut Text) {
    let load = [31, 1, 32, 32, 8, 33, 32, 26, 33];
    let start = ordered(&[&CLASSES, &[[31, 1, 32, 0, 0], [32, 8, 33, 0, 0], [32, 26, 33, 0, 0]]]);
    let all = ordered(&[&start, &EMPTY[..1], &EMPTY[2..3], &[[31, 1, 9, 1, 1], [31, 1, 33, 1, 14], [32, 1, 9, 1, 1]]]);
    five(text);
    open(text, &lend(&load, rows(10), 5, WORK_TO_PASS), &start, THREE_MORE);
    pass_on(text, &all, THREE_MORE);
    pass_done(text, &all, &[1, 31, 32, 33, 0], THREE_MORE);
    open(text, &lend(&load, rows(10), 0, WORK_TO_PASS), &start, THREE_MORE);
    pass_on(text, &all, THREE_MORE);
    pass_none(text, 9, THREE_MORE);
    // The store is all zero now: no starting triple is in it.
    pass_none(text, 4, THREE_MORE);
    // Nine rows take the start, and not the first pass; four do not take the start.
    five(text);
    open(text, &lend(&load, rows(9), 0, WORK_TO_PASS), &start, THREE_MORE);
    pass_none(text, 8, THREE_MORE);
    five(text);
    open_none(text, &lend(&load, rows(4), 5, WORK_TO_OPEN), 8, THREE_MORE);
    // A start that is closed: an opening call is not done, the first pass is.
    open(text, &lend(&[9, 1, 9, 10, 1, 9], rows(4), 0, WORK_TO_PASS), &starting(&EMPTY), THREE_MORE);
    pass_done(text, &starting(&EMPTY), &[], THREE_MORE);
    open(text, &lend(&[], rows(4), 0, WORK_TO_PASS), &CLASSES, THREE_MORE);
    pass_on(text, &EMPTY, THREE_MORE);
    pass_done(text, &EMPTY, &[], THREE_MORE);
}

const SUBCLASS: [u32; 6] = [31, 1, 32, 32, 8, 33];

/// "31 1 32, 32 8 33: nine triples", four of them at the start.
fn subclass() -> [Vec<Row>; 2] {
    let start = ordered(&[&CLASSES, &[[31, 1, 32, 0, 0], [32, 8, 33, 0, 0]]]);
    let all = ordered(&[&start, &EMPTY[..1], &EMPTY[2..3], &[[31, 1, 9, 1, 1], [31, 1, 33, 1, 14], [32, 1, 9, 1, 1]]]);
    [start, all]
}

/// A list work buffer that just suffices for the opening call is too short for the first pass, and again after a put.
fn between_other_calls(text: &mut Text) {
    let [start, all] = subclass();
    five(text);
    open_none(text, &lend(&SUBCLASS, rows(9), 5, WORK_TO_OPEN - 1), 4, FIVE);
    open(text, &lend(&SUBCLASS, rows(9), 5, WORK_TO_OPEN), &start, THREE_MORE);
    look(text, 38, 0, 1, MEMBER);
    put_same(text, 1, PROPERTY, 0, 36);
    pass_none(text, 4, THREE_MORE);
    work_of(text, WORK_TO_PASS - 1);
    pass_none(text, 4, THREE_MORE);
    put_new(text, 2, b"urn:f", 39, 1513);
    work_of(text, WORK_TO_PASS);
    pass_none(text, 4, [40, 1513]);
    work_of(text, WORK_TO_PASS + 2);
    pass_on(text, &all, [40, 1513]);
    put_same(text, 0, b"urn:g", 10, 0);
    look(text, 40, 12, 0, b"");
    pass_done(text, &all, &[], [40, 1513]);
    look(text, 39, 0, 2, b"urn:f");
    pass_done(text, &all, &[], [40, 1513]);
    // A run between is lent a store of its own, and its answer can take a pass too.
    accept(text, &lend(&SUBCLASS, rows(9), FINDINGS_NUMBERS, WORK_TO_PASS + 2), &all, &[], [40, 1513]);
    pass_done(text, &all, &[], [40, 1513]);
}

fn work_of(text: &mut Text, numbers: usize) {
    text.change(|m| m.lend_first(WORK, numbers));
}

fn load_of(text: &mut Text, load: &[u32]) {
    text.change(|m| m.lend(LOAD, load));
}

/// A part of the load, whose lists then count; more than the load; and a load that a file gives.
fn another_load(text: &mut Text) {
    let list = [31, 22, 32, 32, 2, 33, 32, 3, 4, 35, 1, 33];
    let start = ordered(&[&CLASSES, &[[31, 22, 32, 0, 0], [32, 2, 33, 0, 0], [32, 3, 4, 0, 0], [35, 1, 33, 0, 0]]]);
    let things = [[9, 1, 9, 1, 1], [10, 1, 9, 1, 1], [31, 1, 9, 1, 1], [32, 1, 9, 1, 1], [35, 1, 9, 1, 1]];
    let without = ordered(&[&start, &things]);
    five(text);
    open(text, &lend(&list, rows(12), 5, WORK_TO_PASS), &start, THREE_MORE);
    load_of(text, &[35, 1, 33, 31, 22, 32]);
    pass_on(text, &without, THREE_MORE);
    load_of(text, &[35, 1, 33, 31, 22, 32, 33, 1, 33]);
    pass_none(text, 4, THREE_MORE);
    load_of(text, &list);
    pass_on(text, &ordered(&[&without, &[[35, 1, 31, 2, 23]]]), THREE_MORE);
    pass_done(text, &ordered(&[&without, &[[35, 1, 31, 2, 23]]]), &[], THREE_MORE);
    let [start, all] = subclass();
    five(text);
    open(text, &lend(&SUBCLASS, rows(9), 5, WORK_TO_PASS), &start, THREE_MORE);
    let file = b"<urn:a> <http://www.w3.org/1999/02/22-rdf-syntax-ns#type> <urn:b> .\n";
    read_all(text, file, 3, &[31, 1, 32], THREE_MORE);
    pass_on(text, &all, THREE_MORE);
    pass_done(text, &all, &[], THREE_MORE);
}

/// The starting triples of the load 31 1 32.
const START: [Row; 3] = [CLASSES[0], CLASSES[1], [31, 1, 32, 0, 0]];

/// A new dictionary, the load 31 1 32, and a store of these rows, then zeros up to twelve rows.
fn with_store(text: &mut Text, store: &[Row]) {
    five(text);
    change_store(text, store);
}

fn change_store(text: &mut Text, store: &[Row]) {
    text.change(|m| {
        m.lend(LOAD, &[31, 1, 32]);
        m.lend(STORE, &[store.as_flattened(), &vec![0; rows(12 - store.len())]].concat());
        m.lend_first(WORK, WORK_TO_PASS);
    });
}

/// Things by rule 1 in this pass.
fn things(subjects: &[u32], pass: u32) -> Vec<Row> {
    subjects.iter().map(|s| [*s, 1, 9, pass, 1]).collect()
}

/// Stores that no call left: other triples, passes and rules, 0 0 0 with zeros for its numbers, and ids of a run's terms, which this pass
/// puts.
fn taken(text: &mut Text) {
    let after = |store: &[Row], subjects: &[u32], pass: u32| ordered(&[store, &things(subjects, pass)]);
    let other = ordered(&[&START, &[[33, 34, 35, 7, 99]]]);
    with_store(text, &other);
    pass_on(text, &after(&other, &[9, 10, 31, 33], 8), THREE_MORE);
    let numbered = [[9, 1, 30, 3, 1], [10, 1, 30, 0, 9], [31, 1, 32, 65_534, 4_294_967_295]];
    with_store(text, &numbered);
    pass_on(text, &after(&numbered, &[9, 10, 31], 65_535), THREE_MORE);
    pass_done(text, &after(&numbered, &[9, 10, 31], 65_535), &[], THREE_MORE);
    // After 65,535 comes 65,536, and that is over the limit.
    let last = [CLASSES[0], CLASSES[1], [31, 1, 32, 65_535, 0]];
    with_store(text, &last);
    pass_on(text, &after(&last, &[9, 10, 31], 65_536), THREE_MORE);
    pass_none(text, 4, THREE_MORE);
    for zero in [[0, 0, 0, 0, 0], [0, 0, 0, 0, 28]] {
        let zero = [&[zero], &START[..]].concat();
        with_store(text, &zero);
        pass_on(text, &after(&zero, &[0, 9, 10, 31], 1), THREE_MORE);
        pass_done(text, &ordered(&[&START, &things(&[9, 10, 31], 1)]), &[], THREE_MORE);
    }
    let of_a_run = ordered(&[&START, &[[36, 37, 38, 0, 0]]]);
    with_store(text, &of_a_run);
    pass_on(text, &after(&of_a_run, &[9, 10, 31, 36], 1), THREE_MORE);
    look(text, 37, 0, 1, b"http://www.w3.org/2000/01/rdf-schema#ContainerMembershipProperty");
}

/// 36 is rdf:_1: its axioms are starting triples where the load uses it, with the ids that a run's terms would get, 37 to 39.
fn containers(text: &mut Text) {
    let used = [31, 36, 32, 0, 0];
    let axioms = [[36, 1, 37, 0, 0], [36, 1, 38, 0, 0], [36, 7, 39, 0, 0]];
    let put = |text: &mut Text| {
        five(text);
        put_new(text, 1, b"http://www.w3.org/1999/02/22-rdf-syntax-ns#_1", 36, 1395);
    };
    let after = [40, 1553];
    put(text);
    let start = ordered(&[&CLASSES, &[used], &axioms]);
    change_store(text, &start[..start.len() - 1]);
    load_of(text, &[31, 36, 32]);
    pass_none(text, 4, [37, 1395]);
    change_store(text, &start);
    load_of(text, &[31, 36, 32]);
    pass_on(text, &ordered(&[&start, &things(&[9, 10, 31, 36], 1), &[[31, 39, 32, 1, 11]]]), after);
    // In the store alone it brings none.
    put(text);
    change_store(text, &ordered(&[&START, &[used]]));
    pass_on(text, &ordered(&[&START, &[used], &things(&[9, 10, 31], 1)]), after);
}

/// Stores that a pass refuses.
fn unfit() -> [Vec<Row>; 18] {
    let [nine, ten, load] = START;
    let with = |row: Row| ordered(&[&START, &[row]]);
    [
        // A starting triple is missing: one of the two, the load's, or all.
        vec![ten, load],
        vec![nine, ten],
        vec![],
        // Not ascending, and not strictly.
        vec![ten, nine, load],
        vec![nine, nine, ten, load],
        vec![nine, [9, 1, 30, 1, 1], ten, load],
        // Unknown ids, as subject, predicate and object. 36 to 38 would be the run's terms.
        with([39, 1, 9, 0, 0]),
        with([33, 39, 34, 0, 0]),
        with([33, 34, 39, 0, 0]),
        with([33, 34, 4_294_967_295, 0, 0]),
        // A pass over 65,535.
        with([33, 34, 35, 65_536, 1]),
        with([33, 34, 35, 4_294_967_295, 1]),
        vec![[9, 1, 30, 65_536, 0], ten, load],
        // A row of zeros between rows, and numbers behind zeros.
        vec![nine, [0; 5], ten, load],
        vec![nine, ten, load, [0; 5], [33, 34, 35, 0, 0]],
        vec![nine, ten, load, [0; 5], [0, 0, 0, 0, 1]],
        vec![nine, ten, load, [0; 5], [0, 0, 0, 1, 0]],
        vec![nine, ten, load, [0, 0, 0, 1, 9]],
    ]
}

/// Each is refused with 4 and changes nothing: a run's terms are not put.
fn refused(text: &mut Text) {
    five(text);
    for store in unfit() {
        change_store(text, &store);
        pass_none(text, 4, FIVE);
    }
    // A store that is a row too short for its rows lacks the last.
    text.change(|m| m.lend(STORE, START[..2].as_flattened()));
    pass_none(text, 4, FIVE);
    // The same dictionary takes a store that is as it must be.
    change_store(text, &START);
    pass_on(text, &ordered(&[&START, &things(&[9, 10, 31], 1)]), THREE_MORE);
}

/// The refusals of a run, with a store that a pass would refuse.
fn before_the_store(text: &mut Text) {
    five(text);
    let (ragged, blank, unknown) = ([31, 1, 0, 31], [31, 1, 36, 31, 1, 0], [31, 1, 32, 36, 1, 32]);
    let trials = [
        (lend(&ragged, rows(9) - 1, 4, 77), 2),
        (lend(&blank, rows(9) - 1, 5, 78), 4),
        (lend(&blank, rows(9), 4, 78), 4),
        (lend(&blank, rows(9), 5, 77), 4),
        (lend(&blank, rows(9), 5, 78), 5),
        (lend(&unknown, rows(9), 5, 78), 6),
        (lend(&[31, 1, 32], rows(9), 5, 78), 4),
    ];
    for (lent, number) in &trials[..6] {
        open_none(text, lent, *number, FIVE);
        pass_none(text, *number, FIVE);
    }
    // The store is marked, which is no row that a pass takes; the opening call does not read it.
    let (lent, number) = &trials[6];
    text.change(|m| {
        m.lend(LOAD, lent.load);
        m.lend(STORE, &vec![7; lent.store]);
    });
    pass_none(text, *number, FIVE);
    open(text, lent, &START, THREE_MORE);
    // A broken dictionary comes first.
    five(text);
    text.change(|m| m.0[crate::memory::USED] += 1);
    open_none(text, &lend(&ragged, 1, 1, 0), 1, [36, 1351]);
    pass_none(text, 1, [36, 1351]);
}

/// Without room for a run's terms the answer is 7, whatever is in the store: a byte, or an entry, is missing.
fn no_room(text: &mut Text) {
    for (table, arena) in [(TABLE_NUMBERS, 1482), (64 + 4 * 33, ARENA_BYTES)] {
        begin(text, table, arena);
        open_none(text, &lend(&[], rows(9), 5, WORK_TO_PASS), 7, [31, 1325]);
        pass_none(text, 7, [31, 1325]);
        text.change(|m| m.lend(STORE, CLASSES.as_flattened()));
        pass_none(text, 7, [31, 1325]);
    }
    begin(text, 64 + 4 * 34, 1483);
    text.change(|m| m.lend(STORE, &[CLASSES.as_flattened(), &[0; 10]].concat()));
    pass_on(text, &EMPTY, [34, 1483]);
    pass_done(text, &EMPTY, &[], [34, 1483]);
}
