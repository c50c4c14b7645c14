//! Lists of contents that a start and four puts leave, with one thing changed at a time: no sequence of puts leaves them then.

use crate::calls::*;
use crate::memory::{Region, ARENA, TABLE, TERMS, USED};
use crate::text::Text;

pub fn lists(text: &mut Text) {
    each_alone(text);
    counts(text);
    part_lengths(text);
    exchanges(text);
    entries_exchanged(text);
    other_bytes(text);
    gaps(text);
}

/// Ids 31 and 32 in one chain, 33 in front of three of the start's, 34 without bytes. Entry 35 and 20 bytes are unused.
fn four(text: &mut Text) {
    begin(text, 208, 1350);
    put_new(text, 1, b"ab", 31, 1327);
    put_new(text, 1, b"ba", 32, 1329);
    put_new(text, 1, b"0", 33, 1330);
    put_new(text, 2, b"", 34, 1330);
}

/// Each number one less, or 1 in place of 0: heads, used entries and the unused entry; then each byte, used and unused, whose term
/// is then of another chain.
fn each_alone(text: &mut Text) {
    four(text);
    for r in [TABLE, ARENA] {
        let kept = text.memory().lent(r).to_vec();
        for at in 0..kept.len() {
            let mut changed = kept.clone();
            changed[at] = if kept[at] == 0 { 1 } else { kept[at] - 1 };
            text.change(|m| m.lend(r, &changed));
            put_same(text, 1, b"new", 1, 0);
        }
        text.change(|m| m.lend(r, &kept));
    }
    whole(text);
    text.end("damage: each number and each byte alone");
}

/// Other counters than the contents have.
fn counted(text: &mut Text, [terms, used]: Counters) {
    let kept = text.memory().counters();
    set_counters(text, [terms, used]);
    broken(text);
    set_counters(text, kept);
}

fn set_counters(text: &mut Text, [terms, used]: Counters) {
    text.change(|m| (m.0[TERMS], m.0[USED]) = (terms, used));
}

/// A term or a byte less or more, more terms than entries, none, those of the start, fewer, and the largest.
fn counts(text: &mut Text) {
    four(text);
    counters(text, [35, 1330]);
    let wrong = [[34, 1330], [36, 1330], [37, 1330], [35, 1329], [35, 1331], [0, 0], [31, 1325], [30, 1330], [u32::MAX; 2]];
    for other in wrong {
        counted(text, other);
    }
    text.end("damage: counters");
}

/// The first numbers of the table and the first bytes of the arena: a dictionary where nothing used is left out.
fn part_lengths(text: &mut Text) {
    four(text);
    let parts = [
        (204, 1350, true),
        (207, 1350, false),
        (200, 1350, false),
        (0, 1350, false),
        (208, 1330, true),
        (208, 1329, false),
        (208, 0, false),
    ];
    for (table, arena, is_whole) in parts {
        lengths(text, table, arena);
        if is_whole {
            whole(text);
        } else {
            broken(text);
        }
    }
    text.end("damage: lengths");
}

/// Pairs of numbers of the table; the entry of an id is at 64 and four times the id.
const EXCHANGES: [[usize; 2]; 9] = [
    [191, 195], // next ids of a chain, 31 and 32
    [143, 167], // next ids of a chain, 19 and 25
    [167, 199], // next ids of a chain, 25 and 33
    [195, 199], // next ids of two chains
    [4, 49],    // heads of chains 4 and 49
    [4, 3],     // heads of chains 4 and 3
    [188, 192], // starts of two terms of one length
    [197, 201], // lengths, 33 and 34
    [198, 202], // kinds, 33 and 34
];

fn exchange(text: &mut Text, [i, j]: [usize; 2]) {
    text.change(|m| m.0[TABLE.cells()].swap(i, j));
}

fn exchanges(text: &mut Text) {
    for pair in EXCHANGES {
        four(text);
        exchange(text, pair);
        broken(text);
    }
    text.end("damage: two numbers exchanged");
}

/// Whole entries: of two terms of one chain and one length, and a used one with the unused one.
fn entries_exchanged(text: &mut Text) {
    four(text);
    exchange(text, [188, 192]);
    exchange(text, [191, 195]);
    broken(text);
    exchange(text, [191, 195]);
    exchange(text, [188, 192]);
    whole(text);
    exchange(text, [200, 204]);
    exchange(text, [202, 206]);
    broken(text);
    text.end("damage: two entries exchanged");
}

fn write(text: &mut Text, r: Region, at: usize, number: u32) {
    text.change(|m| m.0[r.first + at] = number);
}

/// The bytes of ids 31 and 32, at 1325 to 1328: both the same, then exchanged. The sum of each is kept, and so its chain.
fn other_bytes(text: &mut Text) {
    four(text);
    write(text, ARENA, 1325, 98);
    write(text, ARENA, 1326, 97);
    broken(text);
    put_same(text, 1, b"ba", 1, 0);
    write(text, ARENA, 1327, 97);
    write(text, ARENA, 1328, 98);
    whole(text);
    look(text, 31, 0, 1, b"ba");
    put_same(text, 1, b"ab", 0, 32);
    another_term(text);
    text.end("damage: other bytes of one sum");
}

/// A byte that is 64 less makes another term of the same chain; refusal 1 comes before 10.
fn another_term(text: &mut Text) {
    write(text, ARENA, 1325, 34);
    whole(text);
    look(text, 31, 0, 1, b"\"a");
    put_same(text, 0, b"", 10, 0);
    write(text, ARENA, 1349, 1);
    put_same(text, 0, b"", 1, 0);
}

/// A byte between two terms, counted as used and not.
fn gaps(text: &mut Text) {
    four(text);
    write(text, TABLE, 200, 1331);
    broken(text);
    counted(text, [35, 1331]);
    write(text, TABLE, 196, 1330);
    write(text, ARENA, 1329, 0);
    write(text, ARENA, 1330, 48);
    broken(text);
    counted(text, [35, 1331]);
    text.end("damage: gaps");
}
