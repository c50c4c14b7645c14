//! Wrong numbers in rows, and wrong lengths of a store. Put in the place of the right ones they show whether compare and damage notice
//! such a mistake.

use crate::rows::{again, Record, Rows, RIGHT};
use crate::{STORE_LIMIT, STORE_WIDTH};
use std::collections::BTreeSet;

pub const MISNUMBERINGS: &[(&str, Rows)] = &[
    // The first rule that is found to give a triple is named, though a lower one gives it in the same pass; or the last, or the highest.
    ("first-finder", Rows { again: |_, _| None, ..RIGHT }),
    ("last-finder", Rows { again: |row, given| (given.pass == row.pass && given.rule != row.rule).then_some(*given), ..RIGHT }),
    ("highest-rule", Rows { again: |row, given| (given.pass == row.pass && given.rule > row.rule).then_some(*given), ..RIGHT }),
    // The lowest rule that ever gives the triple.
    ("lowest-of-all-passes", Rows { again: lowest_of_all_passes, ..RIGHT }),
    // A triple that is met again in a later pass: its pass is raised to that, or both numbers are of it.
    ("pass-raised", Rows { again: pass_raised, ..RIGHT }),
    ("last-pass", Rows { again: |row, given| (row.pass > 0 && given.pass > row.pass).then_some(*given), ..RIGHT }),
    // A starting triple that a rule gives too is named with it, or comes in by it.
    ("start-named", Rows { again: start_named, ..RIGHT }),
    ("start-given", Rows { again: |row, given| if row.pass == 0 { Some(*given) } else { again(row, given) }, ..RIGHT }),
    // Rows are compared by five numbers, or by triple and rule: a triple is there twice.
    ("five-numbers", Rows { told_by: Record::numbers, ..RIGHT }),
    ("triple-and-rule", Rows { told_by: triple_and_rule, ..RIGHT }),
    // Passes are counted from 1 at the start.
    ("from-one", Rows { left: |rows| with(rows, |row| row.pass += 1), ..RIGHT }),
    // A pass reads what it adds, so that there is but one.
    ("one-pass", Rows { left: |rows| with(rows, |row| row.pass = row.pass.min(1)), ..RIGHT }),
    // Passes in which only triples with an id 0 came in are not counted.
    ("passes-of-the-answer", Rows { left: passes_of_the_answer, ..RIGHT }),
    ("rule-before-pass", Rows { left: |rows| with(rows, |row| (row.pass, row.rule) = (row.rule, row.pass)), ..RIGHT }),
    ("by-passes", Rows { left: by_passes, ..RIGHT }),
    ("no-rule", Rows { left: |rows| with(rows, |row| row.rule = 0), ..RIGHT }),
    // A store is measured by another width, or in part; its room is a row more or less.
    ("three-numbers", Rows { sized: |n| (n % 3 == 0 && n / 3 <= STORE_LIMIT).then_some(n / STORE_WIDTH), ..RIGHT }),
    ("rows-not-whole", Rows { sized: |n| (n / STORE_WIDTH <= STORE_LIMIT).then_some(n / STORE_WIDTH), ..RIGHT }),
    ("limit-by-three", Rows { sized: |n| (n % STORE_WIDTH == 0 && n / 3 <= STORE_LIMIT).then_some(n / STORE_WIDTH), ..RIGHT }),
    ("no-limit", Rows { sized: |n| (n % STORE_WIDTH == 0).then_some(n / STORE_WIDTH), ..RIGHT }),
    ("room-by-three", Rows { sized: |n| (RIGHT.sized)(n).map(|_| n / 3), ..RIGHT }),
    ("a-row-more", Rows { sized: |n| (RIGHT.sized)(n).map(|rows| rows + 1), ..RIGHT }),
    ("a-row-less", Rows { sized: |n| (RIGHT.sized)(n).map(|rows| rows.saturating_sub(1)), ..RIGHT }),
];

pub(crate) fn lowest_of_all_passes(row: &Record, given: &Record) -> Option<Record> {
    (row.pass > 0 && given.rule < row.rule).then_some(Record { rule: given.rule, ..*row })
}

fn pass_raised(row: &Record, given: &Record) -> Option<Record> {
    let raised = row.pass > 0 && given.pass > row.pass;
    if raised {
        Some(Record { pass: given.pass, ..*row })
    } else {
        again(row, given)
    }
}

fn start_named(row: &Record, given: &Record) -> Option<Record> {
    if row.pass == 0 {
        (row.rule == 0 || given.rule < row.rule).then_some(Record { rule: given.rule, ..*row })
    } else {
        again(row, given)
    }
}

fn triple_and_rule(row: &Record) -> [u32; STORE_WIDTH] {
    let [s, p, o] = row.triple;
    [s, p, o, 0, row.rule]
}

fn with(mut rows: Vec<Record>, change: fn(&mut Record)) -> Vec<Record> {
    rows.iter_mut().for_each(change);
    rows
}

fn passes_of_the_answer(mut rows: Vec<Record>) -> Vec<Record> {
    let passes: BTreeSet<u32> = rows.iter().filter(|row| !row.triple.contains(&0)).map(|row| row.pass).collect();
    for row in &mut rows {
        row.pass = passes.range(..row.pass).count() as u32;
    }
    rows
}

/// In the order of their passes.
fn by_passes(mut rows: Vec<Record>) -> Vec<Record> {
    rows.sort_by_key(|row| row.pass);
    rows
}
