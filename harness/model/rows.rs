//! The rows of a store, docs/REFERENCE.md, 1.3 and 6.5: a triple, the pass in which it came in, and the rule that brought it in.

use crate::{Triple, STORE_LIMIT, STORE_WIDTH};

/// A row. Its pass is the first n with the triple in S(n), where S(0) is the start and S(n + 1) has all of S(n) and all that the rules
/// give from it; its rule the lowest that gives the triple from S(n - 1). A starting triple has pass 0 and rule 0.
#[derive(Clone, Copy, Debug, PartialEq, Eq, Hash)]
pub struct Record {
    pub triple: Triple,
    pub pass: u32,
    pub rule: u32,
}

impl Record {
    pub fn numbers(&self) -> [u32; STORE_WIDTH] {
        let [s, p, o] = self.triple;
        [s, p, o, self.pass, self.rule]
    }
}

/// The triples alone.
pub fn triples(records: &[Record]) -> Vec<Triple> {
    records.iter().map(|record| record.triple).collect()
}

/// Without the triples that have an id 0.
pub fn answer(closure: &[Record]) -> Vec<Record> {
    closure.iter().copied().filter(|record| !record.triple.contains(&0)).collect()
}

/// How rows come to their numbers and to their store.
#[derive(Clone, Copy)]
pub struct Rows {
    /// What the row of a triple becomes where a rule gives the triple again; none where it stays.
    pub again: fn(&Record, &Record) -> Option<Record>,
    /// Rows for which this is the same are one.
    pub told_by: fn(&Record) -> [u32; STORE_WIDTH],
    /// The rows of a closure, ascending, as they are left.
    pub left: fn(Vec<Record>) -> Vec<Record>,
    /// How many rows a store of so many numbers has; none where it is ill-sized.
    pub sized: fn(usize) -> Option<usize>,
}

/// As they are; anything else is a mistake.
pub const RIGHT: Rows = Rows { again, told_by, left: |rows| rows, sized };

/// In the pass in which a triple came in the lowest of the rules is named; afterwards nothing changes.
pub fn again(row: &Record, given: &Record) -> Option<Record> {
    (given.pass == row.pass && given.rule < row.rule).then_some(*given)
}

/// By subject, predicate and object alone.
fn told_by(row: &Record) -> [u32; STORE_WIDTH] {
    let [s, p, o] = row.triple;
    [s, p, o, 0, 0]
}

fn sized(numbers: usize) -> Option<usize> {
    let rows = numbers / STORE_WIDTH;
    (numbers % STORE_WIDTH == 0 && rows <= STORE_LIMIT).then_some(rows)
}
