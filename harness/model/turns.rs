//! Closing in turns, docs/REFERENCE.md, 3.6 and 6.5: an opening call lays the starting triples in the store, and each pass adds what the
//! rules give from the triples that it finds there, until one adds nothing.

use crate::calls::{before_closing, end, triples_of, Buffers, Dictionary};
use crate::closure::{self, Mistake};
use crate::misturns::{self, Misturn, Taking};
use crate::rows::{self, Record};
use crate::*;
use std::collections::BTreeSet;

/// The largest pass that a row of a store lent to a pass may name.
pub const PASS_LIMIT: u32 = 65_535;

/// Refusal, triple count, 1 where the run is done and else 0, and the count of each check.
pub type Turn = (u32, u32, u32, [u32; 5]);

pub(crate) fn refused(refusal: u32) -> Turn {
    (refusal, 0, 0, [0; 5])
}

/// Lays the starting triples in the store. The run is never done then.
pub fn open(d: Dictionary, load: &[u32], b: Buffers) -> Turn {
    open_mistaken(d, load, b, Mistake::default())
}

/// The same with a mistake.
pub fn open_mistaken(mut d: Dictionary, load: &[u32], b: Buffers, mistake: Mistake) -> Turn {
    let (terms, room) = match before_closing(&d, load, b.lengths(), &mistake) {
        Ok(passed) => passed,
        Err(refusal) => return refused(refusal),
    };
    let start = calls::starting_triples(&terms, &triples_of(load));
    let rows = opening_rows(&start);
    if rows.len() > room {
        return full(STORE_FULL, d, &terms, b, mistake.turn);
    }
    d.write(&terms);
    let (refusal, count, _, counts) = going(&rows, b, mistake.turn);
    (refusal, count, u32::from(misturns::open_is_done(&rows, &start, mistake)), counts)
}

/// One pass over the triples of the store, with the lists of the load; the first that adds none ends the run.
pub fn pass(d: Dictionary, load: &[u32], b: Buffers) -> Turn {
    pass_mistaken(d, load, b, Mistake::default())
}

/// The same with a mistake.
pub fn pass_mistaken(mut d: Dictionary, load: &[u32], mut b: Buffers, mistake: Mistake) -> Turn {
    let errs = |by: Misturn| mistake.turn == Some(by);
    let (terms, room) = match misturns::admitted(&d, load, &b, mistake) {
        Ok(passed) => passed,
        Err(refusal) => return refused(refusal),
    };
    let taking = Taking::new(&terms, *d.terms as usize, &triples_of(load), mistake.turn);
    let Some(rows) = taking.rows(b.store) else {
        if errs(Misturn::TermsLeft) {
            d.write(&terms);
        }
        if errs(Misturn::WorkCleared) {
            b.work.fill(0);
        }
        return refused(ILL_SIZED_STORE);
    };
    let Some(next) = misturns::next_rows(&rows, &taking.start, room, mistake) else {
        return full(STORE_FULL, d, &terms, b, mistake.turn);
    };
    if next.len() > rows.len() && !misturns::ends_early(&next, &taking.start, mistake) {
        d.write(&terms);
        return going(&next, b, mistake.turn);
    }
    let (answer, found) = misturns::ending(&(mistake.rows.left)(next), mistake.turn);
    if found.len() > b.findings.len() / FINDING_WIDTH {
        return full(FINDINGS_FULL, d, &terms, b, mistake.turn);
    }
    d.write(&terms);
    b.clear();
    let (refusal, count, counts) = end(&answer, &found, b);
    (refusal, count, 1, counts)
}

/// Refusal 8 or 9: the buffers are zero, and the three terms held.
fn full(refusal: u32, mut d: Dictionary, terms: &[dictionary::Term], mut b: Buffers, mistake: Option<Misturn>) -> Turn {
    if mistake != Some(Misturn::TermsNotHeld) {
        d.write(terms);
    }
    b.clear();
    refused(refusal)
}

/// The rows are in the store, and the run is not done.
fn going(rows: &[Record], mut b: Buffers, mistake: Option<Misturn>) -> Turn {
    let errs = |by: Misturn| mistake == Some(by);
    b.store.fill(0);
    if !errs(Misturn::FindingsLeft) {
        b.findings.fill(0);
    }
    if !errs(Misturn::WorkLeft) {
        b.work.fill(0);
    }
    let answer = rows::answer(rows);
    b.lay(if errs(Misturn::ZerosOutEarly) { &answer } else { rows });
    let fewer = errs(Misturn::ZerosOutEarly) || errs(Misturn::CountWithoutZeros);
    let count = if fewer { answer.len() } else { rows.len() };
    let found = if errs(Misturn::FindingsEarly) { closure::check(&rows::triples(rows)) } else { BTreeSet::new() };
    (0, count as u32, 0, b.lay_findings(&found))
}

/// The rows of an opening call: the starting triples, ascending, with pass 0 and rule 0.
pub fn opening_rows(start: &[Triple]) -> Vec<Record> {
    let set: BTreeSet<Triple> = start.iter().copied().collect();
    set.into_iter().map(|triple| Record { triple, pass: 0, rule: 0 }).collect()
}

/// The rows that a store holds: those up to the last that is not five zeros.
pub fn held_rows(store: &[u32]) -> Vec<Record> {
    let mut rows: Vec<Record> = store.chunks_exact(STORE_WIDTH).map(record).collect();
    while rows.last().is_some_and(|row| row.numbers() == [0; STORE_WIDTH]) {
        rows.pop();
    }
    rows
}

pub(crate) fn record(numbers: &[u32]) -> Record {
    Record { triple: [numbers[0], numbers[1], numbers[2]], pass: numbers[3], rule: numbers[4] }
}

/// Is a pass over these rows taken? Their triples have to ascend strictly and to have ids below `known`, the starting triples have to be
/// among them, and no pass may be over the limit.
pub fn takes(rows: &[Record], known: usize, start: &[Triple]) -> bool {
    let there: BTreeSet<Triple> = rows.iter().map(|row| row.triple).collect();
    rows.windows(2).all(|pair| pair[0].triple < pair[1].triple)
        && rows.iter().all(|row| row.triple.iter().all(|id| (*id as usize) < known) && row.pass <= PASS_LIMIT)
        && start.iter().all(|triple| there.contains(triple))
}

/// The largest pass of rows, 0 where there are none.
pub fn largest(rows: &[Record]) -> u32 {
    rows.iter().map(|row| row.pass).max().unwrap_or(0)
}

/// The rows after a pass, ascending; none where there are more than `limit`. New ones have the largest pass and 1, and the lowest rule that
/// gives them; the others stay as they are.
pub fn pass_rows(rows: &[Record], start: &[Triple], limit: usize) -> Option<Vec<Record>> {
    closure::pass_mistaken(rows, start, largest(rows) + 1, limit, Mistake::default())
}
