//! Opening calls and passes: loads, stores as passes leave them, changed or not, and dictionaries with just the room that they need.

use crate::calls::{Call, Dictionary, Run};
use crate::scenario::{held, is_known, laid_out, lent, loaded, with_run_terms, MOST_CLOSED};
use crate::stores::{Changed, CHANGES, CONTAINERS};
use generate::Random;
use model::calls::starting_triples;
use model::closure::{check, close_rows};
use model::dictionary::{bytes_of, is_container_property, Term};
use model::rows::{answer, triples, Record};
use model::turns::{held_rows, opening_rows, pass_rows, takes};
use model::{Triple, LOAD_LIMIT, STORE_LIMIT};

pub fn open(d: &Dictionary, r: &mut Random) -> Run {
    let held = held(d);
    let (count, mut load) = loaded(d, held.as_ref(), r);
    let rows = match &held {
        Some(terms) if is_known(&load, count) => {
            closed_at_times(terms, &mut load, r);
            opening_rows(&starting_triples(&with_run_terms(terms), &load)).len()
        }
        _ => r.below(20),
    };
    lent(&load, [rows, r.below(3)], count, r)
}

/// A load that is its own answer starts closed.
fn closed_at_times(terms: &[Term], load: &mut Vec<Triple>, r: &mut Random) {
    if r.percent(8) {
        let closure = close_rows(&starting_triples(&with_run_terms(terms), load), MOST_CLOSED);
        let answer = closure.map(|closure| triples(&answer(&closure)));
        let known = |answer: &Vec<Triple>| is_known(answer, terms.len()) && answer.len() < LOAD_LIMIT;
        *load = answer.filter(known).unwrap_or_else(|| load.clone());
    }
}

/// A pass over a store that passes of its load leave, or of the load that was opened last; half of the stores are changed.
pub fn pass(d: &Dictionary, last: Option<&Run>, r: &mut Random) -> Call {
    let held = held(d);
    let (count, mut load) = loaded(d, held.as_ref(), r);
    let Some(terms) = held.filter(|_| is_known(&load, count)) else {
        let sizes = [r.below(20), r.below(3)];
        return Call::Pass(lent(&load, sizes, count, r), None);
    };
    closed_at_times(&terms, &mut load, r);
    let all = with_run_terms(&terms);
    let mut rows = rows_of_a_pass(&starting_triples(&all, &load), r);
    if let Some(b) = last.filter(|_| r.percent(60)) {
        let before = numbers(&b.load).chunks_exact(3).map(|t| [t[0], t[1], t[2]]).collect::<Vec<_>>();
        if is_known(&before, count) {
            (load, rows) = (before, held_rows(&numbers(&b.store)));
        }
    }
    if all.len() > MANY_TERMS && r.percent(60) {
        (load, rows) = (Vec::new(), rows_at_the_limit(all.len(), r));
    }
    let mut store = Changed { rows, load, before: count, terms: all };
    let containers = store.terms.iter().any(is_container_property) && r.percent(30);
    let kind = if containers { Some(CONTAINERS) } else { r.percent(50).then(|| r.below(CHANGES.len())) };
    if let Some(kind) = kind {
        (CHANGES[kind].1)(&mut store, r);
    }
    if r.percent(20) {
        close(&mut store);
    }
    let sizes = sizes(&store, r);
    let mut b = lent(&store.load, sizes, count, r);
    lay(&mut b.store, &store.rows);
    Call::Pass(b, kind)
}

/// What is in the store when a pass begins: the rows of the passes before, all but the zero triples after the last, or all of the closure.
fn rows_of_a_pass(start: &[Triple], r: &mut Random) -> Vec<Record> {
    let Some(closure) = close_rows(start, MOST_CLOSED) else {
        return opening_rows(start);
    };
    let last = closure.iter().map(|row| row.pass).max().unwrap_or(0);
    match r.below(10) {
        0..=1 => answer(&closure),
        2..=3 => closure,
        _ => {
            let passes = r.below(last as usize + 1) as u32;
            closure.into_iter().filter(|row| row.pass <= passes).collect()
        }
    }
}

/// Passes over the store as it is until one adds nothing, so that the next is the last.
fn close(store: &mut Changed) {
    let start = starting_triples(&store.terms, &store.load);
    while takes(&store.rows, store.terms.len(), &start) {
        match pass_rows(&store.rows, &start, MOST_CLOSED) {
            Some(next) if next.len() > store.rows.len() => store.rows = next,
            _ => return,
        }
    }
}

/// A dictionary of more terms has subjects for as many rows as a store can have.
const MANY_TERMS: usize = 65_000;

/// As many rows as a store can have, or a few less: things, all of which a pass finds closed, and a triple at times that gives one more.
fn rows_at_the_limit(known: usize, r: &mut Random) -> Vec<Record> {
    let record = |triple: Triple| Record { triple, pass: triple[0] % 5, rule: 1 };
    let mut rows: Vec<Record> = opening_rows(&[[9, 1, 30], [10, 1, 30]]);
    let most = STORE_LIMIT - r.below(3);
    let others = if r.percent(50) { vec![[known as u32 - 1, 1, 30]] } else { Vec::new() };
    let things = (0..known as u32 - 1).map(|id| [id, 1, 9]).take(most - rows.len() - others.len());
    rows.extend(things.chain(others).map(record));
    rows.sort_by_key(|row| row.triple);
    rows
}

/// How many rows the pass leaves, at least those that are there, and how many findings a last one.
fn sizes(store: &Changed, r: &mut Random) -> [usize; 2] {
    let start = starting_triples(&store.terms, &store.load);
    let rows = &held_rows(&store.rows.iter().flat_map(Record::numbers).collect::<Vec<_>>());
    let there = store.rows.len();
    if !takes(rows, store.terms.len(), &start) {
        return [there + r.below(2), r.below(3)];
    }
    match pass_rows(rows, &start, 2 * MOST_CLOSED) {
        Some(next) if next.len() == rows.len() => [there, check(&triples(rows)).len()],
        Some(next) => [there.max(next.len()), r.below(3)],
        None => [there.max(2 * MOST_CLOSED), 0],
    }
}

/// The rows, as far as the store has room, then zeros.
pub fn lay(store: &mut [u8], rows: &[Record]) {
    store.fill(0);
    let bytes: Vec<u8> = rows.iter().flat_map(Record::numbers).flat_map(u32::to_le_bytes).collect();
    let most = bytes.len().min(store.len());
    store[..most].copy_from_slice(&bytes[..most]);
}

pub fn numbers(bytes: &[u8]) -> Vec<u32> {
    bytes.chunks_exact(4).map(|b| u32::from_le_bytes(b.try_into().expect("four bytes"))).collect()
}

/// The same terms in a table and an arena with just the room for a run's three, or an entry or a byte less; those that are held need none.
pub fn fitted(d: &Dictionary, r: &mut Random) -> Option<Dictionary> {
    let terms = held(d)?;
    let all = with_run_terms(&terms);
    let (mut entries, mut bytes) = (all.len(), bytes_of(&all));
    match r.below(4) {
        0 if entries > terms.len() => entries -= 1,
        1 if entries > terms.len() => bytes -= 1,
        _ => (),
    }
    Some(laid_out(&terms, 64 + 4 * entries, bytes))
}
