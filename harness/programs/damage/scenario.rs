//! Random calls, on the limits and one off them.

use crate::calls::{Call, Dictionary, Run};
use crate::reads;
use crate::turns;
use crate::writes;
use generate::{names, small, Random, FIRST};
use model::calls::starting_triples;
use model::dictionary::{self as dict, Term};
use model::{Triple, FINDINGS_LIMIT, FINDING_WIDTH, LOAD_LIMIT, LOAD_WIDTH, STORE_LIMIT, STORE_WIDTH};

const ENTRIES: usize = 31;
const BYTES: usize = 1_325;

/// What the three terms of a run need.
const BYTES_OF_A_RUN: usize = 158;

pub fn filled(len: usize, r: &mut Random) -> Vec<u8> {
    match r.below(3) {
        0 => vec![0; len],
        1 => vec![0xff; len],
        _ => (0..len).map(|_| r.bits() as u8).collect(),
    }
}

/// A length, or one off it: a byte, a number or a record more or less.
pub fn about(len: usize, width: usize, r: &mut Random) -> usize {
    match r.below(120) {
        0 => len + 1,
        1 => len.saturating_sub(1),
        2 => len + 4,
        3 => len.saturating_sub(4),
        4 => len + 4 * width,
        5 => len.saturating_sub(4 * width),
        6 => len + r.below(9),
        _ => len,
    }
}

/// A table and an arena to start in, mostly with a little room, full of whatever was there.
pub fn unstarted(r: &mut Random) -> Dictionary {
    let entries = if r.percent(5) { r.between(ENTRIES - 1, ENTRIES + 1) } else { ENTRIES + r.below(24) };
    let bytes = match r.below(100) {
        0..=4 => r.between(BYTES - 1, BYTES + 1),
        5..=9 => BYTES + r.below(BYTES_OF_A_RUN),
        10..=15 => BYTES + r.between(4_000, 10_000),
        _ => BYTES + BYTES_OF_A_RUN + r.below(300),
    };
    let table = if r.percent(2) { r.below(80) * 4 } else { about(4 * (64 + 4 * entries), 4, r) };
    Dictionary { table: filled(table, r), arena: filled(bytes, r), terms: r.bits() as u32, used: r.bits() as u32 }
}

/// At the limits of table and arena.
pub fn unstarted_at_the_limit(r: &mut Random) -> Dictionary {
    let entries = model::ENTRIES_LIMIT + usize::from(r.percent(25));
    let bytes = model::ARENA_LIMIT + usize::from(r.percent(25));
    Dictionary { table: vec![7; 4 * (64 + 4 * entries)], arena: vec![7; bytes], terms: 7, used: 7 }
}

/// Holds some terms, with some room.
pub fn with_terms(r: &mut Random) -> Dictionary {
    let mut terms = dict::starting_terms();
    terms.extend(names(r.below(12)));
    let (table, arena) = (64 + 4 * (terms.len() + r.below(6)), dict::bytes_of(&terms) + r.below(300));
    laid_out(&terms, table, arena)
}

/// Holds as many terms as a table can hold, or a few less.
pub fn full_at_the_limit(r: &mut Random) -> Dictionary {
    let count = model::ENTRIES_LIMIT - r.below(5);
    let mut terms = dict::starting_terms();
    terms.extend((terms.len()..count).map(|k| (1, k.to_string().into_bytes())));
    laid_out(&terms, 64 + 4 * model::ENTRIES_LIMIT, model::ARENA_LIMIT)
}

pub fn laid_out(terms: &[Term], table: usize, arena: usize) -> Dictionary {
    let (numbers, arena) = dict::layout(terms, table, arena);
    Dictionary {
        table: numbers.iter().flat_map(|n| n.to_le_bytes()).collect(),
        arena,
        terms: terms.len() as u32,
        used: dict::bytes_of(terms) as u32,
    }
}

/// A call on the dictionary; `last` is what the last opening call or pass that was accepted left.
pub fn call(d: &Dictionary, last: Option<&Run>, r: &mut Random) -> Call {
    match r.below(118) {
        0..=1 => Call::Start,
        2..=15 => put(d, r),
        16..=19 => lookup(d, r),
        20..=43 => Call::Run(run(d, r)),
        44..=50 => Call::Open(turns::open(d, r)),
        51..=69 => turns::pass(d, last, r),
        70..=99 => reads::read(r),
        _ => writes::write(d, r),
    }
}

pub fn put(d: &Dictionary, r: &mut Random) -> Call {
    let kind = if r.percent(6) { r.pick(&[0, 4, 5, u32::MAX]) } else { r.between(1, 3) as u32 };
    let left = d.arena.len().saturating_sub(d.used as usize);
    let known = |r: &mut Random| {
        let mut terms = dict::starting_terms();
        terms.extend(dict::run_terms());
        r.pick(&terms).1
    };
    let bytes = match r.below(30) {
        0..=3 => known(r),
        4 => Vec::new(),
        5 => vec![b'x'; r.between(4_095, 4_098)],
        6 => vec![b'y'; left],
        7 => vec![b'y'; left + 1],
        8 => vec![0xff; r.below(9)],
        9..=14 => (0..r.below(4)).map(|_| r.pick(b"abc")).collect(),
        15..=18 => {
            let digits = ["1", "1", "01", "0", "", "18446744073709551615", "18446744073709551616", "3a"];
            let bytes = format!("http://www.w3.org/1999/02/22-rdf-syntax-ns#_{}", r.pick(&digits)).into_bytes();
            return Call::Put { kind: if r.percent(80) { dict::NAMED_NODE } else { kind }, bytes };
        }
        _ => format!("urn:t{}", r.between(1, 15)).into_bytes(),
    };
    Call::Put { kind, bytes }
}

pub fn lookup(d: &Dictionary, r: &mut Random) -> Call {
    let ids = [0, 1, 30, d.terms.wrapping_sub(1), d.terms, d.terms.wrapping_add(1), u32::MAX, r.bits() as u32];
    let id = if r.percent(50) { r.pick(&ids) } else { r.below(d.terms.min(100) as usize + 3) as u32 };
    Call::Lookup { id }
}

/// The terms held, where the dictionary is none that a call refuses.
pub fn held(d: &Dictionary) -> Option<Vec<Term>> {
    let numbers: Vec<u32> = d.table.chunks_exact(4).map(|b| u32::from_le_bytes(b.try_into().expect("four bytes"))).collect();
    (d.table.len() % 4 == 0).then(|| dict::held(&numbers, &d.arena, d.terms, d.used)).flatten()
}

/// Triples of held terms, premises of rules among them; in one of eight loads an id 0, one that is not known, or both.
fn load(terms: usize, r: &mut Random) -> Vec<Triple> {
    let own = terms.saturating_sub(FIRST as usize);
    let mut load = if own > 0 { small::load(own.min(12), r) } else { Vec::new() };
    if r.percent(12) {
        for _ in 0..r.between(1, 2) {
            let bad = r.pick(&[0, terms as u32, terms as u32 + 1, terms as u32 + 2, u32::MAX]);
            let mut triple = [1; 3];
            triple[r.below(3)] = bad;
            let at = r.below(load.len() + 1);
            load.insert(at, triple);
        }
    }
    load
}

/// A closure this large ends a run at the store.
pub const MOST_CLOSED: usize = 600;

/// How many terms a dictionary holds, or would, and a load for them.
pub fn loaded(d: &Dictionary, held: Option<&Vec<Term>>, r: &mut Random) -> (usize, Vec<Triple>) {
    let count = held.map_or(d.terms.min(100) as usize, Vec::len);
    let mut load = load(count, r);
    if r.percent(2) {
        let many = LOAD_LIMIT + r.below(4) - 1;
        load = (0..many).map(|k| *load.get(k % load.len().max(1)).unwrap_or(&[1, 1, 1])).collect();
    }
    (count, load)
}

/// Has the load no id 0, and none that is not known?
pub fn is_known(load: &[Triple], count: usize) -> bool {
    load.iter().flatten().all(|id| *id != 0 && (*id as usize) < count)
}

pub fn run(d: &Dictionary, r: &mut Random) -> Run {
    let held = held(d);
    let (count, load) = loaded(d, held.as_ref(), r);
    let sizes = match &held {
        Some(terms) if is_known(&load, count) => sizes(terms, &load),
        _ => [r.below(20), r.below(3)],
    };
    lent(&load, sizes, count, r)
}

/// Buffers that just suffice for so many rows, findings and terms, or are one off it.
pub fn lent(load: &[Triple], [store, findings]: [usize; 2], count: usize, r: &mut Random) -> Run {
    let (store, findings) = (near(store, STORE_LIMIT, r), near(findings, FINDINGS_LIMIT, r));
    let work = match r.below(20) {
        0 => 2 * (count + 3) - 1,
        1 => 2 * (count + 3) + r.below(9),
        2 => 2 * count,
        _ => 2 * (count + 3),
    };
    let bytes: Vec<u8> = load.as_flattened().iter().flat_map(|n| n.to_le_bytes()).collect();
    let load_len = about(bytes.len(), LOAD_WIDTH, r);
    let (store_len, findings_len) = (store_length(store, r), about(4 * FINDING_WIDTH * findings, FINDING_WIDTH, r));
    let work_len = 4 * work + if r.percent(2) { r.below(4) } else { 0 };
    let mut load = bytes;
    load.resize(load_len, 1);
    Run { load, store: filled(store_len, r), findings: filled(findings_len, r), work: filled(work_len, r) }
}

/// Bytes for so many rows, or so many and some numbers; or for as many triples without a pass and a rule, which may be whole rows too.
fn store_length(rows: usize, r: &mut Random) -> usize {
    let whole = 4 * STORE_WIDTH * rows;
    match r.below(60) {
        0 => whole + 4 * r.below(STORE_WIDTH),
        1 => whole.saturating_sub(4 * r.below(STORE_WIDTH)),
        2 => 4 * LOAD_WIDTH * rows,
        3 => 4 * LOAD_WIDTH * (rows + r.below(STORE_WIDTH)),
        4 => 4 * LOAD_WIDTH * STORE_WIDTH * (rows.div_ceil(LOAD_WIDTH) + r.below(3)).saturating_sub(1),
        _ => about(whole, STORE_WIDTH, r),
    }
}

/// Those held, and a run's three.
pub fn with_run_terms(terms: &[Term]) -> Vec<Term> {
    let mut all = terms.to_vec();
    all.extend(dict::run_terms().into_iter().filter(|t| !terms.contains(t)));
    all
}

/// How many triples and findings the load comes to.
fn sizes(terms: &[Term], load: &[Triple]) -> [usize; 2] {
    match model::closure::close(&starting_triples(&with_run_terms(terms), load), MOST_CLOSED, 0) {
        Some(closure) => [closure.len(), model::closure::check(&closure).len()],
        None => [MOST_CLOSED, 0],
    }
}

/// Enough, one short, one more, or none; rarely the limit or one above it.
fn near(enough: usize, limit: usize, r: &mut Random) -> usize {
    match r.below(400) {
        0 => limit,
        1 => limit + 1,
        2..=60 => enough.saturating_sub(1),
        61..=100 => enough + r.below(4),
        101..=110 => 0,
        _ => enough,
    }
}
