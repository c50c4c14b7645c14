//! Worked cases of closing in turns, docs/REFERENCE.md, 3.6 and 6.5, with their values.

use crate::calls::{self, Buffers};
use crate::closure::Mistake;
use crate::misturns::MISTURNS;
use crate::rows::Record;
use crate::tests::Owned;
use crate::turns::{self, held_rows, Turn};
use crate::*;

/// What a call is lent: a dictionary of named nodes urn:t1 and so on, a load, and the other buffers.
#[derive(Clone, Debug, PartialEq, Eq)]
struct Lent {
    d: Owned,
    load: Vec<u32>,
    store: Vec<u32>,
    findings: Vec<u32>,
    work: Vec<u32>,
}

type Call = fn(calls::Dictionary, &[u32], Buffers, Mistake) -> Turn;

impl Lent {
    /// Five terms, ids 31 to 35, a store of so many rows and findings of so many records, all full of sevens.
    fn new(load: &[Triple], rows: usize, findings: usize) -> Lent {
        let d = Owned::with_terms(5);
        Lent { d, load: load.concat(), store: vec![7; 5 * rows], findings: vec![7; 5 * findings], work: vec![7; 2 * 42] }
    }

    /// The store has these rows, then zeros.
    fn with_rows(mut self, rows: &[[u32; 5]]) -> Lent {
        self.store.fill(0);
        self.store[..5 * rows.len()].copy_from_slice(rows.as_flattened());
        self
    }

    fn call(&mut self, call: Call, mistake: Mistake) -> Turn {
        let b = Buffers { store: &mut self.store, findings: &mut self.findings, work: &mut self.work };
        call(self.d.lend(), &self.load, b, mistake)
    }

    fn open(&mut self) -> Turn {
        self.call(turns::open_mistaken, Mistake::default())
    }

    fn pass(&mut self) -> Turn {
        self.call(turns::pass_mistaken, Mistake::default())
    }

    /// A pass that is refused with 4 and changes nothing, or is not.
    fn is_taken(&self) -> bool {
        let mut after = self.clone();
        let (refusal, ..) = after.pass();
        assert!(refusal == 0 || (refusal == ILL_SIZED_STORE && after == *self), "{refusal}");
        refusal == 0
    }

    fn rows(&self) -> Vec<[u32; 5]> {
        held_rows(&self.store).iter().map(Record::numbers).collect()
    }

    fn is_zero(&self) -> bool {
        [&self.store, &self.findings, &self.work].iter().all(|buffer| buffer.iter().all(|n| *n == 0))
    }
}

const FUNCTIONAL: [Triple; 3] = [[31, 1, 19], [32, 31, 33], [34, 31, 35]];

/// Counts before the end have the triples with an id 0: 0 0 0 comes in the first pass, 0 1 9 in the second. The third adds none.
#[test]
fn functional_in_turns() {
    let mut lent = Lent::new(&FUNCTIONAL, 16, 1);
    let going = |count: u32| (0, count, 0, [0; 5]);
    assert_eq!((lent.open(), lent.d.terms), (going(5), 39));
    let start = [[9, 1, 30, 0, 0], [10, 1, 30, 0, 0], [31, 1, 19, 0, 0], [32, 31, 33, 0, 0], [34, 31, 35, 0, 0]];
    assert_eq!(lent.rows(), start);
    assert_eq!(lent.pass(), going(13));
    assert_eq!(lent.rows()[..2], [[0, 0, 0, 1, 9], [9, 1, 9, 1, 1]]);
    assert_eq!(lent.pass(), going(16));
    assert_eq!(lent.rows()[..2], [[0, 0, 0, 1, 9], [0, 1, 9, 2, 1]]);
    assert!(lent.findings.iter().chain(&lent.work).all(|n| *n == 0));
    assert_eq!(lent.pass(), (0, 14, 1, [0; 5]));
    let (mut whole, before) = (Lent::new(&FUNCTIONAL, 16, 1), lent.clone());
    let b = Buffers { store: &mut whole.store, findings: &mut whole.findings, work: &mut whole.work };
    assert_eq!(calls::run(whole.d.lend(), &whole.load, b), (0, 14, [0; 5]));
    assert_eq!(whole, before);
    // Passes after the last find the zero triples anew, with passes of their own: largest of the store, 2, and 1.
    assert_eq!((lent.pass(), lent.rows()[0]), (going(15), [0, 0, 0, 3, 9]));
    assert_eq!((lent.pass(), lent.rows()[1]), (going(16), [0, 1, 9, 4, 1]));
    assert_eq!((lent.pass(), lent), ((0, 14, 1, [0; 5]), before));
}

/// An opening call is never done; one pass is, where the start is closed.
#[test]
fn closed_from_the_start() {
    let mut lent = Lent::new(&[[9, 1, 9], [10, 1, 9]], 4, 0);
    assert_eq!(lent.open(), (0, 4, 0, [0; 5]));
    assert_eq!(lent.pass(), (0, 4, 1, [0; 5]));
    let mut lent = Lent::new(&[], 4, 0);
    assert_eq!([lent.open(), lent.pass(), lent.pass()], [(0, 2, 0, [0; 5]), (0, 4, 0, [0; 5]), (0, 4, 1, [0; 5])]);
}

/// 31 is a 32 and a 33, which are disjoint: the finding comes with the last pass.
#[test]
fn findings_in_turns() {
    let load = [[31, 1, 32], [32, 8, 33], [32, 26, 33]];
    let mut lent = Lent::new(&load, 10, 1);
    assert_eq!([lent.open(), lent.pass()], [(0, 5, 0, [0; 5]), (0, 10, 0, [0; 5])]);
    assert!(lent.findings.iter().all(|n| *n == 0));
    assert_eq!((lent.pass(), &lent.findings[..]), ((0, 10, 1, [1, 0, 0, 0, 0]), &[1, 31, 32, 33, 0][..]));
    let mut short = Lent::new(&load, 10, 0);
    assert_eq!([short.open().0, short.pass().0], [0, 0]);
    assert_eq!((short.pass(), short.is_zero(), short.d.terms), ((9, 0, 0, [0; 5]), true, 39));
}

/// 8 is for the call's own triples: a store of nine rows takes the start and refuses the first pass, one of four the start.
#[test]
fn full_stores_in_turns() {
    let load = [[31, 1, 32], [32, 8, 33], [32, 26, 33]];
    let mut lent = Lent::new(&load, 9, 9);
    assert_eq!(lent.open(), (0, 5, 0, [0; 5]));
    assert_eq!((lent.pass(), lent.is_zero(), lent.d.terms), ((8, 0, 0, [0; 5]), true, 39));
    let mut lent = Lent::new(&load, 4, 9);
    assert_eq!((lent.open(), lent.is_zero(), lent.d.terms), ((8, 0, 0, [0; 5]), true, 39));
    // The closure of FUNCTIONAL has 16 triples: 13 rows hold those of its first pass.
    let mut lent = Lent::new(&FUNCTIONAL, 13, 0);
    assert_eq!([lent.open().0, lent.pass().0, lent.pass().0], [0, 0, 8]);
}

const START: [[u32; 5]; 3] = [[9, 1, 30, 0, 0], [10, 1, 30, 0, 0], [31, 1, 32, 0, 0]];

/// The rows with others in their places.
fn and(more: &[[u32; 5]]) -> Vec<[u32; 5]> {
    let mut rows = [&START[..], more].concat();
    rows.sort_by_key(|row| [row[0], row[1], row[2]]);
    rows
}

#[test]
fn stores_that_a_pass_takes() {
    let lent = |rows: &[[u32; 5]]| Lent::new(&[[31, 1, 32]], 20, 0).with_rows(rows);
    assert!(lent(&START).is_taken());
    // Triples that do not follow, and other passes and rules.
    assert!(lent(&and(&[[33, 34, 35, 0, 0]])).is_taken() && lent(&and(&[[33, 34, 35, 7, 99]])).is_taken());
    assert!(lent(&[[9, 1, 30, 3, 1], [10, 1, 30, 0, 9], [31, 1, 32, 65_535, u32::MAX]]).is_taken());
    // 0 0 0 is a triple, and can be the first row alone; its numbers may be zeros too.
    assert!(lent(&and(&[[0, 0, 0, 0, 0]])).is_taken() && lent(&and(&[[0, 0, 0, 1, 9], [0, 1, 9, 2, 1]])).is_taken());
    // The ids of the three terms, 36 to 38, are known though they are not held; 39 is not.
    assert!(lent(&and(&[[36, 37, 38, 0, 0]])).is_taken() && !lent(&and(&[[36, 37, 39, 0, 0]])).is_taken());
    // A part of the load.
    let mut less = lent(&START);
    less.load.clear();
    assert!(less.is_taken());
}

#[test]
fn stores_that_a_pass_refuses() {
    let refused = |rows: &[[u32; 5]]| !Lent::new(&[[31, 1, 32]], 20, 0).with_rows(rows).is_taken();
    assert!(refused(&[]) && refused(&START[1..]) && refused(&START[..2]), "a starting triple is missing");
    assert!(refused(&[START[1], START[0], START[2]]) && refused(&[START[0], START[0], START[1], START[2]]), "order");
    assert!(refused(&[START[0], [9, 1, 30, 1, 1], START[1], START[2]]), "a row twice, with other numbers");
    assert!(refused(&and(&[[33, 34, 39, 0, 0]])) && refused(&and(&[[33, 34, u32::MAX, 0, 0]])), "an unknown id");
    assert!(refused(&and(&[[33, 34, 35, 65_536, 0]])) && refused(&and(&[[33, 34, 35, u32::MAX, 0]])), "a pass");
    assert!(refused(&[START[0], [0; 5], START[1], START[2]]), "a row of zeros between");
    for behind in [[0, 0, 0, 1, 0], [0, 0, 0, 0, 1], [33, 34, 35, 0, 0]] {
        assert!(refused(&[&START[..], &[[0; 5], behind]].concat()), "{behind:?} behind zeros");
    }
    assert!(refused(&[&START[..], &[[0, 0, 0, 1, 9]]].concat()), "0 0 0 behind other rows");
    let mut more = Lent::new(&[[31, 1, 32], [33, 1, 32]], 20, 0).with_rows(&START);
    assert!(!more.is_taken());
    more.load.truncate(3);
    assert!(more.is_taken());
}

/// Starting triples are reckoned with the ids that the three terms would get: 37, 38 and 39 here.
#[test]
fn container_axioms_of_a_pass() {
    let mut lent = Lent::new(&[[31, 36, 32]], 20, 0);
    let name = b"http://www.w3.org/1999/02/22-rdf-syntax-ns#_7";
    assert_eq!(calls::put(lent.d.lend(), 1, name), (0, 36));
    let axioms = [[36, 1, 37, 0, 0], [36, 1, 38, 0, 0], [36, 7, 39, 0, 0]];
    let rows = [&START[..2], &[[31, 36, 32, 0, 0]], &axioms].concat();
    assert!(lent.clone().with_rows(&rows).is_taken() && !lent.clone().with_rows(&rows[..5]).is_taken());
    // A container property of the store alone brings none.
    lent.load.clear();
    assert!(lent.with_rows(&rows[..3]).is_taken());
}

/// Lists are those of the load: 31 is a union of 33 by list triples of the store alone, so 35 is none.
#[test]
fn lists_of_a_pass() {
    let (types, cells) = ([[31, 22, 32], [35, 1, 33]], [[32, 2, 33], [32, 3, 4]]);
    let given = |load: &[Triple]| {
        let mut lent = Lent::new(load, 20, 0);
        let all: Vec<[u32; 5]> = [&types[..], &cells].concat().iter().map(|[s, p, o]| [*s, *p, *o, 0, 0]).collect();
        let mut rows = [&START[..2], &all].concat();
        rows.sort();
        lent = lent.with_rows(&rows);
        lent.pass();
        lent.rows().contains(&[35, 1, 31, 1, 23])
    };
    assert!(given(&[&types[..], &cells].concat()) && !given(&types) && !given(&[]));
}

/// A new row has the largest pass and 1, wherever that is; the others keep their numbers, starting triples too.
#[test]
fn numbers_of_a_pass() {
    let load = [[31, 1, 32], [32, 8, 33]];
    let rows = [[9, 1, 30, 4, 1], [10, 1, 30, 0, 0], [31, 1, 32, 9, 2], [32, 8, 33, 0, 0], [34, 1, 9, 2, 8]];
    let mut lent = Lent::new(&load, 20, 0).with_rows(&rows);
    assert_eq!(lent.pass(), (0, 10, 0, [0; 5]));
    let ten = [
        [[9, 1, 9, 10, 1], [9, 1, 30, 4, 1], [10, 1, 9, 10, 1], [10, 1, 30, 0, 0], [31, 1, 9, 10, 1]],
        [[31, 1, 32, 9, 2], [31, 1, 33, 10, 14], [32, 1, 9, 10, 1], [32, 8, 33, 0, 0], [34, 1, 9, 2, 8]],
    ];
    assert_eq!(lent.rows(), ten.concat());
    // After 65,535 comes 65,536, which no store may have.
    let mut lent = Lent::new(&[], 20, 0).with_rows(&[[9, 1, 30, 65_535, 0], [10, 1, 30, 0, 0]]);
    assert_eq!((lent.pass().0, lent.rows()[0]), (0, [9, 1, 9, 65_536, 1]));
    assert!(!lent.is_taken());
}

/// Dictionary and buffers as they were after 4 for the store, and 7 before it.
#[test]
fn order_of_the_refusals_of_a_pass() {
    let mut lent = Lent::new(&[[31, 1, 32]], 20, 0);
    assert_eq!(lent.d.terms, 36);
    assert!(!lent.is_taken());
    for (name, entries, bytes) in [("entries", 38, 2_000), ("bytes", 64, 1_325 + 5 * 6 + 157)] {
        let (_, mut d) = Owned::start(entries, bytes);
        (1..=5).for_each(|k| assert_eq!(calls::put(d.lend(), 1, format!("urn:t{k}").as_bytes()).0, 0));
        lent.d = d;
        let before = lent.clone();
        assert_eq!((lent.pass().0, &lent), (DICTIONARY_FULL, &before), "{name}");
    }
    let mut lent = Lent::new(&[[31, 1, 36]], 20, 0);
    assert_eq!(lent.pass().0, UNKNOWN_TERM);
    lent.load[1] = 0;
    assert_eq!(lent.pass().0, BLANK_ID);
    lent.store.pop();
    assert_eq!(lent.pass().0, ILL_SIZED_STORE);
    lent.load.push(1);
    assert_eq!(lent.pass().0, RAGGED_LOAD);
    lent.d.arena[0] = 0;
    assert_eq!((lent.pass(), lent.open()), ((1, 0, 0, [0; 5]), (1, 0, 0, [0; 5])));
}

/// 36 terms and three: 78 numbers for the opening call, which puts three; 84 for the passes.
#[test]
fn work_buffer_in_turns() {
    let mut lent = Lent::new(&[], 4, 0);
    lent.work.truncate(78);
    assert_eq!([lent.open().0, lent.pass().0], [0, ILL_SIZED_STORE]);
    lent.work.extend([7; 5]);
    assert_eq!(lent.pass().0, ILL_SIZED_STORE);
    lent.work.push(7);
    assert_eq!(lent.pass().0, 0);
}

/// Calls in which each of the mistakes shows.
fn trials() -> Vec<(Call, Lent)> {
    let (open, pass): (Call, Call) = (turns::open_mistaken, turns::pass_mistaken);
    let lent = |load: &[Triple], rows: &[[u32; 5]]| Lent::new(load, 30, 9).with_rows(rows);
    let mut opened = Lent::new(&FUNCTIONAL, 30, 9);
    opened.open();
    let mut all = vec![(open, Lent::new(&[[9, 1, 9], [10, 1, 9]], 4, 1)), (open, Lent::new(&[], 1, 1))];
    for _ in 0..3 {
        all.push((pass, opened.clone()));
        opened.pass();
    }
    // Store and list work buffer that just suffice for this pass, and not for the closure or for terms counted twice.
    let mut short = Lent::new(&FUNCTIONAL, 13, 0);
    short.open();
    all.push((pass, short.clone()));
    short.work.truncate(78);
    all.push((pass, short));
    let on_load = |rows: &[[u32; 5]]| lent(&[[31, 1, 32]], rows);
    let more = [[33, 34, 35, 0, 0], [36, 37, 38, 0, 0], [36, 37, 39, 0, 0], [0, 0, 0, 0, 0], [33, 34, 35, 0, 29]];
    all.extend(more.map(|row| (pass, on_load(&and(&[row])))));
    let late = [[33, 34, 35, 65_535, 0], [33, 34, 35, 65_536, 0], [33, 34, 35, 7, 0], [31, 1, 33, 1, 2]];
    all.extend(late.map(|row| (pass, on_load(&and(&[row])))));
    let twice = [&START[..1], &[[9, 1, 30, 1, 1]], &START[1..]].concat();
    let zeros = [&START[..], &[[0; 5], [33, 34, 35, 0, 0]]].concat();
    let zero_behind = [&START[..], &[[0, 0, 0, 1, 9]]].concat();
    let exchanged = [START[1], START[0], START[2]];
    let numbered = [[9, 1, 30, 1, 1], START[1], [31, 1, 32, 3, 28]];
    let changed = [&START[..2], &[], &START[1..], &exchanged, &twice, &[START[0], START[0], START[1], START[2]]];
    all.extend(changed.map(|rows| (pass, on_load(rows))));
    all.extend([&zeros[..], &zero_behind, &numbered].map(|rows| (pass, on_load(rows))));
    all.extend(more_trials(pass));
    all
}

/// Dictionaries with all three terms held, with no room for them, and with a container property; lists; findings, of zero triples too.
fn more_trials(pass: Call) -> Vec<(Call, Lent)> {
    let mut held = Lent::new(&[], 30, 9);
    held.open();
    let unknown = held.clone().with_rows(&[START[0], START[1], [39, 1, 9, 0, 0]]);
    let mut full = Lent::new(&[], 30, 9);
    full.d = Owned::start(33, 2_000).1;
    let mut container = Lent::new(&[], 30, 9);
    calls::put(container.d.lend(), 1, b"http://www.w3.org/1999/02/22-rdf-syntax-ns#_7");
    let container = container.with_rows(&[START[0], START[1], [31, 36, 32, 0, 0]]);
    let rows = [START[0], START[1], [31, 22, 32, 0, 0], [32, 2, 33, 0, 0], [32, 3, 4, 0, 0], [35, 1, 33, 0, 0]];
    let list = Lent::new(&[[31, 22, 32]], 30, 9).with_rows(&rows);
    let mut zero = Lent::new(&[[31, 32, 33]], 60, 9);
    zero = zero.with_rows(&[[0, 26, 31, 0, 0], START[0], START[1], [31, 32, 33, 0, 0], [34, 1, 0, 0, 0], [34, 1, 31, 0, 0]]);
    while zero.clone().pass().2 == 0 {
        zero.pass();
    }
    let mut disjoint = Lent::new(&[[31, 1, 32], [31, 1, 33], [32, 26, 33]], 30, 9);
    disjoint.open();
    let mut lowered = Lent::new(&[[31, 1, 32], [32, 8, 33]], 30, 9);
    lowered = lowered.with_rows(&[START[0], START[1], START[2], [31, 1, 33, 1, 28], [32, 8, 33, 0, 0]]);
    [held, unknown, full, container, list, zero, disjoint, lowered].map(|lent| (pass, lent)).to_vec()
}

/// Each wrong turn differs from the right one, in a result or in a buffer.
#[test]
fn wrong_turns() {
    let after = |call: Call, lent: &Lent, turn| {
        let mut lent = lent.clone();
        lent.findings.fill(7);
        lent.work.fill(7);
        (lent.call(call, Mistake { turn, ..Mistake::default() }), lent)
    };
    let trials = trials();
    for (name, misturn) in MISTURNS {
        let shows = |(call, lent): &(Call, Lent)| after(*call, lent, Some(*misturn)) != after(*call, lent, None);
        assert!(trials.iter().any(shows), "{name}");
    }
}
