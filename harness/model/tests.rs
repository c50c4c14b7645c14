//! The worked cases of docs/REFERENCE.md, 11, with their values.

use crate::calls::{self, Buffers, Dictionary};
use crate::closure::{close, close_mistaken, close_rows, in_domain, Mistake};
use crate::dictionary::{is_container_property, layout, starting_terms, Term};
use crate::lists::{members, Cells};
use crate::misnumberings::MISNUMBERINGS;
use crate::mistakes::READINGS;
use crate::rounds::rounds;
use crate::*;

#[derive(Clone, Debug, PartialEq, Eq)]
pub struct Owned {
    pub table: Vec<u32>,
    pub arena: Vec<u8>,
    pub terms: u32,
    pub used: u32,
}

impl Owned {
    /// Started, with room for `entries` entries and `bytes` bytes.
    pub fn start(entries: usize, bytes: usize) -> (u32, Owned) {
        let mut d = Owned { table: vec![7; 64 + 4 * entries], arena: vec![7; bytes], terms: 7, used: 7 };
        let refusal = calls::start(d.lend());
        (refusal, d)
    }

    /// With named nodes urn:t1 to urn:tN put.
    pub fn with_terms(n: u32) -> Owned {
        let (_, mut d) = Owned::start(64, 4096);
        for k in 1..=n {
            assert_eq!(calls::put(d.lend(), 1, format!("urn:t{k}").as_bytes()), (0, 30 + k));
        }
        d
    }

    pub fn lend(&mut self) -> Dictionary<'_> {
        Dictionary { table: &mut self.table, arena: &mut self.arena, terms: &mut self.terms, used: &mut self.used }
    }
}

struct Outcome {
    refusal: u32,
    counts: [u32; 5],
    rows: Vec<[u32; 5]>,
    answer: Vec<Triple>,
    found: Vec<Finding>,
}

/// Runs a load over named nodes urn:t1 to urn:t5 with a store for this many triples and this many findings.
fn run(load: &[Triple], triples: usize, findings: usize) -> Outcome {
    let mut d = Owned::with_terms(5);
    let (mut store, mut findings, mut work) = (vec![7; 5 * triples], vec![7; 5 * findings], vec![7; 2 * (36 + 3)]);
    let lent = Buffers { store: &mut store, findings: &mut findings, work: &mut work };
    let (refusal, n, counts) = calls::run(d.lend(), &load.concat(), lent);
    assert!(work.iter().all(|w| *w == 0));
    assert_eq!(d.terms, 39);
    let fives = |numbers: &[u32]| numbers.chunks(5).map(|r| [r[0], r[1], r[2], r[3], r[4]]).collect::<Vec<_>>();
    let (mut rows, mut found) = (fives(&store), fives(&findings));
    assert!(rows.split_off(n as usize).iter().flatten().all(|w| *w == 0));
    assert!(found.split_off(counts.iter().sum::<u32>() as usize).iter().flatten().all(|w| *w == 0));
    let answer = rows.iter().map(|r| [r[0], r[1], r[2]]).collect();
    Outcome { refusal, counts, rows, answer, found }
}

/// The rows of an empty load: subject, predicate, object, pass and rule.
const EMPTY_ROWS: [[u32; 5]; 4] = [[9, 1, 9, 1, 1], [9, 1, 30, 0, 0], [10, 1, 9, 1, 1], [10, 1, 30, 0, 0]];

/// The rows that a load leaves, those of the empty load not counted, which have to be there.
fn rows_of(load: &[Triple]) -> Vec<[u32; 5]> {
    let rows = run(load, 60, 9).rows;
    assert_eq!(rows[..4], EMPTY_ROWS);
    rows[4..].to_vec()
}

const EMPTY: [Triple; 4] = [[9, 1, 9], [9, 1, 30], [10, 1, 9], [10, 1, 30]];

#[test]
fn empty_load() {
    let r = run(&[], 4, 0);
    assert_eq!((r.refusal, r.counts, r.answer), (0, [0; 5], EMPTY.to_vec()));
    assert_eq!(run(&[], 3, 0).refusal, STORE_FULL);
}

#[test]
fn subclass() {
    let load = [[31, 1, 32], [32, 8, 33]];
    let mut nine = EMPTY.to_vec();
    nine.extend([[31, 1, 9], [31, 1, 32], [31, 1, 33], [32, 1, 9], [32, 8, 33]]);
    assert_eq!(run(&load, 9, 0).answer, nine);
    assert_eq!(run(&load, 8, 0).refusal, STORE_FULL);
}

/// A row has the pass in which its triple came in, and the rule that gave it.
#[test]
fn passes_and_rules() {
    assert_eq!(run(&[], 4, 0).rows, EMPTY_ROWS);
    let five = [[31, 1, 9, 1, 1], [31, 1, 32, 0, 0], [31, 1, 33, 1, 14], [32, 1, 9, 1, 1], [32, 8, 33, 0, 0]];
    assert_eq!(rows_of(&[[31, 1, 32], [32, 8, 33]]), five);
    let ten = [
        [[31, 1, 9, 1, 1], [31, 1, 19, 0, 0], [32, 1, 9, 1, 1], [32, 31, 33, 0, 0], [33, 1, 9, 2, 1]],
        [[33, 11, 33, 1, 9], [34, 1, 9, 1, 1], [34, 31, 35, 0, 0], [35, 1, 9, 2, 1], [35, 11, 35, 1, 9]],
    ];
    assert_eq!(rows_of(&[[31, 1, 19], [32, 31, 33], [34, 31, 35]]), ten.concat());
    let eight = [
        [[31, 1, 9, 1, 1], [31, 1, 20, 0, 0], [32, 1, 9, 1, 1], [32, 11, 32, 1, 10]],
        [[32, 31, 33, 0, 0], [34, 1, 9, 1, 1], [34, 11, 34, 1, 10], [34, 31, 35, 0, 0]],
    ];
    assert_eq!(rows_of(&[[31, 1, 20], [32, 31, 33], [34, 31, 35]]), eight.concat());
    let of_a_list = rows_of(&[[31, 21, 32], [32, 2, 33], [32, 3, 4], [34, 1, 33]]);
    assert_eq!(of_a_list[5..], [[34, 1, 9, 1, 1], [34, 1, 31, 1, 21], [34, 1, 33, 0, 0]]);
}

/// Rule 17 gives 31 1 33 in the pass in which rule 14 does, and rule 16 gives 32 8 33, which is a starting triple. Where the load does
/// not have 32 8 33, rule 14 comes a pass later than 17.
#[test]
fn the_lowest_rule_of_the_first_pass() {
    let ten = [
        [[31, 1, 9, 1, 1], [31, 1, 32, 0, 0], [31, 1, 33, 1, 14], [32, 1, 9, 1, 1], [32, 8, 32, 2, 15]],
        [[32, 8, 33, 0, 0], [32, 18, 33, 0, 0], [33, 1, 9, 2, 1], [33, 8, 32, 1, 16], [33, 8, 33, 2, 15]],
    ];
    for load in [[[31, 1, 32], [32, 8, 33], [32, 18, 33]], [[32, 18, 33], [32, 8, 33], [31, 1, 32]]] {
        assert_eq!(rows_of(&load), ten.concat());
    }
    let ten = [
        [[31, 1, 9, 1, 1], [31, 1, 32, 0, 0], [31, 1, 33, 1, 17], [32, 1, 9, 1, 1], [32, 8, 32, 2, 15]],
        [[32, 8, 33, 1, 16], [32, 18, 33, 0, 0], [33, 1, 9, 2, 1], [33, 8, 32, 1, 16], [33, 8, 33, 2, 15]],
    ];
    assert_eq!(rows_of(&[[31, 1, 32], [32, 18, 33]]), ten.concat());
}

/// 31, 32 and 33 are equal. Rules 7 and 8 both give 31 11 33 in the first pass; 33 is a subject, and so a Thing, a pass later than 31 and
/// 32, and rule 5 gives that too.
#[test]
fn passes_of_equal_terms() {
    let twelve = [
        [[31, 1, 9, 1, 1], [31, 11, 31, 2, 5], [31, 11, 32, 0, 0], [31, 11, 33, 1, 7]],
        [[32, 1, 9, 1, 1], [32, 11, 31, 1, 4], [32, 11, 32, 1, 5], [32, 11, 33, 0, 0]],
        [[33, 1, 9, 2, 1], [33, 11, 31, 2, 4], [33, 11, 32, 1, 4], [33, 11, 33, 1, 5]],
    ];
    for load in [[[31, 11, 32], [32, 11, 33]], [[32, 11, 33], [31, 11, 32]]] {
        assert_eq!(rows_of(&load), twelve.concat());
    }
}

/// A pass reads what was there when it began: 31 8 35 is of the second, as 31 8 33 and 33 8 35 are of the first, and what is a 31 is a 35
/// in the third.
#[test]
fn passes_of_a_chain() {
    let start = [[34, 8, 35], [40, 1, 31], [32, 8, 33], [33, 8, 34], [31, 8, 32]];
    let rows: Vec<[u32; 5]> = close_rows(&start, 99).expect("a small closure").iter().map(|row| row.numbers()).collect();
    let twenty = [
        vec![[31, 1, 9, 1, 1], [31, 8, 32, 0, 0], [31, 8, 33, 1, 15], [31, 8, 34, 2, 15], [31, 8, 35, 2, 15]],
        vec![[32, 1, 9, 1, 1], [32, 8, 33, 0, 0], [32, 8, 34, 1, 15], [32, 8, 35, 2, 15]],
        vec![[33, 1, 9, 1, 1], [33, 8, 34, 0, 0], [33, 8, 35, 1, 15], [34, 1, 9, 1, 1], [34, 8, 35, 0, 0]],
        vec![[40, 1, 9, 1, 1], [40, 1, 31, 0, 0], [40, 1, 32, 1, 14], [40, 1, 33, 2, 14], [40, 1, 34, 2, 14], [40, 1, 35, 3, 14]],
    ];
    assert_eq!(rows, twenty.concat());
}

/// What is loaded is a starting triple, also where the empty load would bring it; where Thing is an intersection of nil rule 1 is the
/// lower one.
#[test]
fn starting_triples_have_no_rule() {
    let rows = run(&[[9, 1, 9], [31, 1, 9], [31, 32, 33]], 60, 0).rows;
    assert_eq!(
        rows,
        [[9, 1, 9, 0, 0], [9, 1, 30, 0, 0], [10, 1, 9, 1, 1], [10, 1, 30, 0, 0], [31, 1, 9, 0, 0], [31, 32, 33, 0, 0]]
    );
    let rows = run(&[[9, 21, 4], [31, 32, 33]], 60, 0).rows;
    assert_eq!(rows[..3], [[9, 1, 9, 1, 1], [9, 1, 30, 0, 0], [9, 21, 4, 0, 0]]);
    assert_eq!(rows[5..], [[31, 1, 9, 1, 1], [31, 32, 33, 0, 0]]);
}

#[test]
fn functional() {
    let load = [[31, 1, 19], [32, 31, 33], [34, 31, 35]];
    assert_eq!(run(&load, 16, 0).answer.len(), 14);
    assert_eq!(run(&load, 15, 0).refusal, STORE_FULL);
}

#[test]
fn inverse_functional() {
    let mut twelve = EMPTY.to_vec();
    twelve.extend([[31, 1, 9], [31, 1, 20], [32, 1, 9], [32, 11, 32], [32, 31, 33], [34, 1, 9], [34, 11, 34], [34, 31, 35]]);
    let different = [[31, 1, 20], [32, 31, 33], [34, 31, 35]];
    assert_eq!(run(&different, 12, 0).answer, twelve);
    assert_eq!(run(&different, 11, 0).refusal, STORE_FULL);
    let one_object = run(&[[31, 1, 20], [32, 31, 33], [34, 31, 33]], 60, 0).answer;
    assert!(one_object.contains(&[32, 11, 34]) && one_object.contains(&[34, 11, 32]));
}

#[test]
fn findings() {
    let one = |load: &[Triple]| {
        let full = run(load, 60, 9);
        let exact = run(load, 60, full.found.len());
        assert_eq!(exact.found, full.found);
        assert_eq!(run(load, 60, full.found.len() - 1).refusal, FINDINGS_FULL);
        (full.counts, full.found)
    };
    assert_eq!(one(&[[31, 1, 32], [31, 1, 33], [32, 26, 33]]), ([1, 0, 0, 0, 0], vec![[1, 31, 32, 33, 0]]));
    assert_eq!(one(&[[31, 1, 15], [32, 31, 33], [33, 31, 32]]), ([0, 0, 2, 0, 0], vec![[3, 31, 32, 33, 0], [3, 31, 33, 32, 0]]));
    assert_eq!(one(&[[31, 29, 32], [33, 31, 34], [33, 32, 34]]), ([0, 0, 0, 1, 0], vec![[4, 33, 34, 31, 32]]));
}

#[test]
fn intersection() {
    assert!(run(&[[31, 21, 32], [32, 2, 33], [32, 3, 4], [34, 1, 33]], 60, 0).answer.contains(&[34, 1, 31]));
}

/// "Joining two cells because the rdf:rest of both is nil" is a slip.
#[test]
fn two_lists_that_end_in_nil() {
    let load = [[31, 21, 32], [32, 2, 33], [32, 3, 4], [34, 2, 35], [34, 3, 4], [31, 1, 31]];
    let r = run(&load, 60, 0);
    assert!(r.answer.contains(&[31, 1, 33]));
    assert!(!r.answer.contains(&[31, 1, 35]));
}

/// Cells 40, 41 and so on, before 50, which has the member 90, and nil.
const THREE: [Triple; 6] = [[40, 2, 91], [40, 3, 41], [41, 2, 90], [41, 3, 50], [50, 2, 90], [50, 3, 4]];

fn members_with(more: &[Triple], named: u32) -> Vec<u32> {
    members(&Cells::new(&[&THREE[..], more].concat()), named)
}

#[test]
fn members_in_order_from_the_cell_named() {
    assert_eq!(members_with(&[], 40), [91, 90, 90]);
    assert_eq!(members_with(&[], 41), [90, 90]);
    assert_eq!(members_with(&[], 50), [90]);
    assert_eq!(members_with(&[], 4), []);
    assert_eq!(members_with(&[], 91), []);
}

#[test]
fn cells_of_two_lists() {
    let other = [[60, 2, 92], [60, 3, 50]];
    assert_eq!(members_with(&other, 60), [92, 90]);
    assert_eq!(members_with(&other, 40), [91, 90, 90]);
    // What is wrong before the cell named does not matter.
    assert_eq!(members_with(&[[40, 2, 92], [60, 3, 41]], 41), [90, 90]);
}

#[test]
fn improper_lists() {
    for more in [[50, 2, 92], [50, 3, 51], [50, 3, 40], [50, 3, 50], [41, 2, 92], [41, 3, 4], [40, 2, 92], [40, 3, 50]] {
        assert_eq!(members_with(&[more], 40), [], "{more:?}");
    }
    for k in 0..THREE.len() {
        let less: Vec<Triple> = (0..THREE.len()).filter(|j| *j != k).map(|j| THREE[j]).collect();
        assert_eq!(members(&Cells::new(&less), 40), [], "without {:?}", THREE[k]);
    }
    let ring = |to: u32| [&THREE[..5], &[[50, 3, to]]].concat();
    for to in [40, 41, 50] {
        assert_eq!(members(&Cells::new(&ring(to)), 40), [], "back to {to}");
    }
}

#[test]
fn a_repeated_list_triple_counts_once() {
    assert_eq!(members_with(&THREE, 40), [91, 90, 90]);
}

#[test]
fn nil_is_always_the_end() {
    let of_nil = [[4, 2, 92], [4, 3, 60], [60, 2, 93], [60, 3, 4]];
    assert_eq!(members_with(&of_nil, 40), [91, 90, 90]);
    assert_eq!(members_with(&of_nil, 60), [93]);
    assert_eq!(members_with(&of_nil, 4), []);
    assert_eq!(members_with(&[[4, 2, 92], [4, 3, 4]], 4), []);
}

/// 31 and 32 are 33 and 35, and 34 and 35: each admits by its own members.
#[test]
fn two_recipes_with_one_tail() {
    let (c, l, m, n) = ([31, 32], 36, 37, 38);
    let lists = [[l, 2, 33], [l, 3, n], [m, 2, 34], [m, 3, n], [n, 2, 35], [n, 3, 4]];
    let closed = |p: u32, types: &[Triple]| {
        let load = [&lists[..], &[[c[0], p, l], [c[1], p, m]], types].concat();
        assert!(!in_domain(&load, &close(&load, 99, 0).expect("a small closure")));
        close(&load, 99, 0).expect("a small closure")
    };
    let classes = |closure: &[Triple], x: u32| c.map(|c| closure.contains(&[x, 1, c]));
    let both = closed(21, &[[40, 1, 33], [40, 1, 35], [41, 1, 34], [41, 1, 35]]);
    assert_eq!((classes(&both, 40), classes(&both, 41)), ([true, false], [false, true]));
    let either = closed(22, &[[40, 1, 33], [41, 1, 34], [42, 1, 35]]);
    assert_eq!([40, 41, 42].map(|x| classes(&either, x)), [[true, false], [false, true], [true, true]]);
    let of_the_recipe = closed(21, &[[40, 1, 31]]);
    assert_eq!([33, 34, 35].map(|d| of_the_recipe.contains(&[40, 1, d])), [true, false, true]);
}

/// 32 is an intersection of nil: every subject is a 32, and what is object or predicate alone is not.
#[test]
fn intersection_of_nil() {
    let load = [[31, 33, 34], [32, 21, 4], [35, 1, 33]];
    let fifteen = [
        [[9, 1, 9], [9, 1, 30], [9, 1, 32]],
        [[10, 1, 9], [10, 1, 30], [10, 1, 32]],
        [[31, 1, 9], [31, 1, 32], [31, 33, 34]],
        [[32, 1, 9], [32, 1, 32], [32, 21, 4]],
        [[35, 1, 9], [35, 1, 32], [35, 1, 33]],
    ];
    assert_eq!(run(&load, 15, 0).answer, fifteen.concat());
    assert_eq!(run(&load, 14, 0).refusal, STORE_FULL);
    assert_eq!(rows_of_subject(&run(&load, 15, 0), 35), [[35, 1, 9, 1, 1], [35, 1, 32, 1, 21], [35, 1, 33, 0, 0]]);
}

/// Nil's own list triples are not read: rules 22 and 23 give nothing for it.
#[test]
fn nil_named_with_list_triples() {
    let of_nil = [[4, 2, 33], [4, 3, 34], [34, 2, 35], [34, 3, 4]];
    let types = |p: u32, more: &[Triple]| {
        let load = [&[[32, p, 4], [31, 1, 33], [31, 1, 35]], &of_nil[..], more].concat();
        run(&load, 60, 0).answer.into_iter().filter(|t| t[1] == 1 && t[2] != 9 && t[2] != 30).collect::<Vec<_>>()
    };
    let of_class = |ids: &[u32]| ids.iter().map(|x| [*x, 1, 32]).collect::<Vec<_>>();
    let mut all = [of_class(&[4, 9, 10, 31, 32, 34]), vec![[31, 1, 33], [31, 1, 35]]].concat();
    all.sort();
    assert_eq!(types(21, &[]), all);
    assert_eq!(types(22, &[]), [[31, 1, 33], [31, 1, 35]]);
    assert_eq!(types(22, &[[9, 1, 32]]), [[9, 1, 32], [31, 1, 33], [31, 1, 35]]);
}

/// An intersection of nil counts where it only follows.
#[test]
fn intersection_of_nil_in_the_closure_alone() {
    let r = run(&[[31, 21, 32], [32, 11, 4]], 18, 0);
    assert!(r.answer.len() == 18 && [4, 9, 10, 31, 32].iter().all(|x| r.answer.contains(&[*x, 1, 31])));
    let r = run(&[[31, 7, 21], [32, 31, 4], [33, 34, 35]], 60, 0);
    assert!(r.answer.contains(&[33, 1, 32]) && !r.answer.contains(&[35, 1, 32]));
}

/// 0 is a subject once 0 0 0 is there, so 0 1 35 takes a row of the store. And it can carry on: what is a 31 is a subproperty of 32, so
/// 0 0 0 gives 0 32 0, 0 is a 33 by the domain, 0 32 34 follows, and by the range 34 is a 35.
#[test]
fn intersection_of_nil_has_0() {
    let load = [[31, 1, 19], [32, 31, 33], [34, 31, 35], [35, 21, 4]];
    assert_eq!(run(&load, 25, 0).answer.len(), 22);
    assert_eq!(run(&load, 24, 0).refusal, STORE_FULL);
    let answer = |zero: &[Triple]| run(&[&CARRIED, zero].concat(), 60, 0).answer;
    assert!(answer(&ZERO).contains(&[34, 1, 35]) && !answer(&[]).contains(&[34, 1, 35]));
}

const CARRIED: [Triple; 7] = [[31, 21, 4], [31, 23, 32], [31, 27, 7], [32, 5, 33], [33, 23, 34], [33, 27, 32], [32, 6, 35]];
const ZERO: [Triple; 2] = [[35, 25, 33], [35, 27, 1]];

/// Triples with an id 0 have passes like any other: here passes 3 to 6 bring nothing else.
#[test]
fn passes_of_zero_triples() {
    let start = [&CARRIED[..], &ZERO, &[[9, 1, 30], [10, 1, 30]]].concat();
    let rows = close_rows(&start, 99).expect("a small closure");
    let of_subject = |s: u32| rows.iter().filter(|row| row.triple[0] == s).map(|row| row.numbers()).collect::<Vec<_>>();
    let eight = [
        [[0, 0, 0, 1, 28], [0, 1, 9, 2, 1], [0, 1, 31, 2, 21], [0, 1, 33, 5, 2]],
        [[0, 1, 35, 5, 3], [0, 7, 32, 3, 24], [0, 32, 0, 4, 11], [0, 32, 34, 6, 24]],
    ];
    assert_eq!(of_subject(0), eight.concat());
    let four = [[34, 1, 9, 8, 1], [34, 1, 31, 8, 21], [34, 1, 35, 7, 3], [34, 7, 32, 9, 24]];
    assert_eq!(of_subject(34), four);
    assert_eq!(rows_of_subject(&run(&[&CARRIED[..], &ZERO].concat(), 60, 0), 34), four);
    assert!(rows.iter().all(|row| row.triple[0] == 0 || row.pass < 3 || row.pass > 6));
}

fn rows_of_subject(outcome: &Outcome, s: u32) -> Vec<[u32; 5]> {
    outcome.rows.iter().copied().filter(|row| row[0] == s).collect()
}

/// Each wrong numbering differs from the right one, in the rows or in the room of a store.
#[test]
fn wrong_numberings() {
    // The lower of rules 14 and 17 is found first for 33, last for 36.
    let equal = [[31, 1, 32], [32, 8, 33], [32, 18, 33], [34, 1, 35], [35, 18, 36], [35, 8, 36]];
    let moved = |t: &Triple| t.map(|id| if id > 30 { id + 10 } else { id });
    let start: Vec<Triple> = equal.into_iter().chain(CARRIED.iter().chain(&ZERO).map(moved)).collect();
    let right = close_rows(&start, 99).expect("a small closure");
    let sizes = [0, 1, 2, 3, 4, 5, 15, 5 * 65_535, 5 * 65_536, 15 * 65_535];
    for (name, rows) in MISNUMBERINGS {
        let wrong = close_mistaken(&start, 99, Mistake { rows: *rows, ..Mistake::default() });
        let sized = |by: &rows::Rows| sizes.map(by.sized);
        assert!(wrong.is_none_or(|wrong| wrong != right) || sized(rows) != sized(&rows::RIGHT), "{name}");
    }
    assert_eq!(rounds(&start), right);
}

/// Rules read the lists of the load, whatever list triples follow.
#[test]
fn list_triples_of_the_closure() {
    let load = [[31, 7, 2], [32, 22, 33], [33, 31, 34], [33, 3, 4], [35, 1, 34]];
    let r = run(&load, 60, 0);
    assert!(r.answer.contains(&[33, 2, 34]) && !r.answer.contains(&[35, 1, 32]));
    let load = [[31, 7, 2], [32, 22, 33], [33, 2, 34], [33, 31, 35], [33, 3, 4], [35, 1, 34]];
    let r = run(&load, 60, 0);
    assert!(r.answer.contains(&[33, 2, 35]) && r.answer.contains(&[35, 1, 32]));
}

/// The original is the measure where it reads the lists that are named as this model does.
#[test]
fn lists_inside_the_domain() {
    let inside = |more: &[Triple], named: u32| in_domain(&[&THREE[..], more].concat(), &[[31, 22, named]]);
    assert!(inside(&[], 40) && inside(&THREE, 40));
    assert!(!inside(&[], 41) && !inside(&[], 50), "named at a later cell");
    assert!(!inside(&[[60, 3, 50]], 40) && !inside(&[[60, 3, 40]], 40) && !inside(&[[4, 3, 50]], 40), "a cell in another triple");
    assert!(!inside(&[[50, 3, 40]], 40) && !inside(&[[41, 3, 4]], 40), "improper");
    assert!(inside(&[[70, 3, 70], [71, 3, 72], [72, 2, 73]], 40), "an improper list that is not named");
    assert!(inside(&[], 4) && inside(&[], 91) && inside(&[], 0), "no list for either");
    assert!(
        inside(&[[4, 2, 92], [4, 3, 60]], 40) && !inside(&[[4, 2, 92]], 4) && !inside(&[[4, 3, 60]], 4),
        "list triples of nil"
    );
    assert!(!inside(&[[60, 2, 90]], 60) && !inside(&[[60, 3, 61]], 61), "no rdf:rest, no triple of its own");
    assert!(!inside(&[[70, 2, 71], [70, 2, 72]], 40), "two rdf:first objects, wherever");
    assert!(in_domain(&THREE, &[[31, 21, 40]]) && !in_domain(&THREE, &[[31, 21, 4]]), "an intersection of nil");
}

/// Thousands of cells, all of them named: a proper list, and a ring.
#[test]
fn long_lists() {
    let (cells, member, thing) = (4_000, 31, 32);
    for end in [4, 40] {
        let mut load = vec![[thing, 1, member]];
        for k in 40..40 + cells {
            load.extend([[k, 2, member], [k, 3, if k + 1 < 40 + cells { k + 1 } else { end }], [20_000 + k, 22, k]]);
        }
        let closure = close(&load, STORE_LIMIT, 0).expect("a closure that a store holds");
        let classes = closure.iter().filter(|t| t[..2] == [thing, 1]).count();
        assert_eq!(classes, if end == 4 { cells as usize + 2 } else { 2 });
    }
}

/// Each wrong reading differs from the right one.
#[test]
fn wrong_readings() {
    let odd =
        [[41, 2, 92], [60, 2, 93], [60, 3, 61], [61, 3, 4], [62, 2, 94], [63, 2, 95], [63, 3, 63], [64, 2, 96], [64, 3, 50]];
    let more = [[65, 2, 97], [65, 2, 97], [65, 3, 4], [66, 2, 98], [66, 3, 4], [66, 3, 65], [4, 2, 99], [4, 3, 64]];
    let cells = Cells::new(&[&THREE[..], &odd, &more].concat());
    let nodes = [4, 40, 41, 50, 60, 61, 62, 63, 64, 65, 66];
    for (name, reading) in READINGS {
        assert!(nodes.iter().any(|node| reading(&cells, *node) != members(&cells, *node)), "{name}");
    }
}

#[test]
fn container_properties() {
    let rdf = |local: &str| -> Term { (1, format!("http://www.w3.org/1999/02/22-rdf-syntax-ns#{local}").into_bytes()) };
    for (local, container) in names::NAMES {
        assert_eq!(is_container_property(&rdf(local)), *container, "{local}");
    }
    let zeros = "0".repeat(4000);
    assert!(is_container_property(&rdf(&format!("_{zeros}1"))));
    assert!(!is_container_property(&rdf(&format!("_{zeros}"))));
    assert!(!is_container_property(&(2, rdf("_1").1)));
}

#[test]
fn container_axioms() {
    let mut d = Owned::with_terms(2);
    let name = b"http://www.w3.org/1999/02/22-rdf-syntax-ns#_7";
    assert_eq!(calls::put(d.lend(), 1, name), (0, 33));
    let (mut store, mut work) = (vec![0; 5 * 20], vec![0; 2 * 37]);
    let lent = Buffers { store: &mut store, findings: &mut [], work: &mut work };
    let (refusal, n, _) = calls::run(d.lend(), &[31, 33, 32], lent);
    assert_eq!((refusal, n), (0, 11));
    // The axioms are starting triples.
    for row in [[33, 1, 34, 0, 0], [33, 1, 35, 0, 0], [33, 7, 36, 0, 0], [31, 36, 32, 1, 11], [33, 1, 9, 1, 1]] {
        assert!(store.chunks(5).any(|r| r == row), "{row:?}");
    }
}

#[test]
fn start_and_its_refusals() {
    let (refusal, d) = Owned::start(31, 1325);
    assert_eq!((refusal, d.terms, d.used), (0, 31, 1325));
    assert_eq!(&d.table[64..68], &[0, 5, 1, 0]);
    assert_eq!((d.table, d.arena), layout(&starting_terms(), 64 + 4 * 31, 1325));
    for (entries, bytes) in [(30, 1325), (31, 1324)] {
        let (refusal, d) = Owned::start(entries, bytes);
        assert_eq!((refusal, d.terms, d.used), (DICTIONARY_FULL, 0, 0));
        assert!(d.table.iter().all(|n| *n == 7) && d.arena.iter().all(|b| *b == 7));
    }
    for (entries, bytes) in [(65_536, 1325), (31, 1_048_577)] {
        assert_eq!(Owned::start(entries, bytes).0, ILL_SIZED_STORE);
    }
    assert_eq!(Owned::start(65_535, 1_048_576).0, 0);
}

#[test]
fn put_and_lookup() {
    let (_, mut d) = Owned::start(33, 1325 + 4);
    assert_eq!(calls::put(d.lend(), 1, b"urn:_"), (0, 0));
    assert_eq!(calls::put(d.lend(), 0, b"x"), (UNKNOWN_KIND, 0));
    assert_eq!(calls::put(d.lend(), 4, b"x"), (UNKNOWN_KIND, 0));
    assert_eq!(calls::put(d.lend(), 1, &[0; 4097]), (TERM_TOO_LONG, 0));
    assert_eq!(calls::put(d.lend(), 1, &[0; 4096]), (DICTIONARY_FULL, 0));
    assert_eq!(calls::put(d.lend(), 3, b"abcd"), (0, 31));
    assert_eq!(calls::put(d.lend(), 2, b""), (0, 32));
    assert_eq!(calls::put(d.lend(), 3, b"abcd"), (0, 31));
    assert_eq!(calls::put(d.lend(), 1, b""), (DICTIONARY_FULL, 0));
    assert_eq!(calls::lookup(d.lend(), 31), (0, 3, 1325, 4));
    assert_eq!(calls::lookup(d.lend(), 0), (0, 1, 0, 5));
    assert_eq!(calls::lookup(d.lend(), 33), (NO_SUCH_ID, 0, 0, 0));
    let chain = (3 + 97 + 98 + 99 + 100) % 64;
    assert_eq!(d.table[chain], 31);
    d.table[chain] = 0;
    assert_eq!(calls::lookup(d.lend(), 0), (BROKEN_DICTIONARY, 0, 0, 0));
}

/// A new term goes to the front of its chain.
#[test]
fn chain_order() {
    let (_, mut d) = Owned::start(40, 2000);
    let (a, b) = (calls::put(d.lend(), 3, b"ab").1, calls::put(d.lend(), 3, b"ba").1);
    let chain = (3 + 97 + 98) % 64;
    assert_eq!(d.table[chain], b);
    assert_eq!(d.table[64 + 4 * b as usize + 3], a);
}

#[test]
fn refusals_of_a_run_in_their_order() {
    let refusal = |load: &[u32], store: usize, findings: usize, work: usize| {
        let mut d = Owned::with_terms(1);
        let mut buffers = (vec![7; store], vec![7; findings], vec![7; work]);
        let lent = Buffers { store: &mut buffers.0, findings: &mut buffers.1, work: &mut buffers.2 };
        let result = calls::run(d.lend(), load, lent);
        assert!(result.0 >= 8 || result.0 == 0 || (buffers.0.iter().all(|n| *n == 7) && d.terms == 32));
        result.0
    };
    assert_eq!(refusal(&[0, 1], 1, 1, 0), RAGGED_LOAD);
    assert_eq!(refusal(&[0; 3 * 16_385], 1, 1, 0), LOAD_TOO_LONG);
    assert_eq!(refusal(&[0; 3 * 16_384], 5, 5, 0), ILL_SIZED_STORE);
    for store in [1, 2, 3, 4, 6, 9, 12, 28, 29, 31, 33, 5 * 65_535 - 1, 5 * 65_535 + 1, 5 * 65_536, 3 * 65_535 + 2] {
        assert_eq!(refusal(&[99, 0, 1], store, 5, 70), ILL_SIZED_STORE, "{store}");
    }
    assert_eq!(refusal(&[99, 0, 1], 5, 1, 70), ILL_SIZED_STORE);
    assert_eq!(refusal(&[99, 0, 1], 5, 5, 69), ILL_SIZED_STORE);
    assert_eq!(refusal(&[99, 0, 1], 5, 5 * 65_536, 70), ILL_SIZED_STORE);
    assert_eq!(refusal(&[99, 1, 1, 1, 1, 0], 5, 5, 70), BLANK_ID);
    assert_eq!(refusal(&[99, 1, 1, 1, 1, 0], 5 * 65_535, 5, 70), BLANK_ID);
    assert_eq!(refusal(&[31, 1, 32], 5, 5, 70), UNKNOWN_TERM);
    for store in [0, 5, 25] {
        assert_eq!(refusal(&[31, 1, 10], store, 0, 70), STORE_FULL);
    }
    assert_eq!(refusal(&[31, 1, 10], 30, 0, 70), FINDINGS_FULL);
    assert_eq!(refusal(&[31, 1, 10], 30, 5, 70), 0);
}

/// A run puts all three of its terms or none; those held already need no room.
#[test]
fn room_for_the_three_terms_of_a_run() {
    let run = |entries: usize, member_first: bool| {
        let (_, mut d) = Owned::start(entries, 2000);
        if member_first {
            calls::put(d.lend(), 1, b"http://www.w3.org/2000/01/rdf-schema#member");
        }
        let (mut store, mut work) = (vec![0; 20], vec![0; 100]);
        let lent = Buffers { store: &mut store, findings: &mut [], work: &mut work };
        (calls::run(d.lend(), &[], lent).0, d.terms)
    };
    assert_eq!(run(33, false), (DICTIONARY_FULL, 31));
    assert_eq!(run(34, false), (0, 34));
    assert_eq!(run(33, true), (DICTIONARY_FULL, 32));
    assert_eq!(run(34, true), (0, 34));
}

#[test]
fn zero_triples_carry_a_real_one() {
    let answer = run(&[[9, 23, 31], [9, 27, 11]], 120, 3).answer;
    assert!(answer.contains(&[31, 31, 31]));
}
