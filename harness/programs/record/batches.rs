//! The three runs of the batching clause: load A, then A's answer with B, then A and B together, other calls between.

use crate::calls::*;
use crate::lists::*;
use crate::memory::{COUNT, COUNTS, FINDINGS, STORE};
use crate::text::Text;
use generate::Random;
use model::{Triple, STORE_WIDTH};

/// A, its answer, B, what the second run adds to A's answer and B, the answer of the third run and the findings of both, each without the
/// four rows of an empty load; A alone has no findings. Loads have three numbers a triple, answers five a row. Terms 31 to 33 and 35 are
/// named nodes, 34 is the container property rdf:_1; then come so many named nodes more, the three terms of the first run, and a blank
/// node.
struct Batch {
    name: &'static str,
    more: u32,
    a: &'static str,
    first: &'static str,
    b: &'static str,
    added: &'static str,
    whole: &'static str,
    found: &'static str,
}

/// Rows of numbers, a comma between them.
fn numbers<const N: usize>(text: &str) -> Vec<[u32; N]> {
    let row = |r: &str| r.split(' ').map(|n| n.parse().expect("a number")).collect::<Vec<_>>().try_into().expect("a row");
    text.split(", ").filter(|r| !r.is_empty()).map(row).collect()
}

/// Rows and those of an empty load, ascending.
fn ascending(rows: Vec<Row>, empty: Vec<Row>) -> Vec<Row> {
    let mut all = [rows, empty].concat();
    all.sort_unstable();
    all
}

impl Batch {
    fn first_rows(&self) -> Vec<Row> {
        ascending(numbers(self.first), EMPTY.to_vec())
    }

    /// A's answer and B are starting triples.
    fn second_rows(&self) -> Vec<Row> {
        let b: Vec<Row> = numbers(self.b).into_iter().map(|[s, p, o]: Triple| [s, p, o, 0, 0]).collect();
        ascending([b, numbers(self.added)].concat(), starting(&self.first_rows()))
    }

    fn third_rows(&self) -> Vec<Row> {
        ascending(numbers(self.whole), EMPTY.to_vec())
    }
}

const BATCHES: &[Batch] = &[
    // "31 1 32, 32 8 33: nine triples."
    Batch {
        name: "batch, subclass",
        more: 0,
        a: "31 1 32",
        first: "31 1 9 1 1, 31 1 32 0 0",
        b: "32 8 33",
        added: "31 1 33 1 14, 32 1 9 1 1",
        whole: "31 1 9 1 1, 31 1 32 0 0, 31 1 33 1 14, 32 1 9 1 1, 32 8 33 0 0",
        found: "",
    },
    Batch {
        name: "batch, A empty",
        more: 0,
        a: "",
        first: "",
        b: "31 1 32",
        added: "31 1 9 1 1",
        whole: "31 1 9 1 1, 31 1 32 0 0",
        found: "",
    },
    Batch {
        name: "batch, B empty",
        more: 0,
        a: "31 1 32, 32 8 33",
        first: "31 1 9 1 1, 31 1 32 0 0, 31 1 33 1 14, 32 1 9 1 1, 32 8 33 0 0",
        b: "",
        added: "",
        whole: "31 1 9 1 1, 31 1 32 0 0, 31 1 33 1 14, 32 1 9 1 1, 32 8 33 0 0",
        found: "",
    },
    // 32 and 33 are equivalent: rule 16 gives 33 8 32 and, though it is loaded, 32 8 33; in the pass after that 33 is a Thing and each a
    // subclass of itself. Rules 14 and 17 give 31 1 33 in one pass.
    Batch {
        name: "batch, equivalent classes",
        more: 0,
        a: "31 1 32, 32 8 33",
        first: "31 1 9 1 1, 31 1 32 0 0, 31 1 33 1 14, 32 1 9 1 1, 32 8 33 0 0",
        b: "32 18 33",
        added: "32 8 32 2 15, 33 1 9 2 1, 33 8 32 1 16, 33 8 33 2 15",
        whole: "31 1 9 1 1, 31 1 32 0 0, 31 1 33 1 14, 32 1 9 1 1, 32 8 32 2 15, 32 8 33 0 0, 32 18 33 0 0, 33 1 9 2 1, 33 8 32 1 16, \
                33 8 33 2 15",
        found: "",
    },
    // Rule 11 gives 31 member 32 from the axiom of 34; 36, 37 and 38 are Property, ContainerMembershipProperty and member.
    Batch {
        name: "batch, container property",
        more: 0,
        a: "31 34 32",
        first: "31 1 9 1 1, 31 34 32 0 0, 31 38 32 1 11, 34 1 9 1 1, 34 1 36 0 0, 34 1 37 0 0, 34 7 38 0 0",
        b: "32 8 33",
        added: "32 1 9 1 1",
        whole: "31 1 9 1 1, 31 34 32 0 0, 31 38 32 1 11, 32 1 9 1 1, 32 8 33 0 0, 34 1 9 1 1, 34 1 36 0 0, 34 1 37 0 0, 34 7 38 0 0",
        found: "",
    },
    // 31 is the intersection of 33 alone, so 35, a 33, is a 31.
    Batch {
        name: "batch, list",
        more: 0,
        a: "31 21 32, 32 2 33, 32 3 4",
        first: "31 1 9 1 1, 31 21 32 0 0, 32 1 9 1 1, 32 2 33 0 0, 32 3 4 0 0",
        b: "35 1 33",
        added: "35 1 9 1 1, 35 1 31 1 21",
        whole: "31 1 9 1 1, 31 21 32 0 0, 32 1 9 1 1, 32 2 33 0 0, 32 3 4 0 0, 35 1 9 1 1, 35 1 31 1 21, 35 1 33 0 0",
        found: "",
    },
    // 31 is in the classes 32 and 33, which are disjoint.
    Batch {
        name: "batch, disjoint classes",
        more: 0,
        a: "31 1 32, 32 26 33",
        first: "31 1 9 1 1, 31 1 32 0 0, 32 1 9 1 1, 32 26 33 0 0",
        b: "31 1 33",
        added: "",
        whole: "31 1 9 1 1, 31 1 32 0 0, 31 1 33 0 0, 32 1 9 1 1, 32 26 33 0 0",
        found: "1 31 32 33 0",
    },
    // 31 is functional: the closure has 0 0 0 and 0 1 9 besides the 14 triples of the answer, and 16 fit just. What rule 9 gives of 33 and
    // of 34 makes them Things a pass later.
    Batch {
        name: "batch, zero triples",
        more: 0,
        a: "31 1 19, 32 31 33",
        first: "31 1 9 1 1, 31 1 19 0 0, 32 1 9 1 1, 32 31 33 0 0, 33 1 9 2 1, 33 11 33 1 9",
        b: "35 31 34",
        added: "34 1 9 2 1, 34 11 34 1 9, 35 1 9 1 1",
        whole: "31 1 9 1 1, 31 1 19 0 0, 32 1 9 1 1, 32 31 33 0 0, 33 1 9 2 1, 33 11 33 1 9, 34 1 9 2 1, 34 11 34 1 9, 35 1 9 1 1, \
                35 31 34 0 0",
        found: "",
    },
    // 31 is inverse functional: 35 has the object of 32, so the two are equal; 33 has another.
    Batch {
        name: "batch, inverse functional property",
        more: 0,
        a: "31 1 20, 32 31 33",
        first: "31 1 9 1 1, 31 1 20 0 0, 32 1 9 1 1, 32 11 32 1 10, 32 31 33 0 0",
        b: "35 31 33, 33 31 34",
        added: "32 11 35 1 10, 33 1 9 1 1, 33 11 33 1 10, 35 1 9 1 1, 35 11 32 1 10, 35 11 35 1 10",
        whole: "31 1 9 1 1, 31 1 20 0 0, 32 1 9 1 1, 32 11 32 1 10, 32 11 35 1 10, 32 31 33 0 0, 33 1 9 1 1, 33 11 33 1 10, \
                33 31 34 0 0, 35 1 9 1 1, 35 11 32 1 10, 35 11 35 1 10, 35 31 33 0 0",
        found: "",
    },
    // 31 is an intersection of nil, so every subject of A and of B is a 31.
    Batch {
        name: "batch, intersection of nil",
        more: 0,
        a: "31 21 4, 32 33 35",
        first: "9 1 31 1 21, 10 1 31 1 21, 31 1 9 1 1, 31 1 31 1 21, 31 21 4 0 0, 32 1 9 1 1, 32 1 31 1 21, 32 33 35 0 0",
        b: "33 32 35",
        added: "33 1 9 1 1, 33 1 31 1 21",
        whole: "9 1 31 1 21, 10 1 31 1 21, 31 1 9 1 1, 31 1 31 1 21, 31 21 4 0 0, 32 1 9 1 1, 32 1 31 1 21, 32 33 35 0 0, \
                33 1 9 1 1, 33 1 31 1 21, 33 32 35 0 0",
        found: "",
    },
    // 31 is the union of 37 and 39, 32 that of 38 and 39, and the cell of 39, 36, is the rest of both. B has a 37, and the blank node,
    // 44, as a 38: the one is a 31, the other a 32.
    Batch {
        name: "batch, shared tail",
        more: 5,
        a: "31 22 33, 33 2 37, 33 3 36, 36 2 39, 36 3 4, 32 22 35, 35 2 38, 35 3 36",
        first: "31 1 9 1 1, 31 22 33 0 0, 32 1 9 1 1, 32 22 35 0 0, 33 1 9 1 1, 33 2 37 0 0, 33 3 36 0 0, 35 1 9 1 1, 35 2 38 0 0, \
                35 3 36 0 0, 36 1 9 1 1, 36 2 39 0 0, 36 3 4 0 0",
        b: "40 1 37, 44 1 38",
        added: "40 1 9 1 1, 40 1 31 1 23, 44 1 9 1 1, 44 1 32 1 23",
        whole: "31 1 9 1 1, 31 22 33 0 0, 32 1 9 1 1, 32 22 35 0 0, 33 1 9 1 1, 33 2 37 0 0, 33 3 36 0 0, 35 1 9 1 1, 35 2 38 0 0, \
                35 3 36 0 0, 36 1 9 1 1, 36 2 39 0 0, 36 3 4 0 0, \
                40 1 9 1 1, 40 1 31 1 23, 40 1 37 0 0, 44 1 9 1 1, 44 1 32 1 23, 44 1 38 0 0",
        found: "",
    },
];

/// 31 and 32 are disjoint, 33 is a subclass of 31, 35 is asymmetric and 38 one of its subproperties. B makes 36 a 32 and 37 a 33,
/// relates 37 to 36 by 38, and gives 38 the domain 39.
const SHUFFLED: Batch = Batch {
    name: "batch, random orders",
    more: 4,
    a: "31 26 32, 33 8 31, 36 1 33, 35 1 15, 36 35 37, 38 7 35, 37 1 32",
    first: "31 1 9 1 1, 31 26 32 0 0, 33 1 9 1 1, 33 8 31 0 0, 35 1 9 1 1, 35 1 15 0 0, 36 1 9 1 1, 36 1 31 1 14, 36 1 33 0 0, \
            36 35 37 0 0, 37 1 9 1 1, 37 1 32 0 0, 38 1 9 1 1, 38 7 35 0 0",
    b: "36 1 32, 37 38 36, 37 1 33, 38 5 39",
    added: "37 1 31 1 14, 37 1 39 1 2, 37 35 36 1 11",
    whole: "31 1 9 1 1, 31 26 32 0 0, 33 1 9 1 1, 33 8 31 0 0, 35 1 9 1 1, 35 1 15 0 0, 36 1 9 1 1, 36 1 31 1 14, 36 1 32 0 0, \
            36 1 33 0 0, 36 35 37 0 0, 37 1 9 1 1, 37 1 31 1 14, 37 1 32 0 0, 37 1 33 0 0, 37 1 39 1 2, 37 35 36 1 11, \
            37 38 36 0 0, 38 1 9 1 1, 38 5 39 0 0, 38 7 35 0 0",
    found: "1 36 31 32 0, 1 37 31 32 0, 3 35 36 37 0, 3 35 37 36 0",
};

/// The order of a load's triples.
#[derive(Clone, Copy)]
enum Order {
    Written,
    Reversed,
    /// Every triple at least twice.
    ReversedTwice,
    /// By chance from a seed, some of them twice.
    Random(u64),
}

pub fn lists(text: &mut Text) {
    for batch in BATCHES {
        in_orders(text, batch, [Order::Written, Order::Reversed, Order::ReversedTwice]);
    }
    in_orders(text, &SHUFFLED, [1, 2, 3].map(Order::Random));
}

fn in_orders(text: &mut Text, batch: &Batch, orders: [Order; 3]) {
    for order in orders {
        begin(text, TABLE_NUMBERS, ARENA_BYTES);
        put_terms(text, batch.more);
        three_runs(text, batch, order);
    }
    text.end(batch.name);
}

/// The load in this order. Reversed: the first triple, then the others from the last on.
fn arrange(triples: &[Triple], order: Order) -> Vec<u32> {
    let n = triples.len();
    let reversed = |length: usize| (0..length).map(|k| triples[(n - k % n) % n]).collect::<Vec<_>>();
    let arranged = match order {
        Order::Written => triples.to_vec(),
        _ if n == 0 => Vec::new(),
        Order::Reversed => reversed(n),
        Order::ReversedTwice => reversed(2 * n + 1),
        Order::Random(seed) => {
            let mut r = Random::item(seed, n as u64);
            let mut all = triples.to_vec();
            all.extend((0..n / 2).map(|_| r.pick(triples)));
            r.shuffle(&mut all);
            all
        }
    };
    arranged.concat()
}

fn put_terms(text: &mut Text, more: u32) {
    put_abc(text);
    put_new(text, 1, b"http://www.w3.org/1999/02/22-rdf-syntax-ns#_1", 34, 1385);
    put_new(text, 1, b"urn:d", 35, 1390);
    for k in 0..more {
        put_new(text, 1, format!("urn:{k}").as_bytes(), 36 + k, 1395 + 5 * k);
    }
}

fn three_runs(text: &mut Text, batch: &Batch, order: Order) {
    let (terms, used) = (39 + batch.more, 1548 + 5 * batch.more);
    let after = [terms + 1, used + 5];
    let (a, b, found) = (numbers(batch.a), numbers(batch.b), numbers::<5>(batch.found).concat());
    run_of(text, &arrange(&a, order), &batch.first_rows(), 1, &[], [terms, used]);
    let answer: Vec<Triple> = stored(text).iter().map(|[s, p, o, ..]| [*s, *p, *o]).collect();

    // Before the second run a put of a term held, a new one, and a lookup of a term of the first run.
    put_same(text, 1, b"urn:a", 0, 31);
    put_new(text, 2, b"urn:e", terms, used + 5);
    look(text, terms - 1, 0, 1, MEMBER);
    run_of(text, &arrange(&[&answer[..], &b].concat(), order), &batch.second_rows(), 2, &found, after);
    let second = outcome(text);

    // Before the third a refused put, a run of a ragged load, and a lookup past the terms.
    put_same(text, 0, b"urn:f", 10, 0);
    refuse(text, &lend(&[31, 1, 32, 31], rows(9), 5, WORK_NUMBERS), 2, after);
    look(text, terms + 1, 12, 0, b"");
    run_of(text, &arrange(&[a, b].concat(), order), &batch.third_rows(), 3, &found, after);
    assert_eq!(second, outcome(text), "the second run and the third");
}

/// A run whose store has room for the answer and so many rows more.
fn run_of(text: &mut Text, load: &[u32], answer: &[Row], more: usize, found: &[u32], after: Counters) {
    let lent = lend(load, rows(answer.len() + more), FINDINGS_NUMBERS, WORK_NUMBERS);
    accept(text, &lent, answer, found, after);
}

/// The rows of the answer in the store.
fn stored(text: &Text) -> Vec<Row> {
    let rows = text.memory().lent(STORE).chunks(STORE_WIDTH).take(text.memory().0[COUNT] as usize);
    rows.map(|row| row.try_into().expect("a row")).collect()
}

/// Triples, findings, and the six counts. Passes and rules are of a run's own start.
fn outcome(text: &Text) -> (Vec<u32>, Vec<u32>, Vec<u32>) {
    let counts = &text.memory().0[COUNT..COUNTS + 5];
    (loaded(&stored(text)), text.memory().lent(FINDINGS).to_vec(), counts.to_vec())
}
