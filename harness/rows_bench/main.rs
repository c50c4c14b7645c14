// Measures crates store_rows and store_sort beside Rust's own on the same rows in one run: sorting beside sort_unstable, appending with
// repeats beside HashSet. Rows of a store, s p o pass rule, are told apart and put in order by s, p and o. Both take turns, a time is the
// best of them, and what both leave is compared. Times are the thread's own, so that other work on the machine counts little. From the
// repository's root:
//     harness/archive trial_rows_bench
//     rustc --edition 2021 -O -o target/rows_bench -L target/staticlib -l static=trial_rows_bench harness/rows_bench/main.rs && target/rows_bench
use std::collections::HashSet;

extern "C" {
    fn rows_bench_sort_triples(buf: *mut u32, len: usize, n: usize);
    fn rows_bench_sort_findings(buf: *mut u32, len: usize, n: usize);
    fn rows_bench_append(
        load: *const u32,
        load_len: usize,
        store: *mut u32,
        store_len: usize,
        hash: *mut u32,
        hash_len: usize,
        count: usize,
    ) -> usize;
}

#[path = "../clock.rs"]
mod clock;
use clock::clock;

const ROWS: usize = 65_535;
const TURNS: usize = 30;

// A row of a store, and a finding.
type Row = [u32; 5];

// What is put in order: rows of a store by their first three numbers, findings by all five.
#[derive(Clone, Copy)]
enum Kind {
    Store,
    Findings,
}

impl Kind {
    fn name(self) -> &'static str {
        match self {
            Kind::Store => "rows",
            Kind::Findings => "findings",
        }
    }

    fn sort(self, rows: &mut [Row]) {
        match self {
            Kind::Store => rows.sort_unstable_by_key(|r| [r[0], r[1], r[2]]),
            Kind::Findings => rows.sort_unstable(),
        }
    }

    // Of a store's row pass and rule come with the triple, so that rows of one triple are the same.
    fn row(self, [s, p, o, c, d]: Row) -> Row {
        match self {
            Kind::Store => [s, p, o, (s ^ o) % 9, (p ^ o) % 29],
            Kind::Findings => [s, p, o, c, d],
        }
    }
}

struct Random(u64);

impl Random {
    fn below(&mut self, bound: u32) -> u32 {
        self.0 ^= self.0 << 13;
        self.0 ^= self.0 >> 7;
        self.0 ^= self.0 << 17;
        (self.0 >> 20) as u32 % bound
    }
}

// Two ways to the same end, turn by turn: the least milliseconds of each, and what the last turn of each left.
fn beside<A, B>(
    start: impl Fn() -> A,
    turn: impl Fn(&mut A),
    rust_start: impl Fn() -> B,
    rust_turn: impl Fn(&mut B),
) -> (f64, A, f64, B) {
    let (mut least, mut rust_least) = (f64::MAX, f64::MAX);
    let (mut last, mut rust_last) = (start(), rust_start());
    for _ in 0..TURNS {
        last = start();
        let before = clock();
        turn(&mut last);
        least = least.min(clock() - before);
        rust_last = rust_start();
        let before = clock();
        rust_turn(&mut rust_last);
        rust_least = rust_least.min(clock() - before);
    }
    (least, last, rust_least, rust_last)
}

fn sort_here(buf: &mut [u32], kind: Kind, n: usize) {
    match kind {
        Kind::Store => unsafe { rows_bench_sort_triples(buf.as_mut_ptr(), buf.len(), n) },
        Kind::Findings => unsafe { rows_bench_sort_findings(buf.as_mut_ptr(), buf.len(), n) },
    }
}

fn sort(kind: Kind, name: &str, rows: &[Row]) {
    let flat = rows.concat();
    let (here, ours, rust, theirs) =
        beside(|| flat.clone(), |b| sort_here(b, kind, rows.len()), || rows.to_vec(), |v| kind.sort(v));
    assert!(ours == theirs.concat(), "{name}: not the rows that Rust leaves");
    println!("sort   {:8} {name:36} {here:7.3} ms, sort_unstable {rust:7.3} ms, ratio {:6.2}", kind.name(), here / rust);
}

fn sorts(kind: Kind, random: &mut Random) {
    let mut draw = |subjects: u32, predicates: u32, others: u32| -> Vec<Row> {
        let bounds = [subjects, predicates, others, others, others];
        (0..ROWS).map(|_| kind.row(bounds.map(|bound| random.below(bound)))).collect()
    };
    sort(kind, "random numbers", &draw(u32::MAX, u32::MAX, u32::MAX));
    sort(kind, "random ids", &draw(65_536, 65_536, 65_536));
    sort(kind, "300 subjects, 30 predicates", &draw(300, 30, 65_536));
    let mut rows = draw(20_000, 30, 20_000);
    sort(kind, "20,000 subjects, 30 predicates", &rows);
    rows.sort_unstable();
    sort(kind, "in order", &rows);
    sort(kind, "in order but for the first", &[&rows[1..], &rows[..1]].concat());
    for runs in [2, 16, 300] {
        let runs_of: Vec<Row> = (0..runs).flat_map(|k| rows.iter().skip(k).step_by(runs)).copied().collect();
        sort(kind, &format!("in {runs} runs, each in order"), &runs_of);
    }
    rows.sort_unstable_by_key(|r| (r[1], r[0]));
    sort(kind, "in order of predicates", &rows);
    rows.sort_unstable_by(|a, b| b.cmp(a));
    sort(kind, "in descending order", &rows);
    sort(kind, "all the same", &[[5; 5]; ROWS]);
}

// Starting triples: the rows to append have pass 0 and rule 0, five numbers each as those of the store.
fn append(name: &str, rows: &[[u32; 3]]) {
    let flat: Vec<u32> = rows.concat();
    let (here, (store, _, count), rust, set) = beside(
        || (vec![0u32; 5 * ROWS], vec![0u32; 131_072], 0),
        |(store, hash, count)| {
            let (s, h) = (store.len(), hash.len());
            *count =
                unsafe { rows_bench_append(flat.as_ptr(), flat.len(), store.as_mut_ptr(), s, hash.as_mut_ptr(), h, rows.len()) };
        },
        HashSet::new,
        |s: &mut HashSet<[u32; 3]>| {
            for r in rows {
                s.insert(*r);
            }
        },
    );
    let ours: HashSet<[u32; 3]> = store[..5 * count].chunks(5).map(|r| [r[0], r[1], r[2]]).collect();
    assert!(count == set.len() && ours == set, "{name}: not the rows that the set has");
    println!("append {name:44} {count:5} kept {here:7.3} ms, HashSet {rust:7.3} ms, ratio {:6.2}", here / rust);
}

fn appends(random: &mut Random) {
    let mut draw = |s: u32, p: u32, o: u32| -> Vec<[u32; 3]> {
        (0..ROWS).map(|_| [random.below(s), random.below(p), random.below(o)]).collect()
    };
    append("random ids", &draw(65_536, 65_536, 65_536));
    append("20,000 subjects, 30 predicates", &draw(20_000, 30, 20_000));
    append("a third repeats", &draw(64, 16, 64));
    append("nearly all repeats", &draw(20, 5, 20));
    let ids = 0..ROWS as u32;
    append("subject and object ascend together", &ids.clone().map(|i| [i, 1, i + 1]).collect::<Vec<_>>());
    append("subject ascends, object descends", &ids.map(|i| [i, 1, 65_535 - i]).collect::<Vec<_>>());
}

fn main() {
    let mut random = Random(88_172_645_463_325_252);
    for n in 0..300 {
        let mut rows: Vec<Row> = (0..n + 1).map(|_| Kind::Store.row(std::array::from_fn(|_| random.below(6)))).collect();
        let mut after = rows.concat();
        sort_here(&mut after, Kind::Store, n);
        rows[..n].sort();
        assert!(after == rows.concat(), "{n} rows");
    }
    sorts(Kind::Store, &mut random);
    sorts(Kind::Findings, &mut random);
    appends(&mut random);
}
