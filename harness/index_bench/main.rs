// Measures is_valid of crate index beside one pass that adds up all numbers of the same table and all bytes of the same arena, in one
// run. Both take turns, a time is the best of them, and times are the thread's own, so that other work on the machine counts little.
// The dictionary is as full as it can be: 65,535 entries and 1,048,576 bytes. From the repository's root:
//     harness/archive trial_index_bench
//     rustc --edition 2021 -O -o target/index_bench -L target/staticlib -l static=trial_index_bench harness/index_bench/main.rs && target/index_bench
use std::hint::black_box;

extern "C" {
    fn index_bench_is_valid(table: *const u32, table_len: usize, arena: *const u8, arena_len: usize, terms: u32, used: u32) -> bool;
}

#[path = "../clock.rs"]
mod clock;
use clock::clock;

const ENTRIES: usize = 65_535;
const ARENA: usize = 1_048_576;
const TURNS: usize = 100;
const BOUND: f64 = 20.0;

// The terms of a start, docs/REFERENCE.md, 2.5.
fn start_terms() -> Vec<Vec<u8>> {
    let spaces = [
        ("urn:", "_"),
        ("http://www.w3.org/1999/02/22-rdf-syntax-ns#", "type first rest nil"),
        ("http://www.w3.org/2000/01/rdf-schema#", "domain range subPropertyOf subClassOf"),
        (
            "http://www.w3.org/2002/07/owl#",
            "Thing Nothing sameAs inverseOf SymmetricProperty IrreflexiveProperty AsymmetricProperty TransitiveProperty \
             equivalentProperty equivalentClass FunctionalProperty InverseFunctionalProperty intersectionOf unionOf hasValue \
             allValuesFrom someValuesFrom disjointWith onProperty complementOf propertyDisjointWith Class",
        ),
    ];
    spaces.iter().flat_map(|(space, names)| names.split(' ').map(move |n| format!("{space}{n}").into_bytes())).collect()
}

// The start's terms, then named nodes of 16 bytes, the first 813 of 15, so that the bytes fill the arena.
fn terms() -> Vec<Vec<u8>> {
    let mut terms = start_terms();
    let mut state: u64 = 88_172_645_463_325_252;
    for id in terms.len()..ENTRIES {
        state ^= state << 13;
        state ^= state >> 7;
        state ^= state << 17;
        let mut term = format!("urn:{id:05}{:07x}", state >> 36).into_bytes();
        term.truncate(if id < 31 + 813 { 15 } else { 16 });
        terms.push(term);
    }
    terms
}

// The table and the arena that hold them.
fn layout(terms: &[Vec<u8>]) -> (Vec<u32>, Vec<u8>) {
    let mut table = vec![0u32; 64 + 4 * ENTRIES];
    let mut arena = Vec::with_capacity(ARENA);
    for (id, term) in terms.iter().enumerate() {
        let chain = (1 + term.iter().map(|b| *b as usize).sum::<usize>()) % 64;
        let next = if id == 0 { 0 } else { std::mem::replace(&mut table[chain], id as u32) };
        table[64 + 4 * id..][..4].copy_from_slice(&[arena.len() as u32, term.len() as u32, 1, next]);
        arena.extend(term);
    }
    (table, arena)
}

fn is_valid(table: &[u32], arena: &[u8], used: u32) -> bool {
    unsafe { index_bench_is_valid(table.as_ptr(), table.len(), arena.as_ptr(), arena.len(), ENTRIES as u32, used) }
}

// Not inlined: a call, as is_valid is.
#[inline(never)]
fn sum(table: &[u32], arena: &[u8]) -> u64 {
    let numbers: u64 = table.iter().map(|n| *n as u64).sum();
    let bytes: u64 = arena.iter().map(|b| *b as u64).sum();
    numbers + bytes
}

fn main() {
    let (table, mut arena) = layout(&terms());
    assert!(arena.len() == ARENA, "the arena is not full: {} bytes", arena.len());
    let (mut here, mut pass) = (f64::MAX, f64::MAX);
    for _ in 0..TURNS {
        let before = clock();
        assert!(is_valid(&table, &arena, ARENA as u32), "a dictionary is refused");
        here = here.min(clock() - before);
        let before = clock();
        black_box(sum(black_box(&table), black_box(&arena)));
        pass = pass.min(clock() - before);
    }
    arena[ARENA - 1] ^= 1;
    assert!(!is_valid(&table, &arena, ARENA as u32), "a broken dictionary is accepted");
    let ratio = here / pass;
    println!("is_valid {here:.3} ms, one pass {pass:.3} ms, ratio {ratio:.2}, bound {BOUND}");
    assert!(ratio <= BOUND, "beyond the bound");
}
