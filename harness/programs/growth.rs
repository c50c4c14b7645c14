//! growth: how the port's time for `run` grows where the closure doubles. For each kind of model a line for each step:
//! `growth KIND A to B R`, A and B the closures' numbers of triples and R the factor of the time, reckoned for one doubling.
//!
//! Models of a kind differ in how many parts they have, not in how deep a part is: a chain that is longer has more derivations
//! for each triple of its closure. Best of RUNS runs each, alternating over the sizes, on a fresh dictionary and cleared buffers.

mod support;

use generate::large::benchmark;
use generate::{names, word, Model, FIRST};
use model::{FINDINGS_LIMIT, STORE_LIMIT};
use std::time::{Duration, Instant};
use tablestork::Buffers;

const RUNS: usize = 41;
const BOUND: f64 = 2.3;

const DEEP: u32 = 50;
const PARTS: [u32; 4] = [5, 10, 20, 40];

fn main() {
    let within = tablestork::with_stack(|| {
        let trees = PARTS.map(|n| chains(n, word("subClassOf")));
        let plants = [2_000, 4_000, 8_000, 16_000].map(|n| benchmark("plant", n));
        growth("chains", &trees) & growth("links", &PARTS.map(links)) & growth("plant", &plants)
    });
    std::process::exit(i32::from(!within));
}

/// So many chains of DEEP terms.
fn chains(parts: u32, predicate: u32) -> Model {
    let terms = parts * DEEP;
    let next = |k: u32| [FIRST + k - 1, predicate, FIRST + k];
    let load = (1..terms).filter(|k| k % DEEP != 0).map(next).collect();
    Model { terms: names(terms as usize), load }
}

/// The same by a transitive property, the last term.
fn links(parts: u32) -> Model {
    let property = FIRST + parts * DEEP;
    let mut made = chains(parts, property);
    made.terms = names((parts * DEEP + 1) as usize);
    made.load.push([property, word("type"), word("TransitiveProperty")]);
    made
}

fn growth(kind: &str, models: &[Model]) -> bool {
    let closures: Vec<usize> = models.iter().map(|m| original::close(&m.terms, &m.load).closure).collect();
    let mut times = vec![Vec::new(); models.len()];
    for _ in 0..RUNS {
        for (model, times) in models.iter().zip(&mut times) {
            times.push(time(model));
        }
    }
    let times: Vec<f64> = times.iter().map(|t| best(t).as_secs_f64()).collect();
    let mut within = true;
    for k in 1..models.len() {
        let doublings = (closures[k] as f64 / closures[k - 1] as f64).log2();
        let factor = (times[k] / times[k - 1]).powf(1.0 / doublings);
        println!("growth {kind} {} to {} {factor:.2}", closures[k - 1], closures[k]);
        within &= factor <= BOUND;
    }
    within
}

fn time(model: &Model) -> Duration {
    let mut dictionary = support::laid_out_dictionary(model);
    let mut buffers = Buffers::new(&model.load, STORE_LIMIT, FINDINGS_LIMIT, dictionary.work_length());
    buffers.clear();
    let clock = Instant::now();
    let result = dictionary.run_in(&mut buffers);
    let took = clock.elapsed();
    assert!(result.is_ok(), "refused: {result:?}");
    took
}

fn best(times: &[Duration]) -> Duration {
    *times.iter().min().expect("a run")
}
