//! What the programs share: arguments, threads, and a dictionary that holds a model's terms.

#![allow(dead_code)]

use generate::Model;
use model::dictionary as dict;
use std::sync::atomic::{AtomicU64, Ordering};
use tablestork::{Dictionary, Kind};

/// `PROGRAM N [SEED]`.
pub fn number_and_seed(program: &str) -> (u64, u64) {
    let args: Vec<Option<u64>> = std::env::args().skip(1).map(|a| a.parse().ok()).collect();
    match args[..] {
        [Some(n)] => (n, 1),
        [Some(n), Some(seed)] => (n, seed),
        _ => {
            eprintln!("{program} N [SEED]");
            std::process::exit(2)
        }
    }
}

/// JOBS threads, else one for each core.
pub fn jobs() -> usize {
    let set = std::env::var("JOBS").ok().and_then(|j| j.parse().ok());
    set.unwrap_or_else(|| std::thread::available_parallelism().map_or(1, |n| n.get())).max(1)
}

/// Hands items 0, 1, 2 and so on to the threads until `work` answers false, or `most` items are out.
pub fn in_parallel(most: u64, work: impl Fn(u64) -> bool + Sync) {
    let next = AtomicU64::new(0);
    let worker = || loop {
        let item = next.fetch_add(1, Ordering::Relaxed);
        if item >= most || !work(item) {
            return;
        }
    };
    std::thread::scope(|scope| {
        for _ in 0..jobs() {
            std::thread::Builder::new().stack_size(256 << 20).spawn_scoped(scope, worker).expect("a thread");
        }
    });
}

fn kind(number: u32) -> Kind {
    match number {
        1 => Kind::NamedNode,
        2 => Kind::BlankNode,
        _ => Kind::Literal,
    }
}

/// Started and put by the port, with just the room that the terms and a run's three need.
pub fn put_dictionary(model: &Model) -> Result<Dictionary, String> {
    let all = model.terms_of_a_run();
    let mut d = Dictionary::start(all.len(), dict::bytes_of(&all)).map_err(|r| format!("start refused: {r:?}"))?;
    for (k, (number, bytes)) in model.terms.iter().enumerate() {
        let id = d.put(kind(*number), bytes);
        if id != Ok(generate::FIRST + k as u32) {
            return Err(format!("put of term {} answered {id:?}", k + 1));
        }
    }
    Ok(d)
}

/// The same contents laid out at once: each put checks the whole dictionary, which for thousands of terms takes long.
pub fn laid_out_dictionary(model: &Model) -> Dictionary {
    let all = model.terms_of_a_run();
    let mut held = dict::starting_terms();
    held.extend(model.terms.iter().cloned());
    let (table, arena) = dict::layout(&held, 64 + 4 * all.len(), dict::bytes_of(&all));
    Dictionary::from_parts(&table, arena, held.len() as u32, dict::bytes_of(&held) as u32)
}
