//! read_bench FOLDER READER: the time of a read of the benchmark file, which is written to FOLDER, beside those of other programs
//! that read N-Triples. READER is program read_file.
//!
//! For each other program that is on the machine a line `ratio read-vs-NAME R`: READER's time over that program's, both as
//! processes of their own, their starts included. Further lines have the times, that of the read alone too. Medians of RUNS runs
//! each, alternating. The read has to give the reference model's triples and dictionary; exit status 1 where it gives others.

mod processes;

use generate::files::benchmark_file;
use model::calls::{self, Dictionary as Lent};
use model::{Triple, ARENA_LIMIT, ENTRIES_LIMIT, LOAD_LIMIT};
use processes::{is_here, median, time};
use std::time::{Duration, Instant};
use tablestork::{Dictionary, Load};

const RUNS: usize = 9;

/// The other programs. rapper counts the triples; serdi has no way to count, and writes them to nowhere.
const OTHERS: [&[&str]; 2] = [&["rapper", "-q", "-c", "-i", "ntriples"], &["serdi", "-i", "ntriples"]];

fn main() {
    let args: Vec<String> = std::env::args().skip(1).collect();
    let [folder, reader] = &args[..] else {
        eprintln!("read_bench FOLDER READER");
        std::process::exit(2);
    };
    std::fs::create_dir_all(folder).expect("a folder");
    let (text, name) = (benchmark_file(), format!("{folder}/read-16000.nt"));
    std::fs::write(&name, &text).expect("a file");
    let same = tablestork::with_stack(|| bench(&text, &name, reader));
    std::process::exit(i32::from(!same));
}

/// What a read of the file has to give: its triples, and the dictionary.
fn due(text: &str) -> (Vec<Triple>, Dictionary) {
    let (mut table, mut arena, mut terms, mut used) = (vec![0; 64 + 4 * ENTRIES_LIMIT], vec![0; ARENA_LIMIT], 0, 0);
    let mut load = vec![0; 3 * LOAD_LIMIT];
    calls::start(Lent { table: &mut table, arena: &mut arena, terms: &mut terms, used: &mut used });
    let lent = Lent { table: &mut table, arena: &mut arena, terms: &mut terms, used: &mut used };
    let (refusal, count) = calls::read(lent, text.as_bytes(), &mut load);
    assert_eq!(refusal, 0, "the model refuses the benchmark file");
    let triples = load.chunks(3).take(count as usize).map(|t| [t[0], t[1], t[2]]).collect();
    (triples, Dictionary::from_parts(&table, arena, terms, used))
}

/// Tells whether each read gave what is due.
fn bench(text: &str, name: &str, reader: &str) -> bool {
    let due = due(text);
    let commands: Vec<Vec<&str>> = std::iter::once(&[reader][..])
        .chain(OTHERS)
        .map(|words| [words, &[name]].concat())
        .filter(|words| is_here(words))
        .collect();
    let (mut alone, mut processes, mut same) = (Vec::new(), vec![Vec::new(); commands.len()], true);
    for _ in 0..RUNS {
        let (took, given) = read(text);
        alone.push(took);
        same &= given.as_ref() == Some(&due);
        for (words, times) in commands.iter().zip(&mut processes) {
            times.push(time(words));
        }
    }
    let times: Vec<Duration> = processes.iter_mut().map(|times| median(times)).collect();
    for (words, took) in commands.iter().zip(&times).skip(1) {
        println!("ratio read-vs-{} {:.3}", words[0], times[0].as_secs_f64() / took.as_secs_f64());
    }
    println!("  {} triples, {} terms held, {} bytes", due.0.len(), due.1.terms(), text.len());
    println!("  the read alone {:.1?}, as a process {:.1?}", median(&mut alone), times[0]);
    commands.iter().zip(&times).skip(1).for_each(|(words, took)| println!("  {} {took:.1?}", words[..words.len() - 1].join(" ")));
    if !same {
        println!("the read does not give what is due");
    }
    same
}

/// A read into a fresh dictionary: its time, and what it gave if it was not refused.
fn read(text: &str) -> (Duration, Option<(Vec<Triple>, Dictionary)>) {
    let mut d = Dictionary::start(ENTRIES_LIMIT, ARENA_LIMIT).expect("the largest dictionary");
    let mut load = Load::new(LOAD_LIMIT);
    let clock = Instant::now();
    let count = d.read_in(text.as_bytes(), &mut load);
    (clock.elapsed(), count.ok().map(|count| (load.triples(count), d)))
}
