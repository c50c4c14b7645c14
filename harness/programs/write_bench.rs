//! write_bench FOLDER WRITER: the time of a write of the benchmark file's triples beside those of other programs, which read N-Triples and
//! write it again. The file is written to FOLDER. WRITER is program write_file.
//!
//! No other program writes alone, but serdi's writer is a library, libserd: where it is on the machine there are lines `ratio
//! write-vs-writer-of-serdi R` and `.. serdi-b R`, the time of the call that writes over that of the library's writer, as `serdi` and
//! as `serdi -b` call it, for the same triples, from memory to memory in this process. For each program that is on the machine there
//! is a line `ratio read-and-write-vs-NAME R`: the time of WRITER, which reads the file and writes its triples, over that program's
//! for the same, both as processes of their own, their starts included; then a line `ratio write-alone-vs-NAME R`, the time of the
//! call that writes over the whole of that process. Further lines have the times, those of the read and of the write alone too.
//! Medians of RUNS runs each, alternating. The write has to give the reference model's text, and the library's writer a text of the
//! same triples, in which it escapes tabs; exit status 1 where one gives another.

mod processes;
mod serd;

use generate::files::benchmark_file;
use model::dictionary::Term;
use model::ntriples::{line, lines, Line};
use model::{writing, ARENA_LIMIT, ENTRIES_LIMIT, LOAD_LIMIT};
use processes::{is_here, median, time};
use serd::{Serd, BULK, PLAIN};
use std::time::{Duration, Instant};
use tablestork::{Buffers, Dictionary, Load, Record, Written};

const RUNS: usize = 9;

/// The other programs; what they write goes nowhere.
const OTHERS: [&[&str]; 2] =
    [&["rapper", "-q", "-i", "ntriples", "-o", "ntriples"], &["serdi", "-i", "ntriples", "-o", "ntriples"]];

fn main() {
    let args: Vec<String> = std::env::args().skip(1).collect();
    let [folder, writer] = &args[..] else {
        eprintln!("write_bench FOLDER WRITER");
        std::process::exit(2);
    };
    std::fs::create_dir_all(folder).expect("a folder");
    let (text, name) = (benchmark_file(), format!("{folder}/write-16000.nt"));
    std::fs::write(&name, &text).expect("a file");
    let same = tablestork::with_stack(|| bench(&text, &name, writer));
    std::process::exit(i32::from(!same));
}

/// The file's triples.
fn triples(text: &str) -> Vec<[Term; 3]> {
    let said = |bytes: &[u8]| match line(bytes) {
        Line::Triple(terms) => Some(terms),
        Line::Nothing => None,
        Line::Bad => panic!("the benchmark file has a bad line"),
    };
    lines(text.as_bytes()).into_iter().filter_map(said).collect()
}

/// The time of a write by serdi's library, and the text.
fn by_serd(serd: &Serd, style: u32, bytes: usize) -> (Duration, Vec<u8>) {
    let mut page = vec![7; bytes];
    page.clear();
    let clock = Instant::now();
    serd.write(style, &mut page);
    (clock.elapsed(), page)
}

/// Tells whether each write gave what is due.
fn bench(text: &str, name: &str, writer: &str) -> bool {
    let triples = triples(text);
    let due: String = triples.iter().map(|[s, p, o]| writing::line([s, p, o]).expect("a triple of a file")).collect();
    let serd = Serd::with(&triples);
    let commands: Vec<Vec<&str>> = std::iter::once(&[writer][..])
        .chain(OTHERS)
        .map(|words| [words, &[name]].concat())
        .filter(|words| is_here(words))
        .collect();
    let mut same = std::process::Command::new(writer).arg(name).output().is_ok_and(|output| output.stdout == due.as_bytes());
    let (mut reads, mut writes, mut processes) = (Vec::new(), Vec::new(), vec![Vec::new(); commands.len()]);
    let mut writers = [("serdi", PLAIN, Vec::new()), ("serdi-b", BULK, Vec::new())];
    for _ in 0..RUNS {
        let (read, write, page) = read_and_write(text, due.len());
        reads.push(read);
        writes.push(write);
        same &= page == due.as_bytes();
        if let Some(serd) = &serd {
            for (_, style, times) in &mut writers {
                let (took, page) = by_serd(serd, *style, due.len());
                times.push(took);
                same &= self::triples(std::str::from_utf8(&page).expect("UTF-8")) == triples;
            }
        }
        for (words, times) in commands.iter().zip(&mut processes) {
            times.push(time(words));
        }
    }
    let times: Vec<Duration> = processes.iter_mut().map(|times| median(times)).collect();
    let (read, write) = (median(&mut reads), median(&mut writes));
    for (name, _, times) in writers.iter_mut().filter(|_| serd.is_some()) {
        let took = median(times);
        println!("ratio write-vs-writer-of-{name} {:.3}", write.as_secs_f64() / took.as_secs_f64());
        println!("  the writer of {name} {took:.1?}");
    }
    for (words, took) in commands.iter().zip(&times).skip(1) {
        println!("ratio read-and-write-vs-{} {:.3}", words[0], times[0].as_secs_f64() / took.as_secs_f64());
        println!("ratio write-alone-vs-{} {:.3}", words[0], write.as_secs_f64() / took.as_secs_f64());
    }
    println!("  {} triples, {} bytes read, {} written", lines(due.as_bytes()).len() - 1, text.len(), due.len());
    println!("  the read alone {read:.1?}, the write alone {write:.1?}, both as a process {:.1?}", times[0]);
    commands.iter().zip(&times).skip(1).for_each(|(words, took)| println!("  {} {took:.1?}", words[..words.len() - 1].join(" ")));
    if !same {
        println!("the write does not give what is due");
    }
    same
}

/// The times of a read into a fresh dictionary and of a write of its triples to a page of so many bytes, and the page. A refused write
/// leaves an empty one.
fn read_and_write(text: &str, bytes: usize) -> (Duration, Duration, Vec<u8>) {
    let mut d = Dictionary::start(ENTRIES_LIMIT, ARENA_LIMIT).expect("the largest dictionary");
    let (mut load, mut store, mut page) = (Load::new(LOAD_LIMIT), Buffers::new(&[], 0, 0, 0), vec![7; bytes]);
    let clock = Instant::now();
    let count = d.read_in(text.as_bytes(), &mut load).expect("a file that is read");
    let read = clock.elapsed();
    let record = |triple| Record { triple, pass: 0, rule: 0 };
    store.lend_store(&load.triples(count).into_iter().map(record).collect::<Vec<_>>(), 0);
    let clock = Instant::now();
    let written = d.write_in(&store, count, &mut page);
    let write = clock.elapsed();
    page.truncate(if written == Ok(Written { length: bytes, left_out: 0 }) { bytes } else { 0 });
    (read, write, page)
}
