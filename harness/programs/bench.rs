//! bench MODEL...: for each file in program closer's input format, without its limits, a line `ratio NAME R` and a line `ratio pass/run
//! NAME R`.
//!
//! R is the port's time for `run` alone over the original's for `reason` alone: the median of RUNS runs each, alternating, each
//! on a fresh dictionary and cleared buffers. A second line has the times and sizes. The port's triples have to be the original's; for a
//! model outside the original's domain they have to be the reference model's, and a third line says that the original's are not held to
//! it. Passes and rules have to be the reference model's.
//!
//! The second R is the port's time for the longest pass over its time for a run of the same load, both in a store and findings with room
//! for just the closure's. The load is closed in turns as often as it is run, alternating with that, and each pass, the last one too, is
//! timed on the store as the passes before it left it. The median of each pass counts, and of these the largest. The end has to be the
//! run's. A line below has the same R for the largest store and findings there can be.

mod support;

use generate::{names, Model};
use model::closure::{close_rows, in_domain};
use model::rows::{answer, triples, Record};
use model::{FINDINGS_LIMIT, STORE_LIMIT};
use std::time::{Duration, Instant};
use tablestork::{Buffers, Closed, Dictionary, Refusal};

const RUNS: usize = 9;

fn main() {
    let files: Vec<String> = std::env::args().skip(1).collect();
    if files.is_empty() {
        eprintln!("bench MODEL...");
        std::process::exit(2);
    }
    let same = tablestork::with_stack(|| files.iter().filter(|file| !bench(file)).count() == 0);
    std::process::exit(i32::from(!same));
}

/// Program closer's input: a count of named nodes, then lines of three ids.
fn read(file: &str) -> Model {
    let text = std::fs::read_to_string(file).unwrap_or_else(|e| panic!("{file}: {e}"));
    let bad = |n: usize| -> ! { panic!("{file}: bad line {}", n + 1) };
    let mut lines = text.lines().enumerate();
    let count = lines.next().and_then(|(_, l)| l.parse().ok()).unwrap_or_else(|| bad(0));
    let triple = |(n, line): (usize, &str)| {
        let ids: Vec<u32> = line.split(' ').map(|w| w.parse().unwrap_or_else(|_| bad(n))).collect();
        <[u32; 3]>::try_from(ids).unwrap_or_else(|_| bad(n))
    };
    Model { terms: names(count), load: lines.map(triple).collect() }
}

/// What is due: the rows, how many the closure has, those with an id 0 counted, and for a model outside the original's domain what is to be
/// said of the original's own answer.
struct Due {
    rows: Vec<[u32; 5]>,
    closure: usize,
    said: Option<String>,
}

fn due(file: &str, model: &Model) -> Due {
    let reference = original::close(&model.terms, &model.load);
    let closure = close_rows(&model.start(), STORE_LIMIT).unwrap_or_default();
    let rows = answer(&closure);
    let same = triples(&rows) == reference.triples;
    let inside = in_domain(&model.load, &reference.original.closure());
    assert!(same || !inside, "{file}: the reference model's answer is not the original's");
    let compared = if same { "the same as" } else { "other than" };
    let said = format!(
        "  outside the original's domain: its answer, of {} triples, is {compared} the reference model's, of {}, which is due",
        reference.triples.len(),
        rows.len()
    );
    Due { rows: rows.iter().map(Record::numbers).collect(), closure: closure.len(), said: (!inside).then_some(said) }
}

/// Tells whether the port's answer is the one that is due.
fn bench(file: &str) -> bool {
    let name = std::path::Path::new(file).file_stem().map_or(file.into(), |n| n.to_string_lossy().into_owned());
    let model = read(file);
    let dictionary = support::laid_out_dictionary(&model);
    let due = due(file, &model);
    let mut largest = Timed::new(&model, &dictionary, STORE_LIMIT, FINDINGS_LIMIT);
    let mut fitted = None;
    let (mut theirs, mut same) = (Vec::new(), true);
    for _ in 0..RUNS {
        let run = largest.run(dictionary.clone());
        theirs.push(original::close(&model.terms, &model.load).took);
        let closed = match run {
            Ok(closed) => closed,
            Err(refusal) => {
                println!("{name}: refused, {refusal:?}");
                return false;
            }
        };
        same &= closed.records.iter().map(|record| record.numbers()).eq(due.rows.iter().copied());
        same &= largest.turns(dictionary.clone()).as_ref() == Ok(&closed);
        let fitted = fitted.get_or_insert_with(|| Timed::new(&model, &dictionary, due.closure, closed.findings.len()));
        same &= fitted.run(dictionary.clone()).as_ref() == Ok(&closed);
        same &= fitted.turns(dictionary.clone()).as_ref() == Ok(&closed);
    }
    let (ours, theirs) = (median(&mut largest.runs), median(&mut theirs));
    println!("ratio {name} {:.3}", ours.as_secs_f64() / theirs.as_secs_f64());
    println!("  port {ours:.1?}, original {theirs:.1?}, load {}", model.load.len());
    due.said.iter().for_each(|line| println!("{line}"));
    if let Some(mut fitted) = fitted {
        println!("ratio pass/run {name} {:.3}", fitted.ratio());
        println!("  {}, {:.3} in the largest store", fitted.longest().1, largest.ratio());
    }
    if !same {
        println!("{name}: the port's answer is not the one that is due");
    }
    same
}

/// Runs, whole and in turns, in buffers of one size: the times of the runs, and of each pass.
struct Timed {
    buffers: Buffers,
    runs: Vec<Duration>,
    passes: Vec<Vec<Duration>>,
}

impl Timed {
    fn new(model: &Model, d: &Dictionary, rows: usize, findings: usize) -> Timed {
        // An open puts a run's three terms, and the passes count them and three more.
        let buffers = Buffers::new(&model.load, rows, findings, d.work_length() + 2 * 3);
        Timed { buffers, runs: Vec::new(), passes: Vec::new() }
    }

    fn run(&mut self, mut d: Dictionary) -> Result<Closed, Refusal> {
        self.buffers.clear();
        let clock = Instant::now();
        let (count, counts) = d.run_in(&mut self.buffers)?;
        self.runs.push(clock.elapsed());
        Ok(self.buffers.closed(count, counts))
    }

    /// Opens the load and closes it pass by pass; answers the end.
    fn turns(&mut self, mut d: Dictionary) -> Result<Closed, Refusal> {
        self.buffers.clear();
        let mut step = d.open_in(&mut self.buffers)?;
        for pass in 0.. {
            if step.done {
                break;
            }
            let clock = Instant::now();
            step = d.pass_in(&mut self.buffers)?;
            let took = clock.elapsed();
            if self.passes.len() == pass {
                self.passes.push(Vec::new());
            }
            self.passes[pass].push(took);
        }
        Ok(self.buffers.closed(step.triples, step.counts))
    }

    /// The time of the pass that takes longest, and what is to be said of it.
    fn longest(&mut self) -> (Duration, String) {
        let count = self.passes.len();
        let medians = self.passes.iter_mut().map(|times| median(times));
        let (pass, time) = (1..).zip(medians).max_by_key(|(_, time)| *time).unwrap_or_default();
        (time, format!("pass {pass} of {count} {time:.1?}, run {:.1?}", median(&mut self.runs)))
    }

    fn ratio(&mut self) -> f64 {
        self.longest().0.as_secs_f64() / median(&mut self.runs).as_secs_f64()
    }
}

fn median(times: &mut [Duration]) -> Duration {
    times.sort_unstable();
    times[times.len() / 2]
}
