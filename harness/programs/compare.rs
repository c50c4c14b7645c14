//! compare N [SEED]: the original against the port, on N small and N / 100 large random models inside demand 2's domain. Models
//! outside it, met on the way, are compared with the reference model, beside the N.
//!
//! Compared are the triples, the findings as a set after each record is put into the original's message text, the counts, the
//! number of terms, and the sizes at which store and findings just suffice. The original has no passes: the pass and the rule of each row
//! are compared with the reference model's, whose triples have to be the measure's. Each model is closed in turns too: the rows after each
//! pass are those of the model's closure up to that pass, and the end is the run's. Exit status 1 where there is a difference.
//! ONLY=small or ONLY=large in the environment leaves the others out.

mod support;

use generate::{large::large, small::small, Model, Random, FIRST};
use model::closure::{check, close_rows, in_domain, names_inverse_functional};
use model::rows::{answer, triples, Record};
use model::{Triple, FINDINGS_LIMIT, STORE_LIMIT};
use original::{Closed as Reference, Original};
use std::collections::BTreeSet;
use std::panic::{catch_unwind, AssertUnwindSafe};
use std::sync::Mutex;
use std::time::{Duration, Instant};
use tablestork::{Closed, Dictionary, Refusal, Turns};

/// What decides: the original inside the domain, the reference model outside.
#[derive(Clone, Copy, PartialEq)]
enum Measure {
    Original,
    Model,
}

impl Measure {
    fn name(self) -> &'static str {
        match self {
            Measure::Original => "the original",
            Measure::Model => "the reference model",
        }
    }
}

enum Verdict {
    Same { refused: bool },
    Differs { how: String },
}

/// Counts of models inside the domain, then of those outside.
#[derive(Default)]
struct Tally {
    compared: [u64; 2],
    refused: [u64; 2],
    differences: [u64; 2],
}

/// How a dictionary for a model is made.
type Make = fn(&Model) -> Result<Dictionary, String>;

fn main() {
    let (n, seed) = support::number_and_seed("compare");
    let made_by_puts: Make = support::put_dictionary;
    let laid_out: Make = |model| Ok(support::laid_out_dictionary(model));
    let only = std::env::var("ONLY").unwrap_or_default();
    let count = |name: &str, n: u64| if only.is_empty() || only == name { n } else { 0 };
    let differences = compare("small", count("small", n), |k| small(&mut Random::item(seed, k)), made_by_puts)
        + compare("large", count("large", n / 100), |k| large(&mut Random::item(!seed, k)), laid_out);
    std::process::exit(i32::from(differences > 0));
}

/// Compares models until `n` inside the domain are done; answers the differences.
fn compare(name: &str, n: u64, model: impl Fn(u64) -> Model + Sync, make: Make) -> u64 {
    let tally = Mutex::new(Tally::default());
    support::in_parallel(u64::MAX, |k| {
        if tally.lock().expect("the tally").compared[0] >= n {
            return false;
        }
        let model = model(k);
        let (by, verdict) = judge(&model, make);
        let mut tally = tally.lock().expect("the tally");
        if tally.compared[0] >= n {
            return false;
        }
        let outside = usize::from(by == Measure::Model);
        tally.compared[outside] += 1;
        match verdict {
            Verdict::Same { refused } => tally.refused[outside] += u64::from(refused),
            Verdict::Differs { how } => {
                tally.differences[outside] += 1;
                let before = tally.differences.iter().sum::<u64>() - 1;
                drop(tally);
                report(name, k, &model, &how, before, make);
            }
        }
        true
    });
    let t = tally.into_inner().expect("the tally");
    for (k, with) in ["inside the domain, with the original", "outside, with the reference model"].into_iter().enumerate() {
        println!(
            "{name}: {} compared {with}, {} of them above a store's or findings' limit, {} differences",
            t.compared[k], t.refused[k], t.differences[k]
        );
    }
    t.differences.iter().sum()
}

fn judge(model: &Model, make: Make) -> (Measure, Verdict) {
    let (by, reference, closure) = measured(model);
    let refused = reference.closure > STORE_LIMIT || reference.messages.len() > FINDINGS_LIMIT;
    let verdict = match catch_unwind(AssertUnwindSafe(|| same(model, by, &reference, closure.as_deref(), make))) {
        Ok(Ok(())) => Verdict::Same { refused },
        Ok(Err(how)) => Verdict::Differs { how },
        Err(_) => Verdict::Differs { how: "a panic".to_string() },
    };
    (by, verdict)
}

/// The original's outcome inside the domain, else the reference model's; and the rows of the reference model's closure, where a store holds
/// them. A model is inside by the original's closure exactly if it is by the reference model's: inside, each step of one is a step of the
/// other, and what leads outside is in either closure.
fn measured(model: &Model) -> (Measure, Reference, Option<Vec<Record>>) {
    let closure = close_rows(&model.start(), STORE_LIMIT);
    let outside = |closure: &Vec<Record>| !in_domain(&model.load, &triples(closure));
    // The original pairs each statement of an inverse functional property with each, which takes long: where the reference model's closure
    // is above a store it decides.
    if names_inverse_functional(&model.load) && closure.as_ref().is_none_or(outside) {
        return (Measure::Model, by_the_model(model, closure.as_deref()), closure);
    }
    let reference = original::close(&model.terms, &model.load);
    if in_domain(&model.load, &reference.original.closure()) {
        return (Measure::Original, reference, closure);
    }
    (Measure::Model, by_the_model(model, closure.as_deref()), closure)
}

/// What the reference model gives, in the form of the original's outcome; the original only keeps the terms, for message texts.
fn by_the_model(model: &Model, closure: Option<&[Record]>) -> Reference {
    let mut original = Original::new();
    for (kind, bytes) in &model.terms_of_a_run()[FIRST as usize..] {
        original.put(*kind, bytes);
    }
    let rows = closure.unwrap_or_default();
    Reference {
        triples: triples(&answer(rows)),
        messages: check(&triples(rows)).into_iter().map(|f| original.message(f)).collect(),
        closure: closure.map_or(STORE_LIMIT + 1, <[Record]>::len),
        took: Duration::ZERO,
        original,
    }
}

fn same(model: &Model, by: Measure, reference: &Reference, closure: Option<&[Record]>, make: Make) -> Result<(), String> {
    let before = make(model)?;
    let (store, findings) = (reference.closure, reference.messages.len());
    let run = |triples: usize, records: usize| {
        let mut d = before.clone();
        let result = d.run(&model.load, triples.min(STORE_LIMIT), records.min(FINDINGS_LIMIT));
        (result, d.terms())
    };
    let refused_with = |refusal: Refusal, triples: usize, records: usize| match run(triples, records).0 {
        Err(r) if r == refusal => Ok(()),
        other => Err(format!("{triples} triples and {records} records: {refusal:?} is due, not {other:?}")),
    };
    if store > STORE_LIMIT {
        return refused_with(Refusal::StoreFull, store, findings);
    }
    if findings > FINDINGS_LIMIT {
        return refused_with(Refusal::FindingsFull, store, findings);
    }
    let (result, terms) = run(store, findings);
    let closed = result.map_err(|r| format!("a store of {store} and findings of {findings} suffice, refused: {r:?}"))?;
    same_answer(&closed, by, reference)?;
    let closure = closure.ok_or("the reference model's closure is above a store")?;
    same_rows(&closed.records, &answer(closure))?;
    if reference.original.get(terms).is_some() || reference.original.get(terms - 1).is_none() {
        return Err(format!("{terms} terms after the run, not as many as in {}", by.name()));
    }
    refused_with(Refusal::StoreFull, store - 1, findings)?;
    if findings > 0 {
        refused_with(Refusal::FindingsFull, store, findings - 1)?;
    }
    same_in_turns(&before, &model.load, closure, &closed, terms)
}

/// Models with at most so large a closure are closed in turns with buffers that are too small, too.
const REFUSED_IN_TURNS: usize = 2_000;

/// The run in turns, in a store and findings that just suffice, and in ones of one less.
fn same_in_turns(before: &Dictionary, load: &[Triple], closure: &[Record], closed: &Closed, terms: u32) -> Result<(), String> {
    let (store, findings) = (closure.len(), closed.findings.len());
    let in_turns = |rows: usize, records: usize, end: Result<&Closed, Refusal>| {
        let mut d = before.clone();
        same_turns(d.turns(load, rows, records), closure, end)?;
        (d.terms() == terms).then_some(()).ok_or(format!("{} terms after the run in turns, {terms} after the run", d.terms()))
    };
    in_turns(store, findings, Ok(closed))?;
    if store <= REFUSED_IN_TURNS {
        in_turns(store - 1, findings, Err(Refusal::StoreFull))?;
    }
    if store <= REFUSED_IN_TURNS && findings > 0 {
        in_turns(store, findings - 1, Err(Refusal::FindingsFull))?;
    }
    Ok(())
}

/// A run in turns: until it is done the store has the closure's rows of the passes so far, and the counts are 0. It is done with the pass
/// after the closure's last, or refused with that or, by 8, with the last that adds, and its end is the run's.
fn same_turns(opened: Result<Turns, Refusal>, closure: &[Record], end: Result<&Closed, Refusal>) -> Result<(), String> {
    let mut turns = match (opened, end) {
        (Ok(turns), _) => turns,
        (Err(refusal), Err(due)) if refusal == due => return Ok(()),
        (Err(refusal), _) => return Err(format!("an opening call is refused: {refusal:?}")),
    };
    let last = closure.iter().map(|row| row.pass).max().unwrap_or(0);
    let mut pass = 0;
    while let Some(step) = turns.told().ok().filter(|step| !step.done) {
        let so_far: Vec<Record> = closure.iter().copied().filter(|row| row.pass <= pass).collect();
        same_rows(&turns.records(), &so_far).map_err(|how| format!("in turns, after {pass} passes: {how}"))?;
        if step.counts != [0; 5] || pass > last {
            return Err(format!("in turns, after {pass} passes of {last} that add: {step:?}"));
        }
        turns.next();
        pass += 1;
    }
    let due = if end == Err(Refusal::StoreFull) { last } else { last + 1 };
    if pass != due {
        return Err(format!("a run in turns ends with pass {pass}, not {due}: {:?}", turns.told()));
    }
    if turns.closed().as_ref() != end.ok() || turns.told().err() != end.err() {
        return Err(format!("a run in turns ends otherwise than a run, {:?}: {:?}", end.err(), turns.told()));
    }
    Ok(())
}

/// The lines that only one of the two has.
fn apart(what: &str, port: BTreeSet<String>, by: Measure, reference: BTreeSet<String>) -> String {
    let only = |whose: &str, lines: BTreeSet<String>| lines.iter().map(|t| format!("only {whose}: {t}\n")).collect::<String>();
    format!("{what}\n{}{}", only("the port", &port - &reference), only(by.name(), &reference - &port))
}

fn same_answer(closed: &Closed, by: Measure, reference: &Reference) -> Result<(), String> {
    let triples = closed.triples();
    if triples != reference.triples {
        let text = |list: &[Triple]| list.iter().map(|[s, p, o]| format!("{s} {p} {o}")).collect();
        return Err(apart("triples", text(&triples), by, text(&reference.triples)));
    }
    let messages: BTreeSet<(u32, String)> = closed.findings.iter().map(|f| reference.original.message(*f)).collect();
    if messages != reference.messages {
        let text = |set: &BTreeSet<(u32, String)>| set.iter().map(|(_, m)| m.clone()).collect();
        return Err(apart("findings", text(&messages), by, text(&reference.messages)));
    }
    let mut counts = [0; 5];
    for (check, _) in &reference.messages {
        counts[*check as usize - 1] += 1;
    }
    if closed.counts != counts || closed.findings.len() != messages.len() {
        return Err(format!("counts {:?}, in {} {counts:?}", closed.counts, by.name()));
    }
    if !closed.findings.windows(2).all(|w| w[0] < w[1]) {
        return Err("findings do not ascend".to_string());
    }
    Ok(())
}

/// All five numbers of each row.
fn same_rows(records: &[tablestork::Record], rows: &[Record]) -> Result<(), String> {
    let port: Vec<[u32; 5]> = records.iter().map(|record| record.numbers()).collect();
    let model: Vec<[u32; 5]> = rows.iter().map(Record::numbers).collect();
    if port != model {
        let text = |list: &[[u32; 5]]| list.iter().map(|[s, p, o, n, k]| format!("{s} {p} {o}, pass {n}, rule {k}")).collect();
        return Err(apart("passes and rules", text(&port), Measure::Model, text(&model)));
    }
    Ok(())
}

/// So many differences are made small before they are printed, each for so long; the others are printed as they are.
const MADE_SMALL: u64 = 3;
const LONGEST: Duration = Duration::from_secs(5);

/// Prints a difference with its model, made small by leaving triples out: first halves, then quarters, down to single ones.
fn report(name: &str, k: u64, model: &Model, how: &str, before: u64, make: Make) {
    let (mut small, mut how) = (model.clone(), how.to_string());
    let clock = Instant::now();
    let mut part = if before < MADE_SMALL { small.load.len().div_ceil(2) } else { 0 };
    while part > 0 {
        let mut at = 0;
        while at < small.load.len() && clock.elapsed() < LONGEST {
            let mut fewer = small.clone();
            fewer.load.drain(at..(at + part).min(small.load.len()));
            match judge(&fewer, make).1 {
                Verdict::Differs { how: now } => (small, how) = (fewer, now),
                Verdict::Same { .. } => at += part,
            }
        }
        part /= 2;
    }
    println!("difference in {name} model {k}, from {} triples down to {}: {how}", model.load.len(), small.load.len());
    println!("{}", small.text());
}
