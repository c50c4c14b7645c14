//! The answers to a fixed list of models: cases after the tables of OWL 2 Profiles, cases with lists, and random ones.
//!
//! Inside the domain in which the original is the measure every answer is the original's, and the reference model has to agree with it;
//! outside it is the reference model's. Passes and rules are always the reference model's, as the original has none. That model tells which
//! rules a model needs, and which readings of its lists would show.

use crate::tables::{Case, Conclusion, ListCase, CASES, LISTS, NEAR};
use generate::{names, small::small, word, Model, Random, FIRST};
use model::closure::{check, close, close_mistaken, in_domain, Mistake};
use model::dictionary::{is_container_property, run_terms, NAMED_NODE};
use model::mistakes::{self, OF_NIL, READINGS};
use model::names::NAMES;
use model::rows::{self, triples, Record};
use model::{Finding, Triple};
use std::fmt::Write;

/// Every model has named nodes urn:t1 to urn:t16, then its further terms, whether its load has them or not.
pub const PLAIN: usize = 16;

/// What a random model may come to.
const MOST_LOAD: usize = 20;
const MOST_CLOSED: usize = 200;
const MOST_FOUND: usize = 60;
const MOST_BYTES: usize = 70;

/// Random models inside the domain, and of each thing to come up at least so many models, inside or outside; of each reading of lists.
const RANDOM: usize = 300;
const QUOTA: usize = 12;
const QUOTA_OF_A_READING: usize = 8;

const RDF: &str = "http://www.w3.org/1999/02/22-rdf-syntax-ns#";

pub struct Recorded {
    /// The answer is the original's; else it is the reference model's.
    pub by_original: bool,
    pub model: Model,
    pub closure: Vec<Triple>,
    pub answer: Vec<Triple>,
    /// The answer with passes and rules, by the reference model, and the closure.
    pub rows: Vec<Record>,
    pub closure_rows: Vec<Record>,
    pub findings: Vec<Finding>,
}

/// The reference model's answer; inside the domain the original's has to be the same.
fn record(model: Model) -> Recorded {
    let recorded = by_the_model(model.clone(), 0);
    if recorded.by_original {
        let closed = original::close(&model.terms, &model.load);
        assert_eq!(closed.original.closure(), recorded.closure, "{}", model.text());
        assert_eq!(closed.triples, recorded.answer, "{}", model.text());
        assert_eq!(closed.original.findings().into_iter().collect::<Vec<_>>(), recorded.findings, "{}", model.text());
    }
    recorded
}

/// What the reference model gives under all rules but those of `without`.
fn by_the_model(model: Model, without: u32) -> Recorded {
    let mistake = Mistake { without, ..Mistake::default() };
    let closure_rows = close_mistaken(&model.start(), model::STORE_LIMIT, mistake).expect("a small closure");
    let (closure, rows) = (triples(&closure_rows), rows::answer(&closure_rows));
    let findings = check(&closure).into_iter().collect();
    let (by_original, answer) = (in_domain(&model.load, &closure), triples(&rows));
    Recorded { by_original, model, closure, answer, rows, closure_rows, findings }
}

/// The terms of a case: its variables urn:t1 and so on, then those of the rdf namespace, then a run's.
struct Terms {
    variables: Vec<String>,
    further: Vec<String>,
}

impl Terms {
    fn of(case: &Case) -> Terms {
        match case.conclusion {
            Conclusion::Triple(t) | Conclusion::Finding(t) => Terms::in_order(&[case.premises, t]),
            Conclusion::Zero => Terms::in_order(&[case.premises]),
        }
    }

    /// Those of the texts, in the order in which they first appear.
    fn in_order(texts: &[&str]) -> Terms {
        let mut terms = Terms { variables: Vec::new(), further: Vec::new() };
        for w in texts.iter().flat_map(|text| text.split([',', ' '])) {
            let list = if w.starts_with('_') { &mut terms.further } else { &mut terms.variables };
            let is_term = w.starts_with('_') || (w.len() == 1 && !w.starts_with(|c: char| c.is_ascii_digit()));
            if is_term && !list.iter().any(|v| v == w) {
                list.push(w.to_string());
            }
        }
        terms
    }

    fn model(&self, premises: &[&str]) -> Model {
        let mut terms = names(PLAIN);
        terms.extend(self.further.iter().map(|local| (NAMED_NODE, format!("{RDF}{local}").into_bytes())));
        Model { terms, load: premises.iter().map(|p| self.triple(p)).collect() }
    }

    fn id(&self, w: &str) -> u32 {
        let at = |list: &[String]| list.iter().position(|v| v == w).map(|k| k as u32);
        let further = FIRST + PLAIN as u32;
        let of_a_run = run_terms().iter().position(|(_, bytes)| bytes.ends_with(format!("#{w}").as_bytes())).map(|k| k as u32);
        at(&self.variables)
            .map(|k| FIRST + k)
            .or(at(&self.further).map(|k| further + k))
            .or(of_a_run.map(|k| further + self.further.len() as u32 + k))
            .unwrap_or_else(|| word(w))
    }

    fn triple(&self, words: &str) -> Triple {
        let ids: Vec<u32> = words.split(' ').map(|w| self.id(w)).collect();
        [ids[0], ids[1], ids[2]]
    }

    /// Does the conclusion hold in what was recorded?
    fn holds(&self, case: &Case, r: &Recorded) -> bool {
        match case.conclusion {
            Conclusion::Triple(t) => r.answer.contains(&self.triple(t)),
            Conclusion::Zero => r.closure.contains(&[0; 3]),
            Conclusion::Finding(f) => {
                let mut words = f.split(' ');
                let mut record = [words.next().and_then(|k| k.parse().ok()).expect("a check"), 0, 0, 0, 0];
                for (place, w) in record[1..].iter_mut().zip(words) {
                    *place = self.id(w);
                }
                r.findings.contains(&record)
            }
        }
    }
}

const HEAD: &str = "# Cases after the tables of OWL 2 Profiles, section 4.3, and cases with lists

The first models of the recording, in this order; made by harness/record. 'Rule' is the number of docs/REFERENCE.md, 6.2, or 0 for a check
or a part of the start. A letter is a term of its own, urn:t1 and so on in the order in which they first appear. 'Alone': without this rule
the other rules do not give the conclusion. What eq-trans gives eq-rep-o gives too, and what cax-eqc1 and cax-eqc2 give scm-eqc1 and cax-sco
do, so no model shows those alone. 'Answer' says whose answer was recorded: inside the domain of docs/REFERENCE.md, 12.1, the original's,
with which the reference model has to agree; outside, the reference model's. Models with lists come after the tables and the near misses,
with a row for each triple that must be in the answer and each that must not. The names of docs/REFERENCE.md, 11.2, come last, eight to a
model: a row for each has the one triple of that model's load that it is in.

| Model | Name | Rule | Load | Conclusion | Holds | Alone | Answer |
|---|---|---|---|---|---|---|---|
";

/// Each rule with all premises, and once without each of them; then the near misses, the cases with lists, and the names.
pub fn table_cases() -> (Vec<Recorded>, String) {
    let (mut all, mut listing) = (Vec::new(), HEAD.to_string());
    for case in CASES {
        let terms = Terms::of(case);
        let premises: Vec<&str> = case.premises.split(", ").filter(|p| !p.is_empty()).collect();
        let whole = record(terms.model(&premises));
        assert!(terms.holds(case, &whole), "{}: the conclusion is not there", case.name);
        let alone = case.rule > 0 && !holds_without(case, &terms, &whole.model);
        assert!(alone || [0, 8, 17].contains(&case.rule), "{}: another rule gives it too", case.name);
        list(&mut listing, all.len(), case, &premises, &whole, true, alone);
        all.push(whole);
        let mut missing = 0;
        for k in 0..premises.len() {
            let mut fewer = premises.clone();
            fewer.remove(k);
            let recorded = record(terms.model(&fewer));
            let holds = terms.holds(case, &recorded);
            missing += usize::from(!holds);
            list(&mut listing, all.len(), case, &fewer, &recorded, holds, false);
            all.push(recorded);
        }
        assert!(missing > 0 || premises.is_empty(), "{}: no premise is needed", case.name);
    }
    for case in NEAR {
        let terms = Terms::of(case);
        let premises: Vec<&str> = case.premises.split(", ").collect();
        let recorded = record(terms.model(&premises));
        assert!(!terms.holds(case, &recorded), "{}: the conclusion is there", case.name);
        list(&mut listing, all.len(), case, &premises, &recorded, false, false);
        all.push(recorded);
    }
    LISTS.iter().for_each(|case| list_case(case, &mut all, &mut listing));
    names_as_predicates(&mut all, &mut listing);
    (all, listing)
}

fn list_case(case: &ListCase, all: &mut Vec<Recorded>, listing: &mut String) {
    let rows = case.there.iter().map(|row| (row, true)).chain(case.missing.iter().map(|row| (row, false)));
    let texts: Vec<&str> = [case.premises].into_iter().chain(rows.clone().map(|((_, triple), _)| *triple)).collect();
    let terms = Terms::in_order(&texts);
    let recorded = record(terms.model(&case.premises.split(", ").collect::<Vec<_>>()));
    for (&(rule, triple), holds) in rows {
        assert_eq!(recorded.answer.contains(&terms.triple(triple)), holds, "{}: {triple}", case.name);
        let without = by_the_model(recorded.model.clone(), 1 << rule);
        let alone = holds && !without.answer.contains(&terms.triple(triple));
        assert_eq!(alone, holds, "{}: another rule gives {triple} too", case.name);
        row(listing, all.len(), (case.name, rule), case.premises, triple, &recorded, [holds, alone]);
    }
    all.push(recorded);
}

/// The names of docs/REFERENCE.md, 11.2, eight to a model, each the predicate of a triple with an object of its own: x member that object
/// follows where the name is a container property's, and else does not.
fn names_as_predicates(all: &mut Vec<Recorded>, listing: &mut String) {
    for names in NAMES.chunks(8) {
        let objects: Vec<String> = ('a'..).take(names.len()).map(String::from).collect();
        let mut terms = Terms { variables: vec!["x".to_string()], further: Vec::new() };
        terms.variables.extend(objects.iter().cloned());
        terms.further.extend(names.iter().map(|(local, _)| local.to_string()));
        let premises: Vec<String> = names.iter().zip(&objects).map(|((local, _), o)| format!("x {local} {o}")).collect();
        let recorded = record(terms.model(&premises.iter().map(String::as_str).collect::<Vec<_>>()));
        for (((local, container), o), premise) in names.iter().zip(&objects).zip(&premises) {
            let (name, conclusion) = (format!("rdf:{local}"), format!("x member {o}"));
            assert_eq!(recorded.answer.contains(&terms.triple(&conclusion)), *container, "{name}");
            row(listing, all.len(), (&name, 0), premise, &conclusion, &recorded, [*container, false]);
        }
        all.push(recorded);
    }
}

/// Does the conclusion hold in the closure under all rules but the case's own?
fn holds_without(case: &Case, terms: &Terms, model: &Model) -> bool {
    terms.holds(case, &by_the_model(model.clone(), 1 << case.rule))
}

fn list(text: &mut String, at: usize, case: &Case, premises: &[&str], recorded: &Recorded, holds: bool, alone: bool) {
    let conclusion = match case.conclusion {
        Conclusion::Triple(t) => t.to_string(),
        Conclusion::Finding(f) => format!("finding {f}"),
        Conclusion::Zero => "0 0 0 in the closure".to_string(),
    };
    let load = if premises.is_empty() { "empty".to_string() } else { premises.join(", ") };
    row(text, at, (case.name, case.rule), &load, &conclusion, recorded, [holds, alone]);
}

fn row(text: &mut String, at: usize, of: (&str, u32), load: &str, gives: &str, r: &Recorded, [holds, alone]: [bool; 2]) {
    let holds = if holds { "yes" } else { "no" };
    let alone = if alone { "yes" } else { "" };
    let by = if r.by_original { "original" } else { "model" };
    writeln!(text, "| {} | {} | {} | {load} | {gives} | {holds} | {alone} | {by} |", at + 1, of.0, of.1).expect("a string");
}

/// What is counted: the rules whose absence shows in the answer, zero triples that carry a real one (0), each check, container
/// properties, and the wrong readings of lists that show, in the answer or in the store that just suffices.
const THINGS: usize = READING + READINGS.len() + OF_NIL.len();
const READING: usize = 35;

fn things(model: &Model, closure: &[Triple]) -> Vec<usize> {
    let (start, most) = (model.start(), model::STORE_LIMIT);
    let answer = |closure: &[Triple]| closure.iter().copied().filter(|t| !t.contains(&0)).collect::<Vec<_>>();
    let whole = answer(closure);
    let shows = |other: Option<Vec<Triple>>| other.is_none_or(|other| answer(&other) != whole);
    let mut things: Vec<usize> = (0..29).filter(|k| shows(close(&start, most, 1 << k))).collect();
    things.extend(check(closure).iter().map(|f| 28 + f[0] as usize));
    let is_container = |p: u32| p >= FIRST && is_container_property(&model.terms[(p - FIRST) as usize]);
    if model.load.iter().any(|t| is_container(t[1])) {
        things.push(34);
    }
    let fits_another_store = |other: &Option<Vec<Triple>>| other.as_ref().is_some_and(|other| other.len() != closure.len());
    for (k, (_, mistake)) in (READING..).zip(mistakes::all()) {
        let other = close_mistaken(&start, most, mistake).map(|rows| triples(&rows));
        if fits_another_store(&other) || shows(other) {
            things.push(k);
        }
    }
    things
}

/// First models that bring up something still wanted, then any inside the domain. Outside it rule 10 and readings of lists are wanted, as
/// all else comes up inside.
pub fn random_models() -> Vec<Recorded> {
    let (mut counts, mut all, mut inside) = ([0; THINGS], Vec::<Recorded>::new(), 0);
    // Rules 8 and 17 never show (see cases.md).
    let quota = |k: usize| if k < READING { QUOTA } else { QUOTA_OF_A_READING };
    let wanted = |counts: &[usize; THINGS], k: usize| counts[k] < quota(k) && k != 8 && k != 17;
    let of_the_model = |k: usize| k == 10 || k >= READING;
    for k in 0.. {
        let still_wanted = (0..THINGS).any(|k| wanted(&counts, k));
        if inside >= RANDOM && !still_wanted {
            break;
        }
        let model = plain_terms_first(small(&mut Random::item(3, k)));
        let Some(closure) = close(&model.start(), MOST_CLOSED, 0) else { continue };
        let short = model.terms.iter().all(|(_, bytes)| bytes.len() <= MOST_BYTES);
        if !short || model.load.len() > MOST_LOAD || check(&closure).len() > MOST_FOUND {
            continue;
        }
        let mut brought = things(&model, &closure);
        brought.dedup();
        let by_original = in_domain(&model.load, &closure);
        let brings_up = |k: &usize| wanted(&counts, *k) && (by_original || of_the_model(*k));
        if (!still_wanted && by_original) || brought.iter().any(brings_up) {
            brought.iter().for_each(|k| counts[*k] += 1);
            all.push(record(model));
            inside += usize::from(by_original);
        }
    }
    println!("random models by what they bring up: {counts:?}");
    all
}

/// Named nodes urn:t1 to urn:t16 first, those of the model and others up to sixteen, then its other terms.
fn plain_terms_first(model: Model) -> Model {
    let all_names = names(model.terms.len());
    let is_plain = |k: &usize| model.terms[*k] == all_names[*k];
    let (plain, others): (Vec<usize>, Vec<usize>) = (0..model.terms.len()).partition(is_plain);
    let mut terms = names(PLAIN);
    terms.extend(others.iter().map(|k| model.terms[*k].clone()));
    let at = |list: &[usize], k: u32| list.iter().position(|o| *o == k as usize);
    let moved = |id: u32| match id.checked_sub(FIRST) {
        Some(k) => FIRST + at(&plain, k).or(at(&others, k).map(|o| PLAIN + o)).expect("a term of the model") as u32,
        None => id,
    };
    Model { terms, load: model.load.iter().map(|t| t.map(moved)).collect() }
}
