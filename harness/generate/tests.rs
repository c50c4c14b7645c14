//! What random models bring up, counted: a comparison shows nothing about what never occurs.

use crate::files::{benchmark_file, file, BENCHMARK_TERMS, BENCHMARK_TRIPLES};
use crate::large::{benchmark, large, KINDS};
use crate::small::small;
use crate::texts;
use crate::{word, Model, Random, FIRST};
use model::closure::{check, close, close_mistaken, close_rows, in_domain, Mistake};
use model::dictionary::{bytes_of, is_container_property, starting_terms, Term};
use model::misnumberings::MISNUMBERINGS;
use model::mistakes::{self, OF_NIL, READINGS};
use model::ntriples::{line, lines, Line};
use model::reading::Reading;
use model::rounds::{pass_of_a_store, rounds};
use model::rows::{self, triples, Record};
use model::turns::{opening_rows, pass_rows};
use model::writing;
use model::{Triple, ARENA_LIMIT, ENTRIES_LIMIT, LINE_LIMIT, LOAD_LIMIT, STORE_LIMIT, TERM_LIMIT};

const MODELS: u64 = 1_500;

/// The rule that is not the original's: it comes up outside the original's domain alone.
const PRP_IFP: usize = 10;

#[test]
fn small_models_bring_up_all_rules_and_checks() {
    let (mut rules, mut checks, mut containers, mut inside) = ([0; 29], [0; 6], 0, 0);
    // Predicates of twenty digits after leading zeros: not container properties, and container properties.
    let mut twenty = [0; 2];
    for k in 0..MODELS {
        let model = small(&mut Random::item(5, k));
        let start = model.start();
        let closure = close(&start, STORE_LIMIT, 0).expect("a small closure");
        let answer = |without: u32| answer(&close(&start, STORE_LIMIT, without).expect("a small closure"));
        let whole = answer(0);
        if !in_domain(&model.load, &closure) {
            rules[PRP_IFP] += u32::from(answer(1 << PRP_IFP) != whole);
            continue;
        }
        inside += 1;
        for (rule, count) in rules.iter_mut().enumerate() {
            *count += u32::from(answer(1 << rule) != whole);
        }
        for [check, ..] in check(&closure) {
            checks[check as usize] += 1;
        }
        let predicates = model.load.iter().filter(|t| t[1] >= FIRST).map(|t| &model.terms[(t[1] - FIRST) as usize]);
        containers += u32::from(predicates.clone().any(is_container_property));
        predicates.filter(|p| has_twenty_digits(p)).for_each(|p| twenty[usize::from(is_container_property(p))] += 1);
    }
    println!("of {inside} models, by the rule whose absence shows (0: zero triples): {rules:?}");
    println!("findings by check: {checks:?}, models with a container property: {containers}");
    assert!(inside > MODELS * 3 / 5);
    // Whatever eq-trans (8) gives eq-rep-o gives too, and whatever cax-eqc1 and 2 (17) give, scm-eqc1 and cax-sco do.
    let shows = |rule: usize| rule != 8 && rule != 17;
    assert!((0..29).all(|k| rules[k] >= 10 || !shows(k)), "{rules:?}");
    assert!(checks[1..].iter().all(|n| *n >= 10), "{checks:?}");
    println!("predicates of twenty digits, others' and container properties: {twenty:?}");
    assert!(containers >= 50);
    assert!(twenty.iter().all(|n| *n >= 20), "{twenty:?}");
}

/// The triples without an id 0.
fn answer(closure: &[Triple]) -> Vec<Triple> {
    closure.iter().copied().filter(|t| !t.contains(&0)).collect()
}

/// Counts, for each wrong reading of lists, the models whose answer it changes, or the store that just suffices: inside the original's
/// domain, and outside it.
fn by_reading(models: impl Iterator<Item = Model>) -> Vec<[u32; 2]> {
    let mut counts = vec![[0; 2]; mistakes::all().count()];
    for model in models {
        let start = model.start();
        let Some(closure) = close(&start, STORE_LIMIT, 0) else { continue };
        let outside = usize::from(!in_domain(&model.load, &closure));
        for ((_, mistake), count) in mistakes::all().zip(&mut counts) {
            let wrong = close_mistaken(&start, STORE_LIMIT, mistake).map(|rows| triples(&rows));
            count[outside] +=
                u32::from(wrong.is_none_or(|wrong| wrong.len() != closure.len() || answer(&wrong) != answer(&closure)));
        }
    }
    for ((name, _), [inside, outside]) in mistakes::all().zip(&counts) {
        println!("{name}: shows in {inside} models inside the domain, {outside} outside");
    }
    counts
}

/// Every shape of list comes up, and decides: another reading of it gives another answer, or fits another store.
#[test]
fn small_models_bring_up_all_readings_of_lists() {
    let counts = by_reading((0..2 * MODELS).map(|k| small(&mut Random::item(5, k))));
    assert!(counts.iter().all(|[inside, outside]| inside + outside >= 10), "{counts:?}");
}

#[test]
fn large_models_bring_up_all_readings_of_lists() {
    let of_lists = |model: &Model| model.load.iter().any(|t| t[1] == word("rest"));
    let counts = by_reading((0..200).map(|k| large(&mut Random::item(5, k))).filter(of_lists).filter(|m| m.load.len() < 2_000));
    assert!(counts.iter().all(|[inside, outside]| inside + outside >= 2), "{counts:?}");
}

/// List triples that only follow come up, and would decide an answer if they were read.
#[test]
fn small_models_bring_up_list_triples_of_the_closure() {
    let of_a_list = |t: &&Triple| ["first", "rest"].map(word).contains(&t[1]);
    let shows = |model: &Model| {
        let start = model.start();
        let closure = close(&start, STORE_LIMIT, 0).expect("a small closure");
        let more: Vec<Triple> = start.iter().chain(closure.iter().filter(of_a_list)).copied().collect();
        close(&more, STORE_LIMIT, 0).is_none_or(|other| answer(&other) != answer(&closure))
    };
    let count = (0..2 * MODELS).map(|k| small(&mut Random::item(5, k))).filter(shows).count();
    println!("models in which list triples of the closure would show: {count}");
    assert!(count >= 10, "{count}");
}

/// Closures of at most so many triples are closed in rounds: each round goes through all of it.
const IN_ROUNDS: usize = 300;

/// The closure in the order in which rows come has the passes and the rules of the closure in rounds, whatever the order of the load. Rows
/// of late passes come up, and each rule names some.
#[test]
fn passes_and_rules_are_those_of_rounds() {
    let (mut passes, mut rules, mut compared) = ([0; 6], [0; 29], 0);
    for k in 0..MODELS {
        let mut r = Random::item(7, k);
        let mut start = small(&mut r).start();
        r.shuffle(&mut start);
        let Some(rows) = close_rows(&start, IN_ROUNDS) else { continue };
        assert_eq!(rounds(&start), rows, "{start:?}");
        compared += 1;
        let last = rows.iter().map(|row| row.pass).max().unwrap_or(0);
        passes[(last as usize).min(5)] += 1;
        rules.iter_mut().zip(0..).for_each(|(count, rule)| *count += u32::from(rows.iter().any(|row| row.rule == rule)));
    }
    println!("of {compared} models, by the last pass (5: or later): {passes:?}, by the rules named: {rules:?}");
    // In the pass in which eq-trans (8) gives a triple eq-rep-o does.
    assert!(compared > MODELS / 2 && passes[3..].iter().all(|n| *n >= 50), "{passes:?}");
    assert!((0..29).all(|k| if k == 8 { rules[k] == 0 } else { rules[k] >= 5 }), "{rules:?}");
}

/// Passes from an opening call on: after n of them the rows are those of the closure whose pass is at most n, until all of it is there.
#[test]
fn passes_one_by_one_are_those_of_the_closure() {
    let mut compared = 0;
    for k in 0..MODELS {
        let start = small(&mut Random::item(11, k)).start();
        let Some(closure) = close_rows(&start, IN_ROUNDS) else { continue };
        let mut rows = opening_rows(&start);
        for pass in 0.. {
            assert_eq!(rows, closure.iter().copied().filter(|row| row.pass <= pass).collect::<Vec<_>>(), "{start:?}");
            let next = pass_rows(&rows, &start, closure.len()).expect("no more than the closure");
            if next.len() == rows.len() {
                break;
            }
            rows = next;
        }
        assert_eq!(rows, closure);
        compared += 1;
    }
    assert!(compared > MODELS / 2);
}

/// A pass over rows that no call left: some of a closure's, others that do not follow, with any passes and rules. It is the pass that goes
/// through all rules and the whole set.
#[test]
fn passes_over_any_rows_are_those_of_rounds() {
    let (mut added, mut closed, mut zero) = (0, 0, 0);
    for k in 0..MODELS {
        let mut r = Random::item(12, k);
        let model = small(&mut r);
        let Some(mut rows) = close_rows(&model.start(), IN_ROUNDS / 2) else { continue };
        if r.percent(80) {
            rows.retain(|row| row.pass == 0 || r.percent(70));
        }
        let most = FIRST as usize + model.terms.len();
        for _ in 0..r.below(4) {
            let triple = [0; 3].map(|_| r.below(most) as u32);
            if !rows.iter().any(|row| row.triple == triple) {
                rows.push(Record { triple, pass: 0, rule: 0 });
            }
        }
        for row in &mut rows {
            if r.percent(20) {
                (row.pass, row.rule) = (r.below(9) as u32, r.below(40) as u32);
            }
        }
        // Lists come from the load lent now, which may be another.
        let lists = if r.percent(70) { model.start() } else { small(&mut r).start() };
        let next = pass_rows(&rows, &lists, STORE_LIMIT).expect("a small store");
        assert_eq!(next, pass_of_a_store(&rows, &lists), "{rows:?}");
        *(if next.len() > rows.len() { &mut added } else { &mut closed }) += 1;
        zero += u32::from(rows.iter().any(|row| row.triple.contains(&0)));
    }
    println!("passes that add: {added}, that do not: {closed}, with zero triples before: {zero}");
    assert!(added >= 500 && closed >= 50 && zero >= 300, "{added}, {closed}, {zero}");
}

/// What is wrong in a row comes up: each wrong numbering gives another answer, or none that fits the store. Wrong lengths of a store are
/// damage's.
#[test]
fn small_models_bring_up_all_numberings() {
    let of_rows =
        MISNUMBERINGS.iter().filter(|(_, by)| [0, 1, 3, 5, 15].map(by.sized) == [0, 1, 3, 5, 15].map(rows::RIGHT.sized));
    let of_rows: Vec<_> = of_rows.filter(|(name, _)| !name.contains("limit")).collect();
    let mut counts = vec![0; of_rows.len()];
    for k in 0..MODELS / 3 {
        let start = small(&mut Random::item(8, k)).start();
        let Some(closure) = close_rows(&start, IN_ROUNDS) else { continue };
        let right = rows::answer(&closure);
        for ((_, by), count) in of_rows.iter().zip(&mut counts) {
            let wrong = close_mistaken(&start, closure.len(), Mistake { rows: *by, ..Mistake::default() });
            *count += u32::from(wrong.is_none_or(|wrong| rows::answer(&wrong) != right));
        }
    }
    for ((name, _), count) in of_rows.iter().zip(&counts) {
        println!("{name}: shows in {count} models");
    }
    assert!(counts.iter().all(|n| *n >= 5), "{counts:?}");
}

/// Whatever the domain leaves to the original, it reads as the model does: there its own reading changes nothing.
#[test]
fn inside_the_domain_the_original_reads_lists_alike() {
    let pooled = READINGS.iter().find(|(name, _)| *name == "pooled").expect("the original's reading").1;
    let none = OF_NIL.iter().find(|(name, _)| *name == "nil-admits-none").expect("the original's reading").1;
    let original = Mistake { reading: pooled, of_nil: none, ..Mistake::default() };
    for model in (0..MODELS).map(|k| small(&mut Random::item(6, k))) {
        let start = model.start();
        let closure = close(&start, STORE_LIMIT, 0).expect("a small closure");
        if in_domain(&model.load, &closure) {
            let read_so = close_mistaken(&start, STORE_LIMIT, original).map(|rows| triples(&rows));
            assert_eq!(read_so, Some(closure), "{}", model.text());
        }
    }
}

fn has_twenty_digits((_, bytes): &Term) -> bool {
    let local = String::from_utf8_lossy(bytes).into_owned();
    let digits = local.rsplit("#_").next().unwrap_or_default().trim_start_matches('0');
    digits.len() == 20 && digits.bytes().all(|b| b.is_ascii_digit())
}

#[test]
fn large_models_are_loads() {
    for k in 0..60 {
        let model = large(&mut Random::item(5, k));
        assert!(model.load.len() <= LOAD_LIMIT);
        assert!(model.load.iter().flatten().all(|id| 1 <= *id && *id < FIRST + model.terms.len() as u32));
        let mut terms = model.terms_of_a_run();
        let count = terms.len();
        terms.sort();
        terms.dedup();
        assert_eq!(terms.len(), count);
    }
}

#[test]
fn benchmark_models_have_their_size() {
    for kind in KINDS {
        for size in [1_000, 5_000, 16_000] {
            assert_eq!(benchmark(kind, size).load.len(), size);
        }
    }
}

#[test]
fn benchmark_models_have_a_thousand_recipes() {
    let named = ["intersectionOf", "unionOf"].map(word);
    for (kind, inside) in [("recipes", true), ("tails", false)] {
        let model = benchmark(kind, 16_000);
        assert_eq!(model.load.iter().filter(|t| named.contains(&t[1])).count(), 1_000);
        let closure = close(&model.start(), STORE_LIMIT, 0).expect("a closure that a store holds");
        assert_eq!(in_domain(&model.load, &closure), inside);
        let rules = [21, 22, 23].map(|k| closure.len() - close(&model.start(), STORE_LIMIT, 1 << k).map_or(0, |c| c.len()));
        println!("{kind}: a closure of {}, without rule 21, 22 or 23 so many less: {rules:?}", closure.len());
        assert!(rules.iter().all(|n| *n >= 500), "{rules:?}");
    }
}

#[test]
fn an_item_can_be_made_again() {
    for k in 0..20 {
        assert_eq!(small(&mut Random::item(9, k)).text(), small(&mut Random::item(9, k)).text());
    }
}

/// Random files are valid, and have every kind of line, of end and of term, terms that a start puts and `urn:_` among them.
#[test]
fn random_files_are_valid() {
    let (mut said, mut kinds, mut held, mut blank_id, mut repeated) = ([0; 2], [0; 4], 0, 0, 0);
    let start = starting_terms();
    let mut ends = [0; 3];
    for k in 0..MODELS {
        let text = file(&mut Random::item(9, k));
        for (count, end) in ends.iter_mut().zip(["\r\n", "\n", "\r"]) {
            *count += u32::from(text.ends_with(end));
        }
        for bytes in lines(text.as_bytes()) {
            match line(bytes) {
                Line::Nothing => said[0] += 1,
                Line::Bad => panic!("a bad line: {:?}", String::from_utf8_lossy(bytes)),
                Line::Triple(terms) => {
                    assert!(terms.iter().all(|(_, b)| b.len() <= TERM_LIMIT) && bytes.len() <= LINE_LIMIT);
                    said[1] += 1;
                    terms.iter().for_each(|(kind, _)| kinds[*kind as usize] += 1);
                    held += u32::from(terms.iter().any(|term| start[1..].contains(term)));
                    blank_id += u32::from(terms.contains(&start[0]));
                    repeated += u32::from(terms[0] == terms[1] || terms[1] == terms[2] || terms[0] == terms[2]);
                }
            }
        }
    }
    assert!(said.iter().chain(&kinds[1..]).chain(&ends).chain(&[held, blank_id, repeated]).all(|n| *n >= 100));
}

#[test]
fn the_benchmark_file_fits_a_dictionary() {
    let text = benchmark_file();
    let mut reading = Reading::new(vec![], ENTRIES_LIMIT, ARENA_LIMIT, LOAD_LIMIT, None);
    assert_eq!(reading.file(text.as_bytes()), Ok(()));
    assert_eq!((reading.triples.len(), reading.terms.len()), (BENCHMARK_TRIPLES, BENCHMARK_TERMS));
    assert!(bytes_of(&starting_terms()) + bytes_of(&reading.terms) <= ARENA_LIMIT);
    assert!((1..=3).all(|kind| reading.terms.iter().filter(|term| term.0 == kind).count() >= 5_000));
}

/// What is written of random models has each escape and each kind of term, and nothing that other readers take otherwise.
#[test]
fn texts_to_be_written() {
    let marks = ["\\\"", "\\\\", "\\n", "\\r", "\t", "\u{7f}", "\" .\n", "\"@", "\"^^<", "_:", "<urn:_>", "\u{1f600}"];
    let (mut met, mut left_out) = ([0; 12], 0);
    for k in 0..500 {
        let (terms, triples) = texts::model(&mut Random::item(3, k));
        for [s, p, o] in triples.iter().map(|triple| triple.map(|id| &terms[id as usize])) {
            let Some(line) = writing::line([s, p, o]) else {
                left_out += 1;
                continue;
            };
            marks.iter().zip(&mut met).for_each(|(mark, n)| *n += u32::from(line.contains(mark)));
            assert!([s, p, o].into_iter().all(is_read_alike), "{line}");
        }
    }
    println!("lines with each of {marks:?}: {met:?}, left out: {left_out}");
    assert!(met.iter().all(|n| *n >= 50) && left_out >= 500);
}

/// No U+0000 and no noncharacter in a text, no capital letter in a tag, no colon in a label, and a scheme before an IRI's colon.
fn is_read_alike((kind, bytes): &Term) -> bool {
    let text = std::str::from_utf8(bytes).expect("UTF-8");
    let has_scheme = |iri: &str| iri.split(':').next().is_some_and(|s| !s.is_empty() && !s.contains(|c: char| "/?#".contains(c)));
    let odd = |c: char| c == '\0' || u32::from(c) & 0xfffe == 0xfffe || ('\u{fdd0}'..='\u{fdef}').contains(&c);
    match (*kind, text.rsplit_once('\0')) {
        (1, _) => has_scheme(text),
        (2, _) => !text.contains(':'),
        (_, Some((text, more))) if more.contains(':') => !text.contains(odd) && has_scheme(more),
        (_, Some((text, tag))) => !text.contains(odd) && !tag.contains(|c: char| c.is_ascii_uppercase()),
        (_, None) => false,
    }
}
