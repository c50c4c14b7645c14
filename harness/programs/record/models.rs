//! The recorded models as calls: each is run three times on a dictionary of sixteen named nodes and its further terms.

use crate::calls::{accept, begin, open, pass_done, pass_none, pass_on, put_new, refuse, rows, Lent, Row};
use crate::lists::EMPTY;
use crate::memory::{ARENA, FINDINGS, STORE, TABLE, TERMS, USED};
use crate::recorded::{Recorded, PLAIN};
use crate::text::Text;
use generate::{names, FIRST};
use model::rows::Record;

const ENTRIES: usize = 64;
const BYTES: usize = 3_000;

/// Terms and bytes with the sixteen, and with the three terms of a run.
const NAMED: [u32; 2] = [47, 1428];
const RUN: [u32; 2] = [50, 1586];

/// Puts the sixteen nodes and has an empty run bring its terms; saves that, and hands back the dictionary before the run.
pub fn prepare(text: &mut Text) -> Before {
    begin(text, 64 + 4 * ENTRIES, BYTES);
    for (id, (kind, bytes)) in (FIRST..).zip(names(PLAIN)) {
        let used = text.memory().0[USED] + bytes.len() as u32;
        put_new(text, kind, &bytes, id, used);
    }
    let before = Before { table: text.memory().lent(TABLE).to_vec(), arena: text.memory().lent(ARENA).to_vec() };
    let lent = Lent { load: &[], store: rows(4), findings: 0, work: 100 };
    accept(text, &lent, &EMPTY, &[], RUN);
    text.save();
    before
}

/// A dictionary that holds the sixteen and none of a run's terms.
pub struct Before {
    table: Vec<u32>,
    arena: Vec<u32>,
}

/// A list of models. Those without further terms find a run's terms held, as writing them for each would take
/// most of the text; the others begin before that run.
pub fn models(text: &mut Text, name: &str, all: &[Recorded], before: &Before) {
    for (k, recorded) in all.iter().enumerate() {
        text.restore();
        if recorded.model.terms.len() > PLAIN {
            put_further(text, recorded, before);
        }
        three_runs(text, recorded, k);
    }
    text.end(name);
}

fn put_further(text: &mut Text, recorded: &Recorded, before: &Before) {
    text.change(|m| {
        m.lend(TABLE, &before.table);
        m.lend(ARENA, &before.arena);
        (m.0[TERMS], m.0[USED]) = (NAMED[0], NAMED[1]);
    });
    for (kind, bytes) in &recorded.model.terms[PLAIN..] {
        let [id, used] = text.memory().counters();
        put_new(text, *kind, bytes, id, used + bytes.len() as u32);
    }
}

/// With a store of exactly the closure's triples and findings of exactly its records; then with one less of each.
fn three_runs(text: &mut Text, r: &Recorded, k: usize) {
    let load: Vec<u32> = r.model.load.concat();
    let (answer, found): (Vec<Row>, Vec<u32>) = (r.rows.iter().map(Record::numbers).collect(), r.findings.concat());
    let after = r.model.terms_of_a_run();
    let after = [after.len() as u32, model::dictionary::bytes_of(&after) as u32];
    let known = text.memory().0[TERMS] as usize;
    let lent = |store: usize, findings: usize, known: usize| Lent {
        load: &load,
        store: rows(store),
        findings: 5 * findings,
        work: 2 * (known + 3),
    };
    let (triples, records) = (r.closure.len(), r.findings.len());
    accept(text, &lent(triples, records, known), &answer, &found, after);
    expect_wrong(text, answer.as_flattened().len(), found.len(), k);
    let known = after[0] as usize;
    refuse(text, &lent(triples - 1, records, known), 8, after);
    if records > 0 {
        refuse(text, &lent(triples, records - 1, known), 9, after);
    }
}

/// Of the models without further terms in each list, those of more than two passes and the first of the others are closed in turns.
pub fn in_turns(text: &mut Text, name: &str, lists: &[&[Recorded]]) {
    for list in lists {
        let plain = list.iter().filter(|r| r.model.terms.len() == PLAIN && r.closure.len() <= IN_TURNS);
        let last = |r: &&&Recorded| r.closure_rows.iter().map(|row| row.pass).max() > Some(2);
        let (long, short): (Vec<_>, Vec<_>) = plain.partition(|r| last(&r));
        for (k, recorded) in long.iter().take(LONG).chain(short.iter().take(SHORT)).enumerate() {
            text.restore();
            pass_by_pass(text, recorded, k);
        }
    }
    text.end(name);
}

/// Models of each list that are closed in turns, and the most triples of their closures.
const LONG: usize = 12;
const SHORT: usize = 6;
const IN_TURNS: usize = 60;

/// The rows of the closure up to each pass, then the answer and the findings; every third is refused with 8 or 9 at its end.
fn pass_by_pass(text: &mut Text, r: &Recorded, k: usize) {
    let load: Vec<u32> = r.model.load.concat();
    let up_to = |pass: u32| -> Vec<Row> { r.closure_rows.iter().filter(|row| row.pass <= pass).map(Record::numbers).collect() };
    let last = r.closure_rows.iter().map(|row| row.pass).max().expect("a row");
    let (less_rows, less_findings) = (k % 6 == 2, k % 6 == 5 && !r.findings.is_empty());
    let store = rows(r.closure.len() - usize::from(less_rows));
    let findings = 5 * (r.findings.len() - usize::from(less_findings));
    let lent = Lent { load: &load, store, findings, work: 2 * (RUN[0] as usize + 3) };
    open(text, &lent, &up_to(0), RUN);
    for pass in 1..=last {
        if less_rows && pass == last {
            return pass_none(text, 8, RUN);
        }
        pass_on(text, &up_to(pass), RUN);
    }
    if less_findings {
        return pass_none(text, 9, RUN);
    }
    let answer: Vec<Row> = r.rows.iter().map(Record::numbers).collect();
    pass_done(text, &answer, &r.findings.concat(), RUN);
    expect_wrong(text, answer.as_flattened().len(), 5 * r.findings.len(), k);
}

/// One number of the answer, a pass or a rule among them, or of the findings is expected wrong, at another place for each model.
fn expect_wrong(text: &mut Text, answer: usize, found: usize, k: usize) {
    let at = 7 * k % (answer + found);
    let cell = if at < answer { STORE.first + at } else { FINDINGS.first + at - answer };
    text.expect_wrong(cell);
}
