//! The calls on numbers, docs/REFERENCE.md, 3: result, refusals in their order, and every buffer after the call. Those that close in turns
//! are in turns.rs, that which writes in writing.rs.

use crate::closure::{check, close_mistaken, Mistake};
use crate::dictionary::{self as dict, Term};
use crate::misreadings::Misreading;
use crate::reading::Reading;
use crate::rows::{answer, triples, Record};
use crate::*;
use std::collections::BTreeSet;

/// A table, an arena and the two counters of `put`.
pub struct Dictionary<'a> {
    pub table: &'a mut [u32],
    pub arena: &'a mut [u8],
    pub terms: &'a mut u32,
    pub used: &'a mut u32,
}

impl Dictionary<'_> {
    pub(crate) fn held(&self) -> Option<Vec<Term>> {
        dict::held(self.table, self.arena, *self.terms, *self.used)
    }

    /// Lays these terms out.
    pub(crate) fn write(&mut self, terms: &[Term]) {
        let (numbers, bytes) = dict::layout(terms, self.table.len(), self.arena.len());
        self.table.copy_from_slice(&numbers);
        self.arena.copy_from_slice(&bytes);
        *self.terms = terms.len() as u32;
        *self.used = dict::bytes_of(terms) as u32;
    }

    pub(crate) fn fits(&self, terms: &[Term]) -> bool {
        dict::fits(terms, self.table.len(), self.arena.len())
    }
}

/// Refusal. A refused start hands back counters 0 and 0.
pub fn start(mut d: Dictionary) -> u32 {
    *d.terms = 0;
    *d.used = 0;
    if !dict::well_sized(d.table.len(), d.arena.len()) {
        return ILL_SIZED_STORE;
    }
    let terms = dict::starting_terms();
    if !d.fits(&terms) {
        return DICTIONARY_FULL;
    }
    d.write(&terms);
    0
}

/// Refusal and id.
pub fn put(mut d: Dictionary, kind: u32, bytes: &[u8]) -> (u32, u32) {
    let Some(mut terms) = d.held() else {
        return (BROKEN_DICTIONARY, 0);
    };
    if !(1..=3).contains(&kind) {
        return (UNKNOWN_KIND, 0);
    }
    if bytes.len() > TERM_LIMIT {
        return (TERM_TOO_LONG, 0);
    }
    if let Some(id) = terms.iter().position(|(k, b)| *k == kind && b == bytes) {
        return (0, id as u32);
    }
    terms.push((kind, bytes.to_vec()));
    if !d.fits(&terms) {
        return (DICTIONARY_FULL, 0);
    }
    d.write(&terms);
    (0, terms.len() as u32 - 1)
}

/// Refusal, kind, and the place and length of the term's bytes in the arena.
pub fn lookup(d: Dictionary, id: u32) -> (u32, u32, usize, usize) {
    let Some(terms) = d.held() else {
        return (BROKEN_DICTIONARY, 0, 0, 0);
    };
    if id as usize >= terms.len() {
        return (NO_SUCH_ID, 0, 0, 0);
    }
    let (kind, bytes) = &terms[id as usize];
    (0, *kind, dict::bytes_of(&terms[..id as usize]), bytes.len())
}

/// Refusal, and the count of the triples read. The load holds them, then zeros; a refused file leaves it all zero.
pub fn read(d: Dictionary, file: &[u8], load: &mut [u32]) -> (u32, u32) {
    read_mistaken(d, file, load, None)
}

/// The same with a mistake.
pub fn read_mistaken(mut d: Dictionary, file: &[u8], load: &mut [u32], mistake: Option<Misreading>) -> (u32, u32) {
    let Some(terms) = d.held() else {
        return (BROKEN_DICTIONARY, 0);
    };
    if load.len() % LOAD_WIDTH != 0 {
        return (RAGGED_LOAD, 0);
    }
    let errs = |by: Misreading| mistake == Some(by);
    let mut reading = Reading::new(terms, dict::entries(d.table.len()), d.arena.len(), load.len() / LOAD_WIDTH, mistake);
    let refusal = reading.file(file).err().unwrap_or(0);
    if refusal == 0 || errs(Misreading::TermsLeft) {
        d.write(&reading.terms);
    }
    if !errs(if refusal == 0 { Misreading::RestLeft } else { Misreading::LoadLeft }) {
        load.fill(0);
    }
    let count = reading.triples.len() as u32;
    if refusal != 0 {
        return (refusal, if errs(Misreading::CountTold) { count } else { 0 });
    }
    for (row, triple) in load.chunks_mut(LOAD_WIDTH).zip(&reading.triples) {
        row.copy_from_slice(triple);
    }
    (0, count)
}

/// The buffers that a run, an opening call or a pass is lent beside the dictionary.
pub struct Buffers<'a> {
    pub store: &'a mut [u32],
    pub findings: &'a mut [u32],
    pub work: &'a mut [u32],
}

impl Buffers<'_> {
    pub(crate) fn lengths(&self) -> [usize; 3] {
        [self.store.len(), self.findings.len(), self.work.len()]
    }

    pub(crate) fn clear(&mut self) {
        self.store.fill(0);
        self.findings.fill(0);
        self.work.fill(0);
    }

    /// Rows in a store of zeros.
    pub(crate) fn lay(&mut self, rows: &[Record]) {
        for (place, row) in self.store.chunks_exact_mut(STORE_WIDTH).zip(rows) {
            place.copy_from_slice(&row.numbers());
        }
    }

    /// Findings in a buffer of zeros, as far as they have room, and the count of each check.
    pub(crate) fn lay_findings<'f>(&mut self, found: impl IntoIterator<Item = &'f Finding>) -> [u32; 5] {
        let mut counts = [0; 5];
        for (place, finding) in self.findings.chunks_exact_mut(FINDING_WIDTH).zip(found) {
            place.copy_from_slice(finding);
            counts[finding[0] as usize - 1] += 1;
        }
        counts
    }
}

/// Refusal, triple count, and the count of each check.
pub fn run(d: Dictionary, load: &[u32], b: Buffers) -> (u32, u32, [u32; 5]) {
    run_mistaken(d, load, b, Mistake::default())
}

/// The same with a mistake.
pub fn run_mistaken(mut d: Dictionary, load: &[u32], mut b: Buffers, mistake: Mistake) -> (u32, u32, [u32; 5]) {
    let (terms, rows) = match before_closing(&d, load, b.lengths(), &mistake) {
        Ok(passed) => passed,
        Err(refusal) => return (refusal, 0, [0; 5]),
    };
    d.write(&terms);
    b.clear();
    match close_mistaken(&starting_triples(&terms, &triples_of(load)), rows, mistake) {
        Some(closure) => end(&answer(&closure), &check(&triples(&closure)), b),
        None => (STORE_FULL, 0, [0; 5]),
    }
}

/// The end of a run in buffers of zeros: refusal 9, or the answer and the findings.
pub(crate) fn end(answer: &[Record], found: &BTreeSet<Finding>, mut b: Buffers) -> (u32, u32, [u32; 5]) {
    if found.len() > b.findings.len() / FINDING_WIDTH {
        return (FINDINGS_FULL, 0, [0; 5]);
    }
    b.lay(answer);
    (0, answer.len() as u32, b.lay_findings(found))
}

pub(crate) fn triples_of(load: &[u32]) -> Vec<Triple> {
    load.chunks(LOAD_WIDTH).map(|t| [t[0], t[1], t[2]]).collect()
}

/// Refusals 1 to 7 of a run with buffers of these lengths, in that order; else the terms with the three that it puts, and the store's
/// number of rows.
pub(crate) fn before_closing(
    d: &Dictionary,
    load: &[u32],
    [store, findings, work]: [usize; 3],
    mistake: &Mistake,
) -> Result<(Vec<Term>, usize), u32> {
    let Some(mut terms) = d.held() else {
        return Err(BROKEN_DICTIONARY);
    };
    let known = terms.len();
    if load.len() % LOAD_WIDTH != 0 {
        return Err(RAGGED_LOAD);
    }
    if load.len() / LOAD_WIDTH > LOAD_LIMIT {
        return Err(LOAD_TOO_LONG);
    }
    let rows = (mistake.rows.sized)(store).ok_or(ILL_SIZED_STORE)?;
    let findings_sized = findings % FINDING_WIDTH == 0 && findings / FINDING_WIDTH <= FINDINGS_LIMIT;
    if !findings_sized || work < 2 * (known + 3) {
        return Err(ILL_SIZED_STORE);
    }
    if load.contains(&0) {
        return Err(BLANK_ID);
    }
    if load.iter().any(|id| *id as usize >= known) {
        return Err(UNKNOWN_TERM);
    }
    put_run_terms(&mut terms);
    if d.fits(&terms) {
        Ok((terms, rows))
    } else {
        Err(DICTIONARY_FULL)
    }
}

/// The three terms of a run behind those held; one that is held stays where it is.
pub(crate) fn put_run_terms(terms: &mut Vec<Term>) {
    for term in dict::run_terms() {
        if !terms.contains(&term) {
            terms.push(term);
        }
    }
}

/// What the closure starts from: the load, 9 1 30, 10 1 30, and three triples for each container property among the predicates.
pub fn starting_triples(terms: &[Term], load: &[Triple]) -> Vec<Triple> {
    let [property, membership, member] =
        dict::run_terms().map(|term| terms.iter().position(|t| *t == term).expect("a run puts it") as u32);
    let mut start = load.to_vec();
    start.extend([[9, 1, 30], [10, 1, 30]]);
    for &[_, p, _] in load {
        if dict::is_container_property(&terms[p as usize]) {
            start.extend([[p, 1, property], [p, 1, membership], [p, 7, member]]);
        }
    }
    start
}
