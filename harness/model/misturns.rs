//! Wrong opening calls and passes. Put in the place of the right ones they show whether compare and damage notice such a mistake.

use crate::calls::{before_closing, put_run_terms, starting_triples, triples_of, Buffers, Dictionary};
use crate::closure::{check, close, pass_mistaken, Mistake};
use crate::dictionary::{is_container_property, Term};
use crate::misnumberings::lowest_of_all_passes;
use crate::rows::{answer, triples, Record, Rows};
use crate::turns::{held_rows, largest, record, takes, PASS_LIMIT};
use crate::{Finding, Triple, DICTIONARY_FULL, ILL_SIZED_STORE, STORE_LIMIT, STORE_WIDTH};
use std::collections::BTreeSet;
use Misturn::*;

#[derive(Clone, Copy, Debug, PartialEq, Eq)]
pub enum Misturn {
    OpenDone,
    DoneEarly,
    ReadsWhatItAdds,
    ZerosOutEarly,
    ZerosLeft,
    CountWithoutZeros,
    FindingsLeft,
    FindingsEarly,
    FindingsOfTheAnswer,
    WorkLeft,
    WorkCleared,
    WorkByHeld,
    LateBeforeRoom,
    ClosureTooLarge,
    TermsLeft,
    TermsNotHeld,
    StartMissing,
    StartAdded,
    StartByNumbers,
    LoadAlone,
    AxiomsOfTheStore,
    ListsOfTheStore,
    MustFollow,
    OrderUnchecked,
    RepeatsTaken,
    FiveNumbers,
    AnyId,
    ThreeUnknown,
    ThreeMore,
    NoZeroTriples,
    EndsAtZeros,
    ZerosByTriple,
    RulesChecked,
    NoPassLimit,
    NewPassLimited,
    PassesCounted,
    AlwaysOne,
    StartRenumbered,
    RuleLowered,
}

pub const MISTURNS: &[(&str, Misturn)] = &[
    // An opening call is done where the start is closed already.
    ("open-done", OpenDone),
    // The pass that brings in the last triples ends the run, and says that it is done.
    ("done-early", DoneEarly),
    // A pass goes on with the triples that it adds.
    ("reads-what-it-adds", ReadsWhatItAdds),
    // Triples with an id 0 are taken out by every pass, or by none; or the count leaves them out.
    ("zeros-out-early", ZerosOutEarly),
    ("zeros-left", ZerosLeft),
    ("count-without-zeros", CountWithoutZeros),
    // Until the run is done the findings are as they were, or those of the triples so far; at the end, those of the answer.
    ("findings-left", FindingsLeft),
    ("findings-early", FindingsEarly),
    ("findings-of-the-answer", FindingsOfTheAnswer),
    // The list work buffer is as it was until the run is done, or zero after 4 too.
    ("work-left", WorkLeft),
    ("work-cleared", WorkCleared),
    // It is measured by the terms that are held once a run's three are: those of the three that are held are not counted again.
    ("work-by-held", WorkByHeld),
    // The store is looked at before 7.
    ("late-before-room", LateBeforeRoom),
    // 8 asks whether the closure fits.
    ("closure-too-large", ClosureTooLarge),
    // After 4 for the store the three terms are held; after 8 and 9 they are not.
    ("terms-left", TermsLeft),
    ("terms-not-held", TermsNotHeld),
    // A store without all starting triples is taken, or gets them; they are looked for with pass 0 and rule 0; only those of the load are.
    ("start-missing", StartMissing),
    ("start-added", StartAdded),
    ("start-by-numbers", StartByNumbers),
    ("load-alone", LoadAlone),
    // Container properties of the store bring axioms; lists are those of the store.
    ("axioms-of-the-store", AxiomsOfTheStore),
    ("lists-of-the-store", ListsOfTheStore),
    // A triple that does not follow from the load is refused.
    ("must-follow", MustFollow),
    // Rows may have any order, or be repeated; or their passes and rules count in the order.
    ("order-unchecked", OrderUnchecked),
    ("repeats-taken", RepeatsTaken),
    ("five-numbers", FiveNumbers),
    // Ids may be unknown; those of the three terms are unknown, or three ids more are known though the three are held.
    ("any-id", AnyId),
    ("three-unknown", ThreeUnknown),
    ("three-more", ThreeMore),
    // A triple with an id 0 is refused.
    ("no-zero-triples", NoZeroTriples),
    // The rows end at the first row of zeros; a row of 0 0 0 is one, whatever its pass and rule.
    ("ends-at-zeros", EndsAtZeros),
    ("zeros-by-triple", ZerosByTriple),
    // A rule that there is not is refused.
    ("rules-checked", RulesChecked),
    // A pass of any number is taken, or none of which the next would be over the limit.
    ("no-pass-limit", NoPassLimit),
    ("new-pass-limited", NewPassLimited),
    // A pass is numbered by how many passes the store names, or is always the first.
    ("passes-counted", PassesCounted),
    ("always-one", AlwaysOne),
    // Rows that were there get other numbers: starting triples pass 0 and rule 0, others the lowest rule that ever gives them.
    ("start-renumbered", StartRenumbered),
    ("rule-lowered", RuleLowered),
];

/// Refusals 1 to 7 of a pass, as `before_closing` has them.
pub(crate) fn admitted(d: &Dictionary, load: &[u32], b: &Buffers, mistake: Mistake) -> Result<(Vec<Term>, usize), u32> {
    let [store, findings, mut work] = b.lengths();
    let with_three = |mut terms: Vec<Term>| {
        put_run_terms(&mut terms);
        terms
    };
    if let (Some(WorkByHeld), Some(terms)) = (mistake.turn, d.held()) {
        let held = terms.len() + 3 - with_three(terms).len();
        work += if work > 0 { 2 * held } else { 0 };
    }
    let passed = before_closing(d, load, [store, findings, work], &mistake);
    if let (Some(LateBeforeRoom), Err(DICTIONARY_FULL), Some(terms)) = (mistake.turn, &passed, d.held()) {
        let (before, terms) = (terms.len(), with_three(terms));
        let taken = Taking::new(&terms, before, &triples_of(load), None).rows(b.store);
        return if taken.is_none() { Err(ILL_SIZED_STORE) } else { passed };
    }
    passed
}

/// What a pass asks of a store.
pub(crate) struct Taking<'t> {
    terms: &'t [Term],
    /// The terms held before a run's three were put.
    before: usize,
    load: Vec<Triple>,
    pub start: Vec<Triple>,
    mistake: Option<Misturn>,
}

impl<'t> Taking<'t> {
    pub fn new(terms: &'t [Term], before: usize, load: &[Triple], mistake: Option<Misturn>) -> Taking<'t> {
        Taking { terms, before, load: load.to_vec(), start: starting_triples(terms, load), mistake }
    }

    fn errs(&self, mistake: Misturn) -> bool {
        self.mistake == Some(mistake)
    }

    /// The rows that the store holds; none where a pass does not take them.
    pub fn rows(&self, store: &[u32]) -> Option<Vec<Record>> {
        let mut rows = self.read(store);
        if self.errs(StartAdded) {
            let missing = |t: &&Triple| rows.iter().all(|row| row.triple != **t);
            let more: BTreeSet<Triple> = self.start.iter().filter(missing).copied().collect();
            rows.extend(more.into_iter().map(|triple| Record { triple, pass: 0, rule: 0 }));
            rows.sort_by_key(|row| row.triple);
        }
        self.takes(&rows).then_some(())?;
        if self.errs(StartRenumbered) {
            let of_the_start = |row: &&mut Record| self.start.contains(&row.triple);
            rows.iter_mut().filter(of_the_start).for_each(|row| (row.pass, row.rule) = (0, 0));
        }
        rows.sort_by_key(|row| row.triple);
        rows.dedup_by_key(|row| row.triple);
        Some(rows)
    }

    fn read(&self, store: &[u32]) -> Vec<Record> {
        let mut rows = held_rows(store);
        if self.errs(EndsAtZeros) {
            rows = store.chunks_exact(STORE_WIDTH).map(record).take_while(|row| row.numbers() != [0; STORE_WIDTH]).collect();
        }
        while self.errs(ZerosByTriple) && rows.last().is_some_and(|row| row.triple == [0; 3]) {
            rows.pop();
        }
        rows
    }

    fn takes(&self, rows: &[Record]) -> bool {
        let known = match self.mistake {
            Some(AnyId) => usize::MAX,
            Some(ThreeUnknown) => self.before,
            Some(ThreeMore) => self.before + 3,
            _ => self.terms.len(),
        };
        let seen = self.seen(rows);
        takes(&seen, known, &self.asked(rows)) && !self.refuses(rows)
    }

    /// The rows as they are looked at.
    fn seen(&self, rows: &[Record]) -> Vec<Record> {
        let mut seen = rows.to_vec();
        match self.mistake {
            Some(NoPassLimit) => seen.iter_mut().for_each(|row| row.pass = 0),
            Some(OrderUnchecked) => seen.sort_by_key(|row| row.triple),
            Some(FiveNumbers) if rows.windows(2).any(|pair| pair[0].numbers() >= pair[1].numbers()) => return rows.to_vec(),
            _ => (),
        }
        if matches!(self.mistake, Some(OrderUnchecked | RepeatsTaken | FiveNumbers)) {
            let mut ids = seen.clone();
            ids.dedup_by_key(|row| row.triple);
            return ids;
        }
        seen
    }

    /// The starting triples that are looked for.
    fn asked(&self, rows: &[Record]) -> Vec<Triple> {
        let mut asked = self.start.clone();
        match self.mistake {
            Some(StartMissing) => asked.clear(),
            Some(LoadAlone) => asked = self.load.clone(),
            Some(AxiomsOfTheStore) => {
                let container = |t: &Triple| self.terms.get(t[1] as usize).is_some_and(is_container_property);
                let of_the_store: Vec<Triple> = triples(rows).into_iter().filter(container).collect();
                asked.extend(starting_triples(self.terms, &of_the_store));
            }
            _ => (),
        }
        asked
    }

    /// What is refused besides.
    fn refuses(&self, rows: &[Record]) -> bool {
        match self.mistake {
            Some(StartByNumbers) => rows.iter().any(|row| self.start.contains(&row.triple) && (row.pass, row.rule) != (0, 0)),
            Some(NoZeroTriples) => rows.iter().any(|row| row.triple.contains(&0)),
            Some(RulesChecked) => rows.iter().any(|row| row.rule > 28),
            Some(NewPassLimited) => largest(rows) >= PASS_LIMIT,
            Some(MustFollow) => {
                let closure = close(&self.start, STORE_LIMIT, 0);
                closure.is_some_and(|closure| rows.iter().any(|row| closure.binary_search(&row.triple).is_err()))
            }
            _ => false,
        }
    }
}

/// The rows after a pass, as `turns::pass_rows` has them.
pub(crate) fn next_rows(rows: &[Record], start: &[Triple], limit: usize, mistake: Mistake) -> Option<Vec<Record>> {
    let pass = match mistake.turn {
        Some(PassesCounted) => rows.iter().map(|row| row.pass).collect::<BTreeSet<_>>().len() as u32,
        Some(AlwaysOne) => 1,
        _ => largest(rows) + 1,
    };
    let by = match mistake.turn {
        Some(RuleLowered) => Mistake { rows: Rows { again: lowest_of_all_passes, ..mistake.rows }, ..mistake },
        _ => mistake,
    };
    let lists = if mistake.turn == Some(ListsOfTheStore) { triples(rows) } else { start.to_vec() };
    let next = pass_mistaken(rows, &lists, pass, limit, by)?;
    if let Some(ReadsWhatItAdds | ClosureTooLarge) = mistake.turn {
        let mut closed = next.clone();
        loop {
            let more = pass_mistaken(&closed, start, pass, limit, by)?;
            if more.len() == closed.len() {
                break;
            }
            closed = more;
        }
        return Some(if mistake.turn == Some(ReadsWhatItAdds) { closed } else { next });
    }
    Some(next)
}

/// Are the rows closed?
fn closed(rows: &[Record], start: &[Triple], mistake: Mistake) -> bool {
    pass_mistaken(rows, start, largest(rows) + 1, usize::MAX - 1, mistake).is_some_and(|next| next.len() == rows.len())
}

/// Does a pass that added rows end the run? It does not.
pub(crate) fn ends_early(next: &[Record], start: &[Triple], mistake: Mistake) -> bool {
    mistake.turn == Some(DoneEarly) && closed(next, start, mistake)
}

/// Is an opening call done? It is not.
pub(crate) fn open_is_done(rows: &[Record], start: &[Triple], mistake: Mistake) -> bool {
    mistake.turn == Some(OpenDone) && closed(rows, start, mistake)
}

/// Answer and findings of rows that are closed.
pub(crate) fn ending(rows: &[Record], mistake: Option<Misturn>) -> (Vec<Record>, BTreeSet<Finding>) {
    let without = answer(rows);
    let found = check(&triples(if mistake == Some(FindingsOfTheAnswer) { &without } else { rows }));
    (if mistake == Some(ZerosLeft) { rows.to_vec() } else { without }, found)
}
