//! Closing in turns: an opening call, then one pass to a call.

use crate::{port, Buffers, Closed, Dictionary, Record, Refusal, Triple};

/// What an opening call or a pass tells.
#[derive(Clone, Copy, Debug, PartialEq, Eq)]
pub struct Step {
    /// How many rows the store has: until the run is done, triples with an id 0 among them.
    pub triples: u32,
    /// The pass added nothing, so that store and findings are a whole run's. An opening call is never done.
    pub done: bool,
    /// The findings of each check, all 0 until the run is done.
    pub counts: [u32; 5],
}

impl Step {
    pub(crate) fn of((refusal, triples, done, counts): port::Turn) -> Result<Step, Refusal> {
        assert!(done < 2, "done is {done}");
        Refusal::check(refusal).map(|()| Step { triples, done: done == 1, counts })
    }
}

/// A run that is opened, and closed by passes as an iterator: each item is what one pass told. It ends after the pass that says that the
/// run is done, and after a refusal.
///
/// A pass adds all that the rules give from the triples that were there when it began. The run is done at the first pass that adds none,
/// within as many passes as the closure has triples more than the start, and one. Its end is a whole run's: the same rows, findings, counts
/// or refusal. Refusal 8 comes with the first call whose triples do not fit, 9 with the last pass; after either the store is zero.
///
/// ```ignore
/// let mut turns = dictionary.turns(&load, 1_000, 100)?;
/// while let Some(step) = turns.next() {
///     println!("{} triples", step?.triples);
/// }
/// let closed = turns.closed();
/// ```
#[derive(Debug)]
pub struct Turns<'a> {
    dictionary: &'a mut Dictionary,
    buffers: Buffers,
    last: Result<Step, Refusal>,
}

impl<'a> Turns<'a> {
    /// The starting triples are in a store of this many rows; there is room for this many findings.
    pub fn open(dictionary: &'a mut Dictionary, load: &[Triple], rows: usize, findings: usize) -> Result<Turns<'a>, Refusal> {
        // The opening call puts up to three terms, which the passes count among those held, and three more.
        let work = dictionary.work_length() + 2 * 3;
        let mut buffers = Buffers::new(load, rows, findings, work);
        let last = dictionary.open_in(&mut buffers)?;
        Ok(Turns { dictionary, buffers, last: Ok(last) })
    }

    /// What the last call told.
    pub fn told(&self) -> Result<Step, Refusal> {
        self.last
    }

    /// The rows of the store as they are now; none after a refusal.
    pub fn records(&self) -> Vec<Record> {
        self.last.map_or(Vec::new(), |step| self.buffers.records(step.triples))
    }

    /// Answer, findings and counts, once the run is done.
    pub fn closed(&self) -> Option<Closed> {
        self.last.ok().filter(|step| step.done).map(|step| self.buffers.closed(step.triples, step.counts))
    }
}

impl Iterator for Turns<'_> {
    type Item = Result<Step, Refusal>;

    fn next(&mut self) -> Option<Result<Step, Refusal>> {
        let over = self.last.map_or(true, |step| step.done);
        if over {
            return None;
        }
        self.last = self.dictionary.pass_in(&mut self.buffers);
        Some(self.last)
    }
}
