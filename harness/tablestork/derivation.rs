//! Why triples are in a closure: for each triple that is asked for the premises from which its rule gives it, theirs, and so on down to
//! starting triples.
//!
//! All is read from the rows of a store. A row of pass k + 1 and rule n has premises of pass at most k from which rule n gives it, and the
//! lists that rules 21 to 23 read are those of the rows of pass 0. The rows that a run leaves have no id 0: where a premise has one, the
//! rows have to be those of `Dictionary::closure`.

use crate::lists::{Cell, Lists};
use crate::rules::{forms, matched, value, Bound, Form, Guard, PREMISES, UNBOUND};
use crate::{Record, Triple};
use std::collections::{BTreeMap, HashSet};

/// A row, and why it is there.
#[derive(Clone, Debug)]
pub struct Step {
    pub record: Record,
    /// How its rule gives it; nothing for a starting triple.
    pub form: Option<&'static Form>,
    /// Where its premises are among the steps, all of them before this one; in the order of the rule.
    pub premises: Vec<usize>,
    /// The node that names the list, where the rule reads one.
    pub list: Option<u32>,
}

/// Steps in the order of their passes.
#[derive(Clone, Debug, Default)]
pub struct Derivation {
    pub steps: Vec<Step>,
    /// The cells, in order, of the lists that the steps read, by the node that names the list.
    pub lists: BTreeMap<u32, Vec<Cell>>,
}

/// Derives the triples from the rows of a store, ascending. Refused is a triple that is not among the rows, or that its rule does not give
/// from rows of smaller passes: rows that a run leaves lack the premises with an id 0.
pub fn derive(records: &[Record], wanted: &[Triple]) -> Result<Derivation, Triple> {
    let rows = Rows::new(records);
    let mut found: Vec<Option<Found>> = vec![None; records.len()];
    let mut open = Vec::new();
    for triple in wanted {
        open.push(rows.place(triple).ok_or(*triple)?);
    }
    while let Some(row) = open.pop() {
        if found[row].is_none() {
            let why = rows.why(row).ok_or(records[row].triple)?;
            open.extend(&why.premises);
            found[row] = Some(why);
        }
    }
    Ok(in_order(&rows, found))
}

/// The steps of the rows that were found, each behind its premises, which have smaller passes.
fn in_order(rows: &Rows, found: Vec<Option<Found>>) -> Derivation {
    let mut order: Vec<(usize, Found)> = found.into_iter().enumerate().filter_map(|(row, why)| Some((row, why?))).collect();
    order.sort_by_key(|(row, _)| rows.records[*row].pass);
    let mut place = vec![0; rows.records.len()];
    order.iter().enumerate().for_each(|(at, (row, _))| place[*row] = at);
    let mut derivation = Derivation::default();
    for (row, Found { form, premises, list }) in order {
        if let Some(node) = list {
            derivation.lists.entry(node).or_insert_with(|| rows.lists.cells(node).to_vec());
        }
        let premises = premises.iter().map(|row| place[*row]).collect();
        derivation.steps.push(Step { record: rows.records[row], form, premises, list });
    }
    derivation
}

/// Holds each step of a derivation to the rows of the store: it is one of them, its premises are steps before it with smaller passes, and it
/// is a starting triple without premises or an instance of its rule. Refused is the first that is not. Nothing is searched for here, and
/// nothing of what `derive` found is taken on trust.
pub fn check(records: &[Record], derivation: &Derivation) -> Result<(), Triple> {
    let lists = Lists::new(records);
    for (at, step) in derivation.steps.iter().enumerate() {
        let Step { record, form, premises, list } = step;
        let held = records.binary_search_by_key(&record.triple, |row| row.triple).is_ok_and(|row| records[row] == *record);
        let before = premises.iter().all(|k| *k < at && derivation.steps[*k].record.pass < record.pass);
        let listed = list.is_none_or(|node| derivation.lists.get(&node).is_some_and(|cells| *cells == *lists.cells(node)));
        let founded = || match form {
            None => (record.pass, record.rule) == (0, 0) && premises.is_empty() && list.is_none(),
            Some(form) => {
                let triples: Vec<Triple> = premises.iter().map(|k| derivation.steps[*k].record.triple).collect();
                form.number == record.rule && instance(form, &triples, &record.triple, &lists) == Some(*list)
            }
        };
        if !(held && before && listed && founded()) {
            return Err(record.triple);
        }
    }
    Ok(())
}

/// Where the rule gives the conclusion from the premises, in their order: the node whose list it reads, if any.
fn instance(form: &Form, premises: &[Triple], conclusion: &Triple, lists: &Lists) -> Option<Option<u32>> {
    let fixed = form.fixed();
    let (first, rest) = premises.split_at_checked(fixed.len())?;
    let bound = matched(&form.conclusion, conclusion, &UNBOUND)?;
    let bound = fixed.iter().zip(first).try_fold(bound, |bound, (pattern, triple)| matched(pattern, triple, &bound))?;
    let (list, of_members) = guarded(form, &bound, lists)?;
    (of_members == rest).then_some(list)
}

/// Where the guard holds: the node whose list the rule reads, if any, and the premises for its members.
fn guarded(form: &Form, bound: &Bound, lists: &Lists) -> Option<(Option<u32>, Vec<Triple>)> {
    let known = |slot| value(slot, bound);
    match form.guard {
        Guard::Nothing => Some((None, Vec::new())),
        Guard::Differ(a, b) => (known(a)? != known(b)?).then(|| (None, Vec::new())),
        Guard::SomeMember(m, l) => {
            let (node, member) = (known(l)?, known(m)?);
            lists.cells(node).iter().any(|cell| cell.member == member).then(|| (Some(node), Vec::new()))
        }
        Guard::EveryMember(m, l) => {
            let (node, mut met) = (known(l)?, HashSet::new());
            let cells = lists.cells(node);
            let members = cells.iter().map(|cell| cell.member).filter(|member| met.insert(*member));
            let triples: Vec<Triple> = members.map(|member| form.premise_of(m, member, bound)).collect::<Option<_>>()?;
            (!triples.is_empty()).then_some((Some(node), triples))
        }
    }
}

/// Why a row is there, its premises by their rows.
#[derive(Clone)]
struct Found {
    form: Option<&'static Form>,
    premises: Vec<usize>,
    list: Option<u32>,
}

/// The rows of a store, ascending, and the same by predicate, object and row.
struct Rows<'a> {
    records: &'a [Record],
    by_object: Vec<[u32; 3]>,
    lists: Lists,
}

/// Rows that may match a pattern: places in the one order or in the other.
enum Candidates {
    BySubject(std::ops::Range<usize>),
    ByObject(std::ops::Range<usize>),
}

impl Rows<'_> {
    fn new(records: &[Record]) -> Rows<'_> {
        let key = |(row, record): (usize, &Record)| [record.triple[1], record.triple[2], row as u32];
        let mut by_object: Vec<[u32; 3]> = records.iter().enumerate().map(key).collect();
        by_object.sort_unstable();
        Rows { records, by_object, lists: Lists::new(records) }
    }

    fn place(&self, triple: &Triple) -> Option<usize> {
        self.records.binary_search_by_key(triple, |record| record.triple).ok()
    }

    /// Nothing where the row's rule does not give its triple from rows of smaller passes.
    fn why(&self, row: usize) -> Option<Found> {
        let Record { triple, pass, rule } = self.records[row];
        if (pass, rule) == (0, 0) {
            return Some(Found { form: None, premises: Vec::new(), list: None });
        }
        forms(rule).find_map(|form| {
            let bound = matched(&form.conclusion, &triple, &UNBOUND)?;
            let mut join = Join { rows: self, form, below: pass, chosen: [None; PREMISES] };
            let (list, of_members) = join.complete(&bound)?;
            let premises = join.chosen.into_iter().flatten().chain(of_members).collect();
            Some(Found { form: Some(form), premises, list })
        })
    }

    /// Those that agree in the known places of a pattern, or in some of them.
    fn candidates(&self, known: [Option<u32>; 3]) -> Candidates {
        let by_subject = |prefix: &[u32]| {
            let from = self.records.partition_point(|record| record.triple[..prefix.len()] < *prefix);
            let behind = self.records[from..].partition_point(|record| record.triple[..prefix.len()] == *prefix);
            Candidates::BySubject(from..from + behind)
        };
        let by_object = |prefix: &[u32]| {
            let from = self.by_object.partition_point(|key| key[..prefix.len()] < *prefix);
            let behind = self.by_object[from..].partition_point(|key| key[..prefix.len()] == *prefix);
            Candidates::ByObject(from..from + behind)
        };
        match known {
            [Some(s), Some(p), Some(o)] => by_subject(&[s, p, o]),
            [Some(s), Some(p), None] => by_subject(&[s, p]),
            [Some(s), None, _] => by_subject(&[s]),
            [None, Some(p), Some(o)] => by_object(&[p, o]),
            [None, Some(p), None] => by_object(&[p]),
            [None, None, _] => by_subject(&[]),
        }
    }
}

impl Candidates {
    fn len(&self) -> usize {
        match self {
            Candidates::BySubject(range) | Candidates::ByObject(range) => range.len(),
        }
    }
}

/// The search for premises in rows of passes below one: which row is chosen for each premise so far.
struct Join<'a> {
    rows: &'a Rows<'a>,
    form: &'static Form,
    below: u32,
    chosen: [Option<usize>; PREMISES],
}

impl Join<'_> {
    /// Chooses rows for the premises that are left, the one with the fewest candidates first, until the guard holds. Gives the node whose
    /// list the rule reads, if any, and the rows of the premises for its members.
    fn complete(&mut self, bound: &Bound) -> Option<(Option<u32>, Vec<usize>)> {
        let open = (0..self.form.fixed().len()).filter(|k| self.chosen[*k].is_none());
        let known = |k: usize| self.form.premises[k].map(|slot| value(slot, bound));
        let Some((k, candidates)) = open.map(|k| (k, self.rows.candidates(known(k)))).min_by_key(|(_, c)| c.len()) else {
            return self.of_members(bound);
        };
        for at in 0..candidates.len() {
            let row = match &candidates {
                Candidates::BySubject(range) => range.start + at,
                Candidates::ByObject(range) => self.rows.by_object[range.start + at][2] as usize,
            };
            let record = &self.rows.records[row];
            if record.pass < self.below {
                if let Some(now) = matched(&self.form.premises[k], &record.triple, bound) {
                    self.chosen[k] = Some(row);
                    if let Some(found) = self.complete(&now) {
                        return Some(found);
                    }
                }
            }
        }
        self.chosen[k] = None;
        None
    }

    /// All premises but those for the members of a list are chosen.
    fn of_members(&self, bound: &Bound) -> Option<(Option<u32>, Vec<usize>)> {
        let (list, triples) = guarded(self.form, bound, &self.rows.lists)?;
        let earlier = |row: &usize| self.rows.records[*row].pass < self.below;
        let rows: Option<Vec<usize>> = triples.iter().map(|triple| self.rows.place(triple).filter(earlier)).collect();
        Some((list, rows?))
    }
}
