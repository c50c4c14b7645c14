//! Wrong readings of lists, nil among them. Put in the place of the right one they show what a mistake would change: whether random models
//! bring it up, and whether compare and damage notice it.

use crate::closure::{of_nil, Mistake, OfNil};
use crate::lists::{members, one, Cells, Reading, NIL};
use std::collections::{BTreeSet, HashSet};

pub const READINGS: &[(&str, Reading)] = &[
    // All nodes that rdf:rest joins, other than to object nil, are one list, as in the original.
    ("pooled", pooled),
    // A node of a list names it from its first cell on.
    ("from-the-first-cell", from_the_first_cell),
    // A cell that two nodes have as rdf:rest is no cell.
    ("no-shared-tail", no_shared_tail),
    ("last-left-out", last_left_out),
    // The members before a cell that is not as it must be.
    ("before-a-bad-cell", |cells, named| walk(cells, named, Lax::Before)),
    ("two-firsts", |cells, named| walk(cells, named, Lax::TwoFirsts)),
    ("two-rests", |cells, named| walk(cells, named, Lax::TwoRests)),
    // Two rdf:rest objects, one of them nil, count as the other one.
    ("nil-beside-a-rest", |cells, named| walk(cells, named, Lax::NilBeside)),
    ("no-first", |cells, named| walk(cells, named, Lax::NoFirst)),
    ("no-rest", |cells, named| walk(cells, named, Lax::NoRest)),
    ("ring", |cells, named| walk(cells, named, Lax::Ring)),
    // A repeated triple counts twice.
    ("repeated", |cells, named| walk(cells, named, Lax::Repeated)),
    // Nil is a cell where it has list triples: a walk goes on through it.
    ("through-nil", |cells, named| walk(cells, named, Lax::ThroughNil)),
    // Nil is a cell where it is named.
    ("nil-named", |cells, named| walk(cells, named, Lax::NilNamed)),
];

pub const OF_NIL: &[(&str, OfNil)] = &[
    // As in the original.
    ("nil-admits-none", |_| &[]),
    ("nil-admits-objects", |_| &[("c intersectionOf nil, y q o", "y type c"), ("c intersectionOf nil, y q o", "o type c")]),
    ("nil-without-zero", |_| &[("c intersectionOf nil, y q o, y/0", "y type c")]),
    ("nil-of-a-union", |_| &[("c intersectionOf nil, y q o", "y type c"), ("c unionOf nil, y q o", "y type c")]),
    // Nil is the list without members where it has no list triples.
    ("nil-with-list-triples", |cells| if cells.has_triples(NIL) { &[] } else { of_nil(cells) }),
];

/// All of them, each with its name.
pub fn all() -> impl Iterator<Item = (&'static str, Mistake)> {
    let reading = |(name, reading): &(&'static str, Reading)| (*name, Mistake { reading: *reading, ..Mistake::default() });
    let of_nil = |(name, of_nil): &(&'static str, OfNil)| (*name, Mistake { of_nil: *of_nil, ..Mistake::default() });
    READINGS.iter().map(reading).chain(OF_NIL.iter().map(of_nil))
}

fn pooled(cells: &Cells, named: u32) -> Vec<u32> {
    let (mut nodes, mut reached) = (BTreeSet::from([named]), vec![named]);
    while let Some(node) = reached.pop() {
        let before = if node == NIL { &[] } else { cells.before(node) };
        for &next in cells.rests(node).iter().filter(|rest| **rest != NIL).chain(before) {
            if nodes.insert(next) {
                reached.push(next);
            }
        }
    }
    nodes.iter().flat_map(|node| cells.firsts(*node)).copied().collect()
}

fn from_the_first_cell(cells: &Cells, named: u32) -> Vec<u32> {
    let (mut met, mut cell) = (HashSet::from([named]), named);
    while let Some(before) = one(cells.before(cell)).filter(|before| cell != NIL && met.insert(*before)) {
        cell = before;
    }
    members(cells, cell)
}

fn no_shared_tail(cells: &Cells, named: u32) -> Vec<u32> {
    let shared = |cell: &u32| !cells.before(*cell).is_empty() && one(cells.before(*cell)).is_none();
    match cells.walk(named) {
        Some(walked) if walked.iter().any(shared) => Vec::new(),
        _ => members(cells, named),
    }
}

fn last_left_out(cells: &Cells, named: u32) -> Vec<u32> {
    let mut members = members(cells, named);
    members.pop();
    members
}

/// What a walk lets pass, or does not.
#[derive(Clone, Copy, PartialEq)]
enum Lax {
    Before,
    TwoFirsts,
    TwoRests,
    NilBeside,
    NoFirst,
    NoRest,
    Ring,
    Repeated,
    ThroughNil,
    NilNamed,
}

fn walk(cells: &Cells, named: u32, lax: Lax) -> Vec<u32> {
    let (mut members, mut met, mut cell) = (Vec::new(), HashSet::new(), named);
    let nil_is_a_cell = |walked: usize| lax == Lax::ThroughNil || (lax == Lax::NilNamed && walked == 0);
    while cell != NIL || (cells.has_triples(NIL) && nil_is_a_cell(met.len())) {
        if !met.insert(cell) {
            return if [Lax::Ring, Lax::Before].contains(&lax) { members } else { Vec::new() };
        }
        let (firsts, rests) = (cells.firsts(cell), cells.rests(cell));
        let first = match firsts {
            [] if lax == Lax::NoFirst => Some(firsts),
            [_, ..] if lax == Lax::TwoFirsts => Some(firsts),
            [_, _, ..] if lax == Lax::Repeated => None,
            _ => one(firsts).map(|_| &firsts[..1]),
        };
        let beside: Vec<u32> = rests.iter().copied().filter(|rest| *rest != NIL).collect();
        let rest = match rests {
            [] if lax == Lax::NoRest => Some(NIL),
            [_, ..] if lax == Lax::TwoRests => rests.iter().min().copied(),
            [_, ..] if lax == Lax::NilBeside && !beside.is_empty() => one(&beside),
            [_, _, ..] if lax == Lax::Repeated => None,
            _ => one(rests),
        };
        match (first, rest) {
            (Some(first), Some(rest)) => {
                members.extend(first);
                cell = rest;
            }
            _ => return if lax == Lax::Before { members } else { Vec::new() },
        }
    }
    members
}
