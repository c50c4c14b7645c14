//! Lists, docs/REFERENCE.md, 5: walked from the node that is named, over the list triples of the start. A proper list has one rdf:first
//! and one rdf:rest for each cell, a repeated triple counting once, no cell twice, and ends in nil; anything else has no members.

use crate::closure::Mixed;
use crate::Triple;
use std::collections::{HashMap, HashSet};

const FIRST: u32 = 2;
const REST: u32 = 3;
pub const NIL: u32 = 4;

/// List triples: by subject the objects of rdf:first and of rdf:rest, and by object the subjects of rdf:rest, as often as they are there.
#[derive(Default)]
pub struct Cells {
    firsts: HashMap<u32, Vec<u32>, Mixed>,
    rests: HashMap<u32, Vec<u32>, Mixed>,
    before: HashMap<u32, Vec<u32>, Mixed>,
}

impl Cells {
    pub fn new(triples: &[Triple]) -> Cells {
        let mut cells = Cells::default();
        for &[s, p, o] in triples {
            match p {
                FIRST => cells.firsts.entry(s).or_default().push(o),
                REST => {
                    cells.rests.entry(s).or_default().push(o);
                    cells.before.entry(o).or_default().push(s);
                }
                _ => {}
            }
        }
        cells
    }

    pub fn firsts(&self, cell: u32) -> &[u32] {
        self.firsts.get(&cell).map_or(&[], |objects| objects)
    }

    pub fn rests(&self, cell: u32) -> &[u32] {
        self.rests.get(&cell).map_or(&[], |objects| objects)
    }

    /// The nodes whose rdf:rest this is.
    pub fn before(&self, node: u32) -> &[u32] {
        self.before.get(&node).map_or(&[], |subjects| subjects)
    }

    /// Is the node the subject of a list triple?
    pub fn has_triples(&self, node: u32) -> bool {
        !self.firsts(node).is_empty() || !self.rests(node).is_empty()
    }

    /// The cells, in order, of the proper list that a node names; nil names the one without cells.
    pub fn walk(&self, named: u32) -> Option<Vec<u32>> {
        let (mut walked, mut met, mut cell) = (Vec::new(), HashSet::<u32, Mixed>::default(), named);
        while cell != NIL {
            one(self.firsts(cell))?;
            if !met.insert(cell) {
                return None;
            }
            walked.push(cell);
            cell = one(self.rests(cell))?;
        }
        Some(walked)
    }

    /// Has the list that a node names the same members for the original, which joins the nodes of all rdf:rest triples but nil as an
    /// object? A proper list has, where it is named at its first cell and its cells are in no rdf:rest triple but its own; and what is no
    /// list for either: a node without list triples, and nil without any of its own.
    pub fn stands_alone(&self, named: u32) -> bool {
        let before = self.before(named);
        if !self.has_triples(named) && (named == NIL || before.is_empty()) {
            return true;
        }
        let only_before = |pair: &[u32]| self.before(pair[1]).iter().all(|cell| *cell == pair[0]);
        let proper = || self.walk(named).is_some_and(|cells| cells.windows(2).all(only_before));
        named != NIL && before.is_empty() && proper()
    }
}

/// The one object, a repeated triple counting once.
pub fn one(objects: &[u32]) -> Option<u32> {
    let (object, others) = objects.split_first()?;
    others.iter().all(|other| other == object).then_some(*object)
}

/// How the members of the list that a node names are read. A node without members names no list.
pub type Reading = fn(&Cells, u32) -> Vec<u32>;

/// In order, and as often as they are there.
pub fn members(cells: &Cells, named: u32) -> Vec<u32> {
    cells.walk(named).unwrap_or_default().iter().map(|cell| cells.firsts(*cell)[0]).collect()
}

/// The lists that were named so far. A list is read when it is named: of a long one most nodes never are.
pub struct Lists {
    cells: Cells,
    reading: Reading,
    named: HashMap<u32, Vec<u32>, Mixed>,
    with_member: HashMap<u32, Vec<u32>, Mixed>,
}

impl Lists {
    pub fn new(cells: Cells, reading: Reading) -> Lists {
        Lists { cells, reading, named: HashMap::default(), with_member: HashMap::default() }
    }

    /// Names a node; answers its list's members.
    pub fn name(&mut self, node: u32) -> &[u32] {
        if !self.named.contains_key(&node) {
            let members = (self.reading)(&self.cells, node);
            for member in members.iter().collect::<HashSet<_, Mixed>>() {
                self.with_member.entry(*member).or_default().push(node);
            }
            self.named.insert(node, members);
        }
        self.members(node)
    }

    /// The members of the list of a named node.
    pub fn members(&self, node: u32) -> &[u32] {
        self.named.get(&node).map_or(&[], |members| members)
    }

    /// The named nodes whose list has this member.
    pub fn with_member(&self, member: u32) -> &[u32] {
        self.with_member.get(&member).map_or(&[], |nodes| nodes)
    }
}
