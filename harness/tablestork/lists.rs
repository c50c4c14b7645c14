//! The lists of a closure, docs/REFERENCE.md, 5: walked from the node that names one, over the list triples of the load. These are the rows
//! of pass 0 with predicate rdf:first or rdf:rest.

use crate::{Record, Triple};
use std::cell::RefCell;
use std::collections::HashMap;
use std::rc::Rc;

const FIRST: u32 = 2;
const REST: u32 = 3;
const NIL: u32 = 4;

/// A cell of a list.
#[derive(Clone, Copy, Debug, PartialEq, Eq)]
pub struct Cell {
    pub node: u32,
    pub member: u32,
    pub rest: u32,
}

impl Cell {
    /// The two triples that say it.
    pub fn triples(&self) -> [Triple; 2] {
        [[self.node, FIRST, self.member], [self.node, REST, self.rest]]
    }
}

/// By node the objects of rdf:first and of rdf:rest, and the lists that were walked so far.
pub(crate) struct Lists {
    objects: HashMap<u32, [Vec<u32>; 2]>,
    walked: RefCell<HashMap<u32, Rc<[Cell]>>>,
}

impl Lists {
    pub fn new(records: &[Record]) -> Lists {
        let mut objects: HashMap<u32, [Vec<u32>; 2]> = HashMap::new();
        for Record { triple: [s, p, o], .. } in records.iter().filter(|record| record.pass == 0) {
            if [FIRST, REST].contains(p) {
                objects.entry(*s).or_default()[(*p - FIRST) as usize].push(*o);
            }
        }
        Lists { objects, walked: RefCell::default() }
    }

    /// The cells, in order, of the list that a node names; none where it names no list, or is nil.
    pub fn cells(&self, node: u32) -> Rc<[Cell]> {
        let walk = || self.walk(node).unwrap_or_default().into();
        self.walked.borrow_mut().entry(node).or_insert_with(walk).clone()
    }

    /// Each cell has one rdf:first and one rdf:rest, and the last rdf:rest is nil. A walk that comes back to a cell never ends.
    fn walk(&self, named: u32) -> Option<Vec<Cell>> {
        let (mut cells, mut node) = (Vec::new(), named);
        while node != NIL {
            let [firsts, rests] = self.objects.get(&node)?;
            let ([member], [rest]) = (&firsts[..], &rests[..]) else {
                return None;
            };
            cells.push(Cell { node, member: *member, rest: *rest });
            if cells.len() > self.objects.len() {
                return None;
            }
            node = *rest;
        }
        Some(cells)
    }
}
