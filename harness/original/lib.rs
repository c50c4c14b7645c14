//! The original reasoner (gtfierro/reasonable, commit fecee2b6d3) as a library.
//!
//! The modules are the four unchanged sources of docs/src, with probe.rs behind the last line of reasoner.rs; build.sh puts
//! them beside this file. What is added here only hands terms and triples in and reads the outcome.

#![allow(dead_code, unused_imports, unused_variables)]

#[macro_use]
mod common;
mod disjoint_sets;
mod error;
mod index;
mod reasoner;

use common::KeyedTriple;
use oxrdf::{BlankNode, Literal, NamedNode, NamedOrBlankNode, Term, Triple};
use reasoner::Reasoner;
use std::collections::{BTreeSet, HashMap};
use std::time::{Duration, Instant};

/// The five rules whose `errors` count, in the order of the checks; check k is rule k - 1 here.
pub const CHECKS: [&str; 5] = ["cax-dw", "prp-irp", "prp-asyp", "prp-pdw", "cls-nothing2"];

/// A fresh `Reasoner` with its dictionary.
pub struct Original {
    reasoner: Reasoner,
    terms: u32,
}

/// What is compared: the keyed `input` after `reason`, the messages of the five rules as a set of (check, text), and how
/// many triples the closure has, those with an id 0 counted.
pub struct Closed {
    pub triples: Vec<[u32; 3]>,
    pub messages: BTreeSet<(u32, String)>,
    pub closure: usize,
    pub took: Duration,
    pub original: Original,
}

/// Puts `terms` (kind and bytes) after those of `Reasoner::new`, loads, reasons.
pub fn close<B: AsRef<[u8]>>(terms: &[(u32, B)], load: &[[u32; 3]]) -> Closed {
    let mut original = Original::new();
    for (kind, bytes) in terms {
        original.put(*kind, bytes.as_ref());
    }
    original.load(load);
    let took = original.reason();
    Closed {
        triples: original.answer(),
        messages: original.messages(),
        closure: original.closure().len(),
        took,
        original,
    }
}

impl Original {
    #[allow(clippy::new_without_default)]
    pub fn new() -> Self {
        let reasoner = Reasoner::new();
        let mut terms = 0;
        while reasoner.probe_get(terms).is_some() {
            terms += 1;
        }
        Original { reasoner, terms }
    }

    /// How many terms it held before `reason`, `urn:_` counted.
    pub fn terms(&self) -> u32 {
        self.terms
    }

    /// Puts a named node (1), blank node (2) or plain literal (3).
    pub fn put(&mut self, kind: u32, bytes: &[u8]) -> u32 {
        let text = std::str::from_utf8(bytes).expect("a term of the original is UTF-8");
        self.put_term(match kind {
            1 => Term::NamedNode(NamedNode::new_unchecked(text)),
            2 => Term::BlankNode(BlankNode::new_unchecked(text)),
            3 => Term::Literal(Literal::new_simple_literal(text)),
            _ => panic!("no kind of term: {kind}"),
        })
    }

    pub fn put_term(&mut self, term: Term) -> u32 {
        let id = self.reasoner.probe_put(term);
        if id == self.terms {
            self.terms += 1;
        }
        id
    }

    pub fn get(&self, id: u32) -> Option<Term> {
        self.reasoner.probe_get(id)
    }

    /// By `load_triples` where `oxrdf::Triple` can carry every triple, else by ids (see `load_keyed`).
    pub fn load(&mut self, load: &[[u32; 3]]) {
        let as_terms: Option<Vec<Triple>> = load.iter().map(|t| self.triple(*t)).collect();
        match as_terms {
            Some(triples) => self.reasoner.load_triples(triples),
            None => self.load_keyed(load),
        }
    }

    /// By ids: also a literal as subject, or a predicate that is no named node.
    pub fn load_keyed(&mut self, load: &[[u32; 3]]) {
        self.reasoner.probe_load_keyed(load.iter().map(|&[s, p, o]| (s, (p, o))).collect());
    }

    /// The triple as `load_triples` takes it, where it can.
    pub fn triple(&self, [s, p, o]: [u32; 3]) -> Option<Triple> {
        let get = |id| self.get(id).expect("an id of the load is known");
        let subject = match get(s) {
            Term::NamedNode(n) => NamedOrBlankNode::NamedNode(n),
            Term::BlankNode(b) => NamedOrBlankNode::BlankNode(b),
            Term::Literal(_) => return None,
        };
        let Term::NamedNode(predicate) = get(p) else { return None };
        Some(Triple::new(subject, predicate, get(o)))
    }

    /// The time of `reason` alone.
    pub fn reason(&mut self) -> Duration {
        let clock = Instant::now();
        self.reasoner.reason();
        clock.elapsed()
    }

    /// The keyed `input`: after `reason`, the answer, ascending.
    pub fn answer(&self) -> Vec<[u32; 3]> {
        unkeyed(self.reasoner.probe_input())
    }

    /// All of the closure, triples with an id 0 too, ascending.
    pub fn closure(&self) -> Vec<[u32; 3]> {
        unkeyed(&self.reasoner.probe_closure())
    }

    /// The messages of the five rules, each with its check's number.
    pub fn messages(&self) -> BTreeSet<(u32, String)> {
        let numbered = |rule: &str| CHECKS.iter().position(|c| *c == rule).map(|k| k as u32 + 1);
        self.reasoner
            .errors()
            .iter()
            .filter_map(|e| Some((numbered(e.rule())?, e.message().to_string())))
            .collect()
    }

    /// The message text that reasoner.rs would give a record.
    pub fn message(&self, record: [u32; 5]) -> (u32, String) {
        let [check, w, x, y, z] = record;
        let t = |id: u32| self.get(id).map_or("<unknown>".to_string(), |t| t.to_string());
        let text = match check {
            1 => format!("inst {} is both {} and {} (disjoint classes)", t(w), t(x), t(y)),
            2 => format!("property {} of {} is irreflexive", t(w), t(x)),
            3 => format!("property {} of {} and {} is asymmetric", t(w), t(x), t(y)),
            4 => format!(
                "property {} is disjoint with {} for pair ({} {} {})",
                t(y),
                t(z),
                t(w),
                t(y),
                t(x)
            ),
            5 => format!("instance {} is owl:Nothing (unsatisfiable)", t(w)),
            _ => panic!("no check {check}"),
        };
        (check, text)
    }

    /// The records that have these messages, read back from the texts.
    pub fn findings(&self) -> BTreeSet<[u32; 5]> {
        let mut ids = HashMap::new();
        let mut id = 0;
        while let Some(t) = self.get(id) {
            ids.insert(t.to_string(), id);
            id += 1;
        }
        self.messages().iter().map(|(check, text)| finding(*check, text, &ids)).collect()
    }
}

fn unkeyed(triples: &[KeyedTriple]) -> Vec<[u32; 3]> {
    let list: Vec<[u32; 3]> = triples.iter().map(|&(s, (p, o))| [s, p, o]).collect();
    assert!(list.windows(2).all(|w| w[0] < w[1]), "not strictly ascending");
    list
}

/// The record of a message; its parts are looked up among the held terms.
fn finding(check: u32, text: &str, ids: &HashMap<String, u32>) -> [u32; 5] {
    let pieces: &[&str] = match check {
        1 => &["inst ", " is both ", " and ", " (disjoint classes)"],
        2 => &["property ", " of ", " is irreflexive"],
        3 => &["property ", " of ", " and ", " is asymmetric"],
        4 => &["property ", " is disjoint with ", " for pair (", " ", " ", ")"],
        _ => &["instance ", " is owl:Nothing (unsatisfiable)"],
    };
    let mut found = Vec::new();
    read_terms(text, pieces, ids, &mut found, &mut Vec::new());
    let records: BTreeSet<[u32; 5]> = found
        .iter()
        .filter_map(|t| match (check, &t[..]) {
            (1, &[i, c, d]) => Some([1, i, c, d, 0]),
            (2, &[p, s]) => Some([2, p, s, 0, 0]),
            (3, &[p, a, b]) => Some([3, p, a, b, 0]),
            (4, &[p, q, a, p2, b]) if p == p2 => Some([4, a, b, p, q]),
            (5, &[i]) => Some([5, i, 0, 0, 0]),
            _ => None,
        })
        .collect();
    assert!(records.len() == 1, "message read in {} ways: {text}", records.len());
    *records.first().expect("one record")
}

/// All ways to read `text` as piece, term, piece, ..., term, piece.
fn read_terms(
    text: &str,
    pieces: &[&str],
    ids: &HashMap<String, u32>,
    found: &mut Vec<Vec<u32>>,
    so_far: &mut Vec<u32>,
) {
    let Some(rest) = text.strip_prefix(pieces[0]) else { return };
    if pieces.len() == 1 {
        if rest.is_empty() {
            found.push(so_far.clone());
        }
        return;
    }
    for end in 1..=rest.len() {
        if !rest.is_char_boundary(end) || !rest[end..].starts_with(pieces[1]) {
            continue;
        }
        if let Some(&id) = ids.get(&rest[..end]) {
            so_far.push(id);
            read_terms(&rest[end..], &pieces[1..], ids, found, so_far);
            so_far.pop();
        }
    }
}
