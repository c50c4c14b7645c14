//! A read's way through the lines of a file, docs/REFERENCE.md, 3.5.

use crate::dictionary::{bytes_of, Term, LITERAL};
use crate::misreadings::{self, Misreading};
use crate::ntriples::{self, Line};
use crate::*;
use std::collections::HashMap;

/// What the lines so far have brought, and the room for more.
pub struct Reading {
    pub terms: Vec<Term>,
    pub triples: Vec<Triple>,
    ids: HashMap<Term, u32>,
    used: usize,
    entries: usize,
    bytes: usize,
    places: usize,
    mistake: Option<Misreading>,
}

impl Reading {
    /// Before the first line: the terms held, how many entries and bytes table and arena have, how many triples the load.
    pub fn new(terms: Vec<Term>, entries: usize, bytes: usize, places: usize, mistake: Option<Misreading>) -> Reading {
        let ids = terms.iter().cloned().zip(0..).collect();
        Reading { used: bytes_of(&terms), terms, triples: Vec::new(), ids, entries, bytes, places, mistake }
    }

    fn errs(&self, mistake: Misreading) -> bool {
        self.mistake == Some(mistake)
    }

    /// Takes the file in up to the first line that fails.
    pub fn file(&mut self, file: &[u8]) -> Result<(), u32> {
        let lines = misreadings::lines(file, self.mistake);
        if self.errs(Misreading::LongLoad) && self.places > LOAD_LIMIT {
            return Err(LOAD_TOO_LONG);
        }
        if self.errs(Misreading::GrammarFirst) && lines.iter().any(|line| self.said(line).is_err()) {
            return Err(BAD_LINE);
        }
        lines.into_iter().try_for_each(|line| self.line(line))
    }

    /// Refusals 14, 13, 11, 7 and 3 in that order; else the line's terms are put, and its triple is kept.
    fn line(&mut self, line: &[u8]) -> Result<(), u32> {
        self.mistaken_first(line)?;
        if self.measure(line) > LINE_LIMIT {
            return Err(LONG_LINE);
        }
        let Some(terms) = self.said(line)? else {
            return Ok(());
        };
        self.mistaken_early(&terms)?;
        self.room_for(&terms)?;
        if self.is_full() {
            return Err(LOAD_TOO_LONG);
        }
        let triple = [0, 1, 2].map(|k| self.put(&terms[k]));
        if !(self.errs(Misreading::RepeatsOnce) && self.triples.contains(&triple)) {
            self.triples.push(triple);
        }
        Ok(())
    }

    /// What a mistake refuses before 14.
    fn mistaken_first(&self, line: &[u8]) -> Result<(), u32> {
        match self.mistake {
            Some(Misreading::FullLoadFirst) if self.is_full() && !line.is_empty() => Err(LOAD_TOO_LONG),
            Some(Misreading::BadBeforeLong) => self.said(line).map(|_| ()),
            _ => Ok(()),
        }
    }

    /// What a mistake refuses or puts before 11.
    fn mistaken_early(&mut self, terms: &[Term; 3]) -> Result<(), u32> {
        match self.mistake {
            Some(Misreading::LoadBeforeRoom) if self.is_full() => return Err(LOAD_TOO_LONG),
            Some(Misreading::BlankIdRefused) if terms.contains(&self.terms[0]) => return Err(BLANK_ID),
            Some(Misreading::ObjectFirst) if self.room_for(terms).is_ok() => {
                self.put(&terms[0]);
                self.put(&terms[2]);
            }
            Some(Misreading::TermByTerm) => {
                for term in terms {
                    self.room_for(std::slice::from_ref(term))?;
                    self.put(term);
                }
            }
            _ => (),
        }
        Ok(())
    }

    /// A line's terms, or none; refusal 13.
    fn said(&self, line: &[u8]) -> Result<Option<[Term; 3]>, u32> {
        match ntriples::line_mistaken(line, self.mistake) {
            Line::Nothing => Ok(None),
            Line::Triple(terms) => Ok(Some(terms)),
            Line::Bad => Err(BAD_LINE),
        }
    }

    /// Refusal 11, then 7: what is new among the terms needs room, each once.
    fn room_for(&self, terms: &[Term]) -> Result<(), u32> {
        let too_long = terms.iter().any(|term| self.length(term) > TERM_LIMIT);
        if too_long && !self.errs(Misreading::RoomBeforeLength) {
            return Err(TERM_TOO_LONG);
        }
        let mut new: Vec<Term> = Vec::new();
        for term in terms {
            let held = self.ids.contains_key(term) && !self.errs(Misreading::HeldNeedRoom);
            if !held && (!new.contains(term) || self.errs(Misreading::RepeatsNeedRoom)) {
                new.push(term.clone());
            }
        }
        if self.terms.len() + new.len() > self.entries || self.used + bytes_of(&new) > self.bytes {
            return Err(DICTIONARY_FULL);
        }
        if too_long {
            return Err(TERM_TOO_LONG);
        }
        Ok(())
    }

    fn is_full(&self) -> bool {
        let limit = if self.errs(Misreading::PastTheLimit) { usize::MAX } else { LOAD_LIMIT };
        self.triples.len() >= self.places.min(limit)
    }

    /// The id of a term for which there is room.
    fn put(&mut self, term: &Term) -> u32 {
        if let Some(id) = self.ids.get(term) {
            return *id;
        }
        let id = self.terms.len() as u32;
        self.used += term.1.len();
        self.ids.insert(term.clone(), id);
        self.terms.push(term.clone());
        if self.errs(Misreading::DatatypesPut) {
            datatype(term).filter(|datatype| self.room_for(std::slice::from_ref(datatype)).is_ok()).map(|term| self.put(&term));
        }
        id
    }

    /// The length that 14 asks for.
    fn measure(&self, line: &[u8]) -> usize {
        match self.mistake {
            Some(Misreading::EndCounted) => line.len() + 1,
            Some(Misreading::CharactersCounted) => String::from_utf8_lossy(line).chars().count(),
            _ => line.len(),
        }
    }

    /// The length that 11 asks for.
    fn length(&self, (kind, bytes): &Term) -> usize {
        match bytes.iter().rposition(|b| *b == 0) {
            Some(text) if *kind == LITERAL && self.errs(Misreading::TextAlone) => text,
            _ => bytes.len(),
        }
    }
}

/// A literal's datatype as a term of its own.
fn datatype((kind, bytes): &Term) -> Option<Term> {
    let iri = bytes.rsplit(|b| *b == 0).next().filter(|iri| *kind == LITERAL && iri.contains(&b':'))?;
    Some((dictionary::NAMED_NODE, iri.to_vec()))
}
