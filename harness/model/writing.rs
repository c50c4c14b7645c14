//! Writing, docs/REFERENCE.md, 3.7: terms and triples as canonical RDF 1.1 N-Triples, written from section 4 of the Recommendation, and the
//! call on numbers, with every refusal and the page after it.

use crate::calls::Dictionary;
use crate::dictionary::{Term, BLANK_NODE, LITERAL, NAMED_NODE};
use crate::miswritings::{self, Miswriting};
use crate::ntriples::{PN_CHARS_BASE, PN_CHARS_MORE, XSD_STRING};
use crate::*;

/// A term's text; none where no line of N-Triples gives this kind and these bytes.
pub fn term(term: &Term) -> Option<String> {
    Writer { mistake: None }.term(term)
}

/// A triple's line with its end; none where it is left out.
pub fn line(terms: [&Term; 3]) -> Option<String> {
    Writer { mistake: None }.line(terms)
}

/// Refusal, the length of the text, and the number of triples left out. The page has the text, then zeros; one that is too short is zero.
pub fn write(d: Dictionary, store: &[u32], triples: u32, page: &mut [u8]) -> (u32, usize, u32) {
    write_mistaken(d, store, triples, page, None)
}

/// The same with a mistake.
pub fn write_mistaken(
    d: Dictionary,
    store: &[u32],
    triples: u32,
    page: &mut [u8],
    mistake: Option<Miswriting>,
) -> (u32, usize, u32) {
    match admitted(&d, store, triples, page.len(), mistake) {
        Ok((terms, rows)) => {
            let (text, left_out) = Writer { mistake }.text(&terms, &rows);
            miswritings::laid(&text, left_out, page, mistake)
        }
        Err(PAGE_FULL) => full(page),
        Err(refusal) => {
            if mistake == Some(Miswriting::RefusedCleared) {
                page.fill(0);
            }
            (refusal, 0, 0)
        }
    }
}

/// Refusals 1, 4 and 6 in that order; else the terms held, and the triples of the rows that are counted. Only a mistake asks for the length
/// of the page here.
fn admitted(
    d: &Dictionary,
    store: &[u32],
    triples: u32,
    page: usize,
    mistake: Option<Miswriting>,
) -> Result<(Vec<Term>, Vec<Triple>), u32> {
    miswritings::first(d, store, triples, page, mistake)?;
    let terms = d.held().ok_or(BROKEN_DICTIONARY)?;
    let rows = miswritings::rows(store, triples, mistake).ok_or(ILL_SIZED_STORE)?;
    if miswritings::asked(&terms, &rows, store, mistake).iter().any(|id| *id as usize >= terms.len()) {
        return Err(UNKNOWN_TERM);
    }
    let rows = miswritings::taken(&terms, rows, mistake)?;
    Ok((terms, rows))
}

/// The triples of the first rows of a store, which has whole rows, not too many, and at least as many as are counted.
pub(crate) fn rows(store: &[u32], triples: u32) -> Option<Vec<Triple>> {
    let (rows, count) = (store.len() / STORE_WIDTH, triples as usize);
    let sized = store.len() % STORE_WIDTH == 0 && rows <= STORE_LIMIT && count <= rows;
    sized.then(|| store.chunks(STORE_WIDTH).take(count).map(|row| [row[0], row[1], row[2]]).collect())
}

/// Refusal 15.
pub(crate) fn full(page: &mut [u8]) -> (u32, usize, u32) {
    page.fill(0);
    (PAGE_FULL, 0, 0)
}

/// A text that the page has room for, then zeros.
pub(crate) fn laid(text: &[u8], left_out: u32, page: &mut [u8]) -> (u32, usize, u32) {
    let (front, rest) = page.split_at_mut(text.len());
    front.copy_from_slice(text);
    rest.fill(0);
    (0, text.len(), left_out)
}

pub(crate) struct Writer {
    pub(crate) mistake: Option<Miswriting>,
}

impl Writer {
    fn errs(&self, mistake: Miswriting) -> bool {
        self.mistake == Some(mistake)
    }

    /// The lines of the triples that have one, and how many have none.
    pub(crate) fn text(&self, terms: &[Term], rows: &[Triple]) -> (Vec<u8>, u32) {
        let (mut text, mut left_out) = (String::new(), 0);
        for triple in rows {
            let of_triple = triple.map(|id| &terms[id as usize]);
            match self.line(of_triple).filter(|_| !miswritings::is_dropped(*triple, self.mistake)) {
                Some(line) => text += &line,
                None => left_out += miswritings::counted(of_triple, self.mistake),
            }
        }
        if self.errs(Miswriting::LastEndDropped) {
            text.pop();
        }
        (text.into_bytes(), left_out)
    }

    /// One space behind each term, a dot, and one line feed.
    fn line(&self, [s, p, o]: [&Term; 3]) -> Option<String> {
        let subject = s.0 != LITERAL || self.errs(Miswriting::LiteralSubjects);
        let predicate = p.0 == NAMED_NODE
            || (p.0 == BLANK_NODE && self.errs(Miswriting::BlankPredicates))
            || (p.0 == LITERAL && self.errs(Miswriting::LiteralPredicates));
        let terms = [self.term(s)?, self.term(p)?, self.term(o)?];
        (subject && predicate).then(|| miswritings::line(terms, self.mistake))
    }

    fn term(&self, (kind, bytes): &Term) -> Option<String> {
        let text = match String::from_utf8(bytes.clone()) {
            Ok(text) => text,
            Err(_) if self.errs(Miswriting::Replaced) => String::from_utf8_lossy(bytes).into(),
            Err(_) => return None,
        };
        match *kind {
            NAMED_NODE => self.is_iri(&text).then(|| format!("<{text}>")),
            BLANK_NODE => self.is_label(&text).then(|| format!("_:{text}")),
            LITERAL => self.literal(&text),
            _ => None,
        }
    }

    /// A colon, and no character that may not stand in an IRI unescaped.
    fn is_iri(&self, text: &str) -> bool {
        let forbidden = |c: char| c <= ' ' || "<>\"{}|^`\\".contains(c);
        let spared = |c: char| match c {
            '\0'..=' ' => self.errs(Miswriting::ControlsInIris),
            '>' | '\\' => false,
            _ => self.errs(Miswriting::MarksInIris),
        };
        let colon = match self.mistake {
            Some(Miswriting::RelativeIris) => true,
            Some(Miswriting::SchemesAlone) => text.find(':').is_some_and(|at| at > 0 && !text[..at].contains('/')),
            _ => text.contains(':'),
        };
        colon
            && !text.contains(|c| forbidden(c) && !spared(c))
            && !(self.errs(Miswriting::NoDeleteInIris) && text.contains('\u{7f}'))
    }

    /// What may stand behind `_:`. N-Triples has the colon among these characters.
    fn is_label(&self, text: &str) -> bool {
        let is_in = |ranges: &[(char, char)], c: char| ranges.iter().any(|(first, last)| *first <= c && c <= *last);
        let colon = |c: char| c == ':' && !self.errs(Miswriting::NoColonInLabels);
        let in_front = |c: char| is_in(&PN_CHARS_BASE, c) || c == '_' || colon(c) || c.is_ascii_digit();
        let behind = |c: char| in_front(c) || is_in(&PN_CHARS_MORE, c) || (c == '.' && !self.errs(Miswriting::NoDotInLabels));
        let front = text.chars().next();
        front.is_some_and(|c| in_front(c) || (self.errs(Miswriting::AnyFront) && behind(c)))
            && text.chars().skip(1).all(behind)
            && (!text.ends_with('.') || self.errs(Miswriting::DotEndsLabel))
    }

    /// The text in quotes, then what stands behind the last zero byte: a tag, or a datatype but xsd:string.
    fn literal(&self, held: &str) -> Option<String> {
        let (text, more) = match self.mistake {
            Some(Miswriting::FirstZero) => held.split_once('\0')?,
            Some(Miswriting::NoZeroPlain) => held.rsplit_once('\0').unwrap_or((held, XSD_STRING)),
            _ => held.rsplit_once('\0')?,
        };
        let quoted: String = text.chars().map(|c| self.character(c)).collect();
        let behind = match more {
            XSD_STRING if !self.errs(Miswriting::StringTyped) => String::new(),
            "" if self.errs(Miswriting::NothingIsPlain) => String::new(),
            _ => miswritings::behind(text, more, self.is_iri(more), is_tag(more), self.mistake)?,
        };
        Some(format!("\"{quoted}\"{behind}"))
    }

    /// Quotation mark, backslash, line feed and carriage return are escaped, and nothing else.
    fn character(&self, c: char) -> String {
        if let Some(mistaken) = self.mistake.and_then(|mistake| miswritings::character(c, mistake)) {
            return mistaken;
        }
        match c {
            '"' => "\\\"".into(),
            '\\' => "\\\\".into(),
            '\n' => "\\n".into(),
            '\r' => "\\r".into(),
            c => c.into(),
        }
    }
}

/// LANGTAG without its mark: letters, then parts of letters and digits behind hyphens.
fn is_tag(text: &str) -> bool {
    let mut parts = text.split('-');
    let first = parts.next().is_some_and(|part| !part.is_empty() && part.chars().all(|c| c.is_ascii_alphabetic()));
    first && parts.all(|part| !part.is_empty() && part.chars().all(|c| c.is_ascii_alphanumeric()))
}
