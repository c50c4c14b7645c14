//! Reads: a file, a load that just suffices or is one off it, and dictionaries with the room that the file needs, or one less.

use crate::calls::{Call, Dictionary};
use crate::files::file;
use crate::scenario::{about, filled, held, laid_out};
use generate::Random;
use model::dictionary::Term;
use model::ntriples::{line, lines, Line};
use model::LOAD_LIMIT;
use std::collections::HashSet;

pub fn read(r: &mut Random) -> Call {
    let file = file(r);
    let triples = triples(&file).len();
    let places = match r.below(60) {
        0..=5 => triples.saturating_sub(1),
        6..=8 => r.below(triples + 1),
        9 => 0,
        10 => LOAD_LIMIT + r.between(1, 3),
        11..=25 => triples + r.between(1, 3),
        _ => triples,
    };
    let len = about(12 * places, 3, r);
    Call::Read { file, load: filled(len, r) }
}

/// The terms of each triple before the first bad line.
fn triples(file: &[u8]) -> Vec<[Term; 3]> {
    let mut triples = Vec::new();
    for bytes in lines(file) {
        match line(bytes) {
            Line::Nothing => (),
            Line::Triple(terms) => triples.push(terms),
            Line::Bad => break,
        }
    }
    triples
}

/// The same terms in a table and an arena with just the room that some of the file's triples need, or an entry or a byte less.
pub fn fitted(d: &Dictionary, file: &[u8], r: &mut Random) -> Option<Dictionary> {
    let terms = held(d)?;
    let triples = triples(file);
    let some = if r.percent(60) { triples.len() } else { r.below(triples.len() + 1) };
    let (mut entries, mut bytes) = (terms.len(), d.used as usize);
    let mut met: HashSet<&Term> = terms.iter().collect();
    for term in triples[..some].as_flattened() {
        if met.insert(term) {
            (entries, bytes) = (entries + 1, bytes + term.1.len());
        }
    }
    match r.below(8) {
        0 if entries > terms.len() => entries -= 1,
        1 if bytes > d.used as usize => bytes -= 1,
        2 => (entries, bytes) = (entries + r.below(3), bytes + r.below(50)),
        3 => bytes += r.below(50),
        4 => entries += r.below(3),
        _ => (),
    }
    Some(laid_out(&terms, 64 + 4 * entries, bytes))
}
