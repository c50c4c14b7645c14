//! A list of W3C's tests of N-Triples: the terms and triples of each as harness/w3c/expected.rs has them, written down by hand.

use crate::calls::*;
use crate::text::Text;
use expected::{Term, Test, TESTS};

#[path = "../../w3c/expected.rs"]
mod expected;

/// Numbers of the load: more than any of the files needs.
const LOAD_NUMBERS: usize = 60;

/// The one file with more terms than the table of this memory has entries, and the lines and the triples of its first half.
const HALVED: (&str, usize, usize) = ("nt-syntax-subm-01.nt", 49, 16);

pub fn tests(text: &mut Text) {
    let all: Vec<(&str, bool)> = TESTS.iter().map(|test| (test.name, test.triples.is_some())).collect();
    assert_eq!(all, expected::manifest());
    TESTS.iter().for_each(|test| one(text, test));
    text.end("read: W3C's tests of N-Triples");
}

/// A refused file follows an accepted one, whose terms it has to leave.
fn one(text: &mut Text, test: &Test) {
    let (halved, lines, triples) = HALVED;
    match test.triples {
        None => read_none(text, test.file, LOAD_NUMBERS, 13),
        Some(all) if test.name == halved => {
            let mut ends = test.file.iter().enumerate().filter(|(_, b)| **b == b'\n');
            let (at, _) = ends.nth(lines - 1).expect("so many lines");
            accepted(text, &test.file[..=at], &all[..triples]);
            accepted(text, &test.file[at + 1..], &all[triples..]);
        }
        Some(all) => accepted(text, test.file, all),
    }
}

/// A file read into a new dictionary: its terms have ids from 31 on, in the order in which they come up.
fn accepted(text: &mut Text, file: &[u8], triples: &[[Term; 3]]) {
    let mut terms: Vec<Term> = Vec::new();
    let mut id = |term: &Term| {
        let at = terms.iter().position(|t| t == term).unwrap_or_else(|| {
            terms.push(*term);
            terms.len() - 1
        });
        31 + at as u32
    };
    let ids: Vec<u32> = triples.iter().flatten().map(&mut id).collect();
    let used = 1325 + terms.iter().map(|(_, bytes)| bytes.len() as u32).sum::<u32>();
    begin(text, 320, 4096);
    read_all(text, file, LOAD_NUMBERS, &ids, [31 + terms.len() as u32, used]);
    let mut begin = 1325;
    for (id, (kind, bytes)) in (31..).zip(terms) {
        number_at(text, 64 + 4 * id + 2, kind);
        bytes_at(text, begin, bytes);
        begin += bytes.len();
    }
}
