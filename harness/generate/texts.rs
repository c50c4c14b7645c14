//! Terms and triples for a write whose text other readers of N-Triples take as we do: no U+0000 and no noncharacter in a text, tags in
//! small letters, labels without colons, and IRIs that begin with a scheme.

use crate::Random;
use model::dictionary::{starting_terms, Term, BLANK_NODE, LITERAL, NAMED_NODE};
use model::ntriples::XSD_STRING;
use model::Triple;

/// The terms of a dictionary, those of a start first, and triples of their ids, some of which are left out.
pub fn model(r: &mut Random) -> (Vec<Term>, Vec<Triple>) {
    let mut terms = starting_terms();
    for _ in 0..r.between(4, 40) {
        let new = term(r);
        if !terms.contains(&new) {
            terms.push(new);
        }
    }
    let of =
        |kinds: &[u32]| (0..).zip(&terms).filter(|(_, (kind, _))| kinds.contains(kind)).map(|(id, _)| id).collect::<Vec<u32>>();
    let (subjects, predicates, all) = (of(&[NAMED_NODE, BLANK_NODE]), of(&[NAMED_NODE]), of(&[1, 2, 3]));
    let mut triples: Vec<Triple> = Vec::new();
    for _ in 0..r.below(60) {
        triples.push(match r.below(20) {
            0 => [0; 3].map(|_| late(&all, r)),
            1 => triples.last().copied().unwrap_or([0; 3]),
            _ => [late(&subjects, r), late(&predicates, r), late(&all, r)],
        });
    }
    (terms, triples)
}

/// One of the ids, more often one of the last.
fn late(ids: &[u32], r: &mut Random) -> u32 {
    let most = if r.percent(80) { ids.len().min(30) } else { ids.len() };
    ids[ids.len() - 1 - r.below(most)]
}

fn term(r: &mut Random) -> Term {
    match r.below(10) {
        0..=2 => (NAMED_NODE, iri(r).into_bytes()),
        3..=4 => (BLANK_NODE, label(r).into_bytes()),
        5 => (r.between(1, 3) as u32, r.pick(&["", "a b", "no", "x\0", "a.", "-"]).into()),
        _ => (LITERAL, literal(r).into_bytes()),
    }
}

#[rustfmt::skip]
const OF_IRIS: &[&str] = &[
    "a", "b", "Z", "1", "/", "//", "/../", "?", "#", "%20", "%C3%A9", "%zz", "-", ".", "~", "_", "!", "$", "&", "'", "(", ")", "*",
    "+", ",", ";", "=", "@", "[", "]", ":", "\u{7f}", "\u{a0}", "\u{e9}", "\u{301}", "\u{2028}", "\u{20ac}", "\u{fffd}",
    "\u{1f600}",
];

fn iri(r: &mut Random) -> String {
    let scheme = r.pick(&["a:", "urn:x:", "http://example.org/", "http://EXAMPLE.org", "x-y+1.z:", "HTTP://a/", "mailto:"]);
    let text: String = (0..r.below(5)).map(|_| r.pick(OF_IRIS)).collect();
    format!("{scheme}{text}")
}

/// rapper 2.0.15 takes a hyphen or a dot only where a letter, a digit or an underscore of ASCII comes before it. The Recommendation does
/// not ask for that: such labels are left to damage.
fn label(r: &mut Random) -> String {
    let first = r.pick(&["a", "b", "c", "Q", "_", "1", "x1", "\u{e9}a", "\u{4e00}\u{b7}_", "\u{10000}0"]);
    let others = ["a", "Z", "0", "-", "_", "x.y", "..1", "\u{b7}", "\u{300}", "\u{203f}", "\u{e9}"];
    let more: String = (0..r.below(4)).map(|_| r.pick(&others)).collect();
    format!("{first}{more}")
}

#[rustfmt::skip]
const OF_TEXTS: &[&str] = &[
    "x", "y", "Z", "1", " ", "\"", "\\", "\n", "\r", "\r\n", "\t", "\u{8}", "\u{c}", "\u{b}", "\u{1}", "\u{1f}", "\u{7f}", "'",
    ":", "\\n", "\\u0041", "\u{80}", "\u{85}", "\u{a0}", "\u{e9}", "e\u{301}", "\u{20ac}", "\u{2028}", "\u{2029}", "\u{d7ff}",
    "\u{e000}", "\u{feff}", "\u{fffd}", "\u{1f600}", "\u{10fffd}", "<a:b>", " .\n", "@en", "^^<a:b>", "#", "{", "&amp;", "]]>",
];

fn literal(r: &mut Random) -> String {
    let text: String = (0..r.below(6)).map(|_| r.pick(OF_TEXTS)).collect();
    match r.below(10) {
        0..=2 => format!("{text}\0{XSD_STRING}"),
        3..=5 => format!("{text}\0{}", r.pick(&["en", "en-us", "de-1996", "x-a-b1", "zh-hant-tw", "a"])),
        6..=7 => format!("{text}\0http://www.w3.org/2001/XMLSchema#{}", r.pick(&["integer", "string2", "boolean", "decimal"])),
        8 => format!("{text}\0http://www.w3.org/1999/02/22-rdf-syntax-ns#{}", r.pick(&["XMLLiteral", "HTML"])),
        _ => format!("{text}\0{}", iri(r)),
    }
}
