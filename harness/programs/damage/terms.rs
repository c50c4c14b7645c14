//! Terms for writes: of each kind those that a file can have, and those that differ from such a term in little, or in a byte that is no
//! UTF-8.

use crate::lines::{label, utf8};
use generate::Random;
use model::dictionary::{run_terms, Term, BLANK_NODE, LITERAL, NAMED_NODE};
use model::ntriples::XSD_STRING;
use model::TERM_LIMIT;

/// A term of any bytes.
pub fn term(r: &mut Random) -> Term {
    let (kind, mut bytes) = match r.below(20) {
        0..=5 => (NAMED_NODE, iri(r).into_bytes()),
        6..=9 => (BLANK_NODE, blank(r).into_bytes()),
        10..=17 => (LITERAL, literal(r).into_bytes()),
        18 => return r.pick(&run_terms()),
        // The bytes of one kind, held as another.
        _ => (r.between(1, 3) as u32, r.pick(&[iri, blank, literal])(r).into_bytes()),
    };
    if r.percent(8) {
        let at = r.below(bytes.len() + 1);
        bytes.splice(at..at, utf8(r));
    }
    if r.percent(2) {
        let more = r.between(TERM_LIMIT - 2, TERM_LIMIT).saturating_sub(bytes.len());
        bytes.splice(0..0, std::iter::repeat_n(r.pick(b"a\"\n"), more));
    }
    bytes.truncate(TERM_LIMIT);
    (kind, bytes)
}

/// Characters of IRIs; then those that none has, and others beside them.
#[rustfmt::skip]
const OF_IRIS: &[&str] = &[
    "a", "b", "A", "1", "/", "//", "?", "#", "%20", "%zz", "-", ".", "~", "_", "!", "$", "&", "'", "(", ")", "*", "+", ",", ";", "=",
    "@", "[", "]", "\u{7f}", "\u{80}", "\u{85}", "\u{a0}", "\u{e9}", "\u{2028}", "\u{feff}", "\u{fffd}", "\u{fffe}", "\u{ffff}",
    "\u{1f600}", "\u{10ffff}",
];
const NOT_OF_IRIS: &[&str] =
    &[" ", " ", "<", ">", "\"", "{", "}", "|", "^", "`", "\\", "\0", "\t", "\n", "\r", "\u{1}", "\u{b}", "\u{1f}", "\\u0041"];

fn iri(r: &mut Random) -> String {
    let scheme = r.pick(&["a:", "a:", "a:", "urn:", "http://", ":", "a/b:", "1:", "", "a", "/"]);
    let mut text: String = (0..r.below(4)).map(|_| r.pick(OF_IRIS)).collect();
    if r.percent(15) {
        text += r.pick(NOT_OF_IRIS);
    }
    if r.percent(50) {
        text += r.pick(OF_IRIS);
    }
    format!("{scheme}{text}")
}

#[rustfmt::skip]
const LABELS: &[&str] = &[
    "a", "b", "B", "0", "_", ":", "a:b", "::", "a.b", "a..b", "a-", "a.-", "", ".", "a.", "a..", ".a", "-", "-a", "_:a", "a b", "a/b",
];

fn blank(r: &mut Random) -> String {
    if r.percent(50) {
        r.pick(LABELS).into()
    } else {
        label(r)
    }
}

/// Parts of texts: all that is escaped, what other forms escape, and more.
#[rustfmt::skip]
const OF_TEXTS: &[&str] = &[
    "x", "y", " ", "\"", "\"", "\\", "\\", "\n", "\n", "\r", "\r", "\r\n", "\t", "\u{8}", "\u{c}", "\u{b}", "\u{1}", "\u{1f}",
    "\u{7f}", "\0", "\0", "'", ":", "a:b", "en", "\\n", "\\u0041", "\u{80}", "\u{85}", "\u{a0}", "\u{e9}", "\u{20ac}", "\u{2028}",
    "\u{fdd0}", "\u{feff}", "\u{fffd}", "\u{fffe}", "\u{ffff}", "\u{1f600}", "\u{1ffff}", "\u{10ffff}", "<a:b>", " .", "@en",
    "^^<a:b>",
];

/// Tags, and what is nearly one.
#[rustfmt::skip]
const TAGS: &[&str] = &[
    "en", "EN", "en-US", "de-1996", "x-a-B1", "a", "urn", "1", "e1", "en-", "-en", "en--us", "en_us", "en-\u{e9}", "@en", "en ", "a-1a",
];

/// Datatypes, and what is nearly xsd:string.
#[rustfmt::skip]
const DATATYPES: &[&str] = &[
    XSD_STRING, XSD_STRING, XSD_STRING, "http://www.w3.org/2001/XMLSchema#integer", "http://www.w3.org/2001/XMLSchema#String",
    "http://www.w3.org/2001/XMLSchema#strin", "http://www.w3.org/2001/XMLSchema#strings", "ttp://www.w3.org/2001/XMLSchema#string",
    "http://www.w3.org/1999/02/22-rdf-syntax-ns#langString", "a:d", "urn:d", ":", "a:",
];

fn literal(r: &mut Random) -> String {
    let text: String = (0..r.below(5)).map(|_| r.pick(OF_TEXTS)).collect();
    match r.below(12) {
        0 => text,
        1 => text + "\0",
        2..=5 => format!("{text}\0{}", r.pick(TAGS)),
        6..=8 => format!("{text}\0{}", r.pick(DATATYPES)),
        9 => format!("{text}\0{}", iri(r)),
        _ => format!("{text}\0{XSD_STRING}"),
    }
}
