//! Files of N-Triples: small random ones, all of them valid, and the benchmark file.

use crate::Random;
use model::dictionary::{run_terms, starting_terms};

const XSD: &str = "http://www.w3.org/2001/XMLSchema#";

/// Some lines with their ends; the last may have none. A line may be there again.
pub fn file(r: &mut Random) -> String {
    let mut lines: Vec<String> = Vec::new();
    for _ in 0..r.below(6) {
        let line = if lines.is_empty() || r.percent(85) { line(r) } else { r.pick(&lines) };
        lines.push(line);
    }
    let mut text = String::new();
    for line in lines {
        text += &line;
        text += end(r);
    }
    if r.percent(30) {
        text += &line(r);
    }
    text
}

pub fn end(r: &mut Random) -> &'static str {
    r.pick(&["\n", "\n", "\r\n", "\r\n", "\r", "\n\n", "\r\r\n"])
}

/// A triple, or a line that says nothing.
pub fn line(r: &mut Random) -> String {
    match r.below(12) {
        0 => gap(r).into(),
        1 => format!("{}{}", gap(r), comment(r)),
        _ => triple(r),
    }
}

/// A triple with its dot, white space and perhaps a comment. A term may stand in it twice.
pub fn triple(r: &mut Random) -> String {
    let subject = if r.percent(60) { iri(r) } else { label(r) };
    let predicate = if subject.starts_with('<') && r.percent(10) { subject.clone() } else { iri(r) };
    let object = match r.below(20) {
        0 => subject.clone(),
        1 => predicate.clone(),
        2..=6 => iri(r),
        7..=9 => label(r),
        _ => literal(r),
    };
    let gaps = [0; 5].map(|_| gap(r));
    let behind = if r.percent(15) { comment(r) } else { String::new() };
    format!("{}{subject}{}{predicate}{}{object}{}.{}{behind}", gaps[0], gaps[1], gaps[2], gaps[3], gaps[4])
}

/// White space where it may be.
pub fn gap(r: &mut Random) -> &'static str {
    r.pick(&["", "", "", " ", " ", " ", " ", "\t", " \t "])
}

pub fn comment(r: &mut Random) -> String {
    r.pick(&["#", "# x", "#<a:b> <a:b> <a:b> .", "# \\u12 \"", "##\u{7f}\0\u{e9}\u{10ffff}", "# \u{2028} \u{85}"]).into()
}

/// An IRI in its brackets: vocabulary, names that puts use, others, with escapes and without.
pub fn iri(r: &mut Random) -> String {
    let known = |r: &mut Random| {
        let mut terms = starting_terms();
        terms.extend(run_terms());
        String::from_utf8(r.pick(&terms).1).expect("an IRI")
    };
    let odd = [
        ":",
        "a/b:c",
        "urn:%zz",
        "a:\u{e9}",
        "a\\u003Ab",
        "\\u0061:b",
        "a:\\U0001F600",
        "a:\u{1f600}",
        "a:!$&'()*+,;=@?#/[]~\u{7f}",
    ];
    let text = match r.below(20) {
        0..=2 => known(r),
        3 => "urn:_".into(),
        4..=8 => format!("urn:t{}", r.between(1, 15)),
        9 => format!("urn:\\u0074{}", r.between(1, 15)),
        10..=11 => r.pick(&odd).into(),
        12..=13 => format!("http://example.org/x/{}", r.below(100)),
        _ => format!("a:{}", r.pick(&["a", "b", "c", "d", "e"])),
    };
    format!("<{text}>")
}

pub fn label(r: &mut Random) -> String {
    let labels =
        ["a", "b", "t1", "0", "_", ":", "a:b", "a.b", "a..b", "\u{e9}", "a-", "1a", "x\u{b7}", "B", "\u{10000}.\u{203f}"];
    format!("_:{}", r.pick(&labels))
}

/// Parts of literals' texts.
#[rustfmt::skip]
const PARTS: &[&str] = &[
    "x", "y", "1", " ", "\\t", "\\b", "\\n", "\\r", "\\f", "\\\"", "\\'", "\\\\", "\\u00E9", "\\u00e9", "\\U0001F600", "\u{e9}",
    "\u{20ac}", "\u{1f600}", "\u{7f}", "\0", "\\u0000", "\t", "\u{b}", "\u{85}", "<a:b>", "#", " .", "@en", "'",
];

pub fn literal(r: &mut Random) -> String {
    let text: String = (0..r.below(4)).map(|_| r.pick(PARTS)).collect();
    let suffix = match r.below(10) {
        0..=3 => String::new(),
        4..=6 => format!("{}@{}", gap(r), r.pick(&["en", "EN", "en-US", "de-1996", "x-a-b1", "a"])),
        _ => format!("{}^^{}{}", gap(r), gap(r), datatype(r)),
    };
    format!("\"{text}\"{suffix}")
}

fn datatype(r: &mut Random) -> String {
    match r.below(5) {
        0 => format!("<{XSD}string>"),
        1 => format!("<{XSD}integer>"),
        2 => r.pick(&["<a:d>", "<:>", "<a:\\u0064>"]).into(),
        _ => iri(r),
    }
}

/// Triples of the benchmark file, and its different terms.
pub const BENCHMARK_TRIPLES: usize = 16_000;
pub const BENCHMARK_TERMS: usize = 30_000;

const PREDICATES: usize = 20;
const SUBJECTS: usize = 14_980;
const OBJECTS: usize = BENCHMARK_TERMS - PREDICATES - SUBJECTS;

/// Parts of a plant: IRIs, blank nodes, literals plain, typed and with a tag. A dictionary of the largest size holds its terms.
pub fn benchmark_file() -> String {
    let mut r = Random::item(7, BENCHMARK_TRIPLES as u64);
    let mut text = String::new();
    for k in 0..BENCHMARK_TRIPLES {
        let object = if k < OBJECTS { object(k) } else { subject(r.below(SUBJECTS)) };
        text += &format!("{} {} {object} .\n", subject(k * SUBJECTS / BENCHMARK_TRIPLES), predicate(k % PREDICATES));
    }
    text
}

fn subject(k: usize) -> String {
    match k % 10 {
        0..=6 => format!("<http://example.org/plant/line-{}/bin-{k}>", k % 40),
        _ => format!("_:b{k}"),
    }
}

fn predicate(k: usize) -> String {
    match k {
        0 => "<http://www.w3.org/1999/02/22-rdf-syntax-ns#type>".into(),
        k => format!("<http://example.org/plant#property-{k}>"),
    }
}

fn object(k: usize) -> String {
    match k % 20 {
        0..=8 => format!("<http://example.org/part/{k}>"),
        9..=11 => format!("\"part no {k}\""),
        12..=14 => format!("\"{k}\"^^<{XSD}integer>"),
        15 => format!("\"M\\u00FCll\\t{k}\"@de"),
        16 => format!("\"M\u{fc}ll {k}\"@de"),
        _ => format!("_:o{k}"),
    }
}
