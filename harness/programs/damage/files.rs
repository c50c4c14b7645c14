//! Files for reads: valid ones, ones with a byte changed, ones with a line on the edges of the grammar, and ones at the limits.

use crate::lines::{escaped, odd, with_bytes, with_label, with_tag};
use generate::files::{end, file as valid, line, triple};
use generate::Random;
use model::{LINE_LIMIT, LOAD_LIMIT, TERM_LIMIT};

pub fn file(r: &mut Random) -> Vec<u8> {
    match r.below(200) {
        0..=43 => valid(r).into(),
        44..=45 => format!("\u{feff}{}", valid(r)).into(),
        46..=85 => changed(r),
        86..=117 => among_others(escaped(r).into(), r),
        118..=139 => among_others(with_bytes(r), r),
        140..=154 => among_others(with_label(r).into(), r),
        155..=160 => among_others(with_tag(r).into(), r),
        161..=175 => among_others(odd(r).into(), r),
        176..=185 => among_others(long_line(r), r),
        186..=197 => among_others(long_term(r).into(), r),
        _ => many(r).into(),
    }
}

/// A valid file with a byte or two changed, dropped, doubled or put in, or with its end cut off.
fn changed(r: &mut Random) -> Vec<u8> {
    let mut file: Vec<u8> = valid(r).into();
    for _ in 0..1 + usize::from(r.percent(20)) {
        change(&mut file, r);
    }
    file
}

/// Characters that the grammar names.
const MARKS: &[u8] = b"<>\"\\_:.@^#-{}|`' \t\r\n\0uUtx0aF\x7f\x80\xc3\xff";

fn change(bytes: &mut Vec<u8>, r: &mut Random) {
    let (at, mark) = (r.below(bytes.len()), r.pick(MARKS));
    if bytes.is_empty() {
        bytes.push(mark);
        return;
    }
    match r.below(8) {
        0 => bytes[at] = r.bits() as u8,
        1 => bytes[at] ^= 1 << r.below(8),
        2..=3 => bytes[at] = mark,
        4 => drop(bytes.remove(at)),
        5 => bytes.insert(at, bytes[at]),
        6 => bytes.insert(at, mark),
        _ => bytes.truncate(at),
    }
}

/// A line with lines before and behind it, or alone; they may be changed too.
fn among_others(bytes: Vec<u8>, r: &mut Random) -> Vec<u8> {
    let mut file = Vec::new();
    for k in 0..3 {
        if k == 1 {
            file.extend(&bytes);
        } else if r.percent(30) {
            let mut other: Vec<u8> = line(r).into();
            if r.percent(20) {
                change(&mut other, r);
            }
            file.extend(other);
        } else {
            continue;
        }
        if k < 2 || r.percent(50) {
            file.extend(end(r).bytes());
        }
    }
    file
}

/// One of the limit, one below it, or one above.
fn about_limit(limit: usize, r: &mut Random) -> usize {
    limit + r.below(3) - 1
}

/// A line about as long as a line may be: a comment, white space, a triple with one of these or with escapes, or a bad line.
fn long_line(r: &mut Random) -> Vec<u8> {
    let (front, filling, back) = r.pick(&[
        ("#", "x", ""),
        ("#", "\u{e9}", ""),
        ("", " ", ""),
        ("<a:b> <a:c> <a:d> . #", "x", ""),
        ("<a:b> <a:c> <a:d> . #", "\u{10ffff}", ""),
        ("<a:b> <a:c>", "\t", "<a:d> ."),
        ("<a:b> <a:c> \"", "\\U00000041", "\" ."),
        ("<a:", "\\U000000e9", "> <a:c> <a:d> ."),
        ("<a:b> <a:c> \"", "x", "\" ."),
        ("x", " ", ""),
        ("<a:b> <a:c> <a:d> .", " ", "x"),
        ("#", "\u{e9}", "\u{e9}\u{0}"),
    ]);
    let len = about_limit(LINE_LIMIT, r);
    let left = len - front.len() - back.len();
    // What is left over goes where white space may stand, or into the comment.
    let over = left % filling.len();
    let mut line = [" ".repeat(if front.starts_with('#') { 0 } else { over }).as_bytes(), front.as_bytes()].concat();
    line.extend(filling.repeat(left / filling.len()).bytes());
    line.extend(back.bytes());
    line.resize(len, b'x');
    if r.percent(10) {
        let last = line.len() - 1;
        line[last] = 0xff;
    }
    line
}

/// Characters as they stand in a file, and how many bytes each is; first those of labels.
const FILLINGS: &[(&str, usize)] =
    &[("x", 1), ("\u{e9}", 2), ("\\u00E9", 2), ("\\u0041", 1), ("\\U0001F600", 4), ("\u{20ac}", 3)];
const OF_LABELS: usize = 2;

/// What is in a literal behind its text, and how many bytes that is.
const SUFFIXES: &[(&str, usize)] =
    &[("\"", 40), ("\"@en", 3), ("\"^^<a:d>", 4), ("\"^^<http://www.w3.org/2001/XMLSchema#integer>", 41)];

/// So many characters that a term with them and so many bytes besides is about as long as a term may be.
fn filling(besides: usize, fillings: &[(&str, usize)], r: &mut Random) -> String {
    let (text, bytes) = r.pick(fillings);
    let left = about_limit(TERM_LIMIT, r) - besides;
    text.repeat(left / bytes) + &"y".repeat(left % bytes)
}

/// A triple with a term about as long as a term may be; the others are short, and may be new.
fn long_term(r: &mut Random) -> String {
    let [s, p, o] = [0; 3].map(|_| format!("<a:{}>", r.below(50)));
    let (suffix, more) = r.pick(SUFFIXES);
    match r.below(8) {
        0 => format!("<a:{}> {p} {o} .", filling(2, FILLINGS, r)),
        1 => format!("{s} <a:{}> {o} .", filling(2, FILLINGS, r)),
        2 => format!("{s} {p} <a:{}> .", filling(2, FILLINGS, r)),
        3 => format!("_:{} {p} {o} .", filling(0, &FILLINGS[..OF_LABELS], r)),
        4 => format!("{s} {p} \"{}\" .", "x".repeat(r.between(TERM_LIMIT - 42, TERM_LIMIT + 1))),
        _ => format!("{s} {p} \"{}{suffix} .", filling(more, FILLINGS, r)),
    }
}

/// About as many triples as a load may have, or two more than that, and perhaps a line behind them.
fn many(r: &mut Random) -> String {
    let end = r.pick(&["\n", "\r\n", "\r"]);
    let lines: Vec<String> = (0..3).map(|_| r.pick(&["<a:b><a:c><a:d>.", "_:a<a:c><a:b>.", "<a:d><a:c>_:a."]).into()).collect();
    let count = r.pick(&[LOAD_LIMIT - 1, LOAD_LIMIT, LOAD_LIMIT + 1, LOAD_LIMIT + 2]);
    let mut text: String = (0..count).map(|k| lines[k % lines.len()].clone() + end).collect();
    if r.percent(50) {
        text += r.pick(&["", "# x", "x", "<a:b><a:c>\"new\"."]);
    }
    if r.percent(30) {
        text += &triple(r);
    }
    text
}
