//! Lines on the edges of the grammar and of UTF-8, right and wrong.

use generate::files::gap;
use generate::Random;
use model::ntriples::{PN_CHARS_BASE, PN_CHARS_MORE};

/// What stands before and behind a place in a line; first those where an escape may stand.
const PLACES: &[(&str, &str)] = &[
    ("<a:", "> <a:b> <a:c> ."),
    ("<", "a:> <a:b> <a:c> ."),
    ("<a:b> <a:", "> <a:c> ."),
    ("<a:b> <a:c> <a:", "x> ."),
    ("<a:b> <a:c> \"", "\" ."),
    ("<a:b> <a:c> \"x", "y\"@en ."),
    ("<a:b> <a:c> \"x\"^^<a:", "> ."),
    ("_:", "a <a:b> <a:c> ."),
    ("_:a", " <a:b> <a:c> ."),
    ("<a:b> <a:c> _:a", "b ."),
    ("<a:b> <a:c> _:a", "."),
    ("<a:b> <a:c> \"x\"@en", " ."),
    ("<a:b> <a:c> \"x\"@", "en ."),
    ("", "<a:b> <a:c> <a:d> ."),
    ("<a:b>", "<a:c> <a:d> ."),
    ("<a:b> <a:c>", "<a:d> ."),
    ("<a:b> <a:c> <a:d>", "."),
    ("<a:b> <a:c> <a:d> .", ""),
    ("#", ""),
    ("<a:b> <a:c> <a:d> . #", "x"),
    ("<a:b> <a:c> \"x\"", "^^<a:d> ."),
    ("<a:b> <a:c> \"x\"^", "^<a:d> ."),
    ("<a:b> <a:c> \"x\"^^", "<a:d> ."),
];

const WITH_ESCAPES: usize = 7;

/// A line with an escape in it, right or wrong.
pub fn escaped(r: &mut Random) -> String {
    let places = if r.percent(80) { &PLACES[..WITH_ESCAPES] } else { PLACES };
    let (before, behind) = r.pick(places);
    format!("{before}{}{behind}", escape(r))
}

/// A line with bytes in it that are UTF-8 or are not.
pub fn with_bytes(r: &mut Random) -> Vec<u8> {
    let (before, behind) = r.pick(PLACES);
    [before.as_bytes(), &utf8(r), behind.as_bytes()].concat()
}

/// The numbers where something begins or ends to be a character, and others.
#[rustfmt::skip]
const VALUES: &[u32] = &[
    0, 0x20, 0x21, 0x3a, 0x3c, 0x3e, 0x5c, 0x7b, 0x7f, 0x80, 0x7ff, 0x800, 0xd7ff, 0xd800, 0xdbff, 0xdc00, 0xdfff, 0xe000, 0xfffd,
    0xffff, 0x1_0000, 0x10_ffff, 0x11_0000, 0x20_0000, 0x7fff_ffff, 0x8000_0041, 0xffff_ffff,
];

fn escape(r: &mut Random) -> String {
    match r.below(12) {
        0..=1 => format!("\\{}", char::from(r.below(128) as u8)),
        // What an IRI may not have, escaped or not, the space more often than the others; '!' it may have.
        2..=4 => {
            let forbidden: Vec<char> = ('\0'..=' ').chain("      !<>\"{}|^`\\".chars()).collect();
            hexadecimal(r.pick(&forbidden).into(), r)
        }
        5 => hexadecimal(r.between(0xd800, 0xdfff) as u32, r),
        6 => hexadecimal(r.between(0xd800, 0xdbff) as u32, r) + &hexadecimal(r.between(0xdc00, 0xdfff) as u32, r),
        7 => hexadecimal(r.below(0x11_0000) as u32, r),
        8..=9 => hexadecimal(r.pick(VALUES), r),
        _ => {
            let mut bytes = hexadecimal(r.pick(&[0x41, 0xe9, 0x3a, 0x1_f600]), r).into_bytes();
            let at = r.between(1, bytes.len() - 1);
            match r.below(3) {
                0 => drop(bytes.remove(at)),
                1 => bytes.insert(at, bytes[at]),
                _ => bytes[at] = r.pick(b"gG{}+- x\x00/:@`"),
            }
            String::from_utf8_lossy(&bytes).into()
        }
    }
}

/// `\u` where four digits suffice, or `\U`; each digit in either case.
fn hexadecimal(value: u32, r: &mut Random) -> String {
    let text = if value <= 0xffff && r.percent(60) { format!("u{value:04X}") } else { format!("U{value:08X}") };
    let (mark, digits) = text.split_at(1);
    let digits: String = digits.chars().map(|d| if r.percent(50) { d.to_ascii_lowercase() } else { d }).collect();
    format!("\\{mark}{digits}")
}

/// The first and last forms of UTF-8 of each length, those one off, and others that are none.
#[rustfmt::skip]
const UTF8: &[&[u8]] = &[
    b"\x00", b"\x0b", b"\x0c", b"\x1f", b"\x7f", b"\x80", b"\xbf", b"\xc0\x80", b"\xc0\xbe", b"\xc1\x81", b"\xc1\xbf",
    b"\xc2\x80", b"\xc2\x85", b"\xc2\xa0", b"\xc2", b"\xc2\x7f", b"\xc2\xc0", b"\xdf\xbf", b"\xe0\x80\x80", b"\xe0\x80\xa0",
    b"\xe0\x9f\xbf", b"\xe0\xa0\x80", b"\xe0\xa0", b"\xe0\xbf\xbf", b"\xe1\x80\x80", b"\xe1\x80", b"\xe1\x80\x7f",
    b"\xe2\x80\xa8", b"\xec\xbf\xbf", b"\xed\x80\x80", b"\xed\x9f\xbf", b"\xed\xa0\x80", b"\xed\xaf\xbf\xed\xb0\x80",
    b"\xed\xbf\xbf", b"\xee\x80\x80", b"\xef\xbb\xbf", b"\xef\xbf\xbd", b"\xef\xbf\xbf", b"\xef\xbf", b"\xf0\x80\x80\x80",
    b"\xf0\x80\x81\x81", b"\xf0\x8f\xbf\xbf", b"\xf0\x90\x80\x80", b"\xf0\x90\x80", b"\xf0\x90\x80\x7f", b"\xf0\xbf\xbf\xbf",
    b"\xf1\x80\x80\x80", b"\xf3\xaf\xbf\xbf", b"\xf3\xb0\x80\x80", b"\xf3\xbf\xbf\xbf", b"\xf4\x80\x80\x80",
    b"\xf4\x8f\xbf\xbf", b"\xf4\x90\x80\x80", b"\xf5\x80\x80\x80", b"\xf7\xbf\xbf\xbf", b"\xf8\x88\x80\x80\x80",
    b"\xfc\x84\x80\x80\x80\x80", b"\xfe", b"\xff",
];

pub fn utf8(r: &mut Random) -> Vec<u8> {
    let mut bytes = r.pick(UTF8).to_vec();
    if r.percent(30) {
        let at = r.below(bytes.len());
        bytes[at] = bytes[at].wrapping_add(r.pick(&[1, 0xff, 0x40, 0x20]));
    }
    bytes
}

/// A blank node with such a label.
pub fn with_label(r: &mut Random) -> String {
    let (label, gap) = (label(r), gap(r));
    match r.below(2) {
        0 => format!("_:{label}{gap}<a:b>{gap}<a:c>{gap}."),
        _ => format!("<a:b>{gap}<a:c>{gap}_:{label}{gap}."),
    }
}

/// A character at the edge of a range of labels, one beside it, or any, first, last or between others.
pub fn label(r: &mut Random) -> String {
    let (first, last) = r.pick(&[&PN_CHARS_BASE[..], &PN_CHARS_MORE, &[('_', '_'), (':', ':'), ('.', '.')]].concat());
    let (first, last) = (u32::from(first), u32::from(last));
    let number = if r.percent(20) { r.below(0x11_0000) as u32 } else { r.pick(&[first - 1, first, last, last + 1]) };
    let c = char::from_u32(number).unwrap_or('.');
    match r.below(6) {
        0 => format!("{c}"),
        1 => format!("{c}a"),
        2 => format!("a{c}"),
        3 => format!("a{c}b"),
        4 => format!("a.{c}"),
        _ => format!("a{c}.b"),
    }
}

/// A literal with a tag of letters, digits, hyphens and what is none of them.
pub fn with_tag(r: &mut Random) -> String {
    let tag: String =
        (0..r.below(6)).map(|_| r.pick(&["a", "z", "A", "Z", "a1", "1", "-", "-", "_", "\u{e9}", "@", "[", "`"])).collect();
    format!("<a:b> <a:c> \"x\"@{}{tag}{}.", r.pick(&["", "en"]), gap(r))
}

/// Subjects with a predicate, objects, and what follows them, some right, some wrong.
#[rustfmt::skip]
const FRONTS: &[&str] = &[
    "<a:b> <a:c> ", "_:b<a:c>", "<a:b> _:c ", "\"b\" <a:c> ", "<a:b> \"c\" ", "<a:b> ", "", "<a:b> <a:c> <a:d> ", "<a:b> a ",
    "a:b <a:c> ", "<a:b> # <a:c> ", "<a:b>\u{b}<a:c> ", "<a:b>\u{a0}<a:c> ", "<> <a:c> ", "<b> <a:c> ", "<a:b> <c> ",
    "<:> <:> ", "<urn:_> <urn:_> ", "<<a:b> <a:c> ", "<a:b>> <a:c> ", "\u{feff}<a:b> <a:c> ", " \t<a:b>\t<a:c>\t", "_:<a:c> ",
    "_:. <a:c> ", "_:a:b <a:c> ", "@prefix ",
];
#[rustfmt::skip]
const OBJECTS: &[&str] = &[
    "<a:d>", "<d>", "<>", "_:d", "_:d.", "_:d.e", "_:d..e", "_: d", "_d", "<urn:_>", "\"\"", "\"d\"", "'d'", "\"\"\"d\"\"\"",
    "\"d", "\"d\"@en", "\"d\" @en", "\"d\"@ en", "\"d\"@EN-us", "\"d\"@en-", "\"d\"@-en", "\"d\"@en--us", "\"d\"@en-us-x1",
    "\"d\"@1", "\"d\"@e1", "\"d\"@en-1", "\"d\"@", "\"d\"@\u{e9}", "\"d\"@en@en", "\"d\"@en^^<a:e>", "\"d\"^^<a:e>",
    "\"d\" ^^ <a:e>", "\"d\"^ ^<a:e>", "\"d\"^<a:e>", "\"d\"^^<e>", "\"d\"^^_:e", "\"d\"^^e", "\"d\"^^", "\"d\"^^<a:e>@en",
    "\"d\"\"e\"", "\"\\\"", "1", "true", "<a:d> <a:e>", "<a:d> , <a:e>", "\"d\"^^<http://www.w3.org/2001/XMLSchema#string>",
    "\"d\"^^<http://www.w3.org/1999/02/22-rdf-syntax-ns#langString>", "\"d\0en\"@en",
];
#[rustfmt::skip]
const BACKS: &[&str] = &[
    " .", ".", " . ", ".#", " . # x", "", " ..", " . .", " # .", " . <a:b> <a:c> <a:d> .", " ;", " .\0", "\u{a0}.", ".\u{feff}",
    ".\t", " . x",
];

pub fn odd(r: &mut Random) -> String {
    let pick = |list: &[&'static str], usual: &'static str, r: &mut Random| if r.percent(45) { r.pick(list) } else { usual };
    let front = pick(FRONTS, "<a:b> <a:c> ", r);
    let object = if r.percent(70) { r.pick(OBJECTS) } else { "<a:d>" };
    format!("{front}{object}{}", pick(BACKS, " .", r))
}
