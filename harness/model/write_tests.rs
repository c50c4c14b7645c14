//! Terms, lines and stores as canonical N-Triples, docs/REFERENCE.md, 3.7, with texts written down by hand.

use crate::bytes::{self, LentToWrite};
use crate::calls;
use crate::dictionary::{held, starting_terms, Term};
use crate::miswritings::MISWRITINGS;
use crate::ntriples::{self, Line};
use crate::tests::Owned;
use crate::writing;
use crate::*;

const STRING: &str = "\0http://www.w3.org/2001/XMLSchema#string";

fn named(iri: &str) -> Term {
    (1, iri.into())
}

fn blank(label: &str) -> Term {
    (2, label.into())
}

fn literal(held: &str) -> Term {
    (3, held.into())
}

/// The term's text, which a line has to give back as this term; or none, and no line that might have this term gives it.
fn text(term: &Term) -> Option<String> {
    let text = writing::term(term);
    if let Some(text) = &text {
        let triple = [named("a:s"), named("a:p"), term.clone()];
        assert_eq!(ntriples::line(format!("<a:s> <a:p> {text} .").as_bytes()), Line::Triple(triple), "{text}");
    }
    text
}

/// Four characters are escaped, no other one is, and none by its number.
#[test]
fn escapes() {
    assert_eq!(text(&literal("\"\\\n\r\0en")).as_deref(), Some("\"\\\"\\\\\\n\\r\"@en"));
    assert_eq!(text(&literal("a\"b\\c\nd\re\0en")).as_deref(), Some("\"a\\\"b\\\\c\\nd\\re\"@en"));
    let others = "\t\u{8}\u{c}\u{b}\u{1}\u{1f}'\u{7f}\u{80}\u{85}\u{a0}\u{e9}\u{2028}\u{feff}\u{fffd}\u{fffe}\u{1f600}\u{10ffff}";
    assert_eq!(text(&literal(&format!("{others}\0en"))), Some(format!("\"{others}\"@en")));
    assert_eq!(text(&literal("\0\0en")).as_deref(), Some("\"\0\"@en"));
    assert_eq!(text(&literal("\\u0041\0en")).as_deref(), Some("\"\\\\u0041\"@en"));
    let special = ['"', '\\', '\n', '\r'];
    for c in ('\0'..='\u{10ffff}').filter(|c| !special.contains(c)) {
        assert_eq!(writing::term(&literal(&format!("{c}\0en"))), Some(format!("\"{c}\"@en")));
    }
}

/// One space behind each term, one line feed; nothing before a tag or a datatype.
#[test]
fn layout() {
    let due = "<urn:s> <urn:p> <urn:o> .\n";
    assert_eq!(writing::line([&named("urn:s"), &named("urn:p"), &named("urn:o")]).as_deref(), Some(due));
    let due = "_:s <urn:p> _:o .\n";
    assert_eq!(writing::line([&blank("s"), &named("urn:p"), &blank("o")]).as_deref(), Some(due));
    let line = |held: &str| writing::line([&named("a:s"), &named("a:p"), &literal(held)]);
    assert_eq!(line(&format!("x{STRING}")).as_deref(), Some("<a:s> <a:p> \"x\" .\n"));
    assert_eq!(line(STRING).as_deref(), Some("<a:s> <a:p> \"\" .\n"));
    assert_eq!(line("x\0EN-us").as_deref(), Some("<a:s> <a:p> \"x\"@EN-us .\n"));
    assert_eq!(line("x\0a:d").as_deref(), Some("<a:s> <a:p> \"x\"^^<a:d> .\n"));
    let other = "x\0http://www.w3.org/2001/XMLSchema#strinG";
    assert_eq!(line(other).as_deref(), Some("<a:s> <a:p> \"x\"^^<http://www.w3.org/2001/XMLSchema#strinG> .\n"));
    let long = "x\0http://www.w3.org/2001/XMLSchema#string2";
    assert_eq!(line(long).as_deref(), Some("<a:s> <a:p> \"x\"^^<http://www.w3.org/2001/XMLSchema#string2> .\n"));
}

#[test]
fn iris() {
    for iri in [":", "a:", "a/b:c", "urn:%zz", "urn:_", "a:\u{7f}\u{e9}\u{fffe}\u{10ffff}", "a:!$&'()*+,;=@?#/[]~_-."] {
        assert_eq!(text(&named(iri)), Some(format!("<{iri}>")), "{iri}");
    }
    for iri in ["", "a", "a/b"] {
        assert_eq!(text(&named(iri)), None, "{iri}");
    }
    for c in "<>\"{}|^`\\ \n\0\u{1f}".chars() {
        assert_eq!(text(&named(&format!("a:{c}"))), None, "{c}");
    }
}

#[test]
fn labels() {
    for label in ["a", "0", "_", ":", "a:b", "a-", "a.b", "a..b", "\u{c0}\u{b7}\u{300}", "\u{effff}", "a\u{2040}"] {
        assert_eq!(text(&blank(label)), Some(format!("_:{label}")), "{label}");
    }
    let none =
        ["", ".", "a.", ".a", "-", "-a", "\u{b7}", "\u{300}a", "\u{d7}", "a\u{37e}", "\u{f0000}", "a b", "a\\", "a/b", "a\0"];
    for label in none {
        assert_eq!(text(&blank(label)), None, "{label}");
    }
    // The mark is no part of a label, but what looks like it may be.
    assert_eq!(text(&blank("_:a")).as_deref(), Some("_:_:a"));
}

/// Text and tag or datatype, parted at the last zero byte; a colon tells which.
#[test]
fn literals() {
    let good = [
        ("x\0urn", "\"x\"@urn"),
        ("x\0urn:", "\"x\"^^<urn:>"),
        ("x\0:", "\"x\"^^<:>"),
        ("a:b\0en", "\"a:b\"@en"),
        ("x\0y\0en", "\"x\0y\"@en"),
        ("x\0y\0a:d", "\"x\0y\"^^<a:d>"),
        ("x\0en\0de-1996", "\"x\0en\"@de-1996"),
        ("x\0a-1-B2", "\"x\"@a-1-B2"),
        ("x\0rdf:langString", "\"x\"^^<rdf:langString>"),
    ];
    for (held, due) in good {
        assert_eq!(text(&literal(held)).as_deref(), Some(due), "{held:?}");
    }
    for held in ["", "x", "x\0", "\0", "en"] {
        assert_eq!(text(&literal(held)), None, "{held:?}");
    }
    for behind in ["a_b", "1", "e1", "en-", "-en", "en--us", "\u{e9}", "@en", "a:b c", "a:>"] {
        assert_eq!(text(&literal(&format!("x\0{behind}"))), None, "{behind:?}");
    }
}

/// Bytes that are no UTF-8 are no term of a file, whatever the kind; nor is a term of another kind.
#[test]
fn utf8() {
    for (front, back) in [(&b"a:"[..], &b""[..]), (b"", b":b"), (b"x", b"\0en"), (b"x\0a:", b"")] {
        for bad in [&b"\x80"[..], b"\xff", b"\xc0\x80", b"\xed\xa0\x80", b"\xf4\x90\x80\x80", b"\xe2\x82"] {
            let bytes = [front, bad, back].concat();
            assert!((1..=3).all(|kind| writing::term(&(kind, bytes.clone())).is_none()), "{bytes:?}");
        }
    }
    assert!([0, 4, u32::MAX].iter().all(|kind| writing::term(&(*kind, b"a:b".to_vec())).is_none()));
}

/// A term has a text exactly if some line of a file gives it: each character of the first planes, alone and beside others.
#[test]
fn what_reading_gives() {
    let given = |term: &Term, text: String| {
        let line = ntriples::line(format!("<a:s> <a:p> {text} .").as_bytes());
        matches!(line, Line::Triple([_, _, o]) if o == *term)
    };
    for c in ('\0'..='\u{10fff}').chain('\u{efff0}'..='\u{f000f}') {
        for label in [format!("{c}"), format!("a{c}"), format!("{c}a"), format!("a{c}b")] {
            let term = blank(&label);
            assert_eq!(writing::term(&term).is_some(), given(&term, format!("_:{label}")), "{label:?}");
        }
        let (iri, tag) = (format!("a:{c}"), format!("a{c}"));
        assert_eq!(writing::term(&named(&iri)).is_some(), given(&named(&iri), format!("<{iri}>")), "{iri:?}");
        let term = literal(&format!("x\0{tag}"));
        let expected = given(&term, format!("\"x\"@{tag}")) || given(&term, format!("\"x\"^^<{tag}>"));
        assert_eq!(writing::term(&term).is_some(), expected, "{tag:?}");
    }
}

/// Terms from id 31 on: two named nodes, two blank ones, three literals, and one of each kind that no file has.
fn terms() -> Vec<Term> {
    let mut terms = vec![named("a:1"), named("a:2"), blank("b"), blank("c:"), literal(&format!("x{STRING}")), literal("y\0en")];
    terms.extend([literal("z\0a:d"), named("no"), blank("no."), literal("no")]);
    terms
}

const NAMED: u32 = 31;
const OTHER: u32 = 32;
const BLANK: u32 = 33;
const COLON: u32 = 34;
const PLAIN: u32 = 35;
const TAGGED: u32 = 36;
const TYPED: u32 = 37;
const NO_IRI: u32 = 38;
const NO_LABEL: u32 = 39;
const NO_LITERAL: u32 = 40;
const UNKNOWN: u32 = 41;

fn dictionary() -> Owned {
    let (_, mut d) = Owned::start(60, 2_000);
    for (id, (kind, bytes)) in (NAMED..).zip(terms()) {
        assert_eq!(calls::put(d.lend(), kind, &bytes), (0, id));
    }
    d
}

/// The rows of triples, with any numbers for pass and rule, which do not matter.
fn store(triples: &[Triple]) -> Vec<u32> {
    triples.iter().zip(7..).flat_map(|([s, p, o], k)| [*s, *p, *o, u32::MAX - k, 1_000 * k]).collect()
}

/// A write of these rows on a page of so many sevens: the page, the text's length and the number left out; or the refusal, after which the
/// page is as it was, or zero after 15. The dictionary is never changed.
fn write(store: &[u32], triples: u32, page: usize) -> Result<(Vec<u8>, usize, u32), u32> {
    let mut d = dictionary();
    let (before, mut page) = (d.clone(), vec![7; page]);
    let (refusal, length, left_out) = writing::write(d.lend(), store, triples, &mut page);
    assert_eq!(d, before);
    if refusal != 0 {
        let left = if refusal == PAGE_FULL { 0 } else { 7 };
        assert_eq!((length, left_out), (0, 0));
        assert!(page.iter().all(|b| *b == left));
        return Err(refusal);
    }
    assert!(page[length..].iter().all(|b| *b == 0));
    Ok((page, length, left_out))
}

/// The text of triples on a page of just its length, and the number left out.
fn written(triples: &[Triple]) -> (String, u32) {
    let (rows, count) = (store(triples), triples.len() as u32);
    let (page, length, left_out) = write(&rows, count, 30_000).expect("accepted");
    let exact = write(&rows, count, length).expect("accepted");
    assert_eq!(exact, (page[..length].to_vec(), length, left_out));
    assert_eq!(length == 0, write(&rows, count, length.saturating_sub(1)).is_ok());
    (String::from_utf8(exact.0).expect("UTF-8"), left_out)
}

#[test]
fn stores() {
    assert_eq!(written(&[]), (String::new(), 0));
    let all = [[NAMED, OTHER, PLAIN], [BLANK, NAMED, TAGGED], [COLON, NAMED, TYPED], [NAMED, OTHER, BLANK]];
    let due = "<a:1> <a:2> \"x\" .\n_:b <a:1> \"y\"@en .\n_:c: <a:1> \"z\"^^<a:d> .\n<a:1> <a:2> _:b .\n";
    assert_eq!(written(&all), (due.into(), 0));
    // In the order of the store, each row, repeated ones too.
    let rows = [[OTHER, NAMED, NAMED], [NAMED, NAMED, OTHER], [OTHER, NAMED, NAMED]];
    assert_eq!(written(&rows), ("<a:2> <a:1> <a:1> .\n<a:1> <a:1> <a:2> .\n<a:2> <a:1> <a:1> .\n".into(), 0));
}

/// Id 0 is written, in each place, and so are the terms of a start.
#[test]
fn id_0_and_the_vocabulary() {
    assert_eq!(written(&[[0, 0, 0]]), ("<urn:_> <urn:_> <urn:_> .\n".into(), 0));
    let rdf = "http://www.w3.org/1999/02/22-rdf-syntax-ns#";
    let due = format!("<{rdf}nil> <{rdf}type> <http://www.w3.org/2002/07/owl#Class> .\n<a:1> <{rdf}first> <urn:_> .\n");
    assert_eq!(written(&[[4, 1, 30], [NAMED, 2, 0]]), (due, 0));
    assert!((0..31).all(|id| written(&[[id, 1, id], [id, id, id]]).1 == 0));
}

/// Each reason, alone and with others; a triple counts once.
#[test]
fn left_out() {
    let reasons = [
        [PLAIN, NAMED, NAMED],
        [TAGGED, NAMED, NAMED],
        [NAMED, BLANK, NAMED],
        [NAMED, PLAIN, NAMED],
        [NO_IRI, NAMED, NAMED],
        [NAMED, NO_IRI, NAMED],
        [NAMED, NAMED, NO_IRI],
        [NO_LABEL, NAMED, NAMED],
        [NAMED, NAMED, NO_LABEL],
        [NAMED, NAMED, NO_LITERAL],
        [NO_LITERAL, NO_LABEL, NO_IRI],
        [PLAIN, PLAIN, PLAIN],
    ];
    for triple in reasons {
        assert_eq!(written(&[triple]), (String::new(), 1), "{triple:?}");
    }
    let mut rows = reasons.to_vec();
    rows.insert(5, [NAMED, NAMED, NAMED]);
    rows.push([BLANK, OTHER, BLANK]);
    assert_eq!(written(&rows), ("<a:1> <a:1> <a:1> .\n_:b <a:2> _:b .\n".into(), 12));
    rows.extend(reasons);
    assert_eq!(written(&rows).1, 24);
}

#[test]
fn refusal_4() {
    let rows = store(&[[NAMED; 3]; 3]);
    for numbers in [1, 2, 3, 4, 6, 9, 12, 14] {
        assert_eq!(write(&rows[..numbers], 0, 99), Err(ILL_SIZED_STORE), "{numbers}");
    }
    let count = |triples: u32| write(&rows, triples, 999).map(|(_, length, _)| length);
    assert_eq!([0, 1, 2, 3].map(count), [Ok(0), Ok(20), Ok(40), Ok(60)]);
    assert_eq!([4, 5, 15, u32::MAX].map(count), [Err(ILL_SIZED_STORE); 4]);
    assert_eq!((write(&[], 0, 0), write(&[], 1, 0)), (Ok((vec![], 0, 0)), Err(ILL_SIZED_STORE)));
    let most = vec![u32::MAX; 5 * 65_535];
    assert_eq!(write(&most, 0, 5), Ok((vec![0; 5], 0, 0)));
    assert_eq!(write(&[&most[..], &[0; 5]].concat(), 0, 5), Err(ILL_SIZED_STORE));
    let most: Vec<u32> = [NAMED, NAMED, NAMED, 0, 0].repeat(65_535);
    assert_eq!(write(&most, 65_535, 20 * 65_535).map(|(_, length, _)| length), Ok(20 * 65_535));
}

/// 6 is for the rows that are counted, those that are left out too, and for subject, predicate and object.
#[test]
fn refusal_6() {
    let good = [NAMED, NAMED, NAMED];
    for place in 0..3 {
        for id in [UNKNOWN, UNKNOWN + 1, u32::MAX] {
            let mut bad = good;
            bad[place] = id;
            assert_eq!(write(&store(&[good, bad]), 2, 99), Err(UNKNOWN_TERM), "{bad:?}");
            assert_eq!(write(&store(&[good, bad]), 1, 99).map(|(_, length, _)| length), Ok(20), "{bad:?}");
            let mut left_out = [PLAIN, PLAIN, PLAIN];
            left_out[place] = id;
            assert_eq!(write(&store(&[left_out]), 1, 99), Err(UNKNOWN_TERM), "{left_out:?}");
        }
    }
    assert_eq!(write(&[NAMED, NAMED, NAMED, u32::MAX, UNKNOWN], 1, 20).map(|(_, length, _)| length), Ok(20));
}

/// 15 where the page is a byte too short; a page just as long as the text, one of no bytes for no text.
#[test]
fn refusal_15() {
    let rows = store(&[[NAMED; 3], [PLAIN; 3], [BLANK, NAMED, BLANK]]);
    let text = b"<a:1> <a:1> <a:1> .\n_:b <a:1> _:b .\n";
    assert_eq!(write(&rows, 3, text.len()), Ok((text.to_vec(), 36, 1)));
    assert_eq!(write(&rows, 3, text.len() + 3), Ok(([&text[..], &[0; 3]].concat(), 36, 1)));
    for page in [0, 1, 20, 35] {
        assert_eq!(write(&rows, 3, page), Err(PAGE_FULL));
    }
    assert_eq!(write(&store(&[[PLAIN; 3]]), 1, 0), Ok((vec![], 0, 1)));
}

/// The earlier of two conditions decides.
#[test]
fn refusals_in_their_order() {
    let unknown = store(&[[UNKNOWN; 3]]);
    assert_eq!(write(&unknown, 2, 0), Err(ILL_SIZED_STORE));
    assert_eq!(write(&unknown[..4], 1, 0), Err(ILL_SIZED_STORE));
    assert_eq!(write(&store(&[[NAMED; 3], [UNKNOWN; 3]]), 2, 0), Err(UNKNOWN_TERM));
    assert_eq!(write(&store(&[[NAMED; 3]]), 1, 0), Err(PAGE_FULL));
    let mut d = dictionary();
    d.used += 1;
    let mut page = [7; 9];
    assert_eq!(writing::write(d.lend(), &unknown[..4], 9, &mut page), (BROKEN_DICTIONARY, 0, 0));
    assert_eq!(page, [7; 9]);
}

/// Over bytes: a table of no whole numbers is broken, a store of none is ill-sized.
#[test]
fn bytes_of_no_whole_numbers() {
    let d = dictionary();
    let table: Vec<u8> = d.table.iter().flat_map(|n| n.to_le_bytes()).collect();
    let store: Vec<u8> = store(&[[NAMED; 3]]).iter().flat_map(|n| n.to_le_bytes()).collect();
    let write = |table: &[u8], store: &[u8], triples: u32| {
        let mut page = vec![7; 20];
        let lent = LentToWrite { table, arena: &d.arena, terms: d.terms, used: d.used, store, triples, page: &mut page };
        (bytes::write(lent), page)
    };
    assert_eq!(write(&table, &store, 1), ((0, 20, 0), b"<a:1> <a:1> <a:1> .\n".to_vec()));
    assert_eq!(write(&[&table[..], &[0]].concat(), &store, 9), ((BROKEN_DICTIONARY, 0, 0), vec![7; 20]));
    for bytes in [1, 2, 3, 4, 8, 12, 16, 17, 18, 19] {
        assert_eq!(write(&table, &store[..bytes], 0), ((ILL_SIZED_STORE, 0, 0), vec![7; 20]), "{bytes}");
    }
    assert_eq!(write(&table, &[], 0), ((0, 0, 0), vec![0; 20]));
}

/// What was written is read into a started dictionary of the old one's lengths: the triples that were not left out, as terms.
#[test]
fn read_again() {
    let known = (starting_terms().len() + terms().len()) as u32;
    let rows: Vec<Triple> = (0..known).flat_map(|k| [[k, NAMED, k], [BLANK, k, 7], [k, 1, (k * 7) % known]]).collect();
    let (text, left_out) = written(&rows);
    let (_, mut again) = Owned::start(60, 2_000);
    let count = rows.len() - left_out as usize;
    let mut load = vec![7; 3 * count];
    assert_eq!(calls::read(again.lend(), text.as_bytes(), &mut load), (0, count as u32));
    let [old, new] = [dictionary(), again].map(|d| held(&d.table, &d.arena, d.terms, d.used).expect("a dictionary"));
    let as_terms = |triple: &[u32], terms: &[Term]| [0, 1, 2].map(|k| terms[triple[k] as usize].clone());
    let read: Vec<[Term; 3]> = load.chunks(3).map(|triple| as_terms(triple, &new)).collect();
    let kept = rows.iter().map(|triple| as_terms(triple, &old)).filter(|[s, p, o]| writing::line([s, p, o]).is_some());
    assert_eq!(read, kept.collect::<Vec<_>>());
}

#[test]
fn miswritings_have_different_names() {
    let names: std::collections::BTreeSet<&str> = MISWRITINGS.iter().map(|(name, _)| *name).collect();
    assert_eq!(names.len(), MISWRITINGS.len());
}
