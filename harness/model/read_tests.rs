//! Lines and files of N-Triples, docs/REFERENCE.md, 3.5 and 13, with what they give.

use crate::bytes::{self, LentToRead};
use crate::calls;
use crate::dictionary::{held, Term};
use crate::misreadings::MISREADINGS;
use crate::ntriples::{line, Line};
use crate::tests::Owned;
use crate::*;

#[path = "../w3c/expected.rs"]
mod expected;

const STRING: &str = "\0http://www.w3.org/2001/XMLSchema#string";

fn named(iri: &str) -> Term {
    (1, iri.into())
}

fn blank(label: &str) -> Term {
    (2, label.into())
}

/// The object that a line with this text in its place has; nothing for a bad line.
fn object(text: &str) -> Option<Term> {
    match line(format!("<a:s> <a:p> {text} .").as_bytes()) {
        Line::Triple([s, p, o]) => {
            assert_eq!((s, p), (named("a:s"), named("a:p")));
            Some(o)
        }
        Line::Nothing => panic!("a line that says nothing: {text}"),
        Line::Bad => None,
    }
}

#[test]
fn lines_that_say_nothing() {
    for text in ["", " ", "\t \t", "#", " # <a:s> <a:p> <a:o> .", "#\0\u{7}\\u12\u{10ffff}"] {
        assert_eq!(line(text.as_bytes()), Line::Nothing, "{text:?}");
    }
}

#[test]
fn one_triple() {
    let triple = Line::Triple([blank("s"), named("a:p"), blank("o.1")]);
    for text in ["_:s<a:p>_:o.1.", "\t_:s <a:p>\t_:o.1 . ", "_:s <a:p> _:o.1 .#x", "_:s <a:p> _:o.1. # x ."] {
        assert_eq!(line(text.as_bytes()), triple, "{text:?}");
    }
    let bad = [
        "_:s <a:p> _:o.1",
        "_:s <a:p> _:o ..",
        "_:s <a:p> _:o . .",
        "_:s <a:p> _:o . _:s <a:p> _:o .",
        "_:s <a:p> # .",
        "_:s _:p _:o .",
        "\"s\" <a:p> _:o .",
        "_:s \"p\" _:o .",
        "<a:p> _:o .",
        "_:s <a:p> _:o ; <a:q> _:o .",
        "\u{feff}_:s <a:p> _:o .",
        "_:s\u{a0}<a:p> _:o .",
        "_:s\u{b}<a:p> _:o .",
        ".",
    ];
    for text in bad {
        assert_eq!(line(text.as_bytes()), Line::Bad, "{text:?}");
    }
}

#[test]
fn iris() {
    let good =
        [("<:>", ":"), ("<a/b:c>", "a/b:c"), ("<urn:%zz>", "urn:%zz"), ("<a\\u003A>", "a:"), ("<a:\\U0001f600>", "a:\u{1f600}")];
    for (text, iri) in good {
        assert_eq!(object(text), Some(named(iri)), "{text}");
    }
    let bad = [
        "<>",
        "<a>",
        "<a: >",
        "<a:\\u0020>",
        "<a:\\u0000>",
        "<a:\\u003e>",
        "<a:\\u005C>",
        "<a:\\n>",
        "<a:\\>",
        "<a:",
        "<a:\u{1f}>",
    ];
    for text in
        bad.into_iter().chain(["<a:<>", "<a:\">", "<a:{>", "<a:}>", "<a:|>", "<a:^>", "<a:`>", "<a:\\ud800>", "<a:\\u12>"])
    {
        assert_eq!(object(text), None, "{text}");
    }
    assert_eq!(object("<a:\u{7f}\u{a0}\u{fffe}>"), Some(named("a:\u{7f}\u{a0}\u{fffe}")));
}

#[test]
fn labels() {
    for label in ["a", "0", "_", ":", "a:b", "a-", "a..b", "\u{c0}\u{b7}\u{300}", "\u{effff}", "a\u{2040}"] {
        assert_eq!(object(&format!("_:{label}")), Some(blank(label)), "{label}");
    }
    assert_eq!(object("_:a."), None);
    for label in ["", ".", "-", "-a", "\u{b7}", "\u{300}", "\u{d7}", "a\u{37e}", "\u{f0000}", "a\\u0041", "a/b", "a\u{2041}"] {
        assert_eq!(object(&format!("_:{label}")), None, "{label}");
    }
    assert_eq!(object("_ :a"), None);
    assert_eq!(object("_: a"), None);
}

#[test]
fn literals() {
    let good = [
        ("\"\"", STRING),
        ("\"x\"^^<http://www.w3.org/2001/XMLSchema#string>", "x\0http://www.w3.org/2001/XMLSchema#string"),
        ("\"x\"@EN-us-1", "x\0EN-us-1"),
        ("\"x\" @en", "x\0en"),
        ("\"x\"\t^^ <a:\\u0064>", "x\0a:d"),
        ("\"\\t\\b\\n\\r\\f\\\"\\'\\\\\"@a", "\t\u{8}\n\r\u{c}\"'\\\0a"),
        ("\"\\u0000\0\"@a", "\0\0\0a"),
        ("\"\u{7f}\u{85}\u{2028}<'\\U0010fFfF\"@a", "\u{7f}\u{85}\u{2028}<'\u{10ffff}\0a"),
    ];
    for (text, bytes) in good {
        assert_eq!(object(text), Some((3, bytes.into())), "{text}");
    }
    let bad = [
        "\"x",
        "'x'",
        "\"x\"y",
        "\"x\"@",
        "\"x\"@ en",
        "\"x\"@1",
        "\"x\"@en-",
        "\"x\"@en--a",
        "\"x\"^^",
        "\"x\"^<a:d>",
        "\"x\"^ ^<a:d>",
        "\"x\"^^<d>",
        "\"x\"^^_:d",
        "\"x\"@en^^<a:d>",
        "\"\\x\"",
        "\"\\u12\"",
        "\"\\uD800\"",
        "\"\\uD83D\\uDE00\"",
        "\"\\U00110000\"",
        "\"\\U0000041\"",
        "\"\\u{41}\"",
        "\"\\",
        "\"\"\"x\"\"\"",
        "\"x\"\"y\"",
    ];
    for text in bad {
        assert_eq!(object(text), None, "{text}");
    }
}

#[test]
fn utf8() {
    let text = |middle: &[u8]| [&b"<a:s> <a:p> \""[..], middle, b"\" . # ", middle].concat();
    let good: [&[u8]; 6] =
        [b"\xc2\x80", b"\xe0\xa0\x80", b"\xed\x9f\xbf", b"\xee\x80\x80", b"\xf0\x90\x80\x80", b"\xf4\x8f\xbf\xbf"];
    assert!(good.iter().all(|bytes| matches!(line(&text(bytes)), Line::Triple(_))));
    let bad: [&[u8]; 9] = [
        b"\x80",
        b"\xc0\x80",
        b"\xc1\xbf",
        b"\xe0\x9f\xbf",
        b"\xed\xa0\x80",
        b"\xf0\x8f\xbf\xbf",
        b"\xf4\x90\x80\x80",
        b"\xf5",
        b"\xe1\x80",
    ];
    for bytes in bad {
        assert_eq!(line(&text(bytes)), Line::Bad, "{bytes:?}");
        assert_eq!(line(&[b"#", bytes].concat()), Line::Bad, "{bytes:?}");
    }
}

/// A read into a started dictionary with room for so many entries and bytes more, and a load for so many triples.
fn read(file: &[u8], entries: usize, bytes: usize, triples: usize) -> Result<(Vec<Triple>, Vec<Term>), u32> {
    let (_, mut d) = Owned::start(31 + entries, 1_325 + bytes);
    let (before, mut load) = (d.clone(), vec![7; 3 * triples]);
    let (refusal, count) = calls::read(d.lend(), file, &mut load);
    let (rows, rest) = load.split_at(3 * count as usize);
    assert!(rest.iter().all(|n| *n == 0));
    if refusal != 0 {
        assert_eq!((count, d), (0, before));
        return Err(refusal);
    }
    let terms = held(&d.table, &d.arena, d.terms, d.used).expect("a dictionary");
    Ok((rows.chunks(3).map(|t| [t[0], t[1], t[2]]).collect(), terms[31..].to_vec()))
}

#[test]
fn w3c_tests() {
    let all: Vec<(&str, bool)> = expected::TESTS.iter().map(|test| (test.name, test.triples.is_some())).collect();
    assert_eq!((all.len(), all), (68, expected::manifest()));
    for test in expected::TESTS {
        let terms = |triples: &[Triple], new: &[Term]| -> Vec<[Term; 3]> {
            triples.iter().map(|t| t.map(|id| new[id as usize - 31].clone())).collect()
        };
        let given = read(test.file, 100, 10_000, 100).map(|(triples, new)| terms(&triples, &new));
        let due = test.triples.map(|rows| rows.iter().map(|row| row.map(|(kind, bytes)| (kind, bytes.to_vec()))).collect());
        assert_eq!(given, due.ok_or(BAD_LINE), "{}", test.name);
    }
}

#[test]
fn files() {
    assert_eq!(read(b"", 0, 0, 0), Ok((vec![], vec![])));
    let file = b"<a:1> <a:2> <a:1> .\r\n\r# x\n<a:2> <urn:_> \"1\"^^<a:1> .\r<a:1> <a:2> <a:1> .";
    let terms = vec![named("a:1"), named("a:2"), (3, b"1\0a:1".to_vec())];
    assert_eq!(read(file, 3, 12, 3), Ok((vec![[31, 32, 31], [32, 0, 33], [31, 32, 31]], terms)));
    let ids = [9, 1, 30];
    let owl = b"<http://www.w3.org/2002/07/owl#Thing> <http://www.w3.org/1999/02/22-rdf-syntax-ns#type> \
        <http://www.w3.org/2002/07/owl#Class> .";
    assert_eq!(read(owl, 0, 0, 1), Ok((vec![ids], vec![])));
}

#[test]
fn refusals_in_their_order() {
    let long = |n: usize| format!("<a:1> <a:2> <a:{}> .\n", "x".repeat(n - 2));
    let padded = |line: &str, n: usize| format!("{line}{}", "#".repeat(n - line.len()));
    let refusal = |file: &str, entries, bytes, triples| read(file.as_bytes(), entries, bytes, triples).map(|(t, _)| t.len());
    // 14 before 13, also for a line that says nothing.
    assert_eq!(refusal(&padded("x", 32_769), 9, 99, 9), Err(LONG_LINE));
    assert_eq!(refusal(&padded("x", 32_768), 9, 99, 9), Err(BAD_LINE));
    assert_eq!(refusal(&padded("#", 32_769), 9, 99, 9), Err(LONG_LINE));
    assert_eq!(refusal(&(padded("_:a<a:b>_:c.", 32_768) + "\r\n"), 9, 99, 9), Ok(1));
    // 13 before 11, 11 before 7, 7 before 3.
    assert_eq!(refusal(&long(4_097).replace(" .", " x"), 9, 9_999, 9), Err(BAD_LINE));
    assert_eq!(refusal(&long(4_097), 0, 0, 0), Err(TERM_TOO_LONG));
    assert_eq!(refusal(&long(4_096), 3, 4_101, 0), Err(DICTIONARY_FULL));
    assert_eq!(refusal(&long(4_096), 2, 4_102, 0), Err(DICTIONARY_FULL));
    assert_eq!(refusal(&long(4_096), 3, 4_102, 0), Err(LOAD_TOO_LONG));
    assert_eq!(refusal(&long(4_096), 3, 4_102, 1), Ok(1));
    // The first line that fails decides.
    assert_eq!(refusal("_:a<a:b>_:c.\nx", 2, 5, 1), Err(DICTIONARY_FULL));
    assert_eq!(refusal("_:a<a:b>_:c.\nx\n_:c<a:b>_:d.", 3, 5, 1), Err(BAD_LINE));
    assert_eq!(refusal("_:a<a:b>_:c.\n#\n_:c<a:b>_:c.", 3, 5, 1), Err(LOAD_TOO_LONG));
    assert_eq!(refusal("_:a<a:b>_:c.\n#\n\n", 3, 5, 1), Ok(1));
    // What a line repeats needs room once.
    assert_eq!(refusal("<a:1><a:1><a:1>.", 1, 3, 20_000), Ok(1));
    // A literal's length is that of all its bytes.
    assert_eq!(refusal(&format!("_:a<a:b>\"{}\".", "x".repeat(4_057)), 9, 9_999, 9), Err(TERM_TOO_LONG));
    assert_eq!(refusal(&format!("_:a<a:b>\"{}\".", "\\u0041".repeat(4_056)), 9, 9_999, 9), Ok(1));
    assert_eq!(refusal(&"_:a<a:b>_:c.\n".repeat(16_384), 9, 99, 20_000), Ok(16_384));
    assert_eq!(refusal(&"_:a<a:b>_:c.\n".repeat(16_385), 9, 99, 20_000), Err(LOAD_TOO_LONG));
}

/// Refusals 1 and 2 change nothing, ragged byte lengths included.
#[test]
fn broken_dictionaries_and_ragged_loads() {
    let refusal = |table: usize, load: usize, used: u32| {
        let (mut table, mut arena, mut terms, mut by) = (vec![0; table], vec![0; 1_400], 0, 0);
        bytes::start(&mut table, &mut arena, &mut terms, &mut by);
        by += used;
        let (before, mut load) = ((table.clone(), arena.clone(), terms, by), vec![7; load]);
        let (refusal, count) = bytes::read(LentToRead {
            table: &mut table,
            arena: &mut arena,
            terms: &mut terms,
            used: &mut by,
            file: b"x",
            load: &mut load,
        });
        assert_eq!((count, (table, arena, terms, by)), (0, before));
        assert!(load.iter().all(|b| *b == if refusal <= RAGGED_LOAD { 7 } else { 0 }));
        refusal
    };
    let table = 4 * (64 + 4 * 40);
    assert_eq!(refusal(table, 12, 0), BAD_LINE);
    assert_eq!(refusal(table, 12, 1), BROKEN_DICTIONARY);
    assert_eq!(refusal(table + 1, 13, 0), BROKEN_DICTIONARY);
    for load in [1, 4, 8, 13, 14, 15, 16, 20] {
        assert_eq!(refusal(table, load, 0), RAGGED_LOAD, "{load}");
    }
}

/// A file with the lines of two leaves what the two leave one after the other; however lines end.
#[test]
fn two_files_and_one() {
    let (first, second) = ("_:a <a:p> \"x\"@en . # x\n<urn:_> <a:p> _:b .\n", "_:b <a:q> _:a .\n\n_:c <a:p> \"x\"@en .");
    let (_, mut d) = Owned::start(40, 1_400);
    let mut whole = d.clone();
    let mut loads = vec![[7; 6], [7; 6]];
    assert_eq!(calls::read(d.lend(), first.as_bytes(), &mut loads[0]), (0, 2));
    assert_eq!(calls::read(d.lend(), second.as_bytes(), &mut loads[1]), (0, 2));
    for end in ["\n", "\r", "\r\n", "\n\r\n"] {
        let mut load = [7; 12];
        assert_eq!(
            calls::read(whole.clone().lend(), format!("{first}{second}").replace('\n', end).as_bytes(), &mut load),
            (0, 4)
        );
        assert_eq!(load[..], loads.concat());
    }
    calls::read(whole.lend(), format!("{first}{second}").as_bytes(), &mut [7; 12]);
    assert_eq!(d, whole);
}

#[test]
fn misreadings_have_different_names() {
    let names: std::collections::BTreeSet<&str> = MISREADINGS.iter().map(|(name, _)| *name).collect();
    assert_eq!(names.len(), MISREADINGS.len());
}
