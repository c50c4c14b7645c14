//! Lists of reads, with what a file gives written down by hand: ids, triples, counters and refusals.

use crate::calls::*;
use crate::lists::{lend, ARENA_BYTES, EMPTY, FINDINGS_NUMBERS, TABLE_NUMBERS, WORK_NUMBERS};
use crate::memory::{COUNT, LOAD, TERMS, USED};
use crate::text::Text;

const XSD_STRING: &str = "http://www.w3.org/2001/XMLSchema#string";
const TYPE: &str = "<http://www.w3.org/1999/02/22-rdf-syntax-ns#type>";
const SUB_CLASS: &str = "<http://www.w3.org/2000/01/rdf-schema#subClassOf>";

/// A line with three new terms of five bytes each.
const ABC: &[u8] = b"<urn:a> <urn:b> <urn:c> .\n";

pub fn lists(text: &mut Text) {
    given(text);
    text.end("read: terms, triples and lines");
    before_the_file(text);
    bad_lines(text);
    text.end("read: refusals 1, 2 and 13");
    long_terms(text);
    one_entry_short(text);
    one_byte_short(text);
    text.end("read: refusals 11 and 7");
    full_load(text);
    first_line_that_fails(text);
    text.end("read: refusal 3, and the first line that fails");
    read_and_run(text);
    text.end("read: files, and runs of their loads");
}

/// What accepted files leave.
fn given(text: &mut Text) {
    every_kind(text);
    held_terms(text);
    nothing_said(text);
    line_ends(text);
    literals_and_labels(text);
}

/// The terms of `every_kind` from id 31 on, with the bytes used after each.
const TERMS_READ: [(u32, &[u8], usize); 8] = [
    (1, b"urn:a", 1330),
    (1, b"urn:p", 1335),
    (2, b"b", 1336),
    (3, b"x\0http://www.w3.org/2001/XMLSchema#string", 1377),
    (1, b"urn:q", 1382),
    (3, b"x\0en", 1386),
    (3, b"1\0urn:d", 1393),
    (2, b"urn:a", 1398),
];

/// Comments, empty lines, each end of a line, each kind of term, a plain literal and its twin of xsd:string, a label with the bytes of an
/// IRI, and a triple twice, in a load that is longer.
fn every_kind(text: &mut Text) {
    begin(text, TABLE_NUMBERS, ARENA_BYTES);
    let file = format!(
        "# comment\n\n<urn:a> <urn:p> _:b .\r\n_:b <urn:p> \"x\" .\r<urn:a> <urn:q> \"x\"^^<{XSD_STRING}> . # the same\n\
         \t<urn:a>\t<urn:q>\"x\"@en.\n<urn:a> <urn:q> \"1\"^^<urn:d> .\n_:urn:a <urn:p> <urn:a> .\r\n\r\n<urn:a> <urn:p> _:b ."
    );
    let triples = [31, 32, 33, 33, 32, 34, 31, 35, 34, 31, 35, 36, 31, 35, 37, 38, 32, 31, 31, 32, 33];
    read_all(text, file.as_bytes(), 30, &triples, [39, 1398]);
    text.expect_wrong(COUNT);
    text.expect_wrong(LOAD.first + 20);
    text.expect_wrong(LOAD.first + 29);
    for (id, (kind, bytes, end)) in (31..).zip(TERMS_READ) {
        look(text, id, 0, kind, bytes);
        bytes_at(text, end - bytes.len(), bytes);
    }
    look(text, 39, 12, 0, b"");
    put_new(text, 1, b"urn:d", 39, 1403);
}

/// Terms that are held keep their ids, those of a start among them, however they are written; `urn:_` has id 0, which a run refuses.
fn held_terms(text: &mut Text) {
    let file = format!(
        "<http://www.w3.org/2002/07/owl#Thing> {TYPE} <http://www.w3.org/2002/07/owl#Class> .\n\
         <urn:\\u0061> <urn:\\U00000070> \"\\u0078\"^^<{XSD_STRING}> .\n<urn:_> <urn:_> <urn:_> .\n"
    );
    let triples = [9, 1, 30, 31, 32, 34, 0, 0, 0];
    read_all(text, file.as_bytes(), 9, &triples, [40, 1403]);
    refuse(text, &lend(&triples, rows(9), 5, WORK_NUMBERS), 5, [40, 1403]);
}

/// Files without a triple, in a load with room and in one of no numbers; and a load of 16,385 triples.
fn nothing_said(text: &mut Text) {
    for file in [&b""[..], b" \t", b"#", b"\r\n\n\r", b" # <urn:x> <urn:y> <urn:z> ."] {
        read_all(text, file, 6, &[], [40, 1403]);
        read_all(text, file, 0, &[], [40, 1403]);
    }
    read_all(text, b"_:b <urn:p> _:b .", 49155, &[33, 32, 33], [40, 1403]);
}

/// Two triples with comments behind them, however their lines end.
fn line_ends(text: &mut Text) {
    for end in ["\n", "\r", "\r\n", "\n\r\r\n"] {
        begin(text, TABLE_NUMBERS, ARENA_BYTES);
        let file = format!("_:b<urn:p>_:b.#{end}{end}_:b <urn:q> _:c . # <urn:x>{end}");
        read_all(text, file.as_bytes(), 6, &[31, 32, 31, 31, 33, 34], [35, 1337]);
    }
}

/// Literals without text, with zero bytes, with escapes, with characters that end no line; space before a tag or a datatype; a label with
/// a dot. The terms that `line_ends` left are held.
fn literals_and_labels(text: &mut Text) {
    let file = "_:b <urn:p> \"\"@a .\n_:b <urn:p> \"\\u0000\"@a .\n_:b <urn:p> \"\\u00e9\\u00C9\\'\" @en-US .\n\
        _:b.1 <urn:p> \"\u{85}\u{2028}\"\t^^ <urn:d> .\n";
    let triples = [31, 32, 35, 31, 32, 36, 31, 32, 37, 38, 32, 39];
    read_all(text, file.as_bytes(), 12, &triples, [40, 1367]);
    look(text, 35, 0, 3, b"\0a");
    look(text, 36, 0, 3, b"\0\0a");
    look(text, 37, 0, 3, b"\xc3\xa9\xc3\x89'\0en-US");
    look(text, 38, 0, 2, b"b.1");
    look(text, 39, 0, 3, b"\xc2\x85\xe2\x80\xa8\0urn:d");
}

/// A broken dictionary, then a ragged load, whatever the file is: nothing changes.
fn before_the_file(text: &mut Text) {
    begin(text, TABLE_NUMBERS, ARENA_BYTES);
    for load in [0, 1, 6, 7] {
        text.change(|m| m.0[USED] = 1326);
        read_none(text, ABC, load, 1);
        read_none(text, b"x", load, 1);
        text.change(|m| m.0[USED] = 1325);
    }
    text.change(|m| m.0[TERMS] = 32);
    read_none(text, b"", 3, 1);
    text.change(|m| m.0[TERMS] = 31);
    for load in [1, 2, 4, 5] {
        read_none(text, ABC, load, 2);
        read_none(text, b"x", load, 2);
    }
    whole(text);
}

/// What stands behind a good line, whose terms are then taken back.
const BAD_LINES: [&[u8]; 19] = [
    b"x",
    b".",
    b"_:a _:b _:c .",
    b"\"a\" <urn:b> _:c .",
    b"<urn:x> <urn:y> <urn:z>",
    b"<urn:x> <urn:y> <urn:z> . .",
    b"<urn:x> <urn:y> <urn:z> .\n<x> <urn:y> <urn:z> .",
    b"<urn:x> <urn:y> <urn: > .",
    b"<urn:x> <urn:y> <urn:\\u0020> .",
    b"<urn:x> <urn:y> \"\\uD83D\\uDE00\" .",
    b"<urn:x> <urn:y> \"\\U00110000\" .",
    b"<urn:x>\x0c<urn:y> <urn:z> .",
    b"<urn:x> <urn:y> \"\xc0\x80\" .",
    b"<urn:x> <urn:y> \"x\"@en- .",
    b"<urn:x> <urn:y> \"x\"^^<d> .",
    b"<urn:x> <urn:y> _:-a .",
    b"# \x80",
    b"\xef\xbb\xbf<urn:x> <urn:y> <urn:z> .",
    b"<urn:x> <urn:y> \"\xed\xa0\x80\" .",
];

fn bad_lines(text: &mut Text) {
    begin(text, TABLE_NUMBERS, ARENA_BYTES);
    put_new(text, 1, b"urn:b", 31, 1330);
    for bad in BAD_LINES {
        read_none(text, &[ABC, bad].concat(), 9, 13);
        look(text, 32, 12, 0, b"");
    }
    text.expect_wrong(LOAD.first);
    look(text, 31, 0, 1, b"urn:b");
    read_all(text, ABC, 9, &[32, 31, 33], [34, 1340]);
    put_new(text, 1, b"urn:d", 34, 1345);
}

/// A literal of 4,097 bytes, with those of its datatype, also where no term has room; and one of 4,096, which comes to the front of chain
/// 43 where all have.
fn long_terms(text: &mut Text) {
    let line = |n: usize, end: &str| format!("_:a<a:b>\"{}\"{end}", "x".repeat(n - 40)).into_bytes();
    begin(text, 188, 9516);
    read_none(text, &line(4097, "."), 3, 11);
    read_none(text, &line(4097, ""), 3, 13);
    read_none(text, &line(4096, "."), 3, 7);
    read_none(text, &line(4097, "."), 0, 11);
    begin(text, 200, 5424);
    read_none(text, &line(4097, "."), 3, 11);
    read_none(text, &line(4096, "."), 3, 7);
    begin(text, 200, 5425);
    read_none(text, &line(4096, "."), 0, 3);
    read_all(text, &line(4096, "."), 3, &[31, 32, 33], [34, 5425]);
    entry_at(text, 196, [1329, 4096, 3, 1]);
    number_at(text, 43, 33);
}

/// A table with two entries left, then with none: terms of a line count once, those that are held not at all.
fn one_entry_short(text: &mut Text) {
    begin(text, 196, ARENA_BYTES);
    read_none(text, ABC, 3, 7);
    look(text, 31, 12, 0, b"");
    read_none(text, b"<urn:a> <urn:b> <urn:a> .\n_:c <urn:a> <urn:b> .", 6, 7);
    whole(text);
    read_all(text, b"<urn:a> <urn:b> <urn:a> .", 3, &[31, 32, 31], [33, 1335]);
    read_none(text, ABC, 3, 7);
    read_none(text, b"<urn:a> _:b <urn:a> .", 3, 13);
    read_all(text, b"<urn:b> <urn:a> <urn:b> .", 3, &[32, 31, 32], [33, 1335]);
    put_same(text, 1, b"urn:c", 7, 0);
}

/// An arena with a byte less than the line's three terms need, and one with just as many.
fn one_byte_short(text: &mut Text) {
    begin(text, TABLE_NUMBERS, 1339);
    read_none(text, ABC, 3, 7);
    bytes_at(text, 1325, &[0; 14]);
    put_new(text, 1, b"urn:c", 31, 1330);
    read_none(text, b"<urn:a> <urn:b> <urn:c> .", 3, 7);
    read_all(text, b"<urn:a> <a:b> <urn:c> .", 3, &[32, 33, 31], [34, 1338]);
    begin(text, TABLE_NUMBERS, 1340);
    read_all(text, ABC, 3, &[31, 32, 33], [34, 1340]);
    read_none(text, b"<urn:a> <urn:b> <:> .", 3, 7);
    read_all(text, ABC, 3, &[31, 32, 33], [34, 1340]);
}

/// A load without a place for the line's triple. Lines that say nothing need none; a bad one is found.
fn full_load(text: &mut Text) {
    begin(text, TABLE_NUMBERS, ARENA_BYTES);
    let twice = [ABC, ABC].concat();
    read_none(text, ABC, 0, 3);
    read_none(text, &twice, 3, 3);
    look(text, 31, 12, 0, b"");
    read_none(text, &[ABC, b"x"].concat(), 3, 13);
    read_none(text, b"<urn:a> <urn:b> <urn:c> . x", 0, 13);
    whole(text);
    read_all(text, &[ABC, b"# comment\n \n\r\n"].concat(), 3, &[31, 32, 33], [34, 1340]);
    read_none(text, &twice, 3, 3);
    text.expect_wrong(LOAD.first + 2);
    read_all(text, &twice, 6, &[31, 32, 33, 31, 32, 33], [34, 1340]);
}

/// The first line that fails decides, by the first refusal of its own; where that is 7 or 3, a bad line may follow.
fn first_line_that_fails(text: &mut Text) {
    let file = |lines: [&[u8]; 3]| lines.concat();
    let (bad, comment): (&[u8], &[u8]) = (b"x\n", b"#\n");
    begin(text, 196, ARENA_BYTES);
    read_none(text, &file([comment, ABC, bad]), 3, 7);
    read_none(text, &file([comment, bad, ABC]), 3, 13);
    read_none(text, ABC, 0, 7);
    begin(text, 200, ARENA_BYTES);
    read_none(text, &file([ABC, ABC, bad]), 3, 3);
    read_none(text, &file([ABC, bad, ABC]), 3, 13);
    read_none(text, &file([ABC, b"_:d <urn:b> _:d .\n", ABC]), 3, 7);
    read_none(text, &file([ABC, ABC, b"_:d <urn:b> _:d .\n"]), 3, 3);
    look(text, 31, 12, 0, b"");
    put_new(text, 1, b"urn:c", 31, 1330);
    read_all(text, &file([comment, ABC, comment]), 3, &[32, 33, 31], [34, 1340]);
}

/// The answer of a run of the first file's load, behind that of an empty load, and what follows it where the second's is run with it.
const FIRST_ANSWER: [Row; 5] = [[31, 1, 9, 1, 1], [31, 1, 32, 0, 0], [31, 1, 33, 1, 14], [32, 1, 9, 1, 1], [32, 8, 33, 0, 0]];
const THEN: [Row; 4] = [[37, 1, 9, 1, 1], [37, 1, 32, 0, 0], [37, 1, 33, 1, 14], [37, 38, 39, 0, 0]];

/// A file, a run of its load, then a refused file and a second one with more terms, and a run of the first answer with its load. One file
/// with the lines of both gives the loads of both, and its run the same triples; what the first answer has are then no starting triples.
fn read_and_run(text: &mut Text) {
    let first = format!("<urn:a> {TYPE} <urn:b> .\n<urn:b> {SUB_CLASS} <urn:c> .\n");
    let second = format!("_:x {TYPE} <urn:b> . # more\n_:x <urn:p> \"1\" .\n");
    let (one, two) = ([31, 1, 32, 32, 8, 33], [37, 1, 32, 37, 38, 39]);
    let run = |text: &mut Text, load: &[u32], answer: &[Row], after: Counters| {
        accept(text, &lend(load, rows(14), FINDINGS_NUMBERS, WORK_NUMBERS), answer, &[], after);
    };
    let answer = [&EMPTY[..], &FIRST_ANSWER].concat();
    begin(text, TABLE_NUMBERS, ARENA_BYTES);
    read_all(text, first.as_bytes(), 6, &one, [34, 1340]);
    run(text, &one, &answer, [37, 1498]);
    read_none(text, format!("{second}x").as_bytes(), 9, 13);
    look(text, 37, 12, 0, b"");
    read_all(text, second.as_bytes(), 12, &two, [40, 1545]);
    run(text, &[&loaded(&answer)[..], &two].concat(), &[&starting(&answer)[..], &THEN].concat(), [40, 1545]);
    read_all(text, (first + &second).as_bytes(), 12, &[one, two].concat(), [40, 1545]);
    run(text, &[one, two].concat(), &[&answer[..], &THEN].concat(), [40, 1545]);
    look(text, 39, 0, 3, b"1\0http://www.w3.org/2001/XMLSchema#string");
}
