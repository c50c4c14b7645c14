//! The tests of manifest.ttl with what each has to give: the triples of a positive one, term by term as docs/REFERENCE.md, 13.5,
//! has them; a negative one is refused. The triples were written down from the files by hand; serdi 0.30.16 reads the same 78.

/// A kind and bytes.
pub type Term = (u32, &'static [u8]);

pub struct Test {
    pub name: &'static str,
    pub file: &'static [u8],
    /// None where the file is refused.
    pub triples: Option<&'static [[Term; 3]]>,
}

const MANIFEST: &str = include_str!("manifest.ttl");

/// The files that manifest.ttl names, and whether it wants them accepted.
pub fn manifest() -> Vec<(&'static str, bool)> {
    let entries = MANIFEST.split("rdf:type rdft:TestNTriples").skip(1);
    let file = |entry: &'static str| entry.split("mf:action").nth(1)?.split(['<', '>']).nth(1);
    entries.map(|entry| (file(entry).expect("a file"), entry.starts_with("PositiveSyntax"))).collect()
}

macro_rules! named {
    ($iri:expr) => {
        (1, $iri.as_bytes())
    };
}
macro_rules! blank {
    ($label:expr) => {
        (2, $label.as_bytes())
    };
}
macro_rules! typed {
    ($text:expr, $datatype:expr) => {
        (3, concat!($text, "\0", $datatype).as_bytes())
    };
}
macro_rules! plain {
    ($text:expr) => {
        typed!($text, "http://www.w3.org/2001/XMLSchema#string")
    };
}
macro_rules! tagged {
    ($text:expr, $tag:expr) => {
        (3, concat!($text, "\0", $tag).as_bytes())
    };
}
macro_rules! accepted {
    ($name:expr, $triples:expr) => {
        Test { name: $name, file: include_bytes!($name), triples: Some(&$triples) }
    };
}
macro_rules! refused {
    ($name:expr) => {
        Test { name: $name, file: include_bytes!($name), triples: None }
    };
}

const S: Term = named!("http://example/s");
const P: Term = named!("http://example/p");
const O: Term = named!("http://example/o");
const A_S: Term = named!("http://a.example/s");
const A_P: Term = named!("http://a.example/p");

/// A resource of nt-syntax-subm-01.nt by its number, its property, and the datatype of its XML literals.
macro_rules! resource {
    ($number:expr) => {
        named!(concat!("http://example.org/resource", $number))
    };
}
macro_rules! xml {
    ($text:expr) => {
        typed!($text, "http://www.w3.org/2000/01/rdf-schema#XMLLiteral")
    };
}
const PROPERTY: Term = named!("http://example.org/property");

pub const TESTS: &[Test] = &[
    accepted!("nt-syntax-file-01.nt", []),
    accepted!("nt-syntax-file-02.nt", []),
    accepted!("nt-syntax-file-03.nt", []),
    accepted!("nt-syntax-uri-01.nt", [[S, P, O]]),
    accepted!("nt-syntax-uri-02.nt", [[named!("http://example/S"), P, O]]),
    accepted!("nt-syntax-uri-03.nt", [[named!("http://example/S"), P, O]]),
    accepted!(
        "nt-syntax-uri-04.nt",
        [[S, P, named!("scheme:!$%25&'()*+,-./0123456789:/@ABCDEFGHIJKLMNOPQRSTUVWXYZ_abcdefghijklmnopqrstuvwxyz~?#")]]
    ),
    accepted!("nt-syntax-string-01.nt", [[S, P, plain!("string")]]),
    accepted!("nt-syntax-string-02.nt", [[S, P, tagged!("string", "en")]]),
    accepted!("nt-syntax-string-03.nt", [[S, P, tagged!("string", "en-uk")]]),
    accepted!("nt-syntax-str-esc-01.nt", [[S, P, plain!("a\n")]]),
    accepted!("nt-syntax-str-esc-02.nt", [[S, P, plain!("a b")]]),
    accepted!("nt-syntax-str-esc-03.nt", [[S, P, plain!("a b")]]),
    accepted!("nt-syntax-bnode-01.nt", [[blank!("a"), P, O]]),
    accepted!("nt-syntax-bnode-02.nt", [[S, P, blank!("a")], [blank!("a"), P, O]]),
    accepted!("nt-syntax-bnode-03.nt", [[S, P, blank!("1a")], [blank!("1a"), P, O]]),
    accepted!("nt-syntax-datatypes-01.nt", [[S, P, typed!("123", "http://www.w3.org/2001/XMLSchema#byte")]]),
    accepted!("nt-syntax-datatypes-02.nt", [[S, P, typed!("123", "http://www.w3.org/2001/XMLSchema#string")]]),
    refused!("nt-syntax-bad-uri-01.nt"),
    refused!("nt-syntax-bad-uri-02.nt"),
    refused!("nt-syntax-bad-uri-03.nt"),
    refused!("nt-syntax-bad-uri-04.nt"),
    refused!("nt-syntax-bad-uri-05.nt"),
    refused!("nt-syntax-bad-uri-06.nt"),
    refused!("nt-syntax-bad-uri-07.nt"),
    refused!("nt-syntax-bad-uri-08.nt"),
    refused!("nt-syntax-bad-uri-09.nt"),
    refused!("nt-syntax-bad-prefix-01.nt"),
    refused!("nt-syntax-bad-base-01.nt"),
    refused!("nt-syntax-bad-struct-01.nt"),
    refused!("nt-syntax-bad-struct-02.nt"),
    refused!("nt-syntax-bad-lang-01.nt"),
    refused!("nt-syntax-bad-esc-01.nt"),
    refused!("nt-syntax-bad-esc-02.nt"),
    refused!("nt-syntax-bad-esc-03.nt"),
    refused!("nt-syntax-bad-string-01.nt"),
    refused!("nt-syntax-bad-string-02.nt"),
    refused!("nt-syntax-bad-string-03.nt"),
    refused!("nt-syntax-bad-string-04.nt"),
    refused!("nt-syntax-bad-string-05.nt"),
    refused!("nt-syntax-bad-string-06.nt"),
    refused!("nt-syntax-bad-string-07.nt"),
    refused!("nt-syntax-bad-num-01.nt"),
    refused!("nt-syntax-bad-num-02.nt"),
    refused!("nt-syntax-bad-num-03.nt"),
    accepted!(
        "nt-syntax-subm-01.nt",
        [
            [resource!(1), PROPERTY, resource!(2)],
            [blank!("anon"), PROPERTY, resource!(2)],
            [resource!(2), PROPERTY, blank!("anon")],
            [resource!(3), PROPERTY, resource!(2)],
            [resource!(4), PROPERTY, resource!(2)],
            [resource!(5), PROPERTY, resource!(2)],
            [resource!(6), PROPERTY, resource!(2)],
            [resource!(7), PROPERTY, plain!("simple literal")],
            [resource!(8), PROPERTY, plain!("backslash:\\")],
            [resource!(9), PROPERTY, plain!("dquote:\"")],
            [resource!(10), PROPERTY, plain!("newline:\n")],
            [resource!(11), PROPERTY, plain!("return\r")],
            [resource!(12), PROPERTY, plain!("tab:\t")],
            [resource!(13), PROPERTY, resource!(2)],
            [resource!(14), PROPERTY, plain!("x")],
            [resource!(15), PROPERTY, blank!("anon")],
            [resource!(16), PROPERTY, plain!("\u{e9}")],
            [resource!(17), PROPERTY, plain!("\u{20ac}")],
            [resource!(21), PROPERTY, xml!("")],
            [resource!(22), PROPERTY, xml!(" ")],
            [resource!(23), PROPERTY, xml!("x")],
            [resource!(23), PROPERTY, xml!("\"")],
            [resource!(24), PROPERTY, xml!("<a></a>")],
            [resource!(25), PROPERTY, xml!("a <b></b>")],
            [resource!(26), PROPERTY, xml!("a <b></b> c")],
            [resource!(26), PROPERTY, xml!("a\n<b></b>\nc")],
            [resource!(27), PROPERTY, xml!("chat")],
            [resource!(30), PROPERTY, tagged!("chat", "fr")],
            [resource!(31), PROPERTY, tagged!("chat", "en")],
            [resource!(32), PROPERTY, typed!("abc", "http://example.org/datatype1")],
        ]
    ),
    accepted!(
        "comment_following_triple.nt",
        [
            [S, P, O],
            [S, P, blank!("o")],
            [S, P, plain!("o")],
            [S, P, typed!("o", "http://example/dt")],
            [S, P, tagged!("o", "en")],
        ]
    ),
    accepted!("literal_ascii_boundaries.nt", [[A_S, A_P, plain!("\0\t\u{b}\u{c}\u{e}&([]\u{7f}")]]),
    accepted!(
        "literal_with_UTF8_boundaries.nt",
        [[
            A_S,
            A_P,
            plain!(concat!(
                "\u{80}\u{7ff}\u{800}\u{fff}\u{1000}\u{cfff}\u{d000}\u{d7ff}\u{e000}\u{fffd}",
                "\u{10000}\u{3fffd}\u{40000}\u{ffffd}\u{100000}\u{10fffd}"
            ))
        ]]
    ),
    accepted!(
        "literal_all_controls.nt",
        [[
            A_S,
            A_P,
            plain!(concat!(
                "\0\u{1}\u{2}\u{3}\u{4}\u{5}\u{6}\u{7}\u{8}\t\u{b}\u{c}\u{e}\u{f}",
                "\u{10}\u{11}\u{12}\u{13}\u{14}\u{15}\u{16}\u{17}\u{18}\u{19}\u{1a}\u{1b}\u{1c}\u{1d}\u{1e}\u{1f}"
            ))
        ]]
    ),
    accepted!("literal_all_punctuation.nt", [[A_S, A_P, plain!(" !\"#$%&():;<=>?@[]^_`{|}~")]]),
    accepted!("literal_with_squote.nt", [[A_S, A_P, plain!("x'y")]]),
    accepted!("literal_with_2_squotes.nt", [[A_S, A_P, plain!("x''y")]]),
    accepted!("literal.nt", [[A_S, A_P, plain!("x")]]),
    accepted!("literal_with_dquote.nt", [[A_S, A_P, plain!("x\"y")]]),
    accepted!("literal_with_2_dquotes.nt", [[A_S, A_P, plain!("x\"\"y")]]),
    accepted!(
        "literal_with_REVERSE_SOLIDUS2.nt",
        [[named!("http://example.org/ns#s"), named!("http://example.org/ns#p1"), plain!("test-\\")]]
    ),
    accepted!("literal_with_CHARACTER_TABULATION.nt", [[A_S, A_P, plain!("\t")]]),
    accepted!("literal_with_BACKSPACE.nt", [[A_S, A_P, plain!("\u{8}")]]),
    accepted!("literal_with_LINE_FEED.nt", [[A_S, A_P, plain!("\n")]]),
    accepted!("literal_with_CARRIAGE_RETURN.nt", [[A_S, A_P, plain!("\r")]]),
    accepted!("literal_with_FORM_FEED.nt", [[A_S, A_P, plain!("\u{c}")]]),
    accepted!("literal_with_REVERSE_SOLIDUS.nt", [[A_S, A_P, plain!("\\")]]),
    accepted!("literal_with_numeric_escape4.nt", [[A_S, A_P, plain!("o")]]),
    accepted!("literal_with_numeric_escape8.nt", [[A_S, A_P, plain!("o")]]),
    accepted!("langtagged_string.nt", [[A_S, A_P, tagged!("chat", "en")]]),
    accepted!(
        "lantag_with_subtag.nt",
        [[named!("http://example.org/ex#a"), named!("http://example.org/ex#b"), tagged!("Cheers", "en-UK")]]
    ),
    accepted!(
        "minimal_whitespace.nt",
        [
            [S, P, O],
            [S, P, plain!("Alice")],
            [S, P, blank!("o")],
            [blank!("s"), P, O],
            [blank!("s"), P, plain!("Alice")],
            [blank!("s"), P, blank!("bnode1")],
        ]
    ),
];
