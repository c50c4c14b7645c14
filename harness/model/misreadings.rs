//! Wrong readings of files. Put in the place of the right one they show whether damage notices such a mistake in a reader of
//! lines, or in what a read does with them.

use Misreading::*;

#[derive(Clone, Copy, Debug, PartialEq, Eq)]
pub enum Misreading {
    EscapedSurrogates,
    EscapesAbove,
    UpperHexAlone,
    NoApostropheEscape,
    EscapedSpace,
    RelativeIri,
    Overlong,
    Surrogates,
    CommentsUnchecked,
    ByteOrderMark,
    NoControls,
    NoColonInLabels,
    DotEndsLabel,
    LabelWithMark,
    NoSpaceInLiterals,
    DatatypeDropped,
    PlainWithoutDatatype,
    TagLowered,
    DigitsInTags,
    RestPassedOver,
    HashInIri,
    NoDotInLabels,
    FormFeedIsSpace,
    NoLoneReturn,
    UnicodeEnds,
    LastLineDropped,
    BadBeforeLong,
    EndCounted,
    CharactersCounted,
    TextAlone,
    TermByTerm,
    RoomBeforeLength,
    LoadBeforeRoom,
    RepeatsNeedRoom,
    HeldNeedRoom,
    FullLoadFirst,
    LongLoad,
    PastTheLimit,
    BlankIdRefused,
    ObjectFirst,
    DatatypesPut,
    RepeatsOnce,
    GrammarFirst,
    TermsLeft,
    LoadLeft,
    RestLeft,
    CountTold,
}

pub const MISREADINGS: &[(&str, Misreading)] = &[
    // An escape may name a surrogate, or a number above 10FFFF.
    ("escaped-surrogates", EscapedSurrogates),
    ("escapes-above", EscapesAbove),
    ("upper-hex-alone", UpperHexAlone),
    ("no-apostrophe-escape", NoApostropheEscape),
    // An IRI may have a space by an escape, or no colon.
    ("escaped-space", EscapedSpace),
    ("relative-iri", RelativeIri),
    // Overlong forms of UTF-8, and those of surrogates, are characters.
    ("overlong", Overlong),
    ("surrogates", Surrogates),
    ("comments-unchecked", CommentsUnchecked),
    // A byte order mark at the beginning of a line is passed over.
    ("byte-order-mark", ByteOrderMark),
    // A literal has no control characters but by escapes.
    ("no-controls", NoControls),
    ("no-colon-in-labels", NoColonInLabels),
    ("dot-ends-label", DotEndsLabel),
    ("label-with-mark", LabelWithMark),
    ("no-space-in-literals", NoSpaceInLiterals),
    ("datatype-dropped", DatatypeDropped),
    ("plain-without-datatype", PlainWithoutDatatype),
    ("tag-lowered", TagLowered),
    ("digits-in-tags", DigitsInTags),
    // What follows a triple's dot is not looked at.
    ("rest-passed-over", RestPassedOver),
    // A comment begins in an IRI too.
    ("hash-in-iri", HashInIri),
    ("no-dot-in-labels", NoDotInLabels),
    // U+000B and U+000C are white space.
    ("form-feed-is-space", FormFeedIsSpace),
    // Only line feeds end lines, with a carriage return before them or none.
    ("no-lone-return", NoLoneReturn),
    // U+0085 and U+2028 end lines too.
    ("unicode-ends", UnicodeEnds),
    // What follows the last end of a line is no line.
    ("last-line-dropped", LastLineDropped),
    // 13 is tried before 14.
    ("bad-before-long", BadBeforeLong),
    // 14 counts a line's end, or characters.
    ("end-counted", EndCounted),
    ("characters-counted", CharactersCounted),
    // 11 asks for the text of a literal alone.
    ("text-alone", TextAlone),
    // 11 and 7 are tried for one term of a line after the other, as three puts would.
    ("term-by-term", TermByTerm),
    // 7 is tried before 11, or 3 before 7.
    ("room-before-length", RoomBeforeLength),
    ("load-before-room", LoadBeforeRoom),
    // 7 counts a new term as often as the line has it, or held ones.
    ("repeats-need-room", RepeatsNeedRoom),
    ("held-need-room", HeldNeedRoom),
    // 3 is tried before 13, and for a line without a triple.
    ("full-load-first", FullLoadFirst),
    ("long-load", LongLoad),
    // The load lent alone limits the triples.
    ("past-the-limit", PastTheLimit),
    ("blank-id-refused", BlankIdRefused),
    // Of a line's terms the object is put before the predicate.
    ("object-first", ObjectFirst),
    ("datatypes-put", DatatypesPut),
    ("repeats-once", RepeatsOnce),
    // A bad line anywhere comes before what other lines are refused for.
    ("grammar-first", GrammarFirst),
    // What a refused file leaves: its terms; the load as it was; its count.
    ("terms-left", TermsLeft),
    ("load-left", LoadLeft),
    ("count-told", CountTold),
    // An accepted file leaves the load behind its triples as it was.
    ("rest-left", RestLeft),
];

/// The lines of a file.
pub fn lines(file: &[u8], mistake: Option<Misreading>) -> Vec<&[u8]> {
    let right = crate::ntriples::lines(file);
    match mistake {
        Some(NoLoneReturn) => file.split(|b| *b == b'\n').map(|line| line.strip_suffix(b"\r").unwrap_or(line)).collect(),
        Some(UnicodeEnds) => right.into_iter().flat_map(|line| split_at(line, &["\u{85}", "\u{2028}"])).collect(),
        Some(LastLineDropped) => right[..right.len() - 1].to_vec(),
        _ => right,
    }
}

/// The parts between these texts.
fn split_at<'a>(line: &'a [u8], ends: &[&str]) -> Vec<&'a [u8]> {
    let (mut parts, mut rest, mut at) = (Vec::new(), line, 0);
    while at < rest.len() {
        match ends.iter().find(|end| rest[at..].starts_with(end.as_bytes())) {
            Some(end) => {
                parts.push(&rest[..at]);
                (rest, at) = (&rest[at + end.len()..], 0);
            }
            None => at += 1,
        }
    }
    parts.push(rest);
    parts
}

/// The characters of a line, where they are UTF-8.
pub fn decoded(bytes: &[u8], mistake: Option<Misreading>) -> Option<String> {
    let right = String::from_utf8(bytes.to_vec()).ok();
    match mistake {
        Some(ByteOrderMark) => right.map(|text| text.trim_start_matches('\u{feff}').into()),
        Some(Overlong | Surrogates) => laxly(bytes, mistake == Some(Overlong)),
        Some(CommentsUnchecked) => right.or_else(|| before_bad_comment(bytes)),
        _ => right,
    }
}

/// The text before bytes that are no UTF-8, where a comment may have begun in it.
fn before_bad_comment(bytes: &[u8]) -> Option<String> {
    let good = std::str::from_utf8(bytes).map_or_else(|e| e.valid_up_to(), str::len);
    String::from_utf8(bytes[..good].to_vec()).ok().filter(|text| text.contains('#'))
}

/// UTF-8 with overlong forms, or with surrogates, which become U+FFFD.
fn laxly(bytes: &[u8], overlong: bool) -> Option<String> {
    let (mut text, mut rest) = (String::new(), bytes);
    while let Some(first) = rest.first() {
        let (length, mut value) = match first {
            0..=0x7f => (1, u32::from(*first)),
            0xc0..=0xdf => (2, u32::from(first & 0x1f)),
            0xe0..=0xef => (3, u32::from(first & 0x0f)),
            0xf0..=0xf7 => (4, u32::from(first & 0x07)),
            _ => return None,
        };
        for byte in rest.get(1..length)? {
            value = (byte & 0xc0 == 0x80).then_some(value << 6 | u32::from(byte & 0x3f))?;
        }
        let c = char::from_u32(value).or((0xd800..0xe000).contains(&value).then_some('\u{fffd}').filter(|_| !overlong))?;
        if c.len_utf8() != length && !overlong {
            return None;
        }
        text.push(c);
        rest = &rest[length..];
    }
    Some(text)
}
