//! Wrong ways of writing. Put in the place of the right one they show whether damage notices such a mistake in a term's text, in a line, or
//! in what a write does with its lines.

use crate::calls::Dictionary;
use crate::dictionary::{Term, LITERAL, NAMED_NODE};
use crate::writing::{self, Writer};
use crate::*;
use std::collections::HashSet;
use Miswriting::*;

#[derive(Clone, Copy, Debug, PartialEq, Eq)]
pub enum Miswriting {
    QuoteRaw,
    BackslashRaw,
    FeedRaw,
    ReturnRaw,
    QuoteByNumber,
    TabEscaped,
    BackspaceEscaped,
    FormFeedEscaped,
    ApostropheEscaped,
    NulEscaped,
    DeleteEscaped,
    ControlsEscaped,
    NoncharactersEscaped,
    NonAsciiEscaped,
    Replaced,
    StringTyped,
    NoZeroPlain,
    NothingIsPlain,
    FirstZero,
    TagLowered,
    TagsUnchecked,
    SlashTells,
    TextTells,
    SpaceBeforeTag,
    RelativeIris,
    SchemesAlone,
    ControlsInIris,
    MarksInIris,
    NoDeleteInIris,
    NoColonInLabels,
    NoDotInLabels,
    DotEndsLabel,
    AnyFront,
    NoSpaceBeforeDot,
    TwoSpaces,
    Tabs,
    ReturnAndFeed,
    LastEndDropped,
    LiteralSubjects,
    BlankPredicates,
    LiteralPredicates,
    BlankIdLeftOut,
    VocabularyLeftOut,
    NotCounted,
    CountedByReasons,
    Sorted,
    RepeatsOnce,
    CountIgnored,
    EndsAtZeros,
    RowsOfThree,
    CountUnchecked,
    RaggedTaken,
    NoLimit,
    UnknownBehind,
    UnknownNumbers,
    UnknownOfWritten,
    BlankIdRefused,
    StoreFirst,
    UnknownFirst,
    FullFirst,
    FullAtEqual,
    TextCutOff,
    PageLeft,
    CountsTold,
    RestLeft,
    RefusedCleared,
    CharactersCounted,
}

pub const MISWRITINGS: &[(&str, Miswriting)] = &[
    // A character that is to be escaped stands as it is, or is escaped by its number.
    ("quote-raw", QuoteRaw),
    ("backslash-raw", BackslashRaw),
    ("feed-raw", FeedRaw),
    ("return-raw", ReturnRaw),
    ("quote-by-number", QuoteByNumber),
    // One that stands for itself is escaped.
    ("tab-escaped", TabEscaped),
    ("backspace-escaped", BackspaceEscaped),
    ("form-feed-escaped", FormFeedEscaped),
    ("apostrophe-escaped", ApostropheEscaped),
    ("nul-escaped", NulEscaped),
    ("delete-escaped", DeleteEscaped),
    ("controls-escaped", ControlsEscaped),
    ("noncharacters-escaped", NoncharactersEscaped),
    ("non-ascii-escaped", NonAsciiEscaped),
    // Bytes that are no UTF-8 become U+FFFD.
    ("replaced", Replaced),
    ("string-typed", StringTyped),
    // A literal without a zero byte, or with nothing behind it, is plain.
    ("no-zero-plain", NoZeroPlain),
    ("nothing-is-plain", NothingIsPlain),
    // A literal's text ends at the first of its zero bytes.
    ("first-zero", FirstZero),
    ("tag-lowered", TagLowered),
    ("tags-unchecked", TagsUnchecked),
    // A slash tells a datatype from a tag, or a colon in the text does too.
    ("slash-tells", SlashTells),
    ("text-tells", TextTells),
    ("space-before-tag", SpaceBeforeTag),
    // An IRI needs no colon, or one with a name before it.
    ("relative-iris", RelativeIris),
    ("schemes-alone", SchemesAlone),
    // Controls and the space, or marks, may stand in it; U+007F may not.
    ("controls-in-iris", ControlsInIris),
    ("marks-in-iris", MarksInIris),
    ("no-delete-in-iris", NoDeleteInIris),
    ("no-colon-in-labels", NoColonInLabels),
    ("no-dot-in-labels", NoDotInLabels),
    ("dot-ends-label", DotEndsLabel),
    // What may stand in a label may stand in its front.
    ("any-front", AnyFront),
    ("no-space-before-dot", NoSpaceBeforeDot),
    ("two-spaces", TwoSpaces),
    ("tabs", Tabs),
    ("return-and-feed", ReturnAndFeed),
    ("last-end-dropped", LastEndDropped),
    // Triples that are left out are written.
    ("literal-subjects", LiteralSubjects),
    ("blank-predicates", BlankPredicates),
    ("literal-predicates", LiteralPredicates),
    // Triples with id 0, or with the ids of a start's terms, are left out.
    ("blank-id-left-out", BlankIdLeftOut),
    ("vocabulary-left-out", VocabularyLeftOut),
    // Those that are left out are not counted, or once for each reason.
    ("not-counted", NotCounted),
    ("counted-by-reasons", CountedByReasons),
    // Not each row in the order of the store: ascending, each triple once, all rows, or those before a row of zeros.
    ("sorted", Sorted),
    ("repeats-once", RepeatsOnce),
    ("count-ignored", CountIgnored),
    ("ends-at-zeros", EndsAtZeros),
    // A row is three numbers.
    ("rows-of-three", RowsOfThree),
    // 4 is not for a count past the store, for a part of a row, or for too many rows.
    ("count-unchecked", CountUnchecked),
    ("ragged-taken", RaggedTaken),
    ("no-limit", NoLimit),
    // 6 is for the rows behind the count too, for passes and rules too, or not for triples that are left out.
    ("unknown-behind", UnknownBehind),
    ("unknown-numbers", UnknownNumbers),
    ("unknown-of-written", UnknownOfWritten),
    ("blank-id-refused", BlankIdRefused),
    // 4 is tried before 1, 6 before 4, or 15 before 6.
    ("store-first", StoreFirst),
    ("unknown-first", UnknownFirst),
    ("full-first", FullFirst),
    // A page just as long as the text is full.
    ("full-at-equal", FullAtEqual),
    // After 15 the page has the beginning of the text, or is as it was; or length and count are told.
    ("text-cut-off", TextCutOff),
    ("page-left", PageLeft),
    ("counts-told", CountsTold),
    // The page behind the text is as it was.
    ("rest-left", RestLeft),
    // After 1, 4 and 6 the page is zero.
    ("refused-cleared", RefusedCleared),
    // The length is that of the characters.
    ("characters-counted", CharactersCounted),
];

/// A character of a literal's text, where the mistake is about it.
pub(crate) fn character(c: char, mistake: Miswriting) -> Option<String> {
    let noncharacter = |c: u32| c & 0xfffe == 0xfffe || (0xfdd0..0xfdf0).contains(&c);
    match (mistake, c) {
        (QuoteRaw, '"') | (BackslashRaw, '\\') | (FeedRaw, '\n') | (ReturnRaw, '\r') => Some(c.into()),
        (TabEscaped, '\t') => Some("\\t".into()),
        (BackspaceEscaped, '\u{8}') => Some("\\b".into()),
        (FormFeedEscaped, '\u{c}') => Some("\\f".into()),
        (ApostropheEscaped, '\'') => Some("\\'".into()),
        (QuoteByNumber, '"') | (NulEscaped, '\0') | (DeleteEscaped, '\u{7f}') => Some(by_number(c)),
        (ControlsEscaped, '\u{1}'..='\u{7}' | '\u{b}' | '\u{e}'..='\u{1f}') => Some(by_number(c)),
        (NoncharactersEscaped, c) if noncharacter(c.into()) => Some(by_number(c)),
        (NonAsciiEscaped, c) if !c.is_ascii() => Some(by_number(c)),
        _ => None,
    }
}

/// UCHAR.
fn by_number(c: char) -> String {
    match u32::from(c) {
        n @ 0..=0xffff => format!("\\u{n:04X}"),
        n => format!("\\U{n:08X}"),
    }
}

/// What stands behind a literal's text in its quotes, none for what is neither an IRI nor a tag.
pub(crate) fn behind(text: &str, more: &str, is_iri: bool, is_tag: bool, mistake: Option<Miswriting>) -> Option<String> {
    let datatype = match mistake {
        Some(SlashTells) => is_iri && more.contains('/'),
        Some(TextTells) => is_iri || (is_tag && text.contains(':')),
        _ => is_iri,
    };
    let tag = match mistake {
        Some(SlashTells) => is_iri || is_tag,
        Some(TagsUnchecked) => !more.is_empty(),
        _ => is_tag,
    };
    let space = if mistake == Some(SpaceBeforeTag) { " " } else { "" };
    match (datatype, tag) {
        (true, _) => Some(format!("{space}^^<{more}>")),
        (_, true) if mistake == Some(TagLowered) => Some(format!("@{}", more.to_lowercase())),
        (_, true) => Some(format!("{space}@{more}")),
        _ => None,
    }
}

/// A line with its end.
pub(crate) fn line([s, p, o]: [String; 3], mistake: Option<Miswriting>) -> String {
    match mistake {
        Some(NoSpaceBeforeDot) => format!("{s} {p} {o}.\n"),
        Some(TwoSpaces) => format!("{s}  {p}  {o} .\n"),
        Some(Tabs) => format!("{s}\t{p}\t{o} .\n"),
        Some(ReturnAndFeed) => format!("{s} {p} {o} .\r\n"),
        _ => format!("{s} {p} {o} .\n"),
    }
}

/// Does a mistake leave a triple out that has a line?
pub(crate) fn is_dropped(triple: Triple, mistake: Option<Miswriting>) -> bool {
    match mistake {
        Some(BlankIdLeftOut) => triple.contains(&0),
        Some(VocabularyLeftOut) => triple.iter().any(|id| (1..=30).contains(id)),
        _ => false,
    }
}

/// As how many a triple counts that is left out.
pub(crate) fn counted([s, p, o]: [&Term; 3], mistake: Option<Miswriting>) -> u32 {
    match mistake {
        Some(NotCounted) => 0,
        Some(CountedByReasons) => {
            let reasons = [s.0 == LITERAL, p.0 != NAMED_NODE].into_iter();
            reasons.chain([s, p, o].map(|term| writing::term(term).is_none())).map(u32::from).sum()
        }
        _ => 1,
    }
}

/// What a mistake refuses before 1 is tried, with a page of so many bytes.
pub(crate) fn first(d: &Dictionary, store: &[u32], triples: u32, page: usize, mistake: Option<Miswriting>) -> Result<(), u32> {
    if mistake == Some(StoreFirst) {
        return writing::rows(store, triples).map(|_| ()).ok_or(ILL_SIZED_STORE);
    }
    let concerned = [Some(UnknownFirst), Some(FullFirst)].contains(&mistake);
    let Some(terms) = concerned.then(|| d.held()).flatten() else {
        return Ok(());
    };
    let mut rows = whole_rows(store);
    rows.truncate(triples as usize);
    let (known, unknown): (Vec<_>, Vec<_>) = rows.into_iter().partition(|row| row.iter().all(|id| (*id as usize) < terms.len()));
    match mistake {
        Some(UnknownFirst) if !unknown.is_empty() => Err(UNKNOWN_TERM),
        Some(FullFirst) if writing::rows(store, triples).is_some() => {
            let (text, _) = Writer { mistake }.text(&terms, &known);
            (text.len() <= page).then_some(()).ok_or(PAGE_FULL)
        }
        _ => Ok(()),
    }
}

/// The triples of all rows that are whole.
fn whole_rows(store: &[u32]) -> Vec<Triple> {
    store.chunks_exact(STORE_WIDTH).map(|row| [row[0], row[1], row[2]]).collect()
}

/// The triples that are counted; none for refusal 4.
pub(crate) fn rows(store: &[u32], triples: u32, mistake: Option<Miswriting>) -> Option<Vec<Triple>> {
    let (count, all) = (triples as usize, whole_rows(store));
    match mistake {
        Some(RowsOfThree) => {
            let sized = store.len() % LOAD_WIDTH == 0 && count <= store.len() / LOAD_WIDTH;
            sized.then(|| store.chunks(LOAD_WIDTH).take(count).map(|row| [row[0], row[1], row[2]]).collect())
        }
        Some(CountIgnored) => writing::rows(store, triples).map(|_| all),
        Some(CountUnchecked) => writing::rows(store, triples.min(all.len() as u32)),
        Some(RaggedTaken) => writing::rows(&store[..STORE_WIDTH * all.len()], triples),
        Some(NoLimit) if store.len() % STORE_WIDTH == 0 => all.get(..count).map(<[_]>::to_vec),
        _ => writing::rows(store, triples),
    }
}

/// The numbers that 6 asks for.
pub(crate) fn asked(terms: &[Term], rows: &[Triple], store: &[u32], mistake: Option<Miswriting>) -> Vec<u32> {
    match mistake {
        Some(UnknownBehind) => whole_rows(store).concat(),
        Some(UnknownNumbers) => store[..STORE_WIDTH * rows.len()].to_vec(),
        Some(UnknownOfWritten) => rows.iter().filter(|row| never_written(terms, row).is_none()).flatten().copied().collect(),
        _ => rows.concat(),
    }
}

/// The subject that is a literal, or the predicate that is no named node.
fn never_written(terms: &[Term], row: &Triple) -> Option<u32> {
    let kind = |id: u32| terms.get(id as usize).map(|(kind, _)| *kind);
    let subject = (kind(row[0]) == Some(LITERAL)).then_some(row[0]);
    subject.or_else(|| kind(row[1]).filter(|kind| *kind != NAMED_NODE).map(|_| row[1]))
}

/// The triples as they are written.
pub(crate) fn taken(terms: &[Term], mut rows: Vec<Triple>, mistake: Option<Miswriting>) -> Result<Vec<Triple>, u32> {
    match mistake {
        Some(BlankIdRefused) if rows.as_flattened().contains(&0) => return Err(BLANK_ID),
        Some(Sorted) => rows.sort_unstable(),
        Some(RepeatsOnce) => {
            let mut met = HashSet::new();
            rows.retain(|row| met.insert(*row));
        }
        Some(EndsAtZeros) => rows.truncate(rows.iter().position(|row| *row == [0; 3]).unwrap_or(rows.len())),
        Some(UnknownOfWritten) => rows.iter_mut().for_each(|row| *row = never_written(terms, row).map_or(*row, |id| [id; 3])),
        _ => (),
    }
    Ok(rows)
}

/// Refusal 15, or the text on the page.
pub(crate) fn laid(text: &[u8], left_out: u32, page: &mut [u8], mistake: Option<Miswriting>) -> (u32, usize, u32) {
    let (before, full) = (page.to_vec(), text.len() > page.len() || (mistake == Some(FullAtEqual) && text.len() == page.len()));
    let result = if full { writing::full(page) } else { writing::laid(text, left_out, page) };
    let most = text.len().min(page.len());
    match mistake {
        Some(TextCutOff) if full => page[..most].copy_from_slice(&text[..most]),
        Some(PageLeft) if full => page.copy_from_slice(&before),
        Some(CountsTold) if full => return (PAGE_FULL, text.len(), left_out),
        Some(RestLeft) if !full => page[most..].copy_from_slice(&before[most..]),
        Some(CharactersCounted) if !full => return (0, String::from_utf8_lossy(text).chars().count(), left_out),
        _ => (),
    }
    result
}
