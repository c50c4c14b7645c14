//! RDF 1.1 N-Triples, docs/REFERENCE.md, 13, written from section 7 of the Recommendation: what a line of a file says. The
//! productions are methods of `Reader`; each takes off the front what it stands for, and gives nothing where the text is another.

use crate::dictionary::{Term, BLANK_NODE, LITERAL, NAMED_NODE};
use crate::misreadings::{self, Misreading};

/// The datatype of a plain literal.
pub const XSD_STRING: &str = "http://www.w3.org/2001/XMLSchema#string";

/// PN_CHARS_BASE, first and last character of each range.
pub const PN_CHARS_BASE: [(char, char); 14] = [
    ('A', 'Z'),
    ('a', 'z'),
    ('\u{c0}', '\u{d6}'),
    ('\u{d8}', '\u{f6}'),
    ('\u{f8}', '\u{2ff}'),
    ('\u{370}', '\u{37d}'),
    ('\u{37f}', '\u{1fff}'),
    ('\u{200c}', '\u{200d}'),
    ('\u{2070}', '\u{218f}'),
    ('\u{2c00}', '\u{2fef}'),
    ('\u{3001}', '\u{d7ff}'),
    ('\u{f900}', '\u{fdcf}'),
    ('\u{fdf0}', '\u{fffd}'),
    ('\u{10000}', '\u{effff}'),
];

/// What PN_CHARS has besides PN_CHARS_U.
pub const PN_CHARS_MORE: [(char, char); 5] =
    [('-', '-'), ('0', '9'), ('\u{b7}', '\u{b7}'), ('\u{300}', '\u{36f}'), ('\u{203f}', '\u{2040}')];

/// What a line says.
#[derive(Clone, Debug, PartialEq, Eq)]
pub enum Line {
    Nothing,
    Triple([Term; 3]),
    Bad,
}

/// The lines of a file without their ends: every carriage return and every line feed ends one.
pub fn lines(file: &[u8]) -> Vec<&[u8]> {
    file.split(|b| [b'\r', b'\n'].contains(b)).collect()
}

pub fn line(bytes: &[u8]) -> Line {
    line_mistaken(bytes, None)
}

/// The same with a mistake.
pub fn line_mistaken(bytes: &[u8], mistake: Option<Misreading>) -> Line {
    let Some(text) = misreadings::decoded(bytes, mistake) else {
        return Line::Bad;
    };
    let text: Vec<char> = text.chars().collect();
    let mut reader = Reader { text: &text, at: 0, mistake };
    reader.white_space();
    if reader.says_no_more() {
        return Line::Nothing;
    }
    reader.triple().map_or(Line::Bad, Line::Triple)
}

/// A line's characters, and how many of them are read.
struct Reader<'a> {
    text: &'a [char],
    at: usize,
    mistake: Option<Misreading>,
}

impl Reader<'_> {
    fn errs(&self, mistake: Misreading) -> bool {
        self.mistake == Some(mistake)
    }

    fn peek(&self) -> Option<char> {
        self.text.get(self.at).copied()
    }

    fn next(&mut self) -> Option<char> {
        let c = self.peek();
        self.at += usize::from(c.is_some());
        c
    }

    /// Takes this text off the front.
    fn take(&mut self, wanted: &str) -> Option<()> {
        let wanted: Vec<char> = wanted.chars().collect();
        self.text[self.at..].starts_with(&wanted).then(|| self.at += wanted.len())
    }

    /// The longest front of such characters.
    fn take_while(&mut self, wanted: impl Fn(char) -> bool) -> String {
        let from = self.at;
        while self.peek().is_some_and(&wanted) {
            self.at += 1;
        }
        self.text[from..self.at].iter().collect()
    }

    /// Space and tab stand between any two terminals.
    fn white_space(&mut self) {
        let more = self.errs(Misreading::FormFeedIsSpace);
        self.take_while(|c| c == ' ' || c == '\t' || (more && ['\u{b}', '\u{c}'].contains(&c)));
    }

    /// Nothing follows, or a comment.
    fn says_no_more(&self) -> bool {
        matches!(self.peek(), None | Some('#'))
    }

    /// A triple, and white space and a comment behind it.
    fn triple(&mut self) -> Option<[Term; 3]> {
        let subject = if self.peek()? == '<' { self.named_node()? } else { self.blank_node()? };
        self.white_space();
        let predicate = self.named_node()?;
        self.white_space();
        let object = match self.peek()? {
            '<' => self.named_node()?,
            '"' => self.literal()?,
            _ => self.blank_node()?,
        };
        self.white_space();
        self.take(".")?;
        self.white_space();
        (self.says_no_more() || self.errs(Misreading::RestPassedOver)).then_some([subject, predicate, object])
    }

    fn named_node(&mut self) -> Option<Term> {
        Some((NAMED_NODE, self.iri()?.into_bytes()))
    }

    /// IRIREF, decoded: no character in it that may not stand there unescaped, and a colon.
    fn iri(&mut self) -> Option<String> {
        self.take("<")?;
        let mut iri = String::new();
        loop {
            let (raw, mut escaped) = (self.next()?, false);
            let c = match raw {
                '>' => break,
                '\\' => {
                    escaped = true;
                    self.uchar()?
                }
                raw => raw,
            };
            let spared = escaped && c == ' ' && self.errs(Misreading::EscapedSpace);
            if (c <= ' ' || "<>\"{}|^`\\".contains(c)) && !spared || (c == '#' && self.errs(Misreading::HashInIri)) {
                return None;
            }
            iri.push(c);
        }
        (iri.contains(':') || self.errs(Misreading::RelativeIri)).then_some(iri)
    }

    /// BLANK_NODE_LABEL: dots in it, but none at its end.
    fn blank_node(&mut self) -> Option<Term> {
        self.take("_:")?;
        let colons = !self.errs(Misreading::NoColonInLabels);
        let first = |c: char| is_pn_chars_u(c, colons) || c.is_ascii_digit();
        if !first(self.peek()?) {
            return None;
        }
        let dots = !self.errs(Misreading::NoDotInLabels);
        let label = self.take_while(|c| (c == '.' && dots) || is_pn_chars(c, colons));
        let kept = if self.errs(Misreading::DotEndsLabel) { &label } else { label.trim_end_matches('.') };
        self.at -= label.len() - kept.len();
        let mark = if self.errs(Misreading::LabelWithMark) { "_:" } else { "" };
        Some((BLANK_NODE, format!("{mark}{kept}").into_bytes()))
    }

    /// The text, a zero byte, and the tag or the datatype.
    fn literal(&mut self) -> Option<Term> {
        let mut bytes = self.string()?.into_bytes();
        bytes.push(0);
        if !self.errs(Misreading::NoSpaceInLiterals) {
            self.white_space();
        }
        let more = match self.peek() {
            Some('@') => self.langtag()?,
            Some('^') => self.datatype()?,
            _ if self.errs(Misreading::PlainWithoutDatatype) => String::new(),
            _ => XSD_STRING.into(),
        };
        bytes.extend(more.bytes());
        Some((LITERAL, bytes))
    }

    fn datatype(&mut self) -> Option<String> {
        self.take("^^")?;
        if !self.errs(Misreading::NoSpaceInLiterals) {
            self.white_space();
        }
        let iri = self.iri()?;
        Some(if self.errs(Misreading::DatatypeDropped) { XSD_STRING.into() } else { iri })
    }

    /// LANGTAG without its mark.
    fn langtag(&mut self) -> Option<String> {
        self.take("@")?;
        let digits = self.errs(Misreading::DigitsInTags);
        let mut tag = self.take_while(|c| c.is_ascii_alphabetic() || (digits && c.is_ascii_digit()));
        if tag.is_empty() {
            return None;
        }
        while self.take("-").is_some() {
            let part = self.take_while(|c| c.is_ascii_alphanumeric());
            if part.is_empty() {
                return None;
            }
            tag = tag + "-" + &part;
        }
        Some(if self.errs(Misreading::TagLowered) { tag.to_lowercase() } else { tag })
    }

    /// STRING_LITERAL_QUOTE, decoded. A line has no carriage return and no line feed.
    fn string(&mut self) -> Option<String> {
        self.take("\"")?;
        let mut text = String::new();
        loop {
            match self.next()? {
                '"' => return Some(text),
                '\\' => text.push(self.echar()?),
                c if c.is_control() && c != '\t' && self.errs(Misreading::NoControls) => return None,
                c => text.push(c),
            }
        }
    }

    /// ECHAR or UCHAR behind its backslash.
    fn echar(&mut self) -> Option<char> {
        let c = match self.peek()? {
            't' => '\t',
            'b' => '\u{8}',
            'n' => '\n',
            'r' => '\r',
            'f' => '\u{c}',
            '\'' if self.errs(Misreading::NoApostropheEscape) => return None,
            c @ ('"' | '\'' | '\\') => c,
            _ => return self.uchar(),
        };
        self.at += 1;
        Some(c)
    }

    /// UCHAR behind its backslash, which has to name a scalar value.
    fn uchar(&mut self) -> Option<char> {
        let digits = match self.next()? {
            'u' => 4,
            'U' => 8,
            _ => return None,
        };
        let mut value = 0;
        for _ in 0..digits {
            let digit = self.next()?;
            if self.errs(Misreading::UpperHexAlone) && digit.is_ascii_lowercase() {
                return None;
            }
            value = 16 * value + digit.to_digit(16)?;
        }
        let spared = match value {
            0xd800..=0xdfff => self.errs(Misreading::EscapedSurrogates),
            0x11_0000.. => self.errs(Misreading::EscapesAbove),
            _ => false,
        };
        char::from_u32(value).or(spared.then_some(char::REPLACEMENT_CHARACTER))
    }
}

fn is_in(ranges: &[(char, char)], c: char) -> bool {
    ranges.iter().any(|(first, last)| (*first..=*last).contains(&c))
}

fn is_pn_chars_u(c: char, colons: bool) -> bool {
    is_in(&PN_CHARS_BASE, c) || c == '_' || (c == ':' && colons)
}

fn is_pn_chars(c: char, colons: bool) -> bool {
    is_pn_chars_u(c, colons) || is_in(&PN_CHARS_MORE, c)
}
