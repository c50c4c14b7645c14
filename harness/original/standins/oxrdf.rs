//! Stand-in for the crate `oxrdf`: carriers of terms and triples, nothing else.
//! Only what reasoner.rs, index.rs and common.rs name is here.

use std::fmt;

const XSD_STRING: &str = "http://www.w3.org/2001/XMLSchema#string";
const RDF_LANG_STRING: &str = "http://www.w3.org/1999/02/22-rdf-syntax-ns#langString";

#[derive(Debug)]
pub struct IriParseError;

impl fmt::Display for IriParseError {
    fn fmt(&self, f: &mut fmt::Formatter<'_>) -> fmt::Result {
        f.write_str("no IRI")
    }
}

impl std::error::Error for IriParseError {}

#[derive(Clone, Debug, PartialEq, Eq, Hash, PartialOrd, Ord)]
pub struct NamedNode {
    iri: String,
}

impl NamedNode {
    /// Looser than the original: any text with a colon passes.
    pub fn new(iri: impl Into<String>) -> Result<Self, IriParseError> {
        let iri = iri.into();
        if iri.contains(':') {
            Ok(NamedNode { iri })
        } else {
            Err(IriParseError)
        }
    }
    pub fn new_unchecked(iri: impl Into<String>) -> Self {
        NamedNode { iri: iri.into() }
    }
    pub fn as_str(&self) -> &str {
        &self.iri
    }
    pub fn as_ref(&self) -> NamedNodeRef<'_> {
        NamedNodeRef { iri: &self.iri }
    }
}

impl fmt::Display for NamedNode {
    fn fmt(&self, f: &mut fmt::Formatter<'_>) -> fmt::Result {
        write!(f, "<{}>", self.iri)
    }
}

#[derive(Clone, Copy, Debug, PartialEq, Eq, Hash)]
pub struct NamedNodeRef<'a> {
    iri: &'a str,
}

impl<'a> NamedNodeRef<'a> {
    pub fn as_str(self) -> &'a str {
        self.iri
    }
    pub fn into_owned(self) -> NamedNode {
        NamedNode::new_unchecked(self.iri)
    }
}

#[derive(Clone, Debug, PartialEq, Eq, Hash, PartialOrd, Ord)]
pub struct BlankNode {
    id: String,
}

impl BlankNode {
    pub fn new_unchecked(id: impl Into<String>) -> Self {
        BlankNode { id: id.into() }
    }
    pub fn as_str(&self) -> &str {
        &self.id
    }
    pub fn as_ref(&self) -> BlankNodeRef<'_> {
        BlankNodeRef { id: &self.id }
    }
}

impl fmt::Display for BlankNode {
    fn fmt(&self, f: &mut fmt::Formatter<'_>) -> fmt::Result {
        write!(f, "_:{}", self.id)
    }
}

#[derive(Clone, Copy, Debug, PartialEq, Eq, Hash)]
pub struct BlankNodeRef<'a> {
    id: &'a str,
}

impl<'a> BlankNodeRef<'a> {
    pub fn as_str(self) -> &'a str {
        self.id
    }
    pub fn into_owned(self) -> BlankNode {
        BlankNode::new_unchecked(self.id)
    }
}

/// A literal; one typed xsd:string equals a plain one.
#[derive(Clone, Debug, PartialEq, Eq, Hash, PartialOrd, Ord)]
pub struct Literal {
    value: String,
    kind: LiteralKind,
}

#[derive(Clone, Debug, PartialEq, Eq, Hash, PartialOrd, Ord)]
enum LiteralKind {
    Plain,
    Tagged(String),
    Typed(NamedNode),
}

impl Literal {
    pub fn new_simple_literal(value: impl Into<String>) -> Self {
        Literal { value: value.into(), kind: LiteralKind::Plain }
    }
    pub fn new_language_tagged_literal_unchecked(
        value: impl Into<String>,
        language: impl Into<String>,
    ) -> Self {
        Literal { value: value.into(), kind: LiteralKind::Tagged(language.into()) }
    }
    pub fn new_typed_literal(value: impl Into<String>, datatype: impl Into<NamedNode>) -> Self {
        let datatype = datatype.into();
        let kind = if datatype.as_str() == XSD_STRING {
            LiteralKind::Plain
        } else {
            LiteralKind::Typed(datatype)
        };
        Literal { value: value.into(), kind }
    }
    pub fn value(&self) -> &str {
        &self.value
    }
    pub fn language(&self) -> Option<&str> {
        match &self.kind {
            LiteralKind::Tagged(l) => Some(l),
            _ => None,
        }
    }
    pub fn datatype(&self) -> NamedNodeRef<'_> {
        match &self.kind {
            LiteralKind::Plain => NamedNodeRef { iri: XSD_STRING },
            LiteralKind::Tagged(_) => NamedNodeRef { iri: RDF_LANG_STRING },
            LiteralKind::Typed(d) => d.as_ref(),
        }
    }
}

impl fmt::Display for Literal {
    fn fmt(&self, f: &mut fmt::Formatter<'_>) -> fmt::Result {
        f.write_str("\"")?;
        for c in self.value.chars() {
            match c {
                '\n' => f.write_str("\\n")?,
                '\r' => f.write_str("\\r")?,
                '"' => f.write_str("\\\"")?,
                '\\' => f.write_str("\\\\")?,
                c => write!(f, "{}", c)?,
            }
        }
        f.write_str("\"")?;
        match &self.kind {
            LiteralKind::Plain => Ok(()),
            LiteralKind::Tagged(l) => write!(f, "@{}", l),
            LiteralKind::Typed(d) => write!(f, "^^{}", d),
        }
    }
}

#[derive(Clone, Debug, PartialEq, Eq, Hash, PartialOrd, Ord)]
pub enum NamedOrBlankNode {
    NamedNode(NamedNode),
    BlankNode(BlankNode),
}

impl fmt::Display for NamedOrBlankNode {
    fn fmt(&self, f: &mut fmt::Formatter<'_>) -> fmt::Result {
        match self {
            NamedOrBlankNode::NamedNode(n) => n.fmt(f),
            NamedOrBlankNode::BlankNode(n) => n.fmt(f),
        }
    }
}

#[derive(Clone, Copy, Debug, PartialEq, Eq, Hash)]
pub enum NamedOrBlankNodeRef<'a> {
    NamedNode(NamedNodeRef<'a>),
    BlankNode(BlankNodeRef<'a>),
}

#[derive(Clone, Debug, PartialEq, Eq, Hash, PartialOrd, Ord)]
pub enum Term {
    NamedNode(NamedNode),
    BlankNode(BlankNode),
    Literal(Literal),
}

impl fmt::Display for Term {
    fn fmt(&self, f: &mut fmt::Formatter<'_>) -> fmt::Result {
        match self {
            Term::NamedNode(n) => n.fmt(f),
            Term::BlankNode(n) => n.fmt(f),
            Term::Literal(l) => l.fmt(f),
        }
    }
}

#[derive(Clone, Copy, Debug, PartialEq, Eq, Hash)]
pub enum TermRef<'a> {
    NamedNode(NamedNodeRef<'a>),
    BlankNode(BlankNodeRef<'a>),
    Literal(&'a Literal),
}

impl From<NamedNode> for Term {
    fn from(n: NamedNode) -> Self {
        Term::NamedNode(n)
    }
}

impl From<NamedOrBlankNode> for Term {
    fn from(n: NamedOrBlankNode) -> Self {
        match n {
            NamedOrBlankNode::NamedNode(n) => Term::NamedNode(n),
            NamedOrBlankNode::BlankNode(n) => Term::BlankNode(n),
        }
    }
}

impl<'a> From<NamedNodeRef<'a>> for Term {
    fn from(n: NamedNodeRef<'a>) -> Self {
        Term::NamedNode(n.into_owned())
    }
}

impl<'a> From<NamedOrBlankNodeRef<'a>> for Term {
    fn from(n: NamedOrBlankNodeRef<'a>) -> Self {
        match n {
            NamedOrBlankNodeRef::NamedNode(n) => Term::NamedNode(n.into_owned()),
            NamedOrBlankNodeRef::BlankNode(n) => Term::BlankNode(n.into_owned()),
        }
    }
}

impl<'a> From<TermRef<'a>> for Term {
    fn from(t: TermRef<'a>) -> Self {
        match t {
            TermRef::NamedNode(n) => Term::NamedNode(n.into_owned()),
            TermRef::BlankNode(n) => Term::BlankNode(n.into_owned()),
            TermRef::Literal(l) => Term::Literal(l.clone()),
        }
    }
}

#[derive(Clone, Debug, PartialEq, Eq, Hash, PartialOrd, Ord)]
pub struct Triple {
    pub subject: NamedOrBlankNode,
    pub predicate: NamedNode,
    pub object: Term,
}

impl Triple {
    pub fn new(
        subject: impl Into<NamedOrBlankNode>,
        predicate: impl Into<NamedNode>,
        object: impl Into<Term>,
    ) -> Self {
        Triple { subject: subject.into(), predicate: predicate.into(), object: object.into() }
    }
}

#[derive(Clone, Copy, Debug, PartialEq, Eq, Hash)]
pub struct TripleRef<'a> {
    pub subject: NamedOrBlankNodeRef<'a>,
    pub predicate: NamedNodeRef<'a>,
    pub object: TermRef<'a>,
}

impl<'a> From<&'a Triple> for TripleRef<'a> {
    fn from(t: &'a Triple) -> Self {
        TripleRef {
            subject: match &t.subject {
                NamedOrBlankNode::NamedNode(n) => NamedOrBlankNodeRef::NamedNode(n.as_ref()),
                NamedOrBlankNode::BlankNode(n) => NamedOrBlankNodeRef::BlankNode(n.as_ref()),
            },
            predicate: t.predicate.as_ref(),
            object: match &t.object {
                Term::NamedNode(n) => TermRef::NamedNode(n.as_ref()),
                Term::BlankNode(n) => TermRef::BlankNode(n.as_ref()),
                Term::Literal(l) => TermRef::Literal(l),
            },
        }
    }
}

/// Only `load_file` uses it, which is never called here.
#[derive(Default)]
pub struct Graph {
    triples: Vec<Triple>,
}

impl Graph {
    pub fn new() -> Self {
        Graph::default()
    }
    pub fn insert(&mut self, t: &Triple) -> bool {
        if self.triples.contains(t) {
            return false;
        }
        self.triples.push(t.clone());
        true
    }
    pub fn len(&self) -> usize {
        self.triples.len()
    }
    pub fn iter(&self) -> impl Iterator<Item = TripleRef<'_>> + '_ {
        self.triples.iter().map(TripleRef::from)
    }
}
