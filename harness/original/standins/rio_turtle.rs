//! Stand-in for the crate `rio_turtle`. No file is read or written here:
//! every call that would read or write one panics.

use rio_api::formatter::TriplesFormatter;
use rio_api::model::Triple;
use rio_api::parser::TriplesParser;
use std::io::{BufRead, Write};

#[derive(Debug)]
pub struct TurtleError;

pub struct TurtleParser<R: BufRead>(#[allow(dead_code)] R);

impl<R: BufRead> TurtleParser<R> {
    pub fn new(reader: R, _base: Option<String>) -> Self {
        TurtleParser(reader)
    }
}

pub struct NTriplesParser<R: BufRead>(#[allow(dead_code)] R);

impl<R: BufRead> NTriplesParser<R> {
    pub fn new(reader: R) -> Self {
        NTriplesParser(reader)
    }
}

impl<R: BufRead> TriplesParser for TurtleParser<R> {
    type Error = TurtleError;
    fn parse_all<E: From<TurtleError>>(
        &mut self,
        _: &mut impl FnMut(Triple<'_>) -> Result<(), E>,
    ) -> Result<(), E> {
        unimplemented!("stand-in")
    }
}

impl<R: BufRead> TriplesParser for NTriplesParser<R> {
    type Error = TurtleError;
    fn parse_all<E: From<TurtleError>>(
        &mut self,
        _: &mut impl FnMut(Triple<'_>) -> Result<(), E>,
    ) -> Result<(), E> {
        unimplemented!("stand-in")
    }
}

pub struct TurtleFormatter<W: Write>(W);

impl<W: Write> TurtleFormatter<W> {
    pub fn new(write: W) -> Self {
        TurtleFormatter(write)
    }
    pub fn finish(self) -> std::io::Result<W> {
        Ok(self.0)
    }
}

impl<W: Write> TriplesFormatter for TurtleFormatter<W> {
    type Error = std::io::Error;
    fn format(&mut self, _: &Triple<'_>) -> std::io::Result<()> {
        unimplemented!("stand-in")
    }
}
