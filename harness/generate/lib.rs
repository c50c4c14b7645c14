//! Random models and files, and those of benchmarks. Everything comes from a seed: the same seed gives the same on every machine.

pub mod files;
pub mod large;
pub mod random;
mod recipes;
pub mod small;
#[cfg(test)]
mod tests;
pub mod texts;

use model::dictionary::{id_of, Term, NAMED_NODE};
use model::Triple;
pub use random::Random;

/// The id of the first term that is put after a start.
pub const FIRST: u32 = 31;

/// Terms that are put after a start, the first with id 31, and a load.
#[derive(Clone, Debug)]
pub struct Model {
    pub terms: Vec<Term>,
    pub load: Vec<Triple>,
}

impl Model {
    /// The terms after a start and a run, with a run's three.
    pub fn terms_of_a_run(&self) -> Vec<Term> {
        let mut terms = model::dictionary::starting_terms();
        terms.extend(self.terms.iter().cloned());
        for term in model::dictionary::run_terms() {
            if !terms.contains(&term) {
                terms.push(term);
            }
        }
        terms
    }

    /// The triples that the closure starts from.
    pub fn start(&self) -> Vec<Triple> {
        model::calls::starting_triples(&self.terms_of_a_run(), &self.load)
    }

    fn is_plain(&self) -> bool {
        self.terms == names(self.terms.len())
    }

    /// Program closer's input; where a term is not urn:tK, with a line for each term, as the original's `--terms` reads it.
    pub fn text(&self) -> String {
        let mut text = format!("{}\n", self.terms.len());
        if !self.is_plain() {
            for (kind, bytes) in &self.terms {
                let bytes = String::from_utf8_lossy(bytes);
                text += &match kind {
                    1 => format!("<{bytes}>\n"),
                    2 => format!("_:{bytes}\n"),
                    _ => format!("\"{bytes}\"\n"),
                };
            }
        }
        for [s, p, o] in &self.load {
            text += &format!("{s} {p} {o}\n");
        }
        text
    }
}

/// Named nodes urn:t1 to urn:tN.
pub fn names(n: usize) -> Vec<Term> {
    (1..=n).map(|k| (NAMED_NODE, format!("urn:t{k}").into_bytes())).collect()
}

/// A vocabulary term by its local name.
pub fn word(local: &str) -> u32 {
    id_of(local).unwrap_or_else(|| panic!("no vocabulary term {local}"))
}
