//! The text of calls: lines that write two memories of numbers, and calls on the first. crates/trial_replay/README.md has the format.
//!
//! The writer keeps a copy of the memory and makes each call on it with the reference model, so it writes only the numbers that
//! change. A refused call has no such lines: then everything has to be as it was.

use crate::memory::{perform, Call, Memory, LOAD, REGIONS};
use std::fmt::Write;

pub struct Text {
    lines: String,
    memory: Memory,
    saved: Memory,
    calls: usize,
    /// What program replay has to print.
    printed: String,
}

/// Cells that a line gives: their numbers, or the one number that all of them get.
enum Piece {
    Numbers(usize, usize),
    Fill(usize, usize),
}

/// A line's own bytes, about: its kind, its place, its count and its end.
const LINE: usize = 9;

/// The number in a call's place with which none is made.
const NO_CALL: usize = 8;

impl Text {
    pub fn new() -> Text {
        Text { lines: String::new(), memory: Memory::new(), saved: Memory::new(), calls: 0, printed: String::new() }
    }

    pub fn memory(&self) -> &Memory {
        &self.memory
    }

    /// Changes the memory; what is expected changes alike.
    pub fn change(&mut self, how: impl FnOnce(&mut Memory)) {
        let mut new = self.memory.clone();
        how(&mut new);
        self.turn_into(new, [0, 2]);
    }

    /// A call, after which the whole memory has to be what the model makes of it.
    pub fn call(&mut self, call: Call) {
        let mut new = self.memory.clone();
        perform(call, &mut new);
        self.turn_into(new, [1, 3]);
        self.line(&[4, call as usize, 0]);
        self.calls += 1;
    }

    /// A wrong number is expected at this cell, which a comparison has to notice.
    pub fn expect_wrong(&mut self, at: usize) {
        let right = self.memory.0[at] as usize;
        self.line(&[1, at, 1, right + 1]);
        self.line(&[4, NO_CALL, 1]);
        self.line(&[1, at, 1, right]);
    }

    /// The load, which comes last, is not kept.
    pub fn save(&mut self) {
        self.saved = self.memory.clone();
        self.saved.0[LOAD.first..].fill(0);
        self.line(&[5]);
    }

    pub fn restore(&mut self) {
        self.memory = self.saved.clone();
        self.line(&[6]);
    }

    /// Ends a list of calls, none of which may differ.
    pub fn end(&mut self, name: &str) {
        assert!(name.len() <= 60, "{name}");
        let mut numbers = vec![7, name.len()];
        numbers.extend(name.bytes().map(usize::from));
        self.line(&numbers);
        writeln!(self.printed, "{name}: calls {}, differences 0", self.calls).expect("a string");
        self.calls = 0;
    }

    /// The lines, and what has to be printed.
    pub fn done(self) -> (String, String) {
        assert!(self.calls == 0, "a list that is not ended");
        (self.lines, self.printed)
    }

    fn line(&mut self, numbers: &[usize]) {
        let words: Vec<String> = numbers.iter().map(usize::to_string).collect();
        writeln!(self.lines, "{}", words.join(" ")).expect("a string");
    }

    /// Lines for all cells that are new: of these two kinds, for numbers and for a fill.
    fn turn_into(&mut self, new: Memory, [numbers, fill]: [usize; 2]) {
        for region in REGIONS {
            for piece in pieces(&self.memory.0[region.cells()], &new.0[region.cells()]) {
                match piece {
                    Piece::Numbers(at, n) => {
                        let at = region.first + at;
                        let mut line = vec![numbers, at, n];
                        line.extend(new.0[at..at + n].iter().map(|v| *v as usize));
                        self.line(&line);
                    }
                    Piece::Fill(at, n) => {
                        let at = region.first + at;
                        self.line(&[fill, at, n, new.0[at] as usize]);
                    }
                }
            }
        }
        self.memory = new;
    }
}

/// Pieces that turn `old` into `new`. Cells that stay may be among them where that takes fewer bytes.
fn pieces(old: &[u32], new: &[u32]) -> Vec<Piece> {
    let (mut all, mut at) = (Vec::new(), 0);
    while at < new.len() {
        if old[at] == new[at] {
            at += 1;
            continue;
        }
        let equal = equal_run(old, new, at);
        if is_long(equal, new[at]) {
            all.push(Piece::Fill(at, equal));
            at += equal;
        } else {
            let end = numbers_end(old, new, at);
            all.push(Piece::Numbers(at, end - at));
            at = end;
        }
    }
    all
}

/// Where the numbers that begin at a cell end: before many that stay, or before a fill.
fn numbers_end(old: &[u32], new: &[u32], at: usize) -> usize {
    let (mut end, mut staying) = (at + 1, 0);
    for k in end..new.len() {
        staying += bytes(new[k]);
        if old[k] != new[k] {
            if is_long(equal_run(old, new, k), new[k]) {
                break;
            }
            (end, staying) = (k + 1, 0);
        }
        if staying > LINE {
            break;
        }
    }
    end
}

/// How many cells from `at` on get the same number, up to the last of them that changes.
fn equal_run(old: &[u32], new: &[u32], at: usize) -> usize {
    let run = new[at..].iter().take_while(|v| **v == new[at]).count();
    (0..run).rev().find(|k| old[at + k] != new[at + k]).map_or(0, |k| k + 1)
}

/// Do the numbers take more bytes than a line for all of them?
fn is_long(run: usize, number: u32) -> bool {
    run * bytes(number) > LINE + bytes(number)
}

/// The bytes of a number and of the space before it.
fn bytes(number: u32) -> usize {
    number.to_string().len() + 1
}
