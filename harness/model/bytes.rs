//! The C entry points, docs/REFERENCE.md, 9: the eight calls over byte slices, ids little-endian. A byte length that is no multiple of
//! 4 is 2 for a load, 1 for a table after the start, else 4, each at its place in the order.

use crate::calls::{self, Buffers, Dictionary};
use crate::closure::Mistake;
use crate::misreadings::Misreading;
use crate::miswritings::Miswriting;
use crate::turns::{self, Turn};
use crate::writing;
use crate::*;

fn numbers(bytes: &[u8]) -> Vec<u32> {
    bytes.chunks_exact(4).map(|b| u32::from_le_bytes(b.try_into().expect("four bytes"))).collect()
}

fn lay(bytes: &mut [u8], numbers: &[u32]) {
    for (place, n) in bytes.chunks_exact_mut(4).zip(numbers) {
        place.copy_from_slice(&n.to_le_bytes());
    }
}

/// Refusal.
pub fn start(table: &mut [u8], arena: &mut [u8], terms: &mut u32, used: &mut u32) -> u32 {
    if table.len() % 4 != 0 {
        (*terms, *used) = (0, 0);
        return ILL_SIZED_STORE;
    }
    let mut words = numbers(table);
    let refusal = calls::start(Dictionary { table: &mut words, arena, terms, used });
    lay(table, &words);
    refusal
}

/// Refusal and id.
pub fn put(table: &mut [u8], arena: &mut [u8], terms: &mut u32, used: &mut u32, kind: u32, bytes: &[u8]) -> (u32, u32) {
    if table.len() % 4 != 0 {
        return (BROKEN_DICTIONARY, 0);
    }
    let mut words = numbers(table);
    let result = calls::put(Dictionary { table: &mut words, arena, terms, used }, kind, bytes);
    lay(table, &words);
    result
}

/// Refusal, kind, begin and length.
pub fn lookup(table: &[u8], arena: &[u8], terms: u32, used: u32, id: u32) -> (u32, u32, u64, u64) {
    if table.len() % 4 != 0 {
        return (BROKEN_DICTIONARY, 0, 0, 0);
    }
    let (mut words, mut arena, mut terms, mut used) = (numbers(table), arena.to_vec(), terms, used);
    let d = Dictionary { table: &mut words, arena: &mut arena, terms: &mut terms, used: &mut used };
    let (refusal, kind, begin, length) = calls::lookup(d, id);
    (refusal, kind, begin as u64, length as u64)
}

/// What a read is lent, as bytes.
pub struct LentToRead<'a> {
    pub table: &'a mut [u8],
    pub arena: &'a mut [u8],
    pub terms: &'a mut u32,
    pub used: &'a mut u32,
    pub file: &'a [u8],
    pub load: &'a mut [u8],
}

/// Refusal, and the count of the triples read.
pub fn read(lent: LentToRead) -> (u32, u32) {
    read_mistaken(lent, None)
}

/// The same with a mistake.
pub fn read_mistaken(lent: LentToRead, mistake: Option<Misreading>) -> (u32, u32) {
    if lent.table.len() % 4 != 0 {
        return (BROKEN_DICTIONARY, 0);
    }
    let (mut table, mut load) = (numbers(lent.table), numbers(lent.load));
    // As for a run's load. A load refused as ragged is not written, so neither are its bytes.
    let ragged = lent.load.len() % 4 != 0;
    if ragged {
        load.resize(1, 0);
    }
    let d = Dictionary { table: &mut table, arena: lent.arena, terms: lent.terms, used: lent.used };
    let result = calls::read_mistaken(d, lent.file, &mut load, mistake);
    lay(lent.table, &table);
    if !ragged {
        lay(lent.load, &load);
    }
    result
}

/// What a write is lent, as bytes. It writes the page alone.
pub struct LentToWrite<'a> {
    pub table: &'a [u8],
    pub arena: &'a [u8],
    pub terms: u32,
    pub used: u32,
    pub store: &'a [u8],
    pub triples: u32,
    pub page: &'a mut [u8],
}

/// Refusal, the length of the text, and the number of triples left out.
pub fn write(lent: LentToWrite) -> (u32, u64, u32) {
    write_mistaken(lent, None)
}

/// The same with a mistake.
pub fn write_mistaken(lent: LentToWrite, mistake: Option<Miswriting>) -> (u32, u64, u32) {
    if lent.table.len() % 4 != 0 {
        return (BROKEN_DICTIONARY, 0, 0);
    }
    let (mut table, mut arena, mut terms, mut used) = (numbers(lent.table), lent.arena.to_vec(), lent.terms, lent.used);
    let mut store = numbers(lent.store);
    // A ragged byte length becomes one number more than whole rows, which is refused at the same place.
    if lent.store.len() % 4 != 0 {
        store.resize(1, 0);
    }
    let d = Dictionary { table: &mut table, arena: &mut arena, terms: &mut terms, used: &mut used };
    let (refusal, length, left_out) = writing::write_mistaken(d, &store, lent.triples, lent.page, mistake);
    (refusal, length as u64, left_out)
}

/// What a run, an opening call or a pass is lent, as bytes.
pub struct Lent<'a> {
    pub table: &'a mut [u8],
    pub arena: &'a mut [u8],
    pub terms: &'a mut u32,
    pub used: &'a mut u32,
    pub load: &'a [u8],
    pub store: &'a mut [u8],
    pub findings: &'a mut [u8],
    pub work: &'a mut [u8],
}

/// Refusal, triple count, and the count of each check.
pub fn run(lent: Lent) -> (u32, u32, [u32; 5]) {
    run_mistaken(lent, Mistake::default())
}

/// The same with a mistake.
pub fn run_mistaken(lent: Lent, mistake: Mistake) -> (u32, u32, [u32; 5]) {
    on_numbers(lent, |d, load, b| calls::run_mistaken(d, load, b, mistake)).unwrap_or((BROKEN_DICTIONARY, 0, [0; 5]))
}

/// Refusal, triple count, whether the run is done, and the count of each check.
pub fn open(lent: Lent) -> Turn {
    open_mistaken(lent, Mistake::default())
}

/// The same with a mistake.
pub fn open_mistaken(lent: Lent, mistake: Mistake) -> Turn {
    on_numbers(lent, |d, load, b| turns::open_mistaken(d, load, b, mistake)).unwrap_or(turns::refused(BROKEN_DICTIONARY))
}

/// As for `open`.
pub fn pass(lent: Lent) -> Turn {
    pass_mistaken(lent, Mistake::default())
}

/// The same with a mistake.
pub fn pass_mistaken(lent: Lent, mistake: Mistake) -> Turn {
    on_numbers(lent, |d, load, b| turns::pass_mistaken(d, load, b, mistake)).unwrap_or(turns::refused(BROKEN_DICTIONARY))
}

/// A call on the numbers of the lent bytes, which are then written back; none for a table that is not whole numbers.
fn on_numbers<R>(lent: Lent, call: impl FnOnce(Dictionary, &[u32], Buffers) -> R) -> Option<R> {
    if lent.table.len() % 4 != 0 {
        return None;
    }
    let mut table = numbers(lent.table);
    let mut store = numbers(lent.store);
    let mut findings = numbers(lent.findings);
    let mut work = numbers(lent.work);
    let mut load = numbers(lent.load);
    // A ragged byte length becomes a length in numbers that the call refuses for the same reason, at the same place.
    if lent.load.len() % 4 != 0 {
        load.resize(1, 0);
    }
    if [lent.store.len(), lent.findings.len(), lent.work.len()].iter().any(|n| n % 4 != 0) {
        work.clear();
    }
    let d = Dictionary { table: &mut table, arena: lent.arena, terms: lent.terms, used: lent.used };
    let b = Buffers { store: &mut store, findings: &mut findings, work: &mut work };
    let result = call(d, &load, b);
    lay(lent.table, &table);
    lay(lent.store, &store);
    lay(lent.findings, &findings);
    lay(lent.work, &work);
    Some(result)
}
