//! The memory that the text's calls read and write, and the eight calls on it, made by the reference model.

use model::calls::{self, Buffers, Dictionary};
use model::turns::{self, Turn};
use model::writing;

/// Registers; the lengths of the lent parts are named by their regions.
pub const KIND: usize = 7;
pub const ID: usize = 8;
pub const TERMS: usize = 9;
pub const USED: usize = 10;
pub const NUMBER: usize = 11;
pub const NEW_ID: usize = 12;
pub const FOUND_KIND: usize = 13;
const PART_LENGTH: usize = 14;
pub const COUNT: usize = 15;
pub const COUNTS: usize = 16;
pub const DONE: usize = 21;
const PAGE_LENGTH: usize = 22;
pub const TRIPLES: usize = 23;
pub const TEXT_LENGTH: usize = 24;
pub const LEFT_OUT: usize = 25;

/// Cells from `first` on, of which a call is lent as many as a register says.
#[derive(Clone, Copy)]
pub struct Region {
    pub first: usize,
    size: usize,
    length: usize,
}

const fn region(first: usize, size: usize, length: usize) -> Region {
    Region { first, size, length }
}

impl Region {
    pub fn cells(&self) -> std::ops::Range<usize> {
        self.first..self.first + self.size
    }
}

pub const TABLE: Region = region(32, 320, 0);
pub const ARENA: Region = region(352, 9_600, 1);
pub const TERM: Region = region(9_952, 4_100, 2);
pub const PART: Region = region(14_052, 4_100, PART_LENGTH);
pub const STORE: Region = region(18_152, 2_100, 4);
pub const FINDINGS: Region = region(20_252, 500, 5);
pub const WORK: Region = region(20_752, 200, 6);
pub const LOAD: Region = region(20_952, 49_160, 3);

/// The page of a write is in the cells of a part.
pub const PAGE: Region = region(PART.first, PART.size, PAGE_LENGTH);

/// All cells: the registers, which are no lent part, then the others.
pub const REGIONS: [Region; 9] = [region(0, 32, 31), TABLE, ARENA, TERM, PART, STORE, FINDINGS, WORK, LOAD];

#[derive(Clone)]
pub struct Memory(pub Vec<u32>);

impl Memory {
    pub fn new() -> Memory {
        Memory(vec![0; REGIONS.iter().map(|r| r.size).sum()])
    }

    /// The part that a call is lent.
    pub fn lent(&self, r: Region) -> &[u32] {
        &self.0[r.cells()][..self.0[r.length] as usize]
    }

    pub fn lent_bytes(&self, r: Region) -> Vec<u8> {
        self.lent(r).iter().map(|n| u8::try_from(*n).expect("a byte")).collect()
    }

    /// These numbers are lent from now on.
    pub fn lend(&mut self, r: Region, numbers: &[u32]) {
        self.0[r.length] = numbers.len() as u32;
        self.0[r.cells()][..numbers.len()].copy_from_slice(numbers);
    }

    pub fn lend_bytes(&mut self, r: Region, bytes: &[u8]) {
        self.lend(r, &bytes.iter().map(|b| u32::from(*b)).collect::<Vec<_>>());
    }

    /// So many cells are lent as they are.
    pub fn lend_first(&mut self, r: Region, length: usize) {
        assert!(length <= r.size);
        self.0[r.length] = length as u32;
    }

    pub fn counters(&self) -> [u32; 2] {
        [self.0[TERMS], self.0[USED]]
    }
}

#[derive(Clone, Copy)]
pub enum Call {
    Start,
    Put,
    Lookup,
    Run,
    Read,
    Open,
    Pass,
    Write,
}

/// The dictionary that a call is lent.
struct Held {
    table: Vec<u32>,
    arena: Vec<u8>,
    terms: u32,
    used: u32,
}

impl Held {
    fn lend(&mut self) -> Dictionary<'_> {
        Dictionary { table: &mut self.table, arena: &mut self.arena, terms: &mut self.terms, used: &mut self.used }
    }
}

/// Makes a call and writes what it gives.
pub fn perform(call: Call, m: &mut Memory) {
    let [terms, used] = m.counters();
    let mut held = Held { table: m.lent(TABLE).to_vec(), arena: m.lent_bytes(ARENA), terms, used };
    match call {
        Call::Start => m.0[NUMBER] = calls::start(held.lend()),
        Call::Put => {
            let (kind, bytes) = (m.0[KIND], m.lent_bytes(TERM));
            (m.0[NUMBER], m.0[NEW_ID]) = calls::put(held.lend(), kind, &bytes);
        }
        Call::Lookup => {
            let (number, kind, begin, length) = calls::lookup(held.lend(), m.0[ID]);
            (m.0[NUMBER], m.0[FOUND_KIND]) = (number, kind);
            m.lend_bytes(PART, &held.arena[begin..begin + length]);
        }
        Call::Run => run(held.lend(), m),
        Call::Open => turn(turns::open, held.lend(), m),
        Call::Pass => turn(turns::pass, held.lend(), m),
        Call::Read => {
            let (file, mut load) = (m.lent_bytes(TERM), m.lent(LOAD).to_vec());
            (m.0[NUMBER], m.0[COUNT]) = calls::read(held.lend(), &file, &mut load);
            m.lend(LOAD, &load);
        }
        Call::Write => write(held.lend(), m),
    }
    m.lend(TABLE, &held.table);
    m.lend_bytes(ARENA, &held.arena);
    (m.0[TERMS], m.0[USED]) = (held.terms, held.used);
}

fn write(d: Dictionary, m: &mut Memory) {
    let (store, mut page) = (m.lent(STORE).to_vec(), m.lent_bytes(PAGE));
    let (number, length, left_out) = writing::write(d, &store, m.0[TRIPLES], &mut page);
    (m.0[NUMBER], m.0[TEXT_LENGTH], m.0[LEFT_OUT]) = (number, length as u32, left_out);
    m.lend_bytes(PAGE, &page);
}

fn run(d: Dictionary, m: &mut Memory) {
    let (number, count, counts) = on_buffers(m, |load, b| calls::run(d, load, b));
    (m.0[NUMBER], m.0[COUNT]) = (number, count);
    m.0[COUNTS..COUNTS + 5].copy_from_slice(&counts);
}

/// An opening call or a pass.
fn turn(call: fn(Dictionary, &[u32], Buffers) -> Turn, d: Dictionary, m: &mut Memory) {
    let (number, count, done, counts) = on_buffers(m, |load, b| call(d, load, b));
    (m.0[NUMBER], m.0[COUNT], m.0[DONE]) = (number, count, done);
    m.0[COUNTS..COUNTS + 5].copy_from_slice(&counts);
}

/// A call on the load and the buffers that are lent beside the dictionary, which are then as it leaves them.
fn on_buffers<R>(m: &mut Memory, call: impl FnOnce(&[u32], Buffers) -> R) -> R {
    let load = m.lent(LOAD).to_vec();
    let [mut store, mut findings, mut work] = [STORE, FINDINGS, WORK].map(|r| m.lent(r).to_vec());
    let result = call(&load, Buffers { store: &mut store, findings: &mut findings, work: &mut work });
    m.lend(STORE, &store);
    m.lend(FINDINGS, &findings);
    m.lend(WORK, &work);
    result
}
