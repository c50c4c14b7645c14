//! The port as a safe Rust crate: an owned dictionary, reads that hand back owned triples, runs that hand back owned rows, all at once or
//! in turns, writes of rows as N-Triples, and derivations of rows from the rows of a store.
//!
//! A call of the port needs some megabytes of stack for its tables; `with_stack` gives a thread enough.

pub mod derivation;
mod lists;
pub mod port;
pub mod rules;
mod turns;

#[cfg(test)]
mod tests;
#[cfg(test)]
mod turn_tests;
#[cfg(test)]
mod write_tests;

pub use lists::Cell;
pub use turns::{Step, Turns};

pub type Triple = [u32; 3];
pub type Finding = [u32; 5];

/// A row of a store: a triple, the pass in which it came in, and the lowest rule that gives it in that pass. A starting triple has pass 0
/// and rule 0, also where a rule gives it too.
#[derive(Clone, Copy, Debug, PartialEq, Eq, Hash)]
pub struct Record {
    pub triple: Triple,
    pub pass: u32,
    pub rule: u32,
}

impl Record {
    /// As the store has it: s, p, o, pass, rule.
    pub fn numbers(&self) -> [u32; 5] {
        let [s, p, o] = self.triple;
        [s, p, o, self.pass, self.rule]
    }

    fn of([s, p, o, pass, rule]: [u32; 5]) -> Record {
        Record { triple: [s, p, o], pass, rule }
    }
}

/// Bytes of a load's triple, of a store's row and of a finding.
const TRIPLE_BYTES: usize = 4 * 3;
const RECORD_BYTES: usize = 4 * 5;
const FINDING_BYTES: usize = 4 * 5;

/// The refusals, by their numbers in docs/REFERENCE.md, 1.5.
#[derive(Clone, Copy, Debug, PartialEq, Eq, Hash)]
#[repr(u32)]
pub enum Refusal {
    BrokenDictionary = 1,
    RaggedLoad = 2,
    LoadTooLong = 3,
    IllSizedStore = 4,
    BlankId = 5,
    UnknownTerm = 6,
    DictionaryFull = 7,
    StoreFull = 8,
    FindingsFull = 9,
    UnknownKind = 10,
    TermTooLong = 11,
    NoSuchId = 12,
    BadLine = 13,
    LongLine = 14,
    PageFull = 15,
}

impl Refusal {
    pub const ALL: [Refusal; 15] = [
        Refusal::BrokenDictionary,
        Refusal::RaggedLoad,
        Refusal::LoadTooLong,
        Refusal::IllSizedStore,
        Refusal::BlankId,
        Refusal::UnknownTerm,
        Refusal::DictionaryFull,
        Refusal::StoreFull,
        Refusal::FindingsFull,
        Refusal::UnknownKind,
        Refusal::TermTooLong,
        Refusal::NoSuchId,
        Refusal::BadLine,
        Refusal::LongLine,
        Refusal::PageFull,
    ];

    /// Nothing for 0; else the refusal of this number.
    fn check(number: u32) -> Result<(), Refusal> {
        match number {
            0 => Ok(()),
            n => Err(*Refusal::ALL.get(n as usize - 1).unwrap_or_else(|| panic!("no refusal has number {n}"))),
        }
    }
}

#[derive(Clone, Copy, Debug, PartialEq, Eq)]
#[repr(u32)]
pub enum Kind {
    NamedNode = 1,
    BlankNode = 2,
    Literal = 3,
}

impl Kind {
    fn of(number: u32) -> Kind {
        match number {
            1 => Kind::NamedNode,
            2 => Kind::BlankNode,
            3 => Kind::Literal,
            n => panic!("no kind has number {n}"),
        }
    }
}

/// A table, an arena and the two counters of `put`.
#[derive(Clone, Debug, PartialEq, Eq)]
pub struct Dictionary {
    table: Vec<u8>,
    arena: Vec<u8>,
    terms: u32,
    used: u32,
}

/// An accepted run's answer and findings, each strictly ascending, rows by their triples, and the count of each check.
#[derive(Clone, Debug, PartialEq, Eq)]
pub struct Closed {
    pub records: Vec<Record>,
    pub findings: Vec<Finding>,
    pub counts: [u32; 5],
}

impl Closed {
    /// The triples alone, without passes and rules: what may be loaded again.
    pub fn triples(&self) -> Vec<Triple> {
        self.records.iter().map(|record| record.triple).collect()
    }
}

impl Dictionary {
    /// A started dictionary with room for this many entries, `urn:_` and the vocabulary among them, and bytes.
    pub fn start(entries: usize, bytes: usize) -> Result<Dictionary, Refusal> {
        let mut d = Dictionary { table: vec![0; 4 * (64 + 4 * entries)], arena: vec![0; bytes], terms: 0, used: 0 };
        Refusal::check(port::start(&mut d.table, &mut d.arena, &mut d.terms, &mut d.used))?;
        Ok(d)
    }

    /// A dictionary from its parts. Every call on it checks that a start and puts could have left them.
    pub fn from_parts(table: &[u32], arena: Vec<u8>, terms: u32, used: u32) -> Dictionary {
        Dictionary { table: to_bytes(table), arena, terms, used }
    }

    /// The number of terms held, `urn:_` counted.
    pub fn terms(&self) -> u32 {
        self.terms
    }

    /// The id of a term; a new one is added.
    pub fn put(&mut self, kind: Kind, bytes: &[u8]) -> Result<u32, Refusal> {
        let (refusal, id) = port::put(&mut self.table, &mut self.arena, &mut self.terms, &mut self.used, kind as u32, bytes);
        Refusal::check(refusal).map(|()| id)
    }

    /// A held term.
    pub fn lookup(&self, id: u32) -> Result<(Kind, &[u8]), Refusal> {
        let (refusal, kind, begin, len) = port::lookup(&self.table, &self.arena, self.terms, self.used, id);
        Refusal::check(refusal)?;
        Ok((Kind::of(kind), &self.arena[begin as usize..(begin + len) as usize]))
    }

    /// How many numbers a run's list work buffer needs: two for each term, three terms more counted.
    pub fn work_length(&self) -> usize {
        2 * (self.terms as usize + 3)
    }

    /// Closes a load into a store of this many rows, five numbers each, with room for this many findings.
    pub fn run(&mut self, load: &[Triple], rows: usize, findings: usize) -> Result<Closed, Refusal> {
        let mut buffers = Buffers::new(load, rows, findings, self.work_length());
        let (count, counts) = self.run_in(&mut buffers)?;
        Ok(buffers.closed(count, counts))
    }

    /// The same in buffers that the caller made, for a time of the run alone: the triple count, and the count of each check.
    pub fn run_in(&mut self, b: &mut Buffers) -> Result<(u32, [u32; 5]), Refusal> {
        let (refusal, count, counts) = port::run(self.lend(b));
        Refusal::check(refusal).map(|()| (count, counts))
    }

    /// Opens a run of a load, to be closed one pass at a time, in a store of this many rows, with room for this many findings.
    pub fn turns(&mut self, load: &[Triple], rows: usize, findings: usize) -> Result<Turns<'_>, Refusal> {
        Turns::open(self, load, rows, findings)
    }

    /// The rows of the closure of a load, those with an id 0 among them, which an answer no longer has: what the store of a run in turns
    /// holds before its last pass.
    pub fn closure(&mut self, load: &[Triple], rows: usize, findings: usize) -> Result<Vec<Record>, Refusal> {
        let mut turns = self.turns(load, rows, findings)?;
        loop {
            let records = turns.records();
            if turns.next().expect("a run that is not done")?.done {
                return Ok(records);
            }
        }
    }

    /// Lays the starting triples of a load in the store: what an opening call does.
    pub fn open_in(&mut self, b: &mut Buffers) -> Result<Step, Refusal> {
        Step::of(port::open(self.lend(b)))
    }

    /// One pass over the store that an opening call or a pass left, lent its load again. The list work buffer is measured by the terms held
    /// now: one that just sufficed for the opening call is three terms too short, where that call put a run's three terms.
    pub fn pass_in(&mut self, b: &mut Buffers) -> Result<Step, Refusal> {
        Step::of(port::pass(self.lend(b)))
    }

    fn lend<'a>(&'a mut self, b: &'a mut Buffers) -> port::Lent<'a> {
        port::Lent {
            table: &mut self.table,
            arena: &mut self.arena,
            terms: &mut self.terms,
            used: &mut self.used,
            load: &b.load,
            store: &mut b.store,
            findings: &mut b.findings,
            work: &mut b.work,
        }
    }

    /// Reads a file of N-Triples with a load for this many triples: its triples in order.
    pub fn read(&mut self, file: &[u8], triples: usize) -> Result<Vec<Triple>, Refusal> {
        let mut load = Load::new(triples);
        let count = self.read_in(file, &mut load)?;
        Ok(load.triples(count))
    }

    /// The same in a load that the caller made, for a time of the read alone: the count of the triples.
    pub fn read_in(&mut self, file: &[u8], load: &mut Load) -> Result<u32, Refusal> {
        let (refusal, count) = port::read(port::LentToRead {
            table: &mut self.table,
            arena: &mut self.arena,
            terms: &mut self.terms,
            used: &mut self.used,
            file,
            load: &mut load.0,
        });
        Refusal::check(refusal).map(|()| count)
    }

    /// Writes the triples of rows to the page as canonical N-Triples, in the order of the rows, and zeros behind them. Passes and rules do
    /// not matter. A triple that no file can say is left out and counted: one with a literal as its subject, with a predicate that is no
    /// named node, or with a term that no read puts.
    ///
    /// Refused are rows of ids that name no term, more rows than a store may have, and a text that is longer than the page, which then is
    /// all zero. A read of the text gives the triples that were not left out, where there are no more than a load takes.
    ///
    /// ```ignore
    /// let closed = dictionary.run(&load, 1_000, 100)?;
    /// let mut page = vec![0; 1 << 20];
    /// let written = dictionary.write(&closed.records, &mut page)?;
    /// file.write_all(&page[..written.length])?;
    /// ```
    pub fn write(&self, records: &[Record], page: &mut [u8]) -> Result<Written, Refusal> {
        self.write_store(&store_of(records), records.len() as u32, page)
    }

    /// The same for the first rows of a store, as a run, an opening call or a pass left it.
    pub fn write_in(&self, b: &Buffers, triples: u32, page: &mut [u8]) -> Result<Written, Refusal> {
        self.write_store(&b.store, triples, page)
    }

    /// The text that a write gives of rows, in a page as long as it needs, and how many triples are not in it.
    pub fn text(&self, records: &[Record]) -> Result<(Vec<u8>, u32), Refusal> {
        self.text_of_store(&store_of(records), records.len() as u32)
    }

    /// The same for the first rows of a store.
    pub fn text_in(&self, b: &Buffers, triples: u32) -> Result<(Vec<u8>, u32), Refusal> {
        self.text_of_store(&b.store, triples)
    }

    fn text_of_store(&self, store: &[u8], triples: u32) -> Result<(Vec<u8>, u32), Refusal> {
        let ids = store.chunks_exact(RECORD_BYTES).take(triples as usize).flat_map(|row| row[..TRIPLE_BYTES].chunks_exact(4));
        let mut length = ids.map(|id| self.text_room(number(id))).sum();
        // A second page suffices: escapes make a text at most twice as long as without.
        loop {
            let mut page = vec![0; length];
            match self.write_store(store, triples, &mut page) {
                Err(Refusal::PageFull) => length *= 2,
                written => {
                    return written.map(|written| {
                        page.truncate(written.length);
                        (page, written.left_out)
                    })
                }
            }
        }
    }

    /// What the text of a term needs at most, where nothing in it is escaped, with the space behind it and a third of the line's end: a
    /// literal's marks, in place of the zero byte, are five bytes more. The second number of the term's entry is its length.
    fn text_room(&self, id: u32) -> usize {
        let at = 4 * (64 + 4 * id as usize + 1);
        self.table.get(at..at + 4).map_or(0, number) as usize + 5 + 2
    }

    fn write_store(&self, store: &[u8], triples: u32, page: &mut [u8]) -> Result<Written, Refusal> {
        let (table, arena, terms, used) = (&self.table, &self.arena, self.terms, self.used);
        let (refusal, length, left_out) = port::write(port::LentToWrite { table, arena, terms, used, store, triples, page });
        Refusal::check(refusal).map(|()| Written { length: length as usize, left_out })
    }
}

/// What an accepted write tells.
#[derive(Clone, Copy, Debug, PartialEq, Eq)]
pub struct Written {
    /// The bytes of the page that are the text.
    pub length: usize,
    /// How many triples are not in it.
    pub left_out: u32,
}

/// What a read writes its triples to, cleared.
pub struct Load(Vec<u8>);

impl Load {
    pub fn new(triples: usize) -> Load {
        Load(vec![0; TRIPLE_BYTES * triples])
    }

    /// What an accepted read left.
    pub fn triples(&self, count: u32) -> Vec<Triple> {
        rows(&self.0, count as usize)
    }
}

/// What a run, an opening call or a pass is lent beside the dictionary, cleared.
#[derive(Clone, Debug, PartialEq, Eq)]
pub struct Buffers {
    load: Vec<u8>,
    store: Vec<u8>,
    findings: Vec<u8>,
    work: Vec<u8>,
}

impl Buffers {
    /// A store of so many rows, room for so many findings, and a list work buffer of so many numbers.
    pub fn new(load: &[Triple], rows: usize, findings: usize, work: usize) -> Buffers {
        Buffers {
            load: to_bytes(load.as_flattened()),
            store: vec![0; RECORD_BYTES * rows],
            findings: vec![0; FINDING_BYTES * findings],
            work: vec![0; 4 * work],
        }
    }

    pub fn clear(&mut self) {
        self.store.fill(0);
        self.findings.fill(0);
        self.work.fill(0);
    }

    /// What an accepted run left.
    pub fn closed(&self, count: u32, counts: [u32; 5]) -> Closed {
        let found = counts.iter().sum::<u32>() as usize;
        Closed { records: self.records(count), findings: rows(&self.findings, found), counts }
    }

    /// The rows of the store, of which there are so many.
    pub fn records(&self, count: u32) -> Vec<Record> {
        rows(&self.store, count as usize).into_iter().map(Record::of).collect()
    }

    /// Another load, for the passes to come.
    pub fn lend_load(&mut self, load: &[Triple]) {
        self.load = to_bytes(load.as_flattened());
    }

    /// Another store, for the passes to come or a write: rows, then zeros up to so many.
    pub fn lend_store(&mut self, records: &[Record], rows: usize) {
        self.store = store_of(records);
        self.store.resize(RECORD_BYTES * rows.max(records.len()), 0);
    }
}

/// A store of just these rows.
fn store_of(records: &[Record]) -> Vec<u8> {
    to_bytes(&records.iter().flat_map(Record::numbers).collect::<Vec<_>>())
}

fn to_bytes(numbers: &[u32]) -> Vec<u8> {
    numbers.iter().flat_map(|n| n.to_le_bytes()).collect()
}

/// The first `n` rows of a buffer; the rest is zero.
fn rows<const W: usize>(bytes: &[u8], n: usize) -> Vec<[u32; W]> {
    let (rows, rest) = bytes.split_at(4 * W * n);
    assert!(rest.iter().all(|b| *b == 0), "a buffer is not zero behind its rows");
    rows.chunks(4 * W).map(|row| std::array::from_fn(|k| number(&row[4 * k..4 * k + 4]))).collect()
}

fn number(bytes: &[u8]) -> u32 {
    u32::from_le_bytes(bytes.try_into().expect("four bytes"))
}

/// Runs `work` on a thread with stack enough for the port's tables.
pub fn with_stack<T: Send>(work: impl FnOnce() -> T + Send) -> T {
    std::thread::scope(|scope| {
        let thread = std::thread::Builder::new().stack_size(256 << 20).spawn_scoped(scope, work).expect("a thread");
        thread.join().unwrap_or_else(|e| std::panic::resume_unwind(e))
    })
}
