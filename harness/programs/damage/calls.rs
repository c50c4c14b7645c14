//! One call on lent bytes, performed by the port and by the model, and what it leaves.

use model::bytes as ours;
use model::turns::Turn;
use model::STORE_WIDTH;
use tablestork::port;

/// A table, an arena and the two counters, as bytes lent to a call.
#[derive(Clone, PartialEq, Eq)]
pub struct Dictionary {
    pub table: Vec<u8>,
    pub arena: Vec<u8>,
    pub terms: u32,
    pub used: u32,
}

/// A pass has with it the kind of change that was made to its store.
#[derive(Clone, PartialEq, Eq)]
pub enum Call {
    Start,
    Put { kind: u32, bytes: Vec<u8> },
    Lookup { id: u32 },
    Run(Run),
    Open(Run),
    Pass(Run, Option<usize>),
    Read { file: Vec<u8>, load: Vec<u8> },
    Write(Write),
}

/// What a run, an opening call or a pass is lent beside the dictionary.
#[derive(Clone, PartialEq, Eq)]
pub struct Run {
    pub load: Vec<u8>,
    pub store: Vec<u8>,
    pub findings: Vec<u8>,
    pub work: Vec<u8>,
}

/// What a write is lent beside the dictionary, and the dictionary that it was made for, where that is not the scenario's.
#[derive(Clone, PartialEq, Eq)]
pub struct Write {
    pub of: Option<Dictionary>,
    pub store: Vec<u8>,
    pub triples: u32,
    pub page: Vec<u8>,
}

/// The result's numbers, the refusal first, and every buffer.
#[derive(PartialEq, Eq)]
pub struct After {
    pub result: Vec<u64>,
    pub dictionary: Dictionary,
    pub call: Call,
}

#[derive(Clone, Copy)]
pub enum By {
    Port,
    Model,
}

pub const CALLS: [&str; 8] = ["start", "put", "lookup", "run", "open", "pass", "read", "write"];

/// The places there of an opening call, a pass, a read and a write.
pub const OPEN: usize = 4;
pub const PASS: usize = 5;
pub const READ: usize = 6;
pub const WRITE: usize = 7;

impl Call {
    /// The place of its name in `CALLS`.
    pub fn number(&self) -> usize {
        match self {
            Call::Start => 0,
            Call::Put { .. } => 1,
            Call::Lookup { .. } => 2,
            Call::Run(_) => 3,
            Call::Open(_) => OPEN,
            Call::Pass(..) => PASS,
            Call::Read { .. } => READ,
            Call::Write(_) => WRITE,
        }
    }

    /// What a run, an opening call or a pass is lent.
    pub fn lent(&self) -> Option<&Run> {
        match self {
            Call::Run(b) | Call::Open(b) | Call::Pass(b, _) => Some(b),
            _ => None,
        }
    }
}

/// Performs the call on copies.
pub fn perform(by: By, dictionary: &Dictionary, call: &Call) -> After {
    let (mut d, mut call) = (dictionary.clone(), call.clone());
    let result = match &mut call {
        Call::Start => start(by, &mut d),
        Call::Put { kind, bytes } => put(by, &mut d, *kind, bytes),
        Call::Lookup { id } => lookup(by, &d, *id),
        Call::Run(b) => run(by, &mut d, b),
        Call::Open(b) => turn(by, &mut d, b, port::open, ours::open),
        Call::Pass(b, _) => turn(by, &mut d, b, port::pass, ours::pass),
        Call::Read { file, load } => read(by, &mut d, file, load),
        Call::Write(w) => write(by, &d, w),
    };
    After { result, dictionary: d, call }
}

fn start(by: By, d: &mut Dictionary) -> Vec<u64> {
    let refusal = match by {
        By::Port => port::start(&mut d.table, &mut d.arena, &mut d.terms, &mut d.used),
        By::Model => ours::start(&mut d.table, &mut d.arena, &mut d.terms, &mut d.used),
    };
    vec![refusal.into()]
}

fn put(by: By, d: &mut Dictionary, kind: u32, bytes: &[u8]) -> Vec<u64> {
    let (refusal, id) = match by {
        By::Port => port::put(&mut d.table, &mut d.arena, &mut d.terms, &mut d.used, kind, bytes),
        By::Model => ours::put(&mut d.table, &mut d.arena, &mut d.terms, &mut d.used, kind, bytes),
    };
    vec![refusal.into(), id.into()]
}

/// Of the empty part that a refused lookup gives only the length is promised.
fn lookup(by: By, d: &Dictionary, id: u32) -> Vec<u64> {
    let (refusal, kind, begin, len) = match by {
        By::Port => port::lookup(&d.table, &d.arena, d.terms, d.used, id),
        By::Model => ours::lookup(&d.table, &d.arena, d.terms, d.used, id),
    };
    vec![refusal.into(), kind.into(), if refusal == 0 { begin } else { 0 }, len]
}

fn run(by: By, d: &mut Dictionary, b: &mut Run) -> Vec<u64> {
    let (table, arena, terms, used) = (&mut d.table, &mut d.arena, &mut d.terms, &mut d.used);
    let (load, store, findings, work) = (&b.load, &mut b.store, &mut b.findings, &mut b.work);
    let (refusal, triples, counts) = match by {
        By::Port => port::run(port::Lent { table, arena, terms, used, load, store, findings, work }),
        By::Model => ours::run(ours::Lent { table, arena, terms, used, load, store, findings, work }),
    };
    let mut result = vec![refusal.into(), triples.into()];
    result.extend(counts.map(u64::from));
    result
}

/// An opening call or a pass, as the port and as the model have it.
fn turn(by: By, d: &mut Dictionary, b: &mut Run, port: fn(port::Lent) -> Turn, model: fn(ours::Lent) -> Turn) -> Vec<u64> {
    let (table, arena, terms, used) = (&mut d.table, &mut d.arena, &mut d.terms, &mut d.used);
    let (load, store, findings, work) = (&b.load, &mut b.store, &mut b.findings, &mut b.work);
    let (refusal, triples, done, counts) = match by {
        By::Port => port(port::Lent { table, arena, terms, used, load, store, findings, work }),
        By::Model => model(ours::Lent { table, arena, terms, used, load, store, findings, work }),
    };
    let mut result = vec![refusal.into(), triples.into(), done.into()];
    result.extend(counts.map(u64::from));
    result
}

fn read(by: By, d: &mut Dictionary, file: &[u8], load: &mut [u8]) -> Vec<u64> {
    let (table, arena, terms, used) = (&mut d.table, &mut d.arena, &mut d.terms, &mut d.used);
    let (refusal, triples) = match by {
        By::Port => port::read(port::LentToRead { table, arena, terms, used, file, load }),
        By::Model => ours::read(ours::LentToRead { table, arena, terms, used, file, load }),
    };
    vec![refusal.into(), triples.into()]
}

fn write(by: By, d: &Dictionary, w: &mut Write) -> Vec<u64> {
    let (table, arena, terms, used) = (&d.table, &d.arena, d.terms, d.used);
    let (store, triples, page) = (&w.store, w.triples, &mut w.page);
    let (refusal, length, left_out) = match by {
        By::Port => port::write(port::LentToWrite { table, arena, terms, used, store, triples, page }),
        By::Model => ours::write(ours::LentToWrite { table, arena, terms, used, store, triples, page }),
    };
    vec![refusal.into(), length, left_out.into()]
}

/// A file as text, the middle of a long one left out.
fn shown(file: &[u8]) -> String {
    let text = |bytes: &[u8]| bytes.escape_ascii().to_string();
    match file.len() {
        0..=600 => text(file),
        n => format!("{}[..]{}, {n} bytes", text(&file[..300]), text(&file[n - 300..])),
    }
}

/// The first row in which two stores differ, each row as s, p, o, pass and rule.
fn first_row_apart(port: &[u8], model: &[u8]) -> String {
    let rows = |store: &[u8]| store.chunks_exact(4 * STORE_WIDTH).map(<[u8]>::to_vec).collect::<Vec<_>>();
    let shown = |row: &[u8]| {
        let numbers = row.chunks_exact(4).map(|b| u32::from_le_bytes(b.try_into().expect("four bytes")).to_string());
        numbers.collect::<Vec<_>>().join(" ")
    };
    match rows(port).iter().zip(rows(model)).enumerate().find(|(_, (p, m))| *p != m) {
        Some((k, (p, m))) => format!("  row {k} of the store: {} in the port, {} in the model\n", shown(p), shown(&m)),
        None => String::new(),
    }
}

/// Says where two outcomes differ.
pub fn difference(port: &After, model: &After) -> String {
    let mut text = String::new();
    if port.result != model.result {
        text += &format!("  result: port {:?}, model {:?}\n", port.result, model.result);
    }
    let (p, m) = (&port.dictionary, &model.dictionary);
    if (p.terms, p.used) != (m.terms, m.used) {
        text += &format!("  counters: port {} {}, model {} {}\n", p.terms, p.used, m.terms, m.used);
    }
    let mut buffer = |name: &str, a: &[u8], b: &[u8]| {
        if let Some(at) = a.iter().zip(b).position(|(x, y)| x != y) {
            text += &format!("  {name}: byte {at} is {} in the port, {} in the model\n", a[at], b[at]);
        }
    };
    buffer("table", &p.table, &m.table);
    buffer("arena", &p.arena, &m.arena);
    if let (Some(p), Some(m)) = (port.call.lent(), model.call.lent()) {
        buffer("load", &p.load, &m.load);
        buffer("store", &p.store, &m.store);
        buffer("findings", &p.findings, &m.findings);
        buffer("list work buffer", &p.work, &m.work);
    }
    if let (Call::Write(p), Call::Write(m)) = (&port.call, &model.call) {
        buffer("store", &p.store, &m.store);
        buffer("page", &p.page, &m.page);
        text += &format!("  page of the port: {}\n  page of the model: {}\n", shown(&p.page), shown(&m.page));
        return text;
    }
    if let (Call::Read { file: p_file, load: p }, Call::Read { file, load }) = (&port.call, &model.call) {
        buffer("load", p, load);
        buffer("file", p_file, file);
        text += &format!("  file: {}\n", shown(file));
    }
    if let (Some(p), Some(m)) = (port.call.lent(), model.call.lent()) {
        text += &first_row_apart(&p.store, &m.store);
    }
    text
}
