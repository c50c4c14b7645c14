//! replay FILE: reads a text of calls as program replay does (crates/trial_replay/README.md), with the reference model in the port's
//! place, and prints what that program has to print. A line of another shape, or a cell or length out of range, ends it with status 1.

use model::calls::{lookup, put, read, run, start, Buffers, Dictionary};
use model::turns::{open, pass};
use model::writing::write;

const SIZE: usize = 70_112;
/// The cells before the load.
const SAVED: usize = 20_952;

/// First cell and number of cells, in the order of the registers with the lengths: table, arena, term, load, store, findings, work. The
/// file of a read is in the cells of a term.
const LENT: [[usize; 2]; 7] =
    [[32, 320], [352, 9_600], [9_952, 4_100], [20_952, 49_160], [18_152, 2_100], [20_252, 500], [20_752, 200]];
const PART: usize = 14_052;
/// The page of a write is in the cells of a part.
const PAGE_ROOM: usize = 4_100;

struct Program {
    memory: Vec<u32>,
    expected: Vec<u32>,
    saved: Vec<u32>,
    calls: u32,
    differences: u32,
}

fn main() {
    let file = std::env::args().nth(1).expect("replay FILE");
    let text = std::fs::read_to_string(file).expect("a text");
    let text = text.strip_suffix('\n').expect("a line feed at the end");
    let mut p = Program { memory: vec![0; SIZE], expected: vec![0; SIZE], saved: vec![0; SAVED], calls: 0, differences: 0 };
    for (k, line) in text.split('\n').enumerate() {
        if p.line(&numbers(line)).is_none() {
            println!("bad line {}", k + 1);
            std::process::exit(1);
        }
    }
    assert!(p.calls == 0, "a list without a name");
}

/// Decimal numbers without leading zeros, one space between; none where the line is something else.
fn numbers(line: &str) -> Vec<u32> {
    let all: Vec<u32> = line.split(' ').map_while(|word| word.parse().ok()).collect();
    let again: Vec<String> = all.iter().map(u32::to_string).collect();
    if again.join(" ") == line {
        all
    } else {
        Vec::new()
    }
}

impl Program {
    /// None where the line is none of the format's.
    fn line(&mut self, numbers: &[u32]) -> Option<()> {
        match *numbers {
            [kind @ (0 | 1), at, n, ref values @ ..] if values.len() == n as usize => self.write(kind == 0, at, values)?,
            [kind @ (2 | 3), at, n, value] if n as usize <= SIZE => self.write(kind == 2, at, &vec![value; n as usize])?,
            [4, call, differ @ (0 | 1)] => self.call(call, differ == 1)?,
            [5] => self.saved = self.memory[..SAVED].to_vec(),
            [6] => self.restore(),
            [7, n, ref name @ ..] if name.len() == n as usize && n <= 60 => {
                let bytes: Option<Vec<u8>> = name.iter().map(|b| u8::try_from(*b).ok()).collect();
                let name = String::from_utf8(bytes?).ok()?;
                println!("{name}: calls {}, differences {}", self.calls, self.differences);
                (self.calls, self.differences) = (0, 0);
            }
            _ => return None,
        }
        Some(())
    }

    fn restore(&mut self) {
        for memory in [&mut self.memory, &mut self.expected] {
            memory.fill(0);
            memory[..SAVED].copy_from_slice(&self.saved);
        }
    }

    fn write(&mut self, both: bool, at: u32, values: &[u32]) -> Option<()> {
        let cells = at as usize..at as usize + values.len();
        self.expected.get_mut(cells.clone())?.copy_from_slice(values);
        if both {
            self.memory[cells].copy_from_slice(values);
        }
        Some(())
    }

    fn call(&mut self, call: u32, differ: bool) -> Option<()> {
        match call {
            0..=7 => perform(call, &mut self.memory)?,
            8 => {}
            _ => return None,
        }
        self.calls += u32::from(call < 8);
        self.differences += u32::from((self.memory != self.expected) != differ);
        Some(())
    }
}

/// A call on the lent parts of the memory; none where a length is larger than its region, or a cell of bytes holds no byte.
fn perform(call: u32, m: &mut [u32]) -> Option<()> {
    let mut lent = Vec::new();
    for (k, [at, most]) in LENT.into_iter().enumerate() {
        let length = Some(m[k] as usize).filter(|n| *n <= most)?;
        lent.push(m[at..at + length].to_vec());
    }
    let bytes = |cells: &[u32]| cells.iter().map(|c| u8::try_from(*c).ok()).collect::<Option<Vec<u8>>>();
    let (mut arena, term, mut terms, mut used) = (bytes(&lent[1])?, bytes(&lent[2])?, m[9], m[10]);
    let [table, _, _, load, store, findings, work] = &mut lent[..] else { return None };
    let d = Dictionary { table, arena: &mut arena, terms: &mut terms, used: &mut used };
    match call {
        0 => m[11] = start(d),
        1 => (m[11], m[12]) = put(d, m[7], &term),
        2 => {
            let (number, kind, begin, length) = lookup(d, m[8]);
            (m[11], m[13], m[14]) = (number, kind, length as u32);
            (0..length).for_each(|k| m[PART + k] = u32::from(arena[begin + k]));
        }
        3 => {
            let (number, count, counts) = run(d, load, Buffers { store, findings, work });
            (m[11], m[15]) = (number, count);
            m[16..21].copy_from_slice(&counts);
        }
        4 => (m[11], m[15]) = read(d, &term, load),
        7 => {
            let length = Some(m[22] as usize).filter(|n| *n <= PAGE_ROOM)?;
            let mut page = bytes(&m[PART..PART + length])?;
            let (number, length, left_out) = write(d, store, m[23], &mut page);
            (m[11], m[24], m[25]) = (number, length as u32, left_out);
            page.iter().enumerate().for_each(|(k, b)| m[PART + k] = u32::from(*b));
        }
        _ => {
            let b = Buffers { store, findings, work };
            let (number, count, done, counts) = if call == 5 { open(d, load, b) } else { pass(d, load, b) };
            (m[11], m[15], m[21]) = (number, count, done);
            m[16..21].copy_from_slice(&counts);
        }
    }
    (m[9], m[10]) = (terms, used);
    lent[1] = arena.iter().map(|b| u32::from(*b)).collect();
    for (part, [at, _]) in lent.iter().zip(LENT) {
        m[at..at + part.len()].copy_from_slice(part);
    }
    Some(())
}
