//! damage N [SEED]: N calls on valid and on damaged input, the port against the reference model, inside and outside demand 2's
//! domain: every number of the result and every buffer, byte for byte. Exit status 1 where there is a difference.
//!
//! The calls come in scenarios of up to 20: a start, then puts, lookups, runs, opening calls, passes, reads and writes, each lent the
//! dictionary as the one before left it; a third of them are lent a damaged copy instead, and reads, opening calls and passes also the
//! same terms with just the room that they need. Passes are lent stores that passes leave, and changed ones (stores.rs); most writes are
//! lent dictionaries with terms of any bytes (terms.rs), and what the port wrote it reads again (writes.rs). `damage files` goes through
//! all changes of one byte of a small file instead (every.rs), and `damage turns N [SEED]` through N runs in turns (sequences.rs). ITEM=K
//! in the environment performs scenario K alone, and says what it does; FIRST=1 ends at the first difference.

mod broken;
mod calls;
mod every;
mod files;
mod lines;
mod reads;
mod scenario;
mod sequences;
mod stores;
#[path = "../support.rs"]
mod support;
mod terms;
mod turns;
mod writes;

use calls::{difference, perform, By, Call, Dictionary, Run, CALLS, OPEN, PASS, READ, WRITE};
use generate::Random;
use std::sync::Mutex;

const CALLS_OF_A_SCENARIO: u64 = 20;

/// Scenarios at the limits of a dictionary take long: one in this many.
const LIMITS_EVERY: u64 = 1_000;

/// Below this many calls a run need not meet every refusal.
const ENOUGH: u64 = 20_000;

/// The refusals are numbers below this.
const NUMBERS: usize = 16;

/// Those of a read, of an opening call, of a pass and of a write.
const OF_A_READ: [usize; 7] = [1, 2, 3, 7, 11, 13, 14];
const OF_AN_OPENING: [usize; 8] = [1, 2, 3, 4, 5, 6, 7, 8];
const OF_A_PASS: [usize; 9] = [1, 2, 3, 4, 5, 6, 7, 8, 9];
const OF_A_WRITE: [usize; 4] = [1, 4, 6, 15];

struct Tally {
    calls: u64,
    /// By call and refusal.
    met: [[u64; NUMBERS]; CALLS.len()],
    /// By kind of damage: refused as broken, and not.
    damaged: Vec<[u64; 2]>,
    /// By kind of change to the store of a pass: refused with 4, with another number, and accepted.
    changed: Vec<[u64; 3]>,
    /// Texts that were read again, their triples, and the triples that were left out.
    written: [u64; 3],
    differences: u64,
}

impl Tally {
    fn count(&mut self, call: &Call, damage: Option<usize>, refusal: usize) {
        self.calls += 1;
        self.met[call.number()][refusal] += 1;
        if let Call::Pass(_, Some(kind)) = call {
            self.changed[*kind][[2, 1, 0][usize::from(refusal > 0) + usize::from(refusal == 4)]] += 1;
        }
        if let (Some(kind), true) = (damage, call.number() > 0) {
            self.damaged[kind][usize::from(refusal != 1)] += 1;
        }
    }

    /// What the text of an accepted write gave when it was read again; says what was not as it has to be.
    fn count_written(&mut self, again: Result<Option<usize>, String>, left_out: u64) -> Option<String> {
        self.written[2] += left_out;
        let triples = match again {
            Ok(triples) => triples?,
            Err(how) => return Some(how),
        };
        self.written[0] += 1;
        self.written[1] += triples as u64;
        None
    }

    fn met_all(&self) -> bool {
        let met = |call: usize, refusals: &[usize]| refusals.iter().all(|k| self.met[call][*k] > 0);
        (1..NUMBERS).all(|k| self.met.iter().any(|row| row[k] > 0))
            && met(READ, &OF_A_READ)
            && met(OPEN, &OF_AN_OPENING)
            && met(PASS, &OF_A_PASS)
            && met(WRITE, &OF_A_WRITE)
    }
}

fn main() {
    if std::env::args().nth(1).as_deref() == Some("files") {
        return every::main();
    }
    if std::env::args().nth(1).as_deref() == Some("turns") {
        return sequences::main();
    }
    let (n, seed) = support::number_and_seed("damage");
    let only: Option<u64> = std::env::var("ITEM").ok().and_then(|k| k.parse().ok());
    let first = std::env::var_os("FIRST").is_some();
    let (damaged, changed) = (vec![[0; 2]; broken::KINDS.len()], vec![[0; 3]; stores::CHANGES.len()]);
    let met = [[0; NUMBERS]; CALLS.len()];
    let tally = Mutex::new(Tally { calls: 0, met, damaged, changed, written: [0; 3], differences: 0 });
    support::in_parallel(u64::MAX, |item| {
        let ended = |t: &Tally| t.calls >= n || (first && t.differences > 0);
        if ended(&tally.lock().expect("the tally")) || (only.is_some() && item > 0) {
            return false;
        }
        scenario_of(only.unwrap_or(item), seed, n, only.is_some(), &tally);
        true
    });
    let tally = tally.into_inner().expect("the tally");
    print(&tally);
    let missed = n >= ENOUGH && !tally.met_all() && !(first && tally.differences > 0);
    if missed {
        println!("a refusal was never met");
    }
    std::process::exit(i32::from(tally.differences > 0 || missed));
}

fn print(tally: &Tally) {
    println!("{} calls, {} differences", tally.calls, tally.differences);
    for (name, row) in CALLS.iter().zip(&tally.met) {
        let met: String = (0..NUMBERS).filter(|k| row[*k] > 0).map(|k| format!("  {k}: {}", row[k])).collect();
        println!("{name:7}{met}");
    }
    let [texts, triples, left_out] = tally.written;
    println!("texts of the port that it read again: {texts}, with {triples} triples; {left_out} triples left out");
    println!("damaged dictionaries, refused with 1 and not:");
    for ((name, _), [broken, not]) in broken::KINDS.iter().zip(&tally.damaged) {
        println!("  {name}: {broken}, {not}");
    }
    println!("changed stores of passes, refused with 4, with another number, and accepted:");
    for ((name, _), [late, other, taken]) in stores::CHANGES.iter().zip(&tally.changed) {
        println!("  {name}: {late}, {other}, {taken}");
    }
}

/// One dictionary and the calls on it.
fn scenario_of(item: u64, seed: u64, n: u64, tell: bool, tally: &Mutex<Tally>) {
    let mut r = Random::item(seed, item);
    let limits = item % LIMITS_EVERY == LIMITS_EVERY - 1;
    let mut d = match (limits, item / LIMITS_EVERY % 2) {
        (false, _) => scenario::unstarted(&mut r),
        (true, 0) => scenario::unstarted_at_the_limit(&mut r),
        (true, _) => scenario::full_at_the_limit(&mut r),
    };
    let mut last: Option<Run> = None;
    for k in 0..CALLS_OF_A_SCENARIO {
        let call = if k == 0 && !(limits && d.terms > 7) { Call::Start } else { scenario::call(&d, last.as_ref(), &mut r) };
        let damage = (k > 0 && r.percent(33)).then(|| r.below(broken::KINDS.len()));
        let lent = another(&d, &call, damage, limits, &mut r);
        if tell {
            println!("call {k}: {}", CALLS[call.number()]);
        }
        let [port, model] = [By::Port, By::Model].map(|by| perform(by, lent.as_ref().unwrap_or(&d), &call));
        let again = (call.number() == WRITE && port == model && port.result[0] == 0)
            .then(|| writes::read_again(lent.as_ref().unwrap_or(&d), &port));
        if lent.is_none() {
            d = model.dictionary.clone();
        }
        if let (Call::Open(b) | Call::Pass(b, _), 0) = (&model.call, model.result[0]) {
            last = Some(b.clone());
        }
        if call == Call::Start && model.result[0] != 0 && r.percent(80) {
            d = scenario::with_terms(&mut r);
        }
        let mut t = tally.lock().expect("the tally");
        if t.calls >= n {
            return;
        }
        t.count(&call, damage, model.result[0] as usize);
        let unlike = again.and_then(|again| t.count_written(again, model.result[2]));
        if port != model || unlike.is_some() {
            t.differences += 1;
            let lent_how = damage.map_or(String::new(), |kind| format!(", damaged: {}", broken::KINDS[kind].0));
            println!("difference in scenario {item} of seed {seed}, call {k}, {}{lent_how}", CALLS[call.number()]);
            print!("{}", difference(&port, &model));
            unlike.iter().for_each(|how| println!("  read again: {how}"));
        }
    }
}

/// The dictionary that the call is lent in place of the scenario's own, where it is another.
fn another(d: &Dictionary, call: &Call, damage: Option<usize>, limits: bool, r: &mut Random) -> Option<Dictionary> {
    let of = match call {
        Call::Write(write) => write.of.as_ref(),
        _ => None,
    };
    match (damage, call) {
        (Some(kind), _) => Some(damaged(of.unwrap_or(d), kind, r)),
        (None, Call::Write(_)) => of.cloned(),
        (None, Call::Read { file, .. }) if !limits && r.percent(70) => reads::fitted(d, file, r),
        (None, Call::Open(_) | Call::Pass(..)) if !limits && r.percent(25) => turns::fitted(d, r),
        (None, _) => None,
    }
}

fn damaged(d: &Dictionary, kind: usize, r: &mut Random) -> Dictionary {
    let mut copy = d.clone();
    (broken::KINDS[kind].1)(&mut copy, r);
    copy
}
