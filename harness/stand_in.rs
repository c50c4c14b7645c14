//! The reference model behind the port's C entry points: what the harness links where there is no port, and with what the
//! harness itself is tried. With FAULT set in the environment it does one thing wrong, and the programs must notice:
//!
//!   rule K      rule K is left out                 zero        triples with an id 0 are dropped early
//!   check K     check K reports nothing            dirty       store and findings are not cleared after a refusal 8 or 9
//!   refusal K   number K is answered as K + 1      counter     a put counts a byte too many
//!   list NAME   lists, nil among them, are read as model::mistakes has it by that name
//!   row NAME    rows are numbered, or a store is measured, as model::misnumberings has it by that name
//!   turn NAME   opening calls and passes are made as model::misturns has it by that name
//!   reader NAME files are read as model::misreadings has it by that name
//!   writer NAME stores are written as model::miswritings has it by that name

use model::bytes::{self, Lent, LentToRead, LentToWrite};
use model::closure::Mistake;
use model::misnumberings::MISNUMBERINGS;
use model::misreadings::{Misreading, MISREADINGS};
use model::mistakes;
use model::misturns::{Misturn, MISTURNS};
use model::miswritings::{Miswriting, MISWRITINGS};
use model::rows::Rows;
use model::turns::Turn;
use std::slice::{from_raw_parts, from_raw_parts_mut};
use std::sync::OnceLock;

#[derive(Default)]
struct Fault {
    mistake: Mistake,
    misreading: Option<Misreading>,
    miswriting: Option<Miswriting>,
    check: u32,
    refusal: u32,
    dirty: bool,
    counter: bool,
}

fn fault() -> &'static Fault {
    static FAULT: OnceLock<Fault> = OnceLock::new();
    FAULT.get_or_init(|| {
        let text = std::env::var("FAULT").unwrap_or_default();
        let name = || text.split(' ').nth(1).unwrap_or("");
        let number = || name().parse::<u32>().expect("FAULT has a number");
        let by = |mistake: Mistake| Fault { mistake, ..Fault::default() };
        match text.split(' ').next().unwrap_or("") {
            "" => Fault::default(),
            "rule" => by(Mistake { without: 1 << number(), ..Mistake::default() }),
            "zero" => by(Mistake { without: 1, ..Mistake::default() }),
            "check" => Fault { check: number(), ..Fault::default() },
            "refusal" => Fault { refusal: number(), ..Fault::default() },
            "dirty" => Fault { dirty: true, ..Fault::default() },
            "counter" => Fault { counter: true, ..Fault::default() },
            "list" => by(named(name())),
            "row" => by(Mistake { rows: misnumbering(name()), ..Mistake::default() }),
            "turn" => by(Mistake { turn: Some(misturn(name())), ..Mistake::default() }),
            "reader" => Fault { misreading: Some(misreading(name())), ..Fault::default() },
            "writer" => Fault { miswriting: Some(miswriting(name())), ..Fault::default() },
            _ => panic!("no fault {text}"),
        }
    })
}

fn named(name: &str) -> Mistake {
    mistakes::all().find(|(n, _)| *n == name).unwrap_or_else(|| panic!("no mistake {name}")).1
}

fn misnumbering(name: &str) -> Rows {
    MISNUMBERINGS.iter().find(|(n, _)| *n == name).unwrap_or_else(|| panic!("no misnumbering {name}")).1
}

fn misturn(name: &str) -> Misturn {
    MISTURNS.iter().find(|(n, _)| *n == name).unwrap_or_else(|| panic!("no misturn {name}")).1
}

fn misreading(name: &str) -> Misreading {
    MISREADINGS.iter().find(|(n, _)| *n == name).unwrap_or_else(|| panic!("no misreading {name}")).1
}

fn miswriting(name: &str) -> Miswriting {
    MISWRITINGS.iter().find(|(n, _)| *n == name).unwrap_or_else(|| panic!("no miswriting {name}")).1
}

fn answered(refusal: u32) -> u32 {
    if refusal != 0 && refusal == fault().refusal {
        refusal + 1
    } else {
        refusal
    }
}

/// # Safety
/// Each pointer is valid for its length, and for the call; none of them overlap.
#[no_mangle]
pub unsafe extern "C" fn tablestork_start(
    table: *mut u8,
    table_len: usize,
    arena: *mut u8,
    arena_len: usize,
    terms: *mut u32,
    used: *mut u32,
) -> u32 {
    let (table, arena) = (from_raw_parts_mut(table, table_len), from_raw_parts_mut(arena, arena_len));
    answered(bytes::start(table, arena, &mut *terms, &mut *used))
}

/// # Safety
/// As for `tablestork_start`.
#[no_mangle]
pub unsafe extern "C" fn tablestork_put(
    table: *mut u8,
    table_len: usize,
    arena: *mut u8,
    arena_len: usize,
    terms: *mut u32,
    used: *mut u32,
    kind: u32,
    term: *const u8,
    term_len: usize,
    id: *mut u32,
) -> u32 {
    let (table, arena) = (from_raw_parts_mut(table, table_len), from_raw_parts_mut(arena, arena_len));
    let before = *terms;
    let (refusal, at) = bytes::put(table, arena, &mut *terms, &mut *used, kind, from_raw_parts(term, term_len));
    if fault().counter && *terms > before {
        *used += 1;
    }
    *id = at;
    answered(refusal)
}

/// # Safety
/// As for `tablestork_start`.
#[no_mangle]
pub unsafe extern "C" fn tablestork_lookup(
    table: *const u8,
    table_len: usize,
    arena: *const u8,
    arena_len: usize,
    terms: u32,
    used: u32,
    id: u32,
    kind: *mut u32,
    begin: *mut u64,
    len: *mut u64,
) -> u32 {
    let (table, arena) = (from_raw_parts(table, table_len), from_raw_parts(arena, arena_len));
    let refusal;
    (refusal, *kind, *begin, *len) = bytes::lookup(table, arena, terms, used, id);
    answered(refusal)
}

/// # Safety
/// As for `tablestork_start`.
#[no_mangle]
pub unsafe extern "C" fn tablestork_run(
    table: *mut u8,
    table_len: usize,
    arena: *mut u8,
    arena_len: usize,
    terms: *mut u32,
    used: *mut u32,
    load: *const u8,
    load_len: usize,
    store: *mut u8,
    store_len: usize,
    findings: *mut u8,
    findings_len: usize,
    work: *mut u8,
    work_len: usize,
    triples: *mut u32,
    counts: *mut [u32; 5],
) -> u32 {
    let lent = Lent {
        table: from_raw_parts_mut(table, table_len),
        arena: from_raw_parts_mut(arena, arena_len),
        terms: &mut *terms,
        used: &mut *used,
        load: from_raw_parts(load, load_len),
        store: from_raw_parts_mut(store, store_len),
        findings: from_raw_parts_mut(findings, findings_len),
        work: from_raw_parts_mut(work, work_len),
    };
    let run = |lent: Lent, mistake: Mistake| {
        let (refusal, triples, counts) = bytes::run_mistaken(lent, mistake);
        (refusal, triples, 1, counts)
    };
    let refusal;
    (refusal, *triples, _, *counts) = on_lent(lent, run);
    answered(refusal)
}

/// # Safety
/// As for `tablestork_start`.
#[no_mangle]
pub unsafe extern "C" fn tablestork_open(
    table: *mut u8,
    table_len: usize,
    arena: *mut u8,
    arena_len: usize,
    terms: *mut u32,
    used: *mut u32,
    load: *const u8,
    load_len: usize,
    store: *mut u8,
    store_len: usize,
    findings: *mut u8,
    findings_len: usize,
    work: *mut u8,
    work_len: usize,
    triples: *mut u32,
    done: *mut u32,
    counts: *mut [u32; 5],
) -> u32 {
    let lent = Lent {
        table: from_raw_parts_mut(table, table_len),
        arena: from_raw_parts_mut(arena, arena_len),
        terms: &mut *terms,
        used: &mut *used,
        load: from_raw_parts(load, load_len),
        store: from_raw_parts_mut(store, store_len),
        findings: from_raw_parts_mut(findings, findings_len),
        work: from_raw_parts_mut(work, work_len),
    };
    let refusal;
    (refusal, *triples, *done, *counts) = on_lent(lent, bytes::open_mistaken);
    answered(refusal)
}

/// # Safety
/// As for `tablestork_start`.
#[no_mangle]
pub unsafe extern "C" fn tablestork_pass(
    table: *mut u8,
    table_len: usize,
    arena: *mut u8,
    arena_len: usize,
    terms: *mut u32,
    used: *mut u32,
    load: *const u8,
    load_len: usize,
    store: *mut u8,
    store_len: usize,
    findings: *mut u8,
    findings_len: usize,
    work: *mut u8,
    work_len: usize,
    triples: *mut u32,
    done: *mut u32,
    counts: *mut [u32; 5],
) -> u32 {
    let lent = Lent {
        table: from_raw_parts_mut(table, table_len),
        arena: from_raw_parts_mut(arena, arena_len),
        terms: &mut *terms,
        used: &mut *used,
        load: from_raw_parts(load, load_len),
        store: from_raw_parts_mut(store, store_len),
        findings: from_raw_parts_mut(findings, findings_len),
        work: from_raw_parts_mut(work, work_len),
    };
    let refusal;
    (refusal, *triples, *done, *counts) = on_lent(lent, bytes::pass_mistaken);
    answered(refusal)
}

/// # Safety
/// As for `tablestork_start`.
#[no_mangle]
pub unsafe extern "C" fn tablestork_read(
    table: *mut u8,
    table_len: usize,
    arena: *mut u8,
    arena_len: usize,
    terms: *mut u32,
    used: *mut u32,
    file: *const u8,
    file_len: usize,
    load: *mut u8,
    load_len: usize,
    triples: *mut u32,
) -> u32 {
    let lent = LentToRead {
        table: from_raw_parts_mut(table, table_len),
        arena: from_raw_parts_mut(arena, arena_len),
        terms: &mut *terms,
        used: &mut *used,
        file: from_raw_parts(file, file_len),
        load: from_raw_parts_mut(load, load_len),
    };
    let refusal;
    (refusal, *triples) = bytes::read_mistaken(lent, fault().misreading);
    answered(refusal)
}

/// # Safety
/// As for `tablestork_start`.
#[no_mangle]
pub unsafe extern "C" fn tablestork_write(
    table: *const u8,
    table_len: usize,
    arena: *const u8,
    arena_len: usize,
    terms: u32,
    used: u32,
    store: *const u8,
    store_len: usize,
    triples: u32,
    page: *mut u8,
    page_len: usize,
    length: *mut u64,
    left: *mut u32,
) -> u32 {
    let lent = LentToWrite {
        table: from_raw_parts(table, table_len),
        arena: from_raw_parts(arena, arena_len),
        terms,
        used,
        store: from_raw_parts(store, store_len),
        triples,
        page: from_raw_parts_mut(page, page_len),
    };
    let refusal;
    (refusal, *length, *left) = bytes::write_mistaken(lent, fault().miswriting);
    answered(refusal)
}

/// A run, an opening call or a pass, with the fault.
fn on_lent(lent: Lent, call: impl FnOnce(Lent, Mistake) -> Turn) -> Turn {
    let Lent { table, arena, terms, used, load, store, findings, work } = lent;
    let before = fault().dirty.then(|| store.to_vec());
    let borrowed = Lent { table, arena, terms, used, load, store: &mut *store, findings: &mut *findings, work };
    let (refusal, triples, done, mut counts) = call(borrowed, fault().mistake);
    if let (Some(before), 8..) = (before, refusal) {
        store.copy_from_slice(&before);
    }
    if fault().check != 0 {
        forget_check(fault().check, findings, &mut counts);
    }
    (refusal, triples, done, counts)
}

/// Takes a check's records out of the findings.
fn forget_check(check: u32, findings: &mut [u8], counts: &mut [u32; 5]) {
    let mut rows: Vec<Vec<u8>> = findings.chunks(20).map(<[u8]>::to_vec).filter(|row| row[..4] != check.to_le_bytes()).collect();
    rows.resize(findings.len() / 20, vec![0; 20]);
    findings[..20 * rows.len()].copy_from_slice(&rows.concat());
    counts[check as usize - 1] = 0;
}
