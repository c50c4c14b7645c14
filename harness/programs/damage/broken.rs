//! Damaged dictionaries. Some of what is done here leaves a dictionary that a start and puts could have left, so that the test for
//! a broken one is tried from both sides.

use crate::calls::Dictionary;
use generate::Random;
use model::dictionary::{bytes_of, layout, starting_terms, Term};

/// Table numbers, for editing.
pub struct Numbers(pub Vec<u32>);

const HEADS: usize = 64;

impl Numbers {
    fn of(d: &Dictionary) -> Numbers {
        Numbers(d.table.chunks_exact(4).map(|b| u32::from_le_bytes(b.try_into().expect("four bytes"))).collect())
    }

    fn write(self, d: &mut Dictionary) {
        for (place, n) in d.table.chunks_exact_mut(4).zip(self.0) {
            place.copy_from_slice(&n.to_le_bytes());
        }
    }

    /// The place of an entry's start, length, kind and next id.
    fn entry(id: usize) -> usize {
        HEADS + 4 * id
    }
}

/// A kind of damage, and what does it.
type Damage = (&'static str, fn(&mut Dictionary, &mut Random));

pub const KINDS: &[Damage] = &[
    ("a bit of the table", flip_in_table),
    ("a bit of the arena", flip_in_arena),
    ("a bit of a counter", flip_in_counter),
    ("a number of the table", set_number),
    ("two entries swapped", swap_entries),
    ("two heads swapped", swap_heads),
    ("chain order", chain_order),
    ("a chain cut or closed to a ring", chain_link),
    ("a counter off by one", counter_off),
    ("the last term forgotten", forget_last),
    ("an unused number", unused_number),
    ("an unused byte", unused_byte),
    ("a gap in the arena", gap),
    ("other terms, laid out", other_terms),
    ("another table length", table_length),
    ("another arena length", arena_length),
    ("a start and length past the arena", past_the_arena),
    ("an empty term elsewhere", empty_term),
];

fn terms_of(d: &Dictionary) -> usize {
    (d.terms as usize).min((d.table.len() / 4).saturating_sub(HEADS) / 4)
}

fn flip(bytes: &mut [u8], upto: usize, r: &mut Random) {
    if upto > 0 {
        bytes[r.below(upto)] ^= 1 << r.below(8);
    }
}

fn flip_in_table(d: &mut Dictionary, r: &mut Random) {
    let upto = if r.percent(80) { (4 * (HEADS + 4 * terms_of(d))).min(d.table.len()) } else { d.table.len() };
    flip(&mut d.table, upto, r);
}

fn flip_in_arena(d: &mut Dictionary, r: &mut Random) {
    let upto = if r.percent(80) { (d.used as usize).min(d.arena.len()) } else { d.arena.len() };
    flip(&mut d.arena, upto, r);
}

fn flip_in_counter(d: &mut Dictionary, r: &mut Random) {
    let bit = 1u32 << r.below(32);
    if r.percent(50) {
        d.terms ^= bit
    } else {
        d.used ^= bit
    }
}

fn set_number(d: &mut Dictionary, r: &mut Random) {
    let mut n = Numbers::of(d);
    if n.0.is_empty() {
        return;
    }
    let upto = if r.percent(80) { (HEADS + 4 * terms_of(d)).min(n.0.len()) } else { n.0.len() };
    let at = r.below(upto);
    let values = [0, 1, 3, 4, d.terms.wrapping_sub(1), d.terms, d.used, 4_096, 4_097, u32::MAX, r.bits() as u32];
    n.0[at] = r.pick(&values);
    n.write(d);
}

fn swap_entries(d: &mut Dictionary, r: &mut Random) {
    let terms = terms_of(d);
    if terms < 2 {
        return;
    }
    let mut n = Numbers::of(d);
    let (a, b) = (Numbers::entry(r.below(terms)), Numbers::entry(r.below(terms)));
    for k in 0..r.between(1, 4) {
        n.0.swap(a + k, b + k);
    }
    n.write(d);
}

fn swap_heads(d: &mut Dictionary, r: &mut Random) {
    let mut n = Numbers::of(d);
    if n.0.len() >= HEADS {
        n.0.swap(r.below(HEADS), r.below(HEADS));
        n.write(d);
    }
}

/// Swaps two neighbours of a chain: each term can still be found.
fn chain_order(d: &mut Dictionary, r: &mut Random) {
    let (terms, mut n) = (terms_of(d), Numbers::of(d));
    let with_next: Vec<usize> = (0..HEADS.min(n.0.len()))
        .filter(|h| (n.0[*h] as usize) < terms && n.0[*h] != 0 && n.0[Numbers::entry(n.0[*h] as usize) + 3] != 0)
        .collect();
    if with_next.is_empty() {
        return;
    }
    let head = r.pick(&with_next);
    let a = n.0[head] as usize;
    let b = n.0[Numbers::entry(a) + 3] as usize;
    if b < terms {
        n.0[head] = b as u32;
        n.0[Numbers::entry(a) + 3] = n.0[Numbers::entry(b) + 3];
        n.0[Numbers::entry(b) + 3] = a as u32;
        n.write(d);
    }
}

fn chain_link(d: &mut Dictionary, r: &mut Random) {
    let (terms, mut n) = (terms_of(d), Numbers::of(d));
    if terms > 0 {
        let id = r.below(terms);
        n.0[Numbers::entry(id) + 3] = r.pick(&[0, id as u32, terms as u32 - 1, terms as u32, 1]);
        n.write(d);
    }
}

fn counter_off(d: &mut Dictionary, r: &mut Random) {
    let by = r.pick(&[1, u32::MAX]);
    match r.below(3) {
        0 => d.terms = d.terms.wrapping_add(by),
        1 => d.used = d.used.wrapping_add(by),
        _ => (d.terms, d.used) = (d.terms.wrapping_add(by), d.used.wrapping_add(by)),
    }
}

/// Takes the last term out, whole: valid while the vocabulary stays.
fn forget_last(d: &mut Dictionary, r: &mut Random) {
    if let Some(mut terms) = held(d) {
        terms.truncate(terms.len() - 1 - if r.percent(20) { terms.len() - 31 } else { 0 });
        lay(d, &terms);
    }
}

fn unused_number(d: &mut Dictionary, r: &mut Random) {
    let (used, mut n) = (HEADS + 4 * terms_of(d), Numbers::of(d));
    if used < n.0.len() {
        let at = used + r.below(n.0.len() - used);
        n.0[at] = 1;
        n.write(d);
    }
}

fn unused_byte(d: &mut Dictionary, r: &mut Random) {
    let used = (d.used as usize).min(d.arena.len());
    if used < d.arena.len() {
        let at = used + r.below(d.arena.len() - used);
        d.arena[at] = 1;
    }
}

/// Moves the bytes of an entry and all behind it up by one.
fn gap(d: &mut Dictionary, r: &mut Random) {
    let (terms, mut n) = (terms_of(d), Numbers::of(d));
    if terms == 0 || d.used as usize >= d.arena.len() {
        return;
    }
    let id = r.below(terms);
    let from = (n.0[Numbers::entry(id)] as usize).min(d.arena.len() - 1);
    d.arena[from..].rotate_right(1);
    d.arena[from] = 0;
    for k in id..terms {
        n.0[Numbers::entry(k)] += 1;
    }
    n.write(d);
    d.used += r.below(2) as u32;
}

/// A list of terms that may not come from puts, laid out without a fault.
fn other_terms(d: &mut Dictionary, r: &mut Random) {
    let Some(mut terms) = held(d) else { return };
    let at = r.below(terms.len());
    let other = terms[r.below(terms.len())].clone();
    match r.below(9) {
        0 => terms[at].0 = r.pick(&[0, 1, 2, 3, 4, u32::MAX]),
        1 => terms.push(other),
        2 => {
            let to = r.below(terms.len());
            terms.swap(at, to);
        }
        3 => drop(terms.remove(at)),
        4 => terms.push((r.between(1, 3) as u32, b"urn:_".to_vec())),
        5 => terms.push((1, vec![b'x'; r.between(4_095, 4_098)])),
        6 => terms.push((r.between(1, 3) as u32, other.1)),
        7 => terms.truncate(r.between(0, 31)),
        _ => terms = starting_terms().into_iter().chain((0..r.below(8)).map(|k| (2, vec![k as u8]))).collect(),
    }
    lay(d, &terms);
}

fn table_length(d: &mut Dictionary, r: &mut Random) {
    let by = r.pick(&[1, 2, 3, 4, 8, 12, 16, 32]);
    let to = if r.percent(50) { d.table.len() + by } else { d.table.len().saturating_sub(by) };
    d.table.resize(to, 0);
}

fn arena_length(d: &mut Dictionary, r: &mut Random) {
    let by = r.between(1, 3);
    let to = if r.percent(50) { d.arena.len() + by } else { d.arena.len().saturating_sub(by) };
    d.arena.resize(to, u8::from(r.percent(20)));
}

fn past_the_arena(d: &mut Dictionary, r: &mut Random) {
    let (terms, mut n) = (terms_of(d), Numbers::of(d));
    if terms == 0 {
        return;
    }
    let e = Numbers::entry(r.below(terms));
    let end = d.arena.len() as u32;
    let pairs =
        [(u32::MAX, 2), (u32::MAX, 1), (end, 1), (end, 0), (0, end + 1), (1, u32::MAX), (0, u32::MAX), (end - end.min(1), 2)];
    (n.0[e], n.0[e + 1]) = r.pick(&pairs);
    n.write(d);
}

/// A term of no bytes whose start is not where it was put.
fn empty_term(d: &mut Dictionary, r: &mut Random) {
    let (terms, mut n) = (terms_of(d), Numbers::of(d));
    for id in 0..terms {
        let e = Numbers::entry(id);
        if n.0[e + 1] == 0 {
            n.0[e] = r.pick(&[0, n.0[e].wrapping_sub(1), n.0[e] + 1, d.arena.len() as u32, u32::MAX]);
        }
    }
    n.write(d);
}

fn held(d: &Dictionary) -> Option<Vec<Term>> {
    model::dictionary::held(&Numbers::of(d).0, &d.arena, d.terms, d.used)
}

/// Lays terms out, as far as they fit, in a table and an arena as long as these.
fn lay(d: &mut Dictionary, terms: &[Term]) {
    if model::dictionary::fits(terms, d.table.len() / 4, d.arena.len()) {
        let (numbers, arena) = layout(terms, d.table.len() / 4, d.arena.len());
        Numbers(numbers).write(d);
        d.arena = arena;
        (d.terms, d.used) = (terms.len() as u32, bytes_of(terms) as u32);
    }
}
