//! Writes: terms of any bytes, stores of any numbers, pages that just suffice or are one off it; and reads of what was written.

use crate::calls::{perform, After, By, Call, Dictionary, Write};
use crate::scenario::{about, filled, held, laid_out};
use crate::terms::term;
use crate::turns::numbers;
use generate::Random;
use model::dictionary::{bytes_of, starting_terms, Term, LITERAL, NAMED_NODE};
use model::{writing, Triple, LOAD_LIMIT, LOAD_WIDTH, STORE_LIMIT, STORE_WIDTH};

/// A write of terms of its own, or of those that the dictionary holds.
pub fn write(d: &Dictionary, r: &mut Random) -> Call {
    let of = r.percent(80).then(|| with_any_terms(r));
    let terms = held(of.as_ref().unwrap_or(d)).unwrap_or_else(starting_terms);
    let rows = rows(&terms, r);
    let triples = match r.below(30) {
        0 => rows.len() + 1,
        1 => rows.len() + r.between(2, 9),
        2 => r.pick(&[u32::MAX as usize, 1 << 31, STORE_LIMIT, STORE_LIMIT + 1]),
        3..=6 => r.below(rows.len() + 1),
        _ => rows.len(),
    } as u32;
    let mut store: Vec<u8> = rows.as_flattened().iter().flat_map(|n| n.to_le_bytes()).collect();
    let len = store_length(rows.len(), r);
    let filling = filled(len.saturating_sub(store.len()), r);
    store.extend(filling);
    store.truncate(len);
    let (length, _) = text_of(&terms, &numbers(&store), triples);
    let page = filled(page_length(length, r), r);
    Call::Write(Write { of, store, triples, page })
}

/// The starting terms and some of any bytes, each once, with a little room.
fn with_any_terms(r: &mut Random) -> Dictionary {
    let mut terms = starting_terms();
    for _ in 0..r.between(1, 14) {
        let new = term(r);
        if !terms.contains(&new) {
            terms.push(new);
        }
    }
    laid_out(&terms, 64 + 4 * (terms.len() + r.below(3)), bytes_of(&terms) + r.below(9))
}

/// Rows with any numbers for pass and rule: new terms more often than those of a start, predicates mostly named nodes. In few of them a
/// number is no id, or a row is zero; a row may be there again.
fn rows(terms: &[Term], r: &mut Random) -> Vec<[u32; STORE_WIDTH]> {
    let predicates: Vec<u32> = (0..).zip(terms).filter(|(_, (kind, _))| *kind == NAMED_NODE).map(|(id, _)| id).collect();
    let subjects: Vec<u32> = (0..).zip(terms).filter(|(_, (kind, _))| *kind != LITERAL).map(|(id, _)| id).collect();
    let last = terms.len() - 1;
    let any = |r: &mut Random| if r.percent(70) { r.between(last.min(31), last) as u32 } else { r.below(last + 1) as u32 };
    let of =
        |ids: &[u32], r: &mut Random| if r.percent(50) { ids[ids.len() - 1 - r.below(ids.len().min(8))] } else { r.pick(ids) };
    let bad = r.percent(15);
    let mut rows: Vec<[u32; STORE_WIDTH]> = Vec::new();
    for _ in 0..r.below(9) {
        let mut triple = [of(&subjects, r), of(&predicates, r), any(r)];
        match r.below(20) {
            0..=1 => triple = [0; 3].map(|_| any(r)),
            2 => triple = [0; 3],
            3 => triple[r.below(3)] = 0,
            4..=6 if bad => {
                let (known, bits) = (terms.len() as u32, r.bits() as u32);
                if r.percent(60) {
                    triple = [0; 3].map(|_| any(r));
                }
                triple[r.below(3)] = r.pick(&[known, known + 1, u32::MAX, bits]);
            }
            7 => triple = rows.last().map_or(triple, |row| [row[0], row[1], row[2]]),
            _ => (),
        }
        let [s, p, o] = triple;
        rows.push([s, p, o, number(r), number(r)]);
    }
    rows
}

fn number(r: &mut Random) -> u32 {
    let bits = r.bits() as u32;
    r.pick(&[0, 1, 30, 31, 65_536, u32::MAX, bits])
}

/// Bytes for so many rows, one off it, for as many triples without a pass and a rule, or for the most rows that a store has and one more.
fn store_length(rows: usize, r: &mut Random) -> usize {
    match r.below(200) {
        0 => 4 * STORE_WIDTH * STORE_LIMIT,
        1..=2 => 4 * STORE_WIDTH * (STORE_LIMIT + 1),
        3..=5 => 4 * LOAD_WIDTH * rows,
        6..=8 => 4 * LOAD_WIDTH * STORE_WIDTH * rows.div_ceil(LOAD_WIDTH),
        9..=12 => 4 * STORE_WIDTH * rows + 4 * r.below(STORE_WIDTH),
        13..=40 => 4 * STORE_WIDTH * (rows + r.between(1, 3)),
        _ => about(4 * STORE_WIDTH * rows, STORE_WIDTH, r),
    }
}

fn page_length(text: usize, r: &mut Random) -> usize {
    match r.below(20) {
        0..=2 => text.saturating_sub(1),
        3 => r.below(text + 1),
        4 => 0,
        5..=8 => text + r.between(1, 40),
        _ => text,
    }
}

/// The length of the text of the first triples that a store has and that are known, and those of them that are written, as terms.
fn text_of(terms: &[Term], store: &[u32], triples: u32) -> (usize, Vec<[Term; 3]>) {
    let (mut length, mut written) = (0, Vec::new());
    for row in store.chunks_exact(STORE_WIDTH).take(triples as usize) {
        let triple: Triple = [row[0], row[1], row[2]];
        let Some([s, p, o]) = triple.iter().all(|id| (*id as usize) < terms.len()).then(|| triple.map(|id| &terms[id as usize]))
        else {
            continue;
        };
        if let Some(line) = writing::line([s, p, o]) {
            length += line.len();
            written.push([s.clone(), p.clone(), o.clone()]);
        }
    }
    (length, written)
}

/// What an accepted write of the port left, read by the port into a started dictionary of the same lengths, has to give the triples
/// written, term by term. The number of triples that were read; none where there are more than a load takes.
pub fn read_again(d: &Dictionary, after: &After) -> Result<Option<usize>, String> {
    let Call::Write(write) = &after.call else { return Ok(None) };
    let terms = held(d).ok_or("the dictionary is none")?;
    let (_, written) = text_of(&terms, &numbers(&write.store), write.triples);
    let file = write.page[..after.result[1] as usize].to_vec();
    let [told, count] = [write.triples as usize - after.result[2] as usize, written.len()];
    if count > LOAD_LIMIT || told != count {
        return if told == count { Ok(None) } else { Err(format!("{told} triples are said to be written, {count} are")) };
    }
    let empty = Dictionary { table: vec![7; d.table.len()], arena: vec![7; d.arena.len()], terms: 7, used: 7 };
    let started = perform(By::Port, &empty, &Call::Start);
    let read = perform(By::Port, &started.dictionary, &Call::Read { file, load: vec![7; 4 * LOAD_WIDTH * count] });
    if started.result != [0] || read.result != [0, count as u64] {
        return Err(format!("start {:?}, read {:?} of {count} triples", started.result, read.result));
    }
    let (Call::Read { load, .. }, Some(terms)) = (&read.call, held(&read.dictionary)) else { return Err("no dictionary".into()) };
    let given = numbers(load).chunks(LOAD_WIDTH).map(|t| [0, 1, 2].map(|k| terms[t[k] as usize].clone())).collect::<Vec<_>>();
    let apart = given.iter().zip(&written).position(|(given, due)| given != due);
    apart.map_or(Ok(Some(count)), |k| Err(format!("triple {k}: {:?} was written, {:?} read", written[k], given[k])))
}
