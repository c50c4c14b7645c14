//! Changed stores for passes. Some of what is done here leaves a store that a pass takes, so that the test for one that it does not take is
//! tried from both sides.

use generate::{small, Random, FIRST};
use model::calls::starting_triples;
use model::dictionary::Term;
use model::rows::Record;
use model::turns::PASS_LIMIT;
use model::Triple;

/// A store's rows, the load that is lent beside it, the number of terms held before a run's three, and those held with them.
pub struct Changed {
    pub rows: Vec<Record>,
    pub load: Vec<Triple>,
    pub before: usize,
    pub terms: Vec<Term>,
}

pub type Change = fn(&mut Changed, &mut Random);

pub const CHANGES: &[(&str, Change)] = &[
    ("two rows exchanged", exchanged),
    ("a row twice", twice),
    ("a row twice, with other numbers", twice_numbered),
    ("an id that is not known", unknown_id),
    ("an id of a run's terms", id_of_a_run),
    ("a pass at the limit", pass_at_the_limit),
    ("a pass over the limit", pass_over_the_limit),
    ("a starting triple missing", starting_triple_missing),
    ("another triple missing", other_triple_missing),
    ("a row of zeros", row_of_zeros),
    ("numbers behind zeros", numbers_behind_zeros),
    ("zeros behind the rows", zeros_behind),
    ("0 0 0 in front", zero_in_front),
    ("other passes and rules", other_numbers),
    ("other numbers of a starting triple", start_numbered),
    ("triples that do not follow", not_following),
    ("triples with an id 0", zero_triples),
    ("container properties that the load does not use", containers),
    ("list triples that the load does not have", list_triples),
    ("list triples that the load has no more", list_triples_of_the_store),
    ("zero triples that findings need", zero_triples_of_findings),
    ("a part of the load", part_of_the_load),
    ("more in the load", more_in_the_load),
    ("another load", another_load),
    ("a number more or less", one_number),
    ("no rows", |store, _| store.rows.clear()),
];

/// The place there of the container properties, which few dictionaries have.
pub const CONTAINERS: usize = 17;

fn at(store: &Changed, r: &mut Random) -> Option<usize> {
    (!store.rows.is_empty()).then(|| r.below(store.rows.len()))
}

/// In its place in the order, where the triple is not there.
fn insert(store: &mut Changed, triple: Triple, r: &mut Random) {
    if let Err(at) = store.rows.binary_search_by_key(&triple, |row| row.triple) {
        let (pass, rule) = if r.percent(50) { (0, 0) } else { (r.below(5) as u32, r.below(29) as u32) };
        store.rows.insert(at, Record { triple, pass, rule });
    }
}

/// A triple of known ids, with this one among them.
fn with_id(store: &Changed, id: u32, r: &mut Random) -> Triple {
    let mut triple = [0; 3].map(|_| r.between(1, store.terms.len() - 1) as u32);
    triple[r.below(3)] = id;
    triple
}

fn exchanged(store: &mut Changed, r: &mut Random) {
    if let (Some(i), Some(j)) = (at(store, r), at(store, r)) {
        let next = (i + 1) % store.rows.len();
        store.rows.swap(i, if r.percent(50) { j } else { next });
    }
}

fn twice(store: &mut Changed, r: &mut Random) {
    if let Some(at) = at(store, r) {
        let row = store.rows[at];
        let to = if r.percent(60) { at } else { r.below(store.rows.len() + 1) };
        store.rows.insert(to, row);
    }
}

/// Behind it, with a larger pass or rule: ascending by five numbers.
fn twice_numbered(store: &mut Changed, r: &mut Random) {
    if let Some(at) = at(store, r) {
        let mut row = store.rows[at];
        if r.percent(50) {
            row.pass = row.pass.wrapping_add(1);
        } else {
            row.rule = row.rule.wrapping_add(1);
        }
        store.rows.insert(at + 1, row);
    }
}

fn unknown_id(store: &mut Changed, r: &mut Random) {
    let known = store.terms.len() as u32;
    let id = r.pick(&[known, known, known + 1, known + 2, u32::MAX]);
    let triple = with_id(store, id, r);
    insert(store, triple, r);
}

/// Known by a run's terms, or, where those are held, not at all.
fn id_of_a_run(store: &mut Changed, r: &mut Random) {
    let id = (store.before + r.below(3)) as u32;
    let triple = with_id(store, id, r);
    insert(store, triple, r);
}

fn pass_at_the_limit(store: &mut Changed, r: &mut Random) {
    if let Some(at) = at(store, r) {
        store.rows[at].pass = PASS_LIMIT - r.pick(&[0, 0, 1]);
    }
}

fn pass_over_the_limit(store: &mut Changed, r: &mut Random) {
    if let Some(at) = at(store, r) {
        store.rows[at].pass = r.pick(&[PASS_LIMIT + 1, PASS_LIMIT + 1, PASS_LIMIT + 2, 1 << 31, u32::MAX]);
    }
}

fn start(store: &Changed) -> Vec<Triple> {
    starting_triples(&store.terms, &store.load)
}

fn starting_triple_missing(store: &mut Changed, r: &mut Random) {
    let one = r.pick(&start(store));
    store.rows.retain(|row| row.triple != one);
}

fn other_triple_missing(store: &mut Changed, r: &mut Random) {
    let start = start(store);
    if let Some(at) = at(store, r).filter(|at| !start.contains(&store.rows[*at].triple)) {
        store.rows.remove(at);
    }
}

/// In front it is the triple 0 0 0.
fn row_of_zeros(store: &mut Changed, r: &mut Random) {
    let at = if r.percent(30) { 0 } else { r.below(store.rows.len() + 1) };
    store.rows.insert(at, Record { triple: [0; 3], pass: 0, rule: 0 });
}

fn zeros_behind(store: &mut Changed, r: &mut Random) {
    for _ in 0..r.between(1, 3) {
        store.rows.push(Record { triple: [0; 3], pass: 0, rule: 0 });
    }
}

fn numbers_behind_zeros(store: &mut Changed, r: &mut Random) {
    if r.percent(70) {
        zeros_behind(store, r);
    }
    let known = store.terms.len() as u32;
    let any = with_id(store, known - 1, r);
    let (triple, pass, rule) =
        r.pick(&[([0; 3], 1, 0), ([0; 3], 0, 1), ([0; 3], u32::MAX, 0), ([0, 0, 1], 0, 0), ([1, 0, 0], 0, 0), (any, 0, 0)]);
    store.rows.push(Record { triple, pass, rule });
}

fn zero_in_front(store: &mut Changed, r: &mut Random) {
    let (pass, rule) = r.pick(&[(0, 0), (0, 0), (1, 9), (0, 28), (3, 0), (PASS_LIMIT, 1), (PASS_LIMIT + 1, 1)]);
    store.rows.retain(|row| row.triple != [0; 3]);
    store.rows.insert(0, Record { triple: [0; 3], pass, rule });
}

/// No other value of either column is asked about.
fn other_numbers(store: &mut Changed, r: &mut Random) {
    for _ in 0..r.between(1, 3) {
        if let Some(at) = at(store, r) {
            let passes = [0, 1, 2, 5, 100, PASS_LIMIT - 1];
            (store.rows[at].pass, store.rows[at].rule) = (r.pick(&passes), r.pick(&[0, 1, 8, 28, 29, 65_536, u32::MAX]));
        }
    }
}

fn start_numbered(store: &mut Changed, r: &mut Random) {
    let one = r.pick(&start(store));
    for row in store.rows.iter_mut().filter(|row| row.triple == one) {
        (row.pass, row.rule) = (r.below(4) as u32, r.between(1, 28) as u32);
    }
}

fn not_following(store: &mut Changed, r: &mut Random) {
    let own = store.before.saturating_sub(FIRST as usize);
    let more = if own > 0 && r.percent(50) { small::load(own.min(12), r) } else { Vec::new() };
    for triple in more {
        insert(store, triple, r);
    }
    for _ in 0..r.between(1, 3) {
        let id = r.between(1, store.terms.len() - 1) as u32;
        let triple = with_id(store, id, r);
        insert(store, triple, r);
    }
}

fn zero_triples(store: &mut Changed, r: &mut Random) {
    for _ in 0..r.between(1, 3) {
        let mut triple = with_id(store, 0, r);
        if r.percent(40) {
            triple[1] = r.pick(&[1, 5, 7, 8, 11]);
        }
        insert(store, triple, r);
    }
}

/// As predicates: they bring no axioms.
fn containers(store: &mut Changed, r: &mut Random) {
    let is_one = |id: &u32| model::dictionary::is_container_property(&store.terms[*id as usize]);
    let ids: Vec<u32> = (FIRST..store.terms.len() as u32).filter(is_one).collect();
    if let Some(id) = (!ids.is_empty()).then(|| r.pick(&ids)) {
        let [s, _, o] = with_id(store, 1, r);
        insert(store, [s, id, o], r);
        store.load.retain(|t| t[1] != id);
    }
}

/// A list of one class, of which there is something, that a union or an intersection names: it is not read.
fn list_triples(store: &mut Changed, r: &mut Random) {
    let [c, cell, other] = with_id(store, 4, r);
    let classes: Vec<u32> = store.rows.iter().filter(|row| row.triple[1] == 1).map(|row| row.triple[2]).collect();
    let class = if classes.is_empty() { other } else { r.pick(&classes) };
    for triple in [[c, r.pick(&[21, 22]), cell], [cell, 2, class], [cell, 3, 4]] {
        insert(store, triple, r);
    }
}

/// Another load is lent, without list triples: its lists count.
fn list_triples_of_the_store(store: &mut Changed, r: &mut Random) {
    if r.percent(50) {
        list_triples(store, r);
    }
    store.load.retain(|t| ![2, 3].contains(&t[1]));
}

/// A class 0 of check 1, or a property 0 of check 2.
fn zero_triples_of_findings(store: &mut Changed, r: &mut Random) {
    let [x, c, _] = with_id(store, 9, r);
    let more = match r.below(3) {
        0 => [[x, 1, 0], [x, 1, c], [0, 26, c]],
        1 => [[x, 1, 0], [x, 1, c], [c, 26, 0]],
        _ => [[0, 1, 14], [x, 0, x], [x, 0, x]],
    };
    more.into_iter().for_each(|triple| insert(store, triple, r));
}

/// Its starting triples are all there; lists are the part's.
fn part_of_the_load(store: &mut Changed, r: &mut Random) {
    store.load.retain(|_| r.percent(60));
}

fn more_in_the_load(store: &mut Changed, r: &mut Random) {
    let triple = match at(store, r) {
        // What follows may be loaded too.
        Some(at) if r.percent(40) => store.rows[at].triple,
        _ => [0; 3].map(|_| r.between(1, store.before - 1) as u32),
    };
    if triple.iter().all(|id| *id != 0 && (*id as usize) < store.before) {
        store.load.push(triple);
    }
}

fn another_load(store: &mut Changed, r: &mut Random) {
    let own = store.before.saturating_sub(FIRST as usize);
    store.load = if own > 0 { small::load(own.min(12), r) } else { Vec::new() };
}

fn one_number(store: &mut Changed, r: &mut Random) {
    if let Some(at) = at(store, r) {
        let mut numbers = store.rows[at].numbers();
        let n = r.below(5);
        numbers[n] = if r.percent(50) { numbers[n].wrapping_add(1) } else { numbers[n].wrapping_sub(1) };
        let [s, p, o, pass, rule] = numbers;
        store.rows[at] = Record { triple: [s, p, o], pass, rule };
    }
}
