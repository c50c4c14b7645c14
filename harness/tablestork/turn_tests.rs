//! The safe crate in turns, on worked cases of docs/REFERENCE.md, 3.6.

use super::*;

fn started() -> Dictionary {
    let mut d = Dictionary::start(64, 4_096).expect("room enough");
    for k in 1..=5 {
        assert_eq!(d.put(Kind::NamedNode, format!("urn:t{k}").as_bytes()), Ok(30 + k));
    }
    d
}

fn going(triples: u32) -> Result<Step, Refusal> {
    Ok(Step { triples, done: false, counts: [0; 5] })
}

fn done(triples: u32, counts: [u32; 5]) -> Result<Step, Refusal> {
    Ok(Step { triples, done: true, counts })
}

fn numbers(records: &[Record]) -> Vec<[u32; 5]> {
    records.iter().map(Record::numbers).collect()
}

const FUNCTIONAL: [Triple; 3] = [[31, 1, 19], [32, 31, 33], [34, 31, 35]];

/// Two triples with an id 0 are counted until the run is done.
#[test]
fn closes_in_turns() {
    with_stack(|| {
        let (mut d, mut whole) = (started(), started());
        let mut turns = d.turns(&FUNCTIONAL, 16, 0).expect("accepted");
        assert_eq!((turns.told(), turns.closed()), (going(5), None));
        let start = [[9, 1, 30, 0, 0], [10, 1, 30, 0, 0], [31, 1, 19, 0, 0], [32, 31, 33, 0, 0], [34, 31, 35, 0, 0]];
        assert_eq!(numbers(&turns.records()), start);
        assert_eq!((turns.next(), numbers(&turns.records())[0]), (Some(going(13)), [0, 0, 0, 1, 9]));
        assert_eq!((turns.next(), numbers(&turns.records())[1]), (Some(going(16)), [0, 1, 9, 2, 1]));
        assert_eq!((turns.next(), turns.next()), (Some(done(14, [0; 5])), None));
        let closed = turns.closed();
        assert_eq!(closed, whole.run(&FUNCTIONAL, 16, 0).ok());
        assert_eq!(d, whole);
    })
}

#[test]
fn lists_findings_at_the_end() {
    with_stack(|| {
        let load = [[31, 1, 32], [32, 8, 33], [32, 26, 33]];
        let steps = |rows: usize, findings: usize| {
            let mut d = started();
            let turns = d.turns(&load, rows, findings);
            turns.map(|turns| turns.collect::<Vec<_>>())
        };
        assert_eq!(steps(10, 1), Ok(vec![going(10), done(10, [1, 0, 0, 0, 0])]));
        assert_eq!(steps(10, 0), Ok(vec![going(10), Err(Refusal::FindingsFull)]));
        assert_eq!(steps(9, 1), Ok(vec![Err(Refusal::StoreFull)]));
        assert_eq!(steps(4, 1), Err(Refusal::StoreFull));
        assert_eq!(steps(65_536, 1), Err(Refusal::IllSizedStore));
        let mut d = started();
        let mut turns = d.turns(&load, 9, 1).expect("accepted");
        assert_eq!((turns.next(), turns.next()), (Some(Err(Refusal::StoreFull)), None));
        assert_eq!((turns.told(), turns.records(), turns.closed()), (Err(Refusal::StoreFull), vec![], None));
        assert_eq!(d.terms(), 39);
    })
}

/// An opening call is never done.
#[test]
fn opens_closed_loads() {
    with_stack(|| {
        let mut d = started();
        let mut turns = d.turns(&[[9, 1, 9], [10, 1, 9]], 4, 0).expect("accepted");
        assert_eq!((turns.told(), turns.next(), turns.next()), (going(4), Some(done(4, [0; 5])), None));
    })
}

/// 36 terms and three for the opening call, which puts three: a list work buffer that just suffices is too short for the passes.
#[test]
fn measures_the_work_buffer() {
    with_stack(|| {
        let mut d = started();
        let mut b = Buffers::new(&[], 4, 0, d.work_length());
        assert_eq!((d.open_in(&mut b), d.pass_in(&mut b)), (going(2), Err(Refusal::IllSizedStore)));
        b.work = vec![7; 4 * d.work_length()];
        assert_eq!((d.pass_in(&mut b), d.pass_in(&mut b)), (going(4), done(4, [0; 5])));
        assert!(b.work.iter().all(|byte| *byte == 0));
    })
}

/// Puts and lookups between the passes, and passes after the last, change nothing for the run.
#[test]
fn goes_on_between_other_calls() {
    with_stack(|| {
        let (mut d, load) = (started(), [[31, 1, 32], [32, 8, 33]]);
        let mut b = Buffers::new(&load, 9, 0, 2 * 50);
        assert_eq!(d.open_in(&mut b), going(4));
        assert_eq!(d.put(Kind::BlankNode, b"new"), Ok(39));
        assert_eq!(d.pass_in(&mut b), going(9));
        assert_eq!(d.lookup(39), Ok((Kind::BlankNode, &b"new"[..])));
        for _ in 0..2 {
            assert_eq!(d.pass_in(&mut b), done(9, [0; 5]));
        }
        assert_eq!(b.closed(9, [0; 5]).records, started().run(&load, 9, 0).expect("accepted").records);
    })
}

/// Refused with 4 after the other checks, and nothing changes: not the dictionary either, which does not get a run's terms.
#[test]
fn refuses_stores_in_turns() {
    with_stack(|| {
        let before = started();
        let row = |numbers: [u32; 5]| Record::of(numbers);
        let start = [[9, 1, 30, 0, 0], [10, 1, 30, 0, 0], [31, 1, 32, 0, 0]].map(row);
        let refused = |records: &[Record]| {
            let (mut d, mut b) = (before.clone(), Buffers::new(&[[31, 1, 32]], 0, 2, before.work_length()));
            b.lend_store(records, 12);
            b.findings.fill(7);
            b.work.fill(7);
            let lent = b.clone();
            let told = d.pass_in(&mut b);
            assert!(told.is_ok() || (d, b) == (before.clone(), lent), "{records:?} are changed");
            told.err()
        };
        let with = |numbers: [u32; 5]| [&start[..], &[row(numbers)]].concat();
        for taken in [[33, 34, 35, 65_535, 99], [36, 37, 38, 0, 0], [33, 34, 35, 0, 0]] {
            assert_eq!(refused(&with(taken)), None, "{taken:?}");
        }
        assert_eq!(refused(&[&[row([0, 0, 0, 0, 0])], &start[..]].concat()), None);
        for late in [[33, 34, 35, 65_536, 0], [36, 37, 39, 0, 0], [31, 1, 32, 1, 1], [31, 1, 31, 0, 0], [0, 0, 0, 1, 0]] {
            assert_eq!(refused(&with(late)), Some(Refusal::IllSizedStore), "{late:?}");
        }
        for missing in [&start[1..], &start[..2], &[]] {
            assert_eq!(refused(missing), Some(Refusal::IllSizedStore), "{missing:?}");
        }
        let between = [&start[..2], &[row([0; 5])], &start[2..]].concat();
        assert_eq!(refused(&between), Some(Refusal::IllSizedStore));
    })
}

/// Refusal 7 comes before the store is looked at.
#[test]
fn refuses_full_dictionaries_first() {
    with_stack(|| {
        let mut d = Dictionary::start(33, 4_096).expect("room enough");
        let mut b = Buffers::new(&[], 4, 0, d.work_length());
        b.store.fill(7);
        assert_eq!((d.pass_in(&mut b), d.open_in(&mut b)), (Err(Refusal::DictionaryFull), Err(Refusal::DictionaryFull)));
        assert!(b.store.iter().all(|byte| *byte == 7));
    })
}

/// Another load may be lent later: a part of the one that was opened, whose lists then count, and no more than it.
#[test]
fn takes_another_load() {
    with_stack(|| {
        let (union, load) = ([[31, 22, 32], [35, 1, 33]], [[31, 22, 32], [32, 2, 33], [32, 3, 4], [35, 1, 33]]);
        let given = |later: &[Triple]| {
            let mut d = started();
            let mut b = Buffers::new(&load, 30, 0, 2 * 50);
            d.open_in(&mut b).expect("accepted");
            b.lend_load(later);
            let count = d.pass_in(&mut b)?.triples;
            Ok(numbers(&b.records(count)).contains(&[35, 1, 31, 1, 23]))
        };
        assert_eq!((given(&load), given(&union)), (Ok(true), Ok(false)));
        assert_eq!(given(&[[33, 1, 33]]), Err(Refusal::IllSizedStore));
    })
}

/// The header says that an opening call and a pass need a stack of 11 MB, however long their buffers are.
#[test]
fn turns_with_eleven_megabytes() {
    let thread = std::thread::Builder::new().stack_size(11 << 20);
    let load = [[31, 1, 32], [32, 8, 33]];
    let steps = move || Ok(started().turns(&load, 65_535, 65_535)?.collect::<Vec<_>>());
    let steps = thread.spawn(steps).expect("a thread").join().expect("no panic");
    assert_eq!(steps, Ok::<_, Refusal>(vec![going(9), done(9, [0; 5])]));
}
