//! The safe crate on worked cases of docs/REFERENCE.md, 11, on files of N-Triples and on W3C's tests of them.

use super::*;

#[path = "../w3c/expected.rs"]
mod expected;

fn started() -> Dictionary {
    let mut d = Dictionary::start(64, 4_096).expect("room enough");
    for k in 1..=5 {
        assert_eq!(d.put(Kind::NamedNode, format!("urn:t{k}").as_bytes()), Ok(30 + k));
    }
    d
}

#[test]
fn closes_a_load() {
    with_stack(|| {
        let mut d = started();
        let closed = d.run(&[[31, 1, 32], [32, 8, 33]], 9, 0).expect("accepted");
        let nine = [
            [[9, 1, 9, 1, 1], [9, 1, 30, 0, 0], [10, 1, 9, 1, 1], [10, 1, 30, 0, 0]].as_slice(),
            &[[31, 1, 9, 1, 1], [31, 1, 32, 0, 0], [31, 1, 33, 1, 14], [32, 1, 9, 1, 1], [32, 8, 33, 0, 0]],
        ];
        let records = nine.concat().into_iter().map(Record::of).collect();
        assert_eq!(closed, Closed { records, findings: vec![], counts: [0; 5] });
        assert_eq!(d.terms(), 39);
        assert_eq!(d.run(&[[31, 1, 32], [32, 8, 33]], 8, 0), Err(Refusal::StoreFull));
    })
}

/// The pass in which a row came in, and the lowest rule of that pass. What a run gave is a starting triple where it is loaded.
#[test]
fn names_passes_and_rules() {
    with_stack(|| {
        let mut d = started();
        let closed = d.run(&[[31, 1, 32], [32, 8, 33], [32, 18, 33]], 14, 0).expect("accepted");
        let ten = [
            [[31, 1, 9, 1, 1], [31, 1, 32, 0, 0], [31, 1, 33, 1, 14], [32, 1, 9, 1, 1], [32, 8, 32, 2, 15]],
            [[32, 8, 33, 0, 0], [32, 18, 33, 0, 0], [33, 1, 9, 2, 1], [33, 8, 32, 1, 16], [33, 8, 33, 2, 15]],
        ];
        assert_eq!(closed.records[4..].iter().map(Record::numbers).collect::<Vec<_>>(), ten.concat());
        let again = d.run(&closed.triples(), 14, 0).expect("accepted");
        assert_eq!(again.triples(), closed.triples());
        assert!(again.records.iter().all(|record| (record.pass, record.rule) == (0, 0)));
    })
}

/// A store is rows of five numbers, 20 bytes each.
#[test]
fn refuses_stores() {
    with_stack(|| {
        let before = started();
        for bytes in [1, 4, 12, 16, 19, 21, 24, 36, 72, 12 * 65_534, 20 * 65_535 - 1, 20 * 65_535 + 1, 20 * 65_536] {
            let (mut d, mut b) = (before.clone(), Buffers::new(&[], 0, 0, before.work_length()));
            b.store = vec![7; bytes];
            assert_eq!(d.run_in(&mut b), Err(Refusal::IllSizedStore), "{bytes}");
            assert!(d == before && b.store.iter().all(|byte| *byte == 7), "{bytes}");
        }
        let (full, four) = (Err(Refusal::StoreFull), Ok((4, [0; 5])));
        for (rows, due) in [(0, full), (1, full), (3, full), (4, four), (5, four), (65_535, four)] {
            assert_eq!(before.clone().run_in(&mut Buffers::new(&[], rows, 0, before.work_length())), due, "{rows}");
        }
    })
}

#[test]
fn lists_findings() {
    with_stack(|| {
        let closed = started().run(&[[31, 1, 15], [32, 31, 33], [33, 31, 32]], 100, 2).expect("accepted");
        assert_eq!(closed.findings, [[3, 31, 32, 33, 0], [3, 31, 33, 32, 0]]);
        assert_eq!(closed.counts, [0, 0, 2, 0, 0]);
        let full = started().run(&[[31, 1, 15], [32, 31, 33], [33, 31, 32]], 100, 1);
        assert_eq!(full, Err(Refusal::FindingsFull));
    })
}

#[test]
fn holds_terms() {
    with_stack(|| {
        let mut d = started();
        assert_eq!(d.lookup(31), Ok((Kind::NamedNode, &b"urn:t1"[..])));
        assert_eq!(d.put(Kind::Literal, b"urn:t1"), Ok(36));
        assert_eq!(d.put(Kind::NamedNode, b"urn:t1"), Ok(31));
        assert_eq!(d.put(Kind::NamedNode, b"urn:_"), Ok(0));
        assert_eq!(d.lookup(37), Err(Refusal::NoSuchId));
        assert_eq!(d.put(Kind::NamedNode, &[0; 4_097]), Err(Refusal::TermTooLong));
        assert_eq!(d.put(Kind::NamedNode, &[0; 4_096]), Err(Refusal::DictionaryFull));
    })
}

#[test]
fn refuses() {
    with_stack(|| {
        assert_eq!(Dictionary::start(30, 4_096), Err(Refusal::DictionaryFull));
        assert_eq!(Dictionary::start(65_536, 4_096), Err(Refusal::IllSizedStore));
        let before = started();
        let mut d = before.clone();
        assert_eq!(d.run(&[[31, 0, 31]], 9, 0), Err(Refusal::BlankId));
        assert_eq!(d.run(&[[31, 1, 36]], 9, 0), Err(Refusal::UnknownTerm));
        assert_eq!(d.run(&[[31, 1, 31]; 16_385], 9, 0), Err(Refusal::LoadTooLong));
        assert_eq!(d.run(&[], 65_536, 0), Err(Refusal::IllSizedStore));
        assert_eq!(d, before);
        d.arena[0] = 0;
        assert_eq!(d.lookup(0), Err(Refusal::BrokenDictionary));
    })
}

/// A started dictionary with room for so many entries and bytes more.
fn with_room(entries: usize, bytes: usize) -> Dictionary {
    Dictionary::start(31 + entries, 1_325 + bytes).expect("room enough")
}

/// The triples that a file gives, term by term, with a load for just as many or for more.
fn terms_of(file: &[u8], triples: usize) -> Result<Vec<[(u32, Vec<u8>); 3]>, Refusal> {
    let mut d = with_room(100, 10_000);
    let read = d.read(file, triples)?;
    let term = |id: u32| d.lookup(id).map(|(kind, bytes)| (kind as u32, bytes.to_vec())).expect("a term");
    Ok(read.into_iter().map(|triple| triple.map(term)).collect())
}

#[test]
fn w3c_tests() {
    with_stack(|| {
        let all: Vec<(&str, bool)> = expected::TESTS.iter().map(|test| (test.name, test.triples.is_some())).collect();
        assert_eq!((all.len(), all), (68, expected::manifest()));
        for test in expected::TESTS {
            let due: Option<Vec<_>> = test.triples.map(|rows| rows.iter().map(|row| row.map(|(k, b)| (k, b.to_vec()))).collect());
            let triples = due.as_ref().map_or(9, Vec::len);
            for places in [triples, triples + 1] {
                assert_eq!(terms_of(test.file, places), due.clone().ok_or(Refusal::BadLine), "{}", test.name);
            }
        }
    })
}

#[test]
fn reads_files() {
    with_stack(|| {
        let mut d = started();
        let file = b"<urn:t2> <urn:t1> <urn:t2> .\r\n\r# x\n_:t1 <urn:t1> \"1\"@en .\r<urn:t2> <urn:t1> <urn:t2> . # x";
        assert_eq!(d.read(file, 4), Ok(vec![[32, 31, 32], [36, 31, 37], [32, 31, 32]]));
        assert_eq!(d.lookup(36), Ok((Kind::BlankNode, &b"t1"[..])));
        assert_eq!(d.lookup(37), Ok((Kind::Literal, &b"1\0en"[..])));
        assert_eq!((d.terms(), d.read(b"", 0)), (38, Ok(vec![])));
        // Id 0 is read, and a run refuses it.
        let zero = d.read(b"<urn:_> <urn:t1> <urn:t2> .", 1).expect("accepted");
        assert_eq!((&zero[..], d.run(&zero, 9, 0)), (&[[0, 31, 32]][..], Err(Refusal::BlankId)));
        let classes = b"<urn:t1> <http://www.w3.org/1999/02/22-rdf-syntax-ns#type> <urn:t2> .\n\
            <urn:t2> <http://www.w3.org/2000/01/rdf-schema#subClassOf> <urn:t3> .\n";
        let load = d.read(classes, 2).expect("accepted");
        assert_eq!(load, [[31, 1, 32], [32, 8, 33]]);
        assert!(d.run(&load, 9, 0).expect("accepted").triples().contains(&[31, 1, 33]));
    })
}

#[test]
fn refuses_files() {
    with_stack(|| {
        let refused = |file: &str, entries: usize, bytes: usize, triples: usize| {
            let (before, mut load) = (with_room(entries, bytes), Load(vec![7; 12 * triples]));
            let mut d = before.clone();
            let refusal = d.read_in(file.as_bytes(), &mut load).expect_err("a refusal");
            assert!(d == before && load.0.iter().all(|b| *b == 0), "{refusal:?} leaves something");
            refusal
        };
        let long = |n: usize| format!("<a:1> <a:2> <a:{}> .\n", "x".repeat(n - 2));
        assert_eq!(refused(&"x".repeat(32_769), 9, 99, 9), Refusal::LongLine);
        assert_eq!(refused(&format!("\n#{}", " ".repeat(32_768)), 9, 99, 9), Refusal::LongLine);
        assert_eq!(refused(&"x".repeat(32_768), 9, 99, 9), Refusal::BadLine);
        assert_eq!(refused(&long(4_097), 0, 0, 0), Refusal::TermTooLong);
        assert_eq!(refused(&long(4_096), 3, 4_101, 0), Refusal::DictionaryFull);
        assert_eq!(refused(&long(4_096), 2, 4_102, 0), Refusal::DictionaryFull);
        assert_eq!(refused(&long(4_096), 3, 4_102, 0), Refusal::LoadTooLong);
        assert_eq!(with_room(3, 4_102).read(long(4_096).as_bytes(), 1), Ok(vec![[31, 32, 33]]));
        assert_eq!(refused("_:a<a:b>_:c.\n_:a<a:b>_:c.\nx", 3, 5, 1), Refusal::LoadTooLong);
        assert_eq!(refused("_:a<a:b>_:c.\nx\n_:a<a:b>_:d.", 3, 5, 1), Refusal::BadLine);
        let many = "_:a<a:b>_:c.\n".repeat(16_384);
        assert_eq!(with_room(3, 5).read(many.as_bytes(), 16_385), Ok(vec![[31, 32, 33]; 16_384]));
        assert_eq!(refused(&(many + "_:a<a:b>_:c."), 3, 5, 16_385), Refusal::LoadTooLong);
    })
}

#[test]
fn refuses_to_read() {
    with_stack(|| {
        let before = started();
        let mut d = before.clone();
        for bytes in [1, 2, 3, 4, 8, 13, 16] {
            let mut load = Load(vec![7; bytes]);
            assert_eq!(d.read_in(b"x", &mut load), Err(Refusal::RaggedLoad));
            assert!(d == before && load.0.iter().all(|b| *b == 7));
        }
        d.arena[0] = 0;
        let mut load = Load(vec![7; 13]);
        assert_eq!(d.read_in(b"x", &mut load), Err(Refusal::BrokenDictionary));
        assert!(load.0.iter().all(|b| *b == 7));
    })
}

/// The header says that a read needs a stack of 4 MB.
#[test]
fn reads_with_four_megabytes() {
    let file = "_:a<a:b>_:c.\n".repeat(9);
    let thread = std::thread::Builder::new().stack_size(4 << 20);
    let read = thread.spawn(move || Dictionary::start(65_535, 1_048_576)?.read(file.as_bytes(), 16_384)).expect("a thread");
    assert_eq!(read.join().expect("no panic"), Ok(vec![[31, 32, 33]; 9]));
}

/// The header says that a run needs a stack of 11 MB, however long its buffers are.
#[test]
fn runs_with_eleven_megabytes() {
    let thread = std::thread::Builder::new().stack_size(11 << 20);
    let run = thread.spawn(|| started().run(&[[31, 1, 32], [32, 8, 33]], 65_535, 65_535)).expect("a thread");
    assert_eq!(run.join().expect("no panic").map(|closed| closed.records.len()), Ok(9));
}
