//! Writes of the safe crate: texts written down by hand, refusals, and what a read of the text gives.

use super::*;

const XSD_STRING: &str = "http://www.w3.org/2001/XMLSchema#string";

/// Terms from id 31 on: two named nodes, a blank one, three literals, and one of each kind that no file has.
fn started() -> Dictionary {
    let mut d = Dictionary::start(64, 4_096).expect("room enough");
    let plain = format!("a\"b\\c\nd\re\tf\0g\0{XSD_STRING}");
    let terms: [(Kind, &[u8]); 9] = [
        (Kind::NamedNode, b"a:1"),
        (Kind::NamedNode, b"a:2"),
        (Kind::BlankNode, b"b.c"),
        (Kind::Literal, plain.as_bytes()),
        (Kind::Literal, b"\xc3\xa9\0EN-us"),
        (Kind::Literal, b"1\0a:d"),
        (Kind::NamedNode, b"no"),
        (Kind::BlankNode, b"no."),
        (Kind::Literal, b"\xff\0en"),
    ];
    for (id, (kind, bytes)) in (31..).zip(terms) {
        assert_eq!(d.put(kind, bytes), Ok(id));
    }
    d
}

fn rows(triples: &[Triple]) -> Vec<Record> {
    triples.iter().map(|triple| Record { triple: *triple, pass: 4_000_000_000, rule: 77 }).collect()
}

/// What is written to a page of so many sevens, which behind the text has to be zero.
fn written(d: &Dictionary, triples: &[Triple], bytes: usize) -> Result<(String, u32), Refusal> {
    let (before, mut page) = (d.clone(), vec![7; bytes]);
    let written = d.write(&rows(triples), &mut page);
    assert!(*d == before);
    let due = match written {
        Ok(written) => {
            let text = page[..written.length].to_vec();
            page.drain(..written.length);
            Ok((String::from_utf8(text).expect("UTF-8"), written.left_out))
        }
        Err(refusal) => Err(refusal),
    };
    let left = if matches!(written, Ok(_) | Err(Refusal::PageFull)) { 0 } else { 7 };
    assert!(page.iter().all(|byte| *byte == left), "{written:?}");
    due
}

#[test]
fn writes_rows() {
    with_stack(|| {
        let d = started();
        let triples = [[31, 32, 31], [33, 31, 34], [31, 31, 35], [31, 32, 31], [0, 1, 36]];
        let text = "<a:1> <a:2> <a:1> .\n_:b.c <a:1> \"a\\\"b\\\\c\\nd\\re\tf\0g\" .\n<a:1> <a:1> \"\u{e9}\"@EN-us .\n<a:1> <a:2> <a:1> .\n\
            <urn:_> <http://www.w3.org/1999/02/22-rdf-syntax-ns#type> \"1\"^^<a:d> .\n";
        for bytes in [text.len(), text.len() + 1, 999] {
            assert_eq!(written(&d, &triples, bytes), Ok((text.into(), 0)));
        }
        assert_eq!(written(&d, &triples, text.len() - 1), Err(Refusal::PageFull));
        assert_eq!(written(&d, &[], 0), Ok((String::new(), 0)));
        assert_eq!(written(&d, &[], 9), Ok((String::new(), 0)));
    })
}

#[test]
fn leaves_out() {
    with_stack(|| {
        let d = started();
        let out =
            [[34, 31, 31], [31, 33, 31], [31, 34, 31], [37, 31, 31], [31, 37, 31], [31, 31, 37], [31, 31, 38], [31, 31, 39]];
        for triple in out {
            assert_eq!(written(&d, &[triple], 0), Ok((String::new(), 1)), "{triple:?}");
        }
        let all = [&out[..], &[[33, 31, 33]], &[[39, 38, 37]; 2]].concat();
        assert_eq!(written(&d, &all, 99), Ok(("_:b.c <a:1> _:b.c .\n".into(), 10)));
    })
}

#[test]
fn refuses_to_write() {
    with_stack(|| {
        let mut d = started();
        for triple in [[40, 31, 31], [31, 40, 31], [31, 31, 40], [31, 31, u32::MAX], [34, 40, 31]] {
            assert_eq!(written(&d, &[[31; 3], triple], 99), Err(Refusal::UnknownTerm), "{triple:?}");
        }
        assert_eq!(written(&d, &vec![[31; 3]; 65_536], 2_000_000), Err(Refusal::IllSizedStore));
        assert_eq!(written(&d, &vec![[31; 3]; 65_535], 20 * 65_535).map(|(text, _)| text.len()), Ok(20 * 65_535));
        d.arena[0] = 0;
        assert_eq!(written(&d, &[[40; 3]], 99), Err(Refusal::BrokenDictionary));
    })
}

/// As many rows of the store as are counted; those behind them may hold anything.
#[test]
fn writes_a_part_of_a_store() {
    with_stack(|| {
        let (d, mut b) = (started(), Buffers::new(&[], 0, 0, 0));
        b.lend_store(&rows(&[[31, 31, 31], [32, 32, 32], [99, 99, 99]]), 4);
        let mut page = [7; 41];
        assert_eq!(d.write_in(&b, 2, &mut page), Ok(Written { length: 40, left_out: 0 }));
        assert_eq!(&page, b"<a:1> <a:1> <a:1> .\n<a:2> <a:2> <a:2> .\n\0");
        assert_eq!(d.write_in(&b, 0, &mut page), Ok(Written { length: 0, left_out: 0 }));
        assert_eq!(d.write_in(&b, 3, &mut page), Err(Refusal::UnknownTerm));
        for triples in [5, 20, u32::MAX] {
            assert_eq!(d.write_in(&b, triples, &mut page), Err(Refusal::IllSizedStore), "{triples}");
        }
        for bytes in [1, 4, 12, 16, 19, 21, 79] {
            b.store.resize(bytes, 0);
            assert_eq!(d.write_in(&b, 0, &mut page), Err(Refusal::IllSizedStore), "{bytes}");
        }
    })
}

/// A closed model, written and read into another dictionary, has the same triples as terms.
#[test]
fn writes_what_a_run_gave() {
    with_stack(|| {
        let mut d = started();
        let closed = d.run(&[[31, 1, 33], [33, 8, 32], [31, 32, 34], [31, 32, 36]], 100, 0).expect("accepted");
        let mut page = vec![7; 9_999];
        let written = d.write(&closed.records, &mut page).expect("accepted");
        let mut again = Dictionary::start(64, 4_096).expect("room enough");
        let read = again.read(&page[..written.length], closed.records.len()).expect("accepted");
        let as_terms = |d: &Dictionary, triple: &Triple| {
            triple.map(|id| d.lookup(id).map(|(kind, bytes)| (kind as u32, bytes.to_vec())).expect("a term"))
        };
        let kept = closed.triples().into_iter().filter(|[s, ..]| !(34..=36).contains(s)).collect::<Vec<_>>();
        assert_eq!(kept.len(), closed.records.len() - written.left_out as usize);
        let [due, given] =
            [(&d, &kept), (&again, &read)].map(|(d, list)| list.iter().map(|t| as_terms(d, t)).collect::<Vec<_>>());
        assert_eq!(given, due);
    })
}
