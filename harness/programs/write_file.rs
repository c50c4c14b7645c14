//! write_file FILE: reads a file of N-Triples into a started dictionary of the largest size, puts the triples into a store, and writes
//! them as canonical N-Triples to standard output. Exit status 1 where a call is refused.

use model::{ARENA_LIMIT, ENTRIES_LIMIT, LOAD_LIMIT};
use std::io::Write;
use tablestork::{Dictionary, Record, Refusal};

fn main() {
    let Some(name) = std::env::args().nth(1) else {
        eprintln!("write_file FILE");
        std::process::exit(2);
    };
    let file = std::fs::read(&name).unwrap_or_else(|e| panic!("{name}: {e}"));
    match tablestork::with_stack(|| written(&file)) {
        Ok(text) => std::io::stdout().write_all(&text).expect("standard output"),
        Err(refusal) => {
            eprintln!("refused, {refusal:?}");
            std::process::exit(1);
        }
    }
}

fn written(file: &[u8]) -> Result<Vec<u8>, Refusal> {
    let mut d = Dictionary::start(ENTRIES_LIMIT, ARENA_LIMIT)?;
    let triples = d.read(file, LOAD_LIMIT)?;
    let records: Vec<Record> = triples.iter().map(|triple| Record { triple: *triple, pass: 0, rule: 0 }).collect();
    // What is escaped in the text was escaped in the file: a line can be longer by its spaces and its end alone.
    let mut page = vec![0; file.len() + 5 * records.len()];
    let text = d.write(&records, &mut page)?;
    page.truncate(text.length);
    Ok(page)
}
