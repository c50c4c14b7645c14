//! readers FOLDER N [SEED]: N files that the port writes, read by other programs that read N-Triples: each has to be accepted, and what
//! the program writes of it has to say the same triples in the same order, its blank nodes by label or by the order in which they come up.
//! The text has to be the reference model's. A program that is not on the machine is left out, and that is said. Exit status 1 where
//! something is not so.

mod processes;
mod support;

use generate::{texts, Random};
use model::dictionary::{self as dict, Term, BLANK_NODE};
use model::ntriples::{line, lines, Line};
use model::{writing, Triple};
use processes::is_here;
use std::collections::HashMap;
use std::process::{Command, Stdio};
use std::sync::atomic::{AtomicU64, Ordering};
use tablestork::{Dictionary, Record};

/// The other programs.
const OTHERS: [&[&str]; 2] =
    [&["rapper", "-q", "-i", "ntriples", "-o", "ntriples"], &["serdi", "-i", "ntriples", "-o", "ntriples"]];

fn main() {
    let args: Vec<String> = std::env::args().skip(1).collect();
    let numbers: Vec<Option<u64>> = args.iter().skip(1).map(|a| a.parse().ok()).collect();
    let (folder, n, seed) = match (args.first(), &numbers[..]) {
        (Some(folder), [Some(n)]) => (folder, *n, 1),
        (Some(folder), [Some(n), Some(seed)]) => (folder, *n, *seed),
        _ => {
            eprintln!("readers FOLDER N [SEED]");
            std::process::exit(2)
        }
    };
    std::fs::create_dir_all(folder).expect("a folder");
    let here: Vec<&[&str]> = OTHERS.into_iter().filter(|words| is_here(&[words[0], "-h"])).collect();
    let [differences, triples, left_out] = [0; 3].map(AtomicU64::new);
    support::in_parallel(n, |k| {
        let tried = one(&format!("{folder}/{seed}-{k}.nt"), &here, &mut Random::item(seed, k));
        match tried {
            Ok([written, left]) => {
                triples.fetch_add(written, Ordering::Relaxed);
                left_out.fetch_add(left, Ordering::Relaxed);
            }
            Err(how) => {
                differences.fetch_add(1, Ordering::Relaxed);
                println!("difference in file {folder}/{seed}-{k}.nt: {how}");
            }
        }
        true
    });
    let [differences, triples, left_out] = [differences, triples, left_out].map(AtomicU64::into_inner);
    let names: Vec<&str> = here.iter().map(|words| words[0]).collect();
    println!(
        "{n} files, {triples} triples written, {left_out} left out, {differences} differences; read by: {}",
        names.join(", ")
    );
    std::process::exit(i32::from(differences > 0));
}

/// Writes a file and has it read: how many triples it has, and how many were left out. A file that is as it has to be is taken away.
fn one(name: &str, here: &[&[&str]], r: &mut Random) -> Result<[u64; 2], String> {
    let (terms, triples) = texts::model(r);
    let as_terms = triples.iter().map(|triple| triple.map(|id| terms[id as usize].clone()));
    let due: Vec<[Term; 3]> = as_terms.filter(|[s, p, o]| writing::line([s, p, o]).is_some()).collect();
    let text = written(&terms, &triples)?;
    std::fs::write(name, &text).map_err(|e| e.to_string())?;
    if said(&text)? != due {
        return Err("the file does not say the triples".into());
    }
    for words in here {
        let output =
            Command::new(words[0]).args(&words[1..]).arg(name).stdin(Stdio::null()).output().map_err(|e| e.to_string())?;
        let told = String::from_utf8_lossy(&output.stderr);
        if !output.status.success() || !told.is_empty() {
            return Err(format!("{} refuses it: {told}", words[0]));
        }
        let given = said(&output.stdout).map_err(|e| format!("{} writes another file: {e}", words[0]))?;
        same(&given, &due).map_err(|e| format!("{}: {e}", words[0]))?;
    }
    std::fs::remove_file(name).map_err(|e| e.to_string())?;
    Ok([due.len() as u64, (triples.len() - due.len()) as u64])
}

/// The text of the triples, which has to be the model's, on a page of just its length.
fn written(terms: &[Term], triples: &[Triple]) -> Result<Vec<u8>, String> {
    let as_terms = |t: &Triple| t.map(|id| &terms[id as usize]);
    let due: String = triples.iter().filter_map(|t| writing::line(as_terms(t))).collect();
    let (table, arena) = dict::layout(terms, 64 + 4 * terms.len(), dict::bytes_of(terms));
    let d = Dictionary::from_parts(&table, arena, terms.len() as u32, dict::bytes_of(terms) as u32);
    let records: Vec<Record> = triples.iter().map(|triple| Record { triple: *triple, pass: 0, rule: 0 }).collect();
    let mut page = vec![7; due.len()];
    d.write(&records, &mut page).map_err(|refusal| format!("the write is refused, {refusal:?}"))?;
    (page == due.as_bytes()).then_some(page).ok_or("the text is not the model's".into())
}

/// The triples that a file says.
fn said(file: &[u8]) -> Result<Vec<[Term; 3]>, String> {
    let mut triples = Vec::new();
    for bytes in lines(file) {
        match line(bytes) {
            Line::Nothing => (),
            Line::Triple(terms) => triples.push(terms),
            Line::Bad => return Err(format!("bad line {}", bytes.escape_ascii())),
        }
    }
    Ok(triples)
}

/// The same triples, where each blank node of one stands for one of the other.
fn same(given: &[[Term; 3]], due: &[[Term; 3]]) -> Result<(), String> {
    let shown = |(kind, bytes): &Term| format!("{kind} {}", bytes.escape_ascii());
    if given.len() != due.len() {
        return Err(format!("{} triples, not {}", given.len(), due.len()));
    }
    let (mut there, mut back) = (HashMap::new(), HashMap::new());
    for (given, due) in given.as_flattened().iter().zip(due.as_flattened()) {
        let alike = match (given.0, due.0) {
            (BLANK_NODE, BLANK_NODE) => *there.entry(given).or_insert(due) == due && *back.entry(due).or_insert(given) == given,
            _ => given == due,
        };
        if !alike {
            return Err(format!("it gives {}, not {}", shown(given), shown(due)));
        }
    }
    Ok(())
}
