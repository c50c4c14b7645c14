//! Program closer's input and output (docs/REFERENCE.md, 10) around the original.
//!
//! original [--terms] [--free] [--store T] [--findings F] [--closure] [--keyed] [--ids] [--time]

use original::Original;
use oxrdf::{BlankNode, Literal, NamedNode, Term};
use std::io::{Read, Write};

struct Options {
    terms: bool,
    free: bool,
    closure: bool,
    keyed: bool,
    ids: bool,
    time: bool,
    store: usize,
    findings: usize,
}

fn options() -> Options {
    let mut o = Options {
        terms: false,
        free: false,
        closure: false,
        keyed: false,
        ids: false,
        time: false,
        store: 2000,
        findings: 400,
    };
    let mut args = std::env::args().skip(1);
    while let Some(a) = args.next() {
        let mut size = || -> usize {
            args.next().and_then(|v| v.parse().ok()).unwrap_or_else(|| usage(&a))
        };
        match a.as_str() {
            "--terms" => o.terms = true,
            "--free" => o.free = true,
            "--closure" => o.closure = true,
            "--keyed" => o.keyed = true,
            "--ids" => o.ids = true,
            "--time" => o.time = true,
            "--store" => o.store = size(),
            "--findings" => o.findings = size(),
            _ => usage(&a),
        }
    }
    o
}

fn usage(a: &str) -> ! {
    eprintln!("original: bad argument {a}");
    eprintln!("original [--terms] [--free] [--store T] [--findings F] [--closure] [--keyed] [--ids] [--time]");
    std::process::exit(2)
}

fn bad_line(n: usize) -> ! {
    println!("bad line {n}");
    std::process::exit(0)
}

fn refuse(n: u32) -> ! {
    println!("{n} 0 0");
    std::process::exit(0)
}

/// Digits without leading zeros, at most 4294967295.
fn number(b: &[u8]) -> Option<u32> {
    if b.is_empty() || !b.iter().all(u8::is_ascii_digit) || (b[0] == b'0' && b.len() > 1) {
        return None;
    }
    std::str::from_utf8(b).ok()?.parse().ok()
}

fn three(line: &[u8]) -> Option<[u32; 3]> {
    let parts: Vec<&[u8]> = line.split(|&c| c == b' ').collect();
    match parts[..] {
        [s, p, o] => Some([number(s)?, number(p)?, number(o)?]),
        _ => None,
    }
}

/// `<iri>`, `_:label`, `"text"`, `"text"@tag`, `"text"^^<iri>`; escapes \n \r \t \" \\ only.
fn term(line: &[u8]) -> Option<Term> {
    let t = std::str::from_utf8(line).ok()?;
    if let Some(r) = t.strip_prefix('<') {
        return Some(Term::NamedNode(NamedNode::new_unchecked(r.strip_suffix('>')?)));
    }
    if let Some(r) = t.strip_prefix("_:") {
        return Some(Term::BlankNode(BlankNode::new_unchecked(r)));
    }
    let r = t.strip_prefix('"')?;
    let mut value = String::new();
    let mut chars = r.char_indices();
    loop {
        let (at, c) = chars.next()?;
        match c {
            '\\' => value.push(match chars.next()?.1 {
                'n' => '\n',
                'r' => '\r',
                't' => '\t',
                '"' => '"',
                '\\' => '\\',
                _ => return None,
            }),
            '"' => {
                let tail = &r[at + 1..];
                return Some(Term::Literal(if tail.is_empty() {
                    Literal::new_simple_literal(value)
                } else if let Some(tag) = tail.strip_prefix('@') {
                    Literal::new_language_tagged_literal_unchecked(value, tag)
                } else {
                    let iri = tail.strip_prefix("^^<")?.strip_suffix('>')?;
                    Literal::new_typed_literal(value, NamedNode::new_unchecked(iri))
                }));
            }
            c => value.push(c),
        }
    }
}

/// Puts the terms that the count line, and with `--terms` the lines after it, ask for; answers the first line of the load.
fn puts(lines: &[&[u8]], opt: &Options, original: &mut Original) -> usize {
    let Some(n) = lines.first().and_then(|l| number(l)) else { bad_line(1) };
    if n > 500 && !opt.free {
        bad_line(1);
    }
    for k in 1..=n as usize {
        if opt.terms {
            let Some(t) = lines.get(k).and_then(|l| term(l)) else { bad_line(k + 1) };
            original.put_term(t);
        } else {
            original.put(1, format!("urn:t{k}").as_bytes());
        }
    }
    if opt.terms { 1 + n as usize } else { 1 }
}

fn read_load(lines: &[&[u8]], first: usize, opt: &Options) -> Vec<[u32; 3]> {
    let mut load = Vec::new();
    for (k, line) in lines[first..].iter().enumerate() {
        match three(line) {
            Some(t) if opt.free || k < 1000 => load.push(t),
            _ => bad_line(first + k + 1),
        }
    }
    load
}

fn main() {
    let opt = options();
    let mut text = Vec::new();
    std::io::stdin().read_to_end(&mut text).expect("standard input");
    let mut lines: Vec<&[u8]> = text.split(|&c| c == b'\n').collect();
    if lines.last().is_some_and(|l| l.is_empty()) {
        lines.pop();
    }

    let mut original = Original::new();
    let first = puts(&lines, &opt, &mut original);
    let load = read_load(&lines, first, &opt);
    if load.iter().flatten().any(|&id| id == 0) {
        refuse(5);
    }
    if load.iter().flatten().any(|&id| id >= original.terms()) {
        refuse(6);
    }
    if opt.keyed {
        original.load_keyed(&load);
    } else if load.iter().all(|t| original.triple(*t).is_some()) {
        original.load(&load);
    } else {
        eprintln!("original: a literal as subject, or no named node as predicate: give --keyed");
        std::process::exit(3);
    }

    let took = original.reason();
    let (answer, closure, findings) = (original.answer(), original.closure(), original.findings());
    if opt.ids {
        let mut id = 0;
        while let Some(t) = original.get(id) {
            eprintln!("{id} {t}");
            id += 1;
        }
    }
    if opt.time {
        eprintln!("reason {:.3} s", took.as_secs_f64());
        eprintln!("closure {} answer {} findings {}", closure.len(), answer.len(), findings.len());
    }
    if !opt.free && closure.len() > opt.store {
        refuse(8);
    }
    if !opt.free && findings.len() > opt.findings {
        refuse(9);
    }

    let shown = if opt.closure { &closure } else { &answer };
    let mut out = std::io::BufWriter::new(std::io::stdout().lock());
    let mut write = || -> std::io::Result<()> {
        writeln!(out, "0 {} {}", shown.len(), findings.len())?;
        for [s, p, o] in shown {
            writeln!(out, "{s} {p} {o}")?;
        }
        for [k, w, x, y, z] in &findings {
            writeln!(out, "{k} {w} {x} {y} {z}")?;
        }
        out.flush()
    };
    write().expect("standard output");
}
