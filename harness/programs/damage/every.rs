//! damage files: a small file with each of its bytes changed to every other, dropped and doubled, cut off at each of its places, and
//! with every escape in an IRI and in a literal; each read by the port and by the model.

use crate::calls::{difference, perform, By, Call, Dictionary};
use crate::scenario::laid_out;
use crate::support;
use model::dictionary::{bytes_of, starting_terms};
use std::sync::atomic::{AtomicU64, Ordering};

/// Each kind of term, line and end of a line.
const SMALL: &str = "# plant\r\n<urn:\\u0061b> <http://x/\u{e9}?a#b> _:l.1 .\r_:a\u{b7} <u:p> \"x\" . # c\n\t\n<:>\t<u:p>\"a\\tb\\U0001F375\"@en-GB-1.\n\
    _:b<u:p>\"\\\"\" ^^ <u:d> .\n<urn:_> <u:p> \"x\"^^<http://www.w3.org/2001/XMLSchema#string> .";

/// Both sides of the limits of scalar values and of what an IRI may hold.
const NUMBERS: [u32; 20] = [
    0, 0x9, 0x1f, 0x20, 0x21, 0x22, 0x3a, 0x3c, 0x5c, 0x7b, 0x7f, 0x80, 0xffff, 0xd7ff, 0xd800, 0xdbff, 0xdc00, 0xdfff, 0xe000,
    0x10ffff,
];

pub fn main() {
    let files = files();
    let d = started();
    let differences = AtomicU64::new(0);
    let unchanged = Call::Read { file: SMALL.into(), load: vec![7; 12 * 8] };
    assert_eq!(perform(By::Model, &d, &unchanged).result, [0, 5], "the file is read as it is");
    support::in_parallel(files.len() as u64, |k| {
        let file = files[k as usize].clone();
        let call = Call::Read { file, load: vec![7; 12 * 8] };
        let [port, model] = [By::Port, By::Model].map(|by| perform(by, &d, &call));
        if port != model {
            differences.fetch_add(1, Ordering::Relaxed);
            println!("difference in file {:?}", String::from_utf8_lossy(&files[k as usize]));
            print!("{}", difference(&port, &model));
        }
        true
    });
    let differences = differences.into_inner();
    println!("{} files, {differences} differences", files.len());
    std::process::exit(i32::from(differences > 0));
}

/// A started dictionary with room for what the file brings, and a little more.
fn started() -> Dictionary {
    let terms = starting_terms();
    laid_out(&terms, 64 + 4 * (terms.len() + 14), bytes_of(&terms) + 200)
}

fn files() -> Vec<Vec<u8>> {
    let small = SMALL.as_bytes();
    let mut files = vec![small.to_vec()];
    for at in 0..small.len() {
        let (front, rest) = small.split_at(at);
        files.extend((0..=255).map(|b| [front, &[b], &rest[1..]].concat()));
        files.extend([[front, &rest[1..]].concat(), [front, &rest[..1], rest].concat(), front.to_vec()]);
    }
    for text in escapes() {
        files.push(format!("<u:{text}> <u:p> <u:o> .").into());
        files.push(format!("<u:s> <u:p> \"{text}\" .").into());
    }
    files
}

/// A backslash before each character of ASCII, and numbers by four and by eight digits of either case.
fn escapes() -> Vec<String> {
    let mut texts: Vec<String> = (0..128u8).map(|c| format!("a\\{}b", char::from(c))).collect();
    for n in NUMBERS.into_iter().chain([0x11_0000, 0xff_ffff, u32::MAX]) {
        texts.extend([format!("\\u{n:04x}"), format!("\\u{n:04X}"), format!("\\U{n:08x}"), format!("\\U{n:08X}")]);
        texts.extend([format!("\\u{n:03x}"), format!("\\U{n:07x}"), format!("\\U{n:09x}")]);
    }
    texts.push("\\uD83C\\uDF75".into());
    texts
}
