//! read_file FILE: reads a file of N-Triples into a started dictionary of the largest size, and prints the count of its triples.
//! Exit status 1 where it is refused.

use model::{ARENA_LIMIT, ENTRIES_LIMIT, LOAD_LIMIT};
use tablestork::{Dictionary, Load};

fn main() {
    let Some(name) = std::env::args().nth(1) else {
        eprintln!("read_file FILE");
        std::process::exit(2);
    };
    let file = std::fs::read(&name).unwrap_or_else(|e| panic!("{name}: {e}"));
    let read =
        tablestork::with_stack(|| Dictionary::start(ENTRIES_LIMIT, ARENA_LIMIT)?.read_in(&file, &mut Load::new(LOAD_LIMIT)));
    match read {
        Ok(count) => println!("{count}"),
        Err(refusal) => {
            println!("refused, {refusal:?}");
            std::process::exit(1);
        }
    }
}
