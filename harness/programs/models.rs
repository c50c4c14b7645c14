//! models FOLDER: writes the benchmark models, three sizes of each kind, in program closer's input format.

use generate::large::{benchmark, KINDS};
use model::closure::{check, close};
use model::STORE_LIMIT;

fn main() {
    let Some(folder) = std::env::args().nth(1) else {
        eprintln!("models FOLDER");
        std::process::exit(2);
    };
    std::fs::create_dir_all(&folder).expect("a folder");
    for kind in KINDS {
        for size in [1_000, 5_000, 16_000] {
            let model = benchmark(kind, size);
            let closure =
                close(&model.start(), STORE_LIMIT, 0).unwrap_or_else(|| panic!("{kind} {size}: a store does not hold it"));
            let file = format!("{folder}/{kind}-{size}.txt");
            std::fs::write(&file, model.text()).expect("a file");
            println!(
                "{kind}-{size}: {} terms, {} triples, closure {}, {} findings",
                model.terms.len(),
                model.load.len(),
                closure.len(),
                check(&closure).len()
            );
        }
    }
}
