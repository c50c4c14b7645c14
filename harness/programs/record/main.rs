//! record FOLDER: writes calls with what each must give, as FOLDER/stdin; what program replay has to print of them, as FOLDER/stdout;
//! and what the cases after the tables of OWL 2 Profiles and those with lists show, as FOLDER/cases.md. crates/trial_replay/README.md has
//! the format.

mod batches;
mod calls;
mod damage;
mod files;
mod index;
mod lists;
mod memory;
mod models;
mod recorded;
mod tables;
mod text;
mod turns;
mod w3c;
mod writes;

use text::Text;

/// The bytes that program trial_replay has room for.
const ROOM: usize = 1_000_000;

fn main() {
    let Some(folder) = std::env::args().nth(1) else {
        eprintln!("record FOLDER");
        std::process::exit(2);
    };
    let (cases, listing) = recorded::table_cases();
    let (inside, outside) = recorded::random_models().into_iter().partition::<Vec<_>, _>(|r| r.by_original);
    let mut text = Text::new();
    index::lists(&mut text);
    damage::lists(&mut text);
    lists::lists(&mut text);
    batches::lists(&mut text);
    turns::lists(&mut text);
    files::lists(&mut text);
    w3c::tests(&mut text);
    writes::lists(&mut text);
    let before = models::prepare(&mut text);
    models::models(&mut text, "models after the tables of OWL 2 Profiles, and lists", &cases, &before);
    models::models(&mut text, "random models inside the domain, by the original", &inside, &before);
    models::models(&mut text, "random models outside it, by the reference model", &outside, &before);
    models::in_turns(&mut text, "turns: models, pass by pass", &[&cases[..], &inside, &outside]);
    let (lines, printed) = text.done();
    println!("{} bytes", lines.len());
    assert!(lines.len() <= ROOM, "the text does not fit");
    print!("{printed}");
    std::fs::create_dir_all(&folder).expect("a folder");
    for (name, contents) in [("stdin", lines), ("stdout", printed), ("cases.md", listing)] {
        std::fs::write(format!("{folder}/{name}"), contents).expect("a file");
    }
}
