//! Holds the documents to the crates: every name in the tables of docs/PROMISES.md and in the README's table of crates
//! stands where it says, every public call has a row, a uniqueness theorem, two wrong programs and no `requires`, and each
//! file of docs/READING.md has as many lines as it says. `names reading` prints that table with the numbers as they are.

mod call;
mod house;
mod reading;

use house::{House, Place};
use std::path::Path;

fn main() {
    let root = Path::new(env!("CARGO_MANIFEST_DIR")).join("../..");
    let house = House::read(&root).expect("the crates can be read");
    let reading = reading::rows(&house);
    if std::env::args().nth(1).as_deref() == Some("reading") {
        for (_, right) in reading {
            println!("{right}");
        }
        return;
    }
    let promises = house.text("docs/PROMISES.md");
    let readme = house.text("README.md");
    // the tables above this one hold bytes and lines of a deck
    let built = readme
        .find("## How it is built")
        .expect("the README tells how it is built");
    let mut passed = 0;
    let mut failed = 0;
    let mut count = |holds: bool, told: &str| {
        if holds {
            passed += 1;
        } else {
            failed += 1;
            println!("{told}");
        }
    };
    for (document, text) in [
        ("docs/PROMISES.md", promises.as_str()),
        ("README.md", &readme[built..]),
    ] {
        for line in text.lines().filter(|line| line.starts_with('|')) {
            let mut place = Place::default();
            let names = line.split('`').skip(1).step_by(2);
            for name in names.filter(|name| !house::WORDS.contains(name)) {
                count(
                    house.has(name, &mut place),
                    &format!("{document}: `{name}` stands nowhere: {line}"),
                );
            }
        }
    }
    for call in call::all(&house) {
        for (holds, want) in call.checks(&house, &promises) {
            count(holds, &format!("kernel::{}: {want}", call.name));
        }
    }
    for (stands, right) in &reading {
        count(stands == right, &format!("docs/READING.md: {right}"));
    }
    println!("{passed} passed, {failed} failed");
    if failed > 0 {
        std::process::exit(1);
    }
}
