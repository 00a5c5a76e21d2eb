//! `second [CASES [SEED]]` compares the kernel with the definition; the seed is printed, and gives the same cases again.

use second::{decks, delivery, edges, faults, jobs, known, row_runs, rows, stored};
use std::path::Path;

fn main() {
    let mut words = std::env::args().skip(1).map(|w| w.parse::<u64>());
    let mut number = |otherwise: u64| match words.next() {
        None => otherwise,
        Some(Ok(n)) => n,
        Some(Err(_)) => {
            eprintln!("usage: second [CASES [SEED]]");
            std::process::exit(2);
        }
    };
    let (cases, seed) = (number(2000), number(20_261_115));
    let root = Path::new(env!("CARGO_MANIFEST_DIR")).join("../..");
    let deck = root.join("target/bin/deck");
    let stored = stored::decks(&root).expect("the stored decks can be read");
    let reports = [
        known::compare(),
        row_runs::compare(&root),
        edges::compare(),
        rows::compare(4 * cases, seed),
        jobs::compare(cases, seed),
        stored::compare(&stored),
        decks::compare(&deck, cases, seed),
        delivery::compare(&deck, &stored, cases / 20, seed),
        faults::compare(&deck, &stored),
    ];
    let mut passed = 0;
    let mut failed = 0;
    for report in &reports {
        report.line();
        passed += report.passed;
        failed += report.failed;
    }
    println!("{passed} passed, {failed} failed");
    if failed > 0 {
        std::process::exit(1);
    }
}
