//! The stored decks and their lines, against the lines of the definition.

use crate::decks::lines;
use crate::report::Report;
use std::io::Result;
use std::path::Path;

pub struct StoredDeck {
    pub name: String,
    pub deck: Vec<u8>,
    pub lines: String,
}

impl StoredDeck {
    fn read(root: &Path, deck: &Path, lines: &Path) -> Result<Self> {
        let name = deck.strip_prefix(root).unwrap_or(deck);
        Ok(StoredDeck {
            name: name.display().to_string(),
            deck: std::fs::read(deck)?,
            lines: std::fs::read_to_string(lines)?,
        })
    }
}

/// The decks under tests/decks in the order of their names, and the deck of case K1 beside the program itself.
pub fn decks(root: &Path) -> Result<Vec<StoredDeck>> {
    let mut paths = vec![];
    for entry in std::fs::read_dir(root.join("tests/decks"))? {
        let path = entry?.path();
        if path.extension().is_some_and(|e| e == "deck") {
            paths.push(path);
        }
    }
    paths.sort();
    let mut decks = vec![];
    for path in &paths {
        decks.push(StoredDeck::read(root, path, &path.with_extension("lines"))?);
    }
    let program = root.join("crates/deck");
    let (input, output) = (program.join("stdin"), program.join("stdout"));
    decks.push(StoredDeck::read(root, &input, &output)?);
    Ok(decks)
}

pub fn compare(decks: &[StoredDeck]) -> Report {
    let mut report = Report::new("stored lines of decks");
    for stored in decks {
        let right = lines(&stored.deck, &mut report);
        report.same("a stored file", &stored.name, &stored.lines, &right);
    }
    report.wants(&[0, 1, 2, 3, 4, 6, 7, 8, 11, 12, 14, 21, 22, 23, 24]);
    report
}
