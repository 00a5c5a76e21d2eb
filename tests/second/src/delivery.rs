//! Decks delivered to the program through a pipe in pieces, with pauses: however they arrive, the lines are the same.

use crate::decks::{deck, lines};
use crate::program::{delivered, Ending, Piece};
use crate::random::Random;
use crate::report::Report;
use crate::stored::StoredDeck;
use std::io::Result;
use std::path::Path;
use std::time::Duration;

/// Long enough for a program that waits for input to take what is there.
const LONG: Duration = Duration::from_millis(20);
const SHORT: Duration = Duration::from_micros(200);

/// One byte at a time; a long deck without pauses.
fn bytes(deck: &[u8]) -> Vec<Piece<'_>> {
    let pause = if deck.len() > 1000 {
        Duration::ZERO
    } else {
        SHORT
    };
    deck.chunks(1).map(|byte| (byte, pause)).collect()
}

/// In two pieces with a long pause between them.
fn in_two(deck: &[u8], first: usize) -> [Piece<'_>; 2] {
    let (head, tail) = deck.split_at(first);
    [(head, LONG), (tail, Duration::ZERO)]
}

/// Pieces of one to nine bytes, with a short pause after some and a longer one after few.
fn pieces<'a>(random: &mut Random, deck: &'a [u8]) -> Vec<Piece<'a>> {
    let mut pieces = vec![];
    let mut rest = deck;
    while !rest.is_empty() {
        let length = (1 + random.below(9) as usize).min(rest.len());
        let (piece, later) = rest.split_at(length);
        let pause = match random.below(60) {
            0 => LONG / 4,
            1..=15 => SHORT,
            _ => Duration::ZERO,
        };
        pieces.push((piece, pause));
        rest = later;
    }
    pieces
}

struct Deliveries<'a> {
    program: &'a Path,
    report: Report,
    random: Random,
}

impl Deliveries<'_> {
    fn compare(&mut self, what: &str, pieces: &[Piece], right: &str) -> Result<()> {
        let right = Ending::good(right.to_string());
        let ending = delivered(self.program, pieces)?;
        self.report.same(what, &pieces, ending, right);
        Ok(())
    }

    /// Byte by byte, with the modulus in two pieces, and in random pieces.
    fn stored(&mut self, stored: &StoredDeck) -> Result<()> {
        let StoredDeck { name, deck, lines } = stored;
        self.compare(&format!("{name} byte by byte"), &bytes(deck), lines)?;
        // the modulus is at 1 to 4
        for first in 2..5.min(deck.len()) {
            let what = format!("{name} with a pause after {first} bytes");
            self.compare(&what, &in_two(deck, first), lines)?;
        }
        let pieces = pieces(&mut self.random, deck);
        self.compare(&format!("{name} in pieces"), &pieces, lines)
    }

    fn random(&mut self) -> Result<()> {
        let deck = deck(&mut self.random);
        let right = lines(&deck, &mut self.report);
        let pieces = pieces(&mut self.random, &deck);
        self.compare("a random deck in pieces", &pieces, &right)
    }

    fn all(&mut self, decks: &[StoredDeck], cases: u64) -> Result<()> {
        for deck in decks {
            self.stored(deck)?;
        }
        for _ in 0..cases {
            self.random()?;
        }
        Ok(())
    }
}

/// Every stored deck, and random decks.
pub fn compare(program: &Path, decks: &[StoredDeck], cases: u64, seed: u64) -> Report {
    let mut deliveries = Deliveries {
        program,
        report: Report::seeded("deliveries", seed),
        random: Random::new(seed),
    };
    if let Err(error) = deliveries.all(decks, cases) {
        let what = "the program deck cannot be run";
        deliveries.report.fails(what, &error);
    }
    deliveries.report
}
