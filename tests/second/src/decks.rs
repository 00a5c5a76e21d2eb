//! The lines of a deck from the scope's rules, and random decks: valid, cut, out of order and damaged, against the
//! program `deck`.

use crate::model::Model;
use crate::pair::{Pair, Table};
use crate::program::{at_once, Ending};
use crate::random::{Random, LARGE_PRIMES, PRIMES};
use crate::report::Report;
use std::io::Result;
use std::path::Path;

const BODY: [usize; 7] = [0, 4, 4, 7, 0, 4, 0];

fn word(bytes: &[u8]) -> u32 {
    u32::from_le_bytes([bytes[0], bytes[1], bytes[2], bytes[3]])
}

/// What the records so far have left.
#[derive(Default)]
struct State {
    modulus: Option<u32>,
    tables: Option<[Table; 2]>,
    job: Option<Model>,
}

/// What a record brings.
enum Outcome {
    /// Text to print, empty where a record has no line; the run goes on.
    Line(String),
    /// A refused opening.
    Closed(u32),
    /// A deck refusal.
    Refused(u32),
}

impl State {
    fn in_order(&self, kind: usize) -> bool {
        match kind {
            1 => self.modulus.is_none(),
            2 => self.modulus.is_some() && self.tables.is_none(),
            3 | 4 => self.tables.is_some() && self.job.is_none(),
            _ => self.job.is_some(),
        }
    }

    fn record(&mut self, kind: usize, body: Option<&[u8]>, report: &mut Report) -> Outcome {
        if !(1..=6).contains(&kind) {
            return Outcome::Refused(21);
        }
        let Some(body) = body else {
            return Outcome::Refused(22);
        };
        if !self.in_order(kind) {
            return Outcome::Refused(23);
        }
        match kind {
            1 => {
                self.modulus = Some(word(body));
                Outcome::Line(String::new())
            }
            2 => self.degrees(body),
            3 => self.place(body),
            4 => self.open(report),
            5 => self.offer(word(body), report),
            _ => self.read(report),
        }
    }

    fn degrees(&mut self, body: &[u8]) -> Outcome {
        if body.iter().any(|&d| d > 16) {
            return Outcome::Refused(4);
        }
        let table = |m: u8, e: u8| {
            let size = (m as usize + 1) * (e as usize + 1);
            Table::new(m as u32, e as u32, &vec![0; size])
        };
        self.tables = Some([table(body[0], body[1]), table(body[2], body[3])]);
        Outcome::Line(String::new())
    }

    fn place(&mut self, body: &[u8]) -> Outcome {
        let (side, i, j) = (body[0] as usize, body[1] as usize, body[2] as usize);
        let table = self.tables.as_mut().expect("kind 2 came").get_mut(side);
        match table {
            Some(t) if i <= t.m as usize && j <= t.e as usize => {
                t.entries[i * (t.e as usize + 1) + j] = word(&body[3..]);
                Outcome::Line(String::new())
            }
            _ => Outcome::Refused(24),
        }
    }

    fn open(&mut self, report: &mut Report) -> Outcome {
        let [a, b] = self.tables.clone().expect("kind 2 came");
        let p = self.modulus.expect("kind 1 came");
        match Model::open(&Pair::new(p, a, b)) {
            Ok(model) => {
                report.number(0);
                let line = format!("open 0 {}\n", model.bound);
                self.job = Some(model);
                Outcome::Line(line)
            }
            Err(number) => Outcome::Closed(number),
        }
    }

    fn offer(&mut self, a: u32, report: &mut Report) -> Outcome {
        let number = self.job.as_mut().expect("kind 4 came").offer(a);
        report.number(number);
        Outcome::Line(format!("point {a} {number}\n"))
    }

    fn read(&mut self, report: &mut Report) -> Outcome {
        let model = self.job.as_ref().expect("kind 4 came");
        let mut entries = vec![0u32; model.bound + 1];
        let answer = model.read(&mut entries);
        report.number(answer.number);
        if answer.number == 14 {
            return Outcome::Line(format!("read 14 {}\n", answer.wanted));
        }
        let degree = match answer.zero {
            1 => "-".to_string(),
            _ => answer.degree.to_string(),
        };
        let list: Vec<String> = entries.iter().map(u32::to_string).collect();
        Outcome::Line(format!("read 0 {degree} {}\n", list.join(" ")))
    }
}

/// The lines of a deck, from the scope's rules; the numbers that came go to the report.
pub fn lines(deck: &[u8], report: &mut Report) -> String {
    let mut state = State::default();
    let mut out = String::new();
    let mut at = 0;
    let last = loop {
        let Some(&kind) = deck.get(at) else {
            break "end\n".to_string();
        };
        let length = BODY.get(kind as usize).copied().unwrap_or(0);
        let body = deck.get(at + 1..at + 1 + length);
        match state.record(kind as usize, body, report) {
            Outcome::Line(line) => out += &line,
            Outcome::Closed(number) => {
                report.number(number);
                break format!("open {number}\n");
            }
            Outcome::Refused(number) => {
                report.number(number);
                break format!("deck {number} {at}\n");
            }
        }
        at += 1 + length;
    };
    if let Some(model) = &state.job {
        report.judged(model);
    }
    out + &last
}

fn record(kind: u8, body: &[u8]) -> Vec<u8> {
    let mut r = vec![kind];
    r.extend_from_slice(body);
    r
}

fn place(side: u8, i: u8, j: u8, value: u32) -> Vec<u8> {
    let mut body = vec![side, i, j];
    body.extend_from_slice(&value.to_le_bytes());
    record(3, &body)
}

/// A deck in order, with faults of every kind mixed in now and then.
fn small_deck(random: &mut Random) -> Vec<u8> {
    let p = if random.once_in(15) {
        random.pick(&[0u32, 1, 4, 9, 1 << 31])
    } else {
        random.pick(&PRIMES)
    };
    let mut parts: Vec<Vec<u8>> = vec![record(1, &p.to_le_bytes())];
    let mut degrees = [0u8; 4];
    for d in degrees.iter_mut() {
        *d = random.below(4) as u8;
    }
    if random.once_in(30) {
        degrees[random.below(4) as usize] = random.pick(&[16, 17, 255]);
    }
    parts.push(record(2, &degrees));
    for _ in 0..random.below(14) {
        let side = random.below(2) as u8;
        let (m, e) = (
            degrees[2 * side as usize] as u64,
            degrees[2 * side as usize + 1] as u64,
        );
        let (i, j) = (random.below(m + 1) as u8, random.below(e + 1) as u8);
        let value = match random.below(60) {
            0 => p,
            _ => random.below(p.max(1) as u64) as u32,
        };
        parts.push(match random.below(60) {
            0 => place(2, i, j, value),
            1 => place(side, m as u8 + 1, j, value),
            2 => place(side, i, e as u8 + 1, value),
            _ => place(side, i, j, value),
        });
    }
    if !random.once_in(15) {
        for side in 0..2u8 {
            parts.push(place(side, degrees[2 * side as usize], 0, 1 % p.max(1)));
        }
    }
    parts.push(record(4, &[]));
    for _ in 0..random.below(30) {
        if random.once_in(5) {
            parts.push(record(6, &[]));
        } else {
            let a = if random.once_in(20) {
                p
            } else {
                random.below((p as u64).clamp(1, 30)) as u32
            };
            parts.push(record(5, &a.to_le_bytes()));
        }
    }
    if random.once_in(12) {
        let k = random.below(parts.len() as u64) as usize;
        let l = random.below(parts.len() as u64) as usize;
        parts.swap(k, l);
    }
    if random.once_in(20) {
        let k = random.below(parts.len() as u64) as usize;
        parts.insert(k, vec![random.pick(&[0, 7, 8, 255])]);
    }
    let mut bytes = parts.concat();
    if random.once_in(12) {
        bytes.truncate(random.below(bytes.len() as u64 + 1) as usize);
    }
    if random.once_in(20) && !bytes.is_empty() {
        let k = random.below(bytes.len() as u64) as usize;
        bytes[k] = random.below(256) as u8;
    }
    bytes
}

/// A deck in order of a larger shape, with points enough for its polynomial.
fn large_deck(random: &mut Random) -> Vec<u8> {
    let p = random.pick(&LARGE_PRIMES);
    let degrees = [0u8; 4].map(|_| match random.below(4) {
        0 => 16,
        _ => random.below(17) as u8,
    });
    let mut parts = vec![record(1, &p.to_le_bytes()), record(2, &degrees)];
    let some = 1 + random.below(3);
    for side in 0..2u8 {
        let (m, e) = (degrees[2 * side as usize], degrees[2 * side as usize + 1]);
        for i in 0..=m {
            for j in 0..=e {
                if (i, j) == (m, 0) || random.once_in(some) {
                    let value = 1 + random.below(p as u64 - 1) as u32;
                    parts.push(place(side, i, j, value));
                }
            }
        }
    }
    parts.push(record(4, &[]));
    let [m, e, n, f] = degrees.map(u32::from);
    let mut points: Vec<u32> = (0..n * e + m * f + 4).collect();
    random.shuffle(&mut points);
    let early = random.below(points.len() as u64) as usize;
    for (k, a) in points.iter().enumerate() {
        parts.push(record(5, &a.to_le_bytes()));
        if k == early {
            parts.push(record(6, &[]));
        }
    }
    parts.push(record(6, &[]));
    parts.concat()
}

/// A deck of any kind; few are large.
pub fn deck(random: &mut Random) -> Vec<u8> {
    match random.below(100) {
        0 => large_deck(random),
        _ => small_deck(random),
    }
}

fn compare_decks(report: &mut Report, program: &Path, cases: u64, seed: u64) -> Result<()> {
    let mut random = Random::new(seed);
    for _ in 0..cases {
        let bytes = deck(&mut random);
        let right = lines(&bytes, report);
        let ending = at_once(program, &bytes)?;
        report.same("deck", &bytes, ending, Ending::good(right));
    }
    report.wants(&[0, 1, 2, 3, 4, 6, 7, 8, 10, 11, 12, 14, 21, 22, 23, 24]);
    Ok(())
}

pub fn compare(program: &Path, cases: u64, seed: u64) -> Report {
    let mut report = Report::seeded("decks", seed);
    if let Err(error) = compare_decks(&mut report, program, cases, seed) {
        report.fails("the program deck cannot be run", &error);
    }
    report
}
