//! Reads and writes of the program `deck` that fail. The run ends by itself with the fault named on standard error; a
//! failed read is not the end of input, and brings no line.

use crate::decks::lines;
use crate::program::{Ending, Run};
use crate::report::Report;
use crate::stored::StoredDeck;
use std::fs::File;
use std::io::{Result, Write};
use std::os::fd::OwnedFd;
use std::os::unix::net::UnixStream;
use std::path::Path;
use std::process::Stdio;

const WRITING: &str = "writing failed";
const READING: &str = "reading failed";

/// A run whose standard output takes nothing. The input stays open until the run has ended, or is closed before.
fn full(program: &Path, deck: &[u8], stays_open: bool) -> Result<Ending> {
    let output = File::options().write(true).open("/dev/full")?;
    let mut run = Run::start(program, Stdio::piped(), output.into())?;
    let mut input = run.input();
    // the program may stop before it has read everything
    let _ = input.write_all(deck);
    let open = stays_open.then_some(input);
    let ending = run.end();
    drop(open);
    ending
}

/// A run whose standard input is a folder.
fn folder(program: &Path) -> Result<Ending> {
    let input = File::open("/")?;
    Run::start(program, input.into(), Stdio::piped())?.end()
}

/// A run in which these bytes arrive and the next read fails: a socket that is closed before everything sent to it was
/// taken resets its other end.
fn reset(program: &Path, deck: &[u8]) -> Result<Ending> {
    let (mut near, mut far) = UnixStream::pair()?;
    far.write_all(b"never taken")?;
    near.write_all(deck)?;
    drop(near);
    let input = Stdio::from(OwnedFd::from(far));
    Run::start(program, input, Stdio::piped())?.end()
}

fn same(report: &mut Report, case: &str, fault: &str, ending: Ending, right: String) {
    let right = Ending::faulty(right, fault);
    report.same(fault, &case, ending.naming(fault), right);
}

fn failed_writes(report: &mut Report, program: &Path, decks: &[StoredDeck]) -> Result<()> {
    for stored in decks {
        // an opening is answered while the input is open; other decks may wait for its end
        let answered = stored.lines.starts_with("open");
        let ending = full(program, &stored.deck, answered)?;
        same(report, &stored.name, WRITING, ending, String::new());
    }
    Ok(())
}

/// From a folder, and after every number of bytes of a deck whose every record is in order.
fn failed_reads(report: &mut Report, program: &Path, deck: &[u8]) -> Result<()> {
    same(report, "a folder", READING, folder(program)?, String::new());
    for count in 0..=deck.len() {
        let arrived = &deck[..count];
        let mut right = lines(arrived, report);
        // without the line at the end of input
        let last = right.trim_end().rfind('\n').map_or(0, |k| k + 1);
        right.truncate(last);
        let case = format!("after {count} bytes");
        same(report, &case, READING, reset(program, arrived)?, right);
    }
    Ok(())
}

pub fn compare(program: &Path, decks: &[StoredDeck]) -> Report {
    let mut report = Report::new("failed reads and writes");
    let k1 = &decks.last().expect("the deck of case K1").deck;
    let done = failed_writes(&mut report, program, decks)
        .and_then(|_| failed_reads(&mut report, program, k1));
    if let Err(error) = done {
        report.fails("the program deck cannot be run", &error);
    }
    report
}
