//! The lines that the program `row_runs` should print, worked out from the definition for the same cases in the same
//! order, against its stored output.

use crate::report::Report;
use crate::rows::{division_answer, divisor_answer, plain_answer, row_answer};
use std::path::Path;

/// The call that a line is about.
#[derive(Clone, Copy)]
enum Call {
    Resultant,
    Plain,
    Division,
    Divisor,
}

struct Case {
    name: &'static str,
    calls: &'static [Call],
    p: u32,
    a: &'static [u32],
    b: &'static [u32],
}

fn case(
    name: &'static str,
    calls: &'static [Call],
    p: u32,
    a: &'static [u32],
    b: &'static [u32],
) -> Case {
    Case {
        name,
        calls,
        p,
        a,
        b,
    }
}

fn cases() -> Vec<Case> {
    const BOTH: &[Call] = &[Call::Resultant, Call::Plain];
    const ONE: &[Call] = &[Call::Resultant];
    const DIVISION: &[Call] = &[Call::Division];
    const DIVISOR: &[Call] = &[Call::Divisor];
    vec![
        case("K2", BOTH, 7, &[1, 0, 0, 1], &[5, 1]),
        case("K3", BOTH, 7, &[5, 1], &[1, 0, 0, 1]),
        case("K4", BOTH, 5, &[1, 0, 0, 0, 1], &[1, 0, 1]),
        case("K5", BOTH, 7, &[6, 0, 1], &[6, 1]),
        case("K6", BOTH, 7, &[3], &[4]),
        case("K7", BOTH, 7, &[3], &[1, 0, 1]),
        case("p=0", BOTH, 0, &[1, 1], &[1]),
        case("p=1", BOTH, 1, &[1, 1], &[1]),
        case("p=2^31", BOTH, 1 << 31, &[1, 1], &[1]),
        case("p=9", BOTH, 9, &[1, 1], &[1]),
        case("p=2", BOTH, 2, &[1, 1], &[1, 1]),
        case("p=2147483647", BOTH, 2_147_483_647, &[2, 3], &[5, 7]),
        case("17 entries", BOTH, 7, &[1; 17], &[1, 1]),
        case("18 entries", BOTH, 7, &[1; 18], &[1, 1]),
        case("empty", BOTH, 7, &[], &[1, 1]),
        case("empty beside 18", ONE, 7, &[], &[1; 18]),
        case("entry p-1", BOTH, 7, &[6, 1], &[1, 1]),
        case("entry p", BOTH, 7, &[7, 1], &[1, 1]),
        case("last entry 0", BOTH, 7, &[1, 0], &[1, 1]),
        case("last 0 beside entry p", ONE, 7, &[1, 0], &[7, 1]),
        case("m+n=6", BOTH, 7, &[1, 2, 3, 4], &[5, 6, 0, 1]),
        case("m+n=7", BOTH, 7, &[1, 2, 3, 4], &[5, 6, 0, 0, 1]),
        case("by x+5", DIVISION, 7, &[1, 0, 0, 1], &[5, 1]),
        case("by a constant", DIVISION, 7, &[1, 2, 3], &[3]),
        case("top entries 0", DIVISION, 7, &[1, 2, 0, 0], &[1, 1]),
        case("not longer", DIVISION, 7, &[1, 2], &[1, 1, 1]),
        case("empty row", DIVISION, 7, &[], &[1, 1]),
        case("p=1", DIVISION, 1, &[1, 2], &[1, 1]),
        case("p=9", DIVISION, 9, &[1, 2], &[1, 1]),
        case("18 entries", DIVISION, 7, &[1; 18], &[1, 1]),
        case("entry p", DIVISION, 7, &[1, 7], &[1, 1]),
        case("empty divisor", DIVISION, 7, &[1, 2], &[]),
        case("empty divisor beside entry p", DIVISION, 7, &[1, 7], &[]),
        case("divisor ends in 0", DIVISION, 7, &[1, 2], &[1, 0]),
        case("lower first", DIVISOR, 0, &[1, 2], &[3, 4, 5]),
        case("lower second", DIVISOR, 0, &[1, 2, 3], &[3, 4]),
        case("tie", DIVISOR, 0, &[1, 2], &[3, 4]),
        case("cut", DIVISOR, 0, &[1, 2, 0, 0], &[3, 4, 5]),
        case("all zero", DIVISOR, 0, &[0, 0, 0], &[3]),
        case("both zero", DIVISOR, 0, &[0], &[0, 0]),
        case("empty", DIVISOR, 0, &[], &[1]),
        case("large entries", DIVISOR, 0, &[u32::MAX, 0], &[u32::MAX, 1]),
    ]
}

/// The entries of a row, after a colon.
fn entries(row: &[u32]) -> String {
    let list: Vec<String> = row.iter().map(|x| format!(" {x}")).collect();
    format!(" :{}", list.concat())
}

fn line(call: Call, case: &Case) -> String {
    let Case { name, p, a, b, .. } = case;
    match call {
        Call::Resultant => {
            let r = row_answer(*p, a, b);
            format!("{name} resultant {} {} {}", r.number, r.value, r.steps)
        }
        Call::Plain => {
            let r = plain_answer(*p, a, b);
            format!("{name} plain {} {}", r.number, r.value)
        }
        Call::Division => {
            let (r, after) = division_answer(*p, a, b);
            let (before, after) = (entries(a), entries(&after));
            format!("{name} division{before} {} {}{after}", r.number, r.count)
        }
        Call::Divisor => {
            let r = divisor_answer(a, b);
            let row = if r.side == 0 { a } else { b };
            format!("{name} divisor{}", entries(&row[..r.length]))
        }
    }
}

/// One comparison for each line of the stored output; a line that is missing or too many differs.
pub fn compare(root: &Path) -> Report {
    let mut report = Report::new("stored output of row_runs");
    let path = root.join("crates/row_runs/stdout");
    let stored = match std::fs::read_to_string(&path) {
        Ok(text) => text,
        Err(error) => {
            report.fails("reading the stored output", &error);
            return report;
        }
    };
    let stored: Vec<&str> = stored.lines().collect();
    let right: Vec<String> = cases()
        .iter()
        .flat_map(|case| case.calls.iter().map(|&call| line(call, case)))
        .collect();
    for k in 0..stored.len().max(right.len()) {
        report.same(
            "a stored line",
            &(k + 1),
            stored.get(k).copied(),
            right.get(k).map(String::as_str),
        );
    }
    report
}
