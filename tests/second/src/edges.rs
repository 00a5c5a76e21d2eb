//! The edges of what the calls on a job accept, each asked of the kernel and of the definition.

use crate::calls::{self, Both};
use crate::kernel::{self, Job};
use crate::model::Model;
use crate::pair::{Pair, Table};
use crate::random::Random;
use crate::report::{agree, Report};

const LARGEST: u32 = 2_147_483_647;

fn pair(p: u32, a: (u32, u32, &[u32]), b: (u32, u32, &[u32])) -> Pair {
    Pair::new(p, Table::new(a.0, a.1, a.2), Table::new(b.0, b.1, b.2))
}

/// K1's pair, x + y and x + 6y, at another modulus than 7 too.
fn k1(p: u32) -> Pair {
    pair(p, (1, 1, &[0, 1, 1, 0]), (1, 1, &[0, 6, 1, 0]))
}

/// The pair of K9 and K10: yx + 1 and x + 1.
fn k9(p: u32) -> Pair {
    pair(p, (1, 1, &[1, 0, 0, 1]), (1, 0, &[1, 1]))
}

/// A pair of the largest shape, so that D = 512.
fn largest() -> Pair {
    let mut random = Random::new(512);
    let mut table = || {
        let mut entries: Vec<u32> = (0..289)
            .map(|_| random.below(LARGEST as u64) as u32)
            .collect();
        entries[288] = 1;
        Table::new(16, 16, &entries)
    };
    let (a, b) = (table(), table());
    Pair::new(LARGEST, a, b)
}

const ONE: (u32, u32, &[u32]) = (0, 0, &[1]);

/// Openings at the edges, with the number that each gets.
fn openings() -> Vec<(&'static str, Pair, u32)> {
    let ones = [1; 18];
    vec![
        ("p = 0", k1(0), 2),
        ("p = 1", k1(1), 2),
        ("p = 2^31", k1(1 << 31), 2),
        ("p = 9", k1(9), 3),
        ("p = 2147483647", k1(LARGEST), 0),
        ("p = 2", pair(2, (1, 0, &[1, 1]), (1, 0, &[0, 1])), 0),
        ("D = 0", pair(5, (2, 0, &[1, 2, 3]), (1, 0, &[4, 1])), 0),
        ("constants", pair(3, ONE, ONE), 0),
        (
            "declared degrees higher than the real ones",
            pair(7, (1, 3, &[0, 1, 0, 0, 1, 0, 0, 0]), (1, 1, &[0, 6, 1, 0])),
            0,
        ),
        ("degree 17 in x", pair(7, (17, 0, &ones), ONE), 4),
        ("degree 17 in y", pair(7, (0, 17, &ones), ONE), 4),
        (
            "degree of 4 billion",
            pair(7, (4_000_000_000, u32::MAX, &[1]), ONE),
            4,
        ),
        ("table too short", pair(7, (1, 1, &[0, 1, 1]), ONE), 5),
        ("table too long", pair(7, ONE, (1, 1, &[0, 1, 1, 0, 0])), 5),
        ("entry p - 1", pair(7, (1, 1, &[6, 6, 6, 6]), ONE), 0),
        ("entry p", pair(7, (1, 1, &[0, 7, 1, 0]), ONE), 6),
        ("leading row zero", pair(7, (1, 1, &[1, 1, 0, 0]), ONE), 7),
        (
            "leading row zero beside entry p",
            pair(7, (1, 1, &[1, 1, 0, 0]), (0, 0, &[7])),
            6,
        ),
        (
            "K8",
            pair(5, (2, 1, &[0, 1, 0, 0, 1, 0]), (1, 0, &[1, 1])),
            0,
        ),
        ("K9", k9(3), 0),
        ("K10", k9(2), 8),
    ]
}

/// Opening, and the one-shot into outputs of no places, D, D + 1 and D + 2 places.
fn opening(report: &mut Report, name: &str, pair: &Pair, number: u32) -> Option<Both> {
    agree(name, pair, pair.number(), number);
    let opened = calls::open(report, name, pair);
    let bound = opened.as_ref().map_or(3, |both| both.model.bound);
    for lent in [0, bound, bound + 1, bound + 2] {
        calls::one_shot(report, name, pair, &opened, lent);
    }
    let both = opened.ok()?;
    report.judged(&both.model);
    Some(both)
}

fn accepted(report: &mut Report, name: &str, pair: &Pair) -> Both {
    opening(report, name, pair, 0).expect("the definition accepts it")
}

/// Offers single points and reads after each, into D and into D + 1 places.
fn offers(report: &mut Report, name: &str, opened: &Both, points: &[u32]) {
    let mut both = opened.clone();
    for &a in points {
        both.offer(report, name, a);
        for lent in [both.model.bound, both.model.bound + 1] {
            both.read(report, name, lent);
        }
    }
}

/// One lot of all points, with as many answer bytes as points, one more, and one too few; and a read after it.
fn lots(report: &mut Report, name: &str, opened: &Both, points: &[u32]) {
    let many = points.len();
    for lent in [many, many + 1, many.saturating_sub(1)] {
        let mut both = opened.clone();
        both.lot(report, name, points, lent);
        both.read(report, name, both.model.bound + 1);
    }
}

/// Records with one fault each, made from K1's job with two points kept.
fn forgeries(report: &mut Report) {
    let k1 = k1(7);
    let opened = kernel::open(7, &k1.a, &k1.b).job;
    let whole = kernel::lot(opened, &[0, 3], &mut [0; 2]).job;
    let faults: [(&str, fn(&mut Job)); 21] = [
        ("modulus 0", |j| j.p = 0),
        ("composite modulus", |j| j.p = 9),
        ("modulus 2^31", |j| j.p = 1 << 31),
        ("degree of 4 billion", |j| j.m = 4_000_000_000),
        ("degree 17", |j| j.n = 17),
        ("degree too low", |j| j.m = 0),
        ("count past the slots", |j| j.count = 514),
        ("count of 4 billion", |j| j.count = u32::MAX),
        ("count too low", |j| j.count = 1),
        ("count too high", |j| j.count = 3),
        ("entry p", |j| j.a[0] = 7),
        ("wrong dA", |j| j.da = 2),
        ("wrong dB", |j| j.db = 0),
        ("repeated point", |j| j.points[1] = 0),
        ("wrong value", |j| j.values[1] = (j.values[1] + 1) % 7),
        ("rubbish outside the shape", |j| j.a[34] = 1),
        ("rubbish in an unused slot", |j| j.points[512] = 1),
        ("rubbish in an unused value", |j| j.values[2] = 1),
        ("leading row zero", |j| j.b[17] = 0),
        ("a point that is not below p", |j| j.points[0] = 7),
        ("the all-zero record", |j| *j = Job::BLANK),
    ];
    for (name, fault) in faults {
        let mut bad = whole;
        fault(&mut bad);
        forged(report, name, bad);
    }
    // K10's pair has too few usable points
    let mut scarce = Job::BLANK;
    (scarce.p, scarce.m, scarce.n, scarce.da) = (2, 1, 1, 1);
    (scarce.a[0], scarce.a[18], scarce.b[0], scarce.b[17]) = (1, 1, 1, 1);
    forged(report, "a pair that would get 8", scarce);
}

fn forged(report: &mut Report, name: &str, bad: Job) {
    agree(name, &bad, Model::of_record(&bad).is_some(), false);
    calls::unsound(report, name, bad);
}

pub fn compare() -> Report {
    let mut report = Report::new("edges");
    let r = &mut report;
    for (name, pair, number) in openings() {
        opening(r, name, &pair, number);
    }
    // (y^2 - y) x + 1: 0 and 1 are not usable
    let holes = pair(7, (1, 2, &[1, 0, 0, 0, 6, 1]), (1, 0, &[3, 1]));
    let holes = accepted(r, "unusable points", &holes);
    offers(r, "unusable points", &holes, &[0, 1, 2, 2, 3, 4, 5, 6, 7]);
    // A and B share the factor x + y
    let shared = pair(7, (1, 1, &[0, 1, 1, 0]), (1, 1, &[0, 2, 2, 0]));
    let shared = accepted(r, "zero polynomial", &shared);
    offers(r, "zero polynomial", &shared, &[1, 2, 3, 4]);
    let job = accepted(r, "K1's job", &k1(7));
    offers(r, "K1's job", &job, &[0, 1, 1, 3, 5, 6, 7, u32::MAX, 5]);
    lots(r, "K1's job", &job, &[0, 1, 1, 3, 5]);
    lots(r, "an empty lot", &job, &[]);
    lots(r, "a lot of refused points", &job, &[7, 8, 9]);
    let job = accepted(r, "points p - 1 and p", &k1(LARGEST));
    let points = [LARGEST - 1, LARGEST, 0, 1];
    offers(r, "points p - 1 and p", &job, &points);
    forgeries(r);
    let large = accepted(r, "D = 512", &largest());
    let points: Vec<u32> = (0..515).map(|k| k * 4_000_037 % LARGEST).collect();
    lots(r, "D = 512, 515 points", &large, &points);
    report.wants(&[0, 1, 2, 3, 4, 5, 6, 7, 8, 9, 10, 11, 12, 14, 16]);
    report
}
