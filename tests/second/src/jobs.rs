//! The job calls against the definition: openings, offers, lots in random groupings, reads, forged records, one-shots.

use crate::calls::{self, Both};
use crate::kernel::Job;
use crate::model::Model;
use crate::pair::{Pair, Table};
use crate::random::{Random, LARGE_PRIMES, PRIMES};
use crate::report::Report;

fn table(random: &mut Random, p: u32, m: u32, e: u32) -> Table {
    let size = (m as usize + 1) * (e as usize + 1);
    let style = random.below(6);
    let mut entries: Vec<u32> = (0..size)
        .map(|_| match style {
            0 => 0,
            1 | 2 if random.below(3) > 0 => 0,
            3 => random.below(2.min(p.max(1) as u64)) as u32,
            _ => random.below(p.max(1) as u64) as u32,
        })
        .collect();
    if random.once_in(3) {
        // the declared degree in y is larger than the real one
        for i in 0..=m as usize {
            entries[i * (e as usize + 1) + e as usize] = 0;
        }
    }
    let last = m as usize * (e as usize + 1);
    if entries[last..].iter().all(|&x| x == 0) && !random.once_in(25) {
        entries[last] = 1 % p.max(1);
    }
    Table { m, e, entries }
}

/// A pair that is mostly in order; once in a while with every fault that an opening refuses.
fn pair(random: &mut Random, largest: u64, large_prime: bool) -> Pair {
    let p = match random.below(40) {
        0 => random.pick(&[0, 1, 1 << 31, u32::MAX]),
        1 => random.pick(&[4, 9, 15, 65_535]),
        _ if large_prime => random.pick(&LARGE_PRIMES),
        _ => random.pick(&PRIMES),
    };
    let degree = |random: &mut Random| match random.below(4) {
        0 => largest as u32,
        _ => random.below(largest + 1) as u32,
    };
    let (m, e, n, f) = (
        degree(random),
        degree(random),
        degree(random),
        degree(random),
    );
    let mut pair = Pair {
        p,
        a: table(random, p, m, e),
        b: table(random, p, n, f),
    };
    match random.below(60) {
        0 => pair.a.m = random.pick(&[17, 4_000_000_000, u32::MAX]),
        1 => pair.b.e = random.pick(&[17, 4_000_000_000, u32::MAX]),
        2 => {
            pair.a.entries.pop();
        }
        3 => pair.b.entries.push(0),
        4 => {
            let k = random.below(pair.a.entries.len() as u64) as usize;
            pair.a.entries[k] = p;
        }
        5 => {
            let k = random.below(pair.b.entries.len() as u64) as usize;
            pair.b.entries[k] = u32::MAX;
        }
        _ => {}
    }
    pair
}

fn forge(random: &mut Random, job: &Job) -> Job {
    let mut f = *job;
    let big = random.pick(&[1u32, 2, 17, 289, 513, 514, 4_000_000_000, u32::MAX]);
    match random.below(14) {
        0 => f.p = random.pick(&[0, 1, 4, 9, 1 << 31, u32::MAX, 7, 2_147_483_647]),
        1 => f.m = big,
        2 => f.n = big,
        3 => f.da = f.da.wrapping_add(big),
        4 => f.db = f.db.wrapping_add(big),
        5 => f.count = f.count.wrapping_add(big),
        6 => f.a[random.below(289) as usize] = big,
        7 => f.b[random.below(289) as usize] = big,
        8 => f.points[random.below(513) as usize] = big,
        9 => f.values[random.below(513) as usize] = big,
        10 => f.values[0] = f.values[0].wrapping_add(1),
        11 => f.points[1] = f.points[0],
        12 => f.count = f.count.wrapping_sub(1),
        _ => f.points[512] = big,
    }
    f
}

/// A point that is mostly usable and small, now and then at the upper edge or past it.
fn point(random: &mut Random, p: u32) -> u32 {
    match random.below(12) {
        0 => p,
        1 => p - 1,
        2 => u32::MAX,
        3 => random.below(p as u64) as u32,
        _ => random.below((p as u64).min(40)) as u32,
    }
}

fn lot(random: &mut Random, both: &mut Both, report: &mut Report) {
    let points: Vec<u32> = (0..random.below(9))
        .map(|_| point(random, both.model.pair.p))
        .collect();
    let lent = points.len() + random.below(3) as usize
        - usize::from(!points.is_empty() && random.once_in(5));
    both.lot(report, "job", &points, lent);
}

/// A record that was tampered with: refused by every call, unless it happens to be sound.
fn forged(random: &mut Random, job: &Job, report: &mut Report) {
    let bad = forge(random, job);
    match Model::of_record(&bad) {
        Some(model) => Both { model, job: bad }.offer(report, "forged and sound", 0),
        None => calls::unsound(report, "forged", bad),
    }
}

/// A few calls of random kinds.
fn calls_at_random(random: &mut Random, both: &mut Both, report: &mut Report) {
    for _ in 0..1 + random.below(12) {
        match random.below(8) {
            0 | 1 => lot(random, both, report),
            2 => forged(random, &both.job, report),
            3 => {
                let lent = (both.model.bound + 2).saturating_sub(random.below(4) as usize);
                both.read(report, "job", lent);
            }
            _ => both.offer(report, "job", point(random, both.model.pair.p)),
        }
    }
}

/// Offers every point that is needed and two more, in random order and lots, and reads at the end.
fn complete(random: &mut Random, both: &mut Both, report: &mut Report) {
    let mut points = both.model.pair.usable_points(both.model.bound + 3);
    random.shuffle(&mut points);
    let mut rest = &points[..];
    while !rest.is_empty() {
        let (lot, later) = rest.split_at(1 + random.below(rest.len() as u64) as usize);
        both.lot(report, "usable points", lot, lot.len());
        rest = later;
    }
    both.read(report, "complete", both.model.bound + 2);
}

/// The largest degree of a case, and whether its primes are large ones: few cases are large.
fn size(random: &mut Random) -> (u64, bool) {
    match random.below(100) {
        0 | 1 => (16, true),
        2..=9 => (6, true),
        10..=45 => (1, false),
        46..=80 => (2, false),
        _ => (3, false),
    }
}

pub fn compare(cases: u64, seed: u64) -> Report {
    let mut random = Random::new(seed);
    let mut report = Report::seeded("jobs", seed);
    for _ in 0..cases {
        let (largest, large_prime) = size(&mut random);
        let pair = pair(&mut random, largest, large_prime);
        let opened = calls::open(&mut report, "job", &pair);
        let need = opened.as_ref().map_or(1, |both| both.model.bound + 1);
        let lent = (need + 1).saturating_sub(random.below(3) as usize);
        calls::one_shot(&mut report, "job", &pair, &opened, lent);
        if let Ok(mut both) = opened {
            calls_at_random(&mut random, &mut both, &mut report);
            if random.once_in(2) {
                complete(&mut random, &mut both, &mut report);
            }
            report.judged(&both.model);
        }
    }
    report.wants(&[0, 1, 2, 3, 4, 5, 6, 7, 8, 9, 10, 11, 12, 14, 16]);
    report
}
