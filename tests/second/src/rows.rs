//! The row calls against the definition, on random and degenerate rows.

use crate::definition::{add, divide, division_number, mul, row_determinant, row_number, steps};
use crate::kernel::{self, DivisionAnswer, PlainAnswer, RowAnswer, Stretch};
use crate::random::{Random, PRIMES};
use crate::report::Report;

/// A row that is mostly in order; once in a while too long, empty, with an entry that is too large, or ending in 0.
fn row(random: &mut Random, p: u32, longest: u64) -> Vec<u32> {
    let length = match random.below(40) {
        0 => 0,
        1 => 18 + random.below(3) as usize,
        2 => 17,
        _ => 1 + random.below(longest) as usize,
    };
    let sparse = random.once_in(3);
    let mut r: Vec<u32> = (0..length)
        .map(|_| {
            if sparse && random.below(3) > 0 {
                0
            } else {
                random.below(p.max(1) as u64) as u32
            }
        })
        .collect();
    if let Some(last) = r.last_mut() {
        if *last == 0 && !random.once_in(20) {
            *last = 1 % p.max(1);
        }
    }
    if length > 0 && random.once_in(25) {
        let k = random.below(length as u64) as usize;
        r[k] = p.saturating_add(random.below(2) as u32);
    }
    r
}

fn modulus(random: &mut Random) -> u32 {
    match random.below(30) {
        0 => random.pick(&[0, 1, 1 << 31, u32::MAX, 4_294_967_291]),
        1 => random.pick(&[4, 9, 25, 65_535, 2_147_483_646, 46_337 * 46_337]),
        _ => random.pick(&PRIMES),
    }
}

/// Two rows, now and then with a common factor or one a multiple of the other.
fn two_rows(random: &mut Random, p: u32, longest: u64) -> (Vec<u32>, Vec<u32>) {
    let (a, b) = (row(random, p, longest), row(random, p, longest));
    if row_number(p, &a, &b) == 0 && random.once_in(4) && a.len() + b.len() <= 18 {
        let c = row(random, p, 17 + 2 - (a.len().max(b.len()) as u64));
        if row_number(p, &c, &c) == 0 && a.len() + c.len() <= 18 && b.len() + c.len() <= 18 {
            return (product(p, &a, &c), product(p, &b, &c));
        }
    }
    (a, b)
}

fn product(p: u32, a: &[u32], b: &[u32]) -> Vec<u32> {
    let mut r = vec![0u32; a.len() + b.len() - 1];
    for (i, &x) in a.iter().enumerate() {
        for (k, &y) in b.iter().enumerate() {
            r[i + k] = add(p, r[i + k], mul(p, x, y));
        }
    }
    r
}

fn true_length(r: &[u32]) -> usize {
    r.iter().rposition(|&x| x != 0).map_or(0, |k| k + 1)
}

/// What the row resultant answers. The steps never exceed m*n.
pub fn row_answer(p: u32, a: &[u32], b: &[u32]) -> RowAnswer {
    let number = row_number(p, a, b);
    if number != 0 {
        return RowAnswer {
            number,
            value: 0,
            steps: 0,
        };
    }
    let steps = steps(p, a, b);
    assert!(steps as usize <= (a.len() - 1) * (b.len() - 1));
    RowAnswer {
        number,
        value: row_determinant(p, a, b),
        steps,
    }
}

/// What the plain determinant answers.
pub fn plain_answer(p: u32, a: &[u32], b: &[u32]) -> PlainAnswer {
    let RowAnswer { number, value, .. } = row_answer(p, a, b);
    if number == 0 && a.len() + b.len() - 2 > 6 {
        return PlainAnswer {
            number: 17,
            value: 0,
        };
    }
    PlainAnswer { number, value }
}

/// What the division answers, and the work row afterwards.
pub fn division_answer(p: u32, row: &[u32], b: &[u32]) -> (DivisionAnswer, Vec<u32>) {
    let number = division_number(p, row, b);
    if number != 0 {
        return (DivisionAnswer { number, count: 0 }, row.to_vec());
    }
    let (mut after, quotient) = divide(p, row, b);
    after.extend(quotient);
    let d = b.len() - 1;
    let count = (row.len().saturating_sub(d) * d) as u32;
    (DivisionAnswer { number, count }, after)
}

/// Which row divides.
pub fn divisor_answer(a: &[u32], b: &[u32]) -> Stretch {
    let (la, lb) = (true_length(a), true_length(b));
    if la < lb {
        Stretch {
            side: 0,
            length: la,
        }
    } else {
        Stretch {
            side: 1,
            length: lb,
        }
    }
}

pub fn compare(cases: u64, seed: u64) -> Report {
    let mut random = Random::new(seed);
    let mut report = Report::seeded("rows", seed);
    for _ in 0..cases {
        let p = modulus(&mut random);
        let longest = random.pick(&[3, 5, 17]);
        let (a, b) = two_rows(&mut random, p, longest);
        let case = (p, &a, &b);

        let right = row_answer(p, &a, &b);
        report.number(right.number);
        report.same(
            "row resultant",
            &case,
            kernel::row_resultant(p, &a, &b),
            right,
        );

        let right = plain_answer(p, &a, &b);
        report.number(right.number);
        report.same(
            "plain determinant",
            &case,
            kernel::plain_determinant(p, &a, &b),
            right,
        );

        let right = division_answer(p, &a, &b);
        report.number(right.0.number);
        let mut work = a.clone();
        let answer = kernel::divide(p, &mut work, &b);
        report.same("division", &case, (answer, work), right);

        report.same(
            "which row divides",
            &case,
            kernel::divisor(&a, &b),
            divisor_answer(&a, &b),
        );
    }
    report.wants(&[0, 2, 3, 4, 5, 6, 7, 15, 17]);
    report
}
