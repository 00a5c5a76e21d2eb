//! Polynomials in y modulo p, constant term first, cut after the last nonzero entry: the determinant of a matrix of them
//! by elimination without fractions, and the polynomial with given values.

use crate::definition::{add, inverse, mul, sub, trim, Row};

/// Adds a product to a sum modulo p that is kept below p * p and reduced once, at its end.
fn gather(p: u32, sum: &mut u64, x: u32, y: u32) {
    let more = *sum + x as u64 * y as u64;
    *sum = more.min(more.wrapping_sub(p as u64 * p as u64));
}

fn gather_product(p: u32, sums: &mut [u64], a: &[u32], b: &[u32]) {
    for (i, &x) in a.iter().enumerate() {
        for (sum, &y) in sums[i..].iter_mut().zip(b) {
            gather(p, sum, x, y);
        }
    }
}

fn negative(p: u32, a: &[u32]) -> Row {
    a.iter().map(|&x| sub(p, 0, x)).collect()
}

/// The sums of a d - b c, not reduced yet.
fn cross(p: u32, a: &[u32], b: &[u32], c: &[u32], d: &[u32]) -> Vec<u64> {
    let mut sums = vec![0; (a.len() + d.len()).max(b.len() + c.len())];
    gather_product(p, &mut sums, a, d);
    gather_product(p, &mut sums, &negative(p, b), c);
    sums
}

/// The quotient of a division that leaves nothing, by a polynomial that is not zero.
fn exact_quotient(p: u32, mut rest: Vec<u64>, divisor: &[u32], unit: u32) -> Row {
    let reduced = |x: u64| (x % p as u64) as u32;
    let d = divisor.len() - 1;
    let below = negative(p, &divisor[..d]);
    let mut quotient = vec![0; rest.len().saturating_sub(d)];
    for k in (0..quotient.len()).rev() {
        quotient[k] = mul(p, reduced(rest[k + d]), unit);
        gather_product(p, &mut rest[k..k + d], &quotient[k..k + 1], &below);
    }
    rest.truncate(d);
    assert!(
        rest.into_iter().all(|x| reduced(x) == 0),
        "elimination without fractions divides exactly"
    );
    trim(&mut quotient);
    quotient
}

/// By elimination without fractions: each step is a determinant of two by two, divided by the pivot before.
pub fn determinant(p: u32, mut matrix: Vec<Vec<Row>>) -> Row {
    let size = matrix.len();
    let mut swapped = false;
    let mut before: Row = vec![1];
    for c in 0..size {
        let Some(pivot) = (c..size).find(|&r| !matrix[r][c].is_empty()) else {
            return vec![];
        };
        if pivot != c {
            matrix.swap(pivot, c);
            swapped = !swapped;
        }
        let unit = inverse(p, before[before.len() - 1]);
        let top = matrix[c].clone();
        for row in matrix.iter_mut().skip(c + 1) {
            for k in c + 1..size {
                let sums = cross(p, &top[c], &top[k], &row[c], &row[k]);
                row[k] = exact_quotient(p, sums, &before, unit);
            }
        }
        before = top[c].clone();
    }
    if swapped {
        negative(p, &before)
    } else {
        before
    }
}

pub fn value(p: u32, coefficients: &[u32], y: u32) -> u32 {
    let mut sum = 0;
    let mut power = 1;
    for &c in coefficients {
        sum = add(p, sum, mul(p, c, power));
        power = mul(p, power, y);
    }
    sum
}

/// The polynomial with the given values at 0, 1, 2, .. by Lagrange's formula, not cut.
pub fn lagrange(p: u32, values: &[u32]) -> Row {
    let n = values.len();
    // all = (y - 0)(y - 1) .. (y - (n-1))
    let mut all = vec![1u32];
    for a in 0..n as u32 {
        let mut next = vec![0u32; all.len() + 1];
        for (k, &c) in all.iter().enumerate() {
            next[k + 1] = add(p, next[k + 1], c);
            next[k] = sub(p, next[k], mul(p, a, c));
        }
        all = next;
    }
    let mut result = vec![0u32; n];
    for (i, &v) in values.iter().enumerate() {
        let part = without_root(p, &all, i as u32);
        let c = mul(p, v, inverse(p, value(p, &part, i as u32)));
        for (r, &x) in result.iter_mut().zip(&part) {
            *r = add(p, *r, mul(p, c, x));
        }
    }
    result
}

/// The quotient by y - a of a polynomial with the root a.
fn without_root(p: u32, all: &[u32], a: u32) -> Row {
    let n = all.len() - 1;
    let mut part = vec![0u32; n];
    let mut carry = 0u32;
    for k in (0..n).rev() {
        carry = add(p, all[k + 1], mul(p, carry, a));
        part[k] = carry;
    }
    part
}
