//! The kernel's own steps in plain Rust, to measure against: monic Euclid in work rows, Horner's rule, Newton's rule.

fn mul(p: u32, a: u32, b: u32) -> u32 {
    (a as u64 * b as u64 % p as u64) as u32
}

pub fn mul_sub(p: u32, c: u32, q: u32, b: u32) -> u32 {
    (((p - b) as u64 * q as u64 + c as u64) % p as u64) as u32
}

fn sub(p: u32, a: u32, b: u32) -> u32 {
    if b <= a {
        a - b
    } else {
        a + (p - b)
    }
}

fn power(p: u32, a: u32, n: u32) -> u32 {
    let (mut r, mut base, mut left) = (1, a, n);
    while left > 0 {
        if left % 2 == 1 {
            r = mul(p, r, base);
        }
        base = mul(p, base, base);
        left /= 2;
    }
    r
}

pub fn inverse(p: u32, a: u32) -> u32 {
    let (mut r0, mut r1, mut t0, mut t1, mut minus) = (p, a, 0u32, 1u32, false);
    while r1 > 1 {
        let q = r0 / r1;
        (r0, r1) = (r1, r0 - q * r1);
        (t0, t1) = (t1, q * t1 + t0);
        minus = !minus;
    }
    if minus {
        p - t1
    } else {
        t1
    }
}

fn divide(p: u32, row: &mut [u32], b: &[u32]) -> u32 {
    let d = b.len() - 1;
    if row.len() <= d {
        return 0;
    }
    let unit = if b[d] == 1 { 1 } else { inverse(p, b[d]) };
    for k in (0..row.len() - d).rev() {
        let q = mul(p, row[k + d], unit);
        for (x, &y) in row[k..k + d].iter_mut().zip(b) {
            *x = mul_sub(p, *x, q, y);
        }
        row[k + d] = q;
    }
    ((row.len() - d) * d) as u32
}

fn true_length(r: &[u32]) -> usize {
    r.iter().rposition(|&x| x != 0).map_or(0, |k| k + 1)
}

fn euclid(p: u32, before: &mut [u32], r: &mut [u32]) -> (u32, u32) {
    let (m, n) = (before.len() - 1, r.len() - 1);
    let c = r[n];
    if n == 0 {
        return (power(p, c, m as u32), 0);
    }
    if c != 1 {
        let unit = inverse(p, c);
        for x in r.iter_mut() {
            *x = mul(p, *x, unit);
        }
    }
    let count = divide(p, before, r);
    let k = true_length(&before[..n]);
    if k == 0 {
        return (0, count);
    }
    let (value, more) = euclid(p, r, &mut before[..k]);
    let value = mul(p, power(p, c, m as u32), value);
    (
        if m * n % 2 == 1 {
            sub(p, 0, value)
        } else {
            value
        },
        count + more,
    )
}

pub fn is_prime(p: u32) -> bool {
    if p >= 4 && p % 2 == 0 {
        return false;
    }
    let mut d = 3u32;
    while d as u64 * d as u64 <= p as u64 {
        if p % d == 0 {
            return false;
        }
        d += 2;
    }
    true
}

/// The whole public call: the tests of the input in the order of their numbers, then the work on copies of the rows.
pub fn row_call(p: u32, a: &[u32], b: &[u32]) -> (u32, u32, u32) {
    let both = [a, b];
    let number = if !(2..1 << 31).contains(&p) {
        2
    } else if !is_prime(p) {
        3
    } else if both.iter().any(|r| r.len() > 17) {
        4
    } else if both.iter().any(|r| r.is_empty()) {
        5
    } else if both.iter().any(|r| r.iter().any(|&x| x >= p)) {
        6
    } else if both.iter().any(|r| r[r.len() - 1] == 0) {
        7
    } else {
        0
    };
    if number != 0 {
        return (number, 0, 0);
    }
    let (mut u, mut w) = ([0u32; 17], [0u32; 17]);
    u[..a.len()].copy_from_slice(a);
    w[..b.len()].copy_from_slice(b);
    let (value, steps) = row_resultant(p, &mut u[..a.len()], &mut w[..b.len()]);
    (0, value, steps)
}

/// Value and steps; destroys the rows.
pub fn row_resultant(p: u32, a: &mut [u32], b: &mut [u32]) -> (u32, u32) {
    if b.len() <= a.len() {
        return euclid(p, a, b);
    }
    let odd = (a.len() - 1) * (b.len() - 1) % 2 == 1;
    let (value, count) = euclid(p, b, a);
    (if odd { sub(p, 0, value) } else { value }, count)
}

fn value_at(p: u32, coefficients: &[u32], a: u32) -> u32 {
    coefficients.iter().rev().fold(0, |r, &c| {
        ((r as u64 * a as u64 + c as u64) % p as u64) as u32
    })
}

fn interpolate(p: u32, points: &[u32], values: &[u32], out: &mut [u32]) {
    let n = points.len();
    let mut product = vec![0u32; n + 1];
    product[0] = 1;
    out[..n].fill(0);
    for k in 0..n {
        let x = points[k];
        let z = value_at(p, &product[..=k], x);
        let c = mul(
            p,
            sub(p, values[k], value_at(p, &out[..k], x)),
            inverse(p, z),
        );
        for i in 0..=k {
            out[i] = ((c as u64 * product[i] as u64 + out[i] as u64) % p as u64) as u32;
        }
        for i in (0..=k + 1).rev() {
            let low = if i == 0 { 0 } else { product[i - 1] };
            product[i] = mul_sub(p, low, x, product[i]);
        }
    }
}

/// The one-shot at a pair of tables, 17 places to a power of x, of degrees `m`, `n` in x and `d`, `e` in y; every point
/// is taken to be usable, as it is for the tables measured.
#[allow(clippy::too_many_arguments)]
pub fn one_shot(
    p: u32,
    m: usize,
    d: usize,
    a: &[u32],
    n: usize,
    e: usize,
    b: &[u32],
    out: &mut [u32],
) -> usize {
    let need = n * d + m * e + 1;
    let mut points = vec![];
    let mut values = vec![];
    let mut y = 0;
    while points.len() < need {
        let mut u = [0u32; 17];
        let mut w = [0u32; 17];
        for (i, x) in u[..=m].iter_mut().enumerate() {
            *x = value_at(p, &a[17 * i..17 * i + d + 1], y);
        }
        for (i, x) in w[..=n].iter_mut().enumerate() {
            *x = value_at(p, &b[17 * i..17 * i + e + 1], y);
        }
        if u[m] != 0 && w[n] != 0 {
            points.push(y);
            values.push(row_resultant(p, &mut u[..=m], &mut w[..=n]).0);
        }
        y += 1;
    }
    interpolate(p, &points, &values, out);
    need
}
