//! The definition on rows of numbers: Sylvester's matrix, its determinant by elimination modulo p, division, and the
//! scope's numbers for rows. Nothing here is the kernel's method.

pub type Row = Vec<u32>;

pub fn is_prime(p: u32) -> bool {
    let p = p as u64;
    let mut d = 2u64;
    while d * d <= p {
        if p % d == 0 {
            return false;
        }
        d += 1;
    }
    true
}

pub fn mul(p: u32, a: u32, b: u32) -> u32 {
    (a as u64 * b as u64 % p as u64) as u32
}

pub fn add(p: u32, a: u32, b: u32) -> u32 {
    ((a as u64 + b as u64) % p as u64) as u32
}

pub fn sub(p: u32, a: u32, b: u32) -> u32 {
    ((a as u64 + p as u64 - b as u64) % p as u64) as u32
}

pub fn power(p: u32, a: u32, n: u64) -> u32 {
    let mut r = 1 % p;
    for bit in (0..64).rev() {
        r = mul(p, r, r);
        if n >> bit & 1 == 1 {
            r = mul(p, r, a);
        }
    }
    r
}

/// By Fermat's theorem; `a` is not 0 modulo the prime `p`.
pub fn inverse(p: u32, a: u32) -> u32 {
    power(p, a, p as u64 - 2)
}

/// Sylvester's matrix of two rows (constant term first) at their declared degrees. Its places hold numbers or
/// polynomials; the default is zero.
pub fn sylvester<T: Clone + Default>(a: &[T], b: &[T]) -> Vec<Vec<T>> {
    let (m, n) = (a.len() - 1, b.len() - 1);
    let mut matrix = vec![vec![T::default(); m + n]; m + n];
    for i in 0..n {
        for k in 0..=m {
            matrix[i][i + k] = a[m - k].clone();
        }
    }
    for i in 0..m {
        for k in 0..=n {
            matrix[n + i][i + k] = b[n - k].clone();
        }
    }
    matrix
}

pub fn determinant(p: u32, mut matrix: Vec<Row>) -> u32 {
    let size = matrix.len();
    let mut result = 1 % p;
    for c in 0..size {
        let Some(pivot) = (c..size).find(|&r| matrix[r][c] != 0) else {
            return 0;
        };
        if pivot != c {
            matrix.swap(pivot, c);
            result = sub(p, 0, result);
        }
        let lead = matrix[c][c];
        result = mul(p, result, lead);
        let unit = inverse(p, lead);
        let top = matrix[c].clone();
        for row in matrix.iter_mut().skip(c + 1) {
            if row[c] != 0 {
                let q = mul(p, row[c], unit);
                for k in c..size {
                    row[k] = sub(p, row[k], mul(p, q, top[k]));
                }
            }
        }
    }
    result
}

pub fn row_determinant(p: u32, a: &[u32], b: &[u32]) -> u32 {
    determinant(p, sylvester(a, b))
}

/// Cuts a row after its last nonzero entry.
pub fn trim(r: &mut Row) {
    while r.last() == Some(&0) {
        r.pop();
    }
}

/// Remainder and quotient of `a` by `b`, whose last entry is not 0.
pub fn divide(p: u32, a: &[u32], b: &[u32]) -> (Row, Row) {
    let d = b.len() - 1;
    let mut rest = a.to_vec();
    if a.len() <= d {
        return (rest, vec![]);
    }
    let mut quotient = vec![0; a.len() - d];
    let unit = inverse(p, b[d]);
    while rest.len() > d {
        let top = rest.pop().expect("not empty");
        let q = mul(p, top, unit);
        let shift = rest.len() - d;
        quotient[shift] = q;
        for k in 0..d {
            rest[shift + k] = sub(p, rest[shift + k], mul(p, q, b[k]));
        }
    }
    (rest, quotient)
}

/// The coefficient steps, recounted by the true degrees of a plain remainder sequence.
pub fn steps(p: u32, a: &[u32], b: &[u32]) -> u32 {
    let (mut r, mut s) = if a.len() < b.len() {
        (b.to_vec(), a.to_vec())
    } else {
        (a.to_vec(), b.to_vec())
    };
    let mut count = 0;
    while !s.is_empty() {
        let (high, low) = (r.len() as u32 - 1, s.len() as u32 - 1);
        count += (high - low + 1) * low;
        let (mut rest, _) = divide(p, &r, &s);
        trim(&mut rest);
        r = s;
        s = rest;
    }
    count
}

pub fn outside(p: u32) -> bool {
    p < 2 || p >= 1 << 31
}

pub fn row_number(p: u32, a: &[u32], b: &[u32]) -> u32 {
    let both = [a, b];
    if outside(p) {
        2
    } else if !is_prime(p) {
        3
    } else if both.iter().any(|r| r.len() > 17) {
        4
    } else if both.iter().any(|r| r.is_empty()) {
        5
    } else if both.iter().any(|r| r.iter().any(|&x| x >= p)) {
        6
    } else if both.iter().any(|r| r[r.len() - 1] == 0) {
        7
    } else {
        0
    }
}

pub fn division_number(p: u32, row: &[u32], b: &[u32]) -> u32 {
    let both = [row, b];
    if outside(p) {
        2
    } else if !is_prime(p) {
        3
    } else if both.iter().any(|r| r.len() > 17) {
        4
    } else if both.iter().any(|r| r.iter().any(|&x| x >= p)) {
        6
    } else if b.last().is_none_or(|&x| x == 0) {
        15
    } else {
        0
    }
}
