//! The definition on two polynomials in x and y: the opening's number, usable points, and the whole determinant of
//! Sylvester's matrix with its polynomials in y. Nothing here is the kernel's method.

use crate::definition::{is_prime, outside, row_determinant, sylvester, trim, Row};
use crate::polynomials::{self, lagrange};
use crate::report::agree;

/// The table of a polynomial in x and y with its declared degrees.
#[derive(Clone, Debug)]
pub struct Table {
    pub m: u32,
    pub e: u32,
    pub entries: Row,
}

impl Table {
    pub fn new(m: u32, e: u32, entries: &[u32]) -> Self {
        Table {
            m,
            e,
            entries: entries.to_vec(),
        }
    }

    pub fn at(&self, i: usize, j: usize) -> u32 {
        if j > self.e as usize {
            return 0;
        }
        self.entries
            .get(i * (self.e as usize + 1) + j)
            .copied()
            .unwrap_or(0)
    }

    /// The coefficient of x^i, a polynomial in y.
    fn coefficient(&self, i: usize) -> Row {
        let mut r: Row = (0..=self.e as usize).map(|j| self.at(i, j)).collect();
        trim(&mut r);
        r
    }

    fn coefficients(&self) -> Vec<Row> {
        (0..=self.m as usize).map(|i| self.coefficient(i)).collect()
    }

    fn lead(&self) -> Row {
        self.coefficient(self.m as usize)
    }

    /// The largest power of y that really occurs.
    pub fn real_degree(&self) -> usize {
        let longest = self.coefficients().iter().map(Row::len).max();
        longest.unwrap_or(0).saturating_sub(1)
    }

    /// The row of numbers at y = a.
    pub fn row_at(&self, p: u32, a: u32) -> Row {
        self.coefficients()
            .iter()
            .map(|c| polynomials::value(p, c, a))
            .collect()
    }
}

#[derive(Clone, Debug)]
pub struct Pair {
    pub p: u32,
    pub a: Table,
    pub b: Table,
}

impl Pair {
    pub fn new(p: u32, a: Table, b: Table) -> Self {
        Pair { p, a, b }
    }

    pub fn bound(&self) -> usize {
        self.b.m as usize * self.a.real_degree() + self.a.m as usize * self.b.real_degree()
    }

    pub fn usable(&self, a: u32) -> bool {
        polynomials::value(self.p, &self.a.lead(), a) != 0
            && polynomials::value(self.p, &self.b.lead(), a) != 0
    }

    pub fn value(&self, a: u32) -> u32 {
        row_determinant(self.p, &self.a.row_at(self.p, a), &self.b.row_at(self.p, a))
    }

    /// The first points below p that are usable, at most `most` of them.
    pub fn usable_points(&self, most: usize) -> Vec<u32> {
        (0..self.p).filter(|&a| self.usable(a)).take(most).collect()
    }

    /// The opening's number.
    pub fn number(&self) -> u32 {
        let sides = [&self.a, &self.b];
        if outside(self.p) {
            2
        } else if !is_prime(self.p) {
            3
        } else if sides.iter().any(|t| t.m > 16 || t.e > 16) {
            4
        } else if sides
            .iter()
            .any(|t| t.entries.len() != (t.m as usize + 1) * (t.e as usize + 1))
        {
            5
        } else if sides.iter().any(|t| t.entries.iter().any(|&x| x >= self.p)) {
            6
        } else if sides.iter().any(|t| t.lead().is_empty()) {
            7
        } else if self.usable_points(self.bound() + 1).len() < self.bound() + 1 {
            8
        } else {
            0
        }
    }

    /// The whole determinant of a pair whose opening is accepted, D + 1 coefficients: over the polynomials in y. Found
    /// from its values too, it must be the same.
    pub fn determinant(&self) -> Row {
        let whole = self.determinant_over_polynomials();
        let by_points = self.determinant_by_points();
        agree("the two ways to the determinant", self, &whole, &by_points);
        whole
    }

    /// The determinant of Sylvester's matrix with its polynomials in y.
    fn determinant_over_polynomials(&self) -> Row {
        let matrix = sylvester(&self.a.coefficients(), &self.b.coefficients());
        let mut c = polynomials::determinant(self.p, matrix);
        assert!(c.len() <= self.bound() + 1, "D bounds the degree");
        c.resize(self.bound() + 1, 0);
        c
    }

    /// The values at 0 .. D, which are below p, and the polynomial through them.
    fn determinant_by_points(&self) -> Row {
        let values: Row = (0..=self.bound() as u32).map(|a| self.value(a)).collect();
        lagrange(self.p, &values)
    }
}
