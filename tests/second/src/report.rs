//! Counting: how many comparisons agree, which numbers came, how many polynomials were judged. The first cases that differ
//! are printed whole.

use crate::model::Model;
use std::collections::BTreeMap;
use std::fmt::Debug;

/// How many cases that differ a report prints.
const PRINTED: u64 = 5;

pub struct Report {
    /// What is compared, and the seed if there is one.
    name: String,
    pub passed: u64,
    pub failed: u64,
    numbers: BTreeMap<u32, u64>,
    polynomials: u64,
    largest_bound: usize,
}

impl Report {
    pub fn new(name: &str) -> Self {
        Report {
            name: name.to_string(),
            passed: 0,
            failed: 0,
            numbers: BTreeMap::new(),
            polynomials: 0,
            largest_bound: 0,
        }
    }

    pub fn seeded(name: &str, seed: u64) -> Self {
        Report::new(&format!("{name}: seed {seed}"))
    }

    pub fn number(&mut self, number: u32) {
        *self.numbers.entry(number).or_insert(0) += 1;
    }

    /// Counts the polynomial of a job, once, if something was compared with it.
    pub fn judged(&mut self, model: &Model) {
        if model.judged() {
            self.polynomials += 1;
            self.largest_bound = self.largest_bound.max(model.bound);
        }
    }

    /// Compares what the kernel gave, or what is stored, with what the definition gives.
    pub fn same<T: PartialEq + Debug>(
        &mut self,
        what: &str,
        case: &dyn Debug,
        given: T,
        definition: T,
    ) {
        if given == definition {
            self.passed += 1;
            return;
        }
        self.failed += 1;
        if self.failed <= PRINTED {
            println!("{}: {what} differs", self.name);
            println!("  case: {case:?}");
            println!("  given: {given:?}");
            println!("  definition: {definition:?}");
        } else if self.failed == PRINTED + 1 {
            println!("{}: more cases differ; they are only counted", self.name);
        }
    }

    /// Something could not be compared.
    pub fn fails(&mut self, what: &str, why: &dyn Debug) {
        self.failed += 1;
        println!("{}: {what}: {why:?}", self.name);
    }

    /// Each of these numbers must have come. This is a demand on the cases, not counted as a comparison.
    pub fn wants(&mut self, numbers: &[u32]) {
        for n in numbers {
            if !self.numbers.contains_key(n) {
                self.fails("a number never came", n);
            }
        }
    }

    pub fn line(&self) {
        println!(
            "{}: {} agree, {} differ",
            self.name, self.passed, self.failed
        );
        if !self.numbers.is_empty() {
            println!("  numbers seen: {:?}", self.numbers);
        }
        if self.polynomials > 0 {
            println!(
                "  polynomials judged by the determinant over the polynomials in y: {}, D up to {}",
                self.polynomials, self.largest_bound
            );
        }
    }
}

/// Compares two things that the definition says. This is no comparison of the kernel and is not counted: a disagreement
/// is a fault of this program, and ends it.
#[track_caller]
pub fn agree<T: PartialEq + Debug>(what: &str, case: &dyn Debug, one: T, other: T) {
    assert!(
        one == other,
        "the definition disagrees with itself: {what}\n  case: {case:?}\n  one: {one:?}\n  other: {other:?}"
    );
}
