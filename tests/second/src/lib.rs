//! The second program: what the kernel should answer, worked out from the definition and not by the kernel's method, and
//! the kernel's C interface and the program `deck` beside it.
//!
//! The definition: `definition`, `polynomials`, `pair`, `model`. What is asked: `kernel`, `program`. The comparisons:
//! `known`, `row_runs`, `edges`, `rows`, `jobs` with `calls`, `stored`, `decks`, `delivery`, `faults`.

pub mod calls;
pub mod decks;
pub mod definition;
pub mod delivery;
pub mod edges;
pub mod faults;
pub mod jobs;
pub mod kernel;
pub mod known;
pub mod model;
pub mod pair;
pub mod polynomials;
pub mod program;
pub mod random;
pub mod report;
pub mod row_runs;
pub mod rows;
pub mod same_steps;
pub mod stored;
