//! The kernel's C interface, each call behind a safe function.

use crate::pair::Table;

#[repr(C)]
#[derive(Clone, Copy, PartialEq, Debug)]
pub struct RowAnswer {
    pub number: u32,
    pub value: u32,
    pub steps: u32,
}

#[repr(C)]
#[derive(Clone, Copy, PartialEq, Debug)]
pub struct DivisionAnswer {
    pub number: u32,
    pub count: u32,
}

#[repr(C)]
#[derive(Clone, Copy, PartialEq, Debug)]
pub struct PlainAnswer {
    pub number: u32,
    pub value: u32,
}

#[repr(C)]
#[derive(Clone, Copy, PartialEq, Debug)]
pub struct Stretch {
    pub side: u32,
    pub length: usize,
}

mod c {
    use super::*;
    extern "C" {
        pub fn pukilembo_row_resultant(
            p: u32,
            a: *const u32,
            a_len: usize,
            b: *const u32,
            b_len: usize,
        ) -> RowAnswer;
        pub fn pukilembo_plain_determinant(
            p: u32,
            a: *const u32,
            a_len: usize,
            b: *const u32,
            b_len: usize,
        ) -> PlainAnswer;
        pub fn pukilembo_divide(
            p: u32,
            row: *mut u32,
            row_len: usize,
            b: *const u32,
            b_len: usize,
        ) -> DivisionAnswer;
        pub fn pukilembo_divisor(
            a: *const u32,
            a_len: usize,
            b: *const u32,
            b_len: usize,
        ) -> Stretch;
    }
}

pub fn row_resultant(p: u32, a: &[u32], b: &[u32]) -> RowAnswer {
    unsafe { c::pukilembo_row_resultant(p, a.as_ptr(), a.len(), b.as_ptr(), b.len()) }
}

pub fn plain_determinant(p: u32, a: &[u32], b: &[u32]) -> PlainAnswer {
    unsafe { c::pukilembo_plain_determinant(p, a.as_ptr(), a.len(), b.as_ptr(), b.len()) }
}

pub fn divide(p: u32, row: &mut [u32], b: &[u32]) -> DivisionAnswer {
    unsafe { c::pukilembo_divide(p, row.as_mut_ptr(), row.len(), b.as_ptr(), b.len()) }
}

pub fn divisor(a: &[u32], b: &[u32]) -> Stretch {
    unsafe { c::pukilembo_divisor(a.as_ptr(), a.len(), b.as_ptr(), b.len()) }
}

/// The job record, as the C header lays it out.
#[repr(C)]
#[derive(Clone, Copy, PartialEq, Debug)]
pub struct Job {
    pub p: u32,
    pub m: u32,
    pub n: u32,
    pub da: u32,
    pub db: u32,
    pub count: u32,
    pub a: [u32; 289],
    pub b: [u32; 289],
    pub points: [u32; 513],
    pub values: [u32; 513],
}

impl Job {
    pub const BLANK: Job = Job {
        p: 0,
        m: 0,
        n: 0,
        da: 0,
        db: 0,
        count: 0,
        a: [0; 289],
        b: [0; 289],
        points: [0; 513],
        values: [0; 513],
    };
}

#[repr(C)]
#[derive(Clone, Copy, PartialEq, Debug)]
pub struct JobAnswer {
    pub number: u32,
    pub job: Job,
}

#[repr(C)]
#[derive(Clone, Copy, PartialEq, Debug)]
pub struct ReadAnswer {
    pub number: u32,
    pub wanted: u32,
    pub degree: u32,
    pub zero: u32,
}

impl ReadAnswer {
    /// A refusal: every count, degree and value is 0.
    pub fn refused(number: u32) -> Self {
        ReadAnswer {
            number,
            wanted: 0,
            degree: 0,
            zero: 0,
        }
    }
}

mod j {
    use super::*;
    extern "C" {
        pub fn pukilembo_open(
            p: u32,
            m: u32,
            e: u32,
            n: u32,
            f: u32,
            s: *const u32,
            s_len: usize,
            t: *const u32,
            t_len: usize,
        ) -> JobAnswer;
        pub fn pukilembo_offer(job: Job, a: u32) -> JobAnswer;
        pub fn pukilembo_lot(
            job: Job,
            points: *const u32,
            points_len: usize,
            answers: *mut u8,
            answers_len: usize,
        ) -> JobAnswer;
        pub fn pukilembo_read(job: Job, out: *mut u32, out_len: usize) -> ReadAnswer;
        pub fn pukilembo_one_shot(
            p: u32,
            m: u32,
            e: u32,
            n: u32,
            f: u32,
            s: *const u32,
            s_len: usize,
            t: *const u32,
            t_len: usize,
            out: *mut u32,
            out_len: usize,
        ) -> ReadAnswer;
    }
}

pub fn open(p: u32, a: &Table, b: &Table) -> JobAnswer {
    let (s, t) = (&a.entries, &b.entries);
    unsafe {
        j::pukilembo_open(
            p,
            a.m,
            a.e,
            b.m,
            b.e,
            s.as_ptr(),
            s.len(),
            t.as_ptr(),
            t.len(),
        )
    }
}

pub fn offer(job: Job, a: u32) -> JobAnswer {
    unsafe { j::pukilembo_offer(job, a) }
}

pub fn lot(job: Job, points: &[u32], answers: &mut [u8]) -> JobAnswer {
    unsafe {
        j::pukilembo_lot(
            job,
            points.as_ptr(),
            points.len(),
            answers.as_mut_ptr(),
            answers.len(),
        )
    }
}

pub fn read(job: Job, out: &mut [u32]) -> ReadAnswer {
    unsafe { j::pukilembo_read(job, out.as_mut_ptr(), out.len()) }
}

pub fn one_shot(p: u32, a: &Table, b: &Table, out: &mut [u32]) -> ReadAnswer {
    let (s, t) = (&a.entries, &b.entries);
    unsafe {
        j::pukilembo_one_shot(
            p,
            a.m,
            a.e,
            b.m,
            b.e,
            s.as_ptr(),
            s.len(),
            t.as_ptr(),
            t.len(),
            out.as_mut_ptr(),
            out.len(),
        )
    }
}
