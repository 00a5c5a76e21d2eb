//! A job as the scope describes it: the pair, the points kept so far with their values, and what each call answers.

use crate::definition::Row;
use crate::kernel::{Job, JobAnswer, ReadAnswer};
use crate::pair::{Pair, Table};
use std::cell::OnceCell;

#[derive(Clone, Debug)]
pub struct Model {
    pub pair: Pair,
    pub bound: usize,
    pub kept: Vec<(u32, u32)>,
    /// Worked out when it is first asked for.
    polynomial: OnceCell<Row>,
}

impl Model {
    /// The job of an accepted opening, or the number of a refused one.
    pub fn open(pair: &Pair) -> Result<Model, u32> {
        match pair.number() {
            0 => Ok(Model {
                pair: pair.clone(),
                bound: pair.bound(),
                kept: vec![],
                polynomial: OnceCell::new(),
            }),
            number => Err(number),
        }
    }

    pub fn offer(&mut self, a: u32) -> u32 {
        if a >= self.pair.p {
            10
        } else if self.kept.iter().any(|k| k.0 == a) {
            12
        } else if !self.pair.usable(a) {
            11
        } else if self.kept.len() <= self.bound {
            self.kept.push((a, self.pair.value(a)));
            0
        } else {
            1
        }
    }

    /// What a read into `out` answers and leaves behind.
    pub fn read(&self, out: &mut [u32]) -> ReadAnswer {
        let need = self.bound + 1;
        if self.kept.len() < need {
            return ReadAnswer {
                wanted: (need - self.kept.len()) as u32,
                ..ReadAnswer::refused(14)
            };
        }
        self.handed_out(out)
    }

    /// The polynomial handed out, as a read of the complete job and the one-shot do it.
    pub fn handed_out(&self, out: &mut [u32]) -> ReadAnswer {
        if out.len() <= self.bound {
            return ReadAnswer::refused(9);
        }
        let coefficients = self.polynomial.get_or_init(|| self.pair.determinant());
        out[..coefficients.len()].copy_from_slice(coefficients);
        let last = coefficients.iter().rposition(|&c| c != 0);
        ReadAnswer {
            number: 0,
            wanted: 0,
            degree: last.unwrap_or(0) as u32,
            zero: last.is_none() as u32,
        }
    }

    /// Whether its polynomial was asked for.
    pub fn judged(&self) -> bool {
        self.polynomial.get().is_some()
    }

    /// A call's answer with the job as it stands.
    pub fn answer(&self, number: u32) -> JobAnswer {
        JobAnswer {
            number,
            job: self.record(),
        }
    }

    fn record(&self) -> Job {
        let mut job = Job::BLANK;
        job.p = self.pair.p;
        job.m = self.pair.a.m;
        job.n = self.pair.b.m;
        job.da = self.pair.a.real_degree() as u32;
        job.db = self.pair.b.real_degree() as u32;
        job.count = self.kept.len() as u32;
        for i in 0..17 {
            for j in 0..17 {
                if i <= job.m as usize {
                    job.a[17 * i + j] = self.pair.a.at(i, j);
                }
                if i <= job.n as usize {
                    job.b[17 * i + j] = self.pair.b.at(i, j);
                }
            }
        }
        for (k, &(point, value)) in self.kept.iter().enumerate() {
            job.points[k] = point;
            job.values[k] = value;
        }
        job
    }

    /// The job that a record holds, if the record is sound: some accepted opening and some offers leave exactly it. Its
    /// polynomials are opened, its points offered, and the record compared.
    pub fn of_record(job: &Job) -> Option<Model> {
        if job.m > 16 || job.n > 16 || job.count > 513 {
            return None;
        }
        let side =
            |m: u32, entries: &[u32; 289]| Table::new(m, 16, &entries[..(m as usize + 1) * 17]);
        let pair = Pair::new(job.p, side(job.m, &job.a), side(job.n, &job.b));
        let mut model = Model::open(&pair).ok()?;
        for &point in &job.points[..job.count as usize] {
            if model.offer(point) != 0 {
                return None;
            }
        }
        (model.record() == *job).then_some(model)
    }
}
