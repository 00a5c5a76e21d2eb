//! The calls on a job, each asked of the kernel and of the model and compared whole: answer, job and everything lent.

use crate::kernel::{self, Job, JobAnswer, ReadAnswer};
use crate::model::Model;
use crate::pair::Pair;
use crate::report::Report;

/// A job twice: as the scope describes it, and as the kernel keeps it.
#[derive(Clone)]
pub struct Both {
    pub model: Model,
    pub job: Job,
}

/// An opening: the job, or the number of the refusal.
pub fn open(report: &mut Report, name: &str, pair: &Pair) -> Result<Both, u32> {
    let opened = Model::open(pair);
    let right = match &opened {
        Ok(model) => model.answer(0),
        Err(number) => JobAnswer {
            number: *number,
            job: Job::BLANK,
        },
    };
    let answer = kernel::open(pair.p, &pair.a, &pair.b);
    report.number(right.number);
    report.same(&format!("{name}: open"), pair, answer, right);
    opened.map(|model| Both {
        model,
        job: answer.job,
    })
}

/// The one-shot of a pair that was opened, or refused, into an output of `lent` places.
pub fn one_shot(
    report: &mut Report,
    name: &str,
    pair: &Pair,
    opened: &Result<Both, u32>,
    lent: usize,
) {
    let (mut out, mut after) = (marked(lent), marked(lent));
    let answer = kernel::one_shot(pair.p, &pair.a, &pair.b, &mut out);
    let right = match opened {
        Ok(both) => both.model.handed_out(&mut after),
        Err(number) => ReadAnswer::refused(*number),
    };
    report.number(right.number);
    report.same(
        &format!("{name}: one-shot into {lent}"),
        pair,
        (answer, out),
        (right, after),
    );
}

impl Both {
    pub fn offer(&mut self, report: &mut Report, name: &str, a: u32) {
        let number = self.model.offer(a);
        let answer = kernel::offer(self.job, a);
        report.number(number);
        report.same(
            &format!("{name}: offer {a}"),
            &self.job,
            answer,
            self.model.answer(number),
        );
        self.job = answer.job;
    }

    /// A lot with `lent` answer bytes.
    pub fn lot(&mut self, report: &mut Report, name: &str, points: &[u32], lent: usize) {
        let (mut bytes, mut after) = (marked_bytes(lent), marked_bytes(lent));
        let answer = kernel::lot(self.job, points, &mut bytes);
        let number = if lent < points.len() { 9 } else { 0 };
        if number == 0 {
            for (byte, &a) in after.iter_mut().zip(points) {
                let number = self.model.offer(a);
                report.number(number);
                *byte = number as u8;
            }
        }
        report.number(number);
        report.same(
            &format!("{name}: lot with {lent} bytes"),
            &(self.job, points),
            (answer, bytes),
            (self.model.answer(number), after),
        );
        self.job = answer.job;
    }

    /// A read into an output of `lent` places.
    pub fn read(&self, report: &mut Report, name: &str, lent: usize) {
        let (mut out, mut after) = (marked(lent), marked(lent));
        let answer = kernel::read(self.job, &mut out);
        let right = self.model.read(&mut after);
        report.number(right.number);
        report.same(
            &format!("{name}: read into {lent}"),
            &self.job,
            (answer, out),
            (right, after),
        );
    }
}

/// Every call on a record that is not sound: it answers 16 and changes nothing.
pub fn unsound(report: &mut Report, name: &str, bad: Job) {
    let refused = JobAnswer {
        number: 16,
        job: bad,
    };
    report.number(16);
    report.same(
        &format!("{name}: offer"),
        &bad,
        kernel::offer(bad, 1),
        refused,
    );
    for points in [&[1, 2][..], &[]] {
        let mut bytes = marked_bytes(3);
        let answer = kernel::lot(bad, points, &mut bytes);
        report.same(
            &format!("{name}: lot of {} points", points.len()),
            &bad,
            (answer, bytes),
            (refused, marked_bytes(3)),
        );
    }
    let mut out = marked(600);
    let answer = kernel::read(bad, &mut out);
    report.same(
        &format!("{name}: read"),
        &bad,
        (answer, out),
        (ReadAnswer::refused(16), marked(600)),
    );
}

/// An output whose places all differ, so that a place that was touched is seen.
fn marked(lent: usize) -> Vec<u32> {
    (0..lent as u32).map(|k| 0xffff_0000 + k).collect()
}

fn marked_bytes(lent: usize) -> Vec<u8> {
    (0..lent).map(|k| 100 + k as u8 % 100).collect()
}
