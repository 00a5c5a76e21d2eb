//! The scope's figures, asked of the kernel; the definition must give them too.

use crate::calls;
use crate::kernel::{self, PlainAnswer, RowAnswer};
use crate::model::Model;
use crate::pair::{Pair, Table};
use crate::report::{agree, Report};
use crate::rows::row_answer;

type Rows = (u32, &'static [u32], &'static [u32], u32, u32);

/// K2 to K7: modulus, both rows, resultant, steps.
const ROWS: [Rows; 6] = [
    (7, &[1, 0, 0, 1], &[5, 1], 5, 3),
    (7, &[5, 1], &[1, 0, 0, 1], 2, 3),
    (5, &[1, 0, 0, 0, 1], &[1, 0, 1], 4, 6),
    (7, &[6, 0, 1], &[6, 1], 0, 2),
    (7, &[3], &[4], 1, 0),
    (7, &[3], &[1, 0, 1], 2, 0),
];

/// K8 to K11: the pair, and its coefficients or the number of the refused opening.
fn pairs() -> [(Pair, Result<Vec<u32>, u32>); 4] {
    let k9 = |p| {
        Pair::new(
            p,
            Table::new(1, 1, &[1, 0, 0, 1]),
            Table::new(1, 0, &[1, 1]),
        )
    };
    let k8 = Pair::new(
        5,
        Table::new(2, 1, &[0, 1, 0, 0, 1, 0]),
        Table::new(1, 0, &[1, 1]),
    );
    let k11 = Pair::new(
        7,
        Table::new(1, 1, &[0, 1, 1, 0]),
        Table::new(1, 1, &[0, 6, 1, 0]),
    );
    [
        (k8, Ok(vec![1, 1])),
        (k9(3), Ok(vec![2, 1])),
        (k9(2), Err(8)),
        (k11, Ok(vec![0, 5, 0])),
    ]
}

fn rows(report: &mut Report) {
    for case in ROWS {
        let (p, a, b, value, steps) = case;
        let right = RowAnswer {
            number: 0,
            value,
            steps,
        };
        agree("a figure", &case, row_answer(p, a, b), right);
        report.same(
            "row resultant",
            &case,
            kernel::row_resultant(p, a, b),
            right,
        );
        report.same(
            "plain determinant",
            &case,
            kernel::plain_determinant(p, a, b),
            PlainAnswer { number: 0, value },
        );
    }
}

pub fn compare() -> Report {
    let mut report = Report::new("figures of the scope");
    rows(&mut report);
    for (pair, right) in pairs() {
        let places = right.as_ref().map_or(0, Vec::len);
        let definition = Model::open(&pair).map(|model| model.pair.determinant());
        agree("a figure", &pair, definition, right);
        let opened = calls::open(&mut report, "figure", &pair);
        calls::one_shot(&mut report, "figure", &pair, &opened, places);
        if let Ok(both) = opened {
            report.judged(&both.model);
        }
    }
    report
}
