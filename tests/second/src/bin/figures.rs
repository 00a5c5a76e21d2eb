//! Measures the kernel beside the same steps in Rust: same input, same run, same machine.

use second::kernel::{self, Job};
use second::pair::Table;
use second::random::Random;
use second::same_steps;
use std::hint::black_box;
use std::io::Write;
use std::path::Path;
use std::process::{Command, Stdio};
use std::time::{Duration, Instant};

const P: u32 = 2_147_483_647;

/// The shortest of several runs.
fn best(runs: u32, mut work: impl FnMut()) -> Duration {
    (0..runs)
        .map(|_| {
            let start = Instant::now();
            work();
            start.elapsed()
        })
        .min()
        .expect("at least one run")
}

fn ratio(name: &str, kernel: Duration, rust: Duration, times: u32) {
    let (k, r) = (
        kernel.as_secs_f64() / times as f64,
        rust.as_secs_f64() / times as f64,
    );
    println!(
        "{name}: kernel {:.2} us, Rust {:.2} us, ratio {:.2}",
        k * 1e6,
        r * 1e6,
        k / r
    );
}

/// Rows of one length; a prime for which the test of the modulus is short shows the work itself.
fn rows(p: u32, what: &str) {
    let mut random = Random::new(1);
    let mut row = || -> Vec<u32> {
        (0..17)
            .map(|_| 1 + random.below(p as u64 - 1) as u32)
            .collect()
    };
    let pairs: Vec<(Vec<u32>, Vec<u32>)> = (0..200).map(|_| (row(), row())).collect();
    for (a, b) in &pairs {
        let k = kernel::row_resultant(p, a, b);
        assert_eq!((k.number, k.value, k.steps), same_steps::row_call(p, a, b));
    }
    let kernel = best(40, || {
        for (a, b) in &pairs {
            black_box(kernel::row_resultant(p, black_box(a), black_box(b)));
        }
    });
    let rust = best(40, || {
        for (a, b) in &pairs {
            black_box(same_steps::row_call(p, black_box(a), black_box(b)));
        }
    });
    let times = pairs.len() as u32;
    ratio(
        &format!("row resultant 16 by 16 modulo {p}, {what}"),
        kernel,
        rust,
        times,
    );
    println!("  {:.0} a second", times as f64 / kernel.as_secs_f64());
}

/// Where the time of one row resultant goes, by the Rust program's parts.
fn parts() {
    let mut random = Random::new(3);
    let units: Vec<u32> = (0..16)
        .map(|_| 1 + random.below(P as u64 - 1) as u32)
        .collect();
    let inverses = best(200, || {
        for &u in &units {
            black_box(same_steps::inverse(P, black_box(u)));
        }
    });
    let steps = best(200, || {
        let mut c = 1;
        for k in 0..256u32 {
            c = same_steps::mul_sub(
                P,
                black_box(c),
                black_box(units[k as usize % 16]),
                black_box(k),
            );
        }
        black_box(c);
    });
    let prime = best(50, || {
        black_box(same_steps::is_prime(black_box(P)));
    });
    let us = |d: Duration| d.as_secs_f64() * 1e6;
    println!("  of it: test of the modulus {:.1} us, 16 inverses {:.1} us, 256 coefficient steps {:.1} us", us(prime), us(inverses), us(steps));
}

fn job() -> Duration {
    let mut random = Random::new(2);
    let mut table = || Table {
        m: 16,
        e: 16,
        entries: (0..289).map(|_| random.below(P as u64) as u32).collect(),
    };
    let (a, b) = (table(), table());
    let mut out = vec![0u32; 513];
    let mut other = vec![0u32; 513];
    assert_eq!(kernel::one_shot(P, &a, &b, &mut out).number, 0);
    assert_eq!(
        same_steps::one_shot(P, 16, 16, &a.entries, 16, 16, &b.entries, &mut other),
        513
    );
    assert_eq!(out, other);
    let shot = best(5, || {
        black_box(kernel::one_shot(P, black_box(&a), black_box(&b), &mut out));
    });
    let rust = best(5, || {
        black_box(same_steps::one_shot(
            P,
            16,
            16,
            black_box(&a.entries),
            16,
            16,
            black_box(&b.entries),
            &mut other,
        ));
    });
    ratio("one-shot at degrees 16, 16, 16, 16", shot, rust, 1);

    let opened = kernel::open(P, &a, &b);
    let points: Vec<u32> = (0..512).collect();
    let mut bytes = [0u8; 512];
    let kept = kernel::lot(opened.job, &points, &mut bytes);
    assert_eq!(kept.job.count, 512);
    let offer = best(5, || {
        black_box(kernel::offer(black_box(kept.job), 1000));
    });
    let row: Vec<u32> = a.row_at(P, 3);
    let other: Vec<u32> = b.row_at(P, 3);
    let one = best(200, || {
        let (mut u, mut w) = (row.clone(), other.clone());
        black_box(same_steps::row_resultant(P, &mut u, &mut w));
    });
    println!(
        "single offer with 512 kept: {:.0} us, {:.0} row resultants of the Rust program",
        offer.as_secs_f64() * 1e6,
        offer.as_secs_f64() / one.as_secs_f64()
    );
    println!("bytes of the job record: {}", std::mem::size_of::<Job>());
    shot
}

/// The stored deck of the largest shape through the program: 578 places, 513 points and two reads, the first of them early.
/// Its surplus point, the record before the last, is left out: it would interpolate once more.
fn deck(shot: Duration) {
    let root = Path::new(env!("CARGO_MANIFEST_DIR")).join("../..");
    let mut bytes = std::fs::read(root.join("tests/decks/largest.deck")).expect("the stored deck");
    let last = bytes.len() - 1;
    bytes.drain(last - 5..last);
    let program = root.join("target/bin/deck");
    let whole = best(5, || {
        let mut child = Command::new(&program)
            .stdin(Stdio::piped())
            .stdout(Stdio::piped())
            .spawn()
            .expect("deck runs");
        let mut input = child.stdin.take().expect("piped");
        let writer = std::thread::spawn({
            let bytes = bytes.clone();
            move || input.write_all(&bytes)
        });
        let output = child.wait_with_output().expect("deck ends");
        writer.join().expect("written").expect("taken");
        assert!(output.status.success() && output.stdout.ends_with(b"end\n"));
    });
    println!(
        "deck of 513 points at the largest shape: {:.0} us, {:.2} times the one-shot",
        whole.as_secs_f64() * 1e6,
        whole.as_secs_f64() / shot.as_secs_f64()
    );
}

fn main() {
    rows(P, "with the tests of the input");
    parts();
    rows(10_007, "where the test of the modulus is short");
    let shot = job();
    deck(shot);
}
