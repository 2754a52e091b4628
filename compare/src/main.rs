//! Compares the proved library with the plain implementation of `reference`, file by file: answers, bytes written and not written, every
//! number of the lent tables, and the tables after each visit.
//!
//! compare [FILES] [SEED]: so many files (200,000), half of them damaged. The last line says how many differed.
mod judge;
mod memory;
mod tables;

use compare::generate::{self, Rng};
use judge::{Counts, Judge};
use std::{env, process::ExitCode, thread};

/// Files with numbers from `first` on, each `step` apart.
fn compare_files(seed: u64, first: u64, step: u64, files: u64) -> Counts {
    let mut judge = Judge::default();
    let mut k = first;
    while k < files {
        let mut rng = Rng::new(seed.wrapping_add(k.wrapping_mul(0x9e37_79b9_7f4a_7c15)));
        let valid = generate::valid(&mut rng);
        let file = if k % 2 == 0 {
            valid
        } else {
            generate::damaged(&mut rng, &valid)
        };
        judge.file(k, &file, &mut rng);
        k += step;
    }
    judge.counts
}

fn argument(n: usize, other: u64) -> u64 {
    env::args()
        .nth(n)
        .and_then(|a| a.parse().ok())
        .unwrap_or(other)
}

fn main() -> ExitCode {
    let (files, seed) = (argument(1, 200_000), argument(2, 1));
    let threads = thread::available_parallelism().map_or(1, |n| n.get() as u64);
    let mut counts = Counts::default();
    thread::scope(|scope| {
        let running: Vec<_> = (0..threads)
            .map(|t| scope.spawn(move || compare_files(seed, t, threads, files)))
            .collect();
        for one in running {
            counts.add(&one.join().expect("no panic"));
        }
    });
    counts.print();
    if counts.different == 0 {
        ExitCode::SUCCESS
    } else {
        ExitCode::FAILURE
    }
}
