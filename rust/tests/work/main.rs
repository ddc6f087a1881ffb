//! Runs of tasks that give tasks: each is done once or comes back, whatever stops the run, and each is dropped once.
mod carried;
mod done;
mod dropped;
mod order;
mod stopped;

use kfifo::work::{Options, Report};

fn threads(number: usize) -> Options {
    Options {
        threads: Some(number),
        ..Options::default()
    }
}

fn total<T>(report: &Report<T>) -> u64 {
    report.done.iter().sum()
}

/// The numbers of workers and k that the shapes of work are tried with.
const CASES: [(usize, u32); 8] = [
    (1, 1),
    (1, 16),
    (2, 1),
    (2, 64),
    (3, 5),
    (4, 16),
    (8, 3),
    (64, 16),
];
