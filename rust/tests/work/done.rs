//! Each task is done once, whatever the shape of the work.
use crate::{CASES, threads, total};
use kfifo::work::{self, More, Options};
use std::sync::atomic::{AtomicU64, AtomicUsize, Ordering};
use std::thread;
use std::time::Duration;

/// Runs the body with each case, and looks that so many tasks were done, and none is left.
fn each_case<F>(first: u64, wanted: u64, body: F)
where
    F: Fn(u64, &mut More<'_, u64>) + Sync,
{
    for (workers, k) in CASES {
        let options = Options {
            threads: Some(workers),
            k,
        };
        let report = work::run([first], &body, options).expect("the options are in range");
        assert_eq!(total(&report), wanted, "{workers} workers, k = {k}");
        assert_eq!(report.done.len(), workers);
        assert!(report.left.is_empty());
        assert!(report.backlog >= 1 && report.backlog <= wanted);
    }
}

#[test]
fn a_chain_is_done_to_its_end() {
    each_case(1, 20_000, |number, more| {
        if number < 20_000 {
            more.give(number + 1).expect("there is memory");
        }
    });
}

#[test]
fn a_tree_is_done_to_its_leaves() {
    each_case(1, (1 << 15) - 1, |number, more| {
        for below in [2 * number, 2 * number + 1] {
            if below < 1 << 15 {
                more.give(below).expect("there is memory");
            }
        }
    });
}

/// Each task of a burst is done once: also where more come at once than the queue has room for.
#[test]
fn each_task_of_a_burst_is_done_once() {
    const BURST: u64 = 150_000;
    for (workers, k) in [(1, 1), (1, 16), (4, 1), (4, 16), (64, 1), (64, 16)] {
        let times: Vec<_> = (0..BURST).map(|_| AtomicUsize::new(0)).collect();
        let options = Options {
            threads: Some(workers),
            k,
        };
        let report = work::run(
            [None],
            |task, more| match task {
                None => (0..BURST).for_each(|it| more.give(Some(it)).expect("there is memory")),
                Some(number) => {
                    times[number as usize].fetch_add(1, Ordering::Relaxed);
                }
            },
            options,
        );
        let report = report.expect("the options are in range");
        assert_eq!(total(&report), BURST + 1, "{workers} workers, k = {k}");
        assert!(times.iter().all(|it| it.load(Ordering::Relaxed) == 1));
        assert!(report.backlog > BURST / 4 || workers > 1);
    }
}

/// Bursts of bursts: the queue grows and shrinks, and its list is used and emptied, several times.
#[test]
fn bursts_of_bursts_are_done() {
    for workers in [1, 4, 64] {
        let options = Options {
            threads: Some(workers),
            k: 1,
        };
        let sum = AtomicU64::new(0);
        let report = work::run(
            [(0, 0)],
            |(depth, number): (u32, u64), more| {
                sum.fetch_add(number, Ordering::Relaxed);
                let many = [40, 40, 40, 0][depth as usize];
                for below in 0..many {
                    more.give((depth + 1, below)).expect("there is memory");
                }
            },
            options,
        );
        let tasks = 1 + 40 + 40 * 40 + 40 * 40 * 40;
        assert_eq!(total(&report.expect("the options are in range")), tasks);
        assert_eq!(sum.into_inner(), (tasks - 1) / 40 * 780);
    }
}

#[test]
fn thousands_of_runs_end() {
    for run in 0..3_000 {
        let workers = [1, 2, 4, 7][run % 4];
        let tasks = run / 4 % 4;
        let report = work::run(0..tasks, |_, _| {}, threads(workers));
        let report = report.expect("the options are in range");
        assert_eq!(total(&report), tasks as u64);
        assert_eq!(report.done.len(), workers);
    }
}

#[test]
fn thousands_of_small_trees_end() {
    for run in 0..1_000 {
        let many = run % 5;
        let report = work::run(
            [0],
            |depth, more| {
                for _ in 0..many {
                    if depth < 3 {
                        more.give(depth + 1).expect("there is memory");
                    }
                }
            },
            threads(3),
        );
        let wanted: u64 = (0..4).map(|depth| (many as u64).pow(depth)).sum();
        assert_eq!(total(&report.expect("the options are in range")), wanted);
    }
}

#[test]
fn a_run_within_a_task_is_a_run_of_its_own() {
    let report = work::run(
        0..20_u64,
        |number, more| {
            let inner = work::run(
                [number],
                |left, more| {
                    if left > 0 {
                        more.give(left - 1).expect("there is memory");
                    }
                },
                threads(2),
            );
            assert_eq!(total(&inner.expect("the options are in range")), number + 1);
            if number < 10 {
                more.give(number + 10).expect("there is memory");
            }
        },
        threads(3),
    );
    assert_eq!(total(&report.expect("the options are in range")), 30);
}

#[test]
fn bodies_borrow_what_the_caller_has() {
    let words = [String::from("a"), String::from("bc"), String::from("def")];
    let lengths = AtomicUsize::new(0);
    let report = work::run(
        &words,
        |word, _| {
            lengths.fetch_add(word.len(), Ordering::Relaxed);
        },
        threads(2),
    );
    assert_eq!(total(&report.expect("the options are in range")), 3);
    assert_eq!(lengths.into_inner(), 6);
}

/// While one task waits, the other workers sleep, and each give wakes one.
#[test]
fn idle_workers_sleep() {
    let began = AtomicUsize::new(0);
    let report = work::run(
        [true],
        |waits, more| {
            began.fetch_add(1, Ordering::SeqCst);
            if !waits {
                return;
            }
            for number in 1..=20 {
                thread::sleep(Duration::from_millis(5));
                more.give(false).expect("there is memory");
                while began.load(Ordering::SeqCst) <= number {
                    thread::yield_now();
                }
            }
        },
        threads(4),
    );
    let report = report.expect("the options are in range");
    assert_eq!(total(&report), 21);
    // On a busy machine a worker may not be asleep again before the next give.
    assert!((3..500).contains(&report.slept), "{}", report.slept);
}

#[test]
fn the_backlog_is_told() {
    let report = work::run(0..50, |_, _| {}, threads(1)).expect("in range");
    assert_eq!(report.backlog, 50);
    let report = work::run(0..10_000, |_, _| {}, threads(1)).expect("in range");
    assert!((9_937..=10_000).contains(&report.backlog));
}
