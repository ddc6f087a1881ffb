//! Each task is dropped once, also where a run stops or panics.
use crate::{threads, total};
use kfifo::work::{self, More};
use std::panic::{AssertUnwindSafe, catch_unwind, panic_any};
use std::sync::atomic::{AtomicUsize, Ordering};
use std::thread;
use std::time::Duration;

/// Counts itself while it lives.
struct Counted<'a> {
    alive: &'a AtomicUsize,
    text: String,
}

impl<'a> Counted<'a> {
    fn new(number: usize, alive: &'a AtomicUsize) -> Counted<'a> {
        alive.fetch_add(1, Ordering::SeqCst);
        Counted {
            alive,
            text: number.to_string(),
        }
    }

    fn number(&self) -> usize {
        self.text.parse().expect("it is whole")
    }
}

impl Drop for Counted<'_> {
    fn drop(&mut self) {
        assert!(self.number() < 1_000_000);
        self.text.clear();
        self.alive.fetch_sub(1, Ordering::SeqCst);
    }
}

/// Gives two tasks below a number, as long as that is small.
fn give_two<'a>(task: Counted<'a>, more: &mut More<'_, Counted<'a>>, most: usize) {
    for below in [2 * task.number(), 2 * task.number() + 1] {
        if below < most {
            let below = Counted::new(below, task.alive);
            more.give(below).unwrap_or_else(|_| panic!("no memory"));
        }
    }
}

#[test]
fn tasks_are_dropped_once() {
    for workers in [1, 2, 4, 16] {
        let alive = AtomicUsize::new(0);
        let first = Counted::new(1, &alive);
        let report = work::run(
            [first],
            |task, more| give_two(task, more, 50_000),
            threads(workers),
        );
        assert_eq!(total(&report.expect("in range")), 49_999);
        assert_eq!(alive.load(Ordering::SeqCst), 0);
    }
}

#[test]
fn tasks_that_are_left_are_dropped_with_the_report() {
    for workers in [1, 2, 4, 16] {
        let alive = AtomicUsize::new(0);
        let first = Counted::new(1, &alive);
        let report = work::run(
            [first],
            |task, more| {
                if task.number() == 1_000 {
                    more.stop();
                }
                give_two(task, more, 50_000);
            },
            threads(workers),
        );
        let report = report.expect("in range");
        assert_eq!(alive.load(Ordering::SeqCst), report.left.len());
        assert!(!report.left.is_empty());
        drop(report);
        assert_eq!(alive.load(Ordering::SeqCst), 0);
    }
}

#[test]
fn a_panic_ends_the_run_and_goes_on() {
    for workers in [1, 2, 4, 16] {
        let alive = AtomicUsize::new(0);
        let begun = AtomicUsize::new(0);
        let first = Counted::new(1, &alive);
        let ended = catch_unwind(AssertUnwindSafe(|| {
            work::run(
                [first],
                |task, more| {
                    begun.fetch_add(1, Ordering::SeqCst);
                    if task.number() >= 1_000 {
                        panic_any(task.number());
                    }
                    give_two(task, more, 50_000);
                },
                threads(workers),
            )
        }));
        let panic = ended.expect_err("a task panics");
        assert!(*panic.downcast::<usize>().expect("that of the task") >= 1_000);
        assert_eq!(alive.load(Ordering::SeqCst), 0);
        assert!(begun.into_inner() < 50_000);
    }
}

/// Panics when it is dropped, if it is left.
struct Brittle(bool);

impl Drop for Brittle {
    fn drop(&mut self) {
        if self.0 && !thread::panicking() {
            panic_any("a drop");
        }
    }
}

#[test]
fn the_first_panic_goes_on_where_drops_panic_too() {
    for workers in [1, 4] {
        let ended = catch_unwind(|| {
            let tasks = (0..10).map(|it| Brittle(it > 0));
            let body = |task: Brittle, _: &mut More<'_, Brittle>| {
                if task.0 {
                    thread::sleep(Duration::from_millis(1));
                    std::mem::forget(task);
                } else {
                    panic_any("a task");
                }
            };
            work::run(tasks, body, threads(workers)).map(|_| ())
        });
        let panic = ended.expect_err("a task panics");
        assert_eq!(*panic.downcast::<&str>().expect("a text"), "a task");
    }
}

#[test]
fn a_panic_of_the_first_tasks_ends_the_run() {
    for workers in [1, 4] {
        let alive = AtomicUsize::new(0);
        let tasks = (0..10_000).map(|it| match it {
            9_000 => panic_any("the tasks"),
            _ => Counted::new(it, &alive),
        });
        let ended = catch_unwind(AssertUnwindSafe(|| {
            work::run(tasks, |_, _| {}, threads(workers)).map(|_| ())
        }));
        let panic = ended.expect_err("the tasks panic");
        assert_eq!(*panic.downcast::<&str>().expect("a text"), "the tasks");
        assert_eq!(alive.load(Ordering::SeqCst), 0);
    }
}
