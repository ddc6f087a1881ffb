//! Runs over queues of few versions: one that renews itself all the time does all tasks, and one that is worn gives
//! those back that are left.
use super::queue::Versions;
use super::{Cause, More, Options, Report, RunError, Sizes, run_over};
use std::convert::Infallible;
use std::sync::Arc;

/// A task that is larger than 8 bytes, and is counted while it lives.
type Task = (u64, Arc<()>);

const TASKS: u64 = 20_000;

/// A run over a queue of this capacity and these versions, where each task gives two until there are `TASKS`.
fn run(
    workers: usize,
    capacity: u32,
    versions: Versions,
    alive: &Arc<()>,
) -> Result<Report<Task>, RunError<Task>> {
    let sizes = Sizes {
        capacity,
        // One that grows is never worn while it may open another one.
        generations: if versions.reserve == 0 { 1 } else { 20 },
        versions,
        ..Sizes::of(16, workers)
    };
    let body = |(number, alive): Task, more: &mut More<'_, Task>| {
        for below in [2 * number, 2 * number + 1] {
            if below < TASKS {
                let task = (below, Arc::clone(&alive));
                more.give(task).expect("there is memory");
            }
        }
        Ok::<(), Infallible>(())
    };
    run_over([(1, Arc::clone(alive))].into_iter(), &body, &sizes, workers)
}

#[test]
fn a_queue_that_renews_itself_does_all_tasks() {
    let versions = Versions {
        last: 128,
        reserve: 64,
    };
    for workers in [1, 2, 4] {
        let alive = Arc::new(());
        let report = run(workers, 16, versions, &alive).expect("it renews itself");
        assert_eq!(report.done.iter().sum::<u64>(), TASKS - 1);
        assert_eq!(Arc::strong_count(&alive), 1);
    }
}

#[test]
fn a_worn_queue_gives_back_what_is_left() {
    for last in [3, 20, 100] {
        let versions = Versions { last, reserve: 0 };
        for workers in [1, 2, 4] {
            let alive = Arc::new(());
            let ended = run(workers, 64, versions, &alive).expect_err("it is worn");
            assert!(matches!(ended.why, Cause::Worn));
            assert_eq!(ended.to_string(), "the versions of the queue are used up");
            let left: Vec<_> = ended.report.left.iter().map(|it| it.0).collect();
            assert_eq!(Arc::strong_count(&alive) - 1, left.len());
            // Each number that was given is done or left: those whose half was done.
            let done = ended.report.done.iter().sum::<u64>();
            assert!(!left.is_empty());
            assert_eq!(given_by(&left, done), left.len() as u64 + done);
            drop(ended);
            assert_eq!(Arc::strong_count(&alive), 1);
        }
    }
}

/// How many tasks were given in all: the first one, and two for each that was done.
fn given_by(left: &[u64], done: u64) -> u64 {
    assert!(left.iter().all(|it| *it < TASKS));
    1 + 2 * done
}

#[test]
fn sizes_are_in_range() {
    for k in 1..=64 {
        for workers in 1..=64 {
            let sizes = Sizes::of(k, workers);
            let handles = workers as u32;
            assert_eq!(sizes.generations, 129 - 2 * handles);
            // As large as it may be, with the least k from this one on for which there is a queue.
            let greatest =
                |k: u32| handles * ((1_022 * k).min(16_384) / handles).saturating_sub(32);
            assert_eq!(sizes.capacity, greatest(sizes.k));
            assert!(sizes.capacity > 0);
            assert!(sizes.k == k || (sizes.k > k && greatest(sizes.k - 1) == 0));
            assert!(sizes.k <= k.max(3));
        }
    }
    assert_eq!(Options::default().threads, None);
}
