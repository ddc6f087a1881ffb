//! Tasks are begun about in the order in which they were given.
use crate::total;
use kfifo::work::{self, Options};
use std::sync::atomic::{AtomicUsize, Ordering};

/// Looks how many older tasks each one overtook. `begun` has the numbers of the tasks, which were given in their order.
fn most_overtaken(begun: &[usize]) -> usize {
    let mut waits = vec![true; begun.len()];
    let (mut oldest, mut most) = (0, 0);
    for number in begun {
        let older = waits[oldest.min(*number)..*number].iter();
        most = most.max(older.filter(|it| **it).count());
        waits[*number] = false;
        while oldest < waits.len() && !waits[oldest] {
            oldest += 1;
        }
    }
    most
}

/// Gives so many tasks by one worker, and returns their numbers as they were begun.
fn order_of(workers: usize, k: u32, count: usize) -> Vec<usize> {
    let begun: Vec<_> = (0..count).map(|_| AtomicUsize::new(usize::MAX)).collect();
    let clock = AtomicUsize::new(0);
    let options = Options {
        threads: Some(workers),
        k,
    };
    let report = work::run(
        0..count,
        |number, _| {
            let now = clock.fetch_add(1, Ordering::SeqCst);
            begun[now].store(number, Ordering::Relaxed);
        },
        options,
    );
    let done = total(&report.expect("the options are in range"));
    assert_eq!(done, count as u64);
    begun.into_iter().map(AtomicUsize::into_inner).collect()
}

/// With one worker a task overtakes k - 1 at most, also through growth, and through the list of what has no room.
#[test]
fn one_worker_keeps_the_order() {
    for (k, count) in [(1, 300_000), (4, 100_000), (16, 300_000), (64, 50_000)] {
        let most = most_overtaken(&order_of(1, k, count));
        assert!(most < k as usize, "one task overtook {most}");
    }
}

/// With several a task overtakes one more for each other worker, and as many where the queue grows. Here each other
/// worker may besides have taken one task that it has not begun to count.
#[test]
fn workers_keep_the_order() {
    for (workers, k, count) in [
        (2, 1, 200_000),
        (4, 4, 200_000),
        (4, 16, 50_000),
        (64, 1, 50_000),
    ] {
        let most = most_overtaken(&order_of(workers, k, count));
        let others = workers - 1;
        println!("{workers} workers, k = {k}: one task overtook {most}");
        assert!(
            most <= k as usize - 1 + 3 * others,
            "one task overtook {most}"
        );
    }
}
