//! Threads that wait: each value comes out once whoever sleeps, all threads end after `finish`, and times are kept. A
//! wake-up that is lost would hang a test.
use kfifo::{Handle, PopError, PushError, Queue};
use std::sync::atomic::{AtomicUsize, Ordering};
use std::thread;
use std::time::{Duration, Instant};

const VALUES: usize = 50_000;

/// Puts values until the queue is full: how many there were.
fn fill<T: Clone>(handle: &Handle<T>, value: &T) -> usize {
    let mut pushed = 0;
    while handle.push(value.clone()).is_ok() {
        pushed += 1;
    }
    pushed
}

/// That many producers and consumers over a small queue, where both sides sleep often.
fn run(producers: usize, consumers: usize) {
    let queue = Queue::new(2, 1, producers + consumers).expect("the sizes are in range");
    let still_pushing = AtomicUsize::new(producers);
    let mut taken = thread::scope(|scope| {
        for producer in 0..producers {
            let handle = queue.handle().expect("a handle is free");
            let still_pushing = &still_pushing;
            scope.spawn(move || {
                for number in (producer..VALUES).step_by(producers) {
                    handle
                        .push_wait(Box::new(number))
                        .expect("the queue is not finished");
                }
                if still_pushing.fetch_sub(1, Ordering::AcqRel) == 1 {
                    handle.finish();
                }
            });
        }
        let consumers: Vec<_> = (0..consumers)
            .map(|_| {
                let handle = queue.handle().expect("a handle is free");
                scope.spawn(move || handle.values().collect::<Vec<_>>())
            })
            .collect();
        consumers
            .into_iter()
            .flat_map(|it| it.join().expect("no consumer panics"))
            .map(|number| *number)
            .collect::<Vec<_>>()
    });
    taken.sort_unstable();
    assert!(taken.iter().copied().eq(0..VALUES));
    assert!(queue.into_values().expect("no handle is in use").is_empty());
}

#[test]
fn each_value_comes_out_once() {
    for producers in [1, 2, 4] {
        for consumers in [1, 2, 8] {
            run(producers, consumers);
        }
    }
}

#[test]
fn times_are_kept() {
    let queue = Queue::new(1, 2, 2).expect("the sizes are in range");
    let handle = queue.handle().expect("a handle is free");
    for time in [0, 1, 1_000, 20_000_000].map(Duration::from_nanos) {
        let began = Instant::now();
        assert_eq!(handle.pop_timeout(time), Err(PopError::TimedOut));
        assert!(began.elapsed() >= time);
    }
    assert_eq!(handle.push("a"), Ok(()));
    assert_eq!(handle.push_timeout("b", Duration::ZERO), Ok(()));
    let more = fill(&handle, &"more");
    for time in [0, 1_000, 20_000_000].map(Duration::from_nanos) {
        let began = Instant::now();
        assert_eq!(
            handle.push_timeout("c", time),
            Err(PushError::TimedOut("c"))
        );
        assert!(began.elapsed() >= time);
    }
    assert_eq!(handle.pop_wait(), Ok("a"));
    assert_eq!(handle.pop_wait(), Ok("b"));
    assert_eq!(handle.try_values().count(), more);
    assert_eq!(handle.pop(), Err(PopError::Empty));
}

/// Calls that would wait for ever are ended by what comes, also from calls that do not wait.
#[test]
fn long_waits_end_early() {
    let queue = Queue::new(1, 2, 2).expect("the sizes are in range");
    let (mut first, second) = (
        queue.handle().expect("a handle is free"),
        queue.handle().expect("a handle is free"),
    );
    thread::scope(|scope| {
        let first = &mut first;
        scope.spawn(move || assert_eq!(first.pop_timeout(Duration::MAX), Ok(0)));
        thread::sleep(Duration::from_millis(5));
        assert_eq!(second.push(0), Ok(()));
    });
    let filled = fill(&second, &1);
    thread::scope(|scope| {
        let first = &mut first;
        scope.spawn(move || assert_eq!(first.push_timeout(3, Duration::MAX), Ok(())));
        thread::sleep(Duration::from_millis(5));
        // The handle keeps some of the cells that it frees, and lays the others into the pool.
        for _ in 1..filled {
            assert_eq!(second.pop(), Ok(1));
        }
    });
    thread::scope(|scope| {
        let first = &mut first;
        scope.spawn(move || assert_eq!(first.values().collect::<Vec<_>>(), [1, 3]));
        thread::sleep(Duration::from_millis(5));
        queue.finish();
    });
}

#[test]
fn a_queue_is_finished_in_the_middle() {
    for round in 0..50 {
        let queue = Queue::new(2, 8, 4).expect("the sizes are in range");
        let (pushed, popped) = thread::scope(|scope| {
            let producers = [0, 1].map(|_| {
                let handle = queue.handle().expect("a handle is free");
                scope.spawn(move || {
                    let mut pushed = 0;
                    while handle.push_wait(Box::new(7)).is_ok() {
                        pushed += 1;
                    }
                    assert_eq!(
                        handle.push(Box::new(8)),
                        Err(PushError::Finished(Box::new(8)))
                    );
                    pushed
                })
            });
            let consumers = [0, 1].map(|_| {
                let handle = queue.handle().expect("a handle is free");
                scope.spawn(move || handle.values().count())
            });
            thread::sleep(Duration::from_micros(20 * round));
            queue.finish();
            queue.finish();
            let sum = |all: [thread::ScopedJoinHandle<usize>; 2]| -> usize {
                all.into_iter().map(|it| it.join().expect("no panic")).sum()
            };
            (sum(producers), sum(consumers))
        });
        let left = queue.into_values().expect("no handle is in use").len();
        assert_eq!(pushed, popped + left);
    }
}

#[test]
fn a_handle_that_is_left_alone_waits_for_nobody() {
    let queue = Queue::new(1, 2, 2).expect("the sizes are in range");
    let last = queue.handle().expect("a handle is free");
    let other = queue.handle().expect("a handle is free");
    let waits = std::thread::spawn(move || {
        let end = last.pop_wait();
        (last, end)
    });
    std::thread::sleep(Duration::from_millis(5));
    drop(queue);
    std::thread::sleep(Duration::from_millis(5));
    assert!(!waits.is_finished());
    drop(other);
    let (last, end) = waits.join().expect("no panic");
    assert_eq!(end, Err(PopError::Finished));
    assert!(fill(&last, &1) >= 2);
    assert_eq!(last.push_wait(3), Err(PushError::Finished(3)));
    assert_eq!(last.push(3), Err(PushError::Full(3)));
}
