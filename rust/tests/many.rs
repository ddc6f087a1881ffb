//! Many values at once: what is put and what comes back, also where an iterator panics, and that one call wakes all
//! threads that wait for what it put or took. A wake-up that is lost would hang a test.
use kfifo::{Options, PopError, PushError, Queue};
use std::panic::{AssertUnwindSafe, catch_unwind};
use std::rc::Rc;
use std::sync::atomic::{AtomicUsize, Ordering};
use std::sync::mpsc;
use std::thread;
use std::time::{Duration, Instant};

const ROUNDS: usize = 100;

/// How many cells a queue has: each thread has its part of the capacity, rounded up, and 32 more.
fn cells_of(capacity: usize, threads: usize) -> usize {
    threads * (capacity.div_ceil(threads) + 32)
}

/// Other threads sleep mostly after this time.
fn fall_asleep() {
    thread::sleep(Duration::from_millis(1));
}

#[test]
fn what_is_refused_comes_back() {
    let queue = Queue::new(1, 4, 2).expect("the sizes are in range");
    let handle = queue.handle().expect("a handle is free");
    let cells = cells_of(4, 2);
    assert_eq!(handle.push_all([]).expect("no value is refused"), 0);
    let numbers: Vec<_> = (0..cells + 3).map(Box::new).collect();
    let stopped = handle.push_all(numbers).expect_err("it is full");
    assert_eq!(stopped.pushed, cells);
    assert!(matches!(&stopped.refused, PushError::Full(number) if **number == cells));
    assert_eq!(
        stopped.to_string(),
        format!("{cells} values were put, and then the queue was full")
    );
    let rest: Vec<_> = stopped.into_rest().collect();
    assert!(rest.iter().map(|number| **number).eq(cells..cells + 3));

    let mut values = vec![Box::new(1000)];
    assert_eq!(handle.pop_up_to(0, &mut values), Ok(0));
    assert_eq!(handle.pop_up_to(3, &mut values), Ok(3));
    assert_eq!(handle.pop_up_to(usize::MAX, &mut values), Ok(cells - 3));
    assert_eq!(
        handle.pop_up_to(usize::MAX, &mut values),
        Err(PopError::Empty)
    );
    assert!(
        values
            .iter()
            .map(|it| **it)
            .eq([1000].into_iter().chain(0..cells))
    );

    assert_eq!(handle.push_all(rest).expect("there is room"), 3);
    queue.finish();
    let late = handle
        .push_all([Box::new(8)])
        .expect_err("the queue is finished");
    assert!(late.pushed == 0 && matches!(late.refused, PushError::Finished(_)));
    assert_eq!(handle.pop_up_to(9, &mut values), Ok(3));
    assert_eq!(handle.pop_up_to(9, &mut values), Err(PopError::Finished));
    assert_eq!(values.len(), cells + 4);
}

#[test]
fn a_queue_that_wears_out_says_so() {
    let options = Options {
        last: 64,
        reserve: 0,
        grows: 1,
    };
    let queue = Queue::with_options(1, 4, 1, options).expect("the sizes are in range");
    let handle = queue.handle().expect("a handle is free");
    let mut values = Vec::new();
    let mut numbers = 0..1000;
    let stopped = loop {
        match handle.push_all(numbers.by_ref().take(3)) {
            Ok(_) => {}
            Err(stopped) => break stopped,
        }
        // The pop may be worn first, and then the push is.
        let _ = handle.pop_up_to(3, &mut values);
    };
    let PushError::Worn(number) = stopped.refused else {
        panic!("{}", stopped.refused);
    };
    values.extend(queue_rest(queue, handle));
    assert!(values.into_iter().eq(0..number));
}

/// What is left in a queue when its only handle goes.
fn queue_rest(queue: Queue<i32>, handle: kfifo::Handle<i32>) -> Vec<i32> {
    drop(handle);
    queue.into_values().expect("no handle is in use")
}

#[test]
fn each_value_is_dropped_once() {
    let alive = Rc::new(());
    {
        let queue = Queue::new(1, 4, 1).expect("the sizes are in range");
        let handle = queue.handle().expect("a handle is free");
        let cells = cells_of(4, 1);
        let stopped = handle.push_all((0..cells + 2).map(|_| Rc::clone(&alive)));
        assert_eq!(Rc::strong_count(&alive), 1 + cells + 1);
        drop(stopped);
        let mut values = Vec::new();
        assert_eq!(handle.pop_up_to(2, &mut values), Ok(2));
        drop(values);
        assert_eq!(Rc::strong_count(&alive), 1 + cells - 2);
    }
    assert_eq!(Rc::strong_count(&alive), 1);
}

#[test]
fn an_iterator_that_panics_loses_nothing() {
    let queue = Queue::new(1, 8, 2).expect("the sizes are in range");
    let handle = queue.handle().expect("a handle is free");
    let consumer = queue.handle().expect("a handle is free");
    thread::scope(|scope| {
        scope.spawn(move || assert_eq!(consumer.pop_wait(), Ok(0)));
        fall_asleep();
        let numbers = (0..5).inspect(|number| assert!(*number != 3, "the iterator fails"));
        let failed = catch_unwind(AssertUnwindSafe(|| handle.push_all(numbers)));
        assert!(failed.is_err());
    });
    let mut values = Vec::new();
    assert_eq!(handle.push_all([3]).expect("there is room"), 1);
    assert_eq!(handle.pop_up_to(9, &mut values), Ok(3));
    assert_eq!(values, [1, 2, 3]);
}

/// Each of some threads makes a call that waits, and one call of many wakes them all.
fn one_call_wakes_all(pushes: bool) {
    const THREADS: usize = 6;
    let queue = Queue::new(1, THREADS, THREADS + 1).expect("the sizes are in range");
    let first = queue.handle().expect("a handle is free");
    let mut values = Vec::new();
    for _ in 0..ROUNDS {
        let begun = AtomicUsize::new(0);
        let mut filled = 0;
        if pushes {
            filled = first.push_all(1..).expect_err("it is full").pushed;
        }
        let sum: usize = thread::scope(|scope| {
            let all: Vec<_> = (1..=THREADS)
                .map(|number| {
                    let handle = queue.handle().expect("a handle is free");
                    let begun = &begun;
                    scope.spawn(move || {
                        begun.fetch_add(1, Ordering::SeqCst);
                        if pushes {
                            handle.push_wait(number).map(|()| number).unwrap_or(0)
                        } else {
                            handle.pop_wait().unwrap_or(0)
                        }
                    })
                })
                .collect();
            while begun.load(Ordering::SeqCst) < THREADS {
                thread::yield_now();
            }
            fall_asleep();
            if pushes {
                assert_eq!(first.pop_up_to(filled, &mut values), Ok(filled));
            } else {
                assert_eq!(first.push_all(1..=THREADS).expect("there is room"), THREADS);
            }
            all.into_iter()
                .map(|it| it.join().expect("no thread panics"))
                .sum()
        });
        assert_eq!(sum, THREADS * (THREADS + 1) / 2);
        if pushes {
            assert_eq!(first.pop_up_to(THREADS, &mut values), Ok(THREADS));
        }
    }
}

#[test]
fn one_push_wakes_all_that_wait() {
    one_call_wakes_all(false);
}

#[test]
fn one_pop_wakes_all_that_wait() {
    one_call_wakes_all(true);
}

#[test]
fn calls_that_wait_say_what_ended_them() {
    let none = Duration::ZERO;
    let short = Duration::from_millis(2);
    let queue = Queue::new(1, 4, 2).expect("the sizes are in range");
    let handle = queue.handle().expect("a handle is free");
    let mut values = Vec::new();
    assert_eq!(handle.push_all_wait([]).expect("no value is refused"), 0);
    assert_eq!(handle.pop_up_to_wait(0, &mut values), Ok(0));
    for time in [none, short] {
        let end = handle.pop_up_to_timeout(9, &mut values, time);
        assert_eq!(end, Err(PopError::TimedOut));
    }
    let forever = Duration::MAX;
    let cells = cells_of(4, 2);
    assert_eq!(handle.push_all_timeout(0..3, forever).expect("room"), 3);
    for (time, from, pushed) in [(none, 3, cells - 3), (short, cells, 0)] {
        let stopped = handle.push_all_timeout(from..1000, time).expect_err("full");
        assert_eq!(
            (stopped.pushed, stopped.refused),
            (pushed, PushError::TimedOut(cells))
        );
        assert!(stopped.rest.eq(cells + 1..1000));
    }
    assert_eq!(handle.pop_up_to_wait(2, &mut values), Ok(2));
    let rest = handle.pop_up_to_timeout(1000, &mut values, forever);
    assert_eq!(rest, Ok(cells - 2));
    assert!(values.iter().copied().eq(0..cells));
    assert_eq!(handle.push_all_wait(4..6).expect("there is room"), 2);
    queue.finish();
    let stopped = handle.push_all_wait(6..9).expect_err("it is finished");
    assert_eq!(
        (stopped.pushed, stopped.refused),
        (0, PushError::Finished(6))
    );
    assert_eq!(handle.pop_up_to_wait(9, &mut values), Ok(2));
    assert_eq!(
        handle.pop_up_to_wait(9, &mut values),
        Err(PopError::Finished)
    );
}

#[test]
fn calls_that_wait_end_where_nobody_is_left() {
    let queue = Queue::new(1, 4, 1).expect("the sizes are in range");
    let handle = queue.handle().expect("a handle is free");
    drop(queue);
    let cells = cells_of(4, 1);
    let stopped = handle.push_all_wait(0..).expect_err("it is full");
    assert_eq!(
        (stopped.pushed, stopped.refused),
        (cells, PushError::Finished(cells))
    );
    let mut values = Vec::new();
    assert_eq!(handle.pop_up_to_wait(cells, &mut values), Ok(cells));
    assert_eq!(
        handle.pop_up_to_wait(cells, &mut values),
        Err(PopError::Finished)
    );
}

/// The time of a call is that of all its waits: each is shorter here, and all together would take much longer.
#[test]
fn the_time_is_of_all_waits() {
    let queue = Queue::new(1, 2, 2).expect("the sizes are in range");
    let handle = queue.handle().expect("a handle is free");
    let slow = queue.handle().expect("a handle is free");
    thread::scope(|scope| {
        scope.spawn(move || {
            while slow.pop_wait().is_ok() {
                thread::sleep(Duration::from_millis(5));
            }
        });
        let _end = handle.finish_on_drop();
        let began = Instant::now();
        let stopped = handle
            .push_all_timeout(0..10_000, Duration::from_millis(100))
            .expect_err("its time is up");
        assert!(matches!(stopped.refused, PushError::TimedOut(_)));
        let spent = began.elapsed();
        assert!(spent >= Duration::from_millis(99) && spent < Duration::from_millis(2500));
    });
}

/// One push of many goes through a queue that is shorter, to threads that sleep until each value comes.
#[test]
fn one_push_goes_through_a_short_queue() {
    const COUNT: usize = 60;
    for _ in 0..ROUNDS {
        let queue = Queue::new(1, 2, 4).expect("the sizes are in range");
        let handle = queue.handle().expect("a handle is free");
        let sum: usize = thread::scope(|scope| {
            let all = [1, 1, 7].map(|most| {
                let other = queue.handle().expect("a handle is free");
                scope.spawn(move || {
                    let mut values = Vec::new();
                    while other.pop_up_to_wait(most, &mut values).is_ok() {}
                    values.into_iter().sum::<usize>()
                })
            });
            fall_asleep();
            let pushed = handle.push_all_wait(1..=COUNT);
            assert_eq!(pushed.expect("room comes"), COUNT);
            handle.finish();
            all.into_iter()
                .map(|it| it.join().expect("no thread panics"))
                .sum()
        });
        assert_eq!(sum, COUNT * (COUNT + 1) / 2);
    }
}

/// Each question is asked when the one before was answered, which takes a thread that sleeps until it comes.
#[test]
fn an_iterator_may_wait_for_those_that_pop() {
    let queue = Queue::new(1, 8, 2).expect("the sizes are in range");
    let asks = queue.handle().expect("a handle is free");
    let serves = queue.handle().expect("a handle is free");
    let (answers, listens) = mpsc::channel();
    thread::scope(|scope| {
        scope.spawn(move || {
            for number in serves {
                answers.send(number + 1).expect("the other thread listens");
            }
        });
        let questions = (0..5).inspect(|number| {
            if *number > 0 {
                assert_eq!(listens.recv(), Ok(*number));
            }
            fall_asleep();
        });
        assert_eq!(asks.push_all(questions).expect("there is room"), 5);
        asks.finish();
    });
}

#[test]
fn the_values_of_one_queue_go_to_the_next() {
    let queue = Queue::new(1, 8, 2).expect("the sizes are in range");
    let next = Queue::new(1, 2, 1).expect("the sizes are in range");
    let handle = queue.handle().expect("a handle is free");
    let passer = next.handle().expect("a handle is free");
    let cells = cells_of(2, 1);
    assert_eq!(handle.push_all(0..cells + 2).expect("room"), cells + 2);
    queue.finish();
    let stopped = passer.push_all(&handle).expect_err("it is full");
    assert_eq!(
        (stopped.pushed, stopped.refused),
        (cells, PushError::Full(cells))
    );
    assert!(passer.try_values().eq(0..cells));
    assert!(stopped.rest.eq([cells + 1]));
}

/// Batches of all sizes, among threads that wait: each value comes out once.
#[test]
fn each_value_comes_out_once() {
    const EACH: usize = 20_000;
    let queue = Queue::new(2, 16, 4).expect("the sizes are in range");
    let still_pushing = AtomicUsize::new(2);
    let mut taken = thread::scope(|scope| {
        for producer in 0..2 {
            let handle = queue.handle().expect("a handle is free");
            let still_pushing = &still_pushing;
            scope.spawn(move || {
                let mut numbers = producer * EACH..(producer + 1) * EACH;
                if producer == 0 {
                    let all = handle.push_all_wait(numbers);
                    assert_eq!(all.expect("it is not finished"), EACH);
                } else {
                    while let Err(stopped) = handle.push_all(&mut numbers) {
                        let refused = stopped.refused.into_inner();
                        handle.push_wait(refused).expect("it is not finished");
                    }
                }
                if still_pushing.fetch_sub(1, Ordering::AcqRel) == 1 {
                    handle.finish();
                }
            });
        }
        let consumers = [(), ()].map(|()| {
            let handle = queue.handle().expect("a handle is free");
            scope.spawn(move || {
                let mut values = Vec::new();
                while handle
                    .pop_up_to_wait(1 + values.len() % 20, &mut values)
                    .is_ok()
                {
                    // It is empty, or there are some.
                    let _ = handle.pop_up_to(values.len() % 20, &mut values);
                }
                values
            })
        });
        consumers
            .into_iter()
            .flat_map(|it| it.join().expect("no consumer panics"))
            .collect::<Vec<_>>()
    });
    taken.sort_unstable();
    assert!(taken.into_iter().eq(0..2 * EACH));
}
