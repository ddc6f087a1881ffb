//! Producers and consumers: each value comes out once, and each is dropped once.
use kfifo::{Handle, OpenError, PopError, PushError, Queue};
use std::sync::atomic::{AtomicU64, AtomicUsize, Ordering};
use std::sync::{Arc, Barrier};
use std::thread;
use std::time::Duration;

/// A value that counts how many of its kind are alive.
struct Counted {
    number: usize,
    alive: Arc<AtomicUsize>,
}

impl Counted {
    fn new(number: usize, alive: &Arc<AtomicUsize>) -> Counted {
        alive.fetch_add(1, Ordering::Relaxed);
        Counted {
            number,
            alive: Arc::clone(alive),
        }
    }
}

impl Drop for Counted {
    fn drop(&mut self) {
        self.alive.fetch_sub(1, Ordering::Relaxed);
    }
}

fn push_all(handle: &Handle<Counted>, numbers: std::ops::Range<usize>, alive: &Arc<AtomicUsize>) {
    for number in numbers {
        let mut value = Counted::new(number, alive);
        while let Err(refused) = handle.push(value) {
            assert!(refused.may_retry(), "{refused}");
            value = refused.into_inner();
            thread::yield_now();
        }
    }
}

/// Takes until the producers have ended and the queue is empty.
fn pop_all(handle: &Handle<Counted>, still_pushing: &AtomicUsize) -> Vec<usize> {
    let mut numbers = Vec::new();
    loop {
        let last = still_pushing.load(Ordering::Acquire) == 0;
        match handle.pop() {
            Ok(value) => numbers.push(value.number),
            Err(PopError::Empty) if last => return numbers,
            Err(error) => {
                assert!(error.may_retry(), "{error}");
                thread::yield_now();
            }
        }
    }
}

fn run(pairs: usize, each: usize) {
    let queue = Queue::new(16, 1024, 2 * pairs).expect("the sizes are in range");
    let alive = Arc::new(AtomicUsize::new(0));
    let still_pushing = AtomicUsize::new(pairs);
    let mut taken = thread::scope(|scope| {
        for pair in 0..pairs {
            let handle = queue.handle().expect("a handle is free");
            let (alive, still_pushing) = (&alive, &still_pushing);
            scope.spawn(move || {
                push_all(&handle, pair * each..(pair + 1) * each, alive);
                still_pushing.fetch_sub(1, Ordering::Release);
            });
        }
        let consumers: Vec<_> = (0..pairs)
            .map(|_| {
                let handle = queue.handle().expect("a handle is free");
                let still_pushing = &still_pushing;
                scope.spawn(move || pop_all(&handle, still_pushing))
            })
            .collect();
        consumers
            .into_iter()
            .flat_map(|it| it.join().expect("no consumer panics"))
            .collect::<Vec<_>>()
    });
    taken.sort_unstable();
    assert!(taken.iter().copied().eq(0..pairs * each));
    assert_eq!(alive.load(Ordering::Relaxed), 0);
}

#[test]
fn each_value_comes_out_once() {
    for pairs in [1, 2, 4] {
        run(pairs, 30_000);
    }
}

#[test]
fn what_is_left_is_dropped_with_the_queue() {
    let alive = Arc::new(AtomicUsize::new(0));
    let queue = Queue::new(4, 64, 2).expect("the sizes are in range");
    let handle = queue.handle().expect("a handle is free");
    push_all(&handle, 0..10, &alive);
    drop(queue);
    assert_eq!(alive.load(Ordering::Relaxed), 10);
    assert!(handle.pop().is_ok());
    assert_eq!(alive.load(Ordering::Relaxed), 9);
    drop(handle);
    assert_eq!(alive.load(Ordering::Relaxed), 0);
}

#[test]
fn into_values_gives_back_what_is_left() {
    let alive = Arc::new(AtomicUsize::new(0));
    let queue = Queue::new(1, 64, 1).expect("the sizes are in range");
    let handle = queue.handle().expect("a handle is free");
    push_all(&handle, 0..10, &alive);
    let queue = queue.into_values().err().expect("a handle is in use");
    drop(handle);
    let values = queue.into_values().expect("no handle is in use");
    assert!(values.iter().map(|value| value.number).eq(0..10));
    drop(values);
    assert_eq!(alive.load(Ordering::Relaxed), 0);
}

/// How many cells a queue has: each thread has its part of the capacity, rounded up, and 32 more.
fn cells_of(capacity: usize, threads: usize) -> usize {
    threads * (capacity.div_ceil(threads) + 32)
}

#[test]
fn refusals_hand_the_value_back() {
    let queue = Queue::new(1, 2, 2).expect("the sizes are in range");
    assert_eq!(queue.capacity(), 2);
    let (first, second) = (
        queue.handle().expect("a handle is free"),
        queue.handle().expect("a handle is free"),
    );
    assert!(queue.handle().is_none());
    assert_eq!(first.pop(), Err(PopError::Empty));
    // Where no handle keeps a cell for itself, there is room for as many values as there are cells.
    for number in 0..cells_of(2, 2) {
        assert_eq!(first.push(number), Ok(()));
    }
    for _ in 0..3 {
        assert_eq!(first.push(100), Err(PushError::Full(100)));
        assert_eq!(second.push(101), Err(PushError::Full(101)));
        assert_eq!(second.push_once(102), Err(PushError::Full(102)));
    }
    assert_eq!(second.pop(), Ok(0));
    assert_eq!(second.push(103), Ok(()));
    assert!(first.try_values().eq((1..cells_of(2, 2)).chain([103])));
}

#[test]
fn a_pop_makes_room_at_once() {
    let queue = Queue::new(1, 1, 1).expect("the sizes are in range");
    let handle = queue.handle().expect("a handle is free");
    while handle.push(7).is_ok() {}
    for number in 0..100 {
        assert_eq!(handle.push(number), Err(PushError::Full(number)));
        assert!(handle.pop().is_ok());
        assert_eq!(handle.push(number), Ok(()));
    }
}

#[test]
fn sizes_out_of_range_are_refused() {
    let refused = |k, capacity, threads| Queue::<()>::new(k, capacity, threads).err();
    assert_eq!(refused(0, 2, 1), Some(OpenError::KOutOfRange));
    assert_eq!(refused(65, 2, 1), Some(OpenError::KOutOfRange));
    // Of 1,024 segments two are for no tokens, and of the tokens 32 are each thread's.
    for (k, threads, most) in [
        (1, 1, 990),
        (1, 30, 60),
        (1, 31, 0),
        (4, 64, 1_984),
        (64, 1, 65_376),
        (64, 7, 65_184),
        (64, 64, 63_360),
    ] {
        let expected = Some(OpenError::CapacityOutOfRange);
        assert_eq!(refused(k, 0, threads), expected);
        assert_eq!(refused(k, most, threads), expected.filter(|_| most == 0));
        assert_eq!(refused(k, most + 1, threads), expected);
        assert_eq!(refused(k, usize::MAX, threads), expected);
        assert_eq!(refused(k, (1 << 32) + 2, threads), expected);
    }
    for threads in [0, 65, usize::MAX] {
        let expected = Some(OpenError::ThreadsOutOfRange);
        assert_eq!(refused(1, 2, threads), expected);
    }
    let text = OpenError::CapacityOutOfRange.to_string();
    assert_eq!(
        text,
        "the capacity is 0 or too great: a queue that grows takes more"
    );
}

#[test]
fn values_without_size_are_counted() {
    let queue = Queue::new(2, 16, 1).expect("the sizes are in range");
    let handle = queue.handle().expect("a handle is free");
    for _ in 0..5 {
        assert_eq!(handle.push(()), Ok(()));
    }
    drop(handle);
    assert_eq!(queue.into_values().expect("no handle is in use").len(), 5);
}

/// As many handles as threads, which return theirs and take another: each finds one, and all come back.
#[test]
fn as_many_threads_as_handles_each_find_one() {
    for threads in [2, 8, 64] {
        let queue = Queue::<u64>::new(4, 2, threads).expect("the sizes are in range");
        let start = Barrier::new(threads);
        thread::scope(|scope| {
            for _ in 0..threads {
                scope.spawn(|| {
                    start.wait();
                    for _ in 0..400_000 / threads {
                        assert!(queue.handle().is_some());
                    }
                });
            }
        });
        let handles: Vec<_> = (0..threads).map_while(|_| queue.handle()).collect();
        assert_eq!(handles.len(), threads);
        assert!(queue.handle().is_none());
    }
}

/// As many handles as threads, which put and take, return theirs and take another, all the time: each finds one, and
/// each value comes out once.
#[test]
fn handles_that_go_round_lose_nothing() {
    const EACH: usize = 2_000;
    for threads in [2, 8, 64] {
        let queue = Queue::new(4, 64, threads).expect("the sizes are in range");
        let start = Barrier::new(threads);
        let mut taken = thread::scope(|scope| {
            let all: Vec<_> = (0..threads)
                .map(|thread| {
                    let (queue, start) = (&queue, &start);
                    scope.spawn(move || {
                        start.wait();
                        let mut taken = Vec::new();
                        for number in thread * EACH..(thread + 1) * EACH {
                            let putter = queue.handle().expect("a handle is free");
                            putter.push(number).expect("there is room");
                            drop(putter);
                            let taker = queue.handle().expect("a handle is free");
                            taken.extend(taker.pop());
                        }
                        taken
                    })
                })
                .collect();
            all.into_iter()
                .flat_map(|it| it.join().expect("no thread panics"))
                .collect::<Vec<_>>()
        });
        taken.extend(queue.into_values().expect("no handle is in use"));
        taken.sort_unstable();
        assert!(taken.into_iter().eq(0..threads * EACH));
    }
}

/// Handles that take keep the cells of the one that puts, two batches each at most. That one has room for as many
/// values as the queue was opened for all the same, and a push that waits does not wait for ever.
fn one_handle_fills(k: u32, capacity: usize, threads: usize) {
    let queue = Queue::new(k, capacity, threads).expect("the sizes are in range");
    let mut handles: Vec<_> = (0..threads).map_while(|_| queue.handle()).collect();
    let producer = handles.pop().expect("there are handles");
    for consumer in handles.iter().chain(&handles) {
        for number in 0..40 {
            assert_eq!(producer.push(number), Ok(()));
            assert_eq!(consumer.pop(), Ok(number));
        }
    }
    let mut pushed = 0;
    let refused = loop {
        match producer.push_timeout(pushed, Duration::from_millis(1)) {
            Ok(()) => pushed += 1,
            Err(refused) => break refused,
        }
    };
    assert_eq!(refused, PushError::TimedOut(pushed));
    // The others keep some.
    assert!(pushed >= capacity && pushed < cells_of(capacity, threads));
    assert_eq!(producer.push(pushed), Err(PushError::Full(pushed)));
    let mut values: Vec<_> = (0..pushed)
        .map(|number| handles[number % handles.len()].pop().expect("it is there"))
        .collect();
    assert!(k > 1 || values.is_sorted());
    values.sort_unstable();
    assert!(values.into_iter().eq(0..pushed));
}

#[test]
fn one_handle_fills_the_queue_whatever_the_others_keep() {
    for threads in [2, 8, 16] {
        one_handle_fills(1, 256, threads);
    }
    one_handle_fills(16, 64, 8);
    one_handle_fills(16, 256, 64);
    one_handle_fills(16, 1024, 64);
    one_handle_fills(64, 60_000, 2);
}

/// A producer puts jobs into a queue, round after round, and workers take them. It waits for room where it has to, and
/// never hangs.
fn jobs_in_rounds(workers: usize, capacity: usize, jobs: u64) {
    const ROUNDS: u64 = 200;
    let queue = Queue::new(4, capacity, workers + 1).expect("the sizes are in range");
    let (left, sum) = (AtomicU64::new(0), AtomicU64::new(0));
    thread::scope(|scope| {
        for _ in 0..workers {
            let handle = queue.handle().expect("a handle is free");
            let (left, sum) = (&left, &sum);
            scope.spawn(move || {
                for job in handle {
                    sum.fetch_add(job, Ordering::SeqCst);
                    left.fetch_sub(1, Ordering::SeqCst);
                }
            });
        }
        let producer = queue.handle().expect("a handle is free");
        let _end = producer.finish_on_drop();
        for _ in 0..ROUNDS {
            left.store(jobs, Ordering::SeqCst);
            for job in 1..=jobs {
                assert_eq!(producer.push_wait(job), Ok(()));
            }
            while left.load(Ordering::SeqCst) != 0 {
                thread::yield_now();
            }
        }
    });
    assert_eq!(sum.into_inner(), ROUNDS * jobs * (jobs + 1) / 2);
}

#[test]
fn jobs_in_rounds_are_each_done() {
    for workers in [7, 15, 63] {
        jobs_in_rounds(workers, 256, 100);
    }
    jobs_in_rounds(3, 8, 1000);
}
