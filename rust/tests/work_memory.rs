//! Gives whose memory is refused: the task comes back, nothing was given, and the run goes on.
use kfifo::work::{self, Cause, GiveError, More, Options};
use std::alloc::{GlobalAlloc, Layout, System};
use std::cell::Cell;
use std::ptr;
use std::sync::atomic::{AtomicU64, Ordering};

thread_local! {
    /// How many requests this thread still has before one is refused; none is where it is 0.
    static LEFT: Cell<u64> = const { Cell::new(0) };
    /// How many requests of this thread were refused.
    static REFUSED: Cell<u64> = const { Cell::new(0) };
}

struct Refusing;

/// Whether this request is refused.
fn is_refused() -> bool {
    let left = LEFT.get();
    LEFT.set(left.saturating_sub(1));
    REFUSED.set(REFUSED.get() + u64::from(left == 1));
    left == 1
}

// SAFETY: `System` does it all, or nothing is done.
unsafe impl GlobalAlloc for Refusing {
    unsafe fn alloc(&self, layout: Layout) -> *mut u8 {
        if is_refused() {
            return ptr::null_mut();
        }
        // SAFETY: as the caller says.
        unsafe { System.alloc(layout) }
    }

    unsafe fn realloc(&self, block: *mut u8, layout: Layout, size: usize) -> *mut u8 {
        if is_refused() {
            return ptr::null_mut();
        }
        // SAFETY: as the caller says.
        unsafe { System.realloc(block, layout, size) }
    }

    unsafe fn dealloc(&self, block: *mut u8, layout: Layout) {
        // SAFETY: as the caller says.
        unsafe { System.dealloc(block, layout) }
    }
}

#[global_allocator]
static ALLOCATOR: Refusing = Refusing;

/// Gives so many tasks, where the request for memory with this number is refused: how many came back.
fn give_all<T: PartialEq>(
    more: &mut More<'_, T>,
    number: u64,
    count: u64,
    make: impl Fn(u64) -> T,
) -> u64 {
    let (mut refused, mut left) = (0, number);
    for number in 0..count {
        let next = make(number);
        LEFT.set(left);
        let gave = more.give(next);
        left = LEFT.replace(0);
        if let Err(GiveError(back)) = gave {
            assert!(back == make(number));
            refused += 1;
        }
    }
    refused
}

/// How many gives of a run are refused, where the request for memory with this number is. The others are done.
fn refused_gives<T: Send + PartialEq>(
    number: u64,
    count: u64,
    workers: usize,
    make: impl Fn(u64) -> T + Sync,
) -> u64 {
    let refused = AtomicU64::new(0);
    let options = Options {
        threads: Some(workers),
        k: 1,
    };
    let report = work::run(
        [make(u64::MAX)],
        |task, more| {
            if task == make(u64::MAX) {
                refused.store(give_all(more, number, count, &make), Ordering::Relaxed);
            }
        },
        options,
    );
    let refused = refused.into_inner();
    let report = report.expect("the run goes on");
    assert_eq!(report.done.iter().sum::<u64>(), 1 + count - refused);
    assert!(report.left.is_empty());
    refused
}

/// Refuses each request of a run in turn, until there are no more.
fn each_request<T: Send + PartialEq>(
    count: u64,
    workers: usize,
    make: impl Fn(u64) -> T + Sync,
) -> u64 {
    let mut refused = 0;
    for number in 1.. {
        let before = REFUSED.get();
        let gives = refused_gives(number, count, workers, &make);
        // The calling thread may not be the one that gives.
        let requests = if workers == 1 {
            REFUSED.get() - before
        } else {
            gives
        };
        assert!(gives <= 1 && gives == requests);
        if gives == 0 {
            break;
        }
        refused += 1;
    }
    refused
}

/// Tasks in nodes need memory for these, and all tasks where the queue has no room.
#[test]
fn a_task_whose_memory_is_refused_comes_back() {
    assert!(each_request(1_000, 1, |it| [it; 4]) >= 8);
    assert!(each_request(1_000, 1, |it| it) == 0);
    assert!(each_request(150_000, 1, |it| it) >= 5);
    // Other workers take meanwhile, so it may be that there is room for all.
    assert!(each_request(5_000, 64, |it| it) < 100);
}

/// The run ends where memory for one of the first tasks is refused: all that are not done come back, that one too.
#[test]
fn first_tasks_whose_memory_is_refused_come_back() {
    for workers in [1, 4] {
        let tasks = (0..1_000_u64).map(|number| {
            LEFT.set(u64::from(number == 128));
            [number; 4]
        });
        let options = Options {
            threads: Some(workers),
            k: 1,
        };
        let pause = std::time::Duration::from_micros(10);
        let ended = match work::run(tasks, |_, _| std::thread::sleep(pause), options) {
            Err(ended) => ended,
            // Other workers had freed enough nodes.
            Ok(report) if workers > 1 => {
                assert_eq!(report.done.iter().sum::<u64>(), 1_000);
                continue;
            }
            Ok(_) => panic!("there is memory"),
        };
        assert!(matches!(ended.why, Cause::OutOfMemory));
        let report = ended.report;
        let done = report.done.iter().sum::<u64>();
        assert_eq!(done + report.left.len() as u64, 1_000);
        assert!(report.left.contains(&[128; 4]) && report.left.contains(&[999; 4]));
        assert!(workers > 1 || done == 0);
    }
}
