//! The memory of a queue, and of a run of tasks: how much it takes, that one that grows gives it back, and what each
//! refused request for memory comes to. No value is lost, and none comes out twice.
use kfifo::work::{self, Cause};
use kfifo::{OpenError, Options, PopError, PushError, Queue};
use std::alloc::{GlobalAlloc, Layout};
use std::cell::Cell;
use std::ffi::c_void;
use std::iter::zip;
use std::ptr;
use std::sync::atomic::{AtomicBool, AtomicU64, Ordering};
use std::thread;

// The functions of glibc behind those that the library calls, whose place those below take.
unsafe extern "C" {
    fn __libc_malloc(size: usize) -> *mut c_void;
    fn __libc_memalign(alignment: usize, size: usize) -> *mut c_void;
    fn __libc_realloc(block: *mut c_void, size: usize) -> *mut c_void;
    fn __libc_free(block: *mut c_void);
    fn malloc_usable_size(block: *mut c_void) -> usize;
}

thread_local! {
    /// How many bytes this thread has of the library.
    static BYTES: Cell<i64> = const { Cell::new(0) };
    /// How many requests of this thread are granted before some are refused, and how many are refused then.
    static GRANTED: Cell<u64> = const { Cell::new(u64::MAX) };
    static REFUSED: Cell<u64> = const { Cell::new(0) };
}

const ALL: u64 = u64::MAX;

/// Whether this request is refused.
fn is_refused() -> bool {
    let granted = GRANTED.get();
    if granted > 0 {
        GRANTED.set(granted - 1);
        return false;
    }
    let refused = REFUSED.get();
    REFUSED.set(refused.saturating_sub(1));
    refused > 0
}

/// The bytes of a block: none of no block.
fn bytes_of(block: *mut c_void) -> i64 {
    // SAFETY: the block is one of glibc's, or null.
    unsafe { malloc_usable_size(block) as i64 }
}

#[unsafe(no_mangle)]
extern "C" fn malloc(size: usize) -> *mut c_void {
    if is_refused() {
        return ptr::null_mut();
    }
    // SAFETY: any size may be asked for.
    let block = unsafe { __libc_malloc(size) };
    BYTES.set(BYTES.get() + bytes_of(block));
    block
}

/// # Safety
///
/// As of C's.
#[unsafe(no_mangle)]
unsafe extern "C" fn realloc(block: *mut c_void, size: usize) -> *mut c_void {
    if is_refused() {
        return ptr::null_mut();
    }
    let before = bytes_of(block);
    // SAFETY: as the caller says.
    let block = unsafe { __libc_realloc(block, size) };
    BYTES.set(BYTES.get() + bytes_of(block) - before);
    block
}

/// # Safety
///
/// As of C's.
#[unsafe(no_mangle)]
unsafe extern "C" fn free(block: *mut c_void) {
    BYTES.set(BYTES.get() - bytes_of(block));
    // SAFETY: as the caller says.
    unsafe { __libc_free(block) };
}

/// The memory of Rust, which is neither counted nor refused.
struct Uncounted;

// SAFETY: glibc does it all.
unsafe impl GlobalAlloc for Uncounted {
    unsafe fn alloc(&self, layout: Layout) -> *mut u8 {
        // SAFETY: the alignment is a power of two.
        unsafe { __libc_memalign(layout.align().max(16), layout.size()).cast() }
    }

    unsafe fn dealloc(&self, block: *mut u8, _: Layout) {
        // SAFETY: as the caller says.
        unsafe { __libc_free(block.cast()) };
    }
}

#[global_allocator]
static ALLOCATOR: Uncounted = Uncounted;

/// Does this while requests are refused: `many` of them, after so many others.
fn refusing<R>(after: u64, many: u64, work: impl FnOnce() -> R) -> R {
    REFUSED.set(many);
    GRANTED.set(after);
    let result = work();
    GRANTED.set(u64::MAX);
    result
}

/// Does this, after which the library has given all memory back.
fn gives_back(work: impl FnOnce()) {
    let before = BYTES.get();
    work();
    assert_eq!(BYTES.get(), before);
}

/// 64 bytes, which say whether they are whole.
#[derive(Debug, PartialEq, Eq)]
struct Whole([u64; 8]);

impl Whole {
    fn new(number: u64) -> Whole {
        Whole([number; 8])
    }

    fn number(&self) -> u64 {
        assert_eq!(self.0, [self.0[0]; 8]);
        self.0[0]
    }
}

fn grows(grows: u32) -> Options {
    Options {
        grows,
        ..Options::default()
    }
}

/// Versions that are soon used up.
fn few_versions() -> Options {
    Options {
        last: 64,
        reserve: 32,
        grows: 1,
    }
}

#[test]
fn a_queue_takes_little_memory() {
    for (threads, most) in [(2, 150_000), (4, 150_000), (16, 350_000), (64, 600_000)] {
        gives_back(|| {
            let before = BYTES.get();
            let queue = Queue::new(16, 1024, threads).expect("there is memory");
            let handles: Vec<_> = (0..threads).map_while(|_| queue.handle()).collect();
            for round in 0..3 {
                let pushes = handles.iter().cycle().enumerate();
                let pushed = pushes
                    .take_while(|(number, it)| it.push(Whole::new(*number as u64)).is_ok())
                    .count();
                assert!(pushed >= 1024);
                for number in 0..pushed {
                    let taken = handles[(number + round) % threads].pop();
                    assert!(taken.is_ok_and(|it| it.number() < pushed as u64));
                }
            }
            let bytes = BYTES.get() - before;
            println!("{threads} threads: {bytes} bytes");
            assert!(bytes > 1024 * 64 && bytes < most, "{threads}: {bytes}");
        });
    }
}

/// From a few values to a hundred thousand and back, round after round: they come out in their order, but for k - 1.
#[test]
fn a_queue_that_grows_gives_its_memory_back() {
    const VALUES: u64 = 100_000;
    gives_back(|| {
        let before = BYTES.get();
        let queue = Queue::with_options(16, 1024, 2, grows(100)).expect("there is memory");
        assert_eq!(queue.capacity(), 1024);
        let opened = BYTES.get() - before;
        let (giver, taker) = (queue.handle(), queue.handle());
        let (giver, taker) = giver.zip(taker).expect("two handles are free");
        for _ in 0..3 {
            for number in 0..8 {
                assert_eq!(giver.push(Whole::new(number)), Ok(()));
                assert_eq!(taker.pop(), Ok(Whole::new(number)));
            }
            let pushed = giver.push_all((0..VALUES).map(Whole::new));
            assert_eq!(pushed.expect("it grows"), VALUES as usize);
            assert!(BYTES.get() - before > VALUES as i64 * 64);
            let mut sum = 0;
            for place in 0..VALUES {
                let number = taker.pop().expect("it is there").number();
                assert!(number + 16 > place && number < place + 16);
                sum += number;
            }
            assert_eq!(sum, VALUES * (VALUES - 1) / 2);
            // Both handles go on to the newest generation.
            assert_eq!(giver.push(Whole::new(1)), Ok(()));
            assert_eq!(giver.pop(), Ok(Whole::new(1)));
            assert_eq!(taker.pop(), Err(PopError::Empty));
            assert!(BYTES.get() - before < 2 * opened);
        }
        // It has as many generations as it may have.
        let stopped = giver.push_all((0..10 * VALUES).map(Whole::new));
        let stopped = stopped.expect_err("it is full");
        assert!(stopped.pushed >= 100 * 1024 && matches!(stopped.refused, PushError::Full(_)));
    });
}

#[test]
fn a_queue_without_memory_to_grow_says_so() {
    gives_back(|| {
        for after in 0..1000 {
            let queue = Queue::with_options(4, 32, 2, grows(3)).expect("there is memory");
            let handle = queue.handle().expect("a handle is free");
            let stopped = refusing(after, ALL, || handle.push_all((0..).map(Whole::new)));
            let stopped = stopped.expect_err("it cannot grow for ever");
            assert!(stopped.pushed >= 32);
            let refused = Whole::new(stopped.pushed as u64);
            let more = handle.push_all(stopped.rest).expect_err("it is full");
            let why = if more.pushed == 0 {
                PushError::Full(refused)
            } else {
                PushError::OutOfMemory(refused)
            };
            assert_eq!(stopped.refused, why);
            assert!(stopped.pushed + more.pushed >= 3 * 32);
            drop(handle);
            let values = queue.into_values().expect("there is memory");
            assert_eq!(values.len(), stopped.pushed + more.pushed);
            if more.pushed == 0 {
                assert!(after > 10);
                return;
            }
        }
        panic!("a queue that grows asks for memory");
    });
}

#[test]
fn an_opening_without_memory_is_refused() {
    gives_back(|| {
        for after in 0..10_000 {
            let before = BYTES.get();
            match refusing(after, 1, || Queue::<Whole>::new(4, 32, 3)) {
                Err(why) => assert_eq!(why, OpenError::OutOfMemory),
                Ok(_) => {
                    assert!(after > 10);
                    return;
                }
            }
            assert_eq!(BYTES.get(), before);
        }
        panic!("an opening asks for memory");
    });
}

/// A change of generations that is refused some memory is made later.
#[test]
fn a_change_without_memory_is_made_later() {
    gives_back(|| {
        for (many, after) in [1, 2, 5]
            .into_iter()
            .flat_map(|many| (0..60).map(move |it| (many, it)))
        {
            let queue = Queue::with_options(1, 8, 2, few_versions()).expect("there is memory");
            let (giver, taker) = (queue.handle(), queue.handle());
            let (giver, taker) = giver.zip(taker).expect("two handles are free");
            refusing(after, many, || {
                for number in 0..400 {
                    assert_eq!(giver.push(Whole::new(number)), Ok(()));
                    assert_eq!(taker.pop(), Ok(Whole::new(number)));
                }
            });
        }
    });
}

/// A queue whose changes get no memory until it is worn out, and the numbers of the values that are left in it.
fn worn() -> (Queue<Whole>, Vec<u64>) {
    let queue = Queue::with_options(1, 8, 1, few_versions()).expect("there is memory");
    let handle = queue.handle().expect("a handle is free");
    let mut inside = Vec::new();
    for number in 0..1000 {
        match refusing(0, ALL, || handle.push(Whole::new(number))) {
            Ok(()) => inside.push(number),
            Err(refused) => {
                assert_eq!(refused, PushError::Worn(Whole::new(number)));
                break;
            }
        }
        if number >= 8 {
            match refusing(0, ALL, || handle.pop()) {
                Ok(value) => assert_eq!(value.number(), inside.remove(0)),
                Err(end) => assert_eq!(end, PopError::Worn),
            }
        }
        assert!(number < 500);
    }
    assert!(!inside.is_empty());
    drop(handle);
    (queue, inside)
}

/// Where there is no memory for what is left in a queue that is worn out, the queue comes back, and a further call goes
/// on. Where the library gets a part of that memory, what is left is lost, but not what came out before.
#[test]
fn a_worn_queue_comes_back_where_there_is_no_memory() {
    gives_back(|| {
        let mut times = [0; 3];
        for after in 0..1000 {
            let (queue, inside) = worn();
            let queue = match refusing(after, ALL, || queue.into_values()) {
                Ok(values) => {
                    assert!(values.iter().map(Whole::number).eq(inside));
                    assert!(times.iter().all(|it| *it > 0) && times[2] == after);
                    return;
                }
                Err(queue) => queue,
            };
            times[2] += 1;
            let values = queue.into_values().expect("a further call goes on");
            assert!(zip(&values, &inside).all(|(value, number)| value.number() == *number));
            times[usize::from(values.len() == inside.len())] += 1;
        }
        panic!("a close asks for memory");
    });
}

/// The same where the queue is dropped: that needs memory too.
#[test]
fn a_worn_queue_without_memory_may_be_dropped() {
    gives_back(|| {
        for after in 0..20 {
            let (queue, _) = worn();
            refusing(after, ALL, || drop(queue));
        }
    });
}

/// How many tasks a run has here. With k = 1 its queue grows three times for them, or more often.
const TASKS: usize = 3_000;

fn strict(workers: usize) -> work::Options {
    work::Options {
        threads: Some(workers),
        k: 1,
    }
}

/// How often each task was done, or came back.
fn never() -> Vec<AtomicU64> {
    (0..TASKS).map(|_| AtomicU64::new(0)).collect()
}

fn are_all_once(times: Vec<AtomicU64>) -> bool {
    times.into_iter().all(|it| it.into_inner() == 1)
}

/// A run by one worker that is refused memory of the library, and may be stopped by a task: how many requests were
/// refused. It begins no task and says why, or it does each task or hands it back.
fn run_without_memory(stops: bool, after: u64, many: u64) -> u64 {
    let times = never();
    let count = |number: usize| times[number].fetch_add(1, Ordering::Relaxed);
    let body = |number: usize, more: &mut work::More<'_, usize>| {
        count(number);
        if stops && number == TASKS / 2 {
            more.stop();
        }
    };
    let ended = refusing(after, many, || work::run(0..TASKS, body, strict(1)));
    let refused = many - REFUSED.get();
    let left = match ended {
        Ok(report) => {
            assert_eq!(report.left.is_empty(), !stops);
            report.left
        }
        Err(ended) => {
            assert!(matches!(ended.why, Cause::OutOfMemory));
            assert!(ended.report.left.iter().copied().eq(0..TASKS));
            ended.report.left
        }
    };
    for number in left {
        count(number);
    }
    assert!(are_all_once(times));
    refused
}

#[test]
fn a_run_without_memory_loses_no_task() {
    for (many, stops) in [(1, false), (1, true), (ALL, false), (ALL, true)] {
        gives_back(|| {
            let requests = (0..1_000).find(|it| run_without_memory(stops, *it, many) == 0);
            assert!(requests.expect("a run asks for less") > 10);
        });
    }
}

/// A run of which a task, of any worker, gives all others, while the library is refused memory: how many requests were
/// refused. No other task ends before that, so the queue has to grow.
fn gives_without_memory(workers: usize, after: u64, many: u64) -> u64 {
    let (times, refused, is_given) = (never(), AtomicU64::new(0), AtomicBool::new(false));
    let report = work::run(
        [0],
        |number: usize, more| {
            times[number].fetch_add(1, Ordering::Relaxed);
            if number == 0 {
                refusing(after, many, || {
                    (1..TASKS).for_each(|it| more.give(it).expect("the list has memory"));
                });
                refused.store(many - REFUSED.get(), Ordering::Relaxed);
                is_given.store(true, Ordering::Release);
            }
            while !is_given.load(Ordering::Acquire) {
                thread::yield_now();
            }
        },
        strict(workers),
    );
    assert!(report.expect("the run goes on").left.is_empty());
    assert!(are_all_once(times));
    refused.into_inner()
}

/// What finds no room waits in the list of the run.
#[test]
fn tasks_are_done_though_the_queue_of_a_run_cannot_grow() {
    for (workers, many) in [(1, 1), (1, ALL), (3, 1), (3, ALL)] {
        let requests = (0..1_000).find(|it| gives_without_memory(workers, *it, many) == 0);
        assert!(requests.expect("gives ask for less") > 10);
    }
}
