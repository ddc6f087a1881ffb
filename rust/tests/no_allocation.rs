//! No call of a handle asks for memory or frees any, whatever it comes to.
use kfifo::{PopError, PushError, Queue};
use std::alloc::{GlobalAlloc, Layout, System};
use std::cell::Cell;
use std::thread;
use std::time::Duration;

thread_local! {
    /// How often this thread asked for memory or freed some.
    static CALLS: Cell<u64> = const { Cell::new(0) };
}

struct Counting;

fn count() {
    CALLS.set(CALLS.get() + 1);
}

// SAFETY: `System` does it all.
unsafe impl GlobalAlloc for Counting {
    unsafe fn alloc(&self, layout: Layout) -> *mut u8 {
        count();
        // SAFETY: as the caller says.
        unsafe { System.alloc(layout) }
    }

    unsafe fn alloc_zeroed(&self, layout: Layout) -> *mut u8 {
        count();
        // SAFETY: as the caller says.
        unsafe { System.alloc_zeroed(layout) }
    }

    unsafe fn realloc(&self, block: *mut u8, layout: Layout, size: usize) -> *mut u8 {
        count();
        // SAFETY: as the caller says.
        unsafe { System.realloc(block, layout, size) }
    }

    unsafe fn dealloc(&self, block: *mut u8, layout: Layout) {
        count();
        // SAFETY: as the caller says.
        unsafe { System.dealloc(block, layout) }
    }
}

#[global_allocator]
static ALLOCATOR: Counting = Counting;

/// How many calls of the allocator this thread makes meanwhile, and what the work comes to.
fn calls_of<R>(work: impl FnOnce() -> R) -> (u64, R) {
    let before = CALLS.get();
    let result = work();
    (CALLS.get() - before, result)
}

/// A value of 48 bytes with memory of its own, which moves along and is neither made nor dropped here.
struct Text {
    text: String,
    numbers: [u64; 3],
}

fn text() -> Text {
    Text {
        text: String::from("a text"),
        numbers: [7; 3],
    }
}

#[test]
fn the_count_works() {
    assert_eq!(calls_of(|| drop(Box::new(7))).0, 2);
    assert!(calls_of(|| drop(Queue::<Text>::new(4, 256, 2))).0 > 2);
}

#[test]
fn no_call_allocates_or_frees() {
    let queue = Queue::new(1, 2, 2).expect("the sizes are in range");
    let handle = queue.handle().expect("a handle is free");
    let other = queue.handle().expect("a handle is free");
    let of_none = Queue::<Text>::new(1, 2, 1).expect("the sizes are in range");
    let empty = of_none.handle().expect("a handle is free");
    let time = Duration::from_micros(50);
    let values = [text(), text(), text()];
    // As many as there is room for, but two.
    while handle.push(text()).is_ok() {}
    for _ in 0..2 {
        drop(handle.pop().unwrap_or_else(|_| panic!("it is there")));
    }
    let (calls, values) = calls_of(|| {
        (0..1000).fold(values, |[first, second, third], _| {
            assert!(handle.push(first).is_ok());
            assert!(handle.push_wait(second).is_ok());
            let Err(PushError::Full(third)) = handle.push(third) else {
                panic!("it is refused")
            };
            let Err(PushError::Full(third)) = other.push(third) else {
                panic!("it is refused")
            };
            let Err(PushError::TimedOut(third)) = other.push_timeout(third, time) else {
                panic!("it is refused")
            };
            let first = handle.pop().unwrap_or_else(|_| panic!("it is there"));
            let second = handle.pop_wait().unwrap_or_else(|_| panic!("it is there"));
            assert!(matches!(empty.pop(), Err(PopError::Empty)));
            assert!(matches!(empty.pop_timeout(time), Err(PopError::TimedOut)));
            [first, second, third]
        })
    });
    assert_eq!(calls, 0);
    assert!(values.iter().all(|it| it.text == "a text"));
}

/// Values go round through two queues: one thread sends, the other sends back, and both sleep at times.
#[test]
fn no_call_of_two_threads_allocates_or_frees() {
    let there = Queue::<Text>::new(1, 1, 2).expect("the sizes are in range");
    let back = Queue::<Text>::new(1, 1, 2).expect("the sizes are in range");
    let ends = [&there, &back, &there, &back].map(|it| it.handle().expect("a handle is free"));
    let [there_in, back_out, there_out, back_in] = ends;
    let calls = thread::scope(|scope| {
        let echo = scope.spawn(move || {
            calls_of(|| {
                for mut value in there_out.values() {
                    value.numbers[0] += 1;
                    assert!(back_in.push_wait(value).is_ok());
                }
            })
        });
        let (calls, value) = calls_of(|| {
            let value = (0..20_000).fold(text(), |value, _| {
                assert!(there_in.push_wait(value).is_ok());
                back_out
                    .pop_wait()
                    .unwrap_or_else(|_| panic!("it comes back"))
            });
            there_in.finish();
            value
        });
        assert_eq!(value.numbers, [20_007, 7, 7]);
        [calls, echo.join().expect("no panic").0]
    });
    // This thread made the text.
    assert_eq!(calls, [1, 0]);
}
