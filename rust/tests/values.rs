//! Values of many types: each comes out as it went in, and each is dropped once, whatever is refused or panics.
use kfifo::{Handle, OpenError, PopError, PushError, Queue};
use std::cell::Cell;
use std::mem::{align_of, forget, size_of};
use std::panic::{AssertUnwindSafe, catch_unwind};
use std::ptr::from_ref;
use std::sync::Arc;
use std::sync::atomic::{AtomicUsize, Ordering};
use std::thread;
use std::time::Duration;

/// How many values were made, and how many dropped.
#[derive(Default)]
struct Counts {
    made: AtomicUsize,
    dropped: AtomicUsize,
}

impl Counts {
    fn made(&self) -> usize {
        self.made.load(Ordering::SeqCst)
    }

    fn dropped(&self) -> usize {
        self.dropped.load(Ordering::SeqCst)
    }
}

struct Counted {
    number: u64,
    /// A value that is dropped twice frees this twice, which the allocator notices.
    text: String,
    counts: Arc<Counts>,
    has_panic: bool,
}

impl Counted {
    fn new(number: u64, counts: &Arc<Counts>) -> Counted {
        counts.made.fetch_add(1, Ordering::SeqCst);
        Counted {
            number,
            text: number.to_string(),
            counts: Arc::clone(counts),
            has_panic: false,
        }
    }

    fn is_whole(&self) -> bool {
        self.text == self.number.to_string()
    }
}

impl Drop for Counted {
    fn drop(&mut self) {
        assert!(self.is_whole());
        self.counts.dropped.fetch_add(1, Ordering::SeqCst);
        if self.has_panic {
            panic!("a drop that panics");
        }
    }
}

fn handle_of<T>(queue: &Queue<T>) -> Handle<T> {
    queue.handle().expect("a handle is free")
}

/// The kind of a refusal, whose value is then dropped.
fn kind_of(refused: PushError<Counted>) -> String {
    let kind = format!("{refused:?}");
    assert!(refused.into_inner().is_whole());
    kind
}

#[test]
fn refused_values_come_back_and_are_dropped_once() {
    let counts = Arc::new(Counts::default());
    let queue = Queue::new(1, 2, 2).expect("the sizes are in range");
    let (first, second) = (handle_of(&queue), handle_of(&queue));
    let mut numbers = 0..;
    let mut next = || Counted::new(numbers.next().expect("there are more"), &counts);
    let refused = |it: Result<(), PushError<Counted>>| kind_of(it.expect_err("it is refused"));
    while first.push(next()).is_ok() {}
    let inside = counts.made() - counts.dropped();
    assert!(inside >= 2);
    for _ in 0..3 {
        assert_eq!(refused(first.push(next())), "Full(..)");
        assert_eq!(refused(second.push(next())), "Full(..)");
        let time = Duration::from_micros(100);
        assert_eq!(refused(first.push_timeout(next(), time)), "TimedOut(..)");
        assert_eq!(refused(second.push_timeout(next(), time)), "TimedOut(..)");
    }
    assert_eq!(second.pop().map(|it| it.number), Ok(0));
    assert!(second.push(next()).is_ok());
    queue.finish();
    assert_eq!(refused(second.push(next())), "Finished(..)");
    assert_eq!(refused(first.push_wait(next())), "Finished(..)");
    assert_eq!(counts.made() - counts.dropped(), inside);
    drop((queue, first, second));
    assert_eq!(counts.made(), counts.dropped());
}

/// After a refusal the handle puts another value, which is the one that comes out.
#[test]
fn a_value_after_a_refused_one_is_itself() {
    let queue = Queue::new(1, 2, 1).expect("the sizes are in range");
    let handle = handle_of(&queue);
    for round in 0..100 {
        let text = |name: &str| format!("{name} {round}");
        assert_eq!(handle.push(text("first")), Ok(()));
        assert_eq!(handle.push(text("second")), Ok(()));
        while handle.push(text("more")).is_ok() {}
        let refused = handle.push(text("third")).expect_err("it is refused");
        assert_eq!(refused, PushError::Full(text("third")));
        assert_eq!(handle.pop(), Ok(text("first")));
        assert_eq!(handle.push(text("fourth")), Ok(()));
        assert_eq!(handle.pop(), Ok(text("second")));
        let mut rest: Vec<_> = handle.try_values().collect();
        assert_eq!(rest.pop(), Some(text("fourth")));
        assert!(rest.into_iter().all(|it| it == text("more")));
        assert_eq!(handle.pop(), Err(PopError::Empty));
    }
}

#[test]
fn what_is_left_is_dropped_once_where_one_drop_panics() {
    let counts = Arc::new(Counts::default());
    let queue = Queue::new(4, 64, 2).expect("the sizes are in range");
    let handle = handle_of(&queue);
    for number in 0..20 {
        let mut value = Counted::new(number, &counts);
        value.has_panic = number == 7;
        assert!(handle.push(value).is_ok());
    }
    drop(handle);
    let end = catch_unwind(AssertUnwindSafe(|| drop(queue)));
    assert!(end.is_err());
    assert_eq!((counts.made(), counts.dropped()), (20, 20));
}

#[test]
fn a_queue_goes_on_after_a_drop_that_panics() {
    let counts = Arc::new(Counts::default());
    let queue = Queue::new(1, 2, 1).expect("the sizes are in range");
    let handle = handle_of(&queue);
    for number in 0..10 {
        let mut value = Counted::new(number, &counts);
        value.has_panic = true;
        assert!(handle.push(value).is_ok());
        let end = catch_unwind(AssertUnwindSafe(|| drop(handle.pop())));
        assert!(end.is_err());
        assert_eq!(counts.dropped(), counts.made());
    }
    let mut value = Counted::new(10, &counts);
    value.has_panic = true;
    queue.finish();
    let end = catch_unwind(AssertUnwindSafe(|| drop(handle.push(value))));
    assert!(end.is_err());
    assert!(matches!(handle.pop(), Err(PopError::Finished)));
    assert_eq!(counts.dropped(), counts.made());
}

/// A handle that is forgotten keeps the queue, and the values in it, for ever. Nothing is dropped early or twice.
#[test]
fn a_forgotten_handle_keeps_the_queue() {
    let counts = Arc::new(Counts::default());
    let queue = Queue::new(4, 64, 2).expect("the sizes are in range");
    let handle = handle_of(&queue);
    for number in 0..10 {
        assert!(handle.push(Counted::new(number, &counts)).is_ok());
    }
    forget(handle);
    let queue = queue.into_values().err().expect("a handle is in use");
    let handle = handle_of(&queue);
    drop(queue);
    assert!(handle.pop().is_ok_and(|it| it.is_whole()));
    drop(handle);
    assert_eq!((counts.made(), counts.dropped()), (10, 1));
}

#[test]
fn values_that_are_collected_are_dropped_once() {
    let counts = Arc::new(Counts::default());
    let queue = Queue::new(1, 64, 2).expect("the sizes are in range");
    let (first, second) = (handle_of(&queue), handle_of(&queue));
    for number in 0..20 {
        let handle = if number % 3 == 0 { &first } else { &second };
        assert!(handle.push(Counted::new(number, &counts)).is_ok());
    }
    assert_eq!(second.pop().map(|it| it.number), Ok(0));
    drop((first, second));
    let values = queue.into_values().expect("no handle is in use");
    assert!(values.iter().map(|it| it.number).eq(1..20));
    assert_eq!(counts.dropped(), 1);
    drop(values);
    assert_eq!((counts.made(), counts.dropped()), (20, 20));
}

/// A value that says whether it is what was made of its number.
trait Sample: Send + Sized {
    fn new(number: u64) -> Self;
    /// The number, where the rest of the value goes with it.
    fn number(&self) -> Option<u64>;
}

/// 48 bytes.
struct Order {
    number: u64,
    price: f64,
    text: String,
    twice: u64,
}

impl Sample for Order {
    fn new(number: u64) -> Order {
        Order {
            number,
            price: number as f64 / 4.0,
            text: format!("order {number}"),
            twice: 2 * number,
        }
    }

    fn number(&self) -> Option<u64> {
        let is_whole = self.price == self.number as f64 / 4.0
            && self.text == format!("order {}", self.number)
            && self.twice == 2 * self.number;
        is_whole.then_some(self.number)
    }
}

#[repr(align(256))]
struct Aligned {
    number: u64,
    text: Box<str>,
}

impl Sample for Aligned {
    fn new(number: u64) -> Aligned {
        Aligned {
            number,
            text: number.to_string().into(),
        }
    }

    fn number(&self) -> Option<u64> {
        let is_whole = *self.text == *self.number.to_string()
            && from_ref(self).addr() % align_of::<Aligned>() == 0;
        is_whole.then_some(self.number)
    }
}

impl Sample for [u64; 512] {
    fn new(number: u64) -> [u64; 512] {
        std::array::from_fn(|index| number + index as u64)
    }

    fn number(&self) -> Option<u64> {
        let is_whole = self.iter().copied().eq(self[0]..self[0] + 512);
        is_whole.then_some(self[0])
    }
}

impl Sample for u64 {
    fn new(number: u64) -> u64 {
        number
    }

    fn number(&self) -> Option<u64> {
        Some(*self)
    }
}

/// A value that may go to another thread, and that two may not look at together.
impl Sample for Cell<Option<Box<u64>>> {
    fn new(number: u64) -> Cell<Option<Box<u64>>> {
        Cell::new(Some(Box::new(number)))
    }

    fn number(&self) -> Option<u64> {
        self.take().map(|it| *it)
    }
}

/// Takes all values until the end: how many, their sum, and the sum of their squares.
fn sums_of<T: Sample>(handle: &Handle<T>) -> [u64; 3] {
    handle
        .values()
        .fold([0; 3], |[count, sum, squares], value| {
            let number = value.number().expect("the value is what was put");
            [count + 1, sum + number, squares + number * number]
        })
}

/// Four threads put values into a small queue, and four take them.
fn pass_through<T: Sample>(values: u64) {
    let queue = Queue::<T>::new(2, 1, 8).expect("the sizes are in range");
    let sums = thread::scope(|scope| {
        let producers: Vec<_> = (0..4)
            .map(|producer| {
                let handle = handle_of(&queue);
                scope.spawn(move || {
                    for number in (producer..values).step_by(4) {
                        assert!(handle.push_wait(T::new(number)).is_ok());
                    }
                })
            })
            .collect();
        let consumers: Vec<_> = (0..4)
            .map(|_| {
                let handle = handle_of(&queue);
                scope.spawn(move || sums_of(&handle))
            })
            .collect();
        producers
            .into_iter()
            .for_each(|it| it.join().expect("no producer panics"));
        queue.finish();
        consumers
            .into_iter()
            .map(|it| it.join().expect("no consumer panics"))
            .fold([0; 3], |all, sums| {
                std::array::from_fn(|i| all[i] + sums[i])
            })
    });
    let squares = (0..values).map(|number| number * number).sum();
    assert_eq!(sums, [values, values * (values - 1) / 2, squares]);
    assert!(queue.into_values().expect("no handle is in use").is_empty());
}

#[test]
fn values_of_many_types_come_out_as_they_went_in() {
    assert_eq!(size_of::<Order>(), 48);
    pass_through::<Order>(20_000);
    pass_through::<Aligned>(20_000);
    pass_through::<[u64; 512]>(5_000);
    pass_through::<u64>(50_000);
    pass_through::<Cell<Option<Box<u64>>>>(20_000);
}

static EMPTY_DROPS: AtomicUsize = AtomicUsize::new(0);

/// A value without size, over-aligned, that is dropped all the same.
#[repr(align(64))]
struct Empty;

impl Drop for Empty {
    fn drop(&mut self) {
        assert!(from_ref(self).addr() % 64 == 0);
        EMPTY_DROPS.fetch_add(1, Ordering::SeqCst);
    }
}

#[test]
fn values_without_size_are_dropped_once() {
    assert_eq!(size_of::<Empty>(), 0);
    let queue = Queue::new(1, 4, 2).expect("the sizes are in range");
    let handle = handle_of(&queue);
    let mut pushed = 0;
    while handle.push(Empty).is_ok() {
        pushed += 1;
    }
    assert!(pushed >= 4);
    assert_eq!(EMPTY_DROPS.load(Ordering::SeqCst), 1);
    assert!(matches!(handle.push(Empty), Err(PushError::Full(Empty))));
    assert_eq!(EMPTY_DROPS.load(Ordering::SeqCst), 2);
    assert!(handle.pop().is_ok());
    assert_eq!(EMPTY_DROPS.load(Ordering::SeqCst), 3);
    drop((queue, handle));
    assert_eq!(EMPTY_DROPS.load(Ordering::SeqCst), pushed + 2);
}

#[test]
fn calls_are_values_too() {
    type Call = Box<dyn FnOnce() -> usize + Send>;
    let queue = Queue::<Call>::new(1, 8, 1).expect("the sizes are in range");
    let handle = handle_of(&queue);
    for number in 0..8 {
        let text = "x".repeat(number);
        assert!(handle.push(Box::new(move || text.len())).is_ok());
    }
    queue.finish();
    assert!(handle.values().map(|call| call()).eq(0..8));
}

/// Cells for which there is no memory, and values that are larger or wider than a cell can be.
#[test]
fn values_too_large_are_refused() {
    #[repr(align(4096))]
    struct Wide(#[allow(dead_code)] u8);
    #[repr(align(8192))]
    struct Wider(#[allow(dead_code)] u8);
    #[repr(align(8192))]
    struct WideNothing;
    let refused = Queue::<[u8; u32::MAX as usize]>::new(64, 60_000, 62).err();
    assert_eq!(refused, Some(OpenError::OutOfMemory));
    let refused = Queue::<[u8; 1 << 32]>::new(4, 1, 1).err();
    assert_eq!(refused, Some(OpenError::LayoutOutOfRange));
    let refused = Queue::<[u8; 1 << 32]>::new(4, 0, 1).err();
    assert_eq!(refused, Some(OpenError::CapacityOutOfRange));
    assert_eq!(Queue::<Wide>::new(4, 1, 1).err(), None);
    let refused = Queue::<Wider>::new(4, 1, 1).err();
    assert_eq!(refused, Some(OpenError::LayoutOutOfRange));
    assert_eq!(Queue::<WideNothing>::new(4, 1, 1).err(), None);
}
