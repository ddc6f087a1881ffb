//! The queue: how it is opened, and how it ends.
use crate::Handle;
use crate::error::OpenError;
use crate::shared::{NoMemory, Shared, User};
use std::fmt::{self, Debug, Formatter};
use std::sync::Arc;

/// What a queue is opened with besides: [`Queue::with_options`].
///
/// ```
/// use kfifo::{Options, Queue};
///
/// // Generations change all the time, for a test.
/// let options = Options { last: 64, reserve: 32, ..Options::default() };
/// let queue = Queue::with_options(1, 8, 1, options)?;
/// let handle = queue.handle().expect("a handle is free");
/// for number in 0..10_000 {
///     handle.push(number).expect("the queue does not wear out");
///     assert_eq!(handle.pop(), Ok(number));
/// }
/// # Ok::<(), kfifo::OpenError>(())
/// ```
#[derive(Clone, Copy, Debug, PartialEq, Eq)]
pub struct Options {
    /// The greatest version of a word, 2 to 2^40 - 1.
    pub last: u64,
    /// With fewer versions left, the queue goes on in its next generation. It is below `last`. With 0 a queue that does
    /// not grow wears out. One that grows goes on where a push finds no version left, but pops then come to
    /// [`Worn`](crate::PopError::Worn) if values are left in the old generation.
    pub reserve: u64,
    /// How many generations the queue may have at a time, 1 to 129 - 2 * threads. With more than 1 a push that finds no
    /// room opens the next one, so the queue has room for as many times its capacity.
    pub grows: u32,
}

impl Default for Options {
    /// 2^40 - 1 versions, a reserve of 2^32, and a queue that does not grow.
    fn default() -> Options {
        Options {
            last: (1 << 40) - 1,
            reserve: 1 << 32,
            grows: 1,
        }
    }
}

/// A queue of values.
///
/// Each thread makes its calls by a [`Handle`] of its own. The queue goes with the last of the `Queue` and its handles,
/// and the values that are left in it are dropped then.
///
/// It has a cell for each value that it is to hold, and 32 more for each thread, each with room for a `T`. So a queue
/// of large values takes less memory as a `Queue<Box<T>>`.
///
/// ```
/// use kfifo::{OpenError, PushError, Queue};
///
/// struct Order {
///     number: u64,
///     text: String,
/// }
///
/// fn main() -> Result<(), OpenError> {
///     let queue = Queue::new(1, 100, 2)?; // k, capacity, threads
///     let handle = queue.handle().expect("a handle is free");
///     for number in 1.. {
///         let text = format!("order {number}");
///         match handle.push(Order { number, text }) {
///             Ok(()) => {}
///             Err(PushError::Full(order)) => {
///                 assert!(order.number > 100); // it comes back
///                 break;
///             }
///             Err(refused) => unreachable!("{refused}"),
///         }
///     }
///     let order = handle.pop().expect("an order is there");
///     assert_eq!((order.number, order.text.as_str()), (1, "order 1"));
///     Ok(()) // the others are dropped with the queue
/// }
/// ```
#[must_use]
pub struct Queue<T> {
    shared: User<T>,
}

impl<T> Queue<T> {
    /// Opens a queue with room for `capacity` values or more, for `threads` threads, 1 to 64: a pop takes one of the k
    /// oldest, 1 to 64. There is that much room whatever the handles keep for themselves between their calls. With k of
    /// 8 to 64 threads seldom meet; with k of 1 values come out in their order.
    ///
    /// The greatest capacity is `threads * (1022 * k / threads - 32)`, divided downwards: for one thread, 990 with k of
    /// 1 and 65,376 with k of 64. With k of 1, at most 30 threads have one. A queue that grows has room for more. An
    /// error says which number is out of range, or that there is no memory.
    ///
    /// Cost: it asks for all memory of a generation here, about `(capacity + 32 * threads) * (size_of::<T>() + 30)`
    /// bytes, and `4000 * threads` more. The words of the queue are written.
    ///
    /// ```
    /// let queue = kfifo::Queue::<u64>::new(4, 1024, 8)?; // k, capacity, threads
    /// # Ok::<(), kfifo::OpenError>(())
    /// ```
    pub fn new(k: u32, capacity: usize, threads: usize) -> Result<Queue<T>, OpenError> {
        Queue::with_options(k, capacity, threads, Options::default())
    }

    /// As [`Queue::new`], with options of one's own. A queue that grows holds `capacity` values in each generation,
    /// memory permitting, and frees empty generations.
    ///
    /// Cost: as [`Queue::new`]. A push that opens a generation asks for as much again.
    ///
    /// ```
    /// use kfifo::{Options, Queue};
    ///
    /// let options = Options { grows: 100, ..Options::default() };
    /// let queue = Queue::with_options(1, 8, 1, options)?; // room for 800 values
    /// let handle = queue.handle().expect("a handle is free");
    /// assert_eq!(handle.push_all(0..800).expect("there is room"), 800);
    ///
    /// // A queue that wears out.
    /// let options = Options { last: 64, reserve: 0, ..Options::default() };
    /// let queue = Queue::with_options(1, 8, 1, options)?;
    /// let handle = queue.handle().expect("a handle is free");
    /// let end = loop {
    ///     if let Err(refused) = handle.push(7) {
    ///         break refused.to_string();
    ///     }
    ///     if let Err(end) = handle.pop() {
    ///         break end.to_string();
    ///     }
    /// };
    /// assert_eq!(end, "the versions of the queue are used up");
    /// # Ok::<(), kfifo::OpenError>(())
    /// ```
    pub fn with_options(
        k: u32,
        capacity: usize,
        threads: usize,
        options: Options,
    ) -> Result<Queue<T>, OpenError> {
        let shared = Shared::open(k, capacity, threads, options)?;
        Ok(Queue {
            shared: User::new(Arc::new(shared)),
        })
    }

    /// How many values the queue has room for at least, as it was opened: one that grows has room for that many in each
    /// generation.
    ///
    /// Cost: a read.
    ///
    /// ```
    /// let queue = kfifo::Queue::<u64>::new(4, 1024, 8)?;
    /// assert_eq!(queue.capacity(), 1024);
    /// # Ok::<(), kfifo::OpenError>(())
    /// ```
    #[must_use]
    pub fn capacity(&self) -> usize {
        self.shared.capacity()
    }

    /// A handle that nobody has; none where each was in use at one moment. A handle that is dropped can be had again.
    /// So a thread always finds one where there are as many threads as the queue was opened for and no thread has two.
    ///
    /// Cost: a few atomic steps, and as many when it is dropped.
    ///
    /// ```
    /// let queue = kfifo::Queue::<u64>::new(4, 64, 1)?;
    /// let handle = queue.handle();
    /// assert!(handle.is_some() && queue.handle().is_none());
    /// drop(handle);
    /// assert!(queue.handle().is_some());
    /// # Ok::<(), kfifo::OpenError>(())
    /// ```
    #[must_use]
    pub fn handle(&self) -> Option<Handle<T>> {
        let number = self.shared.borrow_handle()?;
        Some(Handle::new(self.shared.clone(), number))
    }

    /// Says that no more values will come, and wakes all that wait. Any thread may call it, and again.
    ///
    /// A push that begins after it returns `Finished` with its value; a pop does so once the queue is empty. A push
    /// that it meets halfway may still put its value in. So call it when the producers have ended, or have what is left
    /// by [`Queue::into_values`].
    ///
    /// Cost: an atomic step and two calls of the system.
    ///
    /// ```
    /// use kfifo::{PopError, PushError, Queue};
    ///
    /// let queue = Queue::new(4, 64, 1)?;
    /// let handle = queue.handle().expect("a handle is free");
    /// handle.push(1).expect("there is room");
    /// queue.finish();
    /// assert_eq!(handle.push(2), Err(PushError::Finished(2)));
    /// assert_eq!(handle.pop(), Ok(1));
    /// assert_eq!(handle.pop(), Err(PopError::Finished));
    /// # Ok::<(), kfifo::OpenError>(())
    /// ```
    pub fn finish(&self) {
        self.shared.finish();
    }

    /// Closes the queue and gives back the values that are left, in its order: those of the oldest generation first.
    /// The queue comes back where a handle is still in use.
    ///
    /// Where the versions of the queue are used up, the library asks for memory to find what is left. Where it gets
    /// none, the queue comes back too. Mostly a further call goes on, but where the library got a part of that memory,
    /// what is left is lost, and is not dropped. The further call then gives back what had come out before.
    ///
    /// Cost: a pop for each value, and memory for the vector.
    ///
    /// ```
    /// let queue = kfifo::Queue::new(1, 64, 1)?;
    /// let handle = queue.handle().expect("a handle is free");
    /// handle.push(1).expect("there is room");
    /// handle.push(2).expect("there is room");
    /// let queue = queue.into_values().expect_err("a handle is in use");
    /// drop(handle);
    /// assert_eq!(queue.into_values().expect("no handle is in use"), [1, 2]);
    /// # Ok::<(), kfifo::OpenError>(())
    /// ```
    pub fn into_values(mut self) -> Result<Vec<T>, Queue<T>> {
        match self.shared.alone().map(Shared::take_left) {
            Some(Ok(values)) => Ok(values),
            Some(Err(NoMemory)) | None => Err(self),
        }
    }
}

impl<T> Debug for Queue<T> {
    fn fmt(&self, f: &mut Formatter<'_>) -> fmt::Result {
        f.debug_struct("Queue").finish_non_exhaustive()
    }
}
