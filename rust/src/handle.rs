//! The handle: the calls for one value at a time.
use crate::error::{PopError, PushError};
use crate::ffi;
use crate::shared::{Looks, User};
use std::cell::Cell;
use std::fmt::{self, Debug, Formatter};
use std::marker::PhantomData;
use std::time::Duration;

/// What a thread makes its calls with.
///
/// It is `Send`: it may go to another thread. It is not `Sync`: one thread at a time uses it.
///
/// ```
/// use kfifo::Queue;
/// use std::thread;
///
/// let queue = Queue::new(4, 64, 2)?;
/// let handle = queue.handle().expect("a handle is free");
/// thread::spawn(move || handle.push(7)).join().expect("no panic").expect("there is room");
/// assert_eq!(queue.handle().expect("a handle is free").pop(), Ok(7));
/// # Ok::<(), kfifo::OpenError>(())
/// ```
///
/// ```compile_fail,E0277
/// fn is_sync<T: Sync>() {}
/// is_sync::<kfifo::Handle<u64>>();
/// ```
///
/// It is `Send` where the values are:
///
/// ```compile_fail,E0277
/// fn is_send<T: Send>() {}
/// is_send::<kfifo::Handle<std::rc::Rc<u64>>>();
/// ```
///
/// A handle of long-lived references takes no others, since another handle hands them out as long-lived ones:
///
/// ```compile_fail,E0597
/// let queue = kfifo::Queue::<&'static str>::new(4, 64, 1)?;
/// let handle = queue.handle().expect("a handle is free");
/// let text = String::from("a text");
/// let _ = handle.push(&text);
/// # Ok::<(), kfifo::OpenError>(())
/// ```
///
/// ```compile_fail
/// fn shorter<'a>(handle: kfifo::Handle<&'static str>) -> kfifo::Handle<&'a str> {
///     handle
/// }
/// ```
pub struct Handle<T> {
    pub(crate) shared: User<T>,
    pub(crate) number: usize,
    not_sync: PhantomData<Cell<()>>,
}

impl<T> Handle<T> {
    /// The handle with this number, which it has alone from now on.
    pub(crate) fn new(shared: User<T>, number: usize) -> Handle<T> {
        Handle {
            shared,
            number,
            not_sync: PhantomData,
        }
    }

    /// Puts a value into the queue. It is refused as `Full`, `OutOfMemory` by a queue that was to grow, `Finished` or
    /// `Worn`, which hand it back. It never waits or locks, and allocates only where it opens a generation.
    ///
    /// What this thread wrote before is seen by the thread that takes the value.
    ///
    /// Where there was no memory for the next generation until the reserve was used up, pops may no longer reach a
    /// value that a push has put: they return [`PopError::Worn`], and
    /// [`Queue::into_values`](crate::Queue::into_values) gives it back.
    ///
    /// Cost: a few atomic steps and a copy of the value. It calls the system only to wake a thread.
    ///
    /// ```
    /// let queue = kfifo::Queue::new(4, 64, 1)?;
    /// let handle = queue.handle().expect("a handle is free");
    /// let mut value = vec![1, 2, 3];
    /// while let Err(refused) = handle.push(value) {
    ///     assert!(refused.may_retry(), "the queue takes no more: {refused}");
    ///     value = refused.into_inner();
    ///     std::thread::yield_now();
    /// }
    /// # Ok::<(), kfifo::OpenError>(())
    /// ```
    pub fn push(&self, value: T) -> Result<(), PushError<T>> {
        // SAFETY: this handle alone has its number, and as it is not `Sync`, no other thread is in a call by it. Nor is
        // this one: no call runs code of the caller's while it uses the library's handle.
        unsafe { self.shared.push(self.number, value, Looks::UnlessBusy) }
    }

    /// As [`Handle::push`], but bounded: it makes at most 65,535 rounds in a generation, after which it is refused as
    /// [`PushError::Busy`]. That comes only where another thread changed the queue in the meantime.
    ///
    /// Cost: as [`Handle::push`].
    ///
    /// ```
    /// let queue = kfifo::Queue::new(4, 64, 1)?;
    /// let handle = queue.handle().expect("a handle is free");
    /// assert_eq!(handle.push_once(7), Ok(())); // no other thread, so it is not busy
    /// # Ok::<(), kfifo::OpenError>(())
    /// ```
    pub fn push_once(&self, value: T) -> Result<(), PushError<T>> {
        // SAFETY: as in `push`.
        unsafe { self.shared.push(self.number, value, Looks::Once) }
    }

    /// Puts a value, and sleeps while there is no room for it. It is refused as `OutOfMemory`, `Finished` or `Worn`. It
    /// is refused as `Finished` too where neither the queue object nor another handle is left: nobody makes room then.
    ///
    /// Cost: as [`Handle::push`] where it need not sleep, and a copy of the value more for each further look.
    ///
    /// ```
    /// let queue = kfifo::Queue::new(1, 8, 2)?;
    /// let producer = queue.handle().expect("a handle is free");
    /// let consumer = queue.handle().expect("a handle is free");
    /// std::thread::scope(|scope| {
    ///     scope.spawn(move || {
    ///         let _end = producer.finish_on_drop(); // in any case, or the consumer sleeps for ever
    ///         for number in 0..1000 {
    ///             if let Err(refused) = producer.push_wait(number) {
    ///                 eprintln!("{number} was not put: {refused}");
    ///                 break;
    ///             }
    ///         }
    ///     });
    ///     let _end = consumer.finish_on_drop(); // the producer ends too, whatever ends the values
    ///     assert!(consumer.values().eq(0..1000));
    /// });
    /// # Ok::<(), kfifo::OpenError>(())
    /// ```
    pub fn push_wait(&self, value: T) -> Result<(), PushError<T>> {
        // SAFETY: as in `push`.
        unsafe {
            self.shared
                .push(self.number, value, Looks::Within(ffi::FOREVER))
        }
    }

    /// As [`Handle::push_wait`], for that time at most: then refused as `TimedOut`. With no time it does not sleep.
    ///
    /// Cost: as [`Handle::push_wait`].
    ///
    /// ```
    /// use kfifo::PushError;
    /// use std::time::Duration;
    ///
    /// let queue = kfifo::Queue::new(1, 8, 1)?;
    /// let handle = queue.handle().expect("a handle is free");
    /// while handle.push('a').is_ok() {}
    /// assert_eq!(handle.push_timeout('b', Duration::from_millis(1)), Err(PushError::TimedOut('b')));
    /// # Ok::<(), kfifo::OpenError>(())
    /// ```
    pub fn push_timeout(&self, value: T, time: Duration) -> Result<(), PushError<T>> {
        // SAFETY: as in `push`.
        unsafe {
            self.shared
                .push(self.number, value, Looks::Within(nanoseconds_of(time)))
        }
    }

    /// Takes one of the k oldest values: an error is `Empty`, `Finished` or `Worn`. It never waits or locks, and
    /// allocates only where nine old generations are there that growth has not opened.
    ///
    /// Cost: as [`Handle::push`]. One that returns `Empty` has looked at all k slots of a segment.
    ///
    /// ```
    /// let queue = kfifo::Queue::new(4, 64, 1)?;
    /// let handle = queue.handle().expect("a handle is free");
    /// handle.push('a').expect("there is room");
    /// assert_eq!(handle.pop(), Ok('a'));
    /// # Ok::<(), kfifo::OpenError>(())
    /// ```
    pub fn pop(&self) -> Result<T, PopError> {
        // SAFETY: as in `push`.
        unsafe { self.shared.pop(self.number, Looks::UnlessBusy) }
    }

    /// About how many values are in the queue. Calls that run meanwhile are counted or not.
    ///
    /// Cost: 2k + 1 loads at most, for each generation, of which there is mostly one.
    ///
    /// ```
    /// let queue = kfifo::Queue::new(4, 64, 1)?;
    /// let handle = queue.handle().expect("a handle is free");
    /// handle.push('a').expect("there is room");
    /// assert_eq!(handle.len(), 1);
    /// # Ok::<(), kfifo::OpenError>(())
    /// ```
    #[must_use]
    pub fn len(&self) -> usize {
        // SAFETY: as in `push`.
        unsafe { self.shared.len(self.number) }
    }

    /// Whether [`Handle::len`] is 0.
    ///
    /// Cost: as [`Handle::len`].
    ///
    /// ```
    /// let queue = kfifo::Queue::<u64>::new(4, 64, 1)?;
    /// assert!(queue.handle().expect("a handle is free").is_empty());
    /// # Ok::<(), kfifo::OpenError>(())
    /// ```
    #[must_use]
    pub fn is_empty(&self) -> bool {
        self.len() == 0
    }

    /// As [`Handle::pop`], but bounded, as [`Handle::push_once`] is: also [`PopError::Busy`].
    ///
    /// Cost: as [`Handle::pop`].
    ///
    /// ```
    /// let queue = kfifo::Queue::<u64>::new(4, 64, 1)?;
    /// let handle = queue.handle().expect("a handle is free");
    /// assert_eq!(handle.pop_once(), Err(kfifo::PopError::Empty));
    /// # Ok::<(), kfifo::OpenError>(())
    /// ```
    pub fn pop_once(&self) -> Result<T, PopError> {
        // SAFETY: as in `push`.
        unsafe { self.shared.pop(self.number, Looks::Once) }
    }

    /// Takes a value, and sleeps while there is none: an error is `Finished` or `Worn` alone. It is `Finished` too
    /// where neither the queue object nor another handle is left, since nothing comes then.
    ///
    /// Cost: as [`Handle::pop`] where it need not sleep.
    ///
    /// ```
    /// let queue = kfifo::Queue::new(4, 64, 2)?;
    /// let producer = queue.handle().expect("a handle is free");
    /// let consumer = queue.handle().expect("a handle is free");
    /// std::thread::scope(|scope| {
    ///     scope.spawn(move || assert_eq!(consumer.pop_wait(), Ok(7)));
    ///     let _end = producer.finish_on_drop(); // in any case, or the consumer sleeps for ever
    ///     assert_eq!(producer.push_wait(7), Ok(()));
    /// });
    /// # Ok::<(), kfifo::OpenError>(())
    /// ```
    pub fn pop_wait(&self) -> Result<T, PopError> {
        // SAFETY: as in `push`.
        unsafe { self.shared.pop(self.number, Looks::Within(ffi::FOREVER)) }
    }

    /// As [`Handle::pop_wait`], for that time at most: then the error is `TimedOut`. With no time it does not sleep.
    ///
    /// Cost: as [`Handle::pop_wait`].
    ///
    /// ```
    /// use std::time::Duration;
    ///
    /// let queue = kfifo::Queue::<u64>::new(4, 64, 1)?;
    /// let handle = queue.handle().expect("a handle is free");
    /// assert_eq!(handle.pop_timeout(Duration::from_millis(1)), Err(kfifo::PopError::TimedOut));
    /// # Ok::<(), kfifo::OpenError>(())
    /// ```
    pub fn pop_timeout(&self, time: Duration) -> Result<T, PopError> {
        // SAFETY: as in `push`.
        unsafe {
            self.shared
                .pop(self.number, Looks::Within(nanoseconds_of(time)))
        }
    }

    /// A guard that finishes the queue when it is dropped, also by a panic, so that no thread sleeps on.
    ///
    /// Cost: nothing, and a [`Handle::finish`] when it is dropped.
    ///
    /// ```
    /// let queue = kfifo::Queue::<u64>::new(4, 64, 2)?;
    /// let producer = queue.handle().expect("a handle is free");
    /// let failed = std::thread::spawn(move || {
    ///     let _end = producer.finish_on_drop();
    ///     panic!("the producer fails");
    /// });
    /// let consumer = queue.handle().expect("a handle is free");
    /// assert_eq!(consumer.pop_wait(), Err(kfifo::PopError::Finished));
    /// assert!(failed.join().is_err());
    /// # Ok::<(), kfifo::OpenError>(())
    /// ```
    pub fn finish_on_drop(&self) -> FinishOnDrop<'_, T> {
        FinishOnDrop { handle: self }
    }

    /// As [`Queue::finish`](crate::Queue::finish).
    ///
    /// Cost: an atomic step and two calls of the system.
    ///
    /// ```
    /// let queue = kfifo::Queue::<u64>::new(4, 64, 1)?;
    /// let handle = queue.handle().expect("a handle is free");
    /// handle.finish();
    /// assert_eq!(handle.pop_wait(), Err(kfifo::PopError::Finished));
    /// # Ok::<(), kfifo::OpenError>(())
    /// ```
    pub fn finish(&self) {
        self.shared.finish();
    }
}

/// Finishes the queue when it is dropped: [`Handle::finish_on_drop`].
#[derive(Debug)]
#[must_use = "the queue is finished when it is dropped"]
pub struct FinishOnDrop<'a, T> {
    handle: &'a Handle<T>,
}

impl<T> Drop for FinishOnDrop<'_, T> {
    fn drop(&mut self) {
        self.handle.finish();
    }
}

/// A time in nanoseconds. One beyond the clock, some 584 years, is for ever.
pub(crate) fn nanoseconds_of(time: Duration) -> u64 {
    u64::try_from(time.as_nanos()).unwrap_or(ffi::FOREVER)
}

impl<T> Drop for Handle<T> {
    fn drop(&mut self) {
        self.shared.return_handle(self.number);
    }
}

impl<T> Debug for Handle<T> {
    fn fmt(&self, f: &mut Formatter<'_>) -> fmt::Result {
        f.debug_struct("Handle")
            .field("number", &self.number)
            .finish_non_exhaustive()
    }
}
