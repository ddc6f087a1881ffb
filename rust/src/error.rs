//! Why a call was refused.
use std::error::Error;
use std::fmt::{self, Debug, Display, Formatter};

/// Why a queue was not opened.
///
/// ```
/// use kfifo::{OpenError, Queue};
///
/// assert_eq!(Queue::<String>::new(0, 16, 2).err(), Some(OpenError::KOutOfRange));
/// ```
#[derive(Clone, Copy, Debug, PartialEq, Eq)]
#[non_exhaustive]
pub enum OpenError {
    /// k is not 1 to 64.
    KOutOfRange,
    /// The capacity is 0, or greater than a generation has room for with this k and number of threads
    /// ([`Queue::new`](crate::Queue::new)). A queue that grows has several generations
    /// ([`Options::grows`](crate::Options::grows)).
    CapacityOutOfRange,
    /// The number of threads is not 1 to 64.
    ThreadsOutOfRange,
    /// A value has 4 GiB or more, or is aligned to more than 4,096 bytes.
    LayoutOutOfRange,
    /// The greatest version is not 2 to 2^40 - 1.
    LastOutOfRange,
    /// The reserve is not below the greatest version.
    ReserveOutOfRange,
    /// The number of generations is not 1 to 129 - 2 * threads.
    GrowsOutOfRange,
    /// An allocation failed: of the queue itself, or of the cells for its values.
    OutOfMemory,
}

impl Display for OpenError {
    fn fmt(&self, f: &mut Formatter<'_>) -> fmt::Result {
        f.write_str(match self {
            OpenError::KOutOfRange => "k is not 1 to 64",
            OpenError::CapacityOutOfRange => {
                "the capacity is 0 or too great: a queue that grows takes more"
            }
            OpenError::ThreadsOutOfRange => "the number of threads is not 1 to 64",
            OpenError::LayoutOutOfRange => {
                "a value has 4 GiB or more, or is aligned to more than 4,096 bytes"
            }
            OpenError::LastOutOfRange => "the greatest version is not 2 to 2^40 - 1",
            OpenError::ReserveOutOfRange => "the reserve is not below the greatest version",
            OpenError::GrowsOutOfRange => "the queue may not grow to so many generations",
            OpenError::OutOfMemory => "an allocation failed",
        })
    }
}

impl Error for OpenError {}

/// Why a value was not put. It holds the value.
///
/// ```
/// use kfifo::{PushError, Queue};
///
/// let queue = Queue::new(1, 2, 1)?; // k, capacity, threads
/// let handle = queue.handle().expect("a handle is free");
/// let mut number = 0;
/// let refused = loop {
///     match handle.push(number) {
///         Ok(()) => number += 1,
///         Err(refused) => break refused,
///     }
/// };
/// assert_eq!(refused, PushError::Full(number));
/// assert!(number >= 2); // as many as the queue was opened for, or a few more
/// # Ok::<(), kfifo::OpenError>(())
/// ```
#[derive(Clone, Copy, PartialEq, Eq)]
pub enum PushError<T> {
    /// As many values as the queue was opened for, or more, are in it or in the hands of calls. A queue that grows also
    /// has as many generations as it may have.
    Full(T),
    /// Of a queue that grows: there was no memory for its next generation.
    OutOfMemory(T),
    /// Of [`Handle::push_once`](crate::Handle::push_once) alone: the call used up its 65,535 rounds, and another thread
    /// changed the queue in each of them. This is rare.
    Busy(T),
    /// The versions of the queue's words are used up, and there was no memory for its next generation. Have what is
    /// left by [`Queue::into_values`](crate::Queue::into_values), and open another queue.
    Worn(T),
    /// The time of a call that waits was up.
    TimedOut(T),
    /// [`Queue::finish`](crate::Queue::finish) was called before.
    Finished(T),
}

impl<T> PushError<T> {
    /// The value that was not put.
    ///
    /// Cost: a move of the value.
    ///
    /// ```
    /// assert_eq!(kfifo::PushError::Full(7).into_inner(), 7);
    /// ```
    #[must_use]
    pub fn into_inner(self) -> T {
        match self {
            PushError::Full(value)
            | PushError::OutOfMemory(value)
            | PushError::Busy(value)
            | PushError::Worn(value)
            | PushError::TimedOut(value)
            | PushError::Finished(value) => value,
        }
    }

    /// Whether a later call may do better. A loop that retries another refusal never ends.
    ///
    /// Cost: a comparison.
    ///
    /// ```
    /// use kfifo::PushError;
    ///
    /// assert!(PushError::Full(7).may_retry());
    /// assert!(!PushError::Worn(7).may_retry());
    /// ```
    #[must_use]
    pub fn may_retry(&self) -> bool {
        match self {
            PushError::Full(_) | PushError::Busy(_) => true,
            PushError::OutOfMemory(_)
            | PushError::Worn(_)
            | PushError::TimedOut(_)
            | PushError::Finished(_) => false,
        }
    }

    fn text(&self) -> &'static str {
        match self {
            PushError::Full(_) => "the queue was full",
            PushError::OutOfMemory(_) => "there was no memory for the queue to grow",
            PushError::Busy(_) => "the call reached its retry limit",
            PushError::Worn(_) => "the versions of the queue are used up",
            PushError::TimedOut(_) => "the time was up",
            PushError::Finished(_) => "the queue is finished",
        }
    }
}

// As with the errors of `std::sync::mpsc`, the value need not be printable.
impl<T> Debug for PushError<T> {
    fn fmt(&self, f: &mut Formatter<'_>) -> fmt::Result {
        f.write_str(match self {
            PushError::Full(_) => "Full(..)",
            PushError::OutOfMemory(_) => "OutOfMemory(..)",
            PushError::Busy(_) => "Busy(..)",
            PushError::Worn(_) => "Worn(..)",
            PushError::TimedOut(_) => "TimedOut(..)",
            PushError::Finished(_) => "Finished(..)",
        })
    }
}

impl<T> Display for PushError<T> {
    fn fmt(&self, f: &mut Formatter<'_>) -> fmt::Result {
        f.write_str(self.text())
    }
}

impl<T> Error for PushError<T> {}

/// Why no value was taken.
///
/// ```
/// use kfifo::{PopError, Queue};
///
/// let queue = Queue::<u64>::new(4, 16, 1)?;
/// let handle = queue.handle().expect("a handle is free");
/// assert_eq!(handle.pop(), Err(PopError::Empty));
/// # Ok::<(), kfifo::OpenError>(())
/// ```
#[derive(Clone, Copy, Debug, PartialEq, Eq)]
pub enum PopError {
    /// The queue was empty.
    Empty,
    /// Of [`Handle::pop_once`](crate::Handle::pop_once) alone: the call used up its 65,535 rounds, and another thread
    /// changed the queue in each of them. This is rare.
    Busy,
    /// The versions of the queue's words are used up, and there was no memory for its next generation. Values may be
    /// left that no pop reaches: [`Queue::into_values`](crate::Queue::into_values) gives them back.
    Worn,
    /// The time of a call that waits was up.
    TimedOut,
    /// [`Queue::finish`](crate::Queue::finish) was called, and the queue was empty then.
    Finished,
}

impl PopError {
    /// Whether a later call may do better. A loop that retries another answer never ends.
    ///
    /// Cost: a comparison.
    ///
    /// ```
    /// use kfifo::PopError;
    ///
    /// assert!(PopError::Empty.may_retry());
    /// assert!(!PopError::Worn.may_retry());
    /// ```
    #[must_use]
    pub fn may_retry(&self) -> bool {
        match self {
            PopError::Empty | PopError::Busy => true,
            PopError::Worn | PopError::TimedOut | PopError::Finished => false,
        }
    }
}

impl Display for PopError {
    fn fmt(&self, f: &mut Formatter<'_>) -> fmt::Result {
        f.write_str(match self {
            PopError::Empty => "the queue was empty",
            PopError::Busy => "the call reached its retry limit",
            PopError::Worn => "the versions of the queue are used up",
            PopError::TimedOut => "the time was up",
            PopError::Finished => "the queue is finished",
        })
    }
}

impl Error for PopError {}
