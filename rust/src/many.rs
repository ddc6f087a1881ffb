//! Many values at once.
use crate::Handle;
use crate::error::{PopError, PushError};
use crate::ffi;
use crate::handle::nanoseconds_of;
use crate::shared::Looks;
use std::error::Error;
use std::fmt::{self, Debug, Display, Formatter};
use std::iter::{Chain, Once, once};
use std::time::{Duration, Instant};

/// Why not all values were put: [`Handle::push_all`]. It holds those that were not.
///
/// ```
/// use kfifo::{PushError, Queue};
///
/// let queue = Queue::new(1, 8, 1)?;
/// let handle = queue.handle().expect("a handle is free");
/// let mut stopped = handle.push_all(0..1000).expect_err("there is not so much room");
/// assert!(stopped.pushed >= 8);
/// assert_eq!(stopped.refused, PushError::Full(stopped.pushed));
/// assert_eq!(stopped.rest.next(), Some(stopped.pushed + 1));
/// # Ok::<(), kfifo::OpenError>(())
/// ```
pub struct PushAllError<I: Iterator> {
    /// How many values are in the queue.
    pub pushed: usize,
    /// The value that was refused, and why.
    pub refused: PushError<I::Item>,
    /// The iterator, with the values after that one.
    pub rest: I,
}

impl<I: Iterator> PushAllError<I> {
    /// The values that were not put: the one that was refused, and those after it.
    ///
    /// Cost: a move of the iterator.
    ///
    /// ```
    /// let queue = kfifo::Queue::new(1, 8, 1)?;
    /// let handle = queue.handle().expect("a handle is free");
    /// let stopped = handle.push_all(0..1000).expect_err("there is not so much room");
    /// let pushed = stopped.pushed;
    /// assert!(stopped.into_rest().eq(pushed..1000));
    /// # Ok::<(), kfifo::OpenError>(())
    /// ```
    pub fn into_rest(self) -> Chain<Once<I::Item>, I> {
        once(self.refused.into_inner()).chain(self.rest)
    }
}

// As with `PushError`, the values need not be printable.
impl<I: Iterator> Debug for PushAllError<I> {
    fn fmt(&self, f: &mut Formatter<'_>) -> fmt::Result {
        f.debug_struct("PushAllError")
            .field("pushed", &self.pushed)
            .field("refused", &self.refused)
            .finish_non_exhaustive()
    }
}

impl<I: Iterator> Display for PushAllError<I> {
    fn fmt(&self, f: &mut Formatter<'_>) -> fmt::Result {
        write!(
            f,
            "{} values were put, and then {}",
            self.pushed, self.refused
        )
    }
}

impl<I: Iterator> Error for PushAllError<I> {}

/// Many values at once.
impl<T> Handle<T> {
    /// Puts each value of an iterator, until the queue takes no more: how many there were. Else the error holds the
    /// value that was refused, and the rest of the iterator. It never waits, unless the iterator does.
    ///
    /// Each value is a push of its own, and wakes a thread that waits for it. So an iterator may itself wait for those
    /// that pop, as one over the values of another queue.
    ///
    /// A handle does not implement [`Extend`], which could not say that the queue was full.
    ///
    /// Cost: a [`Handle::push`] for each value.
    ///
    /// ```
    /// let queue = kfifo::Queue::new(1, 8, 2)?;
    /// let producer = queue.handle().expect("a handle is free");
    /// let consumer = queue.handle().expect("a handle is free");
    /// std::thread::scope(|scope| {
    ///     scope.spawn(move || {
    ///         let _end = producer.finish_on_drop();
    ///         let mut numbers = 0..1000;
    ///         while let Err(stopped) = producer.push_all(&mut numbers) {
    ///             // Full: it sleeps until there is room for the one that was refused.
    ///             if let Err(refused) = producer.push_wait(stopped.refused.into_inner()) {
    ///                 eprintln!("{} was not put: {refused}", refused.into_inner());
    ///                 break;
    ///             }
    ///         }
    ///     });
    ///     assert!(consumer.values().eq(0..1000));
    /// });
    /// # Ok::<(), kfifo::OpenError>(())
    /// ```
    pub fn push_all<I>(&self, values: I) -> Result<usize, PushAllError<I::IntoIter>>
    where
        I: IntoIterator<Item = T>,
    {
        self.push_each(values, |value| self.push(value))
    }

    /// As [`Handle::push_all`], but it sleeps while there is no room for the next value: that is never refused as
    /// `Full`.
    ///
    /// Cost: as [`Handle::push_all`] where it need not sleep.
    ///
    /// ```
    /// let queue = kfifo::Queue::new(1, 8, 2)?;
    /// let producer = queue.handle().expect("a handle is free");
    /// let consumer = queue.handle().expect("a handle is free");
    /// std::thread::scope(|scope| {
    ///     scope.spawn(move || {
    ///         let _end = producer.finish_on_drop();
    ///         if let Err(stopped) = producer.push_all_wait(0..1000) {
    ///             eprintln!("{stopped}");
    ///         }
    ///     });
    ///     assert!(consumer.values().eq(0..1000));
    /// });
    /// # Ok::<(), kfifo::OpenError>(())
    /// ```
    pub fn push_all_wait<I>(&self, values: I) -> Result<usize, PushAllError<I::IntoIter>>
    where
        I: IntoIterator<Item = T>,
    {
        self.push_each(values, |value| self.push_wait(value))
    }

    /// As [`Handle::push_all_wait`], but all its waits take this time at most: then the next value is refused as
    /// `TimedOut`. The time begins where the call first waits. With no time it does not sleep.
    ///
    /// Cost: as [`Handle::push_all`] where it need not sleep, and a look at the clock before each wait.
    ///
    /// ```
    /// use kfifo::PushError;
    /// use std::time::Duration;
    ///
    /// let queue = kfifo::Queue::new(1, 8, 2)?;
    /// let handle = queue.handle().expect("a handle is free");
    /// let stopped = handle
    ///     .push_all_timeout(0..1000, Duration::from_millis(1))
    ///     .expect_err("there is not so much room");
    /// assert_eq!(stopped.refused, PushError::TimedOut(stopped.pushed));
    /// # Ok::<(), kfifo::OpenError>(())
    /// ```
    pub fn push_all_timeout<I>(
        &self,
        values: I,
        time: Duration,
    ) -> Result<usize, PushAllError<I::IntoIter>>
    where
        I: IntoIterator<Item = T>,
    {
        let mut end = None; // when the time is up, from the first wait on
        self.push_each(values, |value| match self.push(value) {
            Err(refused) if refused.may_retry() => {
                let now = Instant::now();
                // A time beyond the clock is for ever.
                let end = *end.get_or_insert_with(|| now.checked_add(time));
                let left = end.map_or(Duration::MAX, |it| it.saturating_duration_since(now));
                self.push_timeout(refused.into_inner(), left)
            }
            done => done,
        })
    }

    /// Pushes each value so, until one is refused.
    fn push_each<I>(
        &self,
        values: I,
        mut push: impl FnMut(T) -> Result<(), PushError<T>>,
    ) -> Result<usize, PushAllError<I::IntoIter>>
    where
        I: IntoIterator<Item = T>,
    {
        let mut rest = values.into_iter();
        let mut pushed = 0;
        while let Some(value) = rest.next() {
            if let Err(refused) = push(value) {
                return Err(PushAllError {
                    pushed,
                    refused,
                    rest,
                });
            }
            pushed += 1;
        }
        Ok(pushed)
    }

    /// Takes values until there are `most` or the queue has no more, and puts them at the end of a vector: how many
    /// there were. An error says why there is none. It never waits.
    ///
    /// It wakes as many threads that wait for room as it took values, when it ends. It costs less than as many calls of
    /// [`Handle::pop`].
    ///
    /// Cost: as a [`Handle::pop`] for each value and one more that finds none, but for all but one of the looks for
    /// threads that wait and all but one release of a cell.
    ///
    /// ```
    /// use kfifo::{PopError, Queue};
    ///
    /// let queue = Queue::new(1, 8, 1)?;
    /// let handle = queue.handle().expect("a handle is free");
    /// assert_eq!(handle.push_all(1..=5).expect("there is room"), 5);
    /// let mut values = Vec::new();
    /// assert_eq!(handle.pop_up_to(3, &mut values), Ok(3));
    /// assert_eq!(handle.pop_up_to(3, &mut values), Ok(2));
    /// assert_eq!(handle.pop_up_to(3, &mut values), Err(PopError::Empty));
    /// assert_eq!(values, [1, 2, 3, 4, 5]);
    /// # Ok::<(), kfifo::OpenError>(())
    /// ```
    pub fn pop_up_to(&self, most: usize, values: &mut Vec<T>) -> Result<usize, PopError> {
        self.pop_up_to_by(most, values, Looks::UnlessBusy)
    }

    /// As [`Handle::pop_up_to`], but it sleeps until there is a value, and then takes what is there: an error is
    /// `Finished` or `Worn` alone.
    ///
    /// Cost: as [`Handle::pop_up_to`] where it need not sleep.
    ///
    /// ```
    /// let queue = kfifo::Queue::new(1, 8, 2)?;
    /// let producer = queue.handle().expect("a handle is free");
    /// let consumer = queue.handle().expect("a handle is free");
    /// std::thread::scope(|scope| {
    ///     scope.spawn(move || {
    ///         let _end = producer.finish_on_drop();
    ///         if let Err(stopped) = producer.push_all_wait(0..1000) {
    ///             eprintln!("{stopped}");
    ///         }
    ///     });
    ///     let mut values = Vec::new();
    ///     while consumer.pop_up_to_wait(64, &mut values).is_ok() {}
    ///     assert!(values.into_iter().eq(0..1000));
    /// });
    /// # Ok::<(), kfifo::OpenError>(())
    /// ```
    pub fn pop_up_to_wait(&self, most: usize, values: &mut Vec<T>) -> Result<usize, PopError> {
        self.pop_up_to_by(most, values, Looks::Within(ffi::FOREVER))
    }

    /// As [`Handle::pop_up_to_wait`], for so long at most: then the error is `TimedOut`. With no time it does not
    /// sleep.
    ///
    /// Cost: as [`Handle::pop_up_to_wait`].
    ///
    /// ```
    /// use kfifo::PopError;
    /// use std::time::Duration;
    ///
    /// let queue = kfifo::Queue::<u64>::new(1, 8, 2)?;
    /// let handle = queue.handle().expect("a handle is free");
    /// let mut values = Vec::new();
    /// let end = handle.pop_up_to_timeout(64, &mut values, Duration::from_millis(1));
    /// assert_eq!(end, Err(PopError::TimedOut));
    /// # Ok::<(), kfifo::OpenError>(())
    /// ```
    pub fn pop_up_to_timeout(
        &self,
        most: usize,
        values: &mut Vec<T>,
        time: Duration,
    ) -> Result<usize, PopError> {
        self.pop_up_to_by(most, values, Looks::Within(nanoseconds_of(time)))
    }

    fn pop_up_to_by(
        &self,
        most: usize,
        values: &mut Vec<T>,
        looks: Looks,
    ) -> Result<usize, PopError> {
        // SAFETY: as in `push`.
        unsafe { self.shared.pop_up_to(self.number, most, values, looks) }
    }
}
