//! The values that come out of a queue, as iterators.
use crate::Handle;

/// The values that come out of a queue until its end: [`Handle::values`].
#[derive(Debug)]
#[must_use = "it takes values only when it is asked for them"]
pub struct Values<'a, T> {
    handle: &'a Handle<T>,
}

impl<T> Iterator for Values<'_, T> {
    type Item = T;

    fn next(&mut self) -> Option<T> {
        self.handle.pop_wait().ok()
    }
}

/// The same, with the handle that it takes them by: `for value in handle`.
#[derive(Debug)]
#[must_use = "it takes values only when it is asked for them"]
pub struct IntoValues<T> {
    handle: Handle<T>,
}

impl<T> Iterator for IntoValues<T> {
    type Item = T;

    fn next(&mut self) -> Option<T> {
        self.handle.pop_wait().ok()
    }
}

/// The values that are there: [`Handle::try_values`].
#[derive(Debug)]
#[must_use = "it takes values only when it is asked for them"]
pub struct TryValues<'a, T> {
    handle: &'a Handle<T>,
}

impl<T> Iterator for TryValues<'_, T> {
    type Item = T;

    fn next(&mut self) -> Option<T> {
        self.handle.pop().ok()
    }
}

/// As of the receivers of std's channels: the values that come, until the queue is finished and empty.
///
/// ```
/// let queue = kfifo::Queue::new(1, 8, 1)?;
/// let handle = queue.handle().expect("a handle is free");
/// assert_eq!(handle.push_all(1..=3).expect("there is room"), 3);
/// queue.finish();
/// let mut sum = 0;
/// for number in &handle {
///     sum += number;
/// }
/// assert_eq!(sum, 6);
/// # Ok::<(), kfifo::OpenError>(())
/// ```
impl<'a, T> IntoIterator for &'a Handle<T> {
    type Item = T;
    type IntoIter = Values<'a, T>;

    fn into_iter(self) -> Values<'a, T> {
        self.values()
    }
}

/// The same. The handle goes back to the queue with the iterator.
///
/// ```
/// let queue = kfifo::Queue::new(1, 8, 2)?;
/// let producer = queue.handle().expect("a handle is free");
/// let consumer = queue.handle().expect("a handle is free");
/// let sum = std::thread::spawn(move || consumer.into_iter().sum::<u64>());
/// assert_eq!(producer.push_all(1..=3).expect("there is room"), 3);
/// producer.finish();
/// assert_eq!(sum.join().expect("no panic"), 6);
/// # Ok::<(), kfifo::OpenError>(())
/// ```
impl<T> IntoIterator for Handle<T> {
    type Item = T;
    type IntoIter = IntoValues<T>;

    fn into_iter(self) -> IntoValues<T> {
        IntoValues { handle: self }
    }
}

/// The values as iterators.
impl<T> Handle<T> {
    /// The values that come, until the queue is finished and empty; it sleeps while there is none. `for value in
    /// &handle` is the same.
    ///
    /// It ends also where [`Handle::pop`] answers `Worn`: a further `pop` says which of the two it was.
    ///
    /// Cost: a [`Handle::pop_wait`] for each value.
    ///
    /// ```
    /// let queue = kfifo::Queue::new(1, 64, 1)?;
    /// let handle = queue.handle().expect("a handle is free");
    /// handle.push("a").expect("there is room");
    /// handle.push("b").expect("there is room");
    /// queue.finish();
    /// assert_eq!(handle.values().collect::<Vec<_>>(), ["a", "b"]);
    /// # Ok::<(), kfifo::OpenError>(())
    /// ```
    pub fn values(&self) -> Values<'_, T> {
        Values { handle: self }
    }

    /// The values that are there, until a [`Handle::pop`] takes none; it never sleeps. A further `pop` says why it
    /// ended.
    ///
    /// Cost: a [`Handle::pop`] for each value, and one that finds none.
    ///
    /// ```
    /// let queue = kfifo::Queue::new(1, 64, 1)?;
    /// let handle = queue.handle().expect("a handle is free");
    /// handle.push("a").expect("there is room");
    /// assert_eq!(handle.try_values().collect::<Vec<_>>(), ["a"]);
    /// assert_eq!(handle.pop(), Err(kfifo::PopError::Empty));
    /// # Ok::<(), kfifo::OpenError>(())
    /// ```
    pub fn try_values(&self) -> TryValues<'_, T> {
        TryValues { handle: self }
    }
}
