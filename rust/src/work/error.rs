//! Why a run ended early, and why a task was not given.
use super::Report;
use std::convert::Infallible;
use std::error::Error;
use std::fmt::{self, Debug, Display, Formatter};
use std::io;

/// Why a run did not do all tasks, and those that it did not do: the error of [`run`](super::run) and
/// [`try_run`](super::try_run).
///
/// ```
/// use kfifo::work::{self, Cause, Options};
///
/// let refused = work::run([1, 2, 3], |_, _| {}, Options { k: 0, ..Options::default() });
/// let refused = refused.expect_err("k is 1 to 64");
/// assert!(matches!(refused.why, Cause::KOutOfRange));
/// assert_eq!(refused.report.left, [1, 2, 3]);
/// ```
pub struct RunError<T, E = Infallible> {
    /// What came first, where there was more than one cause.
    pub why: Cause<E>,
    /// What was done, and the tasks that are left.
    pub report: Report<T>,
}

/// What ended a run: [`RunError::why`].
///
/// ```
/// use kfifo::work::{self, Cause, Options};
///
/// let bad = Options { threads: Some(65), ..Options::default() };
/// let refused = work::run([()], |(), _| {}, bad).expect_err("there are too many");
/// assert!(matches!(refused.why, Cause::ThreadsOutOfRange));
/// assert_eq!(refused.to_string(), "the number of threads is not 1 to 64");
/// ```
#[derive(Debug)]
#[non_exhaustive]
pub enum Cause<E = Infallible> {
    /// k is not 1 to 64. No task was begun.
    KOutOfRange,
    /// The number of threads is not 1 to 64. No task was begun.
    ThreadsOutOfRange,
    /// An allocation failed: of the queue, and then no task was begun, or of room for one of the first tasks.
    OutOfMemory,
    /// The system did not start a thread. No task was begun.
    Thread(io::Error),
    /// The versions of the queue are used up: there was no memory for its next generation during the last 2^32 of them.
    Worn,
    /// A task of [`try_run`](super::try_run) returned this error, which is no longer among those that are left.
    Task(E),
}

impl<E: Display> Display for Cause<E> {
    fn fmt(&self, f: &mut Formatter<'_>) -> fmt::Result {
        match self {
            Cause::KOutOfRange => f.write_str("k is not 1 to 64"),
            Cause::ThreadsOutOfRange => f.write_str("the number of threads is not 1 to 64"),
            Cause::OutOfMemory => f.write_str("an allocation failed"),
            Cause::Thread(error) => write!(f, "a thread was not started: {error}"),
            Cause::Worn => f.write_str("the versions of the queue are used up"),
            Cause::Task(error) => Display::fmt(error, f),
        }
    }
}

// As with `PushError`, the tasks need not be printable.
impl<T, E: Debug> Debug for RunError<T, E> {
    fn fmt(&self, f: &mut Formatter<'_>) -> fmt::Result {
        f.debug_struct("RunError")
            .field("why", &self.why)
            .field("left", &self.report.left.len())
            .finish_non_exhaustive()
    }
}

impl<T, E: Display> Display for RunError<T, E> {
    fn fmt(&self, f: &mut Formatter<'_>) -> fmt::Result {
        Display::fmt(&self.why, f)
    }
}

impl<T, E: Error + 'static> Error for RunError<T, E> {
    fn source(&self) -> Option<&(dyn Error + 'static)> {
        match &self.why {
            Cause::Thread(error) => Some(error),
            Cause::Task(error) => error.source(),
            _ => None,
        }
    }
}

/// The task that was not given, since there is no memory for it: [`More::give`](super::More::give).
///
/// ```
/// use kfifo::work::GiveError;
///
/// assert_eq!(GiveError(7).to_string(), "there is no memory for the task");
/// ```
#[derive(Clone, Copy, PartialEq, Eq)]
pub struct GiveError<T>(pub T);

impl<T> Debug for GiveError<T> {
    fn fmt(&self, f: &mut Formatter<'_>) -> fmt::Result {
        f.write_str("GiveError(..)")
    }
}

impl<T> Display for GiveError<T> {
    fn fmt(&self, f: &mut Formatter<'_>) -> fmt::Result {
        f.write_str("there is no memory for the task")
    }
}

impl<T> Error for GiveError<T> {}
