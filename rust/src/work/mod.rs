//! Work that spawns work: threads that take tasks nearly in the order in which they came, tasks that add tasks, and an
//! end when all is done.
//!
//! A search, a crawl, a fixpoint or a server of jobs is a first task, and what one task does:
//!
//! ```
//! use kfifo::work::{self, Options, RunError};
//! use std::sync::atomic::{AtomicU32, Ordering};
//!
//! // How many steps it takes from 1 to each number, where a step adds 1 or doubles.
//! fn main() -> Result<(), RunError<usize>> {
//!     let steps: Vec<_> = (0..1_000).map(|_| AtomicU32::new(u32::MAX)).collect();
//!     steps[1].store(0, Ordering::Relaxed);
//!     let report = work::run(
//!         [1],
//!         |number, more| {
//!             let next = steps[number].load(Ordering::Relaxed) + 1;
//!             for reached in [number + 1, 2 * number] {
//!                 let Some(known) = steps.get(reached) else { continue };
//!                 if known.fetch_min(next, Ordering::Relaxed) > next {
//!                     more.give(reached).expect("there is memory");
//!                 }
//!             }
//!         },
//!         Options::default(), // the machine's processors, and k = 16
//!     )?;
//!     assert_eq!(steps[999].load(Ordering::Relaxed), 16);
//!     assert!(report.done.iter().sum::<u64>() >= 999);
//!     Ok(())
//! }
//! ```
//!
//! # What holds
//!
//! - Each task that was given is done exactly once, or comes back in the [`Report`] or the [`RunError`]. A task that
//!   panics ends the run, and then those that are left are dropped.
//! - When a task is begun, all tasks that were given before it have been begun, but for k - 1 and one for each other
//!   worker at most. Where the queue grows, up to one more for each worker may still wait. What holds of the
//!   [list](#what-the-queue-has-no-room-for) stands below.
//! - What a task did before it gave another one happens before that other one.
//! - Idle workers look for a task for 5 microseconds more, and then sleep. A give wakes one where one sleeps.
//!
//! # What the queue has no room for
//!
//! The tasks lie in a queue that grows. With k = 16 or more it has room for 1.5 million tasks on up to 16 threads, for
//! a million on 32, and for 14,000 on 64; with k = 1 and 4 threads for 100,000. It takes 0.8 megabytes at first, and as
//! much again for every 16,000 tasks that wait; with k = 1 it takes 0.2, and as much again for every 1,000.
//!
//! What does not fit goes to a list under a lock, first in, first out, as long as there is memory. While it holds
//! tasks, what is given goes there too, and workers move the oldest into the queue, up to 1,024 at once, where that has
//! room. Each worker can take them, so no task waits for one worker. The order is that of the queue first, then that of
//! the list. But a task that is given while the list begins or comes to its end may be begun before those that other
//! workers give to the list at that moment. And a worker that is stopped by the system while it has the lock holds up
//! those that give meanwhile.
//!
//! # Why one call for tasks that return errors, and one for others
//!
//! [`run`] and [`try_run`] are two calls, as `for_each` and `try_for_each` of std's iterators are. One call for both
//! would need a trait of this crate for what a body returns, and a body with a wrong type would be refused by a message
//! about that trait.
mod counts;
mod error;
mod nodes;
mod queue;
mod worker;

pub use error::{Cause, GiveError, RunError};
pub use worker::More;

use queue::Sizes;
use std::convert::Infallible;
use std::fmt::{self, Debug, Formatter};
use std::mem::forget;
use std::panic::{AssertUnwindSafe, catch_unwind, resume_unwind};
use std::thread::{self, Builder, ScopedJoinHandle};
use worker::{End, FirstEnd, Shared, Told};

/// How a run works. Start from the default and change what matters:
///
/// ```
/// use kfifo::work::Options;
///
/// let options = Options { threads: Some(4), ..Options::default() };
/// assert_eq!(options.k, 16);
/// ```
#[derive(Clone, Copy, Debug, PartialEq, Eq)]
pub struct Options {
    /// How many workers there are, 1 to 64: none takes the processors that the machine has for this process. The
    /// calling thread is one of them. With 1 no thread is started.
    pub threads: Option<usize>,
    /// How far the order may be off, 1 to 64: 16. With a smaller k workers meet more often. For more than 30 threads it
    /// is at least 2, and for more than 61 at least 3.
    pub k: u32,
}

impl Default for Options {
    fn default() -> Options {
        Options {
            threads: None,
            k: 16,
        }
    }
}

impl Options {
    /// How many workers there are.
    fn workers(&self) -> usize {
        self.threads.unwrap_or_else(|| {
            let processors = thread::available_parallelism();
            processors.map_or(1, |it| it.get().min(64))
        })
    }

    /// The sizes of the queue for this number of workers.
    fn sizes<E>(&self, workers: usize) -> Result<Sizes, Cause<E>> {
        if !(1..=64).contains(&self.k) {
            return Err(Cause::KOutOfRange);
        }
        if !(1..=64).contains(&workers) {
            return Err(Cause::ThreadsOutOfRange);
        }
        Ok(Sizes::of(self.k, workers))
    }
}

/// What a run did.
///
/// ```
/// use kfifo::work::{self, Options, RunError};
///
/// let options = Options { threads: Some(2), ..Options::default() };
/// let report = work::run(0..100, |_, _| {}, options)?;
/// assert_eq!(report.done.len(), 2);
/// assert_eq!(report.done.iter().sum::<u64>(), 100);
/// assert!(report.left.is_empty() && report.backlog <= 100);
/// # Ok::<(), RunError<i32>>(())
/// ```
#[derive(Clone, PartialEq, Eq)]
#[must_use]
pub struct Report<T> {
    /// How many tasks each worker has done, the calling thread first. A task that panicked or returned an error is not
    /// counted.
    pub done: Vec<u64>,
    /// About the most tasks that were given and not done at one time. Each worker looks at its first 63 gives, and then
    /// at each 64th.
    pub backlog: u64,
    /// How often a worker slept, all together.
    pub slept: u64,
    /// The tasks that were not begun, as a run leaves them that is stopped or ends by an error: those of the queue
    /// first, in its order.
    pub left: Vec<T>,
}

// As with `PushError`, the tasks need not be printable: it shows how many are left.
impl<T> Debug for Report<T> {
    fn fmt(&self, f: &mut Formatter<'_>) -> fmt::Result {
        f.debug_struct("Report")
            .field("done", &self.done)
            .field("backlog", &self.backlog)
            .field("slept", &self.slept)
            .field("left", &self.left.len())
            .finish()
    }
}

impl<T> Report<T> {
    fn of_none(workers: usize) -> Report<T> {
        Report {
            done: vec![0; workers],
            backlog: 0,
            slept: 0,
            left: Vec::new(),
        }
    }

    fn add(&mut self, told: Told) {
        self.backlog = self.backlog.max(told.backlog);
        self.slept += told.slept;
    }
}

/// Does all tasks: these, and those that tasks give by [`More::give`]. It returns when all are done.
///
/// The calling thread is one of the workers. It gives these tasks first, and others begin to do them meanwhile. `body`
/// may borrow what the caller has. A run within a task is a run of its own.
///
/// The run ends early where a task calls [`More::stop`]; then the tasks that are left come back in the report. A task
/// that panics stops the run too: this call resumes the first panic once all workers have ended, and the tasks that are
/// left are dropped.
///
/// Returns an error where an option is out of range, where the system lacks memory or a thread, or where the versions
/// of the queue are used up. It holds the tasks that were not begun. But where std gets no memory for the vectors of
/// the report, or for what it starts a thread with, the program ends, as with any vector or thread.
///
/// Cost: it opens its queue, 0.8 megabytes with k = 16, and starts `threads - 1` threads, unless there is no task. A
/// task costs a push and a pop, and a move of the task in and out; an idle worker uses no time after 5 microseconds.
///
/// ```
/// use kfifo::work::{self, Options, RunError};
/// use std::sync::Mutex;
///
/// // The leaves of a tree.
/// enum Tree {
///     Leaf(u32),
///     Two(Box<Tree>, Box<Tree>),
/// }
///
/// fn tree(depth: u32) -> Tree {
///     match depth {
///         0 => Tree::Leaf(1),
///         _ => Tree::Two(Box::new(tree(depth - 1)), Box::new(tree(depth - 1))),
///     }
/// }
///
/// fn main() -> Result<(), RunError<Tree>> {
///     let sum = Mutex::new(0);
///     let report = work::run(
///         [tree(10)],
///         |part, more| match part {
///             Tree::Leaf(value) => *sum.lock().expect("no panic") += value,
///             Tree::Two(left, right) => {
///                 more.give(*left).expect("there is memory");
///                 more.give(*right).expect("there is memory");
///             }
///         },
///         Options::default(),
///     )?;
///     assert_eq!(*sum.lock().expect("no panic"), 1_024);
///     assert_eq!(report.done.iter().sum::<u64>(), 2_047);
///     Ok(())
/// }
/// ```
pub fn run<T, F>(
    tasks: impl IntoIterator<Item = T>,
    body: F,
    options: Options,
) -> Result<Report<T>, RunError<T>>
where
    T: Send,
    F: Fn(T, &mut More<'_, T>) + Sync,
{
    let body = |task: T, more: &mut More<'_, T>| {
        body(task, more);
        Ok::<(), Infallible>(())
    };
    run_with(tasks, &body, options)
}

/// As [`run`], with tasks that may return an error: the first one ends the run early, and is returned as
/// [`Cause::Task`] with the tasks that are left.
///
/// Cost: as [`run`].
///
/// ```
/// use kfifo::work::{self, Cause, Options};
/// use std::num::ParseIntError;
///
/// let ended = work::try_run(
///     ["1", "2", "x", "4"],
///     |word, _| -> Result<(), ParseIntError> {
///         word.parse::<u32>()?;
///         Ok(())
///     },
///     Options { threads: Some(1), k: 1 },
/// );
/// let error = ended.expect_err("x is no number");
/// assert!(matches!(error.why, Cause::Task(_)));
/// assert_eq!(error.report.left, ["4"]);
/// ```
pub fn try_run<T, E, F>(
    tasks: impl IntoIterator<Item = T>,
    body: F,
    options: Options,
) -> Result<Report<T>, RunError<T, E>>
where
    T: Send,
    E: Send,
    F: Fn(T, &mut More<'_, T>) -> Result<(), E> + Sync,
{
    run_with(tasks, &body, options)
}

/// A run that did not begin.
fn refused<T, E>(
    why: Cause<E>,
    workers: usize,
    left: impl Iterator<Item = T>,
) -> Result<Report<T>, RunError<T, E>> {
    let mut report = Report::of_none(workers);
    report.left.extend(left);
    Err(RunError { why, report })
}

fn run_with<T, E, F>(
    tasks: impl IntoIterator<Item = T>,
    body: &F,
    options: Options,
) -> Result<Report<T>, RunError<T, E>>
where
    T: Send,
    E: Send,
    F: Fn(T, &mut More<'_, T>) -> Result<(), E> + Sync,
{
    let workers = options.workers();
    let mut tasks = tasks.into_iter().peekable();
    let sizes = match options.sizes(workers) {
        Ok(sizes) => sizes,
        Err(why) => return refused(why, 0, tasks),
    };
    if tasks.peek().is_none() {
        return Ok(Report::of_none(workers));
    }
    run_over(tasks, body, &sizes, workers)
}

/// The run over a queue of these sizes.
fn run_over<T, E, F>(
    mut tasks: impl Iterator<Item = T>,
    body: &F,
    sizes: &Sizes,
    workers: usize,
) -> Result<Report<T>, RunError<T, E>>
where
    T: Send,
    E: Send,
    F: Fn(T, &mut More<'_, T>) -> Result<(), E> + Sync,
{
    let shared = match Shared::open(sizes, workers) {
        Ok(shared) => shared,
        Err(why) => return refused(why, workers, tasks),
    };
    let first = FirstEnd::none();
    let mut report = Report::of_none(workers);
    let mut back = None;
    thread::scope(|scope| {
        let others = start_others(scope, &shared, body, &first, workers);
        let mut more = More::new(&shared, 0);
        if others.len() + 1 == workers {
            back = give_first(&mut tasks, &mut more, &first);
        }
        report.add(more.work(body, &first));
        for other in others {
            report.add(other.join().unwrap_or_else(|panic| resume_unwind(panic)));
        }
    });
    if shared.queue.is_worn() {
        first.set(End::Cause(Cause::Worn));
    }
    for (worker, done) in report.done.iter_mut().enumerate() {
        *done = shared.counts.done(worker);
    }
    report.left = shared.into_tasks();
    report.left.extend(back);
    ended(report, first, tasks)
}

/// What the run returns.
fn ended<T, E>(
    mut report: Report<T>,
    first: FirstEnd<E>,
    rest: impl Iterator<Item = T>,
) -> Result<Report<T>, RunError<T, E>> {
    match first.into_inner() {
        Some(End::Panic(panic)) => {
            // What a panic of their drop says is lost: the first one goes on.
            forget(catch_unwind(AssertUnwindSafe(|| drop(report))));
            resume_unwind(panic)
        }
        Some(End::Cause(why)) => {
            report.left.extend(rest);
            Err(RunError { why, report })
        }
        None => {
            report.left.extend(rest);
            Ok(report)
        }
    }
}

/// Starts all workers but the calling thread, or none where the system does not start one: then the run ends.
fn start_others<'scope, 'env, T, E, F>(
    scope: &'scope thread::Scope<'scope, 'env>,
    shared: &'env Shared<T>,
    body: &'env F,
    first: &'env FirstEnd<E>,
    workers: usize,
) -> Vec<ScopedJoinHandle<'scope, Told>>
where
    T: Send,
    E: Send,
    F: Fn(T, &mut More<'_, T>) -> Result<(), E> + Sync,
{
    let mut others = Vec::with_capacity(workers);
    for number in 1..workers {
        let builder = Builder::new().name(format!("kfifo worker {number}"));
        match builder.spawn_scoped(scope, move || More::new(shared, number).work(body, first)) {
            Ok(other) => others.push(other),
            Err(error) => {
                first.set(End::Cause(Cause::Thread(error)));
                shared.queue.finish();
                break;
            }
        }
    }
    others
}

/// Gives the first tasks, until the run ends or memory is missing: then the task that was not given comes back.
fn give_first<T, E>(
    tasks: &mut impl Iterator<Item = T>,
    more: &mut More<'_, T>,
    first: &FirstEnd<E>,
) -> Option<T> {
    let gave = catch_unwind(AssertUnwindSafe(|| more.give_first(tasks)));
    let (end, back) = match gave {
        Ok(Ok(())) => return None,
        Ok(Err(GiveError(task))) => (End::Cause(Cause::OutOfMemory), Some(task)),
        Err(panic) => (End::Panic(panic), None),
    };
    first.set(end);
    more.stop();
    back
}

#[cfg(test)]
#[path = "../../tests/unit/worn_work.rs"]
mod worn;
