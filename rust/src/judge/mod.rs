//! A proved judge of logs of queues, and a check of any concurrent queue by thousands of short logged runs.
//!
//! [`check`] goes into a test of your own queue. Threads make calls on the queue for some seconds, in short rounds, and
//! the judge looks for a legal order of each round: one in which each get takes one of the k oldest items. If a round
//! has none, the test fails and prints why. That verdict is proved. That a check passes proves nothing: another
//! schedule may have a fault.
//!
//! ```
//! use kfifo::judge::{Options, check};
//! use std::collections::VecDeque;
//! use std::sync::Mutex;
//!
//! check(
//!     || Mutex::new(VecDeque::new()),
//!     |queue, item| queue.lock().unwrap().push_back(item),
//!     |queue| queue.lock().unwrap().pop_front(),
//!     Options { seconds: 0.2, ..Options::default() },
//! );
//! ```
//!
//! A put returns nothing or `true` where the item is in the queue, and `false` where the queue was full; a get returns
//! an `Option`. [`Put`] and [`Got`] say the other answers. Neither may wait: a call that does not return is a hang.
//!
//! # A call that hangs
//!
//! No thread can be ended from outside. [`check`] panics with the report in the thread that called it, and the worker
//! threads that hang stay, with the queue and the closures, until the process ends. One that spins keeps its
//! processor busy meanwhile, so later tests of the same process are slower. A process whose main thread returns ends
//! them.
//!
//! # Traps
//!
//! - A queue for one producer or one consumer fails when many threads use it. Set [`Options::one_producer`] or
//!   [`Options::one_consumer`].
//! - A put that returns `false` has changed nothing. One that may have put its item is no put of this check.
//! - A wrong Full is not judged: a queue that is never anything but full passes if one get took an item.
//! - Do not count or print in the closures: what they do between threads orders the threads, and hides faults.
//! - Build with `--release` or `opt-level = 3` in the test profile: there more schedules are met.
mod check;
mod clock;
mod ffi;
mod options;
mod report;
mod rounds;
mod verdict;
mod watch;

pub use options::{BadOption, Options};
pub use report::{Outcome, Report};
pub use verdict::{
    Answer, Call, Counts, Fault, Least, MAX_CALLS, MAX_ITEM, NamedCall, Op, Part, Reason, Style,
    TRIES, Verdict, draw, judge, judge_text, least, write_csv,
};

use crate::{PopError, PushError};
use rounds::Subject;
use std::sync::Arc;

/// What a put returned. `()` and `true` are `Done`, `false` is `Full`; refusals of a [`Handle`](crate::Handle) are
/// taken as what they are.
#[derive(Clone, Copy, Debug, PartialEq, Eq)]
pub enum Put {
    /// The item is in the queue.
    Done,
    /// The queue was full.
    Full,
    /// The call gave up because of others, and changed nothing.
    Busy,
    /// The queue can never again take such a call, and nothing was changed.
    Worn,
}

impl Put {
    fn answer(self) -> Answer {
        match self {
            Put::Done => Answer::Done,
            Put::Full => Answer::Full,
            Put::Busy => Answer::Busy,
            Put::Worn => Answer::Worn,
        }
    }
}

impl From<()> for Put {
    fn from((): ()) -> Put {
        Put::Done
    }
}

impl From<bool> for Put {
    fn from(is_done: bool) -> Put {
        if is_done { Put::Done } else { Put::Full }
    }
}

impl From<Result<(), PushError<u32>>> for Put {
    fn from(result: Result<(), PushError<u32>>) -> Put {
        match result {
            Ok(()) => Put::Done,
            Err(PushError::Full(_) | PushError::OutOfMemory(_)) => Put::Full,
            Err(PushError::Busy(_) | PushError::TimedOut(_)) => Put::Busy,
            Err(PushError::Worn(_) | PushError::Finished(_)) => Put::Worn,
        }
    }
}

/// What a get returned. An `Option` is an item or `Empty`; refusals of a [`Handle`](crate::Handle) are taken as what
/// they are.
#[derive(Clone, Copy, Debug, PartialEq, Eq)]
pub enum Got {
    /// This item was taken.
    Item(u64),
    /// The queue was empty.
    Empty,
    /// The call gave up because of others, and changed nothing.
    Busy,
    /// The queue can never again take such a call, and nothing was changed.
    Worn,
}

impl Got {
    fn answer(self) -> Answer {
        match self {
            Got::Item(_) => Answer::Got,
            Got::Empty => Answer::Empty,
            Got::Busy => Answer::Busy,
            Got::Worn => Answer::Worn,
        }
    }
}

impl From<Option<u32>> for Got {
    fn from(item: Option<u32>) -> Got {
        item.map_or(Got::Empty, |item| Got::Item(u64::from(item)))
    }
}

impl From<Option<u64>> for Got {
    fn from(item: Option<u64>) -> Got {
        item.map_or(Got::Empty, Got::Item)
    }
}

impl From<Result<u32, PopError>> for Got {
    fn from(result: Result<u32, PopError>) -> Got {
        match result {
            Ok(item) => Got::Item(u64::from(item)),
            Err(PopError::Empty) => Got::Empty,
            Err(PopError::Busy | PopError::TimedOut) => Got::Busy,
            Err(PopError::Worn | PopError::Finished) => Got::Worn,
        }
    }
}

/// Panics with the report where a check found a fault.
#[track_caller]
fn expect_pass(result: Result<Report, BadOption>) {
    match result {
        Ok(report) if report.has_passed() => {}
        Ok(report) => panic!("{report}"),
        Err(error) => panic!("kfifo check: {error}"),
    }
}

/// Checks a queue: makes it by `make`, and has threads put items by `put` and take them by `get`.
///
/// It is for a test: it takes [`Options::seconds`], 5 seconds. The [module](self) has an example.
///
/// # Panics
///
/// With the report, where a round has no legal order, a call does not return or panics, no get took an item, or an
/// option is out of range.
#[track_caller]
pub fn check<Q, A, B>(
    make: impl Fn() -> Q + Send + Sync + 'static,
    put: impl Fn(&Q, u32) -> A + Send + Sync + 'static,
    get: impl Fn(&Q) -> B + Send + Sync + 'static,
    options: Options,
) where
    Q: Send + Sync + 'static,
    A: Into<Put>,
    B: Into<Got>,
{
    expect_pass(run_check(make, put, get, options));
}

/// As [`check`], and returns the report instead of a panic.
///
/// # Errors
///
/// Where an option is out of range.
///
/// ```
/// use kfifo::judge::{Options, Outcome, run_check};
/// use std::sync::Mutex;
///
/// // A stack is no queue.
/// let report = run_check(
///     || Mutex::new(Vec::new()),
///     |stack, item| stack.lock().unwrap().push(item),
///     |stack| stack.lock().unwrap().pop(),
///     Options { quiet: true, ..Options::default() },
/// )?;
/// assert!(matches!(report.outcome, Outcome::NoOrder { .. }), "{report}");
/// # Ok::<(), kfifo::judge::BadOption>(())
/// ```
pub fn run_check<Q, A, B>(
    make: impl Fn() -> Q + Send + Sync + 'static,
    put: impl Fn(&Q, u32) -> A + Send + Sync + 'static,
    get: impl Fn(&Q) -> B + Send + Sync + 'static,
    options: Options,
) -> Result<Report, BadOption>
where
    Q: Send + Sync + 'static,
    A: Into<Put>,
    B: Into<Got>,
{
    let subject = Subject {
        make: Box::new(move |_| make()),
        is_sized: false,
        handle: Box::new(|queue, _| Arc::clone(queue)),
        put: Box::new(move |queue: &mut Arc<Q>, item| put(queue, item).into()),
        get: Box::new(move |queue: &mut Arc<Q>| get(queue).into()),
    };
    check::run(subject, options)
}

/// As [`check`], for a maker that takes a capacity: the rounds use queues of 2, 4, 8 and 64. Small ones find more.
///
/// # Panics
///
/// As [`check`].
///
/// ```
/// use kfifo::judge::{Options, check_sized};
/// use std::sync::{Mutex, mpsc};
///
/// check_sized(
///     |capacity| {
///         let (sender, receiver) = mpsc::sync_channel(capacity);
///         (sender, Mutex::new(receiver)) // one consumer, so the lock is free
///     },
///     |(sender, _), item| sender.try_send(item).is_ok(),
///     |(_, receiver)| receiver.lock().unwrap().try_recv().ok(),
///     Options { one_consumer: true, seconds: 0.2, ..Options::default() },
/// );
/// ```
#[track_caller]
pub fn check_sized<Q, A, B>(
    make: impl Fn(usize) -> Q + Send + Sync + 'static,
    put: impl Fn(&Q, u32) -> A + Send + Sync + 'static,
    get: impl Fn(&Q) -> B + Send + Sync + 'static,
    options: Options,
) where
    Q: Send + Sync + 'static,
    A: Into<Put>,
    B: Into<Got>,
{
    expect_pass(run_check_sized(make, put, get, options));
}

/// As [`check_sized`], and returns the report instead of a panic.
///
/// # Errors
///
/// Where an option is out of range.
pub fn run_check_sized<Q, A, B>(
    make: impl Fn(usize) -> Q + Send + Sync + 'static,
    put: impl Fn(&Q, u32) -> A + Send + Sync + 'static,
    get: impl Fn(&Q) -> B + Send + Sync + 'static,
    options: Options,
) -> Result<Report, BadOption>
where
    Q: Send + Sync + 'static,
    A: Into<Put>,
    B: Into<Got>,
{
    let subject = Subject {
        make: Box::new(make),
        is_sized: true,
        handle: Box::new(|queue, _| Arc::clone(queue)),
        put: Box::new(move |queue: &mut Arc<Q>, item| put(queue, item).into()),
        get: Box::new(move |queue: &mut Arc<Q>| get(queue).into()),
    };
    check::run(subject, options)
}

/// As [`check_sized`], for a queue whose threads need a handle each.
///
/// `handle` is called in each round by each thread, with the thread's number, and the handle is dropped when the round
/// ends. At most [`Options::threads`] of a queue's handles exist at a time, 8 where it is none.
///
/// # Panics
///
/// As [`check`].
///
/// ```
/// use kfifo::Queue;
/// use kfifo::judge::{Options, check_handles};
///
/// check_handles(
///     |capacity| Queue::new(1, capacity, 8).expect("the sizes are in range"), // k, capacity, threads
///     |queue, _thread| queue.handle().expect("a handle is free"),
///     |handle, item| handle.push(item),
///     |handle| handle.pop(),
///     Options { seconds: 0.2, ..Options::default() },
/// );
/// ```
#[track_caller]
pub fn check_handles<Q, H, A, B>(
    make: impl Fn(usize) -> Q + Send + Sync + 'static,
    handle: impl Fn(&Arc<Q>, usize) -> H + Send + Sync + 'static,
    put: impl Fn(&mut H, u32) -> A + Send + Sync + 'static,
    get: impl Fn(&mut H) -> B + Send + Sync + 'static,
    options: Options,
) where
    Q: Send + Sync + 'static,
    H: 'static,
    A: Into<Put>,
    B: Into<Got>,
{
    expect_pass(run_check_handles(make, handle, put, get, options));
}

/// As [`check_handles`], and returns the report instead of a panic.
///
/// # Errors
///
/// Where an option is out of range.
pub fn run_check_handles<Q, H, A, B>(
    make: impl Fn(usize) -> Q + Send + Sync + 'static,
    handle: impl Fn(&Arc<Q>, usize) -> H + Send + Sync + 'static,
    put: impl Fn(&mut H, u32) -> A + Send + Sync + 'static,
    get: impl Fn(&mut H) -> B + Send + Sync + 'static,
    options: Options,
) -> Result<Report, BadOption>
where
    Q: Send + Sync + 'static,
    H: 'static,
    A: Into<Put>,
    B: Into<Got>,
{
    let subject = Subject {
        make: Box::new(make),
        is_sized: true,
        handle: Box::new(handle),
        put: Box::new(move |handle: &mut H, item| put(handle, item).into()),
        get: Box::new(move |handle: &mut H| get(handle).into()),
    };
    check::run(subject, options)
}
