//! A worker: how it takes tasks, does them, and gives more.
use super::counts::Counts;
use super::error::{Cause, GiveError};
use super::nodes::{Nodes, Pool};
use super::queue::{Queue, Sizes};
use crate::ffi::{self, Value};
use std::any::Any;
use std::fmt::{self, Debug, Formatter};
use std::panic::{AssertUnwindSafe, catch_unwind};
use std::sync::{Mutex, PoisonError};

/// After how many takes a worker looks whether the queue has room for what is in the list.
const TAKES_BETWEEN_REFILLS: u32 = 16;
/// A worker adds up the backlog at each of its first gives, and then at each give with a number that this divides.
const GIVES_BETWEEN_LOOKS: u64 = 64;

/// What the workers of a run share.
pub(crate) struct Shared<T> {
    pub(crate) queue: Queue,
    pub(crate) counts: Counts,
    pub(crate) pool: Pool<T>,
}

impl<T> Shared<T> {
    pub(crate) fn open<E>(sizes: &Sizes, workers: usize) -> Result<Shared<T>, Cause<E>> {
        Ok(Shared {
            queue: Queue::open(sizes, workers)?,
            counts: Counts::new(workers).ok_or(Cause::OutOfMemory)?,
            pool: Pool::new(),
        })
    }

    /// The tasks that are left: those of the queue first, in its order.
    pub(crate) fn into_tasks(self) -> Vec<T> {
        let mut nodes = Nodes::new(&self.pool);
        let values = self.queue.into_values().into_iter();
        // SAFETY: a worker of this run packed each value, and the queue gives back each once.
        values.map(|it| unsafe { nodes.unpack(it) }).collect()
    }
}

/// Why a run ended early.
pub(crate) enum End<E> {
    Cause(Cause<E>),
    Panic(Box<dyn Any + Send>),
}

/// The first of the ends of a run, if it has one.
pub(crate) struct FirstEnd<E>(Mutex<Option<End<E>>>);

impl<E> FirstEnd<E> {
    pub(crate) fn none() -> FirstEnd<E> {
        FirstEnd(Mutex::new(None))
    }

    /// Keeps an end, unless there is one.
    pub(crate) fn set(&self, end: End<E>) {
        let mut first = self.0.lock().unwrap_or_else(PoisonError::into_inner);
        if first.is_none() {
            *first = Some(end);
            return;
        }
        drop(first);
        // It is dropped here, and what a panic of that drop says is lost.
        std::mem::forget(catch_unwind(AssertUnwindSafe(|| drop(end))));
    }

    pub(crate) fn into_inner(self) -> Option<End<E>> {
        self.0.into_inner().unwrap_or_else(PoisonError::into_inner)
    }
}

/// What a worker tells when it has ended.
#[derive(Clone, Copy, Default)]
pub(crate) struct Told {
    pub(crate) slept: u64,
    pub(crate) backlog: u64,
}

/// What a task gives further tasks by, and ends the run early: an argument of each body.
///
/// It belongs to one worker, so a body that starts threads of its own does not hand it to them.
///
/// ```
/// use kfifo::work::{self, Options, RunError};
///
/// // Each number gives the two below it.
/// let report = work::run(
///     [10_u32],
///     |number, more| {
///         for below in [number.checked_sub(1), number.checked_sub(2)] {
///             if let Some(below) = below {
///                 more.give(below).expect("there is memory");
///             }
///         }
///     },
///     Options { threads: Some(2), ..Options::default() },
/// )?;
/// assert_eq!(report.done.iter().sum::<u64>(), 232);
/// # Ok::<(), RunError<u32>>(())
/// ```
///
/// ```compile_fail,E0277
/// fn is_send<T: Send>() {}
/// is_send::<kfifo::work::More<'static, u32>>();
/// ```
pub struct More<'a, T> {
    shared: &'a Shared<T>,
    nodes: Nodes<'a, T>,
    /// The number of the worker, and of its handle.
    number: usize,
    takes: u32,
    given: u64,
    done: u64,
    told: Told,
}

impl<'a, T> More<'a, T> {
    pub(crate) fn new(shared: &'a Shared<T>, number: usize) -> More<'a, T> {
        More {
            shared,
            nodes: Nodes::new(&shared.pool),
            number,
            takes: 0,
            given: 0,
            done: 0,
            told: Told::default(),
        }
    }

    /// Gives a task, which some worker does later: it never waits. Where there is no memory for the task it comes back,
    /// and nothing was given.
    ///
    /// What this thread wrote before is seen by the worker that does the task. After [`More::stop`] too a task may be
    /// given: it comes back in the report.
    ///
    /// Cost: that of a push, and a move of the task. It asks for memory for each 128th task that is larger than 8 bytes
    /// and finds no place of an earlier one, and where the queue grows. It calls the system only to wake a worker.
    ///
    /// ```
    /// use kfifo::work::{self, Options, RunError};
    ///
    /// let report = work::run(
    ///     [1_u64],
    ///     |number, more| {
    ///         if number < 1_000 {
    ///             more.give(number + 1).expect("there is memory");
    ///         }
    ///     },
    ///     Options::default(),
    /// )?;
    /// assert_eq!(report.done.iter().sum::<u64>(), 1_000);
    /// # Ok::<(), RunError<u64>>(())
    /// ```
    pub fn give(&mut self, task: T) -> Result<(), GiveError<T>> {
        let value = self.nodes.pack(task).map_err(GiveError)?;
        // Before it is given: the worker that takes it and has done it finds this count.
        self.given += 1;
        self.shared.counts.set_given(self.number, self.given);
        // SAFETY: the handle is this worker's, and so this thread's.
        if let Err(value) = unsafe { self.shared.queue.give(self.number, value) } {
            return Err(GiveError(self.take_back(value)));
        }
        if self.given < GIVES_BETWEEN_LOOKS || self.given % GIVES_BETWEEN_LOOKS == 0 {
            self.look_at_backlog();
        }
        Ok(())
    }

    /// Undoes a give: the task that gave it is not done, so nobody has found the end meanwhile.
    #[cold]
    fn take_back(&mut self, value: Value) -> T {
        self.given -= 1;
        self.shared.counts.set_given(self.number, self.given);
        // SAFETY: it is what `pack` just made.
        unsafe { self.nodes.unpack(value) }
    }

    #[cold]
    fn look_at_backlog(&mut self) {
        self.told.backlog = self.told.backlog.max(self.shared.counts.backlog());
    }

    /// Ends the run early: no further task is begun, but for those that other workers begin just now. The tasks that
    /// are left come back in [`Report::left`](super::Report::left). Any number of tasks may call it.
    ///
    /// Cost: an atomic step, and two calls of the system for the first call of a run.
    ///
    /// ```
    /// use kfifo::work::{self, Options, RunError};
    ///
    /// let one = Options { threads: Some(1), k: 1 };
    /// let report = work::run(
    ///     1..=5,
    ///     |number, more| {
    ///         if number == 3 {
    ///             more.stop();
    ///         }
    ///     },
    ///     one,
    /// )?;
    /// assert_eq!((report.done, report.left), (vec![3], vec![4, 5]));
    /// # Ok::<(), RunError<i32>>(())
    /// ```
    pub fn stop(&mut self) {
        self.shared.queue.finish();
    }

    /// Gives the first tasks, until the run ends or memory is missing, and counts that as done.
    pub(crate) fn give_first(
        &mut self,
        tasks: &mut impl Iterator<Item = T>,
    ) -> Result<(), GiveError<T>> {
        while !self.shared.queue.is_finished() {
            let Some(task) = tasks.next() else { break };
            self.give(task)?;
        }
        self.shared.counts.set_run_done();
        Ok(())
    }

    /// Takes tasks and does them until the run ends. What ends it early goes to `first`.
    pub(crate) fn work<E, F>(mut self, body: &F, first: &FirstEnd<E>) -> Told
    where
        F: Fn(T, &mut More<'_, T>) -> Result<(), E>,
    {
        let end = loop {
            let Some(task) = self.take() else {
                return self.told;
            };
            match catch_unwind(AssertUnwindSafe(|| body(task, &mut self))) {
                Ok(Ok(())) => {
                    self.done += 1;
                    self.shared.counts.set_done(self.number, self.done);
                }
                Ok(Err(error)) => break End::Cause(Cause::Task(error)),
                Err(panic) => break End::Panic(panic),
            }
        };
        first.set(end);
        self.stop();
        self.told
    }

    /// Takes a task, and sleeps while there is none. It returns none where the run ends.
    #[inline]
    fn take(&mut self) -> Option<T> {
        let mut value = Value::uninit();
        let mut status = self.look(&mut value);
        if status != ffi::GOT {
            status = self.wait(status, &mut value);
        }
        if status != ffi::GOT {
            debug_assert_eq!(status, ffi::FINISHED);
            return None;
        }
        // SAFETY: a worker of this run packed the value, and the queue gives it out once.
        Some(unsafe { self.nodes.unpack(value) })
    }

    /// One look for a task.
    #[inline]
    fn look(&mut self, value: &mut Value) -> u32 {
        self.takes = self.takes.wrapping_add(1);
        if self.takes % TAKES_BETWEEN_REFILLS == 0 && self.shared.queue.has_list() {
            // SAFETY: the handle is this worker's, and so this thread's.
            unsafe { self.shared.queue.refill(self.number) };
        }
        // SAFETY: likewise.
        unsafe { self.shared.queue.take(self.number, value) }
    }

    /// Waits for a task, after a look that came to this status.
    #[cold]
    fn wait(&mut self, mut status: u32, value: &mut Value) -> u32 {
        if status == ffi::EMPTY && self.shared.counts.are_over() {
            self.shared.queue.finish();
            return ffi::FINISHED;
        }
        let waits = &self.shared.queue.waits;
        let mut waiter = ffi::Waiter::new(waits, ffi::TAKER, ffi::FOREVER);
        loop {
            let sleeps = waiter.is_announced() && status == ffi::EMPTY;
            // SAFETY: the waiter is of this queue's waits, and one waiter is used for one wait.
            if unsafe { ffi::kfifo_wait_again(&mut waiter, &mut status) } == 0 {
                return status;
            }
            self.told.slept += u64::from(sleeps);
            status = self.look(value);
        }
    }
}

impl<T> Debug for More<'_, T> {
    fn fmt(&self, f: &mut Formatter<'_>) -> fmt::Result {
        f.debug_struct("More").finish_non_exhaustive()
    }
}
