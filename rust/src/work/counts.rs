//! What each worker has given and done, and how the end is found by it.
//!
//! No count is written by all. Each worker has a line of memory with two counts of its own: it adds to `given` before
//! it gives a task, and to `done` after the task's body has returned. A line more is that of the run itself, whose only
//! task is to give the first tasks. A worker that finds nothing to take adds up all counts `done`, and after that all
//! counts `given`. Where the sums are equal, all is done.
//!
//! Why nobody says so too early. Take the tasks that the first sum counts, as a set. Each was counted as given before
//! it was given, so before it was taken and done; and what its body gave was counted before it was done. The second sum
//! is read after the first, so it counts each task of the set and all that these gave, and the task of the run. Where
//! it is no greater than the first, none of these is outside the set. So the run has given its first tasks, and what
//! tasks of the set gave is in the set: nothing else was ever given, and nothing runs that could give more. Read the
//! other way round it would be wrong: a task may be given and done between the two.
//!
//! Why somebody says so. A worker counts a task as done, and then looks for the next. At the first look that finds
//! nothing it puts a fence before it adds up. One of the workers' last such fences comes last, and all counts come
//! before it. So a worker that has added up need not do so again until it has done another task: it sleeps, and the
//! one that finds the end wakes it.
//!
//! `tests/work_model` goes through all interleavings of a model of these steps.
use std::sync::atomic::{AtomicU64, Ordering, fence};

/// What one worker counts. No other one writes this line, nor the one that a processor fetches with it.
#[repr(align(128))]
#[derive(Default)]
struct Line {
    given: AtomicU64,
    done: AtomicU64,
}

/// The counts of all workers, and of the run itself.
pub(crate) struct Counts {
    run: Line,
    workers: Box<[Line]>,
}

impl Counts {
    /// The counts before anything was given: the run has its task.
    pub(crate) fn new(workers: usize) -> Option<Counts> {
        let mut lines = Vec::new();
        lines.try_reserve_exact(workers).ok()?;
        lines.resize_with(workers, Line::default);
        let run = Line::default();
        run.given.store(1, Ordering::Relaxed);
        Some(Counts {
            run,
            workers: lines.into_boxed_slice(),
        })
    }

    /// A worker has given that many tasks, or is about to. Release: a thread that reads the count of a task that is
    /// done finds what its body gave.
    pub(crate) fn set_given(&self, worker: usize, tasks: u64) {
        self.workers[worker].given.store(tasks, Ordering::Release);
    }

    /// A worker has done that many tasks.
    pub(crate) fn set_done(&self, worker: usize, tasks: u64) {
        self.workers[worker].done.store(tasks, Ordering::Release);
    }

    /// The run has given its first tasks.
    pub(crate) fn set_run_done(&self) {
        self.run.done.store(1, Ordering::Release);
    }

    /// How many tasks a worker has done.
    pub(crate) fn done(&self, worker: usize) -> u64 {
        self.workers[worker].done.load(Ordering::Acquire)
    }

    fn lines(&self) -> impl Iterator<Item = &Line> {
        self.workers.iter().chain([&self.run])
    }

    /// Whether all that was given is done. A worker asks at its first look that finds nothing to take.
    pub(crate) fn are_over(&self) -> bool {
        fence(Ordering::SeqCst);
        let done: u64 = self.lines().map(|it| it.done.load(Ordering::Acquire)).sum();
        let given: u64 = self
            .lines()
            .map(|it| it.given.load(Ordering::Acquire))
            .sum();
        done == given
    }

    /// About how many tasks are given and not done.
    pub(crate) fn backlog(&self) -> u64 {
        let lines = self.workers.iter();
        let [given, done] = lines.fold([0, 0], |[given, done], it| {
            [
                given + it.given.load(Ordering::Relaxed),
                done + it.done.load(Ordering::Relaxed),
            ]
        });
        given.saturating_sub(done)
    }
}
