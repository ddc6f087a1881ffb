//! Logs each call that threads make of your own queue, so that `kfifo` can judge the run. It needs std alone.
//!
//! How to use it:
//! 1. Copy this file beside your queue, and write `mod kfifo_log;`.
//! 2. Before the threads start: `let mut logs = kfifo_log::thread_logs(threads, calls);`, at most 64 threads. Give
//!    each thread its own, for example by `logs.iter_mut()` in a `std::thread::scope`.
//! 3. Make each call through it: `log.enqueue(item, || queue.push(item))` and `log.dequeue(|| queue.pop())`. A `bool`
//!    is taken as done or full, an `Option<u32>` as got or empty; for other answers return an `Enqueued` or a
//!    `Dequeued`.
//! 4. Give each item a number of its own, 1 to 16,777,215, for example from a counter for each producer that starts
//!    where no other gets to.
//! 5. Put some hundred items in before the threads start. After joining them, dequeue until the queue is empty, in a
//!    log of its own. In a queue that is nearly empty a wrong order hardly shows, and if the queue is left filled,
//!    nobody can see that an item is lost.
//! 6. `kfifo_log::write(&logs, std::io::stdout())?`, and then:
//!    `my_test > log.csv && kfifo judge < log.csv`
//!    Look at the line `calls <number>, items left <number>` too: 0 calls are no test, and items left are lost items if
//!    the log ends in a dequeue that found the queue empty.
//!
//! A log that is full takes no more calls, and `write` refuses it: missing calls would make the verdict wrong.
//! `kfifo` judges 16,777,215 calls at most. Each log is its thread's alone: there is no lock, and only `thread_logs`
//! takes memory.

#![allow(dead_code)] // a queue need not have every answer

use std::io::{self, BufWriter, Write};
use std::sync::atomic::{Ordering, fence};
use std::time::Instant;

/// What an enqueue answered.
#[derive(Clone, Copy, Debug, PartialEq, Eq)]
pub enum Enqueued {
    /// The item is in the queue.
    Done,
    /// The queue was full.
    Full,
    /// The call gave up because of others, and changed nothing.
    Busy,
    /// The queue can never again take such a call, and nothing was changed.
    Worn,
}

/// What a dequeue answered.
#[derive(Clone, Copy, Debug, PartialEq, Eq)]
pub enum Dequeued {
    /// This item was taken.
    Got(u32),
    /// The queue was empty.
    Empty,
    /// The call gave up because of others, and changed nothing.
    Busy,
    /// The queue can never again take such a call, and nothing was changed.
    Worn,
}

impl From<bool> for Enqueued {
    fn from(done: bool) -> Self {
        if done { Enqueued::Done } else { Enqueued::Full }
    }
}

impl From<Option<u32>> for Dequeued {
    fn from(item: Option<u32>) -> Self {
        item.map_or(Dequeued::Empty, Dequeued::Got)
    }
}

/// A call, and how it ended: the time and the answer, if it returned.
#[derive(Clone, Copy)]
enum Call {
    Enqueue(u32, Option<(u64, Enqueued)>),
    Dequeue(Option<(u64, Dequeued)>),
}

/// The log of one thread.
pub struct ThreadLog {
    thread: usize,
    /// The first time of each call, and the call.
    calls: Vec<(u64, Call)>,
    /// How many calls there is room for: a `Vec` may have more, or grow.
    room: usize,
    /// How many calls found the log full.
    missed: u64,
    /// The latest stamp of this thread.
    stamp: u64,
    /// The beginning of time, the same in all threads.
    origin: Instant,
}

/// Makes the logs of the threads 0, 1 and so on, each with room for `calls` calls.
///
/// # Panics
///
/// Of over 64 threads.
pub fn thread_logs(threads: usize, calls: usize) -> Vec<ThreadLog> {
    assert!(threads <= 64, "kfifo takes at most 64 threads");
    let origin = Instant::now();
    (0..threads)
        .map(|thread| ThreadLog::new(thread, calls, origin))
        .collect()
}

impl ThreadLog {
    fn new(thread: usize, room: usize, origin: Instant) -> Self {
        // Each page is written now, so that none has to be found while the run goes on.
        let mut calls = vec![(u64::MAX, Call::Dequeue(None)); room];
        calls.clear();
        ThreadLog {
            thread,
            calls,
            room,
            missed: 0,
            stamp: 0,
            origin,
        }
    }

    /// Nanoseconds of `Instant`, read until they are past the thread's latest stamp. It is a monotonic clock, one for
    /// all threads (on Linux CLOCK_MONOTONIC), and no correction of the time of day sets it back.
    ///
    /// `kfifo` refuses a call that begins when the one before it ends. To add 1 instead would let the call begin
    /// after its true beginning.
    fn next_stamp(&mut self) -> u64 {
        loop {
            let now = self.origin.elapsed().as_nanos() as u64;
            if now > self.stamp {
                self.stamp = now;
                return now;
            }
        }
    }

    /// Logs the beginning of a call; false where there is no room.
    fn begin(&mut self, call: Call) -> bool {
        if self.calls.len() == self.room {
            self.missed += 1;
            return false;
        }
        let first = self.next_stamp();
        self.calls.push((first, call));
        // The compiler moves nothing over a fence, and x86-64 waits for the stores before it, that of the stamp among
        // them. Without the fences a load of the call could be made before its first stamp, or a store become visible
        // after its last one, and a sound queue be found broken. On other processors a fence orders accesses to
        // memory alone, and the clock may be none.
        fence(Ordering::SeqCst);
        true
    }

    /// The last stamp of a call.
    fn end(&mut self) -> u64 {
        fence(Ordering::SeqCst);
        self.next_stamp()
    }

    /// Makes a call that enqueues this item, and logs it.
    pub fn enqueue<A: Copy + Into<Enqueued>>(&mut self, item: u32, call: impl FnOnce() -> A) -> A {
        let is_logged = self.begin(Call::Enqueue(item, None));
        let answer = call();
        if is_logged {
            let last = self.end();
            if let Some((_, call)) = self.calls.last_mut() {
                *call = Call::Enqueue(item, Some((last, answer.into())));
            }
        }
        answer
    }

    /// Makes a call that dequeues, and logs it.
    pub fn dequeue<A: Copy + Into<Dequeued>>(&mut self, call: impl FnOnce() -> A) -> A {
        let is_logged = self.begin(Call::Dequeue(None));
        let answer = call();
        if is_logged {
            let last = self.end();
            if let Some((_, call)) = self.calls.last_mut() {
                *call = Call::Dequeue(Some((last, answer.into())));
            }
        }
        answer
    }
}

/// The fields of a call in CSV, after its thread.
fn fields(first: u64, call: Call) -> String {
    match call {
        Call::Enqueue(item, None) => format!("enq,{item},{first},,"),
        Call::Enqueue(item, Some((last, answer))) => {
            let answer = match answer {
                Enqueued::Done => "done",
                Enqueued::Full => "full",
                Enqueued::Busy => "busy",
                Enqueued::Worn => "worn",
            };
            format!("enq,{item},{first},{last},{answer}")
        }
        Call::Dequeue(None) => format!("deq,,{first},,"),
        Call::Dequeue(Some((last, answer))) => match answer {
            Dequeued::Got(item) => format!("deq,{item},{first},{last},got"),
            Dequeued::Empty => format!("deq,,{first},{last},empty"),
            Dequeued::Busy => format!("deq,,{first},{last},busy"),
            Dequeued::Worn => format!("deq,,{first},{last},worn"),
        },
    }
}

/// Writes the logs as CSV for `kfifo judge`. A call that never returned, since it panicked, has no last time and no
/// answer. `kfifo` takes such a dequeue to have taken nothing, so let dequeues return.
///
/// # Errors
///
/// Where a log was full, so that calls are missing: nothing is written then. Else where `out` cannot be written.
pub fn write(logs: &[ThreadLog], out: impl Write) -> io::Result<()> {
    if let Some(log) = logs.iter().find(|log| log.missed > 0) {
        let ThreadLog { thread, missed, .. } = log;
        return Err(io::Error::other(format!(
            "the log of thread {thread} was full, and {missed} calls are missing"
        )));
    }
    let mut out = BufWriter::new(out);
    writeln!(out, "thread,op,item,first,last,answer")?;
    for log in logs {
        for &(first, call) in &log.calls {
            writeln!(out, "{},{}", log.thread, fields(first, call))?;
        }
    }
    out.flush()
}
