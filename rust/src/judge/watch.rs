//! Finds threads that hang: one call that takes too much processor time, or far too long on the clock.
use super::ffi;
use super::rounds::{AGING, Lane, Phase};
use super::verdict::{Answer, Op};
use std::os::unix::thread::JoinHandleExt;
use std::thread::JoinHandle;
use std::time::{Duration, Instant};

/// How many times as long a call may take on the clock as in processor time: a thread that sleeps, or that others keep
/// from running, uses none.
const WAIT_FACTOR: u32 = 10;

/// The processor time of a thread that was not joined; none where the system does not say.
fn processor_time(worker: &JoinHandle<()>) -> Option<Duration> {
    let mut clock = 0;
    let mut time = ffi::Timespec {
        seconds: 0,
        nanoseconds: 0,
    };
    // SAFETY: the thread was not joined, since there is its handle, so its number is valid. Both calls write to
    // variables of this function alone.
    let status = unsafe {
        match ffi::pthread_getcpuclockid(worker.as_pthread_t() as usize, &mut clock) {
            0 => ffi::clock_gettime(clock, &mut time),
            status => status,
        }
    };
    (status == 0).then(|| Duration::new(time.seconds as u64, time.nanoseconds as u32))
}

/// Where a worker was when it was last seen to make progress.
#[derive(Clone, Copy)]
struct Progress {
    phase: Phase,
    length: usize,
    processor: Option<Duration>,
    since: Instant,
}

/// The progress of all workers in a round.
pub(super) struct Watch {
    seen: Vec<Option<Progress>>,
}

impl Watch {
    pub(super) fn new(threads: usize) -> Watch {
        Watch {
            seen: vec![None; threads],
        }
    }

    /// Looks at each worker, and returns whether one hangs. The more often it is called, the sooner that is seen.
    pub(super) fn sees_hang(
        &mut self,
        lanes: &[Lane],
        workers: &[JoinHandle<()>],
        limit: Duration,
    ) -> bool {
        let mut hangs = false;
        for ((seen, lane), worker) in self.seen.iter_mut().zip(lanes).zip(workers) {
            let now = Progress {
                phase: lane.phase(),
                length: lane.length(),
                processor: processor_time(worker),
                since: Instant::now(),
            };
            match seen {
                Some(then) if (then.phase, then.length) == (now.phase, now.length) => {
                    hangs |= is_in_call(now.phase) && has_passed(then, &now, limit);
                }
                _ => *seen = Some(now),
            }
        }
        hangs
    }

    /// What each worker is in that is in a call, as it was when it was last looked at.
    pub(super) fn describe(&self, lanes: &[Lane], workers: &[JoinHandle<()>]) -> Vec<String> {
        let each = self.seen.iter().zip(lanes).zip(workers).enumerate();
        let lines: Vec<String> = each
            .filter_map(|(thread, ((seen, lane), worker))| {
                let (call, then) = (call_of(thread, lane)?, seen.as_ref()?);
                let used = used_since(then, processor_time(worker)).as_secs_f64();
                let lasted = then.since.elapsed().as_secs_f64();
                let times = format!("{used:.2} s of processor time and {lasted:.2} s in all");
                Some(format!("thread {thread} was in {call}, for {times}"))
            })
            .collect();
        if lines.is_empty() {
            return vec![String::from("no thread was in a call of the queue")];
        }
        lines
    }
}

/// Whether a worker is in code of the queue's.
fn is_in_call(phase: Phase) -> bool {
    matches!(
        phase,
        Phase::MakingHandle | Phase::Aging | Phase::Calling | Phase::Emptying
    )
}

/// Whether a call has taken too much time.
fn has_passed(then: &Progress, now: &Progress, limit: Duration) -> bool {
    let limit = match now.phase {
        Phase::Aging => limit + AGING, // of many calls
        _ => limit,
    };
    let used = used_since(then, now.processor);
    used >= limit || now.since - then.since >= limit * WAIT_FACTOR
}

/// The processor time that a worker has used since then; 0 where the system does not say.
fn used_since(then: &Progress, now: Option<Duration>) -> Duration {
    match (then.processor, now) {
        (Some(then), Some(now)) => now.saturating_sub(then),
        _ => Duration::ZERO,
    }
}

/// The call that a worker is in, for the report.
fn call_of(thread: usize, lane: &Lane) -> Option<String> {
    let call = || {
        let last = lane.calls(thread).last();
        last.filter(|call| call.answer == Answer::Unfinished)
    };
    let what = match lane.phase() {
        Phase::MakingHandle => return Some(String::from("the maker of its handle")),
        Phase::Aging => return Some(String::from("a call before the round, which is not logged")),
        Phase::Emptying => call().map(|_| String::from("a get that empties the queue")),
        Phase::Calling => call().map(|call| match call.op {
            Op::Put => format!("a put of item {}", call.item),
            Op::Get => String::from("a get"),
        }),
        Phase::Idle | Phase::WaitingForStart | Phase::WaitingForOthers => None,
    };
    what.map(|what| format!("{what}, call {} of its own", lane.length()))
}
