//! The clock of the logs, and random numbers.
use std::hint;
use std::sync::OnceLock;
use std::sync::atomic::{AtomicBool, AtomicU64, Ordering, compiler_fence, fence};
use std::thread;
use std::time::{Duration, Instant};

/// The clock of all threads: the counter of an x86-64 processor where it runs alike on all cores, else `Instant`.
#[derive(Clone, Copy)]
pub(super) struct Clock {
    origin: Instant,
    has_counter: bool,
}

/// Reads the counter before a call: no instruction of the call begins until it was read.
#[cfg(target_arch = "x86_64")]
fn counter_before() -> u64 {
    use std::arch::x86_64::{_mm_lfence, _rdtsc};
    // SAFETY: each x86-64 processor has these instructions.
    unsafe {
        let time = _rdtsc();
        _mm_lfence();
        time
    }
}

/// Reads the counter after a call: by then every thread can see what the call wrote, and its instructions have ended.
#[cfg(target_arch = "x86_64")]
fn counter_after() -> u64 {
    use std::arch::x86_64::{_mm_lfence, _mm_mfence, _rdtsc};
    // SAFETY: as in `counter_before`.
    unsafe {
        _mm_mfence();
        _mm_lfence();
        _rdtsc()
    }
}

#[cfg(not(target_arch = "x86_64"))]
fn counter_before() -> u64 {
    0
}

#[cfg(not(target_arch = "x86_64"))]
fn counter_after() -> u64 {
    0
}

/// Whether the counter never runs backwards from thread to thread: two threads hand a time to and fro, for a hundredth
/// of a second at most, since on a busy machine each turn may take long.
fn counter_is_common() -> bool {
    const TURNS: u64 = 2_000;
    const LIMIT: Duration = Duration::from_millis(10);
    let start = Instant::now();
    let (turn, time) = (AtomicU64::new(0), AtomicU64::new(0));
    let is_common = AtomicBool::new(cfg!(target_arch = "x86_64"));
    let play = |mine: u64| {
        for number in (mine..TURNS).step_by(2) {
            while turn.load(Ordering::Acquire) != number {
                if start.elapsed() > LIMIT {
                    return;
                }
                hint::spin_loop();
            }
            let now = counter_after();
            if now < time.load(Ordering::Relaxed) {
                is_common.store(false, Ordering::Relaxed);
            }
            time.store(now, Ordering::Relaxed);
            turn.store(number + 1, Ordering::Release);
        }
    };
    thread::scope(|scope| {
        scope.spawn(|| play(1));
        play(0);
    });
    is_common.into_inner()
}

impl Clock {
    /// What its times are, for the report.
    pub(super) fn unit(self) -> &'static str {
        if self.has_counter {
            "ticks of the processor's counter"
        } else {
            "nanoseconds"
        }
    }

    pub(super) fn new() -> Clock {
        static IS_COMMON: OnceLock<bool> = OnceLock::new();
        Clock {
            origin: Instant::now(),
            has_counter: *IS_COMMON.get_or_init(counter_is_common),
        }
    }

    /// The time before a call, greater than that at which the thread's call before it ended.
    ///
    /// To add 1 to an equal time instead would let the call begin after its true beginning.
    pub(super) fn before(&self, latest: u64) -> u64 {
        loop {
            let time = if self.has_counter {
                counter_before()
            } else {
                let time = self.origin.elapsed().as_nanos() as u64;
                fence(Ordering::SeqCst);
                time
            };
            if time > latest {
                compiler_fence(Ordering::SeqCst);
                return time;
            }
        }
    }

    /// The time after a call.
    pub(super) fn after(&self) -> u64 {
        compiler_fence(Ordering::SeqCst);
        if self.has_counter {
            counter_after()
        } else {
            fence(Ordering::SeqCst);
            self.origin.elapsed().as_nanos() as u64
        }
    }
}

/// Random numbers (splitmix64).
#[derive(Clone, Copy)]
pub(super) struct Random(pub(super) u64);

impl Random {
    pub(super) fn next(&mut self) -> u64 {
        self.0 = self.0.wrapping_add(0x9e37_79b9_7f4a_7c15);
        let mut mixed = self.0;
        mixed = (mixed ^ (mixed >> 30)).wrapping_mul(0xbf58_476d_1ce4_e5b9);
        mixed = (mixed ^ (mixed >> 27)).wrapping_mul(0x94d0_49bb_1331_11eb);
        mixed ^ (mixed >> 31)
    }

    /// A number from 0 to `limit - 1`.
    pub(super) fn below(&mut self, limit: u64) -> u64 {
        ((u128::from(self.next()) * u128::from(limit)) >> 64) as u64
    }

    pub(super) fn one_of<T: Copy>(&mut self, choices: &[T]) -> T {
        choices[self.below(choices.len() as u64) as usize]
    }
}
