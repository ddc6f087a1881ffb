//! The calls of the judge's library, as `c/include/kfifo_judge.h` declares them.
use std::ffi::{c_char, c_int};
use std::ptr;

pub(super) const LEGAL: u32 = 0;
pub(super) const NO_ORDER: u32 = 1;
pub(super) const UNDECIDED: u32 = 2;
pub(super) const DRAWN: u32 = 3;
pub(super) const FAULT: u32 = 4;
pub(super) const NO_MEMORY: u32 = 6;

/// A call: `kfifo_judge_call`.
#[repr(C)]
pub(super) struct Call {
    pub(super) first: u64,
    pub(super) last: u64,
    pub(super) item: u64,
    pub(super) thread: u32,
    pub(super) op: u8,
    pub(super) answer: u8,
}

/// A call that a reason names: `kfifo_judge_named`.
#[repr(C)]
pub(super) struct Named {
    pub(super) number: usize,
    pub(super) line: u64,
    pub(super) call: Call,
}

/// What was found: `kfifo_judge_report`. The library allocates what the pointers lead to.
#[repr(C)]
pub(super) struct Report {
    pub(super) status: u32,
    pub(super) fault: u32,
    pub(super) place: u64,
    pub(super) text: *mut c_char,
    pub(super) length: usize,
    pub(super) evidence: u32,
    pub(super) headline: *mut c_char,
    pub(super) headline_length: usize,
    pub(super) named: *mut Named,
    pub(super) named_count: usize,
    pub(super) calls: usize,
    pub(super) left: usize,
    pub(super) at_least: usize,
    pub(super) at_most: u32,
    pub(super) tries: u64,
}

impl Report {
    pub(super) const fn empty() -> Report {
        Report {
            status: 0,
            fault: 0,
            place: 0,
            text: ptr::null_mut(),
            length: 0,
            evidence: 0,
            headline: ptr::null_mut(),
            headline_length: 0,
            named: ptr::null_mut(),
            named_count: 0,
            calls: 0,
            left: 0,
            at_least: 0,
            at_most: 0,
            tries: 0,
        }
    }
}

impl Drop for Report {
    fn drop(&mut self) {
        // SAFETY: the report is all 0, or as the library left it.
        unsafe { kfifo_judge_clear(self) }
    }
}

/// What clocks measure: `timespec`.
#[repr(C)]
pub(super) struct Timespec {
    pub(super) seconds: i64,
    pub(super) nanoseconds: i64,
}

// Each call that takes a report writes all its fields. It reads the calls, or the text, and keeps no pointer.
unsafe extern "C" {
    pub(super) fn kfifo_judge_calls(
        calls: *const Call,
        count: usize,
        k: u32,
        tries: u64,
        report: *mut Report,
    ) -> u32;
    pub(super) fn kfifo_judge_text(
        text: *const c_char,
        length: usize,
        k: u32,
        tries: u64,
        report: *mut Report,
    ) -> u32;
    pub(super) fn kfifo_least_calls(
        calls: *const Call,
        count: usize,
        tries: u64,
        report: *mut Report,
    ) -> u32;
    pub(super) fn kfifo_draw_calls(
        calls: *const Call,
        count: usize,
        k: u32,
        part: u32,
        style: u32,
        report: *mut Report,
    ) -> u32;
    // It returns a text of the library's own, which ends in a 0.
    pub(super) fn kfifo_judge_evidence_name(evidence: u32) -> *const c_char;
    fn kfifo_judge_clear(report: *mut Report);
}

// Of the C library: the processor time of another thread.
unsafe extern "C" {
    pub(super) fn pthread_getcpuclockid(thread: usize, clock: *mut c_int) -> c_int;
    pub(super) fn clock_gettime(clock: c_int, time: *mut Timespec) -> c_int;
}
