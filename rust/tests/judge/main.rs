//! The judge, and the check: it finds the fault of each faulty queue and passes the right ones.
//!
//! Each right queue is checked for 2 seconds, and with the environment variable KFIFO_JUDGE_LONG for 30. The queues are
//! checked one after the other, since each check wants several processors.
mod faulty;
mod outcomes;
mod programs;
mod queues;
mod reports;
mod right;
mod verdicts;

use kfifo::judge::{BadOption, Options, Outcome, Report, TRIES, Verdict, judge_text};
use std::path::PathBuf;
use std::sync::{Mutex, MutexGuard, PoisonError};
use std::{env, fs};

/// What the judge says of a stack, but for its items.
const OVERTAKING: [&str; 2] = [" came out, and item ", ", which went in before, had not"];

/// Held by the check that runs.
fn turn() -> MutexGuard<'static, ()> {
    static TURN: Mutex<()> = Mutex::new(());
    TURN.lock().unwrap_or_else(PoisonError::into_inner)
}

/// How long a check may take where other programs use the processors. It takes a fraction of that on an idle machine.
const AT_MOST: f64 = 60.0;

/// The share of overlapping calls below which threads take turns on a processor, so that a race hardly ever shows. On
/// an idle machine with two processors it is above a half.
const HARDLY: f64 = 0.05;

/// How long a right queue is checked.
fn usual_time() -> f64 {
    let is_long = env::var_os("KFIFO_JUDGE_LONG").is_some();
    if is_long { 30.0 } else { 2.0 }
}

/// Options of a check that is to find a fault.
fn finding(name: &str) -> Options {
    Options {
        name: name.to_string(),
        seconds: AT_MOST,
        folder: Some(PathBuf::from(env!("CARGO_TARGET_TMPDIR"))),
        ..Options::default()
    }
}

/// Options of a check that is to pass.
fn passing(name: &str) -> Options {
    Options {
        seconds: usual_time(),
        ..finding(name)
    }
}

/// Whether nothing was found since the machine has no processor for a second thread.
fn had_no_race(report: &Report) -> bool {
    let had_none = report.has_passed() && report.overlapping < HARDLY;
    if had_none {
        println!("skipped: the calls of threads hardly overlap on this machine");
    }
    had_none
}

/// The report says that there is no order, by one of these kinds of evidence, and its files are there.
fn finds(report: Result<Report, BadOption>, kinds: &[u32]) {
    let report = report.expect("the options are good");
    println!("{report}");
    if had_no_race(&report) {
        return;
    }
    let Outcome::NoOrder { text, reason } = &report.outcome else {
        panic!("the fault was not found as what it is: {report}");
    };
    assert!(kinds.contains(&reason.evidence), "{report}");
    let head = format!("no legal order: {}\n", reason.headline);
    assert!(report.to_string().contains(&head), "{report}");
    let log = fs::read(report.log.as_ref().expect("there is a log")).expect("it can be read");
    let again = judge_text(&log, report.k, TRIES).expect("the log is one");
    assert!(
        matches!(again, Verdict::NoOrder { text: same, reason: why, .. } if same == *text && why == *reason),
        "{report}"
    );
    let picture = fs::read_to_string(report.picture.as_ref().expect("there is a picture"))
        .expect("it can be read");
    assert!(picture.contains("<svg"), "{picture}");
}
