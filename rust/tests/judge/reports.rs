//! What a check prints, beside the reports that the tests in C++ and Python share.
use crate::queues::{Locked, Stack};
use crate::{finding, turn};
use kfifo::judge::{Options, Outcome, Put, Report, run_check};
use std::collections::BTreeMap;
use std::ffi::{CStr, c_char, c_int};
use std::fs::{self, File, OpenOptions};
use std::io::Read;
use std::os::fd::FromRawFd;
use std::path::{Path, PathBuf};
use std::process::{Command, Stdio};
use std::sync::atomic::{AtomicU32, Ordering};
use std::{env, thread};

/// The lines of each report of the table, by its name.
fn wanted_reports() -> BTreeMap<String, Vec<String>> {
    let table = Path::new(env!("CARGO_MANIFEST_DIR")).join("../c/tests/checker/reports.txt");
    let table = fs::read_to_string(table).expect("the table can be read");
    let reports = table.split("\n[").skip(1);
    let named = reports.filter_map(|report| report.split_once("]\n"));
    named
        .map(|(name, text)| {
            (
                name.to_string(),
                text.trim().lines().map(String::from).collect(),
            )
        })
        .collect()
}

/// Whether a line is as wanted, where `*` is any text.
fn is_line(wanted: &str, line: &str) -> bool {
    let Some((before, after)) = wanted.split_once('*') else {
        return wanted == line;
    };
    let ends =
        |rest: &str| (0..=rest.len()).any(|at| rest.get(at..).is_some_and(|it| is_line(after, it)));
    line.strip_prefix(before).is_some_and(ends)
}

/// Whether lines are as wanted, where a line `..` is any number of them.
fn are_lines(wanted: &[String], lines: &[&str]) -> bool {
    let Some((first, others)) = wanted.split_first() else {
        return lines.is_empty();
    };
    if first == ".." {
        return (0..=lines.len()).any(|at| are_lines(others, &lines[at..]));
    }
    lines
        .split_first()
        .is_some_and(|(line, rest)| is_line(first, line) && are_lines(others, rest))
}

fn some() -> Options {
    Options {
        rounds: Some(3),
        quiet: true,
        ..finding("queue")
    }
}

fn passed() -> Report {
    run_check(Locked::default, Locked::push, Locked::pop, some()).expect("the options are good")
}

fn no_order(options: Options) -> Report {
    let options = Options {
        rounds: None,
        ..options
    };
    run_check(Stack::default, Stack::push, Stack::pop, options).expect("the options are good")
}

/// The report of a round that failed, with another outcome.
fn failed(outcome: Outcome) -> Report {
    Report {
        outcome,
        picture: None,
        ..no_order(some())
    }
}

fn not_written() -> Report {
    let blocked = Path::new(env!("CARGO_TARGET_TMPDIR")).join("a_file");
    fs::write(&blocked, "").expect("the file can be written");
    no_order(Options {
        folder: Some(blocked),
        ..some()
    })
}

fn undecided(of: Report, text: &str) -> Report {
    let text = text.to_string();
    Report {
        outcome: Outcome::Undecided { text },
        undecided: 1,
        tries: 7,
        ..of
    }
}

fn hang() -> Report {
    let put = |_: &Locked, _| -> Put {
        loop {
            thread::park();
        }
    };
    let options = Options {
        hang_seconds: 0.05,
        ..some()
    };
    run_check(Locked::default, put, Locked::pop, options).expect("the options are good")
}

/// A round of two calls, of which the queue never ends the third get. It is in the get that empties the queue, except
/// where one thread puts and the other gets nothing.
fn hang_after_a_round() -> Report {
    let options = || Options {
        threads: Some(2),
        calls: Some(1),
        rounds: Some(1),
        hang_seconds: 0.05,
        ..some()
    };
    let get = |(queue, gets): &(Locked, AtomicU32)| {
        while gets.load(Ordering::Relaxed) == 2 {
            thread::park();
        }
        gets.fetch_add(1, Ordering::Relaxed);
        queue.pop()
    };
    let run = || {
        let put = |(queue, _): &(Locked, AtomicU32), item| queue.push(item);
        run_check(<(Locked, AtomicU32)>::default, put, get, options())
            .expect("the options are good")
    };
    let mut reports = (0..100).map(|_| run());
    let hangs = |report: &Report| matches!(report.outcome, Outcome::Hang { .. });
    reports.find(hangs).expect("one of them hangs")
}

fn failed_call() -> Report {
    let get = |_: &Locked| -> Option<u32> { panic!("no such slot") };
    run_check(Locked::default, Locked::push, get, some()).expect("the options are good")
}

fn with_least(at_most: Option<u32>) -> Report {
    Report {
        k: 4,
        least: Some((2, at_most)),
        ..passed()
    }
}

type Check = fn() -> Report;

/// A check for each report of the table but that of progress.
const CASES: [(&str, Check); 13] = [
    ("passed", passed),
    ("few overlapping", || Report {
        overlapping: 0.01,
        ..passed()
    }),
    ("least k", || with_least(Some(3))),
    ("least k unknown", || with_least(None)),
    ("no order", || no_order(some())),
    ("not written", not_written),
    ("undecided", || {
        let report = failed(Outcome::NothingTaken);
        undecided(
            report,
            "undecided for k = 1\nthe tries ran out after 7 tries\n",
        )
    }),
    ("none decided", || undecided(passed(), "")),
    ("nothing taken", || {
        run_check(|| (), |_, _| false, |_| None::<u32>, some()).expect("the options are good")
    }),
    ("hang", hang),
    ("hang after a round", hang_after_a_round),
    ("failed call", failed_call),
    ("fault", || {
        let text = String::from("line 3 has an answer that no call of this kind has");
        failed(Outcome::Fault { text })
    }),
];

#[test]
fn the_reports_are_those_of_the_shared_table() {
    let _turn = turn();
    let mut wanted = wanted_reports();
    assert!(
        wanted.remove("progress").is_some(),
        "the table has a report that is left out here"
    );
    assert_eq!(
        wanted.len(),
        CASES.len(),
        "the table has other reports: {wanted:?}"
    );
    for (name, check) in CASES {
        let text = check().to_string();
        let lines: Vec<&str> = text.lines().collect();
        assert!(
            are_lines(&wanted[name], &lines),
            "{name}: {text}\nwanted {:#?}",
            wanted[name]
        );
    }
}

unsafe extern "C" {
    fn posix_openpt(flags: c_int) -> c_int;
    fn grantpt(terminal: c_int) -> c_int;
    fn unlockpt(terminal: c_int) -> c_int;
    fn ptsname(terminal: c_int) -> *const c_char;
}

/// A terminal: the end of the one who looks at it, and that of a program.
fn terminal() -> (File, File) {
    const READ_AND_WRITE: c_int = 2;
    // SAFETY: the calls take a file of this function's own, and the name is read before another call changes it.
    let (own, name) = unsafe {
        let own = posix_openpt(READ_AND_WRITE);
        assert!(
            own >= 0 && grantpt(own) == 0 && unlockpt(own) == 0,
            "there is no terminal"
        );
        (
            File::from_raw_fd(own),
            CStr::from_ptr(ptsname(own)).to_owned(),
        )
    };
    let path = PathBuf::from(name.into_string().expect("a name is text"));
    let of_program = OpenOptions::new().read(true).write(true).open(path);
    (own, of_program.expect("the terminal can be opened"))
}

/// The test runs itself with a terminal as its standard error, and there makes the check.
#[test]
fn the_progress_is_that_of_the_shared_table() {
    const INSIDE: &str = "KFIFO_SHOWS_PROGRESS";
    if env::var_os(INSIDE).is_some() {
        let options = Options {
            seconds: 2.0,
            ..finding("queue")
        };
        run_check(Locked::default, Locked::push, Locked::pop, options)
            .expect("the options are good");
        return;
    }
    let _turn = turn();
    let (mut own, of_program) = terminal();
    let status = Command::new(env::current_exe().expect("the test knows its program"))
        .args([
            "--exact",
            "reports::the_progress_is_that_of_the_shared_table",
        ])
        .env(INSIDE, "1")
        .stdout(Stdio::null())
        .stderr(of_program)
        .status();
    assert!(status.expect("the test runs itself").success());
    let mut said = Vec::new();
    let _ = own.read_to_end(&mut said); // it ends in an error, since nobody has the other end any more
    let said = String::from_utf8_lossy(&said);
    let lines: Vec<&str> = said.split("\r\x1b[K").filter(|it| !it.is_empty()).collect();
    let wanted = wanted_reports();
    assert!(!lines.is_empty() && said.ends_with("\r\x1b[K"), "{said:?}");
    assert!(
        lines
            .iter()
            .all(|line| are_lines(&wanted["progress"], &[line])),
        "{said:?}"
    );
}
