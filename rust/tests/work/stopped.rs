//! A run that stops, fails or does not begin hands back what is left.
use crate::{CASES, threads, total};
use kfifo::work::{self, Cause, Options};
use std::sync::atomic::{AtomicU64, Ordering};

#[test]
fn options_out_of_range_hand_the_tasks_back() {
    for bad in [0, 65, usize::MAX] {
        let refused = work::run([1, 2], |_, _| {}, threads(bad)).expect_err("out of range");
        assert!(matches!(refused.why, Cause::ThreadsOutOfRange));
        assert_eq!(refused.report.left, [1, 2]);
    }
    for k in [0, 65, u32::MAX] {
        let options = Options {
            k,
            ..Options::default()
        };
        let refused = work::run([1, 2], |_, _| {}, options).expect_err("out of range");
        assert!(matches!(refused.why, Cause::KOutOfRange));
        assert_eq!(refused.report.left, [1, 2]);
        assert_eq!(refused.to_string(), "k is not 1 to 64");
    }
}

#[test]
fn a_run_that_stops_gives_back_what_is_left() {
    for (workers, k) in CASES {
        let given = AtomicU64::new(1);
        let options = Options {
            threads: Some(workers),
            k,
        };
        let report = work::run(
            [0_u64],
            |number, more| {
                if number == 500 {
                    more.stop();
                    more.stop();
                }
                for _ in 0..3 {
                    let next = given.fetch_add(1, Ordering::SeqCst);
                    more.give(next).expect("there is memory");
                }
            },
            options,
        );
        let report = report.expect("the options are in range");
        assert_eq!(
            total(&report) + report.left.len() as u64,
            given.into_inner()
        );
        assert!(report.left.len() > 100);
        let mut left = report.left;
        left.sort_unstable();
        left.dedup();
        assert_eq!(
            left.len() as u64 + report.done.iter().sum::<u64>(),
            left.last().unwrap() + 1
        );
    }
}

/// A stop during the first tasks gives back those that were not yet given, too.
#[test]
fn a_run_that_stops_early_gives_back_all() {
    let report = work::run(
        0..1_000_000,
        |number, more| {
            if number == 10 {
                more.stop();
            }
        },
        threads(4),
    );
    let report = report.expect("the options are in range");
    assert_eq!(total(&report) + report.left.len() as u64, 1_000_000);
}

#[test]
fn the_first_error_comes_back_with_what_is_left() {
    for workers in [1, 2, 8] {
        let ended = work::try_run(
            0..10_000_u32,
            |number, _| match number {
                100.. => Err(format!("{number} is too much")),
                _ => Ok(()),
            },
            threads(workers),
        );
        let error = ended.expect_err("there are such numbers");
        assert!(error.to_string().ends_with(" is too much"));
        assert!(matches!(error.why, Cause::Task(_)));
        let report = &error.report;
        let gone = 10_000 - report.left.len() as u64 - total(report);
        assert!((1..=workers as u64).contains(&gone), "{gone} are gone");
    }
}

#[test]
fn tasks_without_errors_are_done() {
    let done = work::try_run([3], |_, _| Ok::<(), u8>(()), threads(2));
    assert_eq!(total(&done.expect("no error")), 1);
}

/// A run whose 64 threads have stacks of 300 MB where 1.4 GB can be had: some start, and one does not. It begins no
/// task, and hands all back. With stacks of the usual size a thread that has started would run out of memory as well,
/// and then the standard library aborts.
#[cfg(target_arch = "x86_64")]
#[test]
fn a_thread_that_is_not_started_ends_the_run() {
    const NAME: &str = "stopped::a_thread_that_is_not_started_ends_the_run";
    if std::env::var_os("IS_LIMITED").is_some() {
        let ended = work::run([1, 2], |_, _| {}, threads(64)).expect_err("there is no memory");
        assert!(matches!(ended.why, Cause::Thread(_)), "{ended}");
        assert_eq!(ended.report.left, [1, 2]);
        assert_eq!(total(&ended.report), 0);
        return;
    }
    let this = std::env::current_exe().expect("it has a path");
    let limited = std::process::Command::new("sh")
        .args(["-c", "ulimit -v 1400000 && exec \"$0\" --exact \"$1\""])
        .args([this.as_os_str(), NAME.as_ref()])
        .env("IS_LIMITED", "1")
        .env("RUST_MIN_STACK", "300000000")
        // Each further arena of malloc would take 64 MB or more of what can be had.
        .env("MALLOC_ARENA_MAX", "1")
        .output()
        .expect("there is a shell");
    let said = String::from_utf8_lossy(&limited.stdout);
    assert!(
        limited.status.success() && said.contains("1 passed"),
        "{said}{}",
        String::from_utf8_lossy(&limited.stderr)
    );
}
