//! Handles that `unsafe` code shares or copies: a debug build says so and ends the program.
use super::{Looks, Shared, ffi};
use crate::Options;
use std::env;
use std::process::Command;
use std::sync::atomic::Ordering;
use std::thread;

const CASE: &str = "KFIFO_MISUSE";

/// Uses a handle as the case says.
fn misuse(case: &str) {
    let shared = Shared::<u64>::open(1, 8, 2, Options::default()).expect("the sizes are in range");
    let number = shared.borrow_handle().expect("a handle is free");
    if case == "returned twice" {
        shared.return_handle(number);
        shared.return_handle(number);
    }
    thread::scope(|scope| {
        // SAFETY: this is what `pop` asks not to do. The process ends before two calls change the handle: the one
        // sleeps.
        scope.spawn(|| unsafe { shared.pop(number, Looks::Within(ffi::FOREVER)) });
        while shared.waits.state.load(Ordering::SeqCst) < ffi::TAKER {
            thread::yield_now();
        }
        match case {
            // SAFETY: as above.
            "pushed" => drop(unsafe { shared.push(number, 7, Looks::UnlessBusy) }),
            // SAFETY: as above.
            "popped" => drop(unsafe { shared.pop(number, Looks::UnlessBusy) }),
            "dropped" => shared.return_handle(number),
            _ => shared.finish(),
        }
    });
}

/// Whether a process of this case ends well, and what it says.
fn run(case: &str) -> (bool, String) {
    let output = Command::new(env::current_exe().expect("the test has a path"))
        .args([
            "--exact",
            "shared::misuse::each_second_call_ends_the_program",
            "--nocapture",
        ])
        .env(CASE, case)
        .output()
        .expect("the test starts");
    (
        output.status.success(),
        String::from_utf8_lossy(&output.stderr).into_owned(),
    )
}

#[test]
fn each_second_call_ends_the_program() {
    if let Ok(case) = env::var(CASE) {
        return misuse(&case);
    }
    for (case, says) in [
        (
            "pushed",
            "kfifo: a push of handle 0, which is in another call",
        ),
        (
            "popped",
            "kfifo: a pop of handle 0, which is in another call",
        ),
        (
            "dropped",
            "kfifo: the drop of handle 0, which is in another call",
        ),
        (
            "returned twice",
            "kfifo: the drop of handle 0, which was dropped before",
        ),
    ] {
        let (ends_well, said) = run(case);
        assert!(!ends_well && said.contains(says), "{case}: {said}");
    }
    let (ends_well, said) = run("used as it may be");
    assert!(ends_well && !said.contains("kfifo:"), "{said}");
}
