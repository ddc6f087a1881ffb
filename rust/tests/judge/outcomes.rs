//! What else comes of a check: a call that hangs or panics, a queue that gives nothing, options that are refused; and
//! what the report says.
use crate::queues::{Locked, Stack};
use crate::{OVERTAKING, finding, turn};
use kfifo::judge::{Options, Outcome, Put, run_check};
use std::sync::Mutex;
use std::time::{Duration, Instant};
use std::{fs, thread};

#[test]
fn a_call_that_spins_hangs() {
    let _turn = turn();
    let get = |queue: &Locked| -> Option<u32> {
        while queue.pop().is_none() {
            thread::yield_now();
        }
        Some(1)
    };
    let options = Options {
        hang_seconds: 0.2,
        ..finding("spins")
    };
    let report =
        run_check(Locked::default, |_: &Locked, _| (), get, options).expect("the options are good");
    let Outcome::Hang { threads } = &report.outcome else {
        panic!("{report}");
    };
    assert!(
        threads.iter().any(|line| line.contains("was in a get")),
        "{report}"
    );
    let log =
        fs::read_to_string(report.log.as_ref().expect("there is a log")).expect("it can be read");
    assert!(
        log.lines()
            .any(|line| line.contains(",deq,,") && line.ends_with(",,")),
        "{log}"
    );
}

#[test]
fn a_call_that_sleeps_hangs() {
    let _turn = turn();
    let put = |_: &Mutex<()>, _| -> Put {
        loop {
            thread::park();
        }
    };
    let options = Options {
        hang_seconds: 0.05,
        ..finding("sleeps")
    };
    let start = Instant::now();
    let report =
        run_check(Mutex::default, put, |_| None::<u32>, options).expect("the options are good");
    assert!(matches!(report.outcome, Outcome::Hang { .. }), "{report}");
    assert!(
        report.to_string().contains("was in a put of item"),
        "{report}"
    );
    assert!(start.elapsed() >= Duration::from_millis(500));
}

#[test]
fn a_call_that_panics_is_named() {
    let _turn = turn();
    let get = |_: &Locked| -> Option<u32> { panic!("out of nodes") };
    let report = run_check(Locked::default, Locked::push, get, finding("panics"))
        .expect("the options are good");
    let Outcome::Panicked { message, .. } = &report.outcome else {
        panic!("{report}");
    };
    assert_eq!(message, "out of nodes");
}

#[test]
fn a_queue_that_never_gives_an_item_does_not_pass() {
    let _turn = turn();
    let options = Options {
        rounds: Some(20),
        ..finding("nothing")
    };
    let report =
        run_check(|| (), |_, _| false, |_| None::<u32>, options).expect("the options are good");
    assert_eq!(report.outcome, Outcome::NothingTaken);
    assert_eq!(report.rounds, 20);
}

#[test]
fn the_panic_of_a_check_has_the_report() {
    let _turn = turn();
    let check = || kfifo::judge::check(Stack::default, Stack::push, Stack::pop, finding("stack"));
    let payload = std::panic::catch_unwind(check).expect_err("a stack is no queue");
    let text = payload
        .downcast_ref::<String>()
        .expect("the panic has a text");
    assert!(OVERTAKING.iter().all(|part| text.contains(part)), "{text}");
    assert!(
        text.contains("got by call") && text.contains("seed ") && text.contains(".svg"),
        "{text}"
    );
}

type Change = fn(&mut Options);

/// Options that are changed in one way, and why they are refused.
const REFUSED: [(Change, &str); 15] = [
    (|it| it.k = 0, "k is not 1 to 64"),
    (|it| it.k = 65, "k is not 1 to 64"),
    (
        |it| it.threads = Some(1),
        "the number of threads is not 2 to 64",
    ),
    (
        |it| it.threads = Some(65),
        "the number of threads is not 2 to 64",
    ),
    (|it| it.calls = Some(0), "there are no calls"),
    (
        |it| it.calls = Some(5000),
        "a round would have more calls than can be judged",
    ),
    (
        |it| it.calls = Some(usize::MAX),
        "a round would have more calls than can be judged",
    ),
    (
        |it| (it.one_producer, it.one_consumer, it.threads) = (true, true, Some(3)),
        "with one producer and one consumer there are two threads",
    ),
    (
        |it| it.repeated = Some(0),
        "the number of different items is not 1 to 16,777,215",
    ),
    (|it| it.seconds = -1.0, "seconds are not a number from 0 on"),
    (
        |it| it.seconds = f64::NAN,
        "seconds are not a number from 0 on",
    ),
    (
        |it| it.rounds = Some(0),
        "rounds are not a number from 1 on",
    ),
    (
        |it| it.hang_seconds = 0.0,
        "hang_seconds are not a number over 0",
    ),
    (
        |it| it.hang_seconds = f64::NAN,
        "hang_seconds are not a number over 0",
    ),
    (
        |it| it.name = String::from("a/b"),
        "the name is empty, or cannot stand in the name of a file",
    ),
];

#[test]
fn options_out_of_range_are_refused() {
    for (change, text) in REFUSED {
        let mut options = Options::default();
        change(&mut options);
        let result = run_check(Locked::default, Locked::push, Locked::pop, options);
        assert_eq!(
            result.expect_err("an option is out of range").to_string(),
            text
        );
    }
}
