//! The check passes right queues.
use crate::queues::{Linked, Locked, Pair, Ring, RingFault};
use crate::{AT_MOST, finding, finds, passing, turn};
use kfifo::judge::{
    BadOption, Options, Outcome, Put, Report, run_check, run_check_handles, run_check_sized,
};
use std::sync::{Mutex, mpsc};
use std::thread;
use std::time::Instant;

/// The kind of evidence that an item overtook others, as `docs/JUDGE.md` has it.
const OVERTAKEN: u32 = 4;

/// Whether there is one processor alone.
fn is_alone() -> bool {
    thread::available_parallelism().is_ok_and(|count| count.get() == 1)
}

/// The check passes, and has tried something. It goes on longer where the machine was too busy for that.
fn passes(check: impl Fn(Options) -> Result<Report, BadOption>, options: Options) -> Report {
    let run = |options| {
        let report = check(options).expect("the options are good");
        assert!(report.has_passed(), "{report}");
        assert_eq!(report.undecided, 0, "{report}");
        report
    };
    let is_enough = |report: &Report| report.rounds > 10 && report.taken > 1000;
    let mut report = run(options.clone());
    if !is_enough(&report) {
        report = run(Options {
            seconds: AT_MOST,
            rounds: Some(50),
            ..options
        });
    }
    assert!(is_enough(&report), "{report}");
    report
}

/// The check passes, and its report counts calls that overlap. On a busy machine threads may take turns for seconds, so
/// it goes on until some do: a report that counts none of them in all that time is wrong.
fn passes_with_overlaps(check: impl Fn(Options) -> Result<Report, BadOption>, options: Options) {
    let begun = Instant::now();
    let mut report = passes(&check, options.clone());
    while report.overlapping == 0.0 && !is_alone() && begun.elapsed().as_secs_f64() < AT_MOST {
        report = passes(&check, options.clone());
    }
    assert!(report.overlapping > 0.0 || is_alone(), "{report}");
}

#[test]
fn a_locked_queue_passes() {
    let _turn = turn();
    let check = |options| run_check(Locked::default, Locked::push, Locked::pop, options);
    passes_with_overlaps(check, passing("locked"));
}

#[test]
fn a_ring_passes() {
    let _turn = turn();
    let make = |capacity| Ring::new(capacity, RingFault::None);
    let check = |options| run_check_sized(make, Ring::push, Ring::pop, options);
    passes(check, passing("ring"));
}

#[test]
fn a_linked_queue_with_tags_passes() {
    let _turn = turn();
    let make = |capacity| Linked::new(capacity, true);
    let check = |options| run_check_sized(make, Linked::push, Linked::pop, options);
    passes(check, passing("tags"));
}

#[test]
fn a_channel_with_one_consumer_passes() {
    let _turn = turn();
    let make = || {
        let (sender, receiver) = mpsc::channel::<u32>();
        (sender, Mutex::new(receiver)) // one consumer, so the lock is free
    };
    let check = |options| {
        run_check(
            make,
            |(sender, _), item| sender.send(item).is_ok(),
            |(_, receiver)| receiver.lock().unwrap().try_recv().ok(),
            options,
        )
    };
    let options = Options {
        one_consumer: true,
        ..passing("channel")
    };
    passes(check, options);
}

#[test]
fn a_ring_for_two_threads_passes_with_two() {
    let _turn = turn();
    let options = Options {
        one_producer: true,
        one_consumer: true,
        ..passing("pair")
    };
    let check = |options| run_check_sized(Pair::new, Pair::push, Pair::pop, options);
    passes_with_overlaps(check, options);
}

#[test]
fn the_queue_of_this_crate_passes_for_its_k() {
    let _turn = turn();
    for k in [1, 4] {
        let check = |options| {
            run_check_handles(
                move |capacity| kfifo::Queue::new(k, capacity, 8).expect("the sizes are in range"),
                |queue, _| queue.handle().expect("a handle is free"),
                |handle, item| handle.push(item),
                |handle| handle.pop(),
                options,
            )
        };
        let options = Options {
            k,
            ..passing("kfifo")
        };
        let report = passes(check, options);
        assert_eq!(report.least.is_some(), k > 1, "{report}");
    }
}

#[test]
fn a_relaxed_queue_passes_for_its_k_and_for_no_less() {
    let _turn = turn();
    let pop = |queue: &Locked| queue.pop_near(4);
    let check = |options| run_check(Locked::default, Locked::push, pop, options);
    let options = Options {
        k: 4,
        ..passing("relaxed")
    };
    let report = passes(check, options);
    let (at_least, at_most) = report.least.expect("a sample was taken");
    let is_near = at_most.is_some_and(|most| most <= 4);
    assert!((2..=4).contains(&at_least) && is_near, "{report}");
    finds(check(finding("relaxed")), &[OVERTAKEN]);
}

#[test]
fn repeated_items_are_judged() {
    let _turn = turn();
    let options = || Options {
        repeated: Some(3),
        threads: Some(3),
        calls: Some(20),
        ..passing("repeated")
    };
    let report = run_check(Locked::default, Locked::push, Locked::pop, options())
        .expect("the options are good");
    assert!(report.has_passed(), "{report}");
    let twice = |queue: &Locked, item| {
        queue.push(item);
        queue.push(item);
        Put::Done
    };
    let report =
        run_check(Locked::default, twice, Locked::pop, options()).expect("the options are good");
    assert!(
        matches!(report.outcome, Outcome::NoOrder { .. }),
        "{report}"
    );
}
