//! The check finds the fault of each faulty queue.
use crate::queues::{Linked, Pair, Ring, RingFault, Stack, TestOutside, Wrapping};
use crate::{finding, finds, had_no_race, turn};
use kfifo::judge::{BadOption, Options, Outcome, Report, run_check, run_check_sized};
use std::collections::BTreeMap;
use std::fs;
use std::path::Path;

/// Kinds of evidence, as `docs/JUDGE.md` has them.
const NOWHERE: u32 = 1;
const TWICE: u32 = 2;

type Run = fn(Options) -> Result<Report, BadOption>;

/// The queues of the table that the tests in C++ and Python share.
const SHARED: [(&str, Run); 5] = [
    ("lifo", |of| {
        run_check(Stack::default, Stack::push, Stack::pop, of)
    }),
    ("ring-lost-update", |of| {
        let make = |capacity| Ring::new(capacity, RingFault::LostUpdate);
        run_check_sized(make, Ring::push, Ring::pop, of)
    }),
    // The length is two loads. Where the head moves on between them, it may be 0 with items inside.
    ("full-outside-lock", |of| {
        run_check_sized(TestOutside::new, TestOutside::push, TestOutside::pop, of)
    }),
    ("wrap-16", |of| {
        run_check_sized(Wrapping::new, Wrapping::push, Wrapping::pop, of)
    }),
    ("two-thread-ring", |of| {
        run_check_sized(Pair::new, Pair::push, Pair::pop, of)
    }),
];

/// The kinds of evidence that may be found of each queue of that table.
fn shared_kinds() -> BTreeMap<String, Vec<u32>> {
    let table = Path::new(env!("CARGO_MANIFEST_DIR")).join("../c/tests/checker/faulty_queues.csv");
    let table = fs::read_to_string(table).expect("the table can be read");
    let kinds_of = |kinds: &str| {
        let kinds = kinds.split(' ').map(|kind| kind.parse());
        kinds.collect::<Result<_, _>>().expect("kinds are numbers")
    };
    let rows = table
        .lines()
        .skip(1)
        .filter_map(|line| line.split_once(','));
    rows.map(|(queue, kinds)| (queue.to_string(), kinds_of(kinds)))
        .collect()
}

#[test]
fn each_queue_of_the_shared_table_is_found() {
    let _turn = turn();
    let kinds = shared_kinds();
    let mut names = SHARED.map(|(name, _)| name);
    names.sort_unstable();
    assert!(
        kinds.keys().eq(&names),
        "the table has other queues: {kinds:?}"
    );
    for (name, run) in SHARED {
        finds(run(finding(name)), &kinds[name]);
    }
}

#[test]
fn a_slot_that_is_published_before_its_item_is_found() {
    let _turn = turn();
    let make = |capacity| Ring::new(capacity, RingFault::EarlyPublish);
    let report = run_check_sized(make, Ring::push, Ring::pop, finding("early_publish"));
    finds(report, &[NOWHERE, TWICE]);
}

#[test]
fn a_linked_queue_without_tags_is_found() {
    let _turn = turn();
    let make = |capacity| Linked::new(capacity, false);
    let report = run_check_sized(make, Linked::push, Linked::pop, finding("no_tags"));
    let report = report.expect("the options are good");
    println!("{report}");
    // A link to a node that was used again makes the list a ring, or cuts it.
    assert!(
        matches!(
            report.outcome,
            Outcome::NoOrder { .. } | Outcome::Hang { .. }
        ) || had_no_race(&report),
        "{report}"
    );
}
