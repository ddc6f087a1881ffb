//! A small model of how a run ends: the steps of `src/work` that count, take, give, sleep and wake, over all
//! interleavings of two and three workers. In none may a worker say that all is done while a task is left, and in none
//! may one sleep for ever. Then the same with a step left out or misplaced: each of these has to be caught.
//!
//! A count goes into memory some time after it was written, as on processors: it waits in a buffer of its worker, which
//! is written in order, and which a fence or a step on a shared word empties.
mod model;
mod state;

use model::{Fault, Model, Waits};
use state::Wrong;

/// The workers, the first tasks, how deep these go, the room of the queue, and which tasks wait.
const RUNS: [(usize, u8, u8, u8, Waits); 10] = [
    (2, 1, 0, 9, Waits::Nobody),
    (2, 2, 0, 9, Waits::Run),
    (2, 1, 1, 9, Waits::Run),
    (2, 2, 1, 9, Waits::Nobody),
    (2, 3, 0, 1, Waits::Nobody),
    (2, 3, 0, 1, Waits::Run),
    (2, 2, 1, 1, Waits::Run),
    (3, 1, 0, 9, Waits::Nobody),
    (3, 2, 0, 9, Waits::Run),
    (3, 3, 0, 1, Waits::Others),
];

const FAULTS: [Fault; 14] = [
    Fault::GivenAddedFirst,
    Fault::CountedAfterGive,
    Fault::DoneBeforeGives,
    Fault::NoFence,
    Fault::RunNotCounted,
    Fault::NeverAdds,
    Fault::NoSecondLook,
    Fault::WordReadAfterLook,
    Fault::WordNotChanged,
    Fault::EndWordNotChanged,
    Fault::EndWakesNobody,
    Fault::EndWakesOne,
    Fault::ListWakesNobody,
    Fault::MoveWakesNobody,
];

/// What is wrong with a run of those above, if anything.
fn wrong_with(fault: Fault) -> Wrong {
    RUNS.iter()
        .find_map(|(workers, tasks, depth, room, waits)| {
            let (room, waits) = (*room, *waits);
            let model = Model { fault, waits, room };
            let (states, wrong) = model.explore(*workers, *tasks, *depth);
            println!(
                "{fault:?}: {workers} workers, {tasks} tasks, room for {room}: {states} states"
            );
            wrong
        })
}

#[test]
fn a_run_ends_in_all_interleavings() {
    assert_eq!(wrong_with(Fault::None), None);
}

#[test]
fn each_fault_is_caught() {
    for fault in FAULTS {
        let found = wrong_with(fault);
        println!("{fault:?}: {found:?}");
        assert!(found.is_some(), "{fault:?}");
    }
}
