//! Where the workers are, what they have counted, and which tasks wait.

/// Which look it is: the first one after a task, the second one after it says that it waits, or another one.
#[derive(Clone, Copy, Debug, PartialEq, Eq, Hash)]
pub enum Kind {
    First,
    Second,
    Other,
}

/// Where a worker is: each is one atomic step. What holds the lock of the list is one step, but for a move, during
/// which it is held.
#[derive(Clone, Copy, Debug, PartialEq, Eq, Hash)]
pub enum Step {
    CountGiven { depth: u8, left: u8 },
    Give { depth: u8, left: u8 },
    CountAfter { depth: u8, left: u8 },
    SeeOthers { depth: u8, left: u8 },
    ChangeWord { depth: u8, left: u8 },
    WakeOne { depth: u8, left: u8 },
    List { depth: u8, left: u8 },
    CountDone,
    DoneEarly { depth: u8, left: u8 },
    Look,
    SeeList { kind: Kind },
    LookIntoList { kind: Kind },
    MovePut { found: u8 },
    MovePop { found: u8, moved: u8 },
    MoveSee { found: u8 },
    MoveWord { found: u8 },
    MoveWake { found: u8 },
    Fence,
    Add { place: u8, sums: [u8; 2] },
    SetEnd,
    EndWord,
    EndWake,
    Announce,
    ReadWord,
    SecondLook,
    ReadWordLate,
    Sleep,
    Asleep,
    Retract,
    Ended,
}

/// The counts of a worker: the tasks that it gave and did, and the task of the run, which the first worker does.
pub const GIVEN: usize = 0;
pub const DONE: usize = 1;
pub const RUN_DONE: usize = 2;

#[derive(Clone, Copy, PartialEq, Eq, Hash)]
pub struct Worker {
    pub step: Step,
    pub counts: [u8; 3],
    pub in_memory: [u8; 3],
    /// Which counts were raised that are not yet in memory, the first in the lowest two bits: each is its number + 1.
    pub buffer: u32,
    /// Whether the word that it would sleep on is what it read.
    pub is_current: bool,
    pub is_announced: bool,
    /// The first worker begins with the task of the run, which gives the first tasks.
    pub has_run: bool,
}

#[derive(Clone, Copy, PartialEq, Eq, Hash)]
pub struct State {
    /// With two workers the third has ended.
    pub workers: [Worker; 3],
    /// How many tasks of each depth wait, in the queue and in the list.
    pub queue: [u8; 3],
    pub list: [u8; 3],
    pub is_locked: bool,
    pub is_finished: bool,
}

/// Takes the deepest task: its depth.
pub fn take_from(tasks: &mut [u8; 3]) -> Option<u8> {
    let depth = (0..3).rev().find(|it| tasks[*it] > 0)?;
    tasks[depth] -= 1;
    Some(depth as u8)
}

/// What is wrong with a state, if anything.
pub type Wrong = Option<&'static str>;

impl State {
    /// The first worker is about to begin the run with this step.
    pub fn first(workers: usize, step: Step) -> State {
        let idle = Worker {
            step: Step::Look,
            counts: [0; 3],
            in_memory: [0; 3],
            buffer: 0,
            is_current: false,
            is_announced: false,
            has_run: false,
        };
        let mut all = [idle; 3];
        for worker in &mut all[workers..] {
            worker.step = Step::Ended;
        }
        let mut workers = all;
        workers[0].has_run = true;
        workers[0].step = step;
        State {
            workers,
            queue: [0; 3],
            list: [0; 3],
            is_locked: false,
            is_finished: false,
        }
    }

    fn is_idle(&self) -> bool {
        self.queue == [0; 3]
            && self.list == [0; 3]
            && self.workers.iter().all(|it| {
                !matches!(
                    it.step,
                    Step::CountGiven { .. }
                        | Step::Give { .. }
                        | Step::CountAfter { .. }
                        | Step::SeeOthers { .. }
                        | Step::ChangeWord { .. }
                        | Step::WakeOne { .. }
                        | Step::DoneEarly { .. }
                        | Step::List { .. }
                        | Step::MovePut { .. }
                        | Step::MovePop { .. }
                        | Step::MoveSee { .. }
                        | Step::MoveWord { .. }
                        | Step::MoveWake { .. }
                )
            })
    }

    /// Whether a worker has said that it waits.
    pub fn is_waited_for(&self) -> bool {
        self.workers.iter().any(|it| it.is_announced)
    }

    pub fn wrong(&self) -> Wrong {
        if self.is_finished && !self.is_idle() {
            return Some("the end is said too early");
        }
        None
    }
}
