//! The steps from state to state, and all interleavings of them.
use crate::state::{DONE, GIVEN, Kind, RUN_DONE, State, Step, Worker, Wrong, take_from};
use std::collections::HashSet;

/// How a task is given, and what it gives: with `depth` 0 nothing, else `WIDTH` tasks of one less.
const WIDTH: u8 = 2;

#[derive(Clone, Copy, Debug, PartialEq, Eq)]
pub enum Fault {
    None,
    GivenAddedFirst,
    CountedAfterGive,
    DoneBeforeGives,
    NoFence,
    RunNotCounted,
    NeverAdds,
    NoSecondLook,
    WordReadAfterLook,
    WordNotChanged,
    EndWordNotChanged,
    EndWakesNobody,
    EndWakesOne,
    ListWakesNobody,
    MoveWakesNobody,
}

/// Which tasks end only when all tasks that were given are taken.
#[derive(Clone, Copy, Debug, PartialEq, Eq)]
pub enum Waits {
    Nobody,
    Run,
    Others,
}

pub struct Model {
    pub fault: Fault,
    pub waits: Waits,
    /// How many tasks the queue has room for.
    pub room: u8,
}

impl Model {
    fn has(&self, fault: Fault) -> bool {
        self.fault == fault
    }

    fn has_room(&self, state: &State) -> bool {
        state.queue.iter().sum::<u8>() < self.room
    }

    /// The step after a task went into the queue or the list.
    fn after_put(&self, depth: u8, left: u8) -> Step {
        match self.fault {
            Fault::CountedAfterGive => Step::CountAfter { depth, left },
            _ => Step::SeeOthers { depth, left },
        }
    }

    /// The step after a give, or after the last one.
    fn after_give(&self, depth: u8, left: u8) -> Step {
        match left {
            0 if self.has(Fault::DoneBeforeGives) => Step::Look,
            0 => Step::CountDone,
            _ if self.has(Fault::CountedAfterGive) => Step::Give { depth, left },
            _ => Step::CountGiven { depth, left },
        }
    }

    /// The first step of a task.
    fn begin(&self, depth: u8) -> Step {
        let left = if depth == 0 { 0 } else { WIDTH };
        self.begin_giving(depth.saturating_sub(1), left)
    }

    /// The first step of a task that gives so many of this depth.
    fn begin_giving(&self, depth: u8, left: u8) -> Step {
        match self.fault {
            Fault::DoneBeforeGives => Step::DoneEarly { depth, left },
            _ => self.after_give(depth, left),
        }
    }

    /// Adds 1 to a count, which goes into memory later.
    fn count(worker: &mut Worker, which: usize) {
        let waiting = (32 - worker.buffer.leading_zeros()).div_ceil(2);
        assert!(waiting < 16);
        worker.counts[which] += 1;
        worker.buffer |= (which as u32 + 1) << (2 * waiting);
    }

    /// The first count of the buffer goes into memory.
    fn write(worker: &mut Worker) {
        worker.in_memory[worker.buffer as usize % 4 - 1] += 1;
        worker.buffer >>= 2;
    }

    fn count_done(worker: &mut Worker) {
        let which = if worker.has_run { RUN_DONE } else { DONE };
        worker.has_run = false;
        Model::count(worker, which);
    }

    fn drain(worker: &mut Worker) {
        worker.buffer = 0;
        worker.in_memory = worker.counts;
    }

    /// The states to which a step of this worker leads, and that in which one more of its counts is in memory.
    fn nexts(&self, from: &State, at: usize) -> Vec<State> {
        let mut nexts = Vec::new();
        if from.workers[at].buffer != 0 {
            let mut next = *from;
            Model::write(&mut next.workers[at]);
            nexts.push(next);
        }
        match from.workers[at].step {
            Step::Ended | Step::Asleep => {}
            Step::CountDone if self.is_waiting(from, at) => {}
            Step::List { .. } | Step::LookIntoList { .. } if from.is_locked => {}
            Step::WakeOne { .. } | Step::MoveWake { .. } | Step::EndWake => {
                nexts.extend(self.wakes(from, at))
            }
            _ => nexts.push(self.step(from, at)),
        }
        nexts
    }

    /// Whether this worker has a task that waits until other workers have taken all that was given.
    fn is_waiting(&self, state: &State, at: usize) -> bool {
        let waits = match self.waits {
            Waits::Nobody => false,
            Waits::Run => state.workers[at].has_run,
            Waits::Others => !state.workers[at].has_run,
        };
        waits && (state.queue, state.list) != ([0; 3], [0; 3])
    }

    fn step(&self, from: &State, at: usize) -> State {
        let mut state = *from;
        let step = state.workers[at].step;
        let next = match step {
            Step::CountGiven { .. }
            | Step::Give { .. }
            | Step::List { .. }
            | Step::CountAfter { .. }
            | Step::SeeOthers { .. }
            | Step::ChangeWord { .. } => self.step_of_give(&mut state, at, step),
            Step::DoneEarly { depth, left } => {
                Model::count_done(&mut state.workers[at]);
                self.after_give(depth, left)
            }
            Step::CountDone => {
                Model::count_done(&mut state.workers[at]);
                Step::Look
            }
            Step::Fence | Step::Add { .. } => self.step_of_end(&mut state, at, step),
            Step::SeeList { kind } if state.list == [0; 3] => self.after_nothing(kind),
            Step::SeeList { kind } => Step::LookIntoList { kind },
            Step::LookIntoList { kind } => self.look_into_list(&mut state, at, kind),
            Step::MovePut { .. }
            | Step::MovePop { .. }
            | Step::MoveSee { .. }
            | Step::MoveWord { .. } => self.step_of_move(&mut state, at, step),
            Step::SetEnd | Step::EndWord => self.step_of_finish(&mut state, at, step),
            _ => self.step_of_wait(&mut state, at, step),
        };
        state.workers[at].step = next;
        state
    }

    fn step_of_finish(&self, state: &mut State, at: usize, step: Step) -> Step {
        if step == Step::SetEnd {
            Model::drain(&mut state.workers[at]);
            state.is_finished = true;
            return Step::EndWord;
        }
        if !self.has(Fault::EndWordNotChanged) {
            Model::change_word(state);
        }
        Step::EndWake
    }

    fn step_of_give(&self, state: &mut State, at: usize, step: Step) -> Step {
        let is_waited_for = state.is_waited_for();
        let worker = &mut state.workers[at];
        match step {
            Step::CountGiven { depth, left } => {
                Model::count(worker, GIVEN);
                Step::Give { depth, left }
            }
            Step::Give { depth, left } => {
                Model::drain(worker);
                if !self.has_room(state) || state.list != [0; 3] {
                    return Step::List { depth, left };
                }
                state.queue[usize::from(depth)] += 1;
                self.after_put(depth, left)
            }
            Step::List { depth, left } => {
                state.list[usize::from(depth)] += 1;
                match self.fault {
                    Fault::ListWakesNobody => self.after_give(depth, left - 1),
                    _ => self.after_put(depth, left),
                }
            }
            Step::CountAfter { depth, left } => {
                Model::count(worker, GIVEN);
                Step::SeeOthers { depth, left }
            }
            Step::SeeOthers { depth, left } if is_waited_for => match self.fault {
                Fault::WordNotChanged => Step::WakeOne { depth, left },
                _ => Step::ChangeWord { depth, left },
            },
            Step::SeeOthers { depth, left } => self.after_give(depth, left - 1),
            Step::ChangeWord { depth, left } => {
                Model::change_word(state);
                Step::WakeOne { depth, left }
            }
            _ => unreachable!("no other step gives tasks"),
        }
    }

    /// The first sum is that of what was done, in the places 0 to 2, and the second one of what was given, 3 to 5.
    fn step_of_end(&self, state: &mut State, at: usize, step: Step) -> Step {
        let Step::Add { place, mut sums } = step else {
            if !self.has(Fault::NoFence) {
                Model::drain(&mut state.workers[at]);
            }
            return Step::Add {
                place: 0,
                sums: [0, 0],
            };
        };
        let is_second = place >= 3;
        let is_done = is_second == self.has(Fault::GivenAddedFirst);
        sums[usize::from(is_second)] += self.read(state, at, place % 3, is_done);
        match place {
            5 if sums[0] == sums[1] => Step::SetEnd,
            5 => Step::Announce,
            _ => Step::Add {
                place: place + 1,
                sums,
            },
        }
    }

    /// What a worker gave or did, with the task of the run for the first one: what this one has written itself it sees
    /// at once.
    fn read(&self, state: &State, at: usize, worker: u8, is_done: bool) -> u8 {
        let of = &state.workers[usize::from(worker)];
        let counts = if usize::from(worker) == at {
            &of.counts
        } else {
            &of.in_memory
        };
        let run = worker == 0 && !self.has(Fault::RunNotCounted);
        match is_done {
            true => counts[DONE] + if run { counts[RUN_DONE] } else { 0 },
            false => counts[GIVEN] + u8::from(run),
        }
    }

    fn step_of_wait(&self, state: &mut State, at: usize, step: Step) -> Step {
        match step {
            Step::Announce => {
                Model::drain(&mut state.workers[at]);
                state.workers[at].is_announced = true;
                match self.fault {
                    Fault::WordReadAfterLook => Step::SecondLook,
                    _ => Step::ReadWord,
                }
            }
            Step::ReadWord | Step::ReadWordLate => {
                state.workers[at].is_current = true;
                match self.fault {
                    Fault::NoSecondLook | Fault::WordReadAfterLook => Step::Sleep,
                    _ => Step::SecondLook,
                }
            }
            Step::Sleep if state.workers[at].is_current => Step::Asleep,
            Step::Sleep => Step::Retract,
            Step::Retract => {
                state.workers[at].is_announced = false;
                state.workers[at].is_current = false;
                self.look(state, at, Kind::Other)
            }
            Step::SecondLook => self.look(state, at, Kind::Second),
            _ => self.look(state, at, Kind::First),
        }
    }

    /// A look for a task: the step that follows.
    fn look(&self, state: &mut State, at: usize, kind: Kind) -> Step {
        if state.is_finished {
            return Model::leave(state, at, Step::Ended);
        }
        match take_from(&mut state.queue) {
            Some(depth) => Model::leave(state, at, self.begin(depth)),
            None => Step::SeeList { kind },
        }
    }

    /// The same under the lock, where the list had tasks. It is held while others move into the queue.
    fn look_into_list(&self, state: &mut State, at: usize, kind: Kind) -> Step {
        if let Some(depth) = take_from(&mut state.queue) {
            return Model::leave(state, at, self.begin(depth));
        }
        match take_from(&mut state.list) {
            Some(found) => {
                state.is_locked = true;
                Model::leave(state, at, Step::MovePut { found })
            }
            None => self.after_nothing(kind),
        }
    }

    /// The step after a look that found nothing: the first one adds the counts up, and others do not.
    fn after_nothing(&self, kind: Kind) -> Step {
        match kind {
            Kind::First if self.has(Fault::NeverAdds) => Step::Announce,
            Kind::First => Step::Fence,
            Kind::Second if self.has(Fault::WordReadAfterLook) => Step::ReadWordLate,
            Kind::Second => Step::Sleep,
            Kind::Other => Step::Announce,
        }
    }

    /// The worker does not wait any more.
    fn leave(state: &mut State, at: usize, next: Step) -> Step {
        state.workers[at].is_announced = false;
        state.workers[at].is_current = false;
        next
    }

    fn step_of_move(&self, state: &mut State, at: usize, step: Step) -> Step {
        match step {
            Step::MovePut { found } => {
                let mut list = state.list;
                match take_from(&mut list) {
                    Some(moved) if self.has_room(state) => {
                        Model::drain(&mut state.workers[at]);
                        state.queue[usize::from(moved)] += 1;
                        Step::MovePop { found, moved }
                    }
                    _ => {
                        state.is_locked = false;
                        self.begin(found)
                    }
                }
            }
            Step::MovePop { found, moved } => {
                state.list[usize::from(moved)] -= 1;
                match self.fault {
                    Fault::MoveWakesNobody => Step::MovePut { found },
                    _ => Step::MoveSee { found },
                }
            }
            Step::MoveSee { found } => match state.is_waited_for() {
                true => Step::MoveWord { found },
                false => Step::MovePut { found },
            },
            Step::MoveWord { found } => {
                Model::change_word(state);
                Step::MoveWake { found }
            }
            _ => unreachable!("no other step moves tasks"),
        }
    }

    fn change_word(state: &mut State) {
        for worker in &mut state.workers {
            worker.is_current = false;
        }
    }

    /// Wakes one that sleeps, any of them, or at the end all.
    fn wakes(&self, from: &State, at: usize) -> Vec<State> {
        let asleep: Vec<_> = (0..from.workers.len())
            .filter(|it| from.workers[*it].step == Step::Asleep)
            .collect();
        let next = match from.workers[at].step {
            Step::WakeOne { depth, left } => self.after_give(depth, left - 1),
            Step::MoveWake { found } => Step::MovePut { found },
            _ => Step::Ended,
        };
        let is_end = next == Step::Ended;
        let groups: Vec<Vec<usize>> = match self.fault {
            Fault::EndWakesNobody if is_end => vec![vec![]],
            Fault::EndWakesOne if is_end => asleep.iter().map(|it| vec![*it]).collect(),
            _ if is_end => vec![asleep],
            _ => asleep.iter().map(|it| vec![*it]).collect(),
        };
        let groups = if groups.is_empty() {
            vec![vec![]]
        } else {
            groups
        };
        let woken = |group: Vec<usize>| {
            let mut state = *from;
            for worker in group {
                state.workers[worker].step = Step::Retract;
            }
            state.workers[at].step = next;
            state
        };
        groups.into_iter().map(woken).collect()
    }

    /// Goes through all interleavings of a run with so many first tasks of this depth: how many states there are, and
    /// what is wrong with one of them.
    pub fn explore(&self, workers: usize, tasks: u8, depth: u8) -> (usize, Wrong) {
        let first = State::first(workers, self.begin_giving(depth, tasks));
        let mut seen = HashSet::from([first]);
        let mut open = vec![first];
        while let Some(state) = open.pop() {
            if let Some(wrong) = state.wrong() {
                return (seen.len(), Some(wrong));
            }
            let nexts: Vec<_> = (0..state.workers.len())
                .flat_map(|at| self.nexts(&state, at))
                .collect();
            let is_over = state.workers.iter().all(|it| it.step == Step::Ended);
            if nexts.is_empty() && !is_over {
                return (seen.len(), Some("a worker sleeps for ever"));
            }
            open.extend(nexts.into_iter().filter(|it| seen.insert(*it)));
        }
        (seen.len(), None)
    }
}
