//! What a check is to do, and the design of a round.
use super::clock::Random;
use super::verdict::{MAX_ITEM, TRIES};
use std::error::Error;
use std::fmt::{self, Display, Formatter};
use std::path::PathBuf;
use std::time::Duration;

/// What a check is to do. Start from the default and change what matters:
///
/// ```
/// use kfifo::judge::Options;
///
/// let options = Options { k: 4, seconds: 30.0, ..Options::default() };
/// ```
#[derive(Clone, Debug)]
pub struct Options {
    /// The name of the queue in the report and in the names of the files: `queue`.
    pub name: String,
    /// The k for which each round is judged, 1 to 64: 1, a plain FIFO queue.
    pub k: u32,
    /// How many threads make calls, 2 to 64: none draws 3, 4 or 8 for each round.
    pub threads: Option<usize>,
    /// How many calls each thread makes in a round: none draws 50, 100 or 200 for each round.
    pub calls: Option<usize>,
    /// After how many seconds rounds end: 5. The first round is made in any case.
    pub seconds: f64,
    /// After how many rounds they end, where the time is not up before: none.
    pub rounds: Option<u64>,
    /// What the designs of the rounds are drawn by: none draws one. A seed repeats the designs, not the schedules.
    pub seed: Option<u64>,
    /// The folder of the log and the picture of a failure: none takes the system's folder for temporary files.
    pub folder: Option<PathBuf>,
    /// Whether the queue is for one producer: the last thread alone puts, and puts only.
    pub one_producer: bool,
    /// Whether the queue is for one consumer: thread 0 alone gets, and gets only.
    pub one_consumer: bool,
    /// How many different items there are, for a queue of small values: none gives each put an item of its own, which
    /// finds more.
    pub repeated: Option<u32>,
    /// Whether a round without a verdict fails: no. It is counted in any case.
    pub undecided_fails: bool,
    /// A call hangs when it has used this many seconds of processor time, or has taken ten times as long on the clock:
    /// 0.5, and so 5 seconds.
    pub hang_seconds: f64,
    /// How many choices the search for an order may take back in a round: [`TRIES`].
    pub tries: u64,
    /// Whether nothing is printed: no.
    pub quiet: bool,
}

impl Default for Options {
    fn default() -> Options {
        Options {
            name: String::from("queue"),
            k: 1,
            threads: None,
            calls: None,
            seconds: 5.0,
            rounds: None,
            seed: None,
            folder: None,
            one_producer: false,
            one_consumer: false,
            repeated: None,
            undecided_fails: false,
            hang_seconds: 0.5,
            tries: TRIES,
            quiet: false,
        }
    }
}

/// Why a check was not begun: an option is out of range.
#[derive(Clone, Debug, PartialEq, Eq)]
pub struct BadOption(&'static str);

impl Display for BadOption {
    fn fmt(&self, f: &mut Formatter<'_>) -> fmt::Result {
        f.write_str(self.0)
    }
}

impl Error for BadOption {}

/// What decides whether a call is a put.
#[derive(Clone, Copy, Debug)]
pub(super) enum Mix {
    /// Each thread alternates puts and gets.
    Alternating,
    /// Half of the threads put, the others get.
    Apart,
    /// Up to 16 calls of one kind, then of the other.
    Bursts,
    /// Three of eight calls are puts.
    NearlyEmpty,
    /// Five of eight.
    NearlyFull,
    /// Half of them, and the queue is half full at first.
    HalfFull,
}

impl Mix {
    /// Its name in the report.
    fn name(self) -> &'static str {
        match self {
            Mix::Alternating => "alternating",
            Mix::Apart => "apart",
            Mix::Bursts => "bursts",
            Mix::NearlyEmpty => "nearly empty",
            Mix::NearlyFull => "nearly full",
            Mix::HalfFull => "half full",
        }
    }
}

const MIXES: [Mix; 6] = [
    Mix::Alternating,
    Mix::Apart,
    Mix::Bursts,
    Mix::NearlyEmpty,
    Mix::NearlyFull,
    Mix::HalfFull,
];
/// The capacities of queues whose maker takes one.
pub(super) const CAPACITIES: [usize; 4] = [2, 4, 8, 64];
/// How many items are put before a round that begins half full, at most.
const MOST_BEFORE: usize = 32;
/// How many more calls than there are items may be needed to empty a queue.
const SPARE: usize = 64;
/// How many calls a round may have.
const MAX_ROUND_CALLS: usize = 65_536;

/// How a round is made.
#[derive(Clone, Copy, Debug)]
pub(super) struct Design {
    pub(super) threads: usize,
    /// Calls of a thread.
    pub(super) calls: usize,
    pub(super) mix: Mix,
    /// The place of the capacity in `CAPACITIES`.
    pub(super) size: usize,
    /// A call waits for fewer turns of a loop than this.
    pub(super) pause: u64,
    /// How many items are put before the round.
    pub(super) before: usize,
    one_producer: bool,
    one_consumer: bool,
}

impl Design {
    /// What the report says of it. There is a capacity if the maker takes one.
    pub(super) fn text(&self, capacity: Option<usize>) -> String {
        let callers = match (self.one_producer, self.one_consumer) {
            (true, true) => "one producer and one consumer",
            (true, false) => "one producer",
            (false, true) => "one consumer",
            (false, false) => self.mix.name(),
        };
        let capacity = capacity.map_or_else(String::new, |it| format!(", capacity {it}"));
        let pauses = if self.pause > 0 { ", pauses" } else { "" };
        let (threads, calls) = (self.threads, self.calls);
        format!("{threads} threads, {calls} calls each, {callers}{capacity}{pauses}")
    }

    /// How many calls a thread makes. A lone producer makes as many as all consumers, a lone consumer likewise.
    pub(super) fn calls_of(&self, thread: usize) -> usize {
        let is_lone =
            (self.one_consumer && thread == 0) || (self.one_producer && thread + 1 == self.threads);
        self.calls * if is_lone { self.threads - 1 } else { 1 }
    }

    /// How many items a thread may put, as a bound for all threads.
    pub(super) fn most_puts(&self) -> usize {
        self.calls
            * if self.one_producer {
                self.threads - 1
            } else {
                1
            }
    }

    /// The same for one thread.
    pub(super) fn alone(&self) -> Design {
        Design {
            threads: 1,
            before: 0,
            ..*self
        }
    }

    /// How many different items the round needs.
    pub(super) fn items(&self) -> usize {
        self.threads * self.most_puts() + self.before
    }

    /// Whether a thread only puts (true) or only gets (false), where it has a role.
    pub(super) fn role(&self, thread: usize) -> Option<bool> {
        if self.one_consumer {
            Some(thread != 0)
        } else if self.one_producer {
            Some(thread + 1 == self.threads)
        } else {
            None
        }
    }
}

impl Options {
    pub(super) fn check(&self) -> Result<(), BadOption> {
        let most = self.most_threads();
        let rules = [
            (!(1..=64).contains(&self.k), "k is not 1 to 64"),
            (
                !(2..=64).contains(&most),
                "the number of threads is not 2 to 64",
            ),
            (self.calls == Some(0), "there are no calls"),
            (
                self.most_calls(most)
                    .saturating_mul(2)
                    .saturating_add(SPARE)
                    > MAX_ROUND_CALLS,
                "a round would have more calls than can be judged",
            ),
            (
                self.one_producer && self.one_consumer && most != 2,
                "with one producer and one consumer there are two threads",
            ),
            (
                self.repeated
                    .is_some_and(|most| !(1..=MAX_ITEM).contains(&most)),
                "the number of different items is not 1 to 16,777,215",
            ),
            (!(self.seconds >= 0.0), "seconds are not a number from 0 on"),
            (self.rounds == Some(0), "rounds are not a number from 1 on"),
            (
                !(self.hang_seconds > 0.0),
                "hang_seconds are not a number over 0",
            ),
            (
                self.name.is_empty() || self.name.contains(['/', '\0']),
                "the name is empty, or cannot stand in the name of a file",
            ),
        ];
        match rules.into_iter().find(|rule| rule.0) {
            Some((_, text)) => Err(BadOption(text)),
            None => Ok(()),
        }
    }

    /// When rounds end, after the beginning.
    pub(super) fn time(&self) -> Duration {
        Duration::try_from_secs_f64(self.seconds).unwrap_or(Duration::MAX)
    }

    /// After which processor time a call hangs.
    pub(super) fn hang(&self) -> Duration {
        Duration::try_from_secs_f64(self.hang_seconds).unwrap_or(Duration::MAX)
    }

    /// The greatest number of threads in a round.
    pub(super) fn most_threads(&self) -> usize {
        let is_pair = self.one_producer && self.one_consumer;
        self.threads.unwrap_or(if is_pair { 2 } else { 8 })
    }

    /// Whether one thread may put and get distinct items on its own.
    pub(super) fn lets_one_thread_do_both(&self) -> bool {
        !self.one_producer && !self.one_consumer && self.repeated.is_none()
    }

    /// How many calls all threads make in a round at most, with the puts before it.
    fn most_calls(&self, threads: usize) -> usize {
        let lone = usize::from(self.one_producer) + usize::from(self.one_consumer);
        let calls = self.calls.unwrap_or(200);
        calls
            .saturating_mul(threads * (1 + lone))
            .saturating_add(MOST_BEFORE)
    }

    /// How many calls the log of a thread has room for. Thread 0 empties the queue too: it gets each item, and has some
    /// calls over for a queue that is busy or never says that it is empty.
    pub(super) fn room(&self, thread: usize) -> usize {
        let threads = self.most_threads();
        let lone = self.one_producer || self.one_consumer;
        let own = self.calls.unwrap_or(200) * if lone { threads - 1 } else { 1 } + MOST_BEFORE;
        if thread == 0 {
            own + self.most_calls(threads) + SPARE
        } else {
            own
        }
    }

    /// Draws the design of a round. Without `is_sized` the capacity is the maker's own.
    pub(super) fn draw(&self, random: &mut Random, is_sized: bool) -> Design {
        let drawn = match self.most_threads() {
            8 if self.threads.is_none() => random.one_of(&[3, 4, 4, 8]),
            given => given,
        };
        let mix = random.one_of(&MIXES);
        let size = random.below(CAPACITIES.len() as u64) as usize;
        let before = match mix {
            Mix::HalfFull if is_sized => CAPACITIES[size] / 2,
            Mix::HalfFull => MOST_BEFORE,
            _ => 0,
        };
        Design {
            threads: drawn,
            calls: self.calls.unwrap_or(random.one_of(&[50, 100, 200])),
            mix,
            size: if is_sized { size } else { 0 },
            pause: if random.below(4) == 0 { 51 } else { 0 },
            before,
            one_producer: self.one_producer,
            one_consumer: self.one_consumer,
        }
    }
}
