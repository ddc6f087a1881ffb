//! Rounds until the time is up or a fault is found.
use super::clock::Random;
use super::options::{BadOption, CAPACITIES, Design, Options};
use super::report::{Outcome, Report};
use super::rounds::{Pool, Round, Subject};
use super::verdict::{Answer, Call, Least, MAX_ITEM, Verdict, judge, least};
use super::watch::Watch;
use std::io::{IsTerminal, Write, stderr};
use std::process;
use std::sync::Arc;
use std::thread;
use std::time::{Duration, Instant, SystemTime, UNIX_EPOCH};

/// For how many rounds a queue is kept. Faults of an index that wraps show in an old queue alone.
const KEPT_ROUNDS: u32 = 2_000;
/// How many puts bring a count of 16 bits back to 0, and how many of them are left for the rounds at most.
const WRAP: u64 = 1 << 16;
const SHORT_OF_WRAP: u64 = 2_048;
/// One part in this many of the time goes into it.
const AGING_SHARE: u32 = 4;
/// Of how many rounds one is looked at for overlapping calls, and of how many one for its least k.
const SAMPLED: u64 = 8;
const SAMPLED_FOR_K: u64 = 16;
/// How often the workers are looked at, and how often the terminal is told.
const LOOK: Duration = Duration::from_millis(20);
const TELL: Duration = Duration::from_millis(500);

/// A queue that is used again.
struct Kept<Q> {
    queue: Arc<Q>,
    rounds: u32,
    next_item: u32,
    /// How many items it has had.
    puts: u64,
}

struct Check<Q, H> {
    pool: Pool<Q, H>,
    options: Options,
    random: Random,
    kept: [Option<Kept<Q>>; CAPACITIES.len()],
    /// Whether queues are aged: one thread may both put and get, and gets what it has put.
    ages: bool,
    /// How long that has taken.
    aging: Duration,
    start: Instant,
    report: Report,
    /// Calls of the sampled rounds, and those of them that overlap.
    sampled: u64,
    overlapped: u64,
    told: Instant,
    has_told: bool,
}

/// A number that no other check begins with.
fn new_seed() -> u64 {
    let time = SystemTime::now()
        .duration_since(UNIX_EPOCH)
        .unwrap_or_default();
    let mixed = Random((time.as_nanos() as u64) ^ (u64::from(process::id()) << 40)).next();
    mixed >> 32
}

/// Makes rounds as the options say, and returns what came of them.
pub(super) fn run<Q: Send + Sync + 'static, H: 'static>(
    subject: Subject<Q, H>,
    options: Options,
) -> Result<Report, BadOption> {
    options.check()?;
    let seed = options.seed.unwrap_or_else(new_seed);
    let mut check = Check {
        pool: Pool::new(subject, options.most_threads(), |thread| {
            options.room(thread)
        }),
        random: Random(seed),
        kept: [const { None }; CAPACITIES.len()],
        ages: options.lets_one_thread_do_both(),
        aging: Duration::ZERO,
        start: Instant::now(),
        report: Report::new(&options, seed),
        options,
        sampled: 0,
        overlapped: 0,
        told: Instant::now(),
        has_told: false,
    };
    check.make_rounds();
    Ok(check.report)
}

impl<Q: Send + Sync + 'static, H: 'static> Check<Q, H> {
    fn make_rounds(&mut self) {
        let most = self.options.rounds.unwrap_or(u64::MAX);
        loop {
            self.make_round();
            self.tell();
            let is_over = self.report.rounds >= most || self.start.elapsed() >= self.options.time();
            if is_over || !self.report.has_passed() {
                break;
            }
        }
        if self.report.has_passed() && self.report.undecided == self.report.rounds {
            let text = String::new();
            self.report.outcome = Outcome::Undecided { text };
        }
        if self.report.has_passed() && self.report.taken == 0 {
            self.report.outcome = Outcome::NothingTaken;
        }
        self.tell_end();
    }

    /// The queue for a round, and its least item: a new queue where the old one has served, or has no numbers left.
    fn queue_for(&mut self, design: &Design) -> (Arc<Q>, u32) {
        let kept = &mut self.kept[design.size];
        let items = design.items() as u32;
        let is_good = |it: &Kept<Q>| it.rounds < KEPT_ROUNDS && it.next_item + items <= MAX_ITEM;
        if !kept.as_ref().is_some_and(is_good) {
            *kept = None; // the old queue goes before the new one comes
        }
        let make = &self.pool.shared.subject.make;
        let kept = kept.get_or_insert_with(|| Kept {
            queue: Arc::new(make(CAPACITIES[design.size])),
            rounds: 0,
            next_item: 1,
            puts: 0,
        });
        let base = kept.next_item;
        kept.rounds += 1;
        kept.next_item += items;
        (Arc::clone(&kept.queue), base)
    }

    /// Ages a queue, where there is time for it: one thread puts and gets until counts of 16 bits are about to wrap. So
    /// many calls could not be judged in the time.
    fn age_queue(&mut self, design: &Design) {
        let has_time = self.aging * AGING_SHARE <= self.start.elapsed();
        let Some(kept) = &mut self.kept[design.size] else {
            return;
        };
        let left = WRAP - kept.puts % WRAP;
        if !self.ages || !has_time || left <= SHORT_OF_WRAP {
            return;
        }
        let pairs = (left - self.random.below(SHORT_OF_WRAP)) as u32;
        if kept.next_item + pairs > MAX_ITEM {
            return;
        }
        let (queue, base) = (Arc::clone(&kept.queue), kept.next_item);
        let design = design.alone();
        let start = Instant::now();
        self.pool.begin(Round {
            design,
            queue,
            seed: 0,
            base,
            repeated: None,
            pairs,
        });
        let hang = self.wait(&design);
        self.aging += start.elapsed();
        let aged = self.pool.shared.aged();
        if let Some(kept) = &mut self.kept[design.size] {
            kept.next_item += aged;
            kept.puts += u64::from(aged);
        }
        self.ages = self.pool.shared.is_emptied();
        self.note_stop(hang, &design);
    }

    fn make_round(&mut self) {
        let is_sized = self.pool.shared.subject.is_sized;
        let design = self.options.draw(&mut self.random, is_sized);
        self.age_queue(&design);
        if !self.report.has_passed() {
            return;
        }
        let (queue, base) = self.queue_for(&design);
        let (seed, repeated) = (self.random.next(), self.options.repeated);
        self.pool.begin(Round {
            design,
            queue,
            seed,
            base,
            repeated,
            pairs: 0,
        });
        let hang = self.wait(&design);
        self.report.rounds += 1;
        self.note_stop(hang, &design);
        if self.report.has_passed() {
            self.judge_round(&design);
        }
    }

    /// Notes a hang or a panic, and gives up a queue that is not empty.
    fn note_stop(&mut self, hang: Option<Vec<String>>, design: &Design) {
        self.pool.is_stuck = hang.is_some();
        if let Some((thread, message)) = self.pool.shared.panic() {
            let calls = self.calls();
            self.fail(Outcome::Panicked { thread, message }, design, &calls);
        } else if let Some(threads) = hang {
            let calls = self.calls();
            self.fail(Outcome::Hang { threads }, design, &calls);
        } else if !self.pool.shared.is_emptied() {
            self.kept[design.size] = None;
        }
    }

    /// Sleeps until each thread has done its part, and returns what the threads are in if one hangs.
    fn wait(&mut self, design: &Design) -> Option<Vec<String>> {
        let shared = &self.pool.shared;
        let mut watch = Watch::new(design.threads);
        let mut looked = Instant::now();
        while shared.done() < design.threads {
            thread::park_timeout(LOOK);
            if looked.elapsed() < LOOK {
                continue;
            }
            looked = Instant::now();
            let (lanes, workers) = (&shared.lanes[..design.threads], &self.pool.workers);
            if watch.sees_hang(lanes, workers, self.options.hang()) {
                return Some(watch.describe(lanes, workers));
            }
        }
        shared.forget_round();
        None
    }

    /// The calls of the round in ascending order of first time, so that their numbers are their places.
    fn calls(&self) -> Vec<Call> {
        let lanes = self.pool.shared.lanes.iter().enumerate();
        let mut calls: Vec<Call> = lanes
            .flat_map(|(thread, lane)| lane.calls(thread))
            .collect();
        calls.sort_by_key(|call| call.first);
        calls
    }

    fn judge_round(&mut self, design: &Design) {
        let calls = &self.calls();
        self.report.calls += calls.len() as u64;
        self.report.taken += calls
            .iter()
            .filter(|call| call.answer == Answer::Got)
            .count() as u64;
        if let Some(kept) = &mut self.kept[design.size] {
            kept.puts += calls
                .iter()
                .filter(|call| call.answer == Answer::Done)
                .count() as u64;
        }
        if self.report.rounds % SAMPLED == 1 {
            self.count_overlaps(calls);
        }
        match judge(calls, self.options.k, self.options.tries) {
            Ok(Verdict::Legal { .. }) => {}
            Ok(Verdict::NoOrder { text, reason, .. }) => {
                self.fail(Outcome::NoOrder { text, reason }, design, calls)
            }
            Ok(Verdict::Undecided { text, tries, .. }) => {
                self.report.undecided += 1;
                self.report.tries = self.report.tries.max(tries);
                if self.options.undecided_fails {
                    self.fail(Outcome::Undecided { text }, design, calls);
                }
            }
            Err(fault) => {
                let text = fault.to_string();
                self.fail(Outcome::Fault { text }, design, calls);
            }
        }
        if self.options.k > 1 && self.report.rounds % SAMPLED_FOR_K == 1 {
            self.look_for_least(calls);
        }
    }

    fn look_for_least(&mut self, calls: &[Call]) {
        let found = least(calls, self.options.tries);
        if let Ok(Least::Between { at_least, at_most }) = found {
            let (low, high) = self.report.least.unwrap_or((1, Some(1)));
            let high = high.zip(at_most).map(|(one, other)| one.max(other));
            self.report.least = Some((low.max(at_least), high));
        }
    }

    fn count_overlaps(&mut self, calls: &[Call]) {
        let mut latest = 0;
        for (place, call) in calls.iter().enumerate() {
            let next = calls.get(place + 1).map_or(u64::MAX, |next| next.first);
            self.overlapped += u64::from(latest >= call.first || next <= call.last);
            latest = latest.max(call.last);
        }
        self.sampled += calls.len() as u64;
        self.report.overlapping = self.overlapped as f64 / self.sampled.max(1) as f64;
    }

    fn fail(&mut self, outcome: Outcome, design: &Design, calls: &[Call]) {
        let shared = &self.pool.shared;
        let capacity = shared.subject.is_sized.then(|| CAPACITIES[design.size]);
        let (number, design) = (self.report.rounds, design.text(capacity));
        let unit = shared.clock.unit();
        self.report.outcome = outcome;
        self.report.failed_round = Some(format!("round {number}: {design}; times are {unit}"));
        self.report.write_files(&self.options, calls);
    }

    /// Says on a terminal how far the check is.
    fn tell(&mut self) {
        if self.options.quiet || self.told.elapsed() < TELL || !stderr().is_terminal() {
            return;
        }
        (self.told, self.has_told) = (Instant::now(), true);
        let (name, counts) = (&self.report.name, self.report.counts());
        // Not with `eprint!`, which a test's output is caught of. What the terminal says of it does not matter.
        let _ = write!(stderr(), "\r\x1b[K{name}: {counts}");
    }

    /// Clears the line of progress, and says what came of a check that passed. Where it failed, the caller has the
    /// report.
    fn tell_end(&self) {
        if self.has_told {
            let _ = write!(stderr(), "\r\x1b[K");
        }
        if !self.options.quiet && self.report.has_passed() {
            println!("{}", self.report);
        }
    }
}
