//! The worker threads: in each round some of them make logged calls on a queue, and one of them then empties it.
use super::clock::{Clock, Random};
use super::options::{Design, Mix};
use super::verdict::{Answer, Call, Op};
use super::{Got, Put};
use std::any::Any;
use std::hint;
use std::panic::{AssertUnwindSafe, catch_unwind};
use std::sync::atomic::{AtomicBool, AtomicU32, AtomicU64, AtomicUsize, Ordering};
use std::sync::{Arc, Mutex, PoisonError};
use std::thread::{self, JoinHandle, Thread};
use std::time::{Duration, Instant};

type MakeHandle<Q, H> = Box<dyn Fn(&Arc<Q>, usize) -> H + Send + Sync>;
type PutItem<H> = Box<dyn Fn(&mut H, u32) -> Put + Send + Sync>;

/// The queue under test: how it is made, and how a thread makes its calls.
pub(super) struct Subject<Q, H> {
    pub(super) make: Box<dyn Fn(usize) -> Q + Send + Sync>,
    /// Whether `make` reads the capacity that it is given.
    pub(super) is_sized: bool,
    pub(super) handle: MakeHandle<Q, H>,
    pub(super) put: PutItem<H>,
    pub(super) get: Box<dyn Fn(&mut H) -> Got + Send + Sync>,
}

/// What a worker does, as the thread that watches reads it.
#[derive(Clone, Copy, Debug, PartialEq, Eq)]
#[repr(u32)]
pub(super) enum Phase {
    Idle,
    MakingHandle,
    Aging,
    WaitingForStart,
    Calling,
    WaitingForOthers,
    Emptying,
}

const PHASES: [Phase; 7] = [
    Phase::Idle,
    Phase::MakingHandle,
    Phase::Aging,
    Phase::WaitingForStart,
    Phase::Calling,
    Phase::WaitingForOthers,
    Phase::Emptying,
];

/// The answers in the order of their numbers.
const ANSWERS: [Answer; 7] = [
    Answer::Unfinished,
    Answer::Done,
    Answer::Full,
    Answer::Got,
    Answer::Empty,
    Answer::Busy,
    Answer::Worn,
];

/// A logged call. Its fields are atomic so that the log of a thread that hangs can be read.
#[derive(Default)]
struct Slot {
    first: AtomicU64,
    last: AtomicU64,
    item: AtomicU64,
    op: AtomicU32,
    answer: AtomicU32,
}

/// The log of one worker. The alignment keeps the logs of two workers out of one line of the cache.
#[repr(align(128))]
pub(super) struct Lane {
    phase: AtomicU32,
    /// How many calls have begun.
    length: AtomicUsize,
    slots: Box<[Slot]>,
}

impl Lane {
    fn new(room: usize) -> Lane {
        Lane {
            phase: AtomicU32::new(0),
            length: AtomicUsize::new(0),
            slots: (0..room).map(|_| Slot::default()).collect(),
        }
    }

    pub(super) fn phase(&self) -> Phase {
        PHASES[self.phase.load(Ordering::Acquire) as usize]
    }

    fn enter(&self, phase: Phase) {
        self.phase.store(phase as u32, Ordering::Release);
    }

    /// How many calls have begun.
    pub(super) fn length(&self) -> usize {
        self.length.load(Ordering::Acquire)
    }

    /// The calls of the last round.
    pub(super) fn calls(&self, thread: usize) -> impl Iterator<Item = Call> {
        let slots = &self.slots[..self.length()];
        slots.iter().map(move |slot| Call {
            thread: thread as u32,
            op: if slot.op.load(Ordering::Relaxed) == 0 {
                Op::Put
            } else {
                Op::Get
            },
            item: slot.item.load(Ordering::Relaxed),
            first: slot.first.load(Ordering::Relaxed),
            last: slot.last.load(Ordering::Relaxed),
            answer: ANSWERS[slot.answer.load(Ordering::Acquire) as usize],
        })
    }
}

/// What the workers of a round need to know.
pub(super) struct Round<Q> {
    pub(super) design: Design,
    pub(super) queue: Arc<Q>,
    pub(super) seed: u64,
    /// The least item of the round, where items do not repeat.
    pub(super) base: u32,
    /// How many different items there are, where they repeat.
    pub(super) repeated: Option<u32>,
    /// How many times one thread puts and gets an item, without a log and instead of a round; 0 of a round.
    pub(super) pairs: u32,
}

impl<Q> Clone for Round<Q> {
    fn clone(&self) -> Round<Q> {
        Round {
            design: self.design,
            queue: Arc::clone(&self.queue),
            seed: self.seed,
            base: self.base,
            repeated: self.repeated,
            pairs: self.pairs,
        }
    }
}

/// The word by which workers end.
const STOP: u64 = u64::MAX;

/// A number in lines of the cache of its own.
#[repr(align(128))]
struct Alone<T>(T);

/// What the workers and the thread that judges share.
pub(super) struct Shared<Q, H> {
    pub(super) subject: Subject<Q, H>,
    pub(super) lanes: Vec<Lane>,
    pub(super) clock: Clock,
    round: Mutex<Option<Round<Q>>>,
    /// The number of the round times 128, and how many threads take part. It is one word: a worker that read them apart
    /// could join a round that is not its own.
    word: Alone<AtomicU64>,
    arrived: Alone<AtomicUsize>,
    awake: Alone<AtomicUsize>,
    done: Alone<AtomicUsize>,
    /// Whether the queue was seen empty after the round.
    is_emptied: AtomicBool,
    /// How many items a queue had that was aged instead.
    aged: AtomicU32,
    /// The thread that panicked first in a call, and its message.
    panic: Mutex<Option<(usize, String)>>,
    has_panicked: AtomicBool,
    judge: Thread,
}

/// How long a queue is aged at a time.
pub(super) const AGING: Duration = Duration::from_millis(20);
/// How many turns a thread spins for others before it sleeps.
const SPINS: u32 = 1_000;
/// How long it sleeps at a time.
const NAP: Duration = Duration::from_micros(20);

/// Spins for others, and returns whether they came.
fn spin_for(is_ready: &impl Fn() -> bool) -> bool {
    (0..SPINS).any(|_| {
        hint::spin_loop();
        is_ready()
    })
}

/// Waits for others: it spins, and then sleeps. A thread that only gave its processor away would use up its time on a
/// busy machine, and the threads would make their calls one after the other.
fn wait_until(is_ready: impl Fn() -> bool) {
    while !spin_for(&is_ready) {
        thread::sleep(NAP);
    }
}

/// The text of a panic.
fn message_of(payload: &(dyn Any + Send)) -> String {
    let text = payload
        .downcast_ref::<&str>()
        .map(|text| (*text).to_string());
    let text = text.or_else(|| payload.downcast_ref::<String>().cloned());
    text.unwrap_or_else(|| String::from("a panic without a text"))
}

/// One worker in one round.
struct Caller<'a, Q, H> {
    shared: &'a Shared<Q, H>,
    lane: &'a Lane,
    handle: H,
    /// When the thread's last call ended.
    latest: u64,
}

impl<Q, H> Caller<'_, Q, H> {
    /// Logs the beginning of a call, and returns its place in the log.
    fn begin(&mut self, op: Op, item: u64) -> usize {
        let place = self.lane.length.load(Ordering::Relaxed);
        let slot = &self.lane.slots[place];
        slot.op.store(op as u32, Ordering::Relaxed);
        slot.item.store(item, Ordering::Relaxed);
        slot.answer.store(0, Ordering::Relaxed);
        let first = self.shared.clock.before(self.latest);
        slot.first.store(first, Ordering::Relaxed);
        self.lane.length.store(place + 1, Ordering::Release);
        place
    }

    fn end(&mut self, place: usize, last: u64, answer: Answer) {
        let slot = &self.lane.slots[place];
        slot.last.store(last, Ordering::Relaxed);
        slot.answer.store(answer as u32, Ordering::Release);
        self.latest = last;
    }

    fn put(&mut self, item: u32) {
        let place = self.begin(Op::Put, u64::from(item));
        let put = (self.shared.subject.put)(&mut self.handle, item);
        let last = self.shared.clock.after();
        self.end(place, last, put.answer());
    }

    fn get(&mut self) -> Got {
        let place = self.begin(Op::Get, 0);
        let got = (self.shared.subject.get)(&mut self.handle);
        let last = self.shared.clock.after();
        if let Got::Item(item) = got {
            self.lane.slots[place].item.store(item, Ordering::Relaxed);
        }
        self.end(place, last, got.answer());
        got
    }

    /// Makes the calls of a round.
    fn make_calls(&mut self, thread: usize, round: &Round<Q>, random: &mut Random) {
        let design = &round.design;
        let mut item = round.base + (thread * design.most_puts()) as u32;
        let mut is_put = random.below(2) == 1;
        let mut burst = 0;
        for _ in 0..design.calls_of(thread) {
            is_put = match (design.role(thread), design.mix) {
                (Some(role), _) => role,
                (None, Mix::Alternating) => !is_put,
                (None, Mix::Apart) => thread % 2 == 1,
                (None, Mix::Bursts) if burst > 0 => is_put,
                (None, Mix::Bursts) => {
                    burst = 1 + random.below(16);
                    !is_put
                }
                (None, Mix::NearlyEmpty) => random.below(8) < 3,
                (None, Mix::NearlyFull) => random.below(8) < 5,
                (None, Mix::HalfFull) => random.below(2) == 1,
            };
            burst = burst.saturating_sub(1);
            if design.pause > 0 {
                (0..random.below(design.pause)).for_each(|_| hint::spin_loop());
            }
            if is_put {
                self.put(round.item(item, random));
                item += 1;
            } else {
                self.get();
            }
        }
    }

    /// Gets until the queue says that it is empty, and returns whether it did.
    fn empty(&mut self) -> bool {
        while self.lane.length() < self.lane.slots.len() {
            match self.get() {
                Got::Empty => return true,
                Got::Worn => return false,
                Got::Item(_) | Got::Busy => {}
            }
        }
        false
    }
}

impl<Q> Round<Q> {
    /// The item of a put: the next number, or one of a few.
    fn item(&self, next: u32, random: &mut Random) -> u32 {
        match self.repeated {
            Some(many) => 1 + random.below(u64::from(many)) as u32,
            None => next,
        }
    }
}

impl<Q, H> Shared<Q, H> {
    /// Puts and gets items without a log, for a short time, and returns whether each came out.
    fn age(&self, round: &Round<Q>) -> bool {
        self.lanes[0].enter(Phase::Aging);
        let start = Instant::now();
        let mut handle = (self.subject.handle)(&round.queue, 0);
        for item in round.base..round.base + round.pairs {
            if start.elapsed() >= AGING {
                break;
            }
            self.aged.fetch_add(1, Ordering::Relaxed);
            let is_put = (self.subject.put)(&mut handle, item) == Put::Done;
            if !is_put || (self.subject.get)(&mut handle) != Got::Item(u64::from(item)) {
                return false;
            }
        }
        true
    }

    fn take_part(&self, thread: usize, round: &Round<Q>) {
        if round.pairs > 0 {
            return self.is_emptied.store(self.age(round), Ordering::Release);
        }
        let (design, lane) = (&round.design, &self.lanes[thread]);
        let mut random = Random(
            round
                .seed
                .wrapping_add(thread as u64 * 0x1234_5678_9abc_def1),
        );
        let handle = (self.subject.handle)(&round.queue, thread);
        let mut caller = Caller {
            shared: self,
            lane,
            handle,
            latest: 0,
        };
        if thread + 1 == design.threads {
            lane.enter(Phase::Calling);
            let first = round.base + (design.threads * design.most_puts()) as u32;
            for item in first..first + design.before as u32 {
                caller.put(round.item(item, &mut random));
            }
        }
        lane.enter(Phase::WaitingForStart);
        self.arrived.0.fetch_add(1, Ordering::AcqRel);
        wait_until(|| {
            self.arrived.0.load(Ordering::Acquire) >= design.threads || self.has_panicked()
        });
        // Some of them slept. So that all begin at once, they wait again, but only for a short time.
        self.awake.0.fetch_add(1, Ordering::AcqRel);
        spin_for(&|| self.awake.0.load(Ordering::Acquire) >= design.threads);
        lane.enter(Phase::Calling);
        caller.make_calls(thread, round, &mut random);
        if thread == 0 {
            lane.enter(Phase::WaitingForOthers);
            wait_until(|| self.done.0.load(Ordering::Acquire) + 1 == design.threads);
            lane.enter(Phase::Emptying);
            self.is_emptied.store(caller.empty(), Ordering::Release);
        }
    }

    /// Whether a thread has panicked in a call.
    pub(super) fn has_panicked(&self) -> bool {
        self.has_panicked.load(Ordering::Acquire)
    }

    /// The thread that panicked, and its message.
    pub(super) fn panic(&self) -> Option<(usize, String)> {
        self.panic
            .lock()
            .unwrap_or_else(PoisonError::into_inner)
            .clone()
    }

    pub(super) fn is_emptied(&self) -> bool {
        self.is_emptied.load(Ordering::Acquire)
    }

    /// How many items a queue had that was aged.
    pub(super) fn aged(&self) -> u32 {
        self.aged.load(Ordering::Acquire)
    }

    /// Lets go of the queue of a round that has ended.
    pub(super) fn forget_round(&self) {
        *self.round.lock().unwrap_or_else(PoisonError::into_inner) = None;
    }

    /// How many threads have done their part of the round.
    pub(super) fn done(&self) -> usize {
        self.done.0.load(Ordering::Acquire)
    }

    fn work(&self, thread: usize) {
        let mut seen = 0;
        loop {
            while self.word.0.load(Ordering::Acquire) == seen {
                thread::park();
            }
            seen = self.word.0.load(Ordering::Acquire);
            if seen == STOP {
                return;
            }
            let threads = (seen % 128) as usize;
            if thread < threads {
                self.work_in_round(thread, threads);
            }
        }
    }

    fn work_in_round(&self, thread: usize, threads: usize) {
        let lane = &self.lanes[thread];
        let round = self
            .round
            .lock()
            .unwrap_or_else(PoisonError::into_inner)
            .clone();
        // A panic of the queue's is a finding: the round ends, and the report names the thread.
        let part = AssertUnwindSafe(|| {
            if let Some(round) = round {
                self.take_part(thread, &round);
            }
        });
        if let Err(payload) = catch_unwind(part) {
            let mut panic = self.panic.lock().unwrap_or_else(PoisonError::into_inner);
            panic.get_or_insert((thread, message_of(&*payload)));
            self.has_panicked.store(true, Ordering::Release);
        }
        lane.enter(Phase::Idle);
        if self.done.0.fetch_add(1, Ordering::AcqRel) + 1 == threads {
            self.judge.unpark();
        }
    }
}

/// The workers, kept from round to round. They sleep while a log is judged.
pub(super) struct Pool<Q, H> {
    pub(super) shared: Arc<Shared<Q, H>>,
    pub(super) workers: Vec<JoinHandle<()>>,
    rounds: u64,
    /// Whether a worker will never end.
    pub(super) is_stuck: bool,
}

impl<Q: Send + Sync + 'static, H: 'static> Pool<Q, H> {
    /// That many workers, each with room for as many calls as `room` says.
    pub(super) fn new(
        subject: Subject<Q, H>,
        threads: usize,
        room: impl Fn(usize) -> usize,
    ) -> Pool<Q, H> {
        let shared = Arc::new(Shared {
            subject,
            lanes: (0..threads).map(|thread| Lane::new(room(thread))).collect(),
            clock: Clock::new(),
            round: Mutex::new(None),
            word: Alone(AtomicU64::new(0)),
            arrived: Alone(AtomicUsize::new(0)),
            awake: Alone(AtomicUsize::new(0)),
            done: Alone(AtomicUsize::new(0)),
            is_emptied: AtomicBool::new(false),
            aged: AtomicU32::new(0),
            panic: Mutex::new(None),
            has_panicked: AtomicBool::new(false),
            judge: thread::current(),
        });
        let spawn = |thread| {
            let shared = Arc::clone(&shared);
            thread::spawn(move || shared.work(thread))
        };
        let workers = (0..threads).map(spawn).collect();
        Pool {
            shared,
            workers,
            rounds: 0,
            is_stuck: false,
        }
    }

    /// Begins a round. The workers of the one before have done their parts.
    pub(super) fn begin(&mut self, round: Round<Q>) {
        let threads = round.design.threads;
        let shared = &self.shared;
        for lane in &shared.lanes {
            lane.length.store(0, Ordering::Release);
        }
        for lane in &shared.lanes[..threads] {
            lane.enter(Phase::MakingHandle);
        }
        shared.arrived.0.store(0, Ordering::Release);
        shared.awake.0.store(0, Ordering::Release);
        shared.done.0.store(0, Ordering::Release);
        shared.is_emptied.store(false, Ordering::Release);
        shared.aged.store(0, Ordering::Release);
        *shared.round.lock().unwrap_or_else(PoisonError::into_inner) = Some(round);
        self.rounds += 1;
        let word = self.rounds * 128 + threads as u64;
        shared.word.0.store(word, Ordering::Release);
        for worker in &self.workers[..threads] {
            worker.thread().unpark();
        }
    }
}

impl<Q, H> Drop for Pool<Q, H> {
    fn drop(&mut self) {
        self.shared.word.0.store(STOP, Ordering::Release);
        for worker in self.workers.drain(..) {
            worker.thread().unpark();
            // Nothing ends a thread that hangs in a call: it is left alone, with what it holds.
            if !self.is_stuck {
                let _ = worker.join();
            }
        }
    }
}
