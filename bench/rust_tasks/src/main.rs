//! Work that spawns work in Rust: `kfifo::work::run` beside rayon's scopes, by workloads of `bench/tasks.cpp`. It runs
//! one workload once and prints a line of JSON, as that program does:
//!
//!     rust_tasks LIST THREADS K WORKLOAD WORDS..
//!
//! LIST is run, scope or scope_fifo; WORKLOAD is explore, grid, tree, jobs or runs. K counts for `run` alone.
use kfifo::work::{self, Options};
use rayon::{Scope, ScopeFifo, ThreadPool, ThreadPoolBuilder};
use std::process::ExitCode;
use std::sync::atomic::{AtomicBool, AtomicU32, AtomicU64, Ordering};
use std::thread;
use std::time::{Duration, Instant};

unsafe extern "C" {
    // Of bench/work.c.
    safe fn bench_work(steps: u64);
}

/// What a task does. Task 1 is the first.
trait Body: Sync {
    fn run(&self, task: u32, give: impl FnMut(u32));
}

/// Who does the tasks.
struct Pool {
    list: String,
    threads: usize,
    k: u32,
}

impl Pool {
    /// Does task 1 and all that come of it, and returns the time.
    fn run<B: Body>(&self, body: &B) -> Duration {
        let begin = Instant::now();
        match &*self.list {
            "run" => self.run_by_queue(body),
            "scope" => self
                .rayon()
                .install(|| rayon::scope(|scope| spawned(scope, body, 1))),
            _ => self
                .rayon()
                .install(|| rayon::scope_fifo(|scope| spawned_fifo(scope, body, 1))),
        }
        begin.elapsed()
    }

    fn run_by_queue<B: Body>(&self, body: &B) {
        let options = Options {
            threads: Some(self.threads),
            k: self.k,
        };
        let report = work::run(
            [1],
            |task, more| body.run(task, |next| more.give(next).expect("there is memory")),
            options,
        );
        assert!(report.expect("no error").left.is_empty());
    }

    fn rayon(&self) -> ThreadPool {
        let pool = ThreadPoolBuilder::new().num_threads(self.threads);
        pool.build().expect("threads start")
    }
}

fn spawned<'a, B: Body>(scope: &Scope<'a>, body: &'a B, task: u32) {
    body.run(task, |next| {
        scope.spawn(move |scope| spawned(scope, body, next))
    });
}

fn spawned_fifo<'a, B: Body>(scope: &ScopeFifo<'a>, body: &'a B, task: u32) {
    body.run(task, |next| {
        scope.spawn_fifo(move |scope| spawned_fifo(scope, body, next))
    });
}

/// The generator `std::minstd_rand` of C++.
struct Random(u64);

impl Random {
    const END: u64 = 2_147_483_647;

    fn next(&mut self) -> u64 {
        self.0 = self.0 * 48_271 % Self::END;
        self.0
    }
}

/// Lowers a distance, and says whether it was greater.
fn lower(distance: &AtomicU32, to: u32) -> bool {
    distance.load(Ordering::Relaxed) > to && distance.fetch_min(to, Ordering::SeqCst) > to
}

/// Distances that are not known, but for the first.
fn unknown(number: usize) -> Vec<AtomicU32> {
    let distances: Vec<_> = (0..number).map(|_| AtomicU32::new(u32::MAX)).collect();
    distances[0].store(0, Ordering::Relaxed);
    distances
}

fn print_search(time: Duration, tasks: AtomicU64, distances: Vec<AtomicU32>) {
    let (seconds, number) = (time.as_secs_f64(), distances.len() as f64);
    let tasks = tasks.into_inner() as f64 / number;
    let sum: u64 = distances
        .into_iter()
        .map(|it| u64::from(it.into_inner()))
        .sum();
    println!("{{\"seconds\": {seconds:.4}, \"tasks\": {tasks:.4}, \"sum\": {sum}}}");
}

/// The stacks of some pancakes, 12 at most, numbered as those of `c/examples/explore.cpp`.
struct Explore {
    pancakes: usize,
    /// How many orders each number of pancakes has.
    orders: [u32; 13],
    distances: Vec<AtomicU32>,
    tasks: AtomicU64,
}

impl Explore {
    fn new(pancakes: usize) -> Explore {
        let mut orders = [1; 13];
        for number in 1..=pancakes {
            orders[number] = orders[number - 1] * number as u32;
        }
        let distances = unknown(orders[pancakes] as usize);
        Explore {
            pancakes,
            orders,
            distances,
            tasks: AtomicU64::new(0),
        }
    }

    fn stack_of(&self, mut number: u32) -> [usize; 12] {
        let mut left = [0, 1, 2, 3, 4, 5, 6, 7, 8, 9, 10, 11];
        let mut sizes = [0; 12];
        for place in 0..self.pancakes {
            let rest = self.orders[self.pancakes - 1 - place];
            let at = (number / rest) as usize;
            number %= rest;
            sizes[place] = left[at];
            left.copy_within(at + 1..self.pancakes - place, at);
        }
        sizes
    }

    fn number_of(&self, sizes: &[usize]) -> u32 {
        let (mut number, mut used) = (0, 0_u32);
        for (place, &size) in sizes.iter().enumerate() {
            let smaller = (used & ((1 << size) - 1)).count_ones();
            number += (size as u32 - smaller) * self.orders[sizes.len() - 1 - place];
            used |= 1 << size;
        }
        number
    }
}

impl Body for Explore {
    fn run(&self, task: u32, mut give: impl FnMut(u32)) {
        self.tasks.fetch_add(1, Ordering::Relaxed);
        let stack = self.stack_of(task - 1);
        let distance = self.distances[task as usize - 1].load(Ordering::Relaxed) + 1;
        for top in 2..=self.pancakes {
            let mut flipped = stack;
            flipped[..top].reverse();
            let next = self.number_of(&flipped[..self.pancakes]);
            if lower(&self.distances[next as usize], distance) {
                give(next + 1);
            }
        }
    }
}

/// A grid whose edges have random lengths, with distances from a corner.
struct Grid {
    side: usize,
    right: Vec<u8>,
    down: Vec<u8>,
    distances: Vec<AtomicU32>,
    is_task: Vec<AtomicBool>,
    tasks: AtomicU64,
}

impl Grid {
    fn new(side: usize) -> Grid {
        let mut random = Random(1);
        let mut lengths = || -> Vec<_> {
            let lengths = (0..side * side).map(|_| 1 + (random.next() % 100) as u8);
            lengths.collect()
        };
        Grid {
            side,
            right: lengths(),
            down: lengths(),
            distances: unknown(side * side),
            is_task: (0..side * side).map(|_| AtomicBool::new(false)).collect(),
            tasks: AtomicU64::new(0),
        }
    }
}

impl Body for Grid {
    fn run(&self, task: u32, mut give: impl FnMut(u32)) {
        self.tasks.fetch_add(1, Ordering::Relaxed);
        let (at, side) = (task as usize - 1, self.side);
        self.is_task[at].store(false, Ordering::SeqCst);
        let distance = self.distances[at].load(Ordering::SeqCst);
        let mut relax = |next: usize, length: u8| {
            let is_less = lower(&self.distances[next], distance + u32::from(length));
            if is_less && !self.is_task[next].swap(true, Ordering::SeqCst) {
                give(next as u32 + 1);
            }
        };
        let (x, y) = (at % side, at / side);
        if x + 1 < side {
            relax(at + 1, self.right[at]);
        }
        if y + 1 < side {
            relax(at + side, self.down[at]);
        }
        if x > 0 {
            relax(at - 1, self.right[at - 1]);
        }
        if y > 0 {
            relax(at - side, self.down[at - side]);
        }
    }
}

/// How many steps of `bench_work` take so long by one thread alone: the fastest of five trials counts.
fn steps_of(nanoseconds: f64) -> u64 {
    const TRIED: u64 = 4_000_000;
    let trials = (0..5).map(|_| {
        let begin = Instant::now();
        bench_work(TRIED);
        begin.elapsed()
    });
    let fastest = trials.min().expect("there are five").as_secs_f64() * 1e9;
    (TRIED as f64 / fastest * nanoseconds) as u64 + 1
}

/// The same while so many threads work at once. Where a host shares its processors, each of them has less than one: so
/// the mean counts.
fn steps_among(threads: usize, nanoseconds: f64) -> u64 {
    const PART: u64 = 10_000;
    const TRIED: Duration = Duration::from_millis(500);
    let parts = AtomicU64::new(0);
    let end = Instant::now() + TRIED;
    thread::scope(|scope| {
        for _ in 0..threads {
            scope.spawn(|| {
                while Instant::now() < end {
                    bench_work(PART);
                    parts.fetch_add(1, Ordering::Relaxed);
                }
            });
        }
    });
    let steps = (PART * parts.into_inner()) as f64 / threads as f64;
    (steps / (TRIED.as_secs_f64() * 1e9) * nanoseconds) as u64 + 1
}

/// Each task works and gives two, up to a number.
struct Tree {
    steps: u64,
    end: u32,
}

impl Body for Tree {
    fn run(&self, task: u32, mut give: impl FnMut(u32)) {
        bench_work(self.steps);
        if task < self.end {
            give(2 * task);
            give(2 * task + 1);
        }
    }
}

/// The first task gives jobs at random times, and each other one is a job.
struct Jobs {
    steps: u64,
    /// The mean time between two jobs, in seconds.
    gap: f64,
    begin: Instant,
    /// When each was given and how long it waited, in nanoseconds.
    given: Vec<AtomicU64>,
    waited: Vec<AtomicU64>,
}

impl Jobs {
    const NUMBER: usize = 50_000;
    const EACH: f64 = 20e-6;

    fn new(threads: usize, percent: f64) -> Jobs {
        let times = || (0..Self::NUMBER).map(|_| AtomicU64::new(0)).collect();
        Jobs {
            steps: steps_among(threads, Self::EACH * 1e9),
            gap: Self::EACH / (percent / 100.0 * (threads - 1) as f64),
            begin: Instant::now(),
            given: times(),
            waited: times(),
        }
    }

    fn now(&self) -> u64 {
        self.begin.elapsed().as_nanos() as u64
    }

    fn print(self) {
        let mut waited: Vec<_> = self.waited.into_iter().map(|it| it.into_inner()).collect();
        waited.sort_unstable();
        let at = |part: usize| waited[Self::NUMBER / 1000 * part] as f64 / 1e3;
        let (median, most, nearly_all) = (at(500), at(990), at(999));
        println!("{{\"median\": {median:.1}, \"99\": {most:.1}, \"99.9\": {nearly_all:.1}}}");
    }
}

impl Body for Jobs {
    fn run(&self, task: u32, mut give: impl FnMut(u32)) {
        if task > 1 {
            let job = task as usize - 2;
            let waited = self.now() - self.given[job].load(Ordering::Relaxed);
            self.waited[job].store(waited, Ordering::Relaxed);
            bench_work(self.steps);
            return;
        }
        let mut random = Random(2);
        let mut due = self.now() as f64;
        for job in 0..Self::NUMBER {
            due -= (random.next() as f64 / Random::END as f64).ln() * self.gap * 1e9;
            while (self.now() as f64) < due {}
            self.given[job].store(self.now(), Ordering::Relaxed);
            give(job as u32 + 2);
        }
    }
}

/// A first task that gives some others.
struct Few {
    tasks: u32,
}

impl Few {
    const RUNS: u32 = 2_000;
}

impl Body for Few {
    fn run(&self, task: u32, give: impl FnMut(u32)) {
        if task == 1 {
            (2..=self.tasks).for_each(give);
        }
    }
}

fn measure(pool: &Pool, workload: &str, words: &[f64]) -> Option<()> {
    match (workload, words) {
        ("explore", &[pancakes]) => {
            let body = Explore::new(pancakes as usize);
            print_search(pool.run(&body), body.tasks, body.distances);
        }
        ("grid", &[side]) => {
            let body = Grid::new(side as usize);
            print_search(pool.run(&body), body.tasks, body.distances);
        }
        ("tree", &[nanoseconds, depth]) => {
            let end = 1 << depth as u32;
            let body = Tree {
                steps: steps_of(nanoseconds),
                end,
            };
            let time = pool.run(&body).as_secs_f64() * 1e9 / f64::from(2 * end - 1);
            println!("{{\"nanoseconds\": {time:.1}}}");
        }
        ("jobs", &[percent]) => {
            let body = Jobs::new(pool.threads, percent);
            pool.run(&body);
            body.print();
        }
        ("runs", &[tasks]) => {
            let body = Few {
                tasks: tasks as u32,
            };
            let time: Duration = (0..Few::RUNS).map(|_| pool.run(&body)).sum();
            let time = time.as_secs_f64() * 1e6 / f64::from(Few::RUNS);
            println!("{{\"microseconds\": {time:.2}}}");
        }
        _ => return None,
    }
    Some(())
}

/// The workload that the words of the command line name, or none where they do not.
fn run(words: &[String]) -> Option<()> {
    let [list, threads, k, workload, words @ ..] = words else {
        return None;
    };
    let pool = Pool {
        list: list.clone(),
        threads: threads.parse().ok()?,
        k: k.parse().ok()?,
    };
    let words: Option<Vec<f64>> = words.iter().map(|it| it.parse().ok()).collect();
    match &**list {
        "run" | "scope" | "scope_fifo" => measure(&pool, workload, &words?),
        _ => None,
    }
}

fn main() -> ExitCode {
    let words: Vec<_> = std::env::args().skip(1).collect();
    ExitCode::from(if run(&words).is_some() { 0 } else { 2 })
}
