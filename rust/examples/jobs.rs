//! A server of jobs: requests come by a clock, and each is begun about when it is its turn. One task is the clock,
//! which gives a job whenever one is due. While there is none, the other workers sleep.
//!
//! The number of jobs is an argument, 2,000 where it is left out. It prints how long jobs waited.
use kfifo::work::{self, Options, RunError};
use std::hint::spin_loop;
use std::process::ExitCode;
use std::sync::atomic::{AtomicU64, Ordering};
use std::thread;
use std::time::{Duration, Instant};

/// A job comes each 50 microseconds, and takes 20.
const BETWEEN: Duration = Duration::from_micros(50);
const LONG: Duration = Duration::from_micros(20);

enum Task {
    Clock,
    Job { number: usize, due: Instant },
}

/// Gives each job when it is due. It keeps a worker busy, so there are two at least.
fn run_clock(jobs: usize, mut give: impl FnMut(Task)) {
    let began = Instant::now();
    for number in 0..jobs {
        let due = began + BETWEEN * number as u32;
        while Instant::now() < due {
            spin_loop(); // a sleep would end some 50 microseconds late
        }
        give(Task::Job { number, due });
    }
}

/// Does all jobs, and returns how many nanoseconds each waited, sorted.
fn serve(jobs: usize) -> Result<Vec<u64>, RunError<Task>> {
    let waited: Vec<_> = (0..jobs).map(|_| AtomicU64::new(u64::MAX)).collect();
    let threads = thread::available_parallelism().map_or(2, |it| it.get().clamp(2, 64));
    let report = work::run(
        [Task::Clock],
        |task, more| match task {
            Task::Clock => run_clock(jobs, |job| more.give(job).expect("there is memory")),
            Task::Job { number, due } => {
                let wait = due.elapsed();
                waited[number].store(wait.as_nanos() as u64, Ordering::Relaxed);
                while due.elapsed() < wait + LONG {} // the work
            }
        },
        Options {
            threads: Some(threads),
            ..Options::default()
        },
    )?;
    println!(
        "jobs by worker: {:?}, sleeps: {}",
        report.done, report.slept
    );
    let mut waited: Vec<_> = waited.into_iter().map(AtomicU64::into_inner).collect();
    waited.sort_unstable();
    Ok(waited)
}

fn main() -> Result<ExitCode, String> {
    let jobs = std::env::args().nth(1).map_or(Ok(2_000), |it| it.parse());
    let Ok(jobs @ 1..=10_000_000) = jobs else {
        eprintln!("usage: jobs [JOBS], 1 to 10,000,000");
        return Ok(ExitCode::from(2));
    };
    let waited = serve(jobs).map_err(|ended| ended.to_string())?;
    for (name, part) in [("half", 500), ("99 %", 990), ("99.9 %", 999)] {
        let at_most = waited[(jobs - 1) * part / 1_000] as f64 / 1_000.0;
        println!("{name} of the jobs waited {at_most:.1} microseconds at most");
    }
    let is_right = waited.last() != Some(&u64::MAX);
    if !is_right {
        eprintln!("a job was not done");
    }
    Ok(ExitCode::from(u8::from(!is_right)))
}
