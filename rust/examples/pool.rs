//! A pool of worker threads: four take jobs out of one queue while the main thread puts them. A worker sleeps while
//! there is no job, the main thread while there is no room.
use kfifo::{Handle, OpenError, PopError, Queue};
use std::process::ExitCode;
use std::thread;

const WORKERS: usize = 4;
const JOBS: u64 = 20_000;

struct Job {
    number: u64,
}

/// Does jobs until there are no more, and returns the sum of their squares, and why it ended.
fn work(handle: &Handle<Job>) -> (u64, PopError) {
    let _end = handle.finish_on_drop(); // the others end too, whatever ends this one
    let mut sum = 0;
    loop {
        match handle.pop_wait() {
            Ok(job) => sum += job.number * job.number,
            Err(end) => return (sum, end),
        }
    }
}

/// Puts the jobs, and returns whether each found its way.
fn put_all(handle: &Handle<Job>) -> bool {
    let _end = handle.finish_on_drop(); // a worker ends when it then finds the queue empty
    for number in 1..=JOBS {
        if let Err(refused) = handle.push_wait(Job { number }) {
            eprintln!("job {number} was not put: {refused}");
            return false;
        }
    }
    true
}

fn main() -> Result<ExitCode, OpenError> {
    let queue = Queue::new(4, 128, WORKERS + 1)?; // k, capacity, threads
    let (all_put, ends) = thread::scope(|scope| {
        let workers: Vec<_> = (0..WORKERS)
            .map(|_| {
                let handle = queue.handle().expect("a handle is free");
                scope.spawn(move || work(&handle))
            })
            .collect();
        let all_put = put_all(&queue.handle().expect("a handle is free"));
        let ends: Vec<_> = workers
            .into_iter()
            .map(|worker| worker.join().expect("no worker panics"))
            .collect();
        (all_put, ends)
    });
    for (_, end) in &ends {
        if *end != PopError::Finished {
            eprintln!("a worker ended: {end}");
        }
    }
    let sum: u64 = ends.iter().map(|(sum, _)| sum).sum();
    println!("the squares of the jobs that were done add up to {sum}");
    let is_right = all_put && sum == (1..=JOBS).map(|number| number * number).sum();
    Ok(ExitCode::from(u8::from(!is_right)))
}
