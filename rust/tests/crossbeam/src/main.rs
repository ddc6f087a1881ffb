//! Checks crossbeam's queues, for as many seconds each as the argument says. tests/judge runs it where Debian's
//! crates are installed.
use crossbeam_queue::{ArrayQueue, SegQueue};
use kfifo::judge::{Options, check, check_sized};

fn main() {
    let seconds = std::env::args().nth(1).and_then(|word| word.parse().ok()).unwrap_or(2.0);
    let options = |name: &str| Options {
        name: name.to_string(),
        seconds,
        ..Options::default()
    };
    let array = options("ArrayQueue");
    check_sized(ArrayQueue::new, |queue, item| queue.push(item).is_ok(), |queue| queue.pop(), array);
    let segments = options("SegQueue");
    check(SegQueue::<u32>::new, |queue, item| queue.push(item), |queue| queue.pop(), segments);
}
