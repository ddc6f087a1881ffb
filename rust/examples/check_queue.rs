//! Checks a queue behind a lock: thousands of short runs, each judged. With the argument `broken` it checks a stack,
//! and the check says what is wrong.
use kfifo::judge::{Options, check};
use std::collections::VecDeque;
use std::sync::Mutex;

fn check_queue() {
    check(
        || Mutex::new(VecDeque::new()),
        |queue, item| queue.lock().unwrap().push_back(item),
        |queue| queue.lock().unwrap().pop_front(),
        Options::default(),
    );
}

fn check_stack() {
    check(
        || Mutex::new(Vec::new()),
        |stack, item| stack.lock().unwrap().push(item),
        |stack| stack.lock().unwrap().pop(),
        Options::default(),
    );
}

fn main() {
    if std::env::args().any(|word| word == "broken") {
        check_stack();
    } else {
        check_queue();
    }
}
