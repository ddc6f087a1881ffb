//! A `VecDeque` behind a mutex, logged: two threads put items in and two take them out, and then the queue is
//! emptied. Prints the log. With the argument `broken` the queue gives one item twice, and with `short` the logs are
//! too small.

#[path = "../kfifo_log.rs"]
mod kfifo_log;

use kfifo_log::ThreadLog;
use std::collections::VecDeque;
use std::io;
use std::sync::{Barrier, Mutex, PoisonError};
use std::thread;

const ITEMS: u32 = 1000;

struct Items {
    waiting: VecDeque<u32>,
    /// Whether the next item that is taken stays in the queue, too.
    is_broken: bool,
}

struct Queue(Mutex<Items>);

impl Queue {
    fn new(is_broken: bool) -> Self {
        Queue(Mutex::new(Items {
            waiting: VecDeque::new(),
            is_broken,
        }))
    }

    fn push(&self, item: u32) -> bool {
        let mut items = self.0.lock().unwrap_or_else(PoisonError::into_inner);
        items.waiting.push_back(item);
        true
    }

    fn pop(&self) -> Option<u32> {
        let mut items = self.0.lock().unwrap_or_else(PoisonError::into_inner);
        let item = items.waiting.pop_front()?;
        if std::mem::take(&mut items.is_broken) {
            items.waiting.push_front(item);
        }
        Some(item)
    }
}

fn produce(queue: &Queue, log: &mut ThreadLog, start: &Barrier, first: u32) {
    start.wait();
    for item in first..first + ITEMS {
        log.enqueue(item, || queue.push(item));
    }
}

fn consume(queue: &Queue, log: &mut ThreadLog, start: &Barrier) {
    start.wait();
    for _ in 0..ITEMS {
        log.dequeue(|| queue.pop());
    }
}

fn main() -> io::Result<()> {
    let mode = std::env::args().nth(1).unwrap_or_default();
    let queue = &Queue::new(mode == "broken");
    // The main thread has room for each item, the one that comes twice, and the Empty after them.
    let room = if mode == "short" {
        10
    } else {
        2 * ITEMS as usize + 2
    };
    let mut logs = kfifo_log::thread_logs(5, room);
    let [first, second, third, fourth, main] = logs.as_mut_slice() else {
        unreachable!("there are five logs");
    };
    // The threads wait for each other, so that they run side by side.
    let start = &Barrier::new(4);
    thread::scope(|scope| {
        scope.spawn(|| produce(queue, first, start, 1));
        scope.spawn(|| produce(queue, second, start, ITEMS + 1));
        scope.spawn(|| consume(queue, third, start));
        scope.spawn(|| consume(queue, fourth, start));
    });
    while main.dequeue(|| queue.pop()).is_some() {}
    kfifo_log::write(&logs, io::stdout())
}
