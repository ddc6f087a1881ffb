//! A search, breadth first: how many flips it takes to sort each stack of pancakes. A task is an order of the pancakes,
//! and gives those orders that it reaches by one flip, where that is the shortest way so far. Since tasks begin nearly
//! in the order in which they came, hardly an order is looked at twice.
//!
//! The number of pancakes is an argument, 10 where it is left out. The distances are compared with those of a plain
//! search by one thread.
use kfifo::work::{self, Options, RunError};
use std::collections::VecDeque;
use std::process::ExitCode;
use std::sync::atomic::{AtomicU8, Ordering};
use std::time::Instant;

/// An order has a number, below the factorial of how many pancakes there are.
type Order = u32;

/// Which pancake lies where. There are 12 at most.
type Stack = [u8; 12];

/// The stack of the order with this number.
fn stack_of(mut order: Order, pancakes: usize) -> Stack {
    let mut stack = Stack::default();
    for place in (0..pancakes).rev() {
        let places = (pancakes - place) as u32;
        stack[place] = (order % places) as u8;
        order /= places;
        for above in place + 1..pancakes {
            stack[above] += u8::from(stack[above] >= stack[place]);
        }
    }
    stack
}

/// The number of the order in which the pancakes lie: for each place, how many of those after it are smaller.
fn order_of(stack: &[u8]) -> Order {
    let mut after = (1_u32 << stack.len()) - 1;
    stack.iter().enumerate().fold(0, |order, (place, pancake)| {
        after &= !(1 << pancake);
        let smaller = after & ((1 << pancake) - 1);
        order * (stack.len() - place) as u32 + smaller.count_ones()
    })
}

/// The orders that one flip reaches: of the upper two pancakes, of three, and so on.
fn flips(order: Order, pancakes: usize) -> impl Iterator<Item = Order> {
    let stack = stack_of(order, pancakes);
    (2..=pancakes).map(move |upper| {
        let mut flipped = stack;
        flipped[..upper].reverse();
        order_of(&flipped[..pancakes])
    })
}

/// The distances by one thread, with a plain queue.
fn plain_search(pancakes: usize, orders: usize) -> Vec<u8> {
    let mut distances = vec![u8::MAX; orders];
    distances[0] = 0;
    let mut waiting = VecDeque::from([0]);
    while let Some(order) = waiting.pop_front() {
        for next in flips(order, pancakes) {
            if distances[next as usize] == u8::MAX {
                distances[next as usize] = distances[order as usize] + 1;
                waiting.push_back(next);
            }
        }
    }
    distances
}

/// The distances by all processors, and how many orders were looked at.
fn search(pancakes: usize, orders: usize) -> Result<(Vec<u8>, u64), RunError<Order>> {
    let distances: Vec<_> = (0..orders).map(|_| AtomicU8::new(u8::MAX)).collect();
    distances[0].store(0, Ordering::Relaxed);
    let report = work::run(
        [0],
        |order, more| {
            let far = distances[order as usize].load(Ordering::Relaxed) + 1;
            for next in flips(order, pancakes) {
                if distances[next as usize].fetch_min(far, Ordering::Relaxed) > far {
                    more.give(next).expect("there is memory");
                }
            }
        },
        Options::default(),
    )?;
    let distances = distances.into_iter().map(AtomicU8::into_inner).collect();
    Ok((distances, report.done.iter().sum()))
}

fn main() -> Result<ExitCode, String> {
    let pancakes = std::env::args().nth(1).map_or(Ok(10), |it| it.parse());
    let Ok(pancakes @ 1..=12) = pancakes else {
        eprintln!("usage: explore [PANCAKES], 1 to 12");
        return Ok(ExitCode::from(2));
    };
    let orders = (1..=pancakes).product();
    let began = Instant::now();
    let (distances, looked_at) = search(pancakes, orders).map_err(|ended| ended.to_string())?;
    let seconds = began.elapsed().as_secs_f64();
    let is_right = distances == plain_search(pancakes, orders);
    println!("{looked_at} looks at {orders} orders of {pancakes} pancakes in {seconds:.2} seconds");
    println!(
        "the farthest takes {} flips",
        distances.iter().max().unwrap_or(&0)
    );
    if !is_right {
        eprintln!("the distances are not those of a plain search");
    }
    Ok(ExitCode::from(u8::from(!is_right)))
}
