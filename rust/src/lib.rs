//! A bounded lock-free k-FIFO queue of values, for many threads: a value that is taken is one of the k oldest.
//!
//! A value lies in a *cell*, which a handle has alone while it moves the value in or out. The cells are made with the
//! queue. A queue does not wear out: before the versions of its words are used up, it goes on in its next *generation*,
//! with cells of its own, once in some 2^40 calls. One that grows has several at a time, while they are needed. Only a
//! push that opens a generation allocates, and the calls of a handle free memory where they leave one.
//!
//! [`work`] is a pool of threads over such a queue, for tasks that give more tasks.
//!
//! The queue itself is proved, down to its atomic words, and so is whose a cell is. This crate is a wrapper around its
//! C library and is not proved: it moves the values and drops them. Its README says what rests on what.
//!
//! ```
//! use kfifo::{PopError, Queue};
//! use std::thread;
//!
//! let queue = Queue::new(4, 256, 2)?; // k, capacity, threads
//! let producer = queue.handle().expect("a handle is free");
//! let consumer = queue.handle().expect("a handle is free");
//! let mut sum = 0;
//! let end = thread::scope(|scope| {
//!     scope.spawn(move || {
//!         let _end = producer.finish_on_drop(); // in any case, or the consumer sleeps for ever
//!         for number in 0..20_000 {
//!             if let Err(refused) = producer.push_wait(number) {
//!                 eprintln!("{number} was not put: {refused}"); // worn, or finished by the consumer
//!                 break;
//!             }
//!         }
//!     });
//!     let _end = consumer.finish_on_drop(); // the producer ends too
//!     loop {
//!         match consumer.pop_wait() {
//!             Ok(number) => sum += number,
//!             Err(end) => break end,
//!         }
//!     }
//! });
//! assert_eq!((sum, end), (199_990_000, PopError::Finished));
//! # Ok::<(), kfifo::OpenError>(())
//! ```
#![warn(missing_docs)]

mod cells;
mod error;
mod ffi;
mod handle;
#[cfg(feature = "judge")]
pub mod judge;
mod many;
mod queue;
mod shared;
mod values;
pub mod work;

pub use error::{OpenError, PopError, PushError};
pub use handle::{FinishOnDrop, Handle};
pub use many::PushAllError;
pub use queue::{Options, Queue};
pub use values::{IntoValues, TryValues, Values};

/// Has the example of the README run with the tests.
#[cfg(doctest)]
#[doc = include_str!("../README.md")]
struct ReadmeExample;
