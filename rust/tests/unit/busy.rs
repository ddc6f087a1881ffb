//! A call that is busy is made again, and a bounded call says that it was.
use super::{Looks, Shared, ffi};
use crate::Options;

const TIMES: u32 = 20;

/// What a call comes to that is busy that often before it is done, and how many looks it made.
fn busy_for(times: u32, looks: Looks) -> (u32, u32) {
    let shared = Shared::<u64>::open(1, 8, 1, Options::default()).expect("the sizes are in range");
    let mut made = 1;
    let status = shared.again(0, ffi::GIVER, looks, ffi::BUSY, || {
        made += 1;
        if made <= times { ffi::BUSY } else { ffi::DONE }
    });
    (status, made)
}

#[test]
fn a_call_that_is_busy_is_made_again() {
    assert_eq!(busy_for(TIMES, Looks::UnlessBusy), (ffi::DONE, TIMES + 1));
    let forever = Looks::Within(ffi::FOREVER);
    assert_eq!(busy_for(TIMES, forever), (ffi::DONE, TIMES + 1));
}

#[test]
fn a_bounded_call_is_made_once() {
    assert_eq!(busy_for(TIMES, Looks::Once), (ffi::BUSY, 1));
    assert_eq!(busy_for(TIMES, Looks::Within(0)), (ffi::TIMED_OUT, 1));
}
