//! The calls of the library that this crate uses, as `c/include/kfifo.h` and `c/include/kfifo_wait.h` declare them.
use std::ffi::{c_int, c_void};
use std::mem::MaybeUninit;
use std::sync::atomic::AtomicU32;

pub(crate) const DONE: u32 = 0;
pub(crate) const FULL: u32 = 1;
pub(crate) const GOT: u32 = 2;
pub(crate) const EMPTY: u32 = 3;
pub(crate) const BUSY: u32 = 4;
pub(crate) const WORN: u32 = 5;
pub(crate) const BAD_CALL: u32 = 6;
pub(crate) const NO_MEMORY: u32 = 7;
pub(crate) const BAD_THREADS: u32 = 8;
pub(crate) const LOST: u32 = 9;
pub(crate) const BAD_K: u32 = 11;
pub(crate) const BAD_LAST: u32 = 13;
pub(crate) const TIMED_OUT: u32 = 16;
pub(crate) const FINISHED: u32 = 17;
pub(crate) const BAD_RESERVE: u32 = 18;
pub(crate) const BAD_CAPACITY: u32 = 19;
pub(crate) const BAD_LAYOUT: u32 = 20;

/// A time that never ends, in nanoseconds.
pub(crate) const FOREVER: u64 = u64::MAX;

/// The parts of `Waits::state`: whether the queue is finished, one of the takers that wait, and one of the givers.
pub(crate) const IS_FINISHED: u32 = 1;
pub(crate) const TAKER: u32 = 2;
pub(crate) const GIVER: u32 = 0x1_0000;

/// What the threads of a queue wait by: `kfifo_waits`. The library changes it by atomic steps alone.
#[repr(C)]
pub(crate) struct Waits {
    before: [u8; 64],
    pub(crate) state: AtomicU32,
    between: [u8; 124],
    filled: AtomicU32,
    emptied: AtomicU32,
    wakes_noted: AtomicU32,
    after: [u8; 116],
}

// As in `c/src/wait.c`.
const _: () = assert!(size_of::<Waits>() == 320 && size_of::<Waiter>() == 48);

impl Waits {
    pub(crate) const fn open() -> Waits {
        Waits {
            before: [0; 64],
            state: AtomicU32::new(0),
            between: [0; 124],
            filled: AtomicU32::new(0),
            emptied: AtomicU32::new(0),
            wakes_noted: AtomicU32::new(0),
            after: [0; 116],
        }
    }
}

/// A call that waits: `kfifo_waiter`.
#[repr(C)]
pub(crate) struct Waiter {
    waits: *const Waits,
    nanoseconds: u64,
    deadline: u64,
    spins_until: u64,
    kind: u32,
    seen: u32,
    pauses: u32,
    has_begun: u8,
    is_announced: u8,
    was_announced: u8,
}

impl Waiter {
    /// A waiter that has looked once. The waits outlive it.
    pub(crate) fn new(waits: &Waits, kind: u32, nanoseconds: u64) -> Waiter {
        Waiter {
            waits,
            nanoseconds,
            deadline: 0,
            spins_until: 0,
            kind,
            seen: 0,
            pauses: 1,
            has_begun: 0,
            is_announced: 0,
            was_announced: 0,
        }
    }
}

impl Waiter {
    /// Whether the thread has said that it waits: with nothing to take, the next wait is a sleep.
    pub(crate) fn is_announced(&self) -> bool {
        self.is_announced != 0
    }
}

/// A handle of a queue of cells, or of values: `kfifo_handle`. All bytes 0 is a closed one.
#[repr(C)]
pub(crate) struct Handle {
    inside: *mut c_void,
    address: *mut c_void,
    starts: u32,
    kind: u32,
    mark: u32,
    size: u32,
    alignment: u32,
}

const _: () = assert!(size_of::<Handle>() == 40);

impl Handle {
    pub(crate) const fn closed() -> Handle {
        Handle {
            inside: std::ptr::null_mut(),
            address: std::ptr::null_mut(),
            starts: 0,
            kind: 0,
            mark: 0,
            size: 0,
            alignment: 0,
        }
    }
}

/// Where a cell is: `index` cells after the first multiple of their alignment in the block.
#[repr(C)]
#[derive(Clone, Copy, PartialEq, Eq)]
pub(crate) struct CellAt {
    pub(crate) block: *mut u8,
    pub(crate) index: u32,
}

impl CellAt {
    /// No cell: a call writes one here.
    pub(crate) const fn none() -> CellAt {
        CellAt {
            block: std::ptr::null_mut(),
            index: 0,
        }
    }
}

/// The cells that were left in a queue when it was closed, with their memory. All bytes 0 is none.
#[repr(C)]
pub(crate) struct LeftCells {
    inside: *mut c_void,
    holds: u32,
}

impl LeftCells {
    pub(crate) const fn none() -> LeftCells {
        LeftCells {
            inside: std::ptr::null_mut(),
            holds: 0,
        }
    }
}

/// What a queue of values carries: 64 bits, some of which may never have been written. The library copies them and
/// looks at none.
pub(crate) type Value = MaybeUninit<u64>;

// What the library promises, and has proved, of the calls by a handle of cells:
//
// - `open_cells`: DONE opens the handles, of a queue with room for `capacity` values. A cell has `size` bytes. It
//   begins at a multiple of `alignment`, as `CellAt` says, in a block that is there while somebody has a cell of it, or
//   one of its cells is in the queue.
// - `reserve`: DONE writes where a cell is that is this handle's alone until `publish` puts it into the queue,
//   or `cancel` gives it back. It writes the same cell until then.
// - `publish`: DONE puts the reserved cell into the queue. After anything else it is still reserved.
// - `cancel`: the reserved cell may be reserved again, by any handle, or its block is freed.
// - `receive`: GOT writes where a cell is that was in the queue, once for each time that it was published. The
//   cell is this handle's alone until its next `receive` or `release`.
// - `release`: the cell that was received may be reserved again, by any handle, or its block is freed.
// - Between these calls they order what threads do: what comes before a `publish` of a cell comes before what
//   follows its `receive`, and what comes before its `release` comes before what follows its next
//   `reserve`.
// - `close_cells`: DONE closes the handles, and `next_left` then writes where each cell is that is in the queue, in
//   its order, until it returns EMPTY. They are there until `free_left`. NO_MEMORY does nothing. LOST closes the
//   handles, and the cells are gone.
//
// And of those by a handle of values:
//
// - `open_values`: DONE opens the handles, of a queue with room for `capacity` values.
// - `give`: DONE puts the value into the queue. After anything else it is not there.
// - `take`: GOT writes a value that was in the queue, once for each time that it was given.
// - What comes before a `give` comes before what follows the `take` of its value.
// - `close_values`: DONE writes the values that are in the queue. There is room for `values_room` of them, else it does
//   nothing.
//
// They require of the caller that one thread at a time uses a handle, that it is open, and that the handles of a close
// are of one queue.
unsafe extern "C" {
    pub(crate) fn kfifo_c_open_cells(
        k: u32,
        capacity: u32,
        size: u32,
        alignment: u32,
        last: u64,
        reserve: u64,
        generations: u32,
        handles: *mut Handle,
        threads: usize,
    ) -> u32;
    pub(crate) fn kfifo_c_reserve(handle: *mut Handle, cell: *mut CellAt) -> u32;
    pub(crate) fn kfifo_c_why_no_cell(handle: *mut Handle) -> u32;
    pub(crate) fn kfifo_c_publish(handle: *mut Handle) -> u32;
    pub(crate) fn kfifo_c_cancel(handle: *mut Handle) -> u32;
    pub(crate) fn kfifo_c_receive(handle: *mut Handle, cell: *mut CellAt) -> u32;
    pub(crate) fn kfifo_c_release(handle: *mut Handle) -> u32;
    pub(crate) fn kfifo_c_cells_len(handle: *mut Handle) -> usize;
    pub(crate) fn kfifo_c_close_cells(
        handles: *mut Handle,
        threads: usize,
        left: *mut LeftCells,
    ) -> u32;
    pub(crate) fn kfifo_c_next_left(left: *mut LeftCells, cell: *mut CellAt) -> u32;
    pub(crate) fn kfifo_c_free_left(left: *mut LeftCells);
    pub(crate) fn kfifo_c_abandon_cells(handles: *mut Handle, threads: usize);
    pub(crate) fn kfifo_c_open_values(
        k: u32,
        capacity: u32,
        last: u64,
        reserve: u64,
        generations: u32,
        handles: *mut Handle,
        threads: usize,
    ) -> u32;
    pub(crate) fn kfifo_c_give(handle: *mut Handle, value: Value) -> u32;
    pub(crate) fn kfifo_c_take(handle: *mut Handle, value: *mut Value) -> u32;
    pub(crate) fn kfifo_c_values_room(handles: *mut Handle, threads: usize) -> usize;
    pub(crate) fn kfifo_c_close_values(
        handles: *mut Handle,
        threads: usize,
        values: *mut Value,
        room: usize,
        count: *mut usize,
    ) -> u32;
    pub(crate) fn kfifo_c_abandon_values(handles: *mut Handle, threads: usize);
    pub(crate) fn kfifo_wait_again(waiter: *mut Waiter, status: *mut u32) -> c_int;
    pub(crate) fn kfifo_wait_given(waits: *const Waits, status: u32) -> u32;
    pub(crate) fn kfifo_wait_taken(waits: *const Waits, status: u32) -> u32;
    pub(crate) fn kfifo_wait_finished(waits: *const Waits);
}
