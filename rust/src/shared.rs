//! What a queue and its handles share: the handles of the C library, and which of them are in use.
mod left;
mod many;

use crate::Options;
use crate::cells::layout_of;
use crate::error::{OpenError, PopError, PushError};
use crate::ffi::{self, CellAt};
use left::Left;
pub(crate) use left::NoMemory;
use std::cell::UnsafeCell;
use std::hint::spin_loop;
use std::marker::PhantomData;
use std::mem::ManuallyDrop;
use std::ops::Deref;
use std::process::abort;
use std::ptr;
use std::sync::Arc;
use std::sync::atomic::{AtomicU64, AtomicUsize, Ordering};

/// The handles of a queue, which are closed when they are dropped.
struct Handles(Box<[UnsafeCell<ffi::Handle>]>);

impl Handles {
    /// The handles of a queue whose cells have this size and alignment.
    fn open(
        k: u32,
        capacity: usize,
        threads: usize,
        options: Options,
        (size, alignment): (u32, u32),
    ) -> Result<Handles, OpenError> {
        // More than 64 threads are refused as 65 are, without memory for them.
        let threads = threads.min(65);
        let mut handles = Vec::new();
        let room = handles.try_reserve_exact(threads);
        room.map_err(|_| OpenError::OutOfMemory)?;
        handles.resize_with(threads, ffi::Handle::closed);
        // SAFETY: the array has as many handles as is said, and each is closed.
        let status = unsafe {
            ffi::kfifo_c_open_cells(
                k,
                u32::try_from(capacity).unwrap_or(u32::MAX),
                size,
                alignment,
                options.last,
                options.reserve,
                options.grows,
                handles.as_mut_ptr(),
                threads,
            )
        };
        match status {
            ffi::DONE => Ok(Handles(handles.into_iter().map(UnsafeCell::new).collect())),
            ffi::BAD_K => Err(OpenError::KOutOfRange),
            ffi::BAD_CAPACITY => Err(OpenError::CapacityOutOfRange),
            ffi::BAD_THREADS => Err(OpenError::ThreadsOutOfRange),
            ffi::BAD_LAYOUT => Err(OpenError::LayoutOutOfRange),
            ffi::BAD_LAST => Err(OpenError::LastOutOfRange),
            ffi::BAD_RESERVE => Err(OpenError::ReserveOutOfRange),
            // The handles are there, so this is the one argument that is left.
            ffi::BAD_CALL => Err(OpenError::GrowsOutOfRange),
            status => {
                debug_assert_eq!(status, ffi::NO_MEMORY);
                Err(OpenError::OutOfMemory)
            }
        }
    }

    fn at(&self, number: usize) -> *mut ffi::Handle {
        self.0[number].get()
    }
}

impl Drop for Handles {
    fn drop(&mut self) {
        // SAFETY: these are all handles of a queue, and nobody else uses one: `&mut self`. Those that are closed
        // already stay so.
        unsafe { ffi::kfifo_c_abandon_cells(self.0.as_mut_ptr().cast(), self.0.len()) };
    }
}

/// The queue object, or a handle. Where one is left, its calls that wait end.
pub(crate) struct User<T>(Arc<Shared<T>>);

impl<T> User<T> {
    pub(crate) fn new(shared: Arc<Shared<T>>) -> User<T> {
        shared.users.fetch_add(1, Ordering::SeqCst);
        User(shared)
    }

    /// What all users share, where this is the only one.
    pub(crate) fn alone(&mut self) -> Option<&mut Shared<T>> {
        Arc::get_mut(&mut self.0)
    }
}

impl<T> Clone for User<T> {
    fn clone(&self) -> User<T> {
        User::new(Arc::clone(&self.0))
    }
}

impl<T> Deref for User<T> {
    type Target = Shared<T>;

    fn deref(&self) -> &Shared<T> {
        &self.0
    }
}

impl<T> Drop for User<T> {
    fn drop(&mut self) {
        // The look for threads that wait comes after the number, and their look at the number after they have announced
        // themselves: so one of the two sees the other.
        let left = self.users.fetch_sub(1, Ordering::SeqCst) - 1;
        if left == 1 && self.waits.state.load(Ordering::SeqCst) > ffi::IS_FINISHED {
            // SAFETY: the waits are this queue's.
            unsafe { ffi::kfifo_wait_finished(&self.waits) };
        }
    }
}

/// How often a call looks at the queue.
#[derive(Clone, Copy)]
pub(crate) enum Looks {
    /// Once: it may come to BUSY.
    Once,
    /// Until it is not busy.
    UnlessBusy,
    /// Until it comes to something, with sleep between, for this many nanoseconds at most.
    Within(u64),
}

/// Pauses after BUSY, mostly the longer the more often it came. How long differs from handle to handle: threads that
/// made their calls in step could keep each other busy.
pub(crate) fn pause(number: usize, times: u32) {
    let mixed = (number as u64 + u64::from(times)).wrapping_mul(0x9e37_79b9_7f4a_7c15) >> 32;
    for _ in 0..=mixed % (16 << times.min(6)) {
        spin_loop();
    }
}

/// A call by a handle, from its beginning to its end.
struct InCall<'a> {
    all: &'a AtomicU64,
    bit: u64,
}

impl Drop for InCall<'_> {
    fn drop(&mut self) {
        if cfg!(debug_assertions) {
            self.all.fetch_and(!self.bit, Ordering::Relaxed);
        }
    }
}

/// Ends the program, since the handle with this number was used as no safe code can.
#[cold]
fn misused(number: usize, call: &str, what: &str) -> ! {
    eprintln!("kfifo: {call} of handle {number}, which {what}");
    abort()
}

/// When it is dropped, the values that are left are dropped, and the queue is closed with its handles.
///
/// A value goes in by one handle and comes out by another, so `T` may not vary: else a reference of a short life that
/// one handle puts could come out of another as one of a long life. `UnsafeCell` sees to that.
pub(crate) struct Shared<T> {
    handles: Handles,
    /// A bit for each handle that nobody has.
    free: AtomicU64,
    /// A bit for each handle that is in a call, in a debug build.
    in_call: AtomicU64,
    capacity: usize,
    waits: ffi::Waits,
    /// The queue object and the handles that somebody has.
    users: AtomicUsize,
    left: Left<T>,
    values: PhantomData<UnsafeCell<T>>,
}

// SAFETY: `T` may go to another thread, and so may the handles: the library ties none to a thread.
unsafe impl<T: Send> Send for Shared<T> {}
// SAFETY: a handle is reached by `push` and `pop` alone, whose callers see to it that one thread at a time uses it, and
// by those that have the queue alone, who alone reach what is left too. A cell is reached by whoever the library says
// has it, one thread at a time, and the library orders one after the other. So values go from thread to thread, which
// `T: Send` allows. A reference gives no `&T`, so `T: Sync` is not asked for.
unsafe impl<T: Send> Sync for Shared<T> {}

impl<T> Shared<T> {
    pub(crate) fn open(
        k: u32,
        capacity: usize,
        threads: usize,
        options: Options,
    ) -> Result<Shared<T>, OpenError> {
        let handles = Handles::open(k, capacity, threads, options, layout_of::<T>())?;
        // The library has looked at the number of threads: it is 1 to 64.
        Ok(Shared {
            handles,
            free: AtomicU64::new(u64::MAX >> (64 - threads)),
            in_call: AtomicU64::new(0),
            capacity,
            waits: ffi::Waits::open(),
            users: AtomicUsize::new(0),
            left: Left::none(),
            values: PhantomData,
        })
    }

    /// How many values the queue was opened for.
    pub(crate) fn capacity(&self) -> usize {
        self.capacity
    }

    /// The number of a handle that nobody has, which is then in use; none where each was in use at one moment.
    pub(crate) fn borrow_handle(&self) -> Option<usize> {
        let mut free = self.free.load(Ordering::Relaxed);
        while free != 0 {
            let lowest = free & free.wrapping_neg();
            // Acquire here and release below suffice: all steps that the handle made come before those that it makes
            // next, also in the one order of all sequentially consistent steps. The contracts of the running queue ask
            // for no more: they speak of a pass, not of threads.
            free = self.free.fetch_and(!lowest, Ordering::Acquire);
            if free & lowest != 0 {
                return Some(lowest.trailing_zeros() as usize);
            }
            // Another thread's step took that handle meanwhile. So some thread goes on.
        }
        None
    }

    pub(crate) fn return_handle(&self, number: usize) {
        drop(self.enter(number, "the drop"));
        let free = self.free.fetch_or(1 << number, Ordering::Release);
        if cfg!(debug_assertions) && free & 1 << number != 0 {
            misused(number, "the drop", "was dropped before: it was copied");
        }
    }

    /// Marks the handle while a call runs by it, in a debug build. Only `unsafe` code lets two threads use a handle, or
    /// a handle and its copy.
    fn enter(&self, number: usize, call: &str) -> InCall<'_> {
        let bit = 1 << number;
        if cfg!(debug_assertions) && self.in_call.fetch_or(bit, Ordering::Relaxed) & bit != 0 {
            misused(
                number,
                call,
                "is in another call: one at a time uses a handle",
            );
        }
        InCall {
            all: &self.in_call,
            bit,
        }
    }

    /// Says that no more values will come, and wakes all that wait.
    pub(crate) fn finish(&self) {
        self.waits
            .state
            .fetch_or(ffi::IS_FINISHED, Ordering::SeqCst);
        // SAFETY: the waits are this queue's.
        unsafe { ffi::kfifo_wait_finished(&self.waits) };
    }

    /// Whether one user is left, so that nobody will push to it or pop from it.
    fn is_alone(&self) -> bool {
        self.users.load(Ordering::SeqCst) == 1
    }

    /// Whether a call that came to this cannot do better, since its handle is alone.
    fn is_over(&self, status: u32) -> bool {
        matches!(status, ffi::FULL | ffi::EMPTY) && self.is_alone()
    }

    fn is_finished(&self) -> bool {
        self.waits.state.load(Ordering::SeqCst) & ffi::IS_FINISHED != 0
    }

    /// Puts a value into the queue, and wakes a thread that waits for it. DONE: the value is the queue's now.
    ///
    /// # Safety
    ///
    /// As of `push`. The caller gives up the value where this returns DONE.
    unsafe fn give(&self, number: usize, value: &T) -> u32 {
        if self.is_finished() {
            return ffi::FINISHED;
        }
        // SAFETY: as the caller says.
        let status = unsafe { self.publish(number, value) };
        // The look comes after the call, and a waiting thread's second look after it has announced itself: so one of
        // the two sees the other.
        if self.waits.state.load(Ordering::SeqCst) > ffi::IS_FINISHED {
            // SAFETY: the waits are this queue's.
            return unsafe { ffi::kfifo_wait_given(&self.waits, status) };
        }
        status
    }

    /// Copies a value into a cell, and puts the cell into the queue.
    ///
    /// The generation of a cell may be over once the value is there. Then it goes on to a cell of the next one. WORN
    /// comes where there is no next one.
    ///
    /// # Safety
    ///
    /// As of `give`.
    #[inline]
    unsafe fn publish(&self, number: usize, value: &T) -> u32 {
        // SAFETY: as the caller says.
        unsafe { self.publish_by(number, value, || {}) }
    }

    /// The same, with something that a test does whenever the value is in a cell that is not yet put into the queue.
    ///
    /// # Safety
    ///
    /// As of `give`.
    #[inline]
    unsafe fn publish_by(&self, number: usize, value: &T, mut between: impl FnMut()) -> u32 {
        let mut worn = ptr::null_mut();
        loop {
            let mut cell = CellAt::none();
            // SAFETY: as the caller says.
            let status = unsafe { self.publish_once(number, value, &mut cell, &mut between) };
            if status != ffi::WORN || cell.block == worn {
                return status;
            }
            worn = cell.block;
        }
    }

    /// The same, in one generation, and says which cell it was.
    ///
    /// # Safety
    ///
    /// As of `give`.
    #[inline]
    unsafe fn publish_once(
        &self,
        number: usize,
        value: &T,
        cell: &mut CellAt,
        between: &mut impl FnMut(),
    ) -> u32 {
        let handle = self.handles.at(number);
        // SAFETY: the handle is of an open queue, and the caller says that nobody else uses it.
        let status = unsafe { ffi::kfifo_c_reserve(handle, cell) };
        if status == ffi::FULL {
            // SAFETY: as of `reserve_cell`.
            return unsafe { ffi::kfifo_c_why_no_cell(handle) };
        }
        if status != ffi::DONE {
            return status;
        }
        // SAFETY: `reserve_cell` promises that the cell is this handle's alone until it is published. The caller gives
        // up the value where that comes to DONE, and else nobody looks at what is in the cell.
        unsafe { cell.copy_in(value) };
        between();
        // SAFETY: as of `reserve_cell`.
        let status = unsafe { ffi::kfifo_c_publish(handle) };
        if status != ffi::DONE {
            // A cell that stayed reserved would be one that no other handle can have.
            // SAFETY: as of `reserve_cell`.
            unsafe { ffi::kfifo_c_cancel(handle) };
            self.wake_for_room(ffi::GOT);
        }
        status
    }

    /// One look for a value. It wakes a thread that waits for room, unless it found a value: then the caller does so.
    ///
    /// # Safety
    ///
    /// As of `pop`. After GOT the value of the cell is moved out next.
    unsafe fn look(&self, number: usize, cell: &mut CellAt) -> u32 {
        // SAFETY: as of `reserve_cell` in `publish_once`.
        let status = unsafe { ffi::kfifo_c_receive(self.handles.at(number), cell) };
        if status != ffi::GOT {
            self.wake_for_room(status);
        }
        status
    }

    /// Wakes who waits for room, after a call that came to this status.
    fn wake_for_room(&self, status: u32) {
        if self.waits.state.load(Ordering::SeqCst) >= ffi::GIVER {
            // SAFETY: the waits are this queue's.
            unsafe { ffi::kfifo_wait_taken(&self.waits, status) };
        }
    }

    /// Looks for a value. Finished takes the place of Empty where the queue was finished, and then found empty.
    ///
    /// # Safety
    ///
    /// As of `look`.
    unsafe fn receive(&self, number: usize, cell: &mut CellAt) -> u32 {
        // SAFETY: as the caller says.
        let status = unsafe { self.look(number, cell) };
        if status != ffi::EMPTY || !self.is_finished() {
            return status;
        }
        // A value may have come between the look and the end.
        // SAFETY: as the caller says.
        match unsafe { self.look(number, cell) } {
            ffi::EMPTY => ffi::FINISHED,
            status => status,
        }
    }

    /// About how many values are in the queue.
    ///
    /// # Safety
    ///
    /// As of `pop`.
    pub(crate) unsafe fn len(&self, number: usize) -> usize {
        // SAFETY: as of `receive_cell` in `look`.
        unsafe { ffi::kfifo_c_cells_len(self.handles.at(number)) }
    }

    /// Moves the value out of a cell that was received, and releases the cell.
    ///
    /// # Safety
    ///
    /// As of `pop`, and `look` has just received the cell by this handle.
    unsafe fn move_out(&self, number: usize, cell: CellAt) -> T {
        // SAFETY: `receive_cell` promises that the cell is this handle's alone until it is released, and that it came
        // out once for each time that it was published. `publish` above puts a value into it each time.
        let value = unsafe { cell.move_out() };
        // SAFETY: as of `receive_cell` in `look`.
        let status = unsafe { ffi::kfifo_c_release(self.handles.at(number)) };
        debug_assert_eq!(status, ffi::DONE);
        // A giver may wait for the cell that is free only now.
        self.wake_for_room(ffi::GOT);
        value
    }

    /// Makes a call again as often as it may look. `status` is what the call came to first.
    #[cold]
    fn again(
        &self,
        number: usize,
        kind: u32,
        looks: Looks,
        mut status: u32,
        mut call: impl FnMut() -> u32,
    ) -> u32 {
        let nanoseconds = match looks {
            Looks::Once => return status,
            Looks::Within(nanoseconds) => nanoseconds,
            Looks::UnlessBusy => {
                let mut times = 0;
                while status == ffi::BUSY {
                    pause(number, times);
                    times += 1;
                    status = call();
                }
                return status;
            }
        };
        let mut waiter = ffi::Waiter::new(&self.waits, kind, nanoseconds);
        loop {
            if self.is_over(status) {
                // Something may have come before the others went.
                status = call();
                if self.is_over(status) {
                    status = ffi::FINISHED;
                }
            }
            // SAFETY: the waiter is of this queue's waits, and one waiter is used for one call.
            if unsafe { ffi::kfifo_wait_again(&mut waiter, &mut status) } == 0 {
                return status;
            }
            status = call();
        }
    }

    /// Puts a value, and looks for room that often.
    ///
    /// # Safety
    ///
    /// No other call uses the handle at the same time.
    pub(crate) unsafe fn push(
        &self,
        number: usize,
        value: T,
        looks: Looks,
    ) -> Result<(), PushError<T>> {
        let _call = self.enter(number, "a push");
        let value = ManuallyDrop::new(value);
        // SAFETY: the caller says that nobody else uses the handle. The value is given up below after DONE, which ends
        // the calls.
        let give = || unsafe { self.give(number, &value) };
        let mut status = give();
        if status != ffi::DONE {
            status = self.again(number, ffi::GIVER, looks, status, give);
        }
        if status == ffi::DONE {
            return Ok(());
        }
        let value = ManuallyDrop::into_inner(value);
        Err(match status {
            ffi::FULL => PushError::Full(value),
            ffi::NO_MEMORY => PushError::OutOfMemory(value),
            ffi::BUSY => PushError::Busy(value),
            ffi::TIMED_OUT => PushError::TimedOut(value),
            ffi::FINISHED => PushError::Finished(value),
            status => {
                debug_assert_eq!(status, ffi::WORN);
                PushError::Worn(value)
            }
        })
    }

    /// Takes a value, and looks for one that often.
    ///
    /// # Safety
    ///
    /// No other call uses the handle at the same time.
    pub(crate) unsafe fn pop(&self, number: usize, looks: Looks) -> Result<T, PopError> {
        let _call = self.enter(number, "a pop");
        // SAFETY: as the caller says, and the cell has just been received.
        unsafe {
            self.receive_by(number, looks)
                .map(|cell| self.move_out(number, cell))
        }
    }

    /// Receives a cell, and looks for one that often.
    ///
    /// # Safety
    ///
    /// As of `pop`. The cell is this handle's until its next receive or release.
    unsafe fn receive_by(&self, number: usize, looks: Looks) -> Result<CellAt, PopError> {
        let mut cell = CellAt::none();
        // SAFETY: as in `push`. GOT ends the calls.
        let mut receive = || unsafe { self.receive(number, &mut cell) };
        let mut status = receive();
        if status != ffi::GOT {
            status = self.again(number, ffi::TAKER, looks, status, receive);
        }
        match status {
            ffi::GOT => Ok(cell),
            ffi::EMPTY => Err(PopError::Empty),
            ffi::BUSY => Err(PopError::Busy),
            ffi::TIMED_OUT => Err(PopError::TimedOut),
            ffi::FINISHED => Err(PopError::Finished),
            status => {
                debug_assert_eq!(status, ffi::WORN);
                Err(PopError::Worn)
            }
        }
    }
}

#[cfg(test)]
#[path = "../tests/unit/busy.rs"]
mod busy;

#[cfg(all(test, debug_assertions))]
#[path = "../tests/unit/misuse.rs"]
mod misuse;

#[cfg(test)]
#[path = "../tests/unit/slow.rs"]
mod slow;

#[cfg(test)]
#[path = "../tests/unit/worn.rs"]
mod worn;
