//! The queue of a run: the library's queue of values, which grows, a list for what it has no room for, and what idle
//! workers wait by.
//!
//! The list is first in, first out, and under a lock. While tasks are in it, what is given goes there too, and those
//! that take move the oldest of them into the queue where that has room again. So the tasks in the queue are older than
//! those in the list, but for those that are given while the list fills or empties.
//!
//! How workers wait is what `c/include/kfifo_wait.h` describes: one that finds nothing looks for 5 microseconds more,
//! says that it waits, looks once more, and sleeps. A give looks after it whether anyone waits. A task goes into the
//! queue before it leaves the list, so a look that finds neither came before a give or a move that still looks for who
//! waits.
use super::error::Cause;
use crate::Options;
use crate::ffi::{self, Value};
use crate::shared::pause;
use std::cell::UnsafeCell;
use std::collections::VecDeque;
use std::sync::atomic::{AtomicBool, AtomicUsize, Ordering};
use std::sync::{Mutex, MutexGuard, PoisonError};

/// How many slots a generation of the queue has at most, for each k and in all, and how many of them go to what each
/// handle may keep for itself. With these, few generations are opened for many tasks, and the first one is cheap enough
/// for a run of few. They are the sizes of a run in C++ too.
const SLOTS: u32 = 1_022;
const ROOM: u32 = 16_384;
const KEPT: u32 = 32;
/// How many tasks move from the list into the queue at once.
const MOVED: usize = 1_024;

/// How long the versions of a queue's words last, as those of [`crate::Options`].
#[derive(Clone, Copy, Debug)]
pub(crate) struct Versions {
    pub(crate) last: u64,
    pub(crate) reserve: u64,
}

/// What a queue is opened with.
#[derive(Clone, Copy, Debug)]
pub(crate) struct Sizes {
    pub(crate) k: u32,
    pub(crate) capacity: u32,
    pub(crate) generations: u32,
    pub(crate) versions: Versions,
}

impl Sizes {
    /// The sizes for k and this number of workers, both 1 to 64. A k that is too small for the workers is raised to the
    /// least that will do.
    pub(crate) fn of(k: u32, workers: usize) -> Sizes {
        let options = Options::default();
        let handles = workers as u32;
        let k = k.max((handles * (KEPT + 1)).div_ceil(SLOTS));
        Sizes {
            k,
            capacity: handles * (ROOM.min(SLOTS * k) / handles - KEPT),
            generations: 129 - 2 * handles,
            versions: Versions {
                last: options.last,
                reserve: options.reserve,
            },
        }
    }
}

/// The handles of a queue of values, which are closed when they are dropped.
struct Handles(Box<[UnsafeCell<ffi::Handle>]>);

impl Handles {
    fn open<E>(sizes: &Sizes, workers: usize) -> Result<Handles, Cause<E>> {
        let mut handles = Vec::new();
        let room = handles.try_reserve_exact(workers);
        room.map_err(|_| Cause::OutOfMemory)?;
        handles.resize_with(workers, ffi::Handle::closed);
        // SAFETY: the array has as many handles as is said, and each is closed.
        let status = unsafe {
            ffi::kfifo_c_open_values(
                sizes.k,
                sizes.capacity,
                sizes.versions.last,
                sizes.versions.reserve,
                sizes.generations,
                handles.as_mut_ptr(),
                handles.len(),
            )
        };
        if status != ffi::DONE {
            debug_assert_eq!(status, ffi::NO_MEMORY);
            return Err(Cause::OutOfMemory);
        }
        Ok(Handles(handles.into_iter().map(UnsafeCell::new).collect()))
    }

    fn at(&self, number: usize) -> *mut ffi::Handle {
        self.0[number].get()
    }

    /// Closes the queue, and returns the values that are in it; none where there is no memory for that.
    fn close(&mut self) -> Vec<Value> {
        let handles = self.0.as_mut_ptr().cast();
        // SAFETY: these are all handles of the queue, and nobody else uses one: `&mut self`.
        let room = unsafe { ffi::kfifo_c_values_room(handles, self.0.len()) };
        let mut values = Vec::new();
        if values.try_reserve_exact(room).is_err() {
            return values;
        }
        values.resize(room, Value::uninit());
        let mut count = 0;
        // SAFETY: as above, and there is room for each value.
        let status = unsafe {
            ffi::kfifo_c_close_values(handles, self.0.len(), values.as_mut_ptr(), room, &mut count)
        };
        values.truncate(if status == ffi::DONE { count } else { 0 });
        values
    }
}

impl Drop for Handles {
    fn drop(&mut self) {
        // SAFETY: these are all handles of a queue, and nobody else uses one: `&mut self`. Those that are closed
        // already stay so.
        unsafe { ffi::kfifo_c_abandon_values(self.0.as_mut_ptr().cast(), self.0.len()) };
    }
}

/// The queue of a run. With it the values go that are left; it does not know what they are.
pub(crate) struct Queue {
    handles: Handles,
    pub(crate) waits: ffi::Waits,
    list: Mutex<VecDeque<Value>>,
    /// How many tasks are in the list: it changes under the lock alone.
    listed: AtomicUsize,
    /// Whether a call has found that the versions of the queue are used up.
    worn: AtomicBool,
}

// SAFETY: a handle is reached by `give`, `take` and `refill`, whose callers see to it that one thread at a time uses
// it, and by those that have the queue alone. A value is no more than bits.
unsafe impl Sync for Queue {}
// SAFETY: the library ties no handle to a thread.
unsafe impl Send for Queue {}

impl Queue {
    pub(crate) fn open<E>(sizes: &Sizes, workers: usize) -> Result<Queue, Cause<E>> {
        Ok(Queue {
            handles: Handles::open(sizes, workers)?,
            waits: ffi::Waits::open(),
            list: Mutex::new(VecDeque::new()),
            listed: AtomicUsize::new(0),
            worn: AtomicBool::new(false),
        })
    }

    fn lock(&self) -> MutexGuard<'_, VecDeque<Value>> {
        self.list.lock().unwrap_or_else(PoisonError::into_inner)
    }

    /// Whether no further task is to be begun.
    #[inline]
    pub(crate) fn is_finished(&self) -> bool {
        self.waits.state.load(Ordering::SeqCst) & ffi::IS_FINISHED != 0
    }

    /// Says that no further task is to be begun, and wakes all that wait.
    pub(crate) fn finish(&self) {
        let state = &self.waits.state;
        if state.fetch_or(ffi::IS_FINISHED, Ordering::SeqCst) & ffi::IS_FINISHED == 0 {
            // SAFETY: the waits are this queue's.
            unsafe { ffi::kfifo_wait_finished(&self.waits) };
        }
    }

    /// Whether the run ended because the versions of the queue are used up.
    pub(crate) fn is_worn(&self) -> bool {
        self.worn.load(Ordering::SeqCst)
    }

    /// Ends the run, since the versions of the queue are used up. A give that finds it says so too: else all tasks
    /// would go through the list from then on, slowly, and whether the run ends would hang on how takes meet the end.
    #[cold]
    fn wear(&self) {
        self.worn.store(true, Ordering::SeqCst);
        self.finish();
    }

    /// After a task was given: wakes a worker where one waits.
    #[inline]
    fn wake(&self) {
        if self.waits.state.load(Ordering::SeqCst) > ffi::IS_FINISHED {
            // SAFETY: the waits are this queue's.
            unsafe { ffi::kfifo_wait_given(&self.waits, ffi::DONE) };
        }
    }

    /// Puts a value into the queue: whether it had room. Where it is worn out the run ends.
    ///
    /// # Safety
    ///
    /// One thread at a time uses the handle.
    #[inline]
    unsafe fn put(&self, handle: usize, value: Value) -> bool {
        let mut times = 0;
        loop {
            // SAFETY: the handle is of an open queue, and the caller says that nobody else uses it.
            let status = unsafe { ffi::kfifo_c_give(self.handles.at(handle), value) };
            if status == ffi::WORN {
                self.wear();
            }
            if status != ffi::BUSY {
                return status == ffi::DONE;
            }
            pause(handle, times);
            times += 1;
        }
    }

    /// Gives a value, and wakes a worker where one waits. Where memory is missing the value comes back.
    ///
    /// # Safety
    ///
    /// As of `put`.
    #[inline]
    pub(crate) unsafe fn give(&self, handle: usize, value: Value) -> Result<(), Value> {
        // SAFETY: as the caller says.
        if self.listed.load(Ordering::SeqCst) > 0 || unsafe { !self.put(handle, value) } {
            self.list(value)?;
        }
        self.wake();
        Ok(())
    }

    /// Puts a value after those of the list.
    #[cold]
    fn list(&self, value: Value) -> Result<(), Value> {
        let mut list = self.lock();
        if list.try_reserve(1).is_err() {
            return Err(value);
        }
        list.push_back(value);
        self.listed.store(list.len(), Ordering::SeqCst);
        Ok(())
    }

    /// Whether tasks are in the list.
    #[inline]
    pub(crate) fn has_list(&self) -> bool {
        self.listed.load(Ordering::SeqCst) > 0
    }

    /// Moves tasks from the list into the queue while that has room for them.
    ///
    /// # Safety
    ///
    /// As of `put`.
    #[cold]
    pub(crate) unsafe fn refill(&self, handle: usize) {
        // The worker that has the lock moves them, or gives more.
        if let Ok(mut list) = self.list.try_lock() {
            // SAFETY: as the caller says.
            unsafe { self.move_some(handle, &mut list) };
        }
    }

    /// # Safety
    ///
    /// As of `put`.
    unsafe fn move_some(&self, handle: usize, list: &mut VecDeque<Value>) {
        for _ in 0..MOVED {
            let Some(value) = list.front() else { break };
            // SAFETY: as the caller says.
            if unsafe { !self.put(handle, *value) } {
                break;
            }
            list.pop_front();
            self.listed.store(list.len(), Ordering::SeqCst);
            self.wake();
        }
    }

    /// One look for a value: GOT, EMPTY, or FINISHED. Where the queue is worn out the run ends.
    ///
    /// # Safety
    ///
    /// As of `put`.
    #[inline]
    pub(crate) unsafe fn take(&self, handle: usize, value: &mut Value) -> u32 {
        let mut times = 0;
        loop {
            if self.is_finished() {
                return ffi::FINISHED;
            }
            // SAFETY: as of `put`.
            let mut status = unsafe { ffi::kfifo_c_take(self.handles.at(handle), value) };
            if status == ffi::EMPTY && self.has_list() {
                // SAFETY: as the caller says.
                status = unsafe { self.take_listed(handle, value) };
            }
            if status == ffi::WORN {
                self.wear();
                return ffi::FINISHED;
            }
            if status != ffi::BUSY {
                return status;
            }
            pause(handle, times);
            times += 1;
        }
    }

    /// Takes the oldest value of the list, and moves others into the queue. What others have moved there meanwhile
    /// comes before it: GOT, EMPTY, BUSY, or WORN.
    ///
    /// # Safety
    ///
    /// As of `put`.
    #[cold]
    unsafe fn take_listed(&self, handle: usize, value: &mut Value) -> u32 {
        let mut list = self.lock();
        // SAFETY: as of `put`.
        let status = unsafe { ffi::kfifo_c_take(self.handles.at(handle), value) };
        if status != ffi::EMPTY {
            return status;
        }
        let Some(oldest) = list.pop_front() else {
            return ffi::EMPTY;
        };
        *value = oldest;
        self.listed.store(list.len(), Ordering::SeqCst);
        // SAFETY: as the caller says.
        unsafe { self.move_some(handle, &mut list) };
        ffi::GOT
    }

    /// Takes all values that are left: those of the queue first, in its order.
    pub(crate) fn into_values(mut self) -> Vec<Value> {
        let mut values = Vec::new();
        let end = loop {
            let mut value = Value::uninit();
            // SAFETY: `self` is no reference: nobody else makes a call.
            match unsafe { ffi::kfifo_c_take(self.handles.at(0), &mut value) } {
                ffi::GOT => values.push(value),
                ffi::BUSY => {}
                end => break end,
            }
        };
        if end != ffi::EMPTY {
            values.append(&mut self.handles.close());
        }
        let list = self.list.get_mut().unwrap_or_else(PoisonError::into_inner);
        values.extend(list.iter());
        values
    }
}
