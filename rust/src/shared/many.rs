//! Many pops in one call.
use super::{Looks, Shared};
use crate::error::PopError;
use crate::ffi;
use std::sync::atomic::Ordering;

/// The pops of a call. When it is dropped, also by a panic, the last cell is released, and threads that wait for room
/// are woken.
struct Pops<'a, T> {
    shared: &'a Shared<T>,
    number: usize,
    taken: usize,
    /// Whether the cell of the last value is still received.
    has_cell: bool,
}

impl<T> Drop for Pops<'_, T> {
    fn drop(&mut self) {
        if self.has_cell {
            // SAFETY: the call by this handle has not ended, so that nobody else uses it.
            let status = unsafe { ffi::kfifo_c_release(self.shared.handles.at(self.number)) };
            debug_assert_eq!(status, ffi::DONE);
        }
        self.shared.wake_for_rooms(self.taken);
    }
}

impl<T> Shared<T> {
    /// Wakes a thread that waits for room, for each of the values that were taken.
    fn wake_for_rooms(&self, taken: usize) {
        let waiting = self.waits.state.load(Ordering::SeqCst) / ffi::GIVER;
        for _ in 0..taken.min(waiting as usize) {
            self.wake_for_room(ffi::GOT);
        }
    }

    /// Takes values until there are `most` or the queue has no more, and returns how many. It looks for the first one
    /// so often, and for each further one until it is not busy. An error says why there is none.
    ///
    /// # Safety
    ///
    /// No other call uses the handle at the same time.
    pub(crate) unsafe fn pop_up_to(
        &self,
        number: usize,
        most: usize,
        values: &mut Vec<T>,
        mut looks: Looks,
    ) -> Result<usize, PopError> {
        let _call = self.enter(number, "a pop of many");
        let mut pops = Pops {
            shared: self,
            number,
            taken: 0,
            has_cell: false,
        };
        while pops.taken < most {
            // There is a place before there is a value.
            values.reserve(1);
            // It releases the cell of the value before.
            pops.has_cell = false;
            // SAFETY: as the caller says.
            match unsafe { self.receive_by(number, looks) } {
                Ok(cell) => {
                    looks = Looks::UnlessBusy;
                    pops.has_cell = true;
                    // SAFETY: the cell has just been received, and is the handle's alone until the next one is.
                    values.push(unsafe { cell.move_out() });
                    pops.taken += 1;
                }
                Err(end) if pops.taken == 0 => return Err(end),
                Err(_) => break,
            }
        }
        Ok(pops.taken)
    }
}
