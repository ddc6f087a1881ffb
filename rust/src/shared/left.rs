//! The values that are left in a queue: they come out where one has the queue alone, or are dropped with it.
use super::{Looks, Shared};
use crate::error::PopError;
use crate::ffi::{self, CellAt, LeftCells};
use std::mem::{forget, needs_drop};

/// What was taken out of a queue that is not empty yet, and its cells where it was closed.
pub(super) struct Left<T> {
    values: Vec<T>,
    cells: LeftCells,
    is_closed: bool,
}

impl<T> Left<T> {
    pub(super) const fn none() -> Left<T> {
        Left {
            values: Vec::new(),
            cells: LeftCells::none(),
            is_closed: false,
        }
    }
}

impl<T> Drop for Left<T> {
    fn drop(&mut self) {
        // SAFETY: nobody has one of the cells any more.
        unsafe { ffi::kfifo_c_free_left(&mut self.cells) };
    }
}

/// Why not all values came out: there was no memory to close a queue whose versions are used up.
#[derive(Debug)]
pub(crate) struct NoMemory;

impl<T> Shared<T> {
    /// Moves all values out that are left, in the order of the queue. Where there is no memory for that, a further call
    /// goes on.
    pub(crate) fn take_left(&mut self) -> Result<Vec<T>, NoMemory> {
        while let Some(value) = self.next_left()? {
            self.left.values.push(value);
        }
        Ok(std::mem::take(&mut self.left.values))
    }

    /// The next value that is left; none where there is none any more.
    fn next_left(&mut self) -> Result<Option<T>, NoMemory> {
        if !self.left.is_closed {
            // SAFETY: `&mut self` says that nobody else makes a call.
            match unsafe { self.pop(0, Looks::UnlessBusy) } {
                Ok(value) => return Ok(Some(value)),
                Err(PopError::Worn) => self.close()?,
                Err(_) => return Ok(None),
            }
        }
        let mut cell = CellAt::none();
        // SAFETY: the cells are those of this queue, or none where they were lost.
        let status = unsafe { ffi::kfifo_c_next_left(&mut self.left.cells, &mut cell) };
        // SAFETY: the cell was in the queue, with the value that `publish` has put there, and each comes once.
        Ok((status == ffi::DONE).then(|| unsafe { cell.move_out() }))
    }

    /// Closes a queue whose versions are used up: no pop reaches what is left in it.
    #[cold]
    pub(super) fn close(&mut self) -> Result<(), NoMemory> {
        let handles = &mut self.handles.0;
        // SAFETY: these are all handles of the queue, and `&mut self` says that nobody else uses one.
        let status = unsafe {
            ffi::kfifo_c_close_cells(
                handles.as_mut_ptr().cast(),
                handles.len(),
                &mut self.left.cells,
            )
        };
        if status == ffi::DONE || status == ffi::LOST {
            self.left.is_closed = true;
            // The handles are closed, so nobody may have one.
            *self.free.get_mut() = 0;
        }
        if status == ffi::DONE {
            Ok(())
        } else {
            Err(NoMemory)
        }
    }
}

/// The values that are left in a queue, which go when it is dropped.
struct Rest<'a, T>(&'a mut Shared<T>);

impl<T> Drop for Rest<'_, T> {
    fn drop(&mut self) {
        while let Ok(Some(value)) = self.0.next_left() {
            // Where the drop of this value panics, the others are dropped all the same.
            let others = Rest(self.0);
            drop(value);
            forget(others);
        }
    }
}

impl<T> Drop for Shared<T> {
    fn drop(&mut self) {
        if needs_drop::<T>() {
            drop(Rest(self));
        }
    }
}
