//! The cells that the values of a queue lie in: where they are, and how a value gets in and out.
use crate::ffi::CellAt;
use std::ptr::NonNull;

/// What the block of the cells of a generation begins at a multiple of.
const BLOCK_ALIGNMENT: usize = 8;

/// The size and the alignment of the cells of a `T`, in bytes. A value without bytes lies nowhere, and its cell has a
/// byte all the same. A size of 0, which is refused, says that a `T` is larger or wider than a cell can be.
pub(crate) fn layout_of<T>() -> (u32, u32) {
    if size_of::<T>() == 0 {
        return (1, 1);
    }
    match (size_of::<T>().try_into(), align_of::<T>().try_into()) {
        (Ok(size), Ok(alignment)) => (size, alignment),
        _ => (0, 1),
    }
}

impl CellAt {
    /// Where the value of this cell is, or is to be. For a value without bytes that is anywhere.
    ///
    /// # Safety
    ///
    /// The cell is one of a queue of `T`, and the caller's alone.
    #[inline]
    unsafe fn place<T>(self) -> *mut T {
        if size_of::<T>() == 0 {
            return NonNull::dangling().as_ptr();
        }
        let mut first = self.block;
        if align_of::<T>() > BLOCK_ALIGNMENT {
            let before = first.addr().wrapping_neg() & (align_of::<T>() - 1);
            // SAFETY: the block has as many bytes more as the alignment is.
            first = unsafe { first.add(before) };
        }
        // SAFETY: the block has the cells up to this one.
        unsafe { first.cast::<T>().add(self.index as usize) }
    }

    /// Copies a value into the cell.
    ///
    /// # Safety
    ///
    /// The cell is one of a queue of `T`, and the caller's alone. The value goes on in one of its two places alone.
    #[inline]
    pub(crate) unsafe fn copy_in<T>(self, value: &T) {
        // SAFETY: both places are of a `T`, and the caller says that this one is its own.
        unsafe { self.place::<T>().copy_from_nonoverlapping(value, 1) };
    }

    /// Moves the value of the cell out.
    ///
    /// # Safety
    ///
    /// The cell is one of a queue of `T`, and the caller's alone. It has a value, and has none after.
    #[inline]
    pub(crate) unsafe fn move_out<T>(self) -> T {
        // SAFETY: the caller says that there is a value, and that nobody else moves it out.
        unsafe { self.place::<T>().read() }
    }
}

#[cfg(test)]
#[path = "../tests/unit/cells.rs"]
mod tests;
