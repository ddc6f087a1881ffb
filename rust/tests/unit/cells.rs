//! The cells: where they are, and what becomes of the values in them.
use super::{BLOCK_ALIGNMENT, layout_of};
use crate::ffi::CellAt;
use std::mem::{ManuallyDrop, align_of};
use std::rc::Rc;

#[repr(align(512))]
struct Aligned(#[allow(dead_code)] u8);

#[repr(align(64))]
struct Nothing;

/// A block for that many cells, as the library makes it, which begins so many words after the greatest alignment.
fn block_of<T>(cells: usize, words_after: usize) -> (Vec<u64>, *mut u8, usize) {
    let (size, alignment) = layout_of::<T>();
    let bytes = cells * size as usize + alignment as usize;
    let mut words = vec![0_u64; bytes / 8 + 1 + 2 * 512 / 8];
    let first = words.as_mut_ptr();
    let before = first.addr().wrapping_neg() % 512 / 8 + words_after;
    // SAFETY: the words are so many more than the block needs.
    let block = unsafe { first.add(before) };
    (words, block.cast(), bytes)
}

/// Where the cells of a block are: aligned, side by side, and in the block.
fn are_in_order<T>() {
    for words_after in [0, 1, 2, 7, 63] {
        let (_words, block, bytes) = block_of::<T>(20, words_after);
        assert_eq!(block.addr() % BLOCK_ALIGNMENT, 0);
        let places: Vec<_> = (0..20)
            .map(|index| CellAt { block, index })
            // SAFETY: the block is one of such cells, and nobody else has it.
            .map(|cell| unsafe { cell.place::<T>() }.addr())
            .collect();
        assert!(places.iter().all(|it| it % align_of::<T>() == 0));
        assert!(places.is_sorted_by(|left, right| left + size_of::<T>() == *right));
        assert!(places[0] >= block.addr() && places[0] < block.addr() + align_of::<T>());
        assert!(places[19] + size_of::<T>() <= block.addr() + bytes);
    }
}

#[test]
fn cells_lie_side_by_side() {
    are_in_order::<u8>();
    are_in_order::<u64>();
    are_in_order::<u128>();
    are_in_order::<[u64; 6]>();
    are_in_order::<[u8; 1000]>();
    are_in_order::<Aligned>();
}

#[test]
fn a_layout_is_that_of_the_values() {
    assert_eq!(layout_of::<u8>(), (1, 1));
    assert_eq!(layout_of::<[u64; 6]>(), (48, 8));
    assert_eq!(layout_of::<Aligned>(), (512, 512));
    assert_eq!(layout_of::<[u8; u32::MAX as usize]>(), (u32::MAX, 1));
    // Values without bytes need no memory, and there is no layout for those that are too large.
    assert_eq!(layout_of::<()>(), (1, 1));
    assert_eq!(layout_of::<Nothing>(), (1, 1));
    assert_eq!(layout_of::<[u8; 1 << 32]>(), (0, 1));
}

#[test]
fn a_value_comes_out_of_its_cell() {
    let value = Rc::new(7);
    let (_words, block, _) = block_of::<Rc<i32>>(8, 1);
    let cells = (0..8).map(|index| CellAt { block, index });
    for cell in cells.clone() {
        let value = ManuallyDrop::new(Rc::clone(&value));
        // SAFETY: nobody else has the cell, and the value goes on there alone.
        unsafe { cell.copy_in(&*value) };
    }
    assert_eq!(Rc::strong_count(&value), 9);
    // SAFETY: each cell has a value, and each is moved out once.
    let values: Vec<Rc<i32>> = cells.rev().map(|it| unsafe { it.move_out() }).collect();
    assert!(values.iter().all(|it| Rc::ptr_eq(it, &value)));
    drop(values);
    assert_eq!(Rc::strong_count(&value), 1);
}

#[test]
fn a_value_without_bytes_lies_where_it_may() {
    let cell = CellAt::none();
    // SAFETY: there is nothing to read or to write.
    let place = unsafe { cell.place::<Nothing>() };
    assert!(!place.is_null() && place.addr() % 64 == 0);
    // SAFETY: as above.
    unsafe { cell.copy_in(&Nothing) };
    // SAFETY: as above.
    let Nothing = unsafe { cell.move_out::<Nothing>() };
}
