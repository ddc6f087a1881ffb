//! Threads that are slow between the steps of a push or a pop, so that others have gone on to a new generation. The
//! value goes in once all the same, and comes out whole.
use super::{Looks, Shared};
use crate::Options;
use crate::error::PopError;
use crate::ffi::{self, CellAt};
use std::mem::{ManuallyDrop, replace};
use std::rc::Rc;

type Value = (u64, Rc<()>);

/// A queue whose generations change all the time. One thread makes all calls here.
struct Slow {
    shared: Shared<Value>,
    alive: Rc<()>,
}

impl Slow {
    /// A queue for so many threads that are slow, and two more.
    fn open(slow: usize, reserve: u64, grows: u32) -> Slow {
        let options = Options {
            last: 64,
            reserve,
            grows,
        };
        let shared = Shared::open(1, 8, slow + 2, options).expect("the sizes are in range");
        let alive = Rc::new(());
        Slow { shared, alive }
    }

    /// The handles of those two.
    fn others(&self) -> [usize; 2] {
        let handles = self.shared.handles.0.len();
        [handles - 2, handles - 1]
    }

    fn push(&self, handle: usize, number: u64) {
        let value = (number, Rc::clone(&self.alive));
        // SAFETY: one thread makes all calls.
        let pushed = unsafe { self.shared.push(handle, value, Looks::UnlessBusy) };
        assert!(pushed.is_ok(), "{pushed:?}");
    }

    fn pop(&self, handle: usize) -> Result<u64, PopError> {
        // SAFETY: as in `push`.
        unsafe { self.shared.pop(handle, Looks::UnlessBusy) }.map(|it| it.0)
    }

    /// The generation changes so often, or a few times more.
    fn change(&self, times: u64) {
        let [puts, takes] = self.others();
        for number in 0..40 * times {
            self.push(puts, number);
            assert_eq!(self.pop(takes), Ok(number));
        }
    }

    fn assert_is_empty(&self) {
        for handle in self.others() {
            assert_eq!(self.pop(handle), Err(PopError::Empty));
        }
        assert_eq!(Rc::strong_count(&self.alive), 1);
    }

    /// Pushes a value by each of the slow handles from this one on. Each has its value in a cell before one puts it
    /// into the queue, and the generation changes then. Returns in how many cells the values were.
    fn push_slowly(&self, handle: usize, changes: u64) -> usize {
        let mut cells = 0;
        if handle == self.others()[0] {
            self.change(changes);
            return cells;
        }
        let value = ManuallyDrop::new((1000 + handle as u64, Rc::clone(&self.alive)));
        let mut is_first = true;
        let between = || {
            cells += 1;
            if replace(&mut is_first, false) {
                cells += self.push_slowly(handle + 1, changes);
            }
        };
        // SAFETY: one thread makes all calls, and none by a handle while another one by it runs. The value is given up.
        let status = unsafe { self.shared.publish_by(handle, &value, between) };
        assert_eq!(status, ffi::DONE);
        cells
    }
}

/// A value goes into the generation in which it has a cell, as long as that has versions.
#[test]
fn a_slow_push_goes_into_an_older_generation() {
    for (grows, changes) in [(1, 0), (1, 1), (1, 2), (1, 50), (4, 1), (4, 50)] {
        let slow = Slow::open(1, 32, grows);
        for round in 0..20 {
            assert_eq!(slow.push_slowly(0, changes), 1);
            assert_eq!(slow.pop(slow.others()[round % 2]), Ok(1000));
            slow.assert_is_empty();
        }
    }
}

/// Where many are slow, the generation has versions for some of them alone. The values of the others go on to the next
/// one: all come out, and each once.
#[test]
fn a_slow_push_goes_on_to_the_next_generation() {
    for threads in [8, 16, 24] {
        for changes in [1, 3, 50] {
            for reserve in [3, 6, 8, 12] {
                let mut slow = Slow::open(threads, reserve, 1);
                let cells = slow.push_slowly(0, changes);
                assert!(cells > threads || (reserve == 12 && threads == 8));
                assert_eq!(Rc::strong_count(&slow.alive) - 1, threads);
                let values = slow.shared.take_left().expect("there is memory");
                let mut numbers: Vec<_> = values.iter().map(|it| it.0).collect();
                numbers.sort_unstable();
                assert!(numbers.into_iter().eq(1000..1000 + threads as u64));
            }
        }
    }
}

/// The cell of a value that was received stays where it is until the value is moved out.
#[test]
fn a_pop_finds_its_value_where_it_was() {
    for grows in [1, 4] {
        let slow = Slow::open(1, 32, grows);
        for round in 0..20 {
            slow.push(1, 1000 + round);
            let mut cell = CellAt::none();
            // SAFETY: one thread makes all calls.
            assert_eq!(unsafe { slow.shared.look(0, &mut cell) }, ffi::GOT);
            slow.change(round);
            // SAFETY: as above, and the cell was received.
            let value = unsafe { slow.shared.move_out(0, cell) };
            assert_eq!(value.0, 1000 + round);
            drop(value);
            slow.assert_is_empty();
        }
    }
}

/// A handle that holds a cell for long, of a queue that is closed then.
#[test]
fn a_queue_is_dropped_with_a_cell_that_was_reserved() {
    for changes in [0, 1, 50] {
        let slow = Slow::open(1, 32, 1);
        let mut cell = CellAt::none();
        // SAFETY: one thread makes all calls.
        let status = unsafe { ffi::kfifo_c_reserve(slow.shared.handles.at(0), &mut cell) };
        assert_eq!(status, ffi::DONE);
        slow.change(changes);
        slow.push(1, 7);
        let Slow { mut shared, alive } = slow;
        if changes > 0 {
            assert_eq!(shared.take_left().map(|it| it.len()).ok(), Some(1));
        }
        drop(shared);
        assert_eq!(Rc::strong_count(&alive), 1);
    }
}
