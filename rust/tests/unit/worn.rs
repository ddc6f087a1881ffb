//! Queues that do not renew themselves, and whose versions are soon used up: each value still comes out or back once,
//! and is dropped once.
use super::{Looks, NoMemory, Shared};
use crate::Options;
use crate::error::{PopError, PushError};
use crate::ffi;
use std::mem::{replace, swap};
use std::rc::Rc;

type Value = (u64, Rc<()>);

/// A queue with the versions 0 to `last` alone. One thread makes all calls here.
struct Worn {
    shared: Shared<Value>,
    /// What each value shares: as many values are alive, and one more.
    alive: Rc<()>,
}

impl Worn {
    fn open(k: u32, capacity: usize, threads: usize, last: u64) -> Worn {
        let options = Options {
            last,
            reserve: 0,
            grows: 1,
        };
        Worn::open_with(k, capacity, threads, options)
    }

    fn open_with(k: u32, capacity: usize, threads: usize, options: Options) -> Worn {
        let shared = Shared::open(k, capacity, threads, options).expect("the sizes are in range");
        let alive = Rc::new(());
        Worn { shared, alive }
    }

    fn push(&self, handle: usize, number: u64) -> Result<(), PushError<Value>> {
        // SAFETY: one thread makes all calls.
        unsafe {
            self.shared
                .push(handle, (number, Rc::clone(&self.alive)), Looks::UnlessBusy)
        }
    }

    fn pop(&self, handle: usize) -> Result<u64, PopError> {
        // SAFETY: as in `push`.
        unsafe { self.shared.pop(handle, Looks::UnlessBusy) }.map(|value| value.0)
    }

    fn alive(&self) -> usize {
        Rc::strong_count(&self.alive) - 1
    }

    /// Puts values by one handle after the other, and takes one now and then, until a version is used up: what is left.
    fn wear(&self, takes_each: u64) -> Vec<u64> {
        let handles = self.shared.handles.0.len() as u64;
        let mut left = Vec::new();
        for number in 0.. {
            let handle = (number % handles) as usize;
            match self.push(handle, number) {
                Ok(()) => left.push(number),
                Err(PushError::Worn(value)) if value.0 == number => return left,
                Err(refused) => assert!(refused.may_retry(), "{refused}"),
            }
            if number % takes_each == 0 {
                match self.pop(handle) {
                    Ok(taken) => left.retain(|it| *it != taken),
                    Err(PopError::Worn) => return left,
                    Err(end) => assert!(end.may_retry(), "{end}"),
                }
            }
            assert_eq!(self.alive(), left.len());
        }
        unreachable!("a queue wears out")
    }
}

/// The sizes and versions, and after how many values each one is taken.
const CASES: [(u32, usize, usize, u64, u64); 8] = [
    (1, 2, 1, 2, 1),
    (1, 2, 1, 3, 2),
    (1, 8, 2, 3, 2),
    (2, 8, 3, 3, 1),
    (2, 8, 2, 5, 2),
    (4, 16, 2, 9, 3),
    (1, 64, 1, 3, 2),
    (4, 64, 4, 30, 2),
];

/// Calls with each case that is worn, and the values that are left in it.
fn each_case(then: impl Fn(Worn, Vec<u64>)) {
    for (k, capacity, threads, last, takes_each) in CASES {
        let worn = Worn::open(k, capacity, threads, last);
        let left = worn.wear(takes_each);
        then(worn, left);
    }
}

#[test]
fn refusals_hand_values_back() {
    each_case(|worn, left| {
        let mut alive = left.len();
        for handle in 0..worn.shared.handles.0.len() {
            match worn.push(handle, 7) {
                Ok(()) => alive += 1,
                Err(refused) => assert_eq!(refused.into_inner().0, 7),
            }
            assert_eq!(worn.alive(), alive);
        }
    });
}

#[test]
fn takes_that_wait_end() {
    each_case(|worn, left| {
        let mut taken = Vec::new();
        while worn.alive() > 0 {
            // SAFETY: one thread makes all calls.
            match unsafe { worn.shared.pop(0, Looks::Within(ffi::FOREVER)) } {
                Ok(value) => taken.push(value.0),
                Err(end) => {
                    assert_eq!(end, PopError::Worn);
                    break;
                }
            }
        }
        assert_eq!(worn.alive() + taken.len(), left.len());
    });
}

#[test]
fn what_is_left_is_dropped_once() {
    each_case(|Worn { shared, alive }, left| {
        assert_eq!(Rc::strong_count(&alive) - 1, left.len());
        drop(shared);
        assert_eq!(Rc::strong_count(&alive), 1);
    });
}

fn numbers_of(values: &[Value]) -> Vec<u64> {
    values.iter().map(|value| value.0).collect()
}

fn sorted(mut numbers: Vec<u64>) -> Vec<u64> {
    numbers.sort_unstable();
    numbers
}

#[test]
fn what_is_left_comes_out_once() {
    each_case(|Worn { mut shared, alive }, left| {
        let values = shared.take_left().expect("there is memory");
        assert_eq!(sorted(numbers_of(&values)), left);
        drop(values);
        assert_eq!(Rc::strong_count(&alive), 1);
    });
}

/// With one slot a segment the queue is first in, first out, and so is what a close finds.
#[test]
fn what_is_left_comes_out_in_order() {
    let mut most = 0;
    for last in 2..20 {
        let mut worn = Worn::open(1, 16, 2, last);
        let left = worn.wear(3);
        most = most.max(left.len());
        let values = worn.shared.take_left().expect("there is memory");
        assert_eq!(numbers_of(&values), left);
    }
    assert!(most > 4);
}

/// Here the library refuses the first close, as one handle is closed: nothing is lost, and a further call goes on.
#[test]
fn what_is_left_comes_out_once_after_a_close_that_is_refused() {
    let mut refused = 0;
    each_case(|Worn { mut shared, alive }, left| {
        let last = shared.handles.0.len() - 1;
        let handle =
            |shared: &mut Shared<Value>, next| replace(shared.handles.0[last].get_mut(), next);
        // A handle makes the calls, so the only one stays open.
        let values = match last {
            0 => shared.take_left(),
            _ => {
                let whole = handle(&mut shared, ffi::Handle::closed());
                let first = shared.take_left();
                handle(&mut shared, whole);
                first.or_else(|NoMemory| shared.take_left())
            }
        };
        let values = values.expect("the close is not refused");
        assert_eq!(sorted(numbers_of(&values)), left);
        drop((shared, values));
        assert_eq!(Rc::strong_count(&alive), 1);
    });
    for last in 2..20 {
        let mut worn = Worn::open(1, 16, 2, last);
        let left = worn.wear(3);
        let whole = replace(worn.shared.handles.0[1].get_mut(), ffi::Handle::closed());
        refused += usize::from(worn.shared.take_left().is_err());
        assert!(worn.shared.borrow_handle().is_some());
        *worn.shared.handles.0[1].get_mut() = whole;
        let values = worn.shared.take_left().expect("there is memory");
        assert_eq!(numbers_of(&values), left);
    }
    assert!(refused > 0);
}

/// Here the library closes a queue, but cannot say what was left. What came out before is not lost, and nobody has a
/// handle any more.
#[test]
fn a_queue_goes_whose_close_loses_what_was_left() {
    let mut lost = 0;
    for last in 2..20 {
        let [mut worn, mut other] = [last, 9].map(|last| Worn::open(1, 16, 2, last));
        let left = worn.wear(3);
        // A close asks for handles of one queue. These are of two, which comes to LOST as memory does that is refused.
        swap(
            worn.shared.handles.0[1].get_mut(),
            other.shared.handles.0[1].get_mut(),
        );
        let Err(NoMemory) = worn.shared.take_left() else {
            panic!("a pop comes to WORN");
        };
        assert!(worn.shared.borrow_handle().is_none());
        let values = worn.shared.take_left().expect("it is closed");
        assert!(left.starts_with(&numbers_of(&values)));
        lost += left.len() - values.len();
        let (alive, came) = (Rc::clone(&worn.alive), values.len());
        drop((worn, other));
        assert_eq!(Rc::strong_count(&alive) - 1, left.len());
        drop(values);
        assert_eq!(Rc::strong_count(&alive) - 1, left.len() - came);
    }
    assert!(lost > 0);
}

/// A queue that renews itself never comes to its close by calls of its users while there is memory. So this calls the
/// close itself, at each moment of a change: it gives back what is in all generations, the oldest first.
#[test]
fn a_close_gives_back_several_generations() {
    let options = Options {
        last: 256,
        reserve: 128,
        grows: 4,
    };
    for before in 0..200 {
        let mut worn = Worn::open_with(1, 8, 2, options);
        for number in 0..before {
            assert!(worn.push(number as usize % 2, number).is_ok());
            assert_eq!(worn.pop(0), Ok(number));
        }
        // More than one generation has cells for.
        let next = before + 150;
        for number in before..next {
            assert!(worn.push(1, number).is_ok());
        }
        assert!(worn.shared.close().is_ok());
        assert!(worn.shared.borrow_handle().is_none());
        assert_eq!(worn.alive(), 150);
        let values = worn.shared.take_left().expect("it is closed");
        assert!(numbers_of(&values).into_iter().eq(before..next));
        assert_eq!(worn.alive(), values.len());
    }
}

/// The same queue is dropped, with what is in all generations.
#[test]
fn a_close_drops_several_generations() {
    let options = Options {
        grows: 4,
        ..Options::default()
    };
    let mut worn = Worn::open_with(1, 8, 2, options);
    assert!((0..150).all(|number| worn.push(1, number).is_ok()));
    assert_eq!(worn.pop(0), Ok(0));
    assert!(worn.shared.close().is_ok());
    assert_eq!(worn.alive(), 149);
    let Worn { shared, alive } = worn;
    drop(shared);
    assert_eq!(Rc::strong_count(&alive), 1);
}
