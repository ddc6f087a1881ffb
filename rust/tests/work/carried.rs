//! Tasks come out as they went in, with what was written before.
use crate::{threads, total};
use kfifo::work;
use std::sync::atomic::{AtomicU64, Ordering};

/// Tasks of this type come out as they went in: `first` of a number makes one, and `second` reads it.
fn type_is_carried<T: Send>(make: impl Fn(u64) -> T + Sync, read: impl Fn(&T) -> u64 + Sync) {
    for workers in [1, 4] {
        let sum = AtomicU64::new(0);
        let report = work::run(
            [make(3_000)],
            |task, more| {
                let number = read(&task);
                sum.fetch_add(number, Ordering::Relaxed);
                if number > 0 {
                    more.give(make(number - 1))
                        .unwrap_or_else(|_| panic!("no memory"));
                }
            },
            threads(workers),
        );
        assert_eq!(total(&report.expect("in range")), 3_001);
        assert_eq!(sum.into_inner(), 3_000 * 3_001 / 2);
    }
}

#[repr(align(128))]
struct Wide(u16);

#[test]
fn tasks_of_all_types_are_carried() {
    type_is_carried(|it| it, |it| *it);
    type_is_carried(|it| it as u16, |it| u64::from(*it));
    type_is_carried(|it| (7_u8, it as u32), |it| u64::from(it.1));
    type_is_carried(|it| Some(it as u32), |it| u64::from(it.unwrap()));
    type_is_carried(Box::new, |it| **it);
    type_is_carried(Some, |it| it.unwrap());
    type_is_carried(|it| it.to_string(), |it| it.parse().unwrap());
    type_is_carried(|it| [it; 40], |it| it[39]);
    type_is_carried(|it| Wide(it as u16), |it| u64::from(it.0));
    type_is_carried(|it| vec![(); it as usize], |it| it.len() as u64);
    let numbers: Vec<u64> = (0..=3_000).collect();
    type_is_carried(|it| &numbers[it as usize], |it| **it);
    let done = work::run([(), ()], |(), _| {}, threads(2));
    assert_eq!(total(&done.expect("in range")), 2);
}

/// What a task gives is seen by who does it, though plain memory carries it.
#[test]
fn what_was_written_before_a_give_is_seen() {
    struct Cell(std::cell::UnsafeCell<u64>);
    // SAFETY: one task at a time has the cell.
    unsafe impl Sync for Cell {}
    let cells: Vec<_> = (0..8).map(|_| Cell(0.into())).collect();
    let report = work::run(
        0..8,
        |chain: usize, more| {
            // SAFETY: the next task of this chain is given after this.
            let count = unsafe {
                *cells[chain].0.get() += 1;
                *cells[chain].0.get()
            };
            if count < 5_000 {
                more.give(chain).expect("there is memory");
            }
        },
        threads(4),
    );
    assert_eq!(total(&report.expect("in range")), 40_000);
    assert!(cells.into_iter().all(|it| it.0.into_inner() == 5_000));
}
