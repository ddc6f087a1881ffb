//! Nodes: each task comes out as it went in, by whichever worker, and free nodes are used again.
use super::{BATCH, Nodes, Pool};

type Task = [u64; 3];

fn task(number: usize) -> Task {
    [number as u64, 1, 2]
}

/// How many nodes the pool has made.
fn made<T>(pool: &Pool<T>) -> usize {
    pool.lock().blocks.len() * BATCH
}

/// Packs that many tasks by one worker, and unpacks them by another one.
fn hand_over(giver: &mut Nodes<'_, Task>, taker: &mut Nodes<'_, Task>, count: usize) {
    let values: Vec<_> = (0..count)
        .map(|it| giver.pack(task(it)).expect("there is memory"))
        .collect();
    for (number, value) in values.into_iter().enumerate() {
        // SAFETY: `pack` made it of such a task, with the same pool, and it is unpacked once.
        assert_eq!(unsafe { taker.unpack(value) }, task(number));
    }
}

#[test]
fn what_one_worker_frees_another_one_uses() {
    let pool = Pool::new();
    let (mut giver, mut taker) = (Nodes::new(&pool), Nodes::new(&pool));
    for count in [1, BATCH - 1, BATCH, BATCH + 1, 10 * BATCH, 1, 10 * BATCH] {
        for _ in 0..100 {
            hand_over(&mut giver, &mut taker, count);
        }
    }
    // Those of the greatest burst, and the batches that each of the two keeps.
    assert!(made(&pool) <= 14 * BATCH, "{}", made(&pool));
}

#[test]
fn one_worker_uses_its_own() {
    let pool = Pool::new();
    let mut nodes = Nodes::new(&pool);
    for number in 0..10 * BATCH {
        let value = nodes.pack(task(number)).expect("there is memory");
        // SAFETY: as above.
        assert_eq!(unsafe { nodes.unpack(value) }, task(number));
    }
    assert_eq!(made(&pool), BATCH);
}

#[test]
fn small_tasks_need_no_node() {
    let pool = Pool::new();
    let mut nodes = Nodes::new(&pool);
    for number in 0..1_000_u32 {
        let value = nodes.pack((7_u8, number)).expect("there is memory");
        // SAFETY: as above.
        assert_eq!(unsafe { nodes.unpack(value) }, (7, number));
    }
    assert_eq!(made(&pool), 0);
}

/// Nodes lie where their type may lie.
#[test]
fn wide_tasks_are_aligned() {
    #[repr(align(256))]
    struct Wide([u8; 300]);
    let pool = Pool::new();
    let mut nodes = Nodes::new(&pool);
    let values: Vec<_> = (0..=255)
        .map(|it| {
            let packed = nodes.pack(Wide([it; 300]));
            packed.unwrap_or_else(|_| panic!("there is memory"))
        })
        .collect();
    for (number, value) in values.into_iter().enumerate() {
        // SAFETY: the value is the address of its node.
        assert_eq!(unsafe { value.assume_init() } % 256, 0);
        // SAFETY: as above.
        let wide = unsafe { nodes.unpack(value) };
        assert!(wide.0.iter().all(|it| usize::from(*it) == number));
    }
}
