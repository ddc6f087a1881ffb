//! Queues whose generations change all the time, since they have few versions: each value comes out once and is dropped
//! once, those of a producer in order up to the bound, also where handles change threads, and where the queue is closed
//! or dropped in the middle of a change.
use kfifo::{Handle, OpenError, Options, PopError, PushError, Queue};
use std::collections::VecDeque;
use std::sync::Arc;
use std::sync::atomic::{AtomicBool, AtomicI64, AtomicU8, AtomicU64, Ordering};
use std::thread;
use std::time::Duration;

/// A value that owns memory. All share `alive`: as many are alive, and one more.
struct Parcel {
    number: Box<u64>,
    _alive: Arc<()>,
}

impl Parcel {
    fn new(number: u64, alive: &Arc<()>) -> Parcel {
        Parcel {
            number: Box::new(number),
            _alive: Arc::clone(alive),
        }
    }
}

/// A queue whose generations have that many versions, and a reserve of half of them.
fn few_versions(k: u32, capacity: usize, threads: usize, last: u64) -> Queue<Parcel> {
    let options = Options {
        last,
        reserve: last / 2,
        grows: 1,
    };
    Queue::with_options(k, capacity, threads, options).expect("the sizes are in range")
}

/// How many cells a generation has: each thread has its part of the capacity, rounded up, and 32 more.
fn cells_of(capacity: usize, threads: usize) -> usize {
    threads * (capacity.div_ceil(threads) + 32)
}

fn handle_of(queue: &Queue<Parcel>) -> Handle<Parcel> {
    queue.handle().expect("a handle is free")
}

#[test]
fn options_out_of_range_are_refused() {
    let open_with = |options| Queue::<u64>::with_options(1, 2, 2, options).err();
    let open = |last, reserve| {
        open_with(Options {
            last,
            reserve,
            grows: 1,
        })
    };
    assert_eq!(open(1, 0), Some(OpenError::LastOutOfRange));
    assert_eq!(open(1 << 40, 0), Some(OpenError::LastOutOfRange));
    assert_eq!(open(8, 8), Some(OpenError::ReserveOutOfRange));
    assert_eq!(open(8, u64::MAX), Some(OpenError::ReserveOutOfRange));
    assert_eq!(open(8, 7), None);
    assert_eq!(open((1 << 40) - 1, 1 << 32), None);
    let grows = |grows| {
        open_with(Options {
            grows,
            ..Options::default()
        })
    };
    assert_eq!(grows(0), Some(OpenError::GrowsOutOfRange));
    assert_eq!(grows(126), Some(OpenError::GrowsOutOfRange));
    assert_eq!(grows(u32::MAX), Some(OpenError::GrowsOutOfRange));
    assert_eq!(grows(125), None);
}

/// With k = 1 and one thread values come out in order, through some hundred changes, and so does what is left.
#[test]
fn values_come_out_in_order() {
    for last in [24, 32, 48, 64] {
        let queue = few_versions(1, 16, 2, last);
        let alive = Arc::new(());
        let mut inside = VecDeque::new();
        let handles = [handle_of(&queue), handle_of(&queue)];
        for number in 0..5_000_u64 {
            let handle = &handles[(number % 2) as usize];
            handle
                .push(Parcel::new(number, &alive))
                .expect("the queue does not wear out, and has room");
            inside.push_back(number);
            if inside.len() > (number % 8) as usize {
                let parcel = handles[(number / 2 % 2) as usize].pop();
                assert_eq!(parcel.map(|it| *it.number).ok(), inside.pop_front());
            }
            assert_eq!(Arc::strong_count(&alive) - 1, inside.len());
        }
        drop(handles);
        let left = queue.into_values().expect("no handle is in use");
        assert!(left.iter().map(|it| *it.number).eq(inside));
        drop(left);
        assert_eq!(Arc::strong_count(&alive), 1);
    }
}

#[test]
fn a_queue_that_does_not_renew_itself_wears_out() {
    let options = Options {
        last: 40,
        reserve: 0,
        grows: 1,
    };
    let queue = Queue::with_options(1, 8, 1, options).expect("the sizes are in range");
    let handle = queue.handle().expect("a handle is free");
    let mut inside = VecDeque::new();
    for number in 0..1_000 {
        match handle.push(number) {
            Ok(()) => inside.push_back(number),
            Err(refused) => {
                assert_eq!(refused, PushError::Worn(number));
                break;
            }
        }
        match handle.pop() {
            Ok(taken) => assert_eq!(Some(taken), inside.pop_front()),
            Err(end) => {
                assert_eq!(end, PopError::Worn);
                break;
            }
        }
        assert!(number < 60);
    }
    drop(handle);
    let left = queue.into_values().expect("no handle is in use");
    assert!(left.into_iter().eq(inside));
}

/// A handle that makes no calls while others go through many changes: what it put comes out, and it finds what is new.
#[test]
fn a_handle_may_stop() {
    let queue = few_versions(1, 8, 2, 64);
    let alive = Arc::new(());
    let parcel = |number| Parcel::new(number, &alive);
    let (busy, idle) = (handle_of(&queue), handle_of(&queue));
    assert!(idle.push(parcel(0)).is_ok());
    for number in 1..3_000 {
        assert!(busy.push(parcel(number)).is_ok());
        assert_eq!(busy.pop().map(|it| *it.number), Ok(number - 1));
    }
    assert!(idle.push(parcel(3_000)).is_ok());
    assert_eq!(idle.pop().map(|it| *it.number), Ok(2_999));
    assert_eq!(busy.pop().map(|it| *it.number), Ok(3_000));
    assert_eq!(busy.pop().err(), Some(PopError::Empty));
    assert_eq!(Arc::strong_count(&alive), 1);
}

/// A handle that is dropped goes back to the queue. It stays in the generation of its last call, as that of a
/// thread that makes no calls, and whoever asks for a handle next goes on with it. So at whatever moment of a change
/// that is, what the handle put comes out in order, and so does what it puts when it is in use again.
#[test]
fn a_handle_may_be_dropped_at_any_moment_of_a_change() {
    for moment in 0..150 {
        let queue = few_versions(1, 8, 2, 64);
        let alive = Arc::new(());
        let mut inside = VecDeque::new();
        let mut numbers = 0..;
        let mut pairs = |puts: &Handle<Parcel>, takes: &Handle<Parcel>, count| {
            for number in numbers.by_ref().take(count) {
                assert!(puts.push(Parcel::new(number, &alive)).is_ok());
                inside.push_back(number);
                if inside.len() > 4 {
                    let taken = takes.pop().map(|it| *it.number);
                    assert_eq!(taken.ok(), inside.pop_front());
                }
            }
        };
        let (goes, stays) = (handle_of(&queue), handle_of(&queue));
        pairs(&goes, &stays, moment);
        drop(goes);
        pairs(&stays, &stays, 200);
        let goes = handle_of(&queue);
        pairs(&goes, &stays, 25);
        pairs(&stays, &goes, 25);
        drop((goes, stays));
        let left = queue.into_values().expect("no handle is in use");
        assert!(left.iter().map(|it| *it.number).eq(inside));
        drop(left);
        assert_eq!(Arc::strong_count(&alive), 1);
    }
}

/// Which values of each producer a thread has taken last: the greatest of their indices, in descending order.
struct Order {
    bound: usize,
    greatest: Vec<Vec<u64>>,
}

impl Order {
    /// Notes an index that was taken: no more than `bound` greater ones of its producer came before it.
    fn note(&mut self, producer: u64, index: u64) {
        let greatest = &mut self.greatest[producer as usize];
        let greater = greatest.partition_point(|it| *it > index);
        assert!(greater <= self.bound, "{greater} have overtaken a value");
        greatest.insert(greater, index);
        greatest.truncate(self.bound + 1);
    }
}

/// How many threads do what.
#[derive(Clone, Copy)]
struct Roles {
    push: u64,
    pop: u64,
    do_both: u64,
}

impl Roles {
    fn threads(self) -> u64 {
        self.push + self.pop + self.do_both
    }

    fn producers(self) -> u64 {
        self.push + self.do_both
    }
}

/// What the threads of a run share.
struct Run {
    roles: Roles,
    queue: Queue<Parcel>,
    alive: Arc<()>,
    seen: Vec<AtomicU8>,
    left: AtomicU64,
    inside: AtomicU64,
    /// How many values may be inside at a time. With few versions the places of generations would run out.
    most_inside: u64,
    sleeps: bool,
    has_failed: AtomicBool,
}

/// Ends the threads of a run where one of them panics: else the others would wait for its values.
struct EndsRun<'a>(&'a Run);

impl Drop for EndsRun<'_> {
    fn drop(&mut self) {
        if thread::panicking() {
            self.0.has_failed.store(true, Ordering::SeqCst);
            self.0.queue.finish();
        }
    }
}

const EACH: u64 = 10_000;
const K: u32 = 4;

impl Run {
    /// The reserve is 16 versions for each thread: more than those inside, and what is under way, need.
    fn new(roles: Roles, sleeps: bool) -> Run {
        let queue = few_versions(K, 32, roles.threads() as usize, 32 * roles.threads());
        Run::over(queue, 16, roles, sleeps)
    }

    /// Over a queue that grows when its producers are ahead, and is small again when its consumers have caught up.
    fn growing(roles: Roles, sleeps: bool) -> Run {
        let options = Options {
            grows: 8,
            ..Options::default()
        };
        let queue = Queue::with_options(K, 1, roles.threads() as usize, options);
        Run::over(
            queue.expect("the sizes are in range"),
            u64::MAX,
            roles,
            sleeps,
        )
    }

    fn over(queue: Queue<Parcel>, most_inside: u64, roles: Roles, sleeps: bool) -> Run {
        let values = roles.producers() * EACH;
        Run {
            roles,
            queue,
            most_inside,
            alive: Arc::new(()),
            seen: (0..values).map(|_| AtomicU8::new(0)).collect(),
            left: AtomicU64::new(values),
            inside: AtomicU64::new(0),
            sleeps,
            has_failed: AtomicBool::new(false),
        }
    }

    fn is_over(&self) -> bool {
        self.left.load(Ordering::SeqCst) == 0
    }

    /// Puts a value, unless there are many inside. Returns whether it is in the queue.
    fn put(&self, handle: &Handle<Parcel>, number: u64) -> bool {
        if self.inside.fetch_add(1, Ordering::SeqCst) < self.most_inside {
            let parcel = Parcel::new(number, &self.alive);
            let put = if self.sleeps {
                handle.push_wait(parcel)
            } else {
                handle.push(parcel)
            };
            let Err(refused) = put else {
                return true;
            };
            assert!(refused.may_retry(), "{refused}");
            assert_eq!(*refused.into_inner().number, number);
        }
        self.inside.fetch_sub(1, Ordering::SeqCst);
        thread::yield_now();
        false
    }

    fn take(&self, handle: &Handle<Parcel>, order: &mut Order) {
        let taken = if self.sleeps {
            handle.pop_timeout(Duration::from_millis(1))
        } else {
            handle.pop()
        };
        match taken {
            Ok(parcel) => {
                self.seen[*parcel.number as usize].fetch_add(1, Ordering::SeqCst);
                order.note(*parcel.number / EACH, *parcel.number % EACH);
                self.inside.fetch_sub(1, Ordering::SeqCst);
                self.left.fetch_sub(1, Ordering::SeqCst);
            }
            Err(end) => {
                assert!(end.may_retry() || end == PopError::TimedOut, "{end}");
                thread::yield_now();
            }
        }
    }

    /// Puts the values of a producer, takes those of all, or both, one after the other. Now and then it drops its
    /// handle, and goes on with another one, or the same again.
    fn work(&self, thread: u64) {
        let _ends = EndsRun(self);
        let mut handle = handle_of(&self.queue);
        let mut order = Order {
            bound: (u64::from(K).max(self.roles.threads()) - 1) as usize,
            greatest: vec![Vec::new(); self.roles.producers() as usize],
        };
        let takes = thread >= self.roles.push;
        let mut numbers = match thread < self.roles.producers() {
            true => thread * EACH..(thread + 1) * EACH,
            false => 0..0,
        };
        while !numbers.is_empty() || (takes && !self.is_over()) {
            assert!(!self.has_failed.load(Ordering::SeqCst));
            if !numbers.is_empty() && self.put(&handle, numbers.start) {
                numbers.start += 1;
                if numbers.start % 500 == 0 {
                    drop(handle);
                    handle = handle_of(&self.queue);
                }
            }
            if takes && !self.is_over() {
                self.take(&handle, &mut order);
            }
        }
    }
}

/// Runs of this kind: each value comes out once, and in order up to the bound.
fn run_all(all_roles: &[(u64, u64, u64)], new: fn(Roles, bool) -> Run) {
    for &(push, pop, do_both) in all_roles {
        for sleeps in [false, true] {
            let roles = Roles { push, pop, do_both };
            let run = new(roles, sleeps);
            thread::scope(|scope| {
                for number in 0..roles.threads() {
                    let run = &run;
                    scope.spawn(move || run.work(number));
                }
            });
            assert!(run.seen.iter().all(|it| it.load(Ordering::SeqCst) == 1));
            assert_eq!(Arc::strong_count(&run.alive), 1);
            let left = run.queue.into_values().expect("no handle is in use");
            assert!(left.is_empty());
        }
    }
}

#[test]
fn each_value_comes_out_once_and_in_order_up_to_the_bound() {
    let all_roles = [
        (1, 1, 0),
        (2, 2, 0),
        (0, 0, 4),
        (1, 1, 2),
        (8, 8, 0),
        (4, 4, 8),
    ];
    run_all(&all_roles, Run::new);
}

#[test]
fn so_it_does_from_a_queue_that_grows() {
    run_all(&[(1, 1, 0), (3, 1, 0), (2, 2, 2), (8, 8, 0)], Run::growing);
}

/// Pushes while there is room, and then pops some, so that there are many values inside, also when generations change.
/// It stops once all threads have made that many calls. Returns what it has put, and what it has taken.
fn push_and_pop(
    handle: &Handle<Parcel>,
    alive: &Arc<()>,
    thread: u64,
    calls: &AtomicI64,
) -> [Vec<u64>; 2] {
    let (mut pushed, mut popped) = (Vec::new(), Vec::new());
    let may_call = || calls.fetch_sub(1, Ordering::SeqCst) > 0;
    let mut number = thread << 32;
    while calls.load(Ordering::SeqCst) > 0 {
        while may_call() {
            if let Err(refused) = handle.push(Parcel::new(number, alive)) {
                assert!(refused.may_retry(), "{refused}");
                break;
            }
            pushed.push(number);
            number += 1;
        }
        for _ in 0..3 + thread {
            if may_call() {
                match handle.pop() {
                    Ok(parcel) => popped.push(*parcel.number),
                    Err(end) => assert!(end.may_retry(), "{end}"),
                }
            }
        }
    }
    [pushed, popped]
}

/// What four threads have put and taken until they are stopped, after that many calls in all.
fn stopped_after(queue: &Queue<Parcel>, alive: &Arc<()>, calls: i64) -> [Vec<u64>; 2] {
    let calls = AtomicI64::new(calls);
    let all = thread::scope(|scope| {
        let threads = [0, 1, 2, 3].map(|number| {
            let (handle, calls) = (handle_of(queue), &calls);
            scope.spawn(move || push_and_pop(&handle, alive, number, calls))
        });
        threads.map(|it| it.join().expect("no thread panics"))
    });
    [0, 1].map(|side| all.iter().flat_map(|it| it[side].clone()).collect())
}

/// The queue gives back what is left, or is dropped, while it has values of several generations: what came out before
/// and what is left is each value once. It had several generations where more was left than one has cells.
fn stops_anywhere(gives_back: bool) {
    let (k, capacity) = (2, 16);
    let alive = Arc::new(());
    let cells = cells_of(capacity, 4);
    let mut most = 0;
    let numbers = (20..8_000).step_by(40);
    let rounds = numbers.clone().count();
    // Where threads take turns on few processors, values of several generations are seldom left. So it goes on until
    // some are, for forty times as many rounds at most.
    for (round, calls) in numbers.cycle().take(40 * rounds).enumerate() {
        if round >= rounds && most > cells {
            break;
        }
        let queue = few_versions(k, capacity, 4, 4 * cells as u64);
        let [mut pushed, mut popped] = stopped_after(&queue, &alive, calls);
        let inside = pushed.len() - popped.len();
        assert_eq!(Arc::strong_count(&alive) - 1, inside);
        most = most.max(inside);
        if gives_back {
            let left = queue.into_values().expect("no handle is in use");
            popped.extend(left.iter().map(|it| *it.number));
            pushed.sort_unstable();
            popped.sort_unstable();
            assert_eq!(pushed, popped);
        } else {
            drop(queue);
        }
        assert_eq!(Arc::strong_count(&alive), 1);
    }
    assert!(most > cells, "{most}");
}

#[test]
fn what_is_left_of_several_generations_comes_back_once() {
    stops_anywhere(true);
}

#[test]
fn what_is_left_of_several_generations_is_dropped_once() {
    stops_anywhere(false);
}
