//! Queues to check: right ones and faulty ones. No faulty one sleeps or waits on purpose.
use std::collections::VecDeque;
use std::sync::Mutex;
use std::sync::atomic::{AtomicI64, AtomicU16, AtomicU64, Ordering};

/// Right: a queue behind a lock, of any length.
#[derive(Default)]
pub struct Locked(Mutex<VecDeque<u32>>);

impl Locked {
    pub fn push(&self, item: u32) {
        self.0.lock().unwrap().push_back(item);
    }

    pub fn pop(&self) -> Option<u32> {
        self.0.lock().unwrap().pop_front()
    }

    /// Takes one of the `most` oldest items, which differs from call to call.
    pub fn pop_near(&self, most: usize) -> Option<u32> {
        let mut items = self.0.lock().unwrap();
        let near = items.len().min(most);
        let place = items.front().map_or(0, |item| *item as usize % near.max(1));
        items.remove(place)
    }
}

/// A stack.
#[derive(Default)]
pub struct Stack(Mutex<Vec<u32>>);

impl Stack {
    pub fn push(&self, item: u32) {
        self.0.lock().unwrap().push(item);
    }

    pub fn pop(&self) -> Option<u32> {
        self.0.lock().unwrap().pop()
    }
}

/// What is wrong with a `Ring`.
#[derive(Clone, Copy, PartialEq, Eq)]
pub enum RingFault {
    None,
    /// A put raises the tail by a load and a store.
    LostUpdate,
    /// A put publishes its slot before it writes the item.
    EarlyPublish,
}

#[derive(Default)]
struct Cell {
    turn: AtomicU64,
    item: AtomicU64,
}

/// Vyukov's bounded ring. Its get returns Empty only where the tail has not passed the slot.
pub struct Ring {
    fault: RingFault,
    cells: Vec<Cell>,
    tail: AtomicU64,
    head: AtomicU64,
}

impl Ring {
    pub fn new(capacity: usize, fault: RingFault) -> Ring {
        let cells: Vec<Cell> = (0..capacity).map(|_| Cell::default()).collect();
        for (turn, cell) in cells.iter().enumerate() {
            cell.turn.store(turn as u64, Ordering::Relaxed);
        }
        Ring {
            fault,
            cells,
            tail: AtomicU64::new(0),
            head: AtomicU64::new(0),
        }
    }

    fn cell(&self, place: u64) -> &Cell {
        &self.cells[place as usize % self.cells.len()]
    }

    /// Takes a place at the tail: by a compare-and-swap, or by a load and a store.
    fn claim(&self, place: u64) -> bool {
        if self.fault == RingFault::LostUpdate {
            let is_free = self.tail.load(Ordering::SeqCst) == place;
            if is_free {
                self.tail.store(place + 1, Ordering::SeqCst);
            }
            return is_free;
        }
        self.tail
            .compare_exchange(place, place + 1, Ordering::SeqCst, Ordering::SeqCst)
            .is_ok()
    }

    pub fn push(&self, item: u32) -> bool {
        loop {
            let place = self.tail.load(Ordering::SeqCst);
            let cell = self.cell(place);
            let turn = cell.turn.load(Ordering::Acquire);
            if turn < place {
                return false;
            }
            if turn > place || !self.claim(place) {
                // By a lost update the tail may stand behind the cells: the ring moves it on.
                if self.fault == RingFault::LostUpdate && turn > place {
                    self.tail.store(place + 1, Ordering::SeqCst);
                }
                continue;
            }
            if self.fault != RingFault::EarlyPublish {
                cell.item.store(u64::from(item), Ordering::Relaxed);
            }
            cell.turn.store(place + 1, Ordering::Release);
            if self.fault == RingFault::EarlyPublish {
                cell.item.store(u64::from(item), Ordering::SeqCst);
            }
            return true;
        }
    }

    pub fn pop(&self) -> Option<u64> {
        loop {
            let place = self.head.load(Ordering::SeqCst);
            let cell = self.cell(place);
            let turn = cell.turn.load(Ordering::Acquire);
            if turn < place + 1 && self.tail.load(Ordering::SeqCst) <= place {
                return None;
            }
            let next = place + 1;
            let is_mine = turn == next
                && self
                    .head
                    .compare_exchange(place, next, Ordering::SeqCst, Ordering::SeqCst)
                    .is_ok();
            if is_mine {
                let item = cell.item.load(Ordering::Relaxed);
                cell.turn
                    .store(place + self.cells.len() as u64, Ordering::Release);
                return Some(item);
            }
        }
    }
}

/// Lamport's ring: right for one producer and one consumer, and for no more.
pub struct Pair {
    slots: Vec<AtomicU64>,
    tail: AtomicU64,
    head: AtomicU64,
}

impl Pair {
    pub fn new(capacity: usize) -> Pair {
        let slots = (0..capacity).map(|_| AtomicU64::new(0)).collect();
        Pair {
            slots,
            tail: AtomicU64::new(0),
            head: AtomicU64::new(0),
        }
    }

    fn slot(&self, place: u64) -> &AtomicU64 {
        &self.slots[place as usize % self.slots.len()]
    }

    pub fn push(&self, item: u32) -> bool {
        let tail = self.tail.load(Ordering::Relaxed);
        if tail.wrapping_sub(self.head.load(Ordering::Acquire)) as usize >= self.slots.len() {
            return false;
        }
        self.slot(tail).store(u64::from(item), Ordering::Relaxed);
        self.tail.store(tail + 1, Ordering::Release);
        true
    }

    pub fn pop(&self) -> Option<u64> {
        let head = self.head.load(Ordering::Relaxed);
        if head == self.tail.load(Ordering::Acquire) {
            return None;
        }
        let item = self.slot(head).load(Ordering::Relaxed);
        self.head.store(head + 1, Ordering::Release);
        Some(item)
    }
}

/// A ring with a lock for each end, whose tests of the length stand outside the locks.
pub struct TestOutside {
    in_lock: Mutex<()>,
    out_lock: Mutex<()>,
    slots: Vec<AtomicU64>,
    tail: AtomicI64,
    head: AtomicI64,
}

impl TestOutside {
    pub fn new(capacity: usize) -> TestOutside {
        TestOutside {
            in_lock: Mutex::new(()),
            out_lock: Mutex::new(()),
            slots: (0..capacity).map(|_| AtomicU64::new(0)).collect(),
            tail: AtomicI64::new(0),
            head: AtomicI64::new(0),
        }
    }

    fn length(&self) -> i64 {
        self.tail.load(Ordering::SeqCst) - self.head.load(Ordering::SeqCst)
    }

    pub fn push(&self, item: u32) -> bool {
        if self.length() >= self.slots.len() as i64 {
            return false;
        }
        let _guard = self.in_lock.lock().unwrap();
        let tail = self.tail.load(Ordering::SeqCst);
        self.slots[tail as usize % self.slots.len()].store(u64::from(item), Ordering::SeqCst);
        self.tail.store(tail + 1, Ordering::SeqCst);
        true
    }

    pub fn pop(&self) -> Option<u64> {
        if self.length() <= 0 {
            return None;
        }
        let _guard = self.out_lock.lock().unwrap();
        let head = self.head.load(Ordering::SeqCst);
        let item = self.slots[head as usize % self.slots.len()].load(Ordering::SeqCst);
        self.head.store(head + 1, Ordering::SeqCst);
        Some(item)
    }
}

/// A ring behind a lock with counts of 16 bits, and a length that need not divide 2^16.
pub struct Wrapping {
    lock: Mutex<()>,
    slots: Vec<AtomicU64>,
    tail: AtomicU16,
    head: AtomicU16,
}

impl Wrapping {
    /// Of capacity 4 it has 3 slots, of 8 it has 6.
    pub fn new(capacity: usize) -> Wrapping {
        let length = capacity - capacity / 4;
        Wrapping {
            lock: Mutex::new(()),
            slots: (0..length).map(|_| AtomicU64::new(0)).collect(),
            tail: AtomicU16::new(0),
            head: AtomicU16::new(0),
        }
    }

    pub fn push(&self, item: u32) -> bool {
        let _guard = self.lock.lock().unwrap();
        let (tail, head) = (
            self.tail.load(Ordering::Relaxed),
            self.head.load(Ordering::Relaxed),
        );
        if usize::from(tail.wrapping_sub(head)) == self.slots.len() {
            return false;
        }
        self.slots[usize::from(tail) % self.slots.len()].store(u64::from(item), Ordering::Relaxed);
        self.tail.store(tail.wrapping_add(1), Ordering::Relaxed);
        true
    }

    pub fn pop(&self) -> Option<u64> {
        let _guard = self.lock.lock().unwrap();
        let (tail, head) = (
            self.tail.load(Ordering::Relaxed),
            self.head.load(Ordering::Relaxed),
        );
        if tail == head {
            return None;
        }
        self.head.store(head.wrapping_add(1), Ordering::Relaxed);
        Some(self.slots[usize::from(head) % self.slots.len()].load(Ordering::Relaxed))
    }
}

const NIL: u64 = 0xffff_ffff;

#[derive(Default)]
struct Node {
    next: AtomicU64,
    item: AtomicU64,
}

/// Michael and Scott's queue of nodes in an array, which are used again. Without tags a link that was changed and
/// changed back is taken for unchanged.
pub struct Linked {
    has_tags: bool,
    nodes: Vec<Node>,
    spare: AtomicU64,
    head: AtomicU64,
    tail: AtomicU64,
}

impl Linked {
    pub fn new(capacity: usize, has_tags: bool) -> Linked {
        let nodes: Vec<Node> = (0..=capacity).map(|_| Node::default()).collect();
        let queue = Linked {
            has_tags,
            nodes,
            spare: AtomicU64::new(NIL),
            head: AtomicU64::new(0),
            tail: AtomicU64::new(0),
        };
        queue.nodes[0].next.store(NIL, Ordering::SeqCst);
        for node in 1..=capacity as u64 {
            queue.give_back(node);
        }
        queue
    }

    fn node(&self, link: u64) -> &Node {
        &self.nodes[(link & NIL) as usize]
    }

    /// A link to this node in place of an old one: with the next tag, or without.
    fn link(&self, to: u64, old: u64) -> u64 {
        let tag = if self.has_tags {
            (old >> 32).wrapping_add(1) << 32
        } else {
            0
        };
        (to & NIL) | tag
    }

    fn swap(&self, word: &AtomicU64, old: u64, to: u64) -> bool {
        let new = self.link(to, old);
        word.compare_exchange(old, new, Ordering::SeqCst, Ordering::SeqCst)
            .is_ok()
    }

    fn give_back(&self, node: u64) {
        loop {
            let top = self.spare.load(Ordering::SeqCst);
            let next = &self.node(node).next;
            next.store(
                self.link(top, next.load(Ordering::SeqCst)),
                Ordering::SeqCst,
            );
            if self.swap(&self.spare, top, node) {
                return;
            }
        }
    }

    fn spare_node(&self) -> Option<u64> {
        loop {
            let top = self.spare.load(Ordering::SeqCst);
            if top & NIL == NIL {
                return None;
            }
            let next = self.node(top).next.load(Ordering::SeqCst);
            if self.swap(&self.spare, top, next) {
                return Some(top & NIL);
            }
        }
    }

    pub fn push(&self, item: u32) -> bool {
        let Some(node) = self.spare_node() else {
            return false;
        };
        let (next, own) = (&self.node(node).next, &self.node(node).item);
        own.store(u64::from(item), Ordering::SeqCst);
        next.store(
            self.link(NIL, next.load(Ordering::SeqCst)),
            Ordering::SeqCst,
        );
        loop {
            let tail = self.tail.load(Ordering::SeqCst);
            let next = self.node(tail).next.load(Ordering::SeqCst);
            if tail != self.tail.load(Ordering::SeqCst) {
                continue;
            }
            if next & NIL != NIL {
                self.swap(&self.tail, tail, next);
            } else if self.swap(&self.node(tail).next, next, node) {
                self.swap(&self.tail, tail, node);
                return true;
            }
        }
    }

    pub fn pop(&self) -> Option<u64> {
        loop {
            let (head, tail) = (
                self.head.load(Ordering::SeqCst),
                self.tail.load(Ordering::SeqCst),
            );
            let next = self.node(head).next.load(Ordering::SeqCst);
            if head != self.head.load(Ordering::SeqCst) {
                continue;
            }
            if head & NIL == tail & NIL {
                if next & NIL == NIL {
                    return None;
                }
                self.swap(&self.tail, tail, next);
            } else if next & NIL != NIL {
                let item = self.node(next).item.load(Ordering::SeqCst);
                if self.swap(&self.head, head, next) {
                    self.give_back(head & NIL);
                    return Some(item);
                }
            }
        }
    }
}
