//! How a task goes through a queue of 64-bit values: it is the value itself where it fits, and else it lies in a node
//! whose address the value is.
//!
//! A worker keeps up to two batches of free nodes, and puts those of the tasks that it took there. What is more goes to
//! a pool, by the batch, from which those workers fetch that give more than they take. So there are about as many nodes
//! as tasks were ever waiting, and a worker takes a lock once in a batch of tasks at most.
use crate::ffi::Value;
use std::mem::{ManuallyDrop, MaybeUninit};
use std::ptr;
use std::sync::{Mutex, MutexGuard, PoisonError};

/// How many nodes are asked for at once, and go to the pool at once.
const BATCH: usize = 128;

/// A place for a task, or for what links free nodes.
union Node<T> {
    task: ManuallyDrop<MaybeUninit<T>>,
    free: Links<T>,
}

/// The next free node of a batch, and of the first one of a batch the next batch.
struct Links<T> {
    next: *mut Node<T>,
    next_batch: *mut Node<T>,
}

impl<T> Clone for Links<T> {
    fn clone(&self) -> Links<T> {
        *self
    }
}

impl<T> Copy for Links<T> {}

/// The free nodes of nobody, and the memory of all nodes.
struct Kept<T> {
    batches: *mut Node<T>,
    blocks: Vec<Vec<Node<T>>>,
}

/// What the workers of a run share of the nodes. With it all nodes go, and no task that still lies in one is dropped.
pub(crate) struct Pool<T>(Mutex<Kept<T>>);

// SAFETY: a node is one worker's at a time, as a task is that lies in it. A lock guards the pool.
unsafe impl<T: Send> Sync for Pool<T> {}
// SAFETY: likewise.
unsafe impl<T: Send> Send for Pool<T> {}

impl<T> Pool<T> {
    pub(crate) fn new() -> Pool<T> {
        Pool(Mutex::new(Kept {
            batches: ptr::null_mut(),
            blocks: Vec::new(),
        }))
    }

    fn lock(&self) -> MutexGuard<'_, Kept<T>> {
        self.0.lock().unwrap_or_else(PoisonError::into_inner)
    }

    /// A batch of free nodes: one of the pool, or of new memory. None where there is no memory.
    fn fetch(&self) -> Option<*mut Node<T>> {
        let mut kept = self.lock();
        if !kept.batches.is_null() {
            let batch = kept.batches;
            // SAFETY: the nodes of the pool are free, and the lock is held.
            kept.batches = unsafe { (*batch).free.next_batch };
            return Some(batch);
        }
        kept.blocks.try_reserve(1).ok()?;
        let mut block: Vec<Node<T>> = Vec::new();
        block.try_reserve_exact(BATCH).ok()?;
        // The block stays as it is until the pool goes: its nodes lie in the room after its length, which is 0.
        let first = block.as_mut_ptr();
        kept.blocks.push(block);
        drop(kept);
        let mut next = ptr::null_mut();
        for index in (0..BATCH).rev() {
            // SAFETY: the block has room for that many nodes, and nobody else knows it yet.
            let node = unsafe { first.add(index) };
            // SAFETY: likewise.
            unsafe { link(node, next) };
            next = node;
        }
        Some(first)
    }

    /// Puts a batch of free nodes into the pool.
    ///
    /// # Safety
    ///
    /// It is a whole batch of this pool's nodes, and the caller's alone.
    unsafe fn put(&self, batch: *mut Node<T>) {
        let mut kept = self.lock();
        // SAFETY: as the caller says.
        unsafe { (*batch).free.next_batch = kept.batches };
        kept.batches = batch;
    }
}

/// Makes a node a free one before `next`.
///
/// # Safety
///
/// The node is the caller's alone, and no task lies in it.
unsafe fn link<T>(node: *mut Node<T>, next: *mut Node<T>) {
    let free = Links {
        next,
        next_batch: ptr::null_mut(),
    };
    // SAFETY: as the caller says.
    unsafe { node.write(Node { free }) };
}

/// The free nodes of a worker.
pub(crate) struct Nodes<'a, T> {
    pool: &'a Pool<T>,
    /// Free nodes, fewer than a batch or as many, the one that was freed last first.
    free: *mut Node<T>,
    count: usize,
    /// A whole batch, or none.
    batch: *mut Node<T>,
}

impl<'a, T> Nodes<'a, T> {
    pub(crate) fn new(pool: &'a Pool<T>) -> Nodes<'a, T> {
        Nodes {
            pool,
            free: ptr::null_mut(),
            count: 0,
            batch: ptr::null_mut(),
        }
    }

    /// Whether a task is the value itself.
    const IS_VALUE: bool = size_of::<T>() <= size_of::<Value>();

    /// Makes a value of a task. The task comes back where there is no memory for a node.
    #[inline]
    pub(crate) fn pack(&mut self, task: T) -> Result<Value, T> {
        let mut value = Value::uninit();
        if Self::IS_VALUE {
            // SAFETY: a value has room for a task. Its other bytes, and those between the fields of the task, stay as
            // they are: nobody reads them as a number.
            unsafe { value.as_mut_ptr().cast::<T>().write_unaligned(task) };
            return Ok(value);
        }
        let Some(node) = self.take() else {
            return Err(task);
        };
        let task = ManuallyDrop::new(MaybeUninit::new(task));
        // SAFETY: the node is this worker's alone.
        unsafe { node.write(Node { task }) };
        // SAFETY: a value has room for a pointer.
        unsafe { value.as_mut_ptr().cast::<*mut Node<T>>().write(node) };
        Ok(value)
    }

    /// Moves the task of a value out.
    ///
    /// # Safety
    ///
    /// `pack` made the value, of a task of this type and with this pool, and this is done once for it.
    #[inline]
    pub(crate) unsafe fn unpack(&mut self, value: Value) -> T {
        if Self::IS_VALUE {
            // SAFETY: as the caller says, there is a task.
            return unsafe { value.as_ptr().cast::<T>().read_unaligned() };
        }
        // SAFETY: as the caller says, there is the address of a node, in which a task lies that is the caller's now.
        let node = unsafe { value.as_ptr().cast::<*mut Node<T>>().read() };
        // SAFETY: likewise.
        let task = unsafe { ptr::read((&raw const (*node).task).cast::<T>()) };
        // SAFETY: the task was moved out.
        unsafe { self.put(node) };
        task
    }

    /// A free node; none where there is no memory for one.
    #[inline]
    fn take(&mut self) -> Option<*mut Node<T>> {
        if self.free.is_null() {
            self.free = self.fetch()?;
            self.count = BATCH;
        }
        let node = self.free;
        // SAFETY: the node is a free one of this worker's.
        self.free = unsafe { (*node).free.next };
        self.count -= 1;
        Some(node)
    }

    /// A batch: the worker's own, else one of the pool.
    #[cold]
    fn fetch(&mut self) -> Option<*mut Node<T>> {
        if self.batch.is_null() {
            return self.pool.fetch();
        }
        Some(std::mem::replace(&mut self.batch, ptr::null_mut()))
    }

    /// Keeps a free node.
    ///
    /// # Safety
    ///
    /// It is a node of this pool's, the caller's alone, and no task lies in it.
    #[inline]
    unsafe fn put(&mut self, node: *mut Node<T>) {
        if self.count == BATCH {
            self.lay_down();
        }
        // SAFETY: as the caller says.
        unsafe { link(node, self.free) };
        self.free = node;
        self.count += 1;
    }

    /// Keeps the free nodes as a batch, and puts the one that was kept before into the pool.
    #[cold]
    fn lay_down(&mut self) {
        let before = std::mem::replace(&mut self.batch, self.free);
        if !before.is_null() {
            // SAFETY: it is a whole batch, and this worker's.
            unsafe { self.pool.put(before) };
        }
        self.free = ptr::null_mut();
        self.count = 0;
    }
}

#[cfg(test)]
#[path = "../../tests/unit/nodes.rs"]
mod tests;
