//! crossbeam's ArrayQueue and channel behind C calls, so that one program measures all queues with the same loops.
use crossbeam_queue::ArrayQueue;

#[no_mangle]
pub extern "C" fn array_queue_new(capacity: usize) -> *mut ArrayQueue<u32> {
    Box::into_raw(Box::new(ArrayQueue::new(capacity)))
}

/// # Safety
/// The queue is one of `array_queue_new` that was not freed.
#[no_mangle]
pub unsafe extern "C" fn array_queue_push(queue: *const ArrayQueue<u32>, item: u32) -> bool {
    (*queue).push(item).is_ok()
}

/// # Safety
/// As of `array_queue_push`. Items are not 0, which says that there is none.
#[no_mangle]
pub unsafe extern "C" fn array_queue_pop(queue: *const ArrayQueue<u32>) -> u32 {
    (*queue).pop().unwrap_or(0)
}

/// # Safety
/// As of `array_queue_push`; nobody uses the queue any more.
#[no_mangle]
pub unsafe extern "C" fn array_queue_free(queue: *mut ArrayQueue<u32>) {
    drop(Box::from_raw(queue));
}

/// The C calls of an ArrayQueue of values of so many 64-bit words, which go in and out by pointers.
macro_rules! array_of_values {
    ($words:literal, $new:ident, $push:ident, $pop:ident, $free:ident) => {
        #[no_mangle]
        pub extern "C" fn $new(capacity: usize) -> *mut ArrayQueue<[u64; $words]> {
            Box::into_raw(Box::new(ArrayQueue::new(capacity)))
        }

        /// # Safety
        /// The queue is one of the call above that was not freed, and there is a value to read.
        #[no_mangle]
        pub unsafe extern "C" fn $push(queue: *const ArrayQueue<[u64; $words]>, value: *const [u64; $words]) -> bool {
            (*queue).push(*value).is_ok()
        }

        /// # Safety
        /// As of the push, and there is room for a value.
        #[no_mangle]
        pub unsafe extern "C" fn $pop(queue: *const ArrayQueue<[u64; $words]>, value: *mut [u64; $words]) -> bool {
            match (*queue).pop() {
                Some(popped) => {
                    *value = popped;
                    true
                }
                None => false,
            }
        }

        /// # Safety
        /// As of the push; nobody uses the queue any more.
        #[no_mangle]
        pub unsafe extern "C" fn $free(queue: *mut ArrayQueue<[u64; $words]>) {
            drop(Box::from_raw(queue));
        }
    };
}

array_of_values!(1, array_8_new, array_8_push, array_8_pop, array_8_free);
array_of_values!(2, array_16_new, array_16_push, array_16_pop, array_16_free);
array_of_values!(8, array_64_new, array_64_push, array_64_pop, array_64_free);

/// Both ends of a bounded channel of crossbeam's, of values of two 64-bit words.
pub struct Channel(crossbeam_channel::Sender<[u64; 2]>, crossbeam_channel::Receiver<[u64; 2]>);

#[no_mangle]
pub extern "C" fn channel_new(capacity: usize) -> *mut Channel {
    let (sender, receiver) = crossbeam_channel::bounded(capacity);
    Box::into_raw(Box::new(Channel(sender, receiver)))
}

/// # Safety
/// The channel is one of `channel_new` that was not freed, and there is a value to read.
#[no_mangle]
pub unsafe extern "C" fn channel_send(channel: *const Channel, value: *const [u64; 2]) -> bool {
    (*channel).0.send(*value).is_ok()
}

/// # Safety
/// As of `channel_send`, and there is room for a value. It is written where one came.
#[no_mangle]
pub unsafe extern "C" fn channel_receive(channel: *const Channel, value: *mut [u64; 2]) -> bool {
    match (*channel).1.recv() {
        Ok(received) => {
            *value = received;
            true
        }
        Err(_) => false,
    }
}

/// # Safety
/// As of `channel_send`. Returns false where the channel is full.
#[no_mangle]
pub unsafe extern "C" fn channel_try_send(channel: *const Channel, value: *const [u64; 2]) -> bool {
    (*channel).0.try_send(*value).is_ok()
}

/// # Safety
/// As of `channel_receive`. Returns false where the channel is empty.
#[no_mangle]
pub unsafe extern "C" fn channel_try_receive(channel: *const Channel, value: *mut [u64; 2]) -> bool {
    match (*channel).1.try_recv() {
        Ok(received) => {
            *value = received;
            true
        }
        Err(_) => false,
    }
}

/// # Safety
/// As of `channel_send`; nobody uses the channel any more.
#[no_mangle]
pub unsafe extern "C" fn channel_free(channel: *mut Channel) {
    drop(Box::from_raw(channel));
}
