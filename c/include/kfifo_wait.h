/* Threads that wait, for the proved k-FIFO queue: takes that sleep until a value comes, gives that sleep until there is
   room, time limits, and an end that all threads see. docs/C.md, "Threads that wait", says how to use them. For Linux.

   How it works. Each queue has a kfifo_waits (kfifo.h), which is an event count: a word with the number of takers and
   of givers that wait, and for each side a word that changes whenever one of them is woken. A taker that finds EMPTY
   looks for 5 microseconds more, with pauses, since a wake-up costs as much. Then it announces itself in the first
   word, reads the second, and looks once more. Only if that look finds EMPTY too does it sleep, by Linux's futex, which
   lets it sleep only while the second word is what it read. A giver looks at the first word after its call. If takers
   wait, it changes the second word and wakes one.

   Why no wake-up is lost. All these steps are sequentially consistent, as are the steps of the queue, so they stand in
   one order. Say a give is done, and a taker's second look returns EMPTY.

   1. If the giver's look at the first word comes after the announcement, the giver sees it, and changes the second word
      after its call. If the taker read that word before, it does not fall asleep, or is woken. If it read it
      afterwards, its second look begins after the give had ended.
   2. If the giver's look comes before the announcement, the second look begins after the give had ended, too.
   3. A take that begins after a give has ended returns EMPTY only if the value was already taken: by proof EMPTY comes
      only of a queue that was empty within the call. So nobody need be woken. In a queue of values this is proved of
      each generation; that EMPTY comes only where all are empty is argued and tested. BUSY comes where a new one was
      opened meanwhile.

   A look before the call, a word that is read after the second look, or no second look would break this. So would
   acquire and release alone: the giver's look and the taker's second look could then both miss.

   Givers that find FULL sleep in the same way, and takes wake them. A put finds FULL by an item in the segment that
   gets empty. Either a get removes that item and then looks for givers, or the put that brought it takes it back, and
   that one looks for givers when it ends. One get may make room for several givers, and the giver that it wakes may
   find its room gone. So a put that was done wakes the next giver too, and a call that gives up after BUSY hands its
   wake-up on.

   A give or a reserve finds FULL where no token or cell is free. A take, a release or a cancel frees one and then looks
   for givers, and wakes one. That one may find none, since a handle keeps some of those that it frees. So it looks for
   5 microseconds again before it sleeps. When a handle lays a batch of them into the pool, that call wakes a giver too.
   The giver that takes the batch wakes the next one when its give is done, or its reserve, so while the pool has tokens
   a giver is on its way to them.

   Takes come faster than a giver wakes up, and each would make a call of the system meanwhile. So who wakes a giver
   notes it in a third word, and while that is noted others only count on, and every sixteenth wakes one more. A giver
   removes the note each time before it looks: as it announces itself, after it has read the second word, and when it no
   longer sleeps. The note comes before the change of the second word. So while it stands, a giver that was woken has
   yet to look, or the one who wakes it has yet to change the second word. That giver sees all room that was made
   meanwhile, and wakes the next one.

   test_wait_model.cpp goes through all interleavings of three threads in a model of these steps. */
#ifndef KFIFO_WAIT_H
#define KFIFO_WAIT_H

#include "kfifo.h"

#ifdef __cplusplus
extern "C" {
#endif

/* A time that never ends. Times are in nanoseconds; one that reaches beyond the clock is for ever too. */
#define KFIFO_FOREVER UINT64_MAX

/* A call that waits, between two looks at the queue. One that gives many waits once for each value without room. */
typedef struct kfifo_waiter {
    kfifo_waits *waits;
    uint64_t nanoseconds;
    uint64_t deadline; /* 0 until the first wait begins */
    uint64_t spins_until;
    uint32_t kind; /* KFIFO_WAITS_TAKER or KFIFO_WAITS_GIVER */
    uint32_t seen; /* the word that the thread would sleep on, as it was before the latest look */
    uint32_t pauses;
    unsigned char has_begun, is_announced, was_announced;
} kfifo_waiter;

/* The exports of the library. Call those below. */
int kfifo_wait_again(kfifo_waiter *waiter, kfifo_status *status);

static inline kfifo_waiter kfifo_waiter_of(kfifo_waits *waits, uint32_t kind, uint64_t nanoseconds) {
    kfifo_waiter waiter = {waits, nanoseconds, 0, 0, kind, 0, 1, 0, 0, 0};
    return waiter;
}

/* Waits, and says whether to look again. With KFIFO_DEBUG the handle is in a call meanwhile. */
#ifdef KFIFO_DEBUG
static inline int kfifo_wait_again_by(kfifo_handle *handle, kfifo_waiter *waiter, kfifo_status *status,
                                      const char *call) {
    kfifo_begin(handle, KFIFO_MARK_CALL, call);
    int again = kfifo_wait_again(waiter, status);
    kfifo_end(handle, KFIFO_MARK_CALL);
    return again;
}
#define KFIFO_WAIT_AGAIN(handle, waiter, status)                                                                       \
    ((handle) && kfifo_wait_again_by((handle), (waiter), (status), __func__))
#else
#define KFIFO_WAIT_AGAIN(handle, waiter, status) kfifo_wait_again((waiter), (status))
#endif

/* Whether a call that came to this cannot do better, since the caller is alone: it makes the call once more, since
   something may have come before the others went. */
static inline int kfifo_may_be_over(kfifo_waits *waits, kfifo_status status) {
    return kfifo_may_retry(status) && status != KFIFO_BUSY && kfifo_is_alone(waits);
}

/* Waits while a call that came to `status` may do better, and makes it again: `status` is then what it came to last,
   FINISHED where nobody else is left. One waiter may be used for several waits, whose time is one. */
#define KFIFO_WAIT_FOR(handle, waiter, status, call)                                                                   \
    for (int again = 1; again;) {                                                                                      \
        if (kfifo_may_be_over((waiter).waits, status)) {                                                               \
            status = (call);                                                                                           \
            if (kfifo_may_retry(status) && status != KFIFO_BUSY) status = KFIFO_FINISHED;                              \
        }                                                                                                              \
        again = KFIFO_WAIT_AGAIN(handle, &(waiter), &status);                                                          \
        if (again) status = (call);                                                                                    \
    }

/* Returns what a call comes to that is made again while it may do better. */
#define KFIFO_WAITING(handle, kind, call)                                                                              \
    kfifo_status status = (call);                                                                                      \
    if (__builtin_expect(!kfifo_may_retry(status), 1)) return status;                                                  \
    kfifo_waiter waiter = kfifo_waiter_of(KFIFO_WAITS(handle), (kind), nanoseconds);                                   \
    KFIFO_WAIT_FOR(handle, waiter, status, call)                                                                       \
    return status

/* ---- Values ----

   A call that waits never returns FULL, EMPTY or BUSY. After any status but DONE nothing was given or taken. FINISHED
   comes too where no other handle of the queue is open. With 0 nanoseconds a call looks once and does not sleep. A call
   that need not wait costs as much as one of kfifo.h; one that sleeps makes a call of the system, and so does the one
   that wakes it. After WORN call kfifo_finish, so that the others end too, and then close the queue. */

/* Gives a value, and waits at most `nanoseconds` while there is no room for it: DONE; else TIMED_OUT, NO_MEMORY of a
   queue that was to grow, FINISHED, WORN or BAD_CALL.
   Cost: as kfifo_give where it need not wait.

       if (kfifo_give_wait(&handles[0], 7, KFIFO_FOREVER) != KFIFO_DONE) return 1;
*/
KFIFO_MUST_USE static inline kfifo_status kfifo_give_wait(kfifo_handle *handle, uint64_t value, uint64_t nanoseconds) {
    KFIFO_WAITING(handle, KFIFO_WAITS_GIVER, kfifo_give_once(handle, value));
}

/* Takes a value, and waits at most `nanoseconds` while there is none: DONE; else TIMED_OUT, FINISHED, WORN or BAD_CALL.
   FINISHED says that the queue was finished, or no other handle was open, and that it was then found empty.
   Cost: as kfifo_take where it need not wait.

       while (kfifo_take_wait(&handles[1], &value, KFIFO_FOREVER) == KFIFO_DONE) sum += value;
*/
KFIFO_MUST_USE static inline kfifo_status kfifo_take_wait(kfifo_handle *handle, uint64_t *value, uint64_t nanoseconds) {
    KFIFO_WAITING(handle, KFIFO_WAITS_TAKER, kfifo_take_once(handle, value));
}

/* The same with a pointer for a value.
   Cost: as that of the calls for values.

       if (kfifo_give_pointer_wait(&handles[0], order, 1000000) == KFIFO_TIMED_OUT) free(order); // it is still ours
       if (kfifo_take_pointer_wait(&handles[1], &taken, 1000000) == KFIFO_DONE) free(taken);
*/
KFIFO_MUST_USE static inline kfifo_status kfifo_give_pointer_wait(kfifo_handle *handle, void *pointer,
                                                                  uint64_t nanoseconds) {
    return kfifo_give_wait(handle, KFIFO_CAST_POINTER(uintptr_t, pointer), nanoseconds);
}

KFIFO_MUST_USE static inline kfifo_status kfifo_take_pointer_wait(kfifo_handle *handle, void **pointer,
                                                                  uint64_t nanoseconds) {
    uint64_t value;
    if (!pointer) return KFIFO_BAD_CALL;
    kfifo_status status = kfifo_take_wait(handle, &value, nanoseconds);
    if (status == KFIFO_DONE) *pointer = KFIFO_CAST_POINTER(void *, KFIFO_CAST(uintptr_t, value));
    return status;
}

/* ---- Cells: the same. After any but DONE the cell that was reserved still is ---- */

/* Reserves a cell, and waits at most `nanoseconds` while there is none: DONE; else TIMED_OUT, NO_MEMORY of a queue that
   was to grow, FINISHED or BAD_CALL.
   Cost: as kfifo_reserve where it need not wait.

       if (kfifo_reserve_wait(&handles[0], &cell, KFIFO_FOREVER) != KFIFO_DONE) return 1;
*/
KFIFO_MUST_USE static inline kfifo_status kfifo_reserve_wait(kfifo_handle *handle, void **cell, uint64_t nanoseconds) {
    KFIFO_WAITING(handle, KFIFO_WAITS_GIVER, kfifo_reserve(handle, cell));
}

/* Puts the reserved cell into the queue, and waits at most `nanoseconds` while there is no room for it: DONE; else
   TIMED_OUT, NO_MEMORY of a queue that was to grow, FINISHED, WORN or BAD_CALL.
   Cost: as kfifo_publish where it need not wait.

       if (kfifo_publish_wait(&handles[0], KFIFO_FOREVER) != KFIFO_DONE) return 1;
*/
KFIFO_MUST_USE static inline kfifo_status kfifo_publish_wait(kfifo_handle *handle, uint64_t nanoseconds) {
    KFIFO_WAITING(handle, KFIFO_WAITS_GIVER, kfifo_publish_once(handle));
}

/* Takes a cell, and waits at most `nanoseconds` while there is none: DONE; else TIMED_OUT, FINISHED, WORN or BAD_CALL,
   as kfifo_take_wait. The call first releases the cell that the handle received before.
   Cost: as kfifo_receive where it need not wait.

       if (kfifo_receive_wait(&handles[1], &cell, KFIFO_FOREVER) != KFIFO_DONE) return 1;
*/
KFIFO_MUST_USE static inline kfifo_status kfifo_receive_wait(kfifo_handle *handle, void **cell, uint64_t nanoseconds) {
    KFIFO_WAITING(handle, KFIFO_WAITS_TAKER, kfifo_receive_once(handle, cell));
}

/* ---- Items: the same ---- */

/* Puts an item, and takes one, and waits at most `nanoseconds` while there is no room or no item: DONE; else TIMED_OUT,
   FINISHED, WORN or BAD_CALL.
   Cost: as kfifo_put and kfifo_get where they need not wait.

       if (kfifo_put_wait(&handles[0], 7, KFIFO_FOREVER) != KFIFO_DONE) return 1;
       if (kfifo_get_wait(&handles[1], &item, KFIFO_FOREVER) != KFIFO_DONE) return 1;
*/
KFIFO_MUST_USE static inline kfifo_status kfifo_put_wait(kfifo_handle *handle, uint32_t item, uint64_t nanoseconds) {
    KFIFO_WAITING(handle, KFIFO_WAITS_GIVER, kfifo_put_once(handle, item));
}

KFIFO_MUST_USE static inline kfifo_status kfifo_get_wait(kfifo_handle *handle, uint32_t *item, uint64_t nanoseconds) {
    KFIFO_WAITING(handle, KFIFO_WAITS_TAKER, kfifo_get_once(handle, item));
}

#ifdef __cplusplus
}
#endif

#endif
