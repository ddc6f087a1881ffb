/* Many at once, for the proved k-FIFO queue: an array of values or items goes into the queue until that is full, and an
   array is filled from it. In the proof each value is a call of its own, and other threads may give or take between two
   of them. docs/C.md, "Many at once", says how to use these calls.

   A call looks for threads that wait once, after its last value, and wakes as many as there are values, or all where
   fewer wait. kfifo_wait.h says why no wake-up is lost after a single give: the look comes after the call, and a
   waiting thread's second look after it has announced itself. So it is here, of each value. Only the wake-up may come
   later, by as long as the other values take. A give that waits also looks before each of its waits, since those that
   make room for it may sleep until they are woken.

   A give looks before each 64 values whether the queue was finished. One that kfifo_finish meets goes on with these. */
#ifndef KFIFO_MANY_H
#define KFIFO_MANY_H

#include "kfifo.h"
#include "kfifo_wait.h"

#ifdef __cplusplus
extern "C" {
#endif

/* After gives that were done and woke nobody, as many as this: wakes a taker for each, and a giver. */
static inline void kfifo_after_gives(kfifo_waits *waits, size_t given) {
    uint32_t state = given ? kfifo_waits_state(waits) : 0;
    if (__builtin_expect(state <= KFIFO_WAITS_FINISHED, 1)) return;
    size_t takers = (state & KFIFO_WAITS_TAKERS) / KFIFO_WAITS_TAKER;
    size_t wakes = given < takers ? given : takers;
    do (void)kfifo_after_give(waits, KFIFO_DONE);
    while (wakes-- > 1);
}

/* After takes that were done and woke nobody, as many as this: wakes a giver for each. */
static inline void kfifo_after_takes(kfifo_waits *waits, size_t taken) {
    uint32_t state = taken ? kfifo_waits_state(waits) : 0;
    if (__builtin_expect(state < KFIFO_WAITS_GIVER, 1)) return;
    size_t givers = state / KFIFO_WAITS_GIVER;
    for (size_t wakes = taken < givers ? taken : givers; wakes; wakes--) (void)kfifo_after_take(waits, KFIFO_DONE);
}

/* The calls below are handed what the threads of the handle's queue wait by, so that a call of many reads it once. */

/* Returns what a give comes to of an open handle. Where it is done it wakes nobody: that comes after the last one. */
#define KFIFO_ONE_GIVE(waits, call)                                                                                    \
    if (__builtin_expect(kfifo_is_finished(waits), 0)) return KFIFO_FINISHED;                                          \
    kfifo_status status = (call);                                                                                      \
    return __builtin_expect(status == KFIFO_DONE, 1) ? status : kfifo_after_give((waits), status)

static inline kfifo_status kfifo_one_put_once(kfifo_waits *waits, kfifo_handle *handle, uint32_t item) {
    KFIFO_ONE_GIVE(waits, kfifo_bare_put(handle, item));
}

static inline kfifo_status kfifo_one_put(kfifo_waits *waits, kfifo_handle *handle, uint32_t item) {
    KFIFO_UNLESS_BUSY(handle, kfifo_one_put_once(waits, handle, item));
}

/* The exports of many make one call after the other, until one is not done. These add to `*done` how many were. */

static inline kfifo_status kfifo_bare_give_many(kfifo_handle *handle, const uint64_t *values, size_t count,
                                                size_t *done) {
    size_t more = 0;
    KFIFO_BEGIN(handle, "kfifo_give_all");
    KFIFO_BEFORE_PUT(handle);
    KFIFO_ENTER();
    kfifo_status status = KFIFO_CAST(kfifo_status, kfifo_c_give_many(handle, values + *done, count, &more));
    if (__builtin_expect(status == KFIFO_FULL, 0)) status = KFIFO_CAST(kfifo_status, kfifo_c_why_no_room(handle));
    KFIFO_LEAVE();
    KFIFO_END(handle);
    *done += more;
    return status;
}

static inline kfifo_status kfifo_bare_take_many(kfifo_handle *handle, uint64_t *values, size_t most, size_t *done) {
    size_t more = 0;
    KFIFO_BEGIN(handle, "kfifo_take_up_to");
    KFIFO_ENTER();
    kfifo_status status = KFIFO_CAST(kfifo_status, kfifo_c_take_many(handle, values + *done, most, &more));
    KFIFO_LEAVE();
    KFIFO_AFTER_TAKE(handle, more ? KFIFO_DONE : status);
    KFIFO_END(handle);
    *done += more;
    return status;
}

static inline kfifo_status kfifo_bare_put_many(kfifo_handle *handle, const uint32_t *items, size_t count,
                                               size_t *done) {
    size_t more = 0;
    KFIFO_BEGIN(handle, "kfifo_put_all");
    KFIFO_BEFORE_PUT(handle);
    kfifo_status status = KFIFO_CAST(kfifo_status, kfifo_c_put_many(handle, items + *done, count, &more));
    KFIFO_END(handle);
    *done += more;
    return status;
}

static inline kfifo_status kfifo_bare_get_many(kfifo_handle *handle, uint32_t *items, size_t most, size_t *done) {
    size_t more = 0;
    KFIFO_BEGIN(handle, "kfifo_get_up_to");
    kfifo_status status = KFIFO_CAST(kfifo_status, kfifo_c_get_many(handle, items + *done, most, &more));
    KFIFO_AFTER_TAKE(handle, more ? KFIFO_DONE : status);
    KFIFO_END(handle);
    *done += more;
    return status;
}

/* So many values at most go through an export at once. */
#define KFIFO_AT_ONCE 64

static inline size_t kfifo_at_once(size_t left) { return left < KFIFO_AT_ONCE ? left : KFIFO_AT_ONCE; }

/* The same with pointers, which go in and come out by an array of values. */
static inline kfifo_status kfifo_bare_give_pointers(kfifo_handle *handle, void *const *pointers, size_t count,
                                                    size_t *done) {
    uint64_t values[KFIFO_AT_ONCE];
    size_t given = 0;
    for (size_t i = 0; i < count; i++) values[i] = KFIFO_CAST_POINTER(uintptr_t, pointers[*done + i]);
    kfifo_status status = kfifo_bare_give_many(handle, values, count, &given);
    *done += given;
    return status;
}

static inline kfifo_status kfifo_bare_take_pointers(kfifo_handle *handle, void **pointers, size_t most, size_t *done) {
    uint64_t values[KFIFO_AT_ONCE];
    size_t taken = 0;
    kfifo_status status = kfifo_bare_take_many(handle, values, most, &taken);
    for (size_t i = 0; i < taken; i++)
        pointers[*done + i] = KFIFO_CAST_POINTER(void *, KFIFO_CAST(uintptr_t, values[i]));
    *done += taken;
    return status;
}

/* Gives the values from `*done` on, and adds to it how many gives were done. Returns DONE where it gave all, and else
   what the last give came to: that one wakes as a single one does, and the others nobody. It looks whether the queue
   was finished before each export. */
#define KFIFO_SOME_GIVES(waits, handle, values, count, done, many)                                                     \
    while (*(done) < (count)) {                                                                                        \
        if (__builtin_expect(kfifo_is_finished(waits), 0)) return KFIFO_FINISHED;                                      \
        kfifo_status status = many((handle), (values), kfifo_at_once((count) - *(done)), (done));                      \
        if (__builtin_expect(status != KFIFO_DONE, 0)) return kfifo_after_give((waits), status);                       \
    }                                                                                                                  \
    return KFIFO_DONE

/* Takes values until `*done` is `most`, and adds to it how many takes were done. Returns what the last one came to. One
   that found nothing in a queue that was finished is made once more: a value may have come between the look and the
   end. */
#define KFIFO_SOME_TAKES(waits, handle, values, most, done, many)                                                      \
    for (int was_finished = 0; *(done) < (most);) {                                                                    \
        size_t before = *(done);                                                                                       \
        kfifo_status status = many((handle), (values), kfifo_at_once((most)-before), (done));                          \
        if (__builtin_expect(status == KFIFO_DONE, 1)) continue;                                                       \
        (void)kfifo_after_take((waits), status);                                                                       \
        if (status != KFIFO_EMPTY || !kfifo_is_finished(waits)) return status;                                         \
        if (was_finished && *(done) == before) return KFIFO_FINISHED;                                                  \
        was_finished = 1;                                                                                              \
    }                                                                                                                  \
    return KFIFO_DONE

/* Such calls, and the same made again while they come to BUSY. */
#define KFIFO_SOME(name, type, macro, many)                                                                            \
    static inline kfifo_status name##_once(kfifo_waits *waits, kfifo_handle *handle, type *values, size_t count,       \
                                           size_t *done) {                                                             \
        macro(waits, handle, values, count, done, many);                                                               \
    }                                                                                                                  \
    static inline kfifo_status name(kfifo_waits *waits, kfifo_handle *handle, type *values, size_t count,              \
                                    size_t *done) {                                                                    \
        KFIFO_UNLESS_BUSY(handle, name##_once(waits, handle, values, count, done));                                    \
    }
KFIFO_SOME(kfifo_some_gives, const uint64_t, KFIFO_SOME_GIVES, kfifo_bare_give_many)
KFIFO_SOME(kfifo_some_takes, uint64_t, KFIFO_SOME_TAKES, kfifo_bare_take_many)
KFIFO_SOME(kfifo_some_pointer_gives, void *const, KFIFO_SOME_GIVES, kfifo_bare_give_pointers)
KFIFO_SOME(kfifo_some_pointer_takes, void *, KFIFO_SOME_TAKES, kfifo_bare_take_pointers)
KFIFO_SOME(kfifo_some_puts, const uint32_t, KFIFO_SOME_GIVES, kfifo_bare_put_many)
KFIFO_SOME(kfifo_some_gets, uint32_t, KFIFO_SOME_TAKES, kfifo_bare_get_many)

/* Whether each of these is an item. */
static inline int kfifo_are_items(const uint32_t *items, size_t count) {
    uint32_t bits = 0; /* 0 has all bits with the number below it, and an item that is too large has one above the 24 */
    for (size_t i = 0; i < count; i++) bits |= items[i] | (items[i] - 1);
    return bits <= KFIFO_MAX_ITEM;
}

/* Returns BAD_CALL unless each of these is an item. The export tests those that go through it at once. */
#define KFIFO_TEST_ITEMS(handle, items, count)                                                                         \
    if (((count) > KFIFO_AT_ONCE || kfifo_is_finished(KFIFO_WAITS(handle))) && !kfifo_are_items((items), (count)))     \
    return KFIFO_BAD_CALL

/* Writes 0 where a call says how many there were. Returns BAD_CALL unless it has a place for that, an open handle of
   that kind, and an array where it needs one. */
#define KFIFO_BEGIN_MANY(handle, of, array, count, many)                                                               \
    if (!(many)) return KFIFO_BAD_CALL;                                                                                \
    *(many) = 0;                                                                                                       \
    if (!KFIFO_IS_OF(handle, of) || (!(array) && (count))) return KFIFO_BAD_CALL

/* Gives all values, and wakes threads that wait for them. Returns what the last give came to. */
#define KFIFO_GIVE_EACH(handle, values, count, given, gives)                                                           \
    kfifo_waits *waits = KFIFO_WAITS(handle);                                                                          \
    size_t done = 0;                                                                                                   \
    kfifo_status status = gives(waits, (handle), (values), (count), &done);                                            \
    kfifo_after_gives(waits, done);                                                                                    \
    *(given) = done;                                                                                                   \
    return status

/* The same of takes. Returns DONE also where the last one was not, but one before. */
#define KFIFO_TAKE_EACH(handle, values, most, taken, takes)                                                            \
    kfifo_waits *waits = KFIFO_WAITS(handle);                                                                          \
    size_t done = 0;                                                                                                   \
    kfifo_status status = takes(waits, (handle), (values), (most), &done);                                             \
    kfifo_after_takes(waits, done);                                                                                    \
    *(taken) = done;                                                                                                   \
    return done ? KFIFO_DONE : status

/* Gives all values, and waits while there is no room for the next one. It wakes threads that wait for those that are
   given before each wait, and at the end. Returns what the last give came to. */
#define KFIFO_GIVE_EACH_WAIT(handle, values, count, given, gives)                                                      \
    kfifo_waits *waits = KFIFO_WAITS(handle);                                                                          \
    kfifo_waiter waiter = kfifo_waiter_of(waits, KFIFO_WAITS_GIVER, nanoseconds);                                      \
    kfifo_status status = KFIFO_DONE;                                                                                  \
    size_t done = 0, told = 0; /* how many are given, and for how many a taker was woken */                            \
    while (done < (count) && status == KFIFO_DONE) {                                                                   \
        status = gives(waits, (handle), (values), (count), &done);                                                     \
        if (__builtin_expect(kfifo_may_retry(status), 0)) {                                                            \
            kfifo_after_gives(waits, done - told);                                                                     \
            told = done;                                                                                               \
            KFIFO_WAIT_FOR(handle, waiter, status, gives(waits, (handle), (values), told + 1, &done))                  \
        }                                                                                                              \
    }                                                                                                                  \
    kfifo_after_gives(waits, done - told);                                                                             \
    *(given) = done;                                                                                                   \
    return status

/* Takes what is there, and waits for a value where there is none. Returns what the first take came to. */
#define KFIFO_TAKE_EACH_WAIT(handle, values, most, taken, takes)                                                       \
    kfifo_waits *waits = KFIFO_WAITS(handle);                                                                          \
    kfifo_waiter waiter = kfifo_waiter_of(waits, KFIFO_WAITS_TAKER, nanoseconds);                                      \
    size_t done = 0;                                                                                                   \
    kfifo_status status = takes##_once(waits, (handle), (values), (most), &done);                                      \
    if (__builtin_expect(!done && kfifo_may_retry(status), 0))                                                         \
        KFIFO_WAIT_FOR(handle, waiter, status, takes##_once(waits, (handle), (values), 1, &done))                      \
    /* It goes on where it waited, or was busy. */                                                                     \
    if (done && (status == KFIFO_DONE || status == KFIFO_BUSY)) (void)takes(waits, (handle), (values), (most), &done); \
    kfifo_after_takes(waits, done);                                                                                    \
    *(taken) = done;                                                                                                   \
    return done ? KFIFO_DONE : status

/* ---- Many values or items at once ----

   A call that gives returns DONE where all are in the queue, and else why the next one is not: FULL, NO_MEMORY of a
   queue that was to grow, FINISHED or WORN. Those from that one on stay the caller's. A call that takes returns DONE
   where it took at least one, or none was asked for, and else why it took none: EMPTY, FINISHED or WORN. Each writes
   how many there were, also 0. BAD_CALL of a null pointer or a closed handle: nothing was done. None of them waits, and
   each wakes who does. */

/* Gives the values of an array in their order, until the queue takes no more: DONE, and all are in the queue; else
   FULL, NO_MEMORY, FINISHED, WORN or BAD_CALL, and the first *given are.
   Cost: for each value some 25 instructions less than a kfifo_give, since one call of the library gives up to 64, and
   one look for threads that wait.

       size_t given = 0;
       kfifo_status gave = kfifo_give_all(&handles[0], values, 64, &given);
       if (gave != KFIFO_DONE) printf("%zu of 64 are given: %s\n", given, kfifo_status_text(gave));
*/
KFIFO_MUST_USE static inline kfifo_status kfifo_give_all(kfifo_handle *handle, const uint64_t *values, size_t count,
                                                         size_t *given) {
    KFIFO_BEGIN_MANY(handle, KFIFO_VALUES, values, count, given);
    KFIFO_GIVE_EACH(handle, values, count, given, kfifo_some_gives);
}

/* Takes values until there are `most` or the queue has no more, and writes them from values[0] on: DONE, and writes at
   least one, unless `most` is 0; else EMPTY, FINISHED, WORN or BAD_CALL. The array after the last one stays as it is.
   Cost: for each value some 25 instructions less than a kfifo_take, one more that finds none where they are fewer, and
   one look for threads that wait.

       size_t taken = 0;
       while (kfifo_take_up_to(&handles[1], values, 64, &taken) == KFIFO_DONE)
           for (size_t i = 0; i < taken; i++) sum += values[i];
*/
KFIFO_MUST_USE static inline kfifo_status kfifo_take_up_to(kfifo_handle *handle, uint64_t *values, size_t most,
                                                           size_t *taken) {
    KFIFO_BEGIN_MANY(handle, KFIFO_VALUES, values, most, taken);
    KFIFO_TAKE_EACH(handle, values, most, taken, kfifo_some_takes);
}

/* The same two with pointers for values.
   Cost: as that of the calls for values.

       if (kfifo_give_all_pointers(&handles[0], orders, 2, &given) != KFIFO_DONE) return 1;
       if (kfifo_take_pointers_up_to(&handles[1], orders, 2, &taken) != KFIFO_DONE) return 1;
*/
KFIFO_MUST_USE static inline kfifo_status kfifo_give_all_pointers(kfifo_handle *handle, void *const *pointers,
                                                                  size_t count, size_t *given) {
    KFIFO_BEGIN_MANY(handle, KFIFO_VALUES, pointers, count, given);
    KFIFO_GIVE_EACH(handle, pointers, count, given, kfifo_some_pointer_gives);
}

KFIFO_MUST_USE static inline kfifo_status kfifo_take_pointers_up_to(kfifo_handle *handle, void **pointers, size_t most,
                                                                    size_t *taken) {
    KFIFO_BEGIN_MANY(handle, KFIFO_VALUES, pointers, most, taken);
    KFIFO_TAKE_EACH(handle, pointers, most, taken, kfifo_some_pointer_takes);
}

/* Puts the items of an array in their order, until the queue takes no more: DONE, and all are in the queue; else FULL,
   FINISHED or WORN, and the first *put are. BAD_CALL, and none is put, also where one of them is not 1 to
   KFIFO_MAX_ITEM.
   Cost: for each item some 20 instructions less than a kfifo_put, as kfifo_give_all.

       size_t put = 0;
       if (kfifo_put_all(&handles[0], items, 64, &put) != KFIFO_DONE) printf("%zu of 64 are put\n", put);
*/
KFIFO_MUST_USE static inline kfifo_status kfifo_put_all(kfifo_handle *handle, const uint32_t *items, size_t count,
                                                        size_t *put) {
    KFIFO_BEGIN_MANY(handle, KFIFO_ITEMS, items, count, put);
    KFIFO_TEST_ITEMS(handle, items, count);
    KFIFO_GIVE_EACH(handle, items, count, put, kfifo_some_puts);
}

/* Takes items until there are `most` or the queue has no more, as kfifo_take_up_to does.
   Cost: for each item some 20 instructions less than a kfifo_get, as kfifo_take_up_to.

       size_t got = 0;
       while (kfifo_get_up_to(&handles[1], items, 64, &got) == KFIFO_DONE)
           for (size_t i = 0; i < got; i++) sum += items[i];
*/
KFIFO_MUST_USE static inline kfifo_status kfifo_get_up_to(kfifo_handle *handle, uint32_t *items, size_t most,
                                                          size_t *got) {
    KFIFO_BEGIN_MANY(handle, KFIFO_ITEMS, items, most, got);
    KFIFO_TAKE_EACH(handle, items, most, got, kfifo_some_gets);
}

/* ---- The same, but they wait ----

   They wait as the calls of kfifo_wait.h do: `nanoseconds` is the most time that a call waits in all. FULL, EMPTY
   and BUSY never come back. With 0 nanoseconds a call does not sleep. */

/* Gives the values of an array in their order, and waits while there is no room for the next one: DONE, and all are in
   the queue. Else TIMED_OUT, NO_MEMORY, FINISHED, WORN or BAD_CALL: the first *given are in the queue, and the others
   stay the caller's.
   Cost: as kfifo_give_all where it need not wait, and a look for threads that wait before each wait.

       kfifo_status all = kfifo_give_all_wait(&handles[0], values, 64, &given, KFIFO_FOREVER);
       if (all != KFIFO_DONE) printf("%zu of 64 are given: %s\n", given, kfifo_status_text(all));
*/
KFIFO_MUST_USE static inline kfifo_status kfifo_give_all_wait(kfifo_handle *handle, const uint64_t *values,
                                                              size_t count, size_t *given, uint64_t nanoseconds) {
    KFIFO_BEGIN_MANY(handle, KFIFO_VALUES, values, count, given);
    KFIFO_GIVE_EACH_WAIT(handle, values, count, given, kfifo_some_gives_once);
}

/* Waits for a value, and then takes what is there, `most` values at most: DONE, and writes at least one, unless `most`
   is 0. Else TIMED_OUT, FINISHED, WORN or BAD_CALL, and none was taken.
   Cost: as kfifo_take_up_to where it need not wait.

       while (kfifo_take_up_to_wait(&handles[1], values, 64, &taken, KFIFO_FOREVER) == KFIFO_DONE)
           for (size_t i = 0; i < taken; i++) sum += values[i];
*/
KFIFO_MUST_USE static inline kfifo_status kfifo_take_up_to_wait(kfifo_handle *handle, uint64_t *values, size_t most,
                                                                size_t *taken, uint64_t nanoseconds) {
    KFIFO_BEGIN_MANY(handle, KFIFO_VALUES, values, most, taken);
    KFIFO_TAKE_EACH_WAIT(handle, values, most, taken, kfifo_some_takes);
}

/* The same two with pointers for values.
   Cost: as that of the calls for values.

       if (kfifo_give_all_pointers_wait(&handles[0], orders, 2, &given, 1000000) != KFIFO_DONE) return 1;
       if (kfifo_take_pointers_up_to_wait(&handles[1], orders, 2, &taken, 1000000) != KFIFO_DONE) return 1;
*/
KFIFO_MUST_USE static inline kfifo_status kfifo_give_all_pointers_wait(kfifo_handle *handle, void *const *pointers,
                                                                       size_t count, size_t *given,
                                                                       uint64_t nanoseconds) {
    KFIFO_BEGIN_MANY(handle, KFIFO_VALUES, pointers, count, given);
    KFIFO_GIVE_EACH_WAIT(handle, pointers, count, given, kfifo_some_pointer_gives_once);
}

KFIFO_MUST_USE static inline kfifo_status kfifo_take_pointers_up_to_wait(kfifo_handle *handle, void **pointers,
                                                                         size_t most, size_t *taken,
                                                                         uint64_t nanoseconds) {
    KFIFO_BEGIN_MANY(handle, KFIFO_VALUES, pointers, most, taken);
    KFIFO_TAKE_EACH_WAIT(handle, pointers, most, taken, kfifo_some_pointer_takes);
}

/* Puts the items of an array, and waits while there is no room for the next one, as kfifo_give_all_wait does. BAD_CALL,
   and none is put, also where one of them is not 1 to KFIFO_MAX_ITEM.
   Cost: as kfifo_put_all where it need not wait, and a look for threads that wait before each wait.

       if (kfifo_put_all_wait(&handles[0], items, 64, &put, KFIFO_FOREVER) != KFIFO_DONE) return 1;
*/
KFIFO_MUST_USE static inline kfifo_status kfifo_put_all_wait(kfifo_handle *handle, const uint32_t *items, size_t count,
                                                             size_t *put, uint64_t nanoseconds) {
    KFIFO_BEGIN_MANY(handle, KFIFO_ITEMS, items, count, put);
    KFIFO_TEST_ITEMS(handle, items, count);
    KFIFO_GIVE_EACH_WAIT(handle, items, count, put, kfifo_some_puts_once);
}

/* Waits for an item, and then takes what is there, as kfifo_take_up_to_wait does.
   Cost: as kfifo_get_up_to where it need not wait.

       while (kfifo_get_up_to_wait(&handles[1], items, 64, &got, KFIFO_FOREVER) == KFIFO_DONE)
           for (size_t i = 0; i < got; i++) sum += items[i];
*/
KFIFO_MUST_USE static inline kfifo_status kfifo_get_up_to_wait(kfifo_handle *handle, uint32_t *items, size_t most,
                                                               size_t *got, uint64_t nanoseconds) {
    KFIFO_BEGIN_MANY(handle, KFIFO_ITEMS, items, most, got);
    KFIFO_TAKE_EACH_WAIT(handle, items, most, got, kfifo_some_gets);
}

#ifdef __cplusplus
}
#endif

#endif
