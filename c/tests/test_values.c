/* A queue of values: 1, 2 and 4 producers and as many consumers, and each value comes out once; each refusal comes at
   its cause. */
#include "kfifo.h"
#include <pthread.h>
#include <sched.h>
#include <stdatomic.h>
#include <stdio.h>
#include <stdlib.h>
#include <string.h>

/* How many values each producer gives. */
#ifdef FEWER
#define EACH 10000
#else
#define EACH 1000000
#endif
enum { MOST = 4, K = 16, CAPACITY = 1000 };

static int failed;

static void expect(uint64_t is, uint64_t wanted, const char *what) {
    if (is != wanted) {
        fprintf(stderr, "%s: %llu, and not %llu\n", what, (unsigned long long)is, (unsigned long long)wanted);
        failed = 1;
    }
}

/* Ends the test: what a call answered will not change. */
static void stopped(kfifo_status status) {
    fprintf(stderr, "a thread stops: %s\n", kfifo_status_text(status));
    exit(1);
}

struct side {
    kfifo_handle *handle;
    uint64_t number, count;
};

static unsigned char *out;       /* how often each value came out */
static atomic_uint still_giving; /* producers that have not ended */

/* A value has its producer above bit 40, so that it does not fit in 32 bits. */
static uint64_t value_of(uint64_t producer, uint64_t index) { return (producer + 1) << 40 | index; }

static void *produce(void *argument) {
    struct side *self = argument;
    for (uint64_t i = 0; i < EACH;) {
        kfifo_status status = kfifo_give(self->handle, value_of(self->number, i));
        if (status == KFIFO_DONE) {
            self->count++;
            i++;
        } else if (status == KFIFO_FULL) {
            sched_yield();
        } else {
            stopped(status);
        }
    }
    atomic_fetch_sub(&still_giving, 1);
    return NULL;
}

static void *consume(void *argument) {
    struct side *self = argument;
    for (;;) {
        int last = atomic_load(&still_giving) == 0;
        uint64_t value = 0;
        kfifo_status status = kfifo_take(self->handle, &value);
        if (status == KFIFO_DONE) {
            out[((value >> 40) - 1) * EACH + (value & 0xffffffffff)]++;
            self->count++;
        } else if (status == KFIFO_EMPTY && last) {
            return NULL;
        } else if (status == KFIFO_EMPTY || status == KFIFO_BUSY) {
            sched_yield();
        } else {
            stopped(status);
        }
    }
}

static void run(uint32_t pairs) {
    static kfifo_handle handles[2 * MOST];
    struct side sides[2 * MOST];
    pthread_t ids[2 * MOST];
    uint64_t given = 0, taken = 0, wrong = 0;
    out = calloc((size_t)pairs * EACH, 1);
    atomic_store(&still_giving, pairs);
    expect(kfifo_open_values(K, CAPACITY, handles, 2 * pairs), KFIFO_DONE, "open");
    for (uint32_t i = 0; i < 2 * pairs; i++) {
        sides[i] = (struct side){.handle = &handles[i], .number = i % pairs};
        if (!out || pthread_create(&ids[i], NULL, i < pairs ? produce : consume, &sides[i])) abort();
    }
    for (uint32_t i = 0; i < 2 * pairs; i++) {
        pthread_join(ids[i], NULL);
        *(i < pairs ? &given : &taken) += sides[i].count;
    }
    for (uint64_t i = 0; i < (uint64_t)pairs * EACH; i++) wrong += out[i] != 1;
    expect(given, (uint64_t)pairs * EACH, "values given");
    expect(taken, given, "values taken");
    expect(wrong, 0, "values that did not come out once");
    free(out);

    /* What is given now is what a close gives back. */
    size_t count = 77, room = kfifo_values_room(handles, 2 * pairs);
    uint64_t *left = malloc(room * sizeof *left);
    if (!left) abort();
    expect(room > CAPACITY, 1, "the room of a close");
    for (uint32_t i = 0; i < 2 * pairs; i++)
        expect(kfifo_give(&handles[i], UINT64_MAX - i), KFIFO_DONE, "a value to be left");
    expect(kfifo_close_values(handles, 2 * pairs, left, room - 1, &count), KFIFO_BAD_CALL, "too little room");
    expect(kfifo_close_values(handles, 2 * pairs - 1, left, room, &count), KFIFO_BAD_CALL, "a missing handle");
    expect(count, 77, "the count of a close that did nothing");
    expect(kfifo_close_values(handles, 2 * pairs, left, room, &count), KFIFO_DONE, "close");
    expect(count, 2 * pairs, "values left");
    uint64_t seen = 0;
    for (size_t i = 0; i < count; i++) seen |= UINT64_C(1) << (UINT64_MAX - left[i]);
    expect(seen, (UINT64_C(1) << (2 * pairs)) - 1, "which values are left");
    expect(kfifo_give(&handles[0], 1), KFIFO_BAD_CALL, "a closed handle");
    expect(kfifo_take(&handles[0], &left[0]), KFIFO_BAD_CALL, "a closed handle of a take");
    free(left);
}

/* One thread gives and another takes. The queue has room for its capacity, whatever the taker keeps. */
static void capacity(void) {
    kfifo_handle two[2];
    uint64_t value = 77;
    expect(kfifo_open_values(4, 6, two, 2), KFIFO_DONE, "open for its capacity");
    for (uint64_t round = 0; round < 1000; round++) {
        for (uint64_t i = 0; i < 6; i++) expect(kfifo_give(&two[0], round), KFIFO_DONE, "a give up to the capacity");
        for (uint64_t i = 0; i < 6; i++) expect(kfifo_take(&two[1], &value), KFIFO_DONE, "a take");
        expect(value, round, "the value that was given");
    }
    value = 77;
    expect(kfifo_take(&two[1], &value), KFIFO_EMPTY, "an empty queue");
    expect(value, 77, "the value of a take that got none");
    uint64_t given = 0;
    kfifo_status status = KFIFO_DONE;
    while ((status = kfifo_give(&two[0], given)) == KFIFO_DONE) given++;
    expect(status, KFIFO_FULL, "a give to a full queue");
    expect(6 <= given && given <= 6 + 2 * 32, 1, "how many values are in a full queue");
    expect(kfifo_abandon(two, 2), KFIFO_DONE, "abandon");
}

/* More handles than a queue has: as of a queue of items. The array is on the heap and has just 64 handles. */
static void too_many_threads(void) {
    static const size_t counts[] = {65, 200, SIZE_MAX};
    enum { THREADS = 64 };
    kfifo_handle *all = malloc(THREADS * sizeof *all);
    uint64_t left[2] = {0}, value = 0;
    size_t count = 77;
    if (!all) abort();
    for (size_t i = 0; i < sizeof counts / sizeof counts[0]; i++) {
        memset(all, 0xff, THREADS * sizeof *all);
        expect(kfifo_open_values(4, 64, all, counts[i]), KFIFO_BAD_THREADS, "an open for too many threads");
        expect(kfifo_give(&all[0], 1), KFIFO_BAD_CALL, "the first handle of an open for too many threads");
        expect(kfifo_give(&all[THREADS - 1], 1), KFIFO_BAD_CALL, "the last handle of an open for too many threads");
        expect(kfifo_open_values(4, 64, all, THREADS), KFIFO_DONE, "an open for 64 threads");
        expect(kfifo_give(&all[0], 5), KFIFO_DONE, "a value");
        expect(kfifo_close_values(all, counts[i], left, 2, &count), KFIFO_BAD_THREADS, "a close by too many handles");
        expect(count, 77, "the count of a close by too many handles");
        expect(kfifo_abandon(all, counts[i]), KFIFO_BAD_THREADS, "an abandon of too many handles");
        expect(kfifo_take(&all[THREADS - 1], &value), KFIFO_DONE, "a take after calls with too many handles");
        expect(kfifo_abandon(all, THREADS), KFIFO_DONE, "an abandon of 64 handles");
        expect(kfifo_give(&all[THREADS - 1], 1), KFIFO_BAD_CALL, "an abandoned handle");
    }
    free(all);
}

/* Fifty queues at once: all handles of one have one address, and no two have the same. */
static void addresses(void) {
    enum { QUEUES = 50 };
    static kfifo_handle all[QUEUES][2];
    for (int i = 0; i < QUEUES; i++) {
        expect(kfifo_open_values(2, 4, all[i], 2), KFIFO_DONE, "open one of fifty");
        expect(all[i][0].address == all[i][1].address, 1, "the address of a queue's handles");
        for (int j = 0; j < i; j++) expect(all[i][0].address != all[j][1].address, 1, "the addresses of two queues");
    }
    for (int i = 0; i < QUEUES; i++) expect(kfifo_abandon(all[i], 2), KFIFO_DONE, "abandon");
}

static void refusals(void) {
    static kfifo_handle one, many[65];
    enum { LEFT = 1 << 13 };
    static uint64_t left[LEFT];
    uint64_t value = 77;
    void *pointer = &value;
    size_t count = 77;
    const uint64_t most = KFIFO_LAST, reserve = KFIFO_RESERVE;
    expect(kfifo_open_values(0, 0, NULL, 0), KFIFO_BAD_CALL, "no handles");
    expect(kfifo_open_values_with(0, 0, 1, most, 0, NULL, 65), KFIFO_BAD_CALL, "no handles with versions");
    expect(kfifo_open_values_with(0, 0, 1, most, 0, many, 0), KFIFO_BAD_THREADS, "threads 0");
    expect(kfifo_open_values_with(0, 0, 1, most, 0, many, 65), KFIFO_BAD_THREADS, "threads 65");
    expect(kfifo_open_values_with(0, 0, 1, most, 0, &one, 1), KFIFO_BAD_K, "k 0");
    expect(kfifo_open_values_with(65, 0, 1, most, 0, &one, 1), KFIFO_BAD_K, "k 65");
    expect(kfifo_open_values_with(1, 0, 1, most, 0, &one, 1), KFIFO_BAD_LAST, "the greatest version 1");
    expect(kfifo_open_values_with(1, 0, most + 1, most, 0, &one, 1), KFIFO_BAD_LAST, "the greatest version 2^40");
    expect(kfifo_open_values_with(1, 0, most, most, 0, &one, 1), KFIFO_BAD_CAPACITY, "capacity 0");
    expect(kfifo_open_values_with(1, 991, most, most, 0, &one, 1), KFIFO_BAD_CAPACITY, "capacity 991");
    expect(kfifo_open_values_with(1, UINT32_MAX, most, most, 0, &one, 1), KFIFO_BAD_CAPACITY, "a capacity of 2^32 - 1");
    expect(kfifo_open_values_with(1, 1, most, most, 0, many, 31), KFIFO_BAD_CAPACITY, "k = 1 with 31 handles");
    expect(kfifo_open_values_with(1, 990, 8, 8, 0, &one, 1), KFIFO_BAD_RESERVE, "a reserve of all versions");
    expect(kfifo_open_values_with(1, 990, 8, UINT64_MAX, 0, &one, 1), KFIFO_BAD_RESERVE, "a reserve beyond them");
    expect(kfifo_open_values_with(1, 990, most, reserve, 0, &one, 1), KFIFO_BAD_CALL, "no generation");
    expect(kfifo_open_values_with(1, 990, most, reserve, 128, &one, 1), KFIFO_BAD_CALL, "too many generations");
    expect(kfifo_values_room(NULL, 1), 0, "room of no handles");
    expect(kfifo_values_room(&one, 1), 0, "room of a closed handle");
    expect(kfifo_values_room(many, 65), 0, "room of too many handles");
    expect(kfifo_give(&one, 1), KFIFO_BAD_CALL, "a handle that a refused open left");
    expect(kfifo_open_values(1, 990, &one, 1), KFIFO_DONE, "the greatest capacity");
    expect(kfifo_abandon(&one, 1), KFIFO_DONE, "abandon");
    expect(kfifo_open_values(1, 2, &one, 1), KFIFO_DONE, "open");
    expect(kfifo_give(NULL, 1), KFIFO_BAD_CALL, "no handle");
    expect(kfifo_take(&one, NULL), KFIFO_BAD_CALL, "no value");
    expect(kfifo_take(NULL, &value), KFIFO_BAD_CALL, "no handle to take by");
    expect(kfifo_give(&one, 0), KFIFO_DONE, "value 0");
    expect(kfifo_give_pointer(&one, &value), KFIFO_DONE, "a pointer");
    expect(kfifo_take(&one, &value), KFIFO_DONE, "got");
    expect(value, 0, "the first value");
    expect(kfifo_values_room(&one, 1) >= 2, 1, "room of a queue of one thread");
    expect(kfifo_values_room(&one, 0), 0, "room of none of the handles");
    expect(kfifo_take_pointer(&one, NULL), KFIFO_BAD_CALL, "no pointer");
    expect(kfifo_take_pointer(&one, &pointer), KFIFO_DONE, "the pointer");
    expect(pointer == &value, 1, "which pointer");
    expect(kfifo_close_values(NULL, 1, left, 2, &count), KFIFO_BAD_CALL, "no handles to close");
    expect(kfifo_close_values(&one, 1, NULL, 2, &count), KFIFO_BAD_CALL, "no values");
    expect(kfifo_close_values(&one, 1, left, 2, NULL), KFIFO_BAD_CALL, "no count");
    expect(kfifo_close_values(&one, 0, left, 2, &count), KFIFO_BAD_CALL, "a close by no handle");
    expect(kfifo_abandon(NULL, 1), KFIFO_BAD_CALL, "no handles to abandon");
    expect(kfifo_abandon(&one, 1), KFIFO_DONE, "abandon");
    expect(kfifo_abandon(&one, 1), KFIFO_DONE, "abandon again");
    expect(kfifo_open_values(3, 2, many, 64), KFIFO_DONE, "64 threads");
    expect(kfifo_give(&many[63], 5), KFIFO_DONE, "the last thread gives");
    expect(kfifo_values_room(many, 64) <= LEFT, 1, "room of 64 threads");
    expect(kfifo_values_room(many, 63), 0, "room of 63 of 64 threads");
    expect(kfifo_close_values(many, 63, left, LEFT, &count), KFIFO_BAD_CALL, "a close by 63 of 64");
    expect(kfifo_close_values(many, 64, left, LEFT, &count), KFIFO_DONE, "close 64");
    expect(count, 1, "values left of 64 threads");
    expect(left[0], 5, "the value left of 64 threads");
}

/* A queue whose versions are used up, and a close by handles of two queues. */
static void ends(void) {
    /* `mixed` are the last handle of the first queue and the first of the second. */
    kfifo_handle one = {0}, all[4], *first = all, *second = &all[2], *mixed = &all[1];
    static uint64_t left[256];
    uint64_t value = 0;
    size_t count = 77;
    kfifo_status status = KFIFO_DONE;
    expect(kfifo_open_values_with(1, 2, 2, 0, 1, &one, 1), KFIFO_DONE, "open for few versions");
    for (int i = 0; i < 100 && status != KFIFO_WORN; i++)
        status = i % 3 == 2 ? kfifo_take(&one, &value) : kfifo_give(&one, (uint64_t)i);
    expect(status, KFIFO_WORN, "worn");
    expect(kfifo_close_values(&one, 1, left, 256, &count), KFIFO_DONE, "close a worn queue");
    expect(kfifo_open_values(1, 2, first, 2), KFIFO_DONE, "open the first");
    expect(kfifo_open_values(1, 2, second, 2), KFIFO_DONE, "open the second");
    count = 77;
    expect(kfifo_values_room(mixed, 2), 0, "room of handles of two queues");
    expect(kfifo_values_room(first, 1), 0, "room of some of the handles");
    expect(kfifo_values_room(first, 2) > 2, 1, "room of all handles");
    expect(kfifo_close_values(first, 1, left, 256, &count), KFIFO_BAD_CALL, "a close without one of two handles");
    expect(kfifo_close_values(mixed, 2, left, 256, &count), KFIFO_BAD_CALL, "a close by handles of two queues");
    expect(count, 77, "the count of a close by handles of two queues");
    expect(kfifo_abandon(&second[1], 1), KFIFO_DONE, "abandon");
    expect(kfifo_close_values(second, 2, left, 256, &count), KFIFO_BAD_CALL, "a closed handle among those of a close");
    expect(kfifo_give(&second[0], 9), KFIFO_DONE, "the open one still works");
    expect(kfifo_abandon(second, 2), KFIFO_DONE, "abandon");
    expect(kfifo_close_values(first, 2, left, 256, &count), KFIFO_DONE, "close the first");
    expect(count, 0, "values left in the first");
    expect(kfifo_values_room(first, 2), 0, "room of a queue that was closed");
    expect(kfifo_values_room(second, 2), 0, "room of a queue that was abandoned");
}

int main(void) {
    refusals();
    too_many_threads();
    addresses();
    capacity();
    ends();
    for (uint32_t pairs = 1; pairs <= MOST; pairs *= 2) run(pairs);
    printf("%s\n", failed ? "the queue of values fails"
                          : "1, 2 and 4 producers and as many consumers: each value came out once");
    return failed;
}
