/* Threads that wait: each value comes out once whoever sleeps, all threads end after kfifo_finish, times are kept, and
   each refusal comes at its cause. A wake-up that is lost would hang the test, which its caller ends after some time.
 */
#define _GNU_SOURCE
#include "kfifo_wait.h"
#include <pthread.h>
#include <signal.h>
#include <stdatomic.h>
#include <stdio.h>
#include <stdlib.h>
#include <string.h>
#include <time.h>

/* The most values that go through a queue, and how long a thread is idle. */
#ifdef FEWER
#define VALUES 10000u
#define IDLE_NANOSECONDS 200000000u
#else
#define VALUES 1000000u
#define IDLE_NANOSECONDS 5000000000u
#endif
#define MILLISECOND UINT64_C(1000000)
enum { MOST = 12 };

static atomic_int failed;

static void expect(uint64_t is, uint64_t wanted, const char *what) {
    if (is != wanted) {
        fprintf(stderr, "%s: %llu, and not %llu\n", what, (unsigned long long)is, (unsigned long long)wanted);
        failed = 1;
    }
}

static uint64_t now(clockid_t clock) {
    struct timespec time;
    clock_gettime(clock, &time);
    return (uint64_t)time.tv_sec * 1000000000u + (uint64_t)time.tv_nsec;
}

static void rest(uint64_t nanoseconds) {
    struct timespec time = {(time_t)(nanoseconds / 1000000000u), (long)(nanoseconds % 1000000000u)};
    nanosleep(&time, NULL);
}

/* What a thread does in a run: gives the values from `first` on, or takes until the end. Of a queue of items a value is
   an item. */
struct side {
    kfifo_handle *handle;
    uint32_t first, count;
    kfifo_status end;
};

static atomic_uchar *out; /* how often each value came out */

static void *give_all(void *argument) {
    struct side *self = argument;
    for (uint32_t i = 0; i < self->count; i++) {
        uint32_t value = self->first + i;
        self->end = self->handle->kind == KFIFO_VALUES ? kfifo_give_wait(self->handle, value, KFIFO_FOREVER)
                                                       : kfifo_put_wait(self->handle, value, KFIFO_FOREVER);
        if (self->end != KFIFO_DONE) break;
    }
    return NULL;
}

static void *take_all(void *argument) {
    struct side *self = argument;
    for (;;) {
        uint64_t value = 0;
        uint32_t item = 0;
        int of_values = self->handle->kind == KFIFO_VALUES;
        self->end = of_values ? kfifo_take_wait(self->handle, &value, KFIFO_FOREVER)
                              : kfifo_get_wait(self->handle, &item, KFIFO_FOREVER);
        if (self->end != KFIFO_DONE) return NULL;
        atomic_fetch_add(&out[of_values ? value : item], 1);
        self->count++;
    }
}

/* That many givers and takers over a small queue, where both sides sleep often. The queue is finished when all givers
   have ended. */
static void run(uint32_t givers, uint32_t takers, uint32_t k, int of_items, uint32_t values) {
    static kfifo_handle handles[MOST];
    struct side sides[MOST];
    pthread_t ids[MOST];
    uint32_t threads = givers + takers, taken = 0, wrong = 0;
    out = calloc(values + 1, sizeof *out);
    if (of_items)
        expect(kfifo_open(k, 2, k, KFIFO_LAST, handles, threads), KFIFO_DONE, "open a queue of items");
    else
        expect(kfifo_open_values(k, 1, handles, threads), KFIFO_DONE, "open a queue of values");
    for (uint32_t i = 0; i < threads; i++) {
        sides[i] = (struct side){.handle = &handles[i]};
        if (i < givers) {
            sides[i].first = 1 + (uint32_t)((uint64_t)values * i / givers);
            sides[i].count = 1 + (uint32_t)((uint64_t)values * (i + 1) / givers) - sides[i].first;
        }
        if (!out || pthread_create(&ids[i], NULL, i < givers ? give_all : take_all, &sides[i])) abort();
    }
    for (uint32_t i = 0; i < givers; i++) pthread_join(ids[i], NULL);
    expect(kfifo_finish(&handles[0]), KFIFO_DONE, "finish");
    for (uint32_t i = givers; i < threads; i++) pthread_join(ids[i], NULL);
    for (uint32_t i = 0; i < threads; i++) {
        expect(sides[i].end, i < givers ? KFIFO_DONE : KFIFO_FINISHED, "how a thread ended");
        taken += i < givers ? 0 : sides[i].count;
    }
    for (uint32_t value = 1; value <= values; value++) wrong += out[value] != 1;
    expect(taken, values, "values taken");
    expect(wrong, 0, "values that did not come out once");
    expect(KFIFO_WAITS(&handles[0])->state, KFIFO_WAITS_FINISHED, "threads that are still said to wait");
    free(out);
    expect(kfifo_abandon(handles, threads), KFIFO_DONE, "abandon");
}

/* Givers and takers that would go on for ever are finished in the middle: each ends, and what went in came out or is
   left. */
static void finish_in_the_middle(void) {
    enum { GIVERS = 2, TAKERS = 2, THREADS = GIVERS + TAKERS, LEFT = 1024 };
    static kfifo_handle handles[THREADS];
    static uint64_t left[LEFT];
    for (int round = 0; round < 50; round++) {
        struct side sides[THREADS];
        pthread_t ids[THREADS];
        size_t count = 0;
        uint64_t again = 0;
        out = calloc(VALUES + 1, sizeof *out);
        if (!out) abort();
        expect(kfifo_open_values(2, 8, handles, THREADS), KFIFO_DONE, "open");
        for (uint32_t i = 0; i < THREADS; i++) {
            sides[i] = (struct side){.handle = &handles[i]};
            if (i < GIVERS) sides[i].first = 1 + VALUES / GIVERS * i, sides[i].count = VALUES / GIVERS;
            if (pthread_create(&ids[i], NULL, i < GIVERS ? give_all : take_all, &sides[i])) abort();
        }
        rest((uint64_t)round * 20000);
        expect(kfifo_finish(&handles[0]), KFIFO_DONE, "finish in the middle");
        expect(kfifo_finish(&handles[THREADS - 1]), KFIFO_DONE, "finish again");
        for (uint32_t i = 0; i < THREADS; i++) pthread_join(ids[i], NULL);
        for (uint32_t i = 0; i < GIVERS; i++)
            expect(sides[i].end == KFIFO_FINISHED || sides[i].end == KFIFO_DONE, 1, "how a giver ended");
        for (uint32_t i = GIVERS; i < THREADS; i++) expect(sides[i].end, KFIFO_FINISHED, "how a taker ended");
        expect(kfifo_close_values(handles, THREADS, left, LEFT, &count), KFIFO_DONE, "close after the end");
        for (size_t i = 0; i < count; i++) atomic_fetch_add(&out[left[i]], 1);
        for (uint32_t value = 1; value <= VALUES; value++) again += out[value] > 1;
        expect(again, 0, "values that came out twice");
        /* What a giver gave before it ended has come out: its values are given in their order. */
        for (uint32_t i = 0; i < GIVERS; i++)
            for (uint32_t value = sides[i].first, ended = 0; value < sides[i].first + VALUES / GIVERS; value++) {
                ended |= out[value] == 0;
                if (ended) expect(out[value], 0, "a value that came out though one before it did not");
            }
        free(out);
    }
}

/* A call in a thread of its own, to be looked at while it waits. */
struct call {
    kfifo_handle *handle;
    uint64_t value, nanoseconds, spent;
    int gives;
    atomic_int status; /* -1: it waits */
};

static void *make_call(void *argument) {
    struct call *self = argument;
    uint64_t began = now(CLOCK_MONOTONIC);
    kfifo_status status = KFIFO_BAD_CALL;
    void *cell;
    if (self->handle->kind == KFIFO_ITEMS)
        status = kfifo_put_wait(self->handle, (uint32_t)self->value, self->nanoseconds);
    else if (self->handle->kind == KFIFO_CELLS)
        status = kfifo_reserve_wait(self->handle, &cell, self->nanoseconds);
    else
        status = self->gives ? kfifo_give_wait(self->handle, self->value, self->nanoseconds)
                             : kfifo_take_wait(self->handle, &self->value, self->nanoseconds);
    self->spent = now(CLOCK_MONOTONIC) - began;
    atomic_store(&self->status, (int)status);
    return NULL;
}

static pthread_t start(struct call *call, kfifo_handle *handle, int gives, uint64_t value, uint64_t nanoseconds) {
    pthread_t id;
    *call = (struct call){.handle = handle, .value = value, .nanoseconds = nanoseconds, .gives = gives, .status = -1};
    if (pthread_create(&id, NULL, make_call, call)) abort();
    return id;
}

/* Waits until that many threads have announced themselves, and a little longer, so that they sleep. */
static void until_asleep(const kfifo_handle *handle, uint32_t threads, uint32_t kind) {
    kfifo_waits *waits = KFIFO_WAITS(handle);
    while ((kfifo_waits_state(waits) & (kind == KFIFO_WAITS_TAKER ? KFIFO_WAITS_TAKERS : KFIFO_WAITS_GIVERS)) !=
           threads * kind)
        rest(100000);
    rest(2 * MILLISECOND);
}

/* Gives the values from `first` on until there is no room for one, by each of these handles. Returns the first that was
   not given. */
static uint64_t use_up(kfifo_handle *handles, size_t threads, uint64_t first) {
    for (size_t i = 0; i < threads; i++) {
        kfifo_status status;
        while ((status = kfifo_give(&handles[i], first)) == KFIFO_DONE) first++;
        expect(status, KFIFO_FULL, "a give without room");
    }
    return first;
}

static void times(void) {
    kfifo_handle handles[2];
    uint64_t value = 77, began;
    struct call call;
    static const uint64_t limits[] = {0, 1, 1000, 20 * MILLISECOND};
    expect(kfifo_open_values(1, 2, handles, 2), KFIFO_DONE, "open for times");
    for (size_t i = 0; i < sizeof limits / sizeof limits[0]; i++) {
        began = now(CLOCK_MONOTONIC);
        expect(kfifo_take_wait(&handles[0], &value, limits[i]), KFIFO_TIMED_OUT, "a take of an empty queue");
        expect(now(CLOCK_MONOTONIC) - began >= limits[i], 1, "the time of a take");
        expect(value, 77, "the value of a take that got none");
    }
    /* A long one ends when the value comes. */
    pthread_t id = start(&call, &handles[1], 0, 0, 3600 * 1000 * MILLISECOND);
    until_asleep(&handles[0], 1, KFIFO_WAITS_TAKER);
    expect(kfifo_give(&handles[0], 5), KFIFO_DONE, "a give to a thread that sleeps");
    pthread_join(id, NULL);
    expect(call.status, KFIFO_DONE, "a long take");
    expect(call.value, 5, "the value of a long take");
    expect(call.spent < 60 * 1000 * MILLISECOND, 1, "a long take ends early");
    expect(kfifo_give_wait(&handles[0], 0, 0), KFIFO_DONE, "a give that need not wait");
    uint64_t end = use_up(handles, 2, 1);
    for (size_t i = 0; i < sizeof limits / sizeof limits[0]; i++) {
        began = now(CLOCK_MONOTONIC);
        expect(kfifo_give_wait(&handles[0], 9, limits[i]), KFIFO_TIMED_OUT, "a give to a full queue");
        expect(now(CLOCK_MONOTONIC) - began >= limits[i], 1, "the time of a give");
    }
    /* The taker keeps some of the room that it makes. */
    id = start(&call, &handles[1], 1, end, KFIFO_FOREVER - 1);
    until_asleep(&handles[0], 1, KFIFO_WAITS_GIVER);
    uint64_t taken = 0;
    for (; taken < end; taken++) expect(kfifo_take_wait(&handles[0], &value, 0), KFIFO_DONE, "a take that makes room");
    pthread_join(id, NULL);
    expect(call.status, KFIFO_DONE, "a long give");
    for (uint64_t i = taken; i <= end; i++) {
        expect(kfifo_take(&handles[0], &value), KFIFO_DONE, "a take of the rest");
        expect(value, i, "the values in their order");
    }
    expect(kfifo_take(&handles[0], &value), KFIFO_EMPTY, "nothing that timed out is in the queue");
    expect(kfifo_abandon(handles, 2), KFIFO_DONE, "abandon");
}

/* Four putters sleep before a full ring of two segments; a whole segment is taken, by as many gets as there are
   putters, of which only the last one makes room. All four have to come in. */
static void room_for_several(void) {
    enum { K = 4, PUTTERS = 4 };
    kfifo_handle handles[PUTTERS + 1];
    struct call calls[PUTTERS];
    pthread_t ids[PUTTERS];
    uint32_t item = 0;
    expect(kfifo_open(K, 2, K, KFIFO_LAST, handles, PUTTERS + 1), KFIFO_DONE, "open for several");
    for (uint32_t i = 0; i < 2 * K; i++)
        expect(kfifo_put(&handles[PUTTERS], 1 + i), KFIFO_DONE, "a put that fills the ring");
    for (int i = 0; i < PUTTERS; i++) ids[i] = start(&calls[i], &handles[i], 1, 100, KFIFO_FOREVER);
    until_asleep(&handles[0], PUTTERS, KFIFO_WAITS_GIVER);
    for (int i = 0; i < K; i++) expect(kfifo_get(&handles[PUTTERS], &item), KFIFO_DONE, "a get of the first segment");
    for (int i = 0; i < PUTTERS; i++) {
        pthread_join(ids[i], NULL);
        expect(calls[i].status, KFIFO_DONE, "a put that slept");
    }
    expect(kfifo_abandon(handles, PUTTERS + 1), KFIFO_DONE, "abandon");
}

/* Givers that sleep for want of room come in, all of them, once takes lay some down. */
static void room_for_all(void) {
    enum { GIVERS = 6 };
    kfifo_handle handles[GIVERS + 1];
    struct call calls[GIVERS];
    pthread_t ids[GIVERS];
    uint64_t value = 0;
    expect(kfifo_open_values(1, 8, handles, GIVERS + 1), KFIFO_DONE, "open for all");
    uint64_t given = use_up(handles, GIVERS + 1, 0);
    expect(kfifo_give_wait(&handles[0], 2, 1000), KFIFO_TIMED_OUT, "a give without room");
    for (int i = 0; i < GIVERS; i++) ids[i] = start(&calls[i], &handles[i], 1, 100, KFIFO_FOREVER);
    until_asleep(&handles[0], GIVERS, KFIFO_WAITS_GIVER);
    for (uint64_t i = 0; i < given; i++) expect(kfifo_take(&handles[GIVERS], &value), KFIFO_DONE, "a take of a value");
    for (int i = 0; i < GIVERS; i++) {
        pthread_join(ids[i], NULL);
        expect(calls[i].status, KFIFO_DONE, "a give that slept");
    }
    expect(kfifo_abandon(handles, GIVERS + 1), KFIFO_DONE, "abandon");
}

/* So do reserves. None of their cells is published, so that it is the reserve that wakes the next one. */
static void cells_for_all(void) {
    enum { GIVERS = 6 };
    kfifo_handle handles[GIVERS + 1];
    struct call calls[GIVERS];
    pthread_t ids[GIVERS];
    void *cell;
    size_t given = 0;
    expect(kfifo_open_cells(1, 8, 8, 8, handles, GIVERS + 1), KFIFO_DONE, "open cells for all");
    for (int i = 0; i <= GIVERS; i++)
        for (; kfifo_reserve(&handles[i], &cell) == KFIFO_DONE; given++)
            expect(kfifo_publish(&handles[i]), KFIFO_DONE, "a publish that uses up the cells");
    for (int i = 0; i < GIVERS; i++) ids[i] = start(&calls[i], &handles[i], 1, 0, KFIFO_FOREVER);
    until_asleep(&handles[0], GIVERS, KFIFO_WAITS_GIVER);
    for (size_t i = 0; i < given; i++) {
        expect(kfifo_receive(&handles[GIVERS], &cell), KFIFO_DONE, "a receive of a cell");
        expect(kfifo_release(&handles[GIVERS]), KFIFO_DONE, "a release of it");
    }
    for (int i = 0; i < GIVERS; i++) {
        pthread_join(ids[i], NULL);
        expect(calls[i].status, KFIFO_DONE, "a reserve that slept");
    }
    expect(kfifo_abandon(handles, GIVERS + 1), KFIFO_DONE, "abandon");
}

static void finishes(void) {
    kfifo_handle handles[3];
    struct call calls[2];
    uint64_t value = 77;
    expect(kfifo_open_values(1, 2, handles, 3), KFIFO_DONE, "open to be finished");
    pthread_t ids[2] = {start(&calls[0], &handles[0], 0, 0, KFIFO_FOREVER),
                        start(&calls[1], &handles[1], 0, 0, KFIFO_FOREVER)};
    until_asleep(&handles[0], 2, KFIFO_WAITS_TAKER);
    expect(kfifo_is_finished(KFIFO_WAITS(&handles[0])), 0, "not yet finished");
    expect(kfifo_finish(&handles[0]), KFIFO_DONE, "finish while takers sleep");
    expect(kfifo_is_finished(KFIFO_WAITS(&handles[0])), 1, "finished");
    for (int i = 0; i < 2; i++) {
        pthread_join(ids[i], NULL);
        expect(calls[i].status, KFIFO_FINISHED, "a taker that slept");
    }
    expect(kfifo_give(&handles[0], 1), KFIFO_FINISHED, "a give after the end");
    expect(kfifo_give_wait(&handles[0], 1, KFIFO_FOREVER), KFIFO_FINISHED, "a give after the end that would wait");
    expect(kfifo_take(&handles[0], &value), KFIFO_FINISHED, "what was given after the end is not in the queue");
    expect(kfifo_abandon(handles, 3), KFIFO_DONE, "abandon");
    expect(kfifo_open_values(1, 2, handles, 3), KFIFO_DONE, "open again");
    uint64_t end = use_up(handles, 3, 0);
    ids[0] = start(&calls[0], &handles[1], 1, end, KFIFO_FOREVER);
    until_asleep(&handles[0], 1, KFIFO_WAITS_GIVER);
    expect(kfifo_finish(&handles[0]), KFIFO_DONE, "finish");
    pthread_join(ids[0], NULL);
    expect(calls[0].status, KFIFO_FINISHED, "a giver that slept");
    /* What is left comes out before the end does. */
    for (uint64_t i = 0; i < end; i++) {
        expect(i % 2 ? kfifo_take_wait(&handles[2], &value, KFIFO_FOREVER) : kfifo_take(&handles[2], &value),
               KFIFO_DONE, "the rest");
        expect(value, i, "the values of the rest");
    }
    expect(kfifo_take_wait(&handles[2], &value, KFIFO_FOREVER), KFIFO_FINISHED, "the end after the rest");
    expect(kfifo_take(&handles[2], &value), KFIFO_FINISHED, "the end at once");
    expect(kfifo_take_wait(&handles[2], &value, 0), KFIFO_FINISHED, "the end comes before the time is up");
    expect(value, end - 1, "the value of a take that got none");
    expect(kfifo_abandon(handles, 3), KFIFO_DONE, "abandon");
}

/* Where one handle is left, its takes and gives that would wait return FINISHED, also one that sleeps. */
static void alone(void) {
    for (int gives = 0; gives < 2; gives++) {
        kfifo_handle handles[3];
        struct call call;
        uint64_t value = 0;
        expect(kfifo_open_values(1, 2, handles, 3), KFIFO_DONE, "open for one that is left");
        uint64_t end = use_up(handles, 3, 0);
        for (uint64_t i = 0; !gives && i < end; i++) expect(kfifo_take(&handles[2], &value), KFIFO_DONE, "its take");
        pthread_t id = start(&call, &handles[0], gives, 7, KFIFO_FOREVER);
        until_asleep(&handles[0], 1, gives ? KFIFO_WAITS_GIVER : KFIFO_WAITS_TAKER);
        expect(kfifo_abandon(&handles[1], 1), KFIFO_DONE, "abandon the second");
        rest(MILLISECOND);
        expect((uint64_t)call.status, (uint64_t)-1, "a call waits while two are left");
        expect(kfifo_abandon(&handles[2], 1), KFIFO_DONE, "abandon the third");
        pthread_join(id, NULL);
        expect(call.status, KFIFO_FINISHED, "a call that sleeps when the others go");
        expect(gives ? kfifo_give_wait(&handles[0], 8, KFIFO_FOREVER)
                     : kfifo_take_wait(&handles[0], &value, KFIFO_FOREVER),
               KFIFO_FINISHED, "a call that would wait for nobody");
        expect(gives ? kfifo_give(&handles[0], 8) : kfifo_take(&handles[0], &value), gives ? KFIFO_FULL : KFIFO_EMPTY,
               "a call that does not wait");
        expect(kfifo_abandon(handles, 1), KFIFO_DONE, "abandon the first");
    }
}

static void ignore(int signal) { (void)signal; }

/* Signals end no wait. */
static void signals(void) {
    kfifo_handle handles[2];
    struct call call;
    struct sigaction action = {.sa_handler = ignore};
    sigaction(SIGUSR1, &action, NULL);
    expect(kfifo_open_values(1, 2, handles, 2), KFIFO_DONE, "open for signals");
    for (int limited = 0; limited < 2; limited++) {
        pthread_t id = start(&call, &handles[1], 0, 0, limited ? 50 * MILLISECOND : KFIFO_FOREVER);
        if (limited)
            rest(MILLISECOND);
        else
            until_asleep(&handles[0], 1, KFIFO_WAITS_TAKER);
        for (int i = 0; i < 20; i++) {
            pthread_kill(id, SIGUSR1);
            rest(MILLISECOND / 2);
        }
        if (!limited) {
            expect((uint64_t)call.status, (uint64_t)-1, "a take that a signal met still waits");
            expect(kfifo_give(&handles[0], 5), KFIFO_DONE, "a give after signals");
        }
        pthread_join(id, NULL);
        expect(call.status, limited ? KFIFO_TIMED_OUT : KFIFO_DONE, "a take that signals met");
        if (limited) expect(call.spent >= 50 * MILLISECOND, 1, "the time of a take that signals met");
    }
    expect(kfifo_abandon(handles, 2), KFIFO_DONE, "abandon");
}

/* A thread that waits uses no time of a processor. */
static void idle(void) {
    kfifo_handle handles[2];
    uint64_t value = 0, before = now(CLOCK_THREAD_CPUTIME_ID), spent;
    expect(kfifo_open_values(4, 16, handles, 2), KFIFO_DONE, "open to be idle");
    expect(kfifo_take_wait(&handles[0], &value, IDLE_NANOSECONDS), KFIFO_TIMED_OUT, "an idle take");
    spent = now(CLOCK_THREAD_CPUTIME_ID) - before;
    printf("an idle take of %.1f seconds used %.3f milliseconds of a processor\n", IDLE_NANOSECONDS / 1e9,
           (double)spent / 1e6);
#ifndef FEWER
    expect(spent < 2 * MILLISECOND, 1, "the time of a processor that an idle take used");
#endif
    expect(kfifo_abandon(handles, 2), KFIFO_DONE, "abandon");
}

static void refusals(void) {
    kfifo_handle handle, closed = {0};
    kfifo_handle items[2], no_items = {0};
    uint64_t value = 77;
    uint32_t item = 77;
    void *pointer = &value;
    expect(kfifo_finish(NULL), KFIFO_BAD_CALL, "no handle to finish by");
    expect(kfifo_finish(&closed), KFIFO_BAD_CALL, "a closed handle to finish by");
    expect(kfifo_finish(&no_items), KFIFO_BAD_CALL, "a closed handle of items to finish by");
    expect(kfifo_open_values(1, 2, &handle, 1), KFIFO_DONE, "open values");
    expect(kfifo_open(1, 2, 1, KFIFO_LAST, items, 2), KFIFO_DONE, "open items");
    for (int finished = 0; finished < 2; finished++) {
        expect(kfifo_give_wait(NULL, 1, KFIFO_FOREVER), KFIFO_BAD_CALL, "no handle");
        expect(kfifo_give_wait(&closed, 1, KFIFO_FOREVER), KFIFO_BAD_CALL, "a closed handle");
        expect(kfifo_take_wait(NULL, &value, KFIFO_FOREVER), KFIFO_BAD_CALL, "no handle to take by");
        expect(kfifo_take_wait(&handle, NULL, KFIFO_FOREVER), KFIFO_BAD_CALL, "no value");
        expect(kfifo_take_wait(&closed, &value, KFIFO_FOREVER), KFIFO_BAD_CALL, "a closed handle of a take");
        expect(kfifo_take_pointer_wait(&handle, NULL, KFIFO_FOREVER), KFIFO_BAD_CALL, "no pointer");
        expect(kfifo_put_wait(NULL, 1, KFIFO_FOREVER), KFIFO_BAD_CALL, "no handle to put by");
        expect(kfifo_put_wait(&items[0], 0, KFIFO_FOREVER), KFIFO_BAD_CALL, "item 0");
        expect(kfifo_put_wait(&items[0], KFIFO_MAX_ITEM + 1, KFIFO_FOREVER), KFIFO_BAD_CALL, "item 2^24");
        expect(kfifo_put_wait(&no_items, 1, KFIFO_FOREVER), KFIFO_BAD_CALL, "a closed handle of a put");
        expect(kfifo_get_wait(&items[0], NULL, KFIFO_FOREVER), KFIFO_BAD_CALL, "no item");
        expect(kfifo_get_wait(&no_items, &item, KFIFO_FOREVER), KFIFO_BAD_CALL, "a closed handle of a get");
        if (!finished) {
            expect(kfifo_give_pointer_wait(&handle, pointer, 0), KFIFO_DONE, "a pointer");
            pointer = NULL;
            expect(kfifo_take_pointer_wait(&handle, &pointer, 0), KFIFO_DONE, "the pointer");
            expect(pointer == &value, 1, "which pointer");
            expect(kfifo_put(&items[0], 5), KFIFO_DONE, "an item");
            expect(kfifo_get(&items[0], &item), KFIFO_DONE, "the item");
            expect(item, 5, "which item");
            expect(kfifo_get_wait(&items[0], &item, 1), KFIFO_TIMED_OUT, "no item in time");
        }
        expect(kfifo_finish(&handle), KFIFO_DONE, "finish");
        expect(kfifo_finish(&items[0]), KFIFO_DONE, "finish the items");
    }
    expect(kfifo_put_wait(&items[0], 5, KFIFO_FOREVER), KFIFO_FINISHED, "a put after the end");
    expect(kfifo_get_wait(&items[0], &item, KFIFO_FOREVER), KFIFO_FINISHED, "a get after the end");
    expect(value, 77, "the value of takes that got none");
    expect(kfifo_abandon(&handle, 1), KFIFO_DONE, "abandon");
    expect(kfifo_abandon(items, 2), KFIFO_DONE, "abandon");
}

/* A thread that waits on a queue which is worn out is told so. */
static void worn(void) {
    kfifo_handle handle[2];
    uint64_t value = 0;
    kfifo_status status = KFIFO_DONE;
    expect(kfifo_open_values_with(1, 2, 2, 0, 1, handle, 2), KFIFO_DONE, "open for few versions");
    for (int i = 0; i < 100 && status != KFIFO_WORN; i++)
        status = i % 3 == 2 ? kfifo_take_wait(&handle[0], &value, 0) : kfifo_give_wait(&handle[0], (uint64_t)i, 0);
    expect(status, KFIFO_WORN, "worn");
    expect(kfifo_give_wait(&handle[0], 1, KFIFO_FOREVER), KFIFO_WORN, "a give that would wait for ever");
    expect(kfifo_abandon(handle, 2), KFIFO_DONE, "abandon");
}

int main(void) {
    static const uint32_t givers[] = {1, 2, 4}, takers[] = {1, 2, 8};
    refusals();
    times();
    room_for_several();
    room_for_all();
    cells_for_all();
    finishes();
    alone();
    signals();
    worn();
    idle();
    finish_in_the_middle();
    for (int g = 0; g < 3; g++)
        for (int t = 0; t < 3; t++) {
            run(givers[g], takers[t], g + t > 2 ? 4 : 1, 0, g == 1 && t == 1 ? VALUES : VALUES / 10);
            run(givers[g], takers[t], 2, 1, VALUES / 50);
        }
    printf("%s\n", failed ? "threads that wait fail"
                          : "1, 2 and 4 givers, 1, 2 and 8 takers that sleep: each value came out once, and all ended");
    return failed;
}
