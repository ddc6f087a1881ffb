/* A queue of cells by many threads: 1, 2 and 4 producers and as many consumers, and stages that have a received and a
   reserved cell at once. */
#include "kfifo_wait.h"
#include <pthread.h>
#include <sched.h>
#include <stdatomic.h>
#include <stdio.h>
#include <stdlib.h>
#include <string.h>

/* How many cells each producer publishes. */
#ifdef FEWER
#define EACH 5000
#else
#define EACH 300000
#endif
enum { MOST = 4, K = 4, CAPACITY = 32, WORDS = 6 };

static int failed;

static void expect(uint64_t is, uint64_t wanted, const char *what) {
    if (is != wanted) {
        fprintf(stderr, "%s: %llu, and not %llu\n", what, (unsigned long long)is, (unsigned long long)wanted);
        failed = 1;
    }
}

/* Ends the test: what a call answered will not change. */
static void stopped(kfifo_status status) {
    fprintf(stderr, "a thread stops: %s\n", kfifo_status_text(status));
    exit(1);
}

/* A cell, which is written and read without any lock. */
struct cell {
    uint64_t producer, index, copies[WORDS];
};

struct side {
    kfifo_handle *handle;
    uint64_t number, count, wrong;
};

static unsigned char *out; /* how often each cell's contents came out */
static int sleeps;         /* whether the threads sleep or look again */

static kfifo_status reserved(kfifo_handle *handle, void **cell) {
    if (sleeps) return kfifo_reserve_wait(handle, cell, KFIFO_FOREVER);
    kfifo_status status;
    while (kfifo_may_retry(status = kfifo_reserve(handle, cell))) sched_yield();
    return status;
}

static kfifo_status published(kfifo_handle *handle) {
    if (sleeps) return kfifo_publish_wait(handle, KFIFO_FOREVER);
    kfifo_status status;
    while (kfifo_may_retry(status = kfifo_publish(handle))) sched_yield();
    return status;
}

static kfifo_status received(kfifo_handle *handle, void **cell) {
    if (sleeps) return kfifo_receive_wait(handle, cell, KFIFO_FOREVER);
    kfifo_status status;
    while (kfifo_may_retry(status = kfifo_receive(handle, cell))) sched_yield();
    return status;
}

static void *produce(void *argument) {
    struct side *self = argument;
    void *cell = NULL, *again = NULL;
    for (uint64_t i = 0; i < EACH; i++) {
        kfifo_status status = reserved(self->handle, &cell);
        if (status != KFIFO_DONE) stopped(status);
        struct cell *mine = cell;
        mine->producer = self->number;
        mine->index = i;
        for (int j = 0; j < WORDS; j++) mine->copies[j] = i;
        if (i % 64 == 0) self->wrong += kfifo_reserve(self->handle, &again) != KFIFO_DONE || again != cell;
        if ((status = published(self->handle)) != KFIFO_DONE) stopped(status);
        self->count++;
    }
    return NULL;
}

static void *consume(void *argument) {
    struct side *self = argument;
    void *cell = NULL;
    kfifo_status status;
    while ((status = received(self->handle, &cell)) == KFIFO_DONE) {
        struct cell *mine = cell;
        for (int j = 0; j < WORDS; j++) self->wrong += mine->copies[j] != mine->index;
        out[mine->producer * EACH + mine->index]++;
        memset(mine, 0xff, sizeof *mine);
        self->count++;
        /* Else the next receive releases it. */
        if (self->count % 2 && kfifo_release(self->handle) != KFIFO_DONE) self->wrong++;
    }
    if (status != KFIFO_FINISHED) stopped(status);
    return NULL;
}

static kfifo_status open_cells(kfifo_handle *handles, size_t threads) {
    return kfifo_open_cells(K, CAPACITY, sizeof(struct cell), _Alignof(struct cell), handles, threads);
}

static void run(uint32_t pairs, int do_sleep) {
    static kfifo_handle handles[2 * MOST];
    struct side sides[2 * MOST];
    pthread_t ids[2 * MOST];
    uint64_t given = 0, taken = 0, wrong = 0;
    sleeps = do_sleep;
    out = calloc((size_t)pairs * EACH, 1);
    expect(open_cells(handles, 2 * pairs), KFIFO_DONE, "open for many threads");
    for (uint32_t i = 0; i < 2 * pairs; i++) {
        sides[i] = (struct side){.handle = &handles[i], .number = i % pairs};
        if (!out || pthread_create(&ids[i], NULL, i < pairs ? produce : consume, &sides[i])) abort();
    }
    for (uint32_t i = 0; i < 2 * pairs; i++) {
        if (i == pairs) expect(kfifo_finish(&handles[0]), KFIFO_DONE, "finish");
        pthread_join(ids[i], NULL);
        *(i < pairs ? &given : &taken) += sides[i].count;
        wrong += sides[i].wrong;
    }
    for (uint64_t i = 0; i < (uint64_t)pairs * EACH; i++) wrong += out[i] != 1;
    expect(given, (uint64_t)pairs * EACH, "cells published");
    expect(taken, given, "cells received");
    expect(wrong, 0, "cells that did not come out whole and once");
    free(out);
    expect(kfifo_abandon(handles, 2 * pairs), KFIFO_DONE, "abandon many handles");
}

/* Each thread takes numbers out of the queue, and puts each but 0 back, less by one, in another cell. */
static atomic_uint_fast64_t left_to_do;

static void *step(void *argument) {
    struct side *self = argument;
    void *got_at = NULL, *made_at = NULL;
    while (atomic_load(&left_to_do) != 0) {
        kfifo_status status = kfifo_receive(self->handle, &got_at);
        const struct cell *got = got_at;
        if (status == KFIFO_DONE && got->index != 0) {
            status = kfifo_reserve(self->handle, &made_at);
            if (status != KFIFO_DONE) stopped(status);
            struct cell *made = made_at;
            self->wrong += made == got || got->copies[0] != got->index;
            made->index = made->copies[0] = got->index - 1;
            while (kfifo_may_retry(status = kfifo_publish(self->handle))) sched_yield();
            if (status != KFIFO_DONE) stopped(status);
            self->wrong += kfifo_release(self->handle) != KFIFO_DONE;
            self->count++;
        } else if (status == KFIFO_DONE) {
            self->count++;
            atomic_fetch_sub(&left_to_do, 1);
        } else if (kfifo_may_retry(status)) {
            sched_yield();
        } else {
            stopped(status);
        }
    }
    return NULL;
}

static void stages(void) {
    enum { NUMBERS = 8, STEPS = EACH / 10 };
    static kfifo_handle handles[MOST];
    struct side sides[MOST];
    pthread_t ids[MOST];
    void *cell = NULL;
    uint64_t count = 0, wrong = 0;
    expect(open_cells(handles, MOST), KFIFO_DONE, "open for stages");
    for (int i = 0; i < NUMBERS; i++) {
        expect(kfifo_reserve(&handles[0], &cell), KFIFO_DONE, "a cell for a number");
        ((struct cell *)cell)->index = ((struct cell *)cell)->copies[0] = STEPS;
        expect(kfifo_publish(&handles[0]), KFIFO_DONE, "a number");
    }
    atomic_store(&left_to_do, NUMBERS);
    for (int i = 0; i < MOST; i++) {
        sides[i] = (struct side){.handle = &handles[i]};
        if (pthread_create(&ids[i], NULL, step, &sides[i])) abort();
    }
    for (int i = 0; i < MOST; i++) {
        pthread_join(ids[i], NULL);
        count += sides[i].count;
        wrong += sides[i].wrong;
    }
    expect(count, (uint64_t)NUMBERS * (STEPS + 1), "steps of stages");
    expect(wrong, 0, "wrong steps of stages");
    expect(kfifo_abandon(handles, MOST), KFIFO_DONE, "abandon the stages");
}

int main(void) {
    for (uint32_t pairs = 1; pairs <= MOST; pairs *= 2) {
        run(pairs, 0);
        run(pairs, 1);
    }
    stages();
    printf("%s\n", failed ? "the queue of cells fails under many threads"
                          : "1, 2 and 4 producers and as many consumers: each cell came out whole and once");
    return failed;
}
