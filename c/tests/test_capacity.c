/* A queue has room for its capacity, whatever its handles keep: one producer beside consumers that hoard, values and
   cells; rounds of fewer jobs than there is room for; and a queue of 60,000. A thread that sleeps for ever would hang
   the test, which its caller ends after some time. */
#include "kfifo_wait.h"
#include "test_queues.h"
#include <pthread.h>
#include <sched.h>
#include <stdatomic.h>
#include <stdio.h>

#ifdef FEWER
enum { ROUNDS = 50 };
#else
enum { ROUNDS = 2000 };
#endif

static int failed;

static void expect(uint64_t is, uint64_t wanted, const char *what) {
    if (is != wanted) {
        fprintf(stderr, "%s: %llu, and not %llu\n", what, (unsigned long long)is, (unsigned long long)wanted);
        failed = 1;
    }
}

static kfifo_status open_plain(struct any_queue *queue, int kind, uint32_t k, uint32_t capacity, uint32_t threads) {
    return any_open(queue, kind, k, capacity, KFIFO_LAST, KFIFO_RESERVE, 1, threads);
}

/* ---- Consumers that hoard ---- */

/* A consumer takes so often that it keeps as many tokens as it may. Of cells it then keeps the last one that it
   received, and does not release it. */
static void hoard(struct any_queue *queue, uint32_t giver, uint32_t taker) {
    enum { TIMES = 100 };
    for (uint64_t i = 0; i < TIMES; i++) {
        uint64_t value = 0;
        void *cell = NULL;
        expect(any_give(queue, giver, i), KFIFO_DONE, "a give to one that hoards");
        if (queue->kind == OF_CELLS && i + 1 == TIMES) {
            expect(kfifo_receive(&queue->handles[taker], &cell), KFIFO_DONE, "a receive of one that keeps its cell");
        } else {
            expect(any_take(queue, taker, &value), KFIFO_DONE, "a take of one that hoards");
            expect(value, i, "the value for one that hoards");
        }
    }
}

/* The producer finds no room only when its values fill the capacity. */
static void beside_hoarders(int kind, uint32_t k, uint32_t consumers, uint32_t capacity) {
    static struct any_queue queue;
    expect(open_plain(&queue, kind, k, capacity, consumers + 1), KFIFO_DONE, "open beside hoarders");
    for (uint32_t round = 0; round < 3; round++) {
        for (uint32_t i = 1; i <= consumers; i++) hoard(&queue, 0, i);
        uint64_t inside = 0, value = 0;
        kfifo_status status;
        while ((status = any_give(&queue, 0, inside)) == KFIFO_DONE) inside++;
        expect(status, KFIFO_FULL, "a give to a full queue");
        if (inside < capacity) {
            fprintf(stderr, "kind %d, k = %u, %u consumers: ", kind, (unsigned)k, (unsigned)consumers);
            expect(inside, capacity, "values inside a full queue");
        }
        for (uint64_t i = 0; i < inside; i++) {
            expect(any_take(&queue, (uint32_t)(1 + i % consumers), &value), KFIFO_DONE, "a take from a full queue");
            if (k == 1) expect(value, i, "a value from a full queue");
        }
        expect(any_take(&queue, 0, &value), KFIFO_EMPTY, "all were taken");
    }
    expect(any_end(&queue), KFIFO_DONE, "an end");
}

/* ---- Many in one queue ---- */

static void sixty_thousand(int kind) {
    enum { COUNT = 60000, K = 64 };
    static struct any_queue queue;
    static unsigned char out[COUNT];
    memset(out, 0, sizeof out);
    expect(open_plain(&queue, kind, K, COUNT, 2), KFIFO_DONE, "open for 60,000");
    for (uint64_t i = 0; i < COUNT && !failed; i++) expect(any_give(&queue, 0, i), KFIFO_DONE, "one of 60,000");
    for (uint64_t i = 0, value = 0; i < COUNT && !failed; i++) {
        expect(any_take(&queue, 1, &value), KFIFO_DONE, "a take of one of 60,000");
        expect(value < i + K && value < COUNT, 1, "one of the k oldest");
        if (value < COUNT) out[value]++;
    }
    for (uint64_t i = 0; i < COUNT && !failed; i++) expect(out[i], 1, "how often each of 60,000 came out");
    expect(any_end(&queue), KFIFO_DONE, "an end");
}

/* ---- Rounds of jobs ---- */

static struct any_queue queue;
static atomic_uint_fast64_t done;

static void *work(void *argument) {
    kfifo_handle *handle = argument;
    uint64_t value = 0;
    void *cell = NULL;
    for (;;) {
        kfifo_status status = queue.kind == OF_VALUES ? kfifo_take_wait(handle, &value, KFIFO_FOREVER)
                                                      : kfifo_receive_wait(handle, &cell, KFIFO_FOREVER);
        if (status != KFIFO_DONE) return status == KFIFO_FINISHED ? NULL : argument;
        atomic_fetch_add(&done, 1);
    }
}

static kfifo_status give_waiting(kfifo_handle *handle, uint64_t value) {
    void *cell = NULL;
    if (queue.kind == OF_VALUES) return kfifo_give_wait(handle, value, KFIFO_FOREVER);
    kfifo_status status = kfifo_reserve_wait(handle, &cell, KFIFO_FOREVER);
    return status == KFIFO_DONE ? kfifo_publish_wait(handle, KFIFO_FOREVER) : status;
}

/* The producer gives so many jobs, waits until they are done, and gives the next ones. */
static void rounds(int kind, uint32_t k, uint32_t capacity, uint32_t workers, uint64_t jobs) {
    pthread_t threads[MOST_HANDLES];
    void *wrong = NULL;
    atomic_store(&done, 0);
    expect(open_plain(&queue, kind, k, capacity, workers + 1), KFIFO_DONE, "open for rounds");
    for (uint32_t i = 0; i < workers; i++)
        if (pthread_create(&threads[i], NULL, work, &queue.handles[1 + i])) abort();
    for (uint64_t round = 0; round < ROUNDS; round++) {
        for (uint64_t i = 0; i < jobs; i++) expect(give_waiting(&queue.handles[0], i), KFIFO_DONE, "a job");
        while (atomic_load(&done) < (round + 1) * jobs) sched_yield();
    }
    expect(kfifo_finish(&queue.handles[0]), KFIFO_DONE, "the end of rounds");
    for (uint32_t i = 0; i < workers; i++) {
        pthread_join(threads[i], &wrong);
        expect(wrong == NULL, 1, "how a worker ended");
    }
    expect(atomic_load(&done), ROUNDS * jobs, "jobs that were done");
    expect(any_end(&queue), KFIFO_DONE, "an end");
}

int main(void) {
    static const uint32_t consumers[] = {7, 15, 63};
    for (int kind = OF_VALUES; kind <= OF_CELLS; kind++) {
        for (int i = 0; i < 3; i++) {
            uint32_t k = consumers[i] < 30 ? 1 : 4;
            beside_hoarders(kind, k, consumers[i], 1);
            beside_hoarders(kind, k, consumers[i], 256);
            beside_hoarders(kind, 64, consumers[i], 4096);
        }
        sixty_thousand(kind);
        rounds(kind, 4, 256, 3, 100);
        rounds(kind, 16, 256, 15, 100);
        rounds(kind, 1, 1, 2, 100);
    }
    puts(failed ? "the room of a queue fails" : "a queue has room for its capacity, whatever its handles keep");
    return failed;
}
