/* For tests of queues that change their generation all the time, since they have few versions: values and cells by
   the same calls, blocks of memory that are not freed, and threads that stop before a request for memory or a free. */
#ifndef TEST_GENERATIONS_H
#define TEST_GENERATIONS_H

#include "test_queues.h"
#include <poll.h>
#include <signal.h>
#include <stdatomic.h>
#include <stdio.h>
#include <stdlib.h>
#include <string.h>

static int failed;
static uint64_t times = 1; /* how many times as much is done */

static void expect(uint64_t is, uint64_t wanted, const char *what) {
    if (is != wanted) {
        fprintf(stderr, "%s: %llu, and not %llu\n", what, (unsigned long long)is, (unsigned long long)wanted);
        failed = 1;
    }
}

/* ---- Where a thread stops ---- */

/* Blocks that were not freed. Only differences count: the tests ask for some by calloc. */
static atomic_long blocks;
/* How often threads have stopped, how often within a call, how many of the stops may end, and how many have. */
static atomic_uint stops, stops_in_calls, may_go_on, gone_on;
/* Of each thread: before which request for memory or free, from now on, it stops (0: none); whether it is within one,
   or within a call of the queue; and whether it has to stop after that request. */
static _Thread_local volatile sig_atomic_t stops_at, is_in_memory, is_in_call, has_to_stop;

/* Stops the thread until it may go on. */
static void stop(void) {
    if (is_in_call) atomic_fetch_add(&stops_in_calls, 1);
    unsigned number = atomic_fetch_add(&stops, 1) + 1;
    while (atomic_load(&may_go_on) < number) poll(NULL, 0, 1);
    atomic_fetch_add(&gone_on, 1);
}

/* The blocks of each size that an opening asks for, and those that came later. A change asks for no more blocks of a
   size than an opening, which makes a generation and has each handle join it. */
enum { SIZES = 64 };
static struct {
    size_t size;
    unsigned long in_opening;
    atomic_ulong later;
} sizes[SIZES];
static int is_opening; /* whether what is asked for is counted as an opening's: none is, unless a test says so */

static void count_request(size_t size) {
    int i = 0;
    while (i < SIZES - 1 && sizes[i].size && sizes[i].size != size) i++;
    if (is_opening) {
        sizes[i].size = size;
        sizes[i].in_opening++;
    } else if (sizes[i].in_opening) {
        atomic_fetch_add(&sizes[i].later, 1);
    }
}

/* A thread that stopped within malloc might hold a lock there, for which the others would wait. So it stops before or
   after it. */
static void enter_memory(void) {
    if (stops_at && --stops_at == 0) stop();
    is_in_memory = 1;
}

static void leave_memory(void) {
    is_in_memory = 0;
    if (!has_to_stop) return;
    has_to_stop = 0;
    stop();
}

void *__real_malloc(size_t size);
void *__real_realloc(void *block, size_t size);
void __real_free(void *block);

/* The linker hands the library's calls of malloc, realloc and free to these. */
void *__wrap_malloc(size_t size) {
    enter_memory();
    count_request(size);
    void *block = __real_malloc(size);
    if (block) atomic_fetch_add(&blocks, 1);
    leave_memory();
    return block;
}

void *__wrap_realloc(void *block, size_t size) {
    enter_memory();
    void *other = __real_realloc(block, size);
    if (other && !block) atomic_fetch_add(&blocks, 1);
    leave_memory();
    return other;
}

void __wrap_free(void *block) {
    enter_memory();
    if (block) atomic_fetch_sub(&blocks, 1);
    __real_free(block);
    leave_memory();
}

/* ---- Values and cells by the same calls ---- */

/* With a reserve of half of the versions. */
__attribute__((unused)) static kfifo_status open_queue(struct any_queue *queue, int kind, uint32_t k, uint32_t capacity,
                                                       uint64_t last, uint32_t threads) {
    return any_open(queue, kind, k, capacity, last, last / 2, 1, threads);
}

static kfifo_status give(struct any_queue *queue, uint32_t thread, uint64_t value) {
    is_in_call = 1;
    kfifo_status status = any_give(queue, thread, value);
    is_in_call = 0;
    return status;
}

static kfifo_status take(struct any_queue *queue, uint32_t thread, uint64_t *value) {
    is_in_call = 1;
    kfifo_status status = any_take(queue, thread, value);
    is_in_call = 0;
    return status;
}

static void abandon_from(struct any_queue *queue, uint32_t thread, uint32_t count) {
    expect(kfifo_abandon(&queue->handles[thread], count), KFIFO_DONE, "abandon");
}

/* How many slots all generations of a queue of values have; 0 of a queue of cells. */
static size_t room_of(struct any_queue *queue) {
    return queue->kind == OF_VALUES ? kfifo_values_room(queue->handles, queue->threads) : 0;
}

/* Closes a queue and returns what is left in it, at most so many values, in its order. The caller frees it. */
static uint64_t *close_queue(struct any_queue *queue, size_t most, size_t *count) {
    kfifo_status status = KFIFO_DONE;
    *count = 77;
    if (queue->kind == OF_VALUES) {
        uint64_t one = 0;
        expect(kfifo_close_values(queue->handles, queue->threads, &one, 1, count), KFIFO_BAD_CALL, "less room");
        expect(*count, 77, "the count of a close with less room");
    }
    uint64_t *left = any_left(queue, most, count, &status);
    expect(status, KFIFO_DONE, "close");
    return left;
}

#endif
