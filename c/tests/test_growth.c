/* Queues of values and of cells that grow where they have no room: one thread and several, to the bound and back, with
   a handle that makes no calls. Each value comes out once, by one thread in its order, and then there is one generation
   again. And queues that grow without a reserve of versions. */
#include "test_queues.h"
#include <pthread.h>
#include <sched.h>
#include <stdatomic.h>
#include <stdio.h>
#include <stdlib.h>

#ifdef FEWER
#define COUNT 20000
#else
#define COUNT 100000
#endif
enum { CAPACITY = 900, GENERATIONS = 115, SIDES = 2, EACH = 4 * COUNT };

static int failed;

static void expect(uint64_t is, uint64_t wanted, const char *what) {
    if (is != wanted) {
        fprintf(stderr, "%s: %llu, and not %llu\n", what, (unsigned long long)is, (unsigned long long)wanted);
        failed = 1;
    }
}

static kfifo_status open_growing(struct any_queue *queue, int kind, uint32_t k, uint32_t capacity, uint32_t generations,
                                 uint32_t threads) {
    return any_open(queue, kind, k, capacity, KFIFO_LAST, KFIFO_RESERVE, generations, threads);
}

/* Gives and takes the values from `from` to the one before `end`. */
static void give_all(struct any_queue *queue, uint32_t thread, uint64_t from, uint64_t end) {
    for (uint64_t value = from; value < end && !failed; value++)
        expect(any_give(queue, thread, value), KFIFO_DONE, "a give to a queue that grows");
}

static void take_all(struct any_queue *queue, uint32_t thread, uint64_t from, uint64_t end) {
    for (uint64_t value = from, got = 0; value < end && !failed; value++) {
        expect(any_take(queue, thread, &got), KFIFO_DONE, "a take from all generations");
        expect(got, value, "the value in its order");
    }
}

static void is_empty(struct any_queue *queue, uint32_t thread) {
    uint64_t none;
    expect(any_take(queue, thread, &none), KFIFO_EMPTY, "all were taken");
}

/* Gives until there is no room. */
static uint64_t fill(struct any_queue *queue) {
    uint64_t given = 0;
    kfifo_status status;
    while ((status = any_give(queue, 0, given)) == KFIFO_DONE) given++;
    expect(status, KFIFO_FULL, "a give beyond the bound");
    return given;
}

/* How many slots all generations of a queue of values have; 0 of a queue of cells. */
static size_t room_of(struct any_queue *queue) {
    return queue->kind == OF_VALUES ? kfifo_values_room(queue->handles, queue->threads) : 0;
}

/* From 8 values inside to many and back to 8, again and again. */
static void one_thread(int kind) {
    enum { KEPT = 8 };
    static struct any_queue queue;
    expect(open_growing(&queue, kind, 1, CAPACITY, GENERATIONS, 1), KFIFO_DONE, "an opening");
    size_t room = room_of(&queue), count = 0;
    uint64_t first = 0;
    kfifo_status status = KFIFO_DONE;
    give_all(&queue, 0, 0, KEPT);
    for (int round = 0; round < 3; round++, first += COUNT) {
        give_all(&queue, 0, first + KEPT, first + KEPT + COUNT);
        if (kind == OF_VALUES) expect(room_of(&queue) >= COUNT, 1, "room for what is in all generations");
        take_all(&queue, 0, first, first + COUNT);
        expect(room_of(&queue), room, "the room of one generation again");
    }
    give_all(&queue, 0, first + KEPT, first + COUNT);
    uint64_t *left = any_left(&queue, COUNT + 1, &count, &status);
    expect(status, KFIFO_DONE, "a close");
    expect(count, COUNT, "what is left in all generations");
    for (size_t i = 0; i < count && !failed; i++) expect(left[i], first + i, "what is left, in its order");
    free(left);
}

static void to_its_bound(int kind) {
    static struct any_queue queue;
    uint64_t got = 0;
    expect(open_growing(&queue, kind, 1, 8, 3, 1), KFIFO_DONE, "an opening");
    uint64_t given = fill(&queue);
    if (given < 3 * 8) expect(given, 3 * 8, "room for the capacity of all generations");
    take_all(&queue, 0, 0, given);
    is_empty(&queue, 0);
    expect(fill(&queue) >= 3 * 8, 1, "it grows again");
    while (any_take(&queue, 0, &got) == KFIFO_DONE) {
    }
    expect(any_end(&queue), KFIFO_DONE, "an end");
    expect(open_growing(&queue, kind, 1, 8, 0, 1), KFIFO_BAD_CALL, "no generation");
    expect(open_growing(&queue, kind, 1, 8, 128, 1), KFIFO_BAD_CALL, "too many generations");
    expect(open_growing(&queue, kind, 1, 8, 126, 2), KFIFO_BAD_CALL, "too many for two threads");
    expect(open_growing(&queue, kind, 1, 8, 125, 2), KFIFO_DONE, "as many as there may be");
    expect(any_end(&queue), KFIFO_DONE, "an end");
}

/* With reserve 0 a queue that grows goes on where a give finds no version left. No take reaches what is left in the old
   generation, since nothing was kept in reserve for that: a close gives it back. */
static void without_a_reserve(int kind) {
    enum { LAST = 16, MORE = 4 };
    static struct any_queue queue;
    uint64_t given = 0, taken = 0, got = 0;
    size_t count = 0;
    kfifo_status status = any_open(&queue, kind, 1, 8, LAST, 0, 3, 1);
    expect(status, KFIFO_DONE, "an opening without a reserve");
    size_t room = room_of(&queue);
    while (status == KFIFO_DONE && given < LAST) {
        give_all(&queue, 0, given, given + 1);
        given++;
        status = any_take(&queue, 0, &got);
        if (status != KFIFO_DONE) break;
        expect(got, taken, "a value while there are versions");
        taken++;
    }
    expect(status, KFIFO_WORN, "a take of a generation with no version left");
    expect(room_of(&queue), room, "the room of one generation");
    give_all(&queue, 0, given, given + MORE);
    if (kind == OF_VALUES) expect(room_of(&queue) > room, 1, "a generation that a give has opened for its versions");
    expect(any_take(&queue, 0, &got), KFIFO_WORN, "a take while the old generation has a value");
    uint64_t *left = any_left(&queue, given + MORE, &count, &status);
    expect(status, KFIFO_DONE, "a close of a queue without a reserve");
    expect(count, given + MORE - taken, "what no take has reached");
    for (size_t i = 0; i < count && !failed; i++) expect(left[i], taken + i, "what no take has reached, in its order");
    free(left);
}

/* One handle makes no calls while the queue grows and shrinks. It keeps the generation that it is in, and no other. */
static void beside_an_idle_handle(int kind) {
    static struct any_queue queue;
    expect(open_growing(&queue, kind, 1, CAPACITY, GENERATIONS, 3), KFIFO_DONE, "an opening");
    size_t room = room_of(&queue);
    for (int round = 0; round < 3; round++) {
        give_all(&queue, 0, 0, COUNT);
        take_all(&queue, 1, 0, COUNT);
    }
    give_all(&queue, 2, 7, 8);
    take_all(&queue, 2, 7, 8);
    for (int turn = 0; turn < 2; turn++)
        for (uint32_t i = 0; i < 3; i++) is_empty(&queue, i);
    expect(room_of(&queue), room, "the room of one generation again");
    expect(any_end(&queue), KFIFO_DONE, "an end");
}

static unsigned char *out;
static atomic_uint still_giving;
struct side {
    struct any_queue *queue;
    uint32_t thread;
    uint64_t first;
};

static void *produce(void *argument) {
    struct side *self = argument;
    for (uint64_t i = 0; i < EACH;) {
        kfifo_status status = any_give(self->queue, self->thread, self->first + i);
        if (status == KFIFO_DONE)
            i++;
        else if (status == KFIFO_FULL)
            sched_yield();
        else
            exit(1);
    }
    atomic_fetch_sub(&still_giving, 1);
    return NULL;
}

static void *consume(void *argument) {
    struct side *self = argument;
    for (;;) {
        unsigned giving = atomic_load(&still_giving);
        uint64_t value;
        kfifo_status status = any_take(self->queue, self->thread, &value);
        if (status == KFIFO_DONE)
            out[value]++; /* no other thread has this value */
        else if (status != KFIFO_EMPTY)
            exit(1);
        else if (!giving)
            return NULL;
    }
}

/* Producers ahead of consumers: the queue grows and shrinks all the time. */
static void several_threads(int kind, uint32_t k) {
    static struct any_queue queue;
    struct side sides[2 * SIDES];
    pthread_t threads[2 * SIDES];
    expect(open_growing(&queue, kind, k, 16, 100, 2 * SIDES), KFIFO_DONE, "an opening");
    out = calloc(SIDES * EACH, 1);
    if (!out) abort();
    atomic_store(&still_giving, SIDES);
    for (int i = 0; i < 2 * SIDES; i++) {
        sides[i] = (struct side){&queue, (uint32_t)i, (uint64_t)(i / 2) * EACH};
        if (pthread_create(&threads[i], NULL, i % 2 ? consume : produce, &sides[i])) abort();
    }
    for (int i = 0; i < 2 * SIDES; i++) pthread_join(threads[i], NULL);
    for (uint64_t value = 0; value < SIDES * EACH && !failed; value++)
        expect(out[value], 1, "how often a value came out");
    free(out);
    expect(any_end(&queue), KFIFO_DONE, "an end");
}

int main(void) {
    for (int kind = OF_VALUES; kind <= OF_CELLS; kind++) {
        one_thread(kind);
        to_its_bound(kind);
        without_a_reserve(kind);
        beside_an_idle_handle(kind);
        several_threads(kind, 1);
        several_threads(kind, 4);
    }
    puts(failed ? "wrong" : "right");
    return failed;
}
