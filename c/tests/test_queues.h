/* For tests: queues of values and of cells by the same calls. */
#ifndef TEST_QUEUES_H
#define TEST_QUEUES_H

#include "kfifo.h"

enum { OF_VALUES, OF_CELLS, MOST_HANDLES = 64, CELL_WORDS = 4 };

/* What a cell holds: each word is the value, so that one that is torn is seen. */
struct any_cell {
    uint64_t words[CELL_WORDS];
};

struct any_queue {
    int kind; /* OF_VALUES or OF_CELLS */
    uint32_t threads;
    kfifo_handle handles[MOST_HANDLES];
};

__attribute__((unused)) static kfifo_status any_open(struct any_queue *queue, int kind, uint32_t k, uint32_t capacity,
                                                     uint64_t last, uint64_t reserve, uint32_t generations,
                                                     uint32_t threads) {
    queue->kind = kind;
    queue->threads = threads;
    if (kind == OF_VALUES)
        return kfifo_open_values_with(k, capacity, last, reserve, generations, queue->handles, threads);
    return kfifo_open_cells_with(k, capacity, sizeof(struct any_cell), _Alignof(struct any_cell), last, reserve,
                                 generations, queue->handles, threads);
}

/* Reserves a cell, and writes a value into it. */
static kfifo_status any_reserve(kfifo_handle *handle, uint64_t value) {
    void *cell = NULL;
    kfifo_status status = kfifo_reserve(handle, &cell);
    if (status != KFIFO_DONE) return status;
    for (int i = 0; i < CELL_WORDS; i++) ((struct any_cell *)cell)->words[i] = value;
    return status;
}

static kfifo_status any_give(struct any_queue *queue, uint32_t thread, uint64_t value) {
    kfifo_handle *handle = &queue->handles[thread];
    if (queue->kind == OF_VALUES) return kfifo_give(handle, value);
    kfifo_status status = any_reserve(handle, value);
    if (status != KFIFO_DONE) return status;
    status = kfifo_publish(handle);
    if (status != KFIFO_DONE && kfifo_cancel(handle) != KFIFO_DONE) return KFIFO_BAD_CALL;
    return status;
}

/* The value of a cell; UINT64_MAX of one that is torn. */
static uint64_t any_value(const void *cell) {
    const uint64_t *words = ((const struct any_cell *)cell)->words;
    for (int i = 1; i < CELL_WORDS; i++)
        if (words[i] != words[0]) return UINT64_MAX;
    return words[0];
}

static kfifo_status any_take(struct any_queue *queue, uint32_t thread, uint64_t *value) {
    kfifo_handle *handle = &queue->handles[thread];
    if (queue->kind == OF_VALUES) return kfifo_take(handle, value);
    void *cell = NULL;
    kfifo_status status = kfifo_receive(handle, &cell);
    if (status != KFIFO_DONE) return status;
    *value = any_value(cell);
    memset(cell, 0xff, sizeof(struct any_cell));
    return kfifo_release(handle) == KFIFO_DONE ? KFIFO_DONE : KFIFO_BAD_CALL;
}

/* Closes a queue, and writes at most `room` values that are left. Of cells what is left is freed. */
static kfifo_status any_close(struct any_queue *queue, uint64_t *left, size_t room, size_t *count) {
    if (queue->kind == OF_VALUES) return kfifo_close_values(queue->handles, queue->threads, left, room, count);
    kfifo_left cells = {0};
    void *cell = NULL;
    kfifo_status status = kfifo_close_cells(queue->handles, queue->threads, &cells);
    if (status != KFIFO_DONE) return status;
    for (*count = 0; *count < room && kfifo_next_left(&cells, &cell) == KFIFO_DONE;) left[(*count)++] = any_value(cell);
    kfifo_free_left(&cells);
    return status;
}

/* The same with an array that is long enough, which the caller frees. There are `most` values at most. */
__attribute__((unused)) static uint64_t *any_left(struct any_queue *queue, size_t most, size_t *count,
                                                  kfifo_status *status) {
    size_t room = queue->kind == OF_VALUES ? kfifo_values_room(queue->handles, queue->threads) : most;
    uint64_t *left = malloc(room ? room * sizeof *left : 1);
    if (!left) abort();
    *status = any_close(queue, left, room, count);
    return left;
}

__attribute__((unused)) static kfifo_status any_end(struct any_queue *queue) {
    return kfifo_abandon(queue->handles, queue->threads);
}

#endif
