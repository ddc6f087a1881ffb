/* A queue of cells, by one thread: whose a cell is, each refusal at its cause, cells of each size and alignment, what a
   close leaves, growth, changes of generations, and calls that wait. */
#include "kfifo_wait.h"
#include <stdio.h>
#include <stdlib.h>
#include <string.h>

static int failed;

static void expect(uint64_t is, uint64_t wanted, const char *what) {
    if (is != wanted) {
        fprintf(stderr, "%s: %llu, and not %llu\n", what, (unsigned long long)is, (unsigned long long)wanted);
        failed = 1;
    }
}

/* A queue of cells for a number each, that does not wear out and does not grow. */
static kfifo_status open_numbers(uint32_t k, uint32_t capacity, kfifo_handle *handles, size_t threads) {
    return kfifo_open_cells(k, capacity, sizeof(uint64_t), _Alignof(uint64_t), handles, threads);
}

static kfifo_status put(kfifo_handle *handle, uint64_t number) {
    void *cell = NULL;
    kfifo_status status = kfifo_reserve(handle, &cell);
    if (status != KFIFO_DONE) return status;
    *(uint64_t *)cell = number;
    return kfifo_publish(handle);
}

/* Receives a cell, and keeps it. */
static kfifo_status get(kfifo_handle *handle, uint64_t *number) {
    void *cell = NULL;
    kfifo_status status = kfifo_receive(handle, &cell);
    if (status == KFIFO_DONE) *number = *(uint64_t *)cell;
    return status;
}

/* The next number that a close left. */
static kfifo_status next(kfifo_left *left, uint64_t *number) {
    void *cell = NULL;
    kfifo_status status = kfifo_next_left(left, &cell);
    if (status == KFIFO_DONE) *number = *(uint64_t *)cell;
    return status;
}

/* ---- One thread ---- */

/* Each call without what it needs, and the same cell from each reserve until it is published. */
static void misuse(void) {
    kfifo_handle two[2];
    void *const mark = &failed, *cell = mark, *other = mark;
    expect(open_numbers(1, 2, two, 2), KFIFO_DONE, "open");
    expect(kfifo_publish(&two[0]), KFIFO_BAD_CALL, "a publish without a reserve");
    expect(kfifo_cancel(&two[0]), KFIFO_BAD_CALL, "a cancel without a reserve");
    expect(kfifo_release(&two[0]), KFIFO_BAD_CALL, "a release without a receive");
    expect(kfifo_receive(&two[0], &cell), KFIFO_EMPTY, "an empty queue");
    expect(cell == mark, 1, "the cell of a receive that got none");
    expect(kfifo_release(&two[0]), KFIFO_BAD_CALL, "a release after a receive that got none");
    expect(kfifo_reserve(&two[0], &cell), KFIFO_DONE, "a reserve");
    expect(kfifo_reserve(&two[0], &other), KFIFO_DONE, "a reserve before the publish");
    expect(other == cell, 1, "the cell of a reserve before the publish");
    expect(kfifo_reserve(&two[1], &other), KFIFO_DONE, "a reserve by the other handle");
    expect(other != cell, 1, "two handles have two cells");
    expect(kfifo_release(&two[0]), KFIFO_BAD_CALL, "a release of a reserved cell");
    expect(kfifo_publish(&two[0]), KFIFO_DONE, "a publish");
    expect(kfifo_publish(&two[0]), KFIFO_BAD_CALL, "a publish of a published cell");
    expect(kfifo_cancel(&two[0]), KFIFO_BAD_CALL, "a cancel of a published cell");
    expect(kfifo_receive(&two[1], &other), KFIFO_DONE, "a receive beside a reserved cell");
    expect(other == cell, 1, "the cell that was published");
    expect(kfifo_publish(&two[1]), KFIFO_DONE, "a publish beside a received cell");
    expect(kfifo_publish(&two[1]), KFIFO_BAD_CALL, "a publish of a received cell");
    expect(kfifo_cancel(&two[1]), KFIFO_BAD_CALL, "a cancel of a received cell");
    expect(kfifo_release(&two[1]), KFIFO_DONE, "a release");
    expect(kfifo_release(&two[1]), KFIFO_BAD_CALL, "a second release");
    expect(kfifo_receive(&two[1], &other), KFIFO_DONE, "a receive after a release");
    expect(kfifo_receive(&two[1], &other), KFIFO_EMPTY, "a receive that releases");
    expect(kfifo_release(&two[1]), KFIFO_BAD_CALL, "a release of what a receive released");
    expect(kfifo_abandon(two, 2), KFIFO_DONE, "abandon");
    expect(kfifo_reserve(&two[0], &cell), KFIFO_BAD_CALL, "a reserve by a closed handle");
    expect(kfifo_publish(&two[0]), KFIFO_BAD_CALL, "a publish by a closed handle");
    expect(kfifo_cancel(&two[0]), KFIFO_BAD_CALL, "a cancel by a closed handle");
    expect(kfifo_receive(&two[0], &cell), KFIFO_BAD_CALL, "a receive by a closed handle");
    expect(kfifo_release(&two[0]), KFIFO_BAD_CALL, "a release by a closed handle");
}

/* Puts numbers until there is no free cell. Returns how many there were. */
static uint64_t fill(kfifo_handle *handle) {
    uint64_t count = 0;
    kfifo_status status;
    while ((status = put(handle, count)) == KFIFO_DONE) count++;
    expect(status, KFIFO_FULL, "a queue without a free cell");
    return count;
}

/* What is given back may be reserved again, and a cell that is kept may not. */
static void cancels(void) {
    kfifo_handle one;
    void *cell = NULL, *other = NULL;
    expect(open_numbers(1, 2, &one, 1), KFIFO_DONE, "open");
    uint64_t inside = fill(&one);
    expect(inside >= 2, 1, "room for the capacity");
    expect(kfifo_publish(&one), KFIFO_BAD_CALL, "a publish after a reserve that had none");
    expect(kfifo_receive(&one, &cell), KFIFO_DONE, "a receive");
    expect(kfifo_reserve(&one, &other), KFIFO_FULL, "a received cell is not free");
    expect(kfifo_release(&one), KFIFO_DONE, "a release");
    expect(kfifo_reserve(&one, &other), KFIFO_DONE, "a reserve of the cell that was released");
    expect(other == cell, 1, "which cell that is");
    expect(kfifo_cancel(&one), KFIFO_DONE, "a cancel");
    expect(kfifo_cancel(&one), KFIFO_BAD_CALL, "a second cancel");
    expect(kfifo_publish(&one), KFIFO_BAD_CALL, "a publish after a cancel");
    expect(kfifo_reserve(&one, &other), KFIFO_DONE, "a reserve of the cell that was given back");
    expect(other == cell, 1, "which cell that is after a cancel");
    expect(kfifo_abandon(&one, 1), KFIFO_DONE, "abandon");
}

/* One handle only gives and one only takes, so each cell comes back by the pool, a batch at a time. None is lost: the
   giver would soon have none. */
static void batches(uint32_t capacity) {
    kfifo_handle two[2];
    uint64_t number = 77;
    expect(open_numbers(1, capacity, two, 2), KFIFO_DONE, "open");
    for (uint64_t i = 0; i < 100 * (uint64_t)capacity + 10000; i++) {
        expect(put(&two[0], i), KFIFO_DONE, "a publish by the one that gives");
        expect(get(&two[1], &number), KFIFO_DONE, "a receive by the one that takes");
        expect(number, i, "what it receives");
        expect(kfifo_release(&two[1]), KFIFO_DONE, "its release");
    }
    for (uint64_t round = 0; round < 50; round++) {
        uint64_t count = fill(&two[0]);
        if (count < capacity) expect(count, capacity, "room for the capacity");
        for (uint64_t i = 0; i < count; i++) {
            expect(get(&two[1], &number), KFIFO_DONE, "a receive of all");
            expect(number, i, "all in their order");
        }
        expect(get(&two[1], &number), KFIFO_EMPTY, "a receive of one more");
    }
    expect(kfifo_abandon(two, 2), KFIFO_DONE, "abandon");
}

/* What refuses an opening, in this order: the handles are closed then. */
static void refuses_to_open(void) {
    static kfifo_handle many[65];
    void *cell = NULL;
    uint64_t last = KFIFO_LAST, reserve = KFIFO_RESERVE;
    expect(kfifo_open_cells(0, 0, 0, 0, NULL, 0), KFIFO_BAD_CALL, "no handles");
    expect(kfifo_open_cells_with(0, 0, 0, 0, 1, last, 0, NULL, 65), KFIFO_BAD_CALL, "no handles with versions");
    expect(kfifo_open_cells_with(0, 0, 0, 0, 1, last, 0, many, 0), KFIFO_BAD_THREADS, "threads 0");
    expect(kfifo_open_cells_with(0, 0, 0, 0, 1, last, 0, many, 65), KFIFO_BAD_THREADS, "threads 65");
    expect(kfifo_open_cells_with(0, 0, 0, 0, 1, last, 0, many, 2), KFIFO_BAD_K, "k 0");
    expect(kfifo_open_cells_with(65, 0, 0, 0, 1, last, 0, many, 2), KFIFO_BAD_K, "k 65");
    expect(kfifo_open_cells_with(4, 0, 0, 0, 1, last, 0, many, 2), KFIFO_BAD_LAST, "the greatest version 1");
    expect(kfifo_open_cells_with(4, 0, 0, 0, last + 1, last, 0, many, 2), KFIFO_BAD_LAST, "the greatest version 2^40");
    expect(kfifo_open_cells_with(4, 0, 0, 0, last, last, 0, many, 2), KFIFO_BAD_CAPACITY, "capacity 0");
    expect(kfifo_open_cells_with(4, 4025, 0, 0, last, last, 0, many, 2), KFIFO_BAD_CAPACITY,
           "a capacity that is too great");
    expect(kfifo_open_cells_with(1, 1, 0, 0, last, last, 0, many, 31), KFIFO_BAD_CAPACITY, "k = 1 with 31 handles");
    static const uint32_t bad[][2] = {{0, 8}, {8, 0}, {8, 3}, {12, 8}, {8192, 8192}, {4, 8}, {7, 2}};
    for (size_t i = 0; i < sizeof bad / sizeof bad[0]; i++)
        expect(kfifo_open_cells_with(4, 4024, bad[i][0], bad[i][1], last, last, 0, many, 2), KFIFO_BAD_LAYOUT,
               "a size or an alignment that there is not");
    expect(kfifo_open_cells_with(4, 32, 8, 8, last, last, 0, many, 2), KFIFO_BAD_RESERVE, "a reserve of all versions");
    expect(kfifo_open_cells_with(4, 32, 8, 8, last, reserve, 0, many, 2), KFIFO_BAD_CALL, "no generation");
    expect(kfifo_open_cells_with(4, 32, 8, 8, last, reserve, 126, many, 2), KFIFO_BAD_CALL, "too many generations");
    for (int i = 0; i < 2; i++) expect(kfifo_reserve(&many[i], &cell), KFIFO_BAD_CALL, "a handle of a refused open");
    expect(kfifo_open_cells_with(4, 32, 8, 8, last, reserve, 125, many, 2), KFIFO_DONE,
           "as many generations as may be");
    expect(kfifo_abandon(many, 2), KFIFO_DONE, "abandon");
    expect(kfifo_open_cells(4, 4024, 8, 8, many, 2), KFIFO_DONE, "the greatest capacity");
    expect(kfifo_abandon(many, 2), KFIFO_DONE, "abandon");
}

static void refusals(void) {
    static kfifo_handle one;
    kfifo_left left = {0};
    void *const mark = &failed, *cell = mark;
    expect(open_numbers(1, 3, &one, 1), KFIFO_DONE, "open");
    expect(kfifo_reserve(NULL, &cell), KFIFO_BAD_CALL, "no handle to reserve by");
    expect(kfifo_reserve(&one, NULL), KFIFO_BAD_CALL, "no variable to reserve into");
    expect(kfifo_publish(NULL), KFIFO_BAD_CALL, "no handle to publish by");
    expect(kfifo_publish_once(NULL), KFIFO_BAD_CALL, "no handle to publish by once");
    expect(kfifo_cancel(NULL), KFIFO_BAD_CALL, "no handle to cancel by");
    expect(kfifo_receive(NULL, &cell), KFIFO_BAD_CALL, "no handle to receive by");
    expect(kfifo_receive(&one, NULL), KFIFO_BAD_CALL, "no variable to receive into");
    expect(kfifo_receive_once(&one, NULL), KFIFO_BAD_CALL, "no variable to receive into once");
    expect(kfifo_release(NULL), KFIFO_BAD_CALL, "no handle to release by");
    expect(kfifo_reserve_wait(NULL, &cell, 0), KFIFO_BAD_CALL, "no handle to reserve by and wait");
    expect(kfifo_receive_wait(&one, NULL, KFIFO_FOREVER), KFIFO_BAD_CALL, "no variable to receive into and wait");
    expect(kfifo_publish_wait(&one, KFIFO_FOREVER), KFIFO_BAD_CALL, "a publish that waits for no cell");
    expect(kfifo_finish(NULL), KFIFO_BAD_CALL, "no handle to finish by");
    expect(kfifo_close_cells(NULL, 1, &left), KFIFO_BAD_CALL, "no handles to close");
    expect(kfifo_close_cells(&one, 1, NULL), KFIFO_BAD_CALL, "nothing to keep what is left");
    expect(kfifo_close_cells(&one, 0, &left), KFIFO_BAD_CALL, "a close by no handle");
    expect(kfifo_abandon(NULL, 1), KFIFO_BAD_CALL, "no handles to abandon");
    expect(kfifo_next_left(&left, &cell), KFIFO_BAD_CALL, "a next one where nothing is left");
    expect(kfifo_next_left(NULL, &cell), KFIFO_BAD_CALL, "no cells that are left");
    kfifo_free_left(&left);
    kfifo_free_left(NULL);
    expect(cell == mark, 1, "the cell of calls that did nothing");
    expect(put(&one, 5), KFIFO_DONE, "a call after those that did nothing");
    expect(kfifo_close_cells(&one, 1, &left), KFIFO_DONE, "a close");
    expect(kfifo_next_left(&left, NULL), KFIFO_BAD_CALL, "no variable for what is left");
    expect(kfifo_next_left(&left, &cell), KFIFO_DONE, "what is left");
    expect(*(uint64_t *)cell, 5, "which number is left");
    cell = mark;
    expect(kfifo_next_left(&left, &cell), KFIFO_EMPTY, "no more is left");
    expect(kfifo_next_left(&left, &cell), KFIFO_EMPTY, "no more is left, again");
    kfifo_free_left(&left);
    expect(kfifo_next_left(&left, &cell), KFIFO_BAD_CALL, "a next one after the free");
    kfifo_free_left(&left);
    expect(cell == mark, 1, "the cell where none is left");
    expect(kfifo_abandon(&one, 1), KFIFO_DONE, "an abandon of a closed handle");
}

/* More handles than a queue has. The array is on the heap and has just 64 handles. */
static void too_many_threads(void) {
    static const size_t counts[] = {65, 200, SIZE_MAX};
    enum { THREADS = 64 };
    kfifo_handle *all = malloc(THREADS * sizeof *all);
    kfifo_left left = {0};
    void *cell = NULL;
    uint64_t number = 77;
    if (!all) abort();
    for (size_t i = 0; i < sizeof counts / sizeof counts[0]; i++) {
        memset(all, 0xff, THREADS * sizeof *all);
        expect(open_numbers(4, 64, all, counts[i]), KFIFO_BAD_THREADS, "an open for too many threads");
        expect(kfifo_reserve(&all[0], &cell), KFIFO_BAD_CALL, "the first handle of an open for too many threads");
        expect(kfifo_reserve(&all[THREADS - 1], &cell), KFIFO_BAD_CALL, "the last handle of such an open");
        expect(open_numbers(4, 64, all, THREADS), KFIFO_DONE, "an open for 64 threads");
        expect(put(&all[63], 6), KFIFO_DONE, "a publish by the last thread");
        expect(kfifo_close_cells(all, counts[i], &left), KFIFO_BAD_THREADS, "a close by too many handles");
        expect(kfifo_abandon(all, counts[i]), KFIFO_BAD_THREADS, "an abandon of too many handles");
        expect(get(&all[0], &number), KFIFO_DONE, "a receive after calls with too many handles");
        expect(number, 6, "what it received");
        expect(kfifo_abandon(all, THREADS), KFIFO_DONE, "an abandon of 64 handles");
    }
    expect(open_numbers(4, 64, all, THREADS), KFIFO_DONE, "an open to be closed by 64 handles");
    expect(put(&all[63], 8), KFIFO_DONE, "a cell to be left by 64 handles");
    expect(kfifo_close_cells(all, THREADS - 1, &left), KFIFO_BAD_CALL, "a close by 63 of 64");
    expect(left.inside == NULL, 1, "what a close by 63 of 64 keeps");
    expect(kfifo_close_cells(all, THREADS, &left), KFIFO_DONE, "a close by 64 handles");
    expect(next(&left, &number), KFIFO_DONE, "a cell that 64 handles leave");
    expect(number, 8, "which cell 64 handles leave");
    expect(next(&left, &number), KFIFO_EMPTY, "one cell is left by 64 handles");
    kfifo_free_left(&left);
    free(all);
}

/* What a close leaves: the cells that are in the queue, in its order, and neither a reserved one nor a received one. */
static void closes(void) {
    /* `mixed` are the last handle of the one queue and the first of the other. */
    kfifo_handle all[4], *two = all, *other = &all[2], *mixed = &all[1];
    kfifo_left left = {0}, none = {0};
    void *cell = NULL;
    uint64_t number = 77;
    expect(open_numbers(1, 8, two, 2), KFIFO_DONE, "open for a close");
    for (uint64_t i = 0; i < 5; i++) expect(put(&two[i % 2], 10 + i), KFIFO_DONE, "a cell to be left");
    expect(get(&two[0], &number), KFIFO_DONE, "a receive before a close");
    expect(number, 10, "the oldest cell");
    expect(kfifo_reserve(&two[1], &cell), KFIFO_DONE, "a reserve before a close");
    expect(open_numbers(1, 8, other, 2), KFIFO_DONE, "open another");
    expect(kfifo_close_cells(mixed, 2, &left), KFIFO_BAD_CALL, "a close by handles of two queues");
    expect(kfifo_close_cells(two, 1, &left), KFIFO_BAD_CALL, "a close without one of the handles");
    expect(left.inside == NULL, 1, "what a close that did nothing keeps");
    expect(kfifo_close_cells(two, 2, &left), KFIFO_DONE, "close");
    for (uint64_t i = 1; i < 5; i++) {
        expect(next(&left, &number), KFIFO_DONE, "a cell that is left");
        expect(number, 10 + i, "a cell that is left, in its order");
    }
    expect(next(&left, &number), KFIFO_EMPTY, "cells left");
    expect(kfifo_reserve(&two[1], &cell), KFIFO_BAD_CALL, "a reserve after the close");
    expect(kfifo_publish(&two[1]), KFIFO_BAD_CALL, "a publish of a cell that was reserved before the close");
    expect(kfifo_release(&two[0]), KFIFO_BAD_CALL, "a release of a cell that was received before the close");
    kfifo_free_left(&left);
    expect(kfifo_close_cells(other, 2, &none), KFIFO_DONE, "close the other");
    expect(next(&none, &number), KFIFO_EMPTY, "cells left in the other");
    kfifo_free_left(&none);
}

/* A queue whose versions are used up: the cells stay whose they are. */
static void worn(void) {
    kfifo_handle one = {0};
    kfifo_left left = {0};
    void *cell = NULL, *again = NULL;
    uint64_t oldest = 0, number = 0, end = 0;
    kfifo_status status = KFIFO_DONE;
    expect(kfifo_open_cells_with(1, 4, 8, 8, 2, 0, 1, &one, 1), KFIFO_DONE, "open for few versions");
    while (end < 10000 && status == KFIFO_DONE) {
        status = put(&one, end);
        if (status == KFIFO_DONE) end++;
        if (status != KFIFO_DONE || end - oldest < 3) continue;
        status = get(&one, &number);
        if (status == KFIFO_DONE) expect(number, oldest++, "the oldest number");
    }
    expect(status, KFIFO_WORN, "worn");
    while (put(&one, end) == KFIFO_DONE) end++; /* so that a cell is reserved */
    expect(kfifo_reserve(&one, &cell), KFIFO_DONE, "a reserve by a worn queue");
    expect(kfifo_publish(&one), KFIFO_WORN, "a publish to a worn queue");
    expect(kfifo_reserve(&one, &again), KFIFO_DONE, "a reserve after a publish to a worn queue");
    expect(cell == again, 1, "the cell that a worn queue refused");
    expect(kfifo_cancel(&one), KFIFO_DONE, "a cancel in a worn queue");
    expect(kfifo_close_cells(&one, 1, &left), KFIFO_DONE, "close a worn queue");
    for (; next(&left, &number) == KFIFO_DONE; oldest++) expect(number, oldest, "what is left of a worn queue");
    expect(oldest, end, "how many are left of a worn queue");
    kfifo_free_left(&left);
}

/* Whole cells hold what is written into them. At FULL as many are in the queue as it was opened for, or more. */
static void whole_cells(uint32_t size, uint32_t alignment) {
    kfifo_handle two[2];
    void *cell = NULL;
    expect(kfifo_open_cells(4, 32, size, alignment, two, 2), KFIFO_DONE, "open for whole cells");
    unsigned in = 0, out = 0, sum = 0, wrong = 0;
    for (kfifo_status status; (status = kfifo_reserve(&two[0], &cell)) == KFIFO_DONE; in++) {
        wrong += (uintptr_t)cell % alignment != 0;
        memset(cell, (int)(in + 1), size);
        expect(kfifo_publish(&two[0]), KFIFO_DONE, "a publish of a whole cell");
    }
    expect(in >= 32 && in < 128, 1, "how many whole cells go in");
    for (; kfifo_receive(&two[1], &cell) == KFIFO_DONE; out++) {
        const unsigned char *bytes = cell;
        wrong += (uintptr_t)cell % alignment != 0;
        for (uint32_t i = 1; i < size; i++) wrong += bytes[i] != bytes[0];
        sum += bytes[0];
    }
    expect(out, in, "how many whole cells come out");
    expect(sum, in * (in + 1) / 2, "which whole cells come out");
    expect(wrong, 0, "cells that are torn or not aligned");
    /* What a close leaves is in its place too. */
    kfifo_left left = {0};
    expect(kfifo_reserve(&two[0], &cell), KFIFO_DONE, "a reserve of a cell to be left");
    memset(cell, 9, size);
    expect(kfifo_publish(&two[0]), KFIFO_DONE, "a whole cell to be left");
    expect(kfifo_close_cells(two, 2, &left), KFIFO_DONE, "a close with a whole cell");
    expect(kfifo_next_left(&left, &cell), KFIFO_DONE, "the whole cell that is left");
    for (uint32_t i = 0; i < size; i++) wrong += ((const unsigned char *)cell)[i] != 9;
    expect(wrong + (uintptr_t)cell % alignment, 0, "the whole cell that is left is torn or not aligned");
    kfifo_free_left(&left);
}

/* ---- Generations ---- */

/* A queue that grows: numbers stay where they are written, those of the oldest generation come first, and a close
   leaves the others. */
static void grows(void) {
    kfifo_handle two[2];
    kfifo_left left = {0};
    uint64_t number = 77, got = 0;
    expect(kfifo_open_cells_with(1, 8, 8, 8, KFIFO_LAST, KFIFO_RESERVE, 4, two, 2), KFIFO_DONE, "open to grow");
    uint64_t in = fill(&two[0]);
    expect(in >= 4 * 8, 1, "room in four generations");
    for (; got < in / 2; got++) {
        expect(get(&two[1], &number), KFIFO_DONE, "a receive from several generations");
        expect(number, got, "a number of several generations, in its order");
    }
    expect(kfifo_close_cells(two, 2, &left), KFIFO_DONE, "a close of several generations");
    for (; next(&left, &number) == KFIFO_DONE; got++)
        expect(number, got, "what several generations leave, in its order");
    expect(got, in, "how many several generations leave");
    kfifo_free_left(&left);
}

/* A queue that wears out soon goes on in other memory. */
static void renews(void) {
    kfifo_handle two[2];
    void *cell = NULL;
    uint64_t number = 77;
    expect(kfifo_open_cells_with(1, 4, 8, 8, 64, 16, 1, two, 2), KFIFO_DONE, "open to renew");
    for (uint64_t i = 0; i < 20000; i++) {
        expect(put(&two[0], i), KFIFO_DONE, "a publish through changes");
        expect(get(&two[1], &number), KFIFO_DONE, "a receive through changes");
        expect(number, i, "a number through changes");
        if (i % 2) expect(kfifo_release(&two[1]), KFIFO_DONE, "a release through changes");
    }
    expect(kfifo_reserve(&two[0], &cell), KFIFO_DONE, "a reserve after changes");
    expect(kfifo_abandon(two, 2), KFIFO_DONE, "abandon");
}

/* Cells that are reserved while another handle uses up the versions of their generation. That takes no more, so their
   publishes copy them into cells of the next one. */
static void moves_on(void) {
    enum { MANY = 40 };
    kfifo_handle handles[MANY], *last = &handles[MANY - 1];
    kfifo_left left = {0};
    void *cells[MANY];
    uint64_t number = 0, in = 0, out = 0;
    int moved = 0;
    expect(kfifo_open_cells_with(4, 4, 8, 8, 2, 1, 1, handles, MANY), KFIFO_DONE, "open to move on");
    for (uint64_t i = 0; i < MANY - 1; i++) {
        expect(kfifo_reserve(&handles[i], &cells[i]), KFIFO_DONE, "a reserve before the other goes on");
        *(uint64_t *)cells[i] = i;
    }
    for (uint64_t i = 0; i < 40 && !failed; i++) {
        expect(put(last, 1000 + i), KFIFO_DONE, "a publish of the one that goes on");
        in += 1000 + i;
        if (get(last, &number) == KFIFO_DONE) out += number;
    }
    for (uint64_t i = 0; i < MANY - 1; i++) {
        expect(*(uint64_t *)cells[i], i, "what is in a cell that stays reserved");
        kfifo_status status = kfifo_bare_publish(&handles[i]); /* the same without the copy */
        if (status == KFIFO_WORN) {
            moved++;
            status = kfifo_publish(&handles[i]);
        }
        expect(status, KFIFO_DONE, "a publish of a cell that stayed reserved");
        expect(kfifo_cancel(&handles[i]), KFIFO_BAD_CALL, "a cancel after that publish");
        in += i;
        if (get(last, &number) == KFIFO_DONE) out += number;
    }
    expect(moved > 0, 1, "cells whose generation is over");
    /* A reserve of 1 is too few versions to empty a generation, so some numbers are left in it. */
    expect(kfifo_close_cells(handles, MANY, &left), KFIFO_DONE, "a close of those that moved on");
    while (next(&left, &number) == KFIFO_DONE) out += number;
    expect(out, in, "the numbers that came out");
    kfifo_free_left(&left);
}

/* A cell whose generation takes no more, while the next one has no room: its publish is refused, and it stays reserved,
   where it was. Once there is room the publish copies it. */
static void waits_to_move(void) {
    kfifo_handle two[2];
    void *cell = NULL, *again = NULL;
    uint64_t number = 0, in = 0, out = 0;
    kfifo_status status = KFIFO_DONE;
    expect(kfifo_open_cells_with(1, 4, 8, 8, 201, 2, 1, two, 2), KFIFO_DONE, "open to wait");
    expect(kfifo_reserve(&two[0], &cell), KFIFO_DONE, "a reserve that waits");
    *(uint64_t *)cell = 77;
    for (uint64_t i = 0; i < 110 && !failed; i++) { /* 100 use up the versions of the first one */
        expect(put(&two[1], i), KFIFO_DONE, "a publish until the generation is over");
        expect(get(&two[1], &number), KFIFO_DONE, "a receive until the generation is over");
        expect(number, i, "a number until the generation is over");
    }
    expect(kfifo_bare_publish(&two[0]), KFIFO_WORN, "a publish to a generation that is over, without the copy");
    while ((status = put(&two[1], in)) == KFIFO_DONE) in++;
    expect(status, KFIFO_FULL, "a queue without room");
    expect(kfifo_publish(&two[0]), KFIFO_FULL, "a publish that finds no room");
    expect(kfifo_reserve(&two[0], &again), KFIFO_DONE, "a reserve after that");
    expect(cell == again, 1, "the cell that stays reserved");
    expect(*(uint64_t *)cell, 77, "what is in the cell that stays reserved");
    for (; out < in / 2; out++) {
        expect(get(&two[1], &number), KFIFO_DONE, "a receive that makes room");
        expect(number, out, "a number that makes room");
    }
    expect(kfifo_publish(&two[0]), KFIFO_DONE, "a publish that finds room");
    expect(kfifo_cancel(&two[0]), KFIFO_BAD_CALL, "a cancel after that publish");
    for (; out <= in; out++) {
        expect(get(&two[1], &number), KFIFO_DONE, "a receive of all");
        expect(number, out < in ? out : 77, "a number, and at the end the copied one");
    }
    expect(get(&two[1], &number), KFIFO_EMPTY, "a receive after all");
    expect(kfifo_abandon(two, 2), KFIFO_DONE, "abandon");
}

/* A cell stays the one that is reserved, also where another handle goes on through some generations meanwhile. */
static void stays_reserved(void) {
    kfifo_handle two[2];
    void *cell = NULL, *again = NULL;
    uint64_t number = 77;
    expect(kfifo_open_cells_with(1, 4, 8, 8, 64, 32, 1, two, 2), KFIFO_DONE, "open for one that stays");
    expect(kfifo_reserve(&two[0], &cell), KFIFO_DONE, "a reserve by one that stays");
    *(uint64_t *)cell = 5;
    for (uint64_t i = 0; i < 100; i++) {
        expect(put(&two[1], i), KFIFO_DONE, "a publish through changes");
        expect(get(&two[1], &number), KFIFO_DONE, "a receive beside one that stays");
        expect(number, i, "a number beside one that stays");
    }
    expect(kfifo_reserve(&two[0], &again), KFIFO_DONE, "a reserve once more by one that stays");
    expect(again == cell && *(uint64_t *)cell == 5, 1, "the cell that stays");
    expect(kfifo_publish(&two[0]), KFIFO_DONE, "a publish of the cell that stays");
    expect(kfifo_publish(&two[0]), KFIFO_BAD_CALL, "a second publish of the cell that stays");
    expect(get(&two[1], &number), KFIFO_DONE, "a receive of the cell that stays");
    expect(number, 5, "the number of the cell that stays");
    expect(kfifo_abandon(two, 2), KFIFO_DONE, "abandon");
}

/* ---- Threads that wait ---- */

static void times(void) {
    kfifo_handle two[2];
    void *cell = NULL;
    uint64_t number = 0;
    expect(open_numbers(1, 2, two, 2), KFIFO_DONE, "open for times");
    expect(kfifo_receive_wait(&two[0], &cell, 1000000), KFIFO_TIMED_OUT, "a receive that waits");
    uint64_t inside = fill(&two[0]);
    expect(kfifo_reserve_wait(&two[0], &cell, 0), KFIFO_TIMED_OUT, "a reserve that does not sleep");
    expect(kfifo_reserve_wait(&two[0], &cell, 1000000), KFIFO_TIMED_OUT, "a reserve that waits");
    expect(kfifo_receive_wait(&two[0], &cell, 0), KFIFO_DONE, "a receive that need not wait");
    expect(kfifo_reserve_wait(&two[0], &cell, 1000000), KFIFO_TIMED_OUT, "a reserve beside a received cell");
    expect(kfifo_release(&two[0]), KFIFO_DONE, "a release");
    expect(kfifo_reserve_wait(&two[0], &cell, 0), KFIFO_DONE, "a reserve after a release");
    *(uint64_t *)cell = inside;
    expect(kfifo_publish_wait(&two[0], 0), KFIFO_DONE, "a publish that need not wait");
    expect(get(&two[0], &number), KFIFO_DONE, "a receive");
    expect(kfifo_release(&two[0]), KFIFO_DONE, "a second release");
    expect(kfifo_reserve_wait(&two[0], &cell, 0), KFIFO_DONE, "a reserve before the end");
    expect(kfifo_finish(&two[1]), KFIFO_DONE, "finish");
    expect(kfifo_reserve(&two[0], &cell), KFIFO_FINISHED, "a reserve after the end");
    expect(kfifo_reserve_wait(&two[0], &cell, KFIFO_FOREVER), KFIFO_FINISHED, "a reserve that waits after the end");
    expect(kfifo_publish_wait(&two[0], KFIFO_FOREVER), KFIFO_FINISHED, "a publish after the end");
    for (uint64_t i = 2; i <= inside; i++) {
        expect(kfifo_receive_wait(&two[0], &cell, KFIFO_FOREVER), KFIFO_DONE, "a receive after the end");
        expect(*(uint64_t *)cell, i, "a number after the end");
    }
    expect(kfifo_receive(&two[1], &cell), KFIFO_FINISHED, "the end of a receive that does not wait");
    expect(kfifo_receive_wait(&two[0], &cell, KFIFO_FOREVER), KFIFO_FINISHED, "the end");
    expect(kfifo_abandon(two, 2), KFIFO_DONE, "abandon after the end");
    expect(kfifo_reserve(&two[0], &cell), KFIFO_BAD_CALL, "a closed handle after the end");
    expect(kfifo_publish(&two[0]), KFIFO_BAD_CALL, "a publish by a closed handle after the end");
    expect(kfifo_receive(&two[0], &cell), KFIFO_BAD_CALL, "a receive by a closed handle after the end");
}

int main(void) {
    misuse();
    cancels();
    batches(1);
    batches(5);
    batches(100);
    refuses_to_open();
    refusals();
    too_many_threads();
    closes();
    worn();
    for (uint32_t alignment = 1; alignment <= 4096; alignment *= 2) {
        whole_cells(alignment, alignment);
        whole_cells(3 * alignment, alignment);
    }
    whole_cells(6, 2);
    whole_cells(1 << 16, 16);
    grows();
    renews();
    moves_on();
    waits_to_move();
    stays_reserved();
    times();
    printf("%s\n", failed ? "the queue of cells fails"
                          : "a queue of cells: each cell is whose a call says it is, and comes out as it was written");
    return failed;
}
