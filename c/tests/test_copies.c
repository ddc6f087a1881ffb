/* A handle and its copy in one array, without KFIFO_DEBUG: a close and an abandon refuse them, and free nothing. */
#undef KFIFO_DEBUG
#include "kfifo.h"
#include <stdio.h>

enum { THREADS = 3, ROOM = 512 };

static int failed;

static void expect(uint64_t is, uint64_t wanted, const char *what) {
    if (is != wanted) {
        fprintf(stderr, "%s: %llu, and not %llu\n", what, (unsigned long long)is, (unsigned long long)wanted);
        failed = 1;
    }
}

static void items(void) {
    kfifo_handle handles[THREADS];
    uint32_t left[ROOM];
    size_t count = 77;
    expect(kfifo_open(1, 8, 1, KFIFO_LAST, handles, THREADS), KFIFO_DONE, "open");
    expect(kfifo_put(&handles[2], 7), KFIFO_DONE, "put");
    kfifo_handle with_copy[THREADS] = {handles[0], handles[1], handles[0]};
    expect(kfifo_close(with_copy, THREADS, left, ROOM, &count), KFIFO_BAD_CALL, "a close by a handle and its copy");
    expect(kfifo_abandon(with_copy, THREADS), KFIFO_BAD_CALL, "an abandon of a handle and its copy");
    expect(count, 77, "the count of a close that did nothing");
    expect(kfifo_close(handles, THREADS, left, ROOM, &count), KFIFO_DONE, "close");
    expect(count == 1 && left[0] == 7, 1, "what is left");
}

static void values(void) {
    kfifo_handle handles[THREADS];
    uint64_t left[ROOM];
    size_t count = 77;
    expect(kfifo_open_values(1, 8, handles, THREADS), KFIFO_DONE, "open a queue of values");
    expect(kfifo_give(&handles[2], 7), KFIFO_DONE, "give");
    kfifo_handle with_copy[THREADS] = {handles[0], handles[1], handles[0]};
    expect(kfifo_values_room(with_copy, THREADS), 0, "the room of a handle and its copy");
    expect(kfifo_close_values(with_copy, THREADS, left, ROOM, &count), KFIFO_BAD_CALL,
           "a close of values by a handle and its copy");
    expect(kfifo_abandon(with_copy, THREADS), KFIFO_BAD_CALL, "an abandon of a handle of values and its copy");
    expect(count, 77, "the count of a close of values that did nothing");
    expect(kfifo_values_room(handles, THREADS) >= 8, 1, "room");
    expect(kfifo_close_values(handles, THREADS, left, ROOM, &count), KFIFO_DONE, "close a queue of values");
    expect(count == 1 && left[0] == 7, 1, "which value is left");
}

static void cells(void) {
    kfifo_handle handles[THREADS];
    kfifo_left left = {0};
    void *cell = NULL;
    expect(kfifo_open_cells(1, 8, 8, 8, handles, THREADS), KFIFO_DONE, "open a queue of cells");
    expect(kfifo_reserve(&handles[2], &cell), KFIFO_DONE, "reserve");
    *(uint64_t *)cell = 7;
    expect(kfifo_publish(&handles[2]), KFIFO_DONE, "publish");
    kfifo_handle with_copy[THREADS] = {handles[0], handles[1], handles[0]};
    expect(kfifo_close_cells(with_copy, THREADS, &left), KFIFO_BAD_CALL, "a close of cells by a handle and its copy");
    expect(kfifo_abandon(with_copy, THREADS), KFIFO_BAD_CALL, "an abandon of a handle of cells and its copy");
    expect(left.inside == NULL, 1, "what a close of cells that did nothing keeps");
    expect(kfifo_close_cells(handles, THREADS, &left), KFIFO_DONE, "close a queue of cells");
    expect(kfifo_next_left(&left, &cell), KFIFO_DONE, "a cell that is left");
    expect(*(uint64_t *)cell, 7, "which cell is left");
    expect(kfifo_next_left(&left, &cell), KFIFO_EMPTY, "one cell is left");
    kfifo_free_left(&left);
}

int main(void) {
    items();
    values();
    cells();
    puts(failed ? "a handle and its copy are taken for two handles" : "a handle and its copy are refused");
    return failed;
}
