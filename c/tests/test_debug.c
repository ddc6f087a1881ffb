/* With KFIFO_DEBUG each call by a copy of a handle, and a second call by a handle while one runs, ends the program and
   says which call it was. Each is made in a process of its own. */
#define _GNU_SOURCE
#ifndef KFIFO_DEBUG
#define KFIFO_DEBUG
#endif
#include "kfifo_wait.h"
#include "test_ends.h"
#include <pthread.h>
#include <sched.h>
#include <stdatomic.h>
#include <sys/syscall.h>

enum { THREADS = 2 };

/* A queue of each kind, and copies of its handles. */
static kfifo_handle items[THREADS], items_copy[THREADS];
static kfifo_handle values[THREADS], values_copy[THREADS];
static kfifo_handle cells[THREADS], cells_copy[THREADS];
static uint32_t item, left_items[8];
static uint64_t value, word, left[256];
static void *cell;
static kfifo_left left_cells;
static size_t count;

static void open_all(void) {
    if (kfifo_open(1, 8, 1, KFIFO_LAST, items, THREADS) != KFIFO_DONE) exit(2);
    if (kfifo_open_values(1, 8, values, THREADS) != KFIFO_DONE) exit(2);
    if (kfifo_open_cells(1, 8, 8, 8, cells, THREADS) != KFIFO_DONE) exit(2);
    memcpy(items_copy, items, sizeof items);
    memcpy(values_copy, values, sizeof values);
    memcpy(cells_copy, cells, sizeof cells);
}

/* A name of a call, and the call by the handles in these arrays. */
#define CALL(name, ...)                                                                                                \
    static void call_##name(kfifo_handle *i, kfifo_handle *v, kfifo_handle *c) {                                       \
        (void)i, (void)v, (void)c;                                                                                     \
        if (name(__VA_ARGS__)) return;                                                                                 \
    }
CALL(kfifo_put, i, 1)
CALL(kfifo_get, i, &item)
CALL(kfifo_enqueue, i, 1, 0, 1)
CALL(kfifo_dequeue, i, &item, 0, 1)
CALL(kfifo_word, i, 0, &word)
CALL(kfifo_close, i, THREADS, left_items, 8, &count)
CALL(kfifo_abandon, i, THREADS)
CALL(kfifo_give, v, 1)
CALL(kfifo_take, v, &value)
CALL(kfifo_values_room, v, THREADS)
CALL(kfifo_close_values, v, THREADS, left, 256, &count)
CALL(kfifo_reserve, c, &cell)
CALL(kfifo_publish, c)
CALL(kfifo_cancel, c)
CALL(kfifo_receive, c, &cell)
CALL(kfifo_release, c)
CALL(kfifo_close_cells, c, THREADS, &left_cells)

typedef void by_handles(kfifo_handle *, kfifo_handle *, kfifo_handle *);
static const struct {
    const char *name;
    by_handles *call;
    char kind;
} calls[] = {
#define ROW(name, kind)                                                                                                \
    { #name, call_##name, kind }
    ROW(kfifo_put, 'i'),         ROW(kfifo_get, 'i'),         ROW(kfifo_enqueue, 'i'),      ROW(kfifo_dequeue, 'i'),
    ROW(kfifo_word, 'i'),        ROW(kfifo_close, 'i'),       ROW(kfifo_abandon, 'i'),      ROW(kfifo_give, 'v'),
    ROW(kfifo_take, 'v'),        ROW(kfifo_values_room, 'v'), ROW(kfifo_close_values, 'v'), ROW(kfifo_reserve, 'c'),
    ROW(kfifo_publish, 'c'),     ROW(kfifo_cancel, 'c'),      ROW(kfifo_receive, 'c'),      ROW(kfifo_release, 'c'),
    ROW(kfifo_close_cells, 'c'),
};
enum { CALLS = sizeof calls / sizeof calls[0] };

/* The thread that waits. */
static atomic_int waits_in;

/* Waits until it sleeps. Before that it is in no call for a moment, after it has announced itself. */
static void until_it_sleeps(void) {
    char path[64], state = 0;
    snprintf(path, sizeof path, "/proc/self/task/%d/stat", atomic_load(&waits_in));
    while (state != 'S') {
        FILE *file = fopen(path, "r");
        if (!file || fscanf(file, "%*d (%*[^)]) %c", &state) != 1) exit(2);
        fclose(file);
        sched_yield();
    }
}

static void *wait_for_item(void *handle) {
    atomic_store(&waits_in, (int)syscall(SYS_gettid));
    return kfifo_get_wait(handle, &item, KFIFO_FOREVER) == KFIFO_DONE ? handle : NULL;
}

static void *wait_for_value(void *handle) {
    atomic_store(&waits_in, (int)syscall(SYS_gettid));
    return kfifo_take_wait(handle, &value, KFIFO_FOREVER) == KFIFO_DONE ? handle : NULL;
}

static void *wait_for_cell(void *handle) {
    atomic_store(&waits_in, (int)syscall(SYS_gettid));
    return kfifo_receive_wait(handle, &cell, KFIFO_FOREVER) == KFIFO_DONE ? handle : NULL;
}

/* The call by the second handle, while another thread sleeps in one by it. */
static void call_at_the_same_time(size_t index) {
    pthread_t other;
    char kind = calls[index].kind;
    kfifo_handle *handle = kind == 'i' ? &items[1] : kind == 'v' ? &values[1] : &cells[1];
    void *(*sleeps)(void *) = kind == 'i' ? wait_for_item : kind == 'v' ? wait_for_value : wait_for_cell;
    if (pthread_create(&other, NULL, sleeps, handle)) exit(2);
    kfifo_waits *waits = KFIFO_WAITS(handle);
    while (kfifo_waits_state(waits) < KFIFO_WAITS_TAKER) sched_yield();
    until_it_sleeps();
    /* Of an array the first handle is in no call. */
    int has_all =
        strstr(calls[index].name, "close") || strstr(calls[index].name, "abandon") || strstr(calls[index].name, "room");
    calls[index].call(&items[!has_all], &values[!has_all], &cells[!has_all]);
}

static void call_by_copy(size_t index) { calls[index].call(items_copy, values_copy, cells_copy); }
static void call_by_handle(size_t index) { calls[index].call(items, values, cells); }

static int ends(void (*how)(size_t), size_t index, const char *says) {
    char begin[64];
    snprintf(begin, sizeof begin, "%s: the handle at ", calls[index].name);
    return ends_so(how, index, begin, says);
}

int main(void) {
    int failed = 0;
    open_all();
    for (size_t i = 0; i < CALLS; i++) {
        failed += !ends(call_by_handle, i, NULL);
        failed += !ends(call_by_copy, i, "is a copy of one that was opened at another place");
        failed += !ends(call_at_the_same_time, i, "is in another call");
    }
    failed += kfifo_abandon(items, THREADS) != KFIFO_DONE;
    failed += kfifo_abandon(values, THREADS) != KFIFO_DONE;
    failed += kfifo_abandon(cells, THREADS) != KFIFO_DONE;
    /* A closed handle is no copy. */
    memcpy(items_copy, items, sizeof items);
    failed += kfifo_put(items_copy, 1) != KFIFO_BAD_CALL;
    puts(failed ? "a call that breaks the queue is not told"
                : "each call by a copy, and each second call at the same time, is told and ends the program");
    return failed != 0;
}
