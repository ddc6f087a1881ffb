/* The lines of kfifo.h, kfifo_wait.h and kfifo_many.h on their calls. */
#include "kfifo_many.h"
#include "kfifo_wait.h"
#include <sched.h>
#include <stdio.h>

/* clang-format off */
static int of_statuses(void) {
    kfifo_handle handles[2];
    if (kfifo_open(1, 4, 1, KFIFO_LAST, handles, 2) != KFIFO_DONE) return 1;
    uint32_t item = 0;
    kfifo_status put = KFIFO_DONE;
    kfifo_status none = kfifo_get(&handles[1], &item);
    if (none != KFIFO_DONE) puts(kfifo_status_name(none)); // KFIFO_EMPTY
    if (none != KFIFO_DONE) puts(kfifo_status_text(none)); // the queue was empty
    while (kfifo_may_retry(put = kfifo_put(&handles[0], 7))) sched_yield();
    if (kfifo_put(&handles[0], 0) == KFIFO_BAD_CALL) puts(kfifo_bad_call_text(&handles[0], 0, 0, 1));
    if (put != KFIFO_DONE || kfifo_get(&handles[1], &item) != KFIFO_DONE || item != 7) return 1;
    return kfifo_abandon(handles, 2) != KFIFO_DONE;
}

static int of_items(void) {
    kfifo_handle handles[2];
    if (kfifo_open(1, 4, 1, KFIFO_LAST, handles, 2) != KFIFO_DONE) return 1;
    uint32_t item = 0;
    kfifo_status put = kfifo_put(&handles[0], 7);
    kfifo_status took = kfifo_get(&handles[1], &item);
    if (put != KFIFO_DONE || took != KFIFO_DONE || item != 7) return 1;
    if (kfifo_put_once(&handles[0], 8) == KFIFO_BUSY) puts("the item is not put, and a later call may do better");
    if (kfifo_get_once(&handles[1], &item) == KFIFO_BUSY) puts("no item is got, and a later call may do better");
    kfifo_status enqueued = kfifo_enqueue(&handles[0], 9, 0, 100);
    kfifo_status dequeued = kfifo_dequeue(&handles[1], &item, 0, 100);
    if (enqueued != KFIFO_DONE || dequeued != KFIFO_DONE || item != 9) return 1;
    if (kfifo_put_wait(&handles[0], 7, KFIFO_FOREVER) != KFIFO_DONE) return 1;
    if (kfifo_get_wait(&handles[1], &item, KFIFO_FOREVER) != KFIFO_DONE) return 1;
    if (kfifo_put(&handles[0], 1) != KFIFO_DONE || kfifo_put(&handles[0], 2) != KFIFO_DONE) return 1;
    size_t backlog = kfifo_len(&handles[0]);
    uint32_t capacity = kfifo_capacity(&handles[0]);
    if (backlog != 2 || kfifo_len(&handles[1]) != 2 || capacity != 4) return 1;
    if (kfifo_get(&handles[1], &item) != KFIFO_DONE || kfifo_len(&handles[1]) != 1) return 1;
    if (kfifo_get(&handles[1], &item) != KFIFO_DONE || kfifo_len(&handles[1]) != 0) return 1;
    if (kfifo_is_empty(&handles[1])) puts("nothing is there");
    uint64_t ends = 0;
    if (kfifo_word(&handles[0], 0, &ends) != KFIFO_DONE) return 1;
    if (kfifo_finish(&handles[0]) != KFIFO_DONE) abort();
    if (kfifo_get(&handles[1], &item) != KFIFO_FINISHED) return 1;
    uint32_t left[1 * 4];
    size_t count = 0;
    if (kfifo_close(handles, 2, left, 1 * 4, &count) != KFIFO_DONE) return 1;
    if (count != 0 || kfifo_open(1, 4, 1, KFIFO_LAST, handles, 2) != KFIFO_DONE) return 1;
    return kfifo_abandon(handles, 2) != KFIFO_DONE;
}

static int of_values(void) {
    kfifo_handle handles[2];
    if (kfifo_open_values(1, 64, handles, 2) != KFIFO_DONE) return 1;
    uint64_t value = 0, sum = 0;
    if (kfifo_give(&handles[0], 7) != KFIFO_DONE) return 1;
    while (kfifo_take(&handles[1], &value) == KFIFO_DONE) sum += value;
    if (sum != 7) return 1;
    if (kfifo_give_once(&handles[0], 8) == KFIFO_BUSY) puts("the value is not given, and a later one may be");
    if (kfifo_take_once(&handles[1], &value) == KFIFO_BUSY) puts("no value is taken, and a later call may get one");
    if (value != 8) return 1;
    if (kfifo_finish(&handles[0]) != KFIFO_DONE) abort();
    if (kfifo_give(&handles[0], 8) != KFIFO_FINISHED) return 1;
    size_t room = kfifo_values_room(handles, 2);
    if (room < 64) return 1;
    return kfifo_abandon(handles, 2) != KFIFO_DONE;
}

static int of_values_that_grow(void) {
    kfifo_handle growing[2];
    if (kfifo_open_values_with(1, 512, KFIFO_LAST, KFIFO_RESERVE, 100, growing, 2) != KFIFO_DONE)
        return 1; // up to 51,200 values
    return kfifo_abandon(growing, 2) != KFIFO_DONE;
}

static int of_values_that_wait(void) {
    kfifo_handle handles[2];
    uint64_t value = 0, sum = 0;
    if (kfifo_open_values_with(1, 4, 256, 128, 1, handles, 2) != KFIFO_DONE) return 1;
    if (kfifo_give_wait(&handles[0], 7, KFIFO_FOREVER) != KFIFO_DONE) return 1;
    if (kfifo_finish(&handles[0]) != KFIFO_DONE) abort();
    while (kfifo_take_wait(&handles[1], &value, KFIFO_FOREVER) == KFIFO_DONE) sum += value;
    if (sum != 7) return 1;
    return kfifo_abandon(handles, 2) != KFIFO_DONE;
}

static int of_pointers(void) {
    kfifo_handle handles[2];
    if (kfifo_open_values(1, 4, handles, 2) != KFIFO_DONE) return 1;
    int *order = malloc(sizeof *order);
    if (kfifo_give_pointer(&handles[0], order) != KFIFO_DONE) free(order); // it is still ours
    void *taken = NULL;
    if (kfifo_take_pointer(&handles[1], &taken) == KFIFO_DONE) free(taken);
    order = malloc(sizeof *order);
    if (kfifo_give_pointer_wait(&handles[0], order, 1000000) == KFIFO_TIMED_OUT) free(order); // it is still ours
    if (kfifo_take_pointer_wait(&handles[1], &taken, 1000000) == KFIFO_DONE) free(taken);
    return kfifo_abandon(handles, 2) != KFIFO_DONE;
}

struct frame { int width, height; };

static int shown;

static void show(const struct frame *frame) { shown += frame->width == 64; }

static int of_cells(void) {
    struct frame *frame = NULL;
    kfifo_handle handles[2];
    void *cell = NULL;
    if (kfifo_open_cells(1, 8, sizeof *frame, _Alignof(struct frame), handles, 2) != KFIFO_DONE) return 1;
    if (kfifo_reserve(&handles[0], &cell) != KFIFO_DONE) return 1;
    frame = cell;
    frame->width = 64; // until the publish the cell is ours
    if (kfifo_publish(&handles[0]) != KFIFO_DONE) puts("the cell is still reserved");
    while (kfifo_receive(&handles[1], &cell) == KFIFO_DONE) show(cell);
    if (shown != 1 || kfifo_reserve(&handles[0], &cell) != KFIFO_DONE) return 1;
    if (kfifo_cancel(&handles[0]) != KFIFO_DONE) return 1;
    if (kfifo_publish(&handles[0]) != KFIFO_BAD_CALL) return 1;
    if (kfifo_reserve(&handles[0], &cell) != KFIFO_DONE) return 1;
    if (kfifo_publish_once(&handles[0]) == KFIFO_BUSY) puts("the cell is still reserved");
    if (kfifo_receive_once(&handles[1], &cell) == KFIFO_BUSY) puts("no cell is received");
    if (kfifo_release(&handles[1]) != KFIFO_DONE) return 1;
    if (kfifo_reserve(&handles[0], &cell) != KFIFO_DONE) return 1;
    frame = cell;
    frame->width = 64;
    if (kfifo_publish(&handles[0]) != KFIFO_DONE) return 1;
    kfifo_left left;
    if (kfifo_close_cells(handles, 2, &left) != KFIFO_DONE) return 1;
    while (kfifo_next_left(&left, &cell) == KFIFO_DONE) show(cell);
    kfifo_free_left(&left);
    return shown != 2;
}

static int of_cells_that_grow(void) {
    kfifo_handle growing[2];
    if (kfifo_open_cells_with(1, 8, 64, 64, KFIFO_LAST, KFIFO_RESERVE, 100, growing, 2) != KFIFO_DONE)
        return 1; // up to 800 cells
    return kfifo_abandon(growing, 2) != KFIFO_DONE;
}

static int of_cells_that_wait(void) {
    kfifo_handle handles[2];
    void *cell = NULL;
    if (kfifo_open_cells_with(1, 8, 8, 8, 256, 128, 1, handles, 2) != KFIFO_DONE) return 1;
    if (kfifo_reserve_wait(&handles[0], &cell, KFIFO_FOREVER) != KFIFO_DONE) return 1;
    if (kfifo_publish_wait(&handles[0], KFIFO_FOREVER) != KFIFO_DONE) return 1;
    if (kfifo_receive_wait(&handles[1], &cell, KFIFO_FOREVER) != KFIFO_DONE) return 1;
    if (kfifo_finish(&handles[0]) != KFIFO_DONE) abort();
    if (kfifo_receive(&handles[1], &cell) != KFIFO_FINISHED) return 1;
    return kfifo_abandon(handles, 2) != KFIFO_DONE;
}
/* clang-format on */

static int of_many_values(void) {
    kfifo_handle handles[2];
    uint64_t values[64], sum = 0;
    for (uint64_t i = 0; i < 64; i++) values[i] = i;
    if (kfifo_open_values(1, 64, handles, 2) != KFIFO_DONE) return 1;
    size_t given = 0;
    kfifo_status gave = kfifo_give_all(&handles[0], values, 64, &given);
    if (gave != KFIFO_DONE) printf("%zu of 64 are given: %s\n", given, kfifo_status_text(gave));
    if (gave != KFIFO_DONE || given != 64) return 1;
    size_t taken = 0;
    while (kfifo_take_up_to(&handles[1], values, 64, &taken) == KFIFO_DONE)
        for (size_t i = 0; i < taken; i++) sum += values[i];
    if (sum != 63 * 64 / 2) return 1;
    void *orders[2] = {values, &values[1]};
    if (kfifo_give_all_pointers(&handles[0], orders, 2, &given) != KFIFO_DONE) return 1;
    if (kfifo_take_pointers_up_to(&handles[1], orders, 2, &taken) != KFIFO_DONE) return 1;
    if (taken != 2 || orders[0] != values) return 1;
    return kfifo_abandon(handles, 2) != KFIFO_DONE;
}

static int of_many_values_that_wait(void) {
    kfifo_handle handles[2];
    uint64_t values[64], sum = 0;
    size_t given = 0, taken = 0;
    for (uint64_t i = 0; i < 64; i++) values[i] = i;
    if (kfifo_open_values(1, 64, handles, 2) != KFIFO_DONE) return 1;
    void *orders[2] = {values, &values[1]};
    if (kfifo_give_all_pointers_wait(&handles[0], orders, 2, &given, 1000000) != KFIFO_DONE) return 1;
    if (kfifo_take_pointers_up_to_wait(&handles[1], orders, 2, &taken, 1000000) != KFIFO_DONE) return 1;
    if (taken != 2 || orders[0] != values) return 1;
    kfifo_status all = kfifo_give_all_wait(&handles[0], values, 64, &given, KFIFO_FOREVER);
    if (all != KFIFO_DONE) printf("%zu of 64 are given: %s\n", given, kfifo_status_text(all));
    if (kfifo_finish(&handles[0]) != KFIFO_DONE) abort();
    while (kfifo_take_up_to_wait(&handles[1], values, 64, &taken, KFIFO_FOREVER) == KFIFO_DONE)
        for (size_t i = 0; i < taken; i++) sum += values[i];
    if (sum != 63 * 64 / 2) return 1;
    return kfifo_abandon(handles, 2) != KFIFO_DONE;
}

static int of_many_items(void) {
    kfifo_handle handles[2];
    uint32_t items[64], sum = 0;
    for (uint32_t i = 0; i < 64; i++) items[i] = i + 1;
    if (kfifo_open(1, 32, 1, KFIFO_LAST, handles, 2) != KFIFO_DONE) return 1;
    size_t put = 0;
    if (kfifo_put_all(&handles[0], items, 64, &put) != KFIFO_DONE) printf("%zu of 64 are put\n", put);
    if (put != 32) return 1;
    size_t got = 0;
    while (kfifo_get_up_to(&handles[1], items, 64, &got) == KFIFO_DONE)
        for (size_t i = 0; i < got; i++) sum += items[i];
    if (sum != 32 * 33 / 2) return 1;
    return kfifo_abandon(handles, 2) != KFIFO_DONE;
}

static int of_many_items_that_wait(void) {
    kfifo_handle handles[2];
    uint32_t items[64], sum = 0;
    size_t put = 0, got = 0;
    for (uint32_t i = 0; i < 64; i++) items[i] = i + 1;
    if (kfifo_open(1, 64, 1, KFIFO_LAST, handles, 2) != KFIFO_DONE) return 1;
    if (kfifo_put_all_wait(&handles[0], items, 64, &put, KFIFO_FOREVER) != KFIFO_DONE) return 1;
    if (kfifo_finish(&handles[0]) != KFIFO_DONE) abort();
    while (kfifo_get_up_to_wait(&handles[1], items, 64, &got, KFIFO_FOREVER) == KFIFO_DONE)
        for (size_t i = 0; i < got; i++) sum += items[i];
    if (sum != 64 * 65 / 2) return 1;
    return kfifo_abandon(handles, 2) != KFIFO_DONE;
}

int main(void) {
    int failed = of_statuses() || of_items() || of_values() || of_values_that_grow() || of_values_that_wait() ||
                 of_pointers() || of_cells() || of_cells_that_grow() || of_cells_that_wait() || of_many_values() ||
                 of_many_values_that_wait() || of_many_items() || of_many_items_that_wait();
    puts(failed ? "lines of the headers fail" : "the lines of the headers on their calls do what they say");
    return failed;
}
