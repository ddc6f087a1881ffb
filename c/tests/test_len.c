/* kfifo_len, kfifo_is_empty and kfifo_capacity, for queues of each kind, from their opening until they are full, and
   after their close: exact while no call runs. Beside other calls a queue never has more than it has slots. */
#include "test_queues.h"
#include <pthread.h>
#include <sched.h>
#include <stdio.h>
#include <stdlib.h>

#define CHECK(holds)                                                                                                   \
    do {                                                                                                               \
        if (!(holds)) {                                                                                                \
            printf("line %d: %s\n", __LINE__, #holds);                                                                 \
            exit(1);                                                                                                   \
        }                                                                                                              \
    } while (0)

#ifdef FEWER
enum { CALLS = 2000 };
#else
enum { CALLS = 100000 };
#endif

/* Whether the three calls return this by each of the handles. */
static int are(kfifo_handle *handles, size_t threads, size_t len, uint32_t capacity) {
    for (size_t i = 0; i < threads; i++) {
        if (kfifo_len(&handles[i]) != len || kfifo_is_empty(&handles[i]) != (len == 0)) return 0;
        if (kfifo_capacity(&handles[i]) != capacity) return 0;
    }
    return 1;
}

/* A queue of items takes at least as many as its capacity, which stays what it was. With fewer probes that is less. */
static void of_items(void) {
    enum { K = 4, SEGMENTS = 8, CAPACITY = (SEGMENTS - 1) * K + 1 };
    kfifo_handle handles[2];
    uint32_t inside = 0, item = 0, left[K * SEGMENTS];
    size_t count = 0;
    CHECK(kfifo_open(K, SEGMENTS, K, KFIFO_LAST, handles, 2) == KFIFO_DONE);
    for (int turn = 0; turn < 5; turn++) {
        CHECK(are(handles, 2, 0, CAPACITY));
        while (kfifo_put(&handles[inside % 2], 1 + inside) == KFIFO_DONE) CHECK(are(handles, 2, ++inside, CAPACITY));
        CHECK(inside >= CAPACITY && are(handles, 2, inside, CAPACITY));
        while (kfifo_get(&handles[inside % 2], &item) == KFIFO_DONE) CHECK(are(handles, 2, --inside, CAPACITY));
        CHECK(inside == 0);
    }
    CHECK(kfifo_close(handles, 2, left, K * SEGMENTS, &count) == KFIFO_DONE && are(handles, 2, 0, 0));
    CHECK(kfifo_open(K, SEGMENTS, 3, KFIFO_LAST, handles, 2) == KFIFO_DONE && are(handles, 2, 0, 22));
    CHECK(kfifo_abandon(handles, 2) == KFIFO_DONE);
}

/* The same of values and cells, in one generation and in several: those that the other handle opened count too, and the
   capacity stays that of one. A close leaves nothing. */
static void of_others(int kind, uint32_t capacity, uint32_t generations) {
    static struct any_queue queue;
    kfifo_handle *handles = queue.handles;
    size_t inside = 0, count = 0, most = (size_t)generations * (capacity + 64);
    uint64_t value = 0;
    kfifo_status status = KFIFO_DONE;
    CHECK(any_open(&queue, kind, 1, capacity, KFIFO_LAST, KFIFO_RESERVE, generations, 2) == KFIFO_DONE);
    CHECK(are(handles, 2, 0, capacity));
    while ((status = any_give(&queue, 0, inside)) == KFIFO_DONE) CHECK(are(handles, 2, ++inside, capacity));
    CHECK(status == KFIFO_FULL && inside >= (size_t)generations * capacity && are(handles, 2, inside, capacity));
    for (size_t taken = 0; taken < inside; taken++) {
        CHECK(any_take(&queue, 1, &value) == KFIFO_DONE && value == taken);
        CHECK(are(handles, 2, inside - taken - 1, capacity));
    }
    CHECK(any_give(&queue, 0, 7) == KFIFO_DONE && are(handles, 2, 1, capacity));
    free(any_left(&queue, most, &count, &status));
    CHECK(status == KFIFO_DONE && count == 1 && are(handles, 2, 0, 0));
}

/* A cell counts from its publish to its receive. */
static void of_cells(void) {
    kfifo_handle handles[2];
    void *cell = NULL;
    CHECK(kfifo_open_cells(2, 16, 8, 8, handles, 2) == KFIFO_DONE);
    for (size_t count = 0; count < 16; count++) {
        CHECK(kfifo_reserve(&handles[0], &cell) == KFIFO_DONE && are(handles, 2, count, 16));
        CHECK(kfifo_publish(&handles[0]) == KFIFO_DONE && are(handles, 2, count + 1, 16));
    }
    for (size_t count = 16; count-- > 0;) {
        CHECK(kfifo_receive(&handles[1], &cell) == KFIFO_DONE && are(handles, 2, count, 16));
        CHECK(kfifo_release(&handles[1]) == KFIFO_DONE && are(handles, 2, count, 16));
    }
    CHECK(kfifo_abandon(handles, 2) == KFIFO_DONE && are(handles, 2, 0, 0));
}

/* The exports count nothing by a handle that is closed or of another kind. */
static void of_no_queue(void) {
    kfifo_handle closed = {0}, all[3];
    kfifo_handle *items = &all[0], *values = &all[1], *cells = &all[2];
    void *cell = NULL;
    CHECK(kfifo_len(NULL) == 0 && kfifo_is_empty(NULL) && kfifo_capacity(NULL) == 0 && are(&closed, 1, 0, 0));
    CHECK(kfifo_c_len(&closed) == 0 && kfifo_c_values_len(&closed) == 0 && kfifo_c_cells_len(&closed) == 0);
    CHECK(kfifo_open(1, 4, 1, KFIFO_LAST, items, 1) == KFIFO_DONE && kfifo_put(items, 1) == KFIFO_DONE);
    CHECK(kfifo_open_values(1, 4, values, 1) == KFIFO_DONE && kfifo_give(values, 1) == KFIFO_DONE);
    CHECK(kfifo_open_cells(1, 4, 8, 8, cells, 1) == KFIFO_DONE && kfifo_reserve(cells, &cell) == KFIFO_DONE);
    CHECK(kfifo_publish(cells) == KFIFO_DONE);
    CHECK(kfifo_c_len(items) == 1 && kfifo_c_values_len(items) == 0 && kfifo_c_cells_len(items) == 0);
    CHECK(kfifo_c_len(values) == 0 && kfifo_c_values_len(values) == 1 && kfifo_c_cells_len(values) == 0);
    CHECK(kfifo_c_len(cells) == 0 && kfifo_c_values_len(cells) == 0 && kfifo_c_cells_len(cells) == 1);
    CHECK(are(all, 3, 1, 4));
    CHECK(kfifo_abandon(all, 3) == KFIFO_DONE && are(all, 3, 0, 0));
}

static void *give_and_take(void *argument) {
    kfifo_handle *handle = argument;
    for (uint64_t value = 0; value < CALLS; value++) {
        uint64_t taken = 0;
        while (kfifo_give(handle, value) != KFIFO_DONE) sched_yield();
        while (kfifo_take(handle, &taken) != KFIFO_DONE) sched_yield();
    }
    return NULL;
}

/* Four threads give and take. A fifth counts all the time. */
static void beside_others(void) {
    kfifo_handle handles[5];
    pthread_t threads[4];
    CHECK(kfifo_open_values(4, 64, handles, 5) == KFIFO_DONE);
    size_t slots = kfifo_values_room(handles, 5);
    for (int i = 0; i < 4; i++) CHECK(pthread_create(&threads[i], NULL, give_and_take, &handles[i]) == 0);
    for (int i = 0; i < CALLS; i++) CHECK(kfifo_len(&handles[4]) <= slots && kfifo_capacity(&handles[i % 5]) == 64);
    for (int i = 0; i < 4; i++) CHECK(pthread_join(threads[i], NULL) == 0);
    CHECK(are(handles, 5, 0, 64));
    CHECK(kfifo_abandon(handles, 5) == KFIFO_DONE);
}

int main(void) {
    of_items();
    for (int kind = OF_VALUES; kind <= OF_CELLS; kind++) {
        of_others(kind, 300, 1);
        of_others(kind, 8, 20);
    }
    of_cells();
    of_no_queue();
    beside_others();
    puts("kfifo_len, kfifo_is_empty and kfifo_capacity are right of each queue");
    return 0;
}
