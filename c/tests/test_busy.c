/* BUSY is not the user's: a call that comes to it is made again after a pause, and only the bounded calls, whose names
   end in _once, return it. The exports are wrapped by such as come to BUSY as often as they are told to. */
#include "kfifo_many.h"
#include "kfifo_wait.h"
#include <stdio.h>

enum { TIMES = 20 };

static uint32_t left, calls; /* how often a call still comes to BUSY, and how many were made */
static int failed;

static void expect(uint32_t is, uint32_t wanted, const char *what) {
    if (is == wanted) return;
    fprintf(stderr, "%s: %u, and not %u\n", what, (unsigned)is, (unsigned)wanted);
    failed = 1;
}

/* An export of the library, and the one that stands in its place. */
#define WRAPPED(name, parameters, arguments)                                                                           \
    uint32_t __real_##name parameters;                                                                                 \
    uint32_t __wrap_##name parameters;                                                                                 \
    uint32_t __wrap_##name parameters {                                                                                \
        calls++;                                                                                                       \
        if (left == 0) return __real_##name arguments;                                                                 \
        left--;                                                                                                        \
        return KFIFO_BUSY;                                                                                             \
    }
WRAPPED(kfifo_c_put, (kfifo_handle * handle, uint32_t item), (handle, item))
WRAPPED(kfifo_c_get, (kfifo_handle * handle, uint32_t *item), (handle, item))
WRAPPED(kfifo_c_give, (kfifo_handle * handle, uint64_t value), (handle, value))
WRAPPED(kfifo_c_take, (kfifo_handle * handle, uint64_t *value), (handle, value))
WRAPPED(kfifo_c_publish, (kfifo_handle * handle), (handle))
WRAPPED(kfifo_c_receive, (kfifo_handle * handle, kfifo_cell_at *cell), (handle, cell))

/* An export of many comes to BUSY the last time when one of its calls was done. */
#define WRAPPED_MANY(name, type)                                                                                       \
    uint32_t __real_##name(kfifo_handle *handle, type *array, size_t count, size_t *done);                             \
    uint32_t __wrap_##name(kfifo_handle *handle, type *array, size_t count, size_t *done);                             \
    uint32_t __wrap_##name(kfifo_handle *handle, type *array, size_t count, size_t *done) {                            \
        calls++;                                                                                                       \
        if (left == 0) return __real_##name(handle, array, count, done);                                               \
        if (--left == 0 && __real_##name(handle, array, 1, done) != KFIFO_DONE) failed = 1;                            \
        return KFIFO_BUSY;                                                                                             \
    }
WRAPPED_MANY(kfifo_c_put_many, const uint32_t)
WRAPPED_MANY(kfifo_c_get_many, uint32_t)
WRAPPED_MANY(kfifo_c_give_many, const uint64_t)
WRAPPED_MANY(kfifo_c_take_many, uint64_t)

static kfifo_handle items;
static kfifo_handle values;
static kfifo_handle cells;
static uint32_t item;
static uint64_t value;
static void *cell;

/* A bounded call returns BUSY after one look, and the call without a bound looks until it is not busy. */
#define LOOKS(bounded, call, arguments)                                                                                \
    left = TIMES, calls = 0;                                                                                           \
    expect(bounded arguments, KFIFO_BUSY, #bounded);                                                                   \
    expect(calls, 1, "the looks of " #bounded);                                                                        \
    left = TIMES, calls = 0;                                                                                           \
    expect(call arguments, KFIFO_DONE, #call);                                                                         \
    expect(calls, TIMES + 1, "the looks of " #call)

int main(void) {
    if (kfifo_open(1, 4, 1, KFIFO_LAST, &items, 1) != KFIFO_DONE) return 1;
    if (kfifo_open_values(1, 4, &values, 1) != KFIFO_DONE) return 1;
    if (kfifo_open_cells(1, 4, 8, 8, &cells, 1) != KFIFO_DONE) return 1;
    LOOKS(kfifo_put_once, kfifo_put, (&items, 7));
    LOOKS(kfifo_get_once, kfifo_get, (&items, &item));
    expect(item, 7, "the item");
    LOOKS(kfifo_give_once, kfifo_give, (&values, 8));
    LOOKS(kfifo_take_once, kfifo_take, (&values, &value));
    expect((uint32_t)value, 8, "the value");
    expect(kfifo_reserve(&cells, &cell), KFIFO_DONE, "a cell");
    LOOKS(kfifo_publish_once, kfifo_publish, (&cells));
    LOOKS(kfifo_receive_once, kfifo_receive, (&cells, &cell));
    /* A call of many is made again, also where some of its calls were done. */
    uint64_t many[3] = {10, 11, 12};
    uint32_t numbers[3] = {4, 5, 6};
    size_t count = 0;
#define MANY(call, handle, array)                                                                                      \
    left = TIMES, calls = 0;                                                                                           \
    expect(call(handle, array, 3, &count), KFIFO_DONE, #call);                                                         \
    expect(calls, TIMES + 1, "the looks of " #call);                                                                   \
    expect((uint32_t)count, 3, "the calls done by " #call)
    MANY(kfifo_give_all, &values, many);
    MANY(kfifo_take_up_to, &values, many);
    expect((uint32_t)(many[0] * 10000 + many[1] * 100 + many[2]), 101112, "the values in their order");
    MANY(kfifo_put_all, &items, numbers);
    MANY(kfifo_get_up_to, &items, numbers);
    expect(numbers[0] * 100 + numbers[1] * 10 + numbers[2], 456, "the items in their order");
    /* A call with a time gives up in time, and one without looks again. */
    left = UINT32_MAX;
    expect(kfifo_give_wait(&values, 9, 1000000), KFIFO_TIMED_OUT, "a give that is busy until its time is up");
    left = TIMES;
    expect(kfifo_give_wait(&values, 9, KFIFO_FOREVER), KFIFO_DONE, "a give that waits");
    left = TIMES;
    expect(kfifo_take_wait(&values, &value, KFIFO_FOREVER), KFIFO_DONE, "a take that waits");
    expect((uint32_t)value, 9, "the value that was waited for");
    expect(kfifo_abandon(&items, 1), KFIFO_DONE, "abandon the items");
    expect(kfifo_abandon(&values, 1), KFIFO_DONE, "abandon the values");
    expect(kfifo_abandon(&cells, 1), KFIFO_DONE, "abandon the cells");
    puts(failed ? "calls that are busy fail" : "a call that is busy is made again, and a bounded call says so");
    return failed;
}
