/* A handle of each kind, given to each call of the other kinds: BAD_CALL, and nothing changes, neither the handle nor
   what is in its queue, nor what the call would write. */
#include "kfifo_many.h"
#include "kfifo_wait.h"
#include <stdio.h>

enum { THREADS = 2, ROOM = 512 };

static int failed;

static void expect(uint64_t is, uint64_t wanted, const char *what) {
    if (is != wanted) {
        fprintf(stderr, "%s: %llu, and not %llu\n", what, (unsigned long long)is, (unsigned long long)wanted);
        failed = 1;
    }
}

/* What the calls write: each byte stays. */
static struct {
    uint32_t item, items[ROOM];
    uint64_t value, values[ROOM], word;
    void *pointer, *pointers[4];
    kfifo_left left;
    size_t count;
} out, out_before;

/* Each call by one handle, or by all handles of a queue, with arguments that are in range. */
#define CALL(name, ...)                                                                                                \
    static kfifo_status call_##name(kfifo_handle *handle) { return name(handle, ##__VA_ARGS__); }
CALL(kfifo_put, 1)
CALL(kfifo_put_once, 1)
CALL(kfifo_put_wait, 1, 0)
CALL(kfifo_get, &out.item)
CALL(kfifo_get_once, &out.item)
CALL(kfifo_get_wait, &out.item, 0)
CALL(kfifo_enqueue, 1, 0, 100)
CALL(kfifo_dequeue, &out.item, 0, 100)
CALL(kfifo_word, 0, &out.word)
CALL(kfifo_close, THREADS, out.items, ROOM, &out.count)
CALL(kfifo_give, 1)
CALL(kfifo_give_once, 1)
CALL(kfifo_give_wait, 1, 0)
CALL(kfifo_take, &out.value)
CALL(kfifo_take_once, &out.value)
CALL(kfifo_take_wait, &out.value, 0)
CALL(kfifo_give_pointer, &out)
CALL(kfifo_give_pointer_wait, &out, 0)
CALL(kfifo_take_pointer, &out.pointer)
CALL(kfifo_take_pointer_wait, &out.pointer, 0)
CALL(kfifo_close_values, THREADS, out.values, ROOM, &out.count)
CALL(kfifo_reserve, &out.pointer)
CALL(kfifo_reserve_wait, &out.pointer, 0)
CALL(kfifo_publish)
CALL(kfifo_publish_once)
CALL(kfifo_publish_wait, 0)
CALL(kfifo_cancel)
CALL(kfifo_receive, &out.pointer)
CALL(kfifo_receive_once, &out.pointer)
CALL(kfifo_receive_wait, &out.pointer, 0)
CALL(kfifo_release)
CALL(kfifo_close_cells, THREADS, &out.left)

/* The calls of many, which write 0 where they did nothing. */
#define MANY(name, ...)                                                                                                \
    static kfifo_status call_##name(kfifo_handle *handle) {                                                            \
        size_t many = 77;                                                                                              \
        kfifo_status status = name(handle, __VA_ARGS__);                                                               \
        expect(many, 0, "how many a call of " #name " by another kind did");                                           \
        return status;                                                                                                 \
    }
MANY(kfifo_put_all, out.items, 2, &many)
MANY(kfifo_put_all_wait, out.items, 2, &many, 0)
MANY(kfifo_get_up_to, out.items, 2, &many)
MANY(kfifo_get_up_to_wait, out.items, 2, &many, 0)
MANY(kfifo_give_all, out.values, 2, &many)
MANY(kfifo_give_all_wait, out.values, 2, &many, 0)
MANY(kfifo_take_up_to, out.values, 2, &many)
MANY(kfifo_take_up_to_wait, out.values, 2, &many, 0)
MANY(kfifo_give_all_pointers, out.pointers, 2, &many)
MANY(kfifo_give_all_pointers_wait, out.pointers, 2, &many, 0)
MANY(kfifo_take_pointers_up_to, out.pointers, 2, &many)
MANY(kfifo_take_pointers_up_to_wait, out.pointers, 2, &many, 0)

/* The exports, which test the kind too. */
#define EXPORT(name, ...)                                                                                              \
    static kfifo_status call_##name(kfifo_handle *handle) { return (kfifo_status)name(handle, ##__VA_ARGS__); }
static kfifo_cell_at at;
EXPORT(kfifo_c_put, 1)
EXPORT(kfifo_c_get, &out.item)
EXPORT(kfifo_c_put_many, out.items, 2, &out.count)
EXPORT(kfifo_c_get_many, out.items, 2, &out.count)
EXPORT(kfifo_c_enqueue, 1, 0, 100)
EXPORT(kfifo_c_dequeue, &out.item, 0, 100)
EXPORT(kfifo_c_word, 0, &out.word)
EXPORT(kfifo_c_close, THREADS, out.items, ROOM, &out.count)
EXPORT(kfifo_c_give, 1)
EXPORT(kfifo_c_take, &out.value)
EXPORT(kfifo_c_give_many, out.values, 2, &out.count)
EXPORT(kfifo_c_take_many, out.values, 2, &out.count)
EXPORT(kfifo_c_close_values, THREADS, out.values, ROOM, &out.count)
EXPORT(kfifo_c_reserve, &at)
EXPORT(kfifo_c_publish)
EXPORT(kfifo_c_reserve_next, &at)
EXPORT(kfifo_c_publish_next)
EXPORT(kfifo_c_cancel)
EXPORT(kfifo_c_receive, &at)
EXPORT(kfifo_c_release)
EXPORT(kfifo_c_close_cells, THREADS, &out.left)

static const struct {
    const char *name;
    kfifo_status (*call)(kfifo_handle *);
    uint32_t kind;
    int writes_count; /* an export of many writes how many it did: 0 */
} calls[] = {
#define ROW(name, kind)                                                                                                \
    { #name, call_##name, kind, 0 }
#define ROW_OF_MANY(name, kind)                                                                                        \
    { #name, call_##name, kind, 1 }
    ROW(kfifo_put, KFIFO_ITEMS),
    ROW(kfifo_put_once, KFIFO_ITEMS),
    ROW(kfifo_put_wait, KFIFO_ITEMS),
    ROW(kfifo_get, KFIFO_ITEMS),
    ROW(kfifo_get_once, KFIFO_ITEMS),
    ROW(kfifo_get_wait, KFIFO_ITEMS),
    ROW(kfifo_enqueue, KFIFO_ITEMS),
    ROW(kfifo_dequeue, KFIFO_ITEMS),
    ROW(kfifo_word, KFIFO_ITEMS),
    ROW(kfifo_close, KFIFO_ITEMS),
    ROW(kfifo_put_all, KFIFO_ITEMS),
    ROW(kfifo_put_all_wait, KFIFO_ITEMS),
    ROW(kfifo_get_up_to, KFIFO_ITEMS),
    ROW(kfifo_get_up_to_wait, KFIFO_ITEMS),
    ROW(kfifo_c_put, KFIFO_ITEMS),
    ROW(kfifo_c_get, KFIFO_ITEMS),
    ROW_OF_MANY(kfifo_c_put_many, KFIFO_ITEMS),
    ROW_OF_MANY(kfifo_c_get_many, KFIFO_ITEMS),
    ROW(kfifo_c_enqueue, KFIFO_ITEMS),
    ROW(kfifo_c_dequeue, KFIFO_ITEMS),
    ROW(kfifo_c_word, KFIFO_ITEMS),
    ROW(kfifo_c_close, KFIFO_ITEMS),
    ROW(kfifo_give, KFIFO_VALUES),
    ROW(kfifo_give_once, KFIFO_VALUES),
    ROW(kfifo_give_wait, KFIFO_VALUES),
    ROW(kfifo_take, KFIFO_VALUES),
    ROW(kfifo_take_once, KFIFO_VALUES),
    ROW(kfifo_take_wait, KFIFO_VALUES),
    ROW(kfifo_give_pointer, KFIFO_VALUES),
    ROW(kfifo_give_pointer_wait, KFIFO_VALUES),
    ROW(kfifo_take_pointer, KFIFO_VALUES),
    ROW(kfifo_take_pointer_wait, KFIFO_VALUES),
    ROW(kfifo_close_values, KFIFO_VALUES),
    ROW(kfifo_give_all, KFIFO_VALUES),
    ROW(kfifo_give_all_wait, KFIFO_VALUES),
    ROW(kfifo_take_up_to, KFIFO_VALUES),
    ROW(kfifo_take_up_to_wait, KFIFO_VALUES),
    ROW(kfifo_give_all_pointers, KFIFO_VALUES),
    ROW(kfifo_give_all_pointers_wait, KFIFO_VALUES),
    ROW(kfifo_take_pointers_up_to, KFIFO_VALUES),
    ROW(kfifo_take_pointers_up_to_wait, KFIFO_VALUES),
    ROW(kfifo_c_give, KFIFO_VALUES),
    ROW(kfifo_c_take, KFIFO_VALUES),
    ROW_OF_MANY(kfifo_c_give_many, KFIFO_VALUES),
    ROW_OF_MANY(kfifo_c_take_many, KFIFO_VALUES),
    ROW(kfifo_c_close_values, KFIFO_VALUES),
    ROW(kfifo_reserve, KFIFO_CELLS),
    ROW(kfifo_reserve_wait, KFIFO_CELLS),
    ROW(kfifo_publish, KFIFO_CELLS),
    ROW(kfifo_publish_once, KFIFO_CELLS),
    ROW(kfifo_publish_wait, KFIFO_CELLS),
    ROW(kfifo_cancel, KFIFO_CELLS),
    ROW(kfifo_receive, KFIFO_CELLS),
    ROW(kfifo_receive_once, KFIFO_CELLS),
    ROW(kfifo_receive_wait, KFIFO_CELLS),
    ROW(kfifo_release, KFIFO_CELLS),
    ROW(kfifo_close_cells, KFIFO_CELLS),
    ROW(kfifo_c_reserve, KFIFO_CELLS),
    ROW(kfifo_c_publish, KFIFO_CELLS),
    ROW(kfifo_c_reserve_next, KFIFO_CELLS),
    ROW(kfifo_c_publish_next, KFIFO_CELLS),
    ROW(kfifo_c_cancel, KFIFO_CELLS),
    ROW(kfifo_c_receive, KFIFO_CELLS),
    ROW(kfifo_c_release, KFIFO_CELLS),
    ROW(kfifo_c_close_cells, KFIFO_CELLS),
};
enum { CALLS = sizeof calls / sizeof calls[0] };

/* All calls of other kinds by these handles. */
static void other_calls(kfifo_handle *handles, uint32_t kind) {
    kfifo_handle before[THREADS];
    memcpy(before, handles, sizeof before);
    for (size_t i = 0; i < CALLS; i++) {
        if (calls[i].kind == kind) continue;
        memset(&out, 0x5a, sizeof out);
        memset(&at, 0x5a, sizeof at);
        memcpy(&out_before, &out, sizeof out);
        kfifo_cell_at at_before = at;
        kfifo_status status = calls[i].call(handles);
        if (status != KFIFO_BAD_CALL) fprintf(stderr, "%s by a handle of kind %u: ", calls[i].name, (unsigned)kind);
        expect(status, KFIFO_BAD_CALL, "its status");
        if (calls[i].writes_count) out.count = out_before.count;
        int same = memcmp(&out, &out_before, sizeof out) == 0 && memcmp(&at, &at_before, sizeof at) == 0;
        if (!same) fprintf(stderr, "%s by a handle of kind %u: ", calls[i].name, (unsigned)kind);
        expect((uint64_t)same, 1, "what it would write");
        expect(memcmp(before, handles, sizeof before) == 0, 1, "a handle after a call of another kind");
    }
    if (kind != KFIFO_VALUES) expect(kfifo_values_room(handles, THREADS), 0, "the room of another kind");
    if (kind != KFIFO_ITEMS)
        expect(strcmp(kfifo_bad_call_text(handles, 1, 0, 1), "the handle is of a queue of another kind"), 0,
               "the text");
}

/* A queue of each kind with one thing in it, all calls of other kinds, also when it is finished, and what is in it
   then. An end of one kind among those of another closes each. */
int main(void) {
    kfifo_handle items[THREADS], values[THREADS], cells[THREADS], mixed[3 * THREADS];
    uint32_t item = 0;
    uint64_t value = 0;
    void *cell = NULL, *reserved = NULL, *again = NULL;
    expect(kfifo_open(4, 8, 4, KFIFO_LAST, items, THREADS), KFIFO_DONE, "open items");
    expect(kfifo_open_values(4, 8, values, THREADS), KFIFO_DONE, "open values");
    expect(kfifo_open_cells(4, 8, 64, 64, cells, THREADS), KFIFO_DONE, "open cells");
    expect(items[0].kind == KFIFO_ITEMS && items[0].starts == 4 && items[0].size + items[0].alignment == 0, 1, "items");
    expect(values[1].kind == KFIFO_VALUES && values[1].starts + values[1].size + values[1].alignment == 0, 1, "values");
    expect(cells[1].kind == KFIFO_CELLS && cells[1].starts == 0, 1, "cells");
    expect(cells[1].size == 64 && cells[1].alignment == 64, 1, "the size and the alignment of cells");
    expect(kfifo_put(&items[1], 7), KFIFO_DONE, "an item");
    expect(kfifo_give(&values[1], 8), KFIFO_DONE, "a value");
    expect(kfifo_reserve(&cells[1], &cell), KFIFO_DONE, "a cell");
    *(uint64_t *)cell = 9;
    expect(kfifo_publish(&cells[1]), KFIFO_DONE, "a number in a cell");
    expect(kfifo_reserve(&cells[0], &reserved), KFIFO_DONE, "a reserved cell");
    for (int finished = 0; finished < 2; finished++) {
        other_calls(items, KFIFO_ITEMS);
        other_calls(values, KFIFO_VALUES);
        other_calls(cells, KFIFO_CELLS);
        if (finished) break;
        expect(kfifo_reserve(&cells[0], &again), KFIFO_DONE, "the cell that is still reserved");
        expect(again == reserved, 1, "which cell that is");
        expect(kfifo_finish(&items[0]), KFIFO_DONE, "the end of the items");
        expect(kfifo_finish(&values[0]), KFIFO_DONE, "the end of the values");
        expect(kfifo_finish(&cells[0]), KFIFO_DONE, "the end of the cells");
    }
    expect(kfifo_get(&items[0], &item), KFIFO_DONE, "the item");
    expect(item, 7, "which item");
    expect(kfifo_get(&items[0], &item), KFIFO_FINISHED, "one item");
    expect(kfifo_take(&values[0], &value), KFIFO_DONE, "the value");
    expect(value, 8, "which value");
    expect(kfifo_take(&values[0], &value), KFIFO_FINISHED, "one value");
    expect(kfifo_receive(&cells[0], &cell), KFIFO_DONE, "the cell");
    expect(*(uint64_t *)cell, 9, "which cell");
    expect(kfifo_receive(&cells[0], &cell), KFIFO_FINISHED, "one cell");

    /* The exports that abandon leave handles of another kind as they are. */
    kfifo_handle before[THREADS];
    memcpy(before, values, sizeof before);
    kfifo_c_abandon(values, THREADS);
    kfifo_c_abandon_cells(values, THREADS);
    expect(memcmp(before, values, sizeof before) == 0, 1, "values that were abandoned as items and as cells");
    memcpy(before, items, sizeof before);
    kfifo_c_abandon_values(items, THREADS);
    kfifo_c_abandon_cells(items, THREADS);
    expect(memcmp(before, items, sizeof before) == 0, 1, "items that were abandoned as values and as cells");
    memcpy(before, cells, sizeof before);
    kfifo_c_abandon(cells, THREADS);
    kfifo_c_abandon_values(cells, THREADS);
    expect(memcmp(before, cells, sizeof before) == 0, 1, "cells that were abandoned as items and as values");

    /* An opening of one kind over closed handles of another. */
    expect(kfifo_abandon(items, THREADS), KFIFO_DONE, "abandon");
    expect(kfifo_open_cells(4, 8, 8, 8, items, THREADS), KFIFO_DONE, "open cells where items were");
    other_calls(items, KFIFO_CELLS);
#ifndef KFIFO_DEBUG
    /* These are copies, of which the others are used no more. */
    memcpy(mixed, items, sizeof items);
    memcpy(mixed + THREADS, values, sizeof values);
    memcpy(mixed + 2 * THREADS, cells, sizeof cells);
    expect(kfifo_close(mixed, 3 * THREADS, out.items, ROOM, &out.count), KFIFO_BAD_CALL, "a close of all kinds");
    expect(kfifo_abandon(mixed, 3 * THREADS), KFIFO_DONE, "an abandon of all kinds");
    for (int i = 0; i < 3 * THREADS; i++) expect(mixed[i].kind, 0, "a handle of each kind that was abandoned");
#else
    (void)mixed;
    expect(kfifo_abandon(items, THREADS), KFIFO_DONE, "abandon cells where items were");
    expect(kfifo_abandon(values, THREADS), KFIFO_DONE, "abandon values");
    expect(kfifo_abandon(cells, THREADS), KFIFO_DONE, "abandon cells");
#endif
    puts(failed ? "calls by handles of another kind fail" : "each call by a handle of another kind does nothing");
    return failed;
}
