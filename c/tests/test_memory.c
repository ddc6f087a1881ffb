/* Each request of an open, of a close, of growth and of a change of generations for memory is refused once: it is
   answered, nothing is half done, and nothing leaks. And generations go: through hundreds of changes the memory does
   not grow. */
#include "test_queues.h"
#include <stdio.h>
#include <stdlib.h>
#include <string.h>

enum { K = 4, SEGMENTS = 8, THREADS = 3, ROOM = K * SEGMENTS, CAPACITY = 15 };
/* More than a queue of them has slots, in all its generations. */
enum { MOST = 1 << 13 };

static int failed;
/* Requests so far, the one that is refused (0: none), and whether all after it are too. */
static long requests, refused;
static int all_after;
/* Blocks that were not freed, their bytes, and the most bytes so far. */
static long blocks, bytes, most_bytes;
static long tried;      /* the request that this case refuses */
static long kept, lost; /* closes that did nothing, and closes that lost what was left */

void *__real_malloc(size_t size);
void *__real_realloc(void *block, size_t size);
void __real_free(void *block);

static int is_refused(void) {
    ++requests;
    return requests == refused || (all_after && refused && requests > refused);
}

/* Each block begins with its size. After that it is aligned as malloc aligns. */
enum { HEAD = 16 };

static size_t size_of(const void *block) {
    size_t size;
    memcpy(&size, (const char *)block - HEAD, sizeof size);
    return size;
}

static void *count_in(char *whole, size_t size) {
    if (!whole) return NULL;
    memcpy(whole, &size, sizeof size);
    blocks++;
    bytes += (long)size;
    most_bytes = bytes > most_bytes ? bytes : most_bytes;
    return whole + HEAD;
}

static char *count_out(void *block) {
    blocks--;
    bytes -= (long)size_of(block);
    return (char *)block - HEAD;
}

/* The linker hands the calls of malloc, realloc and free to these, those of the library too. */
void *__wrap_malloc(size_t size) { return is_refused() ? NULL : count_in(__real_malloc(HEAD + size), size); }

void *__wrap_realloc(void *block, size_t size) {
    if (!block) return __wrap_malloc(size);
    if (is_refused()) return NULL;
    char *whole = __real_realloc(count_out(block), HEAD + size);
    if (!whole) abort(); /* the block is still there, but was counted out */
    return count_in(whole, size);
}

void __wrap_free(void *block) {
    if (block) __real_free(count_out(block));
}

static void expect(long is, long wanted, const char *what) {
    if (is != wanted) {
        fprintf(stderr, "request %ld: %s: %ld, and not %ld\n", tried, what, is, wanted);
        failed = 1;
    }
}

static void refuse(long number) {
    requests = 0;
    refused = number;
}

/* Opens a queue with the request of this number refused; whether it was opened. */
static int opens(kfifo_handle *handles, long number) {
    refuse(number);
    int status = kfifo_open(K, SEGMENTS, K, KFIFO_LAST, handles, THREADS);
    refuse(0);
    if (status == KFIFO_DONE) return 1;
    expect(status, KFIFO_NO_MEMORY, "an open that is refused");
    for (int i = 0; i < THREADS; i++)
        expect(kfifo_enqueue(&handles[i], 1, 0, 9), KFIFO_BAD_CALL, "a handle of a refused open");
    expect(blocks, 0, "blocks left by a refused open");
    return 0;
}

/* Closes a queue with two items with the request of this number refused; whether it had them all. */
static int closes(long number) {
    kfifo_handle handles[THREADS];
    uint32_t items[ROOM], item = 0;
    size_t count = 77;
    if (!opens(handles, 0)) return 1;
    expect(kfifo_enqueue(&handles[0], 5, 0, 9), KFIFO_DONE, "the first item");
    expect(kfifo_enqueue(&handles[1], 6, 1, 9), KFIFO_DONE, "the second item");
    refuse(number);
    int status = kfifo_close(handles, THREADS, items, ROOM, &count);
    int met = requests >= number;
    refuse(0);
    if (status != KFIFO_DONE) expect(met, 1, "a close that fails with no request refused");
    if (status == KFIFO_NO_MEMORY) {
        kept++;
        expect(lost, 0, "a close that does nothing after a request at which the items are lost");
        expect(count, 77, "the count of a close that did nothing");
        expect(kfifo_dequeue(&handles[2], &item, 0, 9), KFIFO_DONE, "a call after a close that did nothing");
        expect(kfifo_close(handles, THREADS, items, ROOM, &count), KFIFO_DONE, "the close once more");
        expect(count, 1, "items left");
    } else if (status == KFIFO_LOST) {
        lost++;
        expect(count, 77, "the count of a close that lost the items");
        expect(kfifo_dequeue(&handles[2], &item, 0, 9), KFIFO_BAD_CALL, "a call after the items were lost");
    } else {
        expect(status, KFIFO_DONE, "close");
        expect(count, 2, "items left");
        expect(met, 0, "requests that were refused though all was done");
    }
    expect(blocks, 0, "blocks left by a close");
    return !met;
}

/* ---- Queues of values and of cells, by the same calls ---- */

static kfifo_status gives(struct any_queue *queue, uint64_t thread, uint64_t value) {
    return any_give(queue, (uint32_t)thread, value);
}

static kfifo_status takes(struct any_queue *queue, uint64_t thread, uint64_t *value) {
    return any_take(queue, (uint32_t)thread, value);
}

static int opens_queue(struct any_queue *queue, int of_cells, long number) {
    refuse(number);
    kfifo_status status = any_open(queue, of_cells, 1, CAPACITY, KFIFO_LAST, KFIFO_RESERVE, 1, THREADS);
    refuse(0);
    if (status == KFIFO_DONE) return 1;
    expect(status, KFIFO_NO_MEMORY, "an open of values or cells that is refused");
    for (uint64_t i = 0; i < THREADS; i++)
        expect(gives(queue, i, 1), KFIFO_BAD_CALL, "a handle of a refused open of values or cells");
    expect(blocks, 0, "blocks left by a refused open of values or cells");
    return 0;
}

/* Closes a queue with the values from `first` to the one before `end`, with the request of this number refused. Where
   that does nothing, a take still gets the oldest value, and a second close gives back the others. Whether no request
   was refused. */
static int closes_queue(struct any_queue *queue, uint64_t first, uint64_t end, long number) {
    static uint64_t left[MOST];
    uint64_t value = 0;
    size_t count = 77;
    refuse(number);
    kfifo_status status = any_close(queue, left, MOST, &count);
    int met = requests >= number;
    refuse(0);
    expect(status != KFIFO_DONE, met, "whether a close of values or cells did not do all");
    if (status == KFIFO_NO_MEMORY) {
        kept++;
        expect(lost, 0, "a close that does nothing after a request at which the values are lost");
        expect((long)count, 77, "the count of a close of values or cells that did nothing");
        expect(takes(queue, 2, &value), KFIFO_DONE, "a take after a close that did nothing");
        expect((long)value, (long)first++, "the oldest value after a close that did nothing");
        status = any_close(queue, left, MOST, &count);
    }
    if (status == KFIFO_LOST) {
        lost++;
        expect((long)count, 77, "the count of a close that lost the values");
    } else {
        expect(status, KFIFO_DONE, "a close of values or cells");
        expect((long)count, (long)(end - first), "how many values are left");
        for (size_t i = 0; i < count; i++) expect((long)left[i], (long)(first + i), "a value that is left");
    }
    expect(gives(queue, 2, 1), KFIFO_BAD_CALL, "a give after a close");
    expect(blocks, 0, "blocks left by a close of values or cells");
    return !met;
}

static int closes_new(int of_cells, long number) {
    static struct any_queue queue;
    if (!opens_queue(&queue, of_cells, 0)) return 1;
    for (uint64_t i = 0; i < THREADS; i++) expect(gives(&queue, i, 5 + i), KFIFO_DONE, "a value before a close");
    return closes_queue(&queue, 5, 5 + THREADS, number);
}

/* Handles that are abandoned one by one, with items and values left, leave no block; and the queue stays until the
   last. */
static void abandons(void) {
    kfifo_handle handles[THREADS];
    kfifo_handle items[THREADS];
    uint64_t value = 0;
    uint32_t item = 0;
    if (kfifo_open_values(K, CAPACITY, handles, THREADS) != KFIFO_DONE || !opens(items, 0)) return;
    for (uint32_t i = 0; i < THREADS; i++) {
        expect(kfifo_give(&handles[i], i), KFIFO_DONE, "a value that is left");
        expect(kfifo_put(&items[i], i + 1), KFIFO_DONE, "an item that is left");
    }
    for (int i = 0; i + 1 < THREADS; i++) {
        long before = blocks;
        expect(kfifo_abandon(&handles[i], 1), KFIFO_DONE, "abandon");
        expect(kfifo_abandon(&items[i], 1), KFIFO_DONE, "abandon");
        expect(blocks < before, 1, "an abandoned handle frees its block");
    }
    expect(kfifo_take(&handles[THREADS - 1], &value), KFIFO_DONE, "a take by the last handle");
    expect(kfifo_get(&items[THREADS - 1], &item), KFIFO_DONE, "a get by the last handle");
    expect(kfifo_abandon(&handles[THREADS - 1], 1), KFIFO_DONE, "abandon");
    expect(kfifo_abandon(&items[THREADS - 1], 1), KFIFO_DONE, "abandon");
    expect(blocks, 0, "blocks left by handles that were abandoned one by one");
    if (opens(items, 0)) expect(kfifo_put(&items[0], 7), KFIFO_DONE, "an item that is left");
    expect(kfifo_abandon(items, THREADS), KFIFO_DONE, "abandon");
    expect(blocks, 0, "blocks left by handles that were abandoned at once");
}

/* Gives and takes, and the calls of cells, ask for no memory. */
static void calls(void) {
    kfifo_handle handles[THREADS];
    kfifo_handle cells[THREADS];
    kfifo_handle items[THREADS];
    uint64_t value = 0;
    uint32_t item = 0;
    void *cell = NULL;
    if (kfifo_open_values(K, CAPACITY, handles, THREADS) != KFIFO_DONE || !opens(items, 0)) return;
    if (kfifo_open_cells(K, CAPACITY, 8, 8, cells, THREADS) != KFIFO_DONE) return;
    refuse(1);
    for (int i = 0; i < 1000; i++) {
        expect(kfifo_give(&handles[0], 5), KFIFO_DONE, "a give without memory");
        expect(kfifo_take(&handles[1], &value), KFIFO_DONE, "a take without memory");
        expect(kfifo_put(&items[0], 5), KFIFO_DONE, "a put without memory");
        expect(kfifo_get(&items[1], &item), KFIFO_DONE, "a get without memory");
    }
    for (int i = 0; i < 1000; i++) {
        expect(kfifo_reserve(&cells[0], &cell), KFIFO_DONE, "a reserve without memory");
        expect(kfifo_publish(&cells[0]), KFIFO_DONE, "a publish without memory");
        expect(kfifo_receive(&cells[1], &cell), KFIFO_DONE, "a receive without memory");
        expect(kfifo_release(&cells[1]), KFIFO_DONE, "a release without memory");
    }
    expect(requests, 0, "requests of calls for memory");
    refuse(0);
    expect(kfifo_abandon(handles, THREADS), KFIFO_DONE, "abandon");
    expect(kfifo_abandon(cells, THREADS), KFIFO_DONE, "abandon");
    expect(kfifo_abandon(items, THREADS), KFIFO_DONE, "abandon");
    expect(blocks, 0, "blocks left by abandoned handles");
}

/* ---- Changes of generations: a queue of values or of cells with few versions ---- */

enum { LAST = 128, RESERVE = 64, GIVES = 800 };

static void opens_few(struct any_queue *queue, int of_cells) {
    expect(any_open(queue, of_cells, 1, CAPACITY, LAST, RESERVE, 1, THREADS), KFIFO_DONE, "an open for few versions");
}

/* Whether the request of this number was refused where the room of a close is asked for. */
static int asks_for_room(struct any_queue *queue, long number) {
    refuse(number);
    size_t room = queue->kind == OF_CELLS ? 1 : kfifo_values_room(queue->handles, THREADS);
    int met = number && requests >= number;
    refuse(0);
    if (room == 0) expect(met, 1, "whether a request was refused where no room is answered");
    return met;
}

/* Closes a queue, and expects the values from `first` to the one before `end` in their order. */
static void closes_in_order(struct any_queue *queue, uint64_t first, uint64_t end) {
    size_t count = 0;
    kfifo_status status = KFIFO_DONE;
    uint64_t *left = any_left(queue, MOST, &count, &status);
    expect(status, KFIFO_DONE, "a close of several generations");
    expect((long)count, (long)(end - first), "values of all generations");
    for (size_t i = 0; i < count; i++) expect((long)left[i], (long)(first + i), "a value that is left");
    free(left);
    expect(blocks, 0, "blocks left by a close of several generations");
}

/* The same, with the request of this number refused where the room is asked for. Whether none was. */
static int closes_few(struct any_queue *queue, uint64_t first, uint64_t end, long number) {
    int met = asks_for_room(queue, number);
    closes_in_order(queue, first, end);
    return !met;
}

/* Gives and takes through some dozen changes with the request of this number refused: the change is tried again while
   the reserve lasts, so each value goes in, and comes out in its order. Whether that request was made. */
static int changes(int of_cells, long number) {
    static struct any_queue queue;
    uint64_t taken = 0, value = 0;
    opens_few(&queue, of_cells);
    refuse(number);
    for (uint64_t given = 0; given < GIVES;) {
        kfifo_status status = gives(&queue, given % THREADS, given);
        /* A handle that could not join the next generation tries again at its next call. */
        if (status == KFIFO_BUSY && requests >= number) status = gives(&queue, given % THREADS, given);
        expect(status, KFIFO_DONE, "a give while a request is refused");
        given++;
        for (; given - taken > given % 4; taken++) {
            status = takes(&queue, taken % 2, &value);
            if (status == KFIFO_BUSY && requests >= number) status = takes(&queue, taken % 2, &value);
            expect(status, KFIFO_DONE, "a take while a request is refused");
            expect((long)value, (long)taken, "the oldest value");
        }
        if (failed) break;
    }
    int met = requests >= number;
    refuse(0);
    closes_few(&queue, taken, GIVES, 0);
    return !met || failed;
}

/* From the request of this number on there is no memory. WORN comes when the reserve is used up, and not before. Then
   memory may come back, and a give goes to the next generation. The queue is closed: nothing is lost. */
static void wears_out(int of_cells, long number, int comes_back) {
    static struct any_queue queue;
    uint64_t given = 0, taken = 0, value = 0, since = 0;
    kfifo_status status = KFIFO_DONE;
    opens_few(&queue, of_cells);
    all_after = 1;
    refuse(number);
    while (given < 10 * GIVES && !failed) {
        status = gives(&queue, 0, given);
        if (status != KFIFO_DONE) break;
        given++;
        since += requests >= number;
        if (given - taken < 3) continue;
        status = takes(&queue, 0, &value);
        if (status != KFIFO_DONE) break;
        expect((long)value, (long)taken, "the oldest value without memory");
        taken++;
    }
    expect(status, KFIFO_WORN, "a queue without memory");
    expect(since >= RESERVE / 4, 1, "how many values are given before the reserve is used up");
    refuse(0);
    all_after = 0;
    if (comes_back) expect(gives(&queue, 1, given++), KFIFO_DONE, "a give when memory is back");
    closes_few(&queue, taken, given, 0);
}

/* Gives and takes by the first `threads` handles, one value after the other. */
static void goes_on(struct any_queue *queue, uint64_t threads, uint64_t count, uint64_t *next) {
    for (uint64_t end = *next + count, value = 0; *next < end && !failed; (*next)++) {
        expect(gives(queue, *next % threads, *next), KFIFO_DONE, "a give through changes");
        expect(takes(queue, (*next + 1) % threads, &value), KFIFO_DONE, "a take through changes");
        expect((long)value, (long)*next, "the value through changes");
    }
}

/* With nothing inside, each of these handles makes calls until it is in the newest generation alone. */
static void comes_to_rest(struct any_queue *queue, uint64_t threads) {
    uint64_t value = 0;
    for (uint64_t i = 0; i < 2 * threads; i++)
        expect(takes(queue, i % threads, &value), KFIFO_EMPTY, "a take of an empty queue");
}

/* A generation that is empty goes. So through hundreds of changes there is what the opening took, and one generation
   more near a change, with what its opening takes for a moment, and one more for a handle that makes no calls. Returns
   how many changes there were. */
static long generations_go(int of_cells) {
    static struct any_queue queue;
    uint64_t next = 0;
    opens_few(&queue, of_cells);
    long opened = bytes;
    most_bytes = bytes;
    refuse(0);
    while (bytes == opened && next < LAST) goes_on(&queue, 1, 1, &next);
    long one = bytes - opened, near_one = most_bytes - opened, of_one = requests;
    expect(near_one < 2 * one, 1, "an opening takes less than a generation for a moment");
    expect(one > 0 && one < opened, 1, "the bytes of a generation are some of those of an opening");
    most_bytes = bytes;
    goes_on(&queue, THREADS, 10000, &next);
    expect(most_bytes - opened <= near_one, 1, "one generation more near a change");
    comes_to_rest(&queue, THREADS);
    expect(bytes, opened, "the bytes when all is at rest");
    goes_on(&queue, THREADS - 1, 10000, &next);
    expect(most_bytes - opened <= near_one + one, 1, "one generation more for a handle that makes no calls");
    comes_to_rest(&queue, THREADS - 1);
    expect(bytes, opened + one, "the bytes at rest with a handle that makes no calls");
    comes_to_rest(&queue, THREADS);
    expect(bytes, opened, "the bytes when that handle has made calls again");
    most_bytes = bytes;
    goes_on(&queue, THREADS, 1000, &next);
    expect(most_bytes - opened <= near_one, 1, "one generation more near a change after that");
    long made = requests / of_one;
    expect(made > 300, 1, "how many changes there were");
    closes_few(&queue, next, next, 0);
    return made;
}

/* Opens a queue, gives and takes that many values by two handles, and leaves six inside. The third handle is still in
   the first generation. Returns how many bytes more there are than after the opening. */
static long opens_several(struct any_queue *queue, int of_cells, uint64_t before) {
    uint64_t next = 0;
    opens_few(queue, of_cells);
    long opened = bytes;
    goes_on(queue, 2, before, &next);
    for (uint64_t i = 0; i < 6; i++)
        expect(gives(queue, i % 2, next + i), KFIFO_DONE, "a value of several generations");
    return bytes - opened;
}

/* Closes queues with several generations, and asks for their room, with each request refused once. Returns how many
   of them had more than two generations. */
static long closes_several(int of_cells) {
    static struct any_queue queue;
    long cases = 0, one = 0;
    for (uint64_t before = 0; before < 2 * RESERVE; before++) {
        long more = opens_several(&queue, of_cells, before);
        if (!one) one = more; /* the first that is more than an opening is a generation */
        cases += one && more >= 2 * one;
        for (tried = 1; !closes_few(&queue, before, before + 6, tried); tried++)
            opens_several(&queue, of_cells, before);
        kept = lost = tried = 0;
        do {
            opens_several(&queue, of_cells, before);
        } while (!closes_queue(&queue, before, before + 6, ++tried));
        expect(kept >= 1, 1, "the first request of a close is made before anything is done");
    }
    return cases;
}

/* Refuses each request of an open and of a close of values or of cells once. Writes how many of each there are. */
static void each_request(int of_cells, long *of_open, long *of_close) {
    static struct any_queue queue;
    for (tried = 1; !opens_queue(&queue, of_cells, tried);) tried++;
    *of_open = tried - 1;
    expect(any_end(&queue), KFIFO_DONE, "an end of an open where none was refused");
    expect(blocks, 0, "blocks left by that");
    kept = lost = 0;
    for (tried = 1; !closes_new(of_cells, tried);) tried++;
    *of_close = tried - 1;
    expect(kept >= 1, 1, "the first request of a close of values or cells is made before anything is done");
    expect(*of_open > 1 && *of_close > 1, 1, "an open and a close of values or cells ask for memory");
}

enum { GENERATIONS = 20, GROWN = GENERATIONS * CAPACITY }; /* one of them has room for 15 to 111 */

/* Opens a queue that grows, and gives as many values as it has room for at least, with the request of this number
   refused: that give says so, and later ones grow it after all, unless it `stops` there. Writes how many were given.
   Whether that request was made. */
static int gives_growing(struct any_queue *queue, int of_cells, long number, int stops, uint64_t *given) {
    long without = 0;
    kfifo_status status = any_open(queue, of_cells, 1, CAPACITY, KFIFO_LAST, KFIFO_RESERVE, GENERATIONS, THREADS);
    expect(status, KFIFO_DONE, "an open of a queue that grows");
    refuse(number);
    for (*given = 0; *given < GROWN && without < 10 && !failed && !(stops && requests >= number);) {
        status = gives(queue, 0, *given);
        if (status == KFIFO_DONE) ++*given;
        if (status != KFIFO_DONE) expect(status, KFIFO_NO_MEMORY, "a give that cannot grow");
        without += status != KFIFO_DONE;
    }
    int met = requests >= number;
    refuse(0);
    expect(without <= met, 1, "gives that found no memory");
    return met;
}

/* A queue grows with the request of this number refused, and nothing is lost: all that was given is taken. Whether that
   request was not made. */
static int grows(int of_cells, long number) {
    static struct any_queue queue;
    uint64_t given = 0, value = 0;
    int met = gives_growing(&queue, of_cells, number, 0, &given);
    expect((long)given, GROWN, "how many values a queue that grows has room for");
    for (uint64_t taken = 0; taken < given && !failed; taken++) {
        expect(takes(&queue, 1, &value), KFIFO_DONE, "a take of what has grown");
        expect((long)value, (long)taken, "a value of what has grown");
    }
    expect(any_end(&queue), KFIFO_DONE, "an end of a queue that grew");
    expect(blocks, 0, "blocks left by a queue that grew");
    return !met || failed;
}

/* The same, but the queue is closed once the request was refused, with up to two values taken: all others come back. */
static int grows_and_closes(int of_cells, long number) {
    static struct any_queue queue;
    uint64_t given = 0, taken = 0, value = 0;
    int met = gives_growing(&queue, of_cells, number, 1, &given);
    expect(given >= CAPACITY, 1, "values before a queue grows");
    for (; taken < (uint64_t)number % 3; taken++) {
        expect(takes(&queue, 1, &value), KFIFO_DONE, "a take before a close of what has grown");
        expect((long)value, (long)taken, "a value before a close of what has grown");
    }
    closes_in_order(&queue, taken, given);
    return !met || failed;
}

/* Queues of values or of cells. */
static void renewing(int of_cells) {
    long of_open = 0, of_close = 0;
    each_request(of_cells, &of_open, &of_close);
    for (tried = 1; !changes(of_cells, tried);) tried++;
    long of_changes = tried - 1;
    for (tried = 1; !grows(of_cells, tried);) tried++;
    long of_growth = tried - 1;
    for (tried = 1; !grows_and_closes(of_cells, tried);) tried++;
    expect(tried - 1, of_growth, "requests of growth that a close follows");
    expect(of_growth > 5, 1, "growth asks for memory");
    for (tried = 1; tried < 30; tried++) wears_out(of_cells, tried, tried % 2);
    tried = 0;
    long made = generations_go(of_cells), cases = closes_several(of_cells);
    expect(of_changes > 10, 1, "changes of generations ask for memory");
    expect(cases > 0, 1, "closes of more than two generations");
    printf(
        "memory of %s: %ld requests of an open, %ld of a close, %ld of changes and %ld of growth refused in turn; %ld "
        "changes with no more memory; %ld closes of more than two generations\n",
        of_cells ? "cells" : "values", of_open, of_close, of_changes, of_growth, made, cases);
}

int main(void) {
    kfifo_handle handles[THREADS];
    long of_open = 1, of_close = 1;
    for (tried = 1; !opens(handles, tried); tried++) of_open++;
    expect(kfifo_abandon(handles, THREADS), KFIFO_DONE, "abandon");
    expect(blocks, 0, "blocks left by abandoned handles");
    for (tried = 1; !closes(tried); tried++) of_close++;
    /* A close reads its handles before it closes any: the refusal of either list that it makes for that does nothing.
     */
    expect(kept >= 2, 1, "the first two requests of a close are made before anything is done");
    expect(of_open > 1 && of_close > 1, 1, "an open and a close ask for memory");
    calls();
    abandons();
    for (int of_cells = 0; of_cells < 2; of_cells++) renewing(of_cells);
    printf("%s: %ld requests of an open and %ld of a close refused in turn\n", failed ? "memory fails" : "memory",
           of_open - 1, of_close - 1);
    return failed;
}
