/* Threads put and take over many shapes; each item that went in has to come out once, and each refusal comes at its
   cause. */
#include "kfifo.h"
#include <pthread.h>
#include <stdio.h>
#include <stdlib.h>
#include <string.h>

/* How many items each thread puts. */
#ifdef FEWER
#define EACH 200
#else
#define EACH 2000
#endif
enum { MOST = 4 };

static int failed;
static uint32_t left[64 * 1024]; /* what a close gives back */

static void expect(int is, int wanted, const char *what) {
    if (is != wanted) {
        fprintf(stderr, "%s: %d, and not %d\n", what, is, wanted);
        failed = 1;
    }
}

struct side {
    kfifo_handle *handle;
    uint32_t k, first, done, got;
    uint16_t turns;
    unsigned char *out; /* how often each item came out to this thread */
};

/* Every second call chooses its start and turns itself. */
static void take(struct side *self, uint32_t index) {
    uint32_t item = 0;
    int status = index % 4 < 2 ? kfifo_get(self->handle, &item)
                               : kfifo_dequeue(self->handle, &item, index % self->k, self->turns);
    if (status == KFIFO_DONE) {
        self->out[item]++;
        self->got++;
    }
}

static int put(struct side *self, uint32_t index) {
    if (index % 2) return kfifo_put(self->handle, self->first + index);
    return kfifo_enqueue(self->handle, self->first + index, index % self->k, self->turns);
}

static void *work(void *argument) {
    struct side *self = argument;
    for (uint32_t i = 0; i < EACH; i++) {
        for (;;) {
            int status = put(self, i);
            if (status == KFIFO_DONE) break;
            if (status != KFIFO_FULL && status != KFIFO_BUSY) abort();
            take(self, i);
        }
        self->done++;
        if (i % 2) take(self, i);
    }
    return NULL;
}

/* A queue of this shape, these many threads, and each item counted in and out. */
static void run(uint32_t k, uint32_t segments, uint32_t probes, uint32_t threads) {
    kfifo_handle handles[MOST];
    struct side sides[MOST];
    pthread_t ids[MOST];
    uint32_t items = threads * EACH, in = 0, out = 0, item = 0;
    int status;
    expect(kfifo_open(k, segments, probes, KFIFO_LAST, handles, threads), KFIFO_DONE, "open");
    for (uint32_t i = 0; i < threads; i++) {
        sides[i] = (struct side){.handle = &handles[i],
                                 .k = k,
                                 .first = 1 + i * EACH,
                                 .turns = (uint16_t)(segments + 2),
                                 .out = calloc(items + 1, 1)};
        if (!sides[i].out || pthread_create(&ids[i], NULL, work, &sides[i])) abort();
    }
    for (uint32_t i = 0; i < threads; i++) pthread_join(ids[i], NULL);
    while ((status = kfifo_get(&handles[0], &item)) == KFIFO_DONE) {
        sides[0].out[item]++;
        sides[0].got++;
    }
    expect(status, KFIFO_EMPTY, "the end");
    for (uint32_t i = 0; i < threads; i++) {
        in += sides[i].done;
        out += sides[i].got;
    }
    expect((int)in, (int)items, "items put");
    expect((int)out, (int)items, "items taken");
    for (item = 1; item <= items; item++) {
        int times = 0;
        for (uint32_t i = 0; i < threads; i++) times += sides[i].out[item];
        expect(times, 1, "how often an item came out");
    }
    for (uint32_t i = 0; i < threads; i++) free(sides[i].out);
    expect(kfifo_enqueue(&handles[0], 1, 0, (uint16_t)(segments + 2)), KFIFO_DONE, "an item to be left");
    expect(kfifo_enqueue(&handles[threads - 1], 2, 0, (uint16_t)(segments + 2)), KFIFO_DONE, "another");
    size_t count = 77;
    expect(kfifo_close(handles, threads, left, k * segments - 1, &count), KFIFO_BAD_CALL, "too little room");
    if (threads > 1)
        expect(kfifo_close(handles, threads - 1, left, k * segments, &count), KFIFO_BAD_CALL, "a missing handle");
    expect((int)count, 77, "the count of a close that did nothing");
    expect(kfifo_close(handles, threads, left, k * segments, &count), KFIFO_DONE, "close");
    expect((int)count, 2, "items left");
    expect((int)(left[0] + left[1]), 3, "the items left");
    expect(kfifo_enqueue(&handles[0], 1, 0, 1), KFIFO_BAD_CALL, "a closed handle");
    expect(kfifo_put(&handles[0], 1), KFIFO_BAD_CALL, "a closed handle of a put");
    expect(kfifo_get(&handles[0], &item), KFIFO_BAD_CALL, "a closed handle of a get");
    expect(kfifo_close(handles, threads, left, k * segments, &count), KFIFO_BAD_CALL, "close again");
}

/* Closes by handles of two queues. Both have two handles, so the numbers of a mixture are those of a whole queue. The
   handles of one come before those of the other in an array, and `mixed` are the last of the former and the first of
   the latter. */
static void mixture(int turned) {
    kfifo_handle all[4], *one = &all[2 * turned], *other = &all[2 - 2 * turned], *mixed = &all[1];
    uint32_t item = 0;
    size_t count = 77;
    expect(kfifo_open(1, 2, 1, KFIFO_LAST, one, 2), KFIFO_DONE, "open");
    expect(kfifo_open(1, 2, 1, KFIFO_LAST, other, 2), KFIFO_DONE, "open another");
    expect(kfifo_enqueue(&one[0], 1, 0, 4), KFIFO_DONE, "an item of the first");
    expect(kfifo_enqueue(&other[0], 2, 0, 4), KFIFO_DONE, "an item of the second");
    left[0] = 77;
    expect(kfifo_close(mixed, 2, left, 2, &count), KFIFO_BAD_CALL, "a close by handles of two queues");
    expect((int)count, 77, "the count of a close by handles of two queues");
    expect((int)left[0], 77, "the items of a close by handles of two queues");
    expect(kfifo_dequeue(&one[1], &item, 0, 4), KFIFO_DONE, "the first works on");
    expect((int)item, 1, "the item of the first");
    expect(kfifo_dequeue(&other[1], &item, 0, 4), KFIFO_DONE, "the second works on");
    expect((int)item, 2, "the item of the second");
    expect(kfifo_close(one, 2, left, 2, &count), KFIFO_DONE, "close the first");
    expect((int)count, 0, "items left in the first");
    expect(kfifo_enqueue(&other[0], 3, 0, 4), KFIFO_DONE, "the second works after that");
    expect(kfifo_open(1, 2, 1, KFIFO_LAST, one, 2), KFIFO_DONE, "open one more");
    expect(kfifo_close(mixed, 2, left, 2, &count), KFIFO_BAD_CALL, "a close by a new queue's handle and an old one's");
    expect(kfifo_close(other, 2, left, 2, &count), KFIFO_DONE, "close the second");
    expect((int)count, 1, "items left in the second");
    expect((int)left[0], 3, "the item left in the second");
    expect(kfifo_abandon(one, 2), KFIFO_DONE, "abandon");
}

/* Puts and gets of a handle begin one slot further at each call, from slot thread * k / threads on. */
static void starts(void) {
    enum { K = 4 };
    kfifo_handle two[2];
    uint32_t item = 0;
    uint64_t word = 0;
    size_t count = 0;
    expect(kfifo_open(K, 8, K, KFIFO_LAST, two, 2), KFIFO_DONE, "open for starts");
    for (uint32_t i = 0; i < K; i++) expect(kfifo_put(&two[1], 10 + i), KFIFO_DONE, "a put");
    size_t first = 0;
    while (first < 8 && kfifo_word(&two[0], 1 + first * K, &word) == KFIFO_DONE && (word & KFIFO_MAX_ITEM) == 0)
        first++;
    for (uint32_t i = 0; i < K; i++) {
        expect(kfifo_word(&two[0], 1 + first * K + (2 + i) % K, &word), KFIFO_DONE, "a slot");
        expect((int)(word & KFIFO_MAX_ITEM), (int)(10 + i), "the item in the slot of the start");
    }
    /* The second handle takes from slot 2 on, where its own first item is, and the first one from slot 0 on. */
    expect(kfifo_get(&two[1], &item), KFIFO_DONE, "a get by the second");
    expect((int)item, 10, "the item of the second's start");
    expect(kfifo_get(&two[0], &item), KFIFO_DONE, "a get by the first");
    expect((int)item, 12, "the item of the first's start");
    expect(kfifo_get(&two[0], &item), KFIFO_DONE, "a further get by the first");
    expect((int)item, 13, "the item of the slot after it");
    expect(kfifo_close(two, 2, left, K * 8, &count), KFIFO_DONE, "close");
    expect((int)count, 1, "the item that is left");
}

/* As many handles as a queue may have, and the greatest ring: each handle puts an item, and all but one get one. */
static void most_handles(void) {
    enum { THREADS = 64 };
    static kfifo_handle all[THREADS];
    uint32_t item = 0, sum = 0;
    size_t count = 0;
    expect(kfifo_open(64, 1024, 64, KFIFO_LAST, all, THREADS), KFIFO_DONE, "open for 64");
    for (uint32_t i = 0; i < THREADS; i++) expect(kfifo_put(&all[i], i + 1), KFIFO_DONE, "a put by each of 64");
    for (uint32_t i = 1; i < THREADS; i++) {
        expect(kfifo_get(&all[i], &item), KFIFO_DONE, "a get by 63 of 64");
        sum += item;
    }
    expect(kfifo_close(all, THREADS - 1, left, 64 * 1024, &count), KFIFO_BAD_CALL, "a close by 63 of 64");
    expect(kfifo_close(all, THREADS, left, 64 * 1024, &count), KFIFO_DONE, "a close by 64");
    expect((int)count, 1, "the items that are left");
    expect((int)(sum + left[0]), THREADS * (THREADS + 1) / 2, "the sum of the items");
}

/* More handles than a queue has are refused by each call that takes a number, which then touches nothing beyond the
   first 64. The arrays are on the heap and have just 64 handles, so that the address sanitizer sees a touch. */
static void too_many_threads(void) {
    static const size_t counts[] = {65, 200, SIZE_MAX};
    enum { THREADS = 64 };
    kfifo_handle *all = malloc(THREADS * sizeof *all);
    uint32_t item = 0;
    size_t count = 77;
    if (!all) abort();
    for (size_t i = 0; i < sizeof counts / sizeof counts[0]; i++) {
        memset(all, 0xff, THREADS * sizeof *all);
        expect(kfifo_open(1, 2, 1, KFIFO_LAST, all, counts[i]), KFIFO_BAD_THREADS, "an open for too many threads");
        expect(kfifo_put(&all[0], 1), KFIFO_BAD_CALL, "the first handle of an open for too many threads");
        expect(kfifo_put(&all[THREADS - 1], 1), KFIFO_BAD_CALL, "the last handle of an open for too many threads");
        expect(kfifo_open(0, 2, 1, KFIFO_LAST, all, counts[i]), KFIFO_BAD_K, "k is tested before the threads");
        expect(kfifo_open(1, 2, 1, KFIFO_LAST, all, THREADS), KFIFO_DONE, "an open for 64 threads");
        expect(kfifo_put(&all[0], 5), KFIFO_DONE, "an item");
        expect(kfifo_close(all, counts[i], left, 2, &count), KFIFO_BAD_THREADS, "a close by too many handles");
        expect((int)count, 77, "the count of a close by too many handles");
        expect(kfifo_abandon(all, counts[i]), KFIFO_BAD_THREADS, "an abandon of too many handles");
        expect(kfifo_get(&all[THREADS - 1], &item), KFIFO_DONE, "a get after calls with too many handles");
        expect(kfifo_abandon(all, THREADS), KFIFO_DONE, "an abandon of 64 handles");
        expect(kfifo_put(&all[THREADS - 1], 1), KFIFO_BAD_CALL, "an abandoned handle");
    }
    free(all);
}

/* Each cause of BAD_CALL has a text of its own, which comes exactly where the call is refused. */
static void texts_of_bad_calls(void) {
    kfifo_handle handle, closed = {0};
    uint32_t item = 0;
    expect(kfifo_open(4, 2, 4, KFIFO_LAST, &handle, 1), KFIFO_DONE, "open for texts");
    const struct {
        kfifo_handle *handle;
        uint32_t item, start;
        uint16_t turns;
        const char *text;
    } rows[] = {
        {NULL, 1, 0, 1, "pointer"},  {&closed, 1, 0, 1, "closed"},
        {&handle, 0, 0, 1, "item"},  {&handle, KFIFO_MAX_ITEM + 1, 0, 1, "item"},
        {&handle, 1, 4, 1, "start"}, {&handle, 1, 0, 0, "turns"},
        {&handle, 1, 3, 1, NULL},    {&handle, KFIFO_MAX_ITEM, 0, 65535, NULL},
    };
    for (size_t i = 0; i < sizeof rows / sizeof rows[0]; i++) {
        const char *text = kfifo_bad_call_text(rows[i].handle, rows[i].item, rows[i].start, rows[i].turns);
        int refused = kfifo_enqueue(rows[i].handle, rows[i].item, rows[i].start, rows[i].turns) == KFIFO_BAD_CALL;
        expect(text != NULL, rows[i].text != NULL, "whether a call may not be made, by its text");
        expect(refused, rows[i].text != NULL, "whether a call may not be made");
        expect(text && rows[i].text && !strstr(text, rows[i].text), 0, "the text names the cause");
        if (!refused) expect(kfifo_get(&handle, &item), KFIFO_DONE, "the item of a call that was made");
    }
    expect(kfifo_abandon(&handle, 1), KFIFO_DONE, "abandon");
}

/* Fifty queues at once: all handles of one have one address, and no two have the same. */
static void addresses(void) {
    enum { QUEUES = 50 };
    static kfifo_handle all[QUEUES][3];
    for (int i = 0; i < QUEUES; i++) {
        expect(kfifo_open(2, 4, 2, KFIFO_LAST, all[i], 3), KFIFO_DONE, "open one of fifty");
        expect(all[i][0].address == all[i][1].address && all[i][1].address == all[i][2].address, 1,
               "the address of a queue's handles");
        for (int j = 0; j < i; j++) expect(all[i][0].address != all[j][2].address, 1, "the addresses of two queues");
    }
    for (int i = 0; i < QUEUES; i++) {
        expect(kfifo_abandon(all[i], 2), KFIFO_DONE, "abandon");
        for (int j = 0; j < i; j++)
            expect(all[i][2].address != all[j][2].address, 1, "an address while a handle is left");
    }
    for (int i = 0; i < QUEUES; i++) expect(kfifo_abandon(&all[i][2], 1), KFIFO_DONE, "abandon");
}

static void refusals(void) {
    kfifo_handle handle, many[65];
    uint32_t item = 77;
    expect(kfifo_open(0, 2, 1, 9, &handle, 1), KFIFO_BAD_K, "k 0");
    expect(kfifo_open(65, 2, 1, 9, &handle, 1), KFIFO_BAD_K, "k 65");
    expect(kfifo_open(1, 1, 1, 9, &handle, 1), KFIFO_BAD_SEGMENTS, "segments 1");
    expect(kfifo_open(1, 1025, 1, 9, &handle, 1), KFIFO_BAD_SEGMENTS, "segments 1025");
    expect(kfifo_open(1, 2, 1, 1, &handle, 1), KFIFO_BAD_LAST, "last 1");
    expect(kfifo_open(1, 2, 1, KFIFO_LAST + 1, &handle, 1), KFIFO_BAD_LAST, "last 2^40");
    expect(kfifo_open(1, 2, 2, 9, &handle, 1), KFIFO_BAD_PROBES, "probes 2");
    expect(kfifo_open(1, 2, 1, 9, &handle, 0), KFIFO_BAD_THREADS, "threads 0");
    expect(kfifo_open(1, 2, 1, 9, many, 65), KFIFO_BAD_THREADS, "threads 65");
    expect(kfifo_open(1, 2, 1, 9, NULL, 1), KFIFO_BAD_CALL, "no handles");
    expect(kfifo_open(1, 2, 1, KFIFO_LAST, &handle, 1), KFIFO_DONE, "open");
    expect(kfifo_enqueue(NULL, 1, 0, 4), KFIFO_BAD_CALL, "no handle");
    expect(kfifo_enqueue(&handle, 0, 0, 4), KFIFO_BAD_CALL, "item 0");
    expect(kfifo_enqueue(&handle, KFIFO_MAX_ITEM + 1, 0, 4), KFIFO_BAD_CALL, "item 2^24");
    expect(kfifo_enqueue(&handle, 1, 1, 4), KFIFO_BAD_CALL, "start 1");
    expect(kfifo_enqueue(&handle, 1, 0, 0), KFIFO_BAD_CALL, "no turns");
    expect(kfifo_put(NULL, 1), KFIFO_BAD_CALL, "no handle to put by");
    expect(kfifo_put(&handle, 0), KFIFO_BAD_CALL, "item 0 of a put");
    expect(kfifo_put(&handle, KFIFO_MAX_ITEM + 1), KFIFO_BAD_CALL, "item 2^24 of a put");
    expect(kfifo_get(NULL, &item), KFIFO_BAD_CALL, "no handle to get by");
    expect(kfifo_get(&handle, NULL), KFIFO_BAD_CALL, "no item to get");
    expect(kfifo_get(&handle, &item), KFIFO_EMPTY, "an empty queue");
    expect((int)item, 77, "the item of a get that got none");
    expect(kfifo_dequeue(&handle, NULL, 0, 4), KFIFO_BAD_CALL, "no item");
    expect(kfifo_dequeue(&handle, &item, 1, 4), KFIFO_BAD_CALL, "start 1 of a dequeue");
    expect(kfifo_dequeue(&handle, &item, 0, 0), KFIFO_BAD_CALL, "no turns of a dequeue");
    expect(kfifo_dequeue(&handle, &item, 0, 4), KFIFO_EMPTY, "empty");
    expect((int)item, 77, "the item of a dequeue that got none");
    expect(kfifo_enqueue(&handle, KFIFO_MAX_ITEM, 0, 4), KFIFO_DONE, "the greatest item");
    expect(kfifo_enqueue(&handle, 5, 0, 4), KFIFO_DONE, "item 5");
    expect(kfifo_enqueue(&handle, 6, 0, 4), KFIFO_FULL, "full");
    expect(kfifo_dequeue(&handle, &item, 0, 4), KFIFO_DONE, "got");
    expect((int)item, (int)KFIFO_MAX_ITEM, "the first item");
    uint64_t word = 77;
    size_t count = 77;
    expect(kfifo_word(NULL, 0, &word), KFIFO_BAD_CALL, "no handle to read by");
    expect(kfifo_word(&handle, 0, NULL), KFIFO_BAD_CALL, "no word");
    expect(kfifo_word(&handle, 4, &word), KFIFO_BAD_CALL, "a word past the last");
    expect(word == 77, 1, "the word of a read that did nothing");
    expect(kfifo_word(&handle, 3, &word), KFIFO_DONE, "the clock");
    expect(word == 0, 1, "the clock of a plain queue");
    expect(kfifo_word(&handle, 2, &word), KFIFO_DONE, "the second slot");
    expect((int)(word & KFIFO_MAX_ITEM), 5, "the second slot's item");
    expect(kfifo_close(NULL, 1, left, 2, &count), KFIFO_BAD_CALL, "no handles to close");
    expect(kfifo_close(&handle, 1, NULL, 2, &count), KFIFO_BAD_CALL, "no items");
    expect(kfifo_close(&handle, 1, left, 2, NULL), KFIFO_BAD_CALL, "no count");
    expect(kfifo_close(&handle, 0, left, 2, &count), KFIFO_BAD_CALL, "a close by no handle");
    expect(kfifo_abandon(NULL, 1), KFIFO_BAD_CALL, "no handles to abandon");
    expect(kfifo_abandon(&handle, 1), KFIFO_DONE, "abandon");
    expect(kfifo_abandon(&handle, 1), KFIFO_DONE, "abandon again");
    expect(kfifo_dequeue(&handle, &item, 0, 4), KFIFO_BAD_CALL, "a closed handle");
    expect(kfifo_open(1, 2, 1, 2, &handle, 1), KFIFO_DONE, "open for few versions");
    int status = KFIFO_DONE;
    for (int i = 0; i < 100 && status != KFIFO_WORN; i++)
        status = i % 2 ? kfifo_dequeue(&handle, &item, 0, 4) : kfifo_enqueue(&handle, 1, 0, 4);
    expect(status, KFIFO_WORN, "worn");
    expect(kfifo_close(&handle, 1, left, 2, &count), KFIFO_DONE, "close a worn queue");
    kfifo_handle two[2];
    expect(kfifo_open(1, 2, 1, 9, two, 2), KFIFO_DONE, "open for two");
    expect(kfifo_abandon(&two[1], 1), KFIFO_DONE, "abandon");
    expect(kfifo_close(two, 2, left, 2, &count), KFIFO_BAD_CALL, "a closed handle among those of a close");
    expect(kfifo_enqueue(&two[0], 1, 0, 4), KFIFO_DONE, "the open one still works");
    expect(kfifo_abandon(two, 2), KFIFO_DONE, "abandon");
}

int main(void) {
    static const uint32_t ks[] = {1, 2, 5, 64}, rings[] = {2, 3, 16, 1024};
    refusals();
    for (int turned = 0; turned < 2; turned++) mixture(turned);
    starts();
    most_handles();
    too_many_threads();
    texts_of_bad_calls();
    addresses();
    for (int status = KFIFO_DONE; status <= KFIFO_FINISHED; status++) {
        /* What the exports return of a take that is done, and two numbers that no status has. */
        if (status == 2 || status == 10 || status == 15) continue;
        expect(strcmp(kfifo_status_text((kfifo_status)status), kfifo_status_text((kfifo_status)99)) != 0, 1,
               "the text of a status");
        expect(strncmp(kfifo_status_name((kfifo_status)status), "KFIFO_", 6), 0, "the name of a status");
        for (int other = KFIFO_DONE; other < status; other++)
            expect(strcmp(kfifo_status_name((kfifo_status)status), kfifo_status_name((kfifo_status)other)) != 0, 1,
                   "the names of two");
    }
    expect(strcmp(kfifo_status_name(KFIFO_FINISHED), "KFIFO_FINISHED"), 0, "the last name");
    expect(strcmp(kfifo_status_name(KFIFO_BUSY), "KFIFO_BUSY"), 0, "a name in the middle");
    for (size_t k = 0; k < 4; k++)
        for (size_t n = 0; n < 4; n++)
            for (uint32_t threads = 1; threads <= MOST; threads *= 2)
                run(ks[k], rings[n], threads == 2 ? 1 : ks[k], threads);
    printf("%s\n", failed ? "the queue for C fails" : "16 shapes, 1, 2 and 4 threads: each item came out once");
    return failed;
}
