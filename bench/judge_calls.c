/* How many calls a second the judge's library judges: legal runs of a queue that gives any of its k oldest items, k = 1
   and 4, in one thread. Each run is drawn: calls overlap, and take effect at a moment within them.

       judge_calls CALLS THREADS K SECONDS       prints calls a second, and nanoseconds a call; THREADS is 3 to 64
       judge_calls CALLS THREADS K legal         writes such a run as a log in CSV
       judge_calls CALLS THREADS K wrong         the same, but once in its last tenth a get takes too young an item

   bench/judge_calls.py builds and runs it. */
#include "kfifo_judge.h"

#include <inttypes.h>
#include <stdio.h>
#include <stdlib.h>
#include <string.h>
#include <time.h>

enum { RUNS = 32, TOO_YOUNG = 64 };

static uint64_t state = 7;

/* A drawn number below a bound, by SplitMix64. */
static uint64_t drawn(uint64_t bound) {
    uint64_t word = state += 0x9e3779b97f4a7c15;
    word = (word ^ (word >> 30)) * 0xbf58476d1ce4e5b9;
    word = (word ^ (word >> 27)) * 0x94d049bb133111eb;
    return (word ^ (word >> 31)) % bound;
}

/* The items in the queue, oldest first. */
typedef struct queue {
    uint64_t *items;
    size_t first, end;
} queue;

/* Takes one of the k oldest items out, or one with so many older ones. */
static uint64_t take(queue *q, size_t k, size_t older) {
    const size_t count = q->end - q->first;
    size_t at = q->first + (older > 0 ? older : drawn(count < k ? count : k));
    const uint64_t item = q->items[at];
    for (; at > q->first; at--) q->items[at] = q->items[at - 1];
    q->first++;
    return item;
}

/* A run in which the threads call one after the other, each call around its moment. A thread's moments are 10 apart for
   each thread, and a call ends at most 29 after its own, so with three threads or more it begins before the next. Once
   from the call `wrong` on, where the queue is long enough, a get takes an item with TOO_YOUNG + k older ones. */
static void draw_run(kfifo_judge_call *calls, size_t count, uint32_t threads, size_t k, size_t wrong) {
    uint64_t *ended = calloc(threads, sizeof *ended);
    queue q = {malloc(count * sizeof *q.items), 0, 0};
    if (!ended || !q.items) exit(2);
    for (size_t i = 0; i < count; i++) {
        const uint32_t thread = (uint32_t)(i % threads);
        const uint64_t moment = 1000 + 10 * i, early = moment - drawn(30);
        kfifo_judge_call *call = &calls[i];
        call->thread = thread;
        call->first = early > ended[thread] ? early : ended[thread] + 1;
        call->last = moment + drawn(30);
        ended[thread] = call->last;
        if (drawn(2) == 0) {
            call->op = KFIFO_JUDGE_PUT;
            call->answer = KFIFO_JUDGE_DONE;
            call->item = q.items[q.end++] = i + 1;
        } else {
            call->op = KFIFO_JUDGE_GET;
            call->answer = q.first < q.end ? KFIFO_JUDGE_GOT : KFIFO_JUDGE_EMPTY;
            const size_t older = i >= wrong && q.end - q.first > TOO_YOUNG + k ? TOO_YOUNG + k : 0;
            if (call->answer == KFIFO_JUDGE_GOT) call->item = take(&q, k, older);
            if (older > 0) wrong = SIZE_MAX;
        }
    }
    if (wrong < count) exit(3);
    free(q.items);
    free(ended);
}

static double now(void) {
    struct timespec time;
    clock_gettime(CLOCK_MONOTONIC, &time);
    return (double)time.tv_sec + (double)time.tv_nsec * 1e-9;
}

/* Judges a run, and says whether it is legal. */
static int is_legal(const kfifo_judge_call *calls, size_t count, uint32_t k) {
    kfifo_judge_report report;
    const kfifo_judge_status status = kfifo_judge_calls(calls, count, k, KFIFO_JUDGE_TRIES, &report);
    if (status != KFIFO_JUDGE_LEGAL) fputs(report.text ? report.text : "no report\n", stderr);
    kfifo_judge_clear(&report);
    return status == KFIFO_JUDGE_LEGAL;
}

/* Writes a run as a log, with times as long as those of a processor's counter. */
static int write_log(size_t count, uint32_t threads, uint32_t k, size_t wrong) {
    static const char *const answers[] = {"", "done", "full", "got", "empty"};
    const uint64_t since = 3000000000000;
    kfifo_judge_call *calls = calloc(count, sizeof *calls);
    if (!calls) return 2;
    draw_run(calls, count, threads, k, wrong);
    puts("thread,op,item,first,last,answer");
    for (size_t i = 0; i < count; i++) {
        const kfifo_judge_call *call = &calls[i];
        printf("%" PRIu32 ",%s,", call->thread, call->op == KFIFO_JUDGE_PUT ? "enq" : "deq");
        if (call->answer != KFIFO_JUDGE_EMPTY) printf("%" PRIu64, call->item);
        printf(",%" PRIu64 ",%" PRIu64 ",%s\n", since + call->first, since + call->last, answers[call->answer]);
    }
    free(calls);
    return fflush(stdout) == 0 ? 0 : 2;
}

/* Judges runs for so long, and prints how fast. */
static int measure(size_t count, uint32_t threads, uint32_t k, double seconds) {
    kfifo_judge_call *calls = calloc(RUNS * count, sizeof *calls);
    if (!calls) return 2;
    for (size_t run = 0; run < RUNS; run++) draw_run(calls + run * count, count, threads, k, SIZE_MAX);
    size_t judged = 0;
    const double begin = now();
    do {
        if (!is_legal(calls + judged % RUNS * count, count, k)) return 1;
        judged++;
    } while (now() - begin < seconds);
    const double each = (now() - begin) / (double)(judged * count);
    printf("%.0f %.0f\n", 1 / each, each * 1e9);
    free(calls);
    return 0;
}

int main(int count_of_words, char **words) {
    const uint32_t threads = count_of_words == 5 ? (uint32_t)strtoul(words[2], NULL, 10) : 0;
    if (threads < 3 || threads > 64) {
        fputs("usage: judge_calls CALLS THREADS K SECONDS|legal|wrong\n", stderr);
        return 2;
    }
    const size_t count = strtoul(words[1], NULL, 10);
    const uint32_t k = (uint32_t)strtoul(words[3], NULL, 10);
    if (strcmp(words[4], "legal") == 0) return write_log(count, threads, k, SIZE_MAX);
    if (strcmp(words[4], "wrong") == 0) return write_log(count, threads, k, count / 10 * 9);
    return measure(count, threads, k, strtod(words[4], NULL));
}
