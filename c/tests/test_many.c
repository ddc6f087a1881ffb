/* Many values or items at once: what is given and what is not, each refusal at its cause, and that one call wakes all
   threads that wait for what it gave or took. A wake-up that is lost would hang the test, which its caller ends after
   some time. */
#include "kfifo_many.h"
#include "kfifo_wait.h"
#include <pthread.h>
#include <sched.h>
#include <stdatomic.h>
#include <stdio.h>

#ifdef FEWER
enum { ROUNDS = 50, EACH = 5000 };
#else
enum { ROUNDS = 500, EACH = 200000 };
#endif
enum { CAPACITY = 16, MOST = 64, THREADS = 8 };
enum { ALL = 512 }; /* more than a queue of so many threads takes */

static atomic_int failed;

static void expect(uint64_t is, uint64_t wanted, const char *what) {
    if (is == wanted) return;
    fprintf(stderr, "%s: %llu, and not %llu\n", what, (unsigned long long)is, (unsigned long long)wanted);
    failed = 1;
}

/* Writes the numbers from `first` on. */
static void number(uint64_t *values, size_t count, uint64_t first) {
    for (size_t i = 0; i < count; i++) values[i] = first + i;
}

static void open_values(uint32_t capacity, kfifo_handle *handles, size_t threads) {
    expect(kfifo_open_values(1, capacity, handles, threads), KFIFO_DONE, "an opening");
}

static void of_values(void) {
    kfifo_handle handles[2];
    uint64_t in[ALL], out[ALL];
    size_t many = 77;
    open_values(CAPACITY, handles, 2);
    number(in, ALL, 1);
    number(out, ALL, 1000);

    expect(kfifo_give_all(&handles[0], in, 0, &many), KFIFO_DONE, "a give of no values");
    expect(many, 0, "none are given");
    expect(kfifo_give_all(&handles[0], NULL, 0, &many), KFIFO_DONE, "a give of no values without an array");
    many = 77;
    expect(kfifo_take_up_to(&handles[1], out, ALL, &many), KFIFO_EMPTY, "a take of many from an empty queue");
    expect(many, 0, "none are taken");
    expect(out[0], 1000, "the array of a take that got none");

    expect(kfifo_give_all(&handles[0], in, ALL, &many), KFIFO_FULL, "more values than there is room for");
    size_t inside = many;
    expect(inside >= CAPACITY, 1, "as many as the capacity are given");
    expect(kfifo_give_all(&handles[0], in + many, ALL - many, &many), KFIFO_FULL, "a give to a full queue");
    expect(many, 0, "none of the rest are given");
    expect(kfifo_take_up_to(&handles[1], out, 5, &many), KFIFO_DONE, "a take of five");
    expect(many, 5, "five are taken");
    expect(out[5], 1005, "the array after them");
    expect(kfifo_take_up_to(&handles[1], out + 5, ALL - 5, &many), KFIFO_DONE, "a take of more than there are");
    expect(many, inside - 5, "all that were left");
    for (size_t i = 0; i < inside; i++) expect(out[i], in[i], "a value in its order");
    expect(out[inside], 1000 + inside, "the array after the last one");
    expect(kfifo_take_up_to(&handles[1], out, 0, &many), KFIFO_DONE, "a take of no values");
    expect(kfifo_take_up_to(&handles[1], NULL, 0, &many), KFIFO_DONE, "a take of no values without an array");
    expect(kfifo_take_up_to(&handles[1], out, 1, &many), KFIFO_EMPTY, "none is left");

    expect(kfifo_give_all(&handles[0], in, 3, &many), KFIFO_DONE, "a give of three");
    expect(kfifo_finish(&handles[0]), KFIFO_DONE, "the end");
    expect(kfifo_give_all(&handles[0], in, 3, &many), KFIFO_FINISHED, "a give after the end");
    expect(many, 0, "nothing is given after the end");
    expect(kfifo_give_all(&handles[0], in, 0, &many), KFIFO_DONE, "a give of no values after the end");
    expect(kfifo_take_up_to(&handles[1], out, MOST, &many), KFIFO_DONE, "what was there before the end");
    expect(many, 3, "the three");
    expect(kfifo_take_up_to(&handles[1], out, MOST, &many), KFIFO_FINISHED, "a take after the end");
    expect(many, 0, "nothing is left after the end");
    expect(kfifo_abandon(handles, 2), KFIFO_DONE, "an abandon");
}

static void of_pointers(void) {
    kfifo_handle handles[2];
    char targets[ALL];
    void *in[ALL], *out[ALL + 1];
    size_t many = 0;
    open_values(2, handles, 2);
    for (size_t i = 0; i < ALL; i++) in[i] = &targets[i];
    expect(kfifo_give_all_pointers(&handles[0], in, ALL, &many), KFIFO_FULL, "more pointers than there is room for");
    size_t inside = many;
    expect(inside >= 2, 1, "as many as the capacity are given");
    out[inside] = &failed;
    expect(kfifo_take_pointers_up_to(&handles[1], out, ALL, &many), KFIFO_DONE, "a take of pointers");
    expect(many, inside, "all are taken");
    for (size_t i = 0; i < inside; i++) expect(out[i] == in[i], 1, "a pointer in its order");
    expect(out[inside] == &failed, 1, "the array after the last pointer");
    expect(kfifo_abandon(handles, 2), KFIFO_DONE, "an abandon");
}

static void of_items(void) {
    kfifo_handle handles[2];
    uint32_t in[MOST], out[MOST] = {0};
    size_t many = 77;
    expect(kfifo_open(1, CAPACITY, 1, KFIFO_LAST, handles, 2), KFIFO_DONE, "an opening");
    for (uint32_t i = 0; i < MOST; i++) in[i] = KFIFO_MAX_ITEM - i;

    for (uint32_t wrong = 0; wrong < 2; wrong++) {
        in[3] = wrong ? KFIFO_MAX_ITEM + 1 : 0;
        expect(kfifo_put_all(&handles[0], in, 5, &many), KFIFO_BAD_CALL, "an item out of range");
        expect(many, 0, "none is put where one is out of range");
    }
    in[3] = 1;
    expect(kfifo_get_up_to(&handles[1], out, MOST, &many), KFIFO_EMPTY, "so the queue is empty");
    expect(kfifo_put_all(&handles[0], in, 0, &many), KFIFO_DONE, "a put of no items");
    expect(kfifo_put_all(&handles[0], in, MOST, &many), KFIFO_FULL, "more items than there are slots");
    expect(many, CAPACITY, "as many as there are slots are put");
    expect(kfifo_get_up_to(&handles[1], out, MOST, &many), KFIFO_DONE, "a get of more than there are");
    expect(many, CAPACITY, "all are got");
    for (size_t i = 0; i < CAPACITY; i++) expect(out[i], in[i], "an item in its order");
    expect(out[CAPACITY], 0, "the array after the last item");
    expect(kfifo_finish(&handles[0]), KFIFO_DONE, "the end");
    expect(kfifo_put_all(&handles[0], in, 1, &many), KFIFO_FINISHED, "a put after the end");
    expect(kfifo_get_up_to(&handles[1], out, 1, &many), KFIFO_FINISHED, "a get after the end");
    expect(kfifo_abandon(handles, 2), KFIFO_DONE, "an abandon");
    expect(kfifo_put_all(&handles[0], in, 1, &many), KFIFO_BAD_CALL, "a put by a closed handle");
    expect(kfifo_get_up_to(&handles[0], out, 1, &many), KFIFO_BAD_CALL, "a get by a closed handle");
}

static void refusals(void) {
    kfifo_handle handle, closed = {0};
    uint64_t values[2] = {1, 2};
    size_t many = 77;
    open_values(CAPACITY, &handle, 1);
    expect(kfifo_give_all(&handle, values, 2, NULL), KFIFO_BAD_CALL, "a give without a place for how many");
    expect(kfifo_take_up_to(&handle, values, 2, NULL), KFIFO_BAD_CALL, "a take without a place for how many");
    expect(kfifo_take_up_to(&handle, values, 2, &many), KFIFO_EMPTY, "that give put nothing in");
    many = 77;
    expect(kfifo_give_all(NULL, values, 2, &many), KFIFO_BAD_CALL, "a give without a handle");
    expect(many, 0, "it gives none");
    expect(kfifo_give_all(&closed, values, 2, &many), KFIFO_BAD_CALL, "a give by a closed handle");
    expect(kfifo_give_all(&closed, values, 0, &many), KFIFO_BAD_CALL, "a give of no values by a closed handle");
    expect(kfifo_give_all(&handle, NULL, 2, &many), KFIFO_BAD_CALL, "a give without an array");
    expect(kfifo_take_up_to(NULL, values, 2, &many), KFIFO_BAD_CALL, "a take without a handle");
    expect(kfifo_take_up_to(&closed, values, 2, &many), KFIFO_BAD_CALL, "a take by a closed handle");
    expect(kfifo_take_up_to(&handle, NULL, 2, &many), KFIFO_BAD_CALL, "a take without an array");
    expect(kfifo_abandon(&handle, 1), KFIFO_DONE, "an abandon");

    /* A queue that wears out says so, and what was given before came out. */
    uint64_t out[2];
    size_t given = 2, taken = 0;
    kfifo_status gave = KFIFO_DONE;
    expect(kfifo_open_values_with(1, 2, 64, 0, 1, &handle, 1), KFIFO_DONE, "an opening");
    for (int i = 0; i < 1000 && gave == KFIFO_DONE; i++) {
        gave = kfifo_give_all(&handle, values, 2, &given);
        kfifo_status took = kfifo_take_up_to(&handle, out, 2, &taken);
        if (took == KFIFO_DONE && gave == KFIFO_DONE) expect(taken, 2, "two come out");
    }
    expect(gave, KFIFO_WORN, "a queue that wears out");
    expect(given < 2, 1, "the rest is the caller's");
    expect(kfifo_abandon(&handle, 1), KFIFO_DONE, "an abandon");
}

/* A thread that waits for one value, or for room for one. */
struct waiting {
    kfifo_handle *handle;
    kfifo_status status;
    uint64_t value;
};

static void *take_one(void *argument) {
    struct waiting *self = argument;
    self->status = kfifo_take_wait(self->handle, &self->value, KFIFO_FOREVER);
    return NULL;
}

static void *give_one(void *argument) {
    struct waiting *self = argument;
    self->status = kfifo_give_wait(self->handle, self->value, KFIFO_FOREVER);
    return NULL;
}

/* Starts a thread for each handle but the first, and comes back when all of them have announced that they wait. */
static void start(kfifo_handle *handles, void *(*call)(void *), struct waiting *all, pthread_t *threads,
                  uint32_t announced) {
    for (size_t i = 1; i < THREADS; i++) {
        all[i] = (struct waiting){.handle = &handles[i], .value = 100 + i};
        if (pthread_create(&threads[i], NULL, call, &all[i])) abort();
    }
    while (kfifo_waits_state(KFIFO_WAITS(&handles[0])) != announced * (THREADS - 1)) sched_yield();
}

/* Joins them. Returns the sum of the values that they took or gave. */
static uint64_t join(struct waiting *all, pthread_t *threads) {
    uint64_t sum = 0;
    for (size_t i = 1; i < THREADS; i++) {
        pthread_join(threads[i], NULL);
        expect(all[i].status, KFIFO_DONE, "a call that waited");
        sum += all[i].value;
    }
    return sum;
}

/* One call with a value for each thread that waits wakes them all: no thread makes another call. */
static void one_give_wakes_all(void) {
    kfifo_handle handles[THREADS];
    struct waiting all[THREADS];
    pthread_t threads[THREADS];
    uint64_t values[THREADS - 1], wanted = 0;
    size_t given = 0;
    number(values, THREADS - 1, 1);
    for (size_t i = 0; i < THREADS - 1; i++) wanted += values[i];
    open_values(CAPACITY, handles, THREADS);
    for (int round = 0; round < ROUNDS; round++) {
        start(handles, take_one, all, threads, KFIFO_WAITS_TAKER);
        expect(kfifo_give_all(&handles[0], values, THREADS - 1, &given), KFIFO_DONE, "a value for each that waits");
        expect(join(all, threads), wanted, "the sum of what they took");
    }
    expect(kfifo_abandon(handles, THREADS), KFIFO_DONE, "an abandon");
}

/* The same of threads that wait for room. */
static void one_take_wakes_all(uint32_t capacity) {
    kfifo_handle handles[THREADS];
    struct waiting all[THREADS];
    pthread_t threads[THREADS];
    uint64_t values[ALL];
    size_t given = 0, taken = 0;
    number(values, ALL, 1);
    open_values(capacity, handles, THREADS);
    for (int round = 0; round < ROUNDS; round++) {
        /* Each handle gives until it finds no room, so that each of the threads waits. */
        size_t total = 0;
        for (size_t i = 0; i < THREADS; i++, total += given)
            if (kfifo_give_all(&handles[i], values, ALL, &given) == KFIFO_DONE) abort();
        start(handles, give_one, all, threads, KFIFO_WAITS_GIVER);
        /* It does not find the queue empty, which would be a look of its own. */
        expect(kfifo_take_up_to(&handles[0], values, total, &taken), KFIFO_DONE, "a take of all");
        expect(taken, total, "as many as were given");
        (void)join(all, threads);
        while (kfifo_take_up_to(&handles[0], values, ALL, &taken) == KFIFO_DONE) {
        }
    }
    expect(kfifo_abandon(handles, THREADS), KFIFO_DONE, "an abandon");
}

/* Values in batches of all sizes, among threads that wait: each value comes out once. */
struct side {
    kfifo_handle *handle;
    uint64_t first, count, sum;
    kfifo_status end;
};

static void *give_batches(void *argument) {
    struct side *self = argument;
    uint64_t values[MOST];
    for (uint64_t given = 0; given < self->count;) {
        size_t batch = 1 + given % MOST, done = 0;
        if (batch > self->count - given) batch = self->count - given;
        number(values, batch, self->first + given);
        self->end = kfifo_give_all(self->handle, values, batch, &done);
        if (kfifo_may_retry(self->end)) {
            self->end = kfifo_give_wait(self->handle, values[done], KFIFO_FOREVER);
            done += self->end == KFIFO_DONE;
        }
        given += done;
        if (self->end != KFIFO_DONE) return NULL;
    }
    return NULL;
}

static void *take_batches(void *argument) {
    struct side *self = argument;
    uint64_t values[MOST];
    while ((self->end = kfifo_take_wait(self->handle, values, KFIFO_FOREVER)) == KFIFO_DONE) {
        size_t taken = 0;
        kfifo_status rest = kfifo_take_up_to(self->handle, values + 1, (size_t)(self->count % MOST), &taken);
        if (rest != KFIFO_DONE && taken) abort();
        for (size_t i = 0; i <= taken; i++) self->sum += values[i];
        self->count += taken + 1;
    }
    return NULL;
}

static void batches(uint32_t k, uint32_t capacity) {
    kfifo_handle handles[4];
    struct side sides[4];
    pthread_t threads[4];
    uint64_t count = 0, sum = 0, wanted = 0;
    expect(kfifo_open_values(k, capacity, handles, 4), KFIFO_DONE, "an opening");
    for (size_t i = 0; i < 4; i++) {
        sides[i] = (struct side){&handles[i], 1 + i * EACH, i < 2 ? EACH : 0, 0, KFIFO_DONE};
        if (pthread_create(&threads[i], NULL, i < 2 ? give_batches : take_batches, &sides[i])) abort();
    }
    for (size_t i = 0; i < 4; i++) {
        if (i == 2) expect(kfifo_finish(&handles[0]), KFIFO_DONE, "the end");
        pthread_join(threads[i], NULL);
        expect(sides[i].end, i < 2 ? KFIFO_DONE : KFIFO_FINISHED, "the end of a thread");
        if (i >= 2) count += sides[i].count, sum += sides[i].sum;
    }
    for (uint64_t value = 1; value <= 2 * EACH; value++) wanted += value;
    expect(count, 2 * EACH, "the values that came out");
    expect(sum, wanted, "their sum");
    expect(kfifo_abandon(handles, 4), KFIFO_DONE, "an abandon");
}

int main(void) {
    of_values();
    of_pointers();
    of_items();
    refusals();
    one_give_wakes_all();
    one_take_wakes_all(1);
    one_take_wakes_all(100);
    batches(1, 4);
    batches(4, 256);
    puts(failed ? "many at once fail" : "many at once: each comes out once, and one call wakes all that wait for it");
    return failed;
}
