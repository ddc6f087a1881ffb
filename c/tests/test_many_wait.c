/* Many values or items at once by calls that wait: what each comes to, and that no thread sleeps on. An array that is
   longer than the queue goes through it by one call, although those that take sleep too. A wake-up that is lost would
   hang the test, which its caller ends after some time. */
#define _GNU_SOURCE
#include "kfifo_many.h"
#include <pthread.h>
#include <sched.h>
#include <stdatomic.h>
#include <stdio.h>
#include <time.h>

#ifdef FEWER
enum { ROUNDS = 50, EACH = 5000 };
#else
enum { ROUNDS = 200, EACH = 200000 };
#endif
enum { SLOTS = 4, MOST = 64, THREADS = 6, MILLISECOND = 1000000 };
enum { ALL = 1024 }; /* more than a queue of so many threads takes */

static atomic_int failed;

static void expect(uint64_t is, uint64_t wanted, const char *what) {
    if (is == wanted) return;
    fprintf(stderr, "%s: %llu, and not %llu\n", what, (unsigned long long)is, (unsigned long long)wanted);
    failed = 1;
}

/* Writes the numbers from `first` on. */
static void number(uint64_t *values, size_t count, uint64_t first) {
    for (size_t i = 0; i < count; i++) values[i] = first + i;
}

static void open_values(uint32_t capacity, kfifo_handle *handles, size_t threads) {
    expect(kfifo_open_values(1, capacity, handles, threads), KFIFO_DONE, "an opening");
}

/* Milliseconds since some moment. */
static uint64_t milliseconds(void) {
    struct timespec time;
    clock_gettime(CLOCK_MONOTONIC, &time);
    return (uint64_t)time.tv_sec * 1000 + (uint64_t)time.tv_nsec / MILLISECOND;
}

static void what_values_come_to(void) {
    kfifo_handle handles[2];
    uint64_t in[ALL], out[ALL];
    size_t many = 77;
    open_values(SLOTS, handles, 2);
    number(in, ALL, 1);
    number(out, ALL, 1000);

    expect(kfifo_give_all_wait(&handles[0], in, 0, &many, KFIFO_FOREVER), KFIFO_DONE, "a give of no values");
    expect(many, 0, "none are given");
    many = 77;
    expect(kfifo_take_up_to_wait(&handles[1], out, 0, &many, KFIFO_FOREVER), KFIFO_DONE, "a take of no values");
    expect(many, 0, "none are taken");
    many = 77;
    expect(kfifo_take_up_to_wait(&handles[1], out, ALL, &many, 0), KFIFO_TIMED_OUT, "a take without time");
    expect(many, 0, "it takes none");
    expect(kfifo_take_up_to_wait(&handles[1], out, ALL, &many, MILLISECOND), KFIFO_TIMED_OUT, "a take with a time");
    expect(out[0], 1000, "the array of a take that got none");
    expect(kfifo_give_all_wait(&handles[0], in, 3, &many, KFIFO_FOREVER), KFIFO_DONE, "a give that has room");
    expect(many, 3, "all are given");
    expect(kfifo_take_up_to_wait(&handles[1], out, 2, &many, KFIFO_FOREVER), KFIFO_DONE, "a take of two");
    expect(many, 2, "two are taken");
    expect(kfifo_take_up_to_wait(&handles[1], out + 2, MOST - 2, &many, KFIFO_FOREVER), KFIFO_DONE,
           "a take of the rest");
    expect(many, 1, "it does not wait for more than are there");
    for (size_t i = 0; i < 3; i++) expect(out[i], in[i], "a value in its order");
    expect(out[3], 1003, "the array after the last one");

    expect(kfifo_give_all_wait(&handles[0], in, ALL, &many, 0), KFIFO_TIMED_OUT, "a give without time");
    size_t inside = many;
    expect(inside >= SLOTS, 1, "as many as the capacity are given");
    expect(kfifo_give_all_wait(&handles[0], in, ALL, &many, MILLISECOND), KFIFO_TIMED_OUT, "a give with a time");
    expect(many, 0, "none to a full queue");
    expect(kfifo_finish(&handles[0]), KFIFO_DONE, "the end");
    expect(kfifo_give_all_wait(&handles[0], in, 1, &many, KFIFO_FOREVER), KFIFO_FINISHED, "a give after the end");
    expect(kfifo_take_up_to_wait(&handles[1], out, ALL, &many, KFIFO_FOREVER), KFIFO_DONE, "what came before the end");
    expect(many, inside, "all of it");
    expect(kfifo_take_up_to_wait(&handles[1], out, ALL, &many, KFIFO_FOREVER), KFIFO_FINISHED, "a take after the end");
    expect(many, 0, "none is left");
    expect(kfifo_abandon(handles, 2), KFIFO_DONE, "an abandon");
}

static void what_pointers_come_to(void) {
    kfifo_handle handles[2];
    char targets[ALL];
    void *in[ALL], *out[ALL + 1];
    size_t many = 77;
    open_values(2, handles, 2);
    for (size_t i = 0; i < ALL; i++) in[i] = &targets[i];
    expect(kfifo_take_pointers_up_to_wait(&handles[1], out, 3, &many, 0), KFIFO_TIMED_OUT, "no pointer is there");
    expect(kfifo_give_all_pointers_wait(&handles[0], in, ALL, &many, MILLISECOND), KFIFO_TIMED_OUT,
           "too many pointers");
    size_t inside = many;
    expect(inside >= 2, 1, "as many as the capacity are given");
    out[inside] = &failed;
    expect(kfifo_take_pointers_up_to_wait(&handles[1], out, ALL, &many, KFIFO_FOREVER), KFIFO_DONE, "all pointers");
    expect(many, inside, "all are taken");
    for (size_t i = 0; i < inside; i++) expect(out[i] == in[i], 1, "a pointer in its order");
    expect(out[inside] == &failed, 1, "the array after the last pointer");
    expect(kfifo_abandon(handles, 2), KFIFO_DONE, "an abandon");
}

static void what_items_come_to(void) {
    kfifo_handle handles[2];
    uint32_t in[MOST], out[MOST] = {0};
    size_t many = 77;
    expect(kfifo_open(1, SLOTS, 1, KFIFO_LAST, handles, 2), KFIFO_DONE, "an opening");
    for (uint32_t i = 0; i < MOST; i++) in[i] = i + 1;
    in[SLOTS + 1] = 0;
    expect(kfifo_put_all_wait(&handles[0], in, MOST, &many, KFIFO_FOREVER), KFIFO_BAD_CALL, "an item out of range");
    expect(many, 0, "none is put then");
    expect(kfifo_get_up_to_wait(&handles[1], out, MOST, &many, 0), KFIFO_TIMED_OUT, "so there is none");
    in[SLOTS + 1] = 1;
    expect(kfifo_put_all_wait(&handles[0], in, MOST, &many, MILLISECOND), KFIFO_TIMED_OUT, "more items than slots");
    expect(many, SLOTS, "as many as there are slots are put");
    expect(kfifo_get_up_to_wait(&handles[1], out, MOST, &many, KFIFO_FOREVER), KFIFO_DONE, "a get of what is there");
    expect(many, SLOTS, "all are got");
    for (size_t i = 0; i < SLOTS; i++) expect(out[i], in[i], "an item in its order");
    expect(out[SLOTS], 0, "the array after the last item");
    expect(kfifo_finish(&handles[0]), KFIFO_DONE, "the end");
    expect(kfifo_put_all_wait(&handles[0], in, 1, &many, KFIFO_FOREVER), KFIFO_FINISHED, "a put after the end");
    expect(kfifo_get_up_to_wait(&handles[1], out, 1, &many, KFIFO_FOREVER), KFIFO_FINISHED, "a get after the end");
    expect(kfifo_abandon(handles, 2), KFIFO_DONE, "an abandon");
}

static void refusals(void) {
    kfifo_handle handle, closed = {0};
    uint64_t values[ALL];
    size_t many = 77;
    number(values, ALL, 1);
    open_values(SLOTS, &handle, 1);
    expect(kfifo_give_all_wait(&handle, values, 2, NULL, 0), KFIFO_BAD_CALL, "a give without a place for how many");
    expect(kfifo_take_up_to_wait(&handle, values, 2, NULL, 0), KFIFO_BAD_CALL, "a take without a place for how many");
    expect(kfifo_give_all_wait(NULL, values, 2, &many, 0), KFIFO_BAD_CALL, "a give without a handle");
    expect(many, 0, "it gives none");
    expect(kfifo_give_all_wait(&closed, values, 0, &many, 0), KFIFO_BAD_CALL, "a give by a closed handle");
    expect(kfifo_give_all_wait(&handle, NULL, 2, &many, 0), KFIFO_BAD_CALL, "a give without an array");
    expect(kfifo_take_up_to_wait(&closed, values, 0, &many, 0), KFIFO_BAD_CALL, "a take by a closed handle");
    expect(kfifo_take_up_to_wait(&handle, NULL, 2, &many, 0), KFIFO_BAD_CALL, "a take without an array");

    /* Nobody will make room for the only handle that is left, or give to it. */
    expect(kfifo_take_up_to_wait(&handle, values, MOST, &many, KFIFO_FOREVER), KFIFO_FINISHED, "a take that is alone");
    expect(kfifo_give_all_wait(&handle, values, ALL, &many, KFIFO_FOREVER), KFIFO_FINISHED, "a give that is alone");
    expect(many >= SLOTS, 1, "it has given what there was room for");
    expect(kfifo_abandon(&handle, 1), KFIFO_DONE, "an abandon");

    /* A queue that wears out says so. */
    kfifo_status gave = KFIFO_DONE;
    size_t given = 2;
    expect(kfifo_open_values_with(1, 2, 64, 0, 1, &handle, 1), KFIFO_DONE, "an opening");
    for (int i = 0; i < 1000 && gave == KFIFO_DONE; i++) {
        gave = kfifo_give_all_wait(&handle, values, 2, &given, KFIFO_FOREVER);
        if (kfifo_take_up_to_wait(&handle, values, 2, &many, KFIFO_FOREVER) == KFIFO_DONE && gave == KFIFO_DONE)
            expect(many, 2, "two come out");
    }
    expect(gave, KFIFO_WORN, "a queue that wears out");
    expect(given < 2, 1, "the rest is the caller's");
    expect(kfifo_abandon(&handle, 1), KFIFO_DONE, "an abandon");
}

/* A thread with a handle, which takes or gives values one by one or many at once. */
struct side {
    kfifo_handle *handle;
    uint64_t first, count, sum;
    kfifo_status end;
};

/* Takes `count` values one by one, and sleeps before each for which it has to. */
static void *take_each(void *argument) {
    struct side *self = argument;
    uint64_t value = 0;
    for (uint64_t i = 0; i < self->count; i++) {
        self->end = kfifo_take_wait(self->handle, &value, KFIFO_FOREVER);
        if (self->end != KFIFO_DONE) return NULL;
        self->sum += value;
    }
    return NULL;
}

static void *give_each(void *argument) {
    struct side *self = argument;
    for (uint64_t i = 0; i < self->count; i++) {
        uint64_t value = self->first + i;
        self->end = self->handle->kind == KFIFO_ITEMS ? kfifo_put_wait(self->handle, (uint32_t)value, KFIFO_FOREVER)
                                                      : kfifo_give_wait(self->handle, value, KFIFO_FOREVER);
        if (self->end != KFIFO_DONE) return NULL;
    }
    return NULL;
}

/* Starts a thread for each of that many handles from the second on, which makes this call for `count` values, and
   returns when all have announced that they wait. */
static void start(kfifo_handle *handles, struct side *sides, pthread_t *threads, size_t number_of_them,
                  void *(*call)(void *), uint64_t count) {
    for (size_t i = 1; i <= number_of_them; i++) {
        sides[i] = (struct side){&handles[i], 1000 * i, count, 0, KFIFO_DONE};
        if (pthread_create(&threads[i], NULL, call, &sides[i])) abort();
    }
    uint32_t announced = call == take_each ? KFIFO_WAITS_TAKER : KFIFO_WAITS_GIVER;
    while (kfifo_waits_state(KFIFO_WAITS(&handles[0])) != announced * number_of_them) sched_yield();
}

static uint64_t join(struct side *sides, pthread_t *threads, size_t number_of_them) {
    uint64_t sum = 0;
    for (size_t i = 1; i <= number_of_them; i++) {
        pthread_join(threads[i], NULL);
        expect(sides[i].end, KFIFO_DONE, "a call that waited");
        sum += sides[i].sum;
    }
    return sum;
}

/* Threads that take sleep, and one call gives each of them several values through a queue that has room for fewer. So
   it has to wake them before it sleeps itself. */
static void one_give_goes_through(void) {
    enum { EACH_TAKES = 64, COUNT = EACH_TAKES * (THREADS - 1) };
    kfifo_handle handles[THREADS];
    struct side sides[THREADS];
    pthread_t threads[THREADS];
    uint64_t values[COUNT];
    size_t given = 0;
    number(values, COUNT, 1);
    open_values(SLOTS, handles, THREADS);
    for (int round = 0; round < ROUNDS; round++) {
        start(handles, sides, threads, THREADS - 1, take_each, EACH_TAKES);
        expect(kfifo_give_all_wait(&handles[0], values, COUNT, &given, KFIFO_FOREVER), KFIFO_DONE, "a long give");
        expect(given, COUNT, "all are given");
        expect(join(sides, threads, THREADS - 1), COUNT * (COUNT + 1) / 2, "the sum of what they took");
    }
    expect(kfifo_abandon(handles, THREADS), KFIFO_DONE, "an abandon");
}

/* Threads that give sleep before a full queue, and one that takes many at once gets all. */
static void takes_get_all(void) {
    enum { EACH_GIVES = 8 };
    kfifo_handle handles[THREADS];
    struct side sides[THREADS];
    pthread_t threads[THREADS];
    uint64_t values[MOST];
    size_t many = 0;
    number(values, MOST, 1);
    open_values(SLOTS, handles, THREADS);
    for (int round = 0; round < ROUNDS; round++) {
        size_t count = EACH_GIVES * (THREADS - 1);
        for (size_t i = 0; i < THREADS; i++)
            while (kfifo_give(&handles[i], 1) == KFIFO_DONE) count++;
        start(handles, sides, threads, THREADS - 1, give_each, EACH_GIVES);
        for (size_t taken = 0; taken < count; taken += many) {
            expect(kfifo_take_up_to_wait(&handles[0], values, MOST, &many, KFIFO_FOREVER), KFIFO_DONE,
                   "a take of many");
            expect(many > 0, 1, "it takes at least one");
            if (many == 0) abort();
        }
        (void)join(sides, threads, THREADS - 1);
        expect(kfifo_take_up_to(&handles[0], values, MOST, &many), KFIFO_EMPTY, "these are all");
        number(values, MOST, 1);
    }
    expect(kfifo_abandon(handles, THREADS), KFIFO_DONE, "an abandon");
}

/* One call gets an item for each of several threads that wait for room, and wakes them all: no thread makes another
   call. */
static void one_get_wakes(size_t putters) {
    kfifo_handle handles[THREADS];
    struct side sides[THREADS];
    pthread_t threads[THREADS];
    uint32_t items[MOST];
    size_t many = 0;
    for (uint32_t i = 0; i < MOST; i++) items[i] = 1 + i;
    expect(kfifo_open(1, SLOTS, 1, KFIFO_LAST, handles, THREADS), KFIFO_DONE, "an opening");
    for (int round = 0; round < ROUNDS; round++) {
        expect(kfifo_put_all(&handles[0], items, SLOTS, &many), KFIFO_DONE, "a full ring");
        start(handles, sides, threads, putters, give_each, 1);
        expect(kfifo_get_up_to_wait(&handles[0], items, putters, &many, KFIFO_FOREVER), KFIFO_DONE, "room for each");
        expect(many, putters, "an item for each that waits");
        (void)join(sides, threads, putters);
        expect(kfifo_get_up_to(&handles[0], items, MOST, &many), KFIFO_DONE, "what is in the ring then");
    }
    expect(kfifo_abandon(handles, THREADS), KFIFO_DONE, "an abandon");
}

/* Two threads give batches of all sizes, and two take such, each by calls that wait: each value comes out once. */
static void *give_batches(void *argument) {
    struct side *self = argument;
    uint64_t values[MOST];
    for (uint64_t given = 0; given < self->count;) {
        size_t batch = 1 + given % MOST, done = 0;
        if (batch > self->count - given) batch = self->count - given;
        number(values, batch, self->first + given);
        self->end = kfifo_give_all_wait(self->handle, values, batch, &done, KFIFO_FOREVER);
        given += done;
        if (self->end != KFIFO_DONE) return NULL;
    }
    return NULL;
}

static void *take_batches(void *argument) {
    struct side *self = argument;
    uint64_t values[MOST];
    size_t taken = 0;
    for (size_t most = 1;; most = 1 + self->count % MOST) {
        self->end = kfifo_take_up_to_wait(self->handle, values, most, &taken, KFIFO_FOREVER);
        if (self->end != KFIFO_DONE) return NULL;
        for (size_t i = 0; i < taken; i++) self->sum += values[i];
        self->count += taken;
    }
}

static void batches(uint32_t k, uint32_t capacity) {
    kfifo_handle handles[4];
    struct side sides[4];
    pthread_t threads[4];
    uint64_t count = 0, sum = 0;
    expect(kfifo_open_values(k, capacity, handles, 4), KFIFO_DONE, "an opening");
    for (size_t i = 0; i < 4; i++) {
        sides[i] = (struct side){&handles[i], 1 + i * EACH, i < 2 ? EACH : 0, 0, KFIFO_DONE};
        if (pthread_create(&threads[i], NULL, i < 2 ? give_batches : take_batches, &sides[i])) abort();
    }
    for (size_t i = 0; i < 4; i++) {
        if (i == 2) expect(kfifo_finish(&handles[0]), KFIFO_DONE, "the end");
        pthread_join(threads[i], NULL);
        expect(sides[i].end, i < 2 ? KFIFO_DONE : KFIFO_FINISHED, "the end of a thread");
        if (i >= 2) count += sides[i].count, sum += sides[i].sum;
    }
    expect(count, 2 * EACH, "the values that came out");
    expect(sum, EACH * (2 * (uint64_t)EACH + 1), "their sum");
    expect(kfifo_abandon(handles, 4), KFIFO_DONE, "an abandon");
}

/* Takes a value every few milliseconds, for as long as the giver below may wait. */
static void *take_slowly(void *argument) {
    struct side *self = argument;
    uint64_t value = 0;
    while (kfifo_take_wait(self->handle, &value, KFIFO_FOREVER) == KFIFO_DONE) {
        struct timespec time = {0, 5 * MILLISECOND};
        nanosleep(&time, NULL);
    }
    return NULL;
}

/* The time of a call is that of all its waits: each of them is shorter here, and all would take much longer. */
static void the_time_is_of_all_waits(void) {
    enum { COUNT = 1000 };
    static uint64_t values[COUNT];
    kfifo_handle handles[2];
    pthread_t thread;
    size_t given = 0;
    open_values(2, handles, 2);
    struct side taker = {&handles[1], 0, 0, 0, KFIFO_DONE};
    if (pthread_create(&thread, NULL, take_slowly, &taker)) abort();
    uint64_t began = milliseconds();
    kfifo_status gave = kfifo_give_all_wait(&handles[0], values, COUNT, &given, 100 * MILLISECOND);
    uint64_t spent = milliseconds() - began;
    expect(gave, KFIFO_TIMED_OUT, "a give whose time is up");
    expect(given < COUNT, 1, "some are left");
    expect(spent >= 99, 1, "it waits as long as it may");
    expect(spent < 2500, 1, "and not much longer");
    expect(kfifo_finish(&handles[0]), KFIFO_DONE, "the end");
    pthread_join(thread, NULL);
    expect(kfifo_abandon(handles, 2), KFIFO_DONE, "an abandon");
}

int main(void) {
    what_values_come_to();
    what_pointers_come_to();
    what_items_come_to();
    refusals();
    one_give_goes_through();
    takes_get_all();
    one_get_wakes(1);
    one_get_wakes(SLOTS);
    batches(1, 4);
    batches(4, 256);
    the_time_is_of_all_waits();
    puts(failed ? "many at once that wait fail" : "many at once that wait: all go through, and no thread sleeps on");
    return failed;
}
