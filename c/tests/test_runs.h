/* For tests of queues that change their generation all the time: threads that give and take, and counts of what came
   out of the queue, how often, and what overtook it. */
#ifndef TEST_RUNS_H
#define TEST_RUNS_H

#include "test_generations.h"
#include <pthread.h>
#include <sched.h>

enum { MOST = 16, CAPACITY = 64 };

/* Ends the test: what a call answered will not change. */
static void stopped(kfifo_status status) {
    fprintf(stderr, "a thread stops: %s\n", kfifo_status_text(status));
    exit(1);
}

/* What a thread does. */
enum role { GIVES = 1, TAKES = 2, BOTH = 3 };

struct crew {
    uint32_t threads;
    enum role roles[MOST];
};

/* A run of many threads. */
struct plan {
    int kind;
    uint32_t k, capacity;
    uint64_t last, reserve; /* a reserve of 0 stands for half of the versions */
    const struct crew *crew;
    uint64_t each; /* how many values each that gives gives, unless that has no end */
    int has_end;   /* else it goes on until it is told to end */
    uint64_t most,
        least;        /* values inside: with `most` none is given, with `least` hardly any is taken but at the end */
    int may_wear_out; /* whether the queue may use its versions up, which ends the run */
};

/* When the give and the take of a value began and ended, by a clock that each end moves on. */
struct stamps {
    uint64_t give_begins, give_ends, take_begins, take_ends;
};

struct side {
    pthread_t id;
    uint32_t thread;
    enum role role;
    uint64_t to_give, given, taken, wrong, full;
    int waited;         /* how often in a row it took none since there were few inside */
    uint64_t leaves_at; /* it abandons its handle after that many rounds; 0: never */
    int stops_at;       /* the request for memory or the free before which it stops; 0: none */
    uint64_t *greatest; /* of each producer, the greatest indices that this thread has taken */
    atomic_int begun;   /* whether the thread runs */
};

static struct plan plan;
static struct any_queue queue;
static struct side sides[MOST];
static size_t room_of_one;          /* that of the first generation */
static uint64_t bound;              /* how many younger values may overtake one */
static atomic_uchar *out;           /* how often each value came out; where gives have no end, each that is `each` on */
static struct stamps *stamps;       /* of each value, in the same order; NULL: they are not noted */
static atomic_uint_fast64_t ended;  /* the clock of the stamps: gives and takes that have ended */
static atomic_uint_fast64_t inside; /* values that are in the queue, or are about to be */
static atomic_uint_fast64_t left_to_take;
static atomic_uint_fast64_t most_inside; /* with that many inside none is given; 0: no more are given */
static atomic_int is_over;               /* all threads end after the call that they are in */

static uint64_t value_of(uint64_t producer, uint64_t index) { return (producer + 1) << 40 | index; }

static uint64_t place_of(uint64_t producer, uint64_t index) { return producer * plan.each + index % plan.each; }

/* Notes an index that was taken: whether no more than `bound` greater ones of its producer came before it. */
static int is_in_bound(uint64_t *greatest, uint64_t index) {
    uint64_t greater = 0;
    for (; greater <= bound && greatest[greater] > index; greater++) {
    }
    if (greater > bound) return 0;
    memmove(&greatest[greater + 1], &greatest[greater], (bound - greater) * sizeof *greatest);
    greatest[greater] = index;
    return 1;
}

/* Notes a value that a thread took. */
static void note(struct side *self, uint64_t value, uint64_t begins, uint64_t ends) {
    uint64_t producer = (value >> 40) - 1, index = value & 0xffffffffff;
    self->taken++;
    if (producer >= queue.threads || (plan.has_end && index >= plan.each)) {
        self->wrong++;
        return;
    }
    atomic_fetch_add_explicit(&out[place_of(producer, index)], 1, memory_order_relaxed);
    self->wrong += !is_in_bound(&self->greatest[producer * (bound + 1)], index + 1);
    if (!stamps) return;
    stamps[place_of(producer, index)].take_begins = begins;
    stamps[place_of(producer, index)].take_ends = ends;
}

/* After a call that did nothing: the thread tries again, or all end. */
static void refused(struct side *self, kfifo_status status) {
    self->full += status == KFIFO_FULL;
    if (kfifo_may_retry(status)) {
        sched_yield();
    } else if (status == KFIFO_WORN && plan.may_wear_out) {
        atomic_store(&is_over, 1);
    } else {
        stopped(status);
    }
}

static void take_one(struct side *self) {
    uint64_t value = 0, ends = 0, begins = stamps ? atomic_load(&ended) : 0;
    /* Not for ever: a handle that still gives may need room that another one makes by a take. */
    if (atomic_load(&inside) <= plan.least && atomic_load(&left_to_take) > plan.least && self->waited++ < 100) {
        sched_yield();
        return;
    }
    self->waited = 0;
    kfifo_status status = take(&queue, self->thread, &value);
    if (status != KFIFO_DONE) {
        refused(self, status);
        return;
    }
    if (stamps) ends = atomic_fetch_add(&ended, 1) + 1;
    note(self, value, begins, ends);
    atomic_fetch_sub(&inside, 1);
    atomic_fetch_sub(&left_to_take, 1);
}

/* Gives the next value, unless there are many inside: with few versions the places of generations would run out. */
static void give_one(struct side *self) {
    if (atomic_fetch_add(&inside, 1) >= atomic_load(&most_inside)) {
        atomic_fetch_sub(&inside, 1);
        sched_yield();
        return;
    }
    struct stamps *stamp = stamps ? &stamps[place_of(self->thread, self->given)] : NULL;
    if (stamp) stamp->give_begins = atomic_load(&ended);
    kfifo_status status = give(&queue, self->thread, value_of(self->thread, self->given));
    if (status == KFIFO_DONE) {
        if (stamp) stamp->give_ends = atomic_fetch_add(&ended, 1) + 1;
        self->given++;
        return;
    }
    atomic_fetch_sub(&inside, 1);
    refused(self, status);
}

static void *work(void *argument) {
    struct side *self = argument;
    atomic_store(&self->begun, 1);
    stops_at = self->stops_at;
    for (uint64_t round = 1; !atomic_load(&is_over); round++) {
        if (self->role & GIVES && self->given < self->to_give) give_one(self);
        if (self->role & TAKES) take_one(self);
        if (atomic_load(&left_to_take) == 0 || (!(self->role & TAKES) && self->given == self->to_give)) break;
        if (round == self->leaves_at) break;
    }
    if (self->leaves_at) abandon_from(&queue, self->thread, 1);
    return NULL;
}

static uint64_t givers_of(const struct crew *crew) {
    uint64_t givers = 0;
    for (uint32_t i = 0; i < crew->threads; i++) givers += crew->roles[i] & GIVES;
    return givers;
}

/* A crew gives and takes that many values in all, with few inside. The reserve is 16 versions for each thread: more
   than those inside, and what is under way, need. */
static struct plan plan_of(int kind, uint32_t k, const struct crew *crew, uint64_t values) {
    return (struct plan){.kind = kind,
                         .k = k,
                         .capacity = CAPACITY,
                         .last = 32 * (uint64_t)crew->threads,
                         .crew = crew,
                         .each = values / givers_of(crew),
                         .has_end = 1,
                         .most = 2 * crew->threads};
}

/* Opens the queue of a run. No thread of it begins yet. */
static void begin_run(const struct plan *of) {
    plan = *of;
    uint32_t threads = plan.crew->threads;
    uint64_t givers = 0;
    bound = plan.k > threads ? plan.k - 1 : threads - 1;
    out = calloc(threads * plan.each, sizeof *out);
    for (uint32_t i = 0; i < threads; i++) {
        enum role role = plan.crew->roles[i];
        uint64_t *greatest = calloc(threads * (bound + 1), sizeof *greatest);
        sides[i] = (struct side){.thread = i, .role = role, .greatest = greatest};
        if (role & GIVES) sides[i].to_give = plan.has_end ? plan.each : UINT64_MAX;
        givers += role & GIVES;
        if (!out || !greatest) abort();
    }
    atomic_store(&inside, 0);
    atomic_store(&left_to_take, plan.has_end ? plan.each * givers : UINT64_MAX);
    atomic_store(&most_inside, plan.most);
    atomic_store(&is_over, 0);
    uint64_t reserve = plan.reserve ? plan.reserve : plan.last / 2;
    expect(any_open(&queue, plan.kind, plan.k, plan.capacity, plan.last, reserve, 1, threads), KFIFO_DONE,
           "open for threads");
    room_of_one = room_of(&queue);
}

/* The threads from `from` up to the one before `end` begin. */
static void start(uint32_t from, uint32_t end) {
    for (uint32_t i = from; i < end; i++) {
        atomic_store(&sides[i].begun, 0);
        if (pthread_create(&sides[i].id, NULL, work, &sides[i])) abort();
    }
}

/* They end. */
static void join(uint32_t from, uint32_t end) {
    for (uint32_t i = from; i < end; i++) pthread_join(sides[i].id, NULL);
}

/* Waits until the threads have taken that many values more. */
__attribute__((unused)) static void wait_for_takes(uint64_t count) {
    uint64_t before = atomic_load(&left_to_take);
    while (before - atomic_load(&left_to_take) < count) sched_yield();
}

/* No more values are given, and this returns when no more than that many are left inside. */
static void wait_until_left(uint64_t count) {
    atomic_store(&most_inside, 0);
    while (atomic_load(&inside) > count) sched_yield();
}

/* Closes the queue of a run whose threads have ended, and notes what was left. */
static void close_run(void) {
    size_t count = 0;
    uint64_t *left = close_queue(&queue, atomic_load(&inside) + 1, &count);
    expect(count, atomic_load(&inside), "values left");
    for (size_t i = 0; i < count; i++) {
        uint64_t now = stamps ? atomic_fetch_add(&ended, 1) + 1 : 0;
        note(&sides[0], left[i], now, now);
    }
    free(left);
}

/* Counts the values of a run whose queue is closed or gone, and returns how many were given. */
static uint64_t end_run(void) {
    uint64_t given = 0, taken = 0, wrong = 0, not_once = 0;
    for (uint32_t i = 0; i < queue.threads; i++) {
        given += sides[i].given;
        taken += sides[i].taken;
        wrong += sides[i].wrong;
        free(sides[i].greatest);
        for (uint64_t j = 0; j < plan.each; j++) {
            uint64_t wanted = sides[i].given / plan.each + (j < sides[i].given % plan.each);
            not_once += atomic_load(&out[i * plan.each + j]) != (unsigned char)wanted;
        }
    }
    free(out);
    expect(wrong, 0, "values that are torn, or that too many younger ones have overtaken");
    expect(taken, given, "values taken");
    expect(not_once, 0, "values that did not come out once");
    return given;
}

#endif
