/* Queues of values and of cells whose generations change all the time, since they have few versions, while a thread
   stops within a call, at whatever it does: the others go on through many changes, and each value comes out once.
   With --long threads stop more often. */
#define _GNU_SOURCE
#include "test_runs.h"
#include <errno.h>

/* How often a thread stops within a call, and through how many changes the others then go. */
#ifdef FEWER
enum { STOPS = 10, CHANGES = 10 };
#else
enum { STOPS = 40, CHANGES = 100 };
#endif

static void stop_by_signal(int number) {
    int before = errno;
    (void)number;
    if (is_in_memory) {
        has_to_stop = 1;
    } else {
        stop();
    }
    errno = before;
}

#ifdef KFIFO_TSAN
enum { HOLDS_SIGNALS = 1 };
#else
enum { HOLDS_SIGNALS = 0 };
#endif

/* The stop with this number may end, and this returns when it has. */
static void let_go_on(unsigned number) {
    atomic_store(&may_go_on, number);
    while (atomic_load(&gone_on) < number) sched_yield();
}

/* A signal stops a thread at whatever it does. Returns the number of the stop. Before it runs, a thread may be within a
   request for memory of the system's own, or of a sanitizer's. */
static unsigned stop_now(const struct side *side) {
    while (!atomic_load(&side->begun)) sched_yield();
    unsigned number = atomic_load(&stops) + 1;
    pthread_kill(side->id, SIGUSR1);
    while (atomic_load(&stops) < number) sched_yield();
    return number;
}

/* Three threads, the first of which stops. */
static void begin_stops(int kind, uint32_t k) {
    static const struct crew three = {3, {BOTH, BOTH, BOTH}};
    struct plan stopping = plan_of(kind, k, &three, 10000);
    stopping.has_end = 0;
    begin_run(&stopping);
}

/* The others go through that many changes: a generation has its versions for at most k values each. */
static void go_through_changes(void) { wait_for_takes(CHANGES * plan.k * plan.last); }

/* A thread stops within its calls again and again, each time while the others go through a hundred changes, and goes on
   after that. */
static void stops_often(int kind, uint32_t k) {
    begin_stops(kind, k);
    start(0, 3);
    for (uint64_t i = 0; i < STOPS * times; i++) {
        wait_for_takes(i * 37 % 509);
        unsigned number = stop_now(&sides[0]);
        go_through_changes();
        let_go_on(number);
    }
    wait_until_left(0);
    atomic_store(&is_over, 1);
    join(0, 3);
    close_run();
    end_run();
}

/* A thread has stopped within a call, and does not go on. The others go through a hundred changes, and take out all
   that is inside but what that call may hold: if they had to wait for it, this would never end. Only then it goes on,
   to its end. */
static void end_without(unsigned number, int is_closed) {
    go_through_changes();
    wait_until_left(1);
    atomic_store(&is_over, 1);
    join(1, 3);
    let_go_on(number);
    join(0, 1);
    if (is_closed) {
        close_run();
    } else {
        while (atomic_load(&inside) > 0) take_one(&sides[0]);
        abandon_from(&queue, 0, 3);
    }
    end_run();
}

static void stops_for_good(int kind) {
    for (uint64_t i = 0; i < STOPS * times; i++) {
        begin_stops(kind, 1);
        start(0, 3);
        wait_for_takes(i * 37 % 509);
        end_without(stop_now(&sides[0]), i % 2);
        if (failed) return;
    }
}

/* A thread that goes through changes alone stops before a request for memory or a free: each of them once, of
   several changes. Then the others begin. */
static void stops_at_each_request(int kind) {
    for (int i = 1; i <= 50; i++) {
        unsigned number = atomic_load(&stops) + 1;
        begin_stops(kind, 1);
        sides[0].stops_at = i;
        start(0, 1);
        while (atomic_load(&stops) < number) sched_yield();
        start(1, 3);
        end_without(number, i % 2);
        if (failed) return;
    }
}

static void stops_anywhere(int kind) {
    if (HOLDS_SIGNALS) {
        printf("skipped: a signal that stops a thread, since ThreadSanitizer holds it back until the call has ended\n");
        return;
    }
    cpu_set_t processors;
    unsigned before = atomic_load(&stops), in_calls = atomic_load(&stops_in_calls);
    struct sigaction action = {.sa_handler = stop_by_signal, .sa_flags = SA_RESTART};
    sigaction(SIGUSR1, &action, NULL);
    for (uint32_t k = 1; k <= 4; k *= 2) stops_often(kind, k);
    stops_for_good(kind);
    before = atomic_load(&stops) - before;
    in_calls = atomic_load(&stops_in_calls) - in_calls;
    printf("a signal stopped a thread %u times, %u of them within a call\n", before, in_calls);
    if (sched_getaffinity(0, sizeof processors, &processors) == 0 && CPU_COUNT(&processors) == 1) {
        printf("skipped: how often that is within a call, since threads take turns on a processor\n");
    } else {
        expect(in_calls > 0, 1, "stops within a call");
    }
}

int main(int count, char **words) {
    if (count > 1 && !strcmp(words[1], "--long")) times = 5;
    for (int kind = OF_VALUES; kind <= OF_CELLS; kind++) {
        stops_at_each_request(kind);
        stops_anywhere(kind);
    }
    printf("%s\n", failed ? "queues that change their generation while a thread stops fail"
                          : "generations that change while a thread stops within a call: each value came out once");
    return failed;
}
