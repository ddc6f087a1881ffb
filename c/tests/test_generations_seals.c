/* Queues of values and of cells whose generations change many thousands of times, since they have few versions, while
   several threads give and take: each generation but the newest is sealed once it is empty, and goes, and each value
   comes out once. Under ThreadSanitizer a queue of either kind makes a hundred thousand seals. With --long there are
   five times as many. */
#include "test_runs.h"

/* How many generations of a queue are sealed. */
#ifdef KFIFO_TSAN
enum { SEALS = 100000 };
#else
enum { SEALS = 10000 };
#endif

/* How many generations were made after that of the opening. */
static uint64_t generations_made(void) {
    uint64_t made = 0;
    for (int i = 0; i < SIZES && sizes[i].in_opening; i++) {
        uint64_t rounds = atomic_load(&sizes[i].later) / sizes[i].in_opening;
        made = rounds > made ? rounds : made;
    }
    return made;
}

/* With all values taken, each handle makes calls until it is in the newest generation alone. */
static void come_to_rest(void) {
    uint64_t value = 0;
    for (uint32_t i = 0; i < 2 * queue.threads; i++)
        expect(take(&queue, i % queue.threads, &value), KFIFO_EMPTY, "a take after the last value");
}

/* Threads give and take until that many generations were made, and empty the queue. Then each that had been the newest
   was sealed, since all but the last have gone. Writes how many values came out, and returns how many were made. */
static uint64_t goes_through(int kind, const struct crew *crew, uint64_t wanted, uint64_t *values) {
    struct plan sealing = plan_of(kind, 1, crew, 0);
    sealing.has_end = 0;
    sealing.each = 4000000;
    sealing.reserve = sealing.last * 7 / 8; /* so a generation is followed after a few values */
    memset(sizes, 0, sizeof sizes);
    is_opening = 1;
    begin_run(&sealing);
    is_opening = 0;
    long opened = atomic_load(&blocks);
    start(0, queue.threads);
    while (generations_made() < wanted) poll(NULL, 0, 1);
    wait_until_left(0);
    atomic_store(&is_over, 1);
    join(0, queue.threads);
    uint64_t made = generations_made();
    come_to_rest();
    expect((uint64_t)atomic_load(&blocks), (uint64_t)opened, "blocks when each generation but the newest has gone");
    close_run();
    *values = end_run();
    return made;
}

static void seals(int kind) {
    static const struct crew one_gives = {4, {GIVES, TAKES, TAKES, TAKES}}, two_give = {4, {BOTH, BOTH, TAKES, TAKES}};
    uint64_t wanted = SEALS * times, through_one = 0, through_two = 0;
    /* Gives alone open generations. So where one thread gives, each that was made became the newest. */
    uint64_t sealed = goes_through(kind, &one_gives, wanted, &through_one);
    expect(sealed >= wanted, 1, "generations that were sealed where one thread gives");
    /* Where two give, one of them may come too late with a generation, which goes without a seal. */
    uint64_t made = goes_through(kind, &two_give, wanted, &through_two);
    expect(made >= wanted, 1, "generations that were made where two threads give");
    printf("%s: %llu seals for %llu values where one thread gives, and %llu generations for %llu where two do\n",
           kind == OF_VALUES ? "values" : "cells", (unsigned long long)sealed, (unsigned long long)through_one,
           (unsigned long long)made, (unsigned long long)through_two);
}

int main(int count, char **words) {
    if (count > 1 && !strcmp(words[1], "--long")) times = 5;
    for (int kind = OF_VALUES; kind <= OF_CELLS; kind++) seals(kind);
    printf("%s\n", failed ? "queues whose generations are sealed fail"
                          : "generations that are sealed as they change: each value came out once");
    return failed;
}
