/* Queues of values and of cells whose generations change all the time, since they have few versions, by many
   threads: each value comes out once, and no more than the bound overtake it; threads that abandon their handles,
   and closes in the middle of a change, lose nothing. With --long it runs for some minutes, through more changes
   than a busy queue makes in a hundred years. */
#include "test_runs.h"

/* How many values a run gives, and how many runs are closed while they go on. */
#ifdef FEWER
enum { VALUES = 4000, MANY = 10000, CLOSES = 30 };
#else
enum { VALUES = 30000, MANY = 1000000, CLOSES = 300 };
#endif

/* ---- Overtakings ---- */

/* Counts one more at a place, 1 to `end`, of a binary indexed tree; and those at the places up to this one. */
static void count_at(uint32_t *tree, uint64_t end, uint64_t place) {
    for (; place <= end; place += place & -place) tree[place]++;
}

static uint64_t count_up_to(const uint32_t *tree, uint64_t place) {
    uint64_t count = 0;
    for (; place; place -= place & -place) count += tree[place];
    return count;
}

/* The most values that certainly overtook one: each was given after the give of that one had ended, and was taken
   before its take began. The clock of the stamps ended at `end`; a value that was not given has stamps 0. */
static uint64_t most_overtakings(const struct stamps *of, uint64_t values, uint64_t end) {
    /* The value whose take ended at a time, and those whose take began at it, as a list: their numbers, from 1 on. */
    uint64_t *ends = calloc(end + 1, sizeof *ends), *begins = calloc(end + 1, sizeof *begins);
    uint64_t *next = calloc(values + 1, sizeof *next), most = 0, inserted = 0;
    uint32_t *tree = calloc(end + 2, sizeof *tree);
    if (!ends || !begins || !next || !tree) abort();
    for (uint64_t i = 1; i <= values; i++) {
        const struct stamps *one = &of[i - 1];
        if (!one->give_ends) continue;
        ends[one->take_ends] = i;
        next[i] = begins[one->take_begins];
        begins[one->take_begins] = i;
    }
    for (uint64_t time = 0; time <= end; time++) {
        if (ends[time]) {
            count_at(tree, end + 1, of[ends[time] - 1].give_begins + 1);
            inserted++;
        }
        for (uint64_t i = begins[time]; i; i = next[i]) {
            uint64_t overtook = inserted - count_up_to(tree, of[i - 1].give_ends);
            most = overtook > most ? overtook : most;
        }
    }
    free(ends);
    free(begins);
    free(next);
    free(tree);
    return most;
}

/* That the count is right: three gives one after the other, and their takes. */
static void overtakings(void) {
    static const struct stamps last_first[] = {{0, 1, 5, 6}, {1, 2, 4, 5}, {2, 3, 3, 4}};
    static const struct stamps in_order[] = {{0, 1, 3, 4}, {1, 2, 4, 5}, {2, 3, 5, 6}};
    static const struct stamps gives_meet[] = {{0, 2, 5, 6}, {0, 1, 4, 5}, {2, 3, 3, 4}};
    static const struct stamps takes_meet[] = {{0, 1, 3, 6}, {1, 2, 3, 5}, {2, 3, 3, 4}};
    expect(most_overtakings(last_first, 3, 6), 2, "overtakings where the last comes first");
    expect(most_overtakings(in_order, 3, 6), 0, "overtakings in order");
    expect(most_overtakings(gives_meet, 3, 6), 1, "overtakings where the first give ends last");
    expect(most_overtakings(takes_meet, 3, 6), 0, "overtakings where all takes begin at once");
}

/* ---- Runs ---- */

static const struct crew mixed = {4, {GIVES, TAKES, BOTH, BOTH}}, givers = {4, {GIVES, GIVES, BOTH, TAKES}};

/* In all roles. */
static const struct crew crews[] = {
    {1, {BOTH}},
    {2, {GIVES, TAKES}},
    {2, {BOTH, BOTH}},
    {2, {GIVES, BOTH}},
    {2, {BOTH, TAKES}},
    {4, {GIVES, TAKES, GIVES, TAKES}},
    {4, {GIVES, TAKES, TAKES, TAKES}},
    {4, {GIVES, GIVES, GIVES, TAKES}},
    {4, {GIVES, TAKES, BOTH, BOTH}},
    {4, {BOTH, BOTH, BOTH, BOTH}},
    {16, {GIVES, TAKES, BOTH, GIVES, TAKES, BOTH, GIVES, TAKES, BOTH, GIVES, TAKES, BOTH, GIVES, TAKES, BOTH, TAKES}},
    {16, {BOTH, BOTH, BOTH, BOTH, BOTH, BOTH, BOTH, BOTH, BOTH, BOTH, BOTH, BOTH, BOTH, BOTH, BOTH, BOTH}},
};
enum { CREWS = sizeof crews / sizeof crews[0] };
static const uint32_t widths[] = {1, 2, 4, 16, 64};
enum { WIDTHS = sizeof widths / sizeof widths[0] };

static void run(const struct plan *of) {
    begin_run(of);
    uint64_t wanted = atomic_load(&left_to_take);
    start(0, queue.threads);
    join(0, queue.threads);
    close_run();
    expect(end_run(), wanted, "values given");
}

/* The same with stamps: counts over all threads which values have overtaken one. That many are inside all the time that
   more than the bound could. */
static void run_stamped(int kind, uint32_t k, const struct crew *crew) {
    struct plan stamped = plan_of(kind, k, crew, VALUES * times);
    uint64_t values = crew->threads * stamped.each;
    stamped.least = k + crew->threads;
    stamped.most = stamped.least + 2 * crew->threads;
    stamped.capacity = (uint32_t)stamped.most;
    stamps = calloc(values, sizeof *stamps);
    if (!stamps) abort();
    atomic_store(&ended, 0);
    run(&stamped);
    uint64_t most = most_overtakings(stamps, values, atomic_load(&ended));
    expect(most > bound ? most : bound, bound, "the most values that have overtaken one");
    free(stamps);
    stamps = NULL;
}

/* Threads over a queue that has hundreds of values inside from the first call to the last one, and is full again and
   again, also while generations change. */
static void run_full(int kind, uint32_t k) {
    struct plan full = plan_of(kind, k, &givers, 10 * VALUES * times);
    full.capacity = 240;
    full.last = 1024;
    full.most = UINT64_MAX;
    full.least = 200;
    begin_run(&full);
    uint64_t wanted = atomic_load(&left_to_take), answered = 0;
    while (sides[0].full == 0) give_one(&sides[0]);
    expect(sides[0].given > 200, 1, "values inside a full queue");
    start(0, queue.threads);
    join(0, queue.threads);
    for (uint32_t i = 0; i < queue.threads; i++) answered += sides[i].full;
    expect(answered > 1, 1, "gives to a full queue");
    close_run();
    expect(end_run(), wanted, "values given to a full queue");
}

/* Queues with very few versions: with several threads a reserve may be used up by calls that are under way. Then the
   queue answers WORN, the threads end, and a close gives back what is left. Returns whether that was so. */
static int run_few(int kind, uint64_t last, const struct crew *crew) {
    struct plan few = plan_of(kind, 1 + last % 2, crew, VALUES / 20 * times);
    few.capacity = 2 + (uint32_t)last % 3;
    few.last = last;
    few.may_wear_out = 1;
    begin_run(&few);
    uint64_t wanted = atomic_load(&left_to_take);
    start(0, queue.threads);
    join(0, queue.threads);
    close_run();
    uint64_t given = end_run();
    if (!atomic_load(&is_over)) expect(given, wanted, "values given to a queue with few versions");
    return atomic_load(&is_over);
}

static void run_few_versions(int kind) {
    int runs = 0, worn = 0;
    for (uint64_t last = 8; last <= 128; last += last < 32 ? 1 : 16)
        for (int i = 0; i < CREWS; i++) {
            runs++;
            worn += run_few(kind, last, &crews[i]);
        }
    expect(worn < runs, 1, "queues with few versions that renew themselves");
}

/* Threads that give and take, each for some rounds alone: then it abandons its handle, in the middle of whatever
   changes. The last one takes what is left. */
static void leavers(int kind, uint32_t threads) {
    struct crew crew = {threads, {TAKES}};
    for (uint32_t i = 1; i < threads; i++) crew.roles[i] = BOTH;
    struct plan leave = plan_of(kind, 4, &crew, 0);
    leave.each = VALUES * times;
    begin_run(&leave);
    atomic_store(&left_to_take, UINT64_MAX); /* how many it will be is not known */
    for (uint32_t i = 1; i < threads; i++) sides[i].leaves_at = i * plan.each / threads;
    start(0, threads);
    join(1, threads);
    wait_until_left(0);
    atomic_store(&is_over, 1);
    join(0, 1);
    abandon_from(&queue, 0, 1);
    end_run();
}

/* Threads end in the middle of whatever changes, with dozens of values inside, and the queue is closed. Sometimes that
   is in the middle of a change: there are several generations. */
static void closes_in_changes(int kind) {
    int several = 0;
    /* On a busy machine few closes are in the middle of a change: so it goes on until one was. */
    for (uint64_t i = 0; i < CLOSES * times || (several == 0 && i < 40 * CLOSES); i++) {
        struct plan closed = plan_of(kind, i % 2 ? 4 : 1, i % 3 ? &mixed : &crews[2], 10000);
        closed.has_end = 0;
        closed.capacity = 96;
        closed.last = 512;
        closed.most = 70;
        closed.least = 50;
        begin_run(&closed);
        long blocks_of_one = atomic_load(&blocks);
        while (atomic_load(&inside) < plan.least) give_one(&sides[0]);
        start(0, queue.threads);
        wait_for_takes(i * 37 % 1009);
        atomic_store(&is_over, 1);
        join(0, queue.threads);
        several += atomic_load(&blocks) > blocks_of_one;
        if (kind == OF_VALUES && atomic_load(&blocks) <= blocks_of_one)
            expect(room_of(&queue), room_of_one, "the room of one generation");
        close_run();
        end_run();
        if (failed) return;
    }
    expect(several > 0, 1, "closes of several generations while threads give and take");
}

/* ---- All ---- */

static void many_threads(int kind) {
    for (int i = 0; i < CREWS; i++) {
        /* A million values; cells cost more, and differ in nothing that depends on how many there are. */
        struct plan million = plan_of(kind, widths[i % WIDTHS], &crews[i], MANY * times / (kind == OF_VALUES ? 1 : 4));
        run(&million);
        for (int j = 0; j < WIDTHS; j++) run_stamped(kind, widths[j], &crews[i]);
    }
    run_full(kind, 1);
    run_full(kind, 4);
    run_few_versions(kind);
    leavers(kind, 4);
    leavers(kind, 16);
    closes_in_changes(kind);
}

int main(int count, char **words) {
    if (count > 1 && !strcmp(words[1], "--long")) times = 5;
    overtakings();
    for (int kind = OF_VALUES; kind <= OF_CELLS; kind++) many_threads(kind);
    printf("%s\n", failed ? "queues that change their generation under many threads fail"
                          : "generations that change under many threads: each value came out once, within the bound");
    return failed;
}
