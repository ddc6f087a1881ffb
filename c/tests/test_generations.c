/* Queues of values and of cells whose generations change all the time, since they have few versions, by one thread:
   each value comes out once, in its order; handles that stop or are abandoned, and closes in the middle of a change,
   lose nothing. With --long it makes more changes. */
#include "test_generations.h"

/* With k = 1 and one thread the queue is first in, first out, whatever the number of versions, and through hundreds of
   changes. */
static void in_order(int kind) {
    static struct any_queue queue;
    for (uint64_t last = 8; last <= 64; last += last < 16 ? 1 : 16) {
        uint64_t next = 0, oldest = 0, value = 0;
        expect(open_queue(&queue, kind, 1, 4, last, 1), KFIFO_DONE, "open for an order");
        for (uint64_t i = 0; i < 5000 * times; i++) {
            for (uint64_t inside = 0; inside <= i % 3; inside++) {
                expect(give(&queue, 0, next), KFIFO_DONE, "a give in order");
                next++;
            }
            for (; oldest < next; oldest++) {
                expect(take(&queue, 0, &value), KFIFO_DONE, "a take in order");
                expect(value, oldest, "the oldest value");
            }
            expect(take(&queue, 0, &value), KFIFO_EMPTY, "a take of an empty queue");
            if (failed) return;
        }
        expect(give(&queue, 0, 5), KFIFO_DONE, "a give before a close");
        size_t count = 0;
        uint64_t *left = close_queue(&queue, 2, &count);
        expect(count, 1, "values left");
        expect(left[0], 5, "the value left");
        free(left);
    }
}

/* One handle goes through many changes while another one stops: what that one gave comes out, it finds what came
   meanwhile, and the room of a close counts the generation that it kept. */
static void one_stops(int kind) {
    static struct any_queue queue;
    uint64_t value = 0;
    expect(open_queue(&queue, kind, 1, 8, 32, 2), KFIFO_DONE, "open for one that stops");
    size_t room = room_of(&queue);
    expect(give(&queue, 1, 1000), KFIFO_DONE, "a give by one that then stops");
    for (uint64_t i = 0; i < 2000; i++) {
        expect(give(&queue, 0, i), KFIFO_DONE, "a give while another one stops");
        expect(take(&queue, 0, &value), KFIFO_DONE, "a take while another one stops");
        expect(value, i ? i - 1 : 1000, "the value that was given before");
    }
    expect(give(&queue, 0, 2000), KFIFO_DONE, "a give at the end");
    if (kind == OF_VALUES) expect(room_of(&queue) > room, 1, "the room with a generation that one kept");
    expect(take(&queue, 1, &value), KFIFO_DONE, "a take by the one that stopped");
    expect(value, 1999, "the oldest value");
    expect(give(&queue, 1, 2001), KFIFO_DONE, "a give by the one that stopped");
    for (uint64_t i = 2000; i < 2002; i++) {
        expect(take(&queue, 0, &value), KFIFO_DONE, "a take after the one that stopped");
        expect(value, i, "the values at the end");
    }
    abandon_from(&queue, 0, 2);
}

/* Closes while generations change: each value that is inside comes back, those of the oldest generation first, which
   with k = 1 is the order in which one thread gave them. */
static void closes(int kind) {
    static struct any_queue queue;
    size_t one = 0, most = 0;
    for (uint64_t before = 0; before < 60; before++) {
        uint64_t value = 0, next = 0;
        expect(open_queue(&queue, kind, 1, 16, 24, 3), KFIFO_DONE, "open to be closed");
        one = room_of(&queue);
        for (; next < before; next++) {
            expect(give(&queue, (uint32_t)next % 3, next), KFIFO_DONE, "a give that is taken");
            expect(take(&queue, (uint32_t)next % 2, &value), KFIFO_DONE, "its take");
        }
        for (uint64_t i = 0; i < 14; i++) expect(give(&queue, 0, next + i), KFIFO_DONE, "a give that is left");
        most = room_of(&queue) > most ? room_of(&queue) : most;
        size_t count = 0;
        uint64_t *left = close_queue(&queue, 20, &count);
        expect(count, 14, "values that a close gives back");
        for (uint64_t i = 0; i < count && i < 14; i++) expect(left[i], next + i, "a value that is left, in its order");
        expect(give(&queue, 0, 1), KFIFO_BAD_CALL, "a give after a close");
        free(left);
        if (failed) return;
    }
    if (kind == OF_VALUES) expect(most > one, 1, "closes of several generations");
}

/* Closes a queue of many handles, up to as many as there can be, each of which keeps a generation of its own. With k =
   1 the values come out in their order. */
static void closes_many(int kind) {
    static const uint32_t threads[] = {15, 16, 30, MOST_HANDLES};
    static struct any_queue queue;
    for (size_t i = 0; i < sizeof threads / sizeof threads[0]; i++) {
        const uint32_t k = threads[i] > 30 ? 4 : 1;
        uint64_t next = 0, oldest = 0, value = 0, in = 0, out = 0;
        size_t count = 0;
        expect(open_queue(&queue, kind, k, 4, 24, threads[i]), KFIFO_DONE, "open for many");
        size_t one = room_of(&queue);
        for (uint32_t thread = threads[i]; thread-- > 0;) {
            in += next;
            expect(give(&queue, thread, next++), KFIFO_DONE, "a give by each of many");
            for (uint32_t pair = 0; pair < 24 * k; pair++) {
                in += next;
                expect(give(&queue, 0, next++), KFIFO_DONE, "a give by the first of many");
                expect(take(&queue, 0, &value), KFIFO_DONE, "a take by the first of many");
                if (k == 1) expect(value, oldest++, "the oldest value of many");
                out += value;
            }
            expect(take(&queue, 0, &value), KFIFO_DONE, "one more take by the first of many");
            if (k == 1) expect(value, oldest++, "the last value of many");
            out += value;
        }
        expect(out, in, "the values of many");
        for (int more = 0; more < 3; more++) expect(give(&queue, 0, next++), KFIFO_DONE, "a give that many leave");
        if (kind == OF_VALUES) expect(room_of(&queue) >= one * threads[i], 1, "room for each generation");
        uint64_t *left = close_queue(&queue, 8, &count);
        expect(count, 3, "values that many leave");
        for (uint64_t more = 0; k == 1 && more < count && more < 3; more++)
            expect(left[more], oldest + more, "what many leave");
        free(left);
    }
}

/* With reserve 0 a queue does not renew itself. What is left comes back. */
static void does_not_renew(int kind) {
    static struct any_queue queue;
    uint64_t inside[64], value = 0, next = 0;
    size_t count = 0;
    kfifo_status status = any_open(&queue, kind, 1, 8, 40, 0, 1, 1);
    expect(status, KFIFO_DONE, "open of a queue that does not renew itself");
    size_t room = room_of(&queue);
    while (next < 1000 && (status = give(&queue, 0, next)) != KFIFO_WORN) {
        if (status == KFIFO_DONE) inside[count++] = next++;
        if (count < 3) continue;
        if (take(&queue, 0, &value) != KFIFO_DONE) break;
        expect(value, inside[0], "the oldest value");
        memmove(inside, inside + 1, --count * sizeof *inside);
    }
    expect(next < 60, 1, "a queue that does not renew itself wears out");
    expect(room_of(&queue), room, "its room");
    size_t rest = 0;
    uint64_t *left = close_queue(&queue, 64, &rest);
    expect(rest, count, "how many values it had");
    for (size_t i = 0; i < rest && i < count; i++) expect(left[i], inside[i], "a value that it had");
    free(left);
}

/* One of three handles is abandoned after that many calls, at each moment of a change and between two. The others go on
   through many more changes: each value comes out once, in the order in which they were given, also what the one that
   left had given. */
static void one_leaves(int kind) {
    static struct any_queue queue;
    for (uint64_t before = 0; before < 150; before++) {
        uint32_t leaver = before % 3;
        uint64_t next = 0, oldest = 0, value = 0;
        expect(open_queue(&queue, kind, 1, 16, 24, 3), KFIFO_DONE, "open for one that leaves");
        for (uint64_t call = 0; call < before + 300; call++) {
            uint32_t thread = (uint32_t)(call % 3);
            if (call == before) abandon_from(&queue, leaver, 1);
            if (call >= before && thread == leaver) thread = (thread + 1) % 3;
            /* Two gives, then two takes: so it leaves with none, one or two values inside. */
            if (call % 4 < 2) {
                expect(give(&queue, thread, next), KFIFO_DONE, "a give around one that leaves");
                next++;
            } else {
                expect(take(&queue, thread, &value), KFIFO_DONE, "a take around one that leaves");
                expect(value, oldest, "the oldest value around one that leaves");
                oldest++;
            }
        }
        for (; oldest < next; oldest++) {
            expect(take(&queue, (leaver + 1) % 3, &value), KFIFO_DONE, "a take after one has left");
            expect(value, oldest, "a value that was left");
        }
        expect(take(&queue, (leaver + 2) % 3, &value), KFIFO_EMPTY, "a take of what one that left gave");
        abandon_from(&queue, 0, 3);
        if (failed) return;
    }
}

/* A queue that is full, with hundreds of values inside, through many changes: FULL is answered with as many as a ring
   has inside, and they come out in order. What is inside at the end comes back. */
static void full_in_order(int kind) {
    enum { RING = 200 };
    static struct any_queue queue;
    uint64_t next = 0, oldest = 0, value = 0, refused = 0;
    expect(open_queue(&queue, kind, 1, RING, 4 * RING, 1), KFIFO_DONE, "open to be full");
    for (uint64_t i = 0; i < 20000 * times && !failed; i++) {
        kfifo_status status = KFIFO_DONE;
        while (next - oldest < 3 * RING && (status = give(&queue, 0, next)) == KFIFO_DONE) next++;
        if (status != KFIFO_DONE) expect(status, KFIFO_FULL, "a give to a queue that is full");
        if (status == KFIFO_FULL) expect(next - oldest >= RING, 1, "a queue that is full has its capacity");
        refused += status == KFIFO_FULL;
        for (uint64_t j = 0; j <= i % 5; j++) {
            expect(take(&queue, 0, &value), KFIFO_DONE, "a take of a queue that is full");
            expect(value, oldest, "the oldest value of a queue that is full");
            oldest++;
        }
    }
    expect(refused > 1000, 1, "gives to a queue that is full");
    size_t count = 0;
    uint64_t *left = close_queue(&queue, 4 * RING, &count);
    expect(count, next - oldest, "values that were in a queue that was full");
    for (size_t i = 0; i < count; i++) expect(left[i], oldest + i, "a value of a queue that was full");
    free(left);
}

int main(int count, char **words) {
    if (count > 1 && !strcmp(words[1], "--long")) times = 5;
    for (int kind = OF_VALUES; kind <= OF_CELLS; kind++) {
        in_order(kind);
        full_in_order(kind);
        one_stops(kind);
        one_leaves(kind);
        closes(kind);
        closes_many(kind);
        does_not_renew(kind);
    }
    printf("%s\n", failed ? "queues that change their generation fail"
                          : "generations that change all the time: each value came out once, in its order");
    return failed;
}
