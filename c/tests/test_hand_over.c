/* Two threads hand one value to and fro, and both sleep each time: a wake-up that is lost would hang the test, which
   its caller ends. The looks before a sleep are left out, so this has its own copy of what waits. */
#define KFIFO_SPIN_NANOSECONDS 0
#include "../src/wait.c"
#include <pthread.h>
#include <stdio.h>
#include <stdlib.h>

#ifdef FEWER
enum { HAND_OVERS = 2000 };
#else
enum { HAND_OVERS = 200000 };
#endif

/* Two queues, one for each direction, whose handles are of the first thread and the second. */
static kfifo_handle there[2], back[2];

/* A hand-over to a thread whose giver sleeps too: the ring of two slots is full. */
static void *answer(void *argument) {
    uint64_t value = 0;
    for (int i = 0; i < HAND_OVERS / 2; i++) {
        if (kfifo_take_wait(&there[1], &value, KFIFO_FOREVER) != KFIFO_DONE) abort();
        if (kfifo_give_wait(&back[1], value + 1, KFIFO_FOREVER) != KFIFO_DONE) abort();
    }
    return argument;
}

static void *drain(void *argument) {
    uint64_t value = 0, wanted = 0;
    while (kfifo_take_wait(&there[1], &value, KFIFO_FOREVER) == KFIFO_DONE)
        if (value != wanted++) abort();
    *(uint64_t *)argument = wanted;
    return NULL;
}

int main(void) {
    pthread_t other;
    uint64_t value = 0, drained = 0;
    if (kfifo_open_values(1, 2, there, 2) != KFIFO_DONE || kfifo_open_values(1, 2, back, 2) != KFIFO_DONE) return 1;
    if (pthread_create(&other, NULL, answer, NULL)) return 1;
    for (int i = 0; i < HAND_OVERS / 2; i++) {
        if (kfifo_give_wait(&there[0], value, KFIFO_FOREVER) != KFIFO_DONE) return 1;
        if (kfifo_take_wait(&back[0], &value, KFIFO_FOREVER) != KFIFO_DONE) return 1;
    }
    pthread_join(other, NULL);

    /* One way: the giver sleeps before a full queue, the taker before an empty one. */
    if (pthread_create(&other, NULL, drain, &drained)) return 1;
    for (uint64_t i = 0; i < HAND_OVERS; i++)
        if (kfifo_give_wait(&there[0], i, KFIFO_FOREVER) != KFIFO_DONE) return 1;
    if (kfifo_finish(&there[0]) != KFIFO_DONE) return 1;
    pthread_join(other, NULL);
    if (kfifo_abandon(there, 2) != KFIFO_DONE || kfifo_abandon(back, 2) != KFIFO_DONE) return 1;
    int right = value == HAND_OVERS / 2 && drained == HAND_OVERS;
    printf("%d hand-overs between two threads that both sleep%s\n", HAND_OVERS, right ? "" : " went wrong");
    return !right;
}
