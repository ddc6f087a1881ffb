/* Producers and consumers with a struct of their own: two threads make orders and two work on them, each order on the
   heap. Who finds no room or no order sleeps. */
#include "kfifo_wait.h"
#include <pthread.h>
#include <stdio.h>
#include <stdlib.h>

enum { PRODUCERS = 2, CONSUMERS = 2, EACH = 20000, K = 8, CAPACITY = 1024 };

struct order {
    uint32_t customer;
    double price;
};

struct side {
    kfifo_handle *handle;
    uint32_t number, orders;
    double total;
    kfifo_status end; /* why the thread ended */
};

static void *produce(void *argument) {
    struct side *self = argument;
    for (uint32_t i = 0; i < EACH; i++) {
        struct order *order = malloc(sizeof *order);
        if (!order) abort();
        double price = 0.25 * i;
        *order = (struct order){.customer = self->number, .price = price};
        self->end = kfifo_give_pointer_wait(self->handle, order, KFIFO_FOREVER);
        if (self->end != KFIFO_DONE) {
            free(order); /* the queue takes no more, and the order is still ours */
            if (kfifo_finish(self->handle) != KFIFO_DONE) abort(); /* the others end too */
            break;
        }
        self->total += price; /* the order itself may be gone by now */
        self->orders++;
    }
    return NULL;
}

static void *consume(void *argument) {
    struct side *self = argument;
    void *order = NULL;
    while ((self->end = kfifo_take_pointer_wait(self->handle, &order, KFIFO_FOREVER)) == KFIFO_DONE) {
        self->total += ((struct order *)order)->price;
        self->orders++;
        free(order);
    }
    if (self->end != KFIFO_FINISHED && kfifo_finish(self->handle) != KFIFO_DONE) abort(); /* the others end too */
    return NULL;
}

int main(void) {
    enum { THREADS = PRODUCERS + CONSUMERS };
    kfifo_handle handles[THREADS];
    struct side sides[THREADS];
    pthread_t threads[THREADS];
    kfifo_status status = kfifo_open_values(K, CAPACITY, handles, THREADS);
    if (status != KFIFO_DONE) {
        fprintf(stderr, "no queue: %s\n", kfifo_status_text(status));
        return 1;
    }
    for (uint32_t i = 0; i < THREADS; i++) {
        sides[i] = (struct side){.handle = &handles[i], .number = i};
        if (pthread_create(&threads[i], NULL, i < PRODUCERS ? produce : consume, &sides[i])) return 1;
    }
    uint32_t made = 0, done = 0;
    double owed = 0, paid = 0;
    for (uint32_t i = 0; i < THREADS; i++) {
        if (i == PRODUCERS && kfifo_finish(&handles[0]) != KFIFO_DONE) abort(); /* all producers have ended */
        pthread_join(threads[i], NULL);
        if (sides[i].end != (i < PRODUCERS ? KFIFO_DONE : KFIFO_FINISHED))
            fprintf(stderr, "thread %u ended: %s\n", (unsigned)i, kfifo_status_text(sides[i].end));
        *(i < PRODUCERS ? &made : &done) += sides[i].orders;
        *(i < PRODUCERS ? &owed : &paid) += sides[i].total;
    }
    size_t room = kfifo_values_room(handles, THREADS), count = 0;
    uint64_t *left = malloc(room * sizeof *left);
    if (!left || kfifo_close_values(handles, THREADS, left, room, &count) != KFIFO_DONE) return 1;
    for (size_t i = 0; i < count; i++) free((void *)(uintptr_t)left[i]);
    free(left);
    printf("%u orders were made and %u done, for %.2f\n", (unsigned)made, (unsigned)done, paid);
    return made == PRODUCERS * EACH && done == made && owed == paid ? 0 : 1;
}
