/* What handles that make no calls cost the takes of the others. Each of them gives in a generation of its own, and so
   keeps it. A queue of values, with a capacity of 256; IDLE, 0 to 4, is how many handles make no calls:

       idle_handles half K IDLE ROUNDS      one thread, whose gives and takes alternate, half full
       idle_handles empty K IDLE ROUNDS     one thread takes from the empty queue
       idle_handles rate K IDLE THREADS MILLISECONDS      prints how many millions of values a second are taken, where
                                                          one thread alternates, or half of the threads only give

   The instructions of a take are the difference between 10000 and 30000 rounds, divided by 20000, of what this counts:

       make -C c && gcc -std=c11 -O2 -Ic/include -o c/out/idle_handles bench/idle_handles.c c/out/libkfifo.a -pthread
       valgrind --tool=callgrind --callgrind-out-file=/dev/null --toggle-collect=kfifo_c_take \
           c/out/idle_handles half 64 2 10000 */
#define _POSIX_C_SOURCE 200112L
#include "kfifo.h"

#include <pthread.h>
#include <stdatomic.h>
#include <stdio.h>
#include <stdlib.h>
#include <string.h>
#include <time.h>

enum { CAPACITY = 256, MOST_IDLE = 4, MOST_THREADS = 16 };

/* The idle handles come first, and then one for each thread. */
static kfifo_handle handles[MOST_IDLE + MOST_THREADS];
static size_t count_of_handles, room_of_one;
static pthread_barrier_t begin;
static atomic_int is_over;

static void fail(const char *what) {
    fprintf(stderr, "idle_handles: %s\n", what);
    exit(1);
}

/* Takes a value, if it comes to one. */
static int take(kfifo_handle *handle) {
    uint64_t value;
    const kfifo_status status = kfifo_take(handle, &value);
    if (status != KFIFO_DONE && !kfifo_may_retry(status)) fail(kfifo_status_text(status));
    return status == KFIFO_DONE;
}

/* Gives a value, if it finds room. */
static int give(kfifo_handle *handle) {
    const kfifo_status status = kfifo_give(handle, 1);
    if (status != KFIFO_DONE && !kfifo_may_retry(status)) fail(kfifo_status_text(status));
    return status == KFIFO_DONE;
}

static void give_and_take(kfifo_handle *handle) {
    if (!give(handle) || !take(handle)) fail("a call of the only thread did nothing");
}

/* In how many generations the last handle is. */
static size_t generations(void) { return kfifo_values_room(handles, count_of_handles) / room_of_one; }

/* Opens the queue, and has this many handles stop, each in a generation of its own. The others go on to the newest. */
static void open_with(uint32_t k, size_t idle, size_t threads, uint64_t versions) {
    count_of_handles = MOST_IDLE + threads;
    if (kfifo_open_values_with(k, CAPACITY, KFIFO_RESERVE + versions, KFIFO_RESERVE, 1, handles, count_of_handles))
        fail("the queue was not opened");
    room_of_one = kfifo_values_room(handles, count_of_handles);
    for (size_t i = 0; i < idle; i++) {
        give_and_take(&handles[i]);
        while (generations() < i + 2)
            for (int round = 0; round < 256; round++) give_and_take(&handles[count_of_handles - 1]);
    }
    for (size_t i = idle; i < count_of_handles; i++) give_and_take(&handles[i]);
    if (generations() != idle + 1) fail("the idle handles are not in generations of their own");
}

static void fill_half(void) {
    for (int i = 0; i < CAPACITY / 2; i++)
        if (!give(&handles[count_of_handles - 1])) fail("the queue is full");
}

/* Each returns how many values its thread took. */
static void *give_all(void *handle) {
    pthread_barrier_wait(&begin);
    while (!atomic_load_explicit(&is_over, memory_order_relaxed)) give(handle);
    return NULL;
}

static void *take_all(void *handle) {
    size_t taken = 0;
    pthread_barrier_wait(&begin);
    while (!atomic_load_explicit(&is_over, memory_order_relaxed)) taken += (size_t)take(handle);
    return (void *)taken;
}

static void *do_both(void *handle) {
    size_t taken = 0;
    pthread_barrier_wait(&begin);
    while (!atomic_load_explicit(&is_over, memory_order_relaxed)) {
        give_and_take(handle);
        taken++;
    }
    return (void *)taken;
}

static double now(void) {
    struct timespec time;
    clock_gettime(CLOCK_MONOTONIC, &time);
    return (double)time.tv_sec + (double)time.tv_nsec * 1e-9;
}

/* How many values these threads take in a second. */
static double rate(size_t threads, long milliseconds) {
    pthread_t started[MOST_THREADS];
    pthread_barrier_init(&begin, NULL, (unsigned)threads + 1);
    for (size_t i = 0; i < threads; i++) {
        void *(*body)(void *) = threads == 1 ? do_both : i % 2 ? take_all : give_all;
        if (pthread_create(&started[i], NULL, body, &handles[MOST_IDLE + i])) fail("a thread was not started");
    }
    pthread_barrier_wait(&begin);
    const double began = now();
    const struct timespec rest = {milliseconds / 1000, milliseconds % 1000 * 1000000};
    nanosleep(&rest, NULL);
    atomic_store(&is_over, 1);
    const double seconds = now() - began;
    size_t taken = 0;
    for (size_t i = 0; i < threads; i++) {
        void *one;
        pthread_join(started[i], &one);
        taken += (size_t)one;
    }
    return (double)taken / seconds;
}

int main(int count, char **words) {
    const char *mode = count > 4 ? words[1] : "";
    const int is_rate = !strcmp(mode, "rate"), is_half = !strcmp(mode, "half");
    if (count != 5 + is_rate || !(is_rate || is_half || !strcmp(mode, "empty"))) fail("see its first comment");
    const uint32_t k = (uint32_t)strtoul(words[2], NULL, 10);
    const size_t idle = strtoul(words[3], NULL, 10), number = strtoul(words[4], NULL, 10);
    if (idle > MOST_IDLE || (is_rate && (number == 0 || number > MOST_THREADS))) fail("see its first comment");
    /* So many versions that no generation is used up while it measures. */
    open_with(k, idle, is_rate ? number : 1, is_rate ? 1 << 22 : 1 << 16);
    if (is_rate || is_half) fill_half();
    kfifo_handle *handle = &handles[MOST_IDLE];
    if (is_rate) printf("%.3f\n", rate(number, strtol(words[5], NULL, 10)) * 1e-6);
    for (size_t i = 0; !is_rate && i < number; i++) {
        if (is_half) give_and_take(handle);
        if (!is_half && take(handle)) fail("the queue is not empty");
    }
    if (kfifo_abandon(handles, count_of_handles) != KFIFO_DONE) fail("the handles were not closed");
    return 0;
}
