/* A pool of worker threads: four threads take jobs out of one queue while main puts them. A worker sleeps while there
   is no job, main while there is no room. An item is the index, from 1, of a job in an array. */
#include "kfifo_wait.h"
#include <pthread.h>
#include <stdio.h>
#include <stdlib.h>

enum { WORKERS = 4, JOBS = 10000, K = 4, SEGMENTS = 256 };

static uint64_t numbers[JOBS + 1]; /* the jobs; numbers[0] is never used */

struct worker {
    kfifo_handle *handle;
    uint64_t sum;
    uint32_t jobs;
    kfifo_status end; /* why the worker ended */
};

static void *work(void *argument) {
    struct worker *self = argument;
    uint32_t item = 0;
    while ((self->end = kfifo_get_wait(self->handle, &item, KFIFO_FOREVER)) == KFIFO_DONE) {
        self->sum += numbers[item];
        self->jobs++;
    }
    if (self->end != KFIFO_FINISHED && kfifo_finish(self->handle) != KFIFO_DONE) abort(); /* the others end too */
    return NULL;
}

/* Puts the jobs, and adds up their numbers. Returns how many found their way. */
static uint32_t put_all(kfifo_handle *handle, uint64_t *sum) {
    for (uint32_t job = 1; job <= JOBS; job++) {
        numbers[job] = (uint64_t)job * job;
        kfifo_status status = kfifo_put_wait(handle, job, KFIFO_FOREVER);
        if (status != KFIFO_DONE) {
            fprintf(stderr, "job %u was not put: %s\n", (unsigned)job, kfifo_status_text(status));
            return job - 1;
        }
        *sum += numbers[job];
    }
    return JOBS;
}

int main(void) {
    kfifo_handle handles[WORKERS + 1]; /* the last one is main's */
    struct worker workers[WORKERS];
    pthread_t threads[WORKERS];
    kfifo_status status = kfifo_open(K, SEGMENTS, K, KFIFO_LAST, handles, WORKERS + 1);
    if (status != KFIFO_DONE) {
        fprintf(stderr, "no queue: %s\n", kfifo_status_text(status));
        return 1;
    }
    for (uint32_t i = 0; i < WORKERS; i++) {
        workers[i] = (struct worker){.handle = &handles[i]};
        if (pthread_create(&threads[i], NULL, work, &workers[i])) return 1;
    }
    uint64_t sum = 0, total = 0;
    uint32_t put = put_all(&handles[WORKERS], &sum), jobs = 0;
    if (kfifo_finish(&handles[WORKERS]) != KFIFO_DONE) abort(); /* a worker ends when it then finds the queue empty */
    for (uint32_t i = 0; i < WORKERS; i++) {
        pthread_join(threads[i], NULL);
        if (workers[i].end != KFIFO_FINISHED)
            fprintf(stderr, "worker %u ended: %s\n", (unsigned)i, kfifo_status_text(workers[i].end));
        jobs += workers[i].jobs;
        total += workers[i].sum;
    }
    static uint32_t left[K * SEGMENTS];
    size_t count = 0;
    if (kfifo_close(handles, WORKERS + 1, left, K * SEGMENTS, &count) != KFIFO_DONE) return 1;
    printf("%u jobs were put and %u done, %zu are left\n", (unsigned)put, (unsigned)jobs, count);
    return put == JOBS && jobs == JOBS && sum == total && count == 0 ? 0 : 1;
}
