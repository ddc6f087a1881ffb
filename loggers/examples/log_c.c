/* A ring behind a mutex, logged: two threads put items in and two take them out, and then the queue is emptied.
   Prints the log. With the argument broken the newest item is taken in place of the oldest one, and with short the
   logs are too small. */
#include "../kfifo_log.h"
#include <pthread.h>

enum { ITEMS = 1000, THREADS = 5, CAPACITY = 64, MAIN = 4 };

typedef struct {
    pthread_mutex_t mutex;
    uint32_t items[CAPACITY];
    size_t head, length;
    bool broken;
} ring;

static bool ring_enqueue(ring *queue, uint32_t item) {
    pthread_mutex_lock(&queue->mutex);
    bool has_room = queue->length < CAPACITY;
    if (has_room) queue->items[(queue->head + queue->length++) % CAPACITY] = item;
    pthread_mutex_unlock(&queue->mutex);
    return has_room;
}

static bool ring_dequeue(ring *queue, uint32_t *item) {
    pthread_mutex_lock(&queue->mutex);
    bool has_item = queue->length > 0;
    if (has_item) {
        queue->length--;
        if (queue->broken) {
            *item = queue->items[(queue->head + queue->length) % CAPACITY];
        } else {
            *item = queue->items[queue->head];
            queue->head = (queue->head + 1) % CAPACITY;
        }
    }
    pthread_mutex_unlock(&queue->mutex);
    return has_item;
}

static ring queue = {.mutex = PTHREAD_MUTEX_INITIALIZER};
static kfifo_log logs[THREADS];
static pthread_barrier_t start; /* so that the threads run side by side */

static void enqueue(kfifo_log *log, uint32_t item) {
    kfifo_log_begin_enqueue(log, item);
    bool done = ring_enqueue(&queue, item);
    kfifo_log_end(log, done ? KFIFO_LOG_DONE : KFIFO_LOG_FULL, 0);
}

static bool dequeue(kfifo_log *log) {
    uint32_t item = 0;
    kfifo_log_begin_dequeue(log);
    bool got = ring_dequeue(&queue, &item);
    kfifo_log_end(log, got ? KFIFO_LOG_GOT : KFIFO_LOG_EMPTY, item);
    return got;
}

static void *produce(void *own) {
    kfifo_log *log = own;
    pthread_barrier_wait(&start);
    /* The items of thread 0 are 1 to 1,000, and those of thread 1 are 1,001 to 2,000. */
    for (uint32_t i = 1; i <= ITEMS; i++) enqueue(log, log->thread * ITEMS + i);
    return NULL;
}

static void *consume(void *own) {
    pthread_barrier_wait(&start);
    for (int i = 0; i < ITEMS; i++) dequeue(own);
    return NULL;
}

int main(int argc, char **argv) {
    queue.broken = argc > 1 && strcmp(argv[1], "broken") == 0;
    bool is_short = argc > 1 && strcmp(argv[1], "short") == 0;
    for (unsigned t = 0; t < THREADS; t++) {
        if (!kfifo_log_open(&logs[t], t, is_short ? 10 : ITEMS)) return 1;
    }
    pthread_t threads[MAIN];
    if (pthread_barrier_init(&start, NULL, MAIN) != 0) return 1;
    for (int t = 0; t < MAIN; t++) {
        if (pthread_create(&threads[t], NULL, t < 2 ? produce : consume, &logs[t]) != 0) return 1;
    }
    for (int t = 0; t < MAIN; t++) pthread_join(threads[t], NULL);

    while (dequeue(&logs[MAIN])) continue;
    /* Whatever the threads met, these two show which end the items leave by. */
    enqueue(&logs[MAIN], 2 * ITEMS + 1);
    enqueue(&logs[MAIN], 2 * ITEMS + 2);
    while (dequeue(&logs[MAIN])) continue;

    kfifo_log_status status = kfifo_log_write(stdout, logs, THREADS);
    if (status == KFIFO_LOG_MISSED_CALLS) fputs("log_c: a log was full, so that calls are missing\n", stderr);
    for (int t = 0; t < THREADS; t++) kfifo_log_close(&logs[t]);
    return status == KFIFO_LOG_WRITTEN ? 0 : 1;
}
