/* Concurrency Kit's ring for many producers and consumers, as plain calls, since its header is C alone. */
#include <ck_ring.h>
#include <stdint.h>
#include <stdlib.h>

struct ck_queue {
    ck_ring_t ring;
    ck_ring_buffer_t *buffer;
};

struct ck_queue *ck_queue_new(unsigned capacity) {
    struct ck_queue *queue = malloc(sizeof *queue);
    if (!queue) return NULL;
    queue->buffer = calloc(capacity, sizeof *queue->buffer);
    if (!queue->buffer) return NULL;
    ck_ring_init(&queue->ring, capacity);
    return queue;
}

_Bool ck_queue_push(struct ck_queue *queue, uint32_t item) {
    return ck_ring_enqueue_mpmc(&queue->ring, queue->buffer, (void *)(uintptr_t)item);
}

uint32_t ck_queue_pop(struct ck_queue *queue) {
    void *item = NULL;
    return ck_ring_dequeue_mpmc(&queue->ring, queue->buffer, &item) ? (uint32_t)(uintptr_t)item : 0;
}

void ck_queue_free(struct ck_queue *queue) {
    free(queue->buffer);
    free(queue);
}
