/* Frames that are made where they lie: a camera fills them, a filter turns each into another one, and a screen shows
   those. No frame is copied between the threads, and none is allocated. Who finds no frame or no room sleeps. */
#include "kfifo_wait.h"
#include <pthread.h>
#include <stdio.h>
#include <stdlib.h>
#include <string.h>

enum { FRAMES = 20000, SIZE = 256, K = 1, CAPACITY = 8, SIDES = 2 };

struct frame {
    uint32_t number;
    unsigned char pixels[SIZE];
};

/* Two queues of frames, each with a handle of the thread that publishes, and one of the thread that receives. */
static kfifo_handle raw[SIDES], filtered[SIDES];
static kfifo_status camera_end, filter_end, screen_end; /* why each thread ended */
static uint32_t shown, wrong;

static void *camera(void *nothing) {
    void *cell = NULL;
    for (uint32_t number = 1; number <= FRAMES; number++) {
        camera_end = kfifo_reserve_wait(&raw[0], &cell, KFIFO_FOREVER);
        if (camera_end != KFIFO_DONE) break;
        struct frame *frame = cell; /* it is this thread's alone */
        frame->number = number;
        memset(frame->pixels, (int)(number & 0x7f), SIZE);
        camera_end = kfifo_publish_wait(&raw[0], KFIFO_FOREVER);
        if (camera_end != KFIFO_DONE) break; /* the cell is still reserved */
    }
    if (kfifo_finish(&raw[0]) != KFIFO_DONE) abort();
    return nothing;
}

/* Has a cell of each queue while it works. */
static void *filter(void *nothing) {
    void *got = NULL, *made = NULL;
    while ((filter_end = kfifo_receive_wait(&raw[1], &got, KFIFO_FOREVER)) == KFIFO_DONE) {
        filter_end = kfifo_reserve_wait(&filtered[0], &made, KFIFO_FOREVER);
        if (filter_end != KFIFO_DONE) break;
        const struct frame *in = got;
        struct frame *out = made;
        out->number = in->number;
        for (int i = 0; i < SIZE; i++) out->pixels[i] = (unsigned char)(2 * in->pixels[i]);
        filter_end = kfifo_publish_wait(&filtered[0], KFIFO_FOREVER);
        if (filter_end != KFIFO_DONE) break;
        if (kfifo_release(&raw[1]) != KFIFO_DONE) abort(); /* the camera may fill it anew */
    }
    /* The others end too, whatever ended this one. */
    if (kfifo_finish(&raw[1]) != KFIFO_DONE) abort();
    if (kfifo_finish(&filtered[0]) != KFIFO_DONE) abort();
    return nothing;
}

static void *screen(void *nothing) {
    void *cell = NULL;
    while ((screen_end = kfifo_receive_wait(&filtered[1], &cell, KFIFO_FOREVER)) == KFIFO_DONE) {
        const struct frame *frame = cell;
        shown++;
        wrong += frame->number != shown || frame->pixels[SIZE - 1] != (unsigned char)(2 * (shown & 0x7f));
    }
    if (kfifo_finish(&filtered[1]) != KFIFO_DONE) abort();
    return nothing;
}

int main(void) {
    pthread_t threads[3];
    void *(*const work[3])(void *) = {camera, filter, screen};
    const uint32_t size = sizeof(struct frame), alignment = _Alignof(struct frame);
    kfifo_status status = kfifo_open_cells(K, CAPACITY, size, alignment, raw, SIDES);
    if (status == KFIFO_DONE) status = kfifo_open_cells(K, CAPACITY, size, alignment, filtered, SIDES);
    if (status != KFIFO_DONE) {
        fprintf(stderr, "no queue: %s\n", kfifo_status_text(status));
        return 1;
    }
    for (int i = 0; i < 3; i++)
        if (pthread_create(&threads[i], NULL, work[i], NULL)) return 1;
    for (int i = 0; i < 3; i++) pthread_join(threads[i], NULL);
    if (kfifo_abandon(raw, SIDES) != KFIFO_DONE) return 1;
    if (kfifo_abandon(filtered, SIDES) != KFIFO_DONE) return 1;
    if (camera_end != KFIFO_DONE) fprintf(stderr, "the camera ended: %s\n", kfifo_status_text(camera_end));
    if (filter_end != KFIFO_FINISHED) fprintf(stderr, "the filter ended: %s\n", kfifo_status_text(filter_end));
    if (screen_end != KFIFO_FINISHED) fprintf(stderr, "the screen ended: %s\n", kfifo_status_text(screen_end));
    printf("%u frames were shown, %u of them wrong\n", (unsigned)shown, (unsigned)wrong);
    return shown == FRAMES && wrong == 0 ? 0 : 1;
}
