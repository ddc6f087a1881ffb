/* The lines of kfifo.h on cells, round after round. `make worn` runs them through many changes of generations. */
#include "kfifo.h"
#include <sched.h>
#include <stdio.h>

enum { ROUNDS = 20000 };

/* clang-format off */
struct frame { int width, height; unsigned char pixels[4096]; };
/* clang-format on */

static int shown;

static void show(const struct frame *frame) { shown += frame->width == 64; }

/* clang-format off */
static int run(void) {
    struct frame *frame = NULL;
    void *cell = NULL;
    kfifo_handle handles[2]; // one for each thread
    if (kfifo_open_cells(1, 8, sizeof *frame, _Alignof(struct frame), handles, 2) != KFIFO_DONE) return 1;

    for (int round = 0; round < ROUNDS; round++) {
        if (kfifo_reserve(&handles[0], &cell) == KFIFO_DONE) {
            frame = cell;
            frame->width = 64; // the cell is this thread's alone
            kfifo_status status;
            while (kfifo_may_retry(status = kfifo_publish(&handles[0]))) sched_yield();
            if (status != KFIFO_DONE) return 1; // worn
        }

        if (kfifo_receive(&handles[1], &cell) == KFIFO_DONE) {
            show(cell); // now it is this one's alone
            if (kfifo_release(&handles[1]) != KFIFO_DONE) return 1;
        }
    }
    return kfifo_abandon(handles, 2) != KFIFO_DONE;
}
/* clang-format on */

int main(void) {
    int status = run();
    printf("%d frames were shown\n", shown);
    return status != 0 || shown != ROUNDS;
}
