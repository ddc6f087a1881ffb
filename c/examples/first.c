/* A queue with k = 4 and 256 segments, for four threads: one item goes in and comes out. */
#include "kfifo.h"
#include <stdio.h>

int main(void) {
    kfifo_handle handles[4]; /* one for each thread */
    uint32_t item = 0, left[4 * 256];
    size_t count = 0;
    if (kfifo_open(4, 256, 4, KFIFO_LAST, handles, 4) != KFIFO_DONE) return 1;
    kfifo_status put = kfifo_put(&handles[0], 7);      /* KFIFO_DONE */
    kfifo_status took = kfifo_get(&handles[1], &item); /* KFIFO_DONE, and item is 7 */
    kfifo_status none = kfifo_get(&handles[1], &item); /* KFIFO_EMPTY */
    /* Close the queue, and have the items that are left, here none. */
    if (kfifo_close(handles, 4, left, 4 * 256, &count) != KFIFO_DONE) return 1;

    if (put != KFIFO_DONE || took != KFIFO_DONE || item != 7 || count != 0) return 1;
    printf("item %u went in and came out; then %s, and %zu are left\n", (unsigned)item, kfifo_status_text(none), count);
    return none != KFIFO_EMPTY;
}
