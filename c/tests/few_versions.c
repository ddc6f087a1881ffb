/* The openings of the library, but with few versions, so that what happens once in many hours happens at once. `make
   worn` builds two libraries with these in place of their own, which have the names below there, and runs the examples
   with each:

   - out/worn/libkfifo.a, whose queues have the versions 0 to 3 and do not renew themselves: each example has to end,
   and to say why.
   - out/renewed/libkfifo.a, with RENEWS, whose queues of values and cells are small too, and change their generation
   all the time: each example has to do what it always does. At its end a line on the standard error says how often they
     changed. */
#include "kfifo.h"
#include <stdatomic.h>
#include <stdio.h>
#include <stdlib.h>

uint32_t kfifo_c_whole_open(uint32_t k, uint32_t segments, uint32_t probes, uint64_t last, kfifo_handle *handles,
                            size_t threads);
uint32_t kfifo_c_whole_open_values(uint32_t k, uint32_t capacity, uint64_t last, uint64_t reserve, uint32_t generations,
                                   kfifo_handle *handles, size_t threads);
uint32_t kfifo_c_whole_open_cells(uint32_t k, uint32_t capacity, uint32_t size, uint32_t alignment, uint64_t last,
                                  uint64_t reserve, uint32_t generations, kfifo_handle *handles, size_t threads);

#ifdef RENEWS
/* A queue has 32 tokens more for each thread. The reserve has to empty it. */
enum { LAST = 320, RESERVE = 256, CAPACITY = 4 };

/* The blocks of each size that openings ask for, and those that came later. A change asks for no more blocks of a size
   than an opening, which makes a generation and has each handle join it. */
static struct {
    size_t size;
    long in_openings;
    atomic_long later;
} sizes[64];
static int is_opening;

void *kfifo_few_malloc(size_t size) {
    int i = 0;
    while (i < 63 && sizes[i].size && sizes[i].size != size) i++;
    if (is_opening) {
        sizes[i].size = size;
        sizes[i].in_openings++;
    } else if (sizes[i].in_openings) {
        atomic_fetch_add(&sizes[i].later, 1);
    }
    return malloc(size);
}

__attribute__((destructor)) static void tell(void) {
    long changes = 0;
    for (int i = 0; i < 63 && sizes[i].size; i++) {
        long rounds = atomic_load(&sizes[i].later) / sizes[i].in_openings;
        changes = rounds > changes ? rounds : changes;
    }
    fprintf(stderr, "%ld changes of generations\n", changes);
}
#else
enum { LAST = 3, RESERVE = 0, CAPACITY = 65536 };
static int is_opening;
#endif

static uint64_t at_most(uint64_t number, uint64_t most) { return number < most ? number : most; }

uint32_t kfifo_c_open(uint32_t k, uint32_t segments, uint32_t probes, uint64_t last, kfifo_handle *handles,
                      size_t threads) {
    return kfifo_c_whole_open(k, segments, probes, RESERVE ? last : at_most(last, LAST), handles, threads);
}

/* A queue that grows is not worn out before it has as many generations as it may have. */
static uint32_t at_most_generations(uint32_t generations) { return RESERVE ? generations : 1; }

uint32_t kfifo_c_open_values(uint32_t k, uint32_t capacity, uint64_t last, uint64_t reserve, uint32_t generations,
                             kfifo_handle *handles, size_t threads) {
    is_opening = 1;
    uint32_t status =
        kfifo_c_whole_open_values(k, (uint32_t)at_most(capacity, CAPACITY), at_most(last, LAST),
                                  at_most(reserve, RESERVE), at_most_generations(generations), handles, threads);
    is_opening = 0;
    return status;
}

uint32_t kfifo_c_open_cells(uint32_t k, uint32_t capacity, uint32_t size, uint32_t alignment, uint64_t last,
                            uint64_t reserve, uint32_t generations, kfifo_handle *handles, size_t threads) {
    is_opening = 1;
    uint32_t status =
        kfifo_c_whole_open_cells(k, (uint32_t)at_most(capacity, CAPACITY), size, alignment, at_most(last, LAST),
                                 at_most(reserve, RESERVE), at_most_generations(generations), handles, threads);
    is_opening = 0;
    return status;
}
