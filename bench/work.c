/* Work between two calls: an empty loop of that many steps. It is a function that is not inlined and begins a line of
   the cache, so all queues are measured with the same machine code at the same kind of place. Inlined into the loop of
   each queue, its three instructions took up to twice as long in some of them as in others. */
#include <stdint.h>

void bench_work(uint64_t steps);

__attribute__((noinline, aligned(64))) void bench_work(uint64_t steps) {
    for (uint64_t i = 0; i < steps; i++) __asm__ volatile("" ::: "memory");
}
