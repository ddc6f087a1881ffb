/* Makes the calls that its arguments name, in one thread, with a call of `boundary` before and after each, so that
   `atomics` finds in a trace of the emulator what each call executed. The first argument is k; the queue of items has
   two segments, and that of values a capacity of 1.
   A word is e<item>:<start>, d:<start>, p<item> and g for a put and a get, or v<value> and t for a give and a take.
   Prints the number of each status. These are the exports: the calls of kfifo.h look for threads that wait besides. */
#include "kfifo.h"
#include <stdio.h>
#include <stdlib.h>

enum { TURNS = 4 };

/* A call that the compiler can neither leave out nor merge. */
__attribute__((noinline)) void boundary(void) { __asm__ volatile("" ::: "memory"); }

static kfifo_status call(kfifo_handle *handle, kfifo_handle *values, const char *word) {
    uint32_t item;
    uint64_t value;
    char *rest;
    unsigned long number = strtoul(word + 1, &rest, 10);
    uint32_t start = (uint32_t)strtoul(*rest ? rest + 1 : "0", NULL, 10);
    switch (*word) {
    case 'e': return (kfifo_status)kfifo_c_enqueue(handle, (uint32_t)number, start, TURNS);
    case 'd': return (kfifo_status)kfifo_c_dequeue(handle, &item, start, TURNS);
    case 'p': return (kfifo_status)kfifo_c_put(handle, (uint32_t)number);
    case 'g': return (kfifo_status)kfifo_c_get(handle, &item);
    case 'v': return (kfifo_status)kfifo_c_give(values, number);
    case 't': return (kfifo_status)kfifo_c_take(values, &value);
    }
    return KFIFO_BAD_CALL;
}

int main(int count, char **words) {
    kfifo_handle handle;
    kfifo_handle values;
    uint32_t k = (uint32_t)strtoul(count > 1 ? words[1] : "", NULL, 10);
    if (kfifo_open(k, 2, k, KFIFO_LAST, &handle, 1) != KFIFO_DONE) return 1;
    if (kfifo_open_values(k, 1, &values, 1) != KFIFO_DONE) return 1;
    for (int i = 2; i < count; i++) {
        boundary();
        kfifo_status status = call(&handle, &values, words[i]);
        boundary();
        printf("%d\n", (int)status);
    }
    return kfifo_abandon(&values, 1) != KFIFO_DONE || kfifo_abandon(&handle, 1) != KFIFO_DONE;
}
