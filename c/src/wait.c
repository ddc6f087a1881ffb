/* What a thread does between two looks at the queue, and how it is woken: an event count over Linux's futex.
   kfifo_wait.h has the calls. It knows nothing of how a give or a take works, only what they answer. */
#define _GNU_SOURCE
#include "kfifo_wait.h"
#include <limits.h>
#include <linux/futex.h>
#include <sched.h>
#include <sys/syscall.h>
#include <time.h>
#include <unistd.h>

/* rust/src/ffi.rs has these types too. */
_Static_assert(sizeof(kfifo_waits) == 320 && sizeof(kfifo_waiter) == 48, "the types of kfifo_wait.h");
_Static_assert(sizeof(kfifo_handle) == 40 && sizeof(kfifo_left) == 24, "the types of kfifo.h");

/* How long a thread looks before it sleeps. A wake-up costs about as much, so that it loses at most half of its time by
   looking. */
#ifndef KFIFO_SPIN_NANOSECONDS
#define KFIFO_SPIN_NANOSECONDS 5000
#endif
/* The most pauses between two looks, about half a microsecond. */
enum { MOST_PAUSES = 8 };

static uint64_t now(void) {
    struct timespec time;
    clock_gettime(CLOCK_MONOTONIC, &time);
    return (uint64_t)time.tv_sec * 1000000000u + (uint64_t)time.tv_nsec;
}

/* The word that threads of this kind sleep on. */
static uint32_t *word_of(kfifo_waits *waits, uint32_t kind) {
    return kind == KFIFO_WAITS_TAKER ? &waits->filled : &waits->emptied;
}

/* Wakes threads that sleep on a word. One that has yet to fall asleep finds the word changed, and does not. */
static void wake(uint32_t *word, int most) {
    __atomic_fetch_add(word, 1, __ATOMIC_SEQ_CST);
    syscall(SYS_futex, word, FUTEX_WAKE_PRIVATE, most, NULL, NULL, 0);
}

/* Wakes a giver, unless one was woken that has yet to look: until that thread runs, each take would make a call of the
   system. That giver looks after the caller made room, and hands the wake-up on when it is done. Should it be stopped,
   every sixteenth call wakes another. It is noted before the word changes: a giver that reads the changed word removes
   the note afterwards, as it looks itself. */
static void wake_giver(kfifo_waits *waits) {
    if (__atomic_fetch_add(&waits->wakes_noted, 1, __ATOMIC_SEQ_CST) % 16 == 0) wake(&waits->emptied, 1);
}

/* After a give, where threads wait. A give that was done wakes a taker. It wakes a giver too: one take may make room
   for several, as when it empties the last slot of a segment, and wakes one alone, which hands on what it was told. A
   give that was BUSY may have held a slot for a moment, and another giver have found the ring full by it. */
kfifo_status kfifo_wait_given(kfifo_waits *waits, kfifo_status status) {
    uint32_t state = kfifo_waits_state(waits);
    if (status == KFIFO_DONE && (state & KFIFO_WAITS_TAKERS)) wake(&waits->filled, 1);
    if ((status == KFIFO_DONE || status == KFIFO_BUSY) && (state & KFIFO_WAITS_GIVERS)) wake_giver(waits);
    return status;
}

/* After a take, where givers wait. One that took nothing may still have laid a token down. */
kfifo_status kfifo_wait_taken(kfifo_waits *waits, kfifo_status status) {
    wake_giver(waits);
    return status;
}

/* After the queue was finished. */
void kfifo_wait_finished(kfifo_waits *waits) {
    wake(&waits->filled, INT_MAX);
    wake(&waits->emptied, INT_MAX);
}

/* A giver that is about to look removes the note that one was woken. */
static void remove_note(kfifo_waiter *waiter) {
    if (waiter->kind == KFIFO_WAITS_GIVER) __atomic_store_n(&waiter->waits->wakes_noted, 0, __ATOMIC_SEQ_CST);
}

static void announce(kfifo_waiter *waiter) {
    __atomic_fetch_add(&waiter->waits->state, waiter->kind, __ATOMIC_SEQ_CST);
    waiter->seen = __atomic_load_n(word_of(waiter->waits, waiter->kind), __ATOMIC_SEQ_CST);
    remove_note(waiter);
    waiter->is_announced = waiter->was_announced = 1;
}

static void retract(kfifo_waiter *waiter) {
    if (!waiter->is_announced) return;
    __atomic_fetch_sub(&waiter->waits->state, waiter->kind, __ATOMIC_SEQ_CST);
    remove_note(waiter);
    waiter->is_announced = 0;
}

/* Sleeps until the word changes or the time is up. A signal or a wake-up without cause ends it too: the next look
   tells. */
static void sleep_on(kfifo_waiter *waiter) {
    uint32_t *word = word_of(waiter->waits, waiter->kind);
    struct timespec end = {(time_t)(waiter->deadline / 1000000000u), (long)(waiter->deadline % 1000000000u)};
    const struct timespec *until = waiter->deadline == KFIFO_FOREVER ? NULL : &end;
    /* This form of the wait takes a time of CLOCK_MONOTONIC at which it ends. */
    syscall(SYS_futex, word, FUTEX_WAIT_BITSET_PRIVATE, waiter->seen, until, NULL, FUTEX_BITSET_MATCH_ANY);
}

static void pause_between_looks(kfifo_waiter *waiter, uint64_t time) {
    if (time >= waiter->spins_until) sched_yield();
    for (uint32_t i = 0; i < waiter->pauses; i++) {
#if defined(__x86_64__) || defined(__i386__)
        __builtin_ia32_pause();
#elif defined(__aarch64__)
        __asm__ volatile("yield");
#endif
    }
    if (waiter->pauses < MOST_PAUSES) waiter->pauses *= 2;
}

/* Whether the time is up. The first wait of a call reads off when that will be, and each until when it looks, as after
   each sleep. */
static int is_late(kfifo_waiter *waiter, uint64_t *time) {
    if (waiter->nanoseconds == 0) return 1;
    *time = now();
    if (waiter->deadline == 0)
        waiter->deadline = waiter->nanoseconds < KFIFO_FOREVER - *time ? *time + waiter->nanoseconds : KFIFO_FOREVER;
    if (!waiter->has_begun) {
        waiter->has_begun = 1;
        waiter->pauses = 1;
        waiter->spins_until = *time + KFIFO_SPIN_NANOSECONDS;
    }
    return *time >= waiter->deadline;
}

/* Hands on the wake-up that a thread may have had. One that was BUSY or WORN has not seen the queue full or empty. A
   giver that is done may have left room for others, and a reserve wakes nobody else. */
static void hand_on(kfifo_waiter *waiter, kfifo_status status) {
    kfifo_waits *waits = waiter->waits;
    int was_refused = status == KFIFO_BUSY || status == KFIFO_WORN;
    if (waiter->kind == KFIFO_WAITS_TAKER) {
        if (was_refused) wake(&waits->filled, 1);
    } else if (was_refused || (status == KFIFO_DONE && (kfifo_waits_state(waits) & KFIFO_WAITS_GIVERS))) {
        wake_giver(waits);
    }
}

/* Ends a wait. */
static int leave(kfifo_waiter *waiter, kfifo_status status) {
    retract(waiter);
    if (waiter->was_announced) hand_on(waiter, status);
    waiter->has_begun = waiter->was_announced = 0;
    return 0;
}

/* After a look that came to this status: returns whether to look again. Else *status is what the call returns. */
int kfifo_wait_again(kfifo_waiter *waiter, kfifo_status *status) {
    uint64_t time = 0;
    if (!kfifo_may_retry(*status)) return leave(waiter, *status);
    if (is_late(waiter, &time)) {
        leave(waiter, *status);
        *status = KFIFO_TIMED_OUT;
        return 0;
    }
    if (*status == KFIFO_BUSY || (!waiter->is_announced && time < waiter->spins_until)) {
        pause_between_looks(waiter, time);
        return 1;
    }
    if (!waiter->is_announced) {
        announce(waiter);
        return 1; /* the second look: what came before the announcement woke nobody */
    }
    sleep_on(waiter);
    retract(waiter);
    /* It looks for a while again before it sleeps: what it was woken for often comes with the next calls. */
    waiter->has_begun = 0;
    return 1;
}
