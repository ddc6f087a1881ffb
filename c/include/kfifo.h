/* The proved k-FIFO queue, for C. docs/C.md says how to build and link it, and what a caller has to keep. */
#ifndef KFIFO_H
#define KFIFO_H

#include <stddef.h>
#include <stdint.h>
#include <stdlib.h>
#include <string.h>

#ifdef KFIFO_DEBUG
#include <stdio.h>
#endif

/* Casts of which compilers for C++ do not warn. */
#ifdef __cplusplus
#define KFIFO_CAST(type, value) static_cast<type>(value)
#define KFIFO_CAST_POINTER(type, value) reinterpret_cast<type>(value)
#else
#define KFIFO_CAST(type, value) ((type)(value))
#define KFIFO_CAST_POINTER(type, value) ((type)(value))
#endif

/* The compiler warns where the result of such a call is not looked at. GCC does so in C also where it is cast to void:
   `if (call) {}` says that it may be anything. */
#if defined(__cplusplus) && __cplusplus >= 201703L
#define KFIFO_MUST_USE [[nodiscard]]
#else
#define KFIFO_MUST_USE __attribute__((warn_unused_result))
#endif

#ifdef __cplusplus
extern "C" {
#endif

/* The version of this header and its library. The number is for comparisons: 10000 * major + 100 * minor + patch. */
#define KFIFO_VERSION "0.4.0"
#define KFIFO_VERSION_NUMBER 400

/* What a call returns. */
typedef enum kfifo_status {
    KFIFO_DONE = 0,      /* done; of a put: the item is in the queue, or was already taken; of a take: one was taken */
    KFIFO_FULL = 1,      /* there is no room, or no free cell; nothing was put or reserved */
    KFIFO_EMPTY = 3,     /* the queue was empty */
    KFIFO_BUSY = 4,      /* the call reached its retry limit, and nothing was done: see kfifo_put and kfifo_enqueue */
    KFIFO_WORN = 5,      /* the versions are used up, and were not renewed; close this queue and open another */
    KFIFO_BAD_CALL = 6,  /* a null pointer, an argument out of range, a handle closed, missing or of another kind, or
                            one that has no cell to publish, cancel or release; nothing done */
    KFIFO_NO_MEMORY = 7, /* an allocation failed, or one by which the queue was to grow; nothing was done */
    KFIFO_BAD_THREADS = 8,   /* the number of threads is not 1 to 64; nothing was done */
    KFIFO_LOST = 9,          /* of a close: an allocation failed; the queue is closed, what was left in it is lost */
    KFIFO_BAD_K = 11,        /* k is not 1 to 64 */
    KFIFO_BAD_SEGMENTS = 12, /* the number of segments is not 2 to 1,024 */
    KFIFO_BAD_LAST = 13,     /* the greatest version is not 2 to 2^40 - 1 */
    KFIFO_BAD_PROBES = 14,   /* the number of probes is not 1 to k */
    KFIFO_TIMED_OUT = 16,    /* of a call that waits: its time was up; nothing was put or taken */
    KFIFO_FINISHED = 17,     /* of a queue whose threads wait: it was finished; nothing was put, or it was empty then */
    KFIFO_BAD_RESERVE = 18,  /* the reserve is not below the greatest version */
    KFIFO_BAD_CAPACITY = 19, /* the capacity is 0, or greater than a queue for these threads has room for */
    KFIFO_BAD_LAYOUT = 20    /* of cells: the alignment is no power of two up to 4,096, or the size no multiple of it */
} kfifo_status;

/* The name of a status, as "KFIFO_EMPTY".
   Cost: a look into a table.

       kfifo_status none = kfifo_get(&handles[1], &item);
       if (none != KFIFO_DONE) puts(kfifo_status_name(none)); // KFIFO_EMPTY
*/
static inline const char *kfifo_status_name(kfifo_status status) {
    static const char *const names[] = {
        "KFIFO_DONE",
        "KFIFO_FULL",
        NULL,
        "KFIFO_EMPTY",
        "KFIFO_BUSY",
        "KFIFO_WORN",
        "KFIFO_BAD_CALL",
        "KFIFO_NO_MEMORY",
        "KFIFO_BAD_THREADS",
        "KFIFO_LOST",
        NULL,
        "KFIFO_BAD_K",
        "KFIFO_BAD_SEGMENTS",
        "KFIFO_BAD_LAST",
        "KFIFO_BAD_PROBES",
        NULL,
        "KFIFO_TIMED_OUT",
        "KFIFO_FINISHED",
        "KFIFO_BAD_RESERVE",
        "KFIFO_BAD_CAPACITY",
        "KFIFO_BAD_LAYOUT",
    };
    const char *name = KFIFO_CAST(size_t, status) < sizeof names / sizeof names[0] ? names[status] : NULL;
    return name ? name : "no status of this library";
}

/* A line of text for a status, as "the queue was empty". kfifo_bad_call_text says which cause a BAD_CALL had.
   Cost: a few comparisons.

       if (none != KFIFO_DONE) puts(kfifo_status_text(none)); // the queue was empty
*/
static inline const char *kfifo_status_text(kfifo_status status) {
    switch (status) {
    case KFIFO_DONE: return "done";
    case KFIFO_FULL: return "the queue was full";
    case KFIFO_EMPTY: return "the queue was empty";
    case KFIFO_BUSY: return "the call reached its retry limit";
    case KFIFO_WORN: return "the versions of the queue are used up: close it and open another";
    case KFIFO_BAD_CALL:
        return "a pointer is null, an argument is out of range, or a handle is closed, missing, of another kind or "
               "without such a cell";
    case KFIFO_NO_MEMORY: return "an allocation failed, and nothing was done";
    case KFIFO_BAD_THREADS: return "the number of threads is not 1 to 64";
    case KFIFO_LOST: return "an allocation failed, and what was left in the queue is lost";
    case KFIFO_BAD_K: return "k is not 1 to 64";
    case KFIFO_BAD_SEGMENTS: return "the number of segments is not 2 to 1,024";
    case KFIFO_BAD_LAST: return "the greatest version is not 2 to 2^40 - 1";
    case KFIFO_BAD_PROBES: return "the number of probes is not 1 to k";
    case KFIFO_TIMED_OUT: return "the time was up";
    case KFIFO_FINISHED: return "the queue is finished";
    case KFIFO_BAD_RESERVE: return "the reserve is not below the greatest version";
    case KFIFO_BAD_CAPACITY: return "the capacity is 0 or too great: a queue that grows takes more";
    case KFIFO_BAD_LAYOUT: return "the alignment is no power of two up to 4,096, or the size no multiple of it";
    }
    return "no status of this library";
}

/* Whether a later call may do better: true of FULL, EMPTY and BUSY. A loop that retries another status may never end.
   Cost: three comparisons.

       while (kfifo_may_retry(put = kfifo_put(&handles[0], 7))) sched_yield();
*/
KFIFO_MUST_USE static inline int kfifo_may_retry(kfifo_status status) {
    return status == KFIFO_FULL || status == KFIFO_EMPTY || status == KFIFO_BUSY;
}

/* The greatest version that a word can have, 2^40 - 1: what `last` should be. */
#define KFIFO_LAST UINT64_C(1099511627775)
/* The reserve of versions of a queue of values or cells, 2^32: with fewer left it goes on in its next generation. */
#define KFIFO_RESERVE UINT64_C(4294967296)
/* The greatest number of threads of a queue. The least is 1. */
#define KFIFO_MAX_THREADS KFIFO_CAST(size_t, 64)
/* The greatest item, 2^24 - 1. The least is 1. */
#define KFIFO_MAX_ITEM UINT32_C(16777215)

/* What a handle is of. */
#define KFIFO_ITEMS UINT32_C(1)
#define KFIFO_VALUES UINT32_C(2)
#define KFIFO_CELLS UINT32_C(3)

/* A handle of a queue of items, values or cells, one for each thread. All bytes 0 is a closed one. What it holds is the
   library's: neither read it nor write it. Hand it on by a pointer, and never use a copy. */
typedef struct kfifo_handle {
    void *inside;
    void *address;
    uint32_t starts; /* k of a queue of items, and else 0 */
    uint32_t kind;   /* KFIFO_ITEMS, KFIFO_VALUES or KFIFO_CELLS; 0: it is closed */
    uint32_t mark;   /* of KFIFO_DEBUG */
    uint32_t size;   /* of a cell, in bytes; 0 of other queues */
    uint32_t alignment;
} kfifo_handle;

/* Where a cell lies: `index` cells after the first multiple of the alignment in its block. */
typedef struct kfifo_cell_at {
    void *block;
    uint32_t index;
} kfifo_cell_at;

/* The cells that were left in a queue when it was closed, with their memory. All bytes 0 is none. */
typedef struct kfifo_left {
    void *inside;
    uint32_t holds;
    uint32_t unused; /* the library may write it: its part ends here */
    uint32_t size, alignment;
} kfifo_left;

/* The exports of the library, which test all but null pointers, and at a close that the handles are of one queue. Call
   those below. A take that is done returns KFIFO_C_GOT, where those below return KFIFO_DONE. Those of many return
   KFIFO_DONE where all their calls were done, and else what the last one came to. */
#define KFIFO_C_GOT UINT32_C(2)
uint32_t kfifo_c_open(uint32_t k, uint32_t segments, uint32_t probes, uint64_t last, kfifo_handle *handles,
                      size_t threads);
uint32_t kfifo_c_put(kfifo_handle *handle, uint32_t item);
uint32_t kfifo_c_get(kfifo_handle *handle, uint32_t *item);
uint32_t kfifo_c_put_many(kfifo_handle *handle, const uint32_t *items, size_t count, size_t *put);
uint32_t kfifo_c_get_many(kfifo_handle *handle, uint32_t *items, size_t most, size_t *got);
uint32_t kfifo_c_enqueue(kfifo_handle *handle, uint32_t item, uint32_t start, uint16_t turns);
uint32_t kfifo_c_dequeue(kfifo_handle *handle, uint32_t *item, uint32_t start, uint16_t turns);
uint32_t kfifo_c_word(kfifo_handle *handle, size_t index, uint64_t *word);
size_t kfifo_c_len(kfifo_handle *handle);
uint32_t kfifo_c_close(kfifo_handle *handles, size_t threads, uint32_t *items, size_t room, size_t *count);
void kfifo_c_abandon(kfifo_handle *handles, size_t threads);
uint32_t kfifo_c_open_values(uint32_t k, uint32_t capacity, uint64_t last, uint64_t reserve, uint32_t generations,
                             kfifo_handle *handles, size_t threads);
uint32_t kfifo_c_give(kfifo_handle *handle, uint64_t value);
uint32_t kfifo_c_take(kfifo_handle *handle, uint64_t *value);
uint32_t kfifo_c_give_many(kfifo_handle *handle, const uint64_t *values, size_t count, size_t *given);
uint32_t kfifo_c_take_many(kfifo_handle *handle, uint64_t *values, size_t most, size_t *taken);
uint32_t kfifo_c_why_no_room(kfifo_handle *handle);
size_t kfifo_c_values_len(kfifo_handle *handle);
size_t kfifo_c_values_room(kfifo_handle *handles, size_t threads);
uint32_t kfifo_c_close_values(kfifo_handle *handles, size_t threads, uint64_t *values, size_t room, size_t *count);
void kfifo_c_abandon_values(kfifo_handle *handles, size_t threads);
uint32_t kfifo_c_open_cells(uint32_t k, uint32_t capacity, uint32_t size, uint32_t alignment, uint64_t last,
                            uint64_t reserve, uint32_t generations, kfifo_handle *handles, size_t threads);
uint32_t kfifo_c_reserve(kfifo_handle *handle, kfifo_cell_at *cell);
uint32_t kfifo_c_why_no_cell(kfifo_handle *handle);
uint32_t kfifo_c_publish(kfifo_handle *handle);
uint32_t kfifo_c_reserve_next(kfifo_handle *handle, kfifo_cell_at *cell);
uint32_t kfifo_c_publish_next(kfifo_handle *handle);
uint32_t kfifo_c_cancel(kfifo_handle *handle);
uint32_t kfifo_c_receive(kfifo_handle *handle, kfifo_cell_at *cell);
uint32_t kfifo_c_release(kfifo_handle *handle);
size_t kfifo_c_cells_len(kfifo_handle *handle);
uint32_t kfifo_c_close_cells(kfifo_handle *handles, size_t threads, kfifo_left *left);
uint32_t kfifo_c_next_left(kfifo_left *left, kfifo_cell_at *cell);
void kfifo_c_free_left(kfifo_left *left);
void kfifo_c_abandon_cells(kfifo_handle *handles, size_t threads);

/* What the threads of a queue wait by. The opening makes it, and it goes with the last handle. Its fields are the
   library's: kfifo_wait.h says how it works. */
typedef struct kfifo_waits {
    char before[64];
    uint32_t state; /* how many threads wait, and whether the queue is finished: only waiting threads and kfifo_finish
                       write this line */
    char between[124];
    uint32_t filled;      /* what takers sleep on: it changes where a value may have come */
    uint32_t emptied;     /* what givers sleep on: it changes where room may have come */
    uint32_t wakes_noted; /* how often a giver was to be woken since one looked */
    char after[116];
} kfifo_waits;

/* The same, with how many handles of the queue are open, and how many callers are left: in C the open handles, and in
   C++ those that somebody has and the queue object, which hands out others. And what kfifo_capacity returns. */
typedef struct kfifo_shared {
    kfifo_waits waits;
    uint32_t handles, callers;
    uint32_t capacity;
} kfifo_shared;

/* The parts of `state`. */
#define KFIFO_WAITS_FINISHED UINT32_C(1)
#define KFIFO_WAITS_TAKER UINT32_C(2) /* one of up to 2^15 - 1 takers */
#define KFIFO_WAITS_TAKERS UINT32_C(0xfffe)
#define KFIFO_WAITS_GIVER UINT32_C(0x10000) /* one of up to 2^16 - 1 givers */
#define KFIFO_WAITS_GIVERS UINT32_C(0xffff0000)

/* The exports that wake threads. */
kfifo_status kfifo_wait_given(kfifo_waits *waits, kfifo_status status);
kfifo_status kfifo_wait_taken(kfifo_waits *waits, kfifo_status status);
void kfifo_wait_finished(kfifo_waits *waits);

static inline uint32_t kfifo_waits_state(kfifo_waits *waits) {
    return __atomic_load_n(&waits->state, __ATOMIC_SEQ_CST);
}

/* Whether the queue was finished. */
static inline int kfifo_is_finished(kfifo_waits *waits) {
    return (kfifo_waits_state(waits) & KFIFO_WAITS_FINISHED) != 0;
}

/* Whether the caller is the only one that is left, so that nobody will give to it or take from it. */
static inline int kfifo_is_alone(kfifo_waits *waits) {
    return __atomic_load_n(&KFIFO_CAST_POINTER(kfifo_shared *, waits)->callers, __ATOMIC_SEQ_CST) == 1;
}

/* Sets the number of callers of a queue that was just opened. */
static inline void kfifo_callers_are(kfifo_waits *waits, uint32_t number) {
    __atomic_store_n(&KFIFO_CAST_POINTER(kfifo_shared *, waits)->callers, number, __ATOMIC_SEQ_CST);
}

/* One caller more, and one fewer: where one is left, it ends its wait. Its look at the number of callers comes after it
   has announced itself, and this one's look for threads that wait after the number: so one of the two sees the other.
 */
static inline void kfifo_caller_comes(kfifo_waits *waits) {
    __atomic_add_fetch(&KFIFO_CAST_POINTER(kfifo_shared *, waits)->callers, 1, __ATOMIC_SEQ_CST);
}

static inline void kfifo_caller_goes(kfifo_waits *waits) {
    uint32_t left = __atomic_sub_fetch(&KFIFO_CAST_POINTER(kfifo_shared *, waits)->callers, 1, __ATOMIC_SEQ_CST);
    if (left == 1 && kfifo_waits_state(waits) > KFIFO_WAITS_FINISHED) kfifo_wait_finished(waits);
}

/* What the threads of a handle's queue wait by: NULL of a closed handle. The library writes an address there that it
   never reads, the same for all handles of a queue, and the opening writes this one over it. */
#define KFIFO_WAITS(handle) KFIFO_CAST(kfifo_waits *, (handle)->address)

/* After a give or a put. It is handed the status and returns it, so that no register has to keep it meanwhile. The look
   comes after the call, and a waiting thread's second look after it has announced itself: so one of the two sees the
   other. */
static inline kfifo_status kfifo_after_give(kfifo_waits *waits, kfifo_status status) {
    return __builtin_expect(kfifo_waits_state(waits) > KFIFO_WAITS_FINISHED, 0) ? kfifo_wait_given(waits, status)
                                                                                : status;
}

/* After a take or a get. */
static inline kfifo_status kfifo_after_take(kfifo_waits *waits, kfifo_status status) {
    return __builtin_expect(kfifo_waits_state(waits) >= KFIFO_WAITS_GIVER, 0) ? kfifo_wait_taken(waits, status)
                                                                              : status;
}

/* ThreadSanitizer does not see into the library. So the calls below tell it what the queue ensures: what a thread wrote
   before it put an item is seen by whoever takes that item, and what it did with a cell before it released it comes
   before what the next one to reserve that cell does. The second is told at another address, so that the one does not
   hide that the other is missing. `address` is the same in all generations of a queue. One thread may free a generation
   that another one made, so what the library itself asks for and frees is left out. Without the sanitizer these are
   nothing. */
#if defined(__SANITIZE_THREAD__)
#define KFIFO_TSAN 1
#elif defined(__has_feature)
#if __has_feature(thread_sanitizer)
#define KFIFO_TSAN 1
#endif
#endif
#ifdef KFIFO_TSAN
void __tsan_acquire(void *address);
void __tsan_release(void *address);
void AnnotateIgnoreWritesBegin(const char *file, int line);
void AnnotateIgnoreWritesEnd(const char *file, int line);
#define KFIFO_ENTER() AnnotateIgnoreWritesBegin(__FILE__, __LINE__)
#define KFIFO_LEAVE() AnnotateIgnoreWritesEnd(__FILE__, __LINE__)
#define KFIFO_BEFORE_PUT(handle) __tsan_release((handle)->address)
#define KFIFO_AFTER_TAKE(handle, status)                                                                               \
    ((status) == KFIFO_DONE ? __tsan_acquire((handle)->address) : KFIFO_CAST(void, 0))
#define KFIFO_RELEASED(handle) KFIFO_CAST(void *, KFIFO_CAST(char *, (handle)->address) + 8)
#define KFIFO_BEFORE_RELEASE(handle) __tsan_release(KFIFO_RELEASED(handle))
#define KFIFO_AFTER_RESERVE(handle, status)                                                                            \
    ((status) == KFIFO_DONE ? __tsan_acquire(KFIFO_RELEASED(handle)) : KFIFO_CAST(void, 0))
#else
#define KFIFO_ENTER() KFIFO_CAST(void, 0)
#define KFIFO_LEAVE() KFIFO_CAST(void, 0)
#define KFIFO_BEFORE_PUT(handle) KFIFO_CAST(void, 0)
#define KFIFO_AFTER_TAKE(handle, status) KFIFO_CAST(void, 0)
#define KFIFO_BEFORE_RELEASE(handle) KFIFO_CAST(void, 0)
#define KFIFO_AFTER_RESERVE(handle, status) KFIFO_CAST(void, 0)
#endif

/* The status of a take that returned this. */
static inline kfifo_status kfifo_taken(uint32_t returned) {
    return returned == KFIFO_C_GOT ? KFIFO_DONE : KFIFO_CAST(kfifo_status, returned);
}

/* With KFIFO_DEBUG each call marks its handle. A second call by a handle while one runs, or a call by a copy of a
   handle, prints the name of the call and what is wrong, and aborts. Threads that share a handle, or use a copy, break
   the queue: without KFIFO_DEBUG nothing says so. kfifo.hpp defines it where the compiler does not optimise, unless
   NDEBUG is defined.

   A mark has bits of the place in memory where its handle was opened, and two bits for the calls that run by it: one
   of this header, and one of kfifo.hpp, which makes several of this header. */
#define KFIFO_MARK_CALL UINT32_C(1)
#define KFIFO_MARK_WRAPPER UINT32_C(2)
#define KFIFO_MARK_CALLS (KFIFO_MARK_CALL | KFIFO_MARK_WRAPPER)

static inline uint32_t kfifo_mark_of(const kfifo_handle *handle) {
    return KFIFO_CAST(uint32_t, KFIFO_CAST_POINTER(uintptr_t, handle) >> 1) & ~KFIFO_MARK_CALLS;
}

/* What the threads of a queue that is to be opened will wait by: NULL where there is no memory for it. */
static inline kfifo_shared *kfifo_shared_new(size_t threads, uint32_t capacity) {
    kfifo_shared *shared = KFIFO_CAST(kfifo_shared *, malloc(sizeof *shared));
    if (!shared) return NULL;
    shared->waits.state = shared->waits.filled = shared->waits.emptied = shared->waits.wakes_noted = 0;
    shared->handles = shared->callers = KFIFO_CAST(uint32_t, threads);
    shared->capacity = capacity;
    return shared;
}

/* One handle of a queue is closed. */
static inline void kfifo_shared_leave(void *address) {
    kfifo_shared *shared = KFIFO_CAST(kfifo_shared *, address);
    kfifo_caller_goes(&shared->waits);
    if (__atomic_sub_fetch(&shared->handles, 1, __ATOMIC_ACQ_REL) == 0) free(shared);
}

/* Opens handles by a call of the library, with what their threads wait by. */
#define KFIFO_OPEN(handles, threads, capacity, call)                                                                   \
    kfifo_shared *shared = kfifo_shared_new((threads), (capacity));                                                    \
    kfifo_status status = shared ? KFIFO_CAST(kfifo_status, call) : KFIFO_NO_MEMORY;                                   \
    if (status != KFIFO_DONE) free(shared);                                                                            \
    for (size_t i = 0; status == KFIFO_DONE && i < (threads); i++) {                                                   \
        (handles)[i].address = shared;                                                                                 \
        (handles)[i].mark = kfifo_mark_of(&(handles)[i]);                                                              \
    }                                                                                                                  \
    return status

/* What the threads of these handles wait by, before a call that may close them: the library empties a handle that it
   closes. */
#define KFIFO_BEFORE_CLOSE(handles, threads)                                                                           \
    void *addresses[64];                                                                                               \
    for (size_t i = 0; i < (threads); i++) addresses[i] = (handles)[i].kind ? (handles)[i].address : NULL

/* Those that were closed leave it. */
#define KFIFO_AFTER_CLOSE(handles, threads)                                                                            \
    for (size_t i = 0; i < (threads); i++)                                                                             \
        if (addresses[i] && !(handles)[i].kind) kfifo_shared_leave(addresses[i])

#ifdef KFIFO_DEBUG
static inline void kfifo_begin(kfifo_handle *handle, uint32_t bit, const char *call) {
    if (handle->kind == 0) return; /* it is closed, which the library refuses */
    uint32_t was = __atomic_fetch_or(&handle->mark, bit, __ATOMIC_RELAXED);
    int is_copy = (was & ~KFIFO_MARK_CALLS) != kfifo_mark_of(handle);
    if (!is_copy && !(was & bit)) return;
    fprintf(stderr, "%s: the handle at %p %s\n", call, KFIFO_CAST(const void *, handle),
            is_copy ? "is a copy of one that was opened at another place: use that one, by a pointer to it"
                    : "is in another call: one call at a time uses a handle");
    abort();
}
static inline void kfifo_end(kfifo_handle *handle, uint32_t bit) {
    __atomic_fetch_and(&handle->mark, ~bit, __ATOMIC_RELAXED);
}
#define KFIFO_BEGIN(handle, call) kfifo_begin((handle), KFIFO_MARK_CALL, (call))
#define KFIFO_END(handle) kfifo_end((handle), KFIFO_MARK_CALL)
#define KFIFO_BEGIN_ALL(handles, threads)                                                                              \
    for (size_t i = 0; i < (threads); i++) KFIFO_BEGIN(&(handles)[i], __func__)
#define KFIFO_END_ALL(handles, threads)                                                                                \
    for (size_t i = 0; i < (threads); i++) KFIFO_END(&(handles)[i])
#else
#define KFIFO_BEGIN(handle, call) KFIFO_CAST(void, 0)
#define KFIFO_END(handle) KFIFO_CAST(void, 0)
#define KFIFO_BEGIN_ALL(handles, threads) KFIFO_CAST(void, 0)
#define KFIFO_END_ALL(handles, threads) KFIFO_CAST(void, 0)
#endif

/* Pauses after BUSY, mostly the longer the more often it came. How long differs from handle to handle, by where it
   lies: threads that made their calls in step could keep each other busy. */
static inline void kfifo_pause(const void *handle, uint32_t times) {
    uint64_t mixed = (KFIFO_CAST_POINTER(uintptr_t, handle) / 8 + times) * UINT64_C(0x9e3779b97f4a7c15);
    uint32_t most = UINT32_C(16) << (times < 6 ? times : 6);
    for (uint32_t left = 1 + (KFIFO_CAST(uint32_t, mixed >> 32) & (most - 1)); left; left--) {
#if defined(__x86_64__) || defined(__i386__)
        __builtin_ia32_pause();
#elif defined(__aarch64__)
        __asm__ volatile("yield");
#endif
    }
}

/* Returns what a bounded call comes to that is made again where it comes to BUSY. */
#define KFIFO_UNLESS_BUSY(handle, call)                                                                                \
    kfifo_status status = (call);                                                                                      \
    for (uint32_t times = 0; __builtin_expect(status == KFIFO_BUSY, 0); times++) {                                     \
        kfifo_pause((handle), times);                                                                                  \
        status = (call);                                                                                               \
    }                                                                                                                  \
    return status

/* Returns what a give comes to: `finished` if the queue was finished before. Else it wakes a thread that waits. One
   that is done is told apart first: a caller that tests for BUSY then need not do so. */
#define KFIFO_LOOKING_GIVE(handle, finished, call)                                                                     \
    kfifo_waits *waits = KFIFO_WAITS(handle);                                                                          \
    if (__builtin_expect(kfifo_is_finished(waits), 0)) return (finished);                                              \
    kfifo_status status = (call);                                                                                      \
    if (__builtin_expect(status == KFIFO_DONE, 1)) return kfifo_after_give(waits, KFIFO_DONE);                         \
    return kfifo_after_give(waits, status)

/* Returns what a take comes to, and wakes a thread that waits for room: FINISHED for EMPTY if the queue was finished,
   and then found empty. A value may have come between the look and the end. */
#define KFIFO_LOOKING_TAKE(handle, call)                                                                               \
    kfifo_waits *waits = KFIFO_WAITS(handle);                                                                          \
    kfifo_status status = kfifo_after_take(waits, (call));                                                             \
    if (__builtin_expect(status != KFIFO_EMPTY, 1) || !kfifo_is_finished(waits)) return status;                        \
    status = kfifo_after_take(waits, (call));                                                                          \
    return status == KFIFO_EMPTY ? KFIFO_FINISHED : status

static inline kfifo_status kfifo_finish_by(kfifo_waits *waits) {
    __atomic_fetch_or(&waits->state, KFIFO_WAITS_FINISHED, __ATOMIC_SEQ_CST);
    kfifo_wait_finished(waits);
    return KFIFO_DONE;
}

/* Whether this is an open handle of a queue of that kind. */
#define KFIFO_IS_OF(handle, of) ((handle) && (handle)->kind == (of))

/* Whether one of these handles stands there twice, of which one is a copy: it would be freed twice. There are 64 at
   most. */
static inline int kfifo_has_copy(const kfifo_handle *handles, size_t threads) {
    for (size_t i = 1; i < threads; i++)
        for (size_t j = 0; j < i; j++)
            if (handles[i].kind && handles[j].kind && handles[i].inside == handles[j].inside) return 1;
    return 0;
}

/* Whether these handles are of one queue, and each but once. `address` is that of the queue, which stays as long as a
   handle of it is open. */
static inline int kfifo_are_of_one_queue(const kfifo_handle *handles, size_t threads) {
    for (size_t i = 1; i < threads; i++)
        if (handles[i].address != handles[0].address) return 0;
    return !kfifo_has_copy(handles, threads);
}

/* A number of threads for the library, which refuses 65 as it does any more, and reads no handle then. */
static inline size_t kfifo_at_most_one_over(size_t threads) {
    return threads <= KFIFO_MAX_THREADS ? threads : KFIFO_MAX_THREADS + 1;
}

/* Closes the handles of an array that is to be opened. More than 64 are refused, so nothing beyond them is touched: a
   number that is wrong says nothing about the array. */
static inline void kfifo_zero(kfifo_handle *handles, size_t threads) {
    memset(handles, 0, sizeof *handles * (threads < KFIFO_MAX_THREADS ? threads : KFIFO_MAX_THREADS));
}

/* ---- Any queue ---- */

/* Says that no more will come, and wakes all that wait: DONE, or BAD_CALL of a null pointer or a closed handle. Any
   thread may call it by any open handle, also while that one is in a call, and again. A put, a give, a reserve or a
   publish that begins after it returns FINISHED; a get, a take or a receive does so once the queue is empty. One that
   it meets halfway may still put something in, so call it when the producers have ended, or close the queue to have
   what is left.
   Cost: an atomic step and two calls of the system.

       if (kfifo_finish(&handles[0]) != KFIFO_DONE) abort();
*/
KFIFO_MUST_USE static inline kfifo_status kfifo_finish(kfifo_handle *handle) {
    if (!handle || !KFIFO_WAITS(handle)) return KFIFO_BAD_CALL;
    return kfifo_finish_by(KFIFO_WAITS(handle));
}

/* About how many items, values or cells are in the queue: what lies in the segments at its two ends, and k for each
   segment between them. Calls that run meanwhile are counted or not. Returns 0 of a null pointer or a closed handle.
   Cost: 2k + 1 loads at most, for each generation, of which there is mostly one.

       size_t backlog = kfifo_len(&handles[0]);
*/
KFIFO_MUST_USE static inline size_t kfifo_len(kfifo_handle *handle) {
    if (!handle) return 0;
    KFIFO_BEGIN(handle, __func__);
    KFIFO_ENTER();
    size_t len = 0;
    switch (handle->kind) {
    case KFIFO_ITEMS: len = kfifo_c_len(handle); break;
    case KFIFO_VALUES: len = kfifo_c_values_len(handle); break;
    case KFIFO_CELLS: len = kfifo_c_cells_len(handle); break;
    default: break;
    }
    KFIFO_LEAVE();
    KFIFO_END(handle);
    return len;
}

/* Whether kfifo_len is 0, also of a null pointer or a closed handle.
   Cost: as kfifo_len.

       if (kfifo_is_empty(&handles[1])) puts("nothing is there");
*/
KFIFO_MUST_USE static inline int kfifo_is_empty(kfifo_handle *handle) { return kfifo_len(handle) == 0; }

/* How many items, values or cells the queue has room for at least, as it was opened: of values and cells its capacity,
   of items (segments - 1) * probes + 1. A queue that grows has room for that many in each generation. Returns 0 of a
   null pointer or a closed handle. Any thread may call it, also while the handle is in a call.
   Cost: a read.

       uint32_t capacity = kfifo_capacity(&handles[0]);
*/
KFIFO_MUST_USE static inline uint32_t kfifo_capacity(const kfifo_handle *handle) {
    return handle && handle->address ? KFIFO_CAST(const kfifo_shared *, handle->address)->capacity : 0;
}

/* Closes these handles, at most 64: DONE; BAD_CALL of a null pointer or of a handle that is there twice, or
   BAD_THREADS, and nothing was done. With the last open handle of a queue the queue goes, with the memory of its cells,
   and what is left in it. Values that are pointers are not freed.
   Cost: little, and the last one frees the memory of the queue.

       return kfifo_abandon(handles, 2) != KFIFO_DONE;
*/
KFIFO_MUST_USE static inline kfifo_status kfifo_abandon(kfifo_handle *handles, size_t threads) {
    if (!handles) return KFIFO_BAD_CALL;
    if (threads > KFIFO_MAX_THREADS) return KFIFO_BAD_THREADS;
    KFIFO_BEGIN_ALL(handles, threads);
    KFIFO_BEFORE_CLOSE(handles, threads);
    KFIFO_ENTER();
    kfifo_status status = KFIFO_BAD_CALL;
    if (!kfifo_has_copy(handles, threads)) {
        /* Each leaves those of the other kinds as they are. */
        kfifo_c_abandon(handles, threads);
        kfifo_c_abandon_values(handles, threads);
        kfifo_c_abandon_cells(handles, threads);
        status = KFIFO_DONE;
    }
    KFIFO_LEAVE();
    KFIFO_END_ALL(handles, threads);
    KFIFO_AFTER_CLOSE(handles, threads);
    return status;
}

/* ---- A queue of items, which are numbers from 1 to KFIFO_MAX_ITEM ----

   A put or a get takes a few atomic steps, and none of them waits or asks for memory: docs/PERFORMANCE.md says how long
   they take. An opening asks for all memory, and a close and an abandon give it back. */

/* Opens a queue of `segments` segments of k slots, and writes a handle for each thread into the array `handles`, whose
   old contents are lost. DONE; BAD_CALL of a null pointer; BAD_K, BAD_SEGMENTS, BAD_LAST, BAD_PROBES, BAD_THREADS,
   NO_MEMORY, and all handles are then closed, at most the first 64.
   Cost: it asks for all memory of the queue, and writes to each word.

       kfifo_handle handles[2];
       if (kfifo_open(1, 4, 1, KFIFO_LAST, handles, 2) != KFIFO_DONE) return 1;
*/
KFIFO_MUST_USE static inline kfifo_status kfifo_open(uint32_t k, uint32_t segments, uint32_t probes, uint64_t last,
                                                     kfifo_handle *handles, size_t threads) {
    if (!handles) return KFIFO_BAD_CALL;
    kfifo_zero(handles, threads);
    /* Where sizes are out of range the opening refuses them. */
    KFIFO_OPEN(handles, threads, (segments - 1) * probes + 1,
               kfifo_c_open(k, segments, probes, last, handles, kfifo_at_most_one_over(threads)));
}

/* Why a put, get, enqueue or dequeue with these arguments returns BAD_CALL: the first cause that holds, or NULL where
   none does. For a call without an item hand over item 1, for one without a start and turns 0 and 1.
   Cost: a few comparisons.

       if (kfifo_put(&handles[0], 0) == KFIFO_BAD_CALL) puts(kfifo_bad_call_text(&handles[0], 0, 0, 1));
*/
static inline const char *kfifo_bad_call_text(const kfifo_handle *handle, uint32_t item, uint32_t start,
                                              uint16_t turns) {
    if (!handle) return "the pointer to the handle is null";
    if (handle->kind == 0) return "the handle is closed";
    if (handle->kind != KFIFO_ITEMS) return "the handle is of a queue of another kind";
    if (item < 1 || item > KFIFO_MAX_ITEM) return "the item is not 1 to 16,777,215";
    if (start >= handle->starts) return "the start is not below k";
    if (turns == 0) return "turns is not 1 to 65,535";
    return NULL;
}

static inline kfifo_status kfifo_bare_put(kfifo_handle *handle, uint32_t item) {
    KFIFO_BEGIN(handle, "kfifo_put");
    KFIFO_BEFORE_PUT(handle);
    kfifo_status status = KFIFO_CAST(kfifo_status, kfifo_c_put(handle, item));
    KFIFO_END(handle);
    return status;
}

static inline kfifo_status kfifo_bare_enqueue(kfifo_handle *handle, uint32_t item, uint32_t start, uint16_t turns) {
    KFIFO_BEGIN(handle, "kfifo_enqueue");
    KFIFO_BEFORE_PUT(handle);
    kfifo_status status = KFIFO_CAST(kfifo_status, kfifo_c_enqueue(handle, item, start, turns));
    KFIFO_END(handle);
    return status;
}

static inline kfifo_status kfifo_bare_get(kfifo_handle *handle, uint32_t *item) {
    KFIFO_BEGIN(handle, "kfifo_get");
    kfifo_status status = kfifo_taken(kfifo_c_get(handle, item));
    KFIFO_AFTER_TAKE(handle, status);
    KFIFO_END(handle);
    return status;
}

static inline kfifo_status kfifo_bare_dequeue(kfifo_handle *handle, uint32_t *item, uint32_t start, uint16_t turns) {
    KFIFO_BEGIN(handle, "kfifo_dequeue");
    kfifo_status status = kfifo_taken(kfifo_c_dequeue(handle, item, start, turns));
    KFIFO_AFTER_TAKE(handle, status);
    KFIFO_END(handle);
    return status;
}

/* As kfifo_put, but bounded: at most 65,535 rounds, after which it returns BUSY. That comes only where another thread
   changed the queue in the meantime.
   Cost: as kfifo_put.

       if (kfifo_put_once(&handles[0], 8) == KFIFO_BUSY) puts("the item is not put, and a later call may do better");
*/
KFIFO_MUST_USE static inline kfifo_status kfifo_put_once(kfifo_handle *handle, uint32_t item) {
    if (!KFIFO_IS_OF(handle, KFIFO_ITEMS)) return KFIFO_BAD_CALL;
    KFIFO_LOOKING_GIVE(handle, kfifo_bad_call_text(handle, item, 0, 1) ? KFIFO_BAD_CALL : KFIFO_FINISHED,
                       kfifo_bare_put(handle, item));
}

/* Puts an item, 1 to KFIFO_MAX_ITEM, and wakes a thread that waits for it: DONE; else FULL, FINISHED, WORN or BAD_CALL,
   and the item is not in the queue. It does not wait.
   Cost: some 100 instructions, of which a few are atomic steps. It asks for no memory, and calls the system only to
   wake a thread.

       kfifo_status put = kfifo_put(&handles[0], 7);
*/
KFIFO_MUST_USE static inline kfifo_status kfifo_put(kfifo_handle *handle, uint32_t item) {
    KFIFO_UNLESS_BUSY(handle, kfifo_put_once(handle, item));
}

/* As kfifo_get, but bounded, as kfifo_put_once is: also BUSY.
   Cost: as kfifo_get.

       if (kfifo_get_once(&handles[1], &item) == KFIFO_BUSY) puts("no item is got, and a later call may do better");
*/
KFIFO_MUST_USE static inline kfifo_status kfifo_get_once(kfifo_handle *handle, uint32_t *item) {
    if (!item || !KFIFO_IS_OF(handle, KFIFO_ITEMS)) return KFIFO_BAD_CALL;
    KFIFO_LOOKING_TAKE(handle, kfifo_bare_get(handle, item));
}

/* Takes one of the k oldest items, and wakes a thread that waits for room: DONE, and writes it; else EMPTY, FINISHED,
   WORN or BAD_CALL, and *item stays. It does not wait.
   Cost: as kfifo_put. A get that returns EMPTY has looked at all k slots of a segment.

       kfifo_status took = kfifo_get(&handles[1], &item);
*/
KFIFO_MUST_USE static inline kfifo_status kfifo_get(kfifo_handle *handle, uint32_t *item) {
    KFIFO_UNLESS_BUSY(handle, kfifo_get_once(handle, item));
}

/* As kfifo_put_once, with a start and turns of your own: the scan begins at slot `start`, below k, and the call makes
   at most `turns` rounds, at least 1. With fewer than segments + 2 a thread may get BUSY even if no other thread
   is active.
   Cost: as kfifo_put.

       kfifo_status enqueued = kfifo_enqueue(&handles[0], 9, 0, 100);
*/
KFIFO_MUST_USE static inline kfifo_status kfifo_enqueue(kfifo_handle *handle, uint32_t item, uint32_t start,
                                                        uint16_t turns) {
    if (!KFIFO_IS_OF(handle, KFIFO_ITEMS)) return KFIFO_BAD_CALL;
    KFIFO_LOOKING_GIVE(handle, kfifo_bad_call_text(handle, item, start, turns) ? KFIFO_BAD_CALL : KFIFO_FINISHED,
                       kfifo_bare_enqueue(handle, item, start, turns));
}

/* As kfifo_get_once, with a start and turns of your own.
   Cost: as kfifo_get.

       kfifo_status dequeued = kfifo_dequeue(&handles[1], &item, 0, 100);
*/
KFIFO_MUST_USE static inline kfifo_status kfifo_dequeue(kfifo_handle *handle, uint32_t *item, uint32_t start,
                                                        uint16_t turns) {
    if (!item || !KFIFO_IS_OF(handle, KFIFO_ITEMS)) return KFIFO_BAD_CALL;
    KFIFO_LOOKING_TAKE(handle, kfifo_bare_dequeue(handle, item, start, turns));
}

/* Reads a word of the queue: 0 is the ends word, then come the slots, segment by segment, and last the clock. DONE, and
   writes it; else BAD_CALL, and *word stays.
   Cost: one atomic load.

       uint64_t ends = 0;
       if (kfifo_word(&handles[0], 0, &ends) != KFIFO_DONE) return 1;
*/
KFIFO_MUST_USE static inline kfifo_status kfifo_word(kfifo_handle *handle, size_t index, uint64_t *word) {
    if (!word || !KFIFO_IS_OF(handle, KFIFO_ITEMS)) return KFIFO_BAD_CALL;
    KFIFO_BEGIN(handle, __func__);
    kfifo_status status = KFIFO_CAST(kfifo_status, kfifo_c_word(handle, index, word));
    KFIFO_END(handle);
    return status;
}

/* Closes a queue by all its handles, and writes the items that are left, and how many: DONE. There has to be room for
   an item of each slot, k * segments. BAD_CALL, also where they are of several queues or one is missing or there twice,
   BAD_THREADS of more than 64, or NO_MEMORY: nothing was done. LOST: an allocation failed; the queue is closed, and the
   items are lost. To be sure of them, take them all before.
   Cost: a look at each slot, and it asks for memory.

       uint32_t left[1 * 4];
       size_t count = 0;
       if (kfifo_close(handles, 2, left, 1 * 4, &count) != KFIFO_DONE) return 1;
*/
KFIFO_MUST_USE static inline kfifo_status kfifo_close(kfifo_handle *handles, size_t threads, uint32_t *items,
                                                      size_t room, size_t *count) {
    if (!handles || !items || !count) return KFIFO_BAD_CALL;
    if (threads > KFIFO_MAX_THREADS) return KFIFO_BAD_THREADS;
    KFIFO_BEGIN_ALL(handles, threads);
    KFIFO_BEFORE_CLOSE(handles, threads);
    kfifo_status status = KFIFO_BAD_CALL;
    if (kfifo_are_of_one_queue(handles, threads))
        status = KFIFO_CAST(kfifo_status, kfifo_c_close(handles, threads, items, room, count));
    KFIFO_END_ALL(handles, threads);
    KFIFO_AFTER_CLOSE(handles, threads);
    return status;
}

/* ---- A queue of values, which are 64-bit numbers or pointers ----

   A give or a take takes a few atomic steps more than a put or a get, for its token. None of them waits.

   A queue is opened by its `capacity`: it has room for that many values, beside what the handles keep for themselves
   between their calls, up to 32 tokens each. FULL says that as many are in the queue, or in the hands of calls.

   A queue does not wear out: before the versions of its words are used up, it goes on in a new *generation*, a queue of
   the same sizes. docs/C.md says what that costs, and how far values may then overtake others. A give that opens a
   generation asks for memory, and another call only if nine old generations, not counting growth, are in use. If there
   is none, later gives ask again. When the reserve is used up too, calls return WORN: close the queue then to
   have what is left, and open another. */

/* Opens a queue of values with versions up to `last`, 2 to KFIFO_LAST, and a `reserve`, KFIFO_RESERVE unless you test
   something: with fewer versions left, the queue goes on in its next generation. A reserve has to last until the old
   generation is empty: half of a small `last` will do. With reserve 0 a queue that does not grow wears out as a queue
   of items does.

   The queue may grow to `generations` at a time, 1 to 129 - 2 * threads: a give that finds no room opens the next one,
   as long as there are fewer. So there is room for generations * capacity values. A generation is freed once it is
   empty and each handle that was in it has made another call. If there is no memory for one, a give returns NO_MEMORY,
   and a later one tries again. With reserve 0 a queue that grows also opens one where a give finds no version left, but
   takes then return WORN for ever if values are left in the old one: a close gives them back.

   DONE; BAD_CALL of a null pointer, or of generations out of range; BAD_THREADS, BAD_K, BAD_LAST, BAD_CAPACITY,
   BAD_RESERVE of one that is not below `last`, NO_MEMORY, and all handles are then closed, at most the first 64.
   Cost: it asks for the memory of the queue and of its tokens, and writes to each word. A give that opens a generation
   asks for as much again.

       kfifo_handle growing[2];
       if (kfifo_open_values_with(1, 512, KFIFO_LAST, KFIFO_RESERVE, 100, growing, 2) != KFIFO_DONE)
           return 1; // up to 51,200 values
*/
KFIFO_MUST_USE static inline kfifo_status kfifo_open_values_with(uint32_t k, uint32_t capacity, uint64_t last,
                                                                 uint64_t reserve, uint32_t generations,
                                                                 kfifo_handle *handles, size_t threads) {
    if (!handles) return KFIFO_BAD_CALL;
    kfifo_zero(handles, threads);
    KFIFO_OPEN(handles, threads, capacity,
               kfifo_c_open_values(k, capacity, last, reserve, generations, handles, kfifo_at_most_one_over(threads)));
}

/* Opens a queue of values that does not wear out, with room for `capacity` values, 1 to
   threads * (1022 * k / threads - 32), divided downwards: with k = 1 a queue has at most 30 threads. Returns what
   kfifo_open_values_with does.
   Cost: as kfifo_open_values_with.

       kfifo_handle handles[2];
       if (kfifo_open_values(1, 64, handles, 2) != KFIFO_DONE) return 1;
*/
KFIFO_MUST_USE static inline kfifo_status kfifo_open_values(uint32_t k, uint32_t capacity, kfifo_handle *handles,
                                                            size_t threads) {
    return kfifo_open_values_with(k, capacity, KFIFO_LAST, KFIFO_RESERVE, 1, handles, threads);
}

static inline kfifo_status kfifo_bare_give(kfifo_handle *handle, uint64_t value) {
    KFIFO_BEGIN(handle, "kfifo_give");
    KFIFO_BEFORE_PUT(handle);
    KFIFO_ENTER();
    kfifo_status status = KFIFO_CAST(kfifo_status, kfifo_c_give(handle, value));
    if (__builtin_expect(status == KFIFO_FULL, 0)) status = KFIFO_CAST(kfifo_status, kfifo_c_why_no_room(handle));
    KFIFO_LEAVE();
    KFIFO_END(handle);
    return status;
}

static inline kfifo_status kfifo_bare_take(kfifo_handle *handle, uint64_t *value) {
    KFIFO_BEGIN(handle, "kfifo_take");
    KFIFO_ENTER();
    kfifo_status status = kfifo_taken(kfifo_c_take(handle, value));
    KFIFO_LEAVE();
    KFIFO_AFTER_TAKE(handle, status);
    KFIFO_END(handle);
    return status;
}

/* As kfifo_give, but bounded: at most 65,535 rounds in a generation, after which it returns BUSY. That comes only where
   another thread changed the queue in the meantime.
   Cost: as kfifo_give.

       if (kfifo_give_once(&handles[0], 8) == KFIFO_BUSY) puts("the value is not given, and a later one may be");
*/
KFIFO_MUST_USE static inline kfifo_status kfifo_give_once(kfifo_handle *handle, uint64_t value) {
    if (!KFIFO_IS_OF(handle, KFIFO_VALUES)) return KFIFO_BAD_CALL;
    KFIFO_LOOKING_GIVE(handle, KFIFO_FINISHED, kfifo_bare_give(handle, value));
}

/* Gives any value to the queue, and wakes a thread that waits for it: DONE; else FULL, NO_MEMORY of a queue that was to
   grow, FINISHED, WORN or BAD_CALL, and the value stays the caller's. It does not wait. If there is no memory for the
   next generation until the reserve is used up, takes return WORN. They may then no longer reach a value whose give
   returned DONE: a close gives it back.
   Cost: some 30 instructions more than a kfifo_put. It asks for memory only where it opens a generation.

       if (kfifo_give(&handles[0], 7) != KFIFO_DONE) return 1;
*/
KFIFO_MUST_USE static inline kfifo_status kfifo_give(kfifo_handle *handle, uint64_t value) {
    KFIFO_UNLESS_BUSY(handle, kfifo_give_once(handle, value));
}

/* As kfifo_take, but bounded, as kfifo_give_once is: also BUSY.
   Cost: as kfifo_take.

       if (kfifo_take_once(&handles[1], &value) == KFIFO_BUSY) puts("no value is taken, and a later call may get one");
*/
KFIFO_MUST_USE static inline kfifo_status kfifo_take_once(kfifo_handle *handle, uint64_t *value) {
    if (!value || !KFIFO_IS_OF(handle, KFIFO_VALUES)) return KFIFO_BAD_CALL;
    KFIFO_LOOKING_TAKE(handle, kfifo_bare_take(handle, value));
}

/* Takes one of the k oldest values, and wakes a thread that waits for room: DONE, and writes it; else EMPTY, FINISHED,
   WORN or BAD_CALL, and *value stays. It does not wait.
   Cost: some 30 instructions more than a kfifo_get, and a look into each older generation.

       while (kfifo_take(&handles[1], &value) == KFIFO_DONE) sum += value;
*/
KFIFO_MUST_USE static inline kfifo_status kfifo_take(kfifo_handle *handle, uint64_t *value) {
    KFIFO_UNLESS_BUSY(handle, kfifo_take_once(handle, value));
}

/* kfifo_give and kfifo_take with a pointer for a value.
   Cost: as theirs.

       if (kfifo_give_pointer(&handles[0], order) != KFIFO_DONE) free(order); // it is still ours
       void *taken = NULL;
       if (kfifo_take_pointer(&handles[1], &taken) == KFIFO_DONE) free(taken);
*/
KFIFO_MUST_USE static inline kfifo_status kfifo_give_pointer(kfifo_handle *handle, void *pointer) {
    return kfifo_give(handle, KFIFO_CAST_POINTER(uintptr_t, pointer));
}

KFIFO_MUST_USE static inline kfifo_status kfifo_take_pointer(kfifo_handle *handle, void **pointer) {
    uint64_t value;
    if (!pointer) return KFIFO_BAD_CALL;
    kfifo_status status = kfifo_take(handle, &value);
    if (status == KFIFO_DONE) *pointer = KFIFO_CAST_POINTER(void *, KFIFO_CAST(uintptr_t, value));
    return status;
}

/* For how many values kfifo_close_values needs room: for each slot of each generation that may have values. A
   generation has more slots than its capacity. Mostly there is one, but there are more near a change, if the queue has
   grown, or if a handle made no calls since. 0 if these are not all handles of one queue of values, each open and there
   but once.
   Cost: a look at each generation, mostly one.

       size_t room = kfifo_values_room(handles, 2);
*/
KFIFO_MUST_USE static inline size_t kfifo_values_room(kfifo_handle *handles, size_t threads) {
    if (!handles || threads > KFIFO_MAX_THREADS) return 0;
    KFIFO_BEGIN_ALL(handles, threads);
    KFIFO_ENTER();
    size_t room = kfifo_are_of_one_queue(handles, threads) ? kfifo_c_values_room(handles, threads) : 0;
    KFIFO_LEAVE();
    KFIFO_END_ALL(handles, threads);
    return room;
}

/* Closes a queue of values, as kfifo_close does, and writes those of the oldest generation first. There has to be room
   for kfifo_values_room values. With less it returns BAD_CALL, and nothing was done.
   Cost: as kfifo_close, for each generation.

       size_t room = kfifo_values_room(handles, THREADS), count = 0;
       uint64_t *left = malloc(room * sizeof *left);
       if (!left || kfifo_close_values(handles, THREADS, left, room, &count) != KFIFO_DONE) return 1;
*/
KFIFO_MUST_USE static inline kfifo_status kfifo_close_values(kfifo_handle *handles, size_t threads, uint64_t *values,
                                                             size_t room, size_t *count) {
    if (!handles || !values || !count) return KFIFO_BAD_CALL;
    if (threads > KFIFO_MAX_THREADS) return KFIFO_BAD_THREADS;
    KFIFO_BEGIN_ALL(handles, threads);
    KFIFO_BEFORE_CLOSE(handles, threads);
    KFIFO_ENTER();
    kfifo_status status = KFIFO_BAD_CALL;
    if (kfifo_are_of_one_queue(handles, threads))
        status = KFIFO_CAST(kfifo_status, kfifo_c_close_values(handles, threads, values, room, count));
    KFIFO_LEAVE();
    KFIFO_END_ALL(handles, threads);
    KFIFO_AFTER_CLOSE(handles, threads);
    return status;
}

/* ---- A queue of cells, for values of any size ----

   A thread reserves a cell, writes into it and publishes it. Another receives it, reads it and releases it. So a value
   stays where it was made. A publish copies it only if the generation of its cell accepts no more cells: kfifo_publish
   says when. The cells are the library's memory. What is said of `capacity`, generations, growth and WORN of a queue of
   values holds here too.

       struct frame { int width, height; unsigned char pixels[4096]; };
       struct frame *frame = NULL;
       void *cell = NULL;
       kfifo_handle handles[2]; // one for each thread
       if (kfifo_open_cells(1, 8, sizeof *frame, _Alignof(struct frame), handles, 2) != KFIFO_DONE) return 1;

       if (kfifo_reserve(&handles[0], &cell) == KFIFO_DONE) {
           frame = cell;
           frame->width = 64; // the cell is this thread's alone
           kfifo_status status;
           while (kfifo_may_retry(status = kfifo_publish(&handles[0]))) sched_yield();
           if (status != KFIFO_DONE) return 1; // worn
       }

       if (kfifo_receive(&handles[1], &cell) == KFIFO_DONE) {
           show(cell); // now it is this one's alone
           if (kfifo_release(&handles[1]) != KFIFO_DONE) return 1;
       }
       return kfifo_abandon(handles, 2) != KFIFO_DONE;
*/

/* Where a cell begins. */
static inline void *kfifo_bare_place(const kfifo_cell_at *at, uint32_t size, uint32_t alignment) {
    uintptr_t begins = KFIFO_CAST_POINTER(uintptr_t, at->block), mask = alignment - UINT32_C(1);
    return KFIFO_CAST(char *, at->block) + (((begins + mask) & ~mask) - begins) + KFIFO_CAST(size_t, at->index) * size;
}

/* Opens a queue of cells of this size, at least 1, and this alignment, both in bytes: a power of two up to 4,096 that
   divides the size. `last`, `reserve` and `generations` are as in kfifo_open_values_with. The queue has 32 cells more
   for each thread, which that one may keep for itself. Returns what kfifo_open_values_with does; BAD_LAYOUT if
   size or alignment is out of range.
   Cost: the memory of a generation is asked for here: that of (capacity + 32 * threads) cells, some 30 bytes for each
   of these, and 4,000 for each thread. A reserve that opens a generation asks for as much again.

       kfifo_handle growing[2];
       if (kfifo_open_cells_with(1, 8, 64, 64, KFIFO_LAST, KFIFO_RESERVE, 100, growing, 2) != KFIFO_DONE)
           return 1; // up to 800 cells
*/
KFIFO_MUST_USE static inline kfifo_status kfifo_open_cells_with(uint32_t k, uint32_t capacity, uint32_t size,
                                                                uint32_t alignment, uint64_t last, uint64_t reserve,
                                                                uint32_t generations, kfifo_handle *handles,
                                                                size_t threads) {
    if (!handles) return KFIFO_BAD_CALL;
    kfifo_zero(handles, threads);
    KFIFO_OPEN(handles, threads, capacity,
               kfifo_c_open_cells(k, capacity, size, alignment, last, reserve, generations, handles,
                                  kfifo_at_most_one_over(threads)));
}

/* Opens a queue of cells that does not wear out, with room for `capacity` cells, as many as kfifo_open_values takes.
   Returns what kfifo_open_cells_with does.
   Cost: as kfifo_open_cells_with.

       if (kfifo_open_cells(1, 8, sizeof *frame, _Alignof(struct frame), handles, 2) != KFIFO_DONE) return 1;
*/
KFIFO_MUST_USE static inline kfifo_status kfifo_open_cells(uint32_t k, uint32_t capacity, uint32_t size,
                                                           uint32_t alignment, kfifo_handle *handles, size_t threads) {
    return kfifo_open_cells_with(k, capacity, size, alignment, KFIFO_LAST, KFIFO_RESERVE, 1, handles, threads);
}

/* Any of these may free a generation, or make one. The handle is an open one of a queue of cells. */

static inline kfifo_status kfifo_bare_reserve(kfifo_handle *handle, kfifo_cell_at *at) {
    if (__builtin_expect(kfifo_is_finished(KFIFO_WAITS(handle)), 0)) return KFIFO_FINISHED;
    KFIFO_BEGIN(handle, "kfifo_reserve");
    KFIFO_ENTER();
    kfifo_status status = KFIFO_CAST(kfifo_status, kfifo_c_reserve(handle, at));
    if (__builtin_expect(status == KFIFO_FULL, 0)) status = KFIFO_CAST(kfifo_status, kfifo_c_why_no_cell(handle));
    KFIFO_LEAVE();
    KFIFO_AFTER_RESERVE(handle, status);
    KFIFO_END(handle);
    return status;
}

static inline kfifo_status kfifo_bare_publish(kfifo_handle *handle) {
    KFIFO_BEGIN(handle, "kfifo_publish");
    KFIFO_BEFORE_PUT(handle);
    KFIFO_ENTER();
    kfifo_status status = KFIFO_CAST(kfifo_status, kfifo_c_publish(handle));
    KFIFO_LEAVE();
    KFIFO_END(handle);
    return status;
}

/* Reserves a cell of the newest generation, beside one of an older generation. */
static inline kfifo_status kfifo_bare_reserve_next(kfifo_handle *handle, kfifo_cell_at *at) {
    KFIFO_ENTER();
    kfifo_status status = KFIFO_CAST(kfifo_status, kfifo_c_reserve_next(handle, at));
    if (status == KFIFO_FULL) status = KFIFO_CAST(kfifo_status, kfifo_c_why_no_cell(handle));
    KFIFO_LEAVE();
    KFIFO_AFTER_RESERVE(handle, status);
    return status;
}

/* Puts that cell into the queue, and gives the older one back. If it is refused, it is given back, and the older one
   stays reserved. */
static inline kfifo_status kfifo_bare_publish_next(kfifo_handle *handle) {
    KFIFO_BEFORE_PUT(handle);
    KFIFO_BEFORE_RELEASE(handle);
    KFIFO_ENTER();
    kfifo_status status = KFIFO_CAST(kfifo_status, kfifo_c_publish_next(handle));
    KFIFO_LEAVE();
    return status;
}

/* The generation of the reserved cell takes no more. Copies what is in it into a cell of the next generation, and
   publishes that. If it cannot, the reserved cell stays as it is. WORN comes where there is no next generation. */
__attribute__((cold)) static inline kfifo_status kfifo_bare_move_on(kfifo_handle *handle) {
    kfifo_cell_at from, to;
    kfifo_status status = kfifo_bare_reserve(handle, &from); /* finds it */
    if (status != KFIFO_DONE) return status;
    KFIFO_BEGIN(handle, "kfifo_publish");
    for (void *worn = from.block;; worn = to.block) {
        status = kfifo_bare_reserve_next(handle, &to);
        if (status != KFIFO_DONE) break;
        status = KFIFO_WORN;
        if (to.block == from.block) break;
        memcpy(kfifo_bare_place(&to, handle->size, handle->alignment),
               kfifo_bare_place(&from, handle->size, handle->alignment), handle->size);
        status = kfifo_bare_publish_next(handle);
        if (status != KFIFO_WORN || to.block == worn) break;
    }
    KFIFO_END(handle);
    return status;
}

/* For cells whose bytes may be copied: in C++ a value is moved to the next cell by its type. */
static inline kfifo_status kfifo_bare_publish_or_move(kfifo_handle *handle) {
    kfifo_status status = kfifo_bare_publish(handle);
    if (__builtin_expect(status == KFIFO_DONE, 1)) return KFIFO_DONE; /* first, as KFIFO_LOOKING_GIVE does */
    return status == KFIFO_WORN ? kfifo_bare_move_on(handle) : status;
}

static inline kfifo_status kfifo_bare_cancel(kfifo_handle *handle) {
    KFIFO_BEGIN(handle, "kfifo_cancel");
    KFIFO_BEFORE_RELEASE(handle);
    KFIFO_ENTER();
    kfifo_status status = KFIFO_CAST(kfifo_status, kfifo_c_cancel(handle));
    KFIFO_LEAVE();
    KFIFO_END(handle);
    return kfifo_after_take(KFIFO_WAITS(handle), status);
}

static inline kfifo_status kfifo_bare_receive(kfifo_handle *handle, kfifo_cell_at *at) {
    KFIFO_BEGIN(handle, "kfifo_receive");
    KFIFO_BEFORE_RELEASE(handle);
    KFIFO_ENTER();
    kfifo_status status = kfifo_taken(kfifo_c_receive(handle, at));
    KFIFO_LEAVE();
    KFIFO_AFTER_TAKE(handle, status);
    KFIFO_END(handle);
    return status;
}

static inline kfifo_status kfifo_bare_release(kfifo_handle *handle) {
    KFIFO_BEGIN(handle, "kfifo_release");
    KFIFO_BEFORE_RELEASE(handle);
    KFIFO_ENTER();
    kfifo_status status = KFIFO_CAST(kfifo_status, kfifo_c_release(handle));
    KFIFO_LEAVE();
    KFIFO_END(handle);
    return kfifo_after_take(KFIFO_WAITS(handle), status);
}

static inline kfifo_status kfifo_bare_looking_receive(kfifo_handle *handle, kfifo_cell_at *at) {
    KFIFO_LOOKING_TAKE(handle, kfifo_bare_receive(handle, at));
}

/* Reserves a cell: DONE, and writes where it is. Until kfifo_publish puts it into the queue, the cell is the handle's
   alone, and a further call writes the same one. What is in it is whatever was there before. Else FULL, where no cell
   is free, NO_MEMORY of a queue that was to grow, FINISHED or BAD_CALL, and *cell stays.
   Cost: a few dozen instructions, whose atomic steps are loads unless it fetches cells that others have released.

       if (kfifo_reserve(&handles[0], &cell) != KFIFO_DONE) return 1;
       frame = cell;
       frame->width = 64; // until the publish the cell is ours
*/
KFIFO_MUST_USE static inline kfifo_status kfifo_reserve(kfifo_handle *handle, void **cell) {
    kfifo_cell_at at;
    if (!cell || !KFIFO_IS_OF(handle, KFIFO_CELLS)) return KFIFO_BAD_CALL;
    kfifo_status status = kfifo_bare_reserve(handle, &at);
    if (__builtin_expect(status == KFIFO_DONE, 1)) *cell = kfifo_bare_place(&at, handle->size, handle->alignment);
    return status;
}

/* As kfifo_publish, but bounded, as kfifo_give_once is: also BUSY.
   Cost: as kfifo_publish.

       if (kfifo_publish_once(&handles[0]) == KFIFO_BUSY) puts("the cell is still reserved");
*/
KFIFO_MUST_USE static inline kfifo_status kfifo_publish_once(kfifo_handle *handle) {
    if (!KFIFO_IS_OF(handle, KFIFO_CELLS)) return KFIFO_BAD_CALL;
    KFIFO_LOOKING_GIVE(handle, KFIFO_FINISHED, kfifo_bare_publish_or_move(handle));
}

/* Puts the reserved cell into the queue, and wakes a thread that waits for it: DONE, and the cell is no longer the
   handle's. Else FULL, NO_MEMORY of a queue that was to grow, FINISHED or WORN, and the cell is still reserved, where
   it was. BAD_CALL, also where none is reserved. Even after DONE, takes may no longer reach the cell: kfifo_give
   says when.

   The versions of the cell's generation may be used up while the cell is reserved. Then the call copies the bytes of
   the cell into one of the next generation, and publishes that. So no pointer in a cell may point into the cell. WORN
   comes if there is no next generation.
   Cost: as kfifo_give. A publish that copies also reserves a cell, and copies as many bytes as a cell has.

       if (kfifo_publish(&handles[0]) != KFIFO_DONE) puts("the cell is still reserved");
*/
KFIFO_MUST_USE static inline kfifo_status kfifo_publish(kfifo_handle *handle) {
    KFIFO_UNLESS_BUSY(handle, kfifo_publish_once(handle));
}

/* Gives the reserved cell back: DONE, and any handle may reserve it. BAD_CALL, also where none is reserved. While a
   cell stays reserved, no other handle can have it.
   Cost: as kfifo_reserve.

       if (kfifo_cancel(&handles[0]) != KFIFO_DONE) return 1;
*/
KFIFO_MUST_USE static inline kfifo_status kfifo_cancel(kfifo_handle *handle) {
    return KFIFO_IS_OF(handle, KFIFO_CELLS) ? kfifo_bare_cancel(handle) : KFIFO_BAD_CALL;
}

/* As kfifo_receive, but bounded, as kfifo_give_once is: also BUSY.
   Cost: as kfifo_receive.

       if (kfifo_receive_once(&handles[1], &cell) == KFIFO_BUSY) puts("no cell is received");
*/
KFIFO_MUST_USE static inline kfifo_status kfifo_receive_once(kfifo_handle *handle, void **cell) {
    kfifo_cell_at at;
    if (!cell || !KFIFO_IS_OF(handle, KFIFO_CELLS)) return KFIFO_BAD_CALL;
    kfifo_status status = kfifo_bare_looking_receive(handle, &at);
    if (__builtin_expect(status == KFIFO_DONE, 1)) *cell = kfifo_bare_place(&at, handle->size, handle->alignment);
    return status;
}

/* Takes one of the k oldest cells, and wakes a thread that waits for room: DONE, and writes where it is. Until the
   handle's next kfifo_receive or kfifo_release the cell is the handle's alone. Else EMPTY, FINISHED, WORN or BAD_CALL,
   and *cell stays. The call first releases the cell that the handle received before, also where it then takes none. A
   handle may have a received and a reserved cell at once.
   Cost: as a kfifo_get, a kfifo_release, and a look into each older generation.

       while (kfifo_receive(&handles[1], &cell) == KFIFO_DONE) show(cell);
*/
KFIFO_MUST_USE static inline kfifo_status kfifo_receive(kfifo_handle *handle, void **cell) {
    KFIFO_UNLESS_BUSY(handle, kfifo_receive_once(handle, cell));
}

/* Releases the cell that the handle received: DONE, and any handle may reserve it. BAD_CALL, also where none was
   received, or it is released already.
   Cost: as kfifo_reserve.

       if (kfifo_release(&handles[1]) != KFIFO_DONE) return 1;
*/
KFIFO_MUST_USE static inline kfifo_status kfifo_release(kfifo_handle *handle) {
    return KFIFO_IS_OF(handle, KFIFO_CELLS) ? kfifo_bare_release(handle) : KFIFO_BAD_CALL;
}

/* Closes a queue of cells by all its handles, and keeps the cells that are in it, with their memory, in `left`: DONE.
   What `left` held before is not freed. A cell that a handle had reserved or received is not among them: it is gone.
   BAD_CALL, BAD_THREADS, NO_MEMORY and LOST are as those of kfifo_close.
   Cost: a look at each slot of each generation, and it asks for memory.

       kfifo_left left;
       if (kfifo_close_cells(handles, 2, &left) != KFIFO_DONE) return 1;
       while (kfifo_next_left(&left, &cell) == KFIFO_DONE) show(cell);
       kfifo_free_left(&left);
*/
KFIFO_MUST_USE static inline kfifo_status kfifo_close_cells(kfifo_handle *handles, size_t threads, kfifo_left *left) {
    if (!handles || !left) return KFIFO_BAD_CALL;
    if (threads > KFIFO_MAX_THREADS) return KFIFO_BAD_THREADS;
    KFIFO_BEGIN_ALL(handles, threads);
    KFIFO_BEFORE_CLOSE(handles, threads);
    KFIFO_ENTER();
    uint32_t size = threads ? handles[0].size : 0, alignment = threads ? handles[0].alignment : 0;
    kfifo_left of = {NULL, 0, 0, size, alignment};
    kfifo_status status = KFIFO_BAD_CALL;
    if (kfifo_are_of_one_queue(handles, threads))
        status = KFIFO_CAST(kfifo_status, kfifo_c_close_cells(handles, threads, &of));
    if (status == KFIFO_DONE) *left = of;
    KFIFO_LEAVE();
    KFIFO_END_ALL(handles, threads);
    KFIFO_AFTER_CLOSE(handles, threads);
    return status;
}

/* Writes where the next cell is, of those that were left, in the queue's order, those of the oldest generation first:
   DONE. EMPTY after the last one, and BAD_CALL of a null pointer or where nothing is kept: *cell stays. The cells stay
   where they are until kfifo_free_left.
   Cost: a few dozen instructions.

       while (kfifo_next_left(&left, &cell) == KFIFO_DONE) show(cell);
*/
KFIFO_MUST_USE static inline kfifo_status kfifo_next_left(kfifo_left *left, void **cell) {
    kfifo_cell_at at;
    if (!left || !cell) return KFIFO_BAD_CALL;
    kfifo_status status = KFIFO_CAST(kfifo_status, kfifo_c_next_left(left, &at));
    if (status == KFIFO_DONE) *cell = kfifo_bare_place(&at, left->size, left->alignment);
    return status;
}

/* Frees the cells that were left, and what is in them is lost. It does nothing if there are none, or for a null
   pointer.
   Cost: it frees the memory of each generation.

       kfifo_free_left(&left);
*/
static inline void kfifo_free_left(kfifo_left *left) {
    if (!left) return;
    KFIFO_ENTER();
    kfifo_c_free_left(left);
    KFIFO_LEAVE();
}

#ifdef __cplusplus
}
#endif

#endif
