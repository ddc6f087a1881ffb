/*
 * Logs each call that threads make of your own queue, so that `kfifo` can judge the run. For C11 and C++17, on POSIX.
 *
 * How to use it (C++ has kfifo::ThreadLog below, which makes and closes a log and logs a call in one line):
 *   1. Copy this file beside your queue, and include it before any other header.
 *   2. Before the threads start, make a log for each: kfifo_log_open(&logs[t], t, calls), t below 64.
 *   3. In thread t, around each call:
 *          kfifo_log_begin_enqueue(&logs[t], item);
 *          bool done = my_enqueue(queue, item);
 *          kfifo_log_end(&logs[t], done ? KFIFO_LOG_DONE : KFIFO_LOG_FULL, 0);
 *      and kfifo_log_begin_dequeue(&logs[t]) with KFIFO_LOG_GOT and the item, or with KFIFO_LOG_EMPTY and 0.
 *   4. Give each item a number of its own, 1 to 16,777,215, for example from a counter for each producer that starts
 *      where no other gets to.
 *   5. Put some hundred items in before the threads start. After joining them, dequeue until the queue is empty, in a
 *      log of its own. In a queue that is nearly empty a wrong order hardly shows, and if the queue is left filled,
 *      nobody can see that an item is lost.
 *   6. kfifo_log_write(stdout, logs, count), and then:
 *          ./my_test > log.csv && kfifo judge < log.csv
 *      Look at the line `calls <number>, items left <number>` too: 0 calls are no test, and items left are lost items
 *      if the log ends in a dequeue that found the queue empty.
 *
 * A log that is full takes no more calls, and kfifo_log_write refuses it: missing calls would make the verdict wrong.
 * A log costs 32 bytes a call; kfifo judges 16,777,215 calls at most. Each log is its thread's alone: there is no lock,
 * and only kfifo_log_open takes memory.
 */
#ifndef KFIFO_LOG_H
#define KFIFO_LOG_H

/* -std=c11 hides clock_gettime without this. */
#if defined(__STRICT_ANSI__) && !defined(_POSIX_C_SOURCE) && !defined(_GNU_SOURCE)
#define _POSIX_C_SOURCE 200809L
#endif

#include <assert.h>
#include <inttypes.h>
#include <stdbool.h>
#include <stddef.h>
#include <stdint.h>
#include <stdio.h>
#include <stdlib.h>
#include <string.h>
#include <time.h>
#ifdef __cplusplus
#include <atomic>
#include <new>
#include <optional>
#include <stdexcept>
#include <vector>
#else
#include <stdatomic.h>
#endif

#ifndef CLOCK_MONOTONIC
#error "kfifo_log.h: there is no clock_gettime: include this file before any other header, or compile with -std=gnu11"
#endif

/* What a call answered. An enqueue is never got or empty, and a dequeue never done or full. */
typedef enum {
    KFIFO_LOG_UNFINISHED, /* the call has not returned */
    KFIFO_LOG_DONE,       /* the item is in the queue */
    KFIFO_LOG_FULL,       /* the queue was full */
    KFIFO_LOG_GOT,        /* an item was taken */
    KFIFO_LOG_EMPTY,      /* the queue was empty */
    KFIFO_LOG_BUSY,       /* the call gave up because of others, and changed nothing */
    KFIFO_LOG_WORN        /* the queue can never again take such a call, and nothing was changed */
} kfifo_log_answer;

/* How writing went. */
typedef enum {
    KFIFO_LOG_WRITTEN,
    KFIFO_LOG_MISSED_CALLS, /* a log was full, so that calls are missing: nothing was written */
    KFIFO_LOG_WRITE_FAILED  /* the file could not be written */
} kfifo_log_status;

/* One call. */
typedef struct {
    uint64_t first;
    uint64_t last;
    uint64_t item; /* as wide as a caller's type may be, so that no item is cut down to another */
    kfifo_log_answer answer;
    bool enqueues;
} kfifo_log_call;

/* The log of one thread. Its fields are for the functions below. */
typedef struct {
    kfifo_log_call *calls;
    size_t length;
    size_t capacity;
    uint64_t stamp;  /* the latest stamp of this thread */
    uint64_t missed; /* how many calls found the log full */
    unsigned thread;
    char apart[64]; /* so that no two threads write to one cache line */
} kfifo_log;

/* Nanoseconds of CLOCK_MONOTONIC. It is one clock for all cores, and no correction of the time of day sets it back. */
static inline uint64_t kfifo_log_now_(void) {
    struct timespec now = {0, 0};
    (void)clock_gettime(CLOCK_MONOTONIC, &now);
    return (uint64_t)now.tv_sec * 1000000000u + (uint64_t)now.tv_nsec;
}

/* The time, read until it is past the thread's latest stamp: kfifo refuses a call that begins when the one before it
   ends. To add 1 instead would let the call begin after its true beginning. */
static inline uint64_t kfifo_log_stamp_(kfifo_log *log) {
    uint64_t now;
    do {
        now = kfifo_log_now_();
    } while (now <= log->stamp);
    log->stamp = now;
    return now;
}

/* Between a stamp and the call. Compilers move nothing over it, and x86-64 waits for the stores before it. Without it
   a store of the call could become visible after the call's last stamp, or a load be made before its first one, and a
   sound queue be found broken. On other processors it orders accesses to memory alone, and the clock may be none. */
/* (g++ warns that its thread sanitizer does not model a fence. It makes the fence all the same, and no data passes
   between threads here, so the sanitizer has nothing to model.) */
#if defined(__SANITIZE_THREAD__) && __GNUC__ >= 11
#pragma GCC diagnostic push
#pragma GCC diagnostic ignored "-Wtsan"
#endif
static inline void kfifo_log_fence_(void) {
#ifdef __cplusplus
    std::atomic_thread_fence(std::memory_order_seq_cst);
#else
    atomic_thread_fence(memory_order_seq_cst);
#endif
}
#if defined(__SANITIZE_THREAD__) && __GNUC__ >= 11
#pragma GCC diagnostic pop
#endif

static inline void kfifo_log_begin_(kfifo_log *log, bool enqueues, uint64_t item) {
    if (log->length == log->capacity) {
        log->missed++;
        return;
    }
    kfifo_log_call *call = &log->calls[log->length++];
    call->enqueues = enqueues;
    call->item = item;
    call->answer = KFIFO_LOG_UNFINISHED;
    /* The stamp is stored before the fence, so that the fence waits for the clock too. */
    call->first = kfifo_log_stamp_(log);
    kfifo_log_fence_();
}

/* Makes the log of a thread, with room for this many calls. False where there is no memory or no clock, or the thread
   is over 63. */
static inline bool kfifo_log_open(kfifo_log *log, unsigned thread, size_t calls) {
    struct timespec now;
    memset(log, 0, sizeof *log);
    if (thread > 63 || calls > SIZE_MAX / sizeof(kfifo_log_call)) return false;
    if (clock_gettime(CLOCK_MONOTONIC, &now) != 0) return false;
    log->calls = (kfifo_log_call *)malloc(calls > 0 ? calls * sizeof(kfifo_log_call) : 1);
    if (log->calls == NULL) return false;
    /* Each page is written now, so that none has to be found while the run goes on. */
    memset(log->calls, 0xff, calls * sizeof(kfifo_log_call));
    log->capacity = calls;
    log->thread = thread;
    return true;
}

/* Just before an enqueue of this item. */
static inline void kfifo_log_begin_enqueue(kfifo_log *log, uint64_t item) { kfifo_log_begin_(log, true, item); }

/* Just before a dequeue. */
static inline void kfifo_log_begin_dequeue(kfifo_log *log) { kfifo_log_begin_(log, false, 0); }

/* Just after the call that was begun last, with its answer, and with the item where it is KFIFO_LOG_GOT. */
static inline void kfifo_log_end(kfifo_log *log, kfifo_log_answer answer, uint64_t item) {
    if (log->missed > 0) return;
    kfifo_log_fence_();
    uint64_t last = kfifo_log_stamp_(log);
    assert(log->length > 0);
    kfifo_log_call *call = &log->calls[log->length - 1];
    call->last = last;
    call->answer = answer;
    if (answer == KFIFO_LOG_GOT) call->item = item;
}

static inline void kfifo_log_write_header_(FILE *out) { fputs("thread,op,item,first,last,answer\n", out); }

static inline void kfifo_log_write_calls_(FILE *out, const kfifo_log *log) {
    static const char *const answers[] = {"", "done", "full", "got", "empty", "busy", "worn"};
    for (size_t i = 0; i < log->length; i++) {
        const kfifo_log_call *call = &log->calls[i];
        fprintf(out, "%u,%s,", log->thread, call->enqueues ? "enq" : "deq");
        if (call->enqueues || call->answer == KFIFO_LOG_GOT) fprintf(out, "%" PRIu64, call->item);
        fprintf(out, ",%" PRIu64 ",", call->first);
        if (call->answer != KFIFO_LOG_UNFINISHED) fprintf(out, "%" PRIu64, call->last);
        fprintf(out, ",%s\n", answers[call->answer]);
    }
}

/* Writes the logs as CSV for `kfifo judge`, after their threads have ended. A call that never returned has no last
   time and no answer. kfifo takes such a dequeue to have taken nothing, so let dequeues return. */
static inline kfifo_log_status kfifo_log_write(FILE *out, const kfifo_log *logs, size_t count) {
    for (size_t i = 0; i < count; i++) {
        if (logs[i].missed > 0) return KFIFO_LOG_MISSED_CALLS;
    }
    kfifo_log_write_header_(out);
    for (size_t i = 0; i < count; i++) kfifo_log_write_calls_(out, &logs[i]);
    return fflush(out) == 0 && !ferror(out) ? KFIFO_LOG_WRITTEN : KFIFO_LOG_WRITE_FAILED;
}

/* Frees a log. */
static inline void kfifo_log_close(kfifo_log *log) {
    free(log->calls);
    memset(log, 0, sizeof *log);
}

#ifdef __cplusplus
namespace kfifo {

/* The log of one thread, which is closed with the object. */
class ThreadLog {
  public:
    ThreadLog(unsigned thread, std::size_t calls) {
        if (thread > 63) throw std::invalid_argument("kfifo_log: a thread is 0 to 63");
        if (!kfifo_log_open(&log_, thread, calls)) throw std::bad_alloc();
    }
    ThreadLog(ThreadLog &&other) noexcept : log_(other.log_) { other.log_ = kfifo_log(); }
    ThreadLog &operator=(ThreadLog &&) = delete;
    ~ThreadLog() { kfifo_log_close(&log_); }

    /* Calls put(), which returns whether the item is in the queue, and logs it as done or full. */
    template <class Put> bool enqueue(std::uint64_t item, Put put) {
        kfifo_log_begin_enqueue(&log_, item);
        const bool done = put();
        kfifo_log_end(&log_, done ? KFIFO_LOG_DONE : KFIFO_LOG_FULL, 0);
        return done;
    }

    /* Calls get(), which returns a std::optional of an item, and logs it as got or empty. */
    template <class Get> auto dequeue(Get get) {
        kfifo_log_begin_dequeue(&log_);
        auto item = get();
        kfifo_log_end(&log_, item ? KFIFO_LOG_GOT : KFIFO_LOG_EMPTY, item ? *item : 0);
        return item;
    }

    /* For calls with other answers: kfifo_log_begin_enqueue(log.get(), item) and so on. */
    kfifo_log *get() { return &log_; }
    const kfifo_log *get() const { return &log_; }

  private:
    kfifo_log log_;
};

/* Writes the logs as kfifo_log_write does, and throws where calls are missing or writing fails. */
inline void write_logs(std::FILE *out, const std::vector<ThreadLog> &logs) {
    for (const ThreadLog &log : logs) {
        if (log.get()->missed > 0) throw std::length_error("kfifo_log: a log was full, so that calls are missing");
    }
    kfifo_log_write_header_(out);
    for (const ThreadLog &log : logs) kfifo_log_write_calls_(out, log.get());
    if (std::fflush(out) != 0 || std::ferror(out)) throw std::runtime_error("kfifo_log: the log could not be written");
}

} // namespace kfifo
#endif

#endif
