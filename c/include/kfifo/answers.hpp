// What calls of the queue in C++ answer and throw.
#ifndef KFIFO_ANSWERS_HPP
#define KFIFO_ANSWERS_HPP

#include "../kfifo.h"

#include <cstddef>
#include <cstdio>
#include <cstdlib>
#include <new>
#include <optional>
#include <stdexcept>
#include <string>

// In a build without exceptions nothing is caught.
#ifdef __cpp_exceptions
#define KFIFO_TRY try
#define KFIFO_CATCH catch (...)
#define KFIFO_THROW_AGAIN throw
#else
#define KFIFO_TRY if (true)
#define KFIFO_CATCH else
#define KFIFO_THROW_AGAIN KFIFO_CAST(void, 0)
#endif

namespace kfifo {

// What is thrown where a call may not be made or a size is out of range; what() says which of the reasons it was.
class Error : public std::invalid_argument {
  public:
    explicit Error(kfifo_status status) : Error(status, kfifo_status_text(status)) {}
    Error(kfifo_status status, const std::string &why) : std::invalid_argument("kfifo: " + why), of(status) {}
    [[nodiscard]] kfifo_status status() const noexcept { return of; }

  private:
    kfifo_status of;
};

// What a put came to. The numbers are those of kfifo.h.
// clang-format off
enum class [[nodiscard]] Put {
    done = KFIFO_DONE,
    full = KFIFO_FULL,
    busy = KFIFO_BUSY,           // of the bounded calls, whose names end in _once
    worn = KFIFO_WORN,
    no_memory = KFIFO_NO_MEMORY, // of a queue that was to grow for it
    timed_out = KFIFO_TIMED_OUT, // of a call that waits: its time was up
    finished = KFIFO_FINISHED    // finish() was called before
};
// clang-format on

// What a take came to that took nothing.
enum class Miss {
    empty = KFIFO_EMPTY,
    busy = KFIFO_BUSY, // of the bounded calls, whose names end in _once
    worn = KFIFO_WORN,
    timed_out = KFIFO_TIMED_OUT,
    finished = KFIFO_FINISHED // finish() was called, and the queue was empty then
};

// A line of text, as "the queue was full".
// Cost: a few comparisons.
//
//     kfifo::TakenValue<std::string> none = taker.take();
//     if (!none.value) std::puts(kfifo::text(none.why)); // the queue was empty
[[nodiscard]] inline const char *text(Put put) noexcept { return kfifo_status_text(static_cast<kfifo_status>(put)); }
[[nodiscard]] inline const char *text(Miss miss) noexcept { return kfifo_status_text(static_cast<kfifo_status>(miss)); }

// Whether a later call may do better: a loop that retries another answer, as Put::worn, never ends.
// Cost: three comparisons.
//
//     while (kfifo::may_retry(gave = giver.give("a word"))) std::this_thread::yield();
[[nodiscard]] inline bool may_retry(Put put) noexcept { return kfifo_may_retry(static_cast<kfifo_status>(put)); }
[[nodiscard]] inline bool may_retry(Miss miss) noexcept { return kfifo_may_retry(static_cast<kfifo_status>(miss)); }

namespace detail {

// Throws. In a build without exceptions the program says what is wrong, and aborts.
template <typename Exception> [[noreturn]] void raise(const Exception &exception) {
#ifdef __cpp_exceptions
    throw exception;
#else
    std::fprintf(stderr, "%s\n", exception.what());
    std::abort();
#endif
}

// The status of a call that was made. An allocation that failed, and a call that may not be made, are thrown.
inline kfifo_status checked(kfifo_status status) {
    switch (status) {
    case KFIFO_NO_MEMORY:
    case KFIFO_LOST: raise(std::bad_alloc());
    case KFIFO_BAD_CALL:
    case KFIFO_BAD_THREADS:
    case KFIFO_BAD_K:
    case KFIFO_BAD_SEGMENTS:
    case KFIFO_BAD_LAST:
    case KFIFO_BAD_PROBES:
    case KFIFO_BAD_RESERVE:
    case KFIFO_BAD_CAPACITY:
    case KFIFO_BAD_LAYOUT: raise(Error(status));
    default: return status;
    }
}

// What a give came to. Memory for growth that is missing is an answer: the value is still the caller's.
inline Put given(kfifo_status status) { return static_cast<Put>(status == KFIFO_NO_MEMORY ? status : checked(status)); }

} // namespace detail

// What try_open comes to: the queue, if there is one, and DONE; else why not.
template <typename Opens> struct [[nodiscard]] Opened {
    std::optional<Opens> queue;
    kfifo_status status;
};

// What a call that gives each value of a range came to.
template <typename Iterator> struct [[nodiscard]] GaveAll {
    std::size_t given;   // how many are in the queue
    Iterator rest;       // the first one that is not: it and those after it are the caller's
    Put why = Put::done; // done: all are; else what that one came to
};

// What a call that takes many at once came to.
struct [[nodiscard]] TookUpTo {
    std::size_t taken = 0;
    std::optional<Miss> why; // why it took no more; none where it took as many as it was to
};

} // namespace kfifo

#endif
