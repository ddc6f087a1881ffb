// How a call by the handle of a queue of values is made: once, again, or with sleep between; and its calls with cells.
#ifndef KFIFO_CALLS_HPP
#define KFIFO_CALLS_HPP

#include "../kfifo.h"
#include "../kfifo_many.h"
#include "../kfifo_wait.h"
#include "answers.hpp"

#include <chrono>
#include <cstddef>
#include <cstdint>
#include <new>
#include <vector>

namespace kfifo {

// What a queue of values is opened with besides. Each word has versions up to `last`, 2 to KFIFO_LAST, and with fewer
// left than `reserve`, which is below it, the queue goes on in its next generation. The queue has up to `grows`
// generations at a time, 1 to 129 - 2 * threads: with more than 1 a give that finds no room opens the next one. With
// reserve 0 a queue that does not grow wears out as a queue of items does. One that grows also opens the next
// generation where a give finds no version left, but takes then answer Miss::worn if values are left in the old one.
struct Options {
    std::uint64_t last = KFIFO_LAST;
    std::uint64_t reserve = KFIFO_RESERVE;
    std::uint32_t grows = 1;
};

namespace detail {

// How many cells more than its capacity a queue has for each thread, which that one may keep for itself.
constexpr std::size_t spare_cells = 32;

// A duration in nanoseconds: a negative one is 0, one beyond the clock is for ever.
template <typename Rep, typename Period> std::uint64_t nanoseconds_of(const std::chrono::duration<Rep, Period> &time) {
    if (!(time > time.zero())) return 0;
    if (std::chrono::duration<long double, std::nano>(time).count() >= 9e18L) return KFIFO_FOREVER;
    return static_cast<std::uint64_t>(std::chrono::ceil<std::chrono::nanoseconds>(time).count());
}

// How a call by a handle is made again while it may do better: not at all.
struct Once {
    template <typename Call> kfifo_status operator()(const kfifo_handle *, Call call) const { return call(); }
};

// While it is busy.
struct UnlessBusy {
    template <typename Call> kfifo_status operator()(const kfifo_handle *handle, Call call) const {
        KFIFO_UNLESS_BUSY(handle, call());
    }
};

// Again and again, with sleep between, for that time at most in all, also of several calls.
class Within {
  public:
    Within(kfifo_waits *waits, std::uint32_t kind, std::uint64_t nanoseconds)
        : waiter(kfifo_waiter_of(waits, kind, nanoseconds)) {}

    template <typename Call> kfifo_status operator()(const kfifo_handle *, Call call) {
        kfifo_status status = call();
        if (!kfifo_may_retry(status)) return status;
        for (;;) {
            if (kfifo_may_be_over(waiter.waits, status)) {
                status = call();
                if (kfifo_may_retry(status) && status != KFIFO_BUSY) status = KFIFO_FINISHED;
            }
            if (!kfifo_wait_again(&waiter, &status)) return status;
            status = call();
        }
    }

  private:
    kfifo_waiter waiter;
};

// The same until a time of some clock. If the clock is set meanwhile, that is seen when the time is up by the clock as
// it was.
template <typename Clock, typename Duration> class Until {
  public:
    Until(kfifo_waits *waits, std::uint32_t kind, const std::chrono::time_point<Clock, Duration> &time)
        : of(waits), which(kind), end(time) {}

    template <typename Call> kfifo_status operator()(const kfifo_handle *handle, Call call) {
        for (;;) {
            auto now = Clock::now();
            kfifo_status status = Within(of, which, now < end ? nanoseconds_of(end - now) : 0)(handle, call);
            if (status != KFIFO_TIMED_OUT || Clock::now() >= end) return status;
        }
    }

  private:
    kfifo_waits *of;
    std::uint32_t which;
    std::chrono::time_point<Clock, Duration> end;
};

// A call of kfifo.hpp by a handle, from its beginning to its end. With KFIFO_DEBUG it marks the handle.
class InCall {
  public:
#ifdef KFIFO_DEBUG
    InCall(kfifo_handle *by, const char *call) : handle(by) { kfifo_begin(handle, KFIFO_MARK_WRAPPER, call); }
    ~InCall() { kfifo_end(handle, KFIFO_MARK_WRAPPER); }

  private:
    kfifo_handle *handle;

  public:
#else
    InCall(kfifo_handle *, const char *) {}
#endif
    InCall(const InCall &) = delete;
    InCall &operator=(const InCall &) = delete;
};

// ---- The calls with cells ----

// Puts the cell that is reserved into the queue, and wakes a thread that waits for it.
inline kfifo_status publish_cell(kfifo_handle *handle) {
    KFIFO_LOOKING_GIVE(handle, KFIFO_FINISHED, kfifo_bare_publish(handle));
}

// The same of one of many: where it is done it wakes nobody.
inline kfifo_status publish_one(kfifo_handle *handle) {
    KFIFO_ONE_GIVE(KFIFO_WAITS(handle), kfifo_bare_publish(handle));
}

// The handles of a queue of cells. They are closed where the opening did not come to DONE.
struct CellHandles {
    CellHandles(std::uint32_t k, std::uint32_t capacity, std::size_t threads, std::uint32_t size,
                std::uint32_t alignment, const Options &options)
        : all(kfifo_at_most_one_over(threads)), room(capacity), generations(options.grows), status(KFIFO_BAD_THREADS) {
        if (all.empty()) return;
        status = kfifo_open_cells_with(k, capacity, size, alignment, options.last, options.reserve, options.grows,
                                       all.data(), all.size());
    }
    // The handles stay where they are.
    CellHandles(CellHandles &&) noexcept = default;
    CellHandles &operator=(CellHandles &&) = delete;
    ~CellHandles() {
        if (!all.empty()) (void)kfifo_abandon(all.data(), all.size());
    }

    // How many values may be in the queue, or a few more.
    std::size_t most() const { return (std::size_t(room) + all.size() * spare_cells) * generations; }

    std::vector<kfifo_handle> all;
    std::uint32_t room, generations;
    kfifo_status status;
};

// Where the value of a cell is. The block of a cell begins at a multiple of 16.
template <typename T> void *place_in(const kfifo_cell_at &cell) {
    auto block = static_cast<std::byte *>(cell.block);
    if constexpr (alignof(T) > 16) block += -reinterpret_cast<std::uintptr_t>(block) & (alignof(T) - 1);
    return block + std::size_t(cell.index) * sizeof(T);
}

template <typename T> T &value_in(const kfifo_cell_at &cell) {
    return *std::launder(static_cast<T *>(place_in<T>(cell)));
}

} // namespace detail

} // namespace kfifo

#endif
