// A queue of values of any type that can be moved.
#ifndef KFIFO_VALUE_QUEUE_HPP
#define KFIFO_VALUE_QUEUE_HPP

#include "../kfifo.h"
#include "../kfifo_wait.h"
#include "answers.hpp"
#include "calls.hpp"

#include <atomic>
#include <cstddef>
#include <cstdint>
#include <memory>
#include <optional>
#include <type_traits>
#include <unistd.h>
#include <utility>
#include <vector>

namespace kfifo {

template <typename T> struct [[nodiscard]] TakenValue {
    std::optional<T> value; // the value, if one was taken
    Miss why = Miss::empty; // else why not
};

template <typename T> struct [[nodiscard]] TakenValues {
    std::vector<T> values;
    std::optional<Miss> why; // why they are no more; none where they are as many as they were to be, or T threw
};

// A queue of values. Each thread takes a Handle of its own. The queue goes with the last of the ValueQueue and its
// handles, and with it the values that are left, which are destroyed.
//
//     kfifo::ValueQueue<std::string> queue(1, 512, 2); // k, capacity, threads
//     auto giver = queue.handle(), taker = queue.handle();
//     if (giver.give("first") != kfifo::Put::done) return 1;
//     if (giver.emplace(3, 'x') != kfifo::Put::done) return 1;
//     kfifo::TakenValue<std::string> taken = taker.take();
//     std::string word = taken.value.value_or("none yet");
//
// A value is made in a cell of the queue, stays there, and is moved out of it. T may be over-aligned, and needs no
// default constructor.
//
// The queue does not wear out: before the versions of its words are used up, it goes on in a new generation, as kfifo.h
// says. A give that finds its generation to be over moves its value on to the next one, as it would move it into the
// queue. Only the opening, a close and a give that opens a generation, once in some 2^40 calls or where the queue
// grows, allocate. Put::worn and Miss::worn come where there was no memory for the next generation until the reserve
// was used up too: then close the queue, which gives back what is left, and open another.
template <typename T> class ValueQueue {
    // T may be incomplete until a queue is opened: see ValueHandle.
    struct State {
        static_assert(std::is_object_v<T> && std::is_move_constructible_v<T> && std::is_nothrow_destructible_v<T>,
                      "a value is moved or copied out of the queue, and what is left of it destroyed");

        static_assert(alignof(T) <= 4096 && sizeof(T) <= UINT32_MAX,
                      "a cell has 4,294,967,295 bytes at most, aligned to 4,096");

        explicit State(detail::CellHandles of)
            : handles(std::move(of)), free_handles(all_handles()), kept(handles.all.size()) {
            kfifo_callers_are(waits(), 1); // the queue object
        }
        ~State() {
            if constexpr (!std::is_trivially_destructible_v<T>) (void)empty([](T &) {});
            kfifo_free_left(&closed);
        }

        kfifo_waits *waits() const { return KFIFO_WAITS(&handles.all[0]); }
        State(const State &) = delete;
        State &operator=(const State &) = delete;

        // A bit for each handle of the library, of which there are 1 to 64.
        std::uint64_t all_handles() const { return ~std::uint64_t(0) >> (64 - handles.all.size()); }

        // The number of one that nobody has, which is then in a Handle; none where each is in one. All are in one word,
        // so that none comes only where each was in a Handle at one moment. A step fails only where another thread's
        // step took that one: some thread goes on.
        std::optional<std::size_t> borrow_handle() {
            std::uint64_t free = free_handles.load(std::memory_order_relaxed);
            while (free != 0) {
                std::uint64_t lowest = free & (~free + 1);
                free = free_handles.fetch_and(~lowest, std::memory_order_acquire);
                if (free & lowest) return static_cast<std::size_t>(__builtin_ctzll(lowest));
            }
            return std::nullopt;
        }

        // Release here and acquire in borrow_handle suffice: all steps that the handle made come before those that it
        // makes next, also in the one order of all sequentially consistent steps.
        void return_handle(std::size_t number) {
            free_handles.fetch_or(std::uint64_t(1) << number, std::memory_order_release);
        }

        // Whether no handle is out. Then all calls that were made have ended.
        bool is_idle() const { return free_handles.load(std::memory_order_acquire) == all_handles(); }

        // Hands each value that is left to `use`, in the queue's order, and destroys it then. No handle is out. Where
        // `use` throws, the next call goes on with that value. Where a take comes to WORN, the library closes the
        // queue, and says what is left: that may come to NO_MEMORY or LOST.
        template <typename Use> kfifo_status empty(Use use) {
            is_closed = true;
            for (std::size_t i = 0; i < kept.size(); i++)
                if (kept[i].block) use_up(kept[i], use);
            kfifo_status status = next();
            for (; status == KFIFO_DONE; status = next()) use_up(kept[0], use);
            return status;
        }

        // Destroys a value that was handed to `use`. Its cell is released by the next receive, if it is to be.
        template <typename Use> void use_up(kfifo_cell_at &cell, Use use) {
            T &value = detail::value_in<T>(cell);
            use(value);
            value.~T();
            cell.block = nullptr;
        }

        // The next cell with a value: also EMPTY, where there is none.
        kfifo_status next() {
            if (KFIFO_WAITS(&handles.all[0])) {
                kfifo_status status = detail::UnlessBusy()(
                    &handles.all[0], [&] { return kfifo_bare_receive(&handles.all[0], &kept[0]); });
                if (status != KFIFO_WORN) return status;
                status = kfifo_close_cells(handles.all.data(), handles.all.size(), &closed);
                if (status != KFIFO_DONE) return status;
            }
            if (!closed.holds) return KFIFO_EMPTY; // they were lost
            return static_cast<kfifo_status>(kfifo_c_next_left(&closed, &kept[0]));
        }

        // Closes the queue. After it the values are in `left`, in the queue's order. Where there is no memory for them,
        // or a move throws, a further call goes on.
        void close() {
            kfifo_status status = empty([this](T &value) { left.push_back(std::move_if_noexcept(value)); });
            if (status != KFIFO_EMPTY) (void)detail::checked(status);
        }

        detail::CellHandles handles;
        std::atomic<std::uint64_t> free_handles; // a bit for each that is in no Handle
        std::vector<kfifo_cell_at> kept; // by handle that is in none: the cell whose value a take could not move out
        bool is_closed = false;
        kfifo_left closed{};
        std::vector<T> left;
    };

  public:
    class Handle;
    class Values;

    // Finishes the queue when it goes: Handle::finish_at_end.
    class [[nodiscard]] FinishGuard {
      public:
        FinishGuard(FinishGuard &&) noexcept = default;
        FinishGuard &operator=(FinishGuard &&) = delete;
        FinishGuard(const FinishGuard &) = delete;
        ~FinishGuard() {
            if (state && !state->is_closed) (void)kfifo_finish_by(state->waits());
        }

      private:
        friend class Handle;
        explicit FinishGuard(std::shared_ptr<State> of) : state(std::move(of)) {}
        std::shared_ptr<State> state;
    };

    // Room for `capacity` values or more, for `threads` threads: a take gets one of the k oldest. There is that much
    // room whatever the handles keep for themselves between their calls. With k = 1 values come out in their order;
    // with a greater k threads get in each other's way less. The greatest capacity is
    // threads * (1022 * k / threads - 32), divided downwards: with k = 1 a queue has at most 30 threads. Throws Error
    // where there is no such queue, and std::bad_alloc.
    // Cost: the memory of a generation is asked for here: that of (capacity + 32 * threads) values of T, some 30 bytes
    // for each of these, and 4,000 for each thread. The words of the queue are written.
    //
    //     kfifo::ValueQueue<std::string> queue(1, 512, 2); // k, capacity, threads
    ValueQueue(std::uint32_t k, std::uint32_t capacity, std::size_t threads)
        : ValueQueue(k, capacity, threads, Options()) {}

    // The same with options of your own. A queue that grows holds `capacity` values in each generation, memory
    // permitting, and frees empty generations. Throws Error also if an option is out of range.
    // Cost: the same. A give that opens a generation asks for as much again.
    //
    //     kfifo::Options options;
    //     options.grows = 100; // up to 51,200 values
    //     kfifo::ValueQueue<std::string> growing(1, 512, 2, options);
    ValueQueue(std::uint32_t k, std::uint32_t capacity, std::size_t threads, Options options)
        : ValueQueue(open(k, capacity, threads, options)) {}

    // The same, but they say why there is no such queue, and throw nothing: for builds without exceptions too. In those
    // a program that has no memory for the handles ends.
    // Cost: the same.
    //
    //     auto opened = kfifo::ValueQueue<std::string>::try_open(1, 512, 2); // k, capacity, threads
    //     if (!opened.queue) {
    //         std::fprintf(stderr, "no queue: %s\n", kfifo_status_text(opened.status));
    //         return 1;
    //     }
    static Opened<ValueQueue> try_open(std::uint32_t k, std::uint32_t capacity, std::size_t threads,
                                       Options options = Options()) {
        kfifo_status status = KFIFO_NO_MEMORY;
        KFIFO_TRY {
            detail::CellHandles handles = cells_of(k, capacity, threads, options);
            if (handles.status == KFIFO_DONE) return {ValueQueue(std::move(handles)), KFIFO_DONE};
            status = handles.status;
        }
        KFIFO_CATCH {}
        return {std::nullopt, status};
    }

    ValueQueue(const ValueQueue &) = delete;
    ValueQueue &operator=(const ValueQueue &) = delete;
    ValueQueue(ValueQueue &&) noexcept = default;
    ValueQueue &operator=(ValueQueue &&other) noexcept {
        std::swap(state, other.state);
        std::swap(was_closed, other.was_closed);
        return *this;
    }

    // Where one handle is left, its calls that wait end.
    ~ValueQueue() {
        if (state && !state->is_closed) kfifo_caller_goes(state->waits());
    }

    // A handle that nobody has. Throws Error if all handles were in use at once: never if there are as many handles as
    // threads, and no thread has two.
    // Cost: a few atomic steps, and at its end as many.
    //
    //     auto giver = queue.handle(), taker = queue.handle();
    [[nodiscard]] Handle handle() {
        if (usable().is_closed) detail::raise(Error(KFIFO_BAD_CALL, "the queue is closed"));
        std::optional<std::size_t> number = state->borrow_handle();
        if (!number) detail::raise(Error(KFIFO_BAD_CALL, "each handle of the queue is in use"));
        return Handle(state, *number);
    }

    // Says that no more values will come, and wakes all that wait. Any thread may call it, and again. A give that
    // begins after it answers finished; a take does so once the queue is empty. A give that it meets halfway may still
    // put its value in: call it when the producers have ended, or close the queue to have what is left.
    // Cost: an atomic step and two calls of the system.
    //
    //     queue.finish();
    void finish() {
        if (usable().is_closed) detail::raise(Error(KFIFO_BAD_CALL, "the queue is closed"));
        (void)kfifo_finish_by(state->waits());
    }

    // How many values the queue has room for at least, as it was opened: a queue that grows has room for that many in
    // each generation.
    // Cost: a read.
    //
    //     std::uint32_t capacity = queue.capacity();
    [[nodiscard]] std::uint32_t capacity() const { return usable().handles.room; }

    // Closes the queue and gives back the values that are left, in its order. Throws Error, and nothing changes, where
    // a handle is still out. Throws std::bad_alloc where there is no memory for the vector: no value is lost then. The
    // queue takes no more calls, but a further close gives them all back.
    // Cost: a take of each value, and memory for the vector.
    //
    //     std::vector<std::string> left = queue.close();
    //
    // Where a move of T may throw and T can be copied, the values are copied out. If that throws, no value is lost
    // either. If the queue is worn out, the library has to ask for memory to find what is left. If it gets none, the
    // call throws std::bad_alloc, and mostly a further one goes on. But if the library got a part of it, what is left
    // is lost, and its destructors do not run. Nor do they if such a queue is destroyed.
    [[nodiscard]] std::vector<T> close() {
        if (!usable().is_idle()) detail::raise(Error(KFIFO_BAD_CALL, "a handle of the queue is in use"));
        state->close();
        std::vector<T> values = std::move(state->left);
        state.reset();
        was_closed = true;
        return values;
    }

  private:
    explicit ValueQueue(detail::CellHandles handles) : state(std::make_shared<State>(std::move(handles))) {}

    static detail::CellHandles cells_of(std::uint32_t k, std::uint32_t capacity, std::size_t threads,
                                        const Options &options) {
        return {k, capacity, threads, std::uint32_t(sizeof(T)), std::uint32_t(alignof(T)), options};
    }

    static detail::CellHandles open(std::uint32_t k, std::uint32_t capacity, std::size_t threads,
                                    const Options &options) {
        detail::CellHandles handles = cells_of(k, capacity, threads, options);
        // The handles are there, so this is the one argument that is left.
        if (handles.status == KFIFO_BAD_CALL)
            detail::raise(Error(KFIFO_BAD_CALL, "the queue may not grow to so many generations"));
        detail::checked(handles.status);
        return handles;
    }

    State &usable() const {
        if (!state)
            detail::raise(Error(KFIFO_BAD_CALL, was_closed ? "the queue is closed" : "the queue was moved from"));
        return *state;
    }

    std::shared_ptr<State> state;
    bool was_closed = false;
};

// The handle of a queue of T by a name of its own, which a T that has such a handle can use in its declaration:
//
//     struct Request {
//         int question;
//         std::optional<kfifo::ValueHandle<Request>> answers;
//     };
template <typename T> using ValueHandle = typename ValueQueue<T>::Handle;

} // namespace kfifo

#endif
