// The handle of a queue of values, and the range of what comes out of one.
#ifndef KFIFO_VALUE_HANDLE_HPP
#define KFIFO_VALUE_HANDLE_HPP

#include "../kfifo.h"
#include "../kfifo_many.h"
#include "../kfifo_wait.h"
#include "answers.hpp"
#include "calls.hpp"
#include "value_queue.hpp"

#include <chrono>
#include <cstddef>
#include <cstdint>
#include <iterator>
#include <memory>
#include <new>
#include <optional>
#include <type_traits>
#include <utility>

#if __cplusplus >= 202002L && __has_include(<ranges>)
#include <ranges>
#endif

namespace kfifo {

// What a thread makes its calls with. It can be moved, also to another thread between two calls, and not copied.
// Each call that gives a value wakes a thread that waits for one, and each that takes one a thread that waits for
// room.
template <typename T> class ValueQueue<T>::Handle {
  public:
    Handle(Handle &&other) noexcept : state(std::move(other.state)), handle(other.handle), kept(other.kept) {}
    Handle &operator=(Handle &&other) noexcept {
        std::swap(state, other.state);
        std::swap(handle, other.handle);
        std::swap(kept, other.kept);
        return *this;
    }
    Handle(const Handle &) = delete;
    Handle &operator=(const Handle &) = delete;
    ~Handle() {
        if (!state) return;
        { detail::InCall in_call(handle, "the end of a kfifo::ValueQueue::Handle"); }
        state->kept[which()] = kept;
        state->return_handle(which());
        kfifo_caller_goes(state->waits());
    }

    // Gives a value to the queue: done, full, no_memory, finished or worn. On any answer but done the value is what
    // it was. It does not wait. Full says that as many values as the queue was opened for are in it, or in the
    // hands of calls; no_memory that it was to grow, and an allocation failed.
    // Cost: some 150 instructions, of which a few are atomic steps, and a move of T. It asks for memory only where
    // it opens a generation.
    //
    //     if (giver.give(std::move(word)) != kfifo::Put::done) std::puts(word.c_str()); // it is still ours
    //
    // If there was no memory for the next generation until the reserve was used up, takes answer Miss::worn. They
    // may then no longer reach a value whose give answered done: ValueQueue::close gives it back.
    //
    // Where no move of T throws, the value is moved into a cell, and back where the queue refuses it. Else it is
    // copied, and not moved: if the copy throws, nothing was done. A T that cannot be copied and whose moves may
    // throw is moved all the same: if a move throws, the value is not in the queue, and its state is what that
    // move makes of it.
    Put give(T &&value) { return give_by(detail::UnlessBusy(), std::move(value)); }

    // Gives a copy, which is made in its cell: the same answers. If the copy throws, nothing was done.
    // Cost: the same, with a copy of T.
    //
    //     const std::string copied("copied");
    //     if (giver.give(copied) != kfifo::Put::done) return 1;
    Put give(const T &value) {
        return put(
            detail::UnlessBusy(), [&](Reserved &cell) { cell.make(value); }, [](T &) {});
    }

    // Makes a value of these arguments in its cell, and gives it. If the constructor throws, nothing was given. On
    // any answer but done, which are those of give, the value is destroyed, or none was made. It does not wait.
    // Cost: as give, with that constructor of T.
    //
    //     if (giver.emplace(3, 'x') != kfifo::Put::done) return 1;
    template <typename... Arguments> Put emplace(Arguments &&...arguments) {
        return put(
            detail::UnlessBusy(), [&](Reserved &cell) { cell.make(std::forward<Arguments>(arguments)...); },
            [](T &) {});
    }

    // Takes one of the k oldest values: the value, or empty, finished or worn. It does not wait.
    // Cost: some 150 instructions, of which a few are atomic steps, a move of T, and a look into each older
    // generation.
    //
    //     kfifo::TakenValue<std::string> taken = taker.take();
    //     if (!taken.value) std::puts(kfifo::text(taken.why));
    //
    // Where a move of T may throw and T can be copied, the value is copied out. If that throws, nothing is lost:
    // the value is the handle's, and its next take, or that of the next one to have this handle, takes it first.
    TakenValue<T> take() { return take_by(detail::UnlessBusy()); }

    // The same three, but bounded: each look at the queue makes at most 65,535 rounds, after which the answer is
    // busy. That comes only where another thread changed the queue in the meantime.
    // Cost: as theirs.
    //
    //     if (giver.give_once("once") != kfifo::Put::done) std::puts("it is busy, or refused as by give");
    //     if (giver.emplace_once(2, 'o') != kfifo::Put::done) std::puts("it is busy, or refused as by give");
    //     kfifo::TakenValue<std::string> once = taker.take_once();
    //     if (!once.value && once.why == kfifo::Miss::busy) std::puts("a later call may do better");
    Put give_once(T &&value) { return give_by(detail::Once(), std::move(value)); }

    template <typename... Arguments> Put emplace_once(Arguments &&...arguments) {
        return put(
            detail::Once(), [&](Reserved &cell) { cell.make(std::forward<Arguments>(arguments)...); }, [](T &) {});
    }

    TakenValue<T> take_once() { return take_by(detail::Once()); }

    // Gives a value, and sleeps while there is no room for it: Put::done, Put::no_memory, Put::finished or
    // Put::worn.
    // Cost: as give where it need not sleep.
    //
    //     if (giver.give_wait("second") != kfifo::Put::done) return 1;
    Put give_wait(T &&value) { return give_by(within(KFIFO_WAITS_GIVER, KFIFO_FOREVER), std::move(value)); }

    // The same with a copy, which is made in its cell, and with a value that is made there of these arguments. Each
    // is made when a cell is free, and destroyed where the queue then refuses it.
    // Cost: as give and emplace where it need not sleep.
    //
    //     if (giver.give_wait(copied) != kfifo::Put::done) return 1;
    //     if (giver.emplace_wait(3, 'y') != kfifo::Put::done) return 1;
    Put give_wait(const T &value) {
        return put(
            within(KFIFO_WAITS_GIVER, KFIFO_FOREVER), [&](Reserved &cell) { cell.make(value); }, [](T &) {});
    }

    template <typename... Arguments> Put emplace_wait(Arguments &&...arguments) {
        return put(
            within(KFIFO_WAITS_GIVER, KFIFO_FOREVER),
            [&](Reserved &cell) { cell.make(std::forward<Arguments>(arguments)...); }, [](T &) {});
    }

    // As emplace_wait, for that time at most: also timed_out.
    // Cost: as emplace where it need not sleep.
    //
    //     if (giver.emplace_for(std::chrono::seconds(1), 3, 'z') != kfifo::Put::done) return 1;
    template <typename Rep, typename Period, typename... Arguments>
    Put emplace_for(const std::chrono::duration<Rep, Period> &time, Arguments &&...arguments) {
        return put(
            within(KFIFO_WAITS_GIVER, detail::nanoseconds_of(time)),
            [&](Reserved &cell) { cell.make(std::forward<Arguments>(arguments)...); }, [](T &) {});
    }

    // Takes a value, and sleeps while there is none: a value, Miss::finished or Miss::worn.
    // Cost: as take where it need not sleep.
    //
    //     while (auto value = taker.take_wait().value) all += *value;
    TakenValue<T> take_wait() { return take_by(within(KFIFO_WAITS_TAKER, KFIFO_FOREVER)); }

    // The same for that time at most: also timed_out. A negative time is 0, with which the call does not sleep.
    // Cost: as give and take where it need not sleep.
    //
    //     if (giver.give_for("soon", std::chrono::seconds(1)) != kfifo::Put::done) return 1;
    //     auto late = taker.take_for(std::chrono::milliseconds(1));
    template <typename Rep, typename Period> Put give_for(T &&value, const std::chrono::duration<Rep, Period> &time) {
        return give_by(within(KFIFO_WAITS_GIVER, detail::nanoseconds_of(time)), std::move(value));
    }

    template <typename Rep, typename Period> TakenValue<T> take_for(const std::chrono::duration<Rep, Period> &time) {
        return take_by(within(KFIFO_WAITS_TAKER, detail::nanoseconds_of(time)));
    }

    // The same until a time of some clock. If the clock is set meanwhile, that is seen when the time is up by the
    // clock as it was.
    // Cost: as give and take where it need not sleep, and a look at the clock.
    //
    //     auto soon = std::chrono::steady_clock::now() + std::chrono::milliseconds(1);
    //     if (giver.give_until("by then", soon) != kfifo::Put::done) return 1;
    //     auto later = taker.take_until(soon);
    template <typename Clock, typename Duration>
    Put give_until(T &&value, const std::chrono::time_point<Clock, Duration> &end) {
        return give_by(until(KFIFO_WAITS_GIVER, end), std::move(value));
    }

    template <typename Clock, typename Duration>
    TakenValue<T> take_until(const std::chrono::time_point<Clock, Duration> &end) {
        return take_by(until(KFIFO_WAITS_TAKER, end));
    }

    // Gives each value of a range, until the queue takes no more. It does not wait, and wakes a thread for each
    // when it ends. What is not given stays as it was, from `rest` of the result on, and `why` is done, full,
    // no_memory, finished or worn.
    // Cost: as a give for each value, with one look in all for threads that wait.
    //
    //     auto gave = giver.give_all(kfifo::moving(words));
    //     words.erase(words.begin(), gave.rest.base()); // what is not given is still here
    //
    // The values are copied, or moved where the range is kfifo::moving(words), or another one of T &&. What T or
    // the range throws comes out of the call: the values before that one are in the queue, and it is as `give`
    // leaves it. A range that is gone after the call is refused, since what was not given would go with it. Where
    // the range can be read but once, as taker.values(), it may wait: then the call wakes other threads before each
    // step.
    template <typename Range> auto give_all(Range &&range);
    template <typename Iterator, typename End> GaveAll<Iterator> give_all(Iterator first, End end);

    // The same, but they sleep while there is no room for the next value: done, no_memory, finished or worn.
    // give_all_for and give_all_until do so for a time at most, that of all their waits: also timed_out. Before
    // each wait they wake the threads that wait for the values that are given.
    // Cost: as give_all where they need not sleep.
    //
    //     auto all_gave = giver.give_all_wait(kfifo::moving(words));
    //     if (all_gave.why != kfifo::Put::done) std::puts(kfifo::text(all_gave.why));
    //     auto in_time = giver.give_all_for(words, std::chrono::seconds(1));
    //     auto by_then = giver.give_all_until(words.begin(), words.end(), soon);
    template <typename Range> auto give_all_wait(Range &&range);
    template <typename Iterator, typename End> GaveAll<Iterator> give_all_wait(Iterator first, End end);
    template <typename Range, typename Rep, typename Period>
    auto give_all_for(Range &&range, const std::chrono::duration<Rep, Period> &time);
    template <typename Iterator, typename End, typename Rep, typename Period>
    GaveAll<Iterator> give_all_for(Iterator first, End end, const std::chrono::duration<Rep, Period> &time);
    template <typename Range, typename Clock, typename Duration>
    auto give_all_until(Range &&range, const std::chrono::time_point<Clock, Duration> &time);
    template <typename Iterator, typename End, typename Clock, typename Duration>
    GaveAll<Iterator> give_all_until(Iterator first, End end, const std::chrono::time_point<Clock, Duration> &time);

    // Takes values until there are `most` or the queue has no more, and puts them at the end of a container. It
    // does not wait, and wakes a thread for each when it ends. What T or the container throws comes out of the
    // call, and nothing is lost: the values before are in the container, and the next take of the handle begins
    // with that one. `why` of the result is empty, finished or worn, or nothing where it took `most`.
    // Cost: as a take for each value and one more that finds none, with one look in all for threads that wait, and
    // one release.
    //
    //     auto took = taker.take_up_to(64, read);
    //     if (took.why == kfifo::Miss::finished) is_over = true;
    template <typename Container> TookUpTo take_up_to(std::size_t most, Container &out);

    // The same, but returns the values, at most as many as there may be in the queue at a time. Where T throws
    // after the first one, the call ends with those before, and the next take of the handle throws.
    // Cost: the same, and memory for the vector.
    //
    //     auto few = taker.take_up_to(2).values;
    TakenValues<T> take_up_to(std::size_t most);

    // The same two, but they sleep until there is a value, and then take what is there: one at least, else
    // finished or worn. take_up_to_for and take_up_to_until do so for a time at most: also timed_out.
    // Cost: as take_up_to where they need not sleep.
    //
    //     auto batch = taker.take_up_to_for(64, std::chrono::milliseconds(1));
    //     auto last_batch = taker.take_up_to_until(64, soon);
    //     while (taker.take_up_to_wait(64, read).taken != 0) std::printf("%zu are read\n", read.size());
    template <typename Container> TookUpTo take_up_to_wait(std::size_t most, Container &out);
    TakenValues<T> take_up_to_wait(std::size_t most);
    template <typename Container, typename Rep, typename Period>
    TookUpTo take_up_to_for(std::size_t most, Container &out, const std::chrono::duration<Rep, Period> &time);
    template <typename Rep, typename Period>
    TakenValues<T> take_up_to_for(std::size_t most, const std::chrono::duration<Rep, Period> &time);
    template <typename Container, typename Clock, typename Duration>
    TookUpTo take_up_to_until(std::size_t most, Container &out, const std::chrono::time_point<Clock, Duration> &time);
    template <typename Clock, typename Duration>
    TakenValues<T> take_up_to_until(std::size_t most, const std::chrono::time_point<Clock, Duration> &time);

    // The values that come, until the queue is finished and empty: for (T value : handle.values()). It sleeps while
    // there is none, and throws Error with KFIFO_WORN where take answers Miss::worn.
    // Cost: a take_wait for each value.
    //
    //     for (std::string value : taker.values()) all += value;
    [[nodiscard]] Values values() {
        (void)usable();
        return Values(*this);
    }

    // Finishes the queue when the guard goes, also by an exception, so that no thread sleeps on. Keep the guard as
    // long as the thread gives.
    // Cost: two atomic steps, since the guard shares the queue, and a finish at its end.
    //
    //     auto end = giver.finish_at_end();
    FinishGuard finish_at_end() const {
        (void)usable();
        return FinishGuard(state);
    }

    // About how many values are in the queue. Calls that run meanwhile are counted or not.
    // Cost: as kfifo_len.
    //
    //     std::size_t backlog = taker.len();
    [[nodiscard]] std::size_t len() {
        (void)usable();
        detail::InCall in_call(handle, "len of kfifo::ValueQueue");
        return kfifo_len(handle);
    }

    // Whether len() is 0.
    // Cost: as len.
    //
    //     if (taker.is_empty()) rest();
    [[nodiscard]] bool is_empty() { return len() == 0; }

    // Says that no more values will come, as ValueQueue::finish.
    // Cost: an atomic step and two calls of the system.
    //
    //     giver.finish();
    void finish() { (void)kfifo_finish_by(usable()); }

  private:
    friend class ValueQueue;
    Handle(std::shared_ptr<State> of, std::size_t number)
        : state(std::move(of)), handle(&state->handles.all[number]), kept(state->kept[number]) {
        kfifo_caller_comes(state->waits());
    }

    std::size_t which() const { return std::size_t(handle - state->handles.all.data()); }

    kfifo_waits *usable() const {
        if (!state) detail::raise(Error(KFIFO_BAD_CALL, "the handle was moved from"));
        return KFIFO_WAITS(handle);
    }

    detail::Within within(std::uint32_t kind, std::uint64_t nanoseconds) const {
        return detail::Within(usable(), kind, nanoseconds);
    }

    template <typename Clock, typename Duration>
    detail::Until<Clock, Duration> until(std::uint32_t kind,
                                         const std::chrono::time_point<Clock, Duration> &end) const {
        return detail::Until<Clock, Duration>(usable(), kind, end);
    }

    // The cell that a give has reserved. Where the give comes to nothing, also by an exception, this destroys what
    // is left of the value, and gives the cell back: no other handle can have one that stays reserved.
    struct Reserved {
        explicit Reserved(Handle &of) : by(of) {}
        Reserved(const Reserved &) = delete;
        ~Reserved() {
            if (cell.block) give_back();
        }
        kfifo_status reserve() { return kfifo_bare_reserve(by.handle, &cell); }
        template <typename... Arguments> void make(Arguments &&...arguments) {
            ::new (detail::place_in<T>(cell)) T(std::forward<Arguments>(arguments)...);
            is_made = true;
        }
        T &value() { return detail::value_in<T>(cell); }
        void give_back() {
            if (is_made) value().~T();
            is_made = false;
            cell.block = nullptr;
            (void)kfifo_bare_cancel(by.handle);
        }
        // Once it is published another thread may have the cell.
        void is_published() { cell.block = nullptr; }

        Handle &by;
        kfifo_cell_at cell{};
        bool is_made = false;
    };

    // Reserves a cell, makes a value in it and publishes it by this call. A value that is refused is handed back.
    template <kfifo_status (*publish)(kfifo_handle *) = detail::publish_cell, typename Calls, typename Make,
              typename Back>
    Put put(Calls calls, Make make, Back back) {
        (void)usable();
        detail::InCall in_call(handle, "a give of kfifo::ValueQueue");
        Reserved reserved(*this);
        kfifo_status status = calls(handle, [&] { return reserved.reserve(); });
        if (status != KFIFO_DONE) return detail::given(status);
        make(reserved);
        status = calls(handle, [&] { return publish(handle); });
        if (__builtin_expect(status == KFIFO_WORN, 0)) status = put_on<publish>(calls, reserved, back);
        if (status == KFIFO_DONE)
            reserved.is_published();
        else if (reserved.is_made)
            back(reserved.value());
        return detail::given(status);
    }

    // Where the generation of a cell takes no more values: moves the value on, to a cell of the next generation. On
    // the way it is in no cell, since the old one may be gone once it is given back. WORN comes where there is no
    // next generation.
    template <kfifo_status (*publish)(kfifo_handle *), typename Calls, typename Back>
    __attribute__((noinline, cold)) kfifo_status put_on(Calls &calls, Reserved &reserved, Back &back) {
        kfifo_status status = KFIFO_WORN;
        for (void *worn = nullptr; status == KFIFO_WORN && reserved.cell.block != worn;) {
            worn = reserved.cell.block;
            std::optional<T> carried(std::in_place, std::move_if_noexcept(reserved.value()));
            reserved.give_back();
            status = calls(handle, [&] { return reserved.reserve(); });
            if (status == KFIFO_DONE) {
                reserved.make(std::move_if_noexcept(*carried));
                status = calls(handle, [&] { return publish(handle); });
            } else {
                back(*carried);
            }
        }
        return status;
    }

    template <kfifo_status (*publish)(kfifo_handle *) = detail::publish_cell, typename Calls>
    Put give_by(Calls calls, T &&value) {
        constexpr bool comes_back = std::is_nothrow_move_constructible_v<T> && std::is_nothrow_move_assignable_v<T>;
        if constexpr (comes_back || !std::is_copy_constructible_v<T>) {
            static_assert(std::is_move_assignable_v<T>,
                          "a value that is refused cannot be moved or copied back: make it by emplace");
            return put<publish>(
                calls, [&](Reserved &cell) { cell.make(std::move(value)); },
                [&](T &refused) { value = std::move(refused); });
        } else {
            return put<publish>(
                calls, [&](Reserved &cell) { cell.make(std::as_const(value)); }, [](T &) {});
        }
    }

    // Ends a take: destroys what is left of the value and releases its cell, or keeps both for the next take where
    // the value could not be moved out. Either looks for givers that wait: before the release the look would miss
    // one that then finds no room.
    struct Received {
        Received(Handle &of, const kfifo_cell_at &what) : by(of), cell(what) {}
        Received(const Received &) = delete;
        ~Received() {
            if (!is_out) {
                by.kept = cell;
                (void)kfifo_after_take(KFIFO_WAITS(by.handle), KFIFO_DONE);
                return;
            }
            detail::value_in<T>(cell).~T();
            (void)kfifo_bare_release(by.handle);
        }
        // The value is moved out.
        Miss out() {
            is_out = true;
            return Miss::empty;
        }
        Handle &by;
        kfifo_cell_at cell;
        bool is_out = false;
    };

    // Takes the cell that was kept, or none.
    kfifo_cell_at take_kept() {
        kfifo_cell_at cell = kept;
        // Where there is none, nothing is written. Handles in an array share cache lines: if each take wrote its
        // handle, it would take the line from the other threads.
        if (__builtin_expect(cell.block != nullptr, 0)) kept.block = nullptr;
        return cell;
    }

    // Receives a cell. Where it gets none, it wakes a thread that waits for room: else Received does so.
    kfifo_status look(kfifo_waits *waits, kfifo_cell_at *cell) {
        kfifo_status status = kfifo_bare_receive(handle, cell);
        if (status == KFIFO_DONE) return status;
        (void)kfifo_after_take(waits, status);
        if (status != KFIFO_EMPTY || !kfifo_is_finished(waits)) return status;
        // A value may have come between the look and the end.
        status = kfifo_bare_receive(handle, cell);
        if (status == KFIFO_DONE) return status;
        (void)kfifo_after_take(waits, status);
        return status == KFIFO_EMPTY ? KFIFO_FINISHED : status;
    }

    // Hands `use` a value that was taken, and `none` the answer where none was. What `use` makes of the value is
    // made where the caller wants it, since a move on the way could throw when the value's cell is gone.
    template <typename Calls, typename Use, typename None> auto receive(Calls calls, Use use, None none) {
        kfifo_waits *waits = usable();
        detail::InCall in_call(handle, "a take of kfifo::ValueQueue");
        kfifo_cell_at cell = take_kept();
        if (!cell.block) {
            kfifo_status status = calls(handle, [&] { return look(waits, &cell); });
            if (status != KFIFO_DONE) return none(static_cast<Miss>(detail::checked(status)));
        }
        Received received(*this, cell);
        return use(detail::value_in<T>(cell), received);
    }

    template <typename Calls> TakenValue<T> take_by(Calls calls) {
        return receive(
            calls,
            [](T &value, Received &received) {
                return TakenValue<T>{std::optional<T>(std::in_place, std::move_if_noexcept(value)), received.out()};
            },
            [](Miss why) {
                return TakenValue<T>{std::nullopt, why};
            });
    }

    template <typename Calls, typename Reference> Put give_one(Calls calls, Reference &&value);
    template <typename Calls, typename Iterator, typename End>
    GaveAll<Iterator> give_all_by(Calls calls, Iterator first, End end);
    struct LastCell;
    template <typename Calls, typename Container> TookUpTo take_up_to_by(Calls calls, std::size_t most, Container &out);
    template <typename Calls> TakenValues<T> take_up_to_by(Calls calls, std::size_t most);

    std::shared_ptr<State> state;
    kfifo_handle *handle; // of the state
    kfifo_cell_at kept;   // the cell whose value a take could not move out, or none
};

// What comes out of a queue until its end, as a range, in C++20 a view: handle.values() | std::views::take(3). One
// pass, by the handle that it is of. A value is taken when it is asked for, or whether there is one.
template <typename T>
class ValueQueue<T>::Values
#ifdef __cpp_lib_ranges
    : public std::ranges::view_base
#endif
{
  public:
    struct End {};
    class Iterator {
      public:
        using iterator_category = std::input_iterator_tag;
        using value_type = T;
        using difference_type = std::ptrdiff_t;
        using pointer = T *;
        using reference = T &&;

        explicit Iterator(Handle &of) : handle(&of) {}
        T &&operator*() const {
            look();
            return std::move(*value);
        }
        Iterator &operator++() {
            look();
            value.reset();
            has_looked = false;
            return *this;
        }
        void operator++(int) { ++*this; }
        bool operator==(End) const {
            look();
            return !value;
        }
        bool operator!=(End end) const { return !(*this == end); }

      private:
        // What comes after an iterator that nobody asks stays in the queue, as with std::views::take.
        void look() const {
            if (has_looked) return;
            handle->receive(
                handle->within(KFIFO_WAITS_TAKER, KFIFO_FOREVER),
                [this](T &taken, auto &received) {
                    value.emplace(std::move_if_noexcept(taken));
                    received.out();
                },
                [](Miss why) {
                    if (why == Miss::worn) detail::raise(Error(KFIFO_WORN));
                });
            has_looked = true;
        }
        Handle *handle;
        mutable std::optional<T> value;
        mutable bool has_looked = false;
    };

    Iterator begin() const { return Iterator(*handle); }
    End end() const { return {}; }

  private:
    friend class Handle;
    explicit Values(Handle &of) : handle(&of) {}
    Handle *handle;
};

} // namespace kfifo

#endif
