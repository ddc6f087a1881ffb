// Many at once, for C++17: a part of kfifo.hpp, which includes it. The declarations there say what each call does.
#ifndef KFIFO_MANY_HPP
#define KFIFO_MANY_HPP

#include "kfifo.hpp"

#include <array>
#include <chrono>
#include <cstddef>
#include <cstdint>
#include <iterator>
#include <type_traits>
#include <utility>

namespace kfifo {

namespace detail {

// The values of a range, each as one that can be moved from.
template <typename Iterator, typename End> struct Moving {
    Iterator first;
    End last;
    Iterator begin() const { return first; }
    End end() const { return last; }
};

// Whether the iterators of a range that is handed over so are good after the call.
template <typename Range>
constexpr bool is_outlived = std::is_lvalue_reference_v<Range>
#ifdef __cpp_lib_ranges
                             || std::ranges::borrowed_range<Range>
#endif
    ;
template <typename Iterator, typename End> constexpr bool is_outlived<Moving<Iterator, End>> = true;

// Whether the range of an iterator can be read again, so that a step does not wait for anybody.
template <typename Iterator, typename = void> constexpr bool can_read_again = false;
template <typename Iterator>
constexpr bool can_read_again<Iterator, std::void_t<typename std::iterator_traits<Iterator>::iterator_category>> =
    std::is_base_of_v<std::forward_iterator_tag, typename std::iterator_traits<Iterator>::iterator_category>;

// Whether a container has its items in one array of such, which can be made longer and shorter.
template <typename Container, typename = void, typename = void> constexpr bool is_array_of_items = false;
template <typename Container>
constexpr bool is_array_of_items<Container, std::void_t<decltype(std::declval<Container &>().resize(std::size_t()))>,
                                 std::void_t<decltype(std::declval<Container &>().data())>> =
    std::is_same_v<decltype(std::declval<Container &>().data()), std::uint32_t *>;

template <typename Range> auto begin_of(Range &range) {
    using std::begin;
    return begin(range);
}

template <typename Range> auto end_of(Range &range) {
    using std::end;
    return end(range);
}

// The gives of a call, which wakes threads that wait for them when it ends, also by an exception.
class GivesMany {
  public:
    explicit GivesMany(kfifo_waits *of) : waits(of) {}
    GivesMany(const GivesMany &) = delete;
    GivesMany &operator=(const GivesMany &) = delete;
    ~GivesMany() { wake(); }

    // Calls `give` with each value of a range, until one is not done.
    template <typename Iterator, typename End, typename Give>
    GaveAll<Iterator> each(Iterator first, End end, Give give) {
        GaveAll<Iterator> all{0, std::move(first), Put::done};
        while (all.rest != end) {
            all.why = give(*all.rest);
            if (all.why != Put::done) break;
            all.given++;
            asleep++;
            if constexpr (!can_read_again<Iterator>) wake();
            ++all.rest;
        }
        return all;
    }

    // Calls `give` with arrays of the items of a range that can be read again, until one item is not done.
    template <typename Iterator, typename End, typename Give>
    GaveAll<Iterator> batches(Iterator first, End end, Give give) {
        GaveAll<Iterator> all{0, std::move(first), Put::done};
        std::array<std::uint32_t, KFIFO_AT_ONCE> items;
        while (all.rest != end && all.why == Put::done) {
            std::size_t count = 0, done = 0;
            for (Iterator it = all.rest; it != end && count < items.size(); ++it) items[count++] = *it;
            all.why = give(items.data(), count, done);
            all.given += done;
            asleep += done;
            for (; done; done--) ++all.rest;
        }
        return all;
    }

    void wake() { kfifo_after_gives(waits, std::exchange(asleep, 0)); }

  private:
    kfifo_waits *waits;
    std::size_t asleep = 0; // how many were given for which no taker was woken yet
};

// How a call of many is made again that waits by these: before a wait it wakes the threads that wait for what it has
// given, since they may make room.
template <typename Calls> struct WakingFirst {
    template <typename Call> kfifo_status operator()(const kfifo_handle *handle, Call call) const {
        kfifo_status status = call();
        if (!kfifo_may_retry(status)) return status;
        gives.wake();
        return calls(handle, call);
    }

    GivesMany &gives;
    Calls &calls;
};

// A call that does not wait need not wake anybody before its end.
inline UnlessBusy waking_first(GivesMany &, UnlessBusy calls) { return calls; }
template <typename Calls> WakingFirst<Calls> waking_first(GivesMany &gives, Calls &calls) { return {gives, calls}; }

// Refuses a range that is gone after the call, unless it is one of the values of a queue, which stay there.
template <typename Range, typename Values> constexpr void check_outlived() {
    static_assert(is_outlived<Range> || std::is_same_v<Range, Values>,
                  "what was not given would go with the range: give it a name");
}

// The takes of a call, which wakes threads that wait for room when it ends, also by an exception.
struct TakesMany {
    explicit TakesMany(kfifo_waits *of) : waits(of) {}
    TakesMany(const TakesMany &) = delete;
    TakesMany &operator=(const TakesMany &) = delete;
    ~TakesMany() { kfifo_after_takes(waits, all.taken); }

    kfifo_waits *waits;
    TookUpTo all;
};

} // namespace detail

// The values of a range, to be moved from. Those that are not given stay as they are. `rest` of the result is a
// std::move_iterator, whose base() is the place in the range.
// Cost: nothing.
//
//     auto all_gave = giver.give_all_wait(kfifo::moving(words));
template <typename Range> [[nodiscard]] auto moving(Range &range) {
    auto first = std::make_move_iterator(detail::begin_of(range));
    auto last = std::make_move_iterator(detail::end_of(range));
    return detail::Moving<decltype(first), decltype(last)>{first, last};
}

// ---- Items ----

template <typename Iterator, typename End> GaveAll<Iterator> Queue::Handle::enqueue_all(Iterator first, End end) const {
    using Item = std::decay_t<decltype(*first)>;
    static_assert(std::is_unsigned_v<Item> && sizeof(Item) <= sizeof(std::uint32_t),
                  "an item is a std::uint32_t, or of an unsigned type for which it has room");
    if (!KFIFO_WAITS(handle)) refuse(1, 0, 1, kfifo_status_text(KFIFO_BAD_CALL));
    if constexpr (detail::can_read_again<Iterator>) {
        for (Iterator it = first; it != end; ++it)
            if (std::uint32_t item = *it; !kfifo_are_items(&item, 1)) refuse(item, 0, 1, "");
    }
    auto result = [this](kfifo_status status, std::uint32_t item) { return put(status, item, 0, 1); };
    detail::GivesMany gives(KFIFO_WAITS(handle));
    if constexpr (detail::can_read_again<Iterator>) {
        return gives.batches(
            std::move(first), end, [&](const std::uint32_t *items, std::size_t count, std::size_t &done) {
                return result(kfifo_some_puts(KFIFO_WAITS(handle), handle, items, count, &done), items[0]);
            });
    } else {
        return gives.each(std::move(first), end, [&](std::uint32_t item) {
            bool is_item = kfifo_are_items(&item, 1);
            return result(is_item ? kfifo_one_put(KFIFO_WAITS(handle), handle, item) : KFIFO_BAD_CALL, item);
        });
    }
}

template <typename Range> auto Queue::Handle::enqueue_all(Range &&range) const {
    static_assert(detail::is_outlived<Range>, "what was not put would go with the range: give it a name");
    return enqueue_all(detail::begin_of(range), detail::end_of(range));
}

template <typename Container> TookUpTo Queue::Handle::dequeue_up_to(std::size_t most, Container &out) const {
    if (!KFIFO_WAITS(handle)) refuse(1, 0, 1, kfifo_status_text(KFIFO_BAD_CALL));
    detail::TakesMany takes(KFIFO_WAITS(handle));
    kfifo_status status = KFIFO_DONE;
    while (takes.all.taken < most && status == KFIFO_DONE) {
        // There are places before there are items.
        std::size_t done = 0;
        if constexpr (detail::is_array_of_items<Container>) {
            std::size_t size = out.size(), places = kfifo_at_once(most - takes.all.taken);
            out.resize(size + places);
            status = kfifo_some_gets(takes.waits, handle, out.data() + size, places, &done);
            out.resize(size + done);
        } else {
            out.push_back(0);
            std::uint32_t item = 0;
            status = kfifo_some_gets(takes.waits, handle, &item, 1, &done);
            if (done)
                out.back() = item;
            else
                out.pop_back();
        }
        takes.all.taken += done;
    }
    if (status != KFIFO_DONE) takes.all.why = taken(status, 0, 0, 1).why;
    return takes.all;
}

inline TakenItems Queue::Handle::dequeue_up_to(std::size_t most) const {
    TakenItems taken;
    KFIFO_TRY { taken.why = dequeue_up_to(most, taken.items).why; }
    KFIFO_CATCH {
        // There is no memory for more.
        if (taken.items.empty()) KFIFO_THROW_AGAIN;
    }
    return taken;
}

// ---- Values ----

// Gives what an iterator reads, and wakes nobody where that is done.
template <typename T>
template <typename Calls, typename Reference>
Put ValueQueue<T>::Handle::give_one(Calls calls, Reference &&value) {
    static_assert(std::is_convertible_v<Reference &&, T>,
                  "a value of the range cannot be copied or converted to one of the queue: see kfifo::moving");
    if constexpr (std::is_same_v<Reference &&, T &&>) {
        return give_by<detail::publish_one>(calls, std::move(value));
    } else {
        return put<detail::publish_one>(
            calls, [&](Reserved &cell) { cell.make(std::forward<Reference>(value)); }, [](T &) {});
    }
}

template <typename T>
template <typename Calls, typename Iterator, typename End>
GaveAll<Iterator> ValueQueue<T>::Handle::give_all_by(Calls calls, Iterator first, End end) {
    detail::GivesMany gives(usable());
    auto each = detail::waking_first(gives, calls);
    return gives.each(std::move(first), end, [this, each](auto &&value) {
        return this->give_one(each, std::forward<decltype(value)>(value));
    });
}

template <typename T>
template <typename Iterator, typename End>
GaveAll<Iterator> ValueQueue<T>::Handle::give_all(Iterator first, End end) {
    return give_all_by(detail::UnlessBusy(), std::move(first), end);
}

template <typename T> template <typename Range> auto ValueQueue<T>::Handle::give_all(Range &&range) {
    detail::check_outlived<Range, Values>();
    return give_all(detail::begin_of(range), detail::end_of(range));
}

template <typename T>
template <typename Iterator, typename End>
GaveAll<Iterator> ValueQueue<T>::Handle::give_all_wait(Iterator first, End end) {
    return give_all_by(within(KFIFO_WAITS_GIVER, KFIFO_FOREVER), std::move(first), end);
}

template <typename T> template <typename Range> auto ValueQueue<T>::Handle::give_all_wait(Range &&range) {
    detail::check_outlived<Range, Values>();
    return give_all_wait(detail::begin_of(range), detail::end_of(range));
}

template <typename T>
template <typename Iterator, typename End, typename Rep, typename Period>
GaveAll<Iterator> ValueQueue<T>::Handle::give_all_for(Iterator first, End end,
                                                      const std::chrono::duration<Rep, Period> &time) {
    return give_all_by(within(KFIFO_WAITS_GIVER, detail::nanoseconds_of(time)), std::move(first), end);
}

template <typename T>
template <typename Range, typename Rep, typename Period>
auto ValueQueue<T>::Handle::give_all_for(Range &&range, const std::chrono::duration<Rep, Period> &time) {
    detail::check_outlived<Range, Values>();
    return give_all_for(detail::begin_of(range), detail::end_of(range), time);
}

template <typename T>
template <typename Iterator, typename End, typename Clock, typename Duration>
GaveAll<Iterator> ValueQueue<T>::Handle::give_all_until(Iterator first, End end,
                                                        const std::chrono::time_point<Clock, Duration> &time) {
    return give_all_by(until(KFIFO_WAITS_GIVER, time), std::move(first), end);
}

template <typename T>
template <typename Range, typename Clock, typename Duration>
auto ValueQueue<T>::Handle::give_all_until(Range &&range, const std::chrono::time_point<Clock, Duration> &time) {
    detail::check_outlived<Range, Values>();
    return give_all_until(detail::begin_of(range), detail::end_of(range), time);
}

// The cell of the latest take of a call. The next one releases it, so that the last cell alone is released at the end.
// One whose value could not be moved out is kept with it.
template <typename T> struct ValueQueue<T>::Handle::LastCell {
    explicit LastCell(Handle &of) : by(of) {}
    LastCell(const LastCell &) = delete;
    LastCell &operator=(const LastCell &) = delete;
    ~LastCell() {
        if (has_value) {
            by.kept = cell;
            (void)kfifo_after_take(KFIFO_WAITS(by.handle), KFIFO_DONE);
        } else if (is_received) {
            (void)kfifo_bare_release(by.handle);
        }
    }

    // Takes a value, if there is one: that of the cell that was kept, or one of the queue.
    template <typename Calls> kfifo_status take(Calls &&calls, kfifo_waits *waits) {
        cell = by.take_kept();
        kfifo_status status = KFIFO_DONE;
        if (!cell.block) status = calls(by.handle, [&] { return by.look(waits, &cell); });
        is_received = has_value = status == KFIFO_DONE;
        return status;
    }

    T &value() { return detail::value_in<T>(cell); }

    // The value is moved out.
    void out() {
        value().~T();
        has_value = false;
    }

    Handle &by;
    kfifo_cell_at cell{};
    bool is_received = false, has_value = false;
};

// The first look for a value is by these calls, which may wait; then it takes what is there.
template <typename T>
template <typename Calls, typename Container>
TookUpTo ValueQueue<T>::Handle::take_up_to_by(Calls calls, std::size_t most, Container &out) {
    detail::TakesMany takes(usable());
    detail::InCall in_call(handle, "a take of kfifo::ValueQueue");
    LastCell last(*this);
    for (; takes.all.taken < most; takes.all.taken++) {
        kfifo_status status =
            takes.all.taken == 0 ? last.take(calls, takes.waits) : last.take(detail::UnlessBusy(), takes.waits);
        if (status != KFIFO_DONE) {
            takes.all.why = static_cast<Miss>(detail::checked(status));
            break;
        }
        out.push_back(std::move_if_noexcept(last.value()));
        last.out();
    }
    return takes.all;
}

template <typename T>
template <typename Calls>
TakenValues<T> ValueQueue<T>::Handle::take_up_to_by(Calls calls, std::size_t most) {
    (void)usable();
    TakenValues<T> taken;
    std::size_t room = state->handles.room;
    most = most < state->handles.most() ? most : state->handles.most();
    taken.values.reserve(most < room ? most : room);
    KFIFO_TRY { taken.why = take_up_to_by(std::move(calls), most, taken.values).why; }
    KFIFO_CATCH {
        if (taken.values.empty()) KFIFO_THROW_AGAIN;
    }
    return taken;
}

template <typename T>
template <typename Container>
TookUpTo ValueQueue<T>::Handle::take_up_to(std::size_t most, Container &out) {
    return take_up_to_by(detail::UnlessBusy(), most, out);
}

template <typename T> TakenValues<T> ValueQueue<T>::Handle::take_up_to(std::size_t most) {
    return take_up_to_by(detail::UnlessBusy(), most);
}

template <typename T>
template <typename Container>
TookUpTo ValueQueue<T>::Handle::take_up_to_wait(std::size_t most, Container &out) {
    return take_up_to_by(within(KFIFO_WAITS_TAKER, KFIFO_FOREVER), most, out);
}

template <typename T> TakenValues<T> ValueQueue<T>::Handle::take_up_to_wait(std::size_t most) {
    return take_up_to_by(within(KFIFO_WAITS_TAKER, KFIFO_FOREVER), most);
}

template <typename T>
template <typename Container, typename Rep, typename Period>
TookUpTo ValueQueue<T>::Handle::take_up_to_for(std::size_t most, Container &out,
                                               const std::chrono::duration<Rep, Period> &time) {
    return take_up_to_by(within(KFIFO_WAITS_TAKER, detail::nanoseconds_of(time)), most, out);
}

template <typename T>
template <typename Rep, typename Period>
TakenValues<T> ValueQueue<T>::Handle::take_up_to_for(std::size_t most, const std::chrono::duration<Rep, Period> &time) {
    return take_up_to_by(within(KFIFO_WAITS_TAKER, detail::nanoseconds_of(time)), most);
}

template <typename T>
template <typename Container, typename Clock, typename Duration>
TookUpTo ValueQueue<T>::Handle::take_up_to_until(std::size_t most, Container &out,
                                                 const std::chrono::time_point<Clock, Duration> &time) {
    return take_up_to_by(until(KFIFO_WAITS_TAKER, time), most, out);
}

template <typename T>
template <typename Clock, typename Duration>
TakenValues<T> ValueQueue<T>::Handle::take_up_to_until(std::size_t most,
                                                       const std::chrono::time_point<Clock, Duration> &time) {
    return take_up_to_by(until(KFIFO_WAITS_TAKER, time), most);
}

} // namespace kfifo

#endif
