// The queue under test, behind one interface: what its maker, puts and gets may be and may return.
#ifndef KFIFO_TEST_SUBJECT_HPP
#define KFIFO_TEST_SUBJECT_HPP

#include "../kfifo_judge.h"
#include "design.hpp"
#include "interface.hpp"
#include "log.hpp"
#include "machine.hpp"

#include <cstddef>
#include <cstdint>
#include <functional>
#include <memory>
#include <optional>
#include <type_traits>
#include <utility>
#include <vector>

namespace kfifo::checking {

inline Answer answer_of(bool done) noexcept { return done ? Answer::done : Answer::full; }
inline Answer answer_of(Answer answer) noexcept { return answer; }
inline Got got_of(const Got &got) noexcept { return got; }
template <class Item, class = std::enable_if_t<std::is_integral_v<Item> || std::is_enum_v<Item>>>
Got got_of(const std::optional<Item> &item) noexcept {
    return item ? Got{Answer::got, static_cast<std::uint64_t>(*item)} : Got{Answer::empty, 0};
}

// What a thread does in a round.
struct Task {
    const Design &design;
    unsigned thread;
    std::uint32_t first_item; // the thread's items begin here
    std::uint32_t repeated;   // or, where this is not 0, are drawn from 1 to this
};

// A queue, with what each thread gives to put and get.
class Instance {
  public:
    virtual ~Instance() = default;
    // Puts the items that fill the queue, and returns how many were tried.
    virtual std::uint32_t fill(Log &log, const Task &task, Random &random) = 0;
    virtual void work(Log &log, const Task &task, Random &random, std::uint32_t used) = 0;
    // Gets until the queue is empty. Returns false if it is still not empty after that many calls.
    virtual bool drain(Log &log, unsigned calls) = 0;
};

using Maker = std::function<std::unique_ptr<Instance>(std::size_t capacity, unsigned threads)>;

template <class T> T &inside(T &queue) { return queue; }
template <class T, class Deleter> T &inside(std::unique_ptr<T, Deleter> &queue) { return *queue; }
template <class T> T &inside(std::shared_ptr<T> &queue) { return *queue; }

template <class Make> decltype(auto) make_queue(Make &make, std::size_t capacity) {
    if constexpr (std::is_invocable_v<Make &, std::size_t>)
        return make(capacity);
    else
        return (void)capacity, make();
}

// Holds what the maker returns, which need not be movable.
template <class Make> struct Held {
    using Made = decltype(make_queue(std::declval<Make &>(), 0));
    Held(Make &make, std::size_t capacity) : made(make_queue(make, capacity)) {}
    Made made;
    auto &queue() { return inside(made); }
};

// For queues without handles: the thread's calls go to the queue itself.
struct NoHandles {};

// Whether what a put or a get returns tells what it did.
template <class Result, class = void> constexpr bool tells_put = false;
template <class Result>
constexpr bool tells_put<Result, std::void_t<decltype(answer_of(std::declval<Result>()))>> = true;
template <class Result, class = void> constexpr bool tells_get = false;
template <class Result> constexpr bool tells_get<Result, std::void_t<decltype(got_of(std::declval<Result>()))>> = true;

// Whether put and get can be called with a queue, or with a handle, of this type.
template <class Target, class Put, class Get> constexpr bool can_call() {
    constexpr bool can_put = std::is_invocable_v<Put &, Target &, std::uint32_t>;
    constexpr bool can_get = std::is_invocable_v<Get &, Target &>;
    static_assert(can_put, "put has to take (queue, std::uint32_t item), or the handle in place of the queue");
    static_assert(can_get, "get has to take (queue), or the handle in place of the queue");
    if constexpr (can_put && can_get) {
        constexpr bool puts = tells_put<std::invoke_result_t<Put &, Target &, std::uint32_t>>;
        constexpr bool gets = tells_get<std::invoke_result_t<Get &, Target &>>;
        static_assert(puts, "put has to return bool, whether the item is in the queue, or kfifo::Answer");
        static_assert(gets, "get has to return a std::optional of a whole number, or kfifo::Got");
        return puts && gets;
    }
    return false;
}

// Whether the functions of a check can be called as it calls them. What cannot is reported in one line, and nothing of
// it is compiled further.
template <class Make, class Handle, class Put, class Get> constexpr bool can_check() {
    constexpr bool makes = std::is_invocable_v<Make &, std::size_t> || std::is_invocable_v<Make &>;
    static_assert(makes, "the maker has to take (std::size_t capacity) or nothing, and to return a new queue, or a "
                         "std::unique_ptr or std::shared_ptr to one");
    if constexpr (makes) {
        using Made = decltype(make_queue(std::declval<Make &>(), 0));
        constexpr bool is_queue = !std::is_reference_v<Made> && !std::is_void_v<Made>;
        static_assert(is_queue, "the maker has to return a queue, or a std::unique_ptr or std::shared_ptr to one, and "
                                "no reference");
        if constexpr (is_queue) {
            using Queue = std::remove_reference_t<decltype(inside(std::declval<Made &>()))>;
            if constexpr (std::is_same_v<Handle, NoHandles>) {
                return can_call<Queue, Put, Get>();
            } else {
                constexpr bool hands = std::is_invocable_v<Handle &, Queue &, unsigned>;
                static_assert(hands,
                              "handle has to take (queue, unsigned thread), and to return what put and get take");
                if constexpr (hands) {
                    using Own = std::remove_reference_t<std::invoke_result_t<Handle &, Queue &, unsigned>>;
                    return can_call<std::remove_reference_t<decltype(inside(std::declval<Own &>()))>, Put, Get>();
                }
            }
        }
    }
    return false;
}

template <class Make, class Handle, class Put, class Get> class Subject final : public Instance {
    using Queue = std::remove_reference_t<decltype(std::declval<Held<Make> &>().queue())>;
    struct Own { // the handle of a thread, which need not be movable either
        Own(Handle &handle, Queue &queue, unsigned thread) : made(handle(queue, thread)) {}
        std::invoke_result_t<Handle &, Queue &, unsigned> made;
    };
    struct None {};
    static constexpr bool HAS_HANDLES = !std::is_same_v<Handle, NoHandles>;
    using Owned = std::conditional_t<HAS_HANDLES, Own, None>;

  public:
    Subject(Make &make, Handle &handle, Put &put, Get &get, std::size_t capacity, unsigned threads)
        : held(make, capacity), put_(put), get_(get) {
        if constexpr (HAS_HANDLES)
            for (unsigned i = 0; i < threads; i++) handles.emplace_back(new Owned(handle, held.queue(), i));
        else
            (void)handle, (void)threads;
    }

    std::uint32_t fill(Log &log, const Task &task, Random &random) override {
        const unsigned items = task.design.fills(task.thread);
        for (unsigned i = 0; i < items; i++) put(log, task.thread, item(task, random, i));
        return items;
    }

    void work(Log &log, const Task &task, Random &random, std::uint32_t used) override {
        Choice choice(task.design, task.thread, random);
        for (unsigned i = 0; i < task.design.calls; i++) {
            if (task.design.pauses)
                for (std::uint64_t spins = random.below(51); spins > 0; spins--) relax();
            if (choice.next())
                put(log, task.thread, item(task, random, used++));
            else
                get(log, task.thread);
        }
    }

    bool drain(Log &log, unsigned calls) override {
        for (unsigned i = 0; i < calls; i++) {
            const Answer answer = get(log, 0);
            if (answer == Answer::empty) return true;
            if (answer == Answer::worn) return false;
        }
        return false;
    }

  private:
    static std::uint32_t item(const Task &task, Random &random, std::uint32_t used) noexcept {
        if (task.repeated > 0) return 1 + std::uint32_t(random.below(task.repeated));
        return task.first_item + used;
    }
    auto &target(unsigned thread) {
        if constexpr (HAS_HANDLES)
            return inside(handles[thread]->made);
        else
            return (void)thread, held.queue();
    }
    // The answer is looked at only after the time was read: a time too late would be right, but would say less.
    void put(Log &log, unsigned thread, std::uint32_t item) {
        auto &to = target(thread);
        log.begin(KFIFO_JUDGE_PUT, item);
        const auto answer = put_(to, item);
        log.end();
        log.keep(answer_of(answer), 0);
    }
    Answer get(Log &log, unsigned thread) {
        auto &from = target(thread);
        log.begin(KFIFO_JUDGE_GET, 0);
        const auto answer = get_(from);
        log.end();
        const Got got = got_of(answer);
        log.keep(got.answer, got.item);
        return got.answer;
    }

    Held<Make> held;
    Put &put_;
    Get &get_;
    std::vector<std::unique_ptr<Owned>> handles; // destroyed before the queue
};

} // namespace kfifo::checking

#endif
