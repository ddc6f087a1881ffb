// A queue of values in C++ whose types throw when they are made, copied or moved: each object that was made is
// destroyed once, and no value is lost, wherever a call throws.
#include "test_counted.hpp"

#include <chrono>
#include <cstdio>
#include <memory>
#include <thread>

namespace {

// Whose end takes long.
struct Slow : Counted {
    using Counted::Counted;
    Slow(Slow &&) = default;
    Slow &operator=(Slow &&) = default;
    ~Slow() { std::this_thread::sleep_for(std::chrono::milliseconds(10)); }
};

// A constructor and a copy that throw leave the queue, and what was to be given, as they were.
template <typename T> void throws_as_given() {
    kfifo::ValueQueue<T> queue(1, 2, 1);
    auto handle = queue.handle();
    T value(1);
    const T &same = value;
    expect(throws(0, [&] { (void)handle.emplace(7); }), "a constructor that throws");
    expect(throws(0, [&] { (void)handle.give(same); }) && value.is(1), "a copy that throws");
    expect(Counted::alive == 1 && !handle.take().value, "nothing was given");
    if constexpr (!std::is_nothrow_move_constructible_v<T>) {
        expect(throws(0, [&] { (void)handle.give(std::move(value)); }) && value.is(1), "a give that throws");
        expect(throws(0, [&] { (void)handle.give_wait(std::move(value)); }) && value.is(1),
               "a give that waits and throws");
        expect(!handle.take().value, "nothing was given that waits");
    }
    for (int i = 0; i < 2; i++) expect(handle.give(same) == kfifo::Put::done, "a copy");
    const int more = fill(handle);
    expect(handle.give(same) == kfifo::Put::full && value.is(1) && Counted::alive == 3 + more,
           "a copy that is refused");
    expect(!throws(0, [&] { (void)handle.give(same); }), "a full queue copies nothing");
}

// A take whose copy throws takes nothing: the value is the next one of its handle, or what is left of the queue.
void throws_as_taken() {
    using Queue = kfifo::ValueQueue<Throwing>;
    Queue queue(1, 8, 2);
    auto other = std::make_unique<Queue::Handle>(queue.handle());
    {
        auto handle = queue.handle();
        for (int i = 0; i < 6; i++) expect(other->emplace(i) == kfifo::Put::done, "a value");
        for (int i = 0; i < 3; i++) expect(throws(0, [&] { (void)handle.take(); }), "a take that throws");
        expect(Counted::alive == 6, "no value is lost");
        expect(other->take().value->is(1), "another handle takes the next one");
        auto taken = handle.take();
        expect(taken.value && taken.value->is(0), "the value of the take that threw");
        expect(throws(0, [&] { (void)handle.take_wait(); }), "a take that waits and throws");
        expect(handle.take_wait().value->is(2), "the value of a take that waited and threw");
        expect(throws(0, [&] { (void)handle.take(); }), "a take by a handle that goes");
    }
    auto handle = queue.handle();
    expect(handle.take().value->is(3), "the next one to have the handle takes the value");
    expect(throws(0, [&] { (void)handle.take(); }), "a take before the end");
    handle.finish();
    expect(other->take().value->is(5) && other->take().why == kfifo::Miss::finished, "the end for another handle");
    int count = 0, sum = 0;
    expect(throws(0, [&] { (void)*handle.values().begin(); }), "a range that throws");
    for (Throwing &&value : handle.values()) {
        count++;
        sum += *value.number;
    }
    expect(count == 1 && sum == 4 && handle.take().why == kfifo::Miss::finished, "the range goes on with the value");
}

// A value that a take could not copy comes first in a close, and is destroyed with the queue.
void kept() {
    for (bool closed : {false, true}) {
        kfifo::ValueQueue<Throwing> queue(1, 8, 1);
        {
            auto handle = queue.handle();
            for (int i = 0; i < 4; i++) expect(handle.emplace(i) == kfifo::Put::done, "a value");
            expect(throws(0, [&] { (void)handle.take(); }), "a take that throws");
        }
        if (!closed) continue;
        for (long after : {0, 1, 3})
            expect(throws(after, [&] { (void)queue.close(); }) && Counted::alive == 4, "a close that throws");
        expect(refuses([&] { (void)queue.handle(); }), "a handle after a close that threw");
        auto rest = queue.close();
        bool in_order = rest.size() == 4;
        for (std::size_t i = 0; i < rest.size(); i++) in_order = in_order && rest[i].is(int(i));
        expect(in_order, "a close after one that threw gives all back");
    }
    balanced("a value that a take could not copy");
}

// Where moves throw and there are no copies, a value is where its type leaves it.
void throws_as_moved() {
    kfifo::ValueQueue<MovedThrowing> queue(1, 2, 1);
    auto handle = queue.handle();
    MovedThrowing value(1);
    expect(throws(0, [&] { (void)handle.give(std::move(value)); }) && value.is(1), "a move that throws");
    expect(!handle.take().value && Counted::alive == 1, "nothing was given");
    expect(handle.give(std::move(value)) == kfifo::Put::done && handle.emplace(2) == kfifo::Put::done, "two values");
    const int more = fill(handle);
    MovedThrowing third(3);
    expect(handle.give(std::move(third)) == kfifo::Put::full && third.is(3), "a value that was not moved");
    expect(Counted::alive == 4 + more, "nothing was moved");
    expect(throws(0, [&] { (void)handle.take(); }), "a move out that throws");
    auto taken = handle.take();
    expect(taken.value && taken.value->is(1), "the value that could not be moved out");
}

// On the way from a generation that takes no more values to the next one, a value is made twice more. Where that
// throws, nothing was given, and the next give goes on as if nothing had been. A value of which copies were made is as
// it was.
template <typename T> void throws_on_the_way() {
    constexpr bool is_copied = std::is_copy_constructible_v<T>;
    for (long after = 0; after < 4; after++) {
        kfifo::ValueQueue<T> queue(1, 2, 1, {6, 0, 1});
        auto handle = queue.handle();
        while (handle.emplace(7) == kfifo::Put::done) continue;
        const long inside = Counted::alive;
        T value(3);
        bool has_thrown = throws(after, [&] { (void)handle.give(std::move(value)); });
        expect(has_thrown == (after < (is_copied ? 3 : 4)), "a value that throws on its way");
        expect(Counted::alive == inside + 1, "no other value is lost, and no cell has it");
        if (is_copied || after == 0) expect(value.is(3), "the value that could not go on");
        T other(4);
        expect(handle.give(std::move(other)) == kfifo::Put::worn && other.is(4), "a give after that");
        expect(throws(after == 0 ? 0 : 2, [&] { (void)handle.emplace(5); }), "a value that is made and throws");
        expect(Counted::alive == inside + 2, "that one is gone");
    }
    balanced("a value that throws on its way");
}

// A giver that waits for room is woken by takes, also where one threw before. The taker keeps some of the cells that
// it frees before it lays a batch of them into the pool.
void woken() {
    {
        kfifo::ValueQueue<Throwing> queue(1, 2, 2);
        auto giver = queue.handle(), taker = queue.handle();
        const int more = fill(giver);
        expect(throws(0, [&] { (void)taker.take(); }), "a take that throws");
        std::thread waits([&] {
            Throwing value(9);
            expect(giver.give_wait(std::move(value)) == kfifo::Put::done, "a giver that waits");
        });
        std::this_thread::sleep_for(std::chrono::milliseconds(5));
        for (int i = 0; i < more; i++)
            expect(taker.take().value->is(0), "the values, from that of the take that threw");
        waits.join();
        expect(taker.take_wait().value->is(9), "what was given late");
    }
    // A cell is released after the value that was in it is destroyed, and wakes the giver then.
    kfifo::ValueQueue<Slow> queue(1, 2, 2);
    auto giver = queue.handle(), taker = queue.handle();
    const int more = fill(giver);
    std::thread waits([&] { expect(giver.give_wait(Slow(2)) == kfifo::Put::done, "a giver that waits for a cell"); });
    std::this_thread::sleep_for(std::chrono::milliseconds(5));
    for (int i = 0; i < more; i++) expect(taker.take().value->is(0), "a take that ends late");
    waits.join();
    expect(taker.take().value->is(2), "what was given late");
}

} // namespace

int main() {
    throws_as_given<Plain>();
    throws_as_given<Throwing>();
    balanced("what throws as it is given");
    throws_as_taken();
    balanced("what throws as it is taken");
    kept();
    throws_as_moved();
    balanced("what throws as it is moved");
    woken();
    balanced("threads that wait");
    throws_on_the_way<Throwing>();
    throws_on_the_way<MovedThrowing>();
    std::puts(failures ? "types that throw fail in C++"
                       : "types that throw in C++: each object was destroyed once, and no value was lost");
    return failures;
}
