// Many values at once in C++ by calls that wait: what each comes to, also where a copy throws, and that no thread
// sleeps on. A range that is longer than the queue goes through it by one call, although those that take sleep too. A
// wake-up that is lost would hang the test, which its caller ends after some time.
#include "kfifo.hpp"

#include <atomic>
#include <cstdio>
#include <list>
#include <memory>
#include <numeric>
#include <string>
#include <thread>
#include <vector>

#ifdef FEWER
#define ROUNDS 20
#define EACH 5000
#else
#define ROUNDS 200
#define EACH 100000
#endif

namespace {

using std::chrono::milliseconds;
using std::chrono::steady_clock;

std::atomic<int> failures{0};

void expect(bool holds, const char *what) {
    if (holds) return;
    std::fprintf(stderr, "%s\n", what);
    failures++;
}

std::vector<std::size_t> numbers(std::size_t count) {
    std::vector<std::size_t> all(count);
    std::iota(all.begin(), all.end(), 1);
    return all;
}

// Gives values until the queue is full. Returns how many: one for each cell, where no other handle keeps some.
template <typename Handle, typename Value> std::size_t fill(Handle &handle, const Value &value) {
    std::size_t given = 0;
    while (handle.give(value) == kfifo::Put::done) given++;
    return given;
}

void what_gives_come_to() {
    kfifo::ValueQueue<std::string> queue(1, 4, 1);
    auto handle = queue.handle();
    const std::vector<std::string> none, six{"1", "2", "3", "4", "5", "6"};
    // There is room for four more then.
    const std::size_t before = fill(handle, "0") - 4;
    expect(before >= 4 && handle.take_up_to(4).values.size() == 4, "a full queue");
    auto &giver = handle, &taker = handle;
    auto gave = giver.give_all_wait(none);
    expect(gave.given == 0 && gave.rest == none.end() && gave.why == kfifo::Put::done, "an empty range");
    gave = giver.give_all_wait(six.begin(), six.begin() + 3);
    expect(gave.given == 3 && gave.why == kfifo::Put::done, "a range that has room");
    gave = giver.give_all_for(six, milliseconds(2));
    expect(gave.given == 1 && gave.rest == six.begin() + 1 && gave.why == kfifo::Put::timed_out, "a time that is up");
    gave = giver.give_all_for(six, milliseconds(0));
    expect(gave.given == 0 && gave.why == kfifo::Put::timed_out, "no time");
    gave = giver.give_all_until(six, steady_clock::now() + milliseconds(2));
    expect(gave.given == 0 && gave.why == kfifo::Put::timed_out, "a moment that has come");
    expect(taker.take_up_to(before).values.size() == before, "what was there");
    for (std::size_t i = 0; i < before; i++) expect(giver.give("0") == kfifo::Put::done, "as many again");
    expect(giver.give("0") == kfifo::Put::full, "a full queue again");
    expect(taker.take_up_to(2).values == std::vector<std::string>{"1", "2"}, "the first two");
    gave = giver.give_all_for(six.begin() + 4, six.end(), milliseconds(0));
    expect(gave.given == 2 && gave.why == kfifo::Put::done, "room for the last two");
    auto order = taker.take_up_to(before + 4).values;
    expect(order.size() == before + 4 && order[0] == "3" && order[1] == "1" && order[2] == "0" &&
               order[before + 2] == "5" && order[before + 3] == "6",
           "these came in their order");
    const std::vector<std::string> zeros(before, "0");
    expect(giver.give_all_for(zeros, milliseconds(0)).given == before, "room without time");
    gave = giver.give_all_until(six.begin(), six.begin() + 2, steady_clock::now());
    expect(gave.given == 2 && gave.why == kfifo::Put::done, "room without time");

    std::vector<std::string> moved{"a", "b", "c"};
    auto went = giver.give_all_for(kfifo::moving(moved), milliseconds(2));
    expect(went.given == 2 && went.why == kfifo::Put::timed_out && *went.rest.base() == "c", "what is not given stays");
    giver.finish();
    went = giver.give_all_wait(went.rest, std::make_move_iterator(moved.end()));
    expect(went.given == 0 && went.why == kfifo::Put::finished && moved[2] == "c", "a give after the end");
}

void what_takes_come_to() {
    kfifo::ValueQueue<std::unique_ptr<int>> queue(1, 8, 2);
    auto giver = queue.handle(), taker = queue.handle();
    std::list<std::unique_ptr<int>> out;
    auto took = taker.take_up_to_wait(0, out);
    expect(took.taken == 0 && !took.why, "a take of none");
    took = taker.take_up_to_for(64, out, milliseconds(2));
    expect(took.taken == 0 && took.why == kfifo::Miss::timed_out, "a time that is up");
    took = taker.take_up_to_until(64, out, steady_clock::now() + milliseconds(2));
    expect(took.taken == 0 && took.why == kfifo::Miss::timed_out, "a moment that has come");
    expect(taker.take_up_to_for(64, milliseconds(0)).why == kfifo::Miss::timed_out, "no time");
    for (int i = 0; i < 5; i++) expect(giver.emplace(new int(i)) == kfifo::Put::done, "a give");
    took = taker.take_up_to_wait(2, out);
    expect(took.taken == 2 && !took.why && *out.back() == 1, "as many as were asked for");
    auto taken = taker.take_up_to_until(64, steady_clock::now() + milliseconds(2));
    expect(taken.values.size() == 3 && taken.why == kfifo::Miss::empty && *taken.values[2] == 4, "what is there");
    expect(giver.emplace(new int(5)) == kfifo::Put::done, "one more");
    giver.finish();
    expect(taker.take_up_to_wait(64).values.size() == 1, "what came before the end");
    taken = taker.take_up_to_wait(64);
    expect(taken.values.empty() && taken.why == kfifo::Miss::finished, "a take after the end");
}

// Calls that nobody can help end, and those of handles that were moved from are refused.
void alone_and_refused() {
    std::optional<kfifo::ValueQueue<int>> queue(std::in_place, 1, 4, 1);
    auto handle = queue->handle();
    queue.reset();
    std::vector<int> five{1, 2, 3, 4, 5}, out;
    auto gave = handle.give_all_wait(five);
    expect(gave.given == 5 && gave.why == kfifo::Put::done, "room for five");
    five.resize(100);
    gave = handle.give_all_wait(five);
    expect(gave.given >= 4 && gave.given < 100 && gave.why == kfifo::Put::finished, "nobody makes room");
    std::size_t there = 5 + gave.given;
    expect(handle.take_up_to_wait(there, out).taken == there && out[4] == 5, "what is there");
    expect(handle.take_up_to_wait(4).why == kfifo::Miss::finished, "nobody gives");
    auto other = std::move(handle);
    int refused = 0;
    try {
        (void)handle.give_all_wait(five);
    } catch (const kfifo::Error &) {
        refused++;
    }
    try {
        (void)handle.take_up_to_wait(1, out);
    } catch (const kfifo::Error &) {
        refused++;
    }
    expect(refused == 2, "a handle that was moved from");
}

struct Thrown {};

// A value whose copy throws where it has a certain number.
struct Copied {
    explicit Copied(int what) : number(what) {}
    Copied(const Copied &other) : number(other.number) {
        if (number == 3) throw Thrown();
    }
    Copied &operator=(const Copied &) = default;
    int number;
};

// What is given before a copy throws wakes the thread that sleeps, and is not lost.
void a_copy_that_throws_wakes() {
    for (int round = 0; round < ROUNDS; round++) {
        kfifo::ValueQueue<Copied> queue(1, 8, 2);
        auto giver = queue.handle();
        std::atomic<int> sum{0};
        std::thread taker([&, handle = queue.handle()]() mutable {
            for (int i = 0; i < 2; i++)
                if (auto value = handle.take_wait().value) sum += value->number;
        });
        std::this_thread::sleep_for(milliseconds(round % 2));
        std::vector<Copied> values;
        values.reserve(3);
        for (int number = 1; number <= 3; number++) values.emplace_back(number);
        bool threw = false;
        try {
            (void)giver.give_all_wait(values);
        } catch (const Thrown &) {
            threw = true;
        }
        taker.join();
        expect(threw && sum == 3, "two values, and then what was thrown");
    }
}

// A thread that takes one by one sleeps, and so does one that takes many at once. One call gives a range that is longer
// than the queue, so it has to wake them before it sleeps itself.
void one_give_goes_through(bool in_time) {
    constexpr std::size_t count = 600;
    kfifo::ValueQueue<std::size_t> queue(1, 2, 3);
    auto giver = queue.handle();
    for (int round = 0; round < ROUNDS; round++) {
        std::atomic<std::size_t> sum{0}, left{count};
        auto take = [&](auto handle, bool many) {
            while (left != 0) {
                std::vector<std::size_t> out;
                if (many)
                    (void)handle.take_up_to_for(30, out, milliseconds(20));
                else if (auto value = handle.take_for(milliseconds(20)).value)
                    out.push_back(*value);
                for (std::size_t value : out) sum += value;
                left -= out.size();
            }
        };
        std::thread first([&, handle = queue.handle()]() mutable { take(std::move(handle), false); });
        std::thread second([&, handle = queue.handle()]() mutable { take(std::move(handle), true); });
        std::this_thread::sleep_for(milliseconds(1));
        auto all = numbers(count);
        auto gave = in_time ? giver.give_all_for(all, std::chrono::minutes(5)) : giver.give_all_wait(all);
        expect(gave.given == count && gave.rest == all.end() && gave.why == kfifo::Put::done, "all are given");
        first.join();
        second.join();
        expect(sum == count * (count + 1) / 2, "each came out once");
    }
}

// The same where those that take have no time, so that only a wake-up ends their sleep.
void sleepers_are_woken() {
    constexpr std::size_t threads = 4, each = 100;
    kfifo::ValueQueue<std::size_t> queue(1, 2, threads + 1);
    auto first = queue.handle();
    for (int round = 0; round < ROUNDS; round++) {
        bool gives = round % 2;
        std::atomic<std::size_t> sum{0};
        std::vector<std::thread> all;
        for (std::size_t i = 0; i < threads; i++) {
            all.emplace_back([&, gives, handle = queue.handle()]() mutable {
                for (std::size_t number = 1; number <= each; number++) {
                    if (gives)
                        sum += handle.give_wait(std::size_t(number)) == kfifo::Put::done ? number : 0;
                    else
                        sum += handle.take_wait().value.value_or(0);
                }
            });
        }
        std::this_thread::sleep_for(milliseconds(1));
        std::vector<std::size_t> out, in(threads * each, 1);
        if (!gives) expect(first.give_all_wait(in).given == in.size(), "all are given");
        while (gives && out.size() < threads * each)
            expect(first.take_up_to_wait(64, out).taken > 0, "a take takes at least one");
        for (std::thread &thread : all) thread.join();
        expect(sum == (gives ? threads * each * (each + 1) / 2 : threads * each), "each came out once");
    }
}

// The values of one queue go to the next, which is shorter, by one call that waits for both.
void from_queue_to_queue() {
    constexpr std::size_t count = 300;
    for (int round = 0; round < ROUNDS; round++) {
        kfifo::ValueQueue<std::size_t> queue(1, 8, 2), next(1, 2, 2);
        auto giver = queue.handle();
        std::thread passes([&, taker = queue.handle(), passer = next.handle()]() mutable {
            expect(passer.give_all_wait(taker.values()).given == count, "all are passed on");
            passer.finish();
        });
        std::size_t sum = 0;
        std::thread takes([&, last = next.handle()]() mutable {
            for (std::size_t value : last.values()) sum += value;
        });
        auto all = numbers(count);
        expect(giver.give_all_wait(all).given == count, "all are given");
        queue.finish();
        passes.join();
        takes.join();
        expect(sum == count * (count + 1) / 2, "each came through");
    }
}

// Two threads give batches of all sizes, and two take such: each value comes out once.
void batches() {
    kfifo::ValueQueue<std::size_t> queue(2, 8, 4);
    std::atomic<std::size_t> sum{0}, count{0};
    auto give = [](auto handle) {
        auto all = numbers(EACH);
        for (auto at = all.begin(); at != all.end();) {
            auto end = at + std::min<std::ptrdiff_t>(1 + (at - all.begin()) % 70, all.end() - at);
            auto gave = handle.give_all_wait(at, end);
            expect(gave.why == kfifo::Put::done, "a batch is given");
            if (gave.why != kfifo::Put::done) return;
            at = gave.rest;
        }
    };
    auto take = [&](auto handle) {
        for (std::size_t most = 1;; most = 1 + most % 70) {
            auto taken = handle.take_up_to_wait(most);
            if (taken.values.empty()) return expect(taken.why == kfifo::Miss::finished, "the end");
            for (std::size_t value : taken.values) sum += value;
            count += taken.values.size();
        }
    };
    std::vector<std::thread> all;
    for (int i = 0; i < 4; i++) {
        all.emplace_back([&, i, handle = queue.handle()]() mutable {
            if (i < 2)
                give(std::move(handle));
            else
                take(std::move(handle));
        });
    }
    all[0].join();
    all[1].join();
    queue.finish();
    all[2].join();
    all[3].join();
    expect(count == 2 * EACH && sum == std::size_t(EACH) * (EACH + 1), "each came out once");
}

} // namespace

int main() {
    what_gives_come_to();
    what_takes_come_to();
    alone_and_refused();
    a_copy_that_throws_wakes();
    one_give_goes_through(false);
    one_give_goes_through(true);
    sleepers_are_woken();
    from_queue_to_queue();
    batches();
    std::puts(failures ? "many at once that wait fail in C++"
                       : "many at once that wait in C++: all go through, and no thread sleeps on");
    return failures;
}
