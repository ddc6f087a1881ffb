// How long a value is in a queue, from before its put to after its take, where values come at random and the takers are
// busy for a part of the time. Each thread that takes works that many nanoseconds on a value; values come by
// exponential gaps, so that the work on them keeps the takers together busy for `load` percent of the time. How long
// that work takes is timed before, with as many threads. What the calls take comes on top. The arguments are the queue
// of values of 16 bytes (kfifo, array, moodycamel, channel or mutex), k (of kfifo alone), the capacity, the producers,
// the consumers, the threads that do both, the load in percent, the nanoseconds of work on a value, and how many
// milliseconds the run lasts, 4,000 at most. It prints the median, the 99th and the 99.9th percentile of the
// nanoseconds, and the values a second; status 1 where a value is missing or double.
#include "queues.hpp"
#include "work.hpp"

#include <algorithm>
#include <atomic>
#include <chrono>
#include <cmath>
#include <cstdio>
#include <cstdlib>
#include <random>
#include <thread>

extern "C" {
void *channel_new(std::size_t);
bool channel_try_send(const void *, const std::uint64_t *);
bool channel_try_receive(const void *, std::uint64_t *);
void channel_free(void *);
}

namespace {

using Clock = std::chrono::steady_clock;

// crossbeam's bounded channel, by calls that do not wait.
struct Channel {
    using Attached = bench::NothingAttached;
    void *channel;
    explicit Channel(std::size_t capacity) : channel(channel_new(capacity)) {}
    ~Channel() { channel_free(channel); }
    bool push(std::size_t, std::uint32_t item) { return channel_try_send(channel, bench::Value<2>(item).words.data()); }
    std::uint32_t pop(std::size_t) {
        bench::Value<2> value(0);
        return channel_try_receive(channel, value.words.data()) ? value.item() : 0;
    }
};

struct Plan {
    std::size_t producers, consumers, both;
    double load;
    bench::Work work;
    int milliseconds;
    double gap = 0; // the mean nanoseconds from one value of a thread that gives to its next one
    std::size_t threads() const { return producers + consumers + both; }
    std::size_t takers() const { return consumers + both; }
    std::size_t givers() const { return producers + both; }
};

// The moments at which a thread gives: exponential gaps from one to the next, whatever the queue does.
struct Arrivals {
    std::mt19937_64 random;
    std::exponential_distribution<double> gap;
    double next = 0;
    Arrivals(std::size_t thread, double mean) : random(thread + 1), gap(1 / mean) { advance(); }
    void advance() { next += gap(random); }
};

// What a thread knows of a run, on a cache line of its own.
struct alignas(128) Tally {
    std::vector<std::uint32_t> times;
    std::uint64_t puts = 0, put_sum = 0, taken_sum = 0;
};

// A value is the moment of its put, in nanoseconds from the beginning of the run, and never 0.
struct Timer {
    Clock::time_point began = Clock::now();
    std::uint32_t now() const {
        auto spent = std::chrono::duration_cast<std::chrono::nanoseconds>(Clock::now() - began).count();
        return std::uint32_t(spent) + 1;
    }
};

// The mean nanoseconds of the work on a value and a look at the clock, while all threads run and slow each other down.
double timed_work(const Plan &plan) {
    constexpr std::uint32_t length = 30000000;
    std::atomic<std::uint64_t> done{0};
    Timer timer;
    std::vector<std::thread> threads;
    for (std::size_t thread = 0; thread < plan.threads(); thread++)
        threads.emplace_back([&, thread] {
            std::uint64_t own = 0;
            for (; timer.now() < length; own += thread >= plan.producers)
                if (thread >= plan.producers) plan.work();
            done.fetch_add(own);
        });
    for (std::thread &thread : threads) thread.join();
    return double(length) * double(plan.takers()) / double(done.load());
}

// Gives the values that are due.
template <typename Queue>
void give_due(Queue &queue, std::size_t thread, const Timer &timer, Arrivals &arrivals, Tally &tally) {
    while (true) {
        std::uint32_t now = timer.now();
        if (double(now) < arrivals.next || !queue.push(thread, now)) return;
        tally.puts++;
        tally.put_sum += now;
        arrivals.advance();
    }
}

// Takes a value, and works on it, if one comes.
template <typename Queue>
bool take_one(Queue &queue, std::size_t thread, const Timer &timer, const bench::Work &work, Tally &tally) {
    std::uint32_t given = queue.pop(thread);
    if (given == 0) return false;
    tally.times.push_back(timer.now() - given);
    tally.taken_sum += given;
    work();
    return true;
}

template <typename Queue>
void call(Queue &queue, std::size_t thread, const Plan &plan, const Timer &timer, std::atomic<std::size_t> &givers,
          Tally &tally) {
    typename Queue::Attached attached;
    bool gives = thread < plan.producers || thread >= plan.producers + plan.consumers;
    bool takes = thread >= plan.producers;
    Arrivals arrivals(thread, plan.gap);
    auto last = std::uint32_t(plan.milliseconds) * 1000000u;
    while (gives && timer.now() < last) {
        give_due(queue, thread, timer, arrivals, tally);
        if (takes) take_one(queue, thread, timer, plan.work, tally);
    }
    if (gives) givers.fetch_sub(1);
    // Who takes goes on until the queue is empty and nobody gives any more, seen in this order.
    while (takes) {
        bool over = givers.load() == 0;
        if (!take_one(queue, thread, timer, plan.work, tally) && over) return;
    }
}

template <typename Queue> int run(Queue &queue, const Plan &plan) {
    std::vector<Tally> tallies(plan.threads());
    for (Tally &tally : tallies) tally.times.reserve(1 << 20);
    std::atomic<std::size_t> givers{plan.givers()};
    Timer timer;
    std::vector<std::thread> threads;
    for (std::size_t i = 0; i < plan.threads(); i++)
        threads.emplace_back([&, i] { call(queue, i, plan, timer, givers, tallies[i]); });
    for (std::thread &thread : threads) thread.join();

    std::vector<std::uint32_t> times;
    std::uint64_t puts = 0, sum = 0;
    for (const Tally &tally : tallies) {
        times.insert(times.end(), tally.times.begin(), tally.times.end());
        puts += tally.puts;
        sum += tally.put_sum - tally.taken_sum;
    }
    if (times.size() != puts || puts == 0 || sum != 0) {
        std::puts("what went in did not come out");
        return 1;
    }
    std::sort(times.begin(), times.end());
    auto part = [&](double of) { return times[std::size_t(double(times.size() - 1) * of)]; };
    std::printf("%u %u %u %.0f\n", part(0.5), part(0.99), part(0.999), double(puts) * 1000 / plan.milliseconds);
    return 0;
}

} // namespace

int main(int count, char **words) {
    if (count != 10) return 2;
    std::string which = words[1];
    auto number = [&](int place) { return std::size_t(std::strtoull(words[place], nullptr, 10)); };
    std::size_t capacity = number(3);
    Plan plan{number(4), number(5), number(6), double(number(7)) / 100, bench::Work(number(8)), int(number(9))};
    if (plan.givers() == 0 || plan.takers() == 0 || plan.load <= 0) return 2;
    if (number(8) == 0 || plan.milliseconds <= 0 || plan.milliseconds > 4000) return 2;
    plan.gap = timed_work(plan) / plan.load * double(plan.givers()) / double(plan.takers());
    if (which == "channel") {
        Channel channel(capacity);
        return run(channel, plan);
    }
    return bench::with_queue(which + "-16", std::uint32_t(number(2)), capacity, plan.threads(),
                             [&](auto &queue) { return run(queue, plan); });
}
