// One run of one queue by calls that wait: producers give values of 16 bytes, consumers take them, with work between
// the calls of each, and what went in has to come out. The arguments are the queue (kfifo, channel, tbb or mutex), k
// (of kfifo alone), the capacity, the producers, the consumers, the nanoseconds of work of a producer and of a
// consumer, and how many milliseconds the run lasts. It prints the values a second and the processor time of a value in
// nanoseconds, all threads together; status 1 where a value is missing or double.
#include "kfifo.hpp"
#include "work.hpp"

#include <atomic>
#include <condition_variable>
#include <cstdio>
#include <cstdlib>
#include <deque>
#include <mutex>
#include <optional>
#include <stdexcept>
#include <string>
#include <sys/resource.h>
#include <tbb/concurrent_queue.h>
#include <thread>
#include <vector>

extern "C" {
void *channel_new(std::size_t);
bool channel_send(const void *, const std::uint64_t *);
bool channel_receive(const void *, std::uint64_t *);
void channel_free(void *);
}

namespace {

// A number twice: a value that came out torn has two. A value of 0 tells a consumer of TBB's queue or the channel that
// there are no more.
struct Value {
    std::uint64_t number, again;
};

// This repository's queue.
struct Kfifo {
    kfifo::ValueQueue<Value> queue;
    std::vector<kfifo::ValueQueue<Value>::Handle> handles;
    Kfifo(std::uint32_t k, std::size_t capacity, std::size_t threads) : queue(k, std::uint32_t(capacity), threads) {
        for (std::size_t i = 0; i < threads; i++) handles.push_back(queue.handle());
    }
    void give(std::size_t thread, Value value) {
        if (handles[thread].give_wait(std::move(value)) != kfifo::Put::done) throw std::logic_error("a give failed");
    }
    std::optional<Value> take(std::size_t thread) { return handles[thread].take_wait().value; }
    void finish(std::size_t) { queue.finish(); }
};

// crossbeam's bounded channel.
struct Channel {
    void *channel;
    Channel(std::uint32_t, std::size_t capacity, std::size_t) : channel(channel_new(capacity)) {}
    ~Channel() { channel_free(channel); }
    void give(std::size_t, Value value) { channel_send(channel, &value.number); }
    std::optional<Value> take(std::size_t) {
        Value value{0, 0};
        if (!channel_receive(channel, &value.number) || value.number == 0) return {};
        return value;
    }
    void finish(std::size_t consumers) {
        for (std::size_t i = 0; i < consumers; i++) give(0, Value{0, 0});
    }
};

// TBB's bounded queue, whose push and pop wait.
struct Tbb {
    tbb::concurrent_bounded_queue<Value> queue;
    Tbb(std::uint32_t, std::size_t capacity, std::size_t) { queue.set_capacity(std::ptrdiff_t(capacity)); }
    void give(std::size_t, Value value) { queue.push(value); }
    std::optional<Value> take(std::size_t) {
        Value value;
        queue.pop(value);
        if (value.number == 0) return {};
        return value;
    }
    void finish(std::size_t consumers) {
        for (std::size_t i = 0; i < consumers; i++) queue.push(Value{0, 0});
    }
};

// A mutex and two condition variables around a deque.
struct Locked {
    std::mutex mutex;
    std::condition_variable filled, emptied;
    std::deque<Value> values;
    std::size_t capacity;
    bool is_over = false;
    Locked(std::uint32_t, std::size_t capacity, std::size_t) : capacity(capacity) {}
    void give(std::size_t, Value value) {
        {
            std::unique_lock<std::mutex> lock(mutex);
            emptied.wait(lock, [&] { return values.size() < capacity; });
            values.push_back(value);
        }
        filled.notify_one();
    }
    std::optional<Value> take(std::size_t) {
        std::unique_lock<std::mutex> lock(mutex);
        filled.wait(lock, [&] { return is_over || !values.empty(); });
        if (values.empty()) return {};
        Value value = values.front();
        values.pop_front();
        lock.unlock();
        emptied.notify_one();
        return value;
    }
    void finish(std::size_t) {
        {
            std::lock_guard<std::mutex> guard(mutex);
            is_over = true;
        }
        filled.notify_all();
    }
};

struct Plan {
    std::size_t producers, consumers;
    bench::Work of_producer, of_consumer;
    int milliseconds;
};

// What a thread knows of a run, on a cache line of its own.
struct alignas(128) Tally {
    std::uint64_t values = 0, sum = 0, squares = 0;

    void count(std::uint64_t number) {
        values++;
        sum += number;
        squares += number * number;
    }
    void add(const Tally &other) { values += other.values, sum += other.sum, squares += other.squares; }
    bool operator!=(const Tally &other) const {
        return values != other.values || sum != other.sum || squares != other.squares;
    }
};

Tally sum_of(const std::vector<Tally> &tallies) {
    Tally all;
    for (const Tally &tally : tallies) all.add(tally);
    return all;
}

// The seconds that the processors worked for this process.
double processor_seconds() {
    rusage used;
    getrusage(RUSAGE_SELF, &used);
    auto seconds = [](timeval time) { return double(time.tv_sec) + double(time.tv_usec) / 1e6; };
    return seconds(used.ru_utime) + seconds(used.ru_stime);
}

template <typename Queue>
void produce(Queue &queue, std::size_t thread, const bench::Work &work, const std::atomic<bool> &stop, Tally &to) {
    Tally tally;
    for (std::uint64_t number = thread + 1; !stop.load(std::memory_order_relaxed); number += 64) {
        queue.give(thread, Value{number, number});
        tally.count(number);
        work();
    }
    to = tally;
}

template <typename Queue> void consume(Queue &queue, std::size_t thread, const bench::Work &work, Tally &to) {
    Tally tally;
    while (auto value = queue.take(thread)) {
        if (value->number != value->again) throw std::logic_error("a value came out torn");
        tally.count(value->number);
        work();
    }
    to = tally;
}

template <typename Queue> int run(Queue queue, const Plan &plan) {
    std::vector<Tally> given(plan.producers), taken(plan.consumers);
    std::vector<std::thread> producers, consumers;
    std::atomic<bool> stop{false};
    double used = processor_seconds();
    auto began = std::chrono::steady_clock::now();
    for (std::size_t i = 0; i < plan.producers; i++)
        producers.emplace_back([&, i] { produce(queue, i, plan.of_producer, stop, given[i]); });
    for (std::size_t i = 0; i < plan.consumers; i++)
        consumers.emplace_back([&, i] { consume(queue, plan.producers + i, plan.of_consumer, taken[i]); });
    std::this_thread::sleep_for(std::chrono::milliseconds(plan.milliseconds));
    stop.store(true);
    for (std::thread &thread : producers) thread.join();
    queue.finish(plan.consumers);
    for (std::thread &thread : consumers) thread.join();
    std::chrono::duration<double> spent = std::chrono::steady_clock::now() - began;
    used = processor_seconds() - used;

    Tally all = sum_of(taken);
    if (sum_of(given) != all) {
        std::puts("what went in did not come out");
        return 1;
    }
    std::printf("%.0f %.1f\n", double(all.values) / spent.count(), used * 1e9 / double(all.values));
    return 0;
}

} // namespace

int main(int count, char **words) {
    if (count != 9) return 2;
    std::string which = words[1];
    auto number = [&](int place) { return std::size_t(std::strtoull(words[place], nullptr, 10)); };
    Plan plan{number(4), number(5), bench::Work(number(6)), bench::Work(number(7)), int(number(8))};
    auto k = std::uint32_t(number(2));
    std::size_t capacity = number(3), threads = plan.producers + plan.consumers;
    if (which == "kfifo") return run(Kfifo(k, capacity, threads), plan);
    if (which == "channel") return run(Channel(k, capacity, threads), plan);
    if (which == "tbb") return run(Tbb(k, capacity, threads), plan);
    if (which == "mutex") return run(Locked(k, capacity, threads), plan);
    return 2;
}
