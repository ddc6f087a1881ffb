// One run of one queue: threads put and take for some time, and what went in has to come out. The arguments are the
// queue (a name of queues.hpp), k (of kfifo and segmented alone), the capacity, the threads that put only, those that
// take only, those that alternate both, the nanoseconds of work between two calls, and how many milliseconds the run
// lasts. It prints the calls that put or took an item, a second; status 1 where an item is missing or double. With no
// thread that calls, one thread works without calls, and it prints how often it did so, a second.
#include "queues.hpp"
#include "work.hpp"

#include <algorithm>
#include <atomic>
#include <chrono>
#include <cstdio>
#include <cstdlib>
#include <thread>

namespace {

// What each thread knows of a run, on a cache line of its own.
struct alignas(128) Tally {
    std::uint64_t puts = 0, takes = 0, put_sum = 0, taken_sum = 0, put_squares = 0, taken_squares = 0;
    std::uint64_t works_alone = 0;

    void put(std::uint32_t item) {
        puts++;
        put_sum += item;
        put_squares += std::uint64_t(item) * item;
    }
    void take(std::uint32_t item) {
        takes++;
        taken_sum += item;
        taken_squares += std::uint64_t(item) * item;
    }
    void add(const Tally &other) {
        puts += other.puts, put_sum += other.put_sum, put_squares += other.put_squares;
        takes += other.takes, taken_sum += other.taken_sum, taken_squares += other.taken_squares;
        works_alone += other.works_alone;
    }
};

struct Plan {
    std::size_t producers, consumers, both;
    bench::Work work;
    int milliseconds;
    std::size_t callers() const { return producers + consumers + both; }
    std::size_t threads() const { return std::max<std::size_t>(callers(), 1); }
};

constexpr std::uint32_t items = KFIFO_MAX_ITEM;

template <typename Queue> int run(Queue &queue, const Plan &plan, std::size_t capacity) {
    std::vector<Tally> tallies(plan.threads());
    std::atomic<bool> go{false}, stop{false};
    for (std::uint32_t item = 1; item <= capacity / 2; item++)
        if (queue.push(0, item)) tallies[0].put(item);
    std::uint64_t before = tallies[0].puts;
    std::vector<std::thread> threads;
    for (std::size_t thread = 0; thread < plan.threads(); thread++)
        threads.emplace_back([&, thread] {
            typename Queue::Attached attached;
            bool calls = thread < plan.callers();
            bool puts = calls && (thread < plan.producers || thread >= plan.producers + plan.consumers);
            bool takes = calls && thread >= plan.producers;
            Tally tally;
            std::uint32_t item = std::uint32_t(1 + thread * (items / 64));
            while (!go.load(std::memory_order_acquire)) {
            }
            while (!calls && !stop.load(std::memory_order_relaxed)) {
                plan.work();
                tally.works_alone++;
            }
            while (!stop.load(std::memory_order_relaxed)) {
                if (puts) {
                    if (queue.push(thread, item)) {
                        tally.put(item);
                        item = item == items ? 1 : item + 1;
                    }
                    plan.work();
                }
                if (takes) {
                    if (std::uint32_t taken = queue.pop(thread)) tally.take(taken);
                    plan.work();
                }
            }
            tallies[thread].add(tally);
        });
    auto began = std::chrono::steady_clock::now();
    go.store(true, std::memory_order_release);
    std::this_thread::sleep_for(std::chrono::milliseconds(plan.milliseconds));
    stop.store(true);
    for (std::thread &thread : threads) thread.join();
    std::chrono::duration<double> spent = std::chrono::steady_clock::now() - began;

    Tally all;
    std::uint64_t calls = 0;
    for (const Tally &tally : tallies) all.add(tally);
    calls = all.works_alone + all.puts - before + all.takes;
    while (std::uint32_t taken = queue.pop(0)) all.take(taken);
    if (all.puts != all.takes || all.put_sum != all.taken_sum || all.put_squares != all.taken_squares) {
        std::puts("what went in did not come out");
        return 1;
    }
    std::printf("%.0f\n", double(calls) / spent.count());
    return 0;
}

} // namespace

int main(int count, char **words) {
    if (count != 9) return 2;
    std::string which = words[1];
    auto number = [&](int place) { return std::size_t(std::strtoull(words[place], nullptr, 10)); };
    std::size_t capacity = number(3);
    Plan plan{number(4), number(5), number(6), bench::Work(number(7)), int(number(8))};
    return bench::with_queue(which, std::uint32_t(number(2)), capacity, plan.threads(),
                             [&](auto &queue) { return run(queue, plan, capacity); });
}
