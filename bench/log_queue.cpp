// Logs a run of a queue as CSV, for kfifo to judge: one thread puts items before the others begin, then each of these
// puts an item and takes one, alternating, and at the end the one thread takes until the queue is empty. The arguments
// are the queue (a name of queues.hpp, or paused-ring), k (of kfifo and segmented alone), the threads, how often each
// puts and takes, and how many items come before. The capacity is 1,024.
#include "../loggers/kfifo_log.h"

#include "queues.hpp"
#include "vyukov_ring.hpp"

#include <atomic>
#include <cstdio>
#include <cstdlib>
#include <exception>
#include <optional>
#include <thread>

namespace {

constexpr std::size_t capacity = 1024;

struct PausedRing {
    using Attached = bench::NothingAttached;
    bench::VyukovRing queue{capacity, 16};
    bool push(std::size_t, std::uint32_t item) { return queue.push(item); }
    std::uint32_t pop(std::size_t) { return queue.pop(); }
};

struct Plan {
    std::size_t threads;
    std::uint32_t turns;
    std::uint32_t before;
};

template <typename Queue> std::optional<std::uint32_t> taken(Queue &queue, std::size_t thread) {
    std::uint32_t item = queue.pop(thread);
    return item == 0 ? std::nullopt : std::optional(item);
}

template <typename Queue> int run(Queue &queue, const Plan &plan) {
    std::vector<kfifo::ThreadLog> logs;
    const std::uint32_t items = std::uint32_t(plan.threads) * plan.turns;
    for (std::size_t t = 0; t < plan.threads; t++) logs.emplace_back(unsigned(t), 2 * plan.turns);
    logs.emplace_back(unsigned(plan.threads), items + 2 * plan.before + 1);
    for (std::uint32_t item = items + 1; item <= items + plan.before; item++)
        logs.back().enqueue(item, [&] { return queue.push(0, item); });
    std::atomic<bool> go{false};
    std::vector<std::thread> threads;
    for (std::size_t t = 0; t < plan.threads; t++)
        threads.emplace_back([&, t] {
            typename Queue::Attached attached;
            while (!go.load()) {
            }
            for (std::uint32_t turn = 0; turn < plan.turns; turn++) {
                std::uint32_t item = std::uint32_t(t) * plan.turns + turn + 1;
                logs[t].enqueue(item, [&] { return queue.push(t, item); });
                logs[t].dequeue([&] { return taken(queue, t); });
            }
        });
    go.store(true);
    for (std::thread &thread : threads) thread.join();
    // Without this nobody could see that an item was lost.
    while (logs.back().dequeue([&] { return taken(queue, 0); })) continue;
    kfifo::write_logs(stdout, logs);
    return 0;
}

} // namespace

int main(int count, char **words) try {
    if (count != 6) return 2;
    auto number = [&](int place) { return std::uint32_t(std::strtoul(words[place], nullptr, 10)); };
    const Plan plan{number(3), number(4), number(5)};
    if (words[1] == std::string("paused-ring")) {
        PausedRing ring;
        return run(ring, plan);
    }
    return bench::with_queue(words[1], number(2), capacity, plan.threads,
                             [&](auto &queue) { return run(queue, plan); });
} catch (const std::exception &fault) {
    std::fprintf(stderr, "log_queue: %s\n", fault.what());
    return 1;
}
