// A std::deque behind a mutex, logged: two threads put items in and two take them out, and then the queue is emptied.
// Prints the log. With the argument broken the queue loses an item, and with short the logs are too small.
#include "../kfifo_log.h"
#include <cstdint>
#include <deque>
#include <exception>
#include <future>
#include <iostream>
#include <mutex>
#include <string>
#include <thread>

namespace {

constexpr std::uint32_t ITEMS = 1000;
constexpr unsigned WORKERS = 4;

class Queue {
  public:
    explicit Queue(bool broken) : broken_(broken) {}

    bool push(std::uint32_t item) {
        const std::lock_guard<std::mutex> guard(mutex_);
        // The broken queue says that item 100 is in, and forgets it.
        if (!broken_ || item != 100) items_.push_back(item);
        return true;
    }

    std::optional<std::uint32_t> pop() {
        const std::lock_guard<std::mutex> guard(mutex_);
        if (items_.empty()) return std::nullopt;
        const std::uint32_t item = items_.front();
        items_.pop_front();
        return item;
    }

  private:
    std::mutex mutex_;
    std::deque<std::uint32_t> items_;
    bool broken_;
};

void produce(Queue &queue, kfifo::ThreadLog &log, std::uint32_t first) {
    for (std::uint32_t item = first; item < first + ITEMS; item++) {
        log.enqueue(item, [&] { return queue.push(item); });
    }
}

void consume(Queue &queue, kfifo::ThreadLog &log) {
    for (std::uint32_t i = 0; i < ITEMS; i++) log.dequeue([&] { return queue.pop(); });
}

// Starts a thread that waits for the others before it begins.
template <class Work> std::thread start(std::shared_future<void> go, Work work) {
    return std::thread([go, work] {
        go.wait();
        work();
    });
}

void run(bool broken, bool is_short) {
    Queue queue(broken);
    std::vector<kfifo::ThreadLog> logs;
    // The last log, that of the main thread, has room for all items and the Empty after them.
    for (unsigned t = 0; t <= WORKERS; t++) logs.emplace_back(t, is_short ? 10 : 2 * ITEMS + 1);

    std::promise<void> start_now;
    const std::shared_future<void> go = start_now.get_future().share();
    std::vector<std::thread> threads;
    threads.push_back(start(go, [&] { produce(queue, logs[0], 1); }));
    threads.push_back(start(go, [&] { produce(queue, logs[1], ITEMS + 1); }));
    threads.push_back(start(go, [&] { consume(queue, logs[2]); }));
    threads.push_back(start(go, [&] { consume(queue, logs[3]); }));
    start_now.set_value();
    for (std::thread &thread : threads) thread.join();

    while (logs[WORKERS].dequeue([&] { return queue.pop(); })) continue;
    kfifo::write_logs(stdout, logs);
}

} // namespace

int main(int argc, char **argv) {
    const std::string mode = argc > 1 ? argv[1] : "";
    try {
        run(mode == "broken", mode == "short");
    } catch (const std::exception &fault) {
        std::cerr << "log_cpp: " << fault.what() << '\n';
        return 1;
    }
    return 0;
}
