// How long a hand-over to a thread that sleeps takes: from the give to the return of the take, which slept. One thread
// gives the time by the clock and rests until the other sleeps again. All queues run in each round, one after the
// other. The arguments are how many hand-overs each makes in a round, the microseconds of rest between two, and the
// rounds. It prints the median over the rounds of each round's median and 99th percentile, in nanoseconds, as a table.
#include "kfifo.hpp"

#include <algorithm>
#include <chrono>
#include <condition_variable>
#include <cstdio>
#include <cstdlib>
#include <deque>
#include <functional>
#include <mutex>
#include <thread>

extern "C" {
void *channel_new(std::size_t);
bool channel_send(const void *, const std::uint64_t *);
bool channel_receive(const void *, std::uint64_t *);
void channel_free(void *);
}

namespace {

std::uint64_t now() {
    return std::uint64_t(
        std::chrono::duration_cast<std::chrono::nanoseconds>(std::chrono::steady_clock::now().time_since_epoch())
            .count());
}

constexpr std::size_t capacity = 64;

// This repository's queue.
struct Kfifo {
    kfifo::ValueQueue<std::uint64_t> queue{4, capacity, 2};
    kfifo::ValueQueue<std::uint64_t>::Handle giver = queue.handle(), taker = queue.handle();
    void give(std::uint64_t value) {
        if (giver.give_wait(std::move(value)) != kfifo::Put::done) std::abort();
    }
    std::uint64_t take() { return taker.take_wait().value.value_or(0); }
};

// crossbeam's bounded channel.
struct Channel {
    void *channel = channel_new(capacity);
    ~Channel() { channel_free(channel); }
    void give(std::uint64_t time) {
        const std::uint64_t value[2] = {time, time};
        channel_send(channel, value);
    }
    std::uint64_t take() {
        std::uint64_t value[2] = {0, 0};
        channel_receive(channel, value);
        return value[0];
    }
};

// A mutex and a condition variable around a deque.
struct Locked {
    std::mutex mutex;
    std::condition_variable filled;
    std::deque<std::uint64_t> values;
    void give(std::uint64_t value) {
        {
            std::lock_guard<std::mutex> guard(mutex);
            values.push_back(value);
        }
        filled.notify_one();
    }
    std::uint64_t take() {
        std::unique_lock<std::mutex> lock(mutex);
        filled.wait(lock, [&] { return !values.empty(); });
        std::uint64_t value = values.front();
        values.pop_front();
        return value;
    }
};

struct Times {
    double median, late;
};

Times quantiles(std::vector<std::uint64_t> &times) {
    std::sort(times.begin(), times.end());
    return {double(times[times.size() / 2]), double(times[times.size() * 99 / 100])};
}

template <typename Queue> Times round(std::size_t hand_overs, std::chrono::microseconds rest) {
    Queue queue;
    std::vector<std::uint64_t> times;
    times.reserve(hand_overs);
    std::thread taker([&] {
        for (std::size_t i = 0; i < hand_overs; i++) {
            std::uint64_t given = queue.take();
            times.push_back(now() - given);
        }
    });
    for (std::size_t i = 0; i < hand_overs; i++) {
        std::this_thread::sleep_for(rest);
        queue.give(now());
    }
    taker.join();
    return quantiles(times);
}

double middle(std::vector<double> values) {
    std::sort(values.begin(), values.end());
    return values[values.size() / 2];
}

} // namespace

int main(int count, char **words) {
    if (count != 4) return 2;
    std::size_t hand_overs = std::strtoull(words[1], nullptr, 10), rounds = std::strtoull(words[3], nullptr, 10);
    std::chrono::microseconds rest(std::strtoull(words[2], nullptr, 10));
    if (hand_overs == 0 || rounds == 0) return 2;
    struct Row {
        const char *name;
        std::function<Times(std::size_t, std::chrono::microseconds)> run;
        std::vector<double> medians, lates;
    };
    std::vector<Row> rows = {{"kfifo", round<Kfifo>, {}, {}},
                             {"crossbeam-channel", round<Channel>, {}, {}},
                             {"mutex and condition variable", round<Locked>, {}, {}}};
    for (std::size_t turn = 0; turn < rounds; turn++)
        for (std::size_t i = 0; i < rows.size(); i++) {
            Row &row = rows[(turn + i) % rows.size()];
            Times times = row.run(hand_overs, rest);
            row.medians.push_back(times.median);
            row.lates.push_back(times.late);
        }
    std::puts("| Queue | Median, ns | 99th percentile, ns |\n|---|---|---|");
    for (const Row &row : rows) std::printf("| %s | %.0f | %.0f |\n", row.name, middle(row.medians), middle(row.lates));
}
