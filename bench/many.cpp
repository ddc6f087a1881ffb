// Many at once beside single calls. The arguments are what is given and taken ("values in C", "items in C", "values in
// C++" or "items in C++"), how many at once (1 is a single call, and at most 64), k, the segments, the threads (1 gives
// and takes, alternating, 2 are a producer and a consumer), and for how many milliseconds. It prints how many were
// given and taken, a second; status 1 where what came out is not what went in.
#include "kfifo.hpp"

#include <algorithm>
#include <array>
#include <atomic>
#include <chrono>
#include <cstdio>
#include <cstdlib>
#include <string>
#include <thread>
#include <vector>

namespace {

// The capacity of a queue of values for two threads with so many slots, or the greatest one.
std::uint32_t capacity(std::uint32_t k, std::uint32_t segments) {
    return std::min(k * segments, 2 * (1022 * k / 2 - 32));
}

// Each kind gives the numbers from `first` on, as many as it says or as there is room for, and takes such. One at once
// is a single call.
struct ValuesInC {
    std::vector<kfifo_handle> handles;
    std::array<std::array<std::uint64_t, 64>, 2> batches{};

    ValuesInC(std::uint32_t k, std::uint32_t segments) : handles(2) {
        if (kfifo_open_values(k, capacity(k, segments), handles.data(), 2) != KFIFO_DONE) std::abort();
    }
    ~ValuesInC() { (void)kfifo_abandon(handles.data(), 2); }
    std::size_t give(std::size_t most, std::uint32_t first) {
        auto &batch = batches[0];
        if (most == 1) return kfifo_give(&handles[0], first) == KFIFO_DONE;
        for (std::size_t i = 0; i < most; i++) batch[i] = first + i;
        std::size_t given = 0;
        (void)kfifo_give_all(&handles[0], batch.data(), most, &given);
        return given;
    }
    std::size_t take(std::size_t most, std::uint64_t &sum) {
        auto &batch = batches[1];
        std::size_t taken = 0;
        if (most == 1)
            taken = kfifo_take(&handles[1], batch.data()) == KFIFO_DONE;
        else
            (void)kfifo_take_up_to(&handles[1], batch.data(), most, &taken);
        for (std::size_t i = 0; i < taken; i++) sum += batch[i];
        return taken;
    }
};

struct ItemsInC {
    std::vector<kfifo_handle> handles;
    std::array<std::array<std::uint32_t, 64>, 2> batches{};

    ItemsInC(std::uint32_t k, std::uint32_t segments) : handles(2) {
        if (kfifo_open(k, segments, k, KFIFO_LAST, handles.data(), 2) != KFIFO_DONE) std::abort();
    }
    ~ItemsInC() { (void)kfifo_abandon(handles.data(), 2); }
    std::size_t give(std::size_t most, std::uint32_t first) {
        auto &batch = batches[0];
        if (most == 1) return kfifo_put(&handles[0], first) == KFIFO_DONE;
        for (std::size_t i = 0; i < most; i++) batch[i] = first + std::uint32_t(i);
        std::size_t put = 0;
        (void)kfifo_put_all(&handles[0], batch.data(), most, &put);
        return put;
    }
    std::size_t take(std::size_t most, std::uint64_t &sum) {
        auto &batch = batches[1];
        std::size_t got = 0;
        if (most == 1)
            got = kfifo_get(&handles[1], batch.data()) == KFIFO_DONE;
        else
            (void)kfifo_get_up_to(&handles[1], batch.data(), most, &got);
        for (std::size_t i = 0; i < got; i++) sum += batch[i];
        return got;
    }
};

struct ValuesInCpp {
    using Queue = kfifo::ValueQueue<std::uint64_t>;
    Queue queue;
    Queue::Handle giver, taker;
    std::vector<std::uint64_t> in, out;

    ValuesInCpp(std::uint32_t k, std::uint32_t segments)
        : queue(k, capacity(k, segments), 2), giver(queue.handle()), taker(queue.handle()), in(64) {}
    std::size_t give(std::size_t most, std::uint32_t first) {
        if (most == 1) return giver.give(std::uint64_t(first)) == kfifo::Put::done;
        for (std::size_t i = 0; i < most; i++) in[i] = first + i;
        return giver.give_all(in.begin(), in.begin() + std::ptrdiff_t(most)).given;
    }
    std::size_t take(std::size_t most, std::uint64_t &sum) {
        if (most == 1) {
            auto taken = taker.take();
            sum += taken.value.value_or(0);
            return taken.value.has_value();
        }
        out.clear();
        std::size_t taken = taker.take_up_to(most, out).taken;
        for (std::uint64_t value : out) sum += value;
        return taken;
    }
};

struct ItemsInCpp {
    kfifo::Queue queue;
    kfifo::Queue::Handle giver, taker;
    std::vector<std::uint32_t> in, out;

    ItemsInCpp(std::uint32_t k, std::uint32_t segments)
        : queue(k, segments, 2), giver(queue.handle(0)), taker(queue.handle(1)), in(64) {}
    std::size_t give(std::size_t most, std::uint32_t first) {
        if (most == 1) return giver.enqueue(first) == kfifo::Put::done;
        for (std::size_t i = 0; i < most; i++) in[i] = first + std::uint32_t(i);
        return giver.enqueue_all(in.begin(), in.begin() + std::ptrdiff_t(most)).given;
    }
    std::size_t take(std::size_t most, std::uint64_t &sum) {
        if (most == 1) {
            auto taken = taker.dequeue();
            sum += taken.item.value_or(0);
            return taken.item.has_value();
        }
        out.clear();
        std::size_t taken = taker.dequeue_up_to(most, out).taken;
        for (std::uint32_t item : out) sum += item;
        return taken;
    }
};

// One side: how many it gave or took, and their sum.
struct alignas(128) Side {
    std::uint64_t count = 0, sum = 0;
};

// Gives 64 numbers, that many at once. The numbers are 1 to 2^23 again and again.
template <typename Kind> void give_some(Kind &kind, std::size_t most, Side &side) {
    for (std::size_t left = 64; left > 0;) {
        std::uint32_t first = 1 + std::uint32_t(side.count & 0x7fffff);
        std::size_t given = kind.give(most, first);
        side.sum += given * first + given * (given - (given > 0)) / 2;
        side.count += given;
        if (given < most) return;
        left -= given;
    }
}

template <typename Kind> void take_some(Kind &kind, std::size_t most, Side &side) {
    for (std::size_t left = 64; left > 0;) {
        std::size_t taken = kind.take(most, side.sum);
        side.count += taken;
        if (taken < most) return;
        left -= taken;
    }
}

template <typename Kind> int run(std::size_t most, std::uint32_t k, std::uint32_t segments, int threads, int time) {
    Kind kind(k, segments);
    Side gives, takes;
    std::atomic<bool> stop{false};
    auto began = std::chrono::steady_clock::now();
    auto is_over = [&] { return std::chrono::steady_clock::now() - began >= std::chrono::milliseconds(time); };
    if (threads == 1) {
        for (bool over = false; !over; over = is_over())
            for (int i = 0; i < 100; i++) give_some(kind, most, gives), take_some(kind, most, takes);
    } else {
        std::thread giver([&] {
            while (!stop.load(std::memory_order_relaxed)) give_some(kind, most, gives);
        });
        for (bool over = false; !over; over = is_over())
            for (int i = 0; i < 100; i++) take_some(kind, most, takes);
        stop = true;
        giver.join();
    }
    std::chrono::duration<double> spent = std::chrono::steady_clock::now() - began;
    double calls = double(gives.count + takes.count);
    while (std::size_t taken = kind.take(1, takes.sum)) takes.count += taken;
    if (gives.count != takes.count || gives.sum != takes.sum) {
        std::puts("what went in did not come out");
        return 1;
    }
    std::printf("%.0f\n", calls / spent.count());
    return 0;
}

} // namespace

int main(int count, char **words) {
    if (count != 7) return 2;
    std::string what = words[1];
    auto number = [&](int place) { return std::strtoul(words[place], nullptr, 10); };
    auto most = std::size_t(number(2));
    auto k = std::uint32_t(number(3)), segments = std::uint32_t(number(4));
    int threads = int(number(5)), time = int(number(6));
    if (most < 1 || most > 64) return 2;
    if (what == "values in C") return run<ValuesInC>(most, k, segments, threads, time);
    if (what == "items in C") return run<ItemsInC>(most, k, segments, threads, time);
    if (what == "values in C++") return run<ValuesInCpp>(most, k, segments, threads, time);
    if (what == "items in C++") return run<ItemsInCpp>(most, k, segments, threads, time);
    return 2;
}
