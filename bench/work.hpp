// Work between two calls, of about so many nanoseconds: the same function for each queue.
#ifndef BENCH_WORK_HPP
#define BENCH_WORK_HPP

#include <algorithm>
#include <atomic>
#include <chrono>
#include <cstddef>
#include <cstdint>
#include <thread>
#include <vector>

extern "C" void bench_work(std::uint64_t steps);

namespace bench {

// Works for about so many nanoseconds, by steps that were timed before.
struct Work {
    std::uint64_t steps = 0;

    // By one thread alone. The fastest of some trials counts, since the thread may lose its processor in another.
    explicit Work(std::uint64_t nanoseconds) {
        if (nanoseconds == 0) return;
        constexpr std::uint64_t tried = 4000000;
        std::chrono::duration<double, std::nano> fastest = std::chrono::hours(1);
        for (int trial = 0; trial < 5; trial++) {
            auto began = std::chrono::steady_clock::now();
            bench_work(tried);
            fastest = std::min<decltype(fastest)>(fastest, std::chrono::steady_clock::now() - began);
        }
        steps = std::uint64_t(double(tried) / fastest.count() * double(nanoseconds)) + 1;
    }
    // While so many threads work at once. Where a host shares its processors, each of them has less than one: so the
    // mean counts.
    Work(std::uint64_t nanoseconds, std::size_t threads) {
        constexpr std::uint64_t part = 10000;
        constexpr std::chrono::duration<double, std::nano> tried = std::chrono::milliseconds(500);
        std::atomic<std::uint64_t> parts{0};
        auto end = std::chrono::steady_clock::now() + tried;
        std::vector<std::thread> busy(threads);
        for (auto &it : busy) {
            it = std::thread([&] {
                for (; std::chrono::steady_clock::now() < end; parts++) bench_work(part);
            });
        }
        for (auto &it : busy) it.join();
        steps = std::uint64_t(double(part * parts) / double(threads) / tried.count() * double(nanoseconds)) + 1;
    }
    // Without work there is no call either.
    void operator()() const {
        if (steps != 0) bench_work(steps);
    }
};

} // namespace bench

#endif
