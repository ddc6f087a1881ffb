// What a check uses of the machine: the processors that its threads run on, and one clock for all threads.
#ifndef KFIFO_TEST_MACHINE_HPP
#define KFIFO_TEST_MACHINE_HPP

#include <atomic>
#include <chrono>
#include <cstddef>
#include <cstdint>
#include <pthread.h>
#include <sched.h>
#include <sys/syscall.h>
#include <thread>
#include <unistd.h>
#include <vector>

#if defined(__x86_64__)
#include <cpuid.h>
#include <x86intrin.h>
#endif

namespace kfifo::checking {

inline std::uint64_t nanoseconds() noexcept {
    return std::uint64_t(
        std::chrono::duration_cast<std::chrono::nanoseconds>(std::chrono::steady_clock::now().time_since_epoch())
            .count());
}

inline void relax() noexcept {
#if defined(__x86_64__)
    _mm_pause();
#else
    std::this_thread::yield();
#endif
}

// The processors that this thread may run on.
inline std::vector<int> processors() {
    cpu_set_t set;
    CPU_ZERO(&set);
    std::vector<int> found;
    if (pthread_getaffinity_np(pthread_self(), sizeof set, &set) == 0)
        for (int i = 0; i < CPU_SETSIZE; i++)
            if (CPU_ISSET(std::size_t(i), &set)) found.push_back(i);
    return found;
}

inline void run_on(const std::vector<int> &allowed) noexcept {
    cpu_set_t set;
    CPU_ZERO(&set);
    for (int i : allowed) CPU_SET(std::size_t(i), &set);
    if (!allowed.empty()) (void)pthread_setaffinity_np(pthread_self(), sizeof set, &set);
}

// Asks for short time slices for this thread, so that on a busy machine it soon gets a processor. Linux has this since
// 6.12; an older one leaves all as it is.
class ShortSlices {
  public:
    ShortSlices() noexcept {
        before.size = sizeof before;
        if (syscall(SYS_sched_getattr, 0, &before, sizeof before, 0) != 0 || before.policy != SCHED_OTHER) return;
        Attributes shorter = before;
        shorter.runtime = 100000; // nanoseconds, the least that is allowed
        is_set = syscall(SYS_sched_setattr, 0, &shorter, 0) == 0;
    }
    ShortSlices(const ShortSlices &) = delete;
    ShortSlices &operator=(const ShortSlices &) = delete;
    ~ShortSlices() {
        if (is_set) (void)syscall(SYS_sched_setattr, 0, &before, 0);
    }

  private:
    struct Attributes { // the kernel's sched_attr
        std::uint32_t size, policy;
        std::uint64_t flags;
        std::int32_t nice;
        std::uint32_t priority;
        std::uint64_t runtime, deadline, period;
    };
    Attributes before{};
    bool is_set = false;
};

// One clock for all threads. It reads the processor's counter where all processors agree on it, else steady_clock.
// A time before a call is read before any of the call's steps, and a time after it when all of them are visible to
// every thread: else a right queue could be found wrong.
class Clock {
  public:
    explicit Clock(const std::vector<int> &allowed) : counts(has_counter() && counters_agree(allowed)) {}
    bool has_ticks() const noexcept { return counts; }

    // The time before a call, later than `latest`, which is the time at which the thread's call before ended.
    std::uint64_t before(std::uint64_t latest) const noexcept {
        std::uint64_t now;
        do now = read();
        while (now <= latest);
        return now;
    }

    // Stands between the time before a call and the call. No step of the call is made until the clock was read.
    static void begin() noexcept {
#if defined(__x86_64__)
        _mm_lfence();
#elif defined(__aarch64__)
        asm volatile("isb" ::: "memory");
#else
        __sync_synchronize();
#endif
        asm volatile("" ::: "memory");
    }

    // The time after a call. The stores of the call may still wait in the processor, so they are waited for first.
    std::uint64_t after() const noexcept {
        asm volatile("" ::: "memory");
#if defined(__x86_64__)
        _mm_mfence();
        _mm_lfence();
#elif defined(__aarch64__)
        asm volatile("dsb ish\n\tisb" ::: "memory");
#else
        __sync_synchronize();
#endif
        return read();
    }

  private:
    std::uint64_t read() const noexcept {
#if defined(__x86_64__)
        if (counts) return __rdtsc();
#endif
        return nanoseconds();
    }

    // Whether there is a counter that runs at one rate whatever the processor does.
    static bool has_counter() noexcept {
#if defined(__x86_64__)
        unsigned a = 0, b = 0, c = 0, d = 0;
        return __get_cpuid(0x80000007, &a, &b, &c, &d) != 0 && (d & (1u << 8)) != 0;
#else
        return false;
#endif
    }

    // Whether no processor reads less than another one has read before.
    static bool counters_agree(const std::vector<int> &allowed) {
        std::atomic<std::uint64_t> latest{0};
        std::atomic<bool> agree{true};
        std::vector<std::thread> readers;
        for (int processor : allowed)
            readers.emplace_back([&latest, &agree, processor] {
                run_on({processor});
                for (int i = 0; i < 2000; i++)
                    if (!reads_no_less(latest)) agree = false;
            });
        for (std::thread &reader : readers) reader.join();
        return agree && !allowed.empty();
    }

    static bool reads_no_less(std::atomic<std::uint64_t> &latest) noexcept {
#if defined(__x86_64__)
        std::uint64_t seen = latest.load();
        _mm_lfence();
        const std::uint64_t now = __rdtsc();
        if (now < seen) return false;
        latest.compare_exchange_strong(seen, now);
#else
        (void)latest;
#endif
        return true;
    }

    bool counts;
};

} // namespace kfifo::checking

#endif
