// The threads of a round: how they wait for each other, what stops them for a while, and what finds a hang.
#ifndef KFIFO_TEST_THREADS_HPP
#define KFIFO_TEST_THREADS_HPP

#include "design.hpp"
#include "machine.hpp"
#include "shared_memory.hpp"

#include <algorithm>
#include <atomic>
#include <condition_variable>
#include <csignal>
#include <cstddef>
#include <cstdint>
#include <ctime>
#include <functional>
#include <mutex>
#include <sched.h>
#include <sys/syscall.h>
#include <sys/types.h>
#include <thread>
#include <unistd.h>
#include <utility>
#include <vector>

namespace kfifo::checking {

// How a thread waits for others: it spins first, and then sleeps until the bell is rung. On a busy machine it sleeps
// soon. A thread that spins or yields there uses up its share of the processor, and then waits long for the next one.
class Bell {
  public:
    // What makes `ready` true rings the bell after it.
    template <class Ready> void wait(Ready ready, bool is_busy) {
        for (unsigned turn = 0; turn < (is_busy ? 200 : 3000); turn++) {
            if (ready()) return;
            if (turn < 1000)
                relax();
            else
                sched_yield();
        }
        std::unique_lock<std::mutex> lock(mutex);
        condition.wait(lock, ready);
    }
    void ring() {
        // A thread that has just found nothing ready either sleeps by now, or looks once more.
        { const std::lock_guard<std::mutex> guard(mutex); }
        condition.notify_all();
    }

  private:
    std::mutex mutex;
    std::condition_variable condition;
};

// Where the threads of a round wait for each other, so that they begin together.
class Barrier {
  public:
    void reset() noexcept { arrived = 0; }
    void wait(unsigned threads, bool is_busy) {
        const unsigned number = arrived.fetch_add(1) + 1;
        if (is_busy)
            wait_for_partner(std::min(number + number % 2, threads));
        else if (number == threads)
            bell.ring();
        else
            bell.wait([&] { return arrived.load() >= threads; }, false);
    }

  private:
    // On a busy machine few of the threads have a processor at a time, so they begin in pairs. A thread that slept or
    // yielded might lose its processor before the other one has one.
    void wait_for_partner(unsigned number) noexcept {
        const std::uint64_t end = nanoseconds() + 5000000;
        while (arrived.load() < number && nanoseconds() < end) relax();
    }
    std::atomic<unsigned> arrived{0};
    Bell bell;
};

// A timer whose signal keeps its thread where it is for 0 to 30 microseconds, so also inside a call: other threads then
// make many steps between two of its own. It belongs to the thread that arms it first.
class StallTimer {
  public:
    StallTimer() = default;
    StallTimer(const StallTimer &) = delete;
    StallTimer &operator=(const StallTimer &) = delete;
    ~StallTimer() {
        if (is_made) timer_delete(timer);
    }

    static int signal() noexcept { return SIGRTMAX - 2; }

    void arm(Random &random) noexcept {
        if (!is_made) make();
        if (!is_made) return;
        itimerspec when{};
        when.it_interval.tv_nsec = PERIOD;
        when.it_value.tv_nsec = 1 + long(random.below(PERIOD));
        timer_settime(timer, 0, &when, nullptr);
    }
    void disarm() noexcept {
        const itimerspec never{};
        if (is_made) timer_settime(timer, 0, &never, nullptr);
    }

    static void stay(int) noexcept {
        const std::uint64_t now = nanoseconds();
        while (nanoseconds() < now + now % 30000) continue;
    }

  private:
    static constexpr long PERIOD = 100000; // nanoseconds

    void make() noexcept {
        const pid_t here = pid_t(syscall(SYS_gettid));
        sigevent event{};
        event.sigev_notify = SIGEV_THREAD_ID;
        event.sigev_signo = signal();
#ifdef sigev_notify_thread_id
        event.sigev_notify_thread_id = here;
#else
        event._sigev_un._tid = here;
#endif
        is_made = timer_create(CLOCK_MONOTONIC, &event, &timer) == 0;
    }
    timer_t timer{};
    bool is_made = false;
};

// Takes the timers' signal while it lives.
class StallSignal {
  public:
    StallSignal() noexcept {
        struct sigaction action {};
        action.sa_handler = StallTimer::stay;
        action.sa_flags = SA_RESTART;
        sigaction(StallTimer::signal(), &action, &before);
    }
    StallSignal(const StallSignal &) = delete;
    StallSignal &operator=(const StallSignal &) = delete;
    ~StallSignal() { sigaction(StallTimer::signal(), &before, nullptr); }

  private:
    struct sigaction before {};
};

// The threads that run the jobs. Thread 0 is the one that calls `run`; the others are kept, and sleep between jobs.
class Crew {
  public:
    explicit Crew(unsigned threads) {
        try {
            for (unsigned i = 1; i < threads; i++) others.emplace_back([this, i] { serve(i); });
        } catch (...) {
            stop();
            throw;
        }
    }
    ~Crew() { stop(); }

    // Runs job(0) to job(threads - 1), each in its thread, and returns when all have ended.
    void run(unsigned threads, const std::function<void(unsigned)> &job, bool busy) {
        current = &job;
        ended = 0;
        is_busy = busy;
        start(word.load() / 256 * 256 + 256 + threads);
        job(0);
        end.wait([&] { return ended.load() + 1 >= threads; }, busy);
    }

  private:
    static constexpr std::uint64_t STOP = ~std::uint64_t(0);

    void start(std::uint64_t next) {
        word = next;
        begin.ring();
    }
    void stop() {
        start(STOP);
        for (std::thread &thread : others) thread.join();
    }
    // One word says which job it is and how many threads it has. With two words a thread that looks late could join a
    // job that is just being made.
    void serve(unsigned thread) {
        const ShortSlices slices;
        std::uint64_t seen = 0, now = 0;
        for (;;) {
            begin.wait([&] { return (now = word.load()) != seen; }, is_busy);
            seen = now;
            if (now == STOP) return;
            const unsigned threads = unsigned(now % 256);
            if (thread >= threads) continue;
            (*current)(thread);
            if (ended.fetch_add(1) + 2 == threads) end.ring();
        }
    }

    const std::function<void(unsigned)> *current = nullptr;
    std::atomic<bool> is_busy{false};
    alignas(128) std::atomic<std::uint64_t> word{0};
    alignas(128) std::atomic<unsigned> ended{0};
    Bell begin, end;
    std::vector<std::thread> others; // last, since they use the rest
};

// Finds calls that do not return, from a thread of its own. Only the processor time of the very thread that is in the
// call counts: on a busy machine a thread may get no processor for long, through no fault of the queue. For a call that
// sleeps, only time counts in which the watcher itself runs, so that a process that was stopped has no hang.
class Watcher {
  public:
    Watcher(Board &of, unsigned lanes, double hang_seconds, std::function<void()> then)
        : board(of), limit(std::uint64_t(hang_seconds * 1e9)), seen(lanes), on_hang(std::move(then)),
          thread([this] { watch(); }) {}
    ~Watcher() {
        is_over = true;
        thread.join();
    }

  private:
    static constexpr std::uint64_t TICK = 10000000; // nanoseconds
    struct Seen {
        std::uint64_t now = 0, spent = 0, ticks = 0;
    };

    void watch() {
        while (!is_over) {
            const timespec tick{0, long(TICK)};
            nanosleep(&tick, nullptr);
            bool hangs = false;
            for (std::size_t i = 0; i < seen.size(); i++) hangs = look(board.lanes[i], seen[i]) || hangs;
            if (hangs && board.end(Ended::hang)) on_hang();
        }
    }
    bool look(Lane &lane, Seen &last) const noexcept {
        const std::uint64_t now = lane.now.load(std::memory_order_acquire);
        if (now != last.now || what_of(now) == Doing::nothing) {
            last = {now, processor_time(lane), 0};
            return false;
        }
        last.ticks++;
        const std::uint64_t here = processor_time(lane), spent = here > last.spent ? here - last.spent : 0;
        lane.spent = spent;
        lane.lasted = last.ticks * TICK;
        // To make or to destroy a queue may take longer than a call.
        const bool is_call = what_of(now) == Doing::put || what_of(now) == Doing::get;
        return (is_call && spent >= limit) || last.ticks * TICK >= 10 * limit;
    }
    static std::uint64_t processor_time(const Lane &lane) noexcept {
        timespec time{};
        if (!lane.has_clock || clock_gettime(clockid_t(lane.clock.load()), &time) != 0) return 0;
        return std::uint64_t(time.tv_sec) * 1000000000 + std::uint64_t(time.tv_nsec);
    }

    Board &board;
    std::uint64_t limit;
    std::vector<Seen> seen;
    std::function<void()> on_hang;
    std::atomic<bool> is_over{false};
    std::thread thread; // last, since it uses the others
};

} // namespace kfifo::checking

#endif
