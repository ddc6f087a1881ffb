// A whole check: it tests the options, and has the rounds run in a process of their own or in this one.
#ifndef KFIFO_TEST_RUN_HPP
#define KFIFO_TEST_RUN_HPP

#include "conductor.hpp"
#include "design.hpp"
#include "interface.hpp"
#include "machine.hpp"
#include "report.hpp"
#include "shared_memory.hpp"
#include "subject.hpp"
#include "threads.hpp"

#include <algorithm>
#include <cerrno>
#include <csignal>
#include <cstddef>
#include <cstdint>
#include <cstdio>
#include <cstdlib>
#include <exception>
#include <functional>
#include <memory>
#include <poll.h>
#include <random>
#include <stdexcept>
#include <string>
#include <sys/prctl.h>
#include <sys/types.h>
#include <sys/wait.h>
#include <system_error>
#include <type_traits>
#include <unistd.h>
#include <utility>

namespace kfifo::checking {

// A line of progress on a terminal, which the next one overwrites.
class Progress {
  public:
    explicit Progress(const CheckOptions &options) : name(options.name), shows(!options.quiet && isatty(2) != 0) {}
    ~Progress() {
        if (has_shown) std::fprintf(stderr, "\r\033[K");
    }
    void show(const Board &board, double seconds) {
        if (!shows || seconds < next) return;
        next = seconds + PERIOD;
        has_shown = true;
        std::fprintf(stderr, "\r\033[K%s: %s", name.c_str(), counts_of(board).c_str());
    }

  private:
    static constexpr double PERIOD = 0.5;
    const std::string &name;
    bool shows, has_shown = false;
    double next = PERIOD;
};

inline void refuse_if(bool is_wrong, const char *why) {
    if (is_wrong) throw std::invalid_argument(std::string("kfifo: ") + why);
}

inline void check_options(const CheckOptions &of) {
    refuse_if(of.name.empty() || of.name.find_first_of(std::string("/\0", 2)) != of.name.npos,
              "the name is not empty, and can stand in the name of a file");
    refuse_if(of.k < 1 || of.k > 64, "k is 1 to 64");
    refuse_if(of.threads && (*of.threads < 2 || *of.threads > MAX_THREADS), "threads are 2 to 64");
    refuse_if(of.one_producer && of.one_consumer && of.threads.value_or(2) != 2,
              "with one producer and one consumer there are 2 threads");
    refuse_if(of.calls && (*of.calls < 1 || *of.calls > 30000), "the calls of a thread are 1 to 30,000");
    refuse_if(of.capacities.empty(), "there is no capacity: a capacity is 1 to 30,000");
    for (const unsigned capacity : of.capacities)
        refuse_if(capacity < 1 || capacity > 30000, "a capacity is 1 to 30,000");
    refuse_if(!(of.seconds >= 0 && of.seconds < 1e9), "the seconds are 0 to 1,000,000,000");
    refuse_if(of.rounds && *of.rounds == 0, "the rounds are at least 1");
    refuse_if(!(of.hang_seconds > 0 && of.hang_seconds < 1e6), "the time of a hang is more than 0");
    refuse_if(of.repeated && (*of.repeated < 1 || *of.repeated > MAX_ITEM), "repeated is 1 to 16,777,215");
}

inline Settings settings_of(const CheckOptions &options, bool takes_capacity) {
    check_options(options);
    Settings of;
    of.options = options;
    of.seed = options.seed ? *options.seed : std::random_device()();
    of.takes_capacity = takes_capacity;
    of.threads = most(thread_counts(options));
    const unsigned filled = (takes_capacity ? most(options.capacities) : FILLED_WITHOUT_CAPACITY) / 2 + 1;
    const unsigned calls = most(call_counts(options));
    of.room = calls + filled;
    const std::size_t puts = std::size_t(of.threads) * calls + filled + of.threads;
    of.drained = unsigned(std::min(puts, MAX_CALLS) + BUSY_GETS);
    refuse_if(2 * puts + BUSY_GETS > MAX_CALLS,
              "a round has too many calls: threads times calls, with half a capacity, are at most 32,000");
    return of;
}

// Plays the rounds in this process. A hang cannot be undone here: on_hang does not return.
inline void conduct(const Settings &settings, const Maker &make, const SharedMemory &memory,
                    const std::function<void()> &on_hang) {
    Board &board = memory.board();
    const Watcher watcher(board, memory.lanes(), settings.options.hang_seconds, on_hang);
    try {
        Conductor(settings, make, memory).run();
    } catch (const std::exception &thrown) { // no memory, or no thread
        board.write_note(thrown.what());
        board.end(Ended::broken);
    }
}

inline double seconds_since(std::uint64_t began) noexcept { return double(nanoseconds() - began) / 1e9; }

inline CheckReport run_here(const Settings &settings, const Maker &make, const SharedMemory &memory) {
    const std::uint64_t began = nanoseconds();
    conduct(settings, make, memory, [&] {
        const CheckReport report = Reporter(settings, memory).make(seconds_since(began), 0);
        std::fprintf(stderr, "%s\nkfifo: a call that hangs cannot be stopped, so the process is aborted\n",
                     report.text.c_str());
        std::abort();
    });
    return Reporter(settings, memory).make(seconds_since(began), 0);
}

// The child process. It dies with its parent, and leaves without destructors and exit handlers, which are its parent's.
[[noreturn]] inline void be_child(const Settings &settings, const Maker &make, const SharedMemory &memory,
                                  pid_t parent) {
    prctl(PR_SET_PDEATHSIG, SIGKILL);
    if (getppid() != parent) _exit(1);
    // A test framework's handlers would report the child's crash as their own.
    for (int number : {SIGSEGV, SIGBUS, SIGFPE, SIGILL, SIGABRT}) std::signal(number, SIG_DFL);
    conduct(settings, make, memory, [] { _exit(0); });
    _exit(0);
}

// Waits until the child ends, and returns its status, or 0 where the caller ignores SIGCHLD. The pipe closes when the
// child ends, but later if another thread of the caller forks meanwhile. A child that neither plays nor judges for a
// long time is killed: a faulty queue may have damaged its memory.
inline int wait_for_child(pid_t child, int pipe_end, Board &board, const CheckOptions &options, std::uint64_t began) {
    Progress progress(options);
    std::uint64_t pulse = 0, alive = nanoseconds();
    pollfd end{pipe_end, POLLIN, 0};
    for (;;) {
        const bool is_closed = poll(&end, 1, 100) > 0;
        int status = 0;
        const pid_t ended = waitpid(child, &status, is_closed ? 0 : WNOHANG);
        if (ended == child) return status;
        if (ended < 0 && errno != EINTR) return 0;
        progress.show(board, seconds_since(began));
        if (std::exchange(pulse, board.pulse.load()) != board.pulse) alive = nanoseconds();
        if (seconds_since(alive) < 120 + 20 * options.hang_seconds) continue;
        board.write_note("it was killed, since no round ended for a long time");
        kill(child, SIGKILL);
    }
}

inline CheckReport run_apart(const Settings &settings, const Maker &make, const SharedMemory &memory) {
    const std::uint64_t began = nanoseconds();
    int ends[2];
    if (pipe(ends) != 0) throw std::system_error(errno, std::generic_category(), "kfifo: pipe");
    const pid_t parent = getpid(), child = fork();
    if (child < 0) {
        const int why = errno;
        close(ends[0]);
        close(ends[1]);
        throw std::system_error(why, std::generic_category(), "kfifo: fork");
    }
    if (child == 0) {
        close(ends[0]);
        be_child(settings, make, memory, parent);
    }
    close(ends[1]);
    const int status = wait_for_child(child, ends[0], memory.board(), settings.options, began);
    close(ends[0]);
    return Reporter(settings, memory).make(seconds_since(began), status);
}

template <class Make, class Handle, class Put, class Get>
CheckReport run(Make &make, Handle &handle, Put &put, Get &get, const CheckOptions &options) {
    if constexpr (can_check<Make, Handle, Put, Get>()) {
        const Settings settings = settings_of(options, std::is_invocable_v<Make &, std::size_t>);
        const SharedMemory memory(settings);
        const Maker maker = [&](std::size_t capacity, unsigned threads) -> std::unique_ptr<Instance> {
            return std::make_unique<Subject<Make, Handle, Put, Get>>(make, handle, put, get, capacity, threads);
        };
        return options.in_process ? run_here(settings, maker, memory) : run_apart(settings, maker, memory);
    } else {
        std::abort(); // no such program is built
    }
}

} // namespace kfifo::checking

#endif
