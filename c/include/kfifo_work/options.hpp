// What a run of tasks is made with, and what it comes to.
#ifndef KFIFO_WORK_OPTIONS_HPP
#define KFIFO_WORK_OPTIONS_HPP

#include <cstddef>
#include <cstdint>
#include <vector>

namespace kfifo::work {

// How a run is made.
struct Options {
    std::size_t threads = 0; // how many workers, 1 to 64, of which the calling thread is one; 0: as many as processors
    // One of the k oldest tasks is begun next, 1 to 64: 1 keeps the order, 64 is the fastest. For more than 30 threads
    // it is at least 2, and for more than 61 at least 3.
    std::uint32_t k = 16;
};

// What one worker did.
struct WorkerReport {
    std::uint64_t done = 0;   // tasks whose body returned
    std::uint64_t sleeps = 0; // how often it slept since there was nothing to do
};

// What a run came to.
template <typename Task> struct Report {
    std::vector<WorkerReport> workers; // the first is the calling thread; one that was never needed did nothing
    // The most tasks at one moment that were given and not done, those that ran among them. A worker looks at the first
    // task that it gives and at each 64th after it, so the true number may be a little greater.
    std::uint64_t greatest_backlog = 0;
    std::vector<Task> left; // tasks that were not begun, since More::stop was called: about the oldest first

    // How many tasks all workers did.
    std::uint64_t done() const {
        std::uint64_t all = 0;
        for (const WorkerReport &worker : workers) all += worker.done;
        return all;
    }

    // How often workers slept.
    std::uint64_t sleeps() const {
        std::uint64_t all = 0;
        for (const WorkerReport &worker : workers) all += worker.sleeps;
        return all;
    }
};

} // namespace kfifo::work

#endif
