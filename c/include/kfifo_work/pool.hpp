// What the workers of a run share: the queue, which opens when it is needed, and the threads.
#ifndef KFIFO_WORK_POOL_HPP
#define KFIFO_WORK_POOL_HPP

#include "../kfifo.hpp"
#include "list.hpp"
#include "options.hpp"
#include "tasks.hpp"
#include "worker.hpp"

#include <atomic>
#include <cstddef>
#include <cstdint>
#include <exception>
#include <limits>
#include <mutex>
#include <thread>
#include <utility>
#include <vector>

namespace kfifo::work {

namespace detail {

// The sizes of the queue of a run. A generation has room for up to 16,384 tasks, less 32 for each worker: few
// generations are opened for many tasks, and one is cheap enough for a run of few. A k that is too small for the
// workers is raised to the least that will do.
struct Sizes {
    static constexpr std::size_t room = 16384;

    Sizes(std::uint32_t least, std::size_t threads) : k(least) {
        while (segments * k / threads <= kfifo::detail::spare_cells) k++;
        std::size_t most = segments * k / threads, each = room / threads;
        capacity = static_cast<std::uint32_t>(threads * ((most < each ? most : each) - kfifo::detail::spare_cells));
        generations = static_cast<std::uint32_t>(129 - 2 * threads);
    }

    std::uint32_t k, capacity, generations;

  private:
    static constexpr std::size_t segments = 1022;
};

// What the workers of a run share.
template <typename Task> class Pool {
  public:
    using Runs = void (*)(Worker<Task> &worker, void *call);

    Pool(const Options &options, Runs does, void *what)
        : workers(number_of(options.threads)), loop(does), call(what), k(options.k), limit(workers.size()) {
        if (k < 1 || k > 64) kfifo::detail::raise(Error(KFIFO_BAD_K));
        for (std::size_t i = 0; i < workers.size(); i++) workers[i].joins(*this, i);
    }
    Pool(const Pool &) = delete;
    Pool &operator=(const Pool &) = delete;

    // What is left is destroyed.
    ~Pool() {
        std::uint64_t word = 0;
        while (next_left(word)) workers[0].carrier.take(word, [](Task &&) {});
        if (is_open) (void)kfifo_abandon(passes, workers.size());
    }

    // Does all tasks, of which there are `tasks` at first. Throws what a task threw first.
    void work(std::size_t tasks) {
        if (tasks > 1 && workers.size() > 1 && open()) start_worker();
        loop(workers[0], call);
        join();
#ifdef __cpp_exceptions
        if (failure) std::rethrow_exception(failure);
#endif
        if (is_worn.load()) kfifo::detail::raise(Error(KFIFO_WORN));
    }

    // What came of it, with the tasks that are left.
    Report<Task> report(std::size_t tasks) {
        Report<Task> all;
        all.greatest_backlog = tasks;
        for (const Worker<Task> &worker : workers) {
            all.workers.push_back(worker.report);
            if (worker.greatest_backlog > all.greatest_backlog) all.greatest_backlog = worker.greatest_backlog;
        }
        all.left.reserve(static_cast<std::size_t>(sum(&Worker<Task>::given) - sum(&Worker<Task>::done)));
        std::uint64_t word = 0;
        while (next_left(word))
            workers[0].carrier.take(word, [&](Task &&task) { all.left.push_back(std::move(task)); });
        return all;
    }

    // A give starts a worker, until all are started, where none sleeps or is still to come up. The first one opens the
    // queue: where there is no memory for it, the calling thread goes on alone, and the next give tries again.
    void after_give() {
        if (__builtin_expect(may_start(), 0) && (is_open || open())) start_worker();
    }

    void stop() {
        stopped.store(true);
        if (is_open) (void)kfifo_finish_by(waits());
    }

    bool is_stopped() const { return stopped.load(std::memory_order_relaxed); }

    // A task threw.
    void fail() {
        if (!has_failed.exchange(true)) failure = std::current_exception();
        stop();
    }

    // The versions of the queue are used up, and there was no memory for a generation all the time.
    void wear() {
        is_worn.store(true);
        stop();
    }

    // Puts a task into the queue: false where that has no room. One that is worn out ends the run: else all tasks would
    // go through the list from then on, slowly, and whether the run ends would hang on how takes meet the end.
    bool has_put(kfifo_handle *by, std::uint64_t word) {
        kfifo_status status = kfifo_give(by, word);
        if (__builtin_expect(status == KFIFO_WORN, 0)) wear();
        return status == KFIFO_DONE;
    }

    // Moves tasks of the list into the queue, where that has room.
    void move_on(kfifo_handle *by) {
        list.move_on([this, by](std::uint64_t word) { return has_put(by, word); });
    }

    // The oldest task of the list, for a worker that found the queue empty.
    kfifo_status hand_over(kfifo_handle *to, std::uint64_t &word) {
        return list.hand_over(to, word, [this, to](std::uint64_t other) { return has_put(to, other); });
    }

    std::uint64_t sum(std::atomic<std::uint64_t> Worker<Task>::*count) const {
        std::uint64_t all = 0;
        for (const Worker<Task> &worker : workers) all += (worker.*count).load(std::memory_order_seq_cst);
        return all;
    }

    kfifo_waits *waits() const { return KFIFO_WAITS(&passes[0]); }

    std::vector<Worker<Task>> workers;
    bool is_open = false; // set by the only worker, before it starts others
    kfifo_handle passes[64] = {};
    Chains chains;
    List list;

  private:
    static std::size_t number_of(std::size_t threads) {
        if (threads > KFIFO_MAX_THREADS) kfifo::detail::raise(Error(KFIFO_BAD_THREADS));
        if (threads == 0) threads = std::thread::hardware_concurrency();
        return threads == 0 ? 1 : threads < KFIFO_MAX_THREADS ? threads : KFIFO_MAX_THREADS;
    }

    // Opens the queue, and moves the tasks of the list into it.
    bool open() {
        Sizes sizes(k, workers.size());
        if (kfifo_open_values_with(sizes.k, sizes.capacity, KFIFO_LAST, KFIFO_RESERVE, sizes.generations, passes,
                                   workers.size()) != KFIFO_DONE)
            return false;
        is_open = true;
        list.move_on([this](std::uint64_t word) { return has_put(&passes[0], word); },
                     std::numeric_limits<std::size_t>::max());
        return true;
    }

    bool may_start() const {
        std::size_t all = started.load(std::memory_order_relaxed);
        if (all >= limit.load(std::memory_order_relaxed) || up.load(std::memory_order_relaxed) != all) return false;
        return !is_stopped() && !(is_open && (kfifo_waits_state(waits()) & KFIFO_WAITS_TAKERS));
    }

    void start_worker() {
        std::unique_lock<std::mutex> lock(starting, std::try_to_lock);
        if (lock) start_next();
    }

    // A worker comes up, and starts the next one where tasks wait for it. Where each of the first gives started one in
    // its place, a search gave its first states one after the other while workers ran ahead, and did much twice.
    void come_up() {
        std::lock_guard<std::mutex> lock(starting);
        up.fetch_add(1, std::memory_order_relaxed);
        std::uint64_t ended = sum(&Worker<Task>::done);
        if (sum(&Worker<Task>::given) - ended > started.load(std::memory_order_relaxed) && may_start()) start_next();
    }

    // Starts one more worker, by whoever has the lock. Where the system refuses a thread, the run goes on with those
    // that it has, and gives back the other handles, whose generation others would look into.
    void start_next() {
        std::size_t which = started.load(std::memory_order_relaxed);
        if (which >= limit.load(std::memory_order_relaxed)) return;
        KFIFO_TRY {
            if (threads.empty()) threads.reserve(workers.size());
            threads.emplace_back([this, which] {
                come_up();
                loop(workers[which], call);
            });
            started.store(which + 1, std::memory_order_relaxed);
        }
        KFIFO_CATCH {
            limit.store(which, std::memory_order_relaxed);
            (void)kfifo_abandon(passes + which, workers.size() - which);
        }
    }

    // Waits for all workers. One that is joined starts no others, so when the last is joined there are no more.
    void join() {
        for (std::size_t i = 0;; i++) {
            std::unique_lock<std::mutex> lock(starting);
            if (i >= threads.size()) return;
            std::thread thread = std::move(threads[i]);
            lock.unlock();
            thread.join();
        }
    }

    // Takes a task that is left, when all workers have ended.
    bool next_left(std::uint64_t &word) {
        for (Worker<Task> &worker : workers)
            if (worker.has_taken(word)) return true;
        return (is_open && kfifo_take(&passes[0], &word) == KFIFO_DONE) || list.take(word);
    }

    Runs loop;
    void *call;
    std::uint32_t k;
    std::atomic<bool> stopped{false};
    std::atomic<std::size_t> started{1}, up{1}, limit; // how many workers were started, run, and may be started
    std::mutex starting;
    std::vector<std::thread> threads;
    std::atomic<bool> has_failed{false}, is_worn{false};
    std::exception_ptr failure;
};

} // namespace detail

} // namespace kfifo::work

#endif
