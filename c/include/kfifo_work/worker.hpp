// One worker of a run: it gives and takes tasks, does them, and looks for the end.
#ifndef KFIFO_WORK_WORKER_HPP
#define KFIFO_WORK_WORKER_HPP

#include "../kfifo.hpp"
#include "options.hpp"
#include "tasks.hpp"

#include <atomic>
#include <cstddef>
#include <cstdint>
#include <utility>

namespace kfifo::work {

template <typename Task> class More;

namespace detail {

template <typename Task> class Pool;
template <typename Task, typename Call> struct Loop;

// One worker, on lines of the cache of its own. Others read its counts.
template <typename Task> class alignas(2 * line) Worker {
  public:
    void joins(Pool<Task> &with, std::size_t which) {
        pool = &with;
        number = which;
        pass = &with.passes[which];
        carrier.shares(with.chains);
    }

    // One of the tasks that the run begins with.
    template <typename Argument> void begin_with(Argument &&argument) {
        std::uint64_t word = carrier.make(std::forward<Argument>(argument));
        count_given();
        enlist(word, [](Task &&) {});
    }

    // Gives a task that is made of these arguments. Where it throws, nothing was given, and `back` had the task.
    template <typename Back, typename... Arguments> void give(Back back, Arguments &&...arguments) {
        std::uint64_t word = carrier.make(std::forward<Arguments>(arguments)...);
        count_given();
        // After those of the list, and into it where there is no queue yet.
        bool is_in_queue = pool->is_open && pool->list.is_empty() && pool->has_put(pass, word);
        if (!is_in_queue) enlist(word, back);
        pool->after_give();
    }

    // Does tasks until the run is over, or was stopped.
    template <typename Call> void work(Call &call, More<Task> &more) {
        std::uint64_t word = 0;
        while (next(word)) {
            KFIFO_TRY {
                carrier.take(word, [&](Task &&task) { call(std::move(task), more); });
                report.done++;
            }
            KFIFO_CATCH { pool->fail(); }
            done.store(done.load(std::memory_order_relaxed) + 1, std::memory_order_release);
        }
    }

    // The task that this one took while the run was stopped, and did not begin.
    bool has_taken(std::uint64_t &word) {
        if (!is_kept) return false;
        word = kept;
        is_kept = false;
        return true;
    }

    // Others read this line when they look for the end, and now and then for the backlog.
    std::atomic<std::uint64_t> given{0}, done{0};
    alignas(2 * line) Carrier<Task, fits_in_word<Task>> carrier;
    WorkerReport report;
    std::uint64_t greatest_backlog = 0;
    Pool<Task> *pool = nullptr;
    std::size_t number = 0;

  private:
    // The count is raised before the give: the head of kfifo_work.hpp says why.
    void count_given() {
        std::uint64_t all = given.load(std::memory_order_relaxed) + 1;
        given.store(all, std::memory_order_release);
        if (all % 64 == 1) see_backlog();
    }

    // A task that was not given after all: until here the sums differ, since the task that gives it still runs.
    void count_back() { given.store(given.load(std::memory_order_relaxed) - 1, std::memory_order_release); }

    // Tasks may begin between the two sums. So the difference may be too small, but it is never too great.
    void see_backlog() {
        std::uint64_t all = pool->sum(&Worker::given), ended = pool->sum(&Worker::done);
        if (all > ended && all - ended > greatest_backlog) greatest_backlog = all - ended;
    }

    // Puts a task that found no room into the list, and wakes a worker for it.
    template <typename Back> void enlist(std::uint64_t word, Back back) {
        KFIFO_TRY { pool->list.push(word); }
        KFIFO_CATCH {
            count_back();
            carrier.take(word, back);
            KFIFO_THROW_AGAIN;
        }
        if (pool->is_open) (void)kfifo_after_give(pool->waits(), KFIFO_DONE);
    }

    // The next task: false where the run is over, or was stopped.
    bool next(std::uint64_t &word) {
        if (!pool->is_open) return next_alone(word);
        if (++takes % takes_between_moves == 0 && !pool->list.is_empty()) pool->move_on(pass);
        kfifo_status status = kfifo_take(pass, &word);
        if (__builtin_expect(status != KFIFO_DONE, 0)) status = wait_for(word, status);
        if (status == KFIFO_WORN) pool->wear();
        return status == KFIFO_DONE && begins(word);
    }

    // Without a queue there is one worker, and the list has all tasks.
    bool next_alone(std::uint64_t &word) {
        if (pool->list.size() > greatest_backlog) greatest_backlog = pool->list.size();
        return !pool->is_stopped() && pool->list.take(word);
    }

    // A task that was taken while the run was stopped is not begun.
    bool begins(std::uint64_t word) {
        if (!pool->is_stopped()) return true;
        kept = word;
        return !(is_kept = true);
    }

    // After a take that found nothing: looks whether the run is over, and else waits for a task.
    kfifo_status wait_for(std::uint64_t &word, kfifo_status status) {
        status = look_into_list(word, status);
        if (status == KFIFO_EMPTY && is_over()) {
            (void)kfifo_finish_by(pool->waits());
            return KFIFO_FINISHED;
        }
        kfifo_waiter waiter = kfifo_waiter_of(pool->waits(), KFIFO_WAITS_TAKER, KFIFO_FOREVER);
        for (;;) {
            // A worker that has announced itself, and then found nothing, sleeps now.
            report.sleeps += waiter.is_announced && status == KFIFO_EMPTY;
            if (!kfifo_wait_again(&waiter, &status)) return status;
            status = look_into_list(word, kfifo_take_once(pass, &word));
        }
    }

    // Where the queue has nothing: what the list has.
    kfifo_status look_into_list(std::uint64_t &word, kfifo_status of_queue) {
        return of_queue == KFIFO_EMPTY && !pool->list.is_empty() ? pool->hand_over(pass, word) : of_queue;
    }

    // The head of kfifo_work.hpp says why there is the full step, and why the sums come in this order.
    bool is_over() {
        done.exchange(done.load(std::memory_order_relaxed), std::memory_order_seq_cst);
        std::uint64_t all_done = pool->sum(&Worker::done);
        return all_done == pool->sum(&Worker::given);
    }

    // Where the list has tasks, a worker looks after so many takes whether the queue has room for them.
    static constexpr std::uint32_t takes_between_moves = 16;

    kfifo_handle *pass = nullptr;
    std::uint64_t kept = 0;
    std::uint32_t takes = 0;
    bool is_kept = false;
};

} // namespace detail

} // namespace kfifo::work

#endif
