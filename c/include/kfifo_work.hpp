// Work that spawns work, over the proved k-FIFO queue: a pool of threads that take tasks about in the order in which
// they came, tasks that add tasks, and an end when all are done. For C++17. docs/WORK.md shows how to use it.
//
// How it works. The queue is one of 64-bit values that grows (kfifo.h). A task that can be copied byte by byte and fits
// in 64 bits is such a value. Any other lies in a node that the worker who gives it takes from a list of its own, and
// the value is the node's address. The worker that has done the task keeps the node, and lists that grow too long go
// round in chains, so that nodes are asked for about as often as the backlog grows.
//
// The order. When a task is begun, at most k - 1 earlier tasks, plus one for each other worker, have not begun. While
// the queue changes its generation, as it does when it grows, it may be one more for each other worker.
// What finds no room, since the queue has no more generations or there is no memory for one, waits in a list under a
// lock, first in, first out. While it has tasks, what is given goes there too, and workers move the oldest into the
// queue, whenever they find it empty and after each 16th take. So the order is that of the queue first, and then that
// of the list. But a task that is given while the list begins or comes to its end may be begun before those that other
// workers give to the list at that moment. And a worker that the system stops while it has the lock holds up those that
// give meanwhile. docs/WORK.md says for how many tasks there is room.
//
// How the end is found. No count is written by two threads. Each worker has two on a cache line of its own: how many
// tasks it gave, which it raises before it gives one, and how many it did, which it raises when the task's body has
// ended. A worker that finds nothing to do writes its second count once more by a full step. Then it adds up what all
// workers did, and after that what all gave. If the sums are equal, the work is over.
//
// 1. It says so only where that is true. Let S be the tasks that the first sum counts. The worker of a task of S
//    raised the count after that task was given, and after the task had given all its own. Counts are raised by
//    releases and read by acquires. So the second sum, which is read later, counts each task of S, each task that one
//    of S gave, and those that the run began with. If it is as large as S, then S is all of these: it has the first
//    tasks, and with each task those that it gave. So S is all tasks that there will ever be, and they are done.
// 2. Somebody says so. Each worker looks at the counts after it has done its last task. One of these looks has the last
//    full step of all. It reads what every other worker had done, and finds the sums equal. So nobody need look again
//    before it sleeps. The worker that says so finishes the queue, which wakes all.
//
// Without the full step the last two workers could both miss what the other did, and sleep for ever. A count of tasks
// given that is raised after the give, one of tasks done that is raised before the body has ended, or the sums in the
// other order, would end the run while tasks are left. test_work_model.cpp goes through all interleavings of three
// workers, with stores that are delayed, and finds what each of these breaks.
//
// How workers sleep. One that finds nothing looks for 5 microseconds more and then sleeps by the queue's own waiting:
// kfifo_wait.h says how, and why no wake-up is lost. The list counts as a part of the queue there: a worker looks into
// it after it has announced itself, and one that puts a task into it looks for sleeping workers after that.
#ifndef KFIFO_WORK_HPP
#define KFIFO_WORK_HPP

#include "kfifo.hpp"
#include "kfifo_work/options.hpp"
#include "kfifo_work/pool.hpp"
#include "kfifo_work/worker.hpp"

#include <cstddef>
#include <type_traits>
#include <utility>
#include <vector>

namespace kfifo::work {

// What a task gives further tasks with. It belongs to the thread that runs the body, as long as the body runs: no other
// thread may use it, and no run that is made within the task.
template <typename Task> class More {
  public:
    // Gives a task, which a worker will begin in its turn. It never waits. Where memory is missing it throws
    // std::bad_alloc, nothing was given, and the task is what it was.
    // Cost: as kfifo_give where the task fits in 64 bits and can be copied byte by byte, and else a move of Task more.
    // It asks for memory where the queue grows and for nodes. The first gives of a run also open the queue and start
    // threads, and one may wake a worker.
    //
    //     more.give(std::move(next));
    void give(Task &&task) {
        own.give([&](Task &&refused) { task = std::move(refused); }, std::move(task));
    }

    // The same with a copy.
    // Cost: the same, with a copy of Task.
    //
    //     more.give(next);
    void give(const Task &task) {
        own.give([](Task &&) {}, task);
    }

    // The same with a task that is made of these arguments.
    // Cost: as give, with that constructor of Task.
    //
    //     more.emplace(folder.path + "a", folder.depth + 1);
    template <typename... Arguments> void emplace(Arguments &&...arguments) {
        own.give([](Task &&) {}, std::forward<Arguments>(arguments)...);
    }

    // Ends the run early: no further task is begun, and those that are left come back in the report. Tasks that run go
    // on to their end, and may still give tasks, which come back too.
    // Cost: an atomic step and two calls of the system.
    //
    //     more.stop();
    void stop() { own.pool->stop(); }

    // Whether the run was stopped, also by a task that threw: a long task can end early then.
    // Cost: a load.
    //
    //     if (more.is_stopped()) return;
    [[nodiscard]] bool is_stopped() const { return own.pool->is_stopped(); }

    // The number of the worker that runs the task, from 0, which is the calling thread, to threads - 1: by it each
    // worker can have data of its own.
    // Cost: a load.
    //
    //     looked_at[more.worker()]++;
    [[nodiscard]] std::size_t worker() const { return own.number; }

  private:
    template <typename, typename> friend struct detail::Loop;
    explicit More(detail::Worker<Task> &of) : own(of) {}
    detail::Worker<Task> &own;
};

namespace detail {

// What a worker does, without its types: a give may start another one.
template <typename Task, typename Call> struct Loop {
    static void run(Worker<Task> &worker, void *call) {
        More<Task> more(worker);
        worker.work(*static_cast<Call *>(call), more);
    }
};

} // namespace detail

// Does these tasks, and those that they give, on several threads: body(task, more) is called once for each, by the
// worker that begins it, and gives further tasks by `more`, a More<Task> &. The call returns when all are done, and the
// calling thread is one of the workers. With one worker the tasks are done in their order. Workers are started as the
// tasks come, so a run of one task that gives none starts no thread. One that finds no task sleeps.
// Cost: a task costs as a kfifo_give and a kfifo_take. With the second task the run opens its queue, 0.8 megabytes with
// k = 16, and starts a thread. Each that comes up starts the next one where tasks wait, and later gives do, up to all.
//
//     report = kfifo::work::run<Stack>({0}, [&](Stack stack, auto &more) {
//         auto distance = static_cast<std::uint8_t>(distances[stack] + 1);
//         for (Stack next : stacks.flips(stack))
//             if (lower(distances[next], distance)) more.give(next);
//     });
//
// Task can be moved, and its destructor throws nothing. It is handed to the body as a Task &&, which lives until the
// body returns. The body is shared: it is called by several threads at once. What a task did before it gave another
// happens before that one.
//
// A task that throws stops the run, as More::stop does, and the run throws what was thrown first, after all workers
// have ended; what is left is destroyed then. It throws Error where `threads` or `k` is out of range, and with
// KFIFO_WORN where the queue was worn out, after 2^40 calls, since there was no memory for a new generation for
// minutes: tasks that are left are lost then. And it throws std::bad_alloc where there is no memory for the first
// tasks, of which none is begun then, or for those that are left. In a build without exceptions the program ends
// instead.
template <typename Task, typename Body>
Report<Task> run(std::vector<Task> start, Body &&body, Options options = Options()) {
    static_assert(std::is_object_v<Task> && std::is_move_constructible_v<Task> && std::is_nothrow_destructible_v<Task>,
                  "a task is moved or copied to where it waits, and destroyed there");
    auto call = [&](Task &&task, More<Task> &more) { body(std::move(task), more); };
    detail::Pool<Task> pool(options, detail::Loop<Task, decltype(call)>::run, &call);
    for (auto &&task : start) pool.workers[0].begin_with(std::move(task));
    pool.work(start.size());
    return pool.report(start.size());
}

} // namespace kfifo::work

#endif
