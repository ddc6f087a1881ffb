// Work that spawns work, by kfifo::work::run and by the same loop around other lists of tasks. It runs one workload
// once and prints a line of JSON:
//
//     tasks LIST THREADS K explore PANCAKES          seconds, tasks for each stack, and the sum of the distances
//     tasks LIST THREADS K grid SIDE                 the same of vertices
//     tasks LIST THREADS K tree NANOSECONDS DEPTH    nanoseconds for each task
//     tasks LIST THREADS K jobs PERCENT              microseconds from give to begin: the median, 99 and 99.9 of 100
//     tasks LIST THREADS K idle SECONDS              microseconds of a processor for each worker that waits so long
//     tasks LIST THREADS K runs TASKS                microseconds for each run of so many tasks
//
// LIST is run, tbb, feeder, moodycamel, array or mutex. Each but `run` and `feeder` has the loop of `Looped` around it,
// whose idle threads look again and again. K counts for `run` alone.
#include "kfifo_work.hpp"
#include "work.hpp"

#include <concurrentqueue/concurrentqueue.h>
#include <tbb/concurrent_queue.h>
#include <tbb/global_control.h>
#include <tbb/parallel_for_each.h>

#include <algorithm>
#include <atomic>
#include <chrono>
#include <cmath>
#include <cstdio>
#include <cstdlib>
#include <ctime>
#include <deque>
#include <mutex>
#include <random>
#include <string>
#include <thread>
#include <vector>

extern "C" {
void *array_queue_new(std::size_t);
bool array_queue_push(const void *, std::uint32_t);
std::uint32_t array_queue_pop(const void *);
void array_queue_free(void *);
}

namespace {

using Clock = std::chrono::steady_clock;
using Task = std::uint32_t; // not 0

double seconds_since(Clock::time_point begin) { return std::chrono::duration<double>(Clock::now() - begin).count(); }

// ---- Lists of tasks ----

struct Tbb {
    tbb::concurrent_queue<Task> queue;
    bool push(Task task) {
        queue.push(task);
        return true;
    }
    Task pop() {
        Task task = 0;
        return queue.try_pop(task) ? task : 0;
    }
};

struct Moodycamel {
    moodycamel::ConcurrentQueue<Task> queue;
    bool push(Task task) { return queue.enqueue(task); }
    Task pop() {
        Task task = 0;
        return queue.try_dequeue(task) ? task : 0;
    }
};

// It has room for so many, and what it refuses the loop keeps.
struct Array {
    void *queue = array_queue_new(65536);
    ~Array() { array_queue_free(queue); }
    bool push(Task task) { return array_queue_push(queue, task); }
    Task pop() { return array_queue_pop(queue); }
};

struct Mutex {
    std::mutex mutex;
    std::deque<Task> queue;
    bool push(Task task) {
        std::lock_guard<std::mutex> lock(mutex);
        queue.push_back(task);
        return true;
    }
    Task pop() {
        std::lock_guard<std::mutex> lock(mutex);
        if (queue.empty()) return 0;
        Task task = queue.front();
        queue.pop_front();
        return task;
    }
};

// The loop by hand around a list: the end is found as by kfifo::work::run, and a task that the list refuses is the
// thread's own.
template <typename List> class Looped {
  public:
    explicit Looped(std::size_t number) : counts(number) {}

    template <typename Body> void operator()(Task first, Body body) {
        counts[0].given = 1;
        list.push(first);
        std::vector<std::thread> threads;
        for (std::size_t i = 0; i < counts.size(); i++) threads.emplace_back([&, i] { work(i, body); });
        for (std::thread &thread : threads) thread.join();
    }

  private:
    struct alignas(128) Counts {
        std::atomic<std::uint64_t> given{0}, done{0};
    };

    template <typename Body> void work(std::size_t which, Body &body) {
        Counts &own = counts[which];
        std::vector<Task> refused;
        auto give = [&](Task task) {
            own.given.store(own.given.load(std::memory_order_relaxed) + 1);
            if (!list.push(task)) refused.push_back(task);
        };
        for (;;) {
            Task task = list.pop();
            if (task == 0 && !refused.empty()) {
                task = refused.back();
                refused.pop_back();
            }
            if (task == 0) {
                if (is_over()) return;
                std::this_thread::yield();
                continue;
            }
            body(task, give);
            own.done.store(own.done.load(std::memory_order_relaxed) + 1);
        }
    }

    bool is_over() const {
        std::uint64_t done = 0, given = 0;
        for (const Counts &it : counts) done += it.done;
        for (const Counts &it : counts) given += it.given;
        return done == given;
    }

    std::vector<Counts> counts;
    List list;
};

// TBB's scheduler, which steals.
class Feeder {
  public:
    explicit Feeder(std::size_t threads) : control(tbb::global_control::max_allowed_parallelism, threads) {}
    template <typename Body> void operator()(Task first, Body body) {
        std::vector<Task> start{first};
        tbb::parallel_for_each(start.begin(), start.end(), [&](Task task, tbb::feeder<Task> &feeder) {
            auto give = [&](Task next) { feeder.add(next); };
            body(task, give);
        });
    }

  private:
    tbb::global_control control;
};

class Run {
  public:
    Run(std::size_t threads, std::uint32_t k) {
        options.threads = threads;
        options.k = k;
    }
    template <typename Body> void operator()(Task first, Body body) {
        auto report = kfifo::work::run<Task>(
            {first},
            [&](Task task, auto &more) {
                auto give = [&](Task next) { more.give(next); };
                body(task, give);
            },
            options);
        sleeps = report.sleeps();
    }
    std::uint64_t sleeps = 0;

  private:
    kfifo::work::Options options;
};

// ---- Workloads ----

// Lowers a distance, and says whether it was greater.
bool lower(std::atomic<std::uint32_t> &distance, std::uint32_t to) {
    std::uint32_t is = distance.load(std::memory_order_relaxed);
    while (to < is)
        if (distance.compare_exchange_weak(is, to)) return true;
    return false;
}

using Distances = std::vector<std::atomic<std::uint32_t>>;

void print_search(double time, double tasks, const Distances &distances) {
    unsigned long long sum = 0;
    for (const auto &it : distances) sum += it;
    std::printf("{\"seconds\": %.4f, \"tasks\": %.4f, \"sum\": %llu}\n", time, tasks / double(distances.size()), sum);
}

// The stacks of pancakes are numbered as those of c/examples/explore.cpp.
class Pancakes {
  public:
    explicit Pancakes(int number) : pancakes(number) {
        for (int i = 1; i <= number; i++) orders[i] = orders[i - 1] * std::uint32_t(i);
    }
    std::uint32_t size() const { return orders[pancakes]; }
    template <typename Use> void flips(std::uint32_t stack, Use use) const {
        int sizes[12], flipped[12], left[12];
        for (int i = 0; i < pancakes; i++) left[i] = i;
        for (int i = 0; i < pancakes; i++) {
            std::uint32_t rest = orders[pancakes - 1 - i];
            int at = int(stack / rest);
            stack %= rest;
            sizes[i] = left[at];
            for (int j = at; j + 1 < pancakes - i; j++) left[j] = left[j + 1];
        }
        for (int top = 2; top <= pancakes; top++) {
            for (int i = 0; i < pancakes; i++) flipped[i] = sizes[i < top ? top - 1 - i : i];
            use(number_of(flipped));
        }
    }

  private:
    std::uint32_t number_of(const int *sizes) const {
        std::uint32_t number = 0, used = 0;
        for (int i = 0; i < pancakes; i++) {
            int smaller = __builtin_popcount(used & ((1U << sizes[i]) - 1));
            number += std::uint32_t(sizes[i] - smaller) * orders[pancakes - 1 - i];
            used |= 1U << sizes[i];
        }
        return number;
    }
    int pancakes;
    std::uint32_t orders[13] = {1};
};

template <typename Runs> int explore(Runs &runs, int pancakes) {
    Pancakes stacks(pancakes);
    Distances distances(stacks.size());
    for (auto &it : distances) it = ~0U;
    distances[0] = 0;
    std::atomic<std::uint64_t> tasks{0};
    auto begin = Clock::now();
    runs(1, [&](Task task, auto &give) {
        tasks.fetch_add(1, std::memory_order_relaxed);
        std::uint32_t distance = distances[task - 1] + 1;
        stacks.flips(task - 1, [&](std::uint32_t next) {
            if (lower(distances[next], distance)) give(next + 1);
        });
    });
    double time = seconds_since(begin);
    print_search(time, double(tasks), distances);
    return 0;
}

// Shortest paths in a grid whose edges have random lengths, from a corner, by lowering distances.
template <typename Runs> int grid(Runs &runs, std::uint32_t side) {
    std::minstd_rand random(1);
    std::vector<std::uint8_t> right(side * side), down(side * side);
    for (auto *lengths : {&right, &down})
        for (auto &it : *lengths) it = std::uint8_t(1 + random() % 100);
    Distances distances(side * side);
    for (auto &it : distances) it = ~0U;
    std::vector<std::atomic<bool>> is_task(side * side);
    distances[0] = 0;
    std::atomic<std::uint64_t> tasks{0};
    auto begin = Clock::now();
    runs(1, [&](Task task, auto &give) {
        tasks.fetch_add(1, std::memory_order_relaxed);
        std::uint32_t at = task - 1, x = at % side, y = at / side;
        is_task[at] = false;
        std::uint32_t distance = distances[at];
        auto relax = [&](std::uint32_t next, std::uint32_t length) {
            if (lower(distances[next], distance + length) && !is_task[next].exchange(true)) give(next + 1);
        };
        if (x + 1 < side) relax(at + 1, right[at]);
        if (y + 1 < side) relax(at + side, down[at]);
        if (x > 0) relax(at - 1, right[at - 1]);
        if (y > 0) relax(at - side, down[at - side]);
    });
    double time = seconds_since(begin);
    print_search(time, double(tasks), distances);
    return 0;
}

// Each task works for that time and gives two, to a depth.
template <typename Runs> int tree(Runs &runs, std::uint64_t nanoseconds, std::uint32_t depth) {
    bench::Work work(nanoseconds);
    Task end = Task(1) << depth;
    auto begin = Clock::now();
    runs(1, [&](Task task, auto &give) {
        work();
        if (task >= end) return;
        give(2 * task);
        give(2 * task + 1);
    });
    double tasks = double(end) * 2 - 1;
    std::printf("{\"nanoseconds\": %.1f}\n", seconds_since(begin) * 1e9 / tasks);
    return 0;
}

// One thread gives jobs by a clock, at random times, so that the others are busy for that part of the time. A job takes
// 20 microseconds while all threads work.
template <typename Runs> int jobs(Runs &runs, std::size_t threads, double percent) {
    constexpr std::uint32_t number = 50000;
    constexpr double each = 20e-6;
    bench::Work work(std::uint64_t(each * 1e9), threads);
    std::vector<Clock::time_point> given(number + 2);
    std::vector<double> waited(number);
    runs(1, [&](Task task, auto &give) {
        if (task > 1) {
            waited[task - 2] = seconds_since(given[task]) * 1e6;
            work();
            return;
        }
        std::minstd_rand random(2);
        double gap = each / (percent / 100 * double(threads - 1));
        auto due = Clock::now();
        for (std::uint32_t next = 2; next < number + 2; next++) {
            std::chrono::duration<double> until(-std::log(double(random()) / double(random.max() + 1)) * gap);
            due += std::chrono::duration_cast<Clock::duration>(until);
            while (Clock::now() < due) {
            }
            given[next] = Clock::now();
            give(next);
        }
    });
    std::sort(waited.begin(), waited.end());
    std::printf("{\"median\": %.1f, \"99\": %.1f, \"99.9\": %.1f}\n", waited[number / 2], waited[number / 100 * 99],
                waited[number / 1000 * 999]);
    return 0;
}

double processor_microseconds() {
    timespec time;
    clock_gettime(CLOCK_PROCESS_CPUTIME_ID, &time);
    return double(time.tv_sec) * 1e6 + double(time.tv_nsec) * 1e-3;
}

// One task starts all workers and then sleeps.
template <typename Runs> int idle(Runs &runs, std::size_t threads, double seconds) {
    double used = 0;
    runs(1, [&](Task task, auto &give) {
        if (task > 1) return;
        for (Task next = 2; next < 2 + 4 * threads; next++) {
            give(next);
            std::this_thread::sleep_for(std::chrono::milliseconds(2));
        }
        double before = processor_microseconds();
        std::this_thread::sleep_for(std::chrono::duration<double>(seconds));
        used = processor_microseconds() - before;
    });
    std::printf("{\"microseconds\": %.1f}\n", used / double(threads - 1));
    return 0;
}

// Runs of few tasks, one after the other: the first task gives the others.
template <typename Runs> int few(Runs &runs, Task tasks) {
    constexpr int number = 2000;
    auto begin = Clock::now();
    for (int i = 0; i < number; i++) {
        runs(1, [&](Task task, auto &give) {
            for (Task next = 2; task == 1 && next <= tasks; next++) give(next);
        });
    }
    std::printf("{\"microseconds\": %.2f}\n", seconds_since(begin) * 1e6 / number);
    return 0;
}

template <typename Runs> int measure(Runs &&runs, std::size_t threads, int count, char **words) {
    std::string workload = words[0];
    double first = count > 1 ? std::atof(words[1]) : 0;
    if (workload == "explore") return explore(runs, int(first));
    if (workload == "grid") return grid(runs, std::uint32_t(first));
    if (workload == "tree" && count > 2) return tree(runs, std::uint64_t(first), std::uint32_t(std::atoi(words[2])));
    if (workload == "jobs") return jobs(runs, threads, first);
    if (workload == "idle") return idle(runs, threads, first);
    if (workload == "runs") return few(runs, Task(first));
    return 2;
}

} // namespace

int main(int count, char **words) {
    if (count < 6) return 2;
    std::string list = words[1];
    auto threads = std::size_t(std::atoi(words[2]));
    auto k = std::uint32_t(std::atoi(words[3]));
    count -= 4;
    words += 4;
    if (list == "run") return measure(Run(threads, k), threads, count, words);
    if (list == "feeder") return measure(Feeder(threads), threads, count, words);
    if (list == "tbb") return measure(Looped<Tbb>(threads), threads, count, words);
    if (list == "moodycamel") return measure(Looped<Moodycamel>(threads), threads, count, words);
    if (list == "array") return measure(Looped<Array>(threads), threads, count, words);
    if (list == "mutex") return measure(Looped<Mutex>(threads), threads, count, words);
    return 2;
}
