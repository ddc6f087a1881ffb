// Work that spawns work: chains, trees and bursts, stops and throws, runs of few tasks and of none, runs within runs,
// and tasks that count their lives. Each task is done once or comes back, by each number of workers.
#include "kfifo_work.hpp"

#include <algorithm>
#include <array>
#include <atomic>
#include <chrono>
#include <cstdint>
#include <cstdio>
#include <ctime>
#include <memory>
#include <mutex>
#include <set>
#include <stdexcept>
#include <string>
#include <thread>
#include <vector>

namespace {

#ifdef FEWER
constexpr int scale = 1;
#else
constexpr int scale = 10;
#endif

std::atomic<int> failures{0};

void expect(bool holds, const char *what) {
    if (!holds && failures++ < 10) std::fprintf(stderr, "wrong: %s\n", what);
}

kfifo::work::Options by(std::size_t threads, std::uint32_t k = 16) {
    kfifo::work::Options options;
    options.threads = threads;
    options.k = k;
    return options;
}

// A task that is no word, and counts how many of its kind there are.
class Counted {
  public:
    explicit Counted(std::uint64_t of) : value(of) { alive++; }
    Counted(const Counted &other) : value(other.value) { alive++; }
    Counted(Counted &&other) noexcept : value(other.value) {
        other.value = gone;
        alive++;
    }
    Counted &operator=(Counted &&other) noexcept {
        std::swap(value, other.value);
        return *this;
    }
    ~Counted() { alive--; }

    static constexpr std::uint64_t gone = ~std::uint64_t(0);
    static std::atomic<std::int64_t> alive;
    std::uint64_t value;
    std::uint64_t more = 0;
};
std::atomic<std::int64_t> Counted::alive{0};

struct alignas(128) Wide {
    std::uint64_t value;
};

std::uint64_t number_of(std::uint64_t task) { return task; }
std::uint64_t number_of(const Counted &task) { return task.value; }
std::uint64_t number_of(const Wide &task) { return task.value; }
std::uint64_t number_of(const std::unique_ptr<std::uint64_t> &task) { return *task; }

template <typename Task> Task task_of(std::uint64_t value) {
    if constexpr (std::is_same_v<Task, std::unique_ptr<std::uint64_t>>)
        return std::make_unique<std::uint64_t>(value);
    else
        return Task{value};
}

template <typename Task> std::vector<Task> tasks_of(std::uint64_t from, std::uint64_t to) {
    std::vector<Task> tasks;
    for (std::uint64_t value = from; value < to; value++) tasks.push_back(task_of<Task>(value));
    return tasks;
}

// How often each number of a run was done.
class Done {
  public:
    explicit Done(std::uint64_t numbers) : times(numbers) {}
    void operator()(std::uint64_t number) {
        if (number < times.size())
            times[number]++;
        else
            expect(false, "a task that nobody gave");
    }
    bool each_once() const {
        return std::all_of(times.begin(), times.end(), [](const std::atomic<int> &it) { return it == 1; });
    }
    bool none_twice() const {
        return std::all_of(times.begin(), times.end(), [](const std::atomic<int> &it) { return it <= 1; });
    }
    int operator[](std::uint64_t number) const { return times[number]; }

  private:
    std::vector<std::atomic<int>> times;
};

// Each task gives `width` others, as those of a heap: a chain where it is 1.
template <typename Task> void grows_a_tree(std::size_t threads, std::uint64_t numbers, std::uint64_t width) {
    Done done(numbers);
    auto report = kfifo::work::run<Task>(
        tasks_of<Task>(0, 1),
        [&](Task &&task, auto &more) {
            std::uint64_t number = number_of(task);
            done(number);
            for (std::uint64_t next = number * width + 1; next <= number * width + width && next < numbers; next++)
                more.give(task_of<Task>(next));
        },
        by(threads));
    expect(done.each_once(), "each task of a tree is done once");
    expect(report.done() == numbers && report.left.empty(), "the report has all tasks of a tree");
    expect(report.workers.size() == threads, "the report has each worker");
    expect(report.greatest_backlog >= 1 && report.greatest_backlog <= numbers, "the greatest backlog");
}

// One task gives a thousand at once, and each of those none: again and again.
template <typename Task> void comes_in_bursts(std::size_t threads, std::uint64_t bursts) {
    constexpr std::uint64_t each = 1000;
    Done done(bursts * (each + 1));
    auto report = kfifo::work::run<Task>(
        tasks_of<Task>(0, 1),
        [&](Task &&task, auto &more) {
            std::uint64_t number = number_of(task);
            done(number);
            if (number % (each + 1) != 0) return;
            for (std::uint64_t next = number + 1; next <= number + each; next++) more.give(task_of<Task>(next));
            if (number + each + 1 < bursts * (each + 1)) more.give(task_of<Task>(number + each + 1));
        },
        by(threads));
    expect(done.each_once(), "each task of a burst is done once");
    expect(threads > 1 || report.greatest_backlog > each - 64, "the backlog of a burst");
}

// One task gives a thousand that all wait until the last is given. Every 64th give looks at the backlog.
void sees_the_backlog() {
    std::atomic<bool> all_given{false};
    auto report = kfifo::work::run<int>(
        {0},
        [&](int number, auto &more) {
            for (int next = 1; number == 0 && next <= 1000; next++) more.give(next);
            if (number == 0) all_given = true;
            while (!all_given) std::this_thread::yield();
        },
        by(4));
    expect(report.greatest_backlog > 1001 - 64 && report.greatest_backlog <= 1001, "the backlog of tasks that wait");
}

// A task gives more than the queue has room for, and runs on until all are done: other workers take them out of the
// list. With 64 workers the queue does not grow, and with k = 1 it has room for some 1,000 tasks.
template <typename Task> void gives_more_than_there_is_room_for(std::size_t threads, std::uint32_t k) {
    const std::uint64_t numbers = 5000;
    Done done(2 * numbers);
    std::atomic<std::uint64_t> others{0};
    auto report = kfifo::work::run<Task>(
        tasks_of<Task>(0, 1),
        [&](Task &&task, auto &more) {
            std::uint64_t number = number_of(task);
            done(number);
            if (number == 0) {
                for (std::uint64_t next = 1; next < numbers; next++) more.give(task_of<Task>(next));
                while (others < 2 * numbers - 2) std::this_thread::sleep_for(std::chrono::microseconds(100));
            } else {
                if (number < numbers) more.give(task_of<Task>(number + numbers));
                others++;
            }
        },
        by(threads, k));
    done(numbers); // which nobody gave
    expect(done.each_once(), "each task that found no room is done once");
    expect(report.left.empty() && Counted::alive == 0, "nothing is left of tasks that found no room");
}

template <typename Task> void does_all(std::size_t threads) {
    grows_a_tree<Task>(threads, 3000 * scale, 2);
    grows_a_tree<Task>(threads, 500 * scale, 1);
    grows_a_tree<Task>(threads, 1000 * scale, 1000);
    comes_in_bursts<Task>(threads, 2 * scale);
    expect(Counted::alive == 0, "no task lives on");
}

// With one worker the tasks come in their order.
void keeps_the_order() {
    std::vector<std::uint64_t> order;
    auto body = [&](std::uint64_t number, auto &more) {
        order.push_back(number);
        if (number < 1000) more.give(number + 100);
    };
    (void)kfifo::work::run<std::uint64_t>(tasks_of<std::uint64_t>(0, 100), body, by(1));
    expect(order.size() == 1100 && std::is_sorted(order.begin(), order.end()), "one worker keeps the order");
}

// The most tasks with smaller numbers that were not begun yet, whenever one is begun: task n at turn at[n], from 1.
std::uint64_t most_passed_over(const std::vector<std::atomic<std::uint64_t>> &at) {
    std::vector<std::uint64_t> order(at.size() + 1);
    for (std::uint64_t number = 0; number < at.size(); number++) order[at[number]] = number;
    std::set<std::uint64_t> passed_over;
    std::uint64_t most = 0, next = 0;
    for (std::uint64_t turn = 1; turn <= at.size(); turn++) {
        for (; next <= order[turn]; next++) passed_over.insert(next);
        passed_over.erase(order[turn]);
        most = std::max<std::uint64_t>(most, passed_over.size());
    }
    return most;
}

// A worker that has taken a task may not have counted it yet. With a small k the queue grows for so many tasks, and
// then a take may pass over one more for each other worker.
std::uint64_t may_pass_over(std::size_t threads, std::uint32_t k) {
    return threads > 1 ? k - 1 + (threads - 1) * (k < 8 ? 2 : 1) : 0;
}

// All tasks are there from the beginning, so that each begin passes over what the bound says, at most.
void passes_over_few(std::size_t threads, std::uint32_t k) {
    const std::uint64_t numbers = 5000;
    std::atomic<std::uint64_t> begun{0};
    std::vector<std::atomic<std::uint64_t>> at(numbers);
    auto body = [&](std::uint64_t number, auto &) { at[number] = ++begun; };
    (void)kfifo::work::run<std::uint64_t>(tasks_of<std::uint64_t>(0, numbers), body, by(threads, k));
    expect(most_passed_over(at) <= may_pass_over(threads, k), "a task is passed over by too many");
}

// Two workers give one after the other, each some 10,000 tasks more than the queue has room for, and no worker goes on
// before all are given.
void passes_over_few_of_the_list() {
    const std::uint64_t first = 110000, numbers = 120000, threads = 16;
    std::atomic<std::uint64_t> given{0}, begun{0};
    std::vector<std::atomic<std::uint64_t>> at(numbers);
    auto waits_for = [&](std::uint64_t number) {
        while (given < number) std::this_thread::sleep_for(std::chrono::microseconds(100));
    };
    auto gives_to = [&](std::uint64_t end, auto &more) {
        for (std::uint64_t next = given; next < end; next++) more.give(next);
        given = end;
    };
    auto body = [&](std::uint64_t number, auto &more) {
        if (number < numbers) {
            at[number] = ++begun;
            return;
        }
        if (number == numbers) gives_to(first, more);
        waits_for(first);
        if (number == numbers + 1) gives_to(numbers, more);
        waits_for(numbers);
    };
    (void)kfifo::work::run<std::uint64_t>(tasks_of<std::uint64_t>(numbers, numbers + threads), body, by(threads, 1));
    expect(begun == numbers, "each task is begun that found no room");
    expect(most_passed_over(at) <= may_pass_over(threads, 1), "a task that found no room is passed over by too many");
}

void stops(std::size_t threads) {
    const std::uint64_t numbers = 2000;
    Done done(4 * numbers);
    auto report = kfifo::work::run<Counted>(
        tasks_of<Counted>(0, numbers),
        [&](Counted task, auto &more) {
            // Else the others may do them all while the worker with task 300 has no processor.
            while (task.value >= 900 && !more.is_stopped()) std::this_thread::yield();
            done(task.value);
            if (task.value < 500) more.give(Counted(task.value + numbers));
            if (task.value == 300) {
                more.stop();
                expect(more.is_stopped(), "the run is stopped");
                more.give(Counted(3 * numbers)); // it comes back
            }
        },
        by(threads));
    std::uint64_t given = numbers + 1;
    for (std::uint64_t number = 0; number < 500; number++) given += static_cast<std::uint64_t>(done[number]);
    for (const Counted &task : report.left) done(task.value);
    expect(done.none_twice(), "no task is done twice, or done and left");
    expect(report.done() + report.left.size() == given, "each task is done or left");
    expect(report.left.size() > 1000, "a stop leaves tasks");
    expect(done[3 * numbers] == 1, "a task that is given after the stop comes back");
    report.left.clear();
    expect(Counted::alive == 0, "no task lives on after a stop");
}

void throws_what_a_task_threw(std::size_t threads) {
    const std::uint64_t numbers = 100000;
    Done done(numbers);
    bool is_caught = false;
    try {
        (void)kfifo::work::run<Counted>(
            tasks_of<Counted>(0, 1),
            [&](Counted task, auto &more) {
                done(task.value);
                if (task.value == 1000) throw std::runtime_error("the task of number 1000");
                for (std::uint64_t next : {2 * task.value + 1, 2 * task.value + 2})
                    if (next < numbers) more.give(Counted(next));
            },
            by(threads));
    } catch (const std::runtime_error &error) {
        is_caught = error.what() == std::string("the task of number 1000");
    }
    expect(is_caught, "the run throws what a task threw");
    expect(done.none_twice(), "no task is done twice before a throw");
    expect(Counted::alive == 0, "no task lives on after a throw");
}

// A task whose copies throw now and then.
struct Fragile {
    explicit Fragile(std::uint64_t of) : value(of) {}
    Fragile(const Fragile &other) : value(other.value) {
        if (copies++ % 3 == 2) throw std::runtime_error("a copy");
    }
    Fragile(Fragile &&other) noexcept = default;
    Fragile &operator=(Fragile &&other) noexcept = default;
    std::uint64_t value;
    static std::atomic<std::uint64_t> copies;
};
std::atomic<std::uint64_t> Fragile::copies{0};

// Where a copy throws, nothing is given, and the run goes on.
void gives_nothing_where_a_copy_throws(std::size_t threads) {
    const std::uint64_t numbers = 2000;
    Done done(numbers);
    std::atomic<std::uint64_t> thrown{0};
    std::vector<Fragile> start;
    start.emplace_back(0);
    auto report = kfifo::work::run<Fragile>(
        std::move(start),
        [&](Fragile &&task, auto &more) {
            done(task.value);
            for (std::uint64_t next : {2 * task.value + 1, 2 * task.value + 2}) {
                const Fragile child(next);
                for (bool is_given = next >= numbers; !is_given;) {
                    try {
                        more.give(child);
                        is_given = true;
                    } catch (const std::runtime_error &) {
                        thrown++;
                    }
                }
            }
        },
        by(threads));
    expect(done.each_once() && report.done() == numbers, "a give that threw has given nothing");
    expect(thrown > numbers / 4, "copies throw");
}

// Chains that never end, unless a throw or a stop ends them.
void ends_what_has_no_end(std::size_t threads, bool throws) {
    bool is_caught = false;
    try {
        auto report = kfifo::work::run<std::uint64_t>(
            tasks_of<std::uint64_t>(0, 8),
            [&](std::uint64_t number, auto &more) {
                more.give(number + 8);
                if (number == 8000 && throws) throw std::logic_error("enough");
                if (number == 8000) more.stop();
            },
            by(threads));
        expect(report.left.size() == 8, "each chain goes on, and its next task is left");
    } catch (const std::logic_error &) {
        is_caught = true;
    }
    expect(is_caught == throws, "a run without an end throws what a task threw");
}

// All workers throw at about the same time: one of these is thrown.
void throws_one_of_many() {
    std::atomic<int> thrown{0};
    try {
        (void)kfifo::work::run<int>(
            {1, 2, 3, 4},
            [&](int number, auto &) {
                thrown++;
                throw number;
            },
            by(4));
        expect(false, "a run whose tasks throw returns");
    } catch (int number) {
        expect(number >= 1 && number <= 4 && thrown >= 1, "one of the numbers is thrown");
    }
}

// Runs of no task, of one, of fewer than workers.
void runs_of_few_tasks() {
    for (int round = 0; round < 300 * scale; round++) {
        std::size_t threads = std::size_t(round) % 5 + 1;
        std::uint64_t tasks = std::uint64_t(round) / 5 % 4;
        std::atomic<std::uint64_t> sum{0};
        auto report = kfifo::work::run<std::uint64_t>(
            tasks_of<std::uint64_t>(0, tasks),
            [&](std::uint64_t number, auto &more) {
                sum += 1;
                if (number == 1 && round % 2) more.give(7);
            },
            by(threads));
        std::uint64_t wanted = tasks + (tasks > 1 && round % 2);
        expect(report.done() == wanted && sum == wanted && report.left.empty(), "a run of few tasks");
    }
}

// No thread is started for one task that gives none.
void one_task_is_cheap() {
    auto before = std::chrono::steady_clock::now();
    for (int round = 0; round < 1000; round++) {
        auto caller = std::this_thread::get_id();
        bool is_caller = false;
        auto report = kfifo::work::run<int>(
            {1}, [&](int, auto &) { is_caller = std::this_thread::get_id() == caller; }, by(64));
        expect(is_caller && report.workers[0].done == 1 && report.workers.size() == 64, "the calling thread works");
    }
    auto time = std::chrono::steady_clock::now() - before;
    expect(time < std::chrono::seconds(20), "a run of one task takes under 20 milliseconds");
}

void runs_within_runs() {
    std::atomic<std::uint64_t> inner{0};
    auto report = kfifo::work::run<int>(
        {1, 2, 3, 4, 5, 6, 7, 8},
        [&](int number, auto &more) {
            auto within = kfifo::work::run<int>(
                {10 * number},
                [&](int depth, auto &within_more) {
                    inner++;
                    if (depth % 10 < 5) {
                        within_more.give(depth + 1);
                        within_more.give(depth + 1);
                    }
                },
                by(3));
            expect(within.done() == 63, "a run within a run does all its tasks");
            if (number < 3) more.give(number + 10);
        },
        by(3));
    expect(report.done() == 10 && inner == 10 * 63, "a run of runs does all its tasks");
}

// A run within a run throws: the outer one throws it on.
void throws_through_runs() {
    std::string caught;
    try {
        (void)kfifo::work::run<int>(
            {1, 2, 3},
            [](int outer, auto &) {
                (void)kfifo::work::run<int>(
                    {4, 5, 6}, [=](int, auto &) { throw std::runtime_error(outer ? "within" : ""); }, by(2));
            },
            by(2));
    } catch (const std::runtime_error &error) {
        caught = error.what();
    }
    expect(caught == "within", "what a run within a run threw");
}

void refuses() {
    auto status_of = [](kfifo::work::Options options) {
        try {
            (void)kfifo::work::run<int>(
                {1}, [](int, auto &) {}, options);
            return KFIFO_DONE;
        } catch (const kfifo::Error &error) {
            return error.status();
        }
    };
    expect(status_of(by(65)) == KFIFO_BAD_THREADS, "65 workers");
    expect(status_of(by(1, 0)) == KFIFO_BAD_K, "k = 0");
    expect(status_of(by(4, 65)) == KFIFO_BAD_K, "k = 65");
    expect(status_of(by(0, 64)) == KFIFO_DONE, "as many workers as processors");
    for (std::uint32_t k = 1; k <= 64; k++) grows_a_tree<std::uint64_t>(3, 50, 2), passes_over_few(2, k);
}

// Each worker has a number of its own, and does one task at a time.
void numbers_its_workers() {
    std::array<std::atomic<int>, 4> busy{};
    std::array<std::uint64_t, 4> done{};
    auto report = kfifo::work::run<int>(
        {0},
        [&](int depth, auto &more) {
            std::size_t which = more.worker();
            expect(which < 4 && busy[which]++ == 0, "a worker does one task at a time");
            done[which]++;
            for (int i = 0; depth < 9 && i < 2; i++) more.emplace(depth + 1);
            busy[which]--;
        },
        by(4));
    for (std::size_t i = 0; i < 4; i++) expect(report.workers[i].done == done[i], "the report by worker");
}

double processor_seconds() {
    timespec time;
    clock_gettime(CLOCK_PROCESS_CPUTIME_ID, &time);
    return static_cast<double>(time.tv_sec) + static_cast<double>(time.tv_nsec) * 1e-9;
}

// While one task sleeps, the other workers do too. A give of that task then wakes one of them.
void sleeps_while_there_is_nothing() {
    std::atomic<int> begun{0};
    double used = 0;
    auto report = kfifo::work::run<int>(
        {1, 2, 3, 4},
        [&](int number, auto &more) {
            begun += number == 10;
            if (number != 1) return;
            std::this_thread::sleep_for(std::chrono::milliseconds(200));
            double before = processor_seconds();
            std::this_thread::sleep_for(std::chrono::milliseconds(100 * scale));
            used = processor_seconds() - before;
            more.give(10);
            // This one ends only when another worker has begun the task.
            while (begun == 0) std::this_thread::sleep_for(std::chrono::milliseconds(1));
        },
        by(4));
    expect(report.done() == 5, "a task of a sleeping run");
    expect(used < 0.02, "workers that wait use a processor");
    expect(report.sleeps() >= 1, "workers sleep where there is nothing to do");
}

} // namespace

int main() {
    for (std::size_t threads : {1, 2, 4, 7, 64}) {
        does_all<std::uint64_t>(threads);
        does_all<Counted>(threads);
        does_all<Wide>(threads);
        does_all<std::unique_ptr<std::uint64_t>>(threads);
        for (std::uint32_t k : {1, 4, 64}) passes_over_few(threads, k);
        gives_nothing_where_a_copy_throws(threads);
        for (int round = 0; round < scale; round++) {
            for (bool throws : {false, true}) ends_what_has_no_end(threads, throws);
            stops(threads);
            throws_what_a_task_threw(threads);
        }
    }
    for (std::size_t threads : {2, 63, 64}) {
        for (std::uint32_t k : {1, 2, 16}) {
            gives_more_than_there_is_room_for<std::uint64_t>(threads, k);
            gives_more_than_there_is_room_for<Counted>(threads, k);
        }
    }
    for (int round = 0; round < scale; round++) throws_one_of_many();
    sees_the_backlog();
    keeps_the_order();
    passes_over_few_of_the_list();
    runs_of_few_tasks();
    one_task_is_cheap();
    runs_within_runs();
    throws_through_runs();
    refuses();
    numbers_its_workers();
    sleeps_while_there_is_nothing();
    std::puts(failures ? "wrong" : "each task is done once or comes back, and runs end when all are done");
    return failures != 0;
}
