// Each request for memory of a run is refused once, and then all after it too, by one worker and by three. A give that
// throws has given nothing, each task is done once, and in the end nothing is left in memory.
#include "kfifo_work.hpp"

#include <atomic>
#include <cstdint>
#include <cstdio>
#include <cstdlib>
#include <new>
#include <thread>
#include <vector>

extern "C" {
void *__real_malloc(std::size_t size);
void *__real_realloc(void *block, std::size_t size);
void __real_free(void *block);
}

namespace {

int failures = 0;
// Requests so far, the one that is refused (0: none), whether all after it are too, and blocks that were not freed.
std::atomic<long> requests{0}, refused{0}, blocks{0};
std::atomic<bool> all_after{false};

bool is_refused() {
    long number = ++requests, first = refused;
    return first != 0 && (number == first || (all_after && number > first));
}

void *counted(void *block) {
    blocks += block != nullptr;
    return block;
}

void *allocate(std::size_t size, std::size_t alignment) {
    std::size_t whole = (size + alignment - 1) / alignment * alignment;
    void *block =
        is_refused() ? nullptr : counted(alignment <= 16 ? __real_malloc(size) : aligned_alloc(alignment, whole));
    if (!block) throw std::bad_alloc();
    return block;
}

} // namespace

// The linker hands the library's calls of malloc, realloc and free to these.
extern "C" void *__wrap_malloc(std::size_t size) { return is_refused() ? nullptr : counted(__real_malloc(size)); }

extern "C" void __wrap_free(void *block) {
    blocks -= block != nullptr;
    __real_free(block);
}

extern "C" void *__wrap_realloc(void *block, std::size_t size) {
    if (!block) return __wrap_malloc(size);
    return is_refused() ? nullptr : __real_realloc(block, size);
}

void *operator new(std::size_t size) { return allocate(size, 16); }
void *operator new(std::size_t size, std::align_val_t alignment) {
    return allocate(size, static_cast<std::size_t>(alignment));
}
void operator delete(void *block) noexcept { __wrap_free(block); }
void operator delete(void *block, std::size_t) noexcept { __wrap_free(block); }
void operator delete(void *block, std::align_val_t) noexcept { __wrap_free(block); }
void operator delete(void *block, std::size_t, std::align_val_t) noexcept { __wrap_free(block); }

namespace {

void expect(bool holds, const char *what, long number) {
    if (holds) return;
    if (failures++ < 10) std::fprintf(stderr, "request %ld: %s\n", number, what);
}

// A task that is no word, and counts how many of its kind there are.
struct Counted {
    explicit Counted(int of) : value(of) { alive++; }
    Counted(const Counted &other) : value(other.value) { alive++; }
    Counted(Counted &&other) noexcept : value(other.value) {
        other.value = -1;
        alive++;
    }
    Counted &operator=(Counted &&other) noexcept {
        std::swap(value, other.value);
        return *this;
    }
    ~Counted() { alive--; }
    int value;
    static std::atomic<int> alive;
};
std::atomic<int> Counted::alive{0};

int number_of(int task) { return task; }
int number_of(const Counted &task) { return task.value; }

constexpr int first = 3, each = 700, tasks = first * (each + 1);
std::vector<std::atomic<int>> done(tasks);

// A give that throws has given nothing, and the task is what it was: then it is given once more, or done here.
template <typename Task> void give(int number, kfifo::work::More<Task> &more) {
    Task task(number);
    for (int tries = 0; tries < 2; tries++) {
        try {
            more.give(std::move(task));
            return;
        } catch (const std::bad_alloc &) {
            expect(number_of(task) == number, "a task that was not given is what it was", refused);
        }
    }
    done[static_cast<std::size_t>(number)]++;
}

// Whether the run was made with the request of this number refused: else there was no memory for it.
template <typename Task> bool runs(std::size_t threads, long number_refused) {
    std::vector<Task> start;
    start.reserve(first);
    for (int number = 0; number < first; number++) start.emplace_back(number * (each + 1));
    auto body = [](Task &&task, kfifo::work::More<Task> &more) {
        int number = number_of(task);
        done[static_cast<std::size_t>(number)]++;
        if (number % (each + 1) != 0) return;
        for (int next = number + 1; next <= number + each; next++) give(next, more);
    };
    kfifo::work::Options options;
    options.threads = threads;
    options.k = 1; // the queue grows for so many tasks
    bool is_made = true;
    requests = 0;
    refused = number_refused;
    try {
        auto report = kfifo::work::run<Task>(std::move(start), body, options);
        expect(report.left.empty(), "nothing is left", refused);
    } catch (const std::bad_alloc &) {
        is_made = false;
    }
    return is_made;
}

// One run with the request of this number refused.
template <typename Task> void refuses(std::size_t threads, long number) {
    for (auto &it : done) it = 0;
    long before = blocks;
    bool is_made = runs<Task>(threads, number);
    refused = 0;
    int most = 0, least = 2;
    for (const auto &it : done) {
        most = it > most ? it.load() : most;
        least = it < least ? it.load() : least;
    }
    // A run that throws has begun no task, or all: there was no memory for its report.
    expect(is_made ? least == 1 && most == 1 : most <= 1 && least == most, "each task is done once", number);
    expect(is_made || number != 0, "a run that nothing is refused is made", number);
    expect(Counted::alive == 0, "no task lives on", number);
    expect(blocks == before, "nothing is left in memory", number);
}

template <typename Task> long refuses_each(std::size_t threads, long most) {
    refuses<Task>(threads, 0);
    long all = requests;
    // With several workers the requests of two runs are not the same ones.
    for (long number = 1; number <= all + 5; number += 1 + all / most) refuses<Task>(threads, number);
    return all;
}

// How many requests a run makes in which one task gives so many, and others do them, with few at once.
long requests_of(int gives) {
    std::atomic<int> ended{0};
    requests = 0;
    kfifo::work::Options options;
    options.threads = 3;
    auto report = kfifo::work::run<Counted>(
        std::vector<Counted>(1, Counted(0)),
        [&](const Counted &task, auto &more) {
            ended += task.value;
            for (int i = 0; task.value == 0 && i < gives; i++) {
                while (i - ended > 300) std::this_thread::yield();
                more.emplace(1);
            }
        },
        options);
    expect(report.done() == static_cast<std::uint64_t>(gives) + 1, "each task of a stream is done", 0);
    return requests;
}

// Nodes go back from those who did the tasks to the one that gives them: memory does not grow with the tasks.
void uses_nodes_again() {
    long few = requests_of(5000), many = requests_of(50000);
    expect(many < few + 50, "a long run makes many requests for memory", many);
}

} // namespace

int main() {
    uses_nodes_again();
#ifdef FEWER
    const long most = 30;
#else
    const long most = 400;
#endif
    long all = 0;
    for (bool after : {false, true}) {
        all_after = after;
        for (std::size_t threads : {1, 3}) {
            all += refuses_each<int>(threads, most);
            all += refuses_each<Counted>(threads, most);
        }
    }
    std::printf("%ld requests of runs: %s\n", all, failures ? "wrong" : "each may be refused, and no task is lost");
    return failures != 0;
}
