// A queue of values in C++: values that own memory come out once and whole, each is destroyed once, and each refusal
// hands its value back.
#include "kfifo.hpp"

#include <atomic>
#include <cstdio>
#include <string>
#include <thread>

// How many values each producer gives.
#ifdef FEWER
#define EACH 5000
#else
#define EACH 200000
#endif

namespace {

int failures = 0;

void expect(bool holds, const char *what) {
    if (!holds) {
        std::fprintf(stderr, "%s\n", what);
        failures++;
    }
}

// Whether a call throws an Error with this status, whose text has this word.
template <typename Call> bool refuses(kfifo_status status, Call call, const char *word = "") {
    try {
        call();
    } catch (const kfifo::Error &error) {
        std::string text = error.what();
        return error.status() == status && text.size() > sizeof("kfifo: ") && text.find(word) != text.npos;
    }
    return false;
}

// How many cells a queue has: each thread has its part of the capacity, rounded up, and 32 more.
std::size_t cells_of(std::size_t capacity, std::size_t threads) {
    return threads * ((capacity + threads - 1) / threads + kfifo::detail::spare_cells);
}

// Counts how many are alive. It can be moved and not copied.
struct Parcel {
    static std::atomic<long> alive;
    explicit Parcel(std::uint64_t what) : number(new std::uint64_t(what)) { alive++; }
    Parcel(Parcel &&other) noexcept : number(std::move(other.number)) { alive++; }
    Parcel &operator=(Parcel &&) noexcept = default;
    ~Parcel() { alive--; }
    std::unique_ptr<std::uint64_t> number;
};

std::atomic<long> Parcel::alive{0};

void refusals() {
    using Values = kfifo::ValueQueue<std::string>;
    expect(refuses(KFIFO_BAD_K, [] { Values(0, 2, 1); }) && refuses(KFIFO_BAD_K, [] { Values(65, 2, 1); }),
           "k out of range");
    expect(refuses(KFIFO_BAD_CAPACITY, [] { Values(1, 0, 1); }) &&
               refuses(
                   KFIFO_BAD_CAPACITY, [] { Values(1, 65536, 1); }, "grows") &&
               refuses(KFIFO_BAD_CAPACITY, [] { Values(64, UINT32_MAX, 64); }),
           "a capacity out of range");
    expect(refuses(KFIFO_BAD_THREADS, [] { Values(1, 2, 0); }) &&
               refuses(KFIFO_BAD_THREADS, [] { Values(1, 2, 65); }) &&
               refuses(KFIFO_BAD_THREADS, [] { Values(1, 2, SIZE_MAX); }),
           "threads out of range");
    kfifo::Options options;
    for (std::uint32_t grows : {0U, 126U, UINT32_MAX}) {
        options.grows = grows;
        expect(refuses(
                   KFIFO_BAD_CALL, [&] { Values(1, 2, 2, options); }, "grow"),
               "generations out of range");
    }
    options.grows = 125;
    expect(Values(1, 2, 2, options).capacity() == 2, "the most generations of two threads");
    Values queue(1, 2, 2);
    expect(queue.capacity() == 2, "the capacity");
    Values::Handle first = queue.handle();
    {
        Values::Handle second = queue.handle();
        expect(refuses(KFIFO_BAD_CALL, [&] { (void)queue.handle(); }), "more handles than threads");
        expect(refuses(KFIFO_BAD_CALL, [&] { (void)queue.close(); }), "a close while a handle is in use");
    }
    expect(!first.take().value && first.take().why == kfifo::Miss::empty, "a new queue is empty");
    std::string word(100, 'a');
    expect(first.give(std::move(word)) == kfifo::Put::done, "a first value");
    word = std::string(100, 'b');
    expect(first.give(word) == kfifo::Put::done && word == std::string(100, 'b'), "a copy is given");
    std::size_t given = 2;
    while (first.give(word) == kfifo::Put::done) given++;
    expect(given == cells_of(2, 2), "a queue takes as many values as it has cells, where no handle keeps one");
    expect(first.give(std::move(word)) == kfifo::Put::full && word == std::string(100, 'b'),
           "without a cell the value comes back");
    Values::Handle second = queue.handle();
    expect(second.give(std::move(word)) == kfifo::Put::full && word == std::string(100, 'b'), "to another handle too");
    expect(second.take().value == std::string(100, 'a'), "the oldest value");
    while (given-- > 2) expect(second.take().value == std::string(100, 'b'), "the others");
    Values::Handle moved = std::move(second);
    expect(refuses(KFIFO_BAD_CALL, [&] { (void)second.take(); }), "a handle that was moved from");
    { Values::Handle one = std::move(first), other = std::move(moved); }
    expect(queue.close() == std::vector<std::string>{std::string(100, 'b')}, "what is left");
    auto is_told = [](Values &of, const char *word) {
        return refuses(
                   KFIFO_BAD_CALL, [&] { (void)of.close(); }, word) &&
               refuses(
                   KFIFO_BAD_CALL, [&] { (void)of.handle(); }, word) &&
               refuses(
                   KFIFO_BAD_CALL, [&] { of.finish(); }, word);
    };
    expect(is_told(queue, "the queue is closed"), "a closed queue");
    Values other(1, 2, 1), taker = std::move(other);
    expect(is_told(other, "the queue was moved from"), "a queue that was moved from");
    other = std::move(taker);
    expect(is_told(taker, "the queue was moved from") && other.close().empty() && is_told(other, "the queue is closed"),
           "a queue that was moved there and back");
}

// Values that fit in 64 bits, and values that need a cell of their own.
void sizes() {
    struct Point {
        float x, y;
    };
    kfifo::ValueQueue<Point> points(2, 8, 1);
    auto handle = points.handle();
    expect(handle.give(Point{1, 2}) == kfifo::Put::done, "a small struct");
    auto taken = handle.take();
    expect(taken.value && taken.value->x == 1 && taken.value->y == 2, "comes out whole");
    kfifo::ValueQueue<std::vector<int>> lists(2, 8, 1);
    auto other = lists.handle();
    expect(other.give(std::vector<int>(1000, 7)) == kfifo::Put::done, "a list");
    expect(other.take().value == std::vector<int>(1000, 7), "comes out whole too");
}

// Values that are left are destroyed with the queue, which goes with its last handle.
void ends() {
    {
        std::optional<kfifo::ValueQueue<Parcel>::Handle> last;
        {
            kfifo::ValueQueue<Parcel> queue(4, 16, 2);
            last.emplace(queue.handle());
            for (std::uint64_t i = 0; i < 10; i++) expect(last->give(Parcel(i)) == kfifo::Put::done, "a value");
        }
        expect(Parcel::alive == 10 && last->take().value.has_value(), "a handle keeps the queue");
        expect(Parcel::alive == 9, "a value that was taken is destroyed");
    }
    expect(Parcel::alive == 0, "the values that are left are destroyed with the queue");
}

// As many handles as threads, which return theirs and take another: each finds one, and no two have the same. They
// begin together, so that more are runnable than there are processors.
void handles_go_round(std::size_t of) {
    kfifo::ValueQueue<int> queue(4, 2, of);
    std::atomic<std::size_t> ready{0};
    std::atomic<bool> stops{false};
    std::atomic<int> refused{0};
    std::vector<std::thread> all;
    for (std::size_t thread = 0; thread < of; thread++) {
        all.emplace_back([&] {
            for (ready++; ready != of;) std::this_thread::yield();
            try {
                for (std::size_t i = 0; i < 2 * EACH && !stops; i++) (void)queue.handle();
            } catch (const kfifo::Error &) {
                refused++;
                stops = true;
            }
        });
    }
    for (std::thread &thread : all) thread.join();
    expect(refused == 0, "a thread finds a handle where there are as many as threads");
    std::vector<kfifo::ValueQueue<int>::Handle> each;
    for (std::size_t i = 0; i < of; i++) each.push_back(queue.handle());
    expect(refuses(KFIFO_BAD_CALL, [&] { (void)queue.handle(); }), "one handle more than there are");
    std::size_t given = 0;
    for (auto &handle : each) given += handle.give(1) == kfifo::Put::done;
    expect(given == of, "each handle gives a value");
    each.clear();
    expect(queue.close().size() == of, "a close after each handle came back");
}

// Handles that take keep the cells of the one that gives, two batches at most. One handle has room for as many values
// as the queue was opened for all the same, and one that waits does not wait for ever.
void keeping(std::uint32_t k, std::uint32_t capacity, std::size_t of) {
    kfifo::ValueQueue<std::uint32_t> queue(k, capacity, of);
    std::vector<kfifo::ValueQueue<std::uint32_t>::Handle> handles;
    for (std::size_t i = 0; i < of; i++) handles.push_back(queue.handle());
    auto giver = std::move(handles.back());
    handles.pop_back();
    bool all_came = true;
    for (std::uint32_t round = 0; round < 2; round++)
        for (auto &taker : handles)
            for (std::uint32_t i = 0; i < 40; i++)
                all_came = all_came && giver.give(std::move(i)) == kfifo::Put::done && taker.take().value == i;
    expect(all_came, "what takers keep comes to them");
    std::uint32_t given = 0;
    kfifo::Put why = kfifo::Put::done;
    while ((why = giver.give_for(std::uint32_t(given), std::chrono::milliseconds(1))) == kfifo::Put::done) given++;
    expect(given >= capacity && given < cells_of(capacity, of) && why == kfifo::Put::timed_out,
           "one handle fills the queue, whatever the others keep");
    expect(giver.give(0) == kfifo::Put::full, "a full queue says so");
    std::uint64_t sum = 0;
    for (std::uint32_t i = 0; i < given; i++) {
        auto value = handles[i % (of - 1)].take().value;
        expect(value && (k > 1 || *value == i), "what is in a full queue comes out, and in its order");
        sum += value.value_or(0);
    }
    expect(sum == std::uint64_t(given) * (given - 1) / 2, "each once");
}

// A producer puts jobs into a queue with room for some more, round after round, and workers take them. It waits for
// room where it has to, and never hangs.
void jobs(std::size_t workers, std::uint32_t capacity, std::uint32_t jobs_of_a_round) {
    kfifo::ValueQueue<std::uint32_t> queue(4, capacity, workers + 1);
    std::atomic<std::uint32_t> left{0};
    std::atomic<std::uint64_t> sum{0};
    std::vector<std::thread> all;
    for (std::size_t i = 0; i < workers; i++)
        all.emplace_back([&, handle = queue.handle()]() mutable {
            for (std::uint32_t job : handle.values()) {
                sum += job;
                left--;
            }
        });
    auto handle = queue.handle();
    constexpr std::uint32_t rounds = EACH / 500;
    for (std::uint32_t round = 0; round < rounds; round++) {
        left = jobs_of_a_round;
        for (std::uint32_t job = 1; job <= jobs_of_a_round; job++)
            expect(handle.give_wait(std::uint32_t(job)) == kfifo::Put::done, "a job");
        while (left != 0) std::this_thread::yield();
    }
    handle.finish();
    for (std::thread &thread : all) thread.join();
    expect(sum == std::uint64_t(rounds) * jobs_of_a_round * (jobs_of_a_round + 1) / 2, "each job was done once");
}

void threads(std::size_t pairs) {
    kfifo::ValueQueue<Parcel> queue(16, 64, 2 * pairs);
    std::vector<unsigned char> seen(pairs * EACH);
    std::atomic<std::size_t> still_giving{pairs};
    std::atomic<std::uint64_t> taken_in_all{0};
    std::vector<std::thread> all;
    for (std::size_t pair = 0; pair < pairs; pair++) {
        all.emplace_back([&, pair, handle = queue.handle()]() mutable {
            for (std::uint64_t i = 0; i < EACH; i++) {
                Parcel parcel(pair * EACH + i);
                while (handle.give(std::move(parcel)) != kfifo::Put::done) std::this_thread::yield();
            }
            still_giving--;
        });
        all.emplace_back([&, handle = queue.handle()]() mutable {
            for (;;) {
                bool last = still_giving == 0;
                auto taken = handle.take();
                if (taken.value) {
                    seen[*taken.value->number]++;
                    taken_in_all++;
                } else if (last && taken.why == kfifo::Miss::empty) {
                    return;
                } else {
                    std::this_thread::yield();
                }
            }
        });
    }
    for (std::thread &thread : all) thread.join();
    bool once = true;
    for (unsigned char times : seen) once = once && times == 1;
    expect(once && taken_in_all == pairs * EACH, "each value comes out once");
    expect(Parcel::alive == 0, "each value that was taken is destroyed once");
    {
        auto handle = queue.handle();
        for (std::uint64_t i = 0; i < 3; i++) expect(handle.give(Parcel(i)) == kfifo::Put::done, "a value");
    }
    expect(queue.close().size() == 3, "close gives back the rest");
    expect(Parcel::alive == 0, "what a close gave back is destroyed once");
}

} // namespace

int main() {
    refusals();
    sizes();
    ends();
    for (std::size_t of : {2, 8, 64}) handles_go_round(of);
    for (std::size_t of : {2, 8, 16}) keeping(1, 256, of);
    keeping(16, 256, 64);
    keeping(64, 60000, 2);
    for (std::size_t workers : {7, 15, 63}) jobs(workers, 256, 100);
    jobs(3, 8, 100);
    for (std::size_t pairs = 1; pairs <= 4; pairs *= 2) threads(pairs);
    std::puts(failures ? "the queue of values fails in C++"
                       : "1, 2 and 4 producers in C++: each value came out whole, and was destroyed once");
    return failures;
}
