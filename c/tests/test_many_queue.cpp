// Many values or items at once in C++: what is given and what stays the caller's, also where a copy or a container
// throws, and that one call wakes all threads that wait for what it gave or took. A wake-up that is lost would hang the
// test, which its caller ends after some time.
#include "kfifo.hpp"

#include <atomic>
#include <cstdio>
#include <iterator>
#include <list>
#include <memory>
#include <numeric>
#include <sstream>
#include <string>
#include <thread>
#include <vector>

#ifdef FEWER
#define ROUNDS 50
#else
#define ROUNDS 500
#endif

namespace {

int failures = 0;

void expect(bool holds, const char *what) {
    if (holds) return;
    std::fprintf(stderr, "%s\n", what);
    failures++;
}

struct Thrown {};

// A value that is copied where it is moved, and whose copy throws where it has a certain number. It counts those that
// are alive.
struct Copied {
    static std::atomic<long> alive;
    static int throws_at;

    explicit Copied(int what) : number(what) { alive++; }
    Copied(const Copied &other) : number(other.number) {
        if (number == throws_at) throw Thrown();
        alive++;
    }
    Copied &operator=(const Copied &) = default;
    ~Copied() { alive--; }
    int number;
};

std::atomic<long> Copied::alive{0};
int Copied::throws_at = -1;

// A container that has room for that many values.
template <typename T> struct Bounded {
    std::size_t room;
    std::vector<T> values = {};
    void push_back(T &&value) {
        if (values.size() == room) throw Thrown();
        values.push_back(std::move(value));
    }
};

template <typename Call> bool throws(Call call) {
    try {
        call();
    } catch (const Thrown &) {
        return true;
    }
    return false;
}

template <typename Call> bool refuses(Call call) {
    try {
        call();
    } catch (const kfifo::Error &error) {
        return error.status() == KFIFO_BAD_CALL;
    }
    return false;
}

// Other threads sleep mostly after this time. test_many.c sees that they do.
void fall_asleep() { std::this_thread::sleep_for(std::chrono::milliseconds(1)); }

std::vector<std::string> words(std::size_t count) {
    std::vector<std::string> all;
    for (std::size_t i = 0; i < count; i++) all.push_back("word " + std::to_string(i) + std::string(30, '.'));
    return all;
}

// How many cells a queue has: each thread has its part of the capacity, rounded up, and 32 more.
constexpr std::size_t cells_of(std::size_t capacity, std::size_t threads) {
    return threads * ((capacity + threads - 1) / threads + kfifo::detail::spare_cells);
}

void copies() {
    kfifo::ValueQueue<std::string> queue(1, 8, 2);
    auto giver = queue.handle(), taker = queue.handle();
    constexpr std::size_t cells = cells_of(8, 2);
    const std::vector<std::string> none, some = words(cells + 4);
    auto gave = giver.give_all(none);
    expect(gave.given == 0 && gave.rest == none.end() && gave.why == kfifo::Put::done, "an empty range");
    gave = giver.give_all(some);
    expect(gave.given == cells && gave.rest == some.begin() + cells && gave.why == kfifo::Put::full,
           "a range that is longer");
    expect(some == words(cells + 4), "the values are copied");
    expect(giver.give_all(gave.rest, some.end()).given == 0, "a full queue");

    std::list<std::string> out{"before"};
    auto took = taker.take_up_to(3, out);
    expect(took.taken == 3 && !took.why && out.size() == 4 && out.back() == some[2], "a take of three");
    took = taker.take_up_to(1000, out);
    expect(took.taken == cells - 3 && took.why == kfifo::Miss::empty && out.size() == cells + 1,
           "a take of what is left");
    expect(std::equal(some.begin(), some.begin() + cells, std::next(out.begin())), "they come in their order");
    took = taker.take_up_to(0, out);
    expect(took.taken == 0 && !took.why && taker.take_up_to(64, out).why == kfifo::Miss::empty, "a take of none");

    const char *texts[] = {"a", "b"};
    expect(giver.give_all(texts).given == 2, "values of another type");
    auto values = taker.take_up_to(2);
    expect(values.values == std::vector<std::string>{"a", "b"} && !values.why, "as many as were asked for");
    values = taker.take_up_to(std::size_t(-1));
    expect(values.values.empty() && values.why == kfifo::Miss::empty, "as many as there are");

    kfifo::ValueQueue<std::string> small(1, 4, 1);
    auto handle = small.handle();
    for (int round = 0; round < 3; round++) {
        expect(handle.give_all(some).given == cells_of(4, 1), "as many as there are cells");
        expect(handle.take_up_to(1000).values.size() == cells_of(4, 1),
               "they come out, and their cells are free again");
    }
}

// What is given is moved, and what is not given stays as it was.
void moves() {
    kfifo::ValueQueue<std::unique_ptr<int>> queue(1, 4, 2);
    auto giver = queue.handle(), taker = queue.handle();
    std::vector<std::unique_ptr<int>> numbers;
    constexpr int cells = cells_of(4, 2);
    for (int i = 0; i < cells + 2; i++) numbers.push_back(std::make_unique<int>(i));
    auto gave = giver.give_all(kfifo::moving(numbers));
    expect(gave.given == cells && gave.rest.base() == numbers.begin() + cells && gave.why == kfifo::Put::full,
           "as many are moved as there are cells");
    expect(!numbers[0] && !numbers[3] && numbers[cells] && *numbers[cells] == cells && *numbers[cells + 1] == cells + 1,
           "two are not");
    auto taken = taker.take_up_to(100);
    expect(taken.values.size() == cells && *taken.values[3] == 3, "those come out");
    expect(giver.give_all(gave.rest, std::make_move_iterator(numbers.end())).given == 2, "the rest");
    queue.finish();
    gave = giver.give_all(kfifo::moving(taken.values));
    expect(gave.given == 0 && gave.why == kfifo::Put::finished && *taken.values[0] == 0, "a give after the end");
    auto rest = taker.take_up_to(2, taken.values);
    expect(rest.taken == 2 && !rest.why && *taken.values[cells + 1] == cells + 1, "what was there before the end");
    expect(taker.take_up_to(2).why == kfifo::Miss::finished, "a take after the end");

    auto moved = std::move(giver);
    expect(refuses([&] { (void)giver.give_all(kfifo::moving(numbers)); }), "a give by a handle that was moved from");
    expect(refuses([&] { (void)giver.take_up_to(2, numbers); }) && refuses([&] { (void)giver.take_up_to(2); }),
           "a take by a handle that was moved from");
}

// A copy into the queue that throws: those before it are in the queue, and it and those after it are the caller's.
void throws_as_given() {
    {
        kfifo::ValueQueue<Copied> queue(1, 8, 2);
        auto giver = queue.handle(), taker = queue.handle();
        std::vector<Copied> values;
        for (int i = 0; i < 5; i++) values.emplace_back(i);
        int first = -1;
        std::thread sleeper([&] { first = taker.take_wait().value.value().number; });
        fall_asleep();
        Copied::throws_at = 2;
        expect(throws([&] { (void)giver.give_all(values); }), "a copy that throws");
        sleeper.join(); // it was woken all the same
        Copied::throws_at = -1;
        expect(first == 0 && values.size() == 5 && values[4].number == 4, "the caller's values");
        expect(giver.give_all(values.begin() + 2, values.end()).given == 3, "the rest");
        auto taken = taker.take_up_to(8);
        expect(taken.values.size() == 4 && taken.values[0].number == 1 && taken.values[3].number == 4, "all come out");
    }
    expect(Copied::alive == 0, "each is destroyed once");
}

// A copy out of the queue that throws, or a container that has no room: that value is the next one of its handle.
void throws_as_taken() {
    {
        kfifo::ValueQueue<Copied> queue(1, 8, 2);
        auto giver = queue.handle(), taker = queue.handle();
        for (int i = 0; i < 5; i++) expect(giver.emplace(i) == kfifo::Put::done, "a value");
        std::vector<Copied> out;
        out.reserve(8);
        Copied::throws_at = 2;
        expect(throws([&] { (void)taker.take_up_to(8, out); }) && out.size() == 2, "a take that throws");
        expect(throws([&] { (void)taker.take_up_to(8, out); }) && out.size() == 2,
               "a take that begins with that value");
        expect(throws([&] { (void)taker.take_up_to(8); }), "the same of one that returns the values");
        Copied::throws_at = 4;
        auto taken = taker.take_up_to(8);
        expect(taken.values.size() == 2 && taken.values[0].number == 2 && !taken.why, "it ends before one that throws");
        expect(throws([&] { (void)taker.take_up_to(8); }), "which is the next one");
        Copied::throws_at = -1;
        taken = taker.take_up_to(8);
        expect(taken.values.size() == 1 && taken.values[0].number == 4 && taken.why == kfifo::Miss::empty, "the last");
    }
    expect(Copied::alive == 0, "each is destroyed once");

    kfifo::ValueQueue<std::string> queue(1, 8, 3);
    auto giver = queue.handle();
    const auto some = words(6);
    expect(giver.give_all(some).given == 6, "six words");
    {
        auto taker = queue.handle();
        Bounded<std::string> out{2};
        expect(throws([&] { (void)taker.take_up_to(4, out); }) && out.values[1] == some[1], "a container without room");
        expect(taker.take().value == some[2], "the next take begins with that word");
        out.room = 3;
        auto took = taker.take_up_to(1, out);
        expect(took.taken == 1 && out.values[2] == some[3], "and then go on");
        expect(throws([&] { (void)taker.take_up_to(1, out); }), "a word that the handle keeps");
        auto spare = queue.handle();
        spare = std::move(taker); // it goes with it
    }
    expect(giver.take().value == some[5], "another handle takes the next one");
    {
        auto taker = queue.handle();
        expect(taker.take_up_to(8).values == std::vector<std::string>{some[4]}, "the next one to have the handle");
        expect(giver.give("last") == kfifo::Put::done, "a word");
        Bounded<std::string> out{0};
        expect(throws([&] { (void)taker.take_up_to(1, out); }), "a word that is kept until the close");
    }
    { auto gone = std::move(giver); }
    expect(queue.close() == std::vector<std::string>{"last"}, "a close returns what a handle kept");
}

// What reads a range that can be read once: each step of it waits until the value before was taken.
struct Asking {
    using iterator_category = std::input_iterator_tag;
    using value_type = std::string;
    using difference_type = std::ptrdiff_t;
    using pointer = const std::string *;
    using reference = const std::string &;

    const std::string &operator*() const { return word; }
    Asking &operator++() {
        left--;
        while (answers->load() != left) std::this_thread::yield();
        fall_asleep();
        return *this;
    }
    void operator++(int) { ++*this; }
    bool operator==(const Asking &other) const { return left == other.left; }
    bool operator!=(const Asking &other) const { return left != other.left; }

    int left;
    std::atomic<int> *answers = nullptr;
    std::string word = "a question";
};

void ranges_that_wait() {
    kfifo::ValueQueue<std::string> queue(1, 8, 2), next(1, 2, 2);
    auto giver = queue.handle(), taker = queue.handle(), passer = next.handle(), last = next.handle();
    std::atomic<int> answers{3};
    std::thread sleeper([&] {
        for (int i = 0; i < 3; i++) {
            expect(taker.take_wait().value == "a question", "a question");
            answers--;
        }
    });
    auto gave = giver.give_all(Asking{3, &answers}, Asking{0});
    sleeper.join();
    expect(gave.given == 3 && gave.why == kfifo::Put::done, "each question was answered");

    // The values of one queue go to the next one, until that is full. The one that was taken last is not lost.
    constexpr std::size_t cells = cells_of(2, 2);
    const auto some = words(cells + 2);
    expect(giver.give_all(some).given == cells + 2, "words");
    queue.finish();
    auto passed = passer.give_all(taker.values());
    expect(passed.given == cells && passed.why == kfifo::Put::full && *passed.rest == some[cells], "most words go on");
    expect(last.take_up_to(cells).values.size() == cells, "they are there");
    auto more = passer.give_all(std::move(passed.rest), taker.values().end());
    expect(more.given == 2 && more.why == kfifo::Put::done, "the rest, with the one that was taken");
    expect(last.take_up_to(8).values == std::vector<std::string>(some.begin() + cells, some.end()), "all are there");
}

// One call with a value for each thread that waits wakes them all, and so does one that makes room.
void one_call_wakes_all() {
    constexpr std::size_t threads = 6;
    kfifo::ValueQueue<std::size_t> queue(1, threads, threads + 1);
    auto first = queue.handle();
    constexpr std::size_t cells = cells_of(threads, threads + 1);
    std::vector<std::size_t> values(threads), all_values(cells + 1), out;
    std::iota(values.begin(), values.end(), 1);
    for (int round = 0; round < ROUNDS; round++) {
        bool gives = round % 2;
        std::atomic<std::size_t> sum{0}, begun{0};
        std::vector<std::thread> all;
        std::size_t filled = gives ? first.give_all(all_values).given : 0;
        for (std::size_t i = 0; i < threads; i++) {
            all.emplace_back([&, gives, i, handle = queue.handle()]() mutable {
                begun++;
                if (gives)
                    sum += handle.give_wait(i + 1) == kfifo::Put::done ? i + 1 : 0;
                else
                    sum += handle.take_wait().value.value_or(0);
            });
        }
        while (begun != threads) std::this_thread::yield();
        fall_asleep();
        if (gives)
            expect(first.take_up_to(filled, out).taken == filled, "room for each that waits");
        else
            expect(first.give_all(values).given == threads, "a value for each that waits");
        for (std::thread &thread : all) thread.join();
        expect(sum == threads * (threads + 1) / 2, "each thread has one");
        out.clear();
        if (gives) expect(first.take_up_to(threads, out).taken == threads, "what they gave");
    }
}

void items() {
    kfifo::Queue queue(1, 8, 1);
    kfifo::Queue::Handle handle = queue.handle(0);
    std::vector<std::uint32_t> numbers(12), out;
    std::iota(numbers.begin(), numbers.end(), 1);
    auto put = handle.enqueue_all(numbers);
    expect(put.given == 8 && put.rest == numbers.begin() + 8 && put.why == kfifo::Put::full, "a range that is longer");
    auto took = handle.dequeue_up_to(3, out);
    expect(took.taken == 3 && !took.why && out == std::vector<std::uint32_t>{1, 2, 3}, "three items");
    auto taken = handle.dequeue_up_to(64);
    expect(taken.items.size() == 5 && taken.items[4] == 8 && taken.why == kfifo::Miss::empty, "what is left");

    numbers[3] = 0;
    expect(refuses([&] { (void)handle.enqueue_all(numbers); }), "an item out of range");
    expect(handle.dequeue_up_to(64).items.empty(), "none is put where one is out of range");
    std::istringstream text("7 8 16777216 9");
    using Reader = std::istream_iterator<std::uint32_t>;
    expect(refuses([&] { (void)handle.enqueue_all(Reader(text), Reader()); }), "one of a range that is read once");
    expect(handle.dequeue_up_to(64).items == std::vector<std::uint32_t>{7, 8}, "those before it are put");
    std::vector<std::uint8_t> small{1, 2};
    expect(handle.enqueue_all(small).given == 2 && handle.dequeue_up_to(1).items.size() == 1,
           "items of a smaller type");

    (void)queue.close();
    expect(refuses([&] { (void)handle.enqueue_all(small); }) && refuses([&] { (void)handle.dequeue_up_to(1, out); }),
           "a handle of a queue that is closed");
}

// An opening that throws nothing, and a value that has a handle of a queue of its own kind.
struct Request {
    int question;
    std::optional<kfifo::ValueHandle<Request>> answers;
};

void openings() {
    using Values = kfifo::ValueQueue<std::string>;
    auto opened = Values::try_open(1, 8, 1);
    expect(opened.status == KFIFO_DONE && opened.queue, "an opening");
    expect(opened.queue->handle().give("a") == kfifo::Put::done, "a queue that was opened so");
    expect(!Values::try_open(0, 8, 1).queue && Values::try_open(0, 8, 1).status == KFIFO_BAD_K, "k out of range");
    expect(Values::try_open(1, 0, 1).status == KFIFO_BAD_CAPACITY, "no room");
    expect(Values::try_open(1, 8, 0).status == KFIFO_BAD_THREADS, "no threads");
    expect(Values::try_open(1, 8, 65).status == KFIFO_BAD_THREADS, "too many threads");
    expect(Values::try_open(1, 8, 1, {64, 64, 1}).status == KFIFO_BAD_RESERVE, "a reserve out of range");
    expect(Values::try_open(1, 8, 1, {64, 32, 0}).status == KFIFO_BAD_CALL, "no generation");
    auto items = kfifo::Queue::try_open(1, 8, 1);
    expect(items.queue && items.queue->handle(0).enqueue(7) == kfifo::Put::done, "a queue of items");
    expect(!kfifo::Queue::try_open(1, 1, 1).queue && kfifo::Queue::try_open(1, 1, 1).status == KFIFO_BAD_SEGMENTS &&
               kfifo::Queue::try_open(1, 8, 0).status == KFIFO_BAD_THREADS &&
               kfifo::Queue::try_open(1, 8, 2, KFIFO_LAST, 1).status == KFIFO_BAD_PROBES,
           "no queue of items");

    kfifo::ValueQueue<Request> requests(1, 8, 2), answers(1, 8, 2);
    auto asks = requests.handle(), serves = requests.handle(), listens = answers.handle();
    expect(asks.give(Request{6, answers.handle()}) == kfifo::Put::done, "a request");
    auto request = serves.take();
    expect(request.value->answers->give(Request{7 * request.value->question, {}}) == kfifo::Put::done, "an answer");
    expect(listens.take().value->question == 42, "the answer comes");
}

} // namespace

int main() {
    copies();
    moves();
    throws_as_given();
    throws_as_taken();
    ranges_that_wait();
    one_call_wakes_all();
    items();
    openings();
    std::puts(failures ? "many at once fail in C++"
                       : "many at once in C++: each comes out once, also where a copy throws");
    return failures;
}
