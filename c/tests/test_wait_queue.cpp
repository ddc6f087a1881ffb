// Threads that wait in C++: values that own memory come out once whoever sleeps, all threads end after finish(), and
// times are kept. A wake-up that is lost would hang the test, which its caller ends after some time.
#include "kfifo.hpp"

#include <cstdio>
#include <string>
#include <thread>

// How many values go through each queue.
#ifdef FEWER
#define VALUES 5000
#else
#define VALUES 100000
#endif

namespace {

using namespace std::chrono_literals;
using Clock = std::chrono::steady_clock;

std::atomic<int> failures{0};

void expect(bool holds, const char *what) {
    if (!holds) {
        std::fprintf(stderr, "%s\n", what);
        failures++;
    }
}

// Counts how many are alive. It can be moved and not copied.
struct Parcel {
    static std::atomic<long> alive;
    explicit Parcel(std::size_t what) : number(new std::size_t(what)) { alive++; }
    Parcel(Parcel &&other) noexcept : number(std::move(other.number)) { alive++; }
    Parcel &operator=(Parcel &&) noexcept = default;
    ~Parcel() { alive--; }
    std::unique_ptr<std::size_t> number;
};

std::atomic<long> Parcel::alive{0};

using Parcels = kfifo::ValueQueue<Parcel>;

// Gives values until the queue is full. Returns how many: one for each cell, where no other handle keeps some.
template <typename Handle, typename Value> std::size_t fill(Handle &handle, const Value &value) {
    std::size_t given = 0;
    while (handle.give(value) == kfifo::Put::done) given++;
    return given;
}

// That many givers and takers over a small queue, where both sides sleep often.
void run(std::size_t givers, std::size_t takers) {
    Parcels queue(2, 1, givers + takers);
    std::vector<std::atomic<unsigned char>> seen(VALUES);
    std::atomic<std::size_t> still_giving{givers}, taken{0};
    std::vector<std::thread> threads;
    for (std::size_t giver = 0; giver < givers; giver++)
        threads.emplace_back([&, giver, handle = queue.handle()]() mutable {
            for (std::size_t value = giver; value < VALUES; value += givers)
                expect(handle.give_wait(Parcel(value)) == kfifo::Put::done, "a give that waits");
            if (--still_giving == 0) handle.finish();
        });
    for (std::size_t taker = 0; taker < takers; taker++)
        threads.emplace_back([&, handle = queue.handle()]() mutable {
            for (Parcel parcel : handle.values()) {
                seen[*parcel.number]++;
                taken++;
            }
            expect(handle.take().why == kfifo::Miss::finished, "a take after the end");
        });
    for (std::thread &thread : threads) thread.join();
    bool once = taken == VALUES;
    for (auto &times : seen) once = once && times == 1;
    expect(once, "each value comes out once");
    expect(Parcel::alive == 0, "each value is destroyed once");
    expect(queue.close().empty(), "nothing is left");
}

void times() {
    kfifo::ValueQueue<std::string> queue(1, 2, 2);
    auto handle = queue.handle();
    for (auto time : {-1ns, 0ns, 1ns, 1000ns, 20000000ns}) {
        auto began = Clock::now();
        auto taken = handle.take_for(time);
        expect(!taken.value && taken.why == kfifo::Miss::timed_out, "a take of an empty queue");
        expect(Clock::now() - began >= time, "the time of a take");
    }
    auto before = Clock::now();
    expect(handle.take_until(before + 10ms).why == kfifo::Miss::timed_out && Clock::now() >= before + 10ms,
           "a take until a time");
    expect(handle.take_until(Clock::time_point::min()).why == kfifo::Miss::timed_out,
           "a take until the beginning of time");
    auto of_day = std::chrono::system_clock::now();
    expect(handle.take_until(of_day + 10ms).why == kfifo::Miss::timed_out &&
               std::chrono::system_clock::now() >= of_day + 10ms,
           "a take until a time of day");
    expect(handle.give("first") == kfifo::Put::done && handle.give_for("second", 0s) == kfifo::Put::done,
           "gives that find room");
    std::size_t more = fill(handle, "more");
    std::string third(100, 'c');
    for (auto time : {-1.0, 0.0, 0.02})
        expect(handle.give_for(std::move(third), std::chrono::duration<double>(time)) == kfifo::Put::timed_out &&
                   third == std::string(100, 'c'),
               "a give to a full queue gives its value back");
    expect(handle.give_until(std::move(third), Clock::now() + 1ms) == kfifo::Put::timed_out &&
               third == std::string(100, 'c'),
           "a give until a time gives its value back");
    // Times without end are ended by what comes, also by calls that do not wait.
    auto far = std::chrono::hours::max();
    std::thread giver([&, other = queue.handle()]() mutable {
        expect(other.give_for(std::move(third), far) == kfifo::Put::done, "a long give");
    });
    std::this_thread::sleep_for(5ms);
    // The handle keeps some of the cells that it frees, and lays the others into the pool.
    expect(handle.take().value == "first" && handle.take_wait().value == "second", "takes that make room");
    for (; more; more--) expect(handle.take().value == "more", "further takes that make room");
    giver.join();
    expect(handle.take_wait().value == std::string(100, 'c'), "values in their order");
    std::thread taker([&, other = queue.handle()]() mutable {
        expect(other.take_for(std::chrono::duration<double>(1e300)).value == "last", "a long take");
        expect(other.take_until(Clock::time_point::max()).why == kfifo::Miss::finished, "a take until the end of time");
    });
    std::this_thread::sleep_for(5ms);
    expect(handle.give("last") == kfifo::Put::done, "a give to a thread that sleeps");
    std::this_thread::sleep_for(5ms);
    queue.finish();
    taker.join();
}

// Values that are copied or made in the queue, by calls that wait.
void made_in_place() {
    kfifo::ValueQueue<std::string> queue(1, 2, 2);
    auto handle = queue.handle(), other = queue.handle();
    const std::string first(100, 'a');
    expect(handle.give_wait(first) == kfifo::Put::done && first == std::string(100, 'a'), "a copy");
    expect(handle.emplace_for(1s, 100, 'b') == kfifo::Put::done, "a value that is made within a time");
    std::size_t more = fill(handle, std::string(100, 'm'));
    expect(handle.emplace_for(1ms, 100, 'c') == kfifo::Put::timed_out, "a value that no room is for in time");
    std::thread waits(
        [&] { expect(handle.emplace_wait(100, 'd') == kfifo::Put::done, "a value that waits for room"); });
    std::this_thread::sleep_for(5ms);
    for (char letter : "ab" + std::string(more, 'm') + 'd')
        expect(other.take_wait().value == std::string(100, letter), "the values in their order");
    waits.join();
    queue.finish();
    expect(handle.give_wait(first) == kfifo::Put::finished && handle.emplace_wait("e") == kfifo::Put::finished,
           "gives after the end");
}

// Whether a call throws an Error with BAD_CALL.
template <typename Call> bool refuses(Call call) {
    try {
        call();
    } catch (const kfifo::Error &error) {
        return error.status() == KFIFO_BAD_CALL;
    }
    return false;
}

void ends() {
    {
        Parcels queue(2, 8, 2);
        auto handle = queue.handle();
        for (std::size_t i = 0; i < 5; i++) expect(handle.give(Parcel(i)) == kfifo::Put::done, "a give before the end");
        queue.finish();
        queue.finish();
        Parcel late(9);
        expect(handle.give(std::move(late)) == kfifo::Put::finished && late.number && *late.number == 9,
               "a give after the end");
        expect(handle.give_wait(std::move(late)) == kfifo::Put::finished && late.number,
               "a give after the end that would wait");
        auto values = handle.values();
        auto first = values.begin();
        expect(first != values.end() && *(*first).number < 2, "what was given comes out before the end");
        expect(!kfifo::may_retry(kfifo::Put::finished) && !kfifo::may_retry(kfifo::Miss::finished), "an end stays");
        auto moved = std::move(handle);
        expect(refuses([&] { (void)handle.take_wait(); }) && refuses([&] { (void)handle.give_wait(Parcel(1)); }),
               "a handle that was moved from");
        expect(refuses([&] { handle.finish(); }) && refuses([&] { (void)handle.values().begin(); }),
               "the end by a handle that was moved from");
    }
    expect(Parcel::alive == 0, "a finished queue destroys what is left");
    Parcels queue(1, 2, 1);
    expect(queue.close().empty(), "a queue with nothing in it");
    expect(refuses([&] { queue.finish(); }), "the end of a closed queue");
}

// A producer that throws ends the consumers, and a handle that is left alone waits for nobody.
void ends_by_itself() {
    using Words = kfifo::ValueQueue<std::string>;
    Words queue(1, 2, 2);
    std::thread consumer([&, handle = queue.handle()]() mutable {
        int read = 0;
        for (std::string word : handle.values()) read += word == "one";
        expect(read == 1, "what came before the exception");
    });
    try {
        auto giver = queue.handle();
        auto end = giver.finish_at_end();
        expect(giver.give("one") == kfifo::Put::done, "a give before the exception");
        throw std::runtime_error("the producer fails");
    } catch (const std::runtime_error &) {
    }
    consumer.join();
    std::optional<Words> gone(std::in_place, 1, 2, 2);
    auto last = gone->handle();
    auto other = std::make_unique<Words::Handle>(gone->handle());
    std::atomic<bool> has_ended{false};
    std::thread waits([&] {
        expect(last.take_wait().why == kfifo::Miss::finished, "a take that sleeps when the others go");
        has_ended = true;
    });
    std::this_thread::sleep_for(5ms);
    gone.reset();
    std::this_thread::sleep_for(5ms);
    expect(!has_ended, "a take waits while another handle is left");
    other.reset();
    waits.join();
    expect(fill(last, "word") >= 2, "gives by the last handle");
    expect(last.give_wait("word") == kfifo::Put::finished, "a give that would wait for nobody");
    expect(last.give("word") == kfifo::Put::full, "a give that does not wait");
}

} // namespace

int main() {
    times();
    ends();
    ends_by_itself();
    made_in_place();
    for (std::size_t givers : {1, 2, 4})
        for (std::size_t takers : {1, 2, 8}) run(givers, takers);
    std::puts(failures ? "threads that wait fail in C++"
                       : "1, 2 and 4 givers, 1, 2 and 8 takers that sleep in C++: each value came out once");
    return failures != 0;
}
