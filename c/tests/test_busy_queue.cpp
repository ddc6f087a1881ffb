// BUSY is not the user's, in C++: a call that comes to it is made again after a pause, also each of a call of many, and
// only the bounded calls answer busy. The exports are wrapped by such as come to BUSY as often as they are told to.
#include "kfifo.hpp"

#include <cstdio>
#include <string>
#include <vector>

namespace {

constexpr unsigned times = 20;
unsigned left = 0, calls = 0; // how often a call still comes to BUSY, and how many were made
int failures = 0;

void expect(bool holds, const char *what) {
    if (holds) return;
    std::fprintf(stderr, "%s: %u calls, and %u more come to BUSY\n", what, calls, left);
    failures++;
}

// Whether this call has to come to BUSY.
bool is_busy() {
    calls++;
    if (left == 0) return false;
    left--;
    return true;
}

// Whether a call is done after it came to BUSY that often, and made a further call of the library for each value.
template <typename Call> bool looks(unsigned values, Call call) {
    left = times, calls = 0;
    return call() && left == 0 && calls == times + values;
}

} // namespace

extern "C" {
#define WRAPPED(name, parameters, arguments)                                                                           \
    std::uint32_t __real_##name parameters;                                                                            \
    std::uint32_t __wrap_##name parameters { return is_busy() ? std::uint32_t(KFIFO_BUSY) : __real_##name arguments; }
WRAPPED(kfifo_c_put, (kfifo_handle * handle, std::uint32_t item), (handle, item))
WRAPPED(kfifo_c_get, (kfifo_handle * handle, std::uint32_t *item), (handle, item))
WRAPPED(kfifo_c_put_many, (kfifo_handle * handle, const std::uint32_t *array, std::size_t count, std::size_t *put),
        (handle, array, count, put))
WRAPPED(kfifo_c_get_many, (kfifo_handle * handle, std::uint32_t *array, std::size_t most, std::size_t *got),
        (handle, array, most, got))
WRAPPED(kfifo_c_publish, (kfifo_handle * handle), (handle))
WRAPPED(kfifo_c_receive, (kfifo_handle * handle, kfifo_cell_at *cell), (handle, cell))
}

namespace {

void items() {
    kfifo::Queue queue(1, 8, 1);
    kfifo::Queue::Handle handle = queue.handle(0);
    std::vector<std::uint32_t> two{2, 3}, out;
    left = 2;
    expect(handle.enqueue_once(1) == kfifo::Put::busy, "enqueue_once");
    expect(handle.dequeue_once().why == kfifo::Miss::busy, "dequeue_once");
    expect(looks(1, [&] { return handle.enqueue(1) == kfifo::Put::done; }), "enqueue");
    expect(looks(1, [&] { return handle.dequeue().item == 1U; }), "dequeue");
    expect(looks(1, [&] { return handle.enqueue_all(two).given == 2; }), "enqueue_all");
    expect(looks(1, [&] { return handle.dequeue_up_to(2, out).taken == 2 && out == two; }), "dequeue_up_to");
}

void values() {
    kfifo::ValueQueue<std::string> queue(1, 8, 1);
    auto handle = queue.handle();
    std::vector<std::string> two{"b", "c"}, out;
    left = 3;
    std::string word("a");
    expect(handle.give_once(std::move(word)) == kfifo::Put::busy && word == "a", "give_once hands its value back");
    expect(handle.emplace_once(1, 'a') == kfifo::Put::busy, "emplace_once");
    expect(handle.take_once().why == kfifo::Miss::busy, "take_once");
    expect(looks(1, [&] { return handle.give(std::move(word)) == kfifo::Put::done; }), "give");
    expect(looks(1, [&] { return handle.take().value == "a"; }), "take");
    expect(looks(1, [&] { return handle.emplace(1, 'd') == kfifo::Put::done; }), "emplace");
    expect(looks(1, [&] { return handle.take_wait().value == "d"; }), "take_wait");
    expect(looks(1, [&] { return handle.give_wait("e") == kfifo::Put::done; }), "give_wait");
    expect(looks(1, [&] { return handle.take_for(std::chrono::minutes(1)).value == "e"; }), "take_for");
    expect(looks(2, [&] { return handle.give_all(two).given == 2; }), "give_all");
    expect(looks(2, [&] { return handle.take_up_to(2, out).taken == 2 && out == two; }), "take_up_to");
    expect(looks(2, [&] { return handle.give_all_wait(two).given == 2; }), "give_all_wait");
    expect(looks(2, [&] { return handle.take_up_to_wait(2).values == two; }), "take_up_to_wait");
    left = times;
    expect(handle.give("f") == kfifo::Put::done, "a value");
    handle.finish();
    left = times;
    for (const std::string &value : handle.values()) expect(value == "f", "the values");
    // A call with a time gives up in time.
    left = ~0U;
    expect(handle.take_up_to_for(2, std::chrono::milliseconds(1)).why == kfifo::Miss::timed_out, "take_up_to_for");
    left = 0;
}

} // namespace

int main() {
    items();
    values();
    std::puts(failures ? "calls that are busy fail in C++" : "a call of C++ that is busy is made again");
    return failures;
}
