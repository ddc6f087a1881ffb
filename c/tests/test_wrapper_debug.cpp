// With KFIFO_DEBUG a second call by a handle of C++ while one runs ends the program, and says which call it was. Each
// is made in a process of its own.
#ifndef KFIFO_DEBUG
#define KFIFO_DEBUG
#endif
#include "kfifo.hpp"
#include "test_ends.h"

#include <functional>
#include <memory>
#include <thread>

namespace {

// A value whose constructor makes a call.
struct Calls {
    explicit Calls(const std::function<void()> &call) { call(); }
};
using Queue = kfifo::ValueQueue<Calls>;

// A call by a handle while another thread is within a give by it.
void call_while_another_gives(std::size_t which) {
    Queue queue(1, 8, 1);
    auto handle = std::make_unique<Queue::Handle>(queue.handle());
    std::atomic<bool> is_within{false}, goes_on{false};
    std::thread other([&] {
        (void)handle->emplace([&] {
            for (is_within = true; !goes_on;) std::this_thread::yield();
        });
    });
    while (!is_within) std::this_thread::yield();
    if (which == 0) (void)handle->emplace([] {});
    if (which == 1) (void)handle->take();
    if (which == 2) handle.reset();
    goes_on = true;
    other.join();
}

// A call by the handle whose give makes the value.
void call_within_a_give(std::size_t which) {
    Queue queue(1, 8, 1);
    auto handle = queue.handle();
    (void)handle.emplace([&] {
        if (which == 0) (void)handle.emplace([] {});
        if (which == 1) (void)handle.take();
    });
}

} // namespace

int main() {
    const char *give = "a give of kfifo::ValueQueue: the handle at ";
    const char *take = "a take of kfifo::ValueQueue: the handle at ";
    const char *end = "the end of a kfifo::ValueQueue::Handle: the handle at ", *why = "is in another call";
    bool holds = ends_so(call_while_another_gives, 0, give, why) && ends_so(call_while_another_gives, 1, take, why) &&
                 ends_so(call_while_another_gives, 2, end, why) && ends_so(call_while_another_gives, 3, end, nullptr) &&
                 ends_so(call_within_a_give, 0, give, why) && ends_so(call_within_a_give, 1, take, why) &&
                 ends_so(call_within_a_give, 2, give, nullptr);
    std::puts(holds ? "each second call by a handle of C++ is told and ends the program"
                    : "a second call by a handle of C++ is not told");
    return !holds;
}
