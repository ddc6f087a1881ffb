// Tests a concurrent queue of yours: threads call it in thousands of short rounds, and the proved judge says of each
// round whether its calls have an order that a FIFO queue allows. C++17 on Linux, for any queue of numbers.
//
//     #include "kfifo_test.hpp"
//     #include "my_queue.hpp"
//
//     int main() {
//         auto report = kfifo::run_check([](std::size_t capacity) { return MyQueue(capacity); },
//                                        [](auto &queue, std::uint32_t item) { return queue.push(item); },
//                                        [](auto &queue) { return queue.pop(); });
//         std::puts(report.text.c_str());
//         return report.passed() ? 0 : 1;
//     }
//
// Build it with this file, its parts in the folder kfifo_test and kfifo_judge.h, all beside it:
// c++ -std=c++17 -O2 test.cpp libkfifo_judge.a -pthread
//
// A test uses what is here and in kfifo_test/interface.hpp. The other parts are the inner workings.
//
// The rounds run in a child process, so that a call that never returns, or a crash, ends the child alone.
// docs/JUDGE.md says what the verdicts mean.
#ifndef KFIFO_TEST_HPP
#define KFIFO_TEST_HPP

#ifndef __linux__
#error "kfifo_test.hpp needs Linux: it uses fork, shared memory, timers of threads and processor affinity"
#endif

#include "kfifo_test/interface.hpp"
#include "kfifo_test/run.hpp"
#include "kfifo_test/subject.hpp"

#include <utility>

namespace kfifo {

// Runs rounds on a queue and reports what was found. Throws std::invalid_argument where an option is out of range, and
// std::system_error or std::bad_alloc where the system has no process or no memory.
//
// make() or make(capacity) returns a new queue, or a std::unique_ptr or std::shared_ptr to one. It need not be movable,
// and may hold more or fewer items than the capacity: a wrong Full is not judged.
// put(queue, item), with a std::uint32_t from 1 to 16,777,215, returns bool or kfifo::Answer.
// get(queue) returns a std::optional of a whole number, or kfifo::Got.
// Many threads call put and get at once. What they call must return: a put to a full queue says so and does not wait.
template <class Make, class Put, class Get>
CheckReport run_check(Make make, Put put, Get get, const CheckOptions &options = {}) {
    checking::NoHandles none;
    return checking::run(make, none, put, get, options);
}

// The same for a queue whose threads call through handles: handle(queue, thread) returns what put and get take in place
// of the queue. Handles are made with the queue, one for each thread from 0 up, and destroyed before it.
template <class Make, class Handle, class Put, class Get>
CheckReport run_check_with_handles(Make make, Handle handle, Put put, Get get, const CheckOptions &options = {}) {
    return checking::run(make, handle, put, get, options);
}

// Runs rounds as run_check does, and throws CheckFailed where they did not pass.
template <class Make, class Put, class Get>
CheckReport check(Make make, Put put, Get get, const CheckOptions &options = {}) {
    CheckReport report = run_check(std::move(make), std::move(put), std::move(get), options);
    if (!report.passed()) throw CheckFailed(std::move(report));
    return report;
}

template <class Make, class Handle, class Put, class Get>
CheckReport check_with_handles(Make make, Handle handle, Put put, Get get, const CheckOptions &options = {}) {
    CheckReport report =
        run_check_with_handles(std::move(make), std::move(handle), std::move(put), std::move(get), options);
    if (!report.passed()) throw CheckFailed(std::move(report));
    return report;
}

} // namespace kfifo

#endif
