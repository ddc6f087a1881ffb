// Requests that come by a clock, and four workers for them. The first task is the clock: it gives a request whenever
// one is due. Each request is told how long it waited until a worker began it.
#include "kfifo_work.hpp"

#include <algorithm>
#include <chrono>
#include <cstdio>
#include <exception>
#include <string>
#include <thread>
#include <vector>

constexpr std::size_t requests = 6000;

using Clock = std::chrono::steady_clock;

struct Request {
    std::string name; // of the clock: none
    Clock::time_point due;
    std::size_t number = 0;
};

// What a request asks for: some microseconds of work.
std::size_t answer(const Request &request) {
    std::size_t sum = 0;
    for (int round = 0; round < 200; round++)
        for (char letter : request.name) sum = sum * 31 + static_cast<unsigned char>(letter);
    return sum;
}

double microseconds(Clock::duration time) { return std::chrono::duration<double, std::micro>(time).count(); }

int main() {
    std::vector<double> waited(requests, -1);
    std::vector<std::size_t> answers(requests);
    kfifo::work::Options options;
    options.threads = 4;
    options.k = 1; // no request overtakes another in the queue
    try {
        auto report = kfifo::work::run<Request>(
            {Request{}},
            [&](const Request &request, auto &more) {
                if (request.name.empty()) {
                    auto due = Clock::now();
                    for (std::size_t number = 0; number < requests; number++) {
                        due += std::chrono::microseconds(50);
                        std::this_thread::sleep_until(due);
                        more.give(Request{"request " + std::to_string(number), due, number});
                    }
                    return;
                }
                waited[request.number] = microseconds(Clock::now() - request.due);
                answers[request.number] = answer(request);
            },
            options);

        std::sort(waited.begin(), waited.end());
        bool is_right = waited[0] >= 0 && report.done() == requests + 1 && report.left.empty();
        std::printf("%zu requests waited %.0f microseconds in the middle, 99 of 100 at most %.0f; the backlog was %llu "
                    "at most\n",
                    requests, waited[requests / 2], waited[requests * 99 / 100],
                    static_cast<unsigned long long>(report.greatest_backlog));
        return is_right ? 0 : 1;
    } catch (const std::exception &error) {
        std::fprintf(stderr, "the run ended: %s\n", error.what());
        return 1;
    }
}
