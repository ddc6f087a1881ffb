// The queue in a program that is built without exceptions: an opening says why there is no queue, and every other
// answer is a value too.
#include "kfifo_work.hpp"

#include <cstdio>
#include <string>
#include <thread>

#ifdef __cpp_exceptions
#error "this program is to be built without exceptions"
#endif

int main() {
    auto none = kfifo::ValueQueue<std::string>::try_open(0, 8, 2);
    if (none.queue || none.status != KFIFO_BAD_K) return 1;
    auto opened = kfifo::ValueQueue<std::string>::try_open(1, 512, 2); // k, capacity, threads
    if (!opened.queue) {
        std::fprintf(stderr, "no queue: %s\n", kfifo_status_text(opened.status));
        return 1;
    }
    auto giver = opened.queue->handle(), taker = opened.queue->handle();
    std::thread producer([&] {
        auto end = giver.finish_at_end();
        const char *words[] = {"one", "two", "three"};
        auto gave = giver.give_all(words);
        if (gave.given != 3) std::fprintf(stderr, "only %zu are given\n", gave.given);
    });
    std::string all;
    for (std::string word : taker.values()) all += word;
    producer.join();
    auto report = kfifo::work::run<int>({1}, [](int number, auto &more) {
        for (int next = number + 1; next < 5; next++) more.give(next);
    });
    auto items = kfifo::Queue::try_open(1, 8, 1);
    bool is_right = all == "onetwothree" && items.queue && items.queue->handle(0).enqueue(7) == kfifo::Put::done;
    is_right = is_right && report.done() == 8;
    std::puts(is_right ? "a program without exceptions opens a queue, and ends it"
                       : "a program without exceptions fails");
    return is_right ? 0 : 1;
}
