// A whole test of a queue. INCLUDE is the folder that has kfifo_test.hpp, its folder kfifo_test, and kfifo_judge.h:
//
//     c++ -std=c++17 -O2 -I INCLUDE first.cpp libkfifo_judge.a -pthread -o first && ./first
#include "kfifo_test.hpp"
#include "my_queue.hpp"

int main() {
    const auto report = kfifo::run_check([](std::size_t capacity) { return MyQueue(capacity); },
                                         [](MyQueue &queue, std::uint32_t item) { return queue.push(item); },
                                         [](MyQueue &queue) { return queue.pop(); });
    std::puts(report.text.c_str());
    return report.passed() ? 0 : 1;
}
