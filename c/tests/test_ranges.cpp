// The values of a queue as a range of C++20, where the compiler has ranges: a view takes as many values as it is asked
// for, and those after them stay in the queue.
#include "kfifo.hpp"

#include <cstdio>
#include <string>

// clang reads the ranges of GCC's library from 16 on.
#if defined(__cpp_lib_ranges) && (!defined(__clang__) || __clang_major__ >= 16)

namespace {

int failures = 0;

void expect(bool holds, const char *what) {
    if (holds) return;
    std::fprintf(stderr, "%s\n", what);
    failures++;
}

using Queue = kfifo::ValueQueue<std::string>;
static_assert(std::ranges::input_range<Queue::Values> && std::ranges::view<Queue::Values>);
static_assert(std::input_iterator<Queue::Values::Iterator> && !std::forward_iterator<Queue::Values::Iterator>);

// Gives the numbers from 1 to 9 as texts, by a view that makes each when it is given.
void give(Queue::Handle &giver) {
    auto texts = std::views::iota(1, 10) | std::views::transform([](int number) { return std::to_string(number); });
    auto gave = giver.give_all(texts);
    expect(gave.given == 9 && gave.rest == texts.end(), "a view that makes its values");
}

void views() {
    Queue queue(1, 16, 2);
    auto giver = queue.handle(), taker = queue.handle();
    give(giver);
    std::string all;
    for (std::string word : taker.values() | std::views::take(3)) all += word;
    expect(all == "123" && taker.take().value == "4", "a view of three takes no fourth");
    queue.finish();
    auto is_even = [](const std::string &word) { return word[0] % 2 == 0; };
    for (std::string word : taker.values() | std::views::filter(is_even)) all += word;
    expect(all == "12368" && taker.take().why == kfifo::Miss::finished, "a view until the end");
}

void until_full() {
    Queue queue(1, 4, 1);
    auto handle = queue.handle();
    auto texts = std::views::iota(1, 100) | std::views::transform([](int number) { return std::to_string(number); });
    auto gave = handle.give_all(texts);
    expect(gave.given >= 4 && gave.given < 99 && *gave.rest == std::to_string(gave.given + 1) &&
               gave.why == kfifo::Put::full,
           "where a view stopped");
    std::vector<std::string> words{"a"};
    auto none = handle.give_all(std::views::all(words));
    expect(none.given == 0 && none.rest == words.begin(), "a view of words that have a name");
}

} // namespace

int main() {
    views();
    until_full();
    std::puts(failures ? "ranges of C++20 fail" : "ranges of C++20: a view takes as many values as it is asked for");
    return failures;
}

#else

int main() { std::puts("skipped: the compiler has no ranges of C++20"); }

#endif
