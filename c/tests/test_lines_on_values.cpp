// The lines of kfifo.hpp, docs/C.md and README.md on values, round after round. `make worn` runs them through many
// changes of generations.
#include "kfifo.hpp"

#include <cstdio>
#include <string>

// The lines on many at once. Returns whether they do what they say.
static bool many_at_once() {
    kfifo::ValueQueue<std::string> queue(1, 2, 2);
    auto giver = queue.handle(), taker = queue.handle();
    std::vector<std::string> words, read;
    for (int i = 0; i < 100; i++) words.push_back(std::to_string(i));
    const std::vector<std::string> all = words;
    bool is_over = false;
    auto gave = giver.give_all(kfifo::moving(words));
    if (gave.why != kfifo::Put::done) std::printf("%zu are given: %s\n", gave.given, kfifo::text(gave.why));
    words.erase(words.begin(), gave.rest.base()); // what is not given is still here
    if (gave.given < queue.capacity() || words.empty() || words[0] != all[gave.given]) return false;
    giver.finish();
    auto took = taker.take_up_to(64, read);
    if (took.why == kfifo::Miss::finished) is_over = true;
    if (is_over || took.taken != 64) return false;
    took = taker.take_up_to(64, read);
    if (took.why == kfifo::Miss::finished) is_over = true;
    read.insert(read.end(), words.begin(), words.end());
    return is_over && read == all;
}

int main() {
    constexpr int rounds = 20000;
    kfifo::ValueQueue<std::string> queue(1, 512, 2); // k, capacity, threads
    auto giver = queue.handle(), taker = queue.handle();
    for (int round = 0; round < rounds; round++) {
        if (giver.give("first") != kfifo::Put::done) return 1;
        if (giver.emplace(3, 'x') != kfifo::Put::done) return 1;
        kfifo::TakenValue<std::string> taken = taker.take();
        std::string word = taken.value.value_or("none yet");
        if (word != "first" || taker.take().value != "xxx") return 1;
    }
    std::printf("%d words came in their order, and as many of another kind\n", rounds);
    return many_at_once() ? 0 : 1;
}
