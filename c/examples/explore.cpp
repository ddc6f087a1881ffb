// A search in all directions at once, the nearest states first: how many flips sort each stack of 10 pancakes. A stack
// is a number, and a task. First the search by one thread with a std::deque, then by all with kfifo::work::run: the
// same loop, with a step that lowers a distance where it was a look whether there is one. Another number of pancakes,
// 2 to 11, is the argument.
#include "kfifo_work.hpp"

#include <atomic>
#include <cstdint>
#include <cstdio>
#include <cstdlib>
#include <deque>
#include <exception>
#include <vector>

#ifdef FEWER
constexpr int usual_pancakes = 8;
#else
constexpr int usual_pancakes = 10;
#endif

using Stack = std::uint32_t;
constexpr std::uint8_t unknown = 255;

// The stacks of so many pancakes are the numbers from 0, which is the sorted one: that in the order of the alphabet.
class Stacks {
  public:
    explicit Stacks(int number) : pancakes(number) {
        for (int i = 1; i <= pancakes; i++) orders[i] = orders[i - 1] * static_cast<Stack>(i);
    }
    std::size_t size() const { return orders[pancakes]; }

    // The stacks that a flip makes of this one.
    struct Flips {
        Stack all[11];
        int count = 0;
        const Stack *begin() const { return all; }
        const Stack *end() const { return all + count; }
    };
    Flips flips(Stack stack) const {
        int sizes[12], flipped[12];
        read(stack, sizes);
        Flips found;
        for (int top = 2; top <= pancakes; top++) {
            for (int i = 0; i < pancakes; i++) flipped[i] = sizes[i < top ? top - 1 - i : i];
            found.all[found.count++] = number_of(flipped);
        }
        return found;
    }

  private:
    void read(Stack stack, int *sizes) const {
        int left[12];
        for (int i = 0; i < pancakes; i++) left[i] = i;
        for (int i = 0; i < pancakes; i++) {
            Stack rest = orders[pancakes - 1 - i];
            int at = static_cast<int>(stack / rest);
            stack %= rest;
            sizes[i] = left[at];
            for (int j = at; j + 1 < pancakes - i; j++) left[j] = left[j + 1];
        }
    }

    Stack number_of(const int *sizes) const {
        Stack number = 0;
        unsigned used = 0;
        for (int i = 0; i < pancakes; i++) {
            auto smaller = __builtin_popcount(used & ((1U << sizes[i]) - 1));
            number += static_cast<Stack>(sizes[i] - smaller) * orders[pancakes - 1 - i];
            used |= 1U << sizes[i];
        }
        return number;
    }

    int pancakes;
    Stack orders[12] = {1};
};

std::vector<std::uint8_t> search_by_one(const Stacks &stacks) {
    std::vector<std::uint8_t> distances(stacks.size(), unknown);
    distances[0] = 0;
    std::deque<Stack> tasks{0};
    while (!tasks.empty()) {
        Stack stack = tasks.front();
        tasks.pop_front();
        for (Stack next : stacks.flips(stack)) {
            if (distances[next] != unknown) continue;
            distances[next] = static_cast<std::uint8_t>(distances[stack] + 1);
            tasks.push_back(next);
        }
    }
    return distances;
}

// Lowers a distance, and says whether it was greater.
bool lower(std::atomic<std::uint8_t> &distance, std::uint8_t to) {
    std::uint8_t is = distance.load();
    while (to < is)
        if (distance.compare_exchange_weak(is, to)) return true;
    return false;
}

std::vector<std::atomic<std::uint8_t>> search_by_all(const Stacks &stacks, kfifo::work::Report<Stack> &report) {
    std::vector<std::atomic<std::uint8_t>> distances(stacks.size());
    for (auto &distance : distances) distance = unknown;
    distances[0] = 0;
    report = kfifo::work::run<Stack>({0}, [&](Stack stack, auto &more) {
        auto distance = static_cast<std::uint8_t>(distances[stack] + 1);
        for (Stack next : stacks.flips(stack))
            if (lower(distances[next], distance)) more.give(next);
    });
    return distances;
}

int main(int count, char **words) {
    int pancakes = count > 1 ? std::atoi(words[1]) : usual_pancakes;
    if (pancakes < 2 || pancakes > 11) {
        std::fputs("usage: explore [PANCAKES], 2 to 11\n", stderr);
        return 2;
    }
    try {
        Stacks stacks(pancakes);
        kfifo::work::Report<Stack> report;
        auto found = search_by_all(stacks, report);
        auto wanted = search_by_one(stacks);
        std::size_t wrong = 0, most = 0;
        for (std::size_t i = 0; i < wanted.size(); i++) {
            wrong += found[i] != wanted[i];
            most = wanted[i] > most ? wanted[i] : most;
        }
        std::printf(
            "%zu stacks, each sorted by %zu flips at most; %zu workers did %.3f tasks a stack, and %zu are wrong\n",
            wanted.size(), most, report.workers.size(),
            static_cast<double>(report.done()) / static_cast<double>(wanted.size()), wrong);
        return wrong != 0;
    } catch (const std::exception &error) {
        std::fprintf(stderr, "the search ended: %s\n", error.what());
        return 1;
    }
}
