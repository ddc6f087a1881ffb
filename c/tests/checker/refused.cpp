// What the compiler says to a check whose functions are of the wrong types: `make -C c headers` compiles each case, and
// compares the one error that it has to have with the text after `says:`. Case 0 is right.
#include "kfifo_test.hpp"

#include <string>

struct Queue {
    bool push(std::uint32_t) { return true; }
    std::optional<std::uint32_t> pop() { return std::nullopt; }
};

inline Queue make() { return Queue(); }
inline bool put(Queue &queue, std::uint32_t item) { return queue.push(item); }
inline std::optional<std::uint32_t> get(Queue &queue) { return queue.pop(); }

int main() {
#if CASE == 0
    kfifo::run_check(make, put, get);
#elif CASE == 1 // says: the maker has to take (std::size_t capacity) or nothing
    kfifo::run_check([](std::string) { return Queue(); }, put, get);
#elif CASE == 2 // says: the maker has to return a queue
    kfifo::run_check([] {}, put, get);
#elif CASE == 3 // says: put has to take (queue, std::uint32_t item)
    kfifo::run_check(
        make, [](Queue &, std::string) { return true; }, get);
#elif CASE == 4 // says: put has to return bool
    kfifo::run_check(
        make, [](Queue &queue, std::uint32_t item) { queue.push(item); }, get);
#elif CASE == 5 // says: get has to take (queue)
    kfifo::run_check(make, put, [] { return std::optional<int>(); });
#elif CASE == 6 // says: get has to return a std::optional of a whole number
    kfifo::run_check(make, put, [](Queue &) { return std::optional<std::string>(); });
#elif CASE == 7 // says: get has to return a std::optional of a whole number
    kfifo::run_check(make, put, [](Queue &) { return 7; });
#elif CASE == 8 // says: handle has to take (queue, unsigned thread)
    kfifo::run_check_with_handles(
        make, [](Queue &queue) { return &queue; }, put, get);
#elif CASE == 9 // says: put has to take (queue, std::uint32_t item)
    kfifo::run_check_with_handles(
        make, [](Queue &queue, unsigned) { return &queue; }, put, [](Queue *queue) { return queue->pop(); });
#endif
}
