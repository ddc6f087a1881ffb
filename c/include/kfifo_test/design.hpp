// The design of a round: what is drawn for it, and which call a thread makes next.
#ifndef KFIFO_TEST_DESIGN_HPP
#define KFIFO_TEST_DESIGN_HPP

#include "interface.hpp"

#include <algorithm>
#include <cstddef>
#include <cstdint>
#include <string>
#include <vector>

namespace kfifo::checking {

constexpr unsigned MAX_THREADS = 64;
constexpr std::size_t MAX_CALLS = 65536;     // of a round
constexpr unsigned SLOTS = 8;                // how many rounds are run before they are judged together
constexpr unsigned ROUNDS_OF_A_QUEUE = 2000; // after this many rounds a queue gives way to a new one
constexpr std::uint32_t MAX_ITEM = 16777215;
constexpr unsigned BUSY_GETS = 1000; // how often the draining of a queue tries again
constexpr unsigned FILLED_WITHOUT_CAPACITY = 64;

// Random numbers, by SplitMix64.
class Random {
  public:
    explicit Random(std::uint64_t seed) : state(seed) {}
    std::uint64_t next() noexcept {
        std::uint64_t word = state += 0x9e3779b97f4a7c15;
        word = (word ^ (word >> 30)) * 0xbf58476d1ce4e5b9;
        word = (word ^ (word >> 27)) * 0x94d049bb133111eb;
        return word ^ (word >> 31);
    }
    std::uint64_t below(std::uint64_t bound) noexcept { return next() % bound; }
    template <class T> const T &one_of(const std::vector<T> &values) noexcept { return values[below(values.size())]; }

  private:
    std::uint64_t state;
};

// What the threads and the calls of a round are drawn from: one that stands twice is drawn twice as often.
inline std::vector<unsigned> thread_counts(const CheckOptions &of) {
    if (of.one_producer && of.one_consumer) return {2};
    return of.threads ? std::vector<unsigned>{*of.threads} : std::vector<unsigned>{3, 4, 4, 8};
}
inline std::vector<unsigned> call_counts(const CheckOptions &of) {
    return of.calls ? std::vector<unsigned>{*of.calls} : std::vector<unsigned>{50, 100, 200};
}
inline unsigned most(const std::vector<unsigned> &counts) { return *std::max_element(counts.begin(), counts.end()); }

enum class Mix { alternating, apart, bursts, nearly_empty, nearly_full, half_full };

struct Design {
    unsigned threads = 0;
    unsigned calls = 0;    // of each thread
    unsigned capacity = 0; // 0: the maker takes none
    unsigned filled = 0;   // how many items are put before the threads begin
    Mix mix = Mix::alternating;
    bool one_producer = false, one_consumer = false;
    bool pauses = false;    // 0 to 50 spins before each call
    bool pinned = false;    // each thread to a processor
    bool signals = false;   // a timer's signal keeps threads inside their calls
    bool busy = false;      // other programs use the processors too
    std::uint64_t seed = 0; // what the threads draw from

    // Whether each thread keeps to one kind of call.
    bool is_split() const noexcept { return one_producer || one_consumer; }
    bool is_putter(unsigned thread) const noexcept { return one_producer ? thread == threads - 1 : thread != 0; }
    bool puts(unsigned thread) const noexcept { return !is_split() || is_putter(thread); }
    unsigned putters() const noexcept { return one_producer ? 1 : one_consumer ? threads - 1 : threads; }
    // How many items a thread puts before the round begins, so that all put `filled` together or a few more.
    unsigned fills(unsigned thread) const noexcept { return puts(thread) ? (filled + putters() - 1) / putters() : 0; }
};

inline std::string text(const Design &design) {
    static const char *const mixes[] = {"alternating", "apart", "bursts", "nearly empty", "nearly full", "half full"};
    static const char *const callers[] = {"one producer", "one consumer", "one producer and one consumer"};
    const int split = (design.one_producer ? 1 : 0) + (design.one_consumer ? 2 : 0);
    return std::to_string(design.threads) + " threads, " + std::to_string(design.calls) + " calls each, " +
           (split == 0 ? mixes[int(design.mix)] : callers[split - 1]) +
           (design.capacity ? ", capacity " + std::to_string(design.capacity) : "") +
           (design.pauses ? ", pauses" : "") + (design.pinned ? ", pinned" : "") +
           (design.signals ? ", interrupted by signals" : "") + (design.busy ? ", the machine was busy" : "");
}

// Says before each call of a thread whether it is a put.
class Choice {
  public:
    Choice(const Design &of, unsigned thread, Random &from)
        : design(of), random(from), is_odd(thread % 2 == 1), is_put(from.below(2) == 1) {
        puts_only = design.is_split() && design.is_putter(thread);
    }

    bool next() noexcept {
        if (design.is_split()) return puts_only;
        switch (design.mix) {
        case Mix::alternating: return is_put = !is_put;
        case Mix::apart: return is_odd;
        case Mix::nearly_empty: return random.below(8) < 3;
        case Mix::nearly_full: return random.below(8) < 5;
        case Mix::half_full: return random.below(2) == 1;
        case Mix::bursts: break;
        }
        if (left-- == 0) {
            is_put = !is_put;
            left = unsigned(random.below(16));
        }
        return is_put;
    }

  private:
    const Design &design;
    Random &random;
    bool is_odd, is_put, puts_only = false;
    unsigned left = 0;
};

} // namespace kfifo::checking

#endif
