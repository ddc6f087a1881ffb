// The calls of a round as the judge takes them, and what it finds.
#ifndef KFIFO_TEST_VERDICT_HPP
#define KFIFO_TEST_VERDICT_HPP

#include "../kfifo_judge.h"
#include "interface.hpp"
#include "shared_memory.hpp"

#include <algorithm>
#include <atomic>
#include <cstddef>
#include <cstdint>
#include <string>
#include <vector>

namespace kfifo::checking {

inline bool comes_before(const kfifo_judge_call &a, const kfifo_judge_call &b) noexcept {
    return a.first < b.first || (a.first == b.first && a.thread < b.thread);
}

// Sorts calls by their first times, so that their places are the numbers that the judge gives them. Their times then
// count from 1, so that they can be read.
inline void make_readable(std::vector<kfifo_judge_call> &calls) {
    std::sort(calls.begin(), calls.end(), comes_before);
    if (calls.empty()) return;
    const std::uint64_t before = calls[0].first - 1;
    for (kfifo_judge_call &call : calls) {
        call.first -= before;
        if (call.answer != KFIFO_JUDGE_UNFINISHED) call.last -= before;
    }
}

// The calls of a round that has ended.
inline std::vector<kfifo_judge_call> calls_of(const SharedMemory &memory, unsigned slot) {
    std::vector<kfifo_judge_call> calls;
    for (unsigned lane = 0; lane < memory.lanes(); lane++) {
        const kfifo_judge_call *log = memory.log(slot, lane);
        calls.insert(calls.end(), log, log + memory.board().slots[slot].complete[lane]);
    }
    make_readable(calls);
    return calls;
}

// The calls of a round that did not end: also those that have not returned.
inline std::vector<kfifo_judge_call> unfinished_calls_of(const SharedMemory &memory, unsigned slot) {
    std::vector<kfifo_judge_call> calls;
    for (unsigned lane = 0; lane < memory.lanes(); lane++) {
        const std::uint64_t now = memory.board().lanes[lane].now.load(std::memory_order_acquire);
        if (now >> 48 != (memory.board().slots[slot].number & 0xffff)) continue;
        const bool is_in_call = what_of(now) == Doing::put || what_of(now) == Doing::get;
        const kfifo_judge_call *log = memory.log(slot, lane);
        calls.insert(calls.end(), log, log + complete_of(now) + is_in_call);
        if (is_in_call) calls.back().answer = KFIFO_JUDGE_UNFINISHED;
    }
    make_readable(calls);
    return calls;
}

// How many of the first `count` calls overlap another one.
inline std::uint64_t overlapping(const std::vector<kfifo_judge_call> &calls, std::size_t count) noexcept {
    std::uint64_t found = 0, latest = 0;
    for (std::size_t i = 0; i < count; i++) {
        found += (i > 0 && latest >= calls[i].first) || (i + 1 < count && calls[i + 1].first <= calls[i].last);
        latest = std::max(latest, calls[i].last);
    }
    return found;
}

// What the judge found, which is freed with it.
class Verdict {
  public:
    Verdict(const std::vector<kfifo_judge_call> &calls, const CheckOptions &options) {
        kfifo_judge_calls(calls.data(), calls.size(), options.k, options.tries, &report);
    }
    Verdict(const Verdict &) = delete;
    Verdict &operator=(const Verdict &) = delete;
    ~Verdict() { kfifo_judge_clear(&report); }
    kfifo_judge_status status() const noexcept { return report.status; }
    kfifo_judge_evidence evidence() const noexcept { return report.evidence; }
    std::uint64_t tries() const noexcept { return report.tries; }
    std::string text() const { return report.text ? report.text : "the judge ran out of memory\n"; }
    std::string headline() const { return report.headline ? report.headline : ""; }
    std::vector<kfifo_judge_named> named() const { return {report.named, report.named + report.named_count}; }

  private:
    kfifo_judge_report report{};
};

inline bool is_bad(kfifo_judge_status status, const CheckOptions &options) noexcept {
    return status != KFIFO_JUDGE_LEGAL && (status != KFIFO_JUDGE_UNDECIDED || options.undecided_fails);
}

} // namespace kfifo::checking

#endif
