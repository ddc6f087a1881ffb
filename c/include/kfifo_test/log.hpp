// The log of one thread in one round.
#ifndef KFIFO_TEST_LOG_HPP
#define KFIFO_TEST_LOG_HPP

#include "../kfifo_judge.h"
#include "interface.hpp"
#include "machine.hpp"
#include "shared_memory.hpp"

#include <atomic>
#include <cstdint>

namespace kfifo::checking {

// Keeps the calls of the thread with their times, and says in its lane what it is doing.
class Log {
  public:
    Log(Lane &of, kfifo_judge_call *to, const Clock &by, std::uint32_t thread, std::uint64_t round)
        : lane(of), next(to), clock(by), number(round), thread_(thread) {
        lane.now.store(doing(Doing::nothing, 0, 0, number), std::memory_order_release);
    }

    // Just before a call.
    void begin(kfifo_judge_op op, std::uint32_t item) noexcept {
        *next = {0, 0, item, thread_, std::uint8_t(op), KFIFO_JUDGE_UNFINISHED};
        next->first = clock.before(latest);
        const Doing what = op == KFIFO_JUDGE_PUT ? Doing::put : Doing::get;
        lane.now.store(doing(what, item, complete, number), std::memory_order_release);
        Clock::begin();
    }
    // Just after it.
    void end() noexcept { next->last = latest = clock.after(); }
    // Then, what it answered.
    void keep(Answer answer, std::uint64_t item) noexcept {
        if (answer == Answer::got) next->item = item;
        next->answer = std::uint8_t(answer);
        next++;
        complete++;
        lane.now.store(doing(Doing::nothing, 0, complete, number), std::memory_order_release);
    }
    // How many calls are complete. One that an exception came out of is not, since nobody knows what it did.
    std::uint32_t length() const noexcept { return complete; }

  private:
    Lane &lane;
    kfifo_judge_call *next;
    const Clock &clock;
    std::uint64_t number, latest = 0;
    std::uint32_t thread_, complete = 0;
};

} // namespace kfifo::checking

#endif
