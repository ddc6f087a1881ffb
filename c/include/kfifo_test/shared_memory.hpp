// The memory that the process with the calls shares with its parent: what each thread does, and the rounds.
#ifndef KFIFO_TEST_SHARED_MEMORY_HPP
#define KFIFO_TEST_SHARED_MEMORY_HPP

#include "../kfifo_judge.h"
#include "design.hpp"
#include "interface.hpp"

#include <atomic>
#include <cstddef>
#include <cstdint>
#include <cstring>
#include <new>
#include <string>
#include <sys/mman.h>

namespace kfifo::checking {

// What a thread is doing, in one word: 4 bits for this, 24 for the item of a put, 20 for how many calls of its log are
// complete, and 16 for the round.
enum class Doing : std::uint8_t { nothing, put, get, making, destroying };

inline std::uint64_t doing(Doing what, std::uint64_t item, std::uint64_t complete, std::uint64_t round) noexcept {
    return std::uint64_t(what) | item << 4 | complete << 28 | round << 48;
}
inline Doing what_of(std::uint64_t word) noexcept { return Doing(word & 15); }
inline std::uint32_t item_of(std::uint64_t word) noexcept { return std::uint32_t(word >> 4) & MAX_ITEM; }
inline std::size_t complete_of(std::uint64_t word) noexcept { return std::size_t(word >> 28) & 0xfffff; }

// A thread's own place in the shared memory. The last lane is thread 0's while it makes, drains and destroys queues.
struct alignas(128) Lane {
    std::atomic<std::uint64_t> now{0};
    std::atomic<int> clock{0}; // the clock of the thread's processor time
    std::atomic<bool> has_clock{false};
    std::atomic<std::uint64_t> spent{0};  // of a hang: processor time in this call so far, in nanoseconds
    std::atomic<std::uint64_t> lasted{0}; // and the time that went by
};

enum class SlotState : std::uint8_t { unused, playing, played, judged };

// A round that is played, or waits to be judged.
struct Slot {
    std::atomic<SlotState> state{SlotState::unused};
    std::atomic<std::uint8_t> verdict{KFIFO_JUDGE_LEGAL}; // once it is judged
    std::atomic<std::uint64_t> tries{0};                  // of an undecided one, after how many the search gave up
    std::uint64_t number = 0;                             // of the round, from 1
    Design design;
    std::uint32_t complete[MAX_THREADS + 1] = {}; // how many calls each lane has logged
};

enum class Ended : std::uint8_t { not_yet, in_time, bad_round, hang, threw, broken };

// All that the parent process sees of the rounds. The logs stand after it.
struct Board {
    std::atomic<Ended> ended{Ended::not_yet};
    std::atomic<bool> has_note{false};
    std::atomic<std::uint64_t> rounds{0}, calls{0}, undecided{0}, sampled{0}, overlapping{0}, pulse{0};
    std::atomic<std::uint64_t> tries{0}; // after how many the search gave up in an undecided round, at most
    std::atomic<std::uint32_t> least_rounds{0}, least_at_least{0}, least_at_most{0}, least_unknown{0};
    std::atomic<bool> has_ticks{false}, has_got{false}; // whether times are ticks, and whether any get took an item
    char note[512] = {};                                // of an exception: what it says
    Lane lanes[MAX_THREADS + 1];
    Slot slots[SLOTS];

    // The first end counts.
    bool end(Ended how) noexcept {
        Ended expected = Ended::not_yet;
        return ended.compare_exchange_strong(expected, how);
    }
    // Keeps the text of an exception, the first one only.
    void write_note(const std::string &what) noexcept {
        if (!has_note.exchange(true)) std::strncpy(note, what.c_str(), sizeof note - 1);
    }
};

// The sizes that follow from the options, and the seed.
struct Settings {
    CheckOptions options;
    std::uint64_t seed = 0;
    unsigned threads = 0; // the most in a round
    unsigned room = 0;    // how many calls a thread may make in a round, those included that fill the queue
    unsigned drained = 0; // how many calls may drain it
    bool takes_capacity = false;
};

// The shared memory: the board, and for each slot the log of each lane.
class SharedMemory {
  public:
    explicit SharedMemory(const Settings &of) : threads(of.threads), room(of.room), of_slot(slot_calls(of)) {
        bytes = sizeof(Board) + SLOTS * of_slot * sizeof(kfifo_judge_call);
        void *at = mmap(nullptr, bytes, PROT_READ | PROT_WRITE, MAP_SHARED | MAP_ANONYMOUS, -1, 0);
        if (at == MAP_FAILED) throw std::bad_alloc();
        written = new (at) Board;
    }
    SharedMemory(const SharedMemory &) = delete;
    SharedMemory &operator=(const SharedMemory &) = delete;
    ~SharedMemory() { munmap(static_cast<void *>(written), bytes); }

    Board &board() const noexcept { return *written; }
    unsigned lanes() const noexcept { return threads + 1; }
    kfifo_judge_call *log(unsigned slot, unsigned lane) const noexcept {
        auto *calls = reinterpret_cast<kfifo_judge_call *>(written + 1);
        return calls + slot * of_slot + lane * lane_calls(room);
    }

  private:
    // Logs begin 128 bytes apart at least, so that no two threads write to one cache line or to neighbours.
    static std::size_t lane_calls(std::size_t calls) { return (calls + 3) / 4 * 4 + 4; }
    static std::size_t slot_calls(const Settings &of) {
        return of.threads * lane_calls(of.room) + lane_calls(of.drained);
    }
    unsigned threads, room;
    std::size_t of_slot, bytes = 0;
    Board *written = nullptr;
};

} // namespace kfifo::checking

#endif
