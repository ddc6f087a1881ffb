// A bounded ring in the manner of Dmitry Vyukov, with a pause in some puts between the claim of a cell and the store
// into it, as a thread has that the system takes off its processor there.
#ifndef BENCH_VYUKOV_RING_HPP
#define BENCH_VYUKOV_RING_HPP

#include <atomic>
#include <chrono>
#include <cstdint>
#include <thread>
#include <vector>

namespace bench {

class VyukovRing {
  public:
    // The capacity is a power of two. One put in `pause_every` pauses.
    VyukovRing(std::size_t capacity, std::uint32_t pause_every) : cells(capacity), pause_every(pause_every) {
        for (std::size_t i = 0; i < capacity; i++) cells[i].turn.store(i, std::memory_order_relaxed);
    }

    bool push(std::uint32_t item) {
        std::size_t place = tail.load();
        for (;;) {
            Cell &cell = cells[place & (cells.size() - 1)];
            auto ahead = std::intptr_t(cell.turn.load(std::memory_order_acquire) - place);
            if (ahead < 0) return false;
            if (ahead == 0 && tail.compare_exchange_weak(place, place + 1)) {
                // From here on the cell is claimed, and no take gets past it before the store below.
                if (item % pause_every == 0) std::this_thread::sleep_for(std::chrono::microseconds(100));
                cell.item = item;
                cell.turn.store(place + 1, std::memory_order_release);
                return true;
            }
            if (ahead > 0) place = tail.load();
        }
    }

    // 0 where the cell at the head is not filled: also where only later cells are.
    std::uint32_t pop() {
        std::size_t place = head.load();
        for (;;) {
            Cell &cell = cells[place & (cells.size() - 1)];
            auto ahead = std::intptr_t(cell.turn.load(std::memory_order_acquire) - (place + 1));
            if (ahead < 0) return 0;
            if (ahead == 0 && head.compare_exchange_weak(place, place + 1)) {
                std::uint32_t item = cell.item;
                cell.turn.store(place + cells.size(), std::memory_order_release);
                return item;
            }
            if (ahead > 0) place = head.load();
        }
    }

  private:
    struct Cell {
        std::atomic<std::size_t> turn{0};
        std::uint32_t item = 0;
    };
    std::vector<Cell> cells;
    std::uint32_t pause_every;
    alignas(128) std::atomic<std::size_t> head{0};
    alignas(128) std::atomic<std::size_t> tail{0};
};

} // namespace bench

#endif
