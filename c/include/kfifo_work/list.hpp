// Tasks for which the queue of a run has no room.
#ifndef KFIFO_WORK_LIST_HPP
#define KFIFO_WORK_LIST_HPP

#include "../kfifo.hpp"
#include "tasks.hpp"

#include <atomic>
#include <cstddef>
#include <cstdint>
#include <mutex>
#include <vector>

namespace kfifo::work::detail {

// Words in their order: a queue for one thread.
class Words {
  public:
    bool is_empty() const { return first == words.size(); }
    std::size_t size() const { return words.size() - first; }
    std::uint64_t front() const { return words[first]; }
    void push(std::uint64_t word) { words.push_back(word); }
    void pop() {
        first++;
        if (first == words.size()) {
            words.clear();
            first = 0;
        } else if (first >= 1024 && first * 2 >= words.size()) {
            words.erase(words.begin(), words.begin() + std::ptrdiff_t(first));
            first = 0;
        }
    }

  private:
    std::vector<std::uint64_t> words;
    std::size_t first = 0;
};

// The tasks of all workers that found no room, in their order and under a lock, on lines of the cache of its own. While
// there are any, what is given goes there too, so the tasks in the queue are older.
class alignas(2 * line) List {
  public:
    // How many tasks are moved into the queue at once.
    static constexpr std::size_t most_moved = 1024;

    // Any worker may look, without the lock.
    bool is_empty() const { return count.load(std::memory_order_seq_cst) == 0; }
    std::size_t size() const { return count.load(std::memory_order_seq_cst); }

    // Throws std::bad_alloc, and then nothing was added.
    void push(std::uint64_t word) {
        std::lock_guard<std::mutex> lock(mutex);
        words.push(word);
        count_again();
    }

    // Moves the oldest tasks into the queue by `put`, up to this number and as long as it finds room. Whoever has the
    // lock moves them, or gives more: nobody waits for it here.
    template <typename Put> void move_on(Put put, std::size_t most = most_moved) {
        std::unique_lock<std::mutex> lock(mutex, std::try_to_lock);
        if (lock) move_some(put, most);
    }

    // For a worker that found the queue empty: the oldest task, and others are moved into the queue. But what is in the
    // queue by now was moved there meanwhile, and is older. Where there is no task it returns what the take came to.
    template <typename Put> kfifo_status hand_over(kfifo_handle *to, std::uint64_t &word, Put put) {
        std::lock_guard<std::mutex> lock(mutex);
        kfifo_status status = kfifo_take(to, &word);
        if (status != KFIFO_EMPTY || words.is_empty()) return status;
        take_first(word);
        move_some(put, most_moved);
        return KFIFO_DONE;
    }

    // The oldest task: of the only worker, or when all have ended.
    bool take(std::uint64_t &word) {
        if (words.is_empty()) return false;
        take_first(word);
        return true;
    }

  private:
    void take_first(std::uint64_t &word) {
        word = words.front();
        words.pop();
        count_again();
    }

    // A task leaves the list only when it is in the queue: at each moment it is in one of the two.
    template <typename Put> void move_some(Put put, std::size_t most) {
        while (most-- > 0 && !words.is_empty() && put(words.front())) {
            words.pop();
            count_again();
        }
    }

    void count_again() { count.store(words.size(), std::memory_order_seq_cst); }

    std::atomic<std::size_t> count{0};
    std::mutex mutex;
    Words words;
};

} // namespace kfifo::work::detail

#endif
