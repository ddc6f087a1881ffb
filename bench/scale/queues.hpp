// What the queue is compared with, step by step. `put` and `get` say whether an item went in or came out.
#ifndef BENCH_SCALE_QUEUES_HPP
#define BENCH_SCALE_QUEUES_HPP

#include "machine.hpp"

namespace scale {

// The ring of Dmitry Vyukov, as libcds has it. crossbeam's ArrayQueue has pauses after lost steps beside that.
class Ring {
  public:
    Ring(Machine &machine, Word capacity) : capacity(capacity) {
        for (Word i = 0; i < capacity; i++) machine.memory[stamp_of(i)] = i;
    }

    static std::size_t words(Word capacity) { return SLOTS + 2 * capacity; }

    Task<bool> put(Core core, Word item) {
        Word ticket = co_await core.load(TAIL);
        for (;;) {
            const std::size_t slot = stamp_of(ticket);
            const Word stamp = co_await core.load(slot);
            if (stamp == ticket) {
                const Word found = co_await core.compare_exchange(TAIL, ticket, ticket + 1);
                if (found == ticket) {
                    co_await core.store(slot + 1, item);
                    co_await core.store(slot, ticket + 1);
                    co_return true;
                }
                ticket = found;
                continue;
            }
            if (stamp < ticket && co_await core.load(HEAD) + capacity <= ticket) co_return false;
            ticket = co_await core.load(TAIL);
        }
    }

    Task<bool> get(Core core) {
        Word ticket = co_await core.load(HEAD);
        for (;;) {
            const std::size_t slot = stamp_of(ticket);
            const Word stamp = co_await core.load(slot);
            if (stamp == ticket + 1) {
                const Word found = co_await core.compare_exchange(HEAD, ticket, ticket + 1);
                if (found == ticket) {
                    co_await core.load(slot + 1);
                    co_await core.store(slot, ticket + capacity);
                    co_return true;
                }
                ticket = found;
                continue;
            }
            if (stamp <= ticket && co_await core.load(TAIL) <= ticket) co_return false;
            ticket = co_await core.load(HEAD);
        }
    }

  private:
    // Each end has 128 bytes of its own, and a slot has a stamp and an item.
    static constexpr std::size_t HEAD = 0, TAIL = 16, SLOTS = 32;

    std::size_t stamp_of(Word ticket) const { return SLOTS + 2 * (ticket % capacity); }

    const Word capacity;
};

// A ticket by fetch-and-add at each end, and a slot for each ticket whose turn a call awaits: the least that a strict
// queue without combining does.
class Tickets {
  public:
    Tickets(Machine &, Word capacity) : capacity(capacity) {}

    static std::size_t words(Word capacity) { return SLOTS + 2 * capacity; }

    Task<bool> put(Core core, Word item) {
        const Word tail = co_await core.load(TAIL), head = co_await core.load(HEAD);
        if (tail >= head + capacity) co_return false;
        const Word ticket = co_await core.fetch_add(TAIL, 1);
        const std::size_t slot = SLOTS + 2 * (ticket % capacity);
        while (co_await core.load(slot) != 2 * (ticket / capacity)) co_await core.pause();
        co_await core.store(slot + 1, item);
        co_await core.store(slot, 2 * (ticket / capacity) + 1);
        co_return true;
    }

    Task<bool> get(Core core) {
        const Word head = co_await core.load(HEAD), tail = co_await core.load(TAIL);
        if (head >= tail) co_return false;
        const Word ticket = co_await core.fetch_add(HEAD, 1);
        const std::size_t slot = SLOTS + 2 * (ticket % capacity);
        while (co_await core.load(slot) != 2 * (ticket / capacity) + 1) co_await core.pause();
        co_await core.load(slot + 1);
        co_await core.store(slot, 2 * (ticket / capacity) + 2);
        co_return true;
    }

  private:
    static constexpr std::size_t HEAD = 0, TAIL = 16, SLOTS = 32;
    const Word capacity;
};

// A queue for each producer, as moodycamel's ConcurrentQueue without tokens: an item is at most overtaken by those of
// other producers. A get looks for producers with items, and tries the fullest of the first three.
class PerProducer {
  public:
    PerProducer(Machine &, Word capacity, int threads) : capacity(capacity), threads(threads), tails(threads) {}

    static std::size_t words(Word capacity, int threads) { return threads * size(capacity); }

    Task<bool> put(Core core, Word item) {
        const std::size_t own = core.number * size(capacity);
        // Nobody else writes its tail, and its own last store may still be on its way.
        const Word tail = tails[core.number], head = co_await core.load(own + HEAD);
        if (tail - head >= capacity) co_return false;
        co_await core.store(item_of(own, tail), item);
        co_await core.store(own + TAIL, ++tails[core.number]);
        co_return true;
    }

    Task<bool> get(Core core) {
        std::size_t best = 0;
        Word most = 0;
        for (int thread = 0, filled = 0; thread < threads && filled < 3; thread++) {
            const std::size_t from = thread * size(capacity);
            const Word tail = co_await core.load(from + TAIL), head = co_await core.load(from + HEAD);
            if (tail > head) filled++;
            if (tail > head && tail - head > most) most = tail - head, best = from;
        }
        if (most == 0) co_return false;
        if (co_await get_from(core, best)) co_return true;
        for (int thread = 0; thread < threads; thread++) {
            const std::size_t from = thread * size(capacity);
            if (from != best && co_await get_from(core, from)) co_return true;
        }
        co_return false;
    }

  private:
    // The counts of a producer are in one line. A block of 32 items has two lines, and a count of those that are out.
    static constexpr std::size_t TAIL = 0, HEAD = 1, WANTED = 2, TOO_MANY = 3, BLOCKS = 8, BLOCK = 24, COUNT = 16;

    static std::size_t size(Word capacity) { return BLOCKS + capacity / 32 * BLOCK; }
    std::size_t block_of(std::size_t own, Word ticket) const { return own + BLOCKS + ticket % capacity / 32 * BLOCK; }
    std::size_t item_of(std::size_t own, Word ticket) const { return block_of(own, ticket) + ticket % 32 / 2; }

    Task<bool> get_from(Core core, std::size_t from) {
        const Word tail = co_await core.load(from + TAIL), too_many = co_await core.load(from + TOO_MANY);
        if (co_await core.load(from + WANTED) - too_many >= tail) co_return false;
        const Word wanted = co_await core.fetch_add(from + WANTED, 1);
        if (wanted - too_many >= co_await core.load(from + TAIL)) {
            co_await core.fetch_add(from + TOO_MANY, 1);
            co_return false;
        }
        const Word ticket = co_await core.fetch_add(from + HEAD, 1);
        co_await core.load(item_of(from, ticket));
        co_await core.fetch_add(block_of(from, ticket) + COUNT, 1);
        co_return true;
    }

    const Word capacity;
    const int threads;
    std::vector<Word> tails;
};

} // namespace scale

#endif
