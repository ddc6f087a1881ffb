// Queues for the tests of kfifo_test.hpp: some with a fault each, and some that are right. Each is made with a
// capacity, which some ignore; push says whether the item is in the queue, and pop returns the item or nothing. No
// faulty queue sleeps at its fault, apart from RingFault::paused: only the schedule makes the fault show.
//
// HAVE_BOOST, HAVE_TBB, HAVE_CDS and HAVE_CONCURRENTQUEUE say which libraries there are.
#ifndef CHECKER_QUEUES_HPP
#define CHECKER_QUEUES_HPP

#include <atomic>
#include <chrono>
#include <cstdint>
#include <deque>
#include <mutex>
#include <optional>
#include <thread>
#include <vector>

#ifdef HAVE_BOOST
#include <boost/lockfree/queue.hpp>
#endif
#ifdef HAVE_TBB
#include <tbb/concurrent_queue.h>
#endif
#ifdef HAVE_CDS
#include <cds/container/msqueue.h>
#include <cds/gc/hp.h>
#include <cds/init.h>
#endif
#ifdef HAVE_CONCURRENTQUEUE
#include <concurrentqueue/concurrentqueue.h>
#endif
#include "kfifo.hpp"

namespace queues {

using Item = std::uint32_t;
using Got = std::optional<Item>;
using Guard = std::lock_guard<std::mutex>;

// ---- Right queues ----

class MutexDeque {
  public:
    explicit MutexDeque(std::size_t capacity) : capacity(capacity) {}
    bool push(Item item) {
        const Guard guard(mutex);
        if (items.size() >= capacity) return false;
        items.push_back(item);
        return true;
    }
    Got pop() {
        const Guard guard(mutex);
        if (items.empty()) return std::nullopt;
        const Item item = items.front();
        items.pop_front();
        return item;
    }

  private:
    std::mutex mutex;
    std::deque<Item> items;
    std::size_t capacity;
};

#ifdef HAVE_BOOST
class Boost {
  public:
    explicit Boost(std::size_t capacity) : queue(capacity) {}
    bool push(Item item) { return queue.bounded_push(item); }
    Got pop() {
        Item item = 0;
        return queue.pop(item) ? Got(item) : std::nullopt;
    }

  private:
    boost::lockfree::queue<Item, boost::lockfree::fixed_sized<true>> queue;
};
#endif

#ifdef HAVE_TBB
class Tbb {
  public:
    explicit Tbb(std::size_t capacity) { queue.set_capacity(std::ptrdiff_t(capacity)); }
    bool push(Item item) { return queue.try_push(item); }
    Got pop() {
        Item item = 0;
        return queue.try_pop(item) ? Got(item) : std::nullopt;
    }

  private:
    tbb::concurrent_bounded_queue<Item> queue;
};
#endif

#ifdef HAVE_CDS
// libcds's queue of Michael and Scott. It frees nodes by hazard pointers, so each of its threads is attached.
class CdsMichaelScott {
    struct Attached {
        Attached() { cds::threading::Manager::attachThread(); }
        ~Attached() { cds::threading::Manager::detachThread(); }
    };
    struct Hazards {
        Hazards() { cds::Initialize(); }
        cds::gc::HP collector;
    };
    // It lasts as long as the process: threads detach when they end, and a queue may be gone by then.
    static void attach() {
        static Hazards *const hazards = new Hazards;
        (void)hazards;
        thread_local Attached attached;
        (void)attached;
    }
    struct AttachFirst {
        AttachFirst() { attach(); }
    };

  public:
    explicit CdsMichaelScott(std::size_t) {}
    bool push(Item item) {
        attach();
        return queue.enqueue(item);
    }
    Got pop() {
        attach();
        Item item = 0;
        return queue.dequeue(item) ? Got(item) : std::nullopt;
    }

  private:
    AttachFirst first;
    cds::container::MSQueue<cds::gc::HP, Item> queue;
};
#endif

#ifdef HAVE_CONCURRENTQUEUE
// moodycamel's queue keeps the order of the items of one producer. With several producers it is no FIFO queue, and with
// several consumers its Empty may come too early; its documentation says both.
class Moodycamel {
  public:
    explicit Moodycamel(std::size_t capacity) : queue(capacity) {}
    bool push(Item item) { return queue.enqueue(item); }
    Got pop() {
        Item item = 0;
        return queue.try_dequeue(item) ? Got(item) : std::nullopt;
    }

  private:
    moodycamel::ConcurrentQueue<Item> queue;
};
#endif

// Lamport's ring, right for one producer and one consumer only.
class TwoThreadRing {
  public:
    explicit TwoThreadRing(std::size_t capacity) : slots(capacity) {}
    bool push(Item item) {
        const std::uint64_t at = tail.load(std::memory_order_relaxed);
        if (at - head.load(std::memory_order_acquire) == slots.size()) return false;
        slots[at % slots.size()] = item;
        tail.store(at + 1, std::memory_order_release);
        return true;
    }
    Got pop() {
        const std::uint64_t at = head.load(std::memory_order_relaxed);
        if (at == tail.load(std::memory_order_acquire)) return std::nullopt;
        const Item item = slots[at % slots.size()];
        head.store(at + 1, std::memory_order_release);
        return item;
    }

  private:
    std::vector<Item> slots;
    alignas(64) std::atomic<std::uint64_t> tail{0};
    alignas(64) std::atomic<std::uint64_t> head{0};
};

// ---- A bounded ring in the manner of Dmitry Vyukov, right or with a fault ----

enum class RingFault {
    none,          // its pop waits for a slot that a push has claimed
    early_empty,   // as published: a pop says empty while a slot is claimed, though later items are inside
    paused,        // the same, and some pushes sleep between their claim and their store
    lost_update,   // a push moves the tail by a load and a store
    early_publish, // a slot is published before its item is written
    late_read      // a slot is freed before its item is read
};

template <RingFault fault> class Ring {
    static constexpr bool says_early_empty = fault == RingFault::early_empty || fault == RingFault::paused;

  public:
    // The capacity is a power of two.
    explicit Ring(std::size_t capacity) : slots(capacity), mask(capacity - 1) {
        for (std::size_t i = 0; i < capacity; i++) slots[i].turn = i;
    }

    bool push(Item item) {
        std::uint64_t place = tail.load(std::memory_order_relaxed);
        for (;;) {
            Slot &slot = slots[place & mask];
            const auto ahead = std::int64_t(slot.turn.load(std::memory_order_acquire) - place);
            if (ahead < 0) return false;
            if (ahead > 0)
                place = fault == RingFault::lost_update ? place + 1 : tail.load(std::memory_order_relaxed);
            else if (claim(place))
                return publish(slot, place, item);
        }
    }

    Got pop() {
        std::uint64_t place = head.load(std::memory_order_relaxed);
        for (;;) {
            Slot &slot = slots[place & mask];
            const auto ahead = std::int64_t(slot.turn.load(std::memory_order_acquire) - (place + 1));
            if (ahead < 0 && (says_early_empty || tail.load() <= place)) return std::nullopt;
            if (ahead != 0)
                place = head.load();
            else if (head.compare_exchange_weak(place, place + 1))
                return free(slot, place);
        }
    }

  private:
    struct Slot {
        std::atomic<std::uint64_t> turn{0};
        std::atomic<Item> item{0};
    };

    bool claim(std::uint64_t &place) {
        if (fault != RingFault::lost_update) return tail.compare_exchange_weak(place, place + 1);
        if (tail.load(std::memory_order_relaxed) > place) {
            place++;
            return false;
        }
        tail.store(place + 1, std::memory_order_relaxed);
        return true;
    }
    bool publish(Slot &slot, std::uint64_t place, Item item) {
        if (fault == RingFault::paused && item % 64 == 0) std::this_thread::sleep_for(std::chrono::microseconds(100));
        if (fault != RingFault::early_publish) slot.item.store(item, std::memory_order_relaxed);
        slot.turn.store(place + 1, std::memory_order_release);
        keep_order();
        if (fault == RingFault::early_publish) slot.item.store(item, std::memory_order_relaxed);
        return true;
    }
    Item free(Slot &slot, std::uint64_t place) {
        Item item = slot.item.load(std::memory_order_relaxed);
        slot.turn.store(place + mask + 1, std::memory_order_release);
        keep_order();
        if (fault == RingFault::late_read) item = slot.item.load(std::memory_order_relaxed);
        return item;
    }
    // The compiler might else move the faulty step to its right place.
    static void keep_order() { asm volatile("" ::: "memory"); }

    std::vector<Slot> slots;
    std::uint64_t mask;
    alignas(64) std::atomic<std::uint64_t> tail{0};
    alignas(64) std::atomic<std::uint64_t> head{0};
};

// ---- Queues of linked nodes, which are used again. A link is an index and a tag of that many bits ----

constexpr std::uint64_t NIL = 0xffffffff;

struct Node {
    std::atomic<std::uint64_t> next{NIL};
    std::atomic<Item> item{0};
};

inline std::uint64_t index_of(std::uint64_t link) { return link & NIL; }

// A link to this index, with the tag that comes after that of the old link.
template <int tag_bits> std::uint64_t link_to(std::uint64_t index, std::uint64_t old) {
    return index | ((((old >> 32) + 1) & ((std::uint64_t(1) << tag_bits) - 1)) << 32);
}

// Treiber's stack of nodes.
template <int tag_bits> class Chain {
  public:
    void push(std::vector<Node> &nodes, std::uint64_t index) {
        std::uint64_t was = top;
        do nodes[index].next = link_to<tag_bits>(index_of(was), nodes[index].next);
        while (!top.compare_exchange_weak(was, link_to<tag_bits>(index, was)));
    }
    // NIL where there is none.
    std::uint64_t pop(std::vector<Node> &nodes) {
        std::uint64_t was = top;
        while (index_of(was) != NIL &&
               !top.compare_exchange_weak(was, link_to<tag_bits>(index_of(nodes[index_of(was)].next), was)))
            continue;
        return index_of(was);
    }

  private:
    std::atomic<std::uint64_t> top{NIL};
};

// Last in, first out.
class Lifo {
  public:
    explicit Lifo(std::size_t capacity) : nodes(capacity) {
        for (std::size_t i = 0; i < capacity; i++) spare.push(nodes, i);
    }
    bool push(Item item) {
        const std::uint64_t index = spare.pop(nodes);
        if (index == NIL) return false;
        nodes[index].item = item;
        used.push(nodes, index);
        return true;
    }
    Got pop() {
        const std::uint64_t index = used.pop(nodes);
        if (index == NIL) return std::nullopt;
        const Item item = nodes[index].item;
        spare.push(nodes, index);
        return item;
    }

  private:
    std::vector<Node> nodes;
    Chain<32> spare, used;
};

// The queue of Michael and Scott. With 32 bits of tags and the second look at the tail it is right.
template <int tag_bits, bool looks_at_tail> class MichaelScott {
  public:
    explicit MichaelScott(std::size_t capacity) : nodes(capacity + 1) {
        for (std::size_t i = 1; i <= capacity; i++) spare.push(nodes, i);
    }

    bool push(Item item) {
        const std::uint64_t index = spare.pop(nodes);
        if (index == NIL) return false;
        nodes[index].item = item;
        nodes[index].next = link(NIL, nodes[index].next);
        for (;;) {
            std::uint64_t last = tail, next = nodes[index_of(last)].next;
            if (last != tail) continue;
            if (index_of(next) != NIL) {
                tail.compare_exchange_strong(last, link(index_of(next), last));
            } else if (nodes[index_of(last)].next.compare_exchange_strong(next, link(index, next))) {
                tail.compare_exchange_strong(last, link(index, last));
                return true;
            }
        }
    }

    Got pop() {
        for (;;) {
            std::uint64_t first = head, last = tail;
            const std::uint64_t next = nodes[index_of(first)].next;
            if (first != head) continue;
            if (looks_at_tail && index_of(first) == index_of(last)) {
                if (index_of(next) == NIL) return std::nullopt;
                tail.compare_exchange_strong(last, link(index_of(next), last));
                continue;
            }
            if (index_of(next) == NIL) {
                if (looks_at_tail) continue;
                return std::nullopt;
            }
            const Item item = nodes[index_of(next)].item;
            if (!head.compare_exchange_strong(first, link(index_of(next), first))) continue;
            spare.push(nodes, index_of(first));
            return item;
        }
    }

  private:
    static std::uint64_t link(std::uint64_t index, std::uint64_t old) { return link_to<tag_bits>(index, old); }

    std::vector<Node> nodes;
    Chain<tag_bits> spare;
    alignas(64) std::atomic<std::uint64_t> head{0};
    alignas(64) std::atomic<std::uint64_t> tail{0};
};

// ---- Faults behind locks ----

// A ring with a lock for each end. The test for empty, or that for full, stands outside its lock.
enum class Outside { empty, full };

template <Outside outside> class TwoLocks {
  public:
    explicit TwoLocks(std::size_t capacity) : slots(capacity) {}
    bool push(Item item) {
        if (outside == Outside::full && is_full()) return false;
        const Guard guard(in);
        if (outside != Outside::full && is_full()) return false;
        slots[std::size_t(tail) % slots.size()] = item;
        tail = tail + 1;
        return true;
    }
    Got pop() {
        if (outside == Outside::empty && is_empty()) return std::nullopt;
        const Guard guard(out);
        if (outside != Outside::empty && is_empty()) return std::nullopt;
        const Item item = slots[std::size_t(head) % slots.size()];
        head = head + 1;
        return item;
    }

  private:
    bool is_full() const { return tail - head >= std::int64_t(slots.size()); }
    bool is_empty() const { return head >= tail; }

    std::mutex in, out;
    std::vector<std::atomic<Item>> slots;
    alignas(64) std::atomic<std::int64_t> tail{0};
    alignas(64) std::atomic<std::int64_t> head{0};
};

// Its counts have 16 bits, and their number is no multiple of its size.
class Wrap16 {
  public:
    explicit Wrap16(std::size_t capacity) : slots(capacity < 4 ? 3 : capacity - capacity / 4) {}
    bool push(Item item) {
        const Guard guard(mutex);
        if (std::uint16_t(tail - head) == slots.size()) return false;
        slots[tail++ % slots.size()] = item;
        return true;
    }
    Got pop() {
        const Guard guard(mutex);
        if (head == tail) return std::nullopt;
        return slots[head++ % slots.size()];
    }

  private:
    std::mutex mutex;
    std::vector<Item> slots;
    std::uint16_t head = 0, tail = 0;
};

// A ring of 64 slots that grows, and is then copied as if its oldest item were in slot 0.
class WrongCopy {
  public:
    explicit WrongCopy(std::size_t) : slots(64) {}
    bool push(Item item) {
        const Guard guard(mutex);
        if (tail - head == slots.size()) grow();
        slots[tail++ % slots.size()] = item;
        return true;
    }
    Got pop() {
        const Guard guard(mutex);
        if (head == tail) return std::nullopt;
        return slots[head++ % slots.size()];
    }

  private:
    void grow() {
        tail -= head;
        head = 0;
        slots.resize(2 * slots.size());
    }

    std::mutex mutex;
    std::vector<Item> slots;
    std::uint64_t head = 0, tail = 0;
};

// A push of an item that 500 divides takes the lock and never gives it back: who comes next sleeps for ever.
class KeptLock {
  public:
    explicit KeptLock(std::size_t capacity) : queue(capacity) {}
    bool push(Item item) {
        mutex.lock();
        const bool done = queue.push(item);
        if (item % 500 != 0) mutex.unlock();
        return done;
    }
    Got pop() {
        const Guard guard(mutex);
        return queue.pop();
    }

  private:
    std::mutex mutex;
    MutexDeque queue;
};

} // namespace queues

#endif
