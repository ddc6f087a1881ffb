// The queues that are compared, behind one interface: push(thread, item) puts an item, which is not 0, and returns
// whether it is in the queue; pop(thread) returns an item, or 0 where none came. A thread that calls holds an Attached.
#ifndef BENCH_QUEUES_HPP
#define BENCH_QUEUES_HPP

#include "kfifo.hpp"

extern "C" {
void *array_queue_new(std::size_t);
bool array_queue_push(const void *, std::uint32_t);
std::uint32_t array_queue_pop(const void *);
void array_queue_free(void *);
#define BENCH_ARRAY_OF_VALUES(bytes)                                                                                   \
    void *array_##bytes##_new(std::size_t);                                                                            \
    bool array_##bytes##_push(const void *, const std::uint64_t *);                                                    \
    bool array_##bytes##_pop(const void *, std::uint64_t *);                                                           \
    void array_##bytes##_free(void *);
BENCH_ARRAY_OF_VALUES(8)
BENCH_ARRAY_OF_VALUES(16)
BENCH_ARRAY_OF_VALUES(64)
#undef BENCH_ARRAY_OF_VALUES
void *ck_queue_new(unsigned);
bool ck_queue_push(void *, std::uint32_t);
std::uint32_t ck_queue_pop(void *);
void ck_queue_free(void *);
}

#include <algorithm>
#include <array>
#include <boost/lockfree/queue.hpp>
#include <cds/container/msqueue.h>
#include <cds/container/segmented_queue.h>
#include <cds/container/vyukov_mpmc_cycle_queue.h>
#include <cds/gc/hp.h>
#include <cds/init.h>
#include <concurrentqueue/concurrentqueue.h>
#include <cstdint>
#include <deque>
#include <memory>
#include <mutex>
#include <new>
#include <stdexcept>
#include <string>
#include <tbb/concurrent_queue.h>
#include <utility>
#include <vector>

namespace bench {

// A value of so many 64-bit words. Each is the item, and a pop checks that they came out together.
template <std::size_t count> struct Value {
    std::array<std::uint64_t, count> words;
    Value() : Value(0) {}
    explicit Value(std::uint64_t item) { words.fill(item); }
    std::uint32_t item() const {
        for (std::uint64_t word : words)
            if (word != words[0]) throw std::logic_error("a value came out torn");
        return std::uint32_t(words[0]);
    }
};

// What a thread holds while it calls: of most queues nothing.
struct NothingAttached {
    // A destructor of its own, so that no compiler warns of a variable that is not used.
    ~NothingAttached() {}
};

// This repository's queue. The calls choose their starts themselves, each a stride further than the last.
struct Kfifo {
    using Attached = NothingAttached;
    kfifo::Queue queue;
    std::vector<kfifo::Queue::Handle> handles;

    Kfifo(std::uint32_t k, std::size_t capacity, std::size_t threads) : queue(k, std::uint32_t(capacity) / k, threads) {
        for (std::size_t i = 0; i < threads; i++) handles.push_back(queue.handle(i));
    }
    bool push(std::size_t thread, std::uint32_t item) { return handles[thread].enqueue(item) == kfifo::Put::done; }
    std::uint32_t pop(std::size_t thread) { return handles[thread].dequeue().item.value_or(0); }
};

// The same queue, with a random start for each call.
struct KfifoAtRandom : Kfifo {
    struct alignas(128) Seed {
        std::uint32_t state;
    };
    std::uint32_t k;
    std::uint16_t turns;
    std::vector<Seed> seeds;

    KfifoAtRandom(std::uint32_t k, std::size_t capacity, std::size_t threads)
        : Kfifo(k, capacity, threads), k(k), turns(std::uint16_t(capacity / k + 2)), seeds(threads) {
        for (std::size_t i = 0; i < threads; i++) seeds[i].state = std::uint32_t(i * 7919 + 1);
    }
    std::uint32_t start(std::size_t thread) {
        std::uint32_t &state = seeds[thread].state;
        state = state * 1664525 + 1013904223;
        return std::uint32_t((std::uint64_t(state) * k) >> 32);
    }
    bool push(std::size_t thread, std::uint32_t item) {
        return handles[thread].enqueue_once(item, start(thread), turns) == kfifo::Put::done;
    }
    std::uint32_t pop(std::size_t thread) {
        return handles[thread].dequeue_once(start(thread), turns).item.value_or(0);
    }
};

// The same queue, with another stride from a thread's start to its next one than a handle has.
struct KfifoByStride : Kfifo {
    struct alignas(128) Starts {
        std::uint32_t put, take;
    };
    std::uint32_t k, stride;
    std::uint16_t turns;
    std::vector<Starts> starts;

    KfifoByStride(std::uint32_t k, std::size_t capacity, std::size_t threads, std::uint32_t stride)
        : Kfifo(k, capacity, threads), k(k), stride(stride), turns(std::uint16_t(capacity / k + 2)), starts(threads) {
        for (std::size_t i = 0; i < threads; i++) starts[i].put = starts[i].take = std::uint32_t(i * k / threads);
    }
    std::uint32_t next(std::uint32_t &start) const { return std::exchange(start, (start + stride) % k); }
    bool push(std::size_t thread, std::uint32_t item) {
        return handles[thread].enqueue_once(item, next(starts[thread].put), turns) == kfifo::Put::done;
    }
    std::uint32_t pop(std::size_t thread) {
        return handles[thread].dequeue_once(next(starts[thread].take), turns).item.value_or(0);
    }
};

// crossbeam's ArrayQueue.
struct Array {
    using Attached = NothingAttached;
    void *queue;
    explicit Array(std::size_t capacity) : queue(array_queue_new(capacity)) {}
    ~Array() { array_queue_free(queue); }
    bool push(std::size_t, std::uint32_t item) { return array_queue_push(queue, item); }
    std::uint32_t pop(std::size_t) { return array_queue_pop(queue); }
};

inline std::uint32_t item_of(std::uint32_t item) { return item; }
template <std::size_t count> std::uint32_t item_of(const Value<count> &value) { return value.item(); }

// Boost's queue of items or of values, with all its nodes from the beginning.
template <typename T> struct Boost {
    using Attached = NothingAttached;
    boost::lockfree::queue<T, boost::lockfree::fixed_sized<true>> queue;
    explicit Boost(std::size_t capacity) : queue(capacity) {}
    bool push(std::size_t, std::uint32_t item) { return queue.bounded_push(T(item)); }
    std::uint32_t pop(std::size_t) {
        T value{};
        return queue.pop(value) ? item_of(value) : 0;
    }
};

// TBB's bounded queue.
template <typename T> struct Tbb {
    using Attached = NothingAttached;
    tbb::concurrent_bounded_queue<T> queue;
    explicit Tbb(std::size_t capacity) { queue.set_capacity(std::ptrdiff_t(capacity)); }
    bool push(std::size_t, std::uint32_t item) { return queue.try_push(T(item)); }
    std::uint32_t pop(std::size_t) {
        T value{};
        return queue.try_pop(value) ? item_of(value) : 0;
    }
};

// TBB's queue that has no capacity.
template <typename T> struct TbbUnbounded {
    using Attached = NothingAttached;
    tbb::concurrent_queue<T> queue;
    bool push(std::size_t, std::uint32_t item) {
        queue.push(T(item));
        return true;
    }
    std::uint32_t pop(std::size_t) {
        T value{};
        return queue.try_pop(value) ? item_of(value) : 0;
    }
};

// A ring of Concurrency Kit for many producers and consumers. It holds one item less than its size.
struct Ck {
    using Attached = NothingAttached;
    void *queue;
    explicit Ck(std::size_t capacity) : queue(ck_queue_new(unsigned(capacity))) {
        if (!queue) throw std::bad_alloc();
    }
    ~Ck() { ck_queue_free(queue); }
    bool push(std::size_t, std::uint32_t item) { return ck_queue_push(queue, item); }
    std::uint32_t pop(std::size_t) { return ck_queue_pop(queue); }
};

// A mutex around a deque, of items or of values.
template <typename T> struct Mutex {
    using Attached = NothingAttached;
    std::mutex mutex;
    std::deque<T> items;
    std::size_t capacity;
    explicit Mutex(std::size_t capacity) : capacity(capacity) {}
    bool push(std::size_t, std::uint32_t item) {
        std::lock_guard<std::mutex> guard(mutex);
        if (items.size() >= capacity) return false;
        items.push_back(T(item));
        return true;
    }
    std::uint32_t pop(std::size_t) {
        std::lock_guard<std::mutex> guard(mutex);
        if (items.empty()) return 0;
        std::uint32_t item = item_of(items.front());
        items.pop_front();
        return item;
    }
};

// libcds frees nodes by hazard pointers, so each of its threads is attached.
struct Hazards {
    Hazards() { cds::Initialize(); }
    ~Hazards() { cds::Terminate(); }
};

struct AttachedToHazards {
    AttachedToHazards() { cds::threading::Manager::attachThread(); }
    ~AttachedToHazards() { cds::threading::Manager::detachThread(); }
};

// libcds's queue of Michael and Scott. It has no capacity.
struct CdsMs {
    using Attached = AttachedToHazards;
    Hazards hazards;
    cds::gc::HP collector;
    AttachedToHazards main;
    cds::container::MSQueue<cds::gc::HP, std::uint32_t> queue;
    bool push(std::size_t, std::uint32_t item) { return queue.enqueue(item); }
    std::uint32_t pop(std::size_t) {
        std::uint32_t item = 0;
        return queue.dequeue(item) ? item : 0;
    }
};

// libcds's queue of segments, the k-relaxed queue of Afek, Korland and Yanovsky, with k as its quasi factor, which is a
// power of two. It has no capacity.
struct CdsSegmented {
    using Queue = cds::container::SegmentedQueue<cds::gc::HP, std::uint32_t>;
    using Attached = AttachedToHazards;
    Hazards hazards;
    cds::gc::HP collector{Queue::c_nHazardPtrCount + 4};
    AttachedToHazards main;
    Queue queue;
    explicit CdsSegmented(std::uint32_t k) : queue(k) {}
    bool push(std::size_t, std::uint32_t item) { return queue.enqueue(item); }
    std::uint32_t pop(std::size_t) {
        std::uint32_t item = 0;
        return queue.dequeue(item) ? item : 0;
    }
};

// libcds's ring of Vyukov.
template <typename T> struct CdsVyukov {
    using Attached = NothingAttached;
    cds::container::VyukovMPMCCycleQueue<T> queue;
    explicit CdsVyukov(std::size_t capacity) : queue(capacity) {}
    bool push(std::size_t, std::uint32_t item) { return queue.enqueue(T(item)); }
    std::uint32_t pop(std::size_t) {
        T value{};
        return queue.dequeue(value) ? item_of(value) : 0;
    }
};

// moodycamel's ConcurrentQueue: a queue for each producer, which consumers visit in turn. It has no capacity.
template <typename T> struct Moodycamel {
    using Attached = NothingAttached;
    moodycamel::ConcurrentQueue<T> queue;
    bool push(std::size_t, std::uint32_t item) { return queue.enqueue(T(item)); }
    std::uint32_t pop(std::size_t) {
        T value{};
        return queue.try_dequeue(value) ? item_of(value) : 0;
    }
};

// The same queue, by calls with a token of the thread for each side.
template <typename T> struct MoodycamelWithTokens : Moodycamel<T> {
    std::vector<moodycamel::ProducerToken> producers;
    std::vector<moodycamel::ConsumerToken> consumers;
    explicit MoodycamelWithTokens(std::size_t threads) {
        for (std::size_t i = 0; i < threads; i++)
            producers.emplace_back(this->queue), consumers.emplace_back(this->queue);
    }
    bool push(std::size_t thread, std::uint32_t item) { return this->queue.enqueue(producers[thread], T(item)); }
    std::uint32_t pop(std::size_t thread) {
        T value{};
        return this->queue.try_dequeue(consumers[thread], value) ? item_of(value) : 0;
    }
};

// This repository's queue of values as a C++ program uses it, of values of so many words. It may have `grows` times as
// many.
template <std::size_t count> struct KfifoValues {
    using Attached = NothingAttached;
    using Queue = kfifo::ValueQueue<Value<count>>;
    Queue queue;
    std::vector<typename Queue::Handle> handles;

    // With few slots a segment there is less room than the other queues have.
    KfifoValues(std::uint32_t k, std::size_t capacity, std::size_t threads, std::uint32_t grows = 1)
        : queue(k, std::uint32_t(std::min(capacity, threads * (1022 * k / threads - 32))), threads, options(grows)) {
        for (std::size_t i = 0; i < threads; i++) handles.push_back(queue.handle());
    }
    static kfifo::Options options(std::uint32_t grows) {
        kfifo::Options options;
        options.grows = grows;
        return options;
    }
    bool push(std::size_t thread, std::uint32_t item) {
        return handles[thread].give(Value<count>(item)) == kfifo::Put::done;
    }
    std::uint32_t pop(std::size_t thread) {
        auto taken = handles[thread].take();
        return taken.value ? taken.value->item() : 0;
    }
};

// This repository's queues by their calls for C: items or values, by the calls that look for threads that wait, or by
// the exports, which do not.
template <bool of_items, bool looks> struct KfifoInC {
    using Attached = NothingAttached;
    std::vector<kfifo_handle> handles;

    KfifoInC(std::uint32_t k, std::size_t capacity, std::size_t threads) : handles(threads) {
        auto room = std::uint32_t(capacity);
        kfifo_status status;
        if constexpr (of_items)
            status = kfifo_open(k, room / k, k, KFIFO_LAST, handles.data(), threads);
        else
            status = kfifo_open_values(k, room, handles.data(), threads);
        if (status != KFIFO_DONE) throw std::runtime_error(kfifo_status_text(status));
    }
    ~KfifoInC() { (void)kfifo_abandon(handles.data(), handles.size()); }
    bool push(std::size_t thread, std::uint32_t item) {
        kfifo_handle *handle = &handles[thread];
        if constexpr (of_items)
            return (looks ? kfifo_put(handle, item) : kfifo_status(kfifo_c_put(handle, item))) == KFIFO_DONE;
        else
            return (looks ? kfifo_give(handle, item) : kfifo_status(kfifo_c_give(handle, item))) == KFIFO_DONE;
    }
    std::uint32_t pop(std::size_t thread) {
        kfifo_handle *handle = &handles[thread];
        Value value = 0;
        kfifo_status status;
        if constexpr (of_items)
            status = looks ? kfifo_get(handle, &value) : kfifo_taken(kfifo_c_get(handle, &value));
        else
            status = looks ? kfifo_take(handle, &value) : kfifo_taken(kfifo_c_take(handle, &value));
        return status == KFIFO_DONE ? std::uint32_t(value) : 0;
    }

  private:
    using Value = std::conditional_t<of_items, std::uint32_t, std::uint64_t>;
};

// crossbeam's ArrayQueue of values of so many words, by these calls.
template <std::size_t count, auto make, auto push_one, auto pop_one, auto drop> struct ArrayValues {
    using Attached = NothingAttached;
    void *queue;
    explicit ArrayValues(std::size_t capacity) : queue(make(capacity)) {}
    ~ArrayValues() { drop(queue); }
    bool push(std::size_t, std::uint32_t item) { return push_one(queue, Value<count>(item).words.data()); }
    std::uint32_t pop(std::size_t) {
        Value<count> value(0);
        return pop_one(queue, value.words.data()) ? value.item() : 0;
    }
};
using Array8 = ArrayValues<1, array_8_new, array_8_push, array_8_pop, array_8_free>;
using Array16 = ArrayValues<2, array_16_new, array_16_push, array_16_pop, array_16_free>;
using Array64 = ArrayValues<8, array_64_new, array_64_push, array_64_pop, array_64_free>;

// Calls use(queue) with the queue of others of this name, of items or of values of type T, and returns what it returns;
// 2 where there is no such queue.
template <typename T, typename Use>
int with_rival(const std::string &name, std::size_t capacity, std::size_t threads, Use use) {
    auto with = [&](auto queue) { return use(*queue); };
    if (name == "boost") return with(std::make_unique<Boost<T>>(capacity));
    if (name == "tbb") return with(std::make_unique<Tbb<T>>(capacity));
    if (name == "tbb-unbounded") return with(std::make_unique<TbbUnbounded<T>>());
    if (name == "mutex") return with(std::make_unique<Mutex<T>>(capacity));
    if (name == "vyukov") return with(std::make_unique<CdsVyukov<T>>(capacity));
    if (name == "moodycamel") return with(std::make_unique<Moodycamel<T>>());
    if (name == "moodycamel-tokens") return with(std::make_unique<MoodycamelWithTokens<T>>(threads));
    return 2;
}

// Calls use(queue) with the queue of this name, and returns what it returns; 2 where there is no such queue. k is that
// of kfifo, and the quasi factor of segmented. A queue of values has their size in bytes behind its name.
template <typename Use>
int with_queue(const std::string &name, std::uint32_t k, std::size_t capacity, std::size_t threads, Use use) {
    auto with = [&](auto queue) { return use(*queue); };
    if (name == "kfifo") return with(std::make_unique<Kfifo>(k, capacity, threads));
    if (name == "kfifo-at-random") return with(std::make_unique<KfifoAtRandom>(k, capacity, threads));
    if (name == "kfifo-stride-0") return with(std::make_unique<KfifoByStride>(k, capacity, threads, 0));
    if (name == "kfifo-stride-1") return with(std::make_unique<KfifoByStride>(k, capacity, threads, 1));
    if (name == "array") return with(std::make_unique<Array>(capacity));
    if (name == "ck") return with(std::make_unique<Ck>(capacity));
    if (name == "kfifo-8") return with(std::make_unique<KfifoValues<1>>(k, capacity, threads));
    if (name == "kfifo-16") return with(std::make_unique<KfifoValues<2>>(k, capacity, threads));
    if (name == "kfifo-64") return with(std::make_unique<KfifoValues<8>>(k, capacity, threads));
    // It has room for as many, and for 64 times as many if it grows; and it has room for as many once it has grown.
    if (name == "kfifo-may-grow-16") return with(std::make_unique<KfifoValues<2>>(k, capacity, threads, 64));
    if (name == "kfifo-grows-16") return with(std::make_unique<KfifoValues<2>>(k, capacity / 64, threads, 64));
    if (name == "kfifo-in-c") return with(std::make_unique<KfifoInC<true, false>>(k, capacity, threads));
    if (name == "kfifo-in-c-looking") return with(std::make_unique<KfifoInC<true, true>>(k, capacity, threads));
    if (name == "kfifo-values-in-c") return with(std::make_unique<KfifoInC<false, false>>(k, capacity, threads));
    if (name == "kfifo-values-in-c-looking") return with(std::make_unique<KfifoInC<false, true>>(k, capacity, threads));
    if (name == "array-8") return with(std::make_unique<Array8>(capacity));
    if (name == "array-16") return with(std::make_unique<Array16>(capacity));
    if (name == "array-64") return with(std::make_unique<Array64>(capacity));
    if (name == "ms") return with(std::make_unique<CdsMs>());
    if (name == "segmented") return with(std::make_unique<CdsSegmented>(k));
    auto size = name.find_last_of('-');
    std::string plain = name.substr(0, size), bytes = size == name.npos ? "" : name.substr(size + 1);
    if (bytes == "8") return with_rival<Value<1>>(plain, capacity, threads, use);
    if (bytes == "16") return with_rival<Value<2>>(plain, capacity, threads, use);
    if (bytes == "64") return with_rival<Value<8>>(plain, capacity, threads, use);
    return with_rival<std::uint32_t>(name, capacity, threads, use);
}

} // namespace bench

#endif
