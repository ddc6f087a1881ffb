// A queue of items, which are numbers from 1 to KFIFO_MAX_ITEM.
#ifndef KFIFO_ITEMS_HPP
#define KFIFO_ITEMS_HPP

#include "../kfifo.h"
#include "../kfifo_many.h"
#include "../kfifo_wait.h"
#include "answers.hpp"

#include <cstddef>
#include <cstdint>
#include <memory>
#include <optional>
#include <string>
#include <unistd.h>
#include <utility>
#include <vector>

namespace kfifo {

struct [[nodiscard]] Taken {
    std::optional<std::uint32_t> item; // the item, if one was taken
    Miss why = Miss::empty;            // else why not
};

struct [[nodiscard]] TakenItems {
    std::vector<std::uint32_t> items;
    std::optional<Miss> why; // why they are no more; none where they are as many as were asked for
};

// A queue of items. What is left in it when it goes is lost: close it before to have it back.
class Queue {
  public:
    class Handle;

    // k slots in each of these segments, for `threads` threads. Throws Error where there is no such queue, and
    // std::bad_alloc.
    // Cost: all memory of the queue is asked for here, and each word is written.
    //
    //     kfifo::Queue queue(1, 8, 2);
    //     kfifo::Queue::Handle handle = queue.handle(0);
    Queue(std::uint32_t k, std::uint32_t segments, std::size_t threads) : Queue(k, segments, k, KFIFO_LAST, threads) {}

    Queue(std::uint32_t k, std::uint32_t segments, std::uint32_t probes, std::uint64_t last, std::size_t threads)
        : Queue(Closed{}, k, segments, threads) {
        detail::checked(open(k, segments, probes, last));
    }

    // The same two, but they say why there is no such queue, and throw nothing: for builds without exceptions too. In
    // those a program that has no memory for the handles ends.
    // Cost: as that of the constructor.
    //
    //     auto opened = kfifo::Queue::try_open(1, 8, 1);
    //     if (!opened.queue) {
    //         std::fprintf(stderr, "no queue: %s\n", kfifo_status_text(opened.status));
    //         return 1;
    //     }
    static Opened<Queue> try_open(std::uint32_t k, std::uint32_t segments, std::size_t threads) {
        return try_open(k, segments, k, KFIFO_LAST, threads);
    }

    static Opened<Queue> try_open(std::uint32_t k, std::uint32_t segments, std::uint32_t probes, std::uint64_t last,
                                  std::size_t threads) {
        kfifo_status status = KFIFO_NO_MEMORY;
        KFIFO_TRY {
            Queue queue(Closed{}, k, segments, threads);
            status = queue.open(k, segments, probes, last);
            if (status == KFIFO_DONE) return {std::move(queue), status};
        }
        KFIFO_CATCH {}
        return {std::nullopt, status};
    }

    Queue(const Queue &) = delete;
    Queue &operator=(const Queue &) = delete;

    // The handles stay good when the queue moves.
    Queue(Queue &&) noexcept = default;
    Queue &operator=(Queue &&) = delete;

    ~Queue() {
        // These are all handles, each once: nothing is refused.
        if (handles) (void)kfifo_abandon(handles->data(), handles->size());
    }

    // The handle of a thread, from 0: the same one each time. Throws Error where the queue has no such thread.
    // Cost: an atomic step, since handles share the queue.
    //
    //     kfifo::Queue::Handle handle = queue.handle(0);
    [[nodiscard]] Handle handle(std::size_t thread);

    // How many items the queue has room for at least: (segments - 1) * probes + 1, where probes are k unless they are
    // given. Throws Error where it is closed.
    // Cost: a read.
    //
    //     std::uint32_t capacity = queue.capacity();
    [[nodiscard]] std::uint32_t capacity() const {
        std::uint32_t capacity = kfifo_capacity(usable().data());
        if (capacity == 0) detail::raise(Error(KFIFO_BAD_CALL, "the queue is closed"));
        return capacity;
    }

    // Closes the queue and gives back the items that are left. Nothing else may be called after. Throws Error where it
    // is closed already, and std::bad_alloc.
    // Cost: a look at each slot, and it asks for memory.
    //
    //     std::vector<std::uint32_t> left = queue.close();
    [[nodiscard]] std::vector<std::uint32_t> close() {
        std::vector<kfifo_handle> &all = usable();
        std::vector<std::uint32_t> items(slots);
        std::size_t count = 0;
        kfifo_status status = kfifo_close(all.data(), all.size(), items.data(), items.size(), &count);
        if (status == KFIFO_BAD_CALL) detail::raise(Error(status, "the queue is closed"));
        detail::checked(status);
        items.resize(count);
        return items;
    }

  private:
    using Handles = std::shared_ptr<std::vector<kfifo_handle>>;

    // With handles that are still closed.
    struct Closed {};
    Queue(Closed, std::uint32_t k, std::uint32_t segments, std::size_t threads)
        : slots(std::size_t(k) * segments),
          handles(std::make_shared<std::vector<kfifo_handle>>(threads <= 64 ? threads : 65)) {}

    kfifo_status open(std::uint32_t k, std::uint32_t segments, std::uint32_t probes, std::uint64_t last) {
        if (handles->empty()) return KFIFO_BAD_THREADS;
        return kfifo_open(k, segments, probes, last, handles->data(), handles->size());
    }

    std::vector<kfifo_handle> &usable() const {
        if (!handles) detail::raise(Error(KFIFO_BAD_CALL, "the queue was moved from"));
        return *handles;
    }

    std::size_t slots;
    Handles handles;
};

// What a thread makes its calls with. One call at a time; it may go to another thread between two calls. When its Queue
// is closed or gone, a call throws Error.
class Queue::Handle {
  public:
    // Puts an item, 1 to KFIFO_MAX_ITEM: done, full, finished or worn. It does not wait.
    // Cost: as kfifo_put, some 100 instructions without memory or a call of the system.
    //
    //     if (handle.enqueue(7) != kfifo::Put::done) return 1;
    Put enqueue(std::uint32_t item) const { return put(kfifo_put(handle, item), item, 0, 1); }

    // Takes one of the k oldest items: the item, or empty, finished or worn. It does not wait.
    // Cost: as enqueue. One that answers empty has looked at all k slots of a segment.
    //
    //     kfifo::Taken taken = handle.dequeue();
    //     if (taken.item) std::printf("item %u came out\n", static_cast<unsigned>(*taken.item));
    Taken dequeue() const {
        std::uint32_t item = 0;
        return taken(kfifo_get(handle, &item), item, 0, 1);
    }

    // The same, but bounded: at most 65,535 rounds, after which the answer is busy. That comes only where another
    // thread changed the queue in the meantime.
    // Cost: as theirs.
    //
    //     if (handle.enqueue_once(8) == kfifo::Put::busy) std::puts("not put, and a later call may do better");
    //     kfifo::Taken once = handle.dequeue_once();
    //     if (!once.item && once.why == kfifo::Miss::busy) std::puts("a later call may do better");
    Put enqueue_once(std::uint32_t item) const { return put(kfifo_put_once(handle, item), item, 0, 1); }

    Taken dequeue_once() const {
        std::uint32_t item = 0;
        return taken(kfifo_get_once(handle, &item), item, 0, 1);
    }

    // The same, with a start and turns of your own: the scan begins at slot `start`, below k, and makes at most `turns`
    // rounds, at least 1.
    // Cost: as theirs.
    //
    //     kfifo::Put put_at = handle.enqueue_once(9, 0, 100);
    //     kfifo::Taken taken_at = handle.dequeue_once(0, 100);
    Put enqueue_once(std::uint32_t item, std::uint32_t start, std::uint16_t turns) const {
        return put(kfifo_enqueue(handle, item, start, turns), item, start, turns);
    }

    Taken dequeue_once(std::uint32_t start, std::uint16_t turns) const {
        std::uint32_t item = 0;
        return taken(kfifo_dequeue(handle, &item, start, turns), item, start, turns);
    }

    // Puts each item of a range, until the queue takes no more. It does not wait, and wakes a thread for each when it
    // ends. The items are std::uint32_t or a type that it has room for. If one is out of range the call throws Error:
    // then none is in the queue if the range can be read twice, else those before it are. `why` of the result is done,
    // full, finished or worn.
    // Cost: as an enqueue for each item, less some 15 instructions if the range can be read twice.
    //
    //     auto put = handle.enqueue_all(numbers);
    //     numbers.erase(numbers.begin(), put.rest); // what is not put is still here
    template <typename Range> auto enqueue_all(Range &&range) const;
    template <typename Iterator, typename End> GaveAll<Iterator> enqueue_all(Iterator first, End end) const;

    // Takes items until there are `most` or the queue has no more, and puts them at the end of a container, or returns
    // them. It does not wait, and wakes a thread for each when it ends. Where the container throws, its item is still
    // in the queue. `why` of the result is empty, finished or worn, or nothing where it took `most`.
    // Cost: as a dequeue for each item, less some 15 instructions with a std::vector<std::uint32_t>, and one more that
    // finds none where they are fewer.
    //
    //     auto some = handle.dequeue_up_to(3);
    //     auto more = handle.dequeue_up_to(64, some.items);
    template <typename Container> TookUpTo dequeue_up_to(std::size_t most, Container &out) const;
    TakenItems dequeue_up_to(std::size_t most) const;

    // About how many items are in the queue. Calls that run meanwhile are counted or not.
    // Cost: as kfifo_len.
    //
    //     std::size_t waiting = handle.len();
    [[nodiscard]] std::size_t len() const { return kfifo_len(handle); }

    // Whether len() is 0.
    // Cost: as len.
    //
    //     if (handle.is_empty()) std::puts("no item is there");
    [[nodiscard]] bool is_empty() const { return len() == 0; }

    // One word of the queue, as kfifo_word reads it. Throws Error where it has none with this index.
    // Cost: one atomic load.
    //
    //     std::uint64_t ends = handle.word(0);
    [[nodiscard]] std::uint64_t word(std::size_t index) const {
        std::uint64_t word = 0;
        kfifo_status status = kfifo_word(handle, index, &word);
        if (status != KFIFO_DONE) refuse(1, 0, 1, "the queue has no word with this index");
        return word;
    }

  private:
    friend class Queue;
    Handle(Handles of, std::size_t thread) : all(std::move(of)), handle(&(*all)[thread]) {}
    [[noreturn]] void refuse(std::uint32_t item, std::uint32_t start, std::uint16_t turns,
                             const char *otherwise) const {
        if (handle->kind == 0) detail::raise(Error(KFIFO_BAD_CALL, "the queue is closed"));
        const char *why = kfifo_bad_call_text(handle, item, start, turns);
        detail::raise(Error(KFIFO_BAD_CALL, why ? why : otherwise));
    }
    Put put(kfifo_status status, std::uint32_t item, std::uint32_t start, std::uint16_t turns) const {
        if (status == KFIFO_BAD_CALL) refuse(item, start, turns, kfifo_status_text(status));
        return static_cast<Put>(status);
    }
    // The item is read after the call: as an argument beside the call it might be read before.
    Taken taken(kfifo_status status, const std::uint32_t &item, std::uint32_t start, std::uint16_t turns) const {
        if (status == KFIFO_DONE) return {item, Miss::empty};
        if (status == KFIFO_BAD_CALL) refuse(1, start, turns, kfifo_status_text(status));
        return {std::nullopt, static_cast<Miss>(status)};
    }
    Handles all; // they stay where they are when the queue goes, closed
    kfifo_handle *handle;
};

inline Queue::Handle Queue::handle(std::size_t thread) {
    std::vector<kfifo_handle> &all = usable();
    if (thread >= all.size())
        detail::raise(Error(KFIFO_BAD_CALL, "the thread is not 0 to " + std::to_string(all.size() - 1)));
    return Handle(handles, thread);
}

} // namespace kfifo

#endif
