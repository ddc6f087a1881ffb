// The C++ wrapper: what it answers, throws and gives back.
#include "kfifo.hpp"

#include <algorithm>
#include <cstdio>
#include <optional>
#include <thread>

namespace {

int failures = 0;

void expect(bool holds, const char *what) {
    if (!holds) {
        std::fprintf(stderr, "%s\n", what);
        failures++;
    }
}

// Whether a call throws an Error with this status, whose text has this word.
template <typename Call> bool refuses(Call call, kfifo_status status = KFIFO_BAD_CALL, const char *word = "") {
    try {
        call();
    } catch (const kfifo::Error &error) {
        std::string text = error.what();
        return error.status() == status && text.size() > sizeof("kfifo: ") && text.find(word) != text.npos;
    }
    return false;
}

template <typename Call> bool refuses(Call call, const char *word) { return refuses(call, KFIFO_BAD_CALL, word); }

void one_thread() {
    kfifo::Queue queue(1, 2, 1);
    kfifo::Queue::Handle handle = queue.handle(0);
    expect(queue.capacity() == 2 && kfifo::Queue(4, 8, 3, KFIFO_LAST, 1).capacity() == 22, "the capacity");
    expect(!handle.dequeue_once(0, 4).item && handle.dequeue_once(0, 4).why == kfifo::Miss::empty,
           "a new queue is empty");
    expect(handle.enqueue_once(5, 0, 4) == kfifo::Put::done, "the first item");
    expect(handle.enqueue_once(6, 0, 4) == kfifo::Put::done, "the second item");
    expect(handle.enqueue_once(7, 0, 4) == kfifo::Put::full, "a full ring");
    expect(handle.dequeue_once(0, 4).item == 5U, "the oldest item");
    expect((handle.word(2) & KFIFO_MAX_ITEM) == 6 && refuses([&] { (void)handle.word(4); }, "word"), "words");
    expect(refuses([&] { (void)handle.enqueue_once(0, 0, 4); }, "item") &&
               refuses([&] { (void)handle.enqueue_once(1, 1, 4); }, "start"),
           "an item and a start out of range");
    expect(refuses([&] { (void)handle.dequeue_once(0, 0); }, "turns") &&
               refuses([&] { (void)handle.dequeue_once(1, 4); }, "start"),
           "no turns, and a start out of range");
    expect(refuses([&] { (void)handle.enqueue(0); }, "item") &&
               refuses([&] { (void)handle.enqueue(KFIFO_MAX_ITEM + 1); }, "item"),
           "an item out of range");
    expect(refuses([&] { (void)queue.handle(1); }, "thread") &&
               refuses([&] { (void)queue.handle(SIZE_MAX); }, "0 to 0"),
           "a handle that the queue has not");
    expect(handle.enqueue(8) == kfifo::Put::done && handle.enqueue(9) == kfifo::Put::full,
           "a put with nothing to choose");
    expect(handle.dequeue().item == 6U && handle.dequeue().item == 8U, "gets with nothing to choose");
    expect(!handle.dequeue().item && handle.dequeue().why == kfifo::Miss::empty, "an empty queue");
    expect(handle.enqueue(6) == kfifo::Put::done, "an item to be left");
    kfifo::Queue moved(std::move(queue));
    expect(moved.close() == std::vector<std::uint32_t>{6}, "what is left");
    expect(refuses([&] { (void)moved.close(); }, "closed") &&
               refuses([&] { (void)handle.dequeue_once(0, 4); }, "closed"),
           "a closed queue");
    expect(refuses([&] { (void)queue.handle(0); }, "moved") && refuses([&] { (void)queue.close(); }, "moved"),
           "a queue that was moved from");
    expect(refuses([&] { (void)queue.capacity(); }, "moved") && refuses([&] { (void)moved.capacity(); }, "closed"),
           "the capacity of no queue");
    expect(refuses([&] { (void)handle.word(0); }, "closed"), "a word of a closed queue");
    expect(kfifo::may_retry(kfifo::Put::full) && !kfifo::may_retry(kfifo::Put::worn), "which puts are tried again");
    expect(kfifo::may_retry(kfifo::Miss::busy) && !kfifo::may_retry(kfifo::Miss::worn), "which takes are tried again");
    expect(std::string(kfifo::text(kfifo::Put::full)) == "the queue was full", "the text of an answer");
}

// A handle whose queue is gone says so, and touches nothing of it.
void handle_outlives_queue() {
    std::optional<kfifo::Queue> queue(std::in_place, 1, 2, 1);
    kfifo::Queue::Handle handle = queue->handle(0);
    expect(handle.enqueue(7) == kfifo::Put::done, "a put while the queue is there");
    queue.reset();
    expect(refuses([&] { (void)handle.enqueue(7); }, "the queue is closed") &&
               refuses([&] { (void)handle.enqueue_once(0, 5, 0); }, "the queue is closed") &&
               refuses([&] { (void)handle.dequeue(); }, "the queue is closed") &&
               refuses([&] { (void)handle.dequeue_once(0, 1); }, "the queue is closed") &&
               refuses([&] { (void)handle.word(0); }, "the queue is closed"),
           "a handle whose queue is gone");
}

void refusals() {
    expect(refuses([] { kfifo::Queue(0, 2, 1); }, KFIFO_BAD_K) && refuses([] { kfifo::Queue(65, 2, 1); }, KFIFO_BAD_K),
           "k out of range");
    expect(refuses([] { kfifo::Queue(1, 1, 1); }, KFIFO_BAD_SEGMENTS) &&
               refuses([] { kfifo::Queue(1, 1025, 1); }, KFIFO_BAD_SEGMENTS),
           "segments out of range");
    expect(refuses([] { kfifo::Queue(1, 2, 0); }, KFIFO_BAD_THREADS) &&
               refuses([] { kfifo::Queue(1, 2, 65); }, KFIFO_BAD_THREADS),
           "threads out of range");
    expect(refuses([] { kfifo::Queue(1, 2, 2, 9, 1); }, KFIFO_BAD_PROBES) &&
               refuses([] { kfifo::Queue(1, 2, 1, 1, 1); }, KFIFO_BAD_LAST),
           "probes and last out of range");
}

void two_threads() {
    constexpr std::uint32_t items = 3000;
    kfifo::Queue queue(4, 1024, 2);
    std::thread other([handle = queue.handle(1)] {
        for (std::uint32_t item = 1; item <= items; item += 2)
            while (handle.enqueue(item) != kfifo::Put::done) std::this_thread::yield();
    });
    kfifo::Queue::Handle handle = queue.handle(0);
    for (std::uint32_t item = 2; item <= items; item += 2)
        while (handle.enqueue_once(item, item % 4, 1026) != kfifo::Put::done) std::this_thread::yield();
    other.join();
    std::vector<std::uint32_t> left = queue.close(), all(items);
    for (std::uint32_t item = 1; item <= items; item++) all[item - 1] = item;
    std::sort(left.begin(), left.end());
    expect(left == all, "each item that two threads put is given back once");
}

} // namespace

int main() {
    one_thread();
    handle_outlives_queue();
    refusals();
    two_threads();
    std::puts(failures ? "the wrapper fails" : "the wrapper answers, throws and gives back what it should");
    return failures;
}
