// Calls read the handle by which they are made, and do not write it. Handles in an array share cache lines: if calls
// wrote them, each call would take a line from the other threads. Here the handles lie in a page that cannot be
// written.
#include "kfifo.hpp"
#include "kfifo_many.h"
#include "kfifo_wait.h"

#include <chrono>
#include <csignal>
#include <cstdint>
#include <cstdio>
#include <cstdlib>
#include <new>
#include <string>
#include <sys/mman.h>
#include <unistd.h>
#include <vector>

namespace {

int failures = 0;

void expect(bool holds, const char *what) {
    if (!holds) {
        std::fprintf(stderr, "%s\n", what);
        failures++;
    }
}

// What the calls that run now are of.
const char *volatile running = "";

void on_write(int) {
    for (const char *text : {"a call writes its handle: ", static_cast<const char *>(running), "\n"})
        if (write(STDERR_FILENO, text, __builtin_strlen(text)) < 0) break;
    _exit(1);
}

// Two handles in a page of their own.
template <typename Handle> class Page {
  public:
    Page() : memory(mmap(nullptr, size, PROT_READ | PROT_WRITE, MAP_PRIVATE | MAP_ANONYMOUS, -1, 0)) {
        if (memory == MAP_FAILED) std::abort();
    }
    ~Page() { munmap(memory, size); }
    Page(const Page &) = delete;
    Handle *place(std::size_t number) { return static_cast<Handle *>(memory) + number; }
    Handle &operator[](std::size_t number) { return *std::launder(place(number)); }
    void protect(const char *what) {
        running = what;
        if (mprotect(memory, size, PROT_READ) != 0) std::abort();
    }
    void unprotect() {
        if (mprotect(memory, size, PROT_READ | PROT_WRITE) != 0) std::abort();
    }

  private:
    static constexpr std::size_t size = 1 << 16; // a multiple of the size of a page, on ARM too
    void *memory;
};

// Handles of C++, which `make` makes.
template <typename Queue> struct Handles : Page<typename Queue::Handle> {
    template <typename Make> explicit Handles(Make make) {
        for (std::size_t i = 0; i < 2; i++) ::new (this->place(i)) typename Queue::Handle(make(i));
    }
    ~Handles() {
        this->unprotect();
        for (std::size_t i = 0; i < 2; i++) (*this)[i].~Handle();
    }
    using Handle = typename Queue::Handle;
};

void values() {
    using Queue = kfifo::ValueQueue<std::string>;
    Queue queue(4, 64, 2);
    Handles<Queue> handles([&](std::size_t) { return queue.handle(); });
    auto &giver = handles[0], &taker = handles[1];
    const std::string copied("copied");
    const std::vector<std::string> words{"one", "two"};
    std::vector<std::string> read;
    auto soon = std::chrono::steady_clock::now() + std::chrono::seconds(60);
    handles.protect("a queue of values in C++");
    expect(giver.give("given") == kfifo::Put::done && giver.give(copied) == kfifo::Put::done, "give");
    expect(giver.emplace(3, 'x') == kfifo::Put::done && giver.give_once("once") == kfifo::Put::done, "emplace");
    expect(giver.give_wait("waits") == kfifo::Put::done && giver.emplace_wait(3, 'y') == kfifo::Put::done, "give_wait");
    expect(giver.give_for("soon", std::chrono::seconds(60)) == kfifo::Put::done, "give_for");
    expect(giver.give_all(words).why == kfifo::Put::done, "give_all");
    expect(giver.len() == 9 && !taker.is_empty(), "len");
    expect(taker.take().value && taker.take_once().value && taker.take_wait().value, "take");
    expect(taker.take_for(std::chrono::seconds(60)).value && taker.take_until(soon).value, "take_for");
    expect(taker.take_up_to(2, read).taken == 2 && taker.take_up_to_wait(2, read).taken == 2, "take_up_to");
    expect(!taker.take().value && taker.take_for(std::chrono::nanoseconds(1)).why == kfifo::Miss::timed_out, "empty");
    giver.finish();
    expect(giver.give("late") == kfifo::Put::finished && taker.take().why == kfifo::Miss::finished, "finished");
}

void items() {
    kfifo::Queue queue(4, 16, 4, KFIFO_LAST, 2);
    Handles<kfifo::Queue> handles([&](std::size_t thread) { return queue.handle(thread); });
    auto &giver = handles[0], &taker = handles[1];
    const std::vector<std::uint32_t> numbers{3, 4};
    std::vector<std::uint32_t> read;
    handles.protect("a queue of items in C++");
    expect(giver.enqueue(1) == kfifo::Put::done && giver.enqueue_once(2) == kfifo::Put::done, "enqueue");
    expect(giver.enqueue_all(numbers).why == kfifo::Put::done && giver.len() == 4, "enqueue_all");
    expect(taker.dequeue().item && taker.dequeue_once().item, "dequeue");
    expect(taker.dequeue_up_to(2, read).taken == 2 && taker.word(0) != 0, "dequeue_up_to");
}

// With KFIFO_DEBUG each call marks its handle of C.
#ifndef KFIFO_DEBUG
void items_in_c() {
    Page<kfifo_handle> handles;
    std::uint32_t item = 0, items[2] = {5, 6};
    std::uint64_t word = 0;
    std::size_t count = 0;
    expect(kfifo_open(4, 16, 4, KFIFO_LAST, handles.place(0), 2) == KFIFO_DONE, "kfifo_open");
    kfifo_handle *giver = handles.place(0), *taker = handles.place(1);
    handles.protect("a queue of items in C");
    expect(kfifo_put(giver, 1) == KFIFO_DONE && kfifo_put_wait(giver, 2, 0) == KFIFO_DONE, "kfifo_put");
    expect(kfifo_enqueue(giver, 3, 0, 100) == KFIFO_DONE, "kfifo_enqueue");
    expect(kfifo_put_all(giver, items, 2, &count) == KFIFO_DONE && count == 2, "kfifo_put_all");
    expect(kfifo_get(taker, &item) == KFIFO_DONE && kfifo_get_wait(taker, &item, 0) == KFIFO_DONE, "kfifo_get");
    expect(kfifo_dequeue(taker, &item, 0, 100) == KFIFO_DONE, "kfifo_dequeue");
    expect(kfifo_get_up_to(taker, items, 2, &count) == KFIFO_DONE && count == 2, "kfifo_get_up_to");
    expect(kfifo_get(taker, &item) == KFIFO_EMPTY && kfifo_word(taker, 0, &word) == KFIFO_DONE, "kfifo_word");
    expect(kfifo_len(taker) == 0 && kfifo_capacity(giver) != 0, "kfifo_len of items");
    handles.unprotect();
    expect(kfifo_abandon(giver, 2) == KFIFO_DONE, "kfifo_abandon of items");
}

void values_in_c() {
    Page<kfifo_handle> handles;
    std::uint64_t value = 0, values[2] = {5, 6};
    void *pointer = nullptr;
    std::size_t count = 0;
    expect(kfifo_open_values(4, 64, handles.place(0), 2) == KFIFO_DONE, "kfifo_open_values");
    kfifo_handle *giver = handles.place(0), *taker = handles.place(1);
    handles.protect("a queue of values in C");
    expect(kfifo_give(giver, 1) == KFIFO_DONE && kfifo_give_wait(giver, 2, 0) == KFIFO_DONE, "kfifo_give");
    expect(kfifo_give_pointer(giver, &value) == KFIFO_DONE, "kfifo_give_pointer");
    expect(kfifo_give_all(giver, values, 2, &count) == KFIFO_DONE && count == 2, "kfifo_give_all");
    expect(kfifo_take(taker, &value) == KFIFO_DONE && kfifo_take_wait(taker, &value, 0) == KFIFO_DONE, "kfifo_take");
    expect(kfifo_take_pointer(taker, &pointer) == KFIFO_DONE, "kfifo_take_pointer");
    expect(kfifo_take_up_to(taker, values, 2, &count) == KFIFO_DONE && count == 2, "kfifo_take_up_to");
    expect(kfifo_take(taker, &value) == KFIFO_EMPTY && kfifo_is_empty(taker), "kfifo_take of an empty queue");
    handles.unprotect();
    expect(kfifo_abandon(giver, 2) == KFIFO_DONE, "kfifo_abandon of values");
}

void cells_in_c() {
    Page<kfifo_handle> handles;
    void *cell = nullptr;
    expect(kfifo_open_cells(4, 64, 16, 8, handles.place(0), 2) == KFIFO_DONE, "kfifo_open_cells");
    kfifo_handle *giver = handles.place(0), *taker = handles.place(1);
    handles.protect("a queue of cells in C");
    expect(kfifo_reserve(giver, &cell) == KFIFO_DONE && kfifo_cancel(giver) == KFIFO_DONE, "kfifo_cancel");
    expect(kfifo_reserve_wait(giver, &cell, 0) == KFIFO_DONE && kfifo_publish(giver) == KFIFO_DONE, "kfifo_publish");
    expect(kfifo_receive(taker, &cell) == KFIFO_DONE && kfifo_release(taker) == KFIFO_DONE, "kfifo_release");
    expect(kfifo_receive_wait(taker, &cell, 0) == KFIFO_TIMED_OUT && kfifo_len(giver) == 0, "kfifo_receive_wait");
    handles.unprotect();
    expect(kfifo_abandon(giver, 2) == KFIFO_DONE, "kfifo_abandon of cells");
}
#endif

} // namespace

int main() {
    std::signal(SIGSEGV, on_write);
    values();
    items();
#ifndef KFIFO_DEBUG
    items_in_c();
    values_in_c();
    cells_in_c();
#endif
    std::puts(failures ? "calls fail by a handle that cannot be written" : "no call writes its handle");
    return failures;
}
