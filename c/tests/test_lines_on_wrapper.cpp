// The lines of kfifo.hpp on its calls.
#include "kfifo.hpp"

#include <cstdio>
#include <string>
#include <thread>

// clang-format off
namespace {

int of_items() {
    auto opened = kfifo::Queue::try_open(1, 8, 1);
    if (!opened.queue) {
        std::fprintf(stderr, "no queue: %s\n", kfifo_status_text(opened.status));
        return 1;
    }
    kfifo::Queue queue(1, 8, 2);
    kfifo::Queue::Handle handle = queue.handle(0);
    std::uint32_t capacity = queue.capacity();
    if (handle.enqueue(7) != kfifo::Put::done) return 1;
    kfifo::Taken taken = handle.dequeue();
    if (taken.item) std::printf("item %u came out\n", static_cast<unsigned>(*taken.item));
    if (handle.enqueue_once(8) == kfifo::Put::busy) std::puts("not put, and a later call may do better");
    kfifo::Put put_at = handle.enqueue_once(9, 0, 100);
    if (put_at != kfifo::Put::done) return 1;
    kfifo::Taken once = handle.dequeue_once();
    if (!once.item && once.why == kfifo::Miss::busy) std::puts("a later call may do better");
    kfifo::Taken taken_at = handle.dequeue_once(0, 100);
    if (taken_at.item != 9U) return 1;
    for (std::uint32_t item : {3U, 4U, 5U, 6U})
        if (handle.enqueue(item) != kfifo::Put::done) return 1;
    auto some = handle.dequeue_up_to(3);
    auto more = handle.dequeue_up_to(64, some.items);
    if (some.items != std::vector<std::uint32_t>{3, 4, 5, 6} || more.taken != 1) return 1;
    if (handle.enqueue(8) != kfifo::Put::done || handle.enqueue(9) != kfifo::Put::done) return 1;
    std::vector<std::uint32_t> numbers{1, 2, 3, 4, 5, 6, 7};
    auto put = handle.enqueue_all(numbers);
    numbers.erase(numbers.begin(), put.rest); // what is not put is still here
    std::size_t waiting = handle.len();
    if (handle.is_empty()) std::puts("no item is there");
    if (waiting != 8 || capacity != 8) return 1;
    std::uint64_t ends = handle.word(0);
    std::vector<std::uint32_t> left = queue.close();
    return numbers.size() != 1 || left.size() != 8 || left[0] != 8 || ends == 0;
}

int of_other_calls() {
    kfifo::ValueQueue<std::string> queue(1, 512, 2); // k, capacity, threads
    std::uint32_t capacity = queue.capacity();
    kfifo::Options options;
    options.grows = 100; // up to 51,200 values
    kfifo::ValueQueue<std::string> growing(1, 512, 2, options);
    if (capacity != growing.capacity()) return 1;
    auto giver = queue.handle(), taker = queue.handle();
    int rests = 0;
    auto rest = [&] { rests++; };
    if (taker.is_empty()) rest();
    kfifo::TakenValue<std::string> none = taker.take();
    if (!none.value) std::puts(kfifo::text(none.why)); // the queue was empty
    auto gave = kfifo::Put::done;
    while (kfifo::may_retry(gave = giver.give("a word"))) std::this_thread::yield();
    std::size_t backlog = taker.len();
    if (rests != 1 || backlog != 1 || giver.len() != 1 || taker.is_empty()) return 1;
    const std::string copied("copied");
    if (giver.give(copied) != kfifo::Put::done) return 1;
    if (giver.emplace(3, 'x') != kfifo::Put::done) return 1;
    if (giver.give_once("once") != kfifo::Put::done) std::puts("it is busy, or refused as by give");
    if (giver.emplace_once(2, 'o') != kfifo::Put::done) std::puts("it is busy, or refused as by give");
    kfifo::TakenValue<std::string> once = taker.take_once();
    if (!once.value && once.why == kfifo::Miss::busy) std::puts("a later call may do better");
    if (giver.give_wait(copied) != kfifo::Put::done) return 1;
    if (giver.emplace_wait(3, 'y') != kfifo::Put::done) return 1;
    if (giver.give_for("soon", std::chrono::seconds(1)) != kfifo::Put::done) return 1;
    auto soon = std::chrono::steady_clock::now() + std::chrono::milliseconds(1);
    if (giver.give_until("by then", soon) != kfifo::Put::done) return 1;
    std::string all;
    for (const std::string &word : taker.take_up_to(8).values) all += word + ' ';
    return gave != kfifo::Put::done || all != "copied xxx once oo copied yyy soon by then ";
}

int of_values() {
    kfifo::ValueQueue<std::string> queue(1, 4, 2);
    auto giver = queue.handle(), taker = queue.handle();
    std::string word = "first", all;
    if (giver.give(std::move(word)) != kfifo::Put::done) std::puts(word.c_str()); // it is still ours
    if (giver.give_wait("second") != kfifo::Put::done) return 1;
    if (giver.emplace_wait(3, 'y') != kfifo::Put::done) return 1;
    if (giver.emplace_for(std::chrono::seconds(1), 3, 'z') != kfifo::Put::done) return 1;
    kfifo::TakenValue<std::string> taken = taker.take();
    if (!taken.value) std::puts(kfifo::text(taken.why));
    if (taken.value != "first" || !taker.take_once().value) return 1;
    if (!taker.take().value || !taker.take().value) return 1;
    auto late = taker.take_for(std::chrono::milliseconds(1));
    auto soon = std::chrono::steady_clock::now() + std::chrono::milliseconds(1);
    auto later = taker.take_until(soon);
    if (late.why != kfifo::Miss::timed_out || later.why != kfifo::Miss::timed_out) return 1;
    if (giver.give("a") != kfifo::Put::done || giver.give("b") != kfifo::Put::done) return 1;
    giver.finish();
    for (std::string value : taker.values()) all += value;
    return all != "ab";
}

int of_many() {
    kfifo::ValueQueue<std::string> queue(1, 64, 2);
    auto giver = queue.handle(), taker = queue.handle();
    std::vector<std::string> words{"one", "two", "three"}, read;
    auto soon = std::chrono::steady_clock::now() + std::chrono::milliseconds(1);
    auto all_gave = giver.give_all_wait(kfifo::moving(words));
    if (all_gave.why != kfifo::Put::done) std::puts(kfifo::text(all_gave.why));
    words = {"four", "five"};
    auto in_time = giver.give_all_for(words, std::chrono::seconds(1));
    auto by_then = giver.give_all_until(words.begin(), words.end(), soon);
    auto few = taker.take_up_to(2).values;
    if (all_gave.given != 3 || in_time.given != 2 || by_then.given != 2 || few.size() != 2) return 1;
    auto batch = taker.take_up_to_for(64, std::chrono::milliseconds(1));
    auto last_batch = taker.take_up_to_until(64, soon);
    if (batch.values.size() != 5 || last_batch.why != kfifo::Miss::timed_out) return 1;
    if (giver.give_all(words).given != 2) return 1;
    giver.finish();
    while (taker.take_up_to_wait(64, read).taken != 0) std::printf("%zu are read\n", read.size());
    return read != words;
}

int until_the_end() {
    kfifo::ValueQueue<std::string> queue(1, 4, 2);
    std::string all;
    {
        auto giver = queue.handle(), taker = queue.handle();
        if (giver.give("a") != kfifo::Put::done || giver.give("b") != kfifo::Put::done) return 1;
        queue.finish();
        while (auto value = taker.take_wait().value) all += *value;
    }
    std::vector<std::string> left = queue.close();
    return all != "ab" || !left.empty();
}

} // namespace
// clang-format on

int main() {
    int failed = of_items() || of_values() || of_other_calls() || of_many() || until_the_end();
    std::puts(failed ? "lines of kfifo.hpp fail" : "the lines of kfifo.hpp on its calls do what they say");
    return failed;
}
