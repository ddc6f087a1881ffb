// The calls of the headers for C++, to be compiled with more warnings than programs are: `make headers`.
#include "kfifo_work.hpp"
#include "kfifo_judge.h"

#include <chrono>
#include <functional>
#include <list>
#include <string>
#include <vector>

// A value that is copied into and out of the queue, since its moves may throw.
struct Copied {
    Copied(const Copied &) {}
    Copied &operator=(const Copied &) { return *this; }
};

template class kfifo::ValueQueue<std::string>;
template class kfifo::ValueQueue<Copied>;
template class kfifo::work::More<std::string>;
template class kfifo::work::More<int>;

// A value with a handle of a queue of such values.
struct Request {
    int question;
    std::optional<kfifo::ValueHandle<Request>> answers;
};

int main() {
    kfifo::Queue items(1, 2, 1);
    kfifo::Queue::Handle of_items = items.handle(0);
    kfifo::ValueQueue<std::string> queue(1, 2, 1);
    auto handle = queue.handle();
    auto soon = std::chrono::steady_clock::now() + std::chrono::milliseconds(1);
    bool is_done = of_items.enqueue(1) == kfifo::Put::done && of_items.dequeue_once(0, 4).item == 1U;
    is_done = is_done && handle.give_for("a", std::chrono::milliseconds(1)) == kfifo::Put::done;
    is_done = is_done && handle.give_until("b", soon) == kfifo::Put::done;
    is_done = is_done && handle.take_for(std::chrono::duration<float>(1)).value && handle.take_until(soon).value;
    const std::string copied("c");
    is_done = is_done && handle.give_wait(copied) == kfifo::Put::done && handle.take().value == "c";
    is_done = is_done && handle.emplace_wait(2U, 'd') == kfifo::Put::done && handle.take().value == "dd";
    is_done = is_done && handle.emplace_for(std::chrono::milliseconds(1), 2U, 'e') == kfifo::Put::done;
    is_done = is_done && handle.take().value == "ee";
    std::vector<std::uint32_t> numbers{1};
    std::list<std::uint32_t> more;
    is_done = is_done && of_items.enqueue_all(numbers).given == 1 && of_items.dequeue_up_to(2, more).taken == 1;
    is_done = is_done && of_items.enqueue_all(more.begin(), more.end()).given == 1 &&
              of_items.dequeue_up_to(2).items == numbers;
    std::vector<std::string> words{"f"};
    is_done = is_done && handle.give_all(words).given == 1 && handle.take_up_to(2, words).taken == 1;
    is_done = is_done && handle.give_all(kfifo::moving(words)).given == 2 && handle.take_up_to(2).values.size() == 2;
    is_done = is_done && handle.give_all_wait(words).given == 2 && handle.take_up_to_wait(2, words).taken == 2;
    words.resize(2);
    is_done = is_done && handle.give_all_for(kfifo::moving(words), std::chrono::milliseconds(1)).given == 2;
    is_done = is_done && handle.take_up_to_for(1, words, std::chrono::milliseconds(1)).taken == 1;
    is_done = is_done && handle.take_up_to_for(1, std::chrono::milliseconds(1)).values.size() == 1;
    is_done = is_done && handle.give_all_until(words.begin(), words.begin() + 1, soon).given == 1;
    is_done = is_done && handle.take_up_to_until(1, soon).values.size() == 1 && !handle.take_up_to_wait(0).why;
    auto opened = kfifo::ValueQueue<Request>::try_open(1, 2, 1);
    is_done = is_done && opened.queue && kfifo::Queue::try_open(0, 2, 1).status == KFIFO_BAD_K;
    is_done = is_done && opened.queue->handle().emplace(Request{1, std::nullopt}) == kfifo::Put::done;
    auto work = [](std::string &&task, kfifo::work::More<std::string> &tasks) {
        if (task.size() < 3) tasks.emplace(task.size() + 1, 'g');
        if (task.size() == 3 && !tasks.is_stopped()) tasks.stop();
    };
    auto report = kfifo::work::run<std::string>(words, work, kfifo::work::Options{2, 16});
    is_done = is_done && report.done() + report.left.size() >= 4 && report.sleeps() <= report.done() + 2;
    return is_done && KFIFO_MAX_THREADS == 64 ? 0 : 1;
}
