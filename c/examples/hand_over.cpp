// A producer and a consumer of messages of a type of their own; who finds no room or no message sleeps. With k = 1 they
// come out in the order in which they were given.
#include "kfifo.hpp"

#include <cstdio>
#include <exception>
#include <string>
#include <thread>

struct Message {
    int number;
    std::string text;
};

int main() {
    constexpr int messages = 20000;
    kfifo::ValueQueue<Message> queue(1, 512, 2); // k, capacity, threads
    auto put = kfifo::Put::done;
    bool in_order = true;
    int read = 0;

    std::thread producer([&, handle = queue.handle()]() mutable {
        auto end = handle.finish_at_end(); // also by an exception
        for (int number = 1; number <= messages; number++) {
            Message message{number, "message " + std::to_string(number)};
            put = handle.give_wait(std::move(message));
            if (put != kfifo::Put::done) break; // worn: the message is still ours
        }
    });
    std::thread consumer([&, handle = queue.handle()]() mutable {
        auto end = handle.finish_at_end(); // the producer ends too
        try {
            for (Message message : handle.values()) { // until the queue is finished and empty
                read++;
                in_order = in_order && message.number == read && message.text == "message " + std::to_string(read);
            }
        } catch (const std::exception &error) {
            std::fprintf(stderr, "the consumer ended: %s\n", error.what());
        }
    });
    producer.join();
    consumer.join();

    if (put != kfifo::Put::done) std::fprintf(stderr, "the producer ended: %s\n", kfifo::text(put));
    bool is_empty = queue.close().empty();
    std::printf("%d messages were read%s\n", read, in_order ? " in their order" : ", and not in their order");
    return in_order && is_empty && read == messages ? 0 : 1;
}
