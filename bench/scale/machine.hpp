// Cores, each with a thread of its own, and cache lines that move between them. A thread is a coroutine that awaits
// each access to a word. A line is at one core that may write it, or at several that may read it. An access to a line
// that is at its core is a hit; any other waits for a transfer. Transfers of one line follow each other. An access
// takes effect when it ends, so the order in which accesses end is the schedule.
#ifndef BENCH_SCALE_MACHINE_HPP
#define BENCH_SCALE_MACHINE_HPP

#include <algorithm>
#include <coroutine>
#include <cstdint>
#include <cstdlib>
#include <queue>
#include <random>
#include <utility>
#include <vector>

namespace scale {

using Word = std::uint64_t;
using Cycles = std::uint64_t;

constexpr std::size_t WORDS_IN_LINE = 8;
constexpr int MOST_CORES = 64; // a bit of a word says whether a core shares a line
constexpr int NO_CORE = -1;

// In cycles. docs/PERFORMANCE.md says where each number comes from.
struct Costs {
    Cycles hit = 4;        // an access to a line that is at the core
    Cycles update = 18;    // a read-modify-write of such a line
    Cycles transfer = 300; // how long a core waits for a line that no other core wants
    Cycles shared = 75;    // how long a transfer of a line to be read holds up the next one
    Cycles pause = 140;    // a pause instruction
    int buffer = 56;       // how many stores a core can make before the first one is done
};

struct Line {
    int owner = 0;             // the core that may write it
    std::uint64_t sharers = 0; // the cores that may read it, if none may write
    Cycles next_transfer = 0;  // when the next transfer can begin
};

enum class Kind { load, store, compare_exchange, swap, add };

class Machine {
  public:
    Machine(int cores, std::size_t words, const Costs &given)
        : costs(given), memory(words), lines(words / WORDS_IN_LINE + 1), stores_end(cores), stores(cores) {}

    // The machine runs until nobody has an event before `end`.
    void run_until(Cycles end) {
        while (!events.empty() && events.top().at < end) {
            const Event event = events.top();
            events.pop();
            now = event.at;
            event.thread.resume();
        }
    }

    void resume_at(Cycles at, std::coroutine_handle<> thread) { events.push({at, count_events++, thread}); }

    Cycles now = 0;
    std::uint64_t transfers = 0;
    std::mt19937_64 random{1};
    const Costs costs;
    std::vector<Word> memory;

  private:
    friend struct Access;
    friend struct Core;

    struct Event {
        Cycles at;
        std::uint64_t number;
        std::coroutine_handle<> thread;
        // The first event is the greatest one of a priority queue.
        bool operator<(const Event &other) const { return std::pair(at, number) > std::pair(other.at, other.number); }
    };

    Line &line_of(std::size_t word) { return lines[word / WORDS_IN_LINE]; }

    bool is_at(int core, const Line &line, bool writes) const {
        return line.owner == core || (!writes && (line.sharers >> core & 1));
    }

    // Returns when a transfer that is asked for at a time ends, and keeps the line busy.
    Cycles end_of_transfer(Line &line, Cycles asked, bool writes) {
        transfers++;
        const Cycles begin = std::max(asked, line.next_transfer);
        line.next_transfer = begin + (writes ? costs.transfer + costs.update : costs.shared);
        return begin + costs.transfer;
    }

    static void hand_over(Line &line, int core, bool writes) {
        if (writes) {
            line = {core, 0, line.next_transfer};
        } else {
            if (line.owner != NO_CORE) line.sharers = std::uint64_t{1} << line.owner;
            line.sharers |= std::uint64_t{1} << core;
            line.owner = NO_CORE;
        }
    }

    std::vector<Line> lines;
    std::vector<Cycles> stores_end; // of each core: when its buffered stores are done
    std::vector<int> stores;        // and how many they are
    std::priority_queue<Event> events;
    std::uint64_t count_events = 0;
};

// One access, which returns the word that it found.
struct Access {
    Machine &machine;
    int core;
    Kind kind;
    std::size_t word;
    Word from = 0, to = 0;
    bool moves = false; // the line has to come from another core

    bool await_ready() const { return false; }

    void await_suspend(std::coroutine_handle<> thread) {
        const bool writes = kind != Kind::load;
        Line &line = machine.line_of(word);
        // Stores end in their order, and a read-modify-write waits for those before it.
        const Cycles asked = writes ? std::max(machine.now, machine.stores_end[core]) : machine.now;
        moves = !machine.is_at(core, line, writes);
        Cycles end = moves ? machine.end_of_transfer(line, asked, writes) : asked;
        end += writes && kind != Kind::store ? machine.costs.update : machine.costs.hit;
        if (writes) machine.stores_end[core] = end;
        machine.resume_at(end, thread);
    }

    Word await_resume() {
        if (moves) Machine::hand_over(machine.line_of(word), core, kind != Kind::load);
        Word &place = machine.memory[word];
        const Word found = place;
        if (kind == Kind::store || kind == Kind::swap || (kind == Kind::compare_exchange && found == from)) place = to;
        if (kind == Kind::add) place += to;
        return found;
    }
};

struct Pass {
    Machine &machine;
    Cycles cycles;
    bool await_ready() const { return cycles == 0; }
    void await_suspend(std::coroutine_handle<> thread) { machine.resume_at(machine.now + cycles, thread); }
    void await_resume() const {}
};

// A coroutine that nobody awaits.
struct Detached {
    struct promise_type {
        Detached get_return_object() { return {}; }
        std::suspend_never initial_suspend() noexcept { return {}; }
        std::suspend_never final_suspend() noexcept { return {}; }
        void return_void() {}
        void unhandled_exception() { std::abort(); }
    };
};

// What code that runs on a core awaits.
struct Core {
    Machine &machine;
    int number;

    Access load(std::size_t word) const { return {machine, number, Kind::load, word}; }
    Access compare_exchange(std::size_t word, Word from, Word to) const {
        return {machine, number, Kind::compare_exchange, word, from, to};
    }
    Access swap(std::size_t word, Word value) const { return {machine, number, Kind::swap, word, 0, value}; }
    Access fetch_add(std::size_t word, Word more) const { return {machine, number, Kind::add, word, 0, more}; }
    Pass pass(Cycles cycles) const { return {machine, cycles}; }
    Pass pause(Word count = 1) const { return {machine, count * machine.costs.pause}; }
    // The store waits in the core's buffer for its line, and the thread goes on, unless the buffer is full. A load by
    // the same thread does not see it there.
    Pass store(std::size_t word, Word value) const {
        buffered({machine, number, Kind::store, word, 0, value});
        const bool is_full = machine.stores[number] >= machine.costs.buffer;
        return {machine, is_full ? machine.stores_end[number] - machine.now : machine.costs.hit};
    }

  private:
    static Detached buffered(Access access) {
        int &count = access.machine.stores[access.core];
        count++;
        co_await access;
        count--;
    }
};

// A call that another coroutine awaits.
template <class Result> struct [[nodiscard]] Task {
    struct promise_type {
        std::coroutine_handle<> awaiting = std::noop_coroutine();
        Result result{};
        struct Return {
            bool await_ready() noexcept { return false; }
            std::coroutine_handle<> await_suspend(std::coroutine_handle<promise_type> ended) noexcept {
                return ended.promise().awaiting;
            }
            void await_resume() noexcept {}
        };
        Task get_return_object() { return Task{std::coroutine_handle<promise_type>::from_promise(*this)}; }
        std::suspend_always initial_suspend() noexcept { return {}; }
        Return final_suspend() noexcept { return {}; }
        void return_value(Result value) { result = value; }
        void unhandled_exception() { std::abort(); }
    };

    explicit Task(std::coroutine_handle<promise_type> given) : handle(given) {}
    Task(Task &&other) : handle(std::exchange(other.handle, nullptr)) {}
    ~Task() {
        if (handle) handle.destroy();
    }

    bool await_ready() const { return false; }
    std::coroutine_handle<> await_suspend(std::coroutine_handle<> awaiting) {
        handle.promise().awaiting = awaiting;
        return handle;
    }
    Result await_resume() const { return handle.promise().result; }

    std::coroutine_handle<promise_type> handle;
};

} // namespace scale

#endif
