// How many calls a queue makes, and how often cache lines move for it, on cores that are simulated.
//
//     scale rate QUEUE K CAPACITY PRODUCERS CONSUMERS BOTH WORK MICROSECONDS [NAME=VALUE ..]
//     scale steps K SEGMENTS PRODUCERS CONSUMERS BOTH WORK CALLS TURNS FILLED [NAME=VALUE ..]
//     scale waits QUEUE K CAPACITY PRODUCERS CONSUMERS WORK TAKERS_WORK PAUSES MICROSECONDS [NAME=VALUE ..]
//
// Of the threads some only put, some only take, and some alternate both, with that many nanoseconds of work between two
// calls. The first form begins half full, and prints the calls that put or took an item in a microsecond, and the
// transfers of a cache line for each. QUEUE is kfifo, ring, tickets or per-producer. The second form prints the scripts
// of the threads, as `kfifo replay` takes them, and a line for each step of this repository's queue, as `kfifo replay
// --trace` prints it: each thread makes that many calls, the first one some more to fill the queue. The third form
// begins empty, and a taker that finds nothing looks again after a pause, which is twice as long each time, up to that
// many pauses. It prints the values that went through in a microsecond, the transfers for each, and how many are inside
// in the mean; of this repository's queue also, for each place of a call, the steps, the transfers and the cycles of a
// value. A cost of machine.hpp can be set by its name, and `seed` and what Shape of kfifo.hpp can vary.
#include "kfifo.hpp"
#include "queues.hpp"

#include <iostream>
#include <map>
#include <set>
#include <stdexcept>

namespace {

using namespace scale;

constexpr double CYCLES_IN_NANOSECOND = 2.5;

struct Threads {
    int producers, consumers, both;
    Cycles work;
    int count() const { return producers + consumers + both; }
    bool puts(int thread) const { return thread < producers || thread >= producers + consumers; }
    bool takes(int thread) const { return thread >= producers; }
};

// What the words NAME=VALUE at the end of the command line set.
using Settings = std::map<std::string, Word>;
const std::set<std::string> NAMES = {"hit",        "update", "transfer", "shared",    "pause",  "buffer",   "stride",
                                     "first_slot", "probes", "wait",     "wait_near", "movers", "patience", "seed"};

Word set_or(const Settings &settings, const std::string &name, Word otherwise) {
    const auto found = settings.find(name);
    return found == settings.end() ? otherwise : found->second;
}

Costs costs_of(const Settings &settings) {
    const Costs usual;
    return {set_or(settings, "hit", usual.hit),
            set_or(settings, "update", usual.update),
            set_or(settings, "transfer", usual.transfer),
            set_or(settings, "shared", usual.shared),
            set_or(settings, "pause", usual.pause),
            static_cast<int>(set_or(settings, "buffer", static_cast<Word>(usual.buffer)))};
}

template <class Queue> Detached fill(Queue &queue, Core core, Word items) {
    for (Word item = 1; item <= items; item++) co_await queue.put(core, item);
}

// Makes calls until that many are made, and counts those that put or took an item.
template <class Queue>
Detached run_thread(Queue &queue, Core core, Threads threads, std::uint64_t calls, std::uint64_t &count) {
    const bool puts = threads.puts(core.number), takes = threads.takes(core.number);
    // No two threads go in step for long: the loop takes some cycles more or less.
    co_await core.pass(1 + core.machine.random() % 1000);
    for (std::uint64_t call = 0; call < calls; call++) {
        const bool is_put = puts && (!takes || call % 2 == 0);
        const Word item = (core.number + 1) * 65536 + call % 65536; // fill puts 1 to 65,535
        // GCC 12 makes both calls of a conditional expression.
        bool moved;
        if (is_put) {
            moved = co_await queue.put(core, item);
        } else {
            moved = co_await queue.get(core);
        }
        count += moved;
        co_await core.pass(threads.work + 4 + core.machine.random() % 8);
    }
}

template <class Queue>
void print_rate(Machine &machine, Queue &queue, const Threads &threads, Word items, Cycles length) {
    fill(queue, {machine, 0}, items);
    machine.run_until(~Cycles{0});
    std::uint64_t count = 0;
    for (int thread = 0; thread < threads.count(); thread++)
        run_thread(queue, {machine, thread}, threads, ~std::uint64_t{0}, count);
    // First the queue comes to how full it stays.
    machine.run_until(machine.now + length / 2);
    count = machine.transfers = 0;
    const Cycles begin = machine.now;
    machine.run_until(begin + length);
    const double microseconds = static_cast<double>(length) / CYCLES_IN_NANOSECOND / 1000;
    std::cout << static_cast<double>(count) / microseconds << ' '
              << static_cast<double>(machine.transfers) / static_cast<double>(std::max<std::uint64_t>(count, 1))
              << '\n';
}

// Takes, works on what came, and pauses where nothing did.
template <class Queue> Detached take_or_pause(Queue &queue, Core core, Cycles work, Word most, std::uint64_t &count) {
    co_await core.pass(1 + core.machine.random() % 1000);
    for (Word pauses = 1;;) {
        const bool came = co_await queue.get(core);
        if (came) {
            count++;
            pauses = 1;
            co_await core.pass(work + 4 + core.machine.random() % 8);
        } else {
            co_await core.pause(pauses);
            pauses = std::min(2 * pauses, most);
        }
    }
}

// What waiting threads do: the work of a taker on a value, and the most pauses between two of its looks.
struct Waiting {
    Cycles work;
    Word pauses;
};

// How many values went in and came out, and how many were inside at some moments.
struct Flow {
    std::uint64_t given = 0, taken = 0, inside = 0, moments = 0;
};

Detached look_inside(Core core, Flow &flow) {
    for (;; flow.moments++) {
        co_await core.pass(997);
        flow.inside += flow.given - std::min(flow.given, flow.taken);
    }
}

// Prints what the steps of each place came to, for each value.
void print_sums(const Kfifo &queue, double values) {
    for (const auto &[place, sum] : queue.sums)
        std::cout << place << ' ' << static_cast<double>(sum.steps) / values << ' '
                  << static_cast<double>(sum.moved) / values << ' ' << static_cast<double>(sum.cycles) / values << '\n';
}

template <class Queue>
void print_waits(Machine &machine, Queue &queue, const Threads &threads, const Waiting &waiting, Cycles length) {
    constexpr bool is_kfifo = std::is_same_v<Queue, Kfifo>;
    Flow flow;
    for (int thread = 0; thread < threads.count(); thread++) {
        const Core core{machine, thread};
        if (threads.takes(thread))
            take_or_pause(queue, core, waiting.work, waiting.pauses, flow.taken);
        else
            run_thread(queue, core, threads, ~std::uint64_t{0}, flow.given);
    }
    look_inside({machine, 0}, flow);
    machine.run_until(length / 2);
    const std::uint64_t before = flow.taken;
    machine.transfers = flow.inside = flow.moments = 0;
    if constexpr (is_kfifo) queue.is_summed = true;
    machine.run_until(length / 2 + length);
    const double values = static_cast<double>(std::max<std::uint64_t>(flow.taken - before, 1));
    std::cout << values / (static_cast<double>(length) / CYCLES_IN_NANOSECOND / 1000) << ' '
              << static_cast<double>(machine.transfers) / values << ' '
              << static_cast<double>(flow.inside) / static_cast<double>(flow.moments) << '\n';
    if constexpr (is_kfifo) print_sums(queue, values);
}

Shape shape_of(Word k, Word segments, const Settings &settings) {
    Shape shape{k, segments};
    shape.first_slot = set_or(settings, "first_slot", shape.first_slot);
    shape.probes = set_or(settings, "probes", shape.probes);
    shape.wait = set_or(settings, "wait", shape.wait);
    shape.wait_near = set_or(settings, "wait_near", shape.wait_near);
    shape.movers = set_or(settings, "movers", shape.movers);
    shape.patience = set_or(settings, "patience", shape.patience);
    shape.stride = static_cast<int>(set_or(settings, "stride", static_cast<Word>(shape.stride)));
    return shape;
}

Cycles cycles_of(int nanoseconds) { return static_cast<Cycles>(nanoseconds * CYCLES_IN_NANOSECOND); }

// Makes a machine with the queue of this name for so many threads, and uses it.
template <class Use>
void with_queue(const std::string &name, Word k, Word capacity, int threads, const Settings &settings, const Use &use) {
    const auto run = [&](std::size_t size, const auto &made) {
        Machine machine(threads, size, costs_of(settings));
        machine.random.seed(set_or(settings, "seed", 1));
        auto queue = made(machine);
        use(machine, queue);
    };
    if (name == "kfifo") {
        const Shape shape = shape_of(k, capacity / k, settings);
        run(Kfifo::words(shape), [&](Machine &) { return Kfifo(shape, threads); });
    } else if (name == "ring") {
        run(Ring::words(capacity), [&](Machine &machine) { return Ring(machine, capacity); });
    } else if (name == "tickets") {
        run(Tickets::words(capacity), [&](Machine &machine) { return Tickets(machine, capacity); });
    } else if (name == "per-producer") {
        run(PerProducer::words(capacity, threads),
            [&](Machine &machine) { return PerProducer(machine, capacity, threads); });
    } else {
        throw std::invalid_argument("there is no queue " + name);
    }
}

void run_rate(const std::string &name, const std::vector<int> &words, const Settings &settings) {
    const Threads threads{words[2], words[3], words[4], cycles_of(words[5])};
    const Word capacity = words[1];
    with_queue(name, words[0], capacity, threads.count(), settings, [&](Machine &machine, auto &queue) {
        print_rate(machine, queue, threads, capacity / 2, cycles_of(1000) * words[6]);
    });
}

void run_waits(const std::string &name, const std::vector<int> &words, const Settings &settings) {
    const Threads threads{words[2], words[3], 0, cycles_of(words[4])};
    const Waiting waiting{cycles_of(words[5]), static_cast<Word>(words[6])};
    with_queue(name, words[0], words[1], threads.count(), settings, [&](Machine &machine, auto &queue) {
        print_waits(machine, queue, threads, waiting, cycles_of(1000) * words[7]);
    });
}

void print_steps(const std::vector<int> &words, const Settings &settings) {
    Shape shape = shape_of(words[0], words[1], settings);
    const Threads threads{words[2], words[3], words[4], cycles_of(words[5])};
    shape.turns = words[7];
    Machine machine(threads.count(), Kfifo::words(shape), costs_of(settings));
    machine.random.seed(set_or(settings, "seed", 1));
    Kfifo queue(shape, threads.count());
    queue.is_traced = true;
    queue.scripts.resize(threads.count());
    fill(queue, {machine, 0}, words[8]);
    machine.run_until(~Cycles{0});
    std::uint64_t count = 0;
    for (int thread = 0; thread < threads.count(); thread++)
        run_thread(queue, {machine, thread}, threads, words[6], count);
    machine.run_until(~Cycles{0});
    std::cout << "scripts";
    for (const std::string &script : queue.scripts) std::cout << ' ' << script;
    std::cout << '\n';
    for (const std::string &step : queue.steps) std::cout << step << '\n';
}

// Returns the numbers from `begin` on, of which there are `count`, and what is set after them.
std::pair<std::vector<int>, Settings> parsed(const std::vector<std::string> &words, std::size_t begin,
                                             std::size_t count) {
    if (words.size() < begin + count) throw std::invalid_argument("there are too few words");
    std::vector<int> numbers;
    for (std::size_t at = begin; at < begin + count; at++) numbers.push_back(std::stoi(words[at]));
    Settings settings;
    for (std::size_t at = begin + count; at < words.size(); at++) {
        const std::size_t sign = words[at].find('=');
        const std::string name = words[at].substr(0, sign);
        if (sign == std::string::npos || NAMES.count(name) == 0) throw std::invalid_argument("what is " + words[at]);
        settings[name] = std::stoull(words[at].substr(sign + 1));
    }
    return {numbers, settings};
}

} // namespace

int main(int count, char **given) {
    const std::vector<std::string> words(given, given + count);
    try {
        if (count > 2 && words[1] == "rate") {
            const auto [numbers, settings] = parsed(words, 3, 7);
            run_rate(words[2], numbers, settings);
        } else if (count > 2 && words[1] == "waits") {
            const auto [numbers, settings] = parsed(words, 3, 8);
            run_waits(words[2], numbers, settings);
        } else {
            if (count < 2 || words[1] != "steps") throw std::invalid_argument("the first word is rate, steps or waits");
            const auto [numbers, settings] = parsed(words, 2, 9);
            print_steps(numbers, settings);
        }
    } catch (const std::exception &fault) {
        std::cerr << "scale: " << fault.what() << '\n';
        return 2;
    }
}
