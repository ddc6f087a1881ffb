// Looks for an endless schedule of the queue's machine: one in which threads make steps for ever, and no call ends with
// an answer. It goes through all states of enqueuers and dequeuers that call for ever, each call with any start.
//
//     progress K SEGMENTS ENQUEUERS DEQUEUERS once|again
//     progress K SEGMENTS ENQUEUERS DEQUEUERS once|again STEPS SEED
//     progress K SEGMENTS ENQUEUERS DEQUEUERS once|again stretch TURNS
//
// With `again` an enqueue that loses its hold of the head tries again, with `once` it takes its item out. The first
// form prints how many states there are, and `no endless schedule`, or one: its scripts, as `kfifo replay` takes them,
// and a line for each step up to the cycle and of the cycle. A line is that of `kfifo replay --trace` without its
// number and without the words. The second form prints a schedule of that many steps that is drawn at random. The third
// form prints how many steps, moves of head and tail and changes of words a stretch has at most in which no call ends
// with an answer, or that one is endless. Its calls have that many turns, or any number with 0, and may return Busy,
// which is no answer.
#include "states.hpp"

#include <algorithm>
#include <cstdlib>
#include <iostream>
#include <optional>
#include <random>
#include <stdexcept>
#include <string>
#include <unordered_map>
#include <vector>

namespace {

// A step of a thread. If it begins a call, the call's scans begin at `start`.
struct Move {
    uint8_t thread = 0, start = 0;
};

// Moves from the first state. Those from `cycle` on can be repeated for ever.
struct Schedule {
    std::vector<Move> moves;
    size_t cycle = 0;
};

// What a stretch without an answer has at most: steps, moves of head and tail, and changes of words.
struct Longest {
    uint32_t steps = 0, moves = 0, changes = 0;

    // Counts a step that is made before a stretch.
    void count(const Longest &after, bool is_move, bool is_change) {
        steps = std::max(steps, after.steps + 1);
        moves = std::max(moves, after.moves + is_move);
        changes = std::max(changes, after.changes + is_change);
    }
};

std::string text_of(int number, const Thread &before, const Outcome &outcome) {
    std::string text = "thread " + std::to_string(number);
    text += before.call == Call::enqueue ? " enqueue " : " dequeue ";
    text += PLACES[static_cast<int>(before.place)];
    text += outcome.exchanges ? " exchanges " : " reads ";
    if (outcome.segment < 0) {
        text += "ends";
    } else {
        text += "slot " + std::to_string(outcome.segment) + "." + std::to_string(outcome.slot);
    }
    if (outcome.exchanges) text += outcome.is_won ? " won" : " lost";
    if (outcome.answer != Answer::none)
        text += std::string(" and returns ") + ANSWERS[static_cast<int>(outcome.answer)];
    return text;
}

// Runs a schedule, and prints its scripts and its steps.
void print(const Machine &machine, const Schedule &schedule) {
    State state = machine.first();
    std::vector<std::string> scripts(machine.sizes.threads()), lines;
    int item = 0;
    const auto begin_call = [&](int thread, int start) {
        const std::string call = state.threads[thread].call == Call::enqueue ? "e" + std::to_string(++item) : "d";
        scripts[thread] += (scripts[thread].empty() ? "" : ",") + call + ":" + std::to_string(start);
    };
    for (const Move &move : schedule.moves) {
        const Thread before = state.threads[move.thread];
        if (!before.is_calling) begin_call(move.thread, move.start);
        lines.push_back(text_of(move.thread, before, machine.step(state, move.thread, move.start)));
    }
    std::cout << "scripts";
    for (int i = 0; i < machine.sizes.threads(); i++) {
        if (scripts[i].empty()) begin_call(i, 0);
        std::cout << ' ' << scripts[i];
    }
    std::cout << '\n';
    for (size_t i = 0; i < lines.size(); i++) {
        if (i == schedule.cycle) std::cout << "the cycle\n";
        std::cout << lines[i] << '\n';
    }
}

// All states that can be reached, in the order of their distances from the first one.
class Reached {
  public:
    explicit Reached(const Machine &given) : machine(given), states(given) {
        Order order;
        add(states.number(machine.first(), order), {0, {}});
        for (uint32_t at = 0; at < numbers.size(); at++) {
            const State state = states.state(numbers[at]);
            for (uint8_t thread = 0; thread < machine.sizes.threads(); thread++) {
                const int starts = state.threads[thread].is_calling ? 1 : machine.sizes.k;
                for (uint8_t start = 0; start < starts; start++) {
                    State next = state;
                    machine.step(next, thread, start);
                    add(states.number(next, order), {at, {thread, start}});
                }
            }
        }
    }

    size_t count() const { return numbers.size(); }

    // Returns a schedule that ends in a cycle of steps that return no answer, if there is one.
    std::optional<Schedule> endless() const {
        const std::optional<uint32_t> at = recurring();
        if (!at) return {};
        return unfold(way_to(*at), cycle_at(*at));
    }

    // Returns what a stretch without an answer has at most, or nothing if one is endless. The search is in depth: it
    // comes to a state again, and counts a step, when it knows what can follow the step.
    std::optional<Longest> longest() const {
        enum Mark : uint8_t { unseen, on_path, done };
        std::vector<Mark> marks(count(), unseen);
        std::vector<Longest> most(count());
        std::vector<std::pair<uint32_t, int>> path;
        Longest all;
        for (uint32_t root = 0; root < count(); root++) {
            if (marks[root] == unseen) path.push_back({root, 0});
            while (!path.empty()) {
                auto &[at, tried] = path.back();
                marks[at] = on_path;
                if (tried == machine.sizes.threads() * machine.sizes.k) {
                    marks[at] = done;
                    all.steps = std::max(all.steps, most[at].steps);
                    all.moves = std::max(all.moves, most[at].moves);
                    all.changes = std::max(all.changes, most[at].changes);
                    path.pop_back();
                } else if (const auto step = step_without_answer(at, tried); !step) {
                    tried++;
                } else if (marks[step->to] == on_path) {
                    return {};
                } else if (marks[step->to] == unseen) {
                    path.push_back({step->to, 0});
                } else {
                    most[at].count(most[step->to], step->is_move, step->is_change);
                    tried++;
                }
            }
        }
        return all;
    }

  private:
    struct Step {
        uint32_t to;
        bool is_move, is_change;
    };

    struct From {
        uint32_t state;
        Move move;
    };

    void add(uint64_t number, From from) {
        if (!places.try_emplace(number, static_cast<uint32_t>(numbers.size())).second) return;
        if (numbers.size() == MOST_STATES) throw std::length_error("there are too many states");
        numbers.push_back(number);
        ways.push_back(from);
    }

    // The state after a step of a thread in a call; nothing if the call returns. An idle thread does not matter here:
    // it is idle again only after an answer.
    std::optional<uint32_t> after_without_answer(uint32_t at, int thread) const {
        State state = states.state(numbers[at]);
        if (!state.threads[thread].is_calling) return {};
        if (machine.step(state, thread, 0).answer != Answer::none) return {};
        Order order;
        return places.at(states.number(state, order));
    }

    // One of the steps after a state: of each thread, which begins a call with each start if it is idle. Nothing if
    // the step returns an answer, or is none.
    std::optional<Step> step_without_answer(uint32_t at, int choice) const {
        State state = states.state(numbers[at]);
        const int thread = choice / machine.sizes.k, start = choice % machine.sizes.k;
        if (state.threads[thread].is_calling && start > 0) return {};
        const Outcome outcome = machine.step(state, thread, start);
        if (outcome.answer != Answer::none) return {};
        Order order;
        const bool is_change = outcome.exchanges && outcome.is_won;
        return Step{places.at(states.number(state, order)), is_change && outcome.segment < 0, is_change};
    }

    // Returns a state from which steps without an answer lead back to it, by a search in depth.
    std::optional<uint32_t> recurring() const {
        enum Mark : uint8_t { unseen, on_path, done };
        std::vector<Mark> marks(count(), unseen);
        std::vector<std::pair<uint32_t, int>> path;
        const auto enter = [&](uint32_t at) {
            marks[at] = on_path;
            path.push_back({at, 0});
        };
        for (uint32_t root = 0; root < count(); root++) {
            if (marks[root] == unseen) enter(root);
            while (!path.empty()) {
                auto &[at, tried] = path.back();
                if (tried == machine.sizes.threads()) {
                    marks[at] = done;
                    path.pop_back();
                } else if (const auto next = after_without_answer(at, tried++)) {
                    if (marks[*next] == on_path) return next;
                    if (marks[*next] == unseen) enter(*next);
                }
            }
        }
        return {};
    }

    // Returns a shortest cycle of steps without an answer through a state.
    std::vector<Move> cycle_at(uint32_t at) const {
        std::unordered_map<uint32_t, From> found;
        std::vector<uint32_t> queue = {at};
        for (size_t i = 0; found.count(at) == 0; i++) {
            for (uint8_t thread = 0; thread < machine.sizes.threads(); thread++) {
                const auto next = after_without_answer(queue[i], thread);
                if (next && found.try_emplace(*next, From{queue[i], {thread, 0}}).second) queue.push_back(*next);
            }
        }
        std::vector<Move> moves;
        for (uint32_t end = at; moves.empty() || end != at; end = found.at(end).state) {
            moves.push_back(found.at(end).move);
        }
        return {moves.rbegin(), moves.rend()};
    }

    // Returns a shortest way from the first state to another.
    std::vector<Move> way_to(uint32_t at) const {
        std::vector<Move> moves;
        for (; at != 0; at = ways[at].state) moves.push_back(ways[at].move);
        return {moves.rbegin(), moves.rend()};
    }

    // Returns the schedule of these moves, whose threads are places in the orders of the states. A turn of the cycle
    // may have other threads in its places, and begin at another segment. So the cycle is repeated until both come
    // back.
    Schedule unfold(const std::vector<Move> &way, const std::vector<Move> &cycle) const {
        Schedule schedule;
        State state = machine.first();
        const auto make = [&](const std::vector<Move> &moves) {
            for (const Move &move : moves) {
                Order order;
                states.number(state, order);
                schedule.moves.push_back({order[move.thread], move.start});
                machine.step(state, order[move.thread], move.start);
            }
        };
        make(way);
        std::unordered_map<uint64_t, size_t> seen;
        while (seen.try_emplace(states.exact_number(state), schedule.moves.size()).second) make(cycle);
        schedule.cycle = seen.at(states.exact_number(state));
        return schedule;
    }

    static constexpr size_t MOST_STATES = 30'000'000;

    const Machine machine;
    const States states;
    std::vector<uint64_t> numbers;
    std::vector<From> ways;
    std::unordered_map<uint64_t, uint32_t> places;
};

void print_endless(const Machine &machine) {
    const Reached reached(machine);
    std::cout << "states " << reached.count() << '\n';
    if (const auto schedule = reached.endless()) {
        std::cout << "an endless schedule\n";
        print(machine, *schedule);
    } else {
        std::cout << "no endless schedule\n";
    }
}

void print_longest(const Machine &machine) {
    const Reached reached(machine);
    std::cout << "states " << reached.count() << '\n';
    if (const auto longest = reached.longest()) {
        std::cout << "at most " << longest->steps << " steps, " << longest->moves << " moves, " << longest->changes
                  << " changes\n";
    } else {
        std::cout << "an endless schedule\n";
    }
}

// Prints a schedule in which the threads make up to six steps at a time.
void print_drawn(const Machine &machine, int steps, uint64_t seed) {
    std::mt19937_64 random(seed);
    Schedule schedule;
    while (static_cast<int>(schedule.moves.size()) < steps) {
        const auto thread = static_cast<uint8_t>(random() % machine.sizes.threads());
        for (auto left = random() % 6 + 1; left > 0; left--) {
            schedule.moves.push_back({thread, static_cast<uint8_t>(random() % machine.sizes.k)});
        }
    }
    schedule.moves.resize(steps);
    schedule.cycle = schedule.moves.size();
    print(machine, schedule);
}

int number_of(const char *text, int least, int most) {
    char *end = nullptr;
    const long number = std::strtol(text, &end, 10);
    if (end == text || *end != '\0' || number < least || number > most) {
        throw std::invalid_argument(std::string(text) + " is not " + std::to_string(least) + " to " +
                                    std::to_string(most));
    }
    return static_cast<int>(number);
}

bool again_of(const std::string &text) {
    if (text != "once" && text != "again") throw std::invalid_argument(text + " is neither once nor again");
    return text == "again";
}

Sizes sizes_of(char **words) {
    Sizes sizes{};
    sizes.k = number_of(words[0], 1, 4);
    sizes.segments = number_of(words[1], 2, MOST_SLOTS / sizes.k);
    sizes.enqueuers = number_of(words[2], 0, MOST_THREADS);
    sizes.dequeuers = number_of(words[3], sizes.enqueuers == 0, MOST_THREADS - sizes.enqueuers);
    sizes.holds_again = again_of(words[4]);
    return sizes;
}

} // namespace

int main(int count, char **words) {
    if (count != 6 && count != 8) {
        std::cerr << "usage: progress K SEGMENTS ENQUEUERS DEQUEUERS once|again [STEPS SEED | stretch TURNS]\n";
        return 2;
    }
    try {
        Sizes sizes = sizes_of(words + 1);
        const bool is_stretch = count == 8 && std::string(words[6]) == "stretch";
        if (is_stretch) sizes.turns = number_of(words[7], 0, 1'000);
        const Machine machine(sizes);
        if (count == 6) {
            print_endless(machine);
        } else if (is_stretch) {
            print_longest(machine);
        } else {
            print_drawn(machine, number_of(words[6], 1, 10'000), number_of(words[7], 0, 1'000'000'000));
        }
    } catch (const std::exception &fault) {
        std::cerr << "progress: " << fault.what() << '\n';
        return 1;
    }
}
