// The calls of this repository's queue, step by step, by the places of crates/kfifo_machine/src/place.rt. Enqueues hold
// again, and look at all k slots. Each access is one step of the proved machine, and can be written down as
// `kfifo replay --trace` prints it.
#ifndef BENCH_SCALE_KFIFO_HPP
#define BENCH_SCALE_KFIFO_HPP

#include "machine.hpp"

#include <cstdio>
#include <map>
#include <string>

namespace scale {

// The sizes of a queue, and what can be varied: the word of the first slot, the stride of starts, if it is set, the
// slots that an enqueue looks at, the cycles that a call waits after a lost round, and those that a take waits after a
// round that it lost where head and tail were one segment or neighbours. Where `movers` is not 0, one of so many
// threads moves a given end at once, and the others first wait those cycles of patience, once, and look again.
struct Shape {
    Word k, segments, turns = 65535, first_slot = 1;
    int stride = -1;
    Word probes = 64, wait = 0, wait_near = 0, movers = 0, patience = 0;
};

class Kfifo {
  public:
    enum class Answer { none, done, full, got, empty, busy };

    Kfifo(const Shape &given, int threads)
        : shape(given), stride(given.stride < 0 ? stride_of(threads, given.k) : given.stride % given.k) {
        for (int thread = 0; thread < threads; thread++) starts.push_back(thread * shape.k / threads);
        takes = starts;
    }

    static std::size_t words(const Shape &shape) { return shape.first_slot + shape.k * shape.segments; }

    Task<bool> put(Core core, Word item) {
        Call call{core, "enqueue", item, next_start(starts[core.number]), shape.turns};
        Answer answer = Answer::none;
        for (; answer == Answer::none && call.left > 0; call.left--) {
            answer = co_await enqueue_round(call);
            if (answer == Answer::none) co_await core.pass(shape.wait);
        }
        co_return end(call, answer) == Answer::done;
    }

    Task<bool> get(Core core) {
        Call call{core, "dequeue", 0, next_start(takes[core.number]), shape.turns};
        Answer answer = Answer::none;
        for (; answer == Answer::none && call.left > 0; call.left--) {
            answer = co_await dequeue_round(call);
            if (answer == Answer::none) co_await core.pass(shape.wait);
        }
        co_return end(call, answer) == Answer::got;
    }

    // The steps that were made, and the script of each thread, if they are written down.
    bool is_traced = false;
    std::vector<std::string> steps, scripts;

    // What the steps of a place came to: how many there were, how many of them moved a line, and the cycles of all.
    struct Sum {
        std::uint64_t steps = 0, moved = 0;
        Cycles cycles = 0;
    };
    // By the call, its answer and the place, if they are added up. A step at the ends that loses has a place of its
    // own.
    bool is_summed = false;
    std::map<std::string, Sum> sums;

  private:
    static constexpr std::size_t ENDS = 0;
    static constexpr Word VERSION = Word{1} << 24, ITEM = VERSION - 1, SEGMENT = (Word{1} << 12) - 1;

    struct Made {
        const char *place;
        bool moved, is_lost;
        Cycles cycles;
    };

    struct Call {
        Core core;
        const char *name;
        Word item, start, left; // `left` counts the rounds that are left, this one among them
        bool is_patient = false;
        std::vector<Made> made = {};
    };

    struct Found {
        bool is_slot;
        std::size_t index;
        Word word;
    };

    // An access of a call at a place, which is written down when it is made.
    struct Step {
        Access access;
        Kfifo &queue;
        Call &call;
        const char *place;
        Cycles begun = 0;
        bool await_ready() const { return false; }
        void await_suspend(std::coroutine_handle<> thread) {
            begun = access.machine.now;
            access.await_suspend(thread);
        }
        Word await_resume() {
            const Word found = access.await_resume();
            const bool is_lost = access.kind != Kind::load && found != access.from;
            if (queue.is_traced) queue.write_down(*this, found);
            if (queue.is_summed) call.made.push_back({place, access.moves, is_lost, access.machine.now - begun});
            return found;
        }
    };

    Step load(Call &call, const char *place, std::size_t index) { return {call.core.load(index), *this, call, place}; }
    Step exchange(Call &call, const char *place, std::size_t index, Word from, Word to) {
        return {call.core.compare_exchange(index, from, to), *this, call, place};
    }

    Task<Answer> enqueue_round(Call &call) {
        const Word ends = co_await load(call, "LoadEnds", ENDS);
        const Found found = co_await scan(call, "ScanTail", tail(ends), call.start, false);
        if (co_await load(call, "Recheck", ENDS) != ends) co_return Answer::none;
        if (found.is_slot) co_return co_await fill(call, tail(ends), found);
        if (next(tail(ends)) != head(ends)) {
            if (waits_for_others(call, tail(ends))) {
                co_await call.core.pass(shape.patience);
                co_return Answer::none;
            }
            co_await exchange(call, "MoveTail", ENDS, ends, tail_moved(ends));
            co_return Answer::none;
        }
        if ((co_await scan(call, "ScanHead", head(ends), 0, true)).is_slot)
            co_return co_await load(call, "ConfirmFull", ENDS) == ends ? Answer::full : Answer::none;
        co_await exchange(call, "MoveHead", ENDS, ends, head_moved(ends));
        co_return Answer::none;
    }

    // Puts the item into an empty slot, and makes sure that its segment still is between head and tail.
    Task<Answer> fill(Call &call, Word segment, Found empty) {
        const Word filled = empty.word + VERSION + call.item;
        if (co_await exchange(call, "Put", empty.index, empty.word, filled) != empty.word) co_return Answer::none;
        for (;; call.left--) {
            if (co_await load(call, "ReloadSlot", empty.index) != filled) co_return Answer::done;
            const Word ends = co_await load(call, "ReloadEnds", ENDS);
            if (segment == head(ends)) {
                if (co_await exchange(call, "HoldHead", ENDS, ends, ends + VERSION) == ends) co_return Answer::done;
                if (call.left == 1) break;
            } else if (distance(head(ends), segment) <= distance(head(ends), tail(ends))) {
                co_return Answer::done;
            } else {
                break;
            }
        }
        const Word emptied = filled + VERSION - call.item;
        const bool is_out = co_await exchange(call, "Undo", empty.index, filled, emptied) == filled;
        co_return is_out ? Answer::none : Answer::done;
    }

    Task<Answer> dequeue_round(Call &call) {
        const Word ends = co_await load(call, "LoadEnds", ENDS);
        const Found found = co_await scan(call, "ScanHead", head(ends), call.start, true);
        const bool is_same_segment = head(ends) == tail(ends);
        const Word wait = distance(head(ends), tail(ends)) < 2 ? shape.wait_near : 0;
        if (co_await load(call, "Recheck", ENDS) != ends) {
            co_await call.core.pass(wait);
            co_return Answer::none;
        }
        if (!found.is_slot) {
            if (is_same_segment) co_return Answer::empty;
            if (waits_for_others(call, head(ends))) {
                co_await call.core.pass(shape.patience);
                co_return Answer::none;
            }
            co_await exchange(call, "MoveHead", ENDS, ends, head_moved(ends));
            co_return Answer::none;
        }
        if (is_same_segment && co_await exchange(call, "MoveTail", ENDS, ends, tail_moved(ends)) != ends) {
            co_await call.core.pass(wait);
            co_return Answer::none;
        }
        call.item = found.word & ITEM;
        const Word emptied = found.word + VERSION - call.item;
        const bool is_won = co_await exchange(call, "Take", found.index, found.word, emptied) == found.word;
        co_return is_won ? Answer::got : Answer::none;
    }

    // Whether a call waits before it moves an end, since another thread is to move it.
    bool waits_for_others(Call &call, Word segment) const {
        const Word thread = static_cast<Word>(call.core.number);
        if (shape.movers == 0 || segment % shape.movers == thread % shape.movers) return false;
        call.is_patient = !call.is_patient;
        return call.is_patient;
    }

    // Loads the slots of a segment up to the first filled one, or the first empty one.
    Task<Found> scan(Call &call, const char *place, Word segment, Word start, bool filled) {
        const Word most = filled ? shape.k : std::min(shape.k, shape.probes);
        for (Word offset = 0; offset < most; offset++) {
            const std::size_t index = shape.first_slot + segment * shape.k + (start + offset) % shape.k;
            const Word word = co_await load(call, place, index);
            if (((word & ITEM) != 0) == filled) co_return {true, index, word};
        }
        co_return {};
    }

    // As `RoundRobin::spread` says (crates/kfifo_live/src/round_robin.rt).
    static Word stride_of(int threads, Word k) { return (threads < 3 ? 1 : k % 3 ? 3 : k % 5 ? 5 : 7) % k; }
    Word next_start(Word &start) const { return std::exchange(start, (start + stride) % shape.k); }

    static Word head(Word ends) { return ends >> 12 & SEGMENT; }
    static Word tail(Word ends) { return ends & SEGMENT; }
    Word next(Word segment) const { return (segment + 1) % shape.segments; }
    Word distance(Word from, Word to) const { return (to + shape.segments - from) % shape.segments; }
    static Word ends_of(Word version, Word head, Word tail) { return version << 24 | head << 12 | tail; }
    Word head_moved(Word ends) const { return ends_of((ends >> 24) + 1, next(head(ends)), tail(ends)); }
    Word tail_moved(Word ends) const { return ends_of((ends >> 24) + 1, head(ends), next(tail(ends))); }

    std::string text_of(std::size_t index, Word word) const {
        const std::string value =
            index == ENDS ? std::to_string(head(word)) + "," + std::to_string(tail(word)) : std::to_string(word & ITEM);
        return "(" + value + "," + std::to_string(word >> 24) + ")";
    }

    void write_down(const Step &step, Word found) {
        const Access &access = step.access;
        const std::size_t index = access.word, slot = index - shape.first_slot;
        char front[64];
        std::snprintf(front, sizeof front, "%5zu thread %-2d %s %-11s ", steps.size(), access.core, step.call.name,
                      step.place);
        std::string text = front;
        text += access.kind == Kind::load ? "reads " : "exchanges ";
        if (index == ENDS) {
            text += "ends ";
        } else {
            text += "slot " + std::to_string(slot / shape.k) + "." + std::to_string(slot % shape.k) + " ";
        }
        if (access.kind == Kind::load) {
            text += text_of(index, found);
        } else {
            text += text_of(index, access.from) + " to " + text_of(index, access.to);
            text += found == access.from ? " won" : " lost to " + text_of(index, found);
        }
        steps.push_back(text);
    }

    // Adds up the steps of a call that ends.
    void add(const Call &call, const char *answer) {
        for (const Made &made : call.made) {
            Sum &sum = sums[std::string(call.name) + " " + answer + " " + made.place + (made.is_lost ? "Lost" : "")];
            sum.steps++;
            sum.moved += made.moved;
            sum.cycles += made.cycles;
        }
    }

    // Writes down the answer of a call that ends, and the call into the script of its thread.
    Answer end(const Call &call, Answer answer) {
        if (answer == Answer::none) answer = Answer::busy;
        constexpr const char *NAMES[] = {"", "done", "full", "got ", "empty", "busy"};
        if (is_summed) add(call, answer == Answer::got ? "got" : NAMES[static_cast<int>(answer)]);
        if (!is_traced) return answer;
        steps.back() += std::string(" and returns ") + NAMES[static_cast<int>(answer)];
        if (answer == Answer::got) steps.back() += std::to_string(call.item);
        std::string &script = scripts[call.core.number];
        if (!script.empty()) script += ",";
        script += call.name[0] == 'e' ? "e" + std::to_string(call.item) : "d";
        script += ":" + std::to_string(call.start);
        return answer;
    }

    const Shape shape;
    const Word stride;
    std::vector<Word> starts, takes; // the next start of each thread's enqueues, and of its dequeues
};

} // namespace scale

#endif
