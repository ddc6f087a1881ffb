// A small model of waiting: the steps of kfifo_wait.h, kfifo_many.h and wait.c over a queue that is two counters,
// explored over all interleavings of three threads. None may end with a thread asleep. Then the same with a step left
// out or misplaced: each of these has to be caught.
#include <array>
#include <cstdint>
#include <cstdio>
#include <unordered_set>
#include <vector>

namespace {

enum class Fault {
    none,
    no_second_look,
    word_read_after_look,
    word_not_changed,
    others_seen_before_call,
    not_handed_on,
    end_wakes_one,
    one_woken_for_many,
    others_seen_after_first,
    asleep_before_it_wakes,
    only_wakes_before_sleep,
    first_take_not_counted,
    note_stays_at_announcement,
    note_stays_after_sleep,
    note_removed_before_word_is_read,
    noted_after_change,
    reserve_not_handed_on,
    count
};

// Where a thread is: each is one atomic step.
enum Step : std::uint64_t {
    see_end,       // of a give: whether the queue is finished
    look,          // the give or the take
    see_end_empty, // of a take that found nothing: whether the queue is finished
    last_look,     // the look after that
    announce,      // it says that it waits
    read_word,     // it reads the word that it would sleep on
    remove_note,   // a giver removes the note that one was woken
    sleep,         // it falls asleep if the word is still what it read
    asleep,        //
    retract,       // it says that it no longer waits
    remove_later,  // it removes the note after it slept
    see_others,    // after a call: whether others wait
    change_filled, // the word of takers, before one is woken
    wake_taker,    //
    note_giver,    // it notes that a giver is woken, unless one was that has yet to look (and here for ever)
    change_emptied,
    wake_giver,
    set_end, // it finishes the queue
    end_filled,
    end_takers,
    end_emptied,
    end_givers,
    ended
};

struct Thread {
    Step step;
    bool gives;               // it gives values, else it takes them
    std::uint64_t left;       // how many values it still gives or takes, at most 7
    bool finishes;            // it finishes the queue after its calls
    bool until_end;           // it takes until the queue is finished
    bool is_announced;        // it is among those that wait
    bool is_current;          // the word that it would sleep on is what it read
    bool of_many = false;     // it gives or takes all that is left in one call, or as much as there is room or values
    bool gives_all = false;   // the same, but the call waits for room, and ends when all are given
    bool reserves = false;    // its gives wake a giver only where they waited, as a reserve does
    bool has_slept = false;   // a call that gives all or reserves announced itself before
    bool sees_takers = false; // what it saw of the others
    bool sees_givers = false;
    std::uint64_t done = 0;  // how many values of this call were given or taken, and woke nobody yet
    std::uint64_t wakes = 0; // how many threads of a kind it still wakes

    // What changes of it, in 19 bits.
    std::uint64_t packed() const {
        std::uint64_t bits = step;
        for (bool bit : {until_end, is_announced, is_current, has_slept, sees_takers, sees_givers})
            bits = bits << 1 | bit;
        return ((bits << 3 | left) << 3 | done) << 2 | wakes;
    }
};

// Two segments of k slots, with that many values in the one that takes empty and the one that gives fills. As in the
// queue, a give finds the ring full until the first of them is empty.
struct State {
    std::array<Thread, 3> threads;
    std::uint64_t k, head, tail;
    bool finished = false, giver_woken = false;

    std::uint64_t packed() const {
        std::uint64_t bits = finished << 1 | giver_woken;
        for (const Thread &thread : threads) bits = bits << 19 | thread.packed();
        return (bits << 2 | head) << 2 | tail;
    }
    bool give() {
        if (head == 0 && tail == k) head = k, tail = 0;
        if (tail == k) return false;
        tail++;
        return true;
    }
    bool take() {
        if (head == 0) head = tail, tail = 0;
        if (head == 0) return false;
        head--;
        return true;
    }
    std::uint64_t waiting(bool givers) const {
        std::uint64_t number = 0;
        for (const Thread &thread : threads) number += thread.gives == givers && thread.is_announced;
        return number;
    }
    // The word that takers or givers sleep on changes.
    void change(bool of_givers) {
        for (Thread &thread : threads)
            if (thread.gives == of_givers) thread.is_current = false;
    }
};

class Search {
  public:
    explicit Search(Fault of) : fault(of) {}

    // Whether no interleaving ends with a thread that has not ended.
    bool holds(const State &from) {
        if (!seen.insert(from.packed()).second) return true;
        bool moved = false;
        for (std::size_t which = 0; which < from.threads.size(); which++) {
            for (const State &next : nexts(from, which)) {
                moved = true;
                if (!holds(next)) return false;
            }
        }
        if (moved) return true;
        for (const Thread &thread : from.threads)
            if (thread.step != ended) return false;
        return true;
    }
    std::size_t states() const { return seen.size(); }

  private:
    Fault fault;
    std::unordered_set<std::uint64_t> seen;

    static void leave(Thread &thread) { thread.is_announced = thread.is_current = false; }

    // The next call, or what comes after the last one.
    static void begin(Thread &thread) {
        thread.sees_takers = thread.sees_givers = thread.has_slept = false;
        thread.done = 0;
        if (thread.until_end || thread.left > 0)
            thread.step = thread.gives ? see_end : look;
        else
            thread.step = thread.finishes ? set_end : ended;
    }

    // What the thread does with what it saw of the others.
    void wake_others(Thread &thread) const {
        if (fault == Fault::not_handed_on && thread.gives) thread.sees_givers = false;
        if (thread.sees_takers && thread.gives)
            thread.step = change_filled;
        else if (thread.sees_givers)
            thread.step = note_giver;
        else
            woke(thread);
    }

    // After it woke a taker and a giver: it looks at the others again, where its call was of more values.
    void woke(Thread &thread) const {
        if (thread.wakes > 1) {
            thread.wakes--;
            thread.step = see_others;
        } else {
            thread.wakes = 0;
            if (thread.gives_all && thread.left > 0)
                wait_on(thread);
            else if (fault == Fault::others_seen_after_first && thread.of_many && thread.done == 1 && thread.left > 0)
                go_on(thread, false);
            else
                begin(thread);
        }
    }

    // A call that gives all has woken those who wait for what it has given, and waits for room.
    static void wait_on(Thread &thread) {
        thread.done = 0;
        thread.step = thread.gives ? see_end : look;
    }

    // The next value of a call of many: the library goes on, with no look for the end in between. Behind a value that
    // was waited for, it is another call of the library.
    static void go_on(Thread &thread, bool waited) { thread.step = thread.gives && waited ? see_end : look; }

    // How many threads a call wakes that was of that many values: as many as wait, but one at least is looked for.
    std::uint64_t wakes_of(const State &state, const Thread &thread) const {
        std::uint64_t most = state.waiting(!thread.gives);
        if (thread.done < most) most = thread.done;
        return most > 1 && fault != Fault::one_woken_for_many ? most : 1;
    }

    // After the look of a call: it was done, or found the queue full or empty.
    void looked(Thread &thread, bool is_done) const {
        if (is_done) {
            // It no longer waits a step before it looks at the others, which only makes it wake fewer.
            bool waited = thread.is_announced;
            leave(thread);
            if (!thread.until_end) thread.left--;
            thread.done++;
            if (fault == Fault::first_take_not_counted && thread.of_many && !thread.gives && waited) thread.done = 0;
            if (fault == Fault::only_wakes_before_sleep && thread.gives_all && thread.has_slept) thread.done = 0;
            if (!thread.of_many || thread.left == 0)
                thread.done > 0 ? void(thread.step = see_others) : begin(thread);
            else
                go_on(thread, waited);
            if (fault == Fault::others_seen_before_call) wake_others(thread);
            if (fault == Fault::others_seen_after_first && thread.of_many) {
                if (thread.done == 1)
                    thread.step = see_others;
                else if (thread.left == 0)
                    begin(thread);
            }
        } else if (thread.done > 0 && !(fault == Fault::asleep_before_it_wakes && thread.gives_all)) {
            thread.step = see_others; // the call of many ends where the queue is full or empty, or it waits then
        } else {
            thread.step = !thread.gives ? see_end_empty : thread.is_announced ? sleep : announce;
        }
    }

    // All that may come of waking one of the threads that sleep, or all. One that is no longer asleep is not woken.
    static std::vector<State> wakes(const State &state, bool givers, bool all) {
        std::vector<State> found;
        State everybody = state;
        for (std::size_t i = 0; i < state.threads.size(); i++) {
            if (state.threads[i].step != asleep || state.threads[i].gives != givers) continue;
            found.push_back(state);
            found.back().threads[i].step = everybody.threads[i].step = retract;
        }
        if (found.empty() || all) return {everybody};
        return found;
    }

    std::vector<State> nexts(State state, std::size_t which) const {
        Thread &thread = state.threads[which];
        switch (thread.step) {
        case see_end:
            if (state.finished) {
                leave(thread);
                thread.left = 0;
                thread.step = see_others;
                if (thread.done == 0) begin(thread);
            } else {
                thread.step = look;
                if (fault == Fault::others_seen_before_call) thread.sees_takers = state.waiting(false) > 0;
            }
            return {state};
        case look: looked(thread, thread.gives ? state.give() : state.take()); return {state};
        case see_end_empty:
            thread.step = state.finished ? last_look : thread.is_announced ? sleep : announce;
            return {state};
        case last_look:
            if (state.take()) {
                looked(thread, true);
            } else {
                leave(thread);
                thread.until_end = false;
                thread.left = 0;
                thread.step = ended;
            }
            return {state};
        case announce:
            thread.is_announced = true;
            thread.has_slept = thread.gives_all || thread.reserves;
            thread.step = fault == Fault::note_removed_before_word_is_read && thread.gives ? remove_note : read_word;
            return {state};
        case read_word:
            thread.is_current = true;
            thread.step = thread.gives ? remove_note : look;
            if (fault == Fault::note_removed_before_word_is_read && thread.gives) thread.step = see_end;
            if (fault == Fault::no_second_look) thread.step = sleep;
            return {state};
        case remove_note:
            if (fault != Fault::note_stays_at_announcement) state.giver_woken = false;
            thread.step = fault == Fault::note_removed_before_word_is_read ? read_word : see_end;
            return {state};
        case sleep:
            thread.step = thread.is_current || fault == Fault::word_read_after_look ? asleep : retract;
            return {state};
        case asleep: return {};
        case retract:
            leave(thread);
            thread.step = thread.gives ? remove_later : look;
            return {state};
        case remove_later:
            if (fault != Fault::note_stays_after_sleep) state.giver_woken = false;
            thread.step = see_end;
            return {state};
        case see_others:
            if (thread.wakes == 0) thread.wakes = wakes_of(state, thread);
            thread.sees_takers = thread.gives && state.waiting(false) > 0;
            thread.sees_givers = state.waiting(true) > 0;
            if (thread.reserves && (!thread.has_slept || fault == Fault::reserve_not_handed_on))
                thread.sees_givers = false;
            wake_others(thread);
            return {state};
        case change_filled:
            if (fault != Fault::word_not_changed) state.change(false);
            thread.step = wake_taker;
            return {state};
        case wake_taker:
            thread.sees_takers = false;
            wake_others(thread);
            return wakes(state, false, false);
        case note_giver:
            if (state.giver_woken) {
                woke(thread);
            } else {
                state.giver_woken = fault != Fault::noted_after_change;
                thread.step = change_emptied;
            }
            return {state};
        case change_emptied:
            if (fault != Fault::word_not_changed) state.change(true);
            thread.step = wake_giver;
            return {state};
        case wake_giver:
            if (fault == Fault::noted_after_change) state.giver_woken = true;
            woke(thread);
            return wakes(state, true, false);
        case set_end:
            state.finished = true;
            thread.step = end_filled;
            return {state};
        case end_filled:
            state.change(false);
            thread.step = end_takers;
            return {state};
        case end_takers: thread.step = end_emptied; return wakes(state, false, fault != Fault::end_wakes_one);
        case end_emptied:
            state.change(true);
            thread.step = end_givers;
            return {state};
        case end_givers: thread.step = ended; return wakes(state, true, fault != Fault::end_wakes_one);
        case ended: return {};
        }
        return {};
    }
};

Thread giver(std::uint64_t values, bool finishes = false) {
    return {see_end, true, values, finishes, false, false, false};
}
Thread taker(std::uint64_t values) { return {look, false, values, false, false, false, false}; }
Thread of_many(Thread thread) {
    thread.of_many = true;
    return thread;
}
Thread all_at_once(Thread thread) {
    thread.of_many = thread.gives_all = true;
    return thread;
}
Thread reserver(std::uint64_t values) {
    Thread thread = giver(values);
    thread.reserves = true;
    return thread;
}
Thread taker_until_end() { return {look, false, 0, false, true, false, false}; }
Thread finisher() { return {set_end, true, 0, true, false, false, false}; }

State ring(std::uint64_t k, std::uint64_t values, Thread first, Thread second, Thread third) {
    std::uint64_t head = values < k ? values : k;
    return {{first, second, third}, k, head, values - head};
}

// Where the search begins. Without an end each value that is taken is given, and the other way round.
std::vector<State> beginnings() {
    return {
        ring(1, 0, giver(2), taker(1), taker(1)),
        ring(1, 2, giver(1), giver(1), taker(2)),
        ring(1, 1, giver(3), taker(1), taker(3)),
        ring(2, 4, giver(1), giver(1), taker(2)),
        ring(1, 0, giver(2, true), taker_until_end(), taker_until_end()),
        ring(1, 2, giver(2, true), taker(2), taker_until_end()),
        ring(1, 2, giver(1), giver(2), finisher()),
        ring(1, 0, taker_until_end(), taker_until_end(), finisher()),
        ring(2, 0, of_many(giver(2)), taker(1), taker(1)),
        ring(1, 0, of_many(giver(3)), taker(1), taker(2)),
        ring(2, 4, giver(1), giver(1), of_many(taker(2))),
        ring(1, 2, of_many(giver(2)), giver(1), of_many(taker(3))),
        ring(2, 0, of_many(giver(3)), of_many(taker(2)), taker(1)),
        ring(1, 2, of_many(giver(2, true)), taker_until_end(), of_many(taker(2))),
        ring(1, 0, all_at_once(giver(3)), taker(1), taker(2)),
        ring(1, 2, all_at_once(giver(3)), of_many(taker(2)), taker(3)),
        ring(1, 0, all_at_once(giver(3)), all_at_once(giver(2)), of_many(taker(5))),
        ring(2, 0, all_at_once(giver(3, true)), of_many(taker_until_end()), taker(1)),
        ring(2, 4, reserver(1), reserver(1), taker(2)),
        ring(2, 4, reserver(1), giver(1), taker(2)),
        ring(1, 2, reserver(1), reserver(2), taker(3)),
    };
}

bool holds(Fault fault, std::size_t &states) {
    bool all = true;
    for (const State &from : beginnings()) {
        Search search(fault);
        all = search.holds(from) && all;
        states += search.states();
    }
    return all;
}

} // namespace

int main() {
    std::size_t states = 0, others = 0;
    bool is_right = holds(Fault::none, states);
    int missed = 0, faults = 0;
    for (int number = 1; number < static_cast<int>(Fault::count); number++, faults++) {
        if (!holds(static_cast<Fault>(number), others)) continue;
        std::fprintf(stderr, "fault %d of the model is not caught\n", number);
        missed++;
    }
    if (!is_right) std::fputs("an interleaving of the model ends with a thread asleep\n", stderr);
    std::printf("%zu states of threads that wait: %s; %d faults: %s\n", states,
                is_right ? "none sleeps on" : "a wake-up is lost", faults,
                missed ? "not all are caught" : "each is caught");
    return !is_right || missed;
}
