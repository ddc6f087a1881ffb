// The queue's machine, with versions that never run out, and with any number of rounds or a limited one. A changed word
// never comes back, so what a thread remembers of a word counts only by whether it is still the word. That leaves
// finitely many states.
//
// The places are those of crates/kfifo_machine/src/place.rt, and each step is that of specs/Program.antt there.
#ifndef KFIFO_PROGRESS_MACHINE_HPP
#define KFIFO_PROGRESS_MACHINE_HPP

#include <array>

enum class Call { enqueue, dequeue };

enum class Place {
    LoadEnds,
    ScanTail,
    Recheck,
    Put,
    ReloadSlot,
    ReloadEnds,
    HoldHead,
    Undo,
    ScanHead,
    ConfirmFull,
    MoveHead,
    MoveTail,
    Take
};
constexpr const char *PLACES[] = {"LoadEnds",   "ScanTail", "Recheck", "Put",      "ReloadSlot",
                                  "ReloadEnds", "HoldHead", "Undo",    "ScanHead", "ConfirmFull",
                                  "MoveHead",   "MoveTail", "Take"};

enum class Answer { none, done, full, got, empty };
constexpr const char *ANSWERS[] = {"", "done", "full", "got", "empty"};

struct Sizes {
    int k, segments, enqueuers, dequeuers;
    bool holds_again;
    int turns = 0; // of each call; 0 for any number of rounds

    int threads() const { return enqueuers + dequeuers; }
};

constexpr int MOST_THREADS = 4, MOST_SLOTS = 16, NO_SLOT = -1;

// A thread, which calls for ever, and what it remembers.
struct Thread {
    Call call = Call::enqueue;
    bool is_calling = false;
    Place place = Place::LoadEnds; // the step that it makes next
    int left = 0;                  // the rounds that its call has, this one among them; 0 for any number
    int start = 0;                 // the slot at which its scans begin
    int offset = 0;                // how many slots its scan has seen
    int segment = 0;               // the segment that it scans, or that of its slot
    int slot = NO_SLOT;            // the slot at which its scan stopped
    bool is_ends_same = false;     // whether the ends word is still the one that it remembers
    bool is_slot_same = false;     // whether its slot's word is
};

struct State {
    int head = 0, tail = 0;
    std::array<bool, MOST_SLOTS> is_filled{};
    std::array<Thread, MOST_THREADS> threads{};
};

// What a step did. It loaded or exchanged the ends word, or a slot where `segment` is not negative.
struct Outcome {
    bool exchanges = false, is_won = false;
    int segment = -1, slot = -1;
    Answer answer = Answer::none;
};

class Machine {
  public:
    explicit Machine(const Sizes &given) : sizes(given) {}

    State first() const {
        State state;
        for (int i = sizes.enqueuers; i < sizes.threads(); i++) state.threads[i].call = Call::dequeue;
        return state;
    }

    // Makes the next step of a thread. An idle one begins a call whose scans begin at `start`.
    Outcome step(State &state, int thread, int start) const {
        Thread &me = state.threads[thread];
        if (!me.is_calling) {
            me.is_calling = true;
            me.left = sizes.turns;
            me.start = start;
        }
        return me.call == Call::enqueue ? enqueue(state, me) : dequeue(state, me);
    }

    int next(int segment) const { return (segment + 1) % sizes.segments; }
    int distance(int from, int to) const { return (to + sizes.segments - from) % sizes.segments; }
    int index(int segment, int slot) const { return segment * sizes.k + slot; }

    const Sizes sizes;

  private:
    Outcome enqueue(State &state, Thread &me) const;
    Outcome dequeue(State &state, Thread &me) const;
    Outcome make_room(State &state, Thread &me) const;
    void enqueue_rechecked(const State &state, Thread &me) const;
    Answer dequeue_rechecked(const State &state, Thread &me) const;
    Answer placed(const State &state, Thread &me) const;
    bool scan(const State &state, Thread &me, int start, bool filled, Outcome &outcome) const;

    // Loads the ends word, and begins the scan of the tail's or the head's segment.
    Outcome load_ends(Thread &me, int segment, Place scan) const {
        me.is_ends_same = true;
        begin_scan(me, segment, scan);
        return {};
    }

    static void begin_scan(Thread &me, int segment, Place scan) {
        me.segment = segment;
        me.offset = 0;
        me.slot = NO_SLOT;
        me.is_slot_same = false;
        me.place = scan;
    }

    // Loads the slot again, from which a dequeue may have taken the item.
    static Outcome reload_slot(Thread &me) {
        Outcome outcome{false, false, me.segment, me.slot, Answer::none};
        if (me.is_slot_same) {
            me.place = Place::ReloadEnds;
        } else {
            outcome.answer = end(me, Answer::done);
        }
        return outcome;
    }

    // The round ends, and the next one begins. After the last one the call returns Busy, which is no answer here.
    static void again(Thread &me) {
        if (me.left == 1) {
            end(me, Answer::none);
        } else {
            lose_round(me);
            me.place = Place::LoadEnds;
        }
    }

    static void lose_round(Thread &me) {
        if (me.left > 0) me.left--;
    }

    // The call ends.
    static Answer end(Thread &me, Answer answer) {
        me.is_calling = false;
        me.place = Place::LoadEnds;
        return answer;
    }

    // Tries to exchange the ends word. Returns whether that was won, in which case nobody remembers the new word.
    static bool exchange_ends(State &state, const Thread &me, Outcome &outcome) {
        outcome.exchanges = true;
        outcome.is_won = me.is_ends_same;
        if (outcome.is_won) {
            for (Thread &thread : state.threads) thread.is_ends_same = false;
        }
        return outcome.is_won;
    }

    // Tries to exchange the word of a thread's slot. Returns whether that was won.
    bool exchange_slot(State &state, const Thread &me, bool filled, Outcome &outcome) const {
        outcome = {true, me.is_slot_same, me.segment, me.slot, Answer::none};
        if (outcome.is_won) {
            const int segment = me.segment, slot = me.slot;
            for (Thread &thread : state.threads) {
                if (thread.segment == segment && thread.slot == slot) thread.is_slot_same = false;
            }
            state.is_filled[index(segment, slot)] = filled;
        }
        return outcome.is_won;
    }
};

// Loads the next slot of a scan for an empty or a filled slot. Returns whether the scan is at its end.
inline bool Machine::scan(const State &state, Thread &me, int start, bool filled, Outcome &outcome) const {
    const int slot = (start + me.offset) % sizes.k;
    outcome.segment = me.segment;
    outcome.slot = slot;
    me.offset++;
    if (state.is_filled[index(me.segment, slot)] == filled) {
        me.slot = slot;
        me.is_slot_same = true;
    }
    const bool is_end = me.slot != NO_SLOT || me.offset == sizes.k;
    if (is_end) me.offset = 0;
    return is_end;
}

inline Outcome Machine::enqueue(State &state, Thread &me) const {
    Outcome outcome;
    switch (me.place) {
    case Place::LoadEnds: return load_ends(me, state.tail, Place::ScanTail);
    case Place::ScanTail:
        if (scan(state, me, me.start, false, outcome)) me.place = Place::Recheck;
        break;
    case Place::Recheck: enqueue_rechecked(state, me); break;
    case Place::Put:
        if (exchange_slot(state, me, true, outcome)) {
            me.is_slot_same = true;
            me.place = Place::ReloadSlot;
        } else {
            again(me);
        }
        break;
    case Place::ReloadSlot: return reload_slot(me);
    case Place::ReloadEnds: outcome.answer = placed(state, me); break;
    case Place::HoldHead:
        if (exchange_ends(state, me, outcome)) {
            outcome.answer = end(me, Answer::done);
        } else if (sizes.holds_again && me.left != 1) {
            lose_round(me);
            me.place = Place::ReloadSlot;
        } else {
            me.place = Place::Undo;
        }
        break;
    case Place::Undo:
        if (exchange_slot(state, me, false, outcome)) {
            again(me);
        } else {
            outcome.answer = end(me, Answer::done);
        }
        break;
    default: return make_room(state, me);
    }
    return outcome;
}

// The steps of an enqueue that found no empty slot.
inline Outcome Machine::make_room(State &state, Thread &me) const {
    Outcome outcome;
    switch (me.place) {
    case Place::ScanHead:
        if (scan(state, me, 0, true, outcome)) me.place = me.slot == NO_SLOT ? Place::MoveHead : Place::ConfirmFull;
        break;
    case Place::ConfirmFull:
        if (me.is_ends_same) {
            outcome.answer = end(me, Answer::full);
        } else {
            again(me);
        }
        break;
    case Place::MoveHead:
        if (exchange_ends(state, me, outcome)) state.head = next(state.head);
        again(me);
        break;
    case Place::MoveTail:
        if (exchange_ends(state, me, outcome)) state.tail = next(state.tail);
        again(me);
        break;
    default: break;
    }
    return outcome;
}

inline void Machine::enqueue_rechecked(const State &state, Thread &me) const {
    if (!me.is_ends_same) return again(me);
    if (me.slot != NO_SLOT) {
        me.place = Place::Put;
    } else if (next(state.tail) == state.head) {
        begin_scan(me, state.head, Place::ScanHead);
    } else {
        me.place = Place::MoveTail;
    }
}

// What follows the load of the ends word by an enqueue whose item is in its slot.
inline Answer Machine::placed(const State &state, Thread &me) const {
    if (me.segment == state.head) {
        me.is_ends_same = true;
        me.place = Place::HoldHead;
    } else if (distance(state.head, me.segment) <= distance(state.head, state.tail)) {
        return end(me, Answer::done);
    } else {
        me.place = Place::Undo;
    }
    return Answer::none;
}

inline Outcome Machine::dequeue(State &state, Thread &me) const {
    Outcome outcome;
    switch (me.place) {
    case Place::LoadEnds: return load_ends(me, state.head, Place::ScanHead);
    case Place::ScanHead:
        if (scan(state, me, me.start, true, outcome)) me.place = Place::Recheck;
        break;
    case Place::Recheck: outcome.answer = dequeue_rechecked(state, me); break;
    case Place::MoveTail:
        if (exchange_ends(state, me, outcome)) {
            state.tail = next(state.tail);
            me.place = Place::Take;
        } else {
            again(me);
        }
        break;
    case Place::Take:
        if (exchange_slot(state, me, false, outcome)) {
            outcome.answer = end(me, Answer::got);
        } else {
            again(me);
        }
        break;
    case Place::MoveHead:
        if (exchange_ends(state, me, outcome)) state.head = next(state.head);
        again(me);
        break;
    default: break;
    }
    return outcome;
}

inline Answer Machine::dequeue_rechecked(const State &state, Thread &me) const {
    if (!me.is_ends_same) {
        again(me);
    } else if (me.slot != NO_SLOT) {
        me.place = state.tail == state.head ? Place::MoveTail : Place::Take;
    } else if (state.tail == state.head) {
        return end(me, Answer::empty);
    } else {
        me.place = Place::MoveHead;
    }
    return Answer::none;
}

#endif
