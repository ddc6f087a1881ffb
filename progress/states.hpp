// The states of the machine as numbers, of which states that behave alike have one.
#ifndef KFIFO_PROGRESS_STATES_HPP
#define KFIFO_PROGRESS_STATES_HPP

#include "machine.hpp"

#include <algorithm>
#include <cstdint>
#include <numeric>
#include <stdexcept>
#include <utility>

// The threads of a state in the order in which its number has them.
using Order = std::array<uint8_t, MOST_THREADS>;

class States {
  public:
    explicit States(const Machine &given)
        : machine(given), sizes(given.sizes), slot_bits(bits_for(sizes.k)), found_bits(bits_for(sizes.k + 1)),
          segment_bits(bits_for(sizes.segments)) {
        State state = machine.first();
        int all = 0;
        each_field(state, [&](int value, int bits) {
            all += bits;
            return value;
        });
        if (all > 64) throw std::length_error("a number of 64 bits is too short for these sizes");
    }

    // The number of a state. It leaves out what no later step depends on, also the number of the head's segment, and
    // which of several enqueuers, or dequeuers, is which. `order` says whom the number names first, second and so on.
    uint64_t number(const State &given, Order &order) const {
        State state = given;
        turn(state);
        forget(state);
        std::iota(order.begin(), order.end(), 0);
        std::array<uint64_t, MOST_THREADS> codes{};
        for (int i = 0; i < sizes.threads(); i++) codes[i] = plain_number(state.threads[i]);
        const auto less = [&](int a, int b) { return std::pair(codes[a], a) < std::pair(codes[b], b); };
        std::sort(order.begin(), order.begin() + sizes.enqueuers, less);
        std::sort(order.begin() + sizes.enqueuers, order.begin() + sizes.threads(), less);
        const std::array<Thread, MOST_THREADS> threads = state.threads;
        for (int i = 0; i < sizes.threads(); i++) state.threads[i] = threads[order[i]];
        return plain_number(state);
    }

    // The number of a state with its head's segment and its threads as they are, without what no later step depends on.
    uint64_t exact_number(const State &given) const {
        State state = given;
        forget(state);
        return plain_number(state);
    }

    // A state with this number.
    State state(uint64_t number) const {
        State state = machine.first();
        each_field(state, [&](int, int bits) {
            const auto value = static_cast<int>(number & ((uint64_t{1} << bits) - 1));
            number >>= bits;
            return value;
        });
        return state;
    }

  private:
    static constexpr int PLACE_BITS = 4; // for 13 places, and that the thread is idle

    static int bits_for(int values) {
        int bits = 0;
        while (1 << bits < values) bits++;
        return bits;
    }

    template <class Part> uint64_t plain_number(Part &part) const {
        uint64_t number = 0;
        int at = 0;
        each_field(part, [&](int value, int bits) {
            number |= static_cast<uint64_t>(value) << at;
            at += bits;
            return value;
        });
        return number;
    }

    // Replaces each field of a state by what `field` returns for it; `field` also gets how many bits the field takes.
    template <class Field> void each_field(State &state, const Field &field) const {
        state.head = field(state.head, segment_bits);
        state.tail = field(state.tail, segment_bits);
        for (int i = 0; i < sizes.segments * sizes.k; i++) state.is_filled[i] = field(state.is_filled[i], 1);
        for (int i = 0; i < sizes.threads(); i++) each_field(state.threads[i], field);
    }

    template <class Field> void each_field(Thread &thread, const Field &field) const {
        const int place = field(thread.is_calling ? static_cast<int>(thread.place) + 1 : 0, PLACE_BITS);
        thread.is_calling = place != 0;
        thread.place = place == 0 ? Place::LoadEnds : static_cast<Place>(place - 1);
        thread.left = field(thread.left, bits_for(sizes.turns + 1));
        thread.start = field(thread.start, slot_bits);
        thread.offset = field(thread.offset, slot_bits);
        thread.segment = field(thread.segment, segment_bits);
        thread.slot = field(thread.slot + 1, found_bits) - 1;
        thread.is_ends_same = field(thread.is_ends_same, 1);
        thread.is_slot_same = field(thread.is_slot_same, 1);
    }

    // Turns the ring until the head stands at segment 0.
    void turn(State &state) const {
        const int head = state.head;
        const std::array<bool, MOST_SLOTS> is_filled = state.is_filled;
        for (int segment = 0; segment < sizes.segments; segment++) {
            for (int slot = 0; slot < sizes.k; slot++) {
                state.is_filled[machine.index(machine.distance(head, segment), slot)] =
                    is_filled[machine.index(segment, slot)];
            }
        }
        for (int i = 0; i < sizes.threads(); i++) {
            state.threads[i].segment = machine.distance(head, state.threads[i].segment);
        }
        state.tail = machine.distance(head, state.tail);
        state.head = 0;
    }

    void forget(State &state) const {
        for (int i = 0; i < sizes.threads(); i++) forget(state.threads[i]);
    }

    // Forgets what no later step depends on.
    static void forget(Thread &thread) {
        if (!thread.is_calling) thread.start = thread.left = 0;
        if (!needs_ends(thread)) thread.is_ends_same = false;
        if (!needs_slot(thread)) {
            thread.is_slot_same = false;
            thread.slot = NO_SLOT;
        }
        // If its word is another one now, each exchange of it will be lost, whichever slot it is.
        if (thread.slot != NO_SLOT && !thread.is_slot_same) thread.slot = 0;
        if (!needs_segment(thread)) thread.segment = 0;
    }

    static bool needs_ends(const Thread &thread) {
        switch (thread.place) {
        case Place::ScanTail:
        case Place::ScanHead:
        case Place::Recheck:
        case Place::HoldHead:
        case Place::ConfirmFull:
        case Place::MoveHead:
        case Place::MoveTail: return true;
        default: return false;
        }
    }

    static bool needs_slot(const Thread &thread) {
        switch (thread.place) {
        case Place::Recheck: return thread.is_ends_same;
        case Place::MoveTail: return thread.call == Call::dequeue && thread.is_ends_same;
        case Place::Put:
        case Place::ReloadSlot:
        case Place::ReloadEnds:
        case Place::HoldHead:
        case Place::Undo:
        case Place::Take: return true;
        default: return false;
        }
    }

    static bool needs_segment(const Thread &thread) {
        switch (thread.place) {
        case Place::ScanTail:
        case Place::ScanHead:
        case Place::ReloadEnds:
        case Place::HoldHead: return true;
        default: return thread.is_slot_same;
        }
    }

    const Machine machine;
    const Sizes sizes;
    const int slot_bits, found_bits, segment_bits;
};

#endif
