// The rounds: they are drawn, played on a queue and judged, until the time is up or one has a fault.
#ifndef KFIFO_TEST_CONDUCTOR_HPP
#define KFIFO_TEST_CONDUCTOR_HPP

#include "../kfifo_judge.h"
#include "design.hpp"
#include "interface.hpp"
#include "log.hpp"
#include "machine.hpp"
#include "shared_memory.hpp"
#include "subject.hpp"
#include "threads.hpp"
#include "verdict.hpp"

#include <algorithm>
#include <atomic>
#include <cstddef>
#include <cstdint>
#include <ctime>
#include <exception>
#include <functional>
#include <iterator>
#include <memory>
#include <mutex>
#include <pthread.h>
#include <string>
#include <vector>

namespace kfifo::checking {

class Conductor {
  public:
    Conductor(const Settings &of, const Maker &by, const SharedMemory &to)
        : settings(of), options(of.options), make(by), memory(to), board(to.board()), allowed(processors()),
          clock(allowed), random(of.seed), timers(of.threads), crew(of.threads) {
        board.has_ticks = clock.has_ticks();
        note_clock(board.lanes[of.threads]);
    }
    // A queue that was found faulty is left as it is: its destructor could crash, and nobody would see the report.
    ~Conductor() {
        run_on(allowed);
        for (Kept &kept : queues) leave(kept.queue.release());
    }

    void run() {
        began = nanoseconds();
        while (board.ended == Ended::not_yet && !is_over()) {
            const unsigned count = play();
            if (board.ended == Ended::not_yet) judge(count);
        }
        if (board.ended != Ended::not_yet) return;
        for (Kept &kept : queues) destroy(kept);
        board.end(Ended::in_time);
    }

  private:
    // A queue is kept for many rounds: some faults need many calls before, as an index that overflows.
    struct Kept {
        unsigned capacity = 0, rounds = 0;
        std::uint32_t next_item = 1;
        std::unique_ptr<Instance> queue;
    };

    // Something still leads to the queue, so that a sanitizer reports no leak.
    static void leave(Instance *queue) {
        static std::mutex mutex;
        static std::vector<Instance *> *const left = new std::vector<Instance *>;
        const std::lock_guard<std::mutex> guard(mutex);
        if (queue != nullptr) left->push_back(queue);
    }

    bool is_over() const noexcept {
        if (played == 0) return false;
        return double(nanoseconds() - began) >= options.seconds * 1e9 || (options.rounds && played >= *options.rounds);
    }

    // Plays some rounds, at first one and then more, and returns how many.
    unsigned play() {
        unsigned count = 0;
        while (count < SLOTS && count <= played / 2 && !is_over() && board.ended == Ended::not_yet) {
            is_first = count == 0;
            play_round(count++);
        }
        return count;
    }

    void play_round(unsigned index) {
        Slot &slot = board.slots[index];
        slot.design = draw();
        slot.number = ++played;
        std::fill(std::begin(slot.complete), std::end(slot.complete), 0);
        slot.state = SlotState::playing;
        Kept &kept = kept_for(slot.design);
        if (!is_ready(kept, slot.design)) return void(board.end(Ended::threw));
        barrier.reset();
        started = nanoseconds();
        const std::function<void(unsigned)> job = [&](unsigned thread) { take_part(index, thread, kept); };
        crew.run(slot.design.threads, job, slot.design.busy);
        kept.next_item += slot.design.threads * settings.room;
        kept.rounds++;
        if (board.has_note) return void(board.end(Ended::threw));
        drain(index, kept);
        if (board.has_note) return void(board.end(Ended::threw));
        slot.state = SlotState::played;
        board.pulse++;
    }

    Design draw() {
        Design design;
        design.one_producer = options.one_producer;
        design.one_consumer = options.one_consumer;
        design.threads = random.one_of(thread_counts(options));
        design.calls = random.one_of(call_counts(options));
        design.capacity = random.one_of(options.capacities);
        if (!settings.takes_capacity) design.capacity = 0;
        design.mix = Mix(random.below(6));
        if (design.mix == Mix::half_full)
            design.filled = (design.capacity ? design.capacity : FILLED_WITHOUT_CAPACITY) / 2;
        design.pauses = random.below(4) == 0;
        design.pinned = random.below(2) == 0;
        design.signals = random.below(4) == 0 && options.signals;
        design.seed = random.next();
        // On a busy machine threads wait long before a round, and the one that shares a processor with another program
        // even longer if it is pinned to it.
        if (busy_rounds > 0) {
            busy_rounds--;
            design.busy = true;
            design.pinned = false;
            design.calls = most(call_counts(options));
        }
        return design;
    }

    Kept &kept_for(const Design &design) {
        auto kept =
            std::find_if(queues.begin(), queues.end(), [&](const Kept &it) { return it.capacity == design.capacity; });
        if (kept != queues.end()) return *kept;
        queues.emplace_back();
        queues.back().capacity = design.capacity;
        return queues.back();
    }

    // Makes a new queue where there is none, or the old one has served its time. False where the maker throws.
    bool is_ready(Kept &kept, const Design &design) {
        const std::uint32_t items = design.threads * settings.room;
        if (kept.queue && kept.rounds < ROUNDS_OF_A_QUEUE && kept.next_item <= MAX_ITEM - items) return true;
        destroy(kept);
        set_doing(Doing::making);
        const bool is_made = completes([&] { kept.queue = make(design.capacity, settings.threads); }, "the maker");
        set_doing(Doing::nothing);
        return is_made;
    }

    void destroy(Kept &kept) {
        set_doing(Doing::destroying);
        kept.queue.reset();
        set_doing(Doing::nothing);
        kept.rounds = 0;
        kept.next_item = 1;
    }

    void set_doing(Doing what) noexcept { board.lanes[settings.threads].now = doing(what, 0, 0, played); }

    static void note_clock(Lane &lane) noexcept {
        clockid_t own{};
        if (pthread_getcpuclockid(pthread_self(), &own) != 0) return;
        lane.clock = int(own);
        lane.has_clock = true;
    }

    // What a thread does in a round.
    void take_part(unsigned index, unsigned thread, Kept &kept) {
        Slot &slot = board.slots[index];
        const Design &design = slot.design;
        note_clock(board.lanes[thread]);
        run_on(design.pinned ? std::vector<int>{allowed[thread % allowed.size()]} : allowed);
        Random own(design.seed + std::uint64_t(thread) * 0x632be59bd9b4e019);
        const Task task{design, thread, kept.next_item + thread * settings.room, options.repeated.value_or(0)};
        Log log(board.lanes[thread], memory.log(index, thread), clock, thread, slot.number);
        std::uint32_t used = 0;
        const std::string who = "thread " + std::to_string(thread);
        const bool is_filled = completes([&] { used = kept.queue->fill(log, task, own); }, who);
        barrier.wait(design.threads, design.busy);
        if (thread == 0) note_wait(design);
        if (design.signals) timers[thread].arm(own);
        if (is_filled) completes([&] { kept.queue->work(log, task, own, used); }, who);
        if (design.signals) timers[thread].disarm();
        slot.complete[thread] = log.length();
    }

    // Whether a call returns. If an exception comes out of it, its text is kept.
    template <class Call> bool completes(Call call, const std::string &who) noexcept {
        try {
            call();
            return true;
        } catch (const std::exception &thrown) {
            board.write_note(who + ": " + thrown.what());
        } catch (...) {
            board.write_note(who + ": something that is no std::exception");
        }
        return false;
    }

    // Looks whether threads had to wait long for each other, though each could have had a processor of its own. The
    // first round after a judgement does not count, since threads may have slept.
    void note_wait(const Design &design) noexcept {
        if (is_first || design.busy || design.threads > allowed.size()) return;
        waits++;
        long_waits += nanoseconds() - started > 500000;
        if (waits < 16) return;
        if (long_waits >= 8) busy_rounds = 64;
        waits = long_waits = 0;
    }

    // Thread 0 takes what is left, so that a lost item shows, and no item is left to a later round.
    void drain(unsigned index, Kept &kept) {
        Slot &slot = board.slots[index];
        const unsigned lane = settings.threads;
        bool is_empty = false;
        {
            Log log(board.lanes[lane], memory.log(index, lane), clock, 0, slot.number);
            completes([&] { is_empty = kept.queue->drain(log, settings.drained); }, "thread 0");
            slot.complete[lane] = log.length();
        }
        if (!is_empty && !board.has_note) destroy(kept);
    }

    // Judges the rounds that were played, several at a time.
    void judge(unsigned count) {
        std::atomic<unsigned> next{0};
        const unsigned judges = std::min({unsigned(allowed.size()), settings.threads, count});
        crew.run(
            judges,
            [&](unsigned) {
                for (unsigned index = next++; index < count; index = next++) judge_round(index);
            },
            busy_rounds > 0);
        for (unsigned index = 0; index < count; index++) {
            Slot &slot = board.slots[index];
            const auto verdict = kfifo_judge_status(slot.verdict.load());
            board.rounds++;
            for (std::uint32_t complete : slot.complete) board.calls += complete;
            board.undecided += verdict == KFIFO_JUDGE_UNDECIDED;
            board.tries = std::max(board.tries.load(), slot.tries.load());
            if (is_bad(verdict, options)) return void(board.end(Ended::bad_round));
            slot.state = SlotState::judged;
            // What an undecided round has left could be held against a later round.
            if (verdict == KFIFO_JUDGE_UNDECIDED)
                for (Kept &kept : queues) destroy(kept);
        }
    }

    void judge_round(unsigned index) {
        Slot &slot = board.slots[index];
        const std::vector<kfifo_judge_call> calls = calls_of(memory, index);
        const Verdict verdict(calls, options);
        slot.verdict = std::uint8_t(verdict.status());
        slot.tries = verdict.tries();
        board.pulse++;
        if (!board.has_got && std::any_of(calls.begin(), calls.end(), has_got)) board.has_got = true;
        if (slot.number % 16 == 1) {
            const std::size_t working = calls.size() - slot.complete[settings.threads];
            board.sampled += working;
            board.overlapping += overlapping(calls, working);
        }
        if (options.k > 1 && slot.number % 64 == 1) find_least(calls);
    }

    static bool has_got(const kfifo_judge_call &call) noexcept { return call.answer == KFIFO_JUDGE_GOT; }

    void find_least(const std::vector<kfifo_judge_call> &calls) {
        kfifo_judge_report report{};
        if (kfifo_least_calls(calls.data(), calls.size(), options.tries, &report) == KFIFO_JUDGE_LEGAL) {
            board.least_rounds++;
            raise(board.least_at_least, static_cast<std::uint32_t>(report.at_least));
            raise(board.least_at_most, report.at_most);
            if (report.at_most == 0) board.least_unknown++;
        }
        kfifo_judge_clear(&report);
    }
    static void raise(std::atomic<std::uint32_t> &most, std::uint32_t to) noexcept {
        std::uint32_t was = most.load();
        while (was < to && !most.compare_exchange_weak(was, to)) continue;
    }

    const Settings &settings;
    const CheckOptions &options;
    const Maker &make;
    const SharedMemory &memory;
    Board &board;
    const ShortSlices slices;
    std::vector<int> allowed;
    Clock clock;
    Random random;
    std::vector<Kept> queues;
    Barrier barrier;
    StallSignal signal; // outlives the timers and the threads
    std::vector<StallTimer> timers;
    std::uint64_t began = 0, started = 0, played = 0;
    unsigned waits = 0, long_waits = 0, busy_rounds = 0;
    bool is_first = true;
    Crew crew;
};

} // namespace kfifo::checking

#endif
