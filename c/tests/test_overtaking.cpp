// How far values overtake each other near a change of generations, where calls stop at the worst moments. A give that
// found its generation to be the newest stops before it puts its value there. Others go on to the next generation, and
// takes that found the old one empty stop before they take from the new one. Then the give goes on, younger values come
// into the new generation, and the takes get those. Calls stop after a given number of instructions, so this needs no
// luck, and each number is tried, so no moment is left out. The bounds have to be reached, and not passed:
//
// - A take passes over k - 1 older values, and one more for each late give: k - 1 + handles - 1 in all. So the judge
//   finds an order for k + handles - 1, and for no less.
// - A late value is overtaken by one younger value for each take that had found its generation empty: by handles - 1.
#include "kfifo.h"
#include "kfifo_judge.h"
#include <algorithm>
#include <atomic>
#include <csignal>
#include <cstdio>
#include <memory>
#include <thread>
#include <vector>
#include <semaphore.h>
#include <ucontext.h>

namespace {

// How many more instructions a call that follows others makes before its next stop.
#ifdef FEWER
constexpr long STRIDE = 9;
#else
constexpr long STRIDE = 1;
#endif

int failures = 0;

void expect(std::uint64_t is, std::uint64_t wanted, const char *what) {
    if (is == wanted) return;
    std::fprintf(stderr, "%s: %llu, and not %llu\n", what, (unsigned long long)is, (unsigned long long)wanted);
    failures++;
}

// ---- A call that stops ----

// Each begin and each end of a call has a time of its own.
std::atomic<std::uint64_t> now{1};

struct Call {
    std::uint32_t handle = 0;
    bool is_give = false;
    std::uint64_t value = 0; // that it gives, or that it took
    long steps = 0;          // after that many instructions it stops; 0: it does not
    bool has_stopped = false;
    kfifo_status status = KFIFO_BAD_CALL;
    std::uint64_t begins = 0, ends = 0;
    std::uint64_t requests = 0; // for memory
    std::thread thread;
    sem_t is_there, may_go_on; // it has stopped or ended; it may go on after a stop

    Call() {
        sem_init(&is_there, 0, 0);
        sem_init(&may_go_on, 0, 0);
    }
};

void wait_for(sem_t &semaphore) {
    while (sem_wait(&semaphore) != 0) {
    }
}

thread_local Call *stepped = nullptr; // the call that this thread makes
// A thread that stopped within malloc might hold a lock there, for which the others would wait.
thread_local volatile std::sig_atomic_t is_in_memory = 0;
thread_local std::uint64_t requests = 0; // how often this thread has asked for memory

#if defined(__x86_64__) && !defined(KFIFO_TSAN)
constexpr bool CAN_STEP = true;
constexpr greg_t TRAP_FLAG = 0x100; // with it the processor traps after the next instruction

// The thread sends itself the first of these signals. Each further one comes after one instruction more.
void at_instruction(int, siginfo_t *, void *context) {
    greg_t &flags = static_cast<ucontext_t *>(context)->uc_mcontext.gregs[REG_EFL];
    Call *call = stepped;
    bool is_watched = call && call->steps > 0;
    if (is_watched && (is_in_memory || --call->steps > 0)) {
        flags |= TRAP_FLAG;
        return;
    }
    flags &= ~TRAP_FLAG;
    if (!is_watched) return;
    call->has_stopped = true;
    sem_post(&call->is_there);
    wait_for(call->may_go_on);
}
#else
constexpr bool CAN_STEP = false;
void at_instruction(int, siginfo_t *, void *) {}
#endif

void make(Call &call, kfifo_handle *handle) {
    std::uint64_t before = requests;
    stepped = &call;
    call.begins = now++;
    if (call.steps > 0) std::raise(SIGTRAP);
    call.status = call.is_give ? kfifo_give(handle, call.value) : kfifo_take(handle, &call.value);
    stepped = nullptr;
    call.ends = now++;
    call.requests = requests - before;
    if (!call.has_stopped) sem_post(&call.is_there);
}

} // namespace

extern "C" {
void *__real_malloc(std::size_t size);
void *__real_realloc(void *block, std::size_t size);
void __real_free(void *block);

// The linker hands the library's calls of malloc, realloc and free to these.
void *__wrap_malloc(std::size_t size) {
    is_in_memory = 1;
    requests++;
    void *block = __real_malloc(size);
    is_in_memory = 0;
    return block;
}

void *__wrap_realloc(void *block, std::size_t size) {
    is_in_memory = 1;
    void *other = __real_realloc(block, size);
    is_in_memory = 0;
    return other;
}

void __wrap_free(void *block) {
    is_in_memory = 1;
    __real_free(block);
    is_in_memory = 0;
}
}

namespace {

// ---- A queue, and what becomes of its values ----

// When the give and the take of a value began and ended. One that was not given has 0.
struct Value {
    std::uint64_t give_begins = 0, give_ends = 0, take_begins = 0, take_ends = 0;
};

// Whether one value certainly overtook another: given after the give of that had ended, taken before its take began.
bool overtakes(const Value &one, const Value &other) {
    return other.give_ends < one.give_begins && one.take_ends < other.take_begins;
}

// A queue whose generations have few versions, or one that grows, and the values that the test follows.
class Run {
  public:
    Run(std::uint32_t k, std::uint32_t handles) : all(handles), values(1), last(64 * handles) {
        expect(kfifo_open_values_with(k, 8, last, last / 2, 1, all.data(), handles), KFIFO_DONE, "open");
    }
    // It has up to so many generations, and each has versions enough.
    struct Grows {
        std::uint32_t generations;
    };
    Run(std::uint32_t k, std::uint32_t handles, Grows grows) : all(handles), values(1), last(KFIFO_LAST) {
        expect(kfifo_open_values_with(k, 8, last, KFIFO_RESERVE, grows.generations, all.data(), handles), KFIFO_DONE,
               "open");
    }
    ~Run() { expect(kfifo_abandon(all.data(), all.size()), KFIFO_DONE, "abandon"); }

    // A call by this handle begins in a thread of its own, and stops after that many instructions, or ends before.
    std::unique_ptr<Call> begin(std::uint32_t handle, bool is_give, long steps) {
        auto call = std::make_unique<Call>();
        prepare(*call, handle, is_give);
        call->steps = steps;
        call->thread = std::thread([&made = *call, by = &all[handle]] { make(made, by); });
        wait_for(call->is_there);
        return call;
    }

    // It goes on to its end.
    void end(Call &call) {
        if (call.has_stopped) sem_post(&call.may_go_on);
        call.thread.join();
        note(call);
    }

    void give(std::uint32_t handle) { call(handle, true); }
    kfifo_status take(std::uint32_t handle) { return call(handle, false); }

    // Gives a value that is not followed, and takes one.
    void pair(std::uint32_t handle) {
        expect(kfifo_give(&all[handle], 0), KFIFO_DONE, "a give before a take");
        std::uint64_t value = 0, begins = now++;
        expect(kfifo_take(&all[handle], &value), KFIFO_DONE, "a take after a give");
        note_take(value, handle, begins, now++);
    }

    // The handle opens the next generation. It asks for memory in no other call.
    void change(std::uint32_t handle) {
        std::uint64_t before = requests;
        for (std::uint64_t i = 0; i < last && requests == before; i++) pair(handle);
        expect(requests > before, 1, "whether the generation changed");
    }

    // The handle gives until there is no room in the newest generation, and it opens the next one.
    void grow(std::uint32_t handle) {
        std::uint64_t before = requests;
        for (int i = 0; i < 1000 && requests == before; i++) give(handle);
        expect(requests > before, 1, "whether the queue grew");
    }

    // Takes all that is left. So each value that was given has come out.
    void drain(std::uint32_t handle) {
        kfifo_status status = KFIFO_DONE;
        while (status == KFIFO_DONE) status = take(handle);
        expect(status, KFIFO_EMPTY, "the last take");
        for (const Value &value : values)
            expect(value.give_ends && !value.take_ends, 0, "values that did not come out");
    }

    const Value &operator[](std::uint64_t number) const { return values[number]; }

    // The most values that a take passed over.
    std::uint64_t most_passed_over() const {
        std::uint64_t most = 0;
        for (const Value &one : values)
            most = std::max(most, count([&](const Value &other) { return overtakes(one, other); }));
        return most;
    }

    // The most that overtook one of the values up to this number.
    std::uint64_t most_overtaken(std::uint64_t up_to) const {
        std::uint64_t most = 0;
        for (std::uint64_t i = 1; i <= up_to && i < values.size(); i++)
            most = std::max(most, count([&](const Value &other) { return overtakes(other, values[i]); }));
        return most;
    }

    // For which least k the judge finds an order of these calls.
    std::uint32_t least_k() const {
        kfifo_judge_report report{};
        expect(kfifo_least_calls(log.data(), log.size(), KFIFO_JUDGE_TRIES, &report), KFIFO_JUDGE_LEGAL, "the judge");
        std::uint32_t least = report.at_most;
        expect(report.at_least, least, "the bound below the least k");
        kfifo_judge_clear(&report);
        return least;
    }

  private:
    template <typename Is> std::uint64_t count(Is is) const {
        return (std::uint64_t)std::count_if(values.begin() + 1, values.end(), is);
    }

    void prepare(Call &call, std::uint32_t handle, bool is_give) {
        call.handle = handle;
        call.is_give = is_give;
        if (!is_give) return;
        call.value = values.size();
        values.emplace_back();
    }

    kfifo_status call(std::uint32_t handle, bool is_give) {
        Call made;
        prepare(made, handle, is_give);
        make(made, &all[handle]);
        note(made);
        return made.status;
    }

    void note_take(std::uint64_t number, std::uint32_t handle, std::uint64_t begins, std::uint64_t ends) {
        if (number == 0) return;
        expect(values[number].take_ends, 0, "when a value came out before");
        values[number].take_begins = begins;
        values[number].take_ends = ends;
        log.push_back({begins, ends, number, handle, KFIFO_JUDGE_GET, KFIFO_JUDGE_GOT});
    }

    void note(const Call &call) {
        if (call.is_give && call.status == KFIFO_DONE) {
            values[call.value].give_begins = call.begins;
            values[call.value].give_ends = call.ends;
            log.push_back({call.begins, call.ends, call.value, call.handle, KFIFO_JUDGE_PUT, KFIFO_JUDGE_DONE});
        } else if (call.status == KFIFO_DONE) {
            note_take(call.value, call.handle, call.begins, call.ends);
        } else if (!call.is_give && call.status == KFIFO_EMPTY) {
            log.push_back({call.begins, call.ends, 0, call.handle, KFIFO_JUDGE_GET, KFIFO_JUDGE_EMPTY});
        } else {
            expect(call.status, KFIFO_BUSY, "a call that did nothing");
        }
    }

    std::vector<kfifo_handle> all;
    std::vector<Value> values; // by their numbers, from 1 on; 0 is that of those that are not followed
    std::vector<kfifo_judge_call> log;
    std::uint64_t last;
};

// ---- Late gives ----

// A give is late after that many instructions: it has found its generation to be the newest, and has not put its value.
long late_steps = 0;

void find_late_steps() {
    long first = 0, last = 0;
    bool is_whole = false;
    for (long steps = 1; !is_whole; steps++) {
        Run run(1, 2);
        auto give = run.begin(1, true, steps);
        is_whole = !give->has_stopped;
        run.change(0);
        run.give(0);
        run.end(*give);
        run.drain(0);
        // The take that comes first looks into the old generation first.
        bool is_late = run[2].give_ends < run[1].take_begins && run[1].take_ends < run[2].take_begins;
        if (is_late && !first) first = steps;
        if (is_late) last = steps;
    }
    std::printf("a give is late after %ld to %ld instructions\n", first, last);
    expect(last > first, 1, "whether gives are late after some instructions");
    late_steps = (first + last) / 2;
}

// Which handles do what: first come those whose takes stop, then those whose gives are late.
struct Plan {
    std::uint32_t k, takers, givers;
    long stride; // of the numbers of instructions after which takes stop
};

// What came of one run, or the most of several.
struct Outcome {
    std::uint64_t passed_over = 0, overtaken = 0, least_k = 0;
    bool is_whole = false; // takes ended before they would have stopped

    void add(const Outcome &other) {
        passed_over = std::max(passed_over, other.passed_over);
        overtaken = std::max(overtaken, other.overtaken);
        least_k = std::max(least_k, other.least_k);
        is_whole = other.is_whole;
    }
};

// The first handle makes that many pairs of calls in the new generation, so that its take begins at another slot.
Outcome run_late(const Plan &plan, std::uint32_t pairs, long take_steps) {
    std::vector<std::unique_ptr<Call>> gives, takes;
    Run run(plan.k, plan.takers + plan.givers);
    for (std::uint32_t i = 0; i < plan.givers; i++) gives.push_back(run.begin(plan.takers + i, true, late_steps));
    run.change(0);
    for (std::uint32_t i = 0; i < pairs; i++) run.pair(0);
    // The others join the new generation too.
    for (std::uint32_t i = 1; i < plan.takers; i++) run.take(i);
    for (std::uint32_t i = 0; i < plan.takers; i++) takes.push_back(run.begin(i, false, take_steps));
    for (auto &give : gives) run.end(*give);
    for (std::uint32_t i = 0; i < plan.k - 1 + plan.takers; i++) run.give(plan.takers);
    Outcome outcome;
    for (auto &take : takes) {
        outcome.is_whole = !take->has_stopped;
        run.end(*take);
    }
    // A taker that had left the old generation too soon would not find the late values.
    run.drain(0);
    outcome.passed_over = run.most_passed_over();
    outcome.overtaken = run.most_overtaken(plan.givers);
    outcome.least_k = run.least_k();
    std::uint64_t bound = std::max(plan.k - 1, plan.takers), most = run.most_overtaken(UINT64_MAX);
    expect(std::max(most, bound), bound, "the most values that overtook one");
    return outcome;
}

void late_gives(const Plan &plan) {
    Outcome all;
    for (std::uint32_t pairs = 0; pairs < plan.k; pairs++) {
        Outcome one;
        for (long steps = 1; !one.is_whole; steps += plan.stride) one.add(run_late(plan, pairs, steps));
        all.add(one);
    }
    std::printf("k = %u, %u handles, %u late gives: a take passed over %llu values, and %llu overtook a late one\n",
                plan.k, plan.takers + plan.givers, plan.givers, (unsigned long long)all.passed_over,
                (unsigned long long)all.overtaken);
    std::uint64_t bound = plan.k - 1 + plan.givers;
    expect(plan.takers == 1 ? all.passed_over : std::max(all.passed_over, bound), bound,
           "the most values that a take passed over");
    expect(all.overtaken, plan.takers, "the most values that overtook a late one");
    expect(all.least_k, all.passed_over + 1, "the least k of the judge");
}

// ---- Calls that follow others ----

// A call of a handle that has others to follow stops after that many instructions, and they go on to further
// generations. Returns whether it ended before it would have stopped.
bool run_behind(bool is_give, long steps) {
    Run run(1, 2);
    run.change(0);
    run.give(0);
    auto call = run.begin(1, is_give, steps);
    for (int i = 0; i < 3; i++) run.change(0);
    run.give(0);
    run.end(*call);
    run.give(1);
    run.drain(0);
    expect(run.take(1), KFIFO_EMPTY, "a take of the handle that stopped");
    bool is_whole = !call->has_stopped;
    expect(call->requests, 0, "requests for memory of a call that follows others");
    expect(run.most_overtaken(UINT64_MAX) <= 1, 1, "whether at most one value overtook another");
    expect(run.least_k() <= 2, 1, "whether the judge finds an order for k + handles - 1");
    return is_whole;
}

void behind(bool is_give) {
    long steps = 1;
    while (failures < 20 && !run_behind(is_give, steps)) steps += STRIDE;
    std::printf("a %s that follows others stopped after up to %ld instructions\n", is_give ? "give" : "take", steps);
    expect(steps > 100, 1, "whether a call that follows others has more than a hundred instructions");
}

// ---- Growth ----

// A call stops after that many instructions, while the queue grows by another handle, and takes find the values of all
// generations then. Returns whether it ended before it would have stopped.
bool run_growing(bool is_give, long steps) {
    Run run(1, 2, Run::Grows{4});
    if (!is_give) run.grow(0);
    auto call = run.begin(1, is_give, steps);
    run.grow(0);
    run.give(0);
    run.end(*call);
    run.give(1);
    run.drain(0);
    expect(run.take(1), KFIFO_EMPTY, "a take of the handle that stopped");
    expect(run.most_overtaken(UINT64_MAX) <= 1, 1, "whether at most one value overtook another");
    expect(run.least_k() <= 2, 1, "whether the judge finds an order for k + handles - 1");
    return !call->has_stopped;
}

// A take that follows others has many instructions, so its next stop is some instructions further.
void growing(bool is_give) {
    long steps = 1;
    while (failures < 20 && !run_growing(is_give, steps)) steps += is_give ? STRIDE : 9;
    std::printf("a %s stopped after up to %ld instructions while the queue grew\n", is_give ? "give" : "take", steps);
    expect(steps > 100, 1, "whether a call has more than a hundred instructions");
}

} // namespace

int main() {
    struct sigaction action {};
    action.sa_sigaction = at_instruction;
    action.sa_flags = SA_SIGINFO;
    sigaction(SIGTRAP, &action, nullptr);
    if (!CAN_STEP) {
        std::puts("skipped: calls that stop after an instruction, since this processor or ThreadSanitizer cannot");
        return 0;
    }
    find_late_steps();
    constexpr Plan plans[] = {{1, 1, 1, 1}, {1, 1, 2, 9}, {1, 2, 1, 9}, {1, 1, 4, 9}, {1, 2, 3, 9},
                              {1, 4, 1, 9}, {2, 1, 1, 9}, {4, 1, 2, 9}, {4, 4, 1, 9}};
    for (const Plan &plan : plans) late_gives(plan);
    behind(true);
    behind(false);
    growing(true);
    growing(false);
    std::puts(failures ? "values overtake each other by more or less than the bounds"
                       : "late gives: values overtake each other by as much as the bounds say, and by no more");
    return failures > 0;
}
