// A small model of the end of a run, and of workers that sleep: the steps of kfifo_work.hpp over a queue and a list
// that are bags of tasks, explored over all interleavings of three workers. A store of a count is seen by the others
// only some steps later. No worker may say that the run is over while a task is left, and in the end none may sleep.
// Then the same with a step left out or misplaced: each of these has to be caught.
#include <array>
#include <cstdint>
#include <cstdio>
#include <cstring>
#include <unordered_set>
#include <vector>

namespace {

enum class Fault {
    none,
    given_counted_after_give,
    done_counted_before_body,
    given_added_up_first,
    no_full_step,
    end_not_looked_for,
    end_wakes_one,
    end_wakes_none,
    nobody_woken_by_give,
    nobody_woken_by_list,
    list_not_looked_into,
    list_not_looked_into_again,
    no_second_look,
    count,
};

// Where a worker is: each is one atomic step.
enum Step : std::uint8_t {
    move_on,     // it may move a task of the list into the queue
    take,        // its look into the queue
    see_end,     // of one that found the queue empty: whether it is finished
    see_list,    // then its look into the list
    full_step,   // it writes its count of tasks done once more
    add_done,    // it reads the count of tasks done of one worker after the other
    add_given,   // and then those of tasks given
    announce,    // it says that it waits
    read_word,   // it reads the word that it would sleep on
    fall_asleep, // if the word is still what it read
    asleep,      //
    retract,     // it says that it no longer waits
    count_given, // in a body, before it gives
    put,         // it gives, into the queue or into the list
    see_others,  // it looks for workers that wait
    wake,        // it wakes one
    count_done,  // after a body
    say_over,    // it finishes the queue
    wake_all,
    ended
};

constexpr std::size_t workers = 3, kinds = 3;

// Tasks of kind 0 give none. Those of kind 1 give one of kind 0, and those of kind 2 two of them. Who has given runs on
// until others have begun all that waits: so it is seen where they sleep meanwhile.
using Bag = std::array<std::uint8_t, kinds>;

std::uint8_t size_of(const Bag &bag) { return static_cast<std::uint8_t>(bag[0] + bag[1] + bag[2]); }

struct Worker {
    std::uint8_t step = take;
    std::uint8_t still_gives = 0; // in a body: how many tasks it still gives
    std::uint8_t is_in_body = 0, has_given = 0;
    std::uint8_t given = 0, done = 0;      // its counts, as the others see them
    std::uint8_t late = 0, late_kinds = 0; // stores that the others do not see yet, the oldest in the lowest bit
    std::uint8_t sum = 0, sum_of_given = 0, next = 0;
    std::uint8_t is_announced = 0, is_current = 0, has_looked = 0;
};

struct State {
    std::array<Worker, workers> all{};
    Bag queue{}, list{};
    std::uint8_t finished = 0;
    std::uint8_t refusals = 0; // how often the queue may still find no room

    bool operator==(const State &other) const { return std::memcmp(this, &other, sizeof *this) == 0; }
    bool has_tasks() const {
        bool is_one_in_body = false;
        for (const Worker &worker : all) is_one_in_body = is_one_in_body || worker.is_in_body;
        return is_one_in_body || has_waiting_tasks();
    }
    bool has_waiting_tasks() const { return size_of(queue) + size_of(list) != 0; }
    bool has_waiting() const {
        for (const Worker &worker : all)
            if (worker.is_announced) return true;
        return false;
    }
};
static_assert(sizeof(State) == workers * sizeof(Worker) + 2 * kinds + 2 && sizeof(Worker) == 14, "no byte is padding");

struct Hash {
    std::size_t operator()(const State &state) const {
        std::uint64_t hash = 0xcbf29ce484222325u;
        const auto *bytes = reinterpret_cast<const unsigned char *>(&state);
        for (std::size_t i = 0; i < sizeof state; i++) hash = (hash ^ bytes[i]) * 0x100000001b3u;
        return static_cast<std::size_t>(hash ^ hash >> 29);
    }
};

class Search {
  public:
    explicit Search(Fault of) : fault(of) {}

    // Whether each interleaving from here ends well.
    bool holds(const State &first) {
        std::vector<State> open{first};
        seen.insert(first);
        while (!open.empty()) {
            State from = open.back();
            open.pop_back();
            std::vector<State> found = nexts(from);
            if (is_wrong || (found.empty() && !is_end(from))) return false;
            for (const State &next : found)
                if (seen.insert(next).second) open.push_back(next);
        }
        return true;
    }
    std::size_t states() const { return seen.size(); }

  private:
    Fault fault;
    bool is_wrong = false;
    std::unordered_set<State, Hash> seen;

    static bool is_end(const State &state) {
        for (const Worker &worker : state.all)
            if (worker.step != ended) return false;
        return !state.has_tasks();
    }

    std::vector<State> nexts(const State &from) {
        std::vector<State> found;
        for (std::size_t which = 0; which < workers; which++) {
            if (from.all[which].late) {
                found.push_back(from);
                see_one(found.back().all[which]);
            }
            step(from, which, found);
        }
        return found;
    }

    // The others see the oldest store that is late.
    static void see_one(Worker &worker) {
        (worker.late_kinds & 1 ? worker.done : worker.given)++;
        worker.late_kinds >>= 1;
        worker.late--;
    }

    // A step that is a full one: the others see all stores before it.
    static void see_all(Worker &worker) {
        while (worker.late) see_one(worker);
    }

    static void store(Worker &worker, bool is_done) {
        worker.late_kinds = static_cast<std::uint8_t>(worker.late_kinds | is_done << worker.late);
        worker.late++;
    }

    // A task of this kind is begun.
    void begin(Worker &worker, std::size_t kind) const {
        see_all(worker);
        worker.is_announced = worker.is_current = worker.has_looked = 0;
        worker.is_in_body = 1;
        worker.still_gives = static_cast<std::uint8_t>(kind);
        if (fault == Fault::done_counted_before_body) store(worker, true);
        go_on(worker);
    }

    // The next step in a body.
    void go_on(Worker &worker) const {
        worker.step = worker.still_gives == 0                    ? count_done
                      : fault == Fault::given_counted_after_give ? put
                                                                 : count_given;
    }

    void step(const State &from, std::size_t which, std::vector<State> &found) {
        switch (from.all[which].step) {
        case move_on: moves_on(from, which, found); return;
        case take: takes(from, which, found); return;
        case see_list: sees_list(from, which, found); return;
        case put: puts(from, which, found); return;
        case wake: wakes(from, which, found); return;
        case wake_all: wakes_all(from, which, found); return;
        case asleep:
        case ended: return;
        case count_done:
            if (from.all[which].has_given && from.has_waiting_tasks()) return;
            [[fallthrough]];
        default: found.push_back(from); alone(found.back(), found.back().all[which]);
        }
    }

    // The steps that come to one thing.
    void alone(State &state, Worker &worker) {
        switch (worker.step) {
        case see_end: worker.step = state.finished ? ended : see_list; return;
        case full_step:
            if (fault != Fault::no_full_step) see_all(worker);
            worker.step = fault == Fault::given_added_up_first ? add_given : add_done;
            return;
        case add_done:
        case add_given: adds(state, worker); return;
        case see_others:
            worker.step = wake;
            if (!state.has_waiting()) after_give(worker);
            return;
        case count_given:
            store(worker, false);
            worker.step = put;
            return;
        case count_done:
            if (fault != Fault::done_counted_before_body) store(worker, true);
            worker.is_in_body = worker.has_given = 0;
            worker.step = move_on;
            return;
        case say_over:
            is_wrong = is_wrong || state.has_tasks();
            state.finished = 1;
            worker.step = fault == Fault::end_wakes_none ? ended : wake_all;
            return;
        default: waits(worker);
        }
    }

    // The steps of one that waits.
    void waits(Worker &worker) const {
        switch (worker.step) {
        case announce:
            see_all(worker);
            worker.is_announced = 1;
            worker.step = read_word;
            return;
        case read_word:
            worker.is_current = 1;
            worker.step = fault == Fault::no_second_look ? fall_asleep : take;
            return;
        case fall_asleep: worker.step = worker.is_current ? asleep : retract; return;
        case retract:
            see_all(worker);
            worker.is_announced = worker.is_current = 0;
            worker.step = move_on;
            return;
        default: return;
        }
    }

    // It sees its own counts as it wrote them last.
    void adds(const State &state, Worker &worker) const {
        const Worker &other = state.all[worker.next];
        bool is_done = worker.step == add_done;
        unsigned seen_of = is_done ? other.done : other.given;
        for (unsigned i = 0; &other == &worker && i < worker.late; i++)
            seen_of += (worker.late_kinds >> i & 1) == is_done;
        std::uint8_t &sum = is_done ? worker.sum : worker.sum_of_given;
        sum = static_cast<std::uint8_t>(sum + seen_of);
        if (++worker.next < workers) return;
        worker.next = 0;
        bool is_second = is_done == (fault == Fault::given_added_up_first);
        if (!is_second) {
            worker.step = is_done ? add_given : add_done;
            return;
        }
        worker.has_looked = 1;
        worker.step = worker.sum == worker.sum_of_given ? say_over : announce;
        worker.sum = worker.sum_of_given = 0;
    }

    // Where there is room, a task goes from the list into the queue, and the worker looks for others that wait.
    static void moves_on(const State &from, std::size_t which, std::vector<State> &found) {
        found.push_back(from);
        found.back().all[which].step = take;
        for (std::size_t kind = 0; kind < kinds; kind++) {
            if (from.list[kind] == 0) continue;
            found.push_back(from);
            Worker &worker = found.back().all[which];
            see_all(worker);
            found.back().list[kind]--;
            found.back().queue[kind]++;
            worker.step = see_others;
        }
    }

    // Any task of the queue may be one of the k oldest.
    void takes(const State &from, std::size_t which, std::vector<State> &found) const {
        for (std::size_t kind = 0; kind < kinds; kind++) {
            if (from.queue[kind] == 0) continue;
            found.push_back(from);
            found.back().queue[kind]--;
            begin(found.back().all[which], kind);
        }
        if (size_of(from.queue)) return;
        found.push_back(from);
        found.back().all[which].step = see_end;
    }

    void sees_list(const State &from, std::size_t which, std::vector<State> &found) const {
        bool looks = fault != Fault::list_not_looked_into &&
                     (fault != Fault::list_not_looked_into_again || !from.all[which].is_announced);
        std::size_t before = found.size();
        for (std::size_t kind = 0; looks && kind < kinds; kind++) {
            if (from.list[kind] == 0) continue;
            found.push_back(from);
            found.back().list[kind]--;
            begin(found.back().all[which], kind);
        }
        if (found.size() > before) return;
        found.push_back(from);
        Worker &worker = found.back().all[which];
        // It looks for the end once, when it first finds nothing after a task.
        if (worker.is_announced)
            worker.step = fall_asleep;
        else
            worker.step = worker.has_looked || fault == Fault::end_not_looked_for ? announce : full_step;
    }

    // A give: into the queue, or into the list where the queue has no room, or the list had tasks.
    void puts(const State &from, std::size_t which, std::vector<State> &found) const {
        for (int into_list = 0; into_list < 2; into_list++) {
            if (into_list && from.refusals == 0) continue;
            found.push_back(from);
            State &state = found.back();
            Worker &worker = state.all[which];
            see_all(worker);
            worker.still_gives--;
            worker.has_given = 1;
            (into_list ? state.list : state.queue)[0]++;
            state.refusals = static_cast<std::uint8_t>(state.refusals - into_list);
            if (fault == Fault::given_counted_after_give) store(worker, false);
            worker.step = see_others;
            if (fault == (into_list ? Fault::nobody_woken_by_list : Fault::nobody_woken_by_give)) after_give(worker);
        }
    }

    void after_give(Worker &worker) const {
        if (worker.is_in_body)
            go_on(worker);
        else
            worker.step = move_on;
    }

    // The word changes, and one that sleeps is woken, if there is one.
    void wakes(const State &from, std::size_t which, std::vector<State> &found) const {
        State changed = from;
        for (Worker &worker : changed.all) worker.is_current = 0;
        after_give(changed.all[which]);
        wake_one_of(changed, found);
    }

    void wakes_all(const State &from, std::size_t which, std::vector<State> &found) const {
        State changed = from;
        for (Worker &worker : changed.all) worker.is_current = 0;
        changed.all[which].step = ended;
        if (fault == Fault::end_wakes_one) {
            wake_one_of(changed, found);
            return;
        }
        for (Worker &worker : changed.all)
            if (worker.step == asleep) worker.step = retract;
        found.push_back(changed);
    }

    static void wake_one_of(const State &state, std::vector<State> &found) {
        std::size_t before = found.size();
        for (std::size_t other = 0; other < workers; other++) {
            if (state.all[other].step != asleep) continue;
            found.push_back(state);
            found.back().all[other].step = retract;
        }
        if (found.size() == before) found.push_back(state);
    }
};

State beginning(Bag tasks, std::uint8_t refusals) {
    State state;
    state.queue = tasks;
    state.refusals = refusals;
    state.all[0].given = size_of(tasks);
    return state;
}

// Where the search begins. The first three show each fault.
std::vector<State> beginnings() {
    std::vector<State> all{beginning({1, 0, 0}, 0), beginning({2, 0, 0}, 0), beginning({0, 1, 0}, 1)};
#ifndef FEWER
    all.push_back(beginning({0, 0, 1}, 2));
    all.push_back(beginning({1, 1, 0}, 1));
#endif
    return all;
}

bool holds(Fault fault, std::size_t &states) {
    for (const State &from : beginnings()) {
        Search search(fault);
        bool is_right = search.holds(from);
        states += search.states();
        if (!is_right) return false;
    }
    return true;
}

} // namespace

int main() {
    std::size_t states = 0, others = 0;
    bool is_right = holds(Fault::none, states);
    int missed = 0, faults = 0;
    for (int number = 1; number < static_cast<int>(Fault::count); number++, faults++) {
        if (!holds(static_cast<Fault>(number), others)) continue;
        std::fprintf(stderr, "fault %d of the model is not caught\n", number);
        missed++;
    }
    if (!is_right) std::fputs("an interleaving of the model ends too early, or never\n", stderr);
    std::printf("%zu states of workers: %s; %d faults: %s\n", states,
                is_right ? "each run ends, and when all is done" : "a run does not end when all is done", faults,
                missed ? "not all are caught" : "each is caught");
    return !is_right || missed;
}
