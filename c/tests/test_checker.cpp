// Whether kfifo_test.hpp finds the faults of faulty queues, and none in right ones.
//
//     test_checker [--long | --measure] [QUEUE ..]
//
// Without a word each faulty queue has 5 seconds, and 60 more if nothing was found, and each right one 2. --long gives
// a right queue 30 seconds, and also tries the queue whose fault may take 20. --measure prints a table in Markdown of
// how long it takes to find each fault, over five seeds. With FEWER, for sanitizers, it runs right queues alone, in
// this process. The last line is 'N passed, M failed'.
#include "checker/queues.hpp"
#include "kfifo_test.hpp"

#include <algorithm>
#include <cstdio>
#include <cstring>
#include <fstream>
#include <iterator>
#include <map>
#include <stdexcept>
#include <string>
#include <sys/mman.h>
#include <utility>
#include <vector>

namespace {

using kfifo::CheckOptions;
using kfifo::CheckReport;
using kfifo::Outcome;
using queues::Outside;
using queues::RingFault;

// What a check may find: the evidence of the judge, or a hang.
enum Found : unsigned { NOTHING = 0, NEVER_PUT = 1, TWICE = 2, EMPTY = 4, OVERTAKEN = 8, HANG = 16, OTHER = 32 };

const std::map<Found, const char *> NAMES = {
    {NOTHING, "nothing"},     {NEVER_PUT, "never put"}, {TWICE, "taken twice"}, {EMPTY, "not empty"},
    {OVERTAKEN, "too young"}, {HANG, "hang"},           {OTHER, "other"},
};

Found found_by(const CheckReport &report) {
    if (report.passed()) return NOTHING;
    if (report.outcome == Outcome::hang) return HANG;
    switch (report.evidence) {
    case KFIFO_JUDGE_NEVER_PUT: return NEVER_PUT;
    case KFIFO_JUDGE_TAKEN_TWICE: return TWICE;
    case KFIFO_JUDGE_NOT_EMPTY: return EMPTY;
    case KFIFO_JUDGE_TOO_YOUNG:
    case KFIFO_JUDGE_OLDER_LEFT: return OVERTAKEN;
    default: return OTHER;
    }
}

using Run = CheckReport (*)(const CheckOptions &);

template <class Queue> CheckReport run(const CheckOptions &options) {
    return kfifo::run_check([](std::size_t capacity) { return Queue(capacity); },
                            [](auto &queue, std::uint32_t item) { return queue.push(item); },
                            [](auto &queue) { return queue.pop(); }, options);
}

kfifo::Answer answer_of(kfifo::Put put) {
    switch (put) {
    case kfifo::Put::done: return kfifo::Answer::done;
    case kfifo::Put::full: return kfifo::Answer::full;
    case kfifo::Put::busy: return kfifo::Answer::busy;
    default: return kfifo::Answer::worn;
    }
}

kfifo::Got got_of(const kfifo::Taken &taken) {
    if (taken.item) return {kfifo::Answer::got, *taken.item};
    switch (taken.why) {
    case kfifo::Miss::empty: return {kfifo::Answer::empty, 0};
    case kfifo::Miss::busy: return {kfifo::Answer::busy, 0};
    default: return {kfifo::Answer::worn, 0};
    }
}

// This repository's queue, whose threads call through handles.
CheckReport run_kfifo(const CheckOptions &options) {
    const std::uint32_t k = options.k;
    return kfifo::run_check_with_handles(
        [k](std::size_t capacity) {
            return kfifo::Queue(k, std::max(2U, std::uint32_t(capacity) / k), kfifo::checking::MAX_THREADS);
        },
        [](kfifo::Queue &queue, unsigned thread) { return queue.handle(thread); },
        [](kfifo::Queue::Handle &handle, std::uint32_t item) { return answer_of(handle.enqueue(item)); },
        [](kfifo::Queue::Handle &handle) { return got_of(handle.dequeue()); }, options);
}

// ---- Queues of values and of cells whose generations change all the time ----

// What the calls of a check have used of the versions. The child process, in which they are made, shares it.
struct Used {
    struct alignas(128) Lane {
        double generations = 0; // by the calls of this thread
    };
    Lane lanes[kfifo::checking::MAX_THREADS];
    std::uint64_t queues = 0; // how many were opened

    // How many changes there were at least: each queue begins with a generation that was no change.
    double changes() const {
        double sum = 0;
        for (const Lane &lane : lanes) sum += lane.generations;
        return sum - double(queues);
    }
};

Used &used() {
    static void *const memory = mmap(nullptr, sizeof(Used), PROT_READ | PROT_WRITE, MAP_SHARED | MAP_ANONYMOUS, -1, 0);
    if (memory == MAP_FAILED) throw std::bad_alloc();
    static Used &shared = *new (memory) Used;
    return shared;
}

// How many changes each check of such a queue has at least, and how many calls each thread makes in a round.
constexpr double LEAST_CHANGES = 20;
constexpr unsigned CALLS = 2000;

struct OfValues {
    static kfifo_status open(std::uint32_t k, std::uint32_t capacity, std::uint64_t last, std::uint64_t reserve,
                             kfifo_handle *handles, unsigned threads) {
        return kfifo_open_values_with(k, capacity, last, reserve, 1, handles, threads);
    }
    static kfifo_status give(kfifo_handle *handle, std::uint32_t value) { return kfifo_give(handle, value); }
    static kfifo_status take(kfifo_handle *handle, std::uint64_t *value) { return kfifo_take(handle, value); }
};

struct OfCells {
    static kfifo_status open(std::uint32_t k, std::uint32_t capacity, std::uint64_t last, std::uint64_t reserve,
                             kfifo_handle *handles, unsigned threads) {
        return kfifo_open_cells_with(k, capacity, sizeof(std::uint64_t), alignof(std::uint64_t), last, reserve, 1,
                                     handles, threads);
    }

    static kfifo_status give(kfifo_handle *handle, std::uint32_t value) {
        void *cell = nullptr;
        kfifo_status status = kfifo_reserve(handle, &cell);
        if (status != KFIFO_DONE) return status;
        *static_cast<std::uint64_t *>(cell) = value;
        status = kfifo_publish(handle);
        if (status != KFIFO_DONE && kfifo_cancel(handle) != KFIFO_DONE) return KFIFO_BAD_CALL;
        return status;
    }

    static kfifo_status take(kfifo_handle *handle, std::uint64_t *value) {
        void *cell = nullptr;
        const kfifo_status status = kfifo_receive(handle, &cell);
        if (status != KFIFO_DONE) return status;
        *value = std::exchange(*static_cast<std::uint64_t *>(cell), 0);
        return kfifo_release(handle) == KFIFO_DONE ? status : KFIFO_BAD_CALL;
    }
};

// What a call answered. A check ends where it is neither done nor may do better later: such a queue does not wear out.
kfifo::Answer answer_of(kfifo_status status, kfifo::Answer done) {
    switch (status) {
    case KFIFO_DONE: return done;
    case KFIFO_FULL: return kfifo::Answer::full;
    case KFIFO_EMPTY: return kfifo::Answer::empty;
    case KFIFO_BUSY: return kfifo::Answer::busy;
    default: throw std::runtime_error(kfifo_status_text(status));
    }
}

// A queue that goes on in its next generation when half of its few versions are used up. The other half is enough to
// empty a generation, and for what all threads do before they find the next one.
template <class Kind> class Changing {
  public:
    Changing(std::uint32_t k, std::uint32_t capacity, unsigned threads) : handles(threads) {
        const std::uint64_t reserve = (64 * threads + 4 * capacity) / k + 16 * threads, last = 2 * reserve;
        if (Kind::open(k, capacity, last, reserve, handles.data(), threads) != KFIFO_DONE) throw std::bad_alloc();
        // At most k values go in or out with each version of the ends.
        share = 1 / (double(k) * double(last));
        used().queues++;
    }
    Changing(Changing &&) noexcept = default;
    ~Changing() {
        if (!handles.empty() && kfifo_abandon(handles.data(), handles.size()) != KFIFO_DONE) std::abort();
    }

    kfifo::Answer give(unsigned thread, std::uint32_t item) {
        return counted(thread, answer_of(Kind::give(&handles[thread], item), kfifo::Answer::done));
    }

    kfifo::Got take(unsigned thread) {
        std::uint64_t value = 0;
        const kfifo::Answer answer =
            counted(thread, answer_of(Kind::take(&handles[thread], &value), kfifo::Answer::got));
        return {answer, value};
    }

  private:
    kfifo::Answer counted(unsigned thread, kfifo::Answer answer) {
        if (answer == kfifo::Answer::done || answer == kfifo::Answer::got) used().lanes[thread].generations += share;
        return answer;
    }

    std::vector<kfifo_handle> handles;
    double share = 0; // of the versions of a generation, for each value that goes in or out
};

// In a round all threads take part. A take may pass over k - 1 older values and, where generations change, over one
// more for each other handle. That is what a queue with this k in place of its own may do.
template <class Kind, std::uint32_t k, unsigned threads> CheckReport run_changing(const CheckOptions &options) {
    CheckOptions of_these = options;
    of_these.k = k + threads - 1;
    of_these.threads = threads;
    // A generation has 32 tokens for each thread besides its capacity, and so some thousand calls before the next one.
    of_these.calls = CALLS;
    of_these.capacities = {2, 4, 8, 16};
    of_these.undecided_fails = true;
    using Queue = Changing<Kind>;
    using Handle = std::pair<Queue *, unsigned>;
    return kfifo::run_check_with_handles(
        [](std::size_t capacity) { return Queue(k, std::uint32_t(capacity), threads); },
        [](Queue &queue, unsigned thread) { return Handle(&queue, thread); },
        [](const Handle &handle, std::uint32_t item) { return handle.first->give(handle.second, item); },
        [](const Handle &handle) { return handle.first->take(handle.second); }, of_these);
}

#ifdef HAVE_BOOST
constexpr Run BOOST = run<queues::Boost>;
#else
constexpr Run BOOST = nullptr;
#endif
#ifdef HAVE_TBB
constexpr Run TBB = run<queues::Tbb>;
#else
constexpr Run TBB = nullptr;
#endif
#ifdef HAVE_CDS
constexpr Run CDS = run<queues::CdsMichaelScott>;
#else
constexpr Run CDS = nullptr;
#endif
#ifdef HAVE_CONCURRENTQUEUE
constexpr Run MOODYCAMEL = run<queues::Moodycamel>;
#else
constexpr Run MOODYCAMEL = nullptr;
#endif

struct Row {
    const char *name;
    unsigned faults;             // what may be found, of which one must be; NOTHING of a right queue
    Run run;                     // null where the library is not there
    const char *needs = "";      // the package of that library
    bool is_one_of_each = false; // one producer and one consumer
    std::uint32_t k = 1;
    bool is_hard = false; // its fault may take 20 seconds
    double hang_seconds = 0.5;
    bool is_changing = false; // its generations change all the time
};

constexpr Row changing(const char *name, Run run) {
    return {name, NOTHING, run, "libkfifo", false, 1, false, 0.5, true};
}

const Row ROWS[] = {
    {"lifo", OVERTAKEN, run<queues::Lifo>},
    {"moodycamel", EMPTY | OVERTAKEN, MOODYCAMEL, "libconcurrentqueue-dev"},
    {"ring-early-empty", EMPTY, run<queues::Ring<RingFault::early_empty>>},
    {"ring-paused", EMPTY, run<queues::Ring<RingFault::paused>>},
    {"ring-lost-update", NEVER_PUT | TWICE | EMPTY | OVERTAKEN | HANG, run<queues::Ring<RingFault::lost_update>>},
    {"ring-early-publish", NEVER_PUT | TWICE | EMPTY | OVERTAKEN, run<queues::Ring<RingFault::early_publish>>},
    {"ring-late-read", NEVER_PUT | TWICE | EMPTY | OVERTAKEN, run<queues::Ring<RingFault::late_read>>},
    {"empty-outside-lock", NEVER_PUT | TWICE | EMPTY | OVERTAKEN, run<queues::TwoLocks<Outside::empty>>},
    {"full-outside-lock", NEVER_PUT | TWICE | EMPTY | OVERTAKEN, run<queues::TwoLocks<Outside::full>>},
    {"two-thread-ring", NEVER_PUT | TWICE | EMPTY | OVERTAKEN, run<queues::TwoThreadRing>},
    {"wrong-copy", NEVER_PUT | TWICE | EMPTY | OVERTAKEN, run<queues::WrongCopy>},
    {"wrap-16", NEVER_PUT | TWICE | EMPTY | OVERTAKEN, run<queues::Wrap16>},
    {"michael-scott-no-tags", NEVER_PUT | TWICE | EMPTY | OVERTAKEN | HANG, run<queues::MichaelScott<0, true>>},
    {"michael-scott-3-bit-tags", NEVER_PUT | TWICE | EMPTY | OVERTAKEN | HANG, run<queues::MichaelScott<3, true>>},
    {"michael-scott-6-bit-tags", NEVER_PUT | TWICE | EMPTY | OVERTAKEN | HANG, run<queues::MichaelScott<6, true>>, "",
     false, 1, true},
    {"michael-scott-one-look", NEVER_PUT | TWICE | EMPTY | OVERTAKEN | HANG, run<queues::MichaelScott<32, false>>},
    {"kept-lock", HANG, run<queues::KeptLock>, "", false, 1, false, 0.2},
    {"mutex", NOTHING, run<queues::MutexDeque>},
    {"ring", NOTHING, run<queues::Ring<RingFault::none>>},
    {"michael-scott", NOTHING, run<queues::MichaelScott<32, true>>},
    {"two-thread-ring-used-rightly", NOTHING, run<queues::TwoThreadRing>, "", true},
    {"boost", NOTHING, BOOST, "libboost-dev"},
    {"tbb", NOTHING, TBB, "libtbb-dev"},
    {"cds-michael-scott", NOTHING, CDS, "libcds-dev"},
    {"moodycamel-two-threads", NOTHING, MOODYCAMEL, "libconcurrentqueue-dev", true},
    {"kfifo-1", NOTHING, run_kfifo, "libkfifo"},
    {"kfifo-4", NOTHING, run_kfifo, "libkfifo", false, 4},
    {"kfifo-16", NOTHING, run_kfifo, "libkfifo", false, 16},
    changing("kfifo-1-changing-2", run_changing<OfValues, 1, 2>),
    changing("kfifo-1-changing-4", run_changing<OfValues, 1, 4>),
    changing("kfifo-4-changing-4", run_changing<OfValues, 4, 4>),
    changing("kfifo-4-changing-16", run_changing<OfValues, 4, 16>),
    changing("kfifo-1-changing-cells-4", run_changing<OfCells, 1, 4>),
    changing("kfifo-4-changing-cells-4", run_changing<OfCells, 4, 4>),
    changing("kfifo-1-changing-cells-16", run_changing<OfCells, 1, 16>),
};

// What may be found of the faulty queues that the checks for C++, Rust and Python have in common, from the table that
// their tests share.
const std::map<std::string, unsigned> &shared_faults() {
    static const std::map<std::string, unsigned> faults = [] {
        static const Found kinds[] = {OTHER, NEVER_PUT, TWICE, EMPTY, OVERTAKEN};
        std::map<std::string, unsigned> read;
        std::ifstream table("tests/checker/faulty_queues.csv");
        std::string line;
        for (std::getline(table, line); std::getline(table, line);) {
            const std::size_t comma = line.find(',');
            for (const char kind : line.substr(comma + 1))
                if (kind != ' ') read[line.substr(0, comma)] |= kinds[kind - '0'];
        }
        return read;
    }();
    return faults;
}

// What may be found of a queue. A hang is no evidence, so the table does not have it.
unsigned faults_of(const Row &row) {
    const auto shared = shared_faults().find(row.name);
    return shared == shared_faults().end() ? row.faults : shared->second | (row.faults & HANG);
}

// Whether each queue of the table has a row.
bool has_shared_queues() {
    const auto is_row = [](const auto &shared) {
        return std::any_of(std::begin(ROWS), std::end(ROWS), [&](const Row &row) { return shared.first == row.name; });
    };
    const bool has = shared_faults().size() >= 5 && std::all_of(shared_faults().begin(), shared_faults().end(), is_row);
    if (!has) std::puts("tests/checker/faulty_queues.csv: FAILED: it is not there, or has a queue that no row has");
    return has;
}

std::string names_of(unsigned faults) {
    std::string names;
    for (const auto &name : NAMES)
        if (faults & name.first) names += (names.empty() ? "" : ", ") + std::string(name.second);
    return names;
}

// The logs of the faulty queues go into a folder beside the program.
std::string folder = ".";

CheckOptions options_of(const Row &row, double seconds) {
    CheckOptions options;
    options.k = row.k;
    options.one_producer = options.one_consumer = row.is_one_of_each;
    options.hang_seconds = row.hang_seconds;
    options.seconds = seconds;
    options.folder = folder + "/test_checker.files";
#ifdef FEWER
    options.in_process = true;
#endif
    return options;
}

// Whether nothing was found since threads take turns on a processor, so that a race hardly ever shows.
bool had_no_race(const Row &row, const CheckReport &report) {
    return faults_of(row) != NOTHING && report.passed() && report.overlapping < 0.05;
}

// Whether the generations of the queue did not change often, though they should.
bool had_few_changes(const Row &row) { return row.is_changing && used().changes() < LEAST_CHANGES; }

// Whether a check of the queue finds what it should. Prints a line, and the whole report where it does not.
bool is_right(const Row &row, double seconds) {
    used() = Used();
    const unsigned faults = faults_of(row);
    CheckReport report = row.run(options_of(row, seconds));
    // Where other programs use the processors too, a race shows seldom.
    if (faults != NOTHING && found_by(report) == NOTHING) report = row.run(options_of(row, 60));
    for (int more = 0; more < 20 && report.passed() && had_few_changes(row); more++)
        report = row.run(options_of(row, 3));
    if (had_no_race(row, report)) {
        std::printf("%s: skipped, since the calls of threads hardly overlap on this machine\n", row.name);
        return true;
    }
    const Found found = found_by(report);
    const bool is_right =
        faults == NOTHING ? found == NOTHING && report.rounds > 0 && !had_few_changes(row) : (found & faults) != 0;
    std::printf("%s: %s: found %s in %.2f s, %llu rounds, %.0f %% of the calls overlapping\n", row.name,
                is_right ? "passed" : "FAILED", NAMES.at(found), report.seconds, (unsigned long long)report.rounds,
                100 * report.overlapping);
    if (row.is_changing)
        std::printf("  at least %.0f changes of generations, least k of the rounds %u to %u\n", used().changes(),
                    report.least_at_least, report.least_at_most);
    if (!is_right) std::printf("  wanted %s\n%s\n", faults ? names_of(faults).c_str() : "nothing", report.text.c_str());
    std::fflush(stdout);
    return is_right;
}

// Prints a row of the table: the time to the first fault in the median and at worst, calls judged a second where there
// is no fault to stop at, and what was found.
bool measure(const Row &row) {
    constexpr int SEEDS = 5;
    std::vector<double> times;
    double calls = 0, seconds = 0, overlapping = 0;
    unsigned found = 0;
    bool is_right = true;
    for (int seed = 1; seed <= SEEDS; seed++) {
        CheckOptions options = options_of(row, row.faults == NOTHING ? 2 : row.is_hard ? 20 : 5);
        options.seed = std::uint64_t(seed);
        const CheckReport report = row.run(options);
        times.push_back(report.seconds);
        calls += double(report.calls);
        seconds += report.seconds;
        overlapping += report.overlapping / SEEDS;
        found |= found_by(report);
        is_right = is_right && (row.faults == NOTHING ? report.passed() : !report.passed());
    }
    std::sort(times.begin(), times.end());
    if (row.faults == NOTHING)
        std::printf("| %s | none in %.0f s | - | %.1f million |", row.name, seconds, calls / seconds / 1e6);
    else
        std::printf("| %s | %.3f s | %.3f s | - |", row.name, times[SEEDS / 2], times.back());
    std::printf(" %.0f %% | %s |%s\n", 100 * overlapping, found ? names_of(found).c_str() : "-",
                is_right ? "" : " FAILED");
    std::fflush(stdout);
    return is_right;
}

bool is_wanted(const Row &row, const std::vector<std::string> &names, bool is_long) {
#ifdef FEWER
    // A sanitizer does not see into the libraries of others.
    if (row.faults != NOTHING || (*row.needs != '\0' && std::strcmp(row.needs, "libkfifo") != 0)) return false;
#endif
    if (!names.empty()) return std::find(names.begin(), names.end(), row.name) != names.end();
    return is_long || !row.is_hard;
}

double seconds_of(const Row &row, bool is_long) {
#ifdef FEWER
    return (void)row, (void)is_long, 1;
#endif
    if (row.faults != NOTHING) return row.is_hard ? 20 : 5;
    return is_long ? 30 : 2;
}

} // namespace

int main(int count, char **words) {
    std::vector<std::string> names(words + 1, words + count);
    const std::string mode = !names.empty() && names[0].rfind("--", 0) == 0 ? names[0] : "";
    if (!mode.empty()) names.erase(names.begin());
    if (!mode.empty() && mode != "--long" && mode != "--measure") {
        std::fprintf(stderr, "test_checker [--long | --measure] [QUEUE ..]\n");
        return 2;
    }
    const std::string program = words[0];
    if (program.find('/') != program.npos) folder = program.substr(0, program.rfind('/'));
    if (mode == "--measure")
        std::printf("| Queue | Time to the first fault, median | Worst | Calls judged a second | Overlapping calls | "
                    "Found |\n|---|---|---|---|---|---|\n");
    int passed = 0, failed = has_shared_queues() ? 0 : 1;
    for (const Row &row : ROWS) {
        if (!is_wanted(row, names, !mode.empty())) continue;
        if (row.run == nullptr) {
            std::printf("%s: skipped, since there is no %s\n", row.name, row.needs);
            continue;
        }
        if (mode == "--measure" ? measure(row) : is_right(row, seconds_of(row, mode == "--long")))
            passed++;
        else
            failed++;
    }
    std::printf("%d passed, %d failed\n", passed, failed);
    return failed > 0 || passed == 0;
}
