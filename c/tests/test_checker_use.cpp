// How kfifo_test.hpp is used: what it refuses, which calls threads make, and how each kind of failure is reported.
#include "checker/pretended.hpp"
#include "kfifo_test.hpp"

#include <cstdio>
#include <deque>
#include <fstream>
#include <iterator>
#include <string>

namespace {

using kfifo::Answer;
using kfifo::CheckOptions;
using kfifo::CheckReport;
using kfifo::Outcome;

int failures = 0;

void expect(bool holds, const char *what, const CheckReport *report = nullptr) {
    if (holds) return;
    std::fprintf(stderr, "failed: %s\n%s\n", what, report ? report->text.c_str() : "");
    failures++;
}
void expect(bool holds, const char *what, const CheckReport &report) { expect(holds, what, &report); }

bool has(const std::string &text, const std::string &part) { return text.find(part) != text.npos; }

// The files of this test stand in a folder beside the program.
std::string folder = ".";

CheckOptions some(std::uint64_t rounds) {
    CheckOptions options;
    options.rounds = rounds;
    options.seconds = 20;
    options.folder = folder + "/test_checker_use.files";
#ifdef FEWER
    options.in_process = true;
#endif
    return options;
}

// Whether the check made all its rounds. On a busy machine its time may be up before.
bool is_whole(const CheckReport &report, const CheckOptions &options) {
    return report.rounds == options.rounds || (report.rounds > 0 && report.seconds >= options.seconds);
}

std::string content(const std::string &name) {
    std::ifstream in(name);
    return {std::istreambuf_iterator<char>(in), {}};
}

// A right queue that can be neither copied nor moved. `fault` says what goes wrong at the items that 100 divides.
enum class Fault { none, lost, wide_item, spins, sleeps, crashes, throws, exits, at_its_end };

class Queue {
  public:
    explicit Queue(Fault of = Fault::none) : fault(of) {}
    Queue(const Queue &) = delete;
    Queue &operator=(const Queue &) = delete;
    ~Queue() {
        if (fault == Fault::at_its_end) std::raise(SIGSEGV);
    }

    bool push(std::uint32_t item) {
        if (item % 100 == 0 && fail()) return true;
        const std::lock_guard<std::mutex> guard(mutex);
        items.push_back(item);
        return true;
    }
    std::optional<std::uint64_t> pop() {
        const std::lock_guard<std::mutex> guard(mutex);
        if (items.empty()) return std::nullopt;
        std::uint64_t item = items.front();
        items.pop_front();
        if (fault == Fault::wide_item && item % 100 == 0) item += std::uint64_t(1) << 32;
        return item;
    }

  private:
    // Whether the item is lost.
    bool fail() {
        static std::atomic<unsigned> turns{0};
        if (fault == Fault::spins)
            for (;;) turns++;
        if (fault == Fault::sleeps)
            for (;;) std::this_thread::sleep_for(std::chrono::seconds(1));
        if (fault == Fault::crashes) std::raise(SIGSEGV);
        if (fault == Fault::throws) throw std::runtime_error("no such item");
        if (fault == Fault::exits) _exit(7);
        return fault == Fault::lost;
    }

    std::mutex mutex;
    std::deque<std::uint64_t> items;
    Fault fault;
};

CheckReport run(Fault fault, const CheckOptions &options) {
    return kfifo::run_check([fault] { return Queue(fault); },
                            [](Queue &queue, std::uint32_t item) { return queue.push(item); },
                            [](Queue &queue) { return queue.pop(); }, options);
}

// Whether the report has a line with this beginning, then a number, and this end of it.
bool names_fault(const CheckReport &report, const std::string &before, const std::string &end) {
    for (std::size_t at = report.text.find(before); at != std::string::npos; at = report.text.find(before, at + 1)) {
        const std::size_t after = report.text.find_first_not_of("0123456789", at + before.size());
        const std::string number = report.text.substr(at + before.size(), after - at - before.size());
        if (number.size() > 2 && has(number + report.text.substr(after, 10), end)) return true;
    }
    return false;
}

// Whether the log has the push of such an item, with neither a last time nor an answer.
bool has_unfinished(const CheckReport &report) {
    std::ifstream in(report.log);
    for (std::string line; std::getline(in, line);)
        if (has(line, ",enq,") && has(line, "00,") && line.substr(line.size() - 2) == ",,") return true;
    return false;
}

bool refuses(const CheckOptions &options, const char *word) {
    try {
        run(Fault::none, options);
    } catch (const std::invalid_argument &refusal) {
        return has(refusal.what(), word);
    }
    return false;
}

void options_out_of_range() {
    const auto refused = [](auto set, const char *word) {
        CheckOptions options = some(1);
        set(options);
        expect(refuses(options, word), word);
    };
    refused([](auto &of) { of.k = 0; }, "k is");
    refused([](auto &of) { of.k = 65; }, "k is");
    refused([](auto &of) { of.threads = 1; }, "threads are");
    refused([](auto &of) { of.threads = 65; }, "threads are");
    refused([](auto &of) { of.threads = 3, of.one_producer = of.one_consumer = true; }, "with one producer and one");
    refused([](auto &of) { of.calls = 0; }, "the calls of a thread");
    refused([](auto &of) { of.calls = 30001; }, "the calls of a thread");
    refused([](auto &of) { of.capacities = {}; }, "a capacity");
    refused([](auto &of) { of.capacities = {0}; }, "a capacity");
    refused([](auto &of) { of.seconds = -1; }, "the seconds");
    refused([](auto &of) { of.seconds = std::stod("nan"); }, "the seconds");
    refused([](auto &of) { of.rounds = 0; }, "the rounds");
    refused([](auto &of) { of.hang_seconds = 0; }, "the time of a hang");
    refused([](auto &of) { of.repeated = 0; }, "repeated");
    refused([](auto &of) { of.repeated = 16777216; }, "repeated");
    refused([](auto &of) { of.name = ""; }, "the name");
    refused([](auto &of) { of.name = "a/b"; }, "the name");
    refused([](auto &of) { of.threads = 64, of.calls = 1000; }, "too many calls");
}

void limits_and_counts() {
    const CheckReport rounds = run(Fault::none, some(40));
    expect(rounds.passed() && is_whole(rounds, some(40)) && rounds.calls > rounds.rounds * 150, "a limit of rounds",
           rounds);
    const std::string said = "\n" + std::to_string(rounds.rounds) + " rounds, ";
    expect(rounds.seed != 0 && rounds.log.empty() && has(rounds.text, said), "what is said of a pass", rounds);
    expect(rounds.least_at_least == 0, "the least k only where k is over 1", rounds);
    CheckOptions options = some(1);
    options.rounds = std::nullopt;
    options.seconds = 0.3;
    const CheckReport time = run(Fault::none, options);
    expect(time.passed() && time.seconds >= 0.3 && time.seconds < 60 && time.rounds > 0, "a limit of time", time);
    CheckOptions brief = some(40);
    brief.seconds = 0;
    expect(run(Fault::none, brief).rounds == 1, "the first round is made in any case");
    CheckOptions wide = some(4);
    wide.threads = 64;
    wide.calls = 40;
    expect(run(Fault::none, wide).passed(), "64 threads");
    CheckOptions seeded = some(3);
    seeded.seed = 7;
    expect(run(Fault::none, seeded).seed == 7, "a seed that is given");
}

void makers_and_handles() {
    const auto push = [](auto &queue, std::uint32_t item) { return queue.push(item); };
    const auto pop = [](auto &queue) { return queue.pop(); };
    const auto pointer = kfifo::check([] { return std::make_unique<Queue>(); }, push, pop, some(20));
    expect(pointer.passed(), "a unique_ptr to a queue", pointer);
    const auto answers = kfifo::check([] { return std::make_shared<Queue>(); },
                                      [](Queue &queue, std::uint32_t item) {
                                          return item % 5 == 0 ? Answer::busy : (queue.push(item), Answer::done);
                                      },
                                      [](Queue &queue) {
                                          const auto item = queue.pop();
                                          return item ? kfifo::Got{Answer::got, *item} : kfifo::Got{};
                                      },
                                      some(20));
    expect(answers.passed(), "a shared_ptr to a queue, and answers of its own", answers);

    struct Handle {
        Handle(Queue &of, unsigned number) : queue(of), thread(number) {}
        Handle(const Handle &) = delete;
        Queue &queue;
        unsigned thread;
        std::atomic<int> inside{0};
    };
    const auto alone = [](Handle &handle, auto call) {
        if (handle.inside++ != 0) throw std::logic_error("two threads use one handle");
        auto answer = call(handle.queue);
        handle.inside--;
        return answer;
    };
    const auto handles = kfifo::check_with_handles(
        [] { return Queue(); }, [](Queue &queue, unsigned thread) { return Handle(queue, thread); },
        [alone](Handle &handle, std::uint32_t item) { return alone(handle, [=](Queue &of) { return of.push(item); }); },
        [alone](Handle &handle) { return alone(handle, [](Queue &of) { return of.pop(); }); }, some(50));
    expect(handles.passed(), "a handle for each thread", handles);
}

// Each kind of caller keeps to its calls: thread 0 gets where one thread gets, and the last one puts where one puts.
void callers(bool one_puts, bool one_gets) {
    struct Handle {
        Queue &queue;
        unsigned thread;
    };
    CheckOptions options = some(60);
    options.one_producer = one_puts;
    options.one_consumer = one_gets;
    if (!(one_puts && one_gets)) options.threads = 4;
    const unsigned last = options.threads.value_or(2) - 1;
    const CheckReport report = kfifo::run_check_with_handles([] { return Queue(); },
                                                             [](Queue &queue, unsigned thread) {
                                                                 return Handle{queue, thread};
                                                             },
                                                             [=](Handle &handle, std::uint32_t item) {
                                                                 if (one_puts && handle.thread != last)
                                                                     throw std::logic_error("a second thread puts");
                                                                 if (one_gets && handle.thread == 0)
                                                                     throw std::logic_error("the one that gets puts");
                                                                 return handle.queue.push(item);
                                                             },
                                                             [=](Handle &handle) {
                                                                 // Thread 0 empties the queue after a round.
                                                                 if (one_gets && handle.thread != 0)
                                                                     throw std::logic_error("a second thread gets");
                                                                 if (one_puts && handle.thread == last)
                                                                     throw std::logic_error("the one that puts gets");
                                                                 return handle.queue.pop();
                                                             },
                                                             options);
    expect(report.passed() && is_whole(report, options), "which thread makes which calls", report);
}

// Items are distinct in a queue's life, or drawn from few.
void items() {
    struct Counting : Queue {
        std::vector<std::atomic<unsigned>> pushed = std::vector<std::atomic<unsigned>>(1 << 20);
    };
    const auto pushes = [](std::uint32_t most) {
        return [most](Counting &queue, std::uint32_t item) {
            if (item == 0 || item >= queue.pushed.size()) throw std::logic_error("an item out of range");
            if (++queue.pushed[item] > most) throw std::logic_error("an item came again");
            return queue.push(item);
        };
    };
    const auto pop = [](Counting &queue) { return queue.pop(); };
    const CheckReport distinct = kfifo::run_check([] { return Counting(); }, pushes(1), pop, some(200));
    expect(distinct.passed(), "distinct items", distinct);
    CheckOptions options = some(40);
    options.repeated = 3;
    const CheckReport repeated = kfifo::run_check([] { return Counting(); }, pushes(1), pop, options);
    expect(repeated.outcome == Outcome::threw && has(repeated.text, "an item came again"), "repeated items", repeated);
    const CheckReport few = kfifo::run_check([] { return Queue(); },
                                             [](Queue &queue, std::uint32_t item) {
                                                 if (item < 1 || item > 3)
                                                     throw std::logic_error("an item out of range");
                                                 return queue.push(item);
                                             },
                                             [](Queue &queue) { return queue.pop(); }, options);
    expect(few.passed() && is_whole(few, options), "items from 1 to 3", few);
}

// Whether a report names the same calls as the judge does.
bool has_named(const CheckReport &report, const kfifo_judge_report &judged) {
    const auto is_same = [](const kfifo_judge_named &one, const kfifo_judge_named &other) {
        return one.number == other.number && one.line == other.line && one.call.item == other.call.item;
    };
    return !report.named.empty() && std::equal(report.named.begin(), report.named.end(), judged.named,
                                               judged.named + judged.named_count, is_same);
}

void no_order() {
    const CheckReport lost = run(Fault::lost, some(1000));
    expect(lost.outcome == Outcome::no_order && has(lost.text, "no legal order"), "a lost item", lost);
    expect(has(lost.reason, "no order for k = 1\n") && names_fault(lost, " put ", "00 from "), "its reason", lost);
    expect(has(lost.text, lost.reason.substr(0, lost.reason.size() - 1)), "the reason in the report", lost);
    const std::string head = "kfifo check of queue for k = 1: no legal order: " + lost.headline + "\n";
    expect(lost.evidence == KFIFO_JUDGE_NOT_EMPTY && lost.text.rfind(head, 0) == 0, "its headline", lost);
    expect(has(lost.text, "seed " + std::to_string(lost.seed)) && has(lost.text, " threads, "), "its round", lost);
    expect(has(content(lost.picture), "<svg"), "the picture of it", lost);
    const std::string log = content(lost.log);
    expect(log.rfind("thread,op,item,first,last,answer\n", 0) == 0, "the header of the log", lost);
    kfifo_judge_report again{};
    kfifo_judge_text(log.data(), log.size(), 1, KFIFO_JUDGE_TRIES, &again);
    expect(again.status == KFIFO_JUDGE_NO_ORDER && lost.reason == again.text, "the log has the same verdict", lost);
    expect(lost.evidence_name == "not empty" && has_named(lost, again), "the calls that it names", lost);
    kfifo_judge_clear(&again);

    const CheckReport wide = run(Fault::wide_item, some(1000));
    expect(wide.outcome == Outcome::no_order && has(wide.reason, "got item 42949"), "an item of 64 bits", wide);
    CheckOptions options = some(1000);
    options.folder = std::nullopt;
    const CheckReport temporary = run(Fault::lost, options);
    expect(has(content(temporary.picture), "<svg"), "the folder for temporary files", temporary);
    std::remove(temporary.log.c_str());
    std::remove(temporary.picture.c_str());
}

// A last in, first out queue of four places never passes over more than three items.
void relaxed() {
    class Stack {
      public:
        bool push(std::uint32_t item) {
            const std::lock_guard<std::mutex> guard(mutex);
            if (items.size() == 4) return false;
            items.push_back(item);
            return true;
        }
        std::optional<std::uint32_t> pop() {
            const std::lock_guard<std::mutex> guard(mutex);
            if (items.empty()) return std::nullopt;
            const std::uint32_t item = items.back();
            items.pop_back();
            return item;
        }

      private:
        std::mutex mutex;
        std::deque<std::uint32_t> items;
    };
    const auto run_with = [](std::uint32_t k) {
        CheckOptions options = some(400);
        options.k = k;
        return kfifo::run_check([] { return Stack(); },
                                [](Stack &stack, std::uint32_t item) { return stack.push(item); },
                                [](Stack &stack) { return stack.pop(); }, options);
    };
    const CheckReport four = run_with(4), three = run_with(3);
    expect(four.passed(), "legal for k = 4", four);
    expect(four.least_at_least == 4 && four.least_at_most >= 4, "the least k is 4", four);
    expect(three.outcome == Outcome::no_order && has(three.text, "no order for k = 3"), "not for k = 3", three);
}

void wrong_use() {
    const CheckReport answer =
        kfifo::run_check([] { return Queue(); }, [](Queue &, std::uint32_t) { return Answer::got; },
                         [](Queue &queue) { return queue.pop(); }, some(1000));
    expect(answer.outcome == Outcome::no_verdict && has(answer.text, "not the queue"), "a push that got", answer);
    const CheckReport maker =
        kfifo::run_check([]() -> std::unique_ptr<Queue> { throw std::runtime_error("no queue today"); },
                         [](Queue &queue, std::uint32_t item) { return queue.push(item); },
                         [](Queue &queue) { return queue.pop(); }, some(10));
    expect(maker.outcome == Outcome::threw && has(maker.text, "the maker: no queue today"), "a maker throws", maker);
    const CheckReport full = kfifo::run_check([] { return Queue(); }, [](Queue &, std::uint32_t) { return false; },
                                              [](Queue &queue) { return queue.pop(); }, some(20));
    expect(full.outcome == Outcome::no_verdict && has(full.text, "no get took an item"), "an idle queue", full);
}

// The faults of the gallery have the headlines that the table beside their logs has.
void gallery() {
    std::ifstream table("tests/checker/gallery/headlines.csv");
    std::string line;
    unsigned rows = 0;
    for (std::getline(table, line); std::getline(table, line); rows++) {
        const std::size_t first = line.find(','), second = line.find(',', first + 1);
        const std::string log = content("tests/checker/gallery/" + line.substr(0, first));
        kfifo_judge_report report{};
        kfifo_judge_text(log.data(), log.size(), 1, KFIFO_JUDGE_TRIES, &report);
        const std::string evidence = std::to_string(report.evidence);
        const std::string said = report.headline ? report.headline : "";
        expect(evidence == line.substr(first + 1, second - first - 1), "the evidence of a fault of the gallery");
        expect(said == line.substr(second + 1), "the headline of a fault of the gallery");
        kfifo_judge_clear(&report);
    }
    expect(rows >= 2, "the table of the gallery");
}

void other_verdicts() {
    pretended = KFIFO_JUDGE_UNDECIDED;
    const CheckReport all = run(Fault::none, some(20));
    expect(all.outcome == Outcome::undecided && all.undecided == all.rounds, "each round is undecided", all);
    expect(all.tries == 7, "its tries", all);
    CheckOptions options = some(20);
    options.undecided_fails = true;
    const CheckReport first = run(Fault::none, options);
    expect(first.outcome == Outcome::undecided && first.undecided == 1, "an undecided round is a failure", first);
    expect(has(first.text, "undecided for k = 1") && has(content(first.log), "enq"), "its log", first);
    pretended = KFIFO_JUDGE_NO_MEMORY;
    const CheckReport memory = run(Fault::none, some(20));
    expect(memory.outcome == Outcome::no_verdict && has(memory.text, "ran out of memory"), "no memory", memory);
    pretended = KFIFO_JUDGE_LEGAL;
}

void threw() {
    const CheckReport report = run(Fault::throws, some(1000));
    expect(report.outcome == Outcome::threw && has(report.text, "no such item"), "a push that throws", report);
    expect(has_unfinished(report), "the log of a call that threw", report);
    try {
        kfifo::check([] { return Queue(Fault::throws); },
                     [](Queue &queue, std::uint32_t item) { return queue.push(item); },
                     [](Queue &queue) { return queue.pop(); }, some(1000));
        expect(false, "check throws");
    } catch (const kfifo::CheckFailed &failed) {
        expect(failed.report().outcome == Outcome::threw && failed.what() == failed.report().text, "what it throws",
               failed.report());
    }
}

#ifndef FEWER
// These end the process that makes the calls, so they need the child process.
void ends_of_the_child() {
    const CheckReport crash = run(Fault::crashes, some(1000));
    expect(crash.outcome == Outcome::crash && has(crash.text, "died by signal 11"), "a crash", crash);
    expect(names_fault(crash, "was in a put of item ", "00"), "where it crashed", crash);
    expect(has_unfinished(crash), "the log of a crash", crash);
    const CheckReport end = run(Fault::at_its_end, some(10));
    expect(end.outcome == Outcome::crash && has(end.text, "was in the destructor of the queue"), "a last crash", end);
    const CheckReport exited = run(Fault::exits, some(1000));
    expect(exited.outcome == Outcome::crash && has(exited.text, "ended with status 7"), "an exit", exited);
    CheckOptions options = some(1000);
    options.hang_seconds = 0.1;
    for (const Fault fault : {Fault::spins, Fault::sleeps}) {
        const CheckReport hang = run(fault, options);
        expect(hang.outcome == Outcome::hang, "a hang", hang);
        expect(names_fault(hang, "was in a put of item ", "00, call "), "where it hangs", hang);
        expect(has_unfinished(hang), "the log of a hang", hang);
        expect(hang.seconds >= 0.1 && hang.seconds < 60, "the time of a hang", hang);
    }
}

// A hang in the process itself is reported, and then the process is aborted.
void hang_in_process() {
    int ends[2];
    if (pipe(ends) != 0) return expect(false, "a pipe");
    const pid_t child = fork();
    if (child == 0) {
        dup2(ends[1], 2);
        close(ends[0]);
        close(ends[1]);
        CheckOptions options = some(1000);
        options.in_process = true;
        options.hang_seconds = 0.1;
        run(Fault::spins, options);
        _exit(0);
    }
    close(ends[1]);
    std::string said;
    char bytes[4096];
    for (ssize_t count = 0; (count = read(ends[0], bytes, sizeof bytes)) > 0;) said.append(bytes, std::size_t(count));
    close(ends[0]);
    int status = 0;
    waitpid(child, &status, 0);
    expect(WIFSIGNALED(status) && WTERMSIG(status) == SIGABRT, "the process is aborted");
    expect(has(said, "was in a put of item ") && has(said, "cannot be stopped"), said.c_str());
}

void in_process() {
    CheckOptions options = some(50);
    options.in_process = true;
    expect(run(Fault::none, options).passed(), "a right queue in this process");
    options.rounds = 1000;
    const CheckReport lost = run(Fault::lost, options);
    expect(lost.outcome == Outcome::no_order, "a lost item in this process", lost);
    expect(names_fault(lost, " put ", "00 from "), "its reason in this process", lost);
}
#endif

} // namespace

int main(int, char **words) {
    const std::string program = words[0];
    if (program.find('/') != program.npos) folder = program.substr(0, program.rfind('/'));
    options_out_of_range();
    limits_and_counts();
    makers_and_handles();
    for (const bool one_puts : {false, true})
        for (const bool one_gets : {false, true}) callers(one_puts, one_gets);
    items();
    no_order();
    relaxed();
    wrong_use();
    other_verdicts();
    gallery();
    threw();
#ifndef FEWER
    ends_of_the_child();
    hang_in_process();
    in_process();
#endif
    if (failures == 0) std::puts("test_checker_use passed");
    return failures > 0;
}
