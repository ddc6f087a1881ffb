// Whether the reports of kfifo_test.hpp are those of tests/checker/reports.txt, which the tests in Rust and Python
// share.
#include "checker/pretended.hpp"
#include "kfifo_test.hpp"

#include <algorithm>
#include <cstdio>
#include <deque>
#include <fcntl.h>
#include <fstream>
#include <iterator>
#include <map>
#include <string>
#include <vector>

namespace {

using kfifo::CheckOptions;
using kfifo::CheckReport;
using Lines = std::vector<std::string>;

// The files of this test stand in a folder beside the program.
std::string folder = ".";

// The lines of each report of the table, by its name.
std::map<std::string, Lines> wanted_reports() {
    std::map<std::string, Lines> found;
    std::ifstream table("tests/checker/reports.txt");
    std::string name;
    for (std::string line; std::getline(table, line);) {
        if (!line.empty() && line[0] == '[')
            name = line.substr(1, line.size() - 2);
        else if (!line.empty() && !name.empty())
            found[name].push_back(line);
    }
    return found;
}

// Whether a line is as wanted, where `*` is any text.
bool is_line(const std::string &wanted, const std::string &line) {
    const std::size_t star = wanted.find('*');
    if (star == wanted.npos) return wanted == line;
    if (line.compare(0, star, wanted, 0, star) != 0) return false;
    for (std::size_t at = star; at <= line.size(); at++)
        if (is_line(wanted.substr(star + 1), line.substr(at))) return true;
    return false;
}

// Whether lines are as wanted, where a line `..` is any number of them.
bool are_lines(const Lines &wanted, const Lines &lines, std::size_t first = 0, std::size_t at = 0) {
    if (first == wanted.size()) return at == lines.size();
    if (wanted[first] != "..")
        return at < lines.size() && is_line(wanted[first], lines[at]) && are_lines(wanted, lines, first + 1, at + 1);
    for (; at <= lines.size(); at++)
        if (are_lines(wanted, lines, first + 1, at)) return true;
    return false;
}

Lines lines_of(const std::string &text) {
    Lines lines(1);
    for (const char letter : text) {
        if (letter == '\n')
            lines.emplace_back();
        else
            lines.back() += letter;
    }
    return lines;
}

CheckOptions some() {
    CheckOptions options;
    options.rounds = 3;
    options.seconds = 20;
    options.folder = folder + "/test_reports.files";
#ifdef FEWER
    options.in_process = true;
#endif
    return options;
}

// A right queue, or with `is_stack` a wrong one.
class Queue {
  public:
    explicit Queue(bool of = false) : is_stack(of) {}
    bool push(std::uint32_t item) {
        const std::lock_guard<std::mutex> guard(mutex);
        items.push_back(item);
        return true;
    }
    std::optional<std::uint32_t> pop() {
        const std::lock_guard<std::mutex> guard(mutex);
        if (items.empty()) return std::nullopt;
        const std::uint32_t item = is_stack ? items.back() : items.front();
        is_stack ? items.pop_back() : items.pop_front();
        return item;
    }
    std::atomic<unsigned> gets{0};

  private:
    std::mutex mutex;
    std::deque<std::uint32_t> items;
    bool is_stack;
};

bool put(Queue &queue, std::uint32_t item) { return queue.push(item); }
std::optional<std::uint32_t> get(Queue &queue) { return queue.pop(); }

std::string right(const CheckOptions &options) {
    return kfifo::run_check([] { return std::make_unique<Queue>(); }, put, get, options).text;
}

std::string passed() { return right(some()); }

std::string no_order_in(const std::string &place) {
    CheckOptions options = some();
    options.rounds = std::nullopt;
    options.folder = place;
    return kfifo::run_check([] { return std::make_unique<Queue>(true); }, put, get, options).text;
}

std::string no_order() { return no_order_in(*some().folder); }

std::string not_written() {
    const std::string blocked = folder + "/test_reports.blocked";
    std::ofstream(blocked) << "a file";
    return no_order_in(blocked);
}

// The report of a check that passed after 100 sampled calls, one of which overlapped, and with these bounds of the
// least k; none for k = 1.
std::string sampled(std::uint32_t k, std::uint32_t at_least, std::uint32_t at_most) {
    kfifo::checking::Settings settings;
    settings.options.k = k;
    const kfifo::checking::SharedMemory memory(settings);
    kfifo::checking::Board &board = memory.board();
    board.rounds = 1;
    board.calls = board.sampled = 100;
    board.overlapping = 1;
    board.has_got = true;
    board.least_at_least = at_least;
    board.least_at_most = at_most;
    board.least_unknown = k > 1 && at_most == 0;
    board.end(kfifo::checking::Ended::in_time);
    return kfifo::checking::Reporter(settings, memory).make(1, 0).text;
}

std::string few_overlapping() { return sampled(1, 0, 0); }
std::string least() { return sampled(4, 2, 3); }
std::string least_unknown() { return sampled(4, 2, 0); }

std::string undecided_with(bool fails) {
    CheckOptions options = some();
    options.undecided_fails = fails;
    pretended = KFIFO_JUDGE_UNDECIDED;
    const std::string text = right(options);
    pretended = KFIFO_JUDGE_LEGAL;
    return text;
}

std::string undecided() { return undecided_with(true); }
std::string none_decided() { return undecided_with(false); }

std::string nothing_taken() {
    const auto full = [](Queue &, std::uint32_t) { return false; };
    return kfifo::run_check([] { return std::make_unique<Queue>(); }, full, get, some()).text;
}

std::string failed_call() {
    const auto fail = [](Queue &) -> std::optional<std::uint32_t> { throw std::runtime_error("no such slot"); };
    return kfifo::run_check([] { return std::make_unique<Queue>(); }, put, fail, some()).text;
}

std::string fault() {
    const auto wrong = [](Queue &, std::uint32_t) { return kfifo::Answer::got; };
    return kfifo::run_check([] { return std::make_unique<Queue>(); }, wrong, get, some()).text;
}

#ifndef FEWER
// These need the child process.
[[noreturn]] void sleep() {
    for (;;) std::this_thread::sleep_for(std::chrono::seconds(1));
}

std::string hang() {
    CheckOptions options = some();
    options.hang_seconds = 0.05;
    const auto put_never = [](Queue &, std::uint32_t) -> bool { sleep(); };
    return kfifo::run_check([] { return std::make_unique<Queue>(); }, put_never, get, options).text;
}

// A round of two calls, of which the queue never ends the third get. It is in the get that empties the queue, except
// where one thread puts and the other gets nothing.
std::string hang_after_a_round() {
    CheckOptions options = some();
    options.threads = 2;
    options.calls = options.rounds = 1;
    options.hang_seconds = 0.05;
    const auto get_twice = [](Queue &queue) {
        if (queue.gets++ == 2) sleep();
        return queue.pop();
    };
    for (int tries = 0; tries < 100; tries++) {
        const auto report = kfifo::run_check([] { return std::make_unique<Queue>(); }, put, get_twice, options);
        if (report.outcome == kfifo::Outcome::hang) return report.text;
    }
    return "none of them hangs";
}

// What a check of two seconds writes to a terminal that is its standard error.
std::string progress() {
    const int own = posix_openpt(O_RDWR | O_NOCTTY);
    if (own < 0 || grantpt(own) != 0 || unlockpt(own) != 0) return "there is no terminal";
    const pid_t child = fork();
    if (child == 0) {
        dup2(open(ptsname(own), O_RDWR | O_NOCTTY), 2);
        CheckOptions options = some();
        options.rounds = std::nullopt;
        options.seconds = 2;
        right(options);
        _exit(0);
    }
    waitpid(child, nullptr, 0);
    // What the child wrote last may come later than its end. A read fails only after all of it.
    std::string said;
    char bytes[4096];
    for (ssize_t count = 0; (count = read(own, bytes, sizeof bytes)) > 0;) said.append(bytes, std::size_t(count));
    close(own);
    return said;
}

// Whether each line of progress is as wanted, and the last one is cleared.
bool is_progress(const Lines &wanted) {
    static const std::string clear = "\r\033[K";
    std::string said = progress();
    bool is_right = said.size() > 2 * clear.size() && said.compare(said.size() - clear.size(), clear.npos, clear) == 0;
    for (std::size_t end = 0; is_right && said != clear; said.erase(0, end)) {
        end = said.find(clear, clear.size());
        is_right = are_lines(wanted, {said.substr(clear.size(), end - clear.size())});
    }
    if (!is_right) std::printf("progress: FAILED: %s\n", said.c_str());
    return is_right;
}
#endif

struct Case {
    const char *name;
    std::string (*text)();
};

// A check for each report of the table but that of progress.
const Case CASES[] = {
    {"passed", passed},
    {"few overlapping", few_overlapping},
    {"least k", least},
    {"least k unknown", least_unknown},
    {"no order", no_order},
    {"not written", not_written},
    {"undecided", undecided},
    {"none decided", none_decided},
    {"nothing taken", nothing_taken},
    {"failed call", failed_call},
    {"fault", fault},
#ifndef FEWER
    {"hang", hang},
    {"hang after a round", hang_after_a_round},
#endif
};

bool is_right(const Case &of, const Lines &wanted) {
    const std::string text = of.text();
    const bool is_right = are_lines(wanted, lines_of(text));
    if (!is_right) std::printf("%s: FAILED:\n%s\n", of.name, text.c_str());
    return is_right;
}

} // namespace

int main(int, char **words) {
    const std::string program = words[0];
    if (program.find('/') != program.npos) folder = program.substr(0, program.rfind('/'));
    std::map<std::string, Lines> wanted = wanted_reports();
    int failures = 0;
    for (const Case &of : CASES) failures += !is_right(of, wanted[of.name]);
#ifndef FEWER
    failures += !is_progress(wanted["progress"]);
    if (wanted.size() != std::size(CASES) + 1) failures += std::puts("FAILED: the table has other reports") >= 0;
#endif
    if (failures == 0) std::puts("test_reports passed");
    return failures > 0;
}
