// The report of a check, with the log and the picture of the round that shows the fault.
#ifndef KFIFO_TEST_REPORT_HPP
#define KFIFO_TEST_REPORT_HPP

#include "../kfifo_judge.h"
#include "design.hpp"
#include "interface.hpp"
#include "shared_memory.hpp"
#include "verdict.hpp"

#include <atomic>
#include <cerrno>
#include <cstddef>
#include <cstdint>
#include <cstdio>
#include <cstring>
#include <filesystem>
#include <fstream>
#include <optional>
#include <sstream>
#include <string>
#include <sys/wait.h>
#include <system_error>
#include <unistd.h>
#include <vector>

namespace kfifo::checking {

inline std::string rounded(double number, int digits) {
    char text[64];
    std::snprintf(text, sizeof text, "%.*f", digits, number);
    return text;
}
// The share of calls that overlap another one, in a sample of rounds.
inline double share_overlapping(const Board &board) noexcept {
    const double sampled = double(board.sampled);
    return sampled > 0 ? double(board.overlapping) / sampled : 0;
}
// How much was looked at, and after how many tries the search gave up in the undecided rounds, at most.
inline std::string counts_of(const Board &board) {
    const std::string tried = " after at most " + std::to_string(board.tries) + " tries each";
    return std::to_string(board.rounds) + " rounds, " + std::to_string(board.calls) + " calls, " +
           rounded(100 * share_overlapping(board), 0) + " % overlapping, " + std::to_string(board.undecided) +
           " undecided" + (board.undecided > 0 ? tried : "");
}

// A log as `kfifo judge` reads it.
inline std::string csv_of(const std::vector<kfifo_judge_call> &calls) {
    static const char *const answers[] = {"", "done", "full", "got", "empty", "busy", "worn"};
    std::ostringstream out;
    out << "thread,op,item,first,last,answer\n";
    for (const kfifo_judge_call &call : calls) {
        out << call.thread << (call.op == KFIFO_JUDGE_PUT ? ",enq," : ",deq,");
        if (call.op == KFIFO_JUDGE_PUT || call.answer == KFIFO_JUDGE_GOT) out << call.item;
        out << ',' << call.first << ',';
        if (call.answer != KFIFO_JUDGE_UNFINISHED) out << call.last;
        out << ',' << answers[call.answer <= KFIFO_JUDGE_WORN ? call.answer : 0] << '\n';
    }
    return out.str();
}

// Writes a file, and returns why that cannot be done, or an empty text.
inline std::string write_file(const std::string &name, const std::string &content) {
    errno = 0;
    std::ofstream out(name, std::ios::binary);
    out << content;
    out.close();
    return out ? "" : std::generic_category().message(errno == 0 ? EIO : errno);
}

// Makes the report of a check from what the shared memory has, in the caller's process: a faulty queue may have damaged
// the memory of the process that it ran in.
class Reporter {
  public:
    Reporter(const Settings &of, const SharedMemory &from) : settings(of), memory(from), board(from.board()) {}

    // `status` is that of the child process, as waitpid has it, or 0.
    CheckReport make(double seconds, int status) {
        report.seconds = seconds;
        count();
        const Ended ended = board.ended;
        if (ended == Ended::in_time && status == 0) return no_fault();
        // A round that was played before may already show what led to a hang or a crash, and says more.
        if (const std::optional<unsigned> bad = bad_slot()) return bad_round(*bad);
        // The thread whose call threw waits for the others, which looks like a hang of that call.
        if (ended == Ended::hang && !board.has_note) {
            end(Outcome::hang, "a call did not return");
            return finish_with_round(hanging());
        }
        if (ended == Ended::hang || ended == Ended::threw) {
            end(Outcome::threw, "a call failed");
            return finish_with_round(note());
        }
        if (ended == Ended::broken) {
            end(Outcome::no_verdict, "the check could not go on: " + note());
            return finish_with_round("");
        }
        end(Outcome::crash, death(status));
        return finish_with_round(dying());
    }

  private:
    void count() {
        report.rounds = board.rounds;
        report.calls = board.calls;
        report.undecided = board.undecided;
        report.tries = board.tries;
        report.seed = settings.seed;
        report.overlapping = share_overlapping(board);
        report.least_at_least = board.least_at_least;
        report.least_at_most = board.least_unknown > 0 ? 0 : board.least_at_most.load();
    }
    std::string note() const { return std::string(board.note, strnlen(board.note, sizeof board.note)); }
    // The first line of the report.
    void end(Outcome outcome, const std::string &line) {
        report.outcome = outcome;
        report.text =
            "kfifo check of " + settings.options.name + " for k = " + std::to_string(settings.options.k) + ": " + line;
    }
    void add(const std::string &lines) {
        if (!lines.empty()) report.text += "\n" + lines;
        while (report.text.back() == '\n') report.text.pop_back();
    }

    // The last line.
    std::string counts() const {
        std::string text = counts_of(board) + ", seed " + std::to_string(report.seed);
        if (report.least_at_least == 0) return text;
        text += "; of a sample the least k is at least " + std::to_string(report.least_at_least) + " and at most ";
        return text + (report.least_at_most > 0 ? std::to_string(report.least_at_most) : "unknown");
    }

    // A check that could not have found a fault has not passed.
    CheckReport no_fault() {
        if (report.rounds == report.undecided)
            end(Outcome::undecided, "no round has a verdict");
        else if (!board.has_got)
            end(Outcome::no_verdict, "no get took an item, so nothing was tested");
        else
            end(Outcome::passed, "no fault found");
        if (report.overlapping < 0.2)
            add("few calls overlapped, so few faults could show: try more processors or more seconds");
        add(counts());
        return report;
    }

    // The first round that was played and is not legal. Where the child process has not judged it, it is judged here.
    std::optional<unsigned> bad_slot() const {
        std::optional<unsigned> found;
        for (unsigned index = 0; index < SLOTS; index++) {
            const Slot &slot = board.slots[index];
            if (slot.state != SlotState::played) continue;
            if (found && board.slots[*found].number < slot.number) continue;
            const Verdict verdict(calls_of(memory, index), settings.options);
            if (is_bad(verdict.status(), settings.options)) found = index;
        }
        return found;
    }

    CheckReport bad_round(unsigned index) {
        const std::vector<kfifo_judge_call> calls = calls_of(memory, index);
        const Verdict verdict(calls, settings.options);
        report.reason = verdict.text();
        report.headline = verdict.headline();
        report.evidence = verdict.evidence();
        report.evidence_name = kfifo_judge_evidence_name(report.evidence);
        report.named = verdict.named();
        std::string details = report.reason;
        std::optional<kfifo_draw_part> part;
        if (verdict.status() == KFIFO_JUDGE_NO_ORDER) {
            end(Outcome::no_order, "no legal order: " + report.headline);
            part = KFIFO_DRAW_EVIDENCE;
        } else if (verdict.status() == KFIFO_JUDGE_UNDECIDED) {
            end(Outcome::undecided, "a round is undecided");
        } else {
            end(Outcome::no_verdict, "a log cannot be judged: the check or its functions are wrong, not the queue");
            details += "a put answers done, full, busy or worn, a get got, empty, busy or worn";
        }
        return finish(index, calls, part, details);
    }

    // What each thread was in that was in a call.
    std::string hanging() const {
        std::string text;
        for (unsigned lane = 0; lane < memory.lanes(); lane++)
            if (what_of(board.lanes[lane].now) != Doing::nothing)
                text += text_of(lane) + ", for " + rounded(double(board.lanes[lane].spent) / 1e9, 2) +
                        " s of processor time and " + rounded(double(board.lanes[lane].lasted) / 1e9, 2) +
                        " s in all\n";
        return text.empty() ? NO_CALL : text;
    }

    // How the process ended, in words.
    std::string death(int status) const {
        std::string text = "the process that made the calls ";
        if (WIFSIGNALED(status))
            text += "died by signal " + std::to_string(WTERMSIG(status)) + " (" + strsignal(WTERMSIG(status)) + ")";
        else if (status != 0)
            text += "ended with status " + std::to_string(WEXITSTATUS(status));
        else
            text += "ended before its time"; // or its status is not known, where the caller ignores SIGCHLD
        return board.has_note ? text + ": " + note() : text;
    }

    // What each thread was in when the process ended.
    std::string dying() const {
        std::string text;
        for (unsigned lane = 0; lane < memory.lanes(); lane++)
            if (what_of(board.lanes[lane].now) != Doing::nothing) text += text_of(lane) + "\n";
        return text.empty() ? NO_CALL : text;
    }

    // As "thread 2 was in a put of item 17, call 5 of its own".
    std::string text_of(unsigned lane) const {
        const std::uint64_t now = board.lanes[lane].now;
        const bool empties = lane == settings.threads; // thread 0, after the calls of its first lane
        const std::size_t before = complete_of(now) + (empties ? complete_of(board.lanes[0].now) : 0);
        const std::string thread = "thread " + std::to_string(empties ? 0 : lane) + " was in ";
        const std::string number = ", call " + std::to_string(before + 1) + " of its own";
        switch (what_of(now)) {
        case Doing::put: return thread + "a put of item " + std::to_string(item_of(now)) + number;
        case Doing::making: return thread + "the maker of the queue";
        case Doing::destroying: return thread + "the destructor of the queue";
        default: return thread + "a get" + (empties ? " that empties the queue" : "") + number;
        }
    }

    // Ends the report with the round that was being played, if there is one.
    CheckReport finish_with_round(const std::string &details) {
        for (unsigned index = 0; index < SLOTS; index++)
            if (board.slots[index].state == SlotState::playing)
                return finish(index, unfinished_calls_of(memory, index), KFIFO_DRAW_ALL, details);
        add(details);
        add(counts());
        return report;
    }

    CheckReport finish(unsigned index, const std::vector<kfifo_judge_call> &calls, std::optional<kfifo_draw_part> part,
                       const std::string &details) {
        const Slot &slot = board.slots[index];
        add("round " + std::to_string(slot.number) + ": " + text(slot.design) + "; times are " +
            (board.has_ticks ? "ticks of the processor's counter" : "nanoseconds"));
        add(details);
        write_files(calls, part);
        add(counts());
        return report;
    }

    // Writes the log, and a picture if a part is to be drawn. Of too many calls there is none.
    void write_files(const std::vector<kfifo_judge_call> &calls, std::optional<kfifo_draw_part> part) {
        static std::atomic<unsigned> files{0};
        const CheckOptions &options = settings.options;
        std::error_code ignored; // a folder that cannot be made has no files
        const std::filesystem::path folder =
            options.folder ? std::filesystem::path(*options.folder) : std::filesystem::temp_directory_path(ignored);
        std::filesystem::create_directories(folder, ignored);
        const std::string stem = "kfifo-" + options.name + "-" + std::to_string(getpid()) + "-";
        const std::string file = (folder / (stem + std::to_string(files++))).string();
        report.log = written("log: ", file + ".csv", csv_of(calls));
        kfifo_judge_report drawn{};
        if (part &&
            kfifo_draw_calls(calls.data(), calls.size(), options.k, *part, KFIFO_DRAW_SVG, &drawn) == KFIFO_JUDGE_DRAWN)
            report.picture = written("picture: ", file + ".svg", drawn.text);
        kfifo_judge_clear(&drawn);
    }

    // Writes a file, and adds a line that says so, or why it cannot. Returns the name of a file that was written.
    std::string written(const char *what, const std::string &name, const std::string &content) {
        const std::string why = write_file(name, content);
        add(why.empty() ? what + name : "not written: " + name + ": " + why);
        return why.empty() ? name : "";
    }

    static constexpr const char *NO_CALL = "no thread was in a call of the queue";

    const Settings &settings;
    const SharedMemory &memory;
    Board &board;
    CheckReport report;
};

} // namespace kfifo::checking

#endif
