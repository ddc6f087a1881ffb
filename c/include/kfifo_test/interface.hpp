// What a test of a queue says and gets: answers, options and the report.
#ifndef KFIFO_TEST_INTERFACE_HPP
#define KFIFO_TEST_INTERFACE_HPP

#include "../kfifo_judge.h"

#include <cstdint>
#include <optional>
#include <stdexcept>
#include <string>
#include <utility>
#include <vector>

namespace kfifo {

// What a call of the queue answered.
enum class Answer : std::uint8_t {
    done = KFIFO_JUDGE_DONE,   // of a put: the item is in the queue
    full = KFIFO_JUDGE_FULL,   // of a put: there was no room, and nothing was changed
    got = KFIFO_JUDGE_GOT,     // of a get: an item was taken
    empty = KFIFO_JUDGE_EMPTY, // of a get: there was no item
    busy = KFIFO_JUDGE_BUSY,   // the call gave up because of other threads, and changed nothing
    worn = KFIFO_JUDGE_WORN    // the queue can never again take such a call, and nothing was changed
};

// What a get may return where a std::optional says too little, as for a queue that may answer busy.
struct Got {
    Answer answer = Answer::empty;
    std::uint64_t item = 0; // only of Answer::got
};

// What a check does. The options that the checks of Rust and Python have too have their names and defaults.
struct CheckOptions {
    std::string name = "queue"; // of the queue, in the report and in the names of the files
    std::uint32_t k = 1;        // a get may return any of the k oldest items, 1 to 64; 1 is plain FIFO
    double seconds = 5;         // when rounds end; the first is made in any case
    std::optional<std::uint64_t> rounds = std::nullopt;   // after how many they end, where the time is not up before
    std::optional<std::uint64_t> seed = std::nullopt;     // what they are drawn from; none: another one in each check
    std::optional<unsigned> threads = std::nullopt;       // 2 to 64; none: 3, 4 or 8, drawn for each round
    std::optional<unsigned> calls = std::nullopt;         // of each thread in a round; none: 50, 100 or 200
    std::vector<unsigned> capacities = {2, 4, 8, 64};     // for a maker that takes one: drawn for each round
    bool one_producer = false;                            // whether the last thread alone puts, and puts only
    bool one_consumer = false;                            // whether thread 0 alone gets, and gets only
    std::optional<std::uint32_t> repeated = std::nullopt; // from how many items puts draw; none: each has its own
    bool signals = true;          // in one round of four a timer's signal interrupts threads inside calls
    bool undecided_fails = false; // whether a round without a verdict is a failure; it is counted in any case
    std::uint64_t tries = KFIFO_JUDGE_TRIES; // how many choices the search for an order may take back in a round
    double hang_seconds = 0.5; // processor time after which a call hangs; a call that sleeps has ten times as long
    bool in_process = false;   // no child process, for sanitizers and debuggers; a hang then ends in std::abort
    bool quiet = false;        // no line of progress, which else is shown where standard error is a terminal
    std::optional<std::string> folder = std::nullopt; // of a failure's log and picture; none: for temporary files
};

// How a check ended.
enum class Outcome {
    passed,    // each round has a legal order, or was undecided where options.undecided_fails is not set, but not all
    no_order,  // a round has no legal order: the queue is not a FIFO queue for this k
    hang,      // a call did not return
    crash,     // the child process died by a signal, or ended by itself
    threw,     // the maker, a put or a get threw an exception
    undecided, // no round has a verdict, or one has none and options.undecided_fails is set
    no_verdict // this says nothing of the queue: a round could not be judged, as where a put answers got, the check
               // could not go on, or no get took an item
};

// What a check found.
struct CheckReport {
    Outcome outcome = Outcome::passed;
    std::string text;     // the whole report, of one or more lines; the last has no line feed
    std::string reason;   // of no_order, undecided and no_verdict: what the judge printed
    std::string headline; // of no_order: what the evidence says of the queue, in words
    kfifo_judge_evidence evidence = KFIFO_JUDGE_NO_EVIDENCE; // of no_order: the kind of evidence
    std::string evidence_name;                               // and its name, as "too young"
    std::vector<kfifo_judge_named> named;                    // and the calls that it rests on, in the order of the text
    std::uint64_t rounds = 0;                                // how many were judged
    std::uint64_t calls = 0;                                 // in these rounds
    std::uint64_t undecided = 0;                             // rounds without a verdict
    std::uint64_t tries = 0;                                 // after how many the search gave up in these, at most
    double overlapping = 0;           // the share of calls that overlap another one, in a sample of rounds, 0 to 1
    double seconds = 0;               // how long the check took
    std::uint64_t seed = 0;           // draws the same designs again; the schedules will differ
    std::uint32_t least_at_least = 0; // the greatest lower bound of the least k in the sampled rounds; 0: none sampled
    std::uint32_t least_at_most = 0;  // the greatest upper bound; 0: none sampled, or no order found in one
    std::string log;                  // the name of the log that was written, or empty
    std::string picture;              // the name of the picture, or empty
    bool passed() const noexcept { return outcome == Outcome::passed; }
};

// What `check` throws where a check did not pass. what() is the text of the report.
class CheckFailed : public std::runtime_error {
  public:
    explicit CheckFailed(CheckReport of) : std::runtime_error(of.text), found(std::move(of)) {}
    const CheckReport &report() const noexcept { return found; }

  private:
    CheckReport found;
};

} // namespace kfifo

#endif
