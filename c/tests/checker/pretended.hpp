// Makes the judge say something else than its verdict. A program with this is linked with -Wl,--wrap=kfifo_judge_calls.
#ifndef PRETENDED_HPP
#define PRETENDED_HPP

#include "kfifo_judge.h"

#include <cstddef>
#include <cstdint>
#include <cstring>

// What the judge is made to say: KFIFO_JUDGE_LEGAL leaves it alone.
static kfifo_judge_status pretended = KFIFO_JUDGE_LEGAL;

extern "C" kfifo_judge_status __real_kfifo_judge_calls(const kfifo_judge_call *, std::size_t, std::uint32_t,
                                                       std::uint64_t, kfifo_judge_report *);
extern "C" kfifo_judge_status __wrap_kfifo_judge_calls(const kfifo_judge_call *calls, std::size_t count,
                                                       std::uint32_t k, std::uint64_t tries,
                                                       kfifo_judge_report *report) {
    if (pretended == KFIFO_JUDGE_LEGAL) return __real_kfifo_judge_calls(calls, count, k, tries, report);
    *report = {};
    if (pretended == KFIFO_JUDGE_UNDECIDED) {
        report->text = strdup("undecided for k = 1\nnothing is left to try after 7 tries\n");
        report->tries = 7;
    }
    return report->status = pretended;
}

#endif
