/*
 * Asks the judge's library once: refusals/check runs each case with each request for memory refused. The answer is what
 * it is with memory, or NO_MEMORY, with an empty report, where one was refused. --list prints the names of the cases.
 */
#include "kfifo_judge.h"

#include <stdio.h>
#include <stdlib.h>
#include <string.h>
#include <unistd.h>

#define COUNT(list) (sizeof(list) / sizeof(list)[0])

typedef enum question { JUDGE, LEAST, DRAW, DRAW_EVIDENCE, TEXT } question;

typedef struct run {
    size_t count;
    kfifo_judge_call calls[5];
} run;

/* first, last, item, thread, op, answer */
static const run legal = {3, {{10, 11, 1, 0, 0, 1}, {12, 13, 2, 0, 0, 1}, {14, 15, 1, 1, 1, 3}}};
static const run overtaken = {3, {{10, 11, 1, 0, 0, 1}, {12, 13, 2, 0, 0, 1}, {14, 15, 2, 1, 1, 3}}};
static const run nowhere = {2, {{10, 11, 1, 0, 0, 1}, {14, 15, 16777216, 1, 1, 3}}};
static const run early = {2, {{10, 11, 1, 0, 0, 1}, {15, 14, 1, 1, 1, 3}}};
static const run unknown = {2, {{10, 11, 1, 0, 0, 1}, {14, 15, 1, 1, 2, 3}}};
/* Equal items, which are judged by a search, and a put that has not returned. */
static const run repeated = {
    5, {{10, 19, 1, 0, 0, 1}, {11, 0, 1, 1, 0, 0}, {12, 18, 1, 2, 1, 3}, {13, 17, 1, 3, 1, 3}, {14, 16, 0, 4, 1, 4}}};

/* The search has an order for them after it has taken back one choice. */
static const run taken_back = {
    4, {{11, 15, 0, 0, 1, 4}, {10, 16, 2, 1, 0, 1}, {10, 10, 2, 2, 0, 1}, {12, 12, 2, 3, 1, 3}}};

static const char legal_csv[] = "thread,op,item,first,last,answer\n0,enq,1,10,11,done\n1,deq,1,14,15,got\n";
static const char wrong_csv[] = "thread,op,item,first,last,answer\n0,enq,1,10,11,done\n1,deq,1,14,15\n";
static const char overlapping_csv[] = "thread,op,item,first,last,answer\n0,enq,1,10,11,done\n0,deq,1,11,15,got\n";
static const char legal_record[] =
    "[{\"thread\":0,\"op\":\"enq\",\"item\":1,\"first\":0,\"last\":1,\"answer\":\"done\"},"
    " {\"thread\":1,\"op\":\"deq\",\"first\":4,\"last\":5,\"answer\":\"got\",\"item\":1}]";
static const char wrong_record[] =
    "[{\"thread\":0,\"op\":\"enq\",\"item\":1,\"first\":0,\"last\":1,\"answer\":\"done\"},"
    " {\"thread\":0,\"op\":\"deq\",\"first\":1,\"last\":5,\"answer\":\"got\",\"item\":1}]";
static const char no_json[] = "[{\"thread\":0,";

typedef struct test_case {
    const char *name;
    question question;
    const run *log;
    const char *text;
    uint64_t tries;
    kfifo_judge_status wanted;
    uint32_t fault;
    uint64_t place;
    size_t named;
} test_case;

static const test_case cases[] = {
    {"a-legal-log", JUDGE, &legal, NULL, 9, KFIFO_JUDGE_LEGAL, 0, 0, 0},
    {"an-item-that-overtook", JUDGE, &overtaken, NULL, 9, KFIFO_JUDGE_NO_ORDER, 0, 0, 2},
    {"an-item-from-nowhere", JUDGE, &nowhere, NULL, 9, KFIFO_JUDGE_NO_ORDER, 0, 0, 1},
    {"repeated-items", JUDGE, &repeated, NULL, 9, KFIFO_JUDGE_LEGAL, 0, 0, 0},
    {"undecided", JUDGE, &taken_back, NULL, 0, KFIFO_JUDGE_UNDECIDED, 0, 0, 0},
    {"an-early-end", JUDGE, &early, NULL, 9, KFIFO_JUDGE_FAULT, 6, 3, 0},
    {"an-unknown-operation", JUDGE, &unknown, NULL, 9, KFIFO_JUDGE_FAULT, 3, 3, 0},
    {"bounds", LEAST, &overtaken, NULL, 9, KFIFO_JUDGE_LEGAL, 0, 0, 0},
    {"no-bounds", LEAST, &nowhere, NULL, 9, KFIFO_JUDGE_NO_ORDER, 0, 0, 0},
    {"bounds-of-an-early-end", LEAST, &early, NULL, 9, KFIFO_JUDGE_FAULT, 6, 3, 0},
    {"a-picture", DRAW, &overtaken, NULL, 9, KFIFO_JUDGE_DRAWN, 0, 0, 0},
    {"a-picture-of-evidence", DRAW_EVIDENCE, &overtaken, NULL, 9, KFIFO_JUDGE_DRAWN, 0, 0, 0},
    {"a-picture-of-an-early-end", DRAW, &early, NULL, 9, KFIFO_JUDGE_FAULT, 6, 3, 0},
    {"a-legal-csv", TEXT, NULL, legal_csv, 9, KFIFO_JUDGE_LEGAL, 0, 0, 0},
    {"a-short-line", TEXT, NULL, wrong_csv, 9, KFIFO_JUDGE_FAULT, 0, 3, 0},
    {"an-overlap-in-csv", TEXT, NULL, overlapping_csv, 9, KFIFO_JUDGE_FAULT, 8, 3, 0},
    {"a-legal-record", TEXT, NULL, legal_record, 9, KFIFO_JUDGE_LEGAL, 0, 0, 0},
    {"an-overlap-in-a-record", TEXT, NULL, wrong_record, 9, KFIFO_JUDGE_FAULT, 8, 1, 0},
    {"no-json", TEXT, NULL, no_json, 9, KFIFO_JUDGE_FAULT, 0, 0, 0},
};

static kfifo_judge_status ask(const test_case *it, kfifo_judge_report *report) {
    switch (it->question) {
    case JUDGE: return kfifo_judge_calls(it->log->calls, it->log->count, 1, it->tries, report);
    case LEAST: return kfifo_least_calls(it->log->calls, it->log->count, it->tries, report);
    case DRAW: return kfifo_draw_calls(it->log->calls, it->log->count, 1, KFIFO_DRAW_ALL, KFIFO_DRAW_SVG, report);
    case DRAW_EVIDENCE:
        return kfifo_draw_calls(it->log->calls, it->log->count, 1, KFIFO_DRAW_EVIDENCE, KFIFO_DRAW_TEXT, report);
    case TEXT: return kfifo_judge_text(it->text, strlen(it->text), 1, it->tries, report);
    }
    return KFIFO_JUDGE_BAD_CALL;
}

/* Whether the report is that of a call for which there was no memory: nothing but the status. */
static int is_empty(const kfifo_judge_report *report) {
    kfifo_judge_report empty;
    memset(&empty, 0, sizeof empty);
    empty.status = KFIFO_JUDGE_NO_MEMORY;
    return memcmp(report, &empty, sizeof empty) == 0;
}

static int is_wanted(const test_case *it, const kfifo_judge_report *report) {
    return report->status == it->wanted && report->fault == it->fault && report->place == it->place &&
           report->named_count == it->named && report->text && report->length == strlen(report->text) &&
           report->length > 0;
}

/* refuse.c makes this file when it has refused something. */
static int was_refused(void) {
    const char *told = getenv("REFUSAL_TOLD");
    return told && access(told, F_OK) == 0;
}

int main(int count, char **words) {
    if (count == 2 && strcmp(words[1], "--list") == 0) {
        for (size_t n = 0; n < COUNT(cases); ++n) puts(cases[n].name);
        return 0;
    }
    for (size_t n = 0; n < COUNT(cases) && count == 2; ++n) {
        if (strcmp(words[1], cases[n].name) != 0) continue;
        kfifo_judge_report report;
        memset(&report, 0xff, sizeof report);
        const kfifo_judge_status status = ask(&cases[n], &report);
        const int refused = status == KFIFO_JUDGE_NO_MEMORY && was_refused() && is_empty(&report);
        const int right = status == report.status && (refused || is_wanted(&cases[n], &report));
        kfifo_judge_clear(&report);
        return right ? 0 : 1;
    }
    fprintf(stderr, "%s: give the name of a case, or --list\n", words[0]);
    return 2;
}
