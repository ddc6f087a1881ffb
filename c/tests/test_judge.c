/* Tests of the calls of kfifo_judge.h: what a report has of each kind of evidence, of other verdicts, and of faults. */
#include "kfifo_judge.h"

#include <stdio.h>
#include <string.h>

#define COUNT(list) (sizeof(list) / sizeof(list)[0])

static int passed, failed;

static void expect(int holds, const char *what) {
    if (holds) {
        passed++;
    } else {
        failed++;
        printf("FAILED: %s\n", what);
    }
}

/* Calls of three threads: 0 puts, 1 gets, 2 finds nothing. Each takes 5 units of time. */
static kfifo_judge_call put(uint64_t item, uint64_t at) {
    return (kfifo_judge_call){at, at + 5, item, 0, KFIFO_JUDGE_PUT, KFIFO_JUDGE_DONE};
}
static kfifo_judge_call got(uint64_t item, uint64_t at) {
    return (kfifo_judge_call){at, at + 5, item, 1, KFIFO_JUDGE_GET, KFIFO_JUDGE_GOT};
}
static kfifo_judge_call empty(uint64_t at) {
    return (kfifo_judge_call){at, at + 5, 0, 2, KFIFO_JUDGE_GET, KFIFO_JUDGE_EMPTY};
}

static int are_same(const kfifo_judge_call *a, const kfifo_judge_call *b) {
    return a->first == b->first && a->last == b->last && a->item == b->item && a->thread == b->thread &&
           a->op == b->op && a->answer == b->answer;
}

/* The calls of a row begin one after the other, so the number of each is its place. */
static void expect_no_order(const kfifo_judge_call *calls, size_t count, uint32_t k, kfifo_judge_evidence evidence,
                            const char *name, const char *headline) {
    kfifo_judge_report report;
    expect(kfifo_judge_calls(calls, count, k, KFIFO_JUDGE_TRIES, &report) == KFIFO_JUDGE_NO_ORDER, name);
    expect(report.evidence == evidence && strcmp(kfifo_judge_evidence_name(report.evidence), name) == 0, name);
    expect(strcmp(report.headline, headline) == 0 && strlen(headline) == report.headline_length, report.headline);
    expect(report.calls == count && report.named_count > 0 && report.fault == 0 && report.place == 0, name);
    for (size_t n = 0; n < report.named_count; n++) {
        const kfifo_judge_named *named = &report.named[n];
        expect(named->number < count && named->line == named->number + 2, "the number and the line of a call");
        expect(named->number < count && are_same(&named->call, &calls[named->number]), "a call that is named");
    }
    const int is_about_k = evidence == KFIFO_JUDGE_TOO_YOUNG || evidence == KFIFO_JUDGE_OLDER_LEFT;
    expect((report.at_least > 0) == is_about_k, "the bounds of the least k");
    kfifo_judge_clear(&report);
    expect(report.text == NULL && report.headline == NULL && report.named == NULL, "a report that was cleared");
}

static void kinds_of_evidence(void) {
    const kfifo_judge_call nowhere[] = {got(5, 10)};
    expect_no_order(nowhere, COUNT(nowhere), 1, KFIFO_JUDGE_NEVER_PUT, "never put",
                    "item 5 came out, which no call had put");
    const kfifo_judge_call far[] = {got(UINT64_MAX, 10)};
    expect_no_order(far, COUNT(far), 1, KFIFO_JUDGE_NEVER_PUT, "never put",
                    "item 18446744073709551615 came out, which no call had put");
    const kfifo_judge_call twice[] = {put(5, 10), got(5, 20), got(5, 30)};
    expect_no_order(twice, COUNT(twice), 1, KFIFO_JUDGE_TAKEN_TWICE, "taken twice",
                    "item 5 came out more often than it went in");
    const kfifo_judge_call early[] = {put(7, 10), empty(20)};
    expect_no_order(early, COUNT(early), 1, KFIFO_JUDGE_NOT_EMPTY, "not empty",
                    "a get found nothing, while the queue held item 7");
    const kfifo_judge_call younger[] = {put(1, 10), put(2, 20), got(2, 30)};
    expect_no_order(younger, COUNT(younger), 1, KFIFO_JUDGE_TOO_YOUNG, "too young",
                    "item 2 came out, and item 1, which went in before, had not");
    const kfifo_judge_call youngest[] = {put(1, 10), put(2, 20), put(3, 30), got(3, 40)};
    expect_no_order(youngest, COUNT(youngest), 2, KFIFO_JUDGE_TOO_YOUNG, "too young",
                    "item 3 came out, and 2 items, which went in before, had not");
    const kfifo_judge_call soon[] = {put(1, 10), got(1, 20), got(1, 30), put(1, 40)};
    expect_no_order(soon, COUNT(soon), 1, KFIFO_JUDGE_TAKEN_TOO_SOON, "taken too soon",
                    "item 1 came out more often than it had gone in by then");
    const kfifo_judge_call left[] = {put(1, 10), put(1, 20), got(1, 30), empty(40)};
    expect_no_order(left, COUNT(left), 1, KFIFO_JUDGE_ITEMS_LEFT, "items left",
                    "a get found nothing, while some item had gone in more often than come out");
    const kfifo_judge_call older[] = {put(1, 10), put(1, 20), put(2, 30), got(2, 40)};
    expect_no_order(older, COUNT(older), 1, KFIFO_JUDGE_OLDER_LEFT, "older left",
                    "item 2 came out, and item 1, which went in before, stayed");
}

/* Whether a report of this status has no reason. */
static int has_no_reason(const kfifo_judge_report *report, kfifo_judge_status status) {
    return report->status == status && report->evidence == KFIFO_JUDGE_NO_EVIDENCE && report->headline_length == 0 &&
           strcmp(report->headline, "") == 0 && report->named == NULL && report->named_count == 0;
}

static void other_verdicts(void) {
    kfifo_judge_report report;
    const kfifo_judge_call calls[] = {put(1, 10), put(2, 20), got(1, 30)};
    kfifo_judge_calls(calls, COUNT(calls), 1, KFIFO_JUDGE_TRIES, &report);
    expect(has_no_reason(&report, KFIFO_JUDGE_LEGAL) && report.calls == 3 && report.left == 1, "a legal log");
    expect(report.at_least == 0 && report.at_most == 0, "no bounds");
    kfifo_judge_clear(&report);
    kfifo_judge_calls(NULL, 0, 1, KFIFO_JUDGE_TRIES, &report);
    expect(has_no_reason(&report, KFIFO_JUDGE_LEGAL) && report.calls == 0 && report.left == 0, "no calls");
    kfifo_judge_clear(&report);
    kfifo_least_calls(calls, COUNT(calls), KFIFO_JUDGE_TRIES, &report);
    expect(has_no_reason(&report, KFIFO_JUDGE_LEGAL) && report.at_least == 1 && report.at_most == 1, "bounds");
    kfifo_judge_clear(&report);
    kfifo_draw_calls(calls, COUNT(calls), 1, KFIFO_DRAW_ALL, KFIFO_DRAW_SVG, &report);
    expect(has_no_reason(&report, KFIFO_JUDGE_DRAWN) && strstr(report.text, "<svg"), "a picture");
    kfifo_judge_clear(&report);
    static const char record[] = "[{\"thread\":3,\"op\":\"deq\",\"first\":4,\"last\":9,\"answer\":\"got\",\"item\":8}]";
    kfifo_judge_text(record, strlen(record), 1, KFIFO_JUDGE_TRIES, &report);
    expect(report.evidence == KFIFO_JUDGE_NEVER_PUT && report.named_count == 1 && report.named[0].line == 0 &&
               report.named[0].call.thread == 3 && report.named[0].call.item == 8 && report.named[0].call.last == 9,
           "a record");
    kfifo_judge_clear(&report);
}

static void faults(void) {
    kfifo_judge_report report;
    const kfifo_judge_call calls[] = {put(1, 10), put(2, 12)};
    kfifo_judge_calls(calls, COUNT(calls), 1, KFIFO_JUDGE_TRIES, &report);
    expect(has_no_reason(&report, KFIFO_JUDGE_FAULT) && report.fault == 8 && report.place == 3, "calls that overlap");
    kfifo_judge_clear(&report);
    expect(kfifo_judge_calls(calls, COUNT(calls), 65, 1, &report) == KFIFO_JUDGE_BAD_CALL && !report.text, "k = 65");
    expect(kfifo_judge_calls(NULL, 1, 1, 1, &report) == KFIFO_JUDGE_BAD_CALL && !report.text, "a null pointer");
    expect(kfifo_judge_calls(calls, COUNT(calls), 1, 1, NULL) == KFIFO_JUDGE_BAD_CALL, "no report");
    expect(strcmp(kfifo_judge_evidence_name((kfifo_judge_evidence)8), "") == 0, "a kind that is none");
    kfifo_judge_clear(NULL);
}

/* An answer that has no room on the stack is made again: a hundred gets of one item, at times of many digits. */
static void long_answers(void) {
    kfifo_judge_call calls[101];
    for (size_t n = 0; n < COUNT(calls); n++) {
        const uint64_t at = UINT64_MAX / 2 + 10 * n;
        calls[n] = n ? got(1, at) : put(1, at);
    }
    kfifo_judge_report report;
    kfifo_judge_calls(calls, COUNT(calls), 1, KFIFO_JUDGE_TRIES, &report);
    expect(report.evidence == KFIFO_JUDGE_TAKEN_TWICE && report.named_count == 32 && report.length > 2048,
           "a long reason");
    expect(strlen(report.text) == report.length && report.named[31].call.item == 1, "its end");
    kfifo_judge_clear(&report);
}

int main(void) {
    kinds_of_evidence();
    other_verdicts();
    faults();
    long_answers();
    printf("%s: %d passed, %d failed\n", "test_judge", passed, failed);
    return failed > 0;
}
