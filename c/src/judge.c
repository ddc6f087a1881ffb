/* The calls of kfifo_judge.h, over the exports of the proved library. What is here is not proved: it tests pointers,
   and makes room for what an export has to write. */
#include "kfifo_judge.h"

#include <stdbool.h>
#include <stdlib.h>
#include <string.h>

/* The numbers that an export writes. */
typedef struct found {
    uint64_t place;
    size_t length;
    size_t headline;
    size_t named;
    size_t calls;
    size_t left;
    size_t at_least;
    uint64_t tries;
    uint32_t at_most;
    uint32_t fault;
    uint32_t kind;
} found;

/* The exports. A slice is a pointer, which is never null, and a length. */
uint32_t kfifo_judge_c_calls(const kfifo_judge_call *calls, size_t count, uint32_t k, uint64_t tries, char *text,
                             size_t text_room, char *headline, size_t headline_room, kfifo_judge_named *named,
                             size_t named_room, found *numbers);
uint32_t kfifo_judge_c_text(const char *bytes, size_t length, uint32_t k, uint64_t tries, char *text, size_t text_room,
                            char *headline, size_t headline_room, kfifo_judge_named *named, size_t named_room,
                            found *numbers);
uint32_t kfifo_judge_c_least(const kfifo_judge_call *calls, size_t count, uint64_t tries, char *text, size_t text_room,
                             char *headline, size_t headline_room, kfifo_judge_named *named, size_t named_room,
                             found *numbers);
uint32_t kfifo_judge_c_draw(const kfifo_judge_call *calls, size_t count, uint32_t k, bool evidence, bool svg,
                            char *text, size_t text_room, char *headline, size_t headline_room,
                            kfifo_judge_named *named, size_t named_room, found *numbers);

/* What is asked of the library. */
typedef struct question {
    enum { CALLS, TEXT, LEAST, DRAW } kind;
    const kfifo_judge_call *calls;
    const char *bytes;
    size_t count; /* of calls, or of bytes */
    uint32_t k;
    uint64_t tries;
    bool evidence;
    bool svg;
} question;

/* Where an answer is written. */
typedef struct room {
    char *text;
    size_t text_room;
    char *headline;
    size_t headline_room;
    kfifo_judge_named *named;
    size_t named_room;
} room;

static uint32_t ask(const question *q, const room *to, found *numbers) {
    switch (q->kind) {
    case CALLS:
        return kfifo_judge_c_calls(q->calls, q->count, q->k, q->tries, to->text, to->text_room, to->headline,
                                   to->headline_room, to->named, to->named_room, numbers);
    case TEXT:
        return kfifo_judge_c_text(q->bytes, q->count, q->k, q->tries, to->text, to->text_room, to->headline,
                                  to->headline_room, to->named, to->named_room, numbers);
    case LEAST:
        return kfifo_judge_c_least(q->calls, q->count, q->tries, to->text, to->text_room, to->headline,
                                   to->headline_room, to->named, to->named_room, numbers);
    case DRAW:
        return kfifo_judge_c_draw(q->calls, q->count, q->k, q->evidence, q->svg, to->text, to->text_room, to->headline,
                                  to->headline_room, to->named, to->named_room, numbers);
    }
    return KFIFO_JUDGE_BAD_CALL;
}

/* A report of a call that found nothing. */
static kfifo_judge_status nothing(kfifo_judge_report *report, kfifo_judge_status status) {
    memset(report, 0, sizeof *report);
    report->status = status;
    return status;
}

/* Makes the report's room for an answer of this size. */
static bool make_room(kfifo_judge_report *report, const found *numbers) {
    report->text = malloc(numbers->length + 1);
    report->headline = malloc(numbers->headline + 1);
    report->named = numbers->named ? malloc(numbers->named * sizeof *report->named) : NULL;
    return report->text && report->headline && (report->named || !numbers->named);
}

/* Copies an answer that is whole into the room of the report. */
static void copy(kfifo_judge_report *report, const room *from, const found *numbers) {
    memcpy(report->text, from->text, numbers->length);
    memcpy(report->headline, from->headline, numbers->headline);
    if (report->named) memcpy(report->named, from->named, numbers->named * sizeof *report->named);
}

/* Asks again, with room for the whole answer. Returns false where memory is refused this time. */
static bool ask_again(const question *q, kfifo_judge_report *report, const found *numbers) {
    kfifo_judge_named none[1];
    const room whole = {.text = report->text,
                        .text_room = numbers->length,
                        .headline = report->headline,
                        .headline_room = numbers->headline,
                        .named = report->named ? report->named : none,
                        .named_room = numbers->named};
    found again = {0};
    return (kfifo_judge_status)ask(q, &whole, &again) == report->status && again.length == numbers->length &&
           again.headline == numbers->headline && again.named == numbers->named;
}

static void set_numbers(kfifo_judge_report *report, const found *numbers) {
    report->text[numbers->length] = '\0';
    report->length = numbers->length;
    report->headline[numbers->headline] = '\0';
    report->headline_length = numbers->headline;
    report->named_count = numbers->named;
    report->evidence = (kfifo_judge_evidence)numbers->kind;
    report->calls = numbers->calls;
    report->left = numbers->left;
    report->fault = numbers->fault;
    report->place = numbers->place;
    report->at_least = numbers->at_least;
    report->at_most = numbers->at_most;
    report->tries = numbers->tries;
}

/* Asks, with room on the stack at first: a verdict on a short run fits in. Where the answer is longer it asks again,
   with room for what there is: the library keeps nothing between two calls. */
static kfifo_judge_status answer(const question *q, kfifo_judge_report *report) {
    char text[2048], headline[256];
    kfifo_judge_named named[72];
    found numbers = {0};
    const room small = {text, sizeof text, headline, sizeof headline, named, sizeof named / sizeof named[0]};
    const kfifo_judge_status status = (kfifo_judge_status)ask(q, &small, &numbers);
    nothing(report, status);
    if (status == KFIFO_JUDGE_BAD_CALL || status == KFIFO_JUDGE_NO_MEMORY) return status;
    const bool fits = numbers.length <= small.text_room && numbers.headline <= small.headline_room &&
                      numbers.named <= small.named_room;
    const bool made = make_room(report, &numbers);
    if (made && fits) copy(report, &small, &numbers);
    if (!made || (!fits && !ask_again(q, report, &numbers))) {
        kfifo_judge_clear(report);
        return nothing(report, KFIFO_JUDGE_NO_MEMORY);
    }
    set_numbers(report, &numbers);
    return status;
}

/* The calls of an array that may be null where it is empty: an export's slice never is. */
static const kfifo_judge_call *array_of(const kfifo_judge_call *calls, size_t count) {
    static const kfifo_judge_call none = {0, 0, 0, 0, 0, 0};
    return count ? calls : &none;
}

kfifo_judge_status kfifo_judge_calls(const kfifo_judge_call *calls, size_t count, uint32_t k, uint64_t tries,
                                     kfifo_judge_report *report) {
    if (!report) return KFIFO_JUDGE_BAD_CALL;
    if (!calls && count) return nothing(report, KFIFO_JUDGE_BAD_CALL);
    const question q = {.kind = CALLS, .calls = array_of(calls, count), .count = count, .k = k, .tries = tries};
    return answer(&q, report);
}

kfifo_judge_status kfifo_judge_text(const char *text, size_t length, uint32_t k, uint64_t tries,
                                    kfifo_judge_report *report) {
    if (!report) return KFIFO_JUDGE_BAD_CALL;
    if (!text && length) return nothing(report, KFIFO_JUDGE_BAD_CALL);
    const question q = {.kind = TEXT, .bytes = length ? text : "", .count = length, .k = k, .tries = tries};
    return answer(&q, report);
}

kfifo_judge_status kfifo_least_calls(const kfifo_judge_call *calls, size_t count, uint64_t tries,
                                     kfifo_judge_report *report) {
    if (!report) return KFIFO_JUDGE_BAD_CALL;
    if (!calls && count) return nothing(report, KFIFO_JUDGE_BAD_CALL);
    const question q = {.kind = LEAST, .calls = array_of(calls, count), .count = count, .tries = tries};
    return answer(&q, report);
}

kfifo_judge_status kfifo_draw_calls(const kfifo_judge_call *calls, size_t count, uint32_t k, kfifo_draw_part part,
                                    kfifo_draw_style style, kfifo_judge_report *report) {
    if (!report) return KFIFO_JUDGE_BAD_CALL;
    if ((!calls && count) || (unsigned)part > KFIFO_DRAW_EVIDENCE || (unsigned)style > KFIFO_DRAW_TEXT)
        return nothing(report, KFIFO_JUDGE_BAD_CALL);
    const question q = {.kind = DRAW,
                        .calls = array_of(calls, count),
                        .count = count,
                        .k = k,
                        .evidence = part == KFIFO_DRAW_EVIDENCE,
                        .svg = style == KFIFO_DRAW_SVG};
    return answer(&q, report);
}

const char *kfifo_judge_evidence_name(kfifo_judge_evidence evidence) {
    static const char *const names[] = {"",          "never put",      "taken twice", "not empty",
                                        "too young", "taken too soon", "items left",  "older left"};
    const size_t number = (size_t)evidence;
    return number < sizeof names / sizeof names[0] ? names[number] : "";
}

void kfifo_judge_clear(kfifo_judge_report *report) {
    if (!report) return;
    free(report->text);
    free(report->headline);
    free(report->named);
    memset(report, 0, sizeof *report);
}
