/* The proved judge of k-relaxed FIFO queues, for C: was this run of a queue one in which each dequeue gave one of the k
   oldest items? It judges runs of any queue. docs/JUDGE.md says what the verdicts mean. */
#ifndef KFIFO_JUDGE_H
#define KFIFO_JUDGE_H

#include <stddef.h>
#include <stdint.h>

#ifdef __cplusplus
extern "C" {
#endif

/* What a call was to do. */
typedef enum kfifo_judge_op {
    KFIFO_JUDGE_PUT = 0, /* put an item into the queue: an enqueue */
    KFIFO_JUDGE_GET = 1  /* take one out: a dequeue */
} kfifo_judge_op;

/* What a call answered: the numbers of kfifo_log_answer. A put is never GOT or EMPTY, a get never DONE or FULL. */
typedef enum kfifo_judge_answer {
    KFIFO_JUDGE_UNFINISHED = 0, /* the call has not returned */
    KFIFO_JUDGE_DONE = 1,       /* the item is in the queue */
    KFIFO_JUDGE_FULL = 2,       /* the queue was full */
    KFIFO_JUDGE_GOT = 3,        /* an item was taken */
    KFIFO_JUDGE_EMPTY = 4,      /* the queue was empty */
    KFIFO_JUDGE_BUSY = 5,       /* the call gave up because of others, and changed nothing */
    KFIFO_JUDGE_WORN = 6        /* the queue can never again take such a call, and nothing was changed */
} kfifo_judge_answer;

/* One call of a log. Times are of one clock for all threads: a call that ended at a time below another's first came
   before it, and all others overlap. */
typedef struct kfifo_judge_call {
    uint64_t first;  /* when it began */
    uint64_t last;   /* when it ended, not read of an unfinished call */
    uint64_t item;   /* the item of a put, 1 to 16,777,215, or the item that a get got; not read of other calls */
    uint32_t thread; /* 0 to 63; each call of a thread begins after the time at which the one before it ended */
    uint8_t op;      /* a kfifo_judge_op */
    uint8_t answer;  /* a kfifo_judge_answer */
} kfifo_judge_call;

/* What a call of the judge returns. */
typedef enum kfifo_judge_status {
    KFIFO_JUDGE_LEGAL = 0,     /* there is a legal order; of kfifo_least_calls: there is no evidence against each k */
    KFIFO_JUDGE_NO_ORDER = 1,  /* there is none, and the text says why */
    KFIFO_JUDGE_UNDECIDED = 2, /* neither an order nor evidence against each order was found */
    KFIFO_JUDGE_DRAWN = 3,     /* of kfifo_draw_calls: the text is the picture */
    KFIFO_JUDGE_FAULT = 4,     /* the log or record has a fault, by which it cannot be judged; the text says which */
    KFIFO_JUDGE_BAD_CALL = 5,  /* a null pointer, or an argument out of range; nothing was done */
    KFIFO_JUDGE_NO_MEMORY = 6  /* an allocation failed; nothing was done */
} kfifo_judge_status;

/* The kinds of evidence that a log has no legal order. Each number, and the name that kfifo_judge_evidence_name
   returns, is that of docs/JUDGE.md. */
typedef enum kfifo_judge_evidence {
    KFIFO_JUDGE_NO_EVIDENCE = 0,
    KFIFO_JUDGE_NEVER_PUT = 1,      /* an item came out that no call had put */
    KFIFO_JUDGE_TAKEN_TWICE = 2,    /* an item came out more often than it went in */
    KFIFO_JUDGE_NOT_EMPTY = 3,      /* a get found nothing, while the queue held items */
    KFIFO_JUDGE_TOO_YOUNG = 4,      /* an item came out before k older ones */
    KFIFO_JUDGE_TAKEN_TOO_SOON = 5, /* an item came out more often than it had gone in by then */
    KFIFO_JUDGE_ITEMS_LEFT = 6,     /* a get found nothing, while an item had gone in more often than come out */
    KFIFO_JUDGE_OLDER_LEFT = 7      /* an item came out before k older ones, where items repeat */
} kfifo_judge_evidence;

/* A call that a reason names. */
typedef struct kfifo_judge_named {
    size_t number;         /* of the call, in ascending order of first time, from 0 */
    uint64_t line;         /* of the log that it stands in, from 1; 0 of a record */
    kfifo_judge_call call; /* as it was logged; `item` is 0 of a get that found nothing, `last` of an unfinished call */
} kfifo_judge_named;

/* What was found. A call fills a report without looking at what is in it. Its pointers are its own, from malloc:
   kfifo_judge_clear frees them, and is to be called before the report is used again. */
typedef struct kfifo_judge_report {
    kfifo_judge_status status;
    uint32_t fault; /* of a FAULT: its number as docs/JUDGE.md has it, 1 to 8; 0 of a text that is no CSV or no
                       JSON, and of a picture with too many calls */
    uint64_t place; /* of a FAULT: the line of the log, from 1, or the call of the record, from 0; else 0 */
    char *text;     /* what the program prints, with a 0 after it; of a FAULT the line that says which; NULL of
                       BAD_CALL and NO_MEMORY */
    size_t length;  /* of the text, without the 0 */
    kfifo_judge_evidence evidence; /* of a verdict NO_ORDER: the kind of its evidence; else NO_EVIDENCE */
    char *headline;                /* of such a verdict: what the evidence says of the queue, in words and without a
                                      line feed, as "item 2 came out, and item 1, which went in before, had not"; else
                                      empty, or NULL where `text` is */
    size_t headline_length;        /* without the 0 */
    kfifo_judge_named *named;      /* of such a verdict: the calls that the reason names, in its order; else NULL */
    size_t named_count;
    size_t calls;    /* of a verdict: how many calls were judged */
    size_t left;     /* of a verdict: how many items are left at their end */
    size_t at_least; /* the least k is no less: of kfifo_least_calls that is LEGAL, and of a verdict NO_ORDER whose text
                        says it; else 0 */
    uint32_t at_most; /* and no greater, 1 to 64; 0 where no order was found */
    uint64_t tries;   /* of UNDECIDED: after how many tries the search for an order gave up, that is, how many choices
                         it took back; else 0 */
} kfifo_judge_report;

/* How many calls can be judged at a time. */
#define KFIFO_JUDGE_MAX_CALLS ((size_t)16777215)
/* What `tries` should be: how many choices the search for an order may take back. */
#define KFIFO_JUDGE_TRIES UINT64_C(1000000)

/* Judges these calls, in any order, for a queue whose gets may give any of its k oldest items, 1 to 64: LEGAL,
   NO_ORDER, UNDECIDED, FAULT, BAD_CALL or NO_MEMORY, which is in the report too. The text is what `kfifo judge --k K
   --tries TRIES` prints of the log in CSV that has a line for each call in this order below its header: call i stands
   in line i + 2. Calls are numbered in ascending order of first time, of equal ones the earlier in the array first. */
kfifo_judge_status kfifo_judge_calls(const kfifo_judge_call *calls, size_t count, uint32_t k, uint64_t tries,
                                     kfifo_judge_report *report);

/* The same of a text: a log in CSV, or a record in JSON. */
kfifo_judge_status kfifo_judge_text(const char *text, size_t length, uint32_t k, uint64_t tries,
                                    kfifo_judge_report *report);

/* Between which bounds the least k lies for which these calls have a legal order, as `kfifo least` prints it: LEGAL
   with at_least and at_most, NO_ORDER where there is evidence against each k, FAULT, BAD_CALL or NO_MEMORY. */
kfifo_judge_status kfifo_least_calls(const kfifo_judge_call *calls, size_t count, uint64_t tries,
                                     kfifo_judge_report *report);

/* What a picture shows and is made of. */
typedef enum kfifo_draw_part {
    KFIFO_DRAW_ALL = 0,     /* all calls */
    KFIFO_DRAW_EVIDENCE = 1 /* the calls that the evidence against this k names, marked, and those near them */
} kfifo_draw_part;
typedef enum kfifo_draw_style {
    KFIFO_DRAW_SVG = 0, /* an SVG document */
    KFIFO_DRAW_TEXT = 1 /* lines of characters for a terminal */
} kfifo_draw_style;

/* Draws these calls as `kfifo draw` does: DRAWN, FAULT (its number is 0 where over 4,096 calls would be drawn),
   BAD_CALL or NO_MEMORY. */
kfifo_judge_status kfifo_draw_calls(const kfifo_judge_call *calls, size_t count, uint32_t k, kfifo_draw_part part,
                                    kfifo_draw_style style, kfifo_judge_report *report);

/* The name of a kind of evidence, as "too young"; "" of NO_EVIDENCE, and of a number that is none. */
const char *kfifo_judge_evidence_name(kfifo_judge_evidence evidence);

/* Frees what the report has, and makes it all 0. A null pointer is left alone. */
void kfifo_judge_clear(kfifo_judge_report *report);

#ifdef __cplusplus
}
#endif

#endif
