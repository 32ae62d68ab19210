/*
 * codhungu.h: the engine's calls for programs in C (C99) and C++.
 *
 * "Document 01" is the build description with the exact rules of plans, payoffs, tables and
 * sheets. docs/C.md says how to build, install and link; docs/GUARANTEE.md says what is promised.
 *
 *
 * HOW A CALL IS MADE
 *
 * Lists and texts. Each is two arguments: a pointer, and behind it the length under the same name
 * with _len. A length counts elements: bytes of a text, numbers of a list. The pointer may be null
 * where the length is 0. Pointers to int64_t are aligned as C asks. A text is bytes; a zero byte
 * does not end it, and none is written behind an answer.
 *
 * What a call takes. Any bytes and any numbers may be given. What breaks a rule is refused by its
 * number, and nothing has to be tested before the call.
 *
 * What a call returns. 0, or the number of the refusal that comes first in document 01's order
 * (enum codhungu_refusal).
 *
 * What a call writes. It writes to `answer` and, where it has one, to `out`, and to nothing else.
 *   - `answer` gets the call's numbers, from its first place. Each call below says which.
 *   - `out` gets a text, from its first byte. One of the numbers in `answer` is its length.
 *   - A refused call leaves every byte of `answer` and `out` as it was.
 *   - Bytes of `out` behind the text and places of `answer` behind the numbers keep their values.
 *   - An `answer` or an `out` that is too short is 13. That comes after every other refusal.
 *
 *
 * WHAT THE CALLER HAS TO KEEP
 *
 *   - Each length is true: so many elements may be read, or for `answer` and `out` written.
 *   - `answer` and `out` overlap neither each other nor anything else that is lent to the call. So a
 *     step can't write over the plan that it reads: give it a second buffer. The lists that are
 *     only read may overlap each other.
 *   - Nobody else writes to anything that is lent before the call returns, and nobody reads
 *     `answer` or `out` meanwhile.
 * Where one of these is broken, nothing is promised.
 *
 *
 * THREADS, MEMORY, STACK
 *
 * The engine holds no state between calls: every call may be made from any thread, and from many at
 * once, as long as each has an `answer` and an `out` of its own. It takes no memory but the stack.
 * The most that was measured, in bytes (x86-64), for a plan nested 32 deep:
 *
 *     cut                                22,000
 *     compile                            24,000
 *     check, payment                     32,000
 *     evaluate                           34,000
 *     step                               35,000
 *     sheet                             105,000
 *
 * The library refers to one function outside it, memset.
 *
 *
 * ARGUMENTS THAT MANY CALLS TAKE
 *
 *   plan      plan text, as B,L,1,S,N,5000,T,1,2,Z: no spaces, no line end, at most 8,704 bytes.
 *   payoff    payoff text, as codhungu_compile writes it, at most 53,760 bytes.
 *   days      the settings P0, P1 and so on: at most eight, each 0 to 600 months.
 *   h, f      the table covers months -h to f: h 0 to 60, f 0 to 600.
 *   factors   f+1 discount factors, for months 0 to f, in millionths, each 0 to 1,000,000.
 *   bounds    a bound for each label, from label 0 upward: at most eight labels, each bound 0 to
 *             9,000,000,000,000.
 *   values    the index values, label after label, for each label h+f+1 values, for months -h to f.
 *             None is further from zero than its label's bound.
 *   today     the month in which the plan's root stands, 0 to f.
 *   now       the month in which a payoff is valued, 0 to f. Cut leaves before it are worth 0.
 *   p, q      the pair: two parties, each 1 to 9. What q pays p counts below zero. For a pair of one
 *             party twice the answer is 0.
 *
 * Lists whose lengths don't fit h and f, or more than eight labels, are a table that breaks a
 * rule: 9.
 */

#ifndef CODHUNGU_H
#define CODHUNGU_H

#include <stddef.h>
#include <stdint.h>

#ifdef __cplusplus
extern "C" {
#endif

/*
 * What a call returns. The numbers are document 01's.
 *
 * The order in which they are looked for: 1; then reading left to right, at each node an unknown
 * letter 2, wrong kind 5, 3, 4, its fields 2, and last leftover bytes 2; then 9, 12, 8, 10, 11, 7,
 * 6, 13. A call skips what it doesn't take. For a payoff, 11 and 14 come as evaluation meets them,
 * after 8.
 */
enum codhungu_refusal {
    CODHUNGU_ACCEPTED = 0,

    /* The plan's or payoff's writer can cause: */
    CODHUNGU_TOO_LONG = 1,       /* text too long */
    CODHUNGU_NOT_OF_FORM = 2,    /* text not of the form */
    CODHUNGU_TOO_MANY_NODES = 3, /* a 513th node */
    CODHUNGU_TOO_DEEP = 4,       /* depth 33 */
    CODHUNGU_WRONG_KIND = 5,     /* a letter of the wrong kind for its place */
    CODHUNGU_MAGNITUDE = 6,      /* magnitude: beyond 9,000,000,000,000 at some node */
    CODHUNGU_NOT_IN_TIME = 7,    /* not known in time: an amount or test reads a later month */

    /* Whoever fills settings and table can cause: */
    CODHUNGU_SETTINGS = 8,       /* more than eight settings, one outside 0 to 600, or an open one
                                    used and unset */
    CODHUNGU_TABLE = 9,          /* a table that breaks a rule */
    CODHUNGU_LENGTH = 10,        /* length: today plus the plan's length is more than f */
    CODHUNGU_READS = 11,         /* a read month outside -h to f, a payoff's leaf month outside 0 to
                                    f, or an absent label */

    /* The calling program can cause: */
    CODHUNGU_CALLER = 12,        /* a party outside 1 to 9, or today or now outside 0 to f; for
                                    codhungu_payment also a month outside today to f */
    CODHUNGU_NO_ROOM = 13,       /* `out` or `answer` too short for the whole answer */

    /* Only a hand-written payoff can cause: */
    CODHUNGU_OUT_OF_RANGE = 14   /* an amount beyond 9*10^12 or a value beyond 9*10^18, either side
                                    of zero */
};

/*
 * Lengths, in bytes. The first three are the longest texts that are not 1. An `out` of
 * CODHUNGU_PLAN_BYTES is enough for every step, one of CODHUNGU_PAYOFF_BYTES for every compile and
 * cut, and one of CODHUNGU_LINES_BYTES for the answer of every sheet.
 */
#define CODHUNGU_PLAN_BYTES 8704
#define CODHUNGU_PAYOFF_BYTES 53760
#define CODHUNGU_SHEET_BYTES 60000
#define CODHUNGU_LINES_BYTES 43100

/*
 * Checks a plan by the rules of acceptance.
 *
 * answer    2 numbers: the plan's length in months, its magnitude in pence. Neither is below zero.
 * Returns   0, or a refusal of 1 to 13.
 */
int32_t codhungu_check(
    const uint8_t *plan, size_t plan_len,
    const int64_t *days, size_t days_len,
    int64_t h, int64_t f,
    const int64_t *factors, size_t factors_len,
    const int64_t *bounds, size_t bounds_len,
    const int64_t *values, size_t values_len,
    int64_t today,
    int64_t *answer, size_t answer_len);

/*
 * What a plan pays a pair in a month. The plan is checked first, as by codhungu_check.
 *
 * month     the month asked for, today to f; any other is 12.
 * answer    1 number: the pence that p pays q in that month.
 * Returns   0, or a refusal of 1 to 13.
 */
int32_t codhungu_payment(
    const uint8_t *plan, size_t plan_len,
    const int64_t *days, size_t days_len,
    int64_t h, int64_t f,
    const int64_t *factors, size_t factors_len,
    const int64_t *bounds, size_t bounds_len,
    const int64_t *values, size_t values_len,
    int64_t today,
    int64_t p, int64_t q,
    int64_t month,
    int64_t *answer, size_t answer_len);

/*
 * The month step. The plan is checked first, as by codhungu_check. To roll a plan forward, give the
 * text that was written to the next step, with today one higher and the same settings and table.
 *
 * out       gets the plan for tomorrow, as plan text. Its open settings are filled. It must not
 *           overlap `plan`.
 * answer    2 numbers: the pence that p pays q today, the bytes written to `out`.
 * Returns   0, or a refusal of 1 to 13.
 *
 * With today equal to f the step is accepted like any other. The plan that it writes can't be
 * checked, since its month lies outside the table.
 */
int32_t codhungu_step(
    const uint8_t *plan, size_t plan_len,
    const int64_t *days, size_t days_len,
    int64_t h, int64_t f,
    const int64_t *factors, size_t factors_len,
    const int64_t *bounds, size_t bounds_len,
    const int64_t *values, size_t values_len,
    int64_t today,
    int64_t p, int64_t q,
    uint8_t *out, size_t out_len,
    int64_t *answer, size_t answer_len);

/*
 * The payoff of a plan. It needs no settings and no table, and only reads the plan: the rules of
 * acceptance are not looked at.
 *
 * out       gets the payoff text.
 * answer    1 number: the bytes written to `out`.
 * Returns   0, or a refusal of 1 to 5, or 13.
 */
int32_t codhungu_compile(
    const uint8_t *plan, size_t plan_len,
    uint8_t *out, size_t out_len,
    int64_t *answer, size_t answer_len);

/*
 * Cuts a payoff: every F becomes H. What is cut already stays.
 *
 * out       gets the cut payoff's text.
 * answer    1 number: the bytes written to `out`.
 * Returns   0, or a refusal of 1 to 5, or 13.
 */
int32_t codhungu_cut(
    const uint8_t *payoff, size_t payoff_len,
    uint8_t *out, size_t out_len,
    int64_t *answer, size_t answer_len);

/*
 * What a payoff is worth to a pair in the month now.
 *
 * answer    1 number: the value to the pair (p, q), in millionths of a penny.
 * Returns   0, or a refusal of 1 to 5, 8, 9, 11 to 14. 14 comes only for a payoff that was written
 *           by hand or whose plan is not accepted with these settings and this table.
 */
int32_t codhungu_evaluate(
    const uint8_t *payoff, size_t payoff_len,
    const int64_t *days, size_t days_len,
    int64_t h, int64_t f,
    const int64_t *factors, size_t factors_len,
    const int64_t *bounds, size_t bounds_len,
    const int64_t *values, size_t values_len,
    int64_t now,
    int64_t p, int64_t q,
    int64_t *answer, size_t answer_len);

/*
 * A whole sheet: the lines plan, days, span, factors, pair and index, each ended by a line feed.
 *
 * out       gets the lines that the sheet program prints: `accepted,`, length and magnitude; then a
 *           line a month from 0 to f with the month, the pence paid, and the value cut at that month.
 * answer    1 number: the bytes written to `out`.
 * Returns   0, or 13.
 *
 * A REFUSED SHEET IS AN ANSWER, NOT A REFUSAL OF THE CALL: 0 is returned, and `out` holds the one line
 * `refused,` with the number, as "refused,2\n". So look at the first byte of `out`, 'a' or 'r'.
 */
int32_t codhungu_sheet(
    const uint8_t *input, size_t input_len,
    uint8_t *out, size_t out_len,
    int64_t *answer, size_t answer_len);

#ifdef __cplusplus
}
#endif

#endif
