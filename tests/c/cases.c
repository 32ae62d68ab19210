/*
 * The C interface, as a program in C sees it: every call on document 01's cases, each refusal by its
 * name, null pointers with length 0, and buffers too short, with guards on both sides.
 *
 * Prints `c cases: N passed`, with `, M failed` behind it where one failed; each that failed is named on
 * standard error, and the exit status is then 1.
 */
#include <codhungu.h>
#include <stdio.h>
#include <string.h>

static int passed, failed;

static void expect(const char *name, int holds)
{
    if (holds) {
        passed++;
    } else {
        failed++;
        fprintf(stderr, "failed: %s\n", name);
    }
}

/* ---- what a call is lent: painted before each call, with a guard on both sides */

#define GUARD 64
#define PLACES 2
#define PAINT 0xa5

static uint8_t room[GUARD + CODHUNGU_PAYOFF_BYTES + GUARD];
static int64_t numbers[PLACES + PLACES + PLACES];
static uint8_t *const out = room + GUARD;
static int64_t *const answer = numbers + PLACES;
static const size_t whole = CODHUNGU_PAYOFF_BYTES;

static void paint(void)
{
    memset(room, PAINT, sizeof room);
    memset(numbers, PAINT, sizeof numbers);
}

static int painted(const void *from, const void *to)
{
    const uint8_t *at;
    for (at = from; at != (const uint8_t *)to; at++)
        if (*at != PAINT)
            return 0;
    return 1;
}

/* Nothing is changed but the first bytes of `out` and the first places of `answer`. */
static int kept(size_t bytes, size_t places)
{
    return painted(room, out) && painted(out + bytes, room + sizeof room)
        && painted(numbers, answer)
        && painted(answer + places, numbers + sizeof numbers / sizeof *numbers);
}

static int refuses(int32_t status, enum codhungu_refusal refusal)
{
    return status == (int32_t)refusal && kept(0, 0);
}

static int tells(int32_t status, int64_t number)
{
    return status == CODHUNGU_ACCEPTED && answer[0] == number && kept(0, 1);
}

static int measures(int32_t status, int64_t length, int64_t magnitude)
{
    return status == CODHUNGU_ACCEPTED && answer[0] == length && answer[1] == magnitude && kept(0, 2);
}

static int holds(const char *text)
{
    return memcmp(out, text, strlen(text)) == 0;
}

static int writes(int32_t status, const char *text)
{
    return status == CODHUNGU_ACCEPTED && answer[0] == (int64_t)strlen(text) && holds(text)
        && kept(strlen(text), 1);
}

static int steps(int32_t status, int64_t pence, const char *text)
{
    return status == CODHUNGU_ACCEPTED && answer[0] == pence && answer[1] == (int64_t)strlen(text)
        && holds(text) && kept(strlen(text), 2);
}

/* ---- settings and tables */

struct given {
    const int64_t *days;
    size_t days_len;
    int64_t h, f;
    const int64_t *factors;
    size_t factors_len;
    const int64_t *bounds;
    size_t bounds_len;
    const int64_t *values;
    size_t values_len;
};

#define GIVEN(g) (g).days, (g).days_len, (g).h, (g).f, (g).factors, (g).factors_len, \
    (g).bounds, (g).bounds_len, (g).values, (g).values_len

static int64_t ones[602], sevens[661];
static const int64_t thousand[] = {1000};

/* Months -h to f, factor 1 everywhere, no settings, no label: null pointers for all three. */
static struct given bare(int64_t h, int64_t f)
{
    struct given g = {NULL, 0, 0, 0, ones, 0, NULL, 0, NULL, 0};
    g.h = h;
    g.f = f;
    g.factors_len = (size_t)(f + 1);
    return g;
}

/* The same with label 0, bound 1000 and these values. */
static struct given indexed(int64_t h, int64_t f, const int64_t *values)
{
    struct given g = bare(h, f);
    g.bounds = thousand;
    g.bounds_len = 1;
    g.values = values;
    g.values_len = (size_t)(h + f + 1);
    return g;
}

/* Those of document 01's sheet. */
static struct given of_the_sheet(void)
{
    static const int64_t days[] = {2}, factors[] = {1000000, 990000, 980000};
    static const int64_t bounds[] = {200}, values[] = {90, 100, 130};
    struct given g = {days, 1, 0, 2, factors, 3, bounds, 1, values, 3};
    return g;
}

/* ---- the calls, with the pair 1, 2 and with room enough */

static const uint8_t *bytes_of(const char *text)
{
    return (const uint8_t *)text;
}

static int32_t check(const char *plan, struct given g, int64_t today)
{
    paint();
    return codhungu_check(bytes_of(plan), strlen(plan), GIVEN(g), today, answer, 2);
}

static int32_t payment(const char *plan, struct given g, int64_t today, int64_t month)
{
    paint();
    return codhungu_payment(bytes_of(plan), strlen(plan), GIVEN(g), today, 1, 2, month, answer, 1);
}

static int32_t step(const char *plan, struct given g, int64_t today)
{
    paint();
    return codhungu_step(bytes_of(plan), strlen(plan), GIVEN(g), today, 1, 2, out, whole, answer, 2);
}

static int32_t compile(const char *plan)
{
    paint();
    return codhungu_compile(bytes_of(plan), strlen(plan), out, whole, answer, 1);
}

static int32_t cut(const char *payoff)
{
    paint();
    return codhungu_cut(bytes_of(payoff), strlen(payoff), out, whole, answer, 1);
}

static int32_t evaluate(const char *payoff, struct given g, int64_t now)
{
    paint();
    return codhungu_evaluate(bytes_of(payoff), strlen(payoff), GIVEN(g), now, 1, 2, answer, 1);
}

static int32_t sheet(const char *input)
{
    paint();
    return codhungu_sheet(bytes_of(input), strlen(input), out, whole, answer, 1);
}

/* ---- document 01's cases */

#define REST "G,N,100,O,0,0,S,U,O,0,0,N,100,"
#define PLAN "B,L,1,S,N,5000,T,1,2,W,P0," REST "T,2,1,Z"
#define ONE "B,L,0,S,N,5000,T,1,2,W,1," REST "T,2,1,Z"
#define TWO "B,S,N,5000,Z,W,0," REST "T,2,1,Z"
#define THREE "B,S,N,5000,Z,S,U,N,130,N,100,Z"
#define PAYOFF "B,S,N,5000,F,1,1,2,W,P0," REST "F,0,2,1,Z"
#define CUT "B,S,N,5000,H,1,1,2,W,P0," REST "H,0,2,1,Z"
#define SHEET "plan," PLAN "\ndays,2\nspan,0,2\nfactors,1000000,990000,980000\npair,1,2\n" \
    "index,0,200,90,100,130\n"
#define LINES "accepted,2,5300\n0,0,4920600000\n1,5000,4920600000\n2,-30,-29400000\n"

/* `times` times `L,0,` before `Z`. */
static const char *nested(int times)
{
    static char text[4 * 32 + 2];
    char *at = text;
    for (; times > 0; times--, at += 4)
        memcpy(at, "L,0,", 4);
    strcpy(at, "Z");
    return text;
}

static void document(void)
{
    struct given g = of_the_sheet();

    expect("the sheet", writes(sheet(SHEET), LINES));
    expect("its plan is accepted", measures(check(PLAN, g, 0), 2, 5300));
    expect("what it pays in month 0", tells(payment(PLAN, g, 0, 0), 0));
    expect("what it pays in month 1", tells(payment(PLAN, g, 0, 1), 5000));
    expect("what it pays in month 2", tells(payment(PLAN, g, 0, 2), -30));
    expect("its plan after one step", steps(step(PLAN, g, 0), 0, ONE));
    expect("its plan after two", steps(step(ONE, g, 1), 5000, TWO));
    expect("its plan after three", steps(step(TWO, g, 2), -30, THREE));
    expect("its payoff", writes(compile(PLAN), PAYOFF));
    expect("its payoff cut", writes(cut(PAYOFF), CUT));
    expect("its payoff cut twice", writes(cut(CUT), CUT));
    expect("its value", tells(evaluate(PAYOFF, g, 2), 4920600000));
    expect("its value cut at 0", tells(evaluate(CUT, g, 0), 4920600000));
    expect("its value cut at 1", tells(evaluate(CUT, g, 1), 4920600000));
    expect("its value cut at 2", tells(evaluate(CUT, g, 2), -29400000));

    g = indexed(0, 3, sevens);
    expect("known in time", measures(check("S,O,0,3,L,3,T,1,2", g, 0), 3, 1000));
    expect("with L,2 it is 7", refuses(check("S,O,0,3,L,2,T,1,2", g, 0), CODHUNGU_NOT_IN_TIME));
    g = bare(0, 0);
    expect("the greatest magnitude", measures(check("S,N,9000000000000,T,1,2", g, 0), 0, 9000000000000));
    expect("B of it and T,1,2 is 6",
           refuses(check("B,S,N,9000000000000,T,1,2,T,1,2", g, 0), CODHUNGU_MAGNITUDE));
    expect("L,600,Z with f = 600", measures(check("L,600,Z", bare(0, 600), 0), 600, 0));
    expect("L,600,Z with f = 599 is 10", refuses(check("L,600,Z", bare(0, 599), 0), CODHUNGU_LENGTH));
    expect("S,O,0,500,Z with f = 499 is 11",
           refuses(check("S,O,0,500,Z", indexed(0, 499, sevens), 0), CODHUNGU_READS));
    expect("31 times L,0, before Z", measures(check(nested(31), g, 0), 0, 0));
    expect("32 times is 4", refuses(check(nested(32), g, 0), CODHUNGU_TOO_DEEP));
    expect("the empty text is 2", refuses(check("", g, 0), CODHUNGU_NOT_OF_FORM));
    expect("N,5 as a plan is 5", refuses(check("N,5", g, 0), CODHUNGU_WRONG_KIND));
    expect("L,07,Z is 2", refuses(check("L,07,Z", bare(0, 7), 0), CODHUNGU_NOT_OF_FORM));
}

/* "Mistakes near at hand", and the rounding of Q. */
static void mistakes(void)
{
    static const int64_t late[] = {0, 0, 0, 9, 9}, last[] = {0, 0, 9}, rising[] = {1, 2, 3, 4};
    struct given g = indexed(1, 3, late);

    expect("a waiting W keeps its offsets",
           steps(step("W,2,G,N,5,O,0,-1,S,O,0,0,T,1,2,Z", g, 0), 0, "W,1,G,N,5,O,0,-1,S,O,0,0,T,1,2,Z"));
    g = indexed(0, 2, last);
    expect("a test that holds in the last month: payment",
           tells(payment("W,2,G,N,5,O,0,0,T,1,2,T,2,1", g, 0, 2), 1));
    expect("a test that holds in the last month: step",
           steps(step("W,0,G,N,5,O,0,0,T,1,2,T,2,1", g, 2), 1, "Z"));
    expect("a test that holds in the last month: value",
           tells(evaluate("W,2,G,N,5,O,0,0,F,0,1,2,F,0,2,1", g, 0), 1000000));
    expect("a cut keeps the payments of month now", tells(evaluate("B,H,0,1,2,H,1,1,2", g, 1), 1000000));
    expect("W with d = 0 waits no month: payment",
           tells(payment("W,0,G,N,5,O,0,0,T,1,2,T,2,1", g, 1, 1), -1));
    expect("W with d = 0 waits no month: step",
           steps(step("W,0,G,N,5,O,0,0,T,1,2,T,2,1", g, 1), -1, "Z"));
    g = indexed(1, 2, rising);
    expect("an O at offset 1 stays",
           steps(step("S,A,O,0,1,A,O,0,0,O,0,-1,L,1,T,1,2", g, 0), 0, "S,A,O,0,0,A,N,2,N,1,L,0,T,1,2"));
    expect("-1 by 3 is -1", tells(payment("S,Q,3,N,-1,T,1,2", bare(0, 0), 0, 0), -1));
}

/* ---- each refusal, by its name */

/* A plan of so many nodes, in balance; written from `at`, answered is its end. */
static char *balanced(char *at, int nodes)
{
    if (nodes == 1) {
        memcpy(at, "Z", 1);
        return at + 1;
    }
    if (nodes == 2) {
        memcpy(at, "L,0,Z", 5);
        return at + 5;
    }
    memcpy(at, "B,", 2);
    at = balanced(at + 2, (nodes - 1) / 2);
    *at++ = ',';
    return balanced(at, nodes - 1 - (nodes - 1) / 2);
}

static void refusals(void)
{
    static char text[CODHUNGU_SHEET_BYTES + 2];
    static const int64_t nine[9] = {0}, far[] = {601}, beyond[] = {1001};
    const char *plan = "T,1,2";
    struct given g = bare(0, 0), other;

    memset(text, 'Z', sizeof text);
    text[CODHUNGU_PLAN_BYTES + 1] = 0;
    expect("1: a plan", refuses(check(text, g, 0), CODHUNGU_TOO_LONG));
    text[CODHUNGU_PLAN_BYTES] = 0;
    expect("2 where a plan is not too long", refuses(check(text, g, 0), CODHUNGU_NOT_OF_FORM));
    memset(text, 'Z', sizeof text);
    text[CODHUNGU_PAYOFF_BYTES + 1] = 0;
    expect("1: a payoff", refuses(cut(text), CODHUNGU_TOO_LONG));
    memset(text, 'Z', sizeof text);
    text[CODHUNGU_SHEET_BYTES + 1] = 0;
    expect("1: a sheet", writes(sheet(text), "refused,1\n"));
    text[CODHUNGU_SHEET_BYTES] = 0;
    expect("2: a sheet", writes(sheet(text), "refused,2\n"));

    expect("2: leftover bytes", refuses(compile("Z,Z"), CODHUNGU_NOT_OF_FORM));
    *balanced(text, 512) = 0;
    expect("512 nodes", measures(check(text, g, 0), 0, 0));
    *balanced(text, 513) = 0;
    expect("3: check", refuses(check(text, g, 0), CODHUNGU_TOO_MANY_NODES));
    expect("3: compile", refuses(compile(text), CODHUNGU_TOO_MANY_NODES));
    expect("4: compile", refuses(compile(nested(32)), CODHUNGU_TOO_DEEP));
    expect("5: cut", refuses(cut("S,Z,Z"), CODHUNGU_WRONG_KIND));

    expect("8: an open setting that is unset: check", refuses(check("L,P0,Z", g, 0), CODHUNGU_SETTINGS));
    expect("8: an open setting that is unset: evaluate",
           refuses(evaluate("F,0+P0,1,2", g, 0), CODHUNGU_SETTINGS));
    other = g;
    other.days = nine;
    other.days_len = 9;
    expect("8: nine settings", refuses(step(plan, other, 0), CODHUNGU_SETTINGS));
    other.days = far;
    other.days_len = 1;
    expect("8: a setting of 601", refuses(payment(plan, other, 0, 0), CODHUNGU_SETTINGS));

    other = g;
    other.factors_len = 2;
    expect("9: a factor too many", refuses(check(plan, other, 0), CODHUNGU_TABLE));
    expect("9: h = 61", refuses(check(plan, bare(61, 0), 0), CODHUNGU_TABLE));
    expect("9: f = 601", refuses(check(plan, bare(0, 601), 0), CODHUNGU_TABLE));
    other = indexed(0, 0, beyond);
    expect("9: a value beyond its bound", refuses(evaluate("Z", other, 0), CODHUNGU_TABLE));

    expect("10: step", refuses(step("L,1,Z", g, 0), CODHUNGU_LENGTH));
    expect("11: an absent label", refuses(payment("S,O,0,0,Z", g, 0, 0), CODHUNGU_READS));
    expect("11: a leaf's month", refuses(evaluate("F,1,1,2", g, 0), CODHUNGU_READS));

    expect("12: today", refuses(check(plan, g, 1), CODHUNGU_CALLER));
    expect("12: now", refuses(evaluate("Z", g, -1), CODHUNGU_CALLER));
    expect("12: a month before today", refuses(payment(plan, bare(0, 2), 1, 0), CODHUNGU_CALLER));
    expect("12: a month behind f", refuses(payment(plan, bare(0, 2), 1, 3), CODHUNGU_CALLER));
    paint();
    expect("12: a party, before 13",
           refuses(codhungu_step(bytes_of("Z"), 1, GIVEN(g), 0, 1, 10, out, 0, answer, 0), CODHUNGU_CALLER));

    expect("14: an amount",
           refuses(evaluate("S,A,N,9000000000000,N,1,F,0,1,2", g, 0), CODHUNGU_OUT_OF_RANGE));
    expect("14: a value",
           refuses(evaluate("B,S,N,9000000000000,F,0,1,2,F,0,1,2", g, 0), CODHUNGU_OUT_OF_RANGE));
    expect("the greatest value",
           tells(evaluate("S,N,9000000000000,F,0,1,2", g, 0), 9000000000000000000));
}

/* ---- null pointers with length 0 */

#define NOTHING NULL, 0
#define EMPTY NOTHING, 0, 0, NOTHING, NOTHING, NOTHING

static void nulls(void)
{
    const uint8_t *z = bytes_of("Z");
    struct given g = bare(0, 0);

    paint();
    expect("check: all null", refuses(codhungu_check(NOTHING, EMPTY, 0, NOTHING), CODHUNGU_NOT_OF_FORM));
    expect("check: no table", refuses(codhungu_check(z, 1, EMPTY, 0, answer, 2), CODHUNGU_TABLE));
    expect("check: no answer", refuses(codhungu_check(z, 1, GIVEN(g), 0, NOTHING), CODHUNGU_NO_ROOM));
    expect("payment: all null",
           refuses(codhungu_payment(NOTHING, EMPTY, 0, 1, 2, 0, NOTHING), CODHUNGU_NOT_OF_FORM));
    expect("payment: no table",
           refuses(codhungu_payment(z, 1, EMPTY, 0, 1, 2, 0, answer, 1), CODHUNGU_TABLE));
    expect("payment: no answer",
           refuses(codhungu_payment(z, 1, GIVEN(g), 0, 1, 2, 0, NOTHING), CODHUNGU_NO_ROOM));
    expect("step: all null",
           refuses(codhungu_step(NOTHING, EMPTY, 0, 1, 2, NOTHING, NOTHING), CODHUNGU_NOT_OF_FORM));
    expect("step: no table",
           refuses(codhungu_step(z, 1, EMPTY, 0, 1, 2, out, whole, answer, 2), CODHUNGU_TABLE));
    expect("step: no out",
           refuses(codhungu_step(z, 1, GIVEN(g), 0, 1, 2, NOTHING, answer, 2), CODHUNGU_NO_ROOM));
    expect("step: no answer",
           refuses(codhungu_step(z, 1, GIVEN(g), 0, 1, 2, out, whole, NOTHING), CODHUNGU_NO_ROOM));
    expect("compile: all null", refuses(codhungu_compile(NOTHING, NOTHING, NOTHING), CODHUNGU_NOT_OF_FORM));
    expect("compile: no out", refuses(codhungu_compile(z, 1, NOTHING, answer, 1), CODHUNGU_NO_ROOM));
    expect("compile: no answer", refuses(codhungu_compile(z, 1, out, whole, NOTHING), CODHUNGU_NO_ROOM));
    expect("cut: all null", refuses(codhungu_cut(NOTHING, NOTHING, NOTHING), CODHUNGU_NOT_OF_FORM));
    expect("cut: no out", refuses(codhungu_cut(z, 1, NOTHING, answer, 1), CODHUNGU_NO_ROOM));
    expect("cut: no answer", refuses(codhungu_cut(z, 1, out, whole, NOTHING), CODHUNGU_NO_ROOM));
    expect("evaluate: all null",
           refuses(codhungu_evaluate(NOTHING, EMPTY, 0, 1, 2, NOTHING), CODHUNGU_NOT_OF_FORM));
    expect("evaluate: no table",
           refuses(codhungu_evaluate(z, 1, EMPTY, 0, 1, 2, answer, 1), CODHUNGU_TABLE));
    expect("evaluate: no answer",
           refuses(codhungu_evaluate(z, 1, GIVEN(g), 0, 1, 2, NOTHING), CODHUNGU_NO_ROOM));
    expect("sheet: all null", refuses(codhungu_sheet(NOTHING, NOTHING, NOTHING), CODHUNGU_NO_ROOM));
    expect("sheet: no answer", refuses(codhungu_sheet(NOTHING, out, whole, NOTHING), CODHUNGU_NO_ROOM));
    expect("sheet: no input", writes(codhungu_sheet(NOTHING, out, whole, answer, 1), "refused,2\n"));
}

/* ---- `answer` and `out` too short, of the exact size, and longer */

static void rooms(void)
{
    const uint8_t *plan = bytes_of(PLAN), *payoff = bytes_of(PAYOFF), *input = bytes_of(SHEET);
    const size_t plan_len = strlen(PLAN), payoff_len = strlen(PAYOFF), input_len = strlen(SHEET);
    struct given g = of_the_sheet();

    paint();
    expect("check: one place",
           refuses(codhungu_check(plan, plan_len, GIVEN(g), 0, answer, 1), CODHUNGU_NO_ROOM));
    expect("check: one place, and 10 before it",
           refuses(codhungu_check(plan, plan_len, GIVEN(g), 1, answer, 1), CODHUNGU_LENGTH));
    expect("payment: two places",
           tells(codhungu_payment(plan, plan_len, GIVEN(g), 0, 1, 2, 2, answer, 2), -30));
    paint();
    expect("evaluate: two places",
           tells(codhungu_evaluate(payoff, payoff_len, GIVEN(g), 0, 1, 2, answer, 2), 4920600000));

    paint();
    expect("step: a byte short",
           refuses(codhungu_step(plan, plan_len, GIVEN(g), 0, 1, 2, out, strlen(ONE) - 1, answer, 2),
                   CODHUNGU_NO_ROOM));
    expect("step: a place short",
           refuses(codhungu_step(plan, plan_len, GIVEN(g), 0, 1, 2, out, strlen(ONE), answer, 1),
                   CODHUNGU_NO_ROOM));
    expect("step: the exact size",
           steps(codhungu_step(plan, plan_len, GIVEN(g), 0, 1, 2, out, strlen(ONE), answer, 2), 0, ONE));

    paint();
    expect("compile: a byte short",
           refuses(codhungu_compile(plan, plan_len, out, strlen(PAYOFF) - 1, answer, 1), CODHUNGU_NO_ROOM));
    expect("compile: a place short",
           refuses(codhungu_compile(plan, plan_len, out, strlen(PAYOFF), answer, 0), CODHUNGU_NO_ROOM));
    expect("compile: the exact size",
           writes(codhungu_compile(plan, plan_len, out, strlen(PAYOFF), answer, 1), PAYOFF));

    paint();
    expect("cut: a byte short",
           refuses(codhungu_cut(payoff, payoff_len, out, strlen(CUT) - 1, answer, 1), CODHUNGU_NO_ROOM));
    expect("cut: a place short",
           refuses(codhungu_cut(payoff, payoff_len, out, strlen(CUT), answer, 0), CODHUNGU_NO_ROOM));
    expect("cut: the exact size",
           writes(codhungu_cut(payoff, payoff_len, out, strlen(CUT), answer, 1), CUT));

    paint();
    expect("sheet: a byte short",
           refuses(codhungu_sheet(input, input_len, out, strlen(LINES) - 1, answer, 1), CODHUNGU_NO_ROOM));
    expect("sheet: a place short",
           refuses(codhungu_sheet(input, input_len, out, strlen(LINES), answer, 0), CODHUNGU_NO_ROOM));
    expect("sheet: the exact size",
           writes(codhungu_sheet(input, input_len, out, strlen(LINES), answer, 1), LINES));
    paint();
    expect("refused sheet: a byte short",
           refuses(codhungu_sheet(NOTHING, out, 9, answer, 1), CODHUNGU_NO_ROOM));
    expect("refused sheet: the exact size",
           writes(codhungu_sheet(NOTHING, out, 10, answer, 1), "refused,2\n"));
}

int main(void)
{
    size_t i;
    for (i = 0; i < sizeof ones / sizeof *ones; i++)
        ones[i] = 1000000;
    for (i = 0; i < sizeof sevens / sizeof *sevens; i++)
        sevens[i] = 7;

    document();
    mistakes();
    refusals();
    nulls();
    rooms();

    printf("c cases: %d passed", passed);
    if (failed > 0)
        printf(", %d failed", failed);
    printf("\n");
    return failed > 0;
}
