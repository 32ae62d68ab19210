/* Checks a plan, rolls it forward three months and prints what is paid.
 *
 *     cc -std=c99 roll.c $(pkg-config --cflags --libs codhungu) -o roll
 */
#include <inttypes.h>
#include <stdio.h>
#include <string.h>
#include <codhungu.h>

/* Settings, h and f, factors, bounds and values: the same for every call. */
static const int64_t days[] = {2}, factors[] = {1000000, 990000, 980000};
static const int64_t bounds[] = {200}, values[] = {90, 100, 130};
#define GIVEN days, 1, 0, 2, factors, 3, bounds, 1, values, 3

int main(void)
{
    static uint8_t texts[2][CODHUNGU_PLAN_BYTES]; /* the held plan, and the plan for tomorrow */
    const char *plan = "B,L,1,S,N,5000,T,1,2,W,P0,G,N,100,O,0,0,S,U,O,0,0,N,100,T,2,1,Z";
    uint8_t *held = texts[0], *next = texts[1];
    size_t length = strlen(plan);
    int64_t answer[2];
    memcpy(held, plan, length);

    int32_t refusal = codhungu_check(held, length, GIVEN, 0, answer, 2);
    if (refusal == CODHUNGU_ACCEPTED)
        printf("accepted: length %" PRId64 ", magnitude %" PRId64 "\n", answer[0], answer[1]);

    for (int64_t today = 0; today < 3 && refusal == CODHUNGU_ACCEPTED; today++) {
        refusal = codhungu_step(held, length, GIVEN, today, 1, 2, next, sizeof texts[1], answer, 2);
        if (refusal != CODHUNGU_ACCEPTED)
            break; /* the held plan is as it was */
        length = (size_t)answer[1];
        printf("month %" PRId64 ": 1 pays 2 %" PRId64 " pence; then %.*s\n",
               today, answer[0], (int)length, (const char *)next);
        uint8_t *old = held;
        held = next;
        next = old;
    }
    if (refusal != CODHUNGU_ACCEPTED)
        printf("refused: %" PRId32 "\n", refusal);
    return refusal != CODHUNGU_ACCEPTED;
}
