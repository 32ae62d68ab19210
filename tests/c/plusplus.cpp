// The header as C++: one call, linked and answered.
#include <codhungu.h>
#include <cstdio>

int main()
{
    const uint8_t payoff[] = {'F', ',', '0', ',', '1', ',', '2'};
    uint8_t out[CODHUNGU_PAYOFF_BYTES];
    int64_t bytes = 0;
    int32_t refusal = codhungu_cut(payoff, sizeof payoff, out, sizeof out, &bytes, 1);
    bool passed = refusal == CODHUNGU_ACCEPTED && bytes == 7 && out[0] == 'H';
    std::printf("c++ cases: %d passed, %d failed\n", passed, !passed);
    return !passed;
}
