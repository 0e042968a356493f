// The header in C++: it compiles, it can come twice, and its functions link.
#include "constriction.h"
#include "constriction.h"
#include "families.h"

#include <cstdint>
#include <cstdio>

static_assert(CONSTRICTION_NO_SPACE == 5 && CONSTRICTION_OUT_OF_DATA == 8, "the results' numbers");
#define IS_NUMBERED(name, NAME, number) static_assert(CONSTRICTION_##NAME == number, "the number of " #name);
FAMILIES_BY(IS_NUMBERED)
static_assert(CONSTRICTION_PRECISION_U32 == 24 && CONSTRICTION_PRECISION_U16 == 12, "the precisions");

int main() {
    const std::uint32_t weights[] = {3, 2, 16777211};
    const std::size_t symbols[] = {1, 1};
    std::uint64_t head = 0;
    std::uint32_t words[4];
    std::size_t len = 0, needed;
    std::uint32_t result = constriction_ans_encode_reverse_u32(&head, words, 4, &len, weights, 3, symbols, 2, &needed);
    struct constriction_range_encoder_state_u16 encoder;
    // Each symbol of -3 .. 4 under a mean and a deviation of its own: 1.5 and 2, then -0.25 and 1, in units.
    const std::int64_t means[] = {98304, -16384};
    const std::uint32_t deviations[] = {131072, 65536};
    const std::size_t places[] = {5, 2};
    std::size_t back[] = {0, 0}, own_len = 0;
    std::uint32_t own[4];
    std::uint64_t own_head = 0;
    std::uint16_t left = 0, p = 0;
    bool models = constriction_ans_encode_gaussian_reverse_u32(&own_head, own, 4, &own_len, -3, 4, means, 2, deviations, 2, places, 2, &needed) == 0
        && constriction_ans_decode_gaussian_u32(&own_head, own, 4, &own_len, -3, 4, means, 2, deviations, 2, back, 2) == 0
        && back[0] == 5 && back[1] == 2 && own_head == 0
        && constriction_logistic_interval_u16(-3, 4, means[0], deviations[0], 8, &left, &p) == CONSTRICTION_IMPOSSIBLE_SYMBOL
        && constriction_logistic_interval_u16(-3, 4, means[0], deviations[0], 0, &left, &p) == CONSTRICTION_DONE && left == 0 && p > 0;
    bool fine = models && result == CONSTRICTION_DONE && head == 16777220 && len == 0 && constriction_range_encoder_u16(&encoder) == CONSTRICTION_DONE;
    std::printf("%d passed, %d failed\n", fine ? 1 : 0, fine ? 0 : 1);
    return fine ? 0 : 1;
}
