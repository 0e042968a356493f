/* Measures the nanoseconds per symbol with a mean and a deviation for each, by the C functions and in floats. Prints lines
   `name ns_per_symbol`, each the least of RUNS runs. bench/models builds and runs this program.

   The floats do the work of programs without such functions: an interval takes two calls of erfc, and a decode bisects
   with a call of erfc in each step, under the same leaky quantizer. The coder's step is inlined in plain C, without lists
   and errors; `erfc_intervals` passes the intervals to the C function instead. The program compares the decoded symbols
   with the encoded ones in both cases. */

#define _POSIX_C_SOURCE 199309L
#include <math.h>
#include <stdio.h>
#include <stdlib.h>
#include <string.h>
#include <time.h>
#include "constriction.h"

enum { COUNT = 1000000, RUNS = 11, PART = 65536, MOST = 2000 };

static int32_t least, greatest;
static int64_t means[COUNT];
static uint32_t deviations[COUNT], words[COUNT + 2];
static double float_means[COUNT], float_deviations[COUNT];
static size_t symbols[COUNT], decoded[COUNT], len, needed;
static uint64_t head;

static void must(int holds, const char *what) {
    if (holds) return;
    fprintf(stderr, "models: %s\n", what);
    exit(1);
}

/* ---- random input: means within 30 of 0, deviations from 0.3 to 20.3, and symbols drawn by them */
static double random_part(void) {
    static uint64_t x = 88172645463325252u;
    x ^= x << 13, x ^= x >> 7, x ^= x << 17;
    return (double)(x >> 11) / 9007199254740992.0;
}

static void draw(void) {
    for (size_t i = 0; i < COUNT; i++) {
        means[i] = (int64_t)((random_part() - 0.5) * 60 * CONSTRICTION_UNITS);
        deviations[i] = (uint32_t)((0.3 + random_part() * 20) * CONSTRICTION_UNITS);
        float_means[i] = (double)means[i] / CONSTRICTION_UNITS;
        float_deviations[i] = (double)deviations[i] / CONSTRICTION_UNITS;
        double normal = sqrt(-2 * log(1 - random_part())) * cos(6.283185307179586 * random_part());
        double drawn = fmin(greatest, fmax(least, round(float_means[i] + float_deviations[i] * normal)));
        symbols[i] = (size_t)(drawn - least);
    }
}

static size_t length_at(size_t start) { return COUNT - start < PART ? COUNT - start : PART; }

/* ---- by the C functions */
static void encode(void) {
    head = 0, len = 0;
    for (size_t i = ((COUNT - 1) / PART + 1) * PART; i > 0;) {
        i -= PART;
        size_t n = length_at(i);
        uint32_t result = constriction_ans_encode_gaussian_reverse_u32(
            &head, words, COUNT, &len, least, greatest, means + i, n, deviations + i, n, symbols + i, n, &needed);
        must(result == CONSTRICTION_DONE, constriction_result_text(result));
    }
}

static void decode(void) {
    for (size_t i = 0; i < COUNT; i += PART) {
        size_t n = length_at(i);
        uint32_t result = constriction_ans_decode_gaussian_u32(
            &head, words, COUNT, &len, least, greatest, means + i, n, deviations + i, n, decoded + i, n);
        must(result == CONSTRICTION_DONE, constriction_result_text(result));
    }
}

/* ---- in floats */
static const double ROOT_OF_HALF = 0.70710678118654752440;

/* Returns the start of a symbol's interval, or the end of the last one. */
static inline uint32_t start(size_t i, uint32_t kinds, uint32_t symbol) {
    if (symbol == 0) return 0;
    if (symbol == kinds) return 1u << 24;
    double below = 0.5 * erfc((float_means[i] - ((double)least + symbol - 0.5)) * (ROOT_OF_HALF / float_deviations[i]));
    return (uint32_t)(((1 << 24) - kinds) * below) + symbol;
}

static void encode_by_floats(void) {
    uint32_t kinds = (uint32_t)(greatest - least + 1);
    head = 0, len = 0;
    for (size_t i = COUNT; i-- > 0;) {
        uint32_t left = start(i, kinds, (uint32_t)symbols[i]), p = start(i, kinds, (uint32_t)symbols[i] + 1) - left;
        if (head >> 40 >= p) words[len++] = (uint32_t)head, head >>= 32;
        head = (head / p << 24) + left + head % p;
    }
}

static void encode_intervals_by_floats(void) {
    static uint32_t lefts[PART], ps[PART];
    uint32_t kinds = (uint32_t)(greatest - least + 1);
    head = 0, len = 0;
    for (size_t from = ((COUNT - 1) / PART + 1) * PART; from > 0;) {
        from -= PART;
        size_t n = length_at(from);
        for (size_t i = 0; i < n; i++) {
            uint32_t symbol = (uint32_t)symbols[from + i];
            lefts[i] = start(from + i, kinds, symbol), ps[i] = start(from + i, kinds, symbol + 1) - lefts[i];
        }
        uint32_t result = constriction_ans_encode_intervals_reverse_u32(&head, words, COUNT, &len, lefts, n, ps, n, &needed);
        must(result == CONSTRICTION_DONE, constriction_result_text(result));
    }
}

static void decode_by_floats(void) {
    uint32_t kinds = (uint32_t)(greatest - least + 1);
    for (size_t i = 0; i < COUNT; i++) {
        uint32_t quantile = head & 0xffffff, low = 0, high = kinds, left = 0, end = 1u << 24;
        while (high - low > 1) {
            uint32_t middle = (low + high) / 2, at = start(i, kinds, middle);
            if (quantile < at) high = middle, end = at;
            else low = middle, left = at;
        }
        decoded[i] = low;
        head = (head >> 24) * (end - left) + quantile - left;
        if (!(head >> 32) && len) head = head << 32 | words[--len];
    }
}

/* ---- times */
static void timed(void (*pass)(void), double *time) {
    struct timespec from, to;
    clock_gettime(CLOCK_MONOTONIC, &from);
    pass();
    clock_gettime(CLOCK_MONOTONIC, &to);
    double taken = ((double)(to.tv_sec - from.tv_sec) * 1e9 + (double)(to.tv_nsec - from.tv_nsec)) / COUNT;
    if (taken < *time) *time = taken;
}

int main(int count, char **arguments) {
    long most = count > 1 ? strtol(arguments[1], NULL, 10) : 100;
    must(most > 0 && most <= MOST, "usage: models [GREATEST_SYMBOL]");
    greatest = (int32_t)most, least = -greatest;
    draw();
    double ours[2] = {1e9, 1e9}, floats[2] = {1e9, 1e9}, intervals = 1e9;
    size_t our_words = 0, float_words = 0;
    for (int run = 0; run < RUNS; run++) {
        timed(encode, ours), our_words = len;
        timed(decode, ours + 1);
        must(!memcmp(decoded, symbols, sizeof symbols) && !len && !head, "other symbols came back");
        timed(encode_intervals_by_floats, &intervals);
        timed(encode_by_floats, floats), float_words = len;
        timed(decode_by_floats, floats + 1);
        must(!memcmp(decoded, symbols, sizeof symbols), "other symbols came back, by floats");
    }
    const char *const names[] = {"encode", "decode"};
    for (int i = 0; i < 2; i++) {
        printf("c_ans_%s_u32u64p24_gaussian_%ld %.3f\n", names[i], most, ours[i]);
        printf("c_ans_%s_u32u64p24_erfc_%ld %.3f\n", names[i], most, floats[i]);
        printf("ratio_%s_%ld %.2f\n", names[i], most, ours[i] / floats[i]);
    }
    printf("c_ans_encode_u32u64p24_erfc_intervals_%ld %.3f\n", most, intervals);
    printf("words_%ld %zu %zu\n", most, our_words, float_words);
}
