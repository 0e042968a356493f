/* Measures the nanoseconds per symbol under a mixture of 5 logistic distributions for each symbol, and under a single one.
   Prints lines `name ns_per_symbol`, each the least of RUNS runs, and then the two ratios. bench/models builds and runs
   this program. It compares the decoded symbols with the encoded ones. */

#define _POSIX_C_SOURCE 199309L
#include <math.h>
#include <stdio.h>
#include <stdlib.h>
#include <string.h>
#include <time.h>
#include "constriction.h"

enum { COUNT = 200000, RUNS = 11, PART = 16384, WIDTH = 5, LEAST = -128, GREATEST = 127 };

static uint32_t weights[COUNT * WIDTH], scales[COUNT * WIDTH], words[COUNT + 2];
static int64_t locations[COUNT * WIDTH];
static size_t symbols[COUNT], decoded[COUNT], len, needed;
static uint64_t head;

static void must(int holds, const char *what) {
    if (holds) return;
    fprintf(stderr, "mixtures: %s\n", what);
    exit(1);
}

static double random_part(void) {
    static uint64_t x = 88172645463325252u;
    x ^= x << 13, x ^= x >> 7, x ^= x << 17;
    return (double)(x >> 11) / 9007199254740992.0;
}

/* Draws rows of components, each with a location within 30 of 0 and a scale from 0.3 to 20.3, and symbols by them. */
static void draw(size_t width) {
    for (size_t i = 0; i < COUNT; i++) {
        size_t chosen = width * i + (size_t)(random_part() * (double)width);
        for (size_t k = width * i; k < width * (i + 1); k++) {
            weights[k] = 1000;
            locations[k] = (int64_t)((random_part() - 0.5) * 60 * CONSTRICTION_UNITS);
            scales[k] = (uint32_t)((0.3 + random_part() * 20) * CONSTRICTION_UNITS);
        }
        double part = fmin(fmax(random_part(), 1e-9), 1 - 1e-9);
        double drawn = ((double)locations[chosen] + (double)scales[chosen] * log(part / (1 - part))) / CONSTRICTION_UNITS;
        symbols[i] = (size_t)(fmin(GREATEST, fmax(LEAST, round(drawn))) - LEAST);
    }
}

static size_t length_at(size_t start) { return COUNT - start < PART ? COUNT - start : PART; }

static void encode(size_t width) {
    head = 0, len = 0;
    for (size_t i = ((COUNT - 1) / PART + 1) * PART; i > 0;) {
        i -= PART;
        size_t n = length_at(i), all = width * n, at = width * i;
        uint32_t result = width > 1
            ? constriction_ans_encode_mixture_reverse_u32(
                  &head, words, COUNT, &len, CONSTRICTION_LOGISTIC, LEAST, GREATEST, width, weights + at, all,
                  locations + at, all, scales + at, all, symbols + i, n, &needed)
            : constriction_ans_encode_logistic_reverse_u32(
                  &head, words, COUNT, &len, LEAST, GREATEST, locations + i, n, scales + i, n, symbols + i, n, &needed);
        must(result == CONSTRICTION_DONE, constriction_result_text(result));
    }
}

static void decode(size_t width) {
    for (size_t i = 0; i < COUNT; i += PART) {
        size_t n = length_at(i), all = width * n, at = width * i;
        uint32_t result = width > 1
            ? constriction_ans_decode_mixture_u32(
                  &head, words, COUNT, &len, CONSTRICTION_LOGISTIC, LEAST, GREATEST, width, weights + at, all,
                  locations + at, all, scales + at, all, decoded + i, n)
            : constriction_ans_decode_logistic_u32(
                  &head, words, COUNT, &len, LEAST, GREATEST, locations + i, n, scales + i, n, decoded + i, n);
        must(result == CONSTRICTION_DONE, constriction_result_text(result));
    }
}

static void timed(void (*pass)(size_t), size_t width, double *time) {
    struct timespec from, to;
    clock_gettime(CLOCK_MONOTONIC, &from);
    pass(width);
    clock_gettime(CLOCK_MONOTONIC, &to);
    double taken = ((double)(to.tv_sec - from.tv_sec) * 1e9 + (double)(to.tv_nsec - from.tv_nsec)) / COUNT;
    if (taken < *time) *time = taken;
}

int main(void) {
    const size_t widths[] = {1, WIDTH};
    double encodes[] = {1e9, 1e9}, decodes[] = {1e9, 1e9};
    for (int which = 0; which < 2; which++) {
        draw(widths[which]);
        for (int run = 0; run < RUNS; run++) {
            timed(encode, widths[which], encodes + which);
            timed(decode, widths[which], decodes + which);
            must(!memcmp(decoded, symbols, sizeof symbols) && !len && !head, "other symbols came back");
        }
    }
    printf("logistic_encode %.1f\nlogistic_decode %.1f\n", encodes[0], decodes[0]);
    printf("mixture_of_5_encode %.1f\nmixture_of_5_decode %.1f\n", encodes[1], decodes[1]);
    printf("mixture over one: encode %.2f, decode %.2f\n", encodes[1] / encodes[0], decodes[1] / decodes[0]);
    return 0;
}
