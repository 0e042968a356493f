/* Nanoseconds a count of rows of counts with the stack coder: lines `name ns_per_count`, each the
   least of so many runs. bench/models builds and runs it.

   Each symbol has a row of its own: its counts are exponentials of twice a normal number, in proportion to which they
   add up to some 2^31. All symbols are looked at after the decodes. */

#define _POSIX_C_SOURCE 199309L
#include <math.h>
#include <stdio.h>
#include <stdlib.h>
#include <string.h>
#include <time.h>
#include "constriction.h"

enum { RUNS = 21, COUNTS = 1 << 18, MOST_SYMBOLS = COUNTS / 256, ROOM = MOST_SYMBOLS + 8 };

static uint32_t counts[COUNTS], words[ROOM];
static size_t symbols[MOST_SYMBOLS], decoded[MOST_SYMBOLS];

static double random_part(void) {
    static uint64_t x = 88172645463325252u;
    x ^= x << 13, x ^= x >> 7, x ^= x << 17;
    return 1 - (double)(x >> 11) / 9007199254740992.0;
}

static void draw(size_t width, size_t rows) {
    static double parts[COUNTS];
    for (size_t row = 0; row < rows; row++) {
        double sum = 0, below = 0, at;
        size_t symbol = 0;
        for (size_t i = 0; i < width; i++) {
            parts[i] = exp(2 * sqrt(-2 * log(random_part())) * cos(6.283185307179586 * random_part()));
            sum += parts[i];
        }
        for (size_t i = 0; i < width; i++) counts[row * width + i] = (uint32_t)rint(ldexp(parts[i] / sum, 31));
        at = random_part() * sum;
        while (symbol + 1 < width && (below += parts[symbol]) < at) symbol++;
        symbols[row] = symbol;
    }
}

static void done(uint32_t result) {
    if (result == CONSTRICTION_DONE) return;
    fprintf(stderr, "counts: %s\n", constriction_result_text(result));
    exit(1);
}

static double now(void) {
    struct timespec at;
    clock_gettime(CLOCK_MONOTONIC, &at);
    return (double)at.tv_sec * 1e9 + (double)at.tv_nsec;
}

static void same(size_t rows) {
    if (memcmp(symbols, decoded, rows * sizeof *symbols) == 0) return;
    fprintf(stderr, "counts: other symbols\n");
    exit(1);
}

static void ans(size_t width, size_t rows, double *encode, double *decode) {
    uint64_t head = 0;
    size_t len = 0, needed;
    double start = now();
    done(constriction_ans_encode_counts_reverse_u32(&head, words, ROOM, &len, counts, width * rows, width, symbols,
                                                    rows, &needed));
    *encode = fmin(*encode, now() - start);
    start = now();
    done(constriction_ans_decode_counts_u32(&head, words, len, &len, counts, width * rows, width, decoded, rows));
    *decode = fmin(*decode, now() - start);
    same(rows);
}

int main(void) {
    const size_t widths[] = {256, 50257};
    for (int at = 0; at < 2; at++) {
        const size_t width = widths[at], rows = COUNTS / width;
        double encode = 1e18, decode = 1e18;
        draw(width, rows);
        for (int run = 0; run < RUNS; run++) ans(width, rows, &encode, &decode);
        printf("c_ans_encode_counts_p24_%zu %.3f\n", width, encode / (double)(width * rows));
        printf("c_ans_decode_counts_p24_%zu %.3f\n", width, decode / (double)(width * rows));
    }
}
