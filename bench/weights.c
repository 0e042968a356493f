/* Measures the nanoseconds per count of constriction_weights_of_counts_u32. Prints lines `name ns_per_count`, each the least
   of RUNS runs. bench/models builds and runs this program.

   Counts are below 2^62: `even` ones are uniform, `skewed` ones are exponentials of three times a normal number, and
   `equal` ones are all the same. The program checks the sum of the weights. */

#define _POSIX_C_SOURCE 199309L
#include <math.h>
#include <stdio.h>
#include <stdlib.h>
#include <time.h>
#include "constriction.h"

enum { MOST = 65536, RUNS = 11, COUNTS_A_RUN = 1 << 20 };

static uint64_t counts[MOST];
static uint32_t weights[MOST];

static double random_part(void) {
    static uint64_t x = 88172645463325252u;
    x ^= x << 13, x ^= x >> 7, x ^= x << 17;
    return (double)(x >> 11) / 9007199254740992.0;
}

enum kind { EVEN, SKEWED, EQUAL, KINDS };

static double drawn(enum kind kind) {
    double part = 1 - random_part();
    if (kind == EVEN) return part;
    return kind == SKEWED ? exp(3 * sqrt(-2 * log(part)) * cos(6.283185307179586 * random_part())) : 1;
}

static void draw(enum kind kind, size_t n) {
    static double parts[MOST];
    double greatest = 0;
    int bits;
    for (size_t i = 0; i < n; i++) parts[i] = drawn(kind), greatest = fmax(greatest, parts[i]);
    frexp(greatest, &bits);
    for (size_t i = 0; i < n; i++) counts[i] = (uint64_t)fmax(1, rint(ldexp(parts[i], 62 - bits)));
}

static void make(size_t n) {
    uint32_t result = constriction_weights_of_counts_u32(counts, n, weights, n), sum = 0;
    for (size_t i = 0; i < n; i++) sum += weights[i];
    if (result == CONSTRICTION_DONE && sum == 1u << 24) return;
    fprintf(stderr, "weights: %s\n", constriction_result_text(result));
    exit(1);
}

static double timed(size_t n) {
    size_t times = COUNTS_A_RUN / n;
    struct timespec from, to;
    clock_gettime(CLOCK_MONOTONIC, &from);
    for (size_t i = 0; i < times; i++) make(n);
    clock_gettime(CLOCK_MONOTONIC, &to);
    return ((double)(to.tv_sec - from.tv_sec) * 1e9 + (double)(to.tv_nsec - from.tv_nsec)) / (double)(times * n);
}

int main(void) {
    const char *const names[] = {"even", "skewed", "equal"};
    const size_t sizes[] = {256, 50257, MOST};
    for (enum kind kind = EVEN; kind < KINDS; kind++)
        for (int size = 0; size < 3; size++) {
            double least = 1e9;
            draw(kind, sizes[size]);
            for (int run = 0; run < RUNS; run++) least = fmin(least, timed(sizes[size]));
            printf("c_weights_of_counts_p24_%s_%zu %.2f\n", names[kind], sizes[size], least);
        }
}
