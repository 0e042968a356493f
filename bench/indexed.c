/* Nanoseconds a symbol with the stack coder, under tables by index and under one table: lines `name ns_per_symbol`, each the
   least of so many runs. bench/models builds and runs it.

   Weights fall exponentially with the distance from symbol 128, at a rate that differs between tables. Each symbol has a
   random index, and is drawn by its table's weights. In the lines `sorted` the indexes are in order, so that the caches hold
   the one table in use. A line of one table is the mean of lists under 8 of the 64 tables: a wider distribution takes longer,
   since a symbol has more bits. All symbols are looked at after the decodes.

   The lines `load_N_kb` are nanoseconds a load in a chain of loads, each from the address that the load before it read, in
   random order over N KB. A decode can't take less than one such load: its place in a table depends on the coder's head. */

#define _POSIX_C_SOURCE 199309L
#include <math.h>
#include <stdio.h>
#include <stdlib.h>
#include <string.h>
#include <time.h>
#include "constriction.h"

enum { RUNS = 15, MOST = 1 << 20, ROOM = MOST + 8, WIDTH = 256, TABLES = 256, RATES = 64, ALONE = 8 };

static uint64_t counts[WIDTH];
static uint32_t weights[TABLES * WIDTH], words[ROOM];
static size_t indexes[MOST], symbols[MOST], decoded[MOST];

static uint64_t random_number(void) {
    static uint64_t x = 88172645463325252u;
    x ^= x << 13, x ^= x >> 7, x ^= x << 17;
    return x >> 16;
}

static void done(uint32_t result) {
    if (result == CONSTRICTION_DONE) return;
    fprintf(stderr, "indexed: %s\n", constriction_result_text(result));
    exit(1);
}

static double now(void) {
    struct timespec at;
    clock_gettime(CLOCK_MONOTONIC, &at);
    return (double)at.tv_sec * 1e9 + (double)at.tv_nsec;
}

static void draw(size_t tables, size_t count, int sorted, size_t rate) {
    for (size_t t = 0; t < tables; t++) {
        for (size_t i = 0; i < WIDTH; i++) {
            double far = fabs((double)i - 128.0) / (2.0 + (double)((t + rate) % RATES) / 4.0);
            counts[i] = (uint64_t)(1.0 + ldexp(exp(-far), 40));
        }
        done(constriction_weights_of_counts_u32(counts, WIDTH, weights + t * WIDTH, WIDTH));
    }
    for (size_t i = 0; i < count; i++) {
        indexes[i] = sorted ? i * tables / count : random_number() % tables;
        const uint32_t *row = weights + indexes[i] * WIDTH;
        uint32_t at = (uint32_t)random_number() & 0xffffff, symbol = 0;
        while (at >= row[symbol]) at -= row[symbol++];
        symbols[i] = symbol;
    }
}

static void run(size_t tables, size_t count, double *encode, double *decode) {
    uint64_t head = 0;
    size_t len = 0, needed;
    double start = now();
    if (tables == 1) {
        done(constriction_ans_encode_reverse_u32(&head, words, ROOM, &len, weights, WIDTH, symbols, count, &needed));
    } else {
        done(constriction_ans_encode_indexed_reverse_u32(&head, words, ROOM, &len, weights, tables * WIDTH, WIDTH, indexes, count,
                                                         symbols, count, &needed));
    }
    *encode = fmin(*encode, now() - start);
    start = now();
    if (tables == 1) {
        done(constriction_ans_decode_u32(&head, words, len, &len, weights, WIDTH, decoded, count));
    } else {
        done(constriction_ans_decode_indexed_u32(&head, words, len, &len, weights, tables * WIDTH, WIDTH, indexes, count,
                                                 decoded, count));
    }
    *decode = fmin(*decode, now() - start);
    if (memcmp(symbols, decoded, count * sizeof *symbols) == 0) return;
    fprintf(stderr, "indexed: other symbols\n");
    exit(1);
}

static double chain(size_t kilobytes) {
    enum { LINE = 64, LOADS = 1000000 };
    static char memory[4096 * 1024 + LINE];
    static uint32_t order[4096 * 1024 / LINE];
    size_t lines = kilobytes * 1024 / LINE;
    char *first = memory + (LINE - (uintptr_t)memory % LINE) % LINE;
    for (size_t i = 0; i < lines; i++) order[i] = (uint32_t)i;
    for (size_t i = lines - 1; i > 0; i--) {
        size_t other = random_number() % i;
        uint32_t kept = order[i];
        order[i] = order[other], order[other] = kept;
    }
    for (size_t i = 0; i < lines; i++) *(char **)(first + LINE * i) = first + LINE * (size_t)order[i];
    double least = 1e18;
    for (int times = 0; times < RUNS; times++) {
        char *at = first;
        double start = now();
        for (int i = 0; i < LOADS; i++) at = *(char *volatile *)at;
        least = fmin(least, now() - start);
    }
    return least / LOADS;
}

static void of_one(void) {
    double encodes = 0, decodes = 0;
    for (size_t rate = RATES / ALONE / 2; rate < RATES; rate += RATES / ALONE) {
        double encode = 1e18, decode = 1e18;
        draw(1, MOST, 0, rate);
        for (int times = 0; times < RUNS; times++) run(1, MOST, &encode, &decode);
        encodes += encode, decodes += decode;
    }
    printf("c_ans_encode_indexed_p24_1 %.3f\n", encodes / ALONE / MOST);
    printf("c_ans_decode_indexed_p24_1 %.3f\n", decodes / ALONE / MOST);
}

int main(void) {
    const size_t tables[] = {RATES, TABLES};
    of_one();
    for (int at = 0; at < 2; at++) {
        for (int sorted = 0; sorted < 2; sorted++) {
            const char *order = sorted ? "sorted_" : "";
            double encode = 1e18, decode = 1e18;
            draw(tables[at], MOST, sorted, 0);
            for (int times = 0; times < RUNS; times++) run(tables[at], MOST, &encode, &decode);
            printf("c_ans_encode_indexed_%sp24_%zu %.3f\n", order, tables[at], encode / MOST);
            printf("c_ans_decode_indexed_%sp24_%zu %.3f\n", order, tables[at], decode / MOST);
        }
    }
    for (size_t kilobytes = 16; kilobytes <= 1024; kilobytes *= 4) printf("load_%zu_kb %.3f\n", kilobytes, chain(kilobytes));
}
