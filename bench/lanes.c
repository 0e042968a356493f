/* Measures many stack coders in one call, beside one coder, at one size, which -DBITS=32 or -DBITS=16 chooses. Prints
   lines `name ns_per_symbol`, each the least of 21 runs. bench/lanes builds and runs it at both sizes.

   gcc -O2 -DBITS=32 -Iinclude bench/lanes.c build/libconstriction.a -lm -o bench/out/lanes && bench/out/lanes

   Cases of `list` code a million symbols of the driver's under its 256 weights: `list_1` with one coder, and `list_3`
   with a row of a third of the symbols for each of three coders. Cases of `table` and `gaussian` code one symbol with
   each of so many coders, in 2001 runs: `.._alone` in a call for each coder, the others in one call for all. Each
   symbol of `gaussian` has a mean and a deviation of its own, over -100 .. 100. The program compares the decoded
   symbols with the encoded ones, and the coders after the last decode with those before the first encode. */

#define _POSIX_C_SOURCE 199309L
#include <math.h>
#include <stdio.h>
#include <stdlib.h>
#include <string.h>
#include <time.h>
#include "constriction_models.h"

#define GLUE(a, b, c) a##b##c
#define NAME(name, bits) GLUE(constriction_, name, bits)
#if BITS == 32
typedef uint32_t word;
typedef uint64_t state;
#define C(name) NAME(name, _u32)
#define SIZE "u32u64p24"
enum { PRECISION = CONSTRICTION_PRECISION_U32 };
#else
typedef uint16_t word;
typedef uint32_t state;
#define C(name) NAME(name, _u16)
#define SIZE "u16u32p12"
enum { PRECISION = CONSTRICTION_PRECISION_U16 };
#endif

enum { COUNT = 1000000, RUNS_OF_LISTS = 21, RUNS_OF_BATCHES = 2001 };
enum { KINDS = 256, MOST = 1024, WIDTH = 16, MIN = -100, MAX = 100 };
enum model { TABLE, GAUSSIAN };

static word weights[KINDS], words[COUNT + MOST * WIDTH];
static size_t drawn[COUNT], near_means[MOST], decoded[COUNT], lens[MOST], needed;
static state heads[MOST];
static int64_t means[MOST];
static uint32_t stds[MOST];
static double encode_time, decode_time;

static uint64_t random_number(void) {
    static uint64_t x = 0x123456789ABCDEF1u;
    x ^= x << 13, x ^= x >> 7, x ^= x << 17;
    return x;
}

static void draw(void) {
    uint64_t shares[KINDS], sum = 0, total = 0;
    for (uint64_t i = 0; i < KINDS; i++) sum += shares[i] = 1000000000 / ((i + 4) * (i + 16));
    for (size_t i = 0; i < KINDS; i++) total += weights[i] = (word)(1 + shares[i] * ((1 << PRECISION) - KINDS) / sum);
    weights[0] = (word)(weights[0] + ((1 << PRECISION) - total));
    for (size_t i = 0; i < COUNT; i++) {
        uint64_t quantile = random_number() >> (64 - PRECISION);
        for (drawn[i] = 0; quantile >= weights[drawn[i]]; drawn[i]++) quantile -= weights[drawn[i]];
    }
    for (size_t i = 0; i < MOST; i++) {
        double deviations = ldexp((double)random_number(), -62) - 2; /* from -2 to 2 */
        means[i] = (int64_t)(random_number() >> 41) - (1 << 22);
        stds[i] = (uint32_t)(random_number() >> 45) + (1 << 15);
        double symbol = rint(ldexp((double)means[i] + (double)stds[i] * deviations, -16));
        near_means[i] = (size_t)fmin(MAX - MIN, fmax(0, symbol - MIN));
    }
}

static void must(int holds, const char *what) {
    if (holds) return;
    fprintf(stderr, "lanes: %s\n", what);
    exit(1);
}

static double now(void) {
    struct timespec at;
    clock_gettime(CLOCK_MONOTONIC, &at);
    return (double)at.tv_sec * 1e9 + (double)at.tv_nsec;
}

/* ---- the calls for coder j alone, and for n coders, with `count` symbols and rows of `width` words each */
#define ONE &heads[j], words + j * width, width, &lens[j]
#define ALL heads, n, words, n * width, lens, n
#define OF_TABLE weights, (size_t)KINDS
#define OF_GAUSSIANS(first, total) CONSTRICTION_GAUSSIAN, MIN, MAX, means + (first), (total), stds + (first), (total)

static uint32_t encode_one(enum model model, size_t j, size_t width, const size_t *symbols, size_t count) {
    if (model == TABLE) return C(ans_encode_reverse)(ONE, OF_TABLE, symbols, count, &needed);
    return C(ans_encode_quantized_reverse)(ONE, OF_GAUSSIANS(j, count), symbols, count, &needed);
}

static uint32_t decode_one(enum model model, size_t j, size_t width, size_t *symbols, size_t count) {
    if (model == TABLE) return C(ans_decode)(ONE, OF_TABLE, symbols, count);
    return C(ans_decode_quantized)(ONE, OF_GAUSSIANS(j, count), symbols, count);
}

static uint32_t encode_all(enum model model, size_t n, size_t width, const size_t *symbols, size_t total) {
    if (model == TABLE) return C(ans_lanes_encode_reverse)(ALL, OF_TABLE, symbols, total, &needed);
    return C(ans_lanes_encode_quantized_reverse)(ALL, OF_GAUSSIANS(0, total), symbols, total, &needed);
}

static uint32_t decode_all(enum model model, size_t n, size_t width, size_t *symbols, size_t total) {
    if (model == TABLE) return C(ans_lanes_decode)(ALL, OF_TABLE, symbols, total);
    return C(ans_lanes_decode_quantized)(ALL, OF_GAUSSIANS(0, total), symbols, total);
}

/* ---- times */
static void encode(enum model model, size_t n, int alone, size_t width, const size_t *symbols, size_t total) {
    const char *fault = "an encode failed";
    if (!alone) must(!encode_all(model, n, width, symbols, total), fault);
    for (size_t j = 0, count = total / n; alone && j < n; j++)
        must(!encode_one(model, j, width, symbols + j * count, count), fault);
}

static void decode(enum model model, size_t n, int alone, size_t width, size_t total) {
    const char *fault = "a decode failed";
    if (!alone) must(!decode_all(model, n, width, decoded, total), fault);
    for (size_t j = 0, count = total / n; alone && j < n; j++)
        must(!decode_one(model, j, width, decoded + j * count, count), fault);
}

static void run(enum model model, size_t n, int alone, size_t width, const size_t *symbols, size_t total) {
    double start = now(), middle;
    encode(model, n, alone, width, symbols, total);
    middle = now();
    decode(model, n, alone, width, total);
    decode_time = fmin(decode_time, now() - middle);
    encode_time = fmin(encode_time, middle - start);
    must(!memcmp(decoded, symbols, total * sizeof *symbols), "other symbols came back");
}

/* Prints the times of `total` symbols, in calls for n coders, or for each coder alone. Each coder begins with a head of
   two words and a word below it. */
static void measure(const char *name, enum model model, size_t n, int alone, const size_t *symbols, size_t total) {
    size_t width = total / n + WIDTH;
    int runs = total < COUNT / 2 ? RUNS_OF_BATCHES : RUNS_OF_LISTS;
    must(n <= MOST && n * width <= sizeof words / sizeof *words, "too many words");
    encode_time = decode_time = 1e18;
    for (size_t j = 0; j < n; j++) heads[j] = ((state)5 << BITS) + j, lens[j] = 1, words[j * width] = 7;
    for (int i = 0; i < runs; i++) run(model, n, alone, width, symbols, total);
    for (size_t j = 0; j < n; j++) must(heads[j] == ((state)5 << BITS) + j && lens[j] == 1, "another coder came back");
    const char *how = alone && n > 1 ? "_alone" : "";
    printf("lanes_encode_" SIZE "_%s_%zu%s %.3f\n", name, n, how, encode_time / (double)total);
    printf("lanes_decode_" SIZE "_%s_%zu%s %.3f\n", name, n, how, decode_time / (double)total);
}

int main(void) {
    const size_t lists[] = {1, 3, 4, 6, 64}, batches[] = {64, MOST};
    draw();
    for (int k = 0; k < 5; k++) measure("list", TABLE, lists[k], lists[k] == 1, drawn, COUNT - COUNT % lists[k]);
    for (int k = 0; k < 4; k++) measure("table", TABLE, batches[k / 2], !(k % 2), drawn, batches[k / 2]);
    for (int k = 0; k < 4; k++) measure("gaussian", GAUSSIAN, batches[k / 2], !(k % 2), near_means, batches[k / 2]);
}
