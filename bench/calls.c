/* usage: calls [SYMBOLS_A_CALL [FORM..]]

   Measures the nanoseconds per symbol of the C functions. Prints lines `name ns_per_symbol`, each the least of RUNS
   runs. bench/beside runs this program with two libraries.

       gcc -O2 -Iinclude bench/calls.c build/libconstriction.a -o bench/out/calls && bench/out/calls

   Each call gets SYMBOLS_A_CALL symbols, by default 65536. FORM is how the models are passed, by default each of these:

       table      one table of 256 weights; the million symbols and their weights are those of bench/driver
       bytes      the same table, and symbols of 8 bits
       rows       a row of 16 weights for each symbol
       gaussian   a mean and a deviation for each symbol, which is one of -100 .. 100
       intervals  the interval of each symbol of `table`, to encode

   The program compares the decoded symbols with the encoded ones, and the words from intervals with those from the
   table. The chain coder decodes random words, and encodes the symbols back. */

#define _POSIX_C_SOURCE 199309L
#include <stdio.h>
#include <stdlib.h>
#include <string.h>
#include <time.h>
#include "constriction.h"

enum { COUNT = 1000000, RUNS = 11, KINDS = 256, WIDTH = 16, GREATEST = 100, DATA = COUNT * 3 / 4 + 101 };

static uint32_t weights[KINDS], rows[COUNT * WIDTH], deviations[COUNT], lefts[COUNT], ps[COUNT];
static uint32_t words[COUNT + 2], whole[COUNT + 2], data[DATA], remainders[COUNT], back[COUNT];
static int64_t means[COUNT];
static size_t symbols[COUNT], decoded[COUNT], part = 65536;
static uint8_t bytes[COUNT], decoded_bytes[COUNT];

static void must(int holds, const char *what) {
    if (holds) return;
    fprintf(stderr, "calls: %s\n", what);
    exit(1);
}

/* ---- random symbols and models */
static uint64_t random_number(uint64_t *x) {
    *x ^= *x << 13, *x ^= *x >> 7, *x ^= *x << 17;
    return *x;
}

/* Makes weights from shares: each is at least 1, and they add up to 2^24. */
static void make_weights(uint32_t *row, const uint64_t *shares, size_t kinds) {
    uint64_t sum = 0, total = 0;
    for (size_t i = 0; i < kinds; i++) sum += shares[i];
    for (size_t i = 0; i < kinds; i++) total += row[i] = (uint32_t)(1 + shares[i] * ((1 << 24) - kinds) / sum);
    row[0] += (uint32_t)((1 << 24) - total);
}

static size_t symbol_at(const uint32_t *row, uint64_t quantile) {
    size_t symbol = 0;
    for (; quantile >= row[symbol]; symbol++) quantile -= row[symbol];
    return symbol;
}

static void draw_by_table(void) {
    uint64_t shares[KINDS], x = 0x123456789ABCDEF1u;
    for (uint64_t i = 0; i < KINDS; i++) shares[i] = 1000000000 / ((i + 4) * (i + 16));
    make_weights(weights, shares, KINDS);
    for (size_t i = 0; i < COUNT; i++) bytes[i] = (uint8_t)(symbols[i] = symbol_at(weights, random_number(&x) >> 40));
}

static void draw_by_rows(void) {
    uint64_t shares[WIDTH], x = 0x2545F4914F6CDD1Du;
    for (size_t i = 0; i < COUNT; i++) {
        for (size_t j = 0; j < WIDTH; j++) shares[j] = 1 + (random_number(&x) >> 50);
        make_weights(rows + i * WIDTH, shares, WIDTH);
        symbols[i] = symbol_at(rows + i * WIDTH, random_number(&x) >> 40);
    }
}

/* Draws means within 30 of 0, deviations from 0.3 to 20.3, and a symbol by each, from a sum of twelve numbers. */
static void draw_by_gaussian(void) {
    uint64_t x = 88172645463325252u;
    for (size_t i = 0; i < COUNT; i++) {
        means[i] = (int64_t)(random_number(&x) % (60 * CONSTRICTION_UNITS)) - 30 * CONSTRICTION_UNITS;
        deviations[i] = (uint32_t)(CONSTRICTION_UNITS * 3 / 10 + random_number(&x) % (20 * CONSTRICTION_UNITS));
        int64_t normal = -6 * CONSTRICTION_UNITS;
        for (int k = 0; k < 12; k++) normal += (int64_t)(random_number(&x) >> 48);
        int64_t symbol = (means[i] + normal * deviations[i] / CONSTRICTION_UNITS) / CONSTRICTION_UNITS;
        symbols[i] = (size_t)((symbol < -GREATEST ? -GREATEST : symbol > GREATEST ? GREATEST : symbol) + GREATEST);
    }
}

static void draw_data(void) {
    uint64_t x = 7;
    for (size_t i = 0; i < DATA - 1; i++) data[i] = (uint32_t)(random_number(&x) >> 32);
    data[DATA - 1] = 1;
}

/* ---- one pass over all symbols each: n symbols a call, from symbol i on */
static uint64_t head;
static size_t len, left, needed, kept;
static struct constriction_range_encoder_state_u32 encoder;
static struct constriction_range_decoder_state_u32 decoder;
static struct constriction_chain_heads_u32 heads;

static size_t length_at(size_t start) { return COUNT - start < part ? COUNT - start : part; }

#define FORTH for (size_t i = 0, n; i < COUNT && (n = length_at(i)); i += part)
#define BACK for (size_t k = (COUNT - 1) / part + 1, i, n; k > 0 && (i = --k * part, n = length_at(i));)

/* Defines the passes that encode the symbols FROM, and encode the symbols AGAIN with the chain coder. ENDING is a part
   of the functions' names. The other arguments describe the models of n symbols from symbol i on. */
#define ENCODE_PASSES(FORM, ENDING, FROM, AGAIN, ...)                                                                  \
    static void ans_encode_##FORM(void) {                                                                              \
        head = 0, len = 0;                                                                                             \
        BACK must(!constriction_ans_encode##ENDING##_reverse_u32(&head, words, COUNT + 2, &len, __VA_ARGS__, FROM + i, \
                                                                 n, &needed), "ans_encode");                           \
    }                                                                                                                  \
    static void range_encode_##FORM(void) {                                                                            \
        constriction_range_encoder_u32(&encoder), len = 0;                                                             \
        FORTH must(!constriction_range_encode##ENDING##_u32(&encoder, words, COUNT + 2, &len, __VA_ARGS__, FROM + i,   \
                                                            n, &needed), "range_encode");                              \
        must(!constriction_range_into_compressed_u32(&encoder, words, COUNT + 2, &len, &needed), "range_encode");      \
    }                                                                                                                  \
    static void chain_encode_##FORM(void) {                                                                            \
        BACK must(!constriction_chain_encode##ENDING##_reverse_u32(&heads, back, COUNT, &left, remainders, COUNT,      \
                                                                   &kept, __VA_ARGS__, AGAIN + i, n, &needed),         \
                  "chain_encode");                                                                                     \
    }

/* Defines the passes that decode to the symbols TO. */
#define DECODE_PASSES(FORM, ENDING, TO, ...)                                                                           \
    static void ans_decode_##FORM(void) {                                                                              \
        FORTH must(!constriction_ans_decode##ENDING##_u32(&head, words, COUNT + 2, &len, __VA_ARGS__, TO + i, n),      \
                   "ans_decode");                                                                                      \
    }                                                                                                                  \
    static void range_decode_##FORM(void) {                                                                            \
        constriction_range_from_compressed_u32(words, len, &decoder);                                                  \
        FORTH must(!constriction_range_decode##ENDING##_u32(&decoder, words, len, __VA_ARGS__, TO + i, n),             \
                   "range_decode");                                                                                    \
    }                                                                                                                  \
    static void chain_decode_##FORM(void) {                                                                            \
        must(!constriction_chain_from_compressed_u32(data, DATA, &left, &heads), "chain_decode"), kept = 0;            \
        FORTH must(!constriction_chain_decode##ENDING##_u32(&heads, data, DATA, &left, remainders, COUNT, &kept,       \
                                                            __VA_ARGS__, TO + i, n, &needed), "chain_decode");         \
    }

#define ROWS rows + i * WIDTH, n * WIDTH, WIDTH
#define GAUSSIANS CONSTRICTION_GAUSSIAN, -GREATEST, GREATEST, means + i, n, deviations + i, n
ENCODE_PASSES(table, , symbols, decoded, weights, KINDS)
DECODE_PASSES(table, , decoded, weights, KINDS)
ENCODE_PASSES(bytes, _bytes, bytes, decoded_bytes, weights, KINDS)
DECODE_PASSES(bytes, _bytes, decoded_bytes, weights, KINDS)
ENCODE_PASSES(rows, _each, symbols, decoded, ROWS)
DECODE_PASSES(rows, _each, decoded, ROWS)
ENCODE_PASSES(gaussian, _quantized, symbols, decoded, GAUSSIANS)
DECODE_PASSES(gaussian, _quantized, decoded, GAUSSIANS)
ENCODE_PASSES(intervals, _intervals, ps, ps, lefts + i, n)

enum { ANS_ENCODE, ANS_DECODE, RANGE_ENCODE, RANGE_DECODE, CHAIN_DECODE, CHAIN_ENCODE, PASSES };

/* A form of models. */
struct form {
    const char *name;
    void (*draw)(void), (*passes[PASSES])(void);
    const void *symbols, *decoded;
    size_t size;
};

#define PASSES_OF(FORM) {ans_encode_##FORM, ans_decode_##FORM, range_encode_##FORM, range_decode_##FORM, \
                         chain_decode_##FORM, chain_encode_##FORM}
static const char *const NAMES[PASSES] = {"ans_encode", "ans_decode", "range_encode", "range_decode",
                                          "chain_decode", "chain_encode"};
static const struct form FORMS[] = {
    {"table", draw_by_table, PASSES_OF(table), symbols, decoded, sizeof symbols},
    {"bytes", draw_by_table, PASSES_OF(bytes), bytes, decoded_bytes, sizeof bytes},
    {"rows", draw_by_rows, PASSES_OF(rows), symbols, decoded, sizeof symbols},
    {"gaussian", draw_by_gaussian, PASSES_OF(gaussian), symbols, decoded, sizeof symbols},
};

/* ---- times */
static double timed(void (*pass)(void), double least) {
    struct timespec from, to;
    clock_gettime(CLOCK_MONOTONIC, &from);
    pass();
    clock_gettime(CLOCK_MONOTONIC, &to);
    double taken = ((double)(to.tv_sec - from.tv_sec) * 1e9 + (double)(to.tv_nsec - from.tv_nsec)) / COUNT;
    return taken < least ? taken : least;
}

static void show(int pass, const char *form, double least) {
    printf("c_%s_u32u64p24_%s %.3f\n", NAMES[pass], form, least);
}

static void measure(const struct form *form) {
    double least[PASSES];
    for (int i = 0; i < PASSES; i++) least[i] = 1e9;
    form->draw();
    for (int run = 0; run < RUNS; run++)
        for (int i = 0; i < PASSES; i++) {
            if (i == CHAIN_ENCODE) memcpy(back, data, left * sizeof *data);
            least[i] = timed(form->passes[i], least[i]);
            if (i == ANS_DECODE || i == RANGE_DECODE)
                must(!memcmp(form->decoded, form->symbols, form->size), "other symbols came back");
            if (i == CHAIN_ENCODE) must(!memcmp(back, data, left * sizeof *data), "other words came back");
        }
    for (int i = 0; i < PASSES; i++) show(i, form->name, least[i]);
}

static void make_intervals(const size_t *of) {
    uint32_t starts[KINDS] = {0};
    for (size_t i = 1; i < KINDS; i++) starts[i] = starts[i - 1] + weights[i - 1];
    for (size_t i = 0; i < COUNT; i++) lefts[i] = starts[of[i]], ps[i] = weights[of[i]];
}

/* Times an encode by intervals, and compares its words with those of an encode by the table. */
static double compared(void (*by_table)(void), void (*by_intervals)(void), double least) {
    size_t one = part;
    part = COUNT, by_table(), part = one;
    size_t whole_len = len;
    memcpy(whole, words, len * sizeof *words);
    least = timed(by_intervals, least);
    must(len == whole_len && !memcmp(whole, words, len * sizeof *words), "other words from intervals");
    return least;
}

static void measure_intervals(void) {
    double ans = 1e9, range = 1e9, chain = 1e9;
    draw_by_table();
    for (int run = 0; run < RUNS; run++) {
        make_intervals(symbols);
        ans = compared(ans_encode_table, ans_encode_intervals, ans);
        range = compared(range_encode_table, range_encode_intervals, range);
        size_t one = part;
        part = COUNT, chain_decode_table(), part = one;
        make_intervals(decoded), memcpy(back, data, left * sizeof *data);
        chain = timed(chain_encode_intervals, chain);
        must(!memcmp(back, data, left * sizeof *data), "other words from intervals");
    }
    show(ANS_ENCODE, "intervals", ans), show(RANGE_ENCODE, "intervals", range);
    show(CHAIN_ENCODE, "intervals", chain);
}

static int is_asked(const char *form, int count, char **arguments) {
    for (int i = 2; i < count; i++)
        if (!strcmp(arguments[i], form)) return 1;
    return count < 3;
}

int main(int count, char **arguments) {
    if (count > 1) part = strtoul(arguments[1], NULL, 10);
    must(part > 0, "usage: calls [SYMBOLS_A_CALL [table|bytes|rows|gaussian|intervals ..]]");
    draw_data();
    for (size_t i = 0; i < sizeof FORMS / sizeof *FORMS; i++)
        if (is_asked(FORMS[i].name, count, arguments)) measure(&FORMS[i]);
    if (is_asked("intervals", count, arguments)) measure_intervals();
}
