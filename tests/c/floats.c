/* Tests counts and weights of floats at one size, which -DBITS=32 or -DBITS=16 chooses. The expected counts come from the
   rules in constriction_models.h, which this test follows in floats. It also tests every error, refused requests for
   memory, and that the counts can encode symbols. */
#include "world.h"

#include <float.h>
#include <math.h>

enum { WIDEST = 2000 };

/* The arguments of the calls. */
static struct {
    size_t count, left_count;
    double floats[WIDEST];
} in;

static uint32_t weights_of(struct world *w) { return C(weights_of_floats)(in.floats, in.count, w->ps, in.left_count); }

/* Returns a float of at least 0, rounded to the nearest whole number, half to even. */
static double nearest(double number) {
    volatile double sum = number + 0x1p52;
    return number < 0x1p52 ? sum - 0x1p52 : number;
}

/* Returns the number of binary digits before the point of the greatest float. */
static int digits_of(const double *row, size_t width) {
    double greatest = 0;
    int digits;
    for (size_t i = 0; i < width; i++) greatest = row[i] > greatest ? row[i] : greatest;
    frexp(greatest, &digits);
    return digits;
}

/* Writes the counts for constriction_weights_of_counts. */
static void counts_of(const double *row, size_t width, uint64_t *counts) {
    int shift = 62 - digits_of(row, width);
    for (size_t i = 0; i < width; i++) {
        double count = nearest(ldexp(row[i], shift));
        counts[i] = count < 1 ? 1 : (uint64_t)count;
    }
}

static uint64_t put_counts(const double *row, size_t width, int shift, uint32_t *counts) {
    uint64_t sum = 0;
    for (size_t i = 0; i < width; i++) sum += counts[i] = (uint32_t)nearest(ldexp(row[i], shift));
    return sum;
}

/* Writes the counts of a row for the functions .._counts. Returns whether there was a second try. */
static int quick_counts_of(const double *row, size_t width, uint32_t *counts) {
    int shift = 31 - digits_of(row, width), less = 0;
    uint64_t sum = put_counts(row, width, shift, counts);
    if (!(sum >> 40)) return 0;
    while (sum >> less >> 39) less++;
    CHECK("the second sum", !(put_counts(row, width, shift - less, counts) >> 40));
    return 1;
}

/* ==== Random rows ==== */

static uint64_t random_bits(void) { return random_below((uint64_t)1 << 32) << 32 | random_below((uint64_t)1 << 32); }

/* Returns a float from its bits. */
static double of_bits(uint64_t bits) {
    double number;
    memcpy(&number, &bits, sizeof number);
    return number;
}

/* The kinds of rows: any floats, with subnormal ones; subnormal floats alone; powers of two; halves of the greatest float's
   unit; floats of about one size, whose sum needs a second try in a long row; probabilities. */
enum { ANY, SUBNORMAL, POWERS, HALVES, EQUAL, USUAL, KINDS };

static double any_of(int kind) {
    switch (kind) {
    case ANY: return of_bits(random_bits() % 0x7ff0000000000000);
    case SUBNORMAL: return of_bits(random_bits() >> (12 + random_below(52)));
    case POWERS: return ldexp(1, (int)random_below(80) - 40);
    case HALVES: return ldexp((double)random_below(64), -(int)random_below(66));
    case EQUAL: return 1 - ldexp((double)random_below(1 << 20), -30);
    default: return ldexp((double)random_bits(), -64 - (int)random_below(40));
    }
}

/* Draws a row of floats, with at least one above 0. */
static void draw(double *row, size_t width, int kind) {
    for (size_t i = 0; i < width; i++) row[i] = random_below(9) || kind == EQUAL ? any_of(kind) : random_below(2) ? 0.0 : -0.0;
    double *some = row + random_below(width);
    if (!(*some > 0)) *some = kind == SUBNORMAL ? DBL_TRUE_MIN : 1;
}

/* ==== Properties ==== */

static void weights(size_t count, int kind) {
    static uint64_t counts[WIDEST];
    static word expected[WIDEST], found[WIDEST];
    in.count = in.left_count = count;
    draw(in.floats, count, kind);
    counts_of(in.floats, count, counts);
    CHECK("weights: of counts", !C(weights_of_counts)(counts, count, expected, count));
    CHECK("weights", !C(weights_of_floats)(in.floats, count, found, count));
    CHECK("weights: those of the counts", !memcmp(found, expected, count * sizeof *found));
    if (count > COUNT) return;
    struct world start = fresh();
    refused_memory("weights: memory", weights_of, &start);
    in.left_count--;
    refuses("weights: other lengths", weights_of, &start, CONSTRICTION_WRONG_LENGTH);
    in.left_count++;
    static const uint64_t wrong[] = {0x7ff0000000000000, 0x7ff8000000000000, 0x7ff0000000000001, 0xfff8000000000000,
                                     0xfff0000000000000, 0x8000000000000001, 0xbff0000000000000, 0xffffffffffffffff};
    double *any = in.floats + random_below(count);
    for (size_t i = 0; i < sizeof wrong / sizeof *wrong; i++) {
        *any = of_bits(wrong[i]);
        refuses_without_memory("weights: a wrong float", weights_of, &start, CONSTRICTION_WRONG_WEIGHTS);
    }
    for (size_t i = 0; i < count; i++) in.floats[i] = i % 2 ? 0.0 : -0.0;
    refuses_without_memory("weights: of zeros", weights_of, &start, CONSTRICTION_WRONG_WEIGHTS);
}

/* Encodes and decodes the last symbol under a row of counts. */
static void coded(uint32_t *row, size_t width) {
    struct world w = fresh();
    size_t symbol = width - 1, found = width;
    CHECK("counts: encode", !C(ans_encode_counts_reverse)(&w.head, w.words, ROOM, &w.len, row, width, width, &symbol, 1, &w.needed));
    CHECK("counts: decode", !C(ans_decode_counts)(&w.head, w.words, ROOM, &w.len, row, width, width, &found, 1));
    CHECK("counts: there and back", found == symbol);
}

/* Returns how many rows had a second try. */
static int rows(size_t width, size_t count, int kind) {
    static double floats[6 * WIDEST];
    static uint32_t expected[6 * WIDEST], found[6 * WIDEST + 1], kept[6 * WIDEST + 1];
    int again = 0;
    size_t all = width * count;
    for (size_t i = 0; i < count; i++) {
        draw(floats + i * width, width, kind == KINDS ? (int)random_below(KINDS) : kind);
        again += quick_counts_of(floats + i * width, width, expected + i * width);
    }
    for (size_t i = 0; i <= all; i++) found[i] = kept[i] = (uint32_t)(77 + i);
    requests = 0, refused_request = 1;
    CHECK("counts", !C(counts_of_floats)(floats, all, width, found, all));
    refused_request = 0;
    CHECK("counts: no memory", !requests);
    CHECK("counts: those of the rule", !memcmp(found, expected, all * sizeof *found) && found[all] == kept[all]);
    for (size_t i = 0; i < count; i++) coded(found + i * width, width);
    memcpy(found, kept, sizeof found);
#define REFUSES(about, floats, all, width, room, wanted) \
    CHECK("counts: " about, C(counts_of_floats)(floats, all, width, found, room) == wanted && !memcmp(found, kept, sizeof found))
    REFUSES("fewer counts", floats, all, width, all - 1, CONSTRICTION_WRONG_LENGTH);
    REFUSES("more counts", floats, all, width, all + 1, CONSTRICTION_WRONG_LENGTH);
    REFUSES("no width", floats, all, 0, all, CONSTRICTION_WRONG_LENGTH);
    REFUSES("a large width", floats, all, SIZE_MAX, all, CONSTRICTION_WRONG_LENGTH);
    REFUSES("a part of a row", floats, all, all + 1, all, CONSTRICTION_WRONG_LENGTH);
    double *row = floats + (count - 1) * width, *any = row + random_below(width);
    *any = NAN;
    REFUSES("NaN in the last row", floats, all, width, all, CONSTRICTION_WRONG_WEIGHTS);
    *any = -DBL_TRUE_MIN;
    REFUSES("a negative float in the last row", floats, all, width, all, CONSTRICTION_WRONG_WEIGHTS);
    for (size_t i = 0; i < width; i++) row[i] = i % 2 ? 0.0 : -0.0;
    REFUSES("a last row of zeros", floats, all, width, all, CONSTRICTION_WRONG_WEIGHTS);
    return again;
}

/* ==== Limits ==== */

/* Rows whose first sum is 2^40, and one less. */
static void sums(void) {
    static double row[1025];
    static uint32_t found[1025];
    for (size_t i = 0; i < 1024; i++) row[i] = 1;
    row[1023] = 1 - 0x1p-30;
    CHECK("sums: 2^40 - 1", !C(counts_of_floats)(row, 1024, 1024, found, 1024) && found[0] == 1 << 30 && found[1023] == (1 << 30) - 1);
    row[1024] = 0x1p-30;
    CHECK("sums: 2^40", !C(counts_of_floats)(row, 1025, 1025, found, 1025) && found[0] == 1 << 28 && found[1024] == 0);
}

/* The greatest number of floats, and one more. */
static void most_floats(void) {
    size_t most = (size_t)WHOLE;
    double *floats = calloc(most + 1, sizeof *floats);
    word *found = calloc(most + 1, sizeof *found);
    uint32_t *counts = calloc(most + 1, sizeof *counts);
    if (!floats || !found || !counts) {
        CHECK("memory for the test", 0);
        return;
    }
    floats[0] = 3;
    CHECK("too many floats", C(weights_of_floats)(floats, most + 1, found, most + 1) == CONSTRICTION_WRONG_WEIGHTS && !found[0]);
    CHECK("as many floats as can be", !C(weights_of_floats)(floats, most, found, most) && found[0] == 1 && found[most - 1] == 1);
    CHECK("too wide", C(counts_of_floats)(floats, most, most, counts, most) == CONSTRICTION_WRONG_WEIGHTS && !counts[0]);
    CHECK("as wide as can be", !C(counts_of_floats)(floats, most - 1, most - 1, counts, most - 1) && counts[0] == 3u << 29 && !counts[1]);
    free(floats), free(found), free(counts);
}

/* A pointer to an empty list may be null. */
static void nulls(void) {
    CHECK("null: weights", C(weights_of_floats)(NULL, 0, NULL, 0) == CONSTRICTION_WRONG_WEIGHTS);
    CHECK("null: counts", !C(counts_of_floats)(NULL, 0, 0, NULL, 0));
    CHECK("null: counts of a width", !C(counts_of_floats)(NULL, 0, 5, NULL, 0));
}

int main(void) {
    int again = 0;
    for (int round = 0; round < 60; round++) {
        int kind = round % (KINDS + 1);
        weights(1 + random_below(round % 2 ? COUNT : WIDEST), kind == KINDS ? ANY : kind);
        again += rows(1 + random_below(round % 3 ? 60 : WIDEST), 1 + random_below(6), kind);
    }
    again += rows(WIDEST, 6, EQUAL);
    CHECK("a second try was seen", again > 6);
    sums(), most_floats(), nulls();
    return finish();
}
