/* Tests models in whole numbers at one size, which -DBITS=32 or -DBITS=16 chooses: worked intervals, weights and words,
   computed by definitions and not by this library; buffers of every length, every error, refused requests for memory,
   and random lists that are encoded and decoded. */
#include "world.h"

struct interval {
    uint32_t family;
    int32_t min, max;
    int64_t location;
    uint32_t scale;
    size_t symbol;
    word left, p;
};

struct proportion {
    size_t count;
    uint64_t counts[16];
    word weights[16];
};

/* The list's words by the stack coder and the range coder; the symbols that the chain coder decodes from its words, and
   the words that it leaves. */
struct coded {
    size_t ans_len;
    word ans[16];
    size_t range_len;
    word range[16];
    size_t symbols[16], left, remainders_len;
    word remainders[16];
};

#include "families.h"
#include "rows_of_models.h"

#define LENGTH(list) (sizeof(list) / sizeof *(list))

/* The arguments of the calls. */
static struct {
    size_t count, location_count, scale_count, left_count;
    uint32_t family;
    int32_t min, max;
    int64_t locations[COUNT];
    uint32_t scales[COUNT];
    size_t symbols[COUNT];
    uint64_t counts[COUNT];
} in;

/* ==== The calls, each on a world ==== */

#define BUFFER w->words, w->capacity, &w->len
#define OTHER w->other, (size_t)ROOM, &w->other_len
#define RANGE in.min, in.max, in.locations, in.location_count, in.scales, in.scale_count
#define MODEL in.family, RANGE
#define GIVEN in.symbols, in.count
#define TAKEN w->symbols, in.count
#define ENDS w->lefts, in.left_count, w->ps, in.count

static uint32_t ans_encode(struct world *w) {
    return C(ans_encode_quantized_reverse)(&w->head, BUFFER, MODEL, GIVEN, &w->needed);
}
static uint32_t ans_decode(struct world *w) { return C(ans_decode_quantized)(&w->head, BUFFER, MODEL, TAKEN); }
static uint32_t range_encode(struct world *w) {
    return C(range_encode_quantized)(&w->encoder, BUFFER, MODEL, GIVEN, &w->needed);
}
static uint32_t range_decode(struct world *w) {
    return C(range_decode_quantized)(&w->decoder, w->words, w->len, MODEL, TAKEN);
}
static uint32_t chain_encode(struct world *w) {
    return C(chain_encode_quantized_reverse)(&w->heads, BUFFER, OTHER, MODEL, GIVEN, &w->needed);
}
static uint32_t chain_decode(struct world *w) {
    return C(chain_decode_quantized)(&w->heads, OTHER, BUFFER, MODEL, TAKEN, &w->needed);
}
static uint32_t intervals_of(struct world *w) { return C(quantized_intervals)(MODEL, GIVEN, ENDS); }
static uint32_t weights_of(struct world *w) { return C(weights_of_counts)(in.counts, in.count, w->ps, in.left_count); }

/* The same calls with the world's intervals. */
#define PAIRS w->lefts, in.count, w->ps, in.count
static uint32_t ans_pairs(struct world *w) {
    return C(ans_encode_intervals_reverse)(&w->head, BUFFER, PAIRS, &w->needed);
}
static uint32_t range_pairs(struct world *w) {
    return C(range_encode_intervals)(&w->encoder, BUFFER, PAIRS, &w->needed);
}
static uint32_t chain_pairs(struct world *w) {
    return C(chain_encode_intervals_reverse)(&w->heads, BUFFER, OTHER, PAIRS, &w->needed);
}

/* The same calls by a family's name. */
#define NAMED(name, NAME, number) \
    static uint32_t name##_ans_encode(struct world *w) { \
        return C(ans_encode_##name##_reverse)(&w->head, BUFFER, RANGE, GIVEN, &w->needed); \
    } \
    static uint32_t name##_ans_decode(struct world *w) { \
        return C(ans_decode_##name)(&w->head, BUFFER, RANGE, TAKEN); \
    } \
    static uint32_t name##_range_encode(struct world *w) { \
        return C(range_encode_##name)(&w->encoder, BUFFER, RANGE, GIVEN, &w->needed); \
    } \
    static uint32_t name##_range_decode(struct world *w) { \
        return C(range_decode_##name)(&w->decoder, w->words, w->len, RANGE, TAKEN); \
    } \
    static uint32_t name##_chain_encode(struct world *w) { \
        return C(chain_encode_##name##_reverse)(&w->heads, BUFFER, OTHER, RANGE, GIVEN, &w->needed); \
    } \
    static uint32_t name##_chain_decode(struct world *w) { \
        return C(chain_decode_##name)(&w->heads, OTHER, BUFFER, RANGE, TAKEN, &w->needed); \
    } \
    static uint32_t name##_intervals_of(struct world *w) { return C(name##_intervals)(RANGE, GIVEN, ENDS); } \
    static uint32_t name##_interval_of(struct world *w) { \
        return C(name##_interval)(in.min, in.max, in.locations[0], in.scales[0], in.symbols[0], w->lefts, w->ps); \
    }

FAMILIES_BY(NAMED)

enum { ANS_ENCODE, ANS_DECODE, RANGE_ENCODE, RANGE_DECODE, CHAIN_ENCODE, CHAIN_DECODE, INTERVALS, INTERVAL, CALLS };
#define CALLS_OF(name, NAME, number) \
    {name##_ans_encode, name##_ans_decode, name##_range_encode, name##_range_decode, \
     name##_chain_encode, name##_chain_decode, name##_intervals_of, name##_interval_of},
static call *const named[FAMILIES][CALLS] = {FAMILIES_BY(CALLS_OF)};

/* ==== Random lists, and properties of each call ==== */

/* Draws a range of at most so many symbols, parameters near it, and symbols of it. */
static void draw(size_t count) {
    uint64_t kinds = 2 + random_below(random_below(2) ? 300 : 8);
    in.count = in.location_count = in.scale_count = in.left_count = count;
    in.family = (uint32_t)random_below(FAMILIES);
    in.min = (int32_t)(random_below(4) ? (int64_t)random_below(400) - 200 : INT32_MIN);
    in.max = in.min + (int32_t)kinds - 1;
    for (size_t i = 0; i < COUNT; i++) {
        in.symbols[i] = random_below(kinds);
        in.locations[i] = ((int64_t)in.min + (int64_t)random_below(kinds)) * 65536 + (int64_t)random_below(65536);
        in.scales[i] = 1 + (uint32_t)(random_below(8) ? random_below(40 * 65536) : random_below(UINT32_MAX));
        in.counts[i] = random_below(3) ? random_below((uint64_t)1 << random_below(56)) : 0;
    }
    in.counts[0]++;
}

/* Checks the errors of each call and their order. `behind`: a later error that the call would also return. */
static void refuses_models(const char *about, call *run, const struct world *start, uint32_t behind) {
    struct world w = *start;
    int32_t min = in.min, max = in.max;
    uint32_t family = in.family, scale = in.scales[in.count - 1];
    if (behind) refuses(about, run, &w, behind);
    in.scales[in.count - 1] = 0;
    refuses(about, run, &w, CONSTRICTION_WRONG_WEIGHTS);
    in.scales[in.count - 1] = scale, in.family = 3;
    refuses(about, run, &w, CONSTRICTION_WRONG_WEIGHTS);
    in.family = UINT32_MAX;
    refuses(about, run, &w, CONSTRICTION_WRONG_WEIGHTS);
    in.max = in.min;
    refuses(about, run, &w, CONSTRICTION_WRONG_INTERVAL);
    in.family = family;
    refuses(about, run, &w, CONSTRICTION_WRONG_INTERVAL);
    in.min = INT32_MAX, in.max = INT32_MIN;
    refuses(about, run, &w, CONSTRICTION_WRONG_INTERVAL);
    in.min = INT32_MIN, in.max = INT32_MAX;
    refuses(about, run, &w, CONSTRICTION_WRONG_INTERVAL);
    in.min = 5, in.max = 5 + (int32_t)WHOLE;
    refuses(about, run, &w, CONSTRICTION_WRONG_INTERVAL);
    in.location_count--;
    refuses(about, run, &w, CONSTRICTION_WRONG_LENGTH);
    in.location_count++, in.scale_count--;
    refuses(about, run, &w, CONSTRICTION_WRONG_LENGTH);
    in.min = min, in.max = max;
    refuses(about, run, &w, CONSTRICTION_WRONG_LENGTH);
    in.location_count--;
    refuses(about, run, &w, CONSTRICTION_WRONG_LENGTH);
    in.location_count++, in.scale_count++;
}

static void refuses_symbols(const char *about, call *run, struct world *w) {
    size_t at = in.count / 2, kept = in.symbols[at];
    in.symbols[at] = (size_t)((int64_t)in.max - in.min + 1);
    refuses(about, run, w, CONSTRICTION_IMPOSSIBLE_SYMBOL);
    refuses_models(about, run, w, CONSTRICTION_IMPOSSIBLE_SYMBOL);
    in.symbols[at] = SIZE_MAX;
    refuses(about, run, w, CONSTRICTION_IMPOSSIBLE_SYMBOL);
    in.symbols[at] = kept;
}

static int same_symbols(const struct world *w) { return !memcmp(w->symbols, in.symbols, in.count * sizeof(size_t)); }

/* A call by the family's name does the same as the call by its number. */
static void same_by_name(const char *about, call *run, int which, const struct world *start) {
    same(about, run, named[in.family][which], start);
}

/* ==== The coders ==== */

static void ans(size_t count) {
    struct world start = fresh(), w;
    draw(count);
    start.len = 3, start.words[2] = 7;
    CHECK("ANS: an import", !C(ans_from_compressed)(start.words, start.len, &start.len, &start.head));
    every_length("ANS: encode", ans_encode, &start, BEHIND);
    refused_memory("ANS: encode, memory", ans_encode, &start);
    same_by_name("ANS: encode by name", ans_encode, ANS_ENCODE, &start);
    CHECK("ANS: intervals", !intervals_of(&start));
    same("ANS: by intervals", ans_encode, ans_pairs, &start);

    w = start;
    done("ANS: encode", ans_encode, &w);
    refused_memory("ANS: decode, memory", ans_decode, &w);
    same_by_name("ANS: decode by name", ans_decode, ANS_DECODE, &w);
    struct world full = w;
    w.capacity = w.len;
    done("ANS: decode", ans_decode, &w);
    CHECK("ANS: there and back", same_symbols(&w) && w.head == start.head && w.len == start.len);
    full.capacity = full.len - 1;
    refuses("ANS: decode past the buffer", ans_decode, &full, CONSTRICTION_WRONG_LENGTH);
    if (!count) return;
    refuses_models("ANS: decode refuses", ans_decode, &w, 0);
    w = start;
    refuses_symbols("ANS: encode refuses", ans_encode, &w);
    w.capacity = w.len;
    refuses_symbols("ANS: encode without room refuses", ans_encode, &w);
}

static void range(size_t count) {
    struct world start = fresh(), w;
    draw(count);
    done("range: symbols before", range_encode, &start);
    draw(count);
    every_length("range: encode", range_encode, &start, BEHIND_HELD);
    refused_memory("range: encode, memory", range_encode, &start);
    same_by_name("range: encode by name", range_encode, RANGE_ENCODE, &start);
    CHECK("range: intervals", !intervals_of(&start));
    same("range: by intervals", range_encode, range_pairs, &start);

    w = fresh();
    done("range: encode", range_encode, &w);
    CHECK("range: export", !C(range_into_compressed)(&w.encoder, w.words, w.capacity, &w.len, &w.needed));
    CHECK("range: import", !C(range_from_compressed)(w.words, w.len, &w.decoder));
    refused_memory("range: decode, memory", range_decode, &w);
    same_by_name("range: decode by name", range_decode, RANGE_DECODE, &w);
    done("range: decode", range_decode, &w);
    CHECK("range: there and back", same_symbols(&w));
    if (!count) return;
    w = start;
    refuses_symbols("range: encode refuses", range_encode, &w);
    w.encoder.range = 1;
    refuses("range: an encoder that is none", range_encode, &w, CONSTRICTION_INVALID_DATA);
    refuses_models("range: no encoder refuses", range_encode, &w, CONSTRICTION_INVALID_DATA);
    in.symbols[0] += 1000000000;
    refuses("range: an encoder that is none, an impossible symbol", range_encode, &w, CONSTRICTION_INVALID_DATA);
    in.symbols[0] -= 1000000000;
    w = fresh(), w.len = 2, w.words[0] = w.words[1] = (word)-1;
    CHECK("range: import of no encoder's words", !C(range_from_compressed)(w.words, w.len, &w.decoder));
    refuses_models("range: no encoder's words", range_decode, &w, CONSTRICTION_INVALID_DATA);
    w.decoder.pos = w.len + 1;
    refuses("range: a position past the end", range_decode, &w, CONSTRICTION_WRONG_LENGTH);
    w.decoder.pos = 0, w.decoder.range = 1;
    refuses_models("range: no decoder refuses", range_decode, &w, CONSTRICTION_INVALID_DATA);
}

static void chain(size_t count) {
    struct world start = fresh(), w;
    draw(count);
    for (size_t i = 0; i < ROOM; i++) start.other[i] = (word)random_below((uint64_t)1 << BITS);
    start.other_len = ROOM, start.other[ROOM - 1] |= 1;
    CHECK("chain: import", !C(chain_from_compressed)(start.other, ROOM, &start.other_len, &start.heads));
    start.len = 2;
    every_length("chain: decode", chain_decode, &start, BEHIND);
    refused_memory("chain: decode, memory", chain_decode, &start);
    same_by_name("chain: decode by name", chain_decode, CHAIN_DECODE, &start);

    w = start;
    done("chain: decode", chain_decode, &w);
    /* Swaps the two sides, so that an encode writes after the words that were left. */
    struct world back = w;
    memcpy(back.words, w.other, sizeof back.words), memcpy(back.other, w.words, sizeof back.other);
    back.len = w.other_len, back.other_len = w.len;
    memcpy(in.symbols, w.symbols, count * sizeof *in.symbols);
    every_length("chain: encode", chain_encode, &back, BEHIND);
    refused_memory("chain: encode, memory", chain_encode, &back);
    same_by_name("chain: encode by name", chain_encode, CHAIN_ENCODE, &back);
    CHECK("chain: intervals", !intervals_of(&back));
    same("chain: by intervals", chain_encode, chain_pairs, &back);
    if (count) refuses_symbols("chain: encode refuses", chain_encode, &back);
    done("chain: encode", chain_encode, &back);
    CHECK("chain: there and back", back.len == start.other_len && back.other_len == 2
          && back.heads.remainders == start.heads.remainders && back.heads.compressed == start.heads.compressed
          && !memcmp(back.words, start.other, back.len * sizeof(word)));
    if (!count) return;
    refuses_models("chain: decode refuses", chain_decode, &start, 0);
    w = start, w.other_len = 0;
    if (count > 2) refuses_models("chain: out of compressed data", chain_decode, &w, CONSTRICTION_OUT_OF_DATA);
    w = start, w.other_len = 0;
    w.heads.remainders = (state)1 << (8 * sizeof(state) - BITS - PRECISION);
    if (in.count > 30) refuses("chain: out of remainders", chain_encode, &w, CONSTRICTION_OUT_OF_DATA);
    w.heads.remainders = 0;
    refuses_models("chain: heads that are none", chain_decode, &w, CONSTRICTION_INVALID_DATA);
    refuses_models("chain: encode by none", chain_encode, &w, CONSTRICTION_INVALID_DATA);
}

/* ==== The numbers of the models ==== */

static void intervals_at_random(size_t count) {
    struct world start = fresh(), w;
    draw(count);
    refused_memory("intervals: memory", intervals_of, &start);
    same_by_name("intervals: by name", intervals_of, INTERVALS, &start);
    w = start;
    done("intervals", intervals_of, &w);
    for (size_t i = count; i < COUNT; i++)
        CHECK("intervals: those behind", w.lefts[i] == start.lefts[i] && w.ps[i] == start.ps[i]);
    if (!count) return;
    refuses_symbols("intervals: refused", intervals_of, &start);
    in.left_count--;
    refuses("intervals: other lengths", intervals_of, &start, CONSTRICTION_WRONG_LENGTH);
    in.left_count++;
    in.count = in.location_count = in.scale_count = in.left_count = 1;
    same("intervals: one", intervals_of, named[in.family][INTERVAL], &start);
    in.scales[0] = 0;
    refuses("intervals: one, a scale of 0", named[in.family][INTERVAL], &start, CONSTRICTION_WRONG_WEIGHTS);
}

/* The intervals of all symbols of a range partition the quantiles, and each quantile decodes to its symbol. */
static void cut(int32_t min, size_t kinds) {
    struct world w = fresh();
    draw(kinds);
    in.min = min, in.max = min + (int32_t)kinds - 1;
    for (size_t i = 0; i < kinds; i++)
        in.symbols[i] = i, in.locations[i] = in.locations[0], in.scales[i] = in.scales[0];
    done("a cut", intervals_of, &w);
    state end = 0;
    for (size_t i = 0; i < kinds; i++) {
        CHECK("a cut: no gap, no overlap, no empty interval", w.lefts[i] == end && w.ps[i] > 0);
        end += w.ps[i];
        for (int last = 0; last < 2; last++) {
            state head = (((state)1 << PRECISION) | (last ? end - 1 : w.lefts[i]));
            size_t symbol = kinds, len = 0;
            CHECK("a cut: decode", !C(ans_decode_quantized)(&head, NULL, 0, &len, in.family, in.min, in.max,
                                                            in.locations, 1, in.scales, 1, &symbol, 1) && symbol == i);
        }
    }
    CHECK("a cut: all of it", end == WHOLE);
}

static void worked_intervals(void) {
    for (size_t i = 0; i < LENGTH(intervals); i++) {
        const struct interval *it = intervals + i;
        word left = 1, p = 0;
        uint32_t result = C(quantized_intervals)(it->family, it->min, it->max, &it->location, 1, &it->scale, 1,
                                                 &it->symbol, 1, &left, 1, &p, 1);
        CHECK("a worked interval", !result && left == it->left && p == it->p);
    }
}

static void proportions_of_counts(size_t count) {
    struct world start = fresh(), w;
    draw(count);
    in.left_count = count;
    if (!count) {
        refuses("weights: of no counts", weights_of, &start, CONSTRICTION_WRONG_WEIGHTS);
        return;
    }
    refused_memory("weights: memory", weights_of, &start);
    w = start;
    done("weights", weights_of, &w);
    state sum = 0;
    for (size_t i = 0; i < count; i++) {
        CHECK("weights: above 0 where the count is", (w.ps[i] > 0) == (in.counts[i] > 0));
        sum += w.ps[i];
    }
    CHECK("weights: all of it", sum == WHOLE);
    for (size_t i = count; i < COUNT; i++) CHECK("weights: those behind", w.ps[i] == start.ps[i]);
    in.left_count--;
    refuses("weights: other lengths", weights_of, &start, CONSTRICTION_WRONG_LENGTH);
    memset(in.counts, 0, sizeof in.counts);
    refuses("weights: other lengths, of zeros", weights_of, &start, CONSTRICTION_WRONG_LENGTH);
    in.left_count++;
    refuses("weights: of zeros", weights_of, &start, CONSTRICTION_WRONG_WEIGHTS);
}

/* The greatest number of counts above 0, and one more. */
static void most_counts(void) {
    size_t most = (size_t)WHOLE;
    uint64_t *counts = malloc((most + 2) * sizeof *counts);
    word *weights = calloc(most + 2, sizeof *weights);
    if (!counts || !weights) {
        CHECK("weights: memory for the test", 0);
        return;
    }
    for (size_t i = 0; i < most + 2; i++) counts[i] = 3;
    uint32_t result = C(weights_of_counts)(counts, most + 1, weights, most + 1);
    CHECK("weights: too many counts", result == CONSTRICTION_WRONG_WEIGHTS && !weights[0]);
    counts[1] = 0;
    CHECK("weights: as many as can be", !C(weights_of_counts)(counts, most + 1, weights, most + 1));
    int fine = weights[most + 1] == 0;
    for (size_t i = 0; i < most + 1; i++) fine = fine && weights[i] == (i != 1);
    CHECK("weights: as many as can be, 1 each", fine);
    free(counts), free(weights);
}

static void worked_weights(void) {
    for (size_t i = 0; i < LENGTH(proportions); i++) {
        const struct proportion *it = proportions + i;
        word found[16];
        CHECK("worked weights", !C(weights_of_counts)(it->counts, it->count, found, it->count)
              && !memcmp(found, it->weights, it->count * sizeof *found));
    }
}

/* ==== One list by all coders ==== */

static void worked_words(void) {
    in.count = in.location_count = in.scale_count = LIST, in.min = FIRST, in.max = LAST;
    memcpy(in.symbols, places, sizeof places);
    memcpy(in.locations, list_locations, sizeof list_locations), memcpy(in.scales, list_scales, sizeof list_scales);
    for (in.family = 0; in.family < FAMILIES; in.family++) {
        const struct coded *it = coded + in.family;
        struct world w = fresh();
        done("worked words: ANS", ans_encode, &w);
        CHECK("worked words: ANS, export", !C(ans_into_compressed)(w.head, w.words, ROOM, &w.len, &w.needed));
        CHECK("worked words: ANS", w.len == it->ans_len && !memcmp(w.words, it->ans, w.len * sizeof(word)));
        CHECK("worked words: ANS, import", !C(ans_from_compressed)(w.words, w.len, &w.len, &w.head));
        done("worked words: ANS, back", ans_decode, &w);
        CHECK("worked words: ANS, back", same_symbols(&w) && !w.len && !w.head);

        w = fresh();
        done("worked words: range", range_encode, &w);
        CHECK("worked words: range, export", !C(range_into_compressed)(&w.encoder, w.words, ROOM, &w.len, &w.needed));
        CHECK("worked words: range", w.len == it->range_len && !memcmp(w.words, it->range, w.len * sizeof(word)));
        CHECK("worked words: range, import", !C(range_from_compressed)(w.words, w.len, &w.decoder));
        done("worked words: range, back", range_decode, &w);
        CHECK("worked words: range, back", same_symbols(&w));

        w = fresh();
        memcpy(w.other, chain_words, sizeof chain_words);
        uint32_t result = C(chain_from_compressed)(w.other, LENGTH(chain_words), &w.other_len, &w.heads);
        CHECK("worked words: chain, import", !result);
        done("worked words: chain", chain_decode, &w);
        CHECK("worked words: chain", !memcmp(w.symbols, it->symbols, LIST * sizeof(size_t)) && w.other_len == it->left);
        CHECK("worked words: chain, export", !C(chain_into_remainders)(&w.heads, w.words, ROOM, &w.len, &w.needed));
        CHECK("worked words: chain, remainders",
              w.len == it->remainders_len && !memcmp(w.words, it->remainders, w.len * sizeof(word)));
    }
}

/* A pointer to an empty list may be null. */
static void nulls(void) {
    state head = 0;
    size_t len = 0, other_len = 0, needed = 0;
    struct world w = fresh();
#define NOTHING CONSTRICTION_GAUSSIAN, -5, 5, NULL, 0, NULL, 0
    CHECK("null: ANS", !C(ans_encode_quantized_reverse)(&head, NULL, 0, &len, NOTHING, NULL, 0, &needed));
    CHECK("null: ANS", !C(ans_decode_quantized)(&head, NULL, 0, &len, NOTHING, NULL, 0));
    CHECK("null: range", !C(range_encode_quantized)(&w.encoder, NULL, 0, &len, NOTHING, NULL, 0, &needed));
    CHECK("null: range", !C(range_decode_quantized)(&w.decoder, NULL, 0, NOTHING, NULL, 0));
    CHECK("null: chain", !C(chain_encode_quantized_reverse)(&w.heads, NULL, 0, &len, NULL, 0, &other_len,
                                                            NOTHING, NULL, 0, &needed));
    CHECK("null: chain", !C(chain_decode_quantized)(&w.heads, NULL, 0, &len, NULL, 0, &other_len,
                                                    NOTHING, NULL, 0, &needed));
    CHECK("null: intervals", !C(quantized_intervals)(NOTHING, NULL, 0, NULL, 0, NULL, 0));
    CHECK("null: weights", C(weights_of_counts)(NULL, 0, NULL, 0) == CONSTRICTION_WRONG_WEIGHTS);
    uint32_t result = C(quantized_intervals)(FAMILIES - 1, 5, 5, NULL, 0, NULL, 0, NULL, 0, NULL, 0, NULL, 0);
    CHECK("null: a range all the same", result == CONSTRICTION_WRONG_INTERVAL);
    result = C(quantized_intervals)(FAMILIES, 0, 5, NULL, 0, NULL, 0, NULL, 0, NULL, 0, NULL, 0);
    CHECK("null: a family all the same", result == CONSTRICTION_WRONG_WEIGHTS);
}

/* The greatest number of symbols in a range, each with the weight 1. */
static void widest(void) {
    int64_t location = 0;
    uint32_t scale = 65536;
    int32_t last = (int32_t)(WHOLE - 1);
    for (size_t symbol = 0; symbol < (size_t)WHOLE; symbol += (size_t)WHOLE / 64 + 1) {
        word left = 7, p = 7;
        uint32_t result;
#define IS_WIDEST(name, NAME, number) \
    left = p = 7, result = C(name##_interval)(0, last, location, scale, symbol, &left, &p); \
    CHECK("the widest range: " #name, !result && left == symbol && p == 1);
        FAMILIES_BY(IS_WIDEST)
    }
}

int main(void) {
    worked_intervals(), worked_weights(), worked_words();
    for (int round = 0; round < 30; round++) {
        size_t count = round < 3 ? (size_t)round : 1 + random_below(COUNT);
        ans(count), range(count), chain(count), intervals_at_random(count), proportions_of_counts(count);
        cut(round % 3 ? -(int32_t)random_below(50) : INT32_MIN, 2 + random_below(COUNT - 2));
    }
    most_counts(), nulls(), widest();
    for (size_t i = 1; i < RESULTS; i++) CHECK("each result was seen", seen[i] > 0);
    return finish();
}
