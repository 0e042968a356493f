/* Tests mixtures at one size, which -DBITS=32 or -DBITS=16 chooses: worked words, computed by definitions and not by this
   library; every error, refused requests for memory, and random lists that are encoded and decoded. */
#include "world.h"

/* The list's words under mixtures of one family, by the stack coder and the range coder; the symbols that the chain coder
   decodes from its words, and the words that it leaves. */
struct mixed {
    size_t ans_len;
    word ans[16];
    size_t range_len;
    word range[16];
    size_t symbols[16], left, remainders_len;
    word remainders[16];
};

#include "families.h"
#include "rows_of_mixtures.h"

#define LENGTH(list) (sizeof(list) / sizeof *(list))
enum { WIDEST = 4 };

/* The arguments of the calls. */
static struct {
    size_t count, width, weight_count, location_count, scale_count;
    uint32_t family;
    int32_t min, max;
    uint32_t weights[COUNT * WIDEST];
    int64_t locations[COUNT * WIDEST];
    uint32_t scales[COUNT * WIDEST];
    size_t symbols[COUNT];
} in;

#define BUFFER w->words, w->capacity, &w->len
#define OTHER w->other, (size_t)ROOM, &w->other_len
#define MODEL \
    in.family, in.min, in.max, in.width, in.weights, in.weight_count, in.locations, in.location_count, in.scales, in.scale_count
#define GIVEN in.symbols, in.count
#define TAKEN w->symbols, in.count

static uint32_t ans_encode(struct world *w) {
    return C(ans_encode_mixture_reverse)(&w->head, BUFFER, MODEL, GIVEN, &w->needed);
}
static uint32_t ans_decode(struct world *w) { return C(ans_decode_mixture)(&w->head, BUFFER, MODEL, TAKEN); }
static uint32_t range_encode(struct world *w) {
    return C(range_encode_mixture)(&w->encoder, BUFFER, MODEL, GIVEN, &w->needed);
}
static uint32_t range_decode(struct world *w) {
    return C(range_decode_mixture)(&w->decoder, w->words, w->len, MODEL, TAKEN);
}
static uint32_t chain_encode(struct world *w) {
    return C(chain_encode_mixture_reverse)(&w->heads, BUFFER, OTHER, MODEL, GIVEN, &w->needed);
}
static uint32_t chain_decode(struct world *w) {
    return C(chain_decode_mixture)(&w->heads, OTHER, BUFFER, MODEL, TAKEN, &w->needed);
}

/* Makes the same call with the only component of each symbol. */
#define ALONE in.family, in.min, in.max, in.locations, in.location_count, in.scales, in.scale_count
static uint32_t ans_alone(struct world *w) {
    return C(ans_encode_quantized_reverse)(&w->head, BUFFER, ALONE, GIVEN, &w->needed);
}

static void counted(size_t count, size_t width) {
    in.count = count, in.width = width;
    in.weight_count = in.location_count = in.scale_count = count * width;
}

/* Draws a range of at most so many symbols, components near it, and symbols of it. */
static void draw(size_t count) {
    uint64_t kinds = 2 + random_below(random_below(2) ? 300 : 8);
    counted(count, 1 + random_below(WIDEST));
    in.family = (uint32_t)random_below(FAMILIES);
    in.min = (int32_t)random_below(400) - 200, in.max = in.min + (int32_t)kinds - 1;
    for (size_t i = 0; i < COUNT; i++) in.symbols[i] = random_below(kinds);
    for (size_t i = 0; i < COUNT * WIDEST; i++) {
        in.weights[i] = i % in.width && !random_below(3) ? 0 : 1 + (uint32_t)random_below(1u << random_below(30));
        in.locations[i] = ((int64_t)in.min + (int64_t)random_below(kinds)) * 65536 + (int64_t)random_below(65536);
        in.scales[i] = 1 + (uint32_t)(random_below(8) ? random_below(40 * 65536) : random_below(UINT32_MAX));
    }
}

static void refuses_models(const char *about, call *run, const struct world *start) {
    struct world w = *start;
    size_t end = in.count * in.width, row = end - in.width;
    uint32_t scale = in.scales[end - 1], family = in.family, kept[WIDEST];
    memcpy(kept, in.weights + row, in.width * sizeof *kept);
    in.scales[end - 1] = 0;
    refuses(about, run, &w, CONSTRICTION_WRONG_WEIGHTS);
    in.scales[end - 1] = scale, in.family = 3;
    refuses(about, run, &w, CONSTRICTION_WRONG_WEIGHTS);
    in.family = family;
    memset(in.weights + row, 0, in.width * sizeof *kept);
    refuses(about, run, &w, CONSTRICTION_WRONG_WEIGHTS);
    if (in.width > 1) {
        in.weights[row] = UINT32_MAX, in.weights[row + 1] = 2;
        refuses(about, run, &w, CONSTRICTION_WRONG_WEIGHTS);
    }
    memcpy(in.weights + row, kept, in.width * sizeof *kept);
    in.max = in.min;
    refuses(about, run, &w, CONSTRICTION_WRONG_INTERVAL);
    in.weight_count--;
    refuses(about, run, &w, CONSTRICTION_WRONG_LENGTH);
    in.weight_count++, in.location_count--;
    refuses(about, run, &w, CONSTRICTION_WRONG_LENGTH);
    in.location_count++, in.scale_count--;
    refuses(about, run, &w, CONSTRICTION_WRONG_LENGTH);
    in.scale_count++, in.max = in.min + 1;
    size_t width = in.width;
    counted(in.count, 0);
    refuses(about, run, &w, CONSTRICTION_WRONG_WEIGHTS);
    counted(in.count, width);
    in.width = SIZE_MAX;
    refuses(about, run, &w, CONSTRICTION_WRONG_LENGTH);
    in.width = width;
}

static int same_symbols(const struct world *w) { return !memcmp(w->symbols, in.symbols, in.count * sizeof(size_t)); }

static void ans(size_t count) {
    struct world start = fresh(), w;
    draw(count);
    every_length("ANS: encode", ans_encode, &start, 1);
    refused_memory("ANS: encode, memory", ans_encode, &start);
    w = start;
    done("ANS: encode", ans_encode, &w);
    refused_memory("ANS: decode, memory", ans_decode, &w);
    done("ANS: decode", ans_decode, &w);
    CHECK("ANS: there and back", same_symbols(&w) && w.head == start.head && w.len == start.len);
    if (!count) return;
    in.symbols[0] += 1000000000;
    refuses("ANS: an impossible symbol", ans_encode, &w, CONSTRICTION_IMPOSSIBLE_SYMBOL);
    int32_t max = in.max;
    refuses_models("ANS: encode refuses", ans_encode, &w);
    in.symbols[0] -= 1000000000, in.max = max;
    refuses_models("ANS: decode refuses", ans_decode, &w);
    in.max = max;
    counted(count, 1);
    for (size_t i = 0; i < count; i++) in.weights[i] = 1 + (uint32_t)random_below(UINT32_MAX);
    same("ANS: one component", ans_encode, ans_alone, &start);
}

static void range(size_t count) {
    struct world start = fresh(), w;
    draw(count);
    every_length("range: encode", range_encode, &start, 1);
    /* An encode of a single symbol first requests no memory for words. If its model's request is refused, the call tries again. */
    (count == 1 ? asks_again : refused_memory)("range: encode, memory", range_encode, &start);
    w = start;
    done("range: encode", range_encode, &w);
    CHECK("range: export", !C(range_into_compressed)(&w.encoder, w.words, w.capacity, &w.len, &w.needed));
    CHECK("range: import", !C(range_from_compressed)(w.words, w.len, &w.decoder));
    refused_memory("range: decode, memory", range_decode, &w);
    done("range: decode", range_decode, &w);
    CHECK("range: there and back", same_symbols(&w));
    if (!count) return;
    refuses_models("range: decode refuses", range_decode, &w);
    refuses_models("range: encode refuses", range_encode, &start);
}

static void chain(size_t count) {
    struct world start = fresh(), w;
    draw(count);
    for (size_t i = 0; i < ROOM; i++) start.other[i] = (word)random_below((uint64_t)1 << BITS);
    start.other_len = ROOM, start.other[ROOM - 1] |= 1;
    CHECK("chain: import", !C(chain_from_compressed)(start.other, ROOM, &start.other_len, &start.heads));
    start.len = 2;
    every_length("chain: decode", chain_decode, &start, 1);
    refused_memory("chain: decode, memory", chain_decode, &start);
    w = start;
    done("chain: decode", chain_decode, &w);
    struct world back = w;
    memcpy(back.words, w.other, sizeof back.words), memcpy(back.other, w.words, sizeof back.other);
    back.len = w.other_len, back.other_len = w.len;
    memcpy(in.symbols, w.symbols, count * sizeof *in.symbols);
    refused_memory("chain: encode, memory", chain_encode, &back);
    w = back;
    done("chain: encode", chain_encode, &w);
    CHECK("chain: there and back", w.len == start.other_len && w.other_len == 2
          && w.heads.remainders == start.heads.remainders && w.heads.compressed == start.heads.compressed
          && !memcmp(w.words, start.other, w.len * sizeof(word)));
    if (!count) return;
    refuses_models("chain: decode refuses", chain_decode, &start);
    refuses_models("chain: encode refuses", chain_encode, &back);
}

/* Makes a call in memory without a free block. */
static void needs_none(const char *about, call *run, struct world *w) {
    requests = 0, refused_request = 1;
    done(about, run, w);
    refused_request = 0;
    CHECK(about, !requests);
}

/* Mixtures of no symbols have no components, whatever their width: no call requests memory. */
static void no_symbols(void) {
    static const size_t widths[] = {1, (size_t)1 << 28, (size_t)1 << 59, SIZE_MAX};
    for (size_t k = 0; k < LENGTH(widths); k++) {
        struct world w = fresh();
        draw(0);
        in.width = widths[k];
        needs_none("no symbols: ANS, encode", ans_encode, &w), needs_none("no symbols: ANS, decode", ans_decode, &w);
        needs_none("no symbols: range, encode", range_encode, &w);
        needs_none("no symbols: range, decode", range_decode, &w);
        needs_none("no symbols: chain, encode", chain_encode, &w);
        needs_none("no symbols: chain, decode", chain_decode, &w);
    }
}

static void worked_words(void) {
    counted(LIST, LIST_WIDTH);
    in.min = FIRST, in.max = LAST;
    memcpy(in.symbols, places, sizeof places), memcpy(in.weights, list_weights, sizeof list_weights);
    memcpy(in.locations, list_locations, sizeof list_locations), memcpy(in.scales, list_scales, sizeof list_scales);
    for (in.family = 0; in.family < FAMILIES; in.family++) {
        const struct mixed *it = mixed + in.family;
        struct world w = fresh();
        done("worked words: ANS", ans_encode, &w);
        CHECK("worked words: ANS, export", !C(ans_into_compressed)(w.head, w.words, ROOM, &w.len, &w.needed));
        CHECK("worked words: ANS", w.len == it->ans_len && !memcmp(w.words, it->ans, w.len * sizeof(word)));

        w = fresh();
        done("worked words: range", range_encode, &w);
        CHECK("worked words: range, export", !C(range_into_compressed)(&w.encoder, w.words, ROOM, &w.len, &w.needed));
        CHECK("worked words: range", w.len == it->range_len && !memcmp(w.words, it->range, w.len * sizeof(word)));

        w = fresh();
        memcpy(w.other, chain_words, sizeof chain_words);
        uint32_t result = C(chain_from_compressed)(w.other, LENGTH(chain_words), &w.other_len, &w.heads);
        CHECK("worked words: chain, import", !result);
        done("worked words: chain", chain_decode, &w);
        CHECK("worked words: chain", !memcmp(w.symbols, it->symbols, LIST * sizeof(size_t)) && w.other_len == it->left);
        CHECK("worked words: chain, export", !C(chain_into_remainders)(&w.heads, w.words, ROOM, &w.len, &w.needed));
        CHECK("worked words: chain, remainders",
              w.len == it->remainders_len && !memcmp(w.words, it->remainders, w.len * sizeof(word)));
    }
}

int main(void) {
    worked_words(), no_symbols();
    for (int round = 0; round < 30; round++) {
        size_t count = round < 3 ? (size_t)round : 1 + random_below(COUNT);
        ans(count), range(count), chain(count);
    }
    return finish();
}
