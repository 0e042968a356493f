/* Many stack coders in one call at one size, which -DBITS=32 or -DBITS=16 chooses, beside the same coders one by one: at
   random, with 0 to 9 and with 64 coders, with heads and words of any value, and with rows of words that are full to
   their end. Each refusal, and memory that is refused, changes nothing. */
#include "constriction_models.h"

#include "world.h"

enum { MOST = 64, WIDEST = 20, LONGEST = 12, ENTRIES = 9, MIN = -20, MAX = 21 };
enum kind { TABLE, EACH, PAIRS, LOCATED, MIXED, COUNTED, KINDS };
static const char *const NAMES[] = {"one table", "a row for each", "intervals", "a family", "mixtures", "rows of counts"};

/* What a call changes. */
struct coders {
    state heads[MOST];
    size_t lens[MOST];
    word before[GUARD], words[MOST * WIDEST + GUARD];
    size_t symbols[MOST * LONGEST + GUARD], needed;
};

/* What a call is given: n coders with rows of `width` words and `count` symbols, and the symbols' models. */
static struct {
    size_t n, width, count, capacity, len_count, symbol_count;
    size_t symbols[MOST * LONGEST];
    word table[ENTRIES], each[MOST * LONGEST * ENTRIES], lefts[MOST * LONGEST], ps[MOST * LONGEST];
    int64_t locations[MOST * LONGEST * 2];
    uint32_t scales[MOST * LONGEST * 2], component_weights[MOST * LONGEST * 2], counts[MOST * LONGEST * ENTRIES];
} in;

/* The functions for n coders, and those for one, whose models begin at symbol `first`. */
#define LANES c->heads, in.n, c->words, in.capacity, c->lens, in.len_count
#define ONE &c->heads[j], c->words + j * in.width, in.width, &c->lens[j]
#define GIVEN(first, count) in.symbols + (first), (count)
#define TAKEN(first, count) c->symbols + (first), (count)
#define RANGE CONSTRICTION_LOGISTIC, MIN, MAX
#define TABLE_ in.table, (size_t)ENTRIES
#define EACH_(first, count) in.each + (first) * ENTRIES, (count) * ENTRIES, (size_t)ENTRIES
#define PAIRS_(first, count) in.lefts + (first), (count), in.ps + (first), (count)
#define LOCATED_(first, count) RANGE, in.locations + (first), (count), in.scales + (first), (count)
#define MIXED_(first, count) RANGE, (size_t)2, in.component_weights + 2 * (first), 2 * (count), \
    in.locations + 2 * (first), 2 * (count), in.scales + 2 * (first), 2 * (count)
#define COUNTED_(first, count) in.counts + (first) * ENTRIES, (count) * ENTRIES, (size_t)ENTRIES

static uint32_t encode(enum kind kind, struct coders *c) {
    size_t m = in.symbol_count;
    switch (kind) {
    case TABLE: return C(ans_lanes_encode_reverse)(LANES, TABLE_, GIVEN(0, m), &c->needed);
    case EACH: return C(ans_lanes_encode_each_reverse)(LANES, EACH_(0, m), GIVEN(0, m), &c->needed);
    case PAIRS: return C(ans_lanes_encode_intervals_reverse)(LANES, PAIRS_(0, m), &c->needed);
    case LOCATED: return C(ans_lanes_encode_quantized_reverse)(LANES, LOCATED_(0, m), GIVEN(0, m), &c->needed);
    case MIXED: return C(ans_lanes_encode_mixture_reverse)(LANES, MIXED_(0, m), GIVEN(0, m), &c->needed);
    default: return C(ans_lanes_encode_counts_reverse)(LANES, COUNTED_(0, m), GIVEN(0, m), &c->needed);
    }
}

static uint32_t encode_one(enum kind kind, struct coders *c, size_t j) {
    size_t at = j * in.count, m = in.count;
    switch (kind) {
    case TABLE: return C(ans_encode_reverse)(ONE, TABLE_, GIVEN(at, m), &c->needed);
    case EACH: return C(ans_encode_each_reverse)(ONE, EACH_(at, m), GIVEN(at, m), &c->needed);
    case PAIRS: return C(ans_encode_intervals_reverse)(ONE, PAIRS_(at, m), &c->needed);
    case LOCATED: return C(ans_encode_quantized_reverse)(ONE, LOCATED_(at, m), GIVEN(at, m), &c->needed);
    case MIXED: return C(ans_encode_mixture_reverse)(ONE, MIXED_(at, m), GIVEN(at, m), &c->needed);
    default: return C(ans_encode_counts_reverse)(ONE, COUNTED_(at, m), GIVEN(at, m), &c->needed);
    }
}

/* Intervals have no decode of their own: their place takes the decode with one table. */
static uint32_t decode(enum kind kind, struct coders *c) {
    size_t m = in.symbol_count;
    switch (kind) {
    case EACH: return C(ans_lanes_decode_each)(LANES, EACH_(0, m), TAKEN(0, m));
    case LOCATED: return C(ans_lanes_decode_quantized)(LANES, LOCATED_(0, m), TAKEN(0, m));
    case MIXED: return C(ans_lanes_decode_mixture)(LANES, MIXED_(0, m), TAKEN(0, m));
    case COUNTED: return C(ans_lanes_decode_counts)(LANES, COUNTED_(0, m), TAKEN(0, m));
    default: return C(ans_lanes_decode)(LANES, TABLE_, TAKEN(0, m));
    }
}

static uint32_t decode_one(enum kind kind, struct coders *c, size_t j) {
    size_t at = j * in.count, m = in.count;
    switch (kind) {
    case EACH: return C(ans_decode_each)(ONE, EACH_(at, m), TAKEN(at, m));
    case LOCATED: return C(ans_decode_quantized)(ONE, LOCATED_(at, m), TAKEN(at, m));
    case MIXED: return C(ans_decode_mixture)(ONE, MIXED_(at, m), TAKEN(at, m));
    case COUNTED: return C(ans_decode_counts)(ONE, COUNTED_(at, m), TAKEN(at, m));
    default: return C(ans_decode)(ONE, TABLE_, TAKEN(at, m));
    }
}

/* ---- what is drawn ---- */

/* Weights that add up to 2^P, some of them 0. */
static void weigh(word *weights) {
    state left = WHOLE;
    for (size_t i = 0; i + 1 < ENTRIES; i++) {
        weights[i] = random_below(4) ? (word)random_below((uint64_t)left / 2 + 1) : 0;
        left -= weights[i];
    }
    weights[ENTRIES - 1] = (word)left;
}

/* A symbol of a weight above 0. */
static size_t of_weights(const word *weights) {
    size_t symbol = random_below(ENTRIES);
    while (!weights[symbol]) symbol = random_below(ENTRIES);
    return symbol;
}

static size_t draw_symbol(enum kind kind, size_t i) {
    if (kind == LOCATED || kind == MIXED) return random_below(MAX - MIN + 1);
    return kind == COUNTED ? random_below(ENTRIES) : of_weights(kind == EACH ? in.each + i * ENTRIES : in.table);
}

static void draw(enum kind kind, size_t n) {
    in.n = n, in.width = random_below(WIDEST + 1), in.count = random_below(random_below(4) ? 3 : LONGEST + 1);
    in.capacity = n * in.width, in.len_count = n, in.symbol_count = n * in.count;
    weigh(in.table);
    for (size_t i = 0; i < in.symbol_count; i++) {
        weigh(in.each + i * ENTRIES);
        for (size_t k = 0; k < ENTRIES; k++) in.counts[i * ENTRIES + k] = (uint32_t)random_below(1000) + 1;
        for (size_t k = 0; k < 2; k++) {
            in.locations[2 * i + k] = (int64_t)random_below(60 << 16) - (30 << 16);
            in.scales[2 * i + k] = (uint32_t)random_below(20 << 16) + 1;
            in.component_weights[2 * i + k] = (uint32_t)random_below(1000) + 1;
        }
        in.lefts[i] = (word)random_below(WHOLE), in.ps[i] = (word)(random_below(WHOLE - in.lefts[i]) + 1);
        in.symbols[i] = draw_symbol(kind, i);
    }
}

/* Heads of any size, words of any value, rows that are often full or empty. */
static struct coders any_coders(void) {
    struct coders c;
    memset(&c, 0, sizeof c);
    for (size_t j = 0; j < MOST; j++) {
        c.heads[j] = (state)(random_below(UINT64_MAX) >> random_below(64));
        size_t where = random_below(3);
        c.lens[j] = where == 0 ? 0 : where == 1 ? in.width : random_below(in.width + 1);
    }
    for (size_t i = 0; i < MOST * WIDEST + GUARD; i++) c.words[i] = (word)random_below((uint64_t)1 << 40);
    for (size_t i = 0; i < GUARD; i++) c.before[i] = (word)(50000 + i);
    for (size_t i = 0; i < MOST * LONGEST + GUARD; i++) c.symbols[i] = 55000 + i;
    c.needed = 56000;
    return c;
}

static int alike(const struct coders *a, const struct coders *b) {
    return !memcmp(a->heads, b->heads, sizeof a->heads) && !memcmp(a->lens, b->lens, sizeof a->lens)
        && !memcmp(a->before, b->before, sizeof a->before) && !memcmp(a->words, b->words, sizeof a->words)
        && !memcmp(a->symbols, b->symbols, sizeof a->symbols) && a->needed == b->needed;
}

/* ---- beside one coder ---- */

static unsigned long done_calls, short_calls, impossible_calls;

static void encodes_as_one(enum kind kind, const struct coders *start) {
    struct coders all = *start, each = *start;
    size_t needed = 0;
    int is_impossible = 0, is_short = 0;
    for (size_t j = 0; j < in.n; j++) {
        uint32_t result = encode_one(kind, &each, j);
        size_t room = result == CONSTRICTION_NO_SPACE ? each.needed : each.lens[j];
        CHECK(NAMES[kind], result == CONSTRICTION_DONE || result == CONSTRICTION_NO_SPACE || result == CONSTRICTION_IMPOSSIBLE_SYMBOL);
        is_impossible |= result == CONSTRICTION_IMPOSSIBLE_SYMBOL, is_short |= result == CONSTRICTION_NO_SPACE;
        needed = room > needed ? room : needed;
    }
    each.needed = start->needed;
    uint32_t result = encode(kind, &all);
    if (is_impossible) {
        impossible_calls++;
        CHECK(NAMES[kind], result == CONSTRICTION_IMPOSSIBLE_SYMBOL && alike(&all, start));
    } else if (is_short) {
        short_calls++;
        CHECK(NAMES[kind], result == CONSTRICTION_NO_SPACE && all.needed == needed);
        all.needed = start->needed;
        CHECK(NAMES[kind], alike(&all, start));
    } else {
        done_calls++;
        CHECK(NAMES[kind], result == CONSTRICTION_DONE && alike(&all, &each));
    }
}

static void decodes_as_one(enum kind kind, const struct coders *start) {
    struct coders all = *start, each = *start;
    for (size_t j = 0; j < in.n; j++) CHECK(NAMES[kind], decode_one(kind, &each, j) == CONSTRICTION_DONE);
    CHECK(NAMES[kind], decode(kind, &all) == CONSTRICTION_DONE && alike(&all, &each));
}

/* Encodes onto new coders, and decodes the symbols again. */
static void there_and_back(enum kind kind) {
    struct coders c = any_coders();
    in.width = WIDEST, in.capacity = in.n * WIDEST;
    for (size_t j = 0; j < MOST; j++) c.heads[j] = 0, c.lens[j] = 0;
    CHECK(NAMES[kind], encode(kind, &c) == CONSTRICTION_DONE);
    if (kind == PAIRS) return;
    CHECK(NAMES[kind], decode(kind, &c) == CONSTRICTION_DONE);
    CHECK(NAMES[kind], !memcmp(c.symbols, in.symbols, in.symbol_count * sizeof *c.symbols));
    for (size_t j = 0; j < in.n; j++) CHECK(NAMES[kind], c.heads[j] == 0 && c.lens[j] == 0);
}

static void impossible(enum kind kind, const struct coders *start) {
    if (kind == PAIRS || !in.symbol_count) return;
    size_t at = random_below(in.symbol_count), kept = in.symbols[at];
    in.symbols[at] = 100;
    encodes_as_one(kind, start);
    in.symbols[at] = kept;
}

/* ---- refusals ---- */

static void refuses_both(enum kind kind, const struct coders *start, uint32_t wanted) {
    struct coders c = *start;
    CHECK(NAMES[kind], encode(kind, &c) == wanted && alike(&c, start));
    if (kind != PAIRS) CHECK(NAMES[kind], decode(kind, &c) == wanted && alike(&c, start));
}

static void wrong_lengths(enum kind kind) {
    draw(kind, 3);
    in.width = 5, in.capacity = 15, in.count = 2, in.symbol_count = 6;
    for (size_t i = 0; i < 6; i++) weigh(in.each + i * ENTRIES), in.ps[i] = 1, in.lefts[i] = 0, in.symbols[i] = draw_symbol(kind, i);
    struct coders c = any_coders();
    for (size_t j = 0; j < MOST; j++) c.lens[j] = 0;
    for (in.len_count = 0; in.len_count < 6; in.len_count++) {
        if (in.len_count != 3) refuses_both(kind, &c, CONSTRICTION_WRONG_LENGTH);
    }
    in.len_count = 3;
    for (in.capacity = 0; in.capacity < 15; in.capacity++) {
        if (in.capacity % 3) refuses_both(kind, &c, CONSTRICTION_WRONG_LENGTH);
    }
    for (in.symbol_count = 0; in.symbol_count < 6; in.symbol_count++) {
        if (in.symbol_count % 3) refuses_both(kind, &c, CONSTRICTION_WRONG_LENGTH);
    }
    in.symbol_count = 6;
    for (size_t j = 0; j < 3; j++) {
        struct coders past = c;
        past.lens[j] = j == 1 ? SIZE_MAX : 6;
        refuses_both(kind, &past, CONSTRICTION_WRONG_LENGTH);
    }
    in.n = 0, in.len_count = 0;
    refuses_both(kind, &c, CONSTRICTION_WRONG_LENGTH);
    in.capacity = 0;
    refuses_both(kind, &c, CONSTRICTION_WRONG_LENGTH);
    in.symbol_count = 0;
    refuses_both(kind, &c, CONSTRICTION_DONE);
}

/* A request for memory that is refused changes nothing, or the call does without it. */
static void refused(enum kind kind, uint32_t (*run)(enum kind, struct coders *)) {
    draw(kind, 4);
    in.width = WIDEST, in.capacity = 4 * WIDEST;
    struct coders start = any_coders(), whole;
    for (size_t j = 0; j < MOST; j++) start.lens[j] = 2;
    whole = start;
    CHECK(NAMES[kind], run(kind, &whole) == CONSTRICTION_DONE);
    for (unsigned long k = 1; k < 1000; k++) {
        struct coders c = start;
        requests = 0, refused_request = k;
        uint32_t result = run(kind, &c);
        refused_request = 0;
        CHECK(NAMES[kind], result == CONSTRICTION_DONE ? alike(&c, &whole) : result == CONSTRICTION_NO_MEMORY && alike(&c, &start));
        if (requests < k) return;
    }
    CHECK(NAMES[kind], 0);
}

/* New coders, and one symbol for each. */
static struct coders with_one(enum kind kind) {
    draw(kind, 5);
    in.width = WIDEST, in.capacity = 5 * WIDEST, in.count = 1, in.symbol_count = 5;
    struct coders c = any_coders();
    for (size_t j = 0; j < MOST; j++) c.lens[j] = 0;
    return c;
}

static void wrong_models(void) {
    struct coders c = with_one(TABLE);
    in.table[3]++;
    for (size_t i = 0; i < 5; i++) in.symbols[i] = 0;
    refuses_both(TABLE, &c, CONSTRICTION_WRONG_WEIGHTS);
    c = with_one(PAIRS);
    for (size_t i = 0; i < 5; i++) in.lefts[i] = 0, in.ps[i] = i != 3;
    refuses_both(PAIRS, &c, CONSTRICTION_WRONG_INTERVAL);
    c = with_one(LOCATED);
    for (size_t i = 0; i < 5; i++) in.symbols[i] = 0, in.scales[i] = i != 2;
    refuses_both(LOCATED, &c, CONSTRICTION_WRONG_WEIGHTS);
}

int main(void) {
    unsigned long rounds = 300;
    for (enum kind kind = 0; kind < KINDS; kind++) {
        for (unsigned long round = 0; round < rounds; round++) {
            draw(kind, round % 11 < 10 ? round % 11 : 64);
            struct coders start = any_coders();
            encodes_as_one(kind, &start);
            impossible(kind, &start);
            decodes_as_one(kind, &start);
            there_and_back(kind);
        }
        wrong_lengths(kind);
        refused(kind, encode);
        refused(kind, decode);
    }
    wrong_models();
    CHECK("kinds of answers", done_calls > 100 && short_calls > 100 && impossible_calls > 100);
    return finish();
}
