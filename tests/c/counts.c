/* Tests rows of counts at one size, which -DBITS=32 or -DBITS=16 chooses. The expected words are those of rows of weights,
   which this test computes by the rule of docs/MODELS.md in 128 bits. It also tests every error, refused requests for
   memory, and random lists that are encoded and decoded. */
#include "world.h"

enum { WIDEST = 70 };
#define LARGEST UINT32_MAX

/* The arguments of the calls. */
static struct {
    size_t count, width, count_count;
    uint32_t counts[COUNT * WIDEST];
    word weights[COUNT * WIDEST];
    size_t symbols[COUNT];
} in;

#define BUFFER w->words, w->capacity, &w->len
#define OTHER w->other, (size_t)ROOM, &w->other_len
#define MODEL in.counts, in.count_count, in.width
#define ROWS in.weights, in.count_count, in.width
#define GIVEN in.symbols, in.count
#define TAKEN w->symbols, in.count

static uint32_t ans_encode(struct world *w) { return C(ans_encode_counts_reverse)(&w->head, BUFFER, MODEL, GIVEN, &w->needed); }
static uint32_t ans_decode(struct world *w) { return C(ans_decode_counts)(&w->head, BUFFER, MODEL, TAKEN); }
static uint32_t range_encode(struct world *w) { return C(range_encode_counts)(&w->encoder, BUFFER, MODEL, GIVEN, &w->needed); }
static uint32_t range_decode(struct world *w) { return C(range_decode_counts)(&w->decoder, w->words, w->len, MODEL, TAKEN); }
static uint32_t chain_encode(struct world *w) {
    return C(chain_encode_counts_reverse)(&w->heads, BUFFER, OTHER, MODEL, GIVEN, &w->needed);
}
static uint32_t chain_decode(struct world *w) { return C(chain_decode_counts)(&w->heads, OTHER, BUFFER, MODEL, TAKEN, &w->needed); }

/* Makes the same call with the weights of the rule. */
static uint32_t ans_encode_rows(struct world *w) { return C(ans_encode_each_reverse)(&w->head, BUFFER, ROWS, GIVEN, &w->needed); }
static uint32_t ans_decode_rows(struct world *w) { return C(ans_decode_each)(&w->head, BUFFER, ROWS, TAKEN); }
static uint32_t range_encode_rows(struct world *w) { return C(range_encode_each)(&w->encoder, BUFFER, ROWS, GIVEN, &w->needed); }
static uint32_t range_decode_rows(struct world *w) { return C(range_decode_each)(&w->decoder, w->words, w->len, ROWS, TAKEN); }
static uint32_t chain_encode_rows(struct world *w) {
    return C(chain_encode_each_reverse)(&w->heads, BUFFER, OTHER, ROWS, GIVEN, &w->needed);
}
static uint32_t chain_decode_rows(struct world *w) { return C(chain_decode_each)(&w->heads, OTHER, BUFFER, ROWS, TAKEN, &w->needed); }

/* Returns the start of symbol i of a row: before * (2^P - n) / total, rounded down, plus i. */
static uint64_t start_of(const uint32_t *row, size_t symbol) {
    unsigned __int128 before = 0, total = 0;
    for (size_t i = 0; i < in.width; i++) {
        if (i < symbol) before += row[i];
        total += row[i];
    }
    return (uint64_t)(before * (unsigned __int128)(WHOLE - in.width) / total) + symbol;
}

static void weigh(void) {
    for (size_t k = 0; k < in.count * in.width; k++) {
        const uint32_t *row = in.counts + k / in.width * in.width;
        in.weights[k] = (word)(start_of(row, k % in.width + 1) - start_of(row, k % in.width));
    }
}

static void counted(size_t count, size_t width) { in.count = count, in.width = width, in.count_count = count * width; }

/* Draws rows of counts with at least one count above 0, and symbols of them. A sum is at most 70 * 2^32, below 2^40. */
static void draw(size_t count) {
    counted(count, 1 + random_below(random_below(2) ? WIDEST : 4));
    for (size_t i = 0; i < COUNT * WIDEST; i++) {
        in.counts[i] = random_below(3) ? (uint32_t)random_below((uint64_t)1 << random_below(33)) : random_below(8) ? 0 : LARGEST;
    }
    for (size_t i = 0; i < count; i++) in.counts[i * in.width + random_below(in.width)] |= 1, in.symbols[i] = random_below(in.width);
    weigh();
}

static int same_symbols(const struct world *w) { return !memcmp(w->symbols, in.symbols, in.count * sizeof(size_t)); }

static void refuses_models(const char *about, call *run, const struct world *start) {
    struct world w = *start;
    uint32_t *row = in.counts + (in.count - 1) * in.width, kept[WIDEST];
    memcpy(kept, row, in.width * sizeof *kept);
    memset(row, 0, in.width * sizeof *kept);
    refuses(about, run, &w, CONSTRICTION_WRONG_WEIGHTS);
    memcpy(row, kept, in.width * sizeof *kept);
    in.count_count--;
    refuses(about, run, &w, CONSTRICTION_WRONG_LENGTH);
    in.count_count++;
    size_t width = in.width;
    counted(in.count, 0);
    refuses(about, run, &w, CONSTRICTION_WRONG_WEIGHTS);
    counted(in.count, width);
    in.width = SIZE_MAX;
    refuses(about, run, &w, CONSTRICTION_WRONG_LENGTH);
    in.width = width;
}

static void ans(size_t count) {
    struct world start = fresh(), w;
    draw(count);
    every_length("ANS: encode", ans_encode, &start, 1);
    refused_memory("ANS: encode, memory", ans_encode, &start);
    same("ANS: encode as under weights", ans_encode, ans_encode_rows, &start);
    w = start;
    done("ANS: encode", ans_encode, &w);
    requests_nothing("ANS: decode, memory", ans_decode, &w);
    same("ANS: decode as under weights", ans_decode, ans_decode_rows, &w);
    done("ANS: decode", ans_decode, &w);
    CHECK("ANS: there and back", same_symbols(&w) && w.head == start.head && w.len == start.len);
    if (!count) return;
    refuses_models("ANS: decode refuses", ans_decode, &w);
    in.symbols[0] += in.width;
    refuses("ANS: an impossible symbol", ans_encode, &w, CONSTRICTION_IMPOSSIBLE_SYMBOL);
    refuses_models("ANS: encode refuses", ans_encode, &w);
}

static void range(size_t count) {
    struct world start = fresh(), w;
    draw(count);
    every_length("range: encode", range_encode, &start, 1);
    refused_memory("range: encode, memory", range_encode, &start);
    same("range: encode as under weights", range_encode, range_encode_rows, &start);
    w = start;
    done("range: encode", range_encode, &w);
    CHECK("range: export", !C(range_into_compressed)(&w.encoder, w.words, w.capacity, &w.len, &w.needed));
    CHECK("range: import", !C(range_from_compressed)(w.words, w.len, &w.decoder));
    refused_memory("range: decode, memory", range_decode, &w);
    same("range: decode as under weights", range_decode, range_decode_rows, &w);
    done("range: decode", range_decode, &w);
    CHECK("range: there and back", same_symbols(&w));
    if (!count) return;
    refuses_models("range: decode refuses", range_decode, &w);
    refuses_models("range: encode refuses", range_encode, &start);
}

static void chain(size_t count) {
    struct world start = fresh(), w;
    draw(count);
    for (size_t i = 0; i < ROOM; i++) start.other[i] = (word)random_below((uint64_t)1 << BITS);
    start.other_len = ROOM, start.other[ROOM - 1] |= 1;
    CHECK("chain: import", !C(chain_from_compressed)(start.other, ROOM, &start.other_len, &start.heads));
    start.len = 2;
    every_length("chain: decode", chain_decode, &start, 1);
    refused_memory("chain: decode, memory", chain_decode, &start);
    same("chain: decode as under weights", chain_decode, chain_decode_rows, &start);
    w = start;
    done("chain: decode", chain_decode, &w);
    struct world back = w;
    memcpy(back.words, w.other, sizeof back.words), memcpy(back.other, w.words, sizeof back.other);
    back.len = w.other_len, back.other_len = w.len;
    memcpy(in.symbols, w.symbols, count * sizeof *in.symbols);
    refused_memory("chain: encode, memory", chain_encode, &back);
    same("chain: encode as under weights", chain_encode, chain_encode_rows, &back);
    w = back;
    done("chain: encode", chain_encode, &w);
    CHECK("chain: there and back", w.len == start.other_len && w.other_len == 2
          && w.heads.remainders == start.heads.remainders && w.heads.compressed == start.heads.compressed
          && !memcmp(w.words, start.other, w.len * sizeof(word)));
    if (!count) return;
    refuses_models("chain: decode refuses", chain_decode, &start);
    refuses_models("chain: encode refuses", chain_encode, &back);
}

/* Tests sums up to 2^40 - 1, the greatest number of counts for the precision, and one more. */
static void limits(void) {
    enum { MANY = 256 };
    static uint32_t counts[MANY + 1], row[(size_t)1 << PRECISION];
    size_t symbol = 3, symbols[1], none = 0;
    struct world w = fresh();
    for (size_t i = 0; i <= MANY; i++) counts[i] = LARGEST;
    counts[MANY] = MANY - 1;
#define ENCODE(list, width) C(ans_encode_counts_reverse)(&w.head, w.words, ROOM, &w.len, list, width, width, &symbol, 1, &w.needed)
#define DECODE(list, width) C(ans_decode_counts)(&w.head, w.words, ROOM, &w.len, list, width, width, symbols, 1)
    CHECK("limits: a sum of 2^40 - 1", !ENCODE(counts, MANY + 1) && !DECODE(counts, MANY + 1) && symbols[0] == symbol);
    counts[MANY]++;
    CHECK("limits: a sum of 2^40", ENCODE(counts, MANY + 1) == CONSTRICTION_WRONG_WEIGHTS);
    for (size_t i = 0; i < WHOLE; i++) row[i] = 1 + (uint32_t)random_below(9);
    symbol = WHOLE - 2;
    CHECK("limits: as many counts as may be", !ENCODE(row, WHOLE - 1) && !DECODE(row, WHOLE - 1) && symbols[0] == symbol);
    CHECK("limits: too many counts", ENCODE(row, (size_t)WHOLE) == CONSTRICTION_WRONG_WEIGHTS);
    CHECK("limits: one count", !C(ans_encode_counts_reverse)(&w.head, w.words, ROOM, &w.len, row, 1, 1, &none, 1, &w.needed));
    CHECK("limits: one count back", !DECODE(row, 1) && symbols[0] == 0);
}

int main(void) {
    limits();
    for (int round = 0; round < 40; round++) {
        size_t count = round < 3 ? (size_t)round : 1 + random_below(COUNT);
        ans(count), range(count), chain(count);
    }
    return finish();
}
