/* Tests tables by index at one size, which -DBITS=32 or -DBITS=16 chooses. An indexed call has to do what the call with a row
   for each symbol does, for the rows that this test gathers by the indexes. It also tests every error, refused requests for
   memory, and random lists that are encoded and decoded. */
#include "world.h"

enum { WIDEST = 12, MOST = 50, LONG = 4096 };

/* The arguments of the calls. These lists are so short that a call makes no tables, and searches the weights. */
static struct {
    size_t count, width, tables, weight_count, index_count, row_count;
    word weights[MOST * WIDEST], rows[COUNT * WIDEST];
    size_t indexes[COUNT], symbols[COUNT];
} in;

#define BUFFER w->words, w->capacity, &w->len
#define OTHER w->other, (size_t)ROOM, &w->other_len
#define MODEL in.weights, in.weight_count, in.width, in.indexes, in.index_count
#define ROWS in.rows, in.row_count, in.width
#define GIVEN in.symbols, in.count
#define TAKEN w->symbols, in.count

static uint32_t ans_encode(struct world *w) { return C(ans_encode_indexed_reverse)(&w->head, BUFFER, MODEL, GIVEN, &w->needed); }
static uint32_t ans_decode(struct world *w) { return C(ans_decode_indexed)(&w->head, BUFFER, MODEL, TAKEN); }
static uint32_t range_encode(struct world *w) { return C(range_encode_indexed)(&w->encoder, BUFFER, MODEL, GIVEN, &w->needed); }
static uint32_t range_decode(struct world *w) { return C(range_decode_indexed)(&w->decoder, w->words, w->len, MODEL, TAKEN); }
static uint32_t chain_encode(struct world *w) {
    return C(chain_encode_indexed_reverse)(&w->heads, BUFFER, OTHER, MODEL, GIVEN, &w->needed);
}
static uint32_t chain_decode(struct world *w) { return C(chain_decode_indexed)(&w->heads, OTHER, BUFFER, MODEL, TAKEN, &w->needed); }

/* Makes the same call with the rows that the indexes select. */
static uint32_t ans_encode_rows(struct world *w) { return C(ans_encode_each_reverse)(&w->head, BUFFER, ROWS, GIVEN, &w->needed); }
static uint32_t ans_decode_rows(struct world *w) { return C(ans_decode_each)(&w->head, BUFFER, ROWS, TAKEN); }
static uint32_t range_encode_rows(struct world *w) { return C(range_encode_each)(&w->encoder, BUFFER, ROWS, GIVEN, &w->needed); }
static uint32_t range_decode_rows(struct world *w) { return C(range_decode_each)(&w->decoder, w->words, w->len, ROWS, TAKEN); }
static uint32_t chain_encode_rows(struct world *w) {
    return C(chain_encode_each_reverse)(&w->heads, BUFFER, OTHER, ROWS, GIVEN, &w->needed);
}
static uint32_t chain_decode_rows(struct world *w) { return C(chain_decode_each)(&w->heads, OTHER, BUFFER, ROWS, TAKEN, &w->needed); }

static void counted(size_t count, size_t tables, size_t width) {
    in.count = in.index_count = count, in.tables = tables, in.width = width;
    in.weight_count = tables * width, in.row_count = count * width;
}

/* Fills a row with weights of the right sum, some of them 0. */
static void draw_row(word *row) {
    state left = WHOLE;
    size_t last = random_below(in.width);
    for (size_t i = 0; i < in.width; i++) {
        state share = i == last || !random_below(4) ? 0 : (state)random_below(left / 2 + 1);
        row[i] = (word)share, left -= share;
    }
    row[last] = (word)left;
}

/* Copies the rows that the indexes select. */
static void gather(void) {
    for (size_t i = 0; i < in.count; i++) memcpy(in.rows + i * in.width, in.weights + in.indexes[i] * in.width, in.width * sizeof(word));
}

static void draw(size_t count) {
    counted(count, 1 + random_below(random_below(2) ? MOST : 3), 1 + random_below(WIDEST));
    for (size_t i = 0; i < in.tables; i++) draw_row(in.weights + i * in.width);
    for (size_t i = 0; i < count; i++) {
        const word *row = in.weights + in.width * (in.indexes[i] = random_below(in.tables));
        do in.symbols[i] = random_below(in.width); while (!row[in.symbols[i]]);
    }
    gather();
}

static int same_symbols(const struct world *w) { return !memcmp(w->symbols, in.symbols, in.count * sizeof(size_t)); }

/* Each wrong argument is refused. `count` is above 0. */
static void refuses_models(const char *about, call *run, const struct world *start) {
    struct world w = *start;
    size_t at = random_below(in.count), index = in.indexes[at], width = in.width, weight_count = in.weight_count;
    in.indexes[at] = in.tables;
    refuses(about, run, &w, CONSTRICTION_WRONG_LENGTH);
    in.indexes[at] = SIZE_MAX;
    refuses(about, run, &w, CONSTRICTION_WRONG_LENGTH);
    in.indexes[at] = index;
    in.index_count--;
    refuses(about, run, &w, CONSTRICTION_WRONG_LENGTH);
    in.index_count++;
    word *weight = in.weights + random_below(in.weight_count), kept = *weight;
    *weight = (word)(kept ? kept - 1 : 1);
    refuses(about, run, &w, CONSTRICTION_WRONG_WEIGHTS);
    in.indexes[at] = in.tables;
    refuses(about, run, &w, CONSTRICTION_WRONG_LENGTH);
    in.indexes[at] = index, *weight = kept;
    if (width > 1) {
        in.weight_count--;
        refuses(about, run, &w, CONSTRICTION_WRONG_LENGTH);
        in.weight_count++;
    }
    in.width = SIZE_MAX;
    refuses(about, run, &w, CONSTRICTION_WRONG_LENGTH);
    in.width = 0;
    refuses(about, run, &w, CONSTRICTION_WRONG_LENGTH);
    in.weight_count = 0;
    refuses(about, run, &w, CONSTRICTION_WRONG_LENGTH);
    in.width = width;
    refuses(about, run, &w, CONSTRICTION_WRONG_LENGTH);
    in.weight_count = weight_count;
}

/* A symbol past the table, and one of weight 0, are impossible. */
static void refuses_symbols(const char *about, call *run, const struct world *start) {
    struct world w = *start;
    size_t at = random_below(in.count), symbol = in.symbols[at];
    in.symbols[at] += in.width;
    refuses_without_memory(about, run, &w, CONSTRICTION_IMPOSSIBLE_SYMBOL);
    const word *row = in.weights + in.width * in.indexes[at];
    for (size_t i = 0; i < in.width; i++) {
        in.symbols[at] = i;
        if (!row[i]) refuses_without_memory(about, run, &w, CONSTRICTION_IMPOSSIBLE_SYMBOL);
    }
    in.symbols[at] = symbol;
}

static void ans(size_t count) {
    struct world start = fresh(), w;
    draw(count);
    every_length("ANS: encode", ans_encode, &start, 1);
    refused_memory("ANS: encode, memory", ans_encode, &start);
    same("ANS: encode as under rows", ans_encode, ans_encode_rows, &start);
    w = start;
    done("ANS: encode", ans_encode, &w);
    refused_memory("ANS: decode, memory", ans_decode, &w);
    same("ANS: decode as under rows", ans_decode, ans_decode_rows, &w);
    done("ANS: decode", ans_decode, &w);
    CHECK("ANS: there and back", same_symbols(&w) && w.head == start.head && w.len == start.len);
    if (!count) return;
    refuses_models("ANS: decode refuses", ans_decode, &w);
    refuses_models("ANS: encode refuses", ans_encode, &w);
    refuses_symbols("ANS: an impossible symbol", ans_encode, &w);
}

static void range(size_t count) {
    struct world start = fresh(), w;
    draw(count);
    every_length("range: encode", range_encode, &start, 1);
    (count == 1 ? asks_again : refused_memory)("range: encode, memory", range_encode, &start);
    same("range: encode as under rows", range_encode, range_encode_rows, &start);
    w = start;
    done("range: encode", range_encode, &w);
    CHECK("range: export", !C(range_into_compressed)(&w.encoder, w.words, w.capacity, &w.len, &w.needed));
    CHECK("range: import", !C(range_from_compressed)(w.words, w.len, &w.decoder));
    refused_memory("range: decode, memory", range_decode, &w);
    same("range: decode as under rows", range_decode, range_decode_rows, &w);
    done("range: decode", range_decode, &w);
    CHECK("range: there and back", same_symbols(&w));
    if (!count) return;
    refuses_models("range: decode refuses", range_decode, &w);
    refuses_models("range: encode refuses", range_encode, &start);
    refuses_symbols("range: an impossible symbol", range_encode, &start);
}

static void chain(size_t count) {
    struct world start = fresh(), w;
    draw(count);
    for (size_t i = 0; i < ROOM; i++) start.other[i] = (word)random_below((uint64_t)1 << BITS);
    start.other_len = ROOM, start.other[ROOM - 1] |= 1;
    CHECK("chain: import", !C(chain_from_compressed)(start.other, ROOM, &start.other_len, &start.heads));
    start.len = 2;
    every_length("chain: decode", chain_decode, &start, 1);
    refused_memory("chain: decode, memory", chain_decode, &start);
    same("chain: decode as under rows", chain_decode, chain_decode_rows, &start);
    w = start;
    done("chain: decode", chain_decode, &w);
    struct world back = w;
    memcpy(back.words, w.other, sizeof back.words), memcpy(back.other, w.words, sizeof back.other);
    back.len = w.other_len, back.other_len = w.len;
    memcpy(in.symbols, w.symbols, count * sizeof *in.symbols);
    refused_memory("chain: encode, memory", chain_encode, &back);
    same("chain: encode as under rows", chain_encode, chain_encode_rows, &back);
    w = back;
    done("chain: encode", chain_encode, &w);
    CHECK("chain: there and back", w.len == start.other_len && w.other_len == 2
          && w.heads.remainders == start.heads.remainders && w.heads.compressed == start.heads.compressed
          && !memcmp(w.words, start.other, w.len * sizeof(word)));
    if (!count) return;
    refuses_models("chain: decode refuses", chain_decode, &start);
    refuses_models("chain: encode refuses", chain_encode, &back);
    refuses_symbols("chain: an impossible symbol", chain_encode, &back);
}

/* ==== Long lists, for which a call makes tables ==== */

enum { TABLES = 5, WIDTH = 9, SPACE = LONG + 8 };
static word tables[TABLES * WIDTH], rows[LONG * WIDTH], words[SPACE], wanted[SPACE], rest[SPACE], other_rest[SPACE];
static size_t indexes[LONG], symbols[LONG], found[LONG], other_found[LONG], needed;
#define INDEXED tables, TABLES * WIDTH, WIDTH, indexes, LONG
#define GATHERED rows, LONG * WIDTH, WIDTH

/* Refuses each request for memory once: the call returns NO_MEMORY, and leaves the words in use and their number unchanged. */
#define REFUSES(about, call, len, old)                                                            \
    for (unsigned long n = 1;; n++) {                                                             \
        requests = 0, refused_request = n;                                                        \
        uint32_t result = (call);                                                                 \
        refused_request = 0;                                                                      \
        CHECK(about, result == (requests < n ? CONSTRICTION_DONE : CONSTRICTION_NO_MEMORY));      \
        if (requests < n) break;                                                                  \
        CHECK(about, n < 1000 && (len) == (old));                                                 \
    }

static void draw_long(void) {
    counted(0, TABLES, WIDTH);
    for (size_t i = 0; i < TABLES; i++) draw_row(tables + i * WIDTH);
    for (size_t i = 0; i < LONG; i++) {
        const word *row = tables + WIDTH * (indexes[i] = random_below(TABLES));
        do symbols[i] = random_below(WIDTH); while (!row[symbols[i]]);
        memcpy(rows + i * WIDTH, row, WIDTH * sizeof(word));
    }
}

static void long_ans(void) {
    state head = 0, other = 0;
    size_t len = 0, other_len = 0;
    REFUSES("long ANS: encode", C(ans_encode_indexed_reverse)(&head, words, SPACE, &len, INDEXED, symbols, LONG, &needed), len, 0);
    CHECK("long ANS: rows", !C(ans_encode_each_reverse)(&other, wanted, SPACE, &other_len, GATHERED, symbols, LONG, &needed));
    CHECK("long ANS: the same words", head == other && len == other_len && !memcmp(words, wanted, len * sizeof(word)));
    REFUSES("long ANS: decode", C(ans_decode_indexed)(&head, words, SPACE, &len, INDEXED, found, LONG), len, other_len);
    CHECK("long ANS: there and back", !memcmp(found, symbols, sizeof symbols) && !head && !len);
    for (size_t i = 0; i < LONG; i++) indexes[i] = 0, symbols[i] %= WIDTH - 1;
    for (size_t i = 0; i < LONG; i++) while (!tables[symbols[i]]) symbols[i] = (symbols[i] + 1) % WIDTH;
    head = other = 0, len = other_len = 0;
    CHECK("one table: encode", !C(ans_encode_indexed_reverse)(&head, words, SPACE, &len, INDEXED, symbols, LONG, &needed));
    CHECK("one table: alone", !C(ans_encode_reverse)(&other, wanted, SPACE, &other_len, tables, WIDTH, symbols, LONG, &needed));
    CHECK("one table: the same words", head == other && len == other_len && !memcmp(words, wanted, len * sizeof(word)));
    CHECK("one table: decode", !C(ans_decode_indexed)(&head, words, SPACE, &len, INDEXED, found, LONG));
    CHECK("one table: there and back", !memcmp(found, symbols, sizeof symbols) && !head && !len);
}

static void long_range(void) {
    struct C(range_encoder_state) encoder, other;
    struct C(range_decoder_state) decoder, other_decoder;
    size_t len = 0, other_len = 0;
    C(range_encoder)(&encoder), C(range_encoder)(&other);
    REFUSES("long range: encode", C(range_encode_indexed)(&encoder, words, SPACE, &len, INDEXED, symbols, LONG, &needed), len, 0);
    CHECK("long range: rows", !C(range_encode_each)(&other, wanted, SPACE, &other_len, GATHERED, symbols, LONG, &needed));
    CHECK("long range: the same words", len == other_len && !memcmp(words, wanted, len * sizeof(word)));
    CHECK("long range: the same encoder", encoder.lower == other.lower && encoder.range == other.range && encoder.held == other.held);
    CHECK("long range: export", !C(range_into_compressed)(&encoder, words, SPACE, &len, &needed));
    CHECK("long range: import", !C(range_from_compressed)(words, len, &decoder));
    other_decoder = decoder;
    REFUSES("long range: decode", C(range_decode_indexed)(&decoder, words, len, INDEXED, found, LONG), decoder.pos, other_decoder.pos);
    CHECK("long range: there and back", !memcmp(found, symbols, sizeof symbols));
    CHECK("long range: rows back", !C(range_decode_each)(&other_decoder, words, len, GATHERED, other_found, LONG));
    CHECK("long range: the same decoder", decoder.pos == other_decoder.pos && decoder.point == other_decoder.point);
}

static void long_chain(void) {
    struct C(chain_heads) heads, other, start;
    size_t len = SPACE, other_len, rest_len = 0, other_rest_len = 0;
    for (size_t i = 0; i < SPACE; i++) words[i] = (word)(random_below((uint64_t)1 << BITS) | 1);
    CHECK("long chain: import", !C(chain_from_compressed)(words, SPACE, &len, &start));
    heads = other = start, other_len = len;
    const size_t begin = len;
    REFUSES("long chain: decode", C(chain_decode_indexed)(&heads, words, SPACE, &len, rest, SPACE, &rest_len, INDEXED, found, LONG, &needed),
            len, begin);
    CHECK("long chain: rows", !C(chain_decode_each)(&other, words, SPACE, &other_len, other_rest, SPACE, &other_rest_len, GATHERED,
                                                   other_found, LONG, &needed));
    CHECK("long chain: the same", len == other_len && rest_len == other_rest_len && !memcmp(rest, other_rest, rest_len * sizeof(word))
          && heads.remainders == other.remainders && heads.compressed == other.compressed && !memcmp(found, other_found, sizeof found));
    const size_t end = len;
    REFUSES("long chain: encode", C(chain_encode_indexed_reverse)(&heads, words, SPACE, &len, rest, SPACE, &rest_len, INDEXED, found, LONG, &needed),
            len, end);
    CHECK("long chain: there and back", len == begin && !rest_len && heads.remainders == start.remainders && heads.compressed == start.compressed);
}

/* Without symbols there need be no tables, but those that there are have to add up. */
static void no_symbols(void) {
    struct world w = fresh();
    counted(0, 0, 3);
    done("none: no tables", ans_encode, &w), done("none: no tables", ans_decode, &w);
    in.width = 0;
    done("none: no width", ans_encode, &w), done("none: no width", ans_decode, &w);
    counted(0, 2, 3);
    memset(in.weights, 0, 6 * sizeof(word));
    refuses("none: wrong weights", ans_encode, &w, CONSTRICTION_WRONG_WEIGHTS);
    refuses("none: wrong weights", ans_decode, &w, CONSTRICTION_WRONG_WEIGHTS);
}

int main(void) {
    no_symbols();
    for (int round = 0; round < 3; round++) draw_long(), long_range(), long_chain(), long_ans();
    for (int round = 0; round < 60; round++) {
        size_t count = round < 3 ? (size_t)round : 1 + random_below(COUNT);
        ans(count), range(count), chain(count);
    }
    return finish();
}
