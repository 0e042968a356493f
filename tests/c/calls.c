/* Tests every C function at one size, which -DBITS=32 or -DBITS=16 chooses: buffers of every length, every error, refused requests
   for memory, and random lists that are encoded and decoded. */
#include "world.h"

enum { KINDS = 7, WEIGHTS = 257, MOST = 1048576 };

/* The arguments of the calls. */
static struct {
    size_t count;
    word weights[WEIGHTS], rows[COUNT * KINDS], lefts[COUNT], ps[COUNT], row_lefts[COUNT], row_ps[COUNT], numbers[COUNT];
    uint32_t tree[KINDS];
    size_t symbols[COUNT], kinds;
    size_t weight_count, row_count, p_count;
    size_t lengths[CHUNKS], chunks, position_count, lower_count, range_count, chunk;
} in;

/* Fills `weights` with weights of the right sum. Each is at least 1, except for a 0 at the front on request. */
static void draw_weights(word *weights, int with_zero) {
    state left = WHOLE - KINDS + with_zero;
    for (size_t i = 0; i < KINDS; i++) {
        state share = i + 1 == KINDS ? left : random_below(left / 2 + 1);
        if (i == 0 && with_zero) { weights[i] = 0; continue; }
        weights[i] = (word)(1 + share);
        left -= share;
    }
}

static word left_of(const word *weights, size_t symbol) {
    word left = 0;
    while (symbol) left = (word)(left + weights[--symbol]);
    return left;
}

static void draw(size_t count) {
    in.count = count, in.kinds = KINDS;
    draw_weights(in.weights, 0);
    for (size_t i = 0; i < KINDS; i++) in.tree[i] = (uint32_t)random_below(1000);
    for (size_t i = 0; i < COUNT; i++) {
        word *row = in.rows + i * KINDS;
        draw_weights(row, random_below(2) == 0);
        size_t symbol = 1 + random_below(KINDS - 1);
        in.symbols[i] = symbol;
        in.lefts[i] = left_of(in.weights, symbol), in.ps[i] = in.weights[symbol];
        in.row_lefts[i] = left_of(row, symbol), in.row_ps[i] = row[symbol];
        in.numbers[i] = (word)(random_below(4) ? random_below(100) : ~random_below(3));
    }
    in.weight_count = KINDS, in.row_count = count * KINDS, in.p_count = count;
    /* Fills in chunks, some of them empty. */
    size_t left = count;
    in.chunks = in.position_count = in.lower_count = in.range_count = CHUNKS;
    for (size_t i = 0; i < CHUNKS; i++) {
        in.lengths[i] = i + 1 == CHUNKS ? left : random_below(3) ? random_below(left + 1) : 0;
        left -= in.lengths[i];
    }
}

/* ==== The calls, each on a world ==== */

#define BUFFER w->words, w->capacity, &w->len
#define TABLE in.weights, in.weight_count
#define ROWS in.rows, in.row_count, KINDS
#define PAIRS in.lefts, in.p_count, in.ps, in.count
#define ROW_PAIRS in.row_lefts, in.p_count, in.row_ps, in.count
#define GIVEN in.symbols, in.count
#define TAKEN w->symbols, in.count
#define TREE in.tree, in.kinds

static uint32_t ans_encode(struct world *w) { return C(ans_encode_reverse)(&w->head, BUFFER, TABLE, GIVEN, &w->needed); }
static uint32_t ans_encode_each(struct world *w) { return C(ans_encode_each_reverse)(&w->head, BUFFER, ROWS, GIVEN, &w->needed); }
static uint32_t ans_encode_pairs(struct world *w) { return C(ans_encode_intervals_reverse)(&w->head, BUFFER, PAIRS, &w->needed); }
static uint32_t ans_encode_row_pairs(struct world *w) { return C(ans_encode_intervals_reverse)(&w->head, BUFFER, ROW_PAIRS, &w->needed); }
static uint32_t ans_encode_singles(struct world *w) {
    uint32_t result = CONSTRICTION_DONE;
    for (size_t i = in.count; i-- > 0 && !result;)
        result = C(ans_encode_intervals_reverse)(&w->head, BUFFER, in.lefts + i, 1, in.ps + i, 1, &w->needed);
    return result;
}
static uint32_t ans_decode(struct world *w) { return C(ans_decode)(&w->head, BUFFER, TABLE, TAKEN); }
static uint32_t ans_decode_singles(struct world *w) {
    uint32_t result = CONSTRICTION_DONE;
    for (size_t i = 0; i < in.count && !result; i++) result = C(ans_decode)(&w->head, BUFFER, TABLE, w->symbols + i, 1);
    return result;
}
static uint32_t ans_decode_each(struct world *w) { return C(ans_decode_each)(&w->head, BUFFER, ROWS, TAKEN); }
static uint32_t ans_export(struct world *w) { return C(ans_into_compressed)(w->head, BUFFER, &w->needed); }
static uint32_t ans_import(struct world *w) { return C(ans_from_compressed)(w->words, w->len, &w->len, &w->head); }
static uint32_t ans_export_binary(struct world *w) { return C(ans_into_binary)(w->head, BUFFER, &w->needed); }
static uint32_t ans_import_binary(struct world *w) { return C(ans_from_binary)(w->words, w->len, &w->len, &w->head); }

static uint32_t range_encode(struct world *w) { return C(range_encode)(&w->encoder, BUFFER, TABLE, GIVEN, &w->needed); }
static uint32_t range_encode_each(struct world *w) { return C(range_encode_each)(&w->encoder, BUFFER, ROWS, GIVEN, &w->needed); }
static uint32_t range_encode_pairs(struct world *w) { return C(range_encode_intervals)(&w->encoder, BUFFER, PAIRS, &w->needed); }
static uint32_t range_encode_row_pairs(struct world *w) { return C(range_encode_intervals)(&w->encoder, BUFFER, ROW_PAIRS, &w->needed); }
static uint32_t range_encode_singles(struct world *w) {
    uint32_t result = CONSTRICTION_DONE;
    for (size_t i = 0; i < in.count && !result; i++)
        result = C(range_encode_intervals)(&w->encoder, BUFFER, in.lefts + i, 1, in.ps + i, 1, &w->needed);
    return result;
}
static uint32_t range_export(struct world *w) { return C(range_into_compressed)(&w->encoder, BUFFER, &w->needed); }
static uint32_t range_followed(struct world *w) { return C(range_into_self_delimited)(&w->encoder, BUFFER, &w->needed); }
static uint32_t range_import(struct world *w) { return C(range_from_compressed)(w->words, w->len, &w->decoder); }
static uint32_t range_decode(struct world *w) { return C(range_decode)(&w->decoder, w->words, w->len, TABLE, TAKEN); }
static uint32_t range_decode_singles(struct world *w) {
    uint32_t result = CONSTRICTION_DONE;
    for (size_t i = 0; i < in.count && !result; i++)
        result = C(range_decode)(&w->decoder, w->words, w->len, TABLE, w->symbols + i, 1);
    return result;
}
static uint32_t range_decode_each(struct world *w) { return C(range_decode_each)(&w->decoder, w->words, w->len, ROWS, TAKEN); }
static uint32_t range_maybe(struct world *w) { return C(range_maybe_exhausted)(&w->decoder, w->words, w->len, &w->maybe); }

#define INDEX w->positions, in.position_count, w->lowers, in.lower_count, w->ranges, in.range_count
#define ENTRY w->positions[in.chunk], w->lowers[in.chunk], w->ranges[in.chunk]
static uint32_t store_build(struct world *w) { return C(store_build)(BUFFER, INDEX, TABLE, GIVEN, in.lengths, in.chunks, &w->needed); }
static uint32_t store_chunk(struct world *w) { return C(store_chunk)(w->words, w->len, ENTRY, TABLE, w->symbols, in.lengths[in.chunk]); }

#define OTHER w->other, (size_t)ROOM, &w->other_len
static uint32_t chain_import(struct world *w) { return C(chain_from_compressed)(w->other, w->other_len, &w->other_len, &w->heads); }
static uint32_t chain_import_binary(struct world *w) { return C(chain_from_binary)(w->other, w->other_len, &w->other_len, &w->heads); }
static uint32_t chain_import_remainders(struct world *w) { return C(chain_from_remainders)(w->other, w->other_len, &w->other_len, &w->heads); }
static uint32_t chain_decode(struct world *w) { return C(chain_decode)(&w->heads, OTHER, BUFFER, TABLE, TAKEN, &w->needed); }
static uint32_t chain_decode_singles(struct world *w) {
    uint32_t result = CONSTRICTION_DONE;
    for (size_t i = 0; i < in.count && !result; i++)
        result = C(chain_decode)(&w->heads, OTHER, BUFFER, TABLE, w->symbols + i, 1, &w->needed);
    return result;
}
static uint32_t chain_decode_each(struct world *w) { return C(chain_decode_each)(&w->heads, OTHER, BUFFER, ROWS, TAKEN, &w->needed); }
static uint32_t chain_encode(struct world *w) { return C(chain_encode_reverse)(&w->heads, BUFFER, OTHER, TABLE, GIVEN, &w->needed); }
static uint32_t chain_encode_each(struct world *w) { return C(chain_encode_each_reverse)(&w->heads, BUFFER, OTHER, ROWS, GIVEN, &w->needed); }
static uint32_t chain_encode_pairs(struct world *w) { return C(chain_encode_intervals_reverse)(&w->heads, BUFFER, OTHER, PAIRS, &w->needed); }
static uint32_t chain_encode_row_pairs(struct world *w) { return C(chain_encode_intervals_reverse)(&w->heads, BUFFER, OTHER, ROW_PAIRS, &w->needed); }
static uint32_t chain_encode_singles(struct world *w) {
    uint32_t result = CONSTRICTION_DONE;
    for (size_t i = in.count; i-- > 0 && !result;)
        result = C(chain_encode_intervals_reverse)(&w->heads, BUFFER, OTHER, in.lefts + i, 1, in.ps + i, 1, &w->needed);
    return result;
}
static uint32_t chain_export(struct world *w) { return C(chain_into_compressed)(&w->heads, BUFFER, &w->needed); }
static uint32_t chain_export_binary(struct world *w) { return C(chain_into_binary)(&w->heads, BUFFER, &w->needed); }
static uint32_t chain_export_remainders(struct world *w) { return C(chain_into_remainders)(&w->heads, BUFFER, &w->needed); }

static uint32_t huffman_queue(struct world *w) { return C(huffman_encode_queue)(TREE, GIVEN, BUFFER, &w->needed); }
static uint32_t huffman_stack(struct world *w) { return C(huffman_encode_stack)(TREE, GIVEN, BUFFER, &w->needed); }
static uint32_t huffman_from_queue(struct world *w) { return C(huffman_decode_queue)(TREE, w->words, w->len, TAKEN); }
static uint32_t huffman_from_stack(struct world *w) { return C(huffman_decode_stack)(TREE, w->words, w->len, TAKEN); }
static uint32_t golomb_queue(struct world *w) { return C(exp_golomb_encode_queue)(in.numbers, in.count, BUFFER, &w->needed); }
static uint32_t golomb_stack(struct world *w) { return C(exp_golomb_encode_stack)(in.numbers, in.count, BUFFER, &w->needed); }
static uint32_t golomb_from_queue(struct world *w) { return C(exp_golomb_decode_queue)(w->words, w->len, w->numbers, in.count); }
static uint32_t golomb_from_stack(struct world *w) { return C(exp_golomb_decode_stack)(w->words, w->len, w->numbers, in.count); }

/* Starts at a given bit, which is the world's other_len. After an encode, len is the number of words up to that bit. */
static uint32_t up_to_bit(struct world *w, uint32_t result) {
    if (!result) w->len = (w->other_len + BITS - 1) / BITS;
    return result;
}
static uint32_t huffman_at(struct world *w) { return up_to_bit(w, C(huffman_encode_at)(TREE, GIVEN, w->words, w->capacity, &w->other_len, &w->needed)); }
static uint32_t golomb_at(struct world *w) { return up_to_bit(w, C(exp_golomb_encode_at)(in.numbers, in.count, w->words, w->capacity, &w->other_len, &w->needed)); }
static uint32_t huffman_from_at(struct world *w) { return C(huffman_decode_at)(TREE, w->words, w->len, &w->other_len, TAKEN); }
static uint32_t golomb_from_at(struct world *w) { return C(exp_golomb_decode_at)(w->words, w->len, &w->other_len, w->numbers, in.count); }

/* ==== Properties of a coder's calls ==== */

static int same_symbols(const struct world *w) { return !memcmp(w->symbols, in.symbols, in.count * sizeof(size_t)); }

/* Checks the errors of each call with models. */
static void refuses_models(const char *about, call *fixed, call *each, const struct world *start) {
    struct world w = *start;
    in.weights[0]++;
    refuses(about, fixed, &w, CONSTRICTION_WRONG_WEIGHTS);
    in.weights[0]--;
    in.weight_count = 0;
    refuses(about, fixed, &w, CONSTRICTION_WRONG_WEIGHTS);
    in.weight_count = KINDS;
    in.rows[KINDS * (in.count - 1)]++;
    refuses(about, each, &w, CONSTRICTION_WRONG_WEIGHTS);
    in.rows[KINDS * (in.count - 1)]--;
    in.row_count--;
    refuses(about, each, &w, CONSTRICTION_WRONG_LENGTH);
    in.row_count++;
    w.len = w.capacity + 1;
    refuses(about, fixed, &w, CONSTRICTION_WRONG_LENGTH);
    refuses(about, each, &w, CONSTRICTION_WRONG_LENGTH);
}

static void refuses_symbols(const char *about, call *fixed, call *each, call *pairs, const struct world *start) {
    struct world w = *start;
    refuses_models(about, fixed, each, start);
    size_t kept = in.symbols[in.count / 2];
    word *row = in.rows + in.count / 2 * KINDS, other = row[kept];
    in.symbols[in.count / 2] = KINDS;
    refuses(about, fixed, &w, CONSTRICTION_IMPOSSIBLE_SYMBOL);
    refuses(about, each, &w, CONSTRICTION_IMPOSSIBLE_SYMBOL);
    in.symbols[in.count / 2] = SIZE_MAX;
    refuses(about, fixed, &w, CONSTRICTION_IMPOSSIBLE_SYMBOL);
    in.symbols[in.count / 2] = kept;
    row[kept] = 0, row[kept == 1 ? 2 : 1] = (word)(row[kept == 1 ? 2 : 1] + other);
    refuses(about, each, &w, CONSTRICTION_IMPOSSIBLE_SYMBOL);
    row[kept] = other, row[kept == 1 ? 2 : 1] = (word)(row[kept == 1 ? 2 : 1] - other);
    word p = in.ps[0], left = in.lefts[0];
    in.ps[0] = 0;
    refuses(about, pairs, &w, CONSTRICTION_WRONG_INTERVAL);
    in.ps[0] = (word)(WHOLE - left + 1);
    refuses(about, pairs, &w, CONSTRICTION_WRONG_INTERVAL);
    in.ps[0] = p, in.lefts[0] = (word)WHOLE;
    refuses(about, pairs, &w, CONSTRICTION_WRONG_INTERVAL);
    in.lefts[0] = left, in.p_count--;
    refuses(about, pairs, &w, CONSTRICTION_WRONG_LENGTH);
    in.p_count++;
    w.len = w.capacity + 1;
    refuses(about, pairs, &w, CONSTRICTION_WRONG_LENGTH);
}

/* ==== Calls on lists of symbols of 8 and 16 bits, which are converted from and to size_t ==== */

#define NARROW(type, kind, put_ans, take_ans, put_range, take_range, put_chain, take_chain) \
    static const type *kind##_given(void) { \
        static type list[COUNT]; \
        for (size_t i = 0; i < COUNT; i++) list[i] = (type)in.symbols[i]; \
        return list; \
    } \
    static type kind##_taken[COUNT]; \
    static type *kind##_places(void) { return memset(kind##_taken, 77, sizeof kind##_taken); } \
    static uint32_t kind##_back(struct world *w, uint32_t result) { \
        if (!result) for (size_t i = 0; i < in.count; i++) w->symbols[i] = kind##_taken[i]; \
        for (size_t i = result ? 0 : in.count; i < COUNT; i++) CHECK("places stay", kind##_taken[i] == (type)0x4d4d); \
        return result; \
    } \
    static uint32_t ans_encode_##kind(struct world *w) { \
        return put_ans(&w->head, BUFFER, TABLE, kind##_given(), in.count, &w->needed); \
    } \
    static uint32_t ans_decode_##kind(struct world *w) { \
        return kind##_back(w, take_ans(&w->head, BUFFER, TABLE, kind##_places(), in.count)); \
    } \
    static uint32_t range_encode_##kind(struct world *w) { \
        return put_range(&w->encoder, BUFFER, TABLE, kind##_given(), in.count, &w->needed); \
    } \
    static uint32_t range_decode_##kind(struct world *w) { \
        return kind##_back(w, take_range(&w->decoder, w->words, w->len, TABLE, kind##_places(), in.count)); \
    } \
    static uint32_t chain_encode_##kind(struct world *w) { \
        return put_chain(&w->heads, BUFFER, OTHER, TABLE, kind##_given(), in.count, &w->needed); \
    } \
    static uint32_t chain_decode_##kind(struct world *w) { \
        return kind##_back(w, take_chain(&w->heads, OTHER, BUFFER, TABLE, kind##_places(), in.count, &w->needed)); \
    }

NARROW(uint8_t, bytes, C(ans_encode_bytes_reverse), C(ans_decode_bytes), C(range_encode_bytes), C(range_decode_bytes),
       C(chain_encode_bytes_reverse), C(chain_decode_bytes))
NARROW(uint16_t, shorts, C(ans_encode_shorts_reverse), C(ans_decode_shorts), C(range_encode_shorts), C(range_decode_shorts),
       C(chain_encode_shorts_reverse), C(chain_decode_shorts))

/* Compares a call on narrow symbols with the call on symbols of size_t, from the same world. */
static void narrow_encode(const char *about, call *wide, call *narrow, const struct world *start, int keeps) {
    struct world w = *start;
    same(about, wide, narrow, start);
    every_length(about, narrow, start, keeps);
    refused_memory(about, narrow, start);
    w.len = w.capacity + 1;
    refuses_without_memory(about, narrow, &w, CONSTRICTION_WRONG_LENGTH);
    w = *start;
    in.weights[0]++;
    refuses_without_memory(about, narrow, &w, CONSTRICTION_WRONG_WEIGHTS);
    in.weights[0]--;
    if (!in.count) return;
    size_t kept = in.symbols[in.count / 2];
    in.symbols[in.count / 2] = KINDS;
    refuses_without_memory(about, narrow, &w, CONSTRICTION_IMPOSSIBLE_SYMBOL);
    in.symbols[in.count / 2] = kept;
}

static void narrow_decode(const char *about, call *wide, call *narrow, int bits, const struct world *start) {
    struct world w = *start;
    same(about, wide, narrow, start);
    refused_memory(about, narrow, start);
    in.weights[0]++;
    refuses_without_memory(about, narrow, &w, CONSTRICTION_WRONG_WEIGHTS);
    in.weights[0]--;
    /* As many weights as a byte has values, and one more. */
    size_t kinds = in.weight_count;
    in.weight_count = 256;
    same(about, wide, narrow, start);
    in.weight_count = 257;
    if (bits == 8) refuses_without_memory(about, narrow, &w, CONSTRICTION_WRONG_LENGTH);
    else same(about, wide, narrow, start);
    in.weight_count = kinds;
}

static void narrow(size_t count) {
    call *const wide[] = {ans_encode, range_encode, chain_encode, ans_decode, range_decode, chain_decode};
    call *const narrow[2][6] = {
        {ans_encode_bytes, range_encode_bytes, chain_encode_bytes, ans_decode_bytes, range_decode_bytes, chain_decode_bytes},
        {ans_encode_shorts, range_encode_shorts, chain_encode_shorts, ans_decode_shorts, range_decode_shorts, chain_decode_shorts}};
    struct world start = fresh(), coded[3];
    draw(count);
    for (size_t i = 0; i < 3; i++) coded[i] = start;
    done("narrow: encode", ans_encode, &coded[0]), done("narrow: encode", range_encode, &coded[1]);
    done("narrow: export", range_export, &coded[1]), done("narrow: import", range_import, &coded[1]);
    coded[2].other_len = ROOM;
    for (size_t i = 0; i < 2; i++) {
        narrow_encode("narrow: ANS, encode", wide[0], narrow[i][0], &start, BEHIND);
        narrow_encode("narrow: range, encode", wide[1], narrow[i][1], &start, BEHIND_HELD);
        for (size_t j = 0; j < 3; j++) narrow_decode("narrow: decode", wide[3 + j], narrow[i][3 + j], i ? 16 : 8, &coded[j]);
        /* The chain coder encodes the symbols that it decoded. */
        struct world w = coded[2];
        done("narrow: chain, decode", chain_decode, &w);
        memcpy(in.symbols, w.symbols, sizeof in.symbols);
        struct world back = w;
        memcpy(back.other, w.words, sizeof back.other), back.other_len = w.len;
        memcpy(back.words, w.other, sizeof back.words), back.len = w.other_len;
        narrow_encode("narrow: chain, encode", wide[2], narrow[i][2], &back, BEHIND);
    }
}

/* ==== The coders ==== */

static struct world ans_start(size_t count) {
    struct world w = fresh();
    draw(count);
    w.len = 3, w.words[2] = 7;
    done("ANS: an import", ans_import, &w);
    return w;
}

static void ans(size_t count) {
    struct world start = ans_start(count), w = start;
    every_length("ANS: encode", ans_encode, &start, BEHIND);
    every_length("ANS: encode under rows", ans_encode_each, &start, BEHIND);
    every_length("ANS: encode by intervals", ans_encode_pairs, &start, BEHIND);
    every_length("ANS: export", ans_export, &start, BEHIND);
    refused_memory("ANS: encode, memory", ans_encode, &start);
    refused_memory("ANS: encode under rows, memory", ans_encode_each, &start);
    refused_memory("ANS: encode by intervals, memory", ans_encode_pairs, &start);
    refused_memory("ANS: export, memory", ans_export, &start);
    same("ANS: intervals", ans_encode, ans_encode_pairs, &start);
    same("ANS: intervals, one a call", ans_encode, ans_encode_singles, &start);
    same("ANS: intervals of rows", ans_encode_each, ans_encode_row_pairs, &start);

    done("ANS: encode", ans_encode, &w);
    refused_memory("ANS: decode, memory", ans_decode, &w);
    same("ANS: decode, one a call", ans_decode, ans_decode_singles, &w);
    w.capacity = w.len;
    done("ANS: decode", ans_decode, &w);
    CHECK("ANS: there and back", same_symbols(&w) && w.head == start.head && w.len == start.len);

    w = start;
    done("ANS: encode under rows", ans_encode_each, &w);
    done("ANS: export", ans_export, &w);
    done("ANS: import", ans_import, &w);
    refused_memory("ANS: decode under rows, memory", ans_decode_each, &w);
    done("ANS: decode under rows", ans_decode_each, &w);
    CHECK("ANS: rows there and back", same_symbols(&w) && w.head == start.head && w.len == start.len);

    w = fresh(), w.len = ROOM / 2, w.words[w.len - 1] = 0;
    struct world binary = w;
    done("ANS: any words", ans_import_binary, &w);
    done("ANS: decode any words", ans_decode, &w);
    size_t symbols[COUNT];
    memcpy(symbols, in.symbols, sizeof symbols), memcpy(in.symbols, w.symbols, sizeof symbols);
    done("ANS: encode what they gave", ans_encode, &w);
    memcpy(in.symbols, symbols, sizeof symbols);
    every_length("ANS: export of any words", ans_export_binary, &w, BEHIND);
    done("ANS: export of any words", ans_export_binary, &w);
    CHECK("ANS: any words come back", w.len == binary.len && !memcmp(w.words, binary.words, sizeof w.words));
    refuses("ANS: a zero word", ans_import, &binary, CONSTRICTION_INVALID_DATA);
    w.head = 0;
    refuses("ANS: no binary form", ans_export_binary, &w, CONSTRICTION_INVALID_DATA);
    w.head = 3;
    refuses("ANS: no whole words", ans_export_binary, &w, CONSTRICTION_INVALID_DATA);

    if (count) {
        refuses_symbols("ANS: encode refuses", ans_encode, ans_encode_each, ans_encode_pairs, &start);
        refuses_models("ANS: decode refuses", ans_decode, ans_decode_each, &start);
    }
}

static void range(size_t count) {
    struct world start = fresh(), w;
    draw(count);
    done("range: symbols before", range_encode, &start);
    draw(count);
    every_length("range: encode", range_encode, &start, BEHIND_HELD);
    every_length("range: encode under rows", range_encode_each, &start, BEHIND_HELD);
    every_length("range: encode by intervals", range_encode_pairs, &start, BEHIND_HELD);
    every_length("range: export", range_export, &start, BEHIND);
    refused_memory("range: encode, memory", range_encode, &start);
    refused_memory("range: encode under rows, memory", range_encode_each, &start);
    refused_memory("range: encode by intervals, memory", range_encode_pairs, &start);
    refused_memory("range: export, memory", range_export, &start);
    every_length("range: export that holds whatever follows", range_followed, &start, BEHIND);
    refused_memory("range: export that holds whatever follows, memory", range_followed, &start);
    same("range: both exports", range_export, range_followed, &start);
    same("range: intervals", range_encode, range_encode_pairs, &start);
    same("range: intervals, one a call", range_encode, range_encode_singles, &start);
    same("range: intervals of rows", range_encode_each, range_encode_row_pairs, &start);

    w = fresh();
    done("range: encode", range_encode, &w);
    struct C(range_encoder_state) between = w.encoder;
    size_t pos = w.len + between.held;
    done("range: encode under rows", range_encode_each, &w);
    done("range: export", range_export, &w);
    done("range: import", range_import, &w);
    if (w.len > 4) {
        done("range: not exhausted", range_maybe, &w);
        CHECK("range: not exhausted", w.maybe == 0);
    }
    refused_memory("range: decode, memory", range_decode, &w);
    same("range: decode, one a call", range_decode, range_decode_singles, &w);
    done("range: decode", range_decode, &w);
    CHECK("range: there and back", same_symbols(&w));
    refused_memory("range: decode under rows, memory", range_decode_each, &w);
    done("range: decode under rows", range_decode_each, &w);
    CHECK("range: rows there and back", same_symbols(&w));
    done("range: exhausted", range_maybe, &w);
    CHECK("range: exhausted", w.maybe == 1);
    CHECK("range: seek", C(range_seek)(&w.decoder, w.words, w.len, pos, between.lower, between.range) == CONSTRICTION_DONE);
    memset(w.symbols, 0, sizeof w.symbols);
    done("range: decode after a seek", range_decode_each, &w);
    CHECK("range: what was encoded after the position", same_symbols(&w));

    struct world old = w;
    CHECK("range: seek past the end",
          C(range_seek)(&w.decoder, w.words, w.len, w.len + 1, between.lower, between.range) != CONSTRICTION_DONE && equal(&w, &old));
    CHECK("range: seek to no interval",
          C(range_seek)(&w.decoder, w.words, w.len, 0, 0, 1) == CONSTRICTION_INVALID_DATA && equal(&w, &old));

    w = fresh(), w.len = 2, w.words[0] = w.words[1] = (word)-1;
    done("range: import of no encoder's words", range_import, &w);
    if (count) {
        refuses("range: no encoder's words", range_decode, &w, CONSTRICTION_INVALID_DATA);
        refuses("range: no encoder's words, under rows", range_decode_each, &w, CONSTRICTION_INVALID_DATA);
    }
    w.decoder.pos = w.len + 1;
    refuses("range: a position past the end", range_maybe, &w, CONSTRICTION_WRONG_LENGTH);
    refuses("range: decode past the end", range_decode, &w, CONSTRICTION_WRONG_LENGTH);
    w.decoder.pos = 0, w.decoder.range = 1;
    refuses("range: a decoder that is none", range_decode, &w, CONSTRICTION_INVALID_DATA);
    w.encoder.range = 1;
    refuses("range: an encoder that is none", range_encode, &w, CONSTRICTION_INVALID_DATA);
    refuses("range: export of none", range_export, &w, CONSTRICTION_INVALID_DATA);
    w.encoder.range = (state)-1, w.encoder.lower = 1;
    refuses("range: an interval past the end", range_encode, &w, CONSTRICTION_INVALID_DATA);

    if (count) {
        refuses_symbols("range: encode refuses", range_encode, range_encode_each, range_encode_pairs, &start);
        size_t kept = in.symbols[0];
        in.symbols[0] = KINDS;
        refuses_without_memory("range: an impossible symbol, memory", range_encode, &start, CONSTRICTION_IMPOSSIBLE_SYMBOL);
        refuses_without_memory("range: an impossible symbol under rows, memory", range_encode_each, &start, CONSTRICTION_IMPOSSIBLE_SYMBOL);
        in.symbols[0] = kept;
        w = fresh();
        in.weights[0]++;
        refuses("range: decode refuses", range_decode, &w, CONSTRICTION_WRONG_WEIGHTS);
        in.weights[0]--, in.row_count--;
        refuses("range: decode refuses", range_decode_each, &w, CONSTRICTION_WRONG_LENGTH);
        in.row_count++;
    }
}

/* Each chunk has the symbols at its place in the list. A decoder at its position returns the same symbols. */
static void looks_up(const struct world *built, size_t chunk) {
    struct world w = *built;
    size_t begins = 0, count = in.lengths[chunk], again[COUNT];
    for (size_t i = 0; i < chunk; i++) begins += in.lengths[i];
    in.chunk = chunk;
    refused_memory("store: a chunk, memory", store_chunk, &w);
    done("store: a chunk", store_chunk, &w);
    CHECK("store: a chunk", !memcmp(w.symbols, in.symbols + begins, count * sizeof(size_t)));
    CHECK("store: no symbol behind a chunk", !memcmp(w.symbols + count, built->symbols + count, (COUNT - count) * sizeof(size_t)));
    /* A decode of no symbols reads nothing. Words that encode no symbol may belong to no decoder. */
    if (!count) return;
    CHECK("store: a position", C(range_seek)(&w.decoder, w.words, w.len, w.positions[chunk], w.lowers[chunk], w.ranges[chunk]) == CONSTRICTION_DONE
          && C(range_decode)(&w.decoder, w.words, w.len, TABLE, again, count) == CONSTRICTION_DONE && !memcmp(again, w.symbols, count * sizeof(size_t)));
}

/* The words and the index are those of one encoder that encodes the chunks in order. */
static void as_one_encoder(const struct world *built) {
    struct world w = fresh();
    size_t begins = 0;
    for (size_t i = 0; i < CHUNKS; begins += in.lengths[i++]) {
        CHECK("store: an entry", built->positions[i] == w.len + w.encoder.held && built->lowers[i] == w.encoder.lower && built->ranges[i] == w.encoder.range);
        CHECK("store: a chunk is encoded", C(range_encode)(&w.encoder, w.words, w.capacity, &w.len, TABLE, in.symbols + begins, in.lengths[i], &w.needed) == CONSTRICTION_DONE);
    }
    done("store: the seal", range_followed, &w);
    CHECK("store: the words", w.len == built->len && !memcmp(w.words, built->words, w.len * sizeof(word)));
}

/* Checks the errors of a build and their order: lengths, then weights, then symbols. */
static void refuses_build(const struct world *start) {
    size_t *const counts[] = {&in.position_count, &in.lower_count, &in.range_count, &in.chunks, &in.lengths[0]};
    struct world w = *start;
    size_t kept = in.symbols[0];
    in.symbols[0] = KINDS;
    refuses_without_memory("store: an unknown symbol", store_build, &w, CONSTRICTION_IMPOSSIBLE_SYMBOL);
    in.weights[0]++;
    refuses_without_memory("store: wrong weights", store_build, &w, CONSTRICTION_WRONG_WEIGHTS);
    for (size_t i = 0; i < sizeof counts / sizeof *counts; i++) {
        (*counts[i])--;
        refuses_without_memory("store: wrong lengths", store_build, &w, CONSTRICTION_WRONG_LENGTH);
        (*counts[i])++;
    }
    in.lengths[0]++;
    refuses("store: lengths of more symbols", store_build, &w, CONSTRICTION_WRONG_LENGTH);
    in.lengths[0]--;
    size_t last = in.lengths[CHUNKS - 1];
    in.lengths[CHUNKS - 1] = SIZE_MAX;
    refuses("store: lengths past any", store_build, &w, CONSTRICTION_WRONG_LENGTH);
    in.lengths[CHUNKS - 1] = last;
    in.weights[0]--;
    in.symbols[0] = kept;
}

/* Checks the errors of a look-up. */
static void refuses_chunk(const struct world *built) {
    struct world w = *built;
    in.chunk = 0;
    w.positions[0] = w.len + 1, w.ranges[0] = 1, in.weights[0]++;
    refuses_without_memory("store: a position past the words", store_chunk, &w, CONSTRICTION_WRONG_LENGTH);
    w.positions[0] = w.len;
    refuses_without_memory("store: wrong weights", store_chunk, &w, CONSTRICTION_WRONG_WEIGHTS);
    in.weights[0]--;
    refuses_without_memory("store: a short interval", store_chunk, &w, CONSTRICTION_INVALID_DATA);
    w.ranges[0] = (state)1 << (8 * sizeof(state) - BITS), w.lowers[0] = 1;
    if (in.lengths[0]) {
        refuses("store: no chunk", store_chunk, &w, CONSTRICTION_INVALID_DATA);
    } else {
        done("store: no symbols", store_chunk, &w);
    }
    w.lowers[0] = 0, w.ranges[0] = (state)-1, w.len = 0, w.positions[0] = 0;
    done("store: behind the words are zeros", store_chunk, &w);
}

/* The greatest number of symbols of a store, and one more. */
static void most_symbols(void) {
    size_t *symbols = calloc(MOST + 1, sizeof *symbols), lengths[2] = {MOST - 1, 1}, positions[2], len = 0, needed = 0, last = 7;
    word *words = malloc((MOST + 2) * sizeof *words), weights[2] = {(word)(WHOLE / 2), (word)(WHOLE / 2)};
    state lowers[2], ranges[2];
    if (!symbols || !words) {
        CHECK("store: memory for the test", 0);
        return;
    }
    symbols[MOST - 1] = 1;
    CHECK("store: the most symbols", C(store_build)(words, MOST + 2, &len, positions, 2, lowers, 2, ranges, 2, weights, 2, symbols, MOST, lengths, 2, &needed) == CONSTRICTION_DONE
          && len == MOST / BITS + 1 && C(store_chunk)(words, len, positions[1], lowers[1], ranges[1], weights, 2, &last, 1) == CONSTRICTION_DONE && last == 1);
    lengths[1] = 2;
    CHECK("store: one symbol too many", C(store_build)(words, MOST + 2, &len, positions, 2, lowers, 2, ranges, 2, weights, 2, symbols, MOST + 1, lengths, 2, &needed) == CONSTRICTION_WRONG_LENGTH);
    free(symbols), free(words);
}

static void store(size_t count) {
    struct world start = fresh(), w;
    draw(count);
    every_length("store: build", store_build, &start, FROM_FRONT);
    refused_memory("store: build, memory", store_build, &start);
    if (count) refuses_build(&start);
    w = start;
    done("store: build", store_build, &w);
    as_one_encoder(&w);
    for (size_t i = 0; i < CHUNKS; i++) looks_up(&w, i);
    for (size_t i = CHUNKS; i > 0; i--) looks_up(&w, i - 1);
    /* The symbols come back, whatever words follow. */
    struct world longer = w;
    for (size_t i = w.len; i < ROOM; i++) longer.words[i] = (word)-1;
    longer.len = ROOM;
    for (size_t i = 0; i < CHUNKS; i++) looks_up(&longer, i);
    if (count) refuses_chunk(&w);
}

/* A call whose state has this number of pending words requests at most this much memory, and returns the number of words needed. */
static void holds(call *run, size_t held, size_t len, size_t needed, unsigned long most) {
    struct world w = fresh();
    w.encoder.lower = (state)-1, w.encoder.range = (state)1 << (8 * sizeof(state) - BITS);
    w.encoder.held = held, w.encoder.first = 0, w.len = len;
    requests = 0;
    refuses("range: many words held", run, &w, CONSTRICTION_NO_SPACE);
    uint32_t result = run(&w);
    CHECK("range: many words held, needed", result == CONSTRICTION_NO_SPACE && w.needed == needed);
    CHECK("range: many words held, memory", requests <= most);
}

/* A caller's state may have any number of pending words, even more than there are countable bits. The call checks the room before it
   requests memory. */
static void great_held(void) {
    call *const exports[] = {range_export, range_followed};
    call *const encodes[] = {range_encode, range_encode_each, range_encode_pairs, range_encode_row_pairs};
    size_t most = SIZE_MAX - 17;
    draw(3);
    for (size_t i = 0; i < 2; i++) {
        holds(exports[i], (size_t)1 << 28, 0, ((size_t)1 << 28) + 2, 0);
        holds(exports[i], (size_t)1 << 61, 5, ((size_t)1 << 61) + 7, 0);
        holds(exports[i], most, 5, most + 7, 0);
        holds(exports[i], most, 40, SIZE_MAX, 0);
    }
    for (size_t i = 0; i < 4; i++) {
        holds(encodes[i], ROOM + 1, 0, ROOM + 1, i < 2 ? 0 : 8);
        holds(encodes[i], (size_t)1 << 28, 4, ((size_t)1 << 28) + 4, i < 2 ? 0 : 8);
        holds(encodes[i], (size_t)1 << 61, 4, ((size_t)1 << 61) + 4, i < 2 ? 0 : 8);
        holds(encodes[i], most - 3, 30, SIZE_MAX, i < 2 ? 0 : 8);
    }
}

/* A pointer to an empty list may be null. */
static void nulls(void) {
    state head = 0;
    size_t len = 0, other_len = 0, needed = 0;
    uint32_t maybe;
    struct C(range_encoder_state) encoder;
    struct C(range_decoder_state) decoder;
    struct world w = fresh();
    draw(1);
    CHECK("null: ANS", !C(ans_encode_reverse)(&head, NULL, 0, &len, TABLE, NULL, 0, &needed));
    CHECK("null: ANS", !C(ans_encode_each_reverse)(&head, NULL, 0, &len, NULL, 0, KINDS, NULL, 0, &needed));
    CHECK("null: ANS", !C(ans_encode_intervals_reverse)(&head, NULL, 0, &len, NULL, 0, NULL, 0, &needed));
    CHECK("null: ANS", !C(ans_decode)(&head, NULL, 0, &len, TABLE, NULL, 0) && !C(ans_decode)(&head, NULL, 0, &len, TABLE, w.symbols, 1));
    CHECK("null: ANS", !C(ans_decode_each)(&head, NULL, 0, &len, NULL, 0, KINDS, NULL, 0));
    CHECK("null: ANS", !C(ans_from_compressed)(NULL, 0, &len, &head) && !C(ans_into_compressed)(head, NULL, 0, &len, &needed));
    CHECK("null: ANS", !C(ans_from_binary)(NULL, 0, &len, &head) && !C(ans_into_binary)(head, NULL, 0, &len, &needed));
    CHECK("null: ANS, no weights", C(ans_decode)(&head, NULL, 0, &len, NULL, 0, NULL, 0) == CONSTRICTION_WRONG_WEIGHTS);

    CHECK("null: range", !C(range_encoder)(&encoder) && !C(range_encode)(&encoder, NULL, 0, &len, TABLE, NULL, 0, &needed));
    CHECK("null: range", !C(range_encode_each)(&encoder, NULL, 0, &len, NULL, 0, KINDS, NULL, 0, &needed));
    CHECK("null: range", !C(range_encode_intervals)(&encoder, NULL, 0, &len, NULL, 0, NULL, 0, &needed));
    CHECK("null: range", !C(range_into_compressed)(&encoder, NULL, 0, &len, &needed));
    CHECK("null: range", !C(range_into_self_delimited)(&encoder, NULL, 0, &len, &needed));
    CHECK("null: range", !C(range_from_compressed)(NULL, 0, &decoder) && !C(range_decode)(&decoder, NULL, 0, TABLE, NULL, 0));
    CHECK("null: range", !C(range_decode_each)(&decoder, NULL, 0, NULL, 0, KINDS, NULL, 0));
    CHECK("null: range", !C(range_maybe_exhausted)(&decoder, NULL, 0, &maybe) && !C(range_seek)(&decoder, NULL, 0, 0, 0, (state)-1));

    CHECK("null: store", !C(store_build)(NULL, 0, &len, NULL, 0, NULL, 0, NULL, 0, TABLE, NULL, 0, NULL, 0, &needed) && len == 0);
    CHECK("null: store", !C(store_chunk)(NULL, 0, 0, 0, (state)-1, TABLE, NULL, 0) && !C(store_chunk)(NULL, 0, 0, 0, (state)-1, TABLE, w.symbols, 1));
    CHECK("null: store, no weights", C(store_chunk)(NULL, 0, 0, 0, (state)-1, NULL, 0, NULL, 0) == CONSTRICTION_WRONG_WEIGHTS);

    CHECK("null: chain", !C(chain_decode)(&w.heads, NULL, 0, &len, NULL, 0, &other_len, TABLE, NULL, 0, &needed));
    CHECK("null: chain", !C(chain_decode_each)(&w.heads, NULL, 0, &len, NULL, 0, &other_len, NULL, 0, KINDS, NULL, 0, &needed));
    CHECK("null: chain", !C(chain_encode_reverse)(&w.heads, NULL, 0, &len, NULL, 0, &other_len, TABLE, NULL, 0, &needed));
    CHECK("null: chain", !C(chain_encode_each_reverse)(&w.heads, NULL, 0, &len, NULL, 0, &other_len, NULL, 0, KINDS, NULL, 0, &needed));
    CHECK("null: chain", C(chain_from_compressed)(NULL, 0, &len, &w.heads) == CONSTRICTION_INVALID_DATA);
    CHECK("null: codewords", !C(exp_golomb_encode_queue)(NULL, 0, NULL, 0, &len, &needed) && len == 0);
    CHECK("null: codewords", !C(exp_golomb_decode_queue)(NULL, 0, NULL, 0));
    CHECK("null: codewords", !C(huffman_encode_queue)(TREE, NULL, 0, NULL, 0, &len, &needed) && !C(huffman_decode_queue)(TREE, NULL, 0, NULL, 0));
    CHECK("null: codewords, no weights", C(huffman_decode_queue)(NULL, 0, NULL, 0, NULL, 0) == CONSTRICTION_WRONG_WEIGHTS);
    CHECK("null: from a bit", !C(huffman_encode_at)(TREE, NULL, 0, NULL, 0, &len, &needed) && !C(huffman_decode_at)(TREE, NULL, 0, &len, NULL, 0));
    CHECK("null: from a bit", !C(exp_golomb_encode_at)(NULL, 0, NULL, 0, &len, &needed) && !C(exp_golomb_decode_at)(NULL, 0, &len, NULL, 0) && !len);
}

static void texts(void) {
    for (uint32_t i = 0; i < RESULTS; i++)
        for (uint32_t j = 0; j <= RESULTS; j++)
            CHECK("a text for each result", !strcmp(constriction_result_text(i), constriction_result_text(j)) == (i == j));
    CHECK("the version", constriction_version() == CONSTRICTION_VERSION_NUMBER && CONSTRICTION_VERSION_NUMBER == 500);
}

static void chain(size_t count) {
    struct world start = fresh(), w;
    draw(count);
    for (size_t i = 0; i < ROOM; i++) start.other[i] = (word)random_below((uint64_t)1 << BITS);
    start.other_len = ROOM, start.other[ROOM - 1] |= 1;
    done("chain: import", chain_import, &start);
    every_length("chain: decode", chain_decode, &start, BEHIND);
    same("chain: decode, one a call", chain_decode, chain_decode_singles, &start);
    every_length("chain: decode under rows", chain_decode_each, &start, BEHIND);
    refused_memory("chain: decode, memory", chain_decode, &start);
    refused_memory("chain: decode under rows, memory", chain_decode_each, &start);
    every_length("chain: export", chain_export, &start, BEHIND);
    refused_memory("chain: export, memory", chain_export, &start);

    for (int each = 0; each < 2; each++) {
        struct world kept = start;
        kept.len = 2;
        w = kept;
        done("chain: decode", each ? chain_decode_each : chain_decode, &w);
        every_length("chain: export of remainders", chain_export_remainders, &w, BEHIND);
        refused_memory("chain: export of remainders, memory", chain_export_remainders, &w);

        /* Swaps the two sides, so that an encode writes after the words that were left. */
        struct world back = w;
        memcpy(back.words, w.other, sizeof back.words), memcpy(back.other, w.words, sizeof back.other);
        back.len = w.other_len, back.other_len = w.len;
        memcpy(in.symbols, w.symbols, sizeof in.symbols);
        for (size_t i = 0; i < in.count; i++) {
            in.lefts[i] = left_of(in.weights, in.symbols[i]), in.ps[i] = in.weights[in.symbols[i]];
            in.row_lefts[i] = left_of(in.rows + i * KINDS, in.symbols[i]), in.row_ps[i] = in.rows[i * KINDS + in.symbols[i]];
        }
        call *encode = each ? chain_encode_each : chain_encode;
        same("chain: intervals", encode, each ? chain_encode_row_pairs : chain_encode_pairs, &back);
        if (!each) same("chain: intervals, one a call", encode, chain_encode_singles, &back);
        every_length("chain: encode", encode, &back, BEHIND);
        every_length("chain: encode by intervals", each ? chain_encode_row_pairs : chain_encode_pairs, &back, BEHIND);
        refused_memory("chain: encode, memory", encode, &back);
        if (count) refuses_symbols("chain: encode refuses", chain_encode, chain_encode_each, chain_encode_pairs, &back);
        done("chain: encode", encode, &back);
        CHECK("chain: there and back", back.len == start.other_len && back.other_len == 2
              && back.heads.remainders == start.heads.remainders && back.heads.compressed == start.heads.compressed
              && !memcmp(back.words, start.other, back.len * sizeof(word)));
    }
    if (count) refuses_models("chain: decode refuses", chain_decode, chain_decode_each, &start);

    w = start, w.other_len = 0;
    if (count > 2) {
        refuses("chain: out of compressed data", chain_decode, &w, CONSTRICTION_OUT_OF_DATA);
        refuses("chain: out of compressed data under rows", chain_decode_each, &w, CONSTRICTION_OUT_OF_DATA);
    }
    w.heads.remainders = (state)1 << (8 * sizeof(state) - BITS - PRECISION);
    if (count) {
        in.ps[count - 1] = (word)WHOLE, in.lefts[count - 1] = 0;
        refuses("chain: out of remainders", chain_encode_pairs, &w, CONSTRICTION_OUT_OF_DATA);
    }
    refuses("chain: no words", chain_import, &w, CONSTRICTION_INVALID_DATA);
    refuses("chain: no words, binary", chain_import_binary, &w, CONSTRICTION_INVALID_DATA);
    refuses("chain: no words, remainders", chain_import_remainders, &w, CONSTRICTION_INVALID_DATA);
    w.other_len = 2, w.other[1] = 0;
    refuses("chain: a zero word", chain_import, &w, CONSTRICTION_INVALID_DATA);
    refuses("chain: a zero word, remainders", chain_import_remainders, &w, CONSTRICTION_INVALID_DATA);
    w.heads.remainders = 0;
    refuses("chain: heads that are none", chain_decode, &w, CONSTRICTION_INVALID_DATA);
    refuses("chain: encode by none", chain_encode, &w, CONSTRICTION_INVALID_DATA);
    refuses("chain: export of none", chain_export_remainders, &w, CONSTRICTION_INVALID_DATA);
    w = start, w.heads.compressed = 2;
    refuses("chain: bits left over", chain_export, &w, CONSTRICTION_INVALID_DATA);
    refuses("chain: bits left over, binary", chain_export_binary, &w, CONSTRICTION_INVALID_DATA);

    /* Exports and imports the coder. */
    w = start;
    done("chain: decode", chain_decode, &w);
    done("chain: export of remainders", chain_export_remainders, &w);
    struct world back = fresh();
    memcpy(back.other, w.words, sizeof back.other), back.other_len = w.len;
    done("chain: import of remainders", chain_import_remainders, &back);
    CHECK("chain: the same heads", back.heads.remainders == w.heads.remainders && back.heads.compressed == w.heads.compressed);
    memcpy(in.symbols, w.symbols, sizeof in.symbols);
    memcpy(back.words, w.other, sizeof back.words), back.len = w.other_len;
    done("chain: encode", chain_encode, &back);
    done("chain: export", chain_export, &back);
    CHECK("chain: the words come back", back.len == ROOM && !memcmp(back.words, start.other, sizeof back.words));

    w = start, w.other_len = ROOM, w.other[ROOM - 1] = 0;
    done("chain: any words", chain_import_binary, &w);
    memcpy(w.words, w.other, sizeof w.words), w.len = w.other_len, w.other_len = 0;
    every_length("chain: export of any words", chain_export_binary, &w, BEHIND);
    done("chain: export of any words", chain_export_binary, &w);
    CHECK("chain: any words come back", w.len == ROOM && !memcmp(w.words, w.other, sizeof w.words));
}

static void codewords(size_t count) {
    struct world start = fresh(), w;
    draw(count);
    call *const encodes[] = {huffman_queue, huffman_stack, golomb_queue, golomb_stack};
    call *const decodes[] = {huffman_from_queue, huffman_from_stack, golomb_from_queue, golomb_from_stack};
    for (size_t i = 0; i < 4; i++) {
        every_length("codewords: encode", encodes[i], &start, FROM_FRONT);
        refused_memory("codewords: encode, memory", encodes[i], &start);
        w = start;
        done("codewords: encode", encodes[i], &w);
        refused_memory("codewords: decode, memory", decodes[i], &w);
        done("codewords: decode", decodes[i], &w);
        CHECK("codewords: there and back", i < 2 ? same_symbols(&w) : !memcmp(w.numbers, in.numbers, count * sizeof(word)));
        w.len = 0;
        if (count) refuses("codewords: no words", decodes[i], &w, CONSTRICTION_OUT_OF_DATA);
        w = start, w.len = 2, w.words[0] = 7, w.words[1] = 0;
        if (i % 2) refuses("codewords: a stack without its last bit", decodes[i], &w, CONSTRICTION_INVALID_DATA);
    }
    w = start;
    w.len = 4, w.words[0] = w.words[1] = w.words[2] = w.words[3] = 0;
    if (count) refuses("codewords: zeros alone", golomb_from_queue, &w, CONSTRICTION_INVALID_DATA);
    for (size_t i = 0; i < 2; i++) {
        w = start;
        in.kinds = 0;
        refuses("codewords: no weights", encodes[i], &w, CONSTRICTION_WRONG_WEIGHTS);
        refuses("codewords: no weights", decodes[i], &w, CONSTRICTION_WRONG_WEIGHTS);
        in.kinds = KINDS;
        uint32_t kept = in.tree[0];
        in.tree[0] = UINT32_MAX, in.tree[1]++;
        refuses("codewords: too large a sum", encodes[i], &w, CONSTRICTION_WRONG_WEIGHTS);
        refuses("codewords: too large a sum", decodes[i], &w, CONSTRICTION_WRONG_WEIGHTS);
        in.tree[0] = kept, in.tree[1]--;
        if (!count) continue;
        size_t symbol = in.symbols[count - 1];
        in.symbols[count - 1] = KINDS;
        refuses("codewords: an unknown symbol", encodes[i], &w, CONSTRICTION_IMPOSSIBLE_SYMBOL);
        in.symbols[count - 1] = symbol;
    }
}

/* Returns whether the first `count` bits of two lists of words are equal. */
static int same_bits(const word *one, const word *other, size_t count) {
    for (size_t i = 0; i < count; i++)
        if ((one[i / BITS] ^ other[i / BITS]) >> i % BITS & 1) return 0;
    return 1;
}

static void codewords_at(size_t count) {
    struct world start = fresh(), w, end;
    draw(count);
    call *const encodes[] = {huffman_at, golomb_at}, *const decodes[] = {huffman_from_at, golomb_from_at};
    for (size_t i = 0; i < 2; i++) {
        start.len = 2, start.other_len = 2 * BITS;
        every_length("from a bit: encode", encodes[i], &start, BEHIND);
        refused_memory("from a bit: encode, memory", encodes[i], &start);
        start.other_len += random_below(BITS);
        w = start;
        done("from a bit: encode", encodes[i], &w);
        CHECK("from a bit: the bits below", same_bits(w.words, start.words, start.other_len));
        CHECK("from a bit: zeros above", w.other_len % BITS == 0 || w.words[w.len - 1] >> w.other_len % BITS == 0);
        end = w;
        done("from a bit: another list", encodes[1 - i], &w);
        CHECK("from a bit: the first list stays", same_bits(w.words, end.words, end.other_len));
        w.other_len = start.other_len;
        refused_memory("from a bit: decode, memory", decodes[i], &w);
        done("from a bit: decode", decodes[i], &w);
        CHECK("from a bit: where it stops", w.other_len == end.other_len);
        done("from a bit: decode another list", decodes[1 - i], &w);
        CHECK("from a bit: there and back", same_symbols(&w) && !memcmp(w.numbers, in.numbers, count * sizeof(word)));
        w = start, w.other_len = BITS * w.capacity + 1;
        refuses("from a bit: past the buffer", encodes[i], &w, CONSTRICTION_WRONG_LENGTH);
        w.other_len = BITS * w.len + 1;
        refuses("from a bit: past the words", decodes[i], &w, CONSTRICTION_WRONG_LENGTH);
        w.other_len = BITS * w.len;
        if (count) refuses("from a bit: no bits", decodes[i], &w, CONSTRICTION_OUT_OF_DATA);
    }
}

/* ==== Lists long enough for a lookup model of the weights, at 12 bits ==== */

enum { LONG = 5000, PART = 100, LONG_ROOM = LONG + 8 };

/* The memory that calls on a long list change. */
struct long_world {
    state head;
    struct C(range_decoder_state) decoder;
    struct C(chain_heads) heads;
    size_t len, other_len, symbols[LONG];
    word words[LONG_ROOM], other[LONG_ROOM];
};

/* Decodes symbols at a place of a long list. */
typedef uint32_t long_call(struct long_world *w, size_t place, size_t count);

static uint32_t long_ans(struct long_world *w, size_t place, size_t count) {
    return C(ans_decode)(&w->head, w->words, LONG_ROOM, &w->len, TABLE, w->symbols + place, count);
}
static uint32_t long_range(struct long_world *w, size_t place, size_t count) {
    return C(range_decode)(&w->decoder, w->words, w->len, TABLE, w->symbols + place, count);
}
static uint32_t long_chain(struct long_world *w, size_t place, size_t count) {
    size_t needed;
    return C(chain_decode)(&w->heads, w->other, LONG_ROOM, &w->other_len, w->words, LONG_ROOM, &w->len, TABLE,
                           w->symbols + place, count, &needed);
}

static int same_long(const struct long_world *a, const struct long_world *b) {
    return a->head == b->head && a->len == b->len && a->other_len == b->other_len
        && a->decoder.lower == b->decoder.lower && a->decoder.range == b->decoder.range
        && a->decoder.point == b->decoder.point && a->decoder.pos == b->decoder.pos
        && a->heads.remainders == b->heads.remainders && a->heads.compressed == b->heads.compressed
        && !memcmp(a->symbols, b->symbols, sizeof a->symbols) && !memcmp(a->words, b->words, sizeof a->words)
        && !memcmp(a->other, b->other, sizeof a->other);
}

/* Decodes a long list by one call, by calls on short lists, and with each request for memory refused once. If the request for the rows
   of a lookup model is refused, the call still succeeds. */
static void long_decode(const char *about, long_call *decode, const struct long_world *start, struct long_world *whole) {
    static struct long_world parts, w;
    int rows = 0;
    *whole = parts = *start;
    CHECK(about, decode(whole, 0, LONG) == CONSTRICTION_DONE);
    for (size_t i = 0; i < LONG; i += PART) CHECK(about, decode(&parts, i, PART) == CONSTRICTION_DONE);
    CHECK(about, same_long(whole, &parts));
    for (unsigned long n = 1;; n++) {
        w = *start, requests = 0, refused_request = n;
        uint32_t result = decode(&w, 0, LONG);
        refused_request = 0;
        if (requests < n) break;
        CHECK(about, result == CONSTRICTION_NO_MEMORY ? same_long(&w, start) : result == CONSTRICTION_DONE && same_long(&w, whole));
        rows |= result == CONSTRICTION_DONE;
    }
    CHECK(about, rows == (BITS == 16));
}

static void long_lists(void) {
    static struct long_world start, w;
    static size_t given[LONG];
    struct C(range_encoder_state) encoder;
    size_t needed;
    draw(1);
    for (size_t i = 0; i < LONG; i++) given[i] = random_below(KINDS);

    memset(&start, 0, sizeof start);
    CHECK("long: ANS, encode", !C(ans_encode_reverse)(&start.head, start.words, LONG_ROOM, &start.len, TABLE, given, LONG, &needed));
    long_decode("long: ANS, decode", long_ans, &start, &w);
    CHECK("long: ANS, there and back", !memcmp(w.symbols, given, sizeof given) && w.head == 0 && w.len == 0);

    memset(&start, 0, sizeof start);
    CHECK("long: range, encode", !C(range_encoder)(&encoder)
          && !C(range_encode)(&encoder, start.words, LONG_ROOM, &start.len, TABLE, given, LONG, &needed)
          && !C(range_into_compressed)(&encoder, start.words, LONG_ROOM, &start.len, &needed)
          && !C(range_from_compressed)(start.words, start.len, &start.decoder));
    long_decode("long: range, decode", long_range, &start, &w);
    CHECK("long: range, there and back", !memcmp(w.symbols, given, sizeof given));

    memset(&start, 0, sizeof start);
    for (size_t i = 0; i < LONG_ROOM; i++) start.other[i] = (word)random_below((uint64_t)1 << BITS);
    start.other[LONG_ROOM - 1] |= 1;
    CHECK("long: chain, import", !C(chain_from_compressed)(start.other, LONG_ROOM, &start.other_len, &start.heads));
    long_decode("long: chain, decode", long_chain, &start, &w);
    CHECK("long: chain, encode", !C(chain_encode_reverse)(&w.heads, w.other, LONG_ROOM, &w.other_len, w.words, LONG_ROOM, &w.len, TABLE,
                                                          w.symbols, LONG, &needed));
    CHECK("long: chain, there and back", w.other_len == start.other_len && w.len == 0 && !memcmp(w.other, start.other, sizeof w.other)
          && w.heads.remainders == start.heads.remainders && w.heads.compressed == start.heads.compressed);
}

/* Encodes by intervals or by rows of weights that write no words request no memory. The chain coder requests a buffer. */
static void intervals_ask_no_memory(void) {
    struct world w = fresh();
    draw(2);
    for (size_t i = 0; i < 2; i++) in.lefts[i] = (word)(i * (WHOLE / 2)), in.ps[i] = (word)(WHOLE / 2);
    for (size_t i = 0; i < 2; i++) {
        for (size_t kind = 0; kind < KINDS; kind++) in.rows[i * KINDS + kind] = kind < 2 ? (word)(WHOLE / 2) : 0;
        in.symbols[i] = i;
    }
    requests = 0;
    CHECK("ANS: intervals, no memory", !ans_encode_pairs(&w) && !ans_encode_each(&w) && !w.len && !requests);
    CHECK("range: intervals, no memory", !range_encode_pairs(&w) && !range_encode_each(&w) && !w.len && !requests);
}

/* The chain coder encodes intervals of length 1, first a single one and then a list of two, and decodes their symbols. */
static void chain_intervals_of_length_one(void) {
    struct world start = fresh();
    draw(2);
    for (size_t i = 0; i < 2; i++) in.lefts[i] = (word)(WHOLE - 1), in.ps[i] = 1;
    for (size_t kind = 0; kind < KINDS; kind++) in.weights[kind] = (word)(kind == 0 ? WHOLE - 1 : kind == 1);
    start.other_len = ROOM;
    for (size_t count = 1; count < 3; count++) {
        struct world w = start, back;
        in.count = in.p_count = count;
        done("chain: intervals of length 1", chain_encode_pairs, &w);
        back = w;
        memcpy(back.words, w.other, sizeof back.words), memcpy(back.other, w.words, sizeof back.other);
        back.len = w.other_len, back.other_len = w.len;
        done("chain: their symbols", chain_decode, &back);
        for (size_t i = 0; i < count; i++) CHECK("chain: their symbols", back.symbols[i] == 1);
        CHECK("chain: there and back", back.len == start.other_len && !memcmp(&back.heads, &start.heads, sizeof back.heads));
    }
}

int main(void) {
    for (int round = 0; round < 20; round++) {
        size_t count = round < 3 ? (size_t)round : 1 + random_below(COUNT);
        ans(count), range(count), store(count), chain(count), codewords(count), codewords_at(count), narrow(count);
    }
    great_held(), most_symbols(), long_lists(), nulls(), texts();
    intervals_ask_no_memory(), chain_intervals_of_length_one();
    for (size_t i = 1; i < RESULTS; i++) CHECK("each result was seen", seen[i] > 0);
    return finish();
}
