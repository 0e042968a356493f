/* Refuses each request for memory of every C function once, at one size, which -DBITS=32 or -DBITS=16 chooses. The
   worlds and the calls are those of calls.c. A call whose request is refused has to return NO_MEMORY and leave each byte
   of its world unchanged. Then the same call in the same world has to succeed. The run under the address sanitizer finds
   blocks that aren't freed.

   -DPLANTED=1 to 3 plants a fault, which the test has to find: an encode that changes a word without memory, one that
   reports success, and one that does something else when it is called again. */
#define main every_call
#include "calls.c"
#undef main

enum { FUNCTIONS = 64 };
static struct {
    const char *name;
    unsigned long refused;
} tally[FUNCTIONS];
static size_t tallied;

static unsigned long *refused_of(const char *name) {
    size_t at = 0;
    while (at < tallied && strcmp(tally[at].name, name)) at++;
    if (at == FUNCTIONS) {
        CHECK("a place for each function", 0);
        return &tally[0].refused;
    }
    if (at == tallied) tally[tallied++].name = name;
    return &tally[at].refused;
}

/* Returns whether a call returns this result and leaves this world. */
static int does(call *run, struct world *w, uint32_t wanted, const struct world *whole) {
    return run(w) == wanted && equal(w, whole);
}

/* Refuses each request of a call once, up to a run in which no request is refused. */
static void tries(const char *name, call *run, const struct world *start) {
    static struct world w, whole;
    unsigned long *refused = refused_of(name), n;
    memcpy(&whole, start, sizeof whole);
    uint32_t wanted = run(&whole);
    CHECK(name, wanted == CONSTRICTION_DONE);
    for (n = 1; n < 1000; n++) {
        memcpy(&w, start, sizeof w);
        requests = 0, refused_request = n;
        uint32_t result = run(&w);
        refused_request = 0;
        if (requests < n) {
            CHECK(name, result == wanted && equal(&w, &whole));
            return;
        }
        ++*refused;
        CHECK(name, result == CONSTRICTION_NO_MEMORY);
        CHECK(name, !memcmp(&w, start, sizeof w));
        CHECK(name, does(run, &w, wanted, &whole));
    }
    CHECK(name, 0);
}

/* Does the same, and returns the world that the call leaves. */
static struct world after(const char *name, call *run, const struct world *start) {
    struct world w = *start;
    tries(name, run, start);
    CHECK(name, run(&w) == CONSTRICTION_DONE);
    return w;
}

/* ==== The calls that calls.c makes by hand, and planted faults ==== */

static uint32_t range_new(struct world *w) { return C(range_encoder)(&w->encoder); }
static uint32_t range_to(struct world *w) { return C(range_seek)(&w->decoder, w->words, w->len, 0, 0, (state)-1); }

#ifdef PLANTED
static uint32_t planted(struct world *w) {
    static int was_refused;
    uint32_t result = ans_encode(w);
    if (PLANTED == 3 && was_refused && result == CONSTRICTION_DONE) w->words[0]++;
    was_refused = result == CONSTRICTION_NO_MEMORY;
    if (!was_refused) return result;
    if (PLANTED == 1) w->words[ROOM - 1]++;
    return PLANTED == 2 ? CONSTRICTION_DONE : result;
}
#define ANS_ENCODE planted
#else
#define ANS_ENCODE ans_encode
#endif

/* ==== The coders ==== */

/* Weights under which a list has the greatest number of words: all but one are 1. The list's symbols have the weight 1. */
static void draw_heavy(void) {
    for (size_t i = 0; i < KINDS; i++) in.weights[i] = 1;
    in.weights[0] = (word)(WHOLE - KINDS + 1);
    for (size_t i = 0; i < in.count; i++) in.lefts[i] = left_of(in.weights, in.symbols[i]), in.ps[i] = 1;
}

static void refused_ans(const struct world *start) {
    struct world w = after("ans_encode_reverse", ANS_ENCODE, start);
    w = after("ans_decode", ans_decode, &w);
    CHECK("ANS: there and back", same_symbols(&w) && w.len == start->len && w.head == start->head);
    w = after("ans_encode_bytes_reverse", ans_encode_bytes, start);
    tries("ans_decode_bytes", ans_decode_bytes, &w), tries("ans_decode_shorts", ans_decode_shorts, &w);
    tries("ans_encode_shorts_reverse", ans_encode_shorts, start);
    w = after("ans_encode_each_reverse", ans_encode_each, start);
    after("ans_decode_each", ans_decode_each, &w);
    tries("ans_encode_intervals_reverse", ans_encode_pairs, start);
    tries("ans_encode_intervals_reverse", ans_encode_row_pairs, start);
    w = after("ans_into_compressed", ans_export, start);
    tries("ans_from_compressed", ans_import, &w);
    w = after("ans_from_binary", ans_import_binary, &w);
    tries("ans_into_binary", ans_export_binary, &w);
}

static void refused_range(const struct world *start) {
    struct world first = after("range_encode", range_encode, start);
    struct world w = after("range_encode_each", range_encode_each, &first);
    tries("range_encode_bytes", range_encode_bytes, start), tries("range_encode_shorts", range_encode_shorts, start);
    tries("range_encode_intervals", range_encode_pairs, start);
    tries("range_encode_intervals", range_encode_row_pairs, start);
    tries("range_into_self_delimited", range_followed, &w);
    w = after("range_into_compressed", range_export, &w);
    w = after("range_from_compressed", range_import, &w);
    tries("range_seek", range_to, &w);
    tries("range_maybe_exhausted", range_maybe, &w);
    tries("range_decode_bytes", range_decode_bytes, &w), tries("range_decode_shorts", range_decode_shorts, &w);
    w = after("range_decode", range_decode, &w);
    CHECK("range: there and back", same_symbols(&w));
    w = after("range_decode_each", range_decode_each, &w);
    CHECK("range: rows there and back", same_symbols(&w));
    tries("range_encoder", range_new, &w);
}

static void refused_store(const struct world *start) {
    struct world w = after("store_build", store_build, start);
    for (in.chunk = 0; in.chunk < CHUNKS; in.chunk++) tries("store_chunk", store_chunk, &w);
}

/* The next encodes encode the symbols that a world was given. */
static void take_over(const struct world *w) {
    memcpy(in.symbols, w->symbols, sizeof in.symbols);
    for (size_t i = 0; i < in.count; i++) {
        const word *row = in.rows + i * KINDS;
        in.lefts[i] = left_of(in.weights, in.symbols[i]), in.ps[i] = in.weights[in.symbols[i]];
        in.row_lefts[i] = left_of(row, in.symbols[i]), in.row_ps[i] = row[in.symbols[i]];
    }
}

/* Returns a world with swapped sides, so that the inverse call writes after the words that were left. */
static struct world turned(const struct world *w) {
    struct world back = *w;
    memcpy(back.words, w->other, sizeof back.words), memcpy(back.other, w->words, sizeof back.other);
    back.len = w->other_len, back.other_len = w->len;
    return back;
}

static void refused_chain(const struct world *start) {
    struct world w = after("chain_decode", chain_decode, start), back = turned(&w);
    take_over(&w);
    tries("chain_encode_reverse", chain_encode, &back);
    tries("chain_encode_bytes_reverse", chain_encode_bytes, &back);
    tries("chain_encode_shorts_reverse", chain_encode_shorts, &back);
    tries("chain_decode_bytes", chain_decode_bytes, start), tries("chain_decode_shorts", chain_decode_shorts, start);
    tries("chain_encode_intervals_reverse", chain_encode_pairs, &back);
    tries("chain_into_remainders", chain_export_remainders, &w);
    w = after("chain_decode_each", chain_decode_each, start), back = turned(&w);
    take_over(&w);
    tries("chain_encode_each_reverse", chain_encode_each, &back);
    tries("chain_encode_intervals_reverse", chain_encode_row_pairs, &back);
    tries("chain_into_compressed", chain_export, start);
}

static void refused_imports(struct world *w) {
    w->other_len = ROOM, w->other[ROOM - 1] = 1, w->other[ROOM - 2] |= 1;
    tries("chain_from_compressed", chain_import, w);
    tries("chain_from_remainders", chain_import_remainders, w);
    *w = after("chain_from_binary", chain_import_binary, w);
    memcpy(w->words, w->other, sizeof w->words), w->len = w->other_len;
    tries("chain_into_binary", chain_export_binary, w);
}

static void refused_codewords(const struct world *start) {
    struct world w = after("huffman_encode_queue", huffman_queue, start);
    tries("huffman_decode_queue", huffman_from_queue, &w);
    w = after("huffman_encode_stack", huffman_stack, start);
    tries("huffman_decode_stack", huffman_from_stack, &w);
    w = after("exp_golomb_encode_queue", golomb_queue, start);
    tries("exp_golomb_decode_queue", golomb_from_queue, &w);
    w = after("exp_golomb_encode_stack", golomb_stack, start);
    tries("exp_golomb_decode_stack", golomb_from_stack, &w);
    w = after("huffman_encode_at", huffman_at, start), w.other_len = start->other_len;
    tries("huffman_decode_at", huffman_from_at, &w);
    w = after("exp_golomb_encode_at", golomb_at, start), w.other_len = start->other_len;
    tries("exp_golomb_decode_at", golomb_from_at, &w);
}

static struct world chain_start(void) {
    struct world w = fresh();
    for (size_t i = 0; i < ROOM; i++) w.other[i] = (word)random_below((uint64_t)1 << BITS);
    w.other_len = ROOM, w.other[ROOM - 1] |= 1;
    done("chain: import", chain_import, &w);
    return w;
}

static void every_coder(size_t count, int heavy) {
    struct world start = ans_start(count), chain = chain_start();
    if (heavy) draw_heavy();
    refused_ans(&start);
    start = fresh();
    refused_range(&start), refused_store(&start), refused_codewords(&start);
    refused_chain(&chain), refused_imports(&chain);
}

/* The functions that request no memory. Each other function has to have a refused request. */
static const char *const without[] = {
    "ans_from_compressed", "ans_from_binary", "ans_decode_each",
    "range_encoder", "range_from_compressed", "range_seek", "range_maybe_exhausted",
    "chain_from_compressed", "chain_from_binary", "chain_from_remainders",
};
enum { WITHOUT = sizeof without / sizeof *without };

static void sum_up(void) {
    unsigned long sum = 0;
    for (size_t at = 0; at < tallied; at++) {
        int asks = 1;
        for (size_t i = 0; i < WITHOUT; i++) asks = asks && strcmp(tally[at].name, without[i]);
        CHECK(tally[at].name, asks == (tally[at].refused > 0));
        sum += tally[at].refused;
    }
    printf("refused: %lu requests of %zu functions at %d bits\n", sum, tallied - WITHOUT, BITS);
}

int main(void) {
    const size_t counts[] = {0, 1, 2, 13, COUNT};
    for (size_t i = 0; i < sizeof counts / sizeof *counts; i++) every_coder(counts[i], 0), every_coder(counts[i], 1);
    sum_up();
    return finish();
}
