/* Worked rows: values computed by definitions and by other programs, not by this library. -DBITS=32 or -DBITS=16 chooses the size. */
#include "check.h"

#define GLUE(a, b, c) a##b##c
#define NAME(name, bits) GLUE(constriction_, name, bits)
#if BITS == 32
typedef uint32_t word;
typedef uint64_t state;
#define C(name) NAME(name, _u32)
#define WHOLE UINT32_C(16777216)
#else
typedef uint16_t word;
typedef uint32_t state;
#define C(name) NAME(name, _u16)
#define WHOLE 4096
#endif
#define LENGTH(list) (sizeof(list) / sizeof *(list))
#define HALF (WHOLE / 2)

enum { ROOM = 16 };
static word words[ROOM];
static size_t len, needed, symbols[ROOM];
static const word two[] = {3, 2, WHOLE - 5}, halves[] = {HALF, HALF}, several[] = {1, 2, WHOLE - 3};
static const size_t ten[] = {0, 1, 2, 0, 1, 2, 0, 0, 0, 1};

static int are_words(const word *wanted, size_t count) { return len == count && !memcmp(words, wanted, count * sizeof(word)); }
static int are_symbols(const size_t *wanted, size_t count) { return !memcmp(symbols, wanted, count * sizeof(size_t)); }

static void encode_ans(const word *weights, const size_t *given, size_t count) {
    state head = 0;
    len = 0;
    CHECK("encode", !C(ans_encode_reverse)(&head, words, ROOM, &len, weights, 3, given, count, &needed));
    CHECK("export", !C(ans_into_compressed)(head, words, ROOM, &len, &needed));
}

static void ans(void) {
    const size_t one[] = {1, 1};
    state head = 0;
    len = 0;
    CHECK("ans_encode_two: once", !C(ans_encode_reverse)(&head, words, ROOM, &len, two, 3, one, 1, &needed) && head == 3);
    encode_ans(two, one, 2);
    const word wanted_two[] = {(word)(WHOLE + 4)};
    CHECK("ans_encode_two", are_words(wanted_two, 1));
    CHECK("ans_decode_two: import", !C(ans_from_compressed)(words, len, &len, &head) && len == 0 && head == WHOLE + 4);
    CHECK("ans_decode_two", !C(ans_decode)(&head, words, ROOM, &len, two, 3, symbols, 2) && are_symbols(one, 2) && head == 0);
#if BITS == 32
    const word wanted[] = {0, 16777218, 2307, 16777218, 0, 64};
#else
    const word wanted[] = {0, 4098, 147, 4098, 0, 4};
#endif
    encode_ans(several, ten, 10);
    CHECK("several words", are_words(wanted, LENGTH(wanted)));
    CHECK("several words back: import", !C(ans_from_compressed)(words, len, &len, &head));
    CHECK("several words back", !C(ans_decode)(&head, words, ROOM, &len, several, 3, symbols, 10) && are_symbols(ten, 10));
    const word binary[] = {5, 0}, zero_last[] = {7, 0};
    CHECK("ans_binary_zero_words", !C(ans_from_binary)(binary, 2, &len, &head) && len == 1 && head == (state)1 << BITS);
    words[0] = 5;
    CHECK("ans_binary_zero_words: back", !C(ans_into_binary)(head, words, ROOM, &len, &needed) && are_words(binary, 2));
    len = 0;
    CHECK("ans_binary_zero_words: new", C(ans_into_binary)(0, words, ROOM, &len, &needed) == CONSTRICTION_INVALID_DATA);
    CHECK("ans_binary_forms", C(ans_into_binary)(3, words, ROOM, &len, &needed) == CONSTRICTION_INVALID_DATA && len == 0);
    CHECK("ans_binary_forms: none", !C(ans_from_binary)(words, 0, &len, &head) && len == 0 && head == 1);
    CHECK("ans_binary_forms: none back", !C(ans_into_binary)(head, words, ROOM, &len, &needed) && len == 0);
    CHECK("ans_zero_last_word", C(ans_from_compressed)(zero_last, 2, &len, &head) == CONSTRICTION_INVALID_DATA && len == 0);
    CHECK("ans_zero_last_word: none", !C(ans_from_compressed)(words, 0, &len, &head) && len == 0 && head == 0);
    CHECK("decode_counts: no words", !C(ans_decode)(&head, words, 0, &len, two, 3, symbols, 2) && !symbols[0] && !symbols[1]);
}

static void encode_range(const word *weights, size_t kinds, const size_t *given, size_t count) {
    struct C(range_encoder_state) encoder;
    CHECK("an encoder", !C(range_encoder)(&encoder) && !encoder.lower && encoder.range == (state)-1 && !encoder.held && !encoder.first);
    len = 0;
    CHECK("encode", !C(range_encode)(&encoder, words, ROOM, &len, weights, kinds, given, count, &needed));
    CHECK("export", !C(range_into_compressed)(&encoder, words, ROOM, &len, &needed));
}

static void range(void) {
    const size_t one[] = {1};
    const word wanted[] = {(word)((word)1 << (BITS - 1))};
    struct C(range_decoder_state) decoder;
    uint32_t maybe;
    encode_range(halves, 2, one, 1);
    CHECK("range_one_symbol", are_words(wanted, 1));
    CHECK("range_one_symbol: import", !C(range_from_compressed)(words, 1, &decoder) && decoder.pos == 1);
    CHECK("range_one_symbol: back", !C(range_decode)(&decoder, words, 1, halves, 2, symbols, 1) && are_symbols(one, 1));
    CHECK("exhausted", !C(range_maybe_exhausted)(&decoder, words, 1, &maybe) && maybe == 1);
    for (int ones = 0; ones < 2; ones++) {
        for (size_t i = 1; i < 5; i++) words[i] = ones ? (word)-1 : 0;
        CHECK("range_whatever_follows: import", !C(range_from_compressed)(words, 5, &decoder));
        CHECK("range_whatever_follows", !C(range_decode)(&decoder, words, 5, halves, 2, symbols, 1) && are_symbols(one, 1));
    }
#if BITS == 32
    const word wanted_several[] = {0, 65535, 100661761, 4294837757, 0, 4};
#else
    const word wanted_several[] = {0, 255, 24481, 65117, 0, 4};
#endif
    encode_range(several, 3, ten, 10);
    CHECK("several range words", are_words(wanted_several, LENGTH(wanted_several)));
    CHECK("several range words back: import", !C(range_from_compressed)(words, len, &decoder));
    CHECK("several range words back", !C(range_decode)(&decoder, words, len, several, 3, symbols, 10) && are_symbols(ten, 10));
    encode_range(two, 3, one, 0);
    CHECK("range_invalid_and_empty: none", len == 0);
    CHECK("range_invalid_and_empty: exhausted",
          !C(range_from_compressed)(words, 0, &decoder) && !C(range_maybe_exhausted)(&decoder, words, 0, &maybe) && maybe == 1);
    const word greatest[] = {(word)-1, (word)-1};
    CHECK("range_invalid_and_empty", !C(range_from_compressed)(greatest, 2, &decoder)
          && C(range_decode)(&decoder, greatest, 2, halves, 2, symbols, 1) == CONSTRICTION_INVALID_DATA);
}

/* Intervals that hold the point 1/2 of the whole, until words are pending; then an interval above or below the point. The words are the
   first digits of 1/2, or all digits of the number just below it. */
static void carries(size_t steps, int carry) {
    struct C(range_encoder_state) encoder;
    state distance = (state)1 << (8 * sizeof(state) - 1);
    word left, p = 1;
    C(range_encoder)(&encoder);
    len = 0;
    for (size_t i = 0; i < steps; i++) {
        state unit = encoder.range / WHOLE;
        left = (word)(distance / unit);
        distance -= unit * left;
        if (unit < (state)1 << BITS) distance <<= BITS;
        CHECK("carries: encode", !C(range_encode_intervals)(&encoder, words, ROOM, &len, &left, 1, &p, 1, &needed));
    }
    size_t held = encoder.held;
    CHECK("carries: words are held back", held >= 2 && len == 0 && encoder.first == ((word)1 << (BITS - 1)) - 1);
    left = (word)(distance / (encoder.range / WHOLE) + (carry ? 1 : -1));
    CHECK("carries: encode", !C(range_encode_intervals)(&encoder, words, ROOM, &len, &left, 1, &p, 1, &needed) && len >= held);
    CHECK("carries: the first word", words[0] == (word)(((word)1 << (BITS - 1)) - !carry));
    for (size_t i = 1; i < held; i++) CHECK("carries: the other words", words[i] == (carry ? 0 : (word)-1));
}

static void chain(void) {
#if BITS == 32
    const word data[] = {0x11223344, 0x100}, quantile = 0x223344, head = 0x111, left_over = 273;
    const state remainders = 2149724996;
#else
    const word data[] = {0x1122, 0x10}, quantile = 0x122, head = 0x11, left_over = 17;
    const state remainders = 33058;
#endif
    struct C(chain_heads) heads;
    size_t compressed_len = 0, remainders_len = 0;
    const word at_quantile[] = {quantile, 1, (word)(WHOLE - quantile - 1)};
    CHECK("chain_default", !C(chain_from_compressed)(data, 2, &compressed_len, &heads) && compressed_len == 1
          && heads.remainders == data[1] && heads.compressed == 1);
    CHECK("chain_default: quantile", !C(chain_decode)(&heads, data, 2, &compressed_len, words, ROOM, &remainders_len,
                                                     at_quantile, 3, symbols, 1, &needed)
          && symbols[0] == 1 && heads.compressed == head && compressed_len == 0);
    CHECK("chain_default: out of data", C(chain_decode)(&heads, data, 2, &compressed_len, words, ROOM, &remainders_len,
                                                       at_quantile, 3, symbols, 1, &needed) == CONSTRICTION_OUT_OF_DATA);

    CHECK("chain_split: import", !C(chain_from_compressed)(data, 2, &compressed_len, &heads));
    remainders_len = 0;
    CHECK("chain_split: decode", !C(chain_decode)(&heads, data, 2, &compressed_len, words, ROOM, &remainders_len,
                                                 halves, 2, symbols, 1, &needed) && symbols[0] == 0 && compressed_len == 0);
    len = remainders_len;
    CHECK("chain_split: export", !C(chain_into_remainders)(&heads, words, ROOM, &len, &needed));
    const word wanted[] = {(word)remainders, left_over};
    CHECK("chain_split", are_words(wanted, 2));
    const word zero[] = {7, 0};
    CHECK("chain_too_short", C(chain_from_compressed)(data, 0, &len, &heads) == CONSTRICTION_INVALID_DATA);
    CHECK("chain_too_short: binary", C(chain_from_binary)(data, 0, &len, &heads) == CONSTRICTION_INVALID_DATA);
    CHECK("chain_too_short: zero", C(chain_from_compressed)(zero, 2, &len, &heads) == CONSTRICTION_INVALID_DATA);
}

/* Returns whether the words hold these bits, from the lowest up, and then zeros. Blanks separate codewords. */
static int are_bits(const char *bits) {
    size_t count = 0;
    word wanted[ROOM] = {0};
    for (; *bits; bits++) {
        if (*bits == ' ') continue;
        wanted[count / BITS] |= (word)((word)(*bits == '1') << (count % BITS));
        count++;
    }
    return are_words(wanted, (count + BITS - 1) / BITS);
}

static void huffman(const char *row, const uint32_t *weights, size_t kinds, const char *codewords) {
    const size_t all[] = {0, 1, 2, 3, 4};
    CHECK(row, !C(huffman_encode_queue)(weights, kinds, all, kinds, words, ROOM, &len, &needed) && are_bits(codewords));
    CHECK(row, !C(huffman_decode_queue)(weights, kinds, words, len, symbols, kinds) && are_symbols(all, kinds));
}

static void bits(void) {
    const uint32_t five[] = {2, 2, 4, 1, 1}, deep[] = {1, 1, 2, 3, 5}, ties[] = {1, 1, 2}, nothing[] = {0, 0, 0}, unequal[] = {2, 1};
    const uint32_t with_zero[] = {255, 0}, too_large[] = {UINT32_MAX, 1}, equal[] = {1, 1};
    huffman("huffman_lines", five, 5, "00 01 11 100 101");
    huffman("huffman_lines: two", unequal, 2, "1 0");
    huffman("huffman_lines: one", five, 1, "");
    huffman("huffman_ties", ties, 3, "10 11 0");
    huffman("huffman_ties: zeros", nothing, 3, "10 11 0");
    huffman("huffman_deep", deep, 5, "1110 1111 110 10 0");
    huffman("huffman_zero_weight", with_zero, 2, "1 0");
    const size_t fifth[] = {5}, ones[] = {1, 1, 1, 1, 1, 1, 1, 1, 1, 1, 1, 1, 1, 1, 1, 1, 1, 1, 1, 1, 1, 1, 1, 1, 1, 1, 1, 1, 1, 1, 1, 1};
    CHECK("huffman_refusals: empty", C(huffman_encode_queue)(five, 0, fifth, 0, words, ROOM, &len, &needed) == CONSTRICTION_WRONG_WEIGHTS);
    CHECK("huffman_refusals: sum", C(huffman_encode_queue)(too_large, 2, fifth, 0, words, ROOM, &len, &needed) == CONSTRICTION_WRONG_WEIGHTS);
    CHECK("huffman_unknown_and_short", C(huffman_encode_queue)(five, 5, fifth, 1, words, ROOM, &len, &needed) == CONSTRICTION_IMPOSSIBLE_SYMBOL);
    const word three[] = {3}, twelve[] = {12}, zero_last[] = {7, 0}, full[] = {(word)-1, 1}, all_ones[] = {(word)-1};
    /* A stack with the single bit 1, and then the end bit. */
    CHECK("huffman_unknown_and_short: short", C(huffman_decode_stack)(five, 5, three, 1, symbols, 1) == CONSTRICTION_OUT_OF_DATA);
    CHECK("stack_end_bit", !C(huffman_encode_stack)(equal, 2, ones, 1, words, ROOM, &len, &needed) && are_words(three, 1));
    const size_t last_first[] = {1, 0, 0};
    CHECK("stack_end_bit: three", !C(huffman_decode_stack)(equal, 2, twelve, 1, symbols, 3) && are_symbols(last_first, 3));
    CHECK("stack_end_bit: a word", !C(huffman_encode_stack)(equal, 2, ones, BITS, words, ROOM, &len, &needed) && are_words(full, 2));
    CHECK("stack_end_bit: none", !C(huffman_encode_stack)(equal, 2, ones, 0, words, ROOM, &len, &needed) && are_bits("1"));
    CHECK("stack_end_bit: refused", C(huffman_decode_stack)(equal, 2, zero_last, 2, symbols, 1) == CONSTRICTION_INVALID_DATA);

    const word line[] = {0, 5, 7}, greatest[] = {(word)-1}, below[] = {(word)-2}, packed[] = {537}, zeros[] = {0, 0, 0};
    word numbers[BITS + 1];
    CHECK("golomb_line", !C(exp_golomb_encode_queue)(line, 3, words, ROOM, &len, &needed) && are_words(packed, 1));
    CHECK("golomb_codewords", are_bits("1 00110 0001000"));
    CHECK("golomb_line: back", !C(exp_golomb_decode_queue)(words, len, numbers, 3) && !memcmp(numbers, line, sizeof line));
    char text[3 * BITS + 1] = "";
    for (int i = 0; i < BITS; i++) text[i] = '0';
    text[BITS] = '1';
    memset(text + BITS + 1, '0', BITS);
    CHECK("golomb_codewords: greatest", !C(exp_golomb_encode_queue)(greatest, 1, words, ROOM, &len, &needed) && are_bits(text));
    CHECK("golomb_codewords: greatest back", !C(exp_golomb_decode_queue)(words, len, numbers, 1) && numbers[0] == greatest[0]);
    memset(text, '0', BITS - 1), memset(text + BITS - 1, '1', BITS), text[2 * BITS - 1] = '\0';
    CHECK("golomb_codewords: below", !C(exp_golomb_encode_queue)(below, 1, words, ROOM, &len, &needed) && are_bits(text));
    CHECK("golomb_empty_line", !C(exp_golomb_encode_queue)(line, 0, words, ROOM, &len, &needed) && len == 0);
    CHECK("golomb_ones", !C(exp_golomb_decode_queue)(all_ones, 1, numbers, BITS) && numbers[0] == 0 && numbers[BITS - 1] == 0);
    CHECK("golomb_ones: no more", C(exp_golomb_decode_queue)(all_ones, 1, numbers, BITS + 1) == CONSTRICTION_OUT_OF_DATA);
    CHECK("golomb_byte_limits", C(exp_golomb_decode_queue)(zeros, 3, numbers, 1) == CONSTRICTION_INVALID_DATA);
    const word bad_tail[] = {0, 3, 0}, short_tail[] = {0, 1};
    CHECK("the greatest number's codeword ends with zeros", C(exp_golomb_decode_queue)(bad_tail, 3, numbers, 1) == CONSTRICTION_INVALID_DATA);
    CHECK("the greatest number's codeword, cut short", C(exp_golomb_decode_queue)(short_tail, 2, numbers, 1) == CONSTRICTION_OUT_OF_DATA);
    CHECK("golomb_byte_limits: none", C(exp_golomb_decode_queue)(zeros, 0, numbers, 1) == CONSTRICTION_OUT_OF_DATA);
}

/* Three lists by two codebooks, one after another, from bit 3 of words in which all bits but one are 1. */
static void from_a_bit(void) {
    const uint32_t five[] = {2, 2, 4, 1, 1};
    const size_t all[] = {0, 1, 2, 3, 4}, two_more[] = {4, 0}, many[] = {2, 2, 2, 2, 2, 2, 2, 2, 2, 2, 2, 2, 2, 2, 2, 2, 2};
    const word line[] = {0, 5, 7}, follows[] = {(word)-1, (word)-1};
    word numbers[3];
    size_t bit = 3;
    memset(words, 0xff, sizeof words);
    words[0] = (word)(words[0] - 2);
    CHECK("huffman at bit 3", !C(huffman_encode_at)(five, 5, all, 5, words, 3, &bit, &needed) && bit == 15);
    len = 1;
    CHECK("huffman at bit 3: words", are_bits("101 00 01 11 100 101"));
    CHECK("golomb at bit 15", !C(exp_golomb_encode_at)(line, 3, words, 3, &bit, &needed) && bit == 28);
    CHECK("huffman at bit 28", !C(huffman_encode_at)(five, 5, two_more, 2, words, 3, &bit, &needed) && bit == 33);
    len = (33 + BITS - 1) / BITS;
    CHECK("lists at bits: words", are_bits("101 00 01 11 100 101 1 00110 0001000 101 00"));
    CHECK("lists at bits: no more", words[3] == (word)-1);
    CHECK("lists at bits: no room", C(huffman_encode_at)(five, 5, many, 17, words, len, &bit, &needed) == CONSTRICTION_NO_SPACE);
    CHECK("lists at bits: room needed", needed == (33 + 34 + BITS - 1) / BITS && bit == 33 && are_bits("101 00 01 11 100 101 1 00110 0001000 101 00"));
    CHECK("lists at bits: past the words", C(exp_golomb_encode_at)(line, 3, words, 0, &bit, &needed) == CONSTRICTION_WRONG_LENGTH && bit == 33);
    bit = 3;
    CHECK("huffman from bit 3", !C(huffman_decode_at)(five, 5, words, len, &bit, symbols, 5) && are_symbols(all, 5) && bit == 15);
    CHECK("golomb from bit 15", !C(exp_golomb_decode_at)(words, len, &bit, numbers, 3) && !memcmp(numbers, line, sizeof line) && bit == 28);
    CHECK("huffman from bit 28", !C(huffman_decode_at)(five, 5, words, len, &bit, symbols, 2) && are_symbols(two_more, 2) && bit == 33);
    CHECK("golomb from the end", C(exp_golomb_decode_at)(words, len, &bit, numbers, 1) == CONSTRICTION_OUT_OF_DATA && bit == 33);
    bit = BITS - 1;
    CHECK("golomb from a last bit", !C(exp_golomb_decode_at)(follows, 1, &bit, numbers, 1) && numbers[0] == 0 && bit == BITS);
    CHECK("golomb behind the last bit", C(exp_golomb_decode_at)(follows, 1, &bit, numbers, 1) == CONSTRICTION_OUT_OF_DATA && bit == BITS);
}

int main(void) {
    ans(), range(), chain(), bits(), from_a_bit();
    for (size_t steps = 6; steps < 12; steps++) carries(steps, 0), carries(steps, 1);
    return finish();
}
