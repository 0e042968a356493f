/* Proved entropy coders as C functions: a stack coder (ANS), a range coder with stores of chunks, a chain coder, and
   Huffman and Exp-Golomb codewords. constriction_models.h, which this file includes, has models with whole-number
   parameters, such as a Gaussian with its own mean and deviation for each symbol.

   For C99 and later, and for C++. Link with the static library libconstriction.a or the shared object
   libconstriction.so. The page C_AND_PYTHON.md explains how to link, and what is proved about these functions. The
   text of this file isn't proved.

   SIZES. Each function except constriction_version comes in two sizes. The end of its name is the size:

                    words      states     weights    sum of the weights
       .._u32       uint32_t   uint64_t   uint32_t   2^24
       .._u16       uint16_t   uint32_t   uint16_t   2^12

   STATE. The caller keeps the state of a coder: words in a buffer, and a head or a struct of numbers. No function
   keeps a pointer, or any memory, after it returns. To copy a coder, copy its words and numbers. To record a
   position, store the coder's numbers and *len. Two threads may make calls at the same time if neither call writes
   memory that the other one reads or writes.

   BUFFERS. Three arguments describe a buffer of words: a pointer, the length of the buffer in words, and the number
   of words in use (`*len`). The length is `capacity` if the function writes to the buffer, and `.._count` if it only
   reads the buffer. A buffer fills upwards from index 0. The words in use are words[0] .. words[*len - 1], and the
   next word is written to words[*len]. The top of a stack is the last word in use. Functions never read the words
   after those in use, and change them only where they write new words. All lengths count items, never bytes.

   MODELS. A model is a list of weights: symbol 0 has the first weight, symbol 1 the next, and so on. The weights add
   up to 2^24 (2^12 for .._u16). A symbol is impossible if its weight is 0, or if the symbol is past the end of the
   list. There are seven ways to pass models:
   - `weights`, `weight_count`: the same weights for all symbols.
   - .._each: a row of `width` weights for each symbol, one row after another, so weight_count is width *
     symbol_count.
   - .._indexed: tables of `width` weights, one after another, and for each symbol the index of its table. So
     weight_count is width * the number of tables, and index_count is symbol_count. Each table has to add up to 2^24
     (2^12), also if no symbol has its index.
   - .._intervals, only for encoding: an interval for each symbol. lefts[i] is the sum of the weights before the
     symbol's weight, and ps[i] is the symbol's weight, with 1 <= ps[i] and lefts[i] + ps[i] <= 2^24 (2^12). These
     functions need no list of weights.
   - .._quantized: a family of distributions, with a location and a scale for each symbol. See constriction_models.h.
   - .._mixture: a family of distributions, with a row of components for each symbol. Each component has a weight, a
     location and a scale. See constriction_models.h.
   - .._counts: a row of `width` counts for each symbol. The weights are in proportion to the counts, and each is at
     least 1. See constriction_models.h.
   constriction_weights_of_counts computes weights from counts. constriction_weights_of_floats and
   constriction_counts_of_floats compute weights and counts from probabilities.

   SYMBOLS are numbers 0, 1, .. of type size_t. The functions .._bytes and .._shorts have symbols of type uint8_t and
   uint16_t, and the same weights for all symbols. The symbols of Exp-Golomb codewords have the type of the words. A
   decode writes the symbols to `symbols` in the order of decoding.

   ROOM. No call returns CONSTRICTION_NO_SPACE if the buffer has room for the words in use, one word for each symbol,
   and two words for an export. Words that a range encoder holds back count as words in use. If these don't fit the
   buffer, an encode encodes no symbol, and *needed is *len + held. constriction_chain_into_remainders writes at most
   three words. Codewords may need more than a word: an Exp-Golomb codeword has at most 2 * 32 + 1 (2 * 16 + 1) bits,
   and a Huffman codeword has at most weight_count - 1 bits.

   COST. A call with one list of weights takes about 0.1 microseconds, and 13 nanoseconds for each weight. An encode
   with a stack or a chain coder takes 45 nanoseconds for each weight, because it computes the weights' reciprocals.
   So a call with two symbols and 256 weights takes 3.4 microseconds, or 12 microseconds for such an encode. In
   addition, each symbol takes 3 to 6 nanoseconds to encode, 6 to decode with a stack coder, and 19 to decode with a
   range coder. A call with one symbol builds no table: a decode of it takes 1 to 3 nanoseconds for each weight. The
   functions .._each take 4 nanoseconds for each weight of each row.

   The functions .._indexed check all tables in each call, in 1 nanosecond for each weight. A list of more than 64
   symbols for each table (to encode 128) then makes each table once. This takes 10 nanoseconds for each weight, or 17
   for an encode of at least 8 symbols for each weight with a stack or a chain coder. With 64 tables of 256 weights,
   each symbol then takes 9 nanoseconds to encode and 13 to decode with a stack coder. A shorter list makes no tables,
   and each symbol takes 15 nanoseconds to encode and 60 to decode. For a few symbols, pass the rows with .._each,
   which checks only these.

   ONE SYMBOL AT A TIME. To encode one symbol, pass its interval. This takes 22 nanoseconds with a stack coder, 17
   with a range coder and 24 with a chain coder. You can decode one symbol without a call over all weights, if you can
   search the sums of the weights yourself. Compute the quantile from the state, and find the symbol whose interval
   contains it. Then pass three weights: the sum of the weights below this symbol, the symbol's weight, and the sum of
   the weights above it. The call decodes symbol 1. This takes 16 nanoseconds with a stack coder. The quantile is:
   - for the stack coder, head % 2^24 (2^12).
   - for the range coder, (point - lower) / (range >> 24) (range >> 12), in the type of the state, with a difference
     that wraps. If the result is 2^24 (2^12) or more, no encoder wrote the words, and each decode returns
     INVALID_DATA.

   POINTERS. A pointer to a list may be null if the list's length is 0. No other pointer may be null, and each must be
   aligned for its type. Memory that a call writes through one argument must not overlap memory that it reads or
   writes through another argument. Memory that a call only reads must not change during the call.

   ERRORS. Each function returns one of enum constriction_result. After any result except CONSTRICTION_DONE the state,
   the buffers and the symbols are unchanged. A call writes *needed if and only if it returns CONSTRICTION_NO_SPACE.
   If several errors apply, the call returns the first of these: WRONG_LENGTH; WRONG_INTERVAL; WRONG_WEIGHTS;
   INVALID_DATA for the state; IMPOSSIBLE_SYMBOL for any symbol; OUT_OF_DATA, or INVALID_DATA for the words; NO_SPACE.
   NO_MEMORY can replace only those after IMPOSSIBLE_SYMBOL.

   MEMORY. Most functions use the program's malloc, realloc and free, and free all of their memory before they return.
   An encode by intervals, or by rows of weights or counts, requests memory for words only. A decode by such rows
   requests it for symbols and for words only, and with a stack coder not at all. A stack coder's encode by one table of
   weights, or .._indexed, requests memory for up to one word per symbol, even if it writes fewer. A stack, chain or
   range coder's encode of one symbol requests none for words, unless a range coder has more than one word pending. A
   call .._indexed also requests up to 120 bytes for each table and, if it makes tables, up to 12 bytes for each weight
   (32 for an encode).
   malloc, realloc and free must come from one allocator. malloc and realloc must align a block to each power of two up
   to 16 that divides its size. Don't call a function from a signal handler, or from the forked child of a process that
   had threads. */
#ifndef CONSTRICTION_H
#define CONSTRICTION_H

#include <stddef.h>
#include <stdint.h>

/* The version of these functions. It is the version of the Rust crate with these coders. */
#define CONSTRICTION_VERSION "0.5.0"
#define CONSTRICTION_VERSION_MAJOR 0
#define CONSTRICTION_VERSION_MINOR 5
#define CONSTRICTION_VERSION_PATCH 0
#define CONSTRICTION_VERSION_NUMBER \
    (10000 * CONSTRICTION_VERSION_MAJOR + 100 * CONSTRICTION_VERSION_MINOR + CONSTRICTION_VERSION_PATCH)

/* The logarithm to base 2 of the sum of all weights, in bits. */
#define CONSTRICTION_PRECISION_U32 24
#define CONSTRICTION_PRECISION_U16 12

#ifdef __cplusplus
extern "C" {
#endif

/* The result of a function. */
enum constriction_result {
    /* Success. */
    CONSTRICTION_DONE = 0,
    /* A model has no entry for its symbol: the symbol's weight is 0, or the symbol is past the end of the weights. */
    CONSTRICTION_IMPOSSIBLE_SYMBOL = 1,
    /* Weights don't add up to 2^24 (2^12). For a Huffman tree: there are no weights, or their sum doesn't fit their
       type. For a family: a scale is 0, or the family doesn't exist. For constriction_weights_of_counts: no
       count is above 0, or more than 2^24 (2^12) counts are above 0. For .._counts: a row has 2^24 (2^12) counts or
       more, or its counts add up to 0 or to 2^40 or more. For .._of_floats: a float is negative, infinite or NaN, or
       none is above 0, or there are too many. */
    CONSTRICTION_WRONG_WEIGHTS = 2,
    /* An interval is empty or ends past 2^24 (2^12). For a family: the range has fewer than 2 symbols, or more than
       2^24 (2^12) symbols. */
    CONSTRICTION_WRONG_INTERVAL = 3,
    /* A length or a position is past its buffer's end, or the lengths of two lists don't match. */
    CONSTRICTION_WRONG_LENGTH = 4,
    /* The buffer is too short. *needed is the number of words that the buffer has to hold, including the words in
       use, or SIZE_MAX if that number is greater. */
    CONSTRICTION_NO_SPACE = 5,
    /* malloc or realloc failed. You can make the call again. */
    CONSTRICTION_NO_MEMORY = 6,
    /* No coder has the words or the numbers that the caller passed, or the words don't encode the symbols. */
    CONSTRICTION_INVALID_DATA = 7,
    /* The coder needs another word or bit before all symbols are coded, and none is left. */
    CONSTRICTION_OUT_OF_DATA = 8
};

/* Returns a short text for a result, and "unknown result" for any other number. */
static inline const char *constriction_result_text(uint32_t result) {
    switch (result) {
    case CONSTRICTION_DONE: return "done";
    case CONSTRICTION_IMPOSSIBLE_SYMBOL: return "impossible symbol";
    case CONSTRICTION_WRONG_WEIGHTS: return "wrong weights";
    case CONSTRICTION_WRONG_INTERVAL: return "wrong interval";
    case CONSTRICTION_WRONG_LENGTH: return "wrong length";
    case CONSTRICTION_NO_SPACE: return "no space";
    case CONSTRICTION_NO_MEMORY: return "out of memory";
    case CONSTRICTION_INVALID_DATA: return "invalid data";
    case CONSTRICTION_OUT_OF_DATA: return "out of data";
    default: return "unknown result";
    }
}

/* Returns the version of the library that the program runs with, as a number. CONSTRICTION_VERSION_NUMBER is the
   version of this header. */
uint32_t constriction_version(void);

/* ==== Words of 32 bits, states of 64, weights that add up to 2^24 ==================================================== */

/* ---- The stack coder (ANS): the last symbol encoded is the first decoded ----

   The state is *head, and words[0] .. words[*len - 1], whose last word is the top. A new coder has head 0 and no
   words. A coder made by from_compressed, from_binary, encodes and decodes has a head of at least 2^32, or no words.
   The functions accept any other head too, but a decode may not undo an encode onto it. */

/* Encodes symbols from the last to the first, so that a decode returns them in the order of the list.
   Errors: WRONG_LENGTH (*len > capacity), WRONG_WEIGHTS, IMPOSSIBLE_SYMBOL, NO_SPACE, NO_MEMORY. */
uint32_t constriction_ans_encode_reverse_u32(uint64_t *head, uint32_t *words, size_t capacity, size_t *len,
                                             const uint32_t *weights, size_t weight_count,
                                             const size_t *symbols, size_t symbol_count, size_t *needed);

/* Do the same with symbols of 8 and of 16 bits, and write the same words. */
uint32_t constriction_ans_encode_bytes_reverse_u32(uint64_t *head, uint32_t *words, size_t capacity, size_t *len,
                                                   const uint32_t *weights, size_t weight_count,
                                                   const uint8_t *symbols, size_t symbol_count, size_t *needed);
uint32_t constriction_ans_encode_shorts_reverse_u32(uint64_t *head, uint32_t *words, size_t capacity, size_t *len,
                                                    const uint32_t *weights, size_t weight_count,
                                                    const uint16_t *symbols, size_t symbol_count, size_t *needed);

/* Does the same with a row of `width` weights for each symbol. Also returns WRONG_LENGTH if weight_count isn't width
   * symbol_count. */
uint32_t constriction_ans_encode_each_reverse_u32(uint64_t *head, uint32_t *words, size_t capacity, size_t *len,
                                                  const uint32_t *weights, size_t weight_count, size_t width,
                                                  const size_t *symbols, size_t symbol_count, size_t *needed);

/* Does the same with tables of `width` weights. Symbol symbols[i] has table indexes[i]. Also returns WRONG_LENGTH if
   weight_count isn't a multiple of width, if index_count isn't symbol_count, or if an index is past the tables. */
uint32_t constriction_ans_encode_indexed_reverse_u32(uint64_t *head, uint32_t *words, size_t capacity, size_t *len,
                                                     const uint32_t *weights, size_t weight_count, size_t width,
                                                     const size_t *indexes, size_t index_count,
                                                     const size_t *symbols, size_t symbol_count, size_t *needed);

/* Does the same with intervals, from the last to the first.
   Errors: WRONG_LENGTH (*len > capacity, or left_count isn't p_count), WRONG_INTERVAL, NO_SPACE, NO_MEMORY. */
uint32_t constriction_ans_encode_intervals_reverse_u32(uint64_t *head, uint32_t *words, size_t capacity, size_t *len,
                                                       const uint32_t *lefts, size_t left_count,
                                                       const uint32_t *ps, size_t p_count, size_t *needed);

/* Decodes symbol_count symbols and takes words off the top: *len decreases, and the words stay unchanged. When no
   words are left, decoding continues with the number that is left in the head.
   Errors: WRONG_LENGTH (*len > word_count), WRONG_WEIGHTS, NO_MEMORY. */
uint32_t constriction_ans_decode_u32(uint64_t *head, const uint32_t *words, size_t word_count, size_t *len,
                                     const uint32_t *weights, size_t weight_count,
                                     size_t *symbols, size_t symbol_count);

/* Do the same with symbols of 8 and of 16 bits. These functions first decode a list of size_t. They also return
   WRONG_LENGTH if weight_count is above 256 or 65536, because then an index of the weights doesn't fit the type of
   the symbols. */
uint32_t constriction_ans_decode_bytes_u32(uint64_t *head, const uint32_t *words, size_t word_count, size_t *len,
                                           const uint32_t *weights, size_t weight_count,
                                           uint8_t *symbols, size_t symbol_count);
uint32_t constriction_ans_decode_shorts_u32(uint64_t *head, const uint32_t *words, size_t word_count, size_t *len,
                                            const uint32_t *weights, size_t weight_count,
                                            uint16_t *symbols, size_t symbol_count);

/* Does the same with a row of `width` weights for each symbol. */
uint32_t constriction_ans_decode_each_u32(uint64_t *head, const uint32_t *words, size_t word_count, size_t *len,
                                          const uint32_t *weights, size_t weight_count, size_t width,
                                          size_t *symbols, size_t symbol_count);

/* Does the same with tables of `width` weights, and the index of a table for each symbol. */
uint32_t constriction_ans_decode_indexed_u32(uint64_t *head, const uint32_t *words, size_t word_count, size_t *len,
                                             const uint32_t *weights, size_t weight_count, size_t width,
                                             const size_t *indexes, size_t index_count,
                                             size_t *symbols, size_t symbol_count);

/* Imports a coder from the words of into_compressed: writes the head to *head, and the number of words that stay
   below the head to *len. An empty list of words makes a new coder.
   Error: INVALID_DATA, if and only if the last word is 0. */
uint32_t constriction_ans_from_compressed_u32(const uint32_t *words, size_t word_count, size_t *len, uint64_t *head);

/* Exports a coder: appends the words of the head, at most 2, lowest first and without leading zeros. The head is
   unchanged. To continue with the coder, keep the old *len.
   Errors: WRONG_LENGTH (*len > capacity), NO_SPACE, NO_MEMORY. */
uint32_t constriction_ans_into_compressed_u32(uint64_t head, uint32_t *words, size_t capacity, size_t *len, size_t *needed);

/* Imports a coder from any words, for example for bits-back coding: writes the head to *head, and the number of words
   that stay below the head to *len. Always succeeds. */
uint32_t constriction_ans_from_binary_u32(const uint32_t *words, size_t word_count, size_t *len, uint64_t *head);

/* Exports a coder for from_binary: appends the words of the head below its leading 1.
   Errors: WRONG_LENGTH (*len > capacity); INVALID_DATA, if and only if the head is 0, or the number of bits below its
   leading 1 isn't a multiple of 32; NO_SPACE; NO_MEMORY. */
uint32_t constriction_ans_into_binary_u32(uint64_t head, uint32_t *words, size_t capacity, size_t *len, size_t *needed);

/* ---- Many stack coders in one call ----

   head_count coders, each with a row of words: coder j is heads[j] and the first lens[j] words of row j of `words`. Row
   j of every list belongs to coder j: the words, the symbols, the intervals and the parameters of models are head_count
   rows of the same length, one after another. With n coders, rows of `width` words and `count` symbols for each coder,
   pass n, n * width, n and n * count as the lengths. The words are those of n coders that are called one by one, so the
   other functions can continue with a coder. One call for many coders takes less time than many calls, and decodes the
   symbols of three or four coders at a time.

   A call that fails changes no coder. WRONG_LENGTH also means that len_count isn't head_count, that a list isn't
   head_count rows of the same length, or that lens[j] is past the end of a row. After NO_SPACE, *needed is the number
   of words that each row has to hold. */

/* Encodes the symbols of each row from the last to the first, so that a decode returns them in the order of the row.
   Errors: WRONG_LENGTH, WRONG_WEIGHTS, IMPOSSIBLE_SYMBOL, NO_SPACE, NO_MEMORY. */
uint32_t constriction_ans_lanes_encode_reverse_u32(uint64_t *heads, size_t head_count, uint32_t *words, size_t capacity,
                                                   size_t *lens, size_t len_count,
                                                   const uint32_t *weights, size_t weight_count,
                                                   const size_t *symbols, size_t symbol_count, size_t *needed);

/* Does the same with a row of `width` weights for each symbol. Also returns WRONG_LENGTH if weight_count isn't width
   * symbol_count. */
uint32_t constriction_ans_lanes_encode_each_reverse_u32(uint64_t *heads, size_t head_count,
                                                        uint32_t *words, size_t capacity,
                                                        size_t *lens, size_t len_count,
                                                        const uint32_t *weights, size_t weight_count, size_t width,
                                                        const size_t *symbols, size_t symbol_count, size_t *needed);

/* Does the same with intervals. Also returns WRONG_LENGTH if left_count isn't p_count.
   Errors: WRONG_LENGTH, WRONG_INTERVAL, NO_SPACE, NO_MEMORY. */
uint32_t constriction_ans_lanes_encode_intervals_reverse_u32(uint64_t *heads, size_t head_count,
                                                             uint32_t *words, size_t capacity,
                                                             size_t *lens, size_t len_count,
                                                             const uint32_t *lefts, size_t left_count,
                                                             const uint32_t *ps, size_t p_count, size_t *needed);

/* Decodes symbol_count / head_count symbols from each coder, with one table of weights for all. lens[j] decreases, and
   the words stay unchanged.
   Errors: WRONG_LENGTH, WRONG_WEIGHTS, NO_MEMORY. */
uint32_t constriction_ans_lanes_decode_u32(uint64_t *heads, size_t head_count, const uint32_t *words, size_t word_count,
                                           size_t *lens, size_t len_count,
                                           const uint32_t *weights, size_t weight_count,
                                           size_t *symbols, size_t symbol_count);

/* Does the same with a row of `width` weights for each symbol. */
uint32_t constriction_ans_lanes_decode_each_u32(uint64_t *heads, size_t head_count,
                                                const uint32_t *words, size_t word_count,
                                                size_t *lens, size_t len_count,
                                                const uint32_t *weights, size_t weight_count, size_t width,
                                                size_t *symbols, size_t symbol_count);

/* ---- The range coder: the first symbol encoded is the first decoded ---- */

/* The numbers of an encoder. Its words are in the caller's buffer. An encoder holds words back until no carry can
   change them. */
struct constriction_range_encoder_state_u32 {
    uint64_t lower; /* the lower end of the interval, modulo 2^64 */
    uint64_t range; /* the length of the interval, at least 2^32 */
    size_t held;    /* the number of words held back */
    uint32_t first; /* the first pending word, or 0 if there is none; in the other pending words all bits are 1 */
};

/* The numbers of a decoder. Its words are in the caller's buffer. */
struct constriction_range_decoder_state_u32 {
    uint64_t lower; /* as in an encoder */
    uint64_t range;
    uint64_t point; /* the 2 words read last, as one number */
    size_t pos;     /* the number of words that the decoder read from the buffer */
};

/* Sets *encoder to an encoder that has encoded no symbols. Its buffer has no words in use: begin with *len = 0. */
uint32_t constriction_range_encoder_u32(struct constriction_range_encoder_state_u32 *encoder);

/* Encodes symbols in order. The position of an encoder is (*len + held, lower, range).
   Errors: WRONG_LENGTH (*len > capacity), WRONG_WEIGHTS, INVALID_DATA (no encoder has such numbers),
   IMPOSSIBLE_SYMBOL, NO_SPACE, NO_MEMORY. */
uint32_t constriction_range_encode_u32(struct constriction_range_encoder_state_u32 *encoder,
                                       uint32_t *words, size_t capacity, size_t *len,
                                       const uint32_t *weights, size_t weight_count,
                                       const size_t *symbols, size_t symbol_count, size_t *needed);

/* Do the same with symbols of 8 and of 16 bits, and write the same words. */
uint32_t constriction_range_encode_bytes_u32(struct constriction_range_encoder_state_u32 *encoder,
                                             uint32_t *words, size_t capacity, size_t *len,
                                             const uint32_t *weights, size_t weight_count,
                                             const uint8_t *symbols, size_t symbol_count, size_t *needed);
uint32_t constriction_range_encode_shorts_u32(struct constriction_range_encoder_state_u32 *encoder,
                                              uint32_t *words, size_t capacity, size_t *len,
                                              const uint32_t *weights, size_t weight_count,
                                              const uint16_t *symbols, size_t symbol_count, size_t *needed);

/* Does the same with a row of `width` weights for each symbol. Also returns WRONG_LENGTH if weight_count isn't width
   * symbol_count. */
uint32_t constriction_range_encode_each_u32(struct constriction_range_encoder_state_u32 *encoder,
                                            uint32_t *words, size_t capacity, size_t *len,
                                            const uint32_t *weights, size_t weight_count, size_t width,
                                            const size_t *symbols, size_t symbol_count, size_t *needed);

/* Does the same with tables of `width` weights. Symbol symbols[i] has table indexes[i]. Also returns WRONG_LENGTH if
   weight_count isn't a multiple of width, if index_count isn't symbol_count, or if an index is past the tables. */
uint32_t constriction_range_encode_indexed_u32(struct constriction_range_encoder_state_u32 *encoder,
                                               uint32_t *words, size_t capacity, size_t *len,
                                               const uint32_t *weights, size_t weight_count, size_t width,
                                               const size_t *indexes, size_t index_count,
                                               const size_t *symbols, size_t symbol_count, size_t *needed);

/* Does the same with intervals.
   Errors: WRONG_LENGTH, WRONG_INTERVAL, INVALID_DATA, NO_SPACE, NO_MEMORY. */
uint32_t constriction_range_encode_intervals_u32(struct constriction_range_encoder_state_u32 *encoder,
                                                 uint32_t *words, size_t capacity, size_t *len,
                                                 const uint32_t *lefts, size_t left_count,
                                                 const uint32_t *ps, size_t p_count, size_t *needed);

/* Appends the words held back, and the seal of one or two words. An encoder without symbols has no seal. The encoder
   is unchanged. To continue with it, keep the old *len.
   Errors: WRONG_LENGTH (*len > capacity), INVALID_DATA (no encoder has such numbers), NO_SPACE, NO_MEMORY. */
uint32_t constriction_range_into_compressed_u32(const struct constriction_range_encoder_state_u32 *encoder,
                                                uint32_t *words, size_t capacity, size_t *len, size_t *needed);

/* Does the same with a self-delimiting seal: any words may follow it. You can append other words to the same buffer,
   and a decoder that begins at its first word and reads all of them still returns the symbols. The seal ends with as
   few zero words as possible. With states of two words, as here, the words are those of into_compressed.
   Errors: those of into_compressed. */
uint32_t constriction_range_into_self_delimited_u32(const struct constriction_range_encoder_state_u32 *encoder,
                                                    uint32_t *words, size_t capacity, size_t *len, size_t *needed);

/* Sets *decoder to a decoder at the beginning of the words. The words may be any, because each decode checks them. */
uint32_t constriction_range_from_compressed_u32(const uint32_t *words, size_t word_count,
                                                struct constriction_range_decoder_state_u32 *decoder);

/* Decodes symbol_count symbols. After the last word it reads zero words.
   Errors: WRONG_LENGTH (pos > word_count), WRONG_WEIGHTS, INVALID_DATA (no decoder has such numbers, or the words
   don't encode symbol_count symbols with these weights), NO_MEMORY. */
uint32_t constriction_range_decode_u32(struct constriction_range_decoder_state_u32 *decoder,
                                       const uint32_t *words, size_t word_count,
                                       const uint32_t *weights, size_t weight_count,
                                       size_t *symbols, size_t symbol_count);

/* Do the same with symbols of 8 and of 16 bits. These functions first decode a list of size_t. They also return
   WRONG_LENGTH if weight_count is above 256 or 65536, because then an index of the weights doesn't fit the type of
   the symbols. */
uint32_t constriction_range_decode_bytes_u32(struct constriction_range_decoder_state_u32 *decoder,
                                             const uint32_t *words, size_t word_count,
                                             const uint32_t *weights, size_t weight_count,
                                             uint8_t *symbols, size_t symbol_count);
uint32_t constriction_range_decode_shorts_u32(struct constriction_range_decoder_state_u32 *decoder,
                                              const uint32_t *words, size_t word_count,
                                              const uint32_t *weights, size_t weight_count,
                                              uint16_t *symbols, size_t symbol_count);

/* Does the same with a row of `width` weights for each symbol. */
uint32_t constriction_range_decode_each_u32(struct constriction_range_decoder_state_u32 *decoder,
                                            const uint32_t *words, size_t word_count,
                                            const uint32_t *weights, size_t weight_count, size_t width,
                                            size_t *symbols, size_t symbol_count);

/* Does the same with tables of `width` weights, and the index of a table for each symbol. */
uint32_t constriction_range_decode_indexed_u32(struct constriction_range_decoder_state_u32 *decoder,
                                               const uint32_t *words, size_t word_count,
                                               const uint32_t *weights, size_t weight_count, size_t width,
                                               const size_t *indexes, size_t index_count,
                                               size_t *symbols, size_t symbol_count);

/* Moves a decoder to a position that was recorded during encoding: pos is the encoder's *len + held, and lower and
   range are the encoder's numbers.
   Errors: WRONG_LENGTH (pos > word_count), INVALID_DATA (range is below 2^32). */
uint32_t constriction_range_seek_u32(struct constriction_range_decoder_state_u32 *decoder,
                                     const uint32_t *words, size_t word_count,
                                     size_t pos, uint64_t lower, uint64_t range);

/* Sets *maybe to 1 if the decoder may have decoded all symbols, and to 0 if symbols are certainly left.
   Errors: WRONG_LENGTH (pos > word_count), INVALID_DATA (no decoder has such numbers). */
uint32_t constriction_range_maybe_exhausted_u32(const struct constriction_range_decoder_state_u32 *decoder,
                                                const uint32_t *words, size_t word_count, uint32_t *maybe);

/* ---- Stores: chunks of symbols in the words of one range encoder, each of which is decoded alone ----

   The index of a store has an entry for each chunk. Chunk i begins at the position (positions[i], lowers[i],
   ranges[i]), as constriction_range_seek takes it, and has lengths[i] symbols. One encoder encodes all chunks in
   order. Its seal is that of constriction_range_into_self_delimited, so other words may follow. */

/* Builds a store: writes its words to the beginning of a buffer, the number of words to *len, and the index to three
   lists. `symbols` has the symbols of all chunks, one chunk after another, at most 1048576 symbols. Chunk i has
   lengths[i] symbols.
   Errors: WRONG_LENGTH (position_count, lower_count or range_count isn't chunk_count, or the lengths don't add up to
   symbol_count, or symbol_count is above 1048576), WRONG_WEIGHTS, IMPOSSIBLE_SYMBOL, NO_SPACE, NO_MEMORY. */
uint32_t constriction_store_build_u32(uint32_t *words, size_t capacity, size_t *len,
                                      size_t *positions, size_t position_count,
                                      uint64_t *lowers, size_t lower_count,
                                      uint64_t *ranges, size_t range_count,
                                      const uint32_t *weights, size_t weight_count,
                                      const size_t *symbols, size_t symbol_count,
                                      const size_t *lengths, size_t chunk_count, size_t *needed);

/* Decodes the symbol_count symbols of the chunk that begins at a position. The call reads the words of the chunk and
   two more. After the last word it reads zero words. The words and the position may be any.
   Errors: WRONG_LENGTH (pos > word_count), WRONG_WEIGHTS, INVALID_DATA (range is below 2^32, or the words at the
   position don't encode symbol_count symbols; this can't happen for a chunk of a store with the same weights),
   NO_MEMORY. */
uint32_t constriction_store_chunk_u32(const uint32_t *words, size_t word_count,
                                      size_t pos, uint64_t lower, uint64_t range,
                                      const uint32_t *weights, size_t weight_count,
                                      size_t *symbols, size_t symbol_count);

/* ---- The chain coder: a symbol is decoded from 24 bits of the words, whatever the models of other symbols ----

   The state is heads, compressed[0] .. compressed[*compressed_len - 1], and remainders[0] ..
   remainders[*remainders_len - 1]. The last word in use of each buffer is its top. A decode takes words from
   compressed and puts words on remainders. An encode does the opposite. */

struct constriction_chain_heads_u32 {
    uint64_t remainders; /* at least 2^8, and below 2^40 */
    uint32_t compressed; /* a leading 1, and below it the bits left over; never 0 */
};

/* Imports a coder from words: writes the heads, and the number of words that stay in compressed to *compressed_len.
   The last word must not be 0. The coder has no remainders below its heads.
   Error: INVALID_DATA (too few words, or the last word is 0). */
uint32_t constriction_chain_from_compressed_u32(const uint32_t *words, size_t word_count, size_t *compressed_len,
                                                struct constriction_chain_heads_u32 *heads);

/* Imports a coder from any words, even if the last word is 0: writes the heads, and the number of words that stay in
   compressed to *compressed_len. The coder has no remainders below its heads.
   Error: INVALID_DATA (too few words). */
uint32_t constriction_chain_from_binary_u32(const uint32_t *words, size_t word_count, size_t *compressed_len,
                                            struct constriction_chain_heads_u32 *heads);

/* Imports a coder from the words of into_remainders: writes the heads, and the number of words that stay in
   remainders to *remainders_len. The coder has no compressed words below its heads.
   Error: INVALID_DATA (too few words, or one of the last two words is 0). */
uint32_t constriction_chain_from_remainders_u32(const uint32_t *words, size_t word_count, size_t *remainders_len,
                                                struct constriction_chain_heads_u32 *heads);

/* Decodes symbol_count symbols.
   Errors: WRONG_LENGTH (*compressed_len > compressed_count or *remainders_len > capacity), WRONG_WEIGHTS,
   INVALID_DATA (no coder has such heads), OUT_OF_DATA (compressed is too short), NO_SPACE (in remainders),
   NO_MEMORY. */
uint32_t constriction_chain_decode_u32(struct constriction_chain_heads_u32 *heads,
                                       const uint32_t *compressed, size_t compressed_count, size_t *compressed_len,
                                       uint32_t *remainders, size_t capacity, size_t *remainders_len,
                                       const uint32_t *weights, size_t weight_count,
                                       size_t *symbols, size_t symbol_count, size_t *needed);

/* Do the same with symbols of 8 and of 16 bits. These functions first decode a list of size_t. They also return
   WRONG_LENGTH if weight_count is above 256 or 65536, because then an index of the weights doesn't fit the type of
   the symbols. */
uint32_t constriction_chain_decode_bytes_u32(struct constriction_chain_heads_u32 *heads,
                                             const uint32_t *compressed, size_t compressed_count,
                                             size_t *compressed_len,
                                             uint32_t *remainders, size_t capacity, size_t *remainders_len,
                                             const uint32_t *weights, size_t weight_count,
                                             uint8_t *symbols, size_t symbol_count, size_t *needed);
uint32_t constriction_chain_decode_shorts_u32(struct constriction_chain_heads_u32 *heads,
                                              const uint32_t *compressed, size_t compressed_count,
                                              size_t *compressed_len,
                                              uint32_t *remainders, size_t capacity, size_t *remainders_len,
                                              const uint32_t *weights, size_t weight_count,
                                              uint16_t *symbols, size_t symbol_count, size_t *needed);

/* Does the same with a row of `width` weights for each symbol. Also returns WRONG_LENGTH if weight_count isn't width
   * symbol_count. */
uint32_t constriction_chain_decode_each_u32(struct constriction_chain_heads_u32 *heads,
                                            const uint32_t *compressed, size_t compressed_count, size_t *compressed_len,
                                            uint32_t *remainders, size_t capacity, size_t *remainders_len,
                                            const uint32_t *weights, size_t weight_count, size_t width,
                                            size_t *symbols, size_t symbol_count, size_t *needed);

/* Does the same with tables of `width` weights. Symbol symbols[i] has table indexes[i]. Also returns WRONG_LENGTH if
   weight_count isn't a multiple of width, if index_count isn't symbol_count, or if an index is past the tables. */
uint32_t constriction_chain_decode_indexed_u32(struct constriction_chain_heads_u32 *heads,
                                               const uint32_t *compressed, size_t compressed_count,
                                               size_t *compressed_len,
                                               uint32_t *remainders, size_t capacity, size_t *remainders_len,
                                               const uint32_t *weights, size_t weight_count, size_t width,
                                               const size_t *indexes, size_t index_count,
                                               size_t *symbols, size_t symbol_count, size_t *needed);

/* Encodes symbols from the last to the first. An encode is the inverse of a decode.
   Errors: WRONG_LENGTH (*compressed_len > capacity or *remainders_len > remainders_count), WRONG_WEIGHTS,
   INVALID_DATA (no coder has such heads), IMPOSSIBLE_SYMBOL, OUT_OF_DATA (remainders is too short), NO_SPACE (in
   compressed), NO_MEMORY. */
uint32_t constriction_chain_encode_reverse_u32(struct constriction_chain_heads_u32 *heads,
                                               uint32_t *compressed, size_t capacity, size_t *compressed_len,
                                               const uint32_t *remainders, size_t remainders_count,
                                               size_t *remainders_len,
                                               const uint32_t *weights, size_t weight_count,
                                               const size_t *symbols, size_t symbol_count, size_t *needed);

/* Do the same with symbols of 8 and of 16 bits, and write the same words. */
uint32_t constriction_chain_encode_bytes_reverse_u32(struct constriction_chain_heads_u32 *heads,
                                                     uint32_t *compressed, size_t capacity, size_t *compressed_len,
                                                     const uint32_t *remainders, size_t remainders_count,
                                                     size_t *remainders_len,
                                                     const uint32_t *weights, size_t weight_count,
                                                     const uint8_t *symbols, size_t symbol_count, size_t *needed);
uint32_t constriction_chain_encode_shorts_reverse_u32(struct constriction_chain_heads_u32 *heads,
                                                      uint32_t *compressed, size_t capacity, size_t *compressed_len,
                                                      const uint32_t *remainders, size_t remainders_count,
                                                      size_t *remainders_len,
                                                      const uint32_t *weights, size_t weight_count,
                                                      const uint16_t *symbols, size_t symbol_count, size_t *needed);

/* Does the same with a row of `width` weights for each symbol. Also returns WRONG_LENGTH if weight_count isn't width
   * symbol_count. */
uint32_t constriction_chain_encode_each_reverse_u32(struct constriction_chain_heads_u32 *heads,
                                                    uint32_t *compressed, size_t capacity, size_t *compressed_len,
                                                    const uint32_t *remainders, size_t remainders_count,
                                                    size_t *remainders_len,
                                                    const uint32_t *weights, size_t weight_count, size_t width,
                                                    const size_t *symbols, size_t symbol_count, size_t *needed);

/* Does the same with tables of `width` weights, and the index of a table for each symbol. */
uint32_t constriction_chain_encode_indexed_reverse_u32(struct constriction_chain_heads_u32 *heads,
                                                       uint32_t *compressed, size_t capacity, size_t *compressed_len,
                                                       const uint32_t *remainders, size_t remainders_count,
                                                       size_t *remainders_len,
                                                       const uint32_t *weights, size_t weight_count, size_t width,
                                                       const size_t *indexes, size_t index_count,
                                                       const size_t *symbols, size_t symbol_count, size_t *needed);

/* Does the same with intervals. Also returns WRONG_INTERVAL, but neither WRONG_WEIGHTS nor IMPOSSIBLE_SYMBOL. */
uint32_t constriction_chain_encode_intervals_reverse_u32(struct constriction_chain_heads_u32 *heads,
                                                         uint32_t *compressed, size_t capacity, size_t *compressed_len,
                                                         const uint32_t *remainders, size_t remainders_count,
                                                         size_t *remainders_len,
                                                         const uint32_t *lefts, size_t left_count,
                                                         const uint32_t *ps, size_t p_count, size_t *needed);

/* Appends the words of heads->remainders to compressed, lowest first and without leading zeros. To put all words in
   one list, put the words left in remainders before those of compressed.
   Errors: WRONG_LENGTH, INVALID_DATA (no coder has such heads, or bits are left over: heads->compressed isn't 1),
   NO_SPACE, NO_MEMORY. */
uint32_t constriction_chain_into_compressed_u32(const struct constriction_chain_heads_u32 *heads,
                                                uint32_t *compressed, size_t capacity, size_t *compressed_len, size_t *needed);

/* Appends the words of heads->remainders below its leading 1 to compressed, for from_binary.
   Errors: those of into_compressed, and INVALID_DATA if the number of bits below that leading 1 isn't a multiple of
   32. */
uint32_t constriction_chain_into_binary_u32(const struct constriction_chain_heads_u32 *heads,
                                            uint32_t *compressed, size_t capacity, size_t *compressed_len, size_t *needed);

/* Appends the words of heads->remainders, lowest first, and then heads->compressed to remainders. To put all words in
   one list, put the words left in compressed before those of remainders.
   Errors: WRONG_LENGTH, INVALID_DATA (no coder has such heads), NO_SPACE, NO_MEMORY. */
uint32_t constriction_chain_into_remainders_u32(const struct constriction_chain_heads_u32 *heads,
                                                uint32_t *remainders, size_t capacity, size_t *remainders_len, size_t *needed);

/* ---- Codewords, a whole list in one call ----

   Bits fill a word from its lowest bit up. A queue has the codewords in the order of the list, and then zeros up to
   a whole word. A stack has the codeword of the last symbol first, and each codeword reversed, then a 1, and zeros
   up to a whole word. So the first symbol is on top.

   An encode writes words starting at words[0], or bits starting at a given bit (.._at). It sets *len to the number
   of words that it wrote, and doesn't read *len. A decode returns the symbols in the order of the encoded list. The
   caller has to know the number of symbols. */

/* Encodes symbols with the Huffman tree of the weights, which have 32 bits each and a sum below 2^32. Huffman's
   algorithm joins the two least weights first. Of equal weights, the one with the lower index comes first, and joined
   weights come after all others. A single symbol has the empty codeword.
   Errors: WRONG_WEIGHTS (no weights, or their sum is too large), IMPOSSIBLE_SYMBOL (a symbol is past the end of the
   weights), NO_SPACE, NO_MEMORY. */
uint32_t constriction_huffman_encode_queue_u32(const uint32_t *weights, size_t weight_count,
                                               const size_t *symbols, size_t symbol_count,
                                               uint32_t *words, size_t capacity, size_t *len, size_t *needed);
uint32_t constriction_huffman_encode_stack_u32(const uint32_t *weights, size_t weight_count,
                                               const size_t *symbols, size_t symbol_count,
                                               uint32_t *words, size_t capacity, size_t *len, size_t *needed);

/* Decodes symbol_count symbols.
   Errors: WRONG_WEIGHTS, INVALID_DATA (the last word of a stack is 0), OUT_OF_DATA, NO_MEMORY. */
uint32_t constriction_huffman_decode_queue_u32(const uint32_t *weights, size_t weight_count,
                                               const uint32_t *words, size_t word_count,
                                               size_t *symbols, size_t symbol_count);
uint32_t constriction_huffman_decode_stack_u32(const uint32_t *weights, size_t weight_count,
                                               const uint32_t *words, size_t word_count,
                                               size_t *symbols, size_t symbol_count);

/* Encodes 32-bit numbers with Exp-Golomb codewords. If n + 1 has k + 1 bits, the codeword of n is k zeros and then
   the bits of n + 1, highest first. The codeword of the greatest number is 32 zeros, a 1, and 32 zeros.
   Errors: NO_SPACE, NO_MEMORY. */
uint32_t constriction_exp_golomb_encode_queue_u32(const uint32_t *symbols, size_t symbol_count,
                                                  uint32_t *words, size_t capacity, size_t *len, size_t *needed);
uint32_t constriction_exp_golomb_encode_stack_u32(const uint32_t *symbols, size_t symbol_count,
                                                  uint32_t *words, size_t capacity, size_t *len, size_t *needed);

/* Decodes symbol_count numbers.
   Errors: INVALID_DATA (the next bits begin with more zeros than a symbol has bits, or with the codeword of a number
   that doesn't fit a symbol; or the last word of a stack is 0), OUT_OF_DATA, NO_MEMORY. */
uint32_t constriction_exp_golomb_decode_queue_u32(const uint32_t *words, size_t word_count,
                                                  uint32_t *symbols, size_t symbol_count);
uint32_t constriction_exp_golomb_decode_stack_u32(const uint32_t *words, size_t word_count,
                                                  uint32_t *symbols, size_t symbol_count);

/* Encodes as a queue, starting at bit *bit of the words. So lists can follow one another, each with its own codebook.
   Bit i is bit i % 32 of words[i / 32], counted from the lowest. The call sets *bit to the bit after the last
   codeword. It leaves all bits below the old *bit unchanged. The other bits of the last word become 0.
   Errors: WRONG_LENGTH (*bit is past the buffer's end, or the buffer's number of bits doesn't fit size_t), and those
   of the encodes above. */
uint32_t constriction_huffman_encode_at_u32(const uint32_t *weights, size_t weight_count,
                                            const size_t *symbols, size_t symbol_count,
                                            uint32_t *words, size_t capacity, size_t *bit, size_t *needed);
uint32_t constriction_exp_golomb_encode_at_u32(const uint32_t *symbols, size_t symbol_count,
                                               uint32_t *words, size_t capacity, size_t *bit, size_t *needed);

/* Decodes a queue, starting at bit *bit of the words, and sets *bit to the bit after the last codeword. The next list
   may begin there: the symbols don't depend on the bits after the last codeword.
   Errors: WRONG_LENGTH (*bit is past the end of the words, or their number of bits doesn't fit size_t), and those of
   a queue's decodes. */
uint32_t constriction_huffman_decode_at_u32(const uint32_t *weights, size_t weight_count,
                                            const uint32_t *words, size_t word_count, size_t *bit,
                                            size_t *symbols, size_t symbol_count);
uint32_t constriction_exp_golomb_decode_at_u32(const uint32_t *words, size_t word_count, size_t *bit,
                                               uint32_t *symbols, size_t symbol_count);

/* ==== Words of 16 bits, states of 32, weights that add up to 2^12 ==================================================== */
/* Written by the script `sizes` from the part above. */

/* ---- The stack coder (ANS): the last symbol encoded is the first decoded ----

   The state is *head, and words[0] .. words[*len - 1], whose last word is the top. A new coder has head 0 and no
   words. A coder made by from_compressed, from_binary, encodes and decodes has a head of at least 2^16, or no words.
   The functions accept any other head too, but a decode may not undo an encode onto it. */

/* Encodes symbols from the last to the first, so that a decode returns them in the order of the list.
   Errors: WRONG_LENGTH (*len > capacity), WRONG_WEIGHTS, IMPOSSIBLE_SYMBOL, NO_SPACE, NO_MEMORY. */
uint32_t constriction_ans_encode_reverse_u16(uint32_t *head, uint16_t *words, size_t capacity, size_t *len,
                                             const uint16_t *weights, size_t weight_count,
                                             const size_t *symbols, size_t symbol_count, size_t *needed);

/* Do the same with symbols of 8 and of 16 bits, and write the same words. */
uint32_t constriction_ans_encode_bytes_reverse_u16(uint32_t *head, uint16_t *words, size_t capacity, size_t *len,
                                                   const uint16_t *weights, size_t weight_count,
                                                   const uint8_t *symbols, size_t symbol_count, size_t *needed);
uint32_t constriction_ans_encode_shorts_reverse_u16(uint32_t *head, uint16_t *words, size_t capacity, size_t *len,
                                                    const uint16_t *weights, size_t weight_count,
                                                    const uint16_t *symbols, size_t symbol_count, size_t *needed);

/* Does the same with a row of `width` weights for each symbol. Also returns WRONG_LENGTH if weight_count isn't width
   * symbol_count. */
uint32_t constriction_ans_encode_each_reverse_u16(uint32_t *head, uint16_t *words, size_t capacity, size_t *len,
                                                  const uint16_t *weights, size_t weight_count, size_t width,
                                                  const size_t *symbols, size_t symbol_count, size_t *needed);

/* Does the same with tables of `width` weights. Symbol symbols[i] has table indexes[i]. Also returns WRONG_LENGTH if
   weight_count isn't a multiple of width, if index_count isn't symbol_count, or if an index is past the tables. */
uint32_t constriction_ans_encode_indexed_reverse_u16(uint32_t *head, uint16_t *words, size_t capacity, size_t *len,
                                                     const uint16_t *weights, size_t weight_count, size_t width,
                                                     const size_t *indexes, size_t index_count,
                                                     const size_t *symbols, size_t symbol_count, size_t *needed);

/* Does the same with intervals, from the last to the first.
   Errors: WRONG_LENGTH (*len > capacity, or left_count isn't p_count), WRONG_INTERVAL, NO_SPACE, NO_MEMORY. */
uint32_t constriction_ans_encode_intervals_reverse_u16(uint32_t *head, uint16_t *words, size_t capacity, size_t *len,
                                                       const uint16_t *lefts, size_t left_count,
                                                       const uint16_t *ps, size_t p_count, size_t *needed);

/* Decodes symbol_count symbols and takes words off the top: *len decreases, and the words stay unchanged. When no
   words are left, decoding continues with the number that is left in the head.
   Errors: WRONG_LENGTH (*len > word_count), WRONG_WEIGHTS, NO_MEMORY. */
uint32_t constriction_ans_decode_u16(uint32_t *head, const uint16_t *words, size_t word_count, size_t *len,
                                     const uint16_t *weights, size_t weight_count,
                                     size_t *symbols, size_t symbol_count);

/* Do the same with symbols of 8 and of 16 bits. These functions first decode a list of size_t. They also return
   WRONG_LENGTH if weight_count is above 256 or 65536, because then an index of the weights doesn't fit the type of
   the symbols. */
uint32_t constriction_ans_decode_bytes_u16(uint32_t *head, const uint16_t *words, size_t word_count, size_t *len,
                                           const uint16_t *weights, size_t weight_count,
                                           uint8_t *symbols, size_t symbol_count);
uint32_t constriction_ans_decode_shorts_u16(uint32_t *head, const uint16_t *words, size_t word_count, size_t *len,
                                            const uint16_t *weights, size_t weight_count,
                                            uint16_t *symbols, size_t symbol_count);

/* Does the same with a row of `width` weights for each symbol. */
uint32_t constriction_ans_decode_each_u16(uint32_t *head, const uint16_t *words, size_t word_count, size_t *len,
                                          const uint16_t *weights, size_t weight_count, size_t width,
                                          size_t *symbols, size_t symbol_count);

/* Does the same with tables of `width` weights, and the index of a table for each symbol. */
uint32_t constriction_ans_decode_indexed_u16(uint32_t *head, const uint16_t *words, size_t word_count, size_t *len,
                                             const uint16_t *weights, size_t weight_count, size_t width,
                                             const size_t *indexes, size_t index_count,
                                             size_t *symbols, size_t symbol_count);

/* Imports a coder from the words of into_compressed: writes the head to *head, and the number of words that stay
   below the head to *len. An empty list of words makes a new coder.
   Error: INVALID_DATA, if and only if the last word is 0. */
uint32_t constriction_ans_from_compressed_u16(const uint16_t *words, size_t word_count, size_t *len, uint32_t *head);

/* Exports a coder: appends the words of the head, at most 2, lowest first and without leading zeros. The head is
   unchanged. To continue with the coder, keep the old *len.
   Errors: WRONG_LENGTH (*len > capacity), NO_SPACE, NO_MEMORY. */
uint32_t constriction_ans_into_compressed_u16(uint32_t head, uint16_t *words, size_t capacity, size_t *len, size_t *needed);

/* Imports a coder from any words, for example for bits-back coding: writes the head to *head, and the number of words
   that stay below the head to *len. Always succeeds. */
uint32_t constriction_ans_from_binary_u16(const uint16_t *words, size_t word_count, size_t *len, uint32_t *head);

/* Exports a coder for from_binary: appends the words of the head below its leading 1.
   Errors: WRONG_LENGTH (*len > capacity); INVALID_DATA, if and only if the head is 0, or the number of bits below its
   leading 1 isn't a multiple of 16; NO_SPACE; NO_MEMORY. */
uint32_t constriction_ans_into_binary_u16(uint32_t head, uint16_t *words, size_t capacity, size_t *len, size_t *needed);

/* ---- Many stack coders in one call ----

   head_count coders, each with a row of words: coder j is heads[j] and the first lens[j] words of row j of `words`. Row
   j of every list belongs to coder j: the words, the symbols, the intervals and the parameters of models are head_count
   rows of the same length, one after another. With n coders, rows of `width` words and `count` symbols for each coder,
   pass n, n * width, n and n * count as the lengths. The words are those of n coders that are called one by one, so the
   other functions can continue with a coder. One call for many coders takes less time than many calls, and decodes the
   symbols of three or four coders at a time.

   A call that fails changes no coder. WRONG_LENGTH also means that len_count isn't head_count, that a list isn't
   head_count rows of the same length, or that lens[j] is past the end of a row. After NO_SPACE, *needed is the number
   of words that each row has to hold. */

/* Encodes the symbols of each row from the last to the first, so that a decode returns them in the order of the row.
   Errors: WRONG_LENGTH, WRONG_WEIGHTS, IMPOSSIBLE_SYMBOL, NO_SPACE, NO_MEMORY. */
uint32_t constriction_ans_lanes_encode_reverse_u16(uint32_t *heads, size_t head_count, uint16_t *words, size_t capacity,
                                                   size_t *lens, size_t len_count,
                                                   const uint16_t *weights, size_t weight_count,
                                                   const size_t *symbols, size_t symbol_count, size_t *needed);

/* Does the same with a row of `width` weights for each symbol. Also returns WRONG_LENGTH if weight_count isn't width
   * symbol_count. */
uint32_t constriction_ans_lanes_encode_each_reverse_u16(uint32_t *heads, size_t head_count,
                                                        uint16_t *words, size_t capacity,
                                                        size_t *lens, size_t len_count,
                                                        const uint16_t *weights, size_t weight_count, size_t width,
                                                        const size_t *symbols, size_t symbol_count, size_t *needed);

/* Does the same with intervals. Also returns WRONG_LENGTH if left_count isn't p_count.
   Errors: WRONG_LENGTH, WRONG_INTERVAL, NO_SPACE, NO_MEMORY. */
uint32_t constriction_ans_lanes_encode_intervals_reverse_u16(uint32_t *heads, size_t head_count,
                                                             uint16_t *words, size_t capacity,
                                                             size_t *lens, size_t len_count,
                                                             const uint16_t *lefts, size_t left_count,
                                                             const uint16_t *ps, size_t p_count, size_t *needed);

/* Decodes symbol_count / head_count symbols from each coder, with one table of weights for all. lens[j] decreases, and
   the words stay unchanged.
   Errors: WRONG_LENGTH, WRONG_WEIGHTS, NO_MEMORY. */
uint32_t constriction_ans_lanes_decode_u16(uint32_t *heads, size_t head_count, const uint16_t *words, size_t word_count,
                                           size_t *lens, size_t len_count,
                                           const uint16_t *weights, size_t weight_count,
                                           size_t *symbols, size_t symbol_count);

/* Does the same with a row of `width` weights for each symbol. */
uint32_t constriction_ans_lanes_decode_each_u16(uint32_t *heads, size_t head_count,
                                                const uint16_t *words, size_t word_count,
                                                size_t *lens, size_t len_count,
                                                const uint16_t *weights, size_t weight_count, size_t width,
                                                size_t *symbols, size_t symbol_count);

/* ---- The range coder: the first symbol encoded is the first decoded ---- */

/* The numbers of an encoder. Its words are in the caller's buffer. An encoder holds words back until no carry can
   change them. */
struct constriction_range_encoder_state_u16 {
    uint32_t lower; /* the lower end of the interval, modulo 2^32 */
    uint32_t range; /* the length of the interval, at least 2^16 */
    size_t held;    /* the number of words held back */
    uint16_t first; /* the first pending word, or 0 if there is none; in the other pending words all bits are 1 */
};

/* The numbers of a decoder. Its words are in the caller's buffer. */
struct constriction_range_decoder_state_u16 {
    uint32_t lower; /* as in an encoder */
    uint32_t range;
    uint32_t point; /* the 2 words read last, as one number */
    size_t pos;     /* the number of words that the decoder read from the buffer */
};

/* Sets *encoder to an encoder that has encoded no symbols. Its buffer has no words in use: begin with *len = 0. */
uint32_t constriction_range_encoder_u16(struct constriction_range_encoder_state_u16 *encoder);

/* Encodes symbols in order. The position of an encoder is (*len + held, lower, range).
   Errors: WRONG_LENGTH (*len > capacity), WRONG_WEIGHTS, INVALID_DATA (no encoder has such numbers),
   IMPOSSIBLE_SYMBOL, NO_SPACE, NO_MEMORY. */
uint32_t constriction_range_encode_u16(struct constriction_range_encoder_state_u16 *encoder,
                                       uint16_t *words, size_t capacity, size_t *len,
                                       const uint16_t *weights, size_t weight_count,
                                       const size_t *symbols, size_t symbol_count, size_t *needed);

/* Do the same with symbols of 8 and of 16 bits, and write the same words. */
uint32_t constriction_range_encode_bytes_u16(struct constriction_range_encoder_state_u16 *encoder,
                                             uint16_t *words, size_t capacity, size_t *len,
                                             const uint16_t *weights, size_t weight_count,
                                             const uint8_t *symbols, size_t symbol_count, size_t *needed);
uint32_t constriction_range_encode_shorts_u16(struct constriction_range_encoder_state_u16 *encoder,
                                              uint16_t *words, size_t capacity, size_t *len,
                                              const uint16_t *weights, size_t weight_count,
                                              const uint16_t *symbols, size_t symbol_count, size_t *needed);

/* Does the same with a row of `width` weights for each symbol. Also returns WRONG_LENGTH if weight_count isn't width
   * symbol_count. */
uint32_t constriction_range_encode_each_u16(struct constriction_range_encoder_state_u16 *encoder,
                                            uint16_t *words, size_t capacity, size_t *len,
                                            const uint16_t *weights, size_t weight_count, size_t width,
                                            const size_t *symbols, size_t symbol_count, size_t *needed);

/* Does the same with tables of `width` weights. Symbol symbols[i] has table indexes[i]. Also returns WRONG_LENGTH if
   weight_count isn't a multiple of width, if index_count isn't symbol_count, or if an index is past the tables. */
uint32_t constriction_range_encode_indexed_u16(struct constriction_range_encoder_state_u16 *encoder,
                                               uint16_t *words, size_t capacity, size_t *len,
                                               const uint16_t *weights, size_t weight_count, size_t width,
                                               const size_t *indexes, size_t index_count,
                                               const size_t *symbols, size_t symbol_count, size_t *needed);

/* Does the same with intervals.
   Errors: WRONG_LENGTH, WRONG_INTERVAL, INVALID_DATA, NO_SPACE, NO_MEMORY. */
uint32_t constriction_range_encode_intervals_u16(struct constriction_range_encoder_state_u16 *encoder,
                                                 uint16_t *words, size_t capacity, size_t *len,
                                                 const uint16_t *lefts, size_t left_count,
                                                 const uint16_t *ps, size_t p_count, size_t *needed);

/* Appends the words held back, and the seal of one or two words. An encoder without symbols has no seal. The encoder
   is unchanged. To continue with it, keep the old *len.
   Errors: WRONG_LENGTH (*len > capacity), INVALID_DATA (no encoder has such numbers), NO_SPACE, NO_MEMORY. */
uint32_t constriction_range_into_compressed_u16(const struct constriction_range_encoder_state_u16 *encoder,
                                                uint16_t *words, size_t capacity, size_t *len, size_t *needed);

/* Does the same with a self-delimiting seal: any words may follow it. You can append other words to the same buffer,
   and a decoder that begins at its first word and reads all of them still returns the symbols. The seal ends with as
   few zero words as possible. With states of two words, as here, the words are those of into_compressed.
   Errors: those of into_compressed. */
uint32_t constriction_range_into_self_delimited_u16(const struct constriction_range_encoder_state_u16 *encoder,
                                                    uint16_t *words, size_t capacity, size_t *len, size_t *needed);

/* Sets *decoder to a decoder at the beginning of the words. The words may be any, because each decode checks them. */
uint32_t constriction_range_from_compressed_u16(const uint16_t *words, size_t word_count,
                                                struct constriction_range_decoder_state_u16 *decoder);

/* Decodes symbol_count symbols. After the last word it reads zero words.
   Errors: WRONG_LENGTH (pos > word_count), WRONG_WEIGHTS, INVALID_DATA (no decoder has such numbers, or the words
   don't encode symbol_count symbols with these weights), NO_MEMORY. */
uint32_t constriction_range_decode_u16(struct constriction_range_decoder_state_u16 *decoder,
                                       const uint16_t *words, size_t word_count,
                                       const uint16_t *weights, size_t weight_count,
                                       size_t *symbols, size_t symbol_count);

/* Do the same with symbols of 8 and of 16 bits. These functions first decode a list of size_t. They also return
   WRONG_LENGTH if weight_count is above 256 or 65536, because then an index of the weights doesn't fit the type of
   the symbols. */
uint32_t constriction_range_decode_bytes_u16(struct constriction_range_decoder_state_u16 *decoder,
                                             const uint16_t *words, size_t word_count,
                                             const uint16_t *weights, size_t weight_count,
                                             uint8_t *symbols, size_t symbol_count);
uint32_t constriction_range_decode_shorts_u16(struct constriction_range_decoder_state_u16 *decoder,
                                              const uint16_t *words, size_t word_count,
                                              const uint16_t *weights, size_t weight_count,
                                              uint16_t *symbols, size_t symbol_count);

/* Does the same with a row of `width` weights for each symbol. */
uint32_t constriction_range_decode_each_u16(struct constriction_range_decoder_state_u16 *decoder,
                                            const uint16_t *words, size_t word_count,
                                            const uint16_t *weights, size_t weight_count, size_t width,
                                            size_t *symbols, size_t symbol_count);

/* Does the same with tables of `width` weights, and the index of a table for each symbol. */
uint32_t constriction_range_decode_indexed_u16(struct constriction_range_decoder_state_u16 *decoder,
                                               const uint16_t *words, size_t word_count,
                                               const uint16_t *weights, size_t weight_count, size_t width,
                                               const size_t *indexes, size_t index_count,
                                               size_t *symbols, size_t symbol_count);

/* Moves a decoder to a position that was recorded during encoding: pos is the encoder's *len + held, and lower and
   range are the encoder's numbers.
   Errors: WRONG_LENGTH (pos > word_count), INVALID_DATA (range is below 2^16). */
uint32_t constriction_range_seek_u16(struct constriction_range_decoder_state_u16 *decoder,
                                     const uint16_t *words, size_t word_count,
                                     size_t pos, uint32_t lower, uint32_t range);

/* Sets *maybe to 1 if the decoder may have decoded all symbols, and to 0 if symbols are certainly left.
   Errors: WRONG_LENGTH (pos > word_count), INVALID_DATA (no decoder has such numbers). */
uint32_t constriction_range_maybe_exhausted_u16(const struct constriction_range_decoder_state_u16 *decoder,
                                                const uint16_t *words, size_t word_count, uint32_t *maybe);

/* ---- Stores: chunks of symbols in the words of one range encoder, each of which is decoded alone ----

   The index of a store has an entry for each chunk. Chunk i begins at the position (positions[i], lowers[i],
   ranges[i]), as constriction_range_seek takes it, and has lengths[i] symbols. One encoder encodes all chunks in
   order. Its seal is that of constriction_range_into_self_delimited, so other words may follow. */

/* Builds a store: writes its words to the beginning of a buffer, the number of words to *len, and the index to three
   lists. `symbols` has the symbols of all chunks, one chunk after another, at most 1048576 symbols. Chunk i has
   lengths[i] symbols.
   Errors: WRONG_LENGTH (position_count, lower_count or range_count isn't chunk_count, or the lengths don't add up to
   symbol_count, or symbol_count is above 1048576), WRONG_WEIGHTS, IMPOSSIBLE_SYMBOL, NO_SPACE, NO_MEMORY. */
uint32_t constriction_store_build_u16(uint16_t *words, size_t capacity, size_t *len,
                                      size_t *positions, size_t position_count,
                                      uint32_t *lowers, size_t lower_count,
                                      uint32_t *ranges, size_t range_count,
                                      const uint16_t *weights, size_t weight_count,
                                      const size_t *symbols, size_t symbol_count,
                                      const size_t *lengths, size_t chunk_count, size_t *needed);

/* Decodes the symbol_count symbols of the chunk that begins at a position. The call reads the words of the chunk and
   two more. After the last word it reads zero words. The words and the position may be any.
   Errors: WRONG_LENGTH (pos > word_count), WRONG_WEIGHTS, INVALID_DATA (range is below 2^16, or the words at the
   position don't encode symbol_count symbols; this can't happen for a chunk of a store with the same weights),
   NO_MEMORY. */
uint32_t constriction_store_chunk_u16(const uint16_t *words, size_t word_count,
                                      size_t pos, uint32_t lower, uint32_t range,
                                      const uint16_t *weights, size_t weight_count,
                                      size_t *symbols, size_t symbol_count);

/* ---- The chain coder: a symbol is decoded from 12 bits of the words, whatever the models of other symbols ----

   The state is heads, compressed[0] .. compressed[*compressed_len - 1], and remainders[0] ..
   remainders[*remainders_len - 1]. The last word in use of each buffer is its top. A decode takes words from
   compressed and puts words on remainders. An encode does the opposite. */

struct constriction_chain_heads_u16 {
    uint32_t remainders; /* at least 2^4, and below 2^20 */
    uint16_t compressed; /* a leading 1, and below it the bits left over; never 0 */
};

/* Imports a coder from words: writes the heads, and the number of words that stay in compressed to *compressed_len.
   The last word must not be 0. The coder has no remainders below its heads.
   Error: INVALID_DATA (too few words, or the last word is 0). */
uint32_t constriction_chain_from_compressed_u16(const uint16_t *words, size_t word_count, size_t *compressed_len,
                                                struct constriction_chain_heads_u16 *heads);

/* Imports a coder from any words, even if the last word is 0: writes the heads, and the number of words that stay in
   compressed to *compressed_len. The coder has no remainders below its heads.
   Error: INVALID_DATA (too few words). */
uint32_t constriction_chain_from_binary_u16(const uint16_t *words, size_t word_count, size_t *compressed_len,
                                            struct constriction_chain_heads_u16 *heads);

/* Imports a coder from the words of into_remainders: writes the heads, and the number of words that stay in
   remainders to *remainders_len. The coder has no compressed words below its heads.
   Error: INVALID_DATA (too few words, or one of the last two words is 0). */
uint32_t constriction_chain_from_remainders_u16(const uint16_t *words, size_t word_count, size_t *remainders_len,
                                                struct constriction_chain_heads_u16 *heads);

/* Decodes symbol_count symbols.
   Errors: WRONG_LENGTH (*compressed_len > compressed_count or *remainders_len > capacity), WRONG_WEIGHTS,
   INVALID_DATA (no coder has such heads), OUT_OF_DATA (compressed is too short), NO_SPACE (in remainders),
   NO_MEMORY. */
uint32_t constriction_chain_decode_u16(struct constriction_chain_heads_u16 *heads,
                                       const uint16_t *compressed, size_t compressed_count, size_t *compressed_len,
                                       uint16_t *remainders, size_t capacity, size_t *remainders_len,
                                       const uint16_t *weights, size_t weight_count,
                                       size_t *symbols, size_t symbol_count, size_t *needed);

/* Do the same with symbols of 8 and of 16 bits. These functions first decode a list of size_t. They also return
   WRONG_LENGTH if weight_count is above 256 or 65536, because then an index of the weights doesn't fit the type of
   the symbols. */
uint32_t constriction_chain_decode_bytes_u16(struct constriction_chain_heads_u16 *heads,
                                             const uint16_t *compressed, size_t compressed_count,
                                             size_t *compressed_len,
                                             uint16_t *remainders, size_t capacity, size_t *remainders_len,
                                             const uint16_t *weights, size_t weight_count,
                                             uint8_t *symbols, size_t symbol_count, size_t *needed);
uint32_t constriction_chain_decode_shorts_u16(struct constriction_chain_heads_u16 *heads,
                                              const uint16_t *compressed, size_t compressed_count,
                                              size_t *compressed_len,
                                              uint16_t *remainders, size_t capacity, size_t *remainders_len,
                                              const uint16_t *weights, size_t weight_count,
                                              uint16_t *symbols, size_t symbol_count, size_t *needed);

/* Does the same with a row of `width` weights for each symbol. Also returns WRONG_LENGTH if weight_count isn't width
   * symbol_count. */
uint32_t constriction_chain_decode_each_u16(struct constriction_chain_heads_u16 *heads,
                                            const uint16_t *compressed, size_t compressed_count, size_t *compressed_len,
                                            uint16_t *remainders, size_t capacity, size_t *remainders_len,
                                            const uint16_t *weights, size_t weight_count, size_t width,
                                            size_t *symbols, size_t symbol_count, size_t *needed);

/* Does the same with tables of `width` weights. Symbol symbols[i] has table indexes[i]. Also returns WRONG_LENGTH if
   weight_count isn't a multiple of width, if index_count isn't symbol_count, or if an index is past the tables. */
uint32_t constriction_chain_decode_indexed_u16(struct constriction_chain_heads_u16 *heads,
                                               const uint16_t *compressed, size_t compressed_count,
                                               size_t *compressed_len,
                                               uint16_t *remainders, size_t capacity, size_t *remainders_len,
                                               const uint16_t *weights, size_t weight_count, size_t width,
                                               const size_t *indexes, size_t index_count,
                                               size_t *symbols, size_t symbol_count, size_t *needed);

/* Encodes symbols from the last to the first. An encode is the inverse of a decode.
   Errors: WRONG_LENGTH (*compressed_len > capacity or *remainders_len > remainders_count), WRONG_WEIGHTS,
   INVALID_DATA (no coder has such heads), IMPOSSIBLE_SYMBOL, OUT_OF_DATA (remainders is too short), NO_SPACE (in
   compressed), NO_MEMORY. */
uint32_t constriction_chain_encode_reverse_u16(struct constriction_chain_heads_u16 *heads,
                                               uint16_t *compressed, size_t capacity, size_t *compressed_len,
                                               const uint16_t *remainders, size_t remainders_count,
                                               size_t *remainders_len,
                                               const uint16_t *weights, size_t weight_count,
                                               const size_t *symbols, size_t symbol_count, size_t *needed);

/* Do the same with symbols of 8 and of 16 bits, and write the same words. */
uint32_t constriction_chain_encode_bytes_reverse_u16(struct constriction_chain_heads_u16 *heads,
                                                     uint16_t *compressed, size_t capacity, size_t *compressed_len,
                                                     const uint16_t *remainders, size_t remainders_count,
                                                     size_t *remainders_len,
                                                     const uint16_t *weights, size_t weight_count,
                                                     const uint8_t *symbols, size_t symbol_count, size_t *needed);
uint32_t constriction_chain_encode_shorts_reverse_u16(struct constriction_chain_heads_u16 *heads,
                                                      uint16_t *compressed, size_t capacity, size_t *compressed_len,
                                                      const uint16_t *remainders, size_t remainders_count,
                                                      size_t *remainders_len,
                                                      const uint16_t *weights, size_t weight_count,
                                                      const uint16_t *symbols, size_t symbol_count, size_t *needed);

/* Does the same with a row of `width` weights for each symbol. Also returns WRONG_LENGTH if weight_count isn't width
   * symbol_count. */
uint32_t constriction_chain_encode_each_reverse_u16(struct constriction_chain_heads_u16 *heads,
                                                    uint16_t *compressed, size_t capacity, size_t *compressed_len,
                                                    const uint16_t *remainders, size_t remainders_count,
                                                    size_t *remainders_len,
                                                    const uint16_t *weights, size_t weight_count, size_t width,
                                                    const size_t *symbols, size_t symbol_count, size_t *needed);

/* Does the same with tables of `width` weights, and the index of a table for each symbol. */
uint32_t constriction_chain_encode_indexed_reverse_u16(struct constriction_chain_heads_u16 *heads,
                                                       uint16_t *compressed, size_t capacity, size_t *compressed_len,
                                                       const uint16_t *remainders, size_t remainders_count,
                                                       size_t *remainders_len,
                                                       const uint16_t *weights, size_t weight_count, size_t width,
                                                       const size_t *indexes, size_t index_count,
                                                       const size_t *symbols, size_t symbol_count, size_t *needed);

/* Does the same with intervals. Also returns WRONG_INTERVAL, but neither WRONG_WEIGHTS nor IMPOSSIBLE_SYMBOL. */
uint32_t constriction_chain_encode_intervals_reverse_u16(struct constriction_chain_heads_u16 *heads,
                                                         uint16_t *compressed, size_t capacity, size_t *compressed_len,
                                                         const uint16_t *remainders, size_t remainders_count,
                                                         size_t *remainders_len,
                                                         const uint16_t *lefts, size_t left_count,
                                                         const uint16_t *ps, size_t p_count, size_t *needed);

/* Appends the words of heads->remainders to compressed, lowest first and without leading zeros. To put all words in
   one list, put the words left in remainders before those of compressed.
   Errors: WRONG_LENGTH, INVALID_DATA (no coder has such heads, or bits are left over: heads->compressed isn't 1),
   NO_SPACE, NO_MEMORY. */
uint32_t constriction_chain_into_compressed_u16(const struct constriction_chain_heads_u16 *heads,
                                                uint16_t *compressed, size_t capacity, size_t *compressed_len, size_t *needed);

/* Appends the words of heads->remainders below its leading 1 to compressed, for from_binary.
   Errors: those of into_compressed, and INVALID_DATA if the number of bits below that leading 1 isn't a multiple of
   16. */
uint32_t constriction_chain_into_binary_u16(const struct constriction_chain_heads_u16 *heads,
                                            uint16_t *compressed, size_t capacity, size_t *compressed_len, size_t *needed);

/* Appends the words of heads->remainders, lowest first, and then heads->compressed to remainders. To put all words in
   one list, put the words left in compressed before those of remainders.
   Errors: WRONG_LENGTH, INVALID_DATA (no coder has such heads), NO_SPACE, NO_MEMORY. */
uint32_t constriction_chain_into_remainders_u16(const struct constriction_chain_heads_u16 *heads,
                                                uint16_t *remainders, size_t capacity, size_t *remainders_len, size_t *needed);

/* ---- Codewords, a whole list in one call ----

   Bits fill a word from its lowest bit up. A queue has the codewords in the order of the list, and then zeros up to
   a whole word. A stack has the codeword of the last symbol first, and each codeword reversed, then a 1, and zeros
   up to a whole word. So the first symbol is on top.

   An encode writes words starting at words[0], or bits starting at a given bit (.._at). It sets *len to the number
   of words that it wrote, and doesn't read *len. A decode returns the symbols in the order of the encoded list. The
   caller has to know the number of symbols. */

/* Encodes symbols with the Huffman tree of the weights, which have 32 bits each and a sum below 2^32. Huffman's
   algorithm joins the two least weights first. Of equal weights, the one with the lower index comes first, and joined
   weights come after all others. A single symbol has the empty codeword.
   Errors: WRONG_WEIGHTS (no weights, or their sum is too large), IMPOSSIBLE_SYMBOL (a symbol is past the end of the
   weights), NO_SPACE, NO_MEMORY. */
uint32_t constriction_huffman_encode_queue_u16(const uint32_t *weights, size_t weight_count,
                                               const size_t *symbols, size_t symbol_count,
                                               uint16_t *words, size_t capacity, size_t *len, size_t *needed);
uint32_t constriction_huffman_encode_stack_u16(const uint32_t *weights, size_t weight_count,
                                               const size_t *symbols, size_t symbol_count,
                                               uint16_t *words, size_t capacity, size_t *len, size_t *needed);

/* Decodes symbol_count symbols.
   Errors: WRONG_WEIGHTS, INVALID_DATA (the last word of a stack is 0), OUT_OF_DATA, NO_MEMORY. */
uint32_t constriction_huffman_decode_queue_u16(const uint32_t *weights, size_t weight_count,
                                               const uint16_t *words, size_t word_count,
                                               size_t *symbols, size_t symbol_count);
uint32_t constriction_huffman_decode_stack_u16(const uint32_t *weights, size_t weight_count,
                                               const uint16_t *words, size_t word_count,
                                               size_t *symbols, size_t symbol_count);

/* Encodes 16-bit numbers with Exp-Golomb codewords. If n + 1 has k + 1 bits, the codeword of n is k zeros and then
   the bits of n + 1, highest first. The codeword of the greatest number is 16 zeros, a 1, and 16 zeros.
   Errors: NO_SPACE, NO_MEMORY. */
uint32_t constriction_exp_golomb_encode_queue_u16(const uint16_t *symbols, size_t symbol_count,
                                                  uint16_t *words, size_t capacity, size_t *len, size_t *needed);
uint32_t constriction_exp_golomb_encode_stack_u16(const uint16_t *symbols, size_t symbol_count,
                                                  uint16_t *words, size_t capacity, size_t *len, size_t *needed);

/* Decodes symbol_count numbers.
   Errors: INVALID_DATA (the next bits begin with more zeros than a symbol has bits, or with the codeword of a number
   that doesn't fit a symbol; or the last word of a stack is 0), OUT_OF_DATA, NO_MEMORY. */
uint32_t constriction_exp_golomb_decode_queue_u16(const uint16_t *words, size_t word_count,
                                                  uint16_t *symbols, size_t symbol_count);
uint32_t constriction_exp_golomb_decode_stack_u16(const uint16_t *words, size_t word_count,
                                                  uint16_t *symbols, size_t symbol_count);

/* Encodes as a queue, starting at bit *bit of the words. So lists can follow one another, each with its own codebook.
   Bit i is bit i % 16 of words[i / 16], counted from the lowest. The call sets *bit to the bit after the last
   codeword. It leaves all bits below the old *bit unchanged. The other bits of the last word become 0.
   Errors: WRONG_LENGTH (*bit is past the buffer's end, or the buffer's number of bits doesn't fit size_t), and those
   of the encodes above. */
uint32_t constriction_huffman_encode_at_u16(const uint32_t *weights, size_t weight_count,
                                            const size_t *symbols, size_t symbol_count,
                                            uint16_t *words, size_t capacity, size_t *bit, size_t *needed);
uint32_t constriction_exp_golomb_encode_at_u16(const uint16_t *symbols, size_t symbol_count,
                                               uint16_t *words, size_t capacity, size_t *bit, size_t *needed);

/* Decodes a queue, starting at bit *bit of the words, and sets *bit to the bit after the last codeword. The next list
   may begin there: the symbols don't depend on the bits after the last codeword.
   Errors: WRONG_LENGTH (*bit is past the end of the words, or their number of bits doesn't fit size_t), and those of
   a queue's decodes. */
uint32_t constriction_huffman_decode_at_u16(const uint32_t *weights, size_t weight_count,
                                            const uint16_t *words, size_t word_count, size_t *bit,
                                            size_t *symbols, size_t symbol_count);
uint32_t constriction_exp_golomb_decode_at_u16(const uint16_t *words, size_t word_count, size_t *bit,
                                               uint16_t *symbols, size_t symbol_count);

#ifdef __cplusplus
}
#endif

#include "constriction_models.h"

#endif
