/* Models with whole-number parameters: distributions over a range of whole numbers, with a location and a scale for
   each symbol, and weights from counts and floats. This file is a part of constriction.h, which includes it. What
   constriction.h states about sizes, buffers, pointers and errors holds here too.

   FAMILIES. `family` is one of enum constriction_family. Each family is a standard distribution, moved by a location
   and stretched by a scale:

                                location    scale
       CONSTRICTION_GAUSSIAN    mean        standard deviation
       CONSTRICTION_LAPLACE     mean        distance from the mean at which the density has fallen by the factor 1/e
       CONSTRICTION_LOGISTIC    mean        `scale` in the distribution function 1 / (1 + exp(-(x - mean) / scale))

   UNITS. Locations and scales are whole numbers of units of 2^-16: a mean of 3.5 is 229376, and a deviation of 2.25
   is 147456. A scale is above 0. If you have floats, round each float once: llrint(65536 * mean). All later
   computations are in whole numbers, so a table is the same on every machine.

   RANGE. Symbols stand for the whole numbers from `min` to `max`, which are at least 2 and at most 2^24 (2^12)
   numbers. A symbol has type size_t, and is the number minus min: symbol 0 stands for min, symbol 1 for min + 1, and
   symbol max - min for max. So add min to a decoded symbol, and subtract min from a number to encode.

   TABLE. Each symbol has a weight of 1, and the distribution shares out the rest of 2^24 (2^12). The share of the
   whole number x is the probability between x - 1/2 and x + 1/2. The probability outside the range goes to the two
   ends of the range. So every symbol of the range can be encoded. The page MODELS.md has the exact definition.

   MIXTURES. The functions .._mixture have a row of `width` components of one family for each symbol. One row follows
   another in component_weights, locations and scales: component k of symbol i is item width * i + k of each list, so
   each list has width * symbol_count items. The mixture's distribution function is the weighted mean of the
   components' distribution functions. The weights of a row are whole numbers that add up to at least 1 and at most
   2^32. A weight may be 0. If you have floats, round each float once: llrint(2147483648 * weight).

   COUNTS. The functions .._counts have a row of `width` counts for each symbol, and need no other model. Each symbol
   below `width` has a weight of 1, and the counts share the rest of 2^24 (2^12): symbol i begins at
   before * (2^24 - width) / total + i (with 2^12 for .._u16), rounded down, where `before` is the sum of the counts
   before symbol i and `total` is the sum of the row. A count may be 0. If you have probabilities as floats,
   constriction_counts_of_floats computes counts.

   ERRORS. The functions .._quantized take one location and one scale for each symbol. If several errors apply, a call
   returns the first of these: WRONG_LENGTH (another number of locations or scales, or as in constriction.h);
   WRONG_INTERVAL (the range); WRONG_WEIGHTS (a scale is 0, the family doesn't exist, width is 0, or the weights of a
   row add up to 0 or to more than 2^32); INVALID_DATA for the state; IMPOSSIBLE_SYMBOL (a symbol is past the range);
   the other errors of constriction.h. NO_MEMORY can replace only those after IMPOSSIBLE_SYMBOL. */
#ifndef CONSTRICTION_MODELS_H
#define CONSTRICTION_MODELS_H

#include "constriction.h"

#ifdef __cplusplus
extern "C" {
#endif

/* The families of distributions. */
enum constriction_family {
    CONSTRICTION_GAUSSIAN = 0,
    CONSTRICTION_LAPLACE = 1,
    CONSTRICTION_LOGISTIC = 2
};

/* The number of units in a location or a scale of 1. */
#define CONSTRICTION_UNITS 65536

/* ---- Words of 32 bits, states of 64, weights that add up to 2^24 ---- */

/* The stack coder: encodes symbols from the last to the first, each with its own location and scale.
   Errors: WRONG_LENGTH (*len > capacity, or location_count or scale_count isn't symbol_count), WRONG_INTERVAL,
   WRONG_WEIGHTS, IMPOSSIBLE_SYMBOL, NO_SPACE, NO_MEMORY. */
uint32_t constriction_ans_encode_quantized_reverse_u32(uint64_t *head, uint32_t *words, size_t capacity, size_t *len,
                                                       uint32_t family, int32_t min, int32_t max,
                                                       const int64_t *locations, size_t location_count,
                                                       const uint32_t *scales, size_t scale_count,
                                                       const size_t *symbols, size_t symbol_count, size_t *needed);

/* Decodes symbol_count symbols and takes words off the top. When no words are left, decoding continues as in
   constriction_ans_decode.
   Errors: WRONG_LENGTH (*len > word_count, or location_count or scale_count isn't symbol_count), WRONG_INTERVAL,
   WRONG_WEIGHTS, NO_MEMORY. */
uint32_t constriction_ans_decode_quantized_u32(uint64_t *head, const uint32_t *words, size_t word_count, size_t *len,
                                               uint32_t family, int32_t min, int32_t max,
                                               const int64_t *locations, size_t location_count,
                                               const uint32_t *scales, size_t scale_count,
                                               size_t *symbols, size_t symbol_count);

/* The range coder: encodes symbols in order, each with its own location and scale.
   Errors: WRONG_LENGTH (*len > capacity, or location_count or scale_count isn't symbol_count), WRONG_INTERVAL,
   WRONG_WEIGHTS, INVALID_DATA (no encoder has such numbers), IMPOSSIBLE_SYMBOL, NO_SPACE, NO_MEMORY. */
uint32_t constriction_range_encode_quantized_u32(struct constriction_range_encoder_state_u32 *encoder,
                                                 uint32_t *words, size_t capacity, size_t *len,
                                                 uint32_t family, int32_t min, int32_t max,
                                                 const int64_t *locations, size_t location_count,
                                                 const uint32_t *scales, size_t scale_count,
                                                 const size_t *symbols, size_t symbol_count, size_t *needed);

/* Decodes symbol_count symbols. After the last word it reads zero words.
   Errors: WRONG_LENGTH (pos > word_count, or location_count or scale_count isn't symbol_count), WRONG_INTERVAL,
   WRONG_WEIGHTS, INVALID_DATA (no decoder has such numbers, or the words don't encode symbol_count symbols with these
   models), NO_MEMORY. */
uint32_t constriction_range_decode_quantized_u32(struct constriction_range_decoder_state_u32 *decoder,
                                                 const uint32_t *words, size_t word_count,
                                                 uint32_t family, int32_t min, int32_t max,
                                                 const int64_t *locations, size_t location_count,
                                                 const uint32_t *scales, size_t scale_count,
                                                 size_t *symbols, size_t symbol_count);

/* The chain coder: encodes symbols from the last to the first. An encode is the inverse of a decode.
   Errors: WRONG_LENGTH (*compressed_len > capacity, *remainders_len > remainders_count, or location_count or
   scale_count isn't symbol_count), WRONG_INTERVAL, WRONG_WEIGHTS, INVALID_DATA (no coder has such heads),
   IMPOSSIBLE_SYMBOL, OUT_OF_DATA (remainders is too short), NO_SPACE (in compressed), NO_MEMORY. */
uint32_t constriction_chain_encode_quantized_reverse_u32(struct constriction_chain_heads_u32 *heads,
                                                         uint32_t *compressed, size_t capacity, size_t *compressed_len,
                                                         const uint32_t *remainders, size_t remainders_count,
                                                         size_t *remainders_len,
                                                         uint32_t family, int32_t min, int32_t max,
                                                         const int64_t *locations, size_t location_count,
                                                         const uint32_t *scales, size_t scale_count,
                                                         const size_t *symbols, size_t symbol_count, size_t *needed);

/* Decodes symbol_count symbols, each from 24 bits of the words.
   Errors: WRONG_LENGTH (*compressed_len > compressed_count, *remainders_len > capacity, or location_count or
   scale_count isn't symbol_count), WRONG_INTERVAL, WRONG_WEIGHTS, INVALID_DATA (no coder has such heads),
   OUT_OF_DATA (compressed is too short), NO_SPACE (in remainders), NO_MEMORY. */
uint32_t constriction_chain_decode_quantized_u32(struct constriction_chain_heads_u32 *heads,
                                                 const uint32_t *compressed, size_t compressed_count,
                                                 size_t *compressed_len,
                                                 uint32_t *remainders, size_t capacity, size_t *remainders_len,
                                                 uint32_t family, int32_t min, int32_t max,
                                                 const int64_t *locations, size_t location_count,
                                                 const uint32_t *scales, size_t scale_count,
                                                 size_t *symbols, size_t symbol_count, size_t *needed);

/* Mixtures, with the errors of the functions .._quantized. WRONG_LENGTH also means that component_weight_count,
   location_count or scale_count isn't width * symbol_count. */
uint32_t constriction_ans_encode_mixture_reverse_u32(uint64_t *head, uint32_t *words, size_t capacity, size_t *len,
                                                     uint32_t family, int32_t min, int32_t max, size_t width,
                                                     const uint32_t *component_weights, size_t component_weight_count,
                                                     const int64_t *locations, size_t location_count,
                                                     const uint32_t *scales, size_t scale_count,
                                                     const size_t *symbols, size_t symbol_count, size_t *needed);
uint32_t constriction_ans_decode_mixture_u32(uint64_t *head, const uint32_t *words, size_t word_count, size_t *len,
                                             uint32_t family, int32_t min, int32_t max, size_t width,
                                             const uint32_t *component_weights, size_t component_weight_count,
                                             const int64_t *locations, size_t location_count,
                                             const uint32_t *scales, size_t scale_count,
                                             size_t *symbols, size_t symbol_count);
uint32_t constriction_range_encode_mixture_u32(struct constriction_range_encoder_state_u32 *encoder,
                                               uint32_t *words, size_t capacity, size_t *len,
                                               uint32_t family, int32_t min, int32_t max, size_t width,
                                               const uint32_t *component_weights, size_t component_weight_count,
                                               const int64_t *locations, size_t location_count,
                                               const uint32_t *scales, size_t scale_count,
                                               const size_t *symbols, size_t symbol_count, size_t *needed);
uint32_t constriction_range_decode_mixture_u32(struct constriction_range_decoder_state_u32 *decoder,
                                               const uint32_t *words, size_t word_count,
                                               uint32_t family, int32_t min, int32_t max, size_t width,
                                               const uint32_t *component_weights, size_t component_weight_count,
                                               const int64_t *locations, size_t location_count,
                                               const uint32_t *scales, size_t scale_count,
                                               size_t *symbols, size_t symbol_count);
uint32_t constriction_chain_encode_mixture_reverse_u32(struct constriction_chain_heads_u32 *heads,
                                                       uint32_t *compressed, size_t capacity, size_t *compressed_len,
                                                       const uint32_t *remainders, size_t remainders_count,
                                                       size_t *remainders_len,
                                                       uint32_t family, int32_t min, int32_t max, size_t width,
                                                       const uint32_t *component_weights,
                                                       size_t component_weight_count,
                                                       const int64_t *locations, size_t location_count,
                                                       const uint32_t *scales, size_t scale_count,
                                                       const size_t *symbols, size_t symbol_count, size_t *needed);
uint32_t constriction_chain_decode_mixture_u32(struct constriction_chain_heads_u32 *heads,
                                               const uint32_t *compressed, size_t compressed_count,
                                               size_t *compressed_len,
                                               uint32_t *remainders, size_t capacity, size_t *remainders_len,
                                               uint32_t family, int32_t min, int32_t max, size_t width,
                                               const uint32_t *component_weights, size_t component_weight_count,
                                               const int64_t *locations, size_t location_count,
                                               const uint32_t *scales, size_t scale_count,
                                               size_t *symbols, size_t symbol_count, size_t *needed);

/* Rows of counts: a row of `width` counts for each symbol, one row after another, so count_count is width *
   symbol_count. If several errors apply, a call returns the first of these: WRONG_LENGTH (another number of counts, or
   as in constriction.h); WRONG_WEIGHTS (2^24 counts or more in a row, or a row adds up to 0 or to 2^40 or more);
   INVALID_DATA for the state; IMPOSSIBLE_SYMBOL (a symbol is width or above); the other errors of constriction.h. */
uint32_t constriction_ans_encode_counts_reverse_u32(uint64_t *head, uint32_t *words, size_t capacity, size_t *len,
                                                    const uint32_t *counts, size_t count_count, size_t width,
                                                    const size_t *symbols, size_t symbol_count, size_t *needed);
uint32_t constriction_ans_decode_counts_u32(uint64_t *head, const uint32_t *words, size_t word_count, size_t *len,
                                            const uint32_t *counts, size_t count_count, size_t width,
                                            size_t *symbols, size_t symbol_count);
uint32_t constriction_range_encode_counts_u32(struct constriction_range_encoder_state_u32 *encoder,
                                              uint32_t *words, size_t capacity, size_t *len,
                                              const uint32_t *counts, size_t count_count, size_t width,
                                              const size_t *symbols, size_t symbol_count, size_t *needed);
uint32_t constriction_range_decode_counts_u32(struct constriction_range_decoder_state_u32 *decoder,
                                              const uint32_t *words, size_t word_count,
                                              const uint32_t *counts, size_t count_count, size_t width,
                                              size_t *symbols, size_t symbol_count);
uint32_t constriction_chain_encode_counts_reverse_u32(struct constriction_chain_heads_u32 *heads,
                                                      uint32_t *compressed, size_t capacity, size_t *compressed_len,
                                                      const uint32_t *remainders, size_t remainders_count,
                                                      size_t *remainders_len,
                                                      const uint32_t *counts, size_t count_count, size_t width,
                                                      const size_t *symbols, size_t symbol_count, size_t *needed);
uint32_t constriction_chain_decode_counts_u32(struct constriction_chain_heads_u32 *heads,
                                              const uint32_t *compressed, size_t compressed_count,
                                              size_t *compressed_len,
                                              uint32_t *remainders, size_t capacity, size_t *remainders_len,
                                              const uint32_t *counts, size_t count_count, size_t width,
                                              size_t *symbols, size_t symbol_count, size_t *needed);

/* Many stack coders in one call, as constriction.h says: row j of each list belongs to coder j. A location and a scale
   for each symbol, a mixture for each symbol, and a row of counts for each symbol, with the errors of the functions for
   one coder and the additional cases of WRONG_LENGTH in constriction.h. */
uint32_t constriction_ans_lanes_encode_quantized_reverse_u32(uint64_t *heads, size_t head_count,
                                                             uint32_t *words, size_t capacity,
                                                             size_t *lens, size_t len_count,
                                                             uint32_t family, int32_t min, int32_t max,
                                                             const int64_t *locations, size_t location_count,
                                                             const uint32_t *scales, size_t scale_count,
                                                             const size_t *symbols, size_t symbol_count, size_t *needed);
uint32_t constriction_ans_lanes_decode_quantized_u32(uint64_t *heads, size_t head_count,
                                                     const uint32_t *words, size_t word_count,
                                                     size_t *lens, size_t len_count,
                                                     uint32_t family, int32_t min, int32_t max,
                                                     const int64_t *locations, size_t location_count,
                                                     const uint32_t *scales, size_t scale_count,
                                                     size_t *symbols, size_t symbol_count);
uint32_t constriction_ans_lanes_encode_mixture_reverse_u32(uint64_t *heads, size_t head_count,
                                                           uint32_t *words, size_t capacity,
                                                           size_t *lens, size_t len_count,
                                                           uint32_t family, int32_t min, int32_t max, size_t width,
                                                           const uint32_t *component_weights, size_t component_weight_count,
                                                           const int64_t *locations, size_t location_count,
                                                           const uint32_t *scales, size_t scale_count,
                                                           const size_t *symbols, size_t symbol_count, size_t *needed);
uint32_t constriction_ans_lanes_decode_mixture_u32(uint64_t *heads, size_t head_count,
                                                   const uint32_t *words, size_t word_count,
                                                   size_t *lens, size_t len_count,
                                                   uint32_t family, int32_t min, int32_t max, size_t width,
                                                   const uint32_t *component_weights, size_t component_weight_count,
                                                   const int64_t *locations, size_t location_count,
                                                   const uint32_t *scales, size_t scale_count,
                                                   size_t *symbols, size_t symbol_count);
uint32_t constriction_ans_lanes_encode_counts_reverse_u32(uint64_t *heads, size_t head_count,
                                                          uint32_t *words, size_t capacity,
                                                          size_t *lens, size_t len_count,
                                                          const uint32_t *counts, size_t count_count, size_t width,
                                                          const size_t *symbols, size_t symbol_count, size_t *needed);
uint32_t constriction_ans_lanes_decode_counts_u32(uint64_t *heads, size_t head_count,
                                                  const uint32_t *words, size_t word_count,
                                                  size_t *lens, size_t len_count,
                                                  const uint32_t *counts, size_t count_count, size_t width,
                                                  size_t *symbols, size_t symbol_count);

/* Writes the interval of each symbol, for the functions .._intervals. Writes the sum of the weights before the symbol
   to lefts[i], and the symbol's weight to ps[i]. With the same location and scale for all symbols 0 to max - min, ps
   is a whole table, which can be passed as `weights`.
   Errors: WRONG_LENGTH (location_count, scale_count, left_count or p_count isn't symbol_count), WRONG_INTERVAL,
   WRONG_WEIGHTS, IMPOSSIBLE_SYMBOL. */
uint32_t constriction_quantized_intervals_u32(uint32_t family, int32_t min, int32_t max,
                                              const int64_t *locations, size_t location_count,
                                              const uint32_t *scales, size_t scale_count,
                                              const size_t *symbols, size_t symbol_count,
                                              uint32_t *lefts, size_t left_count, uint32_t *ps, size_t p_count);

/* Writes weights in proportion to counts. The weights add up to 2^24. A count of 0 gets the weight 0, and a count above
   0 whose share is below 1 gets the weight 1. The other counts share the rest of 2^24 in proportion, rounded by the
   largest remainders. Of equal remainders, the first one comes first. The sum of the counts may exceed 2^64.
   Errors: WRONG_LENGTH (weight_count isn't count_count); WRONG_WEIGHTS (no count is above 0, or more than 2^24 counts
   are above 0); NO_MEMORY. */
uint32_t constriction_weights_of_counts_u32(const uint64_t *counts, size_t count_count,
                                            uint32_t *weights, size_t weight_count);

/* Writes weights in proportion to probabilities, given as floats. The weights add up to 2^24, and each is at least
   1. The floats needn't add up to 1. The rule: each float is multiplied by the power of two that makes the greatest
   one at least 2^61 and less than 2^62, and is rounded to the nearest whole number, half to even. A count of 0
   becomes 1. The weights are those of constriction_weights_of_counts for these counts. All computations are in whole
   numbers, so the weights are the same on every machine. A double has to be an IEEE 754 binary64. The call takes 7 to
   12 nanoseconds and requests about 30 bytes of memory for each float.
   Errors: WRONG_LENGTH (weight_count isn't float_count); WRONG_WEIGHTS (a float is negative, infinite or NaN, or
   none is above 0, or there are more than 2^24 floats); NO_MEMORY. */
uint32_t constriction_weights_of_floats_u32(const double *floats, size_t float_count,
                                            uint32_t *weights, size_t weight_count);

/* Writes counts in proportion to probabilities, for the functions .._counts. `floats` has rows of `width` floats,
   one after another, and each float gets a count. The floats of a row needn't add up to 1. The rule: each float of a
   row is multiplied by the power of two that makes the row's greatest float at least 2^30 and less than 2^31, and is
   rounded to the nearest whole number, half to even. If a row's counts then add up to 2^40 or more, its power of two
   is divided by the least power of two that brings this sum below 2^39, and its counts are computed again. The
   functions .._counts accept the counts of each row. The call computes in whole numbers, takes 4 nanoseconds for
   each float, and needs no memory. A double has to be an IEEE 754 binary64.
   Errors: WRONG_LENGTH (count_count isn't float_count, or float_count isn't a multiple of width); WRONG_WEIGHTS
   (a row has a float that is negative, infinite or NaN, or no float above 0, or 2^24 floats or more). */
uint32_t constriction_counts_of_floats_u32(const double *floats, size_t float_count, size_t width,
                                           uint32_t *counts, size_t count_count);

/* ---- Words of 16 bits, states of 32, weights that add up to 2^12: the same, with 2^12 in the place of 2^24 ---- */
/* Written by the script `sizes` from the part above. */

uint32_t constriction_ans_encode_quantized_reverse_u16(uint32_t *head, uint16_t *words, size_t capacity, size_t *len,
                                                       uint32_t family, int32_t min, int32_t max,
                                                       const int64_t *locations, size_t location_count,
                                                       const uint32_t *scales, size_t scale_count,
                                                       const size_t *symbols, size_t symbol_count, size_t *needed);
uint32_t constriction_ans_decode_quantized_u16(uint32_t *head, const uint16_t *words, size_t word_count, size_t *len,
                                               uint32_t family, int32_t min, int32_t max,
                                               const int64_t *locations, size_t location_count,
                                               const uint32_t *scales, size_t scale_count,
                                               size_t *symbols, size_t symbol_count);
uint32_t constriction_range_encode_quantized_u16(struct constriction_range_encoder_state_u16 *encoder,
                                                 uint16_t *words, size_t capacity, size_t *len,
                                                 uint32_t family, int32_t min, int32_t max,
                                                 const int64_t *locations, size_t location_count,
                                                 const uint32_t *scales, size_t scale_count,
                                                 const size_t *symbols, size_t symbol_count, size_t *needed);
uint32_t constriction_range_decode_quantized_u16(struct constriction_range_decoder_state_u16 *decoder,
                                                 const uint16_t *words, size_t word_count,
                                                 uint32_t family, int32_t min, int32_t max,
                                                 const int64_t *locations, size_t location_count,
                                                 const uint32_t *scales, size_t scale_count,
                                                 size_t *symbols, size_t symbol_count);
uint32_t constriction_chain_encode_quantized_reverse_u16(struct constriction_chain_heads_u16 *heads,
                                                         uint16_t *compressed, size_t capacity, size_t *compressed_len,
                                                         const uint16_t *remainders, size_t remainders_count,
                                                         size_t *remainders_len,
                                                         uint32_t family, int32_t min, int32_t max,
                                                         const int64_t *locations, size_t location_count,
                                                         const uint32_t *scales, size_t scale_count,
                                                         const size_t *symbols, size_t symbol_count, size_t *needed);
uint32_t constriction_chain_decode_quantized_u16(struct constriction_chain_heads_u16 *heads,
                                                 const uint16_t *compressed, size_t compressed_count,
                                                 size_t *compressed_len,
                                                 uint16_t *remainders, size_t capacity, size_t *remainders_len,
                                                 uint32_t family, int32_t min, int32_t max,
                                                 const int64_t *locations, size_t location_count,
                                                 const uint32_t *scales, size_t scale_count,
                                                 size_t *symbols, size_t symbol_count, size_t *needed);
uint32_t constriction_ans_encode_mixture_reverse_u16(uint32_t *head, uint16_t *words, size_t capacity, size_t *len,
                                                     uint32_t family, int32_t min, int32_t max, size_t width,
                                                     const uint32_t *component_weights, size_t component_weight_count,
                                                     const int64_t *locations, size_t location_count,
                                                     const uint32_t *scales, size_t scale_count,
                                                     const size_t *symbols, size_t symbol_count, size_t *needed);
uint32_t constriction_ans_decode_mixture_u16(uint32_t *head, const uint16_t *words, size_t word_count, size_t *len,
                                             uint32_t family, int32_t min, int32_t max, size_t width,
                                             const uint32_t *component_weights, size_t component_weight_count,
                                             const int64_t *locations, size_t location_count,
                                             const uint32_t *scales, size_t scale_count,
                                             size_t *symbols, size_t symbol_count);
uint32_t constriction_range_encode_mixture_u16(struct constriction_range_encoder_state_u16 *encoder,
                                               uint16_t *words, size_t capacity, size_t *len,
                                               uint32_t family, int32_t min, int32_t max, size_t width,
                                               const uint32_t *component_weights, size_t component_weight_count,
                                               const int64_t *locations, size_t location_count,
                                               const uint32_t *scales, size_t scale_count,
                                               const size_t *symbols, size_t symbol_count, size_t *needed);
uint32_t constriction_range_decode_mixture_u16(struct constriction_range_decoder_state_u16 *decoder,
                                               const uint16_t *words, size_t word_count,
                                               uint32_t family, int32_t min, int32_t max, size_t width,
                                               const uint32_t *component_weights, size_t component_weight_count,
                                               const int64_t *locations, size_t location_count,
                                               const uint32_t *scales, size_t scale_count,
                                               size_t *symbols, size_t symbol_count);
uint32_t constriction_chain_encode_mixture_reverse_u16(struct constriction_chain_heads_u16 *heads,
                                                       uint16_t *compressed, size_t capacity, size_t *compressed_len,
                                                       const uint16_t *remainders, size_t remainders_count,
                                                       size_t *remainders_len,
                                                       uint32_t family, int32_t min, int32_t max, size_t width,
                                                       const uint32_t *component_weights,
                                                       size_t component_weight_count,
                                                       const int64_t *locations, size_t location_count,
                                                       const uint32_t *scales, size_t scale_count,
                                                       const size_t *symbols, size_t symbol_count, size_t *needed);
uint32_t constriction_chain_decode_mixture_u16(struct constriction_chain_heads_u16 *heads,
                                               const uint16_t *compressed, size_t compressed_count,
                                               size_t *compressed_len,
                                               uint16_t *remainders, size_t capacity, size_t *remainders_len,
                                               uint32_t family, int32_t min, int32_t max, size_t width,
                                               const uint32_t *component_weights, size_t component_weight_count,
                                               const int64_t *locations, size_t location_count,
                                               const uint32_t *scales, size_t scale_count,
                                               size_t *symbols, size_t symbol_count, size_t *needed);
uint32_t constriction_ans_encode_counts_reverse_u16(uint32_t *head, uint16_t *words, size_t capacity, size_t *len,
                                                    const uint32_t *counts, size_t count_count, size_t width,
                                                    const size_t *symbols, size_t symbol_count, size_t *needed);
uint32_t constriction_ans_decode_counts_u16(uint32_t *head, const uint16_t *words, size_t word_count, size_t *len,
                                            const uint32_t *counts, size_t count_count, size_t width,
                                            size_t *symbols, size_t symbol_count);
uint32_t constriction_range_encode_counts_u16(struct constriction_range_encoder_state_u16 *encoder,
                                              uint16_t *words, size_t capacity, size_t *len,
                                              const uint32_t *counts, size_t count_count, size_t width,
                                              const size_t *symbols, size_t symbol_count, size_t *needed);
uint32_t constriction_range_decode_counts_u16(struct constriction_range_decoder_state_u16 *decoder,
                                              const uint16_t *words, size_t word_count,
                                              const uint32_t *counts, size_t count_count, size_t width,
                                              size_t *symbols, size_t symbol_count);
uint32_t constriction_chain_encode_counts_reverse_u16(struct constriction_chain_heads_u16 *heads,
                                                      uint16_t *compressed, size_t capacity, size_t *compressed_len,
                                                      const uint16_t *remainders, size_t remainders_count,
                                                      size_t *remainders_len,
                                                      const uint32_t *counts, size_t count_count, size_t width,
                                                      const size_t *symbols, size_t symbol_count, size_t *needed);
uint32_t constriction_chain_decode_counts_u16(struct constriction_chain_heads_u16 *heads,
                                              const uint16_t *compressed, size_t compressed_count,
                                              size_t *compressed_len,
                                              uint16_t *remainders, size_t capacity, size_t *remainders_len,
                                              const uint32_t *counts, size_t count_count, size_t width,
                                              size_t *symbols, size_t symbol_count, size_t *needed);
uint32_t constriction_ans_lanes_encode_quantized_reverse_u16(uint32_t *heads, size_t head_count,
                                                             uint16_t *words, size_t capacity,
                                                             size_t *lens, size_t len_count,
                                                             uint32_t family, int32_t min, int32_t max,
                                                             const int64_t *locations, size_t location_count,
                                                             const uint32_t *scales, size_t scale_count,
                                                             const size_t *symbols, size_t symbol_count, size_t *needed);
uint32_t constriction_ans_lanes_decode_quantized_u16(uint32_t *heads, size_t head_count,
                                                     const uint16_t *words, size_t word_count,
                                                     size_t *lens, size_t len_count,
                                                     uint32_t family, int32_t min, int32_t max,
                                                     const int64_t *locations, size_t location_count,
                                                     const uint32_t *scales, size_t scale_count,
                                                     size_t *symbols, size_t symbol_count);
uint32_t constriction_ans_lanes_encode_mixture_reverse_u16(uint32_t *heads, size_t head_count,
                                                           uint16_t *words, size_t capacity,
                                                           size_t *lens, size_t len_count,
                                                           uint32_t family, int32_t min, int32_t max, size_t width,
                                                           const uint32_t *component_weights, size_t component_weight_count,
                                                           const int64_t *locations, size_t location_count,
                                                           const uint32_t *scales, size_t scale_count,
                                                           const size_t *symbols, size_t symbol_count, size_t *needed);
uint32_t constriction_ans_lanes_decode_mixture_u16(uint32_t *heads, size_t head_count,
                                                   const uint16_t *words, size_t word_count,
                                                   size_t *lens, size_t len_count,
                                                   uint32_t family, int32_t min, int32_t max, size_t width,
                                                   const uint32_t *component_weights, size_t component_weight_count,
                                                   const int64_t *locations, size_t location_count,
                                                   const uint32_t *scales, size_t scale_count,
                                                   size_t *symbols, size_t symbol_count);
uint32_t constriction_ans_lanes_encode_counts_reverse_u16(uint32_t *heads, size_t head_count,
                                                          uint16_t *words, size_t capacity,
                                                          size_t *lens, size_t len_count,
                                                          const uint32_t *counts, size_t count_count, size_t width,
                                                          const size_t *symbols, size_t symbol_count, size_t *needed);
uint32_t constriction_ans_lanes_decode_counts_u16(uint32_t *heads, size_t head_count,
                                                  const uint16_t *words, size_t word_count,
                                                  size_t *lens, size_t len_count,
                                                  const uint32_t *counts, size_t count_count, size_t width,
                                                  size_t *symbols, size_t symbol_count);
uint32_t constriction_quantized_intervals_u16(uint32_t family, int32_t min, int32_t max,
                                              const int64_t *locations, size_t location_count,
                                              const uint32_t *scales, size_t scale_count,
                                              const size_t *symbols, size_t symbol_count,
                                              uint16_t *lefts, size_t left_count, uint16_t *ps, size_t p_count);
uint32_t constriction_weights_of_counts_u16(const uint64_t *counts, size_t count_count,
                                            uint16_t *weights, size_t weight_count);
uint32_t constriction_weights_of_floats_u16(const double *floats, size_t float_count,
                                            uint16_t *weights, size_t weight_count);
uint32_t constriction_counts_of_floats_u16(const double *floats, size_t float_count, size_t width,
                                           uint32_t *counts, size_t count_count);

/* ==== The same by the names of the families ====

   Inline functions for both sizes, and for each NAME of gaussian, laplace and logistic:

        constriction_ans_encode_NAME_reverse_u32      constriction_ans_decode_NAME_u32
        constriction_range_encode_NAME_u32            constriction_range_decode_NAME_u32
        constriction_chain_encode_NAME_reverse_u32    constriction_chain_decode_NAME_u32
        constriction_NAME_intervals_u32               constriction_NAME_interval_u32

   Each function except the last does the same as the function with `quantized` in place of NAME, and has no argument
   `family`. The last function writes the interval of one symbol, with one location and scale, to *left and *p.
   Errors: WRONG_INTERVAL, WRONG_WEIGHTS (the scale is 0), IMPOSSIBLE_SYMBOL. */
#define CONSTRICTION_MODEL_ \
    int32_t min, int32_t max, const int64_t *locations, size_t location_count, const uint32_t *scales, size_t scale_count
#define CONSTRICTION_OF_MODEL_ min, max, locations, location_count, scales, scale_count
#define CONSTRICTION_GIVEN_ const size_t *symbols, size_t symbol_count
#define CONSTRICTION_TAKEN_ size_t *symbols, size_t symbol_count

#define CONSTRICTION_OF_FAMILY_(name, family, size, word, state) \
    static inline uint32_t constriction_ans_encode_##name##_reverse_##size( \
        state *head, word *words, size_t capacity, size_t *len, \
        CONSTRICTION_MODEL_, CONSTRICTION_GIVEN_, size_t *needed) { \
        return constriction_ans_encode_quantized_reverse_##size( \
            head, words, capacity, len, family, CONSTRICTION_OF_MODEL_, symbols, symbol_count, needed); \
    } \
    static inline uint32_t constriction_ans_decode_##name##_##size( \
        state *head, const word *words, size_t word_count, size_t *len, CONSTRICTION_MODEL_, CONSTRICTION_TAKEN_) { \
        return constriction_ans_decode_quantized_##size( \
            head, words, word_count, len, family, CONSTRICTION_OF_MODEL_, symbols, symbol_count); \
    } \
    static inline uint32_t constriction_range_encode_##name##_##size( \
        struct constriction_range_encoder_state_##size *encoder, word *words, size_t capacity, size_t *len, \
        CONSTRICTION_MODEL_, CONSTRICTION_GIVEN_, size_t *needed) { \
        return constriction_range_encode_quantized_##size( \
            encoder, words, capacity, len, family, CONSTRICTION_OF_MODEL_, symbols, symbol_count, needed); \
    } \
    static inline uint32_t constriction_range_decode_##name##_##size( \
        struct constriction_range_decoder_state_##size *decoder, const word *words, size_t word_count, \
        CONSTRICTION_MODEL_, CONSTRICTION_TAKEN_) { \
        return constriction_range_decode_quantized_##size( \
            decoder, words, word_count, family, CONSTRICTION_OF_MODEL_, symbols, symbol_count); \
    } \
    static inline uint32_t constriction_chain_encode_##name##_reverse_##size( \
        struct constriction_chain_heads_##size *heads, word *compressed, size_t capacity, size_t *compressed_len, \
        const word *remainders, size_t remainders_count, size_t *remainders_len, \
        CONSTRICTION_MODEL_, CONSTRICTION_GIVEN_, size_t *needed) { \
        return constriction_chain_encode_quantized_reverse_##size( \
            heads, compressed, capacity, compressed_len, remainders, remainders_count, remainders_len, \
            family, CONSTRICTION_OF_MODEL_, symbols, symbol_count, needed); \
    } \
    static inline uint32_t constriction_chain_decode_##name##_##size( \
        struct constriction_chain_heads_##size *heads, \
        const word *compressed, size_t compressed_count, size_t *compressed_len, \
        word *remainders, size_t capacity, size_t *remainders_len, \
        CONSTRICTION_MODEL_, CONSTRICTION_TAKEN_, size_t *needed) { \
        return constriction_chain_decode_quantized_##size( \
            heads, compressed, compressed_count, compressed_len, remainders, capacity, remainders_len, \
            family, CONSTRICTION_OF_MODEL_, symbols, symbol_count, needed); \
    } \
    static inline uint32_t constriction_##name##_intervals_##size( \
        CONSTRICTION_MODEL_, CONSTRICTION_GIVEN_, word *lefts, size_t left_count, word *ps, size_t p_count) { \
        return constriction_quantized_intervals_##size( \
            family, CONSTRICTION_OF_MODEL_, symbols, symbol_count, lefts, left_count, ps, p_count); \
    } \
    static inline uint32_t constriction_##name##_interval_##size( \
        int32_t min, int32_t max, int64_t location, uint32_t scale, size_t symbol, word *left, word *p) { \
        return constriction_quantized_intervals_##size( \
            family, min, max, &location, 1, &scale, 1, &symbol, 1, left, 1, p, 1); \
    }

CONSTRICTION_OF_FAMILY_(gaussian, CONSTRICTION_GAUSSIAN, u32, uint32_t, uint64_t)
CONSTRICTION_OF_FAMILY_(laplace, CONSTRICTION_LAPLACE, u32, uint32_t, uint64_t)
CONSTRICTION_OF_FAMILY_(logistic, CONSTRICTION_LOGISTIC, u32, uint32_t, uint64_t)
CONSTRICTION_OF_FAMILY_(gaussian, CONSTRICTION_GAUSSIAN, u16, uint16_t, uint32_t)
CONSTRICTION_OF_FAMILY_(laplace, CONSTRICTION_LAPLACE, u16, uint16_t, uint32_t)
CONSTRICTION_OF_FAMILY_(logistic, CONSTRICTION_LOGISTIC, u16, uint16_t, uint32_t)

#undef CONSTRICTION_OF_FAMILY_
#undef CONSTRICTION_MODEL_
#undef CONSTRICTION_OF_MODEL_
#undef CONSTRICTION_GIVEN_
#undef CONSTRICTION_TAKEN_

#ifdef __cplusplus
}
#endif

#endif
