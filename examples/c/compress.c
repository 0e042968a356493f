/* Compresses a file byte by byte, and brings it back.

       compress ans|range FILE PACKED        compresses FILE
       compress -d PACKED FILE               brings it back

   The model is how often each byte value occurs in the file, as weights that add up to 2^24. PACKED holds numbers of
   32 bits, the lowest byte first:

       the letters CTR1 of a file by the range coder, or CTA1 of one by the stack coder
       the length of FILE in bytes, its lower half and then its upper one
       the 256 weights
       the coder's words */
#include "constriction.h"

#include <stdio.h>
#include <stdlib.h>
#include <string.h>

enum { KINDS = 256, HEADER = 3 + KINDS };
static const uint32_t RANGE_FILE = 0x31525443, ANS_FILE = 0x31415443;

static void fail(const char *why) {
    fprintf(stderr, "compress: %s\n", why);
    exit(1);
}

/* Any size, so that an empty list has an address too. */
static void *room_for(size_t count, size_t size) {
    void *room = count < SIZE_MAX / size ? calloc(count + 1, size) : NULL;
    if (!room) fail("out of memory");
    return room;
}

static void want_done(uint32_t result) {
    if (result != CONSTRICTION_DONE) fail(constriction_result_text(result));
}

static unsigned char *read_file(const char *path, size_t *length) {
    FILE *file = fopen(path, "rb");
    if (!file) fail("cannot read the file");
    size_t room = 1 << 16, got;
    unsigned char *bytes = room_for(room, 1);
    *length = 0;
    while ((got = fread(bytes + *length, 1, room - *length, file)) > 0) {
        *length += got;
        if (*length == room && !(bytes = realloc(bytes, room *= 2))) fail("out of memory");
    }
    if (ferror(file)) fail("cannot read the file");
    fclose(file);
    return bytes;
}

static void write_file(const char *path, const unsigned char *bytes, size_t length) {
    FILE *file = fopen(path, "wb");
    if (!file || fwrite(bytes, 1, length, file) != length || fclose(file)) fail("cannot write the file");
}

/* The words of these symbols. There are fewer than 2 + symbols. */
static size_t encode(int by_range, const uint32_t *weights, const size_t *symbols, size_t count, uint32_t *words, size_t room) {
    size_t len = 0, needed;
    if (by_range) {
        struct constriction_range_encoder_state_u32 encoder;
        want_done(constriction_range_encoder_u32(&encoder));
        want_done(constriction_range_encode_u32(&encoder, words, room, &len, weights, KINDS, symbols, count, &needed));
        want_done(constriction_range_into_compressed_u32(&encoder, words, room, &len, &needed));
    } else {
        uint64_t head = 0;
        want_done(constriction_ans_encode_reverse_u32(&head, words, room, &len, weights, KINDS, symbols, count, &needed));
        want_done(constriction_ans_into_compressed_u32(head, words, room, &len, &needed));
    }
    return len;
}

static void decode(int by_range, const uint32_t *weights, const uint32_t *words, size_t word_count, size_t *symbols, size_t count) {
    if (by_range) {
        struct constriction_range_decoder_state_u32 decoder;
        want_done(constriction_range_from_compressed_u32(words, word_count, &decoder));
        want_done(constriction_range_decode_u32(&decoder, words, word_count, weights, KINDS, symbols, count));
    } else {
        uint64_t head;
        size_t len;
        want_done(constriction_ans_from_compressed_u32(words, word_count, &len, &head));
        want_done(constriction_ans_decode_u32(&head, words, word_count, &len, weights, KINDS, symbols, count));
    }
}

static void compress(int by_range, const char *from, const char *to) {
    size_t length;
    uint64_t counts[KINDS] = {0};
    unsigned char *bytes = read_file(from, &length);
    size_t *symbols = room_for(length, sizeof *symbols);
    for (size_t i = 0; i < length; i++) counts[symbols[i] = bytes[i]]++;
    if (!length) counts[0] = 1; /* weights of an empty file, which has no symbol */

    uint32_t *packed = room_for(HEADER + 2 + length, sizeof *packed), *weights = packed + 3, *words = packed + HEADER;
    packed[0] = by_range ? RANGE_FILE : ANS_FILE;
    packed[1] = (uint32_t)length;
    packed[2] = (uint32_t)((uint64_t)length >> 32);
    want_done(constriction_weights_of_counts_u32(counts, KINDS, weights, KINDS));
    size_t total = HEADER + encode(by_range, weights, symbols, length, words, 2 + length);

    unsigned char *out = room_for(total, 4);
    for (size_t i = 0; i < total; i++)
        for (int k = 0; k < 4; k++) out[4 * i + k] = (unsigned char)(packed[i] >> 8 * k);
    write_file(to, out, 4 * total);
    free(out), free(packed), free(symbols), free(bytes);
}

static void decompress(const char *from, const char *to) {
    size_t size;
    unsigned char *bytes = read_file(from, &size);
    if (size % 4 || size < 4 * HEADER) fail("this is no packed file");
    uint32_t *packed = room_for(size / 4, sizeof *packed);
    for (size_t i = 0; i < size; i++) packed[i / 4] |= (uint32_t)bytes[i] << 8 * (i % 4);
    if (packed[0] != RANGE_FILE && packed[0] != ANS_FILE) fail("this is no packed file");
    uint64_t length = packed[1] | (uint64_t)packed[2] << 32;
    if (length > SIZE_MAX / sizeof(size_t) - 1) fail("out of memory");

    size_t count = (size_t)length, *symbols = room_for(count, sizeof *symbols);
    decode(packed[0] == RANGE_FILE, packed + 3, packed + HEADER, size / 4 - HEADER, symbols, count);
    unsigned char *out = room_for(count, 1);
    for (size_t i = 0; i < count; i++) out[i] = (unsigned char)symbols[i];
    write_file(to, out, count);
    free(out), free(symbols), free(packed), free(bytes);
}

int main(int count, char **words) {
    if (count == 4 && !strcmp(words[1], "-d")) decompress(words[2], words[3]);
    else if (count == 4 && !strcmp(words[1], "ans")) compress(0, words[2], words[3]);
    else if (count == 4 && !strcmp(words[1], "range")) compress(1, words[2], words[3]);
    else {
        fprintf(stderr, "usage: compress ans|range FILE PACKED\n       compress -d PACKED FILE\n");
        return 2;
    }
    return 0;
}
