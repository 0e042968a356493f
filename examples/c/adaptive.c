/* Compresses a file byte by byte under counts that both sides learn, and brings it back.

       adaptive FILE PACKED        compresses FILE
       adaptive -d PACKED FILE     brings it back

   The model is how often each byte value occurred so far. Each byte is a call of its own under a row of counts, which
   the library rounds to weights. So PACKED has no table. It holds numbers of 32 bits, the lowest byte first:

       the letters CTL1
       the length of FILE in bytes, its lower half and then its upper one
       the words of the range coder */
#include "constriction.h"

#include <stdio.h>
#include <stdlib.h>
#include <string.h>

enum { KINDS = 256, HEADER = 3, STEP = 32, MOST = 1 << 16 };
static const uint32_t ADAPTIVE_FILE = 0x314c5443;

static void fail(const char *why) {
    fprintf(stderr, "adaptive: %s\n", why);
    exit(1);
}

static void want_done(uint32_t result) {
    if (result != CONSTRICTION_DONE) fail(constriction_result_text(result));
}

/* Any size, so that an empty list has an address too. */
static void *room_for(size_t count, size_t size) {
    void *room = count < SIZE_MAX / size ? calloc(count + 1, size) : NULL;
    if (!room) fail("out of memory");
    return room;
}

static unsigned char *read_file(const char *path, size_t *length) {
    FILE *file = fopen(path, "rb");
    if (!file) fail("cannot read the file");
    size_t room = 1 << 16, got;
    unsigned char *bytes = room_for(room, 1);
    *length = 0;
    while ((got = fread(bytes + *length, 1, room - *length, file)) > 0) {
        *length += got;
        if (*length == room && !(bytes = realloc(bytes, room *= 2))) fail("out of memory");
    }
    if (ferror(file)) fail("cannot read the file");
    fclose(file);
    return bytes;
}

static void write_file(const char *path, const unsigned char *bytes, size_t length) {
    FILE *file = fopen(path, "wb");
    if (!file || fwrite(bytes, 1, length, file) != length || fclose(file)) fail("cannot write the file");
}

/* Counts a byte. When its count is large, all counts are halved, so that bytes long ago count for less. */
static void learn(uint32_t *counts, size_t symbol) {
    if ((counts[symbol] += STEP) < MOST) return;
    for (size_t i = 0; i < KINDS; i++) counts[i] -= counts[i] / 2;
}

static void begin(uint32_t *counts) {
    for (size_t i = 0; i < KINDS; i++) counts[i] = 1;
}

static void compress(const char *from, const char *to) {
    struct constriction_range_encoder_state_u32 encoder;
    size_t length, len = 0, needed;
    unsigned char *bytes = read_file(from, &length);
    /* A symbol writes at most one word, and the last call writes at most two. */
    uint32_t counts[KINDS], *packed = room_for(HEADER + 2 + length, sizeof *packed), *words = packed + HEADER;
    packed[0] = ADAPTIVE_FILE;
    packed[1] = (uint32_t)length;
    packed[2] = (uint32_t)((uint64_t)length >> 32);
    begin(counts);
    want_done(constriction_range_encoder_u32(&encoder));
    for (size_t i = 0; i < length; i++) {
        size_t symbol = bytes[i];
        want_done(constriction_range_encode_counts_u32(&encoder, words, 2 + length, &len, counts, KINDS, KINDS, &symbol, 1, &needed));
        learn(counts, symbol);
    }
    want_done(constriction_range_into_compressed_u32(&encoder, words, 2 + length, &len, &needed));

    unsigned char *out = room_for(HEADER + len, 4);
    for (size_t i = 0; i < HEADER + len; i++)
        for (int k = 0; k < 4; k++) out[4 * i + k] = (unsigned char)(packed[i] >> 8 * k);
    write_file(to, out, 4 * (HEADER + len));
    free(out), free(packed), free(bytes);
}

static void decompress(const char *from, const char *to) {
    struct constriction_range_decoder_state_u32 decoder;
    size_t size;
    unsigned char *bytes = read_file(from, &size);
    if (size % 4 || size < 4 * HEADER) fail("this is no packed file");
    uint32_t counts[KINDS], *packed = room_for(size / 4, sizeof *packed);
    for (size_t i = 0; i < size; i++) packed[i / 4] |= (uint32_t)bytes[i] << 8 * (i % 4);
    uint64_t length = packed[1] | (uint64_t)packed[2] << 32;
    if (packed[0] != ADAPTIVE_FILE) fail("this is no packed file");
    if (length > SIZE_MAX - 1) fail("out of memory");

    size_t word_count = size / 4 - HEADER;
    unsigned char *out = room_for((size_t)length, 1);
    begin(counts);
    want_done(constriction_range_from_compressed_u32(packed + HEADER, word_count, &decoder));
    for (size_t i = 0; i < length; i++) {
        size_t symbol;
        want_done(constriction_range_decode_counts_u32(&decoder, packed + HEADER, word_count, counts, KINDS, KINDS, &symbol, 1));
        learn(counts, symbol);
        out[i] = (unsigned char)symbol;
    }
    write_file(to, out, (size_t)length);
    free(out), free(packed), free(bytes);
}

int main(int count, char **words) {
    if (count == 4 && !strcmp(words[1], "-d")) decompress(words[2], words[3]);
    else if (count == 3) compress(words[1], words[2]);
    else {
        fprintf(stderr, "usage: adaptive FILE PACKED\n       adaptive -d PACKED FILE\n");
        return 2;
    }
    return 0;
}
