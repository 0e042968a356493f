/* Compresses a file with 16 stack coders in one call, brings it back, and compares the time with that of one coder.

       lanes FILE PACKED        compresses FILE
       lanes -d PACKED FILE     brings it back
       lanes time FILE          prints the nanoseconds per byte of one coder and of 16

   Coder j gets block j of the file, a sixteenth of its bytes. So the bytes stay in the order of the file: the blocks
   are the rows of symbols that the functions take. Coder 0 also gets the bytes left over, which are fewer than 16.

   The model is that of compress.c, for all coders. PACKED holds numbers of 32 bits, the lowest byte first:

       the letters CTL1
       the length of FILE in bytes, its lower half and then its upper one
       the 256 weights
       the number of words of each coder
       the words of coder 0, of coder 1, and so on

   Each coder's words are those of a single stack coder, which could decode its block alone. */
#include "constriction.h"

#include <stdio.h>
#include <stdlib.h>
#include <string.h>
#include <time.h>

enum { KINDS = 256, LANES = 16, HEADER = 3 + KINDS + LANES, RUNS = 21 };
static const uint32_t LANES_FILE = 0x314c5443;

static void fail(const char *why) {
    fprintf(stderr, "lanes: %s\n", why);
    exit(1);
}

/* Any size, so that an empty list has an address too. */
static void *room_for(size_t count, size_t size) {
    void *room = count < SIZE_MAX / size ? calloc(count + 1, size) : NULL;
    if (!room) fail("out of memory");
    return room;
}

static void want_done(uint32_t result) {
    if (result != CONSTRICTION_DONE) fail(constriction_result_text(result));
}

static unsigned char *read_file(const char *path, size_t *length) {
    FILE *file = fopen(path, "rb");
    if (!file) fail("cannot read the file");
    size_t room = 1 << 16, got;
    unsigned char *bytes = room_for(room, 1);
    *length = 0;
    while ((got = fread(bytes + *length, 1, room - *length, file)) > 0) {
        *length += got;
        if (*length == room && !(bytes = realloc(bytes, room *= 2))) fail("out of memory");
    }
    if (ferror(file)) fail("cannot read the file");
    fclose(file);
    return bytes;
}

static void write_file(const char *path, const unsigned char *bytes, size_t length) {
    FILE *file = fopen(path, "wb");
    if (!file || fwrite(bytes, 1, length, file) != length || fclose(file)) fail("cannot write the file");
}

/* The coders: their heads, their rows of `width` words, and how many words each has in use. */
struct coders {
    uint64_t heads[LANES];
    uint32_t *words;
    size_t width, lens[LANES];
};

/* Encodes the blocks onto empty coders, and then the bytes left over onto coder 0. A symbol takes a word at most. */
static void encode(struct coders *to, const uint32_t *weights, const size_t *symbols, size_t count) {
    size_t left = count % LANES, whole = count - left, needed;
    for (size_t j = 0; j < LANES; j++) to->heads[j] = 0, to->lens[j] = 0;
    want_done(constriction_ans_lanes_encode_reverse_u32(to->heads, LANES, to->words, LANES * to->width, to->lens, LANES,
                                                        weights, KINDS, symbols, whole, &needed));
    want_done(constriction_ans_encode_reverse_u32(&to->heads[0], to->words, to->width, &to->lens[0], weights, KINDS,
                                                  symbols + whole, left, &needed));
}

/* Decodes them in the opposite order. */
static void decode(struct coders *from, const uint32_t *weights, size_t *symbols, size_t count) {
    size_t left = count % LANES, whole = count - left;
    want_done(constriction_ans_decode_u32(&from->heads[0], from->words, from->width, &from->lens[0], weights, KINDS,
                                          symbols + whole, left));
    want_done(constriction_ans_lanes_decode_u32(from->heads, LANES, from->words, LANES * from->width, from->lens, LANES,
                                                weights, KINDS, symbols, whole));
}

/* The bytes as symbols, their weights, and empty coders with room for the words of these symbols and of the heads. */
static size_t *symbols_of(const unsigned char *bytes, size_t length, uint32_t *weights, struct coders *coders) {
    uint64_t counts[KINDS] = {0};
    size_t *symbols = room_for(length, sizeof *symbols);
    for (size_t i = 0; i < length; i++) counts[symbols[i] = bytes[i]]++;
    if (!length) counts[0] = 1; /* weights of an empty file, which has no symbol */
    want_done(constriction_weights_of_counts_u32(counts, KINDS, weights, KINDS));
    coders->width = length / LANES + length % LANES + 2;
    coders->words = room_for(LANES * coders->width, sizeof *coders->words);
    return symbols;
}

static void compress(const char *from, const char *to) {
    size_t length, total = HEADER, needed;
    struct coders coders;
    unsigned char *bytes = read_file(from, &length);
    uint32_t header[HEADER] = {LANES_FILE, (uint32_t)length, (uint32_t)((uint64_t)length >> 32)}, *weights = header + 3;
    size_t *symbols = symbols_of(bytes, length, weights, &coders);
    encode(&coders, weights, symbols, length);
    uint32_t *packed = room_for(HEADER + LANES * coders.width, sizeof *packed);
    for (size_t j = 0; j < LANES; j++) {
        uint32_t *row = coders.words + j * coders.width;
        want_done(constriction_ans_into_compressed_u32(coders.heads[j], row, coders.width, &coders.lens[j], &needed));
        memcpy(packed + total, row, coders.lens[j] * sizeof *row);
        header[3 + KINDS + j] = (uint32_t)coders.lens[j];
        total += coders.lens[j];
    }
    memcpy(packed, header, sizeof header);

    unsigned char *out = room_for(total, 4);
    for (size_t i = 0; i < total; i++)
        for (int k = 0; k < 4; k++) out[4 * i + k] = (unsigned char)(packed[i] >> 8 * k);
    write_file(to, out, 4 * total);
    free(out), free(packed), free(coders.words), free(symbols), free(bytes);
}

/* The coders of a packed file, whose rows are as wide as its longest list of words. */
static void read_coders(const uint32_t *packed, size_t total, struct coders *coders) {
    const uint32_t *counts = packed + 3 + KINDS, *words = packed + HEADER;
    size_t left = total - HEADER;
    coders->width = 0;
    for (size_t j = 0; j < LANES; j++) {
        if (counts[j] > left) fail("this is no packed file");
        left -= counts[j];
        if (counts[j] > coders->width) coders->width = counts[j];
    }
    coders->words = room_for(coders->width, LANES * sizeof *coders->words);
    for (size_t j = 0; j < LANES; words += counts[j++]) {
        uint32_t *row = coders->words + j * coders->width;
        memcpy(row, words, counts[j] * sizeof *row);
        want_done(constriction_ans_from_compressed_u32(row, counts[j], &coders->lens[j], &coders->heads[j]));
    }
}

static void decompress(const char *from, const char *to) {
    size_t size;
    struct coders coders;
    unsigned char *bytes = read_file(from, &size);
    if (size % 4 || size < 4 * HEADER) fail("this is no packed file");
    uint32_t *packed = room_for(size / 4, sizeof *packed);
    for (size_t i = 0; i < size; i++) packed[i / 4] |= (uint32_t)bytes[i] << 8 * (i % 4);
    if (packed[0] != LANES_FILE) fail("this is no packed file");
    uint64_t length = packed[1] | (uint64_t)packed[2] << 32;
    if (length > SIZE_MAX / sizeof(size_t) - 1) fail("out of memory");

    size_t count = (size_t)length, *symbols = room_for(count, sizeof *symbols);
    read_coders(packed, size / 4, &coders);
    decode(&coders, packed + 3, symbols, count);
    unsigned char *out = room_for(count, 1);
    for (size_t i = 0; i < count; i++) out[i] = (unsigned char)symbols[i];
    write_file(to, out, count);
    free(out), free(coders.words), free(symbols), free(packed), free(bytes);
}

/* Encodes and decodes by one coder, and notes the time before, between and after. */
static void by_one(struct coders *it, const uint32_t *weights, size_t *symbols, size_t count, clock_t *at) {
    size_t len = 0, room = LANES * it->width, needed;
    uint64_t head = 0;
    at[0] = clock();
    want_done(constriction_ans_encode_reverse_u32(&head, it->words, room, &len, weights, KINDS, symbols, count,
                                                  &needed));
    at[1] = clock();
    want_done(constriction_ans_decode_u32(&head, it->words, room, &len, weights, KINDS, symbols, count));
    at[2] = clock();
}

static void by_lanes(struct coders *it, const uint32_t *weights, size_t *symbols, size_t count, clock_t *at) {
    at[0] = clock(), encode(it, weights, symbols, count);
    at[1] = clock(), decode(it, weights, symbols, count);
    at[2] = clock();
}

/* Prints the least times of RUNS runs. */
static void time_file(const char *from) {
    size_t length;
    uint32_t weights[KINDS];
    struct coders coders;
    unsigned char *bytes = read_file(from, &length);
    size_t *symbols = symbols_of(bytes, length, weights, &coders);
    double least[2][2] = {{1e9, 1e9}, {1e9, 1e9}};
    for (int run = 0; run < 2 * RUNS; run++) {
        clock_t at[3];
        (run % 2 ? by_lanes : by_one)(&coders, weights, symbols, length, at);
        for (int k = 0; k < 2; k++) {
            double taken = (double)(at[k + 1] - at[k]) * 1e9 / CLOCKS_PER_SEC / (double)(length ? length : 1);
            if (taken < least[run % 2][k]) least[run % 2][k] = taken;
        }
    }
    for (size_t i = 0; i < length; i++)
        if (symbols[i] != bytes[i]) fail("other bytes came back");
    printf("1 coder: %.2f ns a byte to encode, %.2f to decode\n", least[0][0], least[0][1]);
    printf("%d coders: %.2f ns a byte to encode, %.2f to decode\n", LANES, least[1][0], least[1][1]);
    free(coders.words), free(symbols), free(bytes);
}

int main(int count, char **words) {
    if (count == 4 && !strcmp(words[1], "-d")) decompress(words[2], words[3]);
    else if (count == 3 && !strcmp(words[1], "time")) time_file(words[2]);
    else if (count == 3) compress(words[1], words[2]);
    else {
        fprintf(stderr, "usage: lanes FILE PACKED\n       lanes -d PACKED FILE\n       lanes time FILE\n");
        return 2;
    }
    return 0;
}
