/* Packs a file in blocks of 1024 bytes, and reads one block back without reading the others.

       store pack FILE PACKED       packs FILE, which has at most 1048576 bytes
       store get PACKED NUMBER      writes the block of this number to standard output: 0 for the first one

   The model is how often each byte value occurs in the file, as weights that add up to 2^24. PACKED holds numbers of
   64 bits, the lowest byte first:

       the letters CSTORE01
       the number of words
       the length of FILE in bytes
       the 256 weights
       for each block the three numbers of its entry in the index: position, lower, range
       the words of the range coder, two in each number

   For more symbols, encode each block by constriction_range_encode_u32, and note the encoder's position before it. */
#include "constriction.h"

#include <stdio.h>
#include <stdlib.h>
#include <string.h>

enum { KINDS = 256, BLOCK = 1024, MOST = 1 << 20, HEADER = 3 + KINDS, ENTRY = 3, BEHIND = 2 };
static const uint64_t STORE_FILE = 0x313045524f545343;

/* An entry of the index. */
struct entry {
    size_t position;
    uint64_t lower, range;
};

static void fail(const char *why) {
    fprintf(stderr, "store: %s\n", why);
    exit(1);
}

static void want_done(uint32_t result) {
    if (result != CONSTRICTION_DONE) fail(constriction_result_text(result));
}

static FILE *opened(const char *path, const char *how) {
    FILE *file = fopen(path, how);
    if (!file) fail("cannot open the file");
    return file;
}

static void put(FILE *file, uint64_t number) {
    for (int k = 0; k < 8; k++)
        if (putc((int)(number >> 8 * k & 255), file) == EOF) fail("cannot write the file");
}

static uint64_t take(FILE *file) {
    uint64_t number = 0;
    for (int k = 0; k < 8; k++) {
        int byte = getc(file);
        if (byte == EOF) fail("this is no packed file");
        number |= (uint64_t)byte << 8 * k;
    }
    return number;
}

static void move_to(FILE *file, size_t number) {
    if (fseek(file, (long)(8 * number), SEEK_SET)) fail("this is no packed file");
}

static void pack(const char *from, const char *to) {
    static unsigned char bytes[MOST + 1];
    static size_t symbols[MOST], lengths[MOST / BLOCK], positions[MOST / BLOCK];
    static uint64_t counts[KINDS], lowers[MOST / BLOCK], ranges[MOST / BLOCK];
    static uint32_t weights[KINDS], words[MOST + 3];
    size_t word_count, needed;
    FILE *file = opened(from, "rb");
    size_t length = fread(bytes, 1, sizeof bytes, file), blocks = (length + BLOCK - 1) / BLOCK;
    if (ferror(file)) fail("cannot read the file");
    if (length > MOST) fail("the file is too long");
    fclose(file);
    for (size_t i = 0; i < length; i++) counts[symbols[i] = bytes[i]]++;
    if (!length) counts[0] = 1; /* weights of an empty file, which has no symbol */
    for (size_t i = 0; i < blocks; i++) lengths[i] = i + 1 < blocks ? BLOCK : length - i * BLOCK;

    want_done(constriction_weights_of_counts_u32(counts, KINDS, weights, KINDS));
    want_done(constriction_store_build_u32(words, MOST + 2, &word_count, positions, blocks, lowers, blocks, ranges,
                                           blocks, weights, KINDS, symbols, length, lengths, blocks, &needed));

    file = opened(to, "wb");
    put(file, STORE_FILE), put(file, word_count), put(file, length);
    for (size_t i = 0; i < KINDS; i++) put(file, weights[i]);
    for (size_t i = 0; i < blocks; i++) put(file, positions[i]), put(file, lowers[i]), put(file, ranges[i]);
    for (size_t i = 0; i < word_count; i += 2) put(file, words[i] | (uint64_t)words[i + 1] << 32);
    if (fclose(file)) fail("cannot write the file");
}

static struct entry entry_at(FILE *file, size_t block) {
    struct entry found;
    move_to(file, HEADER + ENTRY * block);
    found.position = (size_t)take(file), found.lower = take(file), found.range = take(file);
    return found;
}

/* The words of a block begin at its position. They end two words behind the position of the next block, or with the
   last word. */
static void get(const char *from, size_t block) {
    static uint32_t weights[KINDS], words[BLOCK + BEHIND + 3];
    static size_t symbols[BLOCK];
    FILE *file = opened(from, "rb");
    if (take(file) != STORE_FILE) fail("this is no packed file");
    uint64_t word_count = take(file), length = take(file);
    if (word_count > MOST + 2 || length > MOST) fail("this is no packed file");
    for (size_t i = 0; i < KINDS; i++) weights[i] = (uint32_t)take(file);
    size_t blocks = (size_t)(length + BLOCK - 1) / BLOCK;
    if (block >= blocks) fail("no such block");
    size_t count = block + 1 < blocks ? BLOCK : (size_t)length - block * BLOCK;

    struct entry entry = entry_at(file, block);
    size_t end = block + 1 < blocks ? entry_at(file, block + 1).position + BEHIND : (size_t)word_count;
    if (end > word_count) end = (size_t)word_count;
    if (entry.position > end || end - entry.position > BLOCK + BEHIND) fail("this is no packed file");
    size_t first = entry.position / 2, before = entry.position % 2;
    move_to(file, HEADER + ENTRY * blocks + first);
    for (size_t i = 0; 2 * (first + i) < end; i++) {
        uint64_t two = take(file);
        words[2 * i] = (uint32_t)two, words[2 * i + 1] = (uint32_t)(two >> 32);
    }
    fclose(file);

    size_t read = end - entry.position;
    want_done(constriction_store_chunk_u32(words + before, read, 0, entry.lower, entry.range, weights, KINDS,
                                           symbols, count));
    for (size_t i = 0; i < count; i++)
        if (putchar((int)symbols[i]) == EOF) fail("cannot write the block");
    if (fflush(stdout)) fail("cannot write the block");
    fprintf(stderr, "read %zu of %zu words\n", read, (size_t)word_count);
}

int main(int count, char **words) {
    char *end = NULL;
    if (count == 4 && !strcmp(words[1], "pack")) pack(words[2], words[3]);
    else if (count == 4 && !strcmp(words[1], "get")) {
        size_t block = (size_t)strtoull(words[3], &end, 10);
        if (end == words[3] || *end) fail("the number of the block is no number");
        get(words[2], block);
    } else {
        fprintf(stderr, "usage: store pack FILE PACKED\n       store get PACKED NUMBER\n");
        return 2;
    }
    return 0;
}
