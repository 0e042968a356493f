/* Common code of the tests of the C functions: counted checks, random numbers, and a malloc that can refuse. */
#ifndef CHECK_H
#define CHECK_H

#include "constriction.h"

#include <stdint.h>
#include <stdio.h>
#include <stdlib.h>
#include <string.h>

static unsigned long passed, failed;

/* Checks a case, with its place and its name. */
#define CHECK(about, holds) check(__FILE__, __LINE__, (about), (holds))

static void check(const char *file, int line, const char *about, int holds) {
    if (holds) {
        passed++;
    } else if (failed++ < 20) {
        printf("failed: %s:%d: %s\n", file, line, about);
    }
}

static int finish(void) {
    printf("%lu passed, %lu failed\n", passed, failed);
    return failed != 0;
}

/* Returns a random number below the limit, by Xorshift with a state of 64 bits. */
static inline uint64_t random_below(uint64_t limit) {
    static uint64_t x = 0x123456789abcdef1;
    x ^= x << 13;
    x ^= x >> 7;
    x ^= x << 17;
    return (x >> 8) % limit;
}

/* Counts requests for memory, and refuses the one with this number; 0: none. By --wrap, the linker calls these functions instead of the
   C library's. */
static unsigned long requests, refused_request;

void *__real_malloc(size_t size);
void *__real_realloc(void *block, size_t size);
void *__wrap_malloc(size_t size);
void *__wrap_realloc(void *block, size_t size);

void *__wrap_malloc(size_t size) { return ++requests == refused_request ? NULL : __real_malloc(size); }
void *__wrap_realloc(void *block, size_t size) { return ++requests == refused_request ? NULL : __real_realloc(block, size); }

#endif
