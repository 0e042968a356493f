/* A caller's world of buffers and numbers at one size, which -DBITS=32 or -DBITS=16 chooses; and properties of each call: an
   error changes nothing, with buffers of every length and with refused requests for memory. */
#ifndef WORLD_H
#define WORLD_H

#include "check.h"

#define GLUE(a, b, c) a##b##c
#define NAME(name, bits) GLUE(constriction_, name, bits)
#if BITS == 32
typedef uint32_t word;
typedef uint64_t state;
#define PRECISION CONSTRICTION_PRECISION_U32
#define C(name) NAME(name, _u32)
#else
typedef uint16_t word;
typedef uint32_t state;
#define PRECISION CONSTRICTION_PRECISION_U16
#define C(name) NAME(name, _u16)
#endif

enum { COUNT = 40, CHUNKS = 6, GUARD = 4, ROOM = 3 * COUNT + 8, RESULTS = 9 };
#define WHOLE ((state)1 << PRECISION)

/* ==== All that a call may change, in one place, so that the tests find any other change ==== */

struct world {
    state head;
    struct C(range_encoder_state) encoder;
    struct C(range_decoder_state) decoder;
    struct C(chain_heads) heads;
    size_t len, other_len, needed, capacity;
    uint32_t maybe;
    word before[GUARD], words[ROOM], behind[GUARD];
    word other[ROOM], numbers[COUNT];
    size_t symbols[COUNT];
    size_t positions[CHUNKS];
    state lowers[CHUNKS], ranges[CHUNKS];
    word lefts[COUNT], ps[COUNT];
};

/* Returns whether two worlds are equal, except for the padding of structs. */
static inline int equal(const struct world *a, const struct world *b) {
    return a->head == b->head
        && a->encoder.lower == b->encoder.lower && a->encoder.range == b->encoder.range
        && a->encoder.held == b->encoder.held && a->encoder.first == b->encoder.first
        && a->decoder.lower == b->decoder.lower && a->decoder.range == b->decoder.range
        && a->decoder.point == b->decoder.point && a->decoder.pos == b->decoder.pos
        && a->heads.remainders == b->heads.remainders && a->heads.compressed == b->heads.compressed
        && a->len == b->len && a->other_len == b->other_len && a->needed == b->needed && a->capacity == b->capacity
        && a->maybe == b->maybe
        && !memcmp(a->before, b->before, sizeof a->before) && !memcmp(a->words, b->words, sizeof a->words)
        && !memcmp(a->behind, b->behind, sizeof a->behind) && !memcmp(a->other, b->other, sizeof a->other)
        && !memcmp(a->numbers, b->numbers, sizeof a->numbers) && !memcmp(a->symbols, b->symbols, sizeof a->symbols)
        && !memcmp(a->positions, b->positions, sizeof a->positions)
        && !memcmp(a->lowers, b->lowers, sizeof a->lowers) && !memcmp(a->ranges, b->ranges, sizeof a->ranges)
        && !memcmp(a->lefts, b->lefts, sizeof a->lefts) && !memcmp(a->ps, b->ps, sizeof a->ps);
}

/* Returns a world with a different value at each place. */
static inline struct world fresh(void) {
    struct world w;
    memset(&w, 0, sizeof w);
    for (size_t i = 0; i < GUARD; i++) w.before[i] = (word)(50000 + i), w.behind[i] = (word)(51000 + i);
    for (size_t i = 0; i < ROOM; i++) w.words[i] = (word)(52000 + i), w.other[i] = (word)(53000 + i);
    for (size_t i = 0; i < COUNT; i++) w.numbers[i] = (word)(54000 + i), w.symbols[i] = 55000 + i;
    for (size_t i = 0; i < COUNT; i++) w.lefts[i] = (word)(61000 + i), w.ps[i] = (word)(62000 + i);
    for (size_t i = 0; i < CHUNKS; i++) w.positions[i] = 58000 + i, w.lowers[i] = (state)(59000 + i), w.ranges[i] = (state)(60000 + i);
    w.needed = 56000, w.maybe = 57000, w.capacity = ROOM;
    C(range_encoder)(&w.encoder);
    C(range_from_compressed)(w.words, 0, &w.decoder);
    w.heads.remainders = (state)1 << (8 * sizeof(state) - BITS - PRECISION), w.heads.compressed = 1;
    return w;
}

/* A call on a world. */
typedef uint32_t call(struct world *w);

/* ==== Properties of each call ==== */

static unsigned long seen[RESULTS];

/* The call returns this result, and changes nothing unless it is DONE. */
static inline void refuses(const char *about, call *run, struct world *w, uint32_t wanted) {
    struct world old = *w;
    uint32_t result = run(w);
    if (result < RESULTS) seen[result]++;
    if (result != wanted) printf("%s: %u in place of %u\n", about, result, wanted);
    CHECK(about, result == wanted);
    if (wanted == CONSTRICTION_NO_SPACE) w->needed = old.needed;
    CHECK(about, equal(w, &old));
}

/* The call succeeds, and leaves the words around the buffer and before the new words unchanged. */
static inline void done(const char *about, call *run, struct world *w) {
    struct world old = *w;
    uint32_t result = run(w);
    if (result) printf("%s: %u in place of DONE\n", about, result);
    CHECK(about, result == CONSTRICTION_DONE);
    CHECK(about, !memcmp(w->before, old.before, sizeof w->before) && !memcmp(w->behind, old.behind, sizeof w->behind));
    CHECK(about, !memcmp(w->other, old.other, sizeof w->other));
    CHECK(about, w->needed == old.needed && w->capacity == old.capacity);
    size_t from = w->len < old.len ? old.len : w->len;
    CHECK(about, from <= ROOM && !memcmp(w->words + from, old.words + from, (ROOM - from) * sizeof(word)));
}

/* Where a call writes: from the beginning of a buffer, or after the words in use, which stay. It may also need room for the pending words
   first. */
enum { FROM_FRONT, BEHIND, BEHIND_HELD };

/* Makes a call with buffers of every length: too short for the words in use, too short for the new words, and long enough. */
static inline void every_length(const char *about, call *run, const struct world *start, int keeps) {
    struct world whole = *start;
    done(about, run, &whole);
    size_t used = keeps ? start->len : 0, first = keeps == BEHIND_HELD ? used + start->encoder.held : 0;
    if (keeps) CHECK(about, whole.len >= used && !memcmp(whole.words, start->words, used * sizeof(word)));
    for (size_t capacity = 0; capacity <= whole.len + 2 || capacity <= first; capacity++) {
        struct world w = *start;
        w.capacity = capacity;
        if (capacity < used) {
            refuses(about, run, &w, CONSTRICTION_WRONG_LENGTH);
        } else if (capacity < first || capacity < whole.len) {
            struct world old = w;
            uint32_t result = run(&w);
            seen[CONSTRICTION_NO_SPACE]++;
            CHECK(about, result == CONSTRICTION_NO_SPACE && w.needed == (capacity < first ? first : whole.len));
            w.needed = old.needed;
            CHECK(about, equal(&w, &old));
        } else {
            done(about, run, &w);
            w.capacity = whole.capacity;
            CHECK(about, equal(&w, &whole));
        }
    }
}

/* Refuses each request for memory once: the call returns NO_MEMORY and changes nothing, and then the same call succeeds. */
static inline void refused_memory(const char *about, call *run, const struct world *start) {
    struct world whole = *start;
    CHECK(about, run(&whole) == CONSTRICTION_DONE);
    for (unsigned long n = 1; n < 1000; n++) {
        struct world w = *start;
        requests = 0, refused_request = n;
        uint32_t result = run(&w);
        refused_request = 0;
        if (requests < n) {
            CHECK(about, result == CONSTRICTION_DONE && equal(&w, &whole));
            return;
        }
        seen[CONSTRICTION_NO_MEMORY]++;
        CHECK(about, result == CONSTRICTION_NO_MEMORY && equal(&w, start));
        CHECK(about, run(&w) == CONSTRICTION_DONE && equal(&w, &whole));
    }
    CHECK(about, 0);
}

/* Makes a call that has to succeed without a request for memory. */
static inline void requests_nothing(const char *about, call *run, const struct world *start) {
    struct world w = *start;
    requests = 0;
    CHECK(about, run(&w) == CONSTRICTION_DONE && !requests);
}

/* Refuses each request for memory once: the call returns NO_MEMORY and changes nothing, or takes another way that requests
   memory again, and succeeds. */
static inline void asks_again(const char *about, call *run, const struct world *start) {
    struct world whole = *start;
    CHECK(about, run(&whole) == CONSTRICTION_DONE);
    for (unsigned long n = 1; n < 1000; n++) {
        struct world w = *start;
        requests = 0, refused_request = n;
        uint32_t result = run(&w);
        refused_request = 0;
        CHECK(about, result == CONSTRICTION_DONE ? equal(&w, &whole) : result == CONSTRICTION_NO_MEMORY && equal(&w, start));
        if (requests < n) return;
    }
    CHECK(about, 0);
}

/* Refuses each request for memory once: the call returns the wanted error all the same, and changes nothing. */
static inline void refuses_without_memory(const char *about, call *run, const struct world *start, uint32_t wanted) {
    for (unsigned long n = 1; n < 1000; n++) {
        struct world w = *start;
        requests = 0, refused_request = n;
        refuses(about, run, &w, wanted);
        refused_request = 0;
        if (requests < n) return;
    }
    CHECK(about, 0);
}

/* Returns whether two calls do the same. */
static inline void same(const char *about, call *one, call *another, const struct world *start) {
    struct world a = *start, b = *start;
    done(about, one, &a), done(about, another, &b);
    CHECK(about, equal(&a, &b));
}

#endif
