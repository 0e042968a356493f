/* Compares the C functions of one size, which -DBITS=32 or -DBITS=16 chooses, with the test vectors of docs/vectors.txt.
   The only argument is that file's path. Cases of the kinds `values` and `uniform` have no C function. */
#include "families.h"
#include "world.h"

enum { VALUES = 300, LINES = 12, KINDS = 10 };

/* A line has a name, and then numbers or a text. A negative number is stored modulo 2^64. */
struct line {
    char name[16], text[16];
    size_t count;
    uint64_t values[VALUES];
};

/* The case that runs, and the results of its calls. */
static struct line lines[LINES];
static size_t line_count, len, needed;
static word words[VALUES], other[VALUES];

/* Returns the line with this name, or an empty line if the case has none. */
static const struct line *of(const char *name) {
    static const struct line none;
    for (size_t i = 0; i < line_count; i++)
        if (!strcmp(lines[i].name, name)) return &lines[i];
    return &none;
}

static size_t put_words(word *to, const struct line *from) {
    for (size_t i = 0; i < from->count; i++) to[i] = (word)from->values[i];
    return from->count;
}

/* Returns whether these words equal a line's numbers. */
static int are(const word *found, size_t count, const struct line *wanted) {
    if (count != wanted->count) return 0;
    for (size_t i = 0; i < count; i++)
        if (found[i] != wanted->values[i]) return 0;
    return 1;
}

/* ==== A case's symbols and models: one list of weights, or a family with parameters for each symbol, or a row of
   components or of counts for each symbol ==== */

enum models { WEIGHED, OF_FAMILY, MIXED, COUNTED };

static struct {
    enum models models;
    uint32_t family;
    int32_t first, last;
    size_t count, weight_count, width, row_count, symbols[VALUES], found[VALUES];
    int64_t locations[VALUES];
    uint32_t scales[VALUES], row[VALUES];
    word weights[VALUES];
} given;

static void read_family(const struct line *family) {
#define NAME_OF(name, NAME, number) #name,
    static const char *const names[] = {FAMILIES_BY(NAME_OF)};
    while (given.family < FAMILIES && strcmp(names[given.family], family->text)) given.family++;
    given.first = (int32_t)of("range")->values[0], given.last = (int32_t)of("range")->values[1];
    const struct line *locations = of("locations"), *scales = of("scales");
    for (size_t i = 0; i < given.count || i < locations->count; i++) {
        given.locations[i] = (int64_t)(locations->count ? locations->values[i] : of("location")->values[0]);
        given.scales[i] = (uint32_t)(scales->count ? scales->values[i] : of("scale")->values[0]);
    }
}

static void read_given(void) {
    memset(&given, 0, sizeof given);
    const struct line *symbols = of("symbols"), *family = of("family");
    int has_family = family->name[0] != 0, has_rows = of("width")->name[0] != 0;
    given.count = symbols->count, given.models = has_rows ? (has_family ? MIXED : COUNTED) : has_family ? OF_FAMILY : WEIGHED;
    if (has_family) read_family(family);
    for (size_t i = 0; i < given.count; i++) given.symbols[i] = (size_t)(symbols->values[i] - (uint64_t)(int64_t)given.first);
    if (given.models == WEIGHED) given.weight_count = put_words(given.weights, of("weights"));
    if (has_rows) {
        const struct line *rows = of(has_family ? "weights" : "counts");
        given.width = (size_t)of("width")->values[0], given.row_count = rows->count;
        for (size_t i = 0; i < rows->count; i++) given.row[i] = (uint32_t)rows->values[i];
    }
    len = 0;
}

static int are_found(void) { return !memcmp(given.found, given.symbols, given.count * sizeof(size_t)); }

/* Arguments of a call: the models, the symbols, the room for decoded symbols, the buffer of words. */
#define TABLE given.weights, given.weight_count
#define LOCATED given.family, given.first, given.last, given.locations, given.count, given.scales, given.count
#define ROWS given.row, given.row_count, given.width
#define MIXTURE \
    given.family, given.first, given.last, given.width, given.row, given.row_count, given.locations, given.row_count, given.scales, \
        given.row_count
#define SYMBOLS given.symbols, given.count
#define FOUND given.found, given.count
#define BUFFER words, VALUES, &len

/* A call under the case's models. The kind of the models is between the two parts of its name. */
#define UNDER(begin, end, ...) \
    (given.models == COUNTED     ? C(GLUE(begin, _counts, end))(__VA_ARGS__ ROWS, REST) \
     : given.models == MIXED     ? C(GLUE(begin, _mixture, end))(__VA_ARGS__ MIXTURE, REST) \
     : given.models == OF_FAMILY ? C(GLUE(begin, _quantized, end))(__VA_ARGS__ LOCATED, REST) \
                                 : C(GLUE(begin, , end))(__VA_ARGS__ TABLE, REST))

/* ==== The kinds of cases ==== */

#define REST SYMBOLS, &needed

static void ans_encode(void) {
    state head = 0;
    CHECK("ans-encode", !UNDER(ans_encode, _reverse, &head, BUFFER,));
    CHECK("ans-encode: export", !C(ans_into_compressed)(head, BUFFER, &needed));
    CHECK("ans-encode: words", are(words, len, of("words")));
}

static void range_encode(void) {
    struct C(range_encoder_state) encoder;
    CHECK("range: new", !C(range_encoder)(&encoder));
    CHECK("range: encode", !UNDER(range_encode, , &encoder, BUFFER,));
    CHECK("range: export", !C(range_into_compressed)(&encoder, BUFFER, &needed));
    CHECK("range: words", are(words, len, of("words")));
}

/* Encodes from the remainders. The words must follow those that the decode left. */
static void chain_encode(void) {
    struct C(chain_heads) heads;
    size_t count = put_words(other, of("remainders")), left = 0, rest = put_words(words, of("rest"));
    len = rest;
    CHECK("chain: import remainders", !C(chain_from_remainders)(other, count, &left, &heads));
    CHECK("chain: encode", !UNDER(chain_encode, _reverse, &heads, BUFFER, other, count,
        &left,));
    CHECK("chain: export", !C(chain_into_compressed)(&heads, BUFFER, &needed));
    memmove(words + rest + left, words + rest, (len - rest) * sizeof(word));
    memcpy(words + rest, other, left * sizeof(word));
    CHECK("chain: words", are(words, len + left, of("words")));
}

#undef REST
#define REST FOUND

static void ans_decode(void) {
    state head;
    size_t count = put_words(words, of("words"));
    CHECK("ans-decode: import", !C(ans_from_compressed)(words, count, &len, &head));
    CHECK("ans-decode", !UNDER(ans_decode, , &head, words, count, &len,) && are_found());
    CHECK("ans-decode: export", !C(ans_into_compressed)(head, BUFFER, &needed));
    CHECK("ans-decode: rest", are(words, len, of("rest")));
}

static void range_decode(void) {
    struct C(range_decoder_state) decoder;
    size_t count = put_words(words, of("words"));
    CHECK("range: import", !C(range_from_compressed)(words, count, &decoder));
    CHECK("range: decode", !UNDER(range_decode, , &decoder, words, count,) && are_found());
}

static void range(void) {
    range_encode();
    range_decode();
}

#undef REST
#define REST FOUND, &needed

static void chain_decode(void) {
    struct C(chain_heads) heads;
    size_t count = put_words(words, of("words")), left = 0;
    CHECK("chain: import", !C(chain_from_compressed)(words, count, &left, &heads));
    CHECK("chain: decode", !UNDER(chain_decode, , &heads, words, count, &left, other, VALUES,
        &len,) && are_found());
    CHECK("chain: export remainders", !C(chain_into_remainders)(&heads, other, VALUES, &len, &needed));
    CHECK("chain: rest", are(words, left, of("rest")) && are(other, len, of("remainders")));
}

static void chain(void) {
    chain_decode();
    chain_encode();
}

static void store(void) {
    size_t positions[VALUES] = {0}, lengths[VALUES] = {0}, chunks = of("lengths")->count, begin = 0;
    state lowers[VALUES] = {0}, ranges[VALUES] = {0};
    for (size_t i = 0; i < chunks; i++) lengths[i] = (size_t)of("lengths")->values[i];
    CHECK("store: build", !C(store_build)(BUFFER, positions, chunks, lowers, chunks, ranges, chunks, TABLE, SYMBOLS,
        lengths, chunks, &needed));
    CHECK("store: words", are(words, len, of("words")));
    for (size_t i = 0; i < chunks; i++) {
        CHECK("store: entry", positions[i] == of("positions")->values[i] && lowers[i] == of("lowers")->values[i]
            && ranges[i] == of("ranges")->values[i]);
        CHECK("store: chunk", !C(store_chunk)(words, len, positions[i], lowers[i], ranges[i], TABLE,
            given.found + begin, lengths[i]));
        begin += lengths[i];
    }
    CHECK("store: symbols", begin == given.count && are_found());
}

static void starts(void) {
    CHECK("starts", !C(quantized_intervals)(LOCATED, SYMBOLS, words, given.count, other, given.count));
    CHECK("starts: begins", are(words, given.count, of("begins")));
    CHECK("starts: weights", are(other, given.count, of("weights")));
}

static void counts(void) {
    const struct line *from = of("counts");
    CHECK("counts", !C(weights_of_counts)(from->values, from->count, words, from->count));
    CHECK("counts: weights", are(words, from->count, of("weights")));
}

/* From this head, an encode leads to a head that shows the start and the weight of the symbol's interval. */
static void row(void) {
    const struct line *from = of("counts");
    size_t count = from->count;
    for (size_t i = 0; i < count; i++) given.row[i] = (uint32_t)from->values[i];
    CHECK("row: a weight for each count", count == given.weight_count);
    for (size_t symbol = 0; symbol < count; symbol++) {
        state head = ((state)1 << (BITS + 3)) + 12345, wanted = head;
        size_t one = 0, other_one = 0, decoded = count;
        CHECK("row: encode", !C(ans_encode_counts_reverse)(&head, words, VALUES, &one, given.row, count, count, &symbol,
            1, &needed));
        CHECK("row: encode under the weights", !C(ans_encode_reverse)(&wanted, other, VALUES, &other_one, TABLE, &symbol,
            1, &needed));
        CHECK("row: the same", head == wanted && one == other_one && !memcmp(words, other, one * sizeof(word)));
        CHECK("row: decode", !C(ans_decode_counts)(&head, words, one, &one, given.row, count, count, &decoded, 1)
            && decoded == symbol);
    }
}

static void golomb(void) {
    word numbers[VALUES];
    size_t count = put_words(numbers, of("numbers"));
    CHECK("golomb: queue", !C(exp_golomb_encode_queue)(numbers, count, BUFFER, &needed)
        && are(words, len, of("queue")));
    CHECK("golomb: queue back", !C(exp_golomb_decode_queue)(words, len, other, count)
        && are(other, count, of("numbers")));
    len = 0;
    CHECK("golomb: stack", !C(exp_golomb_encode_stack)(numbers, count, BUFFER, &needed)
        && are(words, len, of("stack")));
    CHECK("golomb: stack back", !C(exp_golomb_decode_stack)(words, len, other, count)
        && are(other, count, of("numbers")));
}

/* The weights of a tree have 32 bits at both sizes. */
static void huffman(void) {
    uint32_t weights[VALUES];
    size_t count = of("weights")->count;
    for (size_t i = 0; i < count; i++) weights[i] = (uint32_t)of("weights")->values[i];
    CHECK("huffman: queue", !C(huffman_encode_queue)(weights, count, SYMBOLS, BUFFER, &needed)
        && are(words, len, of("queue")));
    CHECK("huffman: queue back", !C(huffman_decode_queue)(weights, count, words, len, FOUND) && are_found());
    memset(given.found, 0, sizeof given.found), len = 0;
    CHECK("huffman: stack", !C(huffman_encode_stack)(weights, count, SYMBOLS, BUFFER, &needed)
        && are(words, len, of("stack")));
    CHECK("huffman: stack back", !C(huffman_decode_stack)(weights, count, words, len, FOUND) && are_found());
}

/* ==== The file ==== */

static struct {
    const char *name;
    void (*run)(void);
    unsigned long cases;
} kinds[KINDS] = {
    {"ans-encode", ans_encode, 0}, {"ans-decode", ans_decode, 0}, {"range", range, 0}, {"chain", chain, 0}, {"store",
        store, 0},
    {"starts", starts, 0}, {"counts", counts, 0}, {"row", row, 0}, {"golomb", golomb, 0}, {"huffman", huffman, 0},
};

/* Runs the case, if it has this size, and empties it. */
static void try_case(void) {
    const char *kind = of("case")->text;
    int is_known = !line_count || !strcmp(kind, "values") || !strcmp(kind, "uniform");
    for (size_t i = 0; i < KINDS; i++) {
        if (strcmp(kinds[i].name, kind)) continue;
        is_known = 1;
        if (of("bits")->values[0] != BITS) continue;
        read_given();
        kinds[i].run();
        kinds[i].cases++;
    }
    CHECK("the kind of the case is known", is_known);
    line_count = 0;
}

/* Adds a line to the case. */
static void add(char *text) {
    static struct line extra;
    CHECK("the case has at most LINES lines", line_count < LINES);
    struct line *to = line_count < LINES ? &lines[line_count++] : &extra;
    memset(to, 0, sizeof *to);
    char *part = strtok(text, " \n");
    snprintf(to->name, sizeof to->name, "%s", part);
    int is_text = !strcmp(part, "case") || !strcmp(part, "family") || !strcmp(part, "codewords");
    while ((part = strtok(NULL, " \n")) != NULL && to->count < VALUES) {
        if (is_text)
            snprintf(to->text, sizeof to->text, "%s", part);
        else
            to->values[to->count++] = *part == '-' ? (uint64_t)strtoll(part, NULL, 10) : strtoull(part, NULL, 10);
    }
    CHECK("the line has at most VALUES numbers", part == NULL);
}

int main(int count, char **arguments) {
    static char text[4096];
    FILE *file = count == 2 ? fopen(arguments[1], "r") : NULL;
    CHECK("the file of test vectors opens", file != NULL);
    while (file && fgets(text, sizeof text, file)) {
        if (*text == '\n')
            try_case();
        else if (*text != '#')
            add(text);
    }
    try_case();
    for (size_t i = 0; i < KINDS; i++) CHECK(kinds[i].name, kinds[i].cases > 0);
    if (file) fclose(file);
    return finish();
}
