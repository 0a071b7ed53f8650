/* The fuzzer's driver: each input goes through the header reader, the collector, the look at a leaf
 * and the find of the C library, with a base and without, and through the shadow, which must agree
 * in every number and every byte. */
#include <inttypes.h>
#include <stdio.h>
#include <stdlib.h>
#include <string.h>

#include "btree_v2.h"
#include "input.h"
#include "lent.h"
#include "shadow.h"

enum { CAUSES = BTREE_V2_BASE_BEYOND_FILE + 1, MOST_PLACES = BTREE_V2_PARSE_AT_PLACES };

/* The places that are lent to the archive: the file, a header's figures, the output and the
 * answer. */
static struct lent file_place, figures_place, output_place, answer_place;
/* What every output holds before a call. */
static uint8_t pattern[MOST_OUTPUT];
static uint64_t inputs;

/* What an input gives to the calls, beside the file and the base. */
struct given {
    uint64_t offset, index, figures[BTREE_V2_HEADER_FIGURES];
    uint8_t offset_size, length_size;
    struct tree tree;
    struct sought sought;
    size_t output_length;
    bool at_the_end;
};

/* What is lent to the archive for one call. */
struct loan {
    const uint8_t *file;
    size_t length;
    uint64_t base;
    const uint64_t *figures;
    uint8_t *output;
    uint64_t *answer;
};

/* A call: by the shadow, and by the archive's functions without a base and with one; how many
 * numbers these answer; whether it has an output, and sets checksums right where that is asked for.
 * How often each answer was given, without a base and with one above 0, and a record found. */
struct call {
    const char *name;
    void (*shadow)(const struct given *, struct source, uint8_t *output, uint64_t *answer);
    void (*before)(const struct given *, struct loan);
    void (*with_base)(const struct given *, struct loan);
    size_t places, places_at;
    bool outputs, mends;
    uint64_t counts[2][CAUSES], found[2];
};

static void shade_parse(const struct given *g, struct source s, uint8_t *output, uint64_t *answer) {
    (void)output;
    shadow_parse(s, g->offset, g->offset_size, g->length_size, answer);
}

static void parse(const struct given *g, struct loan l) {
    btree_v2_parse(l.file, l.length, g->offset, g->offset_size, g->length_size, l.answer);
}

static void parse_at(const struct given *g, struct loan l) {
    btree_v2_parse_at(l.file, l.length, l.base, g->offset, g->offset_size, g->length_size,
                      l.answer);
}

static void shade_collect(const struct given *g, struct source s, uint8_t *output,
                          uint64_t *answer) {
    shadow_collect(s, g->tree, output, g->output_length, answer);
}

static void collect(const struct given *g, struct loan l) {
    const struct tree *t = &g->tree;
    btree_v2_collect(l.file, l.length, t->tree_type, t->node_size, t->record_size, t->depth,
                     t->root_address, t->root_records, t->total_records, t->offset_size, l.output,
                     g->output_length, l.answer);
}

static void collect_at(const struct given *g, struct loan l) {
    btree_v2_collect_at(l.file, l.length, l.figures, g->offset_size, l.output, g->output_length,
                        l.answer);
}

/* The root is looked at as a leaf. */
static void shade_look(const struct given *g, struct source s, uint8_t *output, uint64_t *answer) {
    shadow_leaf_record(s, g->tree, g->index, output, g->output_length, answer);
}

static void look(const struct given *g, struct loan l) {
    const struct tree *t = &g->tree;
    btree_v2_leaf_record(l.file, l.length, t->root_address, t->root_records, t->record_size,
                         g->index, l.output, g->output_length, l.answer);
}

static void look_at(const struct given *g, struct loan l) {
    const struct tree *t = &g->tree;
    btree_v2_leaf_record_at(l.file, l.length, l.base, t->root_address, t->root_records,
                            t->record_size, g->index, l.output, g->output_length, l.answer);
}

static void shade_find(const struct given *g, struct source s, uint8_t *output, uint64_t *answer) {
    (void)output;
    shadow_find(s, g->tree, g->sought, answer);
}

static void find(const struct given *g, struct loan l) {
    btree_v2_find(l.file, l.length, l.figures, g->offset_size, g->sought.start, g->sought.width,
                  g->sought.key, l.answer);
}

static void find_at(const struct given *g, struct loan l) {
    btree_v2_find_at(l.file, l.length, l.figures, g->offset_size, g->sought.start,
                     g->sought.width, g->sought.key, l.answer);
}

enum { PARSE, COLLECT, LOOK, FIND, CALLS };
static struct call calls[CALLS] = {
    [PARSE] = {"header reads", shade_parse, parse, parse_at, BTREE_V2_PARSE_PLACES,
               BTREE_V2_PARSE_AT_PLACES, .mends = true},
    [COLLECT] = {"collectings", shade_collect, collect, collect_at, BTREE_V2_COLLECT_PLACES,
                 BTREE_V2_COLLECT_PLACES, .outputs = true, .mends = true},
    [LOOK] = {"looks at a leaf", shade_look, look, look_at, BTREE_V2_LEAF_RECORD_PLACES,
              BTREE_V2_LEAF_RECORD_PLACES, .outputs = true},
    [FIND] = {"finds", shade_find, find, find_at, BTREE_V2_FIND_PLACES, BTREE_V2_FIND_PLACES,
              .mends = true},
};

/* The answers to an input, which guide the fuzzer beside the shadow's branches: those branches are
 * the same with a base and without. */
__attribute__((section("__libfuzzer_extra_counters"))) static uint8_t given_now[CALLS][2][CAUSES];

static void tell_all(void) {
    static const char *const bases[2] = {"", " with a base"};
    fprintf(stderr, "agreed on %" PRIu64 " inputs, by the number of the answer\n", inputs);
    for (const struct call *call = calls; call < calls + CALLS; call++) {
        for (int i = 0; i < 2; i++) {
            fprintf(stderr, "%s%s:", call->name, bases[i]);
            for (int cause = 0; cause < CAUSES; cause++)
                if (call->counts[i][cause] != 0)
                    fprintf(stderr, " %d: %" PRIu64, cause, call->counts[i][cause]);
            if (call == &calls[FIND]) fprintf(stderr, "; of a record: %" PRIu64, call->found[i]);
            fputc('\n', stderr);
        }
    }
}

int LLVMFuzzerInitialize(int *count, char ***words);
int LLVMFuzzerInitialize(int *count, char ***words) {
    (void)count, (void)words;
    file_place = lent_map();
    figures_place = lent_map();
    output_place = lent_map();
    answer_place = lent_map();
    for (size_t i = 0; i < sizeof pattern; i++) pattern[i] = (uint8_t)(29 * i) ^ 0xa5;
    atexit(tell_all);
    return 0;
}

/* Ends the process where two parts of memory differ. */
static void hold(const void *ours, const void *theirs, size_t bytes, const struct call *call,
                 const char *what) {
    if (bytes == 0 || memcmp(ours, theirs, bytes) == 0) return;
    fprintf(stderr, "the archive and the shadow differ: %s, %s\n", call->name, what);
    abort();
}

/* A copy in memory of exactly this size, so that the sanitizer sees its ends. */
static uint8_t *exact(const uint8_t *bytes, size_t length) {
    uint8_t *copy = malloc(length == 0 ? 1 : length);
    if (copy == NULL) abort();
    if (length != 0) memcpy(copy, bytes, length);
    return copy;
}

/* A copy in a place of the archive's. */
static void *lend(struct lent place, const void *bytes, size_t length, bool at_the_end) {
    uint8_t *at = lent_buffer(place, length, at_the_end);
    if (length != 0) memcpy(at, bytes, length);
    return at;
}

/* An answer to be filled, all of whose places are set before. */
static uint64_t *unset(size_t places, bool at_the_end) {
    size_t bytes = places * sizeof(uint64_t);
    return memset(lent_buffer(answer_place, bytes, at_the_end), 0xff, bytes);
}

/* Has the archive make the call, which must answer and put out what the shadow did. */
static void ask(const struct call *call, const struct given *g, struct source s, bool with_base,
                const uint8_t *output, const uint64_t *answer) {
    bool end = g->at_the_end;
    size_t places = with_base ? call->places_at : call->places;
    size_t length = call->outputs ? g->output_length : 0;
    uint64_t figures[BTREE_V2_HEADER_AT_FIGURES];
    size_t bytes = with_base ? sizeof figures : sizeof g->figures;
    memcpy(figures, g->figures, sizeof g->figures);
    figures[BTREE_V2_HEADER_FIGURES] = s.base;
    struct loan l = {
        .file = lend(file_place, s.file, s.length, end),
        .length = s.length,
        .base = s.base,
        .figures = lend(figures_place, figures, bytes, end),
        .output = lend(output_place, pattern, length, end),
        .answer = unset(places, end),
    };
    (with_base ? call->with_base : call->before)(g, l);
    hold(l.answer, answer, places * sizeof *answer, call, with_base ? "with a base" : "without");
    hold(l.output, output, length, call, "the output");
    hold(l.file, s.file, s.length, call, "the file afterwards");
    hold(l.figures, figures, bytes, call, "the header's figures afterwards");
}

/* The part from the base on as a file of its own; where there is none, the whole file. */
static struct source part_of(struct source s) {
    uint64_t base = s.base <= s.length ? s.base : 0;
    return (struct source){s.file + base, s.length - base, 0, s.mend};
}

static void count(struct call *call, int with_base, const uint64_t *answer) {
    call->counts[with_base][answer[BTREE_V2_REFUSAL]]++;
    given_now[call - calls][with_base][answer[BTREE_V2_REFUSAL]]++;
    if (call == &calls[FIND]) call->found[with_base] += answer[BTREE_V2_FIND_FOUND];
}

/* Makes a call on the file with its base, if it has one, and on the part from there on without a
 * base and with base 0. The answer that is left is the part's. */
static void run(struct call *call, const struct given *g, struct source s,
                uint64_t answer[MOST_PLACES]) {
    struct source part = part_of(s);
    size_t length = call->outputs ? g->output_length : 0;
    uint8_t *output = exact(pattern, length);
    if (s.mend && call->mends) {
        call->shadow(g, part, output, answer);
        memcpy(output, pattern, length);
    }
    s.mend = part.mend = false;
    if (s.base != 0) {
        call->shadow(g, s, output, answer);
        ask(call, g, s, true, output, answer);
        count(call, 1, answer);
    }
    if (s.base == 0 || s.base > s.length) call->shadow(g, part, output, answer);
    if (call == &calls[PARSE]) answer[BTREE_V2_PARSE_BASE] = 0;
    ask(call, g, part, false, output, answer);
    ask(call, g, part, true, output, answer);
    count(call, 0, answer);
    free(output);
}

/* The base of an input, made as its flags say. */
static uint64_t base_of(const uint8_t *front, uint64_t length) {
    uint64_t given = number(front + AT_BASE, 8);
    const uint64_t ends[] = {length == 0 ? 0 : length - 1, length, length + 1, UINT64_MAX};
    int kind = front[AT_FLAGS] & BASE_KIND;
    if (kind == BASE_AT_AN_END) return ends[given % 4];
    return kind == BASE_AS_GIVEN ? given : given % (length + 1);
}

/* The figures of a tree: those of the header that was read, or those of the front; and what they
 * have above their ranges. */
static void give(const uint8_t *front, const uint64_t header[MOST_PLACES], struct given *g) {
    static const int places[BTREE_V2_HEADER_FIGURES] = {
        AT_TREE_TYPE,    AT_NODE_SIZE,    AT_RECORD_SIZE,   AT_DEPTH,
        AT_ROOT_ADDRESS, AT_ROOT_RECORDS, AT_TOTAL_RECORDS,
    };
    static const size_t widths[BTREE_V2_HEADER_FIGURES] = {1, 4, 2, 2, 8, 2, 8};
    bool read = (front[AT_FLAGS] & BY_HEADER) != 0 && header[BTREE_V2_REFUSAL] == BTREE_V2_ACCEPTED;
    uint64_t excess = number(front + AT_EXCESS, 4);
    for (int i = 0; i < BTREE_V2_HEADER_FIGURES; i++) {
        g->figures[i] = read ? header[1 + i] : number(front + places[i], widths[i]);
        if (widths[i] < 8) g->figures[i] |= excess << 8 * widths[i];
    }
    g->tree = tree_of(g->figures, g->offset_size);
    /* A record below the root's count, at it, or one behind. */
    g->index = g->tree.total_records % (g->tree.root_records + UINT64_C(2));
}

int LLVMFuzzerTestOneInput(const uint8_t *data, size_t size);
int LLVMFuzzerTestOneInput(const uint8_t *data, size_t size) {
    if (size < AT_FILE || size - AT_FILE > LENT_MOST) return 0;
    struct source s = {.length = size - AT_FILE, .mend = (data[AT_FLAGS] & MENDED) != 0};
    s.file = exact(data + AT_FILE, s.length);
    s.base = base_of(data, s.length);
    struct given g = {
        .offset = number(data + AT_HEADER, 8),
        .offset_size = data[AT_OFFSET_SIZE],
        .length_size = data[AT_LENGTH_SIZE],
        .sought = {number(data + AT_KEY_START, 8), number(data + AT_KEY_WIDTH, 8),
                   number(data + AT_KEY, 8)},
        .output_length = number(data + AT_OUTPUT_LENGTH, 2) % (MOST_OUTPUT + 1),
        .at_the_end = (data[AT_FLAGS] & AT_THE_END) != 0,
    };
    uint64_t answer[MOST_PLACES];
    run(&calls[PARSE], &g, s, answer);
    give(data, answer, &g);
    for (int call = COLLECT; call < CALLS; call++) run(&calls[call], &g, s, answer);
    free(s.file);
    inputs++;
    return 0;
}
