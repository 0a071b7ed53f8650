/* A second reading of headers and trees in plain C, test by test as documents 01 and 02 list
 * them. */
#include "shadow.h"

#include <string.h>

uint32_t bench_c_lookup3(const uint8_t *data, size_t length); /* rust/bench/lookup3.c */

uint64_t number(const uint8_t *bytes, size_t width) {
    uint64_t x = 0;
    while (width-- > 0) x = x << 8 | bytes[width];
    return x;
}

/* Fills a refusal in; false, so that a test can return it. */
static bool refuse(uint64_t *answer, uint64_t cause, uint64_t first, uint64_t second) {
    answer[0] = cause;
    answer[1] = first;
    answer[2] = second;
    return false;
}

/* Goes on with the part from the base on; refusal 18 where the base is beyond the file. */
static bool from_base(struct source *s, uint64_t *answer) {
    if (s->base > s->length) return refuse(answer, 18, 0, 0);
    s->file += s->base;
    s->length -= s->base;
    return true;
}

static uint64_t held_sum(uint64_t a, uint64_t b) { return a > UINT64_MAX - b ? UINT64_MAX : a + b; }

/* Refusal 1 unless there are `count` bytes from `at` on. */
static bool there(uint64_t at, uint64_t count, uint64_t length, uint64_t *answer) {
    if (at <= length && count <= length - at) return true;
    return refuse(answer, 1, held_sum(at, count), length);
}

static bool is_field_size(uint8_t size) { return size == 2 || size == 4 || size == 8; }

/* Refusal 6 unless the four bytes at `end` are the checksum of those from `from` to there. */
static bool summed(struct source s, size_t from, size_t end, uint64_t *answer) {
    uint32_t computed = bench_c_lookup3(s.file + from, end - from);
    uint32_t stored = (uint32_t)number(s.file + end, 4);
    if (stored == computed) return true;
    if (!s.mend) return refuse(answer, 6, stored, computed);
    for (int i = 0; i < 4; i++) s.file[end + (size_t)i] = (uint8_t)(computed >> 8 * i);
    return true;
}

/* The header's tests in their order; then its figures. */
static bool header(struct source s, uint64_t offset, uint8_t ow, uint8_t lw, uint64_t *answer) {
    if (!from_base(&s, answer)) return false;
    if (!there(offset, 4, s.length, answer)) return false;
    const uint8_t *p = s.file + offset;
    if (memcmp(p, "BTHD", 4) != 0) return refuse(answer, 2, 0, 0);
    if (!there(offset, 16, s.length, answer)) return false;
    if (p[4] != 0) return refuse(answer, 3, p[4], 0);
    if (!is_field_size(ow)) return refuse(answer, 4, ow, 0);
    if (!there(offset, 16 + ow, s.length, answer)) return false;
    if (!there(offset, 18 + ow, s.length, answer)) return false;
    if (!is_field_size(lw)) return refuse(answer, 5, lw, 0);
    size_t end = 18 + (size_t)ow + lw;
    if (!there(offset, end, s.length, answer)) return false;
    if (!there(offset, end + 4, s.length, answer)) return false;
    if (!summed(s, offset, offset + end, answer)) return false;
    uint64_t figures[9] = {0, p[5], number(p + 6, 4), number(p + 10, 2), number(p + 12, 2),
                           number(p + 16, ow), number(p + 16 + ow, 2), number(p + 18 + ow, lw),
                           s.base};
    memcpy(answer, figures, sizeof figures);
    return true;
}

void shadow_parse(struct source source, uint64_t offset, uint8_t offset_size, uint8_t length_size,
                  uint64_t answer[9]) {
    memset(answer, 0, 9 * sizeof *answer);
    header(source, offset, offset_size, length_size, answer);
}

struct tree tree_of(const uint64_t figures[7], uint8_t offset_size) {
    return (struct tree){
        .tree_type = (uint8_t)figures[0],
        .node_size = (uint32_t)figures[1],
        .record_size = (uint16_t)figures[2],
        .depth = (uint16_t)figures[3],
        .root_address = figures[4],
        .root_records = (uint16_t)figures[5],
        .total_records = figures[6],
        .offset_size = offset_size,
    };
}

/* A walk over a tree: what it goes by, and what it has come to. */
struct walk {
    struct source s;
    struct tree t;
    uint8_t count_width, total_width[33];
    uint8_t *output;
    size_t output_length;
    uint64_t *answer, records, leaves, internals, internal_records;
};

/* The bytes that a count takes. */
static uint8_t width(uint64_t count) {
    uint8_t bytes = 1;
    while (bytes < 8 && count >> 8 * bytes != 0) bytes++;
    return bytes;
}

/* The bytes of a pointer in a node of this level. */
static uint64_t pointer_width(const struct walk *w, unsigned level) {
    return w->t.offset_size + (uint64_t)w->count_width + w->total_width[level - 1];
}

/* The widths of a pointer's fields: the records' and, by the level of the child, the totals'. */
static void widths(struct walk *w) {
    uint64_t size = w->t.node_size, record = w->t.record_size;
    uint64_t under = size <= 10 ? 0 : (size - 10) / record;
    w->count_width = width(under);
    w->total_width[0] = 0;
    for (unsigned level = 1; level <= 32; level++) {
        uint64_t pointer = pointer_width(w, level);
        uint64_t most = size <= 10 + pointer ? 0 : (size - 10 - pointer) / (record + pointer);
        unsigned __int128 all = (unsigned __int128)(most + 1) * under + most;
        under = all > UINT64_MAX ? UINT64_MAX : (uint64_t)all;
        w->total_width[level] = width(under);
    }
}

/* Puts the next record out, or refusal 15. */
static bool put(struct walk *w, const uint8_t *record) {
    size_t size = w->t.record_size, at = w->records * size;
    if (w->output_length - at < size) return refuse(w->answer, 15, w->output_length, 0);
    memcpy(w->output + at, record, size);
    w->records++;
    return true;
}

/* What both kinds of node begin with: 6 bytes, and the signature. */
static bool begins(struct walk *w, uint64_t address, const char *signature) {
    if (!there(address, 6, w->s.length, w->answer)) return false;
    if (memcmp(w->s.file + address, signature, 4) == 0) return true;
    return refuse(w->answer, 2, 0, 0);
}

/* A leaf's tests. */
static bool leaf_passes(struct walk *w, uint64_t address, uint16_t count) {
    if (!begins(w, address, "BTLF")) return false;
    uint64_t bytes = (uint64_t)count * w->t.record_size;
    if (!there(address + 6, bytes, w->s.length, w->answer)) return false;
    size_t end = address + 6 + bytes;
    return there(end, 4, w->s.length, w->answer) && summed(w->s, address, end, w->answer);
}

static bool leaf(struct walk *w, uint64_t address, uint16_t count) {
    if (!leaf_passes(w, address, count)) return false;
    w->leaves++;
    for (size_t i = 0; i < count; i++)
        if (!put(w, w->s.file + address + 6 + i * w->t.record_size)) return false;
    return true;
}

static bool node(struct walk *w, unsigned level, uint64_t address, uint16_t count);

/* Goes from an internal node that has passed its tests to its child i: address and records. */
static void go_below(const struct walk *w, unsigned level, size_t i, uint64_t *address,
                     uint16_t *count) {
    const uint8_t *pointers = w->s.file + *address + 6 + (size_t)*count * w->t.record_size;
    const uint8_t *pointer = pointers + i * pointer_width(w, level);
    *address = number(pointer, w->t.offset_size);
    *count = (uint16_t)number(pointer + w->t.offset_size, w->count_width);
}

/* Child by child, with a record after each but the last. */
static bool children(struct walk *w, unsigned level, uint64_t address, uint16_t count) {
    const uint8_t *records = w->s.file + address + 6;
    for (size_t i = 0; i <= count; i++) {
        uint64_t child = address;
        uint16_t below = count;
        go_below(w, level, i, &child, &below);
        if (!node(w, level - 1, child, below)) return false;
        if (i < count) {
            if (!put(w, records + i * w->t.record_size)) return false;
            w->internal_records++;
        }
    }
    return true;
}

/* An internal node's tests. */
static bool internal_passes(struct walk *w, unsigned level, uint64_t address, uint16_t count) {
    if (!begins(w, address, "BTIN")) return false;
    uint64_t rest = w->s.length - address, bytes = (uint64_t)count * w->t.record_size;
    uint64_t pointers = (count + UINT64_C(1)) * pointer_width(w, level);
    if (!there(6, bytes, rest, w->answer)) return false;
    if (!there(6 + bytes, pointers, rest, w->answer)) return false;
    return is_field_size(w->t.offset_size) || refuse(w->answer, 4, w->t.offset_size, 0);
}

static bool internal(struct walk *w, unsigned level, uint64_t address, uint16_t count) {
    if (!internal_passes(w, level, address, count)) return false;
    w->internals++;
    return children(w, level, address, count);
}

static bool node(struct walk *w, unsigned level, uint64_t address, uint16_t count) {
    return level == 0 ? leaf(w, address, count) : internal(w, level, address, count);
}

static bool is_empty(const struct tree *t) { return t->total_records == 0 || t->root_records == 0; }

/* The tests before the root. */
static bool root_passes(struct walk *w) {
    if (w->t.record_size == 0) return refuse(w->answer, 8, 0, 0);
    return w->t.depth <= 32 || refuse(w->answer, 16, w->t.depth, 0);
}

void shadow_collect(struct source source, struct tree tree, uint8_t *output, size_t output_length,
                    uint64_t answer[7]) {
    struct walk w = {.s = source, .t = tree, .output = output, .output_length = output_length,
                     .answer = answer};
    memset(answer, 0, 7 * sizeof *answer);
    if (!from_base(&w.s, answer) || is_empty(&tree)) return;
    if (root_passes(&w)) {
        widths(&w);
        node(&w, tree.depth, tree.root_address, tree.root_records);
    }
    uint64_t counts[4] = {w.records, w.leaves, w.internals, w.internal_records};
    memcpy(answer + 3, counts, sizeof counts);
}

/* The tests of the look in their order; then the record. */
static bool record(struct walk *w, uint64_t index, uint8_t *output, size_t output_length) {
    size_t size = w->t.record_size;
    if (!from_base(&w->s, w->answer)) return false;
    if (size == 0) return refuse(w->answer, 8, 0, 0);
    if (!leaf_passes(w, w->t.root_address, w->t.root_records)) return false;
    if (index >= w->t.root_records) return true;
    if (output_length < size) return refuse(w->answer, 15, output_length, 0);
    memcpy(output, w->s.file + w->t.root_address + 6 + index * size, size);
    w->answer[1] = size;
    return true;
}

void shadow_leaf_record(struct source source, struct tree tree, uint64_t index, uint8_t *output,
                        size_t output_length, uint64_t answer[3]) {
    struct walk w = {.s = source, .t = tree, .answer = answer};
    memset(answer, 0, 3 * sizeof *answer);
    record(&w, index, output, output_length);
}

/* Whether a record has the whole key, of 1 to 8 bytes. */
static bool has_key(uint64_t record_size, const struct sought *sought) {
    return 1 <= sought->width && sought->width <= 8 && sought->start <= record_size &&
           sought->width <= record_size - sought->start;
}

/* One node of each level, from the root to a leaf: in each the first record whose key is not below
 * the one sought leads on, and of these the last with that key is found: 1 and its place. */
static bool descend(struct walk *w, const struct sought *sought, uint64_t found[2]) {
    uint64_t address = w->t.root_address;
    uint16_t count = w->t.root_records;
    for (unsigned level = w->t.depth;; level--) {
        bool passes = level == 0 ? leaf_passes(w, address, count)
                                 : internal_passes(w, level, address, count);
        if (!passes) return false;
        w->answer[3]++;
        uint64_t key = 0;
        uint16_t i = 0;
        for (; i < count; i++) {
            const uint8_t *record = w->s.file + address + 6 + (size_t)i * w->t.record_size;
            key = number(record + sought->start, sought->width);
            if (key >= sought->key) break;
        }
        if (i < count && key == sought->key) {
            found[0] = 1;
            found[1] = address + 6 + (uint64_t)i * w->t.record_size;
        }
        if (level == 0) return true;
        go_below(w, level, i, &address, &count);
    }
}

/* The tests of a find in their order; then the descent. */
static bool find(struct walk *w, const struct sought *sought) {
    uint64_t found[2] = {0, 0};
    if (!from_base(&w->s, w->answer)) return false;
    if (is_empty(&w->t)) return true;
    if (!root_passes(w)) return false;
    if (!has_key(w->t.record_size, sought)) return refuse(w->answer, 17, 0, 0);
    widths(w);
    if (!descend(w, sought, found)) return false;
    memcpy(w->answer + 4, found, sizeof found);
    return true;
}

void shadow_find(struct source source, struct tree tree, struct sought sought, uint64_t answer[6]) {
    struct walk w = {.s = source, .t = tree, .answer = answer};
    memset(answer, 0, 6 * sizeof *answer);
    find(&w, &sought);
}
