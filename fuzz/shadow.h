/* A second reading of headers and trees in plain C, whose branches guide the fuzzer. */
#ifndef NULDRAFON_FUZZ_SHADOW_H
#define NULDRAFON_FUZZ_SHADOW_H

#include <stdbool.h>
#include <stddef.h>
#include <stdint.h>

/* A file and the base from which on it is read; `mend` asks that a checksum that differs be set
 * right in it, and is then no refusal. */
struct source {
    uint8_t *file;
    size_t length;
    uint64_t base;
    bool mend;
};

/* What a collecting is given beside the file and the output. */
struct tree {
    uint32_t node_size;
    uint16_t record_size, depth, root_records;
    uint64_t root_address, total_records;
    uint8_t tree_type, offset_size;
};

/* What is sought: a key, and where records have theirs. */
struct sought {
    uint64_t start, width, key;
};

/* The number in `width` bytes, at most 8, lowest first. */
uint64_t number(const uint8_t *bytes, size_t width);

/* The tree of a header's seven figures, each modulo the range of its field. */
struct tree tree_of(const uint64_t figures[7], uint8_t offset_size);

/* The answers of btree_v2_parse_at, of btree_v2_collect_at, of btree_v2_leaf_record_at for the root
 * of a tree as a leaf, and of btree_v2_find_at. */
void shadow_parse(struct source source, uint64_t offset, uint8_t offset_size, uint8_t length_size,
                  uint64_t answer[9]);
void shadow_collect(struct source source, struct tree tree, uint8_t *output, size_t output_length,
                    uint64_t answer[7]);
void shadow_leaf_record(struct source source, struct tree tree, uint64_t index, uint8_t *output,
                        size_t output_length, uint64_t answer[3]);
void shadow_find(struct source source, struct tree tree, struct sought sought, uint64_t answer[6]);

#endif
