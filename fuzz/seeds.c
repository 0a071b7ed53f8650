/* Writes the fuzzer's first inputs into a folder: trees as btree_v2_write writes them, each with the
 * key of one of its records, and towers of one node for each of 33 levels; most behind a block. */
#include <stdio.h>
#include <stdlib.h>
#include <string.h>

#include "btree_v2.h"
#include "checksum.h"
#include "input.h"

enum { MOST_FILE = 1 << 15, IMAGE_AT = 48, DEEPEST = BTREE_V2_LEVELS - 1 };

/* A tree: node size, record size, offset size, length size, records. */
struct shape {
    uint32_t node_size;
    uint16_t record_size;
    uint8_t offset_size, length_size;
    uint64_t records;
};

static const struct shape shapes[] = {
    {10, 1, 2, 2, 0},    {40, 8, 8, 8, 1},   {40, 8, 4, 2, 3},    {100, 1, 2, 8, 90},
    {40, 8, 8, 8, 4},    {40, 8, 2, 4, 15},  {40, 8, 8, 8, 33},   {24, 1, 2, 2, 100},
    {280, 1, 4, 2, 700}, {64, 9, 4, 4, 40},  {512, 11, 8, 8, 60}, {1034, 2, 8, 8, 512},
    {26, 2, 2, 2, 60},   {64, 11, 8, 8, 90},
};

/* Towers; what stands for the records is the output's length in records. */
static const struct shape towers[] = {
    {65536, 1, 8, 8, 64}, {65545, 1, 2, 2, 9}, {4096, 3, 4, 4, 40}, {4294967295, 2, 8, 8, 30},
};

/* The blocks before the HDF5 part. */
static const size_t blocks[] = {0, 3, 100, 512};
enum { BLOCKS = sizeof blocks / sizeof *blocks, LONGEST_BLOCK = 512 };

static uint8_t input[AT_FILE + LONGEST_BLOCK + MOST_FILE];
/* How often the key of a tree of this depth is found, behind a block. */
static int found[BTREE_V2_LEVELS];

static void place(uint8_t *at, uint64_t x, int width) {
    for (; width > 0; width--, x >>= 8) *at++ = (uint8_t)x;
}

/* The bytes of a shape's keys, which end its records. */
static uint64_t key_width(const struct shape *s) { return (s->record_size + UINT64_C(1)) / 2; }

/* The block of an input, and its part behind the block, which is all 0. */
static uint8_t *begin(size_t i, int flags, size_t *block) {
    *block = blocks[(i + (size_t)flags) / 2 % BLOCKS];
    for (size_t j = 0; j < *block; j++) input[AT_FILE + j] = (uint8_t)(29 * j) ^ 0xa5;
    return memset(input + AT_FILE + *block, 0, MOST_FILE);
}

/* How the base is made: most often it is the block's length. */
static int base_flag(size_t i, int flags) {
    size_t k = i + (size_t)flags;
    return k % 8 == 7 ? BASE_AT_AN_END : k % 4 == 3 ? BASE_AS_GIVEN : 0;
}

/* The front of an input: a tree's figures and base as the header reader answers them, the header at
 * 0, and a key. Every second key is sought by figures above their ranges. */
static void front(const struct shape *s, const uint64_t header[BTREE_V2_PARSE_AT_PLACES],
                  uint64_t key, int flags) {
    input[AT_FLAGS] = (uint8_t)flags;
    input[AT_OFFSET_SIZE] = s->offset_size;
    input[AT_LENGTH_SIZE] = s->length_size;
    place(input + AT_OUTPUT_LENGTH, s->records * s->record_size, 2);
    place(input + AT_HEADER, 0, 8);
    input[AT_TREE_TYPE] = (uint8_t)header[BTREE_V2_PARSE_TREE_TYPE];
    place(input + AT_NODE_SIZE, header[BTREE_V2_PARSE_NODE_SIZE], 4);
    place(input + AT_RECORD_SIZE, header[BTREE_V2_PARSE_RECORD_SIZE], 2);
    place(input + AT_DEPTH, header[BTREE_V2_PARSE_DEPTH], 2);
    place(input + AT_ROOT_ADDRESS, header[BTREE_V2_PARSE_ROOT_ADDRESS], 8);
    place(input + AT_ROOT_RECORDS, header[BTREE_V2_PARSE_ROOT_RECORDS], 2);
    place(input + AT_TOTAL_RECORDS, header[BTREE_V2_PARSE_TOTAL_RECORDS], 8);
    place(input + AT_KEY_START, s->record_size - key_width(s), 8);
    place(input + AT_KEY_WIDTH, key_width(s), 8);
    place(input + AT_KEY, key, 8);
    place(input + AT_EXCESS, key % 2, 4);
    place(input + AT_BASE, header[BTREE_V2_PARSE_BASE], 8);
}

/* Writes the first bytes of the input to a file of the folder; 0 where that went well. */
static int save(const char *folder, const char *kind, size_t i, int flags, size_t bytes) {
    char name[4096];
    snprintf(name, sizeof name, "%s/%s-%zu-%d", folder, kind, i, flags);
    FILE *out = fopen(name, "wb");
    if (out == NULL) return 1;
    size_t put = fwrite(input, 1, bytes, out);
    return fclose(out) != 0 || put != bytes;
}

/* A written tree, whose keys ascend where they have room for that. */
static int tree(const char *folder, size_t i, int flags) {
    static uint8_t records[MOST_FILE];
    const struct shape *s = &shapes[i];
    size_t block;
    uint8_t *part = begin(i, flags, &block);
    uint64_t answer[BTREE_V2_PLAN_PLACES], header[BTREE_V2_PARSE_AT_PLACES];
    uint64_t sought[BTREE_V2_FIND_PLACES], width = key_width(s), key = 1 + s->records * 2 / 3;
    size_t length = s->records * s->record_size;
    for (size_t j = 0; j < length; j++) records[j] = (uint8_t)(j * 7 + i);
    for (uint64_t j = 1; j <= s->records; j++)
        place(records + j * s->record_size - width, j, (int)width);
    btree_v2_write(5, s->records, s->record_size, s->node_size, s->offset_size, s->length_size,
                   IMAGE_AT, records, length, part, IMAGE_AT, part + IMAGE_AT,
                   MOST_FILE - IMAGE_AT, answer);
    const uint8_t *file = input + AT_FILE;
    btree_v2_parse_at(file, block + MOST_FILE, block, 0, s->offset_size, s->length_size, header);
    if (answer[BTREE_V2_REFUSAL] != 0 || header[BTREE_V2_REFUSAL] != 0) return 1;
    btree_v2_find_at(file, block + MOST_FILE, header + 1, s->offset_size, s->record_size - width,
                     width, key, sought);
    if (block > 0) found[header[BTREE_V2_PARSE_DEPTH]] += (int)sought[BTREE_V2_FIND_FOUND];
    front(s, header, key, flags | base_flag(i, flags));
    size_t bytes = AT_FILE + block + IMAGE_AT + answer[BTREE_V2_PLAN_IMAGE_SIZE];
    return save(folder, "tree", i, flags, bytes);
}

/* One node of each level, each with one record and both pointers to the node below; no header. */
static int tower(const char *folder, size_t i, int flags) {
    const struct shape *s = &towers[i];
    size_t block;
    uint8_t *part = begin(i, flags, &block), *at = part;
    uint64_t table[BTREE_V2_NODE_INFO_PLACES], below = 0;
    btree_v2_node_info(s->node_size, s->record_size, s->offset_size, DEEPEST, table);
    const uint64_t count_width = table[BTREE_V2_NODE_INFO_COUNT_WIDTH];
    const uint64_t *total_width = table + BTREE_V2_NODE_INFO_TOTAL_WIDTH;
    for (int level = 0; level <= DEEPEST; level++) {
        uint8_t *node = at;
        memcpy(node, level == 0 ? "BTLF" : "BTIN", 4);
        at += 6 + s->record_size;
        for (int child = 0; level > 0 && child < 2; child++) {
            place(at, below, s->offset_size);
            place(at + s->offset_size, 1, (int)count_width);
            at += s->offset_size + count_width + total_width[level - 1];
        }
        place(at, checksum_jenkins_lookup3(node, (size_t)(at - node)), 4);
        at += 4;
        below = (uint64_t)(node - part);
    }
    uint64_t header[BTREE_V2_PARSE_AT_PLACES] = {
        0, 5, s->node_size, s->record_size, DEEPEST, below, 1, UINT64_MAX, block};
    front(s, header, 0, flags | base_flag(i, flags));
    return save(folder, "tower", i, flags, (size_t)(at - input));
}

int main(int count, char **words) {
    if (count != 2) return 2;
    int failed = 0;
    for (int flags = 0; flags < 8; flags++) {
        for (size_t i = 0; i < sizeof shapes / sizeof *shapes; i++)
            failed |= tree(words[1], i, flags);
        for (size_t i = 0; i < sizeof towers / sizeof *towers; i++)
            failed |= tower(words[1], i, flags);
    }
    if (failed) fprintf(stderr, "an input could not be made\n");
    for (int depth = 0; depth <= 2; depth++) {
        if (found[depth] != 0) continue;
        fprintf(stderr, "no key of a tree of depth %d is found behind a block\n", depth);
        failed = 1;
    }
    return failed;
}
