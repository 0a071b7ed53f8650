/* Holds the names of btree_v2.h to known answers: each place of each answer, and each refusal. */
#include <stdint.h>
#include <stdio.h>
#include <string.h>

#include "btree_v2.h"

enum { RECORDS = 4, RECORD_SIZE = 8, NODE_SIZE = 40, START = 64, IMAGE_SIZE = 120, WIDTH = 8 };

static int differ;
static uint8_t records[65536], file[START + IMAGE_SIZE];

static void hold(uint64_t found, uint64_t due, const char *what) {
    if (found == due) return;
    printf("%s: %llu, due %llu\n", what, (unsigned long long)found, (unsigned long long)due);
    differ = 1;
}

/* Holds a refusal and its values. */
static void refused(const uint64_t *answer, enum btree_v2_refusal number, uint64_t first,
                    uint64_t second) {
    hold(answer[BTREE_V2_REFUSAL], number, "refusal");
    hold(answer[BTREE_V2_VALUE_1], first, "first value");
    hold(answer[BTREE_V2_VALUE_2], second, "second value");
}

/* Four records as a tree of two leaves and a root, the header at the front of the file. */
static void write_tree(uint8_t offset_size, uint8_t length_size, uint64_t start,
                       size_t records_length, size_t header_length, uint64_t *answer) {
    btree_v2_write(5, RECORDS, RECORD_SIZE, NODE_SIZE, offset_size, length_size, start, records,
                   records_length, file, header_length, file + START, IMAGE_SIZE, answer);
}

static void table(void) {
    uint64_t t[BTREE_V2_NODE_INFO_PLACES];
    btree_v2_node_info(512, 11, 8, 3, t);
    hold(t[BTREE_V2_REFUSAL], BTREE_V2_ACCEPTED, "table");
    hold(t[BTREE_V2_NODE_INFO_COUNT_WIDTH], 1, "count width");
    hold(t[BTREE_V2_NODE_INFO_NODE_RECORDS + 0], 45, "leaf's records");
    hold(t[BTREE_V2_NODE_INFO_NODE_RECORDS + 3], 22, "node's records");
    hold(t[BTREE_V2_NODE_INFO_SUBTREE_RECORDS + 0], 45, "records of a subtree of depth 0");
    hold(t[BTREE_V2_NODE_INFO_SUBTREE_RECORDS + 3], 608349, "records of a subtree of depth 3");
    hold(t[BTREE_V2_NODE_INFO_TOTAL_WIDTH + 0], 0, "total's width, depth 0");
    hold(t[BTREE_V2_NODE_INFO_TOTAL_WIDTH + 3], 3, "total's width, depth 3");
    hold(t[BTREE_V2_NODE_INFO_PLACES - 1], 0, "above the depth");
    btree_v2_node_info(512, 11, 8, BTREE_V2_LEVELS - 1, t);
    hold(t[BTREE_V2_REFUSAL], BTREE_V2_ACCEPTED, "deepest table");
    btree_v2_node_info(512, 11, 8, BTREE_V2_LEVELS, t);
    refused(t, BTREE_V2_DEPTH_ABOVE_LIMIT, BTREE_V2_LEVELS, 0);
}

static void plans(void) {
    uint64_t p[BTREE_V2_PLAN_PLACES];
    btree_v2_plan(8, 8, 40, 8, p);
    hold(p[BTREE_V2_REFUSAL], BTREE_V2_ACCEPTED, "plan");
    hold(p[BTREE_V2_PLAN_DEPTH], 2, "depth");
    hold(p[BTREE_V2_PLAN_NODES], 7, "nodes");
    hold(p[BTREE_V2_PLAN_LEAVES], 4, "leaves");
    hold(p[BTREE_V2_PLAN_IMAGE_SIZE], 280, "image size");
    btree_v2_plan(8, 8, 40, 3, p);
    refused(p, BTREE_V2_WRONG_OFFSET_SIZE, 3, 0);
    btree_v2_plan(8, 8, 9, 8, p);
    refused(p, BTREE_V2_WRONG_NODE_SIZE, 9, 0);
    btree_v2_plan(8, 0, 40, 8, p);
    refused(p, BTREE_V2_ZERO_RECORD_SIZE, 0, 0);
    btree_v2_plan(16777216, 8, 40, 8, p);
    refused(p, BTREE_V2_TOO_MANY_RECORDS, 16777216, 0);
    btree_v2_plan(3, 8, 26, 8, p);
    refused(p, BTREE_V2_LEVEL_HOLDS_NONE, 1, 0);
    btree_v2_plan(2, 20, 48, 8, p);
    refused(p, BTREE_V2_SUBTREE_TOO_THIN, 0, 0);
}

static void writes(void) {
    uint64_t w[BTREE_V2_PLAN_PLACES];
    const size_t length = RECORDS * RECORD_SIZE;
    write_tree(8, 3, START, length, START, w);
    refused(w, BTREE_V2_WRONG_LENGTH_SIZE, 3, 0);
    write_tree(8, 8, START, length - 1, START, w);
    refused(w, BTREE_V2_WRONG_RECORDS_LENGTH, length - 1, 0);
    btree_v2_write(5, 65536, 1, 512, 8, 2, START, records, 65536, file, START, file + START,
                   IMAGE_SIZE, w);
    refused(w, BTREE_V2_COUNT_TOO_LARGE, 65536, 0);
    write_tree(2, 8, 65415, length, START, w);
    hold(w[BTREE_V2_REFUSAL], BTREE_V2_ACCEPTED, "the last start");
    write_tree(2, 8, 65416, length, START, w);
    refused(w, BTREE_V2_END_TOO_LARGE, 65416, 0);
    write_tree(8, 8, START, length, BTREE_V2_HEADER_SIZE(8, 8) - 1, w);
    refused(w, BTREE_V2_OUTPUT_TOO_SHORT, 37, 0);
    write_tree(8, 8, START, length, BTREE_V2_HEADER_SIZE(8, 8), w);
    hold(w[BTREE_V2_REFUSAL], BTREE_V2_ACCEPTED, "write");
}

/* Finds record 1 of the tree, the second of the leaf at its start, by its first two bytes, in which
 * the records rise. The figures are those of the header. */
static void finds(const uint64_t figures[BTREE_V2_HEADER_FIGURES]) {
    uint64_t f[BTREE_V2_FIND_PLACES];
    const uint64_t key = records[RECORD_SIZE] + 256u * records[RECORD_SIZE + 1];
    btree_v2_find(file, sizeof file, figures, WIDTH, 0, 2, key, f);
    hold(f[BTREE_V2_REFUSAL], BTREE_V2_ACCEPTED, "find");
    hold(f[BTREE_V2_FIND_NODES], 2, "nodes read");
    hold(f[BTREE_V2_FIND_FOUND], 1, "found");
    hold(f[BTREE_V2_FIND_PLACE], START + 6 + RECORD_SIZE, "place");
    btree_v2_find(file, sizeof file, figures, WIDTH, 0, 2, key + 1, f);
    hold(f[BTREE_V2_FIND_NODES], 2, "nodes read for a key that is missing");
    hold(f[BTREE_V2_FIND_FOUND], 0, "found nothing");
    hold(f[BTREE_V2_FIND_PLACE], 0, "place of nothing");
    btree_v2_find(file, sizeof file, figures, WIDTH, RECORD_SIZE - 1, 2, key, f);
    refused(f, BTREE_V2_WRONG_KEY_FIELD, 0, 0);
}

/* The same tree behind a block. */
static void reads_behind_a_block(void) {
    enum { BLOCK = 9 };
    static uint8_t site[BLOCK + sizeof file];
    uint64_t h[BTREE_V2_PARSE_AT_PLACES], c[BTREE_V2_COLLECT_PLACES], f[BTREE_V2_FIND_PLACES],
        r[BTREE_V2_LEAF_RECORD_PLACES];
    uint8_t output[RECORDS * RECORD_SIZE];
    const uint64_t *figures = h + BTREE_V2_PARSE_TREE_TYPE;
    const uint64_t key = records[RECORD_SIZE] + 256u * records[RECORD_SIZE + 1];
    memcpy(site + BLOCK, file, sizeof file);
    btree_v2_parse_at(site, sizeof site, BLOCK, 0, WIDTH, WIDTH, h);
    hold(h[BTREE_V2_REFUSAL], BTREE_V2_ACCEPTED, "parse behind a block");
    hold(h[BTREE_V2_PARSE_ROOT_ADDRESS], START + 2 * NODE_SIZE, "root address from the base");
    hold(h[BTREE_V2_PARSE_BASE], BLOCK, "base");
    hold(figures[BTREE_V2_HEADER_AT_FIGURES - 1], BLOCK, "base of the figures");
    btree_v2_collect_at(site, sizeof site, figures, WIDTH, output, sizeof output, c);
    hold(c[BTREE_V2_COLLECT_RECORDS], RECORDS, "records put out behind a block");
    hold(memcmp(output, records, sizeof output) == 0, 1, "records behind a block");
    btree_v2_leaf_record_at(site, sizeof site, BLOCK, START, 2, RECORD_SIZE, 1, output,
                            sizeof output, r);
    hold(r[BTREE_V2_LEAF_RECORD_LENGTH], RECORD_SIZE, "length of a record behind a block");
    btree_v2_find_at(site, sizeof site, figures, WIDTH, 0, 2, key, f);
    hold(f[BTREE_V2_FIND_PLACE], START + 6 + RECORD_SIZE, "place from the base");
    btree_v2_parse_at(site, sizeof site, sizeof site + 1, 0, WIDTH, WIDTH, h);
    refused(h, BTREE_V2_BASE_BEYOND_FILE, 0, 0);
}

/* Reads what the last write left. */
static void reads(void) {
    uint64_t h[BTREE_V2_PARSE_PLACES], c[BTREE_V2_COLLECT_PLACES], r[BTREE_V2_LEAF_RECORD_PLACES];
    uint8_t output[RECORDS * RECORD_SIZE];
    btree_v2_parse(file, sizeof file, 0, WIDTH, WIDTH, h);
    hold(h[BTREE_V2_REFUSAL], BTREE_V2_ACCEPTED, "parse");
    hold(h[BTREE_V2_PARSE_TREE_TYPE], 5, "tree type");
    hold(h[BTREE_V2_PARSE_NODE_SIZE], NODE_SIZE, "node size");
    hold(h[BTREE_V2_PARSE_RECORD_SIZE], RECORD_SIZE, "record size");
    hold(h[BTREE_V2_PARSE_DEPTH], 1, "depth");
    hold(h[BTREE_V2_PARSE_ROOT_ADDRESS], START + 2 * NODE_SIZE, "root address");
    hold(h[BTREE_V2_PARSE_ROOT_RECORDS], 1, "root's records");
    hold(h[BTREE_V2_PARSE_TOTAL_RECORDS], RECORDS, "records in all");

    btree_v2_collect(file, sizeof file, 5, NODE_SIZE, RECORD_SIZE, 1, START + 2 * NODE_SIZE, 1,
                     RECORDS, WIDTH, output, sizeof output, c);
    hold(c[BTREE_V2_REFUSAL], BTREE_V2_ACCEPTED, "collect");
    hold(c[BTREE_V2_COLLECT_RECORDS], RECORDS, "records put out");
    hold(c[BTREE_V2_COLLECT_LEAVES], 2, "leaves read");
    hold(c[BTREE_V2_COLLECT_INTERNAL_NODES], 1, "internal nodes read");
    hold(c[BTREE_V2_COLLECT_INTERNAL_RECORDS], 1, "records from internal nodes");
    hold(memcmp(output, records, sizeof output) == 0, 1, "records");

    btree_v2_leaf_record(file, sizeof file, START, 2, RECORD_SIZE, 1, output, sizeof output, r);
    hold(r[BTREE_V2_REFUSAL], BTREE_V2_ACCEPTED, "look at a leaf");
    hold(r[BTREE_V2_LEAF_RECORD_LENGTH], RECORD_SIZE, "length of the record");

    finds(h + BTREE_V2_PARSE_TREE_TYPE);
    reads_behind_a_block();

    btree_v2_parse(file, 3, 0, WIDTH, WIDTH, h);
    refused(h, BTREE_V2_FILE_ENDS_EARLY, 4, 3);
    btree_v2_parse(file, sizeof file, 1, WIDTH, WIDTH, h);
    refused(h, BTREE_V2_WRONG_SIGNATURE, 0, 0);
    file[34] ^= 1; /* the lowest byte of the header's checksum */
    btree_v2_parse(file, sizeof file, 0, WIDTH, WIDTH, h);
    refused(h, BTREE_V2_CHECKSUM_DIFFERS, h[BTREE_V2_VALUE_1], h[BTREE_V2_VALUE_1] ^ 1);
    hold(h[BTREE_V2_VALUE_1] & 255, file[34], "stored checksum");
    file[4] = 1;
    btree_v2_parse(file, sizeof file, 0, WIDTH, WIDTH, h);
    refused(h, BTREE_V2_WRONG_VERSION, 1, 0);
}

/* Writes an attribute's record by name, which has every field, and reads it back. */
static void records_by_meaning(void) {
    uint64_t w[BTREE_V2_RECORD_WRITE_PLACES], r[BTREE_V2_RECORD_READ_PLACES];
    uint8_t record[BTREE_V2_TYPE_8_RECORD_SIZE + 1];
    btree_v2_record_write(8, 0x04030201, 7, 9, 1000, record, sizeof record, w);
    hold(w[BTREE_V2_REFUSAL], BTREE_V2_ACCEPTED, "write of a record");
    hold(w[BTREE_V2_RECORD_WRITE_LENGTH], BTREE_V2_TYPE_8_RECORD_SIZE, "its length");
    btree_v2_record_read(8, record, BTREE_V2_TYPE_8_RECORD_SIZE, r);
    hold(r[BTREE_V2_REFUSAL], BTREE_V2_ACCEPTED, "read of a record");
    hold(r[BTREE_V2_RECORD_READ_NAME_HASH], 0x04030201, "name hash");
    hold(r[BTREE_V2_RECORD_READ_HEAP_ID], 7, "heap id");
    hold(r[BTREE_V2_RECORD_READ_MESSAGE_FLAGS], 9, "message flags");
    hold(r[BTREE_V2_RECORD_READ_CREATION_ORDER], 1000, "creation order");

    btree_v2_record_read(5, record, BTREE_V2_TYPE_5_RECORD_SIZE, r);
    hold(r[BTREE_V2_REFUSAL], BTREE_V2_ACCEPTED, "read of type 5");
    btree_v2_record_read(6, record, BTREE_V2_TYPE_6_RECORD_SIZE, r);
    hold(r[BTREE_V2_REFUSAL], BTREE_V2_ACCEPTED, "read of type 6");
    btree_v2_record_read(9, record, BTREE_V2_TYPE_9_RECORD_SIZE, r);
    hold(r[BTREE_V2_REFUSAL], BTREE_V2_ACCEPTED, "read of type 9");
    btree_v2_record_read(7, record, BTREE_V2_TYPE_8_RECORD_SIZE, r);
    refused(r, BTREE_V2_UNKNOWN_RECORD_TYPE, 0, 0);
    btree_v2_record_read(8, record, sizeof record, r);
    refused(r, BTREE_V2_RECORD_TYPE_MISMATCH, 0, 0);
    btree_v2_record_write(5, 1, 2, 3, 0, record, sizeof record, w);
    refused(w, BTREE_V2_RECORD_TYPE_MISMATCH, 0, 0);
    btree_v2_record_write(5, 1, 2, 0, 0, record, BTREE_V2_TYPE_5_RECORD_SIZE - 1, w);
    refused(w, BTREE_V2_OUTPUT_TOO_SHORT, BTREE_V2_TYPE_5_RECORD_SIZE - 1, 0);
}

int main(void) {
    for (size_t i = 0; i < sizeof records; i++) records[i] = (uint8_t)(i * 7 + 1);
    table();
    plans();
    writes();
    reads();
    records_by_meaning();
    return differ;
}
