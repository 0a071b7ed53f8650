/* Version 2 B-trees of HDF5, written and read: functions, their answers, and the refusals. */
#ifndef NULDRAFON_BTREE_V2_H
#define NULDRAFON_BTREE_V2_H

#include <stddef.h>
#include <stdint.h>

#ifdef __cplusplus
extern "C" {
#endif

/*
 * A function fills its whole answer, an array of numbers. First comes the refusal, which is
 * BTREE_V2_ACCEPTED where the call is accepted; then the figures in the places listed above each
 * function, or, where the call is refused, the two values of the refusal; then zeros. No pointer is
 * null, even where its length is 0. Memory that a function may write to overlaps no other that it
 * gets, and nothing else uses it during the call. Nothing is kept. Sizes are in bytes.
 */
enum { BTREE_V2_REFUSAL = 0, BTREE_V2_VALUE_1 = 1, BTREE_V2_VALUE_2 = 2 };

/* The refusals; the values that come with one stand in brackets, and the others are 0. */
enum btree_v2_refusal {
    BTREE_V2_ACCEPTED = 0,
    /* The file ends early [end needed, at most 2^64 - 1; length of the file]. */
    BTREE_V2_FILE_ENDS_EARLY = 1,
    /* A signature is not the one due. */
    BTREE_V2_WRONG_SIGNATURE = 2,
    /* The header's version is not 0 [version]. */
    BTREE_V2_WRONG_VERSION = 3,
    /* The offset size is not 2, 4 or 8 [size]. */
    BTREE_V2_WRONG_OFFSET_SIZE = 4,
    /* The length size is not 2, 4 or 8 [size]. */
    BTREE_V2_WRONG_LENGTH_SIZE = 5,
    /* A checksum differs [stored; computed]. */
    BTREE_V2_CHECKSUM_DIFFERS = 6,
    /* The node size is outside 10 to 65536 [size]. */
    BTREE_V2_WRONG_NODE_SIZE = 7,
    /* The record size is 0. */
    BTREE_V2_ZERO_RECORD_SIZE = 8,
    /* There are more than 16777215 records [count]. */
    BTREE_V2_TOO_MANY_RECORDS = 9,
    /* A level that is needed holds no record [level]. */
    BTREE_V2_LEVEL_HOLDS_NONE = 10,
    /* A subtree has too few records for its depth. */
    BTREE_V2_SUBTREE_TOO_THIN = 11,
    /* The record buffer is not of record count times record size [its length]. */
    BTREE_V2_WRONG_RECORDS_LENGTH = 12,
    /* The record count is above the length field's largest number [count]. */
    BTREE_V2_COUNT_TOO_LARGE = 13,
    /* Start plus image size is above the offset field's largest number [start]. */
    BTREE_V2_END_TOO_LARGE = 14,
    /* An output is too short [its length]. */
    BTREE_V2_OUTPUT_TOO_SHORT = 15,
    /* The depth is above 32 [depth]. */
    BTREE_V2_DEPTH_ABOVE_LIMIT = 16,
    /* The key's field has not 1 to 8 bytes, or runs past the record's end. */
    BTREE_V2_WRONG_KEY_FIELD = 17,
    /* The base is beyond the file's length. */
    BTREE_V2_BASE_BEYOND_FILE = 18,
    /* The tree type is not 5, 6, 8 or 9. */
    BTREE_V2_UNKNOWN_RECORD_TYPE = 19,
    /* A record's length is not that of its tree type, or a value is too large for its field. */
    BTREE_V2_RECORD_TYPE_MISMATCH = 20
};

/* The levels that a capacity table has: 0, that of the leaves, to 32. */
enum { BTREE_V2_LEVELS = 33 };

/* Places of the answer of btree_v2_node_info; the last three have one for each level. */
enum {
    BTREE_V2_NODE_INFO_COUNT_WIDTH = 1,      /* width of a node's record count */
    BTREE_V2_NODE_INFO_NODE_RECORDS = 2,     /* + level: records that a node holds */
    BTREE_V2_NODE_INFO_SUBTREE_RECORDS = 35, /* + level: records that a subtree holds */
    BTREE_V2_NODE_INFO_TOTAL_WIDTH = 68,     /* + level: width of a subtree's record count */
    BTREE_V2_NODE_INFO_PLACES = 101
};

/* The capacity table up to `depth`; zeros above it. Refusal: 16. */
void btree_v2_node_info(uint32_t node_size, uint16_t record_size, uint8_t offset_size,
                        uint16_t depth, uint64_t answer[BTREE_V2_NODE_INFO_PLACES]);

/* Places of the answers of btree_v2_plan and btree_v2_write. */
enum {
    BTREE_V2_PLAN_DEPTH = 1,
    BTREE_V2_PLAN_NODES = 2, /* leaves and internal nodes */
    BTREE_V2_PLAN_LEAVES = 3,
    BTREE_V2_PLAN_IMAGE_SIZE = 4,
    BTREE_V2_PLAN_PLACES = 5
};

/* The tree that `record_count` records take. Refusals in this order: 4, 7, 8, 9, 10, 11. */
void btree_v2_plan(uint64_t record_count, uint16_t record_size, uint32_t node_size,
                   uint8_t offset_size, uint64_t answer[BTREE_V2_PLAN_PLACES]);

/* The length of a tree's header. */
#define BTREE_V2_HEADER_SIZE(offset_size, length_size) (22 + (offset_size) + (length_size))

/*
 * Writes the tree of the records, which stand end to end: its header and the image of its nodes,
 * the first of which gets the address `start`. The image is filled node after node, each front to
 * back in one pass, and then the header. Bytes of longer buffers stay. The answer is as that of the
 * plan. Refusals in this order: 4, 5, 7 to 15, the header's length before the image's; nothing is
 * written then.
 */
void btree_v2_write(uint8_t tree_type, uint64_t record_count, uint16_t record_size,
                    uint32_t node_size, uint8_t offset_size, uint8_t length_size, uint64_t start,
                    const uint8_t *records, size_t records_length, uint8_t *header,
                    size_t header_length, uint8_t *image, size_t image_length,
                    uint64_t answer[BTREE_V2_PLAN_PLACES]);

/* Places of the answer of btree_v2_parse. */
enum {
    BTREE_V2_PARSE_TREE_TYPE = 1,
    BTREE_V2_PARSE_NODE_SIZE = 2,
    BTREE_V2_PARSE_RECORD_SIZE = 3,
    BTREE_V2_PARSE_DEPTH = 4,
    BTREE_V2_PARSE_ROOT_ADDRESS = 5,
    BTREE_V2_PARSE_ROOT_RECORDS = 6,
    BTREE_V2_PARSE_TOTAL_RECORDS = 7,
    BTREE_V2_PARSE_PLACES = 8
};

/* Reads the header at `offset` of the file. Refusals: 1 to 6. */
void btree_v2_parse(const uint8_t *file, size_t file_length, uint64_t offset, uint8_t offset_size,
                    uint8_t length_size, uint64_t answer[BTREE_V2_PARSE_PLACES]);

/* The place that the answer of btree_v2_parse_at has beside those of btree_v2_parse's. */
enum { BTREE_V2_PARSE_BASE = 8, BTREE_V2_PARSE_AT_PLACES = 9 };

/*
 * The functions whose names end in _at read a file that has a block of other bytes in front, as
 * long as the base. Of the part of the file from the base on they answer what the function of the
 * same name without _at answers of a file that is this part: places and addresses count from the
 * base, and the figures of BTREE_V2_FILE_ENDS_EARLY are those of the part. A base beyond the file's length is
 * refused, before all else, by 18; one that is the file's length is not. With base 0 both answer
 * the same.
 *
 * This one reads the header at `offset` of that part. The base stands behind the header's figures,
 * for the functions that take them. Refusals: 18, then 1 to 6.
 */
void btree_v2_parse_at(const uint8_t *file, size_t file_length, uint64_t base, uint64_t offset,
                       uint8_t offset_size, uint8_t length_size,
                       uint64_t answer[BTREE_V2_PARSE_AT_PLACES]);

/* Places of the answer of btree_v2_collect: counts that are given in a refused call too. */
enum {
    BTREE_V2_COLLECT_RECORDS = 3,          /* records put out */
    BTREE_V2_COLLECT_LEAVES = 4,           /* leaves read */
    BTREE_V2_COLLECT_INTERNAL_NODES = 5,   /* internal nodes read */
    BTREE_V2_COLLECT_INTERNAL_RECORDS = 6, /* records put out that are from internal nodes */
    BTREE_V2_COLLECT_PLACES = 7
};

/*
 * Puts the records of a tree in the file end to end into the output, in order; the output's other
 * bytes stay. The numbers from `tree_type` to `total_records` are the header's, as btree_v2_parse
 * gives them. A leaf is read only where its checksum is there, else the file ends early (1), and is
 * right (6). Refusals: 1, 2, 4, 6, 8, 15, 16; the records before it are in the output.
 */
void btree_v2_collect(const uint8_t *file, size_t file_length, uint8_t tree_type,
                      uint32_t node_size, uint16_t record_size, uint16_t depth,
                      uint64_t root_address, uint16_t root_records, uint64_t total_records,
                      uint8_t offset_size, uint8_t *output, size_t output_length,
                      uint64_t answer[BTREE_V2_COLLECT_PLACES]);

/*
 * The figures of a header: places 1 to 7 of btree_v2_parse's answer, and the base behind them,
 * places 1 to 8 of btree_v2_parse_at's; so `answer + BTREE_V2_PARSE_TREE_TYPE` can be handed over
 * as it is. A number above its field's range counts modulo 2^8 (tree type), 2^32 (node size), 2^16
 * (record size), 2^16 (depth), 2^64 (root address), 2^16 (root's records), 2^64 (records in all),
 * 2^64 (base).
 */
enum { BTREE_V2_HEADER_FIGURES = 7, BTREE_V2_HEADER_AT_FIGURES = 8 };

/*
 * The same from the header's base on. Refusals: 18, for a tree without records too, then those of
 * btree_v2_collect.
 */
void btree_v2_collect_at(const uint8_t *file, size_t file_length,
                         const uint64_t header[BTREE_V2_HEADER_AT_FIGURES], uint8_t offset_size,
                         uint8_t *output, size_t output_length,
                         uint64_t answer[BTREE_V2_COLLECT_PLACES]);

/* Places of the answer of btree_v2_leaf_record. */
enum { BTREE_V2_LEAF_RECORD_LENGTH = 1, BTREE_V2_LEAF_RECORD_PLACES = 3 };

/*
 * Copies record `index` of the leaf at `address` of the file, which has `count` records, to the
 * front of the output; the record is empty where `index` is not below `count`. The output's other
 * bytes stay. Refusals in this order: 8, the leaf's as in collecting (1, 2, 1, 1, 6: the first 6
 * bytes, signature, records, the checksum's 4 bytes, checksum), 15; nothing is written then.
 */
void btree_v2_leaf_record(const uint8_t *file, size_t file_length, uint64_t address, uint16_t count,
                          uint16_t record_size, uint64_t index, uint8_t *output,
                          size_t output_length, uint64_t answer[BTREE_V2_LEAF_RECORD_PLACES]);

/* The same from the base on. Refusals in this order: 18, then those of btree_v2_leaf_record. */
void btree_v2_leaf_record_at(const uint8_t *file, size_t file_length, uint64_t base,
                             uint64_t address, uint16_t count, uint16_t record_size,
                             uint64_t index, uint8_t *output, size_t output_length,
                             uint64_t answer[BTREE_V2_LEAF_RECORD_PLACES]);

/* Places of the answer of btree_v2_find; the nodes are given in a refused call too. */
enum {
    BTREE_V2_FIND_NODES = 3, /* nodes read, at most depth + 1 */
    BTREE_V2_FIND_FOUND = 4, /* 1 where a record was found, else 0 */
    BTREE_V2_FIND_PLACE = 5, /* place in the file of its first byte; 0 where none was found */
    BTREE_V2_FIND_PLACES = 6
};

/*
 * Finds a record of a tree in the file by its key: the number in the `key_width` bytes from
 * `key_start` of the record on, low byte first. It reads one node of each level, and no other. In
 * each the first record whose key is not below the one sought leads to the child before it, and
 * where there is none such the last child is taken; the answer is the last of these records, the
 * leaf's included, that has the key sought. Where collecting accepts the tree and its keys, in that
 * order, never fall, this is the first record with the key, and none is found only where no record
 * has it; in any other file a record that has the key can be missed. A tree without records is
 * accepted, and nothing found, before anything else is looked at. Refusals in this order: 8, 16,
 * 17, then those of the nodes on the way, as in collecting (1, 2, 4, 6).
 */
void btree_v2_find(const uint8_t *file, size_t file_length,
                   const uint64_t header[BTREE_V2_HEADER_FIGURES], uint8_t offset_size,
                   uint64_t key_start, uint64_t key_width, uint64_t key,
                   uint64_t answer[BTREE_V2_FIND_PLACES]);

/*
 * The same from the header's base on, from which the place counts, too. Refusals in this order: 18,
 * for a tree without records too, then those of btree_v2_find.
 */
void btree_v2_find_at(const uint8_t *file, size_t file_length,
                      const uint64_t header[BTREE_V2_HEADER_AT_FIGURES], uint8_t offset_size,
                      uint64_t key_start, uint64_t key_width, uint64_t key,
                      uint64_t answer[BTREE_V2_FIND_PLACES]);

/*
 * The lengths of the records whose fields the next two functions know, by the tree type. A field is
 * a number, low byte first; in the order of the record, and with their widths:
 *   5  links of a group by name: name hash 4, heap id 7
 *   6  links of a group by creation order: creation order 8, heap id 7
 *   8  attributes of an object by name: heap id 8, message flags 1, creation order 4, name hash 4
 *   9  attributes of an object by creation order: heap id 8, message flags 1, creation order 4
 * The name hash is checksum_jenkins_lookup3 of the name.
 */
enum {
    BTREE_V2_TYPE_5_RECORD_SIZE = 11,
    BTREE_V2_TYPE_6_RECORD_SIZE = 15,
    BTREE_V2_TYPE_8_RECORD_SIZE = 17,
    BTREE_V2_TYPE_9_RECORD_SIZE = 13
};

/* Places of the answer of btree_v2_record_read. */
enum {
    BTREE_V2_RECORD_READ_NAME_HASH = 1,
    BTREE_V2_RECORD_READ_HEAP_ID = 2,
    BTREE_V2_RECORD_READ_MESSAGE_FLAGS = 3,
    BTREE_V2_RECORD_READ_CREATION_ORDER = 4,
    BTREE_V2_RECORD_READ_PLACES = 5
};

/*
 * Reads the values of a record of a tree of this type; one whose field the type lacks is 0.
 * Refusals in this order: 19; 20, where the record has not the type's length.
 */
void btree_v2_record_read(uint8_t tree_type, const uint8_t *record, size_t record_length,
                          uint64_t answer[BTREE_V2_RECORD_READ_PLACES]);

/* Places of the answer of btree_v2_record_write. */
enum { BTREE_V2_RECORD_WRITE_LENGTH = 1, BTREE_V2_RECORD_WRITE_PLACES = 3 };

/*
 * Writes the record of these values to the front of the output; the output's other bytes stay.
 * Refusals in this order: 19; 20, where a value is too large for its field, as any but 0 is where
 * the type lacks the field; 15; nothing is written then.
 */
void btree_v2_record_write(uint8_t tree_type, uint64_t name_hash, uint64_t heap_id,
                           uint64_t message_flags, uint64_t creation_order, uint8_t *output,
                           size_t output_length, uint64_t answer[BTREE_V2_RECORD_WRITE_PLACES]);

#ifdef __cplusplus
}
#endif

#endif
