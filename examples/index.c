/* Writes an index of parking bays into a file, looks one bay up there, reads all of it back, prints
 * it and compares: index FILE. */
#include <inttypes.h>
#include <stdio.h>
#include <stdlib.h>
#include <string.h>

#include "btree_v2.h"
#include "checksum.h"

/* A record of an index by name, tree type 5: the name's checksum, lowest byte first, and an id. */
enum { BAYS = 12, TREE_TYPE = 5, HASH_SIZE = 4, RECORD_SIZE = 11 };
/* The file: the header at its front, then the nodes. */
enum { NODE_SIZE = 64, OFFSET_SIZE = 8, LENGTH_SIZE = 8, HEADER_AT = 0, NODES_AT = 64 };

/* Ends the program where something went wrong. */
static void must(int holds, const char *what) {
    if (holds) return;
    fprintf(stderr, "index: failed: %s\n", what);
    exit(1);
}

/* Ends the program where a call is refused. */
static void accepted(const uint64_t *answer, const char *call) {
    if (answer[BTREE_V2_REFUSAL] == BTREE_V2_ACCEPTED) return;
    fprintf(stderr, "index: %s: refused by %" PRIu64 " (%" PRIu64 ", %" PRIu64 ")\n", call,
            answer[BTREE_V2_REFUSAL], answer[BTREE_V2_VALUE_1], answer[BTREE_V2_VALUE_2]);
    exit(1);
}

/* The number in so many bytes, lowest first. */
static uint64_t number(const uint8_t *bytes, size_t width) {
    uint64_t x = 0;
    while (width-- > 0) x = x << 8 | bytes[width];
    return x;
}

static int by_hash(const void *a, const void *b) {
    uint64_t x = number(a, HASH_SIZE), y = number(b, HASH_SIZE);
    return (x > y) - (x < y);
}

/* The checksum of a bay's name. */
static uint32_t hash_of(unsigned bay) {
    char name[16];
    int length = snprintf(name, sizeof name, "bay %02u", bay);
    return checksum_jenkins_lookup3((const uint8_t *)name, (size_t)length);
}

/* The records of all bays end to end, by the checksum of the name; the id is the bay's number. */
static void make_records(uint8_t *records) {
    for (unsigned bay = 1; bay <= BAYS; bay++) {
        uint8_t *record = records + (bay - 1) * RECORD_SIZE;
        uint32_t hash = hash_of(bay);
        memset(record, 0, RECORD_SIZE);
        for (int i = 0; i < HASH_SIZE; i++) record[i] = (uint8_t)(hash >> 8 * i);
        record[HASH_SIZE] = (uint8_t)bay;
    }
    qsort(records, BAYS, RECORD_SIZE, by_hash);
}

/* Plans the tree, writes header and nodes into memory, and that into the file. */
static void write_index(const char *path, const uint8_t *records) {
    uint64_t plan[BTREE_V2_PLAN_PLACES], written[BTREE_V2_PLAN_PLACES];
    btree_v2_plan(BAYS, RECORD_SIZE, NODE_SIZE, OFFSET_SIZE, plan);
    accepted(plan, "plan");

    size_t image_size = plan[BTREE_V2_PLAN_IMAGE_SIZE], size = NODES_AT + image_size;
    uint8_t *bytes = calloc(size, 1);
    must(bytes != NULL, "memory for the file");
    btree_v2_write(TREE_TYPE, BAYS, RECORD_SIZE, NODE_SIZE, OFFSET_SIZE, LENGTH_SIZE, NODES_AT,
                   records, BAYS * RECORD_SIZE, bytes + HEADER_AT, NODES_AT - HEADER_AT,
                   bytes + NODES_AT, image_size, written);
    accepted(written, "write");

    FILE *out = fopen(path, "wb");
    must(out != NULL, "opening the file to write it");
    must(fwrite(bytes, 1, size, out) == size, "writing the file");
    must(fclose(out) == 0, "closing the file that was written");
    free(bytes);
    printf("written: %d records in %" PRIu64 " nodes, %" PRIu64 " of them leaves; %zu bytes\n",
           BAYS, written[BTREE_V2_PLAN_NODES], written[BTREE_V2_PLAN_LEAVES], size);
}

/* The bytes of the file, to be freed. */
static uint8_t *load(const char *path, size_t *size) {
    FILE *in = fopen(path, "rb");
    must(in != NULL && fseek(in, 0, SEEK_END) == 0, "opening the file to read it");
    long end = ftell(in);
    must(end >= 0 && fseek(in, 0, SEEK_SET) == 0, "finding the length of the file");
    *size = (size_t)end;
    uint8_t *bytes = malloc(*size + 1); /* so that it is not null for an empty file */
    must(bytes != NULL, "memory for the file");
    must(fread(bytes, 1, *size, in) == *size, "reading the file");
    fclose(in);
    return bytes;
}

/* Looks a bay up by the checksum of its name, the first bytes of its record. */
static void look_up(const uint8_t *file, size_t size, const uint64_t *figures, unsigned bay) {
    uint64_t found[BTREE_V2_FIND_PLACES];
    btree_v2_find(file, size, figures, OFFSET_SIZE, 0, HASH_SIZE, hash_of(bay), found);
    accepted(found, "find");
    must(found[BTREE_V2_FIND_FOUND] == 1, "finding a bay that is there");
    uint64_t place = found[BTREE_V2_FIND_PLACE];
    must(number(file + place + HASH_SIZE, RECORD_SIZE - HASH_SIZE) == bay, "the bay's own record");
    printf("found: bay %02u at byte %" PRIu64 ", %" PRIu64 " nodes read\n", bay, place,
           found[BTREE_V2_FIND_NODES]);
}

/* Reads the header and then the records that it leads to; returns how many there are. */
static size_t read_index(const char *path, uint8_t *output, size_t output_length) {
    uint64_t header[BTREE_V2_PARSE_PLACES], collected[BTREE_V2_COLLECT_PLACES];
    size_t size;
    uint8_t *file = load(path, &size);
    btree_v2_parse(file, size, HEADER_AT, OFFSET_SIZE, LENGTH_SIZE, header);
    accepted(header, "parse");
    must(header[BTREE_V2_PARSE_TREE_TYPE] == TREE_TYPE, "tree type");
    must(header[BTREE_V2_PARSE_RECORD_SIZE] == RECORD_SIZE, "record size");
    look_up(file, size, header + BTREE_V2_PARSE_TREE_TYPE, 7);

    btree_v2_collect(
        file, size, (uint8_t)header[BTREE_V2_PARSE_TREE_TYPE],
        (uint32_t)header[BTREE_V2_PARSE_NODE_SIZE], (uint16_t)header[BTREE_V2_PARSE_RECORD_SIZE],
        (uint16_t)header[BTREE_V2_PARSE_DEPTH], header[BTREE_V2_PARSE_ROOT_ADDRESS],
        (uint16_t)header[BTREE_V2_PARSE_ROOT_RECORDS], header[BTREE_V2_PARSE_TOTAL_RECORDS],
        OFFSET_SIZE, output, output_length, collected);
    accepted(collected, "collect");
    free(file);
    printf("read: %" PRIu64 " records, %" PRIu64 " of them from internal nodes\n",
           collected[BTREE_V2_COLLECT_RECORDS], collected[BTREE_V2_COLLECT_INTERNAL_RECORDS]);
    return collected[BTREE_V2_COLLECT_RECORDS];
}

int main(int count, char **words) {
    static uint8_t records[BAYS * RECORD_SIZE], back[BAYS * RECORD_SIZE];
    if (count != 2) {
        fputs("usage: index FILE\n", stderr);
        return 2;
    }
    make_records(records);
    write_index(words[1], records);
    size_t read = read_index(words[1], back, sizeof back);
    for (size_t i = 0; i < read; i++) {
        const uint8_t *record = back + i * RECORD_SIZE;
        printf("bay %02" PRIu64 "  0x%08" PRIx64 "\n",
               number(record + HASH_SIZE, RECORD_SIZE - HASH_SIZE), number(record, HASH_SIZE));
    }
    must(read == BAYS && memcmp(back, records, sizeof records) == 0, "equal records");
    puts("equal: every byte of the records");
    return 0;
}
