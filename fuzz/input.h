/* How a fuzzer's input is laid out: a front of fixed places, little-endian, and then the file. */
#ifndef NULDRAFON_FUZZ_INPUT_H
#define NULDRAFON_FUZZ_INPUT_H

enum {
    AT_FLAGS = 0,
    AT_OFFSET_SIZE = 1,
    AT_LENGTH_SIZE = 2,
    AT_OUTPUT_LENGTH = 3, /* 2 bytes, taken modulo MOST_OUTPUT + 1 */
    AT_HEADER = 5,        /* 8 bytes: where the header reader is sent */
    AT_TREE_TYPE = 13,    /* from here on: a tree's figures, unless those of the header are taken */
    AT_NODE_SIZE = 14,
    AT_RECORD_SIZE = 18,
    AT_DEPTH = 20,
    AT_ROOT_ADDRESS = 22,
    AT_ROOT_RECORDS = 30,
    AT_TOTAL_RECORDS = 32,
    AT_KEY_START = 40, /* from here on: what is sought */
    AT_KEY_WIDTH = 48,
    AT_KEY = 56,
    AT_EXCESS = 64, /* 4 bytes: what a figure has above its range, where it is given as 64 bits */
    AT_BASE = 68,   /* 8 bytes, of which the flags say how the base is made */
    AT_FILE = 76,
    MOST_OUTPUT = 4096,
};

/* The flags: checksums are set right first; trees are read by the header that was read; the lent
 * buffers end, and do not begin, at a page that cannot be touched. */
enum { MENDED = 1, BY_HEADER = 2, AT_THE_END = 4 };

/* Two more, for the base: about the file's end, or the largest; the number given; else that number
 * modulo the file's length + 1. */
enum { BASE_KIND = 24, BASE_AT_AN_END = 16, BASE_AS_GIVEN = 24 };

#endif
