/* A plain C version of the lookup3 checksum, start value 0, to measure against. */
#include <stddef.h>
#include <stdint.h>

static uint32_t turn(uint32_t x, int k) { return x << k | x >> (32 - k); }

/* Four bytes as a number, lowest first. */
static uint32_t word(const uint8_t *p)
{
    return p[0] | (uint32_t)p[1] << 8 | (uint32_t)p[2] << 16 | (uint32_t)p[3] << 24;
}

/* At most four of the n bytes as a number, lowest first. */
static uint32_t part(const uint8_t *p, size_t n)
{
    uint32_t x = 0;
    switch (n) {
    default: return word(p);
    case 3: x |= (uint32_t)p[2] << 16; /* fall through */
    case 2: x |= (uint32_t)p[1] << 8; /* fall through */
    case 1: x |= p[0]; /* fall through */
    case 0: return x;
    }
}

/* The next to change loses the last, is mixed with it turned by k, and the last gains the middle. */
#define MIX(next, last, middle, k) \
    do { next -= last; next ^= turn(last, k); last += middle; } while (0)

/* What is changed is mixed with the other and loses it turned by k. */
#define FINISH(changed, other, k) \
    do { changed ^= other; changed -= turn(other, k); } while (0)

uint32_t bench_c_lookup3(const uint8_t *data, size_t length)
{
    uint32_t a = 0xdeadbeef + (uint32_t)length, b = a, c = a;
    if (length == 0)
        return c;
    for (; length > 12; data += 12, length -= 12) {
        a += word(data);
        b += word(data + 4);
        c += word(data + 8);
        MIX(a, c, b, 4);
        MIX(b, a, c, 6);
        MIX(c, b, a, 8);
        MIX(a, c, b, 16);
        MIX(b, a, c, 19);
        MIX(c, b, a, 4);
    }
    a += part(data, length);
    if (length > 4)
        b += part(data + 4, length - 4);
    if (length > 8)
        c += part(data + 8, length - 8);
    FINISH(c, b, 14);
    FINISH(a, c, 11);
    FINISH(b, a, 25);
    FINISH(c, b, 16);
    FINISH(a, c, 4);
    FINISH(b, a, 14);
    FINISH(c, b, 24);
    return c;
}
