/*
 * The standard's checksum, for the files that test.c and stack.c make: Jenkins' lookup3 with an
 * initial value of 0. It has nothing in common with the library's, which it tests.
 */
#ifndef LOOKUP3_H
#define LOOKUP3_H

#include <stddef.h>
#include <stdint.h>

static uint32_t rotated(uint32_t word, int bits)
{
    return word << bits | word >> (32 - bits);
}

/* After twelve bytes that others follow. */
static void mix(uint32_t w[3])
{
    static const int bits[6] = {4, 6, 8, 16, 19, 4};
    int i;

    for (i = 0; i < 6; i++) {
        uint32_t *from = &w[(i + 2) % 3];

        w[i % 3] -= *from;
        w[i % 3] ^= rotated(*from, bits[i]);
        *from += w[(i + 1) % 3];
    }
}

/* After the last byte. */
static void finish(uint32_t w[3])
{
    static const int bits[7] = {14, 11, 25, 16, 4, 14, 24};
    int i;

    for (i = 0; i < 7; i++) {
        uint32_t from = w[(i + 1) % 3];

        w[(i + 2) % 3] ^= from;
        w[(i + 2) % 3] -= rotated(from, bits[i]);
    }
}

static uint32_t lookup3(const uint8_t *bytes, size_t n)
{
    uint32_t start = 0xdeadbeefu + (uint32_t)n;
    uint32_t w[3] = {start, start, start};
    size_t i;

    for (i = 0; i < n; i++) {
        w[i / 4 % 3] += (uint32_t)bytes[i] << (i % 4 * 8);
        if (i % 12 == 11 && i + 1 < n) {
            mix(w);
        }
    }
    if (n != 0) {
        finish(w);
    }
    return w[2];
}

#endif
