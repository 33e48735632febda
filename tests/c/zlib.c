/* Compares usi_crc32 with zlib's crc32. */
#include "usigrambal.h"

#include <stdio.h>
#include <stdlib.h>
#include <zlib.h>

static uint8_t bytes[1 << 20];
static unsigned long compared;

static void compare(size_t at, size_t len) {
    uint32_t ours = usi_crc32(bytes + at, len), theirs = (uint32_t)crc32(0, bytes + at, (uInt)len);
    compared++;
    if (ours != theirs) {
        printf("%zu bytes at %zu: %08X, zlib says %08X\n", len, at, (unsigned)ours, (unsigned)theirs);
        exit(1);
    }
}

int main(void) {
    uint64_t state = 1;
    for (size_t i = 0; i < sizeof bytes; i++) {
        state = state * 6364136223846793005u + 1442695040888963407u;
        bytes[i] = (uint8_t)(state >> 56);
    }
    for (size_t len = 0; len <= 2000; len++)
        compare(len % 13, len);
    for (size_t power = 4096; power < sizeof bytes; power *= 2)
        for (size_t len = power - 3; len <= power + 3; len++)
            compare(1, len);
    compare(0, sizeof bytes);
    printf("zlib: %lu CRCs agree\n", compared);
    return 0;
}
