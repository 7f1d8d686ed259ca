// Masks a slice and copies the same slice with memcpy, in turn, and prints the best speed of each. Before that
// it checks the masking against a plain loop.
#include <stddef.h>
#include <stdint.h>
#include <stdio.h>
#include <stdlib.h>
#include <string.h>
#include <time.h>

void mask_bytes(uint32_t key, uint64_t start, uint8_t *bytes, size_t len);

static const uint8_t key[4] = {0x37, 0xfa, 0x21, 0x3d};
static const size_t lengths[] = {64, 1024, 4096, 65536, 1 << 20, 16 << 20, 64 << 20};
enum { ROUNDS = 15, MOST = 64 << 20, WORK = 256 << 20 };

static double now(void) {
    struct timespec t;
    clock_gettime(CLOCK_MONOTONIC, &t);
    return t.tv_sec + t.tv_nsec * 1e-9;
}

static int is_right(const uint8_t *bytes, uint8_t *copy, size_t len, uint64_t start) {
    memcpy(copy, bytes, len);
    mask_bytes(0x37fa213d, start, copy, len);
    for (size_t i = 0; i < len; i++)
        if (copy[i] != (bytes[i] ^ key[(start + i) % 4]))
            return 0;
    return 1;
}

int main(void) {
    uint8_t *bytes = aligned_alloc(64, MOST), *copy = aligned_alloc(64, MOST);
    if (!bytes || !copy)
        return 1;
    for (size_t i = 0; i < MOST; i++)
        bytes[i] = (uint8_t)(i * 2654435761u >> 24);
    if (!is_right(bytes, copy, MOST, 0) || !is_right(bytes, copy, 1001, 3)) {
        puts("masked wrongly");
        return 1;
    }
    // called through a pointer, so that each copy is made
    void *(*volatile copying)(void *, const void *, size_t) = memcpy;
    puts("   bytes   mask GB/s  memcpy GB/s  mask / memcpy");
    for (size_t k = 0; k < sizeof lengths / sizeof *lengths; k++) {
        size_t len = lengths[k], times = WORK / len;
        double mask_best = 1e9, copy_best = 1e9;
        for (int round = 0; round < ROUNDS; round++) {
            double from = now();
            for (size_t i = 0; i < times; i++)
                mask_bytes(0x37fa213d, 1, bytes, len);
            double between = now();
            for (size_t i = 0; i < times; i++)
                copying(copy, bytes, len);
            double to = now();
            if (between - from < mask_best)
                mask_best = between - from;
            if (to - between < copy_best)
                copy_best = to - between;
        }
        double total = (double)len * times / 1e9;
        printf("%8zu  %10.1f  %11.1f  %13.2f\n", len, total / mask_best, total / copy_best, copy_best / mask_best);
    }
    return 0;
}
