// Writes a client's stream to standard output: generate WHAT BYTES. Keys and texts come from a fixed seed, so
// that each run writes the same bytes. It prints `MESSAGES PAYLOAD BYTES` on standard error.
#include <stdint.h>
#include <stdio.h>
#include <stdlib.h>
#include <string.h>

enum { TEXTS = 1024, LONGEST = 1024, FIN = 0x80, TEXT = 1, BINARY = 2, CLOSE = 8, PING = 9, MASK = 0x80 };

static uint64_t state = 0x9e3779b97f4a7c15;
static uint64_t messages, payload, written;

static uint64_t random64(void) {
    state ^= state << 13;
    state ^= state >> 7;
    state ^= state << 17;
    return state;
}

static void put(const void *bytes, size_t len) {
    if (fwrite(bytes, 1, len, stdout) != len)
        exit(1);
    written += len;
}

// One frame with a random key and the shortest encoding of its length.
static void put_frame(uint8_t first, const uint8_t *bytes, uint64_t len) {
    uint8_t head[14] = {first};
    size_t at = 2;
    int width = len < 126 ? 0 : len < 65536 ? 2 : 8;
    head[1] = MASK | (width == 0 ? len : width == 2 ? 126 : 127);
    for (int i = width; i-- > 0;)
        head[at++] = len >> (8 * i);
    uint32_t key = random64() >> 32;
    memcpy(head + at, &key, 4);
    put(head, at + 4);

    uint64_t wide = (uint64_t)key << 32 | key, block[512];
    for (uint64_t done = 0; done < len; done += sizeof block) {
        size_t count = len - done < sizeof block ? len - done : sizeof block;
        memcpy(block, bytes + done, count);
        for (size_t i = 0; i < (count + 7) / 8; i++)
            block[i] ^= wide;
        put(block, count);
    }
}

// A random character with the given number of bytes in UTF-8.
static void put_character(uint8_t *to, int width) {
    static const uint32_t low[] = {0x20, 0x80, 0x800, 0x10000}, high[] = {0x7e, 0x7ff, 0xffff, 0x10ffff};
    static const uint8_t lead[] = {0, 0xc0, 0xe0, 0xf0};
    uint32_t c;
    do
        c = low[width - 1] + random64() % (high[width - 1] - low[width - 1] + 1);
    while (c >= 0xd800 && c < 0xe000);
    for (int i = width; i-- > 1; c >>= 6)
        to[i] = 0x80 | (c & 0x3f);
    to[0] = lead[width - 1] | c;
}

// Random whole characters of 1 to `widest` bytes.
static void put_text(uint8_t *to, size_t len, int widest) {
    for (size_t at = 0; at < len;) {
        size_t width = 1 + random64() % widest;
        if (width > len - at)
            width = len - at;
        put_character(to + at, width);
        at += width;
    }
}

static void put_texts(uint64_t bytes, size_t len, int widest) {
    static uint8_t texts[TEXTS][LONGEST];
    for (int i = 0; i < TEXTS; i++)
        put_text(texts[i], len, widest);
    while (written + len + 8 <= bytes) {
        put_frame(FIN | TEXT, texts[random64() % TEXTS], len);
        messages++;
        payload += len;
    }
}

static void put_big_message(uint64_t len) {
    uint8_t *bytes = malloc(len);
    if (!bytes)
        exit(1);
    for (uint64_t i = 0; i < len; i++)
        bytes[i] = random64() >> 56;
    put_frame(FIN | BINARY, bytes, len);
    free(bytes);
}

static void put_pings(uint64_t bytes) {
    while (written + 6 <= bytes)
        put_frame(FIN | PING, NULL, 0);
}

// One message in fragments of one byte.
static void put_fragments(uint64_t len) {
    uint8_t byte = 0x2a;
    for (uint64_t i = 0; i < len; i++)
        put_frame((i + 1 == len ? FIN : 0) | (i == 0 ? BINARY : 0), &byte, 1);
}

static void put_tail(uint64_t len) {
    static uint8_t block[65536];
    for (size_t i = 0; i < sizeof block; i++)
        block[i] = random64() >> 56;
    put_frame(FIN | CLOSE, NULL, 0);
    for (uint64_t done = 0; done < len; done += sizeof block)
        put(block, len - done < sizeof block ? len - done : sizeof block);
}

int main(int count, char **words) {
    if (count != 3)
        return 2;
    const char *what = words[1];
    uint64_t bytes = strtoull(words[2], NULL, 10);
    if (strcmp(what, "ascii-1024") == 0)
        put_texts(bytes, 1024, 1);
    else if (strcmp(what, "mixed-1024") == 0)
        put_texts(bytes, 1024, 4);
    else if (strcmp(what, "ascii-64") == 0)
        put_texts(bytes, 64, 1);
    else if (strcmp(what, "message") == 0)
        put_big_message(bytes);
    else if (strcmp(what, "pings") == 0)
        put_pings(bytes);
    else if (strcmp(what, "fragments") == 0)
        put_fragments(bytes);
    else if (strcmp(what, "tail") == 0)
        put_tail(bytes);
    else
        return 2;
    if (fflush(stdout) != 0)
        return 1;
    fprintf(stderr, "%llu %llu %llu\n", (unsigned long long)messages, (unsigned long long)payload,
            (unsigned long long)written);
    return 0;
}
