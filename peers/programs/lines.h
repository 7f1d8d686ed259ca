/* The line protocol of the programs in C and C++, and what each peer sends of its own (see ../README.md). */
#ifndef LINES_H
#define LINES_H
#include <stdio.h>
#include <stdlib.h>
#include <string.h>

static const unsigned char binary_message[4] = {0, 1, 254, 255};

static inline void line(const char *name, const char *kind, const char *rest) {
    flockfile(stdout);
    printf("%s%s%s %s\n", name, *name ? " " : "", kind, rest);
    fflush(stdout);
    funlockfile(stdout);
}

static inline void message(const char *name, int is_text, const void *data, size_t size) {
    const unsigned char *bytes = (const unsigned char *)data;
    char *hex = (char *)malloc(2 * size + 1);
    for (size_t i = 0; i < size; i++) {
        hex[2 * i] = "0123456789abcdef"[bytes[i] >> 4];
        hex[2 * i + 1] = "0123456789abcdef"[bytes[i] & 15];
    }
    hex[2 * size] = 0;
    line(name, is_text ? "text" : "binary", hex);
    free(hex);
}

/* A code of 0 is none. */
static inline void closed(const char *name, int code) {
    char number[16] = "-";
    if (code)
        snprintf(number, sizeof number, "%d", code);
    line(name, "closed", number);
}

static inline const char *name_of(const char *path) {
    const char *slash = strrchr(path, '/');
    return slash ? slash + 1 : path;
}

static inline int is_short(const char *name) { return !strncmp(name, "short", 5); }

static inline int is_long(const char *name) { return !strncmp(name, "long", 4); }

/* The size of the text number `index` that the session sends, or -1: a text is "Hello" or of the letter a. */
static inline int text_size(const char *name, int index) {
    static const int shorts[] = {0, 5, 125, 126}, longs[] = {65535, 65536};
    if (is_short(name) && index < 4)
        return shorts[index];
    return is_long(name) && index < 2 ? longs[index] : -1;
}

/* That text; the caller frees it. */
static inline char *text_of(int size) {
    char *text = (char *)malloc(size + 1);
    memset(text, 'a', size);
    text[size] = 0;
    if (size == 5)
        memcpy(text, "Hello", 5);
    return text;
}

/* Reads a URL from standard input into `url`, without its line feed. Returns 0 at the end. */
static inline int next_url(char *url, int size) {
    if (!fgets(url, size, stdin))
        return 0;
    url[strcspn(url, "\n")] = 0;
    return 1;
}
#endif
