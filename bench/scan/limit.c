// The limit of `wsn judge`, `frames` and `normal`: the least that they must do on the streams ascii-1024, mixed-1024
// and ascii-64, by loops with vector instructions.
//
//     limit judge|frames|normal <STREAM
//
// It reads blocks of 65,536 bytes and takes them in chunks of 4,096, as the program does, unmasks each payload in
// place, checks its UTF-8 and counts the frames. It prints what `wsn` prints of a stream that isn't refused, and the
// number of frames on standard error. Left out: all frames but a client's final texts of at most 65,535 bytes in the
// shortest encoding, all limits, and where and why a stream is refused. Status 1: refused, left out or cut.
#include <immintrin.h>
#include <stdbool.h>
#include <stdint.h>
#include <stdio.h>
#include <stdlib.h>
#include <string.h>
#include <unistd.h>

enum { BLOCK = 65536, CHUNK = 4096, KEPT_MAX = BLOCK + CHUNK, HEAD_MAX = 8, LINES = 65536, LINE_MAX = 64 };
enum command { JUDGE, FRAMES, NORMAL };

// Vectors, of 32 bytes with AVX2 and of 16 with SSE4.1. MINUS stops at 0. BEFORE gives for each byte of V, which
// follows PREVIOUS, the byte N before it.

typedef uint8_t table __attribute__((vector_size(16)));
#ifdef __AVX2__
typedef uint8_t vector __attribute__((vector_size(32)));
#define IS_ZERO(v) _mm256_testz_si256((__m256i)(v), (__m256i)(v))
#define IS_ASCII(v) (_mm256_movemask_epi8((__m256i)(v)) == 0)
#define REPEAT(word) ((vector)_mm256_set1_epi32(word))
#define LOOK_UP(table, v) ((vector)_mm256_shuffle_epi8(_mm256_broadcastsi128_si256((__m128i)(table)), (__m256i)(v)))
#define MINUS(v, n) ((vector)_mm256_subs_epu8((__m256i)(v), _mm256_set1_epi8(n)))
#define MIDDLE(previous, v) _mm256_permute2x128_si256((__m256i)(previous), (__m256i)(v), 0x21)
#define BEFORE(n, v, previous) ((vector)_mm256_alignr_epi8((__m256i)(v), MIDDLE(previous, v), 16 - (n)))
#else
typedef table vector;
#define IS_ZERO(v) _mm_testz_si128((__m128i)(v), (__m128i)(v))
#define IS_ASCII(v) (_mm_movemask_epi8((__m128i)(v)) == 0)
#define REPEAT(word) ((vector)_mm_set1_epi32(word))
#define LOOK_UP(table, v) ((vector)_mm_shuffle_epi8((__m128i)(table), (__m128i)(v)))
#define MINUS(v, n) ((vector)_mm_subs_epu8((__m128i)(v), _mm_set1_epi8(n)))
#define BEFORE(n, v, previous) ((vector)_mm_alignr_epi8((__m128i)(v), (__m128i)(previous), 16 - (n)))
#endif
enum { WIDTH = sizeof(vector) };

static inline vector load(const uint8_t *from) {
    vector v;
    memcpy(&v, from, WIDTH);
    return v;
}

static inline void store(uint8_t *to, vector v) {
    memcpy(to, &v, WIDTH);
}

// UTF-8, by the method of Keiser and Lemire ("Validating UTF-8 in less than one instruction per byte").

// The wrong pairs of bytes, a row for each kind: its bit, and the values of the first byte's upper and lower half and
// of the second's upper half, each set as the bits of a number.
#define WRONG_PAIRS(ROW, n)                                                         \
    ROW(n, 0, 0xf000, 0xffff, 0xf0ff) /* a lead byte, and no continuation */        \
    | ROW(n, 1, 0x00ff, 0xffff, 0x0f00) /* ASCII, and a continuation */             \
    | ROW(n, 2, 0x1000, 0x0003, 0x0f00) /* c0, c1: one byte encodes it */           \
    | ROW(n, 3, 0x4000, 0x0001, 0x0300) /* e0 80 to e0 9f: two encode it */         \
    | ROW(n, 4, 0x4000, 0x2000, 0x0c00) /* ed a0 to ed bf: surrogates */            \
    | ROW(n, 5, 0x8000, 0xffe1, 0x0100) /* f0 80 to f0 8f: three encode it; f5 80 on */ \
    | ROW(n, 6, 0x8000, 0xfff0, 0x0e00) /* f4 90 on: more than 10ffff */            \
    | ROW(n, 7, 0x0f00, 0xffff, 0x0f00) /* two continuations, wrong but in `wrong_in` */
#define FIRST_UPPER(n, bit, first_upper, first_lower, second_upper) ((first_upper) >> (n) & 1) << (bit)
#define FIRST_LOWER(n, bit, first_upper, first_lower, second_upper) ((first_lower) >> (n) & 1) << (bit)
#define SECOND_UPPER(n, bit, first_upper, first_lower, second_upper) ((second_upper) >> (n) & 1) << (bit)
#define FOUR(ROW, n) WRONG_PAIRS(ROW, n), WRONG_PAIRS(ROW, n + 1), WRONG_PAIRS(ROW, n + 2), WRONG_PAIRS(ROW, n + 3)
#define TABLE(ROW) {FOUR(ROW, 0), FOUR(ROW, 4), FOUR(ROW, 8), FOUR(ROW, 12)}
static const table first_upper = TABLE(FIRST_UPPER), first_lower = TABLE(FIRST_LOWER);
static const table second_upper = TABLE(SECOND_UPPER);

// Bits for the bytes of `v`, which follow those of `previous`, that are wrong.
static inline vector wrong_in(vector v, vector previous) {
    vector first = BEFORE(1, v, previous);
    vector pairs = LOOK_UP(first_upper, first >> 4) & LOOK_UP(first_lower, first & 15) & LOOK_UP(second_upper, v >> 4);
    // a continuation follows a continuation exactly as the third or fourth byte of a character
    vector third = MINUS(BEFORE(2, v, previous), 0xe0 - 0x80), fourth = MINUS(BEFORE(3, v, previous), 0xf0 - 0x80);
    return pairs ^ ((third | fourth) & 0x80);
}

// A text that comes in parts: its last whole vector, what is wrong so far, the bytes after that vector and zeros.
struct text {
    vector previous, wrong, rest;
    size_t rest_len;
};

// Unmasks `count` vectors in place, and checks them.
static inline void take_vectors(struct text *text, uint8_t *bytes, size_t count, vector keys) {
    vector plain[4], all = text->previous;
    for (size_t i = 0; i < count; i++) {
        plain[i] = load(bytes + i * WIDTH) ^ keys;
        store(bytes + i * WIDTH, plain[i]);
        all |= plain[i];
    }
    if (!IS_ASCII(all))
        for (size_t i = 0; i < count; i++)
            text->wrong |= wrong_in(plain[i], i == 0 ? text->previous : plain[i - 1]);
    text->previous = plain[count - 1];
}

static inline void check(struct text *text, vector v) {
    if (!IS_ASCII(v | text->previous))
        text->wrong |= wrong_in(v, text->previous);
    text->previous = v;
}

// Unmasks at most WIDTH bytes in place, and returns them with zeros after them.
static inline vector unmask_some(uint8_t *bytes, size_t len, vector key) {
    static const uint8_t chosen[2 * WIDTH] = {[0 ... WIDTH - 1] = 0xff};
    vector mask = load(chosen + WIDTH - len), v = load(bytes) ^ (key & mask);
    store(bytes, v);
    return v & mask;
}

// Unmasks the next bytes until the rest is a whole vector, and returns their number.
static size_t fill_rest(struct text *text, uint8_t *bytes, size_t len, uint32_t key) {
    size_t room = WIDTH - text->rest_len, count = len < room ? len : room;
    uint8_t rest[2 * WIDTH];
    store(rest, text->rest);
    store(rest + text->rest_len, unmask_some(bytes, count, REPEAT(key)));
    text->rest = load(rest);
    text->rest_len += count;
    if (text->rest_len == WIDTH) {
        check(text, text->rest);
        text->rest = (vector){0};
        text->rest_len = 0;
    }
    return count;
}

// The key for the bytes after `len` bytes.
static inline uint32_t key_after(uint32_t key, size_t len) {
    unsigned bits = len % 4 * 8;
    return bits == 0 ? key : key >> bits | key << (32 - bits);
}

// Unmasks the next part of a text in place, and checks its whole vectors.
static inline void take_text(struct text *text, uint8_t *bytes, size_t len, uint32_t key) {
    size_t at = text->rest_len == 0 ? 0 : fill_rest(text, bytes, len, key);
    if (text->rest_len != 0)
        return;
    vector keys = REPEAT(key_after(key, at));
    for (; at + 4 * WIDTH <= len; at += 4 * WIDTH)
        take_vectors(text, bytes + at, 4, keys);
    for (size_t count = 2; count > 0; count /= 2)
        if (at + count * WIDTH <= len) {
            take_vectors(text, bytes + at, count, keys);
            at += count * WIDTH;
        }
    text->rest_len = len - at;
    text->rest = unmask_some(bytes + at, len - at, keys);
}

// Whether the text is UTF-8 and ends here: the zeros after it are wrong if it ends inside a character.
static inline bool is_good(struct text *text) {
    check(text, text->rest);
    return IS_ZERO(text->wrong);
}

// Lines, as `wsn frames` prints them.

struct lines {
    uint8_t bytes[LINES];
    size_t len;
    // The last offset without its last four digits, and the digits of that.
    uint64_t upper;
    uint8_t digits[16];
    size_t digits_len;
};

static void write_all(const uint8_t *bytes, size_t len) {
    while (len > 0) {
        ssize_t count = write(1, bytes, len);
        if (count <= 0)
            exit(2);
        bytes += count;
        len -= count;
    }
}

static void flush(struct lines *lines) {
    write_all(lines->bytes, lines->len);
    lines->len = 0;
}

// Puts two digits.
static inline uint8_t *put_pair(uint8_t *to, unsigned number) {
    static const char pairs[] = "00010203040506070809101112131415161718192021222324252627282930313233343536373839"
                                "40414243444546474849505152535455565758596061626364656667686970717273747576777879"
                                "8081828384858687888990919293949596979899";
    memcpy(to, pairs + 2 * number, 2);
    return to + 2;
}

static uint8_t *put_number(uint8_t *to, uint64_t number) {
    if (number >= 100)
        to = put_number(to, number / 100);
    else if (number < 10) {
        *to = '0' + number;
        return to + 1;
    }
    return put_pair(to, number % 100);
}

static inline uint8_t *put_offset(struct lines *lines, uint8_t *to, uint64_t offset) {
    if (offset < 10000)
        return put_number(to, offset);
    if (offset / 10000 != lines->upper) {
        lines->upper = offset / 10000;
        lines->digits_len = put_number(lines->digits, lines->upper) - lines->digits;
    }
    unsigned lower = offset % 10000;
    memcpy(to, lines->digits, sizeof lines->digits);
    to = put_pair(to + lines->digits_len, lower / 100);
    return put_pair(to, lower % 100);
}

static inline uint8_t *put_key(uint8_t *to, uint32_t key) {
    static const table digits = {'0', '1', '2', '3', '4', '5', '6', '7', '8', '9', 'a', 'b', 'c', 'd', 'e', 'f'};
    __m128i bytes = _mm_cvtsi32_si128(key), lower = _mm_set1_epi8(15);
    __m128i halves = _mm_unpacklo_epi8(_mm_and_si128(_mm_srli_epi16(bytes, 4), lower), _mm_and_si128(bytes, lower));
    _mm_storel_epi64((__m128i *)to, _mm_shuffle_epi8((__m128i)digits, halves));
    return to + 8;
}

static inline void put_line(struct lines *lines, uint64_t offset, uint32_t key, size_t len) {
    if (lines->len > LINES - LINE_MAX)
        flush(lines);
    uint8_t *to = put_offset(lines, lines->bytes + lines->len, offset);
    memcpy(to, " fin text ", 10);
    to = put_key(to + 10, key);
    *to++ = ' ';
    to = put_number(to, len);
    *to++ = '\n';
    lines->len = to - lines->bytes;
}

// Streams.

struct stream {
    enum command command;
    bool is_refused;
    // The offset of the current frame, and the number of frames before it.
    uint64_t offset, frames;
    // A frame that isn't whole in its chunk: its head so far, then what is left of its payload, and the key for that.
    uint8_t head[HEAD_MAX];
    size_t head_len, left;
    uint32_t key;
    struct text text;
    struct lines lines;
};

static inline size_t head_size(const uint8_t *head) {
    return (head[1] & 127) == 126 ? 8 : 6;
}

static inline size_t payload_size(const uint8_t *head) {
    return (head[1] & 127) == 126 ? head[2] << 8 | head[3] : head[1] & 127;
}

static inline uint32_t key_of(const uint8_t *head) {
    uint32_t key;
    memcpy(&key, head + head_size(head) - 4, sizeof key);
    return key;
}

// Whether it is the head of a final text, masked, its length in the shortest encoding of at most two bytes.
static inline bool is_text(const uint8_t *head) {
    return head[0] == 0x81 && head[1] >= 0x80 && head[1] != 0xff && (head[1] != 0xfe || payload_size(head) >= 126);
}

static inline void begin_frame(struct stream *stream, const uint8_t *head) {
    stream->is_refused = !is_text(head);
    if (stream->command == FRAMES && !stream->is_refused)
        put_line(&stream->lines, stream->offset, key_of(head), payload_size(head));
}

static inline void end_frame(struct stream *stream, const uint8_t *head, struct text *text) {
    stream->is_refused = !is_good(text);
    if (stream->is_refused)
        return;
    stream->offset += head_size(head) + payload_size(head);
    stream->frames++;
}

// Takes a frame that is whole in its chunk.
static inline void take_frame(struct stream *stream, uint8_t *head) {
    begin_frame(stream, head);
    if (stream->is_refused)
        return;
    uint8_t *payload = head + head_size(head);
    struct text text = {0};
    take_text(&text, payload, payload_size(head), key_of(head));
    end_frame(stream, head, &text);
    if (stream->command == NORMAL)
        memset(payload - 4, 0, 4);
}

// Takes the frames that are whole in the chunk, and returns the number of their bytes.
static inline size_t take_frames(struct stream *stream, uint8_t *chunk, size_t len) {
    size_t at = 0;
    while (len - at >= HEAD_MAX && !stream->is_refused) {
        size_t size = head_size(chunk + at) + payload_size(chunk + at);
        if (size > len - at)
            break;
        take_frame(stream, chunk + at);
        at += size;
    }
    return at;
}

static inline bool has_head(const struct stream *stream) {
    return stream->head_len >= 2 && stream->head_len == head_size(stream->head);
}

// Takes a head's next bytes, and returns their number.
static size_t take_head(struct stream *stream, uint8_t *chunk, size_t len) {
    size_t at = 0;
    for (; at < len && !has_head(stream); at++) {
        stream->head[stream->head_len++] = chunk[at];
        bool is_in_key = stream->head_len > 2 && stream->head_len + 4 > head_size(stream->head);
        if (stream->command == NORMAL && is_in_key)
            chunk[at] = 0;
    }
    if (has_head(stream)) {
        begin_frame(stream, stream->head);
        stream->left = payload_size(stream->head);
        stream->key = key_of(stream->head);
        stream->text = (struct text){0};
    }
    return at;
}

// Takes the next part of a payload, and returns the number of its bytes.
static size_t take_payload(struct stream *stream, uint8_t *chunk, size_t len) {
    size_t count = stream->left < len ? stream->left : len;
    take_text(&stream->text, chunk, count, stream->key);
    stream->key = key_after(stream->key, count);
    stream->left -= count;
    if (stream->left == 0) {
        end_frame(stream, stream->head, &stream->text);
        stream->head_len = 0;
    }
    return count;
}

static void take_chunk(struct stream *stream, uint8_t *chunk, size_t len) {
    size_t at = 0;
    while (at < len && !stream->is_refused) {
        if (stream->head_len == 0)
            at += take_frames(stream, chunk + at, len - at);
        if (!stream->is_refused && !has_head(stream))
            at += take_head(stream, chunk + at, len - at);
        if (!stream->is_refused && has_head(stream))
            at += take_payload(stream, chunk + at, len - at);
    }
}

static void take_block(struct stream *stream, uint8_t *block, size_t len) {
    for (size_t at = 0; at < len && !stream->is_refused; at += CHUNK)
        take_chunk(stream, block + at, len - at < CHUNK ? len - at : CHUNK);
}

// Takes standard input, and returns the number of its bytes. Each block is read to the same memory; before it, `normal`
// keeps what came of a message that isn't whole.
static uint64_t take_input(struct stream *stream) {
    static _Alignas(CHUNK) uint8_t buffer[KEPT_MAX + BLOCK + WIDTH];
    uint8_t *block = buffer + KEPT_MAX;
    uint64_t input = 0;
    for (size_t kept = 0; !stream->is_refused;) {
        ssize_t count = read(0, block, BLOCK);
        if (count <= 0)
            break;
        input += count;
        take_block(stream, block, count);
        flush(&stream->lines);
        if (stream->command == NORMAL) {
            size_t unfinished = input - stream->offset;
            write_all(block - kept, kept + count - unfinished);
            kept = unfinished < KEPT_MAX ? unfinished : KEPT_MAX;
            memmove(block - kept, block + count - kept, kept);
        }
    }
    return input;
}

int main(int count, char **words) {
    static struct stream stream;
    const char *word = count == 2 ? words[1] : "";
    stream.command = strcmp(word, "frames") == 0 ? FRAMES : strcmp(word, "normal") == 0 ? NORMAL : JUDGE;
    if (stream.command == JUDGE && strcmp(word, "judge") != 0)
        return 2;
    uint64_t input = take_input(&stream);
    fprintf(stderr, "%llu frames\n", (unsigned long long)stream.frames);
    bool is_whole = input == stream.offset;
    if (stream.command != NORMAL && !stream.is_refused)
        printf(is_whole ? "accepted %llu tail 0 unfinished -\n" : "cut %llu\n", (unsigned long long)input);
    return stream.is_refused || !is_whole;
}
