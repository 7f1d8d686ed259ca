/*
 * What the files of jobs share: bytes and pools of them, texts and frames from a seed, calls of libwsn and the digest of
 * what they print, and the workloads.
 */
#ifndef JOBS_H
#define JOBS_H

#include "wsn.h"

/* bench/run says so where one of two headers lacks wsn_same_view. */
#ifdef WITHOUT_VIEW
#define wsn_same_view wsn_same
#endif

/* Bytes that are read, and bytes that grow. */
struct part {
    const unsigned char *at;
    size_t size;
};

struct bytes {
    unsigned char *at;
    size_t size, room;
};

/* The part that a string literal has. */
#define LITERAL(text) ((struct part){(const unsigned char *)(text), sizeof(text) - 1})

void fail(const char *why);
struct part part_of(const struct bytes *bytes);
unsigned char *more(struct bytes *into, size_t size);
void put(struct bytes *into, struct part part);
void put_byte(struct bytes *into, unsigned byte);
void put_text(struct bytes *into, const char *text);
void put_number(struct bytes *into, size_t number);
void put_little_endian(struct bytes *into, uint64_t number, unsigned count);

/* Blocks of a session, each of whole frames or lines that leave no message open. A part of it is a session too. */
struct pool {
    struct bytes bytes;
    size_t *starts; /* the offset of each block's first byte */
    size_t blocks, most;
    unsigned char covered[64]; /* what the end of the last recording covers, and where */
    size_t covered_at, covered_size;
};

struct pool new_pool(size_t most);
void begin_block(struct pool *pool);
struct part recording(struct pool *pool, size_t first, size_t count, struct part end);
void free_pool(struct pool *pool);

/* Numbers that look random and follow from a seed. */
struct chance {
    uint64_t state;
};

uint64_t next_number(struct chance *chance);
size_t below(struct chance *chance, size_t count);
size_t between(struct chance *chance, size_t least, size_t most);

void put_message(struct chance *chance, struct bytes *text);
void put_json(struct chance *chance, size_t wanted, struct bytes *text);
void put_mixed(struct chance *chance, size_t wanted, struct bytes *text);
void put_tick(struct chance *chance, struct bytes *text);

/* The opcodes of frames (RFC 6455 section 5.2). */
enum { CONTINUATION = 0, TEXT = 1, BINARY = 2, PING = 9 };

/* A frame to be written. A client's has a random key. */
struct frame {
    uint8_t role;
    uint8_t opcode;
    uint8_t has_more;  /* 1 if fragments follow */
    uint8_t is_longer; /* 1 if a length below 126 takes two bytes */
    struct part payload;
};

/* How a message is cut: into fragments of so many bytes, of which one in `pings` is followed by a ping; 0 for none. */
struct cut {
    size_t most, pings;
};

struct frame whole_frame(uint8_t role, uint8_t opcode, struct part payload);
void put_frame(struct chance *chance, struct frame frame, struct bytes *into);
void put_fragments(struct chance *chance, struct frame message, struct cut cut, struct bytes *into);

/* What the last call printed, and the digest of what all printed. */
struct printed {
    struct bytes output;
    unsigned char message[WSN_MESSAGE];
    uint64_t texts, bytes, sum;
};

typedef wsn_answer command(const wsn_options *, const void *, size_t, void *, size_t, void *, size_t);

wsn_options options_of(uint8_t role, uint8_t format);
struct bytes new_room(void);
void run(struct printed *printed, command *call, wsn_options options, struct part input);
void swap_rooms(struct printed *printed, struct bytes *room);
void run_on_side(struct printed *printed, command *call, wsn_options options, struct part capture, struct bytes *sent);
void run_same(struct printed *printed, wsn_options options, struct part first, struct part second);
void run_recut_by_size(struct printed *printed, wsn_options options, uint32_t size, struct part key, struct part stream);
void run_recut(struct printed *printed, wsn_options options, struct part plan, struct part stream);

/* The number of blocks of a session that one job reads. */
enum { BLOCKS = 64 };

/* How a client's and a server's stream end: a Close with 1000. */
#define CLIENT_CLOSE LITERAL("\x88\x82\0\0\0\0\x03\xe8")
#define SERVER_CLOSE LITERAL("\x88\x02\x03\xe8")

/* The workloads. Each makes sessions from a seed, and does its jobs so many times. */
typedef void workload(uint64_t seed, size_t rounds, struct printed *printed);

workload show, same, fragments, frames, recut, awkward;

#endif
