/* Frames of a session (RFC 6455 section 5.2). */
#include "jobs.h"

/* A frame that is a whole message or control. */
struct frame whole_frame(uint8_t role, uint8_t opcode, struct part payload)
{
    return (struct frame){role, opcode, 0, 0, payload};
}

/* Adds a number in so many bytes, the highest first. */
static void put_big_endian(struct bytes *into, uint64_t number, unsigned count)
{
    while (count-- > 0)
        put_byte(into, (number >> (8 * count)) & 0xff);
}

/* Adds the first two bytes, and the rest of the length. */
static void put_head(struct frame frame, struct bytes *into)
{
    size_t length = frame.payload.size;
    unsigned mask = frame.role == WSN_CLIENT ? 0x80 : 0;
    put_byte(into, frame.opcode | (frame.has_more ? 0 : 0x80));
    if (length < 126 && !frame.is_longer) {
        put_byte(into, mask | (unsigned)length);
    } else if (length < 65536) {
        put_byte(into, mask | 126);
        put_big_endian(into, length, 2);
    } else {
        put_byte(into, mask | 127);
        put_big_endian(into, length, 8);
    }
}

/* Adds a random key, and the payload masked by it. */
static void put_masked(struct chance *chance, struct part payload, struct bytes *into)
{
    put_little_endian(into, next_number(chance) >> 32, 4);
    unsigned char *masked = more(into, payload.size);
    const unsigned char *key = masked - 4;
    size_t at;
    for (at = 0; at < payload.size; at++)
        masked[at] = payload.at[at] ^ key[at % 4];
}

void put_frame(struct chance *chance, struct frame frame, struct bytes *into)
{
    put_head(frame, into);
    if (frame.role == WSN_CLIENT)
        put_masked(chance, frame.payload, into);
    else
        put(into, frame.payload);
}

/* Adds a message in fragments. The last one isn't followed by a ping. */
void put_fragments(struct chance *chance, struct frame message, struct cut cut, struct bytes *into)
{
    while (message.payload.size > cut.most) {
        struct frame fragment = message;
        fragment.has_more = 1;
        fragment.payload.size = cut.most;
        put_frame(chance, fragment, into);
        if (cut.pings > 0 && below(chance, cut.pings) == 0)
            put_frame(chance, whole_frame(message.role, PING, LITERAL("are you there")), into);
        message.opcode = CONTINUATION;
        message.payload.at += cut.most;
        message.payload.size -= cut.most;
    }
    put_frame(chance, message, into);
}
