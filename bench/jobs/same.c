/*
 * Two recordings of one session, made before and after a gateway that frames it anew: JSON messages that are whole in
 * one and in fragments of 64 bytes in the other, and binary messages of 64 KB. `same` compares them.
 */
#include "jobs.h"

#include <stdlib.h>

/* The bytes of a binary message, and how many of them are compared at once. */
enum { BINARY_SIZE = 65536, BINARIES = 16 };

/* A message "bye" with a key of zeros, and a Close. */
#define OTHER_END LITERAL("\x81\x83\0\0\0\0" "bye\x88\x82\0\0\0\0\x03\xe8")

/* One session as it was recorded before and after the gateway. */
struct pair {
    struct pool before, after;
};

static struct pair new_pair(size_t blocks)
{
    return (struct pair){new_pool(blocks), new_pool(blocks)};
}

static void begin_blocks(struct pair *pair)
{
    begin_block(&pair->before);
    begin_block(&pair->after);
}

/* Adds a frame to both recordings. */
static void put_both(struct chance *chance, struct frame frame, struct pair *pair)
{
    put_frame(chance, frame, &pair->before.bytes);
    put_frame(chance, frame, &pair->after.bytes);
}

/* Blocks of 32 JSON messages, with a ping now and then. */
static struct pair texts(struct chance *chance, size_t blocks)
{
    struct pair pair = new_pair(blocks);
    struct bytes text = {NULL, 0, 0};
    struct cut cut = {64, 0};
    size_t message;
    while (pair.before.blocks < blocks) {
        begin_blocks(&pair);
        for (message = 0; message < 32; message++) {
            text.size = 0;
            put_message(chance, &text);
            struct frame whole = whole_frame(WSN_CLIENT, TEXT, part_of(&text));
            put_frame(chance, whole, &pair.before.bytes);
            put_fragments(chance, whole, cut, &pair.after.bytes);
            if (message % 8 == 7)
                put_both(chance, whole_frame(WSN_CLIENT, PING, LITERAL("12345678")), &pair);
        }
    }
    free(text.at);
    return pair;
}

/* Binary messages, a block each. */
static struct pair binaries(struct chance *chance, size_t blocks)
{
    struct pair pair = new_pair(blocks);
    struct bytes payload = {NULL, 0, 0};
    while (pair.before.blocks < blocks) {
        begin_blocks(&pair);
        payload.size = 0;
        while (payload.size < BINARY_SIZE)
            put_little_endian(&payload, next_number(chance), 8);
        put_both(chance, whole_frame(WSN_CLIENT, BINARY, part_of(&payload)), &pair);
    }
    free(payload.at);
    return pair;
}

static void free_pair(struct pair *pair)
{
    free_pool(&pair->before);
    free_pool(&pair->after);
}

/* Of three rounds the third compares binary messages; of four the last has another end. */
void same(uint64_t seed, size_t rounds, struct printed *printed)
{
    struct chance chance = {seed};
    struct pair of_texts = texts(&chance, rounds + BLOCKS);
    struct pair of_binaries = binaries(&chance, rounds / 3 + BINARIES);
    size_t round;
    for (round = 0; round < rounds; round++) {
        int is_binary = round % 3 == 2;
        struct pair *pair = is_binary ? &of_binaries : &of_texts;
        size_t first = is_binary ? round / 3 : round, count = is_binary ? BINARIES : BLOCKS;
        struct part before = recording(&pair->before, first, count, CLIENT_CLOSE);
        struct part after = recording(&pair->after, first, count, round % 4 == 3 ? OTHER_END : CLIENT_CLOSE);
        run_same(printed, options_of(WSN_CLIENT, WSN_TEXT), before, after);
    }
    free_pair(&of_texts);
    free_pair(&of_binaries);
}
