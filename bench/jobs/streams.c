/* The workloads over one stream at a time. */
#include "jobs.h"

#include <stdlib.h>

/* Adds the message with this number in its block. The text is there for its use. */
typedef void maker(struct chance *chance, size_t number, struct bytes *text, struct bytes *into);

/* Blocks of so many messages. */
static struct pool made(struct chance *chance, maker *make, size_t messages, size_t blocks)
{
    struct pool pool = new_pool(blocks);
    struct bytes text = {NULL, 0, 0};
    size_t number;
    while (pool.blocks < pool.most) {
        begin_block(&pool);
        for (number = 0; number < messages; number++) {
            text.size = 0;
            make(chance, number, &text, &pool.bytes);
        }
    }
    free(text.at);
    return pool;
}

/* Judges streams of a client, and writes them in their normal form, by turns. */
static void judge_or_normalise(wsn_options options, struct pool *streams, size_t rounds, struct printed *printed)
{
    size_t round;
    for (round = 0; round < rounds; round++) {
        struct part stream = recording(streams, round, BLOCKS, CLIENT_CLOSE);
        run(printed, round % 2 == 0 ? wsn_judge : wsn_normal, options, stream);
    }
}

/* A message of 200 to 4,000 bytes in fragments: text of several scripts, or JSON with a ping after each fragment. */
static void make_fragments(struct chance *chance, size_t number, struct bytes *text, struct bytes *into)
{
    size_t wanted = between(chance, 200, 4000);
    struct cut cut = {between(chance, 60, 140), number % 4 == 3 ? 1 : 4};
    if (number % 4 == 3)
        put_json(chance, wanted, text);
    else
        put_mixed(chance, wanted, text);
    put_fragments(chance, whole_frame(WSN_CLIENT, TEXT, part_of(text)), cut, into);
}

/*
 * A client's messages as a gateway cuts them, in fragments of some 100 bytes, whose ends fall inside characters. They are
 * judged, and written in their normal form.
 */
void fragments(uint64_t seed, size_t rounds, struct printed *printed)
{
    struct chance chance = {seed};
    struct pool streams = made(&chance, make_fragments, 8, rounds + BLOCKS);
    judge_or_normalise(options_of(WSN_CLIENT, WSN_TEXT), &streams, rounds, printed);
    free_pool(&streams);
}

/* A short text; of eight one is an empty text, one an empty ping, and one has a longer encoding of its length. */
static void make_awkward(struct chance *chance, size_t number, struct bytes *text, struct bytes *into)
{
    struct frame frame;
    (void)number;
    put_mixed(chance, between(chance, 4, 50), text);
    frame = whole_frame(WSN_CLIENT, TEXT, part_of(text));
    switch (below(chance, 8)) {
    case 0:
        frame = whole_frame(WSN_CLIENT, TEXT, LITERAL(""));
        break;
    case 1:
        frame = whole_frame(WSN_CLIENT, PING, LITERAL(""));
        break;
    case 2:
        frame.is_longer = 1;
        break;
    }
    put_frame(chance, frame, into);
}

/*
 * What takes no fast way: a chat in several scripts, in texts of 4 to 63 bytes, with empty messages and pings and with
 * longer encodings of lengths among them. It is judged, and written in its normal form.
 */
void awkward(uint64_t seed, size_t rounds, struct printed *printed)
{
    struct chance chance = {seed};
    struct pool streams = made(&chance, make_awkward, 256, rounds + BLOCKS);
    wsn_options options = options_of(WSN_CLIENT, WSN_TEXT);
    options.lengths = WSN_ANY;
    judge_or_normalise(options, &streams, rounds, printed);
    free_pool(&streams);
}

/* A client's tick. */
static void make_answer(struct chance *chance, size_t number, struct bytes *text, struct bytes *into)
{
    (void)number;
    put_tick(chance, text);
    put_frame(chance, whole_frame(WSN_CLIENT, TEXT, part_of(text)), into);
}

/* A server's tick. */
static void make_tick(struct chance *chance, size_t number, struct bytes *text, struct bytes *into)
{
    (void)number;
    put_tick(chance, text);
    put_frame(chance, whole_frame(WSN_SERVER, TEXT, part_of(text)), into);
}

/* A market's feed and what a client answers. `frames` lists them, in words and, one of four, as objects. */
void frames(uint64_t seed, size_t rounds, struct printed *printed)
{
    struct chance chance = {seed};
    struct pool of_client = made(&chance, make_answer, 512, rounds + BLOCKS);
    struct pool of_server = made(&chance, make_tick, 512, rounds + BLOCKS);
    size_t round;
    for (round = 0; round < rounds; round++) {
        uint8_t format = round % 4 == 3 ? WSN_JSON : WSN_TEXT;
        struct part client = recording(&of_client, round, BLOCKS, CLIENT_CLOSE);
        struct part server = recording(&of_server, round, BLOCKS, SERVER_CLOSE);
        run(printed, wsn_frames, options_of(WSN_CLIENT, format), client);
        run(printed, wsn_frames, options_of(WSN_SERVER, format), server);
    }
    free_pool(&of_client);
    free_pool(&of_server);
}

/* A message of a chat, and now and then a ping. */
static void make_chat(struct chance *chance, size_t number, struct bytes *text, struct bytes *into)
{
    put_message(chance, text);
    put_frame(chance, whole_frame(WSN_CLIENT, TEXT, part_of(text)), into);
    if (number % 16 == 15)
        put_frame(chance, whole_frame(WSN_CLIENT, PING, LITERAL("12345678")), into);
}

/* A session that is planned, written anew in frames of 100 bytes, and brought back by its plan. */
void recut(uint64_t seed, size_t rounds, struct printed *printed)
{
    struct chance chance = {seed};
    struct pool streams = made(&chance, make_chat, 64, rounds + BLOCKS);
    struct bytes plan = new_room(), there = new_room();
    wsn_options options = options_of(WSN_CLIENT, WSN_TEXT);
    size_t round;
    for (round = 0; round < rounds; round++) {
        struct part stream = recording(&streams, round, BLOCKS, CLIENT_CLOSE);
        run(printed, wsn_plan, options, stream);
        swap_rooms(printed, &plan);
        run_recut_by_size(printed, options, 100, LITERAL("\x37\xfa\x21\x3d"), stream);
        swap_rooms(printed, &there);
        run_recut(printed, options, part_of(&plan), part_of(&there));
    }
    free_pool(&streams);
    free(plan.at);
    free(there.at);
}
