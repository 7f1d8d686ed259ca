/*
 * Captures of both sides of a chat: JSON messages in turn, with the times of the lines, pings, and a Close. They are
 * shown in each way, and read by `closing` and `judge --capture`.
 */
#include "jobs.h"

#include <inttypes.h>
#include <stdio.h>
#include <stdlib.h>

/* The number of messages in a block, and the most bytes in a line: those of a TCP segment. */
enum { MESSAGES = 64, SEGMENT = 1448 };

/* How each capture ends. */
#define CAPTURE_END LITERAL("C 88820000000003e8\nS 880203e8\nC.\nS.\n")

/* Adds a line of a capture, and before it one with its time, in microseconds. */
static void put_line(uint8_t role, uint64_t time, struct part line, struct bytes *into)
{
    const char *digits = "0123456789abcdef";
    unsigned char *pairs;
    char seconds[64];
    size_t at;
    snprintf(seconds, sizeof seconds, "# %" PRIu64 ".%06" PRIu64 "\n", time / 1000000, time % 1000000);
    put_text(into, seconds);
    put_text(into, role == WSN_CLIENT ? "C " : "S ");
    pairs = more(into, 2 * line.size);
    for (at = 0; at < line.size; at++) {
        pairs[2 * at] = (unsigned char)digits[line.at[at] >> 4];
        pairs[2 * at + 1] = (unsigned char)digits[line.at[at] & 15];
    }
    put_byte(into, '\n');
}

/* Adds the lines of a frame, each up to 20 ms after the one before it. */
static void put_lines(struct chance *chance, uint8_t role, struct part frame, uint64_t *time, struct bytes *into)
{
    while (frame.size > 0) {
        struct part line = {frame.at, frame.size < SEGMENT ? frame.size : SEGMENT};
        *time += below(chance, 20000);
        put_line(role, *time, line, into);
        frame.at += line.size;
        frame.size -= line.size;
    }
}

/* Blocks of a capture, in which both sides send messages in turn, or now and then a ping. */
static struct pool captures(struct chance *chance, size_t blocks)
{
    struct pool pool = new_pool(blocks);
    struct bytes text = {NULL, 0, 0}, frame = {NULL, 0, 0};
    uint64_t time = 0;
    size_t message;
    while (pool.blocks < blocks) {
        begin_block(&pool);
        for (message = 0; message < MESSAGES; message++) {
            uint8_t role = message % 2 == 0 ? WSN_CLIENT : WSN_SERVER;
            text.size = frame.size = 0;
            if (message % 32 == 30) {
                put_frame(chance, whole_frame(role, PING, LITERAL("alive")), &frame);
            } else {
                put_message(chance, &text);
                put_frame(chance, whole_frame(role, TEXT, part_of(&text)), &frame);
            }
            put_lines(chance, role, part_of(&frame), &time, &pool.bytes);
        }
    }
    free(text.at);
    free(frame.at);
    return pool;
}

/* Reads a capture in one of six ways. */
static void read_capture(size_t way, struct part capture, struct bytes *side, struct printed *printed)
{
    wsn_options options = options_of(WSN_CLIENT, way == 2 ? WSN_JSON : WSN_TEXT);
    options.detail = way == 3 ? WSN_FRAMES : WSN_EVENTS;
    if (way == 5)
        run_on_side(printed, wsn_judge, options, capture, side);
    else
        run(printed, way == 4 ? wsn_closing : wsn_show, options, capture);
}

void show(uint64_t seed, size_t rounds, struct printed *printed)
{
    struct chance chance = {seed};
    struct pool pool = captures(&chance, rounds + BLOCKS);
    struct bytes side = new_room();
    size_t round;
    for (round = 0; round < rounds; round++)
        read_capture(round % 6, recording(&pool, round, BLOCKS, CAPTURE_END), &side, printed);
    free_pool(&pool);
    free(side.at);
}
