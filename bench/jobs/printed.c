/* Calls of libwsn, and the digest of what they print. */
#include "jobs.h"

#include <stdlib.h>
#include <string.h>

/* The default options, with a role and a format. */
wsn_options options_of(uint8_t role, uint8_t format)
{
    wsn_options options = wsn_defaults();
    options.role = role;
    options.format = format;
    return options;
}

/* More bytes than any job prints. */
enum { ROOM = 1 << 26 };

struct bytes new_room(void)
{
    struct bytes room = {malloc(ROOM), 0, ROOM};
    if (room.at == NULL)
        fail("no memory");
    return room;
}

/* A sum after another word. */
static uint64_t step(uint64_t sum, uint64_t word)
{
    uint64_t product = (sum ^ word) * 0x9e3779b97f4a7c15;
    return product ^ (product >> 29);
}

/* Adds a text to the digest, by four sums, of which none waits for the one before it. */
static void add(struct printed *printed, const unsigned char *text, size_t size)
{
    uint64_t sums[4] = {1, 2, 3, 4}, word;
    size_t at, sum;
    for (at = 0; size - at >= 32; at += 32)
        for (sum = 0; sum < 4; sum++) {
            memcpy(&word, text + at + 8 * sum, 8);
            sums[sum] = step(sums[sum], word);
        }
    for (; at < size; at++)
        sums[0] = step(sums[0], text[at]);
    printed->texts += 1;
    printed->bytes += size;
    printed->sum = step(printed->sum, size);
    for (sum = 0; sum < 4; sum++)
        printed->sum = step(printed->sum, sums[sum]);
}

/* Adds what a call printed, its message, and its status with a 1, as if for an output that was flushed. */
static void add_answer(struct printed *printed, wsn_answer answer)
{
    unsigned char status[2] = {answer.status, 1};
    if (answer.output > printed->output.room || answer.message > sizeof printed->message)
        fail("a job prints more than its room");
    printed->output.size = answer.output;
    add(printed, printed->output.at, answer.output);
    add(printed, printed->message, answer.message);
    add(printed, status, sizeof status);
}

/* The room for what a call prints, and that for its message, as arguments. */
#define ROOMS printed->output.at, printed->output.room, printed->message, sizeof printed->message

void run(struct printed *printed, command *call, wsn_options options, struct part input)
{
    add_answer(printed, call(&options, input.at, input.size, ROOMS));
}

/* Leaves what the last call printed in this room, and lets the next one print into the room that was there. */
void swap_rooms(struct printed *printed, struct bytes *room)
{
    struct bytes output = printed->output;
    printed->output = *room;
    *room = output;
}

/* Runs a command over what an endpoint sent in a capture, which comes into this room. */
void run_on_side(struct printed *printed, command *call, wsn_options options, struct part capture, struct bytes *sent)
{
    wsn_answer answer = wsn_sent(&options, capture.at, capture.size, ROOMS);
    if (answer.status != 0 || answer.output > printed->output.room)
        fail("a capture has no side");
    printed->output.size = answer.output;
    swap_rooms(printed, sent);
    run(printed, call, options, part_of(sent));
}

void run_same(struct printed *printed, wsn_options options, struct part first, struct part second)
{
    add_answer(printed, wsn_same_view(&options, first.at, first.size, second.at, second.size, ROOMS));
}

void run_recut_by_size(struct printed *printed, wsn_options options, uint32_t size, struct part key, struct part stream)
{
    add_answer(printed, wsn_recut_by_size(&options, size, 0, key.at, key.size, stream.at, stream.size, ROOMS));
}

void run_recut(struct printed *printed, wsn_options options, struct part plan, struct part stream)
{
    add_answer(printed, wsn_recut(&options, plan.at, plan.size, stream.at, stream.size, ROOMS));
}
