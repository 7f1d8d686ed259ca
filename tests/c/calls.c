/*
 * calls COMMAND ROOM [OPTION=NUMBER..] FILE..
 *
 * Does what `wsn COMMAND` does, by the call of libwsn, into rooms of ROOM bytes, and again into larger ones while the
 * answer says that they are too small. Prints the output, and the message on standard error; its status is the call's.
 */
#include "wsn.h"

#include <stdio.h>
#include <stdlib.h>
#include <string.h>

struct bytes {
    unsigned char *at;
    size_t size;
};

static void fail(const char *what)
{
    fprintf(stderr, "calls: %s\n", what);
    exit(3);
}

static struct bytes room_of(size_t size)
{
    struct bytes room = {malloc(size + 1), size};
    if (room.at == NULL)
        fail("no memory");
    memset(room.at, 0xa5, size + 1);
    return room;
}

static struct bytes read_file(const char *name)
{
    struct bytes all = room_of(64);
    size_t used = 0;
    FILE *file = fopen(name, "rb");
    if (file == NULL)
        fail(name);
    for (;;) {
        size_t count = fread(all.at + used, 1, all.size - used, file);
        if (count == 0)
            break;
        used += count;
        if (used == all.size) {
            all.size *= 2;
            all.at = realloc(all.at, all.size);
            if (all.at == NULL)
                fail("no memory");
        }
    }
    fclose(file);
    all.size = used;
    return all;
}

/* The arguments of a call but for its options and rooms. */
struct arguments {
    struct bytes first, second;
    uint64_t at;
    uint32_t size;
    uint8_t weave;
    struct bytes key;
};

static wsn_answer call(const char *command, const wsn_options *options, const struct arguments *with,
                       struct bytes output, struct bytes message)
{
    const struct bytes *in = &with->first;
    if (strcmp(command, "judge") == 0)
        return wsn_judge(options, in->at, in->size, output.at, output.size, message.at, message.size);
    if (strcmp(command, "frames") == 0)
        return wsn_frames(options, in->at, in->size, output.at, output.size, message.at, message.size);
    if (strcmp(command, "show") == 0)
        return wsn_show(options, in->at, in->size, output.at, output.size, message.at, message.size);
    if (strcmp(command, "show-stream") == 0)
        return wsn_show_stream(options, in->at, in->size, output.at, output.size, message.at, message.size);
    if (strcmp(command, "closing") == 0)
        return wsn_closing(options, in->at, in->size, output.at, output.size, message.at, message.size);
    if (strcmp(command, "sent") == 0)
        return wsn_sent(options, in->at, in->size, output.at, output.size, message.at, message.size);
    if (strcmp(command, "payload") == 0)
        return wsn_payload(options, in->at, in->size, with->at, output.at, output.size, message.at, message.size);
    if (strcmp(command, "normal") == 0)
        return wsn_normal(options, in->at, in->size, output.at, output.size, message.at, message.size);
    if (strcmp(command, "redact") == 0)
        return wsn_redact(options, in->at, in->size, output.at, output.size, message.at, message.size);
    if (strcmp(command, "redact-capture") == 0)
        return wsn_redact_capture(options, in->at, in->size, output.at, output.size, message.at, message.size);
    if (strcmp(command, "plan") == 0)
        return wsn_plan(options, in->at, in->size, output.at, output.size, message.at, message.size);
    if (strcmp(command, "same") == 0)
        return wsn_same(options, in->at, in->size, with->second.at, with->second.size,
                        output.at, output.size, message.at, message.size);
    if (strcmp(command, "same-view") == 0)
        return wsn_same_view(options, in->at, in->size, with->second.at, with->second.size,
                             output.at, output.size, message.at, message.size);
    if (strcmp(command, "recut") == 0)
        return wsn_recut(options, in->at, in->size, with->second.at, with->second.size,
                         output.at, output.size, message.at, message.size);
    if (strcmp(command, "recut-by-size") == 0)
        return wsn_recut_by_size(options, with->size, with->weave, with->key.at, with->key.size,
                                 in->at, in->size, output.at, output.size, message.at, message.size);
    fail("unknown command");
    return (wsn_answer){0, 0, 0};
}

static int set(wsn_options *options, struct arguments *with, const char *word)
{
    const char *number = strchr(word, '=');
    size_t name = number == NULL ? 0 : (size_t)(number - word);
    unsigned long long value = number == NULL ? 0 : strtoull(number + 1, NULL, 0);
#define IS(text) (name == strlen(text) && memcmp(word, text, name) == 0)
    if (number == NULL)
        return 0;
    else if (IS("role"))
        options->role = (uint8_t)value;
    else if (IS("format"))
        options->format = (uint8_t)value;
    else if (IS("lengths"))
        options->lengths = (uint8_t)value;
    else if (IS("detail"))
        options->detail = (uint8_t)value;
    else if (IS("without_pings"))
        options->without_pings = (uint8_t)value;
    else if (IS("without_pongs"))
        options->without_pongs = (uint8_t)value;
    else if (IS("without_closes"))
        options->without_closes = (uint8_t)value;
    else if (IS("view"))
        options->view = (uint16_t)value;
    else if (IS("limit"))
        options->limit = (uint32_t)value;
    else if (IS("frames"))
        options->frames = (uint32_t)value;
    else if (IS("at"))
        with->at = value;
    else if (IS("size"))
        with->size = (uint32_t)value;
    else if (IS("weave"))
        with->weave = (uint8_t)value;
    else if (IS("key")) {
        with->key = room_of(4);
        with->key.at[0] = (unsigned char)(value >> 24);
        with->key.at[1] = (unsigned char)(value >> 16);
        with->key.at[2] = (unsigned char)(value >> 8);
        with->key.at[3] = (unsigned char)value;
    } else
        return 0;
    return 1;
#undef IS
}

/* Calls again where a room is too small. What a room has behind the text stays. */
static wsn_answer call_until_all(const char *command, size_t size, const wsn_options *options,
                                 const struct arguments *with, struct bytes *output, struct bytes *message)
{
    wsn_answer answer;
    for (;;) {
        size_t at;
        *output = room_of(size);
        *message = room_of(size);
        answer = call(command, options, with, *output, *message);
        for (at = answer.output; at <= output->size; at++)
            if (output->at[at] != 0xa5)
                fail("the room behind the output was changed");
        for (at = answer.message; at <= message->size; at++)
            if (message->at[at] != 0xa5)
                fail("the room behind the message was changed");
        if (answer.output <= size && answer.message <= size)
            return answer;
        size = answer.output > answer.message ? answer.output : answer.message;
    }
}

int main(int count, char **words)
{
    wsn_options options = wsn_defaults();
    struct arguments with = {{NULL, 0}, {NULL, 0}, 0, 0, 0, {NULL, 0}};
    struct bytes output, message;
    wsn_answer answer;
    int at;
    if (count < 4)
        fail("COMMAND ROOM [OPTION=NUMBER..] FILE..");
    with.first = with.second = with.key = room_of(0);
    for (at = 3; at < count && set(&options, &with, words[at]); at++)
        ;
    if (at < count)
        with.first = read_file(words[at++]);
    if (at < count)
        with.second = read_file(words[at++]);
    answer = call_until_all(words[1], strtoul(words[2], NULL, 0), &options, &with, &output, &message);
    fwrite(output.at, 1, answer.output, stdout);
    fwrite(message.at, 1, answer.message, stderr);
    return answer.status;
}
