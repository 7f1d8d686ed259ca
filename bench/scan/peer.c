// Reads a client's stream from standard input as a server of libwslay does, and prints the numbers of messages
// and payload bytes that it received.
#include <stdint.h>
#include <stdio.h>
#include <string.h>
#include <unistd.h>
#include <wslay/wslay.h>

struct reader {
    uint8_t bytes[65536];
    size_t at, end;
    int has_ended;
    uint64_t messages, payload;
};

static ssize_t receive(wslay_event_context_ptr context, uint8_t *into, size_t len, int flags, void *user) {
    struct reader *reader = user;
    (void)flags;
    if (reader->at == reader->end) {
        ssize_t count = read(0, reader->bytes, sizeof reader->bytes);
        if (count <= 0) {
            reader->has_ended = 1;
            wslay_event_set_error(context, count < 0 ? WSLAY_ERR_CALLBACK_FAILURE : WSLAY_ERR_WOULDBLOCK);
            return -1;
        }
        reader->at = 0;
        reader->end = count;
    }
    size_t left = reader->end - reader->at, count = len < left ? len : left;
    memcpy(into, reader->bytes + reader->at, count);
    reader->at += count;
    return count;
}

static void take(wslay_event_context_ptr context, const struct wslay_event_on_msg_recv_arg *message, void *user) {
    struct reader *reader = user;
    (void)context;
    reader->messages++;
    reader->payload += message->msg_length;
}

int main(void) {
    static struct reader reader;
    struct wslay_event_callbacks callbacks = {.recv_callback = receive, .on_msg_recv_callback = take};
    wslay_event_context_ptr context;
    if (wslay_event_context_server_init(&context, &callbacks, &reader) != 0)
        return 2;
    while (!reader.has_ended && wslay_event_want_read(context))
        if (wslay_event_recv(context) != 0)
            return 1;
    printf("%llu %llu\n", (unsigned long long)reader.messages, (unsigned long long)reader.payload);
    wslay_event_context_free(context);
    return 0;
}
