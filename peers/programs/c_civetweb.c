/* civetweb: its websocket handlers, and its client. It passes frames to its user; the program joins them, and answers
   pings. */
#include "lines.h"
#include <civetweb.h>

struct talk {
    char name[64], *joined;
    size_t size;
    int is_text, code;
};

static void say(struct mg_connection *socket, const char *name, int is_client) {
    int (*put)(struct mg_connection *, int, const char *, size_t) =
        is_client ? mg_websocket_client_write : mg_websocket_write;
    for (int index = 0, size; (size = text_size(name, index)) >= 0; index++) {
        char *text = text_of(size);
        put(socket, MG_WEBSOCKET_OPCODE_TEXT, text, size);
        free(text);
    }
    if (is_short(name)) {
        put(socket, MG_WEBSOCKET_OPCODE_BINARY, (const char *)binary_message, sizeof binary_message);
        put(socket, MG_WEBSOCKET_OPCODE_PING, "p", 1);
    }
    if (text_size(name, 0) >= 0)
        put(socket, MG_WEBSOCKET_OPCODE_CONNECTION_CLOSE, "\x03\xe8" "bye", 5);
}

static int receive(struct talk *talk, struct mg_connection *socket, int first, char *data, size_t size, int is_client) {
    int opcode = first & 15;
    if (opcode == MG_WEBSOCKET_OPCODE_CONNECTION_CLOSE) {
        talk->code = size >= 2 ? (unsigned char)data[0] << 8 | (unsigned char)data[1] : 0;
        return 1;
    }
    if (opcode == MG_WEBSOCKET_OPCODE_PING)
        (is_client ? mg_websocket_client_write : mg_websocket_write)(socket, MG_WEBSOCKET_OPCODE_PONG, data, size);
    if (opcode > MG_WEBSOCKET_OPCODE_BINARY)
        return 1;
    if (opcode)
        talk->is_text = opcode == MG_WEBSOCKET_OPCODE_TEXT;
    talk->joined = realloc(talk->joined, talk->size + size + 1);
    memcpy(talk->joined + talk->size, data, size);
    talk->size += size;
    if (first & 0x80) {
        message(talk->name, talk->is_text, talk->joined, talk->size);
        talk->size = 0;
    }
    return 1;
}

static void end(struct talk *talk) {
    closed(talk->name, talk->code);
    free(talk->joined);
    free(talk);
}

static int on_connect(const struct mg_connection *socket, void *given) {
    struct talk *talk = calloc(1, sizeof *talk);
    (void)given;
    strncpy(talk->name, name_of(mg_get_request_info(socket)->local_uri), sizeof talk->name - 1);
    mg_set_user_connection_data((struct mg_connection *)socket, talk);
    return 0;
}

static void on_ready(struct mg_connection *socket, void *given) {
    (void)given;
    say(socket, ((struct talk *)mg_get_user_connection_data(socket))->name, 0);
}

static int on_data(struct mg_connection *socket, int first, char *data, size_t size, void *given) {
    (void)given;
    return receive(mg_get_user_connection_data(socket), socket, first, data, size, 0);
}

static void on_end(const struct mg_connection *socket, void *given) {
    (void)given;
    end(mg_get_user_connection_data(socket));
}

static int on_client_data(struct mg_connection *socket, int first, char *data, size_t size, void *talk) {
    return receive(talk, socket, first, data, size, 1);
}

static void on_client_end(const struct mg_connection *socket, void *talk) {
    (void)socket;
    end(talk);
}

static void connect_to(const char *url) {
    struct talk *talk = calloc(1, sizeof *talk);
    char error[256];
    strncpy(talk->name, name_of(url), sizeof talk->name - 1);
    struct mg_connection *socket = mg_connect_websocket_client("127.0.0.1", atoi(strrchr(url, ':') + 1), 0, error,
        sizeof error, strrchr(url, '/'), NULL, on_client_data, on_client_end, talk);
    if (socket)
        say(socket, talk->name, 1);
}

int main(int count, char **words) {
    char url[256], address[64];
    mg_init_library(0);
    if (count == 2) {
        line("", "ready", "");
        while (next_url(url, sizeof url))
            connect_to(url);
        return 0;
    }
    snprintf(address, sizeof address, "127.0.0.1:%s", words[2]);
    const char *options[] = {"listening_ports", address, "num_threads", "100", NULL};
    struct mg_context *context = mg_start(NULL, NULL, options);
    if (!context)
        return 1;
    mg_set_websocket_handler(context, "/", on_connect, on_ready, on_data, on_end, NULL);
    line("", "ready", "");
    for (;;)
        getchar();
}
