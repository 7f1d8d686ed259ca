/* libwebsockets: a protocol's callback. It passes parts of messages to its user; the program joins them. */
#include "lines.h"
#include <libwebsockets.h>
#include <pthread.h>

struct talk {
    char name[64], *joined;
    size_t size;
    int is_text, code, said;
};

static char urls[4096][128];
static int given, taken;

static void receive(struct lws *socket, struct talk *talk, const void *data, size_t size) {
    if (lws_is_first_fragment(socket)) {
        talk->size = 0;
        talk->is_text = !lws_frame_is_binary(socket);
    }
    talk->joined = realloc(talk->joined, talk->size + size + 1);
    memcpy(talk->joined + talk->size, data, size);
    talk->size += size;
    if (lws_is_final_fragment(socket)) {
        message(talk->name, talk->is_text, talk->joined, talk->size);
        talk->size = 0;
    }
}

static void put(struct lws *socket, const void *data, size_t size, enum lws_write_protocol how) {
    unsigned char *room = malloc(LWS_PRE + size + 1);
    memcpy(room + LWS_PRE, data, size);
    lws_write(socket, room + LWS_PRE, size, how);
    free(room);
}

/* Sends what comes next. Returns -1 if the connection is to end. */
static int say(struct lws *socket, struct talk *talk) {
    int step = talk->said++, size = text_size(talk->name, step);
    if (text_size(talk->name, 0) < 0)
        return 0;
    int after = step - (is_short(talk->name) ? 4 : 2);
    if (size >= 0) {
        char *text = text_of(size);
        put(socket, text, size, LWS_WRITE_TEXT);
        free(text);
    } else if (is_short(talk->name) && after == 0)
        put(socket, binary_message, sizeof binary_message, LWS_WRITE_BINARY);
    else if (is_short(talk->name) && after == 1)
        put(socket, "p", 1, LWS_WRITE_PING);
    else if (is_short(talk->name) && after == 2)
        put(socket, "Hel", 3, LWS_WRITE_TEXT | LWS_WRITE_NO_FIN);
    else if (is_short(talk->name) && after == 3)
        put(socket, "lo", 2, LWS_WRITE_CONTINUATION);
    else {
        lws_close_reason(socket, 1000, (unsigned char *)"bye", 3);
        return -1;
    }
    lws_callback_on_writable(socket);
    return 0;
}

static void connect_all(struct lws_context *context) {
    for (; taken < given; taken++) {
        struct lws_client_connect_info info = {.context = context, .address = "127.0.0.1", .host = "127.0.0.1"};
        info.port = atoi(strrchr(urls[taken], ':') + 1);
        info.path = strrchr(urls[taken], '/');
        info.origin = "127.0.0.1";
        info.opaque_user_data = urls[taken];
        lws_client_connect_via_info(&info);
    }
}

static int call(struct lws *socket, enum lws_callback_reasons why, void *user, void *data, size_t size) {
    struct talk *talk = user;
    char path[64] = "";
    switch (why) {
    case LWS_CALLBACK_EVENT_WAIT_CANCELLED:
        connect_all(lws_get_context(socket));
        break;
    case LWS_CALLBACK_ESTABLISHED:
    case LWS_CALLBACK_CLIENT_ESTABLISHED:
        memset(talk, 0, sizeof *talk);
        if (why == LWS_CALLBACK_ESTABLISHED)
            lws_hdr_copy(socket, path, sizeof path, WSI_TOKEN_GET_URI);
        strcpy(talk->name, name_of(*path ? path : (char *)lws_get_opaque_user_data(socket)));
        lws_callback_on_writable(socket);
        break;
    case LWS_CALLBACK_SERVER_WRITEABLE:
    case LWS_CALLBACK_CLIENT_WRITEABLE:
        return say(socket, talk);
    case LWS_CALLBACK_RECEIVE:
    case LWS_CALLBACK_CLIENT_RECEIVE:
        receive(socket, talk, data, size);
        break;
    case LWS_CALLBACK_WS_PEER_INITIATED_CLOSE:
        talk->code = size >= 2 ? ((unsigned char *)data)[0] << 8 | ((unsigned char *)data)[1] : 0;
        break;
    case LWS_CALLBACK_CLOSED:
    case LWS_CALLBACK_CLIENT_CLOSED:
        closed(talk->name, talk->code);
        free(talk->joined);
        break;
    default:
        break;
    }
    return 0;
}

static void *read_urls(void *context) {
    while (given < 4096 && next_url(urls[given], sizeof urls[0])) {
        given++;
        lws_cancel_service(context);
    }
    return NULL;
}

int main(int count, char **words) {
    static const struct lws_protocols protocols[] = {{"peer", call, sizeof(struct talk), 65536, 0, NULL, 0}, {0}};
    struct lws_context_creation_info info = {.protocols = protocols, .iface = "127.0.0.1"};
    pthread_t thread;
    info.port = count > 2 ? atoi(words[2]) : CONTEXT_PORT_NO_LISTEN;
    lws_set_log_level(0, NULL);
#ifdef VALIDATE_UTF8
    info.options |= LWS_SERVER_OPTION_VALIDATE_UTF8;
#endif
    struct lws_context *context = lws_create_context(&info);
    if (!context)
        return 1;
    if (count == 2)
        pthread_create(&thread, NULL, read_urls, context);
    line("", "ready", "");
    while (lws_service(context, 0) >= 0)
        ;
    return 0;
}
