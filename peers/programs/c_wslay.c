/* wslay: its event API, as its echo server's example uses it, over a blocking socket and a thread for each connection.
   The program itself does the handshake. */
#include "lines.h"
#include <arpa/inet.h>
#include <netinet/tcp.h>
#include <openssl/evp.h>
#include <openssl/rand.h>
#include <pthread.h>
#include <sys/socket.h>
#include <unistd.h>
#include <wslay/wslay.h>

struct talk {
    int socket, is_over;
    char name[64];
};

static ssize_t receive(wslay_event_context_ptr context, uint8_t *data, size_t size, int flags, void *given) {
    struct talk *talk = given;
    ssize_t count = recv(talk->socket, data, size, MSG_DONTWAIT);
    (void)flags;
    if (count > 0)
        return count;
    if (count == 0)
        talk->is_over = 1;
    wslay_event_set_error(context, count == 0 ? WSLAY_ERR_CALLBACK_FAILURE : WSLAY_ERR_WOULDBLOCK);
    return -1;
}

static ssize_t put(wslay_event_context_ptr context, const uint8_t *data, size_t size, int flags, void *given) {
    ssize_t count = send(((struct talk *)given)->socket, data, size, MSG_NOSIGNAL);
    (void)flags;
    if (count < 0)
        wslay_event_set_error(context, WSLAY_ERR_CALLBACK_FAILURE);
    return count;
}

static int key(wslay_event_context_ptr context, uint8_t *bytes, size_t size, void *given) {
    (void)context, (void)given;
    return RAND_bytes(bytes, size) == 1 ? 0 : -1;
}

static void got(wslay_event_context_ptr context, const struct wslay_event_on_msg_recv_arg *given, void *talk) {
    (void)context;
    if (!wslay_is_ctrl_frame(given->opcode))
        message(((struct talk *)talk)->name, given->opcode == WSLAY_TEXT_FRAME, given->msg, given->msg_length);
}

static void queue(wslay_event_context_ptr context, int opcode, const void *data, size_t size) {
    struct wslay_event_msg all = {opcode, data, size};
    wslay_event_queue_msg(context, &all);
}

static void say(wslay_event_context_ptr context, const char *name) {
    for (int index = 0, size; (size = text_size(name, index)) >= 0; index++) {
        char *text = text_of(size);
        queue(context, WSLAY_TEXT_FRAME, text, size);
        free(text);
    }
    wslay_event_send(context);
    if (is_short(name)) {
        queue(context, WSLAY_BINARY_FRAME, binary_message, sizeof binary_message);
        wslay_event_send(context);
        queue(context, WSLAY_PING, "p", 1);
        wslay_event_send(context);
    }
    if (text_size(name, 0) >= 0)
        wslay_event_queue_close(context, 1000, (const uint8_t *)"bye", 3);
}

static void run(struct talk *talk, int is_client) {
    struct wslay_event_callbacks calls = {receive, put, key, NULL, NULL, NULL, got};
    wslay_event_context_ptr context;
    if (is_client)
        wslay_event_context_client_init(&context, &calls, talk);
    else
        wslay_event_context_server_init(&context, &calls, talk);
    say(context, talk->name);
    while (!talk->is_over && (wslay_event_want_read(context) || wslay_event_want_write(context))) {
        char byte;
        if (wslay_event_send(context) || !wslay_event_want_read(context))
            break;
        recv(talk->socket, &byte, 1, MSG_PEEK);
        if (wslay_event_recv(context))
            break;
    }
    int code = wslay_event_get_status_code_received(context);
    wslay_event_context_free(context);
    close(talk->socket);
    closed(talk->name, code);
    free(talk);
}

/* Reads a head into `head`, byte by byte. Returns 0 if there is none. */
static int read_head(int socket, char *head, int size) {
    int length = 0;
    while (length < size - 1 && recv(socket, head + length, 1, 0) == 1) {
        head[++length] = 0;
        if (length >= 4 && !memcmp(head + length - 4, "\r\n\r\n", 4))
            return 1;
    }
    return 0;
}

static void answer(int socket, const char *head) {
    static const char guid[] = "258EAFA5-E914-47DA-95CA-C5AB0DC85B11";
    char text[128] = "", answer[256];
    unsigned char digest[EVP_MAX_MD_SIZE], encoded[64];
    sscanf(strstr(head, "Sec-WebSocket-Key: "), "Sec-WebSocket-Key: %60s", text);
    strcat(text, guid);
    EVP_Digest(text, strlen(text), digest, NULL, EVP_sha1(), NULL);
    EVP_EncodeBlock(encoded, digest, 20);
    snprintf(answer, sizeof answer,
             "HTTP/1.1 101 Switching Protocols\r\nUpgrade: websocket\r\nConnection: Upgrade\r\n"
             "Sec-WebSocket-Accept: %s\r\n\r\n", encoded);
    send(socket, answer, strlen(answer), MSG_NOSIGNAL);
}

static void *serve(void *given) {
    struct talk *talk = given;
    char head[4096];
    if (!read_head(talk->socket, head, sizeof head))
        return NULL;
    sscanf(head, "GET /%60s", talk->name);
    answer(talk->socket, head);
    run(talk, 0);
    return NULL;
}

static void *connect_to(void *given) {
    struct talk *talk = given;
    char head[4096], request[512];
    snprintf(request, sizeof request,
             "GET /%s HTTP/1.1\r\nHost: localhost\r\nUpgrade: websocket\r\nConnection: Upgrade\r\n"
             "Sec-WebSocket-Key: dGhlIHNhbXBsZSBub25jZQ==\r\nSec-WebSocket-Version: 13\r\n\r\n", talk->name);
    send(talk->socket, request, strlen(request), MSG_NOSIGNAL);
    if (read_head(talk->socket, head, sizeof head))
        run(talk, 1);
    return NULL;
}

static void start(int socket, const char *name, void *(*run_thread)(void *)) {
    struct talk *talk = calloc(1, sizeof *talk);
    pthread_t thread;
    int one = 1;
    setsockopt(socket, IPPROTO_TCP, TCP_NODELAY, &one, sizeof one);
    talk->socket = socket;
    strcpy(talk->name, name);
    pthread_create(&thread, NULL, run_thread, talk);
    pthread_detach(thread);
}

int main(int count, char **words) {
    struct sockaddr_in address = {.sin_family = AF_INET, .sin_addr.s_addr = htonl(INADDR_LOOPBACK)};
    char url[256];
    if (count > 2) {
        int listener = socket(AF_INET, SOCK_STREAM, 0);
        address.sin_port = htons(atoi(words[2]));
        if (bind(listener, (struct sockaddr *)&address, sizeof address) || listen(listener, 128))
            return 1;
        line("", "ready", "");
        for (;;)
            start(accept(listener, NULL, NULL), "", serve);
    }
    line("", "ready", "");
    while (next_url(url, sizeof url)) {
        int connection = socket(AF_INET, SOCK_STREAM, 0);
        address.sin_port = htons(atoi(strrchr(url, ':') + 1));
        if (!connect(connection, (struct sockaddr *)&address, sizeof address))
            start(connection, name_of(url), connect_to);
    }
    return 0;
}
