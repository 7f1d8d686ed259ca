/* libsoup: SoupServer and SoupSession; compiled for libsoup 3 and for 2.4, and with NO_LIMIT without the limit of 128 KiB
   that it sets on a message. */
#include "lines.h"
#include <libsoup/soup.h>

#if SOUP_MAJOR_VERSION >= 3
#define SOCKET_END SoupServerMessage *request, const char *path, SoupWebsocketConnection *socket, gpointer data
#else
#define SOCKET_END SoupWebsocketConnection *socket, const char *path, SoupClientContext *client, gpointer data
#endif

static SoupSession *session;

static void on_message(SoupWebsocketConnection *socket, int type, GBytes *bytes, gpointer name) {
    gsize size;
    const void *data = g_bytes_get_data(bytes, &size);
    (void)socket;
    message(name, type == SOUP_WEBSOCKET_DATA_TEXT, data, size);
}

static void on_closed(SoupWebsocketConnection *socket, gpointer name) {
    closed(name, soup_websocket_connection_get_close_code(socket));
    g_object_unref(socket);
}

static void talk(SoupWebsocketConnection *socket, const char *path) {
    char *name = g_strdup(name_of(path));
    g_object_ref(socket);
#ifdef NO_LIMIT
    soup_websocket_connection_set_max_incoming_payload_size(socket, 0);
#endif
    g_signal_connect(socket, "message", G_CALLBACK(on_message), name);
    g_signal_connect(socket, "closed", G_CALLBACK(on_closed), name);
    for (int index = 0, size; (size = text_size(name, index)) >= 0; index++) {
        char *text = text_of(size);
        soup_websocket_connection_send_text(socket, text);
        free(text);
    }
    if (is_short(name))
        soup_websocket_connection_send_binary(socket, binary_message, sizeof binary_message);
    if (text_size(name, 0) >= 0)
        soup_websocket_connection_close(socket, 1000, "bye");
}

#if SOUP_MAJOR_VERSION >= 3
static void on_socket(SoupServer *server, SOCKET_END) {
    (void)server, (void)request, (void)data;
    talk(socket, path);
}
#else
static void on_socket(SoupServer *server, SOCKET_END) {
    (void)server, (void)client, (void)data;
    talk(socket, path);
}
#endif

static void on_connected(GObject *object, GAsyncResult *result, gpointer url) {
    SoupWebsocketConnection *socket = soup_session_websocket_connect_finish(SOUP_SESSION(object), result, NULL);
    if (socket)
        talk(socket, url);
}

static void connect_to(char *url) {
    SoupMessage *request = soup_message_new("GET", url);
#if SOUP_MAJOR_VERSION >= 3
    soup_session_websocket_connect_async(session, request, NULL, NULL, 0, NULL, on_connected, url);
#else
    soup_session_websocket_connect_async(session, request, NULL, NULL, NULL, on_connected, url);
#endif
}

static gboolean on_urls(GIOChannel *channel, GIOCondition condition, gpointer data) {
    char *url;
    gsize end;
    (void)condition, (void)data;
    while (g_io_channel_read_line(channel, &url, NULL, &end, NULL) == G_IO_STATUS_NORMAL) {
        url[end] = 0;
        connect_to(url);
    }
    return TRUE;
}

int main(int count, char **words) {
    GMainLoop *loop = g_main_loop_new(NULL, FALSE);
    if (count > 2) {
        SoupServer *server = soup_server_new("server-header", "peer", NULL);
        soup_server_add_websocket_handler(server, NULL, NULL, NULL, on_socket, NULL, NULL);
        if (!soup_server_listen_local(server, atoi(words[2]), SOUP_SERVER_LISTEN_IPV4_ONLY, NULL))
            return 1;
    } else {
        session = soup_session_new_with_options("max-conns", 500, "max-conns-per-host", 500, NULL);
        GIOChannel *channel = g_io_channel_unix_new(0);
        g_io_channel_set_flags(channel, G_IO_FLAG_NONBLOCK, NULL);
        g_io_add_watch(channel, G_IO_IN, on_urls, NULL);
    }
    line("", "ready", "");
    g_main_loop_run(loop);
}
