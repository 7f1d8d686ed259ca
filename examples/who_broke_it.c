/* Prints which side of a capture broke the protocol, at which byte and why:
 *
 *     cc who_broke_it.c $(pkg-config --cflags --libs libwsn) -o who_broke_it
 *     ./who_broke_it session.capture
 */
#include <stdio.h>
#include <string.h>
#include <wsn.h>

static unsigned char capture[1 << 24], stream[1 << 24];

int main(int count, char **words) {
    char text[256], error[WSN_MESSAGE];
    FILE *file = count == 2 ? fopen(words[1], "rb") : NULL;
    size_t size = file ? fread(capture, 1, sizeof capture, file) : 0;
    wsn_options options = wsn_defaults();
    int broken = 0;
    if (!file || !feof(file))
        return fprintf(stderr, "usage: who_broke_it CAPTURE, of less than 16 MB\n"), 2;
    for (options.role = WSN_CLIENT; options.role <= WSN_SERVER; options.role++) {
        const char *side = options.role == WSN_CLIENT ? "client" : "server";
        wsn_answer sent = wsn_sent(&options, capture, size, stream, sizeof stream, error, sizeof error);
        if (sent.status)
            return fprintf(stderr, "%.*s", (int)sent.message, error), 2;
        wsn_answer verdict = wsn_judge(&options, stream, sent.output, text, sizeof text, error, sizeof error);
        if (verdict.status == 1 && strncmp(text, "refused ", 8) == 0)
            broken = printf("%s %.*s", side, (int)verdict.output, text);
    }
    return broken > 0;
}
