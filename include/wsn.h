/*
 * wsn.h - why a WebSocket session failed: the commands of wsn over memory
 *
 * Give the bytes that one endpoint of a connection sent after the opening
 * handshake (RFC 6455, no extensions), and learn whether they are well formed,
 * and if not, where and why; or give a capture of both sides, and see what they
 * said. Each call prints what the command of its name prints, and is proved to.
 *
 *     char text[4096], error[WSN_MESSAGE];
 *     wsn_options options = wsn_defaults();
 *     options.role = WSN_SERVER;
 *     wsn_answer answer = wsn_judge(&options, bytes, size, text, sizeof text,
 *                                   error, sizeof error);
 *     if (answer.status == 2)
 *         fwrite(error, 1, answer.message, stderr);
 *     else
 *         fwrite(text, 1, answer.output, stdout);
 *
 * A verdict always fits in 256 bytes, so this example doesn't compare
 * answer.output with sizeof text. The other calls may print any number of
 * bytes: after them, compare.
 *
 * Buffers. A call puts as much of its text into `output` as fits, and answers
 * with the size of all of it: where answer.output is over output_size, only
 * output_size bytes are there, and a second call with a buffer of answer.output
 * bytes gives everything. The same holds of `message`, what the program prints
 * on standard error: one line, at most WSN_MESSAGE bytes. Nothing ends in a
 * NUL. No pointer may be NULL, even of a buffer of size 0; output and message
 * don't overlap with each other or with what is read.
 *
 * A call keeps nothing: the caller owns all buffers, and what is read stays as
 * it is. Calls in several threads don't disturb each other. The text is built
 * in memory from malloc, which is free again when the call returns. No call is
 * for signal handlers.
 *
 * Link with libwsn.a, or with libwsn.so: cc -I FOLDER program.c FOLDER/libwsn.a
 */
#ifndef WSN_H
#define WSN_H

#include <stddef.h>
#include <stdint.h>

#ifdef __cplusplus
extern "C" {
#endif

/* The version of this header and its library, which wsn --version prints. */
#define WSN_VERSION "0.1.0"

/* Room for every message. */
#define WSN_MESSAGE 128

/* wsn_options.role: the endpoint that sent the stream. */
enum { WSN_CLIENT = 0, WSN_SERVER = 1 };

/* wsn_options.format: lines of words, or a JSON object a line. */
enum { WSN_TEXT = 0, WSN_JSON = 1 };

/* wsn_options.lengths: which encodings of a length are accepted. */
enum { WSN_SHORTEST = 0, WSN_ANY = 1 };

/* wsn_options.detail: what wsn_show and wsn_show_stream show. */
enum { WSN_EVENTS = 0, WSN_FRAMES = 1 };

/*
 * wsn_options.view: the maximum number of bytes of a payload that are shown; in
 * hexadecimal half as many. WSN_VIEW_ALL: payloads are shown whole. Memory is
 * then allocated, twice `limit` for each side that is shown: by default 64 MiB
 * in wsn_show, 32 MiB in wsn_show_stream. wsn_same_view shows at most 4,096
 * bytes of a payload, also where the view is for whole payloads.
 */
enum { WSN_VIEW_ALL = 65535 };

typedef struct wsn_options {
    uint8_t role;            /* WSN_CLIENT */
    uint8_t format;          /* WSN_TEXT; bytes and plans have no other */
    uint8_t lengths;         /* WSN_SHORTEST */
    uint8_t detail;          /* WSN_EVENTS */
    uint8_t without_pings;   /* 0; 1 to compare without pings */
    uint8_t without_pongs;   /* 0 */
    uint8_t without_closes;  /* 0 */
    uint16_t view;           /* 48, to 4,096; or WSN_VIEW_ALL */
    uint32_t limit;          /* 16,777,216, the maximum: bytes of a message */
    uint32_t frames;         /* 0: no maximum; else that of a message */
} wsn_options;

typedef struct wsn_answer {
    size_t output;   /* bytes of all that the command prints */
    size_t message;  /* bytes of what it prints on standard error */
    uint8_t status;  /* its exit status: 0, 1 or 2 */
} wsn_answer;

/*
 * Statuses. 0: accepted; there is a plan; the recut is done; the streams mean
 * the same; the connection closed clean or complete; the payload is whole; the
 * redaction is written. 1: any other answer; it is in `output`, but that of
 * wsn_payload, wsn_normal, wsn_plan and both recuts in `message`. 2: no answer;
 * `message` says why: "usage" if an option or argument is out of range, "input
 * limit" (more than 2^40 bytes), "out of memory", "write failed" if memory for
 * the text was refused, the first faulty line of a capture or plan, such as
 * "line 3: bad-hex", or that no event begins at an offset. `output` may have
 * what was printed before.
 */

/* The default options: the values in the comments of wsn_options. */
wsn_options wsn_defaults(void);

/* Judges a stream: the verdict, with the offset of the offending byte. */
wsn_answer wsn_judge(const wsn_options *options,
                     const void *stream, size_t stream_size,
                     void *output, size_t output_size,
                     void *message, size_t message_size);

/* Lists a stream's frames, and then the verdict. */
wsn_answer wsn_frames(const wsn_options *options,
                      const void *stream, size_t stream_size,
                      void *output, size_t output_size,
                      void *message, size_t message_size);

/* Shows what a stream says, in order, and then the verdict. */
wsn_answer wsn_show_stream(const wsn_options *options,
                           const void *stream, size_t stream_size,
                           void *output, size_t output_size,
                           void *message, size_t message_size);

/* Shows what both sides of a capture said, in order, and how they closed. */
wsn_answer wsn_show(const wsn_options *options,
                    const void *capture, size_t capture_size,
                    void *output, size_t output_size,
                    void *message, size_t message_size);

/* Reports how a connection closed, from a capture of both sides. */
wsn_answer wsn_closing(const wsn_options *options,
                       const void *capture, size_t capture_size,
                       void *output, size_t output_size,
                       void *message, size_t message_size);

/* Gives the bytes that the role's endpoint sent in a capture, joined. */
wsn_answer wsn_sent(const wsn_options *options,
                    const void *capture, size_t capture_size,
                    void *output, size_t output_size,
                    void *message, size_t message_size);

/* Compares what two streams of endpoints of one role mean; shows no events. */
wsn_answer wsn_same(const wsn_options *options,
                    const void *first, size_t first_size,
                    const void *second, size_t second_size,
                    void *output, size_t output_size,
                    void *message, size_t message_size);

/*
 * Compares them, and where they differ also shows the first event of each that
 * does, and the place in their payloads; of a payload at most `view` bytes.
 */
wsn_answer wsn_same_view(const wsn_options *options,
                         const void *first, size_t first_size,
                         const void *second, size_t second_size,
                         void *output, size_t output_size,
                         void *message, size_t message_size);

/*
 * Writes the payload of one message, ping, pong or Close: unmasked, joined from
 * its frames. `at`: where its first frame begins, the offset in the stream, in
 * bytes from 0, that wsn_show and wsn_frames print. Status 0: it is complete.
 * 1: it isn't; `output` has what came of its payload, up to the offending byte
 * if it is refused, and `message` the verdict. 2: none begins there; `output`
 * is empty, and `message` says what is there, such as "nothing begins at 5; it
 * is in the text at 0" or, where the stream ends in a frame's head, "nothing
 * begins at 9 but a head: cut 10". Or 2 for the other reasons above.
 */
wsn_answer wsn_payload(const wsn_options *options,
                       const void *stream, size_t stream_size, uint64_t at,
                       void *output, size_t output_size,
                       void *message, size_t message_size);

/* Writes a stream's normal form: one frame a message, under a key of zeros. */
wsn_answer wsn_normal(const wsn_options *options,
                      const void *stream, size_t stream_size,
                      void *output, size_t output_size,
                      void *message, size_t message_size);

/*
 * Writes a stream without what was said: its redaction, as long as the stream.
 * Status 0 whatever the verdict.
 */
wsn_answer wsn_redact(const wsn_options *options,
                      const void *stream, size_t stream_size,
                      void *output, size_t output_size,
                      void *message, size_t message_size);

/*
 * Writes a capture without what was said: its redaction, of as many lines, with
 * those of both streams. Status 0 however the connection closed. At a faulty
 * line `output` has the redaction of the lines before it.
 */
wsn_answer wsn_redact_capture(const wsn_options *options,
                              const void *capture, size_t capture_size,
                              void *output, size_t output_size,
                              void *message, size_t message_size);

/* Prints how a stream is framed: its plan. */
wsn_answer wsn_plan(const wsn_options *options,
                    const void *stream, size_t stream_size,
                    void *output, size_t output_size,
                    void *message, size_t message_size);

/* Writes what a stream means in the frames of a plan. */
wsn_answer wsn_recut(const wsn_options *options,
                     const void *plan, size_t plan_size,
                     const void *stream, size_t stream_size,
                     void *output, size_t output_size,
                     void *message, size_t message_size);

/*
 * Writes what a stream means in frames of `size` bytes. `weave`, 0 or 1: the
 * controls directly before a split message go after its first frame. `key`: the
 * four bytes of each frame's key, or no bytes: for a client a key of zeros; a
 * server has none.
 */
wsn_answer wsn_recut_by_size(const wsn_options *options,
                             uint32_t size, uint8_t weave,
                             const void *key, size_t key_size,
                             const void *stream, size_t stream_size,
                             void *output, size_t output_size,
                             void *message, size_t message_size);

#ifdef __cplusplus
}
#endif

#endif
