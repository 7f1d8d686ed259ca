"""Inputs that aren't what a command reads, frames of the other endpoint, and the hints that `wsn` prints. Each group is
a test of tests/program, as those of printed.py are.

A row has the words after `wsn`, the input, and how the hint begins; None if there is no hint.
"""
import random
from typing import NamedTuple

from printed import Group

EMPTY = "no byte came"
HTTP_HEAD = "this begins with an HTTP head: "
CAPTURE = "this looks like a capture of both sides: add --capture"
DIGITS = "these are hexadecimal digits: "
XXD_DUMP = "this is a dump by xxd: "
DUMP = "a dump by hexdump or od: "
PCAP = "a pcap file; "
PCAPNG = "a pcapng file; "
GZIP = "this is compressed by gzip: "
TLS = "this is TLS: "
MARK = "this begins with a byte order mark: "
COMPRESSED_FRAME = "compressed: "
STREAM = "this is what one endpoint sent, and no capture: "
TEXT = "this looks like text; "
OF_A_CLIENT = "masked, as a client's frames are: "
OF_A_SERVER = "not masked, as a server's frames: "
JSON = "JSON; "
SMALL_LETTERS = "a line begins with a capital C or S: "
BLANKS = "blanks between digits: "
OTHER_TEXT = "text, but no capture, "
BINARY = "binary, or text in UTF-16; "

OF_SHOW = "this looks like a capture of both sides: leave out --role"
WRONG_HANDSHAKE = "the handshake's answer is wrong: "
NEVER_MASKED = "as it was sent, the text is plain ASCII under a key: was it never masked?"
NOT_UTF8 = "a text isn't UTF-8: "
MAYBE_COMPRESSED = "compressed? "

# What files begin with: pcap's four marks, by time stamps and byte order; pcapng's section header; gzip's magic and
# method; a ClientHello's and an alert's TLS record; a byte order mark in UTF-8.
FORMATS = (
    ("d4c3b2a1020004000000000000000000", PCAP), ("a1b2c3d400020004", PCAP), ("4d3cb2a1", PCAP), ("a1b23c4d", PCAP),
    ("0a0d0d0a1c0000004d3c2b1a", PCAPNG), ("1f8b0800000000000003", GZIP), ("1603010200010001fc0303", TLS),
    ("15030300020228", TLS), ("1703030013", TLS), ("efbbbf43203831", MARK),
)

# Texts that are neither a stream nor a capture: heads of HTTP, digits as `xxd -p` and `tshark` print them, dumps by
# `xxd`, `hexdump -C`, `od -t x1` and `od -A x -t x1`.
TEXTS = (
    ("HTTP/1.1 101 Swi", HTTP_HEAD), ("GET /chat HTTP/1", HTTP_HEAD), ("POST /ws HTTP/1.", HTTP_HEAD),
    ("OPTIONS * HTTP/1", HTTP_HEAD), ("810548656c6c6f81", DIGITS), ("81 05 48\r\n", DIGITS),
    ("C1:05:48:65:6c:6", DIGITS), ("8105", DIGITS), ("00000000: 8105 4", XXD_DUMP), ("00000000  81 05 ", DUMP),
    ("0000000 81 05 48", DUMP), ("000000 81 05 48 ", DUMP), ("00000000  8a    ", DUMP),
    ("0000000 8a\n00000", DUMP),
)

CAPTURES = (
    "C 8180\nS 8100\n", "S 8900", "# seconds\nC 8180", "C.", "S.\nC.\n", "C.\r\n", "S 8aFf",
)

# Text that is nothing known, in ASCII, and the hint where a capture is read: `A` and `B` have the bits of a compressed
# frame. The last two are dumps by `hexdump` and `od` of units that aren't bytes.
UNKNOWN = (
    ("Connection close", OTHER_TEXT), ("Slow", OTHER_TEXT), ("#!/bin/sh", None), ("Bad Gateway", OTHER_TEXT),
    ("A log line", OTHER_TEXT), ('{"type":1}', JSON), ("get / http/1.1", OTHER_TEXT),
    ("2026-11-26 10:00", OTHER_TEXT), ("\r\n\tB", None), ("0000000 0581 654", OTHER_TEXT),
    ("0000000 002601 0", OTHER_TEXT),
)

# First lines that are nearly lines of a capture, and lines that are, or are wrong in another way.
LINES = (
    ('{"log": {"version', JSON), ('{\n  "log": {\n', JSON), ("c 818537fa213d7f", SMALL_LETTERS),
    ("s 81 05 48\n", SMALL_LETTERS), ("s.\nc.\n", SMALL_LETTERS), ("C 81 85 37 fa 21", BLANKS),
    ("S 8105:4865:6c6c", BLANKS), ("S 89 00\nC.", BLANKS), ("S  8900\n", BLANKS), ("S 8900 \n", BLANKS),
    ("S 8900\nC 81 85", None), ("C 0x8185\n", None), ("C 818\n", None), ("c 8", SMALL_LETTERS),
    ("client 8185\n", OTHER_TEXT),
)

# Too little of a text, and a text with a byte that isn't ASCII or is a control character; the hint where a capture is
# read.
UNSURE = (
    ("C", None), ("Ab\n", None), ("Café at 10:00", None), ("\x1b[1mBad", None), ("Sad\x00", BINARY),
)

# Files that are no text: a program (ELF), an archive (zip), a text in UTF-16.
BINARIES = (
    "7f454c46020101000000000000000000", "504b0304140000000800", "fffe430020003800",
)

# Frames that only this endpoint sends: a client masks its frames, and a server doesn't.
OWN = (
    ("810548", "server"), ("818537", "client"), ("0100", "server"), ("888201020304", "client"), ("8900", "server"),
    ("82ff80", "client"),
)

# Compressed frames of this endpoint.
COMPRESSED = (
    ("c107f2", "server"), ("c18737", "client"), ("41fe01", "client"), ("c27e01", "server"),
)

# A control with RSV1, frames with other bits or of a wrong length, and a continuation without a message.
OTHERS = (
    "c98001", "f18001", "8801", "89fe", "0080",
)

# Streams where a capture is read: of each endpoint; one byte, and bytes with which no stream begins.
SENT = (("810548", STREAM), ("818537", STREAM), ("81", None), ("ff85", None))

# What a plan begins with.
PLANS = ((b"\xef\xbb\xbfl", MARK), (b"last -\r\n", None), (b"\xd4\xc3\xb2\xa1", None), (b"\xef\xbb", None), (b"", None))

# A server's ping and a client's, an empty stream, and an HTTP head: two streams, and the hint on them.
PING, MASKED = bytes.fromhex("8900"), bytes.fromhex("8980")
STREAMS = (
    (b"", MASKED, "FIRST is empty: check it, or the command before the pipe"),
    (PING, MASKED, "SECOND is masked: did a client send it? --role client"),
    (b"GET / HTTP/1.1", PING, "FIRST begins with an HTTP head: remove it, LC_ALL=C sed '1,/^\\r$/d'"),
    (PING, PING, None),
)

# A faulty capture, and a stream where a capture is read: two files, and the hint on them.
FAULTY = b"S 8900\nS 8\n"
SIDES = (
    (b"S 8900\n", FAULTY, "this line is in SECOND"),
    (PING, b"S 8900\n", "FIRST is what one endpoint sent, and no capture: leave out --capture"),
)

# Comments that say what is wrong with the answer to a handshake, and others.
HANDSHAKES = (
    ("# accept is wrong\nS.\nC.\n", WRONG_HANDSHAKE), ("# path: /\r\n# accept is wrong\r\n", WRONG_HANDSHAKE),
    ("S 8900\n# subprotocol mqtt was not offered\n", WRONG_HANDSHAKE),
    ("# extension permessage-deflate was not offered", WRONG_HANDSHAKE), ("# accept is wrong?\n", None),
    ("# the accept is wrong\n", None), ("# subprotocol: mqtt\n", None), ("# no extension x was not offered\n", None),
)

# The last line of a long capture, which has the offending byte; what comes before the line is more than what is kept of
# a capture.
LATE = (
    ("C 81859c01020348656c6c6f\n", NEVER_MASKED), ("C 8180000000008188a10203044465204e20c3a9c3", NOT_UTF8),
    ("C 818200000000e963\n", NOT_UTF8), ("C 81839c010203d5e861\n", NOT_UTF8),
    ("C 8180000000008185a1020304446520c3c3\n", NOT_UTF8),
    ("C 818000000000c187912ec62e63660be75829c6\n", MAYBE_COMPRESSED), ("C a187912ec62e63660be75829c6\n", None),
    ("C 89809c0102038185\nC 9c01020348656c6c6f\n", NOT_UTF8),
)


class HintRow(NamedTuple):
    """A run, and how its hint begins. The files, if there are any, are named after the words, in place of an input.
    Standard output has these lines, perhaps among others."""

    words: list
    given: bytes
    hint: object
    files: tuple = ()
    lines: tuple = ()


def bytes_of(given):
    return given if isinstance(given, bytes) else given.encode()


def stream(given, role, hint, *options):
    return HintRow(["judge", "--role", role, *options], bytes_of(given), hint)


def both(given, hint):
    """A stream, whoever sent it."""
    return [stream(given, role, hint) for role in ("client", "server")]


def capture(given, hint):
    return HintRow(["closing"], bytes_of(given), hint)


def named():
    for given, hint in [*[(bytes.fromhex(digits), hint) for digits, hint in FORMATS], *TEXTS]:
        yield from [*both(given, hint), capture(given, hint)]


def frames():
    other = {"client": ("server", OF_A_CLIENT), "server": ("client", OF_A_SERVER)}
    for digits, role in OWN:
        peer, hint = other[role]
        yield from [stream(bytes.fromhex(digits), role, None), stream(bytes.fromhex(digits), peer, hint)]
    for digits, role in COMPRESSED:
        yield stream(bytes.fromhex(digits), role, COMPRESSED_FRAME)
        yield stream(bytes.fromhex(digits), other[role][0], None)
    for digits in OTHERS:
        yield from both(bytes.fromhex(digits), None)


def is_head(first, second):
    """By RFC 6455, 5.2, whether a stream may begin with these two bytes, but for the MASK bit."""
    length = second & 0x7F
    if first == 0x88:
        return length < 126 and length != 1
    return length < 126 if first in (0x89, 0x8A) else first in (0x01, 0x02, 0x81, 0x82)


def random_streams():
    """Streams until a thousand are refused by their first two bytes, read as a client's. Only those have a hint that begin
    with a server's frame, or with a client's that has RSV1."""
    numbers, refused = random.Random(20_261_125), 0
    while refused < 1_000:
        given = numbers.randbytes(16)
        first, second = given[:2]
        is_client = second >= 0x80
        hint = None
        if is_head(first, second) and not is_client:
            hint = OF_A_SERVER
        elif first & 0x78 == 0x40 and is_head(first & 0xBF, second) and is_client:
            hint = COMPRESSED_FRAME
        refused += not (is_head(first, second) and is_client)
        yield stream(given, "client", hint)


def compared(table, *options):
    """Two inputs; in JSON no hint is printed."""
    for first, second, hint in table:
        for words, said in (([], hint), (["--json"], None)):
            yield HintRow(["same", "--role", "server", *options, *words], b"", said, (first, second))


GROUPS = (
    Group("formats_are_named", "what a stream and a capture are both mistaken for", list(named())),
    Group("captures_are_named_where_a_stream_is_read", "captures are no streams, and have no hint where one is read",
          [row for given in CAPTURES for row in [*both(given, CAPTURE), capture(given, None)]]),
    Group("other_texts_are_no_bytes_of_an_endpoint", "a text that is nothing known has a hint",
          [row for given, hint in UNKNOWN for row in [*both(given, TEXT), capture(given, hint)]]),
    Group("a_line_that_is_nearly_one_of_a_capture_has_a_hint", "the hint says how to make lines of a capture of it",
          [capture(given, hint) for given, hint in LINES]),
    Group("what_may_be_no_text_has_no_hint", "too little of a text, or a text with other bytes",
          [row for given, hint in UNSURE for row in [*both(given, None), capture(given, hint)]]),
    Group("a_file_that_is_no_text_has_a_hint_where_a_capture_is_read", "a capture is a text", [
        *[row for digits in BINARIES
          for row in (capture(bytes.fromhex(digits), BINARY), stream(bytes.fromhex(digits), "server", None))],
        capture(bytes.fromhex("43200000"), None),
        capture(bytes.fromhex("23000000"), None),
    ]),
    Group("an_empty_input_has_a_hint", "no byte came; a capture without bytes of an endpoint has none",
          [stream("", "server", EMPTY), capture("", EMPTY), capture("# no bytes\nC.\nS.\n", None)]),
    Group("frames_are_compressed_or_of_the_other_endpoint", "the hint is by the first frame", list(frames())),
    Group("a_stream_is_no_capture", "it begins as that of an endpoint may",
          [capture(bytes.fromhex(digits), hint) for digits, hint in SENT]),
    Group("a_plan_has_a_hint_for_a_byte_order_mark_alone", "what else it begins with has none",
          [HintRow(["recut", "--role", "server", "-", "--plan"], PING, hint, (plan,)) for plan, hint in PLANS]),
    Group("random_streams_have_the_hints_of_their_first_bytes", "of the other endpoint, compressed, or none",
          list(random_streams())),
    Group("a_frame_past_the_limit_has_no_hint", "it is longer than a message may be, whoever sent it",
          [stream(b"\x81\x05", role, None, "--limit", "4") for role in ("server", "client")]),
    Group("a_hint_at_a_capture_suits_the_command",
          "show has no option --capture, and takes a capture without --role, as redact does", [
              HintRow(["show", "--role", "client"], b"C 8180\n", OF_SHOW),
              HintRow(["redact", "--role", "client"], b"C 8180\n", OF_SHOW),
              HintRow(["judge", "--role", "client"], b"C 8180\n", CAPTURE),
              HintRow(["show", "--role", "client"], b"\x81\x05", OF_A_SERVER),
          ]),
    Group("a_hint_says_which_of_two_streams_it_is_about", "or which is empty", list(compared(STREAMS))),
    Group("a_hint_says_which_of_two_captures_has_the_line", "or which is none", list(compared(SIDES, "--capture"))),
    Group("a_wrong_handshake_has_a_hint_by_its_comments", "they are those that the recipes write",
          [capture(given, hint) for given, hint in HANDSHAKES]),
    Group("a_side_that_is_refused_late_is_judged_by_its_line", "the answer has the line with the offending byte",
          [capture("C 8185000000004848484848\n" * 4_000 + line, hint) for line, hint in LATE]),
)
