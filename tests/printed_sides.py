"""Captures with a refused side, with a Close that accuses the other endpoint or has bytes after it, or with a wrong
handshake, and the hints that `wsn` prints. Each group is a test of tests/program, as those of printed_hints.py are.

Each row is also a row with --json, which has no hint.
"""
from printed import Group
from printed_hints import MAYBE_COMPRESSED, NEVER_MASKED, NOT_UTF8, WRONG_HANDSHAKE, HintRow

COMPRESSED = "compressed: recipes/inflate "
NOT_AGREED = "compressed, not agreed on: "
AFTER_CLOSE = "the {} sent bytes after its Close: ".format

# The most bytes of a capture's start that a hint is by.
KEPT = 65_536

# "Hello", compressed (RFC 7692, 7.2.3.1), from both endpoints; comments of a handshake.
CLIENT_HELLO = "C c187912ec62e63660be75829c6\n"
SERVER_HELLO = "S c107f248cdc9c90700\n"
AGREED = "# extensions: permessage-deflate\n"
ANSWER = "# answer: HTTP/1.1 101\n"
BITS = "reserved-bits 1002"
TEXT = "text-bad 1007"

# A capture; of each endpoint that is refused the offset and the reason, and the hint where its side alone is read; and
# the hint where both are read, as in the rows of `a_refused_side_of_a_capture_has_a_hint` in tests/program. The bytes
# `c9`, `a1` and `e1` have other bits than those of a compressed frame, or another opcode.
COMPRESSED_SIDES = (
    ("# extensions: permessage-deflate; client_max_window_bits=12\n" + CLIENT_HELLO + SERVER_HELLO,
     {"client": (f"0 {BITS}", COMPRESSED), "server": (f"0 {BITS}", COMPRESSED)}, COMPRESSED),
    ("# 0.000120\nC 8180000000\nC 00\nS 8900\nS 4103f248\nS cd", {"server": (f"2 {BITS}", MAYBE_COMPRESSED)},
     MAYBE_COMPRESSED),
    ("# extensions: x-other, permessage-deflate\r\nS 8900\r\nS c103f248cd\r\n", {"server": (f"2 {BITS}", COMPRESSED)},
     COMPRESSED),
    (AGREED + "S 8900\nS a103f248cd\n", {"server": (f"2 {BITS}", None)}, None),
    (AGREED + "S c1", {"server": (f"0 {BITS}", COMPRESSED)}, COMPRESSED),
    ("# path: /permessage-deflate\nS a103f248cd\n", {"server": (f"0 {BITS}", None)}, None),
    ("# path: /permessage-deflate\nS c1\n", {"server": (f"0 {BITS}", MAYBE_COMPRESSED)}, MAYBE_COMPRESSED),
    ("S c900\nC a18500000000\n", {"client": (f"0 {BITS}", None), "server": (f"0 {BITS}", None)}, None),
    ("S c187912ec62e63660be75829c6\nC e185", {"client": (f"0 {BITS}", None), "server": (f"0 {BITS}", MAYBE_COMPRESSED)},
     MAYBE_COMPRESSED),
    ("# answer: HTTP/2 200\r\n# extensions: x-other\r\n" + CLIENT_HELLO.replace("\n", "\r\n"),
     {"client": (f"0 {BITS}", NOT_AGREED)}, NOT_AGREED),
    (ANSWER + AGREED + SERVER_HELLO, {"server": (f"0 {BITS}", COMPRESSED)}, COMPRESSED),
    (ANSWER + "S a107f248cdc9c90700\n", {"server": (f"0 {BITS}", None)}, None),
    ("# the answer: HTTP/1.1 101\n" + SERVER_HELLO + "# answered: no\n", {"server": (f"0 {BITS}", MAYBE_COMPRESSED)},
     MAYBE_COMPRESSED),
)

# Frames with the mask of the other endpoint's (RFC 6455, 5.1), of one side alone, or later than the first.
MASKED_SIDES = (
    ("C 810548656c6c6f\nS 8900\n", {"client": ("1 mask-missing 1002", None)}, None),
    ("S 818500000000\nC 898000000000\n", {"server": ("1 mask-present 1002", None)}, None),
    ("C 818000000000\nC 8900\nS 8900\nS 818000000000\n",
     {"client": ("7 mask-missing 1002", None), "server": ("3 mask-present 1002", None)}, None),
)

# A text of the client: its length in two bytes, another frame after it; in two frames, of which the first has a text as it
# was sent and the second the bad byte; with a byte, 7f, that isn't of a text in ASCII; under keys of zeros.
TEXT_SIDES = (
    ("C 81fe007e9c0102034865\n", {"client": (f"9 {TEXT}", NEVER_MASKED)}, NEVER_MASKED),
    ("C 81829c0102034865\nC 818000000000\n", {"client": (f"7 {TEXT}", NEVER_MASKED)}, NEVER_MASKED),
    ("C 0182202020204865\nC 80810102030480\n", {"client": (f"14 {TEXT}", NOT_UTF8)}, NOT_UTF8),
    ("C 81859c01020348656c6c7f\n", {"client": (f"7 {TEXT}", NOT_UTF8)}, NOT_UTF8),
    ("C 018100000000c3\nC 80810000000041\n", {"client": (f"13 {TEXT}", NOT_UTF8)}, NOT_UTF8),
)

# A text of the server, which has no key; both sides, of which one hint is given, the likelier; no refused side.
OTHER_SIDES = (
    ("S 810548656c6c6f\nS 81074772fcdf656e21\nC 888200000000\n", {"server": (f"11 {TEXT}", NOT_UTF8)}, NOT_UTF8),
    ("S 0101c3800141\n", {"server": (f"5 {TEXT}", NOT_UTF8)}, NOT_UTF8),
    ("C 818100000000ff\n" + SERVER_HELLO,
     {"client": (f"6 {TEXT}", NOT_UTF8), "server": (f"0 {BITS}", MAYBE_COMPRESSED)}, MAYBE_COMPRESSED),
    ("C 818100000000ff\nS 8801ff\n", {"client": (f"6 {TEXT}", NOT_UTF8), "server": ("1 close-one-byte 1002", None)},
     NOT_UTF8),
    (SERVER_HELLO + "C 818000000000\nC 01859c01\nC 020348656c",
     {"client": (f"13 {TEXT}", NEVER_MASKED), "server": (f"0 {BITS}", MAYBE_COMPRESSED)}, NEVER_MASKED),
    ("S 8900\nC 818000000000\n", {}, None),
)

# What is kept of a capture ends after the first of these texts, inside a line that goes on with the second: the offending
# byte is known if it is among what is kept and in a line that is one so far. The side that is read, the offset and the
# reason, and the hint.
CUT_STARTS = (
    ("S 8900\n" + SERVER_HELLO + "C 8", "18000000000\n", "server", f"2 {BITS}", MAYBE_COMPRESSED),
    ("S 8900\nS c1", "07f248cdc9c90700\n", "server", f"2 {BITS}", MAYBE_COMPRESSED),
    ("S 8900\nS c", "107f248cdc9c90700\n", "server", f"2 {BITS}", None),
    ("S 8900\nS c107f", "248cdc9c90700\n", "server", f"2 {BITS}", None),
    (AGREED + "S 8900\nS c107f", "248cdc9c90700\n", "server", f"2 {BITS}", COMPRESSED),
    ("S 8900\nS ", "c107f248cdc9c90700\n" + AGREED, "server", f"2 {BITS}", None),
    ("C 81859c0102034865", "6c6c6f\n", "client", f"7 {TEXT}", NEVER_MASKED),
    ("C 81859c010203486", "56c6c6f\n", "client", f"7 {TEXT}", NOT_UTF8),
    ("C 81859c01020348", "656c6c6f\n", "client", f"7 {TEXT}", NOT_UTF8),
)


def says(role, code):
    """The hint on a Close with this code, which accuses the other endpoint (RFC 6455, 7.4.1)."""
    other = {"client": "server", "server": "client"}[role]
    if code == 1009:
        return "the {} says 1009; is its limit below --limit? 'wsn explain 1009'".format(role)
    return f"the {role} says {code}; the {other}'s bytes break no rule: 'wsn explain {code}'"


# A capture, some lines of its report, and the hint. An echo accuses nobody, nor does a Close against a side that is
# refused, or with a code that says what its own sender did.
ACCUSED = (
    ("S 8900\nC 88820000000003ea\n", ("client closed 1002", "server running"), says("client", 1002)),
    ("C 88820000000003ef\nS.\n", ("client closed 1007", "server ended"), says("client", 1007)),
    ("C 81\nS 880203f1\nC.\n", ("client cut", "server closed 1009"), says("server", 1009)),
    ("C 88820000000003e8\nS 880203ea\n", ("first client", "echo no"), says("server", 1002)),
    ("C 88820000000003ef\nS 880203ef\n", ("first client", "echo yes"), says("client", 1007)),
    ("S 880203ef\nC 88820000000003ef\n", ("first server", "echo yes"), says("server", 1007)),
    ("S 880203ea\nC 88820000000003f1\n", ("first server", "echo no"), says("client", 1009)),
    ("C 88820000000003ea\nS 8801ff\n", ("client closed 1002", "server refused 1 close-one-byte 1002"), None),
    ("S 880203ef\nC 88810000000000\n", ("client refused 1 close-one-byte 1002", "server closed 1007"), None),
    ("C 88820000000003f3\nS 880203e8\n", ("client closed 1011", "server closed 1000"), None),
    ("C 88820000000003eb\nS 880203e8\n", ("client closed 1003", "server closed 1000"), None),
    ("C 888000000000\nS 81\nS.\n", ("client closed -", "server cut"), None),
    ("S.\n", ("client running", "server ended"), None),
)

# A server's stream with bytes after its Close, under a wrong handshake; a client's, and a server's that is refused.
WRONG = "# accept is wrong\nS 88008900\nC.\n"
REFUSED = "C 88800000000000\n" + SERVER_HELLO
# A capture, and the hint of `show` and of `closing`, which says of bytes after a Close that they are there.
REPORTED = (
    (WRONG, WRONG_HANDSHAKE, WRONG_HANDSHAKE),
    ("# accept is wrong\nC 88820000000003ea\nS 88008900\n", WRONG_HANDSHAKE, WRONG_HANDSHAKE),
    ("S 88008900\nC 88820000000003ea\n", None, AFTER_CLOSE("server")),
    ("C 888000000000\nS 8800\n", None, None),
    ("C 888000000000\nS 880089\n", None, AFTER_CLOSE("server")),
    ("C 88800000000081\nS 8800\n", None, AFTER_CLOSE("client")),
    ("C 88800000000081\nS 880089\n", None, AFTER_CLOSE("client")),
    # a refused side counts more
    (REFUSED, MAYBE_COMPRESSED, MAYBE_COMPRESSED),
    # so does a line that isn't accepted
    (WRONG + "X\n", None, None),
)


def rows_of(words, given, hint, lines):
    """The run in words, with these lines of its answer, and in JSON."""
    return [HintRow(words, given, hint, lines=lines), HintRow([*words, "--json"], given, None)]


def of_both(given, hint, lines=()):
    """A capture, of which both sides are read."""
    return [row for command in ("show", "closing") for row in rows_of([command], given, hint, lines)]


def of_side(role, given, hint, *lines):
    """A capture, of which the side of one endpoint is read."""
    return rows_of(["judge", "--role", role, "--capture"], given, hint, lines)


def of_refused(table):
    for given, sides, hint in table:
        yield from of_both(given, hint, tuple(f"{role} refused {refusal}" for role, (refusal, _) in sides.items()))
        for role, (refusal, of_one) in sides.items():
            yield from of_side(role, given, of_one, f"refused {refusal}")
        for role in {"client", "server"} - {*sides}:
            yield HintRow(["judge", "--role", role, "--capture"], given, None)


def comments_of(size):
    """Comments, and perhaps an empty line, of this many bytes."""
    lines, rest = divmod(size, 64)
    return ("#" + "-" * 62 + "\n") * lines + ("#" * (rest - 1) + "\n" if rest else "")


def of_cut():
    for kept, later, role, refusal, hint in CUT_STARTS:
        yield from of_side(role, comments_of(KEPT - len(kept)) + kept + later, hint, f"refused {refusal}")


def of_reports():
    for given, shown, closed in REPORTED:
        for command, hint in (("show", shown), ("closing", closed)):
            yield from rows_of([command], given, hint, ())
    # A command that reads one side has a hint on what is refused of it alone.
    yield from of_side("server", WRONG, None, "accepted 2 tail 2 unfinished -")
    yield from of_side("client", REFUSED, None, "accepted 6 tail 1 unfinished -")
    yield from of_side("server", REFUSED, MAYBE_COMPRESSED, f"refused 0 {BITS}")


GROUPS = (
    Group("a_side_with_rsv1_is_compressed", "a refused byte with RSV1, and what the comments say of extensions",
          list(of_refused(COMPRESSED_SIDES))),
    Group("sides_are_exchanged_if_both_have_the_masks_of_the_other", "the mask of one side alone says nothing of both",
          list(of_refused(MASKED_SIDES))),
    Group("a_text_of_the_client_was_never_masked_or_is_no_utf8", "it was never masked if its payload was sent in ASCII",
          list(of_refused(TEXT_SIDES))),
    Group("other_refused_sides_have_the_likeliest_hint", "of both sides one hint is given", list(of_refused(OTHER_SIDES))),
    Group("the_first_65_536_bytes_of_a_capture_are_looked_at", "and no further one, and of a line whole bytes",
          list(of_cut())),
    Group("a_close_accuses_an_endpoint_that_is_not_refused", "by its code, if it is no echo",
          [row for given, lines, hint in ACCUSED for row in of_both(given, hint, lines)]),
    Group("a_report_has_one_hint", "on its handshake, on bytes after a Close, or on a Close that accuses",
          list(of_reports())),
)
