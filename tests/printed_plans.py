"""Plans' texts with a malformed line, plans of streams, and recuts (printed.py makes tests of them; failing_streams.py lets
each read and write of the plans and recuts fail).
"""
# A text, the number of its first malformed line, and its fault.
FAULTS = (
    ("\n", 1, "bad-form"),
    ("last  -", 1, "bad-form"),
    ("control - two", 1, "bad-form"),
    ("control -\n\n", 2, "bad-form"),
    ("# a comment", 1, "bad-form"),
    ("Last -", 1, "bad-form"),
    (" last -", 1, "bad-form"),
    ("last - ", 1, "bad-form"),
    ("last", 1, "bad-form"),
    ("last - two two", 1, "bad-form"),
    ("piece 3", 1, "bad-form"),
    ("piece  -", 1, "bad-form"),
    ("piece 03 - two four", 1, "bad-form"),
    ("piece 03 -", 1, "bad-number"),
    ("piece x y", 1, "bad-number"),
    ("piece +3 -", 1, "bad-number"),
    ("piece -3 -", 1, "bad-number"),
    ("piece 3é -", 1, "bad-number"),
    ("piece 18446744073709551616 - four", 1, "bad-number"),
    ("piece 3 xyz", 1, "bad-key"),
    ("piece 3 xyz four", 1, "bad-key"),
    ("last 37fa213", 1, "bad-key"),
    ("last 37fa213d0", 1, "bad-key"),
    ("last 37fa213g", 1, "bad-key"),
    ("control -\r\n", 1, "bad-key"),
    ("last - four", 1, "bad-length"),
    ("last - Two", 1, "bad-length"),
    ("last - shortest", 1, "bad-length"),
    ("last -\nlast x\ncontrol", 2, "bad-key"),
)

# A message of 126 bytes, with its length in two bytes, and in eight.
TWO = bytes.fromhex("827e007e") + b"*" * 126
EIGHT = bytes.fromhex("827f000000000000007e") + b"*" * 126
# The endpoint, its stream, a plan, the status, the recut with any length encodings, and the line on standard error. The
# shortest encoding of a length has no other name.
RECUTS = (
    ("server", TWO, "last - two", 1, b"", "fault 0 wrong-form\n"),
    ("server", TWO, "last - eight", 0, EIGHT, ""),
    ("server", TWO, "last -", 0, TWO, ""),
    ("server", bytes.fromhex("810141"), "last - two", 0, bytes.fromhex("817e000141"), ""),
    ("server", bytes.fromhex("810141"), "last - eight", 0, bytes.fromhex("817f000000000000000141"), ""),
    ("client", bytes.fromhex("818500000000") + b"Hello", "last 37fa213d", 0,
     bytes.fromhex("818537fa213d7f9f4d5158"), ""),
)

# Nine messages of nine bytes of a server, each in two fragments, and their plan, which is also the plan by a size of 5
# bytes. What holds a message, the events and the steps grows more than once.
NINE_MESSAGES = b"\x01\x05Hello\x80\x04 you" * 9
NINE_PLAN = "piece 5 -\nlast -\n" * 9

THREE_KEYS = bytes.fromhex("018137fa213dd5 898000000001 0081ff0000007d 808100000000ac")
THREE_KEYS_PLAN = "piece 1 37fa213d\ncontrol 00000001\npiece 1 ff000000\nlast 00000000\n"
HELLO = bytes.fromhex("818537fa213d7f9f4d5158")
PING_HELLO = b"\x89\x00\x81\x05Hello"
PING_INSIDE = b"\x01\x03Hel\x89\x00\x80\x02lo"
ANY = ("--lengths", "any")

# The endpoint, options, its stream, and the stream's plan, or the line on standard error that says why there is none.
PLANS = (
    ("server", (), b"", "", ""),
    ("client", (), b"", "", ""),
    ("client", (), HELLO, "last 37fa213d\n", ""),
    ("server", (), PING_INSIDE, "piece 3 -\ncontrol -\nlast -\n", ""),
    ("client", (), THREE_KEYS, THREE_KEYS_PLAN, ""),
    ("server", (), b"\x88\x02\x03\xe8\x81\x01A", "control -\n", ""),
    ("server", (), b"\x01\x03Hel\x88\x02\x03\xe8", "", "unfinished\n"),
    ("server", (), b"\x01\x00\x88\x00", "", "unfinished\n"),
    ("server", ANY, b"\x81\x7e\x00\x01A", "last - two\n", ""),
    ("server", (), b"\x81\x01A\xc1", "", "refused 3 reserved-bits 1002\n"),
    ("server", (), b"\x01\x03Hel\x89\x00", "", "cut 7\n"),
    ("server", (), b"\x01\x00", "", "cut 2\n"),
    ("server", (), NINE_MESSAGES, NINE_PLAN, ""),
)

# The endpoint, options, its stream, a plan that fits, and the recut.
FITTING = (
    ("server", (), b"", "", b""),
    ("client", (), b"", "", b""),
    ("server", (), PING_HELLO, "piece 3 -\ncontrol -\nlast -", PING_INSIDE),
    ("server", (), PING_HELLO, "piece 5 -\ncontrol -\nlast -", b"\x01\x05Hello\x89\x00\x80\x00"),
    ("server", (), PING_HELLO, "control -\nlast -", PING_HELLO),
    ("client", (), b"\x81\x85\0\0\0\0Hello", "last 37fa213d", HELLO),
    ("client", (), b"\x89\x80\0\0\0\0\x81\x83\0\0\0\0\xe2\x82\xac", THREE_KEYS_PLAN, THREE_KEYS),
    # after a Close no step
    ("server", (), b"\x88\x02\x03\xe8\x81\x01A", "control -", b"\x88\x02\x03\xe8"),
    # an unfinished message is no event
    ("server", (), b"\x01\x03Hel\x88\x02\x03\xe8", "control -", b"\x88\x02\x03\xe8"),
    ("server", ANY, b"\x81\x01A", "last - two", b"\x81\x7e\x00\x01A"),
    ("server", ANY, b"\x81\x01A", "last - eight", b"\x81\x7f\0\0\0\0\0\0\0\x01A"),
    ("server", (), NINE_MESSAGES, NINE_PLAN, NINE_MESSAGES),
    # the digits of a key, in either case; the last line without its LF
    ("client", (), b"\x81\x81\0\0\0\0A", "last aBcDeF09", bytes.fromhex("8181abcdef09ea")),
    ("server", (), b"\x81\0" * 4, "last -\nlast -\nlast -\nlast -\n", b"\x81\0" * 4),
    ("server", (), b"\x81\x01A", "piece 0 -\nlast -\n", b"\x01\x00\x80\x01A"),
)

# The endpoint, options, its stream, a plan, and the line on standard error: the first wrong step of a plan that doesn't
# fit, or the verdict on a stream that isn't accepted, whatever the plan is.
UNFIT = (
    ("server", (), PING_HELLO, "", "fault 0 events-left\n"),
    ("server", (), PING_HELLO, "last -", "fault 0 not-a-message\n"),
    ("server", (), PING_HELLO, "control -", "fault 1 events-left\n"),
    ("server", (), PING_HELLO, "piece 6 -", "fault 0 piece-too-long\n"),
    ("server", (), PING_HELLO, "piece 18446744073709551615 -", "fault 0 piece-too-long\n"),
    ("server", (), PING_HELLO, "control -\ncontrol -", "fault 1 not-a-control\n"),
    ("server", (), PING_HELLO, "control 00000000", "fault 0 key-mismatch\n"),
    ("server", (), PING_HELLO, "control -\nlast -\nlast -", "fault 2 steps-left\n"),
    ("server", (), b"\x89\x00", "last -", "fault 0 no-message\n"),
    ("client", (), b"\x81\x85\0\0\0\0Hello", "last -", "fault 0 key-mismatch\n"),
    ("server", (), PING_HELLO, "piece 1 -\npiece 9 -", "fault 1 piece-too-long\n"),
    ("server", ("--frames", "2"), PING_HELLO, "piece 1 -\npiece 1 -", "fault 1 too-many-pieces\n"),
    # the length counts before the number of frames
    ("server", ("--frames", "2"), PING_HELLO, "piece 1 -\npiece 9 -", "fault 1 piece-too-long\n"),
    ("server", ("--frames", "1"), PING_HELLO, "piece 0 -", "fault 0 too-many-pieces\n"),
    ("server", (), b"\x81\x01A", "last - two", "fault 0 wrong-form\n"),
    ("server", (), b"\x81\x01A", "last - eight", "fault 0 wrong-form\n"),
    ("server", (), b"\xc1", "last -", "refused 0 reserved-bits 1002\n"),
    ("server", (), b"\x89\x00\xc1", "control -", "refused 2 reserved-bits 1002\n"),
    ("server", (), b"\x81", "last -", "cut 1\n"),
    ("server", (), b"\x01\x00", "piece 0 -", "cut 2\n"),
)

# The endpoint, options, its stream, the recut, and the line on standard error.
SIZED = (
    ("server", ("--size", "3", "--weave"), PING_INSIDE, PING_INSIDE, ""),
    ("server", ("--size", "2", "--weave"), PING_INSIDE, b"\x01\x02He\x89\x00\x00\x02ll\x80\x01o", ""),
    ("server", ("--size", "5", "--weave"), PING_INSIDE, PING_HELLO, ""),
    ("server", ("--size", "2", "--frames", "2"), PING_INSIDE, b"", "fault 2 too-many-pieces\n"),
    ("server", ("--size", "3", "--frames", "2"), PING_INSIDE, b"\x89\x00\x01\x03Hel\x80\x02lo", ""),
    ("client", ("--size", "2", "--key", "01020304"), HELLO,
     bytes.fromhex("0182010203044967 0082010203046d6e 8081010203046e"), ""),
    ("server", ("--size", "3", "--weave"), b"\x81\x01A\xc1", b"", "refused 3 reserved-bits 1002\n"),
    ("server", ("--size", "3", "--weave"), b"\x81\x01A\x01\x00", b"", "cut 5\n"),
    ("server", ("--size", "5", "--weave"), NINE_MESSAGES, NINE_MESSAGES, ""),
)
