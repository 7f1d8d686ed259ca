"""What the program prints of whole inputs, in tables. Each group is a test of tests/program, which names the rows that
fail.

A row has the words after `wsn`, the input, and what is expected: the status, standard output and, without hints,
standard error. Inputs are captures as text, or streams in hexadecimal.
"""
from typing import NamedTuple

from printed_captures import (
    BAD_CHARACTERS, COMMENTS, CONTROLS_AND_TAILS, ENDED_BY, EVENTS, FRAMES, HIDDEN, LEFT_OVER, OPEN, REFUSALS,
    TIMES_AT_THE_END, VIEWS_OF_BYTES, VIEWS_OF_TEXT,
)
from printed_objects import COMPARISONS, ENTRIES, LONG_FRAMES, LONG_FRAMES_OBJECTS, REPORTS, VERDICTS
from printed_payloads import (
    PAYLOADS, masked_messages, verdicts_after_each_byte, verdicts_of_a_long_text, verdicts_of_codes, verdicts_of_texts,
)
from printed_plans import FAULTS as PLAN_FAULTS, FITTING, PLANS, RECUTS, SIZED, UNFIT
from printed_streams import BAD_CHARACTERS_OF_STREAMS, CLOSES, HEADS, LENGTHS, STREAMS, WRITTEN


class Row(NamedTuple):
    """A run. The files, if there are any, are named after the words, in place of an input."""

    words: list
    given: object
    status: int
    out: object
    error: str = ""
    files: tuple = ()


class Group(NamedTuple):
    """The name of a test, the sentence that its rows show, and the rows."""

    name: str
    shows: str
    rows: list


def of_captures(table, *words):
    """Captures shown, each with its report, whose status is 1."""
    return [Row(["show", *words], given, 1, lines + report) for given, lines, report in table]


def of_views(table):
    return [Row(["show", "--view", str(view)], given, 1, lines + report) for view, given, lines, report in table]


def of_one_message(given, entry, table):
    """One message, of which no more than so many bytes are shown."""
    return [Row(["show", "--view", str(view)], given, 1, f"{entry} {shown}\n{OPEN}") for view, shown in table]


def of_hidden(digits, quoted):
    """A server's text with these bytes."""
    size = len(digits) // 2
    return Row(["show"], f"S 81{size:02x}{digits}\n", 1, f'S - 0 text {size} 1 "{quoted}"\n{OPEN}')


def of_bad_characters():
    """In words, and as objects."""
    for role, view, digits, lines, verdict, objects, verdict_object in BAD_CHARACTERS_OF_STREAMS:
        words = ["show", "--role", role, "--view", str(view)]
        yield Row(words, bytes.fromhex(digits), 1, lines + verdict)
        yield Row([*words, "--json"], bytes.fromhex(digits), 1, objects + verdict_object)


# A time, a comment, a frame in two lines, a refusal, bytes after it, and both ends.
SESSION = "# 0.5\n# both\nC 81820000\nC 00004869\n\nS 890161\nS 8180ff\nS.\nC 8880\nC.\n"
REPORT = (
    '{"type":"report","client":{"state":"cut"},"server":{"state":"refused","offset":4,"reason":"mask-present",'
    '"code":1002},"first":null,"echo":null,"client_sees":1006,"server_sees":1006,"outcome":"failed"}\n'
)
VERDICT = (
    '{"type":"verdict","verdict":"cut","used":6,"unfinished":1,"frames":2,"messages":0,"pings":1,"pongs":0}\n'
)
# A Close with a reason, and a tail; a text in a fragment, a ping, and a head that is cut.
CLOSED = bytes.fromhex("880503e8627965aa")
UNFINISHED = bytes.fromhex("010148890080")
OBJECTS = [
    Row(["show", "--json"], SESSION, 1,
        '{"type":"comment","line":2,"text":" both"}\n'
        '{"type":"event","line":4,"side":"client","time":0.5,"offset":0,"event":"text","bytes":2,"frames":1,'
        '"text":"Hi"}\n'
        '{"type":"event","line":6,"side":"server","time":0.5,"offset":0,"event":"ping","bytes":1,"frames":1,'
        '"text":"a"}\n'
        '{"type":"refused","line":7,"side":"server","time":0.5,"offset":3,"place":4,"reason":"mask-present",'
        '"code":1002,"hex":"8180"}\n'
        '{"type":"unread","line":8,"side":"server","time":0.5,"offset":5,"bytes":1,"hex":"ff"}\n'
        '{"type":"end","line":8,"side":"server","time":0.5,"offset":6}\n'
        '{"type":"unfinished","line":10,"side":"client","time":0.5,"offset":8,"event":"head","bytes":0,'
        '"frames":0,"lacks":null,"hex":""}\n'
        '{"type":"end","line":10,"side":"client","time":0.5,"offset":10}\n'
        '{"type":"ended-by","side":"server","reset":false}\n'
        + REPORT),
    Row(["closing", "--json"], SESSION, 1, REPORT),
    Row(["show", "--json"], "# 1.5\nS 810361e9\nS 20\n", 1,
        '{"type":"refused","line":3,"side":"server","time":1.5,"offset":0,"place":4,"reason":"text-bad",'
        '"code":1007,"hex":"61e920","character":{"offset":3,"in_payload":1,"hex":"e920","before":"a"}}\n'
        '{"type":"report","client":{"state":"running"},"server":{"state":"refused","offset":4,'
        '"reason":"text-bad","code":1007},"first":null,"echo":null,"client_sees":1006,"server_sees":null,'
        '"outcome":"failed"}\n'),
    Row(["show", "--wire", "--json"], "# 1.5\nS 820300ff\n# 2.5\n", 1,
        '{"type":"frame","line":2,"side":"server","time":1.5,"offset":0,"fin":true,"opcode":"binary","key":null,'
        '"length":3,"form":"shortest"}\n'
        '{"type":"unfinished","side":"server","time":1.5,"offset":0,"event":"binary","bytes":2,"frames":1,'
        '"lacks":1,"hex":"00ff"}\n'
        '{"type":"report","client":{"state":"running"},"server":{"state":"running"},"first":null,"echo":null,'
        '"client_sees":null,"server_sees":null,"outcome":"open"}\n'),
    Row(["show", "--role", "server", "--json"], CLOSED, 0,
        '{"type":"event","side":"server","offset":0,"event":"close","bytes":5,"frames":1,"code":1000,'
        '"reason":"bye"}\n'
        '{"type":"tail","side":"server","offset":7,"bytes":1,"hex":"aa"}\n'
        '{"type":"verdict","verdict":"accepted","used":7,"tail":1,"unfinished":null,"frames":1,"messages":0,'
        '"pings":0,"pongs":0,"close":{"code":1000}}\n'),
    Row(["frames", "--role", "server", "--json"], UNFINISHED, 1,
        '{"type":"frame","offset":0,"fin":false,"opcode":"text","key":null,"length":1,"form":"shortest"}\n'
        '{"type":"frame","offset":3,"fin":true,"opcode":"ping","key":null,"length":0,"form":"shortest"}\n'
        + VERDICT),
    Row(["judge", "--role", "server", "--json"], UNFINISHED, 1, VERDICT),
]

# Lines of both sides, without an LF at the end, and what each of them sent.
BOTH = "C 818500000000\r\nS 8900\n# both\nC 48656c6c6f\nS 0102\nS 4869\n\nS.\nC 8980\nC 00000000"
BOTH_CLIENT = bytes.fromhex("81850000000048656c6c6f898000000000")
BOTH_SERVER = bytes.fromhex("890001024869")
CLIENT_FRAMES = "0 fin text 00000000 5\n11 fin ping 00000000 0\n"
SERVER_FRAMES = "0 fin ping - 0\n2 more text - 2\n"
# What is printed of each side: the command, and for each endpoint the status, standard output and standard error.
OF_BOTH = (
    ("judge", (0, "accepted 17 tail 0 unfinished -\n"), (1, "cut 6\n")),
    ("frames", (0, CLIENT_FRAMES + "accepted 17 tail 0 unfinished -\n"), (1, SERVER_FRAMES + "cut 6\n")),
    ("normal", (0, BOTH_CLIENT), (1, bytes.fromhex("8900"), "cut 6\n")),
    ("redact", (0, bytes.fromhex("818500000000") + b"Xxxxx" + bytes.fromhex("898000000000")),
     (0, bytes.fromhex("89000102") + b"Xx")),
    ("plan", (0, "last 00000000\ncontrol 00000000\n"), (1, "", "cut 6\n")),
)


def of_both():
    """What is printed of each side of BOTH, and of its bytes."""
    for command, client, server in OF_BOTH:
        for role, data, answer in (("client", BOTH_CLIENT, client), ("server", BOTH_SERVER, server)):
            yield Row([command, "--role", role, "--capture"], BOTH, *answer)
            yield Row([command, "--role", role], data, *answer)


# A ping and a text's head, and then a line of none of the forms.
FAULTY = "C 00\nS 8900\nS 8102\nX\nS 4869\n"
REFUSED_FIRST = "C 00\nS 89\nS 00c1\nX\n"
# A text, and the line that is reported of it.
FAULTS = (
    ("X", "line 1: bad-form\n"),
    ("# C\n\nS 8\n", "line 3: bad-hex\n"),
    ("C 8g\nS 8900", "line 1: bad-hex\n"),
    ("S 8900\nS.\nS 8900\n", "line 3: after-end\n"),
    ("C.\nC.", "line 2: after-end\n"),
    ("S 8900\nC.\nS.\nC 00\r\n", "line 4: after-end\n"),
    ("#\n#" + "#" * 8_194, "line 2: too-long\n"),
    ("\n" * 1_000_001, "line 1000001: too-many-lines\n"),
)
# Two captures, the status, standard output and standard error.
PAIRS = (
    ("S 8102\nS 4869", "# x\nS 0101\nS 488001\nC 00\nS 69", 0, "equal\n", ""),
    ("S 8900", "S 8a00", 1, "different 0\n", ""),
    ("S 89", "S 8900", 1, "first cut 1\n", ""),
    ("S 8900\nX", "S 8900\n", 2, "", "line 2: bad-form\n"),
    ("S 8900\n", "S 8900\n\nS 8", 2, "", "line 3: bad-hex\n"),
    ("X", "\nX", 2, "", "line 1: bad-form\n"),
    ("S 8900\nX", "X", 2, "", "line 1: bad-form\n"),
)


def on_a_side(command, given, status, out, error="", *options):
    """Of the server's side of a capture."""
    return Row([command, "--role", "server", "--capture", *options], given, status, out, error)


SIDES = [
    on_a_side("recut", "S 8102\nC 00\nS 4869", 0, b"\x01\x01H\x80\x01i", "", "--size", "1"),
    on_a_side("recut", FAULTY, 2, "", "line 4: bad-form\n", "--size", "1"),
    on_a_side("judge", FAULTY, 2, "", "line 4: bad-form\n"),
    on_a_side("frames", FAULTY, 2, "0 fin ping - 0\n2 fin text - 2\n", "line 4: bad-form\n"),
    on_a_side("normal", FAULTY, 2, bytes.fromhex("8900"), "line 4: bad-form\n"),
    on_a_side("plan", FAULTY, 2, "", "line 4: bad-form\n"),
    on_a_side("judge", REFUSED_FIRST, 1, "refused 2 reserved-bits 1002\n"),
    on_a_side("plan", REFUSED_FIRST, 1, "", "refused 2 reserved-bits 1002\n"),
    *[on_a_side("judge", given, 2, "", line) for given, line in FAULTS],
    *[Row(["same", "--role", "server", "--capture"], "", status, out, error, (first, second))
      for first, second, status, out, error in PAIRS],
]

LINES = "\n" * 1_000_000
CLOSING = [
    Row(["closing"], "#\n#" + "#" * 8_194, 2, "", "line 2: too-long\n"),
    Row(["closing"], LINES, 1, OPEN),
    Row(["closing"], LINES + "X", 2, "", "line 1000001: too-many-lines\n"),
    Row(["closing"], LINES + "X\n\n", 2, "", "line 1000001: too-many-lines\n"),
    Row(["closing"], LINES + "\n", 2, "", "line 1000001: too-many-lines\n"),
]

CLEAN = Row(
    ["show"], "C 88820000000003e8\nS 880203e8\nS.\nC.\n", 0,
    "C - 0 close 2 1 1000\nS - 0 close 2 1 1000\nS - 4 end\nC - 8 end\n"
    "client closed 1000\nserver closed 1000\nfirst client\necho yes\n"
    "client-sees 1000\nserver-sees 1000\noutcome clean\n",
)  # fmt: skip
CUT_SHORT = Row(["show"], "S 810148\nX\nS 810149\n", 2, 'S - 0 text 1 1 "H"\n', "line 2: bad-form\n")
FRAMES_OF_A_STREAM = Row(
    ["show", "--role", "server", "--wire"], bytes.fromhex("010348656c890080026c"), 1,
    "S - 0 more text - 3\nS - 5 fin ping - 0\nS - 7 fin cont - 2\n"
    'S - 0 unfinished text 4 2 lacks 1 "Hell"\ncut 10\n',
)  # fmt: skip

# A server's text and its binary message of 5,000 bytes, and its ping of 125.
LONG_TEXT = bytes.fromhex("817e1388") + b"a" * 5_000
LONG_BINARY = bytes.fromhex("827e1388") + b"\xab" * 5_000
LONG_PING = bytes.fromhex("897d") + b"p" * 125


def of_whole(entry, view, given, *options):
    """A server's stream of one frame, and how it is shown with a view."""
    return Row(["show", "--role", "server", "--view", view, *options], given, 0,
               f"S - 0 {entry}\naccepted {len(given)} tail 0 unfinished -\n")  # fmt: skip


WHOLE_TEXT = f'text 5000 1 "{"a" * 5_000}"'
WHOLE = [
    of_whole(WHOLE_TEXT, "all", LONG_TEXT),
    of_whole(WHOLE_TEXT, "all", LONG_TEXT, "--limit", "5000"),
    of_whole(WHOLE_TEXT, "all", LONG_TEXT, "--limit", "16777216"),
    of_whole(f'text 5000 1 "{"a" * 4_096}" ..', "4096", LONG_TEXT),
    of_whole(f"binary 5000 1 {'ab' * 5_000}", "all", LONG_BINARY),
    of_whole(f"binary 5000 1 {'ab' * 2_048} ..", "4096", LONG_BINARY),
    # A control may have more bytes than --limit.
    of_whole(f'ping 125 1 "{"p" * 125}"', "all", LONG_PING, "--limit", "0"),
    Row(["show", "--role", "server", "--view", "all", "--json"], LONG_TEXT, 0,
        f'{{"type":"event","side":"server","offset":0,"event":"text","bytes":5000,"frames":1,"text":"{"a" * 5_000}"}}\n'
        '{"type":"verdict","verdict":"accepted","used":5004,"tail":0,"unfinished":null,"frames":1,"messages":1,'
        '"pings":0,"pongs":0,"close":null}\n'),
]



def of_heads():
    """What `frames` prints, with the shortest encoding of lengths and with any."""
    rows = [*[(role, digits, lines, lines) for role, digits, lines in HEADS],
            *[("server", *row) for row in LENGTHS]]  # fmt: skip
    for role, digits, shortest, longer in rows:
        for words, lines in (([], shortest), (["--lengths", "any"], longer)):
            status = 0 if "accepted" in lines else 1
            yield Row(["frames", "--role", role, *words], bytes.fromhex(digits), status, lines)


def of_lengths():
    """Messages of one byte over and over, with lengths in eight bytes, in their normal form."""
    for size, digits in WRITTEN:
        given = b"\x82\x7f" + size.to_bytes(8, "big") + b"*" * size
        yield Row(["normal", "--role", "server", "--lengths", "any"], given, 0, bytes.fromhex(digits) + b"*" * size)


def of_closes():
    for digits, code in CLOSES:
        line = (f'{{"type":"verdict","verdict":"accepted","used":{len(digits) // 2},"tail":0,"unfinished":null,'
                f'"frames":1,"messages":0,"pings":0,"pongs":0,"close":{{"code":{code}}}}}\n')  # fmt: skip
        yield Row(["judge", "--role", "server", "--json"], bytes.fromhex(digits), 0, line)


def of_plans():
    """Malformed plans, which are read before the stream is, and recuts."""
    for text, number, word in PLAN_FAULTS:
        yield Row(["recut", "--role", "server", "-", "--plan"], "", 2, "", f"plan line {number}: {word}\n", (text,))
    for role, given, plan, status, out, error in RECUTS:
        yield Row(["recut", "--role", role, "--lengths", "any", "-", "--plan"], given, status, out, error, (plan,))


def of_recuts():
    """Plans of streams, recuts by plans and by sizes, and why there is none."""
    for role, options, given, plan, error in PLANS:
        yield Row(["plan", "--role", role, *options], given, 1 if error else 0, plan, error)
    for role, options, given, plan, out in FITTING:
        yield Row(["recut", "--role", role, *options, "-", "--plan"], given, 0, out, "", (plan,))
    for role, options, given, plan, error in UNFIT:
        yield Row(["recut", "--role", role, *options, "-", "--plan"], given, 1, b"", error, (plan,))
    for role, options, given, out, error in SIZED:
        yield Row(["recut", "--role", role, *options], given, 1 if error else 0, out, error)


def of_objects():
    """Entries of `show`, reports, verdicts, frames and comparisons, with --json."""
    for words, given, entries, report in ENTRIES:
        yield Row(["show", "--json", *words], given, 1, entries + report)
    for given, status, report in REPORTS:
        yield Row(["closing", "--json"], given, status, report)
    for given, status, verdict in VERDICTS:
        yield Row(["judge", "--role", "server", "--json"], given, status, verdict)
    yield Row(["frames", "--role", "server", "--lengths", "any", "--json"], LONG_FRAMES, 0, LONG_FRAMES_OBJECTS)
    for first, second, status, answer in COMPARISONS:
        yield Row(["same", "--role", "server", "--json"], "", status, answer, "", (first, second))


def judged(verdicts):
    """A server's streams, and the lines of their verdicts."""
    return [Row(["judge", "--role", "server"], data, 0 if line.startswith("accepted") else 1, line)
            for data, line in verdicts]  # fmt: skip


def of_payloads():
    for role, given, at, status, out, error in PAYLOADS:
        yield Row(["payload", "--role", role, "--at", str(at)], given, status, out, error)


GROUPS = (
    Group("an_event_is_in_the_line_of_its_last_byte", "each event is printed in the line with its last byte",
          of_captures(EVENTS)),
    Group("a_clean_end_has_status_0", "a complete closing handshake: the server's Close echoes the client's", [CLEAN]),
    Group("a_frame_is_in_the_line_that_ends_its_head", "with --wire frames are printed in place of events",
          of_captures(FRAMES, "--wire")),
    Group("what_is_left_over_is_shown", "what is left over, and what is interrupted", of_captures(LEFT_OVER)),
    Group("directions_that_ended_without_a_close_are_shown",
          "who ended the connection first, and whether a comment says that it reset it", of_captures(ENDED_BY)),
    Group("comments_are_shown_and_times_hold", "comments are printed, and a time is that of the lines after it",
          of_captures(COMMENTS)),
    Group("what_is_left_at_the_end_has_the_time_of_the_last_bytes",
          "what is left over at the end has the time of its endpoint's last bytes", of_captures(TIMES_AT_THE_END)),
    Group("a_refused_stream_shows_its_evidence_and_what_is_unread",
          "what a refusal interrupts, the bytes that it is evident from, and what comes after it", of_views(REFUSALS)),
    Group("a_bad_character_has_a_line", "a text that isn't UTF-8 has a line for its bad character",
          of_views(BAD_CHARACTERS)),
    Group("a_bad_character_of_a_stream_has_a_line_or_is_in_the_refusal_s_object",
          "the bad character has a line after that of the refusal, and in JSON an object in the refusal's",
          list(of_bad_characters())),
    Group("hidden_characters_are_escaped", "a quoted text escapes the characters that aren't seen, and no others",
          [of_hidden(digits, quoted) for digits, quoted in HIDDEN]),
    Group("views_end_at_whole_characters",
          "of a payload are shown at most as many bytes as are asked for, and whole characters", [
              *of_one_message("S 810a61c3a9e282acf09f9880\n", "S - 0 text 10 1", VIEWS_OF_TEXT),
              *of_one_message("S 820300ff10\n", "S - 0 binary 3 1", VIEWS_OF_BYTES),
              *of_views(CONTROLS_AND_TAILS),
          ]),
    Group("payloads_are_shown_whole", "with --view all nothing of a payload is left out", WHOLE),
    Group("objects_are_printed_one_a_line", "with --json each line is an object", [*OBJECTS, *of_objects()]),
    Group("a_stream_is_shown_with_its_verdict", "with --role the verdict follows what is shown, in place of a report", [
        *[Row(["show", "--role", role], bytes.fromhex(digits), status, lines + verdict)
          for role, digits, status, lines, verdict in STREAMS],
        FRAMES_OF_A_STREAM,
    ]),
    Group("a_line_that_is_not_accepted_ends_what_is_shown", "what was shown before a faulty line stays", [CUT_SHORT]),
    Group("each_byte_of_a_head_counts", "heads are read byte by byte, and lengths in each encoding", list(of_heads())),
    Group("heads_have_the_shortest_lengths", "a normal form has the shortest encoding of lengths", list(of_lengths())),
    Group("a_verdict_has_the_code_of_the_close", "the code in the verdict's object", list(of_closes())),
    Group("a_text_is_refused_at_its_first_bad_byte", "texts in one frame, with each byte in a frame, and as a Close's reason",
          judged([*verdicts_of_texts(), *verdicts_of_a_long_text()])),
    Group("a_close_has_one_of_the_accepted_codes", "the first and the last code of each range; reasons",
          judged(verdicts_of_codes())),
    Group("each_prefix_has_a_verdict", "the verdicts after each byte", judged(verdicts_after_each_byte())),
    Group("each_length_is_unmasked", "messages of each length, under a key, have their normal form",
          [Row(["normal", "--role", "client"], masked_messages()[0], 0, masked_messages()[1])]),
    Group("a_payload_is_written_as_far_as_it_came", "the payload of the event at an offset, or what is there instead",
          list(of_payloads())),
    Group("plans_are_read_line_by_line", "the first malformed line of a plan; encodings and keys that a plan asks for",
          list(of_plans())),
    Group("streams_are_planned_and_recut", "a stream's plan, its recut, or the line that says why there is none",
          list(of_recuts())),
    Group("commands_on_a_side_answer_as_on_its_bytes", "each command on both sides of a capture, and on their bytes",
          list(of_both())),
    Group("commands_on_a_side_stop_at_faulty_lines",
          "at a line that isn't accepted a command on a side ends, and what it printed stays; an answer before counts",
          SIDES),
    Group("lines_have_at_most_8_194_bytes_and_captures_a_million_lines",
          "a longer line and any further line are reported", CLOSING),
)
