"""Rows of tests/failing-calls: commands on streams and on captures."""
import re

from captures import FAULTS, REPORTS, report, status_of
from stopped import END, Row
from vectors import read

SERVER = ["--role", "server"]
# "Hello" in fragments of three bytes and two, with a ping between them.
FRAGMENTS = b"\x01\x03Hel\x89\x00\x80\x02lo"
ACCEPTED = "accepted 11 tail 0 unfinished -\n"
REDACTED = b"\x01\x03Xxx\x89\x00\x80\x02xx"

STREAMS = [
    Row("judge", ["judge", *SERVER], FRAGMENTS, [(END, ACCEPTED)]),
    Row("frames: a line is due after its head", ["frames", *SERVER], FRAGMENTS,
        [(2, "0 more text - 3\n"), (7, "5 fin ping - 0\n"), (9, "7 fin cont - 2\n"), (END, ACCEPTED)]),
    Row("normal: an event is due after its last byte", ["normal", *SERVER], FRAGMENTS,
        [(7, b"\x89\x00"), (11, b"\x81\x05Hello")]),
    Row("payload: a byte is due once it came, and nothing is read after the event", ["payload", *SERVER, "--at", "0"],
        FRAGMENTS, [(3, "H"), (4, "e"), (5, "l"), (10, "l"), (11, "o")], decided=11),
    Row("redact: a byte is due once it came", ["redact", *SERVER], FRAGMENTS,
        [(at + 1, REDACTED[at:at + 1]) for at in range(11)]),
]  # fmt: skip


def offending(verdict):
    """After how many bytes a stream with this verdict is refused."""
    return int(verdict.split()[1]) + 1 if verdict.startswith("refused ") else END


def heads_of(frames):
    """The lines of `frames`, each with the numbers of bytes up to the end of its head and of its frame."""
    for line in frames.decode().splitlines(keepends=True):
        offset, _, _, key, length, *form = line.split()
        form = form[0] if form else "eight" if int(length) > 65535 else "two" if int(length) > 125 else ""
        head = int(offset) + 2 + {"": 0, "two": 2, "eight": 8}[form] + (0 if key == "-" else 4)
        yield line, head, head + int(length)


def events_of(frames, normal):
    """The events of a normal form, each with the number of bytes of the stream up to its end."""
    ends = [end for line, _, end in heads_of(frames) if line.split()[1] == "fin"]
    at = 0
    while at < len(normal):
        size = {126: 2, 127: 8}.get(normal[at + 1] & 127, 0)
        length = int.from_bytes(normal[at + 2:at + 2 + size], "big") if size else normal[at + 1] & 127
        after = at + 2 + size + (4 if normal[at + 1] & 128 else 0) + length
        yield ends.pop(0), normal[at:after]
        at = after


def of_vectors():
    for it in read():
        line = f"{it.verdict}\n"
        for command, pieces, error in (
            ("judge", [(END, line)], ""),
            ("frames", [*((head, text) for text, head, _ in heads_of(it.frames)), (END, line)], ""),
            ("normal", [*events_of(it.frames, it.normal)], "" if it.is_accepted() else line),
        ):
            yield Row(f"{command} {it.name}", it.words(command), it.data, pieces, it.status(), error,
                      offending(it.verdict), by_turns=True)  # fmt: skip


# Two streams of a server, the line of their comparison, and the greatest number of messages that are held at a time,
# where the first comes in reads of a byte, and the second of three. A message that comes whole in one read isn't held.
PAIRS = (
    (FRAGMENTS, b"\x89\x00\x81\x05Hello", "equal", 2),
    (b"\x01\x03Hel\x88\x02\x03\xe8", b"\x88\x02\x03\xe8\x81\x01A", "equal", 1),
    (b"\x81\x01A", b"\x81\x01B", "different 0", 1),
    (b"\x81\x02AB", b"\x81\x02AC", "different 0", 2),
    (b"\x81\x02AB", b"\x82\x02AB", "different 0", 2),
    (b"\x81\x02AB", b"\x81\x02AB\x89\x00", "different 1", 2),
    (b"\x81\x02AB\x89\x00", b"\x81\x02AB", "different 1", 2),
    (b"\x89\x00\x89\x00\x8a\x00", b"\x89\x00\x8a\x00", "different 1", 0),
    (b"\x81\x02AB", b"\x81\x02AC\xc1", "second refused 4 reserved-bits 1002", 2),
    (b"\x89\x00\x81\x02AB\x81\x02CD", b"\x89\x00\x81\x02AB\x01\x00\x80\x02CD", "equal", 2),
    (b"\x89\x00\x81\x02AB\x81\x02CD", b"\x89\x00\x81\x02AB\x82\x02CD", "different 2", 2),
    (b"\x89\x00\x81\x03ABC\x8a\x00", b"\x89\x00\x81\x03ABD\x8a\x00", "different 1", 2),
    (b"\x81", b"\xc1", "first cut 1", 0),
    (b"\x81\x02AB", b"\xc1", "second refused 0 reserved-bits 1002", 1),
)

# The most bytes of a payload that are shown, two streams of a server, and what is printed where they differ.
VIEWS = (
    (48, b"\x81\x05Hello", b"\x81\x06Hell\xd0\xbe",
     'different 0\nfirst S - 0 text 5 1 "Hello"\nsecond S - 0 text 6 1 "Hell\u043e"\ndiffer-at 4 "Hello" "Hell\\u043e"\n'),
    (2, b"\x89\x00\x01\x06012345\x80\x0667890a", b"\x89\x00\x81\x0c01234567890b",
     'different 1\nfirst S - 2 text 12 2 "01" ..\nsecond S - 2 text 12 1 "01" ..\n'
     'differ-at 11 .."34567890a" .."34567890b"\n'),
    (4, b"\x82\x0a\x00\x01\x02\x03\x04\x05\x06\x07\x08\x09", b"\x82\x09\x00\x01\x02\x03\x04\x05\x06\x07\x08",
     "different 0\nfirst S - 0 binary 10 1 0001 ..\nsecond S - 0 binary 9 1 0001 ..\n"
     "differ-at 9 ..010203040506070809 ..0102030405060708\n"),
    (48, b"\x8a\x02ho", b"\x89\x02hi",
     'different 0\nfirst S - 0 pong 2 1 "ho"\nsecond S - 0 ping 2 1 "hi"\ndiffer-at 1 686f 6869\n'),
    (48, b"\x88\x05\x03\xe8bye", b"\x88\x00",
     'different 0\nfirst S - 0 close 5 1 1000 "bye"\nsecond S - 0 close 0 1 -\ndiffer-at 0 03e8627965 -\n'),
    (0, b"\x81\x01A", b"\x81\x01B",
     "different 0\nfirst S - 0 text 1 1 -\nsecond S - 0 text 1 1 -\ndiffer-at 0 - -\n"),
    (48, b"\x81\x02AB", b"\x82\x02AB",
     'different 0\nfirst S - 0 text 2 1 "AB"\nsecond S - 0 binary 2 1 4142\n'),
    (48, b"\x81\x02AB", b"", 'different 0\nfirst S - 0 text 2 1 "AB"\nsecond -\n'),
)  # fmt: skip


def of_comparison(words, first, second, status, out):
    """Either of two inputs is standard input."""
    for given, other, inputs in ((first, second, ["-", "OTHER"]), (second, first, ["OTHER", "-"])):
        decided = given.find(b"\xc1") + 1 or END
        yield Row(f"{words} {inputs} {first} {second}", [*words, *inputs], given, [(END, out)], status, "", decided,
                  {"OTHER": other}, by_turns="--view" in words)  # fmt: skip


def of_comparisons():
    for first, second, line, _ in PAIRS:
        yield from of_comparison(["same", *SERVER], first, second, 0 if line == "equal" else 1, f"{line}\n")
    for view, first, second, out in VIEWS:
        yield from of_comparison(["same", *SERVER, "--view", str(view)], first, second, 1, out)
    yield from of_comparison(["same", *SERVER, "--capture"], b"S 8900\nC 00\n", b"S 89\n#\nS 00", 0, "equal\n")


def end_of_line(text, number):
    """The number of bytes up to the end of this line, if it is complete."""
    lines = text.split("\n")
    return len("\n".join(lines[:number])) + 1 if number < len(lines) else END


def of_closing():
    """A malformed line is reported before a read that fails, if it is complete."""
    for name, text, words in REPORTS:
        yield Row(name, ["closing"], text.encode(), [(END, report(words))], status_of(words), by_turns=True)
    for text, number, fault in FAULTS:
        error = f"line {number}: {fault}\n"
        yield Row(repr(text), ["closing"], text.encode(), [], 2, error, end_of_line(text, number))
    clean = b"C 88820000000003e8\nS 880203e8\nS.\nC.\n"
    yield Row("a report in one line", ["closing", "--each"], clean, [(END, "-\tclean\tclosed 1000\tclosed 1000\n")],
              read_failed="-: read failed\n")  # fmt: skip


def of_lines(name, words, lines, end, status=1, error="", decided=END):
    """An input of lines, each with what is printed once it is complete, and what is printed at the end."""
    pieces, at = [], 0
    for line, text in lines:
        at += len(line)
        pieces.append((at, text))
    text = b"".join(line for line, _ in lines)
    return Row(name, words, text, [*pieces, (END, end)], status, error, decided, by_turns=len(text) > 40)


OPEN = report("running, running, -, -, -, -, open")
REFUSED = report("running, refused 0 nothing-to-continue 1002, -, -, 1006, -, failed")
# A line has at most 8,194 bytes. It is too long with its 8,196th byte, since the one before may be the CR of its end.
TOO_LONG = 8_196
SHOWN = [
    of_lines("a clean session", ["show"], [
        (b"C 88820000000003e8\n", "C - 0 close 2 1 1000\n"),
        (b"S 880203e8\n", "S - 0 close 2 1 1000\n"), (b"S.\n", "S - 4 end\n"), (b"C.\n", "C - 8 end\n"),
    ], report("closed 1000, closed 1000, client, yes, 1000, 1000, clean"), 0),
    of_lines("CR LF", ["show"], [
        (b"C 818537fa213d7f9f4d5158\r\n", 'C - 0 text 5 1 "Hello"\n'), (b"# x\r\n", "# x\n"),
    ], OPEN),
    of_lines("comments", ["show"], [(b"# \xffA\x1b\\\n", "# \\xffA\\x1b\\\\\n"), (b"# \\xffA\n", "# \\\\xffA\n")], OPEN),
    of_lines("a view of six bytes", ["show", "--view", "6"], [
        (b"S 810a61c3a9e282acf09f9880\n", 'S - 0 text 10 1 "a\xe9\u20ac" ..\n'),
    ], OPEN),
    of_lines("heads that aren't complete", ["show"], [
        (b"# 0.5\n", ""), (b"S 81\n", ""), (b"# 1.5\n", ""),
        (b"S.\n", "S 1.5 0 unfinished head 0 0 lacks - -\nS 1.5 1 end\n"), (b"C 81\n", ""), (b"# 2.5\n", ""),
    ], "C 1.5 0 unfinished head 0 0 lacks - -\nended-by server\n" + report("running, cut, -, -, 1006, -, abnormal")),
    of_lines("a bad character over two lines", ["show"], [
        (b"# 0.5\n", ""), (b"S 010361e282\n", ""), (b"# 1.5\n", ""), (b"S 8900\n", 'S 1.5 5 ping 0 1 ""\n'),
        (b"# 2.5\n", ""),
        (b"S 800120\n", 'S 2.5 0 unfinished text 3 1 lacks 0 "a" ..\nS 2.5 7 refused 9 text-bad 1007 20\n'
         'S 2.5 3 bad-character 1 e28220 "a\\xe2\\x82\\x20"\n'), (b"S ff\n", ""),
    ], "S 2.5 10 unread 1 ff\n" + report("running, refused 9 text-bad 1007, -, -, 1006, -, failed")),
    of_lines("frames with a bad character", ["show", "--wire"], [
        (b"S 010361e282\n", "S - 0 more text - 3\n"),
        (b"S 8900800120\n", "S - 5 fin ping - 0\nS - 7 fin cont - 1\nS - 7 refused 9 text-bad 1007 20\n"
         'S - 3 bad-character 1 e28220 "a\\xe2\\x82\\x20"\n'),
    ], report("running, refused 9 text-bad 1007, -, -, 1006, -, failed")),
    of_lines("objects", ["show", "--json"], [
        (b"# 0.5\n", ""), (b"# both\n", '{"type":"comment","line":2,"text":" both"}\n'), (b"C 81820000\n", ""),
        (b"C 00004869\n", '{"type":"event","line":4,"side":"client","time":0.5,"offset":0,"event":"text","bytes":2,'
         '"frames":1,"text":"Hi"}\n'), (b"\n", ""),
        (b"S 890161\n", '{"type":"event","line":6,"side":"server","time":0.5,"offset":0,"event":"ping","bytes":1,'
         '"frames":1,"text":"a"}\n'),
        (b"S 8180ff\n", '{"type":"refused","line":7,"side":"server","time":0.5,"offset":3,"place":4,'
         '"reason":"mask-present","code":1002,"hex":"8180"}\n'),
        (b"S.\n", '{"type":"unread","line":8,"side":"server","time":0.5,"offset":5,"bytes":1,"hex":"ff"}\n'
         '{"type":"end","line":8,"side":"server","time":0.5,"offset":6}\n'), (b"C 8880\n", ""),
        (b"C.\n", '{"type":"unfinished","line":10,"side":"client","time":0.5,"offset":8,"event":"head","bytes":0,'
         '"frames":0,"lacks":null,"hex":""}\n{"type":"end","line":10,"side":"client","time":0.5,"offset":10}\n'),
    ], '{"type":"ended-by","side":"server","reset":false}\n{"type":"report","client":{"state":"cut"},"server":'
       '{"state":"refused","offset":4,"reason":"mask-present","code":1002},"first":null,"echo":null,"client_sees":1006,'
       '"server_sees":1006,"outcome":"failed"}\n'),
    of_lines("an event a line", ["show"], [
        (b"S 810148\n", 'S - 0 text 1 1 "H"\n'), (b"C 898000000000\n", 'C - 0 ping 0 1 ""\n'),
        (b"S 810149\n", 'S - 3 text 1 1 "I"\n'),
    ], OPEN),
]  # fmt: skip

# A line without its end, and the report or the fault.
LONG = (
    ("#" * 8_194, OPEN, ""),
    ("S " + "0" * 8_192, REFUSED, ""),
    ("#" * 8_195, "", "line 1: too-long\n"),
    ("S " + "0" * 8_193, "", "line 1: too-long\n"),
    ("S " + "0" * 8_194, "", "line 1: too-long\n"),
)
# Captures with a long line, whose fault is known after so many bytes.
LONG_FAULTS = (
    ("#" * 8_194 + "\r\r\n", "line 1: too-long\n", TOO_LONG),
    ("#\n" + "#" * 8_195 + "\n", "line 2: too-long\n", 2 + TOO_LONG),
    ("x" * 8_195 + "\n", "line 1: too-long\n", TOO_LONG),
    ("x" * 8_194 + "\n", "line 1: bad-form\n", 8_195),
    ("\n" * 1_000_001, "line 1000001: too-many-lines\n", 1_000_001),
    ("\n" * 1_000_000 + "X" * TOO_LONG, "line 1000001: too-many-lines\n", 1_000_000 + TOO_LONG),
)


def of_long_lines():
    for line, out, error in LONG:
        for end in ("", "\n", "\r", "\r\n"):
            text = (line + end).encode()
            decided = TOO_LONG if error and len(text) >= TOO_LONG else END
            name = f"a line of {len(line)} bytes, and {end!r}"
            yield Row(name, ["closing"], text, [(END, out)], 2 if error else 1, error, decided, by_turns=True)
    for text, error, decided in LONG_FAULTS:
        yield Row(f"{text[:9]!r}: {error}", ["closing"], text.encode(), [], 2, error, decided, by_turns=True)


UNFINISHED_CHARACTER = b"\x01\x01\xf0\x00\x00\x89\x00\x00\x01\x9f\x80\x02 !"
SHOWN_STREAMS = [
    Row("events", ["show", *SERVER], FRAGMENTS,
        [(7, 'S - 5 ping 0 1 ""\n'), (11, 'S - 0 text 5 2 "Hello"\n'), (END, ACCEPTED)]),
    Row("frames", ["show", *SERVER, "--wire"], FRAGMENTS[:-1],
        [(2, "S - 0 more text - 3\n"), (7, "S - 5 fin ping - 0\n"), (9, "S - 7 fin cont - 2\n"),
         (END, 'S - 0 unfinished text 4 2 lacks 1 "Hell"\ncut 10\n')], 1),
    Row("a bad character", ["show", *SERVER], UNFINISHED_CHARACTER,
        [(7, 'S - 5 ping 0 1 ""\n'),
         (13, 'S - 0 unfinished text 2 3 lacks 0 "" ..\nS - 10 refused 12 text-bad 1007 20\n'
          'S - 2 bad-character 0 f09f20 "\\xf0\\x9f\\x20"\nrefused 12 text-bad 1007\n')], 1, decided=13),
    Row("objects", ["show", *SERVER, "--json"], UNFINISHED_CHARACTER,
        [(7, '{"type":"event","side":"server","offset":5,"event":"ping","bytes":0,"frames":1,"text":""}\n'),
         (13, '{"type":"unfinished","side":"server","offset":0,"event":"text","bytes":2,"frames":3,"lacks":0,"text":"",'
          '"truncated":true}\n{"type":"refused","side":"server","offset":10,"place":12,"reason":"text-bad","code":1007,'
          '"hex":"20","character":{"offset":2,"in_payload":0,"hex":"f09f20","before":""}}\n'
          '{"type":"verdict","verdict":"refused","offset":12,"reason":"text-bad","code":1007}\n')], 1, decided=13),
    Row("a text that is shown whole", ["show", *SERVER, "--view", "all", "--limit", "5000"],
        b"\x81\x7e\x13\x88" + b"a" * 5_000,
        [(5_004, f'S - 0 text 5000 1 "{"a" * 5000}"\n'), (END, "accepted 5004 tail 0 unfinished -\n")], by_turns=True),
]  # fmt: skip

# A side's bytes are due once their line is complete.
CLIENT_PING, SERVER_PING = bytes.fromhex("898000000000"), bytes.fromhex("8900")
# A capture, in which P is a client's ping and Q a server's, and the number of its first malformed line, and its fault.
FAULTS_OF_SIDES = (
    ("X", 1, "bad-form"),
    ("C P\nS Q\nX\nC P\n", 3, "bad-form"),
    ("S Q\nC 0\nS Q", 2, "bad-hex"),
    ("C PP\nS Q0\nC P\n", 2, "bad-hex"),
    ("C P\nC.\nS Q\nC P\nS Q\n", 4, "after-end"),
    ("S.\nC P\nS.\nC P", 3, "after-end"),
    ("C.\nS Q\nC.\n", 3, "after-end"),
    ("C P\nC.\nC zz", 3, "bad-hex"),
    ("S Q\r\nS.\r\nC.\r\n\r\r\nS Q", 4, "bad-form"),
    ("\n" * 999_999 + "C P\n\n", 1_000_001, "too-many-lines"),
    ("C P\n" + "#" * TOO_LONG, 2, "too-long"),
)


def of_faulty_side(text, number, fault, letter, ping, role):
    lines = text.replace("P", CLIENT_PING.hex()).replace("Q", SERVER_PING.hex())
    lines = [it for it in re.split(r"(?<=\n)", lines) if it]
    pieces = [(len("".join(lines[:at + 1])), ping * line.count(ping.hex()))
              for at, line in enumerate(lines[:number - 1]) if line[0] == letter]
    text, decided = "".join(lines), len("".join(lines[:number]))
    if not text[:decided].endswith("\n") and fault != "too-long":
        decided = END
    words, error = ["normal", "--role", role, "--capture"], f"line {number}: {fault}\n"
    return Row(f"{role} of {text[-20:]!r}", words, text.encode(), pieces, 2, error, decided, by_turns=True)


def of_sides():
    for it in FAULTS_OF_SIDES:
        yield of_faulty_side(*it, "C", CLIENT_PING, "client")
        yield of_faulty_side(*it, "S", SERVER_PING, "server")
    hello = bytes.fromhex("818500000000") + b"Hello"
    both = [(b"# both\n", ""), (b"C 8185\r\n", ""), (b"S 89\n", ""), (b"\n", ""), (b"S 00\n", SERVER_PING), (b"S.\r\n", ""),
            (b"#S ff\n", ""), (b"C 37fA213d7F9f\n", ""), (b"\r\n", ""), (b"C 4d5158", "")]
    yield of_lines("the server's side", ["normal", *SERVER, "--capture"], both, "", 0)
    of_client = [(line, "") for line, _ in both]
    yield of_lines("the client's side", ["normal", "--role", "client", "--capture"], of_client, hello, 0)
    frames = [(b"C 00\n", ""), (b"S 8900\n", "0 fin ping - 0\n"), (b"S 8102\n", "2 fin text - 2\n"), (b"X\n", ""),
              (b"S 4869\n", "")]
    yield of_lines("what came before a malformed line", ["frames", *SERVER, "--capture"], frames, "", 2,
                   "line 4: bad-form\n", 21)  # fmt: skip
    longest = bytes.fromhex("827e0ffc") + bytes(4_092)
    yield Row("the longest line of a side", ["normal", *SERVER, "--capture"], b"C 00\nS " + longest.hex().encode(),
              [(END, longest)], by_turns=True)  # fmt: skip


# A text of 120 quotation marks, a text with hidden characters, a comment of 300 characters, some of which are hidden, one
# that isn't UTF-8, and a Close with a reason.
RICH_CAPTURE = b"S 8178" + b"22" * 120 + b"\nS 810a5ce280ae61c285220a7f\n" + (
    "#\x1b[31m \"a comment\" \u202e that is longer than what is held \\ of it, which is 256 bytes, and so goes out in two "
    "parts at least, whatever they are, as long as nothing is lost between them, and nothing is written twice; "
    "one \u0085 hidden character \ufeff more, and some that aren't: \xfc\u20ac\U0001f600\n"
).encode() + b'#\xff"\\ bytes\nS 880703e822226f6b22\n'  # fmt: skip
# A server's frames, empty ones among them.
RICH_STREAM = (
    b"\x89\x00\x81\x00\x89\x02hi\x01\x01a\x00\x00\x89\x00\x80\x01b\x81\x05hello\x8a\x00\x8a\x00\x82\x03\x00\x01\x02"
    + b"\x81\x7e\x00\x7e" + b"a" * 126 + b"\x89\x00\x81\x00\x81\x00\x88\x02\x03\xe8"
)  # fmt: skip


def of_rooms():
    """Whatever is held back and written together, a writer with too little room gets the longest prefix that fits."""
    styles = (["--view", "4096"], ["--wire"], ["--json"], ["--json", "--wire"])
    for words in styles:
        yield Row(f"{words} of a rich capture", ["show", *words], RICH_CAPTURE, None, by_turns=True)
        yield Row(f"{words} of a rich stream", ["show", *SERVER, *words], RICH_STREAM, None, by_turns=True)
    for words in (["frames"], ["frames", "--json"], ["normal"]):
        yield Row(f"{words} of a rich stream", [*words, *SERVER], RICH_STREAM, None, by_turns=True)


ROWS = [
    *STREAMS, *of_comparisons(), *of_closing(), *of_long_lines(), *SHOWN, *SHOWN_STREAMS, *of_sides(), *of_rooms(),
    *of_vectors(),
]  # fmt: skip
