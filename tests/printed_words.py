"""Command lines: which words are refused, and with what; and what each option makes of its inputs. Each group is a test of
tests/program, as those of printed.py are.

A row has the words after `wsn` as one text, with single spaces between them, so a space at the end is before an empty word.
"""
from typing import NamedTuple

from printed import OPEN, Group


class RefusedRow(NamedTuple):
    """Words that clap refuses, and a part of its text on standard error."""

    words: str
    part: str


class HelpRow(NamedTuple):
    """Words that ask for a text, and other words that ask for the same."""

    words: str
    others: str


class WordsRow(NamedTuple):
    """A run in a folder with these files, by their names, and its answer."""

    words: str
    given: object
    status: int
    out: object
    error: str = ""
    files: dict = {}


ROLE = "--role <client|server>"
KINDS = "[possible values: ping, pong, close]"

# What is missing or unknown, or out of its range.
REFUSED = [RefusedRow(*row) for row in (
    ("frames", ROLE),
    ("normal", ROLE),
    ("payload --at 7", ROLE),
    ("payload --role server", "--at <OFFSET>"),
    ("recut --role Client --size 3", "[possible values: client, server]"),
    ("judge --role server --capture --capture", "'--capture'"),
    ("closing --view 5", "unexpected argument '--view'"),
    ("normal --role client --view 5", "unexpected argument '--view'"),
    ("judge --role client --without ping", "unexpected argument '--without'"),
    ("judge --role server --layout lines", "unexpected argument '--layout'"),
    ("show file other", "unexpected argument 'other'"),
    ("show --layout columns", "[possible values: lines, people]"),
    ("same --role client a b --without text", KINDS),
    ("same --role client a b --without ping,text", KINDS),
    ("same --role client a b --view 4097", "4097 is not in 0..=4096"),
    ("same --role client a b --view all", "invalid value 'all'"),
    ("same --role client a b --frames 4294967296", "4294967296 is not in 1..=4294967295"),
)]  # fmt: skip

NO_NUMBER = "usage: a number is written in digits alone: 5, not +5, 0x5 or 5.0\n"
BAD_VIEW = "usage: --view takes a number of bytes, 0 to 4096, or all\n"
TWO_STANDARD_INPUTS = "usage: two inputs are standard input (-, or no FILE): name a file for one\n"
CAPTURE_AS_IT_IS = "usage: show, closing and redact read a capture as it is: leave out --capture\n"

# What clap accepts.
MISTAKES = [WordsRow(words, "S 8900\n", 2, "", line) for words, line in (
    ("closing --limit=-0", NO_NUMBER),
    ("payload --role server --at +5", NO_NUMBER),
    ("payload --role server --at end", NO_NUMBER),
    ("same --role client a b --view +5", NO_NUMBER),
    ("same --role client --frames +1 a b", NO_NUMBER),
    ("recut --role server --plan p --limit +5", NO_NUMBER),
    ("show --view +5", BAD_VIEW),
    ("show --view -1", BAD_VIEW),
    ("show --view ALL", BAD_VIEW),
    ("show --view ", BAD_VIEW),
    ("show --view 4097", BAD_VIEW),
    ("show --view 65536", BAD_VIEW),
    ("closing - file -", TWO_STANDARD_INPUTS),
    ("show --capture", CAPTURE_AS_IT_IS),
    ("closing --capture capture", CAPTURE_AS_IT_IS),
    ("redact --capture capture", CAPTURE_AS_IT_IS),
)]  # fmt: skip

# A text is asked for, whatever else is wrong.
HELP = [HelpRow(*row) for row in (
    ("-h", "--help"),
    ("help", "--help"),
    ("-V", "--version"),
    ("judge -h", "help judge"),
    ("recut -h --size 0x", "recut --help"),
)]  # fmt: skip

# A client's frames under a key of zeros, but for the first "Hello", and a server's.
KEYED = bytes.fromhex("818537fa213d7f9f4d5158")
CLIENT = bytes.fromhex("818500000000") + b"Hello"
SERVER = bytes.fromhex("8105") + b"Hello"
PING, PONG, CLOSE, HI = (bytes.fromhex(it) for it in ("898000000000", "8a8000000000", "888000000000", "8182000000004869"))


def accepted(size):
    return f"accepted {size} tail 0 unfinished -\n"


COMMANDS = [
    WordsRow("payload --role client --at=18446744073709551615", CLIENT, 2, "",
             f"nothing begins at 18446744073709551615: {accepted(11)}"),
    WordsRow("normal --role=server", SERVER, 0, SERVER),
    WordsRow("same --role client a b", "", 0, "equal\n", "", {"a": CLIENT, "b": KEYED}),
    WordsRow("same first --role server second", "", 1, "first cut 1\n", "", {"first": b"\x81", "second": SERVER}),
    WordsRow("same second --role server first", "", 1, "second cut 1\n", "", {"first": b"\x81", "second": SERVER}),
    WordsRow("recut --role client --plan file", CLIENT, 0, bytes.fromhex("0182010203044967 8083000000006c6c6f"), "",
             {"file": "piece 2 01020304\nlast 00000000\n"}),
    WordsRow("recut --plan=file --role server", SERVER, 0, bytes.fromhex("01024865 80036c6c6f"), "",
             {"file": "piece 2 -\nlast -\n"}),
    WordsRow("recut --role server --size 3", SERVER, 0, bytes.fromhex("010348656c 80026c6f")),
    WordsRow("recut --role client --size 3", KEYED, 0, bytes.fromhex("01830000000048656c 8082000000006c6f")),
    WordsRow("judge - --role server", SERVER, 0, accepted(7)),
    WordsRow("frames file --role client", b"\xff", 0, "0 fin text 37fa213d 5\n" + accepted(11), "", {"file": KEYED}),
]

# A server's text of 60 bytes, and a client's; as 48 bytes are shown of it; one of 5,000 bytes, and binary messages.
LONG = b"\x81\x3c" + b"a" * 60
CLIENT_LONG = bytes.fromhex("81bc00000000") + b"a" * 60
SHOWN = f'"{"a" * 48}" ..'
OF_5_000 = "S 817e1388\n" + f"S {'61' * 2_500}\n" * 2
BINARY_OF_1_000 = bytes.fromhex("82fe03e800000000") + b"\xab" * 1_000
BINARY_OF_16_MIB = bytes.fromhex("827f0000000001000000") + b"\xab" * 16_777_216

# The most bytes of a payload that are shown: 48; with `all` twice the limit, or twice 125, in hexadecimal.
VIEWS = [
    WordsRow("show", f"S {LONG.hex()}\n", 1, f"S - 0 text 60 1 {SHOWN}\n{OPEN}"),
    WordsRow("show --role server", LONG, 0, f"S - 0 text 60 1 {SHOWN}\n{accepted(62)}"),
    WordsRow("show --role client --layout=lines", CLIENT_LONG, 0, f"C - 0 text 60 1 {SHOWN}\n{accepted(66)}"),
    WordsRow("show --wire", f"S {LONG[:-10].hex()}\n", 1,
             f"S - 0 fin text - 60\nS - 0 unfinished text 50 1 lacks 10 {SHOWN}\n{OPEN}"),
    WordsRow("show --role client --wire --view 0", CLIENT_LONG[:-10], 1,
             "C - 0 fin text 00000000 60\nC - 0 unfinished text 50 1 lacks 10 -\ncut 56\n"),
    WordsRow("show --role client --view 7 file", b"\xff", 0, f'C - 0 text 60 1 "aaaaaaa" ..\n{accepted(66)}', "",
             {"file": CLIENT_LONG}),
    WordsRow("show --view 0", f"S {LONG.hex()}\n", 1, f"S - 0 text 60 1 -\n{OPEN}"),
    WordsRow("show --view=4096 file", "X", 1, f'S - 0 text 5000 1 "{"a" * 4_096}" ..\n{OPEN}', "", {"file": OF_5_000}),
    WordsRow("show --limit 1000 --view all --role client file", b"\xff", 0,
             f"C - 0 binary 1000 1 {'ab' * 1_000}\n{accepted(1_008)}", "", {"file": BINARY_OF_1_000}),
    WordsRow("show --limit 5 --view all", f"S 897d{'ab' * 125}\n", 1, f"S - 0 ping 125 1 {'ab' * 125}\n{OPEN}"),
    WordsRow("show --role server --view all", BINARY_OF_16_MIB, 0,
             f"S - 0 binary 16777216 1 {'ab' * 16_777_216}\n{accepted(16_777_226)}"),
    WordsRow("show --limit 5 --view 3 --lengths any -", "S 817e000548656c6c6f\n", 1, f'S - 0 text 5 1 "Hel" ..\n{OPEN}'),
    WordsRow("same --role client --view 0 a b", "", 1,
             "different 0\nfirst C - 0 text 5 1 -\nsecond C - 0 text 5 1 -\ndiffer-at 1 - -\n", "",
             {"a": CLIENT, "b": CLIENT.replace(b"e", b"a")}),
    WordsRow("same --role client a b", "", 1, "different 0\n", "", {"a": CLIENT, "b": CLIENT.replace(b"e", b"a")}),
]

# An object for each of two texts that differ after 5,000 bytes, with all but the first 4,096 left out, and where they do.
DIFFERENT = (
    '{"type":"comparison","answer":"different","event":0,'
    '"first":{"type":"event","side":"server","offset":2,"event":"text","bytes":5000,"frames":1,%s},'
    '"second":{"type":"event","side":"server","offset":0,"event":"text","bytes":5001,"frames":1,%s},'
    '"differ_at":{"in_payload":5000,"first":{"from":4992,"text":"aaaaaaaa"},"second":{"from":4992,"text":"aaaaaaaab"}}}\n'
) % ((f'"text":"{"a" * 4_096}","truncated":true',) * 2)
LONG_PAIR = {"a": bytes.fromhex("8900 817e1388") + b"a" * 5_000, "b": bytes.fromhex("817e1389") + b"a" * 5_000 + b"b"}

WITHOUT = [
    WordsRow(f"same --role client {words}", "", int("different" in out), out, "", {"a": first, "b": second})
    for words, first, second, out in (
        ("--without ping a b", PING + HI, HI + PING, "equal\n"),
        ("--without ping a b", PING + HI, HI + PONG, "different 1\n"),
        ("--without ping,pong a b", PING + HI, HI + PONG, "equal\n"),
        ("a b --without=pong,ping --json", PING + HI, HI + PONG, '{"type":"comparison","answer":"equal"}\n'),
        ("--without close a b", HI + CLOSE, HI, "equal\n"),
        ("--without close a b", PING + HI + CLOSE, HI, "different 0\n"),
        ("--without close a b", HI + PONG, HI, "different 1\n"),
        ("--without close,ping,pong a b", PING + HI + PONG + CLOSE, HI, "equal\n"),
        ("a b", HI + CLOSE, HI, "different 1\n"),
    )
]  # fmt: skip

COUNTS = '"frames":1,"messages":1,"pings":0,"pongs":0,"close":null'
JSON = [
    WordsRow("frames --role client --json file", b"\xff", 0,
             '{"type":"frame","offset":0,"fin":true,"opcode":"text","key":"37fa213d","length":5,"form":"shortest"}\n'
             f'{{"type":"verdict","verdict":"accepted","used":11,"tail":0,"unfinished":null,{COUNTS}}}\n', "",
             {"file": KEYED}),
    WordsRow("show --wire --json --view 7", "# 1.5\nS 820a000102030405060708\n", 1,
             '{"type":"frame","line":2,"side":"server","time":1.5,"offset":0,"fin":true,"opcode":"binary","key":null,'
             '"length":10,"form":"shortest"}\n'
             '{"type":"unfinished","side":"server","time":1.5,"offset":0,"event":"binary","bytes":9,"frames":1,"lacks":1,'
             '"hex":"000102","truncated":true}\n'
             '{"type":"report","client":{"state":"running"},"server":{"state":"running"},"first":null,"echo":null,'
             '"client_sees":null,"server_sees":null,"outcome":"open"}\n'),
    WordsRow("same --role server a b --without ping --view=4096 --json", "", 1, DIFFERENT, "", LONG_PAIR),
    WordsRow("closing --each --json", "S.\n", 1,
             '{"file":"-","type":"report","client":{"state":"running"},"server":{"state":"ended"},"first":null,"echo":null,'
             '"client_sees":1006,"server_sees":null,"outcome":"abnormal"}\n'),
]


def of_closing(server, client_sees, outcome):
    return (f"client running\nserver {server}\nfirst -\necho -\nclient-sees {client_sees}\nserver-sees -\n"
            f"outcome {outcome}\n")  # fmt: skip


# A message that is longer than any may be; frames of 7 bytes, and of 8; five frames, and lengths in two bytes.
TOO_LONG = bytes.fromhex("827f0000000001000001")
OF_7, OF_8 = b"\x81\x07" + b"a" * 7, b"\x81\x08" + b"a" * 8
FIVE_FRAMES = bytes.fromhex("0100 0000 0000 0000 8000")
TWO_OF_6, TWO_OF_7 = (bytes.fromhex(f"817e000{size}") + b"a" * size for size in (6, 7))
CLIENT_FRAGMENTS = bytes.fromhex("01810000000041 80810000000042")
LIMITS_OF_RECUT = "--frames 4 --limit 6 --lengths any"
TOO_BIG_AT_3, TOO_MANY_AT_8 = "refused 3 message-too-big 1009\n", "refused 8 too-many-frames 1008\n"

# An option leaves what the others limit without them.
LIMITED = [
    WordsRow("judge --frames 2 --role server", TOO_LONG, 1, "refused 9 message-too-big 1009\n"),
    WordsRow("judge --lengths any --role server", TOO_LONG, 1, "refused 9 message-too-big 1009\n"),
    WordsRow("judge --lengths any --role server", FIVE_FRAMES, 0, accepted(10)),
    WordsRow("normal --role client --limit 16777216 --frames 1", CLIENT_FRAGMENTS, 1, "",
             "refused 7 too-many-frames 1008\n"),
    WordsRow("plan --role server --frames 4294967295 --limit 007", OF_7, 0, "last -\n"),
    WordsRow("plan --role server --frames 4294967295 --limit 007", OF_8, 1, "", "refused 1 message-too-big 1009\n"),
    *[WordsRow("closing --limit 125 --frames 4 --lengths any", given, 1, of_closing(*report)) for given, report in (
        ("S 827e007d\n", ("running", "-", "open")),
        ("S 827e007e\n", ("refused 3 message-too-big 1009", "1006", "failed")),
        ("S 0200000000008000\n", ("running", "-", "open")),
        (f"S {FIVE_FRAMES.hex()}\n", ("refused 8 too-many-frames 1008", "1006", "failed")),
    )],
    WordsRow("same --limit 1 --role client a b --frames 9 --lengths any", "", 0, "equal\n", "",
             {"a": bytes.fromhex("81fe00010000000041"), "b": bytes.fromhex("81810000000041")}),
    WordsRow("same --limit 1 --role client a b --frames 9 --lengths any", "", 1,
             "second refused 1 message-too-big 1009\n", "", {"a": bytes.fromhex("81fe00010000000041"), "b": HI}),
    *[WordsRow(f"recut --role server {words} {LIMITS_OF_RECUT}", given, int(error != ""), out, error, {"p": "last -\n"})
      for words in ("--plan p", "--size 4294967295 --weave")
      for given, out, error in (
          (TWO_OF_6, b"\x81\x06" + b"a" * 6, ""),
          (TWO_OF_7, "", TOO_BIG_AT_3),
          (FIVE_FRAMES, "", TOO_MANY_AT_8),
      )],
]  # fmt: skip

KEYS = [
    WordsRow("recut --role client --size 1 --key 01020304", HI, 0, bytes.fromhex("01810102030449 80810102030468")),
    WordsRow("recut --role client --weave --size 2 --key 00000000", PING + bytes.fromhex("818300000000616263"), 0,
             bytes.fromhex("0182000000006162 898000000000 80810000000063")),
    WordsRow("recut --role client --size 125 --key 37Fa213D --weave", CLIENT, 0, KEYED),
]

# Of both sides: what the client sent is the same in both captures.
BOTH = {
    "a": f"C {CLIENT[:7].hex()}\nS 8900\nC {CLIENT[7:].hex()}\n",
    "b": f"S 8a00\nC {KEYED.hex()}\n",
    "p": "piece 1 -\nlast -\n",
}
SIDES = [
    WordsRow("recut --role client --size 3 --capture b", "X", 0, bytes.fromhex("01830000000048656c 8082000000006c6f"), "",
             BOTH),
    WordsRow("recut --role server --plan p --capture", "C 00\nS 8102\nS 4869\n", 0, bytes.fromhex("010148 800169"), "",
             BOTH),
    WordsRow("same --capture --role client a b", "", 0, "equal\n", "", BOTH),
    WordsRow("same --capture --role server a b", "", 1, "different 0\n", "", BOTH),
]

CAPTURES = [
    WordsRow("closing b - a --lengths any", "S 817e000141\nS.\n", 1,
             "b\tclean\tclosed 1000\tclosed 1000\n-\tabnormal\trunning\tended\na\topen\trunning\trunning\n", "",
             {"a": "", "b": "C 88820000000003e8\nS 880203e8\nS.\nC.\n"}),
]

REFUSALS = (
    Group("more_words_are_refused", "a word is missing or unknown, or its value isn't one that may be there", REFUSED),
)
TEXTS = (
    Group("help_is_asked_for_in_any_form", "status 0, and the text on standard output", HELP),
)
ANSWERS = (
    Group("the_program_refuses_what_clap_accepts", "one line says what is wrong", MISTAKES),
    Group("each_command_is_asked_for_by_its_words", "in any order, with = or a space", COMMANDS),
    Group("views_are_asked_for", "how much is shown of a payload", VIEWS),
    Group("some_controls_are_left_out_of_a_comparison", "those that are named", WITHOUT),
    Group("json_is_asked_for", "in any order", JSON),
    Group("limits_are_asked_for_one_by_one", "each is what it is without the others", LIMITED),
    Group("a_recut_by_size_has_a_key_and_may_weave", "for a client", KEYS),
    Group("a_side_of_each_capture_is_read", "that of --role's endpoint", SIDES),
    Group("several_captures_may_have_one_on_standard_input", "at its place", CAPTURES),
)
