"""recipes/said: what it writes of a capture, and that payloads that differ never read alike."""

import itertools
import json
import random
import re
import resource
import struct
import sys

from harness import SAMPLES, SECONDS, TOP, WSN, needs, run, same, test, want

sys.path.insert(0, str(TOP / "recipes"))

import layout  # noqa: E402

TEXT, BINARY, CLOSE, PING, PONG, FIN = 1, 2, 8, 9, 10, 0x80


def said(*words, status=0, **options):
    """What said writes, and says on standard error."""
    out, errors = run("env", f"WSN={WSN}", TOP / "recipes/said", *words, status=status, **options)
    return out.decode(), errors.decode()


def frame(first, payload, key=None):
    """A frame, as RFC 6455, 5.2, lays it out."""
    size, mask = len(payload), 0 if key is None else 0x80
    head = struct.pack("!BB", first, mask | size) if size < 126 else struct.pack("!BBH", first, mask | 126, size)
    if size > 65535:
        head = struct.pack("!BBQ", first, mask | 127, size)
    return head + (payload if key is None else key + bytes(byte ^ key[at % 4] for at, byte in enumerate(payload)))


def capture(path, side, frames):
    """A capture of one side's frames."""
    data = b"".join(frames)
    path.write_text("".join(f"{side} {data[at : at + 4096].hex()}\n" for at in range(0, len(data), 4096)))
    return path


EVENTS = [
    (FIN | TEXT, '{"op":"sub","ids":[1.00,1e3,{}],"op":"s\\u0075b ü","deep":[[],[{"a":null}]]}'.encode()),
    (FIN | TEXT, b'42["move", {"x": 1, "y": [ ]}]\n'),
    (FIN | TEXT, '{\n  "a": 1\n}'.encode()),
    (FIN | TEXT, "C:\\new\tHell\u043e \r\n\n end  ".encode()),
    (FIN | TEXT, b""),
    (FIN | PING, b"are you there"),
    (FIN | BINARY, bytes(range(60, 80))),
    (FIN | PONG, b""),
    (FIN | CLOSE, b"\x03\xe8bye \xe2\x82\xac"),
]

LINES = r"""text json
  {
    "op":"sub",
    "ids":[
      1.00,
      1e3,
      {}
    ],
    "op":"s\u0075b \u{fc}",
    "deep":[
      [],
      [
        {
          "a":null
        }
      ]
    ]
  }
text json, spaced
  42[
    "move",
    {
      "x": 1,
      "y": [ ]
    }
  ]\n
text
  {\n
    "a": 1\n
  }
text
  C:\\new\tHell\u{43e} \r\n
  \n
   end\s\s
text
ping
       0  61 72 65 20 79 6f 75 20 74 68 65 72 65           are.you.there
binary
       0  3c 3d 3e 3f 40 41 42 43 44 45 46 47 48 49 4a 4b  <=>?@ABCDEFGHIJK
      16  4c 4d 4e 4f                                      LMNO
pong
close 1000
  bye \u{20ac}
"""


@test
def said_writes_each_event_whole(folder):
    """JSON indented and otherwise as it came, texts by lines, bytes in hexadecimal, a Close; of either side, by a pipe."""
    key = b"\x12\x34\x56\x78"
    client = [frame(TEXT, EVENTS[0][1][:20], key), frame(FIN | PONG, b"", key), frame(FIN, EVENTS[0][1][20:], key)]
    client += [frame(first, payload, key) for first, payload in EVENTS[1:]]
    path = capture(folder / "client.capture", "C", client)
    same(said(path, "client"), ("pong\n" + LINES, ""), "the client's, masked, its first message in two frames")
    path = capture(folder / "server.capture", "S", [frame(*each) for each in EVENTS])
    same(said(path, "server"), (LINES, ""), "the server's")
    same(said("-", "server", input=path.read_bytes()), (LINES, ""), "standard input")
    same(said(path, "client"), ("", ""), "a side that says nothing")
    less = re.sub(r"ping\n.*\n", "", LINES)
    same(said("--without", "ping", path, "server")[0], less, "without pings")
    same(said("--without", "ping,pong", path, "server")[0], less.replace("pong\n", ""), "without both")
    letters = LINES.replace("\\u{fc}", "ü").replace("\\u{43e}", "\u043e").replace("\\u{20ac}", "€")
    same(said("--letters", path, "server")[0], letters, "letters")
    same(said(capture(path, "S", [frame(FIN | CLOSE, b"")]), "server")[0], "close -\n", "a Close without a code")


@test
def said_of_what_is_not_accepted(folder):
    """What came before, and the verdict: status 1. What is no capture: status 2."""
    wanted = "text\n  Hello\nrefused 11 text-bad 1007\n"
    out, errors = said(SAMPLES / "latin.capture", "server", status=1)
    same((out, errors.splitlines()[0]), (wanted, "refused 11 text-bad 1007"), "a refused side")
    path = capture(folder / "cut.capture", "S", [frame(FIN | TEXT, b"a"), frame(FIN | BINARY, bytes(9))[:5]])
    same(said(path, "server", status=1), ("text\n  a\ncut 8\n", "cut 8\n"), "a side that is cut")
    path.write_text("S 8100\nS 81xx\n")
    usage = "said [--without KINDS] [--letters] CAPTURE client|server; said -h for help"
    for words, why in (
        ([path, "server"], "line 2: bad-hex"),
        ([folder / "none", "server"], f"cannot read {folder}/none: no such file"),
        ([path], f"it takes a capture, and then client or server: {usage}"),
        ([path, "both"], f"it takes a capture, and then client or server: {usage}"),
        (["--without", "text", path, "server"], f"--without requires ping, pong or ping,pong: {usage}"),
        (["--wrong", path, "server"], f"there is no option --wrong: {usage}"),
    ):
        same(said(*words, status=2)[1], f"said: {why}\n", f"{words}")


@test
def said_leads_to_all_differences(folder):
    """Five differences in twenty messages, one at byte 6,000 of a text, under other keys and in other frames: diff -u and
    check --diff show five places, and git the words of each."""
    needs("diff", "git")
    prose = "".join(f"word{at} " for at in range(1200))
    values = [{"n": at, "items": [{"id": each, "price": f"{each}.50"} for each in range(60)]} for at in range(20)]
    kept = [json.dumps(value, separators=(",", ":")).encode() for value in values]
    kept[4:6] = [prose.encode(), bytes(range(200)) * 20]
    new = list(kept)
    new[1] = kept[1].replace(b'{"id":30,', b'{"id":30.0,')
    new[4] = kept[4][:6000] + b"X" + kept[4][6001:]
    new[5] = kept[5][:3000] + b"\xff" + kept[5][3001:]
    new[9] = kept[9].replace(b'"price":"7.50"', b'"price":"7.50","price":"7.50"')
    new[15] = kept[15].replace(b'{"n":15,', b'{"N":15,')
    one, two = folder / "kept.capture", folder / "new.capture"
    kinds = [BINARY if at == 5 else TEXT for at in range(20)]
    capture(one, "C", [frame(FIN | kind, data, b"\0\0\0\1") for kind, data in zip(kinds, kept)])
    capture(two, "C", [part for kind, data in zip(kinds, new) for part in
                       (frame(kind, data[:50], b"abcd"), frame(FIN, data[50:], b"efgh"))])  # fmt: skip
    for path in one, two:
        path.with_suffix(".said").write_text(said(path, "client")[0])
    files = folder / "kept.said", folder / "new.said"
    found = run("diff", "-u", *files, status=1)[0].decode()
    same(found.count("\n@@ "), 5, "places that diff -u finds")
    words = run("git", "diff", "--no-index", "--word-diff=porcelain", *files, status=1)[0].decode().splitlines()
    changed = [line for line in words if line[:1] in "+-" and line[:3] not in ("+++", "---")]
    wanted = ['-"id":30,', '+"id":30.0,', "+X", "-00", "+ff", '+"price":"7.50",', '-"n":15,', '+"N":15,']
    missing = [each for each in wanted if not any(line[0] == each[0] and each[1:] in line for line in changed)]
    same(missing, [], f"words that git finds: {changed}")
    lines, _ = run("env", f"WSN={WSN}", TOP / "recipes/check", "--diff", one, two, status=1)
    first, *rest = lines.decode().splitlines()
    same(first, "new.capture: client different 1; server equal", "what check says")
    same(rest[:2], [f"--- {one} client", f"+++ {two} client"], "the names in its differences")
    same(rest[2:-1], found.splitlines()[2:], "its differences")


def laid_out(text, keeps_letters=False):
    """What said writes of a text."""
    name, rows = layout.Layout(keeps_letters).text(text)
    for row in rows:
        want("\n" not in row and not row.endswith(" "), f"a row of {text!r}: {row!r}")
        want(keeps_letters or (row.isascii() and (row + ".").isprintable()), f"a row of {text!r}: {row!r}")
    return "\n  ".join([name, *rows])


PAIRS = [
    ("[1.0]", "[1.00]"), ("[1]", "[1.0]"), ("[1e2]", "[1E2]"), ("[0]", "[-0]"), ("[1" + "0" * 20 + "1]", "[1" + "0" * 21 + "]"),
    ('{"a":1}', '{"a":1,"a":1}'), ('{"a":1,"b":2}', '{"b":2,"a":1}'), ('{"a":1,"a":2}', '{"a":2}'),
    ('["a"]', '["\\u0061"]'), ('["ü"]', '["\\u00fc"]'), ('["ü"]', '["\\\\u{fc}"]'), ('["\\n"]', '["\\\\n"]'),
    ('["Hello"]', '["Hell\u043e"]'), ('["\u00fc"]', '["u\u0308"]'), ('["a b"]', '["a\u00a0b"]'),
    ("[1,2]", "[1, 2]"), ("[1, 2]", "[1,  2]"), ("[1, 2, 3]", "[1, 2,3]"), ("[]", "[ ]"), ("[1]", "[1 ]"), ("[1]", "[ 1]"),
    ("[1]", "[1]\n"), ("[1]", " [1]"), ("[1\r]", "[1\\r]"), ("[1,\t2]", "[1,\\t2]"), ("{}", "{\n}"), ("[\n1]", "[\\n1]"),
    ("[1]", "[\n  1\n]"), ("[1]", '"[1]"'), ("[1]\n", "[1]\\n"), ("42[1]", "42 [1]"), ("42[1]", "4[1]"), ("[NaN]", "[ NaN]"),
    ("a", "a "), ("a ", "a\\s"), ("a\n", "a\\n"), ("a\n", "a"), ("a", "\ta"), ("a\\", "a\\\\"), ("", "\n"), ("", " "),
    ("a\nb", "a\r\nb"), ("a\nb", "a\\n\nb"), ("a  ", "a "), ("\x00", "\\u{0}"), ("\u2028", "\n"), ("\u202ea", "a"),
]  # fmt: skip


@test
def said_never_writes_two_texts_alike(folder):
    """Pairs that look alike or mean the same as JSON, all short texts of some characters, and JSON with blanks anywhere."""
    for one, two in PAIRS:
        want(laid_out(one) != laid_out(two), f"{one!r} and {two!r} are both {laid_out(one)!r}")
        want(laid_out(one, True) != laid_out(two, True), f"{one!r} and {two!r} with letters: {laid_out(one, True)!r}")
    chance = random.Random(1)
    parts = ["{", '"a, b"', ":", "[", "1", ",", "{", "}", ",", "[", "]", "]", ",", '"\\\\"', ":", "-2.50", "}"]
    blanks = ("", "", " ", "  ", "\t", "\r", "\n")
    spread = {"".join(part + chance.choice(blanks) for part in parts) for _ in range(20000)}
    short = {"".join(each) for size in range(6) for each in itertools.product('[],"\\s \n1', repeat=size)}
    short |= {"".join(each) for size in range(5) for each in itertools.product('\\u{3}é\tn [', repeat=size)}
    for texts in spread, short:
        seen = {}
        for text in texts:
            other = seen.setdefault(laid_out(text), text)
            want(other == text, f"{other!r} and {text!r} are both {laid_out(text)!r}")


@test
def said_of_many_messages_takes_seconds(folder):
    """check --diff of two captures with 100,000 messages of JSON each, which differ in two places."""
    needs("diff")
    names = [folder / "kept.capture", folder / "new.capture"]
    message = '{{"seq":{},"symbol":"EURUSD","bid":{}.25,"levels":[[1,2],[3,4]],"ok":true}}'
    for name, planted in zip(names, ((), (5, 99_000))):
        capture(name, "S", [frame(FIN | TEXT, message.format(at, -at if at in planted else at).encode())
                            for at in range(100_000)])  # fmt: skip
    before = resource.getrusage(resource.RUSAGE_CHILDREN)
    out, _ = run("env", f"WSN={WSN}", TOP / "recipes/check", "--diff", *names, status=1)
    after = resource.getrusage(resource.RUSAGE_CHILDREN)
    seconds = after.ru_utime + after.ru_stime - before.ru_utime - before.ru_stime
    changed = [line[0] + line[1:].strip() for line in out.decode().splitlines() if '"bid"' in line and line[0] in "+-"]
    same(changed, ['-"bid":5.25,', '+"bid":-5.25,', '-"bid":99000.25,', '+"bid":-99000.25,'], "what differs")
    want(seconds < SECONDS, f"{seconds:.0f} seconds of a processor")
