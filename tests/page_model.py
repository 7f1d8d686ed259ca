"""What a page should show of a capture, worked out from the program's JSON and the capture's bytes alone; and captures.

fields(entry) and fragment(frame) give the fields of a row, facts(report) the seven facts, capture(seed) a capture.
"""

import json
import random
import re

HIDDEN = re.compile(
    "[\x00-\x1f\x7f-\x9f\xad\u034f\u061c\u115f\u1160\u17b4\u17b5\u180e\u200b\u200e\u200f\u2028-\u202e\u2060-\u206f\u3164\ufeff\uffa0\ufff0-\ufff8"
    "\U0001bca0-\U0001bca3\U0001d173-\U0001d17a\U000e0000-\U000e00ff\U000e01f0-\U000e0fff]"
)
SHORT = {"\n": "\\n", "\r": "\\r", "\t": "\\t"}
CHARACTERS = 200  # The characters of a payload in a row.
DATA = ("text", "binary", "cont")
NAMED = ("place", "reason", "event", "lacks")


def read(lines):
    """The objects of JSON lines; each number keeps its digits."""
    return [json.loads(line, parse_float=str, parse_int=Digits) for line in lines.splitlines()]


class Digits(int):
    """A whole number; a time that has no point keeps its digits, too."""


def escape(character):
    """A character by its number: beyond U+FFFF by its two surrogates."""
    units = character.encode("utf-16-be").hex()
    return "".join(f"\\u{units[at : at + 4]}" for at in range(0, len(units), 4))


def visible(text):
    """A text as the page writes it."""
    return HIDDEN.sub(lambda found: SHORT.get(found[0], escape(found[0])), text)


def cut(text):
    """A text's front; the page counts as JavaScript does."""
    return text.encode("utf-16-le")[: 2 * CHARACTERS].decode("utf-16-le", "ignore")


def pairs(digits):
    """Hexadecimal digits in pairs."""
    return " ".join(digits[at : at + 2] for at in range(0, len(digits), 2))


def payload_fields(entry):
    """The fields of what an entry shows of its payload."""
    found = {}
    if entry["type"] == "refused":
        return found
    if "text" in entry:
        found["text"] = visible(cut(entry["text"]))
    elif "hex" in entry:
        found["hex"] = pairs(entry["hex"][:CHARACTERS])
    elif entry["type"] == "event" and "reason" in entry:
        found["reason"] = visible(cut(entry["reason"]))
    if "truncated" in entry and "code" not in entry:
        found["truncated"] = " .."
    return found


def comment_text(entry):
    """A comment as the page writes it: of one that isn't UTF-8, each byte that isn't printable ASCII as an escape."""
    if "text" in entry:
        return visible(entry["text"])
    return "".join(chr(byte) if 0x20 <= byte <= 0x7E else f"\\x{byte:02x}" for byte in bytes.fromhex(entry["hex"]))


def fields(entry):
    """The fields that an entry's row shows."""
    if entry["type"] == "comment":
        return {"line": str(entry["line"]), "text": comment_text(entry)}
    found = {key: str(entry[key]) for key in ("line", "time", "offset") if entry.get(key) is not None}
    found |= {
        key: f"{entry[key]:,}" if key == "lacks" else str(entry[key]) for key in NAMED if entry.get(key) is not None
    }
    if "code" in entry:
        found["code"] = "no code" if entry["code"] is None else str(entry["code"])
    if "bytes" in entry and entry.get("event") != "head":
        found["bytes"] = f"{entry['bytes']:,}"
    if entry.get("frames", 0) > 1:
        found["frames"] = f"{entry['frames']:,}"
    return found | payload_fields(entry)


def fragment(frame):
    """The fields of a fragment's row."""
    found = {key: str(frame[key]) for key in ("line", "time", "offset") if frame.get(key) is not None}
    return found | {"opcode": frame["opcode"], "length": f"{frame['length']:,}"}


def lone(shown):
    """Where frames begin that have no row of their own though they aren't final: refused, or the last that came."""
    found = set()
    for entry in shown:
        if entry["type"] == "refused":
            found.add((entry["side"], entry["offset"], "at"))
        if entry["type"] == "unfinished" and entry["event"] in DATA and entry["lacks"]:
            found.add((entry["side"], entry["offset"], entry["frames"]))
    return found


def fragments(shown, wire):
    """The fragments that have a row: those that aren't their message's last."""
    out, begun, without = [], {}, lone(shown)
    for frame in wire:
        side = frame.get("side")
        if frame["type"] != "frame" or frame["opcode"] not in DATA:
            continue
        first, number = (begun[side][0], begun[side][1] + 1) if frame["opcode"] == "cont" else (frame["offset"], 1)
        begun[side] = first, number
        if not frame["fin"] and not {(side, frame["offset"], "at"), (side, first, number)} & without:
            out.append(frame)
    return out


def facts(report):
    """The seven facts, as `wsn closing` prints them."""

    def state(side):
        if side["state"] == "closed":
            return f"closed {side['code'] or '-'}"
        return (
            f"refused {side['offset']} {side['reason']} {side['code']}" if side["state"] == "refused" else side["state"]
        )

    echo = {True: "yes", False: "no", None: "-"}[report["echo"]]
    plain = {key: str(report[key] or "-") for key in ("first", "client_sees", "server_sees", "outcome")}
    return {"client": state(report["client"]), "server": state(report["server"]), "echo": echo, **plain}


def outcome(report):
    """Words that the page's sentences have for an outcome, beside its explanations."""
    kind, words, sides = report["outcome"], [], {side: report[side] for side in ("client", "server")}
    for side, other in ("client", "server"), ("server", "client"):
        state = sides[side]
        if state["state"] == "refused":
            words.append(f"{other} must refuse byte {state['offset']} of what the {side} sent: {state['reason']}")
            words.append(f"It should close with code {state['code']}")
        if kind == "abnormal" and state["state"] in ("ended", "cut"):
            both = sides[other]["state"] == state["state"]
            words.append("Both directions ended" if both else f"he {side}'s direction ended")
        if kind == "abnormal" and state["state"] == "closed":
            words.append(f"The {side} sent a Close")
    if kind in ("clean", "complete", "half"):
        code = sides[report["first"]]["code"]
        words.append(f"The {report['first']} " + ("sent a Close" if kind == "half" else "closed first,"))
        words.append("without a code" if code is None else f"with code {code}")
    return words or ["Nothing is wrong so far"]


def broke(shown):
    """The begin of an abnormal session's headline: whose end mark is the first, and whether a comment says that it reset."""
    side = next(entry["side"] for entry in shown if entry["type"] == "end")
    resets = [entry for entry in shown if entry["type"] == "comment" and entry.get("text") == f" reset by the {side}"]
    return f"The {side} {'reset' if resets else 'ended'} the connection"


def bad_character(entry, wire, stream):
    """The bytes of a refused text's bad character up to the offending one, and the offset of the first; nothing of what is
    refused for something else. What the program says of it must be what the bytes say."""
    if entry["type"] != "refused" or entry["reason"] not in ("text-bad", "text-cut", "close-reason"):
        return None
    found = []
    for frame in wire:
        if frame["type"] != "frame" or frame["side"] != entry["side"] or frame["offset"] > entry["offset"]:
            continue
        if frame["opcode"] == "close":
            found = payload_of(frame, stream)[2:]
        elif frame["opcode"] in DATA:
            found = (found if frame["opcode"] == "cont" else []) + payload_of(frame, stream)
    read = [(byte, offset) for byte, offset in found if offset <= entry["place"]]
    try:
        bytes(byte for byte, _ in read).decode()
    except UnicodeDecodeError as error:
        digits, begin = bytes(byte for byte, _ in read[error.start :]).hex(), read[error.start][1]
        told = entry.get("character")
        if entry["reason"] == "text-bad" and (told["offset"], told["in_payload"], told["hex"]) != (begin, error.start, digits):
            raise ValueError(f"{entry} has the bad character {digits} at {begin}")
        return bytes.fromhex(digits).hex(" "), begin
    raise ValueError(f"{entry} is refused, and is a text")


def payload_of(frame, stream):
    """Each byte of a frame's payload, unmasked, with its offset in what the side sent."""
    form = frame["form"]
    size = 2 if form == "two" or (form == "shortest" and 126 <= frame["length"] < 65536) else 8
    start = frame["offset"] + 2 + (0 if form == "shortest" and frame["length"] < 126 else size)
    key = bytes.fromhex(frame["key"] or "00000000")
    start += 4 if frame["key"] else 0
    return [(byte ^ key[at % 4], start + at) for at, byte in enumerate(stream[start : start + frame["length"]])]


def sent(capture):
    """The bytes of each side of a capture."""
    found = {"client": bytearray(), "server": bytearray()}
    for line in capture.split(b"\n"):
        if line[:2] in (b"C ", b"S "):
            found["client" if line[:1] == b"C" else "server"] += bytes.fromhex(line[2:].decode())
    return found


# Captures

TEXTS = ["Hello", "", "€ 😀", '{"a":[1,{"b":"<i>"}]}', "</script><script>document.title='owned'</script>",
         "<!-- <script>", "line\nfeed\ttab\r", "\x1b[31m \u202e abc \u2066 \u2028", "x" * 199 + "😀😀",
         "שלום עולם", '"quoted" \\ back', "y" * 5000, "\ufeffmark", "in\u200bvis\U000e0041ible"]  # fmt: skip
COMMENTS = [" a comment", "", " </script><b>x</b>", " \u202e turned", " 1.", " reset by the server", " path: /</dd><b>x"]
FAULTS = [
    b"\xc1",
    b"\x83\x00",
    b"\x09\x00",
    b"\x80\x00",
    b"\x81\x05Gr\xfc\xdfe",
    b"\x81\x06Ren\xe9 D",
    b"\x01\x03a\xf0\x9f\x89\x00\x00\x01\x98\x80\x03\x28ok",
    b"\x01\x02a\xe2\x80\x01\x82",
    b"\x01\x01a\x80\x01\xe2",
    b"\x88\x05\x03\xe8\xed\xa0\x80",
    b"\x88\x01",
    b"\x88\x02\x03\xec",
    b"\x82\xff",
]


class Maker:
    """Makes what one side sends, by chance."""

    def __init__(self, chance, client, longer):
        self.chance, self.client, self.longer = chance, client, longer

    def frame(self, first, payload):
        """A frame, with a key if a client sends it; with `longer`, some lengths have more bytes than needed."""
        size, mask = len(payload), 0x80 if self.client else 0
        least = 0 if size < 126 else 2 if size < 65536 else 8
        more = self.chance.choice([least, least, max(least, 2), 8]) if self.longer and not first & 8 else least
        head = bytes([first, mask | {0: size, 2: 126, 8: 127}[more]]) + (size.to_bytes(more, "big") if more else b"")
        if not self.client:
            return head + payload
        key = self.chance.randbytes(4)
        return head + key + bytes(byte ^ key[at % 4] for at, byte in enumerate(payload))

    def control(self):
        kind = self.chance.choice([9, 10])
        return self.frame(0x80 | kind, self.chance.choice([b"", b"ping", b"\x00\xff", self.chance.randbytes(125)]))

    def message(self):
        """A message, in some frames, with controls between."""
        kind = self.chance.choice([1, 1, 2])
        data = (
            self.chance.choice(TEXTS).encode()
            if kind == 1
            else self.chance.randbytes(self.chance.choice([0, 1, 7, 300, 70000]))
        )
        cuts = sorted(self.chance.randint(0, len(data)) for _ in range(self.chance.choice([0, 0, 1, 3])))
        out = b""
        for at, (begin, end) in enumerate(zip([0, *cuts], [*cuts, len(data)])):
            out += self.frame((0 if at else kind) | (0x80 if at == len(cuts) else 0), data[begin:end])
            out += self.control() if at < len(cuts) and self.chance.random() < 0.3 else b""
        return out

    def stream(self):
        """What it sends: whole, refused, cut, or closed and going on."""
        out = b"".join(
            self.message() if self.chance.random() < 0.7 else self.control() for _ in range(self.chance.randint(0, 8))
        )
        end = self.chance.choice(["closed", "closed", "closed", "tail", "refused", "cut", "open", "interrupted"])
        if end == "refused":
            return out + self.chance.choice(FAULTS) + self.chance.randbytes(self.chance.choice([0, 5, 3000]))
        if end == "interrupted":
            out += self.frame(1, b"begun")
        if end in ("closed", "tail", "interrupted"):
            reason = self.chance.choice([b"", b"\x03\xe8", b"\x03\xe9bye", b"\x0f\xa0" + "</title>\u202e €".encode()])
            return out + self.frame(0x88, reason) + (b"after" if end == "tail" else b"")
        return out[: self.chance.randint(0, len(out))] if end == "cut" else out


def capture(seed):
    """A capture of both sides, torn into lines, with times, comments, ends or none."""
    chance = random.Random(seed)
    left = {"C": Maker(chance, True, seed % 2).stream(), "S": Maker(chance, False, seed % 2).stream()}
    lines, time, end = [], 0.0, chance.choice(["\n", "\r\n"])
    timed = chance.random() < 0.7
    while any(left.values()):
        side = chance.choice([side for side in left if left[side]])
        size = chance.choice([1, 20, 20, 4096, 4096])
        if timed and chance.random() < 0.5:
            time += chance.choice([0.000001, 0.5, 3])
            lines.append(f"# {time:.{chance.choice([6, 6, 9])}f}")
        lines += [f"#{chance.choice(COMMENTS)}"] if chance.random() < 0.1 else []
        digits = left[side][:size].hex()
        lines.append(f"{side} {digits.upper() if chance.random() < 0.1 else digits}")
        left[side] = left[side][size:]
    lines += [f"{side}." for side in chance.sample(["C", "S"], chance.randint(0, 2))]
    return (end.join(lines) + chance.choice([end, ""])).encode()
