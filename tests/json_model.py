"""What the JSON objects of `wsn --json` say, as the lines that `wsn` prints without it.

objects(out) reads the lines as JSON, and fails unless each is written as it should be: its members in their order, no
spaces, strings quoted as in the lines of `show`. line_of(read, view) gives the line or lines of an object.
"""
import json
import re

import show_model

ENTRY = ("type", "line", "side", "time", "offset")
VIEWED = ("text", "hex", "code", "reason", "truncated")
FRAME = ("fin", "opcode", "key", "length", "form")
COUNTS = ("frames", "messages", "pings", "pongs")
# The members of each type, in their order; those of an entry that may be missing are in MAY_LACK.
MEMBERS = {
    "event": (*ENTRY, "event", "bytes", "frames", *VIEWED),
    "unfinished": (*ENTRY, "event", "bytes", "frames", "lacks", *VIEWED),
    "refused": (*ENTRY, "place", "reason", "code", "hex", "truncated", "character"),
    "unread": (*ENTRY, "bytes", "hex", "truncated"),
    "tail": (*ENTRY, "bytes", "hex", "truncated"),
    "end": ENTRY,
    "frame": (*ENTRY, *FRAME),
    "comment": ("type", "line", "text", "hex"),
    "ended-by": ("type", "side", "reset"),
    "report": ("type", "client", "server", "first", "echo", "client_sees", "server_sees", "outcome"),
    "accepted": ("type", "verdict", "used", "tail", "unfinished", *COUNTS, "close"),
    "cut": ("type", "verdict", "used", "unfinished", *COUNTS),
    "refused verdict": ("type", "verdict", "offset", "reason", "code"),
    "comparison": ("type", "answer", "event", "first", "second", "differ_at", "verdict"),
}
MAY_LACK = {"line", "side", "time", *VIEWED, "event", "verdict", "character"}
# The members of a bad character, which a refusal has if its reason is text-bad.
CHARACTER = ("offset", "in_payload", "hex", "before")
# The events of two streams that differ: in a comparison's object only with --view.
EVENTS = ("first", "second")
# Where their payloads differ, and a view of one of them.
DIFFERING = ("in_payload", *EVENTS)
AROUND = ("from", "text", "hex", "truncated")


class Number(str):
    """A number as it is written."""


def in_ascii(text):
    """A text in quotation marks: each character but printable ASCII as its units of UTF-16, in four digits each."""
    shown = text.replace("\\", "\\\\").replace('"', '\\"')
    units = [(it, it.encode("utf-16-be").hex()) for it in shown]
    return '"%s"' % "".join(it if " " <= it <= "~" else "\\u" + "\\u".join(re.findall("....", hex)) for it, hex in units)


def compact(value, quoted=lambda text: show_model.quoted(text.encode())):
    """The value as JSON without spaces, strings quoted as in the lines of `show`, around a difference in ASCII."""
    if isinstance(value, dict):
        written = ((it, compact(value[it], in_ascii if it == "differ_at" else quoted)) for it in value)
        return "{%s}" % ",".join(f'"{key}":{text}' for key, text in written)
    if isinstance(value, Number):
        return value
    if isinstance(value, str):
        return quoted(value)
    return {None: "null", True: "true", False: "false"}[value]


def kind_of(read):
    if read["type"] != "verdict":
        return read["type"]
    return "refused verdict" if read["verdict"] == "refused" else read["verdict"]


def objects(out):
    lines = out.decode().split("\n")
    assert lines.pop() == "", f"no line feed at the end: {out!r}"
    found = []
    for line in lines:
        read = json.loads(line, parse_int=Number, parse_float=Number)
        assert compact(read) == line, line
        expect_members(read)
        found.append(read)
    return found


def expect_members(read):
    """Fails unless the object has the members of its type, in their order, and so has each event in it."""
    members = MEMBERS[kind_of(read)]
    compared = read["type"] == "comparison"
    missing = {*MAY_LACK, *EVENTS, "differ_at"} if compared else MAY_LACK
    assert list(read) == [it for it in members if it in read], read
    assert all(it in missing or it in read for it in members), read
    assert ("character" in read) == (read["type"] == "refused" and read["reason"] == "text-bad"), read
    if "character" in read:
        assert list(read["character"]) in ([*CHARACTER], [*CHARACTER, "truncated"]), read
    for it in EVENTS if compared else ():
        if read.get(it) is not None:
            expect_members(read[it])
    differing = read.get("differ_at")
    assert ("differ_at" in read) == (compared and "first" in read), read
    if differing is not None:
        assert tuple(differing) == DIFFERING, differing
        for part in (differing[it] for it in EVENTS if differing[it] is not None):
            assert list(part) == [it for it in AROUND if it in part] and ("text" in part) != ("hex" in part), part


def dashed(value):
    return "-" if value is None else value


def hexadecimal(read, view):
    return "-" if view == 0 else (read["hex"] or "-") + (" .." if "truncated" in read else "")


def viewed(read, view):
    more = " .." if "truncated" in read else ""
    if "code" in read:
        reason = f" {show_model.quoted(read['reason'].encode())}" if "reason" in read else ""
        return f"{dashed(read['code'])}{reason}"
    if "text" in read:
        return "-" if view == 0 and more else show_model.quoted(read["text"].encode()) + more
    return hexadecimal(read, view)


def frame_line(read):
    form = "" if read["form"] == "shortest" else f" {read['form']}"
    end = "fin" if read["fin"] else "more"
    return f"{read['offset']} {end} {read['opcode']} {dashed(read['key'])} {read['length']}{form}"


def verdict_line(read):
    if read["verdict"] == "accepted":
        return f"accepted {read['used']} tail {read['tail']} unfinished {dashed(read['unfinished'])}"
    if read["verdict"] == "cut":
        return f"cut {read['used']}"
    return f"refused {read['offset']} {read['reason']} {read['code']}"


def side_line(read):
    if read["state"] == "closed":
        return f"closed {dashed(read['code'])}"
    if read["state"] == "refused":
        return f"refused {read['offset']} {read['reason']} {read['code']}"
    return read["state"]


def report_lines(read):
    echo = {True: "yes", False: "no", None: "-"}[read["echo"]]
    return [
        f"client {side_line(read['client'])}", f"server {side_line(read['server'])}", f"first {dashed(read['first'])}",
        f"echo {echo}", f"client-sees {dashed(read['client_sees'])}", f"server-sees {dashed(read['server_sees'])}",
        f"outcome {read['outcome']}",
    ]


def comparison_lines(read, view):
    if read["answer"] in EVENTS:
        return [f"{read['answer']} {verdict_line(read['verdict'])}"]
    if read["answer"] != "different":
        return [read["answer"]]
    events = [(it, "-" if read[it] is None else lines_of(read[it], view)[0]) for it in EVENTS if it in read]
    lines = [f"different {read['event']}", *(f"{it} {line}" for it, line in events)]
    differing = read.get("differ_at")
    if differing is not None:
        lines.append(f"differ-at {differing['in_payload']} {around(differing['first'])} {around(differing['second'])}")
    return lines


def around(part):
    """The view of a payload around the first byte that differs."""
    if part is None:
        return "-"
    shown = in_ascii(part["text"]) if "text" in part else part["hex"] or "-"
    return (".." if part["from"] != "0" else "") + shown + (" .." if "truncated" in part else "")


def entry_text(read, view):
    """An entry's line after its offset."""
    kind = read["type"]
    if kind == "refused":
        shown = "-" if view == 0 else (".." if "truncated" in read else "") + read["hex"]
        return f"refused {read['place']} {read['reason']} {read['code']} {shown}"
    if kind in ("unread", "tail"):
        return f"{kind} {read['bytes']} {hexadecimal(read, view)}"
    if kind == "end":
        return kind
    counted = f"{read['event']} {read['bytes']} {read['frames']}"
    if kind == "unfinished":
        return f"unfinished {counted} lacks {dashed(read['lacks'])} {viewed(read, view)}"
    return f"{counted} {viewed(read, view)}"


def character_text(read, view):
    """A bad character's line after its offset."""
    digits = read["hex"]
    escapes = "".join(f"\\x{digits[at:at + 2]}" for at in range(0, len(digits), 2))
    more = ".." if "truncated" in read else ""
    before = show_model.quoted(read["before"].encode())[:-1]
    return f"bad-character {read['in_payload']} " + ("- -" if view == 0 else f'{digits} {more}{before}{escapes}"')


def lines_of(read, view=48):
    """The lines that an object stands for."""
    kind = read["type"]
    if kind == "report":
        return report_lines(read)
    if kind == "verdict":
        return [verdict_line(read)]
    if kind == "comparison":
        return comparison_lines(read, view)
    if kind == "ended-by":
        return [f"ended-by {read['side']}" + (" reset" if read["reset"] else "")]
    if kind == "comment":
        return [show_model.comment(b"#" + (read["text"].encode() if "text" in read else bytes.fromhex(read["hex"])))]
    if "side" not in read:
        return [frame_line(read)]
    front = f"{read['side'][0].upper()} {dashed(read.get('time'))} "
    if kind == "frame":
        return [front + frame_line(read)]
    lines = [f"{front}{read['offset']} {entry_text(read, view)}"]
    if "character" in read:
        lines.append(f"{front}{read['character']['offset']} {character_text(read['character'], view)}")
    return lines


def counts_of(lines):
    """The counts that a verdict's object has, worked out from the lines of `frames` before it: whole frames' alone."""
    frames = [line.split() for line in lines]
    final = [frame[2] for frame in frames if frame[1] == "fin"]
    messages = sum(kind in ("text", "binary", "cont") for kind in final)
    return [len(frames), messages, final.count("ping"), final.count("pong")]
