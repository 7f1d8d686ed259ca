"""A part of a capture, for a page: some of its lines, and what of the others belongs to them.

Of the other lines it has the messages that go on in these, each side's refusal, what is unfinished, the directions'
ends, and the comments of the handshake: from these the page makes its headline, which is that of the whole capture.
"""

import collections
import json
import re
import sys
import tempfile
from typing import Any, BinaryIO, Counter, Deque, Dict, Iterator, List, NamedTuple, Optional, Tuple

AROUND = 400  # The entries before and after a refusal: as many rows as a page draws at once, or a few more.
HELD = 131072  # The bytes of what is refused or unfinished in other lines.
BEFORE = 1024  # The bytes before a refused frame, where its bad character may begin.
AFTER = 32  # The bytes after an offending one that a page shows.
END = sys.maxsize  # In place of the line of what is left over at the capture's end.
LETTERS = {b"C ": "client", b"S ": "server"}
# The comments that the headline and the handshake are made of, as JSON has them.
TOLD = re.compile(r'"text":" (?:(?:open|recorded) since |(?:path|answer|subprotocol|extensions): |accept is wrong"|'
                  r'(?:subprotocol|extension) .+ was not offered"|inflated,|'
                  r'reset by the (?:client|server)")')  # fmt: skip
TIME = re.compile(rb"# ((?:0|[1-9][0-9]*)\.[0-9]{1,9})\r?\n?")
HEAD = re.compile(r'\{"type":"([a-z-]+)"(?:,"line":([0-9]+))?(?:,"side":"([a-z]+)")?(?:,"time":([0-9.]+|null))?'
                  r'(?:,"offset":([0-9]+))?(?:,"event":"([a-z]+)")?')  # fmt: skip


class NoPart(Exception):
    """Why there is no such part."""


class Entry(NamedTuple):
    """The beginning of an object that `wsn show --json` prints."""

    type: str
    line: int
    side: str
    time: str  # Empty if there is none.
    offset: int
    event: str
    text: str  # All of it.


class Line(NamedTuple):
    """A line of a capture: where it is in the text, and whose bytes it has."""

    number: int
    begin: int
    end: int
    side: str  # Empty if it has no bytes.
    size: int


class Extent(NamedTuple):
    """What each side sent before a part, up to its end, and in all; the number of lines."""

    before: Dict[str, int]
    after: Dict[str, int]
    sent: Dict[str, int]
    lines: int


class Part(NamedTuple):
    """What a page holds of a part: lines of the capture, objects of both kinds, and what it says of the whole."""

    text: bytes
    shown: BinaryIO
    wire: BinaryIO
    about: Dict[str, Any]


def entries(file: BinaryIO) -> Iterator[Entry]:
    """What the program printed, an object a line."""
    file.seek(0)
    for line in file:
        text = line.decode()
        found = HEAD.match(text)
        if not found:
            raise NoPart(f"wsn printed {text[:80]!r}")
        kind, number, side, time, offset, event = found.groups("")
        yield Entry(kind, int(number or END), side, time.replace("null", ""), int(offset or 0), event, text)


def lines_of(capture: bytes) -> Iterator[Line]:
    """A capture's lines."""
    begin = number = 0
    while begin < len(capture):
        end = capture.find(b"\n", begin) + 1 or len(capture)
        number += 1
        side = LETTERS.get(capture[begin : begin + 2], "")
        yield Line(number, begin, end, side, len(capture[begin + 2 : end].rstrip()) // 2 if side else 0)
        begin = end


def around_refusal(shown: BinaryIO) -> Tuple[int, int]:
    """The lines around the first refusal."""
    before: Deque[int] = collections.deque(maxlen=AROUND + 1)
    after: Optional[int] = None
    for entry in entries(shown):
        if after is None and entry.line != END:
            before.append(entry.line)
            after = 0 if entry.type == "refused" else None
        elif after is not None:
            after += 1
            if after == AROUND:
                return before[0], entry.line
    if after is None:
        raise NoPart("no side is refused: name the lines by --from and --to")
    return before[0], END


def extent_of(capture: bytes, first: int, last: int) -> Extent:
    """What each side sent before the line `first`, up to the end of the line `last`, and in all."""
    sent = {"client": 0, "server": 0}
    before = after = None
    number = 0
    for line in lines_of(capture):
        number = line.number
        before = dict(sent) if number == first else before
        if line.side:
            sent[line.side] += line.size
        after = dict(sent) if number == last else after
    if before is None:
        raise NoPart(f"the capture has {number} lines, and none from {first} on")
    return Extent(before, after or sent, sent, number)


class Choice:
    """Which entries, frames and lines are in a page of the lines from `first` to `last`."""

    def __init__(self, first: int, last: int, extent: Extent):
        self.first, self.last, self.extent = first, last, extent
        self.frames: List[Tuple[str, int, int]] = []  # In other lines: a side's, from an offset on, up to a line.
        self.bytes = [(side, sent - 1, sent, END) for side, sent in extent.sent.items()]  # So too, up to an offset.

    def is_inside(self, line: int) -> bool:
        """Whether a line is one of the part's."""
        return self.first <= line <= self.last

    def has_entry(self, entry: Entry) -> bool:
        """Whether an entry is in the page; if so, its frames and bytes are, too."""
        if entry.type == "comment":
            return self.is_inside(entry.line) or TOLD.search(entry.text) is not None
        if entry.type == "event":
            goes_on = entry.line > self.last and entry.offset < self.extent.after[entry.side]
            if not goes_on and not self.is_inside(entry.line):
                return False
            if goes_on or entry.offset < self.extent.before[entry.side]:
                self.frames.append((entry.side, entry.offset, entry.line))
                self.bytes.append((entry.side, entry.offset, END, entry.line))
        elif entry.type in ("refused", "unfinished"):
            self.frames.append((entry.side, entry.offset, entry.line))
            self.bytes.append((entry.side, entry.offset, entry.offset + HELD, entry.line))
        if entry.type == "refused":
            place = json.loads(entry.text)["place"]
            self.bytes.append((entry.side, max(place - HELD, entry.offset - BEFORE), place + 1 + AFTER, END))
        return True

    def has_frame(self, frame: Entry) -> bool:
        """Whether a frame is in the page."""
        return self.is_inside(frame.line) or any(
            side == frame.side and frame.offset >= offset and frame.line <= last for side, offset, last in self.frames
        )

    def has_line(self, line: Line, offset: int) -> bool:
        """Whether a line, whose bytes begin at an offset, is in the page."""
        return self.is_inside(line.number) or any(
            side == line.side and offset < high and offset + line.size > low and line.number <= last
            for side, low, high, last in self.bytes
        )


def chosen_lines(capture: bytes, choice: Choice) -> Tuple[bytes, List[List[Any]]]:
    """The lines in the page, and before which others are left out: place in the text, both offsets, the time."""
    sent = {"client": 0, "server": 0, "": 0}
    parts, runs, size, end, time = [], [], 0, -1, None
    for line in lines_of(capture):
        if choice.has_line(line, sent[line.side]):
            text = capture[line.begin : line.end]
            if line.begin != end:
                runs.append([size, sent["client"], sent["server"], time])
            parts.append(text)
            size, end = size + len(text), line.end
        sent[line.side] += line.size
        if capture[line.begin] == 35:  # A '#'.
            found = TIME.fullmatch(capture, line.begin, line.end)
            time = found[1].decode() if found else time
    return b"".join(parts), runs


def chosen(file: BinaryIO, has: Any) -> BinaryIO:
    """The objects that are in the page, in a file."""
    kept = tempfile.TemporaryFile()
    for entry in entries(file):
        if has(entry):
            kept.write(entry.text.encode())
    return kept


def part_of(capture: bytes, shown: BinaryIO, wire: BinaryIO, lines: Optional[Tuple[int, int]]) -> Part:
    """The part of a capture that has these lines, or else those around the first refusal."""
    first, last = lines or around_refusal(shown)
    extent = extent_of(capture, first, last)
    choice = Choice(first, min(last, extent.lines), extent)
    events: Dict[str, Counter[str]] = {"client": collections.Counter(), "server": collections.Counter()}
    time = ""

    def has(entry: Entry) -> bool:
        nonlocal time
        if entry.type == "event":
            events[entry.side][entry.event] += 1
        time = entry.time if entry.line != END and entry.time else time
        return choice.has_entry(entry)

    kept = chosen(shown, has)
    frames = chosen(wire, lambda entry: entry.type == "frame" and choice.has_frame(entry))
    text, runs = chosen_lines(capture, choice)
    about = {"first": choice.first, "last": choice.last, "lines": extent.lines, "sent": extent.sent, "events": events,
             "time": time, "runs": runs}  # fmt: skip
    return Part(text, kept, frames, about)
