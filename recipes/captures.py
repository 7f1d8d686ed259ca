"""Captures: what both sides of a WebSocket connection sent, as lines of a text (docs/RULES.md, Captures).

Times are whole microseconds. A comment `# SECONDS` is the time of the lines after it, since the connection was open.
"""

import datetime
import re
from typing import Iterable, Iterator, NamedTuple, Optional

from handshake import Head, names_in, shown_name

LINE = 4096  # The maximum bytes that a line has, as 8,192 digits.
TEXT = 8194  # The maximum characters of a line.
NAMES = {"C": "client", "S": "server"}


def escaped(text: str) -> str:
    """A text in which what isn't printable ASCII is escaped."""
    return re.sub(r"[^ -~]", lambda found: found[0].encode("unicode_escape").decode(), text)


def comment(text: str) -> str:
    """A comment's line, escaped."""
    return f"# {escaped(text)}"[:TEXT] + "\n"


def time_of_day(time: int) -> str:
    """A time since 1970, as RFC 3339 has it."""
    day = datetime.datetime(1970, 1, 1) + datetime.timedelta(microseconds=time)
    return day.isoformat(timespec="microseconds") + "Z"


def seconds(time: int) -> str:
    """Seconds and six decimals."""
    return f"{time // 1_000_000}.{time % 1_000_000:06}"


def front(opened: int, request: Head, answer: Head) -> str:
    """The comments at the front of a capture: when the connection was open, what was asked, answered and agreed on."""
    lines = [comment(f"open since {time_of_day(opened)}"), comment(f"path: {request.path}")]
    lines += [comment(f"answer: {answer.line}")]
    protocols = names_in(answer.value("sec-websocket-protocol"))
    lines += [comment(f"subprotocol: {', '.join(map(shown_name, protocols))}")] if protocols else []
    extensions = answer.value("sec-websocket-extensions")
    lines += [comment(f"extensions: {extensions}")] if extensions else []
    return "".join(lines)


class Lines:
    """Makes a capture's lines of what passes. Each function returns the lines that are whole by then.

    Bytes of one side that pass at one time, to the microsecond, are joined; `flush` ends such a line.
    """

    def __init__(self, opened: int):
        self.opened = opened
        self.written: Optional[int] = None  # The last time that was written.
        self.side = ""
        self.waiting = bytearray()
        self.bytes = {"C": 0, "S": 0}

    def data(self, side: str, data: bytes, time: int) -> str:
        """Bytes that a side sent."""
        lines = self.turn(side, time)
        self.bytes[side] += len(data)
        self.waiting += data
        if len(self.waiting) < LINE:
            return lines
        whole = len(self.waiting) // LINE * LINE
        lines += "".join(f"{side} {self.waiting[at : at + LINE].hex()}\n" for at in range(0, whole, LINE))
        del self.waiting[:whole]
        return lines

    def end(self, side: str, time: int) -> str:
        """The end of a side's direction."""
        return self.turn("", time) + f"{side}.\n"

    def reset(self, side: str, time: int) -> str:
        """The comment that a side reset the connection; the end marks come after it."""
        return self.turn("", time) + comment(f"reset by the {NAMES[side]}")

    def turn(self, side: str, time: int) -> str:
        """What comes before the next bytes: the waiting ones, if they can't be joined, and the time, if it is new."""
        time = max(0, time - self.opened)
        lines = self.flush() if side != self.side or time != self.written else ""
        self.side = side
        if time != self.written:
            self.written = time
            lines += f"# {seconds(time)}\n"
        return lines

    def flush(self) -> str:
        """The bytes that wait, as a line."""
        if not self.waiting:
            return ""
        line = f"{self.side} {self.waiting.hex()}\n"
        self.waiting.clear()
        return line


class Entry(NamedTuple):
    """A line of a capture: bytes of a side, its end mark (no bytes), or a comment (no side)."""

    number: int
    side: str
    data: bytes
    text: str


class Faulty(ValueError):
    """A line that isn't a capture's."""


def entries(lines: Iterable[bytes]) -> Iterator[Entry]:
    """A capture's lines. Faulty, with the words of `wsn closing`, at the first that is none."""
    ended = set()
    for number, line in enumerate(lines, 1):
        text = line.rstrip(b"\n").removesuffix(b"\r").decode("latin-1")
        side, mark, digits = text[:1], text[1:2], text[2:]
        if len(text) > TEXT:
            raise Faulty(f"line {number}: too-long")
        if text == "" or side == "#":
            yield Entry(number, "", b"", text)
            continue
        if side not in NAMES or mark not in (".", " ") or (mark == "." and digits):
            raise Faulty(f"line {number}: bad-form")
        data = decoded(digits)
        if mark == " " and not data:
            raise Faulty(f"line {number}: bad-hex")
        if side in ended:
            raise Faulty(f"line {number}: after-end")
        if mark == ".":
            ended.add(side)
        yield Entry(number, side, data, text)


def decoded(digits: str) -> bytes:
    """The bytes of hexadecimal digits; none, if these are no such digits."""
    try:
        data = bytes.fromhex(digits)
    except ValueError:
        return b""
    return data if 2 * len(data) == len(digits) else b""  # `fromhex` skips blanks.
