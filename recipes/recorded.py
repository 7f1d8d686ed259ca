"""A WebSocket session of a pcap: its handshake and its capture, whatever carries its bytes."""

import pathlib
import shutil
from typing import BinaryIO, List, Optional, Tuple

from captures import NAMES, Lines, escaped, front
from handshake import Head
from names import named

MEMORY = 1 << 16  # The maximum characters of a capture that are kept in memory.
OF_EXTENSIONS = "warning: the server agreed on", "warning: frames that use it"  # How the notes of extensions begin.


class Sink:
    """Lines of a capture that come before it is known what is written in front of them. Without a file all of them stay
    in memory."""

    def __init__(self, part: Optional[pathlib.Path]):
        self.part = part
        self.texts: List[str] = []
        self.size = 0

    def put(self, text: str) -> None:
        """Keeps lines."""
        if text:
            self.texts.append(text)
            self.size += len(text)
            if self.part is not None and self.size > MEMORY:
                with open(self.part, "ab") as file:
                    file.write(self.taken())

    def taken(self) -> bytes:
        """The lines in memory, which it forgets."""
        data = "".join(self.texts).encode()
        self.texts, self.size = [], 0
        return data

    def write(self, file: BinaryIO, before: str) -> None:
        """Writes all, after other lines."""
        file.write(before.encode())
        if self.part is not None and self.part.exists():
            with open(self.part, "rb") as part:
                shutil.copyfileobj(part, file, 1 << 20)
            self.part.unlink()
        file.write(self.taken())


class Recorded:
    """What a connection and a stream of HTTP/2 share: a name in the list, the handshake, and the capture's lines if
    there is a sink for them."""

    def __init__(self, name: str, sink: Optional[Sink]):
        self.name = name
        self.sink = sink
        self.lines: Optional[Lines] = None
        self.front = ""
        self.request: Optional[Head] = None  # The one for frames.
        self.answer: Optional[Head] = None  # That after which both sides send frames.
        self.refused: Optional[Head] = None  # That which refuses them.
        self.notes: List[str] = []
        self.asked = 0  # The time of the last request for frames or, if it was refused, of the answer.
        self.began = self.last = 0  # The time of the first bytes, and of the last packet with some.

    # What a connection and a stream say each in its way

    @property
    def nodes(self) -> Tuple[str, str]:
        """The client and the server."""
        raise NotImplementedError

    @property
    def is_begun(self) -> bool:
        """Whether it begins as a WebSocket session does, but its handshake isn't whole."""
        raise NotImplementedError

    def broken_off(self) -> List[str]:
        """Who ended or reset it before an answer, in words; nothing if nobody did."""
        raise NotImplementedError

    def lacks(self, is_cut: bool) -> List[str]:
        """What is missing of both directions, in words."""
        raise NotImplementedError

    def missing(self, side: str, is_cut: bool) -> str:
        """What is missing of a side, in words; empty if it is whole."""
        raise NotImplementedError

    def lacks_end(self, side: str) -> bool:
        """Whether only the packet that ends a side's direction is missing."""
        raise NotImplementedError

    def put_reset(self) -> None:
        """Writes the end marks of sides that a reset ended."""
        raise NotImplementedError

    # Its handshake

    @property
    def is_session(self) -> bool:
        """Whether a capture can be written."""
        return self.lines is not None

    @property
    def failed(self) -> str:
        """How its handshake failed: the answer's status, or that there is none; empty if it didn't fail."""
        if self.lines is not None or self.request is None:
            return ""
        return f"HTTP {self.refused.status}" if self.refused else "no answer"

    def refusal(self, is_redacted: bool) -> str:
        """How its handshake failed, in words; redacted, without the path and the answer's text."""
        request = "the request" if is_redacted else f"the request for {self.path}"
        if self.refused:
            return f"{request} has the answer {self.refused.status if is_redacted else escaped(self.refused.line)}"
        return "; ".join([f"{request} has no answer", *self.broken_off()])

    # Its capture

    @property
    def extensions(self) -> str:
        """The extensions that the server agreed on, or -."""
        return escaped(self.answer.value("sec-websocket-extensions") if self.answer else "") or "-"

    @property
    def path(self) -> str:
        """The request's path, or -."""
        return escaped(self.request.path if self.request else "") or "-"

    def begin(self, request: Head, answer: Head, wrong: List[str], time: int) -> None:
        """The handshake is whole, with what is wrong in it."""
        self.open(time, front(time, request, answer))
        self.notes += wrong
        if self.extensions != "-":
            self.notes.append(f"{OF_EXTENSIONS[0]} {self.extensions}")
            inflate = named("recipes/inflate")
            self.notes.append(f"{OF_EXTENSIONS[1]} are refused; {inflate} takes permessage-deflate away")

    def open(self, time: int, lines: str) -> None:
        """Frames come from now on."""
        self.lines, self.front = Lines(time), lines

    def put(self, lines: str) -> None:
        """Adds lines to the capture."""
        if self.sink is not None:
            self.sink.put(lines)

    def put_reset_of(self, sender: str, time: int, still_open: List[str], whole: List[str]) -> None:
        """Writes that a side reset what was still open, and the end marks of the sides that are whole."""
        if self.lines is not None and still_open:
            self.put(self.lines.reset(sender, time))
            for side in whole:
                self.put(self.lines.end(side, time))

    def finish(self, is_cut: bool) -> bool:
        """Nothing more comes. Writes a reset's end marks, and notes what is missing; whether anything is."""
        assert self.lines is not None
        self.put_reset()
        lacks = False
        for side in "CS":
            words = self.missing(side, is_cut)
            if words:
                self.notes.append(f"{NAMES[side]}: whole up to byte {self.lines.bytes[side]} of its frames: {words}")
                lacks = True
            elif self.lacks_end(side):
                self.notes.append(f"{NAMES[side]}: the end of its direction isn't in the pcap, all bytes before it are")
        self.put(self.lines.flush())
        return lacks
