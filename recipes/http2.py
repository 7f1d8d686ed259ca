"""HTTP/2 as far as WebSocket needs it: what a side's frames say of each stream (RFC 9113, RFC 8441).

Header blocks are decoded by the library hpack, which Debian has in the package python3-hpack.
"""

import functools
import importlib
import re
import sys
from types import ModuleType
from typing import Dict, Iterator, List, NamedTuple, Optional, Tuple

from handshake import HEAD_LIMIT, Head, Malformed

PREFACE = b"PRI * HTTP/2.0\r\n\r\nSM\r\n\r\n"  # What a client sends first (RFC 9113, 3.4).
DATA, HEADERS, RST_STREAM, SETTINGS, PUSH_PROMISE, CONTINUATION = 0, 1, 3, 4, 5, 9
END_STREAM, END_HEADERS, PADDED, PRIORITY = 0x01, 0x04, 0x08, 0x20
HEAD = 9  # The bytes of a frame's head.
PACKAGES = "/usr/lib/python3/dist-packages"  # Where Debian has libraries; a Python from elsewhere doesn't look there.
NO_LIBRARY = "is HTTP/2, and Python's library hpack isn't here; Debian has it in the package python3-hpack"

Fields = List[Tuple[bytes, bytes]]


@functools.lru_cache(maxsize=None)
def library() -> Optional[ModuleType]:
    """The library hpack; None without it."""
    for more in [], [PACKAGES]:
        sys.path += more
        try:
            return importlib.import_module("hpack")
        except ImportError:
            pass
    return None


def is_settings(data: bytes) -> bool:
    """Whether this begins as what a server sends first, perhaps before its client's first bytes."""
    return data[:1] == b"\0" and data[3:4] == bytes([SETTINGS])


class Frame(NamedTuple):
    """The head of a frame."""

    size: int
    kind: int
    flags: int
    stream: int


def frame_at(data: bytearray) -> Optional[Frame]:
    """The head at the front of these bytes; None while it isn't whole."""
    if len(data) < HEAD:
        return None
    return Frame(int.from_bytes(data[:3], "big"), data[3], data[4], int.from_bytes(data[5:9], "big") & 0x7FFFFFFF)


class Event(NamedTuple):
    """What a side says of a stream: `head` (with fields), `data`, `end`, `reset`, or `push` (a promise of it)."""

    stream: int
    kind: str
    data: bytes = b""
    fields: Fields = []


class Frames:
    """What one side of a connection sends, taken apart as it comes."""

    def __init__(self, side: str):
        decoder = library()
        assert decoder is not None
        self.failure = decoder.HPACKError
        self.decoder = decoder.Decoder(max_header_list_size=HEAD_LIMIT)
        self.decoder.max_allowed_table_size = HEAD_LIMIT  # The other side's settings have the limit; it isn't ours.
        self.preface = PREFACE if side == "C" else b""  # What comes before the first frame.
        self.held = bytearray()
        self.data: Optional[Frame] = None  # The DATA frame of which bytes or padding are still to come.
        self.left = self.padding = 0
        self.first: Optional[Frame] = None  # The frame that began a header block which isn't whole.
        self.block = b""

    def take(self, data: bytes) -> Iterator[Event]:
        """Takes bytes; what they say. Malformed, where they are no HTTP/2."""
        self.held += data
        while (events := self.step()) is not None:
            yield from events

    def step(self) -> Optional[List[Event]]:
        """Takes off the preface, a frame, or what is there of a DATA frame; None if more bytes are needed."""
        if self.preface:
            return self.take_preface()
        if self.data is not None:
            return self.pass_data(self.data) if self.held else None
        frame = frame_at(self.held)
        if frame is None:
            return None
        if self.first is not None and (frame.kind, frame.stream) != (CONTINUATION, self.first.stream):
            raise Malformed("a header block that is interrupted")
        if frame.kind == DATA:
            return self.begin_data(frame)
        if len(self.held) < HEAD + frame.size:
            return None
        payload = bytes(self.held[HEAD : HEAD + frame.size])
        del self.held[: HEAD + frame.size]
        return self.whole(frame, payload)

    def take_preface(self) -> Optional[List[Event]]:
        """Takes what a client sends first."""
        if len(self.held) < len(PREFACE):
            return None
        if not self.held.startswith(PREFACE):
            raise Malformed("another preface")
        self.preface = b""
        del self.held[: len(PREFACE)]
        return []

    def begin_data(self, frame: Frame) -> Optional[List[Event]]:
        """Takes the head of a DATA frame, with the size of its padding."""
        front = HEAD + (1 if frame.flags & PADDED else 0)
        if len(self.held) < front:
            return None
        self.padding = self.held[HEAD] if frame.flags & PADDED else 0
        self.left = frame.size - (front - HEAD) - self.padding
        if self.left < 0:
            raise Malformed("more padding than the frame has bytes")
        del self.held[:front]
        self.data = frame
        return self.pass_data(frame)

    def pass_data(self, frame: Frame) -> List[Event]:
        """Takes what is there of a DATA frame, and says that the side ends the stream with it."""
        data = self.taken(self.left)
        self.left -= len(data)
        if self.left == 0:
            self.padding -= len(self.taken(self.padding))
        if self.left == 0 and self.padding == 0:
            self.data = None
        events = [Event(frame.stream, "data", data)] if data else []
        return events + self.end_of(frame) if self.data is None else events

    def taken(self, count: int) -> bytes:
        """At most so many of the next bytes, taken off."""
        data = bytes(self.held[:count])
        del self.held[:count]
        return data

    def end_of(self, frame: Frame) -> List[Event]:
        """That the side ends the stream, if this frame says so."""
        return [Event(frame.stream, "end")] if frame.flags & END_STREAM else []

    def whole(self, frame: Frame, payload: bytes) -> List[Event]:
        """A frame other than DATA."""
        if frame.kind in (HEADERS, PUSH_PROMISE):
            self.first, self.block = frame, b""
            return self.take_block(frame, unpadded(frame, payload))
        if frame.kind == CONTINUATION:
            return self.take_block(frame, payload)
        return [Event(frame.stream, "reset")] if frame.kind == RST_STREAM else []

    def take_block(self, frame: Frame, part: bytes) -> List[Event]:
        """Takes a part of a header block; what the block says, if this is its last part."""
        if self.first is None:
            raise Malformed("a part of no header block")
        self.block += part
        if len(self.block) > HEAD_LIMIT:
            raise Malformed(f"a header block of more than {HEAD_LIMIT} bytes")
        if not frame.flags & END_HEADERS:
            return []
        first, self.first = self.first, None
        if first.kind == PUSH_PROMISE:
            self.fields(self.block[4:])
            return [Event(int.from_bytes(self.block[:4], "big") & 0x7FFFFFFF, "push")]
        return [Event(first.stream, "head", fields=self.fields(self.block)), *self.end_of(first)]

    def fields(self, block: bytes) -> Fields:
        """Decodes a header block. Each one counts, since it changes how the next are decoded."""
        try:
            return [(bytes(name), bytes(value)) for name, value in self.decoder.decode(block, raw=True)]
        except self.failure as error:
            raise Malformed("a header block that can't be decoded") from error


def unpadded(frame: Frame, payload: bytes) -> bytes:
    """The part of a header block in a frame HEADERS or PUSH_PROMISE, without padding and priority."""
    start = end = 0
    if frame.flags & PADDED:
        start, end = 1, payload[0] if payload else 0
    if frame.kind == HEADERS and frame.flags & PRIORITY:
        start += 5
    if start + end > len(payload):
        raise Malformed("more padding than the frame has bytes")
    return payload[start : len(payload) - end]


def head_of(fields: Fields) -> Head:
    """A head as in HTTP/1.1: its line is `CONNECT PATH HTTP/2` or `HTTP/2 STATUS`."""
    own: Dict[bytes, bytes] = {name: clean(value) for name, value in fields if name.startswith(b":")}
    line = b"HTTP/2 " + own[b":status"] if b":status" in own else b"%s %s HTTP/2" % (
        own.get(b":method", b""), own.get(b":path", b""))  # fmt: skip
    rest = [b"%s: %s" % (clean(name), clean(value)) for name, value in fields if not name.startswith(b":")]
    return Head(b"\r\n".join([line, *rest]) + b"\r\n\r\n")


def clean(text: bytes) -> bytes:
    """A name or a value without what would end its line; HTTP/2 forbids that in both (RFC 9113, 8.2.1)."""
    return re.sub(rb"[\r\n]", b" ", text)


def asks_for_frames(fields: Fields) -> bool:
    """Whether this is a request for a WebSocket connection (RFC 8441, 4 and 5)."""
    own = dict(fields)
    return own.get(b":method") == b"CONNECT" and own.get(b":protocol", b"").lower() == b"websocket"
