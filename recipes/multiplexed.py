"""WebSocket sessions as streams of a connection in HTTP/2 (RFC 8441)."""

from typing import Callable, Dict, List, Optional, Protocol, Set, Tuple

from captures import NAMES
from handshake import HEAD_LIMIT, Malformed, unoffered
from http2 import Event, Fields, Frames, asks_for_frames, head_of
from recorded import Recorded, Sink

OTHER = {"C": "S", "S": "C"}
MALFORMED = "the HTTP/2 is malformed there"


class Carrier(Protocol):
    """The connection that carries the streams."""

    name: str

    @property
    def nodes(self) -> Tuple[str, str]:
        """The client and the server."""

    @property
    def reset(self) -> Optional[Tuple[str, int]]:
        """The side that reset the connection, and when."""

    def missing(self, side: str, is_cut: bool) -> str:
        """What is missing of a side, in words; empty if it is whole."""

    def lacks_end(self, side: str) -> bool:
        """Whether only the packet that ends a side's direction is missing."""


class Stream(Recorded):
    """A stream of which the client asks that it be a WebSocket connection, if its request has come."""

    def __init__(self, streams: "Streams", number: int, time: int):
        name = f"{streams.carrier.name}.{number}"
        super().__init__(name, streams.sink_of(name))
        self.streams = streams
        self.began = self.last = time
        self.held = {"C": b"", "S": b""}  # What came before the handshake was whole.
        self.ended: Dict[str, int] = {}  # The sides that ended it, and when.
        self.reset: Optional[Tuple[str, int]] = None  # The side that sent RST_STREAM first, and when.
        self.is_whole = False  # Nothing was missing when that came.

    # What comes from the connection

    def take_head(self, side: str, fields: Fields, time: int) -> None:
        """A head; those after the first of a side are trailers."""
        head, self.last = head_of(fields), time
        if side == "C" and self.request is None:
            self.request, self.asked = head, time
        elif side == "S" and self.answer is None and self.refused is None and head.is_final:
            if 200 <= head.status < 300:
                self.answer = head
            else:
                self.refused, self.asked = head, time
        if self.lines is None and self.request is not None and self.answer is not None:
            self.begin(self.request, self.answer, unoffered(self.request, self.answer), time)
            for each in "CS":
                self.put_data(each, self.held[each], time)
            for each in self.ended:
                self.put_end(each, time)

    def take_data(self, side: str, data: bytes, time: int) -> None:
        """Bytes of a side. After its end, or its reset, none count."""
        if side in self.ended or (self.reset is not None and self.reset[0] == side):
            return
        self.last = time
        if self.lines is not None:
            self.put_data(side, data, time)
        elif self.refused is None:
            self.held[side] += data

    def put_data(self, side: str, data: bytes, time: int) -> None:
        """Writes bytes of a side."""
        assert self.lines is not None
        if self.sink is not None and data:
            self.sink.put(self.lines.data(side, data, time))

    def end(self, side: str, time: int) -> None:
        """A side ends the stream, or its direction of the connection. After a reset the end marks come last."""
        if side not in self.ended and self.reset is None:
            self.ended[side] = time
            self.put_end(side, time)

    def put_end(self, side: str, time: int) -> None:
        """Writes a side's end mark, once the handshake is whole."""
        if self.lines is not None:
            self.put(self.lines.end(side, time))

    def take_reset(self, side: str, time: int) -> None:
        """A side sends RST_STREAM."""
        if self.reset is None:
            self.reset = side, time
            self.is_whole = not self.streams.missing(OTHER[side], False)

    def put_reset(self) -> None:
        """Writes the end marks of sides that a reset ended. If its sender had ended the stream, it is only the end of
        the other side: HAProxy sends both to a client that hasn't ended it."""
        found = self.reset or self.streams.carrier.reset
        if found is None:
            return
        sender, time = found
        still_open = [side for side in (sender, OTHER[sender]) if side not in self.ended]
        whole = [side for side in still_open if not self.missing(side, False)]
        if self.reset is not None and sender in self.ended:
            for side in whole:
                self.put_end(side, time)
        else:
            self.put_reset_of(sender, time, still_open, whole)

    # What is known of it

    @property
    def nodes(self) -> Tuple[str, str]:
        """The client and the server."""
        return self.streams.carrier.nodes

    @property
    def is_begun(self) -> bool:
        """Whether its handshake isn't whole."""
        return self.lines is None and self.refused is None

    def broken_off(self) -> List[str]:
        """Who ended or reset it before an answer, in words; nothing if nobody did."""
        for side in self.ended:
            return [f"the {NAMES[side]} ended the stream"]
        if self.reset is not None:
            return [f"the {NAMES[self.reset[0]]} reset the stream"]
        found = self.streams.carrier.reset
        return [f"the {NAMES[found[0]]} reset the connection"] if found is not None else []

    def lacks(self, is_cut: bool) -> List[str]:
        """What is missing of both directions, in words."""
        return [words for side in "CS" if (words := self.missing(side, is_cut))]

    def missing(self, side: str, is_cut: bool) -> str:
        """What is missing of a side, in words; empty if it is whole."""
        return "" if self.is_over(side) else self.streams.missing(side, is_cut)

    def lacks_end(self, side: str) -> bool:
        """Whether only the packet that ends a side's direction is missing."""
        return not self.is_over(side) and self.streams.carrier.lacks_end(side)

    def is_over(self, side: str) -> bool:
        """Whether all is there that a side sent before its end, or before a reset."""
        return side in self.ended or (self.reset is not None and (self.reset[0] == side or self.is_whole))


class Streams:
    """The streams of a connection: those that are WebSocket, or whose requests haven't come yet."""

    def __init__(self, carrier: Carrier, sink_of: Callable[[str], Optional[Sink]]):
        self.carrier = carrier
        self.sink_of = sink_of
        self.frames = {side: Frames(side) for side in "CS"}
        self.broken: Set[str] = set()  # The sides whose HTTP/2 is malformed.
        self.known: Dict[int, Optional[Stream]] = {}  # None: it isn't WebSocket.

    def all(self) -> List[Stream]:
        """Those of which the request has come, by their numbers."""
        found = [stream for _, stream in sorted(self.known.items()) if stream is not None]
        return [stream for stream in found if stream.request is not None]

    def take(self, side: str, data: bytes, time: int) -> None:
        """Bytes of a side of the connection."""
        if side in self.broken:
            return
        try:
            for event in self.frames[side].take(data):
                self.take_event(side, event, time)
        except Malformed:
            self.broken.add(side)

    def take_event(self, side: str, event: Event, time: int) -> None:
        """What a side says of a stream."""
        if self.is_other(side, event):
            self.known[event.stream] = None
        elif event.kind == "head" and event.stream not in self.known:
            self.known[event.stream] = Stream(self, event.stream, time)
        stream = self.known.get(event.stream)
        if stream is None:
            return
        if event.kind == "head":
            stream.take_head(side, event.fields, time)
        elif event.kind == "data":
            stream.take_data(side, event.data, time)
            if len(stream.held[side]) > 2 * HEAD_LIMIT:
                self.known[event.stream] = None  # As in HTTP/1.1, these bytes belong to no request.
        elif event.kind == "end":
            stream.end(side, time)
        elif event.kind == "reset":
            stream.take_reset(side, time)

    def is_other(self, side: str, event: Event) -> bool:
        """Whether this shows that a stream isn't WebSocket: the server promises it, or another request begins it."""
        stream = self.known.get(event.stream)
        if event.kind == "push":
            return stream is None
        begins = side == "C" and event.kind == "head" and (stream is None or stream.request is None)
        return begins and not asks_for_frames(event.fields)

    def end(self, side: str, time: int) -> None:
        """A side ends its direction of the connection."""
        for stream in self.known.values():
            if stream is not None and side not in self.broken:
                stream.end(side, time)

    def missing(self, side: str, is_cut: bool) -> str:
        """What is missing of a side of the connection, in words; empty if it is whole."""
        return self.carrier.missing(side, is_cut) or (MALFORMED if side in self.broken else "")
