"""WebSocket sessions of a pcap: what each TCP connection carries, in HTTP/1.1, in HTTP/2, or after the handshake."""

import re
from typing import Callable, List, Optional, Sequence, Tuple

from captures import NAMES, comment, time_of_day
from handshake import HEAD_LIMIT, Head, Malformed, Opening, faults
from http2 import PREFACE, is_settings, library
from multiplexed import OTHER, Streams
from packets import FIN, RST, Segment, nodes
from recorded import Recorded, Sink
from streams import Connection, Direction, Lack
from tshark import Record


class Session(Recorded):
    """What is known of a connection: whether it is WebSocket, or has streams that are."""

    def __init__(self, connection: Connection, midway: bool, sink_of: Callable[[str], Optional[Sink]]):
        super().__init__(str(connection.number), sink_of(str(connection.number)))
        self.connection = connection
        self.midway = midway
        self.sink_of = sink_of
        self.opening = Opening()
        self.early = [b"", b""]  # The first bytes of each direction, before it is known whose they are.
        self.sides: Optional[str] = None  # The letters of both directions.
        self.is_other = False  # Neither HTTP nor, with `midway`, anything with data.
        self.is_http2 = False
        self.streams: Optional[Streams] = None  # Those of HTTP/2.
        self.hello = b""  # The first bytes of TLS.
        self.is_opened = False  # Keys have opened its TLS.
        self.locked: List[List[bytes]] = [[], []]  # Bytes in TLS after a gap that isn't closed yet.
        self.ending: List[Tuple[int, int]] = []  # Directions that ended and have no end mark yet, and the time.
        self.reset_time = 0
        self.first = 0  # The direction that sent the first bytes.

    # What comes from the connection

    def segment(self, direction: Direction, segment: Segment, data: bytes) -> None:
        """A segment was taken, and these bytes of its direction are in order now."""
        self.put_ends()
        if data:
            self.data(direction, data, segment.time)
        if segment.flags & RST and not self.reset_time:
            self.reset_time = segment.time
        if (data or segment.flags & FIN) and direction.is_over and not direction.ended:
            direction.ended = True
            self.ending.append((direction.index, segment.time))

    def data(self, direction: Direction, data: bytes, time: int) -> None:
        """Bytes of TCP, in order."""
        if not self.began:
            self.first, self.began = direction.index, time
            if data[:1] == b"\x16":  # TLS; neither HTTP nor a frame begins so.
                self.hello = data
        self.last = time
        if not self.hello:
            self.plain(direction.index, data, time)
        elif len(self.hello) < 43 and direction.index == self.first and data is not self.hello:
            self.hello += data

    def record(self, direction: Direction, record: Record) -> None:
        """Bytes that were in TLS. After a gap they wait until it is closed."""
        if not self.hello:
            return
        self.is_opened = True
        self.locked[direction.index].append(record.data)
        self.unlock(direction, record.time)

    def unlock(self, direction: Direction, time: int) -> None:
        """Takes what was in TLS, if nothing is missing before it."""
        if direction.is_whole:
            for data in self.locked[direction.index]:
                self.plain(direction.index, data, time)
            self.locked[direction.index] = []

    # What becomes of it

    def plain(self, index: int, data: bytes, time: int) -> None:
        """Bytes of HTTP or of frames."""
        if self.is_other:
            return
        if self.sides is not None:
            self.take(self.sides[index], data, time)
            return
        self.early[index] += data
        if len(self.early[index]) < (2 if self.midway else 4) or self.waits_for_client(self.early[index]):
            return
        is_client = self.side_of(self.early[index]) == "C"
        self.sides = "CS" if is_client == (index == 0) else "SC"
        for each in index, 1 - index:
            if self.early[each]:
                self.take(self.sides[each], self.early[each], time)

    def waits_for_client(self, data: bytes) -> bool:
        """Whether a server of HTTP/2 sends this, of which the client's first bytes haven't come yet."""
        return not self.midway and is_settings(data) and len(data) < HEAD_LIMIT

    def side_of(self, data: bytes) -> str:
        """The side that sends what begins so."""
        if not self.midway:
            self.is_http2 = data[:4] == PREFACE[:4]
            self.is_other = not re.match(rb"HTTP|[A-Z]+( |$)", data[:8]) or (self.is_http2 and library() is None)
            if self.is_http2 and not self.is_other:
                self.streams = Streams(self, self.sink_of)
            return "S" if data.startswith(b"HTTP") else "C"
        if data[:4] in (b"GET ", b"HTTP", PREFACE[:4]):
            self.notes.append("warning: the connection begins with its handshake: leave -m out")
        self.open(self.began, comment(f"recorded since {time_of_day(self.began)}"))
        return "C" if data[1] & 0x80 else "S"

    def take(self, side: str, data: bytes, time: int) -> None:
        """Bytes of a side."""
        if self.streams is not None:
            self.streams.take(side, data, time)
        elif self.lines is None:
            self.take_opening(side, data, time)
        elif self.sink is not None:
            self.check_first(side, data)
            self.sink.put(self.lines.data(side, data, time))

    def take_opening(self, side: str, data: bytes, time: int) -> None:
        """Bytes of a side, before the handshake is whole."""
        opening = self.opening
        before = opening.asked, opening.refusal
        try:
            is_done = opening.take(side, data)
        except Malformed:
            self.is_other, is_done = True, False
        self.request = opening.request if opening.answer else opening.asked
        self.answer, self.refused = opening.answer, opening.refusal
        if (opening.asked, opening.refusal) != before:
            self.asked = time
        if is_done and opening.request is not None and opening.answer is not None:
            self.begin_frames(opening.request, opening.answer, time)

    def begin_frames(self, request: Head, answer: Head, time: int) -> None:
        """The handshake is whole."""
        self.begin(request, answer, faults(request, answer), time)
        for each in "CS":
            if self.opening.held[each]:
                self.take(each, self.opening.held[each], time)

    def check_first(self, side: str, data: bytes) -> None:
        """Warns if a side's first bytes can't begin a frame, where that was taken for granted."""
        assert self.lines is not None
        if self.midway and not self.lines.bytes[side] and not can_begin(side, data):
            name = NAMES[side]
            self.notes.append(f"warning: the {name}'s first bytes can't begin a frame, so its verdict means nothing")

    def put_ends(self) -> None:
        """Writes the end marks of directions that ended with the last packet, or before the handshake was whole."""
        if self.sides is None or (self.lines is None and self.streams is None):
            return
        for index, time in self.ending:
            if self.streams is not None:
                self.streams.end(self.sides[index], time)
            elif self.lines is not None:
                self.put(self.lines.end(self.sides[index], time))
        self.ending = []

    def settle(self) -> None:
        """Nothing more comes."""
        for direction in self.connection.directions:
            self.unlock(direction, self.last)
            if self.streams is not None and self.connection.reset_by is not None:
                direction.ended = True
        self.put_ends()

    def put_reset(self) -> None:
        """Writes the end marks of directions that a reset ended, the sender's first."""
        if self.reset is None or self.sides is None:
            return
        sender, time = self.reset
        still_open = [side for side in (sender, OTHER[sender]) if not self.direction_of(side).ended]
        whole = [side for side in still_open if (lack := self.direction_of(side).lack()) is None or lack.kind == "end"]
        for side in still_open:
            self.direction_of(side).ended = True
        self.put_reset_of(sender, time, still_open, whole)

    # What is missing

    def direction_of(self, side: str) -> Direction:
        """The direction of a side."""
        assert self.sides is not None
        return self.connection.directions[self.sides.index(side)]

    def lacks(self, is_cut: bool) -> List[str]:
        """What is missing of both directions, in words."""
        return [words for each in self.connection.directions if (words := self.words(each, is_cut))]

    def missing(self, side: str, is_cut: bool) -> str:
        """What is missing of a side, in words; empty if it is whole."""
        return self.words(self.direction_of(side), is_cut)

    def words(self, direction: Direction, is_cut: bool) -> str:
        """What is missing of a direction, in words; empty if it is whole."""
        lack = direction.lack()
        if lack is not None and lack.kind != "end":
            return in_words(lack, bool(self.hello))
        return "the pcap is cut short in a packet" if is_cut and not direction.ended else ""

    def lacks_end(self, side: str) -> bool:
        """Whether only the packet that ends a side's direction is missing."""
        direction = self.direction_of(side)
        lack = direction.lack()
        return lack is not None and lack.kind == "end" and not direction.ended

    # What is known of it

    @property
    def parts(self) -> Sequence[Recorded]:
        """What can be WebSocket of it: its streams or, if it isn't HTTP/2, itself."""
        return [self] if self.streams is None else self.streams.all()

    @property
    def is_session(self) -> bool:
        """Whether a capture can be written."""
        return self.began > 0 if self.midway else self.lines is not None

    @property
    def reset(self) -> Optional[Tuple[str, int]]:
        """The side that reset the connection, and when."""
        sender = self.connection.reset_by
        return (self.sides[sender.index], self.reset_time) if self.sides and sender is not None else None

    def broken_off(self) -> List[str]:
        """Who ended or reset it before an answer, in words; nothing if nobody did."""
        names = ("client", "server") if self.first == 0 else ("server", "client")
        if self.ending:
            return [f"the {names[self.ending[0][0]]} ended the connection"]
        sender = self.connection.reset_by
        return [f"the {names[sender.index]} reset the connection"] if sender is not None else []

    @property
    def is_begun(self) -> bool:
        """Whether it begins as a WebSocket connection does, but its handshake isn't whole."""
        asked = self.opening.request or (Head(self.opening.held["C"]) if self.opening.held["C"] else None)
        answered = Head(self.opening.held["S"])
        return self.lines is None and ((asked is not None and asked.asks_for_frames) or answered.status == 101)

    @property
    def nodes(self) -> Tuple[str, str]:
        """The client and the server."""
        both = nodes(self.connection.way)
        client = self.first if self.sides is None else self.sides.index("C")
        return both[client], both[1 - client]

    @property
    def random(self) -> str:
        """The number by which a key log names a TLS session; empty if none begins here."""
        is_hello = len(self.hello) >= 43 and self.hello[5] == 1
        return self.hello[11:43].hex() if is_hello else ""


def can_begin(side: str, data: bytes) -> bool:
    """Whether a side's first two bytes can be those of a frame."""
    if len(data) < 2:
        return True
    opcode, size = data[0] & 15, data[1] & 127
    control = opcode >= 8
    return (
        data[0] & 0x70 == 0
        and opcode in (0, 1, 2, 8, 9, 10)
        and not (control and (data[0] < 0x80 or size > 125))
        and (data[1] >= 0x80) == (side == "C")
    )


def in_words(lack: Lack, is_tls: bool) -> str:
    """What is missing."""
    count = "bytes" if is_tls else "1 byte" if lack.missing == 1 else f"{lack.missing} bytes"
    return {
        "lost": f"{count} missing there, as packet {lack.packet} shows",
        "short": f"packet {lack.packet} was captured short, take more (tcpdump -s 0)",
        "tail": f"{count} missing there, at its end",
    }[lack.kind]
