"""TCP connections: each direction's bytes in order, how it ended, and what is missing."""

from typing import Callable, Dict, List, NamedTuple, Optional, Tuple

from packets import ACK, FIN, RST, SYN, Segment, reverse

HELD = 1 << 26  # The maximum bytes that wait for missing ones before them; TCP's usual windows are far smaller.


class Lack(NamedTuple):
    """What is missing of a direction after its whole bytes.

    `kind` is `lost` (before a packet), `short` (a packet was captured short), `tail`, or `end` (no bytes, but the packet
    that ends the direction).
    """

    kind: str
    packet: int
    missing: int


class Direction:
    """What one node of a connection sends. Places are sequence numbers without their wrapping."""

    def __init__(self, connection: "Connection", index: int):
        self.connection = connection
        self.index = index
        self.last: Optional[Tuple[int, int]] = None  # A place, and its sequence number.
        self.first = 0  # The place of the first byte.
        self.whole = -1  # All bytes before this place are there; -1 before the first packet.
        self.shown = 0  # Some packet with bytes, or a FIN, goes up to this place.
        self.reached = 0  # Numbers of other packets show that it went up to this place.
        self.fin: Optional[int] = None
        self.ended = False
        self.short = 0  # The first packet that was captured short.
        self.waiting: List[Tuple[int, int, bytes]] = []  # Place, packet and bytes of what came too early.
        self.held = 0

    def place(self, sequence: int) -> int:
        """The place of a sequence number, near the last one."""
        assert self.last is not None
        step = (sequence - self.last[1]) & 0xFFFFFFFF
        return self.last[0] + (step - (1 << 32) if step > 1 << 31 else step)

    @property
    def is_whole(self) -> bool:
        """Whether nothing is missing before what has come."""
        return self.shown <= self.whole

    @property
    def is_over(self) -> bool:
        """Whether all bytes up to its FIN are there."""
        return self.fin is not None and self.whole >= self.fin

    def acknowledge(self, sequence: int) -> None:
        """The other node has all bytes before this number."""
        if self.last is not None:
            self.reached = max(self.reached, self.place(sequence))

    def take(self, segment: Segment) -> bytes:
        """Takes a segment; the bytes that are in order by now."""
        if self.last is None:
            self.last = (0, segment.sequence)
        start = self.place(segment.sequence)
        if segment.flags & RST:
            if segment.sequence:
                self.reached = max(self.reached, start)
            return b""
        self.last = (start, segment.sequence)
        start += (segment.flags & SYN) >> 1
        if self.whole < 0:
            self.first = self.whole = self.shown = start
        end = start + segment.length
        if segment.flags & FIN:
            self.fin = end
        if segment.length or segment.flags & FIN:
            self.shown = max(self.shown, end)
        else:
            self.reached = max(self.reached, end)
        if len(segment.data) < segment.length and end > self.whole and not self.short:
            self.short = segment.packet
        return self.cover(start, segment) if segment.data else b""

    def cover(self, start: int, segment: Segment) -> bytes:
        """Bytes that are there: those in order are returned, those that are early wait."""
        if start > self.whole:
            if self.held < HELD:
                self.waiting.append((start, segment.packet, segment.data))
                self.held += len(segment.data)
            return b""
        data = segment.data[self.whole - start :]
        self.whole += len(data)
        return data + self.next_waiting() if self.waiting and data else data

    def next_waiting(self) -> bytes:
        """The bytes that waited, and are in order now."""
        out, left = [], []
        for start, packet, data in sorted(self.waiting):
            if start > self.whole:
                left.append((start, packet, data))
            elif start + len(data) > self.whole:
                out.append(data[self.whole - start :])
                self.whole = start + len(data)
        self.waiting = left
        self.held = sum(len(data) for _, _, data in left)
        return b"".join(out)

    def lack(self) -> Optional[Lack]:
        """What is missing; None if it is whole."""
        reached = max(self.reached, self.shown)
        if self.fin is not None and reached == self.fin + 1:
            reached = self.fin  # A FIN takes a number too.
        if reached <= self.whole or self.whole < 0:
            return None
        if self.short:
            return Lack("short", self.short, reached - self.whole)
        if self.waiting:
            count = min(start for start, _, _ in self.waiting) - self.whole
            return Lack("lost", min(packet for _, packet, _ in self.waiting), count)
        if self.fin is None and self.shown <= self.whole and reached == self.whole + 1:
            return Lack("end", 0, 0)
        return Lack("tail", 0, reached - self.whole)


class Connection:
    """A TCP connection, number as in Wireshark's tcp.stream. Direction 0 sent the first packet."""

    def __init__(self, number: int, way: bytes):
        self.number = number
        self.way = way
        self.directions = Direction(self, 0), Direction(self, 1)
        self.reset_by: Optional[Direction] = None

    def other(self, direction: Direction) -> Direction:
        """The opposite direction."""
        return self.directions[1 - direction.index]

    def take(self, direction: Direction, segment: Segment) -> bytes:
        """Takes a segment of a direction; the bytes that are in order by now."""
        if segment.flags & ACK:
            self.other(direction).acknowledge(segment.acknowledged)
        if segment.flags & RST and self.reset_by is None:
            self.reset_by = direction
        return direction.take(segment)


class Connections:
    """The connections of a pcap by their ways."""

    def __init__(self, began: Callable[[Connection], None]):
        self.began = began
        self.count = 0
        self.directions: Dict[bytes, Direction] = {}

    def direction(self, segment: Segment) -> Direction:
        """The direction that a segment belongs to; a new connection's where ports are used again."""
        found = self.directions.get(segment.way)
        if found is None or (segment.flags & (SYN | ACK) == SYN and is_new(found, segment)):
            connection = Connection(self.count, segment.way)
            self.count += 1
            found, back = connection.directions
            self.directions[segment.way] = found
            self.directions[reverse(segment.way)] = back
            self.began(connection)
        return found


def is_new(direction: Direction, segment: Segment) -> bool:
    """Whether a SYN begins another connection on the same ports."""
    return direction.last is not None and direction.place(segment.sequence) != direction.first - 1
