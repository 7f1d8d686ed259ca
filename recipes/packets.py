"""The TCP segments of a pcap or pcapng of a common link type.

What else tshark knows (other formats and links, tunnels, fragments) is `Foreign` here; tshark.py has it taken apart.
"""

import gzip
import socket
import struct
from typing import BinaryIO, Dict, Iterator, List, NamedTuple, Optional, Tuple

FIN, SYN, RST, ACK = 1, 2, 4, 16


class Foreign(Exception):
    """This reader doesn't know the file's format, link or tunnel."""


class Segment(NamedTuple):
    """A TCP segment: its packet's number, from 1, and its time in microseconds since 1970.

    `way` is the sender's address, the receiver's, and both ports; `length` the bytes that were sent, `data` those that
    were captured.
    """

    packet: int
    time: int
    way: bytes
    sequence: int
    acknowledged: int
    flags: int
    length: int
    data: bytes


def reverse(way: bytes) -> bytes:
    """The other direction of a connection."""
    size = (len(way) - 4) // 2
    return way[size : 2 * size] + way[:size] + way[-2:] + way[-4:-2]


def nodes(way: bytes) -> Tuple[str, str]:
    """A direction's sender and receiver, each an address and a port."""
    size = (len(way) - 4) // 2
    source, target, ports = way[:size], way[size : 2 * size], struct.unpack("!HH", way[-4:])
    return f"{address(source)}:{ports[0]}", f"{address(target)}:{ports[1]}"


def address(data: bytes) -> str:
    """An address in the usual form, in brackets if it is IPv6."""
    if len(data) == 4:
        return socket.inet_ntop(socket.AF_INET, data)
    return f"[{socket.inet_ntop(socket.AF_INET6, data)}]"


def opened(path: str) -> BinaryIO:
    """The file, unpacked if it is a gzip file."""
    file = open(path, "rb")
    is_packed = file.read(2) == b"\x1f\x8b"
    file.seek(0)
    return gzip.GzipFile(fileobj=file) if is_packed else file  # type: ignore[return-value]


class Packet(NamedTuple):
    """A packet: its link type, its time in microseconds since 1970, and its bytes as captured."""

    link: int
    time: int
    data: bytes


class Packets:
    """The packets of a file. `is_cut`: the file ends in the middle of one."""

    def __init__(self, file: BinaryIO):
        self.file = file
        self.is_cut = False

    def __iter__(self) -> Iterator[Packet]:
        magic = self.file.read(4)
        if magic == SECTION:
            yield from self.blocks()
        elif magic in PCAPS:
            yield from self.records(*PCAPS[magic])
        else:
            raise Foreign("the format")

    def exactly(self, count: int) -> Optional[bytes]:
        """The next bytes of the file, or None where it is cut short."""
        try:
            data = self.file.read(count)
        except EOFError:
            data = b""
        if len(data) == count:
            return data
        self.is_cut = self.is_cut or len(data) > 0
        return None

    def records(self, order: str, unit: int) -> Iterator[Packet]:
        """The packets of a pcap."""
        front = self.exactly(20)
        parts = struct.Struct(order + "IIII")
        while front is not None:
            link = struct.unpack_from(order + "I", front, 16)[0] & 0xFFFF
            head = self.exactly(16)
            if head is None:
                return
            second, part, captured, _ = parts.unpack(head)
            if captured > MOST:
                raise Foreign("a packet's size")
            data = self.exactly(captured)
            if data is None:
                self.is_cut = True
                return
            yield Packet(link, second * 1_000_000 + part // unit, data)

    def blocks(self) -> Iterator[Packet]:
        """The packets of a pcapng."""
        order = "<"
        interfaces: List[Interface] = []
        for kind, body in self.bodies():
            if kind == 0:
                order, interfaces = body.decode(), []
            elif kind == 1:
                interfaces.append(interface(order, body))
            elif kind == 6:
                number, high, low, captured = struct.unpack_from(order + "IIII", body)
                time = ((high << 32) + low) * 1_000_000 // interfaces[number].units
                yield Packet(interfaces[number].link, time, body[20 : 20 + captured])
            elif kind in (2, 3, 10):
                raise Foreign("a kind of block")  # Old forms, and TLS secrets, which tshark takes.

    def bodies(self) -> Iterator[Tuple[int, bytes]]:
        """A pcapng's blocks: a kind, and what is between its sizes; of a section's head (0) the order of its bytes."""
        order, first = "<", SECTION
        while first:
            head = first + (self.exactly(8 - len(first)) or b"")
            front = b""
            if first == SECTION:
                front = self.exactly(4) or b""
                order = "<" if front == b"\x4d\x3c\x2b\x1a" else ">"
                yield 0, order.encode()
            if len(head) < 8:
                self.is_cut = True
                return
            kind, size = struct.unpack(order + "II", head)
            if not 12 <= size <= MOST:
                raise Foreign("a block's size")
            body = self.exactly(size - 8 - len(front))
            if body is None:
                self.is_cut = True
                return
            if first != SECTION:
                yield kind, body[:-4]
            first = self.file.read(4)


class Interface(NamedTuple):
    """An interface of a pcapng: its link type, and the units of its times in a second."""

    link: int
    units: int


def interface(order: str, body: bytes) -> Interface:
    """Reads the description of an interface."""
    link, units, at = struct.unpack_from(order + "H", body)[0], 10**6, 8
    while at + 4 < len(body):
        code, size = struct.unpack_from(order + "HH", body, at)
        if code == 9:
            power = body[at + 4]
            units = 1 << (power & 127) if power & 128 else 10**power
        if code == 14:
            raise Foreign("an offset of times")
        at += 4 + (size + 3) // 4 * 4
    return Interface(link, units)


MOST = 1 << 26  # No packet and no block is longer.
SECTION = b"\n\r\r\n"  # How a pcapng begins, and each of its sections.

# Byte order, and how many of a pcap's units a microsecond has.
PCAPS = {
    b"\xd4\xc3\xb2\xa1": ("<", 1),
    b"\xa1\xb2\xc3\xd4": (">", 1),
    b"\x4d\x3c\xb2\xa1": ("<", 1000),
    b"\xa1\xb2\x3c\x4d": (">", 1000),
}

# Of each link type, where a packet's protocol is written, and where its IP begins; None: IP comes at once.
LINKS: Dict[int, Optional[Tuple[int, int]]] = {
    1: (12, 14),  # Ethernet
    113: (14, 16),  # Linux cooked
    276: (0, 20),  # Linux cooked, version 2
    12: None,
    14: None,
    101: None,
    228: None,
    229: None,
}
LOOPS = {0, 108}  # BSD loopback: four bytes, then IP.
IPV4, IPV6, VLANS, TUNNELS = 0x0800, 0x86DD, {0x8100, 0x88A8, 0x9100}, {0x8847, 0x8848, 0x8863, 0x8864}


def start_of_ip(link: int, data: bytes) -> int:
    """Where a packet's IP begins; -1 if it has none."""
    if link in LOOPS:
        return 4
    if link not in LINKS:
        raise Foreign("the link type")
    form = LINKS[link]
    if form is None:
        return 0
    at, start = form
    kind = int.from_bytes(data[at : at + 2], "big")
    while kind in VLANS:
        kind = int.from_bytes(data[start + 2 : start + 4], "big")
        start += 4
    if kind in TUNNELS:
        raise Foreign("a tunnel")
    return start if kind in (IPV4, IPV6) else -1


TCP, UDP = 6, 17
FOREIGN_PROTOCOLS = {4, 41, 47, 50, 51}  # IP in IP, GRE, IPsec.
FOREIGN_PORTS = {2152, 4789, 6081, 8472}  # GTP, VXLAN, Geneve.
EXTENSIONS = {0, 43, 60}  # Headers between IPv6 and TCP.


def start_of_tcp(data: bytes, ip: int) -> Tuple[int, int, bytes]:
    """Where a packet's TCP begins, where IP ends, and both addresses; -1 if it has none."""
    if len(data) < ip + 20:
        return -1, 0, b""
    version = data[ip] >> 4
    if version == 4:
        start, kind = ip + (data[ip] & 15) * 4, data[ip + 9]
        end = ip + (data[ip + 2] << 8 | data[ip + 3])
        addresses = data[ip + 12 : ip + 20]
        is_part = (data[ip + 6] & 0x3F | data[ip + 7]) != 0
    elif version == 6 and len(data) >= ip + 40:
        start, kind, addresses = ip + 40, data[ip + 6], data[ip + 8 : ip + 40]
        end = start + (data[ip + 4] << 8 | data[ip + 5])
        while kind in EXTENSIONS and len(data) >= start + 8:
            kind, start = data[start], start + 8 + data[start + 1] * 8
        is_part = kind == 44
    else:
        return -1, 0, b""
    if end <= start:
        end = len(data)  # A length of 0: the network card was to fill it in.
    if kind in FOREIGN_PROTOCOLS or (is_part and kind in (TCP, 44)):
        raise Foreign("a tunnel or a fragment")
    if kind == UDP and not is_part and len(data) >= start + 4:
        if not FOREIGN_PORTS.isdisjoint(struct.unpack_from("!HH", data, start)):
            raise Foreign("a tunnel")
    return (start, end, addresses) if kind == TCP else (-1, 0, b"")


def segments(packets: Packets) -> Iterator[Segment]:
    """The TCP segments of a file."""
    parts = struct.Struct("!IIBB")
    for number, (link, time, data) in enumerate(packets, 1):
        ip = start_of_ip(link, data)
        if ip < 0:
            continue
        tcp, end, addresses = start_of_tcp(data, ip)
        if tcp < 0:
            continue
        if len(data) < tcp + 20:
            raise Foreign("a packet that was captured shorter than its heads")
        sequence, acknowledged, size, flags = parts.unpack_from(data, tcp + 4)
        start = tcp + (size >> 4) * 4
        yield Segment(number, time, addresses + data[tcp : tcp + 4], sequence, acknowledged, flags,
                      max(0, end - start), data[start:end])  # fmt: skip
