"""Reads and writes pcap files of TCP over Ethernet, and mangles them.

A packet is a `Packet`: its time, its bytes as captured, and its length on the wire. Only what the tests need: the old
pcap format in this machine's byte order, Ethernet, IPv4 or IPv6 without extension headers, TCP. A segment's checksum is
not written anew, since nothing here reads it.
"""

import struct
from typing import NamedTuple

MAGIC = 0xA1B2C3D4
FIN, SYN, PSH, ACK = 1, 2, 8, 16


class Packet(NamedTuple):
    """One packet of a pcap."""

    seconds: int
    micros: int
    data: bytes
    length: int


def read(path):
    """The packets of a pcap, and its link type."""
    with open(path, "rb") as file:
        blob = file.read()
    magic, _, _, _, _, _, link = struct.unpack_from("=IHHiIII", blob)
    if magic != MAGIC:
        raise ValueError(f"{path}: not a pcap of this machine's byte order")
    packets, at = [], 24
    while at + 16 <= len(blob):
        seconds, micros, captured, length = struct.unpack_from("=IIII", blob, at)
        packets.append(Packet(seconds, micros, blob[at + 16 : at + 16 + captured], length))
        at += 16 + captured
    return packets, link


def write(path, packets, link=1):
    """Writes a pcap."""
    with open(path, "wb") as file:
        file.write(struct.pack("=IHHiIII", MAGIC, 2, 4, 0, 0, 262144, link))
        for packet in packets:
            file.write(struct.pack("=IIII", packet.seconds, packet.micros, len(packet.data), packet.length))
            file.write(packet.data)


class Segment:
    """A packet's TCP segment: where its parts lie, and what its head says."""

    def __init__(self, packet):
        self.packet = packet
        data = packet.data
        self.ip = 14
        version = data[self.ip] >> 4
        self.tcp = self.ip + ((data[self.ip] & 15) * 4 if version == 4 else 40)
        if version == 4:
            end = self.ip + struct.unpack_from("!H", data, self.ip + 2)[0]
        else:
            end = self.tcp + struct.unpack_from("!H", data, self.ip + 4)[0]
        self.version = version
        self.start = self.tcp + (data[self.tcp + 12] >> 4) * 4
        self.payload = data[self.start : end]
        self.source, self.target, self.seq, self.ack = struct.unpack_from("!HHII", data, self.tcp)

    def part(self, start, end):
        """The packet with a part of the payload alone; FIN stays with the last part."""
        head = bytearray(self.packet.data[: self.start])
        payload = self.payload[start:end]
        struct.pack_into("!I", head, self.tcp + 4, (self.seq + start) % 2**32)
        if end < len(self.payload):
            head[self.tcp + 13] &= ~FIN
        if self.version == 4:
            struct.pack_into("!H", head, self.ip + 2, self.start - self.ip + len(payload))
        else:
            struct.pack_into("!H", head, self.ip + 4, self.start - self.tcp + len(payload))
        data = bytes(head) + payload
        return self.packet._replace(data=data, length=len(data))


def split(packets, size):
    """Each segment in pieces of at most `size` bytes."""
    out = []
    for packet in packets:
        segment = Segment(packet)
        steps = range(0, max(len(segment.payload), 1), size)
        out += [segment.part(start, min(start + size, len(segment.payload))) for start in steps]
    return out


def shuffled(packets):
    """Neighbouring segments of one side that carry data, changed about in pairs."""
    out, at = [], 0
    while at < len(packets):
        pair = [Segment(packet) for packet in packets[at : at + 2]]
        if len(pair) == 2 and pair[0].source == pair[1].source and pair[0].payload and pair[1].payload:
            out += [pair[1].packet, pair[0].packet]
            at += 2
        else:
            out.append(pair[0].packet)
            at += 1
    return out


def repeated(packets):
    """Each segment with data a second time, and a third time after the next but one."""
    out = []
    for at, packet in enumerate(packets):
        out.append(packet)
        if Segment(packet).payload:
            out.append(packet)
            if at >= 2 and Segment(packets[at - 2]).payload:
                out.append(packets[at - 2])
    return out


def data_of(packets, side):
    """The places of the packets with data of a side: 0 for the one that opened the connection, 1 for the other."""
    port = Segment(packets[0]).source
    segments = [Segment(packet) for packet in packets]
    return [at for at, each in enumerate(segments) if each.payload and (each.source == port) == (side == 0)]


def without(packets, places):
    """The packets but those at the places."""
    return [packet for at, packet in enumerate(packets) if at not in places]


def snapped(packets, size):
    """Each packet as a short snaplen leaves it."""
    return [packet._replace(data=packet.data[:size]) for packet in packets]


def packet(ports, seq, ack, flags, payload=b""):
    """A packet over IPv4, from port to port on loopback."""
    tcp = struct.pack("!HHIIBBHHH", *ports, seq % 2**32, ack % 2**32, 5 << 4, flags, 65535, 0, 0)
    length = 40 + len(payload)
    ip = struct.pack("!BBHHHBBH4s4s", 0x45, 0, length, 0, 0, 64, 6, 0, b"\x7f\0\0\x01", b"\x7f\0\0\x01")
    data = bytes(12) + b"\x08\0" + ip + tcp + payload
    return Packet(0, 0, data, len(data))


def session(talk, client, server, seq=2**32 - 100):
    """A connection from one port to another: who says what, C or S and bytes, and an end from either side."""
    at, ports = {"C": seq, "S": 7 * seq}, {"C": (client, server), "S": (server, client)}
    other = {"C": "S", "S": "C"}
    packets = [packet(ports["C"], at["C"], 0, SYN)]
    at["C"] += 1
    packets.append(packet(ports["S"], at["S"], at["C"], SYN | ACK))
    at["S"] += 1
    for side, data in [*talk, ("C", None), ("S", None)]:
        flags = ACK | FIN if data is None else ACK | PSH
        packets.append(packet(ports[side], at[side], at[other[side]], flags, data or b""))
        at[side] += len(data or b"?")
    packets.append(packet(ports["C"], at["C"], at["S"], ACK))
    return packets
