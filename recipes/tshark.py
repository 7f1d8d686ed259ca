"""What tshark reads for the recipes: the bytes in TLS, and the segments of pcaps that packets.py doesn't know."""

import contextlib
import os
import shutil
import socket
import struct
import subprocess
import tempfile
from typing import IO, Iterator, List, NamedTuple, Union

from packets import Packets, Segment


class Unreadable(Exception):
    """tshark isn't there, or can't read the file; in words for the user."""


class Record(NamedTuple):
    """Bytes of a side that were in TLS: the packet that completes them, its time, and the direction."""

    packet: int
    time: int
    way: bytes
    data: bytes


class Reader:
    """A pcap as tshark reads it, with the keys of a log. `is_cut`: it ends in the middle of a packet."""

    def __init__(self, pcap: str, keylog: str):
        self.pcap = pcap
        self.keylog = keylog
        self.is_cut = False

    def words(self) -> List[str]:
        """The command's first words: TLS is looked for on every port, and what is in it stays as it is. With its own
        HTTP/2 tshark leaves bytes out."""
        keys = ["-o", f"tls.keylog_file:{os.path.abspath(self.keylog)}"] if self.keylog else []
        switches = ["tcp.desegment_tcp_streams", "tcp.reassemble_out_of_order", "tcp.analyze_sequence_numbers"]
        options = [word for switch in switches for word in ("-o", f"{switch}:TRUE")]
        decode = ["-d", "tcp.port==1-65535,tls", "-d", "tls.port==1-65535,data"]
        disable = ["--disable-protocol", "http", "--disable-protocol", "http2"]
        return ["tshark", "-n", "-r", os.path.abspath(self.pcap), *keys, *options, *decode, *disable]

    @contextlib.contextmanager
    def output(self, *words: str) -> Iterator[IO[bytes]]:
        """What tshark writes."""
        if not shutil.which("tshark"):
            raise Unreadable("tshark isn't here; Debian has it in the package tshark")
        with tempfile.TemporaryFile() as said:
            with subprocess.Popen([*self.words(), *words], stdout=subprocess.PIPE, stderr=said) as process:
                assert process.stdout is not None
                try:
                    yield process.stdout
                except BaseException:
                    process.kill()
                    raise
            said.seek(0)
            self.judge(process.returncode, said.read().decode(errors="replace"))

    def judge(self, status: int, said: str) -> None:
        """Looks at how tshark ended."""
        if status == 0:
            return
        if "cut short" not in said:
            lines = [line for line in said.splitlines() if line and not line.startswith("Running as")]
            raise Unreadable(f"tshark can't read {self.pcap}: {(lines or ['it failed'])[0]}")
        self.is_cut = True

    def records(self) -> Iterator[Record]:
        """The bytes in TLS, in the order of packets."""
        with self.output("-q", "-U", "OSI layer 7", "-w", "-") as output:
            for packet in Packets(output):  # type: ignore[arg-type]
                found = record(packet.time, packet.data)
                if found.way:
                    yield found

    def items(self) -> Iterator[Union[Segment, Record]]:
        """The segments of the file, each before the bytes in TLS that it completes."""
        fields = [word for name in FIELDS for word in ("-e", name)]
        only = ["-Y", "tcp && !icmp && !icmpv6", "-o", "tcp.relative_sequence_numbers:FALSE", "-T", "fields"]
        with self.output(*only, *fields) as output:
            for line in output:
                parts = line.decode("latin-1").rstrip("\n").split("\t")
                if parts[9]:
                    yield from segment_and_records(parts)


# The parts of an exported packet, and their numbers (epan/exported_pdu.h).
SOURCE, TARGET, PORTS, PACKET, HEAD = {20, 22}, {21, 23}, {25, 26}, 30, struct.Struct("!HH")


def record(time: int, data: bytes) -> Record:
    """Reads an exported packet: its parts, each with its number and size, and then the bytes."""
    at, number, source, target, ports = 0, 0, b"", b"", b""
    while at + 4 <= len(data):
        part, size = HEAD.unpack_from(data, at)
        at += 4
        value = data[at : at + size]
        at += size
        if part == 0:
            break
        if part in SOURCE:
            source = value
        elif part in TARGET:
            target = value
        elif part in PORTS:
            ports += value[-2:]
        elif part == PACKET:
            number = int.from_bytes(value, "big")
    return Record(number, time, source + target + ports if len(ports) == 4 else b"", data[at:])


FIELDS = ["frame.number", "frame.time_epoch", "frame.protocols", "ip.src", "ip.dst", "ipv6.src", "ipv6.dst",
          "tcp.srcport", "tcp.dstport", "tcp.len", "tcp.seq", "tcp.ack", "tcp.flags", "tcp.payload",
          "data.data"]  # fmt: skip


def segment_and_records(parts: List[str]) -> Iterator[Union[Segment, Record]]:
    """Reads a packet's fields. Of a tunnel the innermost ones count, which are the last."""
    number, time, protocols, *rest = parts
    source4, target4, source6, target6, *ports, length, sequence, acknowledged, flags, payload = [
        each.rpartition(",")[2] for each in rest[:-1]
    ]
    second, _, part = time.partition(".")
    micros = int(second) * 1_000_000 + int(part[:6].ljust(6, "0"))
    family, source, target = socket.AF_INET, source4, target4
    if source6 and (not source4 or "ipv6:tcp" in protocols or "ipv6.hopopts:tcp" in protocols):
        family, source, target = socket.AF_INET6, source6, target6
    way = b"".join(socket.inet_pton(family, each) for each in (source, target))
    way += struct.pack("!HH", *map(int, ports))
    data = bytes.fromhex(payload)
    yield Segment(int(number), micros, way, int(sequence), int(acknowledged or 0), int(flags, 16), int(length), data)
    for each in filter(None, rest[-1].split(",")):
        yield Record(int(number), micros, way, bytes.fromhex(each))


def merged(segments: Iterator[Segment], records: Iterator[Record]) -> Iterator[Union[Segment, Record]]:
    """Both, in the order of packets."""
    waiting = next(records, None)
    for segment in segments:
        yield segment
        while waiting is not None and waiting.packet <= segment.packet:
            yield waiting
            waiting = next(records, None)

