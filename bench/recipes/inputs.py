#!/usr/bin/env python3
"""inputs.py FOLDER

Writes what the recipes are timed with: FOLDER/kept and FOLDER/new, 200 captures each, of tests/samples in turn;
FOLDER/many.pcap, 5,000 connections with a handshake, a text each way and a Close; FOLDER/one.capture and two.capture,
100,000 JSON messages of a server, which differ in two places.
"""

import pathlib
import shutil
import sys

sys.dont_write_bytecode = True
TOP = pathlib.Path(__file__).resolve().parent.parent.parent
sys.path.insert(0, str(TOP / "tests/recipes"))

import pcaps  # noqa: E402

NAMES = "basic", "abort", "server-closes", "ipv6"
TALK = [
    ("C", b"GET /chat HTTP/1.1\r\nUpgrade: websocket\r\n\r\n"),
    ("S", b"HTTP/1.1 101 Switching Protocols\r\nUpgrade: websocket\r\n\r\n"),
    ("C", bytes.fromhex("818537fa213d7f9f4d5158")),
    ("S", bytes.fromhex("810548656c6c6f")),
    ("C", bytes.fromhex("88820000000003e8")),
    ("S", bytes.fromhex("880203e8")),
]
MESSAGE = '{{"seq":{},"symbol":"EURUSD","bid":{}.25,"levels":[[1,2],[3,4]],"meta":{{"src":"gw-7","ok":true}}}}'


def texts(changed):
    """The frames of the messages; those at some places are changed."""
    for at in range(100_000):
        data = MESSAGE.format(at, -at if at in changed else at).encode()
        yield bytes([0x81, len(data)]) + data


def main(folder):
    """Writes all."""
    for name in "kept", "new":
        (folder / name).mkdir(parents=True)
        for number in range(200):
            sample = TOP / f"tests/samples/{NAMES[number % len(NAMES)]}.capture"
            shutil.copy(sample, folder / name / f"{number:03}.capture")
    packets = [packet for port in range(10_000, 15_000) for packet in pcaps.session(TALK, port, 80)]
    pcaps.write(folder / "many.pcap", packets)
    for name, changed in ("one", ()), ("two", (5, 99_000)):
        data = b"".join(texts(changed))
        lines = (f"S {data[at : at + 4096].hex()}\n" for at in range(0, len(data), 4096))
        (folder / f"{name}.capture").write_text("".join(lines))


if __name__ == "__main__":
    if len(sys.argv) != 2:
        sys.exit(__doc__)
    main(pathlib.Path(sys.argv[1]))
