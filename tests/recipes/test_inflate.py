"""recipes/inflate: the examples of RFC 7692, sessions of python3-websockets with each parameter, and what it refuses."""

import contextlib
import os
import re
import zlib

from harness import (HERE, SAMPLES, TOP, free_port, python_with_websockets, run, same, sides, started, test,
                     wait_for, want)  # fmt: skip

AGREED = "# extensions: permessage-deflate"


def inflate(capture, *words, status=0):
    """What inflate writes of a capture, and says."""
    out, said = run(TOP / "recipes/inflate", *words, status=status, input=capture)
    return out, said.decode()


def capture(*frames, side="S", agreed=AGREED):
    """A capture with these bytes of a side, each in a line."""
    return "".join(f"{line}\n" for line in [agreed, *(f"{side} {frame.hex()}" for frame in frames)]).encode()


def frames_of(data):
    """The frames of a stream: first byte, and unmasked payload."""
    found = []
    while data:
        size, at = data[1] & 127, 2
        for code, more in (126, 2), (127, 8):
            if data[1] & 127 == code:
                size, at = int.from_bytes(data[2 : 2 + more], "big"), 2 + more
        key = b""
        if data[1] & 128:
            key, at = data[at : at + 4], at + 4
        payload = data[at : at + size]
        found.append((data[0], bytes(byte ^ key[n % 4] for n, byte in enumerate(payload)) if key else payload))
        data = data[at + size :]
    return found


@test
def inflate_gives_the_examples_of_the_rfc(folder):
    """RFC 7692, 7.2.3: one block, fragments, a shared window, a block without compression, a final block, two blocks."""
    one = bytes.fromhex("c107f248cdc9c90700")
    for what, given, wanted in (
        ("one block", [one], [(0x81, b"Hello")]),
        ("fragments", ["4103f248cd", "8004c9c90700"], [(0x01, b"Hel"), (0x80, b"lo")]),
        ("a shared window", [one, "c105f200110000"], [(0x81, b"Hello")] * 2),
        ("no compression", ["c10b000500faff48656c6c6f00"], [(0x81, b"Hello")]),
        ("a final block", ["c108f348cdc9c9070000"], [(0x81, b"Hello")]),
        ("a final block, and a window", ["c108f348cdc9c9070000", "c105f200110000"], [(0x81, b"Hello")] * 2),
        ("two blocks", ["c10df248050000 00ffffcac9c90700".replace(" ", "")], [(0x81, b"Hello")]),
        ("an empty message", ["c10100"], [(0x81, b"")]),
        ("a ping between", ["4103f248cd", "8900", "8004c9c90700"], [(0x01, b"Hel"), (0x89, b""), (0x80, b"lo")]),
        ("not compressed", ["8105f200110000", one], [(0x81, b"\xf2\0\x11\0\0"), (0x81, b"Hello")]),
    ):
        given = [each if isinstance(each, bytes) else bytes.fromhex(each) for each in given]
        for lines in given, [b"".join(given)], [bytes([byte]) for byte in b"".join(given)]:
            got = [(first, data) for first, data in frames_of(sides(inflate(capture(*lines))[0])[1])]
            joined = b"".join(data for _, data in got), [first for first, _ in got]
            same(joined, (b"".join(data for _, data in wanted), [first for first, _ in wanted]), what)


@test
def inflate_keeps_the_rest(folder):
    """Times, end marks, a Close and what follows it, a frame that is cut, one with a bit that isn't allowed."""
    lines = [AGREED, "# path: /", "# warning: the server agreed on permessage-deflate", "# 0.001000", "S c107f248",
             "# 0.002000", "C 88820000000003e8", "S cdc9c90700", "C c1ff", "C.", "S c105f200", "S."]  # fmt: skip
    wanted = ["# path: /", "# 0.001000", "# 0.002000", "C 88820000000003e8", "S 810548656c6c6f", "C c1ff", "C.",
              "S 81", "S."]  # fmt: skip
    first, *rest = inflate("\n".join(lines).encode())[0].decode().splitlines()
    same(first, "# inflated, so offsets are those of the inflated stream; it was permessage-deflate", "the comment")
    same(rest, wanted, "the lines")
    for before, data in ("", "c900"), ("", "a100"), ("4103f248cd", "c004c9c90700"), ("8800", "c107f248cdc9c90700"):
        got = sides(inflate(capture(bytes.fromhex(before + data)))[0])[1]
        want(got.endswith(bytes.fromhex(data)), f"{before} {data}: {got.hex()}")
    same(inflate((SAMPLES / "basic.capture").read_bytes())[0], (SAMPLES / "basic.capture").read_bytes(), "no extension")


@test
def inflate_refuses(folder):
    """What isn't deflate's, goes on after a final block, or is too long: what came before it. What was agreed on in
    another way or is no capture: nothing."""
    bomb = zlib.compressobj(wbits=-15)
    bomb = (bomb.compress(bytes(1 << 25)) + bomb.flush(zlib.Z_SYNC_FLUSH))[:-4]
    bomb = b"\xc2\x7f" + len(bomb).to_bytes(8, "big") + bomb
    one = bytes.fromhex("c107f248cdc9c90700")
    for frames, words, wanted in (
        ([b"\xc1\x02\xff\xff"], [], "line 3: the payload isn't deflate's"),
        ([bytes.fromhex("c10af348cdc9c90700002a2a")], [], "line 3: data after the final block"),
        ([bomb[at : at + 4096] for at in range(0, len(bomb), 4096)], [], "has more than 16777216 bytes"),
        ([bytes.fromhex("c10af248cdc9c9f700110000")], ["--limit", "5"], "line 3: the inflated message has more than 5 bytes"),
    ):
        together = [] if len(frames) > 1 else [capture(b"\x89\x00", one + frames[0] + one)]
        for given in (capture(one, *frames, one), *together):
            out, said = inflate(given, *words, status=1)
            want(said.count("\n") == 1 and wanted in said and "what came before it is written" in said, f"{wanted}: {said}")
            same([data for first, data in frames_of(sides(out)[1]) if first == 0x81], [b"Hello"], "what came before it")
            want(wanted in out.decode().splitlines()[-1], f"{wanted}: the comment at the end")
    for given, words, wanted in (
        (capture(one, agreed="#"), [], "line 2: a compressed frame, and the capture doesn't say what was agreed on"),
        (capture(one, agreed="# extensions: foo"), [], "only permessage-deflate can be inflated"),
        (capture(one, agreed=AGREED + "; server_max_window_bits=7"), [], "is from 8 to 15, and not 7"),
        (capture(one, agreed=AGREED + "; x"), [], "permessage-deflate has no parameter x"),
        (b"S c1\nS.\nS 00\n", [], "line 3: after-end"),
        (b"X 00\n", [], "line 1: bad-form"),
        (b"# " + bytes(8192) + b"\r\n#" + b"x" * 8194 + b"\n", [], "line 2: too-long"),
        (b"", ["--limit", "x"], "--limit is a number"),
        (b"", ["-x"], "there is no option -x"),
        (b"", [folder / "nowhere"], "nowhere: No such file"),
    ):
        out, said = inflate(given, *words, status=2)
        want(out == b"" and said.count("\n") == 1 and wanted in said, f"{wanted}: {said}")
    same(frames_of(sides(inflate(capture(one), "--limit", "5")[0])[1]), [(0x81, b"Hello")], "at the limit")
    words = ["--extensions", "permessage-deflate; server_no_context_takeover"]
    same(frames_of(sides(inflate(capture(one, agreed="#"), *words)[0])[1]), [(0x81, b"Hello")], "--extensions")
    inflate(capture(one, bytes.fromhex("c105f200110000"), agreed="#"), *words, status=1)


@test
def inflate_says_what_is_no_capture(folder):
    """An empty file and a pcap, as a file and as standard input: what it is, the way, status 2, nothing written."""
    empty, pcap = folder / "the empty", folder / "the pcap"
    empty.write_bytes(b"")
    for number, (form, order) in enumerate(((0xA1B2C3D4, "little"), (0xA1B23C4D, "big"), (0x0A0D0D0A, "big"))):
        data = form.to_bytes(4, order) + bytes(30)
        pcap.write_bytes(data)
        for given, words, wanted in (
            (b"", [empty], f"inflate: {empty} is empty\n"),
            (b"", ["--extensions", "permessage-deflate"], "inflate: the capture is empty\n"),
            (b"", [pcap], f"inflate: {pcap} is a pcap: `recipes/pcap2wsn '{pcap}'` lists its connections, "),
            (data, [], "inflate: the capture is a pcap: `recipes/pcap2wsn PCAP` lists its connections, "),
        ):
            out, said = inflate(given, *words, status=2)
            want(out == b"" and said.count("\n") == 1 and said.startswith(wanted), f"{number} {words}: {said}")
    same(inflate(b"# nothing was sent\n")[0], b"# nothing was sent\n", "a capture without bytes")


def messages_of(data):
    """The messages of a stream."""
    messages, parts, kind = [], [], 0
    for first, payload in frames_of(data):
        if first & 15 >= 8:
            continue
        kind = first & 15 or kind
        parts.append(payload)
        if first & 128:
            messages.append(b"".join(parts).decode() if kind == 1 else b"".join(parts))
            parts = []
    return messages


@test
def inflate_reads_the_sample(folder):
    """Its comment has the words of the handshake in its pcap, and both sides say what the peers say."""
    kept = (SAMPLES / "deflate.capture").read_bytes()
    agreed = re.findall(rb"\r\nSec-WebSocket-Extensions: ([^\r]*)", (SAMPLES / "deflate.pcap").read_bytes())[-1]
    same(kept.splitlines()[0], b"# extensions: " + agreed, "the comment")
    client, server, _ = sides(inflate(kept)[0])
    same((messages_of(client), messages_of(server)), (["Hello", "Hello", "Goodbye"],) * 2, "the messages")


@test
def inflate_of_sessions_gives_what_was_sent(folder):
    """Sessions of python3-websockets with each parameter: both sides' messages, and the client's fragments."""
    python = python_with_websockets()
    code = "import peers, json; print(repr(peers.MESSAGES))"
    sent = eval(run(python, "-c", code, env={**os.environ, "PYTHONPATH": str(HERE)})[0])  # pylint: disable=eval-used
    wanted = ["".join(each) if isinstance(each, list) else each for each in sent]
    kinds = ["deflate", "deflate,server_no_context_takeover", "deflate,client_no_context_takeover",
             "deflate,server_max_window_bits=9", "deflate,client_max_window_bits=10",
             "deflate,server_no_context_takeover,client_no_context_takeover,server_max_window_bits=12,"
             "client_max_window_bits=9"]  # fmt: skip
    for number, kind in enumerate(kinds):
        port, listening, made = free_port(), free_port(), folder / str(number)
        with contextlib.ExitStack() as stack:
            stack.enter_context(started(python, HERE / "peers.py", "serve", kind, "127.0.0.1", port, line="ready"))
            words = [TOP / "recipes/record", listening, f"ws://127.0.0.1:{port}", made]
            record = stack.enter_context(started(*words, line="listening", stream="stderr"))
            run(python, HERE / "peers.py", "talk", "compressed", f"ws://127.0.0.1:{listening}/")
            wait_for(lambda: any("capture: ended" in line for line in record.said), "the end")
        kept = (made / "0001.capture").read_bytes()
        for name in kind.split(",")[1:]:
            want(name.encode() in kept.split(b"\nC ")[0], f"{kind}: {name} wasn't agreed on")
        client, server, ended = sides(inflate(kept)[0])
        same((messages_of(client), messages_of(server), ended), (wanted, wanted, {"C", "S"}), kind)
        lengths = [len(payload) for first, payload in frames_of(client) if first & 15 < 8]
        want(len(lengths) > len(wanted), f"{kind}: the fragments are gone")
