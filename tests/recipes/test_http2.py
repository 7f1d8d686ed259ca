"""recipes/pcap2wsn and HTTP/2: recorded sessions, and frames made here, of which it is known what they carry."""

import collections
import json
import os
import pathlib
import struct

import pcaps
from harness import SAMPLES, TOP, WSN, Skipped, has_hpack, needs, run, said_in, same, short, sides, test, want
from test_pcap import HANDSHAKE, ends, pcap2wsn

HTTP2 = SAMPLES / "http2"
PREFACE = b"PRI * HTTP/2.0\r\n\r\nSM\r\n\r\n"
DATA, HEADERS, PRIORITIES, RST_STREAM, SETTINGS, PUSH_PROMISE, PING, WINDOW_UPDATE, CONTINUATION = (
    0, 1, 2, 3, 4, 5, 6, 8, 9)  # fmt: skip
END_STREAM, END_HEADERS, PADDED, PRIORITY = 1, 4, 8, 32


def needs_hpack():
    """Skips the test where the recipes don't find the library hpack."""
    if not has_hpack():
        raise Skipped("without python3-hpack")


def frame(kind, stream, payload=b"", flags=0):
    """A frame (RFC 9113, 4.1)."""
    return struct.pack("!I", len(payload))[1:] + bytes([kind, flags]) + struct.pack("!I", stream) + payload


def field(name, value, first=b"\0"):
    """A literal field with its name, without indexing or, with 0x40 first, to be kept in the table (RFC 7541, 6.2)."""
    return first + bytes([len(name)]) + name.encode() + bytes([len(value)]) + value.encode()


def asking(path="/chat?key=x", more=b""):
    """The header block of a request for a WebSocket connection, as RFC 8441, 5.1 has it."""
    own = (":method", "CONNECT"), (":protocol", "websocket"), (":scheme", "https"), (":path", path)
    others = (":authority", "server.example.com"), ("sec-websocket-version", "13"), ("origin", "http://www.example.com")
    return b"".join(field(*each) for each in own + others) + more


OK = b"\x88"  # `:status: 200`, the entry 8 of the static table (RFC 7541, appendix A).
BEGIN = [("C", PREFACE + frame(SETTINGS, 0)), ("S", frame(SETTINGS, 0)), ("C", frame(SETTINGS, 0, flags=1))]


def opening(stream, path="/chat?key=x"):
    """The handshake of a stream."""
    head = frame(HEADERS, stream, asking(path), END_HEADERS)
    return [("C", head), ("S", frame(HEADERS, stream, OK, END_HEADERS))]


def session(talk):
    """The packets of a connection on which this is said, some time after 1970."""
    return [each._replace(seconds=1_700_000_000) for each in pcaps.session(talk, 40000, 80)]


def made(folder, talk):
    """A pcap in which this is said."""
    pcaps.write(folder / "made.pcap", session(talk))
    return folder / "made.pcap"


def truth(stream):
    """What the client of the recorded sessions noted of a stream: what it sent, and what it was sent without TLS."""
    return tuple((HTTP2 / "clear" / f"{stream}.{name}").read_bytes() for name in ("client", "server"))


@test
def http2_gives_what_the_client_noted(folder):
    """Without TLS: each stream has the bytes that the client noted, and the list has each."""
    needs_hpack()
    for stream in 1, 3, 7, 9, 11:
        same(sides(pcap2wsn(HTTP2 / "clear.pcap", f"0.{stream}")[0])[:2], truth(stream), f"stream {stream}")
    out, said = pcap2wsn("--all", HTTP2 / "clear.pcap", folder / "all")
    rows = [line.split("\t") for line in out.decode().splitlines()]
    paths = [("1", "/chat"), ("3", "/latin"), ("5", "/forbidden"), ("7", "/chat2"), ("9", "/chat3"), ("11", "/chat4")]
    sizes = {stream: [str(len(each)) for each in truth(stream)] for stream in (1, 3, 7, 9, 11)}
    wanted = [[f"0.{stream}", path, *sizes.get(int(stream), ["0", "0"])] for stream, path in paths]
    same(([[row[0], *row[5:8]] for row in rows], said), (wanted, ""), "the list")
    same(pcap2wsn(HTTP2 / "clear.pcap")[0], out, "the list alone")
    for stream, _ in paths:
        alone = pcap2wsn(HTTP2 / "clear.pcap", f"0.{stream}")[0]
        same((folder / "all" / f"0.{stream}.capture").read_bytes(), alone, f"the capture of {stream}")
    same(ends(pcap2wsn(HTTP2 / "clear.pcap", "0.7")[0]), ["# reset by the client", "C.", "S."], "a reset")
    front = said_in(pcap2wsn(HTTP2 / "clear.pcap", "0.1")[0])[1:]
    same(front, ["# path: /chat", "# answer: HTTP/2 200"], "the front: no key of acceptance")


def dissected(pcap, keys, connection):
    """What tshark's own reading of HTTP/2 has of each stream, by its number and the sender's port."""
    words = ["-o", f"tls.keylog_file:{os.path.abspath(keys)}", "-Y", f"http2 && tcp.stream == {connection}"]
    words += ["-T", "json", "--no-duplicate-keys"]
    found = collections.defaultdict(bytes)
    for packet in json.loads(run("tshark", "-n", "-r", pcap, *words)[0]):
        layers = packet["_source"]["layers"]
        for layer in listed(layers["http2"]):
            for stream in listed(layer.get("http2.stream", [])):
                for data in listed(stream.get("http2.data.data", [])):
                    key = int(stream["http2.streamid"]), int(layers["tcp"]["tcp.srcport"])
                    found[key] += bytes.fromhex(data.replace(":", ""))
    return found


def listed(value):
    """A value of tshark's JSON that is a list if it occurs more than once."""
    return value if isinstance(value, list) else [value]


@test
def http2_of_tls_gives_what_the_client_noted(folder):
    """Through TLS and HAProxy: what the client noted that it sent; and both sides as tshark takes HTTP/2 apart."""
    needs("tshark")
    needs_hpack()
    pcap, keys = HTTP2 / "python.pcap", HTTP2 / "python.keys"
    known = dissected(pcap, keys, 0)
    for stream in 1, 3, 7, 9, 11:
        client, server, _ = sides(pcap2wsn(pcap, f"0.{stream}", keys)[0])
        same(client, truth(stream)[0], f"what the client sent on {stream}")
        same((client, server), (known[stream, 34780], known[stream, 8443]), f"stream {stream} by tshark")
    out, said = pcap2wsn(pcap, keys)
    rows = [line.split("\t") for line in out.decode().splitlines()]
    same([row[0] for row in rows], [f"0.{stream}" for stream in (1, 3, 5, 7, 9, 11)], "the list")
    same((rows[2][5:9], said), (["/forbidden", "0", "0", "HTTP 403"], ""), "a handshake that failed")
    # HAProxy ends its stream and sends RST_STREAM too: no more than an end.
    same(ends(pcap2wsn(pcap, "0.1", keys)[0]), ["S.", "C."], "an end with a reset")
    same(ends(pcap2wsn(pcap, "0.7", keys)[0]), ["# reset by the client", "C.", "S."], "a reset")


@test
def http2_before_a_proxy_is_what_is_behind_it(folder):
    """Chromium's streams through HAProxy, and the plain connections to its server, in one pcap."""
    needs("tshark")
    needs_hpack()
    pcap, keys = HTTP2 / "chromium.pcap.gz", HTTP2 / "chromium.keys"
    for name in "before", "after":
        (folder / name).mkdir()
    for stream, connection in ("3.5", "6"), ("3.7", "7"), ("3.9", "8"), ("3.11", "9"):
        for name, number, more in ("before", stream, [keys]), ("after", connection, []):
            (folder / name / f"{connection}.capture").write_bytes(pcap2wsn(pcap, number, *more)[0])
        one, two = (sides((folder / name / f"{connection}.capture").read_bytes()) for name in ("before", "after"))
        same(one, two, stream)
    out, _ = run(TOP / "recipes/check", "--pings", folder / "before", folder / "after", env={**os.environ, "WSN": WSN})
    same(out.decode().splitlines()[-1], "4 captures: 2 equal, 2 alike, 0 different, 0 in error", "the comparison")
    out, _ = run(TOP / "recipes/inflate", folder / "before" / "7.capture")
    lines = run(WSN, "show", input=out)[0].decode().splitlines()
    same(lines[-1], "outcome clean", "the compressed stream, inflated")


# Two streams, with everything that a frame can have. What is said of each is the truth.
SAID = {1: (b"\x81\x80abcd" * 9, b"\x82\x04\0\0\1\4" * 5000), 5: (b"\x89\x80wxyz", b"\x8a\0")}


def padded(kind, stream, payload, flags, padding):
    """A frame with padding."""
    return frame(kind, stream, bytes([padding]) + payload + bytes(padding), flags | PADDED)


def mixed():
    """Requests in parts, with padding and priority; other streams, whose header blocks count too; DATA of each kind."""
    weight = struct.pack("!IB", 0, 200)
    block = bytes.fromhex("3fe1ff03") + asking("/one")  # First a table of 65,536 bytes (RFC 7541, 6.3 and 5.1).
    third = field(":method", "CONNECT", b"\x40") + field(":protocol", "other", b"\x40") + field(":path", "/three")
    # The entry 63 of the table, and the name of 62, which stream 3 put there (RFC 7541, 6.1 and 6.2.2).
    fifth = b"\xbf\x0f\x2f\x09websocket" + field(":path", "/five")
    get = bytes.fromhex("828684") + field(":authority", "www.example.com")
    asked = [
        padded(HEADERS, 1, weight + block[:7], PRIORITY, 5) + frame(CONTINUATION, 1, block[7:9]),
        frame(CONTINUATION, 1, block[9:], END_HEADERS),
        frame(PRIORITIES, 1, weight) + frame(0x55, 0, b"unknown") + frame(PING, 0, bytes(8)),
        frame(HEADERS, 3, third, END_HEADERS) + frame(HEADERS, 5, fifth, END_HEADERS) + frame(DATA, 3, b"bytes"),
    ]
    answered = [
        frame(HEADERS, 1, field(":status", "103"), END_HEADERS) + frame(HEADERS, 1, OK, END_HEADERS),
        frame(PUSH_PROMISE, 3, struct.pack("!I", 2) + get + field(":status", "200", b"\x40"), END_HEADERS),
        frame(HEADERS, 3, OK, END_HEADERS) + frame(DATA, 3, b"a page") + frame(HEADERS, 2, OK, END_HEADERS),
        frame(DATA, 2, b"what is pushed", END_STREAM) + frame(HEADERS, 5, b"\xbe", END_HEADERS),
        frame(DATA, 3, b"more of it", END_STREAM),
    ]
    one, five = SAID[1], SAID[5]
    client = [
        padded(DATA, 1, one[0][:3], 0, 255) + frame(DATA, 1) + padded(DATA, 1, b"", 0, 0),
        frame(DATA, 5, five[0][:1]) + frame(DATA, 1, one[0][3:]) + frame(WINDOW_UPDATE, 1, bytes(4)),
        frame(DATA, 5, five[0][1:], END_STREAM) + frame(DATA, 1, b"", END_STREAM),
    ]
    server = [
        frame(DATA, 1, one[1][:16384]) + padded(DATA, 5, five[1], END_STREAM, 9),
        padded(DATA, 1, one[1][16384:], 0, 1) + frame(HEADERS, 1, field("trailer", "x"), END_HEADERS | END_STREAM),
    ]
    sent = [("C", each) for each in asked] + [("S", each) for each in answered]
    return [*BEGIN, *sent, *(("C", each) for each in client), *(("S", each) for each in server)]


@test
def http2_takes_frames_apart(folder):
    """Padding, priority, header blocks in parts, other streams, pushes, trailers; in small segments, out of order."""
    needs_hpack()
    packets = session(mixed())
    for what, mangled in (
        ("as it is", packets),
        ("in pieces of 1", pcaps.split(packets[:16], 1) + packets[16:]),
        ("in pieces of 7", pcaps.split(packets, 7)),
        ("out of order and repeated", pcaps.repeated(pcaps.shuffled(pcaps.split(packets, 60)))),
        ("the server's first bytes first", [*packets[:2], packets[3], packets[2], *packets[4:]]),
        ("all of the server first", sorted(packets, key=lambda each: pcaps.Segment(each).source == 40000)),
        ("all of the client first", sorted(packets, key=lambda each: pcaps.Segment(each).source == 80)),
    ):
        pcaps.write(folder / "mixed.pcap", mangled)
        for stream, path in (1, "/one"), (5, "/five"):
            out, said = pcap2wsn(folder / "mixed.pcap", f"0.{stream}")
            same((sides(out), said), ((*SAID[stream], {"C", "S"}), ""), f"stream {stream} {what}")
            same(said_in(out)[1:], [f"# path: {path}", "# answer: HTTP/2 200"], f"stream {stream} {what}: the front")
        out, said = pcap2wsn(folder / "mixed.pcap")
        same(([line.split()[0] for line in out.decode().splitlines()], said), (["0.1", "0.5"], ""), f"the list {what}")


@test
def http2_has_the_ends_in_their_order(folder):
    """END_STREAM is an end, RST_STREAM a reset unless its sender had ended the stream; TCP's are those of all."""
    needs_hpack()
    talk = [*BEGIN, *opening(1), ("C", frame(DATA, 1, b"\x81\x80abcd"))]
    cancel = frame(RST_STREAM, 1, struct.pack("!I", 8))
    end = frame(DATA, 1, b"", END_STREAM)
    late = ("C", frame(DATA, 1, b"\x89\x80abcd"))
    reset = {"C": ["# reset by the client", "C.", "S."], "S": ["# reset by the server", "S.", "C."]}
    for what, said, wanted, size in (
        ("the client first", [("C", end), ("S", end)], ["C.", "S."], 6),
        ("the server first", [("S", end), ("C", end)], ["S.", "C."], 6),
        ("an end with bytes", [("S", end), ("C", frame(DATA, 1, b"\x89\x80abcd", END_STREAM))], ["S.", "C."], 12),
        ("a reset by the client", [("C", cancel)], reset["C"], 6),
        ("a reset by the server", [("S", cancel)], reset["S"], 6),
        ("bytes on their way", [("S", cancel), late], reset["S"], 12),
        ("trailers", [("S", frame(HEADERS, 1, field("x", "y"), END_HEADERS | END_STREAM))], ["S.", "C."], 6),
        ("bytes after its own end", [("C", end), late, ("S", end)], ["C.", "S."], 6),
        ("bytes after its own reset", [("C", cancel), late], reset["C"], 6),
        ("an answer to a reset", [("S", cancel), ("C", cancel)], reset["S"], 6),
        ("a reset after an end", [("S", end), ("C", cancel)], ["S.", *reset["C"][:2]], 6),
        ("a reset after its own end", [("S", end + cancel)], ["S.", "C."], 6),
        ("that, and an answer", [("S", end + cancel), ("C", cancel)], ["S.", "C."], 6),
        ("a reset after both", [("C", end), ("S", end + cancel)], ["C.", "S."], 6),
        ("the connection's end", [], ["C.", "S."], 6),
    ):
        out, warned = pcap2wsn(made(folder, talk + said), "0.1")
        same((ends(out), len(sides(out)[0]), warned), (wanted, size, ""), what)
    pcaps.write(folder / "made.pcap", session(talk)[:-1])
    same(ends(pcap2wsn(folder / "made.pcap", "0.1")[0]), ["C.", "S."], "the last packet ends the connection")
    packets = session(talk)[:-3]
    pcaps.write(folder / "made.pcap", packets)
    same(ends(pcap2wsn(folder / "made.pcap", "0.1")[0]), [], "none")
    last = [pcaps.Segment(each) for each in packets if pcaps.Segment(each).source == 80][-1]
    broken = pcaps.packet((80, 40000), last.seq + len(last.payload), 0, 4)
    pcaps.write(folder / "made.pcap", [*packets, broken])
    whole = pcap2wsn(folder / "made.pcap", "0.1")
    same((ends(whole[0]), whole[1]), (reset["S"], ""), "the connection's reset")
    (folder / "made.pcap").write_bytes((folder / "made.pcap").read_bytes() + b"cut")
    same(pcap2wsn(folder / "made.pcap", "0.1"), whole, "a pcap that is cut short after that")
    head = [("C", frame(HEADERS, 1, asking(), END_HEADERS) + frame(DATA, 1, b"\x89\x80abcd", END_STREAM))]
    out = pcap2wsn(made(folder, [*BEGIN, *head, ("S", frame(HEADERS, 1, OK, END_HEADERS))]), "0.1")[0]
    same((ends(out), sides(out)[0]), (["C.", "S."], b"\x89\x80abcd"), "a client that doesn't wait for the answer")
    both = [("C", frame(HEADERS, 1, asking(), END_HEADERS)), ("S", frame(HEADERS, 1, OK, END_HEADERS | END_STREAM))]
    same(ends(pcap2wsn(made(folder, [*BEGIN, *both]), "0.1")[0]), ["S.", "C."], "an end with the answer")


@test
def http2_that_lacks_a_segment_says_so(folder):
    """Each segment with bytes of frames lost in turn: the bytes before it, a note, no end mark, status 1. A stream that
    was over before that is whole."""
    needs_hpack()
    over = [("C", frame(DATA, 1, b"\x88\x80abcd", END_STREAM)), ("S", frame(DATA, 1, b"\x88\0", END_STREAM))]
    reset = ("C", frame(RST_STREAM, 5, struct.pack("!I", 8)))
    talk = [*BEGIN, *opening(1), *opening(3, "/two"), *over, *opening(5), reset]
    data = [("CS"[at % 2], frame(DATA, 3, bytes([at]) * (20 + at))) for at in range(8)]
    last = [(side, frame(DATA, 3, b"", END_STREAM)) for side in "CS"]
    packets = session([*talk, *data, *last])
    whole = {side: [each[9:] for who, each in data if who == side] for side in "CS"}
    for at, (side, _) in enumerate([*data, *last]):
        place = 2 + len(talk) + at
        pcaps.write(folder / "lost.pcap", pcaps.without(packets, [place]))
        out, said = pcap2wsn(folder / "lost.pcap", "0.3", status=1)
        name, other = {"C": ("client", "S"), "S": ("server", "C")}[side]
        before, size = b"".join(whole[side][: at // 2]), 29 + at if at < 8 else 9
        want(f"{name}: whole up to byte {len(before)} of its frames: {size} bytes missing" in said, said)
        got = dict(zip("CS", sides(out)))
        same((got[side], got[other]), (before, b"".join(whole[other])), f"without packet {place + 1}")
        same(sides(out)[2], {other}, f"the end marks without packet {place + 1}")
        out, said = pcap2wsn(folder / "lost.pcap", "0.1")
        same((sides(out), said), ((b"\x88\x80abcd", b"\x88\0", {"C", "S"}), ""), "the stream that was over before that")
        out, said = pcap2wsn(folder / "lost.pcap", "0.5")
        same((ends(out), said), (["# reset by the client", "C.", "S."], ""), "the stream that was reset before that")
        said = pcap2wsn(folder / "lost.pcap", status=1)[1]
        same("streams that begin later aren't listed" in said, side == "C", f"what is said of the list: {said}")
    pcaps.write(folder / "lost.pcap", pcaps.without(packets, [2 + len(BEGIN) + 3]))  # The answer of stream 3.
    out, said = pcap2wsn(folder / "lost.pcap", status=1)
    same([line.split()[0] for line in out.decode().splitlines()], ["0.1"], "the list without an answer")
    want("connection 0.3 has no whole handshake: 10 bytes missing" in said, said)


@test
def http2_of_tls_that_lacks_a_segment_says_so(folder):
    """The bytes before it, and status 1 for the side that lacks it."""
    needs("tshark")
    needs_hpack()
    packets, link = pcaps.read(HTTP2 / "python.pcap")
    wanted = sides(pcap2wsn(HTTP2 / "python.pcap", "0.1", HTTP2 / "python.keys")[0])
    for at in range(2):
        place = pcaps.data_of(packets, at)[-12 if at == 0 else 20]
        pcaps.write(folder / "lost.pcap", pcaps.without(packets, [place]), link)
        out, said = pcap2wsn(folder / "lost.pcap", "0.1", HTTP2 / "python.keys", status=1)
        got, name = sides(out), ("client", "server")[at]
        want(wanted[at].startswith(got[at]) and got[at] != wanted[at], f"the {name}'s is no front of what was sent")
        same(got[1 - at], wanted[1 - at], f"without a packet of the {name}: the other side")
        want(f"{name}: whole up to byte {len(got[at])} of its frames: " in said, said)


@test
def http2_says_how_a_handshake_failed(folder):
    """In the list and where the capture is asked for; what wasn't offered is reported, and no accept is missed."""
    needs_hpack()
    ask = ("C", frame(HEADERS, 1, asking(), END_HEADERS))
    no = ("S", frame(HEADERS, 1, field(":status", "401") + field("content-length", "2"), END_HEADERS))
    cancel = frame(RST_STREAM, 1, struct.pack("!I", 8))
    for said, outcome, words in (
        ([ask, no, ("S", frame(DATA, 1, b"no", END_STREAM))], "HTTP 401", "has the answer HTTP/2 401"),
        ([ask, ("S", cancel)], "no answer", "has no answer; the server reset the stream"),
        ([ask, ("C", cancel)], "no answer", "has no answer; the client reset the stream"),
        ([ask], "no answer", "has no answer; the client ended the stream"),
    ):
        pcap = made(folder, [*BEGIN, *said])
        row = pcap2wsn(pcap)[0].decode().split("\t")
        same((row[0], row[5:9]), ("0.1", ["/chat", "0", "0", outcome]), "the list")
        said = pcap2wsn(pcap, "0.1", status=2)[1]
        same(said, f"pcap2wsn: {pcap} has no frames of connection 0.1: the request for /chat {words}\n", "what is said")
    said = pcap2wsn(made(folder, [*BEGIN, *opening(1)]), "0", status=2)[1]
    want("has no connection 0 of WebSocket; it has these: 0.1" in said, said)
    head = asking("/", field("sec-websocket-protocol", "chat"))
    answer = OK + field("sec-websocket-protocol", "mqtt") + field("sec-websocket-extensions", "x-one; a=1")
    talk = [("C", frame(HEADERS, 1, head, END_HEADERS)), ("S", frame(HEADERS, 1, answer, END_HEADERS))]
    out, said = pcap2wsn(made(folder, [*BEGIN, *talk]), "0.1")
    wrong = ["subprotocol mqtt was not offered", "extension x-one was not offered"]
    same(said.splitlines()[:2], [f"pcap2wsn: {line}" for line in wrong], "what is said of an answer")
    front = ["subprotocol: mqtt", "extensions: x-one; a=1", *wrong]
    same(said_in(out)[3:7], [f"# {line}" for line in front], "the front")
    get = field(":method", "GET") + field(":path", "/") + field(":scheme", "https")
    talk = [("C", frame(HEADERS, 1, get, END_HEADERS | END_STREAM)), ("S", frame(HEADERS, 1, OK, END_HEADERS))]
    want("has no WebSocket handshake" in pcap2wsn(made(folder, [*BEGIN, *talk]), status=2)[1], "another request")


@test
def http2_that_is_malformed_says_so(folder):
    """What came before it, a note, no end mark, status 1."""
    needs_hpack()
    talk = [*BEGIN, *opening(1), ("S", frame(DATA, 1, b"\x89\0")), ("C", frame(DATA, 1, b"\x8a\x80abcd"))]
    for what, bad in (
        ("a header block that can't be decoded", frame(HEADERS, 3, b"\xff\xff", END_HEADERS)),
        ("a header block that is interrupted", frame(HEADERS, 3, OK) + frame(DATA, 1, b"x")),
        ("a part of no header block", frame(CONTINUATION, 1, OK, END_HEADERS)),
        ("padding beyond the frame", frame(DATA, 1, b"\x09abc", PADDED)),
    ):
        out, said = pcap2wsn(made(folder, [*talk, ("S", frame(DATA, 1, b"\x8a\0") + bad)]), "0.1", status=1)
        same(sides(out), (b"\x8a\x80abcd", b"\x89\0\x8a\0", {"C"}), what)
        same(said, "pcap2wsn: server: whole up to byte 4 of its frames: the HTTP/2 is malformed there\n", what)


@test
def http2_finds_the_library_of_debian(folder):
    """Also where the recipes run by another Python than Debian's."""
    if not pathlib.Path("/usr/lib/python3/dist-packages/hpack").exists():
        raise Skipped("without python3-hpack")
    want(has_hpack(), "the library isn't found")


@test
def http2_without_the_library(folder):
    """A line that names the package: alone with status 2, beside other sessions with status 1."""
    (folder / "hpack.py").write_text("raise ImportError\n")
    environment = {**os.environ, "PYTHONPATH": str(folder)}
    pcap = made(folder, [*BEGIN, *opening(1)])
    wanted = "is HTTP/2, and Python's library hpack isn't here; Debian has it in the package python3-hpack\n"
    for words in [], ["0.1"]:
        out, said = pcap2wsn(pcap, *words, status=2, env=environment)
        same((out, said), (b"", f"pcap2wsn: connection 0 of {pcap} {wanted}"), f"what is said of {words}")
    other = pcaps.session([*HANDSHAKE, ("S", b"\x88\0")], 40001, 80)
    pcaps.write(folder / "both.pcap", [*session([*BEGIN, *opening(1)]), *other])
    out, said = pcap2wsn(folder / "both.pcap", status=1, env=environment)
    same((out.split()[0], said), (b"1", f"pcap2wsn: connection 0 {wanted}"), "the list")
    same(sides(pcap2wsn(folder / "both.pcap", "1", env=environment)[0])[1], b"\x88\0", "another session")
    said = pcap2wsn(folder / "both.pcap", "0.1", status=2, env=environment)[1]
    same(said, f"pcap2wsn: connection 0 of {folder / 'both.pcap'} {wanted}", "its stream")


@test
def http2_after_its_beginning(folder):
    """A pcap that begins later can't be read, and -m doesn't pretend to."""
    needs_hpack()
    talk = [*BEGIN, *opening(1), ("S", frame(DATA, 1, b"\x88\0"))]
    packets = session(talk)
    pcaps.write(folder / "late.pcap", packets[5:])
    want("has no WebSocket handshake" in pcap2wsn(folder / "late.pcap", status=2)[1], "a late beginning")
    pcaps.write(folder / "whole.pcap", packets)
    said = pcap2wsn("-m", folder / "whole.pcap", "0")[1]
    want("the connection begins with its handshake: leave -m out" in said, short(said))
