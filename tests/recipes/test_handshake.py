"""recipes/handshake.py: heads, bodies and extensions, as RFC 9112, RFC 6455 and RFC 7692 have them."""

import sys

from harness import TOP, Failed, same, test, want

sys.path.insert(0, str(TOP / "recipes"))

import handshake  # noqa: E402
from handshake import Body, Head, Malformed, Opening, extensions, faults  # noqa: E402

ASK = Head(b"GET /chat?key=x HTTP/1.1\r\nUpgrade: websocket\r\n\r\n")
UPGRADE = b"HTTP/1.1 101 Switching Protocols\r\nupgrade: WebSocket\r\n\r\n"


@test
def handshake_finds_the_end_of_bodies(folder):
    """Of chunked ones with extensions and trailers, of counted ones, and of answers that have none; byte by byte too."""
    post = Head(b"POST / HTTP/1.1\r\nContent-Length: 3\r\n\r\n")
    for what, head, request, body in (
        ("chunks", b"200 OK\r\nTransfer-Encoding: gzip, chunked", ASK, b"5;x=y\r\nHTTP/\r\n0a\r\n0123456789\r\n0\r\n\r\n"),
        ("trailers", b"200 OK\r\ntransfer-encoding: Chunked", ASK, b"1\r\na\r\n0\r\nA: b\r\nC: d\r\n\r\n"),
        ("a size", b"401 No\r\ncontent-length:4", ASK, b"\r\n\r\n"),
        ("no content", b"204 None\r\nContent-Length: 4", ASK, b""),
        ("not modified", b"304 Same\r\nContent-Length: 4", ASK, b""),
        ("HEAD", b"200 OK\r\nContent-Length: 4", Head(b"HEAD / HTTP/1.1\r\n\r\n"), b""),
        ("a tunnel", b"200 OK", Head(b"CONNECT a:80 HTTP/1.1\r\n\r\n"), b""),
        ("a request", None, None, b"abc"),
    ):
        for size in 1, 100:
            found = Body(post) if head is None else Body(Head(b"HTTP/1.1 " + head + b"\r\n\r\n"), request)
            data, taken = body + b"HTTP/1.1", 0
            for at in range(0, len(data), size):
                taken += found.take(data[at : at + size])
            same((taken, found.is_done), (len(body), True), f"{what} by {size}")
    endless = Body(Head(b"HTTP/1.1 200 OK\r\n\r\n"), ASK)
    same((endless.take(b"abc"), endless.is_done), (3, False), "a body without a size")


@test
def handshake_finds_the_frames(folder):
    """After a tunnel, an answer 401, a 100; whichever side's bytes come first."""
    first = [("C", b"CONNECT a:80 HTTP/1.1\r\n\r\n"), ("S", b"HTTP/1.1 200 OK\r\n\r\n")]
    refused = [("C", ASK.data), ("S", b"HTTP/1.1 401 No\r\nContent-Length: 2\r\n\r\nno")]
    last = [("C", ASK.data + b"\x81\x80"), ("S", b"HTTP/1.1 100 Continue\r\n\r\n" + UPGRADE + b"\x81\x00")]
    for what, talk in (
        ("alone", last),
        ("a tunnel", first + last),
        ("401", refused + last),
        ("the answer first", last[::-1]),
    ):
        opening = Opening()
        same([opening.take(*each) for each in talk], [False] * (len(talk) - 1) + [True], what)
        same((opening.held, opening.request.path), ({"C": b"\x81\x80", "S": b"\x81\x00"}, "/chat"), what)


@test
def handshake_bounds_what_it_keeps(folder):
    """A head, or bytes that belong to no request, are at most some megabytes."""
    for side, data in ("C", b"GET / HTTP/1.1\r\nX: y\r\n"), ("S", b"HTTP/1.1 200 OK\r\n"):
        opening = Opening()
        try:
            for _ in range(3 * handshake.HEAD_LIMIT // 1000):
                opening.take(side, (data * 100)[:1000].replace(b"\r\n\r\n", b"...."))
        except Malformed:
            continue
        raise Failed(f"{side}: it keeps on")


@test
def handshake_reads_extensions(folder):
    """Names, parameters with and without a value, values in quotes, several lines."""
    head = Head(b"HTTP/1.1 101 X\r\nSec-WebSocket-Extensions: Foo\r\nsec-websocket-extensions: b; c=\"d,e\" ; f\r\n\r\n")
    wanted = [("foo", {}), ("b", {"c": "d,e", "f": None})]
    same(extensions(head.value("sec-websocket-extensions")), wanted, "the extensions")
    same(extensions(""), [], "none")
    for text in "a; b; b", "a; =1", "; a=1":
        try:
            extensions(text)
        except Malformed:
            continue
        want(False, f"{text!r} is no list of extensions")


@test
def handshake_finds_what_is_wrong_with_an_answer(folder):
    """RFC 6455: the key of section 1.3 and its accept; each fault of 4.1 by itself, and several; names as sent."""
    key, accept = b"Sec-WebSocket-Key: dGhlIHNhbXBsZSBub25jZQ==", b"Sec-WebSocket-Accept: s3pPLMBiTxaQ9kYGzzhZRbK+xOo="
    protocol, extension = b"Sec-WebSocket-Protocol: ", b"Sec-WebSocket-Extensions: "
    chosen = [accept, protocol + b"superchat", extension + b"x-two, Permessage-Deflate; a=\"b,c\""]
    offers = [key, protocol + b"chat, superchat", extension + b"permessage-deflate; client_max_window_bits, x-two"]
    for what, asked, answered, wanted in (
        ("the example", [key, protocol + b"chat, superchat"], [accept, protocol + b"chat"], []),
        ("blanks around them", [key + b"  "], [b"sec-websocket-accept:\t" + accept[22:] + b" "], []),
        ("another accept", [key], [accept.replace(b"s3p", b"S3p")], ["accept is wrong"]),
        ("no accept", [key], [], ["accept is wrong"]),
        ("two of them", [key], [accept, accept], ["accept is wrong"]),
        ("an accept without a key", [], [accept], ["accept is wrong"]),
        ("neither", [], [], []),
        ("nothing chosen", offers, [accept], []),
        ("what was offered", offers, chosen, []),
        ("a subprotocol", [key], [accept, protocol + b"mqtt"], ["subprotocol mqtt was not offered"]),
        ("its case", offers, [accept, protocol + b"Chat"], ["subprotocol Chat was not offered"]),
        ("an extension", [key], [accept, extension + b"X-One; a"], ["extension X-One was not offered"]),
        ("all", offers, [protocol + b"x", extension + b"x-two, a; b, c"],
         ["accept is wrong", *(f"{name} was not offered" for name in ("subprotocol x", "extension a", "extension c"))]),
    ):  # fmt: skip
        heads = [Head(b"\r\n".join([line, *fields, b"", b""])) for line, fields in
                 ((b"GET / HTTP/1.1", asked), (b"HTTP/1.1 101 Switching Protocols", answered))]  # fmt: skip
        same(faults(*heads), wanted, what)


@test
def handshake_keeps_the_refusal(folder):
    """Of the last request for frames: none while it has no final answer, nor once it has 101."""
    no = b"HTTP/1.1 401 Unauthorized\r\nContent-Length: 2\r\n\r\nno"
    again = Head(ASK.data.replace(b"/chat", b"/again"))
    other = b"GET /style.css HTTP/1.1\r\n\r\n"
    opening = Opening()
    for side, data, asked, refused in (
        ("C", other, "", 0),
        ("S", no, "", 0),
        ("C", ASK.data, "/chat", 0),
        ("S", b"HTTP/1.1 100 Continue\r\n\r\n", "/chat", 0),
        ("S", no, "/chat", 401),
        ("C", other, "/chat", 401),
        ("S", b"HTTP/1.1 404 No\r\nContent-Length: 0\r\n\r\n", "/chat", 401),
        ("C", again.data, "/again", 0),
        ("S", b"HTTP/1.1 101 Without the upgrade\r\n\r\n", "/again", 101),
        ("C", ASK.data, "/chat", 0),
        ("S", UPGRADE, "/chat", 0),
    ):
        opening.take(side, data)
        found = opening.asked.path if opening.asked else "", opening.refusal.status if opening.refusal else 0
        same(found, (asked, refused), f"after {data!r}")
