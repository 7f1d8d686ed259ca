"""The HTTP that comes before a WebSocket connection's frames (RFC 6455, section 4): heads, bodies, the answer 101."""

import base64
import hashlib
import re
from typing import Dict, List, Optional, Tuple

HEAD_LIMIT = 1 << 20  # The maximum bytes of a head.
EMPTY_LINE = b"\r\n\r\n"


class Malformed(ValueError):
    """This isn't HTTP as RFC 9112 has it."""


class Head:
    """The head of a request or of an answer: its bytes, up to and with the empty line."""

    def __init__(self, data: bytes):
        self.data = data
        self.line = data.partition(b"\r\n")[0].decode("latin-1")

    def value(self, name: str) -> str:
        """The value of a field, several of one name joined; empty without it."""
        found = re.findall(rb"\r\n" + name.encode() + rb":[ \t]*([^\r\n]*)", self.data, re.IGNORECASE)
        return ", ".join(each.decode("latin-1").strip() for each in found)

    @property
    def method(self) -> str:
        """A request's method."""
        return self.line.partition(" ")[0]

    @property
    def path(self) -> str:
        """A request's path, without the query, which often holds a password."""
        target = self.line.partition(" ")[2].partition(" ")[0]
        return target.partition("?")[0]

    @property
    def status(self) -> int:
        """An answer's status; 0 if it has none."""
        code = self.line.partition(" ")[2][:3]
        return int(code) if re.fullmatch("[0-9]{3}", code) else 0

    @property
    def is_final(self) -> bool:
        """Whether this is the last answer to its request, and not a 100 or 103 before it."""
        return self.status == 101 or self.status >= 200

    @property
    def begins_frames(self) -> bool:
        """Whether this is the answer after which both sides send frames."""
        return self.status == 101 and "websocket" in self.value("upgrade").lower()

    @property
    def asks_for_frames(self) -> bool:
        """Whether this is a request for a WebSocket connection."""
        return "websocket" in self.value("upgrade").lower()


def split_head(held: bytes) -> Optional[Tuple[Head, bytes]]:
    """The head at the front of these bytes, and what follows it; None while it isn't whole."""
    end = held.find(EMPTY_LINE)
    if end < 0 and len(held) <= HEAD_LIMIT:
        return None
    if end < 0 or end > HEAD_LIMIT:
        raise Malformed(f"a head of more than {HEAD_LIMIT} bytes")
    end += len(EMPTY_LINE)
    return Head(held[:end]), held[end:]


class Body:
    """The body after a head, of which `take` says how much of the bytes that come belongs to it."""

    def __init__(self, head: Head, request: Optional[Head] = None):
        """A request's body or, with the request that it answers, an answer's."""
        self.left: Optional[int] = 0  # Bytes to come before the next line of sizes; None: up to the end.
        self.in_chunks = False
        self.in_trailers = False
        self.line = b""  # A line of a chunked body that isn't whole.
        size = head.value("content-length")
        if request is not None and has_no_body(head, request):
            return
        if "chunked" in head.value("transfer-encoding").lower():
            self.in_chunks = True
        elif size.isdecimal():
            self.left = int(size)
        elif request is not None:
            self.left = None

    @property
    def is_done(self) -> bool:
        """Whether the body is over."""
        return self.left == 0 and not self.in_chunks

    def take(self, data: bytes) -> int:
        """The number of these bytes that belong to the body."""
        at = 0
        while at < len(data) and not self.is_done:
            if self.left is None:
                return len(data)
            if self.left > 0:
                step = min(self.left, len(data) - at)
                self.left -= step
            else:
                step = self.take_line(data[at:])
            at += step
        return at

    def take_line(self, data: bytes) -> int:
        """Takes a line of a chunked body, or a part of one: a chunk's size, a trailer, or the empty last line."""
        step = data.find(b"\n") + 1 or len(data)
        self.line += data[:step]
        if len(self.line) > HEAD_LIMIT:
            raise Malformed("a chunk's size is no number")
        if self.line.endswith(b"\n"):
            line, self.line = self.line.strip(), b""
            if self.in_trailers:
                self.in_chunks = line != b""
            else:
                self.begin_chunk(line)
        return step

    def begin_chunk(self, line: bytes) -> None:
        """Reads the line with a chunk's size; the chunk ends with the end of a line, and the last one is empty."""
        digits = line.partition(b";")[0].strip()
        if not re.fullmatch(rb"[0-9A-Fa-f]{1,15}", digits):
            raise Malformed("a chunk's size is no number")
        size = int(digits, 16)
        self.in_trailers = size == 0
        self.left = size + 2 if size else 0


def has_no_body(answer: Head, request: Head) -> bool:
    """Whether an answer has no body, whatever its fields say."""
    tunnel = request.method == "CONNECT" and 200 <= answer.status < 300
    return tunnel or request.method == "HEAD" or answer.status < 200 or answer.status in (204, 304)


class Opening:
    """Both sides' bytes up to the answer 101, and whatever requests were answered otherwise before it."""

    def __init__(self) -> None:
        self.held: Dict[str, bytes] = {"C": b"", "S": b""}
        self.bodies: Dict[str, Optional[Body]] = {"C": None, "S": None}
        self.request: Optional[Head] = None  # The request that has no final answer yet.
        self.answer: Optional[Head] = None  # The answer after which frames come.
        self.asked: Optional[Head] = None  # The last request for frames,
        self.refusal: Optional[Head] = None  # and its final answer, if frames don't come after that.

    @property
    def is_done(self) -> bool:
        """Whether the handshake is whole; `held` has what came after it."""
        body = self.bodies["C"]
        return self.answer is not None and body is not None and body.is_done

    def take(self, side: str, data: bytes) -> bool:
        """Takes what a side sent; whether the handshake is whole."""
        self.held[side] += data
        while not self.is_done and (self.step("S") or self.step("C")):
            pass
        if not self.is_done and len(self.held[side]) > 2 * HEAD_LIMIT:
            raise Malformed(f"more than {2 * HEAD_LIMIT} bytes that belong to no request")
        return self.is_done

    def step(self, side: str) -> bool:
        """Takes a head or a part of a body off; whether there was one."""
        body, held = self.bodies[side], self.held[side]
        if body is not None and not body.is_done:
            taken = body.take(held)
            self.held[side] = held[taken:]
            return taken > 0
        waits = self.request is not None if side == "C" else self.answer is not None or self.request is None
        found = None if waits else split_head(held)
        if found is None:
            return False
        head, self.held[side] = found
        if side == "C":
            self.take_request(head)
        else:
            self.take_answer(head)
        return True

    def take_request(self, head: Head) -> None:
        """Takes a request's head."""
        self.request, self.bodies["C"] = head, Body(head)
        if head.asks_for_frames:
            self.asked, self.refusal = head, None

    def take_answer(self, head: Head) -> None:
        """Takes an answer's head."""
        if head.begins_frames:
            self.answer = head
        elif head.is_final:
            if self.request is self.asked:
                self.refusal = head
            self.bodies["S"] = Body(head, self.request)
            self.request = None


GUID = b"258EAFA5-E914-47DA-95CA-C5AB0DC85B11"  # What a key is joined with (RFC 6455, 1.3).


def faults(request: Head, answer: Head) -> List[str]:
    """What is wrong with an answer 101, so that the client must fail the connection (RFC 6455, 4.1)."""
    wrong = answer.value("sec-websocket-accept") != accept_of(request)
    return ["accept is wrong"] * wrong + unoffered(request, answer)


def unoffered(request: Head, answer: Head) -> List[str]:
    """What an answer chooses and the request doesn't offer, for which the client must fail the connection, too."""
    offered = set(names_in(request.value("sec-websocket-protocol")))
    chosen = names_in(answer.value("sec-websocket-protocol"))
    found = [f"subprotocol {shown_name(name)} was not offered" for name in chosen if name not in offered]
    offered = {name.lower() for name in names_in(request.value("sec-websocket-extensions"))}
    chosen = names_in(answer.value("sec-websocket-extensions"))
    return found + [f"extension {name} was not offered" for name in chosen if name.lower() not in offered]


def accept_of(request: Head) -> str:
    """The value of Sec-WebSocket-Accept with which a request is answered (RFC 6455, 4.2.2); none without a key."""
    key = request.value("sec-websocket-key").encode("latin-1")
    return base64.b64encode(hashlib.sha1(key + GUID, usedforsecurity=False).digest()).decode() if key else ""


# What looks like a token: a JWT, a UUID, 16 letters and digits in a row, or a long name.
TOKEN = re.compile(
    r"\beyJ|[0-9a-f]{8}-(?:[0-9a-f]{4}-){3}[0-9a-f]{12}|(?=[a-z]*[0-9])(?=[0-9]*[a-z])[0-9a-z]{16}|.{64}",
    re.IGNORECASE)  # fmt: skip
LEFT_OUT = "(left out: it looks like a token)"


def shown_name(name: str) -> str:
    """A subprotocol's name, or that it looks like a token: browsers can send one in no other field."""
    return LEFT_OUT if TOKEN.search(name) else name


def names_in(text: str) -> List[str]:
    """The names in a field Sec-WebSocket-Protocol or Sec-WebSocket-Extensions, without their parameters."""
    items = re.findall(r'(?:[^",]|"[^"]*"?)+', text)
    return [name for item in items if (name := item.partition(";")[0].strip())]


Extension = Tuple[str, Dict[str, Optional[str]]]


def extensions(text: str) -> List[Extension]:
    """The extensions of a field Sec-WebSocket-Extensions (RFC 6455, 9.1): names in lower case, and their parameters.

    A parameter without a value has None. Malformed, if there is no name, or a parameter comes twice.
    """
    found = []
    for item in filter(str.strip, split_outside_quotes(text, ",")):
        name, *rest = [part.strip() for part in split_outside_quotes(item, ";")]
        parameters: Dict[str, Optional[str]] = {}
        for part in rest:
            key, equals, value = part.partition("=")
            key = key.strip().lower()
            if not key or key in parameters:
                raise Malformed(f"the parameters of {name}")
            parameters[key] = value.strip().strip('"') if equals else None
        if not name:
            raise Malformed("an extension without a name")
        found.append((name.lower(), parameters))
    return found


def split_outside_quotes(text: str, mark: str) -> List[str]:
    """The parts of a text between marks, but those in quotes."""
    return re.split(rf'{mark}(?=(?:[^"]*"[^"]*")*[^"]*$)', text)
