"""Chromium's net log: its events, and the WebSocket sessions in what its sockets sent and received.

A log is a JSON object with `constants`, which name the numbers of events, and `events`. The browser writes it while it
runs, so that a log can end anywhere.
"""

import base64
import binascii
import gzip
import io
import json
import re
import sys
import zlib
from typing import Any, BinaryIO, Callable, Dict, Iterator, List, NamedTuple, Optional, Set, TextIO, Tuple

from packets import FIN, RST, Segment
from recorded import Sink
from sessions import Session
from streams import Connection, Direction

CHUNK = 1 << 20  # The characters that are read at once.
LATEST = 253_402_300_800_000_000  # The end of the year 9999, in microseconds since 1970.
RESET = -101  # ERR_CONNECTION_RESET, as the log has it.
UNKNOWN = "the log lacks its connection's beginning, or has TLS inside TLS there, or it isn't TCP"
UPGRADED = -173  # ERR_WS_UPGRADE, with which a request ends once its connection is a WebSocket.
UNPACKING = EOFError, zlib.error, gzip.BadGzipFile  # What is raised where a gzip file is cut or damaged.
CLIENT, SERVER = 0, 1  # The directions of a connection.


class NoNetLog(Exception):
    """This isn't a net log; in words for the user."""


def opened(path: str) -> BinaryIO:
    """The file, or standard input if it is -, unpacked if it is a gzip file."""
    file = sys.stdin.buffer if path == "-" else open(path, "rb")
    is_packed = file.peek(2)[:2] == b"\x1f\x8b"
    return gzip.GzipFile(fileobj=file) if is_packed else file  # type: ignore[return-value]


def front_of(file: BinaryIO) -> bytes:
    """The first two bytes, which stay. NoNetLog, if they can't be unpacked."""
    try:
        return file.peek(2)[:2]  # type: ignore[attr-defined, no-any-return]
    except UNPACKING as error:
        raise NoNetLog("it can't be unpacked") from error


class Event(NamedTuple):
    """An event: its name, phase (`BEGIN`, `END` or `NONE`), source, time in microseconds since 1970, and parameters."""

    name: str
    phase: str
    source: int
    time: int
    parameters: Dict[str, Any]


class Cut(Exception):
    """The text ends here."""


class Text:
    """A JSON text that is read bit by bit."""

    def __init__(self, file: BinaryIO):
        self.file: TextIO = io.TextIOWrapper(file, "utf-8", errors="replace")
        self.decoder = json.JSONDecoder()
        self.text = ""
        self.at = 0

    def more(self) -> None:
        """Reads on, at least as much again as waits. Cut, at the end."""
        self.text = self.text[self.at :]
        self.at = 0
        try:
            read = self.file.read(max(CHUNK, len(self.text)))
        except UNPACKING:
            read = ""
        if not read:
            raise Cut
        self.text += read

    def mark(self, skipped: str = "") -> str:
        """The next character that is neither a blank nor one of these; it stays."""
        while True:
            while self.at < len(self.text):
                if self.text[self.at] not in " \t\r\n" + skipped:
                    return self.text[self.at]
                self.at += 1
            self.more()

    def value(self) -> Any:
        """The next value."""
        self.mark()
        while True:
            try:
                found, self.at = self.decoder.raw_decode(self.text, self.at)
                return found
            except json.JSONDecodeError:
                self.more()
            except RecursionError as error:
                raise NoNetLog("its JSON is nested too deep") from error


class Log:
    """The events of a log that can concern a WebSocket."""

    def __init__(self, file: BinaryIO):
        self.text = Text(file)
        self.is_cut = False  # It ends before its list of events does.
        self.names: Dict[int, str] = {}
        self.phases: Dict[int, str] = {}
        self.errors: Dict[int, str] = {}
        self.offset = 0  # What a time is counted from, in milliseconds since 1970.

    def __iter__(self) -> Iterator[Event]:
        try:
            self.find_events()
            while self.text.mark(",") != "]":
                found = self.event(self.text.value())
                if found is not None:
                    yield found
        except Cut:
            self.is_cut = True

    def find_events(self) -> None:
        """Reads what comes before the list of events. NoNetLog, if this is no net log."""
        try:
            begins = self.text.mark("\ufeff")
        except Cut as error:
            raise NoNetLog("it is empty") from error
        if begins != "{":
            raise NoNetLog("it isn't JSON")
        name = ""
        try:
            self.text.at += 1
            while self.text.mark(",") == '"':
                name = self.text.value()
                self.text.mark(":")
                if name == "constants":
                    self.take_constants(self.text.value())
                elif name == "events" and self.names and self.text.mark() == "[":
                    self.text.at += 1
                    return
                elif name == "log":
                    raise NoNetLog("it is a HAR file, which has messages and no frames")
                else:
                    self.text.value()
        except Cut as error:
            if self.names:
                raise
            if name == "constants":
                raise NoNetLog("it is cut short before its first event") from error
        raise NoNetLog("it is JSON without a net log's constants and events")

    def take_constants(self, constants: Any) -> None:
        """Reads the names of events, phases and errors, and the time's beginning."""
        try:
            types = constants["logEventTypes"]
            self.names = {types[name]: name for name in NAMES if name in types}
            phases = constants["logEventPhase"]
            self.phases = {number: name.removeprefix("PHASE_") for name, number in phases.items()}
            self.errors = {number: name for name, number in constants.get("netError", {}).items()}
            self.offset = int(constants["timeTickOffset"])
        except (KeyError, TypeError, ValueError, AttributeError) as error:
            raise NoNetLog("its constants aren't a net log's") from error

    def event(self, given: Any) -> Optional[Event]:
        """An event, or None if it can't concern a WebSocket."""
        try:
            name = self.names.get(given["type"])
            if name is None:
                return None
            time = (int(given["time"]) + self.offset) * 1000
            if not 0 <= time < LATEST:
                raise ValueError(time)
            phase = self.phases.get(given["phase"], "")
            given_parameters = given.get("params")
            parameters = given_parameters if isinstance(given_parameters, dict) else {}
            return Event(name, phase, int(given["source"]["id"]), time, parameters)
        except (KeyError, TypeError, ValueError) as error:
            raise NoNetLog(f"an event isn't a net log's: {str(given)[:80]}") from error


class Logged(Session):
    """A socket of a log as a session. Its bytes come as segments: in order, whole, and as they were before TLS."""

    def __init__(self, connection: Connection, sink_of: Callable[[str], Optional[Sink]]):
        super().__init__(connection, False, sink_of)
        self.addresses = ["-", "-"]
        self.sent = [0, 0]  # The bytes of each direction.
        self.count = 0

    @property
    def nodes(self) -> Tuple[str, str]:
        """The client and the server."""
        return self.addresses[CLIENT], self.addresses[SERVER]

    def add(self, index: int, time: int, flags: int, size: int = 0, data: bytes = b"") -> None:
        """Bytes of a direction, or its end. What the log lacks of them is missing."""
        direction = self.connection.directions[index]
        if self.connection.reset_by is not None or direction.fin is not None:
            return
        self.count += 1
        segment = Segment(self.count, time, b"", self.sent[index] & 0xFFFFFFFF, 0, flags, size, data)
        self.sent[index] += size
        self.segment(direction, segment, self.connection.take(direction, segment))

    @property
    def has_gaps(self) -> bool:
        """Whether the log lacks bytes that the socket sent or received."""
        return any(direction.lack() is not None for direction in self.connection.directions)

    def words(self, direction: Direction, is_cut: bool) -> str:
        """What is missing of a direction, in words; empty if it is whole."""
        if direction.lack() is not None:
            return "the net log has no bytes of what comes then"
        return "the net log is cut short" if is_cut and not direction.ended else ""


class Socket:
    """A socket of a log, whose session begins anew after each layer that comes before HTTP."""

    def __init__(self, number: int, begin: Callable[[Connection], Logged]):
        self.number = number
        self.begin = begin
        self.layers = 0  # Layers of TLS.
        self.in_proxy = False  # The bytes are those of SOCKS.
        self.addresses = ["-", "-"]
        self.restart()

    def restart(self) -> None:
        """What comes now is a session of its own; before it were a proxy's words."""
        self.session = self.begin(Connection(self.number, b""))
        self.session.addresses = self.addresses

    def take(self, event: Event) -> None:
        """An event of the socket."""
        name, phase = event.name, event.phase
        if name in BYTES:
            self.take_bytes(event)
        elif name == "TCP_CONNECT" and phase == "END":
            local = event.parameters.get("local_address") or event.parameters.get("source_address")
            self.addresses[CLIENT] = str(local or self.addresses[CLIENT])
            self.addresses[SERVER] = str(event.parameters.get("remote_address") or self.addresses[SERVER])
        elif name == "SSL_CONNECT" and phase == "BEGIN":
            self.layers += 1
            self.restart()
        elif name in SOCKS:
            self.in_proxy = phase == "BEGIN"
            self.restart()
        elif name in ERRORS and event.parameters.get("net_error") == RESET:
            self.session.add(SERVER, event.time, RST)
        elif name == "SOCKET_ALIVE" and phase == "END":
            self.session.add(CLIENT, event.time, FIN)

    def take_bytes(self, event: Event) -> None:
        """Bytes that the socket sent or received, or that the server ended its direction."""
        index, layer = BYTES[event.name]
        size = event.parameters.get("byte_count")
        if index == SERVER and size == 0:
            self.session.add(SERVER, event.time, FIN)
        elif layer == self.layers and not self.in_proxy and isinstance(size, int) and size > 0:
            self.session.add(index, event.time, 0, size, data_of(event)[:size])


def data_of(event: Event) -> bytes:
    """The bytes of an event, if the log has them."""
    try:
        return base64.b64decode(event.parameters.get("bytes", ""), validate=True)
    except (binascii.Error, TypeError, ValueError):
        return b""


class Request:
    """A request for a WebSocket: its URL without the parts that can hold a password, and how it ended. `named` is what
    is said of it: redacted, the URL without the path."""

    def __init__(self, url: str, is_redacted: bool):
        self.url = re.sub(r"//[^/]*@", "//", url.partition("?")[0].partition("#")[0], count=1)
        self.named = "/".join(self.url.split("/")[:3]) if is_redacted else self.url
        self.is_sent = False
        self.error = ""

    @property
    def path(self) -> str:
        """The path, as a request has it."""
        return "/" + self.url.partition("://")[2].partition("/")[2]


class Requests:
    """The requests for WebSockets in a log, also of those that no socket of the log can have."""

    def __init__(self, is_redacted: bool) -> None:
        self.is_redacted = is_redacted
        self.known: Dict[int, Request] = {}
        self.earlier: Set[int] = set()  # WebSockets that were open before the log began.

    def take(self, event: Event, errors: Dict[int, str]) -> None:
        """An event of a request."""
        if event.name == "REQUEST_ALIVE" and event.phase == "BEGIN":
            url = str(event.parameters.get("url", ""))
            if url.startswith(("ws://", "wss://")):
                self.known[event.source] = Request(url, self.is_redacted)
        elif event.source in self.known:
            self.take_known(self.known[event.source], event, errors)
        elif event.name in FRAMES:
            self.earlier.add(event.source)

    def take_known(self, request: Request, event: Event, errors: Dict[int, str]) -> None:
        """An event of a request for a WebSocket."""
        number = event.parameters.get("net_error")
        if event.name in SENDS or number == UPGRADED:
            request.is_sent = True
        elif event.name == "REQUEST_ALIVE" and event.phase == "END" and isinstance(number, int):
            request.error = errors.get(number, str(number))

    def unsent(self) -> List[str]:
        """Why requests weren't sent, in words."""
        return [f"no request for {each.named} was sent: {each.error}"
                for each in self.known.values() if each.error and not each.is_sent]  # fmt: skip

    def unlisted(self, paths: List[str]) -> List[str]:
        """What is missing beside the requests for these paths, in words."""
        left = list(paths)
        said = []
        for request in self.known.values():
            if request.is_sent and request.path in left:
                left.remove(request.path)
            elif request.is_sent:
                said.append(f"{request.named} isn't listed: {UNKNOWN}")
        if self.earlier:
            said.append(f"WebSockets that were open before the log began, and aren't listed: {len(self.earlier)}")
        return said


# What a socket sent and received: the direction, and the number of layers of TLS around it.
BYTES = {
    "SOCKET_BYTES_SENT": (CLIENT, 0),
    "SOCKET_BYTES_RECEIVED": (SERVER, 0),
    "SSL_SOCKET_BYTES_SENT": (CLIENT, 1),
    "SSL_SOCKET_BYTES_RECEIVED": (SERVER, 1),
}
ERRORS = {"SOCKET_READ_ERROR", "SOCKET_WRITE_ERROR", "SSL_READ_ERROR", "SSL_WRITE_ERROR"}
SOCKS = {"SOCKS_CONNECT", "SOCKS5_CONNECT"}
OF_SOCKETS = {"SOCKET_ALIVE", "TCP_CONNECT", "SSL_CONNECT", *SOCKS, *ERRORS, *BYTES}
SENDS = {"HTTP_TRANSACTION_SEND_REQUEST_HEADERS", "HTTP_TRANSACTION_HTTP2_SEND_REQUEST_HEADERS"}
FRAMES = {"WEBSOCKET_SENT_FRAME_HEADER", "WEBSOCKET_RECV_FRAME_HEADER"}
NAMES = {"REQUEST_ALIVE", *SENDS, *FRAMES, *OF_SOCKETS}
