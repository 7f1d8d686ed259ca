"""Why a WebSocket session failed: what one endpoint sent, judged by RFC 6455, and what a capture says.

    >>> import wsn
    >>> wsn.judge(b"\\x81\\x05Hel\\xfco", role="server")
    Verdict(verdict='refused', .., offset=5, reason='text-bad', code=1007)

Each call does what the command of `wsn` with its name does, over bytes (or any buffer: a `memoryview`, an `mmap`; nothing
is copied) instead of files, by the proved library `libwsn.so`. It is looked for where the environment variable
`WSN_LIBRARY` says, else beside this module, where ./install and pip put it, and where the system looks for libraries. If it
isn't found, each call is an `OSError` that says how it is built: `tools/library FOLDER`.

Wrong arguments are a `ValueError`, and so are `FaultyCapture` and `Fault`; `NotAccepted`, `Unfinished` and `Stopped`
aren't. Calls in several threads don't disturb each other. Nothing is printed.
"""

import ctypes
import dataclasses
import decimal
import json
import os
from typing import Any, Callable, Collection, Dict, List, Optional, Tuple, TypeVar, Union

__all__ = [
    "BadCharacter", "Close", "Comparison", "DifferAt", "EndedBy", "Entry", "Fault", "FaultyCapture", "Frame", "Frames",
    "NotAccepted", "PayloadView", "Report", "Session", "Side", "Stopped", "Unfinished", "Verdict", "closing", "frames",
    "judge", "normal", "payload", "plan", "recut", "redact", "same", "sent", "show",
]

__version__ = "0.1.0"  # That of wsn.h and of wsn --version.

ROLES = ("client", "server")
LENGTHS = ("shortest", "any")
CONTROLS = ("ping", "pong", "close")
MESSAGE_MAX = 16_777_216
FRAMES_MAX = 4_294_967_295
OFFSET_MAX = 18_446_744_073_709_551_615
VIEW_MAX = 4_096
VIEW_ALL = 65_535


# ---- what the calls answer


class Stopped(Exception):
    """There is no answer: out of memory, or the input has more than 2^40 bytes."""


class FaultyCapture(ValueError):
    """A line of a capture isn't accepted.

    line: its number, counted from 1. word: what is wrong with it, as `wsn explain` knows it.
    """

    def __init__(self, line: int, word: str):
        super().__init__(f"line {line}: {word}")
        self.line, self.word = line, word


class Fault(ValueError):
    """A plan is faulty or doesn't fit the stream, a stream has no plan, or no event begins at an offset of it.

    The text is the line that `wsn` prints.
    """


@dataclasses.dataclass(frozen=True)
class Close:
    """A Close frame. code: its close code, or None."""

    code: Optional[int]


@dataclasses.dataclass(frozen=True)
class Verdict:
    """The verdict on a stream.

    verdict: "accepted"; "cut", where all is valid so far and the input ends inside a frame or message; or "refused".
    used: bytes of frames; all, if it is cut. tail: bytes after a Close. unfinished: bytes, in whole frames, of a message
    that the end or the Close interrupts. frames, messages, pings, pongs: how many there are. close: the Close, if there is one.
    offset: of the offending byte, from 0; reason: the word for what is wrong with it; code: the close code for it.
    """

    verdict: str
    used: Optional[int] = None
    tail: Optional[int] = None
    unfinished: Optional[int] = None
    frames: Optional[int] = None
    messages: Optional[int] = None
    pings: Optional[int] = None
    pongs: Optional[int] = None
    close: Optional[Close] = None
    offset: Optional[int] = None
    reason: Optional[str] = None
    code: Optional[int] = None

    @property
    def accepted(self) -> bool:
        """Whether the stream is accepted."""
        return self.verdict == "accepted"


class NotAccepted(Exception):
    """A stream isn't accepted, so it has no normal form, plan or recut. verdict: its line, as the program prints it."""

    def __init__(self, verdict: str):
        super().__init__(verdict)
        self.verdict = verdict


class Unfinished(Exception):
    """An event isn't complete: the stream ends or is refused inside it, or a Close interrupts it.

    verdict: the stream's line, as the program prints it. payload: what came of the event's payload, up to the offending byte
    if it is refused.
    """

    def __init__(self, verdict: str, payload: bytes):
        super().__init__(verdict)
        self.verdict, self.payload = verdict, payload


@dataclasses.dataclass(frozen=True)
class Frame:
    """A frame. offset: of its first byte. key: eight hexadecimal digits, or None. length: bytes of its payload.

    form: how the length is encoded: "shortest", "two" or "eight".
    """

    offset: int
    fin: bool
    opcode: str
    key: Optional[str]
    length: int
    form: str


@dataclasses.dataclass(frozen=True)
class Frames:
    """The frames of a stream, and the verdict on it."""

    frames: List[Frame]
    verdict: Verdict


@dataclasses.dataclass(frozen=True)
class Side:
    """How one side of a connection ended. state: "closed", with a code or None; "refused"; "ended", "cut", "running"."""

    state: str
    code: Optional[int] = None
    offset: Optional[int] = None
    reason: Optional[str] = None


@dataclasses.dataclass(frozen=True)
class Report:
    """How a connection closed. first: who sent the first Close. echo: whether the other answered with the same code.

    client_sees, server_sees: the close codes that the applications see. outcome: "clean", "complete" and so on.
    """

    client: Side
    server: Side
    first: Optional[str]
    echo: Optional[bool]
    client_sees: Optional[int]
    server_sees: Optional[int]
    outcome: str

    @property
    def closed(self) -> bool:
        """Whether both sides sent a Close."""
        return self.outcome in ("clean", "complete")


@dataclasses.dataclass(frozen=True)
class BadCharacter:
    """The character with which a refused text goes wrong.

    offset: of its first byte in that side's stream; an earlier frame of the message may have it. in_payload: the place of
    that byte in the message's payload, from 0. hex: its bytes up to the offending one, one to four. before: the text before
    it, at most what the view has; of frames before the refused one 48 bytes at most. truncated: whether some of the message
    before it is left out.
    """

    offset: int
    in_payload: int
    hex: str
    before: str
    truncated: bool = False


@dataclasses.dataclass(frozen=True)
class Entry:
    """What `show` prints in one line. type: "event", "frame", "refused", "unfinished", "unread", "tail", "end", "comment".

    line: the capture's line in which it is, from 1. side: "client" or "server". time: seconds, from the capture's
    comments. offset: in that side's stream; of a refused frame that of its first byte, and place that of the offending one.
    event: "text", "binary", "ping", "pong" or "close". bytes: of the payload. text or hex: its first bytes, and truncated if
    there are more; a comment's is whole. A Close has code and reason. character: of a text refused as "text-bad". The other
    fields are those of the type (`wsn help show`); None elsewhere.
    """

    type: str
    line: Optional[int] = None
    side: Optional[str] = None
    time: Optional[decimal.Decimal] = None
    offset: Optional[int] = None
    event: Optional[str] = None
    bytes: Optional[int] = None
    frames: Optional[int] = None
    lacks: Optional[int] = None
    text: Optional[str] = None
    hex: Optional[str] = None
    truncated: bool = False
    code: Optional[int] = None
    reason: Optional[str] = None
    place: Optional[int] = None
    character: Optional[BadCharacter] = None
    fin: Optional[bool] = None
    opcode: Optional[str] = None
    key: Optional[str] = None
    length: Optional[int] = None
    form: Optional[str] = None


@dataclasses.dataclass(frozen=True)
class EndedBy:
    """Who ended a connection first: "client" or "server". reset: whether a comment says that this side reset it."""

    side: str
    reset: bool


@dataclasses.dataclass(frozen=True)
class Session:
    """What a capture or a stream says, in order. report: how the connection closed. verdict: of a stream.

    ended_by: who ended the connection first, if a direction ended without a Close.
    """

    entries: List[Entry]
    report: Optional[Report] = None
    verdict: Optional[Verdict] = None
    ended_by: Optional[EndedBy] = None


@dataclasses.dataclass(frozen=True)
class PayloadView:
    """A payload around the first byte that differs: from the byte with this number on, from 0.

    text or hex: the bytes, as a text or in hexadecimal. truncated: whether some that follow are left out.
    """

    start: int
    text: Optional[str] = None
    hex: Optional[str] = None
    truncated: bool = False


@dataclasses.dataclass(frozen=True)
class DifferAt:
    """Where the payloads of two events differ. in_payload: the place of the first byte that does, from 0.

    first, second: both payloads around it; None if the view is 0.
    """

    in_payload: int
    first: Optional[PayloadView]
    second: Optional[PayloadView]


@dataclasses.dataclass(frozen=True)
class Comparison:
    """What a comparison answers.

    answer: "equal"; "different", where event is the number, from 0, of the first event that differs; or "first" or
    "second", where that stream isn't accepted and verdict says why.
    first, second: with a view, that event of each stream; None if it has no more. differ_at: where their payloads differ.
    """

    answer: str
    event: Optional[int] = None
    verdict: Optional[Verdict] = None
    first: Optional[Entry] = None
    second: Optional[Entry] = None
    differ_at: Optional[DifferAt] = None

    @property
    def equal(self) -> bool:
        """Whether both streams mean the same."""
        return self.answer == "equal"


# ---- the library


class _Options(ctypes.Structure):
    _fields_ = [
        ("role", ctypes.c_uint8), ("format", ctypes.c_uint8), ("lengths", ctypes.c_uint8), ("detail", ctypes.c_uint8),
        ("without_pings", ctypes.c_uint8), ("without_pongs", ctypes.c_uint8), ("without_closes", ctypes.c_uint8),
        ("view", ctypes.c_uint16), ("limit", ctypes.c_uint32), ("frames", ctypes.c_uint32),
    ]


class _Answer(ctypes.Structure):
    _fields_ = [("output", ctypes.c_size_t), ("message", ctypes.c_size_t), ("status", ctypes.c_uint8)]


class _Buffer(ctypes.Structure):
    """Python's own `Py_buffer`."""

    _fields_ = [
        ("buf", ctypes.c_void_p), ("obj", ctypes.py_object), ("len", ctypes.c_ssize_t), ("itemsize", ctypes.c_ssize_t),
        ("readonly", ctypes.c_int), ("ndim", ctypes.c_int), ("format", ctypes.c_char_p), ("shape", ctypes.c_void_p),
        ("strides", ctypes.c_void_p), ("suboffsets", ctypes.c_void_p), ("internal", ctypes.c_void_p),
    ]


class _Lent:
    """The address and the size of an object's bytes, which aren't copied."""

    def __init__(self, data: Any):
        self.buffer = _Buffer()
        try:
            ctypes.pythonapi.PyObject_GetBuffer(ctypes.py_object(data), ctypes.byref(self.buffer), 0)
        except (TypeError, BufferError) as error:
            raise ValueError(f"not bytes in one piece: {error}") from None

    def __enter__(self) -> Tuple[Any, int]:
        size = self.buffer.len
        return (self.buffer.buf if size else ctypes.addressof(_NOTHING)), size

    def __exit__(self, *_: object) -> None:
        ctypes.pythonapi.PyBuffer_Release(ctypes.byref(self.buffer))


# What an empty buffer points to: the library takes no NULL.
_NOTHING = ctypes.create_string_buffer(1)
_MESSAGE = 128
_library: Optional[ctypes.CDLL] = None


def _places() -> List[str]:
    here = os.path.dirname(os.path.abspath(__file__))
    named = os.environ.get("WSN_LIBRARY")
    beside = [os.path.join(here, "libwsn.so"), os.path.join(here, os.pardir, os.pardir, "libwsn.so")]
    return [named] if named else [place for place in beside if os.path.exists(place)] or ["libwsn.so"]


def _opened(place: str) -> ctypes.CDLL:
    try:
        return ctypes.CDLL(place)
    except OSError as error:
        build = "in a clone of wsn `tools/library FOLDER` builds it, and WSN_LIBRARY=FOLDER/libwsn.so names it"
        raise OSError(f"{error}; {build}") from None


def _call(name: str) -> Callable[..., _Answer]:
    global _library
    if _library is None:
        _library = _opened(_places()[0])
    call = getattr(_library, name)
    call.restype = _Answer
    return call


def _run(name: str, options: _Options, *arguments: Any) -> Tuple[int, bytes, str]:
    """Calls the library: the status, all of the output, and the message. Buffers are what has `__enter__`."""
    call = _call(name)
    size = 4_096
    while True:
        output, message = ctypes.create_string_buffer(size), ctypes.create_string_buffer(_MESSAGE)
        passed: List[Any] = [ctypes.byref(options)]
        for argument in arguments:
            passed += [ctypes.c_void_p(argument[0]), ctypes.c_size_t(argument[1])] if isinstance(argument, tuple) else [argument]
        passed += [output, ctypes.c_size_t(size), message, ctypes.c_size_t(_MESSAGE)]
        answer = call(*passed)
        if answer.output <= size:
            return answer.status, output.raw[:answer.output], message.raw[:answer.message].decode()
        size = answer.output


# ---- arguments


def _number(name: str, value: int, least: int, most: int) -> int:
    if isinstance(value, bool) or not isinstance(value, int) or not least <= value <= most:
        raise ValueError(f"{name} must be a number from {least} to {most}, not {value!r}")
    return value


def _view(value: Union[int, str]) -> int:
    if value == "all":
        return VIEW_ALL
    if isinstance(value, bool) or not isinstance(value, int) or not 0 <= value <= VIEW_MAX:
        raise ValueError(f'view is {value!r}; it must be a number from 0 to {VIEW_MAX} or "all"')
    return value


def _word(name: str, value: str, words: Tuple[str, ...]) -> int:
    if value not in words:
        raise ValueError(f"{name} must be one of {', '.join(words)}, not {value!r}")
    return words.index(value)


def _options(
    role: str = "client",
    limit: int = MESSAGE_MAX,
    frames: Optional[int] = None,
    lengths: str = "shortest",
    json_lines: bool = True,
    view: Union[int, str] = 48,
    wire: bool = False,
    without: Collection[str] = (),
) -> _Options:
    for control in without:
        _word("without", control, CONTROLS)
    return _Options(
        role=_word("role", role, ROLES),
        format=int(json_lines),
        lengths=_word("lengths", lengths, LENGTHS),
        detail=int(bool(wire)),
        without_pings=int("ping" in without),
        without_pongs=int("pong" in without),
        without_closes=int("close" in without),
        view=_view(view),
        limit=_number("limit", limit, 0, MESSAGE_MAX),
        frames=0 if frames is None else _number("frames", frames, 1, FRAMES_MAX),
    )


# ---- answers


T = TypeVar("T")


def _objects(output: bytes) -> List[Dict[str, Any]]:
    return [json.loads(line, parse_float=decimal.Decimal) for line in output.splitlines()]


def _made(kind: Callable[..., T], fields: Dict[str, Any]) -> T:
    return kind(**{name: value for name, value in fields.items() if name != "type" or kind is Entry})


def _verdict(fields: Dict[str, Any]) -> Verdict:
    close = fields.get("close")
    return _made(Verdict, {**fields, "close": None if close is None else Close(**close)})


def _report(fields: Dict[str, Any]) -> Report:
    return _made(Report, {**fields, "client": Side(**fields["client"]), "server": Side(**fields["server"])})


def _comparison(fields: Dict[str, Any]) -> Comparison:
    kinds = {"verdict": _verdict, "first": _entry, "second": _entry, "differ_at": _differ_at}
    made = {name: kinds[name](value) for name, value in fields.items() if name in kinds and value is not None}
    return _made(Comparison, {**fields, **made})


def _differ_at(fields: Dict[str, Any]) -> DifferAt:
    return DifferAt(fields["in_payload"], *(_payload_view(fields[stream]) for stream in ("first", "second")))


def _payload_view(fields: Optional[Dict[str, Any]]) -> Optional[PayloadView]:
    return None if fields is None else PayloadView(**{"start" if name == "from" else name: value for name, value in fields.items()})


def _entry(fields: Dict[str, Any]) -> Entry:
    character = fields.get("character")
    return _made(Entry, {**fields, "character": None if character is None else BadCharacter(**character)})


def _exception(message: str) -> Exception:
    """The exception for the message of a status 2."""
    words = message.strip().split(" ")
    if words[0] == "line" and len(words) == 3:
        return FaultyCapture(int(words[1].rstrip(":")), words[2])
    if words[0] in ("plan", "nothing"):
        return Fault(message.strip())
    if words == ["usage"]:
        return ValueError("an argument is out of range")
    return Stopped(message.strip())


def _asked(name: str, options: _Options, *arguments: Any) -> List[Dict[str, Any]]:
    """The objects that a call prints."""
    status, output, message = _run(name, options, *arguments)
    if status == 2:
        raise _exception(message)
    return _objects(output)


def _written(name: str, options: _Options, *arguments: Any) -> bytes:
    """What a call writes, if its status is 0."""
    status, output, message = _run(name, options, *arguments)
    if status == 2:
        raise _exception(message)
    if status == 1:
        words = message.strip()
        raise Fault(words) if words.startswith("fault ") or words == "unfinished" else NotAccepted(words)
    return output


# ---- the calls


def judge(data: Any, role: str, **limits: Any) -> Verdict:
    """Judges the stream that an endpoint sent.

    role: "client" or "server", the endpoint that sent it. limit: the maximum bytes of a message; frames: the maximum
    frames of a message, by default no maximum; lengths: "shortest" or "any", the accepted encodings of a length.
    """
    options = _options(role, **limits)
    with _Lent(data) as stream:
        return _verdict(_asked("wsn_judge", options, stream)[0])


def frames(data: Any, role: str, **limits: Any) -> Frames:
    """Lists the frames of a stream, and judges it. The limits are those of `judge`."""
    options = _options(role, **limits)
    with _Lent(data) as stream:
        *heads, verdict = _asked("wsn_frames", options, stream)
    return Frames([_made(Frame, head) for head in heads], _verdict(verdict))


def show(data: Any, role: Optional[str] = None, *, view: Union[int, str] = 48, wire: bool = False, **limits: Any) -> Session:
    """Shows what both sides of a capture said, in order; with a role, what the stream of that endpoint says.

    view: the maximum bytes of a payload that an entry has, 0 to 4,096, as hex half as many; or "all" for whole payloads.
    wire: frames instead of events. The limits are those of `judge`.
    """
    options = _options(role or "client", view=view, wire=wire, **limits)
    with _Lent(data) as given:
        *entries, last = _asked("wsn_show_stream" if role else "wsn_show", options, given)
    ends = [_made(EndedBy, entries.pop())] if entries and entries[-1]["type"] == "ended-by" else [None]
    shown = [_entry(entry) for entry in entries]
    return Session(shown, verdict=_verdict(last)) if role else Session(shown, report=_report(last), ended_by=ends[0])


def closing(capture: Any, **limits: Any) -> Report:
    """Reports how a connection closed, from a capture of both sides. The limits are those of `judge`."""
    options = _options(**limits)
    with _Lent(capture) as given:
        return _report(_asked("wsn_closing", options, given)[0])


def sent(capture: Any, role: str) -> bytes:
    """Returns the bytes that an endpoint sent in a capture, joined: a stream for the other calls."""
    options = _options(role)
    with _Lent(capture) as given:
        return _written("wsn_sent", options, given)


def same(
    first: Any, second: Any, role: str, *, without: Collection[str] = (), view: Optional[int] = None, **limits: Any
) -> Comparison:
    """Compares what two streams mean, however they are framed and masked.

    without: any of "ping", "pong", "close"; events of these kinds are left out of both. The limits are those of `judge`.
    view: if given, the first events that differ are in the answer, each with at most so many bytes of its payload.
    """
    options = _options(role, without=without, **limits, **({} if view is None else {"view": _number("view", view, 0, VIEW_MAX)}))
    with _Lent(first) as one, _Lent(second) as other:
        fields = _asked("wsn_same" if view is None else "wsn_same_view", options, one, other)[0]
    return _comparison(fields)


def payload(data: Any, role: str, *, at: int, **limits: Any) -> bytes:
    """Returns the payload of one message, ping, pong or Close of a stream: unmasked, joined from its frames.

    at: where its first frame begins, the offset in bytes from 0 that `show` and `frames` give; for a capture, in what `sent`
    returns. `Unfinished` if it isn't complete, with what came of its payload; `Fault` if none begins there, such as "nothing
    begins at 5; it is in the text at 0". The limits are those of `judge`; what follows the event isn't judged.
    """
    options = _options(role, json_lines=False, **limits)
    offset = ctypes.c_uint64(_number("at", at, 0, OFFSET_MAX))
    with _Lent(data) as stream:
        status, output, message = _run("wsn_payload", options, stream, offset)
    if status == 2:
        raise _exception(message)
    if status == 1:
        raise Unfinished(message.strip(), output)
    return output


def normal(data: Any, role: str, **limits: Any) -> bytes:
    """Returns the normal form of what a stream means: one frame a message. `NotAccepted` if there is none."""
    options = _options(role, json_lines=False, **limits)
    with _Lent(data) as stream:
        return _written("wsn_normal", options, stream)


def redact(data: Any, role: Optional[str] = None, **limits: Any) -> bytes:
    """Returns a capture without what was said; with a role, the stream of that endpoint: each byte in its place, all framing
    as it was, and the same report or verdict. Also where a stream is cut or refused. `FaultyCapture` at a line that isn't
    accepted. The limits are those of `judge`."""
    options = _options(role or "client", json_lines=False, **limits)
    with _Lent(data) as given:
        return _written("wsn_redact" if role else "wsn_redact_capture", options, given)


def plan(data: Any, role: str, **limits: Any) -> str:
    """Returns how a stream is framed, as the text of a plan. `NotAccepted` if it isn't accepted; `Fault` if a Close
    interrupts a message."""
    options = _options(role, json_lines=False, **limits)
    with _Lent(data) as stream:
        return _written("wsn_plan", options, stream).decode()


def recut(
    data: Any,
    role: str,
    *,
    plan: Optional[str] = None,
    size: Optional[int] = None,
    weave: bool = False,
    key: bytes = b"",
    **limits: Any,
) -> bytes:
    """Returns what a stream means in other frames: by a plan, or in frames of one size.

    weave and key require size: weave puts the controls directly before a split message after its first frame; key has
    the four bytes of a client's key. `NotAccepted` if the stream isn't accepted; `Fault` if the plan doesn't fit.
    """
    options = _options(role, json_lines=False, **limits)
    if (plan is None) == (size is None):
        raise ValueError("recut takes either a plan or a size")
    if plan is not None:
        if weave or key:
            raise ValueError("weave and key go with size")
        with _Lent(plan.encode()) as steps, _Lent(data) as stream:
            return _written("wsn_recut", options, steps, stream)
    if len(key) not in (0, 4) or (key and role == "server"):
        raise ValueError("key must be four bytes, of a client")
    frame = ctypes.c_uint32(_number("size", size, 1, FRAMES_MAX))  # type: ignore[arg-type]
    woven = ctypes.c_uint8(bool(weave))
    with _Lent(key) as keyed, _Lent(data) as stream:
        return _written("wsn_recut_by_size", options, frame, woven, keyed, stream)
