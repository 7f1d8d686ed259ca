"""The inputs of bench/count, and of the workloads of bench/run that run the program: streams and captures from a seed.

An input is a block of messages and an end, such as a Close. A longer input has the same block many times. An input NAME
is written to a file NAME. If it is a stream, NAME.whole has the same messages and controls in one frame each, under
other keys, and NAME.plan is the stream's plan.
"""

import pathlib
import random
from typing import Callable, Dict, List, NamedTuple, Sequence, Tuple

CONTINUATION, TEXT, BINARY, CLOSE, PING = 0, 1, 2, 8, 9
NORMAL_CLOSE = b"\x03\xe8"
ROLES = ("client", "server")
# The bytes of a block of short to long messages. The longer a message, the fewer instructions a byte takes.
SHORTEST, SHORT, LONG, LONGEST = 60_000, 300_000, 600_000, 2_000_000
# The same of a capture, which has two hexadecimal digits for each byte, by the length of its lines.
SHORT_LINES, LONG_LINES = 200_000, 1_500_000
# The most bytes of a plan and lines of a capture that a long input has. The program reads a few more: 64 MiB of a
# plan, 1,000,000 lines of a capture.
PLAN_MOST, LINES_MOST = 67_000_000, 999_000

# A sign for each byte.
SIGNS = (b"abcdefghijklmnopqrstuvwxyz     ABCDEF0123456789,.-:;" * 5)[:256]
WORDS = "привет 天気 naïve ok 😀 как dela 今日は où € 😎👍 да é спасибо no 東京".split()
NAMES = "user text room price at status title payload".split()
VALUES = ("true", "false", "null", "[]", '"free"', '"shipped today"', '"the quick order was filled"', '"Anna"')


def ascii_text(made: random.Random, size: int) -> bytes:
    """Random letters, digits and signs."""
    return made.randbytes(size).translate(SIGNS)


def scripts_text(made: random.Random, size: int) -> bytes:
    """Words of several scripts, with full stops for a character that doesn't fit the end."""
    text, length = [], 0
    while length < size:
        text.append(made.choice(WORDS).encode())
        length += len(text[-1])
    return b"".join(text)[:size].decode(errors="ignore").encode().ljust(size, b".")


def binary_data(made: random.Random, size: int) -> bytes:
    """Random bytes."""
    return made.randbytes(size)


def json_text(made: random.Random, values: Sequence[str] = VALUES) -> bytes:
    """A JSON object of 50 to 2,000 bytes, more often a short one, whose members are numbers or have these values."""
    wanted, text = made.randrange(50, made.randrange(51, 1_950)), f'{{"id":{made.randrange(1_000_000)}'
    while len(text) < wanted:
        value = made.choice(values) if made.random() < 0.7 else made.randrange(100_000)
        text += f',"{made.choice(NAMES)}":{value}'
    return (text + "}").encode()


KINDS: Dict[str, Tuple[int, Callable[[random.Random, int], bytes]]] = {
    "ascii": (TEXT, ascii_text),
    "scripts": (TEXT, scripts_text),
    "binary": (BINARY, binary_data),
}


def width_of(length: int) -> int:
    """The bytes after a frame's second that encode a length, in the shortest encoding (RFC 6455 section 5.2)."""
    return 0 if length < 126 else 2 if length < 65_536 else 8


def masked(payload: bytes, key: bytes) -> bytes:
    """A payload under a masking key."""
    keys = (key * (len(payload) // 4 + 1))[: len(payload)]
    return (int.from_bytes(payload, "big") ^ int.from_bytes(keys, "big")).to_bytes(len(payload), "big")


def frame(key: bytes, opcode: int, payload: bytes, fin: bool = True, width: int = 0) -> bytes:
    """A frame: a server's if the key is empty. Its length takes at least `width` bytes."""
    width = max(width, width_of(len(payload)))
    first = {0: len(payload), 2: 126, 8: 127}[width] | (0x80 if key else 0)
    head = bytes([opcode | (0x80 if fin else 0), first])
    length = len(payload).to_bytes(width, "big") if width else b""
    return head + length + key + (masked(payload, key) if key else payload)


class Stream:
    """A stream in the making, the same in one frame for each message or control, and its plan."""

    def __init__(self, role: str, made: random.Random):
        self.role, self.made = role, made
        self.bytes, self.whole, self.plan = bytearray(), bytearray(), bytearray()

    def key(self) -> bytes:
        """A masking key, for a client alone."""
        return self.made.randbytes(4) if self.role == "client" else b""

    def put(self, opcode: int, payload: bytes, fin: bool = True, width: int = 0) -> None:
        """Adds a frame to the stream and its line to the plan."""
        key = self.key()
        self.bytes += frame(key, opcode, payload, fin, width)
        step = "control" if opcode >= CLOSE else "last" if fin else f"piece {len(payload)}"
        form = {2: " two", 8: " eight"}[width] if width > width_of(len(payload)) else ""
        self.plan += f"{step} {key.hex() or '-'}{form}\n".encode()

    def add(self, opcode: int, payload: bytes, width: int = 0) -> None:
        """Adds a message or control in one frame."""
        self.put(opcode, payload, width=width)
        self.whole += frame(self.key(), opcode, payload)

    def add_fragments(self, opcode: int, payload: bytes, size: int, with_pings: bool = False) -> None:
        """Adds a message in fragments of `size` bytes, perhaps with a ping after each but the last."""
        for at in range(0, len(payload), size):
            fin = at + size >= len(payload)
            self.put(CONTINUATION if at else opcode, payload[at : at + size], fin)
            if with_pings and not fin:
                self.add(PING, b"alive")
        self.whole += frame(self.key(), opcode, payload)


class Capture:
    """A capture in the making, in which client and server send in turn."""

    def __init__(self, made: random.Random):
        self.made, self.text = made, bytearray()
        self.role, self.seconds = "server", 0.0

    def turn(self) -> None:
        """From now on the other side sends."""
        self.role = "server" if self.role == "client" else "client"

    def frame(self, opcode: int, payload: bytes) -> bytes:
        """A frame of the side that sends."""
        return frame(self.made.randbytes(4) if self.role == "client" else b"", opcode, payload)

    def put_line(self, data: bytes) -> None:
        """Adds a line of the side that sends."""
        self.text += (f"{'C' if self.role == 'client' else 'S'} {data.hex()}\n").encode()

    def put_lines(self, data: bytes, size: int) -> None:
        """Adds lines of `size` bytes."""
        for at in range(0, len(data), size):
            self.put_line(data[at : at + size])


# What adds a message, or a few, to a stream or to a capture.
PutStream = Callable[[Stream], None]
PutCapture = Callable[[Capture], None]


def messages(kind: str, sizes: Sequence[int]) -> PutStream:
    """Whole messages of these sizes, at random."""
    opcode, payload = KINDS[kind]
    return lambda stream: stream.add(opcode, payload(stream.made, stream.made.choice(sizes)))


def fragments(size: int, with_pings: bool = False) -> PutStream:
    """Texts of several scripts in 5 to 20 fragments of `size` bytes, whose ends fall inside characters."""

    def put(stream: Stream) -> None:
        text = scripts_text(stream.made, size * stream.made.randrange(5, 20) + size // 2)
        stream.add_fragments(TEXT, text, size, with_pings)

    return put


def json_message(stream: Stream) -> None:
    stream.add(TEXT, json_text(stream.made))


def json_with_malmo(stream: Stream) -> None:
    """A JSON message of which most have a character that isn't ASCII."""
    stream.add(TEXT, json_text(stream.made, (*VALUES, '"Malmö"')))


def longer_lengths(stream: Stream) -> None:
    """A text of 20 or 200 bytes, whose length takes two or eight bytes."""
    size = stream.made.choice((20, 200))
    stream.add(TEXT, ascii_text(stream.made, size), stream.made.choice((2, 8) if size == 20 else (8,)))


def close(stream: Stream) -> None:
    stream.add(CLOSE, NORMAL_CLOSE)


def bad_text(stream: Stream) -> None:
    """A text whose last byte but one isn't UTF-8."""
    stream.add(TEXT, ascii_text(stream.made, 998) + b"\xff.")


def bad_head(stream: Stream) -> None:
    """A frame with a reserved bit."""
    stream.put(TEXT | 0x40, b"compressed")
    stream.whole += stream.bytes


class StreamInput(NamedTuple):
    """How a stream is made, and the options with which it is read."""

    role: str
    block: int
    put: PutStream
    end: PutStream = close
    options: Tuple[str, ...] = ()


def message_inputs() -> Dict[str, StreamInput]:
    """Whole messages: the short ones from both endpoints."""
    inputs = {}
    for kind in KINDS:
        for size in (1, 5, 20, 64, 100, 127):
            for role in ROLES:
                # no character of another script has one byte
                if kind != "scripts" or size > 1:
                    block = SHORTEST if size < 20 else SHORT
                    inputs[f"{kind}-{size}-{role}"] = StreamInput(role, block, messages(kind, [size]))
        for size, role, block in ((1_000, "client", LONG), (5_000, "server", LONGEST), (65_536, "client", LONGEST)):
            inputs[f"{kind}-{size}-{role}"] = StreamInput(role, block, messages(kind, [size]))
    for kind, role in (("ascii", "server"), ("scripts", "client"), ("binary", "client")):
        put = messages(kind, (5, 20, 64, 100, 127) if kind == "scripts" else (1, 5, 20, 64, 100, 127))
        inputs[f"{kind}-mixed-{role}"] = StreamInput(role, SHORT, put)
    return inputs


def other_inputs() -> Dict[str, StreamInput]:
    """Streams in which not each frame is a message of a given size."""
    inputs = {}
    for role in ROLES:
        inputs[f"json-{role}"] = StreamInput(role, LONG, json_message)
        inputs[f"pings-0-{role}"] = StreamInput(role, SHORTEST, lambda stream: stream.add(PING, b""))
        inputs[f"pings-8-{role}"] = StreamInput(role, SHORTEST, lambda stream: stream.add(PING, b"12345678"))
        inputs[f"empty-{role}"] = StreamInput(role, SHORTEST, lambda stream: stream.add(TEXT, b""))
        for size, block in ((1, SHORTEST), (10, SHORTEST), (100, SHORT), (1_000, LONG)):
            inputs[f"fragments-{size}-{role}"] = StreamInput(role, block, fragments(size))
        inputs[f"controls-{role}"] = StreamInput(role, SHORT, fragments(100, with_pings=True))
        inputs[f"longer-{role}"] = StreamInput(role, SHORT, longer_lengths, close, ("--lengths", "any"))
    inputs["json-malmo-client"] = StreamInput("client", LONG, json_with_malmo)
    inputs["refused-text-client"] = StreamInput("client", LONG, json_message, bad_text)
    inputs["refused-head-server"] = StreamInput("server", SHORT, messages("ascii", [20]), bad_head)
    return inputs


STREAMS: Dict[str, StreamInput] = {**message_inputs(), **other_inputs()}


def cut_json(size: int) -> PutCapture:
    """A JSON message in lines of `size` bytes."""

    def put(capture: Capture) -> None:
        capture.turn()
        capture.put_lines(capture.frame(TEXT, json_text(capture.made)), size)

    return put


def full_line(size: int) -> PutCapture:
    """A line of `size` bytes, which is a text's frame."""

    def put(capture: Capture) -> None:
        capture.turn()
        head = len(capture.frame(TEXT, bytes(size))) - size
        head -= width_of(size) - width_of(size - head)
        capture.put_line(capture.frame(TEXT, ascii_text(capture.made, size - head)))

    return put


def commented(capture: Capture) -> None:
    """A JSON message in a line, with its time before it; now and then another comment."""
    capture.turn()
    capture.seconds += capture.made.random() / 50
    capture.text += f"# {capture.seconds:.6f}\n".encode()
    if capture.made.randrange(8) == 0:
        capture.text += b"# a retransmission was left out\n"
    capture.put_line(capture.frame(TEXT, json_text(capture.made)))


def many_frames(capture: Capture) -> None:
    """A line of 4,000 bytes with texts of 5 to 60 bytes."""
    capture.turn()
    line = b""
    while len(line) < 4_000:
        line += capture.frame(TEXT, ascii_text(capture.made, capture.made.randrange(5, 60)))
    capture.put_line(line)


def across_lines(capture: Capture) -> None:
    """Texts of 10 to 300 bytes in several scripts, in lines that end inside frames."""
    capture.turn()
    made = capture.made
    data = b"".join(capture.frame(TEXT, scripts_text(made, made.randrange(10, 300))) for _ in range(20))
    capture.put_lines(data, made.randrange(50, 150))


CAPTURE_END = b"C 88820000000003e8\nS 880203e8\nC.\nS.\n"
REFUSED_END = b"C 81850000000048656cff6f\nS 880203ef\nC.\nS.\n"


class CaptureInput(NamedTuple):
    """How a capture is made."""

    block: int
    put: PutCapture
    end: bytes = CAPTURE_END


CAPTURES: Dict[str, CaptureInput] = {
    "capture-1": CaptureInput(SHORT_LINES, cut_json(1)),
    "capture-2": CaptureInput(SHORT_LINES, cut_json(2)),
    "capture-64": CaptureInput(SHORT_LINES, full_line(64)),
    "capture-1000": CaptureInput(LONG_LINES, full_line(1_000)),
    "capture-4096": CaptureInput(LONG_LINES, full_line(4_096)),
    "capture-comments": CaptureInput(LONG_LINES, commented),
    "capture-many": CaptureInput(LONG_LINES, many_frames),
    "capture-across": CaptureInput(LONG_LINES, across_lines),
    "capture-refused": CaptureInput(LONG_LINES, cut_json(1_448), REFUSED_END),
    "capture-refused-1": CaptureInput(SHORT_LINES, cut_json(1), REFUSED_END),
}


class Part(NamedTuple):
    """What a file has: a block, any number of times, and an end."""

    block: bytes
    end: bytes

    def write(self, path: pathlib.Path, times: int) -> None:
        with open(path, "wb") as file:
            for _ in range(times):
                file.write(self.block)
            file.write(self.end)


def made_parts(name: str, seed: str, block: int) -> Dict[str, Part]:
    """The files of an input, by what follows its name in theirs. A block has at least `block` bytes, and at least the
    input's own."""
    made = random.Random(f"{seed} {name}")
    if name in CAPTURES:
        capture = Capture(made)
        while len(capture.text) < max(block, CAPTURES[name].block):
            CAPTURES[name].put(capture)
        return {"": Part(bytes(capture.text), CAPTURES[name].end)}
    wanted = STREAMS[name]
    blocks, ends = Stream(wanted.role, made), Stream(wanted.role, made)
    while len(blocks.bytes) < max(block, wanted.block):
        wanted.put(blocks)
    wanted.end(ends)
    return {
        "": Part(bytes(blocks.bytes), bytes(ends.bytes)),
        ".whole": Part(bytes(blocks.whole), bytes(ends.whole)),
        ".plan": Part(bytes(blocks.plan), bytes(ends.plan)),
    }


def write(folder: pathlib.Path, name: str, seed: str) -> None:
    """Writes an input's files, with one block."""
    for suffix, part in made_parts(name, seed, 0).items():
        part.write(folder / f"{name}{suffix}", 1)


def write_long(folder: pathlib.Path, name: str, seed: str, size: int) -> None:
    """Writes an input's files, with so many blocks of a megabyte that it has about `size` bytes, or the most that the
    program reads."""
    parts = made_parts(name, seed, 1_000_000)
    block = parts[""].block
    most = PLAN_MOST // len(parts[".plan"].block) if name in STREAMS else LINES_MOST // block.count(b"\n")
    times = max(1, min(size // len(block), most))
    for suffix, part in parts.items():
        part.write(folder / f"{name}{suffix}", times)


def names() -> List[str]:
    """The names of all inputs."""
    return [*STREAMS, *CAPTURES]
