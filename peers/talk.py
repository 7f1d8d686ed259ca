"""A peer's program, and sessions with it: bytes are sent step by step, and what the peer does is noted."""
import asyncio
import base64
import dataclasses
import hashlib
import os
import re
import signal
import socket

import frames

# Seconds: for a program to get ready, for a connection and its handshake, after each step, for what a valid stream is
# answered, and for the program to report the end of a session.
READY, OPENING, STEP, ANSWERS, ENDING = 40, 10, 0.25, 1.5, 2
# After the handshake, so that a client has read its answer before the first frame comes.
PAUSE = 0.05
# Before a peer's own Close is answered, so that one that doesn't wait for the answer has ended the connection.
RECORDED = 0.5
PROBE = b"still here?"
ENDED = "its program ends"
# Bytes beyond this number are kept as their length and a digest.
KEPT = 64


def shortened(data):
    """Bytes as they are kept and compared."""
    return data.hex() if len(data) <= KEPT else f"{len(data)} bytes {hashlib.sha256(data).hexdigest()[:16]}"


@dataclasses.dataclass
class Seen:
    """What is kept of a session: messages, how many came before the offending byte was sent, the codes of the peer's
    Closes, its pongs, whether it ended the connection, the step at which it failed it, and the code that was reported
    to its user."""

    messages: list
    before: int
    closes: list
    pongs: list
    ended: bool
    failed_at: str | None
    reported: str | None
    fault: str | None

    def code(self):
        """The code of the peer's Close, '-' for none in it, or None without a Close."""
        return self.closes[0] if self.closes else None

    def is_alive(self):
        """Whether the ping after the stream was answered."""
        return shortened(PROBE) in self.pongs


class Session:
    """What a peer does: what its user is given, and at which step, what it sends, and when it fails the connection."""

    def __init__(self, name):
        self.name = name
        self.messages, self.steps, self.step, self.reported = [], [], None, None
        self.sent, self.ended, self.fault = b"", False, None
        # Whether the connection had ended before the driver ended it.
        self.was_ended, self.failed_at = False, None
        self.is_over, self.came = asyncio.Event(), asyncio.Event()

    def frames(self):
        return frames.whole_frames(self.sent)

    def closes(self):
        return [frames.close_code(frame.payload) for frame in self.frames() if frame.opcode == frames.CLOSE]

    def pongs(self):
        return [frame.payload for frame in self.frames() if frame.opcode == frames.PONG]

    def has_failed(self):
        return self.ended or bool(self.closes())

    def seen(self):
        messages = [[kind, shortened(payload)] for kind, payload in self.messages]
        before = sum(step in (None, "before") for step in self.steps)
        return Seen(messages, before, self.closes(), [shortened(pong) for pong in self.pongs()], self.was_ended,
                    self.failed_at, self.reported, self.fault)


class Program:
    """A peer's program in one role. It prints `ready`, `NAME text HEX`, `NAME binary HEX` and `NAME closed CODE`."""

    def __init__(self, command, role, environment):
        self.command, self.role, self.environment = command, role, environment
        # Sessions by name, clients that are to connect, and what is sent with the answer to their handshake.
        self.sessions, self.waiting, self.early = {}, {}, {}
        self.process = self.listener = None
        self.starting = asyncio.Lock()

    async def __aenter__(self):
        if self.role == "client":
            self.listener = await asyncio.start_server(self.accept, "127.0.0.1", 0, limit=2**20, backlog=256)
            self.port = self.listener.sockets[0].getsockname()[1]
        await self.start()
        return self

    async def __aexit__(self, *_):
        self.stop()
        await self.process.wait()
        if self.listener:
            self.listener.close()

    async def start(self):
        words = [*self.command, self.role]
        if self.role == "server":
            self.port = free_port()
            words.append(str(self.port))
        self.process = await asyncio.create_subprocess_exec(
            *words, stdin=asyncio.subprocess.PIPE, stdout=asyncio.subprocess.PIPE, stderr=asyncio.subprocess.PIPE,
            limit=2**26, start_new_session=True, env=self.environment)
        self.errors = asyncio.create_task(self.process.stderr.read())
        try:
            await asyncio.wait_for(self.is_ready(), READY)
        except (OSError, asyncio.TimeoutError):
            self.stop()
            raise OSError(f"its program doesn't get ready: {(await self.errors)[-2000:].decode()}")
        self.reports = asyncio.create_task(self.read_reports())

    async def is_ready(self):
        """Reads lines until `ready`."""
        while (line := await self.process.stdout.readline()).split() != [b"ready"]:
            if not line:
                raise OSError("it ended")

    def stop(self):
        try:
            os.killpg(self.process.pid, signal.SIGKILL)
        except ProcessLookupError:
            pass

    async def read_reports(self):
        """Reads the program's lines. If the program ends, its sessions are over."""
        while line := await self.process.stdout.readline():
            name, kind, *rest = line.decode().split() + ["", ""]
            session = self.sessions.get(name)
            if session is None:
                continue
            if kind == "closed":
                session.reported = rest[0]
                session.is_over.set()
            elif re.fullmatch("([0-9a-f]{2})*", rest[0]):
                session.messages.append((kind, bytes.fromhex(rest[0])))
                session.steps.append(session.step)
            else:
                session.fault = "its program prints a line that is malformed"
        for session in self.sessions.values():
            if not session.is_over.is_set():
                session.fault = ENDED
                session.is_over.set()

    async def restart(self):
        async with self.starting:
            if self.reports.done():
                self.stop()
                await self.process.wait()
                await self.start()

    async def accept(self, reader, writer):
        """A client has connected: finds the session by the path of its request, and answers the handshake."""
        try:
            head = await handshake_head(reader)
        except (OSError, asyncio.IncompleteReadError):
            return writer.close()
        name, key = path_of(head), header_of(head, "sec-websocket-key")
        if name not in self.waiting or not key:
            return writer.close()
        writer.write(answer_to(key).encode() + self.early.pop(name, b""))
        future = self.waiting.pop(name)
        if not future.done():
            future.set_result((reader, writer))

    async def connect(self, name):
        """A connection with the peer, after the handshake."""
        if self.role == "client":
            future = self.waiting[name] = asyncio.get_running_loop().create_future()
            self.process.stdin.write(f"ws://127.0.0.1:{self.port}/{name}\n".encode())
            return await future
        reader, writer = await self.reach()
        writer.write(request_to(self.port, name).encode())
        head = await handshake_head(reader)
        if not head.startswith("HTTP/1.1 101"):
            raise OSError(f"the handshake is answered with {head[:80]!r}")
        return reader, writer

    async def reach(self):
        """A connection with the server, which may be ready before it listens."""
        for _ in range(20):
            try:
                return await asyncio.open_connection("127.0.0.1", self.port, limit=2**20)
            except ConnectionRefusedError:
                await asyncio.sleep(0.1)
        raise OSError("connection refused")


def free_port():
    with socket.socket() as one:
        one.bind(("127.0.0.1", 0))
        return one.getsockname()[1]


async def handshake_head(reader):
    return (await reader.readuntil(b"\r\n\r\n")).decode("latin-1")


def path_of(head):
    return head.split()[1].rsplit("/", 1)[-1]


def header_of(head, name):
    for line in head.split("\r\n")[1:]:
        field, _, value = line.partition(":")
        if field.strip().lower() == name:
            return value.strip()
    return None


def answer_to(key):
    digest = hashlib.sha1(key.encode() + b"258EAFA5-E914-47DA-95CA-C5AB0DC85B11").digest()
    lines = ("HTTP/1.1 101 Switching Protocols", "Upgrade: websocket", "Connection: Upgrade",
             f"Sec-WebSocket-Accept: {base64.b64encode(digest).decode()}", "", "")
    return "\r\n".join(lines)


def request_to(port, name):
    lines = (f"GET /{name} HTTP/1.1", f"Host: 127.0.0.1:{port}", "Upgrade: websocket", "Connection: Upgrade",
             "Sec-WebSocket-Key: dGhlIHNhbXBsZSBub25jZQ==", "Sec-WebSocket-Version: 13", "", "")
    return "\r\n".join(lines)


async def listen(session, reader):
    """Keeps what the peer sends, until it ends the connection."""
    try:
        while data := await reader.read(2**16):
            session.sent += data
            session.came.set()
    except OSError:
        pass
    session.ended = True
    session.came.set()


async def wait_until(session, fact, seconds):
    """Waits until the fact holds, or the time has passed."""
    end = asyncio.get_running_loop().time() + seconds
    while not fact():
        session.came.clear()
        left = end - asyncio.get_running_loop().time()
        if left <= 0:
            break
        try:
            await asyncio.wait_for(session.came.wait(), left)
        except asyncio.TimeoutError:
            break


def send(writer, data):
    """Without waiting: a peer that doesn't read is no reason to stop."""
    try:
        writer.write(data)
    except OSError:
        pass


def end(writer):
    try:
        writer.write_eof()
    except OSError:
        pass


async def hang_up(session, writer, patience):
    """Ends the connection, and waits for the program to report so."""
    writer.close()
    try:
        await asyncio.wait_for(session.is_over.wait(), ENDING * patience)
    except asyncio.TimeoutError:
        session.fault = session.fault or "it doesn't report the end to its user"


async def opened(program, session):
    """Connects a session, and listens. None if that fails."""
    program.sessions[session.name] = session
    try:
        reader, writer = await asyncio.wait_for(program.connect(session.name), OPENING)
    except (OSError, asyncio.TimeoutError, asyncio.IncompleteReadError) as error:
        session.fault = f"no connection: {error or 'it takes too long'}"
        return None
    await asyncio.sleep(PAUSE)
    writer.get_extra_info("socket").setsockopt(socket.IPPROTO_TCP, socket.TCP_NODELAY, 1)
    return writer, asyncio.create_task(listen(session, reader))


async def probe(program, name, steps, is_answered, patience=1):
    """Sends the steps, each a word and bytes, until the peer fails the connection, and notes at which step it does.
    After the last step it waits until the answers are complete. The bytes of a step `early` go with the handshake."""
    session = Session(name)
    if steps[0][0] == "early":
        program.early[name] = steps[0][1]
    connection = await opened(program, session)
    if connection is None:
        return session
    writer, listening = connection
    for word, data in steps:
        session.step = word
        if word == "early":
            pass
        elif word == "end":
            end(writer)
        elif word == "bytes":
            await send_bytes(writer, data)
        else:
            send(writer, data)
        is_last = word == steps[-1][0]
        fact = (lambda: session.has_failed() or is_answered(session)) if is_last else session.has_failed
        await wait_until(session, fact, (ANSWERS if is_last else STEP) * patience)
        if session.has_failed():
            session.failed_at = word
            break
    # What the peer still sends, such as a Close after a pong.
    await wait_until(session, lambda: session.ended, STEP * patience / 2)
    session.was_ended = session.ended
    await hang_up(session, writer, patience)
    listening.cancel()
    return session


async def send_bytes(writer, data):
    """One byte at a time, and a pause after each head, so that a busy peer reads it before its payload."""
    heads = {frame.end - frame.length for frame in frames.frames_of(data) if frame.length}
    for index in range(len(data)):
        send(writer, data[index : index + 1])
        await asyncio.sleep(STEP if index + 1 in heads else 0.001)


async def recorded(program, name):
    """What a peer sends of its own: its pings and its Close are answered."""
    session = Session(name)
    connection = await opened(program, session)
    if connection is None:
        return session
    writer, listening = connection
    masks, answered = program.role == "server", 0
    while not session.has_failed():
        before = len(session.sent)
        await wait_until(session, lambda: len(session.sent) > before or session.ended, OPENING)
        if len(session.sent) == before:
            break
        seen = session.frames()
        for frame in seen[answered:]:
            if frame.opcode == frames.PING:
                send(writer, frames.control(frames.PONG, frame.payload, masks))
            elif frame.opcode == frames.CLOSE:
                await wait_until(session, lambda: session.ended, RECORDED)
                send(writer, frames.control(frames.CLOSE, frame.payload, masks))
        answered = len(seen)
    await wait_until(session, lambda: session.ended, 1)
    await hang_up(session, writer, 1)
    listening.cancel()
    return session
