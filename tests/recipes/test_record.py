"""recipes/record: what it writes and passes on, with peers that are plain sockets, whose bytes are known."""

import contextlib
import datetime
import os
import re
import signal
import socket
import ssl
import struct
import subprocess
import threading
import time

from harness import (SECONDS, TOP, WSN, Failed, certificate, free_port, run, said_in, same, sides, started, test, times,
                     wait_for, want)  # fmt: skip

ASK = b"GET /chat?x=1 HTTP/1.1\r\nHost: localhost:1\r\nUpgrade: websocket\r\nConnection: Upgrade\r\n\r\n"
OFFER = ASK[:-2] + b"sec-websocket-extensions: permessage-deflate\r\nX: y\r\n\r\n"
ANSWER = b"HTTP/1.1 101 Switching Protocols\r\nUpgrade: websocket\r\nConnection: Upgrade\r\n\r\n"
RESET = struct.pack("ii", 1, 0)


class Sessions:
    """A proxy, and a server that gives out its connections."""

    def __init__(self, stack, folder, *words, path="", end=signal.SIGINT, tls=None, shown=None, program=WSN):
        self.listener = stack.enter_context(socket.create_server(("127.0.0.1", 0)))
        self.listener.settimeout(SECONDS)
        self.stack = stack
        self.folder = folder / "recordings"
        self.port = free_port()
        self.server_port = self.listener.getsockname()[1]
        self.tls = ssl.SSLContext(ssl.PROTOCOL_TLS_SERVER) if tls else None
        if tls:
            self.tls.load_cert_chain(*tls)
        url = f"ws{'s' if tls else ''}://127.0.0.1:{self.server_port}{path}"
        words = [TOP / "recipes/record", *words, str(self.port), url, self.folder]
        words = ["sh", "-c", 'exec setsid "$@" >"$0"', shown, *words] if shown else words
        environment = {"WSN": str(program), **({"SSL_CERT_FILE": str(tls[0])} if tls else {})}
        how = {"line": "listening", "stream": "stderr", "end": end, "env": environment}
        self.proxy = stack.enter_context(started(*words, **how))

    def connect(self):
        """A client's connection to the proxy, and the server's that comes of it."""
        client = self.stack.enter_context(socket.create_connection(("127.0.0.1", self.port), SECONDS))
        server, _ = self.listener.accept()
        server.settimeout(SECONDS)
        if self.tls:
            server = self.tls.wrap_socket(server, server_side=True)
        return client, self.stack.enter_context(server)

    def open(self, ask=ASK, answer=ANSWER):
        """The same after a handshake."""
        client, server = self.connect()
        client.sendall(ask)
        asked = until(server, b"\r\n\r\n")
        server.sendall(answer)
        same(until(client, b"\r\n\r\n"), answer, "the answer")
        return client, server, asked

    def recorded(self, number=1):
        """What was recorded, once that is over."""
        name = f"{number:04}.capture"
        over = (f"{name}: ended", f"{name}: reset")
        wait_for(lambda: any(word in line for line in self.proxy.said for word in over), f"the end of {name}")
        return (self.folder / name).read_bytes()


@contextlib.contextmanager
def sessions(folder, *words, **options):
    with contextlib.ExitStack() as stack:
        yield Sessions(stack, folder, *words, **options)


def plain(lines):
    """A capture's lines but the comments."""
    return b"".join(line for line in lines.splitlines(True) if not line.startswith(b"#"))


def until(connection, mark):
    """What comes up to a mark."""
    data = b""
    while not data.endswith(mark):
        chunk = connection.recv(1)
        if not chunk:
            raise Failed(f"the connection ended after {data!r}")
        data += chunk
    return data


def exactly(connection, count):
    """So many bytes that come."""
    data = bytearray()
    while len(data) < count:
        chunk = connection.recv(min(65536, count - len(data)))
        if not chunk:
            raise Failed(f"the connection ended after {len(data)} of {count} bytes")
        data += chunk
    return bytes(data)


@test
def record_writes_lines_as_bytes_pass(folder):
    """Each line is written before the connection ends; then an end of either side alone."""
    with sessions(folder) as all_sessions:
        client, server, asked = all_sessions.open()
        same(asked, ASK.replace(b"localhost:1", f"127.0.0.1:{all_sessions.server_port}".encode()), "the request")
        path = all_sessions.folder / "0001.capture"
        client.sendall(b"\x81\x80abcd")
        same(exactly(server, 6), b"\x81\x80abcd", "what the server got")
        wait_for(lambda: plain(path.read_bytes()) == b"C 818061626364\n", "the client's line")
        server.sendall(b"\x88\x00")
        server.shutdown(socket.SHUT_WR)
        same(exactly(client, 2), b"\x88\x00", "what the client got")
        same(client.recv(1), b"", "the end")
        wait_for(lambda: plain(path.read_bytes()) == b"C 818061626364\nS 8800\nS.\n", "the server's end")
        client.sendall(b"\x88\x80abcd")
        same(exactly(server, 6), b"\x88\x80abcd", "what the server got after its end")
        client.close()
        same(server.recv(1), b"", "the client's end")
        wanted = b"C 818061626364\nS 8800\nS.\nC 888061626364\nC.\n"
        same(plain(all_sessions.recorded()), wanted, "the capture")


@test
def record_takes_frames_beside_the_handshake(folder):
    """Frames in one segment with the heads belong to the capture, and long ones are parted into lines."""
    with sessions(folder) as all_sessions:
        client, server = all_sessions.connect()
        client.sendall(ASK + b"\x81\x80abcd")
        until(server, b"\r\n\r\n")
        server.sendall(ANSWER + b"\x81\x00")
        until(client, b"\r\n\r\n")
        exactly(server, 6)
        exactly(client, 2)
        data = bytes(range(256)) * 8192
        both = [threading.Thread(target=each.sendall, args=(data,)) for each in (client, server)]
        for thread in both:
            thread.start()
        same(exactly(server, len(data)), data, "what the server got")
        same(exactly(client, len(data)), data, "what the client got")
        for thread in both:
            thread.join(SECONDS)
        client.close()
        server.close()
        wanted = b"\x81\x80abcd" + data, b"\x81\x00" + data, {"C", "S"}
        same(sides(all_sessions.recorded()), wanted, "the capture")


@test
def record_passes_resets_on(folder):
    """A reset of either side: what was sent before it, then a reset, and two end marks."""
    with sessions(folder) as all_sessions:
        for number, who in enumerate("CS", 1):
            pair = all_sessions.open()[:2]
            one, other = pair if who == "C" else pair[::-1]
            one.sendall(b"\x81\x00")
            same(exactly(other, 2), b"\x81\x00", "what came before the reset")
            one.setsockopt(socket.SOL_SOCKET, socket.SO_LINGER, RESET)
            one.close()
            try:
                other.recv(1)
                raise Failed("an end and no reset")
            except ConnectionResetError:
                pass
            lines = all_sessions.recorded(number)
            name, marks = ("client", b"C.\nS.\n") if who == "C" else ("server", b"S.\nC.\n")
            same(plain(lines), f"{who} 8100\n".encode() + marks, "the capture")
            want(lines.endswith(f"# reset by the {name}\n".encode() + marks), f"who reset it: {lines}")
            shown = run(WSN, "show", input=lines, status=1)[0].decode().splitlines()
            same(shown[-8], f"ended-by {name} reset", "what is shown of it")


@test
def record_tells_a_reset_from_an_end_under_tls(folder):
    """Of a wss server, between two records and inside one; an end is one with and without TLS's own."""
    with sessions(folder, tls=certificate(folder)) as all_sessions:
        for number, how in enumerate(("reset", "reset in a record", "end", "end in a record", "end of TLS"), 1):
            client, server, _ = all_sessions.open()
            server.sendall(b"\x81\x05He")
            same(exactly(client, 4), b"\x81\x05He", "what came before it")
            if how.endswith("record"):
                socket.socket.send(server, b"\x17\x03\x03\x40\x00" + bytes(100))
                time.sleep(0.2)
            if how == "end of TLS":
                server.setblocking(False)
                with contextlib.suppress(ssl.SSLWantReadError):
                    server.unwrap()
            elif how.startswith("reset"):
                server.setsockopt(socket.SOL_SOCKET, socket.SO_LINGER, RESET)
            server.close()
            found = "end"
            try:
                same(client.recv(1), b"", how)
            except ConnectionResetError:
                found = "reset"
            client.close()
            lines = all_sessions.recorded(number)
            said = ["# reset by the server"] if how.startswith("reset") else []
            same((found, said_in(lines)[3:], plain(lines)), (how.split()[0], said, b"S 81054865\nS.\nC.\n"), how)


@test
def record_puts_times_into_the_capture(folder):
    """When it was open, what was asked, answered and agreed on; seconds before each line where time has passed."""
    offers = b"Sec-WebSocket-Protocol: chat\r\nSec-WebSocket-Extensions: x\r\n\r\n"
    answer = ANSWER[:-2] + b"Sec-WebSocket-Protocol: chat\r\nSec-WebSocket-Extensions: x; y=1\r\n\r\n"
    with sessions(folder) as all_sessions:
        before = datetime.datetime.utcnow()
        client, server, _ = all_sessions.open(ASK[:-2] + offers, answer)
        for _ in range(3):
            time.sleep(0.02)
            client.sendall(b"\x81\x80abcd")
            exactly(server, 6)
        client.close()
        server.close()
        lines = all_sessions.recorded()
    opened, *comments = said_in(lines)
    at = datetime.datetime.strptime(opened, "# open since %Y-%m-%dT%H:%M:%S.%fZ")
    want(abs((at - before).total_seconds()) < SECONDS, f"{opened}, and not {before}")
    same(comments, ["# path: /chat", "# answer: HTTP/1.1 101 Switching Protocols", "# subprotocol: chat",
                    "# extensions: x; y=1"], "the front")  # fmt: skip
    found = [micros for micros, _ in times(lines)]
    want(found[0] >= 10_000 and len(found) >= 3, f"the times: {found}")
    want(all(one < two for one, two in zip(found, found[1:])), f"the times: {found}")


@test
def record_stamps_each_chunk_as_it_reads_it(folder):
    """Messages that go to and fro as fast as they can: each has a time between its sending and its arrival."""
    with sessions(folder) as all_sessions:
        client, server, _ = all_sessions.open()
        passed = []
        for number in range(50):
            one, other = (client, server) if number % 2 == 0 else (server, client)
            sent = time.time_ns() // 1000
            one.sendall(bytes([0x81, 0x80, number]))
            exactly(other, 3)
            passed.append((sent, time.time_ns() // 1000))
        client.close()
        server.close()
        lines = all_sessions.recorded()
    opened = datetime.datetime.strptime(said_in(lines)[0], "# open since %Y-%m-%dT%H:%M:%S.%fZ")
    since = round(opened.replace(tzinfo=datetime.timezone.utc).timestamp() * 1e6)
    found = [(micros, line) for micros, line in times(lines) if not line.endswith(".")]
    wanted = [f"{'CS'[number % 2]} 8180{number:02x}" for number in range(50)]
    same([line for _, line in found], wanted, "a time before each line")
    # How far the capture's clock may be behind: its two clocks are read a moment apart, and times are rounded down.
    least = max(sent - since - micros for (micros, _), (sent, _) in zip(found, passed))
    most = min(arrived - since - micros for (micros, _), (_, arrived) in zip(found, passed))
    want(least <= most + 2 and -2 <= most and least < 20_000, f"between its sending and its arrival: {least}, {most}")
    want(all(one[0] < two[0] for one, two in zip(found, found[1:])), f"the times: {found}")


@test
def record_finds_what_is_wrong_with_an_answer(folder):
    """A wrong accept, and what wasn't offered: on standard error and as comments. The key is that of RFC 6455, 1.3."""
    ask = ASK[:-2] + b"Sec-WebSocket-Key: dGhlIHNhbXBsZSBub25jZQ==\r\nSec-WebSocket-Extensions: x-two\r\n\r\n"
    right = ANSWER[:-2] + b"Sec-WebSocket-Accept: s3pPLMBiTxaQ9kYGzzhZRbK+xOo=\r\n"
    chosen = b"Sec-WebSocket-Protocol: mqtt\r\nSec-WebSocket-Extensions: X-Two, x-one\r\n"
    wrong = right.replace(b"s3p", b"S3p") + chosen
    words = ["accept is wrong", "subprotocol mqtt was not offered", "extension x-one was not offered"]
    for plain, answer, found in (
        ([], right, []),
        ([], wrong, words),
        (["--plain"], wrong, [*words[:2], "extension X-Two was not offered", words[2]]),
    ):
        with sessions(folder / str(len(found)), *plain) as all_sessions:
            for each in all_sessions.open(ask, answer + b"\r\n")[:2]:
                each.close()
            comments = said_in(all_sessions.recorded())
            start = f"record: {all_sessions.folder}/0001.capture: "
            said = [line.removeprefix(start).rstrip("\n") for line in all_sessions.proxy.said]
        same([line[2:] for line in comments if line.endswith((" wrong", " offered"))], found, "the comments")
        same([line for line in said if line.endswith((" wrong", " offered"))], found, "what is said")


def said_of(all_sessions, part):
    """The line that the proxy prints with these words, without the client's address."""
    wait_for(lambda: any(part in line for line in all_sessions.proxy.said), f"a line with {part!r}")
    (line,) = [line for line in all_sessions.proxy.said if part in line]
    return re.sub(r"127\.0\.0\.1 port \d+, ", "", line.rstrip("\n"))


@test
def record_says_how_a_handshake_failed(folder):
    """What was asked and answered, or why it wasn't: of an answer 401, of a server that ends, resets or is silent."""
    asked = "record: GET /chat?x=1 HTTP/1.1"
    with sessions(folder) as all_sessions:
        client, server = all_sessions.connect()
        client.sendall(ASK)
        until(server, b"\r\n\r\n")
        server.sendall(b"HTTP/1.1 401 Un\x1b[31mauthorized\r\nContent-Length: 0\r\n\r\n")
        until(client, b"\r\n\r\n")
        same(said_of(all_sessions, " 401 "), f"{asked}, answered HTTP/1.1 401 Un\\x1b[31mauthorized", "an answer")
        for how, said in ("ended", "not answered: the server ended"), ("reset", "not answered: the server reset"):
            client, server = all_sessions.connect()
            client.sendall(ASK)
            until(server, b"\r\n\r\n")
            if how == "reset":
                server.setsockopt(socket.SOL_SOCKET, socket.SO_LINGER, RESET)
            server.close()
            same(said_of(all_sessions, said), f"{asked}, {said} the connection", how)
            same(client.recv(1), b"", "the client's end")
        client, server = all_sessions.connect()
        client.sendall(ASK)
        until(server, b"\r\n\r\n")
        client.close()
        said = "not answered yet, and the client ended the connection"
        same(said_of(all_sessions, said), f"{asked}, {said}", "a client that waits no longer")
        same(list(all_sessions.folder.iterdir()), [], "files")
        all_sessions.open()
        wait_for(lambda: (all_sessions.folder / "0001.capture").exists(), "a session after that")
        said = f"{all_sessions.folder}/0001.capture: "
        wanted = f"record: {said}{asked[8:]}, answered HTTP/1.1 101 Switching Protocols"
        same(said_of(all_sessions, "answered HTTP/1.1 101"), wanted, "an answer 101")


@test
def record_says_what_a_failed_handshake_answered(folder):
    """Fields and the first 1,000 bytes of the body, escaped, but not of an answer to a request for a page."""
    head = b"HTTP/1.1 403 Forbidden\r\nWWW-Authenticate: Bearer realm=x\r\nContent-Type: text/plain\r\n"
    body = "no\x1b ü ".encode() + b"a" * 2000
    answer = head + b"Content-Length: %d\r\n\r\n" % len(body) + body
    with sessions(folder) as all_sessions:
        for ask in b"GET / HTTP/1.1\r\nHost: x\r\n\r\n", ASK:
            client, server = all_sessions.connect()
            client.sendall(ask)
            until(server, b"\r\n\r\n")
            server.sendall(answer)
            same(exactly(client, len(answer)), answer, "the answer")
            client.close()
        said = said_of(all_sessions, "the body begins")
        want(said.endswith("the body begins: no\\x1b \\xfc " + "a" * 993), f"the body: {said!r}")
        want(said_of(all_sessions, "WWW-Authenticate").endswith(": WWW-Authenticate: Bearer realm=x"), "a field")
        want(said_of(all_sessions, "Content-Type").endswith(": Content-Type: text/plain"), "a field")


@test
def record_writes_no_token(folder):
    """A subprotocol that looks like a token is in no comment and isn't printed; a name is."""
    for name, is_kept in (
        ("chat", True), ("graphql-transport-ws", True), ("actioncable-v1-json", True), ("v4.base64.channel.k8s.io", True),
        ("eyJhbGciOiJIUzI1NiJ9.e30.abc", False), ("base64url.bearer.authorization.k8s.io.c2VjcmV0LXRva2VuMTIz", False),
        ("123e4567-e89b-12d3-a456-426614174000", False), ("0123456789abcdef0123456789abcdef", False),
    ):  # fmt: skip
        with sessions(folder / name) as all_sessions:
            answer = ANSWER[:-2] + b"Sec-WebSocket-Protocol: " + name.encode() + b"\r\n\r\n"
            for each in all_sessions.open(ASK.replace(b"/chat", b"/"), answer)[:2]:
                each.close()
            written = all_sessions.recorded().decode() + "".join(all_sessions.proxy.said).replace(str(folder / name), "")
        same(written.count(name), 3 if is_kept else 0, f"where {name} is")
        same(written.count("(left out: it looks like a token)"), 0 if is_kept else 3, f"instead of {name}")


@test
def record_shows_what_passes(folder):
    """With --show: each line as it happens, with the number of its capture; the report at the end, also after Ctrl-C at a
    terminal, which all its processes are sent. What is shown of each is what `wsn show` prints of its file."""
    shown, hello = folder / "shown", bytes.fromhex("818537fa213d7f9f4d5158")

    def lines(number):
        found = [line.split(" ", 1) for line in shown.read_text().splitlines()]
        same({name for name, _ in found} - {"0001", "0002"}, set(), "numbers")
        return [line for name, line in found if name == number]

    def wait(number, pattern):
        wait_for(lambda: any(re.fullmatch(pattern, line) for line in lines(number)), f"{pattern} of {number}")

    with sessions(folder, "--show", shown=shown) as all_sessions:
        client, server, _ = all_sessions.open()
        wait("0001", "# path: /chat")
        client.sendall(hello)
        wait("0001", r'C \d\.\d{6} 0 text 5 1 "Hello"')
        other = all_sessions.open()
        other[1].sendall(b"\x82\x02\x00\xff")
        wait("0002", r"S \d\.\d{6} 0 binary 2 1 00ff")
        server.sendall(hello[:1] + b"\x02Hi\x88\x02\x03\xe8")
        wait("0001", r"S \d\.\d{6} 4 close 2 1 1000")
        exactly(client, 8)
        client.sendall(b"\x88\x82\0\0\0\0\x03\xe8")
        server.shutdown(socket.SHUT_WR)
        client.close()
        wait("0001", "outcome clean")
        same("outcome open" in lines("0002"), False, "the other's report, before its end")
        os.killpg(all_sessions.proxy.pid, signal.SIGINT)
        all_sessions.proxy.wait(SECONDS)
        wait_for(lambda: all_sessions.proxy.said[-1] == "record: stopped\n", "`stopped`, said last")
    for number, status in ("0001", 0), ("0002", 1):
        wanted = run(WSN, "show", all_sessions.folder / f"{number}.capture", status=status)[0].decode().splitlines()
        same(lines(number), wanted, f"what is shown of {number}")


@test
def record_goes_on_without_a_reader(folder):
    """With --show: where standard output ends early, as of `| head`, sessions are recorded all the same."""
    with sessions(folder, "--show", shown="/dev/full") as all_sessions:
        for number in 1, 2:
            client, server, _ = all_sessions.open()
            client.sendall(b"\x81\x80abcd" * 3)
            same(exactly(server, 18), b"\x81\x80abcd" * 3, "what passes")
            client.close()
            server.close()
            same(sides(all_sessions.recorded(number))[0], b"\x81\x80abcd" * 3, "what is recorded")


@test
def record_takes_out_the_offer(folder):
    """--plain takes the offer of extensions out; without it the offer stays and what is agreed on is reported."""
    with sessions(folder, "--plain") as all_sessions:
        asked = all_sessions.open(OFFER)[2]
        want(b"deflate" not in asked and asked.endswith(b"\r\nX: y\r\n\r\n"), f"the request: {asked!r}")
    with sessions(folder, path="/other?y") as all_sessions:
        agreed = ANSWER[:-2] + b"Sec-WebSocket-Extensions: permessage-deflate\r\n\r\n"
        asked = all_sessions.open(OFFER, agreed)[2]
        want(b"permessage-deflate" in asked, f"the request: {asked!r}")
        want(asked.startswith(b"GET /other?y HTTP/1.1\r\n"), f"the URL's path: {asked!r}")
        wait_for(lambda: any("permessage-deflate" in line for line in all_sessions.proxy.said), "the warning")


@test
def record_passes_other_answers_on(folder):
    """Requests with bodies and other answers come before the handshake on the same connection."""
    with sessions(folder) as all_sessions:
        client, server = all_sessions.connect()
        post = b"POST / HTTP/1.1\r\nHost: x\r\nContent-Length: 4\r\n\r\n\r\n\r\n"
        client.sendall(post)
        until(server, b"\r\n\r\n")
        exactly(server, 4)
        refusal = b"HTTP/1.1 401 Unauthorized\r\nTransfer-Encoding: chunked\r\n\r\n4\r\n\r\n\r\n\r\n0\r\n\r\n"
        server.sendall(refusal)
        same(exactly(client, len(refusal)), refusal, "the refusal")
        client.sendall(ASK)
        until(server, b"\r\n\r\n")
        server.sendall(ANSWER + b"\x88\x00")
        same(exactly(client, len(ANSWER) + 2), ANSWER + b"\x88\x00", "the answer")
        client.close()
        server.close()
        same(sides(all_sessions.recorded()), (b"", b"\x88\x00", {"C", "S"}), "the capture")


@test
def record_in_the_background_stops(folder):
    """A shell's background job ignores SIGINT at first; the proxy takes it nevertheless."""
    port = free_port()
    script = f"'{TOP}/recipes/record' {port} ws://127.0.0.1:{free_port()} '{folder}/made' & echo $!; wait $!; echo $?"
    with subprocess.Popen(["sh", "-c", script], stdout=subprocess.PIPE, stderr=subprocess.PIPE) as shell:
        number = int(shell.stdout.readline())
        want(b"listening" in shell.stderr.readline(), "it listens")
        os.kill(number, signal.SIGINT)
        try:
            shell.wait(SECONDS / 6)
            same(shell.stdout.read(), b"0\n", "the status")
        except subprocess.TimeoutExpired:
            os.kill(number, signal.SIGTERM)
            raise


@test
def record_keeps_files_whole_when_it_stops(folder):
    """Ctrl-C amid a session: status 0, whole lines, no end marks. Files that are there stay as they are."""
    (folder / "recordings").mkdir()
    (folder / "recordings" / "0001.capture").write_text("# kept\n")
    with contextlib.ExitStack() as stack:
        all_sessions = Sessions(stack, folder)
        client, server, _ = all_sessions.open()
        sending = threading.Thread(target=flood, args=(client,), daemon=True)
        sending.start()
        exactly(server, 3_000_000)
        all_sessions.proxy.send_signal(signal.SIGINT)
        same(all_sessions.proxy.wait(SECONDS), 0, "the status")
        lines = (folder / "recordings" / "0002.capture").read_bytes()
        want(lines.endswith(b"\n"), "the last line isn't whole")
        data, _, ended = sides(lines)
        want(len(data) >= 3_000_000 and set(data) == {7} and not ended, "the capture")
        same((folder / "recordings" / "0001.capture").read_text(), "# kept\n", "an older file")


def flood(connection):
    """Sends until it can't."""
    with contextlib.suppress(OSError):
        while True:
            connection.sendall(b"\x07" * 65536)


@test
def record_begins_with_what_can_be(folder):
    """A port, a server or a folder that can't be: a line in plain words, status 2, and nothing is made or listens."""
    (folder / "file").write_text("")
    port, made, server = free_port(), folder / "made", "ws://localhost"
    servers = ["http://localhost", "localhost:9000", "ws:localhost", "ws://", "ws://:80", "ws://[::1", "ws://a..b"]
    servers += [f"{server}:{number}" for number in ("0", "65536", "x", "-1")]
    ports = ["x", "", "-1", "1.5", "65536", "9" * 5000, "localhost:", "a..b:9000", "0"]
    with socket.create_server(("127.0.0.1", 0)) as other:
        taken = other.getsockname()[1]
        for words, said in (
            *(([port, each, made], f"{each} isn't of the form ws://HOST[:PORT]") for each in servers),
            ([port, server, folder / "file"], f"{folder}/file is there, and isn't a folder"),
            ([port, server, folder / "file/a"], f"can't make the folder {folder}/file/a: Not a directory"),
            ([port, server, "/proc"], "can't make files in the folder /proc: "),
            ([taken, server, folder], f"can't listen on 127.0.0.1 port {taken}: Address already in use"),
            ([f"a.invalid:{port}", server, folder], f"can't listen on a.invalid port {port}: the name isn't known"),
            *(([each, server, made], f"{each} isn't of the form [ADDRESS:]PORT") for each in ports),
        ):
            out, error = run(TOP / "recipes/record", *words, status=2)
            lines = error.decode().splitlines()
            plain = out == b"" and len(lines) == 1 and "Errno" not in lines[0]
            want(plain and lines[0].startswith(f"record: {said}"), f"{said}: {lines}")
    environment = {**os.environ, "SSLKEYLOGFILE": "/dev/null/keys"}
    _, error = run(TOP / "recipes/record", port, "wss://localhost", made, status=2, env=environment)
    same(error, b"record: can't write the key log /dev/null/keys: Not a directory\n", "a key log")
    same([path.name for path in folder.iterdir()], ["file"], "files")


@test
def record_says_what_it_requires(folder):
    """Words that it doesn't take: status 2. A server that isn't there: 502."""
    for words, said in (
        ([], b"Listens on PORT"),
        (["--plian", "9001", "ws://localhost", folder], b"record: there is no option --plian: record [--plain] "),
        (["9001", "ws://localhost"], b"record: it takes a port, a URL and a folder: record [--plain] "),
        (["x", "ws://localhost", folder], b"[ADDRESS:]PORT"),
        ([str(free_port()), "http://localhost", folder], b"ws://HOST"),
        ([str(free_port()), "ws://localhost", "/dev/null/x"], b"/dev/null"),
    ):
        error = run(TOP / "recipes/record", *words, status=2)[1]
        want(said in error and (not words or error.count(b"\n") == 1), f"{words}: {error}")
    port, other = free_port(), free_port()
    words = [TOP / "recipes/record", port, f"ws://127.0.0.1:{other}/path?y", folder]
    with started(*words, line="listening", stream="stderr") as proxy:
        for number, asks in enumerate((b"", ASK)):
            with socket.create_connection(("127.0.0.1", port), SECONDS) as client:
                client.sendall(asks)
                want(until(client, b"\r\n\r\n").startswith(b"HTTP/1.1 502 "), "no 502")
                same(client.recv(1), b"", "the end")
                address = client.getsockname()
                wait_for(lambda count=number + 2: len(proxy.said) >= count, "what is said")
            asked = ", GET /path?y HTTP/1.1" if asks else ""
            why = f"not answered: can't connect to 127.0.0.1:{other}: Connection refused"
            same(proxy.said[-1], f"record: {address[0]} port {address[1]}{asked}, {why}\n", "what was asked")
    same(list(folder.iterdir()), [], "files")
