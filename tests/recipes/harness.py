"""What the tests of the recipes share: running programs, reading captures, recording sessions."""

import contextlib
import os
import pathlib
import re
import shutil
import signal
import socket
import subprocess
import sys
import tempfile
import threading
import time

HERE = pathlib.Path(__file__).resolve().parent
TOP = HERE.parent.parent
SAMPLES = TOP / "tests" / "samples"
WSN = os.path.abspath(os.environ.get("WSN") or TOP / "wsn")
SECONDS = 60  # The longest that anything here may take.
TESTS = []


class Skipped(Exception):
    """Something is missing on this machine."""


class Failed(Exception):
    """Something isn't as it must be."""


def test(function):
    """Marks a test; its name is the function's."""
    TESTS.append(function)
    return function


def want(equal, said):
    """A test fails unless this holds."""
    if not equal:
        raise Failed(said)


def same(got, wanted, what):
    """A test fails unless these are the same."""
    if got != wanted:
        raise Failed(f"{what}: {short(got)} and not {short(wanted)}")


def short(value):
    """A value for a message."""
    words = repr(value)
    return words if len(words) < 600 else words[:300] + " .. " + words[-300:]


def needs(*programs):
    """Skips the test unless these programs are there."""
    missing = [program for program in programs if not shutil.which(program)]
    if missing:
        raise Skipped(f"without {', '.join(missing)}")


def has_hpack():
    """Whether the recipes find the library hpack, Debian's package python3-hpack."""
    words = ["python3", "-B", "-c", "import http2, sys; sys.exit(http2.library() is None)"]
    return subprocess.run(words, cwd=TOP / "recipes", check=False).returncode == 0


def python_with_websockets():
    """A Python that has websockets, Debian's package python3-websockets."""
    for python in sys.executable, "/usr/bin/python3":
        words = [python, "-c", "import websockets.legacy.server"]
        if shutil.which(python) and subprocess.run(words, capture_output=True, check=False).returncode == 0:
            return python
    raise Skipped("without python3-websockets")


def run(*words, status=0, **options):
    """Runs a program to its end; its standard output, and its standard error."""
    done = subprocess.run(
        [str(word) for word in words], capture_output=True, check=False, timeout=10 * SECONDS, **options
    )
    if status is not None and done.returncode != status:
        raise Failed(f"{short([str(word) for word in words])}: status {done.returncode}, {short(done.stderr)}")
    return done.stdout, done.stderr


@contextlib.contextmanager
def started(*words, line, stream="stdout", end=signal.SIGTERM, env=None):
    """A program that runs meanwhile, from when it printed a line that holds these words; what it printed by then."""
    environment = {**os.environ, **(env or {})}
    with tempfile.TemporaryFile() as other:
        streams = {"stdout": other, "stderr": other, stream: subprocess.PIPE}
        process = subprocess.Popen([str(word) for word in words], env=environment, **streams)
        said = []
        seen = threading.Event()

        def read():
            for text in getattr(process, stream):
                said.append(text.decode())
                if line in said[-1]:
                    seen.set()
            seen.set()

        thread = threading.Thread(target=read, daemon=True)
        thread.start()
        try:
            if not seen.wait(SECONDS) or not any(line in text for text in said):
                raise Failed(f"{words[0]} never said {line!r}: {short(said)}")
            process.said = said
            yield process
        finally:
            process.send_signal(end)
            process.wait(SECONDS)
            thread.join(SECONDS)


def free_port(address="127.0.0.1"):
    """A port on which nothing listens."""
    family = socket.AF_INET6 if ":" in address else socket.AF_INET
    with socket.socket(family) as one:
        one.bind((address, 0))
        return one.getsockname()[1]


def sides(lines):
    """What capture lines say: the bytes of each side, and the set of sides that ended."""
    data, ended = {"C": b"", "S": b""}, set()
    for line in lines.decode().splitlines():
        want(len(line) <= 8194, "a capture line is too long")
        if line.startswith("#"):
            continue
        if line[1:] == ".":
            ended.add(line[0])
        else:
            want(line[1] == " " and line[0] not in ended, f"a capture line is wrong: {short(line)}")
            data[line[0]] += bytes.fromhex(line[2:])
    return data["C"], data["S"], ended


def times(lines):
    """The times in a capture, in microseconds, each with the line after it; the front's comments are left out."""
    found, last = [], None
    for line in lines.decode().splitlines():
        if re.fullmatch(r"# (0|[1-9][0-9]*)\.[0-9]{6}", line):
            last = int(line[2:].replace(".", ""))
        elif last is not None:
            found.append((last, line))
            last = None
    return found


def said_in(lines):
    """The comments of a capture, but its times."""
    comments = [line for line in lines.decode().splitlines() if line.startswith("#")]
    return [line for line in comments if not re.fullmatch(r"# [0-9.]+", line)]


def wait_for(held, what):
    """Waits until something holds."""
    limit = time.monotonic() + SECONDS
    while not held():
        if time.monotonic() > limit:
            raise Failed(f"waited in vain: {what}")
        time.sleep(0.02)


# Sessions

SESSIONS = {
    # Name: the server, the client, the address, whether over TLS.
    "basic": ("echo", "basic", "127.0.0.1", False),
    "server-closes": ("closes", "once", "127.0.0.1", False),
    "abort": ("echo", "abort", "127.0.0.1", False),
    "deflate": ("deflate", "deflate", "127.0.0.1", False),
    "ipv6": ("echo", "basic", "::1", False),
    "latin": ("latin", "listen", "127.0.0.1", False),
    "tls": ("echo", "basic", "127.0.0.1", True),
}


def certificate(folder):
    """A certificate for localhost that is its own, and its key."""
    needs("openssl")
    names = folder / "server.pem", folder / "server.key"
    run("openssl", "req", "-x509", "-newkey", "rsa:2048", "-nodes", "-days", "7", "-subj", "/CN=localhost",
        "-addext", "subjectAltName=DNS:localhost,IP:127.0.0.1", "-out", names[0], "-keyout", names[1])  # fmt: skip
    return names


@contextlib.contextmanager
def captured(pcap, port):
    """The packets of a port, into a pcap meanwhile."""
    needs("tcpdump")
    words = ["tcpdump", "-i", "lo", "-s", "0", "-U", "--immediate-mode", "-w", pcap, "tcp", "port", port]
    try:
        with started(*words, line="listening", stream="stderr", end=signal.SIGINT):
            yield
            time.sleep(0.5)
    except Failed as failed:
        if "listening" in str(failed):
            raise Skipped("without the right to capture packets") from failed
        raise


def record_session(name, folder):
    """Records a session through recipes/record, and its packets after the proxy: files NAME.capture, NAME.pcap."""
    server, client, address, tls = SESSIONS[name]
    python, port, listening = python_with_websockets(), free_port(address), free_port()
    served, environment = [], {}
    host = f"[{address}]" if ":" in address else address
    if tls:
        served = certificate(folder)
        host = "localhost"
        environment = {"SSL_CERT_FILE": str(served[0]), "SSLKEYLOGFILE": str(folder / f"{name}.keys")}
    url = f"{'wss' if tls else 'ws'}://{host}:{port}"
    recordings = folder / f"{name} recordings"
    with contextlib.ExitStack() as stack:
        stack.enter_context(captured(folder / f"{name}.pcap", port))
        stack.enter_context(started(python, HERE / "peers.py", "serve", server, address, port, *served, line="ready"))
        record = stack.enter_context(
            started(TOP / "recipes/record", listening, url, recordings, line="listening", stream="stderr",
                    env=environment)  # fmt: skip
        )
        run(python, HERE / "peers.py", "talk", client, f"ws://127.0.0.1:{listening}/chat")
        wait_for(lambda: re.search(r"capture: (ended|reset)", "".join(record.said)), "the recording's end")
        time.sleep(0.3)
    shutil.move(recordings / "0001.capture", folder / f"{name}.capture")


def samples():
    """The recorded sessions: their name, and the words for pcap2wsn after the pcap's name."""
    for name in SESSIONS:
        keys = SAMPLES / f"{name}.keys"
        yield name, ["0", keys] if keys.exists() else ["0"]


def keep_samples():
    """Records each session anew, into tests/samples."""
    SAMPLES.mkdir(exist_ok=True)
    with tempfile.TemporaryDirectory() as folder:
        for name in SESSIONS:
            record_session(name, pathlib.Path(folder))
            for kind in "pcap", "capture", "keys":
                kept = pathlib.Path(folder) / f"{name}.{kind}"
                if kept.exists():
                    shutil.copy(kept, SAMPLES / kept.name)
