"""Captures without what was said, as `wsn redact` writes them. What it is given is kept in memory alone."""

import contextlib
import re
import shutil
import signal
import subprocess
import tempfile
import threading
from typing import BinaryIO, Callable

from program import ELSE, NoProgram, program

PROBE, REDACTED = b"# path: /secret\nS 810173\n", b"#\nS 810178\n"
CHUNK = 1 << 20
IN_ZEROS = "all that a side sends from its first compressed frame on becomes zeros"


def check_program() -> None:
    """NoProgram, if the program isn't there or redacts no captures."""
    with tempfile.TemporaryFile() as probe:  # Not a pipe, which another program may not read.
        probe.write(PROBE)
        probe.seek(0)
        try:
            done = subprocess.run([program(), "redact", "-"], stdin=probe, capture_output=True, check=False)
        except OSError as error:
            raise NoProgram(f"can't run {program()}: {error.strerror}") from error
    if done.returncode != 0 or done.stdout != REDACTED:
        raise NoProgram(f"--redact requires a program with 'wsn redact CAPTURE', and {program()} has none: "
                        f"build that of these sources, {ELSE}")  # fmt: skip


def why_ended(process: "subprocess.Popen[bytes]", said: bytes) -> str:
    """Why a redaction ended before the capture, in words; empty if it is whole."""
    status = process.wait()
    if status == 0:
        return ""
    return "; ".join(said.decode(errors="replace").splitlines()) or f"wsn redact ended with status {status}"


def redact(write: Callable[[BinaryIO], None], out: BinaryIO) -> str:
    """Writes the redaction of the capture that `write` writes. Why it ends before that, in words; empty if it is whole."""
    pipe = subprocess.PIPE
    with subprocess.Popen([program(), "redact", "-"], stdin=pipe, stdout=pipe, stderr=pipe) as process:
        assert process.stdin is not None and process.stdout is not None and process.stderr is not None
        feeder = threading.Thread(target=feed, args=(write, process.stdin), daemon=True)
        feeder.start()
        try:
            shutil.copyfileobj(process.stdout, out, CHUNK)
        finally:
            process.stdout.close()
            feeder.join()
        return why_ended(process, process.stderr.read())


def feed(write: Callable[[BinaryIO], None], lines: BinaryIO) -> None:
    """Gives the program a capture, as far as it reads."""
    signal.pthread_sigmask(signal.SIG_BLOCK, {signal.SIGPIPE})  # Where it ends a recipe, the program's end would.
    with contextlib.suppress(OSError), lines:
        write(lines)


class Redactor:
    """A capture that is redacted while it is recorded, line by line."""

    def __init__(self) -> None:
        pipe = subprocess.PIPE
        # In a session of its own, or Ctrl-C would end it before the last line.
        self.process = subprocess.Popen([program(), "redact", "-"], stdin=pipe, stdout=pipe, stderr=pipe,
                                        start_new_session=True)  # fmt: skip
        self.ended = ""  # Why it redacts no more, in words.

    def redacted(self, lines: str) -> bytes:
        """The redaction of whole lines, or of those before it ended."""
        return b"".join(map(self.line, lines.encode().splitlines(True)))

    def line(self, line: bytes) -> bytes:
        """The redaction of one line. The program writes it before it reads on."""
        assert self.process.stdin is not None and self.process.stdout is not None and self.process.stderr is not None
        if self.ended:
            return b""
        with contextlib.suppress(OSError):
            self.process.stdin.write(line)
            self.process.stdin.flush()
        found = self.process.stdout.readline()
        if not found.endswith(b"\n"):
            self.ended = why_ended(self.process, self.process.stderr.read()) or "wsn redact ended"
            return b""
        return found

    def close(self) -> None:
        """No more lines come."""
        for pipe in self.process.stdin, self.process.stdout, self.process.stderr:
            with contextlib.suppress(OSError):
                if pipe is not None:
                    pipe.close()
        self.process.wait()


NAMES = r"[!#$%&'*+.^_`|~0-9A-Za-z;, \t-]"  # A byte of a name of an extension, or between names.
# What is left out: all up to a ; or a , that isn't in a quoted string.
LEFT_OUT = r'(?:[^;,"]|"(?:[^"\\]|\\.)*(?:"|\\?\Z))*'


def without_values(extensions: str) -> str:
    """The names in a list of extensions, as a redacted capture has them."""
    return re.sub(rf"(=|(?!{NAMES})){LEFT_OUT}", r"\1", extensions, flags=re.DOTALL)


def without_names(fault: str) -> str:
    """What is wrong with a handshake's answer, without the names that it chose."""
    for what in "a subprotocol", "an extension":
        if re.fullmatch(rf"{what.split()[1]} .* was not offered", fault, re.DOTALL):
            return f"{what} was not offered"
    return fault
