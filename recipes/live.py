"""What `wsn show` prints of a capture, while it is written."""

import contextlib
import pathlib
import shutil
import subprocess
import sys
import threading
import time
from typing import BinaryIO, Set

from program import program

printing = threading.Lock()


def put(line: bytes) -> None:
    """Prints a line of one of the captures that are shown at once."""
    with printing:
        sys.stdout.buffer.write(line)
        sys.stdout.buffer.flush()


class Shown:
    """One capture. It is read from its file, so that a terminal that stops keeps no session waiting."""

    running: Set["Shown"] = set()

    def __init__(self, path: pathlib.Path):
        self.path = path
        self.has_grown = threading.Event()
        self.is_whole = False
        pipe = subprocess.PIPE
        # In a session of its own, or Ctrl-C would end it before its report.
        self.process = subprocess.Popen([program(), "show", "-"], stdin=pipe, stdout=pipe, stderr=subprocess.STDOUT,
                                        start_new_session=True)  # fmt: skip
        assert self.process.stdin is not None and self.process.stdout is not None
        self.feeder = threading.Thread(target=self.feed, args=(self.process.stdin,), daemon=True)
        self.printer = threading.Thread(target=self.print, args=(self.process.stdout,), daemon=True)
        self.running.add(self)
        self.feeder.start()
        self.printer.start()

    def grow(self) -> None:
        """Lines were written."""
        self.has_grown.set()

    def end(self) -> None:
        """No more lines come."""
        self.is_whole = True
        self.has_grown.set()

    def feed(self, lines: BinaryIO) -> None:
        """Gives the program what is in the file, and what comes, until the capture is whole or it reads no more."""
        with contextlib.suppress(OSError), lines, open(self.path, "rb") as file:
            is_whole = False
            while not is_whole:
                self.has_grown.wait()
                self.has_grown.clear()
                is_whole = self.is_whole
                shutil.copyfileobj(file, lines)
                lines.flush()

    def print(self, shown: BinaryIO) -> None:
        """Prints what the program says, with the capture's number in front of each line."""
        with contextlib.suppress(OSError), shown:
            for line in shown:
                put(f"{self.path.stem} ".encode() + line)
        self.process.wait()
        self.running.discard(self)


def end_all(seconds: float) -> None:
    """Ends all that are shown, each with its report, in so many seconds."""
    limit = time.monotonic() + seconds
    for shown in list(Shown.running):
        shown.end()
    for shown in list(Shown.running):
        shown.printer.join(max(0, limit - time.monotonic()))
