"""What bench/scan/run and bench/capture/run share: how commands are timed, and how figures are printed."""

import os
import pathlib
import subprocess
import sys
from typing import NamedTuple

BENCH = pathlib.Path(__file__).resolve().parent
CC = os.environ.get("CC") or "cc"
WSN = os.environ.get("WSN") or str(BENCH.parent / "crates/wsn/out/wsn")
BYTES = int(os.environ.get("BYTES") or 256_000_000)
ROUNDS = int(os.environ.get("ROUNDS") or 7)
NOTE = "* more than 8 % below the goal"


class Run(NamedTuple):
    """How a command ran: its time, its peak memory, and what it wrote to standard error."""

    seconds: float
    megabytes: float
    errors: str


class Best(NamedTuple):
    """The least time of a command's runs, and their peak memory."""

    seconds: float = float("inf")
    megabytes: float = 0

    def with_run(self, run: Run) -> "Best":
        return Best(min(self.seconds, run.seconds), max(self.megabytes, run.megabytes))


class Timer:
    """Runs commands by timed.c. From Python, Linux would count Python's memory as the command's."""

    def __init__(self, tools: pathlib.Path):
        self.timed = tools / "timed"
        self.printed = tools / "printed"
        subprocess.run([CC, "-O2", "-o", self.timed, BENCH / "timed.c"], check=True)

    def run(self, words, stdin=subprocess.DEVNULL, keep=False) -> Run:
        """Runs a command, whose status must be 0. Its output goes to the file `printed` if it is kept."""
        words = [self.timed, self.printed if keep else os.devnull, *words]
        done = subprocess.run(words, stdin=stdin, capture_output=True, text=True, check=True)
        seconds, kilobytes, status = done.stdout.split()
        if status != "0":
            sys.exit(f"{' '.join(map(str, words[2:]))}: status {status}: {done.stderr}")
        return Run(float(seconds), int(kilobytes) / 1024, done.stderr.strip())


def first_line(*words: str) -> str:
    """The first line that a command prints; empty without the command."""
    try:
        return subprocess.run(words, capture_output=True, text=True).stdout.partition("\n")[0]
    except OSError:
        return ""


def print_machine() -> None:
    """Prints the processor, the load, and the versions of cat and wsn."""
    with open("/proc/cpuinfo") as lines:
        print(next((line.strip() for line in lines if line.startswith("model name")), "unknown processor"))
    print(f"processors: {os.cpu_count()}, load {' '.join(f'{load:.2f}' for load in os.getloadavg())}")
    kept = pathlib.Path(f"{WSN}.cpu")
    cpu = f" for {kept.read_text().strip()}" if kept.exists() else ""
    print(f"{first_line('cat', '--version')}, {first_line(WSN, '--version') or 'no wsn'}{cpu}")


def compared(value: float, goal: float) -> str:
    """A goal in five characters, with a mark if the value is far below it; 0 is none."""
    return f"{goal:4.2f}{'*' if value < 0.92 * goal else ' '}" if goal else "   - "
