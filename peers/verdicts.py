"""What `wsn` says of a stream: its verdict, and the messages, pings and Close that it has until then."""
import os
import re
import subprocess

import frames

TOP = os.path.dirname(os.path.dirname(os.path.realpath(__file__)))
PROGRAM = os.environ.get("WSN") or f"{TOP}/wsn"
# The first call may build the program.
WAIT = 7200
# Reasons that depend on a limit that each program sets for itself.
OWN_LIMITS = ("message-too-big", "too-many-frames")


class Verdict:
    def __init__(self, line, events):
        self.line = line
        self.word, *fields = line.split()
        self.offset = int(fields[0])
        self.tail = int(fields[2]) if self.word == "accepted" else 0
        self.is_unfinished = self.word == "accepted" and fields[4] != "-"
        self.reason, self.code = (fields[1], fields[2]) if self.word == "refused" else (None, None)
        kinds = {1: "text", 2: "binary"}
        self.messages = [(kinds[event.opcode], event.payload) for event in events if event.opcode in kinds]
        self.pings = [event.payload for event in events if event.opcode == frames.PING]
        closes = [event.payload for event in events if event.opcode == frames.CLOSE]
        self.close = frames.close_code(closes[0]) if closes else None


def run(command, role, wire):
    return subprocess.run([PROGRAM, command, "--role", role], input=wire, capture_output=True, timeout=WAIT)


def judged(role, wire):
    """The line of `wsn judge`."""
    ran = run("judge", role, wire)
    line = ran.stdout.decode().strip()
    if not re.fullmatch(r"accepted \d+ tail \d+ unfinished (\d+|-)|cut \d+|refused \d+ [a-z-]+ \d+", line):
        raise SystemExit(f"{PROGRAM} judge --role {role}: {line!r} {ran.stderr!r} of {wire[:80].hex()}")
    return line


def verdict_of(role, wire):
    """`wsn normal` writes one frame for each event."""
    return Verdict(judged(role, wire), frames.whole_frames(run("normal", role, wire).stdout))
