#!/usr/bin/env python3
"""Prints, for each capture, which side broke the protocol, where and why, and what it said last before:

who_broke_it.py session.capture ..
"""

import pathlib
import sys

import wsn


def faults(capture):
    """A line for each side that is refused."""
    session = wsn.show(capture)
    for side in ("client", "server"):
        end = getattr(session.report, side)
        if end.state == "refused":
            said = [entry for entry in session.entries if entry.side == side and entry.type == "event"]
            last = f"{said[-1].event} at {said[-1].offset}" if said else "nothing"
            yield f"{side} at byte {end.offset}: {end.reason}, close code {end.code}; before it: {last}"


broken = False
for name in sys.argv[1:]:
    for fault in faults(pathlib.Path(name).read_bytes()):
        broken = True
        print(f"{name}: {fault}")
sys.exit(1 if broken else 0)
