"""What the peers send of their own: recorded, judged, and kept as samples."""
import os
import re

import frames
import talk
import verdicts

SAMPLES = f"{verdicts.TOP}/tests/samples/peers"
# The only recording that is kept of the long texts: 131 KB.
LONG_KEPT = ("ws", "client")
SHORTS = [b"", b"Hello", b"a" * 125, b"a" * 126]
LONGS = [b"a" * 65535, b"a" * 65536]
NAMES = {frames.CLOSE: "a Close", frames.PING: "a ping", frames.PONG: "a pong"}


def slug(name):
    return re.sub("[^a-z0-9]+", "-", name.lower()).strip("-")


async def record(command, role, environment):
    """The bytes of a session with short messages, and of one with long ones."""
    async with talk.Program(command, role, environment) as program:
        short = await talk.recorded(program, "short-1")
        long = await talk.recorded(program, "long-1")
        return short.sent, long.sent


def keys_of(role, wire):
    """What is to be said of the keys of these frames."""
    starts = [frame for frame in frames.frames_of(wire)]
    keys = [wire[frame.end - frame.length - 4 : frame.end - frame.length] for frame in starts if frame.masked]
    if role == "server":
        return "none" if not any(wire[frame.start + 1] & 0x80 for frame in starts) else "a key"
    if len(set(keys)) == len(starts):
        return "another in each frame"
    return f"{len(set(keys))} in {len(starts)} frames"


def kinds_of(wire):
    """What the peer sends beside whole messages."""
    seen = frames.whole_frames(wire)
    found = ["fragments"] if any(not frame.fin for frame in seen) else []
    found += [name for opcode, name in NAMES.items() if any(frame.opcode == opcode for frame in seen)]
    closes = [index for index, frame in enumerate(seen) if frame.opcode == frames.CLOSE]
    if closes and closes[0] + 1 < len(seen):
        found.append(f"{len(seen) - closes[0] - 1} frames after its Close")
    return ", ".join(found)


def missing_texts(role, short, long):
    """What a session doesn't have of what the program was to send."""
    for wire, texts in ((short, SHORTS), (long, LONGS)):
        found = [payload for kind, payload in verdicts.verdict_of(role, wire).messages if kind == "text"]
        if found[: len(texts)] != texts:
            yield f"the texts of {[len(text) for text in texts]} bytes"


def sent_by(role, short, long):
    """An entry of what a peer sends."""
    return {"verdict": verdicts.judged(role, short), "long": verdicts.judged(role, long), "keys": keys_of(role, short),
            "kinds": kinds_of(short), "missing": list(missing_texts(role, short, long))}


def without_keys(wire):
    """Heads without keys, payloads, and what comes after the last whole frame."""
    parts, end = [], 0
    for frame in frames.whole_frames(wire):
        parts += [wire[frame.start : frame.end - frame.length - (4 if frame.masked else 0)], frame.payload]
        end = frame.end
    return [*parts, wire[end:]]


def is_kept(path, wire):
    """Whether the sample there differs from these bytes at most in its keys, which no two sessions share."""
    if not os.path.exists(path):
        return False
    with open(path, "rb") as file:
        return without_keys(file.read()) == without_keys(wire)


def keep(compared):
    """Writes the samples and their verdicts."""
    recorded = [(peer.name, role, *wires) for peer in compared if not peer.is_variant()
                for role, wires in peer.wires.items()]
    os.makedirs(SAMPLES, exist_ok=True)
    lines, names = [], set()
    for name, role, short, long in recorded:
        stem = f"{slug(name)}-{role}"
        kept = [(stem, short)] + ([(f"{stem}-long", long)] if (name, role) == LONG_KEPT else [])
        for stem, wire in kept:
            names.add(f"{stem}.bin")
            if not is_kept(f"{SAMPLES}/{stem}.bin", wire):
                with open(f"{SAMPLES}/{stem}.bin", "wb") as file:
                    file.write(wire)
            lines.append(f"{stem}.bin {role} {verdicts.judged(role, wire)}\n")
    with open(f"{SAMPLES}/verdicts", "w", encoding="utf-8") as file:
        file.writelines(lines)
    for old in os.listdir(SAMPLES):
        if old.endswith(".bin") and old not in names:
            os.remove(f"{SAMPLES}/{old}")
