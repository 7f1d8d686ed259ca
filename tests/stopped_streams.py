"""Rows of tests/failing-calls: plans and recuts, each length of masked payloads, texts, and events in several blocks."""
from printed_payloads import frame, masked_messages, verdicts_of_a_long_text, verdicts_of_texts
from printed_plans import FITTING, PLANS, SIZED, UNFIT
from stopped import END, Row
from vectors import read

# "Hello" in fragments of three bytes and two, with a ping between them, its normal form, and its plan.
FRAGMENTS = b"\x01\x03Hel\x89\x00\x80\x02lo"
NORMAL = b"\x89\x00\x81\x05Hello"
PLAN = "piece 3 -\ncontrol -\nlast -\n"
# A ping, a message of 4,200 bytes, a pong and another message, which are their own normal form.
LONG = frame(0x82, b"*" * 4_200)
LONG_TEXT = frame(0x81, b"*" * 4_200)
BLOCKS = [b"\x89\x00", LONG, b"\x8a\x01A", LONG_TEXT]


def decided_by(line):
    """After how many bytes the line of a refusal is the answer, whatever follows."""
    return int(line.split()[1]) + 1 if line.startswith("refused ") else END


def of_plans():
    for role, options, given, plan, error in PLANS:
        yield Row(f"plan of {given}", ["plan", "--role", role, *options], given, [(END, plan)], 1 if error else 0, error,
                  decided_by(error))  # fmt: skip


def of_recuts():
    """Nothing is due before the whole stream is read and the plan checked."""
    by_plans = [*FITTING, *[(*it[:4], b"", it[4]) for it in UNFIT]]
    for role, options, given, plan, out, *error in by_plans:
        words = ["recut", "--role", role, *options, "--plan", "PLAN"]
        yield recut_of(words, given, out, "".join(error), {"PLAN": plan.encode()})
    for role, options, given, out, error in SIZED:
        yield recut_of(["recut", "--role", role, *options], given, out, error, {})


def recut_of(words, given, out, error, files, by_turns=False):
    name = f"{' '.join(words)} of {given} by {files}"
    return Row(name, words, given, [(END, out)], 1 if error else 0, error, decided_by(error), files, by_turns=by_turns)


def step_of(line):
    """The step of a frame, given the line that `frames` prints of it."""
    _, end, kind, key, length, *form = line.split()
    if kind in ("ping", "pong", "close"):
        return f"control {key}\n"
    return " ".join([*(["last"] if end == "fin" else ["piece", length]), key, *form]) + "\n"


def events_of(normal):
    """The frames of a normal form: the first byte, the key and the payload."""
    while normal:
        size = {126: 4, 127: 10}.get(normal[1] & 127, 2)
        length = int.from_bytes(normal[2:size], "big") if size > 2 else normal[1] & 127
        key = normal[size:size + 4] if normal[1] & 128 else b""
        size += len(key)
        yield normal[0], key, normal[size:size + length]
        normal = normal[size + length:]


def in_pairs(normal):
    """The same events with at most two bytes of a message in a frame."""
    for first, key, payload in events_of(normal):
        parts = [payload] if first & 8 else [payload[at:at + 2] for at in range(0, len(payload), 2)] or [b""]
        for at, part in enumerate(parts):
            opcode = 0 if at else first & 15
            yield frame(opcode | (0x80 if at + 1 == len(parts) else 0), part, key)


def of_vectors():
    """Plans, and recuts in frames of two bytes, of the vectors that are short."""
    for it in read():
        if len(it.data) > 200:
            continue
        error = "" if it.is_accepted() else f"{it.verdict}\n"
        plan = "" if error else "".join(step_of(line) for line in it.frames.decode().splitlines())
        is_planned = it.verdict.endswith(" unfinished -")
        why = error or ("" if is_planned else "unfinished\n")
        yield Row(f"plan {it.name}", it.words("plan"), it.data, [(END, plan if is_planned else "")], 1 if why else 0, why,
                  decided_by(error), by_turns=True)  # fmt: skip
        if "--frames" not in it.options:
            out = b"" if error else b"".join(in_pairs(it.normal))
            yield recut_of(it.words("recut", "--size", "2"), it.data, out, error, {}, by_turns=True)


def of_texts():
    server = ["judge", "--role", "server"]
    for data, verdict in [*verdicts_of_texts(), *list(verdicts_of_a_long_text())[1:3]]:
        status = 0 if verdict.startswith("accepted") else 1
        yield Row(f"judge {data}", server, data, [(END, verdict)], status, "", decided_by(verdict), by_turns=True)


def of_masks():
    """Each length, from each offset in the key, since reads end anywhere."""
    given, normal = masked_messages()
    frames = list(events_of(given))
    pieces, count = [], 0
    for (first, _, payload), (_, key, plain) in zip(frames, events_of(normal)):
        count += len(frame(first, payload, b"key!"))
        pieces.append((count, frame(first, plain, key)))
    yield Row("normal: each length of a masked payload", ["normal", "--role", "client"], given, pieces,
              by_turns=True)  # fmt: skip


def of_blocks():
    ends = [sum(len(it) for it in BLOCKS[:at + 1]) for at in range(len(BLOCKS))]
    yield Row("normal: events in several blocks", ["normal", "--role", "server"], b"".join(BLOCKS), list(zip(ends, BLOCKS)))


def of_plan_files():
    """A plan on standard input, of which each read fails."""
    words = ["recut", "--role", "server", "--plan", "-", "STREAM"]
    yield Row("recut: the plan is standard input", words, PLAN.encode(), [(END, FRAGMENTS)], files={"STREAM": NORMAL},
              read_failed="cannot read -\n")  # fmt: skip


ROWS = [*of_plans(), *of_recuts(), *of_vectors(), *of_texts(), *of_masks(), *of_blocks(), *of_plan_files()]
