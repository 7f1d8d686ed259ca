"""What `wsn show --layout people` prints, worked out from the lines that `wsn show` prints.

for_people(lines, in_stream) gives the lines of entries; in_stream is whether they are of one stream, with --role.
meaning(lines, explained) gives the lines that follow the report in these; explained gives what the program explains of a
reason.
"""
import re

SIDES = {"C": "client \u2192 ", "S": "server \u2192 "}
ENTRY = re.compile(r"([CS]) (\S+) ([0-9]+) (.*)", re.DOTALL)
QUOTED = re.compile(r'"((?:[^"\\]|\\.)*)"', re.DOTALL)
LENGTHS = {"two": ", length in two bytes", "eight": ", length in eight bytes"}
LACKS = {"-": ", next head incomplete", "0": ", more to come", "1": ", 1 byte missing"}


def plain(inner):
    """The inside of a quoted text without the backslashes before quotation marks."""
    return re.sub(r'\\(["\\])', lambda found: '"' if found[1] == '"' else "\\\\", inner)


def view_of(view):
    return QUOTED.sub(lambda found: plain(found[1]), view, count=1)


def columns(word, size):
    return f"{word:<10} {size:>5}"


def frames_of(count):
    return f"  in {count} frames" if int(count) > 1 else ""


def bad_character(place, digits, text):
    at = f"at {place} of the payload"
    if digits == "-":
        return f"bad character {at}"
    dots, inner = text.split('"', 1)
    inner = inner[: -1 - 2 * len(digits)]
    return f'bad character {digits} {at}, after {dots}"{plain(inner)}"'


def entry(rest):
    """What follows the offset."""
    word, *fields = rest.split(" ", 1)
    if word == "end":
        return "end"
    if word in ("fin", "more"):
        kind, key, length, *form = fields[0].split()
        last = "final" if word == "fin" else "more to come"
        mask = "unmasked" if key == "-" else f"masked with {key}"
        return f"{columns(kind, length)}  {last}, {mask}{''.join(LENGTHS[it] for it in form)}"
    if word == "refused":
        place, reason, code, seen = fields[0].split(" ")
        after = "" if seen == "-" else f"  {seen}"
        return f"{word:<10}{reason} at {place}: a peer should close with {code}{after}"
    if word == "unfinished":
        kind, size, frames, _, count, view = fields[0].split(" ", 5)
        lacks = LACKS.get(count, f", {count} bytes missing")
        return f"{columns(word, size)}  {kind}{frames_of(frames)}{lacks}  {view_of(view)}"
    if word in ("unread", "tail"):
        size, view = fields[0].split(" ", 1)
        return f"{columns(word, size)}  {view}"
    size, frames, view = fields[0].split(" ", 2)
    return f"{columns(word, size)}{frames_of(frames)}  {view_of(view)}"


def for_people(lines, in_stream=False):
    out = []
    for line in lines:
        found = ENTRY.fullmatch(line)
        if not found:
            out.append(line)
            continue
        side, time, offset, rest = found.groups()
        word, *fields = rest.split(" ", 3)
        if word == "bad-character":
            out.append(" " * 32 + bad_character(*fields))
        else:
            out.append(SIDES[side] + ("" if in_stream else f"{time:>10}") + f" {offset:>10}  " + entry(rest))
    return out


PEERS = {"client": "server", "server": "client"}
ENDS = {"ended": "ended between two messages", "cut": "ended inside a frame or a message"}
CLOSINGS = {"clean": "Both directions then ended.", "complete": "The capture lacks the end of a direction."}


def with_code(code):
    return "without a code" if code == "-" else f"with code {code}"


def first_sentence(explanation):
    """The first sentence of an explanation, after the word and the code."""
    return re.split(r"\.(?=\s+[A-Z0-9])", explanation)[0].replace("\n", " ").partition(": ")[2]


def refused(side, state, explained):
    _, offset, reason, _ = state
    without = "Without an extension the" if reason == "reserved-bits" else "The"
    yield f"{without} {PEERS[side]} must refuse byte {offset} of what the {side} sent: {reason}"
    yield f"({first_sentence(explained(reason))})."


def failed(states, explained):
    if states["client"][:3] == ["refused", "1", "mask-missing"] and states["server"][:3] == ["refused", "1", "mask-present"]:
        return ["The client's first frame has no masking key and the server's has one, as if each were the other's.",
                "Next: sed 's/^C/X/; s/^S/C/; s/^X/S/' CAPTURE > right.capture"]  # fmt: skip
    sides = [side for side in PEERS if states[side][0] == "refused"]
    reason = states[sides[0]][2]
    inflate = "recipes/inflate CAPTURE > inflated.capture, or " if reason == "reserved-bits" else ""
    said = [line for side in sides for line in refused(side, states[side], explained)]
    return [*said, f"Next: {inflate}wsn explain {reason}"]


def ended(side, state):
    if state[0] in ENDS:
        return [f"The {side}'s direction {ENDS[state[0]]}, without a Close."]
    return [f"The {side} sent a Close {with_code(state[1])}."] if state[0] == "closed" else []


def meaning(lines, explained):
    report = dict(line.split(" ", 1) for line in lines if line.split(" ")[0] in ("client", "server", "first", "echo", "outcome"))
    states, outcome, first = {side: report[side].split(" ") for side in PEERS}, report["outcome"], report["first"]
    if outcome == "failed":
        return failed(states, explained)
    if outcome in CLOSINGS:
        second = PEERS[first]
        answer = "with the same" if report["echo"] == "yes" else with_code(states[second][1])
        closed = f"The {first} closed first, {with_code(states[first][1])}, and the {second} answered {answer}."
        return [closed, CLOSINGS[outcome]]
    if outcome == "abnormal":
        word = "cut" if ["cut"] in states.values() else "abnormal"
        return [*(line for side in PEERS for line in ended(side, states[side])), f"Next: wsn explain {word}"]
    if outcome == "half":
        sent = f"The {first} sent a Close {with_code(states[first][1])}"
        return [f"{sent}; no answer of the {PEERS[first]} is in the capture.", "Next: wsn explain half"]
    return ["Nothing is wrong so far: no side has closed, and no direction has ended.", "Next: wsn explain open"]
