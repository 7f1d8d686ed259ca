"""What `wsn show` prints of a capture, worked out from what `frames` lists of each side's bytes.

shown(text, view, frames_of, wire) gives the lines before the report; frames_of(role, data) gives the lines of `wsn frames`
for the bytes of a side, "client" or "server". shown_stream(letter, data, lines, view, wire) does so for one stream. With
wire, frames are shown in place of events. view is a number of bytes; WHOLE stands for `--view all`.
"""
import re

WHOLE = 33_554_432

HIDDEN = re.compile(
    "[\x00-\x1f\x7f-\x9f\xad\u034f\u061c\u115f\u1160\u17b4\u17b5\u180e\u200b\u200e\u200f\u2028-\u202e\u2060-\u206f\u3164\ufeff\uffa0\ufff0-\ufff8"
    "\U0001bca0-\U0001bca3\U0001d173-\U0001d17a\U000e0000-\U000e00ff\U000e01f0-\U000e0fff]"
)
TIME = re.compile(r"# ((?:0|[1-9][0-9]*)\.[0-9]{1,9})")
DATA = ("text", "binary", "cont")


def escape(character):
    """A character by its number: beyond U+FFFF by its two surrogates."""
    units = character.encode("utf-16-be").hex()
    return "".join(f"\\u{units[at:at + 4]}" for at in range(0, len(units), 4))


def escaped(text):
    return HIDDEN.sub(lambda found: escape(found[0]), text)


def quoted(data):
    text = data.decode().replace("\\", "\\\\").replace('"', '\\"')
    return f'"{escaped(text)}"'


def view_word(view):
    """The value of --view."""
    return "all" if view == WHOLE else str(view)


def short(view):
    """The view of what is no event: at most 4,096 bytes."""
    return min(view, 4_096)


def hexadecimal(data, view):
    if view == 0:
        return "-"
    shown = data[:view // 2]
    return (shown.hex() or "-") + (" .." if len(shown) < len(data) else "")


def whole_characters(data):
    for count in range(len(data), -1, -1):
        try:
            data[:count].decode()
            return count
        except UnicodeDecodeError:
            pass


def text_view(data, view):
    if view == 0 and data:
        return "-"
    count = whole_characters(data[:view])
    return quoted(data[:count]) + (" .." if count < len(data) else "")


def event_view(kind, data, view):
    if kind == "text":
        return text_view(data, view)
    if kind == "close":
        if view == 0 or not data:
            return "-"
        reason = f" {quoted(data[2:])}" if data[2:] else ""
        return f"{int.from_bytes(data[:2], 'big')}{reason}"
    if kind in ("ping", "pong") and all(0x20 <= byte <= 0x7e for byte in data):
        return text_view(data, view)
    return hexadecimal(data, view)


def unfinished_view(kind, data, view):
    return text_view(data, view) if kind == "text" else hexadecimal(data, view)


class Open:
    """The message that is open: its kind, its offset, its payload so far and how many of its frames have begun."""

    def __init__(self, kind, offset):
        self.kind, self.offset, self.data, self.frames = kind, offset, b"", 0
        self.places = []  # The offset of each byte.

    def add(self, frame):
        self.data += frame.data
        self.frames += 1
        self.places += range(frame.payload_at, frame.payload_at + len(frame.data))

    def line(self, lacks, view):
        shown = unfinished_view(self.kind, self.data, view)
        return f"{self.offset} unfinished {self.kind} {len(self.data)} {self.frames} lacks {lacks} {shown}"


class Frame:
    """A listed frame and the bytes of it that came."""

    def __init__(self, line, data):
        offset, end, self.kind, key, length, *form = line.split()
        self.offset, self.length, self.final = int(offset), int(length), end == "fin"
        sizes = {"two": 2, "eight": 8}
        more = sizes[form[0]] if form else 0 if self.length < 126 else 2 if self.length < 65536 else 8
        self.payload_at = self.offset + 2 + more + (0 if key == "-" else 4)
        self.key = bytes(4) if key == "-" else bytes.fromhex(key)
        self.end = self.payload_at + self.length
        self.data = self.unmasked(data[self.payload_at:self.end])

    def unmasked(self, data):
        return bytes(byte ^ self.key[at % 4] for at, byte in enumerate(data))


def stream_items(data, lines, view, wire):
    """What is shown of a stream, as pairs of how many bytes it takes and the entry without its side and time; and the
    entries for what is left over."""
    *heads, verdict = lines
    verdict = verdict.split()
    refused_at = int(verdict[1]) if verdict[0] == "refused" else None
    whole = len(data) if refused_at is None else refused_at
    items, heads_shown, message, at, part = [], [], None, 0, None
    for line in heads:
        frame = Frame(line, data)
        heads_shown.append((frame.payload_at, line))
        if frame.end > whole:
            part = frame
            break
        at = frame.end
        if frame.kind in DATA:
            if frame.kind != "cont":
                message = Open(frame.kind, frame.offset)
            message.add(frame)
            if frame.final:
                shown = event_view(message.kind, message.data, view)
                items.append((at, f"{message.offset} {message.kind} {len(message.data)} {message.frames} {shown}"))
                message = None
        else:
            if frame.kind == "close" and message:
                items.append((at, message.line(0, view)))
                message = None
            shown = event_view(frame.kind, frame.data, view)
            items.append((at, f"{frame.offset} {frame.kind} {frame.length} 1 {shown}"))
    if wire:
        items = heads_shown
    if refused_at is not None:
        if message and not wire:
            items.append((refused_at + 1, message.line(0, view)))
        seen = data[at:refused_at + 1]
        if part and part.payload_at <= refused_at:
            seen = part.unmasked(data[part.payload_at:refused_at + 1])
        count = min(short(view) // 2, len(seen))
        shown = "-" if view == 0 else (".." if count < len(seen) else "") + seen[len(seen) - count:].hex()
        items.append((refused_at + 1, f"{at} {' '.join(verdict)} {shown}"))
        if verdict[2] == "text-bad":
            items.append((refused_at + 1, bad_character(message if part.kind == "cont" else None, part, seen, view)))
        return items, bytes_left("unread", refused_at + 1, data, view)
    if verdict[0] == "accepted":
        return items, bytes_left("tail", at, data, view)
    return items, part_left(message, part, at, data, view)


def bad_character(message, part, seen, view):
    """The bad character of a text whose last frame is refused after these bytes: what follows its whole characters."""
    data, places = (message.data, message.places) if message else (b"", [])
    data, places = data + seen, [*places, *range(part.payload_at, part.payload_at + len(seen))]
    count = whole_characters(data)
    kept = data[:len(data) - len(seen)][-48:] + seen
    return f"{places[count]} bad-character {count} {character_view(data[count:], kept, count, view)}"


def character_view(bad, kept, count, view):
    """The bytes of a bad character, and the end of what is kept of the message before it, from the first byte of a character
    on. Before it the message has so many bytes."""
    if view == 0:
        return "- -"
    before = kept[max(0, len(kept) - short(view) // 2):max(0, len(kept) - len(bad))]
    while before and 0x80 <= before[0] <= 0xbf:
        before = before[1:]
    before = before[:whole_characters(before)]
    more = ".." if len(before) < count else ""
    return f"{bad.hex()} {more}{quoted(before)[:-1]}" + "".join(f"\\x{byte:02x}" for byte in bad) + '"'


def bytes_left(word, at, data, view):
    return [f"{at} {word} {len(data) - at} {hexadecimal(data[at:], short(view))}"] if at < len(data) else []


def part_left(message, part, at, data, view):
    if part and part.kind in DATA:
        message = message if part.kind == "cont" else Open(part.kind, part.offset)
        message.add(part)
        return [message.line(part.length - len(part.data), view)]
    left = []
    if message:
        left.append(message.line("-" if at < len(data) and not part else 0, view))
    if part:
        shown = unfinished_view(part.kind, part.data, view)
        lacks = part.length - len(part.data)
        left.append(f"{part.offset} unfinished {part.kind} {len(part.data)} 1 lacks {lacks} {shown}")
    elif at < len(data) and not message:
        left.append(f"{at} unfinished head 0 0 lacks - -")
    return left


def shown_stream(letter, data, lines, view, wire=False):
    """The lines of `wsn show --role`."""
    items, left = stream_items(data, lines, view, wire)
    left = [] if lines[-1].startswith("refused") else left
    return [f"{letter} - {entry}" for _, entry in items] + [f"{letter} - {entry}" for entry in left] + lines[-1:]


def comment(line):
    """A comment as it is printed, given its bytes: escapes, and each backslash of its own doubled."""
    doubled = line.replace(b"\\", b"\\\\")
    try:
        return escaped(doubled.decode())
    except UnicodeDecodeError:
        return "".join(chr(byte) if 0x20 <= byte <= 0x7e else f"\\x{byte:02x}" for byte in doubled)


def shown(text, view, frames_of, wire=False):
    """The lines of `wsn show` before the report, for a capture whose lines are accepted."""
    lines = [line[:-1] if line.endswith(b"\r") else line for line in text.split(b"\n")]
    sides = {}
    for letter, role in (("C", "client"), ("S", "server")):
        data = b"".join(bytes.fromhex(line[2:].decode()) for line in lines if line.startswith(f"{letter} ".encode()))
        listed = frames_of(role, data)
        sides[letter] = (data, *stream_items(data, listed, view, wire), listed)
    out, time, came, ended = [], "-", {"C": 0, "S": 0}, set()
    last = {"C": "-", "S": "-"}  # The time of the last bytes.
    for line in lines:
        letter = line[:1].decode("latin-1")
        if line.startswith(b"#"):
            found = TIME.fullmatch(line.decode("latin-1"))
            time = found[1] if found else time
            out += [] if found else [comment(line)]
        elif line[1:2] == b".":
            data, _, left, _ = sides[letter]
            out += [f"{letter} {time} {entry}" for entry in left] + [f"{letter} {time} {len(data)} end"]
            ended.add(letter)
        elif line:
            before, came[letter] = came[letter], came[letter] + (len(line) - 2) // 2
            last[letter] = time
            out += [f"{letter} {time} {entry}" for after, entry in sides[letter][1] if before < after <= came[letter]]
    for letter in ("C", "S"):
        out += [f"{letter} {last[letter]} {entry}" for entry in sides[letter][2] if letter not in ended]
    return out + ended_by(lines, [letter for letter in "CS" if letter in ended and is_unclosed(sides[letter][3])])


def is_unclosed(listed):
    """Whether a stream with these lines of `frames` has no Close and isn't refused."""
    return listed[-1].startswith("cut") or (listed[-1].startswith("accepted") and " close " not in "".join(listed[-2:-1]))


def ended_by(lines, early):
    """Who ended the connection, if a side ended without a Close."""
    if not early:
        return []
    side = next({b"C.": "client", b"S.": "server"}[line] for line in lines if line in (b"C.", b"S."))
    return [f"ended-by {side}" + (" reset" if f"# reset by the {side}".encode() in lines else "")]
