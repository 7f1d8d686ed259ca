"""Tables of payloads: texts and codes that are accepted or refused, masked bytes, and what `wsn payload` writes (printed.py
makes tests of them).
"""
# Bytes of a text in hexadecimal, the index of the first bad one, and whether they are UTF-8. In order: bytes that begin no
# character; second, third and fourth bytes that continue none; ends inside a character; the bounds of each row of RFC
# 3629's table.
TEXTS = (
    ("c080", 0, False),
    ("80", 0, False),
    ("c1", 0, False),
    ("f5", 0, False),
    ("41ff", 1, False),
    ("e228", 1, False),
    ("eda080", 1, False),
    ("e09fbf", 1, False),
    ("f08f", 1, False),
    ("f4908080", 1, False),
    ("e28228", 2, False),
    ("f18080c0", 3, False),
    ("e282", None, False),
    ("f48fbf", None, False),
    ("", None, True),
    ("007f", None, True),
    ("c280dfbf", None, True),
    ("e0a080e18080ecbfbf", None, True),
    ("ed8080ed9fbf", None, True),
    ("ee8080efbfbf", None, True),
    ("f0908080f3bfbfbf", None, True),
    ("f4808080f48fbfbf", None, True),
)

# The first and the last code of a range, and whether a Close may carry them.
CODES = (
    (0, 999, False),
    (1000, 1003, True),
    (1004, 1006, False),
    (1007, 1011, True),
    (1012, 1014, True),
    (1015, 2999, False),
    (3000, 4999, True),
    (5000, 65_535, False),
)

# The reason of a Close 1000 in hexadecimal, and the line of the verdict.
REASONS = (
    ("e282ac", "accepted 7 tail 0 unfinished -\n"),
    ("e282", "refused 5 close-reason 1007\n"),
    ("61" * 123, "accepted 127 tail 0 unfinished -\n"),
)

# A server's text "Hello" in two fragments, at 0, with a ping "ab" between them, at 5; a refused text at 13.
SERVER = b"\x01\x03Hel\x89\x02ab\x80\x02lo\x81\x03G\xfcn"
# A client's masked text "Hello".
CLIENT = bytes.fromhex("818537fa213d7f9f4d5158")
# The endpoint, what it sent, an offset, the status, the payload, and the line on standard error.
PAYLOADS = (
    ("server", SERVER, 0, 0, b"Hello", ""),
    ("server", SERVER, 5, 0, b"ab", ""),
    ("client", CLIENT, 0, 0, b"Hello", ""),
    ("server", SERVER[:11], 0, 1, b"Hel", "cut 11\n"),
    ("server", SERVER, 13, 1, b"G\xfc", "refused 16 text-bad 1007\n"),
    ("server", SERVER, 9, 2, b"", "nothing begins at 9; it is in the text at 0\n"),
    ("server", SERVER, 6, 2, b"", "nothing begins at 6; it is in the ping at 5\n"),
    ("client", CLIENT, 11, 2, b"", "nothing begins at 11: accepted 11 tail 0 unfinished -\n"),
    ("server", SERVER[:10], 9, 2, b"", "nothing begins at 9 but a head: cut 10\n"),
    ("server", CLIENT, 1, 2, b"", "nothing begins at 1; it is in the head at 0: refused 1 mask-present 1002\n"),
    ("server", CLIENT, 2, 2, b"", "nothing begins at 2: refused 1 mask-present 1002\n"),
)

# What a server sent, and the verdicts after no byte of it, after one, after two and so on.
VERDICTS = (
    ("01014189008001" "42", ["accepted 0 tail 0 unfinished -", *[f"cut {it}" for it in range(1, 8)],
                             "accepted 8 tail 0 unfinished -"]),
    ("8900f0", ["accepted 0 tail 0 unfinished -", "cut 1", "accepted 2 tail 0 unfinished -",
                "refused 2 reserved-bits 1002"]),
    ("88008800", ["accepted 0 tail 0 unfinished -", "cut 1", "accepted 2 tail 0 unfinished -",
                  "accepted 2 tail 1 unfinished -", "accepted 2 tail 2 unfinished -"]),
)
KEY = bytes.fromhex("37fa213d")


def frame(first, payload, key=b""):
    """A frame of this first byte; masked if there is a key."""
    size, mask = len(payload), 0x80 if key else 0
    sizes = bytes([mask + size]) if size < 126 else bytes([mask + 126, size >> 8, size & 255])
    masked = bytes(byte ^ key[at % 4] for at, byte in enumerate(payload)) if key else payload
    return bytes([first]) + sizes + key + masked


def fragments(text):
    """A text whose bytes are each in a frame."""
    frames = [bytes([0 if at else 1, 1, byte]) for at, byte in enumerate(text)]
    return b"".join(frames[:-1]) + bytes([frames[-1][0] | 0x80]) + frames[-1][1:]


def verdicts_of_texts():
    """Streams of a server, and the verdicts: each text in one frame, with each byte in a frame, and as a Close's reason."""
    for digits, bad, is_whole in TEXTS:
        text = bytes.fromhex(digits)
        forms = [(frame(0x81, text), lambda at: 2 + at, "text-bad", "text-cut"),
                 (frame(0x88, b"\x03\xe8" + text), lambda at: 4 + at, "close-reason", "close-reason")]
        if text:
            forms.append((fragments(text), lambda at: 3 * at + 2, "text-bad", "text-cut"))
        for data, offset_of, word, word_at_the_end in forms:
            if is_whole:
                yield data, f"accepted {len(data)} tail 0 unfinished -\n"
            elif bad is None:
                yield data, f"refused {len(data) - 1} {word_at_the_end} 1007\n"
            else:
                yield data, f"refused {offset_of(bad)} {word} 1007\n"


def verdicts_of_a_long_text():
    """A text that is longer than a vector register, in two fragments that end anywhere in its characters; and one whose last
    byte is bad."""
    text = "aé€😀".encode() * 50
    data = b"".join(frame(0x01, text[:it]) + frame(0x80, text[it:]) for it in range(len(text) + 1))
    yield data, f"accepted {len(data)} tail 0 unfinished -\n"
    for it in range(0, len(text) + 1, 7):
        data = frame(0x01, text[:it]) + frame(0x80, text[it:] + b"\xff")
        yield data, f"refused {len(data) - 1} text-bad 1007\n"


def verdicts_of_codes():
    for first, last, is_allowed in CODES:
        for code in (first, last):
            data = b"\x88\x02" + code.to_bytes(2, "big")
            yield data, "accepted 4 tail 0 unfinished -\n" if is_allowed else "refused 3 close-code 1002\n"
    for digits, verdict in REASONS:
        yield frame(0x88, b"\x03\xe8" + bytes.fromhex(digits)), verdict


def verdicts_after_each_byte():
    for digits, lines in VERDICTS:
        data = bytes.fromhex(digits)
        assert len(lines) == len(data) + 1
        for count, line in enumerate(lines):
            yield data[:count], f"{line}\n"


def masked_messages():
    """A client's binary messages of each length around some multiples of a vector register's, and their normal form."""
    payloads = [bytes(at * 7 % 256 for at in range(size)) for size in range(132)]
    return b"".join(frame(0x82, it, KEY) for it in payloads), b"".join(frame(0x82, it, bytes(4)) for it in payloads)
