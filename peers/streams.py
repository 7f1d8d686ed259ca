"""The streams that the peers are given: what one endpoint sends after the handshake, each with a name in words.

A stream is made for a role: a client's frames are masked, a server's aren't. Whether it is accepted isn't said here:
`wsn judge` says it.
"""
import random
import struct

CONTINUE, TEXT, BINARY, CLOSE, PING, PONG = 0, 1, 2, 8, 9, 10
SEED = 6455
RANDOM_STREAMS = 60
# From this size on a payload of one or two byte values has a key of zeros, so that a short command can repeat it.
LONG = 120


def key_of(index, payload):
    """The key of a client's frame: another for each frame."""
    is_simple = len(payload) >= LONG and len(set(payload)) <= 2
    return bytes(4) if is_simple else struct.pack(">I", (0x37FA213D + index * 0x1D4B6A97) % 2**32)


def masked(key, payload):
    if not any(key):
        return payload
    return bytes(byte ^ key[index % 4] for index, byte in enumerate(payload))


def length_bytes(length, form):
    """The length field, without the bit MASK, and the length's bytes after it."""
    if form is None:
        form = 1 if length <= 125 else 2 if length <= 65535 else 8
    return {1: (length, b""), 2: (126, struct.pack(">H", length % 2**16)), 8: (127, struct.pack(">Q", length))}[form]


class Frame:
    """A frame. `form` is the number of bytes of its length, 1, 2 or 8, or None for the shortest; `length` is the
    length that the head gives, or None for the payload's; `mask` is None for a mask as the role requires it."""

    def __init__(self, opcode, payload=b"", fin=True, bits=0, form=None, length=None, mask=None):
        self.first = (0x80 if fin else 0) | bits << 4 | opcode
        self.payload = payload.encode() if isinstance(payload, str) else payload
        self.form, self.length, self.mask = form, length, mask

    def wire(self, role, index):
        field, length = length_bytes(len(self.payload) if self.length is None else self.length, self.form)
        if not (role == "client" if self.mask is None else self.mask):
            return bytes([self.first, field]) + length + self.payload
        key = key_of(index, self.payload)
        return bytes([self.first, 0x80 | field]) + length + key + masked(key, self.payload)


class Stream:
    """Frames, or bytes as they are, under a name; for one role or for both."""

    def __init__(self, name, *parts, role=None):
        self.name, self.parts, self.role = name, parts, role

    def wire(self, role):
        parts = enumerate(self.parts)
        return b"".join(part if isinstance(part, bytes) else part.wire(role, index) for index, part in parts)


def text(payload="", **more):
    return Frame(TEXT, payload, **more)


def binary(payload=b"", **more):
    return Frame(BINARY, payload, **more)


def rest(payload="", **more):
    """A continuation, final unless it is said."""
    return Frame(CONTINUE, payload, **more)


def ping(payload="", **more):
    return Frame(PING, payload, **more)


def pong(payload="", **more):
    return Frame(PONG, payload, **more)


def close(code=None, reason="", **more):
    reason = reason.encode() if isinstance(reason, str) else reason
    return Frame(CLOSE, b"" if code is None else struct.pack(">H", code) + reason, **more)


def begun(payload="", opcode=TEXT, **more):
    """A fragment that isn't the last one."""
    return Frame(opcode, payload, fin=False, **more)


def messages():
    yield Stream("a text", text("Hello"))
    yield Stream("an empty text", text())
    yield Stream("an empty binary message", binary())
    yield Stream("a text with each length of UTF-8 character", text("z\u00fc\u20ac\U0001d11e"))
    yield Stream("a text of the byte 0", text("\0"))
    yield Stream("a binary message of all bytes", binary(bytes(range(256))))
    yield Stream("two messages at once", text("one"), binary(b"two"))
    for size in (125, 126, 127):
        yield Stream(f"a text of {size} bytes", text("a" * size))
        yield Stream(f"a binary message of {size} bytes", binary(b"a" * size))
    for size in (65535, 65536):
        yield Stream(f"a text of {size:,} bytes", text("a" * size))
        yield Stream(f"a binary message of {size:,} bytes", binary(b"a" * size))


def fragments():
    yield Stream("a text in two fragments", begun("Hel"), rest("lo"))
    yield Stream("a binary message in three fragments", begun(b"\xff", BINARY), begun(b"\xfe", 0), rest(b"\xfd"))
    yield Stream("a text in fragments of one byte, inside characters", begun(b"\xc3"),
                 *[begun(bytes([byte]), 0) for byte in b"\xbc\xe2\x82\xac"], rest())
    yield Stream("a character of four bytes in four fragments", begun(b"\xf0"), begun(b"\x9d", 0),
                 begun(b"\x84", 0), rest(b"\x9e"))
    yield Stream("a text that begins with an empty fragment", begun(), rest("Hello"))
    yield Stream("a text that ends with an empty fragment", begun("Hello"), rest())
    yield Stream("a text with an empty fragment in its middle", begun("Hel"), begun("", 0), rest("lo"))
    yield Stream("a text with an empty fragment inside a character", begun(b"\xc3"), begun("", 0), rest(b"\xbc"))
    yield Stream("an empty text in three fragments", begun(), begun("", 0), rest())
    yield Stream("an empty binary message in two fragments", begun(b"", BINARY), rest())
    yield Stream("a fragmented text, then another", begun("one"), rest("1"), begun("two"), rest("2"))
    yield Stream("a hundred fragments", begun("a"), *[begun("b", 0) for _ in range(98)], rest("c"))
    yield Stream("fragments of 125, 126 and 65,536 bytes", begun(b"a" * 125, BINARY), begun(b"a" * 126, 0),
                 rest(b"a" * 65536))
    yield Stream("a ping between two fragments", begun("Hel"), ping("p"), rest("lo"))
    yield Stream("a ping between two fragments, inside a character", begun(b"\xc3"), ping("p"), rest(b"\xbc"))
    yield Stream("a pong between two fragments", begun("Hel"), pong("p"), rest("lo"))
    yield Stream("pings before, between and after fragments", ping("1"), begun("Hel"), ping("2"), ping("3"), rest("lo"),
                 ping("4"))


def controls():
    yield Stream("a ping", ping("are you there?"))
    yield Stream("an empty ping", ping())
    yield Stream("a ping of 125 bytes", ping("a" * 125))
    yield Stream("a ping of bytes that aren't UTF-8", ping(b"\xff\x00\xfc"))
    yield Stream("ten pings in a row", *[ping(str(number)) for number in range(10)])
    yield Stream("a pong that nothing asked for", pong("unasked"), text("after it"))
    yield Stream("an empty pong", pong(), text("after it"))
    yield Stream("a pong of 125 bytes", pong("a" * 125), text("after it"))


def closes():
    yield Stream("a Close without a code", close())
    yield Stream("a Close with a code", close(1000))
    yield Stream("a Close with a code and a reason", close(1000, "bye"))
    yield Stream("a Close of 125 bytes", close(1000, "a" * 123))
    yield Stream("a Close with a reason beyond ASCII", close(1000, "z\u00fc\u20ac\U0001d11e"))
    for code in (1001, 1002, 1003, 1007, 1008, 1009, 1010, 1011, 1012, 1013, 1014, 3000, 3999, 4000, 4999):
        yield Stream(f"a Close with the code {code}", close(code))
    for code in (0, 1, 999, 1004, 1005, 1006, 1015, 1016, 1999, 2000, 2999, 5000, 65535):
        yield Stream(f"a Close with the code {code}", close(code))
    yield Stream("a Close of one byte", Frame(CLOSE, b"\x03"))
    yield Stream("a Close of one byte after a text", text("Hello"), Frame(CLOSE, b"\x03"))
    yield Stream("a Close inside a message", begun("Hel"), close(1000))
    yield Stream("a Close inside a character", begun(b"\xc3"), close(1000))
    yield Stream("a text, then a Close", text("Hello"), close(1000))
    yield Stream("a text after a Close", close(1000), text("too late"))
    yield Stream("a ping after a Close", close(1000), ping("too late"))
    yield Stream("a second Close after a Close", close(1000), close(1001))
    yield Stream("bytes that are no frame after a Close", close(1000), b"\xff\xff\xff\xff")
    yield Stream("a Close whose reason has Latin-1's \u00fc", close(1000, b"t\xfcr"))
    yield Stream("a Close whose reason begins with a bad byte", close(1000, b"\xff"))
    yield Stream("a Close whose reason ends inside a character", close(1000, b"t\xc3"))
    yield Stream("a Close whose reason has a surrogate", close(1000, b"\xed\xa0\x80"))


def head_refusals():
    """The first byte of a frame: reserved bits and opcodes, controls without FIN."""
    for bits in (4, 2, 1, 7):
        yield Stream(f"a text with the reserved bits {bits:03b}", text("Hello", bits=bits))
    yield Stream("an empty binary message with a reserved bit", binary(bits=4))
    yield Stream("a ping with a reserved bit", ping("p", bits=4))
    yield Stream("a pong with a reserved bit", pong("p", bits=2))
    yield Stream("a Close with a reserved bit", close(1000, bits=4))
    yield Stream("a last fragment with a reserved bit", begun("Hel"), rest("lo", bits=4))
    yield Stream("a second message with a reserved bit", text("Hello"), text("again", bits=4))
    for opcode in (3, 4, 5, 6, 7, 11, 12, 13, 14, 15):
        yield Stream(f"a frame with the opcode {opcode}", Frame(opcode, "Hello"))
    yield Stream("an empty frame with the opcode 3", Frame(3))
    yield Stream("a first fragment with the opcode 3", Frame(3, "Hel", fin=False), rest("lo"))
    yield Stream("a frame with the opcode 11 between fragments", begun("Hel"), Frame(11, "x"), rest("lo"))
    yield Stream("a frame with the opcode 5 after a message", text("Hello"), Frame(5, "x"))
    yield Stream("a ping without FIN", ping("p", fin=False))
    yield Stream("a ping without FIN, and its continuation", ping("pi", fin=False), rest("ng"))
    yield Stream("a pong without FIN", pong("p", fin=False))
    yield Stream("a Close without FIN", close(1000, fin=False))
    yield Stream("a ping without FIN between fragments", begun("Hel"), ping("p", fin=False), rest("lo"))


def order_refusals():
    yield Stream("a continuation of nothing", rest("Hello"))
    yield Stream("an empty continuation of nothing", rest())
    yield Stream("a continuation of nothing, without FIN", begun("Hel", 0), rest("lo"))
    yield Stream("a continuation after a message", text("Hello"), rest("again"))
    yield Stream("a continuation after the last fragment", begun("Hel"), rest("lo"), rest("again"))
    yield Stream("a continuation after a ping", ping("p"), rest("Hello"))
    yield Stream("a text inside an unfinished text", begun("Hel"), text("Hello"))
    yield Stream("a binary message inside an unfinished text", begun("Hel"), binary(b"Hello"))
    yield Stream("a text inside an unfinished binary message", begun(b"Hel", BINARY), text("Hello"))
    yield Stream("an empty text inside an unfinished text", begun("Hel"), text())
    yield Stream("a first fragment inside an unfinished text", begun("Hel"), begun("lo"), rest("!"))
    yield Stream("a text after a ping inside an unfinished text", begun("Hel"), ping("p"), text("Hello"))


def mask_refusals():
    for role, word, mask in (("client", "without a mask", False), ("server", "with a mask", True)):
        yield Stream(f"a text {word}", text("Hello", mask=mask), role=role)
        yield Stream(f"an empty text {word}", text(mask=mask), role=role)
        yield Stream(f"a binary message {word}", binary(b"\xff", mask=mask), role=role)
        yield Stream(f"a ping {word}", ping("p", mask=mask), role=role)
        yield Stream(f"a pong {word}", pong("p", mask=mask), role=role)
        yield Stream(f"a Close {word}", close(1000, mask=mask), role=role)
        yield Stream(f"a last fragment {word}", begun("Hel"), rest("lo", mask=mask), role=role)
        yield Stream(f"a second message {word}", text("Hello"), text("again", mask=mask), role=role)
        yield Stream(f"a text of 126 bytes {word}", text("a" * 126, mask=mask), role=role)


def length_refusals():
    yield Stream("a ping of 126 bytes", ping("a" * 126))
    yield Stream("a pong of 126 bytes", pong("a" * 126))
    yield Stream("a ping of 65,536 bytes", ping("a" * 65536))
    yield Stream("a Close of 126 bytes", close(1000, "a" * 124))
    yield Stream("a ping of 125 bytes whose length has two bytes", ping("a" * 125, form=2))
    yield Stream("an empty ping whose length has two bytes", ping("", form=2))
    yield Stream("an empty ping whose length has eight bytes", ping("", form=8))
    yield Stream("a pong of 1 byte whose length has two bytes", pong("p", form=2))
    yield Stream("a Close whose length has two bytes", close(1000, form=2))
    yield Stream("a ping of 126 bytes between fragments", begun("Hel"), ping("a" * 126), rest("lo"))
    for size, form in ((0, 2), (1, 2), (125, 2), (0, 8), (125, 8), (126, 8)):
        word = {2: "two", 8: "eight"}[form]
        yield Stream(f"a text of {size} bytes whose length has {word} bytes", text("a" * size, form=form))
    yield Stream("a binary message of 65,535 bytes whose length has eight bytes", binary(b"a" * 65535, form=8))
    yield Stream("a last fragment whose length of 2 has two bytes", begun("Hel"), rest("lo", form=2))
    yield Stream("a first fragment whose length of 3 has eight bytes", begun("Hel", form=8), rest("lo"))
    yield Stream("a binary message of 2^63 bytes", binary(b"Hello", form=8, length=2**63))
    yield Stream("a text of 2^63 + 5 bytes", text("Hello", form=8, length=2**63 + 5))
    yield Stream("a text of 2^64 - 1 bytes", text("Hello", form=8, length=2**64 - 1))
    yield Stream("a last fragment of 2^63 bytes", begun("Hel"), rest("lo", form=8, length=2**63))


BAD_TEXTS = (
    ("Latin-1's \u00fc", b"gr\xfcn"),
    ("a lone continuation byte, 80", b"a\x80b"),
    ("the overlong c0 80", b"a\xc0\x80b"),
    ("the overlong c1 bf", b"a\xc1\xbfb"),
    ("the overlong e0 9f bf", b"a\xe0\x9f\xbfb"),
    ("the overlong f0 8f bf bf", b"a\xf0\x8f\xbf\xbfb"),
    ("the surrogate ed a0 80", b"a\xed\xa0\x80b"),
    ("two surrogates, ed a0 b4 ed b4 9e", b"a\xed\xa0\xb4\xed\xb4\x9eb"),
    ("a character beyond the last, f4 90 80 80", b"a\xf4\x90\x80\x80b"),
    ("the byte f5", b"a\xf5\x80\x80\x80b"),
    ("the byte fe", b"a\xfeb"),
    ("the byte ff", b"a\xffb"),
    ("two bytes of three, and an ASCII byte", b"a\xe2\x82b"),
    ("a first byte twice", b"a\xc3\xc3\xbcb"),
)
GOOD_TEXTS = (
    ("the last character of one byte, 7f", b"\x7f"),
    ("the borders of two bytes, c2 80 and df bf", b"\xc2\x80\xdf\xbf"),
    ("the first character of three bytes, e0 a0 80", b"\xe0\xa0\x80"),
    ("the character before the surrogates, ed 9f bf", b"\xed\x9f\xbf"),
    ("the character after the surrogates, ee 80 80", b"\xee\x80\x80"),
    ("the characters fffe and ffff", b"\xef\xbf\xbe\xef\xbf\xbf"),
    ("the first character of four bytes, f0 90 80 80", b"\xf0\x90\x80\x80"),
    ("the last character, f4 8f bf bf", b"\xf4\x8f\xbf\xbf"),
    ("a byte order mark before it", b"\xef\xbb\xbfHello"),
)


def texts():
    for name, payload in GOOD_TEXTS:
        yield Stream(f"a text with {name}", text(payload))
    for name, payload in BAD_TEXTS:
        yield Stream(f"a text with {name}", text(payload))
    yield Stream("a binary message that isn't UTF-8", binary(b"a\xffb"))
    yield Stream("a text of 300 bytes whose byte 10 is bad", text(b"a" * 10 + b"\xff" + b"a" * 289))
    yield Stream("a text of 300 bytes whose last byte is bad", text(b"a" * 299 + b"\xff"))
    yield Stream("a text of 65,536 bytes whose byte 10 is bad", text(b"a" * 10 + b"\xff" + b"a" * 65525))
    yield Stream("a bad byte in the first fragment", begun(b"a\xffb"), begun("cd", 0), rest("ef"))
    yield Stream("a bad byte in the second fragment", begun("ab"), begun(b"c\xffd", 0), rest("ef"))
    yield Stream("a bad byte in the last fragment", begun("ab"), begun("cd", 0), rest(b"e\xfff"))
    yield Stream("a character that the next fragment doesn't continue", begun(b"a\xc3"), rest("bc"))
    yield Stream("a surrogate in two fragments", begun(b"a\xed"), begun(b"\xa0", 0), rest(b"\x80"))
    yield Stream("an overlong form in two fragments", begun(b"a\xe0"), rest(b"\x80\x80"))
    yield Stream("a bad byte, then a ping, then the last fragment", begun(b"a\xff"), ping("p"), rest("b"))
    for size, part in ((1, b"\xc3"), (1, b"\xe2"), (2, b"\xe2\x82"), (1, b"\xf0"), (3, b"\xf0\x9d\x84")):
        yield Stream(f"a text that ends after {part.hex(' ')}", text(b"Hello" + part))
    yield Stream("a text cut inside a character by its last fragment", begun("Hel"), rest(b"lo\xc3"))
    yield Stream("a text cut inside a character by an empty last fragment", begun(b"Hello\xc3"), rest())
    yield Stream("a text cut inside a character after a ping", begun(b"Hello\xe2\x82"), ping("p"), rest())


def cuts():
    """Streams that end inside a frame or a message, and then the connection."""
    yield Stream("one byte of a frame", b"\x81")
    yield Stream("a text without its last byte", text("Hell", length=5))
    yield Stream("a length without its last byte", b"\x82\x7e\x00", role="server")
    yield Stream("a length without its last byte", b"\x82\xfe\x00", role="client")
    yield Stream("a head without its payload", binary(b"", form=2, length=126))
    yield Stream("a message without its last fragment", begun("Hello"))
    yield Stream("a message, then half of the next", text("Hello"), begun("Hello"))
    yield Stream("a ping without its last byte", ping("Hell", length=5))


def some_payload(chance, is_text):
    size = chance.choice((0, 1, 2, 3, 7, 20, 60, 124, 125, 126, 130, 300))
    if not is_text:
        return chance.randbytes(size)
    return "".join(chance.choice("ab \u00fc\u20ac\U0001d11e") for _ in range(size // 2)).encode()


def some_message(chance):
    opcode = chance.choice((TEXT, BINARY))
    payload = some_payload(chance, opcode == TEXT)
    borders = sorted(chance.randint(0, len(payload)) for _ in range(chance.choice((0, 0, 1, 2, 4))))
    for index, (start, end) in enumerate(zip([0, *borders], [*borders, len(payload)])):
        if index and chance.random() < 0.3:
            yield Frame(chance.choice((PING, PONG)), some_payload(chance, False)[:125])
        yield Frame(CONTINUE if index else opcode, payload[start:end], fin=index == len(borders))


def some_frames(chance):
    frames = []
    for _ in range(chance.randint(1, 4)):
        if chance.random() < 0.3:
            frames.append(Frame(chance.choice((PING, PONG)), some_payload(chance, False)[:125]))
        frames.extend(some_message(chance))
    if chance.random() < 0.3:
        frames.append(close(chance.choice((1000, 1001, 3000, 4999)), chance.choice(("", "bye", "z\u00fc"))))
    return frames


def damaged(chance, wire):
    """One byte is changed, left out or put in, near the front of a frame more often than not."""
    offset = chance.choice((0, 1, 2, chance.randrange(len(wire)), chance.randrange(len(wire)))) % len(wire)
    kind = chance.choice(("bit", "byte", "out", "in"))
    if kind == "bit":
        return wire[:offset] + bytes([wire[offset] ^ 1 << chance.randrange(8)]) + wire[offset + 1 :]
    if kind == "byte":
        return wire[:offset] + chance.randbytes(1) + wire[offset + 1 :]
    return wire[:offset] + (b"" if kind == "out" else chance.randbytes(1)) + wire[offset + (kind == "out") :]


def random_streams(role, seed=SEED, count=RANDOM_STREAMS):
    """Half of them as they are, half of them damaged."""
    for number in range(count):
        chance = random.Random(f"{seed} {role} {number}")
        frames = some_frames(chance)
        stream = Stream(f"random frames {number} of seed {seed}", *frames, role=role)
        if number % 2:
            stream = Stream(f"damaged frames {number} of seed {seed}", damaged(chance, stream.wire(role)), role=role)
        yield stream


GROUPS = (messages, fragments, controls, closes, head_refusals, order_refusals, mask_refusals, length_refusals, texts,
          cuts)


def streams(role, seed=SEED, count=RANDOM_STREAMS):
    """All streams of an endpoint with this role; each name once."""
    named = [stream for group in GROUPS for stream in group() if stream.role in (None, role)]
    return [*named, *random_streams(role, seed, count)]
