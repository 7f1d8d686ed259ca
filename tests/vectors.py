"""Streams with the answers that they have. The name of one that is refused begins with the printed reason."""
from typing import NamedTuple


class Vector(NamedTuple):
    """A stream of `role` with the options of its limits, what `frames` and `normal` print, and its verdict's line."""

    name: str
    role: str
    options: list
    data: bytes
    frames: bytes
    verdict: str
    normal: bytes

    def words(self, command, *more):
        return [command, "--role", self.role, *self.options, *more]

    def is_accepted(self):
        return self.verdict.startswith("accepted ")

    def status(self):
        return 0 if self.is_accepted() else 1


def bytes_of(parts):
    """The bytes of hexadecimal digits, where `00*5` is five zeros."""
    for part in parts.split():
        digits, _, count = part.partition("*")
        yield bytes.fromhex(digits) * int(count or 1)


def read():
    """Each vector, in the order of the table."""
    for name, role, options, data, frames, verdict, normal in ROWS:
        yield Vector(name, role, options.split(), b"".join(bytes_of(data)), frames.encode(), verdict,
                     b"".join(bytes_of(normal)))  # fmt: skip


# The name, the endpoint, the options, the stream, what `frames` lists, the verdict, and the normal form.
ROWS = (
    # Close frames, and bytes after them (RFC 6455 sections 5.5.1 and 7.4).
    ("an empty Close", "server", "", "8800", "0 fin close - 0\n", "accepted 2 tail 0 unfinished -", "8800"),
    ("close code 1000", "server", "", "880203e8", "0 fin close - 2\n", "accepted 4 tail 0 unfinished -", "880203e8"),
    ("close code 1014", "server", "", "880203f6", "0 fin close - 2\n", "accepted 4 tail 0 unfinished -", "880203f6"),
    ("close code 3000", "server", "", "88020bb8", "0 fin close - 2\n", "accepted 4 tail 0 unfinished -", "88020bb8"),
    ("close code 4999", "server", "", "88021387", "0 fin close - 2\n", "accepted 4 tail 0 unfinished -", "88021387"),
    ("close-code: 1004", "server", "", "880203ec", "0 fin close - 2\n", "refused 3 close-code 1002", ""),
    ("close-code: 1005", "server", "", "880203ed", "0 fin close - 2\n", "refused 3 close-code 1002", ""),
    ("close-code: 2999", "server", "", "88020bb7", "0 fin close - 2\n", "refused 3 close-code 1002", ""),
    ("close-code: 5000", "server", "", "88021388", "0 fin close - 2\n", "refused 3 close-code 1002", ""),
    ("close-one-byte: a Close of one byte", "server", "", "8801", "", "refused 1 close-one-byte 1002", ""),
    ("close-reason: a byte that no text has", "server", "", "880303e8ff", "0 fin close - 3\n",
     "refused 4 close-reason 1007", ""),
    ("close-reason: it ends inside a character", "server", "", "880303e8e2", "0 fin close - 3\n",
     "refused 4 close-reason 1007", ""),
    ("a text after a Close", "server", "", "880203e8810141", "0 fin close - 2\n", "accepted 4 tail 3 unfinished -",
     "880203e8"),
    ("a Close after a Close", "server", "", "88008800", "0 fin close - 0\n", "accepted 2 tail 2 unfinished -",
     "8800"),
    ("a Close inside a text of three bytes", "server", "", "010348656c880203e8", "0 more text - 3\n5 fin close - 2\n",
     "accepted 9 tail 0 unfinished 3", "880203e8"),
    ("a Close inside a text of no bytes yet", "server", "", "01008800", "0 more text - 0\n2 fin close - 0\n",
     "accepted 4 tail 0 unfinished 0", "8800"),
    ("a Close with a reason of 123 bytes", "server", "", "887d03e8 41*123", "0 fin close - 125\n",
     "accepted 127 tail 0 unfinished -", "887d03e8 41*123"),
    # The first byte of a frame: reserved bits, opcodes, and FIN on a control (RFC 6455 section 5.2).
    ("nothing", "server", "", "", "", "accepted 0 tail 0 unfinished -", ""),
    ("an empty text", "server", "", "8100", "0 fin text - 0\n", "accepted 2 tail 0 unfinished -", "8100"),
    ("an empty ping", "server", "", "8900", "0 fin ping - 0\n", "accepted 2 tail 0 unfinished -", "8900"),
    ("a pong of one byte", "server", "", "8a0141", "0 fin pong - 1\n", "accepted 3 tail 0 unfinished -", "8a0141"),
    ("the first byte of a text", "server", "", "81", "", "cut 1", ""),
    ("reserved-bits: the first", "server", "", "c1", "", "refused 0 reserved-bits 1002", ""),
    ("reserved-bits: the first, and a length", "server", "", "c100", "", "refused 0 reserved-bits 1002", ""),
    ("reserved-bits: the second", "server", "", "a1", "", "refused 0 reserved-bits 1002", ""),
    ("reserved-bits: the third", "server", "", "91", "", "refused 0 reserved-bits 1002", ""),
    ("reserved-bits: all, after a ping", "server", "", "8900f0", "0 fin ping - 0\n", "refused 2 reserved-bits 1002",
     "8900"),
    ("reserved-bits: after a text", "server", "", "810142c1", "0 fin text - 1\n", "refused 3 reserved-bits 1002",
     "810142"),
    ("reserved-opcode: 3", "server", "", "83", "", "refused 0 reserved-opcode 1002", ""),
    ("reserved-opcode: 3, and a length", "server", "", "8300", "", "refused 0 reserved-opcode 1002", ""),
    ("reserved-opcode: 11", "server", "", "8b00", "", "refused 0 reserved-opcode 1002", ""),
    ("reserved-opcode: 11 without FIN", "server", "", "0b", "", "refused 0 reserved-opcode 1002", ""),
    ("reserved-opcode: 15 after a text", "server", "", "81008f", "0 fin text - 0\n", "refused 2 reserved-opcode 1002",
     "8100"),
    ("control-not-final: a ping", "server", "", "09", "", "refused 0 control-not-final 1002", ""),
    ("control-not-final: a ping, and a length", "server", "", "0900", "", "refused 0 control-not-final 1002", ""),
    ("nothing of a client", "client", "", "", "", "accepted 0 tail 0 unfinished -", ""),
    # Messages in fragments, and controls between them (RFC 6455 section 5.4).
    ("nothing-to-continue: a last fragment", "server", "", "80", "", "refused 0 nothing-to-continue 1002", ""),
    ("nothing-to-continue: a last fragment, and a length", "server", "", "8000", "",
     "refused 0 nothing-to-continue 1002", ""),
    ("nothing-to-continue: a fragment", "server", "", "0000", "", "refused 0 nothing-to-continue 1002", ""),
    ("message-open: a text inside a text", "server", "", "010081", "0 more text - 0\n", "refused 2 message-open 1002",
     ""),
    ("message-open: a binary message inside a text", "server", "", "010082", "0 more text - 0\n",
     "refused 2 message-open 1002", ""),
    ("a text that goes on", "server", "", "0100", "0 more text - 0\n", "cut 2", ""),
    ("a text of three empty fragments", "server", "", "010000008000",
     "0 more text - 0\n2 more cont - 0\n4 fin cont - 0\n", "accepted 6 tail 0 unfinished -", "8100"),
    ("a ping between two fragments", "server", "", "0101418900800142",
     "0 more text - 1\n3 fin ping - 0\n5 fin cont - 1\n", "accepted 8 tail 0 unfinished -", "890081024142"),
    ("fragments of 65,535 bytes and of one", "server", "", "027effff 2a*65535 80012a",
     "0 more binary - 65535\n65539 fin cont - 1\n", "accepted 65542 tail 0 unfinished -",
     "827f0000000000010000 2a*65536"),
    ("Hello in two fragments, and a ping between them", "server", "", "010348656c890080026c6f",
     "0 more text - 3\n5 fin ping - 0\n7 fin cont - 2\n", "accepted 11 tail 0 unfinished -", "8900810548656c6c6f"),
    ("a ping before Hello in two fragments", "server", "", "8900010348656c80026c6f",
     "0 fin ping - 0\n2 more text - 3\n7 fin cont - 2\n", "accepted 11 tail 0 unfinished -", "8900810548656c6c6f"),
    # The encodings of a payload's length (RFC 6455 section 5.2).
    ("length-not-minimal: 125 in two bytes", "server", "", "827e007d", "", "refused 3 length-not-minimal 1002", ""),
    ("length-not-minimal: 65,535 in eight bytes", "server", "", "827f000000000000ffff", "",
     "refused 9 length-not-minimal 1002", ""),
    ("length-top-bit: 2^63", "server", "", "827f8000000000000000", "", "refused 9 length-top-bit 1002", ""),
    ("the first byte of a length of 2^63", "server", "", "827f80", "", "cut 3", ""),
    ("16,777,216", "server", "", "827f0000000001000000", "0 fin binary - 16777216\n", "cut 10", ""),
    ("message-too-big: 16,777,217", "server", "", "827f0000000001000001", "", "refused 9 message-too-big 1009", ""),
    ("control-too-long: a ping whose length follows", "server", "", "897e", "", "refused 1 control-too-long 1002",
     ""),
    ("control-too-long: a ping of 126 bytes", "server", "", "897e007e", "", "refused 1 control-too-long 1002", ""),
    ("control-too-long: a Close whose length follows", "server", "", "887e", "", "refused 1 control-too-long 1002",
     ""),
    ("length-not-minimal: 0 in two bytes after half a character", "server", "", "0101e2807e0000", "0 more text - 1\n",
     "refused 6 length-not-minimal 1002", ""),
    ("125 in two bytes, with any encoding allowed", "server", "--lengths any", "827e007d", "0 fin binary - 125 two\n",
     "cut 4", ""),
    ("length-top-bit: 2^63, with any encoding allowed", "server", "--lengths any", "827f8000000000000000", "",
     "refused 9 length-top-bit 1002", ""),
    ("control-too-long: a ping of 0 in two bytes", "server", "--lengths any", "897e0000", "",
     "refused 1 control-too-long 1002", ""),
    ("text-cut: 0 in two bytes after half a character", "server", "--lengths any", "0101e2807e0000",
     "0 more text - 1\n", "refused 6 text-cut 1007", ""),
    ("a binary message of 125 bytes", "server", "", "827d 2a*125", "0 fin binary - 125\n",
     "accepted 127 tail 0 unfinished -", "827d 2a*125"),
    ("a binary message of 126 bytes", "server", "", "827e007e 2a*126", "0 fin binary - 126\n",
     "accepted 130 tail 0 unfinished -", "827e007e 2a*126"),
    ("a binary message of 65,536 bytes", "server", "", "827f0000000000010000 2a*65536", "0 fin binary - 65536\n",
     "accepted 65546 tail 0 unfinished -", "827f0000000000010000 2a*65536"),
    ("a ping of 125 bytes", "server", "", "897d fe*125", "0 fin ping - 125\n", "accepted 127 tail 0 unfinished -",
     "897d fe*125"),
    ("the head of 125 bytes", "server", "", "827d", "0 fin binary - 125\n", "cut 2", ""),
    ("the head of 126 bytes", "server", "", "827e007e", "0 fin binary - 126\n", "cut 4", ""),
    ("the head of 65,535 bytes", "server", "", "827effff", "0 fin binary - 65535\n", "cut 4", ""),
    ("the head of 65,536 bytes", "server", "", "827f0000000000010000", "0 fin binary - 65536\n", "cut 10", ""),
    ("a text of one byte, its length in two", "server", "--lengths any", "817e000141", "0 fin text - 1 two\n",
     "accepted 5 tail 0 unfinished -", "810141"),
    ("a text of one byte, its length in eight", "server", "--lengths any", "817f000000000000000141",
     "0 fin text - 1 eight\n", "accepted 11 tail 0 unfinished -", "810141"),
    ("the shortest length in two bytes, with any encoding allowed", "server", "--lengths any", "827e007e",
     "0 fin binary - 126\n", "cut 4", ""),
    ("message-too-big: 2^63 - 1", "server", "", "827f7fffffffffffffff", "", "refused 9 message-too-big 1009", ""),
    ("message-too-big: 2^63 - 1 after a byte of the message", "server", "", "020141807f7fffffffffffffff",
     "0 more binary - 1\n", "refused 12 message-too-big 1009", ""),
    # The mask bit: a client masks each frame, a server none (RFC 6455 section 5.3).
    ("mask-present: a text of a server", "server", "", "8185", "", "refused 1 mask-present 1002", ""),
    ("mask-missing: a text of a client", "client", "", "8105", "", "refused 1 mask-missing 1002", ""),
    ("mask-missing: a Close of one byte", "client", "", "8801", "", "refused 1 mask-missing 1002", ""),
    ("Hello with a key", "client", "", "818537fa213d7f9f4d5158", "0 fin text 37fa213d 5\n",
     "accepted 11 tail 0 unfinished -", "81850000000048656c6c6f"),
    ("Hello and an empty message, each with its own key", "client", "", "818537fa213d7f9f4d5158828000000001",
     "0 fin text 37fa213d 5\n11 fin binary 00000001 0\n", "accepted 17 tail 0 unfinished -",
     "81850000000048656c6c6f828000000000"),
    ("a character in three fragments with three keys, and a ping among them", "client", "",
     "018137fa213dd58980000000010081ff0000007d808100000000ac",
     "0 more text 37fa213d 1\n7 fin ping 00000001 0\n13 more cont ff000000 1\n20 fin cont 00000000 1\n",
     "accepted 27 tail 0 unfinished -", "898000000000818300000000e282ac"),
    ("mask-present: a text after a pong", "server", "", "8a01418185", "0 fin pong - 1\n",
     "refused 4 mask-present 1002", "8a0141"),
    ("a head without its key", "client", "", "82fe007e37fa21", "", "cut 7", ""),
    # The limits on the bytes of a message, on its frames, and on the bytes of an input.
    ("message limit 0: an empty text", "server", "--limit 0", "8100", "0 fin text - 0\n",
     "accepted 2 tail 0 unfinished -", "8100"),
    ("message-too-big: message limit 0, a byte of text", "server", "--limit 0", "8101", "",
     "refused 1 message-too-big 1009", ""),
    ("message limit 0: 0 in two bytes", "server", "--limit 0 --lengths any", "817e0000", "0 fin text - 0 two\n",
     "accepted 4 tail 0 unfinished -", "8100"),
    ("message-too-big: message limit 0, 1 in two bytes", "server", "--limit 0 --lengths any", "817e0001", "",
     "refused 3 message-too-big 1009", ""),
    ("message-too-big: message limit 4, five bytes in two fragments", "server", "--limit 4", "010348656c8002",
     "0 more text - 3\n", "refused 6 message-too-big 1009", ""),
    ("message limit 5: five bytes in two fragments", "server", "--limit 5", "010348656c80026c6f",
     "0 more text - 3\n5 fin cont - 2\n", "accepted 9 tail 0 unfinished -", "810548656c6c6f"),
    ("frame limit 1: two texts of one frame", "server", "--frames 1", "81008100", "0 fin text - 0\n2 fin text - 0\n",
     "accepted 4 tail 0 unfinished -", "81008100"),
    ("too-many-frames: frame limit 1, a second frame", "server", "--frames 1", "010080", "0 more text - 0\n",
     "refused 2 too-many-frames 1008", ""),
    ("reserved-bits: frame limit 1, a second frame", "server", "--frames 1", "0100c0", "0 more text - 0\n",
     "refused 2 reserved-bits 1002", ""),
    ("message-open: frame limit 1, a second text", "server", "--frames 1", "010081", "0 more text - 0\n",
     "refused 2 message-open 1002", ""),
    ("frame limit 1: a Close inside a message", "server", "--frames 1", "01008800",
     "0 more text - 0\n2 fin close - 0\n", "accepted 4 tail 0 unfinished 0", "8800"),
    ("too-many-frames: frame limit 2, three fragments", "server", "--frames 2", "0101e20001828001ac",
     "0 more text - 1\n3 more cont - 1\n", "refused 6 too-many-frames 1008", ""),
    ("frame limit 3: three fragments", "server", "--frames 3", "0101e20001828001ac",
     "0 more text - 1\n3 more cont - 1\n6 fin cont - 1\n", "accepted 9 tail 0 unfinished -", "8103e282ac"),
    ("input limit 0: nothing", "server", "", "", "", "accepted 0 tail 0 unfinished -", ""),
    ("input limit 4: a Close of 4 bytes", "server", "", "880203e8", "0 fin close - 2\n",
     "accepted 4 tail 0 unfinished -", "880203e8"),
    ("reserved-bits: input limit 4, before the fifth byte", "server", "", "c100000000", "",
     "refused 0 reserved-bits 1002", ""),
    # Text messages that are UTF-8 or not, in one frame and in fragments (RFC 6455 section 8.1).
    ("a character of two bytes", "server", "", "8102c3a9", "0 fin text - 2\n", "accepted 4 tail 0 unfinished -",
     "8102c3a9"),
    ("the last character of four bytes", "server", "", "8104f48fbfbf", "0 fin text - 4\n",
     "accepted 6 tail 0 unfinished -", "8104f48fbfbf"),
    ("a character of four bytes in two fragments", "server", "", "0102f09f80029880",
     "0 more text - 2\n4 fin cont - 2\n", "accepted 8 tail 0 unfinished -", "8104f09f9880"),
    ("a character of three bytes in three fragments", "server", "", "0101e20001828001ac",
     "0 more text - 1\n3 more cont - 1\n6 fin cont - 1\n", "accepted 9 tail 0 unfinished -", "8103e282ac"),
    ("text-bad: a zero in two bytes", "server", "", "8102c080", "0 fin text - 2\n", "refused 2 text-bad 1007", ""),
    ("text-bad: a surrogate", "server", "", "8103eda080", "0 fin text - 3\n", "refused 3 text-bad 1007", ""),
    ("text-bad: a number past the last character", "server", "", "8104f4908080", "0 fin text - 4\n",
     "refused 3 text-bad 1007", ""),
    ("text-bad: two bytes' worth in three", "server", "", "8103e09fbf", "0 fin text - 3\n", "refused 3 text-bad 1007",
     ""),
    ("a binary message of a byte that no text has", "server", "", "8201ff", "0 fin binary - 1\n",
     "accepted 3 tail 0 unfinished -", "8201ff"),
    ("text-bad: a byte in the second fragment that interrupts a character", "server", "", "0101e2800128",
     "0 more text - 1\n3 fin cont - 1\n", "refused 5 text-bad 1007", ""),
    ("text-bad: the first byte of a long frame", "server", "", "817e0100ff", "0 fin text - 256\n",
     "refused 4 text-bad 1007", ""),
    ("text-cut: half a character", "server", "", "8101e2", "0 fin text - 1\n", "refused 2 text-cut 1007", ""),
    ("text-cut: half a character, and an empty last fragment", "server", "", "0101e28000", "0 more text - 1\n",
     "refused 4 text-cut 1007", ""),
    ("text-cut: half a character, and an empty last fragment with a key", "client", "", "018100000000e2808001020304",
     "0 more text 00000000 1\n", "refused 12 text-cut 1007", ""),
)
