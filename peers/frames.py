"""Frames as they are laid out, without a rule: where they end, and what a peer sent."""
import struct

CLOSE, PING, PONG = 8, 9, 10
# Instead of the code of a Close of one byte.
ONE_BYTE = "one byte"


class Seen:
    """A frame of a stream: offset of its first byte and of the byte after it, and its parts."""

    def __init__(self, start, end, length, first, masked, payload):
        self.start, self.end, self.length = start, end, length
        self.fin, self.opcode = bool(first & 0x80), first & 15
        self.masked, self.payload = masked, payload


def frame_at(wire, start):
    """The frame that begins there, or None if its head isn't complete. Its end may be beyond the bytes that came."""
    if len(wire) < start + 2:
        return None
    first, second = wire[start], wire[start + 1]
    length, at = second & 127, start + 2
    if length >= 126:
        size = 2 if length == 126 else 8
        if len(wire) < at + size:
            return None
        length, at = int.from_bytes(wire[at : at + size], "big"), at + size
    key = b""
    if second & 0x80:
        key, at = wire[at : at + 4], at + 4
        if len(key) < 4:
            return None
    payload = wire[at : at + length]
    if any(key):
        payload = bytes(byte ^ key[index % 4] for index, byte in enumerate(payload))
    return Seen(start, at + length, length, first, bool(key), payload)


def frames_of(wire):
    """The frames whose heads are complete; the last one may not be."""
    at = 0
    while frame := frame_at(wire, at):
        yield frame
        at = frame.end


def whole_frames(wire):
    return [frame for frame in frames_of(wire) if frame.end <= len(wire)]


def frame_end(wire, offset):
    """The end of the frame that has this byte."""
    ends = [frame.end for frame in frames_of(wire) if frame.start <= offset < frame.end]
    return min(ends[0] if ends else len(wire), len(wire))


def head_end(wire, offset):
    """The end of the head of the frame that has this byte."""
    for frame in frames_of(wire):
        if frame.start <= offset < frame.end:
            return frame.end - frame.length
    return len(wire)


def message_end(wire, offset):
    """The end of the frame that has this byte, or, if that is a fragment, of its message's last frame."""
    after = [frame for frame in frames_of(wire) if frame.end > offset]
    if not after or after[0].fin or after[0].opcode >= 8:
        return frame_end(wire, offset)
    last = [frame.end for frame in after if frame.fin and frame.opcode < 8]
    return min(last[0] if last else len(wire), len(wire))


def control(opcode, payload, masks):
    """A control frame of the driver's own."""
    if not masks:
        return struct.pack("BB", 0x80 | opcode, len(payload)) + payload
    return struct.pack("BB", 0x80 | opcode, 0x80 | len(payload)) + bytes(4) + payload


def close_code(payload):
    """The code of a Close's payload, '-' if that is empty, or the one byte that is no code."""
    return str(int.from_bytes(payload[:2], "big")) if len(payload) >= 2 else ONE_BYTE if payload else "-"


def frame_of(wire, offset):
    """The frame that has this byte, or None."""
    return next((frame for frame in frames_of(wire) if frame.start <= offset < frame.end), None)


def close_in(wire, offset):
    """The code of the Close that has this byte, or None."""
    frame = frame_of(wire, offset)
    return close_code(frame.payload) if frame and frame.opcode == CLOSE else None
