"""What `wsn redact` writes, worked out from what `frames` lists of a stream, by the tables in docs/RULES.md.

redacted(data, lines) gives it for a stream; `lines` are those of `wsn frames` for the same bytes, role and limits.
redacted_capture(text, sides) gives it for a capture; `sides` has the redactions of both streams by the letters C and S.
"""
import re


# A stand-in by the first byte of its character: the greatest of a range of first bytes, in order.
STAND_INS = (
    (0xC1, None), (0xDF, b"\xc3\xa9"), (0xE0, b"\xe0\xa0\x80"), (0xEC, b"\xe2\x82\xac"), (0xED, b"\xed\x80\x80"),
    (0xEF, b"\xe2\x82\xac"), (0xF0, b"\xf0\x90\x80\x80"), (0xF3, b"\xf1\x80\x80\x80"), (0xF4, b"\xf4\x80\x80\x80"),
)  # fmt: skip
LONGER = {"two": 2, "eight": 8}


def single(byte):
    """What takes the place of a byte by itself."""
    character = chr(byte)
    for least, greatest, other in (("a", "z", b"x"), ("A", "Z", b"X"), ("0", "9", b"0")):
        if least <= character <= greatest:
            return other
    return bytes([byte])


def stand_in(first):
    for greatest, found in STAND_INS:
        if first <= greatest:
            return found or single(first)
    return single(first)


def redacted_text(text):
    """The redaction of bytes that are text, or go wrong at their last byte, or end inside a character."""
    try:
        whole, begun = text.decode(), b""
    except UnicodeDecodeError as error:
        if error.reason != "unexpected end of data":
            return redacted_text(text[:-1]) + single(text[-1])
        whole, begun = text[:error.start].decode(), text[error.start:]
    out = b"".join(stand_in(character.encode()[0]) for character in whole)
    return out + stand_in(begun[0])[:len(begun)] if begun else out


def masked(data, key):
    return bytes(byte ^ key[place % 4] for place, byte in enumerate(data)) if key else data


def redacted(data, lines):
    verdict = lines[-1].split()
    judged = data[:int(verdict[1]) + 1] if verdict[0] == "refused" else data
    out, text, is_text, opcode = b"", b"", False, ""
    for line in lines[:-1]:
        offset, _, opcode, key, length, *form = line.split()
        start = int(offset) + 2 + (LONGER[form[0]] if form else 2 * (int(length) > 125) + 6 * (int(length) > 65535))
        key = b"" if key == "-" else bytes.fromhex(key)
        start += len(key)
        payload = masked(judged[start:start + int(length)], key)
        if opcode in ("text", "binary"):
            text, is_text = b"", opcode == "text"
        if opcode == "close":
            payload = payload[:2] + redacted_text(payload[2:])
        elif opcode in ("ping", "pong") or not is_text:
            payload = bytes(len(payload))
        else:
            text += payload
            payload = redacted_text(text)[len(text) - len(payload):]
        out += judged[int(offset):start] + masked(payload, key)
    rest = judged[len(out):]
    return out + (bytes(len(rest)) if opcode == "close" else rest) + bytes(len(data) - len(judged))


TOKEN = b"!#$%&'*+-.^_`|~0123456789ABCDEFGHIJKLMNOPQRSTUVWXYZabcdefghijklmnopqrstuvwxyz"


def extension_names(text):
    """What is left of a list of extensions, byte by byte."""
    out, within, escaped = b"", "name", False
    for byte in (bytes([each]) for each in text):
        of_names = byte in TOKEN + b";, \t"
        if within == "string":
            within, escaped = "value" if byte == b'"' and not escaped else "string", byte == b"\\" and not escaped
            continue
        if (of_names or byte == b"=") if within == "name" else byte in b";,":
            out += byte
        within = "string" if byte == b'"' else "name" if byte in b";," or (of_names and within == "name") else "value"
    return out


def redacted_comment(text):
    if re.fullmatch(rb"# (0|[1-9][0-9]*)[.][0-9]{1,9}|# reset by the (client|server)", text):
        return text
    front = b"# extensions: "
    return front + extension_names(text[len(front):]) if text.startswith(front) else b"#"


def redacted_line(text, sides):
    letter = text[:1].decode()
    if text[1:2] == b" " and letter in sides:
        count = len(text) // 2 - 1
        data, sides[letter] = sides[letter][:count], sides[letter][count:]
        return text[:2] + data.hex().encode()
    return redacted_comment(text) if letter == "#" else text


def redacted_capture(text, sides):
    sides, ends = dict(sides), re.findall(rb"([^\n]*?)(\r?\n|\r?\Z)", text)
    return b"".join(redacted_line(line, sides) + end for line, end in ends)
