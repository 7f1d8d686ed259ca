"""A session that holds secrets, and the same without what was said: for tests of redactions.

What is looked for is any six bytes in a row of a secret: as they are, masked at any offset of the key, or in hexadecimal.
"""

KEY = b"\x37\xfa\x21\x3d"
TEXT, BINARY, PING, REASON = b"Passw0rd-of-Ann", b"\x00Bin4ry\xffBlob", b"P1ng-Payl0ad", b"Re4son-to-Leave"
PATH, QUERY, COOKIE, PROTOCOL = b"/path-of-Ann9", b"t0ken=Qu3ryOfAnn", b"sid=C00kieOfAnn", b"pr0tocol-Of-Ann"
VALUE, LINE, BODY, BEARER = b"Val2eOfExtens1on", b"St4tusOfAnswer", b"B0dyOfTheAnswer", b"Re4lmOfAnn"
SECRETS = TEXT, BINARY, PING, REASON, PATH, QUERY, COOKIE, PROTOCOL, VALUE, LINE, BODY, BEARER


def masked(data):
    """Bytes under the key."""
    return bytes(byte ^ KEY[at % 4] for at, byte in enumerate(data))


def frame(side, opcode, payload):
    """A frame of one of at most 125 bytes."""
    if side == "S":
        return bytes([0x80 | opcode, len(payload)]) + payload
    return bytes([0x80 | opcode, 0x80 | len(payload)]) + KEY + masked(payload)


TALK = [(side, frame(side, opcode, payload)) for opcode, payload in
        ((1, TEXT), (2, BINARY), (9, PING), (8, b"\x03\xe8" + REASON)) for side in "CS"]  # fmt: skip
# The same without what was said.
LEFT = [(side, frame(side, opcode, payload)) for opcode, payload in
        ((1, b"Xxxxx0xx-xx-Xxx"), (2, bytes(len(BINARY))), (9, bytes(len(PING))), (8, b"\x03\xe8Xx0xxx-xx-Xxxxx"))
        for side in "CS"]  # fmt: skip


def written(talk):
    """The lines of a talk."""
    return "".join(f"{side} {data.hex()}\n" for side, data in talk).encode()


def stream(talk, role):
    """What an endpoint sends in a talk."""
    return b"".join(data for side, data in talk if side == role[0].upper())


# A capture of the talk with comments on its handshake, as the recipes and others write them; and its redaction.
CAPTURE = b"".join((
    b"# path: %s?%s\n# answer: HTTP/1.1 101 %s\n# cookie: %s\n" % (PATH, QUERY, LINE, COOKIE),
    b"# subprotocol: %s\n# extensions: x-one; id=%s\n# 0.25\n" % (PROTOCOL, VALUE),
    written(TALK), b"C.\nS.\n",
))  # fmt: skip
REDACTED = b"#\n#\n#\n#\n# extensions: x-one; id=\n# 0.25\n" + written(LEFT) + b"C.\nS.\n"


def forms_of(secret):
    """Each six bytes of a secret, as they can be written."""
    for at in range(len(secret) - 5):
        part = secret[at : at + 6]
        turned = [bytes(byte ^ KEY[(place + turn) % 4] for place, byte in enumerate(part)) for turn in range(4)]
        for data in part, *turned:
            yield from (data, data.hex().encode(), data.hex(" ").encode(), data.hex().upper().encode())


FORMS = {form: secret for secret in SECRETS for form in forms_of(secret)}


def secrets_in(data):
    """The secrets of which something is in these bytes."""
    return {secret for form, secret in FORMS.items() if form in data}
