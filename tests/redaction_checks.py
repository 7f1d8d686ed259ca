"""What must hold of each redaction, for tests/long-run and tests/fuzz.

check_stream(run, words, data) and check_capture(run, words, text) raise Differs at the first answer that doesn't agree.
run(*words, given=b"") runs the program and gives the status, standard output and standard error without hints; `words`
has the options: the role of a stream, and limits.
"""
import re

import redact_model

# Lines of `show --view 4096` of a redaction. In a text no letter is left but x and X, and no digit but 0; what is printed
# in hexadecimal is zeros, or bytes of a head or text.
CHARACTER = r'[ !#-/:-@\[\]-`{-~Xx0éࠀ€퀀𐀀\U00040000\U00100000]|\\["\\]|\\u00(?:[01][0-9a-f]|7f)'
TEXT = rf'"(?:{CHARACTER})*"'
BYTES = r"(?:(?!3[1-9]|4[1-9a-f]|5[0-79a]|6[1-9a-f]|7[0-79a])[0-9a-f]{2})*"
ZEROS = r'(?:-|(?:00)+|"")'
REFUSED = (
    rf"refused \d+ (?:text-(?:bad|cut) 1007 (?:\.\.)?{BYTES}|close-reason 1007 [0-9a-f]{{4}}{BYTES}"
    r"|(?!text-|close-reason)[a-z-]+ \d+ (?:\.\.)?[0-9a-f]*)"
)
UNFINISHED = (
    rf"unfinished (?:text \d+ \d+ lacks (?:-|\d+) {TEXT}|(?:binary|ping|pong) \d+ \d+ lacks (?:-|\d+) {ZEROS}"
    rf"|close \d+ 1 lacks \d+ (?:-|[0-9a-f]{{2}}|[0-9a-f]{{4}}{BYTES})|head 0 0 lacks - -)"
)
ENTRY = (
    rf"(?:text \d+ \d+ {TEXT}|(?:binary|ping|pong) \d+ \d+ {ZEROS}|close \d+ 1 (?:-|\d{{4}}(?: {TEXT})?)|{REFUSED}"
    rf'|{UNFINISHED}|(?:unread|tail) \d+ {ZEROS}|end|bad-character \d+ {BYTES} (?:\.\.)?"(?:{CHARACTER})*(?:\\x..)+")'
)
SHOWN = re.compile(rf"[CS] (?:-|\d+\.\d+) \d+ {ENTRY}(?: \.\.)?")
COMMENT = re.compile(
    rb"#|# (?:0|[1-9]\d*)\.\d{1,9}|# reset by the (?:client|server)"
    rb"|# extensions: (?:[!#-'*+.^_`|~0-9A-Za-z;, \t-]|=(?=[;,]|\Z))*"
)
FAULT = re.compile(rb"line (\d+): [a-z-]+\n")


class Differs(Exception):
    """Two answers don't agree."""


def expect(what, found, expected):
    if found != expected:
        raise Differs(f"{what}: got {printable(found)}, expected {printable(expected)}")


def printable(value):
    if isinstance(value, bytes) and any(byte not in b"\n" and not 32 <= byte < 127 for byte in value):
        return value.hex()
    if isinstance(value, tuple):
        return "(" + ", ".join(printable(part) for part in value) + ")"
    return repr(value)


def redacted(run, words, data):
    """A stream's redaction by the model."""
    return redact_model.redacted(data, run("frames", *words, given=data)[1].decode().splitlines())


def check_texts(run, words, data):
    """Nothing that was said is in a redaction's texts."""
    lines = run("show", "--view", "4096", *words, given=data)[1].decode().split("\n")
    entries = [line for line in lines if line.startswith(("C ", "S "))]
    expect("what its redaction shows of texts", [line for line in entries if not SHOWN.fullmatch(line)], [])


def check_stream(run, words, data):
    """A stream and its redaction have the same frames, plan and events; twice is once; nothing is left of texts."""
    status, left, error = run("redact", *words, given=data)
    expect("redact", (status, len(left), error), (0, len(data), b""))
    for command in (["frames"], ["plan"], ["show", "--view", "0"], ["show", "--view", "0", "--wire"]):
        answers = [run(*command, *words, given=given) for given in (left, data)]
        expect(f"{' '.join(command)} of its redaction", *answers)
    check_texts(run, words, left)
    expect("redact of its redaction", run("redact", *words, given=left), (0, left, b""))
    expect("redact by the model", left, redacted(run, words, data))


def lines_before_fault(text, error):
    """The lines of a capture before the one that `closing` reports as malformed, if it reports one."""
    fault = FAULT.fullmatch(error)
    return b"".join(re.findall(rb"[^\n]*\n", text)[: int(fault[1]) - 1]) if fault else text


def side_of(text, letter):
    lines = re.findall(rb"^%s ([0-9A-Fa-f]+)\r?$" % letter, text, re.MULTILINE)
    return bytes.fromhex(b"".join(lines).decode())


def without_comments(answer):
    """An answer of `show` with each comment as # alone."""
    status, out, error = answer
    return status, re.sub(rb"^#.*$", b"#", out, flags=re.MULTILINE), error


def check_capture(run, words, text):
    """A capture and its redaction have the same report, entries and number of lines, up to a malformed line; twice is
    once; nothing is left of texts and comments."""
    status, _, error = run("closing", *words, given=text)
    accepted = lines_before_fault(text, error)
    status, left, said = run("redact", *words, given=text)
    expect("redact", (status, said), (2 if error else 0, error))
    expect("the lines of its redaction", left.count(b"\n"), accepted.count(b"\n"))
    for command in (["closing"], ["show", "--view", "0"], ["show", "--view", "0", "--wire"]):
        answers = [without_comments(run(*command, *words, given=given)) for given in (left, accepted)]
        expect(f"{' '.join(command)} of its redaction", *answers)
    comments = [line.removesuffix(b"\r") for line in left.split(b"\n") if line.startswith(b"#")]
    expect("the comments of its redaction", [line for line in comments if not COMMENT.fullmatch(line)], [])
    check_texts(run, words, left)
    expect("redact of its redaction", run("redact", *words, given=left), (0, left, b""))
    sides = {}
    for letter, role in (("C", "client"), ("S", "server")):
        chosen = ["--role", role, *words]
        sides[letter] = redacted(run, chosen, side_of(accepted, letter.encode()))
        side = run("redact", *chosen, "--capture", given=accepted)
        expect(f"redact --capture, of the {role}", side, (0, sides[letter], b""))
    expect("redact by the model", left, redact_model.redacted_capture(accepted, sides))
