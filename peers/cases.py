"""The streams with what `wsn` says of each, and the rule that a stream is about."""
import hashlib

import frames
import streams
import verdicts

# What has no column of its own: valid streams; those with a Close inside a message or bytes after it, of which the RFC
# says too little; and those that are damaged at random and may have several faults.
VALID, UNSETTLED, DAMAGED = "valid", "unsettled", "damaged"
# A control frame whose payload is too long, and one whose length only has a longer encoding than it needs: one reason.
OVER_125, LONGER_CONTROL = "control-over-125", "control-longer-length"
# Codes that mustn't be sent or that nothing defines, and those of which RFC 6455 says nothing.
CODE_ABOVE = "close-code-above-4999"
# Codes that were registered after the RFC, and the one that a server doesn't use (7.4.1).
LATER_CODES, CLIENTS_CODE = ("1012", "1013", "1014"), "1010"
# From this length of a message on a peer may refuse it for a limit of its own.
LARGE = 8000


def control_rule(wire, offset):
    frame = frames.frame_of(wire, offset)
    return LONGER_CONTROL if frame and frame.length <= 125 else OVER_125


def rule_of(verdict, wire, is_damaged):
    """The column of a stream."""
    if not verdict.reason:
        return UNSETTLED if verdict.tail or verdict.is_unfinished else VALID
    if is_damaged:
        return DAMAGED
    if verdict.reason == "control-too-long":
        return control_rule(wire, verdict.offset)
    if verdict.reason == "close-code" and int(frames.close_in(wire, verdict.offset)) > 4999:
        return CODE_ABOVE
    return verdict.reason


class Case:
    """A stream of one role, with its bytes, verdict and rule."""

    def __init__(self, number, stream, role):
        self.number, self.name, self.role = number, stream.name, role
        self.wire = stream.wire(role)
        self.verdict = verdicts.verdict_of(role, self.wire)
        self.is_damaged = stream.name.startswith("damaged ")
        self.rule = rule_of(self.verdict, self.wire, self.is_damaged)
        self.is_large = any(frame.length > LARGE for frame in frames.frames_of(self.wire))

    def may_be_refused(self):
        """Whether the RFC lets a receiver refuse this valid Close."""
        code = self.verdict.close
        return code in LATER_CODES or code == CLIENTS_CODE and self.role == "server"


def cases(role, seed):
    made = [Case(number, stream, role) for number, stream in enumerate(streams.streams(role, seed))]
    return [case for case in made if case.verdict.reason not in verdicts.OWN_LIMITS]


def digest(cases_of):
    """A digest of all streams, by which kept results know theirs."""
    parts = [(role, case.name, case.wire.hex()) for role, found in sorted(cases_of.items()) for case in found]
    return hashlib.sha256(repr(parts).encode()).hexdigest()[:16]
