"""The columns of the page: each rule with its title, the reason of `wsn`, and the RFC's section."""
import cases
import differences
import talk


class Rule:
    """A column. `keys` are the rules of its streams (cases.py), with the words of `wsn` for them."""

    def __init__(self, title, section, *keys, reason=None):
        self.title, self.section, self.keys, self.reason = title, section, keys, reason

    def reason_of(self, key):
        return self.reason or key


# The receiver must fail the connection, or close it.
MUST = (
    Rule("reserved bits", "5.2", "reserved-bits"),
    Rule("opcode", "5.2", "reserved-opcode"),
    Rule("mask", "5.1", "mask-missing", "mask-present"),
    Rule("bad text", "8.1", "text-bad"),
    Rule("cut text", "8.1", "text-cut"),
    Rule("Close's reason", "8.1", "close-reason"),
)
# Only the sender is bound.
SENDER = (
    Rule("control without FIN", "5.5", "control-not-final"),
    Rule("nothing to continue", "5.4", "nothing-to-continue"),
    Rule("message open", "5.4", "message-open"),
    Rule("control over 125 bytes", "5.5", cases.OVER_125, reason="control-too-long"),
    Rule("Close of one byte", "5.5.1", "close-one-byte"),
    Rule("2^63 bytes", "5.2", "length-top-bit"),
    Rule("longer length", "5.2", "length-not-minimal"),
    Rule("control's longer length", "5.2", cases.LONGER_CONTROL, reason="control-too-long"),
    Rule("Close's code", "7.4", "close-code"),
)
ABOVE = Rule("codes above 4999", "7.4.2", cases.CODE_ABOVE, reason="close-code")
ALL = (*MUST, *SENDER, ABOVE)


def is_only_in_parts(found):
    """Whether a stream is accepted in steps and not whole. One whose next frames are refused doesn't count."""
    steps = [row for row in found if row.how == "steps" and row.has(differences.ACCEPTS)]
    is_whole = any(row.how == "whole" and row.has(differences.ACCEPTS) for row in found)
    return not is_whole and any(not row.seen.failed_at or row.seen.code() not in (None, *differences.FAILURES)
                                for row in steps)


class Count:
    """What became of the streams of a rule, in one role: how many a peer accepts, how many of them only if they come in
    parts, how many it neither accepts nor refuses, of how many that can't be known, and at how many its program ends.
    Those that are refused for a limit of the peer's own aren't counted."""

    def __init__(self, rows, *keys):
        by_case = {}
        for row in rows:
            if row.case.rule in keys:
                by_case.setdefault(row.case.number, []).append(row)
        counted = [found for found in by_case.values() if not any(row.has(differences.OWN_LIMIT) for row in found)]
        accepted = [found for found in counted if any(row.has(differences.ACCEPTS) for row in found)]
        others = [found for found in counted if found not in accepted]
        self.all, self.accepted = len(counted), len(accepted)
        self.in_parts = sum(map(is_only_in_parts, accepted))
        unknown = [found for found in others if any(row.has(differences.UNKNOWN) for row in found)]
        self.unknown = len(unknown)
        self.waits = sum(any(row.has(differences.HANGS) for row in found) for found in others if found not in unknown)
        self.ends = sum(any((differences.FAULT, talk.ENDED) in row.found for row in found) for found in others)

    def cell(self):
        """`2/9`; with `*` if some are accepted only in parts, `w`, `?` and `!` for those that are neither."""
        if not self.all:
            return "-"
        if self.unknown == self.all:
            return "?"
        numbers = ((self.waits, "w"), (self.unknown, "?"), (self.ends, "!"))
        marks = "".join(f" {number}{mark}" for number, mark in numbers if number)
        return f"{self.accepted}/{self.all}{'*' if self.in_parts else ''}{marks}"


def accepted_by(key, compared):
    """The implementations that accept some streams of a rule, as (name, roles), and how many were tried."""
    names, tried = [], 0
    for peer in compared:
        if peer.is_variant():
            continue
        counts = {role: Count(rows, key) for role, rows in peer.roles.items()}
        counts = {role: count for role, count in counts.items() if count.all}
        tried += bool(counts)
        if roles := [role for role, count in counts.items() if count.accepted]:
            names.append((peer.name, roles))
    return names, tried
