"""The page of an implementation, and the data of all."""

import cases
import differences
import implementations
import recordings
import results
import rules

# The order of the rows of an implementation, what each is about, and what the RFC leaves to the receiver.
KINDS = (
    (differences.ACCEPTS, "Accepts what `wsn` refuses"),
    (differences.UNKNOWN, "Does as with a valid Close, so whether it accepts can't be known"),
    (differences.HANGS, "Neither accepts nor refuses"),
    (differences.REFUSES, "Refuses what `wsn` accepts"),
    (differences.MAY_REFUSE, "Refuses a code that it may refuse"),
    (differences.OWN_LIMIT, "Refuses a message for a limit of its own, which it may"),
    (differences.MESSAGES, "Gives its user something else"),
    (differences.FAULT, "Ends, or doesn't report the end"),
    (differences.PINGS, "Answers pings in another way"),
    (differences.CLOSES, "Answers a Close in another way"),
    (differences.EARLIER, "Fails the connection earlier, which it may"),
    (differences.LATER, "Fails the connection later, which it may"),
    (differences.CODE, "Closes with another code, which it may"),
    (differences.NO_CLOSE, "Fails the connection without a Close, which it may"),
)
HEADER = ("What", "Reasons", "Streams")
SHOWN = 3


def slug(peer):
    """The file name of the page of an implementation and its variants."""
    return recordings.slug(peer.of or peer.name)


def table(header, rows):
    lines = ["| " + " | ".join(header) + " |", "|" + "---|" * len(header)]
    return "\n".join(lines + ["| " + " | ".join(row) + " |" for row in rows])


def label_of(case):
    """The rule of a stream, for the rows."""
    if case.rule == cases.DAMAGED:
        return "damaged at random"
    return case.rule if case.verdict.reason else case.verdict.word


def by_words(rows, kind):
    """The cases of each word of this kind. A stream that was sent in another way counts if it differs then alone."""
    first = {row.case.number for row in rows if row.is_first and row.has(kind)}
    found = {}
    for row in rows:
        if not row.is_first and row.case.number in first:
            continue
        for one, words in row.found:
            if one == kind:
                found.setdefault(words + ("" if row.is_first else results.HOWS[row.how]), []).append(row.case)
    return found


def reasons_of(found, of_all):
    """`WORD 3 of 5` for each reason of these cases."""
    counts = {}
    for case in found:
        counts[label_of(case)] = counts.get(label_of(case), 0) + 1
    return ", ".join(f"{word} {count} of {of_all[word]}" for word, count in counts.items())


def names_of(found):
    """The shortest streams by name."""
    found = sorted(found, key=lambda case: ("frames" in case.name and "seed" in case.name, len(case.wire)))
    more = f"; and {len(found) - SHOWN} others" if len(found) > SHOWN else ""
    return "; ".join(case.name for case in found[:SHOWN]) + more


def rows_of(rows):
    of_all = {}
    for row in rows:
        if row.is_first:
            of_all[label_of(row.case)] = of_all.get(label_of(row.case), 0) + 1
    for kind, title in KINDS:
        for words, found in by_words(rows, kind).items():
            yield [f"{title}: {words}", reasons_of(found, of_all), names_of(found)]


def summary_of(rows):
    different = sum(1 for row in rows if row.found)
    return f"{len(rows):,} sessions, {len(rows) - different:,} as `wsn` has it."


def sent_rows(peer):
    for role, sent in peer.sent.items():
        yield [role, f"`{sent['verdict']}`", f"`{sent['long']}`", sent["keys"],
               sent["kinds"] + "".join(f"; not {what}" for what in sent["missing"])]


def parts_of(peer):
    """The parts about a peer."""
    for role, rows in peer.roles.items():
        yield f"## As {role}"
        yield summary_of(rows)
        if found := list(rows_of(rows)):
            yield table(HEADER, found)
    for role, why in peer.missing.items():
        yield f"Not run as {role}: {why.splitlines()[0]}."


def variant_parts(variant, peer):
    """The parts about a variant of it: the rows that are others."""
    for role, rows in variant.roles.items():
        with_it, without = list(rows_of(rows)), list(rows_of(peer.roles.get(role, [])))
        new = [row for row in with_it if row not in without]
        gone = [row[0] for row in without if row[0] not in [kept[0] for kept in with_it]]
        yield f"## As {role}, {variant.name.removeprefix(peer.name).strip()}"
        yield f"Set: {variant.peer.set}. {summary_of(rows)} These rows are others than with the defaults:"
        if new:
            yield table(HEADER, new)
        if gone:
            yield f"Gone: {'; '.join(gone)}."


def about(peer):
    packages = ", ".join(f"`{package}`" for package in peer.peer.packages)
    line = f"Version {peer.version} (Debian's {packages}), measured on {peer.day} with its defaults."
    return " ".join(filter(None, (line, peer.peer.note)))


def page_of(peer, compared):
    """The page of an implementation, with its variants. How to read it: ../PEERS.md."""
    links = "[What the rows mean](../PEERS.md#a-page-for-each), [all data](results.json)."
    parts = [f"# {peer.name}", about(peer), links]
    parts += parts_of(peer)
    for variant in compared:
        if variant.peer.of == peer.name:
            parts += [*variant_parts(variant, peer), *([variant.peer.note] if variant.peer.note else [])]
    if peer.sent:
        header = ["Role", "Short texts", "Texts of 65,535 and 65,536 bytes", "Keys", "It sends"]
        parts += ["## What it sends", table(header, sent_rows(peer))]
    return "\n\n".join(parts) + "\n"


def stream_of(case):
    """A stream in the data: its bytes if they are few; `peers/run --bytes NAME ROLE` writes any."""
    short = {"hex": case.wire.hex()} if len(case.wire) <= 64 else {"bytes": len(case.wire)}
    return {"number": case.number, "name": case.name, "rule": case.rule, "verdict": case.verdict.line, **short}


def differing(rows):
    """Kinds, words, ways and the numbers of the streams."""
    found = {}
    for row in rows:
        for kind, words in row.found:
            found.setdefault((kind, words, row.how), []).append(row.case.number)
    return [{"kind": kind, "words": words, "sent": how, "streams": numbers}
            for (kind, words, how), numbers in found.items()]


def role_of(rows):
    counts = {key: rules.Count(rows, key) for rule in rules.ALL for key in rule.keys}
    accepted = {key: [count.accepted, count.all] for key, count in counts.items() if count.all}
    return {"sessions": len(rows), "accepted": accepted, "differs": differing(rows)}


def implementation_of(peer):
    return {"name": peer.name, "variant_of": peer.peer.of, "set": peer.peer.set or None, "version": peer.version,
            "packages": peer.peer.packages, "day": peer.day,
            "roles": {role: role_of(rows) for role, rows in peer.roles.items()}, "sends": peer.sent}


def accepted_of(rule, key, compared):
    names, tried = rules.accepted_by(key, compared)
    return {"reason": rule.reason_of(key), "section": rule.section, "tried": tried, "by": [name for name, _ in names]}


def data(compared, cases_of):
    """All results, as JSON has them. `streams` has them by their sender: a server is sent a client's."""
    return {
        "accepted": {key: accepted_of(rule, key, compared) for rule in rules.ALL for key in rule.keys},
        "streams": {role: [stream_of(case) for case in cases_of[role]] for role in implementations.BOTH},
        "implementations": [implementation_of(peer) for peer in compared],
    }
