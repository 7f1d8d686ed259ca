"""What was seen of each peer, compared with what `wsn` says."""
import cases
import differences
import implementations
import measure
import recordings
import talk

# How a stream was sent, for what differs only then.
HOWS = {"steps": "", "whole": ", if it comes whole", "bytes": ", if it comes byte by byte",
        "early": ", if it comes with the handshake's answer"}


class Row:
    """A session: its stream, how that was sent, what was seen, and how it differs."""

    def __init__(self, case, how, seen, found):
        self.case, self.how, self.seen, self.found = case, how, seen, found
        self.is_first = how == measure.ways_of(case)[0]

    def has(self, *kinds):
        return any(kind in kinds for kind, _ in self.found)


class Compared:
    """A peer's sessions by role, as they differ, and what it sends of its own."""

    def __init__(self, entry, cases_of):
        self.peer, self.entry = implementations.NAMES[entry["name"]], entry
        self.name, self.day, self.version = entry["name"], entry["day"], entry.get("version", "-")
        self.missing = entry["missing"]
        self.roles = {role: self.rows(role, kept, cases_of) for role, kept in entry["roles"].items()}
        self.wires = {role: tuple(map(bytes.fromhex, wires)) for role, wires in entry["wires"].items()}
        self.sent = {role: recordings.sent_by(role, *wires) for role, wires in self.wires.items()}

    def is_variant(self):
        return self.peer.is_variant()

    def rows(self, role, kept, cases_of):
        usual = kept["usual"]
        by_number = {case.number: case for case in cases_of[implementations.other(role)]}
        rows = []
        for result in kept["results"]:
            case, seen = by_number[result["case"]], talk.Seen(**result["seen"])
            found = list(differences.differences(case, result["how"], seen, self.peer, usual))
            rows.append(Row(case, result["how"], seen, found))
        return rows


def compared(entries, cases_of):
    streams = cases.digest(cases_of)
    others = [entry["name"] for entry in entries if entry["streams"] != streams]
    if others:
        raise SystemExit(f"the kept results of {', '.join(others)} are of other streams: measure them again")
    return [Compared(entry, cases_of) for entry in entries]
