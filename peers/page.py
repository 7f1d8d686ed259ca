"""docs/PEERS.md, a page for each implementation in docs/peers, and docs/peers/results.json, of the results of a run."""
import json
import os
import re

import cases
import differences
import pages
import rules
import verdicts

HERE = os.path.dirname(os.path.realpath(__file__))
# Which part of the bad bytes is nearly all.
NEARLY = 0.8
PAGE, FOLDER = f"{verdicts.TOP}/docs/PEERS.md", f"{verdicts.TOP}/docs/peers"


def table(header, rows):
    lines = ["|" + "|".join(header) + "|", "|" + "---|" * len(header)]
    return "\n".join(lines + ["|" + "|".join(row) + "|" for row in rows])


def both(cells):
    """A cell of the roles: server and client, or one if they are alike."""
    return ", ".join(cells) if len(set(cells)) > 1 else cells[0]


def upstream(version):
    """A version without what Debian adds."""
    return re.sub(r"^\d+:|[+~-].*$", "", version)


def is_failure(row):
    """Whether a refused stream was refused."""
    return row.case.verdict.word == "refused" and not row.has(
        differences.ACCEPTS, differences.UNKNOWN, differences.HANGS, differences.OWN_LIMIT, differences.FAULT)


def valid_cell(rows):
    """The valid streams that are refused without leave."""
    valid = {row.case.number for row in rows if row.case.rule == cases.VALID}
    refused = {row.case.number for row in rows if row.case.rule == cases.VALID and row.has(differences.REFUSES)}
    return f"{len(refused)}/{len(valid)}"


def others_cell(rows):
    """The valid streams at which something else differs."""
    kinds = (differences.MESSAGES, differences.PINGS, differences.CLOSES, differences.FAULT)
    valid = [row for row in rows if row.case.rule in (cases.VALID, cases.UNSETTLED)]
    refused = {row.case.number for row in valid if row.has(differences.OWN_LIMIT)
               or row.case.rule == cases.VALID and row.has(differences.REFUSES)}  # fmt: skip
    odd = {row.case.number for row in valid if row.has(*kinds, differences.REFUSES)} - refused
    return f"{len(odd)}/{len({row.case.number for row in valid})}"


def silent_cell(rows):
    """The failed connections that end without a Close."""
    failed = [row for row in rows if row.how == "whole" and row.case.rule != cases.DAMAGED and is_failure(row)]
    if any(words == differences.LOST for row in failed for _, words in row.found):
        return "some"
    return f"{sum(row.has(differences.NO_CLOSE) for row in failed)}/{len(failed)}" if failed else "-"


def later_codes_cell(rows):
    """The Closes with codes that may be refused, and are."""
    asked = {row.case.number for row in rows if row.case.verdict.close and row.case.may_be_refused()}
    refused = {row.case.number for row in rows if row.has(differences.MAY_REFUSE)}
    return f"{len(refused)}/{len(asked)}"


def at_once_cell(rows):
    """The bad texts that are refused at the bad byte, and not only at the frame's or message's end."""
    failed = [row for row in rows if row.case.rule == "text-bad" and row.how == "steps" and is_failure(row)]
    at_once = [row for row in failed if not row.has(differences.LATER)]
    return f"{len(at_once)}/{len(failed)}" if failed else "-"


def limit_cell(rows):
    """The shortest message that is refused with 1009."""
    sizes = [max(map(len, (payload for _, payload in row.case.verdict.messages)), default=0) for row in rows
             if row.case.rule == cases.VALID and row.has(differences.OWN_LIMIT)]
    return f"{min(sizes):,}" if sizes else "-"


def cells_of(peer, columns):
    return [both([column(rows) for rows in peer.roles.values()]) for column in columns]


def counted(rule):
    return lambda rows: rules.Count(rows, *rule.keys).cell()


def link(peer):
    """The name with its page, its role if it is but one, and what is set."""
    role = f" ({peer.peer.roles[0]})" if len(peer.peer.roles) == 1 else ""
    setting = f", {peer.peer.set}" if peer.peer.set else ""
    return f"[{peer.peer.of or peer.name}](peers/{pages.slug(peer.peer)}.md){role}{setting}"


def rows_of(compared, columns, more=lambda peer: []):
    """A row for each implementation, and for a variant if it isn't as the implementation itself."""
    cells = {peer.name: cells_of(peer, columns) for peer in compared if peer.roles}
    for peer in compared:
        if peer.roles and not (peer.is_variant() and cells[peer.name] == cells.get(peer.peer.of)):
            yield [link(peer), *more(peer), *cells[peer.name]]


def must_table(compared):
    header = ["Implementation", "Version", *[rule.title for rule in rules.MUST], "valid"]
    columns = [*map(counted, rules.MUST), valid_cell]
    return table(header, rows_of(compared, columns, lambda peer: [upstream(peer.version)]))


def sender_table(compared):
    header = ["Implementation", *[rule.title for rule in rules.SENDER]]
    return table(header, rows_of(compared, [*map(counted, rules.SENDER)]))


def choices_table(compared):
    header = ["Implementation", "no Close", "at the bad byte", "refuses 1010, 1012 to 1014", rules.ABOVE.title,
              "too long", "other answers"]
    columns = [silent_cell, at_once_cell, later_codes_cell, counted(rules.ABOVE), limit_cell, others_cell]
    return table(header, rows_of(compared, columns))


def refuses_later_codes(rows):
    """Whether it refuses all codes that were registered after the RFC."""
    refused = {row.case.verdict.close for row in rows if row.has(differences.MAY_REFUSE)}
    return refused >= set(cases.LATER_CODES)


def finds_at_once(rows):
    """Whether it finds nearly every bad byte of a text where it comes."""
    found, _, failed = at_once_cell(rows).partition("/")
    return failed != "" and int(found) >= NEARLY * int(failed)


def measured(compared):
    """What was measured, and when."""
    tried = sum(1 for peer in compared if peer.roles and not peer.is_variant())
    count = sum(len(rows) for peer in compared for rows in peer.roles.values())
    days = sorted({peer.day for peer in compared if peer.roles})
    when = days[0] if len(days) == 1 else f"{days[0]} to {days[-1]} (each page has its day)"
    return f"{when}: {tried} implementations, {count:,} sessions."


def filled_in(compared):
    """What page.md leaves out: numbers, by the rule of which they count the implementations that accept, and tables."""
    accepted = {key: rules.accepted_by(key, compared) for rule in rules.ALL for key in rule.keys}
    parts = {key: f"{len(names)} of {tried}" for key, (names, tried) in accepted.items()}
    counted = [peer for peer in compared if peer.roles and not peer.is_variant()]
    for key, test in (("later-codes", refuses_later_codes), ("at-once", finds_at_once)):
        parts[key] = str(sum(any(map(test, peer.roles.values())) for peer in counted))
    return {**parts, "measured": measured(compared), "must-table": must_table(compared),
            "sender-table": sender_table(compared), "choices-table": choices_table(compared)}


def page(compared):
    with open(f"{HERE}/page.md", encoding="utf-8") as file:
        text = file.read()
    for key, part in filled_in(compared).items():
        text = text.replace(f"{{{key}}}", part)
    return text


def write_text(path, text):
    with open(path, "w", encoding="utf-8") as file:
        file.write(text)


def write_json(path, compared, cases_of):
    """Each implementation on a line, so that a change of one is a change of one line."""
    data = pages.data(compared, cases_of)
    lines = [f"{json.dumps(key)}: {json.dumps(value)}" for key, value in data.items() if key != "implementations"]
    peers = ",\n".join(json.dumps(entry) for entry in data["implementations"])
    write_text(path, "{\n" + ",\n".join(lines) + ',\n"implementations": [\n' + peers + "\n]}\n")


def write(compared, cases_of):
    os.makedirs(FOLDER, exist_ok=True)
    write_text(PAGE, page(compared))
    names = set()
    for peer in compared:
        if not peer.is_variant():
            names.add(f"{pages.slug(peer.peer)}.md")
            write_text(f"{FOLDER}/{pages.slug(peer.peer)}.md", pages.page_of(peer, compared))
    write_json(f"{FOLDER}/results.json", compared, cases_of)
    for old in os.listdir(FOLDER):
        if old.endswith(".md") and old not in names:
            os.remove(f"{FOLDER}/{old}")
