"""The sessions with a peer: each stream in each way, and a second time if something differs."""
import asyncio
import dataclasses
import time

import cases
import differences
import implementations
import recordings
import talk

# A stream of at most this size is also sent one byte at a time, if it is accepted.
BY_BYTES = 200
# The stream of a server that is also sent in one piece with the answer to the handshake.
EARLY = "two messages at once"
# The stream that shows how a peer answers a Close.
CODED = "a Close with a code"
# How much longer the second look at a difference waits, and at how many streams at once.
PATIENCE, CAREFUL_JOBS = 4, 48
# For how many seconds a peer is tried at most.
PEER_LIMIT = 1200


def ways_of(case):
    """How a stream is sent. The first way says what differs; a difference in the others counts beside it."""
    if case.verdict.word == "refused":
        return ["steps", "whole"]
    more = ["bytes"] if case.verdict.word == "accepted" and len(case.wire) <= BY_BYTES else []
    return ["whole", *more, *(["early"] if case.name == EARLY and case.role == "server" else [])]


class Measured:
    """A peer in one role: its program, and how it answers a Close."""

    def __init__(self, peer, program):
        self.peer, self.program, self.usual = peer, program, differences.SAME
        self.jobs, self.careful = asyncio.Semaphore(peer.jobs), asyncio.Semaphore(min(peer.jobs, CAREFUL_JOBS))

    async def session(self, case, how, patience, jobs):
        async with jobs:
            await self.program.restart()
            name = f"{case.number}-{how}-{patience}"
            steps = differences.steps_of(case, how)
            session = await talk.probe(self.program, name, steps, differences.is_answered(case.verdict), patience)
            del self.program.sessions[name]
            return session.seen()

    async def look(self, case, how, before):
        """A difference counts only if it is there again when there is more time. `before` is the number of messages
        that come before the offending byte, where the way of sending doesn't show it."""
        for patience, jobs in ((1, self.jobs), (PATIENCE, self.careful)):
            seen = await self.session(case, how, patience, jobs)
            seen.before = max(seen.before, before)
            if not list(differences.differences(case, how, seen, self.peer, self.usual)):
                break
        return seen

    async def looks(self, case):
        """All ways of sending a stream, one after the other."""
        results, before = [], 0
        for how in ways_of(case):
            seen = await self.look(case, how, before)
            before = seen.before
            results.append({"case": case.number, "how": how, "seen": dataclasses.asdict(seen)})
        return results

    async def all_looks(self, chosen):
        found = await asyncio.gather(*[self.looks(case) for case in chosen])
        return [result for results in found for result in results]

    async def learn_usual(self, given):
        """How the peer answers a Close, before anything is compared with it."""
        case = next(case for case in given if case.name == CODED)
        seen = await self.session(case, "whole", PATIENCE, self.jobs)
        self.usual = differences.answer_to_close(seen, case.verdict.close)


def has_ended(results):
    return any(result["seen"]["fault"] == talk.ENDED for result in results)


async def tried(peer, role, command, given):
    """What a peer makes of each stream. The streams that may end a program come last, and one after the other if they
    do."""
    risky = [case for case in given if case.verdict.reason == "length-top-bit"]
    async with talk.Program(command, role, peer.environment()) as program:
        measured = Measured(peer, program)
        await measured.learn_usual(given)
        results = await measured.all_looks([case for case in given if case not in risky])
        last = await measured.all_looks(risky)
        if has_ended(last):
            last = [result for case in risky for result in await measured.all_looks([case])]
        return {"usual": measured.usual, "results": results + last}


async def try_role(entry, peer, role, command, given, at_once):
    """The results of a peer in one role, or why there are none."""
    async with at_once:
        start = time.monotonic()
        try:
            entry["roles"][role] = await asyncio.wait_for(tried(peer, role, command, given), PEER_LIMIT)
        except (OSError, asyncio.TimeoutError) as error:
            entry["missing"][role] = str(error) or f"it took longer than {PEER_LIMIT} s"
            print(f"{peer.name} as {role}: not run: {entry['missing'][role]}", flush=True)
            return
        sent = await recordings.record(command, role, peer.environment())
        entry["wires"][role] = [wire.hex() for wire in sent]
        count, took = len(entry["roles"][role]["results"]), time.monotonic() - start
        print(f"{peer.name} as {role}: {count} sessions, {took:.0f} s", flush=True)


def new_entry(peer, streams):
    day = time.strftime("%Y-%m-%d", time.gmtime())
    return {"name": peer.name, "day": day, "streams": streams, "roles": {}, "missing": {}, "wires": {}}


async def try_all(peers, roles, cases_of, at_once):
    """The entry of each peer: version, day, and results by role. All are built first."""
    entries, limit, tries = [], asyncio.Semaphore(at_once), []
    for peer in peers:
        entry = new_entry(peer, cases.digest(cases_of))
        entries.append(entry)
        try:
            entry["version"], command = peer.version(), peer.command()
        except implementations.CannotRun as error:
            entry["missing"] = {role: str(error) for role in peer.roles}
            print(f"{peer.name}: not run: {error}", flush=True)
            continue
        for role in [role for role in peer.roles if role in roles]:
            tries.append(try_role(entry, peer, role, command, cases_of[implementations.other(role)], limit))
    await asyncio.gather(*tries)
    for entry in entries:
        for part in ("roles", "missing", "wires"):
            # Not in the order in which they were ready.
            entry[part] = {role: entry[part][role] for role in implementations.BOTH if role in entry[part]}
    return entries
