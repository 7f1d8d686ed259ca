"""How what a peer did differs from what `wsn` says of the bytes."""
import frames
import talk

ACCEPTS, UNKNOWN, HANGS = "accepts what is refused", "can't be known", "neither accepts nor refuses"
REFUSES, MAY_REFUSE, OWN_LIMIT = "refuses what is accepted", "refuses a code that it may", "a limit of its own"
LATER, EARLIER, CODE, NO_CLOSE = "later", "earlier", "another close code", "no Close"
MESSAGES, PINGS, CLOSES, FAULT = "other messages", "pings", "Closes", "fault"
WAITS = "it waits"
# What is said of a peer whose Close may get lost, whether it came or not.
LOST, LOST_WITH = "in some sessions, not in others", "with a Close that comes in some sessions, not in others"
# The codes with which a connection fails, and that of a peer that finds a message too long.
FAILURES, TOO_LONG = ("1002", "1003", "1006", "1007", "1008", "1009", "1011"), "1009"
# The reasons that are about a length, so that a limit of the peer's own is no other matter.
ABOUT_LENGTHS = ("control-too-long", "length-top-bit")
# How a Close is answered, beside the codes: also what `usual` is, a peer's answer to one with the code 1000.
SAME, ENDS, NOTHING = "the same code", "the end of the connection", "nothing"
# The steps at which bytes are sent, and what the pages call a failure at them.
MOMENTS = {
    "before": "before the offending byte",
    "byte": "at the offending byte",
    "head": "once the frame's head has come",
    "frame": "at the frame's end",
    "message": "at the message's end",
    "rest": "at the next frame",
}


def answer_to_close(seen, own):
    """How a Close with this code is answered."""
    if not seen.closes:
        return ENDS if seen.ended else NOTHING
    return SAME if seen.code() == own else seen.code()



def steps_of(case, how):
    """The words and bytes of the steps in which a stream is sent, with a ping after it where one may come."""
    wire, verdict = case.wire, case.verdict
    ping = frames.control(frames.PING, talk.PROBE, case.role == "client")
    if verdict.word == "cut":
        return [("whole", wire), ("end", b"")]
    if verdict.word == "accepted":
        return [(how, wire + (b"" if verdict.close else ping))]
    after = b"" if frames.close_in(wire, verdict.offset) else ping
    if how == "whole":
        return [("whole", wire + after)]
    at = verdict.offset
    head = max(frames.head_end(wire, at), at + 1)
    frame, message = max(frames.frame_end(wire, at), head), frames.message_end(wire, at)
    steps = [("before", wire[:at]), ("byte", wire[at : at + 1]), ("head", wire[at + 1 : head]),
             ("frame", wire[head:frame]), ("message", wire[frame:message]), ("rest", wire[message:] + after)]
    return [step for step in steps if step[1]]


def is_answered(verdict):
    """What a peer has sent once it has read a whole valid stream."""
    if verdict.word == "accepted" and verdict.close:
        return lambda session: bool(session.closes())
    return lambda session: talk.PROBE in session.pongs()


def differences(case, how, seen, peer, usual):
    """Pairs of a kind and words. If it is left to chance whether the peer's Close comes, they don't depend on it."""
    if seen.fault:
        yield FAULT, seen.fault
        if seen.fault.startswith("no connection"):
            return
    found = list(of_stream(case, how, seen, peer, usual))
    if not (found and found[0][0] in (ACCEPTS, UNKNOWN, HANGS)):
        yield from in_messages(case.verdict, seen)
    yield from found


def of_stream(case, how, seen, peer, usual):
    if case.verdict.word == "refused":
        return of_refused(case, how, seen, peer, usual)
    if case.verdict.word == "cut":
        return of_cut(seen)
    return of_close(case, seen, peer, usual) if case.verdict.close else of_messages(case, seen, peer)


def in_messages(verdict, seen):
    found, expected = seen.messages, [[kind, talk.shortened(payload)] for kind, payload in verdict.messages]
    if found == expected:
        return
    same = 0
    while same < min(len(found), len(expected)) and found[same] == expected[same]:
        same += 1
    if same == len(found):
        yield MESSAGES, "its user doesn't get a message"
    elif same < len(expected):
        yield MESSAGES, "its user gets another message"
    else:
        more = "a message that wasn't finished" if verdict.word == "cut" else "one more message"
        yield MESSAGES, f"its user gets {more}"


def failed_how(seen):
    code = seen.code()
    return "without a Close" if code is None else "with no code" if code == "-" else f"with {code}"


def of_cut(seen):
    if seen.failed_at == "whole":
        yield REFUSES, f"{failed_how(seen)}, before the stream's end"


def of_messages(case, seen, peer):
    """Of a valid stream without a Close."""
    if seen.failed_at:
        kind = OWN_LIMIT if case.is_large and seen.code() == TOO_LONG else REFUSES
        yield kind, LOST_WITH if peer.loses_close else failed_how(seen)
        return
    pings = [talk.shortened(ping) for ping in (*case.verdict.pings, talk.PROBE)]
    if not seen.pongs:
        yield PINGS, "it answers no ping"
    elif seen.pongs == pings[: len(seen.pongs)] and len(seen.pongs) < len(pings):
        yield PINGS, "it answers only the first of several pings"
    elif not is_part(seen.pongs, pings) or seen.pongs[-1] != pings[-1]:
        yield PINGS, "its pongs have other payloads or another order"


def is_part(some, whole):
    rest = iter(whole)
    return all(one in rest for one in some)


def of_close(case, seen, peer, usual):
    """Of a valid stream that ends with a Close."""
    own = case.verdict.close
    how = answer_to_close(seen, own)
    if len(seen.closes) > 1:
        yield CLOSES, f"it sends {len(seen.closes)} Closes"
    refusal = MAY_REFUSE if case.may_be_refused() else REFUSES
    if peer.loses_close and seen.ended and how in (ENDS, "1002", "1007"):
        yield refusal, LOST_WITH
    elif how in FAILURES or how == ENDS and usual != ENDS:
        yield refusal, failed_how(seen)
    elif how == ENDS:
        yield CLOSES, "it ends the connection without a Close"
    elif how == NOTHING:
        yield CLOSES, "it doesn't answer the Close"
    elif how != SAME and (own, how) != ("-", "1000"):
        yield CLOSES, f"it answers with {'no code' if how == '-' else how}"


def close_taken(seen, own, usual):
    """ACCEPTS or UNKNOWN if a Close that is refused is answered as any Close, or None. `usual` is the answer to one with
    the code 1000. If that might as well be a failure, it must be reported to the user."""
    how = answer_to_close(seen, own)
    if how == usual and how in (ENDS, NOTHING, "-"):
        return ACCEPTS if is_reported(seen, own) else UNKNOWN
    return ACCEPTS if how in (SAME, "1000", "-") else None


def is_reported(seen, own):
    """Whether a Close with this code is reported to the peer's user."""
    return seen.reported == own or own in ("-", frames.ONE_BYTE) and seen.reported == "1005"


def later_messages(case, seen):
    """How many messages came after the offending byte. Of a stream in one piece at which the connection failed they
    don't count: the failure may have been first."""
    return 0 if seen.failed_at == "whole" else len(seen.messages) - max(seen.before, len(case.verdict.messages))


def has_gone_on(case, seen):
    """Whether the ping after the stream is answered, or the offending frame itself if that is a ping."""
    frame = frames.frame_of(case.wire, case.verdict.offset)
    is_ping = frame and frame.opcode == frames.PING and frame.payload not in case.verdict.pings
    return seen.is_alive() or bool(is_ping) and talk.shortened(frame.payload) in seen.pongs


def taken(case, seen, usual):
    """ACCEPTS, UNKNOWN or HANGS if a peer doesn't refuse what is refused, or None. Messages count that came after the
    offending byte was sent, pongs, and answers to a Close; but not after the connection has failed."""
    own = frames.close_in(case.wire, case.verdict.offset)
    if later_messages(case, seen) > 0 or not seen.failed_at and has_gone_on(case, seen):
        return ACCEPTS
    if own is not None and (found := close_taken(seen, own, usual)):
        return found
    if not seen.failed_at:
        # Of a length of 2^63 or more the payload never comes.
        return ACCEPTS if case.verdict.reason == "length-top-bit" else HANGS
    is_answer = own is None and seen.code() not in (None, "-", *FAILURES)
    return ACCEPTS if is_answer and seen.failed_at in ("rest", "whole") else None


def taken_how(case, seen):
    """What a peer does that doesn't refuse what is refused."""
    own = frames.close_in(case.wire, case.verdict.offset)
    if later_messages(case, seen) > 0:
        return "its user gets a message"
    if not seen.failed_at and has_gone_on(case, seen):
        return "it goes on"
    if seen.closes:
        return f"it answers with {answer_in_words(seen, own)}"
    if own is not None and is_reported(seen, own):
        return "it is reported to its user"
    return "it ends the connection, as at any Close" if seen.ended else WAITS


def answer_in_words(seen, own):
    how = answer_to_close(seen, own)
    return "no code" if how == "-" else "the same byte" if (how, own) == (SAME, frames.ONE_BYTE) else how


def of_refused(case, how, seen, peer, usual):
    if kind := taken(case, seen, usual):
        yield kind, taken_how(case, seen)
        return
    code = seen.code()
    if case.is_large and code == TOO_LONG and case.verdict.reason not in ABOUT_LENGTHS:
        yield OWN_LIMIT, failed_how(seen)
        return
    if how == "steps" and seen.failed_at not in ("byte", "head"):
        yield EARLIER if seen.failed_at == "before" else LATER, MOMENTS[seen.failed_at]
    if peer.loses_close:
        yield NO_CLOSE, LOST
    elif code is None:
        yield NO_CLOSE, "it ends the connection without a Close"
    elif code != case.verdict.code:
        yield CODE, "no code" if code == "-" else code
