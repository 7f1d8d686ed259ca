"""The sessions of a file as a list and as captures: what pcap2wsn and netlog2wsn share."""

import concurrent.futures
import dataclasses
import itertools
import os
import pathlib
import re
import subprocess
import sys
from typing import BinaryIO, Dict, Iterator, List, Optional

from captures import comment, seconds, time_of_day
from http2 import NO_LIBRARY
from names import called, named
from program import NoProgram, program
from redaction import IN_ZEROS, check_program, redact, without_names, without_values
from recorded import OF_EXTENSIONS, Recorded, Sink
from sessions import Session
from streams import Connection


class Failed(Exception):
    """Why nothing is written."""


def say(text: str) -> None:
    """Reports something to the user."""
    print(f"{called()}: {text}", file=sys.stderr, flush=True)


@dataclasses.dataclass(frozen=True)
class Asked:
    """What a command line asks for: a list, one connection, or all into a folder. `given` is its word for the file.
    `redacts`: what is written and said is redacted."""

    given: str
    number: Optional[str]
    folder: Optional[pathlib.Path]
    redacts: bool

    @property
    def name(self) -> str:
        """What messages call the file."""
        return "standard input" if self.given == "-" else self.given


def is_number(word: str) -> bool:
    """Whether this can be the number of a connection, or of a stream."""
    return re.fullmatch(r"[0-9]{1,18}(\.[0-9]{1,10})?", word) is not None


def as_listed(number: str) -> str:
    """A number as the list has it, without zeros in front."""
    return ".".join(str(int(part)) for part in number.split("."))


class Reading:
    """One pass over a file: its sessions by the numbers of their connections."""

    kind = ""  # What messages call such a file.
    late = ""  # What else to do if a connection begins before the file.

    def __init__(self, asked: Asked, scratch: pathlib.Path):
        self.asked = asked
        self.scratch = scratch
        self.is_cut = False
        self.sessions: Dict[Connection, Session] = {}

    def why_none(self) -> str:
        """Why there is no connection to list."""
        raise NotImplementedError

    def sink_of(self, name: str) -> Optional[Sink]:
        """Where the lines of a connection or a stream are kept, if they are asked for."""
        if self.asked.number not in (None, name):
            return None
        return Sink(None if self.asked.redacts else self.scratch / name)

    def parts(self) -> Iterator[Recorded]:
        """The connections, and in place of those in HTTP/2 their streams."""
        for session in self.sessions.values():
            yield from session.parts

    def is_listed(self, session: Recorded) -> bool:
        """Whether its capture can be written, or its handshake failed."""
        return session.is_session or self.failed(session) != ""

    def list(self) -> List[Recorded]:
        """What the list has."""
        return [each for each in self.parts() if self.is_listed(each)]

    def failed(self, session: Recorded) -> str:
        """How a session's handshake failed; empty if it didn't, or if the file lacks a part of it."""
        return "" if session.is_begun and self.lacks(session) else session.failed

    def notes(self, session: Recorded) -> List[str]:
        """What is said of a session."""
        if not self.asked.redacts:
            return session.notes
        agreed, front = [note for note in session.notes if note.startswith(OF_EXTENSIONS[0])], len(OF_EXTENSIONS[0])
        others = [without_names(note) for note in session.notes if not note.startswith(OF_EXTENSIONS)]
        return others + [f"{note[:front]}{without_values(note[front:])}; {IN_ZEROS}" for note in agreed]

    def report_lacks(self) -> bool:
        """Reports what the list lacks; whether it lacks anything."""
        lacking = [each for each in self.parts() if each.is_begun and self.lacks(each)]
        said = [f"connection {each.name} has no whole handshake: {'; '.join(self.lacks(each))}" for each in lacking]
        said += [words for session in self.sessions.values() for words in self.unlisted(session)]
        if self.is_cut:
            said.append(f"the {self.kind} is cut short; connections after that aren't in it")
        for words in said:
            say(words)
        return said != []

    def unread(self) -> List[Session]:
        """The connections in HTTP/2 that can't be read without the library."""
        return [each for each in self.sessions.values() if each.is_http2 and each.streams is None]

    def unlisted(self, session: Session) -> List[str]:
        """Why a connection in HTTP/2 can have streams that aren't in the list."""
        if session in self.unread():
            return [f"connection {session.name} {NO_LIBRARY}"] if self.list() else []
        words = session.streams.missing("C", self.is_cut) if session.streams else ""
        return [f"connection {session.name}: streams that begin later aren't listed: client: {words}"] if words else []

    def check_list(self) -> None:
        """Failed, if there is nothing to list."""
        if not self.list():
            raise Failed(self.why_none())

    def lacks(self, session: Recorded) -> List[str]:
        """What is missing of a session's directions."""
        return session.lacks(self.is_cut)


def put_one(reading: Reading) -> int:
    """Writes one connection as a capture; the status."""
    asked = reading.asked
    number = asked.number or ""
    if number.partition(".")[0] in [each.name for each in reading.unread()]:
        raise Failed(f"connection {number.partition('.')[0]} of {asked.name} {NO_LIBRARY}")
    session = next((each for each in reading.parts() if each.name == number), None)
    if session is not None and reading.failed(session):
        raise Failed(f"{asked.name} has no frames of connection {number}: {session.refusal(asked.redacts)}")
    if session is not None and session.is_begun:
        for words in reading.lacks(session):
            say(words)
        raise Failed(f"{asked.name} has no whole handshake of connection {number}{reading.late}")
    reading.check_list()
    if session is None or not session.is_session:
        numbers = " ".join(each.name for each in reading.list() if each.is_session)
        raise Failed(f"{asked.name} has no connection {number} of WebSocket; it has these: {numbers or 'none'}")
    if session.lines is None:
        raise Failed(f"{asked.name} has no data of connection {number} that can be read")
    lacks = session.finish(reading.is_cut)
    for note in reading.notes(session):
        say(note)
    try:
        lacks = put(reading, session, sys.stdout.buffer) or lacks
        sys.stdout.flush()
    except OSError as error:
        raise Failed(f"can't write the capture: {error.strerror}") from error
    return 1 if lacks else 0


def put(reading: Reading, session: Recorded, file: BinaryIO) -> bool:
    """Writes a session's capture; whether its redaction lacks lines."""
    sink = session.sink
    assert sink is not None
    front = session.front + "".join(map(comment, session.notes))
    if not reading.asked.redacts:
        sink.write(file, front)
        return False
    ended = redact(lambda lines: sink.write(lines, front), file)
    if ended:
        say(f"connection {session.name}: the redaction ends before the capture does: {ended}")
    return ended != ""


def check_redaction(asked: Asked) -> None:
    """Failed, if redactions are asked for and the program makes none."""
    try:
        if asked.redacts:
            check_program()
    except NoProgram as missing:
        raise Failed(str(missing)) from missing


def put_list(reading: Reading) -> int:
    """Lists the connections, and writes their captures, which the outcomes require; the status."""
    status = 1 if reading.report_lacks() else 0
    reading.check_list()
    found = reading.list()
    paths = [capture_of(reading, session) for session in found]
    for session, path in zip(found, paths):
        if session.lines is None:
            continue
        if session.finish(reading.is_cut):
            status = 1
        say_notes(reading, session, reading.asked.folder and path)
        try:
            with open(path, "xb") as file:
                status = 1 if put(reading, session, file) else status
        except OSError as error:
            for each in paths[: paths.index(path) + 1]:
                each.unlink(missing_ok=True)
            raise Failed(f"can't write {path}: {error.strerror}") from error
    put_rows(reading, found, paths)
    return status


def say_notes(reading: Reading, session: Recorded, path: Optional[pathlib.Path]) -> None:
    """Reports the notes of a connection, but in a list alone those of extensions, which the list has."""
    for note in reading.notes(session):
        if path:
            say(f"{path}: {note}")
        elif not note.startswith(OF_EXTENSIONS):
            say(f"connection {session.name}: {note}")


def capture_of(reading: Reading, session: Recorded) -> pathlib.Path:
    """Where a session's capture is written."""
    return (reading.asked.folder or reading.scratch) / f"{session.name}.capture"


def put_rows(reading: Reading, found: List[Recorded], paths: List[pathlib.Path]) -> None:
    """Prints the list, without outcomes if the program isn't there: it takes a quarter of an hour to build."""
    path = ""
    if any(session.lines is not None for session in found):
        try:
            path = program()
        except NoProgram as missing:
            say(f"the outcomes are left out: {missing}")
    if reading.asked.folder is None and any(session.extensions != "-" for session in found):
        inflate = named("recipes/inflate")
        what = IN_ZEROS if reading.asked.redacts else f"{inflate} takes permessage-deflate away"
        say(f"warning: frames that use an extension are refused; {what}")
    with concurrent.futures.ThreadPoolExecutor(os.cpu_count()) as pool:
        for session, outcome in zip(found, pool.map(outcome_of, paths, itertools.repeat(path))):
            redacts = reading.asked.redacts
            extensions = without_values(session.extensions) if redacts else session.extensions
            print(*row(session, redacts), reading.failed(session) or outcome, extensions, sep="\t")


def row(session: Recorded, is_redacted: bool) -> List[str]:
    """What a line of the list has before the outcome; redacted, without the path."""
    began = session.asked or session.began if session.lines is None else session.lines.opened
    count = {"C": 0, "S": 0} if session.lines is None else session.lines.bytes
    lasted = seconds(max(0, session.last - began))
    numbers = session.name, time_of_day(began), lasted
    return [*numbers, *session.nodes, "-" if is_redacted else session.path, str(count["C"]), str(count["S"])]


def outcome_of(path: pathlib.Path, wsn: str) -> str:
    """The outcome that `wsn closing` prints of a capture, and the sides at fault; - without one, or without wsn."""
    if not wsn or not path.exists():
        return "-"
    with open(path, "rb") as file:
        done = subprocess.run([wsn, "closing"], stdin=file, capture_output=True, check=False)
    report = done.stdout.decode(errors="replace")
    found = re.search(r"^outcome (\S+)$", report, re.MULTILINE)
    if not found:
        return "-"
    refused = re.findall(r"^(client|server) refused (\S+ \S+) ", report, re.MULTILINE)
    return " ".join(filter(None, [found[1], ", ".join(map(" ".join, refused))]))


def is_capture(front: bytes) -> bool:
    """Whether a file that begins so is a capture."""
    return front[:2] in (b"C ", b"S ", b"# ")


def make_folder(folder: pathlib.Path) -> None:
    """Makes the folder for all captures. Failed, if it can't be made, or has some already."""
    try:
        folder.mkdir(parents=True, exist_ok=True)
    except OSError as error:
        raise Failed(f"can't make the folder {folder}: {error.strerror}") from error
    if any(folder.glob("*.capture")):
        raise Failed(f"{folder} has captures already; name another folder")
