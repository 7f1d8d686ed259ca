"""--redact of the recipes and of page/build: nothing of what was said is written, printed or left in a file."""

import os
import re
import signal
import socket
import subprocess
import sys
import threading
import time

import pcaps
from harness import SECONDS, TOP, WSN, Failed, run, said_in, same, short, sides, test, wait_for, want
from test_netlog import BEGUN, CLOSED, SENT, made, passed
from test_record import exactly, flood, plain, sessions, until

sys.path[:0] = [str(TOP / "recipes"), str(TOP / "tests")]

from redaction import without_values  # noqa: E402
from secret_session import (  # noqa: E402
    BEARER, BODY, COOKIE, LEFT, LINE, PATH, PROTOCOL, QUERY, TALK, TEXT, VALUE, frame, secrets_in, written,
)  # fmt: skip

ASK = (b"GET %s?%s HTTP/1.1\r\nHost: localhost:1\r\nUpgrade: websocket\r\nConnection: Upgrade\r\nCookie: %s\r\n\r\n"
       % (PATH, QUERY, COOKIE))  # fmt: skip
ANSWER = (b"HTTP/1.1 101 %s\r\nUpgrade: websocket\r\nConnection: Upgrade\r\nSec-WebSocket-Protocol: %s\r\n"
          b"Sec-WebSocket-Extensions: x-one; id=\"a,%s\"\r\n\r\n" % (LINE, PROTOCOL, VALUE))  # fmt: skip
REFUSAL = (b"HTTP/1.1 401 %s\r\nWWW-Authenticate: Bearer realm=%s\r\nLocation: %s\r\nContent-Length: %d\r\n\r\n%s"
           % (LINE, BEARER, PATH, len(BODY), BODY))  # fmt: skip


def holds_no_secret(data, what):
    """A test fails if a secret is in here."""
    found = secrets_in(data)
    want(not found, f"{what} holds {found}: {short(data)}")


def no_file_holds_a_secret(folder, what, but=()):
    """A test fails if a secret is in a file of this folder."""
    for path in folder.rglob("*"):
        if path.is_file() and path.name not in but:
            holds_no_secret(path.read_bytes(), f"{what}: {path.relative_to(folder)}")


@test
def redact_forms_are_found(folder):
    """What is looked for is in sessions that aren't redacted."""
    for data in written(TALK), b"".join(frame for _, frame in TALK), ASK + ANSWER + REFUSAL:
        try:
            holds_no_secret(data, "a session")
        except Failed:
            continue
        raise Failed(f"no secret is found in {short(data)}")


# Lists of extensions, and what is left of them (RFC 7230, 3.2.6): without the quoted strings, and all that is no name.
LISTS = (
    ("x; a=1;b , y", "x; a=;b , y"),
    ('x; a="b,c;d", y', "x; a=, y"),
    ('x; a="b\\",c\\\\"; d', "x; a=; d"),
    ('x; a="b, c', "x; a="),
    ('x; a="b\\', "x; a="),
    ('x"y, z"a; b', "x; b"),
    ("x (y z), a/b=c", "x , a"),
    ("!#$%&'*+-.^_`|~; a:b", "!#$%&'*+-.^_`|~; a"),
)


@test
def redact_leaves_names_of_extensions(folder):
    """Of each list what the recipes say of it, and what the program writes."""
    for text, names in LISTS:
        same(without_values(text), names, text)
        out = run(WSN, "redact", "-", input=f"# extensions: {text}\n".encode())[0]
        same(out, f"# extensions: {names}\n".encode(), f"redact of {text}")


@test
def record_redacts(folder):
    """Each line before its bytes are passed on; what is shown and said; the session itself has all bytes."""
    shown = folder / "shown"
    with sessions(folder, "--redact", "--show", shown=shown) as all_sessions:
        client, server, _ = all_sessions.open(ASK, ANSWER)
        path = all_sessions.folder / "0001.capture"
        for at, (side, data) in enumerate(TALK, 1):
            one, other = (client, server) if side == "C" else (server, client)
            one.sendall(data)
            same(exactly(other, len(data)), data, "what is passed on")
            same(plain(path.read_bytes()), written(LEFT[:at]), "the lines by then")
        client.close()
        server.close()
        lines = all_sessions.recorded()
        want(lines.endswith(b".\n") and lines.count(b".\n") == 2, f"the ends: {lines}")
        wait_for(lambda: b"outcome" in shown.read_bytes(), "the report")
        same(run(WSN, "closing", input=written(TALK) + b"C.\nS.\n")[0].splitlines()[:2],
             run(WSN, "closing", input=lines)[0].splitlines()[:2], "the report")  # fmt: skip
        comments = [line for line in said_in(lines) if line != "#"]
        same(comments, ["# extensions: x-one; id="], "the comments")
        said = "".join(all_sessions.proxy.said)
        want("a request, answered 101" in said and "a subprotocol was not offered" in said, f"what is said: {said}")
        want('"Xxxxx0xx-xx-Xxx"' in shown.read_text(), f"what is shown: {shown.read_text()}")
        holds_no_secret(said.encode(), "what is said")
    no_file_holds_a_secret(folder, "record")


@test
def record_says_nothing_of_failed_handshakes(folder):
    """An answer without frames, none, and no server; a URL with a path."""
    with sessions(folder, "--redact", path=(PATH + b"?" + QUERY).decode()) as all_sessions:
        client, server = all_sessions.connect()
        client.sendall(ASK)
        until(server, b"\r\n\r\n")
        server.sendall(REFUSAL)
        same(exactly(client, len(REFUSAL)), REFUSAL, "the refusal")
        client, server = all_sessions.connect()
        client.sendall(ASK)
        until(server, b"\r\n\r\n")
        server.close()
        wait_for(lambda: any("the server ended" in line for line in all_sessions.proxy.said), "an end")
        all_sessions.listener.close()
        with socket.create_connection(("127.0.0.1", all_sessions.port), SECONDS) as client:
            client.sendall(ASK)
            until(client, b"\r\n\r\n")
        wait_for(lambda: any("can't connect" in line for line in all_sessions.proxy.said), "a refusal")
        said = "".join(all_sessions.proxy.said)
        for words in "a request, answered 401", "what the answer says is left out", "a request, not answered: ":
            want(words in said, f"not {words!r}: {said}")
        holds_no_secret(said.encode(), "what is said")
    no_file_holds_a_secret(folder, "record")


@test
def record_redacts_whole_lines_when_it_stops(folder):
    """Ctrl-C amid a session: status 0, and all that was passed on is in whole lines; after a refusal it is zeros."""
    with sessions(folder, "--redact") as all_sessions:
        client, server, _ = all_sessions.open()
        threading.Thread(target=flood, args=(client,), daemon=True).start()
        exactly(server, 300_000)
        all_sessions.proxy.send_signal(signal.SIGINT)
        same(all_sessions.proxy.wait(SECONDS), 0, "the status")
        lines = (all_sessions.folder / "0001.capture").read_bytes()
        want(lines.endswith(b"\n"), "the last line isn't whole")
        data, _, ended = sides(lines)
        want(len(data) >= 300_000 and data[:1] == b"\x07" and not any(data[1:]) and not ended, "the capture")


LONG = [("S", b"\x81\x7e\xff\x00" + TEXT * 4352)] * 3  # More than the recipes keep in memory else.


def environment(folder):
    """Where temporary files come into a folder, and each call of the program copies all files as they are then."""
    for name in "temporary", "seen":
        (folder / name).mkdir(exist_ok=True)
    script = folder / "program"
    script.write_text(f"""#!/bin/sh
seen=$(mktemp -d '{folder}/seen/XXXXXX')
cp -r '{folder}/temporary' '{folder}/all' "$seen" 2>/dev/null
exec '{WSN}' "$@"
""")
    script.chmod(0o755)
    return {**os.environ, "WSN": str(script), "TMPDIR": str(folder / "temporary")}


def pcap_of(folder):
    """A pcap with a session, one whose handshake fails, and a long one."""
    packets, hello = [], [("C", ASK), ("S", ANSWER)]
    for number, talk in enumerate(([*hello, *TALK], [("C", ASK), ("S", REFUSAL)], [*hello, *LONG, *TALK])):
        packets += [each._replace(seconds=number) for each in pcaps.session(talk, 40000 + number, 80)]
    pcaps.write(folder / "in.pcap", packets)
    return folder / "in.pcap"


def redacts(folder, recipe, source, number, given):
    """A recipe redacts one session, a list, and all of them; what it writes is the redaction of what it writes else."""
    whole = run(TOP / recipe, source, number, env=environment(folder))[0]
    for path in (folder / "seen").iterdir():
        run("rm", "-r", path)
    for what, words, options in (
        ("one", [source, number], {}),
        ("standard input", ["-", number], {"input": given}),
        ("a list", [source], {}),
        ("all", ["--all", source, folder / "all"], {}),
    ):
        out, said = run(TOP / recipe, "--redact", *words, env=environment(folder), **options)
        holds_no_secret(out, f"{recipe}, {what}: standard output")
        holds_no_secret(said, f"{recipe}, {what}: standard error")
        if number in words:
            same(out, run(WSN, "redact", "-", input=whole)[0], f"{recipe}: {what}")
        else:
            want(b"\tclean\tx-one; id=\n" in out or b"\tfailed " in out, f"{recipe}: the outcomes, {out}")
        no_file_holds_a_secret(folder, f"{recipe}, {what}", (source.name,))
        want(list((folder / "seen").iterdir()), "the program wasn't called")
    same(sorted(os.listdir(folder / "temporary")), [], "temporary files that are left")
    same((folder / "all" / f"{number}.capture").read_bytes(), run(WSN, "redact", "-", input=whole)[0], "a file")


@test
def pcap_redacts(folder):
    """One session, the list, all of them, from a file and from standard input; also of a handshake that failed."""
    source = pcap_of(folder)
    redacts(folder, "recipes/pcap2wsn", source, "0", source.read_bytes())
    out = run(TOP / "recipes/pcap2wsn", "--redact", source, "0")[0]
    same(plain(out), written(LEFT) + b"C.\nS.\n", "the lines")
    out, said = run(TOP / "recipes/pcap2wsn", "--redact", source, "1", status=2)
    same(out, b"", "of a handshake that failed")
    want(said.endswith(b"no frames of connection 1: the request has the answer 401\n"), f"what is said: {said}")
    holds_no_secret(said, "what is said of it")
    pcaps.write(source, pcaps.session([("C", ASK), ("S", ANSWER), *LONG * 10], 40000, 80))
    with open("/dev/full", "wb") as full:
        words = [TOP / "recipes/pcap2wsn", "--redact", source, "0"]
        done = subprocess.run(words, stdout=full, stderr=subprocess.PIPE, check=False, timeout=SECONDS)
    same((done.returncode, done.stderr.splitlines()[-1]),
         (2, b"pcap2wsn: can't write the capture: No space left on device"), "a full device")  # fmt: skip


@test
def netlog_redacts(folder):
    """The same of a net log, also of a request that wasn't sent, and of one that isn't listed."""
    url = f"ws://localhost{PATH.decode()}?{QUERY.decode()}"
    unsent = ("REQUEST_ALIVE", 1, {"url": url}, 8), ("REQUEST_ALIVE", 2, {"net_error": -105}, 8)
    events = [*BEGUN, passed("C", ASK), passed("S", ANSWER), *(passed(*each) for each in TALK), passed("S", b""), CLOSED]
    source = made(folder, [*events, *unsent])
    redacts(folder, "recipes/netlog2wsn", source, "7", source.read_bytes())
    out, said = run(TOP / "recipes/netlog2wsn", "--redact", source)
    want(b"no request for ws://localhost was sent: ERR_NAME_NOT_RESOLVED\n" in said, f"what is said: {said}")
    asked = ("REQUEST_ALIVE", 1, {"url": url.replace("Ann9", "Ann9x")}, 9), SENT
    said = run(TOP / "recipes/netlog2wsn", "--redact", made(folder, [*events, *asked]), status=1)[1]
    want(b"ws://localhost isn't listed" in said, f"what is said: {said}")
    holds_no_secret(said, "what is said")


@test
def page_redacts(folder):
    """The whole page, and those of a part; its bytes are the redacted capture's."""
    name, text = folder / "in.capture", written(TALK)
    name.write_bytes(b"# path: %s\n# 0.000001\n%s%sC.\nS.\n" % (PATH, text, b"# 0.5\n"))
    bad = folder / "bad.capture"
    bad.write_bytes(written([("S", frame("S", 1, TEXT)), ("S", b"\x81\x02" + b"\xc3\x28"), ("S", TEXT)]))
    for words in [name], [name, "--from", "3", "--to", "4"], [bad, "--around-refusal"], [name, "--limit", "4"]:
        page, said = run(TOP / "page/build", "--redact", *words, env=environment(folder))
        holds_no_secret(page + said, f"the page of {words}")
        no_file_holds_a_secret(folder, f"the page of {words}", ("in.capture", "bad.capture"))
    redacted = run(WSN, "redact", name)[0]
    (folder / "out").mkdir()
    (folder / "out/in.capture").write_bytes(redacted)
    for words in [], ["--from", "3", "--to", "4"]:
        wanted = run(TOP / "page/build", *words, folder / "out/in.capture")[0]
        same(run(TOP / "page/build", "--redact", *words, name)[0], wanted, f"the page {words}")
        same(run(TOP / "page/build", "--redact", *words, "-", input=name.read_bytes())[0].count(b"Xxxxx0xx-xx-Xxx") > 0,
             True, "standard input")  # fmt: skip
    (folder / "wrong.capture").write_text("# a\nS 81zz\n")
    out, said = run(TOP / "page/build", "--redact", folder / "wrong.capture", status=2)
    same((out, b"line 2: bad-hex" in said), (b"", True), f"a malformed line: {said}")
    said = run(TOP / "page/build", "--redact", status=2, stdin=open(os.devnull, "rb"))[1]
    want(b"--redact is for a capture, and none is named" in said, f"without a capture: {said}")


# What each recipe is called with where the program redacts nothing, and a folder that it would make.
def calls(folder):
    name = folder / "in.capture"
    name.write_bytes(written(TALK))
    return [["recipes/record", "--redact", "1", "ws://localhost", folder / "made"],
            ["recipes/pcap2wsn", "--redact", pcap_of(folder), "0"],
            ["recipes/pcap2wsn", "--redact", "--all", folder / "in.pcap", folder / "made"],
            ["recipes/netlog2wsn", "--redact", "--all", made(folder, BEGUN), folder / "made"],
            ["page/build", "--redact", name]]  # fmt: skip


@test
def redact_requires_a_program_that_does(folder):
    """Without the program, with an older one, and with one that writes what it reads: a line, status 2, nothing written."""
    program = folder / "program"
    for script, wanted in (
        (None, b"that is no program that can be run"),
        ("exit 2", b"--redact requires a program with 'wsn redact CAPTURE', and "),
        ("exec cat", b"--redact requires a program with 'wsn redact CAPTURE', and "),
    ):
        if script:
            program.write_text(f"#!/bin/sh\n{script}\n")
            program.chmod(0o755)
        for recipe, *words in calls(folder):
            out, said = run(TOP / recipe, *words, status=2, env={**os.environ, "WSN": str(program)})
            same((out, said.count(b"\n"), wanted in said), (b"", 1, True), f"{recipe}, {script}: {said}")
            want(not (folder / "made").exists(), f"{recipe}, {script}: a folder is made")


@test
def redact_that_ends_early_is_said(folder):
    """A program that redacts two lines: the session goes on and no more is recorded; a pcap's capture is short."""
    program = folder / "program"
    program.write_text(f"""#!/bin/sh
[ "$1" = redact ] || exec '{WSN}' "$@"
for line in 1 2; do
    IFS= read -r line || exit 0
    case $line in S*) echo "S 810178" ;; *) echo "#" ;; esac
done
IFS= read -r line || exit 0
echo "line 3: too-many" >&2
exit 2
""")
    program.chmod(0o755)
    source, env = pcap_of(folder), {**os.environ, "WSN": str(program)}
    out, said = run(TOP / "recipes/pcap2wsn", "--redact", source, "0", status=1, env=env)
    same(out, b"#\n#\n", "what is written")
    want(b"the redaction ends before the capture does: line 3: too-many\n" in said, f"what is said: {said}")
    rows = run(TOP / "recipes/pcap2wsn", "--redact", "--all", source, folder / "all", status=1, env=env)[0]
    same(rows.count(b"\n"), 3, "the rows")
    with sessions(folder, "--redact", program=program) as all_sessions:
        client, server, _ = all_sessions.open(ASK, ANSWER)
        for _ in range(3):
            client.sendall(TALK[0][1])
            same(exactly(server, len(TALK[0][1])), TALK[0][1], "what is passed on")
            time.sleep(0.01)
        client.close()
        server.close()
        same(all_sessions.recorded(), b"#\n#\n", "what is recorded")
        said = "".join(all_sessions.proxy.said)
        same(len(re.findall("0001.capture: no more is recorded: line 3: too-many\n", said)), 1, f"what is said: {said}")
    no_file_holds_a_secret(folder, "record", (source.name,))
