"""recipes/pcap2wsn: the sessions under tests/samples, sessions recorded now, and pcaps of them mangled."""

import contextlib
import gzip
import os
import re
import shutil
import socket
import struct
import subprocess

import pcaps
from harness import (SAMPLES, SESSIONS, TOP, WSN, captured, needs, record_session, run, said_in, same, samples, short,
                     sides, test, times, want)  # fmt: skip
from test_record import RESET, exactly, sessions

UPGRADE = b"GET /chat?key=x HTTP/1.1\r\nUpgrade: websocket\r\n\r\n"
ANSWER = b"HTTP/1.1 101 Switching Protocols\r\nUpgrade: websocket\r\n\r\n"
HANDSHAKE = [("C", UPGRADE), ("S", ANSWER)]


def pcap2wsn(*words, status=0, **options):
    """What pcap2wsn writes, and says."""
    out, said = run(TOP / "recipes/pcap2wsn", *words, status=status, **options)
    return out, said.decode()


@test
def pcap_gives_what_the_proxy_saw(folder):
    """Each sample's pcap gives the capture that the proxy recorded."""
    needs("tshark")
    for name, words in samples():
        out, said = pcap2wsn(SAMPLES / f"{name}.pcap", *words)
        same(sides(out), sides((SAMPLES / f"{name}.capture").read_bytes()), name)
        same("permessage-deflate" in said, name == "deflate", f"{name}: the warning")
        lines = out.splitlines()
        joined = [one[:1] != two[:1] or len(one) == 8194 for one, two in zip(lines, lines[1:]) if one[:1] in b"CS"]
        want(all(joined[:-2]), f"{name}: neighbours aren't joined, {[len(line) for line in lines]}")


@test
def live_sessions_give_what_the_proxy_saw(folder):
    """The same, of sessions that are recorded now."""
    needs("tshark")
    for name in SESSIONS:
        record_session(name, folder)
        keys = folder / f"{name}.keys"
        out, _ = pcap2wsn(folder / f"{name}.pcap", "0", *([keys] if keys.exists() else []))
        same(sides(out), sides((folder / f"{name}.capture").read_bytes()), name)


@test
def pcap_mangled_gives_the_same(folder):
    """Segments cut, out of order and repeated."""
    needs("tshark")
    for name, words in samples():
        packets, link = pcaps.read(SAMPLES / f"{name}.pcap")
        wanted = sides((SAMPLES / f"{name}.capture").read_bytes())
        for size in 1, 7, 60:
            begin = packets if size > 1 else packets[:12]
            pieces = pcaps.split(begin, size) + packets[len(begin) :]
            pcaps.write(folder / "mangled.pcap", pieces, link)
            same(sides(pcap2wsn(folder / "mangled.pcap", *words)[0]), wanted, f"{name} in pieces of {size}")
        pcaps.write(folder / "mangled.pcap", pcaps.repeated(pcaps.shuffled(pcaps.split(packets, 60))), link)
        same(sides(pcap2wsn(folder / "mangled.pcap", *words)[0]), wanted, f"{name} out of order and repeated")


@test
def pcap_that_lacks_a_segment_says_so(folder):
    """Each segment after the handshake lost in turn: the bytes before it, a note, no end mark, status 1."""
    needs("tshark")
    for name in "basic", "server-closes", "abort":
        packets, link = pcaps.read(SAMPLES / f"{name}.pcap")
        wanted = sides((SAMPLES / f"{name}.capture").read_bytes())
        for at, side in enumerate(("client", "server")):
            places = pcaps.data_of(packets, at)
            lengths = [len(pcaps.Segment(packets[place]).payload) for place in places]
            head = sum(lengths) - len(wanted[at])
            for lost in range(1, len(places)):
                if sum(lengths[:lost]) < head:
                    continue
                pcaps.write(folder / "lost.pcap", pcaps.without(packets, [places[lost]]), link)
                what = f"{name} without packet {places[lost] + 1}"
                out, said = pcap2wsn(folder / "lost.pcap", "0", status=1)
                got, left = sides(out), sum(lengths[:lost]) - head
                same(got[at], wanted[at][:left], f"{what}: its side")
                same(got[1 - at], wanted[1 - at], f"{what}: the other side")
                same(got[2], wanted[2] - {"CS"[at]}, f"{what}: the end marks")
                want(f"{side}: whole up to byte {left} of its frames: {lengths[lost]} byte" in said, f"{what}: {said}")


@test
def pcap_of_tls_that_lacks_a_segment_says_so(folder):
    """Behind the handshake: the bytes of the records before it, no end mark, status 1."""
    needs("tshark")
    packets, link = pcaps.read(SAMPLES / "tls.pcap")
    wanted = sides((SAMPLES / "tls.capture").read_bytes())
    for at, side in enumerate(("client", "server")):
        for place in pcaps.data_of(packets, at)[4:]:
            pcaps.write(folder / "lost.pcap", pcaps.without(packets, [place]), link)
            out, said = pcap2wsn(folder / "lost.pcap", "0", SAMPLES / "tls.keys", status=1)
            got, what = sides(out), f"tls without packet {place + 1}"
            want(wanted[at].startswith(got[at]), f"{what}: no front of what was sent")
            same(got[1 - at], wanted[1 - at], f"{what}: the other side")
            same(got[2], wanted[2] - {"CS"[at]}, f"{what}: the end marks")
            want(f"{side}: whole up to byte {len(got[at])} of its frames: " in said, f"{what}: {said}")


@test
def pcap_with_a_short_snaplen_says_so(folder):
    """Packets captured short: a note that names one, no end mark, status 1; without the handshake status 2."""
    needs("tshark")
    packets, link = pcaps.read(SAMPLES / "basic.pcap")
    wanted = sides((SAMPLES / "basic.capture").read_bytes())
    pcaps.write(folder / "short.pcap", pcaps.snapped(packets, 400), link)
    out, said = pcap2wsn(folder / "short.pcap", "0", status=1)
    got = sides(out)
    for at, name in enumerate(("client", "server")):
        want(wanted[at].startswith(got[at]) and 60 < len(got[at]) < 500, f"{name}: no front of what was sent")
        want(re.search(rf"{name}: whole up to byte {len(got[at])} of .* captured short", said), said)
    same(got[2], set(), "end marks")
    pcaps.write(folder / "short.pcap", pcaps.snapped(packets, 100), link)
    out, said = pcap2wsn(folder / "short.pcap", "0", status=2)
    same(out, b"", "what is written without a handshake")
    want("captured short" in said, said)
    pcaps.write(folder / "short.pcap", pcaps.snapped(packets, 68), link)
    want("packet 4 was captured short" in pcap2wsn(folder / "short.pcap", status=2)[1], "heads alone")


@test
def pcap_cut_short_says_so(folder):
    """A pcap that ends in the middle of a packet."""
    needs("tshark")
    blob = (SAMPLES / "basic.pcap").read_bytes()
    wanted = sides((SAMPLES / "basic.capture").read_bytes())
    (folder / "cut.pcap").write_bytes(blob[: len(blob) * 2 // 3])
    out, said = pcap2wsn(folder / "cut.pcap", "0", status=1)
    got = sides(out)
    want(wanted[0].startswith(got[0]) and wanted[1].startswith(got[1]), "no fronts of what was sent")
    same(got[2], set(), "end marks")
    want("client: whole up to" in said and "server: whole up to" in said and "cut short" in said, said)


@test
def pcap_puts_what_it_says_into_the_capture(folder):
    """At the front, in lines that `wsn closing` reads over; nothing where nothing is said."""
    packets, link = pcaps.read(SAMPLES / "basic.pcap")
    pcaps.write(folder / "lost.pcap", pcaps.without(packets, [pcaps.data_of(packets, 1)[2]]), link)
    pcaps.write(folder / "short.pcap", pcaps.snapped(packets, 400), link)
    (folder / "cut.pcap").write_bytes((SAMPLES / "basic.pcap").read_bytes()[:15000])
    long = ANSWER[:-2] + b"Sec-WebSocket-Extensions: " + b"x" * 9000 + b"\r\n\r\n"
    pcaps.write(folder / "long.pcap", pcaps.session([("C", UPGRADE), ("S", long)], 40000, 80))
    for words, status, count, more in (
        ([SAMPLES / "basic.pcap", "0"], 0, 0, ["path", "answer"]),
        ([SAMPLES / "deflate.pcap", "0"], 0, 2, ["path", "answer", "extensions"]),
        (["-m", SAMPLES / "basic.pcap", "0"], 0, 3, []),
        ([folder / "lost.pcap", "0"], 1, 1, ["path", "answer"]),
        ([folder / "short.pcap", "0"], 1, 2, ["path", "answer"]),
        ([folder / "cut.pcap", "0"], 1, 2, ["path", "answer"]),
        ([folder / "long.pcap", "0"], 0, 3, ["path", "answer", "extensions"]),
    ):
        out, said = pcap2wsn(*words, status=status)
        first, *comments = said_in(out)
        want(re.fullmatch(r"# (open|recorded) since \d{4}-\d\d-\d\dT\d\d:\d\d:\d\d\.\d{6}Z", first), f"{words}: {first}")
        same([line.split(":")[0][2:] for line in comments[: len(more)]], more, f"{words}: the front")
        wanted = [line.replace("pcap2wsn: ", "# ", 1)[:8194] for line in said.splitlines()]
        same((comments[len(more) :], len(wanted)), (wanted, count), f"{words}: what is said")
        same(out.decode().splitlines()[: 1 + len(comments)], [first, *comments], f"{words}: the front comes first")
        sides(out)
        said = run(WSN, "closing", status=None, input=out)[1].splitlines()
        faults = [line for line in said if not line.startswith(b"hint: ")]
        same(faults, [], f"{words}: what wsn says of the capture")
    wanted = ["# path: /chat", "# answer: HTTP/1.1 101 Switching Protocols"]
    same(said_in(pcap2wsn(folder / "long.pcap", "0")[0])[1:3], wanted, "the path, without its query, and the answer")


# The key of RFC 6455, 1.3, and its accept.
KEYED = UPGRADE[:-2] + b"Sec-WebSocket-Key: dGhlIHNhbXBsZSBub25jZQ==\r\nSec-WebSocket-Protocol: chat\r\n\r\n"
ACCEPT = ANSWER[:-2] + b"Sec-WebSocket-Accept: s3pPLMBiTxaQ9kYGzzhZRbK+xOo=\r\n"


@test
def pcap_finds_what_is_wrong_with_an_answer(folder):
    """A wrong accept, and what wasn't offered: on standard error, of a list too, and as comments; else nothing."""
    protocol, extension = b"Sec-WebSocket-Protocol: mqtt\r\n", b"Sec-WebSocket-Extensions: x-one; a=1\r\n"
    packets, faulty = [], ACCEPT.replace(b"s3p", b"S3p") + protocol + extension
    for port, answer in (40000, ACCEPT + b"\r\n"), (40001, faulty + b"\r\n"):
        packets += pcaps.session([("C", KEYED), ("S", answer), ("S", b"\x88\x00")], port, 80)
    pcaps.write(folder / "two.pcap", packets)
    wanted = ["accept is wrong", "subprotocol mqtt was not offered", "extension x-one was not offered"]
    out, said = pcap2wsn(folder / "two.pcap", "1")
    front = ["answer: HTTP/1.1 101 Switching Protocols", "subprotocol: mqtt", "extensions: x-one; a=1", *wanted]
    same(said_in(out)[2:8], [f"# {line}" for line in front], "the front")
    same(said.splitlines()[:3], [f"pcap2wsn: {line}" for line in wanted], "what is said")
    for words, name in ([], "connection 1"), ([folder / "all"], f"{folder / 'all'}/1.capture"):
        said = pcap2wsn(*["--all"][: len(words)], folder / "two.pcap", *words)[1].splitlines()
        found = [line for line in said if line.endswith((" wrong", " offered"))]
        same(found, [f"pcap2wsn: {name}: {line}" for line in wanted], "what is said of a list")
    out, said = pcap2wsn(folder / "two.pcap", "0")
    same((len(said_in(out)), said), (3, ""), "a right one")


@test
def pcap_lists_handshakes_that_failed(folder):
    """With path, time and status, by themselves and beside a session; they have no capture."""
    no = b"HTTP/1.1 401 Unauthorized\r\nContent-Length: 2\r\n\r\nno"
    plain = b"GET /style.css HTTP/1.1\r\nHost: a\r\n\r\n"
    frames = [("S", b"\x88\x00"), ("C", b"\x88\x80abcd")]
    talks = [
        ([("C", UPGRADE), ("S", no)], "HTTP 401"),
        ([("C", UPGRADE)], "no answer"),
        ([("C", UPGRADE), ("S", ANSWER.replace(b"Upgrade: websocket\r\n", b""))], "HTTP 101"),
        ([("C", UPGRADE), ("S", no), *HANDSHAKE, *frames], "clean"),
        ([("C", UPGRADE), ("S", no), ("C", plain), ("S", no.replace(b"401", b"404"))], "HTTP 401"),
        ([("C", plain), ("S", no)], None),
    ]
    packets, wanted = [], []
    for number, (talk, outcome) in enumerate(talks):
        one = pcaps.session(talk, 40000 + number, 80)
        packets += [each._replace(seconds=number, micros=at * 1000) for at, each in enumerate(one)]
        # The time is that of the answer, the packet 3 or 5 of its connection, or of the request, its packet 2.
        at = 2 if outcome == "no answer" else 5 if outcome == "clean" else 3
        last = max(place for place, each in enumerate(one) if pcaps.Segment(each).payload)
        if outcome:
            size = ["6", "2"] if outcome == "clean" else ["0", "0"]
            times = [f"1970-01-01T00:00:0{number}.{at * 1000:06}Z", f"0.{(last - at) * 1000:06}"]
            nodes = f"127.0.0.1:{40000 + number}", "127.0.0.1:80"
            wanted.append([str(number), *times, *nodes, "/chat", *size, outcome, "-"])
    pcaps.write(folder / "failed.pcap", packets)
    for words in [], [folder / "all"]:
        out, said = pcap2wsn(*["--all"][: len(words)], folder / "failed.pcap", *words)
        same(([line.split("\t") for line in out.decode().splitlines()], said), (wanted, ""), "the list")
    same([path.name for path in (folder / "all").iterdir()], ["3.capture"], "the captures")
    pcaps.write(folder / "failed.pcap", pcaps.session(talks[0][0], 40000, 80))
    same(pcap2wsn(folder / "failed.pcap")[0].count(b"HTTP 401"), 1, "one alone")


@test
def pcap_says_how_a_handshake_failed(folder):
    """Where its capture is asked for: the answer, or who ended the connection without one; status 2."""
    ask, no = ("C", UPGRADE), ("S", b"HTTP/1.1 401 Unauthorized\r\nContent-Length: 0\r\n\r\n")
    whole, refused = pcaps.session([ask], 40000, 80), pcaps.session([ask, no], 40000, 80)
    client, server = (pcaps.packet(ports, pcaps.Segment(whole[at]).seq + size, 0, 4) for ports, at, size in
                      (((40000, 80), 2, len(UPGRADE)), ((80, 40000), 1, 1)))  # fmt: skip
    for packets, words in (
        (refused, "has the answer HTTP/1.1 401 Unauthorized"),
        (whole[:3], "has no answer"),
        (whole, "has no answer; the client ended the connection"),
        ([*whole[:3], whole[4]], "has no answer; the server ended the connection"),
        ([*whole[:3], client], "has no answer; the client reset the connection"),
        ([*whole[:3], server], "has no answer; the server reset the connection"),
    ):
        pcaps.write(folder / "failed.pcap", packets)
        out, said = pcap2wsn(folder / "failed.pcap", "0", status=2)
        wanted = f"pcap2wsn: {folder}/failed.pcap has no frames of connection 0: the request for /chat {words}\n"
        same((out, said), (b"", wanted), words)
    pcaps.write(folder / "failed.pcap", pcaps.without(refused, [3]))
    out, said = pcap2wsn(folder / "failed.pcap", status=2)
    want(out == b"" and "connection 0 has no whole handshake" in said, f"an answer that is lost: {said}")


@test
def pcap_lists_what_is_missing(folder):
    """Missing bytes of a session: a line on standard error, status 1. Of extensions one line for all that have some."""
    needs("tshark")
    packets, link = pcaps.read(SAMPLES / "deflate.pcap")
    other = [each._replace(data=each.data[:26] + b"\x0a\0\0\x01" * 2 + each.data[34:]) for each in packets]
    pcaps.write(folder / "lost.pcap", [*pcaps.without(packets, [pcaps.data_of(packets, 1)[2]]), *other], link)
    out, said = pcap2wsn(folder / "lost.pcap", status=1)
    first, second = said.splitlines()
    want(first.startswith("pcap2wsn: connection 0: server: whole up to byte 9 of its frames: 7 bytes missing"), said)
    want(second.startswith("pcap2wsn: warning: frames that use an extension are refused; recipes/inflate "), said)
    rows = [line.split("\t") for line in out.decode().splitlines()]
    agreed = "permessage-deflate; server_max_window_bits=12; client_max_window_bits=12"
    failed = "failed client 0 reserved-bits, server 0 reserved-bits"
    wanted = [["/chat", "47", size, failed, agreed] for size in ("9", "31")]
    same([row[5:] for row in rows], wanted, "the list")


@test
def pcap_lists_without_the_program(folder):
    """Where it isn't built, a list says so and has no outcomes; no build begins, which takes long."""
    shutil.copytree(TOP / "recipes", folder / "recipes")
    (folder / "wsn").write_text("#!/bin/sh\n[ \"$WSN_BUILD\" = no ] && [ -e \"${0%/*}/crates\" ] || exit 2\n")
    (folder / "wsn").chmod(0o755)
    words = ["env", "-u", "WSN", folder / "recipes/pcap2wsn", SAMPLES / "basic.pcap"]
    out, said = run(*words)
    same(out.split(b"\t")[8:], [b"-", b"-\n"], "the outcome, and the extensions")
    want(said.startswith(b"pcap2wsn: the outcomes are left out: "), f"what is said: {said}")
    made = folder / "crates/wsn/out/wsn"
    made.parent.mkdir(parents=True)
    made.write_text("#!/bin/sh\ncat >/dev/null; echo outcome clean\n")
    made.chmod(0o755)
    out, said = run(*words)
    same((out.split(b"\t")[8:], said), ([b"clean", b"-\n"], b""), "with a built one")


@test
def pcap_lists_who_is_at_fault(folder):
    """After `failed` each refused side, with offset and reason: one of them, and both of a compressed session."""
    for name, wanted in (
        ("latin", "failed server 11 text-bad"),
        ("deflate", "failed client 0 reserved-bits, server 0 reserved-bits"),
        ("basic", "clean"),
        ("abort", "abnormal"),
    ):
        out, _ = pcap2wsn(SAMPLES / f"{name}.pcap", env={**os.environ, "WSN": WSN})
        same(out.decode().split("\t")[8], wanted, name)


@test
def pcap_to_a_full_device(folder):
    """Status 2 where the capture can't be written."""
    needs("tshark")
    with open("/dev/full", "wb") as full:
        words = [str(TOP / "recipes/pcap2wsn"), str(SAMPLES / "basic.pcap"), "0"]
        done = subprocess.run(words, stdout=full, stderr=subprocess.PIPE, check=False)
    same(done.returncode, 2, "the status")
    want(b"pcap2wsn: can't write the capture" in done.stderr, short(done.stderr))


@test
def pcap_with_a_key_log_that_fits_nothing(folder):
    """Another message than for one that is missing; where no session begins, and where one has keys and no handshake too."""
    needs("tshark")
    keys = SAMPLES / "tls.keys"
    random = re.search(r"^\w+ (\w{64}) ", keys.read_text(), re.MULTILINE)[1]
    (folder / "other.keys").write_text(keys.read_text().replace(random, random[::-1]))
    (folder / "great.keys").write_text(keys.read_text().replace(random, random.upper()))
    packets, link = pcaps.read(SAMPLES / "tls.pcap")
    plain = pcaps.read(SAMPLES / "basic.pcap")[0]
    client = pcaps.data_of(packets, 0)
    pcaps.write(folder / "both.pcap", plain + packets, link)
    pcaps.write(folder / "late.pcap", packets[client[0] + 1 :], link)
    pcaps.write(folder / "begun.pcap", packets[: client[2]], link)
    pcaps.write(folder / "none.pcap", [])
    misfit = "no key in other.keys fits a TLS session in"
    for words, wanted in (
        ([SAMPLES / "tls.pcap", "other.keys"], misfit),
        ([SAMPLES / "tls.pcap", "0", "other.keys"], misfit),
        ([SAMPLES / "tls.pcap", "0", "/dev/null/.."], "can't read"),
        ([SAMPLES / "tls.pcap", "0"], "give the key log file too"),
        (["late.pcap", keys], "no TLS session begins in it"),
        (["none.pcap", keys], "has no TCP packets"),
        (["begun.pcap", keys], "nor have its TLS sessions"),
        (["both.pcap", "1", "other.keys"], misfit),
    ):
        out, said = pcap2wsn(*words, status=2, cwd=folder)
        want(out == b"" and wanted in said, f"{words}: {short(said)}")
    for words, count, warned in (
        (["both.pcap", keys], 2, False),
        (["both.pcap", "great.keys"], 2, False),
        (["both.pcap"], 1, False),
        (["both.pcap", "other.keys"], 1, True),
        ([SAMPLES / "basic.pcap", "other.keys"], 1, False),
    ):
        out, said = pcap2wsn(*words, cwd=folder)
        same(out.count(b"\n"), count, f"{words}: connections")
        same(said.splitlines() != [], warned, f"{words}: {said}")
        same(f"warning: {misfit}" in said, warned, f"{words}: {said}")
    out, said = pcap2wsn("both.pcap", "0", "other.keys", cwd=folder)
    same(out, pcap2wsn(SAMPLES / "basic.pcap", "0")[0], "a capture beside a key log that fits nothing")
    want(f"warning: {misfit}" in said, said)


@test
def pcap_knows_its_options(folder):
    """Another option, or one after the files: a line with the right words, status 2, nothing written."""
    pcap = SAMPLES / "basic.pcap"
    for words, wanted in (
        (["-x"], "there is no option -x: pcap2wsn [-m] [--redact] PCAP [N] [KEYLOG], or "),
        (["--keylog", pcap], "there is no option --keylog: pcap2wsn [-m] [--redact] PCAP [N] [KEYLOG], or "),
        (["-m", "-x", pcap], "there is no option -x: "),
        ([pcap, "-1"], "there is no option -1: "),
        ([pcap, "0", "-k"], "there is no option -k: "),
        ([pcap, "-m"], "-m comes before PCAP"),
        ([pcap, "--all"], "--all comes before PCAP"),
        (["--all", pcap], "--all requires a pcap and a folder: pcap2wsn [-m] "),
        ([pcap, "x"], "can't read x, the key log, and it is no number"),
        ([pcap, "x", pcap], "x is no connection's number: pcap2wsn "),
        ([pcap, "0", pcap, pcap], "pcap2wsn [-m] [--redact] PCAP [N] [KEYLOG]"),
    ):
        out, said = pcap2wsn(*words, status=2)
        same((out, said.count("\n")), (b"", 1), f"{words}: what is written, and lines")
        want(said.startswith(f"pcap2wsn: {wanted}"), f"{words}: {short(said)}")
    for words in ["-h"], ["--help"], [pcap, "-h"]:
        out, said = pcap2wsn(*words)
        want(b"list the connections" in out and said == "", f"{words}: {short(said)}")


@test
def pcap_that_begins_late(folder):
    """Behind the handshake: refused, and taken with -m."""
    needs("tshark")
    packets, link = pcaps.read(SAMPLES / "basic.pcap")
    answer = pcaps.data_of(packets, 1)[0]
    pcaps.write(folder / "late.pcap", packets[answer + 1 :], link)
    out, said = pcap2wsn(folder / "late.pcap", status=2)
    want(out == b"" and "-m" in said, said)
    listed, _ = pcap2wsn("-m", folder / "late.pcap")
    want(re.match(rb"0\t\S+Z\t\S+\t127\.0\.0\.1:", listed), short(listed))
    out, _ = pcap2wsn("-m", folder / "late.pcap", "0")
    same(sides(out), sides((SAMPLES / "basic.capture").read_bytes()), "with -m")


@test
def pcap_that_has_nothing(folder):
    """What can't be read, and what has no handshake: status 2, and what to do."""
    needs("tshark")
    packets, link = pcaps.read(SAMPLES / "basic.pcap")
    pcaps.write(folder / "other.pcap", packets[:3], link)
    (folder / "empty.pcap").write_bytes(b"")
    (folder / "text.pcap").write_text("no pcap\n")
    pcaps.write(folder / "none.pcap", [])
    for words, wanted in (
        ([folder / "empty.pcap"], "empty.pcap is empty"),
        ([folder / "none.pcap"], "has no TCP packets"),
        ([folder / "other.pcap"], "no WebSocket handshake"),
        ([folder / "text.pcap"], "can't read"),
        ([folder / "nowhere.pcap"], "can't read"),
        ([SAMPLES / "basic.pcap", "7"], "no connection 7"),
        ([SAMPLES / "basic.pcap", "0", folder / "nowhere.keys"], "can't read"),
        ([SAMPLES / "tls.pcap"], "key log"),
        ([], "list the connections"),
    ):
        out, said = pcap2wsn(*words, status=2)
        want(out == b"" and wanted in said, f"{words}: {short(said)}")
    tools = folder / "tools"
    tools.mkdir()
    for tool in "python3", "env":
        (tools / tool).symlink_to(shutil.which(tool))
    environment = {**os.environ, "PATH": str(tools)}
    _, said = pcap2wsn(SAMPLES / "tls.pcap", SAMPLES / "tls.keys", status=2, env=environment)
    want("tshark isn't here" in said, said)
    pcap2wsn(SAMPLES / "basic.pcap", env=environment)


@test
def pcap_after_an_earlier_request(folder):
    """A request that was answered 401, with a body, and one in chunks, before the handshake; two connections."""
    needs("tshark")
    ask = b"GET /a HTTP/1.1\r\nHost: x\r\n\r\n"
    refusal = b"HTTP/1.1 401 Unauthorized\r\nContent-Length: 10\r\n\r\nnot \r\n\r\nme"
    chunks = b"HTTP/1.1 200 OK\r\nTransfer-Encoding: chunked\r\n\r\n5;x=y\r\nHTTP/\r\n1\r\n1\r\n0\r\n\r\n"
    upgrade = b"GET /chat HTTP/1.1\r\nHost: x\r\nUpgrade: websocket\r\n\r\n"
    answer = b"HTTP/1.1 101 Switching Protocols\r\nUpgrade: WebSocket\r\nConnection: Upgrade\r\n\r\n"
    talk = [("C", ask), ("S", refusal), ("C", ask), ("S", chunks), ("C", upgrade), ("S", answer + b"\x81\x02Hi")]
    talk += [("C", b"\x88\x80\0\0\0\0"), ("S", b"\x88\x00")]
    packets = pcaps.session(talk, 40001, 8080) + pcaps.session(talk[4:], 40002, 5060)
    wanted = b"\x88\x80\0\0\0\0", b"\x81\x02Hi\x88\x00", {"C", "S"}
    for size in 1, 3, 1000:
        pcaps.write(folder / "two.pcap", pcaps.split(packets, size))
        same(pcap2wsn(folder / "two.pcap")[0].count(b"\n"), 2, "connections")
        for number in "0", "1":
            same(sides(pcap2wsn(folder / "two.pcap", number)[0]), wanted, f"connection {number} in pieces of {size}")


@test
def pcap_with_what_tcp_repeats(folder):
    """Probes that keep a connection alive, overlapping repeats, acknowledgements before their data, no SYN."""
    needs("tshark")
    upgrade = b"GET / HTTP/1.1\r\nUpgrade: websocket\r\n\r\n"
    answer = b"HTTP/1.1 101 Switching Protocols\r\nUpgrade: websocket\r\n\r\n"
    talk = [("CS"[at % 2], bytes([at]) * (50 + at)) for at in range(20)]
    packets = pcaps.session([("C", upgrade), ("S", answer), *talk], 40000, 80)
    wanted = *(b"".join(data for who, data in talk if who == side) for side in "CS"), {"C", "S"}
    probed, earlier = [], {}
    for each in packets:
        segment = pcaps.Segment(each)
        ports, before = (segment.source, segment.target), earlier.get(segment.source)
        if segment.payload and before:
            probed.append(pcaps.packet(ports, before.seq, segment.ack, 24, before.payload + segment.payload[:9]))
            probed.append(pcaps.packet(ports, segment.seq - 1, segment.ack, 16, b"\0"))
            probed.append(pcaps.packet(ports, segment.seq - 1, segment.ack, 16))
        probed.append(each)
        if segment.payload:
            earlier[segment.source] = segment
    swapped = list(packets)
    for at in range(6, 20, 3):
        swapped[at : at + 2] = swapped[at + 1], swapped[at]
    for what, mangled in ("probes", probed), ("acknowledgements", swapped), ("no SYN", packets[2:]):
        pcaps.write(folder / "mangled.pcap", mangled)
        same(sides(pcap2wsn(folder / "mangled.pcap", "0")[0]), wanted, what)
    # A reset whose number shows that the client's last bytes are missing.
    end = pcaps.Segment(packets[-3])
    reset = pcaps.packet((end.source, end.target), end.seq, 0, 4)
    pcaps.write(folder / "mangled.pcap", [*packets[:-5], reset])
    out, said = pcap2wsn(folder / "mangled.pcap", "0", status=1)
    same(sides(out), (wanted[0][:-68], wanted[1][:-69], {"S"}), "a reset")
    want("client: whole up to byte 522 of its frames: 68 bytes missing" in said, said)


@test
def pcap_from_standard_input(folder):
    """The same list and capture as of the file; what isn't a pcap is called standard input."""
    pcap = SAMPLES / "basic.pcap"
    for words in ["-"], ["-", "0"]:
        out, said = pcap2wsn(*words, input=pcap.read_bytes())
        same((out, said), pcap2wsn(pcap, *words[1:]), f"{words}")
    for given, words, wanted in (
        (b"", ["-"], "standard input is empty"),
        (pcap.read_bytes(), ["-", "7"], "standard input has no connection 7"),
        (b"C 8800\n", ["-"], "standard input is a capture already, and no pcap: wsn show -"),
    ):
        out, said = pcap2wsn(*words, input=given, status=2)
        want(out == b"" and said.startswith(f"pcap2wsn: {wanted}"), f"{words}: {short(said)}")
    shutil.copy(pcap, folder / "-")
    same(pcap2wsn("./-", "0", cwd=folder)[0], pcap2wsn(pcap, "0")[0], "a file with that name")


@test
def pcap_with_odd_names(folder):
    """Files with blanks, quotes and a hyphen in front."""
    needs("tshark")
    shutil.copy(SAMPLES / "tls.pcap", folder / "-a \"b' c.pcap")
    shutil.copy(SAMPLES / "tls.keys", folder / "the $keys.log")
    out, _ = pcap2wsn("--", "-a \"b' c.pcap", "0", "the $keys.log", cwd=folder)
    same(sides(out), sides((SAMPLES / "tls.capture").read_bytes()), "odd names")


def ends(out):
    """A capture's end marks and what is said of a reset, in order."""
    return [line for line in out.decode().splitlines() if re.fullmatch(r"[CS]\.|# reset by .*", line)]


@test
def pcap_has_the_ends_in_their_order(folder):
    """Each end mark is where its FIN was; a reset's are last, its sender's first, after a comment."""
    needs("tshark")
    talk = [*HANDSHAKE, ("C", b"\x88\x80abcd")]
    begin = pcaps.session([*talk, ("S", b"\x88\x00")], 40000, 80)
    client, server = begin[-3], begin[-2]
    one, two = pcaps.Segment(client), pcaps.Segment(server)
    resets = [pcaps.packet((each.source, each.target), each.seq, each.ack, 20) for each in (one, two)]
    late = pcaps.packet((one.source, one.target), one.seq, one.ack, 24, b"\x89\x80abcd")
    fin_first = pcaps.packet((two.source, two.target), two.seq, one.seq, 17)
    for what, packets, wanted in (
        ("the client first", [client, server], ["C.", "S."]),
        ("the server first", [fin_first, client], ["S.", "C."]),
        ("a reset by the client", [resets[0]], ["# reset by the client", "C.", "S."]),
        ("a reset by the server", [resets[1]], ["# reset by the server", "S.", "C."]),
        ("bytes on their way", [resets[1], late], ["# reset by the server", "S.", "C."]),
        ("a reset after an end", [fin_first, resets[0]], ["S.", "# reset by the client", "C."]),
        ("a reset after its own end", [fin_first, resets[1]], ["S.", "# reset by the server", "C."]),
        ("a reset after both", [client, server, resets[1]], ["C.", "S."]),
        ("none", [], []),
    ):
        pcaps.write(folder / "ends.pcap", [*begin[:-3], *packets])
        out, said = pcap2wsn(folder / "ends.pcap", "0")
        same((ends(out), said), (wanted, ""), what)
        same(len(sides(out)[0]), 12 if packets[-1:] == [late] else 6, f"{what}: the client's bytes")
    for name, words in samples():
        packets = pcaps.read(SAMPLES / f"{name}.pcap")[0]
        found = [each.source for each in map(pcaps.Segment, packets) if each.packet.data[each.tcp + 13] & 1]
        wanted = ["C." if port == pcaps.Segment(packets[0]).source else "S." for port in dict.fromkeys(found)]
        if len(wanted) == 2:
            same(ends(pcap2wsn(SAMPLES / f"{name}.pcap", *words)[0]), wanted, name)


@test
def live_ends_are_what_the_proxy_saw(folder):
    """Either side ends or resets the connection inside a message: who did, and in what order, in both captures."""
    for number, (side, is_reset) in enumerate(((side, is_reset) for side in "CS" for is_reset in (False, True))):
        own = folder / str(number)
        with sessions(own) as all_sessions, captured(folder / "live.pcap", all_sessions.server_port):
            pair = all_sessions.open()[:2]
            one, other = pair if side == "C" else pair[::-1]
            one.sendall(b"\x81\x05He")
            exactly(other, 4)
            if is_reset:
                one.setsockopt(socket.SOL_SOCKET, socket.SO_LINGER, RESET)
            one.close()
            with contextlib.suppress(ConnectionResetError):
                same(other.recv(1), b"", "the end")
            other.close()
            recorded = all_sessions.recorded()
        last = "CS".replace(side, "")
        wanted = [f"# reset by the {'client' if side == 'C' else 'server'}"] * is_reset + [f"{side}.", f"{last}."]
        out, said = pcap2wsn(folder / "live.pcap", "0")
        same((ends(recorded), ends(out), said), (wanted, wanted, ""), f"{wanted}")
        same(sides(out), sides(recorded), f"the bytes of {wanted}")
        ended_by = f"ended-by {'client' if side == 'C' else 'server'}{' reset' * is_reset}"
        for capture in recorded, out:
            lines = run(WSN, "show", input=capture, status=1)[0].decode().splitlines()
            same([line for line in lines if line.startswith("ended")], [ended_by], f"what is shown of {wanted}")


@test
def pcap_of_a_client_that_ends_before_the_answer(folder):
    """Its end mark comes after the handshake, with a reset by it, as Chromium sends it, and without."""
    packets = pcaps.session(HANDSHAKE, 40000, 80)
    answer, client = packets[3:5]
    one = pcaps.Segment(client)
    reset = pcaps.packet((one.source, one.target), one.seq + 1, 0, 4)
    for what, last, wanted in (
        ("a reset", [reset], ["C.", "# reset by the client", "S."]),
        ("an end", packets[5:], ["C.", "S."]),
    ):
        pcaps.write(folder / "ends.pcap", [*packets[:3], client, answer, *last])
        out, said = pcap2wsn(folder / "ends.pcap", "0")
        same((ends(out), said), (wanted, ""), what)


@test
def pcap_has_the_times(folder):
    """Seconds since the 101: each chunk has its packet's, to the microsecond; bytes of one time are joined."""
    needs("tshark")
    talk = [*HANDSHAKE, ("S", b"\x81\x01a"), ("S", b"\x81\x01b"), ("S", b"\x81\x01c"), ("C", b"\x81\x80abcd")]
    at = [0, 10, 20, 30_000, 30_400, 30_401, 30_401, 30_401, 3_000_000_000, 3_000_000_001]
    packets = pcaps.session(talk, 40000, 80)
    moved = []
    for each, micros in zip(packets, at):
        micros += 999_999
        moved.append(each._replace(seconds=1_700_000_000 + micros // 10**6, micros=micros % 10**6))
    pcaps.write(folder / "timed.pcap", moved)
    out, _ = pcap2wsn(folder / "timed.pcap", "0")
    wanted = ["# open since 2023-11-14T22:13:21.029999Z", "# path: /chat", "# answer: HTTP/1.1 101 Switching Protocols",
              "# 0.000400", "S 810161", "# 0.000401", "S 810162810163", "C 818061626364", "# 2999.970000", "C.",
              "# 2999.970001", "S."]  # fmt: skip
    same(out.decode().splitlines(), wanted, "the capture")


def sent(path):
    """What a pcap's packets have after the answer 101, if they are in order: since then, side and bytes, joined."""
    packets, found, opened = pcaps.read(path)[0], [], None
    for each in packets:
        segment, time = pcaps.Segment(each), each.seconds * 1_000_000 + each.micros
        side = "C" if segment.source == pcaps.Segment(packets[0]).source else "S"
        if opened is None:
            opened = time if segment.payload.startswith(b"HTTP/1.1 101") else None
        elif segment.payload and found and found[-1][:2] == (time - opened, side):
            found[-1] = (*found[-1][:2], found[-1][2] + segment.payload)
        elif segment.payload:
            found.append((time - opened, side, segment.payload))
    return found


def timed(lines):
    """What a capture has: since its opening, side and bytes, those of one time joined."""
    found, time = [], None
    for line in lines.decode().splitlines():
        if re.fullmatch(r"# [0-9]+\.[0-9]{6}", line):
            time = int(line[2:].replace(".", ""))
        elif line[0] in "CS" and line[1] == " ":
            data = bytes.fromhex(line[2:])
            if found and found[-1][:2] == (time, line[0]):
                data = found.pop()[2] + data
            found.append((time, line[0], data))
    return found


@test
def pcap_has_each_packets_time(folder):
    """Of recorded sessions: the bytes of each packet after the handshake, at its time."""
    needs("tshark")
    for name, words in samples():
        out = pcap2wsn(SAMPLES / f"{name}.pcap", *words)[0]
        if len(words) == 1:
            same(timed(out), sent(SAMPLES / f"{name}.pcap"), name)
        found = [micros for micros, _ in times(out)]
        want(all(one < two for one, two in zip(found, found[1:])), f"{name}: {found}")
    late = pcaps.session([*HANDSHAKE, ("S", b"\x81\x01a"), ("S", b"\x81\x01b"), ("S", b"\x81\x01c")], 40000, 80)
    late = [each._replace(micros=at * 100) for at, each in enumerate(late)]
    late[4:7] = late[5], late[6], late[4]._replace(micros=650)
    pcaps.write(folder / "late.pcap", late)
    wanted = [(350, "S", b"\x81\x01a\x81\x01b\x81\x01c")]
    same(timed(pcap2wsn(folder / "late.pcap", "0")[0]), wanted, "bytes that wait for a packet have its time")


@test
def pcap_without_the_ends(folder):
    """Only the packets that end the directions are missing: said, and no loss."""
    packets, link = pcaps.read(SAMPLES / "basic.pcap")
    fins = [at for at, each in enumerate(packets) if each.data[pcaps.Segment(each).tcp + 13] & 1]
    pcaps.write(folder / "noend.pcap", pcaps.without(packets, fins), link)
    out, said = pcap2wsn(folder / "noend.pcap", "0")
    wanted = sides((SAMPLES / "basic.capture").read_bytes())
    same(sides(out), (wanted[0], wanted[1], set()), "the capture")
    want(all(f"{name}: the end of its direction isn't in the pcap" in said for name in ("client", "server")), said)


@test
def pcap_that_begins_in_a_frame(folder):
    """With -m, a first byte that can't begin a frame is reported."""
    packets, link = pcaps.read(SAMPLES / "basic.pcap")
    pieces = pcaps.split(packets, 60)
    place = [at for at in pcaps.data_of(pieces, 1) if len(pcaps.Segment(pieces[at]).payload) == 60][10]
    pcaps.write(folder / "inside.pcap", pieces[place:], link)
    out, said = pcap2wsn("-m", folder / "inside.pcap", "0")
    want("first bytes can't begin a frame" in said, said)
    same(said_in(out)[1:], [line.replace("pcap2wsn: ", "# ") for line in said.splitlines()], "the front")


@test
def pcap_list_that_is_incomplete(folder):
    """A pcap that is cut short, or lacks a part of a handshake: the list, a line, status 1."""
    one, two = (pcaps.session([*HANDSHAKE, ("S", b"\x88\x00")], port, 80) for port in (40000, 40001))
    pcaps.write(folder / "cut.pcap", [*one, *two])
    blob = (folder / "cut.pcap").read_bytes()
    (folder / "cut.pcap").write_bytes(blob[:-300])
    pcaps.write(folder / "lacks.pcap", [*one, *pcaps.without(two, [3])])
    for name, wanted in ("cut.pcap", "the pcap is cut short"), ("lacks.pcap", "connection 1 has no whole handshake: "):
        out, said = pcap2wsn(folder / name, status=1)
        same(out.splitlines()[0].split(b"\t")[0], b"0", f"{name}: the list")
        want(wanted in said, f"{name}: {said}")


@test
def pcap_writes_all(folder):
    """Each connection as a file of its own, as it is written alone, and a list of them."""
    needs("tshark")
    talk = [("S", b"\x81\x02Hi"), ("C", b"\x88\x80abcd"), ("S", b"\x88\x00")]
    both = [pcaps.session([*HANDSHAKE, *talk], 40000, 80), pcaps.session([*HANDSHAKE, *talk[:1]], 40001, 80)]
    mixed = [each for pair in zip(*both) for each in pair] + both[0][len(both[1]) :]
    other = pcaps.session([("C", b"hello"), ("S", b"there")], 40002, 81)
    pcaps.write(folder / "two.pcap", other + mixed)
    out, said = pcap2wsn("--all", folder / "two.pcap", folder / "all")
    want(said == "", said)
    same(sorted(path.name for path in (folder / "all").iterdir()), ["1.capture", "2.capture"], "the files")
    for number in "1", "2":
        alone = pcap2wsn(folder / "two.pcap", number)[0]
        same((folder / "all" / f"{number}.capture").read_bytes(), alone, f"connection {number}")
    rows = [line.split("\t") for line in out.decode().splitlines()]
    nodes = [["127.0.0.1:40000", "127.0.0.1:80"], ["127.0.0.1:40001", "127.0.0.1:80"]]
    wanted = [["1", *nodes[0], "/chat", "6", "6", "clean", "-"], ["2", *nodes[1], "/chat", "0", "4", "abnormal", "-"]]
    same([[row[0], *row[3:]] for row in rows], wanted, "the list")
    same({tuple(row[1:3]) for row in rows}, {("1970-01-01T00:00:00.000000Z", "0.000000")}, "its times")
    same(pcap2wsn(folder / "two.pcap")[0], out, "the list alone")
    out, said = pcap2wsn("--all", folder / "two.pcap", folder / "all", status=2)
    want(out == b"" and "has captures already" in said, said)
    out, said = pcap2wsn("--all", SAMPLES / "deflate.pcap", folder / "other")
    want(f"{folder}/other/0.capture: warning: the server agreed on permessage-deflate" in said, said)
    out, said = pcap2wsn("--all", SAMPLES / "tls.pcap", folder / "tls", SAMPLES / "tls.keys")
    same(sides((folder / "tls/0.capture").read_bytes()), sides((SAMPLES / "tls.capture").read_bytes()), "TLS")


def pcapng(packets, units=6, order="<"):
    """A pcapng of Ethernet."""
    def block(kind, body):
        body += bytes(-len(body) % 4)
        size = struct.pack(order + "I", len(body) + 12)
        return struct.pack(order + "I", kind) + size + body + size

    option = struct.pack(order + "HHB3xHH", 9, 1, units, 0, 0)
    blocks = [block(0x0A0D0D0A, struct.pack(order + "IHHq", 0x1A2B3C4D, 1, 0, -1)),
              block(1, struct.pack(order + "HHI", 1, 0, 0) + option)]  # fmt: skip
    for each in packets:
        time = (each.seconds * 10**6 + each.micros) * 10 ** (units - 6)
        head = struct.pack(order + "IIIII", 0, time >> 32, time & 0xFFFFFFFF, len(each.data), each.length)
        blocks.append(block(6, head + each.data))
    return b"".join(blocks)


@test
def pcap_of_each_form(folder):
    """Formats and links that are read here or by tshark give the same capture."""
    needs("tshark")
    packets, _ = pcaps.read(SAMPLES / "basic.pcap")
    wanted = pcap2wsn(SAMPLES / "basic.pcap", "0")[0]
    blob = (SAMPLES / "basic.pcap").read_bytes()

    def changed(link, change):
        pcaps.write(folder / "form.pcap", [each._replace(data=change(each.data)) for each in packets], link)
        return (folder / "form.pcap").read_bytes()

    def tunnel(data):
        size = len(data) + 16
        ip = struct.pack("!BBHHHBBH4s4s", 0x45, 0, size + 20, 0, 0, 64, 17, 0, b"\x7f\0\0\x01", b"\x7f\0\0\x02")
        udp = struct.pack("!HHHH", 40000, 4789, size, 0) + b"\x08\0\0\0\0\0\1\0"
        return bytes(12) + b"\x08\0" + ip + udp + data

    def fragments():
        pieces = []
        for number, each in enumerate(packets):
            head, rest = bytearray(each.data[14:34]), each.data[34:]
            for at in range(0, len(rest), 200):
                more = 0x2000 if at + 200 < len(rest) else 0
                part = rest[at : at + 200]
                struct.pack_into("!HHH", head, 2, 20 + len(part), number, more | at // 8)
                data = each.data[:14] + bytes(head) + part
                pieces.append(each._replace(data=data, length=len(data)))
        pcaps.write(folder / "form.pcap", pieces)
        return (folder / "form.pcap").read_bytes()

    forms = {
        "gzip": gzip.compress(blob),
        "pcapng": pcapng(packets),
        "pcapng of nanoseconds": pcapng(packets, 9),
        "pcapng of the other order": pcapng(packets, 6, ">"),
        "IP alone": changed(101, lambda data: data[14:]),
        "loopback": changed(0, lambda data: b"\2\0\0\0" + data[14:]),
        "a VLAN": changed(1, lambda data: data[:12] + b"\x81\0\0\x05" + data[12:]),
        "Linux cooked": changed(113, lambda data: bytes(14) + data[12:]),
        "Linux cooked 2": changed(276, lambda data: data[12:14] + bytes(18) + data[14:]),
        "PPP": changed(9, lambda data: b"\xff\x03\0\x21" + data[14:]),
        "VXLAN": changed(1, tunnel),
        "IP fragments": fragments(),
    }
    for what, data in forms.items():
        (folder / "form").write_bytes(data)
        same(pcap2wsn(folder / "form", "0")[0], wanted, what)
        same(pcap2wsn(folder / "form")[0], pcap2wsn(SAMPLES / "basic.pcap")[0], f"{what}: the list")


@test
def pcap_numbers_connections_as_tshark(folder):
    """Ports that are used again, connections without a SYN, and a SYN that is repeated."""
    needs("tshark")
    talk = [*HANDSHAKE, ("S", b"\x88\x00")]
    first, second, third = (pcaps.session(talk, 40000, 80, seq) for seq in (1000, 5000, 9000))
    fourth = pcaps.session(talk, 40001, 80)[2:]
    packets = [*first[:2], *first, *fourth, second[0], *second, *third]
    pcaps.write(folder / "again.pcap", packets)
    listed = [line.split()[0] for line in pcap2wsn(folder / "again.pcap")[0].decode().splitlines()]
    words = ["-Y", "http.response.code == 101", "-d", "tcp.port==80,http", "-T", "fields", "-e", "tcp.stream"]
    known = run("tshark", "-r", folder / "again.pcap", *words)[0].decode().split()
    same(listed, list(dict.fromkeys(known)), "the numbers")
    same(len(listed), 4, "connections")
