"""recipes/netlog2wsn: recorded net logs of Chromium, the same mangled, and logs made here, of which it is known what
they have."""

import base64
import gzip
import json
import os
import re
import shutil

from harness import SAMPLES, TOP, has_hpack, needs, run, said_in, same, short, sides, test, times, want
from netlogs import LOGS, record_log
from test_http2 import BEGIN, DATA, END_STREAM, frame, opening
from test_pcap import ANSWER, UPGRADE, ends

NETLOG = SAMPLES / "netlog"
SECRETS = "netlog2wsn: warning: a net log has all cookies"


def netlog2wsn(*words, status=0, **options):
    """What netlog2wsn writes, and says."""
    out, said = run(TOP / "recipes/netlog2wsn", *words, status=status, **options)
    return out, said.decode()


def rows_of(out):
    """The list, by the paths of the sessions."""
    rows = [line.split("\t") for line in out.decode().splitlines()]
    return {row[5].lstrip("/"): row for row in rows}


def gives_what_was_seen(folder, name, status=0):
    """A log has the sessions that recipes/record saw, and their bytes. It lacks what the server sent after the browser
    closed the socket."""
    if name == "h2" and not has_hpack():
        return
    rows = rows_of(netlog2wsn(folder / f"{name}.json", status=status)[0])
    seen = {file.stem: sides(file.read_bytes()) for file in (folder / name).iterdir()}
    wanted = {*seen, "forbidden", "reset"} if name == "ws" else {*seen}
    same(set(rows), wanted, f"{name}: the paths")
    for path, (client, server, ended) in seen.items():
        out, said = netlog2wsn(folder / f"{name}.json", rows[path][0], status=None)
        got = sides(out)
        if path == "latin":
            same(got, (client, server[:14], {"C"}), f"{name} {path}")
        else:
            same(got, (client, server, ended), f"{name} {path}")
        same(rows[path][6:8], [str(len(got[0])), str(len(got[1]))], f"{name} {path}: the counts")
        same("permessage-deflate" in said, path == "deflate", f"{name} {path}: what is said, {said}")
        want(f"# path: /{path}" in said_in(out), f"{name} {path}: the comments {said_in(out)}")


@test
def netlog_gives_what_the_recorder_saw(folder):
    """Over ws, wss and HTTP/2; a handshake that failed, a reset, and the reason why no request was sent."""
    for name in LOGS:
        gives_what_was_seen(NETLOG, name)
    out, said = netlog2wsn(NETLOG / "ws.json")
    rows = rows_of(out)
    same(rows["forbidden"][6:9], ["0", "0", "HTTP 403"], "a handshake that failed")
    out = netlog2wsn(NETLOG / "ws.json", rows["reset"][0])[0]
    same(ends(out), ["# reset by the server", "S.", "C."], "a reset")
    want(re.search(r"no request for ws://127.0.0.1:\d+/nowhere was sent: ERR_CONNECTION_REFUSED\n", said), said)
    want(said.count(SECRETS) == 1, f"the warning: {said}")
    same(netlog2wsn(NETLOG / "ws.json", rows["chat"][0])[1], "", "what is said of a capture")


@test
def live_netlogs_give_what_the_recorder_saw(folder):
    """The same, of logs that are recorded now."""
    needs("chromium", "haproxy", "openssl")
    for name in LOGS:
        record_log(name, folder)
        gives_what_was_seen(folder, name)


@test
def netlog_in_other_forms_gives_the_same(folder):
    """From standard input, packed, in one line, and with a line for each value."""
    whole = (NETLOG / "ws.json").read_bytes()
    wanted = netlog2wsn(NETLOG / "ws.json")[0]
    (folder / "ws.json.gz").write_bytes(gzip.compress(whole))
    same(netlog2wsn(folder / "ws.json.gz")[0], wanted, "packed")
    lines = [json.dumps(json.loads(whole), indent=indent).encode() for indent in (None, 1)]
    for data in whole, gzip.compress(whole), *lines:
        same(netlog2wsn("-", input=data)[0], wanted, f"standard input, {short(data[:40])}")
    captures = sorted(line.split(b"\t")[0].decode() for line in wanted.splitlines() if b"HTTP 403" not in line)
    same(netlog2wsn("--all", NETLOG / "ws.json", folder / "all")[0], wanted, "the list of all")
    same(sorted(file.stem for file in (folder / "all").iterdir()), captures, "the files")
    one = captures[0]
    same(netlog2wsn(NETLOG / "ws.json", one)[0], (folder / "all" / f"{one}.capture").read_bytes(), "a file")


def events_of(text):
    """A recorded log's events, a line each: of each its line's number, its source, its name and its bytes."""
    lines = text.splitlines()
    constants = json.loads(lines[0].rstrip(",") + "}")["constants"]
    names = {number: name for name, number in constants["logEventTypes"].items()}
    for at, line in enumerate(lines[2:-2], 2):
        event = json.loads(line.rstrip(",]"))
        data = base64.b64decode(event.get("params", {}).get("bytes", ""))
        yield at, event["source"]["id"], names[event["type"]], data


@test
def netlog_cut_anywhere_says_so(folder):
    """Cut inside an event: what came before it is there, and nothing else; no end of the client, status 1. Before the
    handshake is whole, status 2."""
    for name, layer in ("ws", ""), ("wss", "SSL_"):
        text = (NETLOG / f"{name}.json").read_text()
        lines = text.splitlines(keepends=True)
        number = netlog2wsn(NETLOG / f"{name}.json")[0].split(b"\t")[0].decode()
        passed = {f"{layer}SOCKET_BYTES_SENT": b"", f"{layer}SOCKET_BYTES_RECEIVED": b""}
        for at, source, event, data in events_of(text):
            if source != int(number):
                continue
            (folder / "cut.json").write_text("".join(lines[:at]) + lines[at][: len(lines[at]) // 2])
            is_whole = passed[f"{layer}SOCKET_BYTES_RECEIVED"] != b""
            out, said = netlog2wsn(folder / "cut.json", number, status=1 if is_whole else 2)
            want("the net log is cut short" in said or "has no WebSocket handshake" in said, f"{name}, {event}: {said}")
            wanted = [sent.partition(b"\r\n\r\n")[2] if is_whole else b"" for sent in passed.values()]
            same([*sides(out)[:2]], wanted, f"{name} before line {at}")
            want("C" not in sides(out)[2], f"{name} before line {at}: the client's end")
            if event in passed:
                passed[event] += data
    said = netlog2wsn(folder / "cut.json", status=1)[1]
    want("netlog2wsn: the net log is cut short; connections after that aren't in it\n" in said, said)


NAMES = ["SOCKET_ALIVE", "TCP_CONNECT", "SSL_CONNECT", "SOCKS5_CONNECT", "SOCKET_BYTES_SENT", "SOCKET_BYTES_RECEIVED",
         "SSL_SOCKET_BYTES_SENT", "SSL_SOCKET_BYTES_RECEIVED", "SOCKET_READ_ERROR", "REQUEST_ALIVE",
         "HTTP_TRANSACTION_SEND_REQUEST_HEADERS", "WEBSOCKET_RECV_FRAME_HEADER", "SOMETHING"]  # fmt: skip
BEGUN = [("SOCKET_ALIVE", 1, {}), ("TCP_CONNECT", 2, {"local_address": "[::1]:40000", "remote_address": "[::1]:80"})]
CLOSED = ("SOCKET_ALIVE", 2, {})
SENT = ("HTTP_TRANSACTION_SEND_REQUEST_HEADERS", 0, {}, 9)  # That of source 9.


def passed(side, data, layer=""):
    """An event that bytes passed, or that the server ended its direction."""
    parameters = {"byte_count": len(data)}
    if data:
        parameters["bytes"] = base64.b64encode(data).decode()
    return f"{layer}SOCKET_BYTES_{'SENT' if side == 'C' else 'RECEIVED'}", 0, parameters


def made(folder, events, source=7):
    """A log with these events of a source, one each millisecond; an event can name another source."""
    constants = {"logEventTypes": {name: at for at, name in enumerate(NAMES)}, "timeTickOffset": 1_700_000_000_000,
                 "logEventPhase": {"PHASE_NONE": 0, "PHASE_BEGIN": 1, "PHASE_END": 2},
                 "netError": {"ERR_NAME_NOT_RESOLVED": -105}}  # fmt: skip
    written = [{"type": NAMES.index(name), "phase": phase, "params": parameters, "time": str(1000 + at),
                "source": {"id": other[0] if other else source, "type": 1}}
               for at, (name, phase, parameters, *other) in enumerate(events)]  # fmt: skip
    (folder / "made.json").write_text(json.dumps({"constants": constants, "events": written, "polledData": []}))
    return folder / "made.json"


HELLO, CLOSE = b"\x81\x05Hello", b"\x88\x80\0\0\0\0"
TALK = [passed("C", UPGRADE), passed("S", ANSWER + HELLO), passed("C", CLOSE)]


@test
def netlog_has_the_ends_and_times(folder):
    """Each end where the browser knew of it; times and addresses are the log's."""
    lost = ("SOCKET_READ_ERROR", 0, {"net_error": -101})
    for what, last, wanted in (
        ("the server ends first", [passed("S", b""), CLOSED], ["S.", "C."]),
        ("the browser closes", [CLOSED], ["C."]),
        ("a reset", [lost, CLOSED], ["# reset by the server", "S.", "C."]),
        ("another error", [("SOCKET_READ_ERROR", 0, {"net_error": -118}), CLOSED], ["C."]),
        ("the log's end", [], []),
    ):
        out, said = netlog2wsn(made(folder, [*BEGUN, *TALK, *last]), "7")
        same((sides(out)[:2], ends(out)), ((CLOSE, HELLO), wanted), what)
        same(said, "", f"{what}: what is said")
    out = netlog2wsn(made(folder, [*BEGUN, *TALK, passed("S", b""), CLOSED]))[0]
    wanted = ["7", "2023-11-14T22:13:21.003000Z", "0.001000", "[::1]:40000", "[::1]:80", "/chat", "6", "7"]
    same(out.decode().split("\t")[:8], wanted, "the list")
    out = netlog2wsn(folder / "made.json", "7")[0]
    same([time for time, _ in times(out)], [0, 1000, 2000, 3000], "times")


@test
def netlog_through_proxies(folder):
    """What is said to a proxy is none of the session; TLS inside TLS isn't read, and that is said."""
    tunnel = [passed("C", b"CONNECT a:80 HTTP/1.1\r\n\r\n"), passed("S", b"HTTP/1.1 200 OK\r\n\r\n")]
    socks = [("SOCKS5_CONNECT", 1, {}), passed("C", b"\x05\x01\0"), passed("S", b"\x05\0"), ("SOCKS5_CONNECT", 2, {})]
    tls = ("SSL_CONNECT", 1, {})
    inside = [(f"SSL_{name}", phase, parameters) for name, phase, parameters in TALK]
    noise = [passed("C", b"\x17\x03\x03\0\x01x"), passed("S", b"\x17\x03\x03\0\x01x")]
    for what, before in (
        ("a tunnel", [*tunnel, *TALK]),
        ("SOCKS", [*socks, *TALK]),
        ("TLS", [tls, *noise, *inside, *noise]),
        ("TLS in a tunnel", [*tunnel, tls, *noise, *inside]),
        ("TLS in SOCKS", [*socks, tls, *noise, *inside]),
        ("a tunnel in TLS", [tls, passed("C", b"CONNECT a:80 HTTP/1.1\r\n\r\n", "SSL_"),
                             passed("S", b"HTTP/1.1 200 OK\r\n\r\n", "SSL_"), *inside]),
    ):  # fmt: skip
        log = made(folder, [*BEGUN, *before, CLOSED])
        same(sides(netlog2wsn(log, "7")[0]), (CLOSE, HELLO, {"C"}), what)
        same(netlog2wsn(log)[0].count(b"\n"), 1, f"{what}: the list")
    request = [("REQUEST_ALIVE", 1, {"url": "wss://a:80/chat?key=x"}, 9), SENT]
    said = netlog2wsn(made(folder, [*BEGUN, *request, tls, tls, *inside]), status=2)[1]
    want("has no WebSocket handshake: wss://a:80/chat isn't listed: " in said and "TLS inside TLS" in said, said)


@test
def netlog_says_what_the_list_lacks(folder):
    """WebSockets that no connection of the log has, and those that were open before it began: status 1, or 2 without any
    other."""
    asked = ("REQUEST_ALIVE", 1, {"url": "ws://a/other?key=x"}, 9), SENT
    early = ("WEBSOCKET_RECV_FRAME_HEADER", 0, {}, 10)
    unsent = ("REQUEST_ALIVE", 1, {"url": "ws://me:key=x@b/"}, 11), ("REQUEST_ALIVE", 2, {"net_error": -105}, 11)
    for what, more, words, status in (
        ("nothing", [], "", 0),
        ("another request", asked, "ws://a/other isn't listed: the log lacks its connection's beginning", 1),
        ("an open WebSocket", [early], "WebSockets that were open before the log began, and aren't listed: 1", 1),
        ("no address", unsent, "no request for ws://b/ was sent: ERR_NAME_NOT_RESOLVED", 0),
    ):
        said = netlog2wsn(made(folder, [*BEGUN, *TALK, *more]), status=status)[1]
        want(words in said and "key=x" not in said, f"{what}: {said}")
        said = netlog2wsn(made(folder, [*BEGUN, *more]), status=2)[1]
        want("has no WebSocket handshake" in said and words in said, f"{what} alone: {said}")
    silent = [(name, phase, {"byte_count": len(each.get("bytes", "x"))}) for name, phase, each in TALK]
    said = netlog2wsn(made(folder, [*BEGUN, *silent]), status=2)[1]
    want("has no bytes: record it with --net-log-capture-mode=Everything" in said, said)
    log = made(folder, [*BEGUN, *TALK, silent[1], passed("S", HELLO), passed("C", CLOSE)])
    out, said = netlog2wsn(log, "7", status=1)
    same(sides(out), (CLOSE * 2, HELLO, set()), "bytes that the log lacks")
    want("server: whole up to byte 7 of its frames: the net log has no bytes of what comes then" in said, said)


@test
def netlog_of_http2(folder):
    """Streams that are made here; without the library a line that names its package."""
    log = made(folder, [*BEGUN, *(passed(*each) for each in [*BEGIN, *opening(1), ("S", frame(DATA, 1, HELLO)),
                                  ("C", frame(DATA, 1, CLOSE, END_STREAM))]), CLOSED])  # fmt: skip
    if has_hpack():
        same(sides(netlog2wsn(log, "7.1")[0]), (CLOSE, HELLO, {"C"}), "the stream")
    (folder / "hpack.py").write_text("raise ImportError\n")
    environment = {**os.environ, "PYTHONPATH": str(folder)}
    said = netlog2wsn(log, "7.1", status=2, env=environment)[1]
    want(said.startswith(f"netlog2wsn: connection 7 of {log} is HTTP/2, and Python's library hpack isn't here"), said)


@test
def netlog_that_is_none(folder):
    """What is no net log, and what has no WebSocket: a line that says so, and what to do; status 2, nothing written."""
    text = (NETLOG / "ws.json").read_text()
    files = {"empty.json": "", "text.json": "no log\n", "other.json": '{"a": 1}', "list.json": "[1, 2]",
             "some.har": '{"log": {"version": "1.2", "entries": []}}', "some.capture": "C 8180\n",
             "odd.json": '{"constants": {"logEventTypes": 1}, "events": []}', "begun.json": text[:300],
             "deep.json": '{"a":' + "[" * 100_000}  # fmt: skip
    for name, content in files.items():
        (folder / name).write_text(content)
    (folder / "cut.gz").write_bytes(gzip.compress(text.encode())[:90])
    (folder / "odd.gz").write_bytes(b"\x1f\x8bodd, not gzip")
    shutil.copy(SAMPLES / "basic.pcap", folder)
    page = [passed("C", b"GET / HTTP/1.1\r\n\r\n"), passed("S", b"HTTP/1.1 200 OK\r\n\r\n")]
    plain = made(folder, [*BEGUN, *page, CLOSED])
    for words, wanted in (
        (["empty.json"], "empty.json is no net log of Chromium: it is empty"),
        (["text.json"], "it isn't JSON"),
        (["list.json"], "it isn't JSON"),
        (["other.json"], "it is JSON without a net log's constants and events"),
        (["some.har"], "it is a HAR file, which has messages and no frames"),
        (["begun.json"], "it is cut short before its first event"),
        (["odd.json"], "its constants aren't a net log's"),
        (["deep.json"], "no net log of Chromium"),
        (["cut.gz"], "no net log of Chromium"),
        (["odd.gz"], "odd.gz is no net log of Chromium: it can't be unpacked"),
        (["some.capture"], "some.capture is a capture already, and no net log: wsn show some.capture"),
        (["basic.pcap"], "basic.pcap is a pcap, and no net log: recipes/pcap2wsn reads it"),
        (["nowhere.json"], "nowhere.json: No such file"),
        (["."], ".: Is a directory"),
        ([plain], "has no WebSocket handshake; start the log before the page opens its WebSocket"),
        ([NETLOG / "ws.json", "1"], "has no connection 1 of WebSocket; it has these: "),
        ([], "list the connections"),
    ):
        out, said = netlog2wsn(*words, status=2, cwd=folder)
        want(out == b"" and wanted in said, f"{words}: {short(said)}")


@test
def netlog_knows_its_options(folder):
    """Another option, or one after the file: a line with the right words, status 2, nothing written."""
    log = NETLOG / "ws.json"
    for words, wanted in (
        (["-x"], "there is no option -x: netlog2wsn [--redact] LOG [N], or netlog2wsn [--redact] --all LOG FOLDER; "
                 "netlog2wsn -h for help"),
        ([log, "-1"], "there is no option -1: "),
        ([log, "--all"], "--all comes before LOG"),
        (["--all", log], "--all requires a net log and a folder: "),
        ([log, "x"], "x is no connection's number: "),
        ([log, "1", "2"], "netlog2wsn [--redact] LOG [N], or "),
    ):
        out, said = netlog2wsn(*words, status=2)
        same((out, said.count("\n")), (b"", 1), f"{words}: what is written, and lines")
        want(said.startswith(f"netlog2wsn: {wanted}"), f"{words}: {short(said)}")
    (folder / "-").write_bytes(log.read_bytes())
    same(netlog2wsn("./-", cwd=folder)[0], netlog2wsn(log)[0], "a file named -")
    (folder / "old").mkdir()
    (folder / "old/1.capture").write_text("")
    want("has captures already" in netlog2wsn("--all", log, folder / "old", status=2)[1], "a folder with captures")
