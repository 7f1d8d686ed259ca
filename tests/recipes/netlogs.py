"""Net logs of Chromium for the tests of recipes/netlog2wsn, recorded on loopback.

    netlogs.py FOLDER

Writes NAME.json, cut down to the events of these sessions, and for each session NAME/PATH.capture: what recipes/record
wrote between the browser, or HAProxy after it, and the server. Required: Chromium, haproxy, openssl and
python3-websockets.
"""

import base64
import contextlib
import hashlib
import http.server
import json
import os
import pathlib
import re
import shutil
import signal
import socket
import struct
import subprocess
import sys
import tempfile
import threading
import time

from harness import HERE, SECONDS, TOP, certificate, free_port, needs, python_with_websockets, started, wait_for

WORDS = ["--headless=new", "--no-sandbox", "--disable-gpu", "--no-first-run", "--disable-extensions", "--disable-sync",
         "--disable-background-networking", "--disable-component-update", "--ignore-certificate-errors",
         "--net-log-capture-mode=Everything"]  # fmt: skip

# Name: the sessions that the page has one after the other; a list of them has them at the same time. A session is a
# server and a path.
LOGS = {
    "ws": [("echo", "/chat?token=secret"), ("latin", "/latin"), ("own", "/forbidden"), ("own", "/reset"),
           ("none", "/nowhere")],  # fmt: skip
    "wss": [("deflate", "/deflate")],
    "h2": [("echo", "/chat?token=secret"), [("echo", "/one"), ("echo", "/two")]],
}
PAGE = """<!doctype html><link rel="icon" href="data:,"><script>
const steps = ["Hello", "of \\u20ac", new Uint8Array(300).map((_, at) => at)];
const talk = url => new Promise(done => {
    const peer = new WebSocket(url);
    let at = 0;
    const next = () => at < steps.length ? peer.send(steps[at++]) : peer.close(1000, "bye");
    Object.assign(peer, { onopen: next, onmessage: next, onclose: done });
});
(async () => {
    for (const urls of SESSIONS) await Promise.all(urls.map(talk));
    fetch("/done");
})();
</script>
"""
HAPROXY = """defaults
    timeout connect 9s
    timeout client 99s
    timeout server 99s
frontend tls
    mode MODE
    bind 127.0.0.1:FRONT ssl crt both.pem ALPN
    RULE
    default_backend sessions
backend sessions
    mode MODE
    server one 127.0.0.1:SESSIONS
backend pages
    mode http
    server one 127.0.0.1:PAGES
"""
GUID = "258EAFA5-E914-47DA-95CA-C5AB0DC85B11"  # RFC 6455, 1.3.


class Own(http.server.BaseHTTPRequestHandler):
    """The page, a refusal, and a WebSocket that is reset after its first frame."""

    protocol_version = "HTTP/1.1"

    def do_GET(self):
        if self.path == "/reset":
            self.reset()
            return
        if self.path == "/done":
            self.server.done.set()
        self.send_response(403 if self.path == "/forbidden" else 200)
        body = self.server.page if self.path == "/page" else b""
        self.send_header("Content-Type", "text/html")
        self.send_header("Content-Length", str(len(body)))
        self.end_headers()
        self.wfile.write(body)

    def reset(self):
        key = self.headers["Sec-WebSocket-Key"] + GUID
        self.send_response(101)
        self.send_header("Upgrade", "websocket")
        self.send_header("Connection", "Upgrade")
        self.send_header("Sec-WebSocket-Accept", base64.b64encode(hashlib.sha1(key.encode()).digest()).decode())
        self.end_headers()
        self.wfile.write(b"\x81\x05Hello")
        self.rfile.read(11)
        time.sleep(0.2)
        self.connection.setsockopt(socket.SOL_SOCKET, socket.SO_LINGER, struct.pack("ii", 1, 0))
        os.close(self.connection.detach())
        self.close_connection = True

    def log_message(self, *_):
        pass


@contextlib.contextmanager
def own_server():
    """That server, which has a page, and an event that is set once the page is done."""
    with http.server.ThreadingHTTPServer(("127.0.0.1", 0), Own) as server:
        server.done = threading.Event()
        threading.Thread(target=server.serve_forever, daemon=True).start()
        yield server
        server.shutdown()


@contextlib.contextmanager
def haproxy(folder, is_http2, sessions, pages):
    """HAProxy with TLS, for HTTP/2 or for any bytes; its port."""
    needs("haproxy")
    certificate_file, key = certificate(folder)
    (folder / "both.pem").write_bytes(certificate_file.read_bytes() + key.read_bytes())
    front = free_port()
    words = {"MODE": "http" if is_http2 else "tcp", "ALPN": "alpn h2" if is_http2 else "", "FRONT": str(front),
             "SESSIONS": str(sessions), "PAGES": str(pages),
             "RULE": "use_backend pages if { path /page /done }" if is_http2 else ""}  # fmt: skip
    text = re.sub("|".join(words), lambda found: words[found[0]], HAPROXY)
    (folder / "haproxy.cfg").write_text(text)
    process = subprocess.Popen(["haproxy", "-db", "-f", "haproxy.cfg"], cwd=folder, stderr=subprocess.DEVNULL)
    try:
        wait_for(lambda: connects(front), "HAProxy")
        yield front
    finally:
        process.terminate()
        process.wait(SECONDS)


def connects(port):
    """Whether something listens on a port."""
    with socket.socket() as one:
        return one.connect_ex(("127.0.0.1", port)) == 0


def browsed(url, log, done, end=signal.SIGTERM):
    """Opens a page in Chromium until it is done, with a net log."""
    needs("chromium")
    with tempfile.TemporaryDirectory() as profile:
        words = ["chromium", *WORDS, f"--user-data-dir={profile}", f"--log-net-log={log}", url]
        process = subprocess.Popen(words, stdout=subprocess.DEVNULL, stderr=subprocess.DEVNULL)
        try:
            wait_for(done.is_set, "the page")
            time.sleep(0.5)
        finally:
            process.send_signal(end)
            process.wait(SECONDS)
            time.sleep(0.5)


def record_log(name, folder):
    """Records a log and its sessions: NAME.json and NAME/PATH.capture."""
    python, target = python_with_websockets(), free_port()
    sessions = [each if isinstance(each, list) else [each] for each in LOGS[name]]
    kinds = dict.fromkeys(kind for each in sessions for kind, _ in each)
    (folder / name).mkdir()
    with contextlib.ExitStack() as stack:
        own = stack.enter_context(own_server())
        ports = {"own": own.server_address[1], "none": free_port()}
        for kind in [kind for kind in kinds if kind not in ports]:
            target, ports[kind] = free_port(), free_port()
            stack.enter_context(started(python, HERE / "peers.py", "serve", kind, "127.0.0.1", target, line="ready"))
            words = [TOP / "recipes/record", ports[kind], f"ws://127.0.0.1:{target}", folder / name / kind]
            stack.enter_context(started(*words, line="listening", stream="stderr"))
        scheme, page = "ws", f"http://127.0.0.1:{ports['own']}/page"
        if name != "ws":
            (kind,) = kinds
            port = stack.enter_context(haproxy(folder, name == "h2", ports[kind], ports["own"]))
            scheme, ports[kind] = "wss", port
        if name == "h2":
            page = f"https://127.0.0.1:{port}/page"
        urls = [[f"{scheme}://127.0.0.1:{ports[kind]}{path}" for kind, path in each] for each in sessions]
        own.page = PAGE.replace("SESSIONS", json.dumps(urls)).encode()
        browsed(page, folder / "whole.json", own.done)
    cut_down(folder / "whole.json", folder / f"{name}.json", {str(port) for port in ports.values()})
    for each in list((folder / name).glob("*/*.capture")):
        path = re.search(r"^# path: /(.*)$", each.read_text(), re.MULTILINE)[1]
        shutil.move(each, folder / name / f"{path}.capture")
    for each in [each for each in (folder / name).iterdir() if each.is_dir()]:
        each.rmdir()


def cut_down(whole, kept, ports):
    """Writes a log with the events of sockets to these ports and of requests for WebSockets, in Chromium's form."""
    text = whole.read_text(encoding="utf-8").rstrip()
    try:
        log = json.loads(text)
    except json.JSONDecodeError:
        log = json.loads(text.rstrip(",") + "]}")  # The browser didn't end it.
    constants = log["constants"]
    names = {number: name for name, number in constants["logEventTypes"].items()}
    sockets = constants["logSourceType"]["SOCKET"]
    mine = set()
    for event in log["events"]:
        given, source = event.get("params", {}), event["source"]
        to_us = source["type"] == sockets and given.get("address", "").rpartition(":")[2] in ports
        if to_us or given.get("url", "").startswith(("ws:", "wss:")):
            mine.add(source["id"])
    left_out = re.compile("CERT|HANDSHAKE|TRUST|COOKIE|CORS|DELEGATE|STREAM_JOB|STREAM_REQUEST|START_JOB|HTTP2_STREAM")
    events = [each for each in log["events"]
              if each["source"]["id"] in mine and not left_out.search(names[each["type"]])]  # fmt: skip
    used = {"logEventTypes": {event["type"] for event in events}, "netError": {0, -101, -102, -173}}
    whole_ones = "logCaptureMode", "logEventPhase", "logFormatVersion", "timeTickOffset"
    small = {name: constants[name] for name in whole_ones}
    for name, numbers in used.items():
        small[name] = {word: number for word, number in constants[name].items() if number in numbers}

    def line(value):
        return json.dumps(value, separators=(",", ":"), sort_keys=True)

    front, text = f'{{"constants":{line(small)},\n"events": [\n', ",\n".join(map(line, events))
    kept.write_text(f'{front}{text}],\n"polledData": [{{}}]\n}}\n', encoding="utf-8")


if __name__ == "__main__":
    for each_name in LOGS:
        with tempfile.TemporaryDirectory(prefix="netlog ") as each_folder:
            record_log(each_name, pathlib.Path(each_folder))
            target_folder = pathlib.Path(sys.argv[1])
            shutil.copy(pathlib.Path(each_folder) / f"{each_name}.json", target_folder)
            shutil.copytree(pathlib.Path(each_folder) / each_name, target_folder / each_name, dirs_exist_ok=True)
