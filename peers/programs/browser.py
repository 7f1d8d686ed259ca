"""A browser, headless: a page opens the WebSockets and reports to this program, which is its HTTP server.

    browser.py BROWSER client
"""
import http.server
import json
import os
import queue
import subprocess
import sys
import tempfile
import threading

import lines

PAGE = """<!doctype html><title>peer</title><script>
const say = (...words) => fetch('/report', {method: 'POST', body: words.join(' ')});
let last = Promise.resolve();
const report = (...words) => { last = last.then(() => say(...words)); };
const hex = (bytes) => [...bytes].map((byte) => byte.toString(16).padStart(2, '0')).join('');

function connect(url) {
  const name = url.split('/').pop(), socket = new WebSocket(url);
  socket.binaryType = 'arraybuffer';
  socket.onopen = () => {
    const texts = name.startsWith('long') ? ['a'.repeat(65535), 'a'.repeat(65536)]
      : name.startsWith('short') ? ['', 'Hello', 'a'.repeat(125), 'a'.repeat(126)] : [];
    for (const text of texts) socket.send(text);
    if (name.startsWith('short')) socket.send(new Uint8Array([0, 1, 254, 255]));
    if (texts.length) socket.close(1000, 'bye');
  };
  socket.onmessage = (event) => {
    const isText = typeof event.data === 'string';
    report(name, isText ? 'text' : 'binary', hex(isText ? new TextEncoder().encode(event.data) : new Uint8Array(event.data)));
  };
  socket.onclose = (event) => report(name, 'closed', event.code);
}

async function run() {
  for (;;) for (const url of await (await fetch('/urls')).json()) connect(url);
}
run();
</script>"""
urls = queue.Queue()


class Handler(http.server.BaseHTTPRequestHandler):
    protocol_version = "HTTP/1.1"

    def answer(self, kind, body):
        self.send_response(200)
        self.send_header("Content-Type", kind)
        self.send_header("Content-Length", str(len(body)))
        self.end_headers()
        self.wfile.write(body)

    def do_GET(self):
        if self.path == "/":
            self.answer("text/html", PAGE.encode())
        elif self.path == "/urls":
            if not self.server.is_ready:
                self.server.is_ready = True
                lines.line("ready")
            found = [urls.get()]
            while not urls.empty():
                found.append(urls.get())
            self.answer("application/json", json.dumps(found).encode())
        else:
            self.send_error(404)

    def do_POST(self):
        lines.line(self.rfile.read(int(self.headers["Content-Length"])).decode())
        self.answer("text/plain", b"")

    def log_message(self, *_):
        pass


def command(browser, folder, page):
    if browser == "chromium":
        return ["chromium", "--headless=new", "--no-sandbox", "--disable-gpu", "--disable-extensions", "--no-first-run",
                f"--user-data-dir={folder}", page]
    with open(f"{folder}/user.js", "w", encoding="utf-8") as settings:
        for name, value in (("network.websocket.delay-failed-reconnects", "false"), ("network.websocket.max-connections", "500"),
                            ("datareporting.policy.dataSubmissionEnabled", "false"), ("browser.shell.checkDefaultBrowser", "false"),
                            ("toolkit.startup.max_resumed_crashes", "-1"), ("dom.min_background_timeout_value", "4")):
            settings.write(f'user_pref("{name}", {value});\n')
    return ["firefox-esr", "--headless", "--no-remote", "--profile", folder, page]


def main():
    server = http.server.ThreadingHTTPServer(("127.0.0.1", 0), Handler)
    server.is_ready, server.daemon_threads = False, True
    threading.Thread(target=server.serve_forever, daemon=True).start()
    with tempfile.TemporaryDirectory(prefix="wsn-peers-", ignore_cleanup_errors=True) as folder:
        page = f"http://127.0.0.1:{server.server_address[1]}/"
        environment = {**os.environ, "HOME": folder, "MOZ_CRASHREPORTER_DISABLE": "1"}
        browser = subprocess.Popen(command(sys.argv[1], folder, page), env=environment, stdin=subprocess.DEVNULL,
                                   stdout=subprocess.DEVNULL, stderr=subprocess.DEVNULL)
        for url in sys.stdin:
            urls.put(url.strip())
        browser.kill()
        browser.wait()


main()
