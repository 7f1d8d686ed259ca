"""Chromium for tests: what a page's elements are once its script has run, and a page that is used meanwhile.

dumped(path) gives the page as --dump-dom prints it, as a tree of nodes, and laid_out(path) as Node lays it out without
a browser. Browser keeps a page open, over the pipes of --remote-debugging-pipe: evaluates expressions, presses keys, and
notes errors and requests. Layout stands in for it where only what a page shows is looked at.
"""

import base64
import fcntl
import html.parser
import json
import os
import pathlib
import shutil
import subprocess
import tempfile
import time

WAIT = 120
VOID = {"meta", "input", "link", "br", "img", "hr"}
WORDS = ["--headless=new", "--no-sandbox", "--disable-gpu", "--no-first-run", "--disable-extensions"]


def chromium():
    """The browser's program, or none."""
    return shutil.which("chromium") or shutil.which("chromium-browser")


def node():
    """Node, which runs a page's script without a browser, or none."""
    return shutil.which("node") or shutil.which("nodejs")


class Node:
    """An element, with its attributes and what is inside: nodes and texts."""

    def __init__(self, tag, attributes):
        self.tag, self.attributes, self.inside = tag, dict(attributes), []

    def classes(self):
        return (self.attributes.get("class") or "").split()

    def text(self):
        return "".join(each if isinstance(each, str) else each.text() for each in self.inside)

    def all(self):
        """This node and those below it, in order."""
        yield self
        for each in self.inside:
            if isinstance(each, Node):
                yield from each.all()

    def named(self, name):
        """The nodes below with a class."""
        return [node for node in self.all() if name in node.classes()]

    def fields(self):
        """The text of each field that is shown below; a list, so that a field that is shown twice is seen."""
        return [(node.attributes["data-field"], node.text()) for node in self.all() if "data-field" in node.attributes]


class Tree(html.parser.HTMLParser):
    """Reads what --dump-dom prints."""

    def __init__(self):
        super().__init__(convert_charrefs=True)
        self.open = [Node("top", [])]

    def handle_starttag(self, tag, attrs):
        node = Node(tag, attrs)
        self.open[-1].inside.append(node)
        if tag not in VOID:
            self.open.append(node)

    def handle_endtag(self, tag):
        if tag in [node.tag for node in self.open]:
            while self.open.pop().tag != tag:
                pass

    def handle_data(self, data):
        self.open[-1].inside.append(data)


def tree(text):
    """A document as a tree."""
    reader = Tree()
    reader.feed(text)
    reader.close()
    return reader.open[0]


def dumped(path):
    """The document of a page whose script has run."""
    with tempfile.TemporaryDirectory(ignore_cleanup_errors=True) as profile:
        words = [
            chromium(),
            *WORDS,
            f"--user-data-dir={profile}",
            "--virtual-time-budget=4000",
            "--dump-dom",
            path.as_uri(),
        ]
        done = subprocess.run(words, capture_output=True, check=False, timeout=WAIT)
    return tree(done.stdout.decode())


def run_by_node(path, *words, data=""):
    """What is printed of a page whose scripts Node has run."""
    words = [node(), pathlib.Path(__file__).resolve().with_name("page_document.js"), path, *words]
    done = subprocess.run(words, input=data.encode(), capture_output=True, check=False, timeout=WAIT)
    if done.returncode:
        raise ValueError(f"the scripts of {path} fail: {done.stderr.decode()}")
    return done.stdout.decode()


def laid_out(path):
    """The document of a page, as Node lays it out."""
    return tree(run_by_node(path))


def value_in(path, expression):
    """What an expression gives in a page whose scripts Node has run."""
    return json.loads(run_by_node(path, "-", data=expression))


class Layout:
    """A page that Node lays out. Use it in a `with`, as a Browser."""

    def __enter__(self):
        return self

    def __exit__(self, *_):
        pass

    def open(self, path):
        """Opens a page."""
        self.path = path

    def document(self):
        """The page's elements, as a tree."""
        return laid_out(self.path)

    def faults(self):
        """What went wrong in the page: a page whose script fails has no document."""
        return []


class Browser:
    """A browser with one page. Use it in a `with`."""

    def __init__(self, *options):
        self.options = options
        self.count, self.rest, self.events = 0, b"", []

    def __enter__(self):
        self.profile = tempfile.TemporaryDirectory(ignore_cleanup_errors=True)
        ours, theirs = os.pipe(), os.pipe()  # What it reads, and what it writes.
        high = [fcntl.fcntl(end, fcntl.F_DUPFD, 20) for end in (ours[0], theirs[1])]
        words = [
            chromium(),
            *WORDS,
            *self.options,
            "--remote-debugging-pipe",
            f"--user-data-dir={self.profile.name}",
            "about:blank",
        ]

        def pipes():
            os.dup2(high[0], 3)
            os.dup2(high[1], 4)

        self.process = subprocess.Popen(words, pass_fds=(3, 4), preexec_fn=pipes, stdin=subprocess.DEVNULL,
                                        stdout=subprocess.DEVNULL, stderr=subprocess.DEVNULL)  # fmt: skip
        for end in ours[0], theirs[1], *high:
            os.close(end)
        self.out, self.back = ours[1], theirs[0]
        os.set_blocking(self.back, False)
        target = self.call("Target.createTarget", url="about:blank")["targetId"]
        self.session = self.call("Target.attachToTarget", targetId=target, flatten=True)["sessionId"]
        for name in "Page", "Runtime", "Log", "Network":
            self.call(f"{name}.enable")
        self.call("Emulation.setFocusEmulationEnabled", enabled=True)
        return self

    def __exit__(self, *_):
        self.process.terminate()
        self.process.wait(WAIT)
        os.close(self.out)
        os.close(self.back)
        self.profile.cleanup()

    def message(self):
        """The next message."""
        limit = time.monotonic() + WAIT
        while b"\0" not in self.rest:
            try:
                part = os.read(self.back, 1 << 20)
            except BlockingIOError:
                part = None
                time.sleep(0.002)
            if part == b"" or time.monotonic() > limit:
                raise RuntimeError("the browser doesn't answer")
            self.rest += part or b""
        one, _, self.rest = self.rest.partition(b"\0")
        return json.loads(one)

    def call(self, method, **parameters):
        """Calls a method, and gives its result; events that come meanwhile are kept."""
        self.count += 1
        said = {"id": self.count, "method": method, "params": parameters}
        if getattr(self, "session", None):
            said["sessionId"] = self.session
        os.write(self.out, json.dumps(said).encode() + b"\0")
        while True:
            message = self.message()
            if message.get("id") == self.count:
                if "error" in message:
                    raise RuntimeError(f"{method}: {message['error']}")
                return message["result"]
            self.events.append(message)

    def open(self, path, part=""):
        """Opens a page, and waits until it is loaded."""
        self.events.clear()
        self.call("Page.navigate", url=path.as_uri() + part)
        while not any(event.get("method") == "Page.loadEventFired" for event in self.events):
            self.events.append(self.message())

    def document(self):
        """The page's elements, as a tree."""
        return tree(self.get("document.documentElement.outerHTML"))

    def get(self, expression):
        """What an expression gives, in the page."""
        found = self.call("Runtime.evaluate", expression=expression, returnByValue=True, awaitPromise=True)
        if "exceptionDetails" in found:
            raise RuntimeError(f"{expression}: {found['exceptionDetails']}")
        return found["result"].get("value")

    def press(self, *keys):
        """Presses keys."""
        for key in keys:
            text = {"Enter": "\r"}.get(key, key if len(key) == 1 else "")
            self.call("Input.dispatchKeyEvent", type="keyDown", key=key, text=text)
            self.call("Input.dispatchKeyEvent", type="keyUp", key=key)

    def faults(self):
        """What went wrong in the page, or left it: exceptions, errors, requests but for the page itself."""
        found = []
        for event in self.events:
            method, parameters = event.get("method"), event.get("params", {})
            if method == "Runtime.exceptionThrown":
                found.append(parameters["exceptionDetails"])
            if method == "Log.entryAdded" and parameters["entry"]["level"] == "error":
                found.append(parameters["entry"]["text"])
            if method == "Network.requestWillBeSent" and parameters.get("type") != "Document":
                found.append(parameters["request"]["url"])
        return found


def drop(browser, name, data):
    """Drops a file on the page; what the page then says."""
    encoded = base64.b64encode(data).decode()
    return browser.get(
        f"""(async () => {{
            const transfer = new DataTransfer(), bytes = Uint8Array.from(atob({json.dumps(encoded)}), c => c.charCodeAt(0));
            const says = () => ['status', 'trouble'].map(id => document.getElementById(id).textContent);
            for (const id of ['status', 'trouble']) document.getElementById(id).replaceChildren();
            transfer.items.add(new File([bytes], {json.dumps(name)}));
            document.dispatchEvent(new DragEvent('drop', {{ dataTransfer: transfer, bubbles: true, cancelable: true }}));
            while (!says().join('')) await new Promise(done => setTimeout(done, 5));
            return says();
        }})()"""
    )
