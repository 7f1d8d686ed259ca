"""docs/RECIPES.md and its pages, as one: each command, with what the page says that it prints; and README.md's.

A block ```console has commands after `$ ` (further lines after `> `), and what they print, on either stream. `..`
is anything, within a line or, alone, for lines. A command that ends with ` &` runs to the end of the page.
Comments of the page say what runs around a block: `serve KIND PORT` and `talk KIND URL` (see peers.py).
"""

import contextlib
import json
import os
import re
import shutil
import signal
import socket
import subprocess
import tempfile
import time

import pcaps
from harness import (HERE, SAMPLES, SECONDS, TOP, WSN, Failed, Skipped, has_hpack, needs, python_with_websockets, run, same,
                     started, test, wait_for, want)  # fmt: skip

# Words of a command, and the program that it needs for them.
NEEDS = {"tls.pcap": "tshark", "chromium.keys": "tshark", "tshark": "tshark", "text2pcap": "text2pcap",
         "socat": "socat", "curl": "curl", "jq": "jq", "mitmdump": "mitmdump", "xxd": "xxd",
         "parallel": "parallel", "sqlite3": "sqlite3"}  # fmt: skip

# The names of what a command writes.
WRITES = r"(?:> |--out |-R |^recipes/record .* )([\w.]+)"


def recipes():
    """The text of RECIPES.md and of the pages that it names, in its order, as one page."""
    index = (TOP / "docs/RECIPES.md").read_text(encoding="utf-8")
    names = dict.fromkeys(re.findall(r"\((recipes/\w+\.md)", index))
    same(sorted(names), sorted(f"recipes/{file.name}" for file in (TOP / "docs/recipes").iterdir()), "pages")
    return "".join([index, *((TOP / "docs" / name).read_text(encoding="utf-8") for name in names)])


def parts_of(page):
    """The page's sections, comments and commands, in order: a kind, its words, and what a command prints."""
    pattern = r"^##+ (.*?)$|^<!-- (.*?) -->$|^```console\n(.*?)^```$"
    for section, comment, block in re.findall(pattern, page, re.MULTILINE | re.DOTALL):
        if section:
            yield "section", section, ""
        if comment:
            yield comment.split(" ", 1)[0], comment.split(" ", 1)[1], ""
        for command, printed in re.findall(r"^\$ (.*\n(?:> .*\n|>\n)*)((?:(?!\$ ).*\n)*)", block, re.MULTILINE):
            yield "command", re.sub(r"^> ?", "", command, flags=re.MULTILINE).rstrip("\n"), printed


def fits(printed, wanted):
    """Whether what was printed is what the page says."""
    pattern = "".join(".*" if part == ".." else re.escape(part) for part in re.split(r"(\.\.(?=[^.]|$))", wanted))
    return re.fullmatch(pattern, printed, re.DOTALL if "\n..\n" in wanted else 0) is not None


class Page:
    """The page while it is run."""

    def __init__(self, folder, stack):
        self.folder = folder
        self.stack = stack
        self.done = 0
        self.skipped = {}
        self.missing = ""  # What the section's commands lack, once one was skipped.
        self.lost = set()  # Names of what skipped commands would have written.
        for name in "page", "recipes", "tests":
            (folder / name).symlink_to(TOP / name)
        (folder / "wsn").symlink_to(WSN)

    def section(self, _title):
        """Sections are run by themselves, but for the files that they read."""
        self.missing = ""

    def skip(self, words, why):
        """Notes what isn't run, and what it would have written."""
        self.missing = why
        self.skipped.setdefault(why, []).append(words.split("\n")[0])
        self.lost |= set(re.findall(WRITES, words))

    def lacks(self, kind, words):
        """What is missing here for a command or a comment."""
        for word, program in NEEDS.items():
            if kind == "command" and re.search(rf"\b{word}\b", words) and not shutil.which(program):
                return f"without {program}"
        if kind == "command" and re.search("/http2/|h2.json", words) and not has_hpack():
            return "without python3-hpack"
        reads = re.sub(WRITES, "", words)
        if kind == "command" and any(re.search(rf"(?<![\w/]){name}\b", reads) for name in self.lost):
            return self.missing or "without what skipped ones write"
        return self.missing

    def serve(self, words):
        """A server of the page's."""
        kind, port = words.split()
        with socket.socket() as free:
            free.setsockopt(socket.SOL_SOCKET, socket.SO_REUSEADDR, 1)
            try:
                free.bind(("127.0.0.1", int(port)))
            except OSError as error:
                raise Skipped(f"port {port} of this machine is taken") from error
        python = python_with_websockets()
        self.stack.enter_context(started(python, HERE / "peers.py", "serve", kind, "127.0.0.1", port, line="ready"))

    def talk(self, words):
        """A client of the page's, once the proxy that it talks to listens."""
        port = int(re.search(r":(\d+)/", words)[1])
        wait_for(lambda: f":{port:04X} " in listening(), f"a proxy on port {port}")
        run(python_with_websockets(), HERE / "peers.py", "talk", *words.split())
        time.sleep(1)

    def command(self, command, wanted):
        """One command of the page."""
        self.lost -= set(re.findall(WRITES, command))
        if command.endswith(" &"):
            self.background(command[:-2], wanted)
        else:
            done = subprocess.run(["sh", "-c", command], cwd=self.folder, stdout=subprocess.PIPE, check=False,
                                  stderr=subprocess.STDOUT, timeout=SECONDS)  # fmt: skip
            printed = done.stdout.decode()
            if not fits(without_root(printed), wanted):
                raise Failed(f"{command!r} prints {printed!r}, and the page says {wanted!r}")
        self.done += 1

    def background(self, command, wanted):
        """A command that goes on; it has the time to print what it does."""
        output = self.stack.enter_context(tempfile.TemporaryFile())
        process = subprocess.Popen(["sh", "-c", f"exec {command}"], cwd=self.folder, stdout=output, stderr=output,
                                   start_new_session=True)  # fmt: skip
        self.stack.callback(stop, process)

        def printed():
            return os.pread(output.fileno(), 65536, 0).decode()

        wait_for(lambda: len(printed()) >= len(wanted.replace("..", "")), command)
        if wanted and not fits(printed(), wanted):
            raise Failed(f"{command!r} prints {printed()!r}, and the page says {wanted!r}")


def stop(process):
    """Ends a command in the background."""
    with contextlib.suppress(ProcessLookupError):
        os.killpg(process.pid, signal.SIGTERM)
    process.wait(SECONDS)


def listening():
    """The system's list of TCP sockets that listen."""
    text = ""
    for name in "/proc/net/tcp", "/proc/net/tcp6":
        with contextlib.suppress(OSError), open(name, encoding="ascii") as file:
            text += "".join(line for line in file if " 0A " in line)
    return text


def without_root(printed):
    """tshark warns a superuser."""
    return re.sub(r"^Running as user .*\n", "", printed, flags=re.MULTILINE)


@test
def page_says_what_its_commands_print(folder):
    """All of the recipes."""
    with contextlib.ExitStack() as stack:
        page = Page(folder, stack)
        for kind, words, printed in parts_of(recipes()):
            if kind == "section":
                page.section(words)
            elif page.lacks(kind, words):
                page.skip(words, page.lacks(kind, words))
            elif kind == "command":
                page.command(words, printed)
            else:
                try:
                    getattr(page, kind)(words)
                except Skipped as skipped:
                    page.skip(words, str(skipped))
    print(f"        {page.done} commands of the page ran", flush=True)
    for why, commands in page.skipped.items():
        print(f"        {len(commands)} skipped, {why}: {'; '.join(each[:50] for each in commands)}", flush=True)


def forms(page_text):
    """The forms of comments in the page's table, as patterns: `..` and a name in capitals are anything."""
    rows = re.findall(r"^\| (`# .*?) \|", page_text, re.MULTILINE)
    spans = [span for row in rows for span in re.findall("`(# [^`]*)`", row)]
    patterns = {re.escape(span).replace(r"\.\.", ".*") for span in spans}
    return [re.sub("[A-Z]{4,}", lambda found: r"[0-9]+\.[0-9]{6}" if found[0] == "SECONDS" else ".+", each)
            for each in patterns]  # fmt: skip


@test
def page_has_the_form_of_each_comment(folder):
    """Each comment that the recipes write has one form of the page's table, and each form is that of some comment."""
    packets, link = pcaps.read(SAMPLES / "deflate.pcap")
    lost = [pcaps.data_of(packets, side)[2] for side in (0, 1)]
    pcaps.write(folder / "lost.pcap", pcaps.without(packets, lost), link)
    ask, answer = (("CS"[at], pcaps.Segment(packets[pcaps.data_of(packets, at)[0]]).payload) for at in (0, 1))
    added = b"Sec-WebSocket-Protocol: a\r\nSec-WebSocket-Extensions: b\r\n\r\n"
    wrong = answer[0], answer[1].replace(b"Accept: ", b"Accept: x")[:-2] + added
    pcaps.write(folder / "wrong.pcap", pcaps.session([ask, wrong], 40000, 80))
    begun = pcaps.session([ask, answer], 40000, 80)[:-3]
    for side, at in ("client", -2), ("server", -1):
        one = pcaps.Segment(begun[at])
        end = one.seq + len(one.payload)
        pcaps.write(folder / f"{side}.pcap", [*begun, pcaps.packet((one.source, one.target), end, 0, 4)])
    lines, names = [], ("wrong", "lost", "client", "server")
    for words in ["-m", SAMPLES / "basic.pcap"], *([folder / f"{name}.pcap"] for name in names):
        out, _ = run(TOP / "recipes/pcap2wsn", *words, "0", status=None)
        lines += [*out.splitlines(), *run(TOP / "recipes/inflate", input=out, status=None)[0].splitlines()]
    found = sorted({line.decode() for line in lines if line.startswith(b"#")})
    known = forms(recipes())
    same(len(known), 16, "forms")
    for line in found:
        same(sum(re.fullmatch(form, line) is not None for form in known), 1, f"forms of {line!r}")
    unused = [form for form in known if not any(re.fullmatch(form, line) for line in found)]
    same(unused, [], "forms of no comment")


PINGS = """# 0.000100
C 898000000000
# 0.000200
S 8a00
# 0.000300
C 898100000000ff
S 8900
S 890161
# 0.000400
S 8a01ff
C 8a8000000000
C 8a8000000000
"""


@test
def page_finds_the_pong_of_a_ping(folder):
    """The page's line in jq: equal payloads in their order, others by payload; a ping or a pong that is alone."""
    needs("jq")
    page = parts_of(recipes())
    (line,) = [words for kind, words, _ in page if kind == "command" and '"pong"' in words]
    (folder / "pings.capture").write_text(PINGS)
    (folder / "wsn").symlink_to(WSN)
    line = line.replace("recipes/pcap2wsn tests/samples/basic.pcap 0", "cat pings.capture")
    printed = run("sh", "-c", line, cwd=folder)[0].decode().splitlines()
    wanted = ["client", 0, 0.0001, 0.0002], ["client", 6, 0.0003, 0.0004], ["server", 2, 0.0003, 0.0004]
    same([json.loads(each) for each in printed], [*wanted, ["server", 4, 0.0003, None]], "pings")


def indented(pattern):
    """A line of README.md's that is indented, and the lines of the next such block."""
    readme = (TOP / "README.md").read_text(encoding="utf-8")
    found = re.findall(rf"^    ({pattern}.*)\n((?:\n(?:    .*\n)+)?)", readme, re.MULTILINE)
    return [(line, re.sub("^    ", "", below.lstrip("\n"), flags=re.MULTILINE)) for line, below in found]


@test
def readme_says_what_its_lines_print(folder):
    """The lines of README.md that read a sample, with all that they print, and those that make a stream."""
    needs("bash", "xxd")
    (folder / "wsn").symlink_to(WSN)
    (folder / "tests").symlink_to(TOP / "tests")
    ((line, wanted),) = indented(r"\./wsn show ")
    printed, said = run("bash", "-c", line, status=1, cwd=folder)
    printed += said
    want(fits(printed.decode(), wanted), f"{line!r} prints {printed!r}, and README.md says {wanted!r}")
    ((line, _),) = indented("printf ")
    same(run("bash", "-c", line, cwd=folder), (b"81850000000048656c6c6f\n", b""), line)
    want("prints `81850000000048656c6c6f`" in (TOP / "README.md").read_text(encoding="utf-8"), "what it prints")
