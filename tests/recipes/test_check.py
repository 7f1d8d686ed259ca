"""recipes/check: what it says of folders of captures, and its status."""

import shlex
import shutil

from harness import SAMPLES, TOP, WSN, needs, run, same, test, want


def check(*words, status=0):
    """What check prints, line by line, and what it says on standard error."""
    out, said = run("env", f"WSN={WSN}", TOP / "recipes/check", *words, status=status)
    return out.decode().splitlines(), said.decode()


def kept(folder, *names):
    """A folder with samples."""
    folder.mkdir()
    for name in names:
        shutil.copy(SAMPLES / f"{name}.capture", folder / f"{name}.capture")
    return folder


@test
def check_of_equal_folders(folder):
    """Two recordings of one session, with other keys and another framing, are equal."""
    one, two = kept(folder / "one", "basic", "abort"), kept(folder / "two", "basic", "abort")
    shutil.copy(SAMPLES / "ipv6.capture", two / "basic.capture")
    (two / "other").write_text("no capture\n")
    lines, said = check(one, two)
    wanted = ["abort.capture: equal", "basic.capture: equal", "2 captures: 2 equal, 0 alike, 0 different, 0 in error"]
    same((lines, said), (wanted, ""), "the lines")
    same(check(SAMPLES / "basic.capture", SAMPLES / "tls.capture")[0][0], "tls.capture: equal", "two files")


@test
def check_of_a_difference(folder):
    """One side differs, or isn't accepted: status 1. The command that shows more is named, and shows it."""
    one, two = kept(folder / "one", "basic", "abort", "latin"), kept(folder / "two", "basic", "abort")
    (two / "abort.capture").write_text((two / "abort.capture").read_text().replace("S 81036f6e65", "S 81036f6e66"))
    (two / "latin.capture").write_text((one / "latin.capture").read_text().replace("fcdf65", "c39f65"))
    lines, said = check(one, two, status=1)
    same(lines[0], "abort.capture: client equal; server different 0", "a difference")
    same(lines[1], "basic.capture: equal", "an equal one")
    same(lines[2], "latin.capture: client equal; server first refused 11 text-bad 1007", "a kept one that is refused")
    same(lines[3], "3 captures: 1 equal, 0 alike, 2 different, 0 in error", "the summary")
    same(check(two, one, status=1)[0][2], lines[2].replace("first", "second"), "a new one that is refused")
    (hint,) = said.splitlines()
    words = shlex.split(hint.removeprefix("hint: wsn "))
    shown = run(WSN, *words, status=1)[0].decode()
    wanted = 'different 0\nfirst S - 0 text 3 1 "one"\nsecond S - 0 text 3 1 "onf"\ndiffer-at 2 "one" "onf"\n'
    same(shown, wanted, f"{hint!r}")
    lines, said = check("--pings", SAMPLES / "basic.capture", SAMPLES / "abort.capture", status=1)
    files = f"{SAMPLES}/basic.capture {SAMPLES}/abort.capture"
    hints = [f"hint: wsn same --role {role} --view 48 --capture {files}" for role in ("client", "server")]
    same(said.splitlines(), hints, "both sides")


@test
def check_of_what_is_refused_alike(folder):
    """A capture against itself is alike, status 0; other bytes, and another verdict, are neither alike nor an error."""
    for name, words in (
        ("latin", "client equal; server refused alike 11 text-bad 1007"),
        ("deflate", "client refused alike 0 reserved-bits 1002; server refused alike 0 reserved-bits 1002"),
        ("lost", "client equal; server cut alike 77"),
    ):
        lines, said = check(SAMPLES / f"{name}.capture", SAMPLES / f"{name}.capture")
        wanted = [f"{name}.capture: {words}", "1 capture: 0 equal, 1 alike, 0 different, 0 in error"]
        same((lines, said), (wanted, ""), name)
    one, two = folder / "one.capture", folder / "two.capture"
    one.write_text("C 818100000000\nC ff\nS 8100\n")
    for text, words, status in (
        ("C 818100000000ff\r\nS 8100\n", "refused alike 6 text-bad 1007", 0),
        ("C 81810102030400\nS 8100\n", "first refused 6 text-bad 1007", 1),
        ("C 818101020304fe\nS 8100\n", "both refused 6 text-bad 1007", 1),
        ("C 818201020304fefe\nS 8100\n", "both refused 6 text-bad 1007", 1),
        ("C 8182000000006cff\nS 8100\n", "first refused 6 text-bad 1007, second refused 7 text-bad 1007", 1),
        ("C 8182000000006c\nS 8100\n", "first refused 6 text-bad 1007, second cut 7", 1),
        ("C 818100000000\nS 8100\n", "first refused 6 text-bad 1007, second cut 6", 1),
    ):
        two.write_text(text)
        kinds = "1 alike, 0 different" if status == 0 else "0 alike, 1 different"
        wanted = [f"two.capture: client {words}; server equal", f"1 capture: 0 equal, {kinds}, 0 in error"]
        same(check(one, two, status=status), (wanted, ""), text)


@test
def check_of_compressed_captures(folder):
    """With another key, what was said is refused, and not alike: a hint says that it is compressed, also with --diff."""
    needs("diff")
    new = folder / "new.capture"
    new.write_text((SAMPLES / "deflate.capture").read_text().replace("C c187912ec62e", "C c187912ec62f"))
    wanted = "new.capture: client both refused 0 reserved-bits 1002; server refused alike 0 reserved-bits 1002"
    for words in [], ["--diff"]:
        lines, said = check(*words, SAMPLES / "deflate.capture", new, status=1)
        same(lines[0], wanted, f"the line with {words}")
        want(said.startswith("hint: new.capture: compressed: recipes/inflate CAPTURE"), f"what is said: {said}")
        same(len(said.splitlines()), 1, "lines of hints")


@test
def check_of_a_keepalive(folder):
    """A pong that came a message later, or a ping more, is no difference; with --pings it is, and a Close always is."""
    kept, new = folder / "kept.capture", folder / "new.capture"
    kept.write_text("S 8900\nC 8a8000000000\nC 81810000000061\nC 888000000000\n")
    new.write_text("S 8900\nC 81810000000061\nC 8a8000000000\nS 8900\nC 888000000000\n")
    same(check(kept, new)[0][0], "new.capture: equal", "a keepalive")
    lines, _ = check("--pings", kept, new, status=1)
    same(lines[0], "new.capture: client different 0; server different 1", "with --pings")
    new.write_text(new.read_text().replace("888000000000", "88820000000003e8"))
    lines, _ = check(kept, new, status=1)
    same(lines[0], "new.capture: client different 1; server equal", "a Close")


@test
def check_of_what_cannot_be_compared(folder):
    """Missing files, unreadable ones and those that are no captures: an error, status 2, never equal."""
    one, two = kept(folder / "one", "basic", "abort", "latin"), kept(folder / "two", "basic", "abort", "ipv6")
    for name, text in ("basic", "# nothing\n"), ("abort", "810548656c6c6f\n"):
        for each in one, two:
            (each / f"{name}.capture").write_text(text)
    for each in one, two:
        (each / "late.capture").write_text("C 8100\n" if each == one else "C 8100\nC.\nC 8100\n")
    lines, _ = check(one, two, status=2)
    for line, words in zip(lines, (
        f"abort.capture: error: {one}/abort.capture is no capture: line 1: bad-form",
        f"basic.capture: error: {one}/basic.capture is no capture: it has no line of a side",
        f"ipv6.capture: error: can't read {one}/ipv6.capture: No such file",
        f"late.capture: error: {two}/late.capture is no capture: line 3: after-end",
        f"latin.capture: error: can't read {two}/latin.capture: No such file",
        "5 captures: 0 equal, 0 alike, 0 different, 5 in error",
    )):  # fmt: skip
        want(line.startswith(words), f"{line}, and not {words}")
    same(len(lines), 6, "lines")
    for words, wanted in (
        ([folder / "no", folder / "none"], "no: No such file"),
        ([one, two / "basic.capture"], "aren't both folders"),
        ([folder, folder], "has a file *.capture"),
        ([one], "check [--pings] [--diff] KEPT NEW"),
        (["-x", one], "check [--pings] [--diff] KEPT NEW"),
        (["--pings", one], "check [--pings] [--diff] KEPT NEW"),
    ):
        lines, said = check(*words, status=2)
        want(wanted in said + "".join(lines), f"{words}: {said}")
    lines, said = run("env", f"WSN={folder}/none", TOP / "recipes/check", one, two, status=2)
    want(b"none" in said, "without the program")


@test
def check_shows_all_differences(folder):
    """With --diff: of each side that differs all places, in place of the command; pings and pongs as elsewhere; of sides
    with one verdict and other bytes, that what they said before is equal."""
    needs("diff")
    kept, new = folder / "kept.capture", folder / "new.capture"
    kept.write_text("C 81810000000061\nS 8900\nS 81036f6e65\nS 810374776f\nS 820100\nS 880203e8\n")
    new.write_text("C 81810102030460\nS 81034f6e65\nS 810374776f\nS 820101\nS 8900\nS 880203e9\n")
    lines, said = check("--diff", kept, new, status=1)
    same((lines[0], said), ("new.capture: client equal; server different 0", ""), "the line, and no command")
    shown = [line for line in lines[3:-1] if line[0] in "-+"]
    zero, one = (f"       0  0{digit}{47 * ' '}." for digit in "01")
    wanted = ["-  one", "+  One", f"-{zero}", "-close 1000", f"+{one}", "+close 1001"]
    same(shown, wanted, "the differences")
    shown = check("--diff", "--pings", kept, new, status=1)[0]
    same(sorted(line for line in shown if line[1:] == "ping"), ["+ping", "-ping"], "with --pings")
    kept.write_text("C 818100000000\nS 810161\nS 8101ff\n")
    new.write_text("C 818100000000\nS 810161\nS 8101fe\n")
    lines, said = check("--diff", kept, new, status=1)
    wanted = ["new.capture: client cut alike 6; server both refused 5 text-bad 1007",
              "server: what was said before the verdict is equal"]  # fmt: skip
    same((lines[:-1], said), (wanted, ""), "one verdict")
    lines, said = check("--diff", SAMPLES / "basic.capture", SAMPLES / "ipv6.capture")
    same((len(lines), said), (2, ""), "two that are equal")


# A launcher that is asked whether the program is built, and builds if it is called otherwise.
LAUNCHER = """#!/bin/sh
cd "${0%/*}"
echo "$WSN_BUILD $*" >>calls
[ "$WSN_BUILD" = no ] || { mkdir -p crates/wsn/out; touch building; exit 2; }
[ -e crates/wsn/out/wsn ] || { echo "wsn: the program isn't built: './wsn --version' builds it" >&2; exit 2; }
"""

# What stands for the program: it says that it was called, and answers as the program does.
PROGRAM = """#!/bin/sh
echo "$1" >>"${0%/*}/calls"
case $1 in same) echo equal ;; closing) cat >/dev/null; echo outcome clean ;; esac
"""


@test
def no_recipe_builds_the_program(folder):
    """Without a built one each that requires it says what to run, status 2; the launcher is asked once for any number of
    captures, and the program itself is called."""
    shutil.copytree(TOP / "recipes", folder / "recipes")
    shutil.copytree(TOP / "page", folder / "page")
    (folder / "wsn").write_text(LAUNCHER)
    (folder / "wsn").chmod(0o755)
    captures = kept(folder / "captures", "basic", "abort", "latin", "ipv6")
    away, capture = ["env", "-u", "WSN"], captures / "basic.capture"
    why = "the program isn't built: './wsn --version' builds it; or name a built program by WSN=FILE"
    for words in (
        ["recipes/check", captures, captures],
        ["recipes/said", capture, "client"],
        ["recipes/record", "--show", "9001", "ws://localhost:9000", folder / "recordings"],
    ):
        out, said = run(*away, folder / words[0], *words[1:], status=2)
        same((out, said.decode()), (b"", f"{words[0].removeprefix('recipes/')}: {why}\n"), f"{words}")
    out, said = run(*away, folder / "page/build", capture, status=2)
    same((out, said.decode()), (b"", f"build: basic.capture: {why}\n"), "a page")
    out, said = run(*away, folder / "recipes/pcap2wsn", "--all", SAMPLES / "basic.pcap", folder / "one")
    same((out.split(b"\t")[8], said.decode()), (b"-", f"pcap2wsn: the outcomes are left out: {why}\n"), "outcomes")
    same((folder / "one/0.capture").exists(), True, "its capture")
    same((folder / "calls").read_text(), "no --version\n" * 5, "what the launcher is asked")
    _, said = run("env", f"WSN={folder}/none", folder / "recipes/said", capture, "client", status=2)
    same(said.decode(), f"said: WSN names {folder}/none, and that is no program that can be run\n", "a wrong WSN")
    (folder / "calls").unlink()
    made = folder / "crates/wsn/out/wsn"
    made.parent.mkdir(parents=True)
    made.write_text(PROGRAM)
    made.chmod(0o755)
    out, said = run(*away, folder / "recipes/check", captures, captures)
    same((out.splitlines()[-1], said), (b"4 captures: 4 equal, 0 alike, 0 different, 0 in error", b""), "a built one")
    same((folder / "calls").read_text(), "no --version\n", "the launcher's calls")
    called = (made.parent / "calls").read_text().splitlines()
    same((called.count("same"), called.count("closing")), (8, 8), "the program's calls")
    same((folder / "building").exists(), False, "a build")
