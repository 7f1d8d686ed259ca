"""./install, the man page and the completions."""

import os
import pty
import re
import select
import shutil
import subprocess
import time

from harness import SECONDS, TOP, WSN, Failed, needs, run, same, test, want

FILES = ["bin/wsn", "share/bash-completion/completions/wsn", "share/man/man1/wsn.1", "share/zsh/site-functions/_wsn"]
COMMANDS = {"wsn-check": "recipes/check", "wsn-inflate": "recipes/inflate", "wsn-netlog": "recipes/netlog2wsn",
            "wsn-page": "page/build", "wsn-pcap": "recipes/pcap2wsn", "wsn-record": "recipes/record",
            "wsn-said": "recipes/said"}  # fmt: skip


def environment(**more):
    """Where the program is built already, and nothing else but what is named."""
    kept = {name: value for name, value in os.environ.items() if name not in ("ENGINE", "LIBRARY")}
    return {**kept, "WSN": str(program()), **more}


def program():
    """The built program, which the launcher runs."""
    if WSN != str(TOP / "wsn"):
        return WSN
    run(WSN, "--help")
    return TOP / "crates/wsn/out/wsn"


def files_in(folder):
    """The names of all files and folders below a folder."""
    return sorted(str(path.relative_to(folder)) for path in folder.rglob("*"))


@test
def install_copies_and_removes(folder):
    """Into a folder with a blank in its name, by a relative name too; again; and away, beside other files."""
    prefix = folder / "a prefix"
    kinds = "recipes/*.py", "page/*.py", "page/*.css", "page/*.html", "page/*.js"
    parts = [str(path.relative_to(TOP)) for kind in kinds for path in TOP.glob(kind)]
    wanted = [*FILES, *(f"bin/{name}" for name in COMMANDS), "lib/wsn/made",
              *(f"lib/wsn/{name.removeprefix('recipes/')}" for name in [*parts, *COMMANDS.values()])]  # fmt: skip
    for words in [prefix], ["a prefix/"]:
        said = run(TOP / "install", *words, cwd=folder, env=environment())[1]
        want(b"the library and its Python module are left out" in said, f"what is left out isn't said: {said}")
        found = [name for name in files_in(prefix) if (prefix / name).is_file()]
        same(found, sorted(wanted), "the files")
    same(run(prefix / "bin/wsn", "judge", "--role", "server", input=b"")[0][:8], b"accepted", "the program")
    kept = TOP / "tests/samples/basic.capture"
    out, _ = run("env", "-u", "WSN", prefix / "bin/wsn-check", kept, kept)
    same(out.splitlines()[0], b"basic.capture: equal", "the installed program, out of PATH")
    page, _ = run("env", "-u", "WSN", prefix / "bin/wsn-page", kept)
    same(page, run(TOP / "page/build", kept, env=environment())[0], "the installed page")
    (prefix / "bin/other").write_text("")
    run(TOP / "install", "--remove", "a prefix", cwd=folder)
    same(files_in(prefix), ["bin", "bin/other"], "what is left")
    for words in [], ["--remove"], ["--remove", folder / "nowhere"], ["-x"], [folder, folder], [""]:
        run(TOP / "install", *words, status=2, env=environment())
    (folder / "file").write_text("")
    run(TOP / "install", folder / "file", status=2, env=environment())


@test
def recipes_say_the_names_that_they_were_called_by(folder):
    """In their help and in what is wrong with a command line, as they are installed and here."""
    run(TOP / "install", folder, env=environment(WSN=shutil.which("true")))
    for name, file in COMMANDS.items():
        for path, own in (folder / "bin" / name, name), (TOP / file, os.path.basename(file)):
            text = (run(path, "-h")[0] + run(path, "--wrong", status=2)[1]).decode()
            want(f"{own}: " in text and f"{own} -h for help" in text, f"{own} doesn't say its name: {text}")
            want(re.search(rf"^ *(recipes/)?{own} \S", text, re.MULTILINE), f"{own} doesn't begin its help: {text}")
            if own == name:
                want(not re.search("recipes/|page/build|pcap2wsn|netlog2wsn", text), f"{own} says another name: {text}")
    same(named(folder / "bin/wsn-pcap"), "wsn-inflate", "another recipe, where they are installed")
    same(named("recipes/pcap2wsn"), "recipes/inflate", "another recipe, here")


def named(called):
    """What a recipe that was called by this name calls recipes/inflate."""
    line = f"import sys; sys.argv[0] = {str(called)!r}; from names import named; print(named('recipes/inflate'))"
    return run("python3", "-c", line, env={**os.environ, "PYTHONPATH": str(TOP / "recipes")})[0].decode().strip()


@test
def install_copies_the_library(folder):
    """The library that LIBRARY names, its header, and the module, which finds it; and away."""
    made = {"lib/libwsn.a": b"archive", "lib/libwsn.so.0": b"shared", "include/wsn.h": b"header"}
    (folder / "built").mkdir()
    for name, data in made.items():
        (folder / "built" / os.path.basename(name)).write_bytes(data)
    prefix = folder / "prefix"
    run(TOP / "install", prefix, env=environment(LIBRARY=str(folder / "built")))
    same({name: (prefix / name).read_bytes() for name in made}, made, "the files")
    same((prefix / "lib/libwsn.so").read_bytes(), b"shared", "what the link shows")
    same(os.readlink(prefix / "lib/libwsn.so"), "libwsn.so.0", "the link")
    described = (prefix / "lib/pkgconfig/libwsn.pc").read_text()
    want(re.search(r"^Version: \d+\.\d+\.\d+$", described, re.MULTILINE), f"what pkg-config reads: {described}")
    place = "import wsn; print(wsn._places()[0])"
    found, _ = run("python3", "-c", place, env={**os.environ, "PYTHONPATH": str(prefix / "lib/wsn/python")})
    same(os.path.realpath(found.decode().strip()), str(prefix / "lib/libwsn.so.0"), "where the module looks")
    run(TOP / "install", "--remove", prefix)
    same(prefix.exists(), False, "what is left")


@test
def install_copies_the_page(folder):
    """The page on which captures are dropped, with the engine that ENGINE names; wsn-page makes it again; and away."""
    (folder / "code.wasm").write_bytes(b"engine")
    prefix = folder / "prefix"
    run(TOP / "install", prefix, env=environment(ENGINE=str(folder / "code.wasm")))
    page = (prefix / "share/wsn/wsn.html").read_bytes()
    same(page.count(b'id="engine">ZW5naW5l<'), 1, "the engine in the page")
    same((prefix / "lib/wsn/page/engine.wasm").read_bytes(), b"engine", "the engine")
    made, _ = run("env", "-u", "WSN", prefix / "bin/wsn-page", stdin=subprocess.DEVNULL)
    same(made, page, "the page that the installed command makes")
    run(TOP / "install", "--remove", prefix)
    same(prefix.exists(), False, "what is left")


@test
def install_removes_only_what_it_made(folder):
    """A folder that was there stays, also an empty one; those that were made go, and the prefix with them."""
    (folder / "old/share/man").mkdir(parents=True)
    for name in "old", "new/prefix":
        run(TOP / "install", folder / name, env=environment())
        run(TOP / "install", "--remove", folder / name)
    same(files_in(folder), ["old", "old/share", "old/share/man"], "what is left")


@test
def man_page_is_clean(folder):
    """Neither mandoc nor groff has anything to say of it."""
    needs("mandoc", "groff")
    page = TOP / "share/man/man1/wsn.1"
    same(run("mandoc", "-Tlint", "-Wwarning", page), (b"", b""), "mandoc")
    same(run("groff", "-ww", "-z", "-mandoc", page), (b"", b""), "groff")
    shown = re.sub(".\x08", "", run("mandoc", "-Tascii", "-Owidth=80", page)[0].decode())
    same([line for line in shown.splitlines() if len(line) > 80], [], "wide lines")


def helped(*words):
    """The commands and options that help lists."""
    text = run(program(), *words, "--help")[0].decode()
    commands = re.search(r"^Commands:\n((?: .*\n|\n)*)", text, re.MULTILINE)
    found = re.findall(r"^  (\w+)", commands[1], re.MULTILINE) if commands else []
    return found, set(re.findall(r"(?<![-\w])--[a-z]+", text))


@test
def pages_have_all_that_help_lists(folder):
    """Each command and option is in the man page and in both completions."""
    text = {name: (TOP / name).read_text(encoding="utf-8").replace("Fl \\-", "--") for name in FILES[1:]}
    commands, options = helped()
    for command in commands:
        if command != "help":
            options |= helped(command)[1]
    for name, page in text.items():
        missing = [word for word in [*commands, *sorted(options)] if not re.search(rf"(?<![-\w]){word}\b", page)]
        if name.startswith("share/man"):
            missing = [word for word in missing if word != "help"]
        same(missing, [], f"{name} lacks")


def typed(shell, setup, keys, wanted):
    """What an interactive shell shows once keys are typed, up to what is wanted."""
    process, terminal = pty.fork()
    if process == 0:
        os.environ.update(TERM="dumb", PS1="", HISTFILE="/dev/null")
        os.execvp(shell[0], shell)
    shown = b""
    try:
        os.write(terminal, setup.encode() + b"echo set''up\n")
        for mark, then in (b"setup", keys.encode()), (wanted.encode(), b""):
            limit = time.monotonic() + SECONDS / 4
            while mark not in shown:
                if not select.select([terminal], [], [], max(0, limit - time.monotonic()))[0]:
                    raise Failed(f"{shell[0]} never shows {mark!r}: {shown[-600:]!r}")
                shown += os.read(terminal, 65536)
            shown = b""
            os.write(terminal, then)
    finally:
        os.close(terminal)
        os.waitpid(process, 0)


LISTS = "[ \"$*\" != explain ] || { printf 'Verdicts\\n  cut  text-bad  text-cut\\n'; return; }"
SAYS = f"wsn() {{ {LISTS}; printf 'GOT'; printf ' <%s>' \"$@\"; echo; }}\n"
TYPED = [
    ("wsn exp\t--h\t\n", "GOT <explain> <--help>"),
    ("wsn explain text-b\t\n", "GOT <explain> <text-bad>"),
    ("wsn ju\t--ro\tser\t--lengths a\t\n", "GOT <judge> <--role> <server> <--lengths> <any>"),
    ("wsn same --role cl\tthe\\ o\tthe\\ o\t\n", "GOT <same> <--role> <client> <the one> <the one>"),
    ("wsn judge --role cl\t--cap\tthe\\ o\t\n", "GOT <judge> <--role> <client> <--capture> <the one>"),
    ("wsn closing the\\ o\t\n", "GOT <closing> <the one>"),
    ("wsn show --co\talw\t\n", "GOT <show> <--color> <always>"),
    ("wsn show --vi\ta\t\n", "GOT <show> <--view> <all>"),
]


@test
def completion_in_bash(folder):
    """Commands, options, values and files are completed at a terminal."""
    needs("bash")
    (folder / "the one").write_text("")
    source = TOP / "share/bash-completion/completions/wsn"
    for keys, wanted in TYPED:
        typed(["bash", "--norc", "--noprofile", "-i"], f"cd '{folder}'; . '{source}'\n{SAYS}", keys, wanted)


@test
def completion_in_zsh(folder):
    """The same in zsh, which joins an option and its value by `=`."""
    needs("zsh")
    (folder / "the one").write_text("")
    functions = TOP / "share/zsh/site-functions"
    setup = f"cd '{folder}'; fpath=('{functions}' $fpath); autoload -U compinit; compinit -u -D\n{SAYS}"
    for keys, wanted in TYPED:
        keys, wanted = keys.replace("--role cl", "--role=cl"), re.sub("--(role|color|view)> <", r"--\1=", wanted)
        typed(["zsh", "-f", "-i"], setup, keys, wanted)


@test
def scripts_are_clean(folder):
    """shellcheck has nothing to say."""
    needs("shellcheck")
    run("shellcheck", TOP / "tools/check", TOP / "install", TOP / "wsn")
    run("shellcheck", "-s", "bash", TOP / "share/bash-completion/completions/wsn")
