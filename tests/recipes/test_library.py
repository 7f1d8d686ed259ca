"""tools/library, over a toolchain that only compiles a little C: where its files go, and what they hold."""

import os
import shutil

from harness import TOP, needs, run, same, test, want

# Stands for the toolchain: it makes the library that the build with its proof makes.
RT = """#!/bin/sh
[ "$1" = lib ] && [ ! -e ../../wrong ] && mkdir -p out || { echo 'no proof'; exit 1; }
printf 'int heap(void); int judged(void) { return heap() + 1; }\\n' >out/judged.c
cc -fPIC -c -o out/judged.o out/judged.c && ar rc out/libwsn_c.a out/judged.o
"""


def repository(folder):
    """A repository and a toolchain, both with blanks in their paths; the environment in which tools/library runs."""
    top, tools = folder / "a repository", folder / "tool chain"
    for made in top / "crates/wsn_c", top / "include", top / "tools", tools / "bin", tools / "c":
        made.mkdir(parents=True)
    for name in "tools/library", "tools/build":
        shutil.copy(TOP / name, top / name)
    (top / "crates.txt").write_text("wsn_c staticlib:\n")
    (top / "include/wsn.h").write_text("int judged(void);\n")
    (tools / "bin/rt").write_text(RT)
    (tools / "bin/rt").chmod(0o755)
    (tools / "c/heap.c").write_text("int heap(void) { return 6; }\n")
    run("cc", "-fPIC", "-c", "-o", "heap.o", "heap.c", cwd=tools / "c")
    run("ar", "rc", "liblibc_c.a", "heap.o", cwd=tools / "c")
    return top, {**os.environ, "PATH": f"{tools / 'bin'}:{os.environ['PATH']}"}


@test
def library_goes_into_a_folder_with_a_blank(folder):
    """All files, whole, and nothing else; from a repository with a blank in its path, also a second time."""
    needs("bash", "cc", "ar")
    top, environment = repository(folder)
    (folder / "main.c").write_text("#include <wsn.h>\nint main(void) { return judged(); }\n")
    for _ in range(2):
        run(top / "tools/library", "its files", cwd=folder, env=environment)
        made = folder / "its files"
        same(sorted(path.name for path in made.iterdir()), ["libwsn.a", "libwsn.so", "libwsn.so.0", "wsn.h"], "the files")
        same(os.readlink(made / "libwsn.so"), "libwsn.so.0", "the link")
        same(sorted(run("ar", "t", made / "libwsn.a")[0].split()), [b"heap.o", b"judged.o"], "the archive")
    for name in "libwsn.a", "libwsn.so":
        run("cc", f"-I{made}", "-o", folder / "main", folder / "main.c", made / name, f"-Wl,-rpath,{made}")
        run(folder / "main", status=7)
    kept = {"a repository", "tool chain", "its files", "main", "main.c"}
    same({path.name for path in folder.iterdir()}, kept, "what lies beside them")


@test
def library_that_fails_leaves_nothing(folder):
    """A build that fails, a compiler that does, no folder: a line on standard error, no file."""
    needs("bash", "cc", "ar")
    top, environment = repository(folder)
    said = run(top / "tools/library", status=2, env=environment)[1]
    want(b"it takes one FOLDER" in said, f"no folder: {said}")
    run(top / "tools/library", folder / "made", status=1, env={**environment, "CC": "false"})
    (top / "wrong").write_text("")
    said = run(top / "tools/library", folder / "made", status=2, env=environment)[1]
    same(said.splitlines()[1:], [b"no proof", b"wsn: the build failed: wsn_c"], "what is said")
    same(list((folder / "made").iterdir()), [], "the files")
