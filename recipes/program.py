"""The program wsn, as the recipes call it."""

import functools
import os
import pathlib
import shutil
import subprocess

ELSE = "or name a built program by WSN=FILE"


class NoProgram(Exception):
    """Why there is no program to call, and what to run."""


@functools.lru_cache(maxsize=None)
def program() -> str:
    """The path of the program: $WSN, the repository's or the installed one, or the one in PATH.

    No recipe builds it, since its proof takes a quarter of an hour: NoProgram, if there is none.
    """
    if os.environ.get("WSN"):
        return named(os.path.abspath(os.environ["WSN"]))
    here = pathlib.Path(__file__).resolve().parent
    if (here.parent / "wsn").is_file():
        return built(here.parent)
    if (here.parent.parent / "bin/wsn").is_file():
        return str(here.parent.parent / "bin/wsn")
    found = shutil.which("wsn")
    if not found:
        raise NoProgram(f"the program wsn isn't here: install it, put it into PATH, {ELSE}")
    return found


def named(path: str) -> str:
    """The program that $WSN names."""
    if not os.path.isfile(path) or not os.access(path, os.X_OK):
        raise NoProgram(f"WSN names {path}, and that is no program that can be run")
    return path


def built(top: pathlib.Path) -> str:
    """The repository's program. Its launcher is asked once whether it is built from the sources that are there: each
    call of the launcher compares all of them, which takes longer than most answers."""
    asked = {**os.environ, "WSN_BUILD": "no"}
    done = subprocess.run([str(top / "wsn"), "--version"], env=asked, capture_output=True, check=False)
    if done.returncode == 0:
        return str(top / "crates/wsn/out/wsn")
    said = done.stderr.decode(errors="replace").strip().removeprefix("wsn: ")
    raise NoProgram(f"{said or 'the program wsn cannot be run'}; {ELSE}")
