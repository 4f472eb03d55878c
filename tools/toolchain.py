"""The toolchain's command `rt`, and what it hands to its own compiler and linker."""

from __future__ import annotations

import os
import pathlib
import shlex
import shutil
import subprocess
import sys
from collections.abc import Iterable, Mapping, Sequence
from typing import Any

# runs the toolchain's own command, but with another folder for its compiler and linker
RUNS = """
import subprocess, sys
sys.path.insert(0, {bin!r})
import rtlib
kits, watched = f"{{rtlib.KIT}}/toolchain", {watched!r}
class Process(subprocess.Popen):
    def __init__(self, words, *rest, **how):
        if not isinstance(words, str):
            words = [watched if word == kits else word for word in words]
        super().__init__(words, *rest, **how)
subprocess.Popen = Process
sys.exit(rtlib.main(*sys.argv[1:]))
"""
# keeps the program that is handed to the compiler, or what the linker made
KEEPS_PROGRAM = """for word in "$@"; do case "$word" in *.bc) cp "$word" '{kept}';; esac; done
exec '{tool}' "$@"
"""
KEEPS_LINKED = """'{tool}' "$@" || exit
[ ! -e program ] || cp program '{kept}'
"""


class NotBuilt(Exception):
    """Why something can't be built, in a sentence."""


def run(words: Iterable[object], **how: Any) -> str:
    """Runs a command; where it fails, its last lines say why."""
    command = [str(word) for word in words]
    if shutil.which(command[0]) is None:
        raise NotBuilt(f"the command {command[0]} is missing")
    pipes: dict[str, Any] = {"stdin": subprocess.DEVNULL, "stdout": subprocess.PIPE, "stderr": subprocess.STDOUT}
    ran = subprocess.run(command, text=True, errors="replace", check=False, **pipes, **how)
    if ran.returncode != 0:
        last = "\n".join(ran.stdout.splitlines()[-12:])
        raise NotBuilt(f"`{shlex.join(command)}` failed with status {ran.returncode}:\n{last}")
    return str(ran.stdout)


def is_there() -> bool:
    """Whether the command rt is on the path."""
    return shutil.which("rt") is not None


def kit() -> pathlib.Path:
    """The folder of the toolchain."""
    rt = shutil.which("rt")
    if rt is None:
        raise NotBuilt("the command rt is missing: it comes with the toolchain, rattle-kit-13")
    return pathlib.Path(os.path.realpath(rt)).parent.parent


def tool(name: str) -> pathlib.Path:
    """A program of the toolchain: its clang, its linker."""
    return kit() / "toolchain" / "bin" / name


def watched(folder: pathlib.Path, watches: Mapping[str, str], words: Sequence[object]) -> list[str]:
    """The command `rt WORDS ..`, by which each program NAME of the toolchain that `watches` names leaves what it takes
    or makes in the file `folder`/NAME.kept."""
    tools = folder / "toolchain"
    (tools / "bin").mkdir(parents=True)
    (tools / "lib").symlink_to(kit() / "toolchain" / "lib")
    for path in (kit() / "toolchain" / "bin").iterdir():
        (tools / "bin" / path.name).symlink_to(path)
    for name, watch in watches.items():
        wrapper = tools / "bin" / name
        wrapper.unlink()
        wrapper.write_text("#!/bin/sh\n" + watch.format(kept=kept(folder, name), tool=tool(name)))
        wrapper.chmod(0o755)
    runs = RUNS.format(bin=str(kit() / "bin"), watched=str(tools))
    return [sys.executable, "-c", runs, *map(str, words)]


def kept(folder: pathlib.Path, name: str) -> pathlib.Path:
    """Where a watched program of the toolchain leaves what it takes or makes."""
    return folder / f"{name}.kept"


def text_of(program: pathlib.Path, to: pathlib.Path) -> pathlib.Path:
    """Writes a program that was handed to the compiler as LLVM's text."""
    if not program.exists():
        raise NotBuilt("the toolchain handed no program to its clang")
    as_it_is = ("-S", "-emit-llvm", "-O0", "-Xclang", "-disable-llvm-passes")
    run([tool("clang"), "--target=x86_64-unknown-linux-gnu", "-x", "ir", program, *as_it_is, "-o", to])
    return to
