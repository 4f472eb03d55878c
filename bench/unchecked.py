#!/usr/bin/env python3
"""Builds the program of a clone without a proof and without checks, in three minutes, for counting its instructions.

    bench/unchecked.py [--clone DIR] [--processor NAME] OUT

It is what `rt try` compiles of the clone, this one or DIR, as LLVM's text: without its checks, with each function
inlined or not as its source asks for, and compiled at -O3. Proved programs took 0.73 to 0.93 of its instructions, by
the scene: so hold counts against those of another program that is built so, and against no proved one's. Nothing was
proved of it: use it for nothing else.

    valgrind --tool=callgrind --callgrind-out-file=/dev/null OUT SCRIPT /dev/null
"""

from __future__ import annotations

import argparse
import pathlib
import re
import sys
import tempfile

import scenes  # noqa: F401 (it puts the tools and the package on the path)
import checked_build
import toolchain
from yuzuratchet.ending import ended

TOP = pathlib.Path(__file__).resolve().parent.parent
PROCESSOR = "x86-64"
TRAP = re.compile(r"^  call void @llvm\.trap\(\)\n", re.M)
CHECK = re.compile(r'^  call void @"rattle-llvm-checks::\w+"\(i8 [^)]*\)\n', re.M)
DEFINED = re.compile(r'^(define internal [^@\n]*@"([^"\n]*)"[^\n]*?) ?\{$', re.M)
# of the sources: what asks for inlining, a function, and the type that an `impl` is of
ASKS = re.compile(r"\s*#\[inline(?:\((\w+)\))?\]")
FUNCTION = re.compile(r"(\s*)(?:pub(?:\([^)]*\))? )?(?:const )?fn (\w+)")
IMPL = re.compile(r"impl(?:<.*?>)? (?:(\w+)(?:<.*>)? for )?(\w+)")
MEANS = {"always": "alwaysinline", "never": "noinline", None: "inlinehint"}


def asked_in(text: str, module: str) -> dict[tuple[str, ...], str]:
    """What a source asks for: by crate, type and function of a method, by its path of another function."""
    found: dict[tuple[str, ...], str] = {}
    of, asks = "", ""
    for line in text.split("\n"):
        if impl := IMPL.match(line):
            of = impl[2] + (impl[1] or "")
        elif attribute := ASKS.match(line):
            asks = MEANS[attribute[1]]
        elif function := FUNCTION.match(line):
            crate = module.partition("::")[0]
            name = (crate, of, function[2]) if function[1] else (f"{module}::{function[2]}",)
            if asks:
                found[name] = asks
            asks = ""
    return found


def asked(crates: pathlib.Path) -> dict[tuple[str, ...], str]:
    """What all sources of a clone ask for."""
    found: dict[tuple[str, ...], str] = {}
    for path in crates.glob("*/src/**/*.rt"):
        crate, _, *parts = path.relative_to(crates).with_suffix("").parts
        module = "::".join([crate, *(it for it in parts if it not in ("lib", "main"))])
        found |= asked_in(path.read_text(encoding="utf-8"), module)
    return found


def unchecked(text: str, asks: dict[tuple[str, ...], str]) -> str:
    """The text of a program without its checks, with functions marked as their sources ask."""

    def marked(found: re.Match[str]) -> str:
        path = re.sub(r"::<#\w+>$", "", found[2])
        crate, *_ = parts = path.split("::")
        mark = asks.get((path,)) or (asks.get((crate, *parts[-2:])) if len(parts) > 2 else None)
        return f"{found[1]} {mark} {{" if mark else found[0]

    return DEFINED.sub(marked, CHECK.sub("", TRAP.sub("", text)))


def build(clone: pathlib.Path, processor: str, out: pathlib.Path) -> None:
    """Builds the program of a clone."""
    checked_build.CRATES = clone / "crates"
    checked_build.CRATE = checked_build.CRATES / "tiledraw"
    text = unchecked(checked_build.program_text(), asked(checked_build.CRATES))
    with tempfile.TemporaryDirectory() as room:
        source, made = pathlib.Path(room, "program.ll"), pathlib.Path(room, "program.o")
        source.write_text(checked_build.for_processor(text, processor), encoding="utf-8")
        clang, target = toolchain.tool("clang"), "--target=x86_64-unknown-linux-gnu"
        toolchain.run([clang, target, "-Wno-override-module", "-O3", "-fPIE", "-c", "-x", "ir", source, "-o", made])
        of_kit = [toolchain.kit() / "c" / it for it in ("libos_c.a", "liblibc_c.a")]
        toolchain.run(["gcc", "-o", out, made, *of_kit, "-lpthread", "-lm"])


def main() -> int:
    parser = argparse.ArgumentParser(description=__doc__, formatter_class=argparse.RawDescriptionHelpFormatter)
    parser.add_argument("--clone", metavar="DIR", type=pathlib.Path, default=TOP, help="the clone (this one)")
    parser.add_argument("--processor", metavar="NAME", default=PROCESSOR, help=f"as x86-64-v3 ({PROCESSOR})")
    parser.add_argument("out", metavar="OUT", type=pathlib.Path)
    given = parser.parse_args()
    if not (given.clone / "crates" / "tiledraw").is_dir():
        parser.exit(2, f"unchecked.py: {given.clone} has no crates/tiledraw: --clone names a clone of the repository\n")
    try:
        build(given.clone.resolve(), given.processor, given.out)
    except toolchain.NotBuilt as error:
        parser.exit(2, f"unchecked.py: {error}\n")
    return 0


if __name__ == "__main__":
    sys.exit(ended(main))
