#!/usr/bin/env python3
"""Builds the device as a WebAssembly module, for web pages and for node.

    tools/build_module.py OUT.wasm

The module has a memory with 64-bit addresses and imports nothing; library/MODULE.md says what it exports. The crates
yuzuratchet and device_calls are built by `rt lib`, as for the C library, and what the toolchain hands to its clang for
that is compiled once more by the same clang, for WebAssembly. (The toolchain's own way to WebAssembly takes no crate
whose memory comes from malloc.) library/module/heap.c is the heap.
"""

from __future__ import annotations

import argparse
import pathlib
import re
import sys
import tempfile
from collections.abc import Iterable, Mapping
from concurrent.futures import ThreadPoolExecutor

import package_path  # noqa: F401
import toolchain
from install_library import ALONE, CHOSEN, CRATES, DEVICE_CRATE, LIBRARY, SCRIPT_CRATE, calls, device_calls, texts
from toolchain import NotBuilt, run
from yuzuratchet.ending import ended

# what the module exports beside the calls of the C library; its memory functions are its own
OTHERS, WITHOUT = ("malloc", "free", "__heap_base"), "yuzuratchet_use_memory"
SOURCES = ("yuzuratchet.c", "yuzuratchet_device.c", "bounds.c", "texts.c", "module/heap.c", "module/wide.c")
FEATURES = ("simd128", "bulk-memory", "sign-ext", "nontrapping-fptoint")
TARGET = ("--target=wasm64-unknown-unknown", "-O3", *(f"-m{it}" for it in FEATURES))
FREESTANDING: tuple[object, ...] = (
    "-std=c11",
    "-ffreestanding",
    "-nostdinc",
    "-isystem",
    LIBRARY / "module" / "include",
)
WARNINGS = ("-Wall", "-Wextra", "-Werror")
STACK = 8 << 20
LINKING = ("-flavor", "wasm", "-mwasm64", "--no-entry", "--gc-sections", "--stack-first", "-z", f"stack-size={STACK}")
# the linker compiles the programs, so that what both have stands in the module once
COMPILING = ("-enable-merge-functions", "-expand-div-rem-bits=64", f"-mattr={','.join(f'+{it}' for it in FEATURES)}")


def programs(folder: pathlib.Path) -> dict[str, pathlib.Path]:
    """Each crate whole as LLVM's text, as the toolchain hands it to its clang."""
    found = {}
    for crate in (SCRIPT_CRATE, DEVICE_CRATE):
        room = folder / crate
        room.mkdir()
        run(toolchain.watched(room, {"clang": toolchain.KEEPS_PROGRAM}, ["lib"]), cwd=CRATES / crate)
        found[crate] = toolchain.text_of(toolchain.kept(room, "clang"), room / "program.ll")
    return found


def for_module(text: str, names: Iterable[str]) -> str:
    """The same program with nothing said of the processor that it was made for, and with no name outside but some.

    Where it calls one's own instructions it can't be moved.
    """
    own = sorted({*re.findall(r"@llvm\.x86\.[\w.]+", text)})
    if own:
        raise NotBuilt(f"the program calls instructions of x86 alone: {', '.join(own)}")
    text = re.sub(r"^target (datalayout|triple) = .*\n", "", text, flags=re.M)
    text = re.sub(r' "(probe-stack|stack-probe-size|target-cpu|target-features|tune-cpu)"="[^"]*"', "", text)
    kept = "|".join(map(re.escape, names))
    return re.sub(rf"^define (?!internal |private |[^@\n]*@(?:{kept})\()", "define internal ", text, flags=re.M)


def build(out: pathlib.Path) -> None:
    """Builds the module into a file."""
    with tempfile.TemporaryDirectory() as room:
        link(programs(pathlib.Path(room)), pathlib.Path(room), out)


def link(programs_of: Mapping[str, pathlib.Path], folder: pathlib.Path, out: pathlib.Path) -> None:
    """Compiles the crates' programs of LLVM's text and the C of the module, in a folder, and links them into a file."""
    clang, linker = toolchain.tool("clang"), toolchain.tool("ld.lld")
    names = {SCRIPT_CRATE: (*CHOSEN, *ALONE), DEVICE_CRATE: device_calls()}

    def compiled(crate: str) -> pathlib.Path:
        program, made = folder / f"{crate}-module.ll", folder / f"{crate}-module.o"
        program.write_text(for_module(programs_of[crate].read_text(), names[crate]))
        run([clang, *TARGET, "-flto", "-x", "ir", program, "-c", "-o", made])
        return made

    with ThreadPoolExecutor(len(names)) as pool:
        objects = list(pool.map(compiled, names))
    (folder / "texts.inc").write_text(texts(), encoding="ascii")
    for source in (LIBRARY / name for name in SOURCES):
        objects.append(folder / f"{source.stem}.o")
        run([clang, *TARGET, *FREESTANDING, f"-I{folder}", *WARNINGS, "-c", source, "-o", objects[-1]])
    exported = [f"--export={name}" for name in sorted({*calls(), *OTHERS} - {WITHOUT})]
    compiling = [word for it in COMPILING for word in ("-mllvm", it)]
    run([linker, *LINKING, "--lto-O3", *compiling, *exported, *objects, "-o", out])


def main() -> None:
    parser = argparse.ArgumentParser(description=__doc__, formatter_class=argparse.RawDescriptionHelpFormatter)
    parser.add_argument("out", metavar="OUT.wasm", help="the file to write")
    words = parser.parse_args()
    try:
        build(pathlib.Path(words.out).absolute())
    except (NotBuilt, OSError) as error:
        sys.exit(f"build_module.py: {error}")


if __name__ == "__main__":
    sys.exit(ended(main))
