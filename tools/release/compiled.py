"""The device compiled: objects of the program and of the library for each processor, and the WebAssembly module."""

from __future__ import annotations

import os
import pathlib
import shlex
import shutil
from collections.abc import Callable, Mapping
from concurrent.futures import ThreadPoolExecutor
from dataclasses import dataclass

import build_module
import checked_build
import install_library
import package_path
import toolchain
from install_library import DEVICE, PROCESSORS
from toolchain import NotBuilt, run

SCRIPT = package_path.TOP / "crates" / "gallery" / "data" / "fan.txt"
PROGRAM = package_path.TOP / "library" / "program"
# what is compiled for the program beside the proved object, whose `main` has another name
PROGRAM_C = ("program/start.c", "program/memory.c", "program/of_glibc.c", "processor.c")
MUSL = pathlib.Path("/usr/lib/x86_64-linux-musl")
# musl-gcc links no program that is static and can lie at any address: so the parts are named here
STARTS, ENDS = ("rcrt1.o", "crti.o"), ("crtn.o",)
# where the program's memory comes from (program/memory.c), and its header, behind musl's
JEMALLOC = pathlib.Path("/usr/lib/x86_64-linux-gnu/libjemalloc_pic.a")
HEADERS = ("-idirafter", "/usr/include")
FLAGS = ("-std=c11", "-O2", "-fPIE", "-Wall", "-Wextra", "-Werror", "-ffile-prefix-map={top}=.", *HEADERS)
LINKING = (
    "-static",
    "-nostartfiles",
    "-Wl,-pie,--no-dynamic-linker,-z,text,-z,relro,-z,now,-z,noexecstack,--gc-sections,--build-id=none",
    "-s",
)
# how the toolchain compiles what is proved, but for a lower level, since the checks make the text long
CHECKED_FLAGS = (
    "--target=x86_64-unknown-linux-gnu -march=x86-64 -ffunction-sections -fdata-sections --no-default-config"
)


@dataclass(frozen=True)
class Compiled:
    """Objects by the names of their processors, the module, and the command that made each."""

    programs: Mapping[str, pathlib.Path]
    libraries: Mapping[str, pathlib.Path]
    module: pathlib.Path
    commands: Mapping[str, str]


# ---- of the proved crates


def proved(folder: pathlib.Path) -> Compiled:
    """Compiles the proved crates into a folder; what isn't proved on this checkout yet is proved for that."""
    crate = package_path.TOP / "crates" / "tiledraw"
    programs = {}
    for name, processor in reversed(PROCESSORS.items()):  # (so that the first one's stays in the crate)
        flags = [] if name == "v2" else ["--cpu", processor]
        print(shlex.join(["rt", "run", *flags]) + ", in crates/tiledraw", flush=True)
        run(["rt", "run", *flags, "--", SCRIPT, folder / "image.tga"], cwd=crate)
        programs[name] = folder / f"program-{name}.o"
        shutil.copy(crate / "out" / "tiledraw.o", programs[name])
    libraries = install_library.proved_archives(folder)
    build_module.build(folder / "yuzuratchet.wasm")
    commands = {
        "program": "rt run [--cpu x86-64-v3], in crates/tiledraw; linked by tools/release/compiled.py",
        "library": "rt lib [--cpu x86-64-v3], in yuzuratchet and device_calls; joined by tools/install_library.py",
        "module": "tools/build_module.py",
    }
    return Compiled(programs, libraries, folder / "yuzuratchet.wasm", commands)


# ---- with checks, and without a proof


def checked(folder: pathlib.Path) -> Compiled:
    """Compiles the crates with checks, without a proof, into a folder."""
    text_of = {
        "program": checked_build.program_text,
        "library": checked_build.library_text,
        "device": checked_build.device_text,
    }
    for name, text in text_of.items():
        kept_text(folder / f"{name}.ll", text)
    with ThreadPoolExecutor(2) as pool:
        both = [(kind, name) for kind in text_of for name in PROCESSORS]
        objects = dict(zip(both, pool.map(lambda it: checked_object(folder, *it), both)))
    module = folder / "yuzuratchet.wasm"
    programs_of = {install_library.SCRIPT_CRATE: "library.ll", install_library.DEVICE_CRATE: "device.ll"}
    build_module.link({crate: folder / name for crate, name in programs_of.items()}, folder, module)
    how = "rt try, and the toolchain's clang over what it compiles (tools/checked_build.py): NOT PROVED"
    programs = {name: objects["program", name] for name in PROCESSORS}
    libraries = {name: objects["library", name] for name in PROCESSORS}
    libraries |= {f"{DEVICE}{name}": objects["device", name] for name in PROCESSORS}
    return Compiled(programs, libraries, module, dict.fromkeys(("program", "library", "module"), how))


def kept_text(to: pathlib.Path, text_of: Callable[[], str]) -> None:
    """Writes the text of a crate, from what an earlier run kept of the same sources, if it did."""
    cache = pathlib.Path(os.environ.get("XDG_CACHE_HOME") or pathlib.Path.home() / ".cache") / "yuzuratchet"
    kept = cache / "checked" / f"{checked_build.sources_sum()[:16]}-{to.name}"
    if not kept.is_file():
        print(f"rt try, for {to.name}: about a minute", flush=True)
        text = text_of()
        kept.parent.mkdir(parents=True, exist_ok=True)
        partial = kept.with_suffix(f".{os.getpid()}")
        partial.write_text(text, encoding="utf-8")
        partial.replace(kept)
    shutil.copy(kept, to)


def checked_object(folder: pathlib.Path, kind: str, name: str) -> pathlib.Path:
    """Compiles the text of the program, of the library or of its calls by handle for a processor."""
    text, made = folder / f"{kind}-{name}.ll", folder / f"{kind}-{name}.o"
    whole = (folder / f"{kind}.ll").read_text(encoding="utf-8")
    text.write_text(checked_build.for_processor(whole, PROCESSORS[name]), encoding="utf-8")
    where = "-fPIE" if kind == "program" else "-fPIC"
    run([toolchain.tool("clang"), *CHECKED_FLAGS.split(), where, "-O1", "-c", "-x", "ir", text, "-o", made])
    return made


# ---- the program


def link_program(compiled: Compiled, folder: pathlib.Path) -> pathlib.Path:
    """Links the objects of all processors into one program, which needs no library where it runs."""
    if not (MUSL / "rcrt1.o").is_file():
        raise NotBuilt("the program is linked with musl, which is missing (Debian: musl-tools)")
    if not JEMALLOC.is_file():
        raise NotBuilt("the program is linked with jemalloc, which is missing (Debian: libjemalloc-dev)")
    objects = []
    for name, path in compiled.programs.items():
        own, renamed = folder / f"main-{name}.o", folder / f"tiledraw-{name}.o"
        run(["objcopy", "--keep-global-symbol=main", path, own])
        run(["objcopy", f"--redefine-sym=main=tiledraw_{name}", own, renamed])
        objects.append(renamed)
    for source in (package_path.TOP / "library" / it for it in PROGRAM_C):
        objects.append(folder / f"{source.stem}.o")
        flags = [it.format(top=package_path.TOP) for it in FLAGS]
        run(["musl-gcc", *flags, "-c", source, "-o", objects[-1]])
    of_kit = [toolchain.kit() / "c" / it for it in ("libos_c.a", "liblibc_c.a")]
    parts = [*(MUSL / it for it in STARTS), *objects, *of_kit, JEMALLOC, *(MUSL / it for it in ENDS)]
    run(["gcc", "-specs", MUSL / "musl-gcc.specs", *LINKING, "-o", folder / "tiledraw", *parts])
    return folder / "tiledraw"
