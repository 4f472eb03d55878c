#!/usr/bin/env python3
"""Builds the C library of the device, and installs it into a folder.

    tools/install_library.py PREFIX [--stage FOLDER] [--libdir NAME] [--checked]
    tools/install_library.py PREFIX --uninstall

Into PREFIX go the headers, an archive, a shared object with its links, a file for pkg-config, a package for CMake and
manual pages. A program is built by

    cc program.c $(PKG_CONFIG_PATH=PREFIX/lib/pkgconfig pkg-config --cflags --libs yuzuratchet)

or, in CMake with PREFIX in CMAKE_PREFIX_PATH, by

    find_package(Yuzuratchet)
    target_link_libraries(program Yuzuratchet::Yuzuratchet)     # or Yuzuratchet::Static

The crates yuzuratchet and device_calls are built by `rt lib`, which proves what it has not proved on this checkout yet:
a minute or two behind a gate run or a check, and up to an hour and a half on a fresh clone. They are compiled twice,
for x86-64-v2 and for x86-64-v3, and the library takes what the processor has. The C files in library/ are compiled by
$CC, or cc; with --checked so that a call by an object that was destroyed, or is of another kind, ends the process. With
--stage the files go into that folder in place of the root, as packagers want it. --uninstall takes away what an
installation of this version has put there.
"""

from __future__ import annotations

import argparse
import json
import os
import pathlib
import re
import shlex
import shutil
import subprocess
import sys
import tempfile
from collections.abc import Mapping, Sequence

import package_path
from toolchain import NotBuilt, kit, run
from yuzuratchet import __version__
from yuzuratchet.ending import ended
from yuzuratchet.library import STATUSES
from yuzuratchet.messages import FAULTS, REFUSALS

LIBRARY = package_path.TOP / "library"
CRATES = package_path.TOP / "crates"
# the crates of scripts and of calls by handle, and what stands before the names of the builds of each
SCRIPT_CRATE, DEVICE_CRATE = "yuzuratchet", "device_calls"
DEVICE = "device-"
LIBRARIES = {SCRIPT_CRATE: "", DEVICE_CRATE: DEVICE}
SOURCES = (
    *("yuzuratchet", "bounds", "memory", "texts", "chosen", "processor"),
    *("yuzuratchet_device", "chosen_device", "live_objects"),
)
HEADERS = ("yuzuratchet.h", "yuzuratchet_device.h")
CHECKED = "-DYZ_CHECKED"
# the proved code is compiled for each of these processors; library/chosen.c chooses between these functions, and
# library/chosen_device.c between all of the crate device_calls
PROCESSORS = {"v2": "x86-64-v2", "v3": "x86-64-v3"}
CHOSEN = ("yuzuratchet_draw_fitting", "yuzuratchet_sizes_fitting", "yuzuratchet_history_fitting")
ALONE = ("yuzuratchet_examine", "yuzuratchet_version")
Builds = Mapping[str, pathlib.Path]
FLAGS = ("-std=c11", "-O2", "-fPIC", "-Wall", "-Wextra", "-Werror")
MAP = LIBRARY / "yuzuratchet.map"
# the manual page of each header, and what the names of its calls begin with
MANUALS = {LIBRARY / f"{header}.3": before for header, before in zip(HEADERS, ("yuzuratchet_", "yz_"))}
MAN = "share/man/man3"
# the number is that of what stays compatible, and not that of the version
SONAME = "libyuzuratchet.so.0"
SHARED = f"libyuzuratchet.so.{__version__}"
LINKING = (
    f"-Wl,-soname,{SONAME}",
    f"-Wl,--version-script={MAP}",
    "-Wl,-z,noexecstack,-z,defs,-z,relro,-z,now,--gc-sections",
    "-Wl,-z,x86-64-v2",
)
LINKS = {SONAME: SHARED, "libyuzuratchet.so": SONAME}


# ---- building


def proved_archives(folder: pathlib.Path) -> Builds:
    """The static library of each crate for each processor, as `rt lib` builds it, in a folder."""
    kit()  # (so that it is told at once where there is none)
    found = {}
    for crate, before in LIBRARIES.items():
        for name, processor in reversed(PROCESSORS.items()):  # (so that the first one's stays in the crate)
            flags = [] if name == "v2" else ["--cpu", processor]
            print(shlex.join(["rt", "lib", *flags]) + f", in crates/{crate}", flush=True)
            run(["rt", "lib", *flags], cwd=CRATES / crate)
            found[before + name] = folder / f"{before}{name}.a"
            shutil.copy(CRATES / crate / "out" / f"lib{crate}.a", found[before + name])
    return found


def compiler() -> list[str]:
    return shlex.split(os.environ.get("CC", "")) or ["cc"]


def calls() -> list[str]:
    """What a program may call, as the map of versions lists it; all other names stay within the library."""
    return re.findall(r"^ +((?:yuzuratchet|yz)_\w+);$", MAP.read_text(encoding="ascii"), re.M)


def calls_of(manual: pathlib.Path) -> list[str]:
    """Those of them that a manual page is of."""
    return sorted(name for name in calls() if name.startswith(MANUALS[manual]))


def device_calls() -> list[str]:
    """The functions of the crate device_calls."""
    sources = sorted((CRATES / "device_calls" / "src").glob("*.rt"))
    text = "".join(it.read_text(encoding="utf-8") for it in sources)
    return re.findall(r'extern "C" fn (\w+)\(', text)


def texts() -> str:
    """The texts of statuses and refused lines, as texts.c takes them."""
    # (a string of JSON in ASCII is one of C, since these texts have neither tabs nor letters of other alphabets)
    rows = [f"STATUS({number}, {json.dumps(text)})\n" for number, text in STATUSES.items()]
    for number, it in sorted({**FAULTS, **REFUSALS}.items()):
        rows.append(f"REFUSAL({number}, {json.dumps(it.when)}, {json.dumps(it.advice)})\n")
    return "".join(rows)


def proved_object(name: str, build: pathlib.Path, folder: pathlib.Path) -> pathlib.Path:
    """The object of one build, whose chosen functions have the build's name behind their own."""
    own, renamed = folder / f"{name}-own.o", folder / f"{name}.o"
    if build.suffix == ".a":
        own.write_bytes(subprocess.run(["ar", "p", build], stdout=subprocess.PIPE, check=True).stdout)
    else:
        shutil.copy(build, own)
    alone = ALONE if name == "v2" else ()
    chosen = device_calls() if name.startswith(DEVICE) else CHOSEN
    run(["objcopy", *[f"--keep-global-symbol={it}" for it in (*chosen, *alone)], own])
    processor = name.removeprefix(DEVICE)
    run(["objcopy", *[f"--redefine-sym={it}={it}_{processor}" for it in chosen], own, renamed])
    return renamed


def whole_object(builds: Builds, folder: pathlib.Path, flags: Sequence[str] = ()) -> pathlib.Path:
    """One object of the proved code and of the C files, whose only names are those that a program may call."""
    (folder / "texts.inc").write_text(texts(), encoding="ascii")
    objects = [proved_object(name, build, folder) for name, build in builds.items()]
    for name in SOURCES:
        made = folder / f"{name}.o"
        run([*compiler(), *FLAGS, *flags, f"-I{folder}", "-c", LIBRARY / f"{name}.c", "-o", made])
        objects.append(made)
    joined, whole = folder / "joined.o", folder / "whole.o"
    run(["ld", "-r", "-o", joined, *objects])
    run(["objcopy", *[f"--keep-global-symbol={name}" for name in calls()], joined, whole])
    return whole


def build(folder: pathlib.Path, builds: Builds | None = None, flags: Sequence[str] = ()) -> None:
    """Builds the archive and the shared object into a folder, of the proved archives or of other builds."""
    with tempfile.TemporaryDirectory() as parts:
        room = pathlib.Path(parts)
        whole = whole_object(builds or proved_archives(room), room, flags)
        static = folder / "libyuzuratchet.a"
        static.unlink(missing_ok=True)
        run(["ar", "rcsD", static, whole])
        run([*compiler(), "-shared", *LINKING, "-o", folder / SHARED, whole])


# ---- installing


def written(prefix: pathlib.Path, libdir: str) -> dict[str, str]:
    """The files for other tools that are written from templates: {where: text}."""
    cmake = f"{libdir}/cmake/Yuzuratchet"
    values: dict[str, object] = {
        "prefix": prefix,
        "libdir": libdir,
        "version": __version__,
        "soname": SONAME,
        "shared": SHARED,
        "up": "/".join([".."] * len(pathlib.PurePath(cmake).parts)),
    }
    templates = {
        f"{libdir}/pkgconfig/yuzuratchet.pc": "yuzuratchet.pc.in",
        f"{cmake}/YuzuratchetConfig.cmake": "YuzuratchetConfig.cmake.in",
        f"{cmake}/YuzuratchetConfigVersion.cmake": "YuzuratchetConfigVersion.cmake.in",
    }
    found = {where: filled((LIBRARY / name).read_text(encoding="ascii"), values) for where, name in templates.items()}
    # (`man yuzuratchet_draw` shows the page of the header)
    leading = {f"{MAN}/{name}.3": f".so man3/{manual.name}\n" for manual in MANUALS for name in calls_of(manual)}
    return {**found, **leading}


def filled(template: str, values: dict[str, object]) -> str:
    """A text in which @NAME@ stands for a value, since $ means something in these files."""
    return re.sub(r"@([a-z]+)@", lambda found: str(values[found[1]]), template)


def installed_files(prefix: pathlib.Path, libdir: str) -> list[str]:
    """All that an installation puts below the prefix."""
    built = [f"{libdir}/{name}" for name in ("libyuzuratchet.a", SHARED, *LINKS)]
    headers = [f"include/{name}" for name in HEADERS]
    manuals = [f"{MAN}/{manual.name}" for manual in MANUALS]
    return [*headers, *manuals, *built, *written(prefix, libdir)]


def root_of(prefix: str | pathlib.Path, stage: str | None) -> tuple[pathlib.Path, pathlib.Path]:
    """The folder that stands for a prefix: the prefix, or where it lies below a stage."""
    prefix = pathlib.Path(os.path.abspath(prefix))
    return prefix, pathlib.Path(os.path.abspath(stage) + str(prefix)) if stage else prefix


def install(
    prefix: str | pathlib.Path,
    stage: str | None = None,
    libdir: str = "lib",
    builds: Builds | None = None,
    flags: Sequence[str] = (),
) -> pathlib.Path:
    """Builds the library and puts it below a prefix, or below a stage that stands for the root."""
    root, to = root_of(prefix, stage)
    for name in installed_files(root, libdir):
        (to / name).parent.mkdir(parents=True, exist_ok=True)
    build(to / libdir, builds, flags)
    for name in HEADERS:
        shutil.copy(LIBRARY / name, to / "include")
    for manual in MANUALS:
        shutil.copy(manual, to / MAN)
    for name, target in LINKS.items():
        (to / libdir / name).unlink(missing_ok=True)
        (to / libdir / name).symlink_to(target)
    for where, text in written(root, libdir).items():
        (to / where).write_text(text, encoding="ascii")
    return to


def uninstall(prefix: str | pathlib.Path, stage: str | None = None, libdir: str = "lib") -> int:
    """Takes away what an installation put there, and folders that are then empty; gives how many files were there."""
    root, to = root_of(prefix, stage)
    names = [to / name for name in installed_files(root, libdir)]
    there = [it for it in names if it.is_symlink() or it.exists()]
    for it in there:
        it.unlink()
    folders = {parent for it in there for parent in it.parents if to in parent.parents}
    for folder in sorted(folders, key=lambda it: len(it.parts), reverse=True):
        if not any(folder.iterdir()):
            folder.rmdir()
    return len(there)


def parsed() -> argparse.Namespace:
    parser = argparse.ArgumentParser(description=__doc__, formatter_class=argparse.RawDescriptionHelpFormatter)
    parser.add_argument("prefix", metavar="PREFIX", help="the folder to install into, as /usr/local")
    parser.add_argument("--stage", metavar="FOLDER", help="a folder that stands for the root")
    parser.add_argument(
        "--libdir",
        metavar="NAME",
        default="lib",
        help="where libraries lie below PREFIX, as lib/x86_64-linux-gnu (lib)",
    )
    parser.add_argument("--checked", action="store_true", help="calls look whether an object is one")
    parser.add_argument("--uninstall", action="store_true", help="takes an installation of this version away")
    return parser.parse_args()


def main() -> None:
    words = parsed()
    try:
        if words.uninstall:
            print(f"{uninstall(words.prefix, words.stage, words.libdir)} files taken away")
        else:
            flags = [CHECKED] if words.checked else []
            print(f"installed into {install(words.prefix, words.stage, words.libdir, flags=flags)}")
    except (NotBuilt, OSError) as error:
        sys.exit(f"install_library.py: {error}")


if __name__ == "__main__":
    sys.exit(ended(main))
