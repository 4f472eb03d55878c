#!/usr/bin/env python3
"""Builds the files by which the device comes to machines without the toolchain.

    tools/make_release.py [DIST]
    tools/make_release.py --checked [DIST]
    tools/make_release.py --check [--checked]
    tools/make_release.py --gate LOG

Into DIST, or dist, it writes the archive for any Linux, the wheel with the device inside and the source distribution,
Debian's packages, the JavaScript package, the list of what is linked in (SPDX), PROOF.txt and SHA256SUMS. Program and
library are compiled from the proved crates for x86-64-v2 and once more for x86-64-v3, and run what the processor has.

A release is of a commit on which the gate is known to have passed: tools/test_all.sh keeps that by --gate, from what
the gate printed. With --checked the crates are compiled with checks and without a proof, in some minutes, from whatever
the clone has: for trying the files themselves, and PROOF.txt says so.

--check builds the commit twice, in clones in different folders, with other users' names, time zones and permissions,
and tells which files differ. What is wanted: musl-gcc, jemalloc, dpkg-deb, setuptools, shtab and argparse-manpage
(Debian: musl-tools libjemalloc-dev dpkg python3-setuptools python3-wheel python3-shtab python3-argparse-manpage).
"""

from __future__ import annotations

import argparse
import os
import pathlib
import shutil
import subprocess
import sys
import tempfile
from typing import Any

import package_path
from release import contents, proof
from release.proof import State
from toolchain import NotBuilt, run
from yuzuratchet.ending import ended

DIST = package_path.TOP / "dist"
Builder = tuple[str, int, dict[str, str]]
OTHER_USER = "nobody"
# (a Python that another user has too)
PYTHON = next(it for it in ("/usr/bin/python3", sys.executable) if os.access(it, os.X_OK))
# how two builders differ: the folder's name, what new files may be read by, and the environment; where it can be, the
# second is another user too
BUILDERS: tuple[Builder, ...] = (
    ("a", 0o022, {"LOGNAME": "one", "USER": "one", "TZ": "UTC", "LC_ALL": "C"}),
    ("another/folder/below", 0o077, {"LOGNAME": "two", "USER": "two", "TZ": "Asia/Tokyo", "LC_ALL": "C.UTF-8"}),
)


def write(files: dict[str, bytes], dist: pathlib.Path) -> None:
    """Writes the files, in place of those of an earlier release."""
    if dist.exists() and not (dist / "SHA256SUMS").is_file() and any(dist.iterdir()):
        raise NotBuilt(f"{dist} has other files than those of a release: name a folder of its own")
    if dist.exists():
        shutil.rmtree(dist)
    dist.mkdir(parents=True)
    for name, data in files.items():
        (dist / name).write_bytes(data)
        print(f"{len(data):9}  {dist / name}")


def clone_into(folder: pathlib.Path, umask: int) -> pathlib.Path:
    """A clone of this commit, with what is known of the gate."""
    clone = folder / "clone"
    run(["git", "clone", "--quiet", "--no-hardlinks", package_path.TOP, clone], umask=umask)
    run(["git", "-C", clone, "checkout", "--quiet", State.of_clone().commit], umask=umask)
    if proof.RECORD.is_file():
        kept = clone / proof.RECORD.relative_to(package_path.TOP)
        kept.parent.mkdir()
        shutil.copy(proof.RECORD, kept)
    return clone


def build_in(folder: pathlib.Path, umask: int, names: dict[str, str], words: list[str]) -> dict[str, bytes]:
    """Builds this commit in a clone of its own, as another builder would; gives the files."""
    folder.mkdir(parents=True)
    clone, dist = clone_into(folder, umask), folder / "dist"
    home = {"HOME": str(folder), "XDG_CACHE_HOME": str(folder / "cache")}
    how: dict[str, Any] = {"env": {**os.environ, **names, **home}, "umask": umask}
    if os.getuid() == 0 and names["USER"] != BUILDERS[0][2]["USER"]:
        run(["chown", "-R", f"{OTHER_USER}:", folder])
        how["user"] = OTHER_USER
    command = [PYTHON, "-B", clone / "tools" / "make_release.py", *words, dist]
    ran = subprocess.run(list(map(str, command)), check=False, **how)
    if ran.returncode:
        raise NotBuilt(f"the build in {clone} ended with status {ran.returncode}")
    return {it.name: it.read_bytes() for it in sorted(dist.iterdir())}


def check(words: list[str]) -> int:
    """Builds twice, and tells which files differ."""
    with tempfile.TemporaryDirectory(prefix="release-") as room:
        os.chmod(room, 0o755)
        first, second = (build_in(pathlib.Path(room, it[0]), it[1], it[2], words) for it in BUILDERS)
    differ = sorted(name for name in {*first, *second} if first.get(name) != second.get(name))
    for name in differ:
        print(f"{name}: the two builds differ")
    print(f"{len(first) - len(differ)} files are the same in both builds, {len(differ)} differ")
    return 1 if differ else 0


def parsed() -> argparse.Namespace:
    parser = argparse.ArgumentParser(description=__doc__, formatter_class=argparse.RawDescriptionHelpFormatter)
    parser.add_argument("dist", metavar="DIST", nargs="?", type=pathlib.Path, default=DIST, help="(dist)")
    parser.add_argument("--checked", action="store_true", help="compiles with checks, without a proof")
    parser.add_argument("--check", action="store_true", help="builds twice, and compares")
    parser.add_argument(
        "--gate", metavar="LOG", type=pathlib.Path, help="keeps that the gate passed here, by the last line it printed"
    )
    return parser.parse_args()


def main() -> int:
    given = parsed()
    try:
        if given.gate:
            lines = given.gate.read_text(encoding="utf-8", errors="replace").splitlines() or [""]
            print(f"{proof.record(lines[-1], State.of_clone()).line}: kept in {proof.RECORD}")
            return 0
        if given.check:
            return check(["--checked"] if given.checked else [])
        write(contents.release_of(not given.checked), given.dist)
    except NotBuilt as error:
        sys.exit(f"make_release.py: {error}")
    except OSError as error:
        sys.exit(f"make_release.py: {error.filename}: {error.strerror}")
    return 0


if __name__ == "__main__":
    sys.exit(ended(main))
