"""The Python package: the wheel with the device inside, and the source distribution without it."""

from __future__ import annotations

import io
import os
import pathlib
import re
import shutil
import subprocess
import sys
import tarfile
import tempfile

import package_path
from release import archives
from release import tree as trees
from release.tree import File, Tree
from toolchain import NotBuilt, run

SOURCES = package_path.TOP / "python"
KEPT = ("src", "pyproject.toml", "README.md")
BUILDS = """
import os, sys
from setuptools import build_meta
print(getattr(build_meta, sys.argv[1])(sys.argv[2]))
"""
NEEDS = "import setuptools, wheel"
PYTHONS = (sys.executable, "/usr/bin/python3")
# where a package that has the device inside has it
INSIDE = "yuzuratchet/built"
GLIBC = re.compile(r"GLIBC_2\.([0-9]+)")
# the oldest that pip knows by this form of name
OLDEST_GLIBC = 17


def python() -> str:
    """A Python that can build a package."""
    for it in PYTHONS:
        if (
            os.access(it, os.X_OK)
            and not subprocess.run([it, "-c", NEEDS], capture_output=True, check=False).returncode
        ):
            return it
    raise NotBuilt("no Python here has setuptools and wheel (Debian: python3-setuptools python3-wheel)")


def built(kind: str, seconds: int) -> bytes:
    """What setuptools builds of a copy of the sources: a `wheel` or an `sdist`."""
    with tempfile.TemporaryDirectory() as room:
        copy = pathlib.Path(room, "python")
        copy.mkdir()
        for name in KEPT:
            it = SOURCES / name
            left_out = shutil.ignore_patterns("__pycache__", "*.egg-info", "built")
            shutil.copytree(it, copy / name, ignore=left_out) if it.is_dir() else shutil.copy(it, copy / name)
        shutil.copy(package_path.TOP / "LICENSE", copy / "LICENSE")
        environment = {**os.environ, "SOURCE_DATE_EPOCH": str(seconds), "PYTHONDONTWRITEBYTECODE": "1"}
        run([python(), "-c", BUILDS, f"build_{kind}", room], cwd=copy, env=environment)
        made = [it for it in pathlib.Path(room).iterdir() if it.is_file()]
        return made[0].read_bytes()


def glibc_of(library: bytes) -> int:
    """The second number of the oldest glibc that has all that a shared object asks for."""
    with tempfile.NamedTemporaryFile() as file:
        file.write(library)
        file.flush()
        return max([OLDEST_GLIBC, *map(int, GLIBC.findall(run(["readelf", "-V", file.name])))])


def wheel(device: Tree, library: bytes, seconds: int) -> tuple[str, bytes]:
    """The wheel with the device inside: its name, and its bytes."""
    files = archives.unpacked(built("wheel", seconds))
    info = next(path.partition("/")[0] for path in files if path.endswith(".dist-info/WHEEL"))
    tag = f"py3-none-manylinux_2_{glibc_of(library)}_x86_64"
    about = files[f"{info}/WHEEL"].data.decode("ascii")
    about = re.sub(r"^Tag: .*$", f"Tag: {tag}", about, flags=re.M)
    about = about.replace("Root-Is-Purelib: true", "Root-Is-Purelib: false")
    record = f"{info}/RECORD"
    whole = {path: File(it.data) for path, it in files.items() if path != record}
    whole = {**whole, f"{info}/WHEEL": trees.text(about), **trees.below(INSIDE, device)}
    return f"{info.removesuffix('.dist-info')}-{tag}.whl", archives.wheel(whole, record, seconds)


def modules(seconds: int) -> dict[str, File]:
    """The package's modules and what says which it is, by their places in a folder of packages."""
    files = archives.unpacked(built("wheel", seconds))
    return {path: File(it.data) for path, it in files.items() if not path.endswith("/RECORD")}


def source_distribution(seconds: int) -> bytes:
    """The sources without the device, as `pip` takes them."""
    with tarfile.open(fileobj=io.BytesIO(built("sdist", seconds))) as archive:
        found = {it.name: archive.extractfile(it) for it in archive.getmembers() if it.isfile()}
        return archives.tar_gz({name: File(it.read()) for name, it in found.items() if it}, seconds)
