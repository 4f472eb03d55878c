"""The files of a release, by their names, of the device as it was compiled."""

from __future__ import annotations

import hashlib
import pathlib
import tempfile
from collections.abc import Mapping
from dataclasses import dataclass

import install_library
import make_page
import package_path
from release import archives, compiled, debian, javascript, manuals, proof, python_package, sbom
from release import tree as trees
from release.compiled import Compiled
from release.proof import Binary, Gate, State
from release.tree import File, Tree
from toolchain import run
from yuzuratchet import __version__

TOP = package_path.TOP
GALLERY = TOP / "crates" / "gallery"
EXAMPLES = TOP / "python" / "examples"
DOCUMENTS = ("LICENSE", "CHANGELOG.md", "README.md", "docs/SCRIPT.md")
# a folder from which pkg-config finds the rest, wherever the files lie
ANYWHERE = pathlib.Path("${pcfiledir}/../..")
SHARED, ARCHIVE = install_library.SHARED, "libyuzuratchet.a"
PROGRAM, MODULE, PAGE = "tiledraw", javascript.MODULE, "page.html"


@dataclass(frozen=True)
class Release:
    """What is packed: the commit, the binaries by their names, and the texts that packages have."""

    state: State
    binaries: Mapping[str, Binary]
    texts: Tree

    @property
    def seconds(self) -> int:
        """The time of all files: that of the commit."""
        return self.state.seconds

    def file(self, name: str) -> File:
        """A binary as a file of a package."""
        return File(self.binaries[name].data, name == PROGRAM)


def made(device: Compiled, folder: pathlib.Path, state: State, gate: Gate | None) -> Release:
    """Links what was compiled, in a folder, and writes what is said of it."""
    program = compiled.link_program(device, folder).read_bytes()
    install_library.build(folder, device.libraries)
    run(["strip", "--strip-unneeded", folder / SHARED])
    module = device.module.read_bytes()
    page = make_page.built(module).encode("utf-8")
    commands = device.commands
    of = {
        PROGRAM: (program, commands["program"]),
        SHARED: ((folder / SHARED).read_bytes(), commands["library"]),
        ARCHIVE: ((folder / ARCHIVE).read_bytes(), commands["library"]),
        MODULE: (module, commands["module"]),
        PAGE: (page, f"tools/make_page.py, of {MODULE}"),
    }
    binaries = {name: Binary(name, *it) for name, it in of.items()}
    texts = {
        "PROOF.txt": trees.text(proof.text(__version__, state, gate, binaries)),
        "THIRD-PARTY.txt": trees.text(sbom.notices()),
        "LICENSE": File((TOP / "LICENSE").read_bytes()),
    }
    return Release(state, binaries, texts)


def library(release: Release, prefix: pathlib.Path, libdir: str) -> dict[str, File]:
    """The files of the C library below a prefix."""
    links = {f"{libdir}/{name}": File(link=target) for name, target in install_library.LINKS.items()}
    written = {path: trees.text(text) for path, text in install_library.written(prefix, libdir).items()}
    return {
        **{f"{libdir}/{name}": release.file(name) for name in (ARCHIVE, SHARED)},
        **links,
        **written,
        **{f"include/{it}": File((install_library.LIBRARY / it).read_bytes()) for it in install_library.HEADERS},
        **{f"{install_library.MAN}/{it.name}": File(it.read_bytes()) for it in install_library.MANUALS},
    }


def scripts() -> dict[str, File]:
    """The gallery, as `yuzuratchet suite` takes it, and the examples."""
    names = (GALLERY / "data" / "index").read_text(encoding="ascii").split()
    gallery = {f"gallery/data/{it}": File((GALLERY / "data" / it).read_bytes()) for it in ["index", *names]}
    examples = {path: it for path, it in trees.read(EXAMPLES).items() if "__pycache__" not in path}
    return {**gallery, "gallery/stdout": File((GALLERY / "stdout").read_bytes()), **trees.below("examples", examples)}


def tarball(release: Release, name: str, manual: Tree) -> bytes:
    """The archive for any Linux: what stands below it works from whatever folder it lies in."""
    documents = {pathlib.PurePath(it).name: File((TOP / it).read_bytes()) for it in DOCUMENTS}
    files = {
        f"bin/{PROGRAM}": release.file(PROGRAM),
        **library(release, ANYWHERE, "lib"),
        **manual,
        **trees.below("share/yuzuratchet", {**scripts(), PAGE: release.file(PAGE)}),
        **trees.below("share/doc/yuzuratchet", {**documents, **release.texts}),
    }
    return archives.tar_gz(trees.below(name, files), release.seconds)


def inside(release: Release) -> dict[str, File]:
    """The device as it lies inside of the Python package."""
    texts = {name: release.texts[name] for name in ("PROOF.txt", "THIRD-PARTY.txt")}
    shared = {"libyuzuratchet.so": release.file(SHARED)}
    return {PROGRAM: release.file(PROGRAM), **shared, PAGE: release.file(PAGE), **texts}


def files(release: Release) -> dict[str, bytes]:
    """All files of a release, by their names."""
    seconds, manual = release.seconds, manuals.files(release.seconds)
    name = f"yuzuratchet-{__version__}"
    whole = f"{name}-linux-x86_64"
    wheel_name, wheel = python_package.wheel(inside(release), release.binaries[SHARED].data, seconds)
    program = {f"bin/{PROGRAM}": release.file(PROGRAM), **manual}
    of_debian = library(release, pathlib.Path("/usr"), debian.LIBDIR)
    texts = {**release.texts, PAGE: release.file(PAGE)}
    script = javascript.package(__version__, release.binaries[MODULE].data, release.texts)
    bill = sbom.text(__version__, seconds, release.state.commit, sbom.parts())
    found = {
        f"{whole}.tar.gz": tarball(release, whole, manual),
        wheel_name: wheel,
        f"{name}.tar.gz": python_package.source_distribution(seconds),
        **debian.files(program, of_debian, __version__, seconds, texts),
        f"{name}.tgz": archives.tar_gz(script, seconds),
        f"{name}.spdx.json": bill.encode("utf-8"),
        "PROOF.txt": release.texts["PROOF.txt"].data,
    }
    return {**found, "SHA256SUMS": sums(found).encode("ascii")}


def sums(files: Mapping[str, bytes]) -> str:
    """The SHA-256 of each file, as sha256sum checks them."""
    return "".join(f"{hashlib.sha256(data).hexdigest()}  {name}\n" for name, data in sorted(files.items()))


def release_of(is_proved: bool) -> dict[str, bytes]:
    """Builds a release of this clone: of what the gate proved, or compiled with checks and not proved."""
    state = State.of_clone()
    gate = proof.passed(state) if is_proved else None
    with tempfile.TemporaryDirectory() as room:
        folder = pathlib.Path(room)
        device = compiled.proved(folder) if is_proved else compiled.checked(folder)
        return files(made(device, folder, state, gate))
