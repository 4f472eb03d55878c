"""Debian's packages: the program, the library, what programs in C want of it, and the Python package."""

from __future__ import annotations

import datetime
import email.utils
import gzip
from collections.abc import Mapping
from dataclasses import dataclass

import package_path
from release import archives, python_package
from release import tree as trees
from release.tree import File, Tree

MAINTAINER = "The authors of Yuzuratchet <yuzuratchet@localhost.localdomain>"
LIBDIR = "lib/x86_64-linux-gnu"
MACHINE, ANY = "amd64", "all"
COMMAND = "#!/usr/bin/python3\nimport sys\n\nfrom yuzuratchet.cli import main\n\nsys.exit(main())\n"
COPYRIGHT = """\
Format: https://www.debian.org/doc/packaging-manuals/copyright-format/1.0/

Files: *
Copyright: the authors of Yuzuratchet
License: MIT
{licence}
Comment: what is linked in has licences of its own, which THIRD-PARTY.txt lists.
"""
# what lintian says of these packages and is so: README.md of this folder has the reasons
NO_ADDRESS = ("bogus-mail-host", "bogus-mail-host-in-debian-changelog")
KNOWN = {
    "yuzuratchet": (*NO_ADDRESS, "shared-library-lacks-prerequisites"),
    "libyuzuratchet0": NO_ADDRESS,
    "libyuzuratchet-dev": NO_ADDRESS,
    "python3-yuzuratchet": NO_ADDRESS,
}


@dataclass(frozen=True)
class Package:
    """A package: its name, what it has below /usr, for which machines, what it wants, and what it is."""

    name: str
    files: Tree
    machine: str
    depends: str
    section: str
    about: str
    more: str = ""
    control: Mapping[str, str] | None = None

    def control_file(self, version: str) -> str:
        """Which package it is."""
        size = sum(len(it.data) + 1023 for it in self.files.values()) // 1024
        fields = {
            "Package": self.name,
            "Version": version,
            "Architecture": self.machine,
            "Maintainer": MAINTAINER,
            "Installed-Size": str(size),
            "Depends": self.depends,
            "Section": self.section,
            "Priority": "optional",
            "Description": f"{self.about}\n {self.more}",
        }
        return "".join(f"{key}: {value}\n" for key, value in fields.items() if value)


def packages(program: Tree, library: Tree, seconds: int, texts: Tree) -> list[Package]:
    """The four packages, of the files below a prefix."""
    shared = {path: it for path, it in library.items() if ".so." in path}
    rest = {path: it for path, it in library.items() if path not in shared}
    inside = trees.below(python_package.INSIDE, {name: texts[name] for name in ("PROOF.txt", "page.html")})
    modules = trees.below("lib/python3/dist-packages", {**python_package.modules(seconds), **inside})
    of_command = {path: it for path, it in program.items() if "yuzuratchet" in path}
    of_program = {path: it for path, it in program.items() if path not in of_command}
    command = {"bin/yuzuratchet": File(COMMAND.encode("ascii"), True), **of_command}
    depends = "python3 (>= 3.10), python3-numpy, python3-pil, yuzuratchet, libyuzuratchet0"
    shlibs = {"shlibs": "libyuzuratchet 0 libyuzuratchet0\n", "triggers": "activate-noawait ldconfig\n"}
    what, device = "software Direct3D 11 device", "A script of recorded calls goes in, answers and an image come out."
    return [
        Package("yuzuratchet", of_program, MACHINE, "", "graphics", f"{what} as a program", device),
        Package("libyuzuratchet0", shared, MACHINE, "libc6 (>= 2.17)", "libs", what, device, shlibs),
        Package("libyuzuratchet-dev", rest, MACHINE, "libyuzuratchet0", "libdevel", f"{what}, for C", device),
        Package("python3-yuzuratchet", {**modules, **command}, ANY, depends, "python", f"{what}, for Python 3", device),
    ]


def documents(package: Package, version: str, seconds: int, texts: Tree) -> dict[str, File]:
    """What each package says of itself."""
    time = datetime.datetime.fromtimestamp(seconds, datetime.timezone.utc)
    changes = f"{package.name} ({version}) unstable; urgency=medium\n\n  * Version {version}.\n\n"
    changes += f" -- {MAINTAINER}  {email.utils.format_datetime(time)}\n"
    rows = (package_path.TOP / "LICENSE").read_text(encoding="utf-8").splitlines()
    licence = "\n".join(f" {row or '.'}" for row in rows)
    folder = f"share/doc/{package.name}"
    found = {
        f"{folder}/changelog.gz": packed(changes),
        f"{folder}/copyright": trees.text(COPYRIGHT.format(licence=licence)),
        **trees.below(folder, {name: texts[name] for name in ("PROOF.txt", "THIRD-PARTY.txt")}),
    }
    known = "".join(f"{package.name}: {tag}\n" for tag in KNOWN[package.name])
    return {**found, f"share/lintian/overrides/{package.name}": trees.text(known)}


def packed(text: str) -> File:
    """A packed text."""
    return File(gzip.compress(text.encode("utf-8"), 9, mtime=0))


def with_packed_manuals(tree: Tree) -> dict[str, File]:
    """The files with manual pages packed, as Debian has them."""
    found = {}
    for path, it in tree.items():
        is_page = path.startswith("share/man/")
        found[f"{path}.gz" if is_page else path] = File(gzip.compress(it.data, 9, mtime=0)) if is_page else it
    return found


def files(program: Tree, library: Tree, version: str, seconds: int, texts: Tree) -> dict[str, bytes]:
    """The packages' files by their names."""
    found = {}
    for it in packages(program, library, seconds, texts):
        tree = with_packed_manuals({**it.files, **documents(it, version, seconds, texts)})
        control = {"control": it.control_file(version), **(it.control or {})}
        packed_control = {name: trees.text(text) for name, text in control.items()}
        name = f"{it.name}_{version}_{it.machine}.deb"
        found[name] = archives.deb(trees.below("usr", tree), packed_control, seconds)
    return found
