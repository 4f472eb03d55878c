"""The list of what is linked into the binaries, with licences, as SPDX 2.3 has it."""

from __future__ import annotations

import datetime
import json
import pathlib
import re
import sys
from collections.abc import Iterable
from dataclasses import dataclass

import package_path
import toolchain
from toolchain import NotBuilt, run

# asks the toolchain which of its libraries a crate is built of
ASKS = """
import sys
sys.path.insert(0, {bin!r})
import rtlib
names = {names!r}
print(*[it.partition(":")[0] for it in rtlib.kit_sources(names) if it != "--lib"])
"""
# what a licence's text says at its head
HEADS = {
    "Apache License": "Apache-2.0",
    "UNICODE LICENSE": "Unicode-3.0",
    "BSD": "BSD-3-Clause",
    "Permission is hereby granted, free of charge": "MIT",
}
# crates of which nothing is linked in
TRIED = ("conformance", "conformance_parts", "gallery")
OF_KIT = "a library of the toolchain"
NOWHERE = "NOASSERTION"


@dataclass(frozen=True)
class Part:
    """Something that is linked in: its name, version, licence, and where it comes from."""

    name: str
    version: str
    licence: str
    comment: str


def licence_of(text: str) -> str:
    """The name of a licence by its text."""
    return next((name for head, name in HEADS.items() if head.lower() in text.lower()), NOWHERE)


def licence_of_library(folder: pathlib.Path) -> str:
    """The licence of a library of the toolchain; where it has no file of its own none is claimed."""
    names = sorted({licence_of(it.read_text(encoding="utf-8", errors="replace")) for it in folder.glob("LICENSE*")})
    return " OR ".join(names) or NOWHERE


def libraries() -> list[str]:
    """The libraries of the toolchain that program and library are built of."""
    rows = (package_path.TOP / "crates.txt").read_text(encoding="ascii").splitlines()
    found = [re.match(r"(\w+)[^:#]*:(.*)", it) for it in rows]
    own = {it[1] for it in found if it}
    used = {name for it in found if it and it[1] not in TRIED for name in it[2].split()} - own
    asks = ASKS.format(bin=str(toolchain.kit() / "bin"), names=sorted({"core", "std", *used}))
    names = run([sys.executable, "-c", asks]).split()
    if not names:
        raise NotBuilt("the toolchain names no library that the crates are built of")
    return sorted(set(names))


def parts() -> list[Part]:
    """What is linked in beside the crates of this repository."""
    kit, version = toolchain.kit(), (toolchain.kit() / "KIT-ID").read_text(encoding="ascii").split()[0]
    of_kit = [Part(it, version, licence_of_library(kit / "rattle" / it), OF_KIT) for it in libraries()]
    c_parts = [Part(it, version, NOWHERE, "C of the toolchain") for it in ("libos_c", "liblibc_c")]
    musl = Part("musl", version_of("musl-dev"), "MIT", "the C library in the program, from Debian's package musl-dev")
    of_memory = "the memory of the program, from Debian's package libjemalloc-dev"
    jemalloc = Part("jemalloc", version_of("libjemalloc-dev"), "BSD-2-Clause", of_memory)
    gcc = "GPL-3.0-or-later WITH GCC-exception-3.1"
    libgcc = Part("libgcc", version_of("libgcc-12-dev"), gcc, "the C compiler's own functions")
    return [*of_kit, *c_parts, musl, jemalloc, libgcc]


def notices() -> str:
    """The licences of what is linked in, whole: each once, with the names of the libraries that have it."""
    found: dict[str, list[str]] = {}
    for name in libraries():
        for path in sorted((toolchain.kit() / "rattle" / name).glob("LICENSE*")):
            found.setdefault(path.read_text(encoding="utf-8", errors="replace").strip(), []).append(name)
    for name, package in (("musl", "musl-dev"), ("jemalloc", "libjemalloc-dev")):
        path = pathlib.Path("/usr/share/doc", package, "copyright")
        if path.is_file():
            found.setdefault(path.read_text(encoding="utf-8").strip(), []).append(name)
    rule = "=" * 78
    return "\n".join(f"{rule}\n{', '.join(names)}\n{rule}\n\n{text}\n" for text, names in found.items())


def version_of(package: str) -> str:
    """The version of a Debian package, where it is installed."""
    try:
        return run(["dpkg-query", "-W", "-f", "${Version}", package])
    except NotBuilt:
        return NOWHERE


def text(version: str, seconds: int, commit: str, of: Iterable[Part]) -> str:
    """The list as SPDX's JSON."""
    own = Part("yuzuratchet", version, "MIT", f"commit {commit}")
    packages = [_package(it) for it in [own, *of]]
    relations: list[tuple[object, str, object]] = [("SPDXRef-DOCUMENT", "DESCRIBES", packages[0]["SPDXID"])]
    relations += [(packages[0]["SPDXID"], "STATIC_LINK", it["SPDXID"]) for it in packages[1:]]
    created = datetime.datetime.fromtimestamp(seconds, datetime.timezone.utc).strftime("%Y-%m-%dT%H:%M:%SZ")
    keys = ("spdxElementId", "relationshipType", "relatedSpdxElement")
    document = {
        "spdxVersion": "SPDX-2.3",
        "dataLicense": "CC0-1.0",
        "SPDXID": "SPDXRef-DOCUMENT",
        "name": f"yuzuratchet-{version}",
        "documentNamespace": f"https://spdx.org/spdxdocs/yuzuratchet-{version}-{commit}",
        "creationInfo": {"created": created, "creators": ["Tool: make_release.py"]},
        "packages": packages,
        "relationships": [dict(zip(keys, it)) for it in relations],
    }
    return json.dumps(document, indent=1) + "\n"


def _package(part: Part) -> dict[str, object]:
    return {
        "SPDXID": f"SPDXRef-{re.sub('[^A-Za-z0-9.-]', '-', part.name)}",
        "name": part.name,
        "versionInfo": part.version,
        "downloadLocation": NOWHERE,
        "filesAnalyzed": False,
        "licenseConcluded": part.licence,
        "licenseDeclared": part.licence,
        "copyrightText": NOWHERE,
        "comment": part.comment,
    }
