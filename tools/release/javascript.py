"""The JavaScript package: an ES module with the WebAssembly, as npm installs it."""

from __future__ import annotations

import json

import package_path
from release import tree as trees
from release.tree import File
from yuzuratchet.device import DEVICE

WEB = package_path.TOP / "web"
ENGINE = ("device.js", "module.js", "script.js", "session.js", "states.js", "targa.js", "units.js")
MODULE = "yuzuratchet.wasm"


def manifest(version: str) -> str:
    """package.json."""
    entries = {".": "index", "./worker": "worker"}
    exports: dict[str, object] = {f"./{MODULE}": f"./{MODULE}"}
    exports |= {name: {"types": f"./{it}.d.ts", "default": f"./{it}.js"} for name, it in entries.items()}
    told = {
        "name": "yuzuratchet",
        "version": version,
        "description": "A software Direct3D 11 device as WebAssembly: scripts of calls in, answers and images out",
        "license": "MIT",
        "type": "module",
        "exports": exports,
        "types": "./index.d.ts",
        "engines": {"node": ">=20"},
        "sideEffects": False,
    }
    return json.dumps(told, indent=4) + "\n"


def package(version: str, module: bytes, texts: trees.Tree) -> dict[str, File]:
    """The package's files, with texts that each package has."""
    layout = (
        f"// Places and numbers of the module's report.\n\nexport const LAYOUT = {json.dumps(DEVICE['library'])};\n"
    )
    engine = {f"engine/{it}": File((WEB / "engine" / it).read_bytes()) for it in ENGINE}
    made = {"package.json": manifest(version), "layout.js": layout}
    files = {**trees.read(WEB / "package"), **engine, **{name: trees.text(it) for name, it in made.items()}}
    return trees.below("package", {**files, MODULE: File(module), **texts})
