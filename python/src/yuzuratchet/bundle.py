"""Joins the modules of a page's JavaScript into one script, in which each keeps its names to itself.

A module is taken in the plainest form: lines ``import { a, b } from "./c.js";`` at its front, and ``export``
before a declaration that begins a line.
"""

from __future__ import annotations

import re
from pathlib import Path, PurePosixPath
from typing import Final

IMPORT: Final = re.compile(r'^import \{ ([\w$, ]+) \} from "(\.[\w./]+)";\n', re.M)
EXPORT: Final = re.compile(r"^export ((?:async )?(?:class|const|function)\*? ([\w$]+))", re.M)
OTHER: Final = re.compile(r"^(?:import|export)\b.*", re.M)


def bundled(folder: Path, entry: str) -> str:
    """The module ``entry`` of a folder as one script, with all that it imports before it."""
    made: dict[str, str] = {}
    _add(folder, entry, made, ())
    return '"use strict";\n' + "".join(made.values())


def _add(folder: Path, name: str, made: dict[str, str], above: tuple[str, ...]) -> None:
    """Adds a module behind those that it imports."""
    if name in made:
        return
    if name in above:
        raise ValueError(f"{name} imports itself, by {' and '.join(above)}")
    text = (folder / name).read_text(encoding="utf-8")
    taken = []
    for names, path in IMPORT.findall(text):
        other = _beside(name, path)
        _add(folder, other, made, (*above, name))
        taken.append(f"const {{ {names} }} = {_variable(other)};\n")
    exported = [found[1] for found in EXPORT.findall(text)]
    body = EXPORT.sub(r"\1", IMPORT.sub("", text))
    if other_form := OTHER.search(body):
        raise ValueError(f"{name} has a line that can't be joined: {other_form[0]}")
    inner = "".join(taken) + body
    result = f"return {{ {', '.join(exported)} }};\n"
    made[name] = f"// {name}\nconst {_variable(name)} = (() => {{\n{inner}{result}}})();\n"


def _beside(name: str, path: str) -> str:
    """The module that a path names in another one."""
    parts: list[str] = []
    for part in (PurePosixPath(name).parent / path).parts:
        if part == "..":
            parts.pop()
        else:
            parts.append(part)
    return "/".join(parts)


def _variable(name: str) -> str:
    """The variable that holds what a module exports."""
    return re.sub(r"\W", "_", name.removesuffix(".js"))
