"""The suite by which other devices are judged: scripts in a folder for each rule, and their index."""

from __future__ import annotations

import json
from dataclasses import dataclass
from fnmatch import fnmatchcase
from pathlib import Path
from typing import Final

from .errors import YuzuratchetError
from .program import repository

FOLDER: Final = "conformance"
INDEX: Final = "index.json"


@dataclass(frozen=True)
class Rule:
    """What the scripts of a folder are about, and the chapter or page that it is from."""

    folder: str
    title: str
    chapter: str = ""


@dataclass(frozen=True)
class RuleScript:
    """A script: its name in the suite, what it shows, its rule, and what a device needs for it."""

    name: str
    title: str
    rule: Rule
    needs: tuple[str, ...] = ()


@dataclass(frozen=True)
class Conformance:
    """A folder of scripts by rules, in the order in which the rules lean on each other."""

    folder: Path
    scripts: tuple[RuleScript, ...]

    @classmethod
    def of_folder(cls, folder: Path | None, only: str | None = None) -> Conformance:
        """The suite of a folder, or this clone's; raises YuzuratchetError where it has no scripts.

        Without an index the scripts are those in the folder and below, and their rules are folders.
        """
        if folder is None:
            top = repository()
            folder = top / FOLDER if top else Path(FOLDER)
        if not folder.is_dir():
            raise YuzuratchetError(f"{folder} is no folder: name that of the suite")
        every = _indexed(folder) if (folder / INDEX).is_file() else _found(folder)
        scripts = tuple(it for it in every if only is None or fnmatchcase(it.name, only))
        if not scripts:
            which = f"whose name matches {only!r}" if only else "(*.txt)"
            raise YuzuratchetError(f"{folder} has no scripts {which}")
        return cls(folder, scripts)

    @property
    def rules(self) -> tuple[Rule, ...]:
        """The rules that have scripts, in their order."""
        return tuple(dict.fromkeys(it.rule for it in self.scripts))

    def read(self, script: RuleScript) -> bytes:
        """The bytes of a script."""
        return (self.folder / script.name).read_bytes()


def _indexed(folder: Path) -> list[RuleScript]:
    path = folder / INDEX
    try:
        index = json.loads(path.read_text(encoding="utf-8"))
        rules = {
            it["folder"]: Rule(it["folder"], it["title"], it["chapter"]) for it in index["rules"]
        }
        return [
            RuleScript(
                it["script"], it["title"], rules[it["script"].split("/")[0]], tuple(it["needs"])
            )
            for it in index["scripts"]
        ]
    except (ValueError, KeyError, TypeError) as error:
        raise YuzuratchetError(f"{path} is no index of a suite: {error}") from error


def _found(folder: Path) -> list[RuleScript]:
    names = sorted(path.relative_to(folder) for path in folder.rglob("*.txt"))
    return [
        RuleScript(it.as_posix(), it.stem, Rule(it.parent.as_posix(), it.parent.as_posix()))
        for it in names
    ]
