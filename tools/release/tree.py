"""Files of a package, before they are packed."""

from __future__ import annotations

import os
import pathlib
from collections.abc import Iterator, Mapping
from dataclasses import dataclass


@dataclass(frozen=True)
class File:
    """A file's bytes and whether it is a program, or where a link leads."""

    data: bytes = b""
    is_program: bool = False
    link: str | None = None

    @property
    def mode(self) -> int:
        """Its permissions, which are the same whoever builds."""
        return 0o755 if self.is_program else 0o644


Tree = Mapping[str, File]
"""Files by their paths, which have neither a slash at the head nor at the end."""


def text(content: str) -> File:
    """A file of text."""
    return File(content.encode("utf-8"))


def below(folder: str, tree: Tree) -> dict[str, File]:
    """The same files, in a folder."""
    return {f"{folder}/{path}": it for path, it in tree.items()}


def read(folder: pathlib.Path, pattern: str = "**/*") -> dict[str, File]:
    """The files below a folder of the disk."""
    return {path.relative_to(folder).as_posix(): it for path, it in _read(folder, pattern)}


def _read(folder: pathlib.Path, pattern: str) -> Iterator[tuple[pathlib.Path, File]]:
    for path in sorted(folder.glob(pattern)):
        if path.is_symlink():
            yield path, File(link=os.readlink(path))
        elif path.is_file():
            yield path, File(path.read_bytes(), os.access(path, os.X_OK))


def write(tree: Tree, folder: pathlib.Path) -> None:
    """Writes files below a folder of the disk."""
    for path, it in tree.items():
        at = folder / path
        at.parent.mkdir(parents=True, exist_ok=True)
        if it.link is not None:
            at.symlink_to(it.link)
            continue
        at.write_bytes(it.data)
        at.chmod(it.mode)
    for at in (folder, *(it for it in folder.rglob("*") if it.is_dir())):
        at.chmod(0o755)


def folders(tree: Tree) -> list[str]:
    """All folders that the files lie in."""
    return sorted({str(it) for path in tree for it in pathlib.PurePosixPath(path).parents if str(it) != "."})
