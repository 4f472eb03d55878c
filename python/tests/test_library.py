"""The library: where it is found, what draws where nothing is named, and that it gives what the program gives."""

from __future__ import annotations

import ctypes.util
import hashlib
import threading
from pathlib import Path

import pytest
from conftest import DATA, gallery_names

import yuzuratchet.backends
import yuzuratchet.library
from yuzuratchet import LibraryMissing, Refusal, run, run_many
from yuzuratchet.errors import ArgumentError, ProgramFailed
from yuzuratchet.library import VARIABLE, find_library, load_library, run_library
from yuzuratchet.program import VARIABLE as PROGRAM_VARIABLE
from yuzuratchet.program import Ran
from yuzuratchet.suite import Expected

TEXT = "target 2 1\ni clearc 1 2 3 4\ni pixel 1 0\n"
# the slowest scripts take seconds
SLOW = ("large", "largest-target")


@pytest.fixture
def nothing_named(monkeypatch: pytest.MonkeyPatch) -> None:
    """An environment that names neither a library nor a program."""
    for name in (VARIABLE, PROGRAM_VARIABLE):
        monkeypatch.delenv(name, raising=False)


@pytest.mark.parametrize("name", [it for it in gallery_names() if not it.startswith(SLOW)])
def test_the_gallery(name: str, library: Path, expected: dict[str, Expected]) -> None:
    ran = run_library((DATA / name).read_bytes(), library=library)
    stored = Expected(ran.answers, hashlib.sha256(ran.image).hexdigest())
    assert stored == expected[name]
    assert ran.status == int("refused" in ran.answers)


def test_the_same_values(library: Path, program: Path) -> None:
    by_library = run(TEXT, backend="library", library=library)
    by_program = run(TEXT, backend="program", program=program)
    assert by_library.answers == by_program.answers and by_library.tga == by_program.tga
    refused = run("target 1 1\ni draw 3 0\n", library=library, check=False)
    assert refused.refused == Refusal(2, 7) and refused.tga == b""


def test_an_empty_script(library: Path, program: Path) -> None:
    assert run_library(b"", library=library) == Ran(1, "refused 1 102\n", b"")
    assert run(b"", program=program, check=False).refused == Refusal(1, 102)


@pytest.mark.parametrize(
    "text", [b"\n", b"\0", b"target", b"target 99999 1\n", b"target -1 4\n", b"t 4 4\n"]
)
def test_texts_that_are_no_scripts(text: bytes, library: Path, program: Path) -> None:
    told = run(text, program=program, check=False).refused
    assert told and run_library(text, library=library).refused == (told.line, told.number)


def test_areas_that_are_too_small_are_taken_larger(
    library: Path, monkeypatch: pytest.MonkeyPatch
) -> None:
    whole = run_library(TEXT.encode(), library=library)
    monkeypatch.setattr(yuzuratchet.library, "LINE_SIZE", 1)
    monkeypatch.setattr(yuzuratchet.library, "_image_size", lambda _: 1)
    assert run_library(TEXT.encode(), library=library) == whole


def test_many_scenes(library: Path | str, expected: dict[str, Expected]) -> None:
    names = [it for it in gallery_names() if not it.startswith(SLOW)]
    scripts = ((DATA / name).read_bytes() for name in names)
    several = run_many(scripts, workers=4, library=library, check=False)
    for name, result in zip(names, several):
        stored = Expected(result.text, hashlib.sha256(result.tga).hexdigest())
        assert stored == expected[name]


def test_calls_side_by_side(library: Path) -> None:
    script = (DATA / "shadow-volumes.txt").read_bytes()
    ran: list[Ran] = []
    threads = [
        threading.Thread(target=lambda: ran.append(run_library(script, library=library)))
        for _ in range(4)
    ]
    for thread in threads:
        thread.start()
    for thread in threads:
        thread.join()
    assert len(ran) == 4 and all(it == ran[0] for it in ran)


@pytest.mark.parametrize("wish", [{"workers": 3}, {"seconds": 1.0}, {"program": "x"}])
def test_what_only_a_process_has(wish: dict[str, object]) -> None:
    with pytest.raises(ArgumentError, match="one thread"):
        run(TEXT, backend="library", **wish)  # type: ignore[arg-type]


def test_another_backend() -> None:
    with pytest.raises(ArgumentError, match="neither 'library' nor 'program'"):
        run(TEXT, backend="gpu")  # type: ignore[arg-type]


def test_a_library_that_is_not_there(monkeypatch: pytest.MonkeyPatch, tmp_path: Path) -> None:
    with pytest.raises(LibraryMissing, match="it was named"):
        find_library(tmp_path / "x.so")
    monkeypatch.setenv(VARIABLE, str(tmp_path / "y.so"))
    with pytest.raises(LibraryMissing, match=f"{VARIABLE} names it"):
        run(TEXT)


def test_another_library(tmp_path: Path) -> None:
    (tmp_path / "x.so").write_bytes(b"no library")
    with pytest.raises(LibraryMissing, match="no library of this device"):
        run(TEXT, library=tmp_path / "x.so")
    other = ctypes.util.find_library("c")
    if other:
        with pytest.raises(LibraryMissing, match="no library of this device"):
            load_library(other)


class Fake:
    """A library that ends with a status."""

    def __init__(self, status: int) -> None:
        self.yuzuratchet_draw = lambda *_: status


def test_a_status_that_draws_nothing(monkeypatch: pytest.MonkeyPatch) -> None:
    monkeypatch.setattr(yuzuratchet.library, "find_library", lambda _: "x")
    for status, text in ((4, "memory"), (8, "overlap"), (77, "status 77")):
        monkeypatch.setattr(yuzuratchet.library, "load_library", lambda _, it=status: Fake(it))
        with pytest.raises(ProgramFailed, match=text):
            run_library(b"target 1 1\n")


def test_what_draws_where_nothing_is_named(
    monkeypatch: pytest.MonkeyPatch, nothing_named: None
) -> None:
    chosen = yuzuratchet.backends.chosen
    monkeypatch.setattr(yuzuratchet.library, "find_library", lambda _=None: "x")
    monkeypatch.setattr(yuzuratchet.library, "load_library", lambda _: Fake(0))
    assert chosen(None, None) == "library"
    assert chosen("workers", None) == "program"
    monkeypatch.setenv(PROGRAM_VARIABLE, "p")
    assert chosen(None, None) == "program"
    assert chosen(None, "x.so") == "library"
    monkeypatch.setenv(VARIABLE, "l")
    assert chosen(None, None) == "library"


def test_without_a_library_the_program_draws(
    monkeypatch: pytest.MonkeyPatch, nothing_named: None
) -> None:
    def missing(_: object = None) -> Path:
        raise LibraryMissing("none")

    monkeypatch.setattr(yuzuratchet.library, "find_library", missing)
    monkeypatch.setattr(yuzuratchet.backends, "_told", [])
    with pytest.warns(yuzuratchet.backends.NoLibraryWarning, match="20 times as fast") as told:
        assert yuzuratchet.backends.chosen(None, None) == "program"
        assert yuzuratchet.backends.chosen(None, None) == "program"
    assert len(told) == 1  # (once)
    with pytest.raises(LibraryMissing):
        run(TEXT, backend="library")
