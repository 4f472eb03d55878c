"""Finds the program ``tiledraw``, and runs it on a script."""

from __future__ import annotations

import math
import os
import re
import shutil
import signal
import subprocess
import tempfile
import threading
from contextlib import suppress
from dataclasses import dataclass
from pathlib import Path
from typing import Final

from .errors import ArgumentError, ProgramFailed, ProgramMissing, ProgramStopped, WrongType
from .limits import WORKERS
from .targa import misfit, target_sides

NAME: Final = "tiledraw"
VARIABLE: Final = "YUZURATCHET_PROGRAM"
TUNABLES: Final = "GLIBC_TUNABLES"
HUGE_PAGES: Final = "glibc.malloc.hugetlb=1"
"""What asks glibc, from 2.35 on, for memory in pages of 2 MB. Targets and lists are large, so that waiting for pages of
4 KB is a fifth of a drawing's time."""
BUILT: Final = Path("crates", NAME, "out", NAME)
CHECKED: Final = BUILT.with_name(f"{NAME}-checked")
"""The program as tools/first_picture.py builds it in a minute: checked, not proved, and slow."""
INSTALLED: Final = Path(__file__).resolve().parent / "built"
"""The folder that this package has where it was installed from a release: the device, built."""

REFUSED: Final = re.compile(r"^refused ([0-9]+) ([0-9]+)\n\Z", re.M)

HOW_TO_BUILD: Final = f"""\
A release has it inside, for machines without the toolchain:
    pip install yuzuratchet-VERSION-py3-none-manylinux_X_Y_x86_64.whl
In a clone of the repository {NAME} is compiled with checks, not proved, in a minute by
    tools/first_picture.py
and proved and built, once, in 20 to 55 minutes, by
    rt all check --jobs 4
    cd crates/{NAME} && rt run -- "$PWD/../gallery/data/fan.txt" /tmp/fan.tga
It is then {BUILT}, one file; install it with
    install -m755 {BUILT} /usr/local/bin/
or name it by --program, or in the environment by {VARIABLE}.
Without the toolchain a clone draws slowly, by tools/plain_device.py SCRIPT OUT.tga."""


def repository() -> Path | None:
    """The clone of the repository that this package lies in, if it isn't installed elsewhere."""
    top = Path(__file__).resolve().parents[3]
    return top if (top / "crates" / NAME).is_dir() else None


def named_file(given: str | Path | None, variable: str) -> tuple[Path, str] | None:
    """The file that is named here, or else by the environment, and who names it."""
    for named, by in ((given, "it was named"), (os.environ.get(variable), f"{variable} names it")):
        if named:
            return Path(named), by
    return None


def find_program(program: str | Path | None = None) -> Path:
    """The program: the one that is named here, or else by the environment, or else the one that
    came with this package, or was built in this clone of the repository, or is on the path, or else
    the checked one that tools/first_picture.py built in this clone.

    Raises :class:`~yuzuratchet.errors.ProgramMissing`, whose text says how to build it.
    """
    if named := named_file(program, VARIABLE):
        return _usable(*named)
    top = repository()
    built, checked = [top / BUILT] if top else [], [top / CHECKED] if top else []
    on_path = [Path(it) for it in [shutil.which(NAME)] if it]
    for path in (INSTALLED / NAME, *built, *on_path, *checked):
        if os.access(path, os.X_OK):
            return path
    raise ProgramMissing(f"no built program {NAME} is found.\n{HOW_TO_BUILD}")


def _usable(path: Path, by: str) -> Path:
    found = path if path.is_file() else Path(shutil.which(str(path)) or path)
    if not found.is_file():
        raise ProgramMissing(f"there is no program {path} ({by}).\n{HOW_TO_BUILD}")
    if not os.access(found, os.X_OK):
        raise ProgramMissing(f"{path} can't be executed ({by}).\n{HOW_TO_BUILD}")
    return found.resolve()


@dataclass(frozen=True)
class Ran:
    """What the program gave for a script: exit status (0 or 1), answer lines, the image's file."""

    status: int
    answers: str
    image: bytes

    @property
    def refused(self) -> tuple[int, int] | None:
        """Line and number of the ``refused`` line, if there is one."""
        found = REFUSED.search(self.answers)
        return (int(found[1]), int(found[2])) if found else None


class Running:
    """Runs of the program that go on now, in any threads: :meth:`end` ends them, and lets no other begin."""

    def __init__(self) -> None:
        self._lock = threading.Lock()
        self._processes: set[subprocess.Popen[str]] = set()
        self.is_ended = False

    def __reduce__(self) -> tuple[type[Running], tuple[()]]:
        # (in another process there are other runs)
        return Running, ()

    def end(self) -> None:
        """Ends the runs; each raises :class:`~yuzuratchet.errors.ProgramStopped` in its thread."""
        with self._lock:
            self.is_ended = True
            for process in self._processes:
                _kill(process)

    def add(self, process: subprocess.Popen[str]) -> None:
        """Takes a process that has started, and ends it where all are ended already."""
        with self._lock:
            self._processes.add(process)
            if self.is_ended:
                _kill(process)

    def remove(self, process: subprocess.Popen[str]) -> None:
        """Lets go of a process that has ended."""
        with self._lock:
            self._processes.discard(process)

    def check(self) -> None:
        """Raises :class:`~yuzuratchet.errors.ProgramStopped` where the runs are ended."""
        if self.is_ended:
            raise ProgramStopped("the program was stopped")


def run_program(
    script: bytes,
    *,
    workers: int | None = None,
    program: str | Path | None = None,
    seconds: float | None = None,
    running: Running | None = None,
) -> Ran:
    """Runs the program on the bytes of a script, in a folder of its own.

    ``workers``, 0 to 15, is how many threads draw beside the program's own; ``seconds`` ends a run
    that takes longer, and ``running`` is who may end it. Raises
    :class:`~yuzuratchet.errors.ProgramMissing` and :class:`~yuzuratchet.errors.ProgramFailed`.
    """
    check_wishes(workers, seconds)
    found, running = find_program(program), running or Running()
    running.check()
    with tempfile.TemporaryDirectory(prefix="yuzuratchet-") as room:
        source, image = Path(room, "script.txt"), Path(room, "image.tga")
        source.write_bytes(script)
        words = [str(found), str(source), str(image)]
        words += [] if workers is None else ["--workers", str(workers)]
        ended = _ended(words, seconds, running)
        ran = Ran(ended.returncode, ended.stdout, image.read_bytes() if image.exists() else b"")
    _check_ran(script, ran, found)
    return ran


def check_wishes(workers: int | None, seconds: float | None) -> None:
    """Raises :class:`~yuzuratchet.errors.ArgumentError` where no run can be had so."""
    if workers is not None and (isinstance(workers, bool) or not isinstance(workers, int)):
        raise WrongType("workers", f"a whole number is wanted, and not {workers!r}")
    if workers is not None and not 0 <= workers <= WORKERS:
        raise ArgumentError("workers", f"{workers} is not in 0 to {WORKERS}")
    if seconds is None:
        return
    if isinstance(seconds, bool) or not isinstance(seconds, (int, float)):
        raise WrongType("seconds", f"a number is wanted, and not {seconds!r}")
    if not (seconds > 0 and math.isfinite(seconds)):
        raise ArgumentError("seconds", f"{seconds!r} is no number above 0")


def _check_ran(script: bytes, ran: Ran, found: Path) -> None:
    """Raises :class:`~yuzuratchet.errors.ProgramFailed` where the program gave what tiledraw never does."""
    if bool(ran.refused) != (ran.status == 1):
        raise ProgramFailed(f"{found} ended with status {ran.status}, which its answers belie")
    if ran.refused:
        return
    wrong = misfit(ran.image, target_sides(script))
    if wrong:
        raise ProgramFailed(f"{found} ended with status 0 and gave {wrong}: is it {NAME}?")


def _ended(
    words: list[str], seconds: float | None, running: Running
) -> subprocess.CompletedProcess[str]:
    """Runs the program to its end."""
    try:
        ran = _communicated(words, seconds, running)
    except subprocess.TimeoutExpired as error:
        raise ProgramFailed(f"{words[0]} did not end within {seconds:g} seconds") from error
    except OSError as error:
        raise ProgramMissing(
            f"{words[0]} does not start: {error.strerror}\n{HOW_TO_BUILD}"
        ) from error
    if ran.returncode not in (0, 1):
        how = f"status {ran.returncode}" if ran.returncode >= 0 else f"signal {-ran.returncode}"
        raise ProgramFailed(
            f"{words[0]} ended with {how}: {ran.stderr.strip() or 'it said nothing'}"
        )
    return ran


def _kill(process: subprocess.Popen[str]) -> None:
    """Ends a process and what it started, in the session that is its own."""
    if process.poll() is None:
        with suppress(ProcessLookupError, PermissionError):
            os.killpg(process.pid, signal.SIGKILL)


def _environment() -> dict[str, str]:
    """The environment that the program runs in: this process's, and huge pages where nobody tunes glibc."""
    return {TUNABLES: HUGE_PAGES, **os.environ}


def _communicated(
    words: list[str], seconds: float | None, running: Running
) -> subprocess.CompletedProcess[str]:
    """What a process wrote; it is ended on every way out of here.

    It has a session of its own, so that Ctrl-C reaches this process alone, which ends it in order.
    """
    pipe = subprocess.PIPE
    with subprocess.Popen(
        words,
        stdin=subprocess.DEVNULL,
        stdout=pipe,
        stderr=pipe,
        env=_environment(),
        encoding="utf-8",
        errors="replace",
        start_new_session=True,
    ) as process:
        running.add(process)
        try:
            out, err = process.communicate(timeout=seconds)
        except BaseException:
            _kill(process)
            raise
        finally:
            running.remove(process)
    running.check()
    return subprocess.CompletedProcess(words, process.returncode, out, err)
