"""Draws the scripts of a suite side by side, compares each with what is stored, or stores it."""

from __future__ import annotations

import os
import time
from concurrent.futures import Executor, Future, ThreadPoolExecutor, as_completed, wait
from dataclasses import dataclass, field, replace
from pathlib import Path
from typing import Callable, Final

from .difference import EXACT, Tolerance
from .errors import ProgramFailed, ScriptRefused, YuzuratchetError
from .images import decode, encode
from .program import Ran, Running, run_program
from .progress import ProgressLine
from .suite import WHOLE, Outcome, Suite, Verdict, drawn_outcome, expected_text, judged

GRACE: Final = 0.5
"""Seconds for the runs that are ended to let go of their folders."""

Told = Callable[[Outcome], None]


class Progress:
    """Tells how far a suite is."""

    def __init__(self, total: int) -> None:
        self.total, self.done, self.differ = total, 0, 0
        self.line = ProgressLine()

    def __call__(self, outcome: Outcome) -> None:
        """Counts an outcome, and tells."""
        self.done += 1
        self.differ += outcome.verdict is not Verdict.AGREES
        self.line.tell(f"{self.done} of {self.total} scripts, {self.differ} without agreement")

    def end(self) -> None:
        """Ends the line of a terminal."""
        self.line.end()


@dataclass(frozen=True)
class SuiteRun:
    """The outcomes in the order of the scripts' names, and the names that were not drawn.

    ``cut`` is what cut the run short, if something did.
    """

    outcomes: list[Outcome]
    left: list[str] = field(default_factory=list)
    cut: KeyboardInterrupt | None = None


@dataclass(frozen=True)
class Drawing:
    """How scripts are drawn: by which program (without one, by what is found where it runs), with
    how many workers, for how many seconds at most, ``jobs`` side by side, and whether depth and
    stencil are asked for."""

    program: Path | None = None
    workers: int | None = None
    seconds: float = 60
    jobs: int = 1
    planes: bool = False
    running: Running = field(default_factory=Running)

    def run(self, script: bytes) -> Ran:
        """Runs the program on the bytes of a script."""
        return run_program(
            script,
            program=self.program,
            workers=self.workers,
            seconds=self.seconds,
            running=self.running,
        )

    def draw(self, name: str, source: Path | bytes, planes: bool = False) -> Outcome:
        """Draws a script, of a file or of its bytes; the outcome is compared with nothing yet."""
        begun = time.monotonic()
        try:
            script = source if isinstance(source, bytes) else source.read_bytes()
            return drawn_outcome(name, script, self.run, planes or self.planes)
        except (ProgramFailed, ScriptRefused, OSError) as error:
            self.running.check()
            took = time.monotonic() - begun
            return Outcome(name, Verdict.FAILED, took, message=str(error))


Finish = Callable[[Outcome], Outcome]
"""What becomes of an outcome: it is compared, or its image is encoded."""


@dataclass(frozen=True)
class Farm:
    """Where the scripts of a suite are drawn: by threads of this process, or by an executor that is
    there already, as that of a cluster. To an executor a script is sent as its bytes."""

    drawing: Drawing
    executor: Executor | None = None

    def each(self, suite: Suite, with_planes: set[str], finish: Finish, progress: Told) -> SuiteRun:
        """What becomes of each script of a suite, side by side.

        ``progress`` is told each outcome as it comes. What ``finish`` gives is kept, so it lets go
        of what isn't wanted. An interrupt ends the runs that go on, and gives what has come so far.
        """
        names = suite.names()
        found: dict[str, Outcome] = {}
        cut: KeyboardInterrupt | None = None
        pool = self.executor or ThreadPoolExecutor(max_workers=self.drawing.jobs)
        # (threads of this process finish what they draw, and an executor's outcomes come as drawn)
        behind: Finish = finish if self.executor else lambda outcome: outcome
        begun = {self._begun(pool, suite, it, it in with_planes, finish): it for it in names}
        try:
            for one in as_completed(begun):
                found[begun[one]] = behind(one.result())
                progress(found[begun[one]])
        except KeyboardInterrupt as interrupt:
            cut = interrupt
        finally:
            self._end(pool, begun, is_whole=len(found) == len(names))
        if cut:
            late = _ended_in_time(begun).items()
            found |= {name: behind(it) for name, it in late if name not in found}
        outcomes = [found[name] for name in names if name in found]
        return SuiteRun(outcomes, [name for name in names if name not in found], cut)

    def _begun(
        self, pool: Executor, suite: Suite, name: str, planes: bool, finish: Finish
    ) -> Future[Outcome]:
        path, draw = suite.scripts / name, self.drawing.draw
        if self.executor:
            return pool.submit(draw, name, path.read_bytes(), planes)
        return pool.submit(lambda: finish(draw(name, path, planes)))

    def _end(self, pool: Executor, begun: dict[Future[Outcome], str], is_whole: bool) -> None:
        # (a task that failed for want of anything but the program ends the others too)
        if not is_whole:
            self.drawing.running.end()
        for it in begun:
            it.cancel()
        if not self.executor:
            pool.shutdown(wait=False, cancel_futures=True)


def _ended_in_time(begun: dict[Future[Outcome], str]) -> dict[str, Outcome]:
    """What the tasks gave that ended by themselves, behind a moment for those that were ended."""
    going = [it for it in begun if not it.cancelled()]
    wait(going, timeout=GRACE)
    return {begun[it]: it.result() for it in going if it.done() and not it.exception()}


def compare_all(suite: Suite, farm: Farm, progress: Told, tolerance: Tolerance = EXACT) -> SuiteRun:
    """Draws the scripts and compares each with what is stored, in the order of their names.

    What is stored and has no script is among the outcomes too.
    """
    stored = suite.stored()

    def finish(outcome: Outcome) -> Outcome:
        return judged(suite, outcome, stored.get(outcome.name), tolerance)

    names = suite.names()
    with_planes = {name for name, it in stored.items() if it.has_planes}
    run = farm.each(suite, with_planes, finish, progress)
    without = [name for name in stored if name not in names]
    missing = [Outcome(name, Verdict.NO_SCRIPT, expected=stored[name]) for name in without]
    return replace(run, outcomes=[*run.outcomes, *missing])


def run_suite(
    folder: str | Path,
    *,
    only: str | None = None,
    executor: Executor | None = None,
    drawing: Drawing = Drawing(jobs=os.cpu_count() or 1),
    tolerance: int = 0,
) -> SuiteRun:
    """Draws each script of a folder, and compares it with what is stored there.

    ``executor`` is any of :mod:`concurrent.futures`, or what keeps its form, as Dask's
    ``Client.get_executor()``: each of its workers draws by the program that is found there.
    """
    suite = Suite.of_folder(Path(folder), only)
    drawing = replace(drawing, running=Running())  # (runs that were ended stay so)
    return compare_all(suite, Farm(drawing, executor), lambda _: None, Tolerance(tolerance))


@dataclass(frozen=True)
class Stored:
    """What came of storing: the run, the outcomes that are stored, those of scripts with a fault,
    which aren't, those that failed, and the pictures that were removed.

    Nothing is stored where the program failed on a script, or the run was cut short.
    """

    run: SuiteRun
    stored: list[Outcome] = field(default_factory=list)
    faulty: list[Outcome] = field(default_factory=list)
    failed: list[Outcome] = field(default_factory=list)
    removed: list[Path] = field(default_factory=list)


def store(suite: Suite, farm: Farm, progress: Told, allow_faults: bool = False) -> Stored:
    """Draws the scripts of a suite and stores answers, digests and images.

    A script with a fault isn't stored unless that is allowed: what was stored of it stays. What is
    stored of scripts that are gone is removed, with its picture.
    """
    pictures = suite.pictures
    if pictures is None:
        raise YuzuratchetError(f"{suite.expected} isn't written here, but by a tool of its own")
    run = farm.each(suite, set(), _encoded, progress)
    failed = [it for it in run.outcomes if it.drawn is None]
    if failed or run.cut:
        return Stored(run, failed=failed)
    faulty = [it for it in run.outcomes if _is_faulty(it) and not allow_faults]
    kept = [it for it in run.outcomes if it not in faulty]
    before = suite.every_stored()
    names = {it.name for it in run.outcomes}
    entries = {name: it for name, it in before.items() if name in names or not suite.has(name)}
    removed = _store_pictures(suite, kept, [name for name in before if name not in entries])
    entries |= {it.name: it.drawn for it in kept if it.drawn}
    places = {name: at for at, name in enumerate(replace(suite, only=None, shard=WHOLE).names())}
    ordered = sorted(entries, key=lambda name: places.get(name, len(places)))
    text = expected_text({name: entries[name] for name in ordered})
    suite.expected.write_text(text, encoding="utf-8", newline="\n")
    return Stored(run, kept, faulty, removed=removed)


def _is_faulty(outcome: Outcome) -> bool:
    return outcome.drawn is not None and outcome.drawn.is_fault


def _encoded(outcome: Outcome) -> Outcome:
    """The outcome with its image as a PNG, where it has one."""
    if not outcome.image:
        return outcome
    return replace(outcome, image=encode(decode(outcome.image, outcome.name)))


def _store_pictures(suite: Suite, outcomes: list[Outcome], gone: list[str]) -> list[Path]:
    """Writes the images beside their scripts, and removes those of scripts that draw none or are
    gone; gives the removed ones."""
    without = [*gone, *(it.name for it in outcomes if not it.image)]
    removed = [path for name in without if (path := suite.picture(name))]
    for path in removed:
        path.unlink()
    for it in outcomes:
        path = suite.picture_path(it.name)
        if it.image and path:
            path.write_bytes(it.image)
    return removed
