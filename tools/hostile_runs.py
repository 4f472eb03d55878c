#!/usr/bin/env python3
"""Starts the built program as a hostile or careless caller does, and says of each way whether it answers as it must.

    tools/hostile_runs.py [--program FILE]

Standard descriptors that are closed, in all eight combinations, or can't be held, no descriptor left, a full device,
a closed pipe, files and folders that are missing or can't be read, threads that don't start, wrong words, `--help`,
scripts with a fault or a refused line, one cut at every byte, lists that are full or too full, scripts of many short
lines, whose time has to grow with their length alone, and many executions, whose memory mustn't. The answers and
images that are wanted come from plain_device.py. A line is printed for each run, `right NAME` or `WRONG NAME: why`
(`not tried` where root runs this, and another user, whom files can be closed to, can't reach the program). The status
is 0 where none is wrong.
"""

from __future__ import annotations

import argparse
import dataclasses
import itertools
import os
import pathlib
import resource
import subprocess
import sys
import tempfile
import time
from collections.abc import Sequence
from typing import IO, Any, Union

import package_path
import plain_device
from yuzuratchet.ending import ended
from yuzuratchet.errors import ProgramMissing
from yuzuratchet.program import find_program

DATA = package_path.TOP / "crates" / "gallery" / "data" / "rows"
SECONDS = 60
NOBODY = 65534
NAMES = ("input", "output", "error")

Words = Sequence[Union[str, bytes, pathlib.Path]]

DRAWN, REFUSED, WRONG_WORDS, FAILED = range(4)

READ = "tiledraw: cannot read script\n"
IMAGE = "tiledraw: cannot write image\n"
ANSWERS = "tiledraw: cannot write answers\n"

# The first line that standard error has where the words are not taken.
WORDS = {
    "--help": "Draws a script by a software Direct3D 11 device",
    "": "error: the following required arguments were not provided:",
    "script": "error: the following required arguments were not provided:",
    "script image third": "error: unexpected argument 'third' found",
    "script image --workers": "error: a value is required for '--workers <N>' but none was supplied",
    "script image --workers 16": "error: invalid value '16' for '--workers <N>': 16 is not in 0..=15",
    "script image --workers x": "error: invalid value 'x' for '--workers <N>': invalid digit found in string",
    "script image --workers 1 --workers 2": "error: the argument '--workers <N>' cannot be used multiple times",
    "script image --unknown": "error: unexpected argument '--unknown' found",
    "script \udcff": "error: invalid UTF-8 was detected in one or more arguments",
}

# Scripts that end early, and their answers.
ENDED = {
    "no lines": ("", "refused 1 102\n"),
    "no line feed": ("target 4 4", "refused 1 101\n"),
    "unknown word": ("target 4 4\ni jump\n", "refused 2 104\n"),
    "a refused line": ("target 4 4\ni pixel 0 0\ni pixel 4 0\n", "pixel 0 0 0 0 0 0 16777215 0\nrefused 3 15\n"),
}

# Scripts of many short lines: what stands before the line, the line, and how often it stands. However often that is,
# the answers and the image are the same.
LIST = "d0 topology 4\nd0 vb 0 0 5 1 2 3 4 131072 0 5 1 2 3 4 0 131072 5 1 2 3 4\nd0 draw 3 0\nd0 finish 0\n"
LONG = {
    "empty lists": ("", "d0 finish 0\n", 100_000),
    "empty lists of d7": ("", "d7 finish 1\n", 100_000),
    "executions of a list": (LIST, "i exec d0 0 1\n", 200_000),
    "executions without the state": (LIST, "i exec d0 0 0\n", 200_000),
    "flushes with nothing pending": ("", "i flush\n", 100_000),
}

# how many kilobytes executions that wait may take, however many there are
MOST_WAITING = 49_152


@dataclasses.dataclass(frozen=True)
class Ended:
    """How a run ended. The image is None where there is no such file; an output is None where nobody could read it."""

    status: int
    output: str | None
    error: str | None
    image: bytes | None


def difference(wanted: Ended, got: Ended) -> str | None:
    """In what a run differs from what is wanted of it, or None. What is None on either side is not compared."""
    for field in dataclasses.fields(Ended):
        want, have = getattr(wanted, field.name), getattr(got, field.name)
        if field.name == "image" and want != have:
            return f"the image is {told(have)}, and not {told(want)}"
        if want is not None and have is not None and want != have:
            return f"{field.name} is {have!r}, and not {want!r}"
    return None


def told(image: bytes | None) -> str:
    return "not there" if image is None else f"of {len(image)} bytes" if image else "empty"


def user_of(is_nobody: bool) -> dict[str, Any]:
    """Who runs the program: root reads every file, so nobody does where a file is not to be read."""
    return {"user": NOBODY, "group": NOBODY} if is_nobody and os.geteuid() == 0 else {}


class Runs:
    """Runs of the program in a folder of their own, each with a line about it."""

    def __init__(self, program: pathlib.Path, room: pathlib.Path) -> None:
        self.program, self.room = program, room
        self.wrong = 0

    def say(self, name: str, complaint: str | None) -> None:
        self.wrong += complaint is not None
        print(f"right {name}" if complaint is None else f"WRONG {name}: {complaint}", flush=True)

    def complaint(self, wanted: Ended, words: Words, **how: Any) -> str | None:
        """Runs the program on words; why it didn't end as wanted, or None."""
        try:
            return difference(wanted, self.ended(words, **how))
        except subprocess.TimeoutExpired:
            return f"it did not end within {SECONDS} seconds"

    def expect(self, name: str, wanted: Ended, words: Words, **how: Any) -> None:
        """Runs the program on words, and says whether it ended as wanted."""
        try:
            self.say(name, self.complaint(wanted, words, **how))
        except PermissionError:
            if not how.get("is_nobody"):
                raise
            print(f"not tried {name}: the user nobody can't start {self.program}")

    def ended(
        self,
        words: Words,
        closed: Sequence[int] = (),
        output: int | IO[bytes] = subprocess.PIPE,
        is_nobody: bool = False,
        limit: tuple[int, int] | None = None,
    ) -> Ended:
        """How the program ends on words, with these descriptors closed, and a limit of a resource."""
        image = self.room / "image.tga"
        image.unlink(missing_ok=True)

        def prepare() -> None:
            for descriptor in closed:
                os.close(descriptor)
            if limit:
                which, most = limit
                resource.setrlimit(which, (most, most))

        ran = subprocess.run(
            [self.program, *words],
            stdin=subprocess.DEVNULL,
            stdout=output,
            stderr=subprocess.PIPE,
            cwd=self.room,
            preexec_fn=prepare if closed or limit else None,
            timeout=SECONDS,
            check=False,
            **user_of(is_nobody),
        )
        return Ended(
            ran.returncode,
            None if output != subprocess.PIPE or 1 in closed else ran.stdout.decode(errors="replace"),
            None if 2 in closed else ran.stderr.decode(errors="replace"),
            image.read_bytes() if image.exists() else None,
        )


def stored(name: str) -> tuple[pathlib.Path, str, bytes]:
    """A row of the gallery: where it lies, and its answers and image."""
    script = DATA / f"{name}.txt"
    answers, image = plain_device.evaluate(script.read_bytes())
    return script, answers, image


def try_closed_descriptors(runs: Runs) -> None:
    """Each combination, with a script that has answers and one that has none, alone and with workers."""
    for name, workers in itertools.product(("counted-then-cleared", "four-tiles"), ("0", "3")):
        script, answers, image = stored(name)
        for closed in itertools.chain.from_iterable(itertools.combinations(range(3), count) for count in range(4)):
            drawn = Ended(DRAWN, answers, "", image)
            wanted = Ended(FAILED, "", ANSWERS, b"") if 1 in closed and answers else drawn
            which = ", ".join(NAMES[it] for it in closed) or "nothing"
            runs.expect(
                f"{name}, {workers} workers, closed: {which}",
                wanted,
                [str(script), "image.tga", "--workers", workers],
                closed=closed,
            )


def try_few_descriptors(runs: Runs) -> None:
    """Few descriptors may be open: none is left for the image, and none to hold standard output with (the loader of
    the program wants one), so that the script isn't read."""
    script, _, _ = stored("four-tiles")
    words: list[str | pathlib.Path] = [script, "image.tga"]
    runs.expect("one descriptor more", Ended(FAILED, "", IMAGE, None), words, limit=(resource.RLIMIT_NOFILE, 4))
    unheld = Ended(FAILED, "", READ, None)
    runs.expect("no descriptor more, closed: input", unheld, words, closed=(0,), limit=(resource.RLIMIT_NOFILE, 3))


def try_few_threads(runs: Runs) -> None:
    """The user may have so many threads, the first included: the others don't start, and the answers are the same."""
    for name, workers in itertools.product(
        ("counted-four-tiles", "around-a-list", "seventy-lists", "../lamps"), ("0", "3", "15")
    ):
        script, answers, image = stored(name)
        drawn = Ended(DRAWN, answers, "", image)
        reached = runs.room / "script.txt"
        reached.write_bytes(script.read_bytes())
        for most in (1, 2, 3, 4, 5, 8, 17, 24):
            words = [str(reached), "image.tga", "--workers", workers]
            limit = (resource.RLIMIT_NPROC, most)
            runs.expect(f"{name}, {workers} workers, {most} threads", drawn, words, is_nobody=True, limit=limit)


def try_outputs(runs: Runs) -> None:
    """Where answers and image can't be written."""
    script, answers, image = stored("counted-then-cleared")
    unwritten = Ended(FAILED, None, ANSWERS, b"")
    words: list[str | pathlib.Path] = [script, "image.tga"]
    with open("/dev/full", "wb") as full:
        runs.expect("answers to a full device", unwritten, words, output=full)
    end, pipe = os.pipe()
    os.close(end)
    with open(pipe, "wb") as closed:
        runs.expect("answers to a closed pipe", unwritten, words, output=closed)
    runs.expect("image to a full device", Ended(FAILED, answers, IMAGE, None), [script, "/dev/full"])
    runs.expect("image in a missing folder", Ended(FAILED, "", IMAGE, None), [script, "missing/image.tga"])
    runs.expect("image in place of a folder", Ended(FAILED, "", IMAGE, None), [script, "."])
    locked = runs.room / "locked"
    locked.mkdir(mode=0o555)
    runs.expect(
        "image in a folder that can't be written",
        Ended(FAILED, "", IMAGE, None),
        [script, "locked/image.tga"],
        is_nobody=True,
    )
    runs.expect("image of another script's name", Ended(DRAWN, answers, "", image), words)


def try_scripts(runs: Runs) -> None:
    """Scripts that can't be read, and scripts that end early."""
    unread = Ended(FAILED, "", READ, None)
    runs.expect("a missing script", unread, ["missing.txt", "image.tga"])
    runs.expect("a script of no name", unread, ["", "image.tga"])
    runs.expect("a script in a missing folder", unread, ["missing/script.txt", "image.tga"])
    runs.expect("a folder as script", Ended(FAILED, "", READ, b""), [".", "image.tga"])
    script = runs.room / "script.txt"
    script.write_text("target 1 1\n", encoding="ascii")
    script.chmod(0)
    runs.expect("an unreadable script", unread, [script, "image.tga"], is_nobody=True)
    script.chmod(0o644)
    for name, (text, answers) in ENDED.items():
        script.write_text(text, encoding="ascii")
        for workers in ("0", "3"):
            runs.expect(
                f"{name}, {workers} workers",
                Ended(REFUSED, answers, "", b""),
                [str(script), "image.tga", "--workers", workers],
            )


def text_of(name: str) -> bytes:
    return (DATA / f"{name}.txt").read_bytes()


def cut_answer(text: bytes, cut: int) -> tuple[str, bytes]:
    """The answers and the image of a script of which so many bytes are left: a line that lost its line feed is fault
    101."""
    left = text[:cut]
    if not left or left.endswith(b"\n"):
        return plain_device.evaluate(left) if left else ("refused 1 102\n", b"")
    return f"refused {left.count(10) + 1} 101\n", b""


def try_cuts(runs: Runs) -> None:
    """A script with answers, cut at every byte; a line is printed for each of its own lines, with the first cut that
    is wrong."""
    text = text_of("counted-four-tiles")
    script = runs.room / "script.txt"
    ends = [at + 1 for at, byte in enumerate(text) if byte == 10]
    for line, (start, end) in enumerate(zip([0, *ends], ends), 1):
        complaint = None
        for cut in range(start, end):
            script.write_bytes(text[:cut])
            answers, image = cut_answer(text, cut)
            wanted = Ended(DRAWN if image else REFUSED, answers, "", image)
            complaint = complaint or runs.complaint(wanted, [script, "image.tga"])
        runs.say(f"counted-four-tiles cut {end - start} times before the end of line {line}", complaint)


def full_of_triangles() -> str:
    """A list of 65,536 counted triangles, none of them empty: 21,845 and one, of a pixel each, three times over."""
    corners = "i vb 0 0 0 1 1 1 1 65536 0 0 2 2 2 2 0 131072 0 3 3 3 3\n"
    indices = "i ib" + 21845 * " 0 1 2" + "\n"
    draws = 3 * "i drawi 65535 0 0\n" + "i draw 3 0\n"
    state = "i ds 1 1 4 0 255 255 1 1 1 8 1 1 1 8 0\ni topology 4\ni begin 0\n"
    return "target 2 2\n" + corners + indices + state + draws


def try_full_lists(runs: Runs) -> None:
    """A list that holds as many triangles as it may, and one command, one issue and one triangle more than a list
    holds."""
    script = runs.room / "script.txt"
    text = full_of_triangles()
    script.write_text(text + "i end 0\ni query 0\ni pixel 0 0\n", encoding="ascii")
    answers, image = plain_device.evaluate(script.read_bytes())
    for workers in ("0", "3"):
        runs.expect(
            f"65,536 triangles, {workers} workers",
            Ended(DRAWN, answers, "", image),
            [str(script), "image.tga", "--workers", workers],
        )
    for name, text, refused in (
        ("65,537 triangles", text + "i draw 3 0\n", "refused 11 13\n"),
        ("65,537 clears", "target 1 1\n" + 65537 * "i clearc 1 2 3 4\n", "refused 65538 13\n"),
        ("65 issues", "target 1 1\n" + 64 * "i begin 0\ni end 0\n" + "i begin 0\n", "refused 130 14\n"),
    ):
        script.write_text(text, encoding="ascii")
        for workers in ("0", "3"):
            runs.expect(
                f"{name}, {workers} workers",
                Ended(REFUSED, refused, "", b""),
                [str(script), "image.tga", "--workers", workers],
            )


def least_seconds(runs: Runs, words: Words) -> float:
    """The least time of three runs."""
    times = []
    for _ in range(3):
        begun = time.perf_counter()
        runs.ended(words)
        times.append(time.perf_counter() - begun)
    return min(times)


def growth(quarter: float, whole: float) -> str | None:
    """Why a script took too long beside one of a quarter of its lines, in seconds, or None. Where time grows with the
    square it takes 16 times as long."""
    return f"it took {whole:.2f} s, and a quarter of its lines {quarter:.2f} s" if whole > 8 * quarter + 0.1 else None


def try_long_scripts(runs: Runs) -> None:
    """Many short lines: answers and image as of a few of them, in a time that grows with their number."""
    few, quarter, whole = (runs.room / f"{name}.txt" for name in ("few", "quarter", "whole"))
    for name, (before, line, times) in LONG.items():
        for script, repeated in ((few, 2), (quarter, times // 4), (whole, times)):
            script.write_text("target 4 4\n" + before + repeated * line + "i pixel 0 0\n", encoding="ascii")
        answers, image = plain_device.evaluate(few.read_bytes())
        for workers in ("0", "3", "15"):
            rest = ["image.tga", "--workers", workers]
            complaint = runs.complaint(Ended(DRAWN, answers, "", image), [whole, *rest])
            if complaint is None:
                complaint = growth(least_seconds(runs, [quarter, *rest]), least_seconds(runs, [whole, *rest]))
            runs.say(f"{times:,} {name}, {workers} workers", complaint)


def peak(runs: Runs, words: Words) -> tuple[int, str]:
    """The largest resident set of a run, in kilobytes, and what it printed."""
    with subprocess.Popen([runs.program, *words], stdout=subprocess.PIPE, text=True, cwd=runs.room) as process:
        assert process.stdout
        printed = process.stdout.read()
        _, status, used = os.wait4(process.pid, 0)
        process.returncode = os.waitstatus_to_exitcode(status)
    return int(used.ru_maxrss), printed


def try_many_executions(runs: Runs) -> None:
    """What waits is bounded: 200,000 executions take little more memory than as many lines that execute nothing."""
    waiting, idle = runs.room / "waiting.txt", runs.room / "idle.txt"
    begun, once, ended = "target 4 4\n" + LIST, "i exec d0 0 1\n", "i pixel 0 0\n"
    waiting.write_text(begun + 200_000 * once + ended, encoding="ascii")
    idle.write_text(begun + 200_000 * "i flush\n" + ended, encoding="ascii")
    answers, _ = plain_device.evaluate((begun + once + ended).encode())
    for workers in ("0", "3", "15"):
        more, printed = peak(runs, [waiting, "image.tga", "--workers", workers])
        less, _ = peak(runs, [idle, "image.tga", "--workers", workers])
        complaint = None
        if printed != answers:
            complaint = f"printed {printed[:80]!r}, and not {answers!r}"
        elif more > less + MOST_WAITING:
            complaint = f"{more} KB, and {less} KB for lines that execute nothing"
        runs.say(f"the memory of 200,000 executions, {workers} workers", complaint)


def try_words(runs: Runs) -> None:
    """Words that are not taken: nothing is opened or written, and the first line of the text is that of the parser."""
    for words, wanted in WORDS.items():
        name = f"words: {words or 'none'}".encode("utf-8", "backslashreplace").decode()
        try:
            got = runs.ended([os.fsencode(it) for it in words.split()])
        except subprocess.TimeoutExpired as error:
            runs.say(name, str(error))
            continue
        first = (got.error or "").partition("\n")[0]
        runs.say(name, difference(Ended(WRONG_WORDS, "", wanted, None), dataclasses.replace(got, error=first)))


ATTEMPTS = (
    try_closed_descriptors,
    try_few_descriptors,
    try_few_threads,
    try_outputs,
    try_scripts,
    try_cuts,
    try_full_lists,
    try_long_scripts,
    try_many_executions,
    try_words,
)


def main() -> int:
    parser = argparse.ArgumentParser(description=__doc__, formatter_class=argparse.RawDescriptionHelpFormatter)
    parser.add_argument("--program", help="the built program, if it isn't found by itself")
    given = parser.parse_args()
    try:
        program = find_program(given.program)
    except ProgramMissing as error:
        sys.exit(f"hostile_runs.py: {error}")
    with tempfile.TemporaryDirectory(prefix="hostile-") as room:
        os.chmod(room, 0o777)
        runs = Runs(program, pathlib.Path(room))
        try:
            for attempt in ATTEMPTS:
                attempt(runs)
        except OSError as error:
            sys.exit(f"hostile_runs.py: {program} does not start: {error.strerror}")
    print(f"{runs.wrong} runs are wrong" if runs.wrong else "no run is wrong")
    return 1 if runs.wrong else 0


if __name__ == "__main__":
    sys.exit(ended(main))
