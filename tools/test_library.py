#!/usr/bin/env python3
"""Tests the C library, and over it the Python package and the page.

    tools/test_library.py [--scenes N] [--frames N] [--prefix FOLDER]

It installs the library into a folder of its own (or takes the one in FOLDER), and then

- looks at what is installed: links, names and versions of the shared object, manual pages, the files for pkg-config and
  CMake, with which programs are built and run, and takes it away again;
- builds the example and the tests in library/tests by gcc and by clang, against the archive and against the shared
  object, and runs them, under valgrind and the address sanitizer too, and a static program by musl;
- draws all scripts of the gallery, worked rows and refused calls through C, and holds answers and digests against
  crates/gallery/stdout;
- draws random scenes through C and holds each byte against the built program (10,000 scenes) or, where there is none,
  against plain_device.py (400);
- plays the same scripts, and random ones, by calls of yuzuratchet_device.h, and holds all against yuzuratchet_draw;
- tries these calls at their edges, under the thread sanitizer too, with objects that were destroyed where the library
  looks for that, and over many frames on one device, which must not hold more memory from one to the next;
- refuses each request for memory in turn in drawings of the gallery's shorter scripts;
- prints what a call costs, beside a process;
- runs test_library.py and test_calls.py of python/tests over the installed library, and tools/test_page.py.

A line is printed for each: `ok NAME`, `FAILED NAME: why`, `skipped NAME: why`, or `fails as known NAME (why): ..` where
it is in the list KNOWN of this file. The last line counts them. The status is 0 where none failed and one passed.
"""

from __future__ import annotations

import argparse
import hashlib
import os
import random
import re
import resource
import shutil
import signal
import subprocess
import sys
import tempfile
from collections.abc import Callable, Iterable, Iterator, Sequence
from pathlib import Path
from typing import Any

import install_library
import package_path
import plain_device
import random_scenes
import toolchain
from results import Results, check, told
from yuzuratchet import __version__
from yuzuratchet.arguments import whole_number
from yuzuratchet.ending import ended
from yuzuratchet.errors import ProgramMissing
from yuzuratchet.library import STATUSES, VARIABLE
from yuzuratchet.messages import FAULTS, REFUSALS
from yuzuratchet.program import find_program

TESTS = install_library.LIBRARY / "tests"
DATA = package_path.TOP / "crates" / "gallery" / "data"
INDEX = DATA / "index"
STORED = package_path.TOP / "crates" / "gallery" / "stdout"
FLAGS = ("-std=c11", "-D_POSIX_C_SOURCE=200809L", "-O1", "-g", "-pthread", "-Wall", "-Wextra", "-Werror")
SANITIZED = ("-fsanitize=address,undefined", "-fno-sanitize-recover=all")
VALGRIND = ("valgrind", "--quiet", "--error-exitcode=9", "--leak-check=full", "--errors-for-leak-kinds=all")
SECONDS = 1200
# each request for memory is refused in turn in scripts of so many bytes and pixels at most, and in these; others ask
# too often
SHORT, SMALL = 2000, 128 * 128
REFUSED_IN = ("decals.txt", "two-faced-count.txt", "eight-contexts.txt")
# that is done with each compiler in one script, and under valgrind in some
FIRST = "lists.txt"
SLOWLY = ("clear.txt", "lists.txt", "default-state.txt")
# kilobytes of the stack of a thread on which a call has to do, and of one on which it is seen how much it takes
# kilobytes: the most that a call may take, as the header says, and a small and a large thread
TAKEN, STACK, WIDE_STACK = 64, 96, 1024
ON_A_SMALL_STACK = ("clear.txt", "lists.txt", "eight-contexts.txt", "shadow-volumes.txt")
# what fails today. A name leaves this list with the change that mends it
KNOWN: dict[str, str] = {}
SCENES_BY_PROGRAM, SCENES_BY_PLAIN_DEVICE = 10000, 400
# frames on one device, so many where each takes long, and by how many kilobytes the process may grow behind the first
# tenth of them
FRAMES, SLOW_FRAMES, GROWTH = 100000, 100, 256
# what library/tests/freed.c does with objects that are none: the call and the kind that are told
FREED = (
    ("device_execute", "list"),
    ("device_destroy", "device"),
    ("device_flush", "device"),
    ("context_draw", "context"),
)
# what the example of each manual page prints
MANUALS = dict(zip(install_library.MANUALS, ("pixel 1 1 255 128 0 255 16777215 0\n", "YZ_TOPOLOGY_UNSET\n255 128 0\n")))
PROJECT = """cmake_minimum_required(VERSION 3.13)
project(uses LANGUAGES C)
find_package(Yuzuratchet {wanted} REQUIRED)
add_executable(shared "{source}")
target_link_libraries(shared Yuzuratchet::Yuzuratchet)
add_executable(static "{source}")
target_link_libraries(static Yuzuratchet::Static)
"""


def output(words: Iterable[object], text: bytes = b"", **environment: str) -> bytes:
    """What a program prints, which ends with status 0."""
    command, more = [str(word) for word in words], {**os.environ, **environment}
    ran = subprocess.run(command, input=text, capture_output=True, timeout=SECONDS, env=more, check=False)
    how = f"with status {ran.returncode}" if ran.returncode >= 0 else f"by signal {-ran.returncode}"
    last = (ran.stderr or ran.stdout).decode(errors="replace").splitlines()[-3:]
    check(ran.returncode == 0, f"`{Path(command[0]).name}` ended {how}: {' | '.join(last)}")
    return ran.stdout


def prototypes_of(header: str) -> dict[str, str]:
    """The calls that a header declares, by their names."""
    found = re.findall(r"^(?:YZ_MUST_USE )?([a-z][\w ]* \*?)(\w+)\(([^)]*)\);", header, re.M)
    return {name: "".join(f"{kind}{name}({taken})".split()) for kind, name, taken in found}


def synopsis_of(manual: str) -> dict[str, str]:
    """The calls in a manual page's synopsis, by their names."""
    text = re.sub(r"\n\.F[ac]", "", manual.split(".Sh SYNOPSIS\n")[1].split(".Sh ")[0]).replace(".Fo ", ".Fn ")
    found = {}
    for kind, name, rest in re.findall(r"^\.Ft (.*)\n\.Fn (\w+)(.*)$", text, re.M):
        taken = ",".join(re.findall(r'"([^"]*)"', rest)) or rest
        found[name] = "".join(f"{kind}{name}({taken})".split())
    return found


class LibraryTests:
    """The tests of one installed library."""

    def __init__(self, prefix: Path, folder: Path) -> None:
        self.prefix, self.folder = prefix, folder
        self.archive, self.shared = prefix / "lib" / "libyuzuratchet.a", prefix / "lib" / install_library.SHARED
        self.headers = [prefix / "include" / name for name in install_library.HEADERS]

    # ---- what is installed

    def layout(self) -> str:
        """The shared object has the version's name, and links lead to it; all of it can be taken away again."""
        links = {name: os.readlink(self.prefix / "lib" / name) for name in install_library.LINKS}
        check(
            links == install_library.LINKS and self.shared.is_file() and not self.shared.is_symlink(),
            f"the links are {links}",
        )
        copy = self.folder / "copy"
        shutil.copytree(self.prefix, copy, symlinks=True)
        (copy / "lib" / "another").write_text("a file of somebody else's")
        count = install_library.uninstall(copy)
        left = [str(it.relative_to(copy)) for it in copy.rglob("*")]
        check(sorted(left) == ["lib", "lib/another"], f"{left} is left behind")
        return f"{count} files"

    def names(self) -> str:
        """Headers, manual and map name the same calls, of which each has its version and no other name is seen."""
        calls = sorted(install_library.calls())
        declared = [prototypes_of(it.read_text(encoding="ascii")) for it in self.headers]
        check(sorted([*declared[0], *declared[1]]) == calls, f"the headers declare {declared}, and the map has {calls}")
        for manual, wanted in zip(install_library.MANUALS, declared):
            found = synopsis_of(manual.read_text(encoding="ascii"))
            other = [it for it in {**found, **wanted} if found.get(it) != wanted.get(it)]
            check(not other, f"{manual.name} has other prototypes than the header: {other}")
            check(sorted(found) == install_library.calls_of(manual), f"{manual.name} describes {sorted(found)}")
        numbers = [self.lacking(*both) for both in zip(self.headers, install_library.MANUALS)]
        seen = [line.split() for line in output(["nm", "-g", "--defined-only", self.archive]).decode().splitlines()]
        check(sorted(it[2] for it in seen if len(it) == 3) == calls, f"the archive has the names {seen}")
        return f"{len(calls)} calls, {numbers[0]} statuses, {numbers[1]} results"

    def lacking(self, header: Path, manual: Path) -> int:
        """How many answers of a header's calls stand in its manual page, which are all of them."""
        text, page = header.read_text(encoding="ascii"), manual.read_text(encoding="ascii")
        inside = re.findall(r"^enum (?:yz_results|yuzuratchet_status) {\n(.*?)^}", text, re.M | re.S)
        answers = re.findall(r"^    ([A-Z]\w+) = (\d+),?$", inside[0], re.M)
        missing = [name for name, number in answers if f"Dv {name} Pq {number}" not in page]
        check(answers and not missing, f"{manual.name} lacks {missing}")
        return len(answers)

    def versions(self) -> None:
        """Symbols of the shared object have versions, and the loader is told of the processor that is wanted."""
        exported = output(["nm", "-D", "--defined-only", "--with-symbol-versions", self.shared]).decode()
        found = dict(re.findall(r" T (\w+)@@(\w+\.\d+)$", exported, re.M))
        check(sorted(found) == sorted(install_library.calls()), f"versions have {sorted(found)}")
        told_of = output(["readelf", "-d", "-n", self.shared]).decode()
        check(f"[{install_library.SONAME}]" in told_of and "x86-64-v2" in told_of, "soname or processor isn't told")

    def manual(self, manual: Path, prints: str) -> str:
        """A page has no fault that mandoc knows of, and its example is a program."""
        if shutil.which("mandoc"):
            found = subprocess.run(["mandoc", "-T", "lint", manual], capture_output=True, text=True, check=False).stdout
            # (mandoc knows what is installed, and a page names the other)
            others = ("mandoc.db", *(f"not found: Xr {it.stem} 3" for it in install_library.MANUALS))
            faults = [line for line in found.splitlines() if not any(it in line for it in others)]
            check(not faults, " | ".join(faults))
        page = manual.read_text(encoding="ascii")
        example = re.findall(r"\.Sh EXAMPLES\n\.Bd -literal\n(.*?)\.Ed\n", page, re.S)[0]
        source = self.folder / "manual.c"
        source.write_text(example.replace(r"\e", "\\"), encoding="ascii")
        printed = output([self.built("cc", "manual", source)]).decode()
        check(printed == prints, f"the example prints {printed!r}")
        return "" if shutil.which("mandoc") else "the command mandoc is missing, so its faults weren't looked for"

    def package_config(self, compiler: str) -> None:
        """The line of the README."""
        environment = {**os.environ, "PKG_CONFIG_PATH": str(self.prefix / "lib" / "pkgconfig")}
        flags = subprocess.run(
            ["pkg-config", "--cflags", "--libs", "yuzuratchet"],
            env=environment,
            capture_output=True,
            text=True,
            check=True,
        ).stdout.split()
        toolchain.run([compiler, install_library.LIBRARY / "example.c", *flags, "-o", self.folder / "configured"])
        self.draws_first(self.folder / "configured", LD_LIBRARY_PATH=str(self.prefix / "lib"))

    def cmake(self) -> None:
        """A project of ten lines finds the package, and builds with both libraries, unless it wants a later version."""
        for wanted in ("", "0.1", __version__):
            self.configured(wanted)
            output(["cmake", "--build", self.folder / "cmake"])
            for name in ("shared", "static"):
                self.draws_first(self.folder / "cmake" / name)
        for wanted in ("0.99", "1.0"):
            try:
                self.configured(wanted)
            except AssertionError:
                continue
            raise AssertionError(f"version {wanted} is found")

    def configured(self, wanted: str) -> None:
        project = self.folder / "project"
        shutil.rmtree(self.folder / "cmake", ignore_errors=True)
        project.mkdir(exist_ok=True)
        text = PROJECT.format(wanted=wanted, source=install_library.LIBRARY / "example.c")
        (project / "CMakeLists.txt").write_text(text, encoding="utf-8")
        output(["cmake", "-S", project, "-B", self.folder / "cmake", f"-DCMAKE_PREFIX_PATH={self.prefix}"])

    # ---- building

    def built(self, compiler: str, name: str, source: Path, *flags: str, static: bool = True) -> Path:
        """A program over the library, by its name."""
        out = self.folder / name
        library: list[object] = (
            [self.archive] if static else [f"-L{self.prefix}/lib", "-lyuzuratchet", f"-Wl,-rpath,{self.prefix}/lib"]
        )
        toolchain.run([compiler, *FLAGS, *flags, f"-I{self.prefix}/include", source, *library, "-lm", "-o", out])
        return out

    def build_all(self, compiler: str) -> None:
        examples = [install_library.LIBRARY / name for name in ("example.c", "cube.c", "recorders.c")]
        for source in [*examples, *sorted(TESTS.glob("*.c"))]:
            self.built(compiler, f"{compiler}-{source.stem}", source)
            self.built(compiler, f"{compiler}-{source.stem}-shared", source, static=False)
            self.built(compiler, f"{compiler}-{source.stem}-sanitized", source, *SANITIZED)

    def header_in_cpp(self, compiler: str) -> None:
        for standard in ("c++11", "c++17"):
            flags = [f"-std={standard}", "-Wall", "-Wextra", "-Werror", "-fsyntax-only"]
            toolchain.run([compiler, "-x", "c++", *flags, *self.headers])

    # ---- running

    def ends_well(self, name: str) -> None:
        output([self.folder / name])

    def refusals(self, compiler: str, kind: str = "", before: Sequence[str] = ()) -> None:
        printed = output([*before, self.folder / f"{compiler}-refusals{kind}"]).decode()
        check(
            printed == f"version {version_number()}\n",
            f"the library says {printed.strip()}, and the package is {__version__}",
        )

    def texts(self, compiler: str) -> str:
        """Texts are those of the package; each status has its own."""
        lines = output([self.folder / f"{compiler}-texts"]).decode().splitlines()
        check(
            lines.pop() == f"header {version_number()} library {version_number()}",
            "header, library and package have other versions",
        )
        found = {tuple(it[:2]): it[2] for it in (line.split(" ", 2) for line in lines)}
        messages = {**FAULTS, **REFUSALS}
        for (kind, number), text in found.items():
            message = messages.get(int(number))
            if kind == "status":
                check(text == STATUSES.get(int(number), "no call ends with this status"), f"status {number}: {text}")
            elif message is None:
                check(
                    text in ("no line is refused with this number", "look into docs/SCRIPT.md"),
                    f"{kind} {number}: {text}",
                )
            else:
                check(text == (message.when if kind == "refusal" else message.advice), f"{kind} {number}: {text}")
        return f"{len(messages)} refusals, {len(STATUSES)} statuses"

    def small_stack(self, compiler: str) -> str:
        """A call does on the stack of a small thread; how much it takes is seen on a large one."""
        most = 0
        for name in ON_A_SMALL_STACK:
            text = (DATA / name).read_bytes()
            most = max(most, int(output([self.folder / f"{compiler}-stack", str(WIDE_STACK)], text)))
            check(most <= 1024 * TAKEN, f"{name} takes {most} bytes of stack, and {TAKEN} KB are the most")
            output([self.folder / f"{compiler}-stack", str(STACK)], text)
        return f"{most} bytes at most"

    def draws_first(self, program: Path, before: Sequence[str] = (), **environment: str) -> None:
        """What the example draws, against the plain evaluation."""
        image = self.folder / "example.tga"
        lines = output([*before, program, DATA / FIRST, image], b"", **environment)
        check(
            (lines.decode(), image.read_bytes()) == plain_device.evaluate((DATA / FIRST).read_bytes()),
            f"{FIRST} has other answers or another image",
        )

    def example(self, compiler: str, before: Sequence[str] = ()) -> None:
        """The example draws, and says why it doesn't."""
        program = self.folder / f"{compiler}-example"
        self.draws_first(program, before)
        script = self.folder / "refused.txt"
        script.write_text("target 1 1\ni draw 3 0\n", encoding="ascii")
        ran = subprocess.run(
            [*before, program, script, self.folder / "refused.tga"], capture_output=True, text=True, check=False
        )
        check(
            (ran.returncode, ran.stdout) == (1, "refused 2 7\n") and f"line 2: {REFUSALS[7].when}\n" in ran.stderr,
            f"{ran}",
        )

    def musl(self) -> str:
        """A static program over musl, whose threads have small stacks."""
        program = self.folder / "musl-example"
        toolchain.run(
            [
                "musl-gcc",
                "-static",
                "-O1",
                f"-I{self.prefix}/include",
                install_library.LIBRARY / "example.c",
                self.archive,
                "-o",
                program,
            ]
        )
        self.draws_first(program)
        return f"{program.stat().st_size} bytes"

    def memory(self, compiler: str, names: Sequence[str], kind: str = "", before: Sequence[str] = ()) -> str:
        requests = 0
        for name in told(names, len(names), "scripts"):
            requests += int(
                output([*before, self.folder / f"{compiler}-memory{kind}"], (DATA / name).read_bytes()).split()[0]
            )
        return f"{requests} requests in {len(names)} script{'s' if len(names) > 1 else ''}"

    # ---- drawing

    def drawn(self, compiler: str, scripts: Iterable[bytes]) -> Iterator[tuple[str, bytes]]:
        """Answers and image of each script, through C, one behind the other."""
        with subprocess.Popen(
            [self.folder / f"{compiler}-batch"], stdin=subprocess.PIPE, stdout=subprocess.PIPE
        ) as batch:
            assert batch.stdin and batch.stdout  # (both are pipes)
            try:
                for script in scripts:
                    batch.stdin.write(b"%d\n" % len(script) + script)
                    batch.stdin.flush()
                    head = batch.stdout.readline().split()
                    check(head, "the library ended, or its process did")
                    yield batch.stdout.read(int(head[1])).decode(), batch.stdout.read(int(head[2]))
            finally:
                batch.stdin.close()
                batch.wait()

    def gallery(self, compiler: str) -> str:
        names = INDEX.read_text(encoding="ascii").splitlines()
        found = []
        for name, (answers, image) in zip(names, self.drawn(compiler, ((DATA / name).read_bytes() for name in names))):
            found.append(f"{name}\n{answers}image {hashlib.sha256(image).hexdigest()}\n")
        check(
            "".join(found) == STORED.read_text(encoding="ascii"), "answers or digests differ from crates/gallery/stdout"
        )
        return f"{len(names)} scripts"

    # ---- calls by objects

    def by_calls(self, compiler: str, kind: str = "", before: Sequence[str] = ()) -> str:
        """What a script says and draws is the same by calls, whether it is refused or not."""
        scripts = [DATA / name for name in INDEX.read_text(encoding="ascii").splitlines()]
        if before or kind:
            scripts = [it for it in scripts if is_short(str(it.relative_to(DATA)))]
        return output([*before, self.folder / f"{compiler}-by_calls{kind}", *scripts]).decode().strip()

    def random_scenes_by_calls(self, compiler: str, scenes: int) -> str:
        """Random scenes, of which the first line that is refused ends some."""
        chance, room, count = random.Random(60), self.folder / "scenes", 0
        room.mkdir(exist_ok=True)
        for first in told(range(0, scenes, 100), -(-scenes // 100), "hundred scenes"):
            paths = [room / f"{number}.txt" for number in range(first, min(first + 100, scenes))]
            for number, path in enumerate(paths):
                path.write_text(random_scenes.random_scene(chance, first + number).script(), encoding="ascii")
            last = output([self.folder / f"{compiler}-by_calls", *paths]).decode()
            check(last == f"{len(paths)} the same, 0 differ, 0 with a fault\n", f"scenes from {first} on: {last}")
            count += len(paths)
        return f"{count} scenes"

    def calls_on_threads(self, compiler: str) -> None:
        """Eight contexts record side by side."""
        program = self.built(compiler, "edges-thread", TESTS / "device_edges.c", "-fsanitize=thread")
        output([program], TSAN_OPTIONS="halt_on_error=1")
        source = install_library.LIBRARY / "recorders.c"
        self.built(compiler, f"{compiler}-recorders-thread", source, "-fsanitize=thread")
        self.recorders(compiler, "-thread")

    def cube(self, compiler: str, before: Sequence[str] = ()) -> str:
        """The cube turns, each frame as it is when it is drawn alone."""
        image = self.folder / "cube.tga"
        lines = output([*before, self.folder / f"{compiler}-cube", image, "60"]).decode().splitlines()
        sizes = {int(it.removesuffix(" pixels")) for it in lines}
        check(len(lines) == 60 and min(sizes) > 20000 and max(sizes) < 40000, f"the frames show {sizes}")
        pixels = image.read_bytes()[18:]
        colours = zip(pixels[::4], pixels[1::4], pixels[2::4], pixels[3::4])
        drawn = sum(colour != (40, 28, 24, 255) for colour in colours)
        check(len(pixels) == 4 * 256 * 256 and f"{drawn} pixels" == lines[-1], f"{drawn} pixels of the image are drawn")
        return f"{min(sizes)} to {max(sizes)} pixels"

    def recorders(self, compiler: str, kind: str = "", before: Sequence[str] = ()) -> None:
        """Eight threads record squares, of which each is seen beside the one before it."""
        printed = output(
            [*before, self.folder / f"{compiler}-recorders{kind}"], TSAN_OPTIONS="halt_on_error=1"
        ).decode()
        wanted = ["refused with 7", "4096 pixels", *7 * ["1792 pixels"]]
        check(printed.splitlines() == wanted, f"it prints {printed!r}")

    def frames(self, compiler: str, count: int, kind: str = "", before: Sequence[str] = ()) -> str:
        """A device that stays draws frame after frame, and takes no more memory for it."""
        each, grown = output([*before, self.folder / f"{compiler}-frames{kind}", str(count)]).decode().split()
        if before or kind:
            return f"{count} frames"
        check(int(grown) < GROWTH, f"the process grew by {grown} KB over {count} frames")
        return f"{each} microseconds of processor time a frame, {grown} KB more after {count} frames"

    def freed(self, compiler: str, builds: install_library.Builds | None = None) -> str:
        """A library that looks for it finds objects that were destroyed or are of another kind."""
        to = install_library.install(self.folder / "checked", builds=builds, flags=[install_library.CHECKED])
        checked = LibraryTests(to, self.folder)
        program = checked.built(compiler, "freed-checked", TESTS / "freed.c")
        for number, (call, kind) in enumerate(FREED):
            ran = subprocess.run([program, str(number)], capture_output=True, text=True, timeout=SECONDS, check=False)
            wanted = f"yuzuratchet: yz_{call}: this is no {kind}, or it was destroyed\n"
            check((ran.returncode, ran.stderr) == (-signal.SIGABRT, wanted), f"freed {number}: {ran}")
        output([program, str(len(FREED))])
        output([checked.built(compiler, "edges-checked", TESTS / "device_edges.c")])
        return f"{len(FREED)} calls"

    # ---- random scenes, and costs

    def random_scenes(self, compiler: str, program: Path | None, scenes: int) -> str:
        chance, refused = random.Random(39), 0
        texts = (random_scenes.random_scene(chance, number).script().encode() for number in range(scenes))
        script, image = self.folder / "scene.txt", self.folder / "scene.tga"

        def kept() -> Iterator[bytes]:
            for text in told(texts, scenes, "scenes"):
                script.write_bytes(text)
                yield text

        for number, (answers, pixels) in enumerate(self.drawn(compiler, kept())):
            if program is None:
                wanted = plain_device.evaluate(script.read_bytes())
            else:
                image.unlink(missing_ok=True)
                ran = subprocess.run([program, script, image], capture_output=True, timeout=SECONDS, check=False)
                wanted = ran.stdout.decode(), image.read_bytes()
            if (answers, pixels) != wanted:
                shutil.copy(script, "differs.txt")
                raise AssertionError(f"scene {number} differs: it is in differs.txt")
            refused += "refused" in answers
        against = "plain_device.py" if program is None else "the program"
        return f"{scenes} scenes against {against}, of which {refused} end in a refusal"

    def costs(self, compiler: str, program: Path | None) -> str:
        library = float(output([self.folder / f"{compiler}-calls"]))
        if program is None:
            return f"{library:.0f} microseconds of processor time a call"
        script, image = self.folder / "small.txt", self.folder / "small.tga"
        script.write_text("target 64 64\ni clearc 1 2 3 4\n", encoding="ascii")
        begun, count = children_seconds(), 200
        for _ in range(count):
            subprocess.run([program, script, image], stdout=subprocess.DEVNULL, check=True)
        process = (children_seconds() - begun) / count * 1e6
        return f"{library:.0f} microseconds of processor time a call, {process:.0f} a process"


def version_number() -> int:
    """The package's version as the library spells it."""
    first, second, third = map(int, __version__.split("."))
    return 10000 * first + 100 * second + third


def is_short(name: str) -> bool:
    """Whether a script asks for memory so seldom that each request can be refused."""
    text = (DATA / name).read_text(encoding="ascii")
    sides = [int(word) for word in text.split("\n", 1)[0].split()[1:]]
    return len(text) <= SHORT and len(sides) == 2 and sides[0] * sides[1] <= SMALL


def children_seconds() -> float:
    """The processor time of all processes that ended."""
    used = resource.getrusage(resource.RUSAGE_CHILDREN)
    return used.ru_utime + used.ru_stime


def program_or_none() -> Path | None:
    try:
        return find_program()
    except ProgramMissing:
        return None


def test_if(results: Results, command: str, name: str, test: Callable[..., object], *arguments: Any) -> None:
    """Runs a test that wants a command, or skips it."""
    if shutil.which(command):
        results.test(name, test, *arguments)
    else:
        results.skip(name, f"the command {command} is missing")


def test_installed(results: Results, tests: LibraryTests, compiler: str) -> None:
    """What is installed, and how it is found."""
    results.test("layout", tests.layout)
    results.test("names", tests.names)
    results.test("symbol versions", tests.versions)
    for manual, prints in MANUALS.items():
        results.test(f"manual {manual.stem}", tests.manual, manual, prints)
    test_if(results, "pkg-config", "pkg-config", tests.package_config, compiler)
    test_if(results, "cmake", "CMake", tests.cmake)
    for name in ("g++", "clang++"):
        test_if(results, name, f"{name} reads the header", tests.header_in_cpp, name)


def test_compiler(results: Results, tests: LibraryTests, compiler: str) -> bool:
    """All that is tried with one compiler."""
    if not results.test(f"{compiler} builds example and tests, with -Wall -Wextra -Werror", tests.build_all, compiler):
        return False
    for kind in ("", "-shared", "-sanitized"):
        results.test(f"{compiler} refusals{kind}", tests.refusals, compiler, kind)
        results.test(f"{compiler} bounds{kind}", tests.ends_well, f"{compiler}-bounds{kind}")
        results.test(f"{compiler} history{kind}", tests.ends_well, f"{compiler}-history{kind}")
        results.test(f"{compiler} threads{kind}", tests.ends_well, f"{compiler}-threads{kind}")
        results.test(f"{compiler} memory{kind}", tests.memory, compiler, [FIRST], kind)
        results.test(f"{compiler} edges of calls{kind}", tests.ends_well, f"{compiler}-device_edges{kind}")
    results.test(f"{compiler} example", tests.example, compiler)
    results.test(f"{compiler} cube", tests.cube, compiler)
    results.test(f"{compiler} recorders", tests.recorders, compiler)
    results.test(f"{compiler} scripts by calls, sanitized", tests.by_calls, compiler, "-sanitized")
    results.test(f"{compiler} numbers of 128 bits", tests.ends_well, f"{compiler}-wide-sanitized")
    return True


def test_drawing(results: Results, tests: LibraryTests, compiler: str, scenes: int | None) -> None:
    """What takes longer, or is the same with each compiler."""
    program = program_or_none()
    if scenes is None:
        scenes = SCENES_BY_PROGRAM if program else SCENES_BY_PLAIN_DEVICE
    results.test("texts", tests.texts, compiler)
    results.test("misaligned reports", tests.ends_well, f"{compiler}-misaligned")
    results.test("small stack", tests.small_stack, compiler)
    test_if(results, "musl-gcc", "musl", tests.musl)
    results.test("gallery", tests.gallery, compiler)
    results.test(
        "memory",
        tests.memory,
        compiler,
        [*filter(is_short, INDEX.read_text(encoding="ascii").splitlines()), *REFUSED_IN],
    )
    test_if(results, "valgrind", "refusals under valgrind", tests.refusals, compiler, "", VALGRIND)
    test_if(
        results, "valgrind", "example under valgrind", tests.draws_first, tests.folder / f"{compiler}-example", VALGRIND
    )
    test_if(results, "valgrind", "memory under valgrind", tests.memory, compiler, SLOWLY, "", VALGRIND)
    results.test("random scenes", tests.random_scenes, compiler, program, scenes)
    results.test("costs", tests.costs, compiler, program)
    if program is None:
        results.skip("the program's bytes and its cost", "crates/tiledraw isn't built, so plain_device.py stood in")


def test_calls(results: Results, tests: LibraryTests, compiler: str, scenes: int | None, frames: int) -> None:
    """The calls by objects, as far as it is the same with each compiler."""
    results.test("scripts by calls", tests.by_calls, compiler)
    results.test("random scenes by calls", tests.random_scenes_by_calls, compiler, scenes or SCENES_BY_PROGRAM)
    results.test("calls on threads", tests.calls_on_threads, compiler)
    results.test("frames", tests.frames, compiler, frames)
    results.test("frames, sanitized", tests.frames, compiler, SLOW_FRAMES, "-sanitized")
    if toolchain.is_there():
        results.test("destroyed objects", tests.freed, compiler)
    else:
        results.skip("destroyed objects", "the command rt is missing, which builds the library that looks for them")
    test_if(results, "valgrind", "recorders under valgrind", tests.recorders, compiler, "", VALGRIND)
    edges = tests.folder / f"{compiler}-device_edges"
    test_if(results, "valgrind", "frames under valgrind", tests.frames, compiler, SLOW_FRAMES, "", VALGRIND)
    test_if(results, "valgrind", "edges of calls under valgrind", output, [*VALGRIND, edges])
    test_if(results, "valgrind", "scripts by calls under valgrind", tests.by_calls, compiler, "", VALGRIND)


def test_above(results: Results, shared: Path) -> None:
    """The Python package over the library, and the page: each has tests of its own, whose last line is repeated."""
    tests = package_path.TOP / "python" / "run-tests.sh"
    package: list[object] = ["sh", tests, "-q", "-k", "test_library or test_calls"]
    page: list[object] = [sys.executable, package_path.TOP / "tools" / "test_page.py"]
    results.test("the package over the library", above, package, {VARIABLE: str(shared)})
    results.test("the page", above, page, {})


def above(words: Iterable[object], more: dict[str, str]) -> str:
    """Runs tests that tell of themselves, and gives their last line."""
    last = ""
    with subprocess.Popen(
        [str(word) for word in words], env={**os.environ, **more}, stdout=subprocess.PIPE, text=True
    ) as ran:
        assert ran.stdout  # (it is a pipe)
        for line in ran.stdout:
            print(line, end="", flush=True)
            last = line.strip(" =\n") or last
    check(ran.returncode == 0, last)
    return last


def test_all(results: Results, prefix: Path, folder: Path, words: argparse.Namespace) -> None:
    if not (prefix / "lib" / "libyuzuratchet.a").exists() and not results.test(
        "install", install_library.install, prefix
    ):
        return
    tests = LibraryTests(prefix, folder)
    compilers = [name for name in ("gcc", "clang") if shutil.which(name)]
    for name in {"gcc", "clang"}.difference(compilers):
        results.skip(name, "the command is missing")
    if not compilers:
        return
    test_installed(results, tests, compilers[0])
    working = [name for name in compilers if test_compiler(results, tests, name)]
    if working:
        test_drawing(results, tests, working[0], words.scenes)
        test_calls(results, tests, working[0], words.scenes, words.frames)
    test_above(results, tests.shared)


def main() -> int:
    parser = argparse.ArgumentParser(description=__doc__, formatter_class=argparse.RawDescriptionHelpFormatter)
    many = f"how many random scenes ({SCENES_BY_PROGRAM}, or {SCENES_BY_PLAIN_DEVICE} where no program is built)"
    parser.add_argument("--scenes", metavar="N", type=whole_number(0), help=many)
    several = f"how many frames on one device ({FRAMES})"
    parser.add_argument("--frames", metavar="N", type=whole_number(1), default=FRAMES, help=several)
    parser.add_argument("--prefix", metavar="FOLDER", type=Path, help="where the library is installed, or is to be")
    words = parser.parse_args()
    results = Results(KNOWN, [toolchain.NotBuilt])
    with tempfile.TemporaryDirectory() as room:
        folder = Path(room)
        prefix = words.prefix.absolute() if words.prefix else folder / "prefix"
        test_all(results, prefix, folder, words)
    print(results.last_line)
    return results.status


if __name__ == "__main__":
    sys.exit(ended(main))
