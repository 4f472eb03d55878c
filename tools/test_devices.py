#!/usr/bin/env python3
"""Tests the adapters in devices/, and holds what other devices do by `yuzuratchet judge` against what is known.

    tools/test_devices.py [--build FOLDER] [--program FILE] [--jobs N] [--wine]

It builds the adapters without a warning into a folder of its own (or FOLDER), and then

- judges lavapipe (Vulkan) and llvmpipe (OpenGL) by the whole suite: what fails is what devices/known/ has for their
  version, no more and no less, but for what it has as failing sometimes;
- judges llvmpipe without threads by the scripts of queries, of which none fails there;
- plays a script of each rule under Vulkan's validation layers, which say nothing;
- plays them under the address sanitizer, but for what drivers leak (devices/leaks.supp);
- plants three bugs into copies of the Vulkan adapter, each of which is named by its rule, and by random scripts of at
  most ten lines;
- builds the adapter for Direct3D 11, and with --wine judges Wine by the whole suite, which takes some minutes.

What isn't installed is skipped by name; docs/DEVICES.md says how to get it. A line is printed for each test, and the
last line counts them. The status is 0 where none failed.
"""

from __future__ import annotations

import argparse
import os
import re
import shutil
import subprocess
import sys
import tempfile
from collections.abc import Callable, Iterator, Sequence
from dataclasses import dataclass
from functools import partial
from pathlib import Path

import package_path
from first_picture import python_with_pillow
from results import Results, check
from yuzuratchet import YuzuratchetError
from yuzuratchet.arguments import whole_number
from yuzuratchet.ending import ended
from yuzuratchet.program import find_program

DEVICES = package_path.TOP / "devices"
SUITE = package_path.TOP / "conformance"
DRIVERS = ("libvulkan_lvp.so", "dri/swrast_dri.so", "libEGL_mesa.so.0")
"""What is loaded before all else under the sanitizer, so that leaks keep their names."""

SANITIZED = "-fsanitize=address,undefined -fno-sanitize-recover=all"
SECONDS = 1500


@dataclass(frozen=True)
class Bug:
    """An edit of the Vulkan adapter, and the rule that names it."""

    name: str
    file: str
    old: str
    new: str
    rule: str


BUGS = (
    Bug(
        "comparison",
        "vulkan.cpp",
        "comparison(tests[2])",
        "comparison(tests[2] == 5 ? 7 : tests[2])",
        "depth-functions",
    ),
    Bug("front", "vulkan.cpp", "state.raster[1] != 0 ?", "state.raster[1] == 0 ?", "facing-and-culling"),
    Bug("half a pixel", "vulkan_device.h", "place{-4096, ", "place{-4095.5F, ", "rasterization-rules"),
)


class Missing(Exception):
    """What isn't installed."""


def run(words: Sequence[object], **environment: str) -> subprocess.CompletedProcess[str]:
    """Runs a command, whatever its status."""
    command, more = [str(word) for word in words], {**os.environ, **environment}
    return subprocess.run(command, capture_output=True, text=True, timeout=SECONDS, env=more, check=False)


def built(source: Path, build: Path, *options: str) -> None:
    """Builds adapters; a warning is an error."""
    for words in (
        ["cmake", "-S", source, "-B", build, "-DCMAKE_COMPILE_WARNING_AS_ERROR=ON", *options],
        ["cmake", "--build", build, "--parallel", "2"],
    ):
        ran = run(words)
        check(ran.returncode == 0, f"`{' '.join(map(str, words))}`: {(ran.stdout + ran.stderr)[-1500:]}")


def first_scripts() -> Iterator[Path]:
    """A script of each rule."""
    for folder in sorted(it for it in SUITE.iterdir() if it.is_dir()):
        yield sorted(folder.glob("*.txt"))[0]


class DeviceTests:
    """The tests, over adapters that are built into one folder."""

    def __init__(self, given: argparse.Namespace, room: Path) -> None:
        self.given, self.room = given, room
        self.build = given.build or room / "build"
        self.program = find_program(given.program)
        self.python = python_with_pillow()

    def build_all(self) -> str:
        built(DEVICES, self.build)
        found = [name for name in ("vulkan", "opengl") if (self.build / name).is_file()]
        check(found, "neither Vulkan's nor OpenGL's adapter is built: their libraries are missing")
        return ", ".join(found)

    def adapter(self, name: str) -> Path:
        """An adapter that plays on the driver that is to be judged, or why there is none."""
        path = self.build / name
        if not path.is_file():
            raise Missing(f"the adapter {name} isn't built")
        if self.python is None:
            raise Missing("no Python with numpy and Pillow")
        return path

    def version(self, name: str) -> str:
        """The version of Mesa that an adapter plays on, and how wide its registers are, by which depths differ."""
        script = next(first_scripts())
        told = run([self.adapter(name), script, self.room / "image.tga"]).stderr
        found = re.search(r"device: llvmpipe \(LLVM [0-9.]+, ([0-9]+) bits\).* Mesa ([0-9.]+)", told)
        if found is None:
            raise Missing(f"{name} plays on no llvmpipe (mesa-vulkan-drivers, libgl1-mesa-dri)")
        return f"{found[2]}-{found[1]}-bits"

    def judge(self, adapter: object, *words: object, **environment: str) -> subprocess.CompletedProcess[str]:
        """Judges by the command."""
        assert self.python is not None
        command = [self.python, "-B", "-m", "yuzuratchet", "judge", adapter]
        options = ["--program", self.program, "--jobs", self.given.jobs, "--list", 0]
        sources = str(package_path.TOP / "python" / "src")
        return run([*command, *words, *options], PYTHONPATH=sources, **environment)

    def judged(self, name: str) -> str:
        """The whole suite, held against the failures that are known."""
        version = self.version(name)
        known = DEVICES / "known" / f"{name}-mesa-{version}.txt"
        if not known.is_file():
            raise Missing(f"no failures of Mesa {version} are listed (devices/known/)")
        ran = self.judge(self.adapter(name), "--known", known)
        check(ran.returncode == 0, (ran.stdout + ran.stderr)[-2000:])
        return ran.stdout.splitlines()[-1]

    def without_threads(self) -> str:
        """Counts are right where llvmpipe has no threads: what fails sometimes is theirs."""
        self.version("opengl")
        ran = self.judge(self.adapter("opengl"), "--only", "queries/*", LP_NUM_THREADS="0")
        check(ran.returncode == 0, (ran.stdout + ran.stderr)[-2000:])
        return ran.stdout.splitlines()[-1]

    def validated(self) -> str:
        """Vulkan's validation layers say nothing."""
        layer = "VK_LAYER_KHRONOS_validation"
        found = Path("/usr/share/vulkan/explicit_layer.d/VkLayer_khronos_validation.json")
        if not found.is_file():
            raise Missing("vulkan-validationlayers")
        return self.quiet("vulkan", self.adapter("vulkan"), VK_INSTANCE_LAYERS=layer)

    def quiet(self, name: str, adapter: Path, **environment: str) -> str:
        """Plays a script of each rule, and nothing is said but the device's name and notes."""
        count = 0
        for script in first_scripts():
            words = [adapter, script, self.room / "image.tga", "--planes", self.room / "planes"]
            ran = run(words, **environment)
            said = [it for it in ran.stderr.splitlines() if not it.startswith(("device: ", "note: "))]
            said += [it for it in ran.stdout.splitlines() if not it.startswith(("query ", "pixel "))]
            check(ran.returncode == 0 and not said, f"{name}, {script.name}: {ran.returncode} {said[:6]}")
            count += 1
        return f"{count} scripts"

    def sanitized(self) -> str:
        """The address sanitizer finds nothing of the adapters' own."""
        build = self.room / "sanitized"
        built(DEVICES, build, "-DCMAKE_BUILD_TYPE=Debug", f"-DCMAKE_CXX_FLAGS={SANITIZED}")
        sanitizer = run(["g++", "-print-file-name=libasan.so"]).stdout.strip()
        folder = Path("/usr/lib/x86_64-linux-gnu")
        loaded = [sanitizer, *(str(folder / it) for it in DRIVERS if (folder / it).is_file())]
        leaks = f"suppressions={DEVICES / 'leaks.supp'}:print_suppressions=0"
        parts = []
        for name in ("vulkan", "opengl"):
            self.version(name)
            parts.append(self.quiet(name, build / name, LD_PRELOAD=" ".join(loaded), LSAN_OPTIONS=leaks))
        return ", ".join(parts)

    def planted(self, bug: Bug) -> str:
        """A bug is named by its rule, and random scripts show it in few lines."""
        self.version("vulkan")
        source = self.room / bug.name
        shutil.copytree(DEVICES, source)
        text = (source / bug.file).read_text(encoding="utf-8")
        check(text.count(bug.old) == 1, f"{bug.old!r} doesn't stand once in {bug.file}")
        (source / bug.file).write_text(text.replace(bug.old, bug.new), encoding="utf-8")
        built(source, source / "build")
        adapter = f"'{source / 'build' / 'vulkan'}'"
        told = self.judge(adapter, SUITE).stdout
        check(f"look at {bug.rule} first" in told, told[-1500:])
        out = source / "out"
        told = self.judge(adapter, "--random", 40, "--seed", 7, "--without", "slopes", "--out", out).stdout
        lengths = [it.read_text(encoding="ascii").count("\n") for it in out.glob("*.txt")]
        check(lengths and min(lengths) <= 10, told[-1500:])
        return f"{bug.rule}, {min(lengths)} lines"

    def windows(self) -> str:
        """The adapter for Direct3D 11 is built without a warning."""
        if shutil.which("x86_64-w64-mingw32-g++-win32") is None:
            raise Missing("g++-mingw-w64-x86-64-win32")
        built(DEVICES, self.room / "windows", f"-DCMAKE_TOOLCHAIN_FILE={DEVICES / 'mingw.cmake'}")
        return f"{(self.room / 'windows' / 'direct3d11.exe').stat().st_size} bytes"

    def wine(self) -> str:
        """Wine, judged by the whole suite."""
        if not self.given.wine:
            raise Missing("--wine wasn't asked for")
        if shutil.which("wine") is None or not os.environ.get("DISPLAY"):
            raise Missing("wine and a display (xvfb-run)")
        known = DEVICES / "known" / "direct3d11-wine-8.0.txt"
        adapter = f"wine '{self.room / 'windows' / 'direct3d11.exe'}'"
        ran = self.judge(adapter, "--known", known, "--seconds", 60)
        check(ran.returncode == 0, (ran.stdout + ran.stderr)[-2000:])
        return ran.stdout.splitlines()[-1]


def parsed() -> argparse.Namespace:
    parser = argparse.ArgumentParser(description=__doc__, formatter_class=argparse.RawDescriptionHelpFormatter)
    parser.add_argument("--build", metavar="FOLDER", type=Path, help="where adapters are built, and stay")
    parser.add_argument("--program", metavar="FILE", help="the built program, if it isn't this clone's")
    most = os.cpu_count() or 1
    parser.add_argument("--jobs", metavar="N", type=whole_number(1), default=most, help=f"scripts at once ({most})")
    parser.add_argument("--wine", action="store_true", help="judges Wine too")
    return parser.parse_args()


def run_all(tests: DeviceTests) -> Results:
    """Runs the tests; what is missing is skipped by name."""
    results = Results()
    if shutil.which("cmake") is None:
        results.skip("adapters", "cmake isn't installed")
        return results
    if not results.test("build", tests.build_all):
        return results
    every: dict[str, Callable[[], str]] = {
        "lavapipe": partial(tests.judged, "vulkan"),
        "llvmpipe's OpenGL": partial(tests.judged, "opengl"),
        "llvmpipe without threads": tests.without_threads,
        "validation layers": tests.validated,
        "address sanitizer": tests.sanitized,
        **{f"planted: {bug.name}": partial(tests.planted, bug) for bug in BUGS},
        "Direct3D 11": tests.windows,
        "Wine": tests.wine,
    }
    for name, run_it in every.items():
        try:
            results.test(name, run_it)
        except Missing as missing:
            results.skip(name, str(missing))
    return results


def main() -> int:
    given = parsed()
    with tempfile.TemporaryDirectory(prefix="yuzuratchet-devices-") as room:
        try:
            results = run_all(DeviceTests(given, Path(room)))
        except (YuzuratchetError, OSError) as error:
            sys.exit(f"test_devices.py: {error}")
    print(results.last_line)
    return 1 if results.failed else 0


if __name__ == "__main__":
    sys.exit(ended(main))
