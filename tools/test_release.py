#!/usr/bin/env python3
"""Tests the files of a release, each where nothing else is.

    tools/test_release.py [DIST] [--browser FILE] [--node FILE]

It takes what tools/make_release.py wrote into DIST (dist), with `rt` off the path and a home folder that is empty, and

- holds the sums, and looks over the list of what is linked in;
- installs the wheel into a fresh environment with no package index, draws the gallery by the program and by the library
  and holds it against crates/gallery/stdout, writes a page, runs the readme's example, and asks for the proof;
- does the same once more as on a processor without AVX2, by the environment and, some of it, by qemu;
- installs the source distribution, which says what it lacks;
- unpacks the archive for any Linux, draws, builds a project of ten lines by pkg-config and by CMake, and opens manuals;
- installs Debian's packages into a root of their own, draws there, and has lintian look over them;
- draws by the JavaScript package in node and in Chromium, in a worker too.

A line is printed for each, and the last one counts them. The status is 0 where none failed and one passed.
"""

from __future__ import annotations

import argparse
import functools
import hashlib
import http.server
import itertools
import json
import os
import re
import shutil
import subprocess
import sys
import tempfile
import threading
import time
from collections import Counter
from collections.abc import Iterable, Iterator, Mapping, Sequence
from contextlib import contextmanager
from pathlib import Path

import package_path
from browser import Browser, BrowserError, find_browser
from release import debian
from results import Results, check
from test_page import CUBE, RECORDERS, QuietHandler, node_words
from toolchain import NotBuilt, run
from yuzuratchet import __version__
from yuzuratchet.ending import ended

GALLERY = package_path.TOP / "crates" / "gallery"
EXAMPLE = package_path.TOP / "library" / "example.c"
README = package_path.TOP / "README.md"
PACKAGE_README = package_path.TOP / "web" / "package" / "README.md"
NAME = f"yuzuratchet-{__version__}"
# what each installed program draws; all of the gallery is drawn by one, which has the same bytes
FEW = ("fan.txt", "lists.txt", "shadow-volumes.txt", "faces.txt", "rows/counted-triangles.txt")
PROCESSOR = "YUZURATCHET_PROCESSOR"
OLDER = {PROCESSOR: "x86-64-v2"}
# of an image's file, what stands before its sides, and behind them
TGA_HEAD, TGA_DEPTH = bytes.fromhex("000002000000000000000000"), bytes.fromhex("2028")
# a processor without AVX2, and one without SSE4.2
WITHOUT_AVX2, WITHOUT_V2 = "Nehalem", "core2duo"
PYTHONS = (sys.executable, "/usr/bin/python3")
PROJECT = """cmake_minimum_required(VERSION 3.13)
project(uses LANGUAGES C)
find_package(Yuzuratchet REQUIRED)
foreach(kind Yuzuratchet Static)
    add_executable(${{kind}} "{source}")
    target_link_libraries(${{kind}} Yuzuratchet::${{kind}})
endforeach()
"""
BY_LIBRARY = """
import hashlib, pathlib, sys
from yuzuratchet.backends import draw
folder = pathlib.Path(sys.argv[1])
for name in (folder / "index").read_text().split():
    ran = draw((folder / name).read_bytes(), backend="library")
    print(f"{name}\\n{ran.answers}image {hashlib.sha256(ran.image).hexdigest()}")
"""
BY_PACKAGE = """
import { Plane, createDevice, draw } from "yuzuratchet";
import { DrawingWorker } from "yuzuratchet/worker";
import { createHash } from "node:crypto";
import { readFileSync } from "node:fs";
const [folder, ...names] = process.argv.slice(2);
const worker = new DrawingWorker();
for (const name of names) {
    const script = readFileSync(`${folder}/${name}`);
    const told = ({ answers, tga }) =>
        answers.map((it) => `${it}\\n`).join("") + `image ${createHash("sha256").update(tga).digest("hex")}`;
    const [alone, besides] = (await Promise.all([draw(script), worker.draw(script)])).map(told);
    if (alone !== besides) throw new Error(`${name}: the worker draws otherwise`);
    console.log(`${name}\\n${alone}`);
}
await worker.end();
const device = await createDevice(8, 4);
device.immediate.clearDepthStencil(0.5, 7);
const depth = device.read(Plane.DEPTH32, { right: 3 });
if (depth.length !== 12 || depth[0] !== 8388608) throw new Error(`by calls: ${depth}`);
device.dispose();
"""
IN_PAGE = """(async () => {
    const { draw } = await import("./package/index.js");
    const { DrawingWorker } = await import("./package/worker.js");
    const worker = new DrawingWorker();
    const told = [];
    for (const name of NAMES) {
        const script = new Uint8Array(await (await fetch(`./data/${name}`)).arrayBuffer());
        for (const { answers, tga } of [await draw(script), await worker.draw(script)]) {
            const sum = new Uint8Array(await crypto.subtle.digest("SHA-256", tga));
            const digest = Array.from(sum, (it) => it.toString(16).padStart(2, "0")).join("");
            told.push(`${name}\\n${answers.map((it) => `${it}\\n`).join("")}image ${digest}\\n`);
        }
    }
    await worker.end();
    return told;
})()"""


def told_of(text: str) -> dict[str, str]:
    """What a text in the form of crates/gallery/stdout says of each script: answers and digest."""
    blocks = re.findall(r"^(\S+)\n((?:(?:query|pixel|refused) .*\n)*image \w+\n)", text, re.M)
    return dict(blocks)


def expected() -> dict[str, str]:
    """What the plain evaluation gives for each script of the gallery."""
    return told_of((GALLERY / "stdout").read_text(encoding="ascii"))


def hold(found: Mapping[str, str], names: Iterable[str]) -> None:
    """Raises where scripts drew something else than they are to."""
    wanted = expected()
    wrong = [name for name in names if found.get(name) != wanted[name]]
    check(not wrong, f"{', '.join(wrong[:4])} ({len(wrong)} in all) draw something else")


def gallery_names() -> list[str]:
    return (GALLERY / "data" / "index").read_text(encoding="ascii").split()


class Place:
    """A folder where nothing is installed: what runs there finds no toolchain and an empty home folder."""

    def __init__(self, folder: Path) -> None:
        self.folder = folder
        home = folder / "home"
        home.mkdir(parents=True)
        path = [it for it in os.environ["PATH"].split(":") if not (Path(it) / "rt").exists()]
        kept = {key: it for key, it in os.environ.items() if not key.startswith(("YUZURATCHET", "PYTHON", "PIP"))}
        self.environment = {**kept, "PATH": ":".join(path), "HOME": str(home), "PYTHONDONTWRITEBYTECODE": "1"}

    def run(self, words: Sequence[object], status: int = 0, more: Mapping[str, str] | None = None) -> str:
        """What a command prints, which ends with a status, with more in its environment."""
        command = [str(it) for it in words]
        pipes = subprocess.PIPE, subprocess.STDOUT
        environment = {**self.environment, **(more or {})}
        ran = subprocess.run(
            command,
            cwd=self.folder,
            env=environment,
            stdin=subprocess.DEVNULL,
            stdout=pipes[0],
            stderr=pipes[1],
            check=False,
        )
        said = ran.stdout.decode(errors="replace")
        last = " | ".join(said.splitlines()[-4:])
        check(ran.returncode == status, f"`{Path(command[0]).name}` ended with status {ran.returncode}: {last}")
        return said

    def draw(self, program: Sequence[object], names: Iterable[str], more: Mapping[str, str] | None = None) -> None:
        """Draws scripts of the gallery by a program, and holds what came against what is stored."""
        found = {}
        for name in names:
            image = self.folder / "image.tga"
            image.unlink(missing_ok=True)
            wants = 1 if "refused" in expected()[name] else 0
            answers = self.run([*program, GALLERY / "data" / name, image], wants, more)
            found[name] = f"{answers}image {hashlib.sha256(image.read_bytes()).hexdigest()}\n"
        hold(found, found)


class ReleaseTests:
    """The tests of one release."""

    def __init__(self, dist: Path, room: Path) -> None:
        self.dist, self.room = dist, room
        self.wheel = next(dist.glob("*.whl"))
        self.places = 0

    def place(self) -> Place:
        """A new place."""
        self.places += 1
        return Place(self.room / str(self.places))

    # ---- the files

    def sums(self) -> str:
        """Each file has the sum that is told, and there is no other."""
        run(["sha256sum", "--check", "--strict", "--quiet", "SHA256SUMS"], cwd=self.dist)
        listed = {line.split()[1] for line in (self.dist / "SHA256SUMS").read_text(encoding="ascii").splitlines()}
        check(listed | {"SHA256SUMS"} == {it.name for it in self.dist.iterdir()}, "a file has no sum")
        sizes = [f"{it.name} {it.stat().st_size // 1000} KB" for it in sorted(self.dist.iterdir())]
        return ", ".join(sizes)

    def bill(self) -> str:
        """The list of what is linked in: each part is related to the package, and those of the proof are named."""
        told = json.loads((self.dist / f"{NAME}.spdx.json").read_text(encoding="utf-8"))
        ids = [it["SPDXID"] for it in told["packages"]]
        check(len(ids) == len(set(ids)), "two parts have one name")
        linked = {it["relatedSpdxElement"] for it in told["relationships"]}
        check(linked == set(ids), "a part isn't related to the package")
        wanted = {"core", "std", "clap", "rayon", "musl", "jemalloc", "libgcc"}
        missing = wanted - {it["name"] for it in told["packages"]}
        check(not missing, f"parts are missing: {sorted(missing)}")
        without = [it["name"] for it in told["packages"] if it["licenseDeclared"] == "NOASSERTION"]
        return f"{len(ids)} parts; without a licence of their own: {', '.join(without)}"

    # ---- the wheel

    def environment(self, place: Place, file: Path, *words: str) -> Path:
        """Installs a file into a fresh environment with no package index; gives the folder of its commands."""
        python = next((it for it in PYTHONS if not _fails([it, "-c", "import setuptools, numpy, PIL"])), None)
        check(python, "no Python here has numpy and Pillow (Debian: python3-numpy python3-pil python3-setuptools)")
        folder = place.folder / "environment"
        place.run([python, "-m", "venv", "--system-site-packages", folder])
        begun = time.monotonic()
        place.run([folder / "bin" / "python", "-m", "pip", "install", "--quiet", "--no-index", *words, file])
        self.seconds = time.monotonic() - begun
        return folder / "bin"

    def install_wheel(self) -> str:
        """From the wheel to the first picture."""
        self.of_wheel = self.place()
        self.bin = self.environment(self.of_wheel, self.wheel)
        begun = time.monotonic()
        script = GALLERY / "data" / "shadow-volumes.txt"
        self.of_wheel.run([self.bin / "yuzuratchet", "draw", script, "first.png"])
        drawn = time.monotonic() - begun
        check((self.of_wheel.folder / "first.png").read_bytes().startswith(b"\x89PNG"), "there is no picture")
        return f"{self.wheel.stat().st_size} bytes, installed in {self.seconds:.1f} s, a picture in {drawn:.1f} s more"

    def suite(self, more: Mapping[str, str] | None = None) -> str:
        """The gallery, as a suite, by the program of the wheel."""
        return self.of_wheel.run([self.bin / "yuzuratchet", "suite", GALLERY], 0, more).splitlines()[-1]

    def by_library(self, more: Mapping[str, str] | None = None) -> str:
        """The gallery, by the library of the wheel."""
        told = self.of_wheel.run([self.bin / "python", "-c", BY_LIBRARY, GALLERY / "data"], 0, more)
        hold(told_of(told), gallery_names())
        return f"{len(gallery_names())} scripts"

    def readme(self) -> None:
        """The example of the readme."""
        code = README.read_text(encoding="utf-8").split("```python\n")[1].split("```")[0]
        self.of_wheel.run([self.bin / "python", "-c", code])
        check((self.of_wheel.folder / "overlaps.png").is_file(), "there is no picture")

    def page(self) -> None:
        """`view` writes a page, with the device of the wheel in it."""
        self.of_wheel.run([self.bin / "yuzuratchet", "view", GALLERY / "data" / "fan.txt", "-o", "page.html"])
        check((self.of_wheel.folder / "page.html").stat().st_size > 100_000, "the page has no device")

    def proof(self) -> str:
        """The proof is that of the release, and program and library are its own."""
        text = (self.dist / "PROOF.txt").read_text(encoding="utf-8")
        is_proved = "NOT PROVED." not in text
        said = self.of_wheel.run([self.bin / "yuzuratchet", "proof"], 0 if is_proved else 1)
        check(said.startswith(text), "the proof is another")
        for name in ("tiledraw", "libyuzuratchet.so"):
            check(f"is {name}" in said, f"{name} isn't of this release: {said.splitlines()[-2:]}")
        return "proved" if is_proved else "not proved, as it says"

    def older_processor(self) -> str:
        """On a processor without AVX2, and on one that it isn't compiled for."""
        program = self.tarball_folder / "bin" / "tiledraw"
        self.of_wheel.draw(["qemu-x86_64", "-cpu", WITHOUT_AVX2, program], FEW)
        words = ["qemu-x86_64", "-cpu", WITHOUT_V2, program, GALLERY / "data" / "fan.txt", "x.tga"]
        said = self.of_wheel.run(words, 3)
        check("this processor lacks x86-64-v2" in said, said)
        return f"{len(FEW)} scripts on {WITHOUT_AVX2}"

    def source_distribution(self) -> None:
        """Without the device it says where there is one."""
        place = self.place()
        folder = self.environment(place, self.dist / f"{NAME}.tar.gz", "--no-build-isolation")
        said = place.run([folder / "yuzuratchet", "draw", GALLERY / "data" / "fan.txt", "x.png"], 2)
        check("A release has it inside" in said, said)

    # ---- the archive for any Linux

    def unpack_tarball(self) -> None:
        """Unpacks it, into a folder with a space, and draws."""
        self.of_tarball = self.place()
        folder = self.of_tarball.folder / "a folder"
        folder.mkdir()
        name = f"{NAME}-linux-x86_64"
        run(["tar", "xzf", self.dist / f"{name}.tar.gz", "-C", folder])
        self.tarball_folder = folder / name
        self.of_tarball.draw([self.tarball_folder / "bin" / "tiledraw"], FEW)
        linked = run(["readelf", "-d", self.tarball_folder / "bin" / "tiledraw"])
        check("NEEDED" not in linked, "the program wants a library")

    def memory(self) -> str:
        """In whatever memory it may have, the program draws a large target, refuses it, or says that it has none."""
        side, place = 2048, self.of_tarball
        script, image = place.folder / "large.txt", place.folder / "large.tga"
        script.write_text(f"target {side} {side}\ni clearc 1 2 3 4\n", encoding="ascii")
        drawn = TGA_HEAD + side.to_bytes(2, "little") * 2 + TGA_DEPTH + bytes((3, 2, 1, 4)) * (side * side)
        program, ends = self.tarball_folder / "bin" / "tiledraw", Counter[int]()
        for kilobytes, workers in itertools.product((*range(8_000, 64_000, 4_000), 200_000), (0, 3)):
            limited = ["sh", "-c", f'ulimit -v {kilobytes} && exec "$@"', "sh"]
            words = [*limited, *map(str, (program, script, image)), "--workers", str(workers)]
            ran = subprocess.run(words, cwd=place.folder, capture_output=True, check=False)
            is_so = {
                0: image.is_file() and image.read_bytes() == drawn,
                1: re.fullmatch(rb"refused [123] 1\n", ran.stdout),
                2: b"out of memory" in ran.stderr,
            }
            told = f"in {kilobytes} KB, status {ran.returncode}: {ran.stdout!r} {ran.stderr!r}"
            check(is_so.get(ran.returncode, False), told)
            ends[ran.returncode] += 1
        check(ends[0] and ends[1], f"statuses {dict(ends)}")
        return f"{ends[0]} runs drew, {ends[1]} were refused, {ends[2]} did not begin"

    def pkg_config(self) -> None:
        """A program in C, by pkg-config."""
        lib = self.tarball_folder / "lib"
        found = {"PKG_CONFIG_PATH": str(lib / "pkgconfig")}
        told = self.of_tarball.run(["pkg-config", "--cflags", "--libs", "yuzuratchet"], 0, found)
        self.of_tarball.run(["sh", "-c", f"cc '{EXAMPLE}' {told.strip()} -o example"])
        loaded = {"LD_LIBRARY_PATH": str(lib)}
        for more in (loaded, {**loaded, **OLDER}):
            self.of_tarball.draw([self.of_tarball.folder / "example"], FEW[:2], more)

    def cmake(self) -> None:
        """A project of ten lines, by CMake."""
        place = self.of_tarball
        project = place.folder / "project"
        project.mkdir()
        (project / "CMakeLists.txt").write_text(PROJECT.format(source=EXAMPLE), encoding="utf-8")
        place.run(["cmake", "-S", project, "-B", "made", f"-DCMAKE_PREFIX_PATH={self.tarball_folder}"])
        place.run(["cmake", "--build", "made"])
        for name in ("Yuzuratchet", "Static"):
            place.draw([place.folder / "made" / name], FEW[:2])

    def manuals(self) -> None:
        """Each page is found by its name, and completions are shell's."""
        pages = {"MANPATH": str(self.tarball_folder / "share" / "man"), "MANPAGER": "cat", "LC_ALL": "C.UTF-8"}
        said = {"tiledraw": "--workers", "yuzuratchet": "suite", "yuzuratchet_draw": "report"}
        for name, says in {**said, "yz_device_draw": "YZ_DRAW_RANGE", "yuzuratchet_device.h": "yz_list"}.items():
            check(says in self.of_tarball.run(["man", name], 0, pages), f"the page {name} is another")
        for path in sorted((self.tarball_folder / "share" / "bash-completion" / "completions").iterdir()):
            self.of_tarball.run(["bash", "-n", path])

    # ---- Debian's packages

    def install_debian(self) -> None:
        """Installs all into a root of their own, and draws by the program and by the Python package."""
        place = self.place()
        root = place.folder / "root"
        for it in ("var/lib/dpkg/updates", "var/lib/dpkg/info"):
            (root / it).mkdir(parents=True)
        (root / "var/lib/dpkg/status").touch()
        debs = sorted(self.dist.glob("*.deb"))
        force = "--force-depends,not-root,bad-path,script-chrootless"
        place.run(["dpkg", f"--root={root}", force, "--install", *debs])
        place.draw([root / "usr/bin/tiledraw"], FEW)
        found = {"PYTHONPATH": str(root / "usr/lib/python3/dist-packages"), "PATH": f"{root}/usr/bin:/usr/bin:/bin"}
        found["LD_LIBRARY_PATH"] = str(root / "usr" / debian.LIBDIR)
        command = ["/usr/bin/python3", root / "usr/bin/yuzuratchet"]
        place.run([*command, "draw", GALLERY / "data" / "fan.txt", "fan.png"], 0, found)
        place.run([*command, "view", GALLERY / "data" / "fan.txt", "-o", "fan.html"], 0, found)
        said = place.run([*command, "proof"], 1 if "not" in self.proof() else 0, found)
        check("is tiledraw of this release" in said, said[-300:])

    def lintian(self) -> str:
        """Lintian finds nothing but what the packages list as known."""
        debs = sorted(self.dist.glob("*.deb"))
        words = ["lintian", "--allow-root", "--fail-on", "error,warning", "--tag-display-limit", "0"]
        said = self.place().run([*words, *debs])
        return f"{len(said.splitlines())} lines"

    # ---- the JavaScript package

    def node(self, words: Sequence[str]) -> str:
        """In node, alone and in a worker."""
        place = self.place()
        (place.folder / "package.json").write_text('{"private": true, "type": "module"}\n', encoding="utf-8")
        place.run(["npm", "install", "--offline", "--no-audit", "--no-fund", self.dist / f"{NAME}.tgz"])
        (place.folder / "draws.js").write_text(BY_PACKAGE, encoding="utf-8")
        names = [it for it in gallery_names() if "largest" not in it]
        told = place.run([*words, "--no-warnings", "draws.js", GALLERY / "data", *names])
        hold(told_of(told), names)
        by_calls = PACKAGE_README.read_text(encoding="utf-8").split("```js\n")[3].split("```")[0]
        (place.folder / "calls.js").write_text(by_calls, encoding="utf-8")
        said = place.run([*words, "--no-warnings", "calls.js"])
        check("7 YZ_TOPOLOGY_UNSET" in said, said)
        cube = place.run([*words, "--no-warnings", "node_modules/yuzuratchet/examples/cube.js", "3"])
        check(cube.splitlines() == CUBE, cube)
        recorders = place.run([*words, "--no-warnings", "node_modules/yuzuratchet/examples/recorders.js"])
        check(recorders.splitlines() == RECORDERS, recorders)
        return f"{len(names)} scripts, {(self.dist / f'{NAME}.tgz').stat().st_size} bytes"

    def browser(self, program: str) -> str:
        """In Chromium, alone and in a worker."""
        place = self.place()
        run(["tar", "xzf", self.dist / f"{NAME}.tgz", "-C", place.folder])
        (place.folder / "index.html").write_text("<!doctype html><title>draws</title>", encoding="utf-8")
        (place.folder / "data").symlink_to(GALLERY / "data")
        with served(place.folder) as address, Browser(program) as it:
            it.open(f"{address}/index.html")
            told = it.value(IN_PAGE.replace("NAMES", json.dumps(FEW)))
        for half in (told[::2], told[1::2]):
            hold(told_of("".join(half)), FEW)
        return f"{len(FEW)} scripts"


@contextmanager
def served(folder: Path) -> Iterator[str]:
    """Serves a folder on this machine, and gives its address."""
    handler = functools.partial(QuietHandler, directory=str(folder))
    with http.server.ThreadingHTTPServer(("127.0.0.1", 0), handler) as server:
        threading.Thread(target=server.serve_forever, daemon=True).start()
        yield f"http://127.0.0.1:{server.server_address[1]}"
        server.shutdown()


def _fails(words: Sequence[str]) -> bool:
    return not os.access(words[0], os.X_OK) or bool(subprocess.run(words, capture_output=True, check=False).returncode)


def test_all(results: Results, tests: ReleaseTests, browser: str | None, node: str | None) -> None:
    """All tests, those that others rest on first."""
    results.test("sums", tests.sums)
    results.test("list of parts", tests.bill)
    is_unpacked = results.test("archive", tests.unpack_tarball)
    if results.test("wheel", tests.install_wheel):
        for name in ("suite", "by_library", "readme", "page", "proof"):
            results.test(f"wheel: {name.replace('_', ' ')}", getattr(tests, name))
        for name in ("suite", "by_library"):
            results.test(f"wheel without AVX2: {name.replace('_', ' ')}", getattr(tests, name), OLDER)
    if is_unpacked:
        results.test("memory", tests.memory)
        with_tool(results, "qemu-x86_64", "other processors", tests.older_processor)
        with_tool(results, "pkg-config", "pkg-config", tests.pkg_config)
        with_tool(results, "cmake", "CMake", tests.cmake)
        with_tool(results, "man", "manuals", tests.manuals)
    results.test("source distribution", tests.source_distribution)
    with_tool(results, "dpkg", "Debian's packages", tests.install_debian)
    with_tool(results, "lintian", "lintian", tests.lintian)
    words, why = node_words(node)
    if words and shutil.which("npm"):
        results.test("node", tests.node, words)
    else:
        results.skip("node", why or "the command npm is missing")
    if browser:
        results.test("browser", tests.browser, browser)
    else:
        results.skip("browser", "there is no Chromium on the path (Debian: apt-get install chromium)")


def with_tool(results: Results, tool: str, name: str, test: object) -> None:
    """Runs a test that wants a program, or says that it is missing."""
    if shutil.which(tool) and callable(test):
        results.test(name, test)
    else:
        results.skip(name, f"the command {tool} is missing")


def main() -> int:
    parser = argparse.ArgumentParser(description=__doc__, formatter_class=argparse.RawDescriptionHelpFormatter)
    parser.add_argument("dist", metavar="DIST", nargs="?", type=Path, default=package_path.TOP / "dist", help="(dist)")
    parser.add_argument("--browser", metavar="FILE", default=find_browser(), help="(Chromium on the path)")
    parser.add_argument("--node", metavar="FILE", default=shutil.which("node"), help="(that of the path)")
    given = parser.parse_args()
    if not (given.dist / "SHA256SUMS").is_file():
        sys.exit(f"test_release.py: {given.dist} has no release: tools/make_release.py builds one")
    results = Results({}, [NotBuilt, BrowserError])
    with tempfile.TemporaryDirectory(prefix="release-test-") as room:
        test_all(results, ReleaseTests(given.dist.resolve(), Path(room)), given.browser, given.node)
    print(results.last_line)
    return results.status


if __name__ == "__main__":
    sys.exit(ended(main))
