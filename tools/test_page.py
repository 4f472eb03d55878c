#!/usr/bin/env python3
"""Tests the page that draws in a browser: its device in node, and the page itself in Chromium and Firefox.

    tools/test_page.py [--module FILE.wasm] [--picture FILE.png]

In both each script of the gallery gives the answers and the image that crates/gallery/stdout has, in node by calls too.
There the package's examples are run, the modules of web/engine are tried alone (web/tests), a device that goes forth
and back to lines is held against what these lines draw as a text, pixels' histories against the package's `explain`,
counts of touched pixels against the lengths of their histories, and columns of faults against its `check`. In the
browser scripts are chosen, typed, opened, linked and played by lines, pixels are pointed at and tapped, and each is
compared with what the device gives elsewhere; the page is looked at in narrow windows and at fractional ratios of
pixels. In Firefox all is tried that needs neither pointer nor keys. Types are checked by the TypeScript compiler where
it is there.

Where the module isn't built, or there is no node or no browser, that is told, and counted in the last line. The status
is 0 where nothing failed and something passed. Python alone is wanted beside them.
"""

from __future__ import annotations

import argparse
import functools
import http.server
import importlib.util
import json
import os
import pathlib
import random
import shutil
import subprocess
import sys
import tempfile
import threading
from collections.abc import Iterable
from typing import Any

import make_page
import mutated_scripts
import package_path
import random_scenes
from browser import Browser, BrowserError, find_browser
from firefox import Firefox, find_firefox
from page_features import FeatureTests
from page_in_browser import DATA, PLAYED, PlayingTests, take_picture, without_memory64, without_scripts
from release import javascript
from results import Results, check
from yuzuratchet import Scene, YuzuratchetError, __version__, load_script, page
from yuzuratchet.backends import draw
from yuzuratchet.check import located
from yuzuratchet.ending import ended
from yuzuratchet.labels import Labels

TOP = package_path.TOP
STDOUT = TOP / "crates" / "gallery" / "stdout"
IN_NODE = pathlib.Path(__file__).resolve().parent / "page_in_node.mjs"
HAS_MEMORY64 = "process.exit(WebAssembly.validate(new Uint8Array([0,97,115,109,1,0,0,0,5,3,1,4,1])) ? 0 : 1)"
FLAG = "--experimental-wasm-memory64"
# scripts whose pixels are asked for behind each line, anew for each: short ones
ASKED_BY_LINES = [
    "shadow-volumes.txt",
    "lamps.txt",
    "eight-contexts.txt",
    "two-faced-count.txt",
    "lists.txt",
    "decals.txt",
    "bowl.txt",
    "rows/around-a-list.txt",
    "rows/back-face.txt",
    "rows/biased-depths.txt",
    "scene-0.txt",
    "scene-4.txt",
]
# scenes in which it is asked in two ways what touched a pixel, and changed scripts whose faulty letters are asked for
RANDOM_SCENES, CHANGED_SCRIPTS = 40, 300
SCENES_BY_CALLS, SCENES_ON_SLIDER = 500, 200
# milliseconds of a processor in which it has to be told, of a large target, what touched a pixel, how often each was
# touched, and which ones a line changed, on a busy machine
POINTED, COUNTED, CHANGED = 50, 400, 1200
# what the package's examples print, the first two as those in C and in Python do: of a cube its first three frames
CUBE = ["26122 pixels", "26154 pixels", "26079 pixels"]
TOUCHED = [
    "2: 24 24 40 255, depth 16777215, stencil 0",
    "5, triangle 1: 60 68 60 255, depth 8504723, stencil 0",
    "10, triangle 16: 60 68 60 255, depth 8504723, stencil 1",
    "10, triangle 20: 60 68 60 255, depth 8504723, stencil 1",
    "16, triangle 1: 60 68 60 255, depth 8504723, stencil 1",
]
RECORDERS = ["refused with 7", "4096 pixels", *7 * ["1792 pixels"]]
IN_NODE_ALONE = (
    "units",
    "gallery",
    "examples",
    "calls",
    "slider",
    "memory",
    "history",
    "pointed",
    "overdraw",
    "planes_of_large",
    "explained",
    "blamed",
)
IN_CHROMIUM = (
    "answers",
    "menu",
    "slider",
    "pointer",
    "keys",
    "words",
    "planes",
    "keystroke",
    "stop",
    *FeatureTests.FEATURES,
)
# what needs neither pointer nor keys
IN_FIREFOX = (
    "answers",
    "menu",
    "words",
    "planes",
    "files",
    "unreadable_files",
    "edits",
    "addresses",
    "links",
    "saved_pictures",
    "depth_range",
    "overdraw",
    "states",
    "recorded_lines",
    "colours_of_words",
    "changed_by_a_line",
)
SECONDS = 1800


@functools.cache
def expected() -> dict[str, str]:
    """What the gallery stores of each script: {name: its answer lines and the image's line}."""
    found: dict[str, str] = {}
    name = ""
    for line in STDOUT.read_text(encoding="ascii").splitlines(keepends=True):
        if line.endswith(".txt\n"):
            name = line.strip()
            found[name] = ""
        else:
            found[name] += line
    return found


# ---- node


def node_words(node: str | None) -> tuple[list[str], str]:
    """The words that start node with memory64, or why there are none."""
    if node is None:
        return [], "there is no node on the path (Debian: apt-get install nodejs; version 20 or later)"
    for words in ([node], [node, FLAG]):
        if subprocess.run([*words, "-e", HAS_MEMORY64], capture_output=True, check=False).returncode == 0:
            return words, ""
    return [], f"{node} has no memory64 (version 20 or later has)"


class NodeTests:
    """The tests of the page's device in node."""

    def __init__(self, words: list[str], module: pathlib.Path, room: str) -> None:
        self.words, self.module, self.room = words, module, pathlib.Path(room)
        self.tables = self.room / "tables.json"
        self.tables.write_text(json.dumps(page.tables()), encoding="utf-8")

    def printed(self, task: str, names: Iterable[str], folder: pathlib.Path = DATA) -> str:
        """What page_in_node.mjs prints."""
        command: list[Any] = [*self.words, IN_NODE, self.module, self.tables, task, folder, *names]
        ran = subprocess.run(command, capture_output=True, encoding="utf-8", timeout=SECONDS, check=False)
        check(ran.returncode == 0, ran.stderr.strip()[-600:])
        return ran.stdout

    def units(self) -> str:
        """The tests of the modules alone."""
        files = sorted((TOP / "web" / "tests").glob("*.test.js"))
        command: list[Any] = [*self.words, "--test", *files]
        environment = {
            **os.environ,
            "PATH": os.pathsep.join([str(pathlib.Path(sys.executable).parent), os.environ["PATH"]]),
            "YUZURATCHET_MODULE": str(self.module.resolve()),
        }
        ran = subprocess.run(
            command, capture_output=True, encoding="utf-8", timeout=SECONDS, env=environment, check=False
        )
        count = next(
            (line.split()[-1] for line in ran.stdout.splitlines() if line.startswith(("# pass", "ℹ pass"))), "0"
        )
        check(ran.returncode == 0, ran.stdout[-3000:])
        check(int(count) > 0, "no test was run")
        return f"{count} tests"

    def gallery(self) -> str:
        printed = self.printed("gallery", expected())
        wanted = "".join(f"{name}\n{text}" for name, text in expected().items())
        got, want = printed.splitlines(), wanted.splitlines()
        other = next((at for at, both in enumerate(zip(got, want)) if both[0] != both[1]), min(len(got), len(want)))
        check(
            printed == wanted, f"line {other + 1} is {got[other : other + 1]}, and {want[other : other + 1]} is stored"
        )
        return f"{len(expected())} scripts"

    def examples(self) -> str:
        """The package's examples, over the module."""
        for name, it in javascript.package(__version__, self.module.read_bytes(), {}).items():
            path = self.room / name
            path.parent.mkdir(parents=True, exist_ok=True)
            path.write_bytes(it.data)
        cube, recorders = self.example("cube", "60"), self.example("recorders")
        check(cube[:3] == CUBE and len(cube) == 60, f"{cube}")
        touched = self.example("history", DATA / "shadow-volumes.txt", "88", "113")
        until = self.example("history", DATA / "shadow-volumes.txt", "88", "113", "9")
        check(touched == TOUCHED and until == TOUCHED[:2], f"{touched}, {until}")
        check(recorders == RECORDERS, f"{recorders}")
        return "60 frames of a cube, 8 recorders, the history of a pixel"

    def example(self, name: str, *words: str | pathlib.Path) -> list[str]:
        """What an example prints."""
        command: list[Any] = [*self.words, "--no-warnings", self.room / "package" / "examples" / f"{name}.js", *words]
        ran = subprocess.run(command, capture_output=True, encoding="utf-8", timeout=SECONDS, check=False)
        check(ran.returncode == 0, ran.stderr.strip()[-600:])
        return ran.stdout.splitlines()

    def memory(self) -> None:
        names = ["lists.txt", "two-faced-count.txt", "rows/four-tiles-cut-behind-14.txt"]
        check(self.printed("memory", names).split() == names, "something else was printed")

    def calls(self) -> str:
        """Random scenes by calls, of which the first call that is refused ends some."""
        names = write_random_scenes(self.room, SCENES_BY_CALLS)
        check(self.printed("calls", names, self.room).split() == names, "something else was printed")
        return f"{len(names)} scenes"

    def slider(self) -> str:
        """A device that goes forth and back to lines, against what is drawn of the lines as a text."""
        scripts = [it for it in expected() if "largest" not in it]
        scenes = write_random_scenes(self.room, SCENES_ON_SLIDER)
        printed = self.printed("slider", scripts) + self.printed("slider", scenes, self.room)
        check(printed.split() == scripts + scenes, "something else was printed")
        return f"{len(scripts) + len(scenes)} scripts"

    def history(self) -> str:
        """The lines that changed a pixel, against a play of the script up to each line."""
        scenes = write_random_scenes(self.room)
        printed = self.printed("history", ASKED_BY_LINES) + self.printed("history", scenes, self.room)
        found = [int(it.split()[-1]) for it in printed.splitlines()]
        check(len(found) >= len(ASKED_BY_LINES), printed)
        return f"12 pixels of {len(found)} scripts, {sum(found)} changes"

    def explained(self) -> str:
        """Each step of a pixel's history against the package's `explain`: triangle, depth, outcome, what it holds."""
        compared = 0
        for folder, names in ((DATA, ASKED_BY_LINES), (self.room, write_random_scenes(self.room))):
            for name, line in zip(names, self.printed("steps", names, folder).splitlines()):
                scene = load_script(pathlib.Path(folder, name))
                for x, y, steps in json.loads(line):
                    wanted = explained(scene, x, y)
                    check(steps == wanted, f"{name} ({x}, {y}): {steps}, and not {wanted}")
                    compared += len(steps)
        return f"{compared} steps"

    def pointed(self) -> str:
        """How long the history of a pointed pixel takes, in a picture of 2,048 by 2,048."""
        median, most = map(float, self.printed("pointed", ["large.txt"]).split())
        check(median < POINTED, f"the history of a pixel takes {median} ms, and {most} at most")
        return f"{median} ms, {most} at most"

    def overdraw(self) -> str:
        """How often pixels were touched, and which ones lines changed, against the device's histories and texts."""
        scenes = write_random_scenes(self.room)
        printed = self.printed("overdraw", ASKED_BY_LINES) + self.printed("overdraw", scenes, self.room)
        found = [int(it.split()[-1]) for it in printed.splitlines()]
        check(len(found) >= len(ASKED_BY_LINES), printed)
        return f"{sum(found)} pixels of {len(found)} scripts"

    def planes_of_large(self) -> str:
        """How long the planes take that are counted and compared, of 2,048 by 2,048."""
        counted, changed = map(float, self.printed("planes", ["large.txt"]).split())
        check(counted < COUNTED and changed < CHANGED, f"overdraw takes {counted} ms, and what changed {changed}")
        return f"overdraw {counted:.0f} ms, what a line changed {changed:.0f}"

    def blamed(self) -> str:
        """The letters that are to blame for a fault or a refusal, against those that the package's `check` tells."""
        chance, texts = random.Random(5), mutated_scripts.sources()
        scripts = {
            f"changed-{number}.txt": mutated_scripts.mutated(chance, texts)[0] for number in range(CHANGED_SCRIPTS)
        }
        scripts |= {
            f"{pathlib.Path(name).stem}.txt": (DATA / name).read_bytes()
            for name in expected()
            if name.startswith("refused/")
        }
        # (a page's text ends in a line feed, and holds letters)
        scripts = {name: text for name, text in scripts.items() if text.endswith(b"\n") and text.isascii()}
        for name, text in scripts.items():
            (self.room / name).write_bytes(text)
        compared = 0
        for (name, text), line in zip(scripts.items(), self.printed("blamed", scripts, self.room).splitlines()):
            found = json.loads(line)
            if found is None or found[0] > text.count(b"\n"):
                continue
            finding = located(text, *found[:2])
            # (which of a draw's limits is passed is told by counting, and which index by looking at each)
            if finding.is_located and found[1] not in (6, 13):
                check(found[2:] == [finding.start, finding.end], f"{name}: {found}, and not {finding}")
                compared += 1
        check(compared > len(scripts) // 3, f"only {compared} of {len(scripts)} scripts were compared")
        return f"{compared} of {len(scripts)} scripts"


def write_random_scenes(room: pathlib.Path, count: int = RANDOM_SCENES) -> list[str]:
    """Random scenes in a folder, and their names."""
    chance, names = random.Random(1), [f"{number}.txt" for number in range(count)]
    for number, name in enumerate(names):
        scene = random_scenes.random_scene(chance, number, kinds=random_scenes.KINDS)
        pathlib.Path(room, name).write_text(scene.script(), encoding="ascii")
    return names


def explained(scene: Scene, x: int, y: int) -> list[list[Any]]:
    """The steps of a pixel, as the package explains them."""
    from yuzuratchet.explain import explain  # (here, since it wants numpy)

    steps = []
    for it in explain(scene, x, y).steps:
        triangle, depth = (it.covering.triangle, it.covering.depth) if it.covering else (None, None)
        held = [*it.after.colour, it.after.depth, it.after.stencil]
        steps.append([it.item.number, it.executed_by, triangle, depth, it.outcome.value, held])
    return steps


def why_not_explained() -> str | None:
    """Why the package can explain nothing, or None."""
    if importlib.util.find_spec("numpy") is None:
        return f"{sys.executable} has no numpy (the package's tests have: ~/.cache/yuzuratchet/environment/bin/python)"
    try:
        draw(b"target 1 1\n")
    except YuzuratchetError as error:
        return str(error).splitlines()[0]
    return None


def types() -> None:
    """The types of all modules, by the TypeScript compiler."""
    ran = subprocess.run(
        ["tsc", "-p", TOP / "web" / "jsconfig.json"], capture_output=True, text=True, timeout=SECONDS, check=False
    )
    check(ran.returncode == 0, ran.stdout[-2000:])


def test_in_node(results: Results, node: str | None, module: pathlib.Path) -> None:
    """All tests in node, and that of the types."""
    words, why = node_words(node)
    with tempfile.TemporaryDirectory(prefix="page-") as room:
        tests = NodeTests(words, module, room) if words else None
        for name in IN_NODE_ALONE:
            reason = why_not_explained() if words and name == "explained" else why
            if reason:
                results.skip(f"node {name}", reason)
            else:
                results.test(f"node {name}", getattr(tests, name))
    if shutil.which("tsc"):
        results.test("types", types)
    else:
        results.skip("types", "the command tsc is missing (Debian: apt-get install node-typescript)")


# ---- the browser


def with_a_script(tests: PlayingTests, folder: pathlib.Path) -> None:
    """The page of `yuzuratchet view` shows its script first."""
    text, labels = "target 3 2\ni clearc 1 2 3 255\ni draw 3 0\n", Labels([(2, "ground"), (3, "a <sail>")])
    built = (folder / "index.html").read_text(encoding="utf-8")
    path = folder / "with-a-script.html"
    path.write_text(page.with_script(built, "a </script> & more.txt", text, labels), encoding="utf-8")
    tests.browser.open("about:blank")
    tests.browser.open(path.as_uri())
    tests.browser.wait(PLAYED)
    check(tests.value("text") == text, "another script is shown")
    check(tests.text("#verdict .where") == "Line 3, column 3 (in a <sail>): refusal 7.", tests.text("#verdict"))
    tests.browser.wait("document.getElementById('state-line').textContent === 'line 2, ground'")
    check(tests.text("#size") == "3 × 2, lines 1 to 2", tests.text("#size"))


def from_a_host(tests: PlayingTests, folder: pathlib.Path) -> None:
    """The page from a host that serves files."""
    handler = functools.partial(QuietHandler, directory=str(folder))
    with http.server.ThreadingHTTPServer(("127.0.0.1", 0), handler) as server:
        threading.Thread(target=server.serve_forever, daemon=True).start()
        hosted = PlayingTests(tests.browser, f"http://127.0.0.1:{server.server_address[1]}/index.html")
        hosted.open()
        hosted.answers()
        server.shutdown()


class QuietHandler(http.server.SimpleHTTPRequestHandler):
    """Serves files, and says nothing."""

    def log_message(self, *_: Any) -> None:
        pass


def written_page(room: str, module: pathlib.Path) -> pathlib.Path:
    """The page as a file of a folder."""
    path = pathlib.Path(room, "index.html")
    path.write_text(make_page.built(module.read_bytes()), encoding="utf-8")
    return path


def test_in_chromium(results: Results, program: str, module: pathlib.Path, picture: pathlib.Path | None) -> None:
    """All tests in Chromium."""
    with tempfile.TemporaryDirectory(prefix="page-") as room, Browser(program) as browser:
        path = written_page(room, module)
        browser.resize(1240, 780)
        tests = FeatureTests(browser, path.as_uri())
        for name in IN_CHROMIUM:
            results.test(f"browser {name.replace('_', ' ')}", getattr(tests, name))
        results.test("browser gallery", tests.gallery, expected())
        results.test("browser view", with_a_script, tests, path.parent)
        results.test("browser host", from_a_host, tests, path.parent)
        results.test("browser errors", tests.errors)
        if picture:
            results.test("browser picture", take_picture, tests, picture)
        results.test("browser without scripts", without_scripts, browser, tests.address)
        results.test("browser without memory64", without_memory64, browser, tests.address)


def test_in_firefox(results: Results, program: str, module: pathlib.Path) -> None:
    """All tests in Firefox."""
    with tempfile.TemporaryDirectory(prefix="page-") as room, Firefox(program) as browser:
        tests = FeatureTests(browser, written_page(room, module).as_uri())
        for name in IN_FIREFOX:
            results.test(f"Firefox {name.replace('_', ' ')}", getattr(tests, name))
        results.test("Firefox gallery", tests.gallery, expected())


def parsed() -> argparse.Namespace:
    parser = argparse.ArgumentParser(description=__doc__, formatter_class=argparse.RawDescriptionHelpFormatter)
    parser.add_argument(
        "--module", metavar="FILE.wasm", type=pathlib.Path, help="the module (built where the toolchain is)"
    )
    parser.add_argument("--node", metavar="FILE", default=shutil.which("node"), help="(that of the path)")
    parser.add_argument(
        "--browser", metavar="FILE", default=find_browser(), help="Chromium or Chrome (that of the path)"
    )
    parser.add_argument("--firefox", metavar="FILE", default=find_firefox(), help="(that of the path)")
    parser.add_argument("--picture", metavar="FILE.png", type=pathlib.Path, help="writes a picture of the page too")
    return parser.parse_args()


def main() -> int:
    given, results = parsed(), Results(errors=[BrowserError])
    module, why = (given.module, "it isn't there") if given.module else make_page.find_module()
    if module is None or not module.is_file():
        results.skip("all", why)
    else:
        test_in_node(results, given.node, module)
        if given.browser:
            results.test(
                "browser, from its start to its end", test_in_chromium, results, given.browser, module, given.picture
            )
        else:
            results.skip("browser", "there is no Chromium or Chrome on the path (Debian: apt-get install chromium)")
        if given.firefox:
            results.test("Firefox, from its start to its end", test_in_firefox, results, given.firefox, module)
        else:
            results.skip("Firefox", "there is no Firefox on the path (Debian: apt-get install firefox-esr)")
    print(results.last_line)
    return results.status


if __name__ == "__main__":
    sys.exit(ended(main))
