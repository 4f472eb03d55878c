"""The page in a browser, for its tests: scripts are chosen, typed and played by lines, and pixels are pointed at."""

from __future__ import annotations

import hashlib
import json
import pathlib
import statistics
from collections.abc import Mapping
from typing import cast

import make_page
import package_path
import plain_device
from browser import Browser, BrowserError
from firefox import Firefox
from results import check, told

TOP = package_path.TOP
DATA = TOP / "crates" / "gallery" / "data"
KEYSTROKE_MOST, KEYSTROKE_TRIES = 50, 3
# scripts whose lines are all played one after the other
SLID = 40
SIZE = 512
PLAYED = "document.documentElement.dataset.state === 'played'"
SETS = """(id, event, value) => {
    const it = document.getElementById(id);
    it.value = value;
    it.dispatchEvent(new Event(event));
}"""
PLACE = """(x, y) => {
    const box = document.getElementById('canvas').getBoundingClientRect(), { width, height } = page.view.size;
    return [box.left + (x + 0.5) * box.width / width, box.top + (y + 0.5) * box.height / height];
}"""
# the digest of a canvas's pixels
DIGEST = """(canvas => crypto.subtle.digest(
    "SHA-256", canvas.getContext("2d").getImageData(0, 0, canvas.width, canvas.height).data,
).then((it) => Array.from(new Uint8Array(it), (byte) => byte.toString(16).padStart(2, "0")).join("")))"""
# plays a text as the page does, and writes its image again as the device's file
DRAWN = """(async (text, last) => {
    page.jobs.setText(new TextEncoder().encode(text));
    const { answers, refused, picture } = await page.jobs.ask("play", { last });
    const told = [...answers, ...(refused ? [`refused ${refused.line} ${refused.number}`] : [])];
    const lines = told.map((line) => line + "\\n").join("");
    if (!picture) return [lines, ""];
    const size = [picture.width & 255, picture.width >> 8, picture.height & 255, picture.height >> 8];
    const file = new Uint8Array(18 + picture.pixels.length);
    file.set([0, 0, 2, 0, 0, 0, 0, 0, 0, 0, 0, 0, ...size, 32, 40]);
    file.set(picture.pixels, 18);
    for (let at = 18; at < file.length; at += 4) [file[at], file[at + 2]] = [file[at + 2], file[at]];
    const digest = new Uint8Array(await crypto.subtle.digest("SHA-256", file));
    return [lines, Array.from(digest, (byte) => byte.toString(16).padStart(2, "0")).join("")];
})"""


def cut(script: list[str], line: int) -> list[str]:
    """The lines of a script up to one, with those that end the queries that are open there."""
    open_queries = {}
    for text in script[:line]:
        words = text.split()
        if words[:2] == ["i", "begin"]:
            open_queries[words[2]] = f"i end {words[2]}\n"
        elif words[:2] == ["i", "end"]:
            del open_queries[words[2]]
    return [*script[:line], *open_queries.values()]


def opaque(image: bytes) -> str:
    """The digest of an image's pixels as a canvas has them: red first, and opaque."""
    pixels = bytearray(image[18:])
    pixels[0::4], pixels[2::4], pixels[3::4] = pixels[2::4], pixels[0::4], b"\xff" * (len(pixels) // 4)
    return hashlib.sha256(pixels).hexdigest()


class PageInBrowser:
    """One page in one browser, as its user has it."""

    def __init__(self, browser: Browser | Firefox, address: str) -> None:
        # (Firefox has neither pointer nor keys, and what is tried in it needs none)
        self.browser, self.address = cast(Browser, browser), address

    def open(self, name: str = "shadow-volumes", fragment: str | None = None) -> None:
        """Opens the page anew, at a script of its menu, or with another fragment of its address."""
        self.browser.open("about:blank")
        self.browser.open(f"{self.address}#{name if fragment is None else fragment}")
        self.browser.wait(f"{PLAYED} && (page.entry.name === {json.dumps(name)} || {json.dumps(fragment is not None)})")

    def forget(self) -> None:
        """Takes away what the browser keeps of scripts."""
        self.browser.value("page.texts.flush(), localStorage.clear()")

    def text(self, what: str) -> str:
        return str(self.browser.value(f"document.querySelector({json.dumps(what)}).textContent"))

    def value(self, part: str) -> str:
        return str(self.browser.value(f"document.getElementById({json.dumps(part)}).value"))

    def is_hidden(self, part: str) -> bool:
        return bool(self.browser.value(f"document.getElementById({json.dumps(part)}).hidden"))

    def rows(self, what: str) -> list[list[str]]:
        """The texts of a table's cells, row by row."""
        cells = "(row) => Array.from(row.cells, (it) => it.textContent)"
        found: list[list[str]] = self.browser.value(
            f"Array.from(document.querySelectorAll({json.dumps(what)}), {cells})"
        )
        return found

    def act(self, part: str, event: str, value: str) -> None:
        """Sets the value of a part of the page, as its user does, and waits until that is played."""
        state = "document.documentElement.dataset.state = 'asked'"
        self.browser.value(f"{state}, ({SETS})({json.dumps(part)}, {json.dumps(event)}, {json.dumps(value)})")
        self.browser.wait(PLAYED)

    def set(self, part: str, value: str) -> None:
        """Sets the value of a part that plays nothing anew."""
        self.browser.value(f"({SETS})({json.dumps(part)}, 'change', {json.dumps(value)})")

    def choose(self, name: str) -> None:
        self.act("menu", "change", name)
        check(
            self.browser.value("page.entry.name") == name,
            f"{self.browser.value('page.entry.name')} is open, and not {name}",
        )

    def write(self, text: str) -> None:
        """Takes another text for the script, as if it were typed."""
        self.act("text", "input", text)

    def click(self, part: str) -> None:
        self.browser.value(f"document.getElementById({json.dumps(part)}).click()")

    def tick(self, part: str, is_on: bool) -> None:
        """Ticks a box, or takes its tick away."""
        if self.browser.value(f"document.getElementById({json.dumps(part)}).checked") != is_on:
            self.click(part)

    def place(self, x: int, y: int) -> tuple[float, float]:
        """Where a pixel stands in the window."""
        left, top = self.browser.value(f"({PLACE})({x}, {y})")
        return left, top

    def canvas(self) -> str:
        """The digest of the pixels that are shown."""
        return str(self.browser.value(f"{DIGEST}(page.view.main.canvas)"))

    def wait_for_steps(self, x: int, y: int) -> None:
        """Waits until the page tells what touched a pixel."""
        self.browser.wait(f"document.documentElement.dataset.changes === '{x} {y}'")


class PlayingTests(PageInBrowser):
    """What the page shows of scripts that are played."""

    def gallery(self, expected: Mapping[str, str]) -> str:
        """Answers and image of each script, as the gallery stores them."""
        self.open()
        for name, stored in told(expected.items(), len(expected), "scripts"):
            text = (DATA / name).read_text(encoding="ascii")
            answers, _, digest = stored.rstrip("\n").rpartition("image ")
            drawn = self.browser.value(f"{DRAWN}({json.dumps(text)}, {text.count(chr(10))})")
            check(drawn[0] == answers, f"{name}: the answers are {drawn[0]!r}, and not {answers!r}")
            check(drawn[1] == digest or "refused" in answers, f"{name}: the image is another")
        return f"{len(expected)} scripts"

    def menu(self) -> str:
        """Each picture of the menu, chosen and shown."""
        self.open()
        names = [entry.name for entry in make_page.menu() if entry.group == "pictures"]
        for name in names:
            self.choose(name)
            size = " × ".join((DATA / f"{name}.txt").read_text(encoding="ascii").split(maxsplit=3)[1:3])
            check(self.text("#size") == size, f"{name}: {self.text('#size')!r} is shown, and not {size!r}")
            check(self.text("#verdict") == "Every line is taken.", f"{name}: {self.text('#verdict')}")
        return f"{len(names)} pictures"

    def answers(self) -> None:
        self.open()
        wanted = [
            ["18", "query 0 16323"],
            ["19", "pixel 96 120 150 170 150 255 8179606 0"],
            ["20", "pixel 60 60 24 24 40 255 16777215 0"],
        ]
        check(self.rows("#answers tr") == wanted, f"{self.rows('#answers tr')}, and not {wanted}")

    def slider(self) -> str:
        """The script played up to each line shows what the plain evaluation gives for these lines."""
        lines = 0
        names = (DATA / "index").read_text(encoding="ascii").split()
        names = [it for it in names if it.startswith("rows/") and "-cut-behind-" not in it][:SLID]
        self.open()
        for name in told(names, len(names), "scripts"):
            script = (DATA / name).read_text(encoding="ascii").splitlines(keepends=True)
            self.write("".join(script))
            for line in range(1, len(script) + 1):
                self.act("slider", "input", str(line))
                check(self.text("#position") == f"line {line} of {len(script)}", self.text("#position"))
                answers, image = plain_device.evaluate("".join(cut(script, line)).encode("ascii"))
                shown = [row[-1] for row in self.rows("#answers tr")]
                check(shown == answers.splitlines(), f"{name}, line {line}: {shown}, and not {answers}")
                check(self.canvas() == opaque(image), f"{name}, line {line}: another image is shown")
                lines += 1
        self.forget()
        return f"{lines} lines of {len(names)} scripts"

    def pointer(self) -> None:
        """The pixel under the pointer, and what touched it, as the package explains it."""
        self.open()
        self.browser.move(*self.place(88, 113))
        self.wait_for_steps(88, 113)
        check(self.text("#pixel") == "(88, 113)colour 60 68 60 255depth 8504723 (0.5069)stencil 1", self.text("#pixel"))
        wanted = [
            ["", "a new target", "", "0 0 0 0", "16777215", "0"],
            ["2", "clearc", "cleared", "24 24 40 255", "16777215", "0"],
            ["5", "draw, triangle 1 of 20", "drawn", "60 68 60 255", "8504723", "0"],
            [
                "10",
                "draw, triangle 16 of 72",
                "the depth test fails: 9111743 LESS 8504723",
                "60 68 60 255",
                "8504723",
                "1",
            ],
        ]
        rows = self.rows("#changes tbody tr")
        check(rows == wanted, f"{rows}, and not {wanted}")
        self.tick("whole", True)
        whole = self.rows("#changes tbody tr")
        check(len(whole) > len(rows) and all(row in whole for row in rows), f"{whole}")
        refused = [row[2] for row in whole if row[0] == "16"]
        check(refused == ["the stencil test fails: 0 EQUAL 1"], f"{refused}")
        title = self.browser.value("Array.from(document.querySelectorAll('#changes td.words[title]')).at(-1).title")
        check(title == "its colour is 150 170 150 255, and its depth there 8504723", title)
        self.triangle_of_a_row()
        self.tick("whole", False)
        self.choose("eight-contexts")
        self.browser.press(*self.place(100, 100))
        self.wait_for_steps(100, 100)
        lines = [row[0] for row in self.rows("#changes tbody tr")]
        check(any(" by " in it for it in lines), f"no line of a list is named: {lines}")

    def triangle_of_a_row(self) -> None:
        """A row that is pointed at shows its triangle over the image, as large as that is there."""
        row = "document.querySelectorAll('#changes tbody tr')[2]"
        count = "document.querySelectorAll('#pane .outline polygon').length"
        check(self.browser.value(count) == 0, "a triangle is shown before")
        self.browser.value(f"{row}.scrollIntoView({{ block: 'nearest' }})")
        box = self.browser.value(f"(({{ left, top }}) => [left, top])({row}.getBoundingClientRect())")
        self.browser.move(box[0] + 40, box[1] + 4)
        self.browser.wait(f"{count} === 2")
        points = self.browser.value("document.querySelector('#pane .outline polygon').getAttribute('points')")
        corners = [tuple(map(float, it.split(","))) for it in points.split()]
        check(len(corners) == 3, points)
        places = (
            "(({ x, y, width, height }) => [x, y, width, height])(document.querySelector('%s').getBoundingClientRect())"
        )
        outline, canvas = (self.browser.value(places % it) for it in ("#pane .outline", "#canvas"))
        check(outline == canvas, f"{outline}, and the image is at {canvas}")
        self.browser.move(2, 2)
        self.browser.wait(f"{count} === 0")

    def keys(self) -> None:
        """Arrow keys move the pixel, and say it; + and - zoom, and the buttons go from line to line."""
        self.open()
        self.browser.value("document.getElementById('canvas').focus()")
        for key, code in (("ArrowRight", 39), ("ArrowRight", 39), ("ArrowDown", 40)):
            self.browser.key(key, code)
        self.browser.wait("document.getElementById('pixel').textContent.startsWith('(97, 97)')")
        said = self.text("#said")
        check(said.startswith("pixel 97, 97: colour ") and ", depth " in said and ", stencil " in said, said)
        zoom = self.browser.value("page.view.zoom")
        self.browser.key("+")
        check(self.browser.value("page.view.zoom") > zoom, "+ doesn't enlarge the image")
        self.browser.key("0")
        check(
            self.browser.value("page.view.zoom") == zoom and self.browser.value("page.view.chosen === null"),
            "0 doesn't fit it",
        )
        self.click("back")
        self.browser.wait("document.getElementById('position').textContent === 'line 19 of 20'")
        self.browser.value("document.getElementById('canvas').focus()")
        self.browser.key("Escape", 27)
        check(self.browser.value("page.pixels.pinned === null"), "Escape doesn't leave the pixel")

    def words(self) -> None:
        """What the caret is on is said: what a number means, and the word's arguments."""
        self.open()
        for line, column, wanted in (
            (8, 9, "depth_func: 1 NEVER, 2 LESS, 3 EQUAL"),
            (4, 8, "x: 5595794 is 85.385 pixels"),
            (1, 8, "width is 0 to 4294967295"),
            (20, 10, "x is 0 to 4294967295"),
        ):
            self.browser.value(
                f"page.editor.goTo({line}, {column}); page.editor.area.dispatchEvent(new Event('click'))"
            )
            check(self.text("#word").startswith(wanted), f"{self.text('#word')}, and not {wanted}")
        check(self.text("#words").count("i, d0 to d7") == 14, self.text("#words"))

    def planes(self) -> None:
        """Depth and stencil as pictures."""
        self.open()
        seen = set()
        for what in ("opaque", "depth", "stencil"):
            self.act("what", "change", what)
            seen.add(self.canvas())
        check(len(seen) == 3, "the pictures are alike")

    def keystroke(self) -> str:
        """How long it takes from a key stroke to the image, of 512 by 512 pixels; a busy machine may try again."""
        self.open("first_triangle")
        script = (
            (DATA / "shadow-volumes.txt").read_text(encoding="ascii").replace("target 192 192", f"target {SIZE} {SIZE}")
        )
        self.write(script)
        for _ in range(KEYSTROKE_TRIES):
            taken = [self.shown_after(script.replace("clearc 24", f"clearc {number}")) for number in range(30)]
            middle = statistics.median(taken)
            if middle < KEYSTROKE_MOST:
                break
        self.forget()
        check(middle < KEYSTROKE_MOST, f"{middle:.0f} ms, and {KEYSTROKE_MOST} is the most")
        return f"{middle:.0f} ms in the middle of 30, {max(taken):.0f} at most"

    def shown_after(self, script: str) -> float:
        """Writes a script, and gives how many milliseconds later its image was seen."""
        self.write(script)
        return float(self.browser.value("document.documentElement.dataset.shownAfter"))

    def stop(self) -> None:
        """A long job shows its bar, gives way to a newer text, and can be stopped."""
        self.open()
        corners = " ".join(["0 0 0 9 9 9 9 268435456 0 0 9 9 9 9 0 268435456 0 9 9 9 9"] * 21845)
        tests = "i ds 0 0 8 0 255 255 1 1 1 8 1 1 1 8 0"
        long = f"target 4096 4096\ni topology 4\ni raster 1 0 0\n{tests}\ni vb {corners}\ni draw 65535 0\n"
        code = "(text) => { page.editor.text = text; page.edited() }"
        self.browser.value(f"document.documentElement.dataset.state = 'asked', ({code})({json.dumps(long)})")
        self.browser.wait("!document.getElementById('working').hidden")
        self.click("stop")
        self.browser.wait("document.getElementById('verdict').textContent.startsWith('Stopped')")
        self.choose("fan")
        check(self.text("#size") == "192 × 192", self.text("#size"))
        self.forget()

    def errors(self) -> None:
        """No code of the page has failed unseen."""
        thrown = [
            it["params"]["exceptionDetails"]
            for it in self.browser.events
            if it.get("method") == "Runtime.exceptionThrown"
        ]
        check(not thrown, str(thrown[:1]))


def take_picture(page: PlayingTests, path: pathlib.Path) -> str:
    """The picture of the page, for the README."""
    page.browser.resize(1240, 820)
    page.open()
    page.browser.press(*page.place(88, 113))
    page.wait_for_steps(88, 113)
    pathlib.Path(path).write_bytes(page.browser.picture())
    return f"{path}, SHA-256 {hashlib.sha256(path.read_bytes()).hexdigest()[:12]}"


def without_memory64(browser: Browser, address: str) -> None:
    """A browser without memory64 says so in a sentence."""
    browser.call("Page.addScriptToEvaluateOnNewDocument", source="WebAssembly.validate = () => false")
    browser.open("about:blank")
    browser.open(address)
    browser.wait("!document.getElementById('trouble').hidden")
    text = browser.value("document.getElementById('trouble').textContent")
    check("memory64" in text and "Firefox" in text, text)


def without_scripts(browser: Browser, address: str) -> None:
    """A browser in which JavaScript is switched off says so."""
    browser.call("Emulation.setScriptExecutionDisabled", value=True)
    try:
        browser.open("about:blank")
        browser.call("Page.navigate", url=address)
        browser.wait("document.querySelector('noscript p')?.getBoundingClientRect().height > 0")
    except BrowserError as error:
        raise AssertionError("nothing is said") from error
    finally:
        browser.call("Emulation.setScriptExecutionDisabled", value=False)
