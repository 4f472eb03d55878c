"""What people do with the page in a browser.

They edit, open, link and save scripts, tap, zoom and drag the image, and compare, in windows of all sizes.
"""

from __future__ import annotations

import base64
import json
import math
import re
import time
import zlib

import package_path
import plain_device
from browser import Browser
from page_in_browser import DATA, DIGEST, PLAYED, PlayingTests, opaque
from results import check
from yuzuratchet.reader import parse

STYLE = package_path.TOP / "web" / "style.css"
WIDTHS = [(320, 640), (375, 700), (800, 600), (1240, 780), (1920, 1000), (3440, 1300)]
RATIOS = [1, 1.1, 1.25, 1.5, 2]
# how long depth and stencil of large may take, in seconds, and depth again, in milliseconds, on a busy machine
LARGE_PLANE, PLANE_MOST = 5, 250
# the milliseconds of a depth whose device has run everything
PLANE_AGAIN = """page.jobs.ask("planes", { last: page.shown, what: "depth", range: { near: null, far: null } })
    .then(({ milliseconds }) => milliseconds)"""
LEAST_CONTRAST = 4.5
CONTROL = 2
# the reds of a part of a row of a picture
ROW = """async (picture, row, left, width) => {
    const image = await createImageBitmap(await (await fetch("data:image/png;base64," + picture)).blob());
    const context = new OffscreenCanvas(image.width, image.height).getContext("2d");
    context.drawImage(image, 0, 0);
    return Array.from(context.getImageData(left, row, width, 1).data).filter((_, at) => at % 4 === 0);
}"""
# how many pixels of a canvas hide nothing
CLEAR = """(canvas) => canvas.getContext("2d").getImageData(0, 0, canvas.width, canvas.height).data
    .filter((value, at) => at % 4 === 3 && value === 0).length"""
# the bytes of the picture that the page saves
SAVED = """(async () => {
    let kept;
    page.save = (blob) => { kept = blob };
    await page.saveImage();
    delete page.save;
    return btoa(String.fromCharCode(...new Uint8Array(await kept.arrayBuffer())));
})()"""
CHECKERS = "target 16 16\ni clearc 0 0 0 255\ni raster 1 0 1\ni topology 5\n"


def checkers() -> str:
    """A script that draws single white pixels in every other place."""
    corners = ["-65536 -65536", "1179648 -65536", "-65536 1179648", "1179648 1179648"]
    text = CHECKERS + "i vb " + " ".join(f"{at} 0 255 255 255 255" for at in corners) + "\n"
    for x in range(0, 16, 2):
        text += f"i scissor {x} 0 {x + 1} 16\ni ds 0 0 8 0 255 255 1 1 1 8 1 1 1 8 0\ni draw 4 0\n"
    return text


def pixels_of(image: bytes) -> list[tuple[int, ...]]:
    """Red, green, blue, alpha of each pixel of the device's image."""
    return [(image[at + 2], image[at + 1], image[at], image[at + 3]) for at in range(18, len(image), 4)]


def png_of(data: bytes) -> tuple[int, int, int, bytes]:
    """Width, height, channels and the bytes of a PNG that has no filters."""
    check(data[:8] == b"\x89PNG\r\n\x1a\n", "it is no PNG")
    at, packed, head = 8, b"", b""
    while at < len(data):
        size, name = int.from_bytes(data[at : at + 4], "big"), data[at + 4 : at + 8]
        body = data[at + 8 : at + 8 + size]
        check(
            zlib.crc32(name + body) == int.from_bytes(data[at + 8 + size : at + 12 + size], "big"),
            f"the sum of {name!r} is wrong",
        )
        head, packed = (body if name == b"IHDR" else head), packed + (body if name == b"IDAT" else b"")
        at += 12 + size
    width, height, channels = int.from_bytes(head[:4], "big"), int.from_bytes(head[4:8], "big"), {2: 3, 6: 4}[head[9]]
    rows, line = zlib.decompress(packed), 1 + channels * width
    check(len(rows) == line * height and set(rows[::line]) == {0}, "its rows have another form")
    return width, height, channels, b"".join(rows[at + 1 : at + line] for at in range(0, len(rows), line))


class FeatureTests(PlayingTests):
    """What is beside playing scripts."""

    FEATURES = (
        "faults",
        "columns",
        "files",
        "unreadable_files",
        "edits",
        "addresses",
        "links",
        "other_script",
        "saved_pictures",
        "taps",
        "zoom",
        "squares",
        "depth_of_large",
        "depth_range",
        "overdraw",
        "states",
        "recorded_lines",
        "labels",
        "completions",
        "colours_of_words",
        "changed_by_a_line",
        "beside",
        "windows",
        "contrast",
        "names_of_controls",
        "keyboard",
        "one_file",
    )

    # ---- faults

    def faults(self) -> None:
        """A fault that is typed is marked on its line, and said; the lines before it are shown."""
        self.open("first_triangle")
        self.browser.value("page.editor.goTo(3); document.documentElement.dataset.state = 'asked'")
        self.browser.type("i topologie 4\n")
        self.browser.wait(f"{PLAYED} && document.querySelector('.marks .fault')")
        line = self.browser.value("Number(document.querySelector('.gutter .fault').dataset.line)")
        check(line == 3, f"line {line} is marked, and not line 3")
        check(self.text("#verdict .where") == "Line 3, column 3: fault 104.", self.text("#verdict .where"))
        check("see the table of words" in self.text("#verdict .advice"), self.text("#verdict .advice"))
        check(self.text("#size").endswith("lines 1 to 2"), self.text("#size"))
        check(self.text("#answers") == "A script with a fault answers nothing.", self.text("#answers"))
        check(self.value("menu") == "first_triangle, edited", "the edited script isn't in the menu")
        self.choose("refused/begin-64")
        check("refusal 11" in self.text("#verdict .where"), self.text("#verdict"))
        for text, where in (
            ("", "Line 1, column 1: fault 102."),
            ("target 1 1\ni begin 0", "Behind the last line: refusal 9."),
        ):
            self.write(text)
            check(self.text("#verdict .where") == where, self.text("#verdict"))
        self.forget()

    def columns(self) -> None:
        """The letters that are to blame are marked where they stand, and chosen where the verdict is pressed."""
        self.open()
        self.write("target 4 4\ni clearc 1 2 256 4\n")
        check(self.text("#verdict .where") == "Line 2, column 14: fault 106.", self.text("#verdict .where"))
        letter = self.browser.value("page.editor.letter")
        mark, word = (
            self.browser.value(f"(it => [it.left, it.width])(document.querySelector('{what}').getBoundingClientRect())")
            for what in (".blamed", ".code .row:nth-child(2) .wrong")
        )
        check(
            abs(mark[0] - word[0]) < 1 and abs(mark[1] - 3 * letter) < 1,
            f"the mark is at {mark}, and the word at {word}",
        )
        self.browser.value("document.querySelector('#verdict .where').click()")
        chosen = self.browser.value(
            "page.editor.text.slice(page.editor.area.selectionStart, page.editor.area.selectionEnd)"
        )
        check(chosen == "256", f"{chosen!r} is chosen")
        self.forget()

    # ---- texts

    def open_file(self, name: str, text: str) -> None:
        """Opens a file as its user does, and waits until it is played."""
        file = f"new File([{json.dumps(text)}], {json.dumps(name)})"
        self.browser.value(f"document.documentElement.dataset.state = 'asked'; page.openFile({file})")
        self.browser.wait(PLAYED)

    def files(self) -> None:
        """A file that is opened stands in the menu by a name of its own, and what a page can't keep of it is said."""
        self.open()
        self.open_file("mine.txt", "target 2 1\r\ni clearc 1 2 3 4")
        check(self.value("menu") == "mine.txt", "the file isn't in the menu")
        check(self.text("#size") == "2 × 1" and self.text("#verdict") == "Every line is taken.", self.text("#verdict"))
        check("carriage returns" in self.text("#note") and "last line" in self.text("#note"), self.text("#note"))
        self.choose("fan")
        check(self.is_hidden("note"), "the note stays")
        self.open_file("mine.txt", "target 3 1\n")
        check(self.value("menu") == "mine.txt 2" and self.text("#size") == "3 × 1", self.value("menu"))
        self.open_file("mine.txt", "target 2 1\r\ni clearc 1 2 3 4")
        check(
            self.value("menu") == "mine.txt" and self.text("#size") == "2 × 1", "a file that is known is opened twice"
        )
        self.forget()

    def unreadable_files(self) -> None:
        """A file that can't be read is told, and nothing else changes."""
        self.open("fan")
        file = "Object.assign(new File([''], 'x.txt'), { text: () => Promise.reject(new Error('no permission')) })"
        self.browser.value(f"page.openFile({file})")
        check(self.text("#note") == "x.txt can't be read: no permission.", self.text("#note"))
        check(self.value("menu") == "fan" and not self.is_hidden("note"), self.value("menu"))

    def edits(self) -> None:
        """What is edited stays: when the script is chosen again, when the page is loaded again, until it is removed."""
        self.open("fan")
        plain = self.value("text")
        self.write("target 5 5\n")
        check(self.value("menu") == "fan, edited", self.value("menu"))
        self.choose("fan")
        check(self.value("text") == plain, "the script itself was edited")
        self.write("target 6 6\n")
        check(self.value("menu") == "fan, edited 2", self.value("menu"))
        self.choose("fan, edited")
        check(self.value("text") == "target 5 5\n", self.value("text"))
        self.write("target 7 7\n")
        check(self.value("menu") == "fan, edited", "an edit of an edit has another name")
        self.browser.reload()
        self.browser.wait(f"typeof page === 'object' && {PLAYED}")
        check(
            self.value("menu") == "fan, edited" and self.value("text") == "target 7 7\n",
            f"{self.value('menu')}: {self.value('text')}",
        )
        self.click("remove")
        self.browser.wait(f"{PLAYED} && page.entry.name === 'fan'")
        check(self.value("text") == plain and self.is_hidden("remove"), "another script is open")
        names = self.browser.value("Array.from(document.querySelectorAll('#menu option'), (it) => it.value)")
        check("fan, edited" not in names and "fan, edited 2" in names, f"{names[:4]}")
        self.forget()

    def addresses(self) -> None:
        """A fragment that names nothing is told, and the page goes on."""
        for fragment, wanted in (
            ("100%", "can't be read"),
            ("nosuch", "has no script with the name nosuch"),
            ("deflate=AAAA", "can't be read"),
        ):
            self.open(fragment=fragment)
            check(wanted in self.text("#note") and not self.is_hidden("note"), f"{fragment}: {self.text('#note')!r}")
            check(self.text("#size") == "192 × 192", self.text("#size"))
        self.open("rows/back-face", fragment="rows%2Fback-face")
        self.browser.value("document.documentElement.dataset.state = 'asked'; location.hash = '#fan'")
        self.browser.wait(f"{PLAYED} && page.entry.name === 'fan'")

    def links(self) -> str:
        """A link carries the script as it is, to a page that has never seen it."""
        for name, text in (
            ("short", "target 4 4\ni clearc 1 2 3 255\n"),
            ("lamps", (DATA / "lamps.txt").read_text(encoding="ascii")),
        ):
            self.open()
            self.write(text)
            self.browser.value("page.copyLink()")
            check("link stands in" in self.text("#note"), self.text("#note"))
            fragment = self.browser.value("location.hash")
            self.forget()
            self.open(fragment=fragment[1:])
            check(
                self.value("text") == text and self.value("menu") == "shadow-volumes, edited",
                f"{name}: {self.value('menu')}",
            )
            check(len(fragment) < len(text) + 60, f"{name}: {len(fragment)} letters")
        return f"{len(fragment)} letters for {len(text)} of lamps"

    def other_script(self) -> None:
        """Another script has no pixel that was kept in the one before."""
        self.open()
        self.browser.press(*self.place(88, 113))
        self.wait_for_steps(88, 113)
        self.choose("fan")
        check(self.text("#changes") == "" and "Point at the image" in self.text("#pixel"), self.text("#pixel"))
        check(self.browser.value("page.view.main.frame.hidden"), "the frame stays")
        check(not self.browser.value("document.querySelector('.touched')"), "lines stay marked")

    def saved_pictures(self) -> None:
        """A saved picture has the device's bytes, those of colours with little alpha too."""
        self.open()
        corners = " ".join(
            f"{x} {y} 0 201 103 51 {alpha}" for x, y, alpha in ((0, 0, 1), (262144, 0, 7), (0, 262144, 90))
        )
        text = f"target 4 3\ni clearc 255 128 3 2\ni topology 4\ni vb {corners}\ni draw 3 0\n"
        self.write(text)
        wanted = pixels_of(plain_device.evaluate(text.encode())[1])
        for what, channels in (("alpha", 4), ("opaque", 3)):
            self.act("what", "change", what)
            width, height, found, data = png_of(base64.b64decode(self.browser.value(SAVED)))
            check((width, height, found) == (4, 3, channels), f"{what}: {width} by {height}, {found} channels")
            check(data == bytes(value for pixel in wanted for value in pixel[:channels]), f"{what}: other bytes")
        self.forget()

    # ---- the image

    def taps(self) -> None:
        """A tap keeps the pixel, and another tap on it leaves it."""
        self.browser.resize(375, 700, 2)
        self.browser.touch(True)
        try:
            self.open()
            self.browser.tap(*self.place(88, 113))
            self.browser.wait("page.pixels.pinned")
            check(
                self.browser.value("[page.pixels.pinned.x, page.pixels.pinned.y]") == [88, 113],
                self.browser.value("page.pixels.pinned"),
            )
            self.wait_for_steps(88, 113)
            check(self.text("#pixel").startswith("(88, 113)"), self.text("#pixel"))
            self.browser.tap(*self.place(88, 113))
            self.browser.wait("page.pixels.pinned === null")
        finally:
            self.browser.touch(False)
            self.browser.resize(1240, 780)

    def zoom(self) -> None:
        """The wheel zooms about the pointer, a drag moves the image and keeps no pixel, a kept one stays in view."""
        self.open()
        x, y = self.place(96, 96)
        fitting = self.browser.value("page.view.zoom")
        for _ in range(6):
            self.browser.wheel(x, y, -120)
        zoom = self.browser.value("page.view.zoom")
        check(zoom > 4 * fitting, f"six turns lead from {fitting} to {zoom}")
        now = self.place(96, 96)
        check(abs(now[0] - x) <= zoom and abs(now[1] - y) <= zoom, f"the pixel went from {(x, y)} to {now}")
        before = self.browser.value("[page.view.stage.scrollLeft, page.view.stage.scrollTop]")
        self.browser.drag(x, y, x - 50, y - 30)
        after = self.browser.value("[page.view.stage.scrollLeft, page.view.stage.scrollTop]")
        check([after[0] - before[0], after[1] - before[1]] == [50, 30], f"it was dragged from {before} to {after}")
        check(self.browser.value("page.pixels.pinned === null"), "a drag keeps a pixel")
        self.click("fit")
        self.browser.press(*self.place(150, 120))
        for _ in range(6):
            self.click("larger")
        seen = self.place(150, 120)
        box = self.browser.value(
            "(it => [it.left, it.top, it.right, it.bottom])(page.view.stage.getBoundingClientRect())"
        )
        check(
            box[0] < seen[0] < box[2] and box[1] < seen[1] < box[3],
            f"the kept pixel is at {seen}, and the stage at {box}",
        )
        self.click("fit")
        self.write("target 100 60\n")
        check(
            self.browser.value("page.view.zoom") >= 3
            and self.browser.value("page.view.zoom") == self.browser.value("page.view.fitting"),
            "fit is small",
        )
        self.forget()

    def squares(self) -> str:
        """Squares are equal at each ratio of the screen's pixels to the page's; a browser takes it when it starts."""
        seen = []
        for ratio in RATIOS:
            with Browser(
                self.browser.program, [f"--force-device-scale-factor={ratio}", "--window-size=1000,700"]
            ) as browser:
                page = FeatureTests(browser, self.address)
                page.open("fan")
                page.write(checkers())
                box = browser.value(
                    "(it => [it.left, it.top + it.height / 2, it.width])(page.view.main.canvas.getBoundingClientRect())"
                )
                runs = page.runs_of_row(round(box[1] * ratio), round(box[0] * ratio), round(box[2] * ratio))
            check(len(runs) == 16 and len(set(runs)) == 1, f"at a ratio of {ratio} the squares have {runs} pixels")
            seen.append(f"{runs[0]} at {ratio}")
        return ", ".join(seen)

    def runs_of_row(self, row: int, left: int, width: int) -> list[int]:
        """How many pixels of the screen behind each other have one colour, in a part of a row of the window."""
        picture = base64.b64encode(self.browser.picture()).decode()
        reds = self.browser.value(f"({ROW})(...{json.dumps([picture, row, left, width])})")
        runs = [0]
        for at, red in enumerate(reds):
            if at and (red > 127) != (reds[at - 1] > 127):
                runs.append(0)
            runs[-1] += 1
        return runs

    def depth_of_large(self) -> str:
        """The depth of a large target is there soon, and stencil and other depths sooner, since the device stays."""
        self.open("large")
        seconds = []
        for what in ("depth", "stencil"):
            begun = time.monotonic()
            self.act("what", "change", what)
            seconds.append(time.monotonic() - begun)
        size = [int(it) for it in self.browser.value("[page.view.size.width, page.view.size.height]")]
        check(size == [2048, 2048] and max(seconds) < LARGE_PLANE, f"{seconds} s")
        again = min(float(self.browser.value(PLANE_AGAIN)) for _ in range(10))
        check(again < PLANE_MOST, f"read and coloured again in {again:.0f} ms, and {PLANE_MOST} is the most")
        return f"{seconds[0]:.1f} s, stencil {seconds[1]:.1f} s; read and coloured again in {again:.0f} ms"

    def depth_range(self) -> None:
        """Depths between the two that are given are spread from white to dark."""
        self.open()
        check(self.is_hidden("range"), "the range is shown beside colours")
        self.act("what", "change", "depth")
        check(not self.is_hidden("range"), "the range isn't shown")
        near, far = (
            int(self.browser.value(f"document.getElementById('{part}').placeholder")) for part in ("near", "far")
        )
        check(0 < near < far < 16777215, f"{near} to {far}")
        plain = self.canvas()
        self.act("near", "change", str((near + far) // 2))
        narrow = self.canvas()
        self.act("near", "change", str(near))
        self.act("far", "change", str(far))
        check(narrow != plain and self.canvas() == plain, "the range changes nothing, or something else")

    def overdraw(self) -> str:
        """How often each pixel was touched: in colours, in numbers, and by one line."""
        self.open("pile")
        text = (DATA / "pile.txt").read_text(encoding="ascii")
        width, height = map(int, text.split(maxsplit=3)[1:3])
        places = [(x, y) for y in range(0, height, 16) for x in range(0, width, 13)]
        counts = {at: len(events) for at, events in plain_device.histories(text, places).items()}
        check(self.is_hidden("heat"), "the scale is shown beside colours")
        self.act("what", "change", "overdraw")
        least, most = (int(self.text(it)) for it in ("#least", "#most"))
        check(least <= min(counts.values()) and max(counts.values()) <= most, f"{least} to {most}, and {counts}")
        offsets = json.dumps([4 * (width * y + x) for x, y in places])
        colours = self.browser.value(f"{offsets}.map((at) => Array.from(page.picture.pixels.subarray(at, at + 4)))")
        shown = dict(zip(counts.values(), colours))
        check(all(shown[it] == colour for it, colour in zip(counts.values(), colours)), f"{counts}, and {colours}")
        lights = [sum(shown[it]) for it in sorted(shown)]
        check(len(lights) > 3 and lights == sorted(set(lights)), f"{shown}")
        (x, y), count = max(counts.items(), key=lambda it: it[1])
        self.browser.value(f"page.pixels.pin({{ x: {x}, y: {y} }})")
        self.browser.wait(f"document.getElementById('pixel').textContent.endsWith('touched {count} times')")
        self.act("slider", "input", "2")
        self.tick("changed", True)
        wanted = f"Line 2 touches {width * height:,} of {width * height:,} pixels"
        self.browser.wait(f"document.getElementById('difference').textContent.startsWith({json.dumps(wanted)})")
        self.tick("changed", False)
        self.act("what", "change", "opaque")
        self.browser.wait("!document.getElementById('pixel').textContent.includes('touched')")
        return f"{least} to {most} times"

    # ---- states and words

    def states(self) -> None:
        """The state behind the slider's line, with the lines that set it."""
        self.open()
        self.act("slider", "input", "8")
        self.browser.wait("document.querySelector('#state tr')")
        rows = {row[0]: row[1:] for row in self.rows("#state tr")}
        check(
            self.text("#state-line") == "line 8" and self.text("#state p") == "i: 7 commands pending",
            self.text("#state p"),
        )
        check(rows["vb"] == ["4", "60 vertices"] and rows["topology"] == ["3", "TRIANGLELIST"], f"{rows}")
        check(rows["blend"] == ["7", "logic op enable off, logic op NOOP, write mask NONE"], f"{rows['blend']}")
        check(
            rows["scissor"] == ["", "left 0, top 0, right 0, bottom 0"] and rows["predicate"] == ["", "none"], f"{rows}"
        )
        check(
            "front stencil depth fail op DECR" in rows["ds"][1] and "back stencil depth fail op INCR" in rows["ds"][1],
            f"{rows['ds']}",
        )
        self.act("slider", "input", "15")
        self.browser.wait("document.getElementById('state').textContent.includes('open queries')")

    def recorded_lines(self) -> None:
        """That the lines of a deferred context show nothing by themselves is said, and from where on they do."""
        self.open()
        head = "target 4 4\nd0 clearc 1 2 3 4\n"
        for text, wanted in (
            (head, "d0 finish ends the list"),
            (f"{head}d0 finish 0\n", "i exec d0 0 executes the list"),
            (f"{head}d0 finish 0\ni exec d0 0 1\ni exec d0 0 1\n", "is seen from i exec d0 0 on, in line 4, 5."),
        ):
            self.write(text)
            self.act("slider", "input", "2")
            self.browser.wait("document.querySelector('#state p + p')")
            shown = self.text("#state p + p")
            check(wanted in shown, f"{shown!r}, and not {wanted!r}")
            check(self.text("#state p") == "d0 records list 0: 1 command so far", self.text("#state p"))
        self.forget()

    def labels(self) -> None:
        """The names of a script's lines are told with them, and are gone where the script is another."""
        self.open("first_triangle")
        self.browser.value("page.entry.labels = [[2, 'ground'], [4, 'the <sail>'], [5, null]]; page.playTo(4)")
        self.browser.wait("document.getElementById('state-line').textContent === 'line 4, the <sail>'")
        self.browser.value("page.playTo(5)")
        self.browser.press(*self.place(48, 60))
        self.wait_for_steps(48, 60)
        calls = [row[1] for row in self.rows("#changes tbody tr")]
        check(calls == ["a new target", "ground: clearc", "draw"], f"{calls}")
        self.browser.value("page.fault = null; page.showVerdict({ line: 3, number: 4 })")
        check(self.text("#verdict .where").startswith("Line 3, column"), self.text("#verdict .where"))
        check("(in ground): refusal 4." in self.text("#verdict .where"), self.text("#verdict .where"))
        self.write(self.value("text") + "i nonsense\n")
        check(" (in " not in self.text("#verdict .where"), self.text("#verdict .where"))
        self.forget()

    def completions(self) -> None:
        """What may stand where one types is offered, and taken by keys."""
        self.open("first_triangle")
        self.browser.value("page.editor.goTo(2)")
        self.browser.type("i ")
        check(self.is_hidden("completions"), "something is offered behind a space")
        self.browser.type("t")
        items = self.browser.value("Array.from(document.querySelectorAll('#completions code'), (it) => it.textContent)")
        check(items == ["topology"] and not self.is_hidden("completions"), f"{items}")
        active = self.browser.value("document.getElementById('text').getAttribute('aria-activedescendant')")
        check(active == "completion-0", f"{active}")
        self.browser.key("Enter", 13)
        check(
            self.browser.value("page.editor.lineText(2)").startswith("i topology") and self.is_hidden("completions"),
            self.browser.value("page.editor.lineText(2)"),
        )
        self.browser.type(" ")
        self.browser.key(" ", 32, CONTROL)
        items = self.browser.value("Array.from(document.querySelectorAll('#completions li'), (it) => it.textContent)")
        check(items == ["4 TRIANGLELIST", "5 TRIANGLESTRIP"], f"{items}")
        self.browser.key("ArrowDown", 40)
        self.browser.key("Tab", 9)
        check(
            self.browser.value("page.editor.lineText(2)").startswith("i topology 5"),
            self.browser.value("page.editor.lineText(2)"),
        )
        self.browser.type(" x")
        self.browser.key("Escape", 27)
        check(
            self.is_hidden("completions") and self.browser.value("document.activeElement.id") == "text",
            "Escape doesn't close the list",
        )
        self.forget()

    def colours_of_words(self) -> None:
        """The letters behind the text area are those in it, in their colours, those of long lines too."""
        self.open("lamps")
        shown = self.browser.value("Array.from(document.querySelectorAll('.code .row'), (row) => row.textContent)")
        lines = self.value("text").split("\n")
        check(len(shown) > 8 and all(lines[at].startswith(row[:40]) for at, row in enumerate(shown)), f"{shown[:3]}")
        long = "i vb" + " 0 0 0 1 2 3 4" * 3000
        self.write(f"target 4 4\ni clearc 1 2 3 4\ni exec d0 0 1\ni clearc 1 2 3 256\n{long}\n")
        classes = "(row) => Array.from(row.children, (it) => it.className).join(' ')"
        kinds = self.browser.value(f"Array.from(document.querySelectorAll('.code .row'), {classes})")
        wanted = [
            "word number number",
            "actor word number number number number",
            "actor word actor number number",
            "actor word number number number wrong",
        ]
        check(kinds[:4] == wanted, f"{kinds[:4]}")
        self.browser.value("page.editor.area.scrollLeft = 40000")
        self.browser.wait("page.editor.scroll.left > 39000 && !page.editor.isDue")
        last = "Array.from(document.querySelectorAll('.code .row')).at(-1)"
        row = self.browser.value(f"(it => [it.textContent, parseFloat(it.style.left)])({last})")
        first = round(
            (row[1] - self.browser.value("page.editor.measures.left") + 40000)
            / self.browser.value("page.editor.letter")
        )
        text = self.value("text").split("\n")[4]
        check(text[first : first + len(row[0])] == row[0] and len(row[0]) < 400, f"{row} stands at {first}")
        self.forget()

    # ---- comparing

    def differs(self, a: str, b: str) -> tuple[int, int, list[int]]:
        """In how many pixels two scripts differ, by the plain evaluation, and by how much in each channel at most."""
        pairs = list(zip(*(pixels_of(plain_device.evaluate(text.encode())[1]) for text in (a, b))))
        most = [max(abs(one[at] - other[at]) for one, other in pairs) for at in range(4)]
        return sum(one != other for one, other in pairs), len(pairs), most

    def changed_planes(self, lines: list[str], line: int) -> tuple[int, int]:
        """The depth and the stencil of how many pixels a line changes, by the plain evaluation."""
        targets = []
        for last in (line - 1, line):
            width, height, taken = parse("".join(lines[:last]))
            session = plain_device.PlainSession(width, height)
            session.take_all(taken)
            targets.append(session.target)
        before, after = targets
        pairs = (before.depth, after.depth), (before.stencil, after.stencil)
        depth, stencil = (sum(one != other for one, other in zip(*both)) for both in pairs)
        return depth, stencil

    def changed_by_a_line(self) -> None:
        """What a line changed stands out of a veil over all else."""
        self.open()
        lines = (DATA / "shadow-volumes.txt").read_text(encoding="ascii").splitlines(keepends=True)
        self.act("slider", "input", "5")
        self.tick("changed", True)
        self.browser.wait("!document.getElementById('difference').hidden")
        count, pixels, most = self.differs("".join(lines[:4]), "".join(lines[:5]))
        largest = ", ".join(f"{name} {value}" for name, value in zip(("red", "green", "blue", "alpha"), most))
        wanted = f"Line 5 changes {count:,} of {pixels:,} pixels"
        depths, _ = self.changed_planes(lines, 5)
        also = f"at most by {largest}. It changes the depth of {depths:,} pixels."
        check(
            self.text("#difference").startswith(wanted) and self.text("#difference").endswith(also),
            self.text("#difference"),
        )
        open_ = self.browser.value(f"({CLEAR})(document.querySelector('#pane .veil'))")
        check(open_ == count, f"{open_} pixels are without a veil, and {count} changed")
        self.act("slider", "input", "6")
        self.browser.wait("document.getElementById('difference').textContent.startsWith('Line 6 changes no')")
        check(self.browser.value("document.querySelector('#pane .veil').hidden"), "the veil stays")
        self.act("slider", "input", "10")
        _, stencils = self.changed_planes(lines, 10)
        wanted = f"Line 10 changes no pixel of what is shown. It changes the stencil of {stencils:,} pixels."
        self.browser.wait(f"document.getElementById('difference').textContent === {json.dumps(wanted)}")
        self.tick("changed", False)
        check(self.is_hidden("difference"), "what changed is still said")

    def beside(self) -> None:
        """Two scripts beside one another, and where they differ; a pixel is told of both."""
        self.open("fan")
        plain = (DATA / "fan.txt").read_text(encoding="ascii")
        edited = re.sub(
            r"(?m)(^i vb (?:\S+ ){3})(\d+) ", lambda it: f"{it[1]}{(int(it[2]) + 90) % 256} ", plain, count=1
        )
        self.write(edited)
        self.set("beside", "fan")
        self.browser.wait("!document.getElementById('difference').hidden")
        count, pixels, most = self.differs(edited, plain)
        check(
            self.text("#difference").startswith(f"{count:,} of {pixels:,} pixels differ, in columns "),
            self.text("#difference"),
        )
        check(f"at most by red {most[0]}, green {most[1]}" in self.text("#difference"), self.text("#difference"))
        shown = self.browser.value(f"{DIGEST}(document.querySelector('#other canvas'))")
        check(shown == opaque(plain_device.evaluate(plain.encode())[1]), "another image stands beside it")
        self.browser.press(*self.place(100, 100))
        self.browser.wait("document.getElementById('pixel').textContent.includes('beside')")
        self.act("what", "change", "depth")
        self.browser.wait("document.getElementById('difference').textContent.startsWith('Nothing of what is shown')")
        check(
            self.browser.value(f"{DIGEST}(document.querySelector('#other canvas'))") == self.canvas(), "depths differ"
        )
        self.act("what", "change", "opaque")
        self.set("beside", "large")
        self.browser.wait("document.getElementById('difference').textContent.includes('another size')")
        self.set("beside", "refused/target-too-high")
        said = "has no image. refused/target-too-high is drawn as far as its line 1"
        self.browser.wait(f"document.getElementById('difference').textContent.includes('{said}')")
        self.set("beside", "")
        check(self.is_hidden("difference") and self.is_hidden("other"), "it stays beside the script")
        self.forget()

    # ---- windows, eyes and keys

    def windows(self) -> None:
        """In windows of all widths nothing stands outside, and the image and the text are seen."""
        for width, height in WIDTHS:
            self.browser.resize(width, height)
            self.open("lamps")
            self.browser.press(*self.place(20, 20))
            self.wait_for_steps(20, 20)
            over = self.browser.value("document.documentElement.scrollWidth - innerWidth")
            check(over <= 0, f"at a width of {width} the page is {over} pixels wider")
            for part in ("canvas", "editor", "slider", "state", "changes"):
                box = self.browser.value(
                    f"(it => [it.left, it.right, it.height])(document.getElementById('{part}').getBoundingClientRect())"
                )
                check(box[2] > 10 and box[0] < width and box[1] > 0, f"at a width of {width} {part} is at {box}")
        self.browser.resize(1240, 780)

    def contrast(self) -> str:
        """Letters stand out of each ground that they may have, by day and by night."""
        least = 21.0
        themes = re.findall(r":root \{(.*?)\n *\}", STYLE.read_text(encoding="utf-8"), re.S)
        check(len(themes) == 2, f"{len(themes)} themes")
        for theme in themes:
            colours = dict(re.findall(r"--([\w-]+): (#[0-9a-f]{6})\b", theme))
            letters = {
                "ink": "sheet ground last touched unplayed fault-ground",
                "quiet": "sheet ground",
                "accent": "sheet ground",
                "fault": "sheet ground fault-ground",
                "actor": "sheet last touched unplayed fault-ground",
                "word": "sheet last touched unplayed fault-ground",
            }
            for name, grounds in letters.items():
                for ground in grounds.split():
                    found = contrast_of(colours[name], colours[ground])
                    check(
                        found >= LEAST_CONTRAST,
                        f"{name} {colours[name]} on {ground} {colours[ground]} has a contrast of {found:.2f}",
                    )
                    least = min(least, found)
        return f"{least:.2f} at least"

    def names_of_controls(self) -> str:
        """Whoever hears the page is told the name of each control."""
        self.open()
        self.browser.call("Accessibility.enable")
        nodes = self.browser.call("Accessibility.getFullAXTree")["nodes"]
        self.browser.call("Accessibility.disable")
        roles = {"button", "combobox", "textbox", "slider", "checkbox", "application", "spinbutton", "listbox"}
        controls = [it for it in nodes if not it.get("ignored") and it["role"]["value"].lower() in roles]
        nameless = [it["role"]["value"] for it in controls if not it.get("name", {}).get("value")]
        check(len(controls) > 15 and not nameless, f"{nameless} have no name")
        return f"{len(controls)} controls"

    def keyboard(self) -> None:
        """By the Tab key one comes to each control and out of the text."""
        self.open()
        self.browser.value("document.getElementById('menu').focus()")
        seen = []
        for _ in range(40):
            seen.append(
                self.browser.value(
                    "document.activeElement.id || document.activeElement.className || document.activeElement.tagName"
                )
            )
            self.browser.key("Tab", 9)
        wanted = [
            "menu",
            "file",
            "save-script",
            "save-image",
            "link",
            "text",
            "what",
            "beside",
            "changed",
            "smaller",
            "fit",
            "larger",
            "canvas",
            "back",
            "slider",
        ]
        missing = [it for it in wanted if it not in seen]
        check(not missing, f"{missing} can't be reached by Tab: {seen}")

    def one_file(self) -> None:
        """The page asks for nothing but itself."""
        self.browser.call("Network.enable")
        before = len(self.browser.events)
        self.open("large")
        self.open()
        asked = [
            it["params"]["request"]["url"]
            for it in self.browser.events[before:]
            if it.get("method") == "Network.requestWillBeSent"
        ]
        self.browser.call("Network.disable")
        others = [
            it for it in asked if not it.startswith(("data:", "blob:", "about:")) and it.split("#")[0] != self.address
        ]
        check(asked and not others, f"{others}")


def contrast_of(one: str, other: str) -> float:
    """The contrast of two colours, as the guidelines for accessible pages count it."""

    def light(colour: str) -> float:
        parts = [int(colour[at : at + 2], 16) / 255 for at in (1, 3, 5)]
        linear = [part / 12.92 if part <= 0.04045 else math.pow((part + 0.055) / 1.055, 2.4) for part in parts]
        return 0.2126 * linear[0] + 0.7152 * linear[1] + 0.0722 * linear[2]

    low, high = sorted((light(one), light(other)))
    return (high + 0.05) / (low + 0.05)
