"""What a suite's run is told by: lines, JUnit's XML for a build server, and a page of what differs."""

from __future__ import annotations

import base64
import difflib
import html
from dataclasses import dataclass
from pathlib import Path
from string import Template
from xml.etree import ElementTree

from . import interrupts
from .difference import marked
from .errors import ImageError
from .images import Pixels, decode, encode, load, opaque
from .planes import PLANES
from .suite import Outcome, Suite, Verdict
from .suite_run import SuiteRun

Pictures = list[tuple[str, Pixels]]
"""Images with their captions."""

ANSWER_LINES = 40
LEAST_WIDTH = 240
SHARD = "shard"
"""The property of the XML that says which part of a suite it is."""

CUT_SHORT = "the whole suite"
"""The case of the XML that is an error where the run was cut short."""

PAGE = Template(
    """<!DOCTYPE html>
<html lang="en">
<head>
<meta charset="utf-8">
$meta<title>$title</title>
<style>
body { font: 15px/1.5 system-ui, sans-serif; margin: 2em auto; max-width: 84em; padding: 0 1em }
body { color: #222; background: #fff }
h1 { font-size: 1.4em } h2 { font-size: 1.1em; margin: 2em 0 .3em }
figure { display: inline-block; margin: 0 1.2em 1em 0; vertical-align: top }
figcaption { font-size: .85em; color: #555 }
img { image-rendering: pixelated; border: 1px solid #bbb; display: block }
pre { background: #f4f4f4; padding: .6em 1em; overflow-x: auto }
.same { color: #1a7f37 } .differs { color: #b3261e }
</style>
</head>
<body>
<h1>$title</h1>
<p class="$state">$summary</p>
$sections
</body>
</html>
"""
)


@dataclass(frozen=True)
class Report:
    """What there is to tell of a suite's run; ``name`` is that of its folder."""

    suite: Suite
    run: SuiteRun
    name: str

    @property
    def differing(self) -> list[Outcome]:
        """What doesn't agree."""
        return [it for it in self.run.outcomes if it.verdict is not Verdict.AGREES]

    @property
    def summary(self) -> str:
        """How many scripts agree, in a line, and what cut the run short."""
        drawn = len(self.run.outcomes)
        agree = f"{drawn - len(self.differing)} of {drawn} scripts agree"
        return f"{agree}; {self.cut_text}" if self.run.cut else agree

    @property
    def cut_text(self) -> str:
        """What cut the run short, and how much of it is missing."""
        if self.run.cut is None:
            return ""
        left, every = len(self.run.left), len(self.run.left) + len(self.run.outcomes)
        return f"cut short by {interrupts.name_of(self.run.cut)}: {left} of {every} were not drawn"

    def details(self, outcome: Outcome) -> str:
        """What there is to say of a script that doesn't agree."""
        parts = [outcome.message, self.image_text(outcome)]
        parts += [f"{name}: its digest is another" for name in outcome.differs if name in PLANES]
        if "answers" in outcome.differs:
            parts.append(answers_difference(outcome))
        return "\n".join(part for part in parts if part)

    def image_text(self, outcome: Outcome) -> str:
        """In which pixels an image differs, and by how much, or why that can't be told."""
        if "image" not in outcome.differs:
            return ""
        try:
            difference = self.suite.image_difference(outcome)
        except ImageError as error:
            return str(error)
        other = f"{self.suite.picture(outcome.name)} isn't the image whose digest is stored"
        return difference.text if difference else other


def answers_difference(outcome: Outcome) -> str:
    """The answer lines that differ, as a unified difference."""
    expected = outcome.expected.answers if outcome.expected else ""
    drawn = outcome.drawn.answers if outcome.drawn else ""
    found = difflib.unified_diff(
        expected.splitlines(), drawn.splitlines(), "expected", "drawn", n=1, lineterm=""
    )
    lines = list(found)
    more = len(lines) - ANSWER_LINES
    return "\n".join(lines[:ANSWER_LINES] + ([f"... and {more} lines more"] if more > 0 else []))


# ---- JUnit


def write_junit(report: Report, path: Path) -> None:
    """Writes the outcomes as the XML that build servers read from JUnit.

    Where the run was cut short, what was not drawn is skipped, and one more case is an error.
    """
    run, name = report.run, report.name
    failed = [it for it in run.outcomes if it.verdict is Verdict.FAILED]
    counts = {
        "tests": len(run.outcomes) + len(run.left) + bool(run.cut),
        "failures": len(report.differing) - len(failed),
        "errors": len(failed) + bool(run.cut),
        "skipped": len(run.left),
    }
    attributes = {"name": name, **{key: str(value) for key, value in counts.items()}}
    root = ElementTree.Element("testsuites", attributes)
    took = {"time": f"{sum(it.seconds for it in run.outcomes):.3f}"}
    element = ElementTree.SubElement(root, "testsuite", {**attributes, **took})
    properties = ElementTree.SubElement(element, "properties")
    part = {"name": SHARD, "value": str(report.suite.shard)}
    ElementTree.SubElement(properties, "property", part)
    for outcome in run.outcomes:
        case = case_element(element, name, outcome.name, outcome.seconds)
        if outcome.verdict is not Verdict.AGREES:
            kind = "error" if outcome in failed else "failure"
            told = ElementTree.SubElement(case, kind, {"message": outcome.text})
            told.text = report.details(outcome)
    for left in run.left:
        case = case_element(element, name, left, 0)
        ElementTree.SubElement(case, "skipped", {"message": report.cut_text})
    if run.cut:
        case = case_element(element, name, CUT_SHORT, 0)
        ElementTree.SubElement(case, "error", {"message": report.cut_text})
    ElementTree.indent(root)
    ElementTree.ElementTree(root).write(path, encoding="utf-8", xml_declaration=True)


def case_element(
    suite: ElementTree.Element, of: str, name: str, seconds: float
) -> ElementTree.Element:
    attributes = {"classname": of, "name": name, "time": f"{seconds:.3f}"}
    return ElementTree.SubElement(suite, "testcase", attributes)


# ---- the page


def write_page(report: Report, path: Path) -> None:
    """Writes one page with what doesn't agree: its images, what differs marked, and its answers."""
    differing = report.differing
    is_well = not differing and not report.run.cut
    sections = [section(report, outcome) for outcome in differing]
    meta = f'<meta name="{SHARD}" content="{report.suite.shard}">\n'
    path.write_text(
        page(f"Suite {report.name}", report.summary, is_well, sections, meta), encoding="utf-8"
    )


def page(title: str, summary: str, is_well: bool, sections: list[str], meta: str = "") -> str:
    """A page of sections, which are HTML already."""
    return PAGE.substitute(
        meta=meta,
        title=html.escape(title),
        state="same" if is_well else "differs",
        summary=html.escape(summary),
        sections="\n".join(sections),
    )


def section(report: Report, outcome: Outcome) -> str:
    """A script that doesn't agree."""
    title = f"{outcome.name}: {outcome.text}"
    return section_of(title, report.details(outcome), pictures(report.suite, outcome))


def section_of(title: str, text: str, shown: Pictures) -> str:
    """A section of a page: its title, a text, and pictures."""
    parts = [f"<h2>{html.escape(title)}</h2>"]
    parts += [f"<pre>{html.escape(text)}</pre>"] if text else []
    return "\n".join(parts + [figure(caption, pixels) for caption, pixels in shown])


def pictures(suite: Suite, outcome: Outcome) -> Pictures:
    """The image that was expected, the one that was drawn, and where they differ, as far as they are
    known."""
    if not outcome.image:
        return []
    picture = suite.picture(outcome.name)
    found = []
    try:
        drawn = decode(outcome.image, outcome.name)
        found.append(("drawn", drawn))
        if picture is not None and outcome.expected is not None:
            found.insert(0, ("expected", load(picture)))
            difference = suite.image_difference(outcome)
            found += [("what differs", marked(drawn, difference))] if difference else []
    except ImageError:
        pass  # (the text says why)
    return found


def figure(caption: str, pixels: Pixels) -> str:
    """An image within the page; a small one is enlarged."""
    width = pixels.shape[1]
    shown = width * max(1, -(-LEAST_WIDTH // width)) if width < LEAST_WIDTH else width
    data = base64.b64encode(encode(opaque(pixels))).decode("ascii")
    image = f'<img src="data:image/png;base64,{data}" width="{shown}" alt="{html.escape(caption)}">'
    size = f"{width} by {pixels.shape[0]} pixels"
    return f"<figure>{image}<figcaption>{html.escape(caption)}, {size}</figcaption></figure>"
