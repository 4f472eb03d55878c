"""The page that draws in a browser: built of its sources and the WebAssembly module, and given a script.

The built page is one file. :func:`build_page` writes it, as tools/make_page.py and the tests call it;
:func:`with_script` puts a script into a built page, as ``yuzuratchet view`` does.
"""

from __future__ import annotations

import base64
import gzip
import html
import json
import re
from dataclasses import asdict, dataclass
from pathlib import Path
from typing import Final

from .bundle import bundled
from .device import DEVICE
from .errors import PageMissing
from .labels import Labels
from .limits import LIMITS
from .messages import FAULTS, REFUSALS
from .program import INSTALLED, named_file, repository
from .words import TARGET, WORDS, Argument, Word

VARIABLE: Final = "YUZURATCHET_PAGE"
BUILT: Final = Path("web", "out", "index.html")

WORKER: Final = "engine/worker.js"
"""The source that the page's worker begins with: the page has it as text, with what it imports."""

PAGE: Final = "page/main.js"
"""The source that the page begins with."""

HOW_TO_BUILD: Final = f"""\
The page is built in a clone of the repository, of its sources and the WebAssembly module:
    tools/make_page.py
It is then {BUILT}; name another by --page, or in the environment by {VARIABLE}."""


@dataclass(frozen=True)
class Entry:
    """A script of the page's menu: under which heading it stands, its name and its text."""

    group: str
    name: str
    text: str


def find_page(page: str | Path | None = None) -> Path:
    """The built page: the one that is named here, or else by the environment, or else the one that
    came with this package, or else this clone's.

    Raises :class:`~yuzuratchet.errors.PageMissing`, whose text says how to build it.
    """
    if named := named_file(page, VARIABLE):
        path, by = named
        if path.is_file():
            return path
        raise PageMissing(f"there is no page {path} ({by}).\n{HOW_TO_BUILD}")
    top = repository()
    for built in (INSTALLED / "page.html", *([top / BUILT] if top else [])):
        if built.is_file():
            return built
    raise PageMissing(f"no built page is found.\n{HOW_TO_BUILD}")


def build_page(sources: Path, module: bytes, gallery: list[Entry], opening: str) -> str:
    """The page of the sources in a folder, with the module, a menu of scripts, and the name of the one
    that is shown first."""
    page = (sources / "index.html").read_text(encoding="utf-8")
    style = f"<style>\n{(sources / 'style.css').read_text(encoding='utf-8')}</style>"
    menu = json.dumps([asdict(entry) for entry in gallery]).encode("ascii")
    data = [
        _json("tables", tables()),
        _json("opening", {"name": opening, "text": ""}),
        _packed("gallery", menu),
        _packed("module", module),
    ]
    code = [
        f'<script type="text/plain" id="worker">\n{bundled(sources, WORKER)}</script>',
        f"<script>\n{bundled(sources, PAGE)}</script>",
    ]
    for mark, text in (
        ("style.css", style),
        ("data", "\n".join(data)),
        ("scripts", "\n".join(code)),
    ):
        page = page.replace(f"<!-- {mark} -->", text)
    return page


def with_script(page: str, name: str, text: str, labels: Labels = Labels()) -> str:
    """A built page that shows this script first, under its name, with the names of its lines.

    Raises :class:`~yuzuratchet.errors.PageMissing` where the text is no built page.
    """
    opening = re.compile(r'<script type="application/json" id="opening">.*?</script>', re.S)
    if len(opening.findall(page)) != 1:
        raise PageMissing(f"this is no built page.\n{HOW_TO_BUILD}")
    title = f"<title>{html.escape(name)} - Yuzuratchet</title>"
    page = re.sub(r"<title>.*?</title>", lambda _: title, page, count=1)
    shown: dict[str, object] = {"name": name, "text": text}
    if labels:
        shown["labels"] = [*labels]
    return opening.sub(lambda _: _json("opening", shown), page)


def tables() -> dict[str, object]:
    """What the page knows of scripts, from device.json: words, limits, the states as they are at first, and what
    the numbers of a refused line mean."""
    return {
        "actors": DEVICE["actors"],
        "words": word_table(),
        "limits": LIMITS,
        "defaults": dict(line.partition(" ")[::2] for line in DEVICE["default_state"]),
        "messages": message_table(),
        "library": DEVICE["library"],
    }


def message_table() -> dict[str, dict[str, str]]:
    """What the numbers of a refused line mean, for the page."""
    kinds = {"fault": FAULTS, "refusal": REFUSALS}
    return {
        str(number): {"kind": kind, **asdict(message)}
        for kind, messages in kinds.items()
        for number, message in messages.items()
    }


def word_table() -> dict[str, dict[str, object]]:
    """The words of a script with their arguments, for the page."""
    return {word.name: _word(word) for word in (TARGET, *WORDS.values())}


def _argument(argument: Argument) -> dict[str, object]:
    values = {str(value): name for name, value in argument.names.items()}
    told: dict[str, object] = {
        "name": argument.name,
        "range": argument.range,
        "least": argument.least,
        "most": argument.most,
        "butZero": argument.but_zero,
        "isContext": argument.is_context,
        "values": values,
    }
    if argument.unit:
        parts, of = argument.unit
        return {**told, "unit": [LIMITS[parts], of]}
    return told


def _word(word: Word) -> dict[str, object]:
    arguments = [_argument(it) for it in word.arguments]
    actors = "i, d0 to d7" if word.immediate and word.deferred else "d0 to d7"
    if word is TARGET:
        actors = "line 1"
    elif not word.deferred:
        actors = "i"
    return {
        "name": word.name,
        "actors": actors,
        "immediate": word.immediate,
        "deferred": word.deferred,
        "does": DEVICE["words"][word.name]["does"],
        "arguments": arguments,
        "counts": word.counts,
    }


def _json(name: str, value: object) -> str:
    # (a text within a script element ends at `</script`, wherever that stands)
    text = json.dumps(value).replace("<", "\\u003c")
    return f'<script type="application/json" id="{name}">{text}</script>'


def _packed(name: str, data: bytes) -> str:
    text = base64.b64encode(gzip.compress(data, 9, mtime=0)).decode("ascii")
    return f'<script type="text/plain" id="{name}">{text}</script>'
