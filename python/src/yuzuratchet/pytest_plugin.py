"""For pytest: each file ``*.scene.txt`` is a test, and what differs is shown in pictures.

A script is drawn, and compared with what ``yuzuratchet suite FOLDER --write`` has stored in its
folder or above. ``--scenes-page FILE`` writes a page of the scenes that differ, those that
:func:`yuzuratchet.testing.assert_same` tells of included; where pytest-html is installed, its report
has the pictures too.
"""

from __future__ import annotations

import base64
from dataclasses import dataclass, field
from importlib import import_module
from pathlib import Path
from typing import TYPE_CHECKING, Any, Callable, Generator, Iterator, TypeVar

import pytest

if TYPE_CHECKING:  # (pytest loads this module always, and numpy only where there is a scene)
    from .report import Pictures
    from .suite import Outcome, Suite

SUFFIX = ".scene.txt"

Hook = TypeVar("Hook", bound=Callable[..., Any])
hook_wrapper: Callable[[Hook], Hook] = pytest.hookimpl(hookwrapper=True)


class SceneDiffers(Exception):
    """A script doesn't give what is stored; ``pictures`` has what there is to see."""

    def __init__(self, message: str, pictures: Pictures) -> None:
        super().__init__(message)
        self.pictures = pictures


@dataclass
class Shown:
    """What the page shows: how many scenes were drawn, and sections of those that differ."""

    path: Path
    count: int = 0
    sections: list[str] = field(default_factory=list)

    def add(self, name: str, message: str, pictures: Pictures) -> None:
        """Adds a scene that differs."""
        from .report import section_of

        self.sections.append(section_of(name, message, pictures))

    def write(self) -> None:
        """Writes the page."""
        from .report import page

        differ = len(self.sections)
        summary = (
            f"{self.count} tests ran, {differ} scene{' differs' if differ == 1 else 's differ'}"
        )
        self.path.write_text(page("Scenes", summary, not differ, self.sections), encoding="utf-8")


SHOWN = pytest.StashKey[Shown]()


def pytest_addoption(parser: pytest.Parser) -> None:
    """Adds the words of this plugin."""
    group = parser.getgroup("yuzuratchet")
    about = "writes a page of the scenes that differ, with pictures"
    group.addoption("--scenes-page", metavar="FILE", type=Path, help=about)


def pytest_configure(config: pytest.Config) -> None:
    """Makes the page that is asked for; one that can't be written is told before any test runs."""
    path: Path | None = config.getoption("scenes_page")
    if path is None:
        return
    try:
        path.write_text("", encoding="utf-8")
    except OSError as error:
        raise pytest.UsageError(f"--scenes-page: {path}: {error.strerror}") from error
    config.stash[SHOWN] = Shown(path)


def pytest_sessionfinish(session: pytest.Session) -> None:
    """Writes the page."""
    shown = session.config.stash.get(SHOWN, None)
    if shown:
        shown.write()


def pytest_terminal_summary(terminalreporter: Any, config: pytest.Config) -> None:
    """Says where the page is."""
    shown = config.stash.get(SHOWN, None)
    if shown:
        terminalreporter.write_line(f"scenes that differ are shown in {shown.path}")


def pytest_collect_file(file_path: Path, parent: pytest.Collector) -> SceneFile | None:
    """A script is a file of tests."""
    if file_path.name.endswith(SUFFIX):
        return SceneFile.from_parent(parent, path=file_path)  # type: ignore[no-any-return]
    return None


class SceneFile(pytest.File):
    """The file of a script."""

    def collect(self) -> Iterator[SceneItem]:
        """Its one test."""
        yield SceneItem.from_parent(self, name=self.path.name.removesuffix(SUFFIX))


class SceneItem(pytest.Item):
    """A script that is drawn, and compared with what is stored."""

    def runtest(self) -> None:
        """Draws the script; raises :class:`SceneDiffers` where it doesn't give what is stored."""
        from .report import Report, pictures
        from .suite import Verdict
        from .suite_run import SuiteRun

        suite, outcome = judged_scene(self.path)
        if outcome.verdict is not Verdict.AGREES:
            report = Report(suite, SuiteRun([outcome]), suite.scripts.name)
            parts = [f"{outcome.name}: {outcome.text}", report.details(outcome)]
            if outcome.verdict is Verdict.NOT_STORED:
                parts.append(f"it is stored by: yuzuratchet suite {suite.scripts} --write")
            message = "\n".join(it for it in parts if it)
            raise SceneDiffers(message, pictures(suite, outcome))

    def repr_failure(self, excinfo: pytest.ExceptionInfo[BaseException], style: Any = None) -> Any:
        """What differs, in place of a traceback."""
        if isinstance(excinfo.value, SceneDiffers):
            return str(excinfo.value)
        return super().repr_failure(excinfo, style)

    def reportinfo(self) -> tuple[Path, int, str]:
        """Where the test stands."""
        return self.path, 0, f"scene: {self.name}"


def judged_scene(path: Path) -> tuple[Suite, Outcome]:
    """A script, drawn and compared with what is stored in its folder or above."""
    from .backends import draw
    from .suite import drawn_outcome, judged

    suite, name = suite_of(path)
    expected = suite.stored().get(name)
    planes = expected is not None and expected.has_planes
    return suite, judged(suite, drawn_outcome(name, path.read_bytes(), draw, planes), expected)


def suite_of(path: Path) -> tuple[Suite, str]:
    """The suite that has a script, and its name there: the nearest folder where something is stored
    of it, or else its own."""
    from .suite import Suite

    for folder in path.parents:
        if (folder / "expected").is_file():
            suite, name = Suite.of_folder(folder), path.relative_to(folder).as_posix()
            if name in suite.stored():
                return suite, name
    return Suite.of_folder(path.parent), path.name


@hook_wrapper
def pytest_runtest_makereport(
    item: pytest.Item, call: pytest.CallInfo[None]
) -> Generator[None, Any, None]:
    """Puts the pictures of what differs into the reports."""
    made = yield
    shown = item.config.stash.get(SHOWN, None)
    if shown and call.when == "call":
        shown.count += 1
    error = call.excinfo.value if call.excinfo else None
    pictures = getattr(error, "pictures", None)
    if error is None or not isinstance(pictures, list):
        return
    if shown:
        shown.add(item.nodeid, str(error), pictures)
    if item.config.pluginmanager.hasplugin("html"):
        add_to_html(made.get_result(), pictures)


def add_to_html(report: Any, pictures: Pictures) -> None:
    """Adds pictures to the report of pytest-html, of its version 4 and of those before."""
    from .images import encode, opaque

    html = import_module("pytest_html")
    attribute = "extras" if int(html.__version__.split(".")[0]) >= 4 else "extra"
    found = list(getattr(report, attribute, []))
    for caption, pixels in pictures:
        data = base64.b64encode(encode(opaque(pixels))).decode("ascii")
        found.append(html.extras.png(data, name=caption))
    setattr(report, attribute, found)
