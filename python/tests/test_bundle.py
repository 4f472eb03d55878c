"""Modules of JavaScript that are joined into one script."""

from __future__ import annotations

from pathlib import Path

import pytest

from yuzuratchet.bundle import bundled

JOINED = """\
"use strict";
// low/one.js
const low_one = (() => {
const hidden = 1;
function* one() {}
class Two {}
return { one, Two };
})();
// low/two.js
const low_two = (() => {
const { one, Two } = low_one;
const hidden = 2;
async function three() {}
return { three };
})();
// main.js
const main = (() => {
const { three } = low_two;
const { one } = low_one;
three(one);
return {  };
})();
"""


def write(folder: Path, **texts: str) -> None:
    (folder / "low").mkdir()
    for name, text in texts.items():
        path = folder / ("main.js" if name == "main" else f"low/{name}.js")
        path.write_text(text, encoding="utf-8")


def test_modules_are_joined_behind_what_they_import(tmp_path: Path) -> None:
    write(
        tmp_path,
        one="const hidden = 1;\nexport function* one() {}\nexport class Two {}\n",
        two='import { one, Two } from "./one.js";\nconst hidden = 2;\nexport async function three() {}\n',
        main='import { three } from "./low/two.js";\nimport { one } from "./low/../low/one.js";\nthree(one);\n',
    )
    assert bundled(tmp_path, "main.js") == JOINED


@pytest.mark.parametrize(
    "line",
    [
        'import * as one from "./one.js";',
        'import one from "./one.js";',
        'export { one } from "./one.js";',
        "export default 1;",
        "export let one = 1;",
    ],
)
def test_other_forms_are_refused(tmp_path: Path, line: str) -> None:
    write(tmp_path, one="export const one = 1;\n", main=f"{line}\n")
    with pytest.raises(ValueError, match="can't be joined"):
        bundled(tmp_path, "main.js")


def test_a_module_that_imports_itself_is_refused(tmp_path: Path) -> None:
    write(
        tmp_path,
        one='import { two } from "./two.js";\nexport const one = two;\n',
        two='import { one } from "./one.js";\nexport const two = one;\n',
    )
    with pytest.raises(ValueError, match="imports itself"):
        bundled(tmp_path, "low/one.js")
