// Scripts in the fragment of an address.

import assert from "assert/strict";
import test from "node:test";

import { fragmentOf, fragmentOfName, linked } from "../engine/link.js";

const LONG = `target 64 64\n${"i clearc 1 2 3 4\n".repeat(2000)}`;

test("a script comes back, with its name", async () => {
    for (const text of ["", "target 4 4\n", LONG, "ä & = # % +\n", "i \u{1f600}"]) {
        for (const name of ["fan", "my script, edited 2", "a=b&c#d%", "ä"]) {
            const fragment = await fragmentOf(name, text);
            assert.match(fragment, /^#name=[!-~]+$/);
            assert.deepEqual(await linked(fragment), { name, text });
        }
    }
});

test("a long script is packed", async () => {
    const fragment = await fragmentOf("long", LONG);
    assert.ok(fragment.startsWith("#name=long&deflate=") && fragment.length < 300, `${fragment.length} letters`);
    assert.match(await fragmentOf("short", "target 4 4\n"), /&text=/);
});

test("a name alone is one of the menu", async () => {
    for (const name of ["fan", "rows/back-face", "fan, edited", "100%", "name=x"]) {
        assert.deepEqual(await linked(fragmentOfName(name)), { name, text: null });
    }
    assert.equal(await linked(""), null);
    assert.equal(await linked("#"), null);
});

test("what can't be read is told", async () => {
    const cut = (await fragmentOf("long", LONG)).slice(0, -40);
    for (const fragment of ["#100%", "#deflate=AAAA", "#deflate=%%", "#name=x", "#text=%", cut]) {
        await assert.rejects(linked(fragment), /can't be read/, fragment);
    }
});
