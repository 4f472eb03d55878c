// What a script's contexts hold and what runs, and the triangles of draws.

import assert from "assert/strict";
import test from "node:test";

import { triangles } from "../engine/assembly.js";
import { labelOf } from "../engine/labels.js";
import { Script, bytesOf, textOf } from "../engine/script.js";
import { Session } from "../engine/session.js";
import { stateAt } from "../engine/state.js";

const TEXT = `target 4 4
d0 topology 4
d0 vb 0 0 0 9 9 9 9 262144 0 0 9 9 9 9 0 262144 0 9 9 9 9
d0 draw 3 0
d0 finish 1
d0 clearc 1 2 3 4
d0 finish 0
i clearc 5 6 7 8
i begin 0
i end 0
i exec d0 0 0
i exec d0 1 1
d0 raster 1 0 0
i predicate 0 1
i clearc 9 9 9 9
`;
const script = new Script(bytesOf(TEXT));

/** @param {number} line */
function stateBehind(line) {
    return stateAt(new Session(script).takeTo(line));
}

test("a text by its lines", () => {
    assert.equal(script.count, 15);
    assert.equal(textOf(script.slice(2, 2)), "d0 topology 4\n");
    assert.equal(script.text(8), "i clearc 5 6 7 8");
    assert.deepEqual(script.numbers(12), [0, 1, 1]);
    assert.deepEqual(new Script(bytesOf("target 9 9\ni drawi 3 0 -12")).numbers(2), [3, 0, -12]);
    assert.deepEqual(new Script(bytesOf("target 9 9\nd7 predicate\n")).numbers(2), []);
    assert.equal(new Script(bytesOf("target 1 1")).count, 1);
    assert.equal(new Script(bytesOf("")).count, 0);
});

test("what runs, in the order of execution, each under its state", () => {
    const session = new Session(script).takeTo(script.count);
    const told = [...session.performed, session.pending].map(
        ({ at, by, list }) => [at, by, list.items.map(({ line, state }) => `${line} ${state.vb} ${state.predicate}`)]);
    assert.deepEqual(told, [
        [11, null, ["8 0 0"]], [11, 11, ["4 3 0"]], [12, null, []], [12, 12, ["6 3 0"]], [16, null, ["15 0 14"]],
    ]);
    assert.deepEqual([...session.issued], ["0"]);
});

test("the state behind a line, and where a list is executed", () => {
    const recorded = stateBehind(4);
    assert.equal(recorded.actor, "d0");
    assert.deepEqual(recorded.list, { number: 0, finish: 5, by: [11] });
    assert.equal(recorded.commands, 3);
    const settings = Object.fromEntries(recorded.settings.map(({ word, line, count }) => [word, [line, count]]));
    assert.deepEqual([settings.topology, settings.vb, settings.ib, settings.raster], [[2, 1], [3, 21], [0, 0], [0, 0]]);
    // the list that a finish line ends
    assert.deepEqual(stateBehind(7).list, { number: 1, finish: 7, by: [12] });
    assert.equal(stateBehind(6).commands, 2, "the kept state is a command");
    assert.deepEqual(stateBehind(13).list, { number: 2, finish: 0, by: [] });
    assert.deepEqual([stateBehind(9).actor, stateBehind(9).open, stateBehind(9).list], ["i", ["0"], null]);
    assert.equal(stateBehind(1).actor, "i");
    assert.equal(stateBehind(11).commands, 0);
    assert.equal(stateBehind(12).commands, 1);
});

test("a list's and a strip's triangles, the leading vertex first", () => {
    assert.deepEqual(triangles([0, 1, 2, 3, 4, 5, 6], 4, null), [[0, 1, 2], [3, 4, 5]]);
    assert.deepEqual(triangles([0, 1, 2, 3, 4, 5], 5, null), [[0, 1, 2], [1, 3, 2], [2, 3, 4], [3, 5, 4]]);
    assert.deepEqual(triangles([7, 8, 65535, 1, 2, 3, 4, 65535, 65535, 5], 5, 65535), [[1, 2, 3], [2, 4, 3]]);
    assert.deepEqual(triangles([65535, 1, 2], 4, 65535), [[65535, 1, 2]]);
    assert.deepEqual(triangles([], 5, null), []);
});

test("a name holds from its line on, up to the next one", () => {
    /** @type {import("../engine/labels.js").Mark[]} */
    const marks = [[2, "floor"], [5, null], [7, "wall"]];
    assert.deepEqual([1, 2, 4, 5, 6, 7, 99].map((line) => labelOf(marks, line)),
        [null, "floor", "floor", null, null, "wall", "wall"]);
    assert.equal(labelOf([], 3), null);
});
