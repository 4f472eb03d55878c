// What covers a pixel, by worked rows, and the history of a pixel over the module.

import assert from "assert/strict";
import test from "node:test";

import { Triangles, depthAt, snapped, weightsAt } from "../engine/covering.js";
import { OUTCOMES, same } from "../engine/history.js";
import { Kept } from "../engine/kept.js";
import { Script, bytesOf } from "../engine/script.js";
import { Session } from "../engine/session.js";
import { missing, module } from "./module.js";
import { tables } from "./tables.js";

const { limits } = tables;
const NEW = { colour: [0, 0, 0, 0], depth: limits.deepest, stencil: 0 };
// the corners of half a square of eight pixels, in 1/256 pixel
const X = [128, 2176, 128], Y = [128, 128, 2176];
const FACES = { isCounterClockwise: false, bias: 0 };
const CORNERS = "0 0 9 1 2 3 4 524288 0 9 1 2 3 4 0 524288 9 1 2 3 4 524288 524288 9 5 6 7 8";
// a clear, a strip that is cut, drawn again for a query that counts nothing, and a list whose triangle is left out by it
const TEXT = `target 8 8
i clearc 5 6 7 8
i raster 1 0 0
i topology 5
i vb ${CORNERS}
i ib 0 1 65535 0 1 2 3
i drawi 7 0 0
d0 clearc 1 1 1 1
d0 predicate 0 0
d0 topology 4
d0 vb ${CORNERS}
d0 draw 3 0
d0 finish 0
i begin 0
i drawi 7 0 0
i end 0
i exec d0 0 1
`;

/** @param {number} x @param {number} y */
function weights(x, y) {
    return weightsAt(X, Y, { x, y });
}

/** @param {string} text */
function keptOf(text) {
    if (!module) throw new Error("there is no module");
    return new Kept(module, new Script(bytesOf(text)));
}

test("coordinates go to the nearest part, and at ties to the even one", () => {
    const given = [0, 127, 128, 129, 384, 385, 640, -127, -128, -129, -384];
    assert.deepEqual(given.map((place) => snapped(place, 256) + 0), [0, 0, 0, 1, 2, 2, 2, 0, 0, -1, -2]);
});

test("left and top edges belong to a triangle, others do not", () => {
    assert.ok(weights(128, 1152) && weights(1152, 128));
    assert.equal(weights(1152, 1152), null);
    assert.deepEqual(weights(640, 640), [2048 * 1024, 2048 * 512, 2048 * 512]);
    assert.deepEqual(weightsAt([...X].reverse(), [...Y].reverse(), { x: 640, y: 640 }),
        [-2048 * 512, -2048 * 512, -2048 * 1024]);
    assert.equal(weightsAt([0, 256, 512], [0, 256, 512], { x: 256, y: 256 }), null);
});

test("a depth is rounded down before its bias, and stays in its range", () => {
    const far = 2 ** 43;
    assert.equal(depthAt([1, 1, 1], [0, 1, 1], 0, limits.deepest), 0);
    assert.equal(depthAt([-2, -1, -1], [4, 7, 0], 5, limits.deepest), 8);
    assert.equal(depthAt([1, 1, 1], [9, 9, 9], -10, limits.deepest), 0);
    assert.equal(depthAt([far, far - 1, 1], [limits.deepest, limits.deepest, 0], 0, limits.deepest), limits.deepest - 1);
});

test("the triangles of a strip that is cut are counted as they are assembled", () => {
    const script = new Script(bytesOf(TEXT));
    const [, strip] = new Session(script).takeTo(7).pending.list.items;
    const triangles = new Triangles(script, limits);
    const on = (/** @type {number} */ x, /** @type {number} */ y) =>
        triangles.on(strip, { x, y }, FACES).map(({ number, of, colour, isFront }) => [number, of, ...colour, isFront]);
    assert.deepEqual(on(1, 1), [[0, 2, 1, 2, 3, 4, true]]);
    assert.deepEqual(on(7, 6), [[1, 2, 1, 2, 3, 4, true]]);
    assert.equal(triangles.placesOf(strip), triangles.placesOf(strip));
});

test("a module's history of a pixel", { skip: missing }, () => {
    const text = bytesOf("target 2 2\ni clearc 1 2 3 4\ni cleards 5 6\ni clearc 7 7 7 7\n");
    const events = [1, 2, 3, 9].map((room) => module?.history(text, { x: 1, y: 1 }, room) || []);
    for (const found of events) assert.deepEqual(found, events[0]);
    assert.deepEqual(events[0].map(({ item, line, command, triangle }) => [item, line, command, triangle]),
        [[0, 2, 0, 0], [1, 3, 0, 0], [2, 4, 0, 0]]);
    assert.deepEqual(events[0][0].before, NEW);
    assert.deepEqual(events[0][2].after, { colour: [7, 7, 7, 7], depth: 5, stencil: 6 });
    assert.ok(events[0].every(({ stencilPassed, depthPassed }) => stencilPassed && depthPassed));
    assert.throws(() => module?.history(text, { x: 2, y: 0 }), /no such pixel/);
    assert.throws(() => module?.history(bytesOf("target 2 2\ni draw 3 0\n"), { x: 0, y: 0 }), /refused/);
});

test("the steps of a pixel, with those that don't touch it", { skip: missing }, () => {
    const kept = keptOf(TEXT);
    const steps = kept.historyBehind(kept.script.count, tables).steps({ x: 1, y: 1 });
    assert.deepEqual(steps.map(({ line, by, triangle, outcome }) => [line, by, triangle && triangle.number, outcome]), [
        [2, null, null, OUTCOMES.cleared],
        [7, null, 0, OUTCOMES.drawn],
        [15, null, 0, OUTCOMES.depth],
        [8, 17, null, OUTCOMES.cleared],
        [12, 17, 0, OUTCOMES.leftOut],
    ]);
    assert.ok(steps.every(({ before }, at) => same(before, at ? steps[at - 1].after : NEW)));
    kept.leave();
});

test("a query that is open, and a line before", { skip: missing }, () => {
    const kept = keptOf(TEXT);
    for (const [line, count] of [[15, 3], [2, 1], [17, 5], [1, 0]]) {
        const history = kept.historyBehind(line, tables);
        assert.equal(history.steps({ x: 1, y: 1 }).length, count);
        assert.equal(kept.historyBehind(line, tables), history);
    }
    kept.leave();
});
