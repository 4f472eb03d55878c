// What people write as the device takes it, against the Python package.

import assert from "assert/strict";
import { execFileSync } from "child_process";
import fs from "fs";
import path from "path";
import test from "node:test";
import { fileURLToPath } from "url";

import * as states from "../engine/states.js";
import { channels, depthOf, storedDepth, subpixels } from "../engine/units.js";
import { tables } from "./tables.js";

const top = path.join(path.dirname(fileURLToPath(import.meta.url)), "..", "..");
const code = `
import json, sys
sys.path.insert(0, "python/src")
from yuzuratchet.units import stored_depth, subpixels
depths, coordinates = json.loads(sys.argv[1])
print(json.dumps([[stored_depth(float(it)) for it in depths], [subpixels(float(it)) for it in coordinates]]))
`;

test("depths and coordinates are rounded as the Python package rounds them", () => {
    const halves = Array.from({ length: 100 }, (_, at) => (167772 * at + 0.5) / 16777215);
    const others = Array.from({ length: 100 }, (_, at) => (at * 0.6180339887498949) % 1);
    const depths = [0, 1, 0.5, 0.25, 0.75, 2 ** -25, 2 ** -26, 1 - 2 ** -25, 1 - 2 ** -53, ...halves, ...others];
    const coordinates = Array.from({ length: 200 }, (_, at) => (at - 100) / 131072 + 7 * (at % 3));
    const answer = execFileSync(
        "python3", ["-B", "-c", code, JSON.stringify([depths, coordinates])], { cwd: top, encoding: "utf8" });
    assert.deepEqual([depths.map(storedDepth), coordinates.map((it) => subpixels(it) + 0)], JSON.parse(answer));
});

test("a stored depth comes back from its part of the deepest", () => {
    for (let stored = 0; stored < 2 ** 32; stored += 48611) assert.equal(storedDepth(depthOf(stored)), stored);
    assert.equal(storedDepth(depthOf(2 ** 32 - 1)), 2 ** 32 - 1);
    for (const it of [-1e-3, 256.1, NaN, Infinity, "0"]) assert.throws(() => storedDepth(it), RangeError);
});

test("a colour has alpha 255 where none is told", () => {
    assert.deepEqual(channels("#0a141E28"), [10, 20, 30, 40]);
    assert.deepEqual(channels("#ff8000"), [255, 128, 0, 255]);
    assert.deepEqual(channels([1, 2, 3]), [1, 2, 3, 255]);
    assert.deepEqual(channels(Uint8Array.of(1, 2, 3, 4)), [1, 2, 3, 4]);
    for (const it of ["ff8000", "#ff80", "#ff80000", [1, 2, 3, 4, 5], [1, 2, -1]])
        assert.throws(() => channels(it), RangeError);
});

test("choices have the names and numbers of a script's", () => {
    const kinds = {
        PrimitiveTopology: ["topology", 0],
        CullMode: ["raster", 0],
        ComparisonFunc: ["ds", 2],
        StencilOp: ["ds", 6],
        LogicOp: ["blend", 1],
    };
    for (const [kind, [word, place]] of Object.entries(kinds)) {
        const { values } = tables.words[word].arguments[place];
        const named = Object.fromEntries(Object.entries(values).map(([number, name]) => [name, Number(number)]));
        assert.deepEqual({ ...states[kind] }, named, kind);
    }
});

test("the package declares the same choices", () => {
    const text = fs.readFileSync(path.join(top, "web", "package", "index.d.ts"), "utf8");
    const declared = [...text.matchAll(/^export const (\w+): \{([^}]*)\};/gm)].map(([, kind, members]) => [
        kind, Object.fromEntries([...members.matchAll(/readonly (\w+): (\d+)/g)].map(([, name, it]) => [name, Number(it)]))]);
    assert.deepEqual(Object.fromEntries(declared), { ...states });
});
