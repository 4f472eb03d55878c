// How often pixels were touched, and which ones a line changed, over the module.

import assert from "assert/strict";
import fs from "fs";
import path from "path";
import test from "node:test";
import { fileURLToPath } from "url";

import { changesOf } from "../engine/changes.js";
import { Kept } from "../engine/kept.js";
import { Script, bytesOf, textOf } from "../engine/script.js";
import { upTo } from "../engine/session.js";
import { pixelBehind } from "./by_text.js";
import { missing, module } from "./module.js";
import { tables } from "./tables.js";

const GALLERY = path.join(path.dirname(fileURLToPath(import.meta.url)), "..", "..", "crates", "gallery", "data");
// lists that are executed again, predicates, scissors, cut strips, kept states, biases, corners on centres and far away
const SCRIPTS = ["scene-0", "scene-3", "scene-5", "scene-9", "cut-strip", "lists", "shared-edges", "rows/scissor",
    "rows/predicated-clears"];
const TRIANGLE = "0 0 9 1 2 3 4 262144 0 9 1 2 3 4 0 262144 9 1 2 3 4";
// a draw into the stencil alone, a clear under an open query, a list that is executed, and what runs all of it
const TEXT = `target 4 4
i vb ${TRIANGLE}
i topology 4
i blend 0 0 0
i ds 0 0 8 1 255 255 1 1 3 8 1 1 3 8 7
i draw 3 0
d0 clearc 5 5 5 5
d0 cleards 3 7
d0 finish 0
i begin 0
i clearc 5 5 5 5
i end 0
i flush
i exec d0 0 1
i pixel 0 0
i exec d0 0 1
`;

/** A script of the gallery. */
function scriptOf(name) {
    return new Script(new Uint8Array(fs.readFileSync(path.join(GALLERY, `${name}.txt`))));
}

for (const name of SCRIPTS) {
    test(`each pixel of ${name} was touched as often as its history has events`, { skip: missing }, () => {
        const script = scriptOf(name), kept = new Kept(module, script);
        for (const line of [script.count, script.count >> 1]) {
            const history = kept.historyBehind(line, tables), { width, values } = history.touched;
            const { text } = history.player;
            const step = Math.max(1, Math.floor(values.length / 500));
            for (let at = 0; at < values.length; at += step) {
                const pixel = { x: at % width, y: Math.floor(at / width) };
                assert.equal(values[at], module.history(text, pixel, 64).length, `(${pixel.x}, ${pixel.y})`);
            }
            assert.equal(kept.historyBehind(line, tables).touched, history.touched);
        }
        kept.leave();
    });
}

test("each line changed what it changes when it runs right then", { skip: missing }, () => {
    const script = new Script(bytesOf(TEXT)), kept = new Kept(module, script);
    const wanted = { 6: [0, 0, 6], 11: [16, 0, 0], 14: [0, 16, 10] }, touched = { 6: 6, 11: 16, 14: 16, 16: 16 };
    for (let line = 2; line <= script.count; line++) {
        const { colour, depth, stencil, overdraw } = changesOf(kept, line, tables);
        const counts = [colour, depth, stencil].map((it) => (it ? it.count : 0));
        assert.deepEqual(counts, wanted[line] || [0, 0, 0], `line ${line}`);
        assert.equal(overdraw ? overdraw.count : 0, touched[line] || 0, `line ${line}`);
    }
    // back, and to the line behind one that was asked for without counts
    for (const line of [6, 14, 13, 14, 15, 16]) {
        const { stencil, overdraw } = changesOf(kept, line, line === 16 ? tables : null);
        assert.equal(stencil ? stencil.count : 0, (wanted[line] || [0, 0, 0])[2], `line ${line}`);
        assert.equal(overdraw ? overdraw.count : 0, line === 16 ? 16 : 0, `line ${line}`);
    }
    kept.leave();
});

test("what lines changed, against what is drawn of the text before and behind them", { skip: missing }, () => {
    const script = scriptOf("scene-0"), kept = new Kept(module, script);
    const { width } = kept.play(script.count).player.device;
    for (let line = 2; line <= script.count; line += 11) {
        const changes = changesOf(kept, line, null);
        for (let at = 0; at < 40; at++) {
            const pixel = { x: (at * 7919 + 3) % width, y: (at * 31 + line) % kept.player.device.height };
            const [before, after] = [line - 1, line].map((it) => pixelBehind(module, script, it, pixel));
            for (const plane of ["colour", "depth", "stencil"]) {
                const isChanged = Boolean(changes[plane]?.mask[width * pixel.y + pixel.x]);
                assert.equal(isChanged, String(before[plane]) !== String(after[plane]), `line ${line}: ${plane}`);
            }
        }
    }
    kept.leave();
});

test("a text up to a line, with the queries ended that are open there", () => {
    const text = bytesOf("target 1 1\ni begin 3\nd0 begin 4\ni begin 5\ni end 3\ni clearc 1 2 3 4\ni exec d0 9 1\n");
    const cut = (line) => textOf(upTo(text, line)).split("\n").slice(line);
    assert.deepEqual([1, 2, 4, 5, 6].map(cut), [[""], ["i end 3", ""], ["i end 3", "i end 5", ""], ["i end 5", ""],
        ["i end 5", ""]]);
    assert.equal(upTo(text, 7), text);
    for (const line of [0, 8, 1.5, Number.NaN]) assert.throws(() => upTo(text, line), RangeError);
});
