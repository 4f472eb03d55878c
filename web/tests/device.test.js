// A device by its calls, over the module: against what the gallery stores, and against what the module draws of scripts.

import assert from "assert/strict";
import fs from "fs";
import test from "node:test";
import path from "path";
import { fileURLToPath } from "url";

import { CallRefused, Device } from "../engine/device.js";
import { Kept, Shelf } from "../engine/kept.js";
import { answersOf, refusalOf } from "../engine/module.js";
import { Player, pixelsOf } from "../engine/player.js";
import { Script, bytesOf } from "../engine/script.js";
import { ComparisonFunc, CullMode, Plane, PrimitiveTopology, StencilOp } from "../engine/states.js";
import { decodeTarga } from "../engine/targa.js";
import { vertexBytes } from "../engine/units.js";
import { closedAt } from "./by_text.js";
import { missing, module } from "./module.js";
import { fileOf, imageLine, played } from "./played.js";

const GALLERY = path.join(path.dirname(fileURLToPath(import.meta.url)), "..", "..", "crates", "gallery");
const LAST_REFUSAL = 20;
const DEEPEST = 16777215;
const SQUARE = [[2, 2, 0.25, "#ff8000"], [10, 2, 0.25, "#ff8000"], [2, 10, 0.25, "#ff8000"], [10, 10, 0.25, "#ff8000"]];
const CORNERS = [0, 1, 2, 2, 1, 3];

/** What the gallery stores of each script, by its name: its answer lines and the image's. */
function stored() {
    const found = new Map();
    let lines = [];
    for (const line of fs.readFileSync(path.join(GALLERY, "stdout"), "utf8").split("\n").slice(0, -1)) {
        if (line.endsWith(".txt")) found.set(line, lines = []);
        else lines.push(line);
    }
    return found;
}

/** The scripts of the gallery that have no fault. */
function scripts() {
    return [...stored()].filter(([, lines]) => (refusalOf(lines.slice(0, -1)) || { number: 0 }).number <= LAST_REFUSAL);
}

/** @param {string} name */
function scriptOf(name) {
    return new Script(new Uint8Array(fs.readFileSync(path.join(GALLERY, "data", name))));
}

/** All that a device holds, as a text. */
function held(device) {
    const { depth, stencil } = device.planes();
    return imageLine([device.picture().pixels, depth, stencil]);
}

/** The number of the refusal of a call, or 0. */
function refusalBy(call) {
    try {
        call();
        return 0;
    } catch (error) {
        if (!(error instanceof CallRefused)) throw error;
        return error.number;
    }
}

/** Draws a square by indices, on whichever context. */
function draw(context) {
    context.iaSetVertices(SQUARE);
    context.iaSetIndices(CORNERS);
    context.iaSetTopology(PrimitiveTopology.TRIANGLELIST);
    context.drawIndexed(CORNERS.length);
}

test("the scripts of the gallery by calls", { skip: missing }, () => {
    const all = scripts();
    for (const [name, lines] of all) assert.deepEqual(played(module, scriptOf(name)), lines, name);
    assert.ok(all.length > 200, `${all.length} scripts`);
});

/** What the lines of a script leave behind its first one, as the gallery stores it. */
function leftByLines(name) {
    const [target, ...lines] = fs.readFileSync(path.join(GALLERY, "data", name), "utf8").split("\n");
    const [width, height] = target.split(" ").slice(1).map(Number), answers = [];
    const device = new Device(module, width, height);
    for (const answer of device.play(lines.join("\n"))) answers.push(answer);
    device.immediate.flush();
    answers.push(imageLine(fileOf(device)));
    device.dispose();
    return answers;
}

test("the scripts of the gallery line by line", { skip: missing }, () => {
    const drawn = scripts().filter(([, lines]) => !refusalOf(lines.slice(0, -1)));
    for (const [name, lines] of drawn) assert.deepEqual(leftByLines(name), lines, name);
    const device = new Device(module, 8, 8);
    const told = device.play("d0 clearc 1 2 3 4\nd0 finish 0\ni exec d0 0 1\ni pixel 7 3\ni exec d0 1 1\n");
    assert.equal(told.next().value, "pixel 7 3 1 2 3 4 16777215 0");
    assert.throws(() => told.next(), { number: 107, name: "YZ_NO_SUCH_LIST" });
    assert.deepEqual([...device.play("i clearc 5 6 7 8\ni exec d0 0 0\ni pixel 0 0\n")], ["pixel 0 0 1 2 3 4 16777215 0"]);
    device.dispose();
});

test("a refused call of the gallery is no end: what follows draws as if it weren't there", { skip: missing }, () => {
    let count = 0;
    for (const [name, lines] of scripts().filter(([, it]) => refusalOf(it.slice(0, -1)))) {
        const script = scriptOf(name);
        const { line, number } = refusalOf(lines.slice(0, -1));
        if (line === 1 || line > script.count) continue;
        const player = new Player(module, script).playTo(line - 1);
        const before = [...player.answers];
        const call = () => player.take(line);
        assert.deepEqual([refusalBy(call), refusalBy(call)], [number, number], name);
        assert.deepEqual(player.answers, before, name);
        player.close();
        const without = module.draw(closedAt(script, line - 1));
        assert.equal(without.status, 0, name);
        assert.equal(imageLine(fileOf(player.device)), imageLine([without.image]), name);
        player.dispose();
        count += 1;
    }
    assert.ok(count > 20, `${count} scripts`);
});

/** Calls that are refused on a device of 16 by 16 that has nothing set, with their numbers and names. */
const REFUSED = [
    [3, "YZ_VERTEX_RANGE", (device) => device.immediate.clearDepthStencil(1.5)],
    [3, "YZ_VERTEX_RANGE", (device) => device.immediate.iaSetVertices([[4097, 0, 0, "#000000"]])],
    [4, "YZ_VERTEX_COUNT", (device) => device.immediate.iaSetVertices(new Int32Array(4 * 65537))],
    [4, "YZ_VERTEX_COUNT", (device) => device.deferred[1].iaSetIndices(new Uint16Array(65537))],
    [7, "YZ_TOPOLOGY_UNSET", (device) => device.immediate.draw(3)],
    [8, "YZ_SCISSOR_RECT", (device) => device.immediate.rsSetScissor(3, 0, 2, 1)],
    [9, "YZ_QUERY_OPEN", (device) => device.deferred[0].begin(1)],
    [10, "YZ_QUERY_NOT_OPEN", (device) => device.immediate.end(5)],
    [11, "YZ_QUERY_NUMBER", (device) => device.immediate.begin(64)],
    [12, "YZ_QUERY_LEFT_OPEN", (device) => device.deferred[0].finishCommandList()],
    [15, "YZ_PIXEL_RANGE", (device) => device.immediate.pixel(16, 0)],
    [15, "YZ_PIXEL_RANGE", (device) => device.read(Plane.DEPTH32, { right: 4294967295, bottom: 4294967295 })],
    [15, "YZ_PIXEL_RANGE", (device) => device.read(Plane.RGBA8, { left: 2, right: 1 })],
    [17, "YZ_NOT_ISSUED", (device) => device.immediate.getData(3)],
    [20, "YZ_PREDICATE_IN_LIST", (device) => device.deferred[0].setPredication(1, true)],
    [32, "YZ_BAD_DESCRIPTION", (device) => device.immediate.iaSetTopology(3)],
    [32, "YZ_BAD_DESCRIPTION", (device) => device.immediate.rsSetState({ cullMode: 9 })],
    [32, "YZ_BAD_DESCRIPTION", (device) => device.read(4)],
];

test("refused calls leave everything as it was", { skip: missing }, () => {
    const [plain, tried] = [0, 1].map(() => new Device(module, 16, 16));
    for (const device of [plain, tried]) device.deferred[0].begin(1);
    for (const call of [() => {}, (device) => device.immediate.clearColor("#102030"),
             (device) => device.immediate.omSetDepthStencil({ stencilEnable: true, frontFace: { stencilPassOp: 3 } }, 7)]) {
        call(plain);
        call(tried);
        for (const [number, name, refused] of REFUSED) {
            const whose = (error) => error instanceof CallRefused && error.number === number && error.name === name;
            assert.throws(() => refused(tried), whose, name);
        }
        assert.equal(held(tried), held(plain));
    }
    for (const { immediate } of [plain, tried]) draw(immediate);
    assert.equal(held(tried), held(plain));
    assert.deepEqual(tried.immediate.pixel(3, 3), { x: 3, y: 3, colour: [255, 128, 0, 255], depth: 4194304, stencil: 7 });
    assert.throws(() => new Device(module, 4097, 1), { number: 2, name: "YZ_TARGET_SIZE" });
    for (const device of [plain, tried]) device.dispose();
});

test("what is no number of a call's kind never comes to the device", { skip: missing }, () => {
    const device = new Device(module, 4, 4);
    const { immediate } = device;
    const before = held(device);
    for (const call of [() => immediate.draw(-1), () => immediate.draw(1.5), () => immediate.draw("3"),
             () => immediate.drawIndexed(3, 0, 2 ** 31), () => immediate.clearColor("red"),
             () => immediate.clearColor([1, 2]), () => immediate.clearColor([1, 2, 256]),
             () => immediate.clearDepthStencil(NaN), () => immediate.clearDepthStencil(1, 256),
             () => immediate.iaSetVertices([[Infinity, 0, 0, "#000000"]]), () => immediate.iaSetVertices(new Uint8Array(15)),
             () => immediate.iaSetIndices([65536]), () => immediate.rsSetScissor(0, 0, 1),
             () => device.read(Plane.DEPTH32, { into: new Uint8Array(64) }),
             () => device.read(Plane.RGBA8, { into: new Uint8Array(63) })])
        assert.throws(call, RangeError, String(call));
    assert.equal(held(device), before);
    device.dispose();
});

test("the history of a pixel is that of what is pending, and runs none", { skip: missing }, () => {
    const device = new Device(module, 16, 16), { immediate } = device;
    const fresh = { colour: [0, 0, 0, 0], depth: DEEPEST, stencil: 0 };
    const cleared = { ...fresh, colour: [16, 32, 48, 255] }, drawn = { ...fresh, colour: [255, 128, 0, 255], depth: 4194304 };
    const clear = { item: 0, line: 0, command: 0, triangle: 0, stencilPassed: true, depthPassed: true, before: fresh, after: cleared };
    assert.deepEqual(immediate.history(3, 3), []);
    immediate.clearColor("#102030");
    draw(immediate);
    const first = { ...clear, item: 1, command: 4, before: cleared, after: drawn };
    for (const room of [64, 2, 1, 0]) assert.deepEqual(immediate.history(3, 3, room), [clear, first]);
    assert.deepEqual(immediate.history(8, 8), [clear, { ...first, item: 2, triangle: 1 }]);
    assert.deepEqual(immediate.history(10, 8), [clear]);
    assert.throws(() => immediate.history(16, 0), { number: 15, name: "YZ_PIXEL_RANGE" });
    immediate.flush();
    assert.deepEqual(immediate.history(3, 3), []);
    immediate.drawIndexed(3);
    assert.deepEqual(immediate.history(3, 3),
        [{ ...first, item: 0, command: 1, depthPassed: false, before: drawn, after: drawn }]);
    device.dispose();
});

test("lists are executed again, by any device, and outlive what recorded them", { skip: missing }, () => {
    const [device, other] = [0, 1].map(() => new Device(module, 16, 16));
    const recorder = device.deferred[3];
    recorder.begin(5);
    draw(recorder);
    recorder.end(5);
    const list = recorder.finishCommandList({ restore: true });
    // (the state stays, so the next list draws without setting it)
    recorder.draw(3);
    recorder.finishCommandList().dispose();
    for (const { immediate } of [device, device, other]) {
        immediate.clearDepthStencil();
        immediate.execute(list);
        assert.equal(immediate.getData(5), 64);
        assert.throws(() => immediate.draw(3), { number: 7 }, "the state is the default one");
    }
    device.dispose();
    other.immediate.clearDepthStencil();
    other.immediate.execute(list, { restore: true });
    assert.equal(other.immediate.getData(5), 64);
    list.dispose();
    assert.deepEqual(other.immediate.pixel(9, 9).colour, [255, 128, 0, 255], "what was drawn stays");
    other.dispose();
});

test("what was given back is told, and its memory is used again", { skip: missing }, () => {
    const device = new Device(module, 4, 4);
    const [recorder] = device.deferred;
    const list = recorder.finishCommandList();
    const other = new Device(module, 4, 4);
    list.dispose();
    list.dispose();
    assert.throws(() => device.immediate.execute(list), /the list was given back/);
    device.dispose();
    device.dispose();
    for (const call of [() => device.immediate.flush(), () => device.picture(), () => device.immediate.pixel(0, 0)])
        assert.throws(call, /the device was given back/);
    assert.throws(() => recorder.clearColor("#000000"), /the context was given back/);
    assert.throws(() => recorder.finishCommandList(), /the context was given back/);
    other.immediate.flush();
    if (Symbol.dispose) other[Symbol.dispose]();
    assert.throws(() => other.immediate.flush(), Symbol.dispose ? /given back/ : undefined);
    const sizes = [];
    for (let times = 0; times < 300; times++) {
        const it = new Device(module, 64, 64);
        draw(it.deferred[2]);
        const made = it.deferred[2].finishCommandList();
        it.immediate.execute(made);
        it.picture();
        made.dispose();
        it.dispose();
        if (times % 100 === 99) sizes.push(module.calls.memory.buffer.byteLength);
    }
    assert.equal(new Set(sizes).size, 1, String(sizes));
});

test("rectangles of planes are those of the whole", { skip: missing }, () => {
    const device = new Device(module, 45, 37);
    const { immediate } = device;
    immediate.omSetDepthStencil(
        { stencilEnable: true, frontFace: { stencilPassOp: StencilOp.INCR }, depthFunc: ComparisonFunc.ALWAYS });
    immediate.rsSetState({ cullMode: CullMode.NONE });
    immediate.iaSetTopology(PrimitiveTopology.TRIANGLESTRIP);
    immediate.iaSetVertices([[0, 0, 0, [1, 2, 3, 4]], [45, 3, 1, [5, 6, 7, 8]], [4, 37, 0.5, "#09080706"]]);
    immediate.draw(3);
    const { width, height, pixels } = device.picture();
    const { depth, stencil } = device.planes();
    assert.deepEqual([width, height, Math.max(...stencil), Math.max(...depth)], [45, 37, 1, DEEPEST]);
    const rect = { left: 5, top: 2, right: 41, bottom: 35 };
    const [colours, swapped, depths, stencils] =
        [Plane.RGBA8, Plane.BGRA8, Plane.DEPTH32, Plane.STENCIL8].map((plane) => device.read(plane, rect));
    for (let y = rect.top, at = 0; y < rect.bottom; y++) {
        for (let x = rect.left; x < rect.right; x++, at++) {
            const place = 45 * y + x;
            const [red, green, blue, alpha] = colours.subarray(4 * at, 4 * at + 4);
            assert.deepEqual([red, green, blue, alpha], [...pixels.subarray(4 * place, 4 * place + 4)]);
            assert.deepEqual([blue, green, red, alpha], [...swapped.subarray(4 * at, 4 * at + 4)]);
            assert.deepEqual([depths[at], stencils[at]], [depth[place], stencil[place]]);
        }
    }
    const into = new Uint32Array(40 * 37).fill(7);
    assert.equal(device.read(Plane.DEPTH32, { ...rect, into }), into);
    assert.deepEqual([...into.subarray(0, depths.length)], [...depths]);
    assert.ok(into.subarray(depths.length).every((it) => it === 7), "what lies behind stays");
    assert.equal(device.read(Plane.STENCIL8, { left: 3, right: 3 }).length, 0);
    const area = { left: 7, top: 9, width: 3, height: 2 };
    assert.deepEqual(pixelsOf(device, area),
        [9, 10].flatMap((y) => [7, 8, 9].map((x) => immediate.pixel(x, y))));
    device.dispose();
});

test("vertices as rows are those as words", { skip: missing }, () => {
    const words = Int32Array.from(SQUARE.flatMap(([x, y]) => [65536 * x, 65536 * y, 4194304, 0xff0080ff | 0]));
    assert.deepEqual(vertexBytes(SQUARE), new Uint8Array(words.buffer));
    const shifted = new Int32Array([9, 9, 9, 9, ...words]).subarray(4);
    assert.deepEqual(vertexBytes(shifted), new Uint8Array(words.buffer));
});

test("a script's device behind each line is what the module draws of these lines", { skip: missing }, () => {
    const shelf = new Shelf(module);
    for (const name of ["lists.txt", "two-faced-count.txt", "rows/around-a-list.txt"]) {
        const script = scriptOf(name);
        const lines = Array.from({ length: script.count }, (_, at) => at + 1).filter((line) => line % 3 !== 2);
        for (const line of [...lines, ...lines.reverse(), script.count]) {
            const { device } = shelf.of(script).behind(line);
            assert.deepEqual(device.picture(), decodeTarga(module.draw(closedAt(script, line)).image), `${name} ${line}`);
        }
    }
    assert.equal(shelf.kept.size, 2, "the others were forgotten");
    for (const it of [...shelf.kept.keys()]) shelf.forget(it);
});

/** @param {string} text */
function keptOf(text) {
    return new Kept(module, new Script(bytesOf(text)));
}

test("a fault is found, and nothing of the script is played for that", { skip: missing }, () => {
    const cases = [
        ["", 1, 102], ["target 9 9\ni clearc 1 2 3", 2, 105], ["target 9 9\n\n", 2, 101], ["?", 1, 102],
        ["target 9 9\ni exec d0 0 0\nd0 finish 0\n", 2, 107],
    ];
    for (const [text, line, number] of cases)
        assert.deepEqual(module.faultOf(new Script(bytesOf(text))), { line, number }, text);
    for (const text of ["target 9 9", "target 0 0\n", "target 4 4\ni draw 3 0\n"])
        assert.equal(module.faultOf(new Script(bytesOf(text))), null, text);
});

test("a device stops before a fault, which hides what is refused", { skip: missing }, () => {
    const kept = keptOf("target 2 1\ni clearc 1 2 3 4\ni pixel 0 0\ni draw 3 0\ni clear\n");
    assert.deepEqual(kept.check(), { line: 5, number: 104 });
    const { player, ...whole } = kept.play(5);
    assert.deepEqual(whole, { shown: 3, answers: [], questions: [], refused: { line: 5, number: 104 } });
    assert.deepEqual([...player.device.picture().pixels.subarray(0, 4)], [1, 2, 3, 4]);
    const { player: other, ...part } = kept.play(4);
    assert.deepEqual(part, {
        shown: 3, answers: ["pixel 0 0 1 2 3 4 16777215 0"], questions: [3], refused: { line: 4, number: 7 },
    });
    assert.equal(other, player, "it is the same device");
    kept.leave();
});

test("there is no device where no line can be played", { skip: missing }, () => {
    for (const [text, line, number] of [["", 1, 102], ["target 4097 1\ni flush\n", 1, 2]]) {
        const kept = keptOf(text);
        const refused = { line, number };
        for (const last of [1, 2])
            assert.deepEqual(kept.play(last), { player: null, shown: 0, answers: [], questions: [], refused });
        assert.deepEqual(kept.check(), refused);
    }
});

test("what is read meanwhile lets no line be taken that a script is refused for", { skip: missing }, () => {
    // (behind a run, line 5 would be taken)
    const kept = keptOf("target 2 1\ni begin 0\ni end 0\ni clearc 1 2 3 4\ni predicate 0 0\ni clearc 9 9 9 9\n");
    for (const last of [2, 3, 4]) assert.deepEqual([kept.play(last).refused, kept.play(last).shown], [null, last]);
    for (const last of [5, 6, 4, 5]) {
        const { refused, shown } = kept.play(last);
        assert.deepEqual([refused, shown], [last < 5 ? null : { line: 5, number: 20 }, 4]);
    }
    assert.deepEqual(kept.check(), { line: 5, number: 20 });
    kept.leave();
});

test("a query that is left open is told behind the last line, and the image shows all lines", { skip: missing }, () => {
    const kept = keptOf("target 2 1\ni clearc 1 2 3 4\ni begin 0\ni clearc 5 6 7 8\n");
    assert.equal(kept.play(3).refused, null);
    assert.deepEqual(kept.check(), { line: 5, number: 9 });
    const { player, shown, refused } = kept.play(4);
    assert.deepEqual([shown, refused], [4, { line: 5, number: 9 }]);
    assert.deepEqual([...player.device.picture().pixels.subarray(0, 4)], [5, 6, 7, 8]);
    kept.leave();
});

test("depth of 2,048 by 2,048", { skip: missing }, (context) => {
    const device = new Device(module, 2048, 2048);
    device.immediate.clearDepthStencil(0.5);
    device.immediate.flush();
    const taken = [0, 1, 2].map(() => {
        const begun = performance.now();
        const depth = device.read(Plane.DEPTH32);
        const milliseconds = performance.now() - begun;
        assert.ok(depth.every((it) => it === 8388608));
        return milliseconds;
    });
    context.diagnostic(`read in ${Math.min(...taken).toFixed(1)} ms`);
    device.dispose();
});

test("answers of calls are answer lines", { skip: missing }, () => {
    const script = new Script(bytesOf("target 2 1\ni clearc 1 2 3 4\ni begin 0\ni end 0\ni query 0\ni pixel 1 0\n"));
    const player = new Player(module, script).playTo(script.count);
    assert.deepEqual(player.answers, answersOf(module.draw(script.bytes).lines));
    player.dispose();
});
