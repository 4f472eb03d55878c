// Images of the device, and pictures and files that are made of them.

import assert from "assert/strict";
import test from "node:test";
import zlib from "zlib";

import { difference } from "../engine/difference.js";
import { depthPicture, heatPicture, rangeOf, stencilPicture, touchedOf } from "../engine/planes.js";
import { encodePng } from "../engine/png.js";
import { decodeTarga, opaque } from "../engine/targa.js";

const DEEPEST = 16777215;
const HEADER = [0, 0, 2, 0, 0, 0, 0, 0, 0, 0, 0, 0, 2, 0, 1, 0, 32, 40];

test("an image has blue first, and its alpha", () => {
    const picture = decodeTarga(Uint8Array.from([...HEADER, 1, 2, 3, 4, 250, 251, 252, 0]));
    assert.deepEqual([picture.width, picture.height, [...picture.pixels]], [2, 1, [3, 2, 1, 4, 252, 251, 250, 0]]);
    assert.deepEqual([...opaque(picture).pixels], [3, 2, 1, 255, 252, 251, 250, 255]);
    assert.equal(picture.pixels[3], 4, "the picture stays as it was");
    assert.throws(() => decodeTarga(Uint8Array.from(HEADER)), /another form/);
});

/** The chunks of a PNG, by their names, each without its length and its sum. */
function chunksOf(bytes) {
    const found = {};
    for (let at = 8; at < bytes.length;) {
        const size = bytes.readUInt32BE(at);
        found[bytes.toString("latin1", at + 4, at + 8)] = bytes.subarray(at + 8, at + 8 + size);
        at += 12 + size;
    }
    return found;
}

test("a PNG has the bytes of a picture as they are", async () => {
    const picture = {
        width: 2,
        height: 2,
        pixels: Uint8ClampedArray.from([200, 100, 50, 3, 1, 2, 3, 0, 255, 254, 253, 255, 9, 8, 7, 128])
    };
    const bytes = Buffer.from(await (await encodePng(picture, true)).arrayBuffer());
    assert.equal(bytes.toString("hex", 0, 8), "89504e470d0a1a0a");
    assert.ok(bytes.toString("hex").endsWith("0000000049454e44ae426082"), "the sum of the last chunk is another");
    const { IHDR, IDAT } = chunksOf(bytes);
    assert.equal(IHDR.toString("hex"), "00000002000000020806000000");
    assert.deepEqual([...zlib.inflateSync(IDAT)], [0, ...picture.pixels.slice(0, 8), 0, ...picture.pixels.slice(8)]);
    const other = chunksOf(Buffer.from(await (await encodePng(picture, false)).arrayBuffer()));
    assert.equal(other.IHDR[9], 2);
    assert.deepEqual([...zlib.inflateSync(other.IDAT)], [0, 200, 100, 50, 1, 2, 3, 0, 255, 254, 253, 9, 8, 7]);
});

test("depths are grey between the nearest and the farthest, and black where nothing was drawn", () => {
    const depth = Uint32Array.from([100, 200, 300, DEEPEST]);
    const plane = { width: 4, height: 1, values: depth };
    assert.deepEqual(rangeOf(depth, DEEPEST), { near: 100, far: 300 });
    const greys = (range) => [...depthPicture(plane, range, DEEPEST).pixels].filter((_, at) => at % 4 === 0);
    assert.deepEqual(greys({ near: 100, far: 300 }), [255, 148, 40, 0]);
    assert.deepEqual(greys({ near: 200, far: 300 }), [255, 255, 40, 0]);
    assert.deepEqual(greys({ near: 100, far: 200 }), [255, 40, 40, 0]);
    assert.deepEqual(greys({ near: 200, far: 100 }), [255, 255, 255, 0]);
    assert.deepEqual(rangeOf(Uint32Array.from([DEEPEST]), DEEPEST), { near: DEEPEST, far: DEEPEST });
});

test("counts are black for none, and from blue for the least to nearly white for the most", () => {
    const heat = (...counts) => {
        const values = Uint32Array.from(counts);
        const { pixels } = heatPicture({ width: counts.length, height: 1, values }, touchedOf(values));
        return Array.from(counts, (_, at) => [...pixels.slice(4 * at, 4 * at + 4)]);
    };
    assert.deepEqual(heat(0, 2, 3, 4, 10), [
        [0, 0, 0, 255], [20, 20, 90, 255], [70, 25, 115, 255], [120, 30, 140, 255], [255, 255, 200, 255],
    ]);
    assert.deepEqual(heat(7, 0), [[20, 20, 90, 255], [0, 0, 0, 255]]);
    assert.deepEqual(touchedOf(Uint32Array.from([0, 0])), { least: 0, most: 0 });
});

test("stencil values that stand next to each other have other colours, and 0 is black", () => {
    const values = Uint8Array.from({ length: 256 }, (_, value) => value);
    const { pixels } = stencilPicture({ width: 256, height: 1, values });
    const colours = Array.from({ length: 256 }, (_, value) => String(pixels.slice(4 * value, 4 * value + 4)));
    assert.equal(colours[0], "0,0,0,255");
    assert.ok(colours.every((colour, at) => at === 0 || colour !== colours[at - 1]));
});

test("a difference has its place, its count and the largest of each channel", () => {
    const a = Uint8Array.from([1, 2, 3, 4, 5, 6, 7, 8, 9, 10, 11, 12, 0, 0, 0, 0]);
    const b = Uint8Array.from([1, 2, 3, 4, 5, 9, 7, 8, 9, 10, 11, 12, 0, 1, 0, 200]);
    const found = difference(a, b, 2, 4);
    assert.deepEqual({ ...found, mask: [...found.mask] }, {
        mask: [0, 1, 0, 1], count: 2, most: [0, 3, 0, 200], box: { left: 1, top: 0, right: 2, bottom: 2 },
    });
    assert.equal(difference(a, a, 2, 4), null);
    const depths = [[5, 6, 7, 8], [5, 0, 9, 8]].map((it) => Uint32Array.from(it));
    const { mask, ...told } = difference(depths[0], depths[1], 4, 1);
    assert.deepEqual([...mask], [0, 1, 1, 0]);
    assert.deepEqual(told, { count: 2, most: [6], box: { left: 1, top: 0, right: 3, bottom: 1 } });
});
