// Lines of a script that record, as calls of a context.

import { depthOf } from "./units.js";

/** @typedef {import("./device.js").Context} Context */

const CORNER = 7;

/**
 * The corners of a `vb` line as the device takes them.
 *
 * @param {number[]} n
 */
function cornersOf(n) {
    const words = new Int32Array(n.length / CORNER * 4);
    for (let from = 0, to = 0; from < n.length; from += CORNER, to += 4) {
        words.set([n[from], n[from + 1], n[from + 2]], to);
        words[to + 3] = n[from + 3] | n[from + 4] << 8 | n[from + 5] << 16 | n[from + 6] << 24;
    }
    return words;
}

/** @param {number[]} n */
function faceOf([stencilFailOp, stencilDepthFailOp, stencilPassOp, stencilFunc]) {
    return { stencilFailOp, stencilDepthFailOp, stencilPassOp, stencilFunc };
}

/**
 * The calls by the words of lines.
 *
 * @type {Record<string, (on: Context, n: number[]) => void>}
 */
const CALLS = {
    vb: (on, n) => on.iaSetVertices(cornersOf(n)),
    ib: (on, n) => on.iaSetIndices(Uint16Array.from(n)),
    topology: (on, [topology]) => on.iaSetTopology(topology),
    raster: (on, [cullMode, front, scissor, depthBias]) =>
        on.rsSetState({ cullMode, frontCounterClockwise: front === 1, scissorEnable: scissor === 1, depthBias }),
    scissor: (on, [left, top, right, bottom]) => on.rsSetScissor(left, top, right, bottom),
    ds: (on, [depth, write, depthFunc, stencil, stencilReadMask, stencilWriteMask, ...faces]) => on.omSetDepthStencil({
        depthEnable: depth === 1,
        depthWrite: write === 1,
        depthFunc,
        stencilEnable: stencil === 1,
        stencilReadMask,
        stencilWriteMask,
        frontFace: faceOf(faces),
        backFace: faceOf(faces.slice(4)),
    }, faces[8]),
    blend: (on, [logic, logicOp, writeMask]) => on.omSetBlend({ logicOpEnable: logic === 1, logicOp, writeMask }),
    predicate: (on, [query, value]) => on.setPredication(query === undefined ? null : query, value === 1),
    draw: (on, [count, start]) => on.draw(count, start),
    drawi: (on, [count, start, base]) => on.drawIndexed(count, start, base),
    clearc: (on, colour) => on.clearColor(colour),
    cleards: (on, [depth, stencil]) => on.clearDepthStencil(depthOf(depth), stencil),
    begin: (on, [query]) => on.begin(query),
    end: (on, [query]) => on.end(query),
};

/**
 * Makes the call of a line that records.
 *
 * @param {Context} on
 * @param {string} word
 * @param {number[]} numbers those behind the word
 */
export function record(on, word, numbers) {
    CALLS[word](on, numbers);
}
