// Eight contexts that record, as library/recorders.c has them on threads: `node recorders.js` records a square on each,
// which a query counts, executes the lists in their order, and prints how many pixels of each are seen. A refused call
// is told, and the device goes on. (Objects of one module stay on one thread of JavaScript.)

import { CallRefused, PrimitiveTopology, createDevice, depthOf } from "../index.js";

/** @typedef {import("../index.js").Vertex} Vertex */

const SIDE = 176, SQUARE = 64, STEP = 16;

/**
 * The corners of a square, each of which lies behind the one before it.
 *
 * @param {number} number
 * @returns {Vertex[]}
 */
function corners(number) {
    const at = STEP * number;
    return [[0, 0], [1, 0], [0, 1], [1, 1]].map(([right, down]) =>
        [at + SQUARE * right, at + SQUARE * down, depthOf(1000 * number), [31 * number, 128, 90]]);
}

const device = await createDevice(SIDE, SIDE);
const { immediate, deferred } = device;
const lists = deferred.map((recorder, number) => {
    recorder.iaSetVertices(corners(number));
    recorder.iaSetTopology(PrimitiveTopology.TRIANGLESTRIP);
    recorder.begin(number);
    recorder.draw(4);
    recorder.end(number);
    return recorder.finishCommandList();
});
try {
    immediate.draw(3);
} catch (error) {
    if (!(error instanceof CallRefused)) throw error;
    console.log(`refused with ${error.number}`);
}
lists.forEach((list, number) => {
    immediate.execute(list, { restore: true });
    console.log(`${immediate.getData(number)} pixels`);
    list.dispose();
});
device.dispose();
