// A lit cube that turns, as library/cube.c draws it: `node cube.js [FRAMES]` draws frames of 256 by 256 pixels on one
// device, and prints how many pixels of the cube each shows. A deferred context records the cube. The program turns,
// lights and projects its corners; the device sorts out what is in front.

import { PrimitiveTopology, createDevice } from "../index.js";

/** @typedef {import("../index.js").Device} Device */
/** @typedef {import("../index.js").Vertex} Vertex */
/** @typedef {{x: number, y: number, z: number}} Point */

const SIDE = 256, FACES = 6, TILT = 0.6;
const QUAD = [0, 1, 2, 0, 2, 3];

/**
 * Turned about the upright axis, and tilted towards the eye.
 *
 * @param {Point} point
 * @param {number} turn
 */
function turned({ x, y, z }, turn) {
    const [c, s] = [Math.cos(turn), Math.sin(turn)];
    const behind = c * z - s * x;
    return {
        x: c * x + s * z,
        y: Math.cos(TILT) * y - Math.sin(TILT) * behind,
        z: Math.sin(TILT) * y + Math.cos(TILT) * behind,
    };
}

/**
 * A corner on the target, in a light: the cube stands four units in front of the eye, at depths from 2 to 6.
 *
 * @param {Point} point
 * @param {number} light
 * @returns {Vertex}
 */
function projected({ x, y, z }, light) {
    const away = 4 - z, scale = 0.95 * SIDE / away;
    const colour = [235, 150, 70].map((it) => Math.round(it * light));
    return [SIDE / 2 + scale * x, SIDE / 2 - scale * y, (away - 2) / 4, colour];
}

/**
 * A point by an axis that points to it, and its places along the next two.
 *
 * @param {number} axis
 * @param {number} a
 * @param {number} b
 * @param {number} c
 * @returns {Point}
 */
function along(axis, a, b, c) {
    return [{ x: a, y: b, z: c }, { x: c, y: a, z: b }, { x: b, y: c, z: a }][axis];
}

/**
 * The corners of a face, clockwise as one sees them.
 *
 * @param {number} face
 * @param {number} turn
 */
function corners(face, turn) {
    const axis = face >> 1, sign = face % 2 === 0 ? 1 : -1;
    const normal = turned(along(axis, sign, 0, 0), turn);
    const light = 0.2 + 0.8 * Math.max(0.3 * normal.x + 0.55 * normal.y + 0.78 * normal.z, 0);
    return [[-1, -1], [1, -1], [1, 1], [-1, 1]].map(
        ([u, v]) => projected(turned(along(axis, sign, -u * sign, v), turn), light));
}

/**
 * Draws a frame, and gives how many pixels of the cube it shows.
 *
 * @param {Device} device
 * @param {number} turn
 */
export function drawFrame({ immediate, deferred: [recorder] }, turn) {
    const faces = Array.from({ length: FACES }, (_, face) => face);
    recorder.iaSetVertices(faces.flatMap((face) => corners(face, turn)));
    recorder.iaSetIndices(faces.flatMap((face) => QUAD.map((place) => 4 * face + place)));
    recorder.iaSetTopology(PrimitiveTopology.TRIANGLELIST);
    recorder.begin(0);
    recorder.drawIndexed(FACES * QUAD.length);
    recorder.end(0);
    const list = recorder.finishCommandList();
    immediate.clearColor([24, 28, 40]);
    immediate.clearDepthStencil();
    immediate.execute(list, { restore: true });
    list.dispose();
    return immediate.getData(0);
}

const device = await createDevice(SIDE, SIDE);
const frames = Number(/** @type {any} */ (globalThis).process?.argv[2] || 1);
for (let frame = 0; frame < frames; frame++) console.log(`${drawFrame(device, 0.7 + 0.1 * frame)} pixels`);
device.dispose();
