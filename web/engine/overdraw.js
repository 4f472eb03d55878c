// How often each pixel was touched: how many events its history has.
//
// In each row that a triangle reaches, the centres that it covers lie between two columns, which follow from its edges
// by whole numbers. One is added at the first of them and taken away behind the last, and the sums along the rows are
// the counts. The package's overdraw.py is the same in Python.

import { GRID, edgesOf, isCulled } from "./covering.js";

/** @typedef {import("./covering.js").Edge} Edge */
/** @typedef {import("./history.js").PixelHistory} PixelHistory */
/** @typedef {import("./planes.js").Values} Values */
/** @typedef {import("./session.js").Item} Item */
/** @typedef {import("./difference.js").Box} Box */

const HALF = GRID / 2;

/**
 * How many clears and triangles touched each pixel, behind the line of a history.
 *
 * @param {PixelHistory} history
 * @returns {Values}
 */
export function overdraw(history) {
    const { width, height } = history.player.device;
    // (a column more, behind the last)
    const changes = new Int32Array(height * (width + 1));
    let clears = 0;
    for (const [item, times] of performed(history)) {
        if (item.word.startsWith("draw")) addDraw(history, item, times, { width, changes });
        else clears += times;
    }
    return { width, height, values: summed(changes, width, clears) };
}

/**
 * The clears and draws that ran, and how often each did.
 *
 * @param {PixelHistory} history
 */
function performed({ player }) {
    /** @type {Map<Item, number>} */
    const found = new Map();
    for (const ran of player.performed)
        for (const item of ran.list.items)
            if (!player.withholds(ran, item)) found.set(item, (found.get(item) || 0) + 1);
    return found;
}

/**
 * Adds a draw that ran so many times.
 *
 * @param {PixelHistory} history
 * @param {Item} item
 * @param {number} times
 * @param {{width: number, changes: Int32Array}} into
 */
function addDraw(history, item, times, into) {
    const { device } = history.player, { x, y } = history.triangles.verticesOf(item.state.vb);
    const places = history.triangles.placesOf(item);
    const { cull, isCounterClockwise, box } = history.rasterizerOf(item);
    const area = {
        left: Math.max(0, box.left),
        top: Math.max(0, box.top),
        right: Math.min(device.width, box.right),
        bottom: Math.min(device.height, box.bottom),
    };
    for (let at = 0; at < places.length; at += 3) {
        const corners = [places[at], places[at + 1], places[at + 2]];
        const xs = corners.map((corner) => x[corner]), ys = corners.map((corner) => y[corner]);
        const { turn, edges } = edgesOf(xs, ys);
        if (turn && !isCulled(cull, turn > 0 !== isCounterClockwise)) addTriangle(edges, ys, area, times, into);
    }
}

/**
 * Adds the pixels that a triangle covers in an area.
 *
 * @param {Edge[]} edges
 * @param {number[]} ys those of its corners
 * @param {Box} area
 * @param {number} times
 * @param {{width: number, changes: Int32Array}} into
 */
function addTriangle([a, b, c], ys, area, times, { width, changes }) {
    // the first row whose centre lies not above the corners, and the first whose centre lies below them
    const top = Math.max(area.top, Math.ceil((Math.min(...ys) - HALF) / GRID));
    const bottom = Math.min(area.bottom, Math.floor((Math.max(...ys) + HALF) / GRID));
    for (let row = top; row < bottom; row++) {
        const centre = GRID * row + HALF;
        const first = Math.max(area.left, firstOf(a, centre), firstOf(b, centre), firstOf(c, centre));
        const behind = Math.min(area.right, behindOf(a, centre), behindOf(b, centre), behindOf(c, centre));
        if (first >= behind) continue;
        changes[row * (width + 1) + first] += times;
        changes[row * (width + 1) + behind] -= times;
    }
}

/**
 * How far to the right of 0 a centre may lie within an edge, times how far the edge goes down.
 *
 * @param {Edge} edge
 * @param {number} centre that of the row
 */
function slackOf({ x, y, right, down, least }, centre) {
    return right * (centre - y) + down * x - least;
}

/**
 * The first column of a row within a left edge, and of others the first of all.
 *
 * @param {Edge} edge
 * @param {number} centre
 */
function firstOf(edge, centre) {
    return edge.down < 0 ? -Math.floor((Math.floor(slackOf(edge, centre) / -edge.down) + HALF) / GRID) : -Infinity;
}

/**
 * The first column of a row behind a right edge; none lies within a level one that is passed.
 *
 * @param {Edge} edge
 * @param {number} centre
 */
function behindOf(edge, centre) {
    if (edge.down > 0) return Math.floor((Math.floor(slackOf(edge, centre) / edge.down) + HALF) / GRID);
    return edge.down < 0 || slackOf(edge, centre) >= 0 ? Infinity : -Infinity;
}

/**
 * The counts, by how they change along each row.
 *
 * @param {Int32Array} changes
 * @param {number} width
 * @param {number} clears
 */
function summed(changes, width, clears) {
    const height = changes.length / (width + 1);
    const counts = new Uint32Array(width * height);
    for (let row = 0, from = 0, to = 0; row < height; row++, from++) {
        let sum = clears;
        for (let x = 0; x < width; x++, from++, to++) {
            sum = (sum + changes[from]) | 0;
            counts[to] = sum;
        }
    }
    return counts;
}
