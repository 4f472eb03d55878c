// Which triangles cover a pixel, at which depth, and which way they face: exactly, by whole numbers.
//
// The rules are those of Direct3D as the device has them: corners go to the nearest multiple of 1/256 pixel, ties to
// even; a centre on an edge belongs to a top or a left one; a depth is rounded down. The package's covering.py is the
// same in Python.

import { triangles } from "./assembly.js";

/** @typedef {import("./script.js").Script} Script */
/** @typedef {import("./session.js").Item} Item */
/** @typedef {{x: number, y: number}} Pixel */
/** @typedef {{numbers: Int32Array, x: Int32Array, y: Int32Array}} Vertices rows of seven numbers, and their places on
 * the grid */
/**
 * @typedef {object} Covering a triangle that covers a pixel
 * @property {number} number its place in its draw
 * @property {number} of how many triangles there are
 * @property {number[]} colour
 * @property {number} depth
 * @property {boolean} isFront
 * @property {number[][]} corners its places in pixels, as they were snapped
 */

/** Parts of a pixel to which corners are snapped. */
export const GRID = 256;
const CULL_FRONT = "2", CULL_BACK = "3";
const ROW = 7, DEPTH = 2, COLOUR = 3;
/** @type {[number, number][]} the edges, each opposite to the corner of its place */
const EDGES = [[1, 2], [2, 0], [0, 1]];

/**
 * A coordinate of a script on the grid.
 *
 * @param {number} place in units of the script
 * @param {number} unit so many of them are a part of the grid
 */
export function snapped(place, unit) {
    const below = Math.floor(place / unit), rest = place - unit * below;
    return below + Number(2 * rest > unit || (2 * rest === unit && below % 2 !== 0));
}

/**
 * @typedef {{x: number, y: number, right: number, down: number, least: number}} Edge where an edge begins, how far it
 * goes where its triangle goes clockwise, and the least weight of a point that belongs to the triangle
 */

/**
 * The edges of a triangle, each opposite to the corner of its place, and which way it goes: 1 is clockwise, -1
 * anticlockwise, and 0 neither.
 *
 * @param {number[]} x
 * @param {number[]} y
 * @returns {{turn: number, edges: Edge[]}}
 */
export function edgesOf(x, y) {
    const turn = Math.sign((x[1] - x[0]) * (y[2] - y[0]) - (y[1] - y[0]) * (x[2] - x[0]));
    const edges = EDGES.map(([p, q]) => {
        const right = turn * (x[q] - x[p]), down = turn * (y[q] - y[p]);
        // (a left edge goes up, and a top one to the right)
        return { x: x[p], y: y[p], right, down, least: down < 0 || (down === 0 && right > 0) ? 0 : 1 };
    });
    return { turn, edges };
}

/**
 * How much of a triangle's area lies opposite to each corner, seen from a point on the grid, or null where it doesn't
 * cover the point. Below 0 where it goes anticlockwise.
 *
 * @param {number[]} x
 * @param {number[]} y
 * @param {Pixel} centre
 */
export function weightsAt(x, y, centre) {
    const { turn, edges } = edgesOf(x, y);
    const weights = [];
    for (const edge of edges) {
        const weight = edge.right * (centre.y - edge.y) - edge.down * (centre.x - edge.x);
        if (weight < edge.least) return null;
        weights.push(turn * weight);
    }
    return weights;
}

/**
 * Whether the cull mode drops a triangle whose front is seen, or whose back is.
 *
 * @param {string} cull the number of a `raster` line
 * @param {boolean} isFront
 */
export function isCulled(cull, isFront) {
    return cull === (isFront ? CULL_FRONT : CULL_BACK);
}

/**
 * The depth of a triangle at a point, with its bias, in the range of depths.
 *
 * @param {number[]} weights
 * @param {number[]} depths
 * @param {number} bias
 * @param {number} deepest
 */
export function depthAt(weights, depths, bias, deepest) {
    const turn = BigInt(Math.sign(weights[0] + weights[1] + weights[2]));
    const parts = weights.map((weight) => turn * BigInt(weight));
    const sum = parts.reduce((all, weight, at) => all + weight * BigInt(depths[at]), 0n);
    return Math.min(Math.max(Number(sum / (parts[0] + parts[1] + parts[2])) + bias, 0), deepest);
}

/** The triangles of a script's draws, kept for questions about any pixel. */
export class Triangles {
    /**
     * @param {Script} script
     * @param {Record<string, number>} limits
     */
    constructor(script, limits) {
        this.script = script;
        this.limits = limits;
        /** @type {Map<number, Vertices>} by the lines that set them */
        this.vertices = new Map();
        /** @type {Map<Item, Int32Array>} places of corners, three for each triangle */
        this.places = new Map();
    }

    /**
     * The vertices that a line sets.
     *
     * @param {number} line
     * @returns {Vertices}
     */
    verticesOf(line) {
        const known = this.vertices.get(line);
        if (known) return known;
        const numbers = Int32Array.from(line ? this.script.numbers(line) : []);
        const unit = this.limits.subpixels / GRID;
        /** @type {(place: number) => Int32Array} */
        const column = (place) =>
            Int32Array.from({ length: numbers.length / ROW }, (_, at) => snapped(numbers[ROW * at + place], unit));
        const found = { numbers, x: column(0), y: column(1) };
        this.vertices.set(line, found);
        return found;
    }

    /**
     * The corners of a draw's triangles, as places of vertices.
     *
     * @param {Item} item
     */
    placesOf(item) {
        const known = this.places.get(item);
        if (known) return known;
        const [count, start, base = 0] = this.script.numbers(item.line);
        const [topology] = this.script.numbers(item.state.topology);
        const isIndexed = item.word === "drawi";
        const given = isIndexed ? this.script.numbers(item.state.ib).slice(start, start + count)
                                : Array.from({ length: count }, (_, at) => start + at);
        const found = Int32Array.from(
            triangles(given, topology, isIndexed ? this.limits.strip_cut : null).flat(), (place) => place + base);
        this.places.set(item, found);
        return found;
    }

    /**
     * The triangles of a draw that cover a pixel, in their order.
     *
     * @param {Item} item
     * @param {Pixel} pixel
     * @param {{isCounterClockwise: boolean, bias: number}} rasterizer
     * @returns {Covering[]}
     */
    on(item, { x, y }, rasterizer) {
        const places = this.placesOf(item), vertices = this.verticesOf(item.state.vb);
        const centre = { x: GRID * x + GRID / 2, y: GRID * y + GRID / 2 };
        const found = [];
        for (let at = 0; at < places.length; at += 3) {
            const [a, b, c] = [places[at], places[at + 1], places[at + 2]];
            if (isBeside(vertices.x, a, b, c, centre.x) || isBeside(vertices.y, a, b, c, centre.y)) continue;
            const weights = weightsAt(
                [vertices.x[a], vertices.x[b], vertices.x[c]], [vertices.y[a], vertices.y[b], vertices.y[c]], centre);
            if (!weights) continue;
            const seen = this.seen(vertices, [a, b, c], weights, rasterizer);
            found.push({ number: at / 3, of: places.length / 3, ...seen });
        }
        return found;
    }

    /**
     * A triangle's colour and corners, its depth at a pixel, and its face.
     *
     * @param {Vertices} vertices
     * @param {number[]} corners
     * @param {number[]} weights
     * @param {{isCounterClockwise: boolean, bias: number}} rasterizer
     */
    seen({ numbers, x, y }, corners, weights, { isCounterClockwise, bias }) {
        const depths = corners.map((corner) => numbers[ROW * corner + DEPTH]);
        const first = ROW * corners[0];
        return {
            colour: [...numbers.subarray(first + COLOUR, first + ROW)],
            depth: depthAt(weights, depths, bias, this.limits.deepest),
            isFront: (weights[0] + weights[1] + weights[2] > 0) !== isCounterClockwise,
            corners: corners.map((corner) => [x[corner] / GRID, y[corner] / GRID]),
        };
    }
}

/**
 * Whether three places lie on one side of another.
 *
 * @param {Int32Array} column
 * @param {number} a
 * @param {number} b
 * @param {number} c
 * @param {number} at
 */
function isBeside(column, a, b, c, at) {
    const [p, q, r] = [column[a], column[b], column[c]];
    return (p < at && q < at && r < at) || (p > at && q > at && r > at);
}
