// From what people write to the whole numbers that the device takes, as the Python package's units.py has it.

/** @typedef {string | ArrayLike<number>} Colour "#rrggbb", "#rrggbbaa", or three or four numbers from 0 to 255 */
/** @typedef {[x: number, y: number, depth: number, colour: Colour]} Row a vertex: pixels, a depth from 0 to 1 */
/** @typedef {Iterable<Row> | ArrayBufferView} Vertices rows, or bytes as C has them, 16 for each */

const SUBPIXELS = 65536, DEPTH_STEPS = 1 << 24;
const WORDS = 4;
const HEX = /^#(?:[0-9a-f]{2}){3,4}$/i;

/**
 * A whole number of a range.
 *
 * @param {string} name
 * @param {number} value
 * @param {number} [most]
 * @param {number} [least]
 */
export function whole(name, value, most = 0xffffffff, least = 0) {
    if (Number.isInteger(value) && value >= least && value <= most) return value;
    throw new RangeError(`${name}: ${String(value)} is no whole number from ${least} to ${most}`);
}

/**
 * A whole number of 32 bits with a sign.
 *
 * @param {string} name
 * @param {number} value
 */
export function signed(name, value) {
    return whole(name, value, 0x7fffffff, -0x80000000);
}

/**
 * A number, and no text that spells one.
 *
 * @param {string} name
 * @param {number} value
 */
function numeric(name, value) {
    if (typeof value === "number") return value;
    throw new RangeError(`${name}: ${String(value)} is no number`);
}

/**
 * A coordinate in pixels as the nearest part of 65,536 of a pixel, the even one of two.
 *
 * @param {number} pixels
 */
export function subpixels(pixels) {
    const exact = numeric("coordinate", pixels) * SUBPIXELS, up = Math.round(exact);
    return signed("coordinate", up - exact === 0.5 && up % 2 ? up - 1 : up);
}

/**
 * A depth as it is stored, where 1 is 16,777,215: the nearest, the farther one of two. More than 1 the device refuses.
 *
 * @param {number} depth
 */
export function storedDepth(depth) {
    // (depth times 16,777,215 is a number less depth; below 1 each step here is exact)
    const exact = numeric("depth", depth) * DEPTH_STEPS, below = Math.floor(exact), rest = exact - below;
    const isExact = depth <= 1;
    const more = isExact ? Number(rest - 0.5 >= depth) - Number(rest < depth - 0.5) : Math.floor(rest - depth + 0.5);
    return whole("depth", below + more);
}

/**
 * A stored depth as a part of the deepest: 0 to 1.
 *
 * @param {number} stored
 */
export function depthOf(stored) {
    return stored / (DEPTH_STEPS - 1);
}

/**
 * Red, green, blue and alpha, which is 255 where it isn't told.
 *
 * @param {Colour} colour
 * @returns {number[]}
 */
export function channels(colour) {
    if (typeof colour !== "string") {
        const given = Array.from(colour, (it) => whole("colour", it, 255));
        if (given.length === 3) given.push(255);
        if (given.length !== 4) throw new RangeError("colour: three or four numbers are wanted");
        return given;
    }
    if (!HEX.test(colour)) throw new RangeError(`colour: ${colour} is neither #rrggbb nor #rrggbbaa`);
    return [1, 3, 5, 7].map((at) => (at < colour.length ? parseInt(colour.slice(at, at + 2), 16) : 255));
}

/**
 * Vertices as C has them, for each four words of 32 bits: x and y in parts of 65,536 of a pixel, the stored depth, and
 * four bytes of colour, red first.
 *
 * @param {Vertices} vertices
 * @returns {Uint8Array}
 */
export function vertexBytes(vertices) {
    if (ArrayBuffer.isView(vertices)) {
        const bytes = new Uint8Array(vertices.buffer, vertices.byteOffset, vertices.byteLength);
        if (bytes.length % (4 * WORDS)) throw new RangeError("vertices: each has 16 bytes");
        return bytes;
    }
    const words = Array.from(vertices).flatMap(([x, y, depth, colour]) => {
        const [red, green, blue, alpha] = channels(colour);
        return [subpixels(x), subpixels(y), storedDepth(depth), red | green << 8 | blue << 16 | alpha << 24];
    });
    return new Uint8Array(Int32Array.from(words).buffer);
}
