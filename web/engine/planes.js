// Depth and stencil of the whole target, and how often each pixel was touched, as pictures.

/** @typedef {import("./targa.js").Picture} Picture */
/** @typedef {{width: number, height: number, values: Uint32Array | Uint8Array}} Values a plane, row by row */
/**
 * @typedef {{near: number | null, far: number | null}} Range the depths that are white and black, or null for those of
 * the target
 */

// a word of a picture, red lowest; words have a sign, since engines are faster by them
const BLACK = 0xff000000 | 0;
// the colours of counts, from the least to the most, with those between, as the package's planes.py has them
const HEAT = [[20, 20, 90], [120, 30, 140], [220, 60, 60], [250, 170, 40], [255, 255, 200]];
const SHADES = 256;
// so many counts have their colours in a table
const KNOWN = 1 << 12;

/**
 * The nearest depth of a plane, and the farthest that was drawn: the deepest of all is what a target begins with.
 *
 * @param {Uint32Array | Uint8Array} depth
 * @param {number} deepest
 * @returns {{near: number, far: number}}
 */
export function rangeOf(depth, deepest) {
    const { length } = depth;
    let near = deepest, far = 0;
    for (let at = 0; at < length; at++) {
        const value = depth[at] | 0;
        if (value < near) near = value;
        if (value > far && value < deepest) far = value;
    }
    return { near, far: Math.max(near, far) };
}

/**
 * Depths as grey: the nearest of a range white, the farthest dark, what is nearer or farther than the range white or
 * dark too, and black where nothing was drawn.
 *
 * @param {Values} plane
 * @param {{near: number, far: number}} range
 * @param {number} deepest
 * @returns {Picture}
 */
export function depthPicture({ width, height, values }, { near, far }, deepest) {
    const scale = 215 / Math.max(1, far - near), most = Math.max(0, far - near);
    const words = new Int32Array(values.length);
    const { length } = words;
    for (let at = 0; at < length; at++) {
        const value = values[at] | 0;
        if (value === deepest) {
            words[at] = BLACK;
            continue;
        }
        const from = value - near;
        const behind = from < 0 ? 0 : from > most ? most : from;
        // (these numbers aren't negative, so what is cut off rounds to the nearest)
        words[at] = BLACK | Math.imul((255 - behind * scale + 0.5) | 0, 0x10101);
    }
    return { width, height, pixels: new Uint8ClampedArray(words.buffer) };
}

/**
 * Stencil values in colours: 0 is black, and values next to each other differ.
 *
 * @param {Values} plane
 * @returns {Picture}
 */
export function stencilPicture({ width, height, values }) {
    const colours = Array.from({ length: 256 }, (_, value) => (value ? hue((value * 0.381966) % 1) : BLACK));
    const words = new Int32Array(values.length);
    for (let at = 0; at < words.length; at++) words[at] = colours[values[at]];
    return { width, height, pixels: new Uint8ClampedArray(words.buffer) };
}

/**
 * The least and the most of counts that are above 0, or 0 where none is.
 *
 * @param {Uint32Array | Uint8Array} counts
 */
export function touchedOf(counts) {
    const { length } = counts;
    let least = 0, most = 0;
    for (let at = 0; at < length; at++) {
        const count = counts[at];
        if (count > most) most = count;
        if (count && (count < least || !least)) least = count;
    }
    return { least, most };
}

/**
 * Counts as heat: black for none, and from dark blue for the least by red and yellow to nearly white for the most, in
 * shades; counts below or above both have their colours.
 *
 * @param {Values} plane
 * @param {{least: number, most: number}} touched
 * @returns {Picture}
 */
export function heatPicture({ width, height, values }, { least, most }) {
    const words = new Int32Array(values.length), { length } = words, span = Math.max(1, most - least);
    const shades = Array.from({ length: SHADES }, (_, shade) => heat(shade / (SHADES - 1) * (HEAT.length - 1)));
    const colourOf = (/** @type {number} */ count) => {
        const from = Math.max(0, Math.min(span, count - least));
        return count ? shades[Math.floor((from * (2 * SHADES - 2) + span) / (2 * span))] : BLACK;
    };
    const known = Int32Array.from({ length: Math.min(most + 1, KNOWN) }, (_, count) => colourOf(count));
    for (let at = 0; at < length; at++) {
        const count = values[at];
        words[at] = count < known.length ? known[count] : colourOf(count);
    }
    return { width, height, pixels: new Uint8ClampedArray(words.buffer) };
}

/** @param {number} place */
function heat(place) {
    const from = Math.min(Math.floor(place), HEAT.length - 2);
    const [red, green, blue] =
        HEAT[from].map((low, channel) => Math.floor(low + (HEAT[from + 1][channel] - low) * (place - from) + 0.5));
    return BLACK | (blue << 16) | (green << 8) | red;
}

/** @param {number} turn */
function hue(turn) {
    const [red, green, blue] =
        [0, 1 / 3, 2 / 3].map((shift) => Math.round(140 + 100 * Math.cos(2 * Math.PI * (turn - shift))));
    return BLACK | (blue << 16) | (green << 8) | red;
}
