// Which values of two targets differ, and by how much.

/**
 * @typedef {{left: number, top: number, right: number, bottom: number}} Box right and bottom are the first column and
 * row outside
 */
/**
 * @typedef {{mask: Uint8Array, count: number, box: Box, most: number[]}} Difference where they differ, and of each
 * channel the largest
 */

/** @typedef {Uint8Array | Uint8ClampedArray | Uint32Array} Numbers */

/**
 * How two rows of values differ that have so many channels for each pixel, one, or four bytes; null where they don't.
 *
 * @param {Numbers} a
 * @param {Numbers} b
 * @param {number} width
 * @param {number} channels
 * @returns {Difference | null}
 */
export function difference(a, b, width, channels) {
    const mask = new Uint8Array(a.length / channels), height = mask.length / width;
    // (a pixel of four bytes is looked at as one word, the first byte lowest)
    const wordsOf = (/** @type {Numbers} */ it) => new Uint32Array(it.buffer, it.byteOffset, mask.length);
    const [one, other] = channels === 1 ? [a, b] : [wordsOf(a), wordsOf(b)];
    const most = new Array(channels).fill(0);
    let count = 0, left = width, top = height, right = 0, bottom = 0;
    for (let y = 0, at = 0; y < height; y++) {
        for (let x = 0; x < width; x++, at++) {
            const was = one[at], is = other[at];
            if (was === is) continue;
            mask[at] = 1;
            count++;
            if (x < left) left = x;
            if (x >= right) right = x + 1;
            if (y < top) top = y;
            bottom = y + 1;
            for (let channel = 0, shift = 0; channel < channels; channel++, shift += 8) {
                const far = Math.abs(channels === 1 ? was - is : (was >>> shift & 255) - (is >>> shift & 255));
                if (far > most[channel]) most[channel] = far;
            }
        }
    }
    return count ? { mask, count, box: { left, top, right, bottom }, most } : null;
}
