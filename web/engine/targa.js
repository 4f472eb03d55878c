// The device's image: 18 bytes, then blue, green, red, alpha of each pixel, rows from the top.

const HEADER = 18;

/**
 * @typedef {{width: number, height: number, pixels: Uint8ClampedArray}} Picture red, green, blue, alpha of each pixel,
 * row by row
 */

/**
 * The picture of an image's file.
 *
 * @param {Uint8Array} bytes
 * @returns {Picture}
 */
export function decodeTarga(bytes) {
    const width = bytes[12] + 256 * bytes[13];
    const height = bytes[14] + 256 * bytes[15];
    if (bytes[2] !== 2 || bytes[16] !== 32 || bytes.length !== HEADER + 4 * width * height)
        throw new Error("the image has another form");
    const words = new Uint32Array(bytes.slice(HEADER).buffer);
    for (let at = 0; at < words.length; at++) {
        const word = words[at];
        words[at] = ((word & 0xff00ff00) | ((word & 0xff) << 16) | ((word >>> 16) & 0xff)) >>> 0;
    }
    return { width, height, pixels: new Uint8ClampedArray(words.buffer) };
}

/**
 * The picture with an alpha of 255, which shows what alpha hides: a target begins with an alpha of 0.
 *
 * @param {Picture} picture
 * @returns {Picture}
 */
export function opaque({ width, height, pixels }) {
    const words = new Uint32Array(pixels.slice().buffer);
    for (let at = 0; at < words.length; at++) words[at] |= 0xff000000;
    return { width, height, pixels: new Uint8ClampedArray(words.buffer) };
}
