// Pictures as PNG files, byte for byte as they are: a canvas gives back other colours where alpha is below 255.

/** @typedef {import("./targa.js").Picture} Picture */

const SIGNATURE = [137, 80, 78, 71, 13, 10, 26, 10];
const RGB = 2, RGBA = 6;

/**
 * A PNG of a picture, with its alpha or without.
 *
 * @param {Picture} picture
 * @param {boolean} hasAlpha
 */
export async function encodePng({ width, height, pixels }, hasAlpha) {
    const header = new Uint8Array(13);
    new DataView(header.buffer).setUint32(0, width);
    new DataView(header.buffer).setUint32(4, height);
    header.set([8, hasAlpha ? RGBA : RGB], 8);
    const data = await packed(rows(width, height, pixels, hasAlpha ? 4 : 3), "deflate");
    const chunks = [chunk("IHDR", header), chunk("IDAT", data), chunk("IEND", new Uint8Array(0))];
    return new Blob([new Uint8Array(SIGNATURE), ...chunks], { type: "image/png" });
}

/**
 * Bytes that are packed: "deflate" as zlib does it, "deflate-raw" without its head.
 *
 * @param {Uint8Array} bytes
 * @param {"deflate" | "deflate-raw"} how
 */
export async function packed(bytes, how) {
    return new Uint8Array(
        await new Response(new Blob([bytes]).stream().pipeThrough(new CompressionStream(how))).arrayBuffer());
}

/**
 * The rows of a picture, each behind the number of its filter, which is none.
 *
 * @param {number} width
 * @param {number} height
 * @param {Uint8ClampedArray} pixels
 * @param {number} channels
 */
function rows(width, height, pixels, channels) {
    const data = new Uint8Array(height * (1 + channels * width));
    let to = 0;
    for (let at = 0; at < pixels.length; at += 4) {
        if (at % (4 * width) === 0) to++;
        for (let channel = 0; channel < channels; channel++) data[to++] = pixels[at + channel];
    }
    return data;
}

/**
 * @param {string} name
 * @param {Uint8Array} data
 */
function chunk(name, data) {
    const bytes = new Uint8Array(12 + data.length);
    const view = new DataView(bytes.buffer);
    view.setUint32(0, data.length);
    bytes.set(new TextEncoder().encode(name), 4);
    bytes.set(data, 8);
    view.setUint32(8 + data.length, checksum(bytes.subarray(4, 8 + data.length)));
    return bytes;
}

const REMAINDERS = Uint32Array.from({ length: 256 }, (_, byte) => {
    let rest = byte;
    for (let bit = 0; bit < 8; bit++) rest = rest & 1 ? 0xedb88320 ^ (rest >>> 1) : rest >>> 1;
    return rest;
});

/**
 * The cyclic redundancy check of PNG's chunks.
 *
 * @param {Uint8Array} bytes
 */
function checksum(bytes) {
    let rest = 0xffffffff;
    for (const byte of bytes) rest = REMAINDERS[(rest ^ byte) & 255] ^ (rest >>> 8);
    return (rest ^ 0xffffffff) >>> 0;
}
