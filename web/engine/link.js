// Scripts in the fragment of an address: the name of one of the menu, `#fan`, or a whole script,
// `#name=mine&deflate=..` with its bytes packed, or `#name=mine&text=..` where that is shorter.

import { packed } from "./png.js";
import { bytesOf, textOf } from "./script.js";

// so many bytes at once become letters
const PIECE = 1 << 13;

/** @typedef {{name: string, text: string | null}} Linked a script's name, and its text unless it is one of the menu */

/**
 * The fragment that carries a script.
 *
 * @param {string} name
 * @param {string} text
 */
export async function fragmentOf(name, text) {
    const plain = `text=${encodeURIComponent(text)}`;
    const deflated = `deflate=${spelled(await packed(bytesOf(text), "deflate-raw"))}`;
    return `#name=${encodeURIComponent(name)}&${plain.length <= deflated.length ? plain : deflated}`;
}

/**
 * The fragment that names a script of the menu.
 *
 * @param {string} name
 */
export function fragmentOfName(name) {
    return `#${encodeURIComponent(name)}`;
}

/**
 * What a fragment carries, or null where it is empty. Throws an Error where it can't be read.
 *
 * @param {string} fragment
 * @returns {Promise<Linked | null>}
 */
export async function linked(fragment) {
    const carried = fragment.replace(/^#/, "");
    if (!carried) return null;
    try {
        if (!/^(?:name|text|deflate)=/.test(carried)) return { name: decodeURIComponent(carried), text: null };
        const parts = Object.fromEntries(
            carried.split("&").map((part) => [part.split("=")[0], part.slice(part.indexOf("=") + 1)]));
        const text = "text" in parts ? decodeURIComponent(parts.text) : textOf(await unpacked(read(parts.deflate)));
        return { name: decodeURIComponent(parts.name || "") || "linked", text };
    } catch (error) {
        throw new Error("its script can't be read: perhaps the link was cut");
    }
}

/** @param {Uint8Array} bytes */
async function unpacked(bytes) {
    const stream = new Blob([bytes]).stream().pipeThrough(new DecompressionStream("deflate-raw"));
    return new Uint8Array(await new Response(stream).arrayBuffer());
}

/**
 * Bytes in the letters of base64 that stand in addresses as they are.
 *
 * @param {Uint8Array} bytes
 */
function spelled(bytes) {
    let letters = "";
    for (let at = 0; at < bytes.length; at += PIECE) letters += String.fromCharCode(...bytes.subarray(at, at + PIECE));
    return btoa(letters).replace(/\+/g, "-").replace(/\//g, "_").replace(/=+$/, "");
}

/** @param {string} letters */
function read(letters) {
    const plain = atob(letters.replace(/-/g, "+").replace(/_/g, "/"));
    return Uint8Array.from(plain, (letter) => letter.charCodeAt(0));
}
