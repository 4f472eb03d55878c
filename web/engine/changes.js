// Which pixels a line of a script changed: those that differ between the target behind the line before and behind it,
// with what is pending run at both ends. The package's changes.py says what that means of each word.

import { difference } from "./difference.js";
import { DRAWING } from "./session.js";
import { Plane } from "./states.js";

/** @typedef {import("./difference.js").Difference} Difference */
/** @typedef {import("./difference.js").Numbers} Numbers */
/** @typedef {import("./kept.js").Kept} Kept */
/** @typedef {import("./language.js").Tables} Tables */
/**
 * @typedef {Record<"colour" | "depth" | "stencil" | "overdraw", Difference | null>} Changes of how often pixels were
 * touched too, where that is asked for
 */

/**
 * @typedef {{line: number, read: Numbers[], counts: Numbers | null}} Contents the planes of the target behind a line,
 * and how often its pixels were touched, where that was counted
 */

/** @type {[keyof Changes, number, number][]} what is read, and how many channels it has */
const PLANES = [["colour", Plane.RGBA8, 4], ["depth", Plane.DEPTH32, 1], ["stencil", Plane.STENCIL8, 1]];

/**
 * Whether a line may touch a pixel: one that draws, clears or executes on the immediate context.
 *
 * @param {string[]} words its first ones
 */
function mayTouch([actor, word]) {
    return actor === "i" && (DRAWING.has(word) || word === "exec");
}

/**
 * What a line behind the first changed of each plane, null where that is nothing.
 *
 * @param {Kept} kept a script whose lines up to that one are taken
 * @param {number} line
 * @param {Tables | null} counting what is known of scripts, where it is asked which pixels were touched
 * @returns {Changes}
 */
export function changesOf(kept, line, counting) {
    /** @type {Changes} */
    const found = { colour: null, depth: null, stencil: null, overdraw: null };
    if (!mayTouch(kept.script.words(line))) {
        if (kept.contents?.line === line - 1) kept.contents = { ...kept.contents, line };
        return found;
    }
    const [before, after] = [line - 1, line].map((at) => contents(kept, at, counting));
    kept.contents = after;
    const { width } = kept.behind(line).device;
    PLANES.forEach(([name, , channels], at) => {
        found[name] = difference(before.read[at], after.read[at], width, channels);
    });
    if (before.counts && after.counts) found.overdraw = difference(before.counts, after.counts, width, 1);
    return found;
}

/**
 * What the target holds behind a line, and how often its pixels were touched, where that is asked for. What is known is
 * not read again, since one who goes on line by line asks for the line before.
 *
 * @param {Kept} kept
 * @param {number} line
 * @param {Tables | null} counting
 * @returns {Contents}
 */
function contents(kept, line, counting) {
    const known = kept.contents;
    if (known && known.line === line && (known.counts || !counting)) return known;
    const { device } = kept.behind(line);
    const read = PLANES.map(([, plane]) => device.read(plane));
    return { line, read, counts: counting && kept.historyBehind(line, counting).touched.values };
}
