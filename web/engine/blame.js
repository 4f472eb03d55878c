// Which part of a line is to blame for a fault or a refusal that the device told. The package's `check` finds the same.

import { Language } from "./language.js";

/** @typedef {{start: number, end: number}} Place letters of a line; they are the same where something is missing */

/**
 * The place in a line's text, or null where the whole line, or none, is to blame.
 *
 * @param {Language} language
 * @param {string} text
 * @param {{line: number, number: number}} refused
 * @param {{width: number, height: number}} size that of the target, as its line says
 * @returns {Place | null}
 */
export function blame(language, text, { line, number }, size) {
    if (number === 101) return formFault(text);
    const words = text.split(" ");
    const place =
        number > 100 ? faultyWord(language, words, line, number) : refusedWord(language, words, line, number, size);
    return place === null ? null : placeOf(words, place);
}

/**
 * @param {string[]} words
 * @param {number} at a place past the last word is the end of the line
 * @returns {Place}
 */
function placeOf(words, at) {
    const start = words.slice(0, at).reduce((sum, word) => sum + word.length + 1, 0);
    return at < words.length ? { start, end: start + words[at].length } : { start: start - 1, end: start - 1 };
}

/**
 * @param {string} text
 * @returns {Place}
 */
function formFault(text) {
    const strange = /[^ -~]/u.exec(text);
    if (strange) return { start: strange.index, end: strange.index + strange[0].length };
    const spaces = /^ +/.exec(text) || / {2}(?= *[^ ])/.exec(text) || / +$/.exec(text);
    return spaces ? { start: spaces.index, end: spaces.index + spaces[0].length }
                  : { start: text.length, end: text.length };
}

/**
 * The place of the word that makes a fault.
 *
 * @param {Language} language
 * @param {string[]} words
 * @param {number} line
 * @param {number} number
 */
function faultyWord(language, words, line, number) {
    const first = Language.first(line);
    if (number === 102 || number === 103) return 0;
    if (number === 104) return 1;
    if (number === 107) return 3;
    const word = language.wordOf(words, line);
    if (!word) return null;
    const given = words.length - first;
    if (number === 105) {
        const most = word.counts ? Math.max(...word.counts) : given - given % word.arguments.length;
        return given > most ? first + most : words.length;
    }
    const wrong = words.slice(first).findIndex((text, at) => {
        const argument = language.argument(word, at);
        return argument && !language.takes(argument, text);
    });
    return wrong < 0 ? null : first + wrong;
}

// of each refusal the argument that is to blame, or -1 for the word itself; those of others are looked for
/** @type {Record<number, number>} */
const BLAMED = { 5: 0, 6: 2, 7: -1, 10: 0, 11: 0, 12: -1, 14: -1, 17: 0, 20: 0 };

/**
 * The place of the word for which a call is refused.
 *
 * @param {Language} language
 * @param {string[]} words
 * @param {number} line
 * @param {number} number
 * @param {{width: number, height: number}} size
 */
function refusedWord(language, words, line, number, size) {
    const { limits } = language.tables;
    const first = Language.first(line);
    const values = words.slice(first).map(Number);
    const word = words[first - 1];
    /** @type {Record<number, () => number>} */
    const found = {
        2: () => (values[0] > 0 && values[0] <= limits.target_side ? 1 : 0),
        3: () => (word === "vb" ? farVertex(values, limits) : 0),
        4: () => (word === "vb" ? 7 : 1) * limits.buffer_length,
        8: () => wrongSide(values, limits),
        9: () => (word === "begin" ? 0 : -1),
        13: () => (word.startsWith("draw") ? 0 : -1),
        15: () => (values[0] >= size.width ? 0 : 1),
    };
    if (number in BLAMED) return first + BLAMED[number];
    return number in found ? first + found[number]() : null;
}

/**
 * The first x out of its limits, or y, or z.
 *
 * @param {number[]} values
 * @param {Record<string, number>} limits
 */
function farVertex(values, limits) {
    const ranges = [[-limits.farthest, limits.farthest], [-limits.farthest, limits.farthest], [0, limits.deepest]];
    for (const [kind, [least, most]] of ranges.entries()) {
        for (let at = kind; at < values.length; at += 7) if (values[at] < least || values[at] > most) return at;
    }
    return 0;
}

/**
 * The side of a scissor rectangle that lies wrong.
 *
 * @param {number[]} values
 * @param {Record<string, number>} limits
 */
function wrongSide([left, top, right, bottom], limits) {
    if (left > right) return 0;
    if (top > bottom) return 1;
    return right > limits.target_side ? 2 : 3;
}
