// Names of lines, as a scene that was written in Python gives them: each holds from its line on, up to the next one.

/** @typedef {[number, string | null]} Mark the line from which on a name holds, or null where one ends */

/**
 * The name of a line, or null.
 *
 * @param {Mark[]} marks in the order of their lines
 * @param {number} line
 */
export function labelOf(marks, line) {
    let name = null;
    for (const [from, label] of marks) {
        if (from > line) break;
        name = label;
    }
    return name;
}
