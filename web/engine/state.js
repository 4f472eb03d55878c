// What holds behind a line: the state of the context whose line it is, what it records, and when that is executed.

import { KINDS } from "./session.js";

/** @typedef {import("./script.js").Script} Script */
/** @typedef {import("./session.js").Session} Session */
/**
 * @typedef {{word: string, line: number, numbers: string[], count: number}} Setting a state, the line that set it or
 * 0, its first numbers, and how many there are
 */

/**
 * @typedef {object} StateAt
 * @property {number} line
 * @property {string} actor
 * @property {Setting[]} settings
 * @property {number} commands what is recorded, or pending
 * @property {string[]} open the queries that are open
 * @property {{number: number, finish: number, by: number[]} | null} list the list in which the line stands, its last
 * line or 0, and the lines that execute it; null for a line of the immediate context
 */

const MOST = 200;
const SPACE = 32;

/**
 * The state behind the last line of a session.
 *
 * @param {Session} session
 * @returns {StateAt}
 */
export function stateAt(session) {
    const { script, line: last } = session;
    const [first, word] = script.words(last);
    const actor = last === 1 ? "i" : first;
    const context = session.context(actor);
    const settings = KINDS.map((kind) => {
        const line = context.state[kind];
        const spaces = line ? script.slice(line, line).reduce((sum, byte) => sum + Number(byte === SPACE), 0) : 1;
        return {
            word: kind,
            line,
            numbers: line ? script.text(line, MOST).split(" ").slice(2) : [],
            count: spaces - 1
        };
    });
    const list =
        actor === "i" ? null : listAt(script, actor, session.listsOf(actor).length - (word === "finish" ? 1 : 0));
    return { line: last, actor, settings, commands: context.commands, open: [...context.open.keys()], list };
}

/**
 * Where a list ends, and the lines that execute it.
 *
 * @param {Script} script
 * @param {string} actor
 * @param {number} number
 */
function listAt(script, actor, number) {
    const found = { number, finish: 0, by: /** @type {number[]} */ ([]) };
    const text = `exec ${actor} ${number} `;
    let finished = 0;
    for (let line = 2; line <= script.count; line++) {
        const [who, word, argument, list] = script.words(line);
        if (who === actor && word === "finish" && finished++ === number) found.finish = line;
        if (who === "i" && `${word} ${argument} ${list} ` === text) found.by.push(line);
    }
    return found;
}
