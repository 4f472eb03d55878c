// Scripts that are drawn as texts, against which tests hold what their calls leave on a device that stays.

import { answersOf, refusalOf } from "../engine/module.js";
import { bytesOf } from "../engine/script.js";

const TRIES = 8;

/** All pieces, one behind the other. */
function joined(pieces) {
    return new Uint8Array(Buffer.concat(pieces));
}

/** The queries that the immediate context has open behind a line, in the order in which they were opened. */
export function openQueries(script, last) {
    const open = new Set();
    for (let line = 2; line <= last; line++) {
        const [actor, word, query] = script.words(line);
        if (actor !== "i") continue;
        if (word === "begin") open.add(query);
        if (word === "end") open.delete(query);
    }
    return [...open];
}

/** The script up to a line. The device runs nothing while a query is open, so those that are open there are ended. */
export function closedAt(script, last, ...more) {
    const ends = openQueries(script, last).map((query) => `i end ${query}\n`);
    return joined([script.slice(1, last), bytesOf([...ends, ...more].join(""))]);
}

/** The lines up to `last` that ask: those of the answers, in their order. */
function questions(script, last) {
    return Array.from({ length: last }, (_, at) => at + 1).filter((line) => {
        const [actor, word] = script.words(line);
        return actor === "i" && (word === "query" || word === "pixel");
    });
}

/** What a pixel holds behind a line, asked by a line of the script. */
export function pixelBehind(module, script, last, { x, y }) {
    const { lines } = module.draw(closedAt(script, last, `i pixel ${x} ${y}\n`));
    const [red, green, blue, alpha, depth, stencil] = answersOf(lines).pop().split(" ").slice(3).map(Number);
    return { x, y, colour: [red, green, blue, alpha], depth, stencil };
}

/**
 * Plays a script up to a line: the answers and the lines that asked, the refused line or null, the image's bytes, and
 * the line up to which the image shows the script. Where a line is refused that is the last one before it which can be
 * drawn. Behind the last line nothing is closed, since a script that leaves a query open is refused.
 */
export function playedByText(module, script, last) {
    const drawn = module.draw(last >= script.count ? script.bytes : closedAt(script, last));
    const all = answersOf(drawn.lines), refused = refusalOf(all);
    const answers = refused ? all.slice(0, -1) : all;
    const told = { answers, questions: questions(script, last).slice(0, answers.length), refused };
    if (!refused) return { ...told, image: drawn.image, shown: last };
    let shown = Math.min(refused.line - 1, script.count);
    for (let tries = 0; shown >= 1 && tries < TRIES; tries++) {
        const before = module.draw(closedAt(script, shown));
        const again = refusalOf(answersOf(before.lines));
        if (!again) return { ...told, image: before.image, shown };
        shown = Math.min(shown, again.line) - 1;
    }
    return { ...told, image: new Uint8Array(0), shown: 0 };
}
