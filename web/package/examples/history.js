// Prints what touched a pixel of a script, or of its lines up to one, line by line, and what it held behind each:
//
//     node history.js SCRIPT X Y [LINE]

import { readFile } from "node:fs/promises";

import { history } from "../index.js";

const [script, ...numbers] = process.argv.slice(2), [x, y, at] = numbers.map(Number);
for (const { line, triangle, after } of await history(await readFile(script), x, y, { at })) {
    const { colour, depth, stencil } = after;
    console.log(`${line}${triangle ? `, triangle ${triangle}` : ""}: ${colour.join(" ")}, depth ${depth}, stencil ${stencil}`);
}
