// Runs the page's device in node, as tools/test_page.py asks: what the worker runs, and no page.
//
//     node page_in_node.mjs MODULE.wasm TABLES.json TASK FOLDER NAME ..
//
// Of each script NAME of FOLDER it prints, by the TASK
//
//     gallery     answers and digest, as crates/gallery/stdout has them
//     calls       its name, where its calls leave what it leaves
//     slider      its name, where a device that stays has behind each line what is drawn of the lines up to there
//     history     how many lines changed some pixels, which it asks in two ways
//     steps       the history of four pixels, as JSON
//     pointed     how many milliseconds of a processor the history of a pixel takes, of twenty the one in the middle
//                 and the slowest
//     overdraw    how many of its pixels it asks for, which were touched as often as their histories have events, and
//                 which some lines changed as what is drawn of the lines before and behind them says
//     planes      how many milliseconds of a processor it takes to count how often pixels were touched and to colour
//                 that, and to tell what the last line that draws changed, each the middle of five
//     memory      its name, where 200 drawings more, and a device that goes forth and back, take no more memory
//     blamed      the line and the number that are told, and which letters of the line are to blame, as JSON

import fs from "fs";
import path from "path";
import { createHash } from "crypto";

import { blame } from "../web/engine/blame.js";
import { changesOf } from "../web/engine/changes.js";
import { same } from "../web/engine/history.js";
import { Kept } from "../web/engine/kept.js";
import { Language } from "../web/engine/language.js";
import { Module, answersOf, refusalOf } from "../web/engine/module.js";
import { heatPicture, touchedOf } from "../web/engine/planes.js";
import { Script, textOf } from "../web/engine/script.js";
import { pixelBehind, playedByText } from "../web/tests/by_text.js";
import { fileOf, imageLine, played } from "../web/tests/played.js";

const [module, tablesFile, task, folder, ...names] = process.argv.slice(2);
const tables = JSON.parse(fs.readFileSync(tablesFile, "utf8"));

function gallery(device, name, bytes) {
    const { status, lines, image } = device.draw(bytes);
    const answers = textOf(lines);
    if ((status === 1) !== (refusalOf(answersOf(lines)) !== null))
        throw new Error(`${name}: status ${status} beside ${answers}`);
    console.log(`${name}\n${answers}image ${createHash("sha256").update(image).digest("hex")}`);
}

/** Compares what a script's calls leave with what it leaves as a text. */
function calls(device, name, bytes) {
    const { lines, image } = device.draw(bytes);
    const [wanted, found] = [[...answersOf(lines), imageLine([image])], played(device, new Script(bytes))];
    if (String(found) !== String(wanted)) throw new Error(`${name}: ${found}, and not ${wanted}`);
    console.log(name);
}

/** Compares what is told and seen behind some lines, forth and back, with what is drawn of the script as a text. */
function slider(device, name, bytes) {
    const script = new Script(bytes), kept = new Kept(device, script);
    const { refused } = playedByText(device, script, script.count);
    const last = Math.max(1, script.count);
    for (const at of [0.3, 1, 0.31, 0.5, 0.9, 0.4, 0.99, 0.1]) {
        const line = Math.max(1, Math.round(at * last)), wanted = playedByText(device, script, line);
        const { player, ...told } = kept.play(line);
        const image = imageLine(player ? fileOf(player.device) : []);
        const [one, other] = [{ ...told, image }, { ...wanted, image: imageLine([wanted.image]) }].map(
            ({ answers, questions, shown, refused: by, image: drawn }) =>
                JSON.stringify([line, answers, questions, shown, by, drawn]));
        if (one !== other) throw new Error(`${name}: ${one}, and not ${other}`);
        if (at === 0.3 && JSON.stringify(kept.check()) !== JSON.stringify(refused))
            throw new Error(`${name}: ${JSON.stringify(kept.check())}, and not ${JSON.stringify(refused)}`);
    }
    kept.leave();
    console.log(name);
}

/**
 * Compares the lines that a pixel's history tells with those behind which the pixel holds something else than before,
 * and what it holds at the end with the planes of a device that its calls draw on.
 */
function history(device, name, bytes) {
    const script = new Script(bytes), kept = new Kept(device, script);
    const { refused, player } = kept.play(script.count);
    if (refused) return;
    const { width, height } = player.device;
    const planes = player.device.planes();
    let changes = 0;
    for (let at = 0; at < 12; at++) {
        const pixel = { x: (at * 7919 + 3) % width, y: (at * 104729 + 5) % height };
        const held = Array.from({ length: script.count }, (_, line) => pixelBehind(device, script, line + 1, pixel));
        const steps = kept.historyBehind(script.count, tables).steps(pixel);
        const plain =
            held.map((_, line) => line + 1).filter((line) => line > 1 && !same(held[line - 1], held[line - 2]));
        const told = steps.filter(({ before, after }) => !same(before, after));
        const lines = new Set(told.map(({ line, by }) => by || line));
        const end = steps.length ? steps[steps.length - 1].after : held[held.length - 1];
        const isChain = steps.every(({ before }, place) => place === 0 || same(before, steps[place - 1].after));
        if (!plain.every((line) => lines.has(line)) || !same(end, held[held.length - 1]) || !isChain) {
            throw new Error(
                `${name} (${pixel.x}, ${pixel.y}): ${JSON.stringify({ lines: [...lines], plain, end, steps })}`);
        }
        const place = pixel.y * width + pixel.x;
        if (planes.depth[place] !== end.depth || planes.stencil[place] !== end.stencil)
            throw new Error(`${name}: planes differ`);
        changes += told.length;
    }
    kept.leave();
    console.log(`${name} ${changes}`);
}

/**
 * Prints pixels, and of each its steps: line, the line that executed it or null, triangle and its depth, the outcome,
 * and what is held behind.
 */
function steps(device, name, bytes) {
    const kept = new Kept(device, new Script(bytes));
    const { refused, player } = kept.play(kept.script.count);
    const { width, height } = refused ? { width: 1, height: 1 } : player.device;
    const found = Array.from({ length: refused ? 0 : 4 }, (_, at) => {
        const [x, y] = [(at * 7919 + 11) % width, (at * 104729 + 2) % height];
        const told = kept.historyBehind(kept.script.count, tables).steps({ x, y })
                         .map(({ line, by, triangle, outcome, after }) => [line, by, triangle && triangle.number,
                                  triangle && triangle.depth, outcome, [...after.colour, after.depth, after.stencil]]);
        return [x, y, told];
    });
    kept.leave();
    console.log(JSON.stringify(found));
}

/** Milliseconds of a processor that this process has taken. */
function processorTime() {
    const { user, system } = process.cpuUsage();
    return (user + system) / 1000;
}

/** Prints how long a pixel's history takes where the device is there already. */
function pointed(device, name, bytes) {
    const kept = new Kept(device, new Script(bytes)), { count } = kept.script;
    const { width, height } = kept.play(count).player.device;
    const times = Array.from({ length: 21 }, (_, at) => {
        const begun = processorTime();
        kept.historyBehind(count, tables).steps({ x: (at * 7919 + 11) % width, y: (at * 104729 + 2) % height });
        return processorTime() - begun;
    }).slice(1);
    times.sort((one, other) => one - other);
    kept.leave();
    console.log(`${times[times.length >> 1].toFixed(1)} ${times[times.length - 1].toFixed(1)}`);
}

/** Compares how often pixels were touched with their histories, and what lines changed with what is drawn of texts. */
function overdraw(device, name, bytes) {
    const script = new Script(bytes), kept = new Kept(device, script);
    if (kept.play(script.count).refused) return;
    let asked = 0;
    for (const line of [script.count, script.count >> 1, script.count >> 2].filter((it) => it > 1)) {
        const history = kept.historyBehind(line, tables), { width, values } = history.touched, { text } = history.player;
        const changes = changesOf(kept, line, null);
        for (let at = 0; at < values.length; at += 1 + values.length / 100 | 0, asked++) {
            const pixel = { x: at % width, y: Math.floor(at / width) };
            const events = device.history(text, pixel, 64).length;
            if (values[at] !== events)
                throw new Error(`${name} (${pixel.x}, ${pixel.y}): touched ${values[at]} times, of ${events} events`);
            if (asked % 10) continue;
            const [before, after] = [line - 1, line].map((it) => pixelBehind(device, script, it, pixel));
            for (const plane of ["colour", "depth", "stencil"])
                if (Boolean(changes[plane]?.mask[at]) === (String(before[plane]) === String(after[plane])))
                    throw new Error(`${name} (${pixel.x}, ${pixel.y}): ${plane} at line ${line}`);
        }
    }
    kept.leave();
    console.log(`${name} ${asked}`);
}

/** The time in the middle of five. */
function middleTime(act) {
    const times = Array.from({ length: 5 }, () => {
        const begun = processorTime();
        act();
        return processorTime() - begun;
    });
    return times.sort((one, other) => one - other)[2].toFixed(0);
}

/** Prints how long the planes take that are counted and compared. */
function planes(device, name, bytes) {
    const script = new Script(bytes), kept = new Kept(device, script), { count } = script;
    const history = kept.historyBehind(count, tables);
    const counted = middleTime(() => {
        history.counted = null;
        heatPicture(history.touched, touchedOf(history.touched.values));
    });
    const drawing = Array.from({ length: count }, (_, at) => count - at).find((it) => script.words(it)[1] === "draw");
    console.log(`${counted} ${middleTime(() => changesOf(kept, drawing, null))}`);
    kept.leave();
}

/** Lets a device that stays go to each line, and asks behind it what touched a pixel. */
function forthAndBack(device, bytes) {
    const kept = new Kept(device, new Script(bytes));
    for (const step of [1, 7, 3]) {
        for (let at = 0; at < kept.script.count; at++) {
            const { shown } = kept.play(at * step % kept.script.count + 1);
            if (at % 5 === 0) kept.historyBehind(shown, tables).steps({ x: 1, y: 1 });
        }
    }
    kept.leave();
}

/** Draws so often that what isn't given back would be seen. */
function memory(device, name, bytes) {
    forthAndBack(device, bytes);
    const drawn = JSON.stringify(device.draw(bytes));
    const size = device.calls.memory.buffer.byteLength;
    for (let times = 0; times < 200; times++) device.draw(bytes);
    for (let times = 0; times < 5; times++) forthAndBack(device, bytes);
    if (device.calls.memory.buffer.byteLength !== size) throw new Error(`${name}: the memory has grown`);
    if (JSON.stringify(device.draw(bytes)) !== drawn) throw new Error(`${name}: another answer`);
    console.log(name);
}

/** Prints what is told of a script and which letters are to blame, or null where it is drawn. */
function blamed(device, name, bytes) {
    const refused = refusalOf(answersOf(device.draw(bytes).lines));
    const script = new Script(bytes);
    const [, width, height] = script.count ? script.words(1) : [];
    const isThere = refused && refused.line >= 1 && refused.line <= script.count;
    const size = { width: Number(width), height: Number(height) };
    const place = isThere ? blame(new Language(tables), script.text(refused.line), refused, size) : null;
    console.log(JSON.stringify(refused && [refused.line, refused.number, place && place.start, place && place.end]));
}

const device = await Module.of(fs.readFileSync(module), tables.library);
for (const name of names)
    ({ gallery, calls, slider, history, steps, pointed, overdraw, planes, memory, blamed })[task](
        device, name, new Uint8Array(fs.readFileSync(path.join(folder, name))));
