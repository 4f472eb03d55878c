// What the page shows of a script's words, of a pixel and of answers, as elements.

import { same } from "../engine/history.js";
import { Language } from "../engine/language.js";
import { counted, element, quietly } from "./elements.js";

/** @typedef {import("../engine/history.js").Step} Step */
/** @typedef {import("../engine/language.js").Argument} Argument */
/** @typedef {import("../engine/language.js").Caret} Caret */
/** @typedef {import("../engine/language.js").Word} Word */
/** @typedef {import("../engine/device.js").PixelValue} PixelValue */
/** @typedef {import("../engine/state.js").StateAt} StateAt */
/** @typedef {import("../engine/state.js").Setting} Setting */
/** @typedef {(line: number) => void} OnLine */

const MOST_ANSWERS = 500;
const MOST_STEPS = 400;
const FACES = ["front_face", "back_face"];

/**
 * The number of a line, which leads to it.
 *
 * @param {number} line
 * @param {OnLine} onLine
 */
export function lineButton(line, onLine) {
    return element("button",
        { type: "button", className: "line", title: `go to line ${line}`, onclick: () => onLine(line) }, String(line));
}

// ---- words

/**
 * What stands in the line of the caret: the number there, and the word with all its arguments.
 *
 * @param {Language} language
 * @param {Caret} caret
 */
export function wordHelp(language, { text, column, line }) {
    const words = text.split(" ");
    const first = Language.first(line);
    const name = words[first - 1];
    const word = name === "target" && line !== 1 ? undefined : language.tables.words[name];
    if (!word || (line === 1 && name !== "target")) return [];
    const at = text.slice(0, column).split(" ").length - 1 - first;
    const named = word.arguments.length && at >= 0 ? at % word.arguments.length : -1;
    /** @type {(Node | string)[]} */
    const shown = [element("code", {}, word.name)];
    word.arguments.forEach(
        (argument, place) => shown.push(" ", element(place === named ? "b" : "span", {}, argument.name)));
    if (!word.counts) shown.push(" and so on");
    const value = named < 0 ? [] : [element("div", {}, ...valueHelp(word.arguments[named], words[at + first]))];
    return [...value, element("div", {}, ...shown)];
}

/**
 * What an argument may be, and what the one that stands there is.
 *
 * @param {Argument} argument
 * @param {string | undefined} text
 * @returns {(Node | string)[]}
 */
function valueHelp({ name, range, values, unit }, text) {
    const shown = Object.entries(values).map(
        ([value, meaning]) => element(value === text ? "b" : "span", {}, `${value} ${meaning}`));
    if (shown.length) return [`${name}: `, ...shown.flatMap((it, at) => (at ? [", ", it] : [it]))];
    if (!unit || !/^-?[0-9]+$/.test(text || "")) return [`${name} is ${range}`];
    const [parts, of] = unit;
    return [`${name}: ${text} is ${(Number(text) / parts).toFixed(4).replace(/\.?0+$/, "")} ${of}`];
}

/**
 * All words, with what stands behind each.
 *
 * @param {Language} language
 */
export function wordsShown(language) {
    const rows = Object.values(language.tables.words).map((word) => element("tr", {},
        element("td", {}, element("code", {}, word.name)),
        element("td", {}, word.actors),
        element("td", {}, word.arguments.map(({ name, range }, at, all) => {
            const next = all[at + 1];
            return next && next.range === range ? name : `${name} (${range})`;
        }).join(", ") + (word.counts ? "" : " and so on"))));
    const head = ["word", "of", "behind it"].map((name) => element("th", { scope: "col" }, name));
    return element("table", {}, element("thead", {}, element("tr", {}, ...head)), element("tbody", {}, ...rows));
}

// ---- states

/**
 * The state of a context behind a line, and what becomes of what it records.
 *
 * @param {Language} language
 * @param {StateAt} state
 * @param {OnLine} onLine
 */
export function stateShown(language, { actor, settings, commands, open, list }, onLine) {
    const many = `${counted(commands)} command${commands === 1 ? "" : "s"}`;
    const head = list ? `${actor} records list ${list.number}: ${many} so far` : `${actor}: ${many} pending`;
    const rows = settings.map((setting) => element("tr", { className: setting.line ? "" : "quiet" },
        element("td", {}, element("code", {}, setting.word)),
        element("td", {}, setting.line ? lineButton(setting.line, onLine) : ""),
        element("td", {}, settingText(language, setting))));
    if (open.length)
        rows.push(
            element("tr", {}, element("td", {}, "open queries"), element("td"), element("td", {}, open.join(", "))));
    return [
        element("p", {}, head), ...(list ? [recordedHint(actor, list, onLine)] : []),
        element("table", { className: "states" }, element("tbody", {}, ...rows)),
    ];
}

/**
 * Why a line that is recorded shows nothing by itself.
 *
 * @param {string} actor
 * @param {NonNullable<StateAt["list"]>} list
 * @param {OnLine} onLine
 */
function recordedHint(actor, { number, finish, by }, onLine) {
    if (!finish)
        return quietly("Nothing of it is seen: no line ", element("code", {}, `${actor} finish`), " ends the list.");
    const call = element("code", {}, `i exec ${actor} ${number}`);
    if (!by.length) return quietly("Nothing of it is seen: no line ", call, " executes the list.");
    const buttons = by.slice(0, 5).flatMap((line, at) => [at ? ", " : "", lineButton(line, onLine)]);
    const more = by.length > 5 ? ` and ${counted(by.length - 5)} more` : "";
    return quietly("What it records is seen from ", call, " on, in line ", ...buttons, more, ".");
}

/**
 * A state in words: its arguments with their names.
 *
 * @param {Language} language
 * @param {Setting} setting
 */
function settingText(language, { word: name, line, numbers, count }) {
    const word = language.tables.words[name];
    if (!word.counts) {
        const rows = count / word.arguments.length;
        return `${counted(rows)} ${
            name === "vb"    ? (rows === 1 ? "vertex" : "vertices")
                : rows === 1 ? "index"
                             : "indices"}`;
    }
    const given = line ? numbers : (language.tables.defaults[name] || "").split(" ").filter(Boolean);
    if (!given.length) return name === "topology" ? "not set" : "none";
    return given.map((number, at) => argumentText(name, word.arguments[at], number)).join(", ");
}

/**
 * @param {string} word
 * @param {Argument} argument
 * @param {string} number
 */
function argumentText(word, { name, least, most, values }, number) {
    const face = FACES.find((it) => name.startsWith(`${it}.`));
    const short = face ? `${face.split("_")[0]} ${name.slice(face.length + 1)}` : name;
    const value = values[number] || (least === 0 && most === 1 ? ["off", "on"][Number(number)] : number);
    return name === word ? value : `${short.replace(/_/g, " ")} ${value}`;
}

// ---- pixels

/**
 * A colour as a swatch and four numbers.
 *
 * @param {number[]} colour
 */
export function colourShown([red, green, blue, alpha]) {
    const swatch = element("span", { className: "swatch" });
    swatch.style.background = `rgb(${red} ${green} ${blue})`;
    return [swatch, [red, green, blue, alpha].join(" ")];
}

/**
 * What a pixel holds, and what it holds in the script beside this one.
 *
 * @param {PixelValue} value
 * @param {number} deepest
 * @param {PixelValue | null} beside
 */
export function pixelShown(value, deepest, beside) {
    const lists = [factsShown(`(${value.x}, ${value.y})`, value, deepest)];
    if (beside) lists.push(factsShown("beside", beside, deepest));
    return lists;
}

/**
 * @param {string} head
 * @param {PixelValue} value
 * @param {number} deepest
 */
function factsShown(head, { colour, depth, stencil, touched }, deepest) {
    /** @type {[string, (Node | string)[]][]} */
    const facts = [
        ["colour", colourShown(colour)],
        ["depth", [`${depth} (${(depth / deepest).toFixed(4)})`]],
        ["stencil", [String(stencil)]],
    ];
    if (touched !== undefined) facts.push(["touched", [timesText(touched)]]);
    const list = element("dl", { className: "facts mono" }, element("div", {}, element("dt", {}, head)));
    for (const [name, value] of facts)
        list.append(element("div", {}, element("dt", {}, `${name} `), element("dd", {}, ...value)));
    return list;
}

/**
 * What a pixel holds, for somebody who hears the page.
 *
 * @param {PixelValue} value
 */
export function pixelSaid({ x, y, colour, depth, stencil, touched }) {
    const more = touched === undefined ? "" : `, touched ${timesText(touched)}`;
    return `pixel ${x}, ${y}: colour ${colour.join(" ")}, depth ${depth}, stencil ${stencil}${more}`;
}

/** @param {number} count */
function timesText(count) {
    return count === 1 ? "once" : `${counted(count)} times`;
}

/**
 * The table of what touched a pixel: each clear and each triangle that covers it, with what became of it.
 *
 * @param {Language} language
 * @param {Step[]} steps
 * @param {boolean} isWhole whether what changed nothing is shown too
 * @param {{onLine: OnLine, labelOf: (line: number) => string | null, onTriangle: (corners: number[][] | null) => void}}
 *     hears lines that are gone to, and the triangle of the row that is pointed at, and tells the names of lines
 */
export function stepsShown(language, steps, isWhole, { onLine, labelOf, onTriangle }) {
    const wanted = isWhole ? steps : steps.filter(({ before, after }) => !same(before, after));
    if (!wanted.length) return quietly(steps.length ? "No line changed it." : "No line touched it.");
    const shown = wanted.slice(-MOST_STEPS);
    const head =
        ["line", "call", "outcome", "colour", "depth", "stencil"].map((name) => element("th", { scope: "col" }, name));
    const start = element("tr", {}, element("td"), element("td", { className: "quiet" }, "a new target"), element("td"),
        ...heldShown(steps[0].before, null));
    const left = wanted.length - shown.length;
    const more =
        element("tr", {}, element("td", { className: "quiet", colSpan: 6 }, `${counted(left)} more before these`));
    const pointed = (/** @type {Step} */ { triangle }) => ({
        onpointerenter: () => onTriangle(triangle && triangle.corners),
        onpointerleave: () => onTriangle(null),
    });
    const rows = shown.map(
        (step) => element("tr", pointed(step),
            element("td", {}, lineButton(step.line, onLine), ...(step.by ? [" by ", lineButton(step.by, onLine)] : [])),
            callShown(step, labelOf(step.line)),
            element("td", { className: same(step.before, step.after) ? "words quiet" : "words" },
                outcomeText(language, step)),
            ...heldShown(step.after, step.before)));
    const body = element("tbody", {}, left ? more : start, ...rows);
    return element("table", { className: "changes" }, element("thead", {}, element("tr", {}, ...head)), body);
}

/**
 * What was called: the word behind the name of its line, and of a draw the triangle.
 *
 * @param {Step} step
 * @param {string | null} label
 */
function callShown({ word, triangle }, label) {
    const named = label ? `${label}: ${word}` : word;
    if (!triangle) return element("td", { className: "words" }, named);
    const { number, of, colour, depth } = triangle;
    const [swatch] = colourShown(colour);
    const title = `its colour is ${colour.join(" ")}, and its depth there ${depth}`;
    return element(
        "td", { className: "words", title }, swatch, of === 1 ? named : `${named}, triangle ${number} of ${of}`);
}

/**
 * What became of the pixel, with the comparison that failed.
 *
 * @param {Language} language
 * @param {Step} step
 */
export function outcomeText(language, { outcome, states, triangle, before, after }) {
    const values = (/** @type {number} */ at) => language.tables.words.ds.arguments[at].values;
    const ds = states.ds.split(" ");
    const names = [...new Set([values(9)[ds[9]], values(13)[ds[13]]])].join(" or ");
    /** @type {Record<string, string>} */
    const more = {
        "left out by the predicate":
            `: query ${states.predicate.split(" ")[0]} counted ${states.predicate.endsWith(" 1") ? "a pixel" : "none"}`,
        "culled": ` by ${language.tables.words.raster.arguments[0].values[states.raster.split(" ")[0]]}`,
        "outside the scissor rectangle": ` ${states.scissor}`,
        "the depth test fails": `: ${triangle && triangle.depth} ${values(2)[ds[2]]} ${before.depth}`,
        "the stencil test fails": `: ${ds[14]} ${names} ${before.stencil}${ds[4] === "255" ? "" : ` in bits ${ds[4]}`}`,
        "drawn": same(before, after) ? ", changing nothing" : "",
    };
    return outcome + (more[outcome] || "");
}

/**
 * Colour, depth and stencil in a row; quiet where they are as before.
 *
 * @param {PixelValue} now
 * @param {PixelValue | null} before
 */
function heldShown(now, before) {
    return /** @type {const} */ (["colour", "depth", "stencil"]).map((name) => {
        const shown = name === "colour" ? colourShown(now.colour) : [String(now[name])];
        return element(
            "td", { className: before && String(before[name]) === String(now[name]) ? "quiet" : "" }, ...shown);
    });
}

// ---- answers

/**
 * The answer lines, each behind the line that asked.
 *
 * @param {string[]} answers
 * @param {number[]} questions
 * @param {boolean} isFaulty whether nothing was played, since the script has a fault
 * @param {OnLine} onLine
 */
export function answersShown(answers, questions, isFaulty, onLine) {
    if (isFaulty) return quietly("A script with a fault answers nothing.");
    if (!answers.length) return quietly("The lines so far ask nothing.");
    const rows = answers.slice(0, MOST_ANSWERS).map((answer, at) => element("tr", {},
        element("td", {}, questions[at] ? lineButton(questions[at], onLine) : ""), element("td", {}, answer)));
    const table = element("table", { className: "answers" }, element("tbody", {}, ...rows));
    const more = answers.length - MOST_ANSWERS;
    return more > 0 ? element("div", {}, table, quietly(`and ${counted(more)} more`)) : table;
}
