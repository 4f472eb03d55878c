// The worker: holds the module with its devices, and answers the page's jobs one after the other.
//
// A job is {number, kind, bytes, last, ..}; its answer is {number, milliseconds, ..} or {number, error}. All is read from
// a device that stays, and goes on to the line that is asked for.

import { changesOf } from "./changes.js";
import { difference } from "./difference.js";
import { Shelf } from "./kept.js";
import { Module } from "./module.js";
import { depthPicture, heatPicture, rangeOf, stencilPicture, touchedOf } from "./planes.js";
import { pixelsOf } from "./player.js";
import { Script, bytesOf } from "./script.js";
import { stateAt } from "./state.js";
import { Plane } from "./states.js";
import { opaque } from "./targa.js";

/** @typedef {import("./changes.js").Changes} Changes */
/** @typedef {import("./kept.js").Kept} Kept */
/** @typedef {import("./planes.js").Range} Range */
/** @typedef {import("./planes.js").Values} Values */
/** @typedef {import("./targa.js").Picture} Picture */

/** @typedef {import("./language.js").Tables} Tables */

const COLOURS = ["opaque", "alpha"];
const COLOUR_CHANNELS = 4;

/** @type {Shelf | null} */
let shelf = null;
/** @type {Tables | null} */
let tables = null;
let script = new Script(new Uint8Array(0));
let serial = -1;
/** depths that were shown, whose room is used again */
let depths = new Uint32Array(0);
/** @type {{text: string, script: Script} | null} the script beside this one, by its text */
let beside = null;

/**
 * A script with its device.
 *
 * @param {Script} of
 */
function kept(of) {
    if (!shelf) throw new Error("the device hasn't started");
    return shelf.of(of);
}

/**
 * The script with a text, to be shown beside this one, played as far as it goes.
 *
 * @param {string} text
 */
function playedBeside(text) {
    if (!beside || beside.text !== text) {
        if (beside) shelf?.forget(beside.script);
        beside = { text, script: new Script(bytesOf(text)) };
    }
    const of = kept(beside.script);
    return { ...of.play(beside.script.count), of };
}

/** What is known of scripts. */
function known() {
    if (!tables) throw new Error("the device hasn't started");
    return tables;
}

/** @type {Record<string, (job: any) => object | Promise<object>>} */
const JOBS = {
    async start({ module: bytes, tables: given }) {
        const module = await Module.of(bytes, given.library);
        shelf = new Shelf(module);
        tables = given;
        return { version: module.version };
    },

    play({ last }) {
        const { player, ...told } = kept(script).play(last);
        return { ...told, picture: player && player.device.picture() };
    },

    check() {
        return { refused: kept(script).check() };
    },

    planes({ last, what, range }) {
        const plane = planeOf(kept(script), last, what, depths);
        if (what === "overdraw") {
            const touched = touchedOf(plane.values);
            return { picture: heatPicture(plane, touched), touched };
        }
        if (plane.values instanceof Uint32Array) depths = plane.values;
        const found = what === "depth" ? rangeOf(plane.values, known().limits.deepest) : null;
        return { picture: pictureOf(plane, found && within(range, found)), range: found };
    },

    pixels({ last, area, other, what }) {
        const values = valuesOf(kept(script), last, area, what);
        const { player, of } = other ? playedBeside(other) : { player: null, of: null };
        return { area, values, besides: player && of && valuesOf(of, player.line, area, what) };
    },

    state({ last }) {
        return { state: stateAt(kept(script).behind(last).session) };
    },

    changed({ last, what }) {
        const changes = changesOf(kept(script), last, what === "overdraw" ? known() : null);
        const counts = Object.fromEntries(Object.entries(changes).map(([name, it]) => [name, it ? it.count : 0]));
        return { difference: changes[planeNamed(what)], counts };
    },

    beside({ last, what, range, other }) {
        const { player, refused, of } = playedBeside(other);
        if (!player) return { refused, picture: null, difference: null, isSameSize: false };
        const mine = targetOf(kept(script), last, what), others = targetOf(of, player.line, what);
        const isSameSize = mine.width === others.width && mine.height === others.height;
        const found = isSameSize ? differenceOf(mine, others) : null;
        return { refused, picture: besidePicture(mine, others, what, range), difference: found, isSameSize };
    },

    history({ last, x, y }) {
        return { steps: kept(script).historyBehind(last, known()).steps({ x, y }) };
    },
};

/**
 * The depths or the stencil of a script's device behind a line, or how often its pixels were touched.
 *
 * @param {Kept} of
 * @param {number} last
 * @param {string} what
 * @param {Uint32Array} [room] where depths go, if they are as many
 * @returns {Values}
 */
function planeOf(of, last, what, room) {
    if (what === "overdraw") return of.historyBehind(last, known()).touched;
    const { device } = of.behind(last), { width, height } = device;
    if (what !== "depth") return { width, height, values: device.read(Plane.STENCIL8) };
    const into = room && room.length === width * height ? room : undefined;
    return { width, height, values: device.read(Plane.DEPTH32, { into }) };
}

/**
 * What the pixels of an area hold behind a line, and how often they were touched, where that is shown and was counted.
 *
 * @param {Kept} of
 * @param {number} last
 * @param {import("./player.js").Area} area
 * @param {string} what
 */
function valuesOf(of, last, area, what) {
    const values = pixelsOf(of.behind(last).device, area);
    const counted = what === "overdraw" && of.history && of.history.known;
    if (!counted) return values;
    return values.map((it) => ({ ...it, touched: counted.values[counted.width * it.y + it.x] }));
}

/**
 * What changes where what is shown does.
 *
 * @param {string} what
 * @returns {keyof Changes}
 */
function planeNamed(what) {
    return COLOURS.includes(what) ? "colour" : /** @type {keyof Changes} */ (what);
}

/**
 * @param {Values} plane
 * @param {{near: number, far: number} | null} range that of depths
 */
function pictureOf(plane, range) {
    return range ? depthPicture(plane, range, known().limits.deepest) : stencilPicture(plane);
}

/** @typedef {Picture & {plane: Values | null}} Target colours, and the plane that is shown in their place */

/**
 * What a script's device holds behind a line.
 *
 * @param {Kept} of
 * @param {number} last
 * @param {string} what
 * @returns {Target}
 */
function targetOf(of, last, what) {
    const picture = of.behind(last).device.picture();
    return { ...picture, plane: COLOURS.includes(what) ? null : planeOf(of, last, what) };
}

/**
 * Where two targets differ in what is shown of them.
 *
 * @param {Target} one
 * @param {Target} other
 */
function differenceOf(one, other) {
    const values = (/** @type {Target} */ { plane, pixels }) => (plane ? plane.values : pixels);
    return difference(values(one), values(other), one.width, one.plane ? 1 : COLOUR_CHANNELS);
}

/**
 * The picture of a target beside one of whose depths the range is taken.
 *
 * @param {Target} mine
 * @param {Target} others
 * @param {string} what
 * @param {Range} range
 */
function besidePicture(mine, others, what, range) {
    if (!mine.plane || !others.plane) return what === "opaque" ? opaque(others) : others;
    if (what === "overdraw") return heatPicture(others.plane, touchedOf(mine.plane.values));
    const isDepth = what === "depth";
    return pictureOf(
        others.plane, isDepth ? within(range, rangeOf(mine.plane.values, known().limits.deepest)) : null);
}

/**
 * The range that is given, as far as it is.
 *
 * @param {Range} range
 * @param {{near: number, far: number}} found
 */
function within(range, found) {
    return { near: range.near ?? found.near, far: range.far ?? found.far };
}

/**
 * What a worker is in the page's own view: a port.
 * @type {{onmessage: ((event: {data: any}) => void) | null, postMessage: (message: any, transfer?: Transferable[]) =>
 *     void}}
 */
const port = /** @type {any} */ (globalThis);

port.onmessage = async ({ data: job }) => {
    const begun = performance.now();
    try {
        if (job.bytes && job.serial !== serial) {
            shelf?.forget(script);
            script = new Script(job.bytes);
            serial = job.serial;
        }
        const answer = await JOBS[job.kind](job);
        port.postMessage(
            {...answer, number: job.number, milliseconds: performance.now() - begun }, transferred(answer));
    } catch (error) {
        port.postMessage({ number: job.number, error: error instanceof Error ? error.message : String(error) });
    }
};

/**
 * What goes to the page without a copy.
 *
 * @param {any} answer
 */
function transferred({ picture, difference: found }) {
    return [picture && picture.pixels.buffer, found && found.mask.buffer].filter(Boolean);
}
