// Plays the lines of a script by calls, on a device that stays.

import { Device } from "./device.js";
import { record } from "./recording.js";
import { Session } from "./session.js";
import { Plane } from "./states.js";

/** @typedef {import("./device.js").CommandList} CommandList */
/** @typedef {import("./device.js").PixelValue} PixelValue */
/** @typedef {import("./module.js").Module} Module */
/** @typedef {import("./script.js").Script} Script */
/** @typedef {import("./session.js").Item} Item */
/** @typedef {import("./session.js").List} List */
/** @typedef {import("./session.js").Performed} Performed */
/** @typedef {{left: number, top: number, width: number, height: number}} Area */

/** A script without a fault, and the device that its lines draw on. */
export class Player {
    /**
     * @param {Module} module
     * @param {Script} script
     */
    constructor(module, script) {
        const [, width, height] = script.words(1).map(Number);
        this.module = module;
        this.script = script;
        this.device = new Device(module, width, height);
        this.session = new Session(script);
        /** @type {CommandList[][]} those of each deferred context */
        this.lists = this.device.deferred.map(() => []);
        /** @type {string[]} answer lines */
        this.answers = [];
        /** @type {number[]} the lines that asked for them */
        this.questions = [];
        /** @type {Map<string, boolean>} by a line that ran something, and a query: whether that had counted a pixel */
        this.counts = new Map();
        this.isClosed = false;
    }

    /** The last line whose call was made. */
    get line() {
        return this.session.line;
    }

    /** The lines whose calls were made, and behind them the ends of the queries that are open. */
    get text() {
        return this.session.text;
    }

    /**
     * Makes the calls of the lines up to one; the first that is refused ends it.
     *
     * @param {number} last
     */
    playTo(last) {
        while (this.line < last) {
            const line = this.line + 1, words = this.script.words(line);
            this.take(line, words);
            this.session.take(words);
        }
        return this;
    }

    /**
     * Makes the call of a line.
     *
     * @param {number} line
     * @param {string[]} words its first ones
     */
    take(line, words = this.script.words(line)) {
        const [actor, word] = words, n = this.script.numbers(line);
        if (actor === "i") this.takeImmediate(line, word, n);
        else this.takeDeferred(Number(actor.slice(1)), word, n);
    }

    /**
     * @param {number} number
     * @param {string} word
     * @param {number[]} n
     */
    takeDeferred(number, word, n) {
        const context = this.device.deferred[number];
        if (word === "finish") this.lists[number].push(context.finishCommandList({ restore: n[0] === 1 }));
        else record(context, word, n);
    }

    /**
     * @param {number} line
     * @param {string} word
     * @param {number[]} n
     */
    takeImmediate(line, word, n) {
        const { immediate } = this.device;
        if (word === "exec") {
            this.askPredicates(line, this.session.listsOf(`d${n[0]}`)[n[1]]);
            immediate.execute(this.lists[n[0]][n[1]], { restore: n[2] === 1 });
        } else if (word === "flush") {
            this.askPredicates(line, null);
            immediate.flush();
        } else if (word === "query" || word === "pixel") {
            this.askPredicates(line, null);
            this.answers.push(this.answer(word, n));
            this.questions.push(line);
        } else {
            record(immediate, word, n);
        }
    }

    /**
     * The answer line of a question.
     *
     * @param {string} word
     * @param {number[]} n
     */
    answer(word, n) {
        const { immediate } = this.device;
        if (word === "query") return `query ${n[0]} ${immediate.getData(n[0])}`;
        const { x, y, colour, depth, stencil } = immediate.pixel(n[0], n[1]);
        return ["pixel", x, y, ...colour, depth, stencil].join(" ");
    }

    /**
     * Asks, before a line runs what is pending and a list, for the counts on which their predicates rest. Where a query
     * is open the line is refused, and nothing is asked; one that was never issued has counted nothing.
     *
     * @param {number} line
     * @param {List | null} list
     */
    askPredicates(line, list) {
        const { issues, predicates, open } = this.session.context("i");
        if (open.size && !this.isClosed) return;
        for (const setting of [...predicates, ...(list ? list.predicates : [])]) {
            const [query] = this.script.numbers(setting);
            if (query === undefined || !(this.session.issued.has(`${query}`) || issues.includes(`${query}`))) continue;
            this.counts.set(`${line} ${query}`, this.device.immediate.getData(query) > 0);
        }
    }

    /**
     * What ran, and what runs behind the last line whose call was made.
     *
     * @returns {Performed[]}
     */
    get performed() {
        const { pending, performed } = this.session;
        this.askPredicates(pending.at, null);
        return [...performed, pending];
    }

    /**
     * Whether an item was left out by its predicate where it ran.
     *
     * @param {Performed} performed
     * @param {Item} item
     */
    withholds({ at }, item) {
        const [query, value] = item.state.predicate ? this.script.numbers(item.state.predicate) : [];
        return query !== undefined && (this.counts.get(`${at} ${query}`) || false) === (value === 1);
    }

    /** Ends the queries that are open, since the device runs nothing while one is; it can then go no further. */
    close() {
        const { open } = this.session.context("i");
        if (this.isClosed || !open.size) return;
        this.isClosed = true;
        for (const query of open.keys()) this.device.immediate.end(Number(query));
    }

    dispose() {
        this.device.dispose();
        for (const list of this.lists.flat()) list.dispose();
    }
}

/**
 * What the pixels of an area hold, row by row.
 *
 * @param {Device} device
 * @param {Area} area
 * @returns {PixelValue[]}
 */
export function pixelsOf(device, { left, top, width, height }) {
    const rect = { left, top, right: left + width, bottom: top + height };
    const [colours, depths, stencils] =
        [Plane.RGBA8, Plane.DEPTH32, Plane.STENCIL8].map((plane) => device.read(plane, rect));
    return Array.from({ length: width * height }, (_, at) => ({
        x: left + at % width,
        y: top + Math.floor(at / width),
        colour: [...colours.subarray(4 * at, 4 * at + 4)],
        depth: depths[at],
        stencil: stencils[at],
    }));
}
