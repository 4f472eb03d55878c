// What the contexts of a script hold behind a line: states by the lines that set them, what is recorded and pending,
// and what ran.

import { Script, bytesOf } from "./script.js";

/** The words that set a state. */
export const KINDS = ["topology", "vb", "ib", "raster", "scissor", "ds", "blend", "predicate"];

export const DRAWING = new Set(["draw", "drawi", "clearc", "cleards"]);
const RUNNING = new Set(["flush", "query", "pixel"]);

/** @typedef {Record<string, number>} State of each kind the line that set it, or 0 where it is the default */
/**
 * @typedef {{line: number, word: string, state: State, command: number}} Item a draw or a clear, with the state that it
 * is under, and its number among the commands of its list
 */
/**
 * @typedef {{items: Item[], issues: string[], predicates: Set<number>, line: number}} List what is recorded, the
 * queries that it begins, the lines that set the predicates of its items; its last line
 */
/**
 * @typedef {{by: number | null, at: number, list: List}} Performed what ran at a line, and the line that executed it,
 * where it is a list
 */

/** @type {State} */
const DEFAULTS = Object.freeze(Object.fromEntries(KINDS.map((kind) => [kind, 0])));

/** One context: its state, and what it records. */
export class Recorder {
    constructor() {
        /** @type {State} */
        this.state = DEFAULTS;
        this.commands = 0;
        /** @type {Item[]} */
        this.items = [];
        /** @type {string[]} */
        this.issues = [];
        /** @type {Set<number>} */
        this.predicates = new Set();
        /** @type {Map<string, number>} the lines that began the queries that are open */
        this.open = new Map();
    }

    /**
     * Takes a line that sets, draws, begins or ends.
     *
     * @param {number} line
     * @param {string} word
     * @param {string} query
     */
    take(line, word, query) {
        const command = this.commands++;
        if (word in DEFAULTS) {
            this.state = { ...this.state, [word]: line };
        } else if (DRAWING.has(word)) {
            this.items.push({ line, word, state: this.state, command });
            if (this.state.predicate) this.predicates.add(this.state.predicate);
        } else if (word === "begin") {
            this.issues.push(query);
            this.open.set(query, line);
        } else {
            this.open.delete(query);
        }
    }

    /**
     * Ends a list at a line; the next begins with the state, which is one command, or anew.
     *
     * @param {boolean} keeps
     * @param {number} line
     * @returns {List}
     */
    finish(keeps, line) {
        const { items, issues, predicates } = this;
        Object.assign(this, new Recorder(), keeps ? { state: this.state, commands: 1 } : {});
        return { items, issues, predicates, line };
    }
}

/** A script of accepted lines, taken line by line. */
export class Session {
    /** @param {Script} script */
    constructor(script) {
        this.script = script;
        this.line = 1;
        /** @type {Record<string, Recorder>} */
        this.contexts = {};
        /** @type {Record<string, List[]>} */
        this.lists = {};
        /** @type {Performed[]} */
        this.performed = [];
        /** @type {Set<string>} */
        this.issued = new Set();
    }

    /**
     * The context of an actor.
     *
     * @param {string} actor
     */
    context(actor) {
        this.contexts[actor] = this.contexts[actor] || new Recorder();
        return this.contexts[actor];
    }

    /**
     * The lists that a context finished.
     *
     * @param {string} actor
     */
    listsOf(actor) {
        this.lists[actor] = this.lists[actor] || [];
        return this.lists[actor];
    }

    /**
     * Takes the lines up to one.
     *
     * @param {number} last
     */
    takeTo(last) {
        while (this.line < last) this.take(this.script.words(this.line + 1));
        return this;
    }

    /**
     * Takes the next line, by its first words.
     *
     * @param {string[]} words
     */
    take([actor, word, argument, number, keeps]) {
        const line = ++this.line;
        if (word === "finish") {
            this.listsOf(actor).push(this.context(actor).finish(argument === "1", line));
        } else if (word === "exec") {
            this.run(line, keeps === "1", this.listsOf(argument)[Number(number)]);
        } else if (RUNNING.has(word)) {
            this.run(line, true, null);
        } else {
            this.context(actor).take(line, word, argument);
        }
    }

    /**
     * Runs what is pending, and a list behind it where one is executed.
     *
     * @param {number} line
     * @param {boolean} keeps
     * @param {List | null} list
     */
    run(line, keeps, list) {
        this.perform(this.context("i").finish(keeps, line), line, null);
        if (list) this.perform(list, line, line);
    }

    /** The lines that were taken, and the ends of the queries that are open behind them, while which nothing runs. */
    get text() {
        const lines = this.script.slice(1, this.line);
        const ends = bytesOf([...this.context("i").open.keys()].map((query) => `i end ${query}\n`).join(""));
        const text = new Uint8Array(lines.length + ends.length);
        text.set(lines);
        text.set(ends, lines.length);
        return text;
    }

    /**
     * What is pending behind the last line that was taken, as it runs there.
     *
     * @returns {Performed}
     */
    get pending() {
        const { items, issues, predicates } = this.context("i");
        const at = this.line + 1;
        return { list: { items, issues, predicates, line: at }, at, by: null };
    }

    /**
     * @param {List} list
     * @param {number} at
     * @param {number | null} by
     */
    perform(list, at, by) {
        for (const query of list.issues) this.issued.add(query);
        this.performed.push({ list, at, by });
    }
}

/**
 * The text up to a line, which is counted from 1 and included. Queries that the immediate context has open there are
 * ended; behind the last line nothing is added.
 *
 * @param {Uint8Array} text
 * @param {number} line
 */
export function upTo(text, line) {
    const script = new Script(text);
    if (!Number.isInteger(line) || line < 1 || line > script.count)
        throw new RangeError(`${line} is not in 1 to ${script.count}, the lines of the script`);
    return line === script.count ? text : new Session(script).takeTo(line).text;
}
