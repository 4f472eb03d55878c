// The words of a script, by the tables that the Python package writes into the page: who may use each, and what may
// stand behind it.

/**
 * @typedef {object} Argument
 * @property {string} name
 * @property {string} range in words
 * @property {number} least
 * @property {number} most
 * @property {boolean} butZero whether 0 is none of them
 * @property {boolean} isContext whether a context stands there, as `d0`
 * @property {Record<string, string>} values what numbers are called
 * @property {[number, string]} [unit] how many parts it counts, and of what
 */

/**
 * @typedef {object} Word
 * @property {string} name
 * @property {string} actors in words
 * @property {boolean} immediate
 * @property {boolean} deferred
 * @property {string} does what kind of word it is: one that sets, draws, counts, finishes, executes, runs or asks
 * @property {Argument[]} arguments
 * @property {number[] | null} counts how many arguments a line has, or null for any number of rows
 */

/**
 * @typedef {object} Tables
 * @property {Record<string, Word>} words
 * @property {{immediate: string, deferred: string[]}} actors
 * @property {Record<string, {kind: string, when: string, advice: string}>} messages
 * @property {Record<string, string>} defaults the numbers of states as they are at first
 * @property {Record<string, number>} limits
 * @property {import("./module.js").Layout} library how the device tells what it wrote
 */

/** @typedef {{text: string, start: number, end: number, kind: string}} Token */
/** @typedef {{line: number, text: string, column: number}} Caret */
/** @typedef {{text: string, label: string}} Completion what is put in, and what it is */

const TARGET = "target";
const NUMBER = /^(?:0|-?[1-9][0-9]*)$/;

export class Language {
    /** @param {Tables} tables */
    constructor(tables) {
        this.tables = tables;
        const { immediate, deferred } = tables.actors;
        this.immediate = immediate;
        this.deferred = deferred;
    }

    /**
     * How many words stand before the arguments of a line.
     *
     * @param {number} line
     */
    static first(line) {
        return line === 1 ? 1 : 2;
    }

    /**
     * The word of a line, where its actor may use it, or null.
     *
     * @param {string[]} words
     * @param {number} line
     */
    wordOf(words, line) {
        if (line === 1) return words[0] === TARGET ? this.tables.words[TARGET] : null;
        const word = words[1] === TARGET ? null : this.tables.words[words[1]];
        return word && this.serves(word, words[0]) ? word : null;
    }

    /**
     * Whether an actor may use a word.
     *
     * @param {Word} word
     * @param {string} actor
     */
    serves(word, actor) {
        return actor === this.immediate ? word.immediate : this.deferred.includes(actor) && word.deferred;
    }

    /**
     * What stands at a place behind a word, counted from 0, or null.
     *
     * @param {Word} word
     * @param {number} place
     * @returns {Argument | null}
     */
    argument(word, place) {
        const each = word.arguments.length;
        if (place < 0 || !each || (word.counts && place >= Math.max(...word.counts))) return null;
        return word.arguments[place % each];
    }

    /**
     * Whether a text may stand for an argument.
     *
     * @param {Argument} argument
     * @param {string} text
     */
    takes(argument, text) {
        if (argument.isContext) return this.deferred.includes(text);
        const value = Number(text);
        return NUMBER.test(text) && value >= argument.least && value <= argument.most &&
            !(argument.butZero && value === 0);
    }

    /**
     * The words of a line with what each is: an actor, a word, a number, or wrong.
     *
     * @param {string} text
     * @param {number} line
     * @returns {Token[]}
     */
    tokens(text, line) {
        const words = text.split(" ");
        const word = this.wordOf(words, line);
        let start = 0;
        return words.map((it, at) => {
            const token = { text: it, start, end: start + it.length, kind: this.kindOf(words, at, line, word) };
            start = token.end + 1;
            return token;
        });
    }

    /**
     * @param {string[]} words
     * @param {number} at
     * @param {number} line
     * @param {Word | null} word
     */
    kindOf(words, at, line, word) {
        const first = Language.first(line);
        if (at === first - 1) return word ? "word" : "wrong";
        if (at < first) return [this.immediate, ...this.deferred].includes(words[0]) ? "actor" : "wrong";
        const argument = word && this.argument(word, at - first);
        return argument && this.takes(argument, words[at]) ? (argument.isContext ? "actor" : "number") : "wrong";
    }

    /**
     * What may stand where the caret is: the part of the line that is replaced, and what may be put there.
     *
     * @param {Caret} caret
     * @returns {{start: number, end: number, items: Completion[]}}
     */
    completions({ line, text, column }) {
        const words = text.slice(0, column).split(" ");
        const typed = words[words.length - 1];
        const start = column - typed.length;
        const rest = text.slice(column).split(" ")[0];
        // (a number is found by what it is called too)
        const items = this.candidates(words, line).filter(({ text: it, label }) =>
            it.startsWith(typed) || (/^[0-9]/.test(it) && label.startsWith(typed.toUpperCase())));
        return {
            start,
            end: column + rest.length,
            items: items.filter(({ text: it }) => it !== typed + rest || items.length > 1)
        };
    }

    /**
     * @param {string[]} words those before the caret
     * @param {number} line
     * @returns {Completion[]}
     */
    candidates(words, line) {
        const at = words.length - 1;
        const first = Language.first(line);
        if (line === 1 && at === 0) return [this.described(this.tables.words[TARGET])];
        if (at === 0) return this.actors();
        if (at === first - 1) {
            return Object.values(this.tables.words)
                .filter((word) => word.name !== TARGET && this.serves(word, words[0]))
                .map((it) => this.described(it));
        }
        const word = this.wordOf(words, line);
        const argument = word && this.argument(word, at - first);
        if (!argument) return [];
        if (argument.isContext) return this.deferred.map((text) => ({ text, label: argument.name }));
        return Object.entries(argument.values).map(([text, label]) => ({ text, label }));
    }

    /** @returns {Completion[]} */
    actors() {
        const deferred = this.deferred.map((text) => ({ text, label: "a deferred context" }));
        return [{ text: this.immediate, label: "the immediate context" }, ...deferred];
    }

    /**
     * @param {Word} word
     * @returns {Completion}
     */
    described(word) {
        return {
            text: word.name,
            label: word.arguments.map(({ name }) => name).join(" ") + (word.counts ? "" : " ..")
        };
    }

    /**
     * What a number of a refused line means.
     *
     * @param {number} number
     */
    meaning(number) {
        const unknown = { kind: "refusal", when: `the number ${number} has no meaning here`, advice: "" };
        return this.tables.messages[number] || unknown;
    }
}
