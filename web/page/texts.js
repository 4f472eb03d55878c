// The scripts of the menu: those that came with the page, and those that its user has opened or edited, which the
// browser keeps.

/** @typedef {import("../engine/labels.js").Mark} Mark */
/**
 * @typedef {{group: string, name: string, text: string, labels?: Mark[]}} Entry a script, and the names of its lines
 */

const PREFIX = "yuzuratchet:";
const REST = 300;

/** The heading of what the browser keeps. */
export const YOURS = "yours";

export class Texts {
    /**
     * @param {Entry[]} entries those that came with the page
     * @param {Storage | null} storage where others are kept, or null where the browser keeps nothing
     * @param {() => void} full hears that there is no room
     */
    constructor(entries, storage, full) {
        this.entries = [...kept(storage), ...entries];
        this.storage = storage;
        this.full = full;
        /** @type {Map<string, Entry>} what is to be written */
        this.unwritten = new Map();
        /** @type {ReturnType<typeof setTimeout> | undefined} */
        this.timer = undefined;
    }

    /** @param {string} name */
    find(name) {
        return this.entries.find((entry) => entry.name === name);
    }

    /**
     * A name that no script has.
     *
     * @param {string} wanted
     */
    unique(wanted) {
        let name = wanted;
        // (another tab may have written one since)
        const isTaken = () => this.find(name) || (this.storage && this.storage.getItem(PREFIX + name) !== null);
        for (let number = 2; isTaken(); number++) name = `${wanted} ${number}`;
        return name;
    }

    /**
     * Adds a script in front of the others of its heading.
     *
     * @param {Entry} entry
     */
    add(entry) {
        this.entries.unshift(entry);
        if (entry.group === YOURS) this.write(entry);
        return entry;
    }

    /**
     * Takes another text for a script that is kept.
     *
     * @param {Entry} entry
     * @param {string} text
     */
    change(entry, text) {
        entry.text = text;
        this.write(entry);
    }

    /** @param {Entry} entry */
    write(entry) {
        this.unwritten.set(entry.name, entry);
        clearTimeout(this.timer);
        this.timer = setTimeout(() => this.flush(), REST);
    }

    /** Writes what is to be written. */
    flush() {
        for (const { name, text } of this.unwritten.values()) {
            try {
                this.storage?.setItem(PREFIX + name, JSON.stringify({ text, at: Date.now() }));
            } catch (error) {
                this.full();
            }
        }
        this.unwritten.clear();
    }

    /**
     * Takes a script away that is kept.
     *
     * @param {Entry} entry
     */
    remove(entry) {
        this.entries = this.entries.filter((it) => it !== entry);
        this.unwritten.delete(entry.name);
        this.storage?.removeItem(PREFIX + entry.name);
    }
}

/**
 * The scripts that the browser keeps, the latest first.
 *
 * @param {Storage | null} storage
 * @returns {Entry[]}
 */
function kept(storage) {
    const found = [];
    for (let at = 0; storage && at < storage.length; at++) {
        const key = storage.key(at) || "";
        if (!key.startsWith(PREFIX)) continue;
        try {
            const { text, at: time } = JSON.parse(storage.getItem(key) || "");
            found.push({ group: YOURS, name: key.slice(PREFIX.length), text: String(text), time: Number(time) });
        } catch (error) {
            // (something else has written there)
        }
    }
    return found.sort((a, b) => b.time - a.time).map(({ group, name, text }) => ({ group, name, text }));
}

/** The browser's store, or null where a page may keep nothing. */
export function storageOrNull() {
    try {
        const { localStorage } = window;
        localStorage.getItem(PREFIX);
        return localStorage;
    } catch (error) {
        return null;
    }
}
