// A script's text by its lines, which are counted from 1, as the device counts them.

const LINE_FEED = 10;
const MINUS = 45, ZERO = 48, NINE = 57;
// as much of a line as an actor, a word and the arguments of most words take
const BEGINNING = 64;
const ENCODER = new TextEncoder(), DECODER = new TextDecoder();

/** @param {string} text */
export function bytesOf(text) {
    return ENCODER.encode(text);
}

/** @param {Uint8Array} bytes */
export function textOf(bytes) {
    return DECODER.decode(bytes);
}

/**
 * The numbers of a line from a place on; a context is its number.
 *
 * @param {Uint8Array} line
 * @param {number} at
 */
function numbersFrom(line, at) {
    const found = [];
    let [number, isNegative, isOne] = [0, false, false];
    for (; at < line.length; at++) {
        const byte = line[at];
        if (byte >= ZERO && byte <= NINE) {
            number = 10 * number + byte - ZERO;
            isOne = true;
        } else if (byte === MINUS) {
            isNegative = true;
        } else if (isOne) {
            found.push(isNegative ? -number : number);
            [number, isNegative, isOne] = [0, false, false];
        }
    }
    return found;
}

/**
 * The bytes of a text whose last line has its line feed.
 *
 * @param {Uint8Array} bytes
 */
function ended(bytes) {
    if (!bytes.length || bytes[bytes.length - 1] === LINE_FEED) return bytes;
    const all = new Uint8Array(bytes.length + 1).fill(LINE_FEED);
    all.set(bytes);
    return all;
}

export class Script {
    /** @param {Uint8Array} bytes the text; a last line without its line feed is given one */
    constructor(bytes) {
        this.bytes = ended(bytes);
        this.ends = [0];
        for (let at = this.bytes.indexOf(LINE_FEED); at >= 0; at = this.bytes.indexOf(LINE_FEED, at + 1))
            this.ends.push(at + 1);
    }

    /** How many lines there are. */
    get count() {
        return this.ends.length - 1;
    }

    /**
     * The bytes of the lines `first` to `last`, both included, with their line feeds.
     *
     * @param {number} first
     * @param {number} last
     */
    slice(first, last) {
        return this.bytes.subarray(this.ends[first - 1], this.ends[Math.max(first - 1, last)]);
    }

    /**
     * A line's text without its line feed; of a long line the beginning alone, where `most` is given.
     *
     * @param {number} line
     * @param {number} [most]
     */
    text(line, most = Infinity) {
        const start = this.ends[line - 1];
        return textOf(this.bytes.subarray(start, Math.min(this.ends[line] - 1, start + most)));
    }

    /**
     * Actor, word and the next three words of a line.
     *
     * @param {number} line
     */
    words(line) {
        return this.text(line, BEGINNING).split(" ", 5);
    }

    /**
     * The numbers behind actor and word of a line that has no fault; a context is its number.
     *
     * @param {number} line
     */
    numbers(line) {
        const [actor, word] = this.words(line);
        return numbersFrom(this.slice(line, line), actor.length + 1 + word.length);
    }
}
