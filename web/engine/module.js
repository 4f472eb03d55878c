// The WebAssembly module: its memory, its call by script behind one function, draw, and that of a pixel's history.
// library/MODULE.md has its calls.
//
// The module takes areas of its own memory, by addresses of 64 bits, and tells what it wrote in a report, whose layout
// and whose statuses are those of yuzuratchet.h. A device by its calls is in device.js.

import { bytesOf, textOf } from "./script.js";

// what the device answers to a script without a byte, since the module takes no such area
const NO_TARGET = { line: 1, number: 102 };
const NO_SCRIPT = `refused ${NO_TARGET.line} ${NO_TARGET.number}\n`;
// a line that is never without a fault
const FAULTY = bytesOf("?\n");
// an area of so many bytes is kept, and lent where that is enough
const KEPT = 1 << 12;

/**
 * @typedef {{status: number, lines: Uint8Array, image: Uint8Array}} Drawn status, answer lines, and image (empty where
 * a line is refused)
 */
/** @typedef {(script: Uint8Array) => Drawn} Draw */

/** @typedef {{number: number, text: string}} Status */
/** @typedef {Record<string, number>} Places places of a struct by names, and its size */
/**
 * @typedef {{statuses: Record<string, Status>, report: Places, event: Places, history_report: Places}} Layout
 */
/** @typedef {{colour: number[], depth: number, stencil: number}} Content what a pixel holds */
/**
 * @typedef {object} Event what a clear or a triangle did to a pixel that it touched
 * @property {number} item its number among those that ran
 * @property {number} line that of the immediate context that recorded it, or executed its list
 * @property {number} command its number in the list, or 0
 * @property {number} triangle its number in its draw, or 0
 * @property {boolean} stencilPassed
 * @property {boolean} depthPassed
 * @property {Content} before
 * @property {Content} after
 */

/**
 * @typedef {object} Calls what the module exports
 * @property {WebAssembly.Memory} memory
 * @property {(size: bigint) => bigint} malloc
 * @property {(area: bigint) => void} free
 * @property {(...areas: bigint[]) => number} yuzuratchet_draw
 * @property {(...areas: bigint[]) => number} yuzuratchet_sizes
 * @property {(script: bigint, size: bigint, x: number, y: number, ...areas: bigint[]) => number} yuzuratchet_history
 * @property {(script: bigint, size: bigint) => bigint} yuzuratchet_lines_bound
 * @property {(script: bigint, size: bigint) => bigint} yuzuratchet_image_bound
 * @property {() => number} yuzuratchet_version
 * @property {(result: number) => bigint} yz_result_name
 * @property {(result: number) => bigint} yz_result_text
 */
/** @typedef {import("./script.js").Script} Script */
/** @typedef {{line: number, number: number}} Refused */
/** @typedef {Record<string, (...given: (bigint | number)[]) => number>} ObjectCalls those of yuzuratchet_device.h */

export class Module {
    /**
     * @param {ArrayBuffer | Uint8Array} module
     * @param {Layout} layout
     */
    static async of(module, layout) {
        const { instance } = await WebAssembly.instantiate(module, {});
        return new Module(instance, layout);
    }

    /**
     * @param {WebAssembly.Instance} instance
     * @param {Layout} layout
     */
    constructor(instance, layout) {
        /** @type {Calls} */
        this.calls = /** @type {any} */ (instance.exports);
        this.objects = /** @type {ObjectCalls} */ (/** @type {any} */ (instance.exports));
        this.layout = layout;
        this.statuses = layout.statuses;
        this.report = layout.report;
        /** @type {bigint} an area that is kept, or 0 */
        this.kept = 0n;
    }

    /** 400 is version 0.4.0. */
    get version() {
        return this.calls.yuzuratchet_version();
    }

    /**
     * Draws a script. Status 0: it is drawn; 1: a line is refused, as the last answer line says. Throws an Error where
     * the module has no more memory or stops.
     *
     * @param {Uint8Array} script
     * @returns {Drawn}
     */
    draw(script) {
        const { refused } = this.statuses;
        if (!script.length) return { status: refused.number, lines: bytesOf(NO_SCRIPT), image: new Uint8Array(0) };
        /** @type {bigint[]} */
        const areas = [];
        const take = (/** @type {bigint} */ size) => {
            areas.push(this.taken(size));
            return areas[areas.length - 1];
        };
        try {
            const size = BigInt(script.length);
            const text = take(size);
            this.bytes(text, script.length).set(script);
            return this.drawTaken(text, size, take);
        } finally {
            areas.forEach((area) => this.calls.free(area));
        }
    }

    /**
     * Draws the script of an area into areas that are large enough for whatever comes.
     *
     * @param {bigint} text
     * @param {bigint} size
     * @param {(size: bigint) => bigint} take
     */
    drawTaken(text, size, take) {
        const bounds = [this.calls.yuzuratchet_lines_bound(text, size), this.calls.yuzuratchet_image_bound(text, size)];
        const [lines, image, report] = [...bounds, BigInt(this.report.size)].map(take);
        const status = this.calls.yuzuratchet_draw(text, size, lines, bounds[0], image, bounds[1], report);
        const { done, refused } = this.statuses;
        if (status !== done.number && status !== refused.number) throw new Error(`${this.textOf(status)} (${status})`);
        const told = new DataView(this.calls.memory.buffer, Number(report), this.report.size);
        const [written, drawn] =
            [this.report.lines_size, this.report.image_size].map((at) => Number(told.getBigUint64(at, true)));
        return { status, lines: this.bytes(lines, written).slice(), image: this.bytes(image, drawn).slice() };
    }

    /**
     * The first line of a script that has a fault, or null. The script is read, and nothing of it is played, since one
     * line more has a fault in any case.
     *
     * @param {Script} script
     * @returns {Refused | null}
     */
    faultOf({ bytes, count }) {
        if (!count) return NO_TARGET;
        const { size: reported, refused_line: line, refusal } = this.report;
        const size = bytes.length + FAULTY.length;
        return this.lent(reported + size, (report) => {
            const text = report + BigInt(reported);
            const area = this.bytes(text, size);
            area.set(bytes);
            area.set(FAULTY, bytes.length);
            const status = this.calls.yuzuratchet_sizes(text, BigInt(size), report);
            if (status !== this.statuses.refused.number) throw new Error(`${this.textOf(status)} (${status})`);
            const told = new DataView(this.calls.memory.buffer, Number(report), reported);
            const found = { line: Number(told.getBigUint64(line, true)), number: told.getUint32(refusal, true) };
            return found.line > count ? null : found;
        });
    }

    /**
     * The history of a pixel of a script that is taken: what touched it, in order.
     *
     * @param {Uint8Array} script
     * @param {{x: number, y: number}} pixel
     * @param {number} [room] how many events are expected
     * @returns {Event[]}
     */
    history(script, pixel, room = 1) {
        if (!script.length) throw new Error(this.textOf(this.statuses.refused.number));
        const { history_report: reported, event } = this.layout, { done, events_too_small: tooSmall } = this.statuses;
        const most = Math.max(1, room), texts = reported.size + event.size * most;
        return this.lent(texts + script.length, (report) => {
            const events = report + BigInt(reported.size), text = report + BigInt(texts);
            this.bytes(text, script.length).set(script);
            const status = this.calls.yuzuratchet_history(
                text, BigInt(script.length), pixel.x, pixel.y, events, BigInt(most), report);
            const told = new DataView(this.calls.memory.buffer, Number(report), reported.size);
            const count = Number(told.getBigUint64(reported.count, true));
            if (status === tooSmall.number) return this.history(script, pixel, count);
            if (status !== done.number) throw new Error(`${this.textOf(status)} (${status})`);
            return this.eventsIn(events, count);
        });
    }

    /**
     * So many events in an area.
     *
     * @param {bigint} area
     * @param {number} count
     */
    eventsIn(area, count) {
        const { event } = this.layout, told = new DataView(this.calls.memory.buffer, Number(area), event.size * count);
        return Array.from({ length: count }, (_, at) => eventOf(told, event.size * at, event));
    }

    /**
     * What a status means.
     *
     * @param {number} status
     */
    textOf(status) {
        const known = Object.values(this.statuses).find(({ number }) => number === status);
        return known ? known.text : "the device ends otherwise";
    }

    /**
     * An area of the module's memory.
     *
     * @param {bigint} size
     */
    taken(size) {
        const area = this.calls.malloc(size);
        if (!area) throw new Error(`there is no memory for ${size} bytes more`);
        return area;
    }

    /**
     * The bytes of an area; a call that makes the memory grow takes them away.
     *
     * @param {bigint} area
     * @param {number} size
     */
    bytes(area, size) {
        return new Uint8Array(this.calls.memory.buffer, Number(area), size);
    }

    /**
     * Lends an area to what uses it.
     *
     * @template Result
     * @param {number} size
     * @param {(area: bigint) => Result} use
     * @returns {Result}
     */
    lent(size, use) {
        const isSmall = size <= KEPT;
        const area = (isSmall && this.kept) || this.taken(BigInt(isSmall ? KEPT : size));
        if (isSmall) this.kept = 0n;
        try {
            return use(area);
        } finally {
            if (isSmall && !this.kept) this.kept = area;
            else this.calls.free(area);
        }
    }

    /**
     * The same, with words of 32 bits in it.
     *
     * @template Result
     * @param {number[]} words
     * @param {(area: bigint) => Result} use
     * @returns {Result}
     */
    lentWords(words, use) {
        return this.lent(4 * words.length, (area) => {
            new Uint32Array(this.calls.memory.buffer, Number(area), words.length).set(words);
            return use(area);
        });
    }

    /**
     * A text of the module.
     *
     * @param {bigint} at
     */
    text(at) {
        const bytes = new Uint8Array(this.calls.memory.buffer, Number(at));
        return textOf(bytes.subarray(0, bytes.indexOf(0)));
    }
}

/**
 * An event as the module writes it.
 *
 * @param {DataView} told
 * @param {number} from where it begins
 * @param {Places} places
 * @returns {Event}
 */
function eventOf(told, from, places) {
    /** @type {(name: string) => number} */
    const word = (name) => told.getUint32(from + places[name], true);
    /** @type {(name: string) => number} */
    const byte = (name) => told.getUint8(from + places[name]);
    /** @type {(name: string) => number} */
    const long = (name) => Number(told.getBigUint64(from + places[name], true));
    /** @type {(when: string) => Content} */
    const content = (when) => ({
        colour: [0, 1, 2, 3].map((channel) => told.getUint8(from + places[`color_${when}`] + channel)),
        depth: word(`depth_${when}`),
        stencil: byte(`stencil_${when}`),
    });
    return {
        item: long("item"),
        line: long("line"),
        command: word("command"),
        triangle: word("triangle"),
        stencilPassed: byte("stencil_passed") === 1,
        depthPassed: byte("depth_passed") === 1,
        before: content("before"),
        after: content("after"),
    };
}

/**
 * The answer lines of what was drawn, without their line feeds.
 *
 * @param {Uint8Array} lines
 */
export function answersOf(lines) {
    return textOf(lines).split("\n").slice(0, -1);
}

/**
 * The line and the number of the last answer line, where it says that a line was refused, else null.
 *
 * @param {string[]} answers
 * @returns {Refused | null}
 */
export function refusalOf(answers) {
    const [word, line, number] = (answers[answers.length - 1] || "").split(" ");
    return word === "refused" ? { line: Number(line), number: Number(number) } : null;
}
