// The panel of the pixel: what it holds, and what touched it. All of it is asked of the device.
//
// What touched it is asked at once, unless the last answer took long: then when the pointer rests.

import { same } from "../engine/history.js";
import { Language } from "../engine/language.js";
import { element, field, part, quietly } from "./elements.js";
import { Jobs, STOPPED } from "./jobs.js";
import { pixelSaid, pixelShown, stepsShown } from "./shown.js";
import { View } from "./view.js";

/** @typedef {import("../engine/history.js").Step} Step */
/** @typedef {import("../engine/device.js").PixelValue} PixelValue */
/** @typedef {import("./view.js").Pixel} Pixel */
/**
 * @typedef {{onLine: (line: number) => void, onTouched: (lines: number[]) => void, labelOf: (line: number) => string |
 * null}} Hears
 */
/**
 * @typedef {{last: number, other: string | null, what: string}} Played the line up to which the image shows the script,
 * or 0, the text beside it, and what is shown
 */

const REST = 250, LONG = 100;
const BLOCK = 16;
/** @type {Record<string, [number, number]>} */
const MOVES = { ArrowLeft: [-1, 0], ArrowRight: [1, 0], ArrowUp: [0, -1], ArrowDown: [0, 1] };
const STRIDE = 8;

export class Pixels {
    /**
     * @param {Jobs} jobs
     * @param {View} view
     * @param {Language} language
     * @param {Hears} hears lines that are gone to, and those that changed the pixel, and tells the names of lines
     */
    constructor(jobs, view, language, hears) {
        this.jobs = jobs;
        this.view = view;
        this.language = language;
        this.hears = hears;
        /** @type {Played} */
        this.played = { last: 0, other: null, what: "opaque" };
        /** @type {Pixel | null} the pixel that is kept */
        this.pinned = null;
        /** @type {Pixel | null} the one under the pointer */
        this.hover = null;
        /** @type {Pixel | null} the one that was asked for last */
        this.asked = null;
        /** @type {Map<string, Map<string, {value: PixelValue, beside: PixelValue | null}>>} what is known, in blocks */
        this.values = new Map();
        /** @type {Step[]} */
        this.steps = [];
        this.isSaid = false;
        this.rest = 0;
        /** so many milliseconds the last answer took to what touched a pixel */
        this.took = 0;
        field("whole").addEventListener("change", () => this.showSteps());
        view.main.canvas.addEventListener("keydown", (event) => this.pressed(event));
    }

    /** Forgets the pixel of a script that is shown no more. */
    leave() {
        Object.assign(this, { pinned: null, hover: null, asked: null, steps: [], took: 0 });
        part("pixel").replaceChildren(quietly("Point at the image. A press keeps the pixel; arrow keys move it."));
        part("changes").replaceChildren();
        part("whole-label").hidden = true;
        this.view.mark(null);
        this.view.trace(null);
    }

    /**
     * Asks again, of another image.
     *
     * @param {Played} played
     */
    ask(played) {
        this.played = played;
        this.values.clear();
        if (this.pinned) this.pinned = played.last ? this.view.within(this.pinned) : null;
        this.show(this.pinned || this.hover);
    }

    /** Asks again for what the pixel holds, since more is known of it. */
    askAgain() {
        this.values.clear();
        if (this.asked && this.played.last) this.askValue(this.asked);
    }

    /** @param {Pixel | null} pixel */
    hovered(pixel) {
        this.hover = pixel;
        if (!this.pinned) this.show(pixel);
    }

    /**
     * Keeps a pixel, or leaves the one that was kept where it is the same.
     *
     * @param {Pixel} pixel
     */
    pin(pixel) {
        const isSame = this.pinned && pixel.x === this.pinned.x && pixel.y === this.pinned.y;
        this.pinned = isSame ? null : pixel;
        this.show(this.pinned || this.hover);
    }

    /** @param {KeyboardEvent} event */
    pressed(event) {
        if (event.key === "Escape") {
            this.pinned = null;
            this.show(this.hover);
        } else if (event.key === "+" || event.key === "-") {
            this.view.step(event.key === "+" ? 1 : -1);
        } else if (event.key === "0") {
            this.view.choose(null);
        }
        const move = MOVES[event.key];
        if (!move || !this.played.last) return;
        event.preventDefault();
        const { width, height } = this.view.size;
        const by = event.shiftKey ? STRIDE : 1;
        const from = this.pinned;
        this.pinned = from ? this.view.within({ x: from.x + by * move[0], y: from.y + by * move[1] })
                           : { x: width >> 1, y: height >> 1 };
        this.isSaid = true;
        this.show(this.pinned);
        this.view.reveal();
    }

    /**
     * Shows what a pixel holds, and what touched it.
     *
     * @param {Pixel | null} pixel
     */
    show(pixel) {
        clearTimeout(this.rest);
        this.jobs.drop(["history"]);
        this.view.mark(pixel);
        this.view.trace(null);
        if (!pixel || !this.played.last) return;
        if (!this.asked || pixel.x !== this.asked.x || pixel.y !== this.asked.y) part("changes").replaceChildren();
        this.asked = pixel;
        this.askValue(pixel);
        document.documentElement.dataset.changes = "asked";
        this.rest = window.setTimeout(() => this.askSteps(pixel), this.pinned || this.took < LONG ? 0 : REST);
    }

    /**
     * Asks for a block of pixels at once, since the pointer soon is on the next one.
     *
     * @param {Pixel} pixel
     */
    askValue({ x, y }) {
        const [left, top] = [x - (x % BLOCK), y - (y % BLOCK)];
        const key = `${left} ${top}`;
        if (this.values.has(key)) {
            this.showValue();
            return;
        }
        const { width, height } = this.view.size;
        const area = { left, top, width: Math.min(BLOCK, width - left), height: Math.min(BLOCK, height - top) };
        this.jobs.ask("pixels", { ...this.played, area })
            .then(({ values, besides }) => {
                this.values.set(key,
                    new Map(values.map(
                        (/** @type {PixelValue} */ value, /** @type {number} */ at) => [`${value.x} ${value.y}`,
                            { value, beside: besides ? besides[at] : null }])));
                this.showValue();
            }, (error) => this.failed(error));
    }

    showValue() {
        if (!this.asked) return;
        const { x, y } = this.asked;
        const known = this.values.get(`${x - (x % BLOCK)} ${y - (y % BLOCK)}`)?.get(`${x} ${y}`);
        if (!known) return;
        part("pixel").replaceChildren(...pixelShown(known.value, this.language.tables.limits.deepest, known.beside));
        if (this.isSaid) part("said").textContent = pixelSaid(known.value);
        this.isSaid = false;
    }

    /** @param {Pixel} pixel */
    askSteps({ x, y }) {
        this.jobs.ask("history", { last: this.played.last, x, y }).then(({ steps, milliseconds }) => {
            Object.assign(this, { steps, took: milliseconds });
            this.showSteps();
            document.documentElement.dataset.changes = `${x} ${y}`;
        }, (error) => this.failed(error));
    }

    showSteps() {
        const changing = this.steps.filter(({ before, after }) => !same(before, after));
        part("whole-label").hidden = changing.length === this.steps.length;
        const hears = { ...this.hears, onTriangle: (/** @type {number[][] | null} */ it) => this.view.trace(it) };
        part("changes").replaceChildren(stepsShown(this.language, this.steps, field("whole").checked, hears));
        this.hears.onTouched(changing.flatMap(({ line, by }) => (by ? [line, by] : [line])));
    }

    /** @param {Error} error */
    failed({ message }) {
        part("changes").replaceChildren(
            element("p", { className: "quiet" }, message === STOPPED ? "Stopped." : `${message}.`));
    }
}
