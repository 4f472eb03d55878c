// Why a pixel is what it is: each clear, and each triangle that covers it, with what became of the pixel.
//
// What touched the pixel, and what it found and left there, is the device's history of it. Which triangles cover it and
// why some of them don't touch it follows from the script's own numbers. The package's `explain` tells the same.

import { Triangles, isCulled } from "./covering.js";
import { overdraw } from "./overdraw.js";

/** @typedef {import("./covering.js").Covering} Covering */
/** @typedef {import("./device.js").PixelValue} PixelValue */
/** @typedef {import("./language.js").Tables} Tables */
/** @typedef {import("./module.js").Event} Event */
/** @typedef {import("./planes.js").Values} Values */
/** @typedef {import("./player.js").Player} Player */
/** @typedef {import("./session.js").Item} Item */
/** @typedef {import("./session.js").Performed} Performed */
/** @typedef {{performed: Performed, item: Item, covering: Covering | null, refusal: keyof typeof OUTCOMES | null}} Stage
 * a clear, or a triangle that covers the pixel, and why it doesn't touch it, or null where it does */

/**
 * @typedef {object} Step
 * @property {number} line
 * @property {number | null} by the line that executed the list, or null
 * @property {string} word
 * @property {Covering | null} triangle null for a clear
 * @property {string} outcome
 * @property {Record<string, string>} states the numbers of the states that the outcome rests on
 * @property {PixelValue} before
 * @property {PixelValue} after
 */

/** What became of the pixel; those that refuse a triangle stand in the order in which they are asked. */
export const OUTCOMES = {
    cleared: "cleared",
    drawn: "drawn",
    leftOut: "left out by the predicate",
    culled: "culled",
    scissor: "outside the scissor rectangle",
    stencil: "the stencil test fails",
    depth: "the depth test fails",
};
const STATES = ["raster", "scissor", "ds", "blend"];
const EVERYWHERE = [0, 0, Infinity, Infinity];

/**
 * Whether two values of a pixel are the same.
 *
 * @param {PixelValue} a
 * @param {PixelValue} b
 */
export function same(a, b) {
    return a.depth === b.depth && a.stencil === b.stencil && a.colour.every((channel, at) => channel === b.colour[at]);
}

/** The steps of any pixel behind the line up to which a player has gone. */
export class PixelHistory {
    /**
     * @param {Player} player a device, with nothing pending
     * @param {Tables} tables
     */
    constructor(player, tables) {
        this.player = player;
        this.script = player.script;
        this.tables = tables;
        this.triangles = new Triangles(player.script, tables.limits);
        /** @type {{line: number, plane: Values} | null} how often pixels were touched, behind a line */
        this.counted = null;
    }

    /** How often each pixel was touched, where that was counted, or null. */
    get known() {
        return this.counted?.line === this.player.line ? this.counted.plane : null;
    }

    /** How often each pixel was touched. */
    get touched() {
        const plane = this.known || overdraw(this);
        this.counted = { line: this.player.line, plane };
        return plane;
    }

    /**
     * The steps of a pixel.
     *
     * @param {{x: number, y: number}} pixel
     * @returns {Step[]}
     */
    steps({ x, y }) {
        const stages = [...this.stages({ x, y })];
        const touching = stages.filter(({ refusal }) => !refusal);
        const { module, device } = this.player;
        const events = module.history(this.player.text, { x, y }, touching.length);
        if (String(events.map(placeOf)) !== String(touching.map(placeAt)))
            throw new Error("the device's history of the pixel has other steps");
        const end = { x, y, colour: [0, 0, 0, 0], depth: this.tables.limits.deepest, stencil: 0 };
        let next = 0;
        const steps = stages.map((stage) => {
            const event = stage.refusal ? null : events[next++];
            const before = { ...end };
            Object.assign(end, event ? event.after : {});
            return this.step(stage, event, before, { ...end });
        });
        if (!same(end, device.immediate.pixel(x, y)))
            throw new Error("the history of the pixel ends otherwise than the device");
        return steps;
    }

    /**
     * The clears, and the triangles that cover a pixel, in the order of execution.
     *
     * @param {{x: number, y: number}} pixel
     * @returns {Generator<Stage>}
     */
    * stages(pixel) {
        /** @type {Map<Item, (Covering | null)[]>} those of a list that is executed again */
        const known = new Map();
        for (const performed of this.player.performed) {
            for (const item of performed.list.items) {
                const found = known.get(item) || (item.word.startsWith("draw") ? this.covering(item, pixel) : [null]);
                known.set(item, found);
                for (const covering of found)
                    yield { performed, item, covering, refusal: this.refusal(performed, item, covering, pixel) };
            }
        }
    }

    /**
     * The triangles of a draw that cover a pixel.
     *
     * @param {Item} item
     * @param {{x: number, y: number}} pixel
     */
    covering(item, pixel) {
        return this.triangles.on(item, pixel, this.rasterizerOf(item));
    }

    /**
     * Why a clear, or a triangle that covers the pixel, doesn't touch it, or null where it does.
     *
     * @param {Performed} performed
     * @param {Item} item
     * @param {Covering | null} covering
     * @param {{x: number, y: number}} pixel
     * @returns {keyof typeof OUTCOMES | null}
     */
    refusal(performed, item, covering, { x, y }) {
        if (this.player.withholds(performed, item)) return "leftOut";
        if (!covering) return null;
        const { cull, box } = this.rasterizerOf(item);
        if (isCulled(cull, covering.isFront)) return "culled";
        return box.left <= x && x < box.right && box.top <= y && y < box.bottom ? null : "scissor";
    }

    /**
     * How the triangles of a draw are culled, biased, and cut by the scissor rectangle, if it acts.
     *
     * @param {Item} item
     */
    rasterizerOf(item) {
        const [cull, front, isCut, bias = "0"] = this.stateOf(item, "raster").split(" ");
        const scissor = isCut === "1" ? this.stateOf(item, "scissor").split(" ").map(Number) : EVERYWHERE;
        const [left, top, right, bottom] = scissor;
        return { cull, isCounterClockwise: front === "1", bias: Number(bias), box: { left, top, right, bottom } };
    }

    /**
     * The numbers of a state of an item.
     *
     * @param {Item} item
     * @param {string} word
     */
    stateOf(item, word) {
        const line = item.state[word];
        return line ? this.script.numbers(line).join(" ") : this.tables.defaults[word];
    }

    /**
     * A step, by what became of the pixel there.
     *
     * @param {Stage} stage
     * @param {Event | null} event
     * @param {PixelValue} before
     * @param {PixelValue} after
     * @returns {Step}
     */
    step({ performed, item, covering, refusal }, event, before, after) {
        const states = Object.fromEntries(STATES.map((word) => [word, this.stateOf(item, word)]));
        const predicate = item.state.predicate ? this.script.numbers(item.state.predicate).join(" ") : "";
        return {
            line: item.line,
            by: performed.by,
            word: item.word,
            outcome: OUTCOMES[refusal || outcomeOf(covering, event)],
            before,
            after,
            triangle: covering,
            states: {...states, predicate },
        };
    }
}

/**
 * What became of a pixel that a clear or a triangle touched: the first test that failed, if one did.
 *
 * @param {Covering | null} covering
 * @param {Event | null} event
 * @returns {keyof typeof OUTCOMES}
 */
function outcomeOf(covering, event) {
    if (event && !event.stencilPassed) return "stencil";
    if (event && !event.depthPassed) return "depth";
    return covering ? "drawn" : "cleared";
}

/**
 * Line, command and triangle of an event.
 *
 * @param {Event} event
 */
function placeOf({ line, command, triangle }) {
    return [line, command, triangle];
}

/**
 * The same of a stage, as its event names them.
 *
 * @param {Stage} stage
 */
function placeAt({ performed, item, covering }) {
    const triangle = covering ? covering.number : 0;
    return performed.by ? [performed.by, item.command, triangle] : [item.line, 0, triangle];
}
