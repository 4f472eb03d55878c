// The image, and one beside it: canvases of the targets' size, shown in squares, with a veil over what isn't meant, a
// frame round the pixel that is asked for, and the outline of a triangle.

import { element } from "./elements.js";

/** @typedef {import("../engine/targa.js").Picture} Picture */
/** @typedef {{x: number, y: number}} Pixel */

// pixels of the screen for a pixel of the target
const ZOOMS =
    [1 / 16, 1 / 8, 1 / 4, 1 / 2, 1, 2, 3, 4, 5, 6, 8, 10, 12, 16, 20, 24, 32, 40, 48, 64, 80, 96, 128, 160, 192, 256];
const MARGIN = 16;
const LEAST_FRAME = 5;
const VEIL = [127, 127, 127, 200];
const SVG = "http://www.w3.org/2000/svg";

/** A canvas with what lies over it. */
class Pane {
    /** @param {HTMLElement} root */
    constructor(root) {
        this.root = root;
        this.canvas = /** @type {HTMLCanvasElement} */ (root.querySelector("canvas"));
        this.veil = element("canvas", { className: "veil", hidden: true });
        this.frame = element("div", { className: "frame", hidden: true });
        this.outline = document.createElementNS(SVG, "svg");
        this.outline.classList.add("outline");
        root.append(this.veil, this.outline, this.frame);
        this.size = { width: 0, height: 0 };
    }

    /** @param {Picture | null} picture */
    show(picture) {
        const { width, height } = picture || { width: 0, height: 0 };
        if (width !== this.size.width || height !== this.size.height) {
            for (const canvas of [this.canvas, this.veil])
                Object.assign(canvas, { width: Math.max(1, width), height: Math.max(1, height) });
            this.size = { width, height };
        }
        const context = this.canvas.getContext("2d");
        if (picture && context) context.putImageData(new ImageData(picture.pixels, width, height), 0, 0);
        else context?.clearRect(0, 0, 1, 1);
    }

    /**
     * Veils the pixels that aren't in a mask, or none.
     *
     * @param {Uint8Array | null} mask
     */
    cover(mask) {
        this.veil.hidden = !mask;
        if (!mask) return;
        const veiled = new Uint8ClampedArray(4 * mask.length);
        for (let at = 0; at < mask.length; at++) if (!mask[at]) veiled.set(VEIL, 4 * at);
        this.veil.getContext("2d")?.putImageData(new ImageData(veiled, this.size.width, this.size.height), 0, 0);
    }

    /**
     * Takes so many of the page's pixels for one of the target. The browser itself puts a canvas on whole pixels of the
     * screen.
     *
     * @param {number} scale
     */
    fit(scale) {
        for (const { style } of [this.canvas, this.veil, this.outline]) {
            style.width = `${Math.max(1, this.size.width) * scale}px`;
            style.height = `${Math.max(1, this.size.height) * scale}px`;
        }
        this.outline.setAttribute("viewBox", `0 0 ${Math.max(1, this.size.width)} ${Math.max(1, this.size.height)}`);
    }

    /**
     * Shows the outline of a triangle by its corners in pixels, or none.
     *
     * @param {number[][] | null} corners
     */
    trace(corners) {
        this.outline.replaceChildren(...["dark", "light"].map((name) => {
            const line = document.createElementNS(SVG, "polygon");
            line.setAttribute("class", name);
            line.setAttribute("points", (corners || []).join(" "));
            return line;
        }).filter(() => corners));
    }

    /**
     * Puts the frame round a pixel, or takes it away.
     *
     * @param {Pixel | null} pixel
     * @param {number} scale
     */
    mark(pixel, scale) {
        this.frame.hidden = !pixel || pixel.x >= this.size.width || pixel.y >= this.size.height;
        if (!pixel || this.frame.hidden) return;
        const side = Math.max(scale, LEAST_FRAME);
        const [left, top] = [pixel.x, pixel.y].map((at) => at * scale - (side - scale) / 2);
        Object.assign(
            this.frame.style, { left: `${left}px`, top: `${top}px`, width: `${side}px`, height: `${side}px` });
    }
}

export class View {
    /**
     * @param {HTMLElement} stage what scrolls
     * @param {HTMLElement} main the pane of the image
     * @param {HTMLElement} beside the pane of the one beside it
     */
    constructor(stage, main, beside) {
        this.stage = stage;
        this.main = new Pane(main);
        this.beside = new Pane(beside);
        /** @type {number | null} the zoom that was chosen, or null for the one that fits */
        this.chosen = null;
        this.zoom = 1;
        /** @type {Pixel | null} */
        this.marked = null;
        new ResizeObserver(() => this.fit()).observe(stage);
        this.listenToRatio();
    }

    /** Fits again where the window goes to another screen, or its user zooms the page. */
    listenToRatio() {
        const query = matchMedia(`(resolution: ${window.devicePixelRatio}dppx)`);
        query.addEventListener("change", () => {
            this.fit();
            this.listenToRatio();
        }, { once: true });
    }

    get size() {
        return this.main.size;
    }

    /** How many of the page's pixels a pixel takes. */
    get scale() {
        return this.zoom / window.devicePixelRatio;
    }

    /**
     * Shows an image, or that there is none.
     *
     * @param {Picture | null} picture
     */
    show(picture) {
        const { width, height } = this.size;
        this.main.show(picture);
        if (width !== this.size.width || height !== this.size.height) this.fit();
    }

    /**
     * Shows an image beside it, or none.
     *
     * @param {Picture | null} picture
     */
    showBeside(picture) {
        if (!picture && this.beside.root.hidden) return;
        this.beside.root.hidden = !picture;
        this.beside.show(picture);
        this.fit();
    }

    /**
     * Veils what isn't in a mask, in both images.
     *
     * @param {Uint8Array | null} mask
     */
    cover(mask) {
        const isFor = (/** @type {Pane} */ pane) => mask && mask.length === pane.size.width * pane.size.height;
        for (const pane of [this.main, this.beside]) pane.cover(isFor(pane) ? mask : null);
    }

    /** The largest zoom at which all is seen: whole pixels of the screen, or a part of one. */
    get fitting() {
        const panes = this.beside.root.hidden ? [this.main] : [this.main, this.beside];
        const width = panes.reduce((sum, pane) => sum + pane.size.width, 0);
        const height = Math.max(...panes.map((pane) => pane.size.height));
        const room = this.stage.clientWidth - MARGIN * panes.length;
        const most = Math.min(room / width, (this.stage.clientHeight - MARGIN) / height) * window.devicePixelRatio;
        return most >= 1 ? Math.floor(most) : Math.max(most, ZOOMS[0]);
    }

    /**
     * Chooses a zoom, or with null the one that fits. The pixel at a place of the window stays there.
     *
     * @param {number | null} zoom
     * @param {{clientX: number, clientY: number}} [at]
     */
    choose(zoom, at = this.middle) {
        const box = this.main.canvas.getBoundingClientRect();
        const [x, y] = [(at.clientX - box.left) / box.width, (at.clientY - box.top) / box.height];
        this.chosen = zoom;
        this.fit();
        const now = this.main.canvas.getBoundingClientRect();
        this.stage.scrollLeft += now.left + x * now.width - at.clientX;
        this.stage.scrollTop += now.top + y * now.height - at.clientY;
    }

    /** Where the marked pixel stands in the window, or else the middle of the stage. */
    get middle() {
        const stage = this.stage.getBoundingClientRect();
        const middle = { clientX: (stage.left + stage.right) / 2, clientY: (stage.top + stage.bottom) / 2 };
        if (!this.marked) return middle;
        const box = this.main.canvas.getBoundingClientRect();
        const [clientX, clientY] =
            [box.left + (this.marked.x + 0.5) * this.scale, box.top + (this.marked.y + 0.5) * this.scale];
        const isSeen =
            clientX >= stage.left && clientX <= stage.right && clientY >= stage.top && clientY <= stage.bottom;
        return isSeen ? { clientX, clientY } : middle;
    }

    /**
     * One zoom more or less.
     *
     * @param {number} by
     * @param {{clientX: number, clientY: number}} [at]
     */
    step(by, at) {
        const next =
            by > 0 ? ZOOMS.find((zoom) => zoom > this.zoom) : [...ZOOMS].reverse().find((zoom) => zoom < this.zoom);
        if (next) this.choose(next, at);
    }

    fit() {
        if (!this.size.width) return;
        this.zoom = this.chosen || this.fitting;
        for (const pane of [this.main, this.beside]) pane.fit(this.scale);
        this.mark(this.marked);
        this.stage.dispatchEvent(new CustomEvent("zoom"));
    }

    /** The zoom as it is told. */
    get zoomText() {
        return this.zoom < 1 ? `${Math.round(100 * this.zoom)} %` : `${this.zoom} \u00d7`;
    }

    /**
     * The pixel at a place of the window, over one of the images.
     *
     * @param {{clientX: number, clientY: number, target: EventTarget | null}} event
     * @returns {Pixel}
     */
    pixelAt({ clientX, clientY, target }) {
        const pane = target === this.beside.canvas ? this.beside : this.main;
        const box = pane.canvas.getBoundingClientRect();
        return this.within(
            { x: Math.floor((clientX - box.left) / this.scale), y: Math.floor((clientY - box.top) / this.scale) });
    }

    /**
     * The nearest pixel of the target.
     *
     * @param {Pixel} pixel
     */
    within({ x, y }) {
        const { width, height } = this.size;
        return { x: Math.max(0, Math.min(width - 1, x)), y: Math.max(0, Math.min(height - 1, y)) };
    }

    /**
     * Puts the frame round a pixel, or takes it away.
     *
     * @param {Pixel | null} pixel
     */
    mark(pixel) {
        this.marked = pixel;
        for (const pane of [this.main, this.beside]) pane.mark(pixel, this.scale);
    }

    /**
     * Shows the outline of a triangle over both images, or none.
     *
     * @param {number[][] | null} corners
     */
    trace(corners) {
        for (const pane of [this.main, this.beside]) pane.trace(corners);
    }

    /** Brings the marked pixel into view. */
    reveal() {
        if (!this.main.frame.hidden) this.main.frame.scrollIntoView({ block: "nearest", inline: "nearest" });
    }
}
