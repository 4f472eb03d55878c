// What is done with pointer and wheel over the images: a pixel is pointed at or kept, the image is dragged or zoomed.

import { View } from "./view.js";

/** @typedef {import("./view.js").Pixel} Pixel */
/** @typedef {{onHover: (pixel: Pixel | null) => void, onPin: (pixel: Pixel) => void}} Hears */

// how far the pointer goes before a press is a drag, and the wheel turns for a zoom
const STEADY = 4;
const TURN = 60;
const LINE_TURN = 40;

export class Gestures {
    /**
     * @param {View} view
     * @param {Hears} hears
     */
    constructor(view, hears) {
        this.view = view;
        this.hears = hears;
        /** @type {{pixel: Pixel, x: number, y: number, left: number, top: number, isDrag: boolean} | null} */
        this.press = null;
        this.turned = 0;
        for (const { canvas } of [view.main, view.beside]) this.listen(canvas);
        view.stage.addEventListener("wheel", (event) => this.wheel(event), { passive: false });
    }

    /** @param {HTMLCanvasElement} canvas */
    listen(canvas) {
        canvas.addEventListener("pointerdown", (event) => this.down(canvas, event));
        canvas.addEventListener("pointermove", (event) => this.move(canvas, event));
        canvas.addEventListener("pointercancel", () => this.forget());
        canvas.addEventListener("pointerleave", (event) => {
            // (a finger leaves before its tap is told)
            if (event.pointerType === "mouse") this.hears.onHover(null);
        });
        canvas.addEventListener("click", () => this.click());
    }

    /**
     * @param {HTMLCanvasElement} canvas
     * @param {PointerEvent} event
     */
    down(canvas, event) {
        if (!this.view.size.width) return;
        const { stage } = this.view;
        const pixel = this.view.pixelAt(event);
        this.press = {
            pixel,
            x: event.clientX,
            y: event.clientY,
            left: stage.scrollLeft,
            top: stage.scrollTop,
            isDrag: false
        };
        if (event.pointerType === "mouse") canvas.setPointerCapture(event.pointerId);
        this.hears.onHover(pixel);
    }

    /**
     * @param {HTMLCanvasElement} canvas
     * @param {PointerEvent} event
     */
    move(canvas, event) {
        if (!this.view.size.width) return;
        const { press } = this;
        if (press && event.buttons & 1 && event.pointerType === "mouse") {
            const [right, down] = [event.clientX - press.x, event.clientY - press.y];
            press.isDrag = press.isDrag || Math.hypot(right, down) > STEADY;
            if (press.isDrag) {
                canvas.classList.add("dragged");
                this.view.stage.scrollTo(press.left - right, press.top - down);
            }
            return;
        }
        this.hears.onHover(this.view.pixelAt(event));
    }

    /**
     * A press that was no drag keeps the pixel on which it began: a click tells whole numbers alone, which may lie on
     * the one beside.
     */
    click() {
        const { press } = this;
        this.forget();
        if (press && !press.isDrag) this.hears.onPin(press.pixel);
    }

    forget() {
        this.press = null;
        for (const { canvas } of [this.view.main, this.view.beside]) canvas.classList.remove("dragged");
    }

    /** @param {WheelEvent} event */
    wheel(event) {
        if (!this.view.size.width) return;
        event.preventDefault();
        this.turned += event.deltaMode ? event.deltaY * LINE_TURN : event.deltaY;
        if (Math.abs(this.turned) < TURN) return;
        this.view.step(this.turned < 0 ? 1 : -1, event);
        this.turned = 0;
    }
}
