// What may stand where the caret is, as a list below it: words of the actor, and numbers by their names.

import { Editor } from "./editor.js";
import { element } from "./elements.js";

/** @typedef {import("../engine/language.js").Completion} Item */
/** @typedef {{start: number, end: number, items: Item[]}} Offer */

export class Completion {
    /**
     * @param {Editor} editor
     * @param {HTMLElement} list
     */
    constructor(editor, list) {
        this.editor = editor;
        this.area = editor.area;
        this.list = list;
        /** @type {Offer | null} */
        this.offer = null;
        this.chosen = 0;
        this.area.addEventListener("input", (event) => this.typed(/** @type {InputEvent} */ (event)));
        this.area.addEventListener("keydown", (event) => this.pressed(event));
        for (const event of ["blur", "click", "scroll"]) this.area.addEventListener(event, () => this.close());
        // (a press would take the caret out of the text)
        list.addEventListener("pointerdown", (event) => event.preventDefault());
        list.addEventListener("click", (event) => {
            const at = [...list.children].indexOf(/** @type {HTMLElement} */ (event.target).closest("li") || list);
            if (at >= 0) this.take(at);
        });
    }

    /** @param {InputEvent} event */
    typed(event) {
        const { text, column } = this.editor.caret;
        const isWritten = event.inputType === "insertText" && column > 0 && text[column - 1] !== " ";
        if (isWritten || (this.offer && event.inputType.startsWith("delete"))) this.open();
        else this.close();
    }

    /** @param {KeyboardEvent} event */
    pressed(event) {
        if (event.key === " " && event.ctrlKey) {
            event.preventDefault();
            this.open();
            return;
        }
        if (!this.offer) return;
        const moves = { ArrowDown: 1, ArrowUp: -1 };
        if (event.key in moves) {
            const { length } = this.offer.items;
            this.choose((this.chosen + moves[/** @type {keyof typeof moves} */ (event.key)] + length) % length);
        } else if (event.key === "Enter" || event.key === "Tab") {
            this.take(this.chosen);
        } else if (event.key === "Escape") {
            this.close();
        } else {
            if (["ArrowLeft", "ArrowRight", "Home", "End"].includes(event.key)) this.close();
            return;
        }
        event.preventDefault();
    }

    /** Offers what may stand at the caret. */
    open() {
        const { caret } = this.editor;
        const offer = this.editor.language.completions(caret);
        if (!offer.items.length) {
            this.close();
            return;
        }
        this.offer = offer;
        this.list.replaceChildren(...offer.items.map(shownItem));
        const { left, top, height } = this.editor.placeOf(caret.line, offer.start);
        this.list.hidden = false;
        const isLow = top + height + this.list.offsetHeight > this.area.clientHeight && top > this.list.offsetHeight;
        this.list.style.left = `${Math.max(0, Math.min(left, this.area.clientWidth - this.list.offsetWidth))}px`;
        this.list.style.top = `${isLow ? top - this.list.offsetHeight : top + height}px`;
        this.choose(0);
    }

    /** @param {number} at */
    choose(at) {
        this.chosen = at;
        [...this.list.children].forEach((it, place) => it.setAttribute("aria-selected", String(place === at)));
        this.list.children[at].scrollIntoView({ block: "nearest" });
        this.area.setAttribute("aria-activedescendant", `completion-${at}`);
    }

    /**
     * Puts one of them into the text.
     *
     * @param {number} at
     */
    take(at) {
        if (!this.offer) return;
        const { start, end, items } = this.offer;
        const { line } = this.editor.caret;
        const begun = this.editor.lines[line - 1];
        this.area.setSelectionRange(begun + start, begun + end);
        // (of all ways to put text in this one alone can be undone by keys)
        document.execCommand("insertText", false, items[at].text);
        this.close();
    }

    close() {
        this.offer = null;
        this.list.hidden = true;
        this.area.removeAttribute("aria-activedescendant");
    }
}

/**
 * @param {Item} item
 * @param {number} at
 */
function shownItem({ text, label }, at) {
    const made = element("li", { id: `completion-${at}` }, element("code", {}, text),
        element("span", { className: "quiet" }, ` ${label}`));
    made.setAttribute("role", "option");
    return made;
}
