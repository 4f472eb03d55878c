// The editor: a text area whose letters are drawn in colours behind it, with the numbers of the lines beside it, and
// marks.

import { Language } from "../engine/language.js";
import { element } from "./elements.js";

/** @typedef {import("../engine/language.js").Caret} Caret */
/** @typedef {import("../engine/language.js").Token} Token */
/**
 * @typedef {{line: number, start: number, end: number}} Fault a faulty line, and the letters of it that are to blame
 */
/**
 * @typedef {{last: number, touched: number[], fault: Fault | null}} Marks the line that is played, those that are
 * named, the faulty one
 */
/** @typedef {{onEdit: () => void, onLine: (line: number) => void, onCaret: () => void}} Hears */

// of a line that is longer only the letters in view are drawn
const SHORT = 1000;

export class Editor {
    /**
     * @param {HTMLElement} root
     * @param {Language} language
     * @param {Hears} hears an edit, a line whose number is pressed, and a caret that moved
     */
    constructor(root, language, hears) {
        this.language = language;
        this.area = /** @type {HTMLTextAreaElement} */ (root.querySelector("textarea"));
        this.gutter = /** @type {HTMLElement} */ (root.querySelector(".gutter"));
        this.marks = element("div");
        this.code = element("div");
        root.querySelector(".marks")?.append(this.marks);
        root.querySelector(".code")?.append(this.code);
        /** @type {Marks} */
        this.state = { last: 1, fault: null, touched: [] };
        this.scroll = { top: 0, left: 0 };
        this.isDue = false;
        /** @type {number[] | null} */
        this.starts = null;
        this.letter = this.widthOfLetter(root);
        this.measures = this.measured();
        this.listen(hears);
    }

    /** @param {Hears} hears */
    listen(hears) {
        this.area.addEventListener("input", () => {
            this.starts = null;
            this.due();
            hears.onEdit();
        });
        this.area.addEventListener("scroll", () => this.due(), { passive: true });
        for (const event of ["keyup", "click", "focus"]) this.area.addEventListener(event, hears.onCaret);
        this.gutter.addEventListener("click", (event) => {
            const line = Number(/** @type {HTMLElement} */ (event.target).dataset.line);
            if (line) hears.onLine(line);
        });
        new ResizeObserver(() => {
            this.measures = this.measured();
            this.due();
        }).observe(this.area);
    }

    /** @param {HTMLElement} root */
    widthOfLetter(root) {
        const ruler = element("span", { textContent: "0".repeat(100), className: "ruler" });
        root.append(ruler);
        const { width } = ruler.getBoundingClientRect();
        ruler.remove();
        return width / 100;
    }

    get text() {
        return this.area.value;
    }

    set text(text) {
        this.area.value = text;
        this.area.scrollTo(0, 0);
        this.area.setSelectionRange(0, 0);
        this.starts = null;
        this.due();
    }

    /** Where each line begins; a line feed at the end begins no line. */
    get lines() {
        if (this.starts) return this.starts;
        const { text } = this;
        const starts = [0];
        for (let at = text.indexOf("\n"); at >= 0; at = text.indexOf("\n", at + 1)) starts.push(at + 1);
        if (starts.length > 1 && starts[starts.length - 1] === text.length) starts.pop();
        this.starts = starts;
        return starts;
    }

    /** How many lines stand in the text area. */
    get count() {
        return this.lines.length;
    }

    /**
     * The text of a line.
     *
     * @param {number} line
     */
    lineText(line) {
        const start = this.lines[line - 1];
        const end = this.text.indexOf("\n", start);
        return this.text.slice(start, end < 0 ? undefined : end);
    }

    /**
     * The line of the caret, with the caret's place in it.
     *
     * @returns {Caret}
     */
    get caret() {
        const at = this.area.selectionStart;
        const { lines } = this;
        let [least, most] = [0, lines.length - 1];
        while (least < most) {
            const middle = (least + most + 1) >> 1;
            if (lines[middle] <= at) least = middle;
            else most = middle - 1;
        }
        // (behind the last line feed stands a line that isn't counted)
        const isBehind = at === this.text.length && this.text.endsWith("\n");
        return isBehind ? { line: least + 2, text: "", column: 0 }
                        : { line: least + 1, text: this.lineText(least + 1), column: at - lines[least] };
    }

    /**
     * Marks lines.
     *
     * @param {Partial<Marks>} state
     */
    mark(state) {
        const before = JSON.stringify(this.state);
        Object.assign(this.state, state);
        if (JSON.stringify(this.state) === before) return;
        this.area.setAttribute("aria-invalid", String(this.state.fault !== null));
        this.due();
    }

    /** Draws anew what is in view, once behind all that happens now. */
    due() {
        if (this.isDue) return;
        this.isDue = true;
        queueMicrotask(() => {
            this.isDue = false;
            this.show();
        });
    }

    /**
     * Brings a line into view.
     *
     * @param {number} line
     */
    reveal(line) {
        const { height } = this.measures;
        const top = (line - 1) * height;
        const { scrollTop, clientHeight } = this.area;
        if (top < scrollTop || top + 2 * height > scrollTop + clientHeight)
            this.area.scrollTop = top - clientHeight / 3;
        this.due();
    }

    /**
     * Puts the caret into a line, or chooses letters of it.
     *
     * @param {number} line
     * @param {number} [start]
     * @param {number} [end]
     */
    goTo(line, start = 0, end = start) {
        const at = this.lines[Math.min(line, this.count) - 1];
        this.area.focus();
        this.area.setSelectionRange(at + start, at + end);
        this.reveal(line);
    }

    /** The height of a line, how far text stands from the upper left corner, and the size of what is in view. */
    measured() {
        const style = getComputedStyle(this.area);
        const { clientWidth, clientHeight } = this.area;
        const [height, top, left] = [style.lineHeight, style.paddingTop, style.paddingLeft].map(parseFloat);
        return { height, top, left, clientWidth, clientHeight };
    }

    /**
     * Where a letter stands in the text area.
     *
     * @param {number} line
     * @param {number} column
     */
    placeOf(line, column) {
        const { height, top, left } = this.measures;
        return {
            left: left + column * this.letter - this.scroll.left,
            top: top + (line - 1) * height - this.scroll.top,
            height
        };
    }

    /** Draws numbers, marks and letters of the lines that are in view. */
    show() {
        const { scrollTop, scrollLeft } = this.area;
        this.scroll = { top: scrollTop, left: scrollLeft };
        const { height, top, clientHeight } = this.measures;
        const first = Math.max(1, Math.floor((scrollTop - top) / height) + 1);
        const end = Math.min(this.count, first + Math.ceil(clientHeight / height) + 1);
        const numbers = [];
        const marks = [];
        const code = [];
        for (let line = first; line <= end; line++) {
            const kinds = this.kindsOf(line);
            numbers.push(this.numberOf(line, kinds));
            if (kinds.length) marks.push(this.row(line, kinds), ...this.faultMark(line));
            code.push(this.letters(line));
        }
        this.gutter.replaceChildren(...numbers);
        this.marks.replaceChildren(...marks);
        this.code.replaceChildren(...code);
        this.gutter.style.width = `${Math.max(3, String(this.count).length) + 2}ch`;
    }

    /** @param {number} line */
    kindsOf(line) {
        const { last, fault, touched } = this.state;
        const kinds = [];
        if (line > last) kinds.push("unplayed");
        if (line === last && last < this.count) kinds.push("last");
        if (touched.includes(line)) kinds.push("touched");
        if (fault && line === fault.line) kinds.push("fault");
        return kinds;
    }

    /**
     * @param {number} line
     * @param {string[]} kinds
     */
    row(line, kinds) {
        const made = element("div", { className: ["row", ...kinds].join(" ") });
        made.style.top = `${this.placeOf(line, 0).top}px`;
        return made;
    }

    /**
     * @param {number} line
     * @param {string[]} kinds
     */
    numberOf(line, kinds) {
        const made = element("button", {
            type: "button",
            tabIndex: -1,
            className: ["row", ...kinds].join(" "),
            textContent: String(line),
            title: `play the script up to line ${line}`,
        });
        made.dataset.line = String(line);
        made.style.top = `${this.placeOf(line, 0).top}px`;
        return made;
    }

    /**
     * The mark below the letters that are to blame.
     *
     * @param {number} line
     */
    faultMark(line) {
        const { fault } = this.state;
        if (!fault || fault.line !== line) return [];
        const { left, top } = this.placeOf(line, fault.start);
        const made = element("div", { className: "blamed" });
        made.style.left = `${left}px`;
        made.style.top = `${top}px`;
        made.style.width = `${Math.max(1, fault.end - fault.start) * this.letter}px`;
        return [made];
    }

    /**
     * The letters of a line in their colours; of a long one those in view.
     *
     * @param {number} line
     */
    letters(line) {
        const text = this.lineText(line);
        const made = element("div", { className: "row" });
        const isLong = text.length > SHORT && /^[ -~]*$/.test(text);
        const from = isLong ? Math.max(0, Math.floor(this.scroll.left / this.letter) - 8) : 0;
        const to = isLong ? from + Math.ceil(this.measures.clientWidth / this.letter) + 24 : text.length;
        const { left, top } = this.placeOf(line, from);
        made.style.top = `${top}px`;
        made.style.left = `${left}px`;
        let at = from;
        for (const { start, end, kind } of this.tokens(text, line, from, to)) {
            made.append(text.slice(at, start),
                element("span", { className: kind }, text.slice(Math.max(at, start), Math.min(end, to))));
            at = Math.min(end, to);
        }
        made.append(text.slice(at, to));
        return made;
    }

    /**
     * The words of a line that stand between two letters. Of a long line all behind the first words are taken for
     * numbers.
     *
     * @param {string} text
     * @param {number} line
     * @param {number} from
     * @param {number} to
     * @returns {Token[]}
     */
    tokens(text, line, from, to) {
        const tokens =
            this.language.tokens(text.length > SHORT ? text.slice(0, text.indexOf(" ", SHORT >> 1)) : text, line);
        const last = tokens[tokens.length - 1];
        if (last.end < text.length)
            tokens.push({ text: "", start: Math.max(last.end, from), end: text.length, kind: "number" });
        return tokens.filter(({ start, end }) => end > from && start < to);
    }
}
