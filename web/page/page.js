// The page: what is typed and chosen becomes jobs, and their answers are shown.

import { blame } from "../engine/blame.js";
import { labelOf } from "../engine/labels.js";
import { Language } from "../engine/language.js";
import { fragmentOf, fragmentOfName, linked } from "../engine/link.js";
import { encodePng } from "../engine/png.js";
import { bytesOf } from "../engine/script.js";
import { opaque } from "../engine/targa.js";
import { Completion } from "./completion.js";
import { Editor } from "./editor.js";
import { counted, element, field, part, withCode } from "./elements.js";
import { Gestures } from "./gestures.js";
import { Jobs, STOPPED } from "./jobs.js";
import { Pixels } from "./pixels.js";
import { answersShown, stateShown, wordHelp, wordsShown } from "./shown.js";
import { Texts, YOURS, storageOrNull } from "./texts.js";
import { View } from "./view.js";

/** @typedef {import("../engine/difference.js").Difference} Difference */
/** @typedef {import("../engine/language.js").Tables} Tables */
/** @typedef {import("../engine/module.js").Refused} Refused */
/** @typedef {import("../engine/targa.js").Picture} Picture */
/** @typedef {import("./texts.js").Entry} Entry */

const LONG_LINK = 8000;
const DOING = /** @type {Record<string, string>} */ ({
    play: "drawing",
    check: "looking for faults",
    pixels: "asking",
    history: "asking what touched the pixel",
    planes: "reading the plane",
    state: "looking for states",
    changed: "comparing with the line before",
    beside: "comparing the scripts",
});

export class Page {
    /**
     * @param {{module: ArrayBuffer, worker: string, tables: Tables, gallery: Entry[], opening: {name: string, text:
     *     string}}} given the opening script has labels too where its lines have names
     */
    constructor({ module, worker, tables, gallery, opening }) {
        this.language = new Language(tables);
        this.jobs = new Jobs(worker, { module, tables }, (work) => this.showWork(work));
        this.editor = new Editor(part("editor"), this.language, {
            onEdit: () => this.edited(), onLine: (line) => this.playTo(line), onCaret: () => this.showWord(),
        });
        this.completion = new Completion(this.editor, part("completions"));
        this.view = new View(part("stage"), part("pane"), part("other"));
        this.pixels = new Pixels(this.jobs, this.view, this.language, {
            onLine: (line) => this.goTo(line),
            onTouched: (lines) => this.editor.mark({ touched: lines }),
            labelOf: (line) => this.labelOf(line),
        });
        this.gestures = new Gestures(
            this.view, { onHover: (pixel) => this.pixels.hovered(pixel), onPin: (pixel) => this.pixels.pin(pixel) });
        if (opening.text) gallery.unshift({ group: "this page", ...opening });
        this.texts = new Texts(gallery, storageOrNull(),
            () => this.note("This browser has no room for the script: save it, or it is lost with the page."));
        /** @type {Entry} */
        this.entry = this.texts.find(opening.name) || gallery[0];
        this.last = 1;
        this.whole = 1;
        this.shown = 0;
        this.begun = 0;
        /** @type {Refused | null} */
        this.fault = null;
        this.isJudged = false;
        /** @type {Picture | null} the colours of the image, as the device gave them */
        this.colours = null;
        /** @type {Picture | null} what is shown of it */
        this.picture = null;
        this.listen();
        part("words").append(wordsShown(this.language));
    }

    // ---- texts

    /** Opens what the address names, or the script with which the page opens. */
    async begin() {
        const { entry, trouble } = await this.linkedEntry();
        this.open(entry || this.entry);
        if (trouble) this.note(trouble);
    }

    /** Opens what another address names. */
    async openLinked() {
        const { entry, trouble } = await this.linkedEntry();
        if (entry) this.open(entry);
        if (trouble) this.note(trouble);
    }

    /**
     * The script that the address names or carries, or why there is none.
     *
     * @returns {Promise<{entry?: Entry, trouble?: string}>}
     */
    async linkedEntry() {
        try {
            const found = await linked(location.hash);
            if (!found) return {};
            if (found.text !== null)
                return {
                    entry: this.texts.add({ group: "this link", name: this.texts.unique(found.name), text: found.text })
                };
            const entry = this.texts.find(found.name);
            return entry ? { entry } : { trouble: `This page has no script with the name ${found.name}.` };
        } catch (error) {
            return { trouble: `The address names no script that can be opened: ${reason(error)}.` };
        }
    }

    /** Fills the menus of scripts. */
    fillMenus() {
        for (const [id, first] of [["menu", []], ["beside", [element("option", { value: "" }, "nothing")]]]) {
            /** @type {Map<string, HTMLOptGroupElement>} */
            const groups = new Map();
            for (const { group, name } of this.texts.entries) {
                const made = groups.get(group) || element("optgroup", { label: group });
                groups.set(group, made);
                made.append(element("option", { value: name }, name));
            }
            const value = field(/** @type {string} */ (id)).value;
            part(/** @type {string} */ (id)).replaceChildren(.../** @type {Node[]} */ (first), ...groups.values());
            field(/** @type {string} */ (id)).value = value;
        }
        field("menu").value = this.entry.name;
        if (!field("beside").value) field("beside").value = "";
        part("remove").hidden = this.entry.group !== YOURS;
    }

    /**
     * Takes a script, and plays all of it.
     *
     * @param {Entry} entry
     */
    open(entry) {
        this.texts.flush();
        this.entry = entry;
        this.editor.text = entry.text;
        this.note(keptOf(entry.text));
        this.fillMenus();
        this.pixels.leave();
        this.editor.mark({ touched: [] });
        this.textChanged();
        this.playTo(this.editor.count);
        this.showWord();
    }

    /**
     * A script of the menu.
     *
     * @param {string} name
     */
    choose(name) {
        const entry = this.texts.find(name);
        if (!entry) return;
        this.address(fragmentOfName(name));
        this.open(entry);
    }

    /** @param {string} fragment */
    address(fragment) {
        history.replaceState(null, "", fragment);
    }

    /**
     * Says something about a script, or nothing.
     *
     * @param {string} text
     */
    note(text) {
        part("note").hidden = !text;
        part("note").textContent = text;
    }

    edited() {
        const wasWhole = this.last >= this.whole;
        this.keepEdit();
        this.textChanged();
        this.playTo(wasWhole ? this.editor.count : Math.min(this.last, this.editor.count));
        this.showWord();
    }

    /**
     * Keeps what was edited under a name of its own, so that the script that it was stays, and another one can be
     * looked at meanwhile.
     */
    keepEdit() {
        const { text } = this.editor;
        if (this.entry.group === YOURS && this.entry.name.includes(", edited")) {
            this.texts.change(this.entry, text);
            return;
        }
        this.entry = this.texts.add({ group: YOURS, name: this.texts.unique(`${this.entry.name}, edited`), text });
        this.address(fragmentOfName(this.entry.name));
        this.fillMenus();
    }

    remove() {
        const { entry } = this;
        this.texts.remove(entry);
        const base = entry.name.replace(/, edited.*$/, "");
        this.choose((this.texts.find(base) || this.texts.entries[0]).name);
    }

    textChanged() {
        this.whole = this.editor.count;
        this.fault = null;
        this.isJudged = false;
        this.editor.mark({ fault: null });
        this.jobs.setText(bytesOf(ended(this.editor.text)));
    }

    // ---- playing

    /**
     * Plays the script up to a line, and shows the image.
     *
     * @param {number} line
     */
    playTo(line) {
        this.last = Math.max(1, Math.min(line, this.whole));
        this.begun = performance.now();
        const position = `line ${this.last} of ${this.whole}`;
        Object.assign(field("slider"), { max: String(this.whole), value: String(this.last) });
        part("slider").setAttribute("aria-valuetext", position);
        part("position").textContent = position;
        part("changed-label").textContent = `what line ${this.last} changed`;
        this.editor.mark({ last: this.last, touched: [] });
        document.documentElement.dataset.state = "playing";
        this.jobs.drop(["planes", "pixels", "state", "changed", "beside", "history"]);
        this.jobs.ask("play", { last: this.last }).then((told) => this.played(told), (error) => this.failed(error));
        if (this.last < this.whole && !this.isJudged) {
            this.jobs.ask("check", {}).then(({ refused }) => this.showVerdict(refused), (error) => this.failed(error));
        }
    }

    /** @param {any} told */
    played(told) {
        this.colours = told.picture;
        this.shown = told.picture ? told.shown : 0;
        if (told.refused || this.last >= this.whole) this.showVerdict(told.refused);
        const partly = told.refused && told.picture ? `, lines 1 to ${told.shown}` : "";
        part("size").textContent =
            told.picture ? `${told.picture.width} \u00d7 ${told.picture.height}${partly}` : "no image";
        part("size").title = `drawn in ${told.milliseconds.toFixed(1)} ms`;
        const isFaulty = told.refused !== null && this.language.meaning(told.refused.number).kind === "fault";
        part("answers").replaceChildren(
            answersShown(told.answers, told.questions, isFaulty, (line) => this.goTo(line)));
        document.documentElement.dataset.milliseconds = told.milliseconds.toFixed(2);
        this.askPixels(null);
        this.askState();
        this.showPicture();
        this.compare();
    }

    /**
     * Asks again for the pixel that is pointed at or kept, and for that of a text beside this one.
     *
     * @param {string | null} other
     */
    askPixels(other) {
        this.pixels.ask({ last: this.shown, other, what: this.what });
    }

    /** Shows of the image what is chosen: its colours at once, all else when the device has told it. */
    showPicture() {
        const { what } = this;
        const { colours } = this;
        part("range").hidden = what !== "depth";
        part("heat").hidden = what !== "overdraw" || !colours;
        if (!colours || what === "opaque" || what === "alpha") {
            this.show(colours && (what === "alpha" ? colours : opaque(colours)));
            return;
        }
        this.jobs.ask("planes", { last: this.shown, what, range: this.range }).then(({ picture, range, touched }) => {
            if (range) {
                field("near").placeholder = String(range.near);
                field("far").placeholder = String(range.far);
            }
            if (touched) {
                part("least").textContent = counted(touched.least);
                part("most").textContent = counted(touched.most);
                this.pixels.askAgain();
            }
            this.show(picture);
        }, (error) => this.failed(error));
    }

    /** @param {Picture | null} picture */
    show(picture) {
        this.picture = picture;
        this.view.show(picture);
        this.view.mark(this.view.marked);
        const after = (performance.now() - this.begun).toFixed(2);
        Object.assign(document.documentElement.dataset, { state: "played", shownAfter: after });
    }

    /** @param {Error} error */
    failed({ message }) {
        document.documentElement.dataset.state = "failed";
        Object.assign(part("verdict"), { className: "verdict bad" }).dataset.key = "";
        const text = message === STOPPED ? "Stopped: the image is that of the script before."
                                         : `The device stopped: ${message}.`;
        part("verdict").replaceChildren(element("p", {}, text));
    }

    /** What is shown of the target. */
    get what() {
        return field("what").value;
    }

    /** The depths that are shown white and dark, or null for those of the target. */
    get range() {
        const [near, far] = ["near", "far"].map((id) => (field(id).value === "" ? null : Number(field(id).value)));
        return { near, far };
    }

    askState() {
        const label = this.labelOf(this.shown);
        part("state-line").textContent = this.shown ? `line ${this.shown}${label ? `, ${label}` : ""}` : "the line";
        part("state").replaceChildren();
        if (!this.shown) return;
        this.jobs.ask("state", { last: this.shown }).then(({ state }) => {
            part("state").replaceChildren(...stateShown(this.language, state, (line) => this.goTo(line)));
        }, (error) => this.failed(error));
    }

    // ---- comparing

    /** Asks what the line changed, and how the script differs from the one beside it, where these are wanted. */
    compare() {
        this.view.cover(null);
        part("difference").hidden = true;
        const beside = this.texts.find(field("beside").value);
        if (!beside || !this.shown) {
            this.view.showBeside(null);
        } else {
            const other = ended(beside.text);
            const asked = { last: this.shown, what: this.what, range: this.range, other };
            this.jobs.ask("beside", asked)
                .then((told) => this.besides(told, beside.name, other), (error) => this.failed(error));
        }
        const isAsked = field("changed").checked && this.shown > 1;
        if (!isAsked) return;
        const { shown, what } = this, verb = what === "overdraw" ? "touches" : "changes";
        this.jobs.ask("changed", { last: shown, what }).then(({ difference, counts }) => {
            const none = what === "overdraw" ? "touches no pixel" : "changes no pixel of what is shown";
            this.showDifference(
                difference, `line ${shown} ${verb}`, `Line ${shown} ${none}.`, this.alsoChanged(counts));
        }, (error) => this.failed(error));
    }

    /**
     * What a line changed beside what is shown.
     *
     * @param {Record<string, number>} counts
     */
    alsoChanged(counts) {
        const shown = ["depth", "stencil", "overdraw"].includes(this.what) ? this.what : "colour";
        const others = ["colour", "depth", "stencil"].filter((name) => name !== shown && counts[name]);
        const pixels = (/** @type {number} */ count) => `${counted(count)} pixel${count === 1 ? "" : "s"}`;
        const named = others.map((name) => `the ${name} of ${pixels(counts[name])}`);
        return named.length ? ` It changes ${named.join(", and ")}.` : "";
    }

    /**
     * Shows the script beside this one.
     *
     * @param {any} told
     * @param {string} name
     * @param {string} other
     */
    besides(told, name, other) {
        this.view.showBeside(told.picture);
        if (told.isSameSize) this.askPixels(other);
        const until =
            told.refused ? ` ${name} is drawn as far as its line ${told.refused.line}, which is refused.` : "";
        if (!told.picture) this.tellDifference(`${name} has no image.${until}`);
        else if (!told.isSameSize) this.tellDifference(`${name} has a target of another size.${until}`);
        else this.showDifference(told.difference, "differ", `Nothing of what is shown differs from ${name}.`, until);
    }

    /**
     * Shows where two targets differ.
     *
     * @param {Difference | null} difference
     * @param {string} verb
     * @param {string} none what is said where they don't
     * @param {string} [more] what is said besides
     */
    showDifference(difference, verb, none, more = "") {
        this.view.cover(difference && difference.mask);
        if (!difference) {
            this.tellDifference(none + more);
            return;
        }
        const { count, mask, box, most } = difference;
        const names = most.length === 4 ? ["red", "green", "blue", "alpha"] : [this.what];
        const largest = names.map((name, at) => `${name} ${most[at]}`).join(", ");
        const many = `${counted(count)} of ${counted(mask.length)} pixels`;
        const where = `in columns ${box.left} to ${box.right - 1} and rows ${box.top} to ${box.bottom - 1}`;
        this.tellDifference(
            `${verb === "differ" ? `${many} differ` : `${verb} ${many}`}, ${where}; at most by ${largest}.${more}`);
    }

    /** @param {string} text */
    tellDifference(text) {
        part("difference").hidden = false;
        part("difference").textContent = text[0].toUpperCase() + text.slice(1);
    }

    // ---- verdicts

    /**
     * Says whether the whole script is taken, and marks the line that isn't.
     *
     * @param {Refused | null} refused
     */
    showVerdict(refused) {
        this.fault = refused;
        this.isJudged = true;
        const place = refused && this.placeOf(refused);
        this.editor.mark({ fault: place && refused ? place : null });
        // (what is said again as it was would be read aloud again)
        const key = refused ? `${refused.line} ${refused.number} ${this.whole} ${place && place.start}` : "taken";
        if (part("verdict").dataset.key === key) return;
        part("verdict").dataset.key = key;
        part("verdict").className = refused ? "verdict bad" : "verdict";
        if (!refused || !place) {
            part("verdict").replaceChildren(element("p", { className: "quiet" }, "Every line is taken."));
            return;
        }
        const { kind, when, advice } = this.language.meaning(refused.number);
        const where = this.whereOf(refused.line, place.isLocated ? place.start + 1 : 0);
        const leads = element("button", { type: "button", className: "where", title: "go there" },
            `${where}: ${kind} ${refused.number}.`);
        leads.onclick = () => this.editor.goTo(place.line, place.start, place.end);
        part("verdict").replaceChildren(
            element("p", {}, leads, " ", ...withCode(when)),
            element("p", { className: "advice" }, "What to do (docs/SCRIPT.md): ", ...withCode(advice)));
    }

    /**
     * The name of a line, or null.
     *
     * @param {number} line
     */
    labelOf(line) {
        return labelOf(this.entry.labels || [], line);
    }

    /**
     * A line in words, with the column that is to blame, or 0, and its name.
     *
     * @param {number} line
     * @param {number} column
     */
    whereOf(line, column) {
        if (line > this.whole) return "Behind the last line";
        const label = this.labelOf(line);
        return `Line ${line}${column ? `, column ${column}` : ""}${label ? ` (in ${label})` : ""}`;
    }

    /**
     * The letters that are to blame.
     *
     * @param {Refused} refused
     */
    placeOf({ line, number }) {
        const shown = Math.max(1, Math.min(line, this.whole));
        const text = this.editor.lineText(shown);
        const [, width, height] = this.editor.lineText(1).split(" ").map(Number);
        const place = line === shown ? blame(this.language, text, { line, number }, { width, height }) : null;
        return { line: shown, start: place ? place.start : 0, end: place ? place.end : 0, isLocated: place !== null };
    }

    /**
     * Goes to a line: the script is played up to it, and it is brought into view.
     *
     * @param {number} line
     */
    goTo(line) {
        this.playTo(line);
        this.editor.reveal(line);
    }

    showWord() {
        part("word").replaceChildren(...wordHelp(this.language, this.editor.caret));
    }

    // ---- the rest of the page

    /**
     * Shows that a job takes its time.
     *
     * @param {import("./jobs.js").Work | null} work
     */
    showWork(work) {
        const isLong = Boolean(work && work.seconds > 0.15 && work.kind !== "start");
        if (part("working").hidden === isLong) part("working").hidden = !isLong;
        if (!work || !isLong) return;
        part("doing").textContent = `${DOING[work.kind]}, ${work.seconds.toFixed(1)} s`;
    }

    listen() {
        const on = (/** @type {string} */ id, /** @type {string} */ event, /** @type {() => void} */ heard) =>
            part(id).addEventListener(event, heard);
        on("menu", "change", () => this.choose(field("menu").value));
        on("remove", "click", () => this.remove());
        on("slider", "input", () => this.goTo(Number(field("slider").value)));
        on("back", "click", () => this.goTo(this.last - 1));
        on("on", "click", () => this.goTo(this.last + 1));
        on("what", "change", () => this.shownOtherwise());
        for (const id of ["near", "far"]) on(id, "change", () => this.shownOtherwise());
        for (const id of ["changed", "beside"]) on(id, "change", () => this.compare());
        on("stop", "click", () => this.jobs.stop());
        on("smaller", "click", () => this.view.step(-1));
        on("larger", "click", () => this.view.step(1));
        on("fit", "click", () => this.view.choose(null));
        on("stage", "zoom", () => {
            part("zoom").textContent = this.view.zoomText;
            part("fit").setAttribute("aria-pressed", String(this.view.chosen === null));
        });
        on("file", "change", () => this.openFile((field("file").files || [])[0]));
        on("save-script", "click", () => this.save(new Blob([this.jobs.bytes], { type: "text/plain" }), "txt"));
        on("save-image", "click", () => this.saveImage());
        on("link", "click", () => this.copyLink());
        this.listenToWindow();
    }

    listenToWindow() {
        addEventListener("hashchange", () => this.openLinked());
        addEventListener("pagehide", () => this.texts.flush());
        addEventListener("dragover", (event) => {
            if (event.dataTransfer?.types.includes("Files")) event.preventDefault();
        });
        addEventListener("drop", (event) => {
            if (!event.dataTransfer?.types.includes("Files")) return;
            event.preventDefault();
            this.openFile(event.dataTransfer.files[0]);
        });
    }

    /** Another view of the same image. */
    shownOtherwise() {
        this.begun = performance.now();
        document.documentElement.dataset.state = "playing";
        this.askPixels(null);
        this.showPicture();
        this.compare();
    }

    /** @param {File | undefined} file */
    async openFile(file) {
        if (!file) return;
        try {
            const text = await file.text();
            const known = this.texts.find(file.name);
            const isKnown = known && known.text === text;
            const entry =
                known && isKnown ? known : this.texts.add({ group: YOURS, name: this.texts.unique(file.name), text });
            this.address(fragmentOfName(entry.name));
            this.open(entry);
        } catch (error) {
            this.note(`${file.name} can't be read: ${reason(error)}.`);
        }
        field("file").value = "";
    }

    /**
     * Saves what is shown: colours as they are, with their alpha where it is shown, and depth and stencil as the
     * picture that they make.
     */
    async saveImage() {
        if (!this.picture) {
            this.note("There is no image to be saved.");
            return;
        }
        this.save(await encodePng(this.picture, this.what === "alpha"), "png");
    }

    /**
     * @param {Blob} blob
     * @param {string} suffix
     */
    save(blob, suffix) {
        const name = this.entry.name.replace(/\.txt$/, "").replace(/[^\w.-]+/g, "-");
        const link = element("a", { href: URL.createObjectURL(blob), download: `${name}.${suffix}` });
        link.click();
        setTimeout(() => URL.revokeObjectURL(link.href), 1000);
    }

    /** Puts an address that carries the script into the address bar and, where that is allowed, into the clipboard. */
    async copyLink() {
        this.address(await fragmentOf(this.entry.name, this.editor.text));
        const { href } = location;
        const long = href.length > LONG_LINK ? `, of ${counted(href.length)} letters: some programs cut it` : "";
        try {
            await navigator.clipboard.writeText(href);
            this.note(`The link stands in the clipboard and in the address bar${long}.`);
        } catch (error) {
            this.note(`The link stands in the address bar${long}.`);
        }
    }
}

/**
 * What a page can't keep of a text, and the program would refuse.
 *
 * @param {string} text
 */
function keptOf(text) {
    const notes = [
        /\r/.test(text) && "Its carriage returns are left out here: the program takes none.",
        text && !/[\r\n]$/.test(text) &&
            "Its last line is ended by a line feed here: the program takes no line without one.",
    ];
    return notes.filter(Boolean).join(" ");
}

/**
 * A text whose last line is ended.
 *
 * @param {string} text
 */
function ended(text) {
    return text && !text.endsWith("\n") ? `${text}\n` : text;
}

/** @param {unknown} error */
function reason(error) {
    return error instanceof Error ? error.message.replace(/\.$/, "") : String(error);
}
