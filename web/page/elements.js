// Small makers and finders of elements.

/**
 * An element with properties and children.
 *
 * @template {keyof HTMLElementTagNameMap} Tag
 * @param {Tag} tag
 * @param {Partial<HTMLElementTagNameMap[Tag]>} [properties]
 * @param {(Node | string)[]} children
 */
export function element(tag, properties = {}, ...children) {
    const made = document.createElement(tag);
    Object.assign(made, properties);
    made.append(...children);
    return made;
}

/**
 * A part of the page by its name.
 *
 * @param {string} id
 */
export function part(id) {
    return /** @type {HTMLElement} */ (document.getElementById(id));
}

/**
 * A part of the page that has a value.
 *
 * @param {string} id
 */
export function field(id) {
    return /** @type {HTMLInputElement} */ (document.getElementById(id));
}

/**
 * Text in which `these signs` are shown as code.
 *
 * @param {string} text
 */
export function withCode(text) {
    return text.split("`").map((piece, at) => (at % 2 ? element("code", {}, piece) : piece));
}

/**
 * A number as people read it: 16,384.
 *
 * @param {number} number
 */
export function counted(number) {
    return number.toLocaleString("en");
}

/**
 * A paragraph that stays in the background.
 *
 * @param {(Node | string)[]} children
 */
export function quietly(...children) {
    return element("p", { className: "quiet" }, ...children);
}
