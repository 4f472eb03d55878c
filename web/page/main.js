// The page's beginning: unpacks what stands in it, and says so where this browser can't draw.

import { textOf } from "../engine/script.js";
import { part } from "./elements.js";
import { Page } from "./page.js";

const NO_MEMORY64 = "This browser's WebAssembly has no 64-bit memory (memory64), which the device needs: "
    + "Chrome and Edge have it from version 133 on, and Firefox from 134.";

/** Whether this machine's WebAssembly has a 64-bit memory: the shortest module that has one. */
function hasMemory64() {
    return typeof WebAssembly === "object" &&
        WebAssembly.validate(new Uint8Array([0, 97, 115, 109, 1, 0, 0, 0, 5, 3, 1, 4, 1]));
}

/**
 * The bytes that stand in the page, packed by gzip and spelled in base64.
 *
 * @param {string} id
 */
async function unpacked(id) {
    const packed = Uint8Array.from(atob(part(id).textContent || ""), (sign) => sign.charCodeAt(0));
    return new Response(new Blob([packed]).stream().pipeThrough(new DecompressionStream("gzip"))).arrayBuffer();
}

/** @param {string} text */
function refuse(text) {
    part("trouble").textContent = text;
    part("trouble").hidden = false;
    document.documentElement.dataset.state = "failed";
}

async function begin() {
    if (!hasMemory64()) {
        refuse(NO_MEMORY64);
        return;
    }
    const [module, gallery] = await Promise.all([unpacked("module"), unpacked("gallery")]);
    const [tables, opening] = ["tables", "opening"].map((id) => JSON.parse(part(id).textContent || ""));
    const worker = part("worker").textContent || "";
    const page = new Page({ module, worker, tables, gallery: JSON.parse(textOf(new Uint8Array(gallery))), opening });
    // (for whoever looks at a page from the console, as its tests do)
    Object.assign(window, { page });
    await page.begin();
}

begin().catch((error) => refuse(`The page can't be begun: ${error.message}.`));
