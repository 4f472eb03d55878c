// The package `yuzuratchet` for node and browsers: the device behind one function, and by its calls.

import { Device } from "./engine/device.js";
import { Module, answersOf, refusalOf } from "./engine/module.js";
import { bytesOf } from "./engine/script.js";
import { upTo } from "./engine/session.js";
import { decodeTarga } from "./engine/targa.js";
import { LAYOUT } from "./layout.js";

export {
    CallRefused,
    CommandList,
    Context,
    DeferredContext,
    Device,
    ImmediateContext,
} from "./engine/device.js";
export {
    ColorWriteEnable,
    ComparisonFunc,
    CullMode,
    LogicOp,
    Plane,
    PrimitiveTopology,
    StencilOp,
} from "./engine/states.js";
export { depthOf, vertexBytes } from "./engine/units.js";

const MODULE = new URL("./yuzuratchet.wasm", import.meta.url);
const NO_MEMORY64 =
    "this engine has no WebAssembly memories of 64 bits: Chrome and Edge have them from 133 on, Firefox from 134, " +
    "node from 24, and node 20 to 23 with --experimental-wasm-memory64";

const EXPECTED_EVENTS = 64;

/** @type {Promise<Module> | null} */
let running = null;

/** The bytes of the module that lies beside this file. */
async function ownModule() {
    if (MODULE.protocol !== "file:") return (await fetch(MODULE)).arrayBuffer();
    // (a name that no bundler for browsers follows)
    const files = "node:fs/promises";
    return (await import(files)).readFile(MODULE);
}

/** @param {ArrayBuffer | Uint8Array} [module] */
async function started(module) {
    const bytes = module || (await ownModule());
    if (!WebAssembly.validate(/** @type {BufferSource} */ (bytes))) throw new Error(NO_MEMORY64);
    return Module.of(bytes, LAYOUT);
}

/** The module, which is started where it has to be. */
function ownDevice() {
    running = running || started();
    return running;
}

/**
 * Starts the module, which `draw` and `createDevice` do where they have to. One that lies elsewhere is given by its
 * bytes.
 *
 * @param {ArrayBuffer | Uint8Array} [module]
 */
export async function start(module) {
    running = started(module);
    await running;
}

/**
 * Draws a script.
 *
 * @param {string | Uint8Array} script
 * @returns {Promise<import("./index.js").Drawn>}
 */
export async function draw(script) {
    const { lines, image } = (await ownDevice()).draw(bytesOfScript(script));
    const answers = answersOf(lines);
    const refused = refusalOf(answers);
    return { answers, refused, tga: image, picture: refused ? null : decodeTarga(image) };
}

/**
 * What touched a pixel of a script's target, in order: over all lines, or those up to `at`.
 *
 * @param {string | Uint8Array} script
 * @param {number} x
 * @param {number} y
 * @param {{at?: number}} options
 * @returns {Promise<import("./index.js").Event[]>}
 */
export async function history(script, x, y, { at } = {}) {
    const text = bytesOfScript(script);
    return (await ownDevice()).history(at === undefined ? text : upTo(text, at), { x, y }, EXPECTED_EVENTS);
}

/** @param {string | Uint8Array} script */
function bytesOfScript(script) {
    return typeof script === "string" ? bytesOf(script) : script;
}

/**
 * A device by its calls.
 *
 * @param {number} width
 * @param {number} height
 * @returns {Promise<import("./index.js").Device>}
 */
export async function createDevice(width, height) {
    return new Device(await ownDevice(), width, height);
}
