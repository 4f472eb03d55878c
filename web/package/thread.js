// What runs in the thread of a DrawingWorker: it draws what it is sent, and sends back what came, or why nothing did.

import { draw } from "./index.js";

const threads = "node:worker_threads";
/** @type {any} */
const outside = typeof self !== "undefined" ? self : (await import(threads)).parentPort;

/** @param {{number: number, script: string | Uint8Array}} job */
async function answer({ number, script }) {
    try {
        outside.postMessage({ number, drawn: await draw(script) });
    } catch (error) {
        outside.postMessage({ number, error: error instanceof Error ? error.message : String(error) });
    }
}

if (typeof self !== "undefined") outside.onmessage = (/** @type {MessageEvent} */ { data }) => answer(data);
else outside.on("message", answer);
