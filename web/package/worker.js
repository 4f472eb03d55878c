// The device in a thread of its own, for node and browsers: what it draws keeps nobody waiting.

const THREAD = new URL("./thread.js", import.meta.url);

/** A thread as a browser has it, or as node does. */
async function thread() {
    if (typeof Worker !== "undefined") return new Worker(THREAD, { type: "module" });
    const threads = "node:worker_threads";
    const found = new (await import(threads)).Worker(THREAD);
    found.addEventListener = (/** @type {string} */ kind, /** @type {(event: object) => void} */ hear) =>
        found.on(kind, (/** @type {any} */ data) => hear(kind === "error" ? data : { data }));
    return found;
}

export class DrawingWorker {
    constructor() {
        this.number = 0;
        /** @type {Map<number, {resolve: (drawn: any) => void, reject: (error: Error) => void}>} */
        this.waiting = new Map();
        this.thread = thread().then((found) => {
            found.addEventListener("message", (/** @type {{data: any}} */ { data }) => this.hear(data));
            found.addEventListener("error", (/** @type {{message: string}} */ { message }) => this.fail(message));
            return found;
        });
    }

    /**
     * Draws a script, behind those that were given before.
     *
     * @param {string | Uint8Array} script
     */
    async draw(script) {
        const thread = await this.thread;
        const number = this.number++;
        return new Promise((resolve, reject) => {
            this.waiting.set(number, { resolve, reject });
            thread.postMessage({ number, script });
        });
    }

    /** Ends the thread; what it hasn't drawn fails. */
    async end() {
        await (await this.thread).terminate();
        this.fail("the worker was ended");
    }

    /** @param {{number: number, drawn?: object, error?: string}} answer */
    hear({ number, drawn, error }) {
        const waiting = this.waiting.get(number);
        this.waiting.delete(number);
        if (!waiting) return;
        if (error !== undefined) waiting.reject(new Error(error));
        else waiting.resolve(drawn);
    }

    /** @param {string} why */
    fail(why) {
        for (const { reject } of this.waiting.values()) reject(new Error(why));
        this.waiting.clear();
    }
}
