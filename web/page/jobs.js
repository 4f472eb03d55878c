// What the page asks of the worker. One job runs at a time; of each kind the newest alone waits.

// a job that nobody waits for any more is left to end within this time, and is stopped with its worker behind it
const PATIENCE = 100;
const TELLING = 100;

/** The kinds of jobs, in the order in which they are taken. */
const KINDS = ["play", "check", "pixels", "planes", "state", "changed", "beside", "history"];

/** @typedef {{kind: string, seconds: number}} Work how a job goes on */

/**
 * @typedef {object} Job
 * @property {string} kind
 * @property {object} options
 * @property {(answer: any) => void} resolve
 * @property {(error: Error) => void} reject
 */

/** @typedef {Job & {number: number, begun: number, isStale: boolean}} Running */

/** Why a job ends that its user has stopped. */
export const STOPPED = "stopped";

export class Jobs {
    /**
     * @param {string} code the worker's program
     * @param {object} opening what it is started with
     * @param {(work: Work | null) => void} tell hears how a job goes on
     */
    constructor(code, opening, tell) {
        this.url = URL.createObjectURL(new Blob([code], { type: "text/javascript" }));
        this.opening = opening;
        this.tell = tell;
        /** @type {Map<string, Job>} */
        this.waiting = new Map();
        /** @type {Running | null} */
        this.running = null;
        this.number = 0;
        this.serial = 0;
        this.sent = -1;
        this.bytes = new Uint8Array(0);
        /** @type {Worker} */
        this.worker = this.started();
        setInterval(() => this.tellTime(), TELLING);
    }

    /**
     * A new worker, which begins with its start.
     *
     * @returns {Worker}
     */
    started() {
        const worker = new Worker(this.url);
        worker.onmessage = ({ data }) => this.heard(data);
        worker.onerror = (event) => this.failed(event.message || "the worker didn't start");
        this.worker = worker;
        this.sent = -1;
        this.run({ kind: "start", options: this.opening, resolve: () => {}, reject: (error) => this.refuse(error) });
        return worker;
    }

    /**
     * Takes another text: what was asked of the old one is dropped.
     *
     * @param {Uint8Array} bytes
     */
    setText(bytes) {
        this.bytes = bytes;
        this.serial += 1;
        this.drop(KINDS);
    }

    /**
     * Drops what waits of some kinds, and stops what runs of them if it takes long.
     *
     * @param {string[]} kinds
     */
    drop(kinds) {
        for (const kind of kinds) this.waiting.delete(kind);
        if (this.running && kinds.includes(this.running.kind)) this.running.isStale = true;
        this.stopStale();
    }

    /**
     * Asks; the promise is never settled where a newer question of that kind, or another text, comes before the answer.
     *
     * @param {string} kind
     * @param {object} options
     * @returns {Promise<any>}
     */
    ask(kind, options) {
        return new Promise((resolve, reject) => {
            this.drop([kind]);
            this.waiting.set(kind, { kind, options, resolve, reject });
            this.next();
        });
    }

    next() {
        if (this.running) return;
        for (const kind of KINDS) {
            const job = this.waiting.get(kind);
            if (!job) continue;
            this.waiting.delete(kind);
            this.run(job);
            return;
        }
    }

    /** @param {Job} job */
    run(job) {
        const number = ++this.number;
        this.running = { ...job, number, begun: performance.now(), isStale: false };
        const bytes = job.kind !== "start" && this.sent !== this.serial ? this.bytes : null;
        if (bytes) this.sent = this.serial;
        this.worker.postMessage({ ...job.options, kind: job.kind, number, bytes, serial: this.serial });
        if (job.kind !== "start") setTimeout(() => this.stopStale(), PATIENCE);
    }

    /** @param {any} message */
    heard(message) {
        const job = this.running;
        if (!job || message.number !== job.number) return;
        this.running = null;
        this.tell(null);
        if (message.error) job.reject(new Error(message.error));
        else if (!job.isStale) job.resolve(message);
        if (message.error && job.kind !== "start") this.restart();
        this.next();
    }

    /** @param {string} text */
    failed(text) {
        const job = this.running;
        this.running = null;
        this.tell(null);
        if (job) job.reject(new Error(text));
    }

    stopStale() {
        const job = this.running;
        if (!job || !job.isStale || performance.now() - job.begun < PATIENCE) return;
        this.restart();
    }

    /** Ends the worker, with what it runs, and makes another. */
    restart() {
        this.worker.terminate();
        this.running = null;
        this.tell(null);
        this.started();
    }

    /** Stops what runs and what waits, as somebody asks for it. */
    stop() {
        const { running } = this;
        const error = new Error(STOPPED);
        this.refuse(error);
        this.restart();
        if (running && running.kind !== "start") running.reject(error);
    }

    /**
     * Answers what waits with an error.
     *
     * @param {Error} error
     */
    refuse(error) {
        const jobs = [...this.waiting.values()];
        this.waiting.clear();
        for (const job of jobs) job.reject(error);
    }

    tellTime() {
        const job = this.running;
        if (job) this.tell({ kind: job.kind, seconds: (performance.now() - job.begun) / 1000 });
    }
}
