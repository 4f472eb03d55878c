import type { Drawn } from "./index.js";

/** The device in a thread of its own. */
export class DrawingWorker {
    /** Draws a script, behind those that were given before. */
    draw(script: string | Uint8Array): Promise<Drawn>;
    /** Ends the thread; what it hasn't drawn fails. */
    end(): Promise<void>;
}
