// What a script leaves that is played by calls, as the gallery stores it: answer lines, and the line of the image.

import { createHash } from "crypto";

import { CallRefused } from "../engine/device.js";
import { Player } from "../engine/player.js";
import { Plane } from "../engine/states.js";

/** The line of an image's bytes, piece by piece. */
export function imageLine(pieces) {
    const hash = createHash("sha256");
    for (const piece of pieces) hash.update(piece);
    return `image ${hash.digest("hex")}`;
}

/** The pieces of a device's image file. */
export function fileOf(device) {
    const { width, height } = device;
    const head = [0, 0, 2, 0, 0, 0, 0, 0, 0, 0, 0, 0, width & 255, width >> 8, height & 255, height >> 8, 32, 40];
    return [Uint8Array.from(head), device.read(Plane.BGRA8)];
}

/** What the calls of a script leave that has no fault; the first that is refused ends it. */
export function played(module, script) {
    let player = null;
    try {
        player = new Player(module, script);
        player.playTo(script.count).device.immediate.flush();
        return [...player.answers, imageLine(fileOf(player.device))];
    } catch (error) {
        if (!(error instanceof CallRefused)) throw error;
        const { answers, line } = player || { answers: [], line: 0 };
        return [...answers, `refused ${line + 1} ${error.number}`, imageLine([])];
    } finally {
        if (player) player.dispose();
    }
}
