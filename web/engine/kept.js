// Scripts that are shown, each with a device that stays and goes on to the line that is asked for.
//
// Reading a device runs what is pending, and behind that a line may be taken that would be refused in a script: so it
// is found out on a device that nobody reads meanwhile which lines are taken.

import { CallRefused } from "./device.js";
import { PixelHistory } from "./history.js";
import { Player } from "./player.js";

/** @typedef {import("./language.js").Tables} Tables */
/** @typedef {import("./module.js").Module} Module */
/** @typedef {import("./module.js").Refused} Refused */
/** @typedef {import("./script.js").Script} Script */
/**
 * @typedef {object} Played
 * @property {Player | null} player the device behind the line that is shown, or null where there is no image
 * @property {number} shown that line, or 0
 * @property {string[]} answers
 * @property {number[]} questions the lines that asked for them
 * @property {Refused | null} refused
 */

// so many lines before one are tried where its last run is refused
const TRIES = 8;
// scripts that are kept at once: that of the page, and the one beside it
const KEPT = 2;

/** A script, what is known of its lines, and its device. */
export class Kept {
    /**
     * @param {Module} module
     * @param {Script} script
     */
    constructor(module, script) {
        this.module = module;
        this.script = script;
        this.fault = module.faultOf(script);
        /** the lines that can be played, since they stand before the first fault */
        this.playable = this.fault ? this.fault.line - 1 : script.count;
        /** the last line that is known to be taken; behind the last line stands what runs there */
        this.taken = 0;
        /** @type {Refused | null} the first line that is refused, where it is known */
        this.refused = null;
        /** @type {Player | null} */
        this.player = null;
        /** @type {PixelHistory | null} */
        this.history = null;
        /** @type {import("./changes.js").Contents | null} what the target held where it was last asked what changed */
        this.contents = null;
    }

    /**
     * The line up to which the script is looked at where one is asked for: behind the last one stands its last run.
     *
     * @param {number} last
     */
    until(last) {
        return last < this.playable || this.fault ? Math.min(last, this.playable) : this.script.count + 1;
    }

    /**
     * Finds out which lines up to one are taken, on a new device.
     *
     * @param {number} until
     * @returns {Player | null} what played them, which has gone as far as they are taken
     */
    judge(until) {
        /** @type {Player | null} */
        let player = null;
        try {
            player = new Player(this.module, this.script);
            player.playTo(Math.min(until, this.playable));
            if (until > this.script.count) player.device.immediate.flush();
            this.taken = until;
        } catch (error) {
            if (!(error instanceof CallRefused)) throw error;
            this.taken = player ? player.line : 0;
            this.refused = { line: this.taken + 1, number: error.number };
        }
        return player;
    }

    /** @param {number} until */
    isJudged(until) {
        return this.refused !== null || this.taken >= until;
    }

    /** The first line that has a fault or is refused, or null. */
    check() {
        const until = this.until(this.script.count);
        if (!this.fault && !this.isJudged(until)) this.judge(until)?.dispose();
        return this.fault || this.refused;
    }

    /**
     * Plays the script up to a line, or as far as it goes before.
     *
     * @param {number} last
     * @returns {Played}
     */
    play(last) {
        const until = this.until(last);
        if (until && !this.isJudged(until)) {
            this.leave();
            this.player = this.judge(until);
        }
        const isFaulty = this.fault !== null && this.fault.line <= last;
        const refused = this.refused && this.refused.line <= until ? this.refused : null;
        const player = this.shown(Math.min(until, refused ? refused.line - 1 : this.script.count));
        return {
            player,
            shown: player ? player.line : 0,
            answers: isFaulty || !player ? [] : player.answers,
            questions: isFaulty || !player ? [] : player.questions,
            refused: isFaulty ? this.fault : refused,
        };
    }

    /**
     * The device behind a line that is taken; behind an earlier one where there is no memory or room for the last run.
     *
     * @param {number} last
     */
    shown(last) {
        for (let line = last; line >= 1 && line > last - TRIES; line--) {
            try {
                return this.behind(line);
            } catch (error) {
                if (!(error instanceof CallRefused)) throw error;
                this.leave();
            }
        }
        return null;
    }

    /**
     * The device behind a line that is taken, with nothing pending.
     *
     * @param {number} line
     */
    behind(line) {
        const { player } = this;
        if (player && (player.line > line || (player.isClosed && player.line < line))) this.leave();
        this.player = this.player || new Player(this.module, this.script);
        this.player.playTo(line).close();
        this.player.device.immediate.flush();
        return this.player;
    }

    /**
     * The histories of pixels behind a line that is taken.
     *
     * @param {number} line
     * @param {Tables} tables
     */
    historyBehind(line, tables) {
        const player = this.behind(line);
        if (this.history?.player !== player) this.history = new PixelHistory(player, tables);
        return this.history;
    }

    /** Gives the device back. */
    leave() {
        this.player?.dispose();
        this.player = this.history = null;
    }
}

/** The scripts that were asked for last. */
export class Shelf {
    /** @param {Module} module */
    constructor(module) {
        this.module = module;
        /** @type {Map<Script, Kept>} */
        this.kept = new Map();
    }

    /** @param {Script} script */
    of(script) {
        let found = this.kept.get(script);
        if (!found) {
            for (const other of [...this.kept.keys()].slice(0, -KEPT + 1 || undefined)) this.forget(other);
            found = new Kept(this.module, script);
            this.kept.set(script, found);
        }
        return found;
    }

    /** @param {Script} script */
    forget(script) {
        this.kept.get(script)?.leave();
        this.kept.delete(script);
    }
}
