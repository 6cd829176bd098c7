// Follows the lines of a gateway, also when their file is rotated, missing at first, or not readable yet.

import { _, cockpit, format } from "./cockpit.js";
import { parseLine } from "./lines.js";
import { failureText, linesCommand } from "./orders.js";
import { linesOf } from "./places.js";

const RETRY_DELAY = 2000;
const LONGEST_LINE = 1 << 16;

/**
 * @callback OnLine
 * @param {Object} line             its members
 * @param {?number} now             the time in ms; null for earlier lines
 *
 * @callback OnState
 * @param {"reading"|"live"|"lost"} state
 * @param {string} why              a sentence, if the lines cannot be read
 */

export class Feed {
    /**
     * @param {string} gateway
     * @param {OnLine} onLine
     * @param {OnState} onState
     */
    constructor(gateway, onLine, onState) {
        Object.assign(this, { gateway, onLine, onState });
        this.hasRead = false;
        this.isStopped = false;
        this.checkReadable();
    }

    /** Stops following. */
    stop() {
        this.isStopped = true;
        clearTimeout(this.timer);
        this.process.close("cancelled");
    }

    /** `enogatectl` waits silently until a gateway writes its first line, so this is checked first. */
    checkReadable() {
        const path = linesOf(this.gateway);
        this.process = cockpit.spawn(["test", "-r", path], { superuser: "try", err: "ignore" });
        const why = _("$0 is missing, or you may not read it: only administrators and the group enogate may.");
        this.process.then(() => this.follow(), () => this.retry(format(why, path)));
    }

    retry(why) {
        if (this.isStopped)
            return;
        this.onState("lost", why);
        this.timer = setTimeout(() => this.checkReadable(), RETRY_DELAY);
    }

    /** Reads the earlier lines, unless they are known, and follows the new ones. */
    follow() {
        if (this.isStopped)
            return;
        Object.assign(this, { rest: "", isLive: false });
        if (!this.hasRead)
            this.onState("reading", "");
        this.process = cockpit.spawn(linesCommand(this.gateway), { superuser: "try", err: "message" });
        this.process.stream(text => this.takeText(text));
        this.process.then(() => this.retry(_("The lines cannot be followed: enogatectl has ended.")),
                          error => this.retry(failureText(error)));
    }

    /** Takes the lines that end with this text. The first empty line is after the earlier ones. */
    takeText(text) {
        const lines = (this.rest + text).split("\n");
        this.rest = lines.pop().slice(0, LONGEST_LINE);
        for (const raw of lines) {
            if (raw === "" && !this.isLive)
                this.becomeLive();
            else if (this.isLive || !this.hasRead)
                this.takeLine(parseLine(raw));
        }
    }

    becomeLive() {
        Object.assign(this, { isLive: true, hasRead: true });
        if (!this.isStopped)
            this.onState("live", "");
    }

    takeLine(line) {
        if (line)
            this.onLine(line, this.isLive ? Date.now() : null);
    }
}
