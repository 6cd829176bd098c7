// The first section: is everything all right, and what needs attention?

import { _, format } from "./cockpit.js";
import { openService, readFile, runCommand } from "./commands.js";
import { button, byId, element, Rows, saveFile, setText } from "./dom.js";
import { findProblems, hasLittleSpace, heardSentence, verdictOf } from "./health.js";
import { COUNTERS } from "./lines.js";
import { backupCommand, failureText, reasonOf } from "./orders.js";
import { baseOf } from "./places.js";
import { TABLES } from "./tables.js";
import * as words from "./words.js";

const SIGN_BY_LEVEL = { bad: "!", warn: "!", info: "i" };
const NEEDS_ADMIN = _("Restart, Stop, Back up and Set up need administrative access.");
const DONE_TEXTS = { restart: _("Restarted at $0."), stop: _("Stopped at $0.") };
const UNKNOWN_TEXT = _("not known yet");
const STICK_TEXTS = new Map([[true, _("plugged in")], [false, _("not plugged in")]]);

/** The base ID that the module has reported, and when. */
export const reportedBase = ({ base, baseTime }, now) =>
    base ? format(_("$0, reported $1"), base, words.ageText(baseTime, now)) : UNKNOWN_TEXT;

export class OverviewSection {
    constructor(page) {
        // What a button has done, for which gateway, and the file that it has written.
        Object.assign(this, { page, done: {} });
        this.rows = new Rows(byId("attention"), (key, problem) => new ProblemRow(problem, page));
        byId("gateway-refresh").addEventListener("click", ({ target }) => page.giveByButton(["list"], target));
        for (const verb of Object.keys(DONE_TEXTS))
            byId(`gateway-${verb}`).addEventListener("click", ({ target }) => this.control(verb, target));
        byId("gateway-backup").addEventListener("click", () => this.backUp());
        byId("gateway-download").addEventListener("click", () => this.download());
        byId("gateway-journal").addEventListener("click", () => openService(page.gateway));
        setText(byId("gateway-version"), TABLES.version);
    }

    /** Restarts or stops the service, and shows when. */
    async control(verb, pressed) {
        const { page, page: { gateway } } = this;
        const why = await page.controlService(verb, pressed);
        this.done = { gateway, output: why ? "" : format(DONE_TEXTS[verb], words.timeText(Date.now())) };
        page.painter.paintNow();
    }

    /** Writes a backup, and shows where. Only root and the user of the gateway may write there, and not its group. */
    backUp() {
        const { page, page: { gateway } } = this;
        const show = (output, error, path = "") => {
            this.done = { gateway, output, path };
            if (gateway === page.gateway)
                page.showError(error);
            page.painter.paintNow();
            byId("gateway-note").scrollIntoView({ block: "nearest" });
        };
        const written = _("Backup written: $0. It is on this computer: keep a copy elsewhere.");
        show("…", "");
        runCommand(backupCommand(gateway), "root").then(
            output => show(format(written, output.trim()), "", output.split(": ")[0]),
            error => show("", failureText(error)));
    }

    /** Gives the backup that was just written to the browser. */
    async download() {
        const { path } = this.done;
        const saved = readFile(path).then(content => saveFile(path.split("/").at(-1), content));
        this.page.showError(await reasonOf(saved));
    }

    paint() {
        const { gateway: name, feedState: { why }, health, settings, model, groups, minutes, space } = this.page;
        const now = Date.now();
        const found = findProblems({ name, why, ...health, settings, model, groups, now, space });
        this.rows.fill(found.map(problem => [JSON.stringify(problem), problem]), () => undefined);
        const [level, title] = verdictOf(found, groups);
        byId("verdict").dataset.level = level;
        setText(byId("verdict-title"), title);
        setText(byId("verdict-text"), heardSentence(groups, model, minutes));
        for (const part of ["heard", "silent", "weak"]) {
            setText(byId(`count-${part}`), String(groups[part].length));
            byId(`count-${part}`).dataset.level = part !== "heard" && groups[part].length ? "warn" : "";
        }
        setText(byId("count-unknown"), String(model.unknown.size));
        this.paintGateway(now);
    }

    paintGateway(now) {
        const { model, health: { states, hasStick }, settings, rights, canOrderNow, space } = this.page;
        const serial = settings.get("SERIAL") || "";
        const stick = STICK_TEXTS.get(hasStick) ?? _("unknown");
        this.showFact("service", words.serviceText(states), states && states.ActiveState === "active");
        this.showFact("stick", serial ? `${stick} (${serial})` : stick, hasStick);
        const set = baseOf(settings);
        this.showFact("base", set || _("as the radio module reports (BASE is empty)"), null);
        this.showFact("module", reportedBase(model, now), set && model.baseTime !== null ? model.base === set : null);
        this.showFact("window", model.mode === null ? UNKNOWN_TEXT : words.modeText(model.mode), null);
        this.showFact("space", space === null ? UNKNOWN_TEXT : `${space} MB`, hasLittleSpace(space) ? false : null);
        byId("gateway-restart").disabled = !rights.isAdmin;
        const note = this.done.gateway === this.page.gateway ? this.done.output : "";
        setText(byId("gateway-note"), note || (rights.permission.allowed === false ? NEEDS_ADMIN : ""));
        byId("gateway-stop").disabled = !rights.isAdmin || ["inactive", "failed"].includes(states?.ActiveState);
        byId("gateway-backup").disabled = !rights.isAdmin || note === "…";
        byId("gateway-download").hidden = !note || !this.done.path;
        byId("gateway-refresh").disabled = !canOrderNow;
        const { counters } = model;
        for (const name of COUNTERS)
            setText(byId(`counter-${name}`), counters ? String(counters[name]) : "–");
        setText(byId("counters-time"), counters ? format(_("(counted at $0)"), words.timeText(counters.time)) : "");
    }

    /** Shows a fact, and whether it is good; null if this is not known. */
    showFact(name, text, isGood) {
        const node = byId(`gateway-${name}`);
        setText(node, text);
        node.dataset.level = isGood === null ? "" : isGood ? "good" : "bad";
    }
}

/** A problem with the button that helps, if there is one. */
class ProblemRow {
    constructor(problem, page) {
        Object.assign(this, { problem, page });
        const { level, text, detail = "", action = "", target } = problem;
        this.act = target ? element("a", { href: target, className: "button" }, _(action))
            : button(_(action), () => page.fixProblem(action, this.act));
        const sign = element("span", { className: "sign", ariaHidden: "true" }, SIGN_BY_LEVEL[level]);
        const more = element("span", { className: "minor" }, detail);
        this.element = element("li", {}, sign, element("div", {}, element("strong", {}, text), " ", more),
                               ...action ? [this.act] : []);
        this.element.dataset.level = level;
    }

    fill({ action, target }) {
        if (!target)
            this.act.disabled = !this.page.mayUseFix(action);
    }
}
