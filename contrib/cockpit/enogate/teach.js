// The learn window: it is opened for a time, which is counted down.

import { _, format, ngettext } from "./cockpit.js";
import { button, byId, Rows, rowWithCells, setOptions, setText, showText } from "./dom.js";
import { failureText, windowCommand } from "./orders.js";
import { fillSenderCell } from "./packets.js";
import * as words from "./words.js";

const WINDOW_SECONDS = 120;

export class LearnWindowCard {
    constructor(page) {
        this.page = page;
        this.rows = new Rows(byId("teach-rows"), (key, item) => new ResultRow(item, page));
        this.resetWindow();
        setOptions(byId("teach-profile"), [...words.PROFILES.keys()].map(words.profileOption), words.USUAL_SWITCH);
        // Whoever opens the list means it, also if the first profile is right. A key that only moves on does not count.
        for (const event of ["input", "change", "pointerdown", "click", "keydown"]) {
            byId("teach-profile").addEventListener(event, ({ key }) => {
                byId("teach-as").checked ||= key !== "Tab" && key !== "Shift";
            });
        }
        byId("teach-open").addEventListener("click", () => this.open());
        byId("teach-close").addEventListener("click", () => this.close());
        // After the click, neither the pointer nor the focus is among the results.
        byId("teach-new").addEventListener("click", () => page.painter.paintNow());
        byId("teach-bar").max = WINDOW_SECONDS;
    }

    /** The order that opens the window as the user has chosen. */
    openingOrder() {
        if (byId("teach-as").checked)
            return ["learn", "as", byId("teach-profile").value];
        return byId("teach-answer").checked ? ["learn", "on", "answer"] : ["learn", "on"];
    }

    /** Opens the window. The command closes it after the time, or when it is closed itself, as if the page is left. */
    open() {
        if (this.process)
            return;
        const process = this.page.runCommand(windowCommand(this.page.gateway, this.openingOrder(), WINDOW_SECONDS));
        Object.assign(this, { process, learned: "" });
        byId("teach-list").scrollTop = 0;
        process.then(() => this.handleEnd(process, null), error => this.handleEnd(process, error));
        this.page.painter.paintNow();
    }

    /**
     * Takes a line. enogatectl asks for the status after each order, so a new line reports that the window is open. If
     * none does after a device was learned, the window was for this device, and the gateway has closed it.
     */
    takeLine({ type, mode, result, id }, now) {
        if (this.process && now !== null && type === "status" && mode !== "closed") {
            this.until ??= now + WINDOW_SECONDS * 1000;
            this.learned = "";
        }
        if (this.until && type === "teach" && result === "accepted")
            this.learned = id;
    }

    /** The command has ended. The error of a command for another gateway is not shown. */
    handleEnd(process, error) {
        if (process !== this.process)
            return;
        this.resetWindow();
        if (error?.problem !== "cancelled")
            this.page.showError(error ? failureText(error) : "");
        this.page.refresh();
    }

    /** There is no window of the page. */
    resetWindow() {
        Object.assign(this, { process: null, until: null });
    }

    /** Closes the window, whoever opened it. Another one can be opened once the command has ended. */
    close() {
        this.process?.close();
        this.page.giveByButton(["learn", "off"], byId("teach-close"));
    }

    /** Forgets the gateway: the window that the page has opened there is closed. */
    clear() {
        this.learned = "";
        this.process?.close();
        this.resetWindow();
    }

    /** For how many seconds the window remains open; null if this is not known. */
    secondsLeft() {
        return this.until === null ? null : Math.max(0, Math.ceil((this.until - Date.now()) / 1000));
    }

    paint() {
        const { model, canOrderNow } = this.page;
        const isOpen = this.process !== null || model.isWindowOpen;
        byId("teach-closed").hidden = isOpen;
        byId("teach-opened").hidden = !isOpen;
        byId("teach-open").disabled = byId("teach-close").disabled = !canOrderNow;
        const seconds = this.secondsLeft();
        const unknown = this.process ? _("opening …") : _("open");
        setText(byId("teach-left"), seconds === null ? unknown : words.countdownText(seconds));
        byId("teach-bar").hidden = seconds === null;
        byId("teach-bar").value = seconds ?? WINDOW_SECONDS;
        const [, profile] = model.mode?.match(/^as (.*)/) ?? [];
        const text = profile ? _("Press any button of the device ($0).")
            : _("Press the learn button of the device now.");
        setText(byId("teach-mode"), format(text, words.profileWithKind(profile)));
        const done = _("$0 was learned, so the learn window is closed.");
        showText(byId("teach-learned"), this.learned ? format(done, this.learned) : "");
        this.paintResults(model);
    }

    /** Shows the results, and scrolls to a new one. While the list is in use, a button says how many are missing. */
    paintResults({ taught }) {
        const [[newest] = []] = this.rows.shown;
        this.rows.fill(taught.map(item => [item.number, item]).reverse());
        const [[first] = []] = this.rows.shown;
        if (first !== newest)
            byId("teach-list").scrollTop = 0;
        const count = taught.filter(({ number }) => number > first).length;
        const text = ngettext("Show the new result", "Show $0 new results", count);
        showText(byId("teach-new"), count ? format(text, count) : "");
        byId("teach-results").hidden = !taught.length;
    }
}

/** A teach-in result. Its device can be labelled there, and a sender that was not learned can be learned. */
class ResultRow {
    constructor({ line, time }, page) {
        const [row, [clock, sender, profile, why, action]] =
            rowWithCells("time mono", "device", "profile", "why", "action");
        Object.assign(this, { element: row, line, page, button: button("", () => this.openDialog()) });
        row.dataset.why = line.result;
        this.showDevice = fillSenderCell(sender, line.id);
        setText(clock, words.timeText(time));
        setText(profile, line.eep === null ? _("profile not sent") : words.profileWithKind(line.eep));
        setText(why, words.resultText(line.result));
        action.append(this.button);
    }

    fill({ line: { id } }) {
        const { devices, unknown } = this.page.model;
        Object.assign(this, { device: devices.get(id), sender: unknown.get(id) });
        this.showDevice(this.device);
        showText(this.button, this.device ? _("Label …") : this.sender ? _("Learn …") : "");
    }

    openDialog() {
        const { device, add } = this.page.sections;
        // Only the dialog of a device has a choice of what is to be entered: here it is the label.
        (this.device ? device : add).dialog.open(this.line.id, this.device ?? this.sender, true);
    }
}
