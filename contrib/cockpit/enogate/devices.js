// The section of the learned devices: a line for each, with its readings and buttons.

import { addressOf } from "./address.js";
import { _, format } from "./cockpit.js";
import { Controls } from "./controls.js";
import { byId, element, Rows, rowWithCells, setText, showText } from "./dom.js";
import { withHeadings } from "./grouping.js";
import { lastHeardTime, MAX_DEVICES, wasHeard } from "./model.js";
import { readingChips, setSignal } from "./readings.js";
import { compareTexts, Sorting } from "./sorting.js";
import * as words from "./words.js";

// The browser stores whether the devices are grouped.
const STORED_GROUPING = "enogate-grouping";

/** How two devices are sorted by a column: the weakest signal comes first. Devices without a value come last. */
export const COLUMNS = new Map([
    ["label", ([, a], [, b]) => compareTexts(a.label || "~", b.label || "~")],
    ["id", ([a], [b]) => compareTexts(a, b)],
    ["profile", ([, a], [, b]) => compareTexts(a.eep, b.eep)],
    ["signal", ([, a], [, b]) => (a.dbm ?? Infinity) - (b.dbm ?? Infinity) || 0],
    ["received", ([, a], [, b]) => (lastHeardTime(b) ?? 0) - (lastHeardTime(a) ?? 0)],
]);

/** The devices whose ID, label or profile has this text. */
export const matchingDevices = (devices, text) =>
    [...devices].filter(([id, { label, eep }]) => words.matchesSearch(text, id, label, words.profileWithKind(eep)));

/** How long ago a device was heard. */
export const lastHeardText = (device, now) =>
    wasHeard(device) ? words.ageText(lastHeardTime(device), now) : _("none known");

export class DevicesSection {
    constructor(page) {
        this.page = page;
        this.rows = new Rows(byId("devices-rows"), (key, item) =>
            item.title === undefined ? new DeviceRow(key, page) : headingRow());
        this.grouping = byId("devices-group");
        this.grouping.checked = localStorage.getItem(STORED_GROUPING) === "true";
        this.grouping.addEventListener("change", () => {
            localStorage.setItem(STORED_GROUPING, String(this.grouping.checked));
            page.painter.paintNow();
        });
        this.states = [...document.querySelectorAll("#devices-states a")];
        const headings = document.querySelectorAll("#devices th[data-column]");
        const still = ["signal", "received"];
        this.sorting = new Sorting(COLUMNS, byId("devices-sort"), headings, () => page.painter.paintNow(), still);
    }

    /** The devices are sorted again when the section is opened. */
    leave() {
        this.sorting.places.clear();
    }

    /** Shows the devices. Returns how many the search hides, if it hides all of them. */
    paint() {
        const { model, groups, part, query } = this.page;
        const shownState = part || "all";
        for (const link of this.states) {
            const { state } = link.dataset;
            link.setAttribute("aria-current", String(state === shownState));
            setText(link.lastElementChild, String(groups[state].length));
        }
        const found = this.sorting.sorted(matchingDevices(groups[shownState], query));
        this.rows.fill(this.grouping.checked ? withHeadings(found, groups.all) : found, id => model.devices.get(id));
        const isEmpty = this.rows.shown.length === 0;
        byId("devices-table").hidden = isEmpty;
        byId("devices-none").hidden = !isEmpty;
        byId("devices-none-add").hidden = model.devices.size > 0;
        const none = model.areDevicesKnown ? _("No device is learned yet") : _("The devices are not known yet");
        const noMatch = shownState === "silent" && !groups.silent.length ? _("No device is silent")
            : _("No device matches");
        setText(byId("devices-none-title"), model.devices.size ? noMatch : none);
        showText(byId("devices-note"), this.note(model));
        return found.length ? 0 : groups[shownState].length;
    }

    note(model) {
        const notes = [];
        if (model.devicesLeftOut)
            notes.push(format(_("Only $0 devices are shown."), MAX_DEVICES));
        if (!model.areDevicesKnown)
            notes.push(_("Only the devices in the last lines are shown: no list of all devices has been read."));
        else if (!model.isListed)
            notes.push(_("Devices and labels are those of the last list."));
        return notes.join(" ");
    }
}

/** The row with the heading of a group. */
function headingRow() {
    const cell = element("th", { colSpan: 5, scope: "rowgroup" });
    return { element: element("tr", { className: "heading" }, cell),
             fill: ({ title, count }) => setText(cell, `${title} (${count})`) };
}

class DeviceRow {
    constructor(id, page) {
        const [row, [name, profile, readings, signal, age]] =
            rowWithCells("device", "profile", "readings", "signal", "age");
        Object.assign(this, { element: row, id, page, signal, age, eep: null, controls: null });
        row.dataset.id = id;
        this.link = element("a", { href: addressOf("device", id), className: "label" });
        name.append(this.link, element("span", { className: "mono minor" }, id));
        this.code = element("span", { className: "mono code" });
        this.kind = element("span", { className: "minor" });
        profile.append(this.code, this.kind);
        this.values = element("div");
        readings.append(element("div", {}, this.values));
        this.readings = readingChips(this.values);
    }

    fill(device) {
        const now = Date.now();
        if (this.eep !== device.eep)
            this.setProfile(device.eep);
        setText(this.link, words.labelText(device));
        this.readings.show(device);
        this.controls?.fill(device, now);
        setSignal(this.signal, device.dbm);
        setText(this.age, lastHeardText(device, now));
        this.element.classList.toggle("quiet", this.page.isQuiet(device));
    }

    setProfile(eep) {
        this.eep = eep;
        setText(this.code, eep);
        setText(this.kind, words.kindOfProfile(eep));
        this.kind.title = this.kind.textContent;
        const { abilities } = words.PROFILES.get(eep) ?? {};
        this.controls = abilities ? new Controls(this.id, abilities, false, this.page) : null;
        this.values.parentElement.replaceChildren(this.values, ...this.controls ? [this.controls.element] : []);
    }
}
