// The section of the packets: a log with the newest ones on top.

import { addressOf } from "./address.js";
import { _, format, ngettext } from "./cockpit.js";
import { byId, element, Rows, rowWithCells, setText, showText } from "./dom.js";
import { MAX_PACKETS } from "./model.js";
import * as words from "./words.js";

const MAX_SHOWN_ROWS = 100;

/** The packets of the devices whose ID, label or profile has this text. */
export function matchingPackets(packets, devices, text) {
    return packets.filter(({ line: { id = "" } }) => {
        const { label = "", eep = "" } = devices.get(id) ?? {};
        return words.matchesSearch(text, id, label, words.profileWithKind(eep));
    });
}

export class PacketsSection {
    constructor(page) {
        this.page = page;
        this.paused = null;
        this.rows = new Rows(byId("packets-rows"), (key, packet) => new PacketRow(packet, page));
        byId("packets-pause").addEventListener("click", () => this.togglePause());
    }

    togglePause() {
        this.paused = this.paused ? null : [...this.page.model.packets];
        setText(byId("packets-pause"), this.paused ? _("Continue") : _("Pause"));
        this.page.painter.paintNow();
    }

    clear() {
        if (this.paused)
            this.togglePause();
    }

    /** Shows the packets. Returns how many the search hides, if it hides all of them. */
    paint() {
        const { model, query } = this.page;
        const packets = this.paused || model.packets.slice(-MAX_PACKETS);
        const found = matchingPackets(packets, model.devices, query);
        this.rows.fill(found.slice(-MAX_SHOWN_ROWS).map(packet => [packet.number, packet]).reverse());
        setText(byId("packets-note"), this.note(model, found.length));
        return found.length ? 0 : packets.length;
    }

    note({ hasPackets }, count) {
        if (!hasPackets)
            return words.NO_PACKETS;
        const number = Math.min(count, MAX_SHOWN_ROWS);
        const shown = format(ngettext("The last packet is shown, of the last $1.",
                                      "The last $0 packets are shown, of the last $1.", number), number, MAX_PACKETS);
        const hint = _("The list stands still while the pointer is on it.");
        const hints = matchMedia("(pointer: coarse)").matches ? [] : [hint];
        return (this.paused ? [_("Paused."), shown] : [shown, ...hints]).join(" ");
    }
}

/** Fills the cell of a sender in a log. Returns what shows the label of its device: a link to the view of that. */
export function fillSenderCell(cell, id = "") {
    const link = element("a", { href: addressOf("device", id), className: "label" });
    cell.append(link, element("span", { className: "mono minor" }, id));
    return device => showText(link, device ? words.labelText(device) : "");
}

/** A packet, with its readings if it had some. */
export class PacketRow {
    constructor({ line, time }, page) {
        const [row, [clock, device, why, kind, payload, signal]] =
            rowWithCells("time mono", "device", "why", "kind minor", "payload mono minor", "dbm minor");
        Object.assign(this, { element: row, why, line, page, showDevice: fillSenderCell(device, line.id) });
        row.dataset.why = line.why;
        setText(clock, words.timeText(time));
        setText(kind, line.id ? words.kindText(line.rorg) : format(_("packet of type $0"), line.kind));
        setText(payload, line.id ? `${line.payload} ${line.status}`
            : format(ngettext("$0 byte", "$0 bytes", line.size), line.size));
        payload.title = payload.textContent;
        setText(signal, line.id ? words.signalText(line.dbm) : "");
    }

    fill({ readings }) {
        const device = this.page.model.devices.get(this.line.id);
        this.showDevice(device);
        const hasReadings = readings && device;
        setText(this.why, hasReadings ? words.shownReadingsText(device.eep, readings) : words.reasonText(this.line.why));
    }
}
