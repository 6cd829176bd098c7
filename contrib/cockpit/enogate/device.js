// The view of one device.

import { _, format } from "./cockpit.js";
import { Controls } from "./controls.js";
import { lastHeardText } from "./devices.js";
import { byId, Rows, setText, showText } from "./dom.js";
import { EditDialog } from "./edit.js";
import { wasHeard } from "./model.js";
import { PacketRow } from "./packets.js";
import { detailReadingChips, readingTiles, setSignal } from "./readings.js";
import * as words from "./words.js";

const MAX_PACKETS = 12;

export class DeviceSection {
    constructor(page) {
        this.page = page;
        this.dialog = new EditDialog(page);
        this.rows = new Rows(byId("device-packets"), (key, packet) => new PacketRow(packet, page), false);
        this.readings = [readingTiles(byId("device-readings")), detailReadingChips(byId("device-details"))];
        byId("device-edit").addEventListener("click", () => this.dialog.open(this.id, this.device));
        this.leave();
    }

    leave() {
        Object.assign(this, { id: null, device: null, eep: null, controls: null });
        [this.rows, ...this.readings].forEach(list => list.clear());
    }

    paint() {
        const { model, part: shownId } = this.page;
        if (shownId !== this.id) {
            this.leave();
            this.id = shownId;
        }
        // A device that has just been removed remains in the dialog.
        const device = model.devices.get(this.id);
        byId("device-card").hidden = !device;
        byId("device-gone").hidden = Boolean(device) || !model.areDevicesKnown;
        if (!device)
            return;
        this.device = device;
        if (this.eep !== device.eep)
            this.setProfile(device.eep);
        this.fill(device, Date.now());
        const packets = model.packets.filter(({ line }) => line.id === this.id).slice(-MAX_PACKETS).reverse();
        this.rows.fill(packets.map(packet => [packet.number, packet]));
        byId("device-log").hidden = !packets.length;
    }

    fill(device, now) {
        setText(byId("device-label"), words.labelText(device));
        setText(byId("device-id"), this.id);
        setText(byId("device-age"), format(_("last telegram: $0"), lastHeardText(device, now)));
        byId("device-age").classList.toggle("warn", this.page.isQuiet(device));
        byId("device-unheard").hidden = wasHeard(device);
        setSignal(byId("device-signal"), device.dbm);
        this.readings.forEach(readings => readings.show(device));
        this.controls?.fill(device, now);
    }

    setProfile(eep) {
        this.eep = eep;
        const { abilities, interval } = words.PROFILES.get(eep) ?? {};
        setText(byId("device-profile"), words.profileWithKind(eep));
        const usual = _("usually sends at least every $0");
        showText(byId("device-interval"), interval ? format(usual, words.durationText(interval)) : "");
        this.controls = abilities ? new Controls(this.id, abilities, true, this.page) : null;
        byId("device-act").hidden = !this.controls;
        byId("device-act").replaceChildren(...this.controls ? [this.controls.element] : []);
    }
}
