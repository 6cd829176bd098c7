// The dialog that changes the profile and the label of a device, replaces the device, or removes it.

import { addressOf } from "./address.js";
import { _, format } from "./cockpit.js";
import { button, byId, element, onEnter, Rows, setText } from "./dom.js";
import { LabelField } from "./label.js";
import { acceptedId, canHaveProfile, changeDevice, setProfiles } from "./learn.js";
import { reasonOf, replaceCommand } from "./orders.js";
import * as words from "./words.js";

const MAX_SENDERS = 6;

export class EditDialog {
    constructor(page) {
        Object.assign(this, { page, dialog: byId("edit"), newId: byId("edit-new"), profile: byId("edit-profile") });
        this.field = new LabelField("edit", this, () => this.save());
        this.senders = new Rows(byId("edit-senders"), id => senderChoice(id, this.newId));
        this.buttons = ["save", "remove", "sure", "replace", "swap"].map(name => byId(`edit-${name}`));
        onEnter(this.newId, () => this.replace());
        byId("edit-save").addEventListener("click", () => this.save());
        byId("edit-remove").addEventListener("click", () => this.showPart("warning"));
        byId("edit-replace").addEventListener("click", () => this.showPart("replacement"));
        byId("edit-sure").addEventListener("click", () =>
            this.closeAfter(page.give(["remove", this.id]), addressOf("devices")));
        byId("edit-swap").addEventListener("click", () => this.replace());
    }

    /** Opens the dialog of a device; to enter a label, the focus is in the field for it. */
    open(id, { label, eep, misfit }, isForLabel = false) {
        Object.assign(this, { id, eep, label });
        setText(byId("edit-id"), id);
        const fitFirst = [...words.PROFILES.keys()].sort((a, b) => b.startsWith(misfit) - a.startsWith(misfit));
        setProfiles(this.profile, fitFirst, eep);
        setText(byId("edit-result"), "");
        this.field.reset(label);
        this.newId.value = "";
        this.senders.clear();
        this.showPart("");
        this.enableButtons(this.page.canOrderNow);
        this.dialog.showModal();
        if (isForLabel)
            this.field.input.focus();
    }

    /** Shows what has to be known before the device is removed or replaced, or nothing. */
    showPart(part) {
        byId("edit-warning").hidden = part !== "warning";
        byId("edit-remove").hidden = part === "warning";
        byId("edit-replacement").hidden = part !== "replacement";
        byId("edit-replace").hidden = part === "replacement";
        byId("edit-save").hidden = this.field.input.disabled = this.profile.disabled = part !== "";
        this.paint();
    }

    enableButtons(isEnabled) {
        this.buttons.forEach(target => { target.disabled = !isEnabled; });
    }

    save() {
        const text = this.field.label();
        if (text !== null && !byId("edit-save").disabled && !byId("edit-save").hidden)
            this.closeAfter(changeDevice(this.page, this, this.profile.value, text));
    }

    /** Replaces the device, and opens the view of the new one. */
    replace() {
        const id = acceptedId(this.newId);
        if (id === null || byId("edit-swap").disabled)
            return;
        const { page } = this;
        const other = page.model.devices.get(id);
        // A device with this profile and no other label may be one whose replacement was interrupted.
        if (other && (other.eep !== this.eep || !["", this.label].includes(other.label))) {
            const text = _("$0 is already learned: $1. Choose another device, or remove $1 first.");
            setText(byId("edit-result"), format(text, id, other.label || words.kindOfProfile(other.eep) || other.eep));
            return;
        }
        this.closeAfter(page.runCommand(replaceCommand(page.gateway, this.id, id)), addressOf("device", id));
    }

    /** Closes the dialog once an order is carried out. Opens a view, if one is named and nobody has left this one. */
    async closeAfter(given, address = "") {
        const { id } = this;
        this.enableButtons(false);
        setText(byId("edit-result"), "…");
        const why = await reasonOf(given);
        setText(byId("edit-result"), why);
        if (!why) {
            this.dialog.close();
            await this.page.refresh();
            if (address && this.page.part === id)
                this.page.openAddress(address);
        }
        this.enableButtons(this.page.canOrderNow);
    }

    /** Shows the senders that may be the new device, the newest first: also those that were just learned. */
    paint() {
        if (!this.dialog.open || byId("edit-replacement").hidden)
            return;
        const { devices, unknown } = this.page.model;
        const found = [...[...devices].filter(([id, { eep, label }]) => id !== this.id && eep === this.eep && !label),
                       ...[...unknown].filter(([, sender]) => canHaveProfile(sender, this.eep))].reverse()
                .sort(([, a], [, b]) => (b.received ?? 0) - (a.received ?? 0));
        this.senders.fill(found.slice(0, MAX_SENDERS));
        setText(byId("edit-no-sender"), found.length ? "" : _("No new device of this kind was heard yet."));
    }
}

/** A button that enters the ID of a sender. */
function senderChoice(id, field) {
    const [made, age] = [button(id, () => { field.value = id; }), element("span", { className: "minor" })];
    made.className = "mono";
    made.append(age);
    return { element: made, fill: ({ received }) => setText(age, words.ageText(received, Date.now())) };
}
