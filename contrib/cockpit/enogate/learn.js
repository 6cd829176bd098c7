// The dialog that learns a sender.

import { _, format } from "./cockpit.js";
import { acceptField, byId, onEnter, setOptions, setText, showText } from "./dom.js";
import { LabelField } from "./label.js";
import { idCharacters, idIn, labelOrder, reasonOf } from "./orders.js";
import * as words from "./words.js";

/** Whether a sender can have this profile. A teach-in query (UTE) may ask for any kind. */
export const canHaveProfile = ({ rorg, eep }, profile) =>
    profile.startsWith(rorg === "D4" ? eep?.slice(0, 2) ?? "" : rorg);

/** The profiles of the kind of a sender. */
export const profilesFor = sender => [...words.PROFILES.keys()].filter(profile => canHaveProfile(sender, profile));

/** Shows a list of profiles. Unless one of them is selected, or there is only one, somebody has to choose. */
export function setProfiles(select, profiles, selected) {
    const first = profiles.includes(selected) ? selected : profiles.length === 1 ? profiles[0] : "";
    const options = profiles.map(words.profileOption);
    setOptions(select, first ? options : [["", _("Choose the profile …")], ...options], first);
}

const ID_RULE = _("The ID has 8 characters (0-9, A-F).");
const WRONG_LENGTH = _("The ID has 8 characters (0-9, A-F); this one has $0.");
const PROFILE_RULE = _("Choose the profile: the data sheet of the device names it.");
// A sender that was not heard may have any profile.
const UNHEARD = { rorg: "", eep: null };

/** The ID in a field; null if there is none, and the browser then says so. */
export function acceptedId(field) {
    const [id, { length }] = [idIn(field.value), idCharacters(field.value)];
    const why = length && length !== 8 ? format(WRONG_LENGTH, length) : ID_RULE;
    return acceptField(field, id ? "" : why) ? id : null;
}

/**
 * Gives the orders for a profile and a label that a device does not have yet. There is no profile if that of the device
 * is not supported, and so no option of the list.
 */
export async function changeDevice(page, device, eep, label) {
    if (eep && eep !== device.eep) {
        await page.give(["add", device.id, eep]);
        device.eep = eep;
    }
    if (label !== device.label)
        await page.give(labelOrder(device.id, label));
}

export class LearnDialog {
    constructor(page) {
        // The sender that was heard, and the device that the dialog has learned, if there is one.
        Object.assign(this, { page, heard: null, learned: null, dialog: byId("learn"), idField: byId("learn-new") });
        // The device that the dialog may change: a learned one for which it was opened, or that it has learned itself.
        Object.assign(this, { sender: UNHEARD, own: null, profile: byId("learn-profile") });
        this.field = new LabelField("learn", this, () => this.learn());
        onEnter(this.idField, () => this.learn());
        byId("learn-go").addEventListener("click", () => this.learn());
        byId("learn-by-id").addEventListener("click", () => this.open(null, UNHEARD));
        this.dialog.addEventListener("input", () => this.enable());
        this.profile.addEventListener("change", () => this.enable());
    }

    get id() {
        return this.heard ?? idIn(this.idField.value);
    }

    /** Why the ID is refused: it is that of another device, which is learned. Empty if there is no such reason. */
    get refusal() {
        const device = this.id !== this.own && this.page.model.devices.get(this.id);
        const text = _("$0 is already learned: $1. Correct the ID, or use Edit.");
        return device ? format(text, this.id, words.labelAndKind(device)) : "";
    }

    /** Opens the dialog for a sender that was heard, or without its ID: then it is entered. */
    open(id, sender) {
        const device = this.page.model.devices.get(id);
        Object.assign(this, { heard: id, own: device ? id : null, sender });
        setText(byId("learn-id"), id ?? "");
        byId("learn-sender").hidden = id !== null;
        this.idField.value = "";
        const likely = sender.eep ?? (sender.rorg === "F6" ? words.USUAL_SWITCH : "");
        setProfiles(this.profile, profilesFor(sender), device?.eep ?? likely);
        setText(byId("learn-result"), "");
        this.field.reset("");
        this.enable();
        this.dialog.showModal();
        this.paint();
    }

    /** A device that was learned can be learned again, with another profile or label, after the answer to an order. */
    enable() {
        Object.assign(this, { learned: null, own: this.id === this.own ? this.own : null });
        if (byId("learn-result").textContent === "…")
            return;
        byId("learn-hint").hidden = true;
        setText(byId("learn-result"), this.refusal);
        byId("learn-go").disabled = !this.page.canOrderNow || this.refusal !== "";
    }

    async learn() {
        const id = this.heard ?? acceptedId(this.idField);
        const eep = id && acceptField(this.profile, this.profile.value ? "" : PROFILE_RULE) && this.profile.value;
        const label = eep ? this.field.label() : null;
        if (label === null || byId("learn-go").disabled || this.refusal)
            return;
        byId("learn-go").disabled = true;
        setText(byId("learn-result"), "…");
        this.own = id;
        const why = await reasonOf(changeDevice(this.page, { id, label: "" }, eep, label));
        byId("learn-go").disabled = !why;
        const done = _("Learned. Press the button of the device again to see its first reading.");
        setText(byId("learn-result"), why || done);
        if (!why) {
            this.learned = id;
            byId("learn-hint").hidden = !words.PROFILES.get(eep).abilities && this.sender.rorg !== "D4";
            this.page.refresh();
        }
    }

    /** Shows what was heard, since its row may have moved before the click; and the first reading. */
    paint() {
        const { devices, unknown } = this.page.model;
        const { rorg, received, count } = unknown.get(this.heard) ?? this.sender;
        showText(byId("learn-heard"), !count || devices.has(this.id) ? ""
            : `${words.kindText(rorg)}, ${words.ageText(received, Date.now())}, ${count} ×`);
        if (this.refusal)
            this.enable();
        const device = devices.get(this.learned);
        if (device?.readings.size)
            setText(byId("learn-result"), format(_("Learned. Its reading: $0"), words.stateText(device)));
    }
}
