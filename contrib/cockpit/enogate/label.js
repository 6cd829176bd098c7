// A field for a label in a dialog.

import { _, format } from "./cockpit.js";
import { acceptField, byId, onEnter, showText } from "./dom.js";
import { isLabel, LONGEST_LABEL } from "./orders.js";
import { TABLES } from "./tables.js";

const LABEL_RULE = _("Use 1 to 32 ASCII characters.");
const NOT_ASCII =
    _("The gateway cannot store this label: it has characters that are not ASCII, such as ä or ß.");
const SPELLINGS = new Map(TABLES.spelling);

/** A text as a label that the gateway can store; empty if it has no characters for that. */
export function asciiSpelling(text) {
    const german = text.normalize("NFC").replace(/./gu, letter => SPELLINGS.get(letter) ?? letter).replace(/\s/g, " ");
    const ascii = german.normalize("NFD").replace(/[^ -~]/g, "").replace(/ +/g, " ").trim();
    return (text === text.toUpperCase() ? ascii.toUpperCase() : ascii).slice(0, LONGEST_LABEL).trim();
}

export class LabelField {
    /** The dialog of a device has a field for the label, and a button for another spelling of it. Enter does `act`. */
    constructor(name, dialog, act) {
        this.dialog = dialog;
        this.input = byId(`${name}-label`);
        this.offer = byId(`${name}-spelling`);
        this.error = byId(`${name}-label-error`);
        onEnter(this.input, act);
        this.input.addEventListener("input", () => this.offerSpelling());
        this.offer.addEventListener("click", () => {
            this.reset(this.spelling);
            this.input.focus();
        });
    }

    /** Shows this label. */
    reset(text) {
        this.input.value = text;
        this.offerSpelling();
    }

    /** Says what is wrong with a label, and offers a spelling in place of one that the gateway cannot store. */
    offerSpelling() {
        const text = this.input.value.trim();
        this.spelling = isLabel(text) ? "" : asciiSpelling(text);
        showText(this.offer, this.spelling && format(_("Use “$0”"), this.spelling));
        showText(this.error, isLabel(text) ? this.warningOf(text) : NOT_ASCII);
        this.error.className = isLabel(text) ? "warn" : "error";
        this.input.setAttribute("aria-invalid", String(!isLabel(text)));
    }

    /** Warns of a label that another device has. It can be stored all the same. */
    warningOf(text) {
        const { page: { model }, id } = this.dialog;
        const [other] = [...model.devices].find(([key, { label }]) => text && label === text && key !== id) ?? [];
        return other ? format(_("$0 has this label, too. Orders then need the ID in place of the label."), other) : "";
    }

    /** The label, or null if the gateway cannot store it; the page or the browser then says why. */
    label() {
        const text = this.input.value.trim();
        this.offerSpelling();
        if (!isLabel(text) && this.spelling)
            this.offer.focus();
        else if (acceptField(this.input, isLabel(text) ? "" : LABEL_RULE))
            return text;
        return null;
    }
}
