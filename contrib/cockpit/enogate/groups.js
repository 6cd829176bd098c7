// The view of the groups: orders to all actuators that have learned one. No actuator answers these.

import { _, format } from "./cockpit.js";
import { acceptField, byId, setText } from "./dom.js";
import { wholeNumberIn } from "./orders.js";
import * as words from "./words.js";

/** The order of each button, made of the group, which is an offset from the base ID, the percentage and the time. */
const ORDERS = new Map([
    ["on", group => ["central", group, "on"]], ["off", group => ["central", group, "off"]],
    ["level", (group, percent, seconds) => ["level", group, percent, seconds]], ["teach", group => ["teach", group]],
]);

/** The number in a field; null if it is out of its range, which the browser then shows. */
function numberInField(field) {
    const number = wholeNumberIn(field.value, Number(field.max));
    acceptField(field, number === null ? format(_("Enter a whole number from 0 to $0."), field.max) : "");
    return number;
}

export class GroupsSection {
    constructor(page) {
        this.page = page;
        this.fields = ["number", "percent", "ramp"].map(name => byId(`groups-${name}`));
        for (const [name, order] of ORDERS)
            byId(`groups-${name}`).addEventListener("click", () => this.give(order));
    }

    /** Gives the order that this function makes of the numbers that it needs. */
    async give(orderOf) {
        const numbers = this.fields.slice(0, orderOf.length).map(numberInField);
        if (numbers.includes(null))
            return;
        setText(byId("groups-result"), "…");
        const error = await this.page.orderError(orderOf(...numbers));
        setText(byId("groups-result"), error || format(_("Sent at $0."), words.timeText(Date.now())));
    }

    clear() {
        setText(byId("groups-result"), "");
    }

    paint() {
        for (const name of ORDERS.keys())
            byId(`groups-${name}`).disabled = !this.page.canOrderNow;
    }
}
