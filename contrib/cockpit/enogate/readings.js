// The readings of a device as elements: chips in a list, and tiles with plots in the view of a device.

import { _, format, ngettext } from "./cockpit.js";
import { element, Rows, setText } from "./dom.js";
import { signalBars } from "./health.js";
import { Plot } from "./plot.js";
import * as words from "./words.js";

// Units that say what was measured: a list shows no name.
const UNITS_WITHOUT_NAME = new Set(["°C", "lx", "ppm", "kWh", "Wh", "W", "m³", "L/s"]);

/** Shows the bars of a signal, and its number. */
export function setSignal(node, dbm) {
    node.dataset.bars = signalBars(dbm);
    setText(node, words.signalText(dbm));
}

/** A reading: its name, value and unit. It has a plot if it has numbers, and a tile also has their range. */
class ReadingElement {
    constructor(isTile) {
        this.name = element("span", { className: "name" });
        this.value = element("strong");
        this.unit = element("span", { className: "unit" });
        this.element = element("div", { className: isTile ? "tile" : "chip" },
                               this.name, " ", this.value, " ", this.unit);
        this.plot = null;
        this.range = isTile ? element("span", { className: "minor" }) : "";
    }

    fill([eep, item]) {
        const { name, value, unit } = words.readingParts(eep, item);
        setText(this.name, name);
        setText(this.value, value);
        setText(this.unit, unit);
        this.element.classList.toggle("plain", UNITS_WITHOUT_NAME.has(unit) && !words.hasChannels(eep));
        if (item.values.length > 1)
            this.draw(item.values);
    }

    draw(values) {
        if (!this.plot) {
            this.plot = new Plot();
            this.element.append(this.plot.element, this.range);
        }
        const [count, since] = [values.length, words.timeText(values[0][0])];
        this.plot.fill(values, format(ngettext("$0 value since $1", "$0 values since $1", count), count, since));
        const numbers = values.map(([, number]) => number);
        const [least, greatest] = [Math.min(...numbers), Math.max(...numbers)].map(words.decimalText);
        if (this.range)
            setText(this.range, format(_("$0 to $1 since $2"), least, greatest, since));
    }
}

/** The readings of a device in an element. Each one keeps its place. */
class ReadingList extends Rows {
    constructor(place, isTile, choose) {
        super(place, () => new ReadingElement(isTile), false);
        this.choose = choose;
    }

    show({ eep, readings }) {
        const wanted = new Set(this.choose(eep, [...readings.values()]));
        const keys = [...new Set([...this.rows.keys(), ...readings.keys()])];
        this.fill(keys.filter(key => wanted.has(readings.get(key))).map(key => [key, [eep, readings.get(key)]]));
    }
}

const detailReadings = (eep, readings, shown = words.shownReadings(eep, readings)) =>
    readings.filter(one => !shown.includes(one));

/** The readings that people need to see, in a list and in the view of a device; and there the other ones. */
export const readingChips = place => new ReadingList(place, false, words.shownReadings);
export const readingTiles = place => new ReadingList(place, true, words.shownReadings);
export const detailReadingChips = place => new ReadingList(place, false, detailReadings);
