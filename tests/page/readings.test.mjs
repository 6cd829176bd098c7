import assert from "node:assert/strict";
import { test } from "node:test";

import { Model } from "../../contrib/cockpit/enogate/model.js";
import "./page.mjs";
import { READING } from "./samples.mjs";

const { detailReadingChips, readingChips, readingTiles, setSignal } =
    await import("../../contrib/cockpit/enogate/readings.js");

const number = (name, num, unit) => ({ name, num, den: 1, unit });
const place = () => document.createElement("div");

/** A device that has sent these readings, each list in a telegram. */
function device(eep, ...telegrams) {
    const model = new Model(0);
    telegrams.forEach((readings, time) => model.take({ ...READING, eep, readings }, 1000 * time));
    return model.devices.get(READING.id);
}

const SWITCH = [{ name: "IO", raw: 1 }, { name: "PFD", raw: 0 }, number("OV", 100, "%")];

test("a reading is its name, its value and its unit, and is filled again", () => {
    const shown = place();
    const readings = readingChips(shown);
    readings.show(device("A5-04-01", [number("HUM", 50, "%"), number("TMP", 20, "C")]));
    assert.equal(shown.textContent, "Humidity 50 %Temperature 20 °C");
    const [humidity, temperature] = shown.children;
    readings.show(device("A5-04-01", [number("TMP", 21, "C"), number("HUM", 51, "%")]));
    assert.deepEqual(shown.children, [humidity, temperature]);
    assert.equal(temperature.textContent, "Temperature 21 °C");
    // The unit says what was measured, but "%" does not.
    assert.deepEqual(shown.children.map(({ classList }) => classList.contains("plain")), [false, true]);
    readings.show(device("A5-04-01", [number("HUM", 52, "%")]));
    assert.equal(shown.textContent, "Humidity 52 %");
    readings.show(device("A5-04-01", [number("HUM", 52, "%"), number("TMP", 9, "C")]));
    assert.equal(shown.textContent, "Humidity 52 %Temperature 9 °C");
});

test("details are shown apart in the view of a device, and each reading once", () => {
    const [list, main, more] = [place(), place(), place()];
    const both = device("D2-01-12", SWITCH);
    for (const [make, where] of [[readingChips, list], [readingTiles, main], [detailReadingChips, more]])
        make(where).show(both);
    assert.deepEqual([list, main, more].map(({ textContent }) => textContent.trim()),
                     ["channel 1: Output 100 %", "channel 1: Output 100 %",
                      "channel 1: Channel 1 channel 1: Power failure 0"]);
});

test("two channels are named, also if the unit says what was measured", () => {
    const shown = place();
    readingChips(shown).show(device("D2-01-12", [{ name: "IO", raw: 0 }, number("MV", 5, "W")],
                                    [{ name: "IO", raw: 1 }, number("MV", 6, "W")]));
    assert.equal(shown.textContent, "channel 0: Power 5 Wchannel 1: Power 6 W");
    assert.ok(shown.children.every(({ classList }) => !classList.contains("plain")));
});

test("a number that has come twice has a plot, and a tile also its range", () => {
    const plots = where => where.querySelectorAll("polyline").map(({ attributes }) =>
        attributes.get("points").split(" ").length);
    for (const make of [readingChips, readingTiles]) {
        const shown = place();
        const readings = make(shown);
        const values = [[number("TMP", 20, "C")], [number("TMP", 18, "C")], [number("TMP", 19, "C")]];
        readings.show(device("A5-02-05", values[0]));
        assert.deepEqual(plots(shown), []);
        readings.show(device("A5-02-05", ...values));
        assert.deepEqual(plots(shown), [3]);
        assert.equal(/18 to 20 since/.test(shown.textContent), make === readingTiles);
    }
});

test("a signal has its bars and its number", () => {
    const node = place();
    for (const [dbm, bars, text] of [[-45, 4, "-45 dBm"], [-90, 1, "-90 dBm"], [null, 0, ""]]) {
        setSignal(node, dbm);
        assert.deepEqual([node.dataset.bars, node.textContent], [bars, text]);
    }
});
