import assert from "node:assert/strict";
import { test } from "node:test";

import "./page.mjs";
import { withHeadings } from "../../contrib/cockpit/enogate/grouping.js";
import { HOSTILE } from "./samples.mjs";

/** Devices with these labels, which are their IDs as well. */
const devices = labels => labels.map(label => [`id ${label}`, { label }]);
/** What is shown of a list: headings with the number of devices, and labels. */
const shown = (labels, all = labels) => withHeadings(devices(labels), devices(all))
        .map(([, { title, count, label }]) => title === undefined ? label : `[${title} ${count}]`);

test("devices are grouped by the first word of their labels, and keep their order in a group", () => {
    assert.deepEqual(shown(["Kitchen window", "Office door", "Kitchen lamp", "Office blind", "Kitchen door"]),
                     ["[Kitchen 3]", "Kitchen window", "Kitchen lamp", "Kitchen door", "[Office 2]", "Office door",
                      "Office blind"]);
    assert.deepEqual(shown([]), []);
});

test("groups are sorted by name, as people count rooms, then come other labels and devices without one", () => {
    assert.deepEqual(shown(["", "Gate", "2.14 Window", "yard lamp", "Attic door", "2.4 Window", "", "10 Lamp"])
            .filter(text => text.startsWith("[")),
                     ["[2.4 1]", "[2.14 1]", "[10 1]", "[Attic 1]", "[yard 1]", "[Other 1]", "[Without a label 2]"]);
});

test("a label of one word makes a group only if another device shares the word, also one outside of the list", () => {
    assert.deepEqual(shown(["Gate", "Pump"]), ["[Other 2]", "Gate", "Pump"]);
    assert.deepEqual(shown(["Kitchen", "Kitchen lamp"]), ["[Kitchen 2]", "Kitchen", "Kitchen lamp"]);
    assert.deepEqual(shown(["Kitchen"], ["Kitchen", "kitchen lamp"]), ["[Kitchen 1]", "Kitchen"]);
    assert.deepEqual(shown(["Kitchen"], ["Kitchen", "Kitchenette lamp"]), ["[Other 1]", "Kitchen"]);
});

test("a group has one name, whatever the case of the letters and the mark after the word", () => {
    assert.deepEqual(shown(["Kitchen: window", "kitchen lamp", "KITCHEN/door", "Kitchen, blind"]),
                     ["[Kitchen 4]", "Kitchen: window", "kitchen lamp", "KITCHEN/door", "Kitchen, blind"]);
});

test("a label that is called as the last groups are has a group of its own", () => {
    assert.deepEqual(shown(["Pump", "Other lamp", "Without", ""]),
                     ["[Other 1]", "Other lamp", "[Other 2]", "Pump", "Without", "[Without a label 1]", ""]);
    const keys = withHeadings(devices(["Pump", "Other lamp"]), devices(["Pump", "Other lamp"])).map(([key]) => key);
    assert.equal(new Set(keys).size, 4);
});

test("any label has a group, and no key of a heading is an ID", () => {
    const labels = [...HOSTILE, ":", "/ /", "01800ABC", "__proto__ x", "__proto__ y"];
    const found = withHeadings(devices(labels), devices(labels));
    assert.equal(found.filter(([, { title }]) => title === undefined).length, labels.length);
    for (const [key, { title }] of found)
        assert.equal(title !== undefined, key.startsWith("group "), key);
    assert.ok(found.some(([, { title, count }]) => title === "__proto__" && count === 3));
});
