import assert from "node:assert/strict";
import { test } from "node:test";

import { addressOf, viewOf } from "../../contrib/cockpit/enogate/address.js";
import { HOSTILE } from "./samples.mjs";

const OVERVIEW = { section: "overview", part: "" };

test("each view has an address", () => {
    for (const [section, part, address] of [
        ["overview", "", "#/overview"], ["devices", "", "#/devices"], ["devices", "silent", "#/devices/silent"],
        ["devices", "actuators", "#/devices/actuators"], ["devices", "misfit", "#/devices/misfit"],
        ["devices", "battery", "#/devices/battery"], ["device", "01800ABC", "#/device/01800ABC"],
        ["groups", "", "#/groups"], ["add", "", "#/add"], ["packets", "", "#/packets"],
    ]) {
        assert.equal(addressOf(section, part), address);
        assert.deepEqual(viewOf(address), { section, part });
    }
});

test("any other address is that of the Overview", () => {
    const others = ["", "#", "#/", "#/x", "#/devices/", "#/devices/x", "#/devices/silent/x", "#/overview/x", "#/device",
        "#/device/01800abc", "#/device/01800ABCD", "#/device/0180-ABC", "#/packets/silent", "#/groups/1", "#devices",
        "#/Devices", "#/devices silent", "#/devices/silent\n", "x#/devices", "#/toString", "#/__proto__"];
    for (const address of [...others, ...HOSTILE, ...HOSTILE.map(text => `#/${text}`),
                           ...HOSTILE.filter(Boolean).map(text => `#/devices/${text}`),
                           ...HOSTILE.map(text => `#/device/${text}`)])
        assert.deepEqual(viewOf(address), OVERVIEW, address);
});
