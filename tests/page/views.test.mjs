import assert from "node:assert/strict";
import { readFileSync } from "node:fs";
import { beforeEach, test } from "node:test";

import { byId, machine, settle, started } from "./page.mjs";
import { devicesByState } from "../../contrib/cockpit/enogate/health.js";
import { Model } from "../../contrib/cockpit/enogate/model.js";
import { DEVICE, HOSTILE, LIST, PACKET, READING, RESPONSE, STATUS } from "./samples.mjs";

const states = ["all", "silent", "weak", "actuators"].map(state => {
    const link = document.createElement("a");
    link.dataset.state = state;
    link.append(document.createElement("span"));
    return link;
});
document.querySelectorAll = selector => selector === "#devices-states a" ? states : [];
const load = name => import(`../../contrib/cockpit/enogate/${name}.js`);
const [{ DeviceSection }, { DevicesSection }, { OverviewSection }, { PacketsSection }] =
    await Promise.all(["device", "devices", "overview", "packets"].map(load));

const [CONTACT, ACTUATOR] = ["01800A01", "01800A02"];
let page = null;

/** The page with a contact and a weak actuator, each with a packet. */
beforeEach(() => {
    byId("device-readings").replaceChildren();
    const model = new Model(0);
    const open = { name: "CO", word: "open" };
    for (const [id, eep, dbm, reading] of [
        [CONTACT, "D5-00-01", -45, open], [ACTUATOR, "D2-01-12", -90, { name: "OV", num: 100, den: 1, unit: "%" }],
    ]) {
        model.take({ ...PACKET, id, why: "read", payload: id.slice(-2) }, 1000);
        model.take({ ...READING, id, eep, dbm, readings: [reading] }, 1000);
    }
    page = {
        model, groups: devicesByState(model, new Map(), 2000, Infinity), sent: new Map(), query: "", part: "",
        minutes: Infinity, space: null, canOrderNow: true, isQuiet: () => false, painter: { paintNow: () => {} },
        gateway: "hall", feedState: { why: "" },
        health: { states: { ActiveState: "active" }, hasStick: true }, settings: new Map([["BASE", "FFA1B280"]]),
        rights: { isAdmin: false, permission: { allowed: false } }, mayUseFix: () => false,
    };
});

const text = id => byId(id).textContent.trim();

test("the list has the devices of the state that the address names, and says how many each has", () => {
    const section = new DevicesSection(page);
    for (const [part, ids, state] of [["", [CONTACT, ACTUATOR], "all"], ["weak", [ACTUATOR], "weak"],
                                      ["silent", [], "silent"], ["actuators", [ACTUATOR], "actuators"]]) {
        page.part = part;
        section.paint();
        assert.deepEqual(byId("devices-rows").children.map(({ dataset }) => dataset.id), ids, part);
        assert.deepEqual(states.filter(({ attributes }) => attributes.get("aria-current") === "true")
                .map(({ dataset }) => dataset.state), [state]);
        assert.equal(byId("devices-none").hidden, ids.length > 0);
        assert.equal(byId("devices-table").hidden, ids.length === 0);
        if (part === "silent")
            assert.equal(text("devices-none-title"), "No device is silent");
    }
    assert.deepEqual(states.map(({ textContent }) => textContent), ["2", "0", "1", "1"]);
    // There are such devices, but none with this text.
    for (const part of ["weak", "silent"]) {
        Object.assign(page, { part, query: "zz", groups: { ...page.groups, silent: page.groups.all } });
        section.paint();
        assert.deepEqual([text("devices-none-title"), byId("devices-none-add").hidden], ["No device matches", true]);
    }
    section.rows.clear();
    assert.equal(byId("devices-rows").children.length, 0);
});

/** Somebody ticks the box that groups the devices, or clears it. */
function group(isGrouped) {
    byId("devices-group").checked = isGrouped;
    byId("devices-group").listeners.get("change")();
}

test("devices can be grouped by the first word of their labels, which the browser stores", () => {
    let painted = 0;
    page.painter.paintNow = () => painted++;
    page.model.devices.get(CONTACT).label = "Kitchen window";
    page.model.take({ ...READING, id: "01800A03", eep: "D5-00-01" }, 1000);
    page.model.devices.get("01800A03").label = "Attic door";
    page.groups = devicesByState(page.model, new Map(), 2000, Infinity);
    const section = new DevicesSection(page);
    const rows = () => {
        section.paint();
        return byId("devices-rows").children.map(row => row.dataset.id ?? `[${row.textContent}]`);
    };
    assert.deepEqual([byId("devices-group").checked, rows()], [false, ["01800A03", CONTACT, ACTUATOR]]);
    group(true);
    const grouped = ["[Attic (1)]", "01800A03", "[Kitchen (1)]", CONTACT, "[Without a label (1)]", ACTUATOR];
    assert.deepEqual([rows(), painted, localStorage.getItem("enogate-grouping")], [grouped, 1, "true"]);
    assert.equal(byId("devices-rows").children[0].firstChild.colSpan, 5);
    page.model.devices.get("01800A03").label = "Kitchen";
    assert.deepEqual(rows(), ["[Kitchen (2)]", "01800A03", CONTACT, "[Without a label (1)]", ACTUATOR]);
    section.sorting.sortBy("label");
    assert.deepEqual(rows(), ["[Kitchen (2)]", CONTACT, "01800A03", "[Without a label (1)]", ACTUATOR]);
    // The pointer is on the list: nothing moves, and the heading whose group has gone is marked.
    byId("devices-rows").matches = selector => selector === ":hover";
    page.model.devices.get(CONTACT).label = "Attic window";
    assert.deepEqual(rows(), ["[Kitchen (2)]", CONTACT, "01800A03", "[Without a label (1)]", ACTUATOR]);
    page.model.devices.get("01800A03").label = "Attic door";
    rows();
    assert.deepEqual(byId("devices-rows").children.map(({ classList }) => classList.contains("gone")),
                     [true, false, false, false, false]);
    byId("devices-rows").matches = () => false;
    assert.deepEqual(rows(), ["[Attic (2)]", CONTACT, "01800A03", "[Without a label (1)]", ACTUATOR]);
    // A word that only a device outside of the list shares makes a group, too.
    page.model.devices.get(CONTACT).label = "Attic";
    page.query = CONTACT;
    assert.deepEqual(rows(), ["[Attic (1)]", CONTACT]);
    new DevicesSection(page);
    assert.equal(byId("devices-group").checked, true);
    group(false);
    new DevicesSection(page);
    assert.equal(byId("devices-group").checked, false);
});

test("an empty list says whether the devices are known", () => {
    const section = new DevicesSection(page);
    page.model = new Model(0);
    page.groups = devicesByState(page.model, new Map(), 0, 1);
    section.paint();
    assert.equal(text("devices-none-title"), "The devices are not known yet");
    page.model.take({ ...LIST, count: 0 }, 0);
    section.paint();
    assert.deepEqual([text("devices-none-title"), byId("devices-none-add").hidden], ["No device is learned yet", false]);
});

test("a label stays a text, whatever it contains", () => {
    const section = new DevicesSection(page);
    for (const label of HOSTILE) {
        page.model.devices.get(CONTACT).label = label;
        section.paint();
        const row = byId("devices-rows").children.find(({ dataset }) => dataset.id === CONTACT);
        const [name] = row.children;
        assert.deepEqual([name.textContent, name.children[0].href], [`${label || "(no label)"}${CONTACT}`,
                                                                     `#/device/${CONTACT}`]);
    }
});

test("the view of a device has its readings, its packets and all its orders", () => {
    const section = new DeviceSection(page);
    page.part = ACTUATOR;
    section.paint();
    assert.deepEqual(["device-id", "device-profile", "device-readings", "device-packets"].map(text), [
        ACTUATOR, "D2-01-12 Electronic switch, 2 channels", "Output 100 %",
        `${byId("device-packets").children[0].children[0].textContent}(no label)${ACTUATOR}Output 100 %switch (RPS)02 30-45 dBm`,
    ]);
    assert.match(text("device-act"), /Ask for its power/);
    assert.deepEqual([byId("device-act").hidden, byId("device-interval").hidden, byId("device-log").hidden],
                     [false, true, false]);
    page.part = CONTACT;
    section.paint();
    assert.deepEqual([text("device-id"), text("device-readings"), text("device-interval"), byId("device-act").hidden],
                     [CONTACT, "Contact open", "usually sends at least every 30 min", true]);
    assert.equal(byId("device-packets").children.length, 1);
});

test("the view of a device has no plot of the one before", () => {
    const section = new DeviceSection(page);
    const sensors = [["01800A03", 3], ["01800A04", 1], ["01800A03", 3]];
    for (const [id, count] of sensors.slice(0, 2))
        Array.from({ length: count }, (_, number) => page.model.take({ ...READING, id }, 1000 * number));
    for (const [id, count] of sensors) {
        page.part = id;
        section.paint();
        assert.equal(byId("device-readings").querySelectorAll("polyline").length, count > 1 ? 1 : 0, id);
    }
});

test("the age of the last telegram fits the packets below it, also if they had no readings", () => {
    const section = new DeviceSection(page);
    page.model.take({ ...DEVICE, id: "01800A03" }, 0);
    page.model.take({ ...DEVICE, id: "01800A04" }, 0);
    page.model.take({ ...LIST, count: 2 }, 0);
    page.model.take({ ...PACKET, id: "01800A03", why: "wrong_kind" }, null);
    const age = part => {
        page.part = part;
        section.paint();
        return [text("device-age"), byId("device-log").hidden, byId("device-unheard").hidden];
    };
    assert.deepEqual(age("01800A03"), ["last telegram: earlier", false, true]);
    // Nothing was heard of it: the view says what to do.
    assert.deepEqual(age("01800A04"), ["last telegram: none known", true, false]);
    page.model.take({ ...PACKET, id: "01800A03", why: "wrong_kind" }, Date.now());
    assert.deepEqual(age("01800A03"), ["last telegram: 0 s ago", false, true]);
    // Its reading is recorded, but not its time.
    const readings = [{ name: "CO", word: "open" }];
    page.model.takeRecorded([{ ...DEVICE, id: "01800A04", seen: null, dbm: null, readings }]);
    assert.deepEqual(age("01800A04"), ["last telegram: earlier", true, true]);
});

test("a device that is not learned is reported once the devices are known", () => {
    const section = new DeviceSection(page);
    page.part = "0180FFFF";
    section.paint();
    assert.deepEqual([byId("device-card").hidden, byId("device-gone").hidden], [true, true]);
    page.model.take(DEVICE, 0);
    page.model.take(LIST, 0);
    section.paint();
    assert.deepEqual([byId("device-card").hidden, byId("device-gone").hidden], [true, false]);
});

test("the Overview has the numbers, the gateway and the counters", () => {
    const section = new OverviewSection(page);
    page.model.take(STATUS, 1000);
    section.paint();
    assert.deepEqual(["heard", "silent", "weak", "unknown"].map(name => text(`count-${name}`)), ["2", "0", "1", "0"]);
    assert.deepEqual(["heard", "silent", "weak"].map(name => byId(`count-${name}`).dataset.level), ["", "", "warn"]);
    assert.deepEqual(["readings", "teach", "responses", "ignored", "refused"].map(name => text(`counter-${name}`)),
                     ["2", "5", "4", "1", "3"]);
    assert.deepEqual(["service", "stick", "base", "module", "window"].map(name => text(`gateway-${name}`)),
                     ["running", "plugged in", "FFA1B280", "not known yet", "as F6-02-01"]);
    assert.deepEqual(["space", "version"].map(name => text(`gateway-${name}`)),
                     ["not known yet", readFileSync("packaging/debian/changelog", "utf8").match(/\((.*)\)/)[1]]);
    for (const [space, level] of [[99, "bad"], [100, ""]]) {
        page.space = space;
        section.paint();
        assert.deepEqual([text("gateway-space"), byId("gateway-space").dataset.level], [`${space} MB`, level]);
    }
    const levels = () => ["service", "stick", "module"].map(name => byId(`gateway-${name}`).dataset.level);
    assert.deepEqual(levels(), ["good", "good", ""]);
    page.model.take(RESPONSE, 1000);
    page.health = { states: { ActiveState: "failed" }, hasStick: false };
    section.paint();
    assert.deepEqual(levels(), ["bad", "bad", "good"]);
    page.settings.set("BASE", "FF800000");
    page.health = { states: null, hasStick: null };
    section.paint();
    assert.deepEqual(levels(), ["", "", "bad"]);
});

test("packets have the readings of learned devices, and only the newest are shown", () => {
    const section = new PacketsSection(page);
    section.paint();
    const shown = () => byId("packets-rows").children.map(({ children }) => children[2].textContent);
    assert.deepEqual(shown(), ["Output 100 %", "Contact open"]);
    page.query = "contact";
    section.paint();
    assert.deepEqual(shown(), ["Contact open"]);
    page.query = "";
    page.model.devices.delete(CONTACT);
    for (let number = 0; number < 100; number++)
        page.model.take({ ...PACKET, payload: "AA" }, 2000);
    section.paint();
    assert.deepEqual([shown().length, new Set(shown())], [100, new Set(["not learned"])]);
    page.model.packets.splice(2);
    page.model.take({ ...PACKET, id: ACTUATOR, why: "wrong_length" }, 2000);
    section.paint();
    assert.deepEqual(shown(), ["its length does not fit its profile", "Output 100 %", "decoded"]);
});

test("only with a pointer the section of the packets says that the list stands still", () => {
    const section = new PacketsSection(page);
    const { matchMedia } = globalThis;
    for (const [matches, wanted] of [[true, ""], [false, " The list stands still while the pointer is on it."]]) {
        globalThis.matchMedia = query => ({ matches: matches && query === "(pointer: coarse)" });
        section.paint();
        assert.equal(text("packets-note"), `The last 2 packets are shown, of the last 500.${wanted}`);
    }
    globalThis.matchMedia = matchMedia;
});

test("the label of a device in the packets leads to its view, and a sender that is not learned has no link", () => {
    byId("packets-rows").replaceChildren();
    const section = new PacketsSection(page);
    page.model.take(PACKET, 2000);
    page.model.take({ kind: 4, size: 12, type: "packet", why: "other_type" }, 2000);
    const links = () => {
        section.paint();
        return byId("packets-rows").children.map(({ children: [, { children: [link, id] }] }) =>
            [link.hidden ? "" : link.textContent, link.hidden ? "" : link.href, id.textContent]);
    };
    const [contact, actuator] = [CONTACT, ACTUATOR].map(id => ["(no label)", `#/device/${id}`, id]);
    assert.deepEqual(links(), [["", "", ""], ["", "", PACKET.id], actuator, contact]);
    for (const label of HOSTILE) {
        page.model.devices.get(CONTACT).label = label;
        assert.deepEqual(links().at(-1), [label || "(no label)", `#/device/${CONTACT}`, CONTACT]);
    }
    page.model.devices.delete(CONTACT);
    assert.deepEqual(links().at(-1), ["", "", CONTACT]);
});

/** The Overview of a page whose user presses the button for a backup. */
function backingUp() {
    const [complaints, button] = [[], byId("gateway-backup")];
    Object.assign(page, { rights: { isAdmin: true, permission: { allowed: true } }, showError: text => complaints.push(text) });
    const section = new OverviewSection(page);
    page.painter.paintNow = () => section.paint();
    section.paint();
    button.click();
    return { section, complaints, button, command: started("enogatectl", "hall", "backup").at(-1),
             shown: () => [text("gateway-note"), button.disabled] };
}

test("a backup is written as root, and its path and the number of devices are shown", async () => {
    const { complaints, command, shown } = backingUp();
    assert.deepEqual([command.words, command.options.superuser], [["enogatectl", "hall", "backup"], "require"]);
    assert.deepEqual(shown(), ["…", true]);
    command.resolve("/var/backups/enogate/hall-2026-12-01.tar.gz: 3 devices\n");
    await settle();
    assert.deepEqual(shown(), ["Backup written: /var/backups/enogate/hall-2026-12-01.tar.gz: 3 devices. It is on " +
                               "this computer: keep a copy elsewhere.", false]);
    assert.ok(byId("gateway-note").isScrolledTo);
    assert.deepEqual(complaints, ["", ""]);
});

test("a backup that was written can be downloaded", async () => {
    const { complaints, command, section } = backingUp();
    const [{ createElement }, { readFile }, made, read] = [document, machine, [], []];
    const hasDownload = () => !byId("gateway-download").hidden;
    assert.equal(hasDownload(), false);
    command.resolve("/var/backups/enogate/hall-2026-12-01.tar.gz: 3 devices\n");
    await settle();
    assert.equal(hasDownload(), true);
    document.createElement = name => {
        const link = createElement(name);
        link.addEventListener("click", () => made.push([link.download, fetch(link.href)]));
        return link;
    };
    machine.readFile = async (...words) => {
        read.push(words);
        return Uint8Array.of(1, 2);
    };
    byId("gateway-download").click();
    await settle();
    assert.deepEqual(read, [["/var/backups/enogate/hall-2026-12-01.tar.gz", { superuser: "require", binary: true }]]);
    const [[name, response]] = made;
    assert.deepEqual([name, new Uint8Array(await (await response).arrayBuffer())], ["hall-2026-12-01.tar.gz", Uint8Array.of(1, 2)]);
    for (const [answer, why] of [[async () => null, "/var/backups/enogate/hall-2026-12-01.tar.gz is missing."],
                                 [async () => { throw Error("why"); }, "why"]]) {
        machine.readFile = answer;
        byId("gateway-download").click();
        await settle();
        assert.deepEqual([made.length, complaints.at(-1)], [1, why]);
    }
    Object.assign(document, { createElement });
    Object.assign(machine, { readFile });
    page.gateway = "yard";
    section.paint();
    assert.equal(hasDownload(), false);
    page.gateway = "hall";
});

test("a backup that fails is an error of the page, and can be tried again", async () => {
    const { complaints, command, shown, button } = backingUp();
    command.reject({ message: "enogatectl: the backup in /var/backups/enogate failed: No space left on device" });
    await settle();
    assert.deepEqual(shown(), ["", false]);
    assert.deepEqual(complaints, ["", "the backup in /var/backups/enogate failed: No space left on device"]);
    button.click();
    started("enogatectl", "hall", "backup").at(-1).resolve("done\n");
    await settle();
    assert.deepEqual([shown()[1], complaints.at(-1)], [false, ""]);
    assert.match(shown()[0], /^Backup written: done\. It is on this computer/);
});

test("a backup needs administrative rights, and its end is not shown at another gateway", async () => {
    const { section, complaints, command, shown } = backingUp();
    page.gateway = "yard";
    section.paint();
    assert.deepEqual(shown(), ["", false]);
    command.reject({ message: "enogatectl: why" });
    await settle();
    assert.deepEqual([shown(), complaints], [["", false], [""]]);
    Object.assign(page.rights, { isAdmin: false, hasDesk: true });
    section.paint();
    assert.deepEqual(shown(), ["", true]);
});
