import assert from "node:assert/strict";
import { beforeEach, test } from "node:test";

import { byId, machine, processes, settle, started } from "./page.mjs";

const { SetupDialog } = await import("../../contrib/cockpit/enogate/setup.js");

const PORTS = "/dev/ttyUSB0\n/dev/serial/by-id/usb-EnOcean_USB_300-if00-port0\n";
const STABLE = "/dev/serial/by-id/usb-EnOcean_USB_300-if00-port0";
let page = null;
let dialog = null;
let files = new Map();
// What the commands print, or how they fail.
let outputs = {};

beforeEach(() => {
    processes.length = 0;
    files = new Map();
    outputs = { find: PORTS, base: "FFA1B280\n", enable: "" };
    machine.outputOf = ([name, verb]) => name === "find" ? outputs.find : outputs[verb];
    machine.writeFile = async (path, options, text, tag) => {
        if (files.has(path))
            throw Object.assign(Error("conflict"), { problem: "change-conflict" });
        files.set(path, { options, text, tag });
    };
    page = { gateways: [], rights: { isAdmin: true }, opened: [], findGateways: async name => page.opened.push(name) };
    dialog = new SetupDialog(page);
    dialog.dialog.close();
});

async function open(button = "no-gateway-setup") {
    byId(button).click();
    await settle();
}

async function press(button) {
    byId(`setup-${button}`).click();
    await settle();
}

const result = () => byId("setup-result").textContent;
const enabled = () => ["look", "go"].map(name => !byId(`setup-${name}`).disabled);

test("the serial ports are offered, those with stable names first, and the usual name", async () => {
    byId("gateway-setup").click();
    assert.deepEqual([result(), enabled(), dialog.dialog.open], ["…", [false, false], true]);
    await settle();
    assert.deepEqual(byId("setup-port").children.map(({ value }) => value), [STABLE, "/dev/ttyUSB0"]);
    assert.deepEqual(byId("setup-port").children.map(({ textContent }) => textContent),
                     ["usb-EnOcean_USB_300-if00-port0", "/dev/ttyUSB0"]);
    assert.deepEqual([byId("setup-name").value, byId("setup-port").value, result(), enabled()],
                     ["hall", STABLE, "", [true, true]]);
    page.gateways = ["hall"];
    await open();
    assert.equal(byId("setup-name").value, "");
});

test("a port that no gateway uses is chosen at first, also if the settings have another name of it", async () => {
    const [used, free] = ["/dev/serial/by-id/usb-A-if00-port0", "/dev/serial/by-id/usb-B-if00-port0"];
    const links = new Map([[used, "/dev/ttyUSB0"], ["/dev/enocean", "/dev/ttyUSB0"], [free, "/dev/ttyUSB1"]]);
    const { outputOf } = machine;
    machine.outputOf = words => words[0] !== "realpath" ? outputOf(words)
        : words.slice(3).map(path => `${links.get(path) ?? path}\n`).join("");
    const chosen = () => byId("setup-port").children.filter(({ selected }) => selected).map(({ value }) => value);
    outputs.find = `/dev/ttyUSB0\n${used}\n${free}\n`;
    await open();
    assert.deepEqual(chosen(), [used]);
    // In the settings of all gateways of this test, SERIAL is /dev/enocean.
    page.gateways = ["hall"];
    await open();
    assert.deepEqual(chosen(), [free]);
    // The others say who uses them, and are refused.
    assert.deepEqual(byId("setup-port").children.map(({ textContent }) => textContent),
                     ["usb-A-if00-port0, in use by hall", "usb-B-if00-port0", "/dev/ttyUSB0, in use by hall"]);
    const choose = async port => {
        byId("setup-port").enterValue(port, "change");
        await settle();
        return [result(), enabled()];
    };
    const refused = ["The gateway hall uses this port.", [false, false]];
    for (const [port, wanted] of [[used, refused], [free, ["", [true, true]]], ["/dev/ttyUSB0", refused]])
        assert.deepEqual(await choose(port), wanted, port);
    byId("setup-name").value = "yard";
    byId("setup-name").enter();
    await settle();
    assert.deepEqual([files.size, started("systemctl").length], [0, 0]);
    outputs.find = `/dev/ttyUSB0\n${used}\n`;
    await open();
    const [none] = byId("setup-port").children;
    assert.deepEqual([chosen(), none.disabled, result(), enabled()],
                     [[""], true, "No free serial port was found. Plug in the stick, and open this dialog again.",
                      [false, false]]);
    machine.outputOf = outputOf;
});

test("the end of what was begun before the dialog was opened again shows nothing", async () => {
    let end = null;
    page.findGateways = () => new Promise(done => { end = done; });
    await open();
    byId("setup-name").value = "yard";
    await press("go");
    byId("gateway-setup").click();
    end();
    // Long before the ports are known, which several commands ask for.
    await Promise.resolve();
    await Promise.resolve();
    await Promise.resolve();
    assert.deepEqual([dialog.dialog.open, result(), enabled()], [true, "…", [false, false]]);
    await settle();
    assert.deepEqual([result(), enabled()], ["", [true, true]]);
});

test("without a serial port nothing can be set up", async () => {
    outputs.find = Error("find: /dev/serial/by-id: No such file or directory");
    await open();
    assert.deepEqual([result(), enabled()],
                     ["No free serial port was found. Plug in the stick, and open this dialog again.", [false, false]]);
    byId("setup-name").enter();
    await settle();
    assert.deepEqual([files.size, started("systemctl").length], [0, 0]);
});

test("the base ID of the radio module is shown, or why there is none", async () => {
    await open();
    await press("look");
    assert.deepEqual(started("enogatectl")[0].words, ["enogatectl", "base", STABLE]);
    assert.equal(started("enogatectl")[0].options.superuser, "require");
    assert.deepEqual([result(), enabled()], ["A radio module answers. Its base ID is FFA1B280.", [true, true]]);
    outputs.base = Error("enogatectl: no radio module answers at /dev/ttyUSB0: check that this is its port");
    await press("look");
    assert.equal(result(), "no radio module answers at /dev/ttyUSB0: check that this is its port");
    outputs.base = Object.assign(Error(""), { problem: "access-denied" });
    await press("look");
    assert.equal(result(), "You have no administrative access: turn it on in Cockpit.");
    assert.deepEqual(enabled(), [true, true]);
});

test("a gateway is set up: its settings are written, its service is started, and it is opened", async () => {
    await open();
    byId("setup-name").value = " yard ";
    byId("setup-port").value = "/dev/ttyUSB0";
    await press("go");
    assert.deepEqual([...files], [["/etc/default/enogate-yard",
                                   { options: { superuser: "require" }, text: "SERIAL=/dev/ttyUSB0\n", tag: "-" }]]);
    const [{ words, options }] = started("systemctl");
    assert.deepEqual([words, options.superuser],
                     [["systemctl", "enable", "--now", "enogate@yard.service"], "require"]);
    assert.deepEqual([page.opened, dialog.dialog.open], [["yard"], false]);
});

test("a name that is none, and one of another gateway, are refused", async () => {
    await open();
    page.gateways = ["hall"];
    for (const name of ["", "-x", "mqtt-a", "a b", "../x", "hall ; reboot", "ä", "$(reboot)", "a\nb", "xxx/"]) {
        byId("setup-name").value = name;
        await press("go");
        assert.match(byId("setup-name").why, /^Use letters, digits/, name);
    }
    byId("setup-name").value = "hall";
    await press("go");
    assert.match(byId("setup-name").why, /^There is a gateway with this name already/);
    assert.deepEqual([files.size, started("systemctl").length, dialog.dialog.open], [0, 0, true]);
    byId("setup-name").value = "Hall_2-b";
    byId("setup-name").enter();
    await settle();
    assert.deepEqual([...files.keys()], ["/etc/default/enogate-Hall_2-b"]);
});

test("settings that exist are not overwritten, and no service is started then", async () => {
    files.set("/etc/default/enogate-hall", "BASE=FFA1B280\n");
    await open();
    await press("go");
    assert.match(result(), /^There is a gateway with this name already/);
    assert.deepEqual([files.get("/etc/default/enogate-hall"), started("systemctl").length, dialog.dialog.open],
                     ["BASE=FFA1B280\n", 0, true]);
});

test("a service that does not start is explained, and can be started again with the same settings", async () => {
    outputs.enable = Error("Failed to enable unit: Unit file enogate@hall.service is masked.");
    await open();
    await press("go");
    assert.deepEqual([result(), dialog.dialog.open, enabled(), byId("setup-port").disabled],
                     ["Failed to enable unit: Unit file enogate@hall.service is masked.", true, [true, true], true]);
    // The page has found the settings.
    page.gateways = ["hall"];
    outputs.enable = "";
    await press("go");
    assert.deepEqual([page.opened, dialog.dialog.open, files.size], [["hall"], false, 1]);
    await open();
    assert.equal(byId("setup-port").disabled, false);
    byId("setup-name").value = "hall";
    await press("go");
    assert.match(byId("setup-name").why, /^There is a gateway with this name already/);
});

test("a second click while a gateway is set up does nothing", async () => {
    outputs.enable = null;
    await open();
    byId("setup-go").click();
    byId("setup-name").enter();
    await settle();
    assert.equal(started("systemctl").length, 1);
});

test("only an administrator can set up a gateway, and others read what to ask for", () => {
    const shown = isAdmin => {
        page.rights.isAdmin = isAdmin;
        dialog.paint();
        return ["no-gateway-setup", "gateway-setup"].map(id => byId(id).disabled);
    };
    assert.deepEqual([shown(false), byId("no-gateway-hint").textContent.includes("ask an administrator")],
                     [[true, true], true]);
    assert.deepEqual([shown(true), byId("no-gateway-hint").textContent], [[false, false], ""]);
});
