import assert from "node:assert/strict";
import { execFileSync, spawnSync } from "node:child_process";
import { mkdirSync, mkdtempSync, rmSync, symlinkSync } from "node:fs";
import { tmpdir } from "node:os";
import { test } from "node:test";

import "./page.mjs";
import * as places from "../../contrib/cockpit/enogate/places.js";
import { HOSTILE } from "./samples.mjs";

test("the names of the gateways are sorted", () => {
    const paths = { desk: "/run/enogate/x/desk", lines: "/var/log/enogate/x.lines", settings: "/etc/default/enogate-x" };
    const output = `${JSON.stringify({ hall: paths, attic: paths, cellar_2: paths, 10: paths, 9: paths })}\n`;
    assert.deepEqual(places.gatewayNamesIn(output), ["10", "9", "attic", "cellar_2", "hall"]);
    assert.deepEqual(places.gatewayNamesIn("{}\n"), []);
});

test("a command that failed names no gateway", () => {
    for (const output of ["", "null\n", "{\"hall\":"])
        assert.deepEqual(places.gatewayNamesIn(output), [], output);
});

test("settings: the last line counts, and quotation marks are removed", () => {
    const all = "# SERIAL=/dev/x\nSERIAL=/dev/enocean\nBASE=\nTURNS=1\n";
    const own = "SERIAL=\"/dev/tty USB0\"\nBASE='FF800000'\n";
    const settings = places.settingsIn([all, own]);
    assert.deepEqual([...settings], [["SERIAL", "/dev/tty USB0"], ["BASE", "FF800000"], ["TURNS", "1"]]);
    assert.equal(places.settingsIn([null, "__proto__=1\nx y=2\n"]).get("__proto__"), "1");
});

test("the properties of systemd", () => {
    const states = { ActiveState: "active", SubState: "running" };
    assert.deepEqual(places.propertiesIn("ActiveState=active\nSubState=running\n"), states);
    assert.deepEqual(places.propertiesIn("Failed to connect to bus\n"), {});
});

test("each start of a gateway that can answer is another run", () => {
    const active = { ActiveState: "active", SubState: "running" };
    assert.equal(places.runIdOf(null, null), "unknown");
    assert.equal(places.runIdOf(active, true), places.runIdOf(active, null));
    const runs = ["1", "2"].map(InvocationID => places.runIdOf({ ...active, InvocationID }, true));
    assert.notEqual(runs[0], runs[1]);
    for (const [state, hasStick] of [["inactive", true], ["failed", true], ["activating", true], ["active", false]])
        assert.equal(places.runIdOf({ ActiveState: state }, hasStick), null, state);
});

test("what is wrong with a gateway, and which button helps", () => {
    const gatewayFault = (ActiveState, SubState, hasStick) =>
        places.gatewayFault("hall", ActiveState && { ActiveState, SubState }, hasStick, "/dev/enocean");
    const stopped = { text: "The gateway hall is stopped", detail: "", action: "Start", word: "stopped" };
    assert.deepEqual([gatewayFault("active", "running", true), gatewayFault("activating", "start-pre", true),
                      gatewayFault(null, null, null)], [null, null, null]);
    assert.deepEqual(gatewayFault("inactive", "dead", true), stopped);
    assert.deepEqual(gatewayFault("failed", "failed", false), stopped);
    assert.deepEqual(gatewayFault("active", "running", false), {
        text: "No stick at /dev/enocean", detail: "Plug it in. The gateway continues by itself.", action: "Journal",
        word: "no stick",
    });
    assert.deepEqual(gatewayFault("activating", "auto-restart", true), {
        text: "The gateway hall is restarting", detail: "The journal has the reason.", action: "Journal",
        word: "restarting",
    });
});

test("a base ID of the module that differs from the setting", () => {
    const baseFault = (base, baseTime, BASE) =>
        places.baseFault("hall", new Map(BASE === undefined ? [] : [["BASE", BASE]]), { base, baseTime });
    assert.deepEqual(baseFault("FFA1B280", 1000, "ff800000"), {
        text: "BASE is FF800000, but the base ID of the radio module is FFA1B280", action: "Restart",
        detail: "Correct or remove BASE in /etc/default/enogate-hall, and restart the gateway.",
    });
    assert.equal(baseFault("FFA1B280", 1000, "ffa1b280"), null);
    // It is not set, not reported, or was reported before the page was opened.
    assert.deepEqual([baseFault("FFA1B280", 1000), baseFault("FFA1B280", 1000, ""), baseFault(null, null, "FF800000"),
                      baseFault("FFA1B280", null, "FF800000")], [null, null, null, null]);
});

test("the name of a gateway is what enogatectl takes for one", () => {
    const names = ["hall", "Hall_2-b", "9", "_", "-hall", "mqtt", "mqtt-hall", "mqttx", "hall-mqtt", "a b", "a/b", "..",
                   "", "ä", "hall\n", "MQTT", "x".repeat(64), ...HOSTILE];
    const program = "import json, sys; from enogate_tools.gateways import is_name; " +
        "print(json.dumps([is_name(name) for name in json.load(sys.stdin)]))";
    const env = { ...process.env, PYTHONPATH: new URL("../../contrib", import.meta.url).pathname };
    const wanted = JSON.parse(execFileSync("python3", ["-B", "-c", program], { env, input: JSON.stringify(names) }));
    assert.deepEqual(names.map(places.isGatewayName), wanted);
    assert.deepEqual(wanted.slice(0, 6), [true, true, true, true, false, false]);
});

test("the serial ports are sorted, and no path is taken that cannot be a setting", () => {
    const ports = ["/dev/enocean", "/dev/enocean-FT57WS9M", "/dev/serial/by-id/usb-EnOcean_GmbH_USB_300_DC-if00-port0",
                   "/dev/serial0", "/dev/ttyACM0", "/dev/ttyUSB1"];
    assert.deepEqual(places.portsIn(`${[...ports].reverse().join("\n")}\n`), ports);
    assert.deepEqual(places.portsIn(""), []);
    for (const path of ["/dev/tty USB0", "/dev/x\"y", "/etc/passwd", "/dev/$(reboot)", "ttyUSB0", "/dev/", "/dev/a;b"])
        assert.deepEqual(places.portsIn(`${path}\n`), [], path);
});

test("the command for the serial ports finds those of its patterns", () => {
    const folder = mkdtempSync(`${tmpdir()}/ports-`);
    try {
        mkdirSync(`${folder}/serial/by-id`, { recursive: true });
        for (const name of ["enocean", "enocean-X1", "serial/by-id/usb-1", "ttyUSB0", "ttyAMA10", "ttyACM1", "serial0",
                            "tty0", "ttyUSB", "xttyUSB0", "serial1", "null"])
            symlinkSync("/dev/null", `${folder}/${name}`);
        symlinkSync("/nonexistent", `${folder}/ttyUSB1`);
        symlinkSync("/etc/hostname", `${folder}/ttyUSB2`);
        const find = () => {
            const [name, ...words] = places.PORTS_COMMAND.map(word => word.replace("/dev", folder));
            const options = { encoding: "utf8", stdio: ["ignore", "pipe", "ignore"] };
            return spawnSync(name, words, options).stdout.split("\n")
                    .map(path => path.replace(`${folder}/`, "")).filter(Boolean).sort();
        };
        const few = ["enocean", "enocean-X1", "serial0", "ttyACM1", "ttyAMA10", "ttyUSB0"];
        assert.deepEqual(find(), [...few, "serial/by-id/usb-1"].sort());
        rmSync(`${folder}/serial`, { recursive: true });
        assert.deepEqual(find(), few);
    } finally {
        rmSync(folder, { recursive: true });
    }
});

test("the desk of a gateway is where enogatectl has it", () => {
    const program = "from enogate_tools.gateways import paths_of; print(*paths_of('hall')[:2])";
    const env = { ...process.env, PYTHONPATH: new URL("../../contrib", import.meta.url).pathname };
    const shown = String(execFileSync("python3", ["-B", "-c", program], { env }));
    assert.equal(shown, `${places.deskOf("hall")} ${places.linesOf("hall")}\n`);
});

test("of the two file systems that df prints, the one with less space counts", () => {
    assert.equal(places.leastSpaceIn(" Avail\n 61234\n   512\n"), 512);
    assert.equal(places.leastSpaceIn("Avail\n0\n"), 0);
    assert.equal(places.leastSpaceIn("    Avail\n    9\n   12\n"), 9);
    for (const output of ["", "Avail\n", "Avail\n -\n", "1x\n"])
        assert.equal(places.leastSpaceIn(output), null, output);
    assert.equal(places.SPACE_COMMAND.join(" "),
                 "df --block-size=1M --output=avail /var/log/enogate /var/lib/enogate");
});
