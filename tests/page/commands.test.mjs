import assert from "node:assert/strict";
import { beforeEach, test } from "node:test";

import "./page.mjs";
import { DEVICE } from "./samples.mjs";

const started = [];
const requests = [];
const written = [];
let outputs = new Map();
let failure = null;

/** A process that has written the output of its words, and then ends or fails. The one for orders runs on. */
class Process {
    constructor(words, options) {
        started.push({ words, options });
        this.output = outputs.get(words.join(" ")) ?? outputs.get(words[0]) ?? "";
        const end = failure ? Promise.reject(failure) : Promise.resolve(this.output);
        this.promise = words.includes("--serve") ? new Promise(() => {}) : end;
    }

    input(text) {
        requests.push(JSON.parse(text));
    }

    stream(callback) {
        callback(this.output);
        return this;
    }

    then(done, failed) {
        return this.promise.then(done, failed);
    }
}

globalThis.window = {
    cockpit: {
        ...window.cockpit,
        spawn: (words, options) => new Process(words, options),
        file: (path, options) => ({
            read: () => outputs.has(path) ? Promise.resolve(outputs.get(path)) : Promise.reject(path),
            replace: async (text, tag) => written.push([path, options, text, tag]),
        }),
    },
};
const commands = await import("../../contrib/cockpit/enogate/commands.js");
const places = await import("../../contrib/cockpit/enogate/places.js");
const orders = await import("../../contrib/cockpit/enogate/orders.js");

beforeEach(() => {
    started.length = 0;
    outputs = new Map();
    failure = null;
});

const last = () => started.at(-1);

test("orders are given with the rights that are named, and by one process for each of them", () => {
    commands.runCommand(orders.orderCommand("hall", ["label", "01800ABC", "a b"]), "root");
    commands.runCommand(orders.windowCommand("hall", ["learn", "on"], 120), "root");
    commands.runCommand(orders.orderCommand("hall", ["list"]), "user");
    commands.runCommand(orders.replaceCommand("hall", "01800ABC", "01800AC1"), "user");
    const process = superuser => ({ words: ["enogatectl", "--serve"], options: { superuser, err: "message" } });
    assert.deepEqual(started, [process("require"), process(null)]);
    assert.deepEqual(requests.map(request => request.arguments), [
        ["--json", "hall", "--", "label", "01800ABC", "a b"], ["--for", "120", "hall", "--", "learn", "on"],
        ["--json", "hall", "--", "list"], ["hall", "replace", "01800ABC", "01800AC1"],
    ]);
});

test("the desk is looked at with the rights of the user", async () => {
    assert.equal(await commands.mayWriteDesk("hall"), true);
    assert.deepEqual(last(), { words: ["test", "-w", "/run/enogate/hall/desk"], options: { err: "ignore" } });
    failure = { exit_status: 1 };
    assert.equal(await commands.mayWriteDesk("hall"), false);
});

test("a service is started and restarted as root, and at each boot from then on", async () => {
    for (const words of [["start"], ["restart"], ["enable", "--now"]]) {
        await commands.controlService("hall", ...words);
        assert.deepEqual(last(), { words: ["systemctl", ...words, "enogate@hall.service"],
                                   options: { superuser: "require", err: "message" } });
    }
});

test("the base ID of a module at a port is asked for as root", async () => {
    outputs.set("enogatectl", "FFA1B280\n");
    assert.equal(await commands.moduleBase("/dev/ttyUSB0"), "FFA1B280");
    assert.deepEqual(last(), { words: ["enogatectl", "base", "/dev/ttyUSB0"],
                               options: { superuser: "require", err: "message" } });
    failure = { message: "why" };
    await assert.rejects(commands.moduleBase("/dev/ttyUSB0"), failure);
});

test("settings are written as root, and only if there are none", async () => {
    await commands.writeSettings("hall", "/dev/ttyUSB0");
    assert.deepEqual(written, [["/etc/default/enogate-hall", { superuser: "require" }, "SERIAL=/dev/ttyUSB0\n", "-"]]);
});

test("the gateway that was open last is opened first, or one that runs, or the first one", async () => {
    const names = ["attic", "hall", "yard"];
    outputs.set(`${places.serviceStateCommand("yard").join(" ")}`, "ActiveState=active\n");
    assert.equal(await commands.firstGateway(names, "attic"), "attic");
    assert.equal(started.length, 0);
    for (const last of [null, "shed", "__proto__"])
        assert.equal(await commands.firstGateway(names, last), "yard");
    outputs.set(`${places.serviceStateCommand("hall").join(" ")}`, "ActiveState=active\n");
    assert.equal(await commands.firstGateway(names, null), "hall");
    outputs = new Map([["systemctl", "ActiveState=failed\n"]]);
    assert.equal(await commands.firstGateway(names, null), "attic");
    failure = { problem: "not-found" };
    assert.equal(await commands.firstGateway(names, null), "attic");
    assert.equal(await commands.firstGateway([], "hall"), undefined);
});

test("what only reads needs no administrative rights", async () => {
    await commands.gatewayNames();
    await commands.serviceState("hall");
    await commands.hasStick("/dev/enocean");
    await commands.serialPorts();
    await commands.recordedDevices("hall");
    for (const { words, options } of started)
        assert.equal(options.superuser, "try", words.join(" "));
    assert.deepEqual(last().words, ["enogatectl", "--json", "hall", "devices"]);
});

test("the words of each command are an array of texts", async () => {
    await Promise.all([commands.gatewayNames(), commands.serviceState("hall"), commands.hasStick("/dev/enocean"),
                       commands.recordedDevices("hall"), commands.serialPorts(), commands.moduleBase("/dev/enocean"),
                       commands.controlService("hall", "enable", "--now")]);
    assert.equal(started.length, 7);
    for (const { words } of started) {
        assert.ok(Array.isArray(words) && words.every(word => typeof word === "string"), String(words));
        assert.ok(!["sh", "bash"].includes(words[0]), String(words));
    }
});

test("outputs are read, also those of a command that fails in part", async () => {
    outputs.set("enogatectl paths", '{"hall":{},"yard":{}}\n');
    outputs.set("systemctl", "ActiveState=active\nSubState=running\n");
    outputs.set("enogatectl", `${JSON.stringify({ ...DEVICE, dbm: null, readings: [], seen: 5 })}\n`);
    outputs.set("/etc/default/enogate", "BASE=\nSERIAL=/dev/enocean\n");
    outputs.set("/etc/default/enogate-hall", "BASE=FFA1B280\n");
    for (const ends of [null, { exit_status: 1 }]) {
        failure = ends;
        assert.deepEqual(await commands.gatewayNames(), ["hall", "yard"]);
        assert.deepEqual(await commands.serviceState("hall"), { ActiveState: "active", SubState: "running" });
        assert.deepEqual(await commands.recordedDevices("hall"), [{ ...DEVICE, dbm: null, readings: [], seen: 5000 }]);
    }
    assert.deepEqual([...await commands.readSettings("hall")], [["BASE", "FFA1B280"], ["SERIAL", "/dev/enocean"]]);
    assert.equal((await commands.readSettings("yard")).get("SERIAL"), "/dev/enocean");
});

test("a stick is plugged in, is not, or this is not known", async () => {
    assert.equal(await commands.hasStick("/dev/enocean"), true);
    assert.deepEqual(last().words, ["test", "-c", "/dev/enocean"]);
    failure = { exit_status: 1 };
    assert.equal(await commands.hasStick("/dev/enocean"), false);
    failure = { problem: "access-denied" };
    assert.equal(await commands.hasStick("/dev/enocean"), null);
});

test("systemd that does not answer, and devices that may not be read", async () => {
    failure = { problem: "not-found" };
    assert.equal(await commands.serviceState("hall"), null);
    assert.deepEqual(await commands.recordedDevices("hall"), []);
});
