import assert from "node:assert/strict";
import { test } from "node:test";

import "./page.mjs";
import * as health from "../../contrib/cockpit/enogate/health.js";
import { Model } from "../../contrib/cockpit/enogate/model.js";
import { HOSTILE, LIST, PACKET, READING, RESPONSE, STATUS } from "./samples.mjs";

const MINUTE = 60000;
const NOW = 100 * MINUTE;
const RUNNING = { ActiveState: "active", SubState: "running" };
const CLOSED = { ...STATUS, mode: "closed" };

/** A model with these devices: the end of the ID, the signal, and when it was heard. */
function modelOf(...devices) {
    const model = new Model(0);
    for (const [id, dbm, time] of devices)
        model.take({ ...READING, id: `01800A${id}`, dbm }, time);
    model.take(CLOSED, NOW);
    model.take(PACKET, NOW);
    return model;
}

/** What needs attention: the level, the text and the button of each problem. */
function attention(model, { sent = new Map(), minutes = 10, ...more } = {}) {
    const groups = health.devicesByState(model, sent, NOW, minutes);
    const facts = { name: "hall", why: "", states: RUNNING, hasStick: true, settings: new Map(), space: null };
    return health.findProblems({ ...facts, model, groups, now: NOW, ...more });
}
const texts = (...given) => attention(...given).map(({ level, text, action }) => `${level}: ${text} [${action}]`);

test("a signal has one to four bars, and one bar is weak", () => {
    const levels = [null, -100, -86, -85, -76, -75, -66, -65, 0];
    assert.deepEqual(levels.map(health.signalBars), [0, 1, 1, 2, 2, 3, 3, 4, 4]);
    const devices = new Map(levels.map((dbm, number) => [String(number), { dbm, received: NOW, readings: new Map() }]));
    const { weak } = health.devicesByState({ devices, opened: 0 }, new Map(), NOW, 1);
    assert.deepEqual(weak.map(([, { dbm }]) => dbm), [-100, -86]);
});

test("a device that was not received since the page was opened is quiet after the same time", () => {
    const { isQuiet } = health;
    assert.ok(!isQuiet({ received: 60000 }, 0, 120000, 1));
    assert.ok(isQuiet({ received: 60000 }, 0, 120001, 1));
    assert.ok(isQuiet({ received: null, recorded: null }, 0, 60001, 1));
    assert.ok(!isQuiet({ received: null, recorded: null }, 0, 1e12, Infinity));
    assert.ok(isQuiet({ received: null, recorded: 500000 }, 600000, 600001, 1));
    assert.ok(!isQuiet({ received: null, recorded: 570000 }, 600000, 600001, 1));
});

test("without a time, a device is silent after three usual intervals of its profile", () => {
    const isQuiet = (eep, seconds) => health.isQuiet({ eep, received: 0 }, 0, 1000 * seconds, null);
    for (const [eep, seconds] of [["A5-02-05", 3 * 1200], ["D5-00-01", 3 * 1800]])
        assert.deepEqual([isQuiet(eep, seconds), isQuiet(eep, seconds + 0.001)], [false, true], eep);
    assert.deepEqual(["F6-02-01", "D2-01-12", "A5-12-01", "D2-FF-FF"].map(eep => isQuiet(eep, 1e9)),
                     Array(4).fill(false));
});

test("a device whose supply voltage is low is listed, and many are counted", () => {
    const volts = (num, den) => [{ name: "SVC", num, den, unit: "V" }];
    const take = (model, id, readings) =>
        model.take({ ...READING, id: `01800A${id}`, eep: "A5-08-01", dbm: -50, readings }, NOW);
    const model = modelOf();
    take(model, "01", volts(249, 100));
    take(model, "02", volts(5, 2));
    take(model, "03", [{ name: "SVC", word: "error" }]);
    take(model, "04", [{ name: "PIRS", word: "on" }]);
    assert.deepEqual(attention(model).map(({ level, text, target }) => [level, text, target]),
                     [["warn", "01800A01 has a low battery: 2.49 V", "#/device/01800A01"]]);
    for (const id of ["02", "03", "04"])
        take(model, id, volts(2, 1));
    const [{ text, detail, target }] = attention(model);
    assert.deepEqual([text, detail, target], ["4 devices have a low battery", "01800A01, 01800A02, 01800A03 …",
                                              "#/devices/battery"]);
});

test("little space on the disk needs attention, also if the gateway works", () => {
    const model = modelOf(["01", -50, NOW]);
    assert.deepEqual(texts(model, { space: 99 }), ["warn: Only 99 MB are free on the disk [undefined]"]);
    assert.deepEqual([null, 100, 5000].map(space => texts(model, { space })), [[], [], []]);
    assert.deepEqual(texts(model, { space: 0, states: { ActiveState: "failed" } }),
                     ["bad: The gateway hall is stopped [Start]", "warn: Only 0 MB are free on the disk [undefined]"]);
});

test("devices are grouped by what is known of them", () => {
    const model = modelOf(["01", -50, NOW], ["02", -90, NOW - 20 * MINUTE], ["03", -85, null]);
    model.opened = NOW - MINUTE;
    model.take({ ...READING, id: "01800A04", eep: "D2-01-00", dbm: -86, readings: [] }, NOW);
    const sent = new Map([["01800A04", { order: ["query", "01800A04", "0"], at: 0, done: 0, error: "" }],
                          ["01800A99", { order: ["query", "01800A99", "0"], at: 0, done: 0, error: "" }]]);
    const groups = health.devicesByState(model, sent, NOW, 10);
    const ids = Object.fromEntries(Object.entries(groups).map(([name, found]) =>
        [name, found.map(([id]) => id.slice(-2)).join()]));
    assert.deepEqual(ids, { all: "01,02,03,04", silent: "02", heard: "01,04", weak: "02,04", actuators: "04",
                            unanswered: "04", misfit: "", unheard: "", battery: "" });
    const sentence = minutes => health.heardSentence(health.devicesByState(model, sent, NOW, minutes), model, minutes);
    assert.equal(sentence(10), "2 of 4 devices were heard in the last 10 min; for 1 this is not known yet.");
    assert.equal(sentence(120), "3 of 4 devices were heard in the last 2 h; for 1 this is not known yet.");
    assert.match(sentence(60 * 1.1), / 1\.1 h; /);
    assert.equal(sentence(Infinity), "3 of 4 devices were heard; for 1 this is not known yet.");
    for (const id of ["05", "06"])
        model.device(`01800A${id}`, "D5-00-01");
    assert.equal(sentence(120), "3 of 6 devices were heard in the last 2 h; for 1 this is not known yet. " +
                 "2 devices were never heard.");
    // One is silent if the page was open for this time.
    assert.equal(sentence(0.5), "2 of 6 devices were heard in the last 0.5 min.");
    model.devices.delete("01800A03");
    model.devices.delete("01800A06");
    assert.equal(sentence(Infinity), "3 of 4 devices were heard. 1 device was never heard.");
    model.devices.delete("01800A05");
    assert.equal(sentence(24 * 60), "All 3 devices were heard in the last 24 h.");
});

test("no devices are learned, or this is not known", () => {
    const model = new Model(0);
    const sentence = () => health.heardSentence(health.devicesByState(model, new Map(), 0, 1), model, 1);
    assert.equal(sentence(), "The devices are not known yet.");
    assert.deepEqual(texts(model).filter(text => text.includes("learned")), []);
    model.take({ ...LIST, count: 0 }, 0);
    assert.equal(sentence(), "No device is learned yet.");
});

test("nothing needs attention if all is well", () => {
    assert.deepEqual(attention(modelOf(["01", -50, NOW])), []);
});

test("everything is all right only if each device was heard", () => {
    const verdict = (levels, all, heard) =>
        health.verdictOf(levels.map(level => ({ level })), { all: Array(all), heard: Array(heard) }).join(": ");
    assert.equal(verdict(["info"], 2, 2), "good: Everything is all right");
    assert.deepEqual([verdict([], 2, 1), verdict([], 0, 0)], Array(2).fill("info: No fault is known"));
    assert.equal(verdict(["warn", "info"], 2, 2), "warn: One thing needs attention");
    assert.equal(verdict(["bad", "info", "warn"], 2, 2), "bad: 2 things need attention");
});

test("what is wrong with the gateway comes first", () => {
    const model = modelOf(["01", -90, NOW]);
    const weak = "warn: 01800A01 has a weak signal: -90 dBm [Show]";
    assert.deepEqual(texts(model, { states: { ActiveState: "failed" } }),
                     ["bad: The gateway hall is stopped [Start]", weak]);
    assert.deepEqual(texts(model, { hasStick: false, settings: new Map([["SERIAL", "/dev/x"]]) }),
                     ["bad: No stick at /dev/x [Journal]", weak]);
    assert.deepEqual(texts(model, { why: "why" }), ["bad: The lines cannot be read [Journal]", weak]);
    model.take(RESPONSE, NOW);
    const settings = new Map([["BASE", "FF800000"]]);
    const wrong = "bad: BASE is FF800000, but the base ID of the radio module is FFA1B280 [Restart]";
    assert.deepEqual(texts(model, { settings }), [wrong, weak]);
    // A stopped gateway may get another stick.
    assert.equal(texts(model, { settings, hasStick: false }).includes(wrong), false);
});

test("an open learn window, and packets that do not come, need no haste", () => {
    const model = modelOf(["01", -50, NOW]);
    model.take({ ...STATUS, mode: "on" }, NOW);
    model.hasPackets = false;
    const settings = new Map([["SERIAL", "/dev/x"], ["EXPLAIN", ""]]);
    assert.deepEqual(texts(model, { settings }), ["info: The learn window is open [Close]",
                                                  "info: No packet line has arrived [Restart]"]);
    assert.deepEqual(texts(model, { states: { ActiveState: "inactive" } }),
                     ["bad: The gateway hall is stopped [Start]", "info: The learn window is open [Close]"]);
    const empty = new Model(0);
    empty.take({ ...LIST, count: 0 }, NOW);
    empty.take(PACKET, NOW);
    assert.deepEqual(texts(empty), ["info: No device is learned [Add]"]);
});

test("packet lines are asked for only if the settings turn them off", () => {
    const model = new Model(0);
    model.take({ ...LIST, count: 0 }, NOW);
    const [learned, hint, silence] = ["info: No device is learned [Add]", "info: No packet line has arrived [Restart]",
                                      "info: Nothing was heard yet [undefined]"];
    const seen = (...settings) => texts(model, { settings: new Map(settings) });
    const serial = ["SERIAL", "/dev/x"];
    assert.deepEqual(seen(serial), [learned, hint]);
    assert.deepEqual(seen(serial, ["EXPLAIN", ""]), [learned, hint]);
    assert.deepEqual(seen(serial, ["EXPLAIN", "--explain"]), [learned, silence]);
    assert.equal(attention(model).at(-1).detail, "Press a button of a device near the stick.");
    // The settings are not known yet.
    assert.deepEqual(seen(), [learned, silence]);
    const heard = modelOf(["01", -50, NOW]);
    heard.hasPackets = false;
    assert.deepEqual(texts(heard, { settings: new Map([["EXPLAIN", "--explain"]]) }), []);
    assert.deepEqual(texts(model, { states: { ActiveState: "inactive" } }),
                     ["bad: The gateway hall is stopped [Start]", learned]);
});

test("up to three devices with a problem have a line each, and more of them one", () => {
    const many = count => Array.from({ length: count }, (_, index) => [`0${index}`, -90, NOW]);
    assert.equal(attention(modelOf(...many(3))).length, 3);
    const [found, ...others] = attention(modelOf(...many(4)));
    assert.deepEqual([found.text, found.detail, found.target, others], [
        "4 devices have a weak signal", "01800A00, 01800A01, 01800A02 …", "#/devices/weak", [],
    ]);
    assert.deepEqual(attention(modelOf(["01", -90, NOW])).map(({ target }) => target), ["#/device/01800A01"]);
});

test("a device whose last telegram its profile does not fit is listed, and many are counted", () => {
    const ids = ["01", "02", "03", "04"];
    const model = modelOf(...ids.map(id => [id, -50, NOW]));
    const take = (id, why) => model.take({ ...PACKET, id: `01800A${id}`, why }, NOW);
    take("01", "wrong_kind");
    take("02", "wrong_length");
    take("03", "other_message");
    model.devices.get("01800A02").label = "<b>";
    assert.deepEqual(texts(model), ["warn: The last telegram of 01800A01 does not fit its profile [Show]",
                                    "warn: The last telegram of <b> does not fit its profile [Show]"]);
    const [found] = attention(model);
    assert.deepEqual([found.target, found.detail],
                     ["#/device/01800A01", "Press Show, then Edit, and choose another profile."]);
    ids.forEach(id => take(id, "wrong_kind"));
    assert.deepEqual(attention(model).map(({ text, target }) => [text, target]),
                     [["The last telegrams of 4 devices do not fit their profiles", "#/devices/misfit"]]);
    ids.forEach(id => model.take({ ...READING, id: `01800A${id}` }, NOW));
    assert.deepEqual(texts(model), []);
});

test("a silent device is not listed again for its weak signal", () => {
    const model = modelOf(["01", -90, NOW - 20 * MINUTE], ["02", -50, null]);
    assert.deepEqual(texts(model), ["warn: 01800A01 was last heard 20 min ago [Show]",
                                    "warn: 01800A02 has not been heard [Show]"]);
});

test("a device that did not answer is listed by its label, whatever it contains", () => {
    for (const label of HOSTILE.filter(Boolean)) {
        const model = modelOf(["01", -50, NOW]);
        model.devices.get("01800A01").label = label;
        const sent = new Map([["01800A01", { order: ["blind", "01800A01", "0"], at: NOW, done: 0, error: "" }]]);
        // Its reading at this time is no answer to an order that was given later.
        sent.get("01800A01").at = NOW + 1;
        const [found] = attention(model, { sent });
        assert.deepEqual([found.level, found.text, found.target],
                         ["warn", `${label} did not answer an order`, "#/device/01800A01"]);
        // It may have no power, or may never have been taught in.
        assert.match(found.detail, /^Does it have power\? .* never obeyed, it has to learn this gateway: open the learn /);
    }
});
