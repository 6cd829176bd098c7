import assert from "node:assert/strict";
import { test } from "node:test";

import * as limits from "../../contrib/cockpit/enogate/model.js";
import { TABLES } from "../../contrib/cockpit/enogate/tables.js";
import { DEVICE, ERROR, LIST, OK, OTHER_PACKET, PACKET, READING, RESPONSE, STATUS, TAUGHT } from "./samples.mjs";

const {
    lastHeardTime, MAX_DEVICES, MAX_PACKETS, MAX_PLOT_POINTS, MAX_TEACH_RESULTS, MAX_UNKNOWN_SENDERS, Model,
} = limits;
const hexId = number => number.toString(16).toUpperCase().padStart(8, "0");

/** A model that has taken these lines, one each second. */
function modelOf(...lines) {
    const model = new Model(0);
    lines.forEach((line, index) => model.take(line, 1000 * (index + 1)));
    return model;
}

const values = (model, id) => [...model.devices.get(id).readings.values()].map(({ reading }) => reading.name);

test("a reading makes a device, which was received now", () => {
    const model = modelOf(READING);
    const device = model.devices.get("01800ABC");
    assert.deepEqual([device.eep, device.dbm, device.received, device.label], ["A5-02-05", -45, 1000, ""]);
    assert.deepEqual([...device.readings.values()][0].values, [[1000, 1024 / 51]]);
});

test("an earlier reading has neither a time nor a place in the plot", () => {
    const model = new Model(0);
    model.take(READING, null);
    const device = model.devices.get("01800ABC");
    assert.equal(device.received, null);
    assert.deepEqual([...device.readings.values()][0].values, []);
});

test("a plot keeps the last values", () => {
    const model = modelOf(...Array(MAX_PLOT_POINTS + 5).fill(READING));
    const [{ values: kept }] = model.devices.get("01800ABC").readings.values();
    assert.equal(kept.length, MAX_PLOT_POINTS);
    assert.equal(kept[0][0], 6000);
});

test("the channels of an actuator have readings of their own", () => {
    const state = channel => {
        const readings = [{ name: "IO", raw: channel }, { name: "OV", num: 10 * channel, den: 1, unit: "%" }];
        return { ...READING, eep: "D2-01-12", readings };
    };
    const device = modelOf(state(0), state(1), state(0)).devices.get("01800ABC");
    const outputs = [...device.readings.values()].filter(({ reading }) => reading.name === "OV");
    assert.deepEqual(outputs.map(({ channel, reading }) => [channel, reading.num]), [[0, 0], [1, 10]]);
});

test("a meter's total and its power are two readings, and the light of a sensor is one", () => {
    const meter = unit => ({ ...READING, eep: "A5-12-01", readings: [{ name: "MR", num: 1, den: 1, unit }] });
    assert.deepEqual(values(modelOf(meter("kWh"), meter("W")), "01800ABC"), ["MR", "MR"]);
    const light = name => ({ ...READING, eep: "A5-06-01", readings: [{ name, num: 1, den: 1, unit: "lx" }] });
    assert.deepEqual(values(modelOf(light("ILL1"), light("ILL2")), "01800ABC"), ["ILL2"]);
});

test("a telegram of a switch replaces the one before", () => {
    const telegram = (...readings) => ({ ...READING, eep: "F6-02-01", readings });
    const press = telegram({ name: "R1", word: "BI" }, { name: "EB", word: "pressed" });
    const release = telegram({ name: "buttons", word: "none" }, { name: "EB", word: "released" });
    assert.deepEqual(values(modelOf(press, release), "01800ABC"), ["buttons", "EB"]);
});

test("another profile removes the readings and keeps the label", () => {
    const model = modelOf(DEVICE, LIST, { ...TAUGHT, eep: "A5-02-05" }, READING, TAUGHT);
    const device = model.devices.get("01800ABC");
    assert.deepEqual([device.eep, device.label, device.readings.size], ["D5-00-01", "Front door", 0]);
});

test("a complete list is what is learned", () => {
    const model = modelOf({ ...READING, id: "01800AC9" }, DEVICE, LIST);
    assert.deepEqual([...model.devices.keys()], ["01800ABC"]);
    assert.equal(model.isListed, true);
});

test("a list whose beginning is missing changes nothing", () => {
    const model = modelOf(READING, DEVICE, { ...LIST, count: 2 });
    assert.deepEqual([...model.devices.keys()], ["01800ABC"]);
    assert.deepEqual([model.isListed, model.devices.get("01800ABC").label], [false, ""]);
    model.take({ ...LIST, count: 1 }, 9000);
    assert.equal(model.isListed, false);
});

test("a list after one whose end is missing changes nothing", () => {
    // The gateway was started again while it answered. Its device was deleted meanwhile.
    const model = modelOf({ ...DEVICE, id: "01800AC1" }, DEVICE, { ...LIST, count: 1 });
    assert.deepEqual([model.isListed, [...model.devices.keys()]], [false, []]);
    model.take(DEVICE, 9000);
    model.take({ ...LIST, count: 1 }, 9000);
    assert.deepEqual([model.isListed, [...model.devices.keys()]], [true, ["01800ABC"]]);
});

const RECORDED = { ...DEVICE, seen: 500, dbm: -60, readings: [{ name: "CO", word: "open" }] };

test("recorded devices are shown with their labels and times until there is a list", () => {
    const model = new Model(0);
    model.take({ ...READING, id: "01800ABC", eep: "D5-00-01", readings: [] }, null);
    model.takeRecorded([RECORDED, { ...RECORDED, id: "01800ABD", label: "", seen: null }]);
    const shown = [...model.devices].map(([id, device]) => [id, device.eep, device.label, lastHeardTime(device)]);
    assert.deepEqual(shown, [["01800ABC", "D5-00-01", "Front door", 500], ["01800ABD", "D5-00-01", "", null]]);
    assert.deepEqual([model.isRecorded, model.isListed], [true, false]);
    model.take({ ...DEVICE, label: "New" }, 1000);
    model.take(LIST, 1000);
    assert.deepEqual([...model.devices].map(([id, device]) => [id, device.label, lastHeardTime(device)]),
                     [["01800ABC", "New", 500]]);
});

test("a list that was read before the recorded devices is newer; only their times are used", () => {
    const model = modelOf({ ...DEVICE, label: "New" }, LIST);
    model.takeRecorded([RECORDED, { ...RECORDED, id: "01800ABD" }]);
    assert.deepEqual([...model.devices].map(([id, device]) => [id, device.label, lastHeardTime(device)]),
                     [["01800ABC", "New", 500]]);
});

test("a device that was learned again with another profile is not the recorded one", () => {
    const model = modelOf({ ...TAUGHT, eep: "A5-02-05" });
    model.takeRecorded([RECORDED]);
    const device = model.devices.get("01800ABC");
    assert.deepEqual([device.eep, device.label, device.recorded], ["A5-02-05", "", null]);
});

test("a telegram is later than a recorded one", () => {
    const model = new Model(0);
    model.takeRecorded([{ ...RECORDED, eep: READING.eep }]);
    model.take(READING, null);
    assert.equal(lastHeardTime(model.devices.get("01800ABC")), 500);
    model.take(READING, 9000);
    assert.equal(lastHeardTime(model.devices.get("01800ABC")), 9000);
});

test("a time from before a reload holds until a telegram arrives, or a time is recorded", () => {
    const timeAfter = (...calls) => {
        const model = new Model(0, new Map([[DEVICE.id, 600]]));
        calls.forEach(call => call(model));
        return lastHeardTime(model.devices.get(DEVICE.id));
    };
    const line = { ...READING, id: DEVICE.id, eep: DEVICE.eep };
    const recorded = seen => model => model.takeRecorded([{ ...DEVICE, seen, dbm: null, readings: [] }]);
    assert.equal(timeAfter(model => model.take(line, null)), 600);
    assert.equal(timeAfter(model => model.take(line, null), recorded(null)), 600);
    assert.equal(timeAfter(recorded(null)), 600);
    assert.equal(timeAfter(recorded(700)), 700);
    assert.equal(timeAfter(recorded(700), model => model.take(line, 800)), 800);
});

test("recorded readings are shown, without a time, until the lines have readings of the device", () => {
    const model = new Model(0);
    const shown = () => [...model.devices.get("01800ABC").readings.values()].map(({ reading }) => reading.word);
    model.takeRecorded([RECORDED]);
    const { dbm, received } = model.devices.get("01800ABC");
    assert.deepEqual([shown(), dbm, received], [["open"], -60, null]);
    model.take({ ...READING, eep: "D5-00-01", readings: [{ name: "CO", word: "closed" }] }, null);
    model.takeRecorded([RECORDED]);
    assert.deepEqual([shown(), model.devices.get("01800ABC").dbm], [["closed"], -45]);
    model.take({ ...DEVICE, eep: "D5-00-01" }, 1000);
    model.take(LIST, 1000);
    assert.deepEqual(shown(), ["closed"]);
});

test("a recorded number has no place in the plot", () => {
    const model = new Model(0);
    model.takeRecorded([{ ...RECORDED, eep: READING.eep, readings: READING.readings }]);
    const [{ values: before }] = model.devices.get("01800ABC").readings.values();
    assert.deepEqual(before, []);
});

test("nothing is recorded", () => {
    const model = new Model(0);
    model.takeRecorded([]);
    assert.equal(model.isRecorded, false);
});

test("an ID that is the name of a member is a device like all others", () => {
    const model = modelOf({ ...DEVICE, id: "__proto__", label: "x" }, LIST);
    assert.equal(model.devices.get("__proto__").label, "x");
    assert.equal({}.label, undefined);
});

test("more devices than a gateway can learn are counted and left out", () => {
    const model = new Model(0);
    for (let number = 0; number < MAX_DEVICES + 7; number++)
        model.take({ ...READING, id: hexId(number) }, 1);
    assert.deepEqual([model.devices.size, model.devicesLeftOut], [MAX_DEVICES, 7]);
});

test("a list that replaces all devices of a full model is shown as a whole", () => {
    const model = new Model(0);
    for (let number = 0; number < MAX_DEVICES; number++)
        model.take({ ...READING, id: hexId(number) }, 1);
    model.take(DEVICE, 2);
    model.take(LIST, 2);
    assert.deepEqual([...model.devices.keys()], ["01800ABC"]);
});

test("a list of more devices than a gateway can have is not read", () => {
    const model = new Model(0);
    for (let number = 0; number <= MAX_DEVICES; number++)
        model.take({ ...DEVICE, id: hexId(number) }, 1);
    model.take({ ...LIST, count: MAX_DEVICES + 1 }, 1);
    assert.deepEqual([model.devices.size, model.isListed], [0, false]);
});

test("an unknown sender has its strongest signal, its count and its last reason", () => {
    const query = { ...PACKET, dbm: null, why: "window_closed", eep: "F6-02-01" };
    const model = modelOf({ ...PACKET, dbm: -80 }, { ...PACKET, dbm: -50 }, query, PACKET);
    assert.deepEqual(model.unknown.get("01800AC1"),
                     { rorg: "F6", why: "unknown_sender", best: -45, eep: "F6-02-01", count: 4, received: 4000,
                       number: 4 });
});

test("a learned sender is not unknown, and is none after it was learned", () => {
    const taught = { ...TAUGHT, id: PACKET.id };
    assert.equal(modelOf(taught, PACKET).unknown.size, 0);
    assert.equal(modelOf(PACKET, taught).unknown.size, 0);
    assert.equal(modelOf(PACKET, { ...DEVICE, id: PACKET.id }, LIST).unknown.size, 0);
    assert.equal(modelOf(taught, { ...taught, result: "deleted" }, PACKET).unknown.size, 1);
});

test("of the reasons of packets, six are those of unknown senders", () => {
    const learnable = ["unknown_sender", "window_closed", "other_mode", "no_profile", "unsupported", "full"];
    const found = TABLES.reason.map(([why]) => why).filter(why => modelOf({ ...PACKET, why }).unknown.size === 1);
    assert.deepEqual(found.sort(), learnable.sort());
    const model = modelOf(OTHER_PACKET);
    assert.deepEqual([model.unknown.size, model.packets.length, model.hasPackets], [0, 1, true]);
});

test("lists are limited, and the oldest entries are left out", () => {
    const model = new Model(0);
    for (let number = 0; number < 3000; number++) {
        model.take({ ...PACKET, id: hexId(number) }, number);
        model.take({ ...TAUGHT, id: hexId(number), result: "full" }, number);
    }
    assert.deepEqual([model.unknown.size, model.unknownLeftOut], [MAX_UNKNOWN_SENDERS, 3000 - MAX_UNKNOWN_SENDERS]);
    assert.ok(model.packets.length >= MAX_PACKETS && model.packets.length <= 2 * MAX_PACKETS);
    assert.equal(model.taught.length, MAX_TEACH_RESULTS);
    assert.equal([...model.unknown.keys()].at(-1), hexId(2999));
    assert.equal(model.packets.at(-1).line.id, hexId(2999));
});

test("status has the learn window and the counters", () => {
    const model = modelOf(STATUS);
    assert.equal(model.mode, "as F6-02-01");
    assert.deepEqual(model.counters, { time: 1000, readings: 2, teach: 5, responses: 4, ignored: 1, refused: 3 });
});

test("only a base ID is the base ID", () => {
    assert.equal(modelOf(RESPONSE).base, "FFA1B280");
    for (const data of ["", "00", "FFA1B281", "01800ABC", "FFFFFFFF", "FFFFFF80FF", "FF7FFF80"])
        assert.equal(modelOf({ ...RESPONSE, data }).base, null, data);
    assert.equal(modelOf({ ...RESPONSE, code: 1 }).base, null);
});

test("a teach line without a profile, an error and ok change no device", () => {
    const model = modelOf({ ...TAUGHT, eep: null, result: "no_profile" }, { ...TAUGHT, eep: null }, ERROR, OK);
    assert.equal(model.devices.size, 0);
    assert.equal(model.taught.length, 2);
});

test("a packet has the readings of the line that directly follows it", () => {
    const packet = { ...PACKET, id: READING.id, why: "read" };
    const model = modelOf(packet, READING, packet, { ...READING, id: "01800AFF" }, packet, STATUS, READING, packet);
    const value = { reading: READING.readings[0], channel: null };
    assert.deepEqual(model.packets.map(({ readings }) => readings), [[value], undefined, undefined, undefined]);
    const output = { ...READING, eep: "D2-01-12", readings: [{ name: "IO", raw: 1 }, { name: "OV", raw: 0 }] };
    assert.deepEqual(modelOf(packet, output).packets[0].readings.map(({ channel }) => channel), [1, 1]);
});

test("each reading has the time at which it was received", () => {
    const model = new Model(0);
    const times = () => [...model.devices.get(READING.id).readings.values()].map(({ received }) => received);
    model.take(READING, null);
    assert.deepEqual(times(), [null]);
    model.take({ ...READING, readings: [...READING.readings, { name: "HUM", raw: 1 }] }, 5);
    model.take({ ...READING, readings: [{ name: "HUM", raw: 1 }] }, 7);
    assert.deepEqual(times(), [5, 7]);
});

test("the learn window is open in each mode but one, and not if no mode is known", () => {
    const isOpen = mode => modelOf({ ...STATUS, mode }).isWindowOpen;
    assert.deepEqual([isOpen("on"), isOpen("answer"), isOpen("as F6-02-01"), isOpen("closed"),
                      new Model(0).isWindowOpen],
                     [true, true, true, false, false]);
});

/** A telegram of the device, and what became of it. */
const packet = (why, more = {}) => ({ ...PACKET, id: DEVICE.id, why, ...more });

test("each packet of a learned device counts as heard, with its signal, whatever became of it", () => {
    for (const why of ["other_message", "wrong_kind", "window_closed", "for_others", "refused"]) {
        const { devices, unknown } = modelOf(DEVICE, LIST, packet(why, { dbm: -71 }));
        const { received, dbm, hasSent, readings } = devices.get(DEVICE.id);
        assert.deepEqual([received, dbm, hasSent, readings.size, unknown.size], [3000, -71, true, 0, 0], why);
    }
    const { devices } = modelOf(DEVICE, LIST, READING, packet("for_others", { dbm: null }), PACKET);
    assert.deepEqual([devices.get(DEVICE.id).received, devices.get(DEVICE.id).dbm], [4000, -45]);
});

test("a device that is listed after its packets was heard, too, and one without packets was not", () => {
    const other = { ...DEVICE, id: "01800AC9" };
    const model = modelOf(packet("wrong_kind"), packet("wrong_length"), PACKET, DEVICE, other, { ...LIST, count: 2 });
    const [{ received, misfit, hasSent }, silent] = [DEVICE, other].map(({ id }) => model.devices.get(id));
    assert.deepEqual([received, misfit, hasSent], [2000, "F6", true]);
    assert.deepEqual([silent.received, silent.misfit, Boolean(silent.hasSent)], [null, null, false]);
    const earlier = new Model(0);
    earlier.take(packet("wrong_kind"), null);
    earlier.takeRecorded([{ ...DEVICE, seen: null, dbm: null, readings: [] }]);
    assert.deepEqual([earlier.devices.get(DEVICE.id).received, earlier.devices.get(DEVICE.id).hasSent], [null, true]);
});

test("a telegram that does not fit the profile is known until the next one, or until the next profile", () => {
    const misfit = (...lines) => modelOf(DEVICE, LIST, ...lines).devices.get(DEVICE.id).misfit;
    const wrong = packet("wrong_kind", { rorg: "A5" });
    assert.equal(misfit(wrong), "A5");
    assert.equal(misfit(packet("wrong_length", { rorg: "D5" })), "D5");
    for (const next of [packet("read"), packet("other_message"), { ...READING, eep: DEVICE.eep }, TAUGHT,
                        { ...TAUGHT, eep: "A5-02-05" }])
        assert.equal(misfit(wrong, next), null, JSON.stringify(next));
    // The list has another profile, so it was learned after that telegram.
    assert.equal(misfit(wrong, { ...DEVICE, eep: "A5-02-05" }, LIST), null);
    for (const next of [{ ...TAUGHT, eep: null, result: "no_profile" }, PACKET, STATUS])
        assert.equal(misfit(wrong, next), "A5", JSON.stringify(next));
    // It was learned with another profile after that telegram.
    assert.equal(modelOf(wrong, { ...TAUGHT, eep: "A5-02-05" }).devices.get(DEVICE.id).misfit, null);
});
