import assert from "node:assert/strict";
import { readFileSync } from "node:fs";
import { test } from "node:test";

import "./page.mjs";
import { answerTimeout, orderStateOf, startedOrder } from "../../contrib/cockpit/enogate/answers.js";
import { Model } from "../../contrib/cockpit/enogate/model.js";
import { ALL_CHANNELS } from "../../contrib/cockpit/enogate/orders.js";
import { READING } from "./samples.mjs";

const ID = READING.id;
const AT = 1000;

/** A device that has sent telegrams of these channels, each with its time. */
function device(eep, ...telegrams) {
    const model = new Model(0);
    model.take({ ...READING, eep, readings: [] }, 0);
    for (const [channel, time] of telegrams) {
        const readings = [{ name: "OV", num: 0, den: 1, unit: "%" }];
        if (channel !== null)
            readings.push({ name: "IO", raw: channel });
        model.take({ ...READING, eep, readings }, time);
    }
    return model.devices.get(ID);
}

/** An order that was given at 1000 and sent at 2000. */
const sent = order => ({ ...startedOrder(order, AT), done: 2000 });

test("an order is being sent, then it was sent, and then it was not answered", () => {
    const order = startedOrder(["switch", ID, "0", "on"], AT);
    const silent = device("D2-01-12", [0, AT - 1]);
    assert.equal(orderStateOf(order, silent, 1e9), "sending");
    order.done = 2000;
    const states = [2000, 4999, 5000].map(now => orderStateOf(order, silent, now));
    assert.deepEqual(states, ["sent", "sent", "silent"]);
    order.error = "why";
    assert.equal(orderStateOf(order, device("D2-01-12", [0, AT]), 2000), "failed");
});

test("a reading of the channel answers, also if it comes before the end of the order", () => {
    for (const order of [["switch", ID, "1", "on"], ["dim", ID, "1", 5], ["query", ID, "1"],
                         ["meter", ID, "1", "power"]]) {
        for (const [channel, time, wanted] of [[1, AT, "answered"], [1, AT + 9e9, "answered"], [1, AT - 1, "silent"],
                                               [0, AT, "silent"], [1, null, "silent"]]) {
            const state = orderStateOf(sent(order), device("D2-01-12", [channel, time]), 1e6);
            assert.equal(state, wanted, `${order} ${channel}`);
        }
    }
    const early = startedOrder(["switch", ID, "0", "on"], AT);
    assert.equal(orderStateOf(early, device("D2-01-12", [0, AT]), AT), "answered");
});

test("any channel answers an order to all channels, and any reading one to a device without channels", () => {
    const all = ["switch", ID, String(ALL_CHANNELS), "on"];
    assert.equal(orderStateOf(sent(all), device("D2-01-12", [1, AT]), 1e6), "answered");
    assert.equal(orderStateOf(sent(["query", ID, "0"]), device("D2-05-00", [null, AT]), 1e6), "answered");
});

test("a blind has more time", () => {
    const still = device("D2-05-00");
    const states = order => [4999, 5000, 121999, 122000].map(now => orderStateOf(sent(order), still, now));
    assert.deepEqual(states(["blind", ID, 100]), ["sent", "sent", "sent", "silent"]);
    assert.deepEqual(states(["query", ID, "0"]), ["sent", "silent", "silent", "silent"]);
    // A blind that stood still already need not report that.
    assert.deepEqual(states(["stop", ID]), ["sent", "sent", "sent", "sent"]);
    for (const order of [["blind", ID, 100], ["stop", ID]])
        assert.equal(orderStateOf(sent(order), device("D2-05-00", [null, 60000]), 1e6), "answered");
});

test("each order to a device has a time for its answer, which is that of enogatectl", () => {
    const source = readFileSync(new URL("../../contrib/enogate_ctl/command_line.py", import.meta.url), "utf-8");
    const [, usual, blind] = source.match(/^REPORT_TIMEOUT, BLIND_REPORT_TIMEOUT = ([0-9.]+), ([0-9.]+)$/m);
    for (const order of [["switch", ID, "0", "on"], ["dim", ID, "0", 1], ["query", ID, "0"],
                         ["meter", ID, "0", "power"]])
        assert.equal(answerTimeout(order), 1000 * usual, String(order));
    assert.equal(answerTimeout(["blind", ID, 1]), 1000 * blind);
});
