import assert from "node:assert/strict";
import { beforeEach, test } from "node:test";

import { Model } from "../../contrib/cockpit/enogate/model.js";
import { byId } from "./page.mjs";
import { orderCommand } from "../../contrib/cockpit/enogate/orders.js";
import { ordersOfCommands } from "./parser.mjs";
import { READING } from "./samples.mjs";

const { Controls } = await import("../../contrib/cockpit/enogate/controls.js");
const { GroupsSection } = await import("../../contrib/cockpit/enogate/groups.js");
const { PROFILES } = await import("../../contrib/cockpit/enogate/words.js");

const ID = READING.id;
// The orders that were given in a test, and in all of them.
const [given, all] = [[], []];
const give = order => {
    given.push(order.join(" "));
    all.push(order);
};
const page = {
    canOrderNow: true, sent: new Map(), giveToDevice: (id, order) => give(order),
    orderError: async order => {
        give(order);
        return order[0] === "teach" ? "why" : "";
    },
};

beforeEach(() => {
    given.length = 0;
    page.canOrderNow = true;
    page.sent.clear();
});

/** The controls of a device, and its buttons, fields and lists by their titles or texts. */
function controls(eep, isFull) {
    const made = new Controls(ID, PROFILES.get(eep).abilities, isFull, page);
    const targets = new Map(made.element.querySelectorAll("button, input, select")
            .map(target => [target.title || target.textContent, target]));
    return { made, targets, names: [...targets.keys()] };
}

/** A device that has sent this. */
function device(eep, ...readings) {
    const model = new Model(0);
    model.take({ ...READING, eep, readings }, 1);
    return model.devices.get(ID);
}
const percent = (name, num) => ({ name, num, den: 1, unit: "%" });

test("each kind of actuator has its buttons, and more of them in the view of a device", () => {
    const asks = ["Ask for its state", "Ask for its energy", "Ask for its power"];
    for (const [eep, few, more] of [
        ["D2-01-00", ["On", "Off"], asks], ["D2-01-02", ["On", "Off", "Percent"], asks],
        ["D2-01-12", ["Channel", "On", "Off"], asks],
        ["D2-05-00", ["Up", "Stop", "Down"], ["Position in percent", "Ask for its state"]],
    ]) {
        assert.deepEqual(controls(eep, false).names, few, eep);
        assert.deepEqual(controls(eep, true).names, [...few, ...more], eep);
    }
});

test("each button gives its order", () => {
    for (const [eep, orders] of [
        ["D2-01-12", { On: "switch 01800ABC 0 on", Off: "switch 01800ABC 0 off",
                       "Ask for its state": "query 01800ABC 0", "Ask for its energy": "meter 01800ABC 0 energy",
                       "Ask for its power": "meter 01800ABC 0 power" }],
        ["D2-05-00", { Up: "blind 01800ABC 0", Stop: "stop 01800ABC", Down: "blind 01800ABC 100",
                       "Ask for its state": "query 01800ABC 0" }],
    ]) {
        const { targets } = controls(eep, true);
        for (const [name, order] of Object.entries(orders)) {
            targets.get(name).click();
            assert.equal(given.at(-1), order);
        }
    }
});

test("orders are for the channel that is chosen", () => {
    const { targets } = controls("D2-01-12", true);
    assert.deepEqual(targets.get("Channel").children.map(({ textContent, value }) => [value, textContent]),
                     [["0", "ch 0"], ["1", "ch 1"], ["30", "all"]]);
    targets.get("Channel").value = "1";
    for (const name of ["On", "Off", "Ask for its state", "Ask for its energy"])
        targets.get(name).click();
    assert.deepEqual(given, ["switch 01800ABC 1 on", "switch 01800ABC 1 off", "query 01800ABC 1",
                             "meter 01800ABC 1 energy"]);
});

test("a slider gives one order when it is released, and follows the device", () => {
    for (const [eep, title, reading, order] of [
        ["D2-01-02", "Percent", percent("OV", 35), "dim 01800ABC 0 70"],
        ["D2-05-00", "Position in percent", percent("POS", 35), "blind 01800ABC 70"],
    ]) {
        const { made, targets } = controls(eep, true);
        const slider = targets.get(title);
        made.fill(device(eep, ...eep === "D2-01-02" ? [{ name: "IO", raw: 0 }, reading] : [reading]), 0);
        assert.equal(slider.value, 35);
        given.length = 0;
        slider.enterValue("60");
        slider.enterValue("70");
        assert.deepEqual([given, made.answer.textContent], [[], "70 %"]);
        slider.enterValue("70", "change");
        assert.deepEqual(given, [order]);
    }
});

test("the answer is next to the buttons: sent, answered, none, or why it failed", () => {
    const { made } = controls("D2-01-00", false);
    const shown = (now, found = device("D2-01-00")) => {
        made.fill(found, now);
        return [made.answer.dataset.state, made.answer.textContent];
    };
    assert.deepEqual(shown(5), ["", ""]);
    const sent = { order: ["switch", ID, "0", "on"], at: 10, done: null, error: "" };
    page.sent.set(ID, sent);
    assert.deepEqual(shown(10), ["sending", "…"]);
    sent.done = 11;
    assert.deepEqual(shown(12), ["sent", "sent …"]);
    assert.deepEqual(shown(3011), ["silent", "no answer"]);
    assert.match(made.answer.children[0].title, /^Does it have power\? Press again\. If it has never obeyed, /);
    const full = controls("D2-01-00", true).made;
    full.fill(device("D2-01-00"), 3011);
    const hints = [made, full].map(({ element }) => element.querySelectorAll("span")
            .filter(one => !one.hidden && one.textContent.includes("Does it have power?")).length);
    assert.deepEqual(hints, [0, 1]);
    // The answer in a list leads to the view of the device, and the hint there to the learn window.
    const links = ({ element }) => element.querySelectorAll("a").map(({ href, textContent }) => [href, textContent]);
    assert.deepEqual(links(made), [["#/device/01800ABC", "no answer"]]);
    assert.deepEqual(links(full), [["#/add", "Add device"]]);
    assert.equal(full.answer.textContent, "no answer");
    sent.at = 1;
    assert.deepEqual(shown(3011, device("D2-01-00", { name: "IO", raw: 0 })), ["answered", "✓ answered"]);
    assert.deepEqual(links(made), []);
    full.fill(device("D2-01-00", { name: "IO", raw: 0 }), 3011);
    assert.equal(full.hint.hidden, true);
    sent.error = "<b>one</b>";
    assert.deepEqual(shown(4000), ["failed", "<b>one</b>"]);
    sent.error = "another";
    assert.deepEqual(shown(4000), ["failed", "another"]);
});

test("nothing can be pressed without the right to give orders, or if the gateway does not run", () => {
    const { made, targets } = controls("D2-01-12", true);
    for (const canOrderNow of [true, false, true]) {
        page.canOrderNow = canOrderNow;
        made.fill(device("D2-01-12"), 0);
        assert.ok([...targets.values()].every(({ disabled }) => disabled !== canOrderNow), String(canOrderNow));
    }
});

test("groups are switched, dimmed and taught, and a number that is none is not sent", async () => {
    const groups = new GroupsSection(page);
    for (const [name, max] of Object.entries({ number: 127, percent: 100, ramp: 255 }))
        byId(`groups-${name}`).max = max;
    const press = async (button, number, percent = "50", ramp = "7") => {
        for (const [name, value] of Object.entries({ number, percent, ramp }))
            byId(`groups-${name}`).value = value;
        await byId(`groups-${button}`).listeners.get("click")();
        return byId("groups-result").textContent;
    };
    assert.match(await press("on", "0"), /^Sent at \d\d:/);
    // Only the order that dims needs the other fields.
    await press("off", "127", "x", "");
    await press("level", "3");
    assert.equal(await press("teach", "5"), "why");
    assert.deepEqual(given, ["central 0 on", "central 127 off", "level 3 50 7", "teach 5"]);
    given.length = 0;
    for (const wrong of [["on", "128"], ["on", ""], ["teach", "-1"], ["level", "3", "101"], ["level", "3", "5", "256"],
                         ["level", "1e1"]])
        await press(...wrong);
    assert.deepEqual(given, []);
    assert.equal(byId("groups-number").why, "Enter a whole number from 0 to 127.");
    groups.clear();
    assert.equal(byId("groups-result").textContent, "");
    for (const canOrderNow of [false, true]) {
        page.canOrderNow = canOrderNow;
        groups.paint();
        for (const name of ["on", "off", "level", "teach"])
            assert.equal(byId(`groups-${name}`).disabled, !canOrderNow, name);
    }
});

test("enogatectl takes the orders of all buttons and sliders", () => {
    assert.deepEqual(ordersOfCommands(all.map(order => orderCommand("hall", order))),
                     all.map(order => [order.join(" "), null, true]));
    const verbs = ["blind", "central", "dim", "level", "meter", "query", "stop", "switch", "teach"];
    assert.deepEqual([...new Set(all.map(([verb]) => verb))].sort(), verbs);
});
