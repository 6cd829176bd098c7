import assert from "node:assert/strict";
import { test } from "node:test";

import "./page.mjs";
import { DEVICE, HOSTILE, LIST, PACKET, READING, RESPONSE } from "./samples.mjs";

const page = name => import(`../../contrib/cockpit/enogate/${name}.js`);
const [{ COLUMNS: SENDER_COLUMNS, matchingSenders }, { COLUMNS, matchingDevices }, { profilesFor }, { Model },
       { reportedBase }, { matchingPackets }, { Sorting }] =
    await Promise.all(["add", "devices", "learn", "model", "overview", "packets", "sorting"].map(page));

/** A contact with a label and the weaker signal, and a sensor that was received later. */
function devices() {
    const model = new Model(0);
    model.take({ ...READING, id: "01800AC0", dbm: -40 }, 2000);
    model.take({ ...DEVICE, id: "01800AC0", eep: "A5-02-05", label: "" }, 2000);
    model.take(DEVICE, 2000);
    model.take({ ...LIST, count: 2 }, 2000);
    const readings = [{ name: "CO", word: "open" }];
    model.take({ ...READING, id: "01800ABC", eep: "D5-00-01", dbm: -80, readings }, 1000);
    return model.devices;
}

function sorted(entries, columns, column, isReverse = false) {
    const sorting = new Sorting(columns, document.createElement("select"), [], () => {});
    sorting.setColumn(column, isReverse);
    return sorting.sorted(entries);
}
const selected = (found, filter, ...order) => sorted(matchingDevices(found, filter), COLUMNS, ...order);
const ids = (filter, column, isReverse) => selected(devices(), filter, column, isReverse).map(([id]) => id.slice(-2));

test("devices are sorted by each column, in both directions", () => {
    const [contact, sensor] = [["BC", "C0"], ["C0", "BC"]];
    const wanted = { label: contact, id: contact, profile: sensor, signal: contact, received: sensor };
    for (const [column, order] of Object.entries(wanted)) {
        assert.deepEqual(ids("", column), order, column);
        assert.deepEqual(ids("", column, true), [...order].reverse(), column);
    }
});

test("devices without a signal come after the weakest and the strongest one", () => {
    const found = devices();
    found.set("01800A00", { ...found.get("01800ABC"), dbm: null });
    assert.deepEqual(selected(found, "", "signal").map(([id]) => id), ["01800ABC", "01800AC0", "01800A00"]);
});

test("a device that was heard before the page was opened is sorted by the recorded time", () => {
    const found = devices();
    found.get("01800ABC").received = null;
    for (const [recorded, order] of [[3000, ["01800ABC", "01800AC0"]], [1000, ["01800AC0", "01800ABC"]]]) {
        found.get("01800ABC").recorded = recorded;
        assert.deepEqual(selected(found, "", "received").map(([id]) => id), order);
    }
});

test("devices are filtered by label, ID, and profile with its name", () => {
    assert.deepEqual(ids("FRONT", "id"), ["BC"]);
    assert.deepEqual(ids("0ac0", "id"), ["C0"]);
    assert.deepEqual(ids("temperature", "id"), ["C0"]);
    assert.deepEqual(ids("<b>", "id"), []);
});

test("devices that a column does not distinguish have the order of their IDs, in both directions", () => {
    const found = devices();
    found.forEach(device => { device.dbm = null; });
    assert.deepEqual([false, true].map(isReverse => selected(found, "", "signal", isReverse).map(([id]) => id)),
                     [["01800ABC", "01800AC0"], ["01800ABC", "01800AC0"]]);
});

test("senders are found by ID, kind and the profile that they have sent", () => {
    const model = new Model(0);
    model.take(PACKET, 0);
    model.take({ ...PACKET, id: "01800AC2", rorg: "D4", eep: "D2-05-00" }, 0);
    const found = text => matchingSenders(model.unknown, text).map(([id]) => id.slice(-2)).join();
    assert.deepEqual(["", "ac1", "SWITCH", "ute", "blind"].map(found), ["C1,C2", "C1", "C1", "C2", "C2"]);
    for (const text of HOSTILE.filter(one => one.trim()))
        assert.equal(found(text), "", text);
});

test("senders are sorted by their last packet, their signal, the number of packets, or their IDs", () => {
    const model = new Model(0);
    for (const [id, dbm] of [["02", -50], ["02", -50], ["01", -40], ["02", -50], ["03", null]])
        model.take({ ...PACKET, id: `01800A${id}`, dbm }, 0);
    const order = column =>
        sorted(matchingSenders(model.unknown, ""), SENDER_COLUMNS, column).map(([id]) => id.slice(-1)).join("");
    assert.deepEqual(["received", "signal", "count", "id"].map(order), ["321", "123", "213", "123"]);
    assert.deepEqual([...SENDER_COLUMNS.keys()][0], "received");
});

test("the profiles of the kind of a sender are offered", () => {
    const switches = ["F6-01-01", "F6-02-01", "F6-02-02", "F6-03-01", "F6-03-02"];
    assert.deepEqual(profilesFor({ rorg: "F6", eep: null }), switches);
    assert.deepEqual(profilesFor({ rorg: "D5", eep: null }), ["D5-00-01"]);
    assert.equal(profilesFor({ rorg: "D4", eep: "D2-01-12" }).length, 20);
    assert.equal(profilesFor({ rorg: "D4", eep: null }).length, 65);
});

test("the base ID of the module is shown with the age of its report", () => {
    assert.equal(reportedBase(new Model(0), 5000), "not known yet");
    const model = new Model(0);
    model.take(RESPONSE, null);
    assert.equal(reportedBase(model, 5000), "FFA1B280, reported earlier");
    model.take(RESPONSE, 2000);
    assert.equal(reportedBase(model, 5000), "FFA1B280, reported 3 s ago");
});

test("packets are filtered by ID, label and profile", () => {
    const packets = [PACKET, { ...PACKET, id: "01800ABC" }, { kind: 4, why: "other_type" }].map(line => ({ line }));
    const found = text => matchingPackets(packets, devices(), text).map(packet => packets.indexOf(packet));
    assert.deepEqual([found(""), found("0ac1"), found("front"), found("contact"), found("<b>")],
                     [[0, 1, 2], [0], [1], [1], []]);
});

test("entries stay where they are while their signals and times change, but not while their labels do", () => {
    const sorting = new Sorting(COLUMNS, document.createElement("select"), [], () => {}, ["signal", "received"]);
    const device = { label: "", dbm: null, received: null, recorded: null };
    const entriesOf = changes => Object.entries(changes).map(([id, change]) => [id, { ...device, ...change }]);
    const order = changes => sorting.sorted(entriesOf(changes)).map(([id]) => id).join("");
    for (const [column, first, second] of [["received", { received: 9 }, { received: 5 }],
                                           ["signal", { dbm: -90 }, { dbm: -80 }]]) {
        sorting.sortBy(column);
        assert.equal(order({ A: second, B: first }), "BA");
        assert.equal(order({ A: first, B: second }), "BA", "they have changed");
        assert.equal(order({ A: first, B: second, C: {} }), "ABC", "there is another one");
        assert.equal(order({ B: {}, C: first }), "CB", "one has gone");
        assert.equal(order({ B: {}, D: first }), "DB", "another one has come for one");
        assert.equal(order({ B: first, D: {} }), "DB", "they have changed again");
        sorting.places.clear();
        assert.equal(order({ B: first, D: {} }), "BD", "the section is opened again");
        sorting.sortBy(column);
        assert.equal(order({ B: first, D: {} }), "DB", "the direction is changed");
    }
    sorting.sortBy("label");
    assert.deepEqual([order({ A: { label: "x" }, B: { label: "y" } }), order({ A: { label: "z" }, B: { label: "y" } })],
                     ["AB", "BA"]);
});

test("a list is sorted by a click on a heading, a second time in the other direction, and by the field", () => {
    const field = document.createElement("select");
    const headings = ["label", "signal"].map(column => {
        const heading = document.createElement("th");
        heading.dataset.column = column;
        heading.append(document.createElement("button"));
        return heading;
    });
    let changes = 0;
    const sorting = new Sorting(COLUMNS, field, headings, () => changes++);
    const directions = () => [field.value, ...headings.map(({ attributes }) => attributes.get("aria-sort"))];
    assert.deepEqual([directions(), changes], [["label", "ascending", "none"], 0]);
    headings[1].firstChild.click();
    assert.deepEqual(directions(), ["signal", "none", "ascending"]);
    headings[1].firstChild.click();
    assert.deepEqual([directions(), sorting.isReverse], [["signal", "none", "descending"], true]);
    field.enterValue("id", "change");
    assert.deepEqual([directions(), sorting.isReverse, changes], [["id", "none", "none"], false, 3]);
});
