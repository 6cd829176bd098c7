import assert from "node:assert/strict";
import { beforeEach, mock, test } from "node:test";

import { Model } from "../../contrib/cockpit/enogate/model.js";
import { byId, focused, settle } from "./page.mjs";
import { DEVICE, HOSTILE, LIST, PACKET, READING } from "./samples.mjs";

const { EditDialog } = await import("../../contrib/cockpit/enogate/edit.js");
const { LearnDialog } = await import("../../contrib/cockpit/enogate/learn.js");
const { PROFILES } = await import("../../contrib/cockpit/enogate/words.js");

const given = [];
// How the order that was given last ends.
let answer = null;
const page = {
    canOrderNow: true, model: new Model(0), refresh: async () => page.opened.push("the list"),
    give: order => page.runCommand(order),
    runCommand: command => new Promise((resolve, reject) => {
        given.push(command.join(" "));
        answer = { resolve, reject };
    }),
    gateway: "hall", part: DEVICE.id, opened: [], openAddress: address => page.opened.push(address),
};
const dialogs = {
    edit: { dialog: new EditDialog(page), open: made => made.open(DEVICE.id, DEVICE), order: "label 01800ABC Back door" },
    learn: { dialog: new LearnDialog(page), open: made => made.open(DEVICE.id, { rorg: "D5", eep: DEVICE.eep }),
             order: "add 01800ABC D5-00-01" },
};

/** Opens a dialog, and enters a label. */
function opened(name) {
    const { dialog, open, order } = dialogs[name];
    open(dialog);
    byId("learn-profile").value = DEVICE.eep;
    byId(`${name}-label`).value = "Back door";
    return { order, isOpen: () => byId(name).open, enter: () => byId(`${name}-label`).enter(),
             result: () => byId(`${name}-result`).textContent };
}

beforeEach(() => {
    given.length = page.opened.length = 0;
    page.canOrderNow = true;
});

for (const name of Object.keys(dialogs)) {
    test(`Enter gives one order, also if it is pressed again before the answer: ${name}`, () => {
        const { order, enter } = opened(name);
        enter();
        enter();
        assert.deepEqual(given, [order]);
    });

    test(`Enter gives no order without administrative access: ${name}`, () => {
        page.canOrderNow = false;
        const { enter, isOpen } = opened(name);
        enter();
        assert.deepEqual([given, isOpen()], [[], true]);
    });

    test(`a dialog whose order was refused stays open, and can be used again: ${name}`, async () => {
        const { order, enter, isOpen, result } = opened(name);
        enter();
        answer.reject({ message: "enogatectl: why" });
        await settle();
        assert.deepEqual([result(), isOpen()], ["why", true]);
        enter();
        assert.deepEqual(given, [order, order]);
    });
}

test("the focus is in the field for the label if the dialog is opened to enter one, and not on the profile", () => {
    byId("edit-save").focus();
    dialogs.edit.dialog.open(DEVICE.id, DEVICE);
    assert.equal(focused(), byId("edit-save"));
    dialogs.edit.dialog.open(DEVICE.id, DEVICE, true);
    assert.equal(focused(), byId("edit-label"));
});

/** Opens the dialog of a device that is learned, chooses a profile and enters a label. Returns the profiles. */
function editing(device, eep, label) {
    dialogs.edit.dialog.open(device.id, device);
    const eeps = byId("edit-profile").children.map(({ value }) => value);
    assert.equal(byId("edit-profile").value, eeps.includes(device.eep) ? device.eep : "");
    if (eep)
        byId("edit-profile").enterValue(eep, "value");
    byId("edit-label").value = label ?? device.label;
    byId("edit-save").click();
    return eeps;
}
byId("edit-profile").listeners.set("value", () => {});

test("only what was changed is saved: the profile, the label, both, or nothing", async () => {
    const [profile, label] = ["add 01800ABC A5-02-05", "label 01800ABC Back door"];
    for (const [eep, text, wanted] of [["A5-02-05", null, [profile]], [null, "Back door", [label]],
                                       ["A5-02-05", "Back door", [profile, label]], [DEVICE.eep, "Front door", []],
                                       ["A5-02-05", "", [profile, "label 01800ABC"]]]) {
        given.length = page.opened.length = 0;
        assert.deepEqual(editing(DEVICE, eep, text), [...PROFILES.keys()]);
        for (const one of wanted) {
            assert.equal(given.at(-1), one);
            answer.resolve();
            await settle();
        }
        await settle();
        assert.deepEqual([given, byId("edit").open, page.opened], [wanted, false, ["the list"]]);
    }
});

test("a profile that was refused changes no label, and one that was saved is not given again", async () => {
    editing(DEVICE, "A5-02-05", "Back door");
    answer.reject({ message: "enogatectl: why" });
    await settle();
    assert.deepEqual([given, byId("edit-result").textContent, byId("edit").open],
                     [["add 01800ABC A5-02-05"], "why", true]);
    byId("edit-save").click();
    answer.resolve();
    await settle();
    answer.reject({ message: "enogatectl: why" });
    await settle();
    byId("edit-save").click();
    assert.deepEqual(given, ["add 01800ABC A5-02-05", "add 01800ABC A5-02-05", "label 01800ABC Back door",
                             "label 01800ABC Back door"]);
});

test("the profiles that fit the last telegram come first, if that of the device does not", () => {
    const eeps = editing({ ...DEVICE, misfit: "F6" });
    assert.deepEqual(eeps.slice(0, 6),
                     ["F6-01-01", "F6-02-01", "F6-02-02", "F6-03-01", "F6-03-02", [...PROFILES.keys()]
                             .find(one => !one.startsWith("F6"))]);
    assert.deepEqual([...eeps].sort(), [...PROFILES.keys()].sort());
    // A profile that is not supported stays, unless another one is chosen.
    assert.equal(editing({ ...DEVICE, eep: "A5-3F-01" })[0], "");
    assert.deepEqual(given, []);
    editing({ ...DEVICE, eep: "A5-3F-01" }, "A5-02-05");
    assert.deepEqual(given, ["add 01800ABC A5-02-05"]);
});

test("no profile can be saved without the right to give orders, or while the device is to be removed", () => {
    page.canOrderNow = false;
    editing(DEVICE, "A5-02-05");
    assert.deepEqual(given, []);
    page.canOrderNow = true;
    dialogs.edit.open(dialogs.edit.dialog);
    assert.equal(byId("edit-profile").disabled, false);
    byId("edit-remove").click();
    assert.equal(byId("edit-profile").disabled, true);
    dialogs.edit.dialog.save();
    assert.deepEqual(given, []);
});

test("a dialog is closed when its order was carried out", async () => {
    const { enter, isOpen } = opened("edit");
    enter();
    answer.resolve();
    await settle();
    assert.deepEqual([isOpen(), page.opened], [false, ["the list"]]);
});

test("a sender that was learned gets its label after that", async () => {
    const { order, enter } = opened("learn");
    enter();
    answer.resolve();
    await settle();
    assert.deepEqual(given, [order, "label 01800ABC Back door"]);
});

test("a device that was learned with a wrong profile is learned again with another one", async () => {
    const { order, result } = opened("learn");
    const [profile, learn] = [byId("learn-profile"), byId("learn-go")];
    const choose = eep => profile.enterValue(eep, "change");
    byId("learn-label").value = "";
    learn.click();
    // No second order is given before the answer.
    choose("A5-02-05");
    assert.equal(learn.disabled, true);
    answer.resolve();
    await settle();
    assert.deepEqual([learn.disabled, /^Learned/.test(result())], [true, true]);
    choose("A5-04-01");
    assert.deepEqual([learn.disabled, result()], [false, ""]);
    learn.click();
    answer.resolve();
    await settle();
    assert.deepEqual([given, learn.disabled], [[order, "add 01800ABC A5-04-01"], true]);
    page.canOrderNow = false;
    choose("A5-02-05");
    assert.equal(learn.disabled, true);
});

/** Opens the dialog for a device whose ID is entered. */
function learning(...devices) {
    page.model = new Model(0);
    devices.forEach(device => page.model.take(device, 0));
    page.model.take({ ...LIST, count: devices.length }, 0);
    byId("learn-by-id").click();
    const enter = (name, value) => {
        byId(`learn-${name}`).enterValue(value, name === "label" ? "input" : "none");
        byId("learn").listeners.get("input")();
    };
    ["new", "profile"].forEach(name => byId(`learn-${name}`).listeners.set("none", () => {}));
    return { enter, field: byId("learn-new"), profile: byId("learn-profile"), learn: byId("learn-go"),
             result: () => byId("learn-result").textContent };
}

test("a device is learned by the ID that is printed on it, with any profile", async () => {
    const { enter, learn, result } = learning();
    assert.deepEqual([byId("learn").open, byId("learn-sender").hidden, byId("learn-id").textContent],
                     [true, false, ""]);
    assert.deepEqual(byId("learn-profile").children.map(({ value }) => value), ["", ...PROFILES.keys()]);
    enter("profile", "F6-02-01");
    enter("new", " 0x01:80-0a c1");
    enter("label", "Back door");
    learn.click();
    learn.click();
    assert.deepEqual([given, result()], [["add 01800AC1 F6-02-01"], "…"]);
    // Nothing is given before the answer, whatever is entered meanwhile.
    enter("new", "01800AC2");
    assert.deepEqual([learn.disabled, result()], [true, "…"]);
    answer.resolve();
    await settle();
    answer.resolve();
    await settle();
    assert.deepEqual(given, ["add 01800AC1 F6-02-01", "label 01800AC1 Back door"]);
    assert.match(result(), /^Learned/);
    assert.deepEqual([page.opened, learn.disabled], [["the list"], true]);
    // The reading is that of the device that was learned.
    page.model.take({ ...READING, id: "01800AC3" }, 0);
    dialogs.learn.dialog.paint();
    assert.match(result(), /^Learned\. Press/);
    page.model.take({ ...READING, id: "01800AC1" }, 0);
    dialogs.learn.dialog.paint();
    assert.equal(result(), "Learned. Its reading: Temperature 20.08 °C");
    // The next one can be learned at once.
    enter("label", "");
    learn.click();
    assert.equal(given.at(-1), "add 01800AC2 F6-02-01");
});

test("what is not an ID is not learned, and the same message as for a replacement says so", () => {
    const { enter, field, learn } = learning();
    enter("profile", "F6-02-01");
    for (const text of [...HOSTILE, "01800AC", "01800AC1F", "01800ACG", "--help", "Küche"]) {
        enter("new", text);
        learn.click();
        field.enter();
        assert.match(field.why, /^The ID has 8 characters \(0-9, A-F\)(; this one has [0-9]+)?\.$/, text);
    }
    assert.deepEqual(given, []);
    for (const [text, wanted] of [["01:80:0a:c", "; this one has 7."], ["0x01800AC1F", "; this one has 9."],
                                  ["01800ACG", "."], [" ", "."]]) {
        enter("new", text);
        learn.click();
        assert.equal(field.why, `The ID has 8 characters (0-9, A-F)${wanted}`);
    }
    enter("new", "01800AC1");
    enter("label", "Tür");
    field.enter();
    assert.deepEqual([given, field.why], [[], ""]);
    page.canOrderNow = false;
    const { enter: again, learn: disabled } = learning();
    again("new", "01800AC1");
    disabled.click();
    field.enter();
    assert.deepEqual([given, disabled.disabled], [[], true]);
});

/** A learned lamp with two channels. */
const LAMP = { ...DEVICE, id: "01800AC1", eep: "D2-01-12", label: "Lamp" };

test("an ID that is learned already is refused, and its device keeps its profile and its label", () => {
    const { enter, field, learn, result } = learning(LAMP, { ...DEVICE, label: "" });
    enter("profile", "F6-02-01");
    for (const [id, name] of [[LAMP.id, "Lamp, Electronic switch, 2 channels"], [DEVICE.id, "Contact"]]) {
        enter("new", id);
        const refusal = `${id} is already learned: ${name}. Correct the ID, or use Edit.`;
        assert.deepEqual([result(), learn.disabled], [refusal, true]);
        enter("label", "Roof");
        learn.click();
        field.enter();
        assert.deepEqual([given, result()], [[], refusal]);
        // What was entered stays for the ID that was meant.
        enter("new", "01800AC");
        assert.deepEqual([result(), learn.disabled], ["", false]);
    }
    enter("new", "01800AC2");
    learn.click();
    assert.deepEqual(given, ["add 01800AC2 F6-02-01"]);
    for (const label of HOSTILE.filter(Boolean)) {
        const { enter: again, result: shown } = learning({ ...LAMP, label });
        again("new", LAMP.id);
        assert.equal(shown(), `01800AC1 is already learned: ${label}, Electronic switch, 2 channels. Correct the ID, ` +
                     "or use Edit.");
    }
});

test("a device that another program learns meanwhile is not overwritten, also without a repaint", () => {
    for (const sender of [null, { rorg: "D2", eep: null }]) {
        for (const isPainted of [true, false]) {
            const { enter, learn, result } = learning();
            if (sender)
                dialogs.learn.dialog.open(LAMP.id, sender);
            enter("new", LAMP.id);
            enter("profile", "D2-01-00");
            page.model.take(LAMP, 0);
            page.model.take(LIST, 0);
            if (isPainted) {
                dialogs.learn.dialog.paint();
                assert.match(result(), /^01800AC1 is already learned: Lamp, /);
            }
            learn.click();
            assert.deepEqual([given, learn.disabled], [[], isPainted]);
        }
    }
});

test("the profile of a device that was just learned can be changed before and after it is listed", async () => {
    const { enter, learn, profile, result } = learning();
    enter("new", LAMP.id);
    enter("profile", "D2-01-12");
    learn.click();
    // The gateway reports it before the order has ended.
    page.model.take({ ...LAMP, type: "teach", result: "accepted" }, 0);
    dialogs.learn.dialog.paint();
    assert.equal(result(), "…");
    answer.resolve();
    await settle();
    assert.match(result(), /^Learned/);
    enter("profile", "D2-01-11");
    page.model.take(LAMP, 0);
    page.model.take(LIST, 0);
    dialogs.learn.dialog.paint();
    enter("label", "");
    assert.equal(profile.value, "D2-01-11");
    learn.click();
    assert.equal(given.at(-1), "add 01800AC1 D2-01-11");
    answer.reject({ message: "enogatectl: why" });
    await settle();
    learn.click();
    assert.deepEqual(given.slice(1), Array(2).fill("add 01800AC1 D2-01-11"));
    answer.resolve();
    await settle();
    // After another ID was entered, it is a device like any other.
    enter("new", "01800AC2");
    enter("new", LAMP.id);
    assert.match(result(), /^01800AC1 is already learned: Lamp, /);
});

test("a sender that was heard and learned by another program before the click keeps that profile", () => {
    learning(LAMP);
    dialogs.learn.dialog.open(LAMP.id, { rorg: "D2", eep: null });
    assert.equal(byId("learn-profile").value, "D2-01-12");
    // A profile of another kind is none that this sender can have.
    dialogs.learn.dialog.open(LAMP.id, { rorg: "F6", eep: null });
    assert.equal(byId("learn-profile").value, "");
});

test("after an actuator was learned, the dialog says that it has to learn the gateway, too", async () => {
    const isTold = () => !byId("learn-hint").hidden;
    const learn = async (id, sender, eep) => {
        learning();
        dialogs.learn.dialog.open(id, sender);
        byId("learn-profile").value = eep;
        byId("learn-go").click();
        assert.equal(isTold(), false);
        answer.resolve();
        await settle();
    };
    const heard = rorg => ({ ...PACKET, rorg, count: 1, received: null });
    for (const [rorg, eep, wanted] of [["D2", "D2-01-00", true], ["D2", "D2-05-00", true], ["D4", "A5-02-05", true],
                                       ["A5", "A5-02-05", false], ["F6", "F6-02-01", false]]) {
        await learn(READING.id, heard(rorg), eep);
        assert.equal(isTold(), wanted, eep);
        page.model.take({ ...READING, eep }, 0);
        dialogs.learn.dialog.paint();
        assert.match(byId("learn-result").textContent, /^Learned\. Its reading: /);
        assert.equal(isTold(), wanted, eep);
    }
    // By its ID, and not if it was refused.
    const { enter, learn: go, result } = learning();
    enter("new", LAMP.id);
    enter("profile", LAMP.eep);
    go.click();
    answer.reject({ message: "enogatectl: why" });
    await settle();
    assert.deepEqual([result(), isTold()], ["why", false]);
    go.click();
    answer.resolve();
    await settle();
    assert.deepEqual([/^Learned\. /.test(result()), isTold()], [true, true]);
    enter("label", "Lamp");
    assert.equal(isTold(), false);
});

test("the dialog for a sender that was heard shows its kind, when it sent, and how often, until it is learned", () => {
    const shown = () => {
        dialogs.learn.dialog.paint();
        return byId("learn-heard").hidden ? "" : byId("learn-heard").textContent;
    };
    learning();
    assert.equal(shown(), "");
    mock.timers.enable({ apis: ["Date"], now: 5000 });
    page.model.take(PACKET, 4000);
    dialogs.learn.dialog.open(PACKET.id, page.model.unknown.get(PACKET.id));
    assert.equal(byId("learn-heard").textContent, "switch (RPS), 1 s ago, 1 ×");
    mock.timers.tick(2000);
    assert.equal(shown(), "switch (RPS), 3 s ago, 1 ×");
    page.model.take(PACKET, 7000);
    page.model.take({ ...PACKET, id: "01800AC9", rorg: "D5" }, 7000);
    assert.equal(shown(), "switch (RPS), 0 s ago, 2 ×");
    // It is no longer kept, but was heard all the same.
    page.model.unknown.delete(PACKET.id);
    assert.equal(shown(), "switch (RPS), 3 s ago, 1 ×");
    page.model.take({ ...DEVICE, id: PACKET.id }, 0);
    page.model.take(LIST, 0);
    assert.equal(shown(), "");
    mock.timers.reset();
    dialogs.learn.dialog.open("01800AC8", { rorg: "<b>", count: 1, received: null });
    assert.equal(shown(), "telegram <b>, earlier, 1 ×");
});

test("a profile is selected only if it is known, the only one, or the usual one of a switch", () => {
    const selected = (rorg, eep = null) => {
        dialogs.learn.dialog.open("01800AC9", { rorg, eep });
        const [first] = byId("learn-profile").children;
        const isPrompt = first.disabled && first.selected && first.textContent === "Choose the profile …";
        assert.equal(isPrompt, byId("learn-profile").value === "", rorg);
        return byId("learn-profile").value;
    };
    assert.deepEqual(["F6", "D5", "A5", "D2", "D4"].map(rorg => selected(rorg)),
                     ["F6-02-01", "D5-00-01", "", "", ""]);
    assert.deepEqual([selected("A5", "A5-02-05"), selected("D4", "D2-05-00")], ["A5-02-05", "D2-05-00"]);
    // The profiles that it has sent are not supported.
    assert.deepEqual([selected("A5", "A5-3F-01"), selected("D4", "D2-14-41"), selected("F6", "F6-10-00")],
                     ["", "", ""]);
});

test("the dialog for a sender that was heard has no field for an ID, also after one was entered", () => {
    const { enter } = learning();
    enter("new", "01800AC2");
    dialogs.learn.open(dialogs.learn.dialog);
    assert.deepEqual([byId("learn-sender").hidden, byId("learn-id").textContent], [true, DEVICE.id]);
    assert.deepEqual(byId("learn-profile").children.map(({ value }) => value), ["D5-00-01"]);
    byId("learn-profile").value = DEVICE.eep;
    byId("learn-go").click();
    assert.deepEqual(given, ["add 01800ABC D5-00-01"]);
    // Its row may still be there after somebody else has learned it.
    learning(DEVICE);
    dialogs.learn.open(dialogs.learn.dialog);
    byId("learn-label").enterValue("Front door");
    byId("learn").listeners.get("input")();
    assert.deepEqual([byId("learn-label-error").hidden, byId("learn-result").textContent], [true, ""]);
    learning();
    assert.equal(byId("learn-new").value, "");
});

test("a label can be entered after a device was learned without one", async () => {
    const { enter } = opened("learn");
    byId("learn-label").value = "";
    enter();
    answer.resolve();
    await settle();
    assert.deepEqual([given, byId("learn-go").disabled], [["add 01800ABC D5-00-01"], true]);
    byId("learn-label").value = "Back door";
    byId("learn").listeners.get("input")();
    enter();
    answer.resolve();
    await settle();
    assert.equal(given.at(-1), "label 01800ABC Back door");
});

/** Opens the dialog of the device, and the part that replaces it. */
function replacing() {
    page.model = new Model(0);
    dialogs.edit.open(dialogs.edit.dialog);
    byId("edit-replace").click();
    return { paint: () => dialogs.edit.dialog.paint(), field: byId("edit-new"), button: byId("edit-swap"),
             choices: () => byId("edit-senders").children };
}

test("what is said before a device is removed or replaced is shown only then", () => {
    const parts = ["warning", "replacement", "remove", "replace"];
    const hidden = () => parts.map(name => byId(`edit-${name}`).hidden);
    dialogs.edit.open(dialogs.edit.dialog);
    assert.deepEqual(hidden(), [true, true, false, false]);
    byId("edit-remove").click();
    assert.deepEqual(hidden(), [false, true, true, false]);
    byId("edit-replace").click();
    assert.deepEqual(hidden(), [true, false, false, true]);
    dialogs.edit.open(dialogs.edit.dialog);
    assert.deepEqual(hidden(), [true, true, false, false]);
});

test("no label can be saved while a device is to be removed or replaced", () => {
    const canSave = () => !byId("edit-save").hidden && !byId("edit-label").disabled;
    for (const part of ["remove", "replace"]) {
        const { enter } = opened("edit");
        assert.equal(canSave(), true, part);
        byId(`edit-${part}`).click();
        assert.equal(canSave(), false, part);
        enter();
        assert.deepEqual(given, [], part);
    }
    opened("edit").enter();
    assert.deepEqual(given, ["label 01800ABC Back door"]);
});

test("a device is removed only after the warning", () => {
    dialogs.edit.open(dialogs.edit.dialog);
    byId("edit-remove").click();
    assert.deepEqual(given, []);
    byId("edit-sure").click();
    assert.deepEqual(given, ["remove 01800ABC"]);
});

test("after a device was removed, the list of the devices is opened", async () => {
    dialogs.edit.open(dialogs.edit.dialog);
    byId("edit-sure").click();
    answer.resolve();
    await settle();
    assert.deepEqual([byId("edit").open, page.opened], [false, ["the list", "#/devices"]]);
});

test("the unknown senders of the same kind are offered for a replacement, the newest first", () => {
    const { paint, choices, field } = replacing();
    assert.equal(byId("edit-no-sender").textContent, "No new device of this kind was heard yet.");
    const take = (id, rorg, eep = null, why = "unknown_sender") =>
        page.model.take({ ...PACKET, id: `01800B${id}`, rorg, eep, why }, Date.now());
    take("01", "D5");
    take("02", "F6");
    take("03", "D4", "D5-00-01");
    take("04", "D4", "D2-01-12");
    take("05", "D4");
    take("06", "D5", null, "for_others");
    paint();
    assert.deepEqual(choices().map(({ firstChild }) => firstChild.textContent), ["01800B05", "01800B03", "01800B01"]);
    assert.equal(choices()[0].textContent, "01800B050 s ago");
    assert.equal(byId("edit-no-sender").textContent, "");
    take("01", "D5");
    for (let number = 10; number < 15; number++)
        take(String(number), "D5");
    paint();
    assert.deepEqual(choices().map(({ firstChild }) => firstChild.textContent.slice(-2)),
                     ["14", "13", "12", "11", "10", "01"]);
    choices()[1].click();
    assert.equal(field.value, "01800B13");
    // A closed dialog costs nothing.
    byId("edit").close();
    take("20", "D5");
    paint();
    assert.equal(choices()[0].firstChild.textContent, "01800B14");
    dialogs.edit.open(dialogs.edit.dialog);
    assert.deepEqual([field.value, choices().length], ["", 0]);
    paint();
    assert.equal(choices().length, 0);
});

test("a device of this profile that was learned without a label is offered for a replacement, too", () => {
    const { paint, choices } = replacing();
    const learned = [{ id: DEVICE.id }, { id: "01800B31" }, { id: "01800B32" }, { id: "01800B33", eep: "A5-02-05" },
                     { id: "01800B34", label: "Other door" }, { id: "01800B36" }];
    learned.forEach(members => page.model.take({ ...DEVICE, label: "", ...members }));
    page.model.take({ ...LIST, count: learned.length });
    for (const [id, time] of [["31", 2000], ["32", 9000], ["34", 4000]])
        page.model.take({ ...READING, eep: DEVICE.eep, id: `01800B${id}` }, time);
    page.model.take({ ...PACKET, id: "01800B35", rorg: "D5" }, 5000);
    paint();
    assert.deepEqual(choices().map(({ firstChild }) => firstChild.textContent.slice(-2)), ["32", "35", "31", "36"]);
});

test("a device is replaced by the one with the ID in the field, and the view of that is opened", async () => {
    const { field, button } = replacing();
    field.value = " 0x01:80:0a:c1 ";
    button.click();
    button.click();
    assert.deepEqual(given, ["enogatectl hall replace 01800ABC 01800AC1"]);
    answer.resolve();
    await settle();
    // The list has the new device.
    assert.deepEqual([byId("edit").open, page.opened], [false, ["the list", "#/device/01800AC1"]]);
});

test("the view of the new device is not opened for someone who has left that of the old one", async () => {
    const { field, button } = replacing();
    field.value = "01800AC1";
    button.click();
    page.part = "silent";
    answer.resolve();
    await settle();
    page.part = DEVICE.id;
    assert.deepEqual([byId("edit").open, page.opened], [false, ["the list"]]);
});

test("Enter in the field for the new ID replaces the device, and an error keeps the dialog open", async () => {
    const { field } = replacing();
    field.value = "01800AC1";
    field.enter();
    answer.reject({ message: "enogatectl: 01800AC1 is learned already" });
    await settle();
    assert.deepEqual([byId("edit").open, byId("edit-result").textContent, page.opened],
                     [true, "01800AC1 is learned already", []]);
    assert.deepEqual(given, ["enogatectl hall replace 01800ABC 01800AC1"]);
    assert.equal(byId("edit-swap").disabled, false);
});

test("a device that is learned already does not replace another one, unless it may be half replaced", async () => {
    const { field, button } = replacing();
    const result = () => byId("edit-result").textContent;
    const motion = { ...DEVICE, id: "01800AC1", eep: "A5-08-01" };
    field.value = motion.id;
    for (const [device, name] of [[{ ...motion, label: "Hall motion" }, "Hall motion"],
                                  [{ ...motion, label: "" }, "Light, temperature and motion sensor"],
                                  [{ ...DEVICE, id: motion.id, label: "Gate" }, "Gate"],
                                  ...HOSTILE.filter(Boolean).map(label => [{ ...motion, label }, label])]) {
        page.model.take(device, 0);
        page.model.take(LIST, 0);
        button.click();
        assert.deepEqual([given, result()], [[], `01800AC1 is already learned: ${name}. Choose another device, or ` +
                                                 `remove ${name} first.`]);
    }
    for (const label of ["", DEVICE.label]) {
        page.model.take({ ...DEVICE, id: motion.id, label }, 0);
        page.model.take(LIST, 0);
        button.click();
        assert.equal(given.pop(), "enogatectl hall replace 01800ABC 01800AC1");
        answer.reject({ message: "enogatectl: why" });
        await settle();
    }
});

test("what is not an ID is not sent, and neither is anything without the right to give orders", () => {
    const { field, button } = replacing();
    for (const text of ["", "01800AC", "01800AC1F", "01800ACG", "; reboot", "--help", "Küche"]) {
        field.value = text;
        button.click();
        assert.match(field.why, /^The ID has 8 characters \(0-9, A-F\)/, text);
    }
    page.canOrderNow = false;
    replacing();
    field.value = "01800AC1";
    field.enter();
    assert.deepEqual(given, []);
});
