import assert from "node:assert/strict";
import { beforeEach, mock, test } from "node:test";

import { Model } from "../../contrib/cockpit/enogate/model.js";
import { byId, processes, settle, started } from "./page.mjs";
import { DEVICE, HOSTILE, LIST, OK, PACKET, STATUS, TAUGHT } from "./samples.mjs";

const { runCommand } = await import("../../contrib/cockpit/enogate/commands.js");
const { resultText } = await import("../../contrib/cockpit/enogate/words.js");
const { LearnWindowCard } = await import("../../contrib/cockpit/enogate/teach.js");

const WINDOW = ["enogatectl", "--for", "120", "hall", "--"];
const OPEN = { ...STATUS, mode: "on" };
const CLOSED = { ...STATUS, mode: "closed" };

/** The card of a page whose user may act. */
function card() {
    const page = {
        gateway: "hall", canOrderNow: true, model: new Model(0), painter: { paintNow: () => {} },
        complaints: [], given: [], refreshed: 0, opened: [],
        sections: Object.fromEntries(["device", "add"].map(name =>
            [name, { dialog: { open: (...item) => page.opened.push([name, ...item]) } }])),
        showError: text => page.complaints.push(text), refresh: () => page.refreshed++,
        giveByButton: order => page.given.push(order.join(" ")),
        runCommand: command => runCommand(command, "user"),
    };
    const made = new LearnWindowCard(page);
    made.paint();
    return { made, page };
}

const left = made => {
    made.paint();
    return byId("teach-opened").hidden ? "" : byId("teach-left").textContent;
};

/** The commands that open a learn window. */
const windows = () => started("enogatectl", "--for");

beforeEach(() => {
    processes.length = 0;
    byId("teach-rows").replaceChildren();
    byId("teach-answer").checked = byId("teach-as").checked = false;
    mock.timers.reset();
    mock.timers.enable({ apis: ["setTimeout", "Date"], now: 1000 });
});

test("the learn window is opened for two minutes, which are counted down once it is open", () => {
    const { made } = card();
    const take = line => made.takeLine(line, Date.now());
    take(OPEN);
    byId("teach-open").click();
    assert.deepEqual(windows().map(({ words }) => words), [[...WINDOW, "learn", "on"]]);
    made.takeLine(OPEN, null);
    [CLOSED, OK, TAUGHT].forEach(take);
    assert.equal(left(made), "opening …");
    take(OPEN);
    assert.equal(left(made), "2:00");
    mock.timers.tick(1000);
    take(OPEN);
    assert.equal(left(made), "1:59");
    mock.timers.tick(200000);
    assert.equal(left(made), "0:00");
});

test("a window that closes by itself is shown as closed, and can be opened again", async () => {
    const { made, page } = card();
    byId("teach-open").click();
    made.takeLine(OPEN, 1000);
    windows()[0].resolve();
    await settle();
    assert.deepEqual([left(made), page.complaints, page.refreshed], ["", [""], 1]);
    byId("teach-open").click();
    assert.equal(left(made), "opening …");
    assert.equal(windows().length, 2);
});

test("a window for one device says that it is closed because the device was learned", async () => {
    const { made } = card();
    const open = { ...STATUS, mode: "as D5-00-01" };
    const note = () => {
        made.paint();
        return byId("teach-learned").hidden ? "" : byId("teach-learned").textContent;
    };
    const noteAfter = async (...lines) => {
        processes.length = 0;
        byId("teach-open").click();
        assert.equal(note(), "");
        lines.forEach(line => made.takeLine(line, 1000));
        windows()[0].resolve();
        await settle();
        return note();
    };
    assert.equal(note(), "");
    assert.equal(await noteAfter(open, { ...TAUGHT, result: "full" }, CLOSED), "");
    // The order `add` has learned it, and somebody has closed the window.
    assert.equal(await noteAfter(open, TAUGHT, open, CLOSED), "");
    assert.equal(await noteAfter(TAUGHT, open, CLOSED), "");
    const learned = "01800ABC was learned, so the learn window is closed.";
    assert.equal(await noteAfter(open, TAUGHT, CLOSED, CLOSED), learned);
    // Another program has opened a window.
    [open, { ...TAUGHT, id: "01800AC0" }, CLOSED].forEach(line => made.takeLine(line, 1000));
    assert.equal(note(), learned);
    // The next window cannot be opened.
    assert.equal(await noteAfter(), "");
    assert.equal(await noteAfter(open, TAUGHT, CLOSED), learned);
    made.clear();
    assert.equal(note(), "");
});

test("the window says what has to be pressed, also if another program has opened it", () => {
    const { made, page } = card();
    const shown = mode => {
        page.model.take({ ...STATUS, mode }, 0);
        made.paint();
        return [byId("teach-opened").hidden, byId("teach-left").textContent, byId("teach-mode").textContent];
    };
    assert.deepEqual(shown("on"), [false, "open", "Press the learn button of the device now."]);
    assert.deepEqual(shown("as F6-02-01"),
                     [false, "open", "Press any button of the device (F6-02-01 Rocker switch, 2 rockers)."]);
    assert.equal(shown("closed")[0], true);
});

test("each result has its time, the profile if it was sent, and what was done, the newest first", () => {
    const { made, page } = card();
    assert.equal(byId("teach-results").hidden, true);
    page.model.take(TAUGHT, null);
    page.model.take({ ...TAUGHT, id: "01800AC1", eep: null, result: "no_profile" }, null);
    made.paint();
    const rows = byId("teach-rows").children;
    assert.deepEqual(rows.map(({ children }) => children.map(({ textContent }) => textContent)), [
        ["earlier", "01800AC1", "profile not sent", resultText("no_profile"), ""],
        ["earlier", "(no label)01800ABC", "D5-00-01 Contact", "learned", "Label …"],
    ]);
    assert.notEqual(resultText("no_profile"), "no_profile");
    assert.deepEqual(rows.map(({ dataset }) => dataset.why), ["no_profile", "accepted"]);
    assert.equal(byId("teach-results").hidden, false);
});

/** The cell of the sender in the newest result, and its button. */
function newest(made) {
    made.paint();
    const { children: [, sender, , , action] } = byId("teach-rows").children[0];
    return { link: sender.children[0], text: sender.textContent, button: action.children[0] };
}

test("a result has the label of its device, which leads to its view, and a button for another label", () => {
    const { made, page } = card();
    page.model.take({ ...TAUGHT, id: "01800AC1" }, 0);
    page.model.take(TAUGHT, 0);
    page.model.take(DEVICE, 0);
    page.model.take({ ...DEVICE, id: "01800AC1", label: "Gate" }, 0);
    page.model.take({ ...LIST, count: 2 }, 0);
    const { link, text, button } = newest(made);
    assert.deepEqual([text, link.textContent, link.href, link.hidden],
                     ["Front door01800ABC", "Front door", "#/device/01800ABC", false]);
    assert.deepEqual([button.textContent, button.hidden], ["Label …", false]);
    button.click();
    assert.deepEqual(page.opened, [["device", "01800ABC", page.model.devices.get("01800ABC"), true]]);
    // A label that is given meanwhile is shown, whatever it contains.
    for (const label of HOSTILE) {
        page.model.devices.get("01800ABC").label = label;
        made.paint();
        assert.deepEqual([link.textContent, link.href], [label || "(no label)", "#/device/01800ABC"]);
    }
});

test("a result of a device that was deleted has no button, and no link", () => {
    const { made, page } = card();
    page.model.take(TAUGHT, 0);
    made.paint();
    const [row] = byId("teach-rows").children;
    page.model.take({ ...TAUGHT, result: "deleted" }, 0);
    const { link, text, button } = newest(made);
    assert.deepEqual([text, link.hidden, button.hidden], ["01800ABC", true, true]);
    assert.deepEqual([row.children[1].children[0].hidden, row.children[4].children[0].hidden], [true, true]);
});

test("a sender whose telegram did not name its profile can be learned where its result is", () => {
    const { made, page } = card();
    const sender = { ...PACKET, rorg: "A5", why: "no_profile" };
    page.model.take({ ...TAUGHT, id: sender.id, eep: null, result: "no_profile" }, 0);
    // Without packet lines, nothing is known of it.
    assert.equal(newest(made).button.hidden, true);
    page.model.take(sender, 0);
    const { button } = newest(made);
    assert.deepEqual([button.textContent, button.hidden], ["Learn …", false]);
    button.click();
    assert.deepEqual(page.opened, [["add", sender.id, page.model.unknown.get(sender.id), true]]);
    page.model.take({ ...TAUGHT, id: sender.id, eep: "A5-02-05" }, 0);
    made.paint();
    assert.equal(button.textContent, "Label …");
});

test("the list is at its newest result when a window is opened, and when a result comes", () => {
    const { made, page } = card();
    const list = byId("teach-list");
    const isAtTop = () => {
        made.paint();
        const { scrollTop } = list;
        list.scrollTop = 100;
        return scrollTop === 0;
    };
    page.model.take(TAUGHT, 0);
    assert.deepEqual([isAtTop(), isAtTop()], [true, false]);
    page.model.take({ ...TAUGHT, id: "01800AC1" }, 0);
    assert.deepEqual([isAtTop(), isAtTop()], [true, false]);
    byId("teach-open").click();
    assert.deepEqual([isAtTop(), isAtTop()], [true, false]);
});

test("no result moves while the pointer is on the list, and a button says how many are missing", () => {
    const { made, page } = card();
    const missing = () => byId("teach-new").hidden ? "" : byId("teach-new").textContent;
    page.painter.paintNow = () => made.paint();
    page.model.take(TAUGHT, 0);
    made.paint();
    const list = byId("teach-rows");
    list.matches = selector => selector === ":hover";
    page.model.take({ ...TAUGHT, id: "01800AC1" }, 0);
    made.paint();
    assert.deepEqual(list.children.map(row => row.children[1].textContent), ["(no label)01800ABC"]);
    assert.equal(missing(), "Show the new result");
    byId("teach-list").scrollTop = 100;
    page.model.take({ ...TAUGHT, id: "01800AC2" }, 0);
    made.paint();
    assert.deepEqual([missing(), byId("teach-list").scrollTop], ["Show 2 new results", 100]);
    delete list.matches;
    byId("teach-new").click();
    assert.deepEqual(list.children.map(row => row.children[1].textContent),
                     ["(no label)01800AC2", "(no label)01800AC1", "(no label)01800ABC"]);
    assert.deepEqual([missing(), byId("teach-list").scrollTop], ["", 0]);
});

test("after a window has closed, the same kind of device is chosen for the next one", async () => {
    const { made } = card();
    byId("teach-on").checked = false;
    byId("teach-profile").enterValue("F6-03-01");
    for (const end of [() => windows().at(-1).resolve(), () => made.clear()]) {
        byId("teach-open").click();
        made.takeLine(OPEN, 1000);
        end();
        await settle();
        made.paint();
        assert.deepEqual(["on", "answer", "as"].filter(name => byId(`teach-${name}`).checked), ["as"]);
        assert.deepEqual(made.openingOrder(), ["learn", "as", "F6-03-01"]);
    }
});

test("a window that cannot be opened leaves the choice", async () => {
    const { made } = card();
    [byId("teach-on").checked, byId("teach-answer").checked] = [false, true];
    byId("teach-open").click();
    made.paint();
    windows()[0].reject({ message: "enogatectl: why" });
    await settle();
    made.paint();
    assert.deepEqual([byId("teach-on").checked, byId("teach-answer").checked], [false, true]);
});

test("a window that cannot be opened is explained", async () => {
    const { made, page } = card();
    byId("teach-open").click();
    windows()[0].reject({ message: "enogatectl: why" });
    await settle();
    assert.deepEqual([left(made), page.complaints], ["", ["why"]]);
});

test("the window of a gateway is closed when another gateway is shown, and its end is not shown there", async () => {
    const { made, page } = card();
    byId("teach-answer").checked = true;
    byId("teach-open").click();
    const [window] = windows();
    assert.deepEqual(window.words, [...WINDOW, "learn", "on", "answer"]);
    assert.equal(window.isClosed, false);
    made.clear();
    assert.equal(window.isClosed, true);
    byId("teach-open").click();
    window.reject({ message: "enogatectl: why" });
    await settle();
    assert.deepEqual([left(made), page.complaints, page.refreshed], ["opening …", [], 0]);
});

test("a second click opens no second window, and none is opened before the first one is closed", async () => {
    const { made, page } = card();
    byId("teach-open").click();
    byId("teach-open").click();
    assert.equal(windows().length, 1);
    byId("teach-close").click();
    assert.equal(windows()[0].isClosed, true);
    assert.deepEqual(page.given, ["learn off"]);
    byId("teach-open").click();
    assert.equal(windows().length, 1);
    windows()[0].resolve();
    await settle();
    // Who chooses a profile means it.
    byId("teach-profile").enterValue("F6-02-01");
    assert.equal(byId("teach-as").checked, true);
    byId("teach-open").click();
    assert.equal(started(...WINDOW, "learn", "as", "F6-02-01").length, 1);
    assert.equal(left(made), "opening …");
});

test("whoever uses the list of profiles means it, but the Tab key only moves on", () => {
    const { made } = card();
    const [list, choice] = [byId("teach-profile"), byId("teach-as")];
    const isChosenAfter = (event, key) => {
        choice.checked = false;
        list.listeners.get(event)?.({ target: list, key });
        return choice.checked;
    };
    for (const event of ["input", "change", "pointerdown", "click"])
        assert.equal(isChosenAfter(event), true, event);
    for (const [key, wanted] of [["ArrowDown", true], ["Enter", true], [" ", true], ["Tab", false], ["Shift", false]])
        assert.equal(isChosenAfter("keydown", key), wanted, key);
    list.enterValue("F6-03-01", "change");
    assert.deepEqual(made.openingOrder(), ["learn", "as", "F6-03-01"]);
});

test("a window that is closed before it was open leaves the errors of other orders", async () => {
    const { made, page } = card();
    byId("teach-open").click();
    byId("teach-close").click();
    windows()[0].reject({ message: "", status: 143 });
    await settle();
    assert.deepEqual([left(made), page.complaints, page.refreshed], ["", [], 1]);
});
