import assert from "node:assert/strict";
import { mock, test } from "node:test";

import { byId, jumps, machine, permission, settle, started, view } from "./page.mjs";
import { DEVICE, HOSTILE, PACKET, READING, RESPONSE, STATUS, TAUGHT } from "./samples.mjs";

const SECTIONS = ["overview", "devices", "device", "groups", "add", "packets"];
const [LIST, BASE] = ["list", "base"].map(order => ["enogatectl", "--json", "hall", "--", order]);
let run = 1;
// Whether the user may write the desk without becoming root.
let hasDesk = false;

/** A machine with two gateways, whose service runs. The lines are followed until the test is over. */
machine.outputOf = ([name, ...words]) => {
    if (words.at(-1) === "lines")
        return null;
    if (words[0] === "paths")
        return '{"hall":{},"yard":{}}\n';
    if (words[0] === "-w")
        return hasDesk ? "" : Error("no");
    return name === "systemctl" ? `ActiveState=active\nSubState=running\nInvocationID=${run}\n` : "";
};

/** Lets so many seconds pass. */
async function pass(seconds) {
    for (let number = 0; number < 2 * seconds; number++) {
        mock.timers.tick(500);
        await settle();
    }
}

mock.timers.enable({ apis: ["setTimeout", "setInterval", "Date"], now: 1000 });
const tabs = ["overview", "devices", "add", "packets"].map(section => {
    const tab = byId(`tab-${section}`);
    tab.dataset.section = section;
    return tab;
});
const states = ["all", "silent", "weak", "actuators"].map(state => {
    const link = document.createElement("a");
    link.dataset.state = state;
    link.append(document.createElement("span"));
    return link;
});
document.querySelectorAll = selector =>
    selector === "#sections a" ? tabs : selector === "#devices-states a" ? states : [];
await import("../../contrib/cockpit/enogate/main.js");
await settle();
const spaceLooksAtStart = started("df").length;

/** The section that is shown, and its tab. */
function shown() {
    const current = tabs.filter(tab => tab.attributes.get("aria-current") === "true");
    return [SECTIONS.filter(name => !byId(name).hidden).join(), current.map(({ dataset }) => dataset.section).join()];
}

/** Brings new lines of the gateway that is shown. An empty line ends the earlier ones. */
async function bring(...lines) {
    const name = byId("gateways").children.find(tab => tab.attributes.get("aria-selected") === "true").dataset.gateway;
    const text = lines.map(line => `${JSON.stringify(line)}\n`).join("");
    started("enogatectl", name, "lines").at(-1).write(`\n${text}`);
    await pass(1);
}

test("the Overview is shown first, and the section of an address after that", () => {
    assert.deepEqual(shown(), ["overview", "overview"]);
    for (const [address, section, tab] of [
        ["#/devices/silent", "devices", "devices"], ["#/device/01800ABC", "device", "devices"],
        ["#/groups", "groups", "devices"], ["#/add", "add", "add"], ["#/packets", "packets", "packets"],
    ]) {
        view.open(address);
        assert.deepEqual(shown(), [section, tab], address);
    }
    for (const text of HOSTILE) {
        view.open("#/packets");
        view.open(`#/${text}`);
        assert.deepEqual(shown(), ["overview", "overview"], text);
    }
});

test("a click on a tab opens its section at once, unless it opens another window", () => {
    const [, devices, , packets] = tabs;
    [devices.hash, packets.hash] = ["#/devices", "#/packets"];
    view.open("#/overview");
    packets.click();
    assert.deepEqual(shown(), ["packets", "packets"]);
    assert.equal(location.hash, "#/packets");
    for (const key of ["ctrlKey", "metaKey", "shiftKey"]) {
        devices.listeners.get("click")({ target: devices, [key]: true });
        assert.deepEqual(shown(), ["packets", "packets"], key);
    }
    devices.click();
    assert.deepEqual(shown(), ["devices", "devices"]);
    view.open("#/overview");
});

test("a search in a section without a list leads to the devices", () => {
    for (const [address, wanted] of [["#/overview", "#/devices"], ["#/device/01800ABC", "#/devices"],
                                     ["#/packets", "#/packets"], ["#/add", "#/add"]]) {
        view.open(address);
        byId("search").enterValue("x");
        assert.equal(location.hash, wanted);
        byId("search").enterValue("");
    }
    view.open("#/overview");
    byId("search").enterValue("");
    assert.equal(location.hash, "#/overview");
});

test("the devices are asked for once after each start of the gateway, and not at each look", async () => {
    assert.equal(started(...LIST).length, 1);
    await pass(20);
    assert.ok(started("systemctl").length >= 10, String(started("systemctl").length));
    assert.equal(started(...LIST).length, 1);
    run = 2;
    await pass(20);
    assert.equal(started(...LIST).length, 2);
});

test("a page that is hidden does not look at the service", async () => {
    document.hidden = true;
    await pass(2);
    const looked = started("systemctl").length;
    await pass(20);
    assert.equal(started("systemctl").length, looked);
    document.hidden = false;
    await pass(3);
    assert.ok(started("systemctl").length > looked);
});

test("a base ID of the module that differs is reported while it does, and asked for after each start", async () => {
    const reports = data => bring({ ...RESPONSE, data });
    view.open("#/devices");
    // Until the earlier lines are read, the answer could be one of them, which have no time.
    assert.equal(started(...BASE).length, 0);
    await reports("FFA1B280");
    assert.equal(started(...BASE).length, 1);
    assert.match(byId("trouble-text").textContent,
                 /^BASE is FF800000, but the base ID of the radio module is FFA1B280\. Correct or remove BASE in /);
    assert.equal(byId("trouble").hidden, false);
    run = 3;
    await pass(20);
    assert.equal(started(...BASE).length, 2);
    // The stick may be another one now.
    assert.equal(byId("trouble").hidden, true);
    await reports("FFA1B280");
    assert.equal(byId("trouble").hidden, false);
    await reports("FF800000");
    assert.equal(byId("trouble").hidden, true);
});

test("the devices are asked for once after several teach lines", async () => {
    const [lines] = started("enogatectl", "hall", "lines");
    const asked = started(...LIST).length;
    for (const count of [5, 1]) {
        lines.write(`\n${JSON.stringify(TAUGHT)}`.repeat(count) + "\n");
        await pass(10);
    }
    assert.equal(started(...LIST).length, asked + 2);
});

test("orders are given once the user is an administrator, and not before", async () => {
    const asked = started(...LIST).length;
    permission.allowed = false;
    permission.changed();
    run = 4;
    await pass(20);
    assert.equal(started(...LIST).length, asked);
    assert.equal(byId("read-only").hidden, false);
    permission.allowed = true;
    permission.changed();
    permission.changed();
    await settle();
    assert.equal(started(...LIST).length, asked + 1);
    assert.equal(started(...LIST).at(-1).options.superuser, "require");
    assert.equal(byId("read-only").hidden, true);
});

test("whoever may neither give orders nor read the lines is not told to look", async () => {
    permission.allowed = false;
    permission.changed();
    const lines = started("enogatectl", "hall", "lines").length;
    assert.match(byId("read-only").textContent, /^You can look, but not change anything\./);
    started("enogatectl", "hall", "lines").at(-1).reject({ message: "enogatectl: why" });
    await pass(2);
    assert.deepEqual([byId("feed").textContent, byId("feed").dataset.state], ["lost", "lost"]);
    assert.match(byId("read-only").textContent, /^You can see nothing, since the lines cannot be read\. Turn on /);
    assert.equal(byId("read-only").hidden, false);
    await pass(5);
    assert.ok(started("enogatectl", "hall", "lines").length > lines);
    await bring();
    assert.match(byId("read-only").textContent, /^You can look, but not change anything\./);
    permission.allowed = true;
    permission.changed();
    await settle();
    assert.equal(byId("read-only").hidden, true);
});

test("who may write the desk gives orders without becoming root, but starts no service", async () => {
    permission.allowed = false;
    permission.changed();
    const asked = started(...LIST).length;
    hasDesk = true;
    await pass(3);
    assert.equal(byId("read-only").hidden, true);
    assert.equal(started(...LIST).length, asked + 1);
    assert.equal(started(...LIST).at(-1).options.superuser, null);
    assert.deepEqual(started("test", "-w").at(-1).words, ["test", "-w", "/run/enogate/hall/desk"]);
    assert.equal(started("test", "-w").at(-1).options.superuser, undefined);
    view.open("#/overview");
    assert.deepEqual(["refresh", "restart", "stop"].map(name => byId(`gateway-${name}`).disabled), [false, true, true]);
    assert.equal(byId("gateway-note").textContent, "Restart, Stop, Back up and Set up need administrative access.");
    await bring({ ...RESPONSE, data: "FFA1B280" });
    const [problem] = byId("attention").children;
    assert.match(problem.textContent, /BASE is FF800000, .* is FFA1B280.*Restart$/);
    assert.equal(problem.lastElementChild.disabled, true);
    await bring({ ...RESPONSE, data: "FF800000" });
    permission.allowed = true;
    permission.changed();
    await settle();
    assert.deepEqual([byId("gateway-restart").disabled, byId("gateway-note").textContent], [false, ""]);
    assert.equal(byId("gateway-stop").disabled, false);
    // It is not known yet what the user may do.
    permission.allowed = null;
    permission.changed();
    assert.deepEqual([byId("gateway-restart").disabled, byId("gateway-note").textContent], [true, ""]);
    permission.allowed = true;
    permission.changed();
    await settle();
    byId("gateway-restart").click();
    await settle();
    const { words, options } = started("systemctl", "restart").at(-1);
    assert.deepEqual([words, options.superuser], [["systemctl", "restart", "enogate@hall.service"], "require"]);
    assert.match(byId("gateway-note").textContent, /^Restarted at \d\d:\d\d:\d\d\.$/);
    byId("gateway-stop").click();
    await settle();
    assert.deepEqual(started("systemctl", "stop").at(-1).words, ["systemctl", "stop", "enogate@hall.service"]);
    assert.match(byId("gateway-note").textContent, /^Stopped at \d\d:\d\d:\d\d\.$/);
    // A restart that fails is an error of the page.
    const { outputOf } = machine;
    machine.outputOf = given => given[1] === "restart" ? Error("why") : outputOf(given);
    byId("gateway-restart").click();
    await settle();
    assert.deepEqual([byId("gateway-note").textContent, byId("problem-text").textContent], ["", "why"]);
    machine.outputOf = outputOf;
    byId("problem-close").click();
    hasDesk = false;
});

test("a service that is stopped can be started, and gets no orders", async () => {
    const { outputOf } = machine;
    machine.outputOf = words => words[1] === "show" ? "ActiveState=failed\n" : outputOf(words);
    await pass(3);
    assert.equal(byId("gateway-stop").disabled, true);
    machine.outputOf = words => words[1] === "show" ? "ActiveState=inactive\n" : outputOf(words);
    await pass(3);
    assert.match(byId("verdict-title").textContent, /attention/);
    assert.equal(byId("verdict").dataset.level, "bad");
    assert.match(byId("attention").textContent, /The gateway hall is stopped/);
    assert.deepEqual([byId("gateway-refresh").disabled, byId("gateway-stop").disabled], [true, true]);
    view.open("#/devices");
    assert.deepEqual([byId("feed").textContent, byId("feed").dataset.state], ["stopped", "stopped"]);
    assert.deepEqual([byId("trouble").hidden, byId("trouble-help").textContent], [false, "Start"]);
    assert.equal(byId("trouble-help").disabled, false);
    byId("trouble-help").click();
    await settle();
    assert.deepEqual(started("systemctl", "start").at(-1).words, ["systemctl", "start", "enogate@hall.service"]);
    machine.outputOf = words => words[1] === "-c" ? Object.assign(Error("no"), { exit_status: 1 }) : outputOf(words);
    await pass(3);
    assert.deepEqual([byId("feed").textContent, byId("feed").dataset.state], ["no stick", "stopped"]);
    machine.outputOf = outputOf;
    await pass(3);
    assert.deepEqual([byId("trouble").hidden, byId("feed").textContent], [true, "live"]);
    byId("gateway-journal").click();
    assert.deepEqual(jumps, ["/system/services#/enogate%40hall.service"]);
});

test("an order to a device is shown as sent, and then as not answered, also in the Overview", async () => {
    const { outputOf } = machine;
    machine.outputOf = words => words.includes("switch") ? null : outputOf(words);
    const output = { den: 1, name: "OV", num: 0, unit: "%" };
    const actuator = channel =>
        ({ ...READING, eep: "D2-01-12", id: "01800AD1", readings: [{ name: "IO", raw: channel }, output] });
    await bring(actuator(0));
    view.open("#/devices");
    await pass(1);
    const row = byId("devices-rows").children.find(({ dataset }) => dataset.id === "01800AD1");
    const [on] = row.querySelectorAll("button");
    const answer = () => row.textContent.match(/sent …|…|✓ answered|no answer|$/)[0];
    on.click();
    await settle();
    const given = started("enogatectl", "--json", "hall", "--", "switch").at(-1);
    assert.deepEqual([given.words.slice(4), answer()], [["switch", "01800AD1", "0", "on"], "…"]);
    given.resolve();
    await pass(2);
    assert.equal(answer(), "sent …");
    await bring(actuator(1));
    await pass(1);
    assert.equal(answer(), "no answer");
    view.open("#/overview");
    assert.match(byId("attention").textContent, /01800AD1 did not answer an order/);
    await bring(actuator(0));
    assert.doesNotMatch(byId("attention").textContent, /01800AD1/);
    assert.equal(byId("devices-rows").children.length, 0);
    on.click();
    started("enogatectl", "--json", "hall", "--", "switch").at(-1).reject({ message: "enogatectl: why" });
    view.open("#/device/01800AD1");
    await pass(1);
    assert.match(byId("device-act").textContent, /why/);
    machine.outputOf = outputOf;
});

test("a new sender appears in the open dialog that replaces a device", async () => {
    await bring({ ...READING, eep: "F6-02-01", id: "01800AE1", readings: [{ name: "EB", word: "pressed" }] });
    view.open("#/device/01800AE1");
    byId("device-edit").click();
    byId("edit-replace").click();
    assert.equal(byId("edit-senders").children.length, 0);
    await bring({ ...PACKET, id: "01800AE2" });
    assert.deepEqual(byId("edit-senders").children.map(({ firstChild }) => firstChild.textContent), ["01800AE2"]);
    const { outputOf } = machine;
    machine.outputOf = words => words.includes("replace") ? null : outputOf(words);
    byId("edit-senders").children[0].click();
    byId("edit-swap").click();
    const replace = started("enogatectl", "hall", "replace").at(-1);
    assert.deepEqual(replace.words.slice(3), ["01800AE1", "01800AE2"]);
    const asked = started(...LIST).length;
    replace.resolve("01800AE2: learned\n");
    await pass(1);
    assert.deepEqual([location.hash, byId("edit").open, started(...LIST).length],
                     ["#/device/01800AE2", false, asked + 1]);
    machine.outputOf = outputOf;
});

test("the error of a button stays until it is closed, whatever the page asks by itself", async () => {
    const { outputOf } = machine;
    machine.outputOf = words => words.at(-1) === "off" ? null : outputOf(words);
    byId("teach-close").click();
    started("enogatectl", "--json", "hall", "--", "learn", "off").at(-1).reject({ message: "enogatectl: why" });
    await settle();
    const asked = started(...LIST).length;
    await bring(TAUGHT);
    await pass(2);
    assert.equal(started(...LIST).length, asked + 1);
    assert.deepEqual([byId("problem").hidden, byId("problem-text").textContent], [false, "why"]);
    byId("problem-close").click();
    assert.equal(byId("problem").hidden, true);
    machine.outputOf = outputOf;
});

test("a click on the tab of another gateway ends the reading of the first one's lines", async () => {
    const first = started("enogatectl", "hall", "lines").at(-1);
    byId("gateways").children[1].click();
    await settle();
    assert.ok(first.isClosed);
    assert.equal(started("enogatectl", "yard", "lines").length, 1);
});

test("devices that are read late are not those of the gateway that was opened meanwhile", async () => {
    const { outputOf } = machine;
    machine.outputOf = words => words.at(-1) === "devices" ? null : outputOf(words);
    view.open("#/devices");
    const [hall, yard] = byId("gateways").children;
    const device = { ...DEVICE, seen: null, dbm: null, readings: [] };
    const read = async name => {
        const process = started("enogatectl", "--json", name, "devices").at(-1);
        process.write(`${JSON.stringify(device)}\n`);
        process.resolve();
        await pass(1);
        return byId("devices-rows").children.length;
    };
    hall.click();
    await settle();
    yard.click();
    await settle();
    assert.equal(await read("hall"), 0);
    assert.equal(await read("yard"), 1);
});

test("a state that is read late is not that of the gateway that was opened meanwhile", async () => {
    const { outputOf } = machine;
    machine.outputOf = words => words[0] === "systemctl" ? null : outputOf(words);
    const [hall, yard] = byId("gateways").children;
    const fails = async name => {
        const process = started("systemctl").findLast(({ words }) => words.at(-1) === `enogate@${name}.service`);
        process.write("ActiveState=failed\n");
        process.resolve();
        await pass(1);
        return byId("trouble-text").textContent;
    };
    hall.click();
    await settle();
    yard.click();
    await settle();
    assert.equal(await fails("hall"), "");
    assert.match(await fails("yard"), /^The gateway yard is stopped\.$/);
    machine.outputOf = outputOf;
});

test("the learn window of a gateway is closed when another one is opened", async () => {
    const { outputOf } = machine;
    machine.outputOf = words => words.includes("--for") ? null : outputOf(words);
    const [hall, yard] = byId("gateways").children;
    hall.click();
    await settle();
    byId("teach-open").click();
    const opened = started("enogatectl", "--for").at(-1);
    assert.deepEqual([opened.words[3], opened.isClosed], ["hall", false]);
    yard.click();
    await settle();
    assert.equal(opened.isClosed, true);
});

test("a learn window is counted down once a line reports that it is open", async () => {
    const { outputOf } = machine;
    machine.outputOf = words => words.includes("--for") ? null : outputOf(words);
    view.open("#/add");
    byId("gateways").children[0].click();
    await settle();
    byId("teach-open").click();
    assert.equal(byId("teach-left").textContent, "opening …");
    started("enogatectl", "hall", "lines").at(-1).write(`\n${JSON.stringify({ ...STATUS, mode: "on" })}\n`);
    await pass(1);
    assert.equal(byId("teach-left").textContent, "1:59");
    assert.equal(byId("window").textContent, "Learn window open 1:59");
});

test("a result opens the dialog of its device, and then has the label that is given there", async () => {
    const id = "01800AF1";
    view.open("#/add");
    await bring({ ...TAUGHT, id });
    const [row] = byId("teach-rows").children;
    const [, sender, , , { children: [button] }] = row.children;
    button.click();
    assert.deepEqual([byId("edit").open, byId("edit-id").textContent], [true, id]);
    byId("edit-label").value = "Attic";
    byId("edit-save").click();
    await settle();
    assert.deepEqual(started("enogatectl", "--json", "hall", "--", "label").at(-1).words.slice(5), [id, "Attic"]);
    await bring({ ...DEVICE, id, label: "Attic" }, { type: "list", count: 1 });
    assert.deepEqual([byId("edit").open, location.hash, sender.textContent], [false, "#/add", `Attic${id}`]);
    // A sender that did not send its profile.
    await bring({ ...PACKET, id: "01800AF2", rorg: "A5", why: "no_profile" },
                { ...TAUGHT, id: "01800AF2", eep: null, result: "no_profile" });
    byId("teach-rows").children[0].children[4].children[0].click();
    assert.deepEqual([byId("learn").open, byId("learn-id").textContent], [true, "01800AF2"]);
    byId("learn").close();
});

test("a view that is left has no rows", async () => {
    const rows = ["attention", "devices-rows", "teach-rows", "unknown-rows", "packets-rows"];
    const counts = () => rows.filter(name => byId(name).children.length);
    for (const [address, wanted] of [["#/overview", ["attention"]], ["#/devices", ["devices-rows"]],
                                     ["#/add", ["teach-rows", "unknown-rows"]], ["#/packets", ["packets-rows"]],
                                     ["#/device/01800AF1", []]]) {
        view.open(address);
        await pass(1);
        assert.deepEqual(counts(), wanted, address);
    }
});

test("only an administrator writes a backup, and not a member of the group", async () => {
    view.open("#/overview");
    await pass(1);
    assert.equal(byId("gateway-backup").disabled, false);
    permission.allowed = false;
    hasDesk = true;
    permission.changed();
    await pass(3);
    assert.deepEqual([byId("gateway-refresh").disabled, byId("gateway-backup").disabled], [false, true]);
    permission.allowed = true;
    hasDesk = false;
    permission.changed();
    await settle();
    // Orders are given without becoming root still, but not the backup.
    byId("gateway-backup").click();
    await settle();
    assert.equal(started("enogatectl", "hall", "backup").at(-1).options.superuser, "require");
    byId("gateways").children[1].click();
    await settle();
    byId("gateway-backup").click();
    await settle();
    assert.equal(started("enogatectl", "yard", "backup").length, 1);
});

test("sorted by time or signal, the devices are sorted again when the list is opened, and not before", async () => {
    const ids = ["01800AF6", "01800AF7"];
    const shownIds = () => byId("devices-rows").children.map(({ dataset }) => dataset.id)
            .filter(id => ids.includes(id));
    for (const column of ["received", "signal"]) {
        for (const [id, dbm] of [[ids[0], -50], [ids[1], -90]])
            await bring({ ...READING, id, dbm });
        view.open("#/devices");
        byId("devices-sort").enterValue(column, "change");
        assert.deepEqual(shownIds(), [ids[1], ids[0]], column);
        await bring({ ...READING, id: ids[0], dbm: -95 });
        assert.deepEqual(shownIds(), [ids[1], ids[0]], column);
        view.open("#/overview");
        view.open("#/devices");
        assert.deepEqual(shownIds(), ids, column);
        byId("devices-sort").enterValue("label", "change");
    }
    view.open("#/overview");
});

test("after a reload, but not later, devices have the times that were known before it", async () => {
    const line = { ...READING, id: "01800AF5" };
    const choose = async number => {
        byId("gateways").children[number].click();
        await settle();
    };
    // The page is left, and so many seconds later it is open again, with what it has read then.
    const ageAfterReload = async seconds => {
        view.listeners.get("pagehide")();
        await pass(seconds);
        await choose(1);
        await choose(0);
        started("enogatectl", "hall", "lines").at(-1).write(`${JSON.stringify(line)}\n\n`);
        await pass(1);
        return byId("device-age").textContent;
    };
    await choose(0);
    view.open("#/device/01800AF5");
    await bring(line);
    await pass(4);
    assert.equal(await ageAfterReload(2), "last telegram: 8 s ago");
    assert.equal(await ageAfterReload(2), "last telegram: 11 s ago", "a second reload");
    assert.equal(await ageAfterReload(31), "last telegram: earlier");
    await choose(1);
    await bring(line);
    assert.equal(await ageAfterReload(2), "last telegram: earlier", "the times are those of another gateway");
    view.open("#/overview");
});

test("the free space is looked at when the page is opened, each minute, and not while it is hidden", async () => {
    const looks = () => started("df").length;
    assert.equal(spaceLooksAtStart, 1);
    const [before, { outputOf }] = [looks(), machine];
    machine.outputOf = words => words[0] === "df" ? "Avail\n   70\n  600\n" : outputOf(words);
    view.open("#/overview");
    await pass(120);
    assert.deepEqual([looks() - before, byId("gateway-space").textContent], [2, "70 MB"]);
    assert.match(byId("attention").textContent, /Only 70 MB are free on the disk/);
    document.hidden = true;
    await pass(61);
    document.hidden = false;
    assert.equal(looks() - before, 2);
    Object.assign(machine, { outputOf });
    await pass(60);
    assert.equal(byId("gateway-space").textContent, "not known yet");
});

test("after how many hours a device is silent can be changed, and the browser stores it", async () => {
    view.open("#/devices");
    byId("gateways").children[1].click();
    await settle();
    await bring(READING);
    const hours = byId("devices-quiet");
    const isQuiet = () => byId("devices-rows").children[0].classList.contains("quiet");
    view.open("#/overview");
    assert.deepEqual([hours.value, byId("verdict-text").textContent], ["", "The device was heard."]);
    view.open("#/devices");
    // The profile of the device has intervals of half an hour.
    for (const [text, seconds, wanted] of [["0.01", 35, false], ["0.01", 2, true], ["0", 0, false], ["24", 0, false],
                                           ["", 0, false], ["", 5400, true], ["0", 0, false], ["", 0, true]]) {
        hours.enterValue(text);
        await pass(seconds);
        assert.deepEqual([isQuiet(), localStorage.getItem("enogate-silent-hours")], [wanted, text]);
    }
});

test("a list that is empty because of the search says so, in each section, and the search can be cleared", async () => {
    const sensor = { ...READING, id: "01800AA1" };
    byId("gateways").children[1].click();
    await settle();
    await bring(PACKET, sensor, { ...sensor, id: "01800AA2" });
    const shown = () => byId("hidden").hidden ? "" : byId("hidden-text").textContent;
    const search = byId("search");
    for (const [address, count] of [["#/devices", "2 entries are"], ["#/devices/weak", ""], ["#/add", "1 entry is"],
                                    ["#/packets", "1 entry is"], ["#/overview", ""], ["#/device/01800AA1", ""]]) {
        view.open("#/devices");
        search.enterValue("no such device");
        view.open(address);
        assert.equal(shown(), count && `${count} hidden by the search.`, address);
        byId("hidden-clear").click();
        assert.deepEqual([search.value, shown(), location.hash], ["", "", address]);
    }
    view.open("#/devices");
    assert.equal(byId("devices-rows").children.length, 2);
    search.enterValue("aa1");
    assert.deepEqual([byId("devices-rows").children.length, shown()], [1, ""]);
    search.enterValue("");
});
