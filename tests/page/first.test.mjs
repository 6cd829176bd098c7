import assert from "node:assert/strict";
import { mock, test } from "node:test";

import { byId, machine, permission, settle, started } from "./page.mjs";

// The gateways of the machine, and those that run.
let names = [];
let running = [];
machine.outputOf = ([name, ...words]) => {
    if (words.at(-1) === "lines")
        return null;
    if (words[0] === "paths")
        return `${JSON.stringify(Object.fromEntries(names.map(one => [one, {}])))}\n`;
    if (name === "find")
        return "/dev/enocean\n/dev/ttyUSB0\n";
    if (name === "systemctl" && words[0] === "enable") {
        const [, unit] = words.at(-1).match(/^enogate@(.*)\.service$/);
        running.push(unit);
        names = [...new Set([...names, unit])];
        return "";
    }
    const isActive = running.some(one => words.at(-1) === `enogate@${one}.service`);
    return name === "systemctl" ? `ActiveState=${isActive ? "active" : "inactive"}\n` : "";
};
document.querySelectorAll = selector => selector !== "#devices-states a" ? []
    : ["all", "silent", "weak", "actuators"].map(state => {
        const link = document.createElement("a");
        link.dataset.state = state;
        link.append(document.createElement("span"));
        return link;
    });
mock.timers.enable({ apis: ["setTimeout", "setInterval", "Date"], now: 1000 });
permission.allowed = null;
// The gateway that was open when the browser was closed.
localStorage.setItem("enogate-gateway", "yard");
await import("../../contrib/cockpit/enogate/main.js");
await settle();

/** Lets two seconds pass, after which the page looks for gateways again, if it has found none. */
async function pass() {
    for (let number = 0; number < 5; number++) {
        mock.timers.tick(500);
        await settle();
    }
}

const opened = () => byId("gateways").children.filter(tab => tab.attributes.get("aria-selected") === "true")
        .map(({ dataset }) => dataset.gateway);
const looks = () => started("enogatectl", "paths").length;

test("without a gateway, an administrator can set up one, and the page looks for gateways", async () => {
    assert.deepEqual([byId("no-gateway").hidden, byId("no-gateway-setup").disabled, opened()], [false, true, []]);
    assert.equal(byId("feed").hidden, true);
    assert.match(byId("no-gateway-hint").textContent, /ask an administrator/);
    permission.allowed = true;
    permission.changed();
    await pass();
    assert.deepEqual([byId("no-gateway-setup").disabled, byId("no-gateway-hint").textContent], [false, ""]);
    const before = looks();
    await pass();
    assert.equal(looks(), before + 1);
    byId("no-gateway-setup").click();
    await settle();
    assert.deepEqual([byId("setup").open, byId("setup-name").value], [true, "hall"]);
    byId("setup").close();
});

test("gateways that appear are found, and the one that was open last is opened", async () => {
    names = ["attic", "yard"];
    running = ["attic"];
    await pass();
    assert.deepEqual([opened(), byId("no-gateway").hidden], [["yard"], true]);
    const found = looks();
    await pass();
    assert.deepEqual([looks(), byId("feed").hidden], [found, false]);
    assert.equal(started("enogatectl", "yard", "lines").length, 1);
});

test("another gateway is set up, and is opened although the first one was open", async () => {
    byId("gateway-setup").click();
    await settle();
    assert.equal(byId("setup-name").value, "hall");
    byId("setup-go").click();
    await settle();
    assert.deepEqual([opened(), byId("gateways").children.map(({ textContent }) => textContent)],
                     [["hall"], ["attic", "hall", "yard"]]);
    assert.equal(byId("setup").open, false);
    assert.ok(started("enogatectl", "yard", "lines").at(-1).isClosed);
});

test("the browser stores which gateway was open last, for this window and for the next one", async () => {
    const [attic] = byId("gateways").children;
    for (const store of [sessionStorage, localStorage])
        assert.equal(store.getItem("enogate-gateway"), "hall");
    attic.click();
    await settle();
    for (const store of [sessionStorage, localStorage])
        assert.equal(store.getItem("enogate-gateway"), "attic");
});

test("a gateway that starts is asked until it answers, and its lines appear without a reload", async () => {
    const { outputOf } = machine;
    const lists = () => started("enogatectl", "--json", "hall", "--", "list").length;
    let hasDesk = false;
    // The file of lines appears with the first answer.
    let hasLines = false;
    machine.outputOf = words => {
        const isOrder = words.includes("--");
        hasLines ||= isOrder && hasDesk;
        if (isOrder && !hasDesk)
            return Error("enogatectl: there is no desk");
        return words[1] === "-r" && !hasLines ? Error("no") : outputOf(words);
    };
    // As in index.html.
    byId("problem").hidden = true;
    const before = lists();
    byId("gateways").children[1].click();
    for (const time of [0, 500, 500]) {
        mock.timers.tick(time);
        await settle();
    }
    // Nobody has asked for the devices but the page itself.
    assert.deepEqual([lists(), byId("problem").hidden, byId("problem-text").textContent, byId("feed").dataset.state],
                     [before + 1, true, "", "lost"]);
    hasDesk = true;
    for (let number = 0; number < 3; number++)
        await pass();
    started("enogatectl", "hall", "lines").at(-1).write("\n");
    await pass();
    assert.equal(byId("feed").dataset.state, "live");
    const asked = lists();
    assert.ok(asked > before + 1);
    await pass();
    assert.equal(lists(), asked);
    machine.outputOf = outputOf;
});

test("a gateway that does not answer is not asked for ever", async () => {
    const { outputOf } = machine;
    machine.outputOf = words => words.includes("--") ? Error("enogatectl: why") : outputOf(words);
    const lists = () => started("enogatectl", "--json", "attic", "--", "list").length;
    byId("gateways").children[0].click();
    for (let number = 0; number < 10; number++)
        await pass();
    const soon = lists();
    assert.ok(soon > 5, String(soon));
    for (let number = 0; number < 20; number++)
        await pass();
    const last = lists();
    for (let number = 0; number < 10; number++)
        await pass();
    assert.equal(lists(), last);
    assert.deepEqual([byId("problem").hidden, byId("problem-text").textContent], [true, ""]);
    // Somebody has asked for them by the button.
    byId("gateway-refresh").click();
    await settle();
    assert.deepEqual([lists(), byId("problem").hidden, byId("problem-text").textContent], [last + 1, false, "why"]);
    machine.outputOf = outputOf;
});
