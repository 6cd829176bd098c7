import assert from "node:assert/strict";
import { execFileSync } from "node:child_process";
import { readFileSync } from "node:fs";
import { test } from "node:test";

import "./page.mjs";
import * as orders from "../../contrib/cockpit/enogate/orders.js";
import { ordersOfCommands } from "./parser.mjs";
import { HOSTILE } from "./samples.mjs";

const ID = "01800ABC";

test("enogatectl takes each command of the page for the order that is meant", () => {
    const wanted = new Map([
        ["add 01800ABC D5-00-01", ["add", ID, "D5-00-01"]],
        ["remove 01800ABC", ["remove", ID]],
        ["label 01800ABC Front door, \"A\"", orders.labelOrder(ID, "Front door, \"A\"")],
        ["label 01800ABC --json", orders.labelOrder(ID, "--json")],
        ["label 01800ABC -- x", orders.labelOrder(ID, "-- x")],
        ["label 01800ABC", orders.labelOrder(ID, "")],
        ["list", ["list"]], ["base", ["base"]], ["learn off", ["learn", "off"]],
    ]);
    const commands = [...wanted.values()].map(order => orders.orderCommand("hall", order));
    assert.deepEqual(ordersOfCommands(commands), [...wanted.keys()].map(order => [order, null, true]));
    const windows = [["learn", "on"], ["learn", "on", "answer"], ["learn", "as", "F6-02-01"]];
    assert.deepEqual(ordersOfCommands(windows.map(order => orders.windowCommand("hall", order, 120))),
                     windows.map(order => [order.join(" "), 120, false]));
});

test("enogatectl takes the command for the recorded devices for one that gives no order", () => {
    const program = "import sys; from enogate_ctl.command_line import parsed; print(parsed(sys.argv[1:]))";
    const contrib = new URL("../../contrib", import.meta.url).pathname;
    const words = ["-B", "-c", program, ...orders.recordedCommand("hall").slice(1)];
    const shown = String(execFileSync("python3", words, { env: { ...process.env, PYTHONPATH: contrib } }));
    assert.match(shown, /^ShowDevices\(.*hall\.lines.*is_json=True\)\n$/);
});

test("a hostile label is one argument, which is a label of enogatectl or refused by it", () => {
    const command = text => orders.orderCommand("hall", orders.labelOrder(ID, text));
    for (const text of HOSTILE.filter(Boolean))
        assert.equal(command(text).filter(word => word === text).length, 1, text);
    const results = ordersOfCommands(HOSTILE.map(command));
    results.forEach((result, index) => {
        const text = HOSTILE[index];
        assert.deepEqual(result, orders.isLabel(text) ? [`label ${ID}${text && ` ${text}`}`, null, true] : null, text);
    });
});

test("labels have 1 to 32 printable ASCII characters, and no spaces at their ends", () => {
    for (const text of ["", "x", "a b", "~", "x".repeat(32), "<b>"])
        assert.ok(orders.isLabel(text), text);
    for (const text of [" ", " x", "x ", "ä", "a\tb", "a\nb", "x".repeat(33), "x\n"])
        assert.ok(!orders.isLabel(text), text);
});

test("the fields for a label take no longer one", () => {
    const page = readFileSync(new URL("../../contrib/cockpit/enogate/index.html", import.meta.url), "utf8");
    const fields = [...page.matchAll(/<input id="([a-z]+-label)" maxlength="([0-9]+)"/g)];
    assert.deepEqual(fields.map(([, id, longest]) => [id, Number(longest)]),
                     [["learn-label", orders.LONGEST_LABEL], ["edit-label", orders.LONGEST_LABEL]]);
    assert.deepEqual([0, 1].map(more => orders.isLabel("x".repeat(orders.LONGEST_LABEL + more))), [true, false]);
});

test("an ID may have marks between its digits", () => {
    for (const text of ["01800ABC", "01800abc", " 01:80:0a:bc ", "0x01800ABC", "01-80-0A-BC", "01.80.0a.bc",
                        "0180 0ABC"])
        assert.equal(orders.idIn(text), ID, text);
    for (const text of [...HOSTILE, "01800AB", "001800ABC", "01800ABG", "0x01800AB", "x01800ABC", "01800A0xBC",
                        "--json"])
        assert.equal(orders.idIn(text), null, text);
});

test("numbers in fields", () => {
    const number = (text, greatest = 100) => orders.wholeNumberIn(text, greatest);
    assert.deepEqual(["0", "50", "100", "007"].map(text => number(text)), [0, 50, 100, 7]);
    assert.deepEqual(["", " 5", "-1", "101", "1e2", "5.0", "x"].map(text => number(text)), Array(7).fill(null));
    assert.deepEqual([number("127", 127), number("128", 127)], [127, null]);
});

test("the fields for groups have the ranges of the orders", () => {
    const file = readFileSync(new URL("../../contrib/share/orders", import.meta.url), "utf8");
    const greatest = name => Number(file.match(new RegExp(`^${name} .* 0 to ([0-9]+)$`, "m"))[1]);
    const page = readFileSync(new URL("../../contrib/cockpit/enogate/index.html", import.meta.url), "utf8");
    const fields = [...page.matchAll(/id="groups-[a-z]+" type="number" min="0" max="([0-9]+)"/g)];
    assert.deepEqual(fields.map(([, most]) => Number(most)), ["OFF", "VAL", "RAMP"].map(greatest));
    assert.equal(orders.ALL_CHANNELS, greatest("CH"));
});

test("the sentence of an error", () => {
    assert.equal(orders.failureText({ message: "enogatectl: unknown_device: learn it\n" }), "unknown_device: learn it");
    assert.equal(orders.failureText({ message: "usage: enogatectl\nenogatectl: error: an order is required" }),
                 "error: an order is required");
    assert.match(orders.failureText({ problem: "access-denied", message: "Not permitted" }), /administrative access/);
    assert.match(orders.failureText({ problem: "not-found" }), /not installed/);
});
