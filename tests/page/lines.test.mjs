import assert from "node:assert/strict";
import { readFileSync } from "node:fs";
import { test } from "node:test";

import { parseLine, recordedDevicesIn } from "../../contrib/cockpit/enogate/lines.js";
import { ALL, DEVICE, HOSTILE, LIST, PACKET, READING, RESPONSE, STATUS, TAUGHT } from "./samples.mjs";

const parsed = line => parseLine(JSON.stringify(line));

/** All lines that the pages of the guide show. */
function linesOfGuide() {
    const page = name => readFileSync(new URL(`../../docs/guide/${name}.md`, import.meta.url), "utf8");
    const text = ["devices", "orders", "output", "teach-in"].map(page).join("\n");
    return text.split("\n").filter(line => /^\{.*"type":"[a-z]+"\}$/.test(line));
}

test("each kind of line has its members", () => {
    for (const line of ALL)
        assert.deepEqual(parsed(line), line);
});

test("all lines of the guide are accepted", () => {
    const lines = linesOfGuide();
    assert.ok(lines.length > 50, `${lines.length} lines`);
    for (const line of lines)
        assert.deepEqual(parseLine(line), JSON.parse(line), line);
});

test("a line that follows NUL bytes is read", () => {
    const nuls = "\0".repeat(5000);
    for (const before of [nuls, `{"type":${nuls}`])
        assert.deepEqual(parseLine(before + JSON.stringify(READING)), READING);
    assert.deepEqual([parseLine(nuls), parseLine(JSON.stringify(READING) + nuls)], [null, null]);
});

test("texts that are no lines are dropped", () => {
    const texts = ["", "{", "null", "1", "[]", "[1]", '"ok"', "{}", '{"type":1}', '{"type":"other"}', '{"type":"ok"',
        '{"type":"__proto__"}', '{"type":"constructor"}', "x".repeat(100000), "\u0000", "[".repeat(10000)];
    for (const text of texts)
        assert.equal(parseLine(text), null, text.slice(0, 40));
});

test("a line that lacks a member is dropped", () => {
    const needed = {
        reading: ["id", "eep", "dbm", "readings"],
        packet: ["id", "eep", "dbm", "dest", "rorg", "status", "payload", "why"],
        teach: ["id", "eep", "result"], device: ["id", "eep", "label"], list: ["count"],
        status: ["mode", "readings", "teach", "responses", "ignored", "refused"],
        response: ["code", "data"], error: ["error"], ok: [],
    };
    for (const line of ALL.filter(({ kind }) => kind === undefined)) {
        for (const member of needed[line.type]) {
            const { [member]: _, ...rest } = line;
            assert.equal(parsed(rest), null, `${line.type} without ${member}`);
        }
    }
    assert.equal(parsed({ kind: 4, type: "packet", why: "other_type" }), null);
});

test("hostile texts are dropped, except for labels of printable ASCII", () => {
    const isLabel = text => /^[ -~]{0,32}$/.test(text);
    for (const text of HOSTILE) {
        for (const line of [READING, PACKET, TAUGHT, DEVICE]) {
            for (const member of ["id", "eep"])
                assert.equal(parsed({ ...line, [member]: text }), null, `${line.type} ${member} ${text}`);
        }
        for (const member of ["rorg", "status", "dbm", "dest", "kind"])
            assert.equal(parsed({ ...PACKET, [member]: text }), null, `packet ${member} ${text}`);
        assert.equal(parsed({ ...DEVICE, label: text }) !== null, isLabel(text), text);
        assert.equal(parsed({ ...LIST, count: text }), null, text);
    }
    assert.equal(parsed({ ...PACKET, why: "<b>" }), null);
    assert.equal(parsed({ ...TAUGHT, result: "a b" }), null);
    assert.equal(parsed({ ...STATUS, mode: "<b>" }), null);
    assert.equal(parsed({ ...RESPONSE, data: "<b>" }), null);
    assert.equal(parsed({ ...RESPONSE, data: "FFF" }), null);
});

test("readings of another form are dropped", () => {
    const value = { name: "TMP", num: 1, den: 1, unit: "C" };
    const readings = [null, 1, "x", [], {}, { name: "TMP" }, { name: "<b>", raw: 1 }, { name: "", raw: 1 },
        { ...value, den: 0 }, { ...value, den: -1 }, { ...value, num: "1" }, { ...value, num: 1.5 },
        { ...value, unit: undefined }, { ...value, unit: "\n" }, { name: "CO", word: 1 }, { name: "CO", word: "a\nb" },
        { name: "CO", word: "" }, { name: "TI", raw: null }, { name: "TI", raw: "1" },
        { name: "HUM", out_of_range: null }];
    for (const reading of readings)
        assert.equal(parsed({ ...READING, readings: [reading] }), null, JSON.stringify(reading));
    for (const list of [null, 5, "x", {}])
        assert.equal(parsed({ ...READING, readings: list }), null, JSON.stringify(list));
});

test("numbers that are not finite or whole are dropped", () => {
    for (const number of ["1e999", "-1", "1.5"])
        assert.equal(parseLine(`{"count":${number},"type":"list"}`), null, number);
    assert.ok(parseLine(JSON.stringify(STATUS).replace('"ignored":1', '"ignored":18446744073709551615')));
});

test("recorded devices have a time in ms, or none, and readings", () => {
    const recorded = { ...DEVICE, dbm: -45, readings: [{ name: "CO", word: "open" }], seen: 1795867200 };
    const unheard = { ...recorded, id: "01800ABD", dbm: null, readings: [], seen: null };
    assert.deepEqual(recordedDevicesIn([recorded, unheard, LIST].map(line => `${JSON.stringify(line)}\n`).join("")),
                     [{ ...recorded, seen: 1795867200000 }, unheard]);
    const bad = [DEVICE, { ...recorded, seen: "1" }, { ...recorded, seen: -1 }, { ...recorded, id: "<b>" }, 5, null,
        { ...recorded, dbm: "<b>" }, { ...recorded, readings: [{ name: "<b>", word: "x" }] },
        { ...recorded, readings: null }];
    assert.deepEqual(recordedDevicesIn(bad.map(line => JSON.stringify(line)).join("\n")), []);
    assert.deepEqual(recordedDevicesIn(""), []);
});

test("a member __proto__ changes nothing", () => {
    const line = '{"__proto__":{"id":"01800ABC"},"eep":"D5-00-01","label":"","type":"device"}';
    assert.equal(parseLine(line), null);
    assert.equal({}.id, undefined);
});
