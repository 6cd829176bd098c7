import assert from "node:assert/strict";
import { test } from "node:test";

import "./page.mjs";
import { ALL_CHANNELS } from "../../contrib/cockpit/enogate/orders.js";
import * as words from "../../contrib/cockpit/enogate/words.js";

const reading = members => ({ reading: members, channel: null });
const device = (eep, items) => ({ eep, readings: new Map(items.entries()) });

test("reasons and results", () => {
    assert.equal(words.reasonText("for_others"), "addressed to another device or gateway");
    assert.equal(words.reasonText("new_one"), "new_one");
    assert.deepEqual(["accepted", "deleted"].map(words.resultText), ["learned", "deleted"]);
});

test("each reading of each profile has a name", () => {
    assert.equal(words.PROFILES.size, 65);
    for (const [eep, { readings }] of words.PROFILES) {
        assert.ok(readings.length, eep);
        for (const { name, unit } of readings)
            assert.notEqual(words.readingText(eep, reading({ name, unit, num: 1, den: 1 })).split(" ")[0], name, eep);
    }
});

test("in a list of profiles, those of one kind have their ranges", () => {
    const wanted = [
        ["A5-02-01", "A5-02-01 Temperature sensor, -40 to 0 °C"],
        ["A5-02-0B", "A5-02-0B Temperature sensor, 60 to 100 °C"],
        ["A5-02-20", "A5-02-20 Temperature sensor, -10 to 41.2 °C"],
        ["A5-06-01", "A5-06-01 Light sensor, 300 to 30000 lx"], ["F6-01-01", "F6-01-01 Push button"],
    ];
    for (const option of wanted)
        assert.deepEqual(words.profileOption(option[0]), option);
});

test("what actuators can do", () => {
    const abilities = eep => words.PROFILES.get(eep).abilities;
    assert.equal(abilities("D5-00-01"), null);
    assert.deepEqual(abilities("D2-01-00"), { kind: "switch", channels: [0] });
    assert.deepEqual(abilities("D2-01-02"), { kind: "dimmer", channels: [0] });
    assert.deepEqual(abilities("D2-01-12"), { kind: "switch", channels: [0, 1, ALL_CHANNELS] });
    assert.deepEqual(abilities("D2-05-00"), { kind: "blind", channels: [0] });
});

test("numbers are decimals with units", () => {
    const shown = (num, den, unit = "C") => words.readingText("A5-02-05", reading({ name: "TMP", num, den, unit }));
    assert.equal(shown(1024, 51), "Temperature 20.08 °C");
    assert.equal(shown(-5, 2), "Temperature -2.5 °C");
    assert.equal(shown(20, 1), "Temperature 20 °C");
    assert.equal(shown(1234567, 1), "Temperature 1234567 °C");
    assert.equal(shown(1, 1, "K"), "TMP 1 K");
    assert.equal(words.readingText("A5-12-02", reading({ name: "MR", num: 1, den: 3, unit: "m3" })), "Gas 0.33 m³");
});

test("named states, numbers without a unit, and numbers without a meaning", () => {
    assert.equal(words.readingText("D5-00-01", reading({ name: "CO", word: "closed" })), "Contact closed");
    assert.equal(words.readingText("A5-10-03", reading({ name: "SP", raw: 0 })), "Set point 0");
    assert.equal(words.readingText("A5-04-01", reading({ name: "HUM", out_of_range: 251 })), "Humidity out of range");
    assert.equal(words.readingText("D5-00-01", reading({ name: "__proto__", raw: 1 })), "__proto__ 1");
    assert.equal(words.readingText("__proto__", reading({ name: "CO", raw: 1 })), "CO 1");
});

test("the parts of a reading are its name with its channel, its value and its unit", () => {
    const output = { reading: { name: "OV", num: 1, den: 3, unit: "%" }, channel: 1 };
    assert.deepEqual(words.readingParts("D2-01-12", output),
                     { name: "channel 1: Output", value: "0.33", unit: "%" });
    for (const eep of ["D2-01-0E", "D2-01-99"])
        assert.equal(words.readingParts(eep, output).name.startsWith("channel"), false, eep);
    assert.deepEqual(words.readingParts("D5-00-01", reading({ name: "CO", word: "open" })),
                     { name: "Contact", value: "open", unit: "" });
    assert.deepEqual(words.readingParts("A5-02-05", reading({ name: "TMP", out_of_range: 1 })),
                     { name: "Temperature", value: "out of range", unit: "" });
});

test("the usual intervals are those of the shared table", () => {
    const intervals = ["D5-00-01", "A5-02-05", "A5-08-01", "F6-02-01", "D2-01-12", "A5-12-01"]
            .map(eep => words.PROFILES.get(eep).interval);
    assert.deepEqual(intervals, [1800, 1200, 1800, null, null, null]);
});

test("details are left out if there is more", () => {
    const state = (channel, ...items) => items.map(item => ({ reading: item, channel }));
    const text = items => words.stateText(device("D2-01-12", items));
    const output = percent => ({ name: "OV", num: percent, den: 1, unit: "%" });
    const numbers = ["PFD", "IO"].map(name => ({ name, raw: 0 }));
    const details = [...numbers, { name: "EL", word: "ok" }, { name: "LC", raw: 1 }];
    const normal = state(0, ...details, output(100));
    assert.equal(text(normal), "channel 0: Output 100 %");
    const faults = [{ name: "PFD", raw: 1 }, { name: "EL", word: "failure" }];
    const bad = state(1, ...faults, { name: "OV", word: "not_applicable" });
    assert.equal(text(bad), "channel 1: Power failure 1, channel 1: Error level failure, channel 1: Output not_applicable");
    assert.equal(text([...normal, ...state(1, output(0))]), "channel 0: Output 100 %, channel 1: Output 0 %");
    assert.equal(text(state(0, { name: "IO", raw: 0 })), "channel 0: Channel 0");
    assert.equal(text([]), "");
    assert.equal(words.stateText(device("A5-99-99", state(null, { name: "NEW", raw: 0 }))), "NEW 0");
});

test("ages and times", () => {
    assert.deepEqual([0, 59, 60, 3599, 3600, 86399, 86400, 900000].map(seconds => words.ageText(0, seconds * 1000)),
                     ["0 s ago", "59 s ago", "1 min ago", "59 min ago", "1 h ago", "23 h ago", "1 d ago", "10 d ago"]);
    assert.equal(words.ageText(2000, 1000), "0 s ago");
    assert.deepEqual([0, 9, 60, 119, 120].map(words.countdownText), ["0:00", "0:09", "1:00", "1:59", "2:00"]);
    assert.equal(words.ageText(null, 1000), "earlier");
    assert.equal(words.timeText(null), "earlier");
    assert.match(words.timeText(0), /^\d\d:\d\d:\d\d$/);
});

test("the state of a service, signals, kinds", () => {
    const service = (ActiveState, SubState = "") => words.serviceText({ ActiveState, SubState });
    assert.deepEqual(["active", "inactive", "failed", "<b>"].map(state => service(state)),
                     ["running", "stopped", "failed", "unknown"]);
    assert.equal(service("activating", "auto-restart"), "restarting");
    assert.equal(service("activating", "start-pre"), "starting");
    assert.equal(words.serviceText(null), "unknown");
    assert.deepEqual([words.signalText(-45), words.signalText(0), words.signalText(null)], ["-45 dBm", "0 dBm", ""]);
    assert.deepEqual([words.kindText("F6"), words.kindText("30")], ["switch (RPS)", "telegram 30"]);
    assert.equal(words.profileWithKind("D5-00-01"), "D5-00-01 Contact");
    assert.equal(words.profileWithKind("A5-99-99"), "A5-99-99");
});

test("a search also finds the spelling that a label can have", () => {
    const { matchesSearch } = words;
    for (const text of ["Küche", "küche", "KÜCHE", "kü", "Kueche", "kueche"])
        assert.ok(matchesSearch(text, "01800ABC", "Kueche"), text);
    // Texts that are no labels can have other characters.
    assert.ok(matchesSearch("größe", "Größe"));
    for (const text of ["日本", "🔥", "Kuche", "Büro"])
        assert.ok(!matchesSearch(text, "01800ABC", "Kueche"), text);
    assert.ok(matchesSearch("", "01800ABC", "Kueche"));
});
