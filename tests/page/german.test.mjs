import assert from "node:assert/strict";
import { readFileSync } from "node:fs";
import { test } from "node:test";
import { runInThisContext } from "node:vm";

import "./page.mjs";
import { htmlMessages, manifestMessages, messagesIn, MODULES, otherTextsIn, readingWords, untranslatedHtml }
    from "./messages.mjs";
import { READING } from "./samples.mjs";

const PO = new URL("../../contrib/cockpit/enogate/po.de.js", import.meta.url);
const code = readFileSync(PO, "utf8");
const { cockpit } = window;
// The modes of the learn window in the lines, beside "as" and a profile.
const MODES = ["closed", "on", "answer"];
const { "": head, ...german } = readTranslations();
const load = name => import(`../../contrib/cockpit/enogate/${name}.js`);
const [health, words, { TABLES }, { Model }] =
    await Promise.all(["health", "words", "tables", "model"].map(load));

/** Runs po.de.js, as the browser does before the modules. Returns its translations. */
function readTranslations() {
    const { locale } = cockpit;
    let found = null;
    globalThis.cockpit = { locale: data => locale(found = data) };
    runInThisContext(code);
    return found;
}

/** All messages, by their first forms. */
const messages = new Map([
    ...[...MODULES.values()].flatMap(messagesIn),
    ...[...htmlMessages, ...manifestMessages(), ...readingWords(), ...MODES,
        ...TABLES.profiles.flatMap(({ kind, readings }) => [kind, ...readings.map(({ said }) => said)]),
        ...[...TABLES.reason, ...TABLES.rorg].map(([, one]) => one)].map(one => [one]),
].map(forms => [forms[0], forms]));
const placeholders = message => [...new Set(message.match(/\$[0-9]/g))].sort().join();

test("each message has a German translation, and each translation a message", () => {
    const untranslated = [...messages.keys()].filter(one => !Object.hasOwn(german, one));
    const unused = Object.keys(german).filter(one => !messages.has(one));
    assert.deepEqual({ untranslated, unused }, { untranslated: [], unused: [] });
});

test("a translation has as many forms as its message, with the same placeholders", () => {
    for (const [id, [none, ...forms]] of Object.entries(german)) {
        assert.equal(none, null, id);
        const wanted = messages.get(id) ?? [];
        assert.equal(forms.length, wanted.length, id);
        assert.deepEqual(forms.map(placeholders), wanted.map(placeholders), id);
        assert.ok(forms.every(form => form && form === form.trim() && !/[<>&]/.test(form)), id);
        // In German, the plural is longer.
        assert.ok(forms.length < 2 || forms[1].length > forms[0].length, id);
    }
});

test("the translations are sorted, and none is there twice", () => {
    const ids = [...code.matchAll(/^ {4}("(?:[^"\\]|\\.)+"): \[/gm)].map(([, id]) => JSON.parse(id));
    assert.equal(ids.length, Object.keys(german).length);
    assert.deepEqual(ids, [...ids].sort());
    assert.equal(new Set(ids).size, ids.length);
});

test("texts of the modules are messages if they are words for people", () => {
    const found = [...MODULES].flatMap(([name, module]) =>
        otherTextsIn(module).filter(one => isForPeople(one)).map(one => `${name}: ${one}`));
    assert.deepEqual(found, []);
});

/** Whether a text of a module looks like words for people. Names, units, classes and commands do not. */
function isForPeople(one) {
    const words = one.trim();
    return /[A-Za-z]{2,}[.,:;]? [A-Za-z(]/.test(words) || /^[A-Z][a-z]{2,}( ?…|\.)?$/.test(words);
}

test("texts of index.html are translated, but for units", () => {
    assert.deepEqual(untranslatedHtml, ["h", "s"]);
});

test("a translation that looks like a placeholder, or text from outside, changes nothing", () => {
    const format = (...given) => cockpit.format(...given);
    assert.equal(format(cockpit.gettext("$0 did not answer an order"), "$1 <b>"),
                 "$1 <b> hat auf einen Befehl nicht geantwortet");
    for (const word of ["__proto__", "constructor", "toString", "hasOwnProperty"])
        assert.equal(cockpit.gettext(word), word);
});

test("plurals", () => {
    assert.equal(head.language, "de");
    assert.deepEqual([0, 1, 2].map(count => head["plural-forms"](count)), [true, false, true]);
    const verdict = count => health.verdictOf(Array(count).fill({ level: "warn" }), { all: [], heard: [] })[1];
    assert.deepEqual([1, 2].map(verdict), ["Ein Punkt braucht Aufmerksamkeit", "2 Punkte brauchen Aufmerksamkeit"]);
    const heard = (count, minutes) => {
        const all = Array.from({ length: count }, (_, index) => [String(index), {}]);
        return health.heardSentence({ all, heard: all, silent: [], unheard: [] }, { areDevicesKnown: true }, minutes);
    };
    assert.deepEqual([heard(1, 60), heard(3, 60), heard(3, Infinity)], [
        "Das Gerät wurde innerhalb von 1 h empfangen.", "Alle 3 Geräte wurden innerhalb von 1 h empfangen.",
        "Alle 3 Geräte wurden empfangen.",
    ]);
});

test("a reading has German words and a decimal comma, and so have other words of the lines", () => {
    const model = new Model(0);
    model.take({ ...READING, readings: [{ den: 51, name: "TMP", num: 1024, unit: "C" }] }, 0);
    assert.equal(words.stateText(model.devices.get(READING.id)), "Temperatur 20,08 °C");
    const contact = { reading: { name: "CO", word: "closed" }, channel: null };
    assert.equal(words.readingText("D5-00-01", contact), "Kontakt geschlossen");
    const output = { reading: { name: "OV", num: 1, den: 3, unit: "%" }, channel: 1 };
    assert.equal(words.readingText("D2-01-12", output), "Kanal 1: Ausgang 0,33 %");
    assert.deepEqual([words.profileWithKind("D5-00-01"), words.kindText("F6"), words.reasonText("unknown_sender")],
                     ["D5-00-01 Kontakt", "Taster (RPS)", "nicht eingelernt"]);
    assert.deepEqual([words.ageText(0, 60000), words.modeText("closed"), words.modeText("as F6-02-01")],
                     ["vor 1 min", "geschlossen", "als F6-02-01"]);
});
