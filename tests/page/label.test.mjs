import assert from "node:assert/strict";
import { test } from "node:test";

import { byId, focused } from "./page.mjs";
import { DEVICE, HOSTILE, LIST } from "./samples.mjs";

const { asciiSpelling, LabelField } = await import("../../contrib/cockpit/enogate/label.js");
const { Model } = await import("../../contrib/cockpit/enogate/model.js");
const { isLabel } = await import("../../contrib/cockpit/enogate/orders.js");

/** The field of a dialog for the device with this ID, at a gateway with these devices. */
function labelField(name, act, id = null, ...labels) {
    const model = new Model(0);
    labels.forEach(([key, label]) => model.take({ ...DEVICE, id: key, label }, 0));
    model.take({ ...LIST, count: labels.length }, 0);
    return new LabelField(name, { page: { model }, id }, act);
}

test("German letters, accents and other letters are spelled in ASCII", () => {
    for (const [text, wanted] of [
        ["Küche", "Kueche"], ["Tür Büro", "Tuer Buero"], ["Straße", "Strasse"],
        ["Überdachung Ölraum", "Ueberdachung Oelraum"],
        ["KÜCHE", "KUECHE"], ["Ä", "AE"], ["Entrée à côté", "Entree a cote"], ["Łódź", "odz"], ["Œuvre", "uvre"],
        ["Ku\u0308che", "Kueche"], ["Büro – Fenster", "Buero Fenster"], ["a\u00a0b\tc", "a b c"], ["🔥 Ofen", "Ofen"],
        ["日本", ""], ["Fenster ½", "Fenster"], [" é ", "e"], ["Äpfel", "Aepfel"],
    ])
        assert.equal(asciiSpelling(text), wanted, text);
});

test("a spelling is always a label, whatever the text", () => {
    for (const text of [...HOSTILE, "ü".repeat(40), `${"x".repeat(30)} ü`, `${"x".repeat(31)} ü`, "é".repeat(33)])
        assert.ok(isLabel(asciiSpelling(text)), JSON.stringify(text));
    assert.equal(asciiSpelling("ü".repeat(40)), "ue".repeat(16));
    assert.equal(asciiSpelling(`${"x".repeat(31)} ü`), "x".repeat(31));
});

test("only Enter is taken from a field, and does not close the dialog", () => {
    const done = [];
    labelField("edit", () => done.push("act"));
    for (const key of ["a", "Tab", "Escape", "Enter"])
        byId("edit-label").listeners.get("keydown")({ key, preventDefault: () => done.push("no submission") });
    assert.deepEqual(done, ["no submission", "act"]);
});

test("a spelling is offered while the label cannot be stored, and one click takes it", () => {
    const entered = [];
    const field = labelField("learn", () => entered.push(field.label()));
    const offer = byId("learn-spelling");
    const offered = text => {
        byId("learn-label").enterValue(text);
        return offer.hidden ? "" : offer.textContent;
    };
    field.reset("Kitchen");
    assert.equal(offer.hidden, true);
    assert.deepEqual(["Tu", "Tür", "日", "", " Tür "].map(offered),
                     ["", "Use “Tuer”", "", "", "Use “Tuer”"]);
    byId("learn-label").enter();
    assert.deepEqual([entered, byId("learn-label").why, focused() === offer], [[null], undefined, true]);
    offer.click();
    assert.deepEqual([byId("learn-label").value, offer.hidden, field.label()], ["Tuer", true, "Tuer"]);
    assert.equal(focused(), byId("learn-label"));
    byId("learn-label").enter();
    assert.deepEqual(entered, [null, "Tuer"]);
    offered("Tür");
    field.reset("");
    assert.equal(offer.hidden, true);
    offered("日本");
    byId("learn-label").enter();
    assert.deepEqual([entered.at(-1), byId("learn-label").why], [null, "Use 1 to 32 ASCII characters."]);
    offered("Japan");
    byId("learn-label").enter();
    assert.equal(entered.at(-1), "Japan");
});

test("a label that cannot be stored is an error at its field, also after a click", () => {
    const field = labelField("edit", () => {});
    const [input, error, offer] = ["label", "label-error", "spelling"].map(name => byId(`edit-${name}`));
    const shown = () => [error.hidden ? "" : error.textContent, input.attributes.get("aria-invalid")];
    const why = "The gateway cannot store this label: it has characters that are not ASCII, such as ä or ß.";
    field.reset("Kitchen");
    assert.deepEqual(shown(), ["", "false"]);
    for (const text of ["Küche", "日本"]) {
        input.enterValue(text);
        assert.deepEqual(shown(), [why, "true"], text);
    }
    // A browser that fills in the field by itself reports no input.
    field.reset("");
    input.value = "Küche";
    assert.deepEqual([field.label(), shown(), offer.textContent], [null, [why, "true"], "Use “Kueche”"]);
    assert.equal(focused(), offer);
    offer.click();
    assert.deepEqual([shown(), field.label()], [["", "false"], "Kueche"]);
});

test("a label that another device has is warned of while it is entered, and can be stored all the same", () => {
    const [own, other, third] = ["01800ABC", "01800AC1", "01800AC2"];
    const field = labelField("edit", () => {}, own, [own, "Front door"], [other, "Gate"], [third, ""]);
    const [input, error, offer] = ["label", "label-error", "spelling"].map(name => byId(`edit-${name}`));
    const shown = text => {
        input.enterValue(text);
        return error.hidden ? "" : [error.textContent, error.className, input.attributes.get("aria-invalid")].join("|");
    };
    const warning = `${other} has this label, too. Orders then need the ID in place of the label.|warn|false`;
    assert.deepEqual(["Front door", "Gat", "Gate", " Gate ", "Gate 2", "gate", ""].map(shown),
                     ["", "", warning, warning, "", "", ""]);
    shown("Gate");
    assert.equal(field.label(), "Gate");
    assert.match(shown("Gäte"), /\|error\|true$/);
    // Also a label that is offered, and the one that the device has.
    input.enterValue("Gaté");
    assert.equal(offer.textContent, "Use “Gate”");
    offer.click();
    assert.equal(`${error.textContent}|${error.className}|false`, warning);
    field.reset("Front door");
    assert.equal(error.hidden, true);
    field.reset("Gate");
    assert.equal(error.hidden, false);
});

test("a new device, whose ID may not be entered yet, is warned of the labels of all devices", () => {
    labelField("learn", () => {}, null, ["01800AC1", "Gate"], ["01800AC2", "<b>"], ["01800AC3", "constructor"]);
    for (const [text, wanted] of [["Gate", /^01800AC1 has/], ["<b>", /^01800AC2 has/], ["constructor", /^01800AC3 has/],
                                  ["toString", /^$/], ["__proto__", /^$/]]) {
        byId("learn-label").enterValue(text);
        const { hidden, textContent } = byId("learn-label-error");
        assert.match(hidden ? "" : textContent, wanted, text);
    }
});
