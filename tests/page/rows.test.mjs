import assert from "node:assert/strict";
import { test } from "node:test";

import { Rows } from "../../contrib/cockpit/enogate/dom.js";

// Whether the browser has a touch screen.
let isTouched = false;
globalThis.matchMedia = query => {
    assert.equal(query, "(pointer: coarse)");
    return { matches: isTouched };
};

/** A stand-in for the elements of a table: a body with rows. */
class Body {
    constructor() {
        Object.assign(this, { children: [], isPointedAt: false, hasFocus: false });
    }

    get firstChild() {
        return this.children[0] ?? null;
    }

    matches(selector) {
        assert.equal(selector, ":hover");
        return this.isPointedAt;
    }

    querySelector(selector) {
        assert.equal(selector, ":focus-visible");
        return this.hasFocus ? {} : null;
    }

    insertBefore(row, place) {
        this.remove(row);
        this.children.splice(place ? this.children.indexOf(place) : this.children.length, 0, row);
    }

    remove(row) {
        this.children = this.children.filter(child => child !== row);
    }
}

class Row {
    constructor(body, key) {
        Object.assign(this, { body, key, isGone: false });
        this.classList = { toggle: (name, isSet) => { this.isGone = isSet; } };
        this.element = this;
    }

    get nextSibling() {
        return this.body.children[this.body.children.indexOf(this) + 1] ?? null;
    }

    remove() {
        this.body.remove(this);
    }

    fill(item) {
        this.item = item;
    }
}

function table(...hasTargets) {
    const body = new Body();
    const rows = new Rows(body, key => new Row(body, key), ...hasTargets);
    const fill = (text, find = null) => rows.fill([...text].map(key => [key, `${key}${text.length}`]), find);
    return { body, rows, fill, seen: () => body.children.map(({ key }) => key).join("") };
}

test("rows have the order of the entries, and are used again", () => {
    const { body, fill, seen } = table();
    for (const text of ["abc", "cab", "xcb", "b", "", "abc"]) {
        const before = new Map(body.children.map(row => [row.key, row]));
        fill(text);
        assert.equal(seen(), text);
        for (const row of body.children)
            assert.ok(!before.has(row.key) || before.get(row.key) === row, `${text} ${row.key}`);
    }
});

test("while a row is in use, none moves, appears or disappears, and all are filled", () => {
    for (const state of ["isPointedAt", "hasFocus"]) {
        const { body, fill, seen } = table();
        fill("abc");
        body[state] = true;
        fill("xcb", key => key === "a" ? undefined : `${key}?`);
        assert.equal(seen(), "abc");
        assert.deepEqual(body.children.map(({ item }) => item), ["a3", "b3", "c3"]);
        assert.deepEqual(body.children.map(({ isGone }) => isGone), [true, false, false]);
        body[state] = false;
        fill("xcb");
        assert.equal(seen(), "xcb");
        assert.deepEqual(body.children.map(({ isGone }) => isGone), [false, false, false]);
    }
});

test("an item that is not among the entries is found", () => {
    const { body, fill } = table();
    fill("abc");
    body.isPointedAt = true;
    fill("x", key => `${key}!`);
    assert.deepEqual(body.children.map(({ item }) => item), ["a!", "b!", "c!"]);
});

test("an empty table is filled even if the pointer is on it, and all rows can be removed", () => {
    const { body, rows, fill, seen } = table();
    body.isPointedAt = true;
    fill("ab");
    assert.equal(seen(), "ab");
    rows.clear();
    assert.equal(seen(), "");
});

test("rows without anything to click, and rows below the last tap, are not in use", () => {
    for (const [hasTargets, touches, wanted] of [[false, false, "x"], [true, true, "x"], [true, false, "a"]]) {
        const { body, fill, seen } = table(hasTargets);
        isTouched = touches;
        fill("a");
        body.isPointedAt = true;
        fill("x");
        assert.equal(seen(), wanted);
    }
    isTouched = false;
});
