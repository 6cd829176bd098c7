import assert from "node:assert/strict";
import { test } from "node:test";

let chosen = null;
const system = { matches: false, addEventListener: (_, listener) => { system.change = listener; } };
const listeners = new Map();
let isDark = null;
globalThis.localStorage = { getItem: key => key === "shell:style" ? chosen : null };
globalThis.matchMedia = query => query === "(prefers-color-scheme: dark)" ? system : null;
globalThis.addEventListener = (name, listener) => listeners.set(name, listener);
const classList = { toggle: (name, isSet) => { isDark = name === "dark" && isSet; } };
globalThis.document = { documentElement: { classList } };
await import("../../contrib/cockpit/enogate/theme.js");

test("the colours are those that the user has chosen in Cockpit, or those of the system", () => {
    assert.equal(isDark, false);
    for (const [style, isSystemDark, wanted] of [
        ["dark", false, true], ["light", true, false], ["auto", true, true], ["auto", false, false], [null, true, true],
        [null, false, false], ["<b>", true, false],
    ]) {
        chosen = style;
        system.matches = isSystemDark;
        for (const change of [system.change, listeners.get("storage")]) {
            isDark = null;
            change({ key: "shell:style" });
            assert.equal(isDark, wanted, `${style} ${isSystemDark}`);
        }
    }
});
